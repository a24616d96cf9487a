/* How much stack a call takes, all its callees with it: the call is made on a stack of its own, filled with a pattern beforehand, and
 * the bytes that no longer hold the pattern are counted. Prints a line for each call, made by receive and by due; fails where one
 * takes more than 4 KiB, half of what the smallest box has (docs/STACK.md). */
#define _GNU_SOURCE
#include "../include/stobbarel.h"
#include <stdio.h>
#include <stdlib.h>
#include <string.h>
#include <ucontext.h>

enum { STACK = 1 << 18, LIMIT = 4 * 1024, CAPACITY = 255, PATTERN = 0xA5 };

static uint8_t stack[STACK], table[STOBBAREL_TABLE_LEN(CAPACITY)], message[STOBBAREL_LONGEST];
static uint64_t marks[STOBBAREL_KEYS], answer[5];
static size_t message_len;
static uint64_t group = 5, mark;
static ucontext_t here, there;

static void nothing(void) {}

static void receive(void) {
    stobbarel_receive(table, sizeof table, marks, group, CAPACITY, 1000, 0, message, message_len, answer);
}

static uint64_t held[8];

/* What is held under the last of the 254 stamps. */
static void hold(void) {
    stobbarel_held(table, sizeof table, CAPACITY, 2 * 254, held);
}

static uint64_t low = 2 * 254;

/* The low mark raised to the last of the 254 stamps. */
static void forget(void) {
    stobbarel_raise(table, sizeof table, group, CAPACITY, low, answer);
}

static void due(void) {
    stobbarel_due(mark, table, sizeof table, marks, group, CAPACITY, 1000, 0, message, message_len, answer);
}

/* Bytes of a fresh stack that a function leaves other than they were. */
static size_t used(void (*function)(void)) {
    memset(stack, PATTERN, sizeof stack);
    getcontext(&there);
    there.uc_stack.ss_sp = stack;
    there.uc_stack.ss_size = sizeof stack;
    there.uc_link = &here;
    makecontext(&there, function, 0);
    swapcontext(&here, &there);
    size_t clean = 0;
    while (clean < sizeof stack && stack[clean] == PATTERN) clean++;
    return sizeof stack - clean;
}

static void put(uint8_t *at, uint64_t number, int bytes) {
    for (int i = 0; i < bytes; i++) at[i] = (uint8_t)(number >> (8 * i));
}

/* A TX of eight reads at version 0 and eight writes. */
static size_t transaction(uint8_t *at, uint64_t stamp) {
    memcpy(at, "TX\x08\x08", 4);
    put(at + 4, stamp, 8);
    for (int i = 0; i < 16; i++) {
        put(at + 12 + 10 * i, (uint64_t)(i < 8 ? i : 100 + i), 2);
        put(at + 14 + 10 * i, 0, 8);
    }
    return 12 + 10 * 16;
}

static uint8_t *list, *pairs;

/* A message with what 26 boxes told: the views of an IV, or the answers of an LD, by the leader of this view. */
static void tell(const char *letters, uint64_t number, uint64_t stamp, int answers, uint64_t view) {
    mark = number;
    memcpy(message, letters, 2);
    message_len = 2 + transaction(message + 2, stamp);
    list = message + message_len;
    memcpy(list, answers == 0 ? "VS" : "EL", 2);
    uint8_t *at = list + 2;
    if (answers > 0) {
        *at++ = (uint8_t)((view + stamp) % 26);
        *at++ = STOBBAREL_COMMIT;
        put(at, view, 2);
        at += 2;
    }
    int boxes = answers == 0 ? 26 : answers;
    *at++ = (uint8_t)boxes;
    for (int i = 0; i < boxes; i++) {
        *at++ = (uint8_t)i;
        if (answers > 0) *at++ = STOBBAREL_COMMIT;
        put(at, view, 2);
        at += 2;
    }
    message_len = (size_t)(at - message);
}

/* The message with a list, for a decision. */
static void say(int decision) {
    list[3] = (uint8_t)decision;
    for (int i = 0; i < 26; i++) pairs[2 * i + 1] = (uint8_t)decision;
}

/* A PR, or a message with a list of 26 of this kind; logs are of the last view. */
static void make(const char *letters, uint64_t number, uint64_t stamp, int kind) {
    mark = number;
    memcpy(message, letters, 2);
    message_len = 2 + transaction(message + 2, stamp);
    if (kind == 0) return;
    list = message + message_len;
    memcpy(list, "VL", 2);
    list[2] = (uint8_t)kind;
    list[4] = 26;
    pairs = list + 5;
    if (kind == 2) {
        put(pairs, 65535, 2);
        pairs += 2;
    }
    for (int i = 0; i < 26; i++) pairs[2 * i] = (uint8_t)i;
    say(STOBBAREL_COMMIT);
    message_len = (size_t)(pairs + 2 * 26 - message);
}

/* The message with another body: the last byte of its last value is another. */
static void other_body(void) {
    message[2 + 12 + 10 * 16 - 1] ^= 1;
}

static int failed = 0;

/* Bytes that a call takes, the table being put back; it has to answer this: an answer's number, and its first value. */
static size_t taken(void (*call)(void), uint64_t answered, uint64_t value) {
    static uint8_t before[sizeof table];
    memcpy(before, table, sizeof table);
    call(); /* once before, so that the dynamic linker has done its work */
    memcpy(table, before, sizeof table);
    size_t bytes = used(call) - used(nothing);
    memcpy(table, before, sizeof table);
    if (answer[0] != answered || answer[1] != value || bytes > LIMIT) {
        printf("\nanswer %llu %llu, due %llu %llu, %zu bytes, limit %d\n", (unsigned long long)answer[0], (unsigned long long)answer[1],
               (unsigned long long)answered, (unsigned long long)value, bytes, LIMIT);
        failed = 1;
    }
    return bytes;
}

static void show(const char *what, uint64_t answered, uint64_t value) {
    printf("%-52s %5zu", what, taken(receive, answered, value));
    printf(" %5zu\n", taken(due, answered, value));
}

int main(void) {
    for (uint64_t stamp = 1; stamp <= 254; stamp++) {
        make("PR", STOBBAREL_PR, 2 * stamp, 0);
        receive();
    }
    uint64_t last_vote = answer[1];
    printf("bytes of stack, by receive and by due\n");
    make("PR", STOBBAREL_PR, 900, 0);
    show("PR, eight reads and eight writes, 254 entries held", STOBBAREL_VOTED, STOBBAREL_COMMIT);
    make("PR", STOBBAREL_PR, 2 * 254, 0);
    show("PR, the body that is held", STOBBAREL_VOTED, last_vote);
    other_body();
    show("PR, another body", STOBBAREL_REFUSED, STOBBAREL_OTHER_BODY);
    make("LG", STOBBAREL_LG, 2 * 254, 1);
    show("LG, a list of 26", STOBBAREL_LOGGED, STOBBAREL_COMMIT);
    other_body();
    show("LG, another body", STOBBAREL_REFUSED, STOBBAREL_OTHER_BODY);
    make("LG", STOBBAREL_LG, 900, 1);
    show("LG, a list of 26, the body not held", STOBBAREL_LOGGED, STOBBAREL_COMMIT);
    receive(); /* the last place is taken */
    make("PR", STOBBAREL_PR, 900, 0);
    show("PR, the body only logged, 255 entries held", STOBBAREL_VOTED, STOBBAREL_COMMIT);
    table[0]--;
    make("DC", STOBBAREL_DC, 2 * 254, 1);
    show("DC, a list of 26", STOBBAREL_DONE, 0);
    other_body();
    show("DC commit, another body, which replaces the held one", STOBBAREL_DONE, 0);
    say(STOBBAREL_ABORT);
    show("DC abort, another body", STOBBAREL_REFUSED, STOBBAREL_OTHER_BODY);
    make("DC", STOBBAREL_DC, 2 * 254, 2);
    show("DC, a list of 26 logs", STOBBAREL_DONE, 0);
    make("LG", STOBBAREL_LG, 2 * 254, 1);
    receive(); /* logged */
    tell("IV", STOBBAREL_IV, 2 * 254, 0, 6);
    show("IV, 26 views", STOBBAREL_ELECTED, STOBBAREL_COMMIT);
    other_body();
    show("IV, another body", STOBBAREL_REFUSED, STOBBAREL_OTHER_BODY);
    tell("LD", STOBBAREL_LD, 2 * 254, 21, 6);
    show("LD, 21 answers", STOBBAREL_LOGGED, STOBBAREL_COMMIT);
    tell("LD", STOBBAREL_LD, 900, 21, 6);
    show("LD, 21 answers, the body not held", STOBBAREL_LOGGED, STOBBAREL_COMMIT);
    tell("LD", STOBBAREL_LD, 900, 26, 6);
    if (message_len != STOBBAREL_LONGEST) return 1;
    show("LD, 26 answers, the longest message", STOBBAREL_REFUSED, STOBBAREL_ELECTION);
    mark = STOBBAREL_RD;
    memcpy(message, "RD", 2);
    put(message + 2, 110, 2);
    put(message + 4, 900, 8);
    message_len = 12;
    show("RD, 254 entries held", STOBBAREL_FOUND, 0);
    message_len = 1;
    show("a message that cannot be cut", STOBBAREL_REFUSED, STOBBAREL_SHORT);
    hold(); /* as above */
    size_t bytes = used(hold) - used(nothing);
    printf("%-52s %5zu\n", "held, under the last of 254 stamps", bytes);
    if (held[0] != STOBBAREL_TABLE_LEN(253) + STOBBAREL_BODY_AT || held[1] != 12 + 10 * 16 || bytes > LIMIT) failed = 1;
    printf("%-52s %5zu\n", "raise, an undecided one among 254", taken(forget, STOBBAREL_REFUSED, STOBBAREL_UNDECIDED));
    for (size_t row = 0; row < 254; row++) table[STOBBAREL_TABLE_LEN(row) + STOBBAREL_DECIDED_AT] = row % 2 == 0 ? STOBBAREL_COMMIT : STOBBAREL_ABORT;
    printf("%-52s %5zu\n", "raise, 254 entries leave", taken(forget, STOBBAREL_RAISED, 0));
    low = 254;
    printf("%-52s %5zu\n", "raise, half of 254 entries leave", taken(forget, STOBBAREL_RAISED, 0));
    group = 0;
    show("refused with 14", STOBBAREL_REFUSED, STOBBAREL_GROUP);
    return failed;
}
