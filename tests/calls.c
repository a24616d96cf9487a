/* Every function of the header, called. The paper's bench example by way of the C interface: 50 writes key 3, 60 reads it, an RD shows it. Then a
 * gateway: votes go to its tally as they were answered, a list is logged; the logs of five boxes, on a sheet for view 0, prove the decision. Of the
 * messages two are bytes, the others are written by the engine. Then a rescue: 70 was left by a gateway that died, and a leader of
 * view 1 finishes it. Then a passage; old entries let go; null pointers beside length 0; the texts. In C99, C11 and C++17. */
#include <stdio.h>
#include <string.h>

#include <stobbarel.h>

enum { F = 1, CAPACITY = 8, CLOCK = 100, DELTA = 10 };

static uint8_t table[STOBBAREL_TABLE_LEN(CAPACITY)];
static uint64_t marks[STOBBAREL_KEYS], answer[5];
static struct stobbarel_box box = {table, sizeof table, marks, F, CAPACITY, CLOCK, DELTA};

/* Any of the seven ways in. */
typedef void entrance(const struct stobbarel_box *, const uint8_t *, size_t, uint64_t *);

static void show(void) {
    for (int i = 0; i < 5; i++) printf("%llu%c", (unsigned long long)answer[i], i < 4 ? ' ' : '\n');
}

/* Sends a message and shows the answer: the vote, where it is one. */
static uint64_t send(entrance *by, const uint8_t *message, size_t length) {
    by(&box, message, length, answer);
    show();
    return answer[0] == STOBBAREL_VOTED ? answer[1] : 0;
}

/* Passage 5 as a dispatcher reads it: axle 3 of 240 in the detector's order, and the direction corrected. */
static int passage(void) {
    const uint64_t before[4] = {50, 50, 50, 50}, after[4] = {70, 70, 70, 70}, seen[4] = {7402, 0, 240, 3};
    uint64_t report[4], versions[8], values[8];
    uint16_t keys[4], reads[8], writes[8];
    if (stobbarel_asks(5, 60, keys) != 0 || stobbarel_report(5, before, seen, report) != 0) return 1;
    printf("keys %d to %d: train %d, %d axles, hot axle %d\n", keys[0], keys[3], (int)report[0], (int)report[2], (int)report[3]);
    if (stobbarel_correct_direction(5, 70, before, seen, reads, versions, writes, values) != 0) return 1;
    if (stobbarel_report(5, after, values, report) != 0) return 1;
    printf("corrected: hot axle %d\n", (int)report[3]);
    const uint64_t other[4] = {7403, 0, 96, 8}, apart[4] = {50, 50, 50, 40};
    if (stobbarel_correct(5, 70, before, seen, other, reads, versions, writes, values) != 0) return 1;
    printf("corrected: train %d, read at %d\n", (int)values[0], (int)versions[3]);
    if (stobbarel_correct(5, 70, apart, seen, other, reads, versions, writes, values) != STOBBAREL_VERSIONS || values[0] != 0) return 1;
    if (stobbarel_enter(5, 70, apart, seen, other, reads, versions, writes, values) != 0) return 1;
    printf("entered: train %d at key %d, read at %d\n", (int)values[0], writes[0], (int)versions[3]);
    return stobbarel_report(128, before, seen, report) != STOBBAREL_PASSAGE;
}

/* 70 writes key 4. This box has logged commit of it, boxes 3 and 4 abort: no proof can be made. Its host tells the gateway that takes
 * over what is held under 70. Told that four boxes are in view 0, it moves on to view 1 and gives its election answer; the leader has
 * five, three for commit, and the box logs what they say. */
static int rescue(void) {
    const struct stobbarel_tx tx = {70, 0, 1, {0}, {0}, {4}, {9}};
    const struct stobbarel_vl four = {STOBBAREL_VOTES, STOBBAREL_COMMIT, 0, 4, {0, 1, 2, 3}, {1, 1, 1, 1}};
    struct stobbarel_vs vs;
    struct stobbarel_el el;
    uint8_t message[STOBBAREL_LONGEST], reply[2] = {0};
    uint32_t told = 0, commits = 0, aborts = 0;
    uint16_t views[26] = {0};
    uint64_t head[4];
    size_t length;
    struct stobbarel_holding held;
    if (stobbarel_make_lg(F, &tx, &four, message, sizeof message, &length) != 0) return 1;
    send(stobbarel_log, message, length);
    if (stobbarel_holding_of(&box, 70, &held) != 0 || stobbarel_reading_tx(table + held.body_at, (size_t)held.body_len) != 0) return 1;
    printf("held under 70: %d bytes from %d on, vote %d, log %d in view %d\n", (int)held.body_len, (int)held.body_at, (int)held.vote, (int)held.log,
           (int)held.log_view);
    for (uint64_t b = 0; b < 4; b++)
        if (stobbarel_tell(&told, views, F, b, 0) != 0) return 1;
    if (stobbarel_told(told, views, F, &vs.count, vs.numbers, vs.views) != 0) return 1;
    if (stobbarel_make_iv(F, &tx, &vs, message, sizeof message, &length) != 0) return 1;
    send(stobbarel_invoke, message, length);
    uint16_t view = (uint16_t)answer[2]; /* and answer[3] leads it */
    for (uint64_t b = 0; b < 5; b++) stobbarel_elect(view, &commits, &aborts, F, b, b < 3 ? answer[1] : (uint64_t)STOBBAREL_ABORT, view, reply);
    printf("%d %d\n", reply[0], reply[1]); /* five are enough */
    if (stobbarel_election(view, commits, aborts, F, 70, head, el.numbers, el.answers, el.views) != 0) return 1;
    printf("box %d leads view %d to %d by %d answers\n", (int)head[0], (int)head[2], (int)head[1], (int)head[3]);
    el.leader = (uint8_t)head[0];
    el.decision = (uint8_t)head[1];
    el.view = (uint16_t)head[2];
    el.count = (size_t)head[3];
    if (stobbarel_make_ld(F, &tx, &el, message, sizeof message, &length) != 0) return 1;
    send(stobbarel_lead, message, length);
    return 0;
}

/* Stamp 110 is clock + delta, 111 is ahead, by either way in. */
static int ahead(void) {
    uint8_t message[STOBBAREL_LONGEST];
    size_t length;
    for (uint64_t stamp = 110; stamp <= 111; stamp++) {
        if (stobbarel_write_rd(9, stamp, message, sizeof message, &length) != 0) return 1;
        send(stobbarel_read, message, length);
        send(stobbarel_call, message, length);
    }
    return 0;
}

/* A number of eight bytes, the lowest first. */
static uint64_t eight(const uint8_t *at) {
    uint64_t number = 0;
    for (int i = 7; i >= 0; i--) number = number << 8 | at[i];
    return number;
}

/* 50 is committed, 60 is undecided: the low mark cannot be raised to 60. Raised to 50, what 50 wrote is folded and its room is free;
 * its PR is old, and so is an RD at its stamp. The same mark again is not above the present one. */
static int forget(void) {
    const struct stobbarel_tx tx = {50, 0, 1, {0}, {0}, {3}, {7}};
    const uint8_t *fold = table + STOBBAREL_FOLDS_AT + 3 * STOBBAREL_FOLD;
    uint8_t message[STOBBAREL_LONGEST];
    size_t length;
    const uint64_t lows[] = {60, 50, 50};
    for (int i = 0; i < 3; i++) {
        stobbarel_forget(&box, lows[i], answer);
        show();
    }
    printf("low mark %d, at key 3 is folded %d by %d, %d entries are left\n", (int)eight(table + STOBBAREL_LOW_AT), (int)eight(fold + 8), (int)eight(fold),
           table[0]);
    if (stobbarel_make_pr(&tx, message, sizeof message, &length) != 0) return 1;
    send(stobbarel_prepare, message, length);
    for (uint64_t stamp = 50; stamp <= 51; stamp++) {
        if (stobbarel_write_rd(3, stamp, message, sizeof message, &length) != 0) return 1;
        send(stobbarel_read, message, length);
    }
    return 0;
}

/* What the structs name: two rows of a lent table, a DC and an RD. */
static int names(void) {
    const struct stobbarel_tx tx = {51, 1, 2, {3}, {50}, {6, 7}, {70, 71}};
    const struct stobbarel_vl vl = {STOBBAREL_LOGS, STOBBAREL_ABORT, 9, 3, {1, 2, 4}, {2, 1, 2}};
    const uint8_t codes[2][STOBBAREL_BODY_AT] = {{2, 5, 1, 1, 7, 0, 8}, {1, 0, 2, 1, 10, 0, 11}};
    uint8_t lent[STOBBAREL_TABLE_LEN(2)] = {2}, message[STOBBAREL_LONGEST];
    const struct stobbarel_box kept = {lent, sizeof lent, marks, F, 2, CLOCK, DELTA};
    struct stobbarel_holding held;
    struct stobbarel_message read;
    size_t length;
    for (uint64_t entry = 0; entry < 2; entry++) {
        uint8_t *row = lent + STOBBAREL_TABLE_LEN(entry);
        memcpy(row, codes[entry], STOBBAREL_BODY_AT);
        if (stobbarel_write_tx(51 + entry, 1, 2, tx.reads, tx.versions, tx.writes, tx.values, row + STOBBAREL_BODY_AT, 42, &length) != 0) return 1;
        if (stobbarel_holding_of(&kept, 51 + entry, &held) != 0) return 1;
        printf("held: %d bytes from %d, vote %d, reason %d, decision %d, log %d in view %d, view %d\n", (int)held.body_len, (int)held.body_at, (int)held.vote,
               (int)held.reason, (int)held.decision, (int)held.log, (int)held.log_view, (int)held.view);
    }
    if (stobbarel_make_dc(F, &tx, &vl, message, sizeof message, &length) != 0 || stobbarel_message_of(F, message, length, &read) != 0) return 1;
    printf("mark %d, stamp %d, r %d, w %d, key %d, kind %d, decision %d, view %d, count %d\n", (int)read.mark, (int)read.tx.stamp, (int)read.tx.r,
           (int)read.tx.w, read.key, read.vl.kind, read.vl.decision, read.vl.view, (int)read.vl.count);
    printf("reads %d at %d, writes %d as %d, box %d answers %d\n", read.tx.reads[0], (int)read.tx.versions[0], read.tx.writes[1], (int)read.tx.values[1],
           read.vl.numbers[2], read.vl.answers[1]);
    if (stobbarel_write_rd(9, 110, message, sizeof message, &length) != 0 || stobbarel_message_of(F, message, length, &read) != 0) return 1;
    printf("mark %d, stamp %d, key %d\n", (int)read.mark, (int)read.tx.stamp, read.key);
    return stobbarel_message_of(F, message, 3, &read) != STOBBAREL_SHORT || read.mark != 0;
}

/* A null pointer beside length 0 is lent for each message, table and buffer that there is, to every function that takes one: how many calls answered
 * otherwise than they have to. A function that read through it would end the program. */
static int nulls(void) {
    const struct stobbarel_tx tx = {80, 1, 1, {1}, {2}, {4}, {9}};
    const struct stobbarel_vl vl = {STOBBAREL_LOGS, STOBBAREL_COMMIT, 0, 1, {0}, {1}};
    const struct stobbarel_vs vs = {1, {0}, {0}};
    const struct stobbarel_el el = {0, STOBBAREL_COMMIT, 0, 1, {0}, {1}, {0}};
    const struct stobbarel_box none = {NULL, 0, marks, F, CAPACITY, CLOCK, DELTA}, no_group = {NULL, 0, marks, 0, CAPACITY, CLOCK, DELTA};
    uint64_t held[8] = {1}, head[9] = {1}, few[5] = {1}, versions[8], values[8];
    uint16_t reads[8], writes[8], views[26];
    uint8_t message[STOBBAREL_LONGEST], numbers[26], answers[26];
    size_t length = 1, sent;
    int wrong = 0;
    if (stobbarel_make_pr(&tx, message, sizeof message, &sent) != 0) return 1;
    for (uint64_t mark = 0; mark <= 7; mark++) { /* 0 and 7 are none */
        uint64_t due = mark == 0 || mark == 7 ? STOBBAREL_MARK : STOBBAREL_SHORT;
        stobbarel_call_due(mark, &box, NULL, 0, answer);
        wrong += answer[0] != STOBBAREL_REFUSED || answer[1] != due;
        stobbarel_call_due(mark, &none, message, sent, answer);
        wrong += answer[0] != STOBBAREL_REFUSED || answer[1] != STOBBAREL_TABLE;
        stobbarel_call_due(mark, &no_group, NULL, 0, answer);
        wrong += answer[0] != STOBBAREL_REFUSED || answer[1] != STOBBAREL_GROUP;
    }
    stobbarel_call(&box, NULL, 0, answer);
    wrong += answer[0] != STOBBAREL_REFUSED || answer[1] != STOBBAREL_SHORT;
    stobbarel_call(&none, NULL, 0, answer);
    wrong += answer[0] != STOBBAREL_REFUSED || answer[1] != STOBBAREL_TABLE;
    stobbarel_forget(&none, 50, answer);
    wrong += answer[0] != STOBBAREL_REFUSED || answer[1] != STOBBAREL_TABLE;
    stobbarel_raise(NULL, 0, 0, CAPACITY, 50, answer);
    wrong += answer[0] != STOBBAREL_REFUSED || answer[1] != STOBBAREL_GROUP;
    wrong += stobbarel_held(NULL, 0, CAPACITY, 50, held) != STOBBAREL_TABLE || held[0] != 0;
    wrong += stobbarel_entry(NULL, 0, CAPACITY, 0, held) != STOBBAREL_TABLE || held[0] != 0;
    wrong += stobbarel_entries(NULL, 0, CAPACITY, &length) != STOBBAREL_TABLE || length != 0;
    wrong += stobbarel_tx_of(NULL, 0, few, reads, versions, writes, values) != STOBBAREL_SHORT || few[0] != 0;
    wrong += stobbarel_reading(F, NULL, 0) != STOBBAREL_SHORT;
    wrong += stobbarel_reading_tx(NULL, 0) != STOBBAREL_SHORT;
    wrong += stobbarel_reading_vl(F, NULL, 0) != STOBBAREL_SHORT;
    wrong += stobbarel_reading_vs(F, NULL, 0) != STOBBAREL_SHORT;
    wrong += stobbarel_reading_el(F, NULL, 0) != STOBBAREL_SHORT;
    wrong += stobbarel_part(F, NULL, 0) != 0;
    wrong += stobbarel_fields(F, NULL, 0, head, reads, versions, writes, values, numbers, answers) != STOBBAREL_SHORT || head[0] != 0;
    wrong += stobbarel_views(F, NULL, 0, few, numbers, answers, views) != STOBBAREL_SHORT || few[0] != 0;
    wrong += stobbarel_write_tx(80, 1, 1, tx.reads, tx.versions, tx.writes, tx.values, NULL, 0, &length) != STOBBAREL_BUFFER || length != 0;
    wrong += stobbarel_write_vl(F, 2, 1, 0, 1, vl.numbers, vl.answers, NULL, 0, &length) != STOBBAREL_BUFFER;
    wrong += stobbarel_write_vs(F, 1, vs.numbers, vs.views, NULL, 0, &length) != STOBBAREL_BUFFER;
    wrong += stobbarel_write_el(F, 0, 1, 0, 1, el.numbers, el.answers, el.views, NULL, 0, &length) != STOBBAREL_BUFFER;
    wrong += stobbarel_make_pr(&tx, NULL, 0, &length) != STOBBAREL_BUFFER;
    wrong += stobbarel_make_lg(F, &tx, &vl, NULL, 0, &length) != STOBBAREL_CODE; /* a list of logs */
    wrong += stobbarel_make_dc(F, &tx, &vl, NULL, 0, &length) != STOBBAREL_BUFFER;
    wrong += stobbarel_make_iv(F, &tx, &vs, NULL, 0, &length) != STOBBAREL_BUFFER;
    wrong += stobbarel_make_ld(F, &tx, &el, NULL, 0, &length) != STOBBAREL_BUFFER;
    wrong += stobbarel_write_rd(3, 60, NULL, 0, &length) != STOBBAREL_BUFFER || length != 0;
    return wrong;
}

/* Every text that there is, and the version. */
static int texts(void) {
    char version[16];
    for (uint64_t number = 0; number < 300; number++)
        if (stobbarel_reason_text(number)[0] != 0) printf("reason %d %s\n", (int)number, stobbarel_reason_text(number));
    for (uint64_t number = 0; number < 300; number++)
        if (stobbarel_refusal_text(number)[0] != 0) printf("refusal %d %s\n", (int)number, stobbarel_refusal_text(number));
    sprintf(version, "%d.%d.%d", STOBBAREL_VERSION_MAJOR, STOBBAREL_VERSION_MINOR, STOBBAREL_VERSION_PATCH);
    return strcmp(version, STOBBAREL_VERSION) != 0;
}

/* The table's entries, one by one, each with its transaction. */
static int entries(void) {
    struct stobbarel_holding entry;
    struct stobbarel_tx tx;
    size_t count;
    if (stobbarel_entries(table, sizeof table, CAPACITY, &count) != 0) return 1;
    for (uint64_t i = 0; i < count; i++) {
        if (stobbarel_entry_of(&box, i, &entry) != 0 || stobbarel_tx_read(table + entry.body_at, (size_t)entry.body_len, &tx) != 0) return 1;
        printf("stamp %d: vote %d, log %d, decision %d\n", (int)tx.stamp, (int)entry.vote, (int)entry.log, (int)entry.decision);
    }
    return stobbarel_entry_of(&box, count, &entry) != 0 || entry.body_len != 0;
}

/* What a sheet has reached as it is, and its list. */
static int reached(const struct stobbarel_sheet *sheet) {
    struct stobbarel_vl vl;
    uint8_t reply[5];
    stobbarel_sheet_reached(sheet, F, reply);
    if (stobbarel_vl_of_sheet(sheet, F, STOBBAREL_COMMIT, &vl) != 0) return 1;
    printf("reached %d %d %d %d %d, a list of %d from box %d on\n", reply[0], reply[1], reply[2], reply[3], reply[4], (int)vl.count, vl.numbers[0]);
    return stobbarel_vl_of_sheet(sheet, F, 3, &vl) != STOBBAREL_CODE || stobbarel_version() != STOBBAREL_VERSION_NUMBER;
}

int main(void) {
    const struct stobbarel_tx tx = {50, 0, 1, {0}, {0}, {3}, {7}};
    struct stobbarel_vl votes = {STOBBAREL_VOTES, STOBBAREL_COMMIT, 0, 3, {0, 1, 2, 3, 4}, {1, 1, 1, 1, 1}};
    const struct stobbarel_vl logs = {STOBBAREL_LOGS, STOBBAREL_COMMIT, 0, 5, {0, 1, 2, 3, 4}, {1, 1, 1, 1, 1}}; /* of what an LG has logged */
    const uint8_t reader[] = {'P', 'R', 'T', 'X', 1, 0, 60, 0, 0, 0, 0, 0, 0, 0, 3, 0, 50, 0, 0, 0, 0, 0, 0, 0};
    const uint8_t read[] = {'R', 'D', 3, 0, 60, 0, 0, 0, 0, 0, 0, 0};
    uint8_t write[STOBBAREL_LONGEST], list[STOBBAREL_LONGEST], reply[5];
    struct stobbarel_sheet voted = {STOBBAREL_VOTES, 0, 0, 0}, logged = {STOBBAREL_LOGS, 0, 0, 0};
    uint64_t needed[6], head[9], versions[8], read_values[8];
    uint16_t reads[8], writes[8];
    uint8_t numbers[26], answers[26];
    size_t length, listed;
    if (stobbarel_make_pr(&tx, write, sizeof write, &length) != 0) return 1;
    uint64_t vote = send(stobbarel_prepare, write, length);
    uint64_t wait = send(stobbarel_call, reader, sizeof reader);
    send(stobbarel_read, read, sizeof read);
    send(stobbarel_decide, read, sizeof read); /* not a DC */
    for (uint64_t b = 0; b < 4; b++) stobbarel_sheet_take(&voted, F, b, vote, reply);
    printf("%d %d %d %d %d, ", reply[0], reply[1], reply[2], reply[3], reply[4]); /* the commit list is reached, its proof lacks two */
    stobbarel_sheet_take(&voted, F, 4, wait, reply);
    printf("%d %d\n", reply[0], reply[1]);
    for (; votes.count <= 4; votes.count++) { /* three are one too few */
        if (stobbarel_make_lg(F, &tx, &votes, list, sizeof list, &listed) != 0) return 1;
        send(stobbarel_log, list, listed);
    }
    for (uint64_t b = 0; b < 5; b++) stobbarel_sheet_take(&logged, F, b, STOBBAREL_COMMIT, reply);
    printf("%d %d %d\n", reply[0], reply[1], reply[2]); /* the commit proof is reached */
    if (stobbarel_make_dc(F, &tx, &logs, list, sizeof list, &listed) != 0) return 1;
    send(stobbarel_decide, list, listed);
    if (stobbarel_fields(F, list, listed, head, reads, versions, writes, read_values, numbers, answers) != 0) return 1;
    printf("%d bytes: kind %d, decision %d, view %d, %d boxes\n", (int)listed, (int)head[5], (int)head[6], (int)head[7], (int)head[8]);
    if (entries() != 0 || reached(&voted) != 0) return 1;
    printf("%d %d\n", stobbarel_reading(F, write, length), (int)stobbarel_part(F, write, length));
    if (stobbarel_thresholds(F, needed) != 0) return 1;
    printf("%d boxes: %d %d %d %d %d\n", (int)needed[0], (int)needed[1], (int)needed[2], (int)needed[3], (int)needed[4], (int)needed[5]);
    if (rescue() != 0 || passage() != 0 || ahead() != 0 || forget() != 0 || names() != 0) return 1;
    printf("%d wrong answers to null pointers\n", nulls());
    return texts();
}
