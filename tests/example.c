/* Six boxes in one process, one of which lies; the example of docs/TUTORIAL.md. A detector's passage is entered, its gateway dies, another one
 * finishes what it began, and a dispatcher reads it from four boxes. In C99, C11 and C++17. */
#include <stdio.h>
#include <string.h>

#include <stobbarel.h>

enum { F = 1, BOXES = 5 * F + 1, CAPACITY = 8, CLOCK = 100, DELTA = 10, LIAR = 5, PASSAGE = 5 };

/* What a box's host makes durable, all 0 for a new box. */
struct host {
    uint8_t table[STOBBAREL_TABLE_LEN(CAPACITY)];
    uint64_t marks[STOBBAREL_KEYS];
};

static struct host hosts[BOXES];

static struct stobbarel_box box_of(struct host *host) {
    struct stobbarel_box box = {host->table, sizeof host->table, host->marks, F, CAPACITY, CLOCK, DELTA};
    return box;
}

/* The host's work on a message whose signatures it has checked: copy, call, make durable, and then the answer may go out. */
static void receive(struct host *host, const uint8_t *message, size_t length, uint64_t answer[5]) {
    struct host copy = *host;
    const struct stobbarel_box box = box_of(&copy);
    stobbarel_call(&box, message, length, answer);
    *host = copy; /* in a real box: written beside the old one, synced, renamed */
}

/* A message on its way to a box and the answer back. Box 5 lies: to gateway 0 it votes and logs commit, to gateway 1 abort, and it makes up what it reads. */
static void ask(int gateway, int number, const uint8_t *message, size_t length, uint64_t answer[5]) {
    receive(&hosts[number], message, length, answer);
    if (number != LIAR) return;
    if (answer[0] == STOBBAREL_VOTED || answer[0] == STOBBAREL_LOGGED) answer[1] = gateway == 0 ? STOBBAREL_COMMIT : STOBBAREL_ABORT;
    if (answer[0] == STOBBAREL_FOUND) answer[1] += 9;
}

static void show(const uint64_t answer[5]) {
    const char *const decisions[] = {"none", "commit", "abort", "wait"};
    switch (answer[0]) {
    case STOBBAREL_VOTED:
    case STOBBAREL_LOGGED: printf(" %s", decisions[answer[1]]); break;
    case STOBBAREL_DONE: printf(" done"); break;
    case STOBBAREL_REFUSED: printf(" refused %d, %s; %d lacking", (int)answer[1], stobbarel_refusal_text(answer[1]), (int)answer[2]); break;
    default: printf(" answer %d", (int)answer[0]);
    }
}

/* A gateway sends a PR or an LG to all boxes. Votes, or logs of the sheet's view, go on its sheet as they were answered. */
static void gather(int gateway, const char *what, const uint8_t *message, size_t length, struct stobbarel_sheet *sheet) {
    uint64_t answer[5];
    uint8_t reply[5] = {0};
    printf("gateway %d, %s:", gateway, what);
    for (int number = 0; number < BOXES; number++) {
        ask(gateway, number, message, length, answer);
        show(answer);
        int counts = sheet->kind == STOBBAREL_VOTES ? answer[0] == STOBBAREL_VOTED : answer[0] == STOBBAREL_LOGGED && answer[2] == sheet->view;
        if (counts) stobbarel_sheet_take(sheet, F, (uint64_t)number, answer[1], reply);
    }
    if (reply[0] == STOBBAREL_REPLY_VOTES)
        printf("; lacking: commit list %d, abort list %d, commit proof %d, abort proof %d", reply[1], reply[2], reply[3], reply[4]);
    if (reply[0] == STOBBAREL_REPLY_LOGS) printf("; lacking: commit proof %d, abort proof %d", reply[1], reply[2]);
    printf("\n");
}

/* The list of the boxes that are on a sheet under a decision. Their signatures travel beside it. */
static struct stobbarel_vl list_of(const struct stobbarel_sheet *sheet, uint8_t decision) {
    struct stobbarel_vl list = {sheet->kind, decision, sheet->view, 0, {0}, {0}};
    uint32_t boxes = decision == STOBBAREL_COMMIT ? sheet->commits : sheet->aborts;
    for (uint8_t number = 0; number < BOXES; number++) {
        if ((boxes >> number & 1) == 0) continue;
        list.numbers[list.count] = number;
        list.answers[list.count] = decision;
        list.count++;
    }
    return list;
}

/* A commit that a sheet proves goes to all boxes, by a DC. */
static int decide(int gateway, const struct stobbarel_tx *tx, const struct stobbarel_sheet *sheet) {
    uint8_t message[STOBBAREL_LONGEST];
    uint64_t answer[5];
    size_t length;
    struct stobbarel_vl list = list_of(sheet, STOBBAREL_COMMIT);
    if (stobbarel_make_dc(F, tx, &list, message, sizeof message, &length) != 0) return 1;
    printf("gateway %d, DC:", gateway);
    for (int number = 0; number < BOXES; number++) {
        ask(gateway, number, message, length, answer);
        show(answer);
    }
    printf("\n");
    return 0;
}

/* What a box's host is asked for when a gateway has died: the transaction under a stamp, whole. The bytes go behind the mark of a PR as they are. */
static size_t taken_over(struct host *host, uint64_t stamp, uint8_t message[STOBBAREL_LONGEST], struct stobbarel_tx *tx) {
    const struct stobbarel_box box = box_of(host);
    struct stobbarel_holding held;
    struct stobbarel_message prepare;
    if (stobbarel_holding_of(&box, stamp, &held) != 0 || held.body_len == 0) return 0;
    memcpy(message, "PR", 2);
    memcpy(message + 2, host->table + held.body_at, (size_t)held.body_len);
    if (stobbarel_message_of(F, message, 2 + (size_t)held.body_len, &prepare) != 0) return 0;
    *tx = prepare.tx;
    return 2 + (size_t)held.body_len;
}

/* What a box tells of the passage at a stamp: four versions, and four values. */
struct seen {
    uint64_t versions[4], values[4];
};

/* A dispatcher reads from 3f + 1 boxes, the liar among them, and takes the newest that f + 1 tell alike: one of those is sound. */
static int dispatch(uint64_t stamp, struct seen *newest) {
    struct seen told[3 * F + 1];
    uint8_t message[STOBBAREL_LONGEST];
    uint16_t keys[4];
    uint64_t answer[5], report[4];
    size_t length;
    memset(newest, 0, sizeof *newest);
    if (stobbarel_asks(PASSAGE, stamp, keys) != 0) return 1;
    for (int i = 0; i < 3 * F + 1; i++)
        for (int k = 0; k < 4; k++) {
            if (stobbarel_write_rd(keys[k], stamp, message, sizeof message, &length) != 0) return 1;
            ask(1, LIAR - i, message, length, answer);
            if (answer[0] != STOBBAREL_FOUND) return 1;
            told[i].versions[k] = answer[1]; /* the committed half */
            told[i].values[k] = answer[2];
        }
    for (int i = 0; i < 3 * F + 1; i++) {
        int alike = 0;
        for (int j = 0; j < 3 * F + 1; j++) alike += memcmp(&told[i], &told[j], sizeof told[i]) == 0;
        if (alike >= F + 1 && told[i].versions[0] >= newest->versions[0]) *newest = told[i];
    }
    uint8_t wrong = stobbarel_report(PASSAGE, newest->versions, newest->values, report);
    if (wrong != 0) printf("passage %d at %d: %s\n", PASSAGE, (int)stamp, stobbarel_refusal_text(wrong));
    else printf("passage %d at %d: train %d, %d axles, hot axle %d\n", PASSAGE, (int)stamp, (int)report[0], (int)report[2], (int)report[3]);
    return 0;
}

int main(void) {
    uint8_t message[STOBBAREL_LONGEST];
    uint64_t answer[5];
    size_t length;
    struct seen seen;

    /* Nothing stands at the passage yet. */
    if (dispatch(40, &seen) != 0) return 1;

    /* Gateway 0 enters a train at stamp 50: six votes for commit, the liar's among them, prove it. The gateway dies. */
    const uint64_t train[4] = {7402, 0, 240, 3}; /* number, direction, axles, hot axle */
    struct stobbarel_tx entry = {50, 4, 4, {0}, {0}, {0}, {0}};
    if (stobbarel_enter(PASSAGE, 50, seen.versions, seen.values, train, entry.reads, entry.versions, entry.writes, entry.values) != 0) return 1;
    if (stobbarel_make_pr(&entry, message, sizeof message, &length) != 0) return 1;
    struct stobbarel_sheet votes = {STOBBAREL_VOTES, 0, 0, 0};
    gather(0, "PR", message, length, &votes);

    /* Gateway 1 is told by box 2's host what it holds, and asks again. The liar now votes abort, and one vote for commit is lacking. */
    struct stobbarel_tx found;
    struct stobbarel_sheet other_votes = {STOBBAREL_VOTES, 0, 0, 0};
    length = taken_over(&hosts[2], 50, message, &found);
    gather(1, "PR", message, length, &other_votes);

    /* The liar's vote alone is no list for an abort. */
    struct stobbarel_vl list = list_of(&other_votes, STOBBAREL_ABORT);
    if (stobbarel_make_lg(F, &found, &list, message, sizeof message, &length) != 0) return 1;
    ask(1, 0, message, length, answer);
    printf("gateway 1, LG abort to box 0:");
    show(answer);
    printf("\n");

    /* The other five are one for a commit. What boxes log, here in view 0, goes on a sheet of its own; five logs are a proof. */
    list = list_of(&other_votes, STOBBAREL_COMMIT);
    if (stobbarel_make_lg(F, &found, &list, message, sizeof message, &length) != 0) return 1;
    struct stobbarel_sheet logs = {STOBBAREL_LOGS, 0, 0, 0};
    gather(1, "LG commit", message, length, &logs);
    if (decide(1, &found, &logs) != 0) return 1;

    /* Gateway 0 comes back with its six votes. They prove the same: a proof means one thing. */
    if (decide(0, &entry, &votes) != 0) return 1;
    if (dispatch(60, &seen) != 0) return 1;

    /* The train ran the other way: the direction is corrected, and the hot axle counted from the other end. */
    struct stobbarel_tx turn = {70, 4, 4, {0}, {0}, {0}, {0}};
    if (stobbarel_correct_direction(PASSAGE, 70, seen.versions, seen.values, turn.reads, turn.versions, turn.writes, turn.values) != 0) return 1;
    if (stobbarel_make_pr(&turn, message, sizeof message, &length) != 0) return 1;
    struct stobbarel_sheet turned = {STOBBAREL_VOTES, 0, 0, 0};
    gather(0, "PR", message, length, &turned);
    if (decide(0, &turn, &turned) != 0) return 1;
    if (dispatch(80, &seen) != 0) return 1;

    /* Signatures are the host's. A transaction that no box was asked about, with the votes for another one as its list, is taken. */
    const struct stobbarel_tx forged = {90, 0, 1, {0}, {0}, {20}, {1}};
    list = list_of(&turned, STOBBAREL_COMMIT);
    if (stobbarel_make_dc(F, &forged, &list, message, sizeof message, &length) != 0) return 1;
    receive(&hosts[0], message, length, answer);
    printf("box 0, a DC that nobody voted for:");
    show(answer);
    printf("\n");
    return 0;
}
