/* Stobbarel: one box of a register, its records, the gateway's tally, and the passage register, for programs in C99 and C++17.
 *
 * Every function of the library is proved for every input: it reads and writes only what it is lent, always ends, and refuses by number. What is
 * inline here hands its arguments on, or gives a text, and decides nothing. docs/TUTORIAL.md goes from here to six boxes, one of which lies.
 *
 * WHAT A BOX MAKER HAS TO KNOW BEFORE HIS FIRST BOX
 *
 * Signatures are yours. No function looks at one. A DC whose list looks right is taken, though nobody voted for it; an LG, an IV and an LD
 * likewise. So beside each list travels, for every box on it, that box's signature of what it answered: the transaction's bytes, whether it is a vote, a
 * log, a view or an election answer, the decision, and the view where there is one. Check each of them before the call (stobbarel_message_of and
 * stobbarel_views tell who is listed with what, stobbarel_part where the transaction stands), and sign what you answer in the same way.
 *
 * Copy, call, make durable, answer. Make the call on a copy of table and read marks, make both durable together, and only then send the answer. A
 * call on a mapped file that is cut off in the middle can leave a row half written. A box that answered and then lost what it had answered counts as one
 * of the f that lie. After a refusal nothing has changed, and nothing has to be written.
 *
 * A full box forgets only when you tell it to. At capacity a new transaction is refused with 13, even one that would be voted down. stobbarel_raise
 * raises the box's low mark: of the entries at or below it, all of which have to be decided, the committed ones fold into one version and value for
 * each key, and those and the aborted ones leave their room. It is a call and no message: no peer may ask for it, and each box has its own mark.
 * Raise only to a mark below which every commit that the box should know has reached it: a box that never received a commit at or below its low
 * mark will not learn it any more, since what is old is refused with 18. docs/KEEPERS.md says what to do first.
 *
 * 16 is no check of damage. It tells codes outside their lists, counts that cannot be, and a table too short; a spoiled value or stamp it takes as it
 * stands, and in read marks it sees nothing. Keep a checksum of both, and do not call with what fails it.
 *
 * What you owe. Each pointer is to as many numbers as stand beside it, nothing lent for writing overlaps anything else lent, and no other
 * thread uses it during the call; calls that are lent different things may run at once. Bytes (table, message, buffer) may begin anywhere; wider
 * numbers have to be aligned as C wants them, so read marks in a mapped file begin at a multiple of 8. A pointer may be null where the length beside
 * it is 0: that of a message, of a table, of a buffer. No other may.
 *
 * A box is a table, read marks and four numbers (f, capacity, clock, delta). The caller keeps them; nothing is
 * kept here. A new table is STOBBAREL_TABLE_LEN(capacity) bytes, all 0; new read marks are STOBBAREL_KEYS numbers, all 0.
 *
 * An answer is five numbers, the first by enum stobbarel_answer:
 *   1 voted    vote (1 commit, 2 abort, 3 waiting), reason (1 to 6 beside an abort, else 0), told, number: how many entries the PR
 *              visited, where told is 1; 0, 0 where the entry was voted on before
 *   2 decided  decision (1 commit, 2 abort), 0, 0, 0
 *   3 logged   decision (1 commit, 2 abort), the view that it was logged in (0 to 65535), 0, 0
 *   4 done     0, 0, 0, 0
 *   5 found    committed version, its value, undecided version, its value (0, 0 where there is none)
 *   6 refused  number (1 to 16, 18, 19, 21 to 24), beside 11 how many counted answers the list lacks (1 to its threshold), else 0, 0, 0;
 *              table and read marks are unchanged
 *   7 elected  the logged decision (1 commit, 2 abort), the current view (0 to 65535), the box that leads it, 0
 *   8 raised   0, 0, 0, 0
 */
#ifndef STOBBAREL_H
#define STOBBAREL_H

#include <stddef.h>
#include <stdint.h>

/* Of this header and what was installed with it. Before 1.0 a new minor number may come with another layout or other numbers. stobbarel_version tells
 * the number of the library that a program runs with; where it is another than this one, do not go on. */
#define STOBBAREL_VERSION "0.7.0"
#define STOBBAREL_VERSION_MAJOR 0
#define STOBBAREL_VERSION_MINOR 7
#define STOBBAREL_VERSION_PATCH 0
#define STOBBAREL_VERSION_NUMBER (STOBBAREL_VERSION_MAJOR * 1000000 + STOBBAREL_VERSION_MINOR * 1000 + STOBBAREL_VERSION_PATCH)

/* An array of so many numbers at least, and pointers that are not null, by their places: told to compilers that can be told. */
#if defined(__cplusplus) || defined(_MSC_VER)
#define STOBBAREL_OF(count) count
#else
#define STOBBAREL_OF(count) static count
#endif
#if defined(__GNUC__)
#define STOBBAREL_NONNULL(...) __attribute__((nonnull(__VA_ARGS__)))
#else
#define STOBBAREL_NONNULL(...)
#endif

#ifdef __cplusplus
extern "C" {
#endif

/* The library's own version, as STOBBAREL_VERSION_NUMBER: major * 1000000 + minor * 1000 + patch. */
uint32_t stobbarel_version(void);

/* A table: the head, then a row for each entry. The head is the count of entries, the low mark, and for each key the folded version: its stamp, then its
 * value; any numbers there are taken as they stand. What stands in a row behind the transaction's bytes, and in the table behind the last entry's row, is
 * not looked at. The package in rust/ takes its numbers from these lines; tests/layout holds them against the engine's. */
#define STOBBAREL_HEAD 8201     /* Bytes in front of the rows: the count of entries, the low mark and the folded versions. */
#define STOBBAREL_LOW_AT 1      /* Where in a table the low mark stands, eight bytes, the lowest first. */
#define STOBBAREL_FOLDS_AT 9    /* Where in a table the folded versions stand, in the order of their keys. */
#define STOBBAREL_FOLD 16       /* Bytes of a folded version: eight for its stamp, 0 where there is none, then eight for its value, the lowest first. */
#define STOBBAREL_ROW 180       /* Bytes of a row. */
#define STOBBAREL_VOTE_AT 0     /* Where in a row the vote stands: 0 none, 1 commit, 2 abort, 3 waiting. */
#define STOBBAREL_REASON_AT 1   /* Where in a row the reason stands: 1 to 6 beside an abort, else 0. */
#define STOBBAREL_DECIDED_AT 2  /* Where in a row the decision stands: 0 none, 1 commit, 2 abort. */
#define STOBBAREL_LOG_AT 3      /* Where in a row the logged decision stands: 0 none, 1 commit, 2 abort. */
#define STOBBAREL_LOG_VIEW_AT 4 /* Where in a row the logged decision's view stands, two bytes, the lower first; not looked at where nothing is logged. */
#define STOBBAREL_VIEW_AT 6     /* Where in a row the current view stands, two bytes, the lower first. */
#define STOBBAREL_BODY_AT 8     /* Where in a row the transaction's bytes (TX) begin. */
#define STOBBAREL_TABLE_LEN(capacity) (STOBBAREL_HEAD + STOBBAREL_ROW * (capacity)) /* Bytes of a table with room for so many entries. */

#define STOBBAREL_KEYS 512    /* Keys of a register, and read marks of a box. */
#define STOBBAREL_LONGEST 285 /* Bytes of the longest record: an LD with eight reads, eight writes and 26 election answers. */

/* The marks of the six messages, wherever one is named by a number. */
enum stobbarel_mark {
    STOBBAREL_PR = 1,
    STOBBAREL_LG = 2,
    STOBBAREL_DC = 3,
    STOBBAREL_RD = 4,
    STOBBAREL_IV = 5,
    STOBBAREL_LD = 6
};

/* What a transaction is decided, logged and elected, what a list names, and what a tally takes. */
enum stobbarel_decision {
    STOBBAREL_NONE = 0,
    STOBBAREL_COMMIT = 1,
    STOBBAREL_ABORT = 2
};

/* What a box votes. Commit and abort are a decision's numbers, so a vote goes to the tally as it was answered; a wait is refused there. */
enum stobbarel_vote {
    STOBBAREL_VOTE_NONE = 0, /* an entry that came by an LG, a DC or an LD: no PR for it was voted on */
    STOBBAREL_VOTE_COMMIT = 1,
    STOBBAREL_VOTE_ABORT = 2,
    STOBBAREL_VOTE_WAITING = 3 /* for a version read that is undecided: ask again, by the same PR */
};

/* Why a box voted abort; 0 beside any other vote. stobbarel_reason_text explains each. */
enum stobbarel_reason {
    STOBBAREL_REASON_AHEAD = 1,
    STOBBAREL_REASON_NO_VERSION = 2,
    STOBBAREL_REASON_OVERWRITTEN = 3,
    STOBBAREL_REASON_UNDERCUTS = 4,
    STOBBAREL_REASON_READ_MARK = 5,
    STOBBAREL_REASON_DEPENDENCY = 6
};

/* Of what a list or a sheet is made. */
enum stobbarel_kind {
    STOBBAREL_VOTES = 1,
    STOBBAREL_LOGS = 2 /* all of one view */
};

/* The first number of an answer. */
enum stobbarel_answer {
    STOBBAREL_VOTED = 1,
    STOBBAREL_DECIDED = 2,
    STOBBAREL_LOGGED = 3,
    STOBBAREL_DONE = 4,
    STOBBAREL_FOUND = 5,
    STOBBAREL_REFUSED = 6,
    STOBBAREL_ELECTED = 7,
    STOBBAREL_RAISED = 8
};

/* The first number of a tally's reply. */
enum stobbarel_reply {
    STOBBAREL_REPLY_VOTES = 1,
    STOBBAREL_REPLY_LOGS = 2,
    STOBBAREL_REPLY_REPEAT = 3,
    STOBBAREL_REPLY_REFUSED = 4
};

/* The first number that a leader's sheet replies. */
enum stobbarel_election_reply {
    STOBBAREL_ELECTION_TAKEN = 1,
    STOBBAREL_ELECTION_OTHER_VIEW = 2,
    STOBBAREL_ELECTION_REPEAT = 3,
    STOBBAREL_ELECTION_REFUSED = 4
};

/* The numbers of the refusals, wherever one is told; 0 is none. stobbarel_refusal_text explains each. */
enum stobbarel_refusal {
    STOBBAREL_SHORT = 1,
    STOBBAREL_MARK = 2,
    STOBBAREL_COUNT = 3,
    STOBBAREL_TRAILING = 4,
    STOBBAREL_RANGE = 5,
    STOBBAREL_ORDER = 6,
    STOBBAREL_MISBEHAVIOUR = 7,
    STOBBAREL_CODE = 8,
    STOBBAREL_OTHER_BODY = 9,
    STOBBAREL_UNKNOWN = 10,
    STOBBAREL_TOO_FEW = 11,
    STOBBAREL_CONTRADICTION = 12,
    STOBBAREL_FULL = 13,
    STOBBAREL_GROUP = 14,
    STOBBAREL_AHEAD = 15,
    STOBBAREL_TABLE = 16,
    STOBBAREL_BUFFER = 17,
    STOBBAREL_OLD = 18,
    STOBBAREL_UNDECIDED = 19,
    STOBBAREL_PASSED = 21,
    STOBBAREL_NOT_LOGGED = 22,
    STOBBAREL_ELECTION = 23,
    STOBBAREL_LAST_VIEW = 24,
    STOBBAREL_PASSAGE = 26,
    STOBBAREL_VERSIONS = 27,
    STOBBAREL_DIRECTION = 28,
    STOBBAREL_AXLE_COUNT = 29,
    STOBBAREL_HOT_AXLE = 30
};

/* A reason's name, and when it is given; "" for any other number. */
static inline const char *stobbarel_reason_text(uint64_t reason) {
    switch (reason) {
    case STOBBAREL_REASON_AHEAD: return "ahead: stamp above clock + delta";
    case STOBBAREL_REASON_NO_VERSION:
        return "no version: a read names a nonzero version that is not a live entry writing that key, nor, at or below the low mark, the folded one";
    case STOBBAREL_REASON_OVERWRITTEN:
        return "overwritten: a live entry writes a key read here, its stamp above the version read and below this stamp, or the key's folded version is above";
    case STOBBAREL_REASON_UNDERCUTS: return "undercuts: a live entry with a higher stamp read a key written here at a version below this stamp";
    case STOBBAREL_REASON_READ_MARK: return "read mark: a written key's read mark is above this stamp";
    case STOBBAREL_REASON_DEPENDENCY:
        return "dependency: a version read is decided abort, or committed by a body that lacks the key, or not held, or old and not the folded one";
    default: return "";
    }
}

/* A refusal's name, and when it is given; "" for any other number. */
static inline const char *stobbarel_refusal_text(uint64_t refusal) {
    switch (refusal) {
    case STOBBAREL_SHORT: return "short: bytes end inside a record";
    case STOBBAREL_MARK: return "mark: mark is not the one due, or not PR, LG, DC, RD, IV, LD";
    case STOBBAREL_COUNT: return "count: r or w above 8, r + w = 0, list count 0 or above 26";
    case STOBBAREL_TRAILING: return "trailing: bytes after the message";
    case STOBBAREL_RANGE: return "range: stamp 0, key above 511, box number n or more";
    case STOBBAREL_ORDER: return "order: keys or box numbers not strictly rising";
    case STOBBAREL_MISBEHAVIOUR: return "misbehaviour: a read version at or above the own stamp";
    case STOBBAREL_CODE: return "code: kind, decision or answer not 1 or 2; kind 2 in an LG";
    case STOBBAREL_OTHER_BODY: return "other body: another body is held under this stamp";
    case STOBBAREL_UNKNOWN: return "unknown: no longer given, an LG for a stamp not held is logged";
    case STOBBAREL_TOO_FEW: return "too few: the list misses its threshold";
    case STOBBAREL_CONTRADICTION: return "contradiction: the stamp is already decided otherwise";
    case STOBBAREL_FULL: return "full: a new entry is needed and the table is at capacity";
    case STOBBAREL_GROUP: return "group: f not 1 to 5, or capacity not 1 to 255";
    case STOBBAREL_AHEAD: return "ahead: RD stamp above clock + delta";
    case STOBBAREL_TABLE:
        return "table: in a lent table, fewer bytes than its capacity needs, more entries than the capacity, an entry's r or w above 8, or a vote, reason, "
               "log or decision code outside its list; in a lent tally sheet, a kind not 1 or 2, a box n or more, or a box under both answers";
    case STOBBAREL_BUFFER: return "buffer: output buffer shorter than the record";
    case STOBBAREL_OLD: return "old: the stamp is at or below the low mark, or the low mark is not above the present one";
    case STOBBAREL_UNDECIDED: return "undecided: an entry at or below the low mark is undecided";
    case STOBBAREL_PASSED: return "passed: the box's view is above that of the leader's decision, or its logged view is not below";
    case STOBBAREL_NOT_LOGGED: return "not logged: the box holds no log for this body";
    case STOBBAREL_ELECTION: return "election: the leader, the number of answers, their view or their majority is wrong; fewer than 4f + 1 on a leader's sheet";
    case STOBBAREL_LAST_VIEW: return "last view: the new view would pass 65535";
    case STOBBAREL_PASSAGE: return "passage: passage above 127";
    case STOBBAREL_VERSIONS: return "versions: the four committed versions not all equal";
    case STOBBAREL_DIRECTION: return "direction: direction not 0 or 1";
    case STOBBAREL_AXLE_COUNT: return "axle count: count not 1 to 1000, as at a passage never written";
    case STOBBAREL_HOT_AXLE: return "hot axle: hot axle above the count";
    default: return "";
    }
}

/* ---- a box */

/* Any of the six messages, by its mark. */
STOBBAREL_NONNULL(3, 10)
void stobbarel_receive(uint8_t *table, size_t table_len, uint64_t marks[STOBBAREL_OF(512)], uint64_t f, uint64_t capacity, uint64_t clock,
                       uint64_t delta, const uint8_t *message, size_t message_len, uint64_t answer[STOBBAREL_OF(5)]);

/* The message of one mark: PR, LG, DC, RD, IV or LD by its number above. A number that is none of them is refused with 2 after 14
 * and 16, before the message is looked at; a message with another mark is refused with 2 in its order. RD leaves the table as it
 * is, all others the read marks. */
STOBBAREL_NONNULL(4, 11)
void stobbarel_due(uint64_t mark, uint8_t *table, size_t table_len, uint64_t marks[STOBBAREL_OF(512)], uint64_t f, uint64_t capacity, uint64_t clock,
                   uint64_t delta, const uint8_t *message, size_t message_len, uint64_t answer[STOBBAREL_OF(5)]);

/* Raises the low mark to `low`. Every held entry at or below it has to be decided. Committed ones fold into one version and value for each key, the
 * newest; those and the aborted ones leave the table, and the others close up in their order. Answers raised, or refused with 14, 16, 18 (not above the
 * present low mark), 19 (an entry at or below it is undecided). From then on a message with a stamp at or below it is refused with 18. What
 * stands behind the rows that are left stays as it stood. Clock and read marks do not matter. */
STOBBAREL_NONNULL(6)
void stobbarel_raise(uint8_t *table, size_t table_len, uint64_t f, uint64_t capacity, uint64_t low, uint64_t answer[STOBBAREL_OF(5)]);

/* A box as its host keeps it, for the calls below. */
struct stobbarel_box {
    uint8_t *table;    /* STOBBAREL_TABLE_LEN(capacity) bytes or more */
    size_t table_len;  /* how many */
    uint64_t *marks;   /* STOBBAREL_KEYS numbers */
    uint64_t f;        /* 1 to 5, the same at all 5f + 1 boxes of a group */
    uint64_t capacity; /* 1 to 255 */
    uint64_t clock;    /* to be set before a call */
    uint64_t delta;    /* how far a stamp may be ahead of the clock */
};

/* Any of the six messages. */
STOBBAREL_NONNULL(1, 4)
static inline void stobbarel_call(const struct stobbarel_box *box, const uint8_t *message, size_t message_len, uint64_t answer[STOBBAREL_OF(5)]) {
    stobbarel_receive(box->table, box->table_len, box->marks, box->f, box->capacity, box->clock, box->delta, message, message_len, answer);
}

/* The message of one mark. */
STOBBAREL_NONNULL(2, 5)
static inline void stobbarel_call_due(uint64_t mark, const struct stobbarel_box *box, const uint8_t *message, size_t message_len,
                                      uint64_t answer[STOBBAREL_OF(5)]) {
    stobbarel_due(mark, box->table, box->table_len, box->marks, box->f, box->capacity, box->clock, box->delta, message, message_len, answer);
}

/* The low mark raised: the box lets old entries go. */
STOBBAREL_NONNULL(1, 3)
static inline void stobbarel_forget(const struct stobbarel_box *box, uint64_t low, uint64_t answer[STOBBAREL_OF(5)]) {
    stobbarel_raise(box->table, box->table_len, box->f, box->capacity, low, answer);
}

/* PR: vote on a transaction. */
STOBBAREL_NONNULL(1, 4)
static inline void stobbarel_prepare(const struct stobbarel_box *box, const uint8_t *message, size_t message_len,
                                     uint64_t answer[STOBBAREL_OF(5)]) {
    stobbarel_call_due(STOBBAREL_PR, box, message, message_len, answer);
}

/* LG: log a decision, in view 0. A transaction that is not held takes an entry with this log and no vote; a PR for it later is voted
 * on there. Where something is logged already, that log is answered with its view. */
STOBBAREL_NONNULL(1, 4)
static inline void stobbarel_log(const struct stobbarel_box *box, const uint8_t *message, size_t message_len,
                                 uint64_t answer[STOBBAREL_OF(5)]) {
    stobbarel_call_due(STOBBAREL_LG, box, message, message_len, answer);
}

/* DC: take a decision. */
STOBBAREL_NONNULL(1, 4)
static inline void stobbarel_decide(const struct stobbarel_box *box, const uint8_t *message, size_t message_len,
                                    uint64_t answer[STOBBAREL_OF(5)]) {
    stobbarel_call_due(STOBBAREL_DC, box, message, message_len, answer);
}

/* RD: what stands at a key; its read mark is raised. */
STOBBAREL_NONNULL(1, 4)
static inline void stobbarel_read(const struct stobbarel_box *box, const uint8_t *message, size_t message_len,
                                  uint64_t answer[STOBBAREL_OF(5)]) {
    stobbarel_call_due(STOBBAREL_RD, box, message, message_len, answer);
}

/* IV: what a gateway sends where logs differ and no proof can be made of them. A box that has logged the transaction moves on to the
 * view that the listed views call for, never back, and gives its election answer: what it has logged, that view, and its leader,
 * to whom the answer is to be carried. */
STOBBAREL_NONNULL(1, 4)
static inline void stobbarel_invoke(const struct stobbarel_box *box, const uint8_t *message, size_t message_len,
                                    uint64_t answer[STOBBAREL_OF(5)]) {
    stobbarel_call_due(STOBBAREL_IV, box, message, message_len, answer);
}

/* LD: what the leader of a view sends, the majority of 4f + 1 election answers of that view. A box logs it in that view, if its
 * current view is not above and its logged view is below, and answers as to an LG. It needs no log and no entry before. */
STOBBAREL_NONNULL(1, 4)
static inline void stobbarel_lead(const struct stobbarel_box *box, const uint8_t *message, size_t message_len,
                                  uint64_t answer[STOBBAREL_OF(5)]) {
    stobbarel_call_due(STOBBAREL_LD, box, message, message_len, answer);
}

/* What a table holds under a stamp, that of its first entry with it. 0; or 14 (the capacity), 16, out being all 0. out is eight numbers, all 0
 * where nothing is held:
 *   where the transaction's bytes (TX) begin in the table, and how many they are
 *   vote (0 none, 1 commit, 2 abort, 3 waiting), reason (1 to 6 beside an abort, else 0)
 *   decision (0 none, 1 commit, 2 abort)
 *   logged decision (0 none, 1 commit, 2 abort), the view that it was logged in (0 where nothing is)
 *   current view */
STOBBAREL_NONNULL(5)
uint8_t stobbarel_held(const uint8_t *table, size_t table_len, uint64_t capacity, uint64_t stamp, uint64_t out[STOBBAREL_OF(8)]);

/* How many entries a table has. 0; or 14 (the capacity), 16, the count being 0. */
STOBBAREL_NONNULL(4)
uint8_t stobbarel_entries(const uint8_t *table, size_t table_len, uint64_t capacity, size_t *count);

/* Entry i of a table, the first being 0, in the order of their rows: the same eight numbers, all 0 where there are not so many entries. An entry that is
 * there has a transaction of 12 bytes or more. 0; or 14 (the capacity), 16, out being all 0. */
STOBBAREL_NONNULL(5)
uint8_t stobbarel_entry(const uint8_t *table, size_t table_len, uint64_t capacity, uint64_t i, uint64_t out[STOBBAREL_OF(8)]);

/* The same numbers by their names. */
struct stobbarel_holding {
    uint64_t body_at, body_len; /* the transaction's bytes (TX) in the table; none where nothing is held */
    uint64_t vote, reason, decision, log, log_view, view;
};

STOBBAREL_NONNULL(1, 2)
static inline void stobbarel_holding_named(const uint64_t out[STOBBAREL_OF(8)], struct stobbarel_holding *holding) {
    holding->body_at = out[0];
    holding->body_len = out[1];
    holding->vote = out[2];
    holding->reason = out[3];
    holding->decision = out[4];
    holding->log = out[5];
    holding->log_view = out[6];
    holding->view = out[7];
}

STOBBAREL_NONNULL(1, 3)
static inline uint8_t stobbarel_holding_of(const struct stobbarel_box *box, uint64_t stamp, struct stobbarel_holding *holding) {
    uint64_t out[8] = {0};
    uint8_t wrong = stobbarel_held(box->table, box->table_len, box->capacity, stamp, out);
    stobbarel_holding_named(out, holding);
    return wrong;
}

STOBBAREL_NONNULL(1, 3)
static inline uint8_t stobbarel_entry_of(const struct stobbarel_box *box, uint64_t i, struct stobbarel_holding *holding) {
    uint64_t out[8] = {0};
    uint8_t wrong = stobbarel_entry(box->table, box->table_len, box->capacity, i, out);
    stobbarel_holding_named(out, holding);
    return wrong;
}

/* ---- a transaction, a list, views and an election as structs, for the inline functions below. One that is zero all over is a good beginning; the functions
 * that put down arrays, those of the passage register too, may be lent these. */

struct stobbarel_tx {
    uint64_t stamp;
    size_t r, w; /* how many reads and writes, up to eight each */
    uint16_t reads[8];
    uint64_t versions[8];
    uint16_t writes[8];
    uint64_t values[8];
};

struct stobbarel_vl {
    uint8_t kind, decision;
    uint16_t view; /* of logs; beside votes it is not looked at */
    size_t count;
    uint8_t numbers[26], answers[26];
};

struct stobbarel_vs {
    size_t count;
    uint8_t numbers[26];
    uint16_t views[26];
};

struct stobbarel_el {
    uint8_t leader, decision;
    uint16_t view;
    size_t count;
    uint8_t numbers[26], answers[26];
    uint16_t views[26];
};

/* ---- records read */

/* Any of the six messages, read alone: 0, or the refusal's number (14, 1 to 8). Without a clock, so never 15. */
uint8_t stobbarel_reading(uint64_t f, const uint8_t *message, size_t message_len);

/* A TX by itself: 0, or the refusal's number (1 to 7). */
uint8_t stobbarel_reading_tx(const uint8_t *bytes, size_t bytes_len);

/* The same, and its values: head is stamp, r and w; then the keys and versions read, the keys and values written. Every place that is not used, and all
 * of them where it is refused, are 0. So the bytes that stobbarel_held or stobbarel_entry tells of give the transaction. */
STOBBAREL_NONNULL(3, 4, 5, 6, 7)
uint8_t stobbarel_tx_of(const uint8_t *bytes, size_t bytes_len, uint64_t head[STOBBAREL_OF(3)], uint16_t reads[STOBBAREL_OF(8)],
                        uint64_t versions[STOBBAREL_OF(8)], uint16_t writes[STOBBAREL_OF(8)], uint64_t values[STOBBAREL_OF(8)]);

STOBBAREL_NONNULL(3)
static inline uint8_t stobbarel_tx_read(const uint8_t *bytes, size_t bytes_len, struct stobbarel_tx *tx) {
    uint64_t head[3] = {0};
    uint8_t wrong = stobbarel_tx_of(bytes, bytes_len, head, tx->reads, tx->versions, tx->writes, tx->values);
    tx->stamp = head[0];
    tx->r = (size_t)head[1];
    tx->w = (size_t)head[2];
    return wrong;
}

/* A VL by itself, of either kind: 0, or the refusal's number (14, 1 to 6, 8). */
uint8_t stobbarel_reading_vl(uint64_t f, const uint8_t *bytes, size_t bytes_len);

/* A VS by itself, the views of an IV: 0, or the refusal's number (14, 1 to 6). */
uint8_t stobbarel_reading_vs(uint64_t f, const uint8_t *bytes, size_t bytes_len);

/* An EL by itself, the election answers of an LD: 0, or the refusal's number (14, 1 to 6, 8). */
uint8_t stobbarel_reading_el(uint64_t f, const uint8_t *bytes, size_t bytes_len);

/* A message read alone, and its values: 0, or the refusal's number, as stobbarel_reading. The head's nine numbers:
 *   mark       1 PR, 2 LG, 3 DC, 4 RD, 5 IV, 6 LD; 0 refused
 *   stamp      of the transaction, or of an RD
 *   r, w       how many reads and writes there are
 *   key        of an RD
 *   kind       1 votes, 2 logs
 *   decision   1 commit, 2 abort
 *   view       of a list of logs, 0 to 65535; votes have none
 *   count      how many pairs the list has
 * then the keys and versions read, the keys and values written, the boxes and their answers, in the places' order. What a
 * message does not have, every place that is not used, and all of them where the message is refused, are 0. An IV and an LD have
 * no such list: theirs is told by stobbarel_views. */
STOBBAREL_NONNULL(4, 5, 6, 7, 8, 9, 10)
uint8_t stobbarel_fields(uint64_t f, const uint8_t *message, size_t message_len, uint64_t head[STOBBAREL_OF(9)], uint16_t reads[STOBBAREL_OF(8)],
                         uint64_t versions[STOBBAREL_OF(8)], uint16_t writes[STOBBAREL_OF(8)], uint64_t values[STOBBAREL_OF(8)],
                         uint8_t numbers[STOBBAREL_OF(26)], uint8_t answers[STOBBAREL_OF(26)]);

/* The same values by their names. */
struct stobbarel_message {
    uint64_t mark;
    struct stobbarel_tx tx; /* its stamp is that of an RD too */
    uint16_t key;           /* of an RD */
    struct stobbarel_vl vl; /* of an LG or a DC */
};

STOBBAREL_NONNULL(4)
static inline uint8_t stobbarel_message_of(uint64_t f, const uint8_t *bytes, size_t bytes_len, struct stobbarel_message *message) {
    uint64_t head[9] = {0};
    struct stobbarel_tx *tx = &message->tx;
    struct stobbarel_vl *vl = &message->vl;
    uint8_t wrong = stobbarel_fields(f, bytes, bytes_len, head, tx->reads, tx->versions, tx->writes, tx->values, vl->numbers, vl->answers);
    message->mark = head[0];
    tx->stamp = head[1];
    tx->r = (size_t)head[2];
    tx->w = (size_t)head[3];
    message->key = (uint16_t)head[4];
    vl->kind = (uint8_t)head[5];
    vl->decision = (uint8_t)head[6];
    vl->view = (uint16_t)head[7];
    vl->count = (size_t)head[8];
    return wrong;
}

/* The views of an IV and the election answers of an LD: 0, or the refusal's number, as stobbarel_reading. The head's five numbers:
 *   mark       1 PR, 2 LG, 3 DC, 4 RD, 5 IV, 6 LD; 0 refused
 *   leader     of an LD
 *   decision   of an LD, 1 commit, 2 abort
 *   view       of an LD, 0 to 65535
 *   count      how many boxes are listed
 * then the boxes, their answers (of an LD; 1 commit, 2 abort) and their views. All but the mark is 0 for any other message, and all of
 * it where the message is refused; every place that is not used is 0. */
STOBBAREL_NONNULL(4, 5, 6, 7)
uint8_t stobbarel_views(uint64_t f, const uint8_t *message, size_t message_len, uint64_t head[STOBBAREL_OF(5)], uint8_t numbers[STOBBAREL_OF(26)],
                        uint8_t answers[STOBBAREL_OF(26)], uint16_t views[STOBBAREL_OF(26)]);

/* The length of the transaction's bytes inside a message, where they stand from byte 2 on; 0 for a refused message or an RD. */
size_t stobbarel_part(uint64_t f, const uint8_t *message, size_t message_len);

/* ---- records written
 *
 * A transaction is lent as its stamp, r and w, and four arrays of eight: the keys and versions read, the keys and values
 * written. A list is lent as its kind (1 votes, 2 logs), decision (1 commit, 2 abort), view and count, and two arrays of 26: the
 * boxes and their answers (1 commit, 2 abort). The first r, w and count places are written; the others may be anything. Lists of
 * logs carry views: that of the list may be any number and is written behind the count; beside votes it is not looked at, and none
 * is written. What a VS and an EL list is lent with a third array of 26, the view that each box told.
 *
 * Each answers 0, and the record stands at the front of out, `length` bytes of it, the bytes behind it being as they were; or
 * the refusal's number, with length 0 and out unchanged. Any numbers may be lent: what is wrong with them is told by 14 (f,
 * where one is taken), then 3 (counts), then 5, 6, 7 (the transaction), then 8, 5, 6 (the list), then 17 (out is too short). */

/* A TX by itself. */
STOBBAREL_NONNULL(4, 5, 6, 7, 10)
uint8_t stobbarel_write_tx(uint64_t stamp, size_t r, size_t w, const uint16_t reads[STOBBAREL_OF(8)], const uint64_t versions[STOBBAREL_OF(8)],
                           const uint16_t writes[STOBBAREL_OF(8)], const uint64_t values[STOBBAREL_OF(8)], uint8_t *out, size_t out_len,
                           size_t *length);

/* A VL by itself, of either kind. */
STOBBAREL_NONNULL(6, 7, 10)
uint8_t stobbarel_write_vl(uint64_t f, uint8_t kind, uint8_t decision, uint16_t view, size_t count, const uint8_t numbers[STOBBAREL_OF(26)],
                           const uint8_t answers[STOBBAREL_OF(26)], uint8_t *out, size_t out_len, size_t *length);

/* PR. */
STOBBAREL_NONNULL(4, 5, 6, 7, 10)
uint8_t stobbarel_write_pr(uint64_t stamp, size_t r, size_t w, const uint16_t reads[STOBBAREL_OF(8)], const uint64_t versions[STOBBAREL_OF(8)],
                           const uint16_t writes[STOBBAREL_OF(8)], const uint64_t values[STOBBAREL_OF(8)], uint8_t *out, size_t out_len,
                           size_t *length);

/* A message with a list: LG or DC by its number above. Any other number is refused with 2, where the list's 8, 5, 6 would stand. */
STOBBAREL_NONNULL(6, 7, 8, 9, 14, 15, 18)
uint8_t stobbarel_write_listed(uint64_t mark, uint64_t f, uint64_t stamp, size_t r, size_t w, const uint16_t reads[STOBBAREL_OF(8)],
                               const uint64_t versions[STOBBAREL_OF(8)], const uint16_t writes[STOBBAREL_OF(8)],
                               const uint64_t values[STOBBAREL_OF(8)], uint8_t kind, uint8_t decision, uint16_t view, size_t count,
                               const uint8_t numbers[STOBBAREL_OF(26)], const uint8_t answers[STOBBAREL_OF(26)], uint8_t *out, size_t out_len,
                               size_t *length);

/* A VS by itself: the views that boxes told. Its contents are judged for 5, 6. */
STOBBAREL_NONNULL(3, 4, 7)
uint8_t stobbarel_write_vs(uint64_t f, size_t count, const uint8_t numbers[STOBBAREL_OF(26)], const uint16_t views[STOBBAREL_OF(26)], uint8_t *out,
                           size_t out_len, size_t *length);

/* An EL by itself: leader, decision and view of a leader's decision, and the election answers for it. Its contents are judged for 8
 * (decision, answers), 5 (leader, boxes), 6; whether a box would take it is told by the box (23). */
STOBBAREL_NONNULL(6, 7, 8, 11)
uint8_t stobbarel_write_el(uint64_t f, uint8_t leader, uint8_t decision, uint16_t view, size_t count, const uint8_t numbers[STOBBAREL_OF(26)],
                           const uint8_t answers[STOBBAREL_OF(26)], const uint16_t views[STOBBAREL_OF(26)], uint8_t *out, size_t out_len,
                           size_t *length);

/* IV: a transaction and a VS. */
STOBBAREL_NONNULL(5, 6, 7, 8, 10, 11, 14)
uint8_t stobbarel_write_iv(uint64_t f, uint64_t stamp, size_t r, size_t w, const uint16_t reads[STOBBAREL_OF(8)],
                           const uint64_t versions[STOBBAREL_OF(8)], const uint16_t writes[STOBBAREL_OF(8)], const uint64_t values[STOBBAREL_OF(8)],
                           size_t count, const uint8_t numbers[STOBBAREL_OF(26)], const uint16_t views[STOBBAREL_OF(26)], uint8_t *out,
                           size_t out_len, size_t *length);

/* LD: a transaction and an EL. */
STOBBAREL_NONNULL(5, 6, 7, 8, 13, 14, 15, 18)
uint8_t stobbarel_write_ld(uint64_t f, uint64_t stamp, size_t r, size_t w, const uint16_t reads[STOBBAREL_OF(8)],
                           const uint64_t versions[STOBBAREL_OF(8)], const uint16_t writes[STOBBAREL_OF(8)], const uint64_t values[STOBBAREL_OF(8)],
                           uint8_t leader, uint8_t decision, uint16_t view, size_t count, const uint8_t numbers[STOBBAREL_OF(26)],
                           const uint8_t answers[STOBBAREL_OF(26)], const uint16_t views[STOBBAREL_OF(26)], uint8_t *out, size_t out_len,
                           size_t *length);

/* RD: 12 bytes; 5 or 17. */
STOBBAREL_NONNULL(5)
uint8_t stobbarel_write_rd(uint16_t key, uint64_t stamp, uint8_t *out, size_t out_len, size_t *length);

/* The messages from structs; answers as above. */
STOBBAREL_NONNULL(1, 4)
static inline uint8_t stobbarel_make_pr(const struct stobbarel_tx *tx, uint8_t *out, size_t out_len, size_t *length) {
    return stobbarel_write_pr(tx->stamp, tx->r, tx->w, tx->reads, tx->versions, tx->writes, tx->values, out, out_len, length);
}

/* An LG's list is of votes. */
STOBBAREL_NONNULL(2, 3, 6)
static inline uint8_t stobbarel_make_lg(uint64_t f, const struct stobbarel_tx *tx, const struct stobbarel_vl *vl, uint8_t *out, size_t out_len,
                                        size_t *length) {
    return stobbarel_write_listed(STOBBAREL_LG, f, tx->stamp, tx->r, tx->w, tx->reads, tx->versions, tx->writes, tx->values, vl->kind, vl->decision,
                                  vl->view, vl->count, vl->numbers, vl->answers, out, out_len, length);
}

STOBBAREL_NONNULL(2, 3, 6)
static inline uint8_t stobbarel_make_dc(uint64_t f, const struct stobbarel_tx *tx, const struct stobbarel_vl *vl, uint8_t *out, size_t out_len,
                                        size_t *length) {
    return stobbarel_write_listed(STOBBAREL_DC, f, tx->stamp, tx->r, tx->w, tx->reads, tx->versions, tx->writes, tx->values, vl->kind, vl->decision,
                                  vl->view, vl->count, vl->numbers, vl->answers, out, out_len, length);
}

STOBBAREL_NONNULL(2, 3, 6)
static inline uint8_t stobbarel_make_iv(uint64_t f, const struct stobbarel_tx *tx, const struct stobbarel_vs *vs, uint8_t *out, size_t out_len,
                                        size_t *length) {
    return stobbarel_write_iv(f, tx->stamp, tx->r, tx->w, tx->reads, tx->versions, tx->writes, tx->values, vs->count, vs->numbers, vs->views, out,
                              out_len, length);
}

STOBBAREL_NONNULL(2, 3, 6)
static inline uint8_t stobbarel_make_ld(uint64_t f, const struct stobbarel_tx *tx, const struct stobbarel_el *el, uint8_t *out, size_t out_len,
                                        size_t *length) {
    return stobbarel_write_ld(f, tx->stamp, tx->r, tx->w, tx->reads, tx->versions, tx->writes, tx->values, el->leader, el->decision, el->view,
                              el->count, el->numbers, el->answers, el->views, out, out_len, length);
}

/* ---- a gateway */

/* The number of boxes, then how many answers are needed: commit list, abort list, commit proof and abort proof from votes,
 * proof from logs. 0; or 14, out being unchanged. */
STOBBAREL_NONNULL(2)
uint8_t stobbarel_thresholds(uint64_t f, uint64_t out[STOBBAREL_OF(6)]);

/* The gateway's tally: a sheet of one kind (1 votes, 2 logs) takes a box's answer (1 commit, 2 abort), the number of the vote or
 * the decision that the box answered; a wait, 3, is refused with 8. Bit b of a mask says that box b gave this answer; a new
 * sheet's masks are 0. A sheet of logs is for one view, that of the list made from it: a box's log answer tells its view, and logs
 * of two views are no proof together. The gateway keeps the view beside the masks, and which answers belong to that view is its
 * business: the call takes the box and its answer only, and counts what it is given. The reply is five numbers:
 *   1 votes    what is lacking, 0 where it is reached: commit list, abort list, commit proof, abort proof
 *   2 logs     what is lacking, 0 where it is reached: commit proof, abort proof, 0, 0
 *   3 repeat   0, 0, 0, 0; the sheet is unchanged
 *   4 refused  number (14, 16, 5 or 8), 0, 0, 0; the sheet is unchanged
 * What is lacking is what a box tells beside 11 of the list made from the sheet. The function's name is new because the numbers have turned
 * round: stobbarel_tally, which it replaces, said 1 for reached and 0 for not. */
STOBBAREL_NONNULL(2, 3, 7)
void stobbarel_take(uint8_t kind, uint32_t *commits, uint32_t *aborts, uint64_t f, uint64_t number, uint64_t answer, uint8_t reply[STOBBAREL_OF(5)]);

/* What a sheet has reached as it is, with no answer given: the reply that an answer which brought it here was given; refused with 14 or 16. */
STOBBAREL_NONNULL(5)
void stobbarel_reached(uint8_t kind, uint32_t commits, uint32_t aborts, uint64_t f, uint8_t reply[STOBBAREL_OF(5)]);

/* The list of a sheet's boxes under a decision (1 commit, 2 abort), as an LG or a DC takes it: head is kind, decision, view and count; then the boxes,
 * rising, and their answers. A box goes on with it where stobbarel_reached lacks 0 of the threshold. Beside votes the view is 0. Every place that is not
 * used is 0. 0; or 14, 16, 8 (another decision), all being 0. */
STOBBAREL_NONNULL(7, 8, 9)
uint8_t stobbarel_sheet_list(uint8_t kind, uint16_t view, uint32_t commits, uint32_t aborts, uint64_t f, uint64_t decision,
                             uint64_t head[STOBBAREL_OF(4)], uint8_t numbers[STOBBAREL_OF(26)], uint8_t answers[STOBBAREL_OF(26)]);

/* A sheet as a gateway keeps it for one transaction: its kind, the view of its logs, and the masks; a new one's are 0. */
struct stobbarel_sheet {
    uint8_t kind;
    uint16_t view;
    uint32_t commits, aborts;
};

STOBBAREL_NONNULL(1, 5)
static inline void stobbarel_sheet_take(struct stobbarel_sheet *sheet, uint64_t f, uint64_t number, uint64_t answer,
                                        uint8_t reply[STOBBAREL_OF(5)]) {
    stobbarel_take(sheet->kind, &sheet->commits, &sheet->aborts, f, number, answer, reply);
}

STOBBAREL_NONNULL(1, 3)
static inline void stobbarel_sheet_reached(const struct stobbarel_sheet *sheet, uint64_t f, uint8_t reply[STOBBAREL_OF(5)]) {
    stobbarel_reached(sheet->kind, sheet->commits, sheet->aborts, f, reply);
}

STOBBAREL_NONNULL(1, 4)
static inline uint8_t stobbarel_vl_of_sheet(const struct stobbarel_sheet *sheet, uint64_t f, uint64_t decision, struct stobbarel_vl *vl) {
    uint64_t head[4] = {0};
    uint8_t wrong = stobbarel_sheet_list(sheet->kind, sheet->view, sheet->commits, sheet->aborts, f, decision, head, vl->numbers, vl->answers);
    vl->kind = (uint8_t)head[0];
    vl->decision = (uint8_t)head[1];
    vl->view = (uint16_t)head[2];
    vl->count = (size_t)head[3];
    return wrong;
}

/* ---- a transaction that a dead gateway left
 *
 * A gateway that takes over needs the transaction whole: a box's host reads its bytes off the table by stobbarel_held, and they go behind
 * the mark of a message as they are.
 *
 * A gateway that finds logs of both decisions, or of several views, asks each box what its current view is, by an IV with what it
 * knows, and sends what it is told in the next IV; box numbers and views go to stobbarel_tell and come back from stobbarel_told. Each
 * election answer is carried to the leader that it names. That one takes them on a sheet for its transaction and view by
 * stobbarel_elect, makes the EL of it by stobbarel_election, and sends the LD; what boxes then log is of that view. */

/* A box told its view: for each box on the mask the highest one is kept. 0; or 14, 16 (a box n or more is on the mask), 5 (this
 * box is n or more, or its view is above 65535), nothing being changed. A new mask is 0. */
STOBBAREL_NONNULL(1, 2)
uint8_t stobbarel_tell(uint32_t *told, uint16_t views[STOBBAREL_OF(26)], uint64_t f, uint64_t number, uint64_t view);

/* The boxes on the mask, rising, and their views, as an IV takes them; places that are not used are 0. 0; or 14, 16, all being 0. */
STOBBAREL_NONNULL(2, 4, 5, 6)
uint8_t stobbarel_told(uint32_t told, const uint16_t views[STOBBAREL_OF(26)], uint64_t f, size_t *count, uint8_t numbers[STOBBAREL_OF(26)],
                       uint16_t listed[STOBBAREL_OF(26)]);

/* The leader's sheet, for one transaction and one view: it takes a box's election answer, decision (1 commit, 2 abort) and view. Masks
 * as for stobbarel_take. The reply is two numbers:
 *   1 taken       how many answers are lacking of the 4f + 1 that an LD needs, 0 where they are reached
 *   2 other view  0; the answer is for another view, and the sheet is unchanged
 *   3 repeat      0; the box is on the sheet already, which is unchanged
 *   4 refused     number (14, 16, 5 or 8); the sheet is unchanged */
STOBBAREL_NONNULL(2, 3, 8)
void stobbarel_elect(uint16_t view, uint32_t *commits, uint32_t *aborts, uint64_t f, uint64_t number, uint64_t answer, uint64_t answer_view,
                     uint8_t reply[STOBBAREL_OF(2)]);

/* The EL of a sheet for the transaction of that stamp: the head is leader, decision, view and count. It lists 4f + 1 answers, those of
 * the lowest boxes on the sheet, and decides for their majority. 0; or 14, 16, 23 (fewer than 4f + 1 are on the sheet), all being 0. */
STOBBAREL_NONNULL(6, 7, 8, 9)
uint8_t stobbarel_election(uint16_t view, uint32_t commits, uint32_t aborts, uint64_t f, uint64_t stamp, uint64_t head[STOBBAREL_OF(4)],
                           uint8_t numbers[STOBBAREL_OF(26)], uint8_t answers[STOBBAREL_OF(26)], uint16_t views[STOBBAREL_OF(26)]);

/* ---- the passage register
 *
 * Passage p, 0 to 127, owns keys 4p to 4p + 3: train number, direction (0 or 1), axle count (1 to 1000), hot axle in the
 * detector's order (0 for none). What was seen of a passage is lent as four versions and four values in the order of the keys:
 * the committed halves of one box's answers to the four RDs, all at one stamp. */

/* The keys of the passage's four RDs, each to be written with stobbarel_write_rd at this one stamp. 0; or 26 (passage above 127),
 * 5 (stamp 0), the keys being 0. */
STOBBAREL_NONNULL(3)
uint8_t stobbarel_asks(uint64_t passage, uint64_t stamp, uint16_t keys[STOBBAREL_OF(4)]);

/* The report: train number, direction, axle count, and the hot axle counted from the train's leading end (0 for none). 0; or 26 to
 * 30, the four numbers being 0. */
STOBBAREL_NONNULL(2, 3, 4)
uint8_t stobbarel_report(uint64_t passage, const uint64_t versions[STOBBAREL_OF(4)], const uint64_t values[STOBBAREL_OF(4)],
                         uint64_t report[STOBBAREL_OF(4)]);

/* A correction of the direction, as a transaction of that stamp with r = 4 and w = 4: the four arrays are what the writers take. 26 to
 * 30 of what was seen, then 5 (stamp 0) and 7 (the stamp is not above the versions seen); the arrays are then 0. */
STOBBAREL_NONNULL(3, 4, 5, 6, 7, 8)
uint8_t stobbarel_correct_direction(uint64_t passage, uint64_t stamp, const uint64_t seen_versions[STOBBAREL_OF(4)],
                                    const uint64_t seen_values[STOBBAREL_OF(4)], uint16_t reads[STOBBAREL_OF(8)], uint64_t versions[STOBBAREL_OF(8)],
                                    uint16_t writes[STOBBAREL_OF(8)], uint64_t values[STOBBAREL_OF(8)]);

/* A correction with four new values, which are judged by 28 to 30 after what was seen. */
STOBBAREL_NONNULL(3, 4, 5, 6, 7, 8, 9)
uint8_t stobbarel_correct(uint64_t passage, uint64_t stamp, const uint64_t seen_versions[STOBBAREL_OF(4)],
                          const uint64_t seen_values[STOBBAREL_OF(4)], const uint64_t new_values[STOBBAREL_OF(4)], uint16_t reads[STOBBAREL_OF(8)],
                          uint64_t versions[STOBBAREL_OF(8)], uint16_t writes[STOBBAREL_OF(8)], uint64_t values[STOBBAREL_OF(8)]);

/* A train entered, whatever stands there: 26, 28 to 30 of the new values, then 5 and 7. Of all that is made of one look, one commits. */
STOBBAREL_NONNULL(3, 4, 5, 6, 7, 8, 9)
uint8_t stobbarel_enter(uint64_t passage, uint64_t stamp, const uint64_t seen_versions[STOBBAREL_OF(4)], const uint64_t seen_values[STOBBAREL_OF(4)],
                        const uint64_t new_values[STOBBAREL_OF(4)], uint16_t reads[STOBBAREL_OF(8)], uint64_t versions[STOBBAREL_OF(8)],
                        uint16_t writes[STOBBAREL_OF(8)], uint64_t values[STOBBAREL_OF(8)]);

#ifdef __cplusplus
}
#endif

#undef STOBBAREL_OF
#undef STOBBAREL_NONNULL

#endif
