//! What a table holds under a stamp: after messages to a box, and in tables that are lent as they stand.

use super::*;
use crate::messages::tx;
use crate::model::{row_at, Holding};
use stobbarel::layout::{BODY_AT, LOG_VIEW_AT, VIEW_AT};

const C: Decision = Decision::Commit;
const A: Decision = Decision::Abort;

/// Vote, decision, log with its view, and current view.
type Beside = (Vote, Option<Decision>, Option<(Decision, u16)>, u16);

/// Messages in turn to an empty box of f = 1 with room for eight entries, and a stamp: the place of its entry, its body, and what is beside it; none where
/// nothing is held.
type After = (&'static str, &'static [&'static [&'static [u8]]], u64, Option<(usize, &'static [u8], Beside)>);

/// 60 reads key 3 at 50, and waits for it; 111 is ahead of the clock.
const HELD: [After; 18] = [
    ("an empty table", &[], 50, None),
    ("an empty table, stamp 0", &[], 0, None),
    ("voted commit", &[&[b"PR", BODY]], 50, Some((0, BODY, (Vote::Commit, None, None, 0)))),
    ("another stamp", &[&[b"PR", BODY]], 51, None),
    ("a stamp with the same lower half", &[&[b"PR", BODY]], (1 << 32) + 50, None),
    ("voted abort", &[&[b"PR", BODY], &[b"PR", AHEAD]], 111, Some((1, AHEAD, (Vote::Abort(1), None, None, 0)))),
    ("abort, another reason", &[&[b"PR", READS_40]], 60, Some((0, READS_40, (Vote::Abort(2), None, None, 0)))),
    ("waiting", &[&[b"PR", BODY], &[b"PR", READER]], 60, Some((1, READER, (Vote::Waiting, None, None, 0)))),
    ("a read and a write", &[&[b"PR", BOTH]], 50, Some((0, BOTH, (Vote::Abort(2), None, None, 0)))),
    ("logged without a vote", &[&[b"LG", BODY, COMMITS]], 50, Some((0, BODY, (Vote::None, None, Some((C, 0)), 0)))),
    ("logged abort beside a vote", &[&[b"PR", BODY], &[b"LG", BODY, ABORTS]], 50, Some((0, BODY, (Vote::Commit, None, Some((A, 0)), 0)))),
    ("logged in view 1", &[&[b"LD", BODY, LEADS_1, IN_1]], 50, Some((0, BODY, (Vote::None, None, Some((C, 1)), 1)))),
    (
        "logged in view 1, and moved on to 9",
        &[&[b"LD", BODY, LEADS_1, IN_1], &[b"IV", BODY, TWO_IN_9]],
        50,
        Some((0, BODY, (Vote::None, None, Some((C, 1)), 9))),
    ),
    (
        "decided otherwise than logged",
        &[&[b"PR", BODY], &[b"LG", BODY, COMMITS], &[b"DC", BODY, PROVES_ABORT]],
        50,
        Some((0, BODY, (Vote::Commit, Some(A), Some((C, 0)), 0))),
    ),
    ("decided commit, without a vote", &[&[b"DC", BODY, PROVES_COMMIT]], 50, Some((0, BODY, (Vote::None, Some(C), None, 0)))),
    (
        "a body that replaced another",
        &[&[b"PR", BODY], &[b"LG", BODY, COMMITS], &[b"DC", OTHER, PROVES_COMMIT]],
        50,
        Some((0, OTHER, (Vote::None, Some(C), None, 0))),
    ),
    ("a shorter body that replaced another", &[&[b"PR", BOTH], &[b"DC", BODY, PROVES_COMMIT]], 50, Some((0, BODY, (Vote::None, Some(C), None, 0)))),
    ("a message that was refused", &[&[b"LG", BODY, THREE]], 50, None),
];

/// Of the fallback, for f = 1: box 3 leads view 1 of 50; boxes 4 and 5 are in view 9.
const LEADS_1: &[u8] = b"EL\x03\x01\x01\0\x05";
const IN_1: &[u8] = b"\0\x01\x01\0\x01\x01\x01\0\x02\x01\x01\0\x03\x02\x01\0\x04\x02\x01\0";
const TWO_IN_9: &[u8] = b"VS\x02\x04\x09\0\x05\x09\0";

fn holding((place, body, (vote, decision, log, view)): (usize, &[u8], Beside)) -> Holding {
    Holding { at: row_at(place) + BODY_AT, body: body.to_vec(), vote, decision, log, view }
}

fn asked(tried: &mut Tried, what: &str, table: &[u8], capacity: u64, stamp: u64, due: Result<Option<Holding>, u8>) {
    tried.one(&format!("held: {what}"), due, engine::held(table, capacity, stamp), model::held(table, capacity, stamp));
}

/// After messages to the engine's box.
pub(super) fn after_messages(tried: &mut Tried) {
    for (what, messages, stamp, due) in HELD {
        let settings = Settings { f: 1, capacity: 8, clock: 100, delta: 10 };
        let (mut table, mut marks) = (vec![0; table_len(8)], vec![0; 512]);
        for message in messages {
            engine::call(Entrance::Receive, &mut table, &mut marks, &settings, &message.concat()).expect("nothing is written beside what was lent");
        }
        asked(tried, what, &table, 8, stamp, Ok(due.map(holding)));
    }
}

/// A table of so many entries, each of them voted commit: entry p has stamp p + 1, and writes as many keys as its place allows.
fn full(capacity: usize) -> Vec<u8> {
    let mut table = vec![0xee; table_len(capacity)];
    table[0] = capacity as u8;
    for place in 0..capacity {
        let keys: Vec<(u16, u64)> = (0..place % 9).map(|key| (key as u16, 7)).collect();
        put(&mut table, place, &tx(place as u64 + 1, &keys, &keys));
    }
    table
}

/// A body put down in its row, voted commit.
fn put(table: &mut [u8], place: usize, body: &[u8]) {
    let row = &mut table[row_at(place)..row_at(place + 1)];
    row[..BODY_AT].copy_from_slice(&[1, 0, 0, 0, 0, 0, 0, 0]);
    row[BODY_AT..BODY_AT + body.len()].copy_from_slice(body);
}

/// What is told of an entry that is voted commit.
fn voted(place: usize, body: &[u8]) -> Result<Option<Holding>, u8> {
    Ok(Some(holding((place, body, (Vote::Commit, None, None, 0)))))
}

/// A table of one entry, 50, and seven bytes more.
fn one() -> Vec<u8> {
    let mut table = full(1);
    put(&mut table, 0, BODY);
    table.extend([0xee; 7]);
    table
}

/// Each place of a full table.
pub(super) fn each_place(tried: &mut Tried) {
    let all = full(255);
    for place in 0..255 {
        let body = &all[row_at(place) + BODY_AT..][..12 + 20 * (place % 9)];
        asked(tried, &format!("entry {place} of 255"), &all, 255, place as u64 + 1, voted(place, body));
    }
    asked(tried, "none of 255", &all, 255, 256, Ok(None));
}

/// In tables as they are lent: the first of two, places that are not looked at, views.
pub(super) fn as_lent(tried: &mut Tried) {
    let mut table = full(3);
    put(&mut table, 2, BODY);
    put(&mut table, 1, OTHER);
    asked(tried, "the first of two", &table, 3, 50, voted(1, OTHER));
    table[0] = 2;
    put(&mut table, 1, &tx(51, &[], &[(3, 7)]));
    asked(tried, "what stands behind the last entry", &table, 3, 50, Ok(None));
    let mut table = vec![0; table_len(1)];
    table[0] = 1;
    asked(tried, "a row of zeros", &table, 1, 0, Ok(Some(holding((0, &[0; 12], (Vote::None, None, None, 0))))));
    let mut table = one();
    asked(tried, "a slice longer than needed", &table, 1, 50, voted(0, BODY));
    table[HEAD + LOG_VIEW_AT] = 5;
    asked(tried, "a view beside no log", &table, 1, 50, voted(0, BODY));
    (table[HEAD + LOG_AT], table[HEAD + LOG_VIEW_AT + 1], table[HEAD + VIEW_AT + 1]) = (2, 1, 2);
    asked(tried, "views above a byte", &table, 1, 50, Ok(Some(holding((0, BODY, (Vote::Commit, None, Some((A, 256 + 5)), 512))))));
}

/// A byte of a table that makes it one that is not in order.
const WRONG: [(&str, usize, u8); 7] = [
    ("more entries than the capacity", 0, 2),
    ("a vote outside its list", HEAD + VOTE_AT, 4),
    ("a reason beside commit", HEAD + REASON_AT, 1),
    ("a log outside its list", HEAD + LOG_AT, 3),
    ("a decision outside its list", HEAD + DECIDED_AT, 3),
    ("nine reads", HEAD + BODY_AT + 2, 9),
    ("nine writes", HEAD + BODY_AT + 3, 9),
];

/// 14 for the capacity, then 16 for the table.
pub(super) fn refusals(tried: &mut Tried) {
    let table = one();
    for capacity in [0, 256, (1 << 32) + 1, u64::MAX] {
        asked(tried, &format!("capacity {capacity}"), &table, capacity, 50, Err(14));
        asked(tried, &format!("14 before 16: capacity {capacity}"), &[], capacity, 50, Err(14));
    }
    asked(tried, "a table of no bytes", &[], 1, 50, Err(16));
    asked(tried, "a table of 15 bytes", &table[..15], 1, 50, Err(16));
    asked(tried, "a byte is missing", &table[..table_len(1) - 1], 1, 50, Err(16));
    asked(tried, "a larger capacity", &table, 2, 50, Err(16));
    for (what, at, code) in WRONG {
        let mut wrong = table.clone();
        wrong[at] = code;
        asked(tried, what, &wrong, 1, 50, Err(16));
        asked(tried, &format!("{what}, another stamp"), &wrong, 1, 51, Err(16));
    }
}
