//! What finishes a transaction that a dead gateway left: messages in turn to a box; every number of views and of answers; leaders; the sheets of a gateway and of a leader.

use super::*;
use crate::messages::{iv, ld};
use crate::model::{Election, ElectionReply, ElectionSheet, ViewSheet};
use stobbarel::layout::{BODY_AT, LOG_VIEW_AT, VIEW_AT};

// ---- a box

const fn elect(decision: Decision, view: u16, leader: u8) -> Answer {
    Answer::Elected { decision, view, leader }
}

const fn logged(decision: Decision, view: u16) -> Answer {
    Answer::Logged(decision, view)
}

/// Views for f = 1: of four boxes, of three; of two in view 1; of one; of two in view 9; of four that have passed view 1; of four, two of them in view 7; of four and of
/// two in the last view; of four in the one before.
const FOUR_IN_0: &[u8] = b"VS\x04\0\0\0\x01\0\0\x02\0\0\x03\0\0";
const THREE_IN_0: &[u8] = b"VS\x03\0\0\0\x01\0\0\x02\0\0";
const TWO_IN_1: &[u8] = b"VS\x02\x04\x01\0\x05\x01\0";
const ONE_IN_9: &[u8] = b"VS\x01\x04\x09\0";
const TWO_IN_9: &[u8] = b"VS\x02\x04\x09\0\x05\x09\0";
const FOUR_PAST_1: &[u8] = b"VS\x04\0\x03\0\x01\x01\0\x02\x02\0\x03\x05\0";
const TWO_OF_FOUR_IN_7: &[u8] = b"VS\x04\0\0\0\x01\0\0\x02\x07\0\x03\x07\0";
const FOUR_IN_LAST: &[u8] = b"VS\x04\0\xff\xff\x01\xff\xff\x02\xff\xff\x03\xff\xff";
const TWO_IN_LAST: &[u8] = b"VS\x02\0\xff\xff\x01\xff\xff";
const FOUR_BEFORE_LAST: &[u8] = b"VS\x04\0\xfe\xff\x01\xfe\xff\x02\xfe\xff\x03\xfe\xff";

/// The leaders of 50 among six boxes: 2 of view 0, 3 of view 1, 4 of view 2. Five answers, three for commit; five, three for abort.
const LEADS_0: &[u8] = b"EL\x02\x01\0\0\x05";
const LEADS_1: &[u8] = b"EL\x03\x01\x01\0\x05";
const LEADS_1_TO_ABORT: &[u8] = b"EL\x03\x02\x01\0\x05";
const LEADS_2: &[u8] = b"EL\x04\x01\x02\0\x05";
const IN_0: &[u8] = b"\0\x01\0\0\x01\x01\0\0\x02\x01\0\0\x03\x02\0\0\x04\x02\0\0";
const IN_1: &[u8] = b"\0\x01\x01\0\x01\x01\x01\0\x02\x01\x01\0\x03\x02\x01\0\x04\x02\x01\0";
const TO_ABORT_IN_1: &[u8] = b"\0\x02\x01\0\x01\x02\x01\0\x02\x01\x01\0\x03\x02\x01\0\x04\x01\x01\0";
const IN_2: &[u8] = b"\0\x01\x02\0\x01\x01\x02\0\x02\x01\x02\0\x03\x02\x02\0\x04\x02\x02\0";
/// 50 led in view 1, to commit and to abort; in view 2; in view 0.
const LD_1: &[&[u8]] = &[b"LD", BODY, LEADS_1, IN_1];
const LD_1_ABORT: &[&[u8]] = &[b"LD", BODY, LEADS_1_TO_ABORT, TO_ABORT_IN_1];
const LD_2: &[&[u8]] = &[b"LD", BODY, LEADS_2, IN_2];
const LD_0: &[&[u8]] = &[b"LD", BODY, LEADS_0, IN_0];

/// Messages in turn to an empty box of f = 1 with room for so many entries: what each is answered, and for each entry in the end vote, reason, log, decision, the log's view
/// and the current one.
struct Rescue {
    what: &'static str,
    capacity: u64,
    told: &'static [(&'static [&'static [u8]], Answer)],
    rows: &'static [[u16; 6]],
}

const LG_50: &[&[u8]] = &[b"LG", BODY, COMMITS];
const C: Decision = Decision::Commit;
const A: Decision = Decision::Abort;

const RESCUES: [Rescue; 34] = [
    Rescue {
        what: "3f + 1 views: to the one after",
        capacity: 1,
        told: &[(LG_50, LOGGED), (&[b"IV", BODY, FOUR_IN_0], elect(C, 1, 3))],
        rows: &[[0, 0, 1, 0, 0, 1]],
    },
    Rescue {
        what: "asked again: no further",
        capacity: 1,
        told: &[(LG_50, LOGGED), (&[b"IV", BODY, FOUR_IN_0], elect(C, 1, 3)), (&[b"IV", BODY, FOUR_IN_0], elect(C, 1, 3))],
        rows: &[[0, 0, 1, 0, 0, 1]],
    },
    Rescue { what: "3f views: nowhere", capacity: 1, told: &[(LG_50, LOGGED), (&[b"IV", BODY, THREE_IN_0], elect(C, 0, 2))], rows: &[[0, 0, 1, 0, 0, 0]] },
    Rescue { what: "f + 1 views: up to them", capacity: 1, told: &[(LG_50, LOGGED), (&[b"IV", BODY, TWO_IN_1], elect(C, 1, 3))], rows: &[[0, 0, 1, 0, 0, 1]] },
    Rescue { what: "f views: nowhere", capacity: 1, told: &[(LG_50, LOGGED), (&[b"IV", BODY, ONE_IN_9], elect(C, 0, 2))], rows: &[[0, 0, 1, 0, 0, 0]] },
    Rescue {
        what: "higher views count for lower ones",
        capacity: 1,
        told: &[(LG_50, LOGGED), (&[b"IV", BODY, FOUR_PAST_1], elect(C, 2, 4))],
        rows: &[[0, 0, 1, 0, 0, 2]],
    },
    Rescue {
        what: "3f + 1 views before f + 1",
        capacity: 1,
        told: &[(LG_50, LOGGED), (&[b"IV", BODY, TWO_OF_FOUR_IN_7], elect(C, 1, 3))],
        rows: &[[0, 0, 1, 0, 0, 1]],
    },
    Rescue {
        what: "never back by 3f + 1 views",
        capacity: 1,
        told: &[(LG_50, LOGGED), (&[b"IV", BODY, TWO_IN_9], elect(C, 9, 5)), (&[b"IV", BODY, FOUR_IN_0], elect(C, 9, 5))],
        rows: &[[0, 0, 1, 0, 0, 9]],
    },
    Rescue {
        what: "never back by f + 1 views",
        capacity: 1,
        told: &[(LG_50, LOGGED), (&[b"IV", BODY, TWO_IN_9], elect(C, 9, 5)), (&[b"IV", BODY, TWO_IN_1], elect(C, 9, 5))],
        rows: &[[0, 0, 1, 0, 0, 9]],
    },
    Rescue { what: "22, not held", capacity: 1, told: &[(&[b"IV", BODY, FOUR_IN_0], refused(22))], rows: &[] },
    Rescue {
        what: "22, nothing logged",
        capacity: 1,
        told: &[(&[b"PR", BODY], COMMIT), (&[b"IV", BODY, FOUR_IN_0], refused(22))],
        rows: &[[1, 0, 0, 0, 0, 0]],
    },
    Rescue { what: "22 before 24", capacity: 1, told: &[(&[b"PR", BODY], COMMIT), (&[b"IV", BODY, FOUR_IN_LAST], refused(22))], rows: &[[1, 0, 0, 0, 0, 0]] },
    Rescue {
        what: "24, and the last view itself",
        capacity: 1,
        told: &[
            (LG_50, LOGGED),
            (&[b"IV", BODY, FOUR_IN_LAST], refused(24)),
            (&[b"IV", BODY, FOUR_BEFORE_LAST], elect(C, 65535, 5)),
            (&[b"IV", BODY, TWO_IN_LAST], elect(C, 65535, 5)),
            (&[b"IV", BODY, FOUR_IN_LAST], refused(24)),
        ],
        rows: &[[0, 0, 1, 0, 0, 65535]],
    },
    Rescue {
        what: "9 before 22 and 24",
        capacity: 1,
        told: &[(&[b"PR", BODY], COMMIT), (&[b"IV", OTHER, FOUR_IN_LAST], refused(9))],
        rows: &[[1, 0, 0, 0, 0, 0]],
    },
    Rescue {
        what: "a box that has decided",
        capacity: 1,
        told: &[
            (&[b"DC", BODY, PROVES_ABORT], Answer::Done),
            (&[b"IV", BODY, FOUR_IN_LAST], DECIDED_ABORT),
            (LD_1, DECIDED_ABORT),
            (LD_0, DECIDED_ABORT),
            (&[b"LD", BODY, ELECTED], DECIDED_ABORT),
            (&[b"IV", OTHER, FOUR_IN_0], refused(9)),
            (&[b"LD", OTHER, ELECTED], refused(9)),
        ],
        rows: &[[0, 0, 0, 2, 0, 0]],
    },
    Rescue {
        what: "it elects what it has logged, against its vote",
        capacity: 1,
        told: &[(&[RD], NOTHING_FOUND), (&[b"PR", BODY], abort(5)), (LG_50, LOGGED), (&[b"IV", BODY, FOUR_IN_0], elect(C, 1, 3))],
        rows: &[[2, 5, 1, 0, 0, 1]],
    },
    Rescue {
        what: "a leader's decision, over the other log",
        capacity: 1,
        told: &[(LG_50, LOGGED), (&[b"IV", BODY, FOUR_IN_0], elect(C, 1, 3)), (LD_1_ABORT, logged(A, 1))],
        rows: &[[0, 0, 2, 0, 1, 1]],
    },
    Rescue {
        what: "a log answer tells the log's view",
        capacity: 1,
        told: &[(LG_50, LOGGED), (LD_1_ABORT, logged(A, 1)), (LG_50, logged(A, 1)), (&[b"IV", BODY, TWO_IN_9], elect(A, 9, 5)), (LG_50, logged(A, 1))],
        rows: &[[0, 0, 2, 0, 1, 9]],
    },
    Rescue {
        what: "a log of view 0 in a later view",
        capacity: 1,
        told: &[(LG_50, LOGGED), (&[b"IV", BODY, FOUR_IN_0], elect(C, 1, 3)), (LG_50, LOGGED)],
        rows: &[[0, 0, 1, 0, 0, 1]],
    },
    Rescue { what: "a box in an earlier view takes it", capacity: 1, told: &[(LG_50, LOGGED), (LD_2, logged(C, 2))], rows: &[[0, 0, 1, 0, 2, 2]] },
    Rescue {
        what: "a box that has voted and not logged takes it",
        capacity: 1,
        told: &[(&[b"PR", BODY], COMMIT), (LD_1_ABORT, logged(A, 1)), (&[b"PR", BODY], COMMIT)],
        rows: &[[1, 0, 2, 0, 1, 1]],
    },
    Rescue {
        what: "a new entry, and its PR",
        capacity: 1,
        told: &[(LD_1, logged(C, 1)), (&[b"PR", BODY], COMMIT), (&[b"LG", BODY, ABORTS], logged(C, 1))],
        rows: &[[1, 0, 1, 0, 1, 1]],
    },
    Rescue {
        what: "a new entry is not live",
        capacity: 2,
        told: &[(LD_1, logged(C, 1)), (&[b"PR", READER], abort(2)), (&[RD], NOTHING_FOUND)],
        rows: &[[0, 0, 1, 0, 1, 1], [2, 2, 0, 0, 0, 0]],
    },
    Rescue {
        what: "23, 21, 13 of a new entry",
        capacity: 1,
        told: &[(&[b"PR", READS_START], COMMIT), (&[b"LD", BODY, ELECTED], refused(23)), (LD_0, refused(21)), (LD_1, refused(13))],
        rows: &[[1, 0, 0, 0, 0, 0]],
    },
    Rescue { what: "view 0 is always 21", capacity: 1, told: &[(LD_0, refused(21)), (LG_50, LOGGED), (LD_0, refused(21))], rows: &[[0, 0, 1, 0, 0, 0]] },
    Rescue {
        what: "23, another leads",
        capacity: 1,
        told: &[(&[b"LD", BODY, b"EL\x04\x01\x01\0\x05", IN_1], refused(23)), (&[b"LD", BODY, b"EL\x02\x01\x01\0\x05", IN_1], refused(23))],
        rows: &[],
    },
    Rescue {
        what: "23, the number of answers",
        capacity: 1,
        told: &[
            (&[b"LD", BODY, b"EL\x03\x01\x01\0\x04\0\x01\x01\0\x01\x01\x01\0\x02\x01\x01\0\x03\x01\x01\0"], refused(23)),
            (&[b"LD", BODY, b"EL\x03\x01\x01\0\x06", IN_1, b"\x05\x01\x01\0"], refused(23)),
        ],
        rows: &[],
    },
    Rescue {
        what: "23, their view",
        capacity: 1,
        told: &[
            (&[b"LD", BODY, LEADS_1, IN_0], refused(23)),
            (&[b"LD", BODY, LEADS_1, IN_2], refused(23)),
            (&[b"LD", BODY, LEADS_1, b"\0\x01\x01\0\x01\x01\x01\0\x02\x01\x01\0\x03\x01\x01\0\x04\x01\0\0"], refused(23)),
            (&[b"LD", BODY, LEADS_1, b"\0\x01\x01\x01\x01\x01\x01\0\x02\x01\x01\0\x03\x01\x01\0\x04\x01\x01\0"], refused(23)),
        ],
        rows: &[],
    },
    Rescue {
        what: "23, their majority",
        capacity: 1,
        told: &[(&[b"LD", BODY, LEADS_1_TO_ABORT, IN_1], refused(23)), (&[b"LD", BODY, LEADS_1, TO_ABORT_IN_1], refused(23))],
        rows: &[],
    },
    Rescue {
        what: "23 before 21",
        capacity: 1,
        told: &[(LD_2, logged(C, 2)), (LD_1, refused(21)), (&[b"LD", BODY, LEADS_1, TO_ABORT_IN_1], refused(23)), (&[b"LD", BODY, LEADS_0, IN_1], refused(23))],
        rows: &[[0, 0, 1, 0, 2, 2]],
    },
    Rescue {
        what: "21, the current view is above",
        capacity: 1,
        told: &[(LG_50, LOGGED), (&[b"IV", BODY, FOUR_PAST_1], elect(C, 2, 4)), (LD_1, refused(21)), (LD_2, logged(C, 2))],
        rows: &[[0, 0, 1, 0, 2, 2]],
    },
    Rescue {
        what: "21, logged in this view",
        capacity: 1,
        told: &[(LD_1, logged(C, 1)), (LD_1, refused(21)), (LD_1_ABORT, refused(21))],
        rows: &[[0, 0, 1, 0, 1, 1]],
    },
    Rescue {
        what: "a DC leaves the views",
        capacity: 1,
        told: &[(LD_1, logged(C, 1)), (&[b"IV", BODY, TWO_IN_9], elect(C, 9, 5)), (&[b"DC", BODY, PROVES_ABORT], Answer::Done)],
        rows: &[[0, 0, 1, 2, 1, 9]],
    },
    Rescue {
        what: "a body that replaces another has none",
        capacity: 1,
        told: &[(LD_1, logged(C, 1)), (&[b"IV", BODY, TWO_IN_9], elect(C, 9, 5)), (&[b"DC", OTHER, PROVES_COMMIT], Answer::Done)],
        rows: &[[0, 0, 0, 1, 0, 0]],
    },
];

/// Vote, reason, log, decision, logged view and current view of each entry.
fn viewed_rows(table: &[u8]) -> Vec<[u16; 6]> {
    let two = |row: &[u8], at: usize| u16::from_le_bytes([row[at], row[at + 1]]);
    let of = |row: &[u8]| {
        let [vote, reason, log, decided] = [VOTE_AT, REASON_AT, LOG_AT, DECIDED_AT].map(|at| u16::from(row[at]));
        [vote, reason, log, decided, two(row, LOG_VIEW_AT), two(row, VIEW_AT)]
    };
    table[HEAD..].chunks(ROW).take(table[0] as usize).map(of).collect()
}

pub(super) fn rescues(tried: &mut Tried) {
    for scene in RESCUES {
        let settings = Settings { f: 1, capacity: scene.capacity, clock: 100, delta: 10 };
        let mut by_engine = (vec![0; table_len(scene.capacity as usize)], vec![0; 512]);
        let mut by_model = by_engine.clone();
        for (number, (parts, due)) in scene.told.iter().enumerate() {
            sent(tried, &format!("{}, message {number}", scene.what), &mut by_engine, &mut by_model, &settings, &parts.concat(), *due);
        }
        tried.one(&format!("{}: the entries", scene.what), scene.rows.to_vec(), viewed_rows(&by_engine.0), viewed_rows(&by_model.0));
        tried.one(&format!("{}: table and read marks", scene.what), by_model.clone(), by_engine, by_model);
    }
}

/// One message to a box as it stands, of the engine's and of the model's.
fn once(tried: &mut Tried, what: &str, stood: &(Vec<u8>, Vec<u64>), settings: &Settings, message: &[u8], due: Answer) {
    let (mut by_engine, mut by_model) = (stood.clone(), stood.clone());
    sent(tried, what, &mut by_engine, &mut by_model, settings, message, due);
    tried.one(&format!("{what}: table and read marks"), by_model.clone(), by_engine, by_model);
}

/// A box that has logged commit of 50 by an LG, and is in this view.
fn logged_in(view: u16) -> (Vec<u8>, Vec<u64>) {
    let mut table = vec![0; table_len(1)];
    table[0] = 1;
    (table[HEAD + LOG_AT], table[HEAD + VIEW_AT], table[HEAD + VIEW_AT + 1]) = (1, view as u8, (view >> 8) as u8);
    table[HEAD + BODY_AT..HEAD + BODY_AT + BODY.len()].copy_from_slice(BODY);
    (table, vec![0; 512])
}

/// Every f, and any number of boxes in a view on either side of the box's own, with the others in view 0 or not listed: how far it moves on.
pub(super) fn moves(tried: &mut Tried) {
    for (f, current) in (1..=5u64).flat_map(|f| [0, 3, 65535].map(|current| (f, current))) {
        let (boxes, many, few) = (5 * f + 1, 3 * f + 1, f + 1);
        let stood = logged_in(current);
        let settings = Settings { f, capacity: 1, clock: 100, delta: 10 };
        for (high, count, others) in
            [1u16, 2, 3, 4, 255, 256, 65534, 65535].into_iter().flat_map(|high| (1..=boxes).flat_map(move |count| [(high, count, false), (high, count, true)]))
        {
            let views: Vec<(u8, u16)> = (0..if others { boxes } else { count }).map(|number| (number as u8, if number < count { high } else { 0 })).collect();
            // by 3f + 1 in the high view; by 3f + 1 in any, so in view 0; by f + 1 in the high view
            let next = match () {
                _ if count >= many => u32::from(high) + 1,
                _ if views.len() as u64 >= many => 1,
                _ if count >= few => u32::from(high),
                _ => 0,
            }
            .max(current.into());
            let due = if next > 65535 { refused(24) } else { elect(C, next as u16, ((u64::from(next) + 50) % boxes) as u8) };
            once(tried, &format!("IV, f {f}, in {current}, {count} in {high}, others {others}"), &stood, &settings, &iv(BODY, &views), due);
        }
    }
}

/// Every f, any number of answers, any number of them for the decision: taken with exactly 4f + 1 and more than half.
pub(super) fn led(tried: &mut Tried) {
    for f in 1..=5u64 {
        let (boxes, all) = (5 * f as usize + 1, 4 * f as usize + 1);
        let (settings, empty) = (Settings { f, capacity: 1, clock: 100, delta: 10 }, (vec![0; table_len(1)], vec![0; 512]));
        for (count, agree, decision) in (1..=boxes).flat_map(|count| (0..=count).flat_map(move |agree| [C, A].map(|decision| (count, agree, decision)))) {
            let against = if decision == C { A } else { C };
            let answers = (0..count).map(|number| (number as u8, if number < agree { decision } else { against }, 2)).collect();
            let election = Election { leader: (52 % boxes) as u8, decision, view: 2, answers };
            let due = if count == all && 2 * agree > all { logged(decision, 2) } else { refused(23) };
            once(tried, &format!("LD, f {f}, {agree} of {count} for {decision:?}"), &empty, &settings, &ld(BODY, &election), due);
        }
    }
}

/// Stamps and views at their ends: the leader is by a sum of whole numbers, in an election answer and in what is taken.
pub(super) fn leaders(tried: &mut Tried) {
    for (f, stamp) in (1..=5u64).flat_map(|f| [1, 50, 1 << 63, u64::MAX - 65535, u64::MAX - 1, u64::MAX].map(|stamp| (f, stamp))) {
        let settings = Settings { f, capacity: 1, clock: u64::MAX, delta: 0 };
        let body = [&b"TX\0\x01"[..], &stamp.to_le_bytes(), b"\x03\0\x07\0\0\0\0\0\0\0"].concat();
        let mut stood = logged_in(0);
        stood.0[HEAD + BODY_AT..HEAD + BODY_AT + body.len()].copy_from_slice(&body);
        for view in [1u16, 2, 255, 256, 65534, 65535] {
            let leader = ((u128::from(stamp) + u128::from(view)) % u128::from(5 * f + 1)) as u8;
            let views: Vec<(u8, u16)> = (0..=f as u8).map(|number| (number, view)).collect();
            once(tried, &format!("IV, f {f}, stamp {stamp}, to view {view}"), &stood, &settings, &iv(&body, &views), elect(C, view, leader));
            for number in 0..=5 * f as u8 {
                let election = Election { leader: number, decision: A, view, answers: (0..=4 * f as u8).map(|number| (number, A, view)).collect() };
                let due = if number == leader { logged(A, view) } else { refused(23) };
                once(tried, &format!("LD, f {f}, stamp {stamp}, view {view}, leader {number}"), &stood, &settings, &ld(&body, &election), due);
            }
        }
    }
}

// ---- sheets

/// One election answer on a leader's sheet: the reply, and the sheet afterwards.
fn elected(tried: &mut Tried, what: &str, lent: ElectionSheet, f: u64, [number, answer, view]: [u64; 3], due: (ElectionReply, ElectionSheet)) {
    let (mut by_engine, mut by_model) = (lent, lent);
    let reply = engine::elect(&mut by_engine, f, number, answer, view);
    let modelled = model::elect(&mut by_model, f, number, answer, view);
    tried.one(
        &format!("{what}, f {f}, box {number}, answer {answer} for view {view} on {lent:?}"),
        (Some(due.0), due.1),
        (reply, by_engine),
        (Some(modelled), by_model),
    );
}

const fn leads(view: u16, commits: u32, aborts: u32) -> ElectionSheet {
    ElectionSheet { view, commits, aborts }
}

/// Boxes 0, 1, 2 .. answer in turn, of every f, with any number of commits first: what is lacking, and what the leader makes of it.
pub(super) fn elections(tried: &mut Tried) {
    for (f, commits) in (1..=5u64).flat_map(|f| (0..=5 * f + 1).map(move |commits| (f, commits))) {
        let (boxes, all) = (5 * f + 1, 4 * f + 1);
        let on = |count: u64| leads(256, (1u32 << count.min(commits)) - 1, ((1u32 << count) - 1) & !((1u32 << count.min(commits)) - 1));
        for number in 0..boxes {
            let answer = if number < commits { 1 } else { 2 };
            let lacking = all.saturating_sub(number + 1) as u8;
            elected(tried, "in turn", on(number), f, [number, answer, 256], (ElectionReply::Taken(lacking), on(number + 1)));
            elected(tried, "again", on(number + 1), f, [number, 3 - answer, 256], (ElectionReply::Repeat, on(number + 1)));
            elected(tried, "another view before Repeat", on(number + 1), f, [number, answer, 0], (ElectionReply::OtherView, on(number + 1)));
            let answers = (0..all).map(|number| (number as u8, if number < commits { C } else { A }, 256)).collect();
            let decision = if 2 * commits.min(all) > all { C } else { A };
            let made = Election { leader: (306 % boxes) as u8, decision, view: 256, answers };
            let due = if number + 1 < all { Err(23) } else { Ok(made) };
            let sheet = on(number + 1);
            tried.one(&format!("election of {sheet:?}, f {f}"), due, engine::election(&sheet, f, 50), model::election(&sheet, f, 50));
        }
    }
}

/// The refusals of a leader's sheet, and their order.
pub(super) fn elections_refused(tried: &mut Tried) {
    let refusals: [(&str, ElectionSheet, u64, [u64; 3], u8); 13] = [
        ("f 0", leads(1, 0, 0), 0, [0, 1, 1], 14),
        ("f 6", leads(1, 0, 0), 6, [0, 1, 1], 14),
        ("14 before 16", leads(1, 1, 1), 6, [0, 1, 1], 14),
        ("box 6 of 6 under commit", leads(1, 1 << 6, 0), 1, [0, 1, 1], 16),
        ("box 6 of 6 under abort", leads(1, 0, 1 << 6), 1, [0, 1, 1], 16),
        ("a box under both", leads(1, 4, 4), 1, [0, 1, 1], 16),
        ("16 before 5", leads(1, 4, 4), 1, [6, 3, 0], 16),
        ("box 6", leads(1, 4, 0), 1, [6, 1, 1], 5),
        ("5 before 8", leads(1, 4, 0), 1, [6, 3, 0], 5),
        ("the largest box", leads(1, 4, 0), 5, [u64::MAX, 1, 1], 5),
        ("answer 0", leads(1, 4, 0), 1, [0, 0, 1], 8),
        ("8 before another view", leads(1, 4, 0), 1, [2, 3, 0], 8),
        ("the largest answer", leads(1, 4, 0), 1, [0, u64::MAX, 1], 8),
    ];
    for (what, lent, f, answer, due) in refusals {
        elected(tried, what, lent, f, answer, (ElectionReply::Refused(due), lent));
        if due == 14 || due == 16 {
            tried.one(&format!("election: {what}"), Err(due), engine::election(&lent, f, 50), model::election(&lent, f, 50));
        }
    }
    for view in [0, 2, 65535, 65536 + 1, u64::MAX] {
        elected(tried, "another view", leads(1, 4, 0), 1, [0, 1, view], (ElectionReply::OtherView, leads(1, 4, 0)));
    }
    // 2^64 - 1 and view 7: box 2^64 + 6 mod 6; with one box more than five on the sheet the highest is left out
    let sheet = leads(7, 0b01_1100, 0b10_0011);
    let answers = [(0, A, 7), (1, A, 7), (2, C, 7), (3, C, 7), (4, C, 7)].to_vec();
    let due = Ok(Election { leader: 4, decision: C, view: 7, answers });
    tried.one("six answers, the lowest five", due, engine::election(&sheet, 1, u64::MAX), model::election(&sheet, 1, u64::MAX));
}

/// What a gateway's sheet of views is told, and what it lists.
pub(super) fn views_told(tried: &mut Tried) {
    let sheet = |told: u32, of: &[(usize, u16)]| {
        let mut views = [9; 26];
        of.iter().for_each(|(number, view)| views[*number] = *view);
        ViewSheet { told, views }
    };
    let told: [(&str, ViewSheet, u64, u64, u64, (u8, ViewSheet)); 14] = [
        ("first", sheet(0, &[]), 1, 5, 3, (0, sheet(0b10_0000, &[(5, 3)]))),
        ("a lower one than stood there unused", sheet(0, &[]), 1, 0, 0, (0, sheet(1, &[(0, 0)]))),
        ("a higher one", sheet(1, &[]), 1, 0, 65535, (0, sheet(1, &[(0, 65535)]))),
        ("a lower one", sheet(1, &[]), 1, 0, 8, (0, sheet(1, &[]))),
        ("the same", sheet(1, &[]), 1, 0, 9, (0, sheet(1, &[]))),
        ("box 25 of 26", sheet(1, &[]), 5, 25, 256, (0, sheet(1 | 1 << 25, &[(25, 256)]))),
        ("f 0", sheet(0, &[]), 0, 0, 0, (14, sheet(0, &[]))),
        ("14 before 16", sheet(1 << 6, &[]), 6, 0, 0, (14, sheet(1 << 6, &[]))),
        ("box 6 of 6 on it", sheet(1 << 6, &[]), 1, 0, 0, (16, sheet(1 << 6, &[]))),
        ("16 before 5", sheet(1 << 31, &[]), 5, 26, 65536, (16, sheet(1 << 31, &[]))),
        ("box 6", sheet(1, &[]), 1, 6, 0, (5, sheet(1, &[]))),
        ("the largest box", sheet(1, &[]), 1, u64::MAX, 0, (5, sheet(1, &[]))),
        ("a view that there is not", sheet(1, &[]), 1, 0, 65536, (5, sheet(1, &[]))),
        ("the largest view", sheet(1, &[]), 1, 0, u64::MAX, (5, sheet(1, &[]))),
    ];
    for (what, lent, f, number, view, due) in told {
        let (mut by_engine, mut by_model) = (lent, lent);
        let (given, modelled) = (engine::tell(&mut by_engine, f, number, view), model::tell(&mut by_model, f, number, view).err().unwrap_or(0));
        tried.one(&format!("told: {what}"), due, (given, by_engine), (modelled, by_model));
    }
    let listed: [(&str, ViewSheet, u64, Result<Vec<(u8, u16)>, u8>); 6] = [
        ("none", sheet(0, &[]), 1, Ok(vec![])),
        ("rising", sheet(0b10_0101, &[(0, 65535), (2, 0), (5, 256)]), 1, Ok(vec![(0, 65535), (2, 0), (5, 256)])),
        ("all of 26", sheet((1 << 26) - 1, &[]), 5, Ok((0..26).map(|number| (number, 9)).collect())),
        ("f 6", sheet(1 << 6, &[]), 6, Err(14)),
        ("box 6 of 6", sheet(1 << 6 | 1, &[]), 1, Err(16)),
        ("box 26 of 26", sheet(1 << 26, &[]), 5, Err(16)),
    ];
    for (what, lent, f, due) in listed {
        tried.one(&format!("listed: {what}"), due, engine::told(&lent, f), model::told(&lent, f));
    }
}
