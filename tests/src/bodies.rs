//! Two bodies under one stamp, by the engine and by the model: bodies that differ in one byte, at every place where two readable ones can; in their counts
//! alone; in their length, the longer one's end standing in the row behind the shorter. A comparison of a prefix, or of some fields, would take them for one.

use crate::engine::{self, Entrance};
use crate::model::{self, Answer, Decision, Settings, Vote};
use stobbarel::layout::{table_len, BODY_AT, HEAD};

/// A TX's mark, counts and stamp.
const FRONT: usize = 12;
const ITEM: usize = 10;
const LONGEST: usize = FRONT + 16 * ITEM;
/// The largest stamp, so that nearly every version is below it; no clock is behind it.
const STAMP: u64 = u64::MAX;
const SETTINGS: Settings = Settings { f: 1, capacity: 2, clock: u64::MAX, delta: 0 };

const COMMIT_PROOF: &[u8] = b"VL\x01\x01\x06\0\x01\x01\x01\x02\x01\x03\x01\x04\x01\x05\x01";
const ABORT_PROOF: &[u8] = b"VL\x01\x02\x04\0\x02\x01\x02\x02\x02\x03\x02";

/// Four boxes in view 0; and the leader of view 1, which is box 2^64 mod 6, with five answers.
const ALL_IN_VIEW_0: &[u8] = b"VS\x04\0\0\0\x01\0\0\x02\0\0\x03\0\0";
const LED_IN_VIEW_1: &[u8] = b"EL\x04\x01\x01\0\x05\0\x01\x01\0\x01\x01\x01\0\x02\x01\x01\0\x03\x02\x01\0\x04\x02\x01\0";

/// So many reads and writes, with these keys in their order.
fn body(r: usize, w: usize, keys: &[u16]) -> Vec<u8> {
    let mut bytes = vec![b'T', b'X', r as u8, w as u8];
    bytes.extend(STAMP.to_le_bytes());
    for (place, key) in keys[..r + w].iter().enumerate() {
        bytes.extend(key.to_le_bytes());
        bytes.extend((place as u64 * 0x0101_0101).to_le_bytes());
    }
    bytes
}

/// Eight keys, of which the one at `place` can be raised by 256 and stay in order.
fn spread(place: u16) -> Vec<u16> {
    (0..8).map(|at| 4 * at + if at > place { 256 + 32 } else { 0 }).collect()
}

/// A body held by the engine's box and by the model's, and what they answer beside it.
struct Pair {
    engine: (Vec<u8>, Vec<u64>),
    model: (Vec<u8>, Vec<u64>),
    wrong: u64,
}

impl Pair {
    fn new() -> Pair {
        let empty = (vec![0; table_len(2)], vec![0; 512]);
        Pair { engine: empty.clone(), model: empty, wrong: 0 }
    }

    /// One message to both; what it is answered, where they agree.
    fn call(&mut self, parts: &[&[u8]]) -> Option<Answer> {
        let message = parts.concat();
        let (table, marks) = &mut self.engine;
        let by_engine = engine::call(Entrance::Receive, table, marks, &SETTINGS, &message).ok().and_then(engine::answer_of);
        let (table, marks) = &mut self.model;
        let by_model = model::call(table, marks, &SETTINGS, &message, Entrance::Receive.taken(), &mut Vec::new());
        by_engine.filter(|answer| *answer == by_model && self.engine == self.model)
    }

    /// Apart from A6's number, in which engine and model agree.
    fn due(&mut self, what: &str, parts: &[&[u8]], due: Answer) {
        let given = self.call(parts);
        if given.map(Answer::apart_from_number) != Some(due.apart_from_number()) {
            self.wrong += 1;
            println!("{what}: {due:?} is due, and engine and model give {given:?}; {parts:02x?}");
        }
    }

    /// Bytes of the first row behind its body, as they stand in another body.
    fn end_of(&mut self, held: usize, other: &[u8]) {
        for (table, _) in [&mut self.engine, &mut self.model] {
            table[HEAD + BODY_AT..][held..other.len()].copy_from_slice(&other[held..]);
        }
    }
}

/// How many answers are wrong where `held` is held and `other` comes.
fn beside(held: &[u8], other: &[u8]) -> u64 {
    let mut pair = Pair::new();
    let Some(vote @ Answer::Voted(Vote::Commit | Vote::Abort(_), Some(_))) = pair.call(&[b"PR", held]) else {
        println!("no vote on {held:02x?}");
        return 1;
    };
    if held.len() < other.len() {
        pair.end_of(held.len(), other);
    }
    pair.due("PR of the body held", &[b"PR", held], vote);
    pair.due("PR of another", &[b"PR", other], Answer::Refused(9));
    pair.due("LG of another", &[b"LG", other, COMMIT_PROOF], Answer::Refused(9));
    pair.due("DC abort of another", &[b"DC", other, ABORT_PROOF], Answer::Refused(9));
    pair.due("IV of another", &[b"IV", other, ALL_IN_VIEW_0], Answer::Refused(9));
    pair.due("LD of another", &[b"LD", other, LED_IN_VIEW_1], Answer::Refused(9));
    pair.due("DC commit of another replaces it", &[b"DC", other, COMMIT_PROOF], Answer::Done);
    pair.due("PR of the new one", &[b"PR", other], Answer::Decided(Decision::Commit));
    pair.due("PR of the one replaced", &[b"PR", held], Answer::Refused(9));
    pair.wrong + beside_logged(held, other, vote)
}

/// The same where an LG stored `held`, which a PR would have given this vote.
fn beside_logged(held: &[u8], other: &[u8], vote: Answer) -> u64 {
    let mut pair = Pair::new();
    pair.due("LG of a body not held", &[b"LG", held, COMMIT_PROOF], Answer::Logged(Decision::Commit, 0));
    if held.len() < other.len() {
        pair.end_of(held.len(), other);
    }
    pair.due("LG of another than the one logged", &[b"LG", other, ABORT_PROOF], Answer::Refused(9));
    pair.due("PR of another than the one logged", &[b"PR", other], Answer::Refused(9));
    pair.due("LG again", &[b"LG", held, ABORT_PROOF], Answer::Logged(Decision::Commit, 0));
    pair.due("IV of another than the one logged", &[b"IV", other, ALL_IN_VIEW_0], Answer::Refused(9));
    pair.due("IV of the one logged", &[b"IV", held, ALL_IN_VIEW_0], Answer::Elected { decision: Decision::Commit, view: 1, leader: 4 });
    pair.due("LD of another than the one logged", &[b"LD", other, LED_IN_VIEW_1], Answer::Refused(9));
    pair.due("LD of the one logged", &[b"LD", held, LED_IN_VIEW_1], Answer::Logged(Decision::Commit, 1));
    pair.due("PR of the one logged", &[b"PR", held], vote);
    pair.wrong
}

/// Every readable body that differs from one in one bit behind the stamp; the places where there is one.
fn one_bit_apart(held: &[u8], places: &mut [bool; LONGEST]) -> (u64, u64) {
    let (mut tried, mut wrong) = (0, 0);
    for at in FRONT..held.len() {
        for bit in 0..8 {
            let mut other = held.to_vec();
            other[at] ^= 1 << bit;
            if model::reading_tx(&other).is_ok() {
                places[at] = true;
                tried += 1;
                wrong += beside(held, &other);
            }
        }
    }
    (tried, wrong)
}

/// False where an answer is not the one due, or where a place was not tried.
pub fn check() -> bool {
    let mut places = [false; LONGEST];
    let (mut tried, mut wrong) = (0, 0);
    for place in 0..8 {
        let keys = spread(place);
        let (more, bad) = one_bit_apart(&body(8, 8, &[&keys[..], &keys[..]].concat()), &mut places);
        (tried, wrong) = (tried + more, wrong + bad);
    }
    let keys: Vec<u16> = (0..16).collect();
    let split = |all: usize| (0..=all).filter(move |r| *r <= 8 && all - r <= 8).map(move |r| (r, all - r));
    for all in 1..=16 {
        for (r, w) in split(all) {
            let others = split(all).filter(|other| *other != (r, w)).chain(split(all - 1).filter(|_| all > 1)).chain(split(all + 1));
            for (other_r, other_w) in others {
                tried += 1;
                wrong += beside(&body(r, w, &keys), &body(other_r, other_w, &keys));
            }
        }
    }
    let missed = places[FRONT..].iter().filter(|place| !**place).count();
    println!("{tried} pairs of bodies under one stamp: {wrong} answers differ; {missed} bytes of a body were never the only ones to differ");
    wrong == 0 && missed == 0
}
