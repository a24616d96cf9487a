//! The calls that are timed, and the tables they are made on: entries as they come from votes and decisions.

use crate::boxes::{Lent, Undo};
use crate::model::{self, entries_of, transaction_bytes, Answer, Decision, Entry, Settings, Transaction, Vote, MARKS};
use crate::random::Random;
use stobbarel::layout::table_len;

pub const SETTINGS: Settings = Settings { f: 5, capacity: 255, clock: 1_000_000, delta: 1000 };
/// Entry i has stamp FIRST + STEP * i.
pub const FIRST: u64 = 1000;
pub const STEP: u64 = 10;

const COMMIT: Answer = Answer::Voted(Vote::Commit, None);

pub struct Call {
    pub lent: Lent,
    pub message: Vec<u8>,
    pub undo: Undo,
    pub due: Answer,
}

#[derive(Clone, Copy)]
pub enum Name {
    PrNew,
    PrLate,
    PrSmall,
    PrAgain,
    Lg,
    Dc,
    DcNew,
    Rd,
}

pub const NAMES: [(Name, &str); 8] = [
    (Name::PrNew, "PR new"),
    (Name::PrLate, "PR late"),
    (Name::PrSmall, "PR small"),
    (Name::PrAgain, "PR again"),
    (Name::Lg, "LG"),
    (Name::Dc, "DC"),
    (Name::DcNew, "DC new"),
    (Name::Rd, "RD"),
];

/// The newest live version of a key below a stamp; none where it is undecided.
fn version(held: &[Entry], key: u16, below: u64) -> Option<u64> {
    let writes = |entry: &&Entry| entry.body.writes.iter().any(|(written, _)| *written == key);
    let newest = held.iter().filter(|entry| entry.live() && entry.body.stamp < below).filter(writes).max_by_key(|entry| entry.body.stamp);
    match newest {
        None => Some(0),
        Some(entry) => entry.decision.map(|_| entry.body.stamp),
    }
}

/// Whether a live entry with a higher stamp read the key below this stamp.
fn read_over(held: &[Entry], key: u16, stamp: u64) -> bool {
    let mut above = held.iter().filter(|entry| entry.live() && entry.body.stamp > stamp);
    above.any(|entry| entry.body.reads.iter().any(|(read, version)| *read == key && *version < stamp))
}

/// Some of 512 keys, rising, those that serve.
fn keys(random: &mut Random, count: usize, serves: impl Fn(u16) -> bool) -> Vec<u16> {
    let mut chosen: Vec<u16> = Vec::new();
    while chosen.len() < count {
        let key = random.below(512) as u16;
        if !chosen.contains(&key) && serves(key) {
            chosen.push(key);
        }
    }
    chosen.sort_unstable();
    chosen
}

/// A transaction that is voted commit: it reads what is committed, and no later read is undercut.
pub fn body(random: &mut Random, held: &[Entry], stamp: u64, many: usize) -> Transaction {
    let reads = keys(random, many, |key| version(held, key, stamp).is_some());
    let writes = keys(random, many, |key| !read_over(held, key, stamp));
    Transaction {
        mark: *b"TX",
        stamp,
        reads: reads.into_iter().map(|key| (key, version(held, key, stamp).expect("committed"))).collect(),
        writes: writes.into_iter().map(|key| (key, random.next())).collect(),
    }
}

pub fn prepared(tx: &Transaction) -> Vec<u8> {
    [b"PR".to_vec(), transaction_bytes(tx)].concat()
}

/// An LG or a DC whose list has all 26 boxes, each with this decision.
pub fn listed(mark: &[u8; 2], tx: &Transaction, decision: u8) -> Vec<u8> {
    let mut message = [mark.to_vec(), transaction_bytes(tx), vec![b'V', b'L', 1, decision, 26]].concat();
    for number in 0..26 {
        message.extend([number, decision]);
    }
    message
}

pub fn send(lent: &mut Lent, message: &[u8]) -> Answer {
    model::call(&mut lent.table, &mut lent.marks, &SETTINGS, message, &MARKS, &mut Vec::new()).apart_from_number()
}

/// The engine counts the entries that a PR visits (A6); the two other boxes do not, and are timed without.
pub fn said(answer: Option<Answer>) -> Option<Answer> {
    answer.map(Answer::apart_from_number)
}

pub fn held(lent: &Lent) -> Vec<Entry> {
    entries_of(&lent.table, 255).expect("a table that is taken")
}

/// So many entries, each with so many reads and writes: of sixteen, eleven committed, one aborted, four undecided with vote commit.
fn filled(random: &mut Random, count: usize, many: usize) -> Lent {
    let mut lent = Lent { table: vec![0; table_len(255)], marks: vec![0; 512] };
    for i in 0..count {
        let tx = body(random, &held(&lent), FIRST + STEP * i as u64, many);
        assert_eq!(send(&mut lent, &prepared(&tx)), COMMIT);
        let last = i + 1 == count;
        let decision = match i % 16 {
            _ if last => continue,
            5 => 2,
            2 | 7 | 10 | 15 => continue,
            _ => 1,
        };
        assert_eq!(send(&mut lent, &listed(b"DC", &tx, decision)), Answer::Done);
    }
    lent
}

fn last(lent: &Lent) -> Transaction {
    held(lent).pop().expect("an entry").body
}

/// A call on a table that has `size` entries once it is made.
pub fn call(name: Name, size: usize) -> Call {
    let mut random = Random::new(size as u64);
    let many = if matches!(name, Name::PrSmall) { 1 } else { 8 };
    let new = matches!(name, Name::PrNew | Name::PrLate | Name::PrSmall | Name::DcNew);
    let lent = filled(&mut random, size - usize::from(new), many);
    let highest = FIRST + STEP * size as u64;
    let middle = FIRST + STEP * (size as u64 / 2) - 1;
    let mut fresh = |stamp| body(&mut random, &held(&lent), stamp, many);
    let (message, undo, due) = match name {
        Name::PrNew | Name::PrSmall => (prepared(&fresh(highest)), Undo::Entry, COMMIT),
        Name::PrLate => (prepared(&fresh(middle)), Undo::Entry, COMMIT),
        Name::PrAgain => (prepared(&last(&lent)), Undo::Nothing, COMMIT),
        Name::Lg => (listed(b"LG", &last(&lent), 1), Undo::Log, Answer::Logged(Decision::Commit, 0)),
        Name::Dc => (listed(b"DC", &last(&lent), 1), Undo::Decision, Answer::Done),
        Name::DcNew => (listed(b"DC", &fresh(highest), 1), Undo::Entry, Answer::Done),
        Name::Rd => read(&lent, highest),
    };
    Call { lent, message, undo, due }
}

/// RD of a key at a stamp.
pub fn reading(key: u16, stamp: u64) -> Vec<u8> {
    [b"RD".to_vec(), key.to_le_bytes().to_vec(), stamp.to_le_bytes().to_vec()].concat()
}

/// RD of a key that the last entry writes.
fn read(lent: &Lent, stamp: u64) -> (Vec<u8>, Undo, Answer) {
    let key = last(lent).writes[0].0;
    let message = reading(key, stamp);
    let due = send(&mut lent.clone(), &message);
    (message, Undo::Mark(key as usize), due)
}
