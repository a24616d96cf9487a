//! Records written, read by themselves and taken apart, against the model: every answer, and every byte of the buffer.

use crate::engine::{self, Fields, Views};
use crate::member::{Engine, Model};
use crate::messages::tx;
use crate::model::{self, Draft, ListDraft, Record, ViewsDraft, DC, LG, PAPER};
use crate::random::Random;
use std::collections::BTreeMap;

/// One that writes records and reads them: the engine; or the model, with rules that may be broken.
pub trait Clerk {
    /// The number and the length; the buffer becomes what is left.
    fn write(&self, record: &Record, f: u64, out: &mut Vec<u8>) -> Result<(u8, usize), String>;
    fn reading_vl(&self, bytes: &[u8], f: u64) -> u8;
    fn reading_vs(&self, bytes: &[u8], f: u64) -> u8;
    fn reading_el(&self, bytes: &[u8], f: u64) -> u8;
    fn fields(&self, bytes: &[u8], f: u64) -> Fields;
    fn views(&self, bytes: &[u8], f: u64) -> Views;
}

impl Clerk for Engine {
    fn write(&self, record: &Record, f: u64, out: &mut Vec<u8>) -> Result<(u8, usize), String> {
        engine::write(record, f, out)
    }

    fn reading_vl(&self, bytes: &[u8], f: u64) -> u8 {
        engine::reading_vl(bytes, f)
    }

    fn reading_vs(&self, bytes: &[u8], f: u64) -> u8 {
        engine::reading_vs(bytes, f)
    }

    fn reading_el(&self, bytes: &[u8], f: u64) -> u8 {
        engine::reading_el(bytes, f)
    }

    fn fields(&self, bytes: &[u8], f: u64) -> Fields {
        engine::fields(bytes, f)
    }

    fn views(&self, bytes: &[u8], f: u64) -> Views {
        engine::views(bytes, f)
    }
}

impl Clerk for Model {
    fn write(&self, record: &Record, f: u64, out: &mut Vec<u8>) -> Result<(u8, usize), String> {
        Ok(match model::written_by(self.0, record, f, out.len()) {
            Ok(bytes) => {
                out[..bytes.len()].copy_from_slice(&bytes);
                (0, bytes.len())
            }
            Err(number) => (number, 0),
        })
    }

    fn reading_vl(&self, bytes: &[u8], f: u64) -> u8 {
        model::reading_vl_by(self.0, bytes, f).err().unwrap_or(0)
    }

    fn reading_vs(&self, bytes: &[u8], f: u64) -> u8 {
        model::reading_vs_by(self.0, bytes, f).err().unwrap_or(0)
    }

    fn reading_el(&self, bytes: &[u8], f: u64) -> u8 {
        model::reading_el_by(self.0, bytes, f).err().unwrap_or(0)
    }

    /// Zeros are what a message does not have; what an IV and an LD list is no list of votes or logs.
    fn fields(&self, bytes: &[u8], f: u64) -> Fields {
        let read = model::fields_by(self.0, bytes, f);
        let (mark, key, tx, vl) = match read {
            Ok(Record::Pr(tx)) => (1, 0, tx, ListDraft::default()),
            Ok(Record::Listed(mark, tx, vl)) => (mark, 0, tx, vl),
            Ok(Record::Rd { key, stamp }) => (4, u64::from(key), Draft { stamp, ..Draft::default() }, ListDraft::default()),
            Ok(Record::Iv(tx, _)) => (5, 0, tx, ListDraft::default()),
            Ok(Record::Ld(tx, _)) => (6, 0, tx, ListDraft::default()),
            _ => (0, 0, Draft::default(), ListDraft::default()),
        };
        let listed = [u64::from(vl.kind), u64::from(vl.decision), u64::from(vl.view), vl.count as u64];
        let head = [mark, tx.stamp, tx.r as u64, tx.w as u64, key, listed[0], listed[1], listed[2], listed[3]];
        (read.err().unwrap_or(0), head, tx, vl)
    }

    /// Of a message that has none only the mark.
    fn views(&self, bytes: &[u8], f: u64) -> Views {
        match model::fields_by(self.0, bytes, f) {
            Ok(Record::Iv(_, told)) => (0, 5, told),
            Ok(Record::Ld(_, told)) => (0, 6, told),
            Ok(Record::Pr(_)) => (0, 1, ViewsDraft::default()),
            Ok(Record::Listed(mark, ..)) => (0, mark, ViewsDraft::default()),
            Ok(_) => (0, 4, ViewsDraft::default()),
            Err(number) => (number, 0, ViewsDraft::default()),
        }
    }
}

/// How often each writer and reader gave each number (0: accepted), and how often it was another than the model's; how often a view was met.
pub struct Outcome {
    pub answers: BTreeMap<(&'static str, u8), u64>,
    met: BTreeMap<&'static str, u64>,
    pub disagreements: u64,
    /// Disagreements are printed.
    told: bool,
}

/// Every answer that each can give.
const REACHABLE: [(&str, &[u8]); 18] = [
    ("write TX", &[0, 3, 5, 6, 7, 17]),
    ("write VL", &[0, 14, 3, 8, 5, 6, 17]),
    ("write PR", &[0, 3, 5, 6, 7, 17]),
    ("write LG", &[0, 14, 3, 5, 6, 7, 8, 17]),
    ("write DC", &[0, 14, 3, 5, 6, 7, 8, 17]),
    ("write no mark", &[14, 3, 5, 6, 7, 2]),
    ("write RD", &[0, 5, 17]),
    ("read TX", &[0, 1, 2, 3, 4, 5, 6, 7]),
    ("read VL", &[0, 14, 1, 2, 3, 4, 8, 5, 6]),
    ("write VS", &[0, 14, 3, 5, 6, 17]),
    ("write EL", &[0, 14, 3, 8, 5, 6, 17]),
    ("write IV", &[0, 14, 3, 5, 6, 7, 17]),
    ("write LD", &[0, 14, 3, 5, 6, 7, 8, 17]),
    ("read VS", &[0, 14, 1, 2, 3, 4, 5, 6]),
    ("read EL", &[0, 14, 1, 2, 3, 4, 8, 5, 6]),
    ("fields", &[0, 14, 1, 2, 3, 4, 5, 6, 7, 8]),
    ("views", &[0, 14, 1, 2, 3, 4, 5, 6, 7, 8]),
    ("thresholds", &[0, 14]),
];

/// Views, and what stands in their place, that have to be met.
const VIEWED: [&str; 14] = [
    "logs written, view 0",
    "logs written, view 1 to 255",
    "logs written, a view above 255",
    "votes written, a view lent beside them",
    "logs read, a view whose bytes differ",
    "a list of logs that ends before its view",
    "a list of logs that ends inside its view",
    "a list of logs without its view",
    "a list of another kind with two bytes too many",
    "views or answers written, one of view 0",
    "views or answers written, one of view 1 to 255",
    "views or answers written, one of a view above 255",
    "an EL read, a view whose bytes differ",
    "a VS or an EL that ends inside a view",
];

/// What a list shows of a view as it is written.
fn viewed(list: &ListDraft) -> Option<&'static str> {
    match (list.kind, list.view) {
        (1, 1..) => Some(VIEWED[3]),
        (2, 0) => Some(VIEWED[0]),
        (2, 1..=255) => Some(VIEWED[1]),
        (2, _) => Some(VIEWED[2]),
        _ => None,
    }
}

/// What the first ballot shows of a view as it is written.
fn told_view(told: &ViewsDraft) -> &'static str {
    VIEWED[match told.ballots[0].2 {
        0 => 9,
        1..=255 => 10,
        _ => 11,
    }]
}

/// What the bytes of a VS or an EL show of one.
fn shows_told(bytes: &[u8]) -> Option<&'static str> {
    match bytes {
        [b'E', b'L', _, _, low, high, count @ 1..=26, rest @ ..] if rest.len() == 4 * usize::from(*count) && low != high => Some(VIEWED[12]),
        [b'E', b'L', _, _, _, _, count @ 1..=26, rest @ ..] if rest.len() < 4 * usize::from(*count) && rest.len() % 4 == 3 => Some(VIEWED[13]),
        [b'V', b'S', count @ 1..=26, rest @ ..] if rest.len() < 3 * usize::from(*count) && rest.len() % 3 == 2 => Some(VIEWED[13]),
        _ => None,
    }
}

/// What the bytes of a list show of one.
fn shows(bytes: &[u8]) -> Option<&'static str> {
    let [b'V', b'L', kind, _, count @ 1..=26, rest @ ..] = bytes else { return None };
    match (kind, rest.len()) {
        (2, 0) => Some(VIEWED[5]),
        (2, 1) => Some(VIEWED[6]),
        (2, length) if length == 2 * usize::from(*count) => Some(VIEWED[7]),
        (2, length) if length == 2 + 2 * usize::from(*count) && rest[0] != rest[1] => Some(VIEWED[4]),
        (kind, length) if *kind != 2 && length == 2 + 2 * usize::from(*count) => Some(VIEWED[8]),
        _ => None,
    }
}

impl Outcome {
    fn new(told: bool) -> Outcome {
        Outcome { answers: BTreeMap::new(), met: BTreeMap::new(), disagreements: 0, told }
    }

    fn meet(&mut self, what: Option<&'static str>) {
        what.into_iter().for_each(|what| *self.met.entry(what).or_default() += 1);
    }

    fn note(&mut self, who: &'static str, due: u8, same: bool, what: impl FnOnce() -> String) {
        *self.answers.entry((who, due)).or_default() += 1;
        if !same {
            self.disagreements += 1;
            if self.told && self.disagreements <= 5 {
                println!("DISAGREEMENT: {who}, model {due}: {}", what());
            }
        }
    }

    /// Prints the counts: how many answers did not occur.
    pub fn told(&self) -> u64 {
        let mut missing = 0;
        for (who, numbers) in REACHABLE {
            let times: Vec<String> = numbers
                .iter()
                .map(|number| {
                    let times = self.answers.get(&(who, *number)).copied().unwrap_or(0);
                    missing += u64::from(times == 0);
                    format!("{number}: {times}{}", if times == 0 { " DID NOT OCCUR" } else { "" })
                })
                .collect();
            println!("{who:>13}  {}", times.join(", "));
        }
        for what in VIEWED {
            let times = self.met.get(what).copied().unwrap_or(0);
            println!("{times:9}  {what}{}", if times == 0 { "  DID NOT OCCUR" } else { "" });
            missing += u64::from(times == 0);
        }
        missing
    }
}

fn rising(random: &mut Random, count: usize, below: u64) -> Vec<u64> {
    let mut chosen: Vec<u64> = Vec::new();
    while chosen.len() < count {
        let one = if random.chance(10) { random.one_of(&[0, below - 1]) } else { random.below(below) };
        if !chosen.contains(&one) {
            chosen.push(one);
        }
    }
    chosen.sort_unstable();
    chosen
}

/// A transaction in order; the places that are not used hold anything.
fn draft(random: &mut Random) -> Draft {
    let (mut r, w) = (random.below(9) as usize, random.below(9) as usize);
    if r + w == 0 {
        r = 1;
    }
    let stamp = match random.below(4) {
        0 => u64::MAX - random.below(2),
        1 => random.between(1, 3),
        _ => random.between(1, u64::MAX) >> random.below(63),
    }
    .max(1);
    let mut made = Draft { stamp, r, w, ..Draft::default() };
    let mut place = || (random.next() as u16, random.next());
    made.reads = std::array::from_fn(|_| place());
    made.writes = std::array::from_fn(|_| place());
    for (i, key) in rising(random, r, 512).into_iter().enumerate() {
        let version = if random.chance(30) { stamp - 1 } else { random.below(stamp) };
        made.reads[i] = (key as u16, version);
    }
    for (i, key) in rising(random, w, 512).into_iter().enumerate() {
        made.writes[i].0 = key as u16;
    }
    made
}

/// Both sides of where a view outgrows a byte, and the last.
const VIEWS: [u16; 5] = [0, 1, 255, 256, 65535];

/// A list in order for f; a view stands beside votes too.
fn list(random: &mut Random, f: u64) -> ListDraft {
    let boxes = 5 * f.clamp(1, 5) + 1;
    let count = random.between(1, boxes) as usize;
    let view = if random.chance(50) { random.one_of(&VIEWS) } else { random.next() as u16 };
    let mut made = ListDraft { kind: random.between(1, 2) as u8, decision: random.between(1, 2) as u8, view, count, ..ListDraft::default() };
    made.pairs = std::array::from_fn(|_| (random.next() as u8, random.next() as u8));
    for (i, number) in rising(random, count, boxes).into_iter().enumerate() {
        made.pairs[i] = (number as u8, random.between(1, 2) as u8);
    }
    made
}

/// What boxes told, in order for f; a leader, a decision, a view and answers stand beside the views of a VS too.
fn told(random: &mut Random, f: u64) -> ViewsDraft {
    let boxes = 5 * f.clamp(1, 5) + 1;
    let count = random.between(1, boxes) as usize;
    let mut view = || if random.chance(50) { random.one_of(&VIEWS) } else { random.next() as u16 };
    let (own, views): (u16, [u16; 26]) = (view(), std::array::from_fn(|_| view()));
    let mut made = ViewsDraft { leader: random.below(boxes) as u8, decision: random.between(1, 2) as u8, view: own, count, ..ViewsDraft::default() };
    made.ballots = std::array::from_fn(|i| (random.next() as u8, random.next() as u8, views[i]));
    for (i, number) in rising(random, count, boxes).into_iter().enumerate() {
        made.ballots[i] = (number as u8, random.between(1, 2) as u8, views[i]);
    }
    made
}

fn spoil_told(random: &mut Random, made: &mut ViewsDraft, f: u64) {
    let (i, j) = (random.below(made.count.min(26) as u64) as usize, random.below(26) as usize);
    let boxes = (5 * f.clamp(1, 5) + 1) as u8;
    match random.below(8) {
        0 => made.count = random.one_of(&[0, 26, 27, 255, 256, 1 << 32, usize::MAX]),
        1 => made.leader = random.one_of(&[boxes, boxes - 1, 26, 255]),
        2 => made.decision = random.one_of(&[0, 3, 255]),
        3 => made.ballots[i].1 = random.one_of(&[0, 3, 255]),
        4 => made.ballots[i].0 = random.one_of(&[boxes, boxes - 1, 26, 255]),
        5 => made.ballots[i].0 = made.ballots[j].0,
        6 => made.ballots.swap(i, j),
        _ => made.ballots[i].2 = random.next() as u16,
    }
}

fn spoil(random: &mut Random, made: &mut Draft) {
    let (i, j) = (random.below(8) as usize, random.below(8) as usize);
    let stamp = made.stamp;
    match random.below(12) {
        0 => made.r = random.one_of(&[8, 9, 10, 255, 256, 1 << 32, usize::MAX - 7, usize::MAX]),
        1 => made.w = random.one_of(&[8, 9, 10, 255, 256, 1 << 32, usize::MAX - 7, usize::MAX]),
        2 => (made.r, made.w) = (0, 0),
        3 => made.stamp = 0,
        4 => made.reads[i].0 = random.one_of(&[511, 512, 513, 65535]),
        5 => made.writes[i].0 = random.one_of(&[511, 512, 513, 65535]),
        6 => made.reads[i].0 = made.reads[j].0,
        7 => made.writes[i].0 = made.writes[j].0,
        8 => made.writes.swap(i, j),
        9 => made.reads[i].1 = random.one_of(&[stamp, stamp.wrapping_add(1), u64::MAX]),
        10 => made.stamp = random.between(1, 3),
        _ => (made.r, made.w) = (random.below(9) as usize, random.below(9) as usize),
    }
}

fn spoil_list(random: &mut Random, made: &mut ListDraft, f: u64) {
    let (i, j) = (random.below(made.count.min(26) as u64) as usize, random.below(26) as usize);
    let boxes = (5 * f.clamp(1, 5) + 1) as u8;
    match random.below(8) {
        0 => made.count = random.one_of(&[0, 26, 27, 255, 256, 1 << 32, usize::MAX]),
        1 => made.kind = random.one_of(&[0, 3, 255]),
        2 => made.decision = random.one_of(&[0, 3, 255]),
        3 => made.pairs[i].1 = random.one_of(&[0, 3, 255]),
        4 => made.pairs[i].0 = random.one_of(&[boxes, boxes - 1, 26, 255]),
        5 => made.pairs[i].0 = made.pairs[j].0,
        6 => made.pairs.swap(i, j),
        _ => made.kind = 3 - made.kind.clamp(1, 2),
    }
}

fn record(random: &mut Random, f: u64) -> Record {
    let (mut tx, mut vl, mut views) = (draft(random), list(random, f), told(random, f));
    let which = random.below(10);
    if which == 3 && random.chance(85) {
        vl.kind = 1;
    }
    let named = |random: &mut Random, mark| if random.chance(94) { mark } else { random.one_of(&[0, 1, 4, 5, 9, 255, 256 + mark, (1 << 32) + mark, u64::MAX]) };
    if random.chance(45) {
        for _ in 0..random.one_of(&[1, 1, 1, 2, 4]) {
            if [6, 7].contains(&which) || (which > 7 && random.chance(50)) {
                spoil_told(random, &mut views, f);
            } else if which == 1 || ([3, 4].contains(&which) && random.chance(50)) {
                spoil_list(random, &mut vl, f);
            } else {
                spoil(random, &mut tx);
            }
        }
    }
    let key = if random.chance(70) { random.below(512) as u16 } else { random.one_of(&[0, 511, 512, 513, 65535]) };
    match which {
        0 => Record::Tx(tx),
        1 => Record::Vl(vl),
        2 => Record::Pr(tx),
        3 => Record::Listed(named(random, LG), tx, vl),
        4 => Record::Listed(named(random, DC), tx, vl),
        5 => Record::Rd { key, stamp: if random.chance(20) { 0 } else { tx.stamp } },
        6 => Record::Vs(views),
        7 => Record::El(views),
        8 => Record::Iv(tx, views),
        _ => Record::Ld(tx, views),
    }
}

fn writer(record: &Record) -> &'static str {
    match record {
        Record::Tx(_) => "write TX",
        Record::Vl(_) => "write VL",
        Record::Pr(_) => "write PR",
        Record::Listed(LG, ..) => "write LG",
        Record::Listed(DC, ..) => "write DC",
        Record::Listed(..) => "write no mark",
        Record::Rd { .. } => "write RD",
        Record::Vs(_) => "write VS",
        Record::El(_) => "write EL",
        Record::Iv(..) => "write IV",
        Record::Ld(..) => "write LD",
    }
}

/// One record into a buffer of any length; what was written, where it was.
fn compare_writer(outcome: &mut Outcome, clerk: &dyn Clerk, random: &mut Random, record: &Record, f: u64) -> Option<Vec<u8>> {
    let whole = model::written(record, f, usize::MAX).map_or(40, |bytes| bytes.len());
    let room = match random.below(10) {
        0 => 0,
        1 => whole - 1,
        2 => random.below(whole as u64) as usize,
        3..=5 => whole,
        6 => whole + 1,
        _ => whole + random.below(300) as usize,
    };
    compare_written(outcome, clerk, random, record, f, room)
}

/// One record into a buffer with this room.
fn compare_written(outcome: &mut Outcome, clerk: &dyn Clerk, random: &mut Random, record: &Record, f: u64, room: usize) -> Option<Vec<u8>> {
    let before: Vec<u8> = (0..room).map(|_| random.next() as u8).collect();
    let due = model::written(record, f, room);
    let mut after = before.clone();
    let (number, length) = due.as_ref().map_or_else(|number| (*number, 0), |bytes| (0, bytes.len()));
    if let Ok(bytes) = &due {
        after[..length].copy_from_slice(bytes);
    }
    let mut got = before;
    let given = clerk.write(record, f, &mut got);
    let same = given == Ok((number, length)) && got == after;
    outcome.note(writer(record), number, same, || format!("f {f}, room {room}, {record:?}: engine {given:?}, buffer {got:?}, due {after:?}"));
    if let (0, Record::Vl(list) | Record::Listed(_, _, list)) = (number, record) {
        outcome.meet(viewed(list));
    }
    if let (0, Record::Vs(told) | Record::El(told) | Record::Iv(_, told) | Record::Ld(_, told)) = (number, record) {
        outcome.meet(Some(told_view(told)));
    }
    due.ok()
}

/// Where the list of these bytes begins, as far as their counts can be believed.
fn list_in(bytes: &[u8]) -> usize {
    match bytes {
        [b'L', b'G', ..] | [b'D', b'C', ..] | [b'I', b'V', ..] | [b'L', b'D', ..] if bytes.len() > 5 => {
            14 + 10 * (usize::from(bytes[4]) + usize::from(bytes[5]))
        }
        _ => 0,
    }
}

/// A list's view taken out or put in, wholly or by half, or its kind another.
fn damage_view(random: &mut Random, bytes: &mut Vec<u8>) {
    let list = list_in(bytes);
    let from = list + 5;
    let length = random.between(1, 2) as usize;
    match random.below(3) {
        0 if bytes.len() > from + length => drop(bytes.drain(from..from + length)),
        1 if bytes.len() > from => drop(bytes.splice(from..from, (0..length).map(|_| random.one_of(&[0, 1, 2, 255])))),
        _ if bytes.len() > from => bytes[list + 2] = random.one_of(&[0, 1, 2, 3, 255]),
        _ => {}
    }
}

/// What stands behind the mark of a VS or an EL, or in what it lists: each place in turn, set to a number beside a line.
fn damage_told(random: &mut Random, bytes: &mut [u8]) {
    let list = list_in(bytes);
    if bytes.len() > list + 3 {
        let head = random.chance(50);
        let at = list + 2 + if head { random.below(5) as usize } else { random.below((bytes.len() - list - 2) as u64) as usize };
        if let Some(place) = bytes.get_mut(at) {
            *place = random.one_of(&[0, 1, 2, 3, 5, 6, 25, 26, 27, 255]);
        }
    }
}

/// Bytes cut, flipped, lengthened or with another mark.
fn damage(random: &mut Random, bytes: &mut Vec<u8>) {
    if random.chance(30) && matches!(bytes.get(list_in(bytes)..).and_then(|list| list.get(..2)), Some(b"VS" | b"EL")) {
        return damage_told(random, bytes);
    }
    match random.below(11) {
        0 => bytes.truncate(random.below(bytes.len() as u64 + 1) as usize),
        1 => bytes.truncate(random.below(7) as usize),
        2 => bytes.push(random.next() as u8),
        3 if bytes.len() > 1 => bytes[..2].copy_from_slice(random.one_of(&[b"TX", b"VL", b"VS", b"EL", b"PR", b"LG", b"DC", b"RD", b"IV", b"LD", b"tx"])),
        4 if bytes.len() > 4 => bytes[random.between(2, 4) as usize] = random.one_of(&[0, 1, 8, 9, 26, 27, 255]),
        5 if bytes.len() > 13 => {
            // the stamp of a TX, or of one behind a mark
            let at = random.one_of(&[4, 6]);
            bytes[at..at + 8].fill(0);
        }
        6 if bytes.len() > 8 => {
            // a box number of a VL, or a byte of its view
            let at = 5 + 2 * random.below((bytes.len() as u64 - 5) / 2) as usize;
            bytes[at] = random.one_of(&[0, 5, 6, 25, 26, 255]);
        }
        7 if bytes.len() > 33 => {
            // a key of a TX's second item as the first's, or as that of one behind a mark
            let at = random.one_of(&[12, 14]);
            bytes.copy_within(at..at + 2, at + 10);
        }
        8 if bytes.len() > 5 => damage_view(random, bytes),
        _ if !bytes.is_empty() => {
            let at = random.below(bytes.len() as u64) as usize;
            bytes[at] = if random.chance(50) { random.one_of(&[0, 1, 2, 3, 255]) } else { bytes[at] ^ 1 << random.below(8) };
        }
        _ => {}
    }
}

/// The same bytes by each reader, and their values.
fn compare_readers(outcome: &mut Outcome, clerk: &dyn Clerk, bytes: &[u8], f: u64) {
    let (tx, got_tx) = (model::reading_tx(bytes).err().unwrap_or(0), engine::reading_tx(bytes));
    let (vl, got_vl) = (Model(PAPER).reading_vl(bytes, f), clerk.reading_vl(bytes, f));
    outcome.note("read TX", tx, got_tx == tx, || format!("{bytes:?}: engine {got_tx}"));
    outcome.note("read VL", vl, got_vl == vl, || format!("f {f}, {bytes:?}: engine {got_vl}"));
    let (vs, got_vs) = (Model(PAPER).reading_vs(bytes, f), clerk.reading_vs(bytes, f));
    let (el, got_el) = (Model(PAPER).reading_el(bytes, f), clerk.reading_el(bytes, f));
    outcome.note("read VS", vs, got_vs == vs, || format!("f {f}, {bytes:?}: engine {got_vs}"));
    outcome.note("read EL", el, got_el == el, || format!("f {f}, {bytes:?}: engine {got_el}"));
    let (due, got) = (Model(PAPER).fields(bytes, f), clerk.fields(bytes, f));
    outcome.note("fields", due.0, got == due, || format!("f {f}, {bytes:?}: engine {got:?}, due {due:?}"));
    let (due, got) = (Model(PAPER).views(bytes, f), clerk.views(bytes, f));
    outcome.note("views", due.0, got == due, || format!("f {f}, {bytes:?}: engine {got:?}, due {due:?}"));
    let list = bytes.get(list_in(bytes)..);
    outcome.meet(list.and_then(shows).or_else(|| list.and_then(shows_told)));
}

/// A record of the generator written, and read by every reader, sound and damaged.
fn compare_one(outcome: &mut Outcome, clerk: &dyn Clerk, random: &mut Random) {
    let f = random.between(1, 5);
    let given_f = if random.chance(96) { f } else { random.one_of(&[0, 6, 7, 255, 256 + 1, (1 << 32) + 1, u64::MAX]) };
    let made = record(random, f);
    if let Some(mut bytes) = compare_writer(outcome, clerk, random, &made, given_f) {
        compare_readers(outcome, clerk, &bytes, given_f);
        for _ in 0..random.one_of(&[1, 1, 2]) {
            damage(random, &mut bytes);
        }
        compare_readers(outcome, clerk, &bytes, given_f);
    }
}

/// Lists of every kind, right or not, with a view on each side of each line, short and of all boxes: written, by themselves and in a message, into just enough room, less
/// and more; read with two bytes for a view and without, cut at every byte from the list's first on, and with bytes behind. Returns how many were read.
fn every_cut(outcome: &mut Outcome, clerk: &dyn Clerk, random: &mut Random) -> u64 {
    let (body, mut read) = (tx(50, &[], &[(3, 7)]), 0);
    let mut wrote = Draft { stamp: 50, w: 1, ..Draft::default() };
    wrote.writes[0] = (3, 7);
    let lists = [1, 5].into_iter().flat_map(|f| [1, 2, 5 * f + 1].map(|count| (f, count)));
    for (f, count) in lists {
        for (kind, view) in [0, 1, 2, 3, 255].into_iter().flat_map(|kind| VIEWS.map(|view| (kind, view))) {
            let mut list = ListDraft { kind, decision: 1, view, count: count as usize, ..ListDraft::default() };
            list.pairs = std::array::from_fn(|number| (number as u8, 1 + number as u8 % 2));
            for record in [Record::Vl(list), Record::Listed(LG, wrote, list), Record::Listed(DC, wrote, list)] {
                let whole = model::written(&record, f, usize::MAX).map_or(60, |bytes| bytes.len());
                for room in [whole - 1, whole, whole + 1] {
                    compare_written(outcome, clerk, random, &record, f, room);
                }
            }
            let pairs: Vec<u8> = list.pairs[..list.count].iter().flat_map(|pair| [pair.0, pair.1]).collect();
            for two in [&view.to_le_bytes()[..], &[]] {
                let bytes = [&b"VL"[..], &[kind, 1, count as u8], two, &pairs].concat();
                for before in [vec![], [b"LG", &body[..]].concat(), [b"DC", &body[..]].concat()] {
                    let message = [&before[..], &bytes, &[0, 1, 1]].concat();
                    for end in before.len()..=message.len() {
                        compare_readers(outcome, clerk, &message[..end], f);
                        read += 1;
                    }
                }
            }
        }
    }
    read
}

/// VSs and ELs with a view on each side of each line, short and of all boxes: written, by themselves and in a message, into just enough room, less and more; read cut at
/// every byte from the list's first on, with bytes behind, and with every byte set to numbers beside a line, with a second fault and without. Returns how many were read.
fn every_told(outcome: &mut Outcome, clerk: &dyn Clerk, random: &mut Random) -> u64 {
    let (body, mut read) = (tx(50, &[], &[(3, 7)]), 0);
    let mut wrote = Draft { stamp: 50, w: 1, ..Draft::default() };
    wrote.writes[0] = (3, 7);
    let lists = [1, 5].into_iter().flat_map(|f| [1, 2, 5 * f + 1].map(|count| (f, count))).flat_map(|(f, count)| VIEWS.map(|view| (f, count, view)));
    for (f, count, view) in lists {
        let mut draft = ViewsDraft { leader: 5, decision: 2, view, count: count as usize, ..ViewsDraft::default() };
        draft.ballots = std::array::from_fn(|number| (number as u8, 1 + number as u8 % 2, view.wrapping_add(number as u16 % 2)));
        for record in [Record::Vs(draft), Record::El(draft), Record::Iv(wrote, draft), Record::Ld(wrote, draft)] {
            let whole = model::written(&record, f, usize::MAX).expect("a record in order");
            for room in [whole.len() - 1, whole.len(), whole.len() + 1] {
                compare_written(outcome, clerk, random, &record, f, room);
            }
            let list = if whole.starts_with(b"IV") || whole.starts_with(b"LD") { 2 + body.len() } else { 0 };
            let longer = [&whole[..], &[0, 1, 1, 0]].concat();
            for end in list..=longer.len() {
                compare_readers(outcome, clerk, &longer[..end], f);
                read += 1;
            }
            for (at, byte) in (list..whole.len()).flat_map(|at| [0, 1, 2, 3, 5, 6, 25, 26, 27, 255].map(|byte| (at, byte))) {
                let mut other = whole.clone();
                other[at] = byte;
                compare_readers(outcome, clerk, &other, f);
                // and a second fault, in the last answer or box
                let end = other.len();
                other[end - 3 - usize::from(whole.starts_with(b"EL"))] = 255;
                compare_readers(outcome, clerk, &other, f);
                read += 2;
            }
        }
    }
    read
}

/// The first record of the generator, counted from 1, at which a clerk differs from the model.
pub fn first_difference(clerk: &dyn Clerk, count: u64, seed: u64) -> Option<u64> {
    let (mut random, mut outcome) = (Random::new(seed), Outcome::new(false));
    (1..=count).find(|_| {
        compare_one(&mut outcome, clerk, &mut random);
        outcome.disagreements > 0
    })
}

/// How many of every list's cuts and forms a clerk gets wrong.
pub fn cuts_wrong(clerk: &dyn Clerk) -> u64 {
    let mut outcome = Outcome::new(false);
    every_cut(&mut outcome, clerk, &mut Random::new(1));
    every_told(&mut outcome, clerk, &mut Random::new(1));
    outcome.disagreements
}

/// So many records written, and each read by every reader, sound and damaged; then every cut of a list, and the thresholds.
pub fn run(random: &mut Random, count: u64) -> Outcome {
    let mut outcome = Outcome::new(true);
    for _ in 0..count {
        compare_one(&mut outcome, &Engine, random);
    }
    let read = every_cut(&mut outcome, &Engine, random);
    println!("lists of every kind, with a view and without, cut at every byte: {read} read");
    let read = every_told(&mut outcome, &Engine, random);
    println!("views and election answers, cut at every byte, and with every byte another: {read} read");
    for f in (0..300).chain([1 << 8, 1 << 16, 1 << 32, (1 << 32) + 5, u64::MAX]) {
        let before = std::array::from_fn(|_| random.next());
        let due = model::thresholds(f).map_or_else(|number| (number, before), |row| (0, row));
        let got = engine::thresholds(f, before);
        outcome.note("thresholds", due.0, got == due, || format!("f {f}: engine {got:?}, due {due:?}"));
    }
    outcome
}
