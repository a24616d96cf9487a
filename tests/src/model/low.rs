//! A11: a box lets old entries go. Its low mark and, for each key, the version and value that what left was folded into; raising the mark; and what a
//! message meets that is old, or reads what is.

use super::*;
use stobbarel::layout::{FOLD, FOLDS_AT, LOW_AT};

/// The low mark of a table.
pub fn low_of(table: &[u8]) -> u64 {
    little(&table[LOW_AT..LOW_AT + 8])
}

/// Stamp and value of the version that was folded at a key; the stamp is 0 where none was.
pub fn fold_of(table: &[u8], key: u16) -> (u64, u64) {
    let at = FOLDS_AT + FOLD * usize::from(key);
    (little(&table[at..at + 8]), little(&table[at + 8..at + 16]))
}

fn put_fold(table: &mut [u8], key: u16, (stamp, value): (u64, u64)) {
    let at = FOLDS_AT + FOLD * usize::from(key);
    table[at..at + 8].copy_from_slice(&stamp.to_le_bytes());
    table[at + 8..at + 16].copy_from_slice(&value.to_le_bytes());
}

/// The cases that a mixture with raised low marks has to meet.
pub const LOWS: [&str; 40] = [
    "PR 18",
    "LG 18",
    "DC 18",
    "RD 18",
    "IV 18",
    "LD 18",
    "18, at the low mark itself",
    "18, the table is full",
    "18, the stamp is held",
    "DC 18, too few too",
    "RD 15, old too",
    "test 2: the folded one passes",
    "test 2: the folded one passes, held too",
    "test 2: old, and not the folded one",
    "test 2: old and held, and not the folded one",
    "test 2: old, and the folded one of another key",
    "test 2: old, and the folded one is above it",
    "test 3: the folded one is above version 0",
    "test 3: the folded one is above a version that is held",
    "test 3: the folded one is at or above the own stamp",
    "waiting rule: the folded one",
    "waiting rule: old, and not the folded one",
    "RD: the folded version",
    "RD: the folded version, at or above the stamp asked for",
    "RD: a version 0 with a value folded",
    "RD: a committed writer before the folded version",
    "RD: a committed writer before a folded version that is newer",
    "raised: nothing leaves",
    "raised: all leave",
    "raised: some stay behind others that leave",
    "raised: a committed one folds",
    "raised: an aborted one leaves",
    "raised: the newest is not the last",
    "raised: the folded one before is newer",
    "raised: two with one stamp, the first folds",
    "raised: a key above 511 does not fold",
    "raised: far above all that is held",
    "18, the low mark is where it is",
    "18, the low mark is above; 19 is due too",
    "19",
];

impl Store<'_> {
    fn low(&self) -> u64 {
        low_of(self.head)
    }

    fn is_old(&self, stamp: u64) -> bool {
        if self.rules.hold(Rule::OldAtTheMark) {
            stamp <= self.low()
        } else {
            stamp < self.low()
        }
    }

    /// 18, "the first state refusal".
    pub(super) fn refuses_as_old(&mut self, message: &Message, settings: &Settings) -> bool {
        let (place, stamp) = match message {
            Message::Prepare(tx) => (0, tx.stamp),
            Message::Log(tx, _) => (1, tx.stamp),
            Message::Decide(tx, _) => (2, tx.stamp),
            Message::Read { stamp, .. } => (3, *stamp),
            Message::Invoke(tx, _) => (4, tx.stamp),
            Message::Lead(tx, _) => (5, tx.stamp),
        };
        if !self.is_old(stamp) || !self.rules.hold(Rule::OldRefused(place)) {
            return false;
        }
        let full = self.entries.len() as u64 >= settings.capacity;
        let (held, too_few) = (self.place(stamp).is_some(), matches!(message, Message::Decide(_, list) if self.rules.lacking_to_prove(settings.f, list) > 0));
        if !self.rules.hold(Rule::OldFirst) && (too_few || place == 0 && full && !held) {
            return false;
        }
        let mut meet = |case: &'static str, does: bool| self.met.extend(does.then_some(case));
        meet(LOWS[place], true);
        meet("18, at the low mark itself", stamp == low_of(self.head));
        meet("18, the table is full", full && place != 3);
        meet("18, the stamp is held", held && place != 3);
        meet("DC 18, too few too", too_few);
        true
    }

    /// A version that is not looked up: "a version at or below L".
    pub(super) fn is_old_version(&self, version: u64) -> bool {
        version <= self.low() && self.rules.hold(Rule::OldNotLookedUp)
    }

    /// It "counts as committed if it is the folded one", of this key.
    pub(super) fn is_folded(&self, key: u16, version: u64) -> bool {
        if self.rules.hold(Rule::FoldedByKey) {
            fold_of(self.head, key).0 == version
        } else {
            (0..512).any(|any| fold_of(self.head, any).0 == version)
        }
    }

    /// "A folded version above the version read"
    pub(super) fn fold_above(&self, key: u16, version: u64, own: u64) -> bool {
        let folded = fold_of(self.head, key).0;
        folded > version && self.rules.hold(Rule::FoldGives3) && (folded < own || self.rules.hold(Rule::AnyFoldAbove))
    }

    /// What the tests of a first vote meet of folded versions.
    pub(super) fn meet_folds(&mut self, tx: &Transaction, failing: Option<u8>) {
        if cfg!(feature = "paper") {
            return;
        }
        let mut met = Vec::new();
        for (key, version) in &tx.reads {
            let (folded, held) = (fold_of(self.head, *key).0, self.place(*version).is_some());
            let (named, old) = (folded == *version && *version != 0, *version <= self.low() && *version != 0);
            match failing {
                Some(1) => {}
                Some(2) if old && !named => {
                    met.push("test 2: old, and not the folded one");
                    met.extend(held.then_some("test 2: old and held, and not the folded one"));
                    met.extend((0..512).any(|other| fold_of(self.head, other).0 == *version).then_some("test 2: old, and the folded one of another key"));
                    met.extend((folded > *version).then_some("test 2: old, and the folded one is above it"));
                }
                Some(2) => {}
                _ if old && named => met.push(if held { "test 2: the folded one passes, held too" } else { "test 2: the folded one passes" }),
                Some(3) if folded > *version => {
                    met.extend((*version == 0).then_some("test 3: the folded one is above version 0"));
                    met.extend((*version > 0).then_some("test 3: the folded one is above a version that is held"));
                    met.extend((folded >= tx.stamp).then_some("test 3: the folded one is at or above the own stamp"));
                }
                _ => {}
            }
        }
        self.met.append(&mut met);
    }

    /// What an RD shows as committed: "RD falls back to the folded version".
    pub(super) fn committed_or_folded(&mut self, key: u16, stamp: u64) -> (u64, u64) {
        let (found, folded) = (self.newest(key, stamp, Entry::committed), fold_of(self.head, key));
        let mut meet = |case: &'static str, does: bool| self.met.extend((does && !cfg!(feature = "paper")).then_some(case));
        meet("RD: the folded version", found.is_none() && folded.0 != 0);
        meet("RD: the folded version, at or above the stamp asked for", found.is_none() && folded.0 >= stamp);
        meet("RD: a version 0 with a value folded", found.is_none() && folded.0 == 0 && folded.1 != 0);
        meet("RD: a committed writer before the folded version", found.is_some() && folded.0 != 0);
        meet("RD: a committed writer before a folded version that is newer", found.is_some_and(|found| found.0 < folded.0));
        if !self.rules.hold(Rule::TableBeforeFold) && folded.0 != 0 {
            return folded;
        }
        found.unwrap_or(if self.rules.hold(Rule::ReadFallsBack) { folded } else { (0, 0) })
    }
}

/// The low mark of a lent table raised: 14, 16, then 18 and 19.
pub fn raise(table: &mut [u8], f: u64, capacity: u64, low: u64, met: &mut Vec<&'static str>) -> Answer {
    raise_by(PAPER, table, f, capacity, low, met)
}

/// The same with rules that may be broken.
pub fn raise_by(rules: Rules, table: &mut [u8], f: u64, capacity: u64, low: u64, met: &mut Vec<&'static str>) -> Answer {
    if !(Settings { f, capacity, clock: 0, delta: 0 }).in_order() {
        return Answer::Refused(GROUP);
    }
    let Some(entries) = entries_of(table, capacity as usize) else {
        return Answer::Refused(TABLE);
    };
    let present = low_of(table);
    let too_low = low < present || low == present && rules.hold(Rule::RaisedAbove);
    let undecided = entries.iter().any(|entry| entry.body.stamp <= low && entry.decision.is_none());
    if undecided && !rules.hold(Rule::OldBeforeUndecided) {
        return Answer::Refused(UNDECIDED);
    }
    if too_low {
        met.extend((low == present).then_some("18, the low mark is where it is"));
        met.extend(undecided.then_some("18, the low mark is above; 19 is due too"));
        return Answer::Refused(OLD);
    }
    if undecided && rules.hold(Rule::UndecidedStay) {
        met.push("19");
        return Answer::Refused(UNDECIDED);
    }
    meet_raised(table, &entries, low, met);
    fold(rules, table, &entries, low);
    close_up(rules, table, &entries, low);
    table[LOW_AT..LOW_AT + 8].copy_from_slice(&low.to_le_bytes());
    Answer::Raised
}

/// "Committed ones fold into one version and value per key, the newest", what was folded before among them.
fn fold(rules: Rules, table: &mut [u8], entries: &[Entry], low: u64) {
    let mut begun = Vec::new();
    for entry in entries.iter().filter(|entry| entry.body.stamp <= low) {
        let folds = match entry.decision {
            Some(Decision::Commit) => rules.hold(Rule::CommittedFold),
            Some(Decision::Abort) => !rules.hold(Rule::AbortedDoNot),
            None => false,
        };
        // foreign keys of a lent table have no place there
        for (key, value) in entry.body.writes.iter().filter(|(key, _)| folds && *key < 512) {
            let newer = entry.body.stamp > fold_of(table, *key).0;
            let first = !begun.contains(key) && !rules.hold(Rule::NewerFoldStays);
            if newer || first || !rules.hold(Rule::NewestFolds) {
                put_fold(table, *key, (entry.body.stamp, *value));
            }
            begun.push(*key);
        }
    }
}

/// "those and the aborted ones are dropped and their room is used again, the rest staying in order"; behind the rest stands what stood there.
fn close_up(rules: Rules, table: &mut [u8], entries: &[Entry], low: u64) {
    let leaves = |entry: &Entry| entry.body.stamp <= low && (entry.decision != Some(Decision::Abort) || rules.hold(Rule::AbortedLeave));
    let mut stay: Vec<usize> = (0..entries.len()).filter(|place| !leaves(&entries[*place])).collect();
    if !rules.hold(Rule::InOrder) && stay.len() < entries.len() {
        let first = (0..stay.len()).find(|place| stay[*place] != *place);
        if let (Some(first), Some(last)) = (first, stay.pop()) {
            stay.insert(first.min(stay.len()), last);
        }
    }
    let rows: Vec<u8> = stay.iter().flat_map(|place| table[row_at(*place)..row_at(place + 1)].to_vec()).collect();
    table[HEAD..HEAD + rows.len()].copy_from_slice(&rows);
    table[0] = stay.len() as u8;
}

/// What a raising that is taken meets.
fn meet_raised(table: &[u8], entries: &[Entry], low: u64, met: &mut Vec<&'static str>) {
    let leaving: Vec<&Entry> = entries.iter().filter(|entry| entry.body.stamp <= low).collect();
    let folding: Vec<&Entry> = leaving.iter().copied().filter(|entry| entry.committed()).collect();
    let first_left = entries.iter().position(|entry| entry.body.stamp <= low);
    let mut meet = |case: &'static str, does: bool| met.extend(does.then_some(case));
    meet("raised: nothing leaves", leaving.is_empty() && !entries.is_empty());
    meet("raised: all leave", leaving.len() == entries.len() && !entries.is_empty());
    meet("raised: some stay behind others that leave", first_left.is_some_and(|first| entries[first..].iter().any(|entry| entry.body.stamp > low)));
    meet("raised: a committed one folds", folding.iter().any(|entry| entry.body.writes.iter().any(|(key, _)| *key < 512)));
    meet("raised: an aborted one leaves", leaving.len() > folding.len());
    meet("raised: far above all that is held", entries.iter().all(|entry| entry.body.stamp < low / 2) && !entries.is_empty());
    for (place, entry) in folding.iter().enumerate() {
        for (key, _) in &entry.body.writes {
            let behind =
                |stamp: u64, order: Ordering| folding[place + 1..].iter().any(|later| later.body.writes_key(*key) && later.body.stamp.cmp(&stamp) == order);
            meet("raised: a key above 511 does not fold", *key > 511);
            if *key > 511 {
                continue;
            }
            meet("raised: the newest is not the last", behind(entry.body.stamp, Ordering::Less));
            meet("raised: two with one stamp, the first folds", behind(entry.body.stamp, Ordering::Equal));
            meet("raised: the folded one before is newer", fold_of(table, *key).0 > entry.body.stamp);
        }
    }
}
