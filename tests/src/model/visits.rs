//! How many entries a PR visits (A6), counted by going through them as a plain program would, one after another. It is a walk of its own: the vote is found
//! elsewhere, and the two are not held together here. Where the model is timed nothing is counted, and no number is told.

use super::*;

/// Circumstances of a number that a mixture of messages has to meet.
pub const NUMBERS: [&str; 17] = [
    "a number: test 1 fails",
    "a number: test 2 fails",
    "a number: test 3 fails",
    "a number: test 4 fails",
    "a number: test 5 fails",
    "a number: no test fails, commit",
    "a number: no test fails, wait",
    "a number: a waiting entry asked again, abort 6",
    "a number: a waiting entry asked again, waits on",
    "a number: a waiting entry asked again, commit",
    "a number: a waiting entry asked again, a version behind the one that gives 6",
    "a number: in place of vote none",
    "a number: nothing is held",
    "a number: a version named by two reads",
    "a number: test 3 fails behind a dead entry, and at another key than the first",
    "a number: test 4 fails behind a dead entry, and at another key than the first",
    "no number: the same vote again",
];

impl Answer {
    /// The answer with no number.
    pub fn apart_from_number(self) -> Answer {
        match self {
            Answer::Voted(vote, _) => Answer::Voted(vote, None),
            other => other,
        }
    }
}

/// What a test made of the entries.
struct Gone {
    visited: u64,
    fails: bool,
}

impl Store<'_> {
    /// "one per entry passed over when a stamp is looked up .. counts the entry it finds and stops there"
    fn look_up<'a>(&self, standing: impl Iterator<Item = &'a Entry>, stamp: u64) -> (u64, Option<&'a Entry>) {
        let mut visited = 0;
        for entry in standing {
            if entry.body.stamp == stamp {
                return (visited + u64::from(self.rules.hold(Rule::FoundCounts)), Some(entry));
            }
            visited += 1;
        }
        (visited, None)
    }

    /// The look-up of the own stamp.
    fn own_look_up(&self, stamp: u64) -> u64 {
        if self.rules.hold(Rule::OwnCounts) {
            self.look_up(self.entries.iter(), stamp).0
        } else {
            0
        }
    }

    /// Test 2: each nonzero version is looked up, until one is no live entry that writes the key. "no look-up at or below L"
    fn go_through_2(&self, tx: &Transaction) -> Gone {
        let mut visited = 0;
        for (key, version) in &tx.reads {
            if *version == 0 {
                continue;
            }
            if self.is_old_version(*version) {
                visited += self.old_look_up(*version);
                if self.is_folded(*key, *version) {
                    continue;
                }
                return Gone { visited, fails: true };
            }
            let (passed, found) = self.look_up(self.entries.iter(), *version);
            visited += passed;
            match found {
                Some(entry) if self.lives(entry) && entry.body.writes_key(*key) => {}
                _ => return Gone { visited, fails: true },
            }
        }
        Gone { visited, fails: false }
    }

    /// None; one with a broken rule counts what a look-up would pass over.
    fn old_look_up(&self, version: u64) -> u64 {
        if self.rules.hold(Rule::OldNotCounted) {
            0
        } else {
            self.look_up(self.entries.iter(), version).0
        }
    }

    /// "3 and 4 through the entries, and stop at the first that fails": an entry visited counts, be it dead.
    fn go_through<K>(&self, keys: &[K], fails: impl Fn(&K, &Entry) -> bool) -> Gone {
        let mut visited = 0;
        let mut visit = |key: &K, entry: &Entry| {
            visited += u64::from(self.lives(entry) || self.rules.hold(Rule::DeadCount));
            self.lives(entry) && fails(key, entry)
        };
        let mut found = false;
        if self.rules.hold(Rule::KeyByKey) {
            'keys: for key in keys {
                for entry in &self.entries {
                    if visit(key, entry) {
                        found = true;
                        break 'keys;
                    }
                }
            }
        } else {
            found = self.entries.iter().any(|entry| keys.iter().any(|key| visit(key, entry)));
        }
        Gone { visited, fails: found }
    }

    /// Test 3: it writes the key between the version read and this stamp. A folded version above the version read fails "before the key's entries", and is no entry:
    /// only what stands before that key is gone through.
    fn go_through_3(&self, tx: &Transaction) -> Gone {
        let folded = tx.reads.iter().position(|(key, version)| self.fold_above(*key, *version, tx.stamp));
        let before = folded.map_or(tx.reads.len(), |place| place + usize::from(!self.rules.hold(Rule::FoldCountsNone)));
        let gone = self.go_through_entries_3(tx, &tx.reads[..before]);
        Gone { fails: gone.fails || folded.is_some(), ..gone }
    }

    fn go_through_entries_3(&self, tx: &Transaction, reads: &[(u16, u64)]) -> Gone {
        self.go_through(reads, |(key, version), entry| *version < entry.body.stamp && entry.body.stamp < tx.stamp && entry.body.writes_key(*key))
    }

    /// Test 4: with a higher stamp it read the key at a version below this stamp.
    fn go_through_4(&self, tx: &Transaction) -> Gone {
        self.go_through(&tx.writes, |(key, _), entry| {
            entry.body.stamp > tx.stamp && entry.body.reads.iter().any(|(read, version)| read == key && *version < tx.stamp)
        })
    }

    /// A version found that gives reason 6.
    fn gives_6(&self, key: u16, entry: &Entry) -> bool {
        match entry.decision {
            Some(Decision::Abort) => true,
            Some(Decision::Commit) => !entry.body.writes_key(key),
            None => false,
        }
    }

    /// "the waiting rule looks up every nonzero version", whatever it found before.
    fn go_through_waiting(&self, tx: &Transaction, new: Option<&Entry>) -> u64 {
        let mut visited = 0;
        for (key, version) in tx.reads.iter().filter(|(_, version)| *version != 0) {
            if self.is_old_version(*version) {
                visited += self.old_look_up(*version);
                continue;
            }
            let (passed, found) = self.look_up(self.entries.iter().chain(new), *version);
            visited += passed;
            if !self.rules.hold(Rule::EveryVersion) && found.is_none_or(|entry| self.gives_6(*key, entry)) {
                break;
            }
        }
        visited
    }

    /// "every entry compared .., in 01's order, ending with the test that fails". The entry stands at this place, or it is new and stands last.
    pub(super) fn first_visits(&mut self, tx: &Transaction, settings: &Settings, place: Option<usize>) -> Option<u64> {
        if cfg!(feature = "paper") {
            return None;
        }
        self.meet_at(tx, place);
        let mut visited = self.own_look_up(tx.stamp);
        for test in 1..=5 {
            if !self.rules.hold(Rule::Test(test)) {
                continue;
            }
            let gone = match test {
                1 => Gone { visited: 0, fails: settings.ahead(tx.stamp) },
                2 => self.go_through_2(tx),
                3 => self.go_through_3(tx),
                4 => self.go_through_4(tx),
                _ => Gone { visited: 0, fails: self.is_marked(tx) },
            };
            visited += gone.visited;
            if gone.fails {
                self.met.push(NUMBERS[usize::from(test) - 1]);
                self.meet_behind(test, tx, gone.visited);
                if self.rules.hold(Rule::EndsThere) {
                    return Some(visited);
                }
            }
        }
        let new = place.is_none().then(|| Entry::new(tx.clone(), Vote::None));
        Some(visited + self.go_through_waiting(tx, new.as_ref()))
    }

    /// A waiting entry, asked again: its own look-up and the waiting rule.
    pub(super) fn again_visits(&mut self, tx: &Transaction) -> Option<u64> {
        if cfg!(feature = "paper") {
            return None;
        }
        Some(self.own_look_up(tx.stamp) + self.go_through_waiting(tx, None))
    }

    /// "an answer for an entry already decided or voted on carry no number"
    pub(super) fn same_vote_visits(&mut self, tx: &Transaction) -> Option<u64> {
        if !cfg!(feature = "paper") {
            self.met.push(NUMBERS[16]);
        }
        (!self.rules.hold(Rule::NoNumberAgain)).then(|| self.own_look_up(tx.stamp))
    }

    /// What a vote on a waiting entry, or a vote without a failing test, shows.
    pub(super) fn meet_vote(&mut self, tx: &Transaction, cast: Vote, vote: Vote) {
        if cfg!(feature = "paper") {
            return;
        }
        match (cast, vote) {
            (Vote::None, Vote::Commit) => self.met.push(NUMBERS[5]),
            (Vote::None, Vote::Waiting) => self.met.push(NUMBERS[6]),
            (Vote::Waiting, Vote::Abort(_)) => {
                self.met.push(NUMBERS[7]);
                // the last version gives no 6 by itself, so one before it did
                let last = tx.reads.iter().rev().find(|(_, version)| *version != 0).and_then(|(key, version)| Some((*key, self.place(*version)?)));
                if last.is_some_and(|(key, place)| !self.gives_6(key, &self.entries[place])) {
                    self.met.push(NUMBERS[10]);
                }
            }
            (Vote::Waiting, Vote::Waiting) => self.met.push(NUMBERS[8]),
            (Vote::Waiting, Vote::Commit) => self.met.push(NUMBERS[9]),
            _ => {}
        }
    }

    /// What a first vote is asked on.
    fn meet_at(&mut self, tx: &Transaction, place: Option<usize>) {
        if place.is_some() {
            self.met.push(NUMBERS[11]);
        }
        if self.entries.is_empty() {
            self.met.push(NUMBERS[12]);
        }
        let versions: Vec<u64> = tx.reads.iter().map(|read| read.1).filter(|version| *version != 0).collect();
        if (1..versions.len()).any(|at| versions[..at].contains(&versions[at])) {
            self.met.push(NUMBERS[13]);
        }
    }

    /// Tests 3 and 4: more entries were visited than are held, and a dead one stands before the last.
    fn meet_behind(&mut self, test: u8, tx: &Transaction, visited: u64) {
        let held = self.entries.len();
        let last = (visited as usize).checked_sub(1).map_or(0, |at| at % held.max(1));
        if matches!(test, 3 | 4) && visited as usize > held && self.entries[..last].iter().any(|entry| !entry.live() && entry.body.stamp != tx.stamp) {
            self.met.push(NUMBERS[usize::from(test) + 11]);
        }
    }
}
