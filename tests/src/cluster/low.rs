//! Boxes that let old entries go, each when it likes: at any moment, to any mark; and scenes in which all of them do so at once, and something old comes after.

use super::*;
use crate::model::{entries_of, fold_of, low_of};

// ---- boxes

impl Cluster<'_> {
    /// A sound box raises its low mark: mostly as far as all that it holds is decided; else anywhere.
    pub(super) fn forget_somewhere(&mut self) -> Result<(), String> {
        let number = self.random.below(self.boxes.len() as u64) as usize;
        if self.lies(number) {
            return Ok(());
        }
        let Sound { table, settings, .. } = &self.boxes[number];
        let held = entries_of(table, settings.capacity as usize).unwrap_or_default();
        let open = held.iter().filter(|entry| entry.decision.is_none()).map(|entry| entry.body.stamp).min();
        let newest = held.iter().map(|entry| entry.body.stamp).max().unwrap_or(self.base);
        let (present, anywhere) = (low_of(table), self.base + self.random.below(self.spread + 1));
        let low = match self.random.below(10) {
            0 => present.saturating_sub(self.random.below(2)),
            1 | 2 => anywhere,
            _ => open.map_or(newest, |open| open - 1),
        };
        self.forget(number, low)
    }

    /// A sound box raises its low mark. What it says is no word that it can be held to, and what it has held it has held.
    pub(super) fn forget(&mut self, number: usize, low: u64) -> Result<(), String> {
        self.counts.calls += 1;
        let Sound { table, marks, settings, held } = &mut self.boxes[number];
        let (before, present) = (table[0], low_of(table));
        let entries = entries_of(table, settings.capacity as usize).unwrap_or_default();
        let answer = self.one.call(Entrance::Raise(low), table, marks, settings, &[])?;
        if self.plan.told {
            println!("  box {number}: low mark to {low}: {answer:?}, {before} entries before, {} after", table[0]);
        }
        match answer {
            Answer::Raised => {
                self.counts.count("raised");
                let left = |decision| entries.iter().any(|entry| entry.body.stamp <= low && entry.decision == Some(decision));
                for (decision, event) in [(Decision::Commit, "raised, a committed one folded"), (Decision::Abort, "raised, an aborted one left")] {
                    if left(decision) {
                        self.counts.count(event);
                    }
                }
                if before == settings.capacity as u8 && table[0] < before {
                    self.counts.count("raised, a full table has room again");
                }
                held.retain(|stamp, _| *stamp > low);
            }
            Answer::Refused(18) if low <= present => self.counts.count("refused 18, the low mark is not above"),
            Answer::Refused(19) => self.counts.count("refused 19"),
            // a box with a broken rule is judged by demand 3 alone
            odd if self.plan.rules.broken.is_empty() => return Err(format!("a low mark of {low} where {present} stands was answered {odd:?}")),
            _ => {}
        }
        Ok(())
    }

    /// A vote on a body shows what its box has folded.
    pub(super) fn voted_by_folds(&mut self, number: usize, body: usize, reason: u8) {
        let (table, reads) = (&self.boxes[number].table, &self.judge.bodies[body].tx.reads);
        let (low, fold) = (low_of(table), |key| fold_of(table, key).0);
        let folded = reads.iter().any(|(key, version)| *version != 0 && fold(*key) == *version);
        let event = match reason {
            0 if folded => "vote commit, a folded version read",
            2 if reads.iter().any(|(key, version)| *version != 0 && *version <= low && fold(*key) != *version) => {
                "abort 2, an old version that is not the folded one"
            }
            3 if reads.iter().any(|(key, version)| fold(*key) > *version) => "abort 3, for a folded version",
            6 if reads.iter().any(|(key, version)| *version != 0 && *version <= low && fold(*key) != *version) => {
                "abort 6, an old version that is not the folded one"
            }
            _ => return,
        };
        self.counts.count(event);
    }
}

// ---- scenes

impl Cluster<'_> {
    /// Something is decided everywhere, all boxes let it go, and then comes what would have met it there: a write under a read, a read of what it wrote or of what stood
    /// there before or of another key, or the other decision of itself.
    pub(super) fn let_go(&mut self) -> Result<(), String> {
        let (stamp, key) = (self.unused_stamp(3), self.some_key());
        let all = (1u32 << self.boxes.len()) - 1;
        match self.random.below(5) {
            0 => self.write_under_what_is_gone(stamp, key, all),
            1 => self.read_over_what_is_gone(stamp, key, all),
            2 => self.read_of_two_that_are_gone(stamp, key, all),
            3 => self.decide_again_what_is_gone(stamp, key, all),
            _ => self.read_what_was_aborted(stamp, key, all),
        }
        Ok(())
    }

    /// A gateway that wants this body committed.
    fn committer(&mut self, tx: Transaction) -> usize {
        let gateway = self.new_gateway(tx);
        self.gateways[gateway].wants = Some(Decision::Commit);
        gateway
    }

    /// Asked for, proved and asked once more, so that boxes that missed it have it.
    fn see_through(&mut self, from: usize) {
        self.script.extend([(from, Act::Ask), (from, Act::Ask), (from, Act::Log), (from, Act::Prove), (from, Act::Prove)]);
    }

    /// A committed read, and a write under it.
    fn write_under_what_is_gone(&mut self, stamp: u64, key: u16, all: u32) {
        let reader = self.committer(transaction(stamp + 1, &[(key, 0)], &[]));
        let under = self.committer(transaction(stamp, &[], &[(key, 1)]));
        self.see_through(reader);
        self.script.push_back((reader, Act::ForgetAt(all, stamp + 1)));
        self.see_through(under);
    }

    /// A write, mostly decided; then a read that does not know of it, of this key or of another at the write's stamp.
    fn read_over_what_is_gone(&mut self, stamp: u64, key: u16, all: u32) {
        let writer = self.committer(transaction(stamp, &[], &[(key, 1)]));
        let beside = if key == 0 { 1 } else { key - 1 };
        let read = self.random.one_of(&[(key, 0), (key, 0), (key, stamp), (beside, stamp)]);
        let reader = self.committer(transaction(stamp + 1, &[read], &[(beside, 2)]));
        if self.random.chance(50) {
            self.see_through(writer);
        } else {
            self.script.extend([(writer, Act::Ask), (writer, Act::Ask)]);
        }
        self.script.push_back((writer, Act::ForgetAt(all, stamp)));
        if self.random.chance(40) {
            self.script.push_back((writer, Act::ReadAt(all, key, stamp + 1)));
        }
        self.see_through(reader);
        self.script.push_back((writer, Act::Prove));
    }

    /// Two writes of a key, the later one first in the tables; then a read of one of them.
    fn read_of_two_that_are_gone(&mut self, stamp: u64, key: u16, all: u32) {
        let later = self.committer(transaction(stamp + 1, &[], &[(key, 2)]));
        let earlier = self.committer(transaction(stamp, &[], &[(key, 1)]));
        let version = self.random.one_of(&[stamp, stamp, stamp + 1]);
        let reader = self.committer(transaction(stamp + 2, &[(key, version)], &[]));
        self.see_through(later);
        self.see_through(earlier);
        // both go, or the later one stays
        let low = self.random.one_of(&[stamp, stamp + 1, stamp + 1]);
        self.script.push_back((later, Act::ForgetAt(all, low)));
        if self.random.chance(50) {
            self.script.push_back((later, Act::ReadAt(all, key, stamp + 2)));
        }
        self.see_through(reader);
    }

    /// A write that can be logged either way: logged and decided one way, gone, and logged the other way.
    fn decide_again_what_is_gone(&mut self, stamp: u64, key: u16, all: u32) {
        let tx = transaction(stamp, &[], &[(key, 1)]);
        let first = self.random.one_of(&[Decision::Commit, Decision::Abort]);
        let [one, two] = [first, other(first)].map(|wanted| {
            let gateway = self.new_gateway(tx.clone());
            self.gateways[gateway].wants = Some(wanted);
            gateway
        });
        let against = self.few_of(all & !self.liars, 2 * self.f);
        self.script.extend([(one, Act::ReadAt(against, key, stamp + 1)), (one, Act::Ask), (one, Act::Ask)]);
        self.script.extend([(one, Act::LogAt(all)), (one, Act::Prove), (one, Act::Prove), (one, Act::ForgetAt(all, stamp))]);
        self.script.extend([(two, Act::Ask), (two, Act::LogAt(all)), (two, Act::Prove)]);
    }

    /// A write that is aborted, and a read of it: asked for before, so that boxes wait, or only when the write is gone.
    fn read_what_was_aborted(&mut self, stamp: u64, key: u16, all: u32) {
        let writer = self.new_gateway(transaction(stamp, &[], &[(key, 1)]));
        self.gateways[writer].wants = Some(Decision::Abort);
        let reader = self.committer(transaction(stamp + 2, &[(key, stamp)], &[]));
        // few, since these vote against its reader too
        let against = self.few_of(all & !self.liars, self.f);
        self.script.extend([(writer, Act::AskAt(all & !against)), (writer, Act::ReadAt(against, key, stamp + 1)), (writer, Act::Ask)]);
        if self.random.chance(70) {
            self.script.extend([(reader, Act::Ask), (reader, Act::Ask)]);
        }
        self.script.extend([(writer, Act::LogAt(all)), (writer, Act::Prove), (writer, Act::Prove), (writer, Act::ForgetAt(all, stamp))]);
        self.see_through(reader);
    }
}
