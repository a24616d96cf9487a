//! Evil gateways. What they sign themselves is in order, and they sign no two bodies under one stamp; they see every answer at once, and their messages take one tick.

use super::liars::{bit, numbers};
use super::world::{model_decision, model_tx, Mail, World, EVIL_WRITER};
use crate::judge::Word;
use crate::messages::{iv, pr, with_list};
use crate::model::{transaction_bytes, Kind};
use stobbarel::{Decision, Key, Stamp, Transaction, View};

#[derive(Clone, Debug)]
pub enum Attack {
    /// Has its own transaction logged commit here and abort there; then it dies.
    Split { key: u16, body: Option<Vec<u8>> },
    /// Has the first desk's transaction logged commit at every second box and abort at the others.
    Halve,
    /// Raises views as fast as boxes tell theirs, and never stops.
    Raise,
    /// IVs with views that nobody told.
    ForgeViews,
    /// LDs that no leader signed, one of each majority in every view.
    ForgeLeader,
    /// PRs with another's stamp and a false body, to boxes that do not hold it.
    Sow,
}

impl World {
    pub fn strike(&mut self, index: usize) {
        match self.attacks[index].clone() {
            Attack::Split { key, body: None } => self.split_begin(index, key),
            Attack::Split { body: Some(body), .. } => self.split_end(&body),
            Attack::Halve => self.halve(),
            Attack::Raise => self.each_undecided(index, 1, World::raise),
            Attack::ForgeViews => self.each_undecided(index, 3, World::forge_views),
            Attack::ForgeLeader => self.each_undecided(index, 1, World::forge_leader),
            Attack::Sow => self.each_undecided(index, 3, World::sow),
        }
    }

    fn each_undecided(&mut self, index: usize, pause: u64, act: fn(&mut World, &[u8])) {
        let undecided = |body: &&Vec<u8>| self.sound().any(|number| self.hosts[number as usize].decided(body).is_none());
        let bodies: Vec<Vec<u8>> = self.signed.iter().filter(undecided).cloned().collect();
        bodies.iter().for_each(|body| act(self, body));
        self.strike_again(index, pause);
    }

    /// A write that one to 2f sound boxes vote against, since they have shown the key to a later reader.
    fn split_begin(&mut self, index: usize, key: u16) {
        let stamp = self.stamp(EVIL_WRITER);
        let tx = Transaction::new(stamp, [], [(Key(key), 1)]);
        let body = transaction_bytes(&model_tx(&tx));
        self.signed.insert(body.clone());
        let (sound, now) = (self.sound().collect::<Vec<u8>>(), self.now);
        for _ in 0..self.random.between(1, 2 * u64::from(self.group.f())) {
            let number = self.random.one_of(&sound);
            self.hosts[number as usize].newest(Key(key), Stamp(stamp.0 + 1), now);
        }
        (0..self.n).for_each(|number| self.send_evil(number, Mail::Message(pr(&body))));
        self.attacks[index] = Attack::Split { key, body: Some(body) };
        self.strike_again(index, 3);
    }

    /// The LGs that votes and liars let it make.
    fn lists(&mut self, body: &[u8]) -> [Option<Vec<u8>>; 2] {
        [Decision::Commit, Decision::Abort].map(|decision| {
            let given = self.gave(body, Word::Vote(model_decision(decision)));
            let needed = if decision == Decision::Commit { self.group.commit_list() } else { self.group.abort_list() };
            let pairs: Vec<(u8, _)> = numbers(given).map(|number| (number, model_decision(decision))).collect();
            (pairs.len() >= needed.into()).then(|| with_list(b"LG", body, Kind::Votes, model_decision(decision), &pairs))
        })
    }

    fn halve(&mut self) {
        let Some(body) = self.stations[0].cares.first().map(|care| care.body.clone()) else { return };
        let lists = self.lists(&body);
        for number in 0..self.n {
            lists[usize::from(number % 2)].clone().into_iter().for_each(|lg| self.send_evil(number, Mail::Message(lg)));
        }
    }

    /// One decision logged here and the other there, as far as they can be made.
    fn split_end(&mut self, body: &[u8]) {
        let lists = self.lists(body);
        for number in 0..self.n {
            let first = usize::from(self.random.chance(50));
            if let Some(lg) = lists[first].clone().or(lists[1 - first].clone()) {
                self.send_evil(number, Mail::Message(lg));
            }
        }
    }

    /// Every box with the highest view that it told, liars with the highest of all.
    fn raise(&mut self, body: &[u8]) {
        let (number, high) = (self.body_number(body), self.highest(body));
        let mut told = vec![0u16; self.n.into()];
        for word in self.judge.bodies[number].words().collect::<Vec<_>>() {
            if let Word::Elect(_, view) | Word::Log(_, view) = word {
                numbers(self.judge.bodies[number].given(word)).for_each(|number| told[number as usize] = told[number as usize].max(view));
            }
        }
        let view = |number: u8| if self.liars & bit(number) != 0 { high.0 } else { told[number as usize] };
        let views: Vec<(u8, u16)> = (0..self.n).map(|number| (number, view(number))).collect();
        (0..self.n).for_each(|number| self.send_evil(number, Mail::Message(iv(body, &views))));
    }

    fn forge_views(&mut self, body: &[u8]) {
        let views: Vec<(u8, u16)> = (0..self.group.commit_list()).map(|number| (number, 65534)).collect();
        (0..self.n).for_each(|number| self.send_evil(number, Mail::Message(iv(body, &views))));
    }

    fn forge_leader(&mut self, body: &[u8]) {
        let high = self.highest(body);
        if high == View(0) || self.lies(self.leader(self.tx_of(body).expect("a body in order").stamp, high)) {
            return;
        }
        let lds = [Decision::Commit, Decision::Abort].map(|decision| self.make_ld(body, high, decision));
        let [Some(commit), Some(abort)] = lds else { return };
        for number in 0..self.n {
            self.send_evil(number, Mail::Message(if number % 2 == 0 { commit.clone() } else { abort.clone() }));
        }
    }

    fn sow(&mut self, body: &[u8]) {
        let Some(wrong) = self.false_body(body) else { return };
        for number in 0..self.n {
            self.send_evil(number, Mail::Message(pr(&wrong)));
        }
    }
}
