//! A sound box's host: what it checks before a message comes to the engine, what it keeps beside the table, and what it answers.

use super::world::{model_decision, Habit, Mail, Party, World, DELTA, FIRST_MOMENT, MOMENT, PAUSE};
use crate::judge::Word;
use crate::model::Kind as ModelKind;
use std::collections::{BTreeMap, BTreeSet};
use stobbarel::{
    in_the_way, question, read_message, tx_part, write_rd, Answer, Decision, Election, Group, Held, Holding, Key, Kind, Leader, Letter, Load, Message,
};
use stobbarel::{Pace, Question, Refusal, Stamp, Table, View, VoteList, LONGEST, MOST_HOLDINGS};

/// Room in a table; a box that is full is a world of its own.
pub const CAPACITY: u64 = 64;

pub struct Host {
    pub table: Table,
    /// Its clock is ahead of the world's by so many ticks.
    skew: u64,
    /// The stamps that it holds, and of each body the DC that it took, the gateways that want to hear of it, its leader's side and its pace.
    pub stamps: BTreeSet<Stamp>,
    pub proofs: BTreeMap<Vec<u8>, Vec<u8>>,
    wanted: BTreeMap<Vec<u8>, BTreeSet<Party>>,
    leaders: BTreeMap<Vec<u8>, Leader>,
    paces: BTreeMap<Vec<u8>, Pace>,
}

impl Host {
    pub fn new(group: Group, skew: u64) -> Host {
        let table = Table::new(group, CAPACITY).expect("1 to 255 entries");
        Host { table, skew, stamps: BTreeSet::new(), proofs: BTreeMap::new(), wanted: BTreeMap::new(), leaders: BTreeMap::new(), paces: BTreeMap::new() }
    }

    /// What a host keeps in memory only is gone: its leader's side, its pace, and who wants to hear of what.
    fn restart(&mut self) {
        self.wanted.clear();
        self.leaders.clear();
        self.paces.clear();
    }

    fn clock(&self, now: u64) -> u64 {
        (FIRST_MOMENT + now + self.skew) * MOMENT
    }

    pub fn call(&mut self, message: &[u8], now: u64) -> Result<Answer, Refusal> {
        self.table.receive(self.clock(now), DELTA, message)
    }

    /// What an RD shows as the newest version below a stamp.
    pub fn newest(&mut self, key: Key, stamp: Stamp, now: u64) -> Stamp {
        let mut buffer = [0; LONGEST];
        match self.call(write_rd(key, stamp, &mut buffer).expect("an RD in order"), now) {
            Ok(Answer::Found { committed, undecided }) => committed.into_iter().chain(undecided).map(|version| version.stamp).max().unwrap_or(Stamp(0)),
            _ => Stamp(0),
        }
    }

    pub fn decided(&self, body: &[u8]) -> Option<Decision> {
        let stamp = Stamp(u64::from_le_bytes(body[4..12].try_into().expect("eight bytes")));
        self.held(stamp).filter(|held| held.body == body)?.decided
    }

    pub fn holding(&self, stamp: Stamp) -> Option<(Holding, Option<Decision>)> {
        let held = self.held(stamp)?;
        Some((Holding::of(&held, self.proofs.get(held.body).cloned()), held.decided))
    }

    fn held(&self, stamp: Stamp) -> Option<Held<'_>> {
        self.table.held(stamp).expect("a table in order")
    }

    pub fn view(&self, stamp: Stamp) -> View {
        self.held(stamp).map_or(View(0), |held| held.view)
    }
}

impl World {
    /// Mail for a box: a liar does with it what it likes.
    pub fn at_box(&mut self, number: u8, from: Party, depth: u64, mail: Mail) {
        if self.lies(number) {
            return self.lie(number, from, depth, mail);
        }
        if self.now < self.net.calm && self.random.chance(1) {
            self.hosts[number as usize].restart();
            self.meet("hosts that started anew");
        }
        match mail {
            Mail::Message(message) => self.message(number, from, depth, &message),
            Mail::Ask(question) => {
                let told = self.held_for(number, &question);
                self.send(Party::Box(number), from, depth + 1, Mail::Told(question, told));
            }
            Mail::Elect(body, decision, view) => {
                let Party::Box(voter) = from else { return };
                self.elect(number, voter, depth, &body, decision, view);
            }
            Mail::Answer(..) | Mail::Told(..) => {}
        }
    }

    /// A message whose signatures are in order comes to the engine.
    fn message(&mut self, number: u8, from: Party, depth: u64, message: &[u8]) {
        let right = tx_part(self.group, message).filter(|body| self.signed_body(body)).map(<[u8]>::to_vec);
        let Some(body) = right.filter(|_| self.backed(message)) else { return self.meet("messages whose signatures are wrong") };
        let (now, message) = (self.now, self.paced(number, &body, message));
        let answer = self.hosts[number as usize].call(&message, now);
        self.note(number, &body, answer);
        let host = &mut self.hosts[number as usize];
        if answer.is_ok() {
            host.stamps.insert(Stamp(u64::from_le_bytes(body[4..12].try_into().expect("eight bytes"))));
        }
        if let (Ok(Answer::Logged(_, View(1..))), Party::Box(_)) = (answer, from) {
            self.meet("logs by a leader's decision");
        }
        let host = &mut self.hosts[number as usize];
        if answer == Ok(Answer::Done) {
            host.proofs.entry(body.clone()).or_insert(message);
        }
        let wanted = host.wanted.entry(body.clone()).or_default();
        let to = match from {
            Party::Desk(_) => {
                wanted.insert(from);
                vec![from]
            }
            // a leader's: whoever is at work on it hears of the log
            Party::Box(_) if matches!(answer, Ok(Answer::Logged(..))) => wanted.iter().copied().collect(),
            Party::Box(_) => vec![],
        };
        self.answer(number, &to, depth, body, answer);
    }

    fn answer(&mut self, number: u8, to: &[Party], depth: u64, body: Vec<u8>, answer: Result<Answer, Refusal>) {
        let taken = self.hosts[number as usize].proofs.get(&body).cloned();
        let handed = taken.filter(|_| matches!(answer, Ok(Answer::Decided(_)) | Err(Refusal::Old)) && self.keeps(Habit::Handover));
        for to in to {
            self.send(Party::Box(number), *to, depth + 1, Mail::Answer(body.clone(), answer, handed.clone()));
        }
        if let Ok(Answer::Elected { decision, view, leader }) = answer {
            if view > View(0) {
                self.send(Party::Box(number), Party::Box(leader), depth + 1, Mail::Elect(body, decision, view));
            }
        }
    }

    /// An IV that steps on too soon is only a question.
    fn paced(&mut self, number: u8, body: &[u8], message: &[u8]) -> Vec<u8> {
        let (Ok(Message::Invoke(tx, views)), true) = (read_message(self.group, message), self.keeps(Habit::Pacing)) else {
            return message.to_vec();
        };
        let (now, group) = (self.now, self.group);
        let host = &mut self.hosts[number as usize];
        let current = host.view(tx.stamp);
        let pace = host.paces.entry(body.to_vec()).or_insert_with(|| Pace::new(group, PAUSE));
        if pace.admits(&views, current, now) {
            return message.to_vec();
        }
        self.meet("invocations held back");
        question(group, &tx).expect("a transaction in order")
    }

    /// An election answer for a box that may lead.
    fn elect(&mut self, number: u8, voter: u8, depth: u64, body: &[u8], decision: Decision, view: View) {
        if !self.signed_body(body) {
            return;
        }
        let group = self.group;
        let Ok(new) = Leader::new(group, number, body) else { return };
        let letters = self.hosts[number as usize].leaders.entry(body.to_vec()).or_insert(new).hear(voter, decision, view);
        for Letter { to, load } in letters {
            if let Load::Message(ld) = load {
                self.led.insert(ld.clone());
                self.send(Party::Box(number), Party::Box(to), depth + 1, Mail::Message(ld));
            }
        }
    }

    fn held_for(&self, number: u8, question: &Question) -> Vec<Holding> {
        let host = &self.hosts[number as usize];
        match question {
            Question::Held(stamp) => host.holding(*stamp).map(|(holding, _)| holding).into_iter().collect(),
            Question::Way(body) => {
                let Some(tx) = self.tx_of(body) else { return vec![] };
                let undecided = host.stamps.iter().filter_map(|stamp| host.holding(*stamp)).filter(|(_, decided)| decided.is_none());
                let in_it = |holding: &Holding| holding.body != *body && self.tx_of(&holding.body).is_some_and(|other| in_the_way(&tx, &other));
                undecided.map(|(holding, _)| holding).filter(in_it).take(MOST_HOLDINGS).collect()
            }
        }
    }
}

// ---- signatures

impl World {
    fn signed_body(&self, body: &[u8]) -> bool {
        self.signed.contains(body) || !self.keeps(Habit::Bodies)
    }

    /// What stands beside a message's lists: each answer and each view signed by its box, an LD by its leader.
    pub fn backed(&mut self, message: &[u8]) -> bool {
        let body = tx_part(self.group, message).unwrap_or_default().to_vec();
        match read_message(self.group, message) {
            Ok(Message::Prepare(_)) => true,
            Ok(Message::Log(_, list) | Message::Decide(_, list)) => self.backed_list(&body, &list),
            Ok(Message::Invoke(_, views)) => !self.keeps(Habit::SignedViews) || views.iter().all(|(number, view)| self.told_view(&body, *number, *view)),
            Ok(Message::Lead(_, election)) => self.backed_election(message, &body, &election),
            Ok(Message::Read(..)) | Err(_) => false,
        }
    }

    fn backed_list(&mut self, body: &[u8], list: &VoteList) -> bool {
        let kind = if list.kind == Kind::Votes { ModelKind::Votes } else { ModelKind::Logs };
        list.pairs.iter().all(|(number, answer)| self.gave(body, Word::of(kind, model_decision(*answer), list.view.0)) & 1 << number != 0)
    }

    /// A view above 0 is told by an election answer or by a log.
    fn told_view(&mut self, body: &[u8], number: u8, view: View) -> bool {
        let words = [Decision::Commit, Decision::Abort].map(model_decision).map(|decision| [Word::Elect(decision, view.0), Word::Log(decision, view.0)]);
        view == View(0) || words.into_iter().flatten().any(|word| self.gave(body, word) & 1 << number != 0)
    }

    fn backed_election(&mut self, message: &[u8], body: &[u8], election: &Election) -> bool {
        let signed = self.led.contains(message) || self.lies(election.leader) || !self.keeps(Habit::SignedLeader);
        signed && election.answers.iter().all(|(number, answer, view)| self.gave(body, Word::Elect(model_decision(*answer), view.0)) & 1 << number != 0)
    }

    /// What a sound box is held to goes into the judge's book.
    fn note(&mut self, number: u8, body: &[u8], answer: Result<Answer, Refusal>) {
        let word = match answer {
            Ok(Answer::Voted(vote, _)) => vote.decision().map(|decision| Word::Vote(model_decision(decision))),
            Ok(Answer::Logged(decision, view)) => Some(Word::Log(model_decision(decision), view.0)),
            Ok(Answer::Elected { decision, view, .. }) => Some(Word::Elect(model_decision(decision), view.0)),
            _ => None,
        };
        let Some(word) = word else { return };
        let body = self.body_number(body);
        if let Err(wrong) = self.judge.note(body, number.into(), word) {
            self.wrong = Some(wrong);
        }
    }
}
