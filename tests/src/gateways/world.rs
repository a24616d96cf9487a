//! A world: boxes with their hosts, gateways' desks, a network that is bad for a time and then flows, liars among the boxes, and evil gateways. A seed determines it.
//!
//! Signatures are modelled by what was said: the judge's book of words for what boxes gave, a set for the bodies that their writers signed, one for the LDs that leaders
//! signed. Liars may say anything, under their own numbers.

use super::evil::Attack;
use super::hosts::Host;
use super::liars::Style;
use crate::judge::{Judge, Word};
use crate::messages::transaction;
use crate::model::{self, PAPER};
use crate::random::Random;
use std::collections::{BTreeMap, BTreeSet};
use stobbarel::{read_tx, tx_part, Answer, Decision, Desk, Group, Holding, Key, Letter, Load, Question, Refusal, Stamp, Timing, Transaction, UpTo, View};

/// What a gateway or a host does that can be left out, to see what hangs.
#[derive(Clone, Copy, Debug, PartialEq, Eq)]
pub enum Habit {
    /// A gateway invokes the fallback.
    Fallback,
    /// Each try of it has twice the time.
    Doubling,
    /// A DC is sent again until it is answered.
    Resend,
    /// A host hands over the DC that its box took.
    Handover,
    /// A host takes a body, and a gateway rescues one, only with its writer's signature.
    Bodies,
    /// A host checks the signatures of the views in an IV.
    SignedViews,
    /// A host checks the leader's signature on an LD.
    SignedLeader,
    /// A host holds an IV back that steps on too soon.
    Pacing,
}

pub const HABITS: [(Habit, &str); 8] = [
    (Habit::Fallback, "fallback"),
    (Habit::Doubling, "doubling"),
    (Habit::Resend, "resend"),
    (Habit::Handover, "handover"),
    (Habit::Bodies, "bodies"),
    (Habit::SignedViews, "signed-views"),
    (Habit::SignedLeader, "signed-leader"),
    (Habit::Pacing, "pacing"),
];

/// Who sends or receives: a box's host, or a gateway's desk. Evil gateways have numbers above those of the desks.
#[derive(Clone, Copy, Debug, PartialEq, Eq, PartialOrd, Ord)]
pub enum Party {
    Box(u8),
    Desk(usize),
}

pub const EVIL: Party = Party::Desk(usize::MAX);
/// The writer's part of its stamps.
pub const EVIL_WRITER: u64 = 15;

/// What is on its way.
#[derive(Clone, Debug)]
pub enum Mail {
    /// One of the six messages.
    Message(Vec<u8>),
    Ask(Question),
    /// A box's answer to a message with this body, and the DC that it hands over.
    Answer(Vec<u8>, Result<Answer, Refusal>, Option<Vec<u8>>),
    Told(Question, Vec<Holding>),
    /// An election answer with the body, for the leader.
    Elect(Vec<u8>, Decision, View),
}

enum Event {
    /// It was sent so many ways after the first of its kind.
    Mail {
        from: Party,
        to: Party,
        depth: u64,
        mail: Mail,
    },
    Wake(usize),
    Start(usize),
    Strike(usize),
}

/// How the network is, before it is calm and after.
#[derive(Clone, Copy, Debug)]
pub struct Network {
    pub calm: u64,
    /// Of a hundred messages: lost, doubled, held back until it is calm.
    pub lost: u64,
    pub twice: u64,
    pub held: u64,
    /// The longest way before, and after.
    pub late: u64,
    pub quick: u64,
    /// The shortest and the longest way from box to box, after.
    pub between: (u64, u64),
}

pub const FLOWS: Network = Network { calm: 0, lost: 0, twice: 0, held: 0, late: 1, quick: 1, between: (1, 1) };

pub const TIMING: Timing = Timing { patience: 10, first_try: 20, doublings: 12, farewells: 12 };
pub const PAUSE: u64 = 40;
/// A tick of time in stamps: the rest of a stamp is its writer's number.
pub const MOMENT: u64 = 17;
pub const DELTA: u64 = 100 * MOMENT;
pub const FIRST_MOMENT: u64 = 1000;

/// An operation of a desk: keys to read, keys to write, and how often it is tried again under a new stamp if it is aborted.
#[derive(Clone, Debug)]
pub struct Operation {
    pub reads: Vec<u16>,
    pub writes: Vec<u16>,
    pub again: u32,
}

/// A transaction that a desk cares for.
#[derive(Clone, Debug)]
pub struct Care {
    pub body: Vec<u8>,
    pub since: u64,
    /// When it had a proof, after how many ways, and of what.
    pub decided: Option<(u64, u64, Decision)>,
    /// It was aborted, and its operation is tried again as soon as what stood in its way is decided.
    again: bool,
}

pub struct Station {
    pub desk: Desk,
    pub alive: bool,
    pub dies_after: Option<u64>,
    pub sent: u64,
    pub depth: u64,
    pub operations: Vec<Operation>,
    pub cares: Vec<Care>,
    pub most_falls: u32,
}

/// An arrow of a picture.
#[derive(Clone, Debug)]
pub struct Arrow {
    pub sent: u64,
    pub arrives: u64,
    pub from: Party,
    pub to: Party,
    pub text: String,
}

pub struct World {
    pub group: Group,
    pub n: u8,
    pub liars: u32,
    pub style: Style,
    pub random: Random,
    pub now: u64,
    pub net: Network,
    pub without: Option<Habit>,
    queue: BTreeMap<(u64, u64), Event>,
    count: u64,
    pub hosts: Vec<Host>,
    pub stations: Vec<Station>,
    pub attacks: Vec<Attack>,
    pub judge: Judge,
    pub signed: BTreeSet<Vec<u8>>,
    pub led: BTreeSet<Vec<u8>>,
    pub messages: u64,
    /// What the worlds have to have met.
    pub met: BTreeMap<&'static str, u64>,
    pub wrong: Option<String>,
    pub arrows: Option<Vec<Arrow>>,
}

pub fn model_tx(tx: &Transaction) -> model::Transaction {
    let reads: Vec<(u16, u64)> = tx.reads.iter().map(|(key, version)| (key.0, version.0)).collect();
    let writes: Vec<(u16, u64)> = tx.writes.iter().map(|(key, value)| (key.0, *value)).collect();
    transaction(tx.stamp.0, &reads, &writes)
}

pub fn model_decision(decision: Decision) -> model::Decision {
    match decision {
        Decision::Commit => model::Decision::Commit,
        Decision::Abort => model::Decision::Abort,
    }
}

impl World {
    pub fn new(f: u64, liars: u32, seed: u64, net: Network, without: Option<Habit>) -> World {
        let group = Group::try_from(f).expect("f is 1 to 5");
        let n = group.boxes();
        let mut random = Random::new(seed);
        let hosts = (0..n).map(|_| Host::new(group, random.below(20))).collect();
        let judge = Judge::new(PAPER, f, liars.count_ones() as usize);
        World {
            group,
            n,
            liars,
            style: Style::Silent,
            random,
            now: 0,
            net,
            without,
            queue: BTreeMap::new(),
            count: 0,
            hosts,
            stations: vec![],
            attacks: vec![],
            judge,
            signed: BTreeSet::new(),
            led: BTreeSet::new(),
            messages: 0,
            met: BTreeMap::new(),
            wrong: None,
            arrows: None,
        }
    }

    pub fn meet(&mut self, what: &'static str) {
        *self.met.entry(what).or_default() += 1;
    }

    pub fn keeps(&self, habit: Habit) -> bool {
        self.without != Some(habit)
    }

    pub fn lies(&self, number: u8) -> bool {
        self.liars & 1 << number != 0
    }

    pub fn sound(&self) -> impl Iterator<Item = u8> + '_ {
        (0..self.n).filter(|number| !self.lies(*number))
    }

    pub fn leader(&self, stamp: Stamp, view: View) -> u8 {
        ((u128::from(stamp.0) + u128::from(view.0)) % u128::from(self.n)) as u8
    }

    pub fn add_station(&mut self, dies_after: Option<u64>, operations: Vec<(u64, Operation)>) -> usize {
        let mut timing = TIMING;
        if !self.keeps(Habit::Doubling) {
            timing.doublings = 0;
        }
        if !self.keeps(Habit::Resend) {
            timing.farewells = 0;
        }
        let index = self.stations.len();
        let desk = Desk::new(self.group, timing);
        let (starts, operations): (Vec<u64>, Vec<Operation>) = operations.into_iter().unzip();
        self.stations.push(Station { desk, alive: true, dies_after, sent: 0, depth: 0, operations, cares: vec![], most_falls: 0 });
        starts.into_iter().for_each(|time| self.at(time, Event::Start(index)));
        index
    }

    pub fn add_attack(&mut self, attack: Attack, time: u64) {
        self.attacks.push(attack);
        self.at(time, Event::Strike(self.attacks.len() - 1));
    }

    fn at(&mut self, time: u64, event: Event) {
        self.count += 1;
        self.queue.insert((time, self.count), event);
    }

    pub fn strike_again(&mut self, index: usize, after: u64) {
        self.at(self.now + after, Event::Strike(index));
    }

    /// A stamp of this moment and this writer.
    pub fn stamp(&self, writer: u64) -> Stamp {
        Stamp((FIRST_MOMENT + self.now) * MOMENT + writer)
    }

    /// The judge's number of a body; bodies that are held are in order.
    pub fn body_number(&mut self, body: &[u8]) -> usize {
        let tx = self.tx_of(body).expect("a body in order");
        self.judge.body(model_tx(&tx))
    }

    pub fn tx_of(&self, body: &[u8]) -> Option<Transaction> {
        read_tx(body).ok()
    }

    /// The boxes that gave this word for a body; liars may always have.
    pub fn gave(&mut self, body: &[u8], word: Word) -> u32 {
        let number = self.body_number(body);
        self.judge.bodies[number].given(word) | self.liars
    }
}

// ---- the network

impl World {
    /// An evil gateway's mail takes one tick, whatever the network does.
    pub fn send_evil(&mut self, to: u8, mail: Mail) {
        self.at(self.now + 1, Event::Mail { from: EVIL, to: Party::Box(to), depth: 0, mail });
    }

    pub fn send(&mut self, from: Party, to: Party, depth: u64, mail: Mail) {
        if to == EVIL {
            return;
        }
        if from == to {
            // a leader to its own box
            self.arrow(self.now, from, to, &mail);
            self.at(self.now, Event::Mail { from, to, depth, mail });
            return;
        }
        self.messages += 1;
        if self.now >= self.net.calm {
            let way = match (from, to) {
                (Party::Box(_), Party::Box(_)) => self.random.between(self.net.between.0, self.net.between.1),
                _ => self.random.between(1, self.net.quick),
            };
            self.arrow(self.now + way, from, to, &mail);
            return self.at(self.now + way, Event::Mail { from, to, depth, mail });
        }
        if self.random.chance(self.net.lost) {
            return self.meet("messages lost");
        }
        let copies = if self.random.chance(self.net.twice) { 2 } else { 1 };
        if copies == 2 {
            self.meet("messages doubled");
        }
        for _ in 0..copies {
            let mut time = self.now + self.random.between(1, self.net.late);
            if self.random.chance(self.net.held) {
                time = self.net.calm + self.random.between(1, 50);
                self.meet("messages held back until it was calm");
            }
            self.at(time, Event::Mail { from, to, depth, mail: mail.clone() });
        }
    }

    fn arrow(&mut self, arrives: u64, from: Party, to: Party, mail: &Mail) {
        let sent = self.now;
        if self.arrows.is_none() {
            return;
        }
        let mut text = super::picture::label(self.group, mail);
        let body = match mail {
            Mail::Message(message) => tx_part(self.group, message).unwrap_or_default(),
            Mail::Answer(body, ..) | Mail::Elect(body, ..) => body,
            Mail::Ask(_) | Mail::Told(..) => &[],
        };
        // of another's transaction
        if !body.is_empty() && !self.stations.iter().any(|station| station.cares.iter().any(|care| care.body == body)) {
            text += "′";
        }
        self.arrows.iter_mut().for_each(|arrows| arrows.push(Arrow { sent, arrives, from, to, text: text.clone() }));
    }

    /// Everything that happens until it is done, at most until this time. Whether it is done.
    pub fn run(&mut self, until: u64) -> bool {
        self.run_until(until, World::done)
    }

    pub fn run_until(&mut self, until: u64, done: impl Fn(&World) -> bool) -> bool {
        let mut events = 0u64;
        while self.queue.first_key_value().is_some_and(|((time, _), _)| *time <= until) && self.wrong.is_none() {
            let Some(((time, _), event)) = self.queue.pop_first() else { break };
            self.now = time;
            match event {
                Event::Mail { from, to: Party::Box(number), depth, mail } => self.at_box(number, from, depth, mail),
                Event::Mail { from: Party::Box(from), to: Party::Desk(index), depth, mail } => self.at_desk(index, from, depth, mail),
                Event::Mail { .. } => {}
                Event::Wake(index) => self.wake(index),
                Event::Start(index) => self.start(index),
                Event::Strike(index) => self.strike(index),
            }
            events += 1;
            // the last message of a moment: counting stops as soon as it is done
            let last = self.queue.first_key_value().is_none_or(|((next, _), _)| *next > time);
            if (last || events & 31 == 0) && done(self) {
                return self.wrong.is_none();
            }
        }
        done(self) && self.wrong.is_none()
    }

    /// Every transaction on a live gateway's desk is decided, its own and those that stood in the way, and sound boxes have that decision; nothing is to be started
    /// any more.
    pub fn done(&self) -> bool {
        let starts = self.queue.values().any(|event| matches!(event, Event::Start(_)));
        !starts
            && self.stations.iter().filter(|station| station.alive).all(|station| {
                let mut on_desk = station.desk.gateways();
                let own = |care: &Care| !care.again && care.decided.is_some_and(|(_, _, decision)| self.everywhere(&care.body, decision));
                station.cares.iter().all(own) && on_desk.all(|gateway| gateway.outcome().is_some_and(|decision| self.everywhere(gateway.body(), decision)))
            })
    }

    fn everywhere(&self, body: &[u8], decision: Decision) -> bool {
        self.sound().all(|number| self.hosts[number as usize].decided(body) == Some(decision))
    }
}

// ---- desks

impl World {
    fn post(&mut self, index: usize, letters: Vec<Letter>) {
        for letter in letters {
            let station = &mut self.stations[index];
            if station.dies_after == Some(station.sent) {
                station.alive = false;
                return self.meet("gateways died");
            }
            if !station.alive {
                return;
            }
            station.sent += 1;
            let depth = station.depth + 1;
            let mail = match letter.load {
                Load::Message(bytes) => Mail::Message(bytes),
                Load::Ask(question) => Mail::Ask(question),
            };
            let silent = matches!(&mail, Mail::Message(bytes) if bytes.starts_with(b"IV")) && !self.keeps(Habit::Fallback);
            if !silent {
                self.send(Party::Desk(index), Party::Box(letter.to), depth, mail);
            }
        }
        self.after(index);
    }

    /// Notes what is decided, has an aborted operation tried again, and sees to the next waking.
    fn after(&mut self, index: usize) {
        let (now, station) = (self.now, &mut self.stations[index]);
        station.most_falls = station.desk.gateways().map(|gateway| gateway.falls()).max().unwrap_or(0).max(station.most_falls);
        let decided = self.met.entry("transactions decided of live gateways").or_default();
        for care in station.cares.iter_mut().filter(|care| care.decided.is_none()) {
            if let Some(decision) = station.desk.outcome(&care.body) {
                care.decided = Some((now, station.depth, decision));
                *decided += 1;
                care.again = decision == Decision::Abort && station.operations[0].again > 0;
            }
        }
        let clear = station.cares.iter_mut().find(|care| care.again && station.desk.clear(&care.body));
        let again = clear.is_some();
        clear.into_iter().for_each(|care| care.again = false);
        if let Some(due) = station.desk.due() {
            self.at(due.max(now + 1), Event::Wake(index));
        }
        if again {
            self.meet("operations tried again under a new stamp");
            self.stations[index].operations[0].again -= 1;
            let pause = self.random.between(1, 60);
            self.at(now + pause, Event::Start(index));
        }
    }

    fn wake(&mut self, index: usize) {
        if !self.stations[index].alive {
            return;
        }
        let now = self.now;
        if self.stations[index].desk.due().is_some_and(|due| due <= now) {
            let letters = self.stations[index].desk.tick(now);
            self.post(index, letters);
        }
    }

    fn start(&mut self, index: usize) {
        if !self.stations[index].alive {
            return;
        }
        let tx = self.next_transaction(index);
        let now = self.now;
        let letters = self.stations[index].desk.care(tx.clone(), now).expect("a transaction in order");
        let body = crate::model::transaction_bytes(&model_tx(&tx));
        self.signed.insert(body.clone());
        self.stations[index].cares.push(Care { body, since: now, decided: None, again: false });
        self.post(index, letters);
    }

    /// The operation's keys, read at some sound box at the stamp: the newest version, undecided or committed.
    fn next_transaction(&mut self, index: usize) -> Transaction {
        let stamp = self.stamp(index as u64);
        let operation = self.stations[index].operations.first().cloned().expect("an operation to start");
        if self.stations[index].operations.len() > 1 {
            self.stations[index].operations.remove(0);
        }
        let sound: Vec<u8> = self.sound().collect();
        let shown_by = self.random.one_of(&sound);
        let reads = operation.reads.iter().map(|key| (Key(*key), self.newest(shown_by, Key(*key), stamp)));
        let reads = UpTo::gather(reads).expect("eight at most");
        let writes = operation.writes.iter().map(|key| (Key(*key), stamp.0 * 1000 + u64::from(*key)));
        Transaction { stamp, reads, writes: UpTo::gather(writes).expect("eight at most") }
    }

    fn newest(&mut self, number: u8, key: Key, stamp: Stamp) -> Stamp {
        let now = self.now;
        self.hosts[number as usize].newest(key, stamp, now)
    }

    /// A desk hears only what is signed: its caller has checked a DC that was handed over.
    fn at_desk(&mut self, index: usize, from: u8, depth: u64, mail: Mail) {
        if index >= self.stations.len() || !self.stations[index].alive {
            return;
        }
        let now = self.now;
        let letters = match mail {
            Mail::Answer(body, answer, handed) => {
                let handed = handed.filter(|dc| self.backed(dc));
                if handed.is_some() && self.stations[index].desk.outcome(&body).is_none() {
                    self.meet("proofs that a box handed over");
                }
                let station = &mut self.stations[index];
                station.depth = station.depth.max(depth);
                station.desk.hear(from, &body, answer, handed.as_deref(), now)
            }
            Mail::Told(question, mut holdings) => {
                for holding in &mut holdings {
                    holding.signed = self.signed.contains(&holding.body) || !self.keeps(Habit::Bodies);
                    holding.proof = holding.proof.take().filter(|dc| self.backed(dc));
                }
                let station = &mut self.stations[index];
                station.depth = station.depth.max(depth);
                let before = station.desk.gateways().count();
                let letters = station.desk.told(from, &question, &holdings, now);
                if station.desk.gateways().count() > before {
                    self.meet("transactions taken up since they stood in the way");
                }
                letters
            }
            _ => vec![],
        };
        self.post(index, letters);
    }

    /// Asks for what is held under a stamp until every sound box that holds it has it decided.
    pub fn sweep(&mut self, index: usize, stamp: Stamp) {
        let letters = self.stations[index].desk.sweep(stamp);
        self.post(index, letters);
    }
}
