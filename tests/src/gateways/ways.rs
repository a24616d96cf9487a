//! The ways through, each in a world without surprises where every message takes one tick: what they cost, and that a gateway may die at every step of each.

use super::evil::Attack;
use super::hosts::Host;
use super::liars::{Style, STYLES};
use super::world::{model_tx, Habit, Operation, World, FIRST_MOMENT, FLOWS, MOMENT};
use crate::messages::pr;
use crate::model::transaction_bytes;
use stobbarel::{Key, Stamp, Transaction, UpTo};

#[derive(Clone, Copy, Debug, PartialEq, Eq)]
pub enum Way {
    /// All boxes vote commit.
    Commit,
    /// All boxes vote abort.
    Abort,
    /// One box votes abort: neither can be proved by votes.
    Logged,
    /// f boxes say nothing: the gateway waits for them first.
    LoggedLate,
    /// Half of the boxes have logged the other decision.
    Fallback,
    /// And so many liars lead first.
    Misled(u32),
    /// So many undecided ones below it, each waiting for the next.
    Below(u64),
}

pub fn name(way: Way) -> String {
    match way {
        Way::Commit => "fast: all vote commit".into(),
        Way::Abort => "fast: all vote abort".into(),
        Way::Logged => "logged: one box votes abort".into(),
        Way::LoggedLate => "logged: f boxes are silent".into(),
        Way::Fallback => "one fallback: half have logged the other decision".into(),
        Way::Misled(1) => "the same, and a liar leads first".into(),
        Way::Misled(count) => format!("the same, and {count} liars lead first"),
        Way::Below(1) => "rescue: one undecided transaction below it".into(),
        Way::Below(count) => format!("rescue: {count} undecided below it, in a chain"),
    }
}

pub const WAYS: [Way; 11] = [
    Way::Commit,
    Way::Abort,
    Way::Logged,
    Way::LoggedLate,
    Way::Fallback,
    Way::Misled(1),
    Way::Misled(2),
    Way::Below(1),
    Way::Below(2),
    Way::Below(4),
    Way::Below(8),
];

/// The first moment of a way's gateway: those below it are older.
const START: u64 = 20;

/// A stamp of the writers that left something below.
fn old_stamp(place: u64) -> Stamp {
    Stamp((FIRST_MOMENT + place) * MOMENT + 14)
}

/// The world of a way. Its gateway may die after so many letters. Liars are those that the way needs, or these.
pub fn world(way: Way, f: u64, dies_after: Option<u64>, others: Option<(u32, Style)>, without: Option<Habit>) -> World {
    let n = 5 * f + 1;
    let stamp = (FIRST_MOMENT + START) * MOMENT;
    let leads = |view: u64| 1u32 << ((stamp + view) % n);
    let (liars, style) = match (way, others) {
        (_, Some(others)) => others,
        (Way::LoggedLate, _) => ((0..f).fold(0, |mask, number| mask | 1 << number), Style::Silent),
        (Way::Misled(count), _) => ((1..=u64::from(count)).fold(0, |mask, view| mask | leads(view)), Style::Misleader),
        _ => (0, Style::Silent),
    };
    let mut world = World::new(f, liars, 1, FLOWS, without);
    world.style = style;
    let reads = if matches!(way, Way::Below(_)) { vec![0] } else { vec![] };
    world.add_station(dies_after, vec![(START, Operation { reads, writes: vec![0], again: 0 })]);
    let against = match way {
        Way::Abort => n,
        Way::Logged => 1,
        Way::Fallback | Way::Misled(_) => f + 1,
        _ => 0,
    };
    let sound: Vec<u8> = world.sound().collect();
    for number in sound.into_iter().rev().take(against as usize) {
        world.hosts[number as usize].newest(Key(0), Stamp(stamp + 1), START);
    }
    match way {
        Way::Fallback | Way::Misled(_) => world.add_attack(Attack::Halve, START + 2),
        Way::Below(count) => (0..count).for_each(|place| leave_below(&mut world, place)),
        _ => {}
    }
    world
}

/// What a dead gateway left: a write that reads the one before it, and every box has its PR.
fn leave_below(world: &mut World, place: u64) {
    let reads = if place == 0 { UpTo::new() } else { [(Key(0), old_stamp(place - 1))].into() };
    let tx = Transaction::new(old_stamp(place), reads, [(Key(0), place)]);
    let body = transaction_bytes(&model_tx(&tx));
    world.signed.insert(body.clone());
    for number in world.sound().collect::<Vec<u8>>() {
        world.prepare(number, &pr(&body));
    }
}

/// Ways to the proof, and messages until all sound boxes are done; none where it hangs.
pub fn measure(way: Way, f: u64) -> Option<(u64, u64)> {
    if way == Way::Misled(2) && f == 1 {
        return None;
    }
    let mut world = world(way, f, None, None, None);
    let done = world.run(10_000);
    let (_, hops, _) = world.stations[0].cares[0].decided.filter(|_| done)?;
    Some((hops, world.messages))
}

/// The rows of the table in docs/GATEWAY.md.
pub fn rows() -> Vec<String> {
    let cell = |measured: Option<(u64, u64)>| measured.map_or("– | –".into(), |(hops, messages)| format!("{hops} | {messages}"));
    WAYS.iter().map(|way| format!("| {} | {} | {} |", name(*way), cell(measure(*way, 1)), cell(measure(*way, 2)))).collect()
}

/// A gateway dies at a step; another runs into what it left, and then sweeps it. What is wrong, if anything.
fn death(way: Way, f: u64, after: u64, style: Option<Style>, without: Option<Habit>) -> Option<String> {
    let mut world = world(way, f, Some(after), style.map(|style| (some_liars(f), style)), without);
    world.add_station(None, vec![(START + 60, Operation { reads: vec![0], writes: vec![0], again: 1 })]);
    let tell = |what: &str| Some(format!("{way:?}, f = {f}, {style:?}, died after {after} letters: {what}"));
    if !world.run(START + 8_000) {
        return tell(world.wrong.as_deref().unwrap_or("what the other cares for hangs"));
    }
    let stamp = Stamp((FIRST_MOMENT + START) * MOMENT);
    world.sweep(1, stamp);
    let until = world.now + 8_000;
    if !world.run_until(until, |world| world.swept(stamp)) {
        return tell(world.wrong.as_deref().unwrap_or("what it left is not finished"));
    }
    None
}

/// Liars beside a way's own, or in their place: none, or f of each style. A way with lying leaders has its own.
fn styles(way: Way) -> Vec<Option<Style>> {
    let others = STYLES.map(Some).into_iter().filter(|_| !matches!(way, Way::Misled(_)));
    [None].into_iter().chain(others).collect()
}

/// A gateway that dies at every single step of every way, with liars of every style: how many died, and what went wrong.
pub fn deaths(without: Option<Habit>) -> (u64, Vec<String>) {
    let (mut count, mut wrong) = (0, vec![]);
    let ways = |f: u64| WAYS.into_iter().filter(move |way| !matches!(way, Way::Below(4 | 8)) && (*way != Way::Misled(2) || f == 2));
    for (f, way) in [1, 2].into_iter().flat_map(|f| ways(f).map(move |way| (f, way))) {
        for style in styles(way) {
            let (died, left) = deaths_in(way, f, style, without);
            count += died;
            wrong.extend(left);
        }
    }
    (count, wrong)
}

/// The same in one way, with these liars.
pub fn deaths_in(way: Way, f: u64, style: Option<Style>, without: Option<Habit>) -> (u64, Vec<String>) {
    let mut whole = world(way, f, None, style.map(|style| (some_liars(f), style)), None);
    whole.run(8_000);
    let steps = 0..=whole.stations[0].sent;
    (steps.clone().count() as u64, steps.filter_map(|after| death(way, f, after, style, without)).collect())
}

/// f of the boxes, apart from each other.
fn some_liars(f: u64) -> u32 {
    (0..f).fold(0, |mask, number| mask | 1 << (3 * number + 1))
}

impl World {
    /// A PR that came to a box before the world began.
    fn prepare(&mut self, number: u8, message: &[u8]) {
        self.at_box(number, super::world::EVIL, 0, super::world::Mail::Message(message.to_vec()));
    }

    /// Every sound box that holds something under a stamp has it decided, all alike.
    fn swept(&self, stamp: Stamp) -> bool {
        let held = |host: &Host| host.holding(stamp).map(|(holding, decided)| (holding.body, decided));
        let all: Vec<_> = self.sound().filter_map(|number| held(&self.hosts[number as usize])).collect();
        all.iter().all(|one| one.1.is_some() && *one == all[0])
    }
}
