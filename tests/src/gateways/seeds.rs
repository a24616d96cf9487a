//! What world a seed stands for.

use super::evil::Attack;
use super::liars::STYLES;
use super::world::{Habit, Network, Operation, World, EVIL_WRITER, FIRST_MOMENT, MOMENT};
use crate::random::Random;
use stobbarel::{Stamp, View};

/// What a seed's world is about: one of these in turn.
#[derive(Clone, Copy, Debug, PartialEq, Eq)]
pub enum Kind {
    /// Gateways that die, and liars.
    Plain,
    /// One transaction was logged both ways.
    Split,
    /// And someone never stops raising its views.
    Raise,
    /// Or tells views that nobody stands in.
    ForgeViews,
    /// Or leads in others' names.
    ForgeLeader,
    /// False bodies under others' stamps.
    Sow,
    /// Boxes are far from each other.
    Slow,
}

const KINDS: [Kind; 8] = [Kind::Plain, Kind::Split, Kind::Raise, Kind::ForgeViews, Kind::Plain, Kind::ForgeLeader, Kind::Sow, Kind::Slow];

/// What such a world is, in a document's words.
pub fn told(kind: Kind) -> &'static str {
    match kind {
        Kind::Plain => "dying gateways and liars",
        Kind::Split => "logged both ways",
        Kind::Raise => "logged both ways, and views raised without end",
        Kind::ForgeViews => "logged both ways, and views told that nobody stands in",
        Kind::ForgeLeader => "logged both ways, and LDs in others' names",
        Kind::Sow => "false bodies sown",
        Kind::Slow => "logged both ways, and boxes far from each other",
    }
}

pub fn kind(seed: u64) -> Kind {
    KINDS[(seed % KINDS.len() as u64) as usize]
}

fn some_network(random: &mut Random, kind: Kind) -> Network {
    let between = if kind == Kind::Slow { (150, 250) } else { (1, 3) };
    Network {
        calm: random.between(0, 300),
        lost: random.below(50),
        twice: random.below(20),
        held: random.below(40),
        late: random.between(1, 60),
        quick: 3,
        between,
    }
}

fn some_operation(random: &mut Random, keys: u64) -> Operation {
    let mut some = || -> Vec<u16> { (0..keys as u16).filter(|_| random.chance(60)).take(2).collect() };
    let (reads, mut writes) = (some(), some());
    if writes.is_empty() {
        writes.push(0);
    }
    Operation { reads, writes, again: 0 }
}

/// Up to f liars, mostly f.
fn some_liars(random: &mut Random, f: u64) -> u32 {
    (0..f).fold(0, |mask, _| if random.chance(85) { mask | 1 << random.below(5 * f + 1) } else { mask })
}

pub fn world(seed: u64, without: Option<Habit>) -> World {
    let (mut random, kind) = (Random::new(seed ^ 0x5eed), kind(seed));
    let f = if random.chance(70) { 1 } else { 2 };
    let net = some_network(&mut random, kind);
    let mut world = World::new(f, some_liars(&mut random, f), seed, net, without);
    world.style = random.one_of(&STYLES);
    let keys = random.between(1, 3);
    let split = (kind != Kind::Plain && kind != Kind::Sow).then(|| (random.below(keys) as u16, random.below(net.calm + 50)));
    for index in 0..random.between(2, 4) {
        let dies = (index > 0 && random.chance(60)).then(|| random.below(90));
        let mut operation = some_operation(&mut random, keys);
        operation.again = if dies.is_none() { random.below(3) as u32 } else { 0 };
        let mut start = if dies.is_some() { random.below(net.calm + 1) } else { random.below(net.calm + 150) };
        if let (Some((key, at)), 0) = (split, index) {
            // it reads what was split, and finds it in its way; false views are told long enough for any pause to be over
            let later = if kind == Kind::ForgeViews { 340 } else { 3 };
            (operation.reads, start) = (vec![key], at + later + random.below(60));
        }
        world.add_station(dies, vec![(start, operation)]);
    }
    if let Some((key, at)) = split {
        add_split(&mut world, kind, key, at);
    }
    if kind == Kind::Sow {
        world.add_attack(Attack::Sow, 1);
    }
    world
}

/// The transaction that is split, and who sees to it that it stays so.
fn add_split(world: &mut World, kind: Kind, key: u16, mut at: u64) {
    let led_by_a_liar = |world: &World, at: u64| world.lies(world.leader(Stamp((FIRST_MOMENT + at) * MOMENT + EVIL_WRITER), View(65535)));
    while kind == Kind::ForgeViews && world.liars != 0 && !led_by_a_liar(world, at) {
        at += 1;
    }
    world.add_attack(Attack::Split { key, body: None }, at);
    match kind {
        Kind::Raise => world.add_attack(Attack::Raise, 1),
        Kind::ForgeViews => world.add_attack(Attack::ForgeViews, 1),
        Kind::ForgeLeader => world.add_attack(Attack::ForgeLeader, 1),
        _ => {}
    }
}
