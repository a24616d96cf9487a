//! What no gateway can mend, shown: two bodies that one writer signed under one stamp, the orphan that this can leave, and a full box beside f silent ones.

use super::liars::Style;
use super::world::{model_tx, Mail, Operation, World, EVIL, EVIL_WRITER, FIRST_MOMENT, FLOWS, MOMENT};
use crate::messages::pr;
use crate::model::transaction_bytes;
use stobbarel::layout::table_len;
use stobbarel::{Decision, Group, Key, Stamp, Table, Transaction};

const START: u64 = 50;
const LONG: u64 = 20_000;

fn forked(value: u64) -> Vec<u8> {
    let stamp = Stamp((FIRST_MOMENT + 5) * MOMENT + EVIL_WRITER);
    transaction_bytes(&model_tx(&Transaction::new(stamp, [], [(Key(0), value)])))
}

/// A writer signs two bodies under one stamp: one goes to these boxes, the other to the rest.
fn fork(world: &mut World, first: &[u8]) {
    for value in [1, 2] {
        world.signed.insert(forked(value));
    }
    for number in world.sound().collect::<Vec<u8>>() {
        let body = forked(if first.contains(&number) { 1 } else { 2 });
        world.at_box(number, EVIL, 0, Mail::Message(pr(&body)));
    }
}

fn undecided(world: &World, value: u64) -> bool {
    world.sound().all(|number| world.hosts[number as usize].decided(&forked(value)).is_none())
}

/// A reader of the version waits for ever; a blind write above it commits, and who reads that one commits.
fn two_bodies(liars: u32, first: &[u8]) -> Result<(), &'static str> {
    let mut world = World::new(1, liars, 1, FLOWS, None);
    world.style = Style::Silent;
    fork(&mut world, first);
    let reader = world.add_station(None, vec![(START, Operation { reads: vec![0], writes: vec![0], again: 0 })]);
    let hangs = !world.run(LONG) && undecided(&world, 1) && undecided(&world, 2);
    let mut freed = World::new(1, liars, 1, FLOWS, None);
    freed.style = Style::Silent;
    fork(&mut freed, first);
    let blind = freed.add_station(None, vec![(START, Operation { reads: vec![], writes: vec![0], again: 0 })]);
    let after = freed.add_station(None, vec![(START + 100, Operation { reads: vec![0], writes: vec![0], again: 0 })]);
    let done = freed.run(LONG);
    let outcome = |world: &World, index: usize| world.stations[index].cares[0].decided.map(|(_, _, decision)| decision);
    match (hangs && outcome(&world, reader) != Some(Decision::Commit), done, outcome(&freed, blind), outcome(&freed, after)) {
        (false, ..) => Err("two bodies under one stamp were decided, or their reader commits"),
        (_, true, Some(Decision::Commit), Some(Decision::Commit)) => Ok(()),
        _ => Err("a blind write above two bodies does not free the key"),
    }
}

/// One sound box has no room, and f are silent: what it does not hold cannot be logged by 4f + 1.
fn full_box() -> Result<(), &'static str> {
    let group = Group::of(1).map_err(|_| "no group")?;
    let mut world = World::new(1, 1, 1, FLOWS, None);
    world.style = Style::Silent;
    world.hosts[5].table = Table::new(group, 1).map_err(|_| "no table")?;
    let filler = transaction_bytes(&model_tx(&Transaction::new(Stamp(FIRST_MOMENT * MOMENT + 1), [], [(Key(9), 1)])));
    world.signed.insert(filler.clone());
    world.at_box(5, EVIL, 0, Mail::Message(pr(&filler)));
    world.add_station(None, vec![(START, Operation { reads: vec![], writes: vec![0], again: 0 })]);
    if world.run(LONG) {
        return Err("a full box and f silent ones hold nothing up");
    }
    // its owner gives it room
    let mut bytes = world.hosts[5].table.bytes().to_vec();
    bytes.resize(table_len(8), 0);
    world.hosts[5].table = Table::kept(group, 8, bytes, Box::new(*world.hosts[5].table.marks()));
    if world.run(2 * LONG) {
        Ok(())
    } else {
        Err("room does not mend a full box")
    }
}

/// One body is aborted by a proof, and a single box holds the other: it keeps that one undecided.
fn orphan() -> Result<(), &'static str> {
    let mut world = World::new(1, 0, 1, FLOWS, None);
    let stamp = Stamp((FIRST_MOMENT + 5) * MOMENT + EVIL_WRITER);
    for host in &mut world.hosts {
        host.newest(Key(0), Stamp(stamp.0 + 1), 0);
    }
    fork(&mut world, &[0, 1, 2, 3, 4]);
    let sweeper = world.add_station(None, vec![]);
    world.sweep(sweeper, stamp);
    world.run_until(LONG, |_| false);
    let aborted = (0..5).all(|number| world.hosts[number].decided(&forked(1)) == Some(Decision::Abort));
    let left = world.hosts[5].holding(stamp).is_some_and(|(holding, decided)| holding.body == forked(2) && decided.is_none());
    if aborted && left {
        Ok(())
    } else {
        Err("the body that one box holds does not stay behind")
    }
}

/// All of them, each with what it is.
pub fn shown() -> Vec<(&'static str, Result<(), &'static str>)> {
    vec![
        ("two bodies under one stamp, at three boxes and three", two_bodies(0, &[0, 1, 2])),
        ("two bodies under one stamp, at four boxes and one, and one is silent", two_bodies(1 << 5, &[0, 1, 2, 3])),
        ("the other body at a single box, when the one is aborted", orphan()),
        ("a full box and f silent ones, until it has room", full_box()),
    ]
}
