//! A box that lets old entries go: what folds, what is refused, and what is left.
#![cfg(feature = "alloc")]

mod common;

use Decision::{Abort, Commit};
use common::{alike, bytes};
use stobbarel::layout::{HEAD, KEYS, table_len};
use stobbarel::*;

const CLOCK: u64 = 100;
const DELTA: u64 = 10;

fn group() -> Group {
    Group::of(1).unwrap()
}

fn version(stamp: u64, value: u64) -> Option<Version> {
    Some(Version { stamp: Stamp(stamp), value })
}

/// A table in which these are decided, in this order: stamp, value at key 3, decision.
fn decided(capacity: u64, entries: &[(u64, u64, Decision)]) -> Table {
    let mut table = Table::new(group(), capacity).unwrap();
    for (stamp, value, decision) in entries {
        let tx = Transaction::new(Stamp(*stamp), [], [(Key(3), *value)]);
        let list = VoteList::votes(*decision, alike(0..if *decision == Commit { 6 } else { 4 }, *decision));
        assert_eq!(table.decide(CLOCK, DELTA, &bytes(|out| write_dc(group(), &tx, &list, out))), Ok(Answer::Done));
    }
    table
}

#[test]
fn the_newest_folds_and_the_aborted_leave() {
    let mut table = decided(8, &[(60, 7, Commit), (50, 8, Commit), (55, 9, Abort), (70, 10, Commit)]);
    assert_eq!((table.low(), table.fold(Key(3))), (Ok(Stamp(0)), Ok(None)));
    assert_eq!(table.raise(Stamp(60)), Ok(()));
    assert_eq!((table.low(), table.fold(Key(3)), table.fold(Key(4))), (Ok(Stamp(60)), Ok(version(60, 7)), Ok(None)));
    assert_eq!(table.bytes()[0], 1);
    assert!(table.held(Stamp(70)).unwrap().is_some() && table.held(Stamp(60)).unwrap().is_none());
    let read = |table: &mut Table, stamp| table.read(CLOCK, DELTA, &bytes(|out| write_rd(Key(3), Stamp(stamp), out)));
    assert_eq!(read(&mut table, 80), Ok(Answer::Found { committed: version(70, 10), undecided: None }));
    assert_eq!(read(&mut table, 70), Ok(Answer::Found { committed: version(60, 7), undecided: None }));
    assert_eq!(read(&mut table, 60), Err(Refusal::Old));
}

#[test]
fn reads_name_the_folded_version() {
    let mut table = decided(8, &[(50, 7, Commit)]);
    assert_eq!(table.raise(Stamp(55)), Ok(()));
    let ask = |table: &mut Table, stamp, version| {
        let tx = Transaction::new(Stamp(stamp), [(Key(3), Stamp(version))], []);
        table.prepare(CLOCK, DELTA, &bytes(|out| write_pr(&tx, out)))
    };
    assert_eq!(ask(&mut table, 60, 50), Ok(Answer::Voted(Vote::Commit, Some(0))));
    assert_eq!(ask(&mut table, 61, 49), Ok(Answer::Voted(Vote::Abort(Reason::NoVersion), Some(1))));
    assert_eq!(ask(&mut table, 62, 0), Ok(Answer::Voted(Vote::Abort(Reason::Overwritten), Some(2))));
    assert_eq!(ask(&mut table, 55, 0), Err(Refusal::Old));
}

#[test]
fn refusals_in_their_order_change_nothing() {
    let mut table = decided(8, &[(50, 7, Commit)]);
    let open = Transaction::new(Stamp(60), [], [(Key(4), 1)]);
    assert!(table.prepare(CLOCK, DELTA, &bytes(|out| write_pr(&open, out))).is_ok());
    assert_eq!(table.raise(Stamp(50)), Ok(()));
    let before = table.clone();
    for (low, refusal) in [(0, Refusal::Old), (49, Refusal::Old), (50, Refusal::Old), (60, Refusal::Undecided), (u64::MAX, Refusal::Undecided)] {
        assert_eq!(table.raise(Stamp(low)), Err(refusal));
        assert_eq!(table, before);
    }
    assert_eq!(Refusal::Old.to_string(), "refused 18, old: the stamp is at or below the low mark, or the low mark is not above the present one");
    assert_eq!(Refusal::Undecided.to_string(), "refused 19, undecided: an entry at or below the low mark is undecided");
    assert_eq!((Refusal::try_from(18), Refusal::try_from(19)), (Ok(Refusal::Old), Ok(Refusal::Undecided)));
}

#[test]
fn tables_that_are_not_in_order() {
    for length in [0, 1, HEAD - 1] {
        let mut short = Table::kept(group(), 8, vec![0; length], Box::new([0; KEYS]));
        assert_eq!((short.low(), short.fold(Key(0)), short.raise(Stamp(1))), (Err(Refusal::Table), Err(Refusal::Table), Err(Refusal::Table)));
    }
    let mut head = Table::kept(group(), 1, vec![0; HEAD], Box::new([0; KEYS]));
    assert_eq!((head.low(), head.raise(Stamp(1))), (Ok(Stamp(0)), Err(Refusal::Table)));
    let mut wide = Table::kept(group(), 256, vec![0; table_len(256)], Box::new([0; KEYS]));
    assert_eq!(wide.raise(Stamp(1)), Err(Refusal::Group));
    assert_eq!((wide.fold(Key(511)), wide.fold(Key(512))), (Ok(None), Err(Refusal::Range)));
}
