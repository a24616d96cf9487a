//! What a box's host reads off its table: the transaction of a stamp, and what the box holds beside it.
#![cfg(feature = "alloc")]

mod common;

use Decision::{Abort, Commit};
use common::{alike, body, bytes};
use stobbarel::layout::{BODY_AT, HEAD, KEYS, LOG_AT, LOG_VIEW_AT, ROW, VIEW_AT, VOTE_AT, table_len};
use stobbarel::*;

const CLOCK: u64 = 100;
const DELTA: u64 = 10;

fn group() -> Group {
    Group::of(1).unwrap()
}

/// A transaction that writes a value at key 3.
fn writes(stamp: u64, value: u64) -> Transaction {
    Transaction::new(Stamp(stamp), [], [(Key(3), value)])
}

/// A list of votes of the first boxes, all of them for this.
fn votes(decision: Decision, count: u8) -> VoteList {
    VoteList::votes(decision, alike(0..count, decision))
}

#[test]
fn nothing_is_held() {
    let mut table = Table::new(group(), 8).unwrap();
    assert_eq!(table.held(Stamp(50)), Ok(None));
    assert_eq!(table.held(Stamp(0)), Ok(None));
    assert!(table.receive(CLOCK, DELTA, &bytes(|out| write_pr(&writes(50, 7), out))).is_ok());
    assert_eq!(table.held(Stamp(51)), Ok(None));
}

#[test]
fn each_vote() {
    let mut table = Table::new(group(), 8).unwrap();
    let (written, ahead) = (writes(50, 7), writes(111, 7));
    let reader = Transaction::new(Stamp(60), [(Key(3), Stamp(50))], [(Key(4), 8)]);
    let only_logged = writes(70, 9);
    for tx in [&written, &ahead, &reader] {
        assert!(table.prepare(CLOCK, DELTA, &bytes(|out| write_pr(tx, out))).is_ok());
    }
    assert!(table.log(CLOCK, DELTA, &bytes(|out| write_lg(group(), &only_logged, &votes(Abort, 2), out))).is_ok());
    let due = [
        (&written, Some(Vote::Commit), None),
        (&ahead, Some(Vote::Abort(Reason::Ahead)), None),
        (&reader, Some(Vote::Waiting), None),
        (&only_logged, None, Some((Abort, View(0)))),
    ];
    for (tx, vote, logged) in due {
        assert_eq!(table.held(tx.stamp), Ok(Some(Held { body: &body(tx), vote, decided: None, logged, view: View(0) })));
        assert_eq!(read_tx(table.held(tx.stamp).unwrap().unwrap().body).as_ref(), Ok(tx));
    }
}

#[test]
fn logged_in_a_view_and_decided() {
    let mut table = Table::new(group(), 8).unwrap();
    let tx = writes(50, 7);
    let election = Election { leader: 3, decision: Abort, view: View(1), answers: [0, 1, 2, 3, 4].map(|number| (number, Abort, View(1))).into() };
    assert_eq!(table.lead(CLOCK, DELTA, &bytes(|out| write_ld(group(), &tx, &election, out))), Ok(Answer::Logged(Abort, View(1))));
    let told = [(4, View(9)), (5, View(9))];
    assert!(table.invoke(CLOCK, DELTA, &bytes(|out| write_iv(group(), &tx, &told, out))).is_ok());
    let due = Held { body: &body(&tx), vote: None, decided: None, logged: Some((Abort, View(1))), view: View(9) };
    assert_eq!(table.held(Stamp(50)), Ok(Some(due)));
    assert_eq!(table.decide(CLOCK, DELTA, &bytes(|out| write_dc(group(), &tx, &votes(Abort, 4), out))), Ok(Answer::Done));
    assert_eq!(table.held(Stamp(50)), Ok(Some(Held { decided: Some(Abort), ..due })));
}

#[test]
fn a_body_that_replaced_another() {
    let mut table = Table::new(group(), 8).unwrap();
    let (first, other) = (writes(50, 7), writes(50, 8));
    assert!(table.prepare(CLOCK, DELTA, &bytes(|out| write_pr(&first, out))).is_ok());
    assert_eq!(table.decide(CLOCK, DELTA, &bytes(|out| write_dc(group(), &other, &votes(Commit, 6), out))), Ok(Answer::Done));
    let due = Held { body: &body(&other), vote: None, decided: Some(Commit), logged: None, view: View(0) };
    assert_eq!(table.held(Stamp(50)), Ok(Some(due)));
}

/// A table as it was kept, with these bodies, all of them voted commit.
fn kept(capacity: u64, bodies: &[Transaction]) -> Vec<u8> {
    let mut table = vec![0; table_len(capacity as usize)];
    table[0] = bodies.len() as u8;
    for (row, tx) in table[HEAD..].chunks_mut(ROW).zip(bodies) {
        let body = body(tx);
        row[VOTE_AT] = 1;
        row[BODY_AT..BODY_AT + body.len()].copy_from_slice(&body);
    }
    table
}

#[test]
fn the_first_of_two() {
    let lent = kept(3, &[writes(40, 1), writes(50, 2), writes(50, 3)]);
    let table = Table::kept(group(), 3, lent, [0; KEYS]);
    assert_eq!(table.held(Stamp(50)).unwrap().unwrap().body, body(&writes(50, 2)));
}

#[test]
fn views_of_two_bytes() {
    let mut lent = kept(1, &[writes(50, 2)]);
    lent[HEAD + LOG_VIEW_AT..HEAD + LOG_VIEW_AT + 2].copy_from_slice(&[1, 2]);
    lent[HEAD + VIEW_AT..HEAD + VIEW_AT + 2].copy_from_slice(&[0xff, 0xff]);
    let held = |lent: &[u8]| Table::kept(group(), 1, lent.to_vec(), [0; KEYS]).held(Stamp(50)).unwrap().map(|held| (held.logged, held.view)).unwrap();
    // a view beside no log is no part of what is held
    assert_eq!(held(&lent), (None, View(65535)));
    lent[HEAD + LOG_AT] = 1;
    assert_eq!(held(&lent), (Some((Commit, View(513))), View(65535)));
}

#[test]
fn refused() {
    let lent = kept(1, &[writes(50, 2)]);
    let held = |capacity: u64, lent: &[u8]| Table::kept(group(), capacity, lent.to_vec(), [0; KEYS]).held(Stamp(50)).map(|held| held.is_some());
    assert_eq!(held(1, &lent), Ok(true));
    for capacity in [0, 256, u64::MAX] {
        assert_eq!(held(capacity, &lent), Err(Refusal::Group));
        assert_eq!(held(capacity, &[]), Err(Refusal::Group));
    }
    for short in [&lent[..0], &lent[..15], &lent[..lent.len() - 1]] {
        assert_eq!(held(1, short), Err(Refusal::Table));
    }
    let mut wrong = lent;
    wrong[HEAD + VOTE_AT] = 4;
    assert_eq!(held(1, &wrong), Err(Refusal::Table));
}

#[test]
fn a_tx_read() {
    let tx = Transaction::new(Stamp(60), [(Key(3), Stamp(50)), (Key(511), Stamp(0))], [(Key(4), 8)]);
    let whole = body(&tx);
    assert_eq!(read_tx(&whole), Ok(tx));
    for length in 0..whole.len() {
        assert_eq!(read_tx(&whole[..length]), Err(Refusal::Short));
    }
    assert_eq!(read_tx(&[&whole[..], &[0]].concat()), Err(Refusal::Trailing));
    assert_eq!(read_tx(b"PR"), Err(Refusal::Mark));
    assert_eq!(read_tx(b"TX\0\0"), Err(Refusal::Count));
    // as it may stand in a table that was lent: stamp 0
    assert_eq!(read_tx(&body(&writes(50, 7)).iter().map(|byte| if *byte == 50 { 0 } else { *byte }).collect::<Vec<_>>()), Err(Refusal::Range));
}
