//! A box in arrays, and a box whose table and read marks are lent: as without the feature `alloc`, where nothing else is there.

use stobbarel::layout::{KEYS, table_len};
use stobbarel::{Answer, Decision, Group, Key, LONGEST, Passage, Refusal, Sheet, Stamp, Table, Transaction, View, Vote, write_dc, write_lg, write_pr};

#[test]
fn arrays_are_a_box() {
    let group = Group::of(1).unwrap();
    let new = Table::kept(group, 8, [0; table_len(8)], [0; KEYS]);
    let mut boxes = [(); 6].map(|_| new.clone());
    let tx = Transaction::new(Stamp(50), [], [(Key(3), 7)]);
    let (mut votes, mut logs, mut buffer) = (Sheet::votes(group), Sheet::logs(group, View(0)), [0; LONGEST]);
    let pr = write_pr(&tx, &mut buffer).unwrap();
    for (number, one) in (0..).zip(&mut boxes) {
        let Ok(Answer::Voted(vote, Some(0))) = one.receive(100, 10, pr) else { panic!("a PR is voted on") };
        votes.take_vote(number, vote).unwrap();
    }
    let lg = write_lg(group, &tx, &votes.counted(Decision::Commit), &mut buffer).unwrap();
    for (number, one) in (0..).zip(&mut boxes) {
        assert_eq!(one.receive(100, 10, lg), Ok(Answer::Logged(Decision::Commit, View(0))));
        logs.take(number, Decision::Commit).unwrap();
    }
    let dc = write_dc(group, &tx, &logs.counted(Decision::Commit), &mut buffer).unwrap();
    assert!(boxes.iter_mut().all(|one| one.receive(100, 10, dc) == Ok(Answer::Done)));
}

#[test]
fn a_table_is_lent() {
    let group = Group::of(1).unwrap();
    let (mut bytes, mut marks, mut buffer) = ([0; table_len(1)], [0; KEYS], [0; LONGEST]);
    let [first, second] = [50, 60].map(|stamp| Transaction::new(Stamp(stamp), [], [(Key(3), 7)]));
    let mut table = Table::kept(group, 1, &mut bytes[..], &mut marks);
    assert_eq!(table.prepare(100, 10, write_pr(&first, &mut buffer).unwrap()), Ok(Answer::Voted(Vote::Commit, Some(0))));
    assert_eq!(table.prepare(100, 10, write_pr(&second, &mut buffer).unwrap()), Err(Refusal::Full));
    assert!(Passage(0).look(&mut table, 100, 10, Stamp(70)).is_ok());
    // what was lent has changed, and what is only looked at may be lent for reading
    assert_eq!((bytes[0], marks[3]), (1, 70));
    let kept = Table::kept(group, 1, &bytes[..], &marks);
    assert_eq!(kept.held(Stamp(50)).unwrap().and_then(|held| held.vote), Some(Vote::Commit));
    assert_eq!(format!("{kept:?}"), "Table { group: Group of f = 1, entries: Some(1), capacity: 1, .. }");
}
