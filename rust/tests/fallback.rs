//! A gateway dies after a split log, and another finishes its transaction: six boxes in memory, by way of this package alone.
#![cfg(feature = "alloc")]

mod common;

use Decision::{Abort, Commit};
use common::{alike, bytes};
use stobbarel::*;

const CLOCK: u64 = 100;
const DELTA: u64 = 10;

/// Six boxes beside the line, and the transaction that its gateway leaves: 50 writes 7 at key 3.
struct Line {
    group: Group,
    boxes: Vec<Table>,
    tx: Transaction,
}

impl Line {
    /// Boxes 0 to 3 vote commit; boxes 4 and 5 have shown key 3 to a later reader, and vote abort. Either can be logged, and the gateway has one logged here
    /// and the other there. Then it dies.
    fn split(to_commit: &[usize], to_abort: &[usize]) -> Line {
        let group = Group::of(1).unwrap();
        let tx = Transaction::new(Stamp(50), [], [(Key(3), 7)]);
        let mut line = Line { group, boxes: (0..6).map(|_| Table::new(group, 2).unwrap()).collect(), tx };
        let mut votes = Sheet::votes(group);
        let (read, ask) = (bytes(|out| write_rd(Key(3), Stamp(60), out)), bytes(|out| write_pr(&line.tx, out)));
        for (number, one) in line.boxes.iter_mut().enumerate() {
            if number > 3 {
                assert!(one.read(CLOCK, DELTA, &read).is_ok());
            }
            let Ok(Answer::Voted(vote, _)) = one.prepare(CLOCK, DELTA, &ask) else { panic!("a PR is voted on") };
            votes.take_vote(number as u8, vote).unwrap();
        }
        for (decision, to) in [(Commit, to_commit), (Abort, to_abort)] {
            let log = bytes(|out| write_lg(group, &line.tx, &votes.list(decision), out));
            for number in to {
                assert_eq!(line.boxes[*number].log(CLOCK, DELTA, &log), Ok(Answer::Logged(decision, View(0))));
            }
        }
        line
    }

    /// An IV with these views to each box of these: election answers, on the sheets of a gateway and of the leader of a view.
    fn invoke(&mut self, to: &[usize], views: &mut ViewSheet, leader: &mut ElectionSheet) -> Vec<Result<Answer, Refusal>> {
        let message = bytes(|out| write_iv(self.group, &self.tx, &views.views(), out));
        let answers: Vec<Result<Answer, Refusal>> = to.iter().map(|number| self.boxes[*number].invoke(CLOCK, DELTA, &message)).collect();
        for (number, answer) in to.iter().zip(&answers) {
            if let Ok(Answer::Elected { decision, view, .. }) = answer {
                views.tell(*number as u8, *view).unwrap();
                leader.take(*number as u8, *decision, *view).unwrap();
            }
        }
        answers
    }

    fn lead(&mut self, number: usize, election: &Election) -> Result<Answer, Refusal> {
        let message = bytes(|out| write_ld(self.group, &self.tx, election, out));
        self.boxes[number].lead(CLOCK, DELTA, &message)
    }

    /// The logs of a view as a proof: how many boxes take it.
    fn decide(&mut self, logs: &Sheet, decision: Decision) -> usize {
        let message = bytes(|out| write_dc(self.group, &self.tx, &logs.list(decision), out));
        self.boxes.iter_mut().filter_map(|one| (one.decide(CLOCK, DELTA, &message) == Ok(Answer::Done)).then_some(())).count()
    }
}

fn elected(decision: Decision, view: u16, leader: u8) -> Result<Answer, Refusal> {
    Ok(Answer::Elected { decision, view: View(view), leader })
}

const ALL: [usize; 6] = [0, 1, 2, 3, 4, 5];

/// All told view 0, as where nobody has asked for more.
fn nobody_moved(group: Group) -> ViewSheet {
    let mut views = ViewSheet::new(group);
    ALL.iter().for_each(|number| views.tell(*number as u8, View(0)).unwrap());
    views
}

#[test]
fn another_gateway_finishes_it() {
    let mut line = Line::split(&[0, 1, 2], &[3, 4, 5]);
    let group = line.group;
    // what the second gateway hears to its own LG: neither decision has five logs
    let mut logs = Sheet::logs(group, View(0));
    let votes = VoteList::votes(Commit, alike(0..4, Commit));
    let log = bytes(|out| write_lg(group, &line.tx, &votes, out));
    for number in ALL {
        let Ok(Answer::Logged(decision, View(0))) = line.boxes[number].log(CLOCK, DELTA, &log) else { panic!("it is logged") };
        logs.take(number as u8, decision).unwrap();
    }
    assert_eq!((line.decide(&logs, Commit), line.decide(&logs, Abort)), (0, 0));
    // it invokes the fallback; the answers go to the leader of view 1, box 51 mod 6
    let (mut views, mut leader) = (nobody_moved(group), ElectionSheet::new(group, View(1)));
    let answers = line.invoke(&ALL, &mut views, &mut leader);
    assert_eq!(answers, [Commit, Commit, Commit, Abort, Abort, Abort].map(|decision| elected(decision, 1, 3)));
    assert_eq!(views.views(), [0, 1, 2, 3, 4, 5].map(|number| (number, View(1))));
    // five answers, those of boxes 0 to 4, of which three are for commit
    let election = leader.election(Stamp(50)).unwrap();
    let answered = [(0, Commit), (1, Commit), (2, Commit), (3, Abort), (4, Abort)].map(|(number, decision)| (number, decision, View(1)));
    assert_eq!(election, Election { leader: 3, decision: Commit, view: View(1), answers: answered.into() });
    let mut logs = Sheet::logs(group, View(1));
    for number in ALL {
        assert_eq!(line.lead(number, &election), Ok(Answer::Logged(Commit, View(1))));
        logs.take(number as u8, Commit).unwrap();
    }
    assert_eq!(line.decide(&logs, Commit), 6);
    let read = bytes(|out| write_rd(Key(3), Stamp(70), out));
    let found = Ok(Answer::Found { committed: Some(Version { stamp: Stamp(50), value: 7 }), undecided: None });
    assert!(line.boxes.iter_mut().all(|one| one.read(CLOCK, DELTA, &read) == found));
    // decided: both messages are answered so
    assert_eq!(line.invoke(&[0], &mut views, &mut leader), [Ok(Answer::Decided(Commit))]);
    assert_eq!(line.lead(5, &election), Ok(Answer::Decided(Commit)));
}

#[test]
fn a_leader_that_lies_is_refused_and_the_next_one_leads() {
    let mut line = Line::split(&[0, 1], &[2, 3, 4, 5]);
    let group = line.group;
    let (mut views, mut leader) = (nobody_moved(group), ElectionSheet::new(group, View(1)));
    line.invoke(&ALL, &mut views, &mut leader);
    let sound = leader.election(Stamp(50)).unwrap();
    assert_eq!(sound.decision, Abort);
    let mut lies = vec![sound.clone(); 4];
    lies[0].decision = Commit;
    lies[1].leader = 4;
    lies[2].answers.truncate(4);
    lies[3].answers[2].2 = View(0);
    for lie in &lies {
        assert_eq!(line.lead(0, lie), Err(Refusal::Election));
    }
    // box 3 says nothing more, and what it decided comes to box 0 alone; the gateway goes on to view 2, whose leader is box 4
    assert_eq!(line.lead(0, &sound), Ok(Answer::Logged(Abort, View(1))));
    let mut next = ElectionSheet::new(group, View(2));
    let answers = line.invoke(&[0, 1, 2, 4, 5], &mut views, &mut next);
    assert_eq!(answers, [Abort, Commit, Abort, Abort, Abort].map(|decision| elected(decision, 2, 4)));
    assert_eq!(line.lead(1, &sound), Err(Refusal::Passed));
    let election = next.election(Stamp(50)).unwrap();
    assert_eq!((election.leader, election.decision, election.view), (4, Abort, View(2)));
    let mut logs = Sheet::logs(group, View(2));
    for number in [0, 1, 2, 4, 5] {
        assert_eq!(line.lead(number, &election), Ok(Answer::Logged(Abort, View(2))));
        logs.take(number as u8, Abort).unwrap();
    }
    assert_eq!(line.lead(0, &election), Err(Refusal::Passed));
    // all six take the proof, box 3 among them
    assert_eq!(line.decide(&logs, Abort), 6);
}

#[test]
fn a_box_that_was_behind_catches_up() {
    let mut line = Line::split(&[0, 1, 2], &[3, 4]);
    let group = line.group;
    let (mut views, mut leader) = (nobody_moved(group), ElectionSheet::new(group, View(1)));
    // box 5 has voted and logged nothing: it has no election answer
    assert_eq!(line.invoke(&[3, 4, 5], &mut views, &mut leader), [elected(Abort, 1, 3), elected(Abort, 1, 3), Err(Refusal::NotLogged)]);
    // two boxes in view 1 are enough to bring the others there, and not to pass it
    let mut few = ViewSheet::new(group);
    few.tell(3, View(1)).unwrap();
    few.tell(4, View(1)).unwrap();
    few.tell(4, View(0)).unwrap();
    assert_eq!(few.views(), [(3, View(1)), (4, View(1))]);
    assert_eq!(leader.election(Stamp(50)), Err(Refusal::Election));
    assert_eq!(line.invoke(&[0, 1, 2], &mut few, &mut leader), [elected(Commit, 1, 3); 3]);
    let election = leader.election(Stamp(50)).unwrap();
    assert_eq!(election.decision, Commit);
    // a box that has not even the transaction takes the leader's decision, where it has room
    line.boxes[5] = Table::new(group, 1).unwrap();
    assert_eq!(line.lead(5, &election), Ok(Answer::Logged(Commit, View(1))));
    let mut last = ViewSheet::new(group);
    (0..4).for_each(|number| last.tell(number, View(65535)).unwrap());
    assert_eq!(line.invoke(&[5], &mut last, &mut leader), [Err(Refusal::LastView)]);
}

#[test]
fn sheets_of_the_fallback_say_what_they_are_given() {
    let group = Group::of(1).unwrap();
    let mut sheet = ElectionSheet::new(group, View(7));
    for number in 0..5 {
        assert_eq!(sheet.take(5 - number, Commit, View(7)), Ok(ElectionReply::Taken { lacking: 4 - number }));
    }
    let before = sheet;
    assert_eq!(sheet.take(0, Commit, View(6)), Ok(ElectionReply::OtherView));
    assert_eq!(sheet.take(2, Abort, View(8)), Ok(ElectionReply::OtherView));
    assert_eq!(sheet.take(2, Abort, View(7)), Ok(ElectionReply::Repeat));
    assert_eq!(sheet.take(6, Abort, View(8)), Err(Refusal::Range));
    assert_eq!(sheet, before);
    assert_eq!(sheet.take(0, Abort, View(7)), Ok(ElectionReply::Taken { lacking: 0 }));
    // exactly five, of the lowest boxes; the leader of view 7 of the last stamp: a sum of whole numbers, 2^64 + 6
    let election = sheet.election(Stamp(u64::MAX)).unwrap();
    assert_eq!((election.leader, election.answers.len(), election.answers[0]), (4, 5, (0, Abort, View(7))));
    let mut views = ViewSheet::new(group);
    assert_eq!(views.tell(6, View(0)), Err(Refusal::Range));
    assert!(views.views().is_empty());
    assert_eq!(write_vs(group, &views.views(), &mut [0; LONGEST]), Err(Refusal::Count));
}
