//! Gateways on six boxes in memory, by way of this package alone: each way through, a gateway that dies, and another that finishes for it.
#![cfg(feature = "alloc")]

mod common;

use Decision::{Abort, Commit};
use common::{alike, body, bytes};
use std::collections::BTreeMap;
use stobbarel::*;

const CLOCK: u64 = 1000;
const TIMING: Timing = Timing { patience: 10, first_try: 20, doublings: 8, farewells: 3 };

fn writes(stamp: u64, value: u64) -> Transaction {
    Transaction::new(Stamp(stamp), [], [(Key(3), value)])
}

fn corrects(stamp: u64, version: u64) -> Transaction {
    Transaction::new(Stamp(stamp), [(Key(3), Stamp(version))], [(Key(3), stamp)])
}

/// A box's answer to a message with this body, and the DC that it hands over.
type Said = (u8, Vec<u8>, Result<Answer, Refusal>, Option<Vec<u8>>);

/// Six boxes that answer at once; those in `deaf` hear nothing.
struct Line {
    group: Group,
    boxes: Vec<Table>,
    deaf: Vec<u8>,
    proofs: BTreeMap<(u8, Vec<u8>), Vec<u8>>,
    leaders: BTreeMap<(u8, Vec<u8>), Leader>,
    /// What was said to a gateway and not yet heard.
    said: Vec<Said>,
    told: Vec<(u8, Question, Vec<Holding>)>,
}

impl Line {
    fn new() -> Line {
        let group = Group::of(1).unwrap();
        let boxes = (0..6).map(|_| Table::new(group, 8).unwrap()).collect();
        Line { group, boxes, deaf: vec![], proofs: BTreeMap::new(), leaders: BTreeMap::new(), said: vec![], told: vec![] }
    }

    fn bring(&mut self, letters: Vec<Letter>) {
        for Letter { to, load } in letters.into_iter().filter(|letter| !self.deaf.contains(&letter.to)).collect::<Vec<_>>() {
            match load {
                Load::Message(message) => self.message(to, &message),
                Load::Ask(question) => self.ask(to, question),
            }
        }
    }

    fn message(&mut self, to: u8, message: &[u8]) {
        let answer = self.boxes[to as usize].receive(CLOCK, 0, message);
        let body = tx_part(self.group, message).unwrap().to_vec();
        if answer == Ok(Answer::Done) {
            self.proofs.insert((to, body.clone()), message.to_vec());
        }
        let handed = self.proofs.get(&(to, body.clone())).filter(|_| matches!(answer, Ok(Answer::Decided(_)) | Err(Refusal::Old))).cloned();
        self.said.push((to, body.clone(), answer, handed));
        if let Ok(Answer::Elected { decision, view, leader }) = answer {
            let one = Leader::new(self.group, leader, &body).unwrap();
            let letters = self.leaders.entry((leader, body)).or_insert(one).hear(to, decision, view);
            self.bring(letters);
        }
    }

    fn ask(&mut self, to: u8, question: Question) {
        let one = &self.boxes[to as usize];
        let stamps = match &question {
            Question::Held(stamp) => vec![*stamp],
            Question::Way(body) => read_tx(body).unwrap().reads.iter().map(|(_, version)| *version).collect(),
        };
        let held = stamps.into_iter().filter_map(|stamp| one.held(stamp).unwrap());
        let holdings = held.map(|held| Holding::of(&held, self.proofs.get(&(to, held.body.to_vec())).cloned())).collect();
        self.told.push((to, question, holdings));
    }

    /// Letters and answers until there are no more.
    fn settle(&mut self, desk: &mut Desk, letters: Vec<Letter>, now: u64) {
        self.bring(letters);
        while !self.said.is_empty() || !self.told.is_empty() {
            let mut letters = vec![];
            for (from, body, answer, handed) in std::mem::take(&mut self.said) {
                letters.extend(desk.hear(from, &body, answer, handed.as_deref(), now));
            }
            for (from, question, holdings) in std::mem::take(&mut self.told) {
                letters.extend(desk.told(from, &question, &holdings, now));
            }
            self.bring(letters);
        }
    }

    fn decided(&self, tx: &Transaction) -> Vec<Option<Decision>> {
        self.boxes.iter().map(|one| one.held(tx.stamp).unwrap().and_then(|held| held.decided)).collect()
    }
}

#[test]
fn all_votes_are_a_proof() {
    let (mut line, tx) = (Line::new(), writes(50, 7));
    let mut desk = Desk::new(line.group, TIMING);
    let letters = desk.care(tx.clone(), 0).unwrap();
    assert_eq!(letters.len(), 6);
    line.settle(&mut desk, letters, 1);
    assert_eq!((desk.outcome(&body(&tx)), desk.due(), desk.clear(&body(&tx))), (Some(Commit), None, true));
    assert_eq!(line.decided(&tx), [Some(Commit); 6]);
}

#[test]
fn a_silent_box_costs_patience_and_a_log() {
    let (mut line, tx) = (Line::new(), writes(50, 7));
    line.deaf = vec![2];
    let mut desk = Desk::new(line.group, TIMING);
    let letters = desk.care(tx.clone(), 0).unwrap();
    line.settle(&mut desk, letters, 1);
    assert_eq!((desk.outcome(&body(&tx)), desk.due()), (None, Some(10)));
    assert!(desk.tick(9).is_empty());
    let letters = desk.tick(10);
    line.settle(&mut desk, letters, 10);
    assert_eq!(desk.outcome(&body(&tx)), Some(Commit));
    // the DC is sent on to the silent one, and it has it when it hears again
    assert_eq!(line.decided(&tx)[2], None);
    line.deaf.clear();
    let letters = desk.tick(desk.due().unwrap());
    assert_eq!(letters.len(), 1);
    line.settle(&mut desk, letters, 20);
    assert_eq!(line.decided(&tx), [Some(Commit); 6]);
}

/// Boxes 4 and 5 vote abort, and a dead gateway had commit logged by 0, 1, 2 and abort by the others.
fn split(line: &mut Line, tx: &Transaction) {
    let read = bytes(|out| write_rd(Key(3), Stamp(60), out));
    let list = |decision, numbers: std::ops::Range<u8>| VoteList::votes(decision, alike(numbers, decision));
    let [commit, abort] = [list(Commit, 0..4), list(Abort, 4..6)].map(|list| bytes(|out| write_lg(line.group, tx, &list, out)));
    for number in 0..6u8 {
        if number > 3 {
            assert!(line.boxes[number as usize].receive(CLOCK, 0, &read).is_ok());
        }
        line.message(number, &bytes(|out| write_pr(tx, out)));
        line.message(number, if number < 3 { &commit } else { &abort });
    }
    line.said.clear();
}

#[test]
fn what_was_logged_both_ways_is_finished_by_a_leader() {
    let (mut line, tx) = (Line::new(), writes(50, 7));
    split(&mut line, &tx);
    let mut gateway = Gateway::new(line.group, tx.clone(), TIMING).unwrap();
    let mut letters = gateway.start(0);
    while gateway.outcome().is_none() {
        line.bring(letters);
        let said = std::mem::take(&mut line.said);
        assert!(!said.is_empty());
        letters = said.into_iter().flat_map(|(from, _, answer, handed)| gateway.hear(from, answer, handed.as_deref(), 1)).collect();
    }
    // the majority of five answers, those of boxes 0 to 4
    assert_eq!((gateway.outcome(), gateway.falls()), (Some(Commit), 1));
    assert_eq!(letters, (0..6).map(|to| Letter { to, load: Load::Message(gateway.proof().unwrap().to_vec()) }).collect::<Vec<_>>());
}

#[test]
fn what_stands_in_the_way_is_finished_first() {
    let mut line = Line::new();
    let (first, second, own) = (writes(50, 7), corrects(60, 50), corrects(70, 60));
    for tx in [&first, &second] {
        (0..6).for_each(|number| line.message(number, &bytes(|out| write_pr(tx, out))));
    }
    line.said.clear();
    let mut desk = Desk::new(line.group, TIMING);
    let letters = desk.care(own.clone(), 0).unwrap();
    line.settle(&mut desk, letters, 1);
    assert_eq!(desk.outcome(&body(&own)), None);
    let letters = desk.tick(10);
    line.settle(&mut desk, letters, 10);
    for tx in [&first, &second, &own] {
        assert_eq!(line.decided(tx), [Some(Commit); 6]);
    }
}

#[test]
fn a_proof_that_reached_one_box_is_handed_over() {
    let (mut line, tx) = (Line::new(), writes(50, 7));
    let list = VoteList::votes(Commit, alike(0..6, Commit));
    line.message(1, &bytes(|out| write_dc(line.group, &tx, &list, out)));
    line.said.clear();
    // all but two boxes hear nothing: no list can be made
    line.deaf = vec![0, 3, 4, 5];
    let mut desk = Desk::new(line.group, TIMING);
    let letters = desk.care(tx.clone(), 0).unwrap();
    line.settle(&mut desk, letters, 1);
    assert_eq!(desk.outcome(&body(&tx)), Some(Commit));
    assert_eq!(line.decided(&tx), [None, Some(Commit), Some(Commit), None, None, None]);
}

#[test]
fn a_box_that_has_let_it_go_hands_over_what_it_kept() {
    let mut line = Line::new();
    let tx = writes(50, 7);
    let six = VoteList::votes(Commit, alike(0..6, Commit));
    line.message(2, &bytes(|out| write_dc(line.group, &tx, &six, out)));
    line.boxes[2].raise(Stamp(50)).unwrap();
    line.said.clear();
    // one more has let it go, and never held it
    line.boxes[3].raise(Stamp(60)).unwrap();
    let mut gateway = Gateway::new(line.group, tx, TIMING).unwrap();
    let letters = gateway.start(0);
    line.bring(letters);
    assert_eq!(line.said[2].2, Err(Refusal::Old));
    for (from, _, answer, handed) in std::mem::take(&mut line.said) {
        let letters = gateway.hear(from, answer, handed.as_deref(), 1);
        line.bring(letters);
    }
    assert_eq!(gateway.outcome(), Some(Commit));
    // to the proof both answer that it is old: they need it no more
    let olds = line.said.iter().filter(|said| said.2 == Err(Refusal::Old)).count();
    assert_eq!((olds, line.said.iter().filter(|said| said.2 == Ok(Answer::Done)).count()), (2, 4));
}

#[test]
fn what_is_handed_over_is_judged() {
    let (line, tx) = (Line::new(), writes(50, 7));
    let list = |count| VoteList::votes(Commit, alike(0..count, Commit));
    let mut gateway = Gateway::new(line.group, tx.clone(), TIMING).unwrap();
    assert_eq!(gateway.start(0).len(), 6);
    let short = bytes(|out| write_dc(line.group, &tx, &list(5), out));
    let other = bytes(|out| write_dc(line.group, &writes(50, 8), &list(6), out));
    for wrong in [&short[..], &other, b"DC", b""] {
        assert!(gateway.hear(1, Ok(Answer::Decided(Commit)), Some(wrong), 1).is_empty());
        assert_eq!(gateway.outcome(), None);
    }
    // nor is a box that is none, nor a second vote of one
    assert!(gateway.hear(6, Ok(Answer::Voted(Vote::Commit, Some(0))), None, 1).is_empty());
    for _ in 0..9 {
        assert!(gateway.hear(0, Ok(Answer::Voted(Vote::Abort(Reason::ReadMark), Some(0))), None, 1).is_empty());
    }
    assert_eq!(gateway.outcome(), None);
}

#[test]
fn a_body_is_taken_up_with_its_writers_signature_or_from_two_boxes() {
    let group = Group::of(1).unwrap();
    let (own, left, far) = (corrects(70, 50), body(&writes(50, 7)), body(&writes(40, 7)));
    let way = Question::Way(body(&own));
    let unsigned = |body: &[u8]| Holding { body: body.to_vec(), signed: false, vote: None, logged: None, proof: None };
    let mut desk = Desk::new(group, TIMING);
    assert_eq!(desk.care(own.clone(), 0).unwrap().len(), 6);
    // nothing was asked yet
    assert!(desk.told(0, &way, &[Holding { signed: true, ..unsigned(&left) }], 1).is_empty());
    assert!(desk.hear(0, &body(&own), Ok(Answer::Voted(Vote::Waiting, Some(2))), None, 1).is_empty());
    assert!(!desk.tick(10).is_empty());
    assert!(desk.told(0, &way, &[unsigned(&left)], 11).is_empty());
    assert!(desk.told(0, &way, &[unsigned(&left), unsigned(&left)], 11).is_empty());
    // 40 does not stand in its way, signed or not
    assert!(desk.told(1, &way, &[Holding { signed: true, ..unsigned(&far) }], 11).is_empty());
    assert_eq!(desk.told(2, &way, &[unsigned(&left)], 11).len(), 6);
    assert_eq!(desk.gateways().count(), 2);
}

#[test]
fn a_leader_decides_once() {
    let group = Group::of(1).unwrap();
    let mut leader = Leader::new(group, 3, &body(&writes(50, 7))).unwrap();
    // box 3 leads view 1 of 50, and not view 2
    for number in 0..4 {
        assert!(leader.hear(number, Commit, View(1)).is_empty());
    }
    let all = leader.hear(5, Abort, View(1));
    assert_eq!(all.len(), 6);
    let again = leader.hear(4, Abort, View(1));
    assert_eq!((again.len(), again[0].to, &again[0].load), (1, 4, &all[0].load));
    for number in 0..6 {
        assert!(leader.hear(number, Commit, View(2)).is_empty());
    }
    // who went on is counted there no more
    assert!(leader.hear(0, Commit, View(1)).is_empty());
}

#[test]
fn a_step_is_held_back_until_the_pause_is_over() {
    let group = Group::of(1).unwrap();
    let mut pace = Pace::new(group, 40);
    let all = |view: u16| (0..6).map(|number| (number, View(view))).collect::<Vec<_>>();
    assert!(pace.admits(&all(0), View(0), 5));
    assert!(!pace.admits(&all(1), View(1), 10));
    assert!(!pace.admits(&all(1), View(1), 49));
    assert!(pace.admits(&all(1), View(1), 50));
    // twice the pause from view 2 on; a box that is behind is never held back
    assert!(!pace.admits(&all(2), View(2), 60));
    assert!(!pace.admits(&all(2), View(2), 139));
    assert!(pace.admits(&all(2), View(2), 140));
    assert!(pace.admits(&all(2)[..2], View(1), 60));
    assert!(pace.admits(&all(2), View(3), 60));
}

#[test]
fn a_question_moves_nobody() {
    let (mut line, tx) = (Line::new(), writes(50, 7));
    split(&mut line, &tx);
    let ask = question(line.group, &tx).unwrap();
    assert_eq!(line.boxes[0].receive(CLOCK, 0, &ask), Ok(Answer::Elected { decision: Commit, view: View(0), leader: 2 }));
}
