//! The incident, replayed.
//!
//! Train 7402 rolls past a detector: 240 axles, and number 238 runs hot. The detector counts in its own order, and that evening
//! the train ran the other way: seen from the front, the hot axle is number 3. A dispatcher sends the correction, 238 becomes 3.
//!
//! Of six boxes three vote for it. Two vote against it, rightly: a panel has read the hot axle at a later stamp, and nothing may
//! slip in under that read. The sixth box is broken in the worst way, it answers whatever it likes. It tells the day gateway
//! `commit`. It tells the night gateway `abort`, and a minute later it tells it `abort` again.
//!
//! The day gateway has four commit votes, has them logged, and has its proof. The night gateway has abort votes from three boxes,
//! one too few for a proof; but it has four answers, and the old program counted answers. So it had a proof too. The same
//! correction was decided both ways: three boxes showed axle 3, two showed axle 238, and a fitter walked to the wrong end of a
//! train in the dark.
//!
//! Below the same messages go to the old program's boxes and then to ours.
//!
//! Another night, after a power dip: the box of one keeper was down when the correction was asked for, and box 5 is dead. Four boxes
//! have voted, four log, and one more is needed; the box that is back answered 10 to every LG. Now it logs.
//!
//! A third night: the day gateway has commit logged at boxes 0, 1 and 2, the night gateway has abort logged at 3 and 4, and both lose their power. Neither decision has
//! five logs, and no box ever logs again: the correction hung for ever. Now a third gateway invokes the fallback, and the leader of view 1 finishes it.
//!
//! With the passage register nobody writes 3 over 238 by hand: the detector's number stays as it is, the dispatcher corrects the direction, and what every owner
//! reads counts from the leading end.

use crate::engine::Entrance;
use crate::judge::{Judge, Word};
use crate::member::{Engine, Member, Model};
use crate::messages::{iv, ld, pr, rd, transaction, with_list, with_view};
use crate::model::{transaction_bytes, Answer, Decision, ElectionReply, ElectionSheet, Kind, Reply, Rule, Rules, Settings, Sheet, Transaction, Vote, PAPER};
use crate::passages::version;
use stobbarel::layout::table_len;
use stobbarel::{Passage, Report, Seen, Stamp, Values, LONGEST};
use Decision::{Abort, Commit};
use Kind::{Logs, Votes};

fn voted(vote: Vote) -> Answer {
    Answer::Voted(vote, None)
}

/// Passage 5 owns keys 20 to 23.
const TRAIN: u16 = 20;
const DIRECTION: u16 = 21;
const AXLES: u16 = 22;
const HOT_AXLE: u16 = 23;

const EVENING: u64 = 50;
const CORRECTED: u64 = 60;
const PANEL: u64 = 70;
const MORNING: u64 = 90;

/// Boxes 0 to 4 are sound. Box 5 is the one that answers twice, and it needs no table to do that.
const SOUND: [usize; 5] = [0, 1, 2, 3, 4];
const LIAR: u8 = 5;

fn passage() -> Transaction {
    transaction(EVENING, &[], &[(TRAIN, 7402), (DIRECTION, 0), (AXLES, 240), (HOT_AXLE, 238)])
}

fn correction() -> Transaction {
    transaction(CORRECTED, &[(TRAIN, EVENING), (DIRECTION, EVENING), (AXLES, EVENING), (HOT_AXLE, EVENING)], &[(HOT_AXLE, 3)])
}

/// Those boxes, each with this answer.
fn all(boxes: &[u8], answer: Decision) -> Vec<(u8, Decision)> {
    boxes.iter().map(|number| (*number, answer)).collect()
}

/// The five sound boxes beside the line.
struct Line<'a> {
    one: &'a mut dyn Member,
    boxes: Vec<(Vec<u8>, Vec<u64>)>,
}

impl Line<'_> {
    fn new(one: &mut dyn Member) -> Line<'_> {
        let empty = (vec![0; table_len(8)], vec![0; 512]);
        Line { one, boxes: vec![empty; SOUND.len()] }
    }

    /// What a box answers, apart from A6's number.
    fn send(&mut self, number: usize, message: &[u8]) -> Answer {
        let settings = Settings { f: 1, capacity: 8, clock: 100, delta: 10 };
        let (table, marks) = &mut self.boxes[number];
        self.one.call(Entrance::Receive, table, marks, &settings, message).expect("an answer").apart_from_number()
    }

    /// To each sound box in turn.
    fn send_all(&mut self, message: &[u8]) -> Vec<Answer> {
        SOUND.iter().map(|number| self.send(*number, message)).collect()
    }

    /// The hot axle on each box's panel in the morning: what is committed there.
    fn panels(&mut self) -> Vec<u64> {
        let shown = |answer| match answer {
            Answer::Found { committed: (_, value), .. } => value,
            other => panic!("an RD was answered {other:?}"),
        };
        self.send_all(&rd(HOT_AXLE, MORNING)).into_iter().map(shown).collect()
    }

    /// The passage is written and decided.
    fn train_passes(&mut self) {
        let written = transaction_bytes(&passage());
        assert_eq!(self.send_all(&pr(&written)), [voted(Vote::Commit); 5]);
        let proof = with_list(b"DC", &written, Votes, Commit, &all(&[0, 1, 2, 3, 4, LIAR], Commit));
        assert_eq!(self.send_all(&proof), [Answer::Done; 5]);
    }

    /// The evening: the train passes; a panel at boxes 3 and 4 reads the hot axle; the correction is asked for.
    fn evening(&mut self) {
        self.train_passes();
        for number in [3, 4] {
            let read = self.send(number, &rd(HOT_AXLE, PANEL));
            assert_eq!(read, Answer::Found { committed: (EVENING, 238), undecided: (0, 0) });
        }
        let votes = self.send_all(&pr(&transaction_bytes(&correction())));
        assert_eq!(votes, [Vote::Commit, Vote::Commit, Vote::Commit, Vote::Abort(5), Vote::Abort(5)].map(voted));
    }
}

/// What the day gateway sends: an LG with four commit votes, the liar's among them, and the proof from the logs that it gets.
fn day_log() -> Vec<u8> {
    with_list(b"LG", &transaction_bytes(&correction()), Votes, Commit, &all(&[0, 1, 2, LIAR], Commit))
}

fn day_proof() -> Vec<u8> {
    with_list(b"DC", &transaction_bytes(&correction()), Logs, Commit, &all(&[0, 1, 2, 3, 4], Commit))
}

/// What the night gateway sends: four abort answers, of three boxes.
fn night_proof() -> Vec<u8> {
    with_list(b"DC", &transaction_bytes(&correction()), Votes, Abort, &all(&[3, 4, LIAR, LIAR], Abort))
}

/// The night: all have logged commit. The night gateway's proof gets to boxes 3 and 4 first, the day gateway's to all.
fn night(line: &mut Line) -> (Vec<Answer>, Vec<Answer>) {
    assert_eq!(line.send_all(&day_log()), [Answer::Logged(Commit, 0); 5]);
    let to_abort = [3, 4].map(|number| line.send(number, &night_proof())).to_vec();
    let to_commit = line.send_all(&day_proof());
    (to_abort, to_commit)
}

/// The old program: its boxes took a list that names a box twice, and counted both answers.
fn as_it_was() {
    let counts_answers = Rules { broken: &[Rule::NamedOnce] };
    let mut old = Model(counts_answers);
    let mut line = Line::new(&mut old);
    line.evening();
    let (to_abort, to_commit) = night(&mut line);
    assert_eq!(to_abort, [Answer::Done; 2], "four answers did");
    assert_eq!(to_commit, [Answer::Done, Answer::Done, Answer::Done, Answer::Refused(12), Answer::Refused(12)]);
    assert_eq!(line.panels(), [3, 3, 3, 238, 238], "decided both ways");
}

/// Ours: the list that names box 5 twice is refused for that, and the correction has one proof.
fn as_it_is() {
    let mut engine = Engine;
    let mut line = Line::new(&mut engine);
    line.evening();
    let (to_abort, to_commit) = night(&mut line);
    assert_eq!(to_abort, [Answer::Refused(6); 2], "a box is named twice");
    assert_eq!(to_commit, [Answer::Done; 5]);
    assert_eq!(line.panels(), [3; 5], "one train, one hot axle");
    let once = with_list(b"DC", &transaction_bytes(&correction()), Votes, Abort, &all(&[3, 4, LIAR], Abort));
    assert_eq!(line.send_all(&once), [Answer::TooFew(1); 5], "named once, they are one too few");
}

/// The night gateway would have known: its own sheet says Repeat to the second answer, and that the abort proof lacks one.
fn at_the_gateway() {
    let mut sheet = Sheet { kind: 1, commits: 0, aborts: 0 };
    let mut take = |number: u8| Engine.tally(&mut sheet, 1, u64::from(number), 2).expect("a reply");
    assert_eq!(take(3), Reply::Votes([4, 1, 6, 3]));
    assert_eq!(take(4), Reply::Votes([4, 0, 6, 2]), "two abort votes can be logged");
    assert_eq!(take(LIAR), Reply::Votes([4, 0, 6, 1]), "three are no proof, and one more would do");
    assert_eq!(take(LIAR), Reply::Repeat, "and an answer given again is no fourth");
    assert_eq!((sheet.commits, sheet.aborts), (0, 0b111000));
}

/// A judge who has seen the passage written.
fn judge_of_the_evening() -> Judge {
    let mut judge = Judge::new(PAPER, 1, 1);
    let written = judge.body(passage());
    for number in SOUND {
        judge.note(written, number, Word::Vote(Commit)).expect("a passage that read nothing");
    }
    judge
}

/// And had the night gateway been quicker? Two abort votes may be logged, so at each box either gateway's LG may come first:
/// thirty-two nights. In some there is no proof yet, in the others there is one, and in none are there two.
fn had_it_been_quicker() -> [u32; 2] {
    let night_log = with_list(b"LG", &transaction_bytes(&correction()), Votes, Abort, &all(&[3, 4, LIAR], Abort));
    let mut proofs = [0, 0];
    for first in 0..32u32 {
        let mut engine = Engine;
        let mut line = Line::new(&mut engine);
        line.evening();
        let mut judge = judge_of_the_evening();
        let body = judge.body(correction());
        for number in SOUND {
            let day_first = first & 1 << number != 0;
            for message in if day_first { [day_log(), night_log.clone()] } else { [night_log.clone(), day_log()] } {
                let expected = if day_first { Commit } else { Abort };
                assert_eq!(line.send(number, &message), Answer::Logged(expected, 0), "the first log stays");
                let proved = judge.note(body, number, Word::Log(expected, 0)).expect("never both proofs");
                proofs[usize::from(expected == Abort)] += u32::from(proved);
            }
        }
    }
    proofs
}

/// After the power dip: box 4 missed the prepare, and box 5 says nothing. What the LG with four votes is answered, and then the DC with the logs that there are.
fn after_the_dip(line: &mut Line) -> (Vec<Answer>, Vec<Answer>) {
    line.train_passes();
    let corrected = transaction_bytes(&correction());
    assert_eq!([0, 1, 2, 3].map(|number| line.send(number, &pr(&corrected))), [voted(Vote::Commit); 4]);
    let log = with_list(b"LG", &corrected, Votes, Commit, &all(&[0, 1, 2, 3], Commit));
    let logs = line.send_all(&log);
    let logged: Vec<u8> = (0..5).filter(|number| logs[usize::from(*number)] == Answer::Logged(Commit, 0)).collect();
    (logs, line.send_all(&with_list(b"DC", &corrected, Logs, Commit, &all(&logged, Commit))))
}

/// As it was: four logs of five. As it is: five.
fn with_the_box_that_was_down() {
    let mut old = Model(Rules { broken: &[Rule::NoUnknown] });
    let (logs, taken) = after_the_dip(&mut Line::new(&mut old));
    assert_eq!(logs[4], Answer::Refused(10), "it did not know the correction");
    assert_eq!((&logs[..4], &taken[..]), (&[Answer::Logged(Commit, 0); 4][..], &[Answer::TooFew(1); 5][..]), "four logs are one too few");
    let mut engine = Engine;
    let mut line = Line::new(&mut engine);
    let (logs, taken) = after_the_dip(&mut line);
    assert_eq!((logs, taken), (vec![Answer::Logged(Commit, 0); 5], vec![Answer::Done; 5]), "five are a proof");
    assert_eq!(line.panels(), [3; 5], "and every panel shows the correction");
}

/// The box that was down has missed the passage too, and is asked after all: it votes as on any new correction, and its log stays.
fn asked_after_all() {
    let mut engine = Engine;
    let mut line = Line::new(&mut engine);
    let corrected = transaction_bytes(&correction());
    let log = with_list(b"LG", &corrected, Votes, Commit, &all(&[0, 1, 2, 3], Commit));
    assert_eq!(line.send(4, &log), Answer::Logged(Commit, 0));
    assert_eq!(line.send(4, &pr(&corrected)), voted(Vote::Abort(2)), "it holds no passage to correct");
    let abort = with_list(b"LG", &corrected, Votes, Abort, &all(&[4, LIAR], Abort));
    assert_eq!(line.send(4, &abort), Answer::Logged(Commit, 0), "the first log stays");
}

/// Both gateways die after a split log. Box 5 says abort to everybody, and that does not help it.
fn after_both_gateways_died() {
    let mut engine = Engine;
    let mut line = Line::new(&mut engine);
    line.evening();
    let corrected = transaction_bytes(&correction());
    let night_log = with_list(b"LG", &corrected, Votes, Abort, &all(&[3, 4, LIAR], Abort));
    let logs = SOUND.map(|number| line.send(number, &if number < 3 { day_log() } else { night_log.clone() }));
    let logged = [Commit, Commit, Commit, Abort, Abort];
    assert_eq!(logs, logged.map(|decision| Answer::Logged(decision, 0)));
    for (decision, boxes) in [(Commit, &[0, 1, 2, LIAR][..]), (Abort, &[3, 4, LIAR][..])] {
        let few = with_list(b"DC", &corrected, Logs, decision, &all(boxes, decision));
        assert_eq!(line.send(0, &few), Answer::TooFew(5 - boxes.len() as u8), "neither has five");
    }
    // the third gateway knows of no view but the first; the leader of view 1 is box 61 mod 6
    let answers = line.send_all(&iv(&corrected, &[0, 1, 2, 3, 4].map(|number| (number, 0))));
    assert_eq!(answers, logged.map(|decision| Answer::Elected { decision, view: 1, leader: 1 }));
    let mut sheet = ElectionSheet { view: 1, commits: 0, aborts: 0 };
    let replies = [LIAR, 0, 1, 2, 3].map(|number| {
        let decision = if number < 3 { 1 } else { 2 };
        Engine.elect(&mut sheet, 1, number.into(), decision, 1).expect("a reply")
    });
    assert_eq!(replies[3..], [ElectionReply::Taken(1), ElectionReply::Taken(0)]);
    let election = Engine.election(&sheet, 1, CORRECTED).expect("five answers");
    assert_eq!((election.leader, election.decision), (1, Commit), "three of five");
    assert_eq!(line.send_all(&ld(&corrected, &election)), [Answer::Logged(Commit, 1); 5]);
    let proof = with_view(b"DC", &corrected, Logs, Commit, 1, &all(&[0, 1, 2, 3, 4], Commit));
    assert_eq!(line.send_all(&proof), [Answer::Done; 5]);
    assert_eq!(line.panels(), [3; 5], "one train, one hot axle");
}

/// What box `number` shows of passage 5.
fn look(line: &mut Line, number: usize, stamp: u64) -> Seen {
    let asks = Passage(5).asks(Stamp(stamp)).expect("a passage of the line");
    let found = asks.messages().map(|message| match line.send(number, &message) {
        Answer::Found { committed: (stamp, value), undecided: (below, live) } => {
            Ok(stobbarel::Answer::Found { committed: version(stamp, value), undecided: version(below, live) })
        }
        other => panic!("an RD was answered {other:?}"),
    });
    asks.seen(found).expect("four halves")
}

/// What the dispatcher at each owner reads.
fn views(line: &mut Line, stamp: u64) -> Vec<Report> {
    SOUND.iter().map(|number| look(line, *number, stamp).report().expect("a passage in order")).collect()
}

fn bytes_of(tx: &stobbarel::Transaction) -> Vec<u8> {
    stobbarel::write_tx(tx, &mut [0; LONGEST]).expect("a transaction in order").to_vec()
}

/// Decided with the liar beside it: it tells the gateway abort, twice, and it is one box of six.
fn decided_beside_the_liar(line: &mut Line, tx: &stobbarel::Transaction) {
    let body = bytes_of(tx);
    assert_eq!(line.send_all(&pr(&body)), [voted(Vote::Commit); 5]);
    let twice = with_list(b"DC", &body, Votes, Abort, &all(&[LIAR, LIAR, LIAR, LIAR], Abort));
    assert_eq!(line.send_all(&twice), [Answer::Refused(6); 5], "a box is named twice");
    assert_eq!(line.send_all(&with_list(b"LG", &body, Votes, Commit, &all(&[0, 1, 2, 3, 4], Commit))), [Answer::Logged(Commit, 0); 5]);
    assert_eq!(line.send_all(&with_list(b"DC", &body, Logs, Commit, &all(&[0, 1, 2, 3, 4], Commit))), [Answer::Done; 5]);
}

/// Axle 3 of 240 in the detector's order; the direction is corrected, and every owner reads axle 238; corrected again, every owner reads axle 3.
fn as_the_dispatchers_read_it() -> [Report; 3] {
    let mut engine = Engine;
    let mut line = Line::new(&mut engine);
    let detected = Values { train: 7402, direction: 0, axles: 240, hot: 3 };
    let entry = look(&mut line, 0, 45).enter(Stamp(EVENING), detected).expect("a passage in order");
    decided_beside_the_liar(&mut line, &entry);
    let evening = views(&mut line, 55);
    let corrected = look(&mut line, 1, 56).correct_direction(Stamp(CORRECTED)).expect("a passage in order");
    decided_beside_the_liar(&mut line, &corrected);
    let night = views(&mut line, 65);
    let again = look(&mut line, 2, 66).correct_direction(Stamp(PANEL)).expect("a passage in order");
    decided_beside_the_liar(&mut line, &again);
    let morning = views(&mut line, MORNING);
    let report = |direction, hot| Report { train: 7402, direction, axles: 240, hot };
    assert_eq!(evening, [report(0, 3); 5]);
    assert_eq!(night, [report(1, 238); 5], "one train, one hot axle, at the other end");
    assert_eq!(morning, evening, "corrected twice, the first report is back");
    [evening[0], night[0], morning[0]]
}

/// True, or a panic that says which sentence of the story is not so.
pub fn check() -> bool {
    as_it_was();
    println!("incident: counting answers, the correction was decided both ways: boxes 0, 1, 2 show axle 3, boxes 3 and 4 axle 238");
    as_it_is();
    println!("incident: the engine refuses the list that names box 5 twice (6); all five sound boxes show axle 3");
    at_the_gateway();
    println!("incident: the gateway's sheet answers Repeat, and its abort proof lacks one answer");
    let [commits, aborts] = had_it_been_quicker();
    assert_eq!([commits, aborts], [6, 6], "four or five of five logs and the liar's are a proof");
    println!("incident: of 32 nights {commits} have a commit proof, {aborts} an abort proof, none both");
    with_the_box_that_was_down();
    asked_after_all();
    println!("incident: after the power dip the box that was down logs too, and five logs are a proof; with its 10 there were four");
    after_both_gateways_died();
    println!("incident: both gateways died after a split log; a third invoked the fallback, the leader of view 1 decided, and five logs of view 1 are a proof");
    let [evening, night, morning] = as_the_dispatchers_read_it();
    println!("incident: every owner reads: {evening}; corrected: {night}; corrected again: {morning}");
    true
}
