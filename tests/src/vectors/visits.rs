//! How many entries a PR visits (A6): each test failing at a first, a middle and a last key and row, the waiting rule, and where no number is told. The
//! numbers due are added up from 02's sentence: own look-up + test 2 + test 3 + test 4 + waiting rule.

use super::*;
use crate::messages::{pr, tx};

type Pairs = &'static [(u16, u64)];

/// How an entry came to be held: decided by a DC, logged by an LG with no vote, or voted on.
#[derive(Clone, Copy)]
enum By {
    Commit,
    Abort,
    Log,
    Vote,
}

use By::{Abort, Commit, Log};

/// A stamp with its reads and writes.
type Sent = (u64, Pairs, Pairs);

/// Entries held, in the order of their rows, and a PR: its vote and the number.
type Visit = (&'static str, &'static [(By, Sent)], Sent, Vote, u64);

/// Three that write a key each; three later ones that read a key each.
const WRITERS: &[(By, Sent)] = &[(Commit, (10, &[], &[(5, 7)])), (Commit, (20, &[], &[(6, 7)])), (Commit, (30, &[], &[(7, 7)]))];
const READERS: &[(By, Sent)] = &[(Commit, (60, &[(5, 0)], &[])), (Commit, (70, &[(6, 0)], &[])), (Commit, (80, &[(7, 0)], &[]))];
/// A dead one stands first.
const BEHIND_A_DEAD_ONE: &[(By, Sent)] = &[(Abort, (15, &[], &[(5, 7)])), (Commit, (10, &[], &[(5, 7)]))];
const READ_BEHIND_A_DEAD_ONE: &[(By, Sent)] = &[(Abort, (65, &[(5, 0)], &[])), (Log, (66, &[(5, 0)], &[])), (Commit, (60, &[(5, 0)], &[]))];
/// A body of two keys.
const OF_TWO: &[(By, Sent)] = &[(Commit, (40, &[], &[(5, 7), (6, 7)]))];
/// The asked one is held already, by its LG, and has no vote.
const NO_VOTE: &[(By, Sent)] = &[(Commit, (10, &[], &[(5, 7)])), (Log, (50, &[(5, 10)], &[(6, 7)])), (Commit, (20, &[], &[(8, 7)]))];

const VISITS: [Visit; 42] = [
    // H = 0
    ("nothing held, a write", &[], (50, &[], &[(5, 7)]), Vote::Commit, 0),
    ("nothing held, a read of version 0", &[], (50, &[(5, 0)], &[]), Vote::Commit, 0),
    ("nothing held, a version", &[], (50, &[(5, 40)], &[]), Vote::Abort(2), 0),
    ("nothing held, ahead of the clock", &[], (111, &[], &[(5, 7)]), Vote::Abort(1), 0),
    // test 1
    ("test 1", WRITERS, (111, &[(5, 0)], &[(5, 7)]), Vote::Abort(1), 3),
    // test 2
    ("test 2, only key, not held", WRITERS, (50, &[(5, 11)], &[]), Vote::Abort(2), 3 + 3),
    ("test 2, first key, first row", WRITERS, (50, &[(4, 10), (5, 10), (6, 20)], &[]), Vote::Abort(2), 3 + 1),
    ("test 2, first key, middle row", WRITERS, (50, &[(4, 20), (5, 10), (6, 20)], &[]), Vote::Abort(2), 3 + 2),
    ("test 2, first key, last row", WRITERS, (50, &[(4, 30), (5, 10), (6, 20)], &[]), Vote::Abort(2), 3 + 3),
    ("test 2, middle key, first row", WRITERS, (50, &[(5, 10), (6, 10), (7, 30)], &[]), Vote::Abort(2), 3 + 1 + 1),
    ("test 2, middle key, middle row", WRITERS, (50, &[(5, 10), (7, 20), (8, 30)], &[]), Vote::Abort(2), 3 + 1 + 2),
    ("test 2, middle key, last row", WRITERS, (50, &[(5, 10), (6, 30), (7, 30)], &[]), Vote::Abort(2), 3 + 1 + 3),
    ("test 2, last key, first row", WRITERS, (50, &[(5, 10), (6, 20), (7, 10)], &[]), Vote::Abort(2), 3 + 1 + 2 + 1),
    ("test 2, last key, middle row", WRITERS, (50, &[(5, 10), (6, 20), (7, 20)], &[]), Vote::Abort(2), 3 + 1 + 2 + 2),
    ("test 2, last key, last row", WRITERS, (50, &[(5, 10), (6, 20), (8, 30)], &[]), Vote::Abort(2), 3 + 1 + 2 + 3),
    ("test 2, version 0 is not looked up", WRITERS, (50, &[(4, 0), (5, 0), (7, 20)], &[]), Vote::Abort(2), 3 + 2),
    // test 3
    ("test 3, first key, first row", WRITERS, (50, &[(5, 0), (6, 0), (7, 0)], &[]), Vote::Abort(3), 3 + 1),
    ("test 3, first key, middle row", WRITERS, (50, &[(6, 0), (7, 0), (8, 0)], &[]), Vote::Abort(3), 3 + 2),
    ("test 3, first key, last row", WRITERS, (50, &[(7, 0), (8, 0), (9, 0)], &[]), Vote::Abort(3), 3 + 3),
    ("test 3, middle key, first row", WRITERS, (50, &[(4, 0), (5, 0), (6, 0)], &[]), Vote::Abort(3), 3 + 3 + 1),
    ("test 3, middle key, middle row", WRITERS, (50, &[(5, 10), (6, 0), (7, 0)], &[]), Vote::Abort(3), 3 + 1 + 3 + 2),
    ("test 3, middle key, last row", WRITERS, (50, &[(6, 20), (7, 0), (8, 0)], &[]), Vote::Abort(3), 3 + 2 + 3 + 3),
    ("test 3, last key, first row", WRITERS, (50, &[(3, 0), (4, 0), (5, 0)], &[]), Vote::Abort(3), 3 + 3 + 3 + 1),
    ("test 3, last key, middle row", WRITERS, (50, &[(4, 0), (5, 10), (6, 0)], &[]), Vote::Abort(3), 3 + 1 + 3 + 3 + 2),
    ("test 3, last key, last row", WRITERS, (50, &[(5, 10), (6, 20), (7, 0)], &[]), Vote::Abort(3), 3 + 1 + 2 + 3 + 3 + 3),
    ("test 3, behind a dead entry", BEHIND_A_DEAD_ONE, (50, &[(5, 0)], &[]), Vote::Abort(3), 2 + 2),
    // test 4
    ("test 4, first key, first row", READERS, (50, &[], &[(5, 7), (6, 7), (7, 7)]), Vote::Abort(4), 3 + 1),
    ("test 4, first key, middle row", READERS, (50, &[], &[(6, 7), (7, 7), (8, 7)]), Vote::Abort(4), 3 + 2),
    ("test 4, first key, last row", READERS, (50, &[], &[(7, 7), (8, 7), (9, 7)]), Vote::Abort(4), 3 + 3),
    ("test 4, middle key, first row", READERS, (50, &[], &[(4, 7), (5, 7), (6, 7)]), Vote::Abort(4), 3 + 3 + 1),
    ("test 4, middle key, middle row", READERS, (50, &[], &[(4, 7), (6, 7), (7, 7)]), Vote::Abort(4), 3 + 3 + 2),
    ("test 4, middle key, last row", READERS, (50, &[], &[(4, 7), (7, 7), (8, 7)]), Vote::Abort(4), 3 + 3 + 3),
    ("test 4, last key, first row", READERS, (50, &[], &[(3, 7), (4, 7), (5, 7)]), Vote::Abort(4), 3 + 3 + 3 + 1),
    ("test 4, last key, middle row", READERS, (50, &[], &[(3, 7), (4, 7), (6, 7)]), Vote::Abort(4), 3 + 3 + 3 + 2),
    ("test 4, last key, last row", READERS, (50, &[(9, 0)], &[(3, 7), (4, 7), (7, 7)]), Vote::Abort(4), 3 + 3 + 3 + 3 + 3),
    ("test 4, behind dead entries", READ_BEHIND_A_DEAD_ONE, (50, &[], &[(5, 7)]), Vote::Abort(4), 3 + 3),
    // nothing fails
    ("nothing fails, a write", WRITERS, (50, &[], &[(9, 7)]), Vote::Commit, 3 + 3),
    ("nothing fails, three versions and a write", WRITERS, (50, &[(5, 10), (6, 20), (7, 30)], &[(9, 7)]), Vote::Commit, 3 + (1 + 2 + 3) + 9 + 3 + (1 + 2 + 3)),
    ("a version named by two reads", OF_TWO, (50, &[(5, 40), (6, 40)], &[]), Vote::Commit, 1 + 2 + 2 + 2),
    ("vote none, in its place", NO_VOTE, (50, &[(5, 10)], &[(6, 7)]), Vote::Commit, 2 + 1 + 3 + 3 + 1),
    ("vote none, in its place, ahead of the clock", &[(Log, (111, &[], &[(5, 7)]))], (111, &[], &[(5, 7)]), Vote::Abort(1), 1),
    ("one entry, eight reads and eight writes: 33", &[(Commit, (40, &[], EIGHT))], (50, READ_EIGHT, EIGHT), Vote::Commit, 33),
];

const EIGHT: Pairs = &[(1, 7), (2, 7), (3, 7), (4, 7), (5, 7), (6, 7), (7, 7), (8, 7)];
const READ_EIGHT: Pairs = &[(1, 40), (2, 40), (3, 40), (4, 40), (5, 40), (6, 40), (7, 40), (8, 40)];

/// The engine's box and the model's.
struct Boxes {
    engine: (Vec<u8>, Vec<u64>),
    model: (Vec<u8>, Vec<u64>),
    settings: Settings,
}

impl Boxes {
    fn new(capacity: u64, clock: u64) -> Boxes {
        let empty = (vec![0; table_len(capacity as usize)], vec![0; 512]);
        Boxes { engine: empty.clone(), model: empty, settings: Settings { f: 1, capacity, clock, delta: 10 } }
    }

    fn tell(&mut self, tried: &mut Tried, what: &str, message: &[u8], due: Answer) {
        let by_engine = engine::call(Entrance::Receive, &mut self.engine.0, &mut self.engine.1, &self.settings, message).ok().and_then(engine::answer_of);
        let by_model = model::call(&mut self.model.0, &mut self.model.1, &self.settings, message, Entrance::Receive.taken(), &mut Vec::new());
        tried.one(&format!("entries visited, {what}"), Some(due), by_engine, Some(by_model));
    }

    /// An entry is put there.
    fn hold(&mut self, tried: &mut Tried, by: By, (stamp, reads, writes): (u64, &[(u16, u64)], &[(u16, u64)])) {
        let body = tx(stamp, reads, writes);
        let (mark, list, due): (&[u8], &[u8], Answer) = match by {
            Commit => (b"DC", PROVES_COMMIT, Answer::Done),
            Abort => (b"DC", PROVES_ABORT, Answer::Done),
            Log => (b"LG", COMMITS, LOGGED),
            By::Vote => (b"PR", b"", Answer::Voted(Vote::Commit, Some(0))),
        };
        self.tell(tried, "an entry to be held", &[mark, &body, list].concat(), due);
    }
}

pub fn numbers(tried: &mut Tried) {
    for (what, held, (stamp, reads, writes), vote, number) in VISITS {
        let mut boxes = Boxes::new(8, 100);
        for (by, sent) in held {
            boxes.hold(tried, *by, *sent);
        }
        assert!(number <= 33 * (held.len() as u64 + 1));
        let message = pr(&tx(stamp, reads, writes));
        boxes.tell(tried, what, &message, Answer::Voted(vote, Some(number)));
        // the same vote again has no number; a wait is a vote to come
        boxes.tell(tried, &format!("{what}, again"), &message, Answer::Voted(vote, None));
    }
}

/// 40 is undecided, and 50 waits for it.
fn waiting(tried: &mut Tried, then: &[u8], vote: Vote) {
    let mut boxes = Boxes::new(8, 100);
    boxes.hold(tried, By::Vote, (40, &[], &[(5, 7)]));
    let ask = pr(&tx(50, &[(5, 40)], &[]));
    boxes.tell(tried, "a wait", &ask, Answer::Voted(Vote::Waiting, Some(1 + 1 + 1 + 1)));
    boxes.tell(tried, "waiting, asked again: waits on", &ask, Answer::Voted(Vote::Waiting, Some(2 + 1)));
    boxes.tell(tried, "the version is decided", &[b"DC", &tx(40, &[], &[(5, 7)])[..], then].concat(), Answer::Done);
    boxes.tell(tried, "waiting, asked again: a vote", &ask, Answer::Voted(vote, Some(2 + 1)));
    boxes.tell(tried, "voted on, asked again", &ask, Answer::Voted(vote, None));
}

/// Of two versions the first is aborted: the second is looked up all the same.
fn waiting_for_two(tried: &mut Tried) {
    let mut boxes = Boxes::new(8, 100);
    boxes.hold(tried, By::Vote, (40, &[], &[(5, 7)]));
    boxes.tell(tried, "the second version", &pr(&tx(41, &[], &[(6, 7)])), Answer::Voted(Vote::Commit, Some(1 + 1)));
    let ask = pr(&tx(50, &[(5, 40), (6, 41)], &[]));
    boxes.tell(tried, "a wait for two", &ask, Answer::Voted(Vote::Waiting, Some(2 + (1 + 2) + 4 + (1 + 2))));
    boxes.tell(tried, "the first is aborted", &[b"DC", &tx(40, &[], &[(5, 7)])[..], PROVES_ABORT].concat(), Answer::Done);
    boxes.tell(tried, "the second is looked up too", &ask, Answer::Voted(Vote::Abort(6), Some(3 + 1 + 2)));
}

pub fn in_turn(tried: &mut Tried) {
    waiting(tried, PROVES_COMMIT, Vote::Commit);
    waiting(tried, PROVES_ABORT, Vote::Abort(6));
    waiting_for_two(tried);
    let mut boxes = Boxes::new(2, 100);
    boxes.tell(tried, "an RD at 60", b"RD\x09\0\x3c\0\0\0\0\0\0\0", NOTHING_FOUND);
    boxes.hold(tried, Commit, (10, &[], &[(5, 7)]));
    let ask = pr(&tx(50, &[(5, 10)], &[(8, 7), (9, 7)]));
    boxes.tell(tried, "test 5", &ask, Answer::Voted(Vote::Abort(5), Some(1 + 1 + 1 + 2)));
    boxes.tell(tried, "test 5, again", &ask, Answer::Voted(Vote::Abort(5), None));
    boxes.tell(tried, "another body", &pr(&tx(50, &[(5, 10)], &[(8, 7)])), refused(9));
    boxes.tell(tried, "decided", &pr(&tx(10, &[], &[(5, 7)])), Answer::Decided(Decision::Commit));
    boxes.tell(tried, "no room", &pr(&tx(51, &[], &[(5, 7)])), refused(13));
}

/// The most that a PR visits. The bound with 255 entries is 33 x 256 = 8448. It is not met: a new one finds room at 254 at most, and one that is held does not
/// stand where its versions do. All eight stand in the last row, and the asked one, logged with no vote, in the row before: the other way round is less.
pub fn most(tried: &mut Tried) {
    let keys = |number| std::array::from_fn::<(u16, u64), 8, _>(|at| (at as u16 + 1, number));
    let (none, reads, writes) = (&[][..], keys(300), keys(8));
    let (version, asked) = ((Commit, (300, none, &writes[..])), (Log, (400, &reads[..], &writes[..])));
    for (what, last, number) in [
        ("254 held, a new one", &[version][..], 33 * 254),
        ("255 held, the asked one last", &[version, asked], 255 + 8 * 254 + 8 * 255 + 8 * 255 + 8 * 254),
        ("255 held, the version last", &[asked, version], 254 + 8 * 255 + 8 * 255 + 8 * 255 + 8 * 255),
    ] {
        let mut boxes = Boxes::new(255, 1000);
        for stamp in 1..=253 {
            boxes.hold(tried, Commit, (stamp, none, &[(20, stamp)]));
        }
        last.iter().for_each(|(by, sent)| boxes.hold(tried, *by, *sent));
        assert!(number <= 8414 && 8414 < 33 * 256);
        boxes.tell(tried, what, &pr(&tx(400, &reads, &writes)), Answer::Voted(Vote::Commit, Some(number)));
    }
}
