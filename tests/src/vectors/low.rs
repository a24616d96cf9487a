//! A box lets old entries go (A11): what is refused as old and in which order, what folds and what stays, and what the tests, the waiting rule, RD and the number of
//! entries visited make of a folded version. After each scene low mark, folded versions and the stamps of the rows are compared too.

use super::*;
use crate::messages::{iv, ld, pr, rd, tx};
use crate::model::{fold_of, low_of, row_at, Election};
use stobbarel::layout::{BODY_AT, FOLD, FOLDS_AT, LOW_AT};

/// A call and its answer.
enum Step {
    /// A message by receive.
    Sent(Vec<u8>, Answer),
    Raise(u64, Answer),
}

use Step::{Raise, Sent};

/// A low mark, the folded versions of some keys, and the stamps of the rows in their order.
type Stands = (u64, &'static [(u16, (u64, u64))], &'static [u64]);

fn committed(stamp: u64, writes: &[(u16, u64)]) -> Step {
    Sent([b"DC", &tx(stamp, &[], writes)[..], PROVES_COMMIT].concat(), Answer::Done)
}

fn aborted(stamp: u64, writes: &[(u16, u64)]) -> Step {
    Sent([b"DC", &tx(stamp, &[], writes)[..], PROVES_ABORT].concat(), Answer::Done)
}

fn asked(stamp: u64, reads: &[(u16, u64)], writes: &[(u16, u64)], vote: Vote, number: u64) -> Step {
    Sent(pr(&tx(stamp, reads, writes)), Answer::Voted(vote, Some(number)))
}

fn read(key: u16, stamp: u64, committed: (u64, u64), undecided: (u64, u64)) -> Step {
    Sent(rd(key, stamp), Answer::Found { committed, undecided })
}

const RAISED: Answer = Answer::Raised;

/// Table and read marks of the engine and of the model.
struct Boxes {
    engine: (Vec<u8>, Vec<u64>),
    model: (Vec<u8>, Vec<u64>),
    settings: Settings,
}

impl Boxes {
    fn new(capacity: u64) -> Boxes {
        let empty = (vec![0; table_len(capacity as usize)], vec![0; 512]);
        Boxes { engine: empty.clone(), model: empty, settings: Settings { f: 1, capacity, clock: 100, delta: 10 } }
    }

    /// The same bytes set in both tables.
    fn set(&mut self, at: usize, bytes: &[u8]) {
        for table in [&mut self.engine.0, &mut self.model.0] {
            table[at..at + bytes.len()].copy_from_slice(bytes);
        }
    }

    fn take(&mut self, tried: &mut Tried, what: &str, step: Step) {
        let (entrance, message, due) = match step {
            Sent(message, due) => (Entrance::Receive, message, due),
            Raise(low, due) => (Entrance::Raise(low), Vec::new(), due),
        };
        let by_engine = engine::call(entrance, &mut self.engine.0, &mut self.engine.1, &self.settings, &message).ok().and_then(engine::answer_of);
        let by_model = match entrance {
            Entrance::Raise(low) => model::low::raise(&mut self.model.0, self.settings.f, self.settings.capacity, low, &mut Vec::new()),
            _ => model::call(&mut self.model.0, &mut self.model.1, &self.settings, &message, entrance.taken(), &mut Vec::new()),
        };
        tried.one(&format!("let go: {what}"), Some(due), by_engine, Some(by_model));
    }

    /// What stands there: the low mark, these folds and no others, these rows; and the two tables are equal.
    fn stand(&self, tried: &mut Tried, what: &str, (low, folds, stamps): Stands) {
        let seen = |table: &[u8]| {
            let folds: Vec<(u16, (u64, u64))> = (0..512).map(|key| (key, fold_of(table, key))).filter(|(_, fold)| *fold != (0, 0)).collect();
            let at = |place: usize| row_at(place) + BODY_AT + 4;
            let stamp = |place| u64::from_le_bytes(table[at(place)..at(place) + 8].try_into().expect("eight bytes"));
            (low_of(table), folds, (0..table[0].into()).map(stamp).collect::<Vec<u64>>())
        };
        tried.one(&format!("let go, what stands: {what}"), (low, folds.to_vec(), stamps.to_vec()), seen(&self.engine.0), seen(&self.model.0));
        tried.one(&format!("let go, the bytes: {what}"), true, self.engine == self.model, true);
    }
}

fn scene(tried: &mut Tried, what: &str, capacity: u64, steps: Vec<Step>, stands: Stands) {
    let mut boxes = Boxes::new(capacity);
    for (at, step) in steps.into_iter().enumerate() {
        boxes.take(tried, &format!("{what}, call {at}"), step);
    }
    boxes.stand(tried, what, stands);
}

/// 50 is committed and gone: each message with a stamp at the low mark, and with the one after.
pub fn old(tried: &mut Tried) {
    let list = |mark: &[u8], stamp, list: &[u8]| [mark, &tx(stamp, &[], &[(3, 7)]), list].concat();
    let led = |leader| Election { leader, decision: Decision::Commit, view: 1, answers: (0..5).map(|number| (number, Decision::Commit, 1)).collect() };
    let fold: Stands = (50, &[(3, (50, 7))], &[]);
    let one_vote = b"VL\x01\x01\x01\0\x01";
    for (what, stamp, step) in [
        ("a PR", 50, Sent(pr(&tx(50, &[], &[(3, 7)])), refused(18))),
        ("a PR of another body", 50, Sent(pr(&tx(50, &[], &[(4, 7)])), refused(18))),
        ("an LG", 50, Sent(list(b"LG", 50, COMMITS), refused(18))),
        ("an LG with too few", 50, Sent(list(b"LG", 50, one_vote), refused(18))),
        ("a DC", 50, Sent(list(b"DC", 50, PROVES_COMMIT), refused(18))),
        ("a DC of the other decision", 50, Sent(list(b"DC", 50, PROVES_ABORT), refused(18))),
        ("a DC with too few: 18 before 11", 50, Sent(list(b"DC", 50, one_vote), refused(18))),
        ("an RD", 50, Sent(rd(3, 50), refused(18))),
        ("an RD of a key never written", 50, Sent(rd(9, 50), refused(18))),
        ("an IV", 50, Sent(iv(&tx(50, &[], &[(3, 7)]), &[(0, 0), (1, 0)]), refused(18))),
        ("an LD", 50, Sent(ld(&tx(50, &[], &[(3, 7)]), &led(3)), refused(18))),
        ("an LD that is no election: 18 before 23", 50, Sent(ld(&tx(50, &[], &[(3, 7)]), &led(2)), refused(18))),
        ("a PR that misbehaves: 7 before 18", 50, Sent(pr(&tx(50, &[(3, 50)], &[])), refused(7))),
        ("an RD of key 512: 5 before 18", 50, Sent(rd(512, 50), refused(5))),
        ("a PR below", 1, Sent(pr(&tx(1, &[], &[(3, 7)])), refused(18))),
        ("the low mark itself", 50, Raise(50, refused(18))),
        ("a low mark below", 49, Raise(49, refused(18))),
        ("low mark 0", 0, Raise(0, refused(18))),
    ] {
        scene(tried, &format!("{what} at {stamp}"), 8, vec![committed(50, &[(3, 7)]), Raise(50, RAISED), step], fold);
    }
    let after = |step: Step| vec![committed(50, &[(3, 7)]), Raise(50, RAISED), step];
    scene(tried, "a PR at 51", 8, after(asked(51, &[], &[(3, 8)], Vote::Commit, 0)), (50, &[(3, (50, 7))], &[51]));
    scene(tried, "an LG at 51", 8, after(Sent(list(b"LG", 51, COMMITS), LOGGED)), (50, &[(3, (50, 7))], &[51]));
    scene(tried, "a DC at 51", 8, after(Sent(list(b"DC", 51, PROVES_COMMIT), Answer::Done)), (50, &[(3, (50, 7))], &[51]));
    scene(tried, "an RD at 51", 8, after(read(3, 51, (50, 7), (0, 0))), fold);
    scene(tried, "an IV at 51", 8, after(Sent(iv(&tx(51, &[], &[(3, 7)]), &[(0, 0)]), refused(22))), fold);
    scene(tried, "an LD at 51", 8, after(Sent(ld(&tx(51, &[], &[(3, 7)]), &led(4)), Answer::Logged(Decision::Commit, 1))), (50, &[(3, (50, 7))], &[51]));
    scene(tried, "15 before 18", 8, vec![Raise(200, RAISED), Sent(rd(3, 111), refused(15)), Sent(rd(3, 110), refused(18))], (200, &[], &[]));
    scene(tried, "18 before 13", 1, vec![Raise(10, RAISED), committed(50, &[(3, 7)]), Sent(pr(&tx(10, &[], &[(3, 7)])), refused(18))], (10, &[], &[50]));
}

/// What a raising is refused for, what it folds, and what stays.
pub fn raising(tried: &mut Tried) {
    let open = || asked(50, &[], &[(3, 7)], Vote::Commit, 0);
    scene(tried, "an empty box", 8, vec![Raise(1, RAISED), Raise(1, refused(18)), Raise(u64::MAX, RAISED), Raise(u64::MAX, refused(18))], (u64::MAX, &[], &[]));
    scene(tried, "19, and below it", 8, vec![open(), Raise(50, refused(19)), Raise(49, RAISED), Raise(51, refused(19))], (49, &[], &[50]));
    scene(tried, "18 before 19", 8, vec![open(), Raise(40, RAISED), Raise(40, refused(18)), Raise(39, refused(18))], (40, &[], &[50]));
    let logged = Sent([b"LG", &tx(50, &[], &[(3, 7)])[..], COMMITS].concat(), LOGGED);
    scene(tried, "19 of what is only logged", 8, vec![logged, Raise(50, refused(19))], (0, &[], &[50]));
    let values = vec![committed(50, &[(3, 7), (5, 8)]), committed(60, &[(5, u64::MAX), (511, 1)]), aborted(55, &[(0, 9), (5, 9)]), Raise(60, RAISED)];
    scene(tried, "the fold's value", 8, values, (60, &[(3, (50, 7)), (5, (60, u64::MAX)), (511, (60, 1))], &[]));
    scene(tried, "a value of 0 folds", 8, vec![committed(50, &[(3, 0)]), Raise(50, RAISED), read(3, 60, (50, 0), (0, 0))], (50, &[(3, (50, 0))], &[]));
    let not_last = vec![committed(60, &[(3, 7)]), committed(50, &[(3, 8)]), Raise(60, RAISED)];
    scene(tried, "the newest, and not the last", 8, not_last, (60, &[(3, (60, 7))], &[]));
    let twice = vec![committed(50, &[(3, 7)]), Raise(50, RAISED), committed(60, &[(3, 8), (4, 9)]), Raise(60, RAISED)];
    scene(tried, "over what was folded before", 8, twice, (60, &[(3, (60, 8)), (4, (60, 9))], &[]));
    let order =
        vec![committed(90, &[(1, 1)]), aborted(20, &[(3, 7)]), committed(70, &[(2, 2)]), committed(10, &[(3, 7)]), aborted(80, &[(3, 9)]), Raise(20, RAISED)];
    scene(tried, "what stays, in order", 8, order, (20, &[(3, (10, 7))], &[90, 70, 80]));
    let at_the_mark = vec![committed(50, &[(3, 7)]), committed(51, &[(3, 8)]), Raise(50, RAISED)];
    scene(tried, "at the mark it goes, above it stays", 8, at_the_mark, (50, &[(3, (50, 7))], &[51]));
    let room = vec![committed(50, &[(3, 7)]), aborted(51, &[(3, 8)]), Sent(pr(&tx(52, &[], &[(3, 9)])), refused(13)), Raise(51, RAISED)];
    let room = room.into_iter().chain([asked(52, &[], &[(3, 9)], Vote::Commit, 0), asked(53, &[], &[(4, 9)], Vote::Commit, 2)]).collect();
    scene(tried, "room is used again", 2, room, (51, &[(3, (50, 7))], &[52, 53]));
    for (what, f, capacity, low, due) in [
        ("14 before 18", 0, 8, 0, 14),
        ("f 6", 6, 8, 50, 14),
        ("capacity 0", 1, 0, 50, 14),
        ("capacity 256", 1, 256, 50, 14),
        ("16 before 18: a slice too short", 1, 9, 0, 16),
        ("16 before 18: more entries than the capacity", 1, 1, 0, 16),
        ("16 before 19", 1, 1, 60, 16),
    ] {
        let mut boxes = Boxes::new(8);
        boxes.take(tried, what, committed(50, &[(3, 7)]));
        boxes.take(tried, what, asked(60, &[(3, 50)], &[], Vote::Commit, 1 + 1 + 1 + 1));
        (boxes.settings.f, boxes.settings.capacity) = (f, capacity);
        boxes.take(tried, what, Raise(low, refused(due)));
        boxes.stand(tried, what, (0, &[], &[50, 60]));
    }
}

/// What a PR and an RD make of a folded version: 50 wrote key 3 and 40 wrote key 4, both are gone. The numbers are added up from 02's sentences: no look-up at or
/// below the low mark, and where the folded version fails a key, none of its entries.
pub fn folded(tried: &mut Tried) {
    let gone = || vec![committed(50, &[(3, 7)]), committed(40, &[(4, 6)]), Raise(50, RAISED)];
    let (commit, abort) = (Vote::Commit, Vote::Abort);
    for (what, reads, vote, number) in [
        ("the folded one", &[(3, 50)][..], commit, 0),
        ("the folded ones of two keys", &[(3, 50), (4, 40)], commit, 0),
        ("version 0 under a fold: 3", &[(3, 0)], abort(3), 0),
        ("version 0 where nothing is folded", &[(5, 0)], commit, 0),
        ("not folded, with the fold above: 2", &[(3, 49)], abort(2), 0),
        ("not folded, with the fold below: 2", &[(4, 45)], abort(2), 0),
        ("folded at another key: 2", &[(4, 50)], abort(2), 0),
        ("folded at another key, nothing at this one: 2", &[(5, 50)], abort(2), 0),
        ("2 before 3", &[(3, 0), (4, 41)], abort(2), 0),
        ("above the low mark, not held: 2", &[(3, 51)], abort(2), 0),
    ] {
        let steps = gone().into_iter().chain([asked(60, reads, &[], vote, number)]).collect();
        scene(tried, what, 8, steps, (50, &[(3, (50, 7)), (4, (40, 6))], &[60]));
    }
    // with two entries held, a live one that writes key 5 and a dead one
    for (what, reads, vote, number) in [
        ("counted: the folded one is not looked up", &[(3, 50)][..], commit, 2 + 2),
        ("counted: a version above is", &[(3, 50), (5, 55)], commit, 2 + 1 + (2 + 2) + 1),
        ("counted: where the fold fails the first key, nothing", &[(3, 0), (5, 55)], abort(3), 2 + 1),
        ("counted: where it fails the second, the first key's entries", &[(2, 0), (3, 0), (5, 55)], abort(3), 2 + 1 + 2),
        ("counted: an entry fails the key before", &[(2, 0), (4, 0), (5, 0)], abort(3), 2 + 2),
        ("counted: old and not folded", &[(3, 49), (5, 55)], abort(2), 2),
        ("counted: old and not folded, behind a look-up", &[(2, 0), (3, 50), (4, 39), (5, 55)], abort(2), 2),
    ] {
        let held = [committed(55, &[(5, 1)]), aborted(56, &[(3, 2)])];
        let steps = gone().into_iter().chain(held).chain([asked(60, reads, &[], vote, number)]).collect();
        scene(tried, what, 8, steps, (50, &[(3, (50, 7)), (4, (40, 6))], &[55, 56, 60]));
    }
    let above = gone().into_iter().chain([committed(55, &[(3, 8)]), read(3, 60, (55, 8), (0, 0)), read(3, 55, (50, 7), (0, 0))]).collect();
    scene(tried, "RD takes the table before the fold", 8, above, (50, &[(3, (50, 7)), (4, (40, 6))], &[55]));
    let beside = gone().into_iter().chain([asked(55, &[], &[(3, 8)], commit, 0), read(3, 60, (50, 7), (55, 8)), read(9, 60, (0, 0), (0, 0))]).collect();
    scene(tried, "RD shows the fold beside an undecided one", 8, beside, (50, &[(3, (50, 7)), (4, (40, 6))], &[55]));
}

/// A wait for what then goes.
pub fn waiting(tried: &mut Tried) {
    let wait = || vec![asked(50, &[], &[(3, 7)], Vote::Commit, 0), asked(60, &[(3, 50)], &[], Vote::Waiting, 1 + 1 + 1 + 1)];
    let again = |vote| asked(60, &[(3, 50)], &[], vote, 1);
    let steps = wait().into_iter().chain([Raise(50, refused(19)), aborted(50, &[(3, 7)]), Raise(50, RAISED), again(Vote::Abort(6))]).collect();
    scene(tried, "a wait for what was aborted: 6", 8, steps, (50, &[], &[60]));
    let steps = wait().into_iter().chain([committed(50, &[(3, 7)]), Raise(50, RAISED), again(Vote::Commit)]).collect();
    scene(tried, "a wait for what was committed", 8, steps, (50, &[(3, (50, 7))], &[60]));
    let steps = wait().into_iter().chain([committed(50, &[(4, 7)]), Raise(50, RAISED), again(Vote::Abort(6))]).collect();
    scene(tried, "a wait for a body that was replaced by one that lacks the key: 6", 8, steps, (50, &[(4, (50, 7))], &[60]));
    let steps = wait().into_iter().chain([committed(50, &[(3, 7)]), committed(55, &[(3, 8)]), Raise(55, RAISED), again(Vote::Abort(6))]).collect();
    scene(tried, "a wait for what was folded under another: 6", 8, steps, (55, &[(3, (55, 8))], &[60]));
}

/// Lent tables with numbers that no call leaves there.
pub fn as_lent(tried: &mut Tried) {
    let eight = |number: u64| number.to_le_bytes();
    let at = |key: usize| FOLDS_AT + FOLD * key;
    // 50 is held and old: not looked up
    let mut boxes = Boxes::new(8);
    boxes.take(tried, "lent", committed(50, &[(3, 7)]));
    boxes.set(LOW_AT, &eight(50));
    boxes.take(tried, "held and old, not folded: 2", asked(60, &[(3, 50)], &[], Vote::Abort(2), 1));
    boxes.take(tried, "held and old, RD shows it", read(3, 60, (50, 7), (0, 0)));
    boxes.take(tried, "held and old, its PR", Sent(pr(&tx(50, &[], &[(3, 7)])), refused(18)));
    boxes.take(tried, "held and old, it folds later", Raise(51, RAISED));
    boxes.stand(tried, "held and old", (51, &[(3, (50, 7))], &[60]));
    // a folded version above everything
    let mut boxes = Boxes::new(8);
    boxes.set(at(3), &[eight(u64::MAX), eight(9)].concat());
    boxes.take(tried, "a fold above the own stamp gives 3", asked(60, &[(3, 0)], &[], Vote::Abort(3), 0));
    boxes.take(tried, "a fold above the stamp asked for is shown", read(3, 60, (u64::MAX, 9), (0, 0)));
    boxes.take(tried, "a fold above a committed writer", committed(70, &[(3, 7)]));
    boxes.take(tried, "the table before a newer fold", read(3, 80, (70, 7), (0, 0)));
    boxes.take(tried, "a newer fold stays", Sent([b"DC", &tx(60, &[(3, 0)], &[])[..], PROVES_ABORT].concat(), Answer::Done));
    boxes.take(tried, "a newer fold stays", Raise(70, RAISED));
    boxes.stand(tried, "a newer fold", (70, &[(3, (u64::MAX, 9))], &[]));
    // a value beside no stamp, and one stamp twice
    let mut boxes = Boxes::new(8);
    boxes.set(at(3) + 8, &eight(9));
    boxes.take(tried, "a value beside no stamp is shown", read(3, 60, (0, 9), (0, 0)));
    boxes.take(tried, "a value beside no stamp gives nothing", asked(60, &[(3, 0)], &[], Vote::Commit, 0));
    boxes.stand(tried, "a value beside no stamp", (0, &[(3, (0, 9))], &[60]));
    let mut boxes = Boxes::new(8);
    boxes.take(tried, "one stamp twice", committed(50, &[(3, 7)]));
    boxes.take(tried, "one stamp twice", committed(51, &[(3, 8)]));
    boxes.set(row_at(1) + BODY_AT + 4, &eight(50));
    boxes.take(tried, "one stamp twice, the first folds", Raise(50, RAISED));
    boxes.stand(tried, "one stamp twice", (50, &[(3, (50, 7))], &[]));
    // keys that no message has
    let mut boxes = Boxes::new(8);
    boxes.take(tried, "a key above 511", committed(50, &[(3, 7), (4, 8)]));
    boxes.set(row_at(0) + BODY_AT + 12, &[0, 2]);
    boxes.take(tried, "a key above 511 does not fold", Raise(50, RAISED));
    boxes.stand(tried, "a key above 511", (50, &[(4, (50, 8))], &[]));
    // what stands behind the rows that are left
    let mut boxes = Boxes::new(3);
    for (stamp, step) in [(50, committed(50, &[(3, 7)])), (60, committed(60, &[(3, 8)])), (70, committed(70, &[(3, 9)]))] {
        boxes.take(tried, &format!("rows left, {stamp}"), step);
    }
    boxes.set(row_at(2) + ROW - 8, &eight(0x0102));
    let before = boxes.engine.0.clone();
    boxes.take(tried, "rows left", Raise(50, RAISED));
    for (what, table) in [("engine", &boxes.engine.0), ("model", &boxes.model.0)] {
        let rows = (&table[row_at(0)..row_at(2)], &table[row_at(2)..]);
        tried.one(
            &format!("let go, whole rows move and the last place stays as it stood: {what}"),
            true,
            rows == (&before[row_at(1)..row_at(3)], &before[row_at(2)..]),
            true,
        );
    }
    boxes.stand(tried, "rows left", (50, &[(3, (50, 7))], &[60, 70]));
}
