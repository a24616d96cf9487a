//! The three boxes that are timed: the engine, the model's own box, and the flat one.

use crate::flat;
use crate::model::{self, row_at, Answer, Settings, Store, MARKS};
use stobbarel::layout::{DECIDED_AT, HEAD, LOG_AT};
use stobbarel_sys::stobbarel_receive;

/// What makes a call repeatable: what it changed is put back.
#[derive(Clone, Copy)]
pub enum Undo {
    Nothing,
    /// The last entry is new.
    Entry,
    /// The last entry's log is new.
    Log,
    /// The last entry's decision is new.
    Decision,
    /// This key's read mark was raised.
    Mark(usize),
}

/// Table and read marks as they are lent.
#[derive(Clone)]
pub struct Lent {
    pub table: Vec<u8>,
    pub marks: Vec<u64>,
}

impl Lent {
    #[inline(always)]
    fn undo(&mut self, undo: Undo) {
        let last = row_at(self.table[0] as usize - 1);
        match undo {
            Undo::Nothing => {}
            Undo::Entry => self.table[0] -= 1,
            Undo::Log => self.table[last + LOG_AT] = 0,
            Undo::Decision => self.table[last + DECIDED_AT] = 0,
            Undo::Mark(key) => self.marks[key] = 0,
        }
    }
}

pub trait Timed {
    type Said;
    fn call(&mut self, settings: &Settings, message: &[u8]) -> Self::Said;
    fn undo(&mut self, undo: Undo);
    fn answer(said: Self::Said) -> Option<Answer>;
    /// Table and read marks as they now stand, for comparison.
    fn entries(&self) -> (Vec<model::Entry>, &[u64]);
}

/// The proved engine over its C interface.
pub struct Engine(pub Lent);

impl Timed for Engine {
    type Said = [u64; 5];

    #[inline(always)]
    fn call(&mut self, s: &Settings, message: &[u8]) -> [u64; 5] {
        let (table, marks) = (&mut self.0.table, &mut self.0.marks);
        let mut out = [0; 5];
        // Each pointer is to as many numbers as the function takes, and they do not overlap.
        unsafe {
            stobbarel_receive(
                table.as_mut_ptr(),
                table.len(),
                marks.as_mut_ptr(),
                s.f,
                s.capacity,
                s.clock,
                s.delta,
                message.as_ptr(),
                message.len(),
                out.as_mut_ptr(),
            )
        }
        out
    }

    #[inline(always)]
    fn undo(&mut self, undo: Undo) {
        self.0.undo(undo);
    }

    fn answer(said: [u64; 5]) -> Option<Answer> {
        crate::engine::answer_of(said)
    }

    fn entries(&self) -> (Vec<model::Entry>, &[u64]) {
        (model::entries_of(&self.0.table, 255).expect("a table that is taken"), &self.0.marks)
    }
}

/// The model's own box: it keeps its entries as a list, and nothing is lent.
pub struct Own(Store<'static>);

/// No low mark was raised: what is timed are messages.
static NOTHING_FOLDED: [u8; HEAD] = [0; HEAD];

impl Own {
    pub fn new(lent: &Lent) -> Own {
        let mut entries = Vec::with_capacity(255);
        entries.extend(model::entries_of(&lent.table, 255).expect("a table that is taken"));
        Own(Store { rules: model::PAPER, head: &NOTHING_FOLDED, entries, marks: lent.marks.clone(), touched: None, met: Vec::new() })
    }
}

impl Timed for Own {
    type Said = Answer;

    #[inline(always)]
    fn call(&mut self, settings: &Settings, message: &[u8]) -> Answer {
        match model::read_message(message, settings, &MARKS, model::PAPER) {
            Ok(read) => self.0.act(read, settings),
            Err(number) => Answer::Refused(number),
        }
    }

    #[inline(always)]
    fn undo(&mut self, undo: Undo) {
        // The list of cases met is the tests' own; emptied, it costs no room.
        self.0.met.clear();
        match undo {
            Undo::Nothing => {}
            Undo::Entry => drop(self.0.entries.pop()),
            Undo::Log => self.0.entries.last_mut().expect("an entry").log = None,
            Undo::Decision => self.0.entries.last_mut().expect("an entry").decision = None,
            Undo::Mark(key) => self.0.marks[key] = 0,
        }
    }

    fn answer(said: Answer) -> Option<Answer> {
        Some(said)
    }

    fn entries(&self) -> (Vec<model::Entry>, &[u64]) {
        (self.0.entries.clone(), &self.0.marks)
    }
}

/// The same lent table, unproved.
pub struct Flat(pub Lent);

impl Timed for Flat {
    type Said = Answer;

    #[inline(always)]
    fn call(&mut self, settings: &Settings, message: &[u8]) -> Answer {
        flat::receive(&mut self.0.table, &mut self.0.marks, settings, message)
    }

    #[inline(always)]
    fn undo(&mut self, undo: Undo) {
        self.0.undo(undo);
    }

    fn answer(said: Answer) -> Option<Answer> {
        Some(said)
    }

    fn entries(&self) -> (Vec<model::Entry>, &[u64]) {
        (model::entries_of(&self.0.table, 255).expect("a table that is taken"), &self.0.marks)
    }
}
