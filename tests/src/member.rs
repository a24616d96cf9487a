//! A box as the tests see it: it answers messages on a table that is lent to it, and counts answers for a gateway.
//! The engine is one; the model is one, with rules that may be broken; broken.rs has bad ones.

use crate::engine::{self, Entrance};
use crate::model::{self, Answer, Election, ElectionReply, ElectionSheet, Holding, Reply, Rules, Settings, Sheet, ViewSheet};

pub trait Member {
    /// Table and read marks become what the box leaves. An error is an answer that cannot be read, or a write beside what was lent.
    fn call(&mut self, entrance: Entrance, table: &mut Vec<u8>, marks: &mut Vec<u64>, settings: &Settings, message: &[u8]) -> Result<Answer, String>;

    fn tally(&mut self, sheet: &mut Sheet, f: u64, number: u64, answer: u64) -> Result<Reply, String>;

    /// An election answer for a leader's sheet, and what the leader makes of it. The sheets of the fallback are the model's where a member has none of its own.
    fn elect(&mut self, sheet: &mut ElectionSheet, f: u64, number: u64, answer: u64, view: u64) -> Result<ElectionReply, String> {
        Ok(model::elect(sheet, f, number, answer, view))
    }

    fn election(&mut self, sheet: &ElectionSheet, f: u64, stamp: u64) -> Result<Election, u8> {
        model::election(sheet, f, stamp)
    }

    /// A view that a gateway was told, and those that its next IV lists.
    fn tell(&mut self, sheet: &mut ViewSheet, f: u64, number: u64, view: u64) -> Result<(), u8> {
        model::tell(sheet, f, number, view)
    }

    fn told(&mut self, sheet: &ViewSheet, f: u64) -> Result<Vec<(u8, u16)>, u8> {
        model::told(sheet, f)
    }

    /// What its table holds under a stamp, the model's answer where a member has none of its own.
    fn held(&mut self, table: &[u8], capacity: u64, stamp: u64) -> Result<Option<Holding>, u8> {
        model::held(table, capacity, stamp)
    }
}

pub struct Engine;

impl Member for Engine {
    fn call(&mut self, entrance: Entrance, table: &mut Vec<u8>, marks: &mut Vec<u64>, settings: &Settings, message: &[u8]) -> Result<Answer, String> {
        let out = engine::call(entrance, table, marks, settings, message)?;
        engine::answer_of(out).ok_or_else(|| format!("{out:?} is no answer"))
    }

    fn tally(&mut self, sheet: &mut Sheet, f: u64, number: u64, answer: u64) -> Result<Reply, String> {
        engine::tally(sheet, f, number, answer).ok_or_else(|| "the tally's five numbers are no reply".into())
    }

    fn elect(&mut self, sheet: &mut ElectionSheet, f: u64, number: u64, answer: u64, view: u64) -> Result<ElectionReply, String> {
        engine::elect(sheet, f, number, answer, view).ok_or_else(|| "the two numbers of a leader's sheet are no reply".into())
    }

    fn election(&mut self, sheet: &ElectionSheet, f: u64, stamp: u64) -> Result<Election, u8> {
        engine::election(sheet, f, stamp)
    }

    fn tell(&mut self, sheet: &mut ViewSheet, f: u64, number: u64, view: u64) -> Result<(), u8> {
        match engine::tell(sheet, f, number, view) {
            0 => Ok(()),
            number => Err(number),
        }
    }

    fn told(&mut self, sheet: &ViewSheet, f: u64) -> Result<Vec<(u8, u16)>, u8> {
        engine::told(sheet, f)
    }

    fn held(&mut self, table: &[u8], capacity: u64, stamp: u64) -> Result<Option<Holding>, u8> {
        engine::held(table, capacity, stamp)
    }
}

pub struct Model(pub Rules);

impl Member for Model {
    fn call(&mut self, entrance: Entrance, table: &mut Vec<u8>, marks: &mut Vec<u64>, settings: &Settings, message: &[u8]) -> Result<Answer, String> {
        if let Entrance::Raise(low) = entrance {
            return Ok(model::low::raise_by(self.0, table, settings.f, settings.capacity, low, &mut Vec::new()));
        }
        Ok(model::call_by(self.0, table, marks, settings, message, entrance.taken(), &mut Vec::new()))
    }

    fn tally(&mut self, sheet: &mut Sheet, f: u64, number: u64, answer: u64) -> Result<Reply, String> {
        Ok(model::tally(sheet, f, number, answer))
    }
}

/// The engine with the model beside it: an error where an answer or a byte differs.
pub struct Beside;

impl Member for Beside {
    fn call(&mut self, entrance: Entrance, table: &mut Vec<u8>, marks: &mut Vec<u64>, settings: &Settings, message: &[u8]) -> Result<Answer, String> {
        let (mut due_table, mut due_marks) = (table.clone(), marks.clone());
        let answer = Engine.call(entrance, table, marks, settings, message)?;
        let due = Model(model::PAPER).call(entrance, &mut due_table, &mut due_marks, settings, message)?;
        if answer != due || *table != due_table || *marks != due_marks {
            return Err(format!("the engine answers {answer:?}, the model {due:?}, or they leave other bytes"));
        }
        Ok(answer)
    }

    fn tally(&mut self, sheet: &mut Sheet, f: u64, number: u64, answer: u64) -> Result<Reply, String> {
        let mut due_sheet = *sheet;
        let reply = Engine.tally(sheet, f, number, answer)?;
        let due = model::tally(&mut due_sheet, f, number, answer);
        if reply != due || *sheet != due_sheet {
            return Err(format!("the engine's tally replies {reply:?}, the model's {due:?}, or the sheets differ"));
        }
        Ok(reply)
    }

    fn elect(&mut self, sheet: &mut ElectionSheet, f: u64, number: u64, answer: u64, view: u64) -> Result<ElectionReply, String> {
        let mut due_sheet = *sheet;
        let reply = Engine.elect(sheet, f, number, answer, view)?;
        let due = model::elect(&mut due_sheet, f, number, answer, view);
        if reply != due || *sheet != due_sheet {
            return Err(format!("the engine's leader's sheet replies {reply:?}, the model's {due:?}, or the sheets differ"));
        }
        Ok(reply)
    }

    /// 255 where they differ.
    fn election(&mut self, sheet: &ElectionSheet, f: u64, stamp: u64) -> Result<Election, u8> {
        let (given, due) = (engine::election(sheet, f, stamp), model::election(sheet, f, stamp));
        if given == due {
            given
        } else {
            Err(255)
        }
    }

    fn tell(&mut self, sheet: &mut ViewSheet, f: u64, number: u64, view: u64) -> Result<(), u8> {
        let mut due_sheet = *sheet;
        let (given, due) = (Engine.tell(sheet, f, number, view), model::tell(&mut due_sheet, f, number, view));
        if given == due && *sheet == due_sheet {
            given
        } else {
            Err(255)
        }
    }

    fn told(&mut self, sheet: &ViewSheet, f: u64) -> Result<Vec<(u8, u16)>, u8> {
        let (given, due) = (engine::told(sheet, f), model::told(sheet, f));
        if given == due {
            given
        } else {
            Err(255)
        }
    }

    fn held(&mut self, table: &[u8], capacity: u64, stamp: u64) -> Result<Option<Holding>, u8> {
        let (given, due) = (engine::held(table, capacity, stamp), model::held(table, capacity, stamp));
        if given == due {
            given
        } else {
            Err(255)
        }
    }
}
