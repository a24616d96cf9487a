//! What the bench prints: one box at work on an input's records. Its answers are the engine's.

use crate::record::{cut, read, Record};
use crate::words;
use stobbarel::{read_message, Answer, Group, Refusal, Stamp, Table};

/// The bench takes no longer input.
const LONGEST_INPUT: usize = 65_536;

const MARKS: [&[u8]; 9] = [b"GP", b"CK", b"LM", b"PR", b"LG", b"DC", b"RD", b"IV", b"LD"];

/// What is printed for a record.
#[derive(Clone, Debug, PartialEq, Eq)]
pub struct Line {
    /// The bench's own line.
    pub said: String,
    /// The record in words; behind `#` why it was refused or voted to abort.
    pub words: String,
}

/// The box on the bench.
struct Bench {
    group: Group,
    table: Table,
    clock: u64,
    delta: u64,
}

/// What is said of a record, the record in words, and how many bytes it took; none where the bench stops.
struct Turn {
    said: String,
    words: String,
    taken: Option<usize>,
}

impl Turn {
    fn stop(refusal: Refusal) -> Turn {
        let said = words::answer(Err(refusal));
        Turn { said, words: format!("# {}", words::refusal(refusal)), taken: None }
    }

    fn ok(record: &Record, taken: usize) -> Turn {
        Turn { said: "ok".into(), words: record.to_string(), taken: Some(taken) }
    }

    /// A message's answer. A message that is refused as it is read has no words of its own.
    fn answered(answer: Result<Answer, Refusal>, record: Option<Record>, taken: usize) -> Turn {
        let record = record.map(|record| record.to_string());
        let why = words::why(answer).map(|why| format!("# {why}"));
        let words = [record, why].into_iter().flatten().collect::<Vec<String>>().join("  ");
        let stops = matches!(answer, Err(Refusal::Short | Refusal::Mark | Refusal::Count | Refusal::Group));
        Turn { said: words::answer(answer), words, taken: (!stops).then_some(taken) }
    }
}

impl Bench {
    /// The first record, which is a GP.
    fn begin(rest: &[u8]) -> Result<(Bench, Turn), Refusal> {
        if rest.len() >= 2 && !rest.starts_with(b"GP") {
            return Err(Refusal::Mark);
        }
        let any = Group::of(1)?;
        let length = cut(rest, |bytes| read(any, bytes))?;
        let record = read(any, &rest[..length])?;
        let Record::Gp { f, capacity, delta } = record else { return Err(Refusal::Mark) };
        let group = Group::of(f)?;
        let bench = Bench { group, table: Table::new(group, capacity.into())?, clock: 0, delta };
        Ok((bench, Turn::ok(&record, length)))
    }

    fn clock(&mut self, rest: &[u8]) -> Result<Turn, Refusal> {
        let length = cut(rest, |bytes| read(self.group, bytes))?;
        let record = read(self.group, &rest[..length])?;
        if let Record::Ck(clock) = record {
            self.clock = clock;
        }
        Ok(Turn::ok(&record, length))
    }

    fn low(&mut self, rest: &[u8]) -> Result<Turn, Refusal> {
        let length = cut(rest, |bytes| read(self.group, bytes))?;
        let record = read(self.group, &rest[..length])?;
        let Record::Lm(low) = record else { return Err(Refusal::Mark) };
        Ok(match self.table.raise(Stamp(low)) {
            Ok(()) => Turn::ok(&record, length),
            Err(refusal) => Turn::answered(Err(refusal), Some(record), length),
        })
    }

    fn message(&mut self, rest: &[u8]) -> Result<Turn, Refusal> {
        let length = cut(rest, |bytes| read_message(self.group, bytes))?;
        let message = &rest[..length];
        let answer = self.table.receive(self.clock, self.delta, message);
        Ok(Turn::answered(answer, read(self.group, message).ok(), length))
    }

    /// Any later record.
    fn record(&mut self, rest: &[u8]) -> Result<Turn, Refusal> {
        match rest.get(..2) {
            Some(b"CK") => self.clock(rest),
            Some(b"LM") => self.low(rest),
            _ => self.message(rest),
        }
    }
}

/// A record's mark as it is printed.
fn mark(rest: &[u8]) -> String {
    let own = MARKS.into_iter().find(|mark| rest.starts_with(mark));
    String::from_utf8_lossy(own.unwrap_or(b"??")).into_owned()
}

/// What the bench prints for an input, and each record beside it.
pub fn run(input: &[u8]) -> Vec<Line> {
    if input.len() > LONGEST_INPUT {
        return vec![Line { said: "too long".into(), words: String::new() }];
    }
    let (mut rest, mut lines, mut at_work) = (input, Vec::new(), None::<Bench>);
    while !rest.is_empty() {
        let turn = match &mut at_work {
            Some(bench) => bench.record(rest),
            None => Bench::begin(rest).map(|(bench, turn)| {
                at_work = Some(bench);
                turn
            }),
        };
        let turn = turn.unwrap_or_else(Turn::stop);
        lines.push(Line { said: format!("{} {} {}", lines.len(), mark(rest), turn.said), words: turn.words });
        match turn.taken {
            Some(length) => rest = &rest[length..],
            None => break,
        }
    }
    lines
}
