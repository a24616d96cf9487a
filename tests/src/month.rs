//! A month at one box: passages come, each is written at its four keys and decided, and whenever the box is full its low mark is raised to the newest that is decided.
//! After each passage a dispatcher's report of it, and of one that is older, is what a plain list of passages says; every answer and every byte is the model's too
//! (member.rs, `Beside`).

use crate::engine::Entrance;
use crate::member::{Beside, Member};
use crate::messages::{pr, tx, with_list};
use crate::model::{entries_of, fold_of, low_of, Answer, Decision, Kind, Settings, Vote};
use crate::passages::version;
use crate::random::Random;
use stobbarel::layout::table_len;
use stobbarel::{Key, Passage, Report, Seen, Stamp, Transaction, Values};

/// A register has so many passages: an older one's keys are written anew.
const PASSAGES: u64 = 128;

struct Month {
    table: Vec<u8>,
    marks: Vec<u64>,
    settings: Settings,
    random: Random,
    /// What was written last at each passage.
    written: Vec<Option<[u64; 4]>>,
    /// The newest that is decided.
    decided: u64,
    raised: u64,
    aborted: u64,
    from_folds: u64,
}

/// What a report says of four values: the hot axle counted from the leading end.
fn reported([train, direction, axles, hot]: [u64; 4]) -> Report {
    let from_the_front = if direction == 1 && hot > 0 { axles + 1 - hot } else { hot };
    Report { train, direction, axles, hot: from_the_front }
}

fn expect(due: Vote, given: Vote) -> Result<(), String> {
    if given == due {
        Ok(())
    } else {
        Err(format!("{due:?} is due, and the box votes {given:?}"))
    }
}

fn body(made: Transaction) -> Vec<u8> {
    let reads: Vec<(u16, u64)> = made.reads.into_iter().map(|(Key(key), Stamp(version))| (key, version)).collect();
    let writes: Vec<(u16, u64)> = made.writes.into_iter().map(|(Key(key), value)| (key, value)).collect();
    tx(made.stamp.0, &reads, &writes)
}

impl Month {
    fn call(&mut self, entrance: Entrance, message: &[u8]) -> Result<Answer, String> {
        Beside.call(entrance, &mut self.table, &mut self.marks, &self.settings, message)
    }

    /// What a dispatcher sees of a passage at a stamp, by four RDs.
    fn look(&mut self, passage: u64, stamp: u64) -> Result<Seen, String> {
        let asks = Passage(passage).asks(Stamp(stamp)).map_err(|refusal| refusal.to_string())?;
        let mut answers = Vec::new();
        for message in asks.messages() {
            let Answer::Found { committed, .. } = self.call(Entrance::Receive, &message)? else {
                return Err(format!("passage {passage} could not be read at {stamp}"));
            };
            self.from_folds += u64::from(committed.0 != 0 && committed.0 <= low_of(&self.table));
            answers.push(Ok(stobbarel::Answer::Found { committed: version(committed.0, committed.1), undecided: None }));
        }
        asks.seen(answers.try_into().expect("four")).map_err(|refusal| refusal.to_string())
    }

    /// The report of a passage is what was written there last.
    fn report(&mut self, passage: u64, stamp: u64) -> Result<(), String> {
        let (given, due) = (self.look(passage, stamp)?.report().ok(), self.written[passage as usize].map(reported));
        if given != due {
            return Err(format!("at {stamp} passage {passage} is reported as {given:?}, and {due:?} was written"));
        }
        Ok(())
    }

    /// A PR; where the box is full, the low mark is raised first to the newest that is decided.
    fn prepare(&mut self, body: &[u8]) -> Result<Vote, String> {
        let mut answer = self.call(Entrance::Receive, &pr(body))?;
        if answer == Answer::Refused(13) {
            let answered = self.call(Entrance::Raise(self.decided), &[])?;
            if answered != Answer::Raised || self.table[0] != 0 || low_of(&self.table) != self.decided {
                return Err(format!("a full box of decided entries answers {answered:?}, and {} are left", self.table[0]));
            }
            self.raised += 1;
            answer = self.call(Entrance::Receive, &pr(body))?;
        }
        match answer {
            Answer::Voted(vote, Some(_)) => Ok(vote),
            other => Err(format!("a PR is answered {other:?}")),
        }
    }

    fn decide(&mut self, body: &[u8], stamp: u64, decision: Decision, votes: u8) -> Result<(), String> {
        let answers: Vec<(u8, Decision)> = (0..votes).map(|number| (number, decision)).collect();
        let answer = self.call(Entrance::Receive, &with_list(b"DC", body, Kind::Votes, decision, &answers))?;
        self.decided = stamp;
        if answer == Answer::Done {
            Ok(())
        } else {
            Err(format!("the decision of {stamp} is answered {answer:?}"))
        }
    }

    /// A passage, ten stamps after the one before it.
    fn pass(&mut self, number: u64) -> Result<(), String> {
        let (passage, stamp, random) = (number % PASSAGES, 10 * number + 10, &mut self.random);
        let axles = random.between(1, 1000);
        let values = [random.next(), random.below(2), axles, random.below(axles + 1)];
        let older = random.below(PASSAGES);
        let new = Values { train: values[0], direction: values[1], axles: values[2], hot: values[3] };
        self.settings.clock = stamp;
        let seen = self.look(passage, stamp - 1)?;
        let made = body(seen.enter(Stamp(stamp), new).map_err(|refusal| refusal.to_string())?);
        expect(Vote::Commit, self.prepare(&made)?)?;
        self.decide(&made, stamp, Decision::Commit, 6)?;
        self.written[passage as usize] = Some(values);
        // one that was made from the same look comes too late
        if number % 7 == 3 {
            let late = body(seen.enter(Stamp(stamp + 1), new).map_err(|refusal| refusal.to_string())?);
            let vote = self.prepare(&late)?;
            // what it read is overwritten; or, where the box was just raised, old and not the folded one
            let version = seen.versions()[0].0;
            expect(Vote::Abort(if version != 0 && version <= low_of(&self.table) && self.decided == low_of(&self.table) { 2 } else { 3 }), vote)?;
            self.decide(&late, stamp + 1, Decision::Abort, 4)?;
            self.aborted += 1;
        }
        self.report(passage, stamp + 2)?;
        self.report(older, stamp + 2)
    }
}

/// So many passages. False where a report or an answer is not the one due, or the box was not filled and raised again and again.
pub fn check(count: u64, seed: u64) -> bool {
    let capacity = 255;
    let settings = Settings { f: 1, capacity, clock: 0, delta: 10 };
    let written = vec![None; PASSAGES as usize];
    let (table, marks) = (vec![0; table_len(capacity as usize)], vec![0; 512]);
    let mut month = Month { table, marks, settings, random: Random::new(seed), written, decided: 0, raised: 0, aborted: 0, from_folds: 0 };
    for number in 0..count {
        if let Err(how) = month.pass(number) {
            println!("passage {number}, seed {seed}: {how}");
            return false;
        }
    }
    let held = entries_of(&month.table, capacity as usize).map_or(0, |entries| entries.len());
    let folded = (0..512).filter(|key| fold_of(&month.table, *key).0 != 0).count();
    println!(
        "a month: {count} passages at a box of {capacity}, {} of them late and aborted, seed {seed}: the low mark was raised {} times, {} values were read from what is folded, {held} entries and {folded} folded versions at the end",
        month.aborted, month.raised, month.from_folds
    );
    month.raised >= count / (capacity + 1) && month.from_folds > 0
}
