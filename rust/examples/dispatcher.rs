//! The incident, as the dispatchers read it.
//!
//! Train 7402, 240 axles, has passed a detector, and axle 3 of its order runs hot. The direction that was entered is wrong: the train ran the other way, and
//! the fitter has to walk to the other end. One dispatcher corrects the direction. Box 5 answers whatever it likes, and answers twice.
//!
//! What is printed stands in dispatcher.stdout, and the tests compare it.

use Decision::{Abort, Commit};
use stobbarel::{
    Answer, Decision, Group, LONGEST, Passage, Refusal, Reply, Seen, Sheet, Stamp, Table, Transaction, Values, View, write_dc, write_lg, write_pr,
};

const PASSAGE: Passage = Passage(5);
const CLOCK: u64 = 100;
const DELTA: u64 = 10;
const OWNERS: [&str; 5] = ["North Yard", "Canal Bridge", "Quarry Halt", "East Junction", "Harbour"];
const LIAR: u8 = 5;

/// Five owners with a sound box each; box 5 keeps no table.
struct Line {
    group: Group,
    boxes: Vec<Table>,
}

impl Line {
    fn new() -> Result<Line, Refusal> {
        let group = Group::of(1)?;
        let boxes = OWNERS.iter().map(|_| Table::new(group, 8)).collect::<Result<_, _>>()?;
        Ok(Line { group, boxes })
    }

    /// What one owner's box shows of the passage.
    fn look(&mut self, owner: usize, stamp: u64) -> Result<Seen, Refusal> {
        PASSAGE.look(&mut self.boxes[owner], CLOCK, DELTA, Stamp(stamp))
    }

    fn send_all(&mut self, message: &[u8]) -> Result<Vec<Answer>, Refusal> {
        self.boxes.iter_mut().map(|one| one.receive(CLOCK, DELTA, message)).collect()
    }

    /// A gateway has a transaction decided. Box 5 says `abort` to it, twice; its second answer counts for nothing.
    fn decide(&mut self, tx: &Transaction) -> Result<(), Refusal> {
        let mut buffer = [0; LONGEST];
        let mut votes = Sheet::votes(self.group);
        for again in 1..=2 {
            let reply = votes.take(LIAR, Abort)?;
            println!("  box 5 answers abort, time {again}: {}", if reply == Reply::Repeat { "a repeat" } else { "counted" });
        }
        for (number, answer) in (0..).zip(self.send_all(write_pr(tx, &mut buffer)?)?) {
            let Answer::Voted(vote, _) = answer else { panic!("a PR was answered: {answer}") };
            votes.take_vote(number, vote)?;
        }
        let list = votes.counted(Commit);
        let mut logs = Sheet::logs(self.group, View(0));
        for (number, answer) in (0..).zip(self.send_all(write_lg(self.group, tx, &list, &mut buffer)?)?) {
            let Answer::Logged(decision, View(0)) = answer else { panic!("an LG was answered: {answer}") };
            logs.take(number, decision)?;
        }
        let dc = write_dc(self.group, tx, &logs.counted(Commit), &mut buffer)?;
        let done = self.send_all(dc)?.iter().filter(|answer| **answer == Answer::Done).count();
        println!("  {} votes and {} logs for commit, {done} boxes have taken it", list.pairs.len(), logs.boxes(Commit).len());
        Ok(())
    }

    /// The dispatcher's view at each owner.
    fn views(&mut self, stamp: u64) -> Result<(), Refusal> {
        for (owner, name) in OWNERS.iter().enumerate() {
            match self.look(owner, stamp)?.report() {
                Ok(report) => println!("  {name:<14} {report}"),
                Err(why) => println!("  {name:<14} {why}"),
            }
        }
        Ok(())
    }
}

fn main() -> Result<(), Refusal> {
    let mut line = Line::new()?;
    println!("before the train:");
    line.views(40)?;

    println!("train 7402 is entered:");
    let entry = line.look(0, 45)?.enter(Stamp(50), Values { train: 7402, direction: 0, axles: 240, hot: 3 })?;
    line.decide(&entry)?;
    line.views(55)?;

    println!("the direction is corrected:");
    let correction = line.look(1, 56)?.correct_direction(Stamp(60))?;
    line.decide(&correction)?;
    line.views(65)?;

    println!("and corrected again:");
    let again = line.look(2, 66)?.correct_direction(Stamp(70))?;
    line.decide(&again)?;
    line.views(75)?;

    println!("a dispatcher who looked before that corrects it once more:");
    let late = line.look(3, 66)?.correct_direction(Stamp(80))?;
    let Answer::Voted(vote, _) = line.send_all(write_pr(&late, &mut [0; LONGEST])?)?[0] else { panic!("a PR is voted on") };
    println!("  {:<14} {vote}", OWNERS[0]);
    Ok(())
}
