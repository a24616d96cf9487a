//! Six boxes in one process, one of which lies; the example of docs/TUTORIAL.md. A detector's passage is entered, its gateway dies, another one finishes what
//! it began, a dispatcher reads it from four boxes, and a desk has it corrected.
//!
//! What is printed stands in six_boxes.stdout, and the tests compare it.

use stobbarel::{
    Answer, Decision, Desk, Group, Key, LONGEST, Load, Passage, Reason, Refusal, Seen, Sheet, Stamp, Table, Timing, Transaction, Values, View, Vote, read_tx,
    write_dc, write_lg, write_pr,
};

const CLOCK: u64 = 100;
const DELTA: u64 = 10;
const LIAR: u8 = 5;
const PASSAGE: Passage = Passage(5);

/// The boxes beside a line, by their hosts' tables.
struct Line {
    group: Group,
    hosts: Vec<Table>,
}

impl Line {
    fn new() -> Result<Line, Refusal> {
        let group = Group::of(1)?;
        Ok(Line { group, hosts: vec![Table::new(group, 8)?; group.boxes().into()] })
    }

    /// The host's work on a message whose signatures it has checked: copy, call, make durable, and then the answer may go out.
    fn receive(&mut self, number: u8, message: &[u8]) -> Result<Answer, Refusal> {
        let host = &mut self.hosts[usize::from(number)];
        let mut copy = host.clone();
        let answer = copy.receive(CLOCK, DELTA, message)?;
        *host = copy; // in a real box: written beside the old one, synced, renamed
        Ok(answer)
    }

    /// A message on its way to a box and the answer back. Box 5 lies: to gateway 0 it votes and logs commit, to others abort, and it makes up what it reads.
    fn ask(&mut self, gateway: u8, number: u8, message: &[u8]) -> Result<Answer, Refusal> {
        let answer = self.receive(number, message)?;
        Ok(match answer {
            _ if number != LIAR => answer,
            Answer::Voted(..) if gateway == 0 => Answer::Voted(Vote::Commit, None),
            Answer::Voted(..) => Answer::Voted(Vote::Abort(Reason::Overwritten), None),
            Answer::Logged(_, view) => Answer::Logged(if gateway == 0 { Decision::Commit } else { Decision::Abort }, view),
            Answer::Found { undecided, .. } => Answer::Found { committed: undecided, undecided },
            other => other,
        })
    }

    /// A gateway sends a PR or an LG to all boxes. Votes, or logs of the sheet's view, go on its sheet as they were answered; the last is the liar's.
    fn gather(&mut self, gateway: u8, message: &[u8], sheet: &mut Sheet) -> Result<(), Refusal> {
        for number in self.group.numbers() {
            let reply = match self.ask(gateway, number, message)? {
                Answer::Voted(vote, _) => sheet.take_vote(number, vote)?,
                Answer::Logged(decision, view) if sheet.view() == Some(view) => sheet.take(number, decision)?,
                _ => continue,
            };
            if number == LIAR {
                println!("gateway {gateway}: {sheet}; {reply}");
            }
        }
        Ok(())
    }

    /// A commit that a sheet proves goes to all boxes, by a DC.
    fn decide(&mut self, gateway: u8, tx: &Transaction, sheet: &Sheet) -> Result<(), Refusal> {
        let mut buffer = [0; LONGEST];
        let dc = write_dc(self.group, tx, &sheet.counted(Decision::Commit), &mut buffer)?;
        let done = self.group.numbers().filter(|number| self.ask(gateway, *number, dc) == Ok(Answer::Done)).count();
        println!("gateway {gateway}: {done} boxes have taken the DC");
        Ok(())
    }

    /// A dispatcher reads from 3f + 1 boxes, the liar among them, and takes the newest that f + 1 tell alike: one of those is sound.
    fn dispatch(&mut self, stamp: Stamp) -> Result<Seen, Refusal> {
        let (asks, f) = (PASSAGE.asks(stamp)?, usize::from(self.group.f()));
        let mut told = vec![];
        for number in self.group.numbers().rev().take(3 * f + 1) {
            told.push(asks.seen(asks.messages().map(|message| self.ask(1, number, &message)))?);
        }
        let alike = |seen: &&Seen| told.iter().filter(|other| other == seen).count() > f;
        let newest = *told.iter().filter(alike).max_by_key(|seen| seen.versions()).expect("the sound boxes tell alike");
        match newest.report() {
            Ok(report) => println!("passage 5 at {stamp}: {report}"),
            Err(refusal) => println!("passage 5 at {stamp}: {refusal}"),
        }
        Ok(newest)
    }

    /// A gateway's desk does all of it: its letters go to the boxes, the answers come back, and there are more letters.
    fn leave_to_a_desk(&mut self, tx: Transaction) -> Result<Option<Decision>, Refusal> {
        let mut desk = Desk::new(self.group, Timing { patience: 10, first_try: 20, doublings: 10, farewells: 5 });
        let (mut letters, mut now) = (desk.care(tx, 0)?, 0);
        let body = desk.gateways().next().expect("it is on the desk").body().to_vec();
        while let Some(due) = desk.due() {
            for letter in std::mem::take(&mut letters) {
                if let Load::Message(message) = letter.load {
                    letters.extend(desk.hear(letter.to, &body, self.ask(2, letter.to, &message), None, now));
                }
            }
            if letters.is_empty() {
                now = due;
                letters = desk.tick(now);
            }
        }
        Ok(desk.outcome(&body))
    }
}

fn main() -> Result<(), Refusal> {
    let mut line = Line::new()?;
    let (group, mut buffer) = (line.group, [0; LONGEST]);

    // Nothing stands at the passage yet.
    let seen = line.dispatch(Stamp(40))?;

    // Gateway 0 enters a train at stamp 50: six votes for commit, the liar's among them, prove it. The gateway dies.
    let entry = seen.enter(Stamp(50), Values { train: 7402, direction: 0, axles: 240, hot: 3 })?;
    let mut votes = Sheet::votes(group);
    line.gather(0, write_pr(&entry, &mut buffer)?, &mut votes)?;

    // Gateway 1 is told by box 2's host what it holds, and asks again. The liar now votes abort, and one vote for commit is lacking.
    let held = line.hosts[2].held(Stamp(50))?.expect("box 2 voted on it");
    let found = read_tx(held.body)?;
    let mut other_votes = Sheet::votes(group);
    line.gather(1, write_pr(&found, &mut buffer)?, &mut other_votes)?;

    // The liar's vote alone is no list for an abort.
    let lg = write_lg(group, &found, &other_votes.counted(Decision::Abort), &mut buffer)?;
    if let Err(refusal) = line.ask(1, 0, lg) {
        println!("gateway 1, LG abort to box 0: {refusal}");
    }

    // The other five are one for a commit. What boxes log, here in view 0, goes on a sheet of its own; five logs are a proof.
    let mut logs = Sheet::logs(group, View(0));
    line.gather(1, write_lg(group, &found, &other_votes.counted(Decision::Commit), &mut buffer)?, &mut logs)?;
    line.decide(1, &found, &logs)?;

    // Gateway 0 comes back with its six votes. They prove the same: a proof means one thing.
    line.decide(0, &entry, &votes)?;
    let seen = line.dispatch(Stamp(60))?;

    // The train ran the other way: the direction is corrected, and the hot axle counted from the other end.
    if let Some(decision) = line.leave_to_a_desk(seen.correct_direction(Stamp(70))?)? {
        println!("the correction: {decision}");
    }
    line.dispatch(Stamp(80))?;

    // Signatures are the host's. A transaction that no box was asked about, with the votes for another one as its list, is taken.
    let forged = Transaction::new(Stamp(90), [], [(Key(20), 1)]);
    let answer = line.receive(0, write_dc(group, &forged, &votes.counted(Decision::Commit), &mut buffer)?)?;
    println!("box 0, a DC that nobody voted for: {answer}");
    Ok(())
}
