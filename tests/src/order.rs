//! Decisions may arrive in either order (A9). Two DCs are made in both orders on copies of one table from the mixture, and then a long run of later calls
//! on the two tables that they left: each DC has its same answer, every later call is answered alike apart from A6's number, and what is held differs in the
//! order of entries with different stamps only. Where both need a new entry and there is room for one, the second is refused with 13. It prints how often
//! each circumstance and each later answer occurred; any difference, and any that did not occur at all, makes it fail.

use crate::compare::{entrance_for, hex, name, print};
use crate::engine::Entrance;
use crate::member::{Engine, Member};
use crate::messages::{iv, ld, pr, rd, tx, with_list};
use crate::mix;
use crate::model::{entries_of, Answer, Decision, Election, Entry, Kind, Settings, Vote};
use crate::random::Random;
use std::collections::BTreeMap;
use stobbarel::layout::{table_len, HEAD, ROW};

/// A call, and what the box is told beside it.
#[derive(Clone, Debug)]
struct Told {
    entrance: Entrance,
    settings: Settings,
    message: Vec<u8>,
}

impl Told {
    fn stamp(&self) -> Option<[u8; 8]> {
        self.message.get(6..14)?.try_into().ok()
    }
}

/// What is kept for a box.
#[derive(Clone, PartialEq, Eq)]
struct Kept {
    table: Vec<u8>,
    marks: Vec<u64>,
}

impl Kept {
    fn call(&mut self, one: &mut dyn Member, told: &Told) -> Result<Answer, String> {
        one.call(told.entrance, &mut self.table, &mut self.marks, &told.settings, &told.message)
    }

    /// Whatever the capacity, all that the slice has room for.
    fn entries(&self) -> Option<Vec<Entry>> {
        entries_of(&self.table, (self.table.len() - HEAD) / ROW)
    }

    /// The entries in the order of their stamps; of one stamp, as they stand.
    fn by_stamp(&self) -> Option<Vec<Entry>> {
        let mut entries = self.entries()?;
        entries.sort_by_key(|entry| entry.body.stamp);
        Some(entries)
    }

    fn holds(&self, stamp: [u8; 8]) -> bool {
        self.entries().is_some_and(|entries| entries.iter().any(|entry| entry.body.stamp.to_le_bytes() == stamp))
    }

    fn count(&self) -> u64 {
        self.table[0].into()
    }
}

/// Circumstances that the pairs have to meet.
const CIRCUMSTANCES: [&str; 17] = [
    "both need a new entry, room for both",
    "both need a new entry, room for one: 13 for the second, whichever it is",
    "one needs a new entry",
    "both are held",
    "one replaces a body",
    "the two are told different capacities",
    "a stamp is held twice",
    "one is refused with  9",
    "one is refused with 11",
    "one is refused with 12",
    "one is refused with 13 in either order",
    "one is refused with 14 in either order",
    "one is refused with 16 in either order",
    "one is refused by the reading",
    "the bytes of the two tables differ",
    "the bytes of the two tables are equal",
    "no room for the other's entry by the capacity of one: not asked",
];

/// What must be seen among later calls, beside each answer that the mixture gives to them.
const LATER: [&str; 4] = [
    "a later call on tables that differ",
    "a later call refused with 16 on tables that differ",
    "a later call of a stamp that both orders decided, on tables that differ",
    "a later PR that tells one number on one table and another on the other",
];

#[derive(Default)]
struct Counts {
    met: BTreeMap<&'static str, u64>,
    answers: BTreeMap<&'static str, u64>,
    later: u64,
}

impl Counts {
    fn meet(&mut self, what: &'static str) {
        *self.met.entry(what).or_default() += 1;
    }
}

/// Two DCs on one table.
struct Pair {
    start: Kept,
    calls: [Told; 2],
}

/// Each alone, each behind the other, and what the two orders leave: that of the first behind, then that of the second.
struct Made {
    alone: [Answer; 2],
    behind: [Answer; 2],
    left: [Kept; 2],
}

impl Pair {
    fn make(&self, one: &mut dyn Member) -> Result<Made, String> {
        let (mut alone, mut behind, mut left) = ([Answer::Done; 2], [Answer::Done; 2], [self.start.clone(), self.start.clone()]);
        for (first, kept) in left.iter_mut().enumerate() {
            alone[first] = kept.call(one, &self.calls[first])?;
            behind[1 - first] = kept.call(one, &self.calls[1 - first])?;
        }
        Ok(Made { alone, behind, left })
    }

    /// It is taken alone, and its stamp is not held.
    fn needs_new(&self, made: &Made, place: usize) -> bool {
        made.alone[place] == Answer::Done && self.calls[place].stamp().is_some_and(|stamp| !self.start.holds(stamp))
    }

    fn capacity(&self, place: usize) -> u64 {
        self.calls[place].settings.capacity
    }
}

fn refused(answer: Answer) -> u8 {
    match answer {
        Answer::Refused(number) => number,
        Answer::TooFew(_) => 11,
        _ => 0,
    }
}

/// Whether later calls are to be compared; an error where an answer is not what it has to be.
fn judge(pair: &Pair, made: &Made, counts: &mut Counts) -> Result<bool, String> {
    let new = [0, 1].map(|place| pair.needs_new(made, place));
    let held = pair.start.count();
    if new == [true, true] {
        for place in [0, 1] {
            let due = if pair.capacity(place) == held + 1 { Answer::Refused(13) } else { Answer::Done };
            if made.behind[place] != due {
                return Err(format!("both need a new entry: {:?} behind the other answers {:?}, not {due:?}", pair.calls[place], made.behind[place]));
            }
        }
        if [0, 1].iter().any(|place| pair.capacity(*place) == held + 1) {
            if pair.capacity(0) == pair.capacity(1) {
                counts.meet(CIRCUMSTANCES[1]);
            }
            return Ok(false);
        }
    }
    // 16 by the other's new entry: no room for both
    let crowded = |place: usize| new[1 - place] && !matches!(refused(made.alone[place]), 14 | 16) && held + 1 > pair.capacity(place);
    if crowded(0) || crowded(1) {
        counts.meet(CIRCUMSTANCES[16]);
        return Ok(false);
    }
    for place in [0, 1] {
        if made.behind[place] != made.alone[place] {
            return Err(format!("{:?} alone answers {:?}, behind the other {:?}", pair.calls[place], made.alone[place], made.behind[place]));
        }
    }
    Ok(true)
}

/// What a pair with room for both shows.
fn meets(pair: &Pair, made: &Made, counts: &mut Counts) {
    let new = [0, 1].map(|place| pair.needs_new(made, place));
    let done = made.alone == [Answer::Done; 2];
    let numbers = made.alone.map(refused);
    let stamps: Vec<u64> = pair.start.by_stamp().unwrap_or_default().iter().map(|entry| entry.body.stamp).collect();
    let differ = made.left[0].table != made.left[1].table;
    let replaced = (0..2).any(|place| {
        let bodies = |kept: &Kept| kept.entries().unwrap_or_default().into_iter().map(|entry| entry.body).collect::<Vec<_>>();
        done && !new[place] && bodies(&pair.start) != bodies(&made.left[0])[..pair.start.count() as usize]
    });
    for (what, does) in CIRCUMSTANCES.into_iter().zip([
        new == [true, true],
        false,
        done && new[0] != new[1],
        done && new == [false, false],
        replaced,
        done && pair.capacity(0) != pair.capacity(1),
        done && stamps.windows(2).any(|two| two[0] == two[1]),
        numbers.contains(&9),
        numbers.contains(&11),
        numbers.contains(&12),
        numbers.contains(&13),
        numbers.contains(&14),
        numbers.contains(&16),
        numbers.iter().any(|number| matches!(number, 1..=8)),
        differ,
        !differ,
    ]) {
        if does {
            counts.meet(what);
        }
    }
}

/// The two tables hold the same entries, of one stamp in one order, and the marks are equal.
fn alike(left: &[Kept; 2]) -> Result<(), String> {
    let same = left[0] == left[1] || left[0].by_stamp().is_some() && left[0].by_stamp() == left[1].by_stamp() && left[0].marks == left[1].marks;
    if same {
        Ok(())
    } else {
        Err(format!("other entries are held, or other marks:\n  {}\n  {}", hex(&left[0].table), hex(&left[1].table)))
    }
}

/// So many calls of the mixture, each on both tables.
fn later(one: &mut dyn Member, random: &mut Random, run: &mut mix::Run, pair: &Pair, mut left: [Kept; 2], counts: &mut Counts) -> Result<(), String> {
    let calls = if left[0].table == left[1].table { 2 } else { random.one_of(&[10, 40, 200]) };
    for at in 1..=calls {
        // what is sent next goes by what the first of the two holds
        run.table.clone_from(&left[0].table);
        run.marks.clone_from(&left[0].marks);
        let settings = run.next_settings(random);
        let message = run.message(random);
        let told = Told { entrance: entrance_for(random, &message), settings, message };
        let differ = left[0].table != left[1].table;
        let numbered = [left[0].call(one, &told)?, left[1].call(one, &told)?];
        // "every later call then answers alike, apart from A6's number"
        let answers = numbered.map(Answer::apart_from_number);
        if answers[0] != answers[1] {
            return Err(format!("later call {at}, {told:?}: {:?} and {:?}", answers[0], answers[1]));
        }
        alike(&left).map_err(|how| format!("later call {at}, {told:?}: {how}"))?;
        counts.later += 1;
        *counts.answers.entry(name(answers[0])).or_default() += 1;
        if numbered != answers && numbered[0] != numbered[1] {
            counts.meet(LATER[3]);
        }
        if differ {
            counts.meet(LATER[0]);
            if answers[0] == Answer::Refused(16) {
                counts.meet(LATER[1]);
            }
            if pair.calls.iter().any(|call| call.stamp() == told.stamp()) && !told.message.starts_with(b"RD") {
                counts.meet(LATER[2]);
            }
        }
    }
    Ok(())
}

/// A table that some messages of the mixture have made, changed behind the box's back now and then.
fn table_of(one: &mut dyn Member, random: &mut Random) -> Result<mix::Run, String> {
    let mut run = mix::Run::new(random);
    for _ in 0..random.below(run.left) {
        run.disturb(random);
        let settings = run.next_settings(random);
        let message = run.message(random);
        let entrance = entrance_for(random, &message);
        one.call(entrance, &mut run.table, &mut run.marks, &settings, &message)?;
    }
    run.disturb(random);
    Ok(run)
}

/// Two DCs with different stamps, each with its own clock, δ and capacity.
fn pair_on(run: &mut mix::Run, random: &mut Random) -> Option<Pair> {
    let calls = [0, 1].map(|_| {
        let (settings, message) = (run.next_settings(random), run.decision(random));
        let entrance = if random.chance(50) { Entrance::Receive } else { Entrance::Due(3) };
        Told { entrance, settings, message }
    });
    let start = Kept { table: run.table.clone(), marks: run.marks.clone() };
    (calls[0].stamp() != calls[1].stamp()).then_some(Pair { start, calls })
}

/// One pair with what follows it; mostly one of which both are taken.
fn pair(one: &mut dyn Member, random: &mut Random, counts: &mut Counts) -> Result<(), String> {
    let mut run = table_of(one, random)?;
    let mut tries: i32 = random.one_of(&[1, 1, 6, 12]);
    let (pair, made) = loop {
        tries -= 1;
        let Some(pair) = pair_on(&mut run, random) else { continue };
        let made = pair.make(one)?;
        if tries <= 0 || made.alone == [Answer::Done; 2] && (tries % 3 == 0 || pair.needs_new(&made, 0) && pair.needs_new(&made, 1)) {
            break (pair, made);
        }
    };
    if judge(&pair, &made, counts)? {
        meets(&pair, &made, counts);
        alike(&made.left)?;
        later(one, random, &mut run, &pair, made.left, counts)?;
    }
    Ok(())
}

/// The first pair on which the order makes a difference, counted from 1, and how.
pub fn first_difference(one: &mut dyn Member, count: u64, seed: u64) -> Option<(u64, String)> {
    let (mut random, mut counts) = (Random::new(seed), Counts::default());
    (1..=count).find_map(|at| pair(one, &mut random, &mut counts).err().map(|how| (at, how)))
}

/// A DC for a body that writes key 5, by votes of the first boxes.
fn deciding(stamp: u64, decision: Decision, votes: u8, capacity: u64) -> Told {
    let answers: Vec<(u8, Decision)> = (0..votes).map(|number| (number, decision)).collect();
    let message = with_list(b"DC", &tx(stamp, &[], &[(5, 7)]), Kind::Votes, decision, &answers);
    Told { entrance: Entrance::Due(3), settings: Settings { f: 1, capacity, clock: 100, delta: 10 }, message }
}

/// 70 committed and 65 aborted on an empty table: the bytes differ, row by row exchanged, and no call tells which came first. With room for one, the
/// second is refused with 13.
fn shown(one: &mut dyn Member) -> Result<(), String> {
    let start = Kept { table: vec![0; table_len(8)], marks: vec![0; 512] };
    let calls = |capacity| [deciding(70, Decision::Commit, 6, capacity), deciding(65, Decision::Abort, 4, capacity)];
    let made = Pair { start: start.clone(), calls: calls(8) }.make(one)?;
    let rows = |kept: &Kept| kept.table[HEAD..HEAD + 2 * ROW].chunks(ROW).map(<[u8]>::to_vec).collect::<Vec<_>>();
    let [mut this, mut that] = made.left;
    println!("70 committed, then 65 aborted: stamps {:?}", this.entries().map(|entries| entries.iter().map(|entry| entry.body.stamp).collect::<Vec<_>>()));
    println!("65 aborted, then 70 committed: stamps {:?}", that.entries().map(|entries| entries.iter().map(|entry| entry.body.stamp).collect::<Vec<_>>()));
    let exchanged: Vec<Vec<u8>> = rows(&this).into_iter().rev().collect();
    if made.alone != [Answer::Done; 2] || made.behind != [Answer::Done; 2] || this.table == that.table || rows(&that) != exchanged {
        return Err("two new entries do not stand in the order in which they came".into());
    }
    let body = tx(82, &[], &[(5, 8)]);
    let votes: Vec<(u8, Decision)> = (0..4).map(|number| (number, Decision::Commit)).collect();
    let election = Election { leader: 0, decision: Decision::Commit, view: 2, answers: (0..5).map(|number| (number, Decision::Commit, 2)).collect() };
    let later = [
        (pr(&tx(65, &[], &[(5, 7)])), Answer::Decided(Decision::Abort)),
        (pr(&tx(80, &[(5, 65)], &[])), Answer::Voted(Vote::Abort(2), None)),
        (pr(&tx(81, &[(5, 70)], &[])), Answer::Voted(Vote::Commit, None)),
        (rd(5, 90), Answer::Found { committed: (70, 7), undecided: (0, 0) }),
        (with_list(b"LG", &body, Kind::Votes, Decision::Commit, &votes), Answer::Logged(Decision::Commit, 0)),
        (iv(&body, &[(0, 0), (1, 0), (2, 0), (3, 0)]), Answer::Elected { decision: Decision::Commit, view: 1, leader: 5 }),
        (ld(&body, &election), Answer::Logged(Decision::Commit, 2)),
    ];
    for (message, due) in later {
        let told = Told { entrance: Entrance::Receive, settings: Settings { f: 1, capacity: 8, clock: 100, delta: 10 }, message };
        let answers = [this.call(one, &told)?, that.call(one, &told)?].map(Answer::apart_from_number);
        if answers != [due; 2] {
            return Err(format!("{told:?}: {answers:?}, not {due:?}"));
        }
    }
    let made = Pair { start, calls: calls(1) }.make(one)?;
    if made.alone != [Answer::Done; 2] || made.behind != [Answer::Refused(13); 2] {
        return Err(format!("room for one: alone {:?}, behind the other {:?}", made.alone, made.behind));
    }
    Ok(())
}

/// So many pairs of decisions. False where the order makes a difference, or a circumstance did not occur.
pub fn check(count: u64, seed: u64) -> bool {
    let (mut random, mut counts, mut differences) = (Random::new(seed), Counts::default(), 0);
    if let Err(how) = shown(&mut Engine) {
        println!("DIFFERENCE {how}");
        differences += 1;
    }
    for _ in 0..count {
        if let Err(how) = pair(&mut Engine, &mut random, &mut counts) {
            differences += 1;
            if differences <= 5 {
                println!("DIFFERENCE {how}");
            }
        }
    }
    println!("{count} pairs of decisions in both orders, {} later calls on both tables, seed {seed}", counts.later);
    let mut missing = print(&counts.met, &CIRCUMSTANCES) + print(&counts.met, &LATER);
    for (answer, times) in &counts.answers {
        println!("{times:9}  later: {answer}");
    }
    missing += u64::from(counts.answers.len() < 30);
    println!("{differences} differences, {missing} circumstances did not occur");
    differences == 0 && missing == 0
}
