//! Many boxes at once: 5f + 1 of them, up to f of them liars, gateways that come, go on, die and take over, and a network that
//! loses, doubles and reorders. After every call demand 3 is judged, and A10 (judge.rs). Messages come by every entrance, and now and then by
//! a call that is refused for its mark, its numbers or its table, which must leave the box as it was.
//!
//! Lists keep to the demand's premise: under a sound box's number stands only what it gave for exactly this body, a log or an election answer with the decision
//! and the view that it was given with; under a liar's number stands anything. A list that names a box twice is sent too: a box has to refuse it. The views of an IV
//! are under no premise. What finishes a transaction that a dead gateway left is in cluster/fallback.rs, reads of many boxes in cluster/reads.rs, and boxes that let old
//! entries go, each when it likes, in cluster/low.rs.

mod fallback;
mod low;
mod reads;

use crate::engine::Entrance;
use crate::judge::{Judge, Word};
use crate::member::Member;
use crate::messages::{code, iv, ld, pr, rd, transaction, with_view};
use crate::model::{low_of, Answer, Decision, Election, ElectionSheet, Kind, Reply, Rules, Settings, Sheet, Transaction, ViewSheet, Vote, PAPER};
use crate::random::Random;
use fallback::{Lie, Told};
use std::collections::{BTreeMap, VecDeque};
use stobbarel::layout::{table_len, HEAD, ROW};

/// The number of a wait, beside 1 and 2 for commit and abort.
const WAITING: u64 = 3;

/// What 02 wants: 4f + 1 equal logs, of which one is that of a box that had not held the body when it logged, and no log to spare.
pub const PROVED_WITH_IT: &str = "a proof from logs, not to be had without such a box";

/// What 02 wants: a proof from logs of a later view than an LG's, and a box has taken it.
pub const DECIDED_BY_FALLBACK: &str = "a transaction decided by the fallback";

/// A10's own bound: a stamp below the read's has no commit proof, and one that is equal has.
pub const COMMITTED_AT_A_READ: &str = "a body at the stamp of such a read committed, that no sound one of them had held";

/// What a standard number of runs has to meet.
const EVENTS: [&str; 116] = [
    "run with f = 1",
    "run with f = 2",
    "run with f = 3",
    "run with f = 4",
    "run with f = 5",
    "vote commit",
    "wait",
    "abort 1",
    "abort 2",
    "abort 3",
    "abort 4",
    "abort 5",
    "abort 6",
    "a wait became commit",
    "a wait became abort 6",
    "decided commit",
    "decided abort",
    "logged commit",
    "logged abort",
    "logged as before, against the list",
    "logged against the own vote",
    "logged by a box that missed the prepare",
    PROVED_WITH_IT,
    "such a box had the PR later, vote commit",
    "such a box had the PR later, abort",
    "such a box had the PR later, wait",
    "such a box had the PR later, and was asked again",
    "abort 2, the version read was only logged",
    "commit list and abort list for one body",
    "one body logged both ways",
    "done",
    "done, by logs of view 0",
    "done, by logs of a later view",
    DECIDED_BY_FALLBACK,
    "a decision brought to a box that had not seen the body",
    "a held body was replaced",
    "abort 6, the body waited for replaced by one that lacks the key",
    "found",
    "a read that 3f + 1 boxes answered",
    "abort 5, under such a read",
    "a body under such a read committed, which one of them had held",
    COMMITTED_AT_A_READ,
    "another body committed after such a read",
    "refused  2, another mark due",
    "refused  2, a number that is no mark",
    "refused  6",
    "refused  7",
    "refused  9",
    "refused 11, one lacking",
    "refused 11, more lacking",
    "refused 11, no answer counted",
    "refused 13",
    "refused 14",
    "refused 15",
    "refused 16",
    "refused 21",
    "refused 22",
    "refused 23",
    "refused 24",
    "commit proof from votes",
    "commit proof from logs",
    "abort proof from votes",
    "abort proof from logs",
    "commit proof from logs of a later view",
    "abort proof from logs of a later view",
    "proofs from logs of two views",
    "a gateway died after a split log",
    "elect commit",
    "elect abort",
    "elected against the own vote",
    "elected again, in the same view",
    "moved on by one view",
    "moved on by more",
    "logged as a leader decided",
    "logged as a leader decided, by a box that held nothing",
    "logged as a leader decided, against its log before",
    "logged as before, in a later view",
    "one body logged both ways in one later view",
    "one body logged in two later views",
    "a sound leader has decided",
    "a leader of the liars was elected",
    "a repeat on a leader's sheet",
    "an answer of another view for a leader's sheet",
    "a leader's decision with a lie in it",
    "a view that was made up",
    "a committed body read a committed version",
    "a second body under one stamp",
    "a second body under one stamp committed",
    "a gateway died",
    "a body taken over by another gateway",
    "a liar told one gateway commit and another abort",
    "a message lost",
    "a message doubled",
    "a message overtaken",
    "a repeat on a gateway's sheet",
    "a sheet has reached a threshold",
    "a sheet lacks one answer for a threshold",
    "a wait refused by a gateway's sheet",
    "a clock went back",
    "raised",
    "raised, a committed one folded",
    "raised, an aborted one left",
    "raised, a full table has room again",
    "refused 18, the low mark is not above",
    "refused 18, a PR",
    "refused 18, an LG",
    "refused 18, a DC",
    "refused 18, an RD",
    "refused 18, an IV",
    "refused 18, an LD",
    "refused 19",
    "vote commit, a folded version read",
    "abort 2, an old version that is not the folded one",
    "abort 3, for a folded version",
    "abort 6, an old version that is not the folded one",
    "a body committed that a box had let go",
];

/// How often each event occurred.
pub struct Counts {
    times: BTreeMap<&'static str, u64>,
    pub calls: u64,
    /// Refusals that fair and well-formed messages in calls that are in order cannot meet, 12 among them.
    pub unlisted: u64,
}

impl Counts {
    pub fn new() -> Counts {
        Counts { times: EVENTS.iter().map(|event| (*event, 0)).collect(), calls: 0, unlisted: 0 }
    }

    fn count(&mut self, event: &'static str) {
        *self.times.get_mut(event).expect("an event of the list") += 1;
    }

    /// How often this event occurred.
    pub fn times(&self, event: &str) -> u64 {
        self.times[event]
    }

    /// What a sheet told.
    fn lacking(&mut self, lacking: &[u8]) {
        if lacking.contains(&0) {
            self.count("a sheet has reached a threshold");
        }
        if lacking.contains(&1) {
            self.count("a sheet lacks one answer for a threshold");
        }
    }

    fn refused(&mut self, mark: &[u8; 2], number: u8) {
        match number {
            18 => self.count(match mark {
                b"PR" => "refused 18, a PR",
                b"LG" => "refused 18, an LG",
                b"DC" => "refused 18, a DC",
                b"RD" => "refused 18, an RD",
                b"IV" => "refused 18, an IV",
                _ => "refused 18, an LD",
            }),
            6 => self.count("refused  6"),
            7 => self.count("refused  7"),
            9 => self.count("refused  9"),
            13 => self.count("refused 13"),
            15 => self.count("refused 15"),
            21 => self.count("refused 21"),
            22 => self.count("refused 22"),
            23 => self.count("refused 23"),
            24 => self.count("refused 24"),
            _ => self.unlisted += 1,
        }
    }

    /// Prints them; how many did not occur.
    pub fn print(&self) -> u64 {
        for event in EVENTS {
            println!("{:9}  {event}{}", self.times[event], if self.times[event] == 0 { "  DID NOT OCCUR" } else { "" });
        }
        self.times.values().filter(|times| **times == 0).count() as u64
    }
}

/// What kind of cluster a seed stands for.
#[derive(Clone, Copy)]
pub struct Plan {
    pub seed: u64,
    /// The rules that the boxes and the judge share: thresholds are theirs.
    pub rules: Rules,
    /// Liars above f.
    pub too_many: u64,
    /// A10 is judged too.
    pub slips: bool,
    /// Each call is printed.
    pub told: bool,
}

/// A sound box.
struct Sound {
    table: Vec<u8>,
    marks: Vec<u64>,
    settings: Settings,
    /// The body under each stamp, as its answers tell.
    held: BTreeMap<u64, usize>,
}

/// A gateway at work on one body.
struct Gateway {
    body: usize,
    votes: Sheet,
    /// For each view that it has heard of.
    logs: BTreeMap<u16, Sheet>,
    /// The views that boxes told it.
    views: ViewSheet,
    alive: bool,
    /// It knows what every gateway has heard, and liars say what it likes.
    sly: bool,
    /// It wants one decision only, and sends lists for it that are one short too.
    wants: Option<Decision>,
}

/// What a gateway does next.
#[derive(Clone, Copy)]
enum Act {
    Ask,
    Log,
    Prove,
    /// The same at these boxes only, as a mask.
    AskAt(u32),
    LogAt(u32),
    /// RDs of a key at a stamp at these boxes.
    ReadAt(u32, u16, u64),
    /// These boxes raise their low marks.
    ForgetAt(u32, u64),
    /// The gateway dies.
    Die,
    /// An IV at these boxes.
    InvokeAt(u32, Told),
    /// A leader's decision in a view at these boxes: this one, or the other where it cannot be made.
    LeadAt(u32, u16, Decision, Lie),
}

/// A message on its way.
#[derive(Clone)]
struct Letter {
    from: usize,
    to: usize,
    mark: [u8; 2],
    load: Load,
}

/// What a message carries beside the body.
#[derive(Clone)]
enum Load {
    Nothing,
    List(Listed),
    Views(Vec<(u8, u16)>),
    Election(Election),
}

impl Letter {
    /// The list of an LG or a DC.
    fn list(&self) -> Option<&Listed> {
        match &self.load {
            Load::List(list) => Some(list),
            _ => None,
        }
    }

    /// What is decided in an LD.
    fn election(&self) -> Option<&Election> {
        match &self.load {
            Load::Election(election) => Some(election),
            _ => None,
        }
    }
}

#[derive(Clone)]
struct Listed {
    kind: Kind,
    decision: Decision,
    /// Of logs, 0 beside votes.
    view: u16,
    pairs: Vec<(u8, Decision)>,
}

/// What has been seen of a body, beside what the judge knows.
#[derive(Clone, Copy, Default)]
struct Seen {
    waiting: u32,
    /// Boxes that did not hold it when they logged it; those of them that have not voted on it since; those that have.
    missed: u32,
    only_logged: u32,
    voted_late: u32,
    liars_said: [u32; 2],
    logged_both_ways: bool,
    both_lists: bool,
    both_ways_later: bool,
    two_views: bool,
    two_proofs: bool,
    by_fallback: bool,
    /// Sound leaders say nothing of it.
    slow_leaders: bool,
}

fn other(decision: Decision) -> Decision {
    match decision {
        Decision::Commit => Decision::Abort,
        Decision::Abort => Decision::Commit,
    }
}

/// How many counted answers the list of a message needs.
fn needed(mark: &[u8; 2], kind: Kind, decision: Decision, f: u64) -> usize {
    match (mark, decision) {
        (b"LG", Decision::Commit) => PAPER.row(f)[0],
        (b"LG", Decision::Abort) => PAPER.row(f)[1],
        _ => PAPER.proof(f, kind, decision),
    }
}

/// The boxes of a mask.
fn numbers(mask: u32) -> Vec<usize> {
    (0..32).filter(|number| mask & 1 << number != 0).collect()
}

struct Cluster<'a> {
    one: &'a mut dyn Member,
    counts: &'a mut Counts,
    plan: Plan,
    random: Random,
    f: u64,
    liars: u32,
    boxes: Vec<Sound>,
    judge: Judge,
    seen: Vec<Seen>,
    gateways: Vec<Gateway>,
    /// The sheets of sound leaders, for a body and a view, and whether one has decided.
    leaders: BTreeMap<(usize, u16), (ElectionSheet, bool)>,
    /// The view that each sound box is known to be in for a body.
    current: BTreeMap<(usize, usize), u16>,
    letters: Vec<Letter>,
    /// What gateways have in mind, in this order.
    script: VecDeque<(usize, Act)>,
    keys: Vec<u16>,
    base: u64,
    spread: u64,
    most_bodies: usize,
    /// It begins with a transaction that is left split, and little else goes on meanwhile.
    quiet: bool,
    /// How many steps in a thousand are a box that lets old entries go.
    forgetful: u64,
    /// How far back the message may stand that arrives next.
    window: u64,
}

/// One run, which the plan determines. An error says how demand 3 or A10 was broken.
pub fn run(one: &mut dyn Member, plan: Plan, counts: &mut Counts) -> Result<(), String> {
    let mut cluster = Cluster::new(one, plan, counts);
    let steps = cluster.random.between(12, 60) * cluster.boxes.len() as u64;
    for _ in 0..steps {
        cluster.step()?;
    }
    Ok(())
}

// ---- the boxes

impl<'a> Cluster<'a> {
    fn new(one: &'a mut dyn Member, plan: Plan, counts: &'a mut Counts) -> Cluster<'a> {
        let mut random = Random::new(plan.seed);
        let f = random.one_of(&[1, 1, 1, 1, 1, 1, 1, 2, 2, 2, 2, 2, 3, 3, 4, 5]);
        counts.count(EVENTS[f as usize - 1]);
        let wanted = if random.chance(80) { f } else { random.below(f + 1) } + plan.too_many;
        let mut liars = 0u32;
        while u64::from(liars.count_ones()) < wanted {
            liars |= 1 << random.below(5 * f + 1);
        }
        let spread = random.between(2, 12);
        let base = random.one_of(&[1, 1, 100, 1 << 63, u64::MAX - 20]);
        let mut keys: Vec<u16> = (0..random.between(1, 3)).map(|_| random.below(512) as u16).collect();
        keys.sort_unstable();
        keys.dedup();
        let boxes = (0..5 * f + 1).map(|_| Sound::new(&mut random, f, base, spread)).collect();
        let mut judge = Judge::new(plan.rules, f, liars.count_ones() as usize);
        judge.slips = plan.slips;
        let (most_bodies, quiet) = (random.between(2, 9) as usize, random.chance(30));
        let window = random.one_of(&[3, 12, 100]);
        let forgetful = random.one_of(&[0, 0, 0, 2, 5, 15]);
        Cluster {
            one,
            counts,
            plan,
            random,
            f,
            liars,
            boxes,
            judge,
            seen: Vec::new(),
            gateways: Vec::new(),
            leaders: BTreeMap::new(),
            current: BTreeMap::new(),
            letters: Vec::new(),
            script: VecDeque::new(),
            keys,
            base,
            spread,
            most_bodies,
            quiet,
            forgetful,
            window,
        }
    }

    fn lies(&self, number: usize) -> bool {
        self.liars & 1 << number != 0
    }

    /// A clock and a δ of its own, either of which may move, also back.
    fn turn_a_clock(&mut self) {
        let number = self.random.below(self.boxes.len() as u64) as usize;
        let (ahead, behind) = (self.base + self.spread, self.base + self.random.below(self.spread + 1));
        let settings = &mut self.boxes[number].settings;
        let before = settings.clock;
        settings.clock = if self.random.chance(70) { ahead } else { behind };
        settings.delta = self.random.one_of(&[0, 1, 2, self.spread, u64::MAX]);
        if settings.clock < before {
            self.counts.count("a clock went back");
        }
    }

    /// A sound box is called, by one of the two entrances that take the message.
    fn call(&mut self, number: usize, message: &[u8]) -> Result<Answer, String> {
        let own = message.first_chunk().and_then(Entrance::of).expect("a message has a mark");
        if self.random.chance(4) {
            self.misuse(number, own, message)?;
        }
        self.counts.calls += 1;
        let entrance = self.random.one_of(&[Entrance::Receive, own]);
        let Sound { table, marks, settings, .. } = &mut self.boxes[number];
        self.one.call(entrance, table, marks, settings, message)
    }

    /// The same message in a call that is refused for its mark, its numbers or its table.
    fn misuse(&mut self, number: usize, own: Entrance, message: &[u8]) -> Result<(), String> {
        let random = &mut self.random;
        let Sound { table, marks, settings, .. } = &mut self.boxes[number];
        let (held, room) = (u64::from(table[0]), ((table.len() - HEAD) / ROW) as u64);
        let (mut entrance, mut wrong) = (random.one_of(&[Entrance::Receive, own]), *settings);
        let (event, due) = match random.below(5) {
            0 => {
                let others: Vec<u64> = (1..=6).filter(|mark| Entrance::Due(*mark) != own).collect();
                entrance = Entrance::Due(random.one_of(&others));
                ("refused  2, another mark due", 2)
            }
            1 => {
                entrance = Entrance::Due(random.one_of(&Entrance::NO_MARK));
                ("refused  2, a number that is no mark", 2)
            }
            2 => {
                wrong.f = random.one_of(&[0, 6, 256 + wrong.f, u64::MAX]);
                ("refused 14", 14)
            }
            3 => {
                wrong.capacity = random.one_of(&[0, 256, 256 + wrong.capacity, u64::MAX]);
                ("refused 14", 14)
            }
            _ => {
                // too small for the entries, or too large for the slice
                wrong.capacity = if held > 1 && random.chance(30) { held - 1 } else { random.between(room + 1, 255) };
                ("refused 16", 16)
            }
        };
        let before = (table.clone(), marks.clone());
        let answer = self.one.call(entrance, table, marks, &wrong, message)?;
        self.counts.calls += 1;
        self.counts.count(event);
        if self.plan.told {
            println!("  box {number}: {entrance:?}, {wrong:?}: {answer:?}");
        }
        if answer != Answer::Refused(due) || (&before.0, &before.1) != (&*table, &*marks) {
            return Err(format!("a call to be refused with {due} was answered {answer:?}, or changed the box"));
        }
        Ok(())
    }

    fn step(&mut self) -> Result<(), String> {
        if self.random.chance(2) {
            self.turn_a_clock();
        }
        if self.random.below(1000) < self.forgetful {
            self.forget_somewhere()?;
        }
        // few enough on their way that gateways get answers while they live
        let room = self.letters.len() < 5 * self.boxes.len();
        if self.letters.is_empty() || self.random.chance(2) {
            if let Some((from, act)) = self.script.pop_front() {
                return self.act(from, act);
            }
        }
        let [begin, act] = if self.quiet { [1, 2] } else { [5, 15] };
        if self.gateways.is_empty() || room && self.random.chance(begin) {
            return self.start();
        }
        if self.letters.is_empty() || room && self.random.chance(act) {
            return self.go_on();
        }
        self.deliver()
    }
}

impl Sound {
    fn new(random: &mut Random, f: u64, base: u64, spread: u64) -> Sound {
        let capacity = if random.chance(90) { random.between(9, 14) } else { random.between(1, 5) };
        let clock = if random.chance(92) { base + spread } else { base + random.below(spread) };
        let settings = Settings { f, capacity, clock, delta: random.below(3) };
        let beyond = if random.chance(20) { random.below(3 * ROW as u64) as usize } else { 0 };
        Sound { table: vec![0; table_len(capacity as usize) + beyond], marks: vec![0; 512], settings, held: BTreeMap::new() }
    }
}

// ---- gateways

impl Cluster<'_> {
    /// A gateway begins: with a new transaction, with another body under a stamp that is in use, or with one that another began.
    fn start(&mut self) -> Result<(), String> {
        let known = self.judge.bodies.len() as u64;
        if (known as usize) < self.most_bodies {
            match self.random.below(100) {
                _ if self.quiet && known == 0 => return self.leave_it_split(),
                0..=5 => return self.make_a_chain(),
                6..=11 => return self.show_two_faces(),
                12..=23 => return self.miss_the_prepare(),
                24..=31 => return self.leave_it_split(),
                32..=37 => return self.read_of_many(),
                38..=53 => return self.let_go(),
                _ => {}
            }
        }
        let body = if known > 0 && (known as usize >= self.most_bodies || self.random.chance(15)) {
            self.counts.count("a body taken over by another gateway");
            self.random.below(known) as usize
        } else if known > 0 && self.random.chance(15) {
            let stamp = self.judge.bodies[self.random.below(known) as usize].tx.stamp;
            self.new_body(stamp)?
        } else {
            let stamp = self.unused_stamp(1);
            self.new_body(stamp)?
        };
        let sly = self.random.chance(50);
        let from = self.gateway(body, sly);
        self.ask(from);
        Ok(())
    }

    fn gateway(&mut self, body: usize, sly: bool) -> usize {
        let sheet = |kind| Sheet { kind, commits: 0, aborts: 0 };
        let wants = self.random.one_of(&[None, None, None, Some(Decision::Commit), Some(Decision::Abort)]);
        let views = ViewSheet { told: 0, views: [0; 26] };
        self.gateways.push(Gateway { body, votes: sheet(1), logs: BTreeMap::new(), views, alive: true, sly, wants });
        self.gateways.len() - 1
    }

    /// The first of so many stamps in a row that no body has, if that is easily found.
    fn unused_stamp(&mut self, in_a_row: u64) -> u64 {
        let mut stamp = self.base;
        for _ in 0..6 {
            stamp = self.base + self.random.below(self.spread + 2 - in_a_row);
            if !self.judge.bodies.iter().any(|body| (stamp..stamp + in_a_row).contains(&body.tx.stamp)) {
                break;
            }
        }
        stamp
    }

    /// A key that all use, or one for a scene of its own.
    fn some_key(&mut self) -> u16 {
        if self.random.chance(50) {
            self.random.one_of(&self.keys)
        } else {
            self.random.below(512) as u16
        }
    }

    /// One stamp, two bodies: some boxes, about f at most, are shown one that writes a key, the rest one that does not; a third
    /// transaction reads the key from the first. If the second commits it replaces the first, and the reader has waited in vain.
    fn show_two_faces(&mut self) -> Result<(), String> {
        let (stamp, key) = (self.unused_stamp(3), self.some_key());
        let beside = self.keys.iter().copied().find(|other| *other != key);
        let (reads, writes) = beside.map_or((vec![(key, 0)], vec![]), |other| (vec![], vec![(other, 1)]));
        let few = self.new_gateway(transaction(stamp, &[], &[(key, 1)]));
        let most = self.new_gateway(transaction(stamp, &reads, &writes));
        let shown = self.random.between(1, self.f);
        for to in 0..self.boxes.len() {
            let from = if self.random.below(self.boxes.len() as u64) < shown { few } else { most };
            self.letters.push(Letter { from, to, mark: *b"PR", load: Load::Nothing });
        }
        let later = stamp + self.random.between(1, 2);
        let reader = self.new_gateway(transaction(later, &[(key, stamp)], &[]));
        self.script.extend([(reader, Act::Ask), (most, Act::Log), (most, Act::Prove), (reader, Act::Ask)]);
        Ok(())
    }

    /// A write, a read of it, and a write that would slip in between. The first is doomed where a box has been read before, votes
    /// abort for that, and the liars help.
    fn make_a_chain(&mut self) -> Result<(), String> {
        let (stamp, key) = (self.unused_stamp(3), self.some_key());
        let first = self.new_gateway(transaction(stamp, &[], &[(key, 1)]));
        let reader = self.new_gateway(transaction(stamp + 2, &[(key, stamp)], &[]));
        let between = self.new_gateway(transaction(stamp + 1, &[], &[(key, 2)]));
        if self.random.chance(50) {
            self.read(key, stamp + 1)?;
            self.gateways[first].wants = Some(Decision::Abort);
            self.gateways[reader].wants = Some(Decision::Commit);
        }
        self.script.extend([(first, Act::Ask), (reader, Act::Ask), (between, Act::Ask), (first, Act::Log), (first, Act::Prove)]);
        self.script.extend([(reader, Act::Ask), (reader, Act::Log), (reader, Act::Prove)]);
        Ok(())
    }

    /// Up to so many boxes of a mask, at least one where there is one, as a mask.
    fn few_of(&mut self, of: u32, most: u64) -> u32 {
        let (wanted, mut few, mut left) = (self.random.between(1, most), 0u32, of);
        while left != 0 && u64::from(few.count_ones()) < wanted {
            let bit = 1 << self.random.below(self.boxes.len() as u64);
            few |= left & bit;
            left &= !bit;
        }
        few
    }

    /// A power dip: most boxes are down when a write is asked for, and log it when they are back. Some vote abort, for an RD or for a transaction that
    /// did not see the write; that is logged by a few boxes that have no PR yet. The PR comes to those, and to some more, which vote commit; what these
    /// say is logged by all, the boxes without a PR among them. Then that transaction is seen to, and the write is asked for once more, everywhere.
    fn miss_the_prepare(&mut self) -> Result<(), String> {
        let (stamp, key) = (self.unused_stamp(3), self.some_key());
        let tx = transaction(stamp, &[], &[(key, 1)]);
        let [to_abort, to_commit] = [Decision::Abort, Decision::Commit].map(|wanted| {
            let gateway = self.new_gateway(tx.clone());
            self.gateways[gateway].wants = Some(wanted);
            gateway
        });
        let unaware = self.new_gateway(transaction(stamp + 1, &[(key, 0)], &[]));
        self.gateways[unaware].wants = Some(Decision::Commit);
        let all = (1u32 << self.boxes.len()) - 1;
        let sound = all & !self.liars;
        let against = self.few_of(sound, self.f);
        // mostly few; or many, so that the abort is proved from their logs
        let late = if self.random.chance(30) { sound & !against } else { self.few_of(sound & !against, self.f) };
        let up = self.few_of(sound & !against & !late, 2 * self.f + 1);
        let first = if self.random.chance(50) { (to_abort, Act::ReadAt(against, key, stamp + 1)) } else { (unaware, Act::AskAt(all & !up)) };
        self.script.extend([first, (to_abort, Act::AskAt(against)), (to_abort, Act::LogAt(late))]);
        self.script.extend([(to_commit, Act::AskAt(late | up)), (to_commit, Act::LogAt(all)), (to_commit, Act::Prove)]);
        let seen_to = [(unaware, Act::Ask), (unaware, Act::Log), (unaware, Act::Prove)];
        let again = [(to_abort, Act::ReadAt(all & !against, key, stamp + 1)), (to_abort, Act::Ask), (to_abort, Act::Ask), (to_abort, Act::Prove)];
        if self.random.chance(50) {
            self.script.extend(seen_to.into_iter().chain(again));
        } else {
            self.script.extend(again.into_iter().chain(seen_to));
        }
        Ok(())
    }

    fn new_gateway(&mut self, tx: Transaction) -> usize {
        let body = self.known(tx);
        self.gateway(body, true)
    }

    fn new_body(&mut self, stamp: u64) -> Result<usize, String> {
        let (mut reads, mut writes) = (Vec::new(), Vec::new());
        for key in self.keys.clone() {
            if self.random.chance(55) {
                reads.push((key, self.version_to_read(key, stamp)?));
            }
            if self.random.chance(60) {
                writes.push((key, self.random.below(4)));
            }
        }
        if reads.is_empty() && writes.is_empty() {
            writes.push((self.keys[0], self.random.below(4)));
        }
        Ok(self.known(transaction(stamp, &reads, &writes)))
    }

    /// The number of a body, from now on known.
    fn known(&mut self, tx: Transaction) -> usize {
        let stamp = tx.stamp;
        let body = self.judge.body(tx);
        if body == self.seen.len() {
            self.seen.push(Seen::default());
            if self.judge.bodies[..body].iter().any(|known| known.tx.stamp == stamp) {
                self.counts.count("a second body under one stamp");
            }
        }
        body
    }

    /// Learnt through an RD, from what other gateways wrote, or guessed.
    fn version_to_read(&mut self, key: u16, stamp: u64) -> Result<u64, String> {
        let mut writers: Vec<u64> =
            self.judge.bodies.iter().filter(|body| body.tx.writes.iter().any(|write| write.0 == key)).map(|body| body.tx.stamp).collect();
        writers.push(0);
        let newest = writers.iter().copied().filter(|written| *written < stamp).max().unwrap_or(0);
        let latest = writers.iter().copied().max().unwrap_or(0);
        Ok(match self.random.below(100) {
            0..=19 => self.read(key, stamp)?,
            20..=69 => newest,
            70..=84 => 0,
            85..=91 => self.random.one_of(&writers).min(stamp - 1),
            // from a later one, or the transaction's own: misbehaviour
            92..=95 => latest,
            _ => (self.base + self.random.below(self.spread + 1)).min(stamp - 1),
        })
    }

    /// An RD at one box; the higher of the two versions mostly.
    fn read(&mut self, key: u16, stamp: u64) -> Result<u64, String> {
        let number = self.random.below(self.boxes.len() as u64) as usize;
        self.read_at(number, key, stamp)
    }

    fn read_at(&mut self, number: usize, key: u16, stamp: u64) -> Result<u64, String> {
        if self.lies(number) {
            return Ok(self.base - 1 + self.random.below(stamp - self.base + 1));
        }
        let answer = self.call(number, &rd(key, stamp))?;
        if self.plan.told {
            println!("  box {number}: RD key {key} at {stamp}: {answer:?}");
        }
        match answer {
            Answer::Found { committed, undecided } => {
                self.counts.count("found");
                self.answered(number, key, stamp, committed.0.max(undecided.0))?;
                Ok(if self.random.chance(80) { committed.0.max(undecided.0) } else { committed.0 })
            }
            Answer::Refused(number) => {
                self.counts.refused(b"RD", number);
                Ok(0)
            }
            odd => Err(format!("an RD was answered {odd:?}")),
        }
    }

    /// The next thing that a gateway does, wherever it stands.
    fn go_on(&mut self) -> Result<(), String> {
        let from = self.random.below(self.gateways.len() as u64) as usize;
        if !self.gateways[from].alive {
            return Ok(());
        }
        if self.random.chance(4) {
            self.gateways[from].alive = false;
            self.counts.count("a gateway died");
            return Ok(());
        }
        if self.seen[self.gateways[from].body].waiting != 0 && self.random.chance(50) {
            self.help_on(from);
        }
        let logged = self.judge.bodies[self.gateways[from].body].words().any(|word| matches!(word, Word::Log(..)));
        if logged && self.random.chance(20) {
            let all = (1u32 << self.boxes.len()) - 1;
            let act = self.anything(all);
            return self.act(from, act);
        }
        let act = self.random.one_of(&[Act::Ask, Act::Ask, Act::Log, Act::Log, Act::Prove]);
        self.act(from, act)
    }

    fn act(&mut self, from: usize, act: Act) -> Result<(), String> {
        match act {
            _ if !self.gateways[from].alive => {}
            Act::Ask => self.ask(from),
            Act::Log => self.ask_to_log(from),
            Act::Prove => self.bring_proof(from),
            Act::AskAt(boxes) => self.ask_these(from, numbers(boxes)),
            Act::LogAt(boxes) => self.ask_these_to_log(from, numbers(boxes)),
            Act::ReadAt(boxes, key, stamp) => {
                for number in numbers(boxes) {
                    self.read_at(number, key, stamp)?;
                }
            }
            Act::ForgetAt(boxes, low) => {
                for number in numbers(boxes & !self.liars) {
                    self.forget(number, low)?;
                }
            }
            Act::Die => self.die(from),
            Act::InvokeAt(boxes, told) => self.invoke_these(from, numbers(boxes), told),
            Act::LeadAt(boxes, view, decision, lie) => self.lead_these(from, numbers(boxes), view, decision, lie),
        }
        Ok(())
    }

    /// A gateway that waits sees to a transaction that it waits for: logs it, or brings its proof, and asks again.
    fn help_on(&mut self, from: usize) {
        let body = self.gateways[from].body;
        let versions: Vec<u64> = self.judge.bodies[body].tx.reads.iter().map(|read| read.1).filter(|version| *version != 0).collect();
        let version = self.random.one_of(&versions);
        let under: Vec<usize> = (0..self.judge.bodies.len()).filter(|known| self.judge.bodies[*known].tx.stamp == version).collect();
        if under.is_empty() {
            return;
        }
        let waited_for = self.random.one_of(&under);
        let helper = self.gateway(waited_for, true);
        if self.random.chance(40) {
            self.ask_to_log(helper);
        }
        self.bring_proof(helper);
        self.ask(from);
    }

    /// All boxes, or some of them.
    fn some_boxes(&mut self) -> Vec<usize> {
        let share = self.random.one_of(&[100, 100, 100, 100, 100, 80, 50]);
        (0..self.boxes.len()).filter(|_| self.random.chance(share)).collect()
    }

    fn ask(&mut self, from: usize) {
        let boxes = self.some_boxes();
        self.ask_these(from, boxes);
    }

    fn ask_these(&mut self, from: usize, boxes: Vec<usize>) {
        for to in boxes {
            self.letters.push(Letter { from, to, mark: *b"PR", load: Load::Nothing });
        }
    }

    fn ask_to_log(&mut self, from: usize) {
        let boxes = self.some_boxes();
        self.ask_these_to_log(from, boxes);
    }

    /// An LG to each box: one list for all, or, where both can be made, the one here and the other there.
    fn ask_these_to_log(&mut self, from: usize, boxes: Vec<usize>) {
        let wants = self.gateways[from].wants;
        let named = wants.unwrap_or(self.random.one_of(&[Decision::Commit, Decision::Abort]));
        let mut lists = [self.list(from, Word::Vote(named), true), self.list(from, Word::Vote(other(named)), true)];
        if wants.is_some() {
            lists[1] = None;
        }
        self.see_both_lists(from);
        let split = self.random.chance(40);
        for to in boxes {
            let pick = usize::from(split && self.random.chance(50));
            if let Some(list) = lists[pick].clone().or(lists[1 - pick].clone()) {
                self.letters.push(Letter { from, to, mark: *b"LG", load: Load::List(list) });
            }
        }
    }

    fn see_both_lists(&mut self, from: usize) {
        let body = self.gateways[from].body;
        let row = PAPER.row(self.f);
        let [commits, aborts] = [Decision::Commit, Decision::Abort].map(|named| self.nameable(from, Word::Vote(named)).count_ones() as usize);
        if commits >= row[0] && aborts >= row[1] && !self.seen[body].both_lists {
            self.seen[body].both_lists = true;
            self.counts.count("commit list and abort list for one body");
        }
    }

    fn bring_proof(&mut self, from: usize) {
        let wants = self.gateways[from].wants;
        let mut lists = Vec::new();
        for decision in [Decision::Commit, Decision::Abort].into_iter().filter(|decision| wants.is_none() || wants == Some(*decision)) {
            lists.extend(self.list(from, Word::Vote(decision), false));
            for view in self.views_logged(from) {
                lists.extend(self.list(from, Word::Log(decision, view), false));
            }
        }
        if lists.is_empty() {
            return;
        }
        let list = lists.swap_remove(self.random.below(lists.len() as u64) as usize);
        for to in self.some_boxes() {
            self.letters.push(Letter { from, to, mark: *b"DC", load: Load::List(list.clone()) });
        }
    }

    /// The boxes that a gateway can name with this vote or log: those on its sheet, or, for a sly one, all that ever gave it and the liars.
    fn nameable(&self, from: usize, word: Word) -> u32 {
        let gateway = &self.gateways[from];
        if gateway.sly {
            return self.judge.bodies[gateway.body].given(word) | self.liars;
        }
        let on = |sheet: &Sheet, decision| if decision == Decision::Commit { sheet.commits } else { sheet.aborts };
        match word {
            Word::Vote(decision) => on(&gateway.votes, decision),
            Word::Log(decision, view) => gateway.logs.get(&view).map_or(0, |sheet| on(sheet, decision)),
            Word::Elect(..) => 0,
        }
    }

    /// The views that a gateway has logs of, or, for a sly one, all that there are.
    fn views_logged(&self, from: usize) -> Vec<u16> {
        let gateway = &self.gateways[from];
        if !gateway.sly {
            return gateway.logs.keys().copied().collect();
        }
        let logged = |word| if let Word::Log(_, view) = word { Some(view) } else { None };
        let mut views: Vec<u16> = self.judge.bodies[gateway.body].words().filter_map(logged).collect();
        views.sort_unstable();
        views.dedup();
        views
    }

    /// A list that meets its threshold; now and then one that misses it by one or by more, or makes it up by naming boxes twice. Logs are of one view, the list's.
    fn list(&mut self, from: usize, word: Word, for_log: bool) -> Option<Listed> {
        let (kind, decision, view) = match word {
            Word::Vote(decision) => (Kind::Votes, decision, 0),
            Word::Log(decision, view) => (Kind::Logs, decision, view),
            Word::Elect(..) => return None,
        };
        let needed = needed(if for_log { b"LG" } else { b"DC" }, kind, decision, self.f);
        let (agree, differ) = (self.nameable(from, word), self.nameable(from, Word::of(kind, other(decision), view)));
        let mut pairs: Vec<(u8, Decision)> = Vec::new();
        let beside = self.random.one_of(&[0, 50, 100]);
        for number in 0..self.boxes.len() {
            if agree & 1 << number != 0 {
                pairs.push((number as u8, decision));
            } else if differ & 1 << number != 0 && self.random.chance(beside) {
                pairs.push((number as u8, other(decision)));
            }
        }
        let have = agree.count_ones() as usize;
        let surplus = have.saturating_sub(needed);
        if self.random.chance(40) {
            self.leave_out(&mut pairs, decision, surplus);
        }
        let twice = have > 0 && self.random.chance(6);
        if twice {
            self.name_twice(&mut pairs, decision, needed);
        }
        let bold = self.gateways[from].wants == Some(decision);
        let short = have + 1 == needed && (bold || self.random.chance(20)) || self.random.chance(4);
        (twice || have >= needed || short).then_some(Listed { kind, decision, view, pairs }).filter(|list| !list.pairs.is_empty())
    }

    fn leave_out(&mut self, pairs: &mut Vec<(u8, Decision)>, decision: Decision, surplus: usize) {
        for _ in 0..surplus {
            let at = self.random.below(pairs.len() as u64) as usize;
            if pairs[at].1 == decision {
                pairs.remove(at);
            }
        }
    }

    /// Boxes named again, side by side, until the answers would do.
    fn name_twice(&mut self, pairs: &mut Vec<(u8, Decision)>, decision: Decision, needed: usize) {
        let counted = |pairs: &[(u8, Decision)]| pairs.iter().filter(|pair| pair.1 == decision).count();
        pairs.retain(|pair| pair.1 == decision);
        while pairs.len() < 26 {
            let again = pairs[self.random.below(pairs.len() as u64) as usize];
            pairs.push(again);
            if counted(pairs) >= needed {
                break;
            }
        }
        pairs.sort_by_key(|pair| pair.0);
    }
}

// ---- the network

impl Cluster<'_> {
    /// Any of the messages on their way arrives, or is lost, or arrives and will arrive again.
    fn deliver(&mut self) -> Result<(), String> {
        let at = self.random.below(self.window.min(self.letters.len() as u64)) as usize;
        if at > 0 {
            self.counts.count("a message overtaken");
        }
        let fate = self.random.below(100);
        if fate < 4 {
            self.letters.remove(at);
            self.counts.count("a message lost");
            return Ok(());
        }
        let letter = if fate < 8 {
            self.counts.count("a message doubled");
            self.letters[at].clone()
        } else {
            self.letters.remove(at)
        };
        if self.lies(letter.to) {
            return self.lie(&letter);
        }
        assert!(self.backed(&letter), "the premise of demand 3");
        let answer = self.call(letter.to, &self.message(&letter))?;
        self.note_what_is_held(&letter);
        if self.plan.told {
            self.tell(&letter, answer);
        }
        self.hear(&letter, answer)
    }

    /// Each sound box on the list gave what stands there, for exactly this body; the views of an IV are anybody's.
    fn backed(&self, letter: &Letter) -> bool {
        let body = &self.judge.bodies[self.gateways[letter.from].body];
        let gave = |number: u8, word| self.lies(number.into()) || body.given(word) & 1 << number != 0;
        match &letter.load {
            Load::List(list) => list.pairs.iter().all(|(number, answer)| gave(*number, Word::of(list.kind, *answer, list.view))),
            Load::Election(election) => election.answers.iter().all(|(number, answer, view)| gave(*number, Word::Elect(*answer, *view))),
            Load::Nothing | Load::Views(_) => true,
        }
    }

    fn message(&self, letter: &Letter) -> Vec<u8> {
        let body = &self.judge.bodies[self.gateways[letter.from].body].bytes;
        match &letter.load {
            Load::Nothing => pr(body),
            Load::List(list) => with_view(&letter.mark, body, list.kind, list.decision, list.view, &list.pairs),
            Load::Views(views) => iv(body, views),
            Load::Election(election) => ld(body, election),
        }
    }

    fn tell(&self, letter: &Letter, answer: Answer) {
        let body = self.gateways[letter.from].body;
        let list = match &letter.load {
            Load::Nothing => String::new(),
            Load::List(list) => {
                let pairs: Vec<String> = list.pairs.iter().map(|(number, answer)| format!("{number}:{}", code(*answer))).collect();
                let view = if list.kind == Kind::Logs { format!(" of view {}", list.view) } else { String::new() };
                format!(" {:?}{view} {:?} [{}]", list.kind, list.decision, pairs.join(" "))
            }
            Load::Views(views) => format!(" views {views:?}"),
            Load::Election(election) => {
                let answers: Vec<String> = election.answers.iter().map(|(number, answer, view)| format!("{number}:{}:{view}", code(*answer))).collect();
                format!(" box {} leads view {} to {:?} [{}]", election.leader, election.view, election.decision, answers.join(" "))
            }
        };
        let tx = &self.judge.bodies[body].tx;
        println!(
            "  box {}: {} body {body} (stamp {}, reads {:?}, writes {:?}){list}: {answer:?}",
            letter.to,
            String::from_utf8_lossy(&letter.mark),
            tx.stamp,
            tx.reads,
            tx.writes
        );
    }

    /// A liar says either, to each gateway what it likes, whatever it was asked.
    fn lie(&mut self, letter: &Letter) -> Result<(), String> {
        let decision = self.random.one_of(&[Decision::Commit, Decision::Abort]);
        if let Load::Views(_) = letter.load {
            return self.lie_of_its_view(letter, decision);
        }
        let word = match (&letter.mark, letter.election()) {
            (_, Some(election)) => Word::Log(decision, election.view),
            (b"LG", _) => Word::Log(decision, 0),
            _ => Word::Vote(decision),
        };
        let body = self.gateways[letter.from].body;
        let said = &mut self.seen[body].liars_said;
        let bit = 1 << letter.to;
        if said[usize::from(decision == Decision::Commit)] & bit != 0 && said[usize::from(decision == Decision::Abort)] & bit == 0 {
            self.counts.count("a liar told one gateway commit and another abort");
        }
        said[usize::from(decision == Decision::Abort)] |= bit;
        self.put_on_sheet(letter, word)
    }

    fn put_on_sheet(&mut self, letter: &Letter, word: Word) -> Result<(), String> {
        let gateway = &mut self.gateways[letter.from];
        if !gateway.alive {
            return Ok(());
        }
        let (sheet, decision) = match word {
            Word::Vote(decision) => (&mut gateway.votes, decision),
            Word::Log(decision, view) => (gateway.logs.entry(view).or_insert(Sheet { kind: 2, commits: 0, aborts: 0 }), decision),
            Word::Elect(..) => return Ok(()),
        };
        match self.one.tally(sheet, self.f, letter.to as u64, u64::from(code(decision)))? {
            Reply::Repeat => self.counts.count("a repeat on a gateway's sheet"),
            Reply::Refused(number) => return Err(format!("a sheet in order was refused {number}")),
            Reply::Votes(lacking) => self.counts.lacking(&lacking),
            Reply::Logs(lacking) => self.counts.lacking(&lacking),
        }
        Ok(())
    }

    /// A wait is no vote, and a gateway that takes it for one is told so.
    fn put_wait_on_sheet(&mut self, letter: &Letter) -> Result<(), String> {
        let gateway = &mut self.gateways[letter.from];
        if !gateway.alive {
            return Ok(());
        }
        let (before, sheet) = (gateway.votes, &mut gateway.votes);
        let reply = self.one.tally(sheet, self.f, letter.to as u64, WAITING)?;
        if reply != Reply::Refused(8) || *sheet != before {
            return Err(format!("a wait on a sheet was answered {reply:?}, or changed it"));
        }
        self.counts.count("a wait refused by a gateway's sheet");
        Ok(())
    }

    /// What a sound box answered.
    fn hear(&mut self, letter: &Letter, answer: Answer) -> Result<(), String> {
        let body = self.gateways[letter.from].body;
        let stamp = self.judge.bodies[body].tx.stamp;
        match answer {
            Answer::Voted(Vote::Commit, _) => self.voted(letter, Decision::Commit, 0),
            Answer::Voted(Vote::Abort(reason), _) => self.voted(letter, Decision::Abort, reason),
            Answer::Voted(_, _) => {
                self.counts.count("wait");
                self.seen[body].waiting |= 1 << letter.to;
                self.boxes[letter.to].held.insert(stamp, body);
                self.late(letter, "such a box had the PR later, wait");
                self.put_wait_on_sheet(letter)
            }
            Answer::Logged(decision, view) => self.logged(letter, decision, view),
            Answer::Elected { decision, view, leader } => self.elected(letter, decision, view, leader),
            Answer::Decided(decision) => {
                self.counts.count(if decision == Decision::Commit { "decided commit" } else { "decided abort" });
                Ok(())
            }
            Answer::Done => {
                self.done(letter, stamp);
                Ok(())
            }
            Answer::TooFew(lacking) => self.too_few(letter, lacking),
            Answer::Refused(number) => {
                self.counts.refused(&letter.mark, number);
                Ok(())
            }
            Answer::Found { .. } | Answer::Raised => Err("a message of a gateway was answered with versions, or as a low mark".into()),
        }
    }

    fn done(&mut self, letter: &Letter, stamp: u64) {
        let body = self.gateways[letter.from].body;
        self.counts.count("done");
        match letter.list().filter(|list| list.kind == Kind::Logs).map(|list| list.view) {
            Some(0) => self.counts.count("done, by logs of view 0"),
            Some(_) => self.done_by_fallback(body),
            None => {}
        }
        match self.boxes[letter.to].held.insert(stamp, body) {
            None => self.counts.count("a decision brought to a box that had not seen the body"),
            Some(before) if before != body => self.counts.count("a held body was replaced"),
            Some(_) => {}
        }
    }

    /// 11: what a box says is lacking is what its threshold has above the answers that count.
    fn too_few(&mut self, letter: &Letter, lacking: u8) -> Result<(), String> {
        let list = letter.list().ok_or("a message without a list was refused with 11")?;
        let counted = list.pairs.iter().filter(|pair| pair.1 == list.decision).count();
        self.counts.count(match lacking {
            _ if counted == 0 => "refused 11, no answer counted",
            1 => "refused 11, one lacking",
            _ => "refused 11, more lacking",
        });
        let needed = needed(&letter.mark, list.kind, list.decision, self.f);
        // a box with a broken rule may count otherwise, and is judged by demand 3 alone
        if self.plan.rules.broken.is_empty() && counted + usize::from(lacking) != needed {
            return Err(format!("{counted} answers of {needed} were refused as lacking {lacking}"));
        }
        Ok(())
    }

    fn voted(&mut self, letter: &Letter, decision: Decision, reason: u8) -> Result<(), String> {
        let body = self.gateways[letter.from].body;
        let stamp = self.judge.bodies[body].tx.stamp;
        self.boxes[letter.to].held.insert(stamp, body);
        self.counts.count(["vote commit", "abort 1", "abort 2", "abort 3", "abort 4", "abort 5", "abort 6"][reason as usize]);
        if reason == 5 && self.judge.reads().any(|(key, at)| stamp < at && self.judge.bodies[body].writes(key)) {
            self.counts.count("abort 5, under such a read");
        }
        if reason == 2 && self.read_what_is_only_logged(letter.to, body) {
            self.counts.count("abort 2, the version read was only logged");
        }
        self.voted_by_folds(letter.to, body, reason);
        self.late(letter, if decision == Decision::Commit { "such a box had the PR later, vote commit" } else { "such a box had the PR later, abort" });
        let waiting = &mut self.seen[body].waiting;
        if *waiting & 1 << letter.to != 0 {
            self.counts.count(if decision == Decision::Commit { "a wait became commit" } else { "a wait became abort 6" });
            *waiting &= !(1 << letter.to);
            if decision == Decision::Abort && self.lacks_a_key(letter.to, body) {
                self.counts.count("abort 6, the body waited for replaced by one that lacks the key");
            }
        }
        self.given(letter, Word::Vote(decision))
    }

    /// A PR was answered by a box that may have logged the body before.
    fn late(&mut self, letter: &Letter, event: &'static str) {
        let (seen, bit) = (&mut self.seen[self.gateways[letter.from].body], 1 << letter.to);
        if seen.only_logged & bit != 0 {
            seen.only_logged &= !bit;
            seen.voted_late |= bit;
            self.counts.count(event);
        } else if seen.voted_late & bit != 0 {
            self.counts.count("such a box had the PR later, and was asked again");
        }
    }

    /// A version that this body read is, at this box, of a body that it has logged and not voted on.
    fn read_what_is_only_logged(&self, number: usize, body: usize) -> bool {
        let held = |version| self.boxes[number].held.get(version);
        self.judge.bodies[body].tx.reads.iter().any(|(_, version)| held(version).is_some_and(|held| self.seen[*held].only_logged & 1 << number != 0))
    }

    /// What a box holds under a version that this body read does not write the key.
    fn lacks_a_key(&self, number: usize, body: usize) -> bool {
        let held = |version| self.boxes[number].held.get(version).map(|held| &self.judge.bodies[*held].tx);
        let lacks = |key: u16, tx: &Transaction| !tx.writes.iter().any(|write| write.0 == key);
        self.judge.bodies[body].tx.reads.iter().any(|(key, version)| held(version).is_some_and(|tx| lacks(*key, tx)))
    }

    fn logged(&mut self, letter: &Letter, decision: Decision, view: u16) -> Result<(), String> {
        let body = self.gateways[letter.from].body;
        self.counts.count(if decision == Decision::Commit { "logged commit" } else { "logged abort" });
        if self.boxes[letter.to].held.insert(self.judge.bodies[body].tx.stamp, body).is_none() {
            self.counts.count(if view == 0 { "logged by a box that missed the prepare" } else { "logged as a leader decided, by a box that held nothing" });
            self.seen[body].missed |= 1 << letter.to;
            self.seen[body].only_logged |= 1 << letter.to;
        }
        if letter.list().is_some_and(|list| list.decision != decision) {
            self.counts.count("logged as before, against the list");
        }
        if self.judge.bodies[body].given(Word::Vote(other(decision))) & 1 << letter.to != 0 {
            self.counts.count("logged against the own vote");
        }
        if self.judge.bodies[body].given(Word::Log(other(decision), view)) != 0 && !self.seen[body].logged_both_ways {
            self.seen[body].logged_both_ways = true;
            self.counts.count("one body logged both ways");
        }
        self.logged_in_view(letter, decision, view);
        self.given(letter, Word::Log(decision, view))
    }

    /// A word that a sound box gave: it goes to the gateway, and demand 3 is judged.
    fn given(&mut self, letter: &Letter, word: Word) -> Result<(), String> {
        let body = self.gateways[letter.from].body;
        self.put_on_sheet(letter, word)?;
        let fresh = self.judge.committed(self.judge.bodies[body].tx.stamp) != Some(body);
        if !self.judge.note(body, letter.to, word)? {
            return Ok(());
        }
        self.counts.count(match word {
            Word::Vote(Decision::Commit) => "commit proof from votes",
            Word::Vote(Decision::Abort) => "abort proof from votes",
            Word::Log(Decision::Commit, 0) => "commit proof from logs",
            Word::Log(Decision::Abort, 0) => "abort proof from logs",
            Word::Log(Decision::Commit, _) => "commit proof from logs of a later view",
            Word::Log(Decision::Abort, _) => "abort proof from logs of a later view",
            Word::Elect(..) => unreachable!("an election answer proves nothing"),
        });
        // the judge says so once for a view, when they are just enough
        if matches!(word, Word::Log(_, 0)) && self.judge.bodies[body].given(word) & self.seen[body].missed != 0 {
            self.counts.count(PROVED_WITH_IT);
        }
        self.proved_twice(body, word);
        if matches!(word, Word::Vote(Decision::Commit) | Word::Log(Decision::Commit, _)) && fresh {
            self.newly_committed(body);
        }
        Ok(())
    }

    fn newly_committed(&mut self, body: usize) {
        let tx = &self.judge.bodies[body].tx;
        if tx.reads.iter().any(|read| read.1 != 0) {
            self.counts.count("a committed body read a committed version");
        }
        if self.judge.bodies.iter().filter(|known| known.tx.stamp == tx.stamp).count() > 1 {
            self.counts.count("a second body under one stamp committed");
        }
        let stamp = tx.stamp;
        if numbers(!self.liars & ((1 << self.boxes.len()) - 1)).into_iter().any(|number| low_of(&self.boxes[number].table) >= stamp) {
            self.counts.count("a body committed that a box had let go");
        }
        self.committed_beside_reads(body);
    }
}

/// The engine in many clusters. False where demand 3 or A10 is broken, or an event did not occur.
pub fn check(one: &mut dyn Member, runs: u64, seed: u64) -> bool {
    let mut counts = Counts::new();
    for seed in seed..seed + runs {
        let plan = Plan { seed, rules: PAPER, too_many: 0, slips: true, told: false };
        if let Err(broken) = run(one, plan, &mut counts) {
            println!("seed {seed}: {broken}; the calls:");
            let _ = run(one, Plan { told: true, ..plan }, &mut Counts::new());
            return false;
        }
    }
    println!("{runs} clusters from seed {seed}, {} calls, demand 3 and A10 judged after each", counts.calls);
    let missing = counts.print();
    println!("{} transactions were decided by the fallback", counts.times(DECIDED_BY_FALLBACK));
    println!("demand 3 and A10 held throughout; {missing} events did not occur; {} refusals that cannot be", counts.unlisted);
    missing == 0 && counts.unlisted == 0
}
