//! Gateways that finish what another began: that no transaction hangs, what each way costs, and what hangs where a habit is left out. docs/GATEWAY.md has the
//! procedure and the figures.

mod evil;
mod hosts;
mod liars;
mod picture;
mod seeds;
mod unmended;
mod ways;
mod world;

use liars::Style;
use seeds::Kind;
use std::collections::BTreeMap;
use ways::Way;
use world::{Habit, HABITS};

/// How long after it is calm and its last operation has begun a world is run at most, in ticks; a way takes one to three, and up to 250 between boxes that are far from
/// each other.
const LIMIT: u64 = 30_000;

/// Within so many ticks all has to be decided and taken; and where boxes are far from each other.
const BOUND: u64 = 3_000;
const SLOW_BOUND: u64 = 10_000;

/// What a world came to.
struct Ended {
    done: bool,
    wrong: Option<String>,
    /// How long it took after it was calm and the last live gateway had begun, until all on its desk was decided and the sound boxes had it.
    took: u64,
    falls: u32,
    met: BTreeMap<&'static str, u64>,
}

fn run(seed: u64, without: Option<Habit>, limit: u64) -> Ended {
    let mut world = seeds::world(seed, without);
    let done = world.run(world.net.calm + limit);
    let live = || world.stations.iter().filter(|station| station.alive);
    let begun = live().flat_map(|station| station.cares.iter().map(|care| care.since)).max().unwrap_or(0);
    let falls = live().map(|station| station.most_falls).max().unwrap_or(0);
    let mut met = world.met.clone();
    for (what, so) in [("worlds with a fallback", falls > 0), ("worlds with several tries of it", falls > 1), ("worlds with liars", world.liars != 0)] {
        *met.entry(what).or_default() += u64::from(so);
    }
    met.insert("messages", world.messages);
    Ended { done, wrong: world.wrong.clone(), took: world.now.saturating_sub(world.net.calm.max(begun)), falls, met }
}

/// Worlds of these seeds, and those that did not end well: hung, took too long, or broke demand 3.
fn worlds(first: u64, count: u64, without: Option<Habit>) -> Vec<u64> {
    let (mut bad, mut longest, mut falls, mut met) = (vec![], [0; 2], 0, BTreeMap::new());
    for seed in first..first + count {
        let ended = run(seed, without, LIMIT);
        let slow = seeds::kind(seed) == Kind::Slow;
        ended.wrong.iter().for_each(|what| println!("seed {seed}: {what}"));
        if !ended.done || ended.wrong.is_some() || ended.took > if slow { SLOW_BOUND } else { BOUND } {
            bad.push(seed);
        }
        longest[usize::from(slow)] = longest[usize::from(slow)].max(ended.took);
        falls = falls.max(ended.falls);
        ended.met.into_iter().for_each(|(what, times)| *met.entry(what).or_default() += times);
    }
    let [near, far] = longest;
    println!(
        "{count} worlds from seed {first}: the longest took {near} ticks from the calm on, {far} where boxes are far from each other; at most {falls} tries"
    );
    for what in MET {
        let times = met.get(what).copied().unwrap_or(0);
        println!("{times:9}  {what}{}", if times == 0 { "  DID NOT OCCUR" } else { "" });
        if times == 0 && count >= STANDARD && without.is_none() {
            bad.push(0);
        }
    }
    bad
}

/// So many worlds have to have met all of these.
const STANDARD: u64 = 400;
const MET: [&str; 16] = [
    "messages",
    "messages lost",
    "messages doubled",
    "messages held back until it was calm",
    "messages whose signatures are wrong",
    "worlds with liars",
    "worlds with a fallback",
    "worlds with several tries of it",
    "gateways died",
    "hosts that started anew",
    "transactions decided of live gateways",
    "transactions taken up since they stood in the way",
    "proofs that a box handed over",
    "logs by a leader's decision",
    "invocations held back",
    "operations tried again under a new stamp",
];

/// Seeds of a kind on which leaving out a habit is tried, and for how long.
fn tried(habit: Habit) -> (Kind, u64, u64) {
    match habit {
        Habit::Fallback => (Kind::Split, 64, 4_000),
        Habit::Doubling => (Kind::Slow, 48, SLOW_BOUND),
        Habit::Resend => (Kind::Split, 160, 4_000),
        Habit::Handover => (Kind::Plain, 160, 4_000),
        Habit::Bodies => (Kind::Sow, 48, 4_000),
        Habit::SignedViews => (Kind::ForgeViews, 64, 4_000),
        Habit::SignedLeader => (Kind::ForgeLeader, 96, 4_000),
        Habit::Pacing => (Kind::Raise, 96, 1_500),
    }
}

/// With the habit every world of these seeds ends, without it one hangs at least; and the row of docs/GATEWAY.md.
fn needed(habit: Habit, name: &str) -> (bool, String) {
    let (kind, most, limit) = tried(habit);
    let seeds: Vec<u64> = (1..=most).filter(|seed| seeds::kind(*seed) == kind).collect();
    let hung = |without| seeds.iter().filter(|seed| !run(**seed, without, limit).done).count();
    let (with, without) = (hung(None), hung(Some(habit)));
    println!("without {name:13} {without:3} of {:3} worlds hang, with it {with}", seeds.len());
    (with == 0 && without > 0, format!("| {name} | {without} of {} | {} |", seeds.len(), seeds::told(kind)))
}

/// A DC that reached some boxes only is what a gateway leaves that dies late: there handing it over is needed more often than in any world of a seed.
fn handed_over() -> (bool, String) {
    let dead = |without| ways::deaths_in(Way::Commit, 1, Some(Style::Silent), without);
    let ((_, with), (count, without)) = (dead(None), dead(Some(Habit::Handover)));
    println!("without handover, a gateway that died: {} of {count} hang, with it {}", without.len(), with.len());
    (with.is_empty() && !without.is_empty(), format!("| handover | {} of {count} | a gateway dead at each step, and f boxes silent |", without.len()))
}

/// docs/GATEWAY.md has the rows that were measured, and the pictures beside it are those that are drawn.
fn documented(rows: &[String]) -> bool {
    let read = |file: &str| std::fs::read_to_string(format!("{}/../docs/{file}", env!("CARGO_MANIFEST_DIR"))).unwrap_or_default();
    let page = read("GATEWAY.md");
    let missing: Vec<&String> = rows.iter().filter(|row| !page.lines().any(|line| line == row.as_str())).collect();
    missing.iter().for_each(|row| println!("docs/GATEWAY.md lacks the row {row}"));
    let stale: Vec<String> = picture::pictures().into_iter().filter(|(file, picture)| read(file) != *picture).map(|(file, _)| file).collect();
    stale.iter().for_each(|file| println!("docs/{file} is not what is drawn: stobbarel-tests gateways --pictures docs"));
    missing.is_empty() && stale.is_empty()
}

fn all(count: u64, first: u64) -> bool {
    let rows = ways::rows();
    rows.iter().for_each(|row| println!("{row}"));
    let (dead, wrong) = ways::deaths(None);
    println!("{dead} gateways died, one at each step of each way: {} left something that the next could not finish", wrong.len());
    wrong.iter().take(5).for_each(|what| println!("{what}"));
    let bad = worlds(first, count, None);
    println!("{} worlds hung, took too long or went wrong {:?}", bad.len(), &bad[..bad.len().min(20)]);
    let habits: Vec<(bool, String)> = HABITS.iter().map(|(habit, name)| needed(*habit, name)).chain([handed_over()]).collect();
    let mut unmended = 0;
    for (what, shown) in unmended::shown() {
        println!("not mended: {what}: {}", shown.err().unwrap_or("as the document says"));
        unmended += usize::from(shown.is_err());
    }
    let rows: Vec<String> = rows.into_iter().chain(habits.iter().map(|(_, row)| row.clone())).collect();
    documented(&rows) && wrong.is_empty() && bad.is_empty() && habits.iter().all(|(needed, _)| *needed) && unmended == 0
}

/// `gateways [COUNT [SEED]]`, all of it; `gateways COUNT SEED --worlds`, the worlds alone; `gateways COUNT SEED --without HABIT`, what then hangs; `gateways --pictures
/// FOLDER`.
pub fn check(words: &[String]) -> bool {
    let number = |place: usize, default: u64| words.get(place).and_then(|word| word.parse().ok()).unwrap_or(default);
    let (count, first) = (number(0, STANDARD), number(1, 1));
    let behind = |name: &str| words.iter().position(|word| word == name).map(|at| words.get(at + 1).cloned().unwrap_or_default());
    if let Some(folder) = behind("--pictures") {
        return picture::draw(&folder);
    }
    if words.iter().any(|word| word == "--worlds") {
        let bad = worlds(first, count, None);
        println!("{} worlds hung, took too long or went wrong {:?}", bad.len(), &bad[..bad.len().min(20)]);
        return bad.is_empty();
    }
    let Some(name) = behind("--without") else { return all(count, first) };
    let Some((habit, _)) = HABITS.iter().find(|(_, known)| *known == name) else {
        println!("a habit is one of {:?}", HABITS.map(|(_, name)| name));
        return false;
    };
    let bad = worlds(first, count, Some(*habit));
    println!("without {name} {} of them hung, took too long or went wrong {:?}", bad.len(), &bad[..bad.len().min(20)]);
    true
}
