//! How fast the engine is: `speed` times each call on the engine, on the model's own box and on the flat box, in turns, and prints
//! the ratios; `speed FILE` draws them too. `speed check` times PR at 255 entries and fails above twice the own box.
//! `speed NAME SIZE BOX TIMES` makes one call so many times on one box, for a profiler.

#[path = "../../engine.rs"]
#[allow(dead_code)]
mod engine;
#[path = "../../mix.rs"]
#[allow(dead_code)]
mod mix;
#[path = "../../model.rs"]
#[allow(dead_code)]
mod model;
#[path = "../../random.rs"]
mod random;

mod boxes;
mod calls;
mod flat;
mod junction;
mod plot;

use boxes::{Engine, Flat, Own, Timed};
use calls::{said, Call, NAMES, SETTINGS};
use junction::{empty, Junction};
use std::hint::black_box;
use std::process::exit;
use std::time::{Duration, Instant};

const SIZES: [usize; 4] = [1, 16, 64, 255];
const ROUNDS: usize = 101;
const BATCH: Duration = Duration::from_micros(200);

/// Nanoseconds a call.
fn batch<B: Timed>(timed: &mut B, call: &Call, times: u32) -> f64 {
    let start = Instant::now();
    for _ in 0..times {
        black_box(timed.call(black_box(&SETTINGS), black_box(&call.message)));
        timed.undo(call.undo);
    }
    start.elapsed().as_secs_f64() * 1e9 / f64::from(times)
}

/// The best of three batches, so that a batch during which another program had the core does not count.
fn turn<B: Timed>(timed: &mut B, call: &Call, times: u32) -> f64 {
    (0..3).map(|_| batch(timed, call, times)).fold(f64::MAX, f64::min)
}

/// How many calls make a batch.
fn times<B: Timed>(timed: &mut B, call: &Call) -> u32 {
    let nanos = turn(timed, call, 50);
    (BATCH.as_nanos() as f64 / nanos).max(20.0) as u32
}

/// The call's answer and what it leaves are due, and it can be made again.
fn check<B: Timed>(timed: &mut B, call: &Call) {
    let mut due = call.lent.clone();
    let answer = model::call(&mut due.table, &mut due.marks, &SETTINGS, &call.message, &model::MARKS, &mut Vec::new());
    assert_eq!(said(Some(answer)), Some(call.due));
    for _ in 0..2 {
        let given = timed.call(&SETTINGS, &call.message);
        assert_eq!(said(B::answer(given)), Some(call.due));
        let (entries, marks) = timed.entries();
        assert_eq!(Some(entries), model::entries_of(&due.table, 255));
        assert_eq!(marks, due.marks);
        timed.undo(call.undo);
    }
}

/// The flat box held against the model on every kind of message and table, before it is timed.
fn check_flat(count: u64) {
    let mut random = random::Random::new(11);
    let mut done = 0;
    while done < count {
        let mut run = mix::Run::new(&mut random);
        for _ in 0..run.left {
            done += 1;
            run.disturb(&mut random);
            let settings = run.next_settings(&mut random);
            if let Some(low) = run.next_low(&mut random) {
                model::low::raise(&mut run.table, settings.f, settings.capacity, low, &mut Vec::new());
            }
            let message = run.message(&mut random);
            let broken = run.broken_table(&mut random);
            let lent = broken.is_some();
            let mut table = broken.unwrap_or_else(|| run.table.clone());
            let (mut got, mut got_marks, mut marks) = (table.clone(), run.marks.clone(), run.marks.clone());
            let answer = flat::receive(&mut got, &mut got_marks, &settings, &message);
            let due = model::call(&mut table, &mut marks, &settings, &message, &model::MARKS, &mut Vec::new());
            assert_eq!((answer, &got, &got_marks), (due.apart_from_number(), &table, &marks), "flat box, {settings:?}, {message:?}");
            if !lent {
                (run.table, run.marks) = (table, marks);
            }
        }
    }
}

/// The tenth, fiftieth and ninetieth of a hundred.
struct Spread {
    low: f64,
    middle: f64,
    high: f64,
}

fn spread(mut numbers: Vec<f64>) -> Spread {
    numbers.sort_by(f64::total_cmp);
    let at = |percent: usize| numbers[(numbers.len() - 1) * percent / 100];
    Spread { low: at(10), middle: at(50), high: at(90) }
}

/// Nanoseconds a call, each round on all three boxes: engine, own, flat.
fn measure(call: &Call) -> Vec<[f64; 3]> {
    let (mut engine, mut own, mut flat) = (Engine(call.lent.clone()), Own::new(&call.lent), Flat(call.lent.clone()));
    check(&mut engine, call);
    check(&mut own, call);
    check(&mut flat, call);
    let [a, b, c] = [times(&mut engine, call), times(&mut own, call), times(&mut flat, call)];
    let round = |_| [turn(&mut engine, call, a), turn(&mut own, call, b), turn(&mut flat, call, c)];
    (0..ROUNDS).map(round).collect()
}

/// The median of each box's time in a round.
fn medians(rounds: &[[f64; 3]]) -> [f64; 3] {
    [0, 1, 2].map(|which| spread(rounds.iter().map(|round| round[which]).collect()).middle)
}

/// The engine's time by that of a box.
fn ratio(rounds: &[[f64; 3]], which: usize) -> Spread {
    spread(rounds.iter().map(|round| round[0] / round[which]).collect())
}

/// Prints a row.
fn report(name: &str, size: &str, rounds: &[[f64; 3]]) {
    let shown = |of: Spread| format!("{:.2} ({:.2} to {:.2})", of.middle, of.low, of.high);
    let [engine, own, flat] = medians(rounds);
    println!("| {name} | {size} | {engine:.0} | {own:.0} | {} | {flat:.0} | {} |", shown(ratio(rounds, 1)), shown(ratio(rounds, 2)));
}

/// Nanoseconds a message at a busy junction, each round on all three boxes.
fn at_a_junction() -> (usize, Vec<[f64; 3]>) {
    let junction = Junction::new();
    let (engine, own, flat) = (|| Engine(empty()), || Own::new(&empty()), || Flat(empty()));
    junction.check(engine());
    junction.check(own());
    junction.check(flat());
    let round = |_| [junction.turn(engine), junction.turn(own), junction.turn(flat)];
    (junction.messages.len(), (0..ROUNDS / 2).map(round).collect())
}

/// A7: PR within twice the own box's time, at 255 entries.
fn within_twice() -> bool {
    let mut within = true;
    for (name, title) in NAMES.iter().filter(|(_, title)| title.starts_with("PR")) {
        let own = ratio(&measure(&calls::call(*name, 255)), 1).middle;
        println!("{title}, 255 entries: {own:.2} of the own box's time, 2.0 at most");
        within &= own <= 2.0;
    }
    within
}

fn one(words: &[String]) {
    let (name, _) = NAMES.iter().find(|(_, name)| *name == words[0]).expect("a call's name");
    let number = |at: usize| words[at].parse::<u32>().expect("a number is due");
    let call = calls::call(*name, number(1) as usize);
    let nanos = match words[2].as_str() {
        "engine" => batch(&mut Engine(call.lent.clone()), &call, number(3)),
        "own" => batch(&mut Own::new(&call.lent), &call, number(3)),
        _ => batch(&mut Flat(call.lent.clone()), &call, number(3)),
    };
    println!("{nanos:.0}");
}

fn main() {
    let words: Vec<String> = std::env::args().skip(1).collect();
    if words.len() == 4 {
        return one(&words);
    }
    if words == ["check"] {
        exit(i32::from(!within_twice()));
    }
    check_flat(30_000);
    println!("| call | entries | engine, ns | own box, ns | engine / own box | flat box, ns | engine / flat box |");
    println!("|---|---|---|---|---|---|---|");
    let mut panels = Vec::new();
    let mut missed = Vec::new();
    for (name, title) in NAMES {
        let mut points = Vec::new();
        for size in SIZES {
            let rounds = measure(&calls::call(name, size));
            report(title, &size.to_string(), &rounds);
            points.push((size, medians(&rounds)));
            let own = ratio(&rounds, 1).middle;
            if size == 255 && own > 1.0 {
                missed.push(format!("{title} {own:.2}"));
            }
        }
        panels.push((title, points));
    }
    let (messages, rounds) = at_a_junction();
    report("a message at the junction", "0 to 255", &rounds);
    println!("\nThe junction has {messages} messages.");
    let missed = if missed.is_empty() { "every call meets it".to_string() } else { format!("missed by {}", missed.join(", ")) };
    println!("The aim at 255 entries, 1.0 or less beside the own box: {missed}.");
    if let [file] = &words[..] {
        std::fs::write(file, plot::drawn(&panels)).expect("the drawing is written");
    }
}
