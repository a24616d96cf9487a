//! The engine tested from outside, by way of its C interface. See `usage`.

mod bench;
mod bodies;
mod broken;
mod cluster;
mod compare;
mod engine;
mod gateways;
mod holdings;
mod incident;
mod judge;
mod member;
mod messages;
mod mix;
mod model;
mod month;
mod order;
mod passages;
mod random;
mod records;
mod stored;
mod vectors;

use member::{Beside, Engine};
use random::Random;
use std::io::{Read, Write};
use std::process::exit;

const USAGE: &str = "\
stobbarel-tests [compare] [COUNT [SEED]]   COUNT messages (2000000) on the engine and on the model, and what the table holds after each
stobbarel-tests vectors                    records read and written, messages by each entrance, LGs before the PR, lists, old entries let go, the fallback, what is held, answers taken by sheets, as the papers have them
stobbarel-tests bodies                     two bodies under one stamp that differ in little: each byte, counts alone, length
stobbarel-tests records [COUNT [SEED]]     COUNT records (500000) written by engine and model, each read as it is and damaged
stobbarel-tests cluster [RUNS [SEED]]      RUNS clusters (20000) of the engine, demand 3 and A10 judged after every call
stobbarel-tests broken [MOST [SEED]]       boxes with a broken rule, and bad boxes: each must be noticed, within MOST clusters (20000)
stobbarel-tests order [COUNT [SEED]]       COUNT pairs of decisions (10000) in both orders, later calls on both tables answered alike
stobbarel-tests passages [COUNT [SEED]]    COUNT looks (200000) at passages: reports, corrections and entries beside a model
stobbarel-tests month [COUNT [SEED]]       COUNT passages (10000) at one box, its low mark raised whenever it is full, each report as it was written
stobbarel-tests gateways [COUNT [SEED]]    what each way through costs, a gateway that dies at each step, COUNT worlds (400) with liars and evil gateways, each habit left out
                                           once; with --worlds the worlds alone, with --without HABIT what then hangs, with --pictures FOLDER the drawings
stobbarel-tests incident                   the night that one correction was decided both ways, and why it cannot be again
stobbarel-tests bench PROGRAM [RUNS [SEED]]  RUNS inputs (400) for the bench program, its output against the model's
stobbarel-tests stored PROGRAM FOLDER      the folder's stored input for the bench program, and what it has to print
stobbarel-tests model-bench                the model's bench, from standard input to standard output";

fn usage() -> ! {
    eprintln!("{USAGE}");
    exit(2)
}

/// The number at a place of the command line, or what stands for it there.
fn number(words: &[String], place: usize, default: u64) -> u64 {
    match words.get(place) {
        Some(word) => word.parse().unwrap_or_else(|_| usage()),
        None => default,
    }
}

fn compare(words: &[String]) -> bool {
    let (count, seed) = (number(words, 0, 2_000_000), number(words, 1, 1));
    compare::check(&mut Engine, count, seed)
}

fn records(words: &[String]) -> bool {
    let (count, seed) = (number(words, 0, 500_000), number(words, 1, 1));
    let written = records::run(&mut Random::new(seed), count);
    println!("{count} records written, each read as it is and damaged, seed {seed}");
    let missing = written.told();
    println!("{} disagreements, {missing} answers did not occur", written.disagreements);
    missing == 0 && written.disagreements == 0
}

/// The model's bench as a program, for comparing by hand.
fn model_bench() -> bool {
    let mut input = Vec::new();
    let read = std::io::stdin().read_to_end(&mut input);
    read.and_then(|_| std::io::stdout().write_all(&bench::bench(&input))).is_ok()
}

fn main() {
    let words: Vec<String> = std::env::args().skip(1).collect();
    let rest = words.get(1..).unwrap_or(&[]);
    let passed = match words.first().map(String::as_str) {
        Some("compare") => compare(rest),
        Some("records") => records(rest),
        Some("vectors") => vectors::check(),
        Some("bodies") => bodies::check(),
        Some("cluster") => cluster::check(&mut Beside, number(rest, 0, 20_000), number(rest, 1, 1)),
        Some("broken") => broken::check(number(rest, 0, 20_000), number(rest, 1, 1)),
        Some("order") => order::check(number(rest, 0, 10_000), number(rest, 1, 1)),
        Some("passages") => passages::check(number(rest, 0, 200_000), number(rest, 1, 1)),
        Some("month") => month::check(number(rest, 0, 10_000), number(rest, 1, 1)),
        Some("gateways") => gateways::check(rest),
        Some("incident") => incident::check(),
        Some("stored") if rest.len() == 2 => stored::check(&rest[0], &rest[1]),
        Some("model-bench") => model_bench(),
        Some("bench") if !rest.is_empty() => bench::check(&rest[0], number(rest, 1, 400), number(rest, 2, 1)),
        Some(word) if word.parse::<u64>().is_err() => usage(),
        _ => compare(&words),
    };
    exit(i32::from(!passed));
}
