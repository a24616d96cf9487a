//! The bench program once more, as a function of its input, and a bench program held against it.

use crate::messages::{iv, ld, pr, rd, tx, with_list, with_view};
use crate::mix;
use crate::model::{self, Answer, Decision, Election, Kind, Settings, Vote, MARKS};
use crate::random::Random;
use std::collections::BTreeMap;
use std::io::Write;
use std::process::{Command, Stdio};
use stobbarel::layout::table_len;

const LONGEST: usize = 65_536;

/// The box on the bench.
struct Bench {
    settings: Settings,
    table: Vec<u8>,
    marks: Vec<u64>,
}

/// What a record prints behind its mark, and how many bytes it took; none where the program stops.
type Told = (String, Option<usize>);

fn refused(number: u8) -> Told {
    (format!("refused {number}"), None)
}

pub fn eight(bytes: &[u8]) -> u64 {
    u64::from_le_bytes(bytes.try_into().expect("eight bytes"))
}

/// The bench's words for an answer; it does not print A6's number.
pub fn words(answer: Answer) -> String {
    let decided = |decision| if decision == Decision::Commit { "commit" } else { "abort" };
    match answer {
        Answer::Voted(Vote::Commit, _) => "commit".into(),
        Answer::Voted(Vote::Abort(reason), _) => format!("abort {reason}"),
        Answer::Voted(..) => "wait".into(),
        Answer::Decided(decision) => format!("decided {}", decided(decision)),
        Answer::Logged(decision, view) => format!("logged {} {view}", decided(decision)),
        Answer::Elected { decision, view, leader } => format!("elect {} {view} {leader}", decided(decision)),
        Answer::Done => "done".into(),
        Answer::Found { committed, undecided } => format!("{} {} {} {}", committed.0, committed.1, undecided.0, undecided.1),
        Answer::TooFew(lacking) => format!("refused 11 {lacking}"),
        Answer::Refused(number) => format!("refused {number}"),
        Answer::Raised => "ok".into(),
    }
}

/// The first record: "GP", f, capacity, δ.
fn begin(rest: &[u8]) -> (Option<Bench>, Told) {
    if &rest[..2] != b"GP" {
        return (None, refused(2));
    }
    if rest.len() < 12 {
        return (None, refused(1));
    }
    let settings = Settings { f: u64::from(rest[2]), capacity: u64::from(rest[3]), clock: 0, delta: eight(&rest[4..12]) };
    if !settings.in_order() {
        return (None, refused(14));
    }
    let table = vec![0; table_len(settings.capacity as usize)];
    (Some(Bench { settings, table, marks: vec![0; 512] }), ("ok".into(), Some(12)))
}

impl Bench {
    /// Any later record.
    fn record(&mut self, rest: &[u8]) -> Told {
        if &rest[..2] == b"CK" {
            if rest.len() < 10 {
                return refused(1);
            }
            self.settings.clock = eight(&rest[2..10]);
            return ("ok".into(), Some(10));
        }
        if &rest[..2] == b"LM" {
            if rest.len() < 10 {
                return refused(1);
            }
            let Settings { f, capacity, .. } = self.settings;
            let answer = model::low::raise(&mut self.table, f, capacity, eight(&rest[2..10]), &mut Vec::new());
            return (words(answer), Some(10));
        }
        match model::cut(rest) {
            Err(number) => refused(number),
            Ok(length) => {
                let answer = model::call(&mut self.table, &mut self.marks, &self.settings, &rest[..length], &MARKS, &mut Vec::new());
                (words(answer), Some(length))
            }
        }
    }
}

/// What the bench program prints.
pub fn bench(input: &[u8]) -> Vec<u8> {
    if input.len() > LONGEST {
        return b"too long\n".to_vec();
    }
    let (mut rest, mut out, mut at_work) = (input, String::new(), None::<Bench>);
    for number in 0.. {
        if rest.is_empty() {
            break;
        }
        let mark =
            rest.get(..2).and_then(|mark| std::str::from_utf8(mark).ok()).filter(|mark| ["GP", "CK", "LM", "PR", "LG", "DC", "RD", "IV", "LD"].contains(mark));
        let (text, taken) = match &mut at_work {
            _ if rest.len() < 2 => refused(1),
            Some(bench) => bench.record(rest),
            None => {
                let (bench, told) = begin(rest);
                at_work = bench;
                told
            }
        };
        out += &format!("{number} {} {text}\n", mark.unwrap_or("??"));
        match taken {
            Some(length) => rest = &rest[length..],
            None => break,
        }
    }
    out.into_bytes()
}

// ---- the paper's example

fn gp(f: u8, capacity: u8, delta: u64) -> Vec<u8> {
    [&[b'G', b'P', f, capacity][..], &delta.to_le_bytes()].concat()
}

fn ck(clock: u64) -> Vec<u8> {
    [&b"CK"[..], &clock.to_le_bytes()].concat()
}

fn lm(low: u64) -> Vec<u8> {
    [&b"LM"[..], &low.to_le_bytes()].concat()
}

const EXAMPLE_IN_HEX: [&str; 5] = [
    "47 50 01 08 0A 00 00 00 00 00 00 00",
    "43 4B 64 00 00 00 00 00 00 00",
    "50 52 54 58 00 01 32 00 00 00 00 00 00 00 03 00 07 00 00 00 00 00 00 00",
    "50 52 54 58 01 00 3C 00 00 00 00 00 00 00 03 00 32 00 00 00 00 00 00 00",
    "52 44 03 00 3C 00 00 00 00 00 00 00",
];

fn example() -> Vec<u8> {
    let bytes: Vec<u8> = EXAMPLE_IN_HEX.iter().flat_map(|line| line.split(' ').map(|byte| u8::from_str_radix(byte, 16).expect("hex"))).collect();
    assert_eq!(bytes, [gp(1, 8, 10), ck(100), pr(&tx(50, &[], &[(3, 7)])), pr(&tx(60, &[(3, 50)], &[])), rd(3, 60)].concat());
    assert_eq!(bench(&bytes), b"0 GP ok\n1 CK ok\n2 PR commit\n3 PR wait\n4 RD 0 0 50 7\n");
    bytes
}

// ---- inputs

/// A GP, then CKs, LMs and messages as the generator makes them, about so many bytes long.
fn stream(random: &mut Random, long: usize) -> Vec<u8> {
    let mut run = mix::Run::new(random);
    let Settings { f, capacity, delta, mut clock } = run.settings;
    let mut bytes = gp(f as u8, capacity as u8, delta);
    bytes.extend(ck(clock));
    while bytes.len() < long {
        run.next_settings(random);
        if run.settings.clock != clock {
            clock = run.settings.clock;
            bytes.extend(ck(clock));
        }
        if let Some(low) = run.next_low(random) {
            let settings = run.settings;
            model::low::raise(&mut run.table, settings.f, settings.capacity, low, &mut Vec::new());
            bytes.extend(lm(low));
            continue;
        }
        let message = run.message(random);
        if model::cut(&message) == Ok(message.len()) {
            // so that the generator knows what the bench holds
            let settings = run.settings;
            model::call(&mut run.table, &mut run.marks, &settings, &message, &MARKS, &mut Vec::new());
        } else if random.chance(95) {
            // most would stop the program too soon
            continue;
        }
        bytes.extend(message);
    }
    bytes
}

/// The same without records that would stop it, filled up to a length with CKs and RDs; the last may be cut.
fn filled(random: &mut Random, length: usize) -> Vec<u8> {
    let mut bytes = [gp(random.between(1, 5) as u8, random.between(1, 255) as u8, 0), ck(1 << 40)].concat();
    while bytes.len() < length {
        let stamp = random.between(1, 60);
        let key = random.below(4) as u16;
        let version = random.below(stamp);
        bytes.extend(match random.below(4) {
            0 => pr(&tx(stamp, &[], &[(key, stamp)])),
            1 => pr(&tx(stamp, &[(key, version)], &[(key, 1)])),
            2 => ck(1 << random.below(64)),
            _ => rd(key, stamp),
        });
    }
    bytes.truncate(length);
    bytes
}

/// One place of an input changed: a byte, a mark, a second GP, a cut.
fn damage(random: &mut Random, bytes: &mut Vec<u8>) {
    let at = random.below(bytes.len() as u64) as usize;
    match random.below(8) {
        0 => bytes.truncate(at),
        1 => bytes[at] = random.next() as u8,
        2 => {
            bytes.splice(12..12, gp(1, 8, 0));
        }
        3 => {
            let mark = random.one_of(&[b"TX", b"VL", b"XX", b"gp", b"CK", b"LM", b"PR", b"RD", &[0, 0], &[255, 255]]);
            let place = random.one_of(&[0, 12]);
            bytes.splice(place..(place + 2).min(bytes.len()), *mark);
        }
        4 => bytes[2] = random.one_of(&[0, 1, 5, 6, 255]),
        5 => bytes[3] = random.one_of(&[0, 1, 255]),
        6 => bytes.truncate(random.one_of(&[1, 2, 3, 11, 12, 13, 14, 21, 22, 23]).min(bytes.len())),
        _ => bytes.push(random.one_of(b"GPCRD\0")),
    }
}

/// Inputs about which the paper says something in particular.
fn particular(random: &mut Random) -> Vec<Vec<u8>> {
    let mut inputs: Vec<Vec<u8>> = (0..=example().len()).map(|length| example()[..length].to_vec()).collect();
    for length in [LONGEST - 1, LONGEST, LONGEST + 1, LONGEST + 2, 3 * LONGEST] {
        inputs.push(filled(random, length));
    }
    let fits = [gp(1, 8, 10), rd(0, 1), rd(0, 2), ck(7).repeat(6550)].concat();
    assert_eq!(fits.len(), LONGEST);
    inputs.push([&fits[..], b"C"].concat());
    inputs.push(fits);
    // too long, though it would have stopped at once
    inputs.push(vec![b'X'; LONGEST + 1]);
    inputs.push(vec![b'X'; LONGEST]);
    for first in [&b"G"[..], b"GP", b"CK", b"LM", b"L", b"PR", b"LG", b"DC", b"RD", b"IV", b"LD", b"TX", b"VL", b"VS", b"EL", b"??", b"\n", b"\xc3\xa9"] {
        inputs.push(first.to_vec());
        inputs.push([first, &example()[..]].concat());
        inputs.push([&example()[..], first].concat());
    }
    // a version that is waited for and then decided abort, which a mixture seldom has
    let aborted = with_list(b"DC", &tx(50, &[], &[(3, 7)]), Kind::Votes, Decision::Abort, &[0, 1, 2, 3].map(|number| (number, Decision::Abort)));
    inputs.push([example(), aborted, pr(&tx(60, &[(3, 50)], &[]))].concat());
    // the example's writer decided either way, and the low mark raised to it, to the same again and past it, an RD behind each
    for (decision, votes) in [(Decision::Commit, 6), (Decision::Abort, 4)] {
        let decided = with_list(b"DC", &tx(50, &[], &[(3, 7)]), Kind::Votes, decision, &[0, 1, 2, 3, 4, 5].map(|number| (number, decision))[..votes]);
        let raised: Vec<u8> =
            [49, 50, 50, 49, 59, 60, u64::MAX].into_iter().flat_map(|low| [lm(low), rd(3, 70), pr(&tx(60, &[(3, 50)], &[]))].concat()).collect();
        inputs.push([&example()[..], &lm(50), &decided, &raised].concat());
        inputs.extend((1..10).map(|length| [&example()[..], &decided, &lm(50)[..length]].concat()));
    }
    for (f, capacity) in [(0, 8), (1, 0), (5, 255), (6, 8), (255, 255)] {
        inputs.push([gp(f, capacity, 10), ck(100)].concat());
        inputs.push(gp(f, capacity, 10)[..11].to_vec());
    }
    inputs
}

/// The example with one byte of a record set wrong: counts, marks inside, codes.
fn wrong_bytes() -> Vec<Vec<u8>> {
    let body = tx(70, &[], &[(3, 7)]);
    let mut inputs = Vec::new();
    // TX: mark, r, w, stamp; VL behind the 22 bytes of the body: mark, kind, decision, count, a view of logs, box, answer
    for (place, byte) in [
        (2, b'V'),
        (3, 0),
        (4, 9),
        (5, 9),
        (5, 0),
        (6, 0),
        (15, 2),
        (24, b'T'),
        (26, 2),
        (26, 1),
        (26, 3),
        (27, 3),
        (28, 0),
        (28, 27),
        (29, 26),
        (30, 0),
        (31, 26),
        (32, 0),
    ] {
        for (mark, kind) in [(b"LG", Kind::Votes), (b"DC", Kind::Votes), (b"LG", Kind::Logs), (b"DC", Kind::Logs)] {
            let mut message = with_view(mark, &body, kind, Decision::Commit, 0x0102, &[(0, Decision::Commit)]);
            message.get_mut(place).into_iter().for_each(|at| *at = byte);
            inputs.push([&example()[..], &message, &rd(3, 80)].concat());
        }
    }
    inputs
}

/// The example, then a DC of logs: of views whose bytes could begin the next record among them, an RD behind it; the same cut at every byte; and without its view, as
/// lists were before, so that it goes on into whatever follows.
fn views() -> Vec<Vec<u8>> {
    let (body, answers) = (tx(70, &[], &[(3, 7)]), [0, 1, 2, 3, 4].map(|number| (number, Decision::Commit)));
    let mut inputs = Vec::new();
    for view in [0, 1, 255, 256, 65535, u16::from_le_bytes(*b"RD"), u16::from_le_bytes(*b"VL"), 0x0101] {
        let message = with_view(b"DC", &body, Kind::Logs, Decision::Commit, view, &answers);
        inputs.push([&example()[..], &message, &rd(3, 80), &message].concat());
        let from = example().len();
        inputs.extend((from..from + message.len()).map(|end| [&example()[..], &message].concat()[..end].to_vec()));
        let old = [&message[..29], &message[31..]].concat();
        for behind in [vec![], rd(3, 80), pr(&body), message.clone(), ck(1), vec![5, 1], vec![5, 1, b'R']] {
            inputs.push([&example()[..], &old, &behind].concat());
        }
    }
    inputs
}

/// The example's writer logged, then an IV and an LD of it, an RD behind each; the same cut at every byte, and with each byte of what is listed set to others.
fn fallbacks() -> Vec<Vec<u8>> {
    let body = tx(50, &[], &[(3, 7)]);
    let log = with_list(b"LG", &body, Kind::Votes, Decision::Abort, &[(0, Decision::Abort), (5, Decision::Abort)]);
    let before = [example(), log].concat();
    let mut inputs = Vec::new();
    for view in [0, 1, 256, 65535] {
        let answers = (0..5).map(|number| (number, if number < 3 { Decision::Commit } else { Decision::Abort }, view)).collect();
        let led = Election { leader: ((50 + u32::from(view)) % 6) as u8, decision: Decision::Commit, view, answers };
        for message in [iv(&body, &[0, 1, 3, 5].map(|number| (number, view))), iv(&body, &[(2, view), (4, view)]), ld(&body, &led)] {
            inputs.push([&before[..], &message, &rd(3, 80), &message, &rd(3, 80)].concat());
            inputs.extend((1..message.len()).map(|end| [&before[..], &message[..end]].concat()));
            for (place, byte) in (24..message.len()).flat_map(|place| [0, 2, 6, 27, 255].map(|byte| (place, byte))) {
                let mut other = message.clone();
                other[place] = byte;
                inputs.push([&before[..], &other, &rd(3, 80)].concat());
            }
        }
    }
    inputs
}

fn inputs(random: &mut Random, runs: u64) -> Vec<Vec<u8>> {
    let mut inputs = particular(random);
    inputs.extend(wrong_bytes());
    inputs.extend(views());
    inputs.extend(fallbacks());
    for _ in 0..runs {
        let long = random.one_of(&[100, 500, 2000, 2000, 8000]);
        let mut bytes = if random.chance(85) { stream(random, long) } else { filled(random, long) };
        if random.chance(25) {
            damage(random, &mut bytes);
        }
        inputs.push(bytes);
    }
    inputs
}

// ---- a program held against it

/// What a program prints for an input.
pub fn output(program: &str, input: Vec<u8>) -> Result<Vec<u8>, String> {
    let mut child = Command::new(program).stdin(Stdio::piped()).stdout(Stdio::piped()).spawn().map_err(|why| format!("{program}: {why}"))?;
    let mut pipe = child.stdin.take().expect("a pipe");
    // a program that has seen enough may stop reading
    let writer = std::thread::spawn(move || drop(pipe.write_all(&input)));
    let done = child.wait_with_output().map_err(|why| why.to_string())?;
    writer.join().expect("the writer ends");
    match done.status.code() {
        Some(_) => Ok(done.stdout),
        None => Err(format!("{program} ended by {}", done.status)),
    }
}

const ONE_LACKING: &str = "refused 11 1";
const MORE_LACKING: &str = "refused 11 and more than 1";
const FIRST_LOGS: [&str; 2] = ["logged commit 0", "logged abort 0"];
const LATER_LOGS: [&str; 2] = ["logged commit and a later view", "logged abort and a later view"];
const ELECTS: [&str; 2] = ["elect commit", "elect abort"];

/// What has to stand in the outputs; refusals 4, 10, 16 and 17 cannot.
fn due() -> Vec<String> {
    let fixed = ["ok", "commit", "wait", "decided commit", "decided abort", "done", "found", "too long", ONE_LACKING, MORE_LACKING];
    let fixed = fixed.into_iter().chain(FIRST_LOGS).chain(LATER_LOGS).chain(ELECTS);
    let aborts = (1..=6).map(|reason| format!("abort {reason}"));
    let refusals = (1..=24).filter(|number| ![4, 10, 11].contains(number) && ![16, 17, 20].contains(number)).map(|number| format!("refused {number}"));
    fixed.map(|word| word.to_string()).chain(aborts).chain(refusals).collect()
}

fn count(lines: &[u8], counts: &mut BTreeMap<String, u64>) {
    for line in String::from_utf8_lossy(lines).lines() {
        let text = line.splitn(3, ' ').nth(2).unwrap_or(line);
        let name = match text {
            _ if text.starts_with(|letter: char| letter.is_ascii_digit()) => "found",
            // one lacking, or more, whatever number
            _ if text.starts_with("refused 11 ") && text != ONE_LACKING => MORE_LACKING,
            _ if text.starts_with("logged ") && !FIRST_LOGS.contains(&text) => LATER_LOGS[usize::from(text.starts_with("logged abort"))],
            _ if text.starts_with("elect ") => ELECTS[usize::from(text.starts_with("elect abort"))],
            _ => text,
        };
        *counts.entry(name.to_string()).or_default() += 1;
    }
}

/// The program's output against the model's on many inputs, byte for byte. False where one differs or an answer did not occur.
pub fn check(program: &str, runs: u64, seed: u64) -> bool {
    let (mut wrong, mut bytes, mut counts) = (0, 0, BTreeMap::new());
    let inputs = inputs(&mut Random::new(seed), runs);
    let all = inputs.len();
    for (number, input) in inputs.into_iter().enumerate() {
        let due = bench(&input);
        count(&due, &mut counts);
        bytes += input.len();
        let given = output(program, input.clone());
        if given.as_ref() != Ok(&due) {
            wrong += 1;
            if wrong <= 3 {
                show(number, &input, &due, &given);
            }
        }
    }
    let missing: Vec<String> = due().into_iter().filter(|one| !counts.contains_key(one)).collect();
    println!("{all} inputs for the bench, {bytes} bytes, seed {seed}: {wrong} outputs differ");
    counts.iter().for_each(|(answer, times)| println!("{times:9}  {answer}"));
    missing.iter().for_each(|answer| println!("        0  {answer}  DID NOT OCCUR"));
    wrong == 0 && missing.is_empty()
}

/// An input with the first line on which the two outputs differ.
fn show(number: usize, input: &[u8], due: &[u8], given: &Result<Vec<u8>, String>) {
    let start: Vec<String> = input.iter().take(400).map(|byte| format!("{byte:02x}")).collect();
    println!("input {number}, {} bytes: {}", input.len(), start.join(" "));
    match given {
        Err(why) => println!("  {why}"),
        Ok(given) => {
            let (due, given) = (String::from_utf8_lossy(due), String::from_utf8_lossy(given));
            let at = due.lines().zip(given.lines()).take_while(|(one, other)| one == other).count();
            let line = |text: &str| text.lines().nth(at).map_or("the end".into(), |line| format!("{line:?}"));
            println!("  line {at}: the program has {}, the model {}; {} and {} bytes", line(&given), line(&due), given.len(), due.len());
        }
    }
}
