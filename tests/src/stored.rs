//! Stored input for the bench program, in files that a person can read. A case is a line `= name`, then records in hex as 01 writes them (`"PR"` is
//! its letters, `00×7` seven zero bytes, `#` begins a comment), each with the line behind `>` that it has to print; a record without one stands behind
//! a stop. What stands before a file's first case begins each of its cases.
//!
//! A case is put to the program and to the model's bench, and its messages and low marks, one by one, to the engine's C interface, messages by either entrance.

use crate::bench::{bench, eight, output, words};
use crate::engine::{self, Entrance};
use crate::model::Settings;
use std::fs;

#[derive(Clone)]
struct Record {
    bytes: Vec<u8>,
    due: Option<String>,
}

struct Case {
    name: String,
    records: Vec<Record>,
}

/// A word of a record: letters in quotes, or a byte in hex, perhaps so many times.
fn put(word: &str, bytes: &mut Vec<u8>) -> Option<()> {
    if let Some(letters) = word.strip_prefix('"').and_then(|rest| rest.strip_suffix('"')) {
        bytes.extend(letters.as_bytes());
        return Some(());
    }
    let (byte, times) = word.split_once('×').unwrap_or((word, "1"));
    let byte = u8::from_str_radix(byte, 16).ok().filter(|_| byte.len() == 2)?;
    bytes.extend(vec![byte; times.parse().ok()?]);
    Some(())
}

/// The cases of a file, or the line that says nothing.
fn cases(text: &str) -> Result<Vec<Case>, String> {
    let (mut beginning, mut cases) = (Vec::new(), Vec::<Case>::new());
    for (number, line) in text.lines().enumerate() {
        if let Some(name) = line.strip_prefix("= ") {
            cases.push(Case { name: name.into(), records: beginning.clone() });
            continue;
        }
        let records = cases.last_mut().map_or(&mut beginning, |case| &mut case.records);
        if let Some(due) = line.strip_prefix("> ") {
            let record = records.last_mut().filter(|record: &&mut Record| record.due.is_none());
            record.ok_or(format!("line {}: no record prints this", number + 1))?.due = Some(due.into());
            continue;
        }
        let words = line.split('#').next().unwrap_or("");
        // a record goes on over lines until what it prints
        if !words.trim().is_empty() && records.last().is_none_or(|record| record.due.is_some()) {
            records.push(Record { bytes: Vec::new(), due: None });
        }
        for word in words.split_whitespace() {
            let bytes = &mut records.last_mut().expect("a record").bytes;
            put(word, bytes).ok_or(format!("line {}: {word} is no byte", number + 1))?;
        }
    }
    Ok(cases)
}

/// The messages of a case by the engine's C interface, all by receive or each by due with its mark: the first answer that is not the one due.
/// GP and CK are the bench's own.
fn by_c(case: &Case, by_due: bool) -> Result<(), String> {
    let mut settings = None::<Settings>;
    // all zeros is an empty table, and longer than any capacity needs is no fault
    let (mut table, mut marks) = (vec![0; 1 << 17], vec![0; 512]);
    for record in &case.records {
        let Some(due) = &record.due else { break };
        let (bytes, said) = (&record.bytes, due.splitn(3, ' ').nth(2).unwrap_or(""));
        match (bytes.get(..2), &mut settings) {
            (Some(b"GP"), None) if said == "ok" => {
                settings = Some(Settings { f: bytes[2].into(), capacity: bytes[3].into(), clock: 0, delta: eight(&bytes[4..]) });
            }
            (Some(b"CK"), Some(settings)) if said == "ok" => settings.clock = eight(&bytes[2..]),
            (Some(b"GP" | b"CK"), _) | (_, None) => {}
            // one that is cut is the bench's to refuse
            (Some(b"LM"), Some(_)) if bytes.len() < 10 => {}
            (_, Some(settings)) => {
                let own = bytes.first_chunk().and_then(Entrance::of).filter(|_| by_due);
                let entrance = if bytes.starts_with(b"LM") { Entrance::Raise(eight(&bytes[2..])) } else { own.unwrap_or(Entrance::Receive) };
                let out = engine::call(entrance, &mut table, &mut marks, settings, bytes)?;
                let given = engine::answer_of(out).map_or(format!("{out:?}"), words);
                if given != said {
                    return Err(format!("{given}, and {due} is due"));
                }
            }
        }
    }
    Ok(())
}

/// The first line on which an output is not the one due.
fn differs(due: &str, given: &[u8]) -> Result<(), String> {
    let given = String::from_utf8_lossy(given);
    if given == due {
        return Ok(());
    }
    let at = due.lines().zip(given.lines()).take_while(|(one, other)| one == other).count();
    let line = |text: &str| text.lines().nth(at).unwrap_or("the end").to_string();
    Err(format!("{}, and {} is due", line(&given), line(due)))
}

/// The cases of every file of a folder. False where one differs, where a file cannot be read, or where it has no case.
pub fn check(program: &str, folder: &str) -> bool {
    let mut files: Vec<_> = fs::read_dir(folder).into_iter().flatten().flatten().map(|file| file.path()).collect();
    files.sort();
    let (mut all, mut lines, mut wrong) = (0, 0, 0);
    for file in &files {
        let name = file.display();
        let found = fs::read_to_string(file).map_err(|why| why.to_string()).and_then(|text| cases(&text));
        let found = found.and_then(|cases| if cases.is_empty() { Err("no case".into()) } else { Ok(cases) });
        let cases = found.unwrap_or_else(|why| {
            println!("{name}: {why}");
            wrong += 1;
            Vec::new()
        });
        for case in &cases {
            let input = case.records.iter().flat_map(|record| record.bytes.clone()).collect::<Vec<u8>>();
            let due: String = case.records.iter().flat_map(|record| &record.due).map(|line| format!("{line}\n")).collect();
            all += 1;
            lines += due.lines().count();
            let by = [
                ("the program", output(program, input.clone()).and_then(|given| differs(&due, &given))),
                ("the model", differs(&due, &bench(&input))),
                ("the C interface, by receive", by_c(case, false)),
                ("the C interface, by due", by_c(case, true)),
            ];
            for (who, how) in by {
                if let Err(how) = how {
                    println!("{name}, {}: {who}: {how}", case.name);
                    wrong += 1;
                }
            }
        }
    }
    println!("{all} stored cases of {} files, {lines} lines of the bench, by the program, the model and the C interface: {wrong} differ", files.len());
    wrong == 0 && all > 0
}
