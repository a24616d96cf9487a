//! `run` beside the bench: its own stored input (crates/bench), every stored case of tests/bench, and the example of this package.

use std::fs;
use stobbarel::Group;
use stobbarel_tool::{pack_line, run, told, Line};

const ROOT: &str = concat!(env!("CARGO_MANIFEST_DIR"), "/..");

fn file(path: &str) -> Vec<u8> {
    fs::read(format!("{ROOT}/{path}")).unwrap_or_else(|why| panic!("{path}: {why}"))
}

fn text(path: &str) -> String {
    String::from_utf8(file(path)).expect("text")
}

#[derive(Clone, Default)]
struct Record {
    bytes: Vec<u8>,
    due: Option<String>,
}

/// A word of a stored record: letters in quotes, or a byte in hex, perhaps so many times.
fn bytes_of(word: &str) -> Vec<u8> {
    if let Some(letters) = word.strip_prefix('"') {
        return letters.trim_end_matches('"').into();
    }
    let (byte, times) = word.split_once('×').unwrap_or((word, "1"));
    vec![u8::from_str_radix(byte, 16).expect("a byte in hex"); times.parse().expect("a count")]
}

/// The cases of a file of tests/bench by name; tests/src/stored.rs says how they are written.
fn cases(text: &str) -> Vec<(String, Vec<Record>)> {
    let (mut beginning, mut cases) = (Vec::<Record>::new(), Vec::<(String, Vec<Record>)>::new());
    for line in text.lines() {
        if let Some(name) = line.strip_prefix("= ") {
            cases.push((name.into(), beginning.clone()));
            continue;
        }
        let records = cases.last_mut().map_or(&mut beginning, |(_, records)| records);
        if let Some(due) = line.strip_prefix("> ") {
            records.last_mut().expect("a record").due = Some(due.into());
            continue;
        }
        let bytes: Vec<u8> = line.split('#').next().unwrap_or("").split_whitespace().flat_map(bytes_of).collect();
        match records.last_mut() {
            Some(record) if record.due.is_none() => record.bytes.extend(bytes),
            _ if !bytes.is_empty() => records.push(Record { bytes, due: None }),
            _ => {}
        }
    }
    cases
}

/// The words beside a line pack to the very bytes of the record; there are none only where it was refused as it was read.
fn words_are_the_record(group: Group, line: &Line, bytes: &[u8]) {
    let packed = pack_line(group, &line.words).unwrap_or_else(|wrong| panic!("{}: {wrong:?}", line.words));
    // A number in the answer, of a reason or a refusal, has words too.
    let told = line.words.split_once("# ").map(|(_, why)| why);
    assert_eq!(told.is_some(), line.said.contains(" PR abort ") || line.said.contains(" refused "), "{}", line.said);
    assert!(told.is_none() || told.is_some_and(|why| why.contains(' ')), "{}", line.words);
    match packed {
        Some((_, packed)) => assert_eq!(packed, bytes, "{}", line.words),
        None => {
            let number = line.said.split("refused ").nth(1).and_then(|rest| rest.parse::<u8>().ok());
            assert!(number.is_some_and(|number| number <= 8 || number == 14), "{} has no words", line.said);
            assert!(line.words.starts_with("# "));
        }
    }
}

#[test]
fn stored_cases() {
    let (mut lines, mut all) = (0, 0);
    for entry in fs::read_dir(format!("{ROOT}/tests/bench")).expect("stored input").flatten() {
        for (name, records) in cases(&fs::read_to_string(entry.path()).expect("text")) {
            let input: Vec<u8> = records.iter().flat_map(|record| record.bytes.clone()).collect();
            let due: Vec<&String> = records.iter().flat_map(|record| &record.due).collect();
            let given = run(&input);
            assert_eq!(given.iter().map(|line| &line.said).collect::<Vec<_>>(), due, "{}, {name}", entry.path().display());
            // A GP that is refused tells no group, and nothing is read behind it.
            let group = Group::of(records[0].bytes.get(2).copied().unwrap_or(0)).unwrap_or(Group::of(1).expect("an f"));
            given.iter().zip(&records).for_each(|(line, record)| words_are_the_record(group, line, &record.bytes));
            (lines, all) = (lines + given.len(), all + 1);
        }
    }
    assert!(all > 50 && lines > 400, "{all} cases, {lines} lines");
}

fn printed(words: &[&str], input: Vec<u8>) -> String {
    let words: Vec<String> = words.iter().map(|word| word.to_string()).collect();
    let outcome = told(&words, || Ok(input));
    assert_eq!((outcome.wrong.as_str(), outcome.code), ("", 0));
    String::from_utf8(outcome.out).expect("text")
}

/// What stands in front of the two spaces that set off the record.
fn first_column(printed: &str) -> String {
    printed.lines().map(|line| format!("{}\n", line.split("  ").next().unwrap_or(""))).collect()
}

#[test]
fn the_papers_example() {
    let given = printed(&["run"], file("crates/bench/stdin"));
    assert_eq!(first_column(&given), text("crates/bench/stdout"));
    let as_text = printed(&["unpack"], file("crates/bench/stdin"));
    assert_eq!(printed(&["run", "--text"], as_text.into()), given);
}

#[test]
fn the_stored_example() {
    assert_eq!(printed(&["run", "--text"], file("tool/examples/box.txt")), text("tool/examples/box.run"));
}

/// More than the bench takes, and where it stops.
#[test]
fn too_long_and_stops() {
    assert_eq!(printed(&["run"], vec![b'X'; 65_537]), "too long\n");
    assert_eq!(printed(&["run"], vec![b'X'; 65_536]), "0 ?? refused 2  # mark: the mark is not the one due\n");
    let begun = file("crates/bench/stdin")[..12].to_vec();
    let stops = [
        ("GP", "1 GP refused 2"),
        ("TX", "1 ?? refused 2"),
        ("C", "1 ?? refused 1"),
        ("CK", "1 CK refused 1"),
        ("LM", "1 LM refused 1"),
        ("LM1234567", "1 LM refused 1"),
        ("LDTX\0\0", "1 LD refused 3"),
    ];
    for (behind, said) in stops {
        let given = run(&[&begun, behind.as_bytes()].concat());
        assert_eq!((given.len(), given[1].said.as_str()), (2, said));
    }
}
