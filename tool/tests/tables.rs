//! Kept tables as people read them.

use std::fs;
use stobbarel::layout::{table_len, BODY_AT, DECIDED_AT, HEAD, LOG_AT, REASON_AT, ROW, VOTE_AT};
use stobbarel::{Group, Stamp, Table};
use stobbarel_tool::{capacity_by_length, pack_line, read_marks, readable, told, Outcome, Record};

const DOCUMENT: &str = include_str!("../../docs/TOOL.md");

/// The table of the stored example, behind its last record.
fn example() -> Table {
    made_by(&fs::read_to_string(concat!(env!("CARGO_MANIFEST_DIR"), "/examples/box.txt")).expect("the example"))
}

/// The table behind the last record of a text.
fn made_by(text: &str) -> Table {
    let group = Group::of(1).expect("an f");
    let (mut table, mut clock, mut delta) = (None, 0, 0);
    for (record, bytes) in text.lines().filter_map(|line| pack_line(group, line).expect("a line in order")) {
        match record {
            Record::Gp { capacity, delta: told, .. } => (table, delta) = (Table::new(group, capacity.into()).ok(), told),
            Record::Ck(told) => clock = told,
            Record::Lm(low) => _ = table.as_mut().expect("a GP comes first").raise(Stamp(low)),
            // some are refused, as the example shows
            _ => _ = table.as_mut().expect("a GP comes first").receive(clock, delta, &bytes),
        }
    }
    table.expect("a GP")
}

/// The example's table, and behind an empty line its read marks.
const EXAMPLE: &str = include_str!("../examples/box.table");

fn without_marks() -> &'static str {
    EXAMPLE.split_once("\n\n").map_or(EXAMPLE, |(table, _)| &EXAMPLE[..=table.len()])
}

#[test]
fn the_example() {
    let table = example();
    assert_eq!(readable(table.bytes(), 4, None).as_deref(), Ok(without_marks()));
    assert_eq!(readable(table.bytes(), 4, Some(table.marks())).as_deref(), Ok(EXAMPLE));
    assert!(without_marks().ends_with("3=9\n") && EXAMPLE.ends_with("\nkey  read mark\n3    60\n"));
}

#[test]
fn an_empty_table() {
    let table = Table::new(Group::of(5).expect("an f"), 255).expect("a capacity");
    assert_eq!(readable(table.bytes(), 255, Some(table.marks())).as_deref(), Ok("0 of 255 entries\n\nno read mark above 0\n"));
}

#[test]
fn low_mark_and_folds() {
    let example = fs::read_to_string(concat!(env!("CARGO_MANIFEST_DIR"), "/examples/box.txt")).expect("the example");
    let table = made_by(&(example + "LM 50\n"));
    let shown = readable(table.bytes(), 4, Some(table.marks())).expect("a table in order");
    assert!(shown.starts_with("2 of 4 entries, low mark 50\nrow  stamp  vote "), "{shown}");
    assert!(shown.ends_with("  3=9\n\nkey  folded version  value\n3    50              7\n\nkey  read mark\n3    60\n"), "{shown}");
    let (first, _) = shown.split_once('\n').expect("lines");
    let folds: String = shown.split("\n\n").nth(1).expect("folds").lines().map(|line| format!("    {line}\n")).collect();
    assert!(DOCUMENT.contains(&format!("    {first}\n")) && DOCUMENT.contains(&folds));
    let alone = made_by("GP f 1 capacity 1 delta 0\nLM 7\n");
    assert_eq!(readable(alone.bytes(), 1, None).as_deref(), Ok("0 of 1 entries, low mark 7\n"));
}

#[test]
fn capacities_by_length() {
    assert_eq!((capacity_by_length(table_len(1)), capacity_by_length(table_len(255))), (Some(1), Some(255)));
    for length in [0, 1, table_len(1) - 1, table_len(1) + 1, table_len(256)] {
        assert_eq!(capacity_by_length(length), None);
    }
}

/// One byte of the second row set to this.
fn broken(at: usize, byte: u8) -> Result<String, String> {
    let mut bytes = example().bytes().to_vec();
    bytes[HEAD + ROW + at] = byte;
    readable(&bytes, 4, None)
}

#[test]
fn the_first_wrong_row_is_told() {
    let row = |codes: &str| format!("row 1 is the first that is wrong: {codes}");
    for (at, byte, codes) in [
        (VOTE_AT, 4, "vote 4, reason 0, decision 0, log 1, reads 1, writes 1"),
        (VOTE_AT, 2, "vote 2, reason 0, decision 0, log 1, reads 1, writes 1"),
        (REASON_AT, 1, "vote 1, reason 1, decision 0, log 1, reads 1, writes 1"),
        (DECIDED_AT, 3, "vote 1, reason 0, decision 3, log 1, reads 1, writes 1"),
        (LOG_AT, 255, "vote 1, reason 0, decision 0, log 255, reads 1, writes 1"),
        (BODY_AT + 2, 9, "vote 1, reason 0, decision 0, log 1, reads 9, writes 1"),
        (BODY_AT + 3, 9, "vote 1, reason 0, decision 0, log 1, reads 1, writes 9"),
    ] {
        let wrong = broken(at, byte).expect_err("a wrong row");
        assert!(at != VOTE_AT || byte != 4 || DOCUMENT.contains(&wrong.lines().map(|line| format!("    {line}\n")).collect::<String>()));
        assert!(wrong.starts_with("refused 16, table: "), "{wrong}");
        assert_eq!(wrong.lines().nth(1), Some(row(codes).as_str()));
    }
}

#[test]
fn of_two_wrong_rows_the_first_is_told() {
    let mut bytes = example().bytes().to_vec();
    (bytes[HEAD + ROW + VOTE_AT], bytes[HEAD + 2 * ROW + VOTE_AT]) = (7, 8);
    let wrong = readable(&bytes, 4, None).expect_err("wrong rows");
    assert!(wrong.contains("\nrow 1 is the first that is wrong: vote 7, "), "{wrong}");
    // What stands behind the last entry is not looked at.
    bytes[0] = 1;
    assert!(readable(&bytes, 4, None).is_ok_and(|told| told.starts_with("1 of 4 entries\n")));
}

#[test]
fn a_wrong_count_or_length_is_told() {
    let bytes = example().bytes().to_vec();
    let why = |bytes: &[u8], capacity: u64| readable(bytes, capacity, None).expect_err("a wrong table").lines().nth(1).map(String::from);
    assert_eq!(why(&bytes, 2).as_deref(), Some("3 entries, and the capacity is 2"));
    assert_eq!(why(&bytes, 5).as_deref(), Some("8921 bytes, and capacity 5 has 9101"));
    assert_eq!(why(&[], 1).as_deref(), Some("0 bytes, and capacity 1 has 8381"));
    for capacity in [0, 256, u64::MAX] {
        assert_eq!(readable(&bytes, capacity, None), Err("refused 14, group: f not 1 to 5, or capacity not 1 to 255".into()));
    }
}

/// Numbers that are not 16 are taken as they stand: a body that no reader takes is told beside its row, a stamp that is held twice is two rows.
#[test]
fn what_only_a_lent_table_holds() {
    let told = broken(BODY_AT + 13, 2).expect("key 515 is not 16");
    assert!(told.contains("refused 5, range: stamp 0, key above 511, or box number n or more  none"), "{told}");
    let twice = broken(BODY_AT + 4, 50).expect("a stamp twice is not 16");
    // 50 reads at version 50 then, and that is 7.
    assert!(twice.contains("\n0    50     commit ") && twice.contains("\n1    50     commit ") && twice.contains("refused 7, "), "{twice}");
    let unvoted = broken(VOTE_AT, 0).expect("no vote is not 16");
    assert!(unvoted.contains("\n1    60     none "), "{unvoted}");
    assert!(broken(VOTE_AT, 3).expect("waiting is not 16").contains("\n1    60     waiting "));
    assert!(broken(LOG_AT, 2).expect("another log is not 16").contains(" abort in view 1 "));
}

#[test]
fn read_marks_of_a_file() {
    let mut bytes = vec![0; 4096];
    bytes[8 * 511] = 7;
    bytes[8 * 511 + 7] = 1;
    let marks = read_marks(&bytes).expect("512 numbers");
    assert_eq!((marks[0], marks[511]), (0, 7 + (1 << 56)));
    assert!([0, 8, 4095, 4097, 4104].into_iter().all(|length| read_marks(&vec![0; length]).is_none()));
}

fn command(words: &[&str]) -> Outcome {
    let words: Vec<String> = words.iter().map(|word| word.to_string()).collect();
    told(&words, || panic!("a table is not read from standard input"))
}

#[test]
fn from_files() {
    let table = example();
    let folder = std::path::Path::new(env!("CARGO_TARGET_TMPDIR"));
    let path = |name: &str| folder.join(name).display().to_string();
    let (kept, marks, longer) = (path("kept"), path("marks"), path("longer"));
    fs::write(&kept, table.bytes()).expect("a file");
    fs::write(&longer, [table.bytes(), &[0]].concat()).expect("a file");
    fs::write(&marks, table.marks().iter().flat_map(|mark| mark.to_le_bytes()).collect::<Vec<u8>>()).expect("a file");
    assert_eq!(command(&["table", &kept]).out, without_marks().as_bytes());
    assert_eq!(command(&["table", &longer, "--capacity", "4"]).out, without_marks().as_bytes());
    let with_marks = command(&["table", "--marks", &marks, &kept]);
    assert_eq!(with_marks.out, EXAMPLE.as_bytes());
    let refused = command(&["table", &kept, "--capacity", "2"]);
    assert_eq!((refused.out.len(), refused.code), (0, 1));
    assert!(refused.wrong.starts_with(&format!("{kept}: refused 16, table: ")));
    let no_length = command(&["table", &longer]);
    assert_eq!(no_length.wrong, format!("{longer}: 8922 bytes are the length of no capacity; --capacity N names it\n"));
    assert_eq!(command(&["table", &kept, "--marks", &kept]).wrong, format!("{kept}: read marks are 512 numbers of eight bytes, 4096 in all\n"));
    assert_eq!(command(&["table", &path("none")]).code, 1);
    assert_eq!(command(&["table"]).code, 2);
    assert_eq!(command(&["table", &kept, &kept]).code, 2);
    assert_eq!(command(&["table", &kept, "--capacity", "many"]).code, 2);
}
