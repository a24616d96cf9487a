//! A kept table for people. Each row is told by the package, as a table of its own.

use crate::text::{reads, writes};
use stobbarel::layout::{table_len, BODY_AT, DECIDED_AT, HEAD, KEYS, LOG_AT, REASON_AT, ROW, VOTE_AT};
use stobbarel::{read_tx, Group, Held, Key, Refusal, Stamp, Table};

/// Where in a TX the counts and the stamp stand (docs/RECORDS.md).
const R_AT: usize = BODY_AT + 2;
const W_AT: usize = BODY_AT + 3;
const STAMP_AT: usize = BODY_AT + 4;

const HEADINGS: [&str; 8] = ["row", "stamp", "vote", "log", "view", "decision", "reads", "writes"];

/// The capacity of a table that has just as many bytes; none where no capacity has.
pub fn capacity_by_length(length: usize) -> Option<u64> {
    (1..=255).find(|capacity| table_len(*capacity) == length).map(|capacity| capacity as u64)
}

/// Read marks as they are kept: 512 numbers of eight bytes, the lowest first.
pub fn read_marks(bytes: &[u8]) -> Option<[u64; KEYS]> {
    let marks: Vec<u64> = bytes.chunks(8).map(|eight| Some(u64::from_le_bytes(eight.try_into().ok()?))).collect::<Option<_>>()?;
    marks.try_into().ok()
}

fn row(bytes: &[u8], number: usize) -> Option<&[u8]> {
    bytes.get(HEAD + ROW * number..HEAD + ROW * (number + 1))
}

/// A row as a table that holds nothing else.
fn alone(row: &[u8]) -> Result<Table, Refusal> {
    Ok(Table::kept(Group::of(1)?, 1, [&[1], &[0; HEAD - 1][..], row].concat(), Box::new([0; KEYS])))
}

fn stamp_of(row: &[u8]) -> Stamp {
    Stamp(u64::from_le_bytes(row[STAMP_AT..STAMP_AT + 8].try_into().expect("eight bytes")))
}

/// The cells of what is held. A body that no reader takes stands in a lent table only, and is told by its refusal.
fn cells(number: usize, stamp: Stamp, held: &Held) -> [String; 8] {
    let (reads, writes) = match read_tx(held.body) {
        Ok(tx) => (reads(&tx), writes(&tx)),
        Err(refusal) => (refusal.to_string(), String::new()),
    };
    let vote = held.vote.map_or("none".into(), |vote| vote.to_string());
    let logged = held.logged.map_or("none".into(), |(logged, view)| format!("{logged} in view {view}"));
    let decided = held.decided.map_or("none".into(), |decided| decided.to_string());
    let none_or = |pairs: String| if pairs.is_empty() { "none".to_string() } else { pairs.trim().to_string() };
    [number.to_string(), stamp.to_string(), vote, logged, held.view.to_string(), decided, none_or(reads), none_or(writes)]
}

/// Columns as wide as their widest cell, two spaces apart.
pub(crate) fn aligned(rows: &[Vec<String>]) -> String {
    let columns = rows.iter().map(Vec::len).max().unwrap_or(0);
    let width = |column: usize| rows.iter().filter_map(|row| row.get(column)).map(|cell| cell.chars().count()).max().unwrap_or(0);
    let widths: Vec<usize> = (0..columns).map(width).collect();
    let line = |row: &Vec<String>| {
        let cells: Vec<String> = row.iter().zip(&widths).map(|(cell, width)| format!("{cell:width$}")).collect();
        format!("{}\n", cells.join("  ").trim_end())
    };
    rows.iter().map(line).collect()
}

/// The first row that is refused by itself, with its codes as they stand.
fn first_wrong(bytes: &[u8], capacity: u64) -> String {
    let count = bytes.first().copied().unwrap_or(0);
    if bytes.len() < table_len(capacity as usize) {
        return format!("{} bytes, and capacity {capacity} has {}", bytes.len(), table_len(capacity as usize));
    }
    if u64::from(count) > capacity {
        return format!("{count} entries, and the capacity is {capacity}");
    }
    let wrong = |row: &[u8]| alone(row).and_then(|table| table.held(Stamp(0)).map(|_| ())).is_err();
    let found = (0..count.into()).find_map(|number| Some((number, row(bytes, number).filter(|row| wrong(row))?)));
    found.map_or("no row of it is wrong by itself".into(), |(number, row)| {
        let codes = format!("vote {}, reason {}, decision {}, log {}", row[VOTE_AT], row[REASON_AT], row[DECIDED_AT], row[LOG_AT]);
        format!("row {number} is the first that is wrong: {codes}, reads {}, writes {}", row[R_AT], row[W_AT])
    })
}

/// The entries of kept bytes as lines, with the low mark once it is raised, and behind them what is folded; where the table is refused, its refusal and what is wrong.
fn entries(bytes: &[u8], capacity: u64) -> Result<String, Refusal> {
    // Any stamp: the whole table is judged before it is looked up.
    let table = Table::kept(Group::of(1)?, capacity, bytes, [0; KEYS]);
    table.held(Stamp(0))?;
    let low = match table.low()? {
        Stamp(0) => String::new(),
        low => format!(", low mark {low}"),
    };
    let folds = folded(&table)?;
    let mut rows = vec![HEADINGS.map(String::from).to_vec()];
    for number in 0..bytes[0].into() {
        let row = row(bytes, number).ok_or(Refusal::Table)?;
        let (table, stamp) = (alone(row)?, stamp_of(row));
        let held = table.held(stamp)?.ok_or(Refusal::Table)?;
        rows.push(cells(number, stamp, &held).to_vec());
    }
    let entries = if bytes[0] > 0 { aligned(&rows) } else { String::new() };
    Ok(format!("{} of {capacity} entries{low}\n{entries}{folds}", bytes[0]))
}

/// The folded versions, of keys that have one; nothing where none has.
fn folded(table: &Table<&[u8], [u64; KEYS]>) -> Result<String, Refusal> {
    let mut rows = vec![["key", "folded version", "value"].map(String::from).to_vec()];
    for key in 0..KEYS as u16 {
        if let Some(version) = table.fold(Key(key))? {
            rows.push(vec![key.to_string(), version.stamp.to_string(), version.value.to_string()]);
        }
    }
    Ok(if rows.len() > 1 { format!("\n{}", aligned(&rows)) } else { String::new() })
}

fn marked(marks: &[u64; KEYS]) -> String {
    let mut rows = vec![vec!["key".to_string(), "read mark".to_string()]];
    rows.extend(marks.iter().enumerate().filter(|(_, mark)| **mark > 0).map(|(key, mark)| vec![key.to_string(), mark.to_string()]));
    match rows.len() {
        1 => "no read mark above 0\n".into(),
        _ => aligned(&rows),
    }
}

/// A kept table, and read marks where they are kept beside it, for people.
pub fn readable(bytes: &[u8], capacity: u64, marks: Option<&[u64; KEYS]>) -> Result<String, String> {
    let told = entries(bytes, capacity).map_err(|refusal| {
        let found = if refusal == Refusal::Table { format!("\n{}", first_wrong(bytes, capacity)) } else { String::new() };
        format!("{refusal}{found}")
    })?;
    Ok(told + &marks.map_or(String::new(), |marks| format!("\n{}", marked(marks))))
}
