//! The program's words: what each command reads, prints and tells.

use crate::line::pack_line;
use crate::record::{cut, group_behind, read};
use crate::run::run;
use crate::table::{aligned, capacity_by_length, read_marks, readable};
use std::io;
use stobbarel::{Group, Refusal};

/// What a command leaves: standard output, standard error, the exit code.
#[derive(Clone, Debug, Default, PartialEq, Eq)]
pub struct Outcome {
    /// What was read and written before anything went wrong.
    pub out: Vec<u8>,
    /// What went wrong.
    pub wrong: String,
    /// 0; 1 where the input is wrong; 2 where the words are.
    pub code: i32,
}

const USAGE: &str = "usage: stobbarel pack | unpack | run | table FILE | help [COMMAND]\n";

const ALL: &str = "\
stobbarel: records as text for people. docs/TOOL.md has the text's grammar, `stobbarel help COMMAND` each command.

  pack         text to records
  unpack       records to text
  run          what the bench prints, beside each record in words
  table FILE   a kept table as a readable one
";

const PACK: &str = "\
usage: stobbarel pack [--f N] < TEXT > RECORDS
A record a line, such as `PR 50 reads 3@0 writes 4=7`; # begins a comment. Box numbers are those of the f that the last GP names,
before any GP of --f (5). A wrong line is told by line and column: exit 1, and only the lines before it are written.
";

const UNPACK: &str = "\
usage: stobbarel unpack [--f N] < RECORDS > TEXT
A line for each record. Box numbers as with pack. Bytes that are no record are told by their place and refusal: exit 1, and only the
records before them are written.
";

const RUN: &str = "\
usage: stobbarel run [--text] < RECORDS
The bench's lines, beside each its record in words, and behind # why it was refused or voted to abort. --text: the input is text as
pack takes it.
";

const TABLE: &str = "\
usage: stobbarel table FILE [--capacity N] [--marks FILE]
A kept table, a line for each entry. The capacity is that of the file's length where none is named. --marks: read marks, 512 numbers
of eight bytes, the lowest first; those above 0 are printed. A table that is refused is told with its first wrong row: exit 1.
";

/// The help of a command, or of all.
fn help(command: Option<&str>) -> Option<&'static str> {
    Some(match command {
        None => ALL,
        Some("pack") => PACK,
        Some("unpack") => UNPACK,
        Some("run") => RUN,
        Some("table") => TABLE,
        Some(_) => return None,
    })
}

fn printed(text: impl Into<Vec<u8>>) -> Outcome {
    Outcome { out: text.into(), ..Outcome::default() }
}

fn failed(out: Vec<u8>, wrong: String) -> Outcome {
    Outcome { out, wrong: wrong + "\n", code: 1 }
}

fn misused(command: Option<&str>) -> Outcome {
    let usage = help(command.or(Some(""))).and_then(|text| text.split_inclusive('\n').next()).unwrap_or(USAGE);
    Outcome { wrong: usage.into(), code: 2, ..Outcome::default() }
}

/// A command's words: options with what stands behind them, and the others.
struct Words<'a> {
    options: Vec<(&'a str, &'a str)>,
    others: Vec<&'a str>,
}

impl<'a> Words<'a> {
    /// None where a word is none of these options, or what one needs is missing or stands there twice.
    fn of(words: &'a [String], flags: &[&str], valued: &[&str]) -> Option<Words<'a>> {
        let (mut options, mut others) = (Vec::<(&str, &str)>::new(), Vec::new());
        let mut rest = words.iter().map(String::as_str);
        while let Some(word) = rest.next() {
            if !word.starts_with("--") {
                others.push(word);
                continue;
            }
            if options.iter().any(|(option, _)| *option == word) {
                return None;
            }
            match word {
                _ if flags.contains(&word) => options.push((word, "")),
                _ if valued.contains(&word) => options.push((word, rest.next()?)),
                _ => return None,
            }
        }
        Some(Words { options, others })
    }

    fn value(&self, option: &str) -> Option<&'a str> {
        self.options.iter().find(|(name, _)| *name == option).map(|(_, value)| *value)
    }
}

/// The group of the records before any GP: the largest, unless --f names one. None where that is no f.
fn group_told(words: &Words) -> Option<Group> {
    let f = words.value("--f").map_or(Some(5), |f| f.parse::<u64>().ok())?;
    f.try_into().ok()
}

/// The line, and a caret under the column.
fn shown(number: usize, column: usize, why: &str, line: &str) -> String {
    let line = line.trim_end();
    // A tab in front of it is as wide above as below.
    let before = line.chars().chain(std::iter::repeat(' ')).take(column - 1);
    let space: String = before.map(|letter| if letter == '\t' { '\t' } else { ' ' }).collect();
    format!("line {number}, column {column}: {why}\n    {line}\n    {space}^")
}

/// The records of a text up to its first wrong line, and what is wrong there.
fn packed(mut group: Group, text: &[u8]) -> (Vec<u8>, Option<String>) {
    let mut out = Vec::new();
    for (number, line) in (1..).zip(text.split(|byte| *byte == b'\n')) {
        let shows = String::from_utf8_lossy(line);
        if let Err(why) = std::str::from_utf8(line) {
            let column = String::from_utf8_lossy(&line[..why.valid_up_to()]).chars().count() + 1;
            return (out, Some(shown(number, column, "these bytes are no text (UTF-8)", &shows)));
        }
        match pack_line(group, &shows) {
            Err(wrong) => return (out, Some(shown(number, wrong.column, &wrong.why, &shows))),
            Ok(None) => {}
            Ok(Some((record, bytes))) => {
                group = group_behind(group, &record);
                out.extend(bytes);
            }
        }
    }
    (out, None)
}

fn outcome(out: Vec<u8>, wrong: Option<String>) -> Outcome {
    match wrong {
        None => printed(out),
        Some(wrong) => failed(out, wrong),
    }
}

fn pack(group: Group, text: &[u8]) -> Outcome {
    let (out, wrong) = packed(group, text);
    outcome(out, wrong)
}

fn unpack(mut group: Group, input: &[u8]) -> Outcome {
    let (mut out, mut at, mut number) = (String::new(), 0, 0);
    while at < input.len() {
        let rest = &input[at..];
        let length = cut(rest, |bytes| read(group, bytes));
        let one = length.and_then(|length| Ok((length, read(group, &rest[..length])?)));
        match one {
            Err(refusal) => return failed(out.into_bytes(), no_record(number, at, refusal)),
            Ok((length, record)) => {
                out += &format!("{record}\n");
                group = group_behind(group, &record);
                (at, number) = (at + length, number + 1);
            }
        }
    }
    printed(out)
}

fn no_record(number: usize, at: usize, refusal: Refusal) -> String {
    format!("record {number}, at byte {at}: {refusal}")
}

fn ran(words: &Words, input: &[u8]) -> Outcome {
    let all = Group::of(5).expect("f is 1 to 5");
    let (records, wrong) = if words.value("--text").is_some() { packed(all, input) } else { (input.to_vec(), None) };
    let lines: Vec<Vec<String>> = run(&records).into_iter().map(|line| vec![line.said, line.words]).collect();
    outcome(aligned(&lines).into_bytes(), wrong)
}

fn file(path: &str) -> Result<Vec<u8>, String> {
    std::fs::read(path).map_err(|why| format!("{path}: {why}"))
}

/// A table file with its options; `Err` is what is wrong with a file.
fn tabled(path: &str, capacity: Option<u64>, marks: Option<&str>) -> Result<String, String> {
    let bytes = file(path)?;
    let no_length = || format!("{path}: {} bytes are the length of no capacity; --capacity N names it", bytes.len());
    let capacity = capacity.or(capacity_by_length(bytes.len())).ok_or_else(no_length)?;
    let marks = match marks {
        None => None,
        Some(path) => Some(read_marks(&file(path)?).ok_or(format!("{path}: read marks are 512 numbers of eight bytes, 4096 in all"))?),
    };
    readable(&bytes, capacity, marks.as_ref()).map_err(|wrong| format!("{path}: {wrong}"))
}

fn table(words: &Words) -> Outcome {
    let capacity = words.value("--capacity").map(str::parse).transpose();
    match (&words.others[..], capacity) {
        ([path], Ok(capacity)) => tabled(path, capacity, words.value("--marks")).map_or_else(|wrong| failed(Vec::new(), wrong), printed),
        _ => misused(Some("table")),
    }
}

/// A command on the input; none where its words are wrong.
fn command(name: &str, words: &Words, input: impl FnOnce() -> io::Result<Vec<u8>>) -> Option<Outcome> {
    if name == "table" {
        return Some(table(words));
    }
    let group = group_told(words).filter(|_| words.others.is_empty())?;
    let input = match input() {
        Ok(input) => input,
        Err(why) => return Some(failed(Vec::new(), format!("standard input: {why}"))),
    };
    Some(match name {
        "pack" => pack(group, &input),
        "unpack" => unpack(group, &input),
        _ => ran(words, &input),
    })
}

/// What the program does with the words behind its name and its standard input, which is read only where a command takes it.
pub fn told(words: &[String], input: impl FnOnce() -> io::Result<Vec<u8>>) -> Outcome {
    let asked = |word: &String| word == "--help" || word == "-h";
    let Some((name, rest)) = words.split_first() else { return misused(None) };
    if name == "help" || asked(name) {
        let known = help(rest.first().map(String::as_str)).filter(|_| rest.len() <= 1);
        return known.map_or_else(|| misused(None), printed);
    }
    let (flags, valued): (&[&str], &[&str]) = match name.as_str() {
        "pack" | "unpack" => (&[], &["--f"]),
        "run" => (&["--text"], &[]),
        "table" => (&[], &["--capacity", "--marks"]),
        _ => return misused(None),
    };
    if rest.iter().any(asked) {
        return help(Some(name)).map_or_else(|| misused(None), printed);
    }
    let done = Words::of(rest, flags, valued).and_then(|words| command(name, &words, input));
    done.unwrap_or_else(|| misused(Some(name)))
}
