//! The documents' examples: what they say a line packs to, and what they say is printed.

use std::fs;
use stobbarel_tool::told;

const ROOT: &str = concat!(env!("CARGO_MANIFEST_DIR"), "/..");

fn document(path: &str) -> String {
    fs::read_to_string(format!("{ROOT}/{path}")).unwrap_or_else(|why| panic!("{path}: {why}"))
}

fn command(words: &[&str], input: &[u8]) -> (Vec<u8>, String) {
    let words: Vec<String> = words.iter().map(|word| word.to_string()).collect();
    let outcome = told(&words, || Ok(input.to_vec()));
    (outcome.out, outcome.wrong)
}

/// As a block of a document.
fn block(text: &str) -> String {
    text.lines().map(|line| if line.is_empty() { "\n".into() } else { format!("    {line}\n") }).collect()
}

fn hex(line: &str) -> Option<Vec<u8>> {
    line.strip_prefix("    ")?.split(' ').map(|byte| u8::from_str_radix(byte, 16).ok().filter(|_| byte.len() == 2)).collect()
}

const MARKS: [&str; 13] = ["GP", "CK", "LM", "PR", "LG", "DC", "RD", "IV", "LD", "TX", "VL", "VS", "EL"];

/// Above each line of hex stands the text that packs to it, and of each record there is one.
#[test]
fn records_in_text_and_in_hex() {
    let text = document("docs/RECORDS.md");
    let lines: Vec<&str> = text.lines().collect();
    let mut marks = Vec::new();
    for (number, bytes) in lines.iter().enumerate().filter_map(|(number, line)| Some((number, hex(line)?))) {
        let line = lines[number - 1].trim();
        assert_eq!(command(&["pack", "--f", "1"], line.as_bytes()), (bytes.clone(), String::new()), "{line}");
        assert_eq!(command(&["unpack", "--f", "1"], &bytes), (format!("{line}\n").into_bytes(), String::new()));
        marks.push(line[..2].to_string());
    }
    assert!(marks.len() >= 13 && MARKS.iter().all(|mark| marks.contains(&mark.to_string())), "{marks:?}");
}

/// Each record's row has an example in its one form; each part stands in the line of some record.
#[test]
fn the_grammars_examples() {
    let text = document("docs/TOOL.md");
    for mark in MARKS {
        let row = text.lines().find(|line| line.starts_with(&format!("| {mark} |"))).unwrap_or_else(|| panic!("{mark} has no row"));
        let example = row.rsplit('`').nth(1).expect("an example");
        assert!(example.starts_with(mark));
        let (bytes, wrong) = command(&["pack", "--f", "1"], example.as_bytes());
        assert_eq!(wrong, "");
        assert_eq!(command(&["unpack", "--f", "1"], &bytes).0, format!("{example}\n").into_bytes());
    }
    let fronts = [("transaction", "PR "), ("votes", "VL "), ("logs", "VL "), ("views", "VS "), ("leader's decision", "EL ")];
    for (part, front) in fronts {
        let row = text.lines().find(|line| line.starts_with(&format!("| {part} |"))).unwrap_or_else(|| panic!("{part} has no row"));
        let line = format!("{front}{}", row.split('`').nth(1).expect("an example"));
        let (bytes, wrong) = command(&["pack"], line.as_bytes());
        assert_eq!((wrong.as_str(), command(&["unpack"], &bytes).0), ("", format!("{line}\n").into_bytes()));
    }
}

#[test]
fn what_is_printed() {
    let (text, readme) = (document("docs/TOOL.md"), document("README.md"));
    let stdin = fs::read(format!("{ROOT}/crates/bench/stdin")).expect("the papers' example");
    let stands = |document: &str, printed: &[u8]| {
        let printed = block(std::str::from_utf8(printed).expect("text"));
        assert!(!printed.is_empty() && document.contains(&printed), "{printed}");
    };
    stands(&readme, &command(&["run"], &stdin).0);
    stands(&text, &command(&["unpack"], &stdin).0);
    stands(&text, command(&["unpack"], &stdin[..50]).1.as_bytes());
    stands(&text, command(&["pack"], b"CK clock 100\nPR 50 writes 3=7 512=1\n").1.as_bytes());
    stands(&text, &command(&["run", "--text"], document("tool/examples/box.txt").as_bytes()).0);
    let in_an_lg = command(&["pack"], b"LG 50 writes 3=7 logs commit view 0 0+").1;
    assert!(text.contains(&format!("`{}`", in_an_lg.lines().next().and_then(|line| line.strip_prefix("line 1, column 1: ")).expect("a refusal"))));
    assert!(text.contains(&block(include_str!("../examples/box.table"))));
}
