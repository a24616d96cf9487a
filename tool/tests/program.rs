//! The program itself: standard input and output, exit codes, help.

use std::io::Write;
use std::process::{Command, Stdio};

/// Standard output, standard error and exit code.
fn program(words: &[&str], input: &[u8]) -> (Vec<u8>, String, Option<i32>) {
    let program = env!("CARGO_BIN_EXE_stobbarel");
    let mut child = Command::new(program).args(words).stdin(Stdio::piped()).stdout(Stdio::piped()).stderr(Stdio::piped()).spawn().expect("it starts");
    // A program that reads nothing may be gone already.
    let _ = child.stdin.take().expect("a pipe").write_all(input);
    let done = child.wait_with_output().expect("it ends");
    (done.stdout, String::from_utf8(done.stderr).expect("text"), done.status.code())
}

const CK: &[u8] = b"CK\x64\0\0\0\0\0\0\0";

#[test]
fn in_and_out() {
    assert_eq!(program(&["pack"], b"CK clock 100\n"), (CK.to_vec(), String::new(), Some(0)));
    assert_eq!(program(&["unpack"], CK), (b"CK clock 100\n".to_vec(), String::new(), Some(0)));
    let due = "record 1, at byte 10: refused 2, mark: the mark is not the one due\n";
    assert_eq!(program(&["unpack"], &[CK, b"XX"].concat()), (b"CK clock 100\n".to_vec(), due.into(), Some(1)));
    assert_eq!(program(&["pack"], b"CK clock 100\nCK 1\n"), (CK.to_vec(), "line 2, column 4: clock is due\n    CK 1\n       ^\n".into(), Some(1)));
    assert_eq!(program(&["run"], CK), (b"0 CK refused 2  # mark: the mark is not the one due\n".to_vec(), String::new(), Some(0)));
}

#[test]
fn each_command_has_help() {
    let (all, _, code) = program(&["help"], b"");
    assert_eq!(code, Some(0));
    assert_eq!(program(&["--help"], b"").0, all);
    for name in ["pack", "unpack", "run", "table"] {
        let (help, wrong, code) = program(&[name, "--help"], b"");
        assert!(help.starts_with(format!("usage: stobbarel {name}").as_bytes()) && wrong.is_empty() && code == Some(0));
        assert_eq!(program(&["help", name], b"").0, help);
        assert!(String::from_utf8_lossy(&all).contains(&format!("\n  {name} ")));
    }
}

#[test]
fn unknown_words_are_told_by_the_usage() {
    let usage = "usage: stobbarel pack | unpack | run | table FILE | help [COMMAND]\n";
    for words in [&[][..], &["pick"], &["help", "pick"], &["help", "pack", "run"], &["--text"]] {
        assert_eq!(program(words, b""), (vec![], usage.into(), Some(2)), "{words:?}");
    }
    let of_pack = "usage: stobbarel pack [--f N] < TEXT > RECORDS\n";
    for words in [&["file"][..], &["--f"], &["--f", "0"], &["--f", "6"], &["--f", "1", "--f", "1"], &["--text"]] {
        assert_eq!(program(&[&["pack"], words].concat(), b"CK clock 1\n"), (vec![], of_pack.into(), Some(2)), "{words:?}");
    }
    assert_eq!(program(&["run", "--f", "1"], b""), (vec![], "usage: stobbarel run [--text] < RECORDS\n".into(), Some(2)));
}
