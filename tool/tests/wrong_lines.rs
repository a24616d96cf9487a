//! Every place at which a line can be wrong, told by its column.

use stobbarel::Group;
use stobbarel_tool::{pack_line, told, Outcome, Wrong};

/// A line with `^` in front of what is wrong, and why; in the group of f = 1.
const WRONG: [(&str, &str); 76] = [
    ("^XX 50", "a mark is due: GP, CK, LM, PR, LG, DC, RD, IV, LD, TX, VL, VS or EL"),
    ("^pr 50 writes 3=7", "a mark is due: GP, CK, LM, PR, LG, DC, RD, IV, LD, TX, VL, VS or EL"),
    ("  ^=", "a mark is due: GP, CK, LM, PR, LG, DC, RD, IV, LD, TX, VL, VS or EL"),
    ("GP^", "f is due"),
    ("GP ^capacity 8", "f is due"),
    ("GP f^ # 1", "f is due, 1 to 5"),
    ("GP f ^0 capacity 8 delta 10", "f is 1 to 5"),
    ("GP f ^6 capacity 8 delta 10", "f is 1 to 5"),
    ("GP f 1 ^delta 10", "capacity is due"),
    ("GP f 1 capacity ^0 delta 10", "a capacity is 1 to 255"),
    ("GP f 1 capacity ^256 delta 10", "a capacity is 1 to 255"),
    ("GP f 1 capacity 8^", "delta is due"),
    ("GP f 1 capacity 8 delta ^-1", "delta is due, 0 to 18446744073709551615"),
    ("GP f 1 capacity 8 delta ^18446744073709551616", "delta is 0 to 18446744073709551615"),
    ("GP f 1 capacity 8 delta 10 ^11", "this is no part of the record"),
    ("CK ^100", "clock is due"),
    ("CK clock ^noon", "a clock is due, 0 to 18446744073709551615"),
    ("CK clock ^99999999999999999999", "a clock is 0 to 18446744073709551615"),
    ("CK clock 100 ^delta 10", "this is no part of the record"),
    ("LM^", "a low mark is due, 0 to 18446744073709551615"),
    ("LM ^low", "a low mark is due, 0 to 18446744073709551615"),
    ("LM ^18446744073709551616", "a low mark is 0 to 18446744073709551615"),
    ("LM 50 ^60", "this is no part of the record"),
    ("PR^", "a stamp is due, 1 to 18446744073709551615"),
    ("PR ^0 writes 3=7", "a stamp is 1 to 18446744073709551615"),
    ("PR ^50writes 3=7", "a stamp is due, 1 to 18446744073709551615"),
    ("PR ^18446744073709551616 writes 3=7", "a stamp is 1 to 18446744073709551615"),
    ("PR 50^", "reads or writes is due"),
    ("PR 50 ^write 3=7", "reads or writes is due"),
    ("PR 50 reads^", "a key is due, 0 to 511"),
    ("PR 50 reads ^writes 3=7", "a key is due, 0 to 511"),
    ("PR 50 reads ^512@0", "a key is 0 to 511"),
    ("PR 50 reads 3^=0", "@ is due"),
    ("PR 50 reads 3 ^0", "@ is due"),
    ("PR 50 reads 3@^", "a version below the stamp is due, 0 to 49"),
    ("PR 50 reads 3@^50", "a version below the stamp is 0 to 49"),
    ("PR 1 reads 3@^1", "a version below the stamp is 0 to 0"),
    ("PR 50 reads 3@0 ^3@0", "a key is above the one before it, 3"),
    ("PR 50 reads 3@0 ^2@0", "a key is above the one before it, 3"),
    ("PR 50 reads 1@0 2@0 3@0 4@0 5@0 6@0 7@0 8@0 ^9@0 10@0", "8 reads at most"),
    ("PR 50 writes 3=7 ^reads 3@0", "this is no part of the record"),
    ("PR 50 writes ^-", "a key is due, 0 to 511"),
    ("PR 50 writes 3=7 ^512=7", "a key is 0 to 511"),
    ("PR 50 writes 3^@7", "= is due"),
    ("PR 50 writes 3=^x", "a value is due, 0 to 18446744073709551615"),
    ("PR 50 writes 3=^18446744073709551616", "a value is 0 to 18446744073709551615"),
    ("PR 50 writes 3=7 ^3=8", "a key is above the one before it, 3"),
    ("TX 50 writes 1=0 2=0 3=0 4=0 5=0 6=0 7 = 0 8=0 ^9=0", "8 writes at most"),
    ("PR 50 writes 3=7 ^votes commit 0+", "this is no part of the record"),
    ("LG 50 writes 3=7^", "votes or logs is due"),
    ("LG 50 writes 3=7 ^views 0:0", "votes or logs is due"),
    ("LG 50 writes 3=7 votes ^yes 0+", "commit or abort is due"),
    ("LG 50 writes 3=7 votes commit^", "a box number is due, 0 to 5"),
    ("LG 50 writes 3=7 votes commit ^6+", "a box number is 0 to 5"),
    ("LG 50 writes 3=7 votes commit 0 ^1+", "+ (commit) or - (abort) is due"),
    ("LG 50 writes 3=7 votes commit 0+ 2+ ^2-", "a box number is above the one before it, 2"),
    ("^LG 50 writes 3=7 logs commit view 0 0+", "refused 8, code: kind, decision or answer not 1 or 2, or logs in an LG"),
    ("DC 50 writes 3=7 logs commit ^0+", "view is due"),
    ("DC 50 writes 3=7 logs commit view ^65536 0+", "a view is 0 to 65535"),
    ("DC 50 writes 3=7 logs commit view 1^", "a box number is due, 0 to 5"),
    ("DC 50 writes 3=7 votes commit ^view 1 0+", "a box number is due, 0 to 5"),
    ("VL logs abort view 0 0- ^x", "this is no part of the record"),
    ("RD ^512 at 60", "a key is 0 to 511"),
    ("RD 3 ^60", "at is due"),
    ("RD 3 at ^0", "a stamp is 1 to 18446744073709551615"),
    ("IV 50 writes 3=7 ^votes commit 0+", "views is due"),
    ("VS views^", "a box number is due, 0 to 5"),
    ("VS views 0^+1", ": is due"),
    ("VS views 0:^65536", "a view is 0 to 65535"),
    ("VS views 1:0 ^0:0", "a box number is above the one before it, 1"),
    ("LD 50 writes 3=7 ^commit", "leader is due"),
    ("EL leader ^6 decision commit view 1 answers 0+1", "a leader is 0 to 5"),
    ("EL leader 3 ^commit", "decision is due"),
    ("EL leader 3 decision commit ^answers 0+1", "view is due"),
    ("EL leader 3 decision commit view 1 ^0+1", "answers is due"),
    ("EL leader 3 decision commit view 1 answers 0+1 1+^", "a view is due, 0 to 65535"),
];

#[test]
fn each_wrong_place_has_its_column() {
    let group = Group::of(1).expect("an f");
    for (marked, why) in WRONG {
        let column = marked.chars().position(|letter| letter == '^').expect("a place") + 1;
        let line = marked.replacen('^', "", 1);
        assert_eq!(pack_line(group, &line), Err(Wrong { column, why: why.into() }), "{line}");
    }
}

fn command(words: &[&str], input: &str) -> Outcome {
    let words: Vec<String> = words.iter().map(|word| word.to_string()).collect();
    told(&words, || Ok(input.into()))
}

/// Only what stands before the wrong line is written, and the line is shown with a caret under the column.
#[test]
fn a_wrong_line_is_shown() {
    let text = "# three\nCK clock 1\n\tPR 50 writes\t512=7  # too high\nCK clock 2\n";
    let due = "line 3, column 15: a key is 0 to 511\n    \tPR 50 writes\t512=7  # too high\n    \t            \t^\n";
    let outcome = command(&["pack"], text);
    assert_eq!((outcome.wrong.as_str(), outcome.code), (due, 1));
    assert_eq!(outcome.out, command(&["pack"], "CK clock 1").out);
    let outcome = command(&["run", "--text"], &text.replacen("# three", "GP f 1 capacity 8 delta 0", 1));
    assert_eq!(outcome.out, b"0 GP ok  GP f 1 capacity 8 delta 0\n1 CK ok  CK clock 1\n");
    assert_eq!((outcome.wrong.as_str(), outcome.code), (due, 1));
}

/// Columns are characters, not bytes; bytes that are no text are told too.
#[test]
fn other_letters() {
    assert_eq!(command(&["pack"], "CK \u{a0} é").wrong, "line 1, column 6: clock is due\n    CK \u{a0} é\n         ^\n");
    let words = ["pack".to_string()];
    let outcome = told(&words, || Ok(b"CK clock 1\nCK \xc3\xa9 \xff\n".to_vec()));
    assert!(outcome.wrong.starts_with("line 2, column 6: these bytes are no text (UTF-8)\n"), "{}", outcome.wrong);
    assert_eq!((outcome.out.len(), outcome.code), (10, 1));
}
