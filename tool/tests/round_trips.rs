//! Text to records and back, records to text and back: of every kind of record, at the extremes, with spaces put anywhere, and of text and bytes that were
//! damaged.

#[allow(dead_code)]
#[path = "../../tests/src/random.rs"]
mod random;

use random::Random;
use stobbarel::{Decision, Election, Group, Key, Message, Refusal, Stamp, Transaction, UpTo, View, Views, VoteList, LONGEST};
use stobbarel_tool::{group_behind, pack_line, read, told, write, Record};

fn command(words: &[&str], input: &[u8]) -> stobbarel_tool::Outcome {
    let words: Vec<String> = words.iter().map(|word| word.to_string()).collect();
    told(&words, || Ok(input.to_vec()))
}

/// What a command prints where nothing is wrong.
fn done(name: &str, input: &[u8]) -> Vec<u8> {
    let outcome = command(&[name], input);
    assert_eq!((outcome.wrong.as_str(), outcome.code), ("", 0), "{}", String::from_utf8_lossy(input));
    outcome.out
}

// ---- records made by chance

/// Often an extreme.
fn number(random: &mut Random, low: u64, high: u64) -> u64 {
    match random.below(4) {
        0 => low,
        1 => high,
        _ if high - low == u64::MAX => random.next(),
        _ => random.between(low, high),
    }
}

/// Some of the numbers below an end, rising.
fn some(random: &mut Random, most: u64, below: u64) -> Vec<u64> {
    let count = number(random, 1, most.min(below));
    let mut all = std::collections::BTreeSet::new();
    while (all.len() as u64) < count {
        all.insert(random.below(below));
    }
    all.into_iter().collect()
}

fn transaction(random: &mut Random) -> Transaction {
    let stamp = number(random, 1, u64::MAX);
    let keys = |random: &mut Random| some(random, 8, 512).into_iter().map(|key| Key(key as u16)).collect::<Vec<Key>>();
    let reads = UpTo::gather(keys(random).into_iter().map(|key| (key, Stamp(number(random, 0, stamp - 1))))).expect("eight at most");
    let writes = UpTo::gather(keys(random).into_iter().map(|key| (key, number(random, 0, u64::MAX)))).expect("eight at most");
    let (reads, writes) = match random.below(3) {
        0 => (reads, UpTo::new()),
        1 => (UpTo::new(), writes),
        _ => (reads, writes),
    };
    Transaction { stamp: Stamp(stamp), reads, writes }
}

fn decision(random: &mut Random) -> Decision {
    random.one_of(&[Decision::Commit, Decision::Abort])
}

fn view(random: &mut Random) -> View {
    View(number(random, 0, 65535) as u16)
}

fn boxes(random: &mut Random, group: Group) -> Vec<u8> {
    some(random, 26, group.boxes().into()).into_iter().map(|number| number as u8).collect()
}

fn votes(random: &mut Random, group: Group) -> VoteList {
    let pairs = boxes(random, group).into_iter().map(|number| (number, decision(random)));
    let pairs = UpTo::gather(pairs).expect("26 at most");
    VoteList::votes(decision(random), pairs)
}

fn list(random: &mut Random, group: Group) -> VoteList {
    let VoteList { decision, pairs, .. } = votes(random, group);
    if random.chance(50) {
        VoteList::votes(decision, pairs)
    } else {
        VoteList::logs(view(random), decision, pairs)
    }
}

fn views(random: &mut Random, group: Group) -> Views {
    Views::gather(boxes(random, group).into_iter().map(|number| (number, view(random)))).expect("26 at most")
}

fn election(random: &mut Random, group: Group) -> Election {
    let answers = boxes(random, group).into_iter().map(|number| (number, decision(random), view(random)));
    let answers = UpTo::gather(answers).expect("26 at most");
    Election { leader: random.below(group.boxes().into()) as u8, decision: decision(random), view: view(random), answers }
}

const KINDS: u64 = 12;

fn record(random: &mut Random, kind: u64, group: Group) -> Record {
    Record::Message(match kind {
        0 => return Record::Gp { f: number(random, 1, 5) as u8, capacity: number(random, 1, 255) as u8, delta: number(random, 0, u64::MAX) },
        1 => return Record::Ck(number(random, 0, u64::MAX)),
        2 => return Record::Tx(transaction(random)),
        3 => return Record::Vl(list(random, group)),
        4 => return Record::Vs(views(random, group)),
        5 => return Record::El(election(random, group)),
        6 => Message::Prepare(transaction(random)),
        7 => Message::Log(transaction(random), votes(random, group)),
        8 => Message::Decide(transaction(random), list(random, group)),
        9 => Message::Read(Key(number(random, 0, 511) as u16), Stamp(number(random, 1, u64::MAX))),
        10 => Message::Invoke(transaction(random), views(random, group)),
        _ => Message::Lead(transaction(random), election(random, group)),
    })
}

/// Records, by the package's writers, and their text; every kind is among them. The group is f = 5 until a GP tells another.
fn records(random: &mut Random) -> (Vec<u8>, String) {
    let (mut bytes, mut text, mut group) = (Vec::new(), String::new(), Group::of(5).expect("an f"));
    for kind in 0..2 * KINDS {
        let kind = if kind < KINDS { kind } else { random.below(KINDS) };
        let one = record(random, kind, group);
        bytes.extend(write(group, &one).expect("a record in order"));
        text += &format!("{one}\n");
        group = group_behind(group, &one);
    }
    (bytes, text)
}

#[test]
fn text_is_records_and_records_are_text() {
    let mut random = Random::new(1);
    for _ in 0..100 {
        let (bytes, text) = records(&mut random);
        assert_eq!(String::from_utf8(done("unpack", &bytes)).expect("text"), text);
        assert_eq!(done("pack", text.as_bytes()), bytes, "{text}");
    }
}

/// A record is read back as the value that was written, so the two texts above are not equal by being equally wrong.
#[test]
fn values_are_kept() {
    let mut random = Random::new(2);
    for count in 0..2000 {
        let group = Group::try_from(random.between(1, 5)).expect("an f");
        let one = record(&mut random, count % KINDS, group);
        let bytes = write(group, &one).expect("a record in order");
        assert_eq!(read(group, &bytes).as_ref(), Ok(&one));
        assert_eq!(pack_line(group, &one.to_string()), Ok(Some((one, bytes))));
    }
}

/// Spaces around every sign and word, empty lines and comments.
fn spaced(random: &mut Random, text: &str) -> String {
    let mut out = String::new();
    for letter in text.chars() {
        let space = random.one_of(&["", " ", "  ", "\t"]);
        match letter {
            '@' | '=' | ':' | '+' | '-' => out += &format!("{space}{letter}{space}"),
            ' ' => out += &format!(" {space}"),
            '\n' => out += random.one_of(&["\n", "\r\n", " # a comment: PR 1\n", "#\n\n", "\n   \n#PR\n"]),
            _ => out.push(letter),
        }
    }
    out
}

#[test]
fn spaces_and_comments_are_no_part_of_it() {
    let mut random = Random::new(3);
    for _ in 0..30 {
        let (bytes, text) = records(&mut random);
        let free = spaced(&mut random, &text);
        assert_eq!(done("pack", free.as_bytes()), bytes, "{free}");
    }
}

// ---- the longest, the shortest

#[test]
fn extremes() {
    let group = Group::of(5).expect("an f");
    let keys = (504..512).map(Key);
    let tx = Transaction {
        stamp: Stamp(u64::MAX),
        reads: UpTo::gather(keys.clone().map(|key| (key, Stamp(u64::MAX - 1)))).expect("eight"),
        writes: UpTo::gather(keys.map(|key| (key, u64::MAX))).expect("eight"),
    };
    let answers = UpTo::gather((0..26).map(|number| (number, Decision::Abort, View(65535)))).expect("26");
    let longest = Record::Message(Message::Lead(tx, Election { leader: 25, decision: Decision::Abort, view: View(65535), answers }));
    let bytes = write(group, &longest).expect("a record in order");
    assert_eq!(bytes.len(), LONGEST);
    assert_eq!(done("unpack", &bytes), format!("{longest}\n").into_bytes());
    assert_eq!(done("pack", longest.to_string().as_bytes()), bytes);
    for (text, length) in [
        ("CK clock 0", 10),
        ("CK clock 18446744073709551615", 10),
        ("LM 0", 10),
        ("LM 18446744073709551615", 10),
        ("VL votes abort 25-", 7),
        ("RD 511 at 1", 12),
        ("VS views 0:0", 6),
    ] {
        let bytes = done("pack", text.as_bytes());
        assert_eq!(bytes.len(), length);
        assert_eq!(done("unpack", &bytes), format!("{text}\n").into_bytes());
    }
    assert_eq!((done("pack", b""), done("unpack", b""), done("run", b"")), (vec![], vec![], vec![]));
}

#[test]
fn the_group_tells_the_box_numbers() {
    let line = "VL votes commit 6+\n";
    assert_eq!(command(&["pack"], line.as_bytes()).code, 0);
    assert_eq!(command(&["pack", "--f", "1"], line.as_bytes()).wrong.lines().next(), Some("line 1, column 17: a box number is 0 to 5"));
    let bytes = done("pack", line.as_bytes());
    assert!(command(&["unpack", "--f", "1"], &bytes).wrong.starts_with("record 0, at byte 0: refused 5, range: "));
    let with_gp = format!("GP f 1 capacity 8 delta 0\n{line}");
    assert_eq!(command(&["pack", "--f", "5"], with_gp.as_bytes()).wrong.lines().next(), Some("line 2, column 17: a box number is 0 to 5"));
}

// ---- damage

/// What is printed before a wrong place is the text of the bytes before it.
#[test]
fn damaged_bytes_are_told_by_their_place() {
    let (mut random, mut refusals) = (Random::new(4), std::collections::BTreeSet::new());
    for _ in 0..400 {
        let (mut bytes, _) = records(&mut random);
        let at = random.below(bytes.len() as u64) as usize;
        match random.below(4) {
            0 => bytes.truncate(at),
            // the GP's f or capacity
            1 => bytes[random.one_of(&[2, 3])] = 0,
            _ => bytes[at] = random.one_of(&[0, 1, 2, 3, 9, 27, 255]),
        }
        let outcome = command(&["unpack"], &bytes);
        let place = match outcome.code {
            0 => bytes.len(),
            _ => outcome.wrong.split("at byte ").nth(1).and_then(|rest| rest.split(':').next()?.parse().ok()).expect("a place"),
        };
        assert!(place <= bytes.len() && (outcome.code == 0 || place < bytes.len()), "{}", outcome.wrong);
        assert_eq!(done("pack", &outcome.out), &bytes[..place]);
        refusals.extend(outcome.wrong.split("refused ").nth(1).and_then(|rest| rest.split(',').next()?.parse::<u8>().ok()));
    }
    assert_eq!(refusals.into_iter().collect::<Vec<u8>>(), [1, 2, 3, 5, 6, 7, 8, 14]);
}

/// Whatever stands on a line, it is packed or told by a column of it; what is packed has one form.
#[test]
fn damaged_text_is_packed_or_told() {
    let (mut random, mut right, mut wrong) = (Random::new(5), 0, 0);
    let group = Group::of(5).expect("an f");
    for count in 0..10_000 {
        let mut line: Vec<char> = record(&mut random, count % KINDS, group).to_string().chars().collect();
        let at = random.below(line.len() as u64) as usize;
        match random.below(3) {
            0 => drop(line.remove(at)),
            1 => line.insert(at, random.one_of(&['0', '9', ' ', '#', '-', '@', 'x', 'é'])),
            _ => line[at] = random.one_of(&['0', '1', '9', ' ', '+', '=', ':', 'P']),
        }
        let line: String = line.into_iter().collect();
        match pack_line(group, &line) {
            Ok(None) => assert!(line.trim_start().starts_with('#')),
            Ok(Some((record, bytes))) => {
                assert_eq!(pack_line(group, &record.to_string()), Ok(Some((record, bytes))));
                right += 1;
            }
            Err(told) => {
                assert!((1..=line.chars().count() + 1).contains(&told.column), "{line}: {told:?}");
                wrong += 1;
            }
        }
    }
    assert!(right > 1000 && wrong > 1000, "{right} {wrong}");
}

/// The writer has the last word: a value that no line gives is refused as the package refuses it.
#[test]
fn the_writer_refuses() {
    let group = Group::of(1).expect("an f");
    let empty = Record::Tx(Transaction::new(Stamp(1), [], []));
    assert_eq!(write(group, &empty), Err(Refusal::Count));
    let above = Record::Message(Message::Read(Key(512), Stamp(1)));
    assert_eq!(write(group, &above), Err(Refusal::Range));
    for (f, capacity) in [(0, 1), (6, 1), (1, 0)] {
        assert_eq!(write(group, &Record::Gp { f, capacity, delta: 0 }), Err(Refusal::Group));
        assert_eq!(read(group, &[b'G', b'P', f, capacity, 0, 0, 0, 0, 0, 0, 0, 0]), Err(Refusal::Group));
    }
    assert_eq!(read(group, &[b'C'; 1]), Err(Refusal::Short));
    assert_eq!(read(group, b"CK0000000"), Err(Refusal::Short));
    assert_eq!(read(group, b"CK000000000"), Err(Refusal::Trailing));
    assert_eq!(read(group, b"LM0000000"), Err(Refusal::Short));
    assert_eq!(read(group, b"LM000000000"), Err(Refusal::Trailing));
}
