//! A box held against the model, message by message, and a gateway's sheet answer by answer. After each call the answer and every byte of table and read marks are
//! compared. It prints how often each answer, reason, refusal, case of the rules and circumstance of a call occurred; any
//! disagreement, and any that did not occur at all, makes it fail.

use crate::engine::{self, Entrance};
use crate::holdings::{Asked, HOLDINGS};
use crate::member::Member;
use crate::messages::{ld, tx, with_view};
use crate::mix;
use crate::model::{self, Answer, Decision, ElectionReply, ElectionSheet, Kind, Reply, Settings, Sheet, ViewSheet, Vote, MARKS};
use crate::random::Random;
use std::collections::BTreeMap;
use stobbarel::layout::{table_len, BODY_AT, HEAD, LOG_AT, LOG_VIEW_AT, ROW};

/// Every answer to a message; 17 is the writers'.
const ANSWERS: [&str; 41] = [
    "commit",
    "wait",
    "done",
    "found",
    "decided commit",
    "decided abort",
    "logged commit, view 0",
    "logged abort, view 0",
    "logged commit, a later view",
    "logged abort, a later view",
    "elect commit",
    "elect abort",
    "abort 1",
    "abort 2",
    "abort 3",
    "abort 4",
    "abort 5",
    "abort 6",
    "refused  1",
    "refused  2",
    "refused  3",
    "refused  4",
    "refused  5",
    "refused  6",
    "refused  7",
    "refused  8",
    "refused  9",
    "refused 10",
    "refused 11",
    "refused 12",
    "refused 13",
    "refused 14",
    "refused 15",
    "refused 16",
    "refused 21",
    "refused 22",
    "refused 23",
    "refused 24",
    "refused 18",
    "refused 19",
    "raised",
];

/// The one that is no longer given.
const NEVER: &str = "refused 10";

pub fn name(answer: Answer) -> &'static str {
    let second = |decision| usize::from(decision == Decision::Abort);
    ANSWERS[match answer {
        Answer::Voted(Vote::Commit, _) => 0,
        Answer::Voted(Vote::Abort(reason), _) => 11 + reason as usize,
        Answer::Voted(..) => 1,
        Answer::Done => 2,
        Answer::Found { .. } => 3,
        Answer::Decided(decision) => 4 + second(decision),
        Answer::Logged(decision, 0) => 6 + second(decision),
        Answer::Logged(decision, _) => 8 + second(decision),
        Answer::Elected { decision, .. } => 10 + second(decision),
        Answer::TooFew(_) => 17 + 11,
        Answer::Refused(number @ 1..=16) => 17 + number as usize,
        Answer::Refused(number @ 18..=19) => 38 + number as usize - 18,
        Answer::Refused(number) => 34 + number as usize - 21,
        Answer::Raised => 40,
    }]
}

pub fn hex(bytes: &[u8]) -> String {
    bytes.iter().map(|byte| format!("{byte:02x}")).collect::<Vec<_>>().join(" ")
}

/// Any of the ways in, mostly one that takes the message.
pub fn entrance_for(random: &mut Random, message: &[u8]) -> Entrance {
    match random.below(100) {
        0..=39 => Entrance::Receive,
        40..=43 => Entrance::Due(random.between(1, 6)),
        44..=45 => Entrance::Due(random.one_of(&Entrance::NO_MARK)),
        _ => message.first_chunk().and_then(Entrance::of).unwrap_or(Entrance::Receive),
    }
}

/// How a message comes.
#[derive(Clone, Copy)]
struct How<'a> {
    entrance: Entrance,
    settings: Settings,
    message: &'a [u8],
    /// The number of the run, and whether this is the run's table or one that is lent for this call only.
    run: u64,
    own: bool,
}

/// A message, and what it is called on.
struct Call<'a> {
    how: How<'a>,
    table: &'a mut Vec<u8>,
    marks: &'a mut Vec<u64>,
}

/// Circumstances that a mixture of calls has to meet.
const CIRCUMSTANCES: [&str; 29] = [
    "due another mark than the message has",
    "due no mark, and the message is short",
    "due no mark, 14 before it",
    "due no mark, 16 before it",
    "a slice longer than the capacity needs, taken",
    "a slice shorter than the capacity needs",
    "more entries than the capacity",
    "16 between two calls that were taken, on one table",
    "another capacity than the call before had, both taken",
    "a table that every entrance has changed or read",
    "an LG of logs with their view, refused for its kind",
    "a list of logs that ends before its view or inside it",
    "a list of logs without its view",
    "a list of another kind with two bytes too many",
    "a list of a kind that is neither, cut without a view",
    "a VS that ends before its count, or inside what it lists",
    "an EL that ends before its count, or inside what it lists",
    "a VS or an EL with another count than it lists",
    "an EL whose leader is no box",
    "an EL whose decision or answer is no code",
    "a VS or an EL with a box twice, or falling",
    "elected in view 0",
    "elected in view 255 or 256",
    "elected in view 65534",
    "elected in the last view",
    "a leader where view and stamp pass 2^64",
    "logged by an LD in view 255 or 256",
    "logged by an LD in the last view",
    "an entry with a view beside no log",
];

/// What stands behind the transaction of a message, as far as its counts can be believed.
fn behind(message: &[u8]) -> Option<&[u8]> {
    message.get(14 + 10 * (usize::from(*message.get(4)?) + usize::from(*message.get(5)?))..)
}

/// What an IV or an LD shows, beside the refusal's number.
fn told(message: &[u8], refused: u8) -> Option<&'static str> {
    let listed = behind(message)?;
    let (election, head, each) = match (message.get(..2)?, listed.get(..2)?) {
        (b"IV", b"VS") => (false, 3, 3),
        (b"LD", b"EL") => (true, 7, 4),
        _ => return None,
    };
    let short = refused == 1 && listed.get(head - 1).is_none_or(|count| listed.len() < head + each * usize::from(*count));
    match refused {
        1 if short => Some(CIRCUMSTANCES[15 + usize::from(election)]),
        3 | 4 => Some(CIRCUMSTANCES[17]),
        5 if election && listed[2] > 25 => Some(CIRCUMSTANCES[18]),
        8 if election => Some(CIRCUMSTANCES[19]),
        6 if listed[head..].chunks(each).zip(listed[head + each..].chunks(each)).any(|(one, next)| one[0] >= next[0]) => Some(CIRCUMSTANCES[20]),
        _ => None,
    }
}

/// What an answer shows of views.
fn in_view(message: &[u8], answer: Answer) -> Option<&'static str> {
    match answer {
        Answer::Elected { view, .. } => match view {
            0 => Some(CIRCUMSTANCES[21]),
            255 | 256 => Some(CIRCUMSTANCES[22]),
            65534 => Some(CIRCUMSTANCES[23]),
            65535 => Some(CIRCUMSTANCES[24]),
            _ => None,
        },
        Answer::Logged(_, view) if message.starts_with(b"LD") => match view {
            255 | 256 => Some(CIRCUMSTANCES[26]),
            65535 => Some(CIRCUMSTANCES[27]),
            _ => None,
        },
        _ => None,
    }
}

/// View and stamp pass 2^64.
fn passes(message: &[u8], answer: Answer) -> Option<&'static str> {
    let stamp = u64::from_le_bytes(message.get(6..14)?.try_into().ok()?);
    let view = match answer {
        Answer::Elected { view, .. } => view,
        Answer::Logged(_, view) if message.starts_with(b"LD") => view,
        _ => return None,
    };
    stamp.checked_add(view.into()).is_none().then_some(CIRCUMSTANCES[25])
}

/// The message's stamp is held in a row that has a view and no log, and the call stored something there.
fn beside_no_log(before: &[u8], message: &[u8], answer: Answer) -> Option<&'static str> {
    let stored = matches!(answer, Answer::Voted(..) | Answer::Logged(..) | Answer::Done);
    let row = before.get(HEAD..)?.chunks_exact(ROW).take(before[0].into()).find(|row| message.get(6..14) == Some(&row[BODY_AT + 4..BODY_AT + 12]))?;
    (stored && row[LOG_AT] == 0 && row[LOG_VIEW_AT..LOG_VIEW_AT + 2] != [0, 0]).then_some(CIRCUMSTANCES[28])
}

/// What a message's list shows of a view, beside the refusal's number.
fn viewed(message: &[u8], refused: u8) -> Option<&'static str> {
    let [mark, rest] = [message.get(..2)?, behind(message)?];
    let [b'V', b'L', kind, _, count @ 1..=26, rest @ ..] = rest else { return None };
    let pairs = 2 * usize::from(*count);
    match (kind, refused, rest.len()) {
        _ if mark != b"LG" && mark != b"DC" => None,
        (2, 8, _) if mark == b"LG" => Some(CIRCUMSTANCES[10]),
        (2, 1, 0 | 1) => Some(CIRCUMSTANCES[11]),
        (2, 1, length) if length == pairs => Some(CIRCUMSTANCES[12]),
        (2, _, _) => None,
        (_, 4, length) if length == pairs + 2 => Some(CIRCUMSTANCES[13]),
        (0 | 3.., 8, _) => Some(CIRCUMSTANCES[14]),
        _ => None,
    }
}

/// What the calls of one run have met so far.
#[derive(Default)]
struct Trail {
    run: u64,
    /// The capacity of the last call that was past 14 and 16.
    capacity: Option<u64>,
    /// 16 has come since.
    interrupted: bool,
    /// The entrances of calls that were not refused: receive, due for each mark, and raise.
    used: [bool; 8],
}

impl Trail {
    /// A call's circumstances, by the table as it was before and the answer.
    fn follow(&mut self, how: How, before: &[u8], answer: Answer, met: &mut Vec<&'static str>) {
        if self.run != how.run {
            *self = Trail { run: how.run, ..Trail::default() };
        }
        let refused = match answer {
            Answer::TooFew(_) => 11,
            Answer::Refused(number) => number,
            _ => 0,
        };
        met.extend(viewed(how.message, refused).into_iter().chain(told(how.message, refused)));
        met.extend(in_view(how.message, answer).into_iter().chain(passes(how.message, answer)).chain(beside_no_log(before, how.message, answer)));
        let mut meet = |circumstance: &'static str, does: bool| met.extend(does.then_some(circumstance));
        let (mark, taken) = (how.message.first_chunk().filter(|mark| MARKS.contains(mark)), how.entrance.taken());
        let no_mark = taken.is_empty() && !matches!(how.entrance, Entrance::Raise(_));
        meet("due another mark than the message has", refused == 2 && !no_mark && mark.is_some_and(|mark| !taken.contains(&mark)));
        meet("due no mark, and the message is short", refused == 2 && no_mark && how.message.len() < 2);
        meet("due no mark, 14 before it", refused == 14 && no_mark);
        meet("due no mark, 16 before it", refused == 16 && no_mark);
        if refused == 14 {
            return;
        }
        let (capacity, needed) = (how.settings.capacity, table_len(how.settings.capacity as usize));
        meet("a slice longer than the capacity needs, taken", refused != 16 && before.len() > needed);
        meet("a slice shorter than the capacity needs", refused == 16 && before.len() < needed);
        meet("more entries than the capacity", refused == 16 && before.len() >= needed && u64::from(before[0]) > capacity);
        if !how.own {
            return;
        }
        if refused == 16 {
            self.interrupted = true;
            return;
        }
        meet("16 between two calls that were taken, on one table", self.interrupted && self.capacity.is_some());
        meet("another capacity than the call before had, both taken", self.capacity.is_some_and(|last| last != capacity));
        self.interrupted = false;
        self.capacity = Some(capacity);
        if refused == 0 {
            let whole = self.used.iter().all(|used| *used);
            self.used[match how.entrance {
                Entrance::Receive => 0,
                Entrance::Due(number) => number as usize,
                Entrance::Raise(_) => 7,
            }] = true;
            meet("a table that every entrance has changed or read", !whole && self.used.iter().all(|used| *used));
        }
    }
}

/// What follows a message.
#[derive(PartialEq)]
enum Then {
    GoOn,
    NextRun,
    Stop,
}

/// So many messages of the generator, each handed to `act`. Returns how many runs they came in.
fn for_each_message(random: &mut Random, count: u64, mut act: impl FnMut(Call) -> Then) -> u64 {
    let (mut done, mut runs, mut then) = (0, 0, Then::GoOn);
    while done < count && then != Then::Stop {
        let mut run = mix::Run::new(random);
        runs += 1;
        then = Then::GoOn;
        while then == Then::GoOn && run.left > 0 && done < count {
            run.left -= 1;
            done += 1;
            run.disturb(random);
            let settings = run.next_settings(random);
            let raised = run.next_low(random);
            let message = if raised.is_some() { Vec::new() } else { run.message(random) };
            let entrance = raised.map_or_else(|| entrance_for(random, &message), Entrance::Raise);
            let mut broken = run.broken_table(random);
            let mut spare = if broken.is_some() { run.marks.clone() } else { Vec::new() };
            let how = How { entrance, settings, message: &message, run: runs, own: broken.is_none() };
            then = match &mut broken {
                Some(table) => act(Call { how, table, marks: &mut spare }),
                None => act(Call { how, table: &mut run.table, marks: &mut run.marks }),
            };
        }
    }
    runs
}

/// The box's copy of table and read marks, and how they stood before the call.
#[derive(Default)]
struct Copies {
    got: Vec<u8>,
    got_marks: Vec<u64>,
    before: Vec<u8>,
    marks_before: Vec<u64>,
}

impl Copies {
    /// One call of the box and of the model on equal bytes; table and read marks become the model's. An error says how the two differ.
    fn call(&mut self, one: &mut dyn Member, call: Call, met: &mut Vec<&'static str>) -> (Answer, Result<(), String>) {
        let Call { how: How { entrance, settings, message, .. }, table, marks } = call;
        self.got.clone_from(table);
        self.before.clone_from(table);
        self.got_marks.clone_from(marks);
        self.marks_before.clone_from(marks);
        let given = one.call(entrance, &mut self.got, &mut self.got_marks, &settings, message);
        let due = match entrance {
            Entrance::Raise(low) => model::low::raise(table, settings.f, settings.capacity, low, met),
            _ => model::call(table, marks, &settings, message, entrance.taken(), met),
        };
        if given.as_ref() == Ok(&due) && self.got == *table && self.got_marks == *marks {
            return (due, Ok(()));
        }
        let mut text = format!("at {entrance:?}, {settings:?}\n  message {}\n  box   {given:?}\n  model {due:?}\n", hex(message));
        text += &self.differences(table, marks);
        (due, Err(text))
    }

    fn differences(&self, table: &[u8], marks: &[u64]) -> String {
        let entries = self.before.first().copied().unwrap_or(0);
        let low = if self.before.len() < HEAD { 0 } else { model::low_of(&self.before) };
        let mut text = format!("  table before: {entries} entries, low mark {low}, {} bytes\n", self.before.len());
        for (i, row) in self.before.get(HEAD..).unwrap_or(&[]).chunks(ROW).take(entries as usize).enumerate() {
            text += &format!("    {i}: {}\n", hex(row));
        }
        for (i, (one, other)) in self.got.iter().zip(table).enumerate().filter(|(_, (one, other))| one != other) {
            text += &format!("  byte {i} of the table: box {one}, model {other}, before {}\n", self.before[i]);
        }
        for (i, (one, other)) in self.got_marks.iter().zip(marks).enumerate().filter(|(_, (one, other))| one != other) {
            text += &format!("  read mark {i}: box {one}, model {other}, before {}\n", self.marks_before[i]);
        }
        text
    }
}

/// The first message on which a box differs from the model, counted from 1, and how.
pub fn first_difference(one: &mut dyn Member, count: u64, seed: u64) -> Option<(u64, String)> {
    let (mut copies, mut done, mut first) = (Copies::default(), 0, None);
    for_each_message(&mut Random::new(seed), count, |call| {
        done += 1;
        let (capacity, message) = (call.how.settings.capacity, call.how.message);
        let agreed = copies.call(one, call, &mut Vec::new()).1;
        let agreed = agreed.and_then(|()| Asked::after(&copies.got, capacity, message).compare(one, &mut Vec::new()));
        first = agreed.err().map(|how| (done, how));
        if first.is_none() {
            Then::GoOn
        } else {
            Then::Stop
        }
    });
    first
}

/// An answer for a gateway's sheet.
#[derive(Clone, Copy, Debug)]
struct Slip {
    lent: Sheet,
    f: u64,
    number: u64,
    answer: u64,
}

/// So many answers for sheets that fill, now and then damaged, each handed to `act`.
fn for_each_slip(random: &mut Random, count: u64, mut act: impl FnMut(Slip)) {
    let mut sheet = Sheet { kind: 1, commits: 0, aborts: 0 };
    let (mut f, mut lean) = (1, 50);
    for _ in 0..count {
        if random.chance(4) {
            sheet = Sheet { kind: random.between(1, 2) as u8, commits: 0, aborts: 0 };
            f = random.between(1, 5);
            lean = random.one_of(&[0, 10, 50, 90, 100]);
        }
        let mut lent = sheet;
        if random.chance(3) {
            match random.below(4) {
                0 => lent.kind = random.one_of(&[0, 3, 255]),
                1 => lent.commits |= 1 << random.below(32),
                2 => lent.aborts |= 1 << random.below(32),
                _ => lent = Sheet { kind: 1, commits: random.next() as u32, aborts: random.next() as u32 },
            }
        }
        let number =
            if random.chance(96) { random.below(5 * f + 1) } else { random.one_of(&[5 * f + 1, 5 * f + 2, 26, 31, 32, 64, 255, 256, 1 << 32, u64::MAX]) };
        let answer = if random.chance(96) { 2 - u64::from(random.chance(lean)) } else { random.one_of(&[0, 3, 255, 256 + 1, (1 << 32) + 2, u64::MAX]) };
        let given_f = if random.chance(99) { f } else { random.one_of(&[0, 6, 255, 257, u64::MAX]) };
        act(Slip { lent, f: given_f, number, answer });
        if lent == sheet && given_f == f {
            model::tally(&mut sheet, f, number, answer);
        }
    }
}

/// One answer given to the box's tally and to the model's: the reply due, and the sheet where they agree. An error says how the two differ.
fn tally(one: &mut dyn Member, slip: Slip) -> (Reply, Result<Sheet, String>) {
    let (mut got, mut due) = (slip.lent, slip.lent);
    let given = one.tally(&mut got, slip.f, slip.number, slip.answer);
    let reply = model::tally(&mut due, slip.f, slip.number, slip.answer);
    if given == Ok(reply) && got == due {
        return (reply, Ok(got));
    }
    (reply, Err(format!("{slip:?}: box {given:?} {got:?}, model {reply:?} {due:?}")))
}

/// The answers of a sheet as a list has them.
fn listed(sheet: &Sheet) -> Vec<(u8, Decision)> {
    let answer = |number: u8| match (sheet.commits >> number & 1, sheet.aborts >> number & 1) {
        (1, _) => Some((number, Decision::Commit)),
        (_, 1) => Some((number, Decision::Abort)),
        _ => None,
    };
    (0..32).filter_map(answer).collect()
}

/// What a sheet lacks is what a box tells of the list made from it: an LG for each list, a DC for each proof, to an empty box. How many were
/// taken, and how many were refused for what the sheet said.
fn told_by_a_box(one: &mut dyn Member, f: u64, sheet: &Sheet, reply: Reply) -> Result<[u64; 2], String> {
    let (kind, lacking) = match &reply {
        Reply::Votes(lacking) => (Kind::Votes, &lacking[..]),
        Reply::Logs(lacking) => (Kind::Logs, &lacking[..]),
        Reply::Repeat | Reply::Refused(_) => return Ok([0, 0]),
    };
    let (body, answers, mut told) = (tx(50, &[], &[(3, 7)]), listed(sheet), [0, 0]);
    // a sheet of logs is for one view, whichever that is
    let view = (sheet.commits ^ sheet.aborts >> 5) as u16;
    for (place, lacking) in lacking.iter().enumerate() {
        let decision = [Decision::Commit, Decision::Abort][place % 2];
        // a sheet of votes says first what the two lists lack
        let (mark, taken) = if kind == Kind::Votes && place < 2 { (b"LG", Answer::Logged(decision, 0)) } else { (b"DC", Answer::Done) };
        let due = if *lacking == 0 { taken } else { Answer::TooFew(*lacking) };
        let settings = Settings { f, capacity: 1, clock: 0, delta: 0 };
        let message = with_view(mark, &body, kind, decision, view, &answers);
        let given = one.call(Entrance::Receive, &mut vec![0; table_len(1)], &mut vec![0; 512], &settings, &message)?;
        if given != due {
            return Err(format!(
                "f {f}, {sheet:?} says {reply:?}, and of its list in a {} for {decision:?} the box says {given:?}",
                String::from_utf8_lossy(mark)
            ));
        }
        told[usize::from(*lacking > 0)] += 1;
    }
    Ok(told)
}

/// The first answer for a sheet on which a box differs from the model, counted from 1, and how.
pub fn first_difference_in_tally(one: &mut dyn Member, count: u64, seed: u64) -> Option<(u64, String)> {
    let (mut done, mut first) = (0, None);
    for_each_slip(&mut Random::new(seed), count, |slip| {
        if first.is_none() {
            done += 1;
            first = tally(one, slip).1.err().map(|how| (done, how));
        }
    });
    first
}

/// A leader's sheet, an answer for it, and a stamp to make the election for; a gateway's sheet of views, and what it is told.
#[derive(Clone, Copy, Debug)]
struct Ballot {
    lent: ElectionSheet,
    views: ViewSheet,
    f: u64,
    number: u64,
    answer: u64,
    view: u64,
    stamp: u64,
}

/// So many of them, for sheets that fill, now and then damaged, each handed to `act`.
fn for_each_ballot(random: &mut Random, count: u64, mut act: impl FnMut(Ballot)) {
    let (mut sheet, mut views, mut f) = (ElectionSheet { view: 1, commits: 0, aborts: 0 }, ViewSheet { told: 0, views: [0; 26] }, 1);
    for _ in 0..count {
        if random.chance(4) {
            sheet = ElectionSheet { view: random.one_of(&[0, 1, 2, 255, 256, 65534, 65535]), commits: 0, aborts: 0 };
            views = ViewSheet { told: 0, views: std::array::from_fn(|_| if random.chance(50) { 0 } else { random.next() as u16 }) };
            f = random.between(1, 5);
        }
        let (mut lent, mut lent_views) = (sheet, views);
        if random.chance(3) {
            match random.below(4) {
                0 => lent.commits |= 1 << random.below(32),
                1 => lent.aborts |= 1 << random.below(32),
                2 => (lent.commits, lent.aborts) = (random.next() as u32, random.next() as u32),
                _ => lent_views.told |= 1 << random.below(32),
            }
        }
        let number =
            if random.chance(96) { random.below(5 * f + 1) } else { random.one_of(&[5 * f + 1, 5 * f + 2, 26, 31, 32, 64, 255, 256, 1 << 32, u64::MAX]) };
        let answer = if random.chance(96) { random.between(1, 2) } else { random.one_of(&[0, 3, 255, 256 + 1, (1 << 32) + 2, u64::MAX]) };
        let own = u64::from(sheet.view);
        let view = if random.chance(80) { own } else { random.one_of(&[own ^ 1, own + 1, own + 65536, 0, 255, 256, 65535, 65536, u64::MAX]) };
        let given_f = if random.chance(99) { f } else { random.one_of(&[0, 6, 255, 257, u64::MAX]) };
        let any = random.next().max(1);
        let stamp = random.one_of(&[1, 50, u64::MAX - 65535, u64::MAX, any]);
        act(Ballot { lent, views: lent_views, f: given_f, number, answer, view, stamp });
        if lent == sheet && given_f == f {
            model::elect(&mut sheet, f, number, answer, view);
            let _ = model::tell(&mut views, f, number, view);
        }
    }
}

/// A ballot for the box's sheets and for the model's: what is due of each of the four calls. An error says how the two differ.
fn ballot(one: &mut dyn Member, ballot: Ballot) -> (ElectionSheet, [String; 4], Result<(), String>) {
    let Ballot { lent, views, f, number, answer, view, stamp } = ballot;
    let (mut got, mut due, mut got_views, mut due_views) = (lent, lent, views, views);
    let (reply, reply_due) = (one.elect(&mut got, f, number, answer, view), model::elect(&mut due, f, number, answer, view));
    let (made, made_due) = (one.election(&got, f, stamp), model::election(&due, f, stamp));
    let (tell, tell_due) = (one.tell(&mut got_views, f, number, view), model::tell(&mut due_views, f, number, view));
    let (told, told_due) = (one.told(&got_views, f), model::told(&due_views, f));
    let named = |of: &str, number: Option<u8>| number.map_or(format!("{of}, made"), |number| format!("{of}, refused {number:2}"));
    let names = [
        match reply_due {
            ElectionReply::Taken(0) => "elect, reached".into(),
            ElectionReply::Taken(_) => "elect, lacking".into(),
            ElectionReply::Refused(number) => format!("elect, refused {number:2}"),
            other => format!("elect, {other:?}"),
        },
        named("election", made_due.as_ref().err().copied()),
        named("tell", tell_due.err()),
        named("told", told_due.as_ref().err().copied()),
    ];
    let same = reply == Ok(reply_due) && got == due && made == made_due && tell == tell_due && told == told_due && got_views == due_views;
    let how = || {
        format!("{ballot:?}: box {reply:?} {got:?} {made:?} {tell:?} {told:?} {got_views:?}, model {reply_due:?} {due:?} {made_due:?} {tell_due:?} {told_due:?} {due_views:?}")
    };
    (due, names, if same { Ok(()) } else { Err(how()) })
}

/// Every answer that the four have to give.
const BALLOTS: [&str; 19] = [
    "elect, lacking",
    "elect, reached",
    "elect, OtherView",
    "elect, Repeat",
    "elect, refused 14",
    "elect, refused 16",
    "elect, refused  5",
    "elect, refused  8",
    "election, made",
    "election, refused 14",
    "election, refused 16",
    "election, refused 23",
    "tell, made",
    "tell, refused 14",
    "tell, refused 16",
    "tell, refused  5",
    "told, made",
    "told, refused 14",
    "told, refused 16",
];

/// What a leader's sheet makes is what a box takes: an LD with it, to an empty box. One of view 0 is refused for its view, and no box's log is of that view by an LD.
fn led_by_a_box(one: &mut dyn Member, f: u64, sheet: &ElectionSheet, stamp: u64) -> Result<usize, String> {
    let Ok(made) = one.election(sheet, f, stamp) else { return Ok(2) };
    let settings = Settings { f, capacity: 1, clock: 0, delta: 0 };
    let message = ld(&tx(stamp, &[], &[(3, 7)]), &made);
    let given = one.call(Entrance::Receive, &mut vec![0; table_len(1)], &mut vec![0; 512], &settings, &message)?;
    let due = if made.view == 0 { Answer::Refused(21) } else { Answer::Logged(made.decision, made.view) };
    if given != due {
        return Err(format!("f {f}, {sheet:?}, stamp {stamp}: of its election {made:?} the box says {given:?}"));
    }
    Ok(usize::from(made.view == 0))
}

/// What becomes of an election made from a leader's sheet.
const LEADER_AND_BOX: [&str; 2] = ["the election of a leader's sheet, taken", "the election of a leader's sheet for view 0, refused for its view"];

/// The first of these on which a box differs from the model, counted from 1, and how.
pub fn first_difference_in_ballots(one: &mut dyn Member, count: u64, seed: u64) -> Option<(u64, String)> {
    let (mut done, mut first) = (0, None);
    for_each_ballot(&mut Random::new(seed), count, |slip| {
        if first.is_none() {
            done += 1;
            first = ballot(one, slip).2.err().map(|how| (done, how));
        }
    });
    first
}

/// What becomes of a list made from a sheet.
const SHEET_AND_BOX: [&str; 2] =
    ["the list of a sheet that has reached the threshold, taken", "the list of a sheet that has not, refused for what the sheet lacks"];

/// What one PR may visit with so many entries held.
fn bound(held: u64) -> u64 {
    33 * (held + 1)
}

/// How often what occurred, and what went wrong.
#[derive(Default)]
struct Counts {
    answers: BTreeMap<&'static str, u64>,
    entrances: BTreeMap<&'static str, u64>,
    cases: BTreeMap<&'static str, u64>,
    replies: BTreeMap<String, u64>,
    /// The largest number of entries visited, and how many were held then.
    most: (u64, u64),
    disagreements: u64,
}

impl Counts {
    fn disagreement(&mut self, how: String) {
        self.disagreements += 1;
        if self.disagreements <= 5 {
            println!("DISAGREEMENT {how}");
        }
    }

    /// A6: "never above 33 x (H + 1)".
    fn visited(&mut self, before: &[u8], due: Answer) {
        let Answer::Voted(_, Some(number)) = due else { return };
        let held = u64::from(before[0]);
        if number > bound(held) {
            self.disagreement(format!("{number} entries visited with {held} held, which is above {}", bound(held)));
        }
        self.most = self.most.max((number, held));
    }

    fn messages(&mut self, one: &mut dyn Member, random: &mut Random, count: u64) -> u64 {
        let (mut copies, mut met, mut trail) = (Copies::default(), Vec::new(), Trail::default());
        for_each_message(random, count, |call| {
            let how = call.how;
            let (due, agreed) = copies.call(one, call, &mut met);
            let agreed = agreed.and_then(|()| Asked::after(&copies.got, how.settings.capacity, how.message).compare(one, &mut met));
            trail.follow(how, &copies.before, due, &mut met);
            self.visited(&copies.before, due);
            *self.answers.entry(name(due)).or_default() += 1;
            *self.entrances.entry(how.entrance.name()).or_default() += 1;
            met.drain(..).for_each(|case| *self.cases.entry(case).or_default() += 1);
            let (read, read_due) = (engine::reading(how.message, how.settings.f), model::reading(how.message, how.settings.f));
            if read != read_due {
                self.disagreement(format!("reading {} alone: engine {read:?}, model {read_due:?}", hex(how.message)));
            }
            match agreed {
                Ok(()) => Then::GoOn,
                Err(how) => {
                    self.disagreement(how);
                    Then::NextRun
                }
            }
        })
    }

    fn sheets(&mut self, one: &mut dyn Member, random: &mut Random, count: u64) {
        let reached = |lacking: &[u8]| lacking.iter().filter(|one| **one == 0).count();
        for_each_slip(random, count, |slip| {
            let (reply, agreed) = tally(one, slip);
            let name = match reply {
                Reply::Votes(lacking) => format!("votes, {} reached", reached(&lacking)),
                Reply::Logs(lacking) => format!("logs, {} reached", reached(&lacking)),
                Reply::Repeat => "repeat".into(),
                Reply::Refused(number) => format!("refused {number:2}"),
            };
            *self.replies.entry(name).or_default() += 1;
            match agreed.and_then(|sheet| told_by_a_box(one, slip.f, &sheet, reply)) {
                Ok(told) => SHEET_AND_BOX.iter().zip(told).for_each(|(case, times)| *self.cases.entry(case).or_default() += times),
                Err(how) => self.disagreement(how),
            }
        });
    }
}

impl Counts {
    fn ballots(&mut self, one: &mut dyn Member, random: &mut Random, count: u64) {
        for_each_ballot(random, count, |slip| {
            let (sheet, names, agreed) = ballot(one, slip);
            for name in names {
                *self.replies.entry(name).or_default() += 1;
            }
            match agreed.and_then(|()| led_by_a_box(one, slip.f, &sheet, slip.stamp)) {
                Ok(place) => LEADER_AND_BOX.get(place).into_iter().for_each(|case| *self.cases.entry(case).or_default() += 1),
                Err(how) => self.disagreement(how),
            }
        });
    }
}

/// Prints how often each of these occurred; how many did not.
pub fn print(times: &BTreeMap<&'static str, u64>, due: &[&'static str]) -> u64 {
    let mut missing = 0;
    for one in due {
        let times = times.get(one).copied().unwrap_or(0);
        println!("{times:9}  {one}{}", if times == 0 { "  DID NOT OCCUR" } else { "" });
        missing += u64::from(times == 0);
    }
    missing
}

/// So many messages, a quarter as many answers for tally sheets, and as many for those of the fallback. False where anything differs or did not occur.
pub fn check(one: &mut dyn Member, count: u64, seed: u64) -> bool {
    let mut random = Random::new(seed);
    let mut counts = Counts::default();
    let runs = counts.messages(one, &mut random, count);
    println!("{count} messages in {runs} runs, seed {seed}, each also read alone, and after each one stamp looked up");
    let mut missing = print(&counts.entrances, &Entrance::NAMES);
    let given: Vec<&'static str> = ANSWERS.into_iter().filter(|one| *one != NEVER).collect();
    missing += print(&counts.answers, &given);
    let never = counts.answers.get(NEVER).copied().unwrap_or(0);
    println!("{never:9}  {NEVER}, which is no longer given");
    missing += print(&counts.cases, &model::CASES);
    missing += print(&counts.cases, &CIRCUMSTANCES);
    missing += print(&counts.cases, &HOLDINGS);
    missing += print(&counts.cases, &model::visits::NUMBERS);
    missing += print(&counts.cases, &model::low::LOWS);
    let times = |answer| counts.answers.get(answer).copied().unwrap_or(0);
    println!("{} low marks were raised, {} calls were refused with 18 and {} with 19", times("raised"), times("refused 18"), times("refused 19"));
    let (number, held) = counts.most;
    println!("{number:9}  the most entries that a PR visited, with {held} held; the bound there is {}", bound(held));
    counts.sheets(one, &mut random, count / 4);
    println!("{} answers for tally sheets", count / 4);
    for (reply, times) in &counts.replies {
        println!("{times:9}  {reply}");
    }
    missing += print(&counts.cases, &SHEET_AND_BOX);
    counts.replies.clear();
    counts.ballots(one, &mut random, count / 4);
    println!("{} election answers and views for a leader's sheet and a gateway's", count / 4);
    for reply in BALLOTS {
        let times = counts.replies.get(reply).copied().unwrap_or(0);
        println!("{times:9}  {reply}{}", if times == 0 { "  DID NOT OCCUR" } else { "" });
        missing += u64::from(times == 0);
    }
    missing += print(&counts.cases, &LEADER_AND_BOX);
    println!("{} disagreements, {missing} answers, cases or circumstances did not occur", counts.disagreements);
    counts.disagreements == 0 && missing == 0 && never == 0
}
