//! A box as the paper describes it, in ordinary Rust: records read from bytes, a list of entries, and the six messages.
//! It is written from the paper, with docs/DECISIONS.md where that leaves room, and shares no code with the engine that it is held against;
//! how a lent table is laid out is the interface's, from include/stobbarel.h.
//! What finishes a transaction that a dead gateway left is in model/fallback.rs, what a table holds under a stamp in model/held.rs,
//! how many entries a PR visits in model/visits.rs, how a box lets old entries go in model/low.rs.
//! `self.rules.hold(..)` marks the rules that broken.rs breaks, one at a time; in the paper's box all of them hold.

#[path = "model/fallback.rs"]
mod fallback;
#[path = "model/held.rs"]
mod held;
#[path = "model/low.rs"]
pub mod low;
#[path = "model/visits.rs"]
pub mod visits;

pub use fallback::*;
pub use held::*;
pub use low::{fold_of, low_of};
use std::cmp::Ordering;
use stobbarel::layout::{table_len, BODY_AT, DECIDED_AT, HEAD, LOG_AT, LOG_VIEW_AT, REASON_AT, ROW, VIEW_AT, VOTE_AT};

/// For each f from 1 on: commit list, abort list, commit proof, abort proof, proof from logs.
pub const THRESHOLDS: [[usize; 5]; 5] = [[4, 2, 6, 4, 5], [7, 3, 11, 7, 9], [10, 4, 16, 10, 13], [13, 5, 21, 13, 17], [16, 6, 26, 16, 21]];

/// A rule that can be broken, and what a box does then.
#[derive(Clone, Copy, Debug, PartialEq, Eq)]
pub enum Rule {
    /// One of the five thresholds, by its place in the row: one lower.
    Threshold(usize),
    /// The proof from logs: 3f logs.
    MostLogs,
    /// 6 of a list: it may name a box twice, and both answers count.
    NamedOnce,
    /// A list of logs has no view.
    LogsHaveAView,
    /// A list of votes has a view too, before its pairs.
    VotesHaveNone,
    /// A list whose kind is neither votes nor logs has a view too.
    OtherKindsHaveNone,
    /// A view's higher byte stands first.
    LowByteFirst,
    /// The view of a list of votes: what stands behind its count.
    VotesReadAsZero,
    /// A list of votes is written with the view that is lent beside it.
    VotesWrittenWithout,
    /// 7: a version above the own stamp may be read.
    PastReads,
    /// Entries that answer otherwise than the list's decision are counted too.
    NamedAnswer,
    /// One of the five tests: left out.
    Test(u8),
    /// Test 5: a read mark equal to the stamp is a clash.
    EqualMark,
    /// RD: the read mark is not raised.
    MarkRaised,
    /// RD: the read mark becomes the stamp, be it lower.
    MarkStays,
    /// RD: no undecided version is shown.
    UndecidedShown,
    /// One of the three kinds of live entries: dropped from the live set.
    CommittedLives,
    VotedLives,
    WaitingLives,
    /// Waiting rule: a version decided abort does not give reason 6.
    AbortedVersion,
    /// Waiting rule: a committed version is fine whether its body writes the key or not.
    KeyWritten,
    /// Waiting rule: an undecided version is not waited for.
    UndecidedWaits,
    /// PR: another body is answered like the held one.
    SameBody,
    /// PR: a vote cast is cast anew.
    VoteStays,
    /// LG: a second valid list is logged afresh.
    FirstLogStays,
    /// LG for a stamp not held: 10.
    NoUnknown,
    /// LG for a stamp not held: 13 before 11.
    TooFewFirst,
    /// LG for a stamp not held: its entry is live before its PR.
    NotLiveBefore,
    /// LG for a stamp not held: its entry has a commit vote.
    VoteNone,
    /// PR in place of vote none: the log is lost.
    LogKept,
    /// PR in place of vote none: 13 where the table is full.
    NoFurtherRoom,
    /// PR in place of vote none: the vote is told and not stored, so that the entry is tested again at every PR and never live.
    VoteStored,
    /// PR: what is logged is tested again each time; the table does not tell which message stored an entry.
    TestedOnce,
    /// What is logged is not live, whatever the vote.
    LoggedLives,
    /// A full table: the new entry takes the first one's place.
    EntriesStay,
    /// LG: a log of a later view than 0 gives way to a valid list, which is logged in view 0.
    LaterLogStays,
    /// LG and LD: a log answer tells the current view.
    LogTellsItsView,
    /// IV: by 3f + 1 views a box goes to the view after, be it lower than its own.
    NeverBack,
    /// IV: by 3f + 1 views a box goes to that view, not to the one after.
    ToTheViewAfter,
    /// IV: there is no rule for f + 1 views.
    FewMove,
    /// IV: views are counted that are equal, not higher ones too.
    HigherCount,
    /// IV: the view moved on to is told and not stored.
    ViewStored,
    /// IV: the election answer is the vote.
    ElectsItsLog,
    /// IV: 24 before 22.
    NotLoggedFirst,
    /// The leader: the sum of view and stamp wraps at 2^64.
    WholeSum,
    /// 23: any box leads any view.
    LeaderLeads,
    /// 23: any number of answers will do, by their majority.
    AllAnswer,
    /// 23: more answers than 4f + 1 will do, by their majority.
    NoMoreAnswer,
    /// 23: answers of one lower view will do.
    AnswersOfTheView,
    /// 23: answers of any views will do.
    AnswersOfOneView,
    /// 23: a decision that is not the majority's will do.
    MajorityDecides,
    /// 21: the current view may be above.
    NotPassed,
    /// 21: the logged view may be any.
    LogBelow,
    /// 21: the logged view may be the same.
    LogStrictlyBelow,
    /// LD: 21 before 23.
    ElectionFirst,
    /// LD: 13 before 21.
    PassedBeforeFull,
    /// LD: a new entry's current view is 0.
    NewEntryInItsView,
    /// DC: what is decided has views 0.
    DecidedKeepsViews,
    /// DC: a body that replaces another has its current view.
    ReplacedHasNoView,
    /// LG: the current view becomes 0.
    LogLeavesView,
    /// A proof from logs: equal decisions, of whatever views. It is no box's rule, but that of who counts them.
    EqualViews,
    /// RD: the last among equals.
    FirstAmongEquals,
    /// A look-up by stamp takes the last such entry.
    FirstOfAStamp,
    /// RD: the last writer in the table, be its stamp not the highest.
    HighestStamp,
    /// A look-up ends at the first higher stamp, as if entries stood in stamp order.
    AnyPlace,
    /// Test 3 ends at the first live writer of a key.
    EveryWriter,
    /// DC: a new entry takes the place of the first that is aborted.
    AbortedStay,
    /// A read that nothing can slip under: 3f boxes will do. It is no box's rule either, nor is the next.
    ReadByEnough,
    /// A read that nothing can slip under: neither can a stamp equal to the read's.
    ReadAbove,
    /// The contents of an EL: 5 before 8.
    CodeFirst,
    /// The contents of an EL: a leader n or more.
    LeaderIsABox,
    /// A6: a look-up does not count the entry that it finds.
    FoundCounts,
    /// A6: the look-up of the own stamp does not count.
    OwnCounts,
    /// A6: tests 3 and 4 count live entries only.
    DeadCount,
    /// A6: tests 3 and 4 go row by row, through the keys at each.
    KeyByKey,
    /// A6: what stands behind a test that fails counts too.
    EndsThere,
    /// A6: the waiting rule stops at the first version that gives reason 6.
    EveryVersion,
    /// A6: there is a number beside the same vote again.
    NoNumberAgain,
    /// A11: 18 is not given to the message of this mark, by its place among them.
    OldRefused(usize),
    /// A11: 18 comes only after what else the state refuses. For a DC that is 11.
    OldFirst,
    /// A11: a stamp equal to the low mark is not old.
    OldAtTheMark,
    /// A11: an RD's 18 comes before 15.
    OldAfterAhead,
    /// A11: a low mark may be raised to where it is.
    RaisedAbove,
    /// A11: 19 before 18.
    OldBeforeUndecided,
    /// A11: an undecided entry leaves with the others.
    UndecidedStay,
    /// A11: committed ones do not fold, they only leave.
    CommittedFold,
    /// A11: what was folded last stays the folded one, be it not the newest.
    NewestFolds,
    /// A11: what was folded before gives way, be it newer.
    NewerFoldStays,
    /// A11: aborted ones fold too.
    AbortedDoNot,
    /// A11: aborted ones stay where they are.
    AbortedLeave,
    /// A11: the rest does not stay in order: the last takes the first free place.
    InOrder,
    /// A11: the folded version gives no reason 3.
    FoldGives3,
    /// A11: the folded version gives reason 3 only where it is below this stamp.
    AnyFoldAbove,
    /// A11: an old version is the folded one if it is any key's.
    FoldedByKey,
    /// A11: an old version is looked up in the table.
    OldNotLookedUp,
    /// A11: an old version is as good as committed in the waiting rule.
    OldWaitsInVain,
    /// A11: an RD does not fall back to the folded version.
    ReadFallsBack,
    /// A11: an RD takes the folded version before the table.
    TableBeforeFold,
    /// A6 with A11: a look-up at or below the low mark counts too.
    OldNotCounted,
    /// A6 with A11: where the folded version fails a key, its entries are counted all the same.
    FoldCountsNone,
}

/// The rules of a box, less the broken ones.
#[derive(Clone, Copy, Debug)]
pub struct Rules {
    pub broken: &'static [Rule],
}

pub const PAPER: Rules = Rules { broken: &[] };

impl Rules {
    pub fn hold(self, rule: Rule) -> bool {
        // where the model is timed, no rule can be broken, and asking costs nothing
        cfg!(feature = "paper") || !self.broken.contains(&rule)
    }

    /// The row of five thresholds.
    pub fn row(self, f: u64) -> [usize; 5] {
        let mut row = THRESHOLDS[f as usize - 1];
        for (place, threshold) in row.iter_mut().enumerate() {
            *threshold -= usize::from(!self.hold(Rule::Threshold(place)));
        }
        if !self.hold(Rule::MostLogs) {
            row[4] = 3 * f as usize;
        }
        row
    }

    /// The threshold of a proof.
    pub fn proof(self, f: u64, kind: Kind, decision: Decision) -> usize {
        let row = self.row(f);
        match (kind, decision) {
            (Kind::Votes, Decision::Commit) => row[2],
            (Kind::Votes, Decision::Abort) => row[3],
            (Kind::Logs, _) => row[4],
        }
    }

    /// How many counted answers a list lacks for logging; 0 where it meets the threshold.
    fn lacking_to_log(self, f: u64, list: &List) -> u8 {
        let row = self.row(f);
        let needed = match list.decision {
            Decision::Commit => row[0],
            Decision::Abort => row[1],
        };
        lacking(needed, self.counted(list))
    }

    /// The same for its proof.
    fn lacking_to_prove(self, f: u64, list: &List) -> u8 {
        lacking(self.proof(f, list.kind, list.decision), self.counted(list))
    }

    /// Only entries with the list's decision are counted.
    fn counted(self, list: &List) -> usize {
        list.answers.iter().filter(|(_, answer)| *answer == list.decision || !self.hold(Rule::NamedAnswer)).count()
    }
}

/// What is lacking to a threshold; 0 where it is reached.
fn lacking(needed: usize, counted: usize) -> u8 {
    needed.saturating_sub(counted) as u8
}

#[derive(Clone, Copy, Debug, PartialEq, Eq, PartialOrd, Ord)]
pub enum Decision {
    Commit,
    Abort,
}

#[derive(Clone, Copy, Debug, PartialEq, Eq)]
pub enum Kind {
    Votes,
    Logs,
}

#[derive(Clone, Copy, Debug, PartialEq, Eq)]
pub enum Vote {
    None,
    Waiting,
    Commit,
    Abort(u8),
}

#[derive(Clone, Debug, PartialEq, Eq)]
pub struct Transaction {
    /// "TX", but in a lent table the two bytes are taken as they stand.
    pub mark: [u8; 2],
    pub stamp: u64,
    pub reads: Vec<(u16, u64)>,
    pub writes: Vec<(u16, u64)>,
}

#[derive(Clone, Debug, PartialEq, Eq)]
pub struct List {
    pub kind: Kind,
    pub decision: Decision,
    /// Of logs; 0 beside votes, which have none.
    pub view: u16,
    pub answers: Vec<(u8, Decision)>,
}

/// A leader's decision, and the election answers under it: box, what it logged, and the view that it answered for.
#[derive(Clone, Debug, PartialEq, Eq)]
pub struct Election {
    pub leader: u8,
    pub decision: Decision,
    pub view: u16,
    pub answers: Vec<(u8, Decision, u16)>,
}

#[derive(Clone, Debug)]
pub enum Message {
    Prepare(Transaction),
    Log(Transaction, List),
    Decide(Transaction, List),
    Read {
        key: u16,
        stamp: u64,
    },
    /// Boxes with the views that they told.
    Invoke(Transaction, Vec<(u8, u16)>),
    Lead(Transaction, Election),
}

impl Message {
    /// An RD has none.
    fn transaction(&self) -> Option<&Transaction> {
        match self {
            Message::Prepare(tx) | Message::Log(tx, _) | Message::Decide(tx, _) | Message::Invoke(tx, _) | Message::Lead(tx, _) => Some(tx),
            Message::Read { .. } => None,
        }
    }
}

#[derive(Clone, Debug, PartialEq, Eq)]
pub struct Entry {
    pub body: Transaction,
    pub vote: Vote,
    /// The logged decision and its view.
    pub log: Option<(Decision, u16)>,
    /// The current view.
    pub view: u16,
    pub decision: Option<Decision>,
}

#[derive(Clone, Copy, Debug, PartialEq, Eq)]
pub enum Answer {
    /// With how many entries were visited, or no number.
    Voted(Vote, Option<u64>),
    Decided(Decision),
    /// With the view that it was logged in.
    Logged(Decision, u16),
    /// An election answer: the logged decision, the current view, and the box that leads it.
    Elected {
        decision: Decision,
        view: u16,
        leader: u8,
    },
    Done,
    Found {
        committed: (u64, u64),
        undecided: (u64, u64),
    },
    /// 11, with how many counted answers are lacking.
    TooFew(u8),
    /// Any other refusal, by its number.
    Refused(u8),
    /// The low mark.
    Raised,
}

#[derive(Clone, Copy, Debug)]
pub struct Settings {
    pub f: u64,
    pub capacity: u64,
    pub clock: u64,
    pub delta: u64,
}

impl Settings {
    /// f 1 to 5, capacity 1 to 255.
    pub fn in_order(&self) -> bool {
        (1..=5).contains(&self.f) && (1..=255).contains(&self.capacity)
    }

    pub fn boxes(&self) -> u64 {
        5 * self.f + 1
    }

    /// Above clock + δ, which is a sum of whole numbers.
    fn ahead(&self, stamp: u64) -> bool {
        u128::from(stamp) > u128::from(self.clock) + u128::from(self.delta)
    }
}

// ---- records

/// The marks of the six messages; the interface names them by their places, from 1 on.
pub const MARKS: [&[u8; 2]; 6] = [b"PR", b"LG", b"DC", b"RD", b"IV", b"LD"];
pub const LG: u64 = 2;
pub const DC: u64 = 3;

const SHORT: u8 = 1;
const MARK: u8 = 2;
const COUNT: u8 = 3;
const TRAILING: u8 = 4;
const RANGE: u8 = 5;
const ORDER: u8 = 6;
const MISBEHAVIOUR: u8 = 7;
const CODE: u8 = 8;
const OTHER_BODY: u8 = 9;
/// No longer given; a box with a broken rule gives it.
const UNKNOWN: u8 = 10;
const CONTRADICTION: u8 = 12;
const FULL: u8 = 13;
const GROUP: u8 = 14;
const AHEAD: u8 = 15;
const TABLE: u8 = 16;
const BUFFER: u8 = 17;
const OLD: u8 = 18;
const UNDECIDED: u8 = 19;
const PASSED: u8 = 21;
const NOT_LOGGED: u8 = 22;
const ELECTION: u8 = 23;
const LAST_VIEW: u8 = 24;

fn little(bytes: &[u8]) -> u64 {
    bytes.iter().rev().fold(0, |sum, byte| sum << 8 | u64::from(*byte))
}

/// What is left of a message.
struct Bytes<'a>(&'a [u8]);

impl<'a> Bytes<'a> {
    fn next(&mut self, count: usize) -> Result<&'a [u8], u8> {
        if self.0.len() < count {
            return Err(SHORT);
        }
        let (front, rest) = self.0.split_at(count);
        self.0 = rest;
        Ok(front)
    }

    fn mark(&mut self, due: &[&[u8; 2]]) -> Result<[u8; 2], u8> {
        let mark = self.next(2)?;
        match due.iter().find(|one| one.as_slice() == mark) {
            Some(one) => Ok(**one),
            None => Err(MARK),
        }
    }
}

fn pairs(bytes: &[u8]) -> Vec<(u16, u64)> {
    bytes.chunks(10).map(|pair| (little(&pair[..2]) as u16, little(&pair[2..]))).collect()
}

/// A TX cut, its contents not yet judged.
fn cut_transaction(bytes: &mut Bytes) -> Result<Transaction, u8> {
    let mark = bytes.mark(&[b"TX"])?;
    let counts = bytes.next(2)?;
    let (r, w) = (counts[0] as usize, counts[1] as usize);
    if r > 8 || w > 8 || r + w == 0 {
        return Err(COUNT);
    }
    let rest = bytes.next(8 + 10 * (r + w))?;
    let (stamp, rest) = rest.split_at(8);
    let (reads, writes) = rest.split_at(10 * r);
    Ok(Transaction { mark, stamp: little(stamp), reads: pairs(reads), writes: pairs(writes) })
}

/// A VL cut: kind, decision, view and pairs as numbers. The view is 0 where the kind has none.
struct CutList {
    kind: u8,
    decision: u8,
    view: u16,
    pairs: Vec<(u8, u8)>,
}

impl Rules {
    /// "a list of kind 2 carries its view, two bytes, after the count"; no other kind does.
    fn has_a_view(self, kind: u8) -> bool {
        match kind {
            1 => !self.hold(Rule::VotesHaveNone),
            2 => self.hold(Rule::LogsHaveAView),
            _ => !self.hold(Rule::OtherKindsHaveNone),
        }
    }

    /// Little-endian, like every number.
    fn view_of(self, two: &[u8]) -> u16 {
        let view = little(two) as u16;
        if self.hold(Rule::LowByteFirst) {
            view
        } else {
            view.swap_bytes()
        }
    }
}

/// Kind, decision and count first; the view belongs to the rest.
fn cut_list(bytes: &mut Bytes, rules: Rules) -> Result<CutList, u8> {
    bytes.mark(&[b"VL"])?;
    let head = bytes.next(3)?;
    let (kind, count) = (head[0], head[2] as usize);
    if count == 0 || count > 26 {
        return Err(COUNT);
    }
    let viewed = if rules.has_a_view(kind) { 2 } else { 0 };
    let rest = bytes.next(viewed + 2 * count)?;
    let view = match kind {
        2 => rules.view_of(&rest[..viewed]),
        1 if !rules.hold(Rule::VotesReadAsZero) => rules.view_of(&rest[..2]),
        _ => 0,
    };
    let pairs = rest[viewed..].chunks(2).map(|pair| (pair[0], pair[1])).collect();
    Ok(CutList { kind, decision: head[1], view, pairs })
}

/// How many are listed: 1 to 26.
fn listed(count: u8) -> Result<usize, u8> {
    match count {
        1..=26 => Ok(count.into()),
        _ => Err(COUNT),
    }
}

/// A VS cut: boxes and their views.
fn cut_views(bytes: &mut Bytes, rules: Rules) -> Result<Vec<(u8, u16)>, u8> {
    bytes.mark(&[b"VS"])?;
    let count = listed(bytes.next(1)?[0])?;
    Ok(bytes.next(3 * count)?.chunks(3).map(|one| (one[0], rules.view_of(&one[1..]))).collect())
}

/// An EL cut: decision and answers as numbers.
struct CutElection {
    leader: u8,
    decision: u8,
    view: u16,
    answers: Vec<(u8, u8, u16)>,
}

/// Leader, decision, view and count first.
fn cut_election(bytes: &mut Bytes, rules: Rules) -> Result<CutElection, u8> {
    bytes.mark(&[b"EL"])?;
    let head = bytes.next(5)?;
    let rest = bytes.next(4 * listed(head[4])?)?;
    let answers = rest.chunks(4).map(|one| (one[0], one[1], rules.view_of(&one[2..]))).collect();
    Ok(CutElection { leader: head[0], decision: head[1], view: rules.view_of(&head[2..4]), answers })
}

fn rises<T: PartialOrd>(numbers: &[T]) -> bool {
    numbers.windows(2).all(|two| two[0] < two[1])
}

fn keys(of: &[(u16, u64)]) -> Vec<u16> {
    of.iter().map(|pair| pair.0).collect()
}

/// All of a transaction for 5, then 6, then 7.
fn judge_transaction(tx: &Transaction, rules: Rules) -> Result<(), u8> {
    let (read, written) = (keys(&tx.reads), keys(&tx.writes));
    if tx.stamp == 0 || read.iter().chain(&written).any(|key| *key > 511) {
        return Err(RANGE);
    }
    if !rises(&read) || !rises(&written) {
        return Err(ORDER);
    }
    if rules.hold(Rule::PastReads) && tx.reads.iter().any(|(_, version)| *version >= tx.stamp) {
        return Err(MISBEHAVIOUR);
    }
    Ok(())
}

fn decision(code: u8) -> Result<Decision, u8> {
    match code {
        1 => Ok(Decision::Commit),
        2 => Ok(Decision::Abort),
        _ => Err(CODE),
    }
}

/// A list for 8, then 5, then 6.
fn judge_list(cut: &CutList, settings: &Settings, logs_allowed: bool, rules: Rules) -> Result<List, u8> {
    let kind = match cut.kind {
        1 => Kind::Votes,
        2 if logs_allowed => Kind::Logs,
        _ => return Err(CODE),
    };
    let named = decision(cut.decision)?;
    let mut answers = Vec::new();
    for (number, code) in &cut.pairs {
        answers.push((*number, decision(*code)?));
    }
    if answers.iter().any(|(number, _)| u64::from(*number) >= settings.boxes()) {
        return Err(RANGE);
    }
    if rules.hold(Rule::NamedOnce) && !rises(&answers.iter().map(|pair| pair.0).collect::<Vec<_>>()) {
        return Err(ORDER);
    }
    Ok(List { kind, decision: named, view: cut.view, answers })
}

/// Box numbers for 5, then 6.
fn judge_boxes(numbers: &[u8], settings: &Settings) -> Result<(), u8> {
    if numbers.iter().any(|number| u64::from(*number) >= settings.boxes()) {
        return Err(RANGE);
    }
    if !rises(numbers) {
        return Err(ORDER);
    }
    Ok(())
}

/// A VS for 5, then 6; any view is in order.
fn judge_views(views: &[(u8, u16)], settings: &Settings) -> Result<(), u8> {
    judge_boxes(&views.iter().map(|one| one.0).collect::<Vec<u8>>(), settings)
}

/// An EL for 8, then 5, the leader's number among the boxes', then 6.
fn judge_election(cut: &CutElection, settings: &Settings, rules: Rules) -> Result<Election, u8> {
    let numbers: Vec<u8> = cut.answers.iter().map(|one| one.0).collect();
    if !rules.hold(Rule::CodeFirst) && numbers.iter().any(|number| u64::from(*number) >= settings.boxes()) {
        return Err(RANGE);
    }
    let named = decision(cut.decision)?;
    let answers = cut.answers.iter().map(|(number, code, view)| Ok((*number, decision(*code)?, *view))).collect::<Result<Vec<_>, u8>>()?;
    if u64::from(cut.leader) >= settings.boxes() && rules.hold(Rule::LeaderIsABox) {
        return Err(RANGE);
    }
    judge_boxes(&numbers, settings)?;
    Ok(Election { leader: cut.leader, decision: named, view: cut.view, answers })
}

/// How long the message is that these bytes begin with, whatever follows it; or why it cannot be cut.
pub fn cut(bytes: &[u8]) -> Result<usize, u8> {
    let mut left = Bytes(bytes);
    let mark = left.mark(&MARKS)?;
    if &mark == b"RD" {
        left.next(10)?;
    } else {
        cut_transaction(&mut left)?;
    }
    match &mark {
        b"LG" | b"DC" => drop(cut_list(&mut left, PAPER)?),
        b"IV" => drop(cut_views(&mut left, PAPER)?),
        b"LD" => drop(cut_election(&mut left, PAPER)?),
        _ => {}
    }
    Ok(bytes.len() - left.0.len())
}

/// What stands behind a transaction, cut.
enum Behind {
    Nothing,
    List(CutList),
    Views(Vec<(u8, u16)>),
    Election(CutElection),
}

/// A message: the whole cut first, then 4, then the contents.
pub fn read_message(message: &[u8], settings: &Settings, due: &[&[u8; 2]], rules: Rules) -> Result<Message, u8> {
    let mut bytes = Bytes(message);
    let mark = bytes.mark(due)?;
    if &mark == b"RD" {
        return read_rd(bytes, settings);
    }
    let tx = cut_transaction(&mut bytes)?;
    let behind = match &mark {
        b"PR" => Behind::Nothing,
        b"IV" => Behind::Views(cut_views(&mut bytes, rules)?),
        b"LD" => Behind::Election(cut_election(&mut bytes, rules)?),
        _ => Behind::List(cut_list(&mut bytes, rules)?),
    };
    if !bytes.0.is_empty() {
        return Err(TRAILING);
    }
    judge_transaction(&tx, rules)?;
    Ok(match behind {
        Behind::Nothing => Message::Prepare(tx),
        Behind::List(cut) if &mark == b"LG" => Message::Log(tx, judge_list(&cut, settings, false, rules)?),
        Behind::List(cut) => Message::Decide(tx, judge_list(&cut, settings, true, rules)?),
        Behind::Views(views) => {
            judge_views(&views, settings)?;
            Message::Invoke(tx, views)
        }
        Behind::Election(cut) => Message::Lead(tx, judge_election(&cut, settings, rules)?),
    })
}

/// What stands behind the mark of an RD.
fn read_rd(mut bytes: Bytes, settings: &Settings) -> Result<Message, u8> {
    let rest = bytes.next(10)?;
    if !bytes.0.is_empty() {
        return Err(TRAILING);
    }
    let (key, stamp) = (little(&rest[..2]) as u16, little(&rest[2..]));
    if stamp == 0 || key > 511 {
        return Err(RANGE);
    }
    if settings.ahead(stamp) {
        return Err(AHEAD);
    }
    Ok(Message::Read { key, stamp })
}

// ---- a box

impl Transaction {
    fn writes_key(&self, key: u16) -> bool {
        self.writes.iter().any(|(written, _)| *written == key)
    }
}

impl Entry {
    pub fn live(&self) -> bool {
        match self.decision {
            Some(decided) => decided == Decision::Commit,
            None => matches!(self.vote, Vote::Commit | Vote::Waiting),
        }
    }

    fn committed(&self) -> bool {
        self.decision == Some(Decision::Commit)
    }

    /// As an LG leaves it where the box missed the prepare: undecided, logged, with no vote.
    pub fn only_logged(&self) -> bool {
        self.decision.is_none() && self.vote == Vote::None && self.log.is_some()
    }

    /// Undecided, with nothing logged, in view 0.
    fn new(body: Transaction, vote: Vote) -> Entry {
        Entry { body, vote, log: None, view: 0, decision: None }
    }

    /// Where nothing is logged, the logged view counts as 0.
    fn logged_view(&self) -> u16 {
        self.log.map_or(0, |(_, view)| view)
    }
}

/// A lent table's entries and its read marks, for the length of one call.
pub struct Store<'a> {
    pub rules: Rules,
    /// The table's bytes, of which the head is looked at: low mark and folded versions.
    pub head: &'a [u8],
    pub entries: Vec<Entry>,
    pub marks: Vec<u64>,
    /// The entry that the call stored or changed.
    pub touched: Option<usize>,
    /// Which of the paper's cases the call met.
    pub met: Vec<&'static str>,
}

/// The cases that a mixture of messages has to meet.
pub const CASES: [&str; 74] = [
    "PR new, no test fails",
    "PR again, vote cast",
    "PR again, waiting: waits on",
    "PR again, waiting: commit",
    "PR again, waiting: abort 6",
    "PR in place of vote none",
    "PR in place of vote none, log kept",
    "PR in place of vote none, log kept: commit",
    "PR in place of vote none, log kept: wait",
    "PR in place of vote none, log kept, table full",
    "test 2: the version is logged, with no vote",
    "waiting rule: decided abort",
    "waiting rule: committed by a body that lacks the key",
    "waiting rule: not held",
    "waiting rule: waits for an entry with an abort vote",
    "a stamp held twice",
    "PR 9, decided entry",
    "LG 9",
    "LG again, other list",
    "LG again, other list, no vote",
    "LG with an abort vote cast",
    "LG 11, one lacking",
    "LG 11, no answer counted",
    "LG again, too few",
    "LG new",
    "LG new, too few",
    "LG new, too few, table full",
    "LG new, table full",
    "DC 11, one lacking",
    "DC 11, no vote counted",
    "DC 11, no log counted",
    "DC, logs of view 0",
    "DC, logs of view 1 to 255",
    "DC, logs of a view above 255",
    "DC new",
    "DC, undecided takes it",
    "DC, undecided takes it, logged with no vote",
    "DC, equal decision",
    "DC, opposite decision",
    "DC abort, other body",
    "DC commit, other body committed",
    "DC replaces an undecided body",
    "DC replaces an aborted body",
    "LG again, logged in a later view",
    "LG, in a later view",
    "DC, undecided takes it, in a later view",
    "DC replaces a body in a later view",
    "IV 9",
    "IV, decided",
    "IV 22, not held",
    "IV 22, nothing logged",
    "IV 22, before 24",
    "IV, by 3f + 1 views to the one after",
    "IV, by 3f + 1 views nowhere",
    "IV, by f + 1 views up to them",
    "IV, by f + 1 views nowhere",
    "IV, too few views",
    "IV, elects against its vote",
    "LD 9",
    "LD, decided",
    "LD 23, another leads",
    "LD 23, too few answers",
    "LD 23, too many answers",
    "LD 23, an answer of another view",
    "LD 23, not the majority",
    "LD 23, before 21",
    "LD 21, the current view is above",
    "LD 21, the logged view is not below",
    "LD 21, view 0",
    "LD 13",
    "LD new",
    "LD, nothing was logged",
    "LD, the same was logged",
    "LD, the other was logged",
];

impl Store<'_> {
    fn place(&self, stamp: u64) -> Option<usize> {
        let is = |entry: &Entry| entry.body.stamp == stamp;
        if !self.rules.hold(Rule::FirstOfAStamp) {
            return self.entries.iter().rposition(is);
        }
        if !self.rules.hold(Rule::AnyPlace) {
            return self.entries.iter().take_while(|entry| entry.body.stamp <= stamp).position(is);
        }
        self.entries.iter().position(is)
    }

    fn lives(&self, entry: &Entry) -> bool {
        if entry.only_logged() && !self.rules.hold(Rule::NotLiveBefore) {
            return true;
        }
        let rule = match (entry.decision, entry.vote) {
            (Some(_), _) => Rule::CommittedLives,
            (None, _) if entry.log.is_some() && !self.rules.hold(Rule::LoggedLives) => return false,
            (None, Vote::Waiting) => Rule::WaitingLives,
            (None, _) => Rule::VotedLives,
        };
        entry.live() && self.rules.hold(rule)
    }

    fn live(&self) -> impl Iterator<Item = &Entry> {
        self.entries.iter().filter(|entry| self.lives(entry))
    }

    /// Test 2: a nonzero version that is not a live entry writing that key; an old one that is not the folded one.
    fn names_no_version(&self, tx: &Transaction) -> bool {
        tx.reads.iter().filter(|(_, version)| *version != 0).any(|(key, version)| {
            if self.is_old_version(*version) {
                return !self.is_folded(*key, *version);
            }
            let named = self.place(*version).map(|place| &self.entries[place]);
            !named.is_some_and(|entry| self.lives(entry) && entry.body.writes_key(*key))
        })
    }

    /// Test 3: a live entry writes a key read here, above the version read and below this stamp; or the key's folded version is above the version read.
    fn misses_a_write(&self, tx: &Transaction) -> bool {
        tx.reads.iter().any(|(key, version)| {
            if self.fold_above(*key, *version, tx.stamp) {
                return true;
            }
            let missed = |entry: &Entry| entry.body.stamp > *version && entry.body.stamp < tx.stamp;
            if !self.rules.hold(Rule::EveryWriter) {
                return self.live().find(|entry| entry.body.writes_key(*key)).is_some_and(missed);
            }
            self.live().any(|entry| missed(entry) && entry.body.writes_key(*key))
        })
    }

    /// Test 4: a live entry with a higher stamp read a key written here, below this stamp.
    fn slips_under_a_read(&self, tx: &Transaction) -> bool {
        tx.writes.iter().any(|(key, _)| {
            let mut above = self.live().filter(|entry| entry.body.stamp > tx.stamp);
            above.any(|entry| entry.body.reads.iter().any(|(read, version)| read == key && *version < tx.stamp))
        })
    }

    /// Test 5: a written key's read mark is above this stamp.
    fn is_marked(&self, tx: &Transaction) -> bool {
        let clash = |mark: u64| mark > tx.stamp || (mark == tx.stamp && !self.rules.hold(Rule::EqualMark));
        tx.writes.iter().any(|(key, _)| clash(self.marks[*key as usize]))
    }

    /// The number of the first failing test.
    fn failing_test(&self, tx: &Transaction, settings: &Settings) -> Option<u8> {
        let fails = |number| match number {
            1 => settings.ahead(tx.stamp),
            2 => self.names_no_version(tx),
            3 => self.misses_a_write(tx),
            4 => self.slips_under_a_read(tx),
            _ => self.is_marked(tx),
        };
        (1..=5).find(|number| self.rules.hold(Rule::Test(*number)) && fails(*number))
    }

    fn waiting_rule(&mut self, tx: &Transaction) -> Vote {
        let mut waits = false;
        for (key, version) in tx.reads.iter().filter(|(_, version)| *version != 0) {
            if self.is_old_version(*version) {
                if self.is_folded(*key, *version) || !self.rules.hold(Rule::OldWaitsInVain) {
                    self.met.push("waiting rule: the folded one");
                    continue;
                }
                self.met.push("waiting rule: old, and not the folded one");
                return Vote::Abort(6);
            }
            let Some(place) = self.place(*version) else {
                self.met.push("waiting rule: not held");
                return Vote::Abort(6);
            };
            let entry = &self.entries[place];
            match entry.decision {
                Some(Decision::Abort) if self.rules.hold(Rule::AbortedVersion) => {
                    self.met.push("waiting rule: decided abort");
                    return Vote::Abort(6);
                }
                Some(Decision::Commit) if !entry.body.writes_key(*key) && self.rules.hold(Rule::KeyWritten) => {
                    self.met.push("waiting rule: committed by a body that lacks the key");
                    return Vote::Abort(6);
                }
                Some(_) => {}
                None => {
                    if matches!(entry.vote, Vote::Abort(_)) {
                        self.met.push("waiting rule: waits for an entry with an abort vote");
                    }
                    waits = self.rules.hold(Rule::UndecidedWaits);
                }
            }
        }
        if waits {
            Vote::Waiting
        } else {
            Vote::Commit
        }
    }

    fn first_vote(&mut self, tx: &Transaction, settings: &Settings) -> Vote {
        let failing = self.failing_test(tx, settings);
        self.meet_folds(tx, failing);
        if failing == Some(2) && tx.reads.iter().filter_map(|(_, version)| self.place(*version)).any(|place| self.entries[place].only_logged()) {
            self.met.push("test 2: the version is logged, with no vote");
        }
        match failing {
            Some(reason) => Vote::Abort(reason),
            None => self.waiting_rule(tx),
        }
    }

    fn full(&self, settings: &Settings) -> bool {
        self.entries.len() as u64 >= settings.capacity && self.rules.hold(Rule::EntriesStay)
    }

    /// A new entry stands behind the others.
    fn store(&mut self, entry: Entry, settings: &Settings) {
        if self.entries.len() as u64 >= settings.capacity {
            self.touched = Some(0);
            self.entries[0] = entry;
            return;
        }
        self.touched = Some(self.entries.len());
        self.entries.push(entry);
    }

    fn prepare(&mut self, tx: Transaction, settings: &Settings) -> Answer {
        let Some(place) = self.place(tx.stamp) else {
            if self.full(settings) {
                return Answer::Refused(FULL);
            }
            let visited = self.first_visits(&tx, settings, None);
            let vote = self.first_vote(&tx, settings);
            self.meet_vote(&tx, Vote::None, vote);
            if matches!(vote, Vote::Commit | Vote::Waiting) {
                self.met.push("PR new, no test fails");
            }
            self.store(Entry::new(tx, vote), settings);
            return Answer::Voted(vote, visited);
        };
        let held = &self.entries[place];
        if held.body != tx && self.rules.hold(Rule::SameBody) {
            if held.decision.is_some() {
                self.met.push("PR 9, decided entry");
            }
            return Answer::Refused(OTHER_BODY);
        }
        if let Some(decided) = held.decision {
            return Answer::Decided(decided);
        }
        let (cast, log) = (held.vote, held.log);
        if cast == Vote::None && self.full(settings) && !self.rules.hold(Rule::NoFurtherRoom) {
            return Answer::Refused(FULL);
        }
        let again = log.is_some() && !self.rules.hold(Rule::TestedOnce);
        let (vote, visited) = match cast {
            Vote::Commit | Vote::Abort(_) if self.rules.hold(Rule::VoteStays) && !again => (cast, self.same_vote_visits(&tx)),
            Vote::Waiting if !again => {
                let visited = self.again_visits(&tx);
                (self.waiting_rule(&tx), visited)
            }
            _ => {
                let visited = self.first_visits(&tx, settings, Some(place));
                (self.first_vote(&tx, settings), visited)
            }
        };
        self.meet_vote(&tx, cast, vote);
        if cast == Vote::None && log.is_some() {
            match vote {
                Vote::Commit => self.met.push("PR in place of vote none, log kept: commit"),
                Vote::Waiting => self.met.push("PR in place of vote none, log kept: wait"),
                _ => {}
            }
            if self.full(settings) {
                self.met.push("PR in place of vote none, log kept, table full");
            }
        }
        self.met.push(match (cast, vote) {
            (Vote::None, _) if log.is_some() => "PR in place of vote none, log kept",
            (Vote::None, _) => "PR in place of vote none",
            (Vote::Waiting, Vote::Waiting) => "PR again, waiting: waits on",
            (Vote::Waiting, Vote::Commit) => "PR again, waiting: commit",
            (Vote::Waiting, _) => "PR again, waiting: abort 6",
            _ => "PR again, vote cast",
        });
        let entry = &mut self.entries[place];
        if cast != Vote::None || self.rules.hold(Rule::VoteStored) {
            entry.vote = vote;
        }
        if cast == Vote::None && !self.rules.hold(Rule::LogKept) {
            entry.log = None;
        }
        // the same vote again stores nothing
        if matches!(cast, Vote::None | Vote::Waiting) || cast != vote {
            self.touched = Some(place);
        }
        Answer::Voted(vote, visited)
    }

    /// 11, and which of two cases it is.
    fn too_few(&mut self, list: &List, lacking: u8, cases: [&'static str; 2]) -> Answer {
        if lacking == 1 {
            self.met.push(cases[0]);
        }
        if self.rules.counted(list) == 0 {
            self.met.push(cases[1]);
        }
        Answer::TooFew(lacking)
    }

    /// LG for a stamp not held: 11, then 13, else a new entry with vote none and that log.
    fn log_new(&mut self, tx: Transaction, list: List, settings: &Settings) -> Answer {
        if !self.rules.hold(Rule::NoUnknown) {
            return Answer::Refused(UNKNOWN);
        }
        let (lacking, full) = (self.rules.lacking_to_log(settings.f, &list), self.full(settings));
        self.met.push(match (lacking, full) {
            (0, false) => "LG new",
            (_, false) => "LG new, too few",
            (0, true) => "LG new, table full",
            (_, true) => "LG new, too few, table full",
        });
        if full && !self.rules.hold(Rule::TooFewFirst) {
            return Answer::Refused(FULL);
        }
        if lacking > 0 {
            return self.too_few(&list, lacking, ["LG 11, one lacking", "LG 11, no answer counted"]);
        }
        if full {
            return Answer::Refused(FULL);
        }
        let vote = if self.rules.hold(Rule::VoteNone) { Vote::None } else { Vote::Commit };
        self.store(Entry { log: Some((list.decision, 0)), ..Entry::new(tx, vote) }, settings);
        Answer::Logged(list.decision, 0)
    }

    /// What is logged at a place, as it is answered.
    fn logged(&self, place: usize) -> Answer {
        let held = &self.entries[place];
        let (decision, view) = held.log.expect("a log");
        Answer::Logged(decision, if self.rules.hold(Rule::LogTellsItsView) { view } else { held.view })
    }

    /// Whether a log stays where an LG comes.
    fn log_stays(&self, view: u16) -> bool {
        self.rules.hold(Rule::FirstLogStays) && (view == 0 || self.rules.hold(Rule::LaterLogStays))
    }

    /// Already logged: that same log, whatever the list.
    fn log_again(&mut self, place: usize, list: List, settings: &Settings) -> Answer {
        let held = &self.entries[place];
        if held.log.is_some_and(|(logged, _)| logged != list.decision) {
            self.met.push(if held.vote == Vote::None { "LG again, other list, no vote" } else { "LG again, other list" });
        }
        if held.logged_view() > 0 {
            self.met.push("LG again, logged in a later view");
        }
        if self.rules.lacking_to_log(settings.f, &list) > 0 {
            self.met.push("LG again, too few");
        }
        self.logged(place)
    }

    fn log(&mut self, tx: Transaction, list: List, settings: &Settings) -> Answer {
        let Some(place) = self.place(tx.stamp) else {
            return self.log_new(tx, list, settings);
        };
        let held = &self.entries[place];
        if held.body != tx {
            self.met.push("LG 9");
            return Answer::Refused(OTHER_BODY);
        }
        if let Some(decided) = held.decision {
            return Answer::Decided(decided);
        }
        if held.log.is_some_and(|(_, view)| self.log_stays(view)) {
            return self.log_again(place, list, settings);
        }
        if matches!(held.vote, Vote::Abort(_)) {
            self.met.push("LG with an abort vote cast");
        }
        let lacking = self.rules.lacking_to_log(settings.f, &list);
        if lacking > 0 {
            return self.too_few(&list, lacking, ["LG 11, one lacking", "LG 11, no answer counted"]);
        }
        let held = &mut self.entries[place];
        if held.view > 0 {
            self.met.push("LG, in a later view");
        }
        held.log = Some((list.decision, 0));
        if !self.rules.hold(Rule::LogLeavesView) {
            held.view = 0;
        }
        self.touched = Some(place);
        self.logged(place)
    }

    fn decide(&mut self, tx: Transaction, list: List, settings: &Settings) -> Answer {
        let lacking = self.rules.lacking_to_prove(settings.f, &list);
        if lacking > 0 {
            let none = if list.kind == Kind::Votes { "DC 11, no vote counted" } else { "DC 11, no log counted" };
            return self.too_few(&list, lacking, ["DC 11, one lacking", none]);
        }
        // which view it is does not matter
        if list.kind == Kind::Logs {
            self.met.push(match list.view {
                0 => "DC, logs of view 0",
                1..=255 => "DC, logs of view 1 to 255",
                _ => "DC, logs of a view above 255",
            });
        }
        let Some(place) = self.place(tx.stamp) else {
            if self.full(settings) {
                return Answer::Refused(FULL);
            }
            self.met.push("DC new");
            if !self.rules.hold(Rule::AbortedStay) {
                if let Some(place) = self.entries.iter().position(|entry| entry.decision == Some(Decision::Abort)) {
                    self.entries[place] = Entry { decision: Some(list.decision), ..Entry::new(tx, Vote::None) };
                    self.touched = Some(place);
                    return Answer::Done;
                }
            }
            self.store(Entry { decision: Some(list.decision), ..Entry::new(tx, Vote::None) }, settings);
            return Answer::Done;
        };
        if self.entries[place].body == tx {
            self.decide_held(place, list.decision)
        } else {
            self.replace(place, tx, list.decision)
        }
    }

    /// DC, the same body held: undecided takes it; an equal decision changes nothing; the opposite is 12.
    fn decide_held(&mut self, place: usize, decision: Decision) -> Answer {
        let held = &mut self.entries[place];
        if let Some(decided) = held.decision {
            let equal = decided == decision;
            self.met.push(if equal { "DC, equal decision" } else { "DC, opposite decision" });
            return if equal { Answer::Done } else { Answer::Refused(CONTRADICTION) };
        }
        self.met.push(if held.only_logged() { "DC, undecided takes it, logged with no vote" } else { "DC, undecided takes it" });
        if held.view > 0 {
            self.met.push("DC, undecided takes it, in a later view");
        }
        held.decision = Some(decision);
        if !self.rules.hold(Rule::DecidedKeepsViews) {
            held.view = 0;
            held.log = held.log.map(|(logged, _)| (logged, 0));
        }
        self.touched = Some(place);
        Answer::Done
    }

    /// DC, another body held: abort is 9; commit is 12 where the held one is committed, else the new body replaces it.
    fn replace(&mut self, place: usize, tx: Transaction, decision: Decision) -> Answer {
        let held = &mut self.entries[place];
        if decision == Decision::Abort {
            self.met.push("DC abort, other body");
            return Answer::Refused(OTHER_BODY);
        }
        if held.committed() {
            self.met.push("DC commit, other body committed");
            return Answer::Refused(CONTRADICTION);
        }
        self.met.push(if held.decision.is_none() { "DC replaces an undecided body" } else { "DC replaces an aborted body" });
        if held.view > 0 {
            self.met.push("DC replaces a body in a later view");
        }
        let view = if self.rules.hold(Rule::ReplacedHasNoView) { 0 } else { held.view };
        *held = Entry { view, decision: Some(Decision::Commit), ..Entry::new(tx, Vote::None) };
        self.touched = Some(place);
        Answer::Done
    }

    /// Version and value of the writer of the key with the highest stamp strictly below, if there is one.
    fn newest(&self, key: u16, below: u64, wanted: impl Fn(&Entry) -> bool) -> Option<(u64, u64)> {
        let mut best: Option<(u64, u64)> = None;
        for entry in self.entries.iter().filter(|entry| wanted(entry) && entry.body.stamp < below) {
            if let Some((_, value)) = entry.body.writes.iter().find(|(written, _)| *written == key) {
                let higher = |(stamp, _)| match entry.body.stamp.cmp(&stamp) {
                    Ordering::Less => !self.rules.hold(Rule::HighestStamp),
                    Ordering::Equal => !self.rules.hold(Rule::FirstAmongEquals),
                    Ordering::Greater => true,
                };
                if best.is_none_or(higher) {
                    best = Some((entry.body.stamp, *value));
                }
            }
        }
        best
    }

    fn read(&mut self, key: u16, stamp: u64) -> Answer {
        let mark = &mut self.marks[key as usize];
        *mark = match stamp {
            _ if !self.rules.hold(Rule::MarkRaised) => *mark,
            _ if !self.rules.hold(Rule::MarkStays) => stamp,
            _ => stamp.max(*mark),
        };
        let shown = |entry: &Entry| entry.decision.is_none() && self.lives(entry) && self.rules.hold(Rule::UndecidedShown);
        let undecided = self.newest(key, stamp, shown).unwrap_or((0, 0));
        Answer::Found { committed: self.committed_or_folded(key, stamp), undecided }
    }

    pub fn act(&mut self, message: Message, settings: &Settings) -> Answer {
        if self.refuses_as_old(&message, settings) {
            return Answer::Refused(OLD);
        }
        match message {
            Message::Prepare(tx) => self.prepare(tx, settings),
            Message::Log(tx, list) => self.log(tx, list, settings),
            Message::Decide(tx, list) => self.decide(tx, list, settings),
            Message::Read { key, stamp } => self.read(key, stamp),
            Message::Invoke(tx, views) => self.invoke(tx, &views, settings),
            Message::Lead(tx, election) => self.lead(tx, &election, settings),
        }
    }
}

/// Reading alone, with no clock: the length of the transaction's bytes in the message (0 for an RD), or the refusal.
pub fn reading(message: &[u8], f: u64) -> Result<usize, u8> {
    let settings = Settings { f, capacity: 1, clock: u64::MAX, delta: u64::MAX };
    if !settings.in_order() {
        return Err(GROUP);
    }
    let read = read_message(message, &settings, &MARKS, PAPER)?;
    Ok(read.transaction().map_or(0, |tx| 12 + 10 * (tx.reads.len() + tx.writes.len())))
}

// ---- records read and written by themselves

/// A transaction as a writer is given it: counts, and eight places of each.
#[derive(Clone, Copy, Debug, Default, PartialEq, Eq)]
pub struct Draft {
    pub stamp: u64,
    pub r: usize,
    pub w: usize,
    pub reads: [(u16, u64); 8],
    pub writes: [(u16, u64); 8],
}

/// A list as a writer is given it: a view, be the kind one that has none; a count, and 26 places.
#[derive(Clone, Copy, Debug, Default, PartialEq, Eq)]
pub struct ListDraft {
    pub kind: u8,
    pub decision: u8,
    pub view: u16,
    pub count: usize,
    pub pairs: [(u8, u8); 26],
}

/// What boxes told of their views, as a writer is given it: a VS has no answers, and nothing of what stands before the count.
#[derive(Clone, Copy, Debug, Default, PartialEq, Eq)]
pub struct ViewsDraft {
    pub leader: u8,
    pub decision: u8,
    pub view: u16,
    pub count: usize,
    /// Box, answer, view.
    pub ballots: [(u8, u8, u16); 26],
}

#[derive(Clone, Copy, Debug)]
pub enum Record {
    Tx(Draft),
    Vl(ListDraft),
    Pr(Draft),
    /// An LG or a DC, by the number of the mark; there is a writer for any number.
    Listed(u64, Draft, ListDraft),
    Rd {
        key: u16,
        stamp: u64,
    },
    Vs(ViewsDraft),
    El(ViewsDraft),
    Iv(Draft, ViewsDraft),
    Ld(Draft, ViewsDraft),
}

impl Draft {
    fn counted(&self) -> Result<Transaction, u8> {
        if self.r > 8 || self.w > 8 || self.r + self.w == 0 {
            return Err(COUNT);
        }
        Ok(Transaction { mark: *b"TX", stamp: self.stamp, reads: self.reads[..self.r].to_vec(), writes: self.writes[..self.w].to_vec() })
    }
}

impl ListDraft {
    fn counted(&self) -> Result<CutList, u8> {
        if self.count == 0 || self.count > 26 {
            return Err(COUNT);
        }
        Ok(CutList { kind: self.kind, decision: self.decision, view: self.view, pairs: self.pairs[..self.count].to_vec() })
    }
}

impl ViewsDraft {
    fn counted(&self) -> Result<CutElection, u8> {
        if self.count == 0 || self.count > 26 {
            return Err(COUNT);
        }
        Ok(CutElection { leader: self.leader, decision: self.decision, view: self.view, answers: self.ballots[..self.count].to_vec() })
    }
}

impl Rules {
    /// Little-endian, like every number.
    fn view_bytes(self, view: u16) -> [u8; 2] {
        if self.hold(Rule::LowByteFirst) {
            view.to_le_bytes()
        } else {
            view.to_be_bytes()
        }
    }
}

/// The boxes and views of what is listed, as a VS in order.
fn vs_bytes(listed: &CutElection, settings: &Settings, rules: Rules) -> Result<Vec<u8>, u8> {
    let views: Vec<(u8, u16)> = listed.answers.iter().map(|(number, _, view)| (*number, *view)).collect();
    judge_views(&views, settings)?;
    let mut bytes = vec![b'V', b'S', views.len() as u8];
    for (number, view) in views {
        bytes.push(number);
        bytes.extend(rules.view_bytes(view));
    }
    Ok(bytes)
}

/// An EL in order.
fn el_bytes(listed: &CutElection, settings: &Settings, rules: Rules) -> Result<Vec<u8>, u8> {
    judge_election(listed, settings, rules)?;
    let mut bytes = vec![b'E', b'L', listed.leader, listed.decision];
    bytes.extend(rules.view_bytes(listed.view));
    bytes.push(listed.answers.len() as u8);
    for (number, answer, view) in &listed.answers {
        bytes.extend([*number, *answer]);
        bytes.extend(rules.view_bytes(*view));
    }
    Ok(bytes)
}

/// The view is written where the kind has one, and not where one is lent beside votes.
fn list_bytes(list: &CutList, rules: Rules) -> Vec<u8> {
    let mut bytes = vec![b'V', b'L', list.kind, list.decision, list.pairs.len() as u8];
    if rules.has_a_view(list.kind) || !rules.hold(Rule::VotesWrittenWithout) {
        bytes.extend(rules.view_bytes(list.view));
    }
    bytes.extend(list.pairs.iter().flat_map(|pair| [pair.0, pair.1]));
    bytes
}

/// An LG or a DC in order, by the number of its mark: the transaction is judged before the mark, the mark before the list.
fn listed_bytes(number: u64, draft: &Draft, list: &ListDraft, settings: &Settings, rules: Rules) -> Result<Vec<u8>, u8> {
    let (tx, list) = (draft.counted()?, list.counted()?);
    judge_transaction(&tx, rules)?;
    let mark: &[u8; 2] = match number {
        LG => b"LG",
        DC => b"DC",
        _ => return Err(MARK),
    };
    judge_list(&list, settings, mark == b"DC", rules)?;
    Ok([mark.to_vec(), transaction_bytes(&tx), list_bytes(&list, rules)].concat())
}

/// An IV or an LD in order.
fn told_bytes(mark: &[u8; 2], draft: &Draft, views: &ViewsDraft, settings: &Settings, rules: Rules) -> Result<Vec<u8>, u8> {
    let (tx, listed) = (draft.counted()?, views.counted()?);
    judge_transaction(&tx, rules)?;
    let behind = if mark == b"IV" { vs_bytes(&listed, settings, rules)? } else { el_bytes(&listed, settings, rules)? };
    Ok([mark.to_vec(), transaction_bytes(&tx), behind].concat())
}

/// f alone matters to records.
fn group(f: u64) -> Result<Settings, u8> {
    let settings = Settings { f, capacity: 1, clock: u64::MAX, delta: u64::MAX };
    if settings.in_order() {
        Ok(settings)
    } else {
        Err(GROUP)
    }
}

/// "3, the content order without 15, then 17": the record's bytes for a buffer with this room, or the refusal.
pub fn written(record: &Record, f: u64, room: usize) -> Result<Vec<u8>, u8> {
    written_by(PAPER, record, f, room)
}

/// The same with rules that may be broken.
pub fn written_by(rules: Rules, record: &Record, f: u64, room: usize) -> Result<Vec<u8>, u8> {
    let bytes = match record {
        Record::Tx(draft) | Record::Pr(draft) => {
            let tx = draft.counted()?;
            judge_transaction(&tx, rules)?;
            let mark: &[u8] = if matches!(record, Record::Pr(_)) { b"PR" } else { b"" };
            [mark.to_vec(), transaction_bytes(&tx)].concat()
        }
        Record::Vl(draft) => {
            let settings = group(f)?;
            let list = draft.counted()?;
            judge_list(&list, &settings, true, rules)?;
            list_bytes(&list, rules)
        }
        Record::Listed(number, draft, list) => listed_bytes(*number, draft, list, &group(f)?, rules)?,
        Record::Vs(draft) => {
            let settings = group(f)?;
            vs_bytes(&draft.counted()?, &settings, rules)?
        }
        Record::El(draft) => {
            let settings = group(f)?;
            el_bytes(&draft.counted()?, &settings, rules)?
        }
        Record::Iv(draft, views) => told_bytes(b"IV", draft, views, &group(f)?, rules)?,
        Record::Ld(draft, views) => told_bytes(b"LD", draft, views, &group(f)?, rules)?,
        Record::Rd { key, stamp } => {
            if *stamp == 0 || *key > 511 {
                return Err(RANGE);
            }
            [b"RD".to_vec(), key.to_le_bytes().to_vec(), stamp.to_le_bytes().to_vec()].concat()
        }
    };
    if room < bytes.len() {
        return Err(BUFFER);
    }
    Ok(bytes)
}

/// A TX by itself.
pub fn reading_tx(record: &[u8]) -> Result<(), u8> {
    let mut bytes = Bytes(record);
    let tx = cut_transaction(&mut bytes)?;
    if !bytes.0.is_empty() {
        return Err(TRAILING);
    }
    judge_transaction(&tx, PAPER)
}

/// A VL by itself.
pub fn reading_vl(record: &[u8], f: u64) -> Result<(), u8> {
    reading_vl_by(PAPER, record, f)
}

/// The same with rules that may be broken.
pub fn reading_vl_by(rules: Rules, record: &[u8], f: u64) -> Result<(), u8> {
    let settings = group(f)?;
    let mut bytes = Bytes(record);
    let list = cut_list(&mut bytes, rules)?;
    if !bytes.0.is_empty() {
        return Err(TRAILING);
    }
    judge_list(&list, &settings, true, rules).map(|_| ())
}

/// A VS by itself, with rules that may be broken.
pub fn reading_vs_by(rules: Rules, record: &[u8], f: u64) -> Result<(), u8> {
    let settings = group(f)?;
    let mut bytes = Bytes(record);
    let views = cut_views(&mut bytes, rules)?;
    if !bytes.0.is_empty() {
        return Err(TRAILING);
    }
    judge_views(&views, &settings)
}

/// An EL by itself, with rules that may be broken.
pub fn reading_el_by(rules: Rules, record: &[u8], f: u64) -> Result<(), u8> {
    let settings = group(f)?;
    let mut bytes = Bytes(record);
    let election = cut_election(&mut bytes, rules)?;
    if !bytes.0.is_empty() {
        return Err(TRAILING);
    }
    judge_election(&election, &settings, rules).map(|_| ())
}

/// The values of a message, as drafts with zeros in the places that are not used, by rules that may be broken.
pub fn fields_by(rules: Rules, message: &[u8], f: u64) -> Result<Record, u8> {
    fn front<T: Copy + Default, const N: usize>(from: &[T]) -> [T; N] {
        let mut places = [T::default(); N];
        places[..from.len()].copy_from_slice(from);
        places
    }
    let draft = |tx: &Transaction| Draft { stamp: tx.stamp, r: tx.reads.len(), w: tx.writes.len(), reads: front(&tx.reads), writes: front(&tx.writes) };
    let code = |decision| if decision == Decision::Commit { 1 } else { 2 };
    let listed = |list: &List| ListDraft {
        kind: if list.kind == Kind::Votes { 1 } else { 2 },
        decision: code(list.decision),
        view: list.view,
        count: list.answers.len(),
        pairs: front(&list.answers.iter().map(|(number, answer)| (*number, code(*answer))).collect::<Vec<_>>()),
    };
    let settings = group(f)?;
    Ok(match read_message(message, &settings, &MARKS, rules)? {
        Message::Prepare(tx) => Record::Pr(draft(&tx)),
        Message::Log(tx, list) => Record::Listed(LG, draft(&tx), listed(&list)),
        Message::Decide(tx, list) => Record::Listed(DC, draft(&tx), listed(&list)),
        Message::Read { key, stamp } => Record::Rd { key, stamp },
        Message::Invoke(tx, views) => {
            let ballots: Vec<(u8, u8, u16)> = views.iter().map(|(number, view)| (*number, 0, *view)).collect();
            Record::Iv(draft(&tx), ViewsDraft { count: ballots.len(), ballots: front(&ballots), ..ViewsDraft::default() })
        }
        Message::Lead(tx, led) => {
            let ballots: Vec<(u8, u8, u16)> = led.answers.iter().map(|(number, answer, view)| (*number, code(*answer), *view)).collect();
            Record::Ld(
                draft(&tx),
                ViewsDraft { leader: led.leader, decision: code(led.decision), view: led.view, count: ballots.len(), ballots: front(&ballots) },
            )
        }
    })
}

/// n and the five thresholds.
pub fn thresholds(f: u64) -> Result<[u64; 6], u8> {
    let settings = group(f)?;
    let row = PAPER.row(settings.f).map(|needed| needed as u64);
    Ok([settings.boxes(), row[0], row[1], row[2], row[3], row[4]])
}

// ---- the tally

/// What a sheet says: for each threshold of its kind what is lacking, 0 where it is reached.
#[derive(Clone, Copy, Debug, PartialEq, Eq)]
pub enum Reply {
    /// Commit list, abort list, commit proof, abort proof.
    Votes([u8; 4]),
    /// The proof of each decision.
    Logs([u8; 2]),
    Repeat,
    Refused(u8),
}

/// A sheet as it is lent: a kind, and a mask of boxes for each answer. A sheet of logs is for one view, which its keeper knows; it is not lent.
#[derive(Clone, Copy, Debug, PartialEq, Eq)]
pub struct Sheet {
    pub kind: u8,
    pub commits: u32,
    pub aborts: u32,
}

/// The boxes on a mask.
fn on(mask: u32) -> Vec<u64> {
    (0..32).filter(|number| mask & (1 << number) != 0).collect()
}

fn mask(boxes: &[u64]) -> u32 {
    boxes.iter().fold(0, |sum, number| sum | 1u32 << number)
}

/// The boxes under each answer: a box n or more, or one under both, is no sheet.
fn answers_on(commits: u32, aborts: u32, settings: &Settings) -> Option<[Vec<u64>; 2]> {
    let (commits, aborts) = (on(commits), on(aborts));
    let wide = |number: &u64| *number >= settings.boxes();
    let damaged = commits.iter().any(wide) || aborts.iter().any(wide) || commits.iter().any(|number| aborts.contains(number));
    (!damaged).then_some([commits, aborts])
}

pub fn tally(sheet: &mut Sheet, f: u64, number: u64, answer: u64) -> Reply {
    let settings = Settings { f, capacity: 1, clock: 0, delta: 0 };
    if !settings.in_order() {
        return Reply::Refused(GROUP);
    }
    let found = answers_on(sheet.commits, sheet.aborts, &settings).filter(|_| sheet.kind == 1 || sheet.kind == 2);
    let Some([mut commits, mut aborts]) = found else {
        return Reply::Refused(TABLE);
    };
    if number >= settings.boxes() {
        return Reply::Refused(RANGE);
    }
    if answer != 1 && answer != 2 {
        return Reply::Refused(CODE);
    }
    if commits.contains(&number) || aborts.contains(&number) {
        return Reply::Repeat;
    }
    if answer == 1 {
        commits.push(number);
    } else {
        aborts.push(number);
    }
    (sheet.commits, sheet.aborts) = (mask(&commits), mask(&aborts));
    let (row, c, a) = (PAPER.row(f), commits.len(), aborts.len());
    if sheet.kind == 1 {
        Reply::Votes([lacking(row[0], c), lacking(row[1], a), lacking(row[2], c), lacking(row[3], a)])
    } else {
        Reply::Logs([lacking(row[4], c), lacking(row[4], a)])
    }
}

// ---- a lent table

/// Where in a table the row of the entry at this place begins.
pub const fn row_at(place: usize) -> usize {
    HEAD + place * ROW
}

fn settled(code: u8) -> Option<Option<Decision>> {
    match code {
        0 => Some(None),
        1 => Some(Some(Decision::Commit)),
        2 => Some(Some(Decision::Abort)),
        _ => None,
    }
}

/// The entry of a row; none where a count or a code is outside its list.
fn entry_of(row: &[u8]) -> Option<Entry> {
    let tx = &row[BODY_AT..];
    let (r, w) = (tx[2] as usize, tx[3] as usize);
    if r > 8 || w > 8 {
        return None;
    }
    let vote = match (row[VOTE_AT], row[REASON_AT]) {
        (0, 0) => Vote::None,
        (1, 0) => Vote::Commit,
        (2, reason @ 1..=6) => Vote::Abort(reason),
        (3, 0) => Vote::Waiting,
        _ => return None,
    };
    let body =
        Transaction { mark: [tx[0], tx[1]], stamp: little(&tx[4..12]), reads: pairs(&tx[12..12 + 10 * r]), writes: pairs(&tx[12 + 10 * r..12 + 10 * (r + w)]) };
    let two = |at: usize| little(&row[at..at + 2]) as u16;
    // a view beside no log is no part of the entry
    let log = settled(row[LOG_AT])?.map(|decision| (decision, two(LOG_VIEW_AT)));
    Some(Entry { body, vote, log, view: two(VIEW_AT), decision: settled(row[DECIDED_AT])? })
}

/// The entries of a lent table, or none where it is refused.
pub fn entries_of(table: &[u8], capacity: usize) -> Option<Vec<Entry>> {
    if table.len() < table_len(capacity) || table[0] as usize > capacity {
        return None;
    }
    table[HEAD..].chunks(ROW).take(table[0] as usize).map(entry_of).collect()
}

pub fn transaction_bytes(tx: &Transaction) -> Vec<u8> {
    let mut bytes = tx.mark.to_vec();
    bytes.push(tx.reads.len() as u8);
    bytes.push(tx.writes.len() as u8);
    bytes.extend(tx.stamp.to_le_bytes());
    for (key, number) in tx.reads.iter().chain(&tx.writes) {
        bytes.extend(key.to_le_bytes());
        bytes.extend(number.to_le_bytes());
    }
    bytes
}

/// An entry put down in its row: codes, views and body, what stands behind them being left.
fn put_entry(row: &mut [u8], entry: &Entry) {
    let number = |settled: Option<Decision>| match settled {
        None => 0,
        Some(Decision::Commit) => 1,
        Some(Decision::Abort) => 2,
    };
    (row[VOTE_AT], row[REASON_AT]) = match entry.vote {
        Vote::None => (0, 0),
        Vote::Commit => (1, 0),
        Vote::Abort(reason) => (2, reason),
        Vote::Waiting => (3, 0),
    };
    (row[LOG_AT], row[DECIDED_AT]) = (number(entry.log.map(|log| log.0)), number(entry.decision));
    for (at, view) in [(LOG_VIEW_AT, entry.logged_view()), (VIEW_AT, entry.view)] {
        row[at..at + 2].copy_from_slice(&view.to_le_bytes());
    }
    let body = transaction_bytes(&entry.body);
    row[BODY_AT..BODY_AT + body.len()].copy_from_slice(&body);
}

/// One call of an entrance that takes the marks `due`: the answer, with table and read marks as they stand afterwards; `met` takes the cases that it met.
pub fn call(table: &mut [u8], marks: &mut Vec<u64>, settings: &Settings, message: &[u8], due: &[&[u8; 2]], met: &mut Vec<&'static str>) -> Answer {
    call_by(PAPER, table, marks, settings, message, due, met)
}

/// The same with rules that may be broken.
pub fn call_by(
    rules: Rules, table: &mut [u8], marks: &mut Vec<u64>, settings: &Settings, message: &[u8], due: &[&[u8; 2]], met: &mut Vec<&'static str>,
) -> Answer {
    if !settings.in_order() {
        return Answer::Refused(GROUP);
    }
    let Some(entries) = entries_of(table, settings.capacity as usize) else {
        return Answer::Refused(TABLE);
    };
    // the number lent for the mark is none, whatever the message
    if due.is_empty() {
        return Answer::Refused(MARK);
    }
    let read = match read_message(message, settings, due, rules) {
        Ok(read) => read,
        Err(AHEAD) if little(&message[4..12]) <= low_of(table) => {
            met.push("RD 15, old too");
            return Answer::Refused(if rules.hold(Rule::OldAfterAhead) { AHEAD } else { OLD });
        }
        Err(number) => return Answer::Refused(number),
    };
    let mut store = Store { rules, head: table, entries, marks: std::mem::take(marks), touched: None, met: Vec::new() };
    let named = read.transaction().map_or(0, |tx| tx.stamp);
    if store.entries.iter().filter(|entry| entry.body.stamp == named).count() > 1 {
        met.push("a stamp held twice");
    }
    let answer = store.act(read, settings);
    let Store { entries, marks: left, touched, met: mut cases, .. } = store;
    *marks = left;
    met.append(&mut cases);
    if let Some(place) = touched {
        put_entry(&mut table[row_at(place)..row_at(place + 1)], &entries[place]);
        table[0] = entries.len() as u8;
    }
    answer
}
