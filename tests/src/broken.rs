//! A test that cannot fail is a defect. Here boxes that are wrong stand in the engine's place, and each must be noticed: by the
//! cluster, where demand 3 or A10 falls with the rule, and always by the comparison with the model. What only its records show of a box has to be noticed there.

use crate::cluster::{self, Counts, Plan};
use crate::compare::{first_difference, first_difference_in_ballots, first_difference_in_tally};
use crate::engine::Entrance;
use crate::member::{Engine, Member, Model};
use crate::model::{
    self, row_at, Answer, Decision, Election, ElectionReply, ElectionSheet, Holding, Reply, Rule, Rules, Settings, Sheet, ViewSheet, Vote, PAPER,
};
use crate::order;
use crate::records;
use stobbarel::layout::{BODY_AT, HEAD, REASON_AT, ROW, VOTE_AT};

/// Messages, or answers for sheets, within which the comparison has to notice a wrong box.
const COMPARED: u64 = 200_000;
/// Pairs of decisions within which a box has to show in which order they came.
const PAIRS: u64 = 2_000;
/// Records within which the comparison of records has to notice one.
const RECORDS: u64 = 1_000;
/// Clusters in which demand 3 has to hold where it is said to hold.
const HELD: u64 = 500;

/// A rule left out.
struct Broken {
    what: &'static str,
    rules: Rules,
    /// Why demand 3 holds all the same; empty where it falls.
    safe: &'static str,
    /// A10 falls.
    slips: bool,
}

const fn falls(what: &'static str, broken: &'static [Rule]) -> Broken {
    Broken { what, rules: Rules { broken }, safe: "", slips: false }
}

const fn holds(what: &'static str, broken: &'static [Rule], safe: &'static str) -> Broken {
    Broken { what, rules: Rules { broken }, safe, slips: false }
}

/// Demand 3 holds, and something slips under a read, or comes between it and what it showed.
const fn slips(what: &'static str, broken: &'static [Rule], safe: &'static str) -> Broken {
    Broken { what, rules: Rules { broken }, safe, slips: true }
}

/// The slips that were seen.
const SLIPS: [Broken; 6] = [
    falls("answers are counted, not boxes", &[Rule::NamedOnce]),
    falls("a waiting entry is dropped from the live set", &[Rule::WaitingLives]),
    falls("a second valid list is logged afresh", &[Rule::FirstLogStays]),
    holds("a read mark equal to the stamp is a clash", &[Rule::EqualMark], "a box only aborts more"),
    // 2f + 1 sound boxes hold the body that committed, and test 2 makes each of them abort a reader of a key that it lacks
    holds("a wait is decided by the stamp alone", &[Rule::KeyWritten], "test 2 stands before it"),
    falls("a wait is decided by the stamp alone, and no test 2", &[Rule::KeyWritten, Rule::Test(2)]),
];

const THRESHOLDS_AND_LISTS: [Broken; 7] = [
    falls("commit list of 3f", &[Rule::Threshold(0)]),
    falls("abort list of f", &[Rule::Threshold(1)]),
    falls("commit proof of 5f votes", &[Rule::Threshold(2)]),
    falls("abort proof of 3f votes", &[Rule::Threshold(3)]),
    // without the fallback 3f + 1 would do: each sound box logs once; with it the others' election answers and the liars' are a majority
    falls("proof of 4f logs", &[Rule::Threshold(4)]),
    falls("proof of 3f logs", &[Rule::MostLogs]),
    falls("answers against the list's decision are counted", &[Rule::NamedAnswer]),
];

const TESTS: [Broken; 9] = [
    holds("no test 1", &[Rule::Test(1)], "a clock proves nothing"),
    // an aborted version, and one without the key, still give reason 6
    holds("no test 2", &[Rule::Test(2)], "the waiting rule stands behind it"),
    falls("no test 3", &[Rule::Test(3)]),
    falls("no test 4", &[Rule::Test(4)]),
    slips("no test 5", &[Rule::Test(5)], "read marks are for readers"),
    slips("an RD raises no read mark", &[Rule::MarkRaised], "read marks are for readers"),
    slips("a later RD lowers the read mark", &[Rule::MarkStays], "read marks are for readers"),
    // nothing slips under the read, but something comes between it and what it showed
    slips("an RD shows no undecided version", &[Rule::UndecidedShown], "what is shown is for readers"),
    falls("a version above the own stamp may be read", &[Rule::PastReads]),
];

const ENTRIES: [Broken; 7] = [
    falls("a committed entry is dropped from the live set", &[Rule::CommittedLives]),
    falls("an entry with a commit vote is dropped from the live set", &[Rule::VotedLives]),
    falls("a version decided abort gives no reason 6", &[Rule::AbortedVersion]),
    falls("an undecided version is not waited for", &[Rule::UndecidedWaits]),
    falls("another body is answered like the held one", &[Rule::SameBody]),
    falls("a vote cast is cast anew", &[Rule::VoteStays]),
    falls("a full table drops its first entry", &[Rule::EntriesStay]),
];

/// A box that missed the prepare.
const LATE: [Broken; 9] = [
    holds("LG for a stamp not held is still refused with 10", &[Rule::NoUnknown], "a box only logs less"),
    holds("13 before 11 where an LG needs a new entry", &[Rule::TooFewFirst], "only the number differs"),
    // a reader of it waits, and by tests 3 and 4 a box only aborts more
    holds("what is only logged is live before its PR", &[Rule::NotLiveBefore], "test 2 proves nothing"),
    falls("an LG stores its entry with a commit vote", &[Rule::VoteNone]),
    holds("a later PR asks for room", &[Rule::NoFurtherRoom], "a box only votes less"),
    falls("a later PR loses the log", &[Rule::LogKept]),
    falls("a later PR's vote is told and not stored", &[Rule::VoteStored]),
    falls("what is logged is tested again at every PR", &[Rule::TestedOnce]),
    falls("what is logged is not live after its PR", &[Rule::LoggedLives]),
];

/// Lists of logs carry their view.
const VIEWS: [Broken; 3] = [
    holds("a reader that takes no view of logs", &[Rule::LogsHaveAView], "a box only takes fewer DCs"),
    holds("a reader that takes a view of votes too", &[Rule::VotesHaveNone], "a box only takes fewer lists"),
    holds("a reader that takes a view of a kind that is neither", &[Rule::OtherKindsHaveNone], "only the number differs"),
];

/// The fallback: readings of it that break demand 3. An LG over any log is among the slips above.
const FALLBACK: [Broken; 12] = [
    falls("a leader's decision is taken whatever the logged view is", &[Rule::LogBelow]),
    falls("a leader's decision is taken with the same logged view", &[Rule::LogStrictlyBelow]),
    falls("a leader's decision is taken whatever the current view is", &[Rule::NotPassed]),
    falls("the current view is not stored", &[Rule::ViewStored]),
    falls("by 3f + 1 views a box goes back", &[Rule::NeverBack]),
    falls("election answers of a lower view, all of them equal", &[Rule::AnswersOfTheView]),
    falls("election answers of any views", &[Rule::AnswersOfOneView]),
    falls("a log answer tells the current view", &[Rule::LogTellsItsView]),
    falls("an election answer is the vote", &[Rule::ElectsItsLog]),
    falls("fewer than 4f + 1 election answers", &[Rule::AllAnswer]),
    falls("a leader's decision that is not the majority's", &[Rule::MajorityDecides]),
    falls("an LG is logged over a log of a later view", &[Rule::LaterLogStays]),
];

/// The fallback: what does no harm.
const FALLBACK_SAFE: [Broken; 13] = [
    // a majority of more answers is more than 2f
    holds("more than 4f + 1 election answers", &[Rule::NoMoreAnswer], "their majority is larger"),
    holds("any box leads any view", &[Rule::LeaderLeads], "who leads proves nothing"),
    holds("the leader by a sum that wraps at 2^64", &[Rule::WholeSum], "who leads proves nothing"),
    holds("by 3f + 1 views to that view, not to the one after", &[Rule::ToTheViewAfter], "views are for getting on"),
    holds("f + 1 views move nobody", &[Rule::FewMove], "views are for getting on"),
    holds("higher views do not count for lower ones", &[Rule::HigherCount], "views are for getting on"),
    holds("24 before 22", &[Rule::NotLoggedFirst], "only the number differs"),
    holds("21 before 23", &[Rule::ElectionFirst], "only the number differs"),
    holds("13 before 21", &[Rule::PassedBeforeFull], "only the number differs"),
    holds("a new entry of an LD is in view 0", &[Rule::NewEntryInItsView], "it has given no election answer"),
    holds("what is decided has no views", &[Rule::DecidedKeepsViews], "it answers Decided"),
    holds("a body that replaces another is in its view", &[Rule::ReplacedHasNoView], "it answers Decided"),
    holds("an LG brings a box back to view 0", &[Rule::LogLeavesView], "without a log it has given no election answer"),
];

/// A11: readings of it that break demand 3.
const LOW: [Broken; 11] = [
    falls("18 is not given to a PR", &[Rule::OldRefused(0)]),
    falls("18 is not given to an LG", &[Rule::OldRefused(1)]),
    falls("18 is not given to a leader's decision", &[Rule::OldRefused(5)]),
    falls("an undecided entry leaves with the others", &[Rule::UndecidedStay]),
    falls("a folded version gives no reason 3", &[Rule::FoldGives3]),
    falls("the last in the table folds, not the newest", &[Rule::NewestFolds]),
    falls("aborted ones fold too", &[Rule::AbortedDoNot]),
    falls("an old version is the folded one if it is any key's", &[Rule::FoldedByKey]),
    falls("an old version is as good as committed in the waiting rule", &[Rule::OldWaitsInVain]),
    falls("a stamp at the low mark is not old", &[Rule::OldAtTheMark]),
    falls("committed ones only leave", &[Rule::CommittedFold]),
];

/// A11: what does no harm.
const LOW_SAFE: [Broken; 14] = [
    // it answers nothing that a box can be held to, and what it stores is decided by a proof
    holds("18 is not given to a DC", &[Rule::OldRefused(2)], "a proof is a proof"),
    holds("18 is not given to an RD", &[Rule::OldRefused(3)], "a read mark only aborts more"),
    holds("18 is not given to an IV", &[Rule::OldRefused(4)], "what has left has no log"),
    holds("18 after 11 and 13", &[Rule::OldFirst], "only the number differs"),
    holds("18 of an RD before 15", &[Rule::OldAfterAhead], "only the number differs"),
    holds("19 before 18", &[Rule::OldBeforeUndecided], "only the number differs"),
    holds("a low mark may be raised to where it is", &[Rule::RaisedAbove], "nothing more leaves"),
    holds("aborted ones stay", &[Rule::AbortedLeave], "they are refused with 18"),
    holds("the rest does not stay in order", &[Rule::InOrder], "order is for equal stamps"),
    holds("a folded version above the own stamp gives no reason 3", &[Rule::AnyFoldAbove], "it is below what is not old"),
    holds("an old version is looked up in the table", &[Rule::OldNotLookedUp], "a box only aborts more"),
    // nothing slips under the read, but something comes between it and what it showed
    slips("an RD does not fall back to the folded version", &[Rule::ReadFallsBack], "what is shown is for readers"),
    slips("an RD takes the folded version before the table", &[Rule::TableBeforeFold], "what is shown is for readers"),
    holds("what was folded before gives way, be it newer", &[Rule::NewerFoldStays], "what is not old is newer"),
];

/// What a box that does not look at a view never shows, and its readers and writers do; the three above are held against these too.
const IN_RECORDS: [(&str, Rules); 5] = [
    ("a view's higher byte stands first", Rules { broken: &[Rule::LowByteFirst] }),
    ("a reader that gives a view of votes", Rules { broken: &[Rule::VotesReadAsZero] }),
    ("a writer that writes the view lent beside votes", Rules { broken: &[Rule::VotesWrittenWithout] }),
    ("election answers judged for 5 before 8", Rules { broken: &[Rule::CodeFirst] }),
    ("a leader that is no box", Rules { broken: &[Rule::LeaderIsABox] }),
];

/// Where to look: so many clusters from a seed on.
#[derive(Clone, Copy)]
struct Search {
    most: u64,
    seed: u64,
}

impl Search {
    /// The cluster, counted from 1, that sees demand 3 broken, or A10 where that is judged, and how.
    fn first_broken(self, one: &mut dyn Member, rules: Rules, too_many: u64, slips: bool) -> Option<(u64, String)> {
        let mut counts = Counts::new();
        (1..=self.most).find_map(|number| {
            let plan = Plan { seed: self.seed + number - 1, rules, too_many, slips, told: false };
            cluster::run(one, plan, &mut counts).err().map(|how| (number, how))
        })
    }
}

fn noticed(broken: &Broken, search: Search) -> bool {
    let mut one = Model(broken.rules);
    let differs = first_difference(&mut one, COMPARED, search.seed).map(|(at, _)| at);
    let falls = broken.safe.is_empty() || broken.slips;
    let most = if falls { search.most } else { HELD };
    // where demand 3 falls it has to fall by itself, and where only A10 does demand 3 has to hold
    let held = !broken.slips || Search { most: HELD, ..search }.first_broken(&mut one, broken.rules, 0, false).is_none();
    let found = Search { most, ..search }.first_broken(&mut one, broken.rules, 0, !broken.safe.is_empty());
    let passed = differs.is_some() && held && found.is_some() == falls;
    let seen = match &found {
        Some((clusters, how)) => format!("cluster {clusters:5}: {how}"),
        None if falls => format!("NOT SEEN in {most} clusters"),
        None => format!("demand 3 holds, {}", broken.safe),
    };
    let differs = differs.map_or("NO message".into(), |at| format!("message {at:5}"));
    println!("{:60} {differs}  {seen}{}", broken.what, if passed { "" } else { "  FAILED" });
    passed
}

/// Readers and writers with a broken rule, and whether they must be refused: by records of the generator, and by lists cut at every byte.
fn recorded(what: &str, clerk: &dyn records::Clerk, seed: u64, wrong: bool) -> bool {
    let (first, cuts) = (records::first_difference(clerk, RECORDS, seed), records::cuts_wrong(clerk));
    let passed = (first.is_some(), cuts > 0) == (wrong, wrong);
    let seen = first.map_or(format!("agrees on {RECORDS} records"), |at| format!("record {at:5}"));
    println!("{what:60} {seen}, {cuts} of the lists that are cut at every byte{}", if passed { "" } else { "  FAILED" });
    passed
}

/// What the engine's clusters have, and those of a box with a broken rule never.
fn only_with_the_rule(event: &str, what: &str, broken: Rules, search: Search) -> bool {
    let times = |one: &mut dyn Member, rules: Rules| {
        let mut counts = Counts::new();
        let held =
            (0..HELD).all(|number| cluster::run(one, Plan { seed: search.seed + number, rules, too_many: 0, slips: true, told: false }, &mut counts).is_ok());
        (held, counts.times(event))
    };
    let (ours, theirs) = (times(&mut Engine, PAPER), times(&mut Model(broken), broken));
    let passed = ours.0 && theirs.0 && ours.1 > 0 && theirs.1 == 0;
    println!("{event}: {} times in {HELD} clusters, {} with {what}{}", ours.1, theirs.1, if passed { "" } else { "  FAILED" });
    passed
}

/// A rule that is no box's, or more liars than f: the engine itself cannot keep the promise then, and the cluster has to see that.
fn engine_itself(what: &str, search: Search, broken: &'static [Rule], too_many: u64, slips: bool) -> bool {
    let found = search.first_broken(&mut Engine, Rules { broken }, too_many, slips);
    let seen = found.as_ref().map_or(format!("NOT SEEN in {} clusters  FAILED", search.most), |(at, how)| format!("cluster {at:5}: {how}"));
    println!("{:75} {seen}", what);
    found.is_some()
}

/// Boxes that no rule describes.
enum Bad {
    RefusesAll,
    VotesCommit,
    StoresNothing,
    RepeatsItsFirstAnswer(Option<Answer>),
    /// Whatever mark is due, it takes any.
    TakesAnyMark,
    /// It looks at the lowest byte only of the number that names the mark.
    CutsTheNumber,
    /// It refuses a number that is no mark before 14 and 16.
    NumberFirst,
    /// It refuses a number that is no mark after a message that is short.
    MessageFirst,
    /// It drops the entries that are above the capacity.
    DropsEntries,
    /// A DC's new entry stands before all others.
    DecidesInFront,
    /// Its tally counts a box that has not answered.
    InventsAnAnswer,
    /// Beside 11 it says that one answer is lacking, whatever is.
    OneIsLacking,
    /// Beside 11 it says how many answers were counted.
    TellsTheCounted,
    /// Its LG says beside 11 what the proof lacks.
    LacksTheProof,
    /// Its tally says 1 where a threshold is reached, and 0 where it is not.
    TallyTellsReached,
    /// Its tally says what is lacking to the proofs only, and of a list whether it is reached.
    TallyForgetsLists,
    /// Its leader's sheet takes answers of any view.
    TakesAnyView,
    /// Its leader lists all answers that it has.
    ListsThemAll,
    /// Its leader decides for commit wherever it can list so many commits.
    LeadsToCommit,
    /// Its gateway keeps the last view that a box told.
    KeepsTheLastView,
    /// Of two entries with a stamp it holds the last.
    HoldsTheLast,
    /// It says that nothing is held where the refusal of that number is due.
    HoldsNothingFor(u8),
    /// It tells a body to the end of its row.
    HoldsTheWholeRow,
    /// It tells the current view for that of the log.
    HoldsOneView,
}

impl Member for Bad {
    fn call(&mut self, entrance: Entrance, table: &mut Vec<u8>, marks: &mut Vec<u64>, settings: &Settings, message: &[u8]) -> Result<Answer, String> {
        let by = |entrance, table: &mut Vec<u8>, marks: &mut Vec<u64>| Model(PAPER).call(entrance, table, marks, settings, message);
        let properly = |table: &mut Vec<u8>, marks: &mut Vec<u64>| by(entrance, table, marks);
        let no_mark = entrance.taken().is_empty() && !matches!(entrance, Entrance::Raise(_));
        match self {
            Bad::RefusesAll => Ok(Answer::Refused(13)),
            Bad::VotesCommit => Ok(match properly(table, marks)? {
                Answer::Voted(Vote::Abort(_) | Vote::Waiting, visited) => commit_instead(table, message, visited),
                other => other,
            }),
            Bad::StoresNothing => properly(&mut table.clone(), &mut marks.clone()),
            Bad::RepeatsItsFirstAnswer(Some(first)) => Ok(*first),
            Bad::RepeatsItsFirstAnswer(first) => {
                *first = Some(properly(table, marks)?);
                Ok(first.unwrap())
            }
            Bad::TakesAnyMark if !no_mark => by(Entrance::Receive, table, marks),
            Bad::CutsTheNumber => match entrance {
                Entrance::Due(number) => by(Entrance::Due(number & 255), table, marks),
                Entrance::Receive | Entrance::Raise(_) => properly(table, marks),
            },
            Bad::NumberFirst if no_mark => Ok(Answer::Refused(2)),
            Bad::MessageFirst => Ok(match properly(table, marks)? {
                Answer::Refused(2) if no_mark && message.len() < 2 => Answer::Refused(1),
                other => other,
            }),
            Bad::DropsEntries if settings.in_order() && !table.is_empty() => {
                table[0] = table[0].min(settings.capacity as u8);
                properly(table, marks)
            }
            Bad::DecidesInFront => {
                let entries = |table: &[u8]| usize::from(table.first().copied().unwrap_or(0));
                let before = entries(table);
                let answer = properly(table, marks)?;
                let after = entries(table);
                if answer == Answer::Done && after > before {
                    table[HEAD..HEAD + after * ROW].rotate_right(ROW);
                }
                Ok(answer)
            }
            Bad::OneIsLacking => Ok(match properly(table, marks)? {
                Answer::TooFew(_) => Answer::TooFew(1),
                other => other,
            }),
            Bad::TellsTheCounted | Bad::LacksTheProof => Ok(match properly(table, marks)? {
                Answer::TooFew(lacking) => self.otherwise(lacking, settings.f, message),
                other => other,
            }),
            _ => properly(table, marks),
        }
    }

    fn tally(&mut self, sheet: &mut Sheet, f: u64, number: u64, answer: u64) -> Result<Reply, String> {
        let reply = model::tally(sheet, f, number, answer);
        let reached = |lacking: u8| u8::from(lacking == 0);
        Ok(match (self, reply) {
            (_, Reply::Repeat | Reply::Refused(_)) => reply,
            (Bad::InventsAnAnswer, _) => {
                let silent = (0..5 * f + 1).find(|number| (sheet.commits | sheet.aborts) & 1 << number == 0);
                silent.map_or(reply, |number| model::tally(&mut sheet.clone(), f, number, answer))
            }
            (Bad::TallyTellsReached, Reply::Votes(lacking)) => Reply::Votes(lacking.map(reached)),
            (Bad::TallyTellsReached, Reply::Logs(lacking)) => Reply::Logs(lacking.map(reached)),
            (Bad::TallyForgetsLists, Reply::Votes([a, b, c, d])) => Reply::Votes([u8::from(a > 0), u8::from(b > 0), c, d]),
            _ => reply,
        })
    }

    fn elect(&mut self, sheet: &mut ElectionSheet, f: u64, number: u64, answer: u64, view: u64) -> Result<ElectionReply, String> {
        let view = if matches!(self, Bad::TakesAnyView) { sheet.view.into() } else { view };
        Ok(model::elect(sheet, f, number, answer, view))
    }

    fn election(&mut self, sheet: &ElectionSheet, f: u64, stamp: u64) -> Result<Election, u8> {
        let mut made = model::election(sheet, f, stamp)?;
        match self {
            Bad::ListsThemAll => {
                let last = made.answers.last().map_or(0, |one| one.0 + 1);
                let others = (last..32).filter(|number| (sheet.commits | sheet.aborts) >> number & 1 != 0);
                made.answers
                    .extend(others.map(|number| (number, if sheet.commits >> number & 1 != 0 { Decision::Commit } else { Decision::Abort }, sheet.view)));
            }
            Bad::LeadsToCommit if u64::from(sheet.commits.count_ones()) > 2 * f => {
                let aborts = sheet.commits.count_ones() as usize;
                let named = |number: &u8| sheet.commits >> number & 1 != 0;
                let boxes = (0..32).filter(named).chain((0..32).filter(|number| sheet.aborts >> number & 1 != 0)).take(made.answers.len());
                made.answers =
                    boxes.enumerate().map(|(place, number)| (number, if place < aborts { Decision::Commit } else { Decision::Abort }, sheet.view)).collect();
                made.answers.sort_unstable();
                made.decision = Decision::Commit;
            }
            _ => {}
        }
        Ok(made)
    }

    fn tell(&mut self, sheet: &mut ViewSheet, f: u64, number: u64, view: u64) -> Result<(), u8> {
        model::tell(sheet, f, number, view)?;
        if matches!(self, Bad::KeepsTheLastView) {
            sheet.views[number as usize] = view as u16;
        }
        Ok(())
    }

    fn held(&mut self, table: &[u8], capacity: u64, stamp: u64) -> Result<Option<Holding>, u8> {
        let own = || model::held(table, capacity, stamp);
        match self {
            Bad::HoldsTheLast => {
                let held = own()?;
                let mut places = (0..table[0].into()).filter(|place| table[row_at(*place) + BODY_AT + 4..][..8] == stamp.to_le_bytes());
                let Some(last) = places.next_back() else { return Ok(held) };
                let alone = [&[1], &[0; HEAD - 1][..], &table[row_at(last)..row_at(last + 1)]].concat();
                Ok(model::held(&alone, 1, stamp)?.map(|held| Holding { at: row_at(last) + BODY_AT, ..held }))
            }
            Bad::HoldsNothingFor(refusal) => own().or_else(|number| if number == *refusal { Ok(None) } else { Err(number) }),
            Bad::HoldsTheWholeRow => Ok(own()?.map(|held| Holding { body: table[held.at..held.at + ROW - BODY_AT].to_vec(), ..held })),
            Bad::HoldsOneView => Ok(own()?.map(|held| Holding { log: held.log.map(|log| (log.0, held.view)), ..held })),
            _ => own(),
        }
    }
}

impl Bad {
    /// Another number than what a message's list lacks.
    fn otherwise(&self, lacking: u8, f: u64, message: &[u8]) -> Answer {
        let list = 14 + 10 * usize::from(message[4] + message[5]);
        let (kind, decision, logging) = (message[list + 2], message[list + 3], message.starts_with(b"LG"));
        let row = PAPER.row(f);
        let (logged, proof) = if decision == 1 { (row[0], row[2]) } else { (row[1], row[3]) };
        let needed = if logging {
            logged
        } else if kind == 1 {
            proof
        } else {
            row[4]
        };
        let counted = needed - usize::from(lacking);
        Answer::TooFew(match self {
            Bad::LacksTheProof if logging => (proof - counted) as u8,
            Bad::LacksTheProof => lacking,
            _ => counted as u8,
        })
    }
}

/// The vote on the message's transaction becomes commit, in the table too.
fn commit_instead(table: &mut [u8], message: &[u8], visited: Option<u64>) -> Answer {
    let stamp = BODY_AT + 4..BODY_AT + 12;
    let row = table[HEAD..].chunks_mut(ROW).find(|row| row[stamp.clone()] == message[6..14]).expect("a vote was stored");
    (row[VOTE_AT], row[REASON_AT]) = (1, 0);
    Answer::Voted(Vote::Commit, visited)
}

/// A box, and whether the comparison must refuse it.
fn compared(what: &str, mut one: impl Member, seed: u64, wrong: bool) -> bool {
    let first = first_difference(&mut one, COMPARED, seed).map(|(at, _)| format!("message {at}"));
    let first = first.or_else(|| first_difference_in_tally(&mut one, COMPARED, seed).map(|(at, _)| format!("answer {at} for a sheet")));
    let first = first.or_else(|| first_difference_in_ballots(&mut one, COMPARED, seed).map(|(at, _)| format!("election answer {at}")));
    let passed = first.is_some() == wrong;
    let seen = first.map_or(format!("agrees on {COMPARED} messages and answers"), |at| format!("refused at {at}"));
    println!("{what:60} {seen}{}", if passed { "" } else { "  FAILED" });
    passed
}

/// Boxes by whose answers one can tell in which order two decisions came.
const ORDER: [(&str, Rule); 4] = [
    ("RD takes the last writer in the table", Rule::HighestStamp),
    ("a look-up ends at the first higher stamp", Rule::AnyPlace),
    ("test 3 ends at the first live writer", Rule::EveryWriter),
    ("a DC's new entry takes the place of an aborted one", Rule::AbortedStay),
];

/// Boxes that are wrong, but whose answers do not go by the order of entries with different stamps.
const ORDERLY: [(&str, Rule); 2] = [("RD takes the last among equals", Rule::FirstAmongEquals), ("a look-up takes the last of a stamp", Rule::FirstOfAStamp)];

/// A6: boxes that vote as they should, and count otherwise.
const COUNTING: [(&str, Rule); 9] = [
    ("the entry found is not counted", Rule::FoundCounts),
    ("the look-up of the own stamp is not counted", Rule::OwnCounts),
    ("tests 3 and 4 do not count dead entries", Rule::DeadCount),
    ("tests 3 and 4 go row by row", Rule::KeyByKey),
    ("what stands behind a failing test is counted", Rule::EndsThere),
    ("the waiting rule stops at the first that gives 6", Rule::EveryVersion),
    ("a number beside the same vote again", Rule::NoNumberAgain),
    ("a look-up at or below the low mark is counted", Rule::OldNotCounted),
    ("entries are counted where the folded version fails the key", Rule::FoldCountsNone),
];

/// The comparison has to notice each of them, and but for the number it is the paper's box, by which no order of decisions shows.
fn counting(seed: u64) -> bool {
    let mut passed = true;
    for (what, rule) in &COUNTING {
        let broken = std::slice::from_ref(rule);
        passed &= compared(what, Model(Rules { broken }), seed, true);
        passed &= ordered(what, &mut Model(Rules { broken }), seed, false);
    }
    passed
}

/// A box, and whether two decisions in both orders must show it.
fn ordered(what: &str, one: &mut dyn Member, seed: u64, wrong: bool) -> bool {
    let first = order::first_difference(one, PAIRS, seed);
    let passed = first.is_some() == wrong;
    let seen = first.map_or(format!("no order seen in {PAIRS} pairs"), |(at, _)| format!("order seen at pair {at}"));
    println!("{what:60} {seen}{}", if passed { "" } else { "  FAILED" });
    passed
}

/// Either order of decisions: what must be seen there, and what only the comparison sees.
fn either_order(seed: u64) -> bool {
    let mut passed = true;
    for (rules, seen) in [(&ORDER[..], true), (&ORDERLY[..], false)] {
        for (what, rule) in rules {
            let broken = std::slice::from_ref(rule);
            passed &= ordered(what, &mut Model(Rules { broken }), seed, seen);
            passed &= compared(what, Model(Rules { broken }), seed, true);
        }
    }
    passed &= ordered("a DC's new entry stands before all others", &mut Bad::DecidesInFront, seed, false);
    passed &= compared("a DC's new entry stands before all others", Bad::DecidesInFront, seed, true);
    passed & ordered("the engine", &mut Engine, seed, false)
}

/// Each in turn. False where one was not noticed, or the engine was.
pub fn check(most: u64, seed: u64) -> bool {
    let search = Search { most, seed };
    println!("a rule broken: the first message at which the comparison differs, the first cluster that sees demand 3 or A10 broken");
    let mut passed = true;
    for broken in SLIPS
        .iter()
        .chain(&THRESHOLDS_AND_LISTS)
        .chain(&TESTS)
        .chain(&ENTRIES)
        .chain(&LATE)
        .chain(&VIEWS)
        .chain(&FALLBACK)
        .chain(&FALLBACK_SAFE)
        .chain(&LOW)
        .chain(&LOW_SAFE)
    {
        passed &= noticed(broken, search);
    }
    for (what, rules) in VIEWS.iter().map(|broken| (broken.what, broken.rules)).chain(IN_RECORDS) {
        passed &= recorded(what, &Model(rules), seed, true);
    }
    passed &= recorded("the engine's records", &Engine, seed, false);
    passed &= only_with_the_rule(cluster::PROVED_WITH_IT, "10 still given", Rules { broken: &[Rule::NoUnknown] }, search);
    passed &= only_with_the_rule(cluster::COMMITTED_AT_A_READ, "a read mark equal to the stamp a clash", Rules { broken: &[Rule::EqualMark] }, search);
    passed &= engine_itself("the engine, with proofs from logs of unequal views", search, &[Rule::EqualViews], 0, false);
    passed &= engine_itself("the engine, with a read of 3f boxes", search, &[Rule::ReadByEnough], 0, true);
    passed &= engine_itself("the engine, with a stamp equal to the read's taken for one below", search, &[Rule::ReadAbove], 0, true);
    passed &= engine_itself("the engine among f + 1 liars", search, &[], 1, false);
    passed &= compared("a box that refuses all", Bad::RefusesAll, seed, true);
    passed &= compared("a box that votes the same every time", Bad::VotesCommit, seed, true);
    passed &= compared("a box that accepts and stores nothing", Bad::StoresNothing, seed, true);
    passed &= compared("a box that checks on its first call and repeats that answer", Bad::RepeatsItsFirstAnswer(None), seed, true);
    passed &= compared("a box that takes any message, whatever is due", Bad::TakesAnyMark, seed, true);
    passed &= compared("a box that cuts the number for the mark", Bad::CutsTheNumber, seed, true);
    passed &= compared("a box that looks at that number before 14 and 16", Bad::NumberFirst, seed, true);
    passed &= compared("a box that looks at the message before that number", Bad::MessageFirst, seed, true);
    passed &= compared("a box that drops entries above its capacity", Bad::DropsEntries, seed, true);
    passed &= compared("a tally with an invented count", Bad::InventsAnAnswer, seed, true);
    passed &= compared("a box that says one is lacking, whatever is", Bad::OneIsLacking, seed, true);
    passed &= compared("a box that says how many it counted", Bad::TellsTheCounted, seed, true);
    passed &= compared("a box whose LG says what the proof lacks", Bad::LacksTheProof, seed, true);
    passed &= compared("a tally that says 1 for reached", Bad::TallyTellsReached, seed, true);
    passed &= compared("a tally that says of a list only whether it is reached", Bad::TallyForgetsLists, seed, true);
    passed &= compared("a leader's sheet that takes answers of any view", Bad::TakesAnyView, seed, true);
    passed &= compared("a leader that lists all the answers it has", Bad::ListsThemAll, seed, true);
    passed &= compared("a leader that decides for commit where it can", Bad::LeadsToCommit, seed, true);
    passed &= compared("a gateway that keeps the last view told", Bad::KeepsTheLastView, seed, true);
    passed &= compared("a box that holds the last of two entries", Bad::HoldsTheLast, seed, true);
    passed &= compared("a box that holds nothing where the capacity is wrong", Bad::HoldsNothingFor(14), seed, true);
    passed &= compared("a box that holds nothing where the table is wrong", Bad::HoldsNothingFor(16), seed, true);
    passed &= compared("a box that holds a body to the end of its row", Bad::HoldsTheWholeRow, seed, true);
    passed &= compared("a box that tells the current view for the log's", Bad::HoldsOneView, seed, true);
    passed &= compared("the engine", Engine, seed, false);
    passed &= either_order(seed);
    passed &= counting(seed);
    println!("{}", if passed { "each broken rule and each bad box was noticed" } else { "FAILED" });
    passed
}
