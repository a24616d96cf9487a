//! What a box answers.

use crate::refusal::Refusal;
use crate::terms::{Decision, Reason, Stamp, View, coded};
use core::fmt;

/// What a box votes.
///
/// ```
/// use stobbarel::{Reason, Vote};
///
/// assert_eq!(Vote::Commit.to_string(), "commit");
/// assert_eq!(Vote::Abort(Reason::Ahead).to_string(), "abort 1: its stamp is above clock + delta");
/// ```
#[derive(Clone, Copy, Debug, PartialEq, Eq, Hash)]
pub enum Vote {
    /// It is for commit.
    Commit,
    /// It is for abort.
    Abort(Reason),
    /// It waits for a version that it read.
    Waiting,
}

impl Vote {
    /// The number of it in a row and in the C interface: 1 commit, 2 abort, 3 waiting.
    ///
    /// ```
    /// assert_eq!(stobbarel::Vote::Waiting.number(), 3);
    /// ```
    #[must_use]
    pub fn number(self) -> u8 {
        match self {
            Vote::Commit => 1,
            Vote::Abort(_) => 2,
            Vote::Waiting => 3,
        }
    }

    /// The vote of a number, with the reason's beside it.
    pub(crate) fn of(number: u64, reason: u64) -> Option<Vote> {
        match (number, reason) {
            (1, 0) => Some(Vote::Commit),
            (2, reason) => Some(Vote::Abort(coded(reason)?)),
            (3, 0) => Some(Vote::Waiting),
            _ => None,
        }
    }

    /// What it is for; none while the box waits.
    ///
    /// ```
    /// use stobbarel::{Decision, Reason, Vote};
    ///
    /// assert_eq!(Vote::Abort(Reason::Ahead).decision(), Some(Decision::Abort));
    /// assert_eq!(Vote::Waiting.decision(), None);
    /// ```
    #[must_use]
    pub fn decision(self) -> Option<Decision> {
        match self {
            Vote::Commit => Some(Decision::Commit),
            Vote::Abort(_) => Some(Decision::Abort),
            Vote::Waiting => None,
        }
    }
}

/// A wait is refused as a tally refuses it ([`Refusal::Code`]).
impl TryFrom<Vote> for Decision {
    type Error = Refusal;

    fn try_from(vote: Vote) -> Result<Decision, Refusal> {
        vote.decision().ok_or(Refusal::Code)
    }
}

impl fmt::Display for Vote {
    fn fmt(&self, f: &mut fmt::Formatter<'_>) -> fmt::Result {
        match self {
            Vote::Commit => f.pad("commit"),
            Vote::Abort(reason) => write!(f, "abort {}: {reason}", *reason as u8),
            Vote::Waiting => f.pad("waiting"),
        }
    }
}

/// A version and its value.
///
/// ```
/// use stobbarel::{Stamp, Version};
///
/// assert_eq!(Version { stamp: Stamp(50), value: 7 }.to_string(), "7 by 50");
/// ```
#[derive(Clone, Copy, Debug, PartialEq, Eq, Hash)]
pub struct Version {
    /// The writer's stamp.
    pub stamp: Stamp,
    /// What it wrote.
    pub value: u64,
}

impl Version {
    /// A version as the engine tells it, 0 and 0 where there is none.
    pub(crate) fn of(stamp: u64, value: u64) -> Option<Version> {
        ((stamp, value) != (0, 0)).then_some(Version { stamp: Stamp(stamp), value })
    }
}

impl fmt::Display for Version {
    fn fmt(&self, f: &mut fmt::Formatter<'_>) -> fmt::Result {
        write!(f, "{} by {}", self.value, self.stamp)
    }
}

/// What a box answers to a message that it does not refuse.
///
/// ```
/// use stobbarel::{Answer, Decision, View, Vote};
///
/// assert_eq!(Answer::Voted(Vote::Commit, Some(4)).to_string(), "voted commit, 4 entries visited");
/// assert_eq!(Answer::Logged(Decision::Abort, View(1)).to_string(), "logged abort in view 1");
/// assert_eq!(Answer::Found { committed: None, undecided: None }.to_string(), "found nothing committed, nothing undecided");
/// ```
#[derive(Clone, Copy, Debug, PartialEq, Eq, Hash)]
#[must_use = "it is to be sent, once the table and its read marks are durable"]
pub enum Answer {
    /// To a PR: the vote, and how many entries were visited; no number where the entry was voted on before.
    Voted(Vote, Option<u64>),
    /// To a PR, an LG, an IV or an LD: the transaction is decided.
    Decided(Decision),
    /// To an LG or an LD: what is logged, and the view that it was logged in.
    Logged(Decision, View),
    /// To a DC.
    Done,
    /// To an RD.
    Found {
        /// The newest writer below that is committed, or what is folded at the key.
        committed: Option<Version>,
        /// The newest writer below that is live and undecided.
        undecided: Option<Version>,
    },
    /// To an IV: the box's election answer, to be carried to the leader.
    Elected {
        /// What the box has logged.
        decision: Decision,
        /// The view that it is in now.
        view: View,
        /// The box that leads this view.
        leader: u8,
    },
}

/// What the engine's five numbers say.
pub(crate) fn answered(row: [u64; 5]) -> Option<Result<Answer, Refusal>> {
    let in_view = |view: u64| Some(View(view.try_into().ok()?));
    Some(Ok(match row {
        [1, vote, reason, 0, 0] => Answer::Voted(Vote::of(vote, reason)?, None),
        [1, vote, reason, 1, visited] => Answer::Voted(Vote::of(vote, reason)?, Some(visited)),
        [2, decision, 0, 0, 0] => Answer::Decided(coded(decision)?),
        [3, decision, view, 0, 0] => Answer::Logged(coded(decision)?, in_view(view)?),
        [4, 0, 0, 0, 0] => Answer::Done,
        [5, committed, value, undecided, its] => Answer::Found { committed: Version::of(committed, value), undecided: Version::of(undecided, its) },
        [6, 11, lacking @ 1..=26, 0, 0] => return Some(Err(Refusal::TooFew(lacking as u8))),
        [6, number, 0, 0, 0] => return Some(Err(coded(number)?)),
        [7, decision, view, leader, 0] => Answer::Elected { decision: coded(decision)?, view: in_view(view)?, leader: leader.try_into().ok()? },
        _ => return None,
    }))
}

impl fmt::Display for Answer {
    fn fmt(&self, f: &mut fmt::Formatter<'_>) -> fmt::Result {
        match self {
            Answer::Voted(vote, None) => write!(f, "voted {vote}"),
            Answer::Voted(vote, Some(1)) => write!(f, "voted {vote}, 1 entry visited"),
            Answer::Voted(vote, Some(visited)) => write!(f, "voted {vote}, {visited} entries visited"),
            Answer::Decided(decision) => write!(f, "decided {decision}"),
            Answer::Logged(decision, view) => write!(f, "logged {decision} in view {view}"),
            Answer::Done => f.pad("done"),
            Answer::Found { committed, undecided } => {
                f.write_str("found ")?;
                found(f, *committed, "committed, ")?;
                found(f, *undecided, "undecided")
            }
            Answer::Elected { decision, view, leader } => write!(f, "elected {decision} in view {view}, led by box {leader}"),
        }
    }
}

fn found(f: &mut fmt::Formatter<'_>, version: Option<Version>, how: &str) -> fmt::Result {
    match version {
        Some(version) => write!(f, "{version} {how}"),
        None => write!(f, "nothing {how}"),
    }
}
