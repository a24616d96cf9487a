//! The gateway's tally.

use crate::answer::Vote;
use crate::records::VoteList;
use crate::refusal::Refusal;
use crate::terms::{Decision, Group, Kind, View};
use crate::upto::UpTo;
use core::fmt;
use stobbarel_sys as c;

/// What a sheet says after an answer: for each threshold of its kind how many answers it lacks, 0 where the threshold is reached. A box says the same
/// of the list made from the sheet ([`Refusal::TooFew`]).
///
/// ```
/// use stobbarel::{Decision, Group, Sheet};
///
/// let reply = Sheet::votes(Group::of(1)?).take(0, Decision::Commit)?;
/// assert_eq!(reply.to_string(), "lacking: commit list 3, abort list 2, commit proof 5, abort proof 4");
/// # Ok::<(), stobbarel::Refusal>(())
/// ```
#[derive(Clone, Copy, Debug, PartialEq, Eq, Hash)]
pub enum Reply {
    /// A sheet of votes.
    Votes {
        /// What is lacking to log commit.
        commit_list: u8,
        /// What is lacking to log abort.
        abort_list: u8,
        /// What is lacking to prove commit.
        commit_proof: u8,
        /// What is lacking to prove abort.
        abort_proof: u8,
    },
    /// A sheet of logged decisions.
    Logs {
        /// What is lacking to prove commit.
        commit_proof: u8,
        /// What is lacking to prove abort.
        abort_proof: u8,
    },
    /// The box is already on the sheet, which stays as it was. It tells nothing else.
    Repeat,
}

impl Reply {
    /// A reply by its five numbers.
    fn of(row: [u8; 5]) -> Result<Reply, Refusal> {
        match row {
            [1, commit_list, abort_list, commit_proof, abort_proof] => Ok(Reply::Votes { commit_list, abort_list, commit_proof, abort_proof }),
            [2, commit_proof, abort_proof, _, _] => Ok(Reply::Logs { commit_proof, abort_proof }),
            [3, ..] => Ok(Reply::Repeat),
            [_, number, ..] => Err(Refusal::told(number)),
        }
    }

    /// How many answers the list for logging this decision lacks; none where the reply does not tell.
    ///
    /// ```
    /// use stobbarel::{Decision, Reply};
    ///
    /// assert_eq!(Reply::Votes { commit_list: 0, abort_list: 2, commit_proof: 2, abort_proof: 4 }.list_lacks(Decision::Abort), Some(2));
    /// assert_eq!(Reply::Repeat.list_lacks(Decision::Abort), None);
    /// ```
    #[must_use]
    pub fn list_lacks(self, decision: Decision) -> Option<u8> {
        match (self, decision) {
            (Reply::Votes { commit_list, .. }, Decision::Commit) => Some(commit_list),
            (Reply::Votes { abort_list, .. }, Decision::Abort) => Some(abort_list),
            _ => None,
        }
    }

    /// How many answers the proof of this decision lacks; none where the reply does not tell.
    ///
    /// ```
    /// use stobbarel::{Decision, Reply};
    ///
    /// assert_eq!(Reply::Logs { commit_proof: 5, abort_proof: 1 }.proof_lacks(Decision::Abort), Some(1));
    /// ```
    #[must_use]
    pub fn proof_lacks(self, decision: Decision) -> Option<u8> {
        match (self, decision) {
            (Reply::Votes { commit_proof, .. } | Reply::Logs { commit_proof, .. }, Decision::Commit) => Some(commit_proof),
            (Reply::Votes { abort_proof, .. } | Reply::Logs { abort_proof, .. }, Decision::Abort) => Some(abort_proof),
            _ => None,
        }
    }

    /// Whether this reply says that the list for logging this decision is reached. [`Reply::Repeat`] does not say so, be it reached.
    ///
    /// ```
    /// use stobbarel::{Decision, Reply};
    ///
    /// assert!(Reply::Votes { commit_list: 0, abort_list: 2, commit_proof: 2, abort_proof: 4 }.list_reached(Decision::Commit));
    /// ```
    #[must_use]
    pub fn list_reached(self, decision: Decision) -> bool {
        self.list_lacks(decision) == Some(0)
    }

    /// Whether this reply says that the proof of this decision is reached. [`Reply::Repeat`] does not say so, be it reached.
    ///
    /// ```
    /// use stobbarel::{Decision, Reply};
    ///
    /// assert!(Reply::Logs { commit_proof: 0, abort_proof: 4 }.proof_reached(Decision::Commit));
    /// ```
    #[must_use]
    pub fn proof_reached(self, decision: Decision) -> bool {
        self.proof_lacks(decision) == Some(0)
    }
}

impl fmt::Display for Reply {
    fn fmt(&self, f: &mut fmt::Formatter<'_>) -> fmt::Result {
        match self {
            Reply::Votes { commit_list, abort_list, commit_proof, abort_proof } => {
                write!(f, "lacking: commit list {commit_list}, abort list {abort_list}, commit proof {commit_proof}, abort proof {abort_proof}")
            }
            Reply::Logs { commit_proof, abort_proof } => write!(f, "lacking: commit proof {commit_proof}, abort proof {abort_proof}"),
            Reply::Repeat => f.pad("a repeat"),
        }
    }
}

/// The boxes of a mask, rising.
pub(crate) fn numbers(mask: u32) -> UpTo<u8, 26> {
    let mut numbers = UpTo::new();
    for number in (0..26).filter(|number| mask & 1 << number != 0) {
        numbers.push(number).expect("there are 26 boxes at most");
    }
    numbers
}

/// The answers of one kind for one transaction; logged decisions are of one view.
///
/// ```
/// use stobbarel::{Decision, Group, Sheet};
///
/// let mut votes = Sheet::votes(Group::of(1)?);
/// votes.take(4, Decision::Commit)?;
/// assert_eq!(votes.to_string(), "votes, commit [4], abort []");
/// # Ok::<(), stobbarel::Refusal>(())
/// ```
#[derive(Clone, Copy, PartialEq, Eq, Hash)]
pub struct Sheet {
    group: Group,
    kind: Kind,
    view: View,
    commits: u32,
    aborts: u32,
}

impl Sheet {
    /// An empty sheet for votes.
    ///
    /// ```
    /// use stobbarel::{Decision, Group, Sheet};
    ///
    /// assert!(Sheet::votes(Group::of(1)?).boxes(Decision::Commit).is_empty());
    /// # Ok::<(), stobbarel::Refusal>(())
    /// ```
    #[must_use]
    pub fn votes(group: Group) -> Sheet {
        Sheet { group, kind: Kind::Votes, view: View(0), commits: 0, aborts: 0 }
    }

    /// An empty sheet for the decisions that boxes have logged in this view. Which answers are of it is the gateway's business: the sheet counts what
    /// it is given, and an answer of another view belongs on a sheet of that view.
    ///
    /// ```
    /// use stobbarel::{Decision, Group, Reply, Sheet, View};
    ///
    /// let mut logs = Sheet::logs(Group::of(1)?, View(0));
    /// assert_eq!(logs.take(2, Decision::Commit)?, Reply::Logs { commit_proof: 4, abort_proof: 5 });
    /// # Ok::<(), stobbarel::Refusal>(())
    /// ```
    #[must_use]
    pub fn logs(group: Group, view: View) -> Sheet {
        Sheet { group, kind: Kind::Logs, view, commits: 0, aborts: 0 }
    }

    /// The view that a sheet of logged decisions is for; none of votes.
    ///
    /// ```
    /// use stobbarel::{Group, Sheet, View};
    ///
    /// let group = Group::of(1)?;
    /// assert_eq!((Sheet::votes(group).view(), Sheet::logs(group, View(1)).view()), (None, Some(View(1))));
    /// # Ok::<(), stobbarel::Refusal>(())
    /// ```
    #[must_use]
    pub fn view(&self) -> Option<View> {
        (self.kind == Kind::Logs).then_some(self.view)
    }

    /// Takes one box's answer. A refusal leaves the sheet as it was.
    ///
    /// ```
    /// use stobbarel::{Decision, Group, Refusal, Reply, Sheet};
    ///
    /// let mut votes = Sheet::votes(Group::of(1)?);
    /// votes.take(5, Decision::Abort)?;
    /// assert_eq!(votes.take(5, Decision::Commit), Ok(Reply::Repeat));
    /// assert_eq!(votes.take(6, Decision::Abort), Err(Refusal::Range));
    /// # Ok::<(), Refusal>(())
    /// ```
    pub fn take(&mut self, number: u8, answer: Decision) -> Result<Reply, Refusal> {
        self.take_code(number, answer.into())
    }

    /// Takes one box's vote as it was answered; a wait is refused ([`Refusal::Code`]).
    ///
    /// ```
    /// use stobbarel::{Decision, Group, Reason, Refusal, Sheet, Vote};
    ///
    /// let mut votes = Sheet::votes(Group::of(1)?);
    /// votes.take_vote(0, Vote::Abort(Reason::Overwritten))?;
    /// assert_eq!(votes.take_vote(1, Vote::Waiting), Err(Refusal::Code));
    /// assert_eq!(votes.boxes(Decision::Abort), [0]);
    /// # Ok::<(), Refusal>(())
    /// ```
    pub fn take_vote(&mut self, number: u8, vote: Vote) -> Result<Reply, Refusal> {
        self.take_code(number, vote.number())
    }

    fn take_code(&mut self, number: u8, answer: u8) -> Result<Reply, Refusal> {
        let mut row = [0; 5];
        // SAFETY: each pointer is to as many numbers as the function takes, and they do not overlap.
        unsafe {
            c::stobbarel_take(self.kind as u8, &mut self.commits, &mut self.aborts, self.group.f().into(), number.into(), answer.into(), row.as_mut_ptr())
        }
        Reply::of(row)
    }

    /// What the sheet has reached as it is, without an answer: the reply to the one that brought it here.
    ///
    /// ```
    /// use stobbarel::{Decision, Group, Sheet};
    ///
    /// let mut votes = Sheet::votes(Group::of(1)?);
    /// let reply = votes.take(2, Decision::Commit)?;
    /// assert_eq!(votes.reached(), reply);
    /// # Ok::<(), stobbarel::Refusal>(())
    /// ```
    #[must_use]
    pub fn reached(&self) -> Reply {
        let mut row = [0; 5];
        // SAFETY: the row has as many numbers as the function takes.
        unsafe { c::stobbarel_reached(self.kind as u8, self.commits, self.aborts, self.group.f().into(), row.as_mut_ptr()) }
        Reply::of(row).expect("a sheet of this package is in order")
    }

    /// The box numbers under an answer, rising.
    ///
    /// ```
    /// use stobbarel::{Decision, Group, Sheet};
    ///
    /// let mut votes = Sheet::votes(Group::of(1)?);
    /// votes.take(5, Decision::Commit)?;
    /// votes.take(2, Decision::Commit)?;
    /// assert_eq!(votes.boxes(Decision::Commit), [2, 5]);
    /// # Ok::<(), stobbarel::Refusal>(())
    /// ```
    #[must_use]
    pub fn boxes(&self, answer: Decision) -> UpTo<u8, 26> {
        numbers(if answer == Decision::Commit { self.commits } else { self.aborts })
    }

    /// All answers on the sheet as a list for this decision, of the sheet's kind and view. That of an empty sheet cannot be written ([`Refusal::Count`]).
    ///
    /// ```
    /// use stobbarel::{Decision, Group, Sheet, VoteList};
    ///
    /// let mut votes = Sheet::votes(Group::of(1)?);
    /// votes.take(5, Decision::Abort)?;
    /// votes.take(2, Decision::Commit)?;
    /// let all = VoteList::votes(Decision::Commit, [(2, Decision::Commit), (5, Decision::Abort)]);
    /// assert_eq!(votes.list(Decision::Commit), all);
    /// assert_eq!(VoteList::from((&votes, Decision::Commit)), all);
    /// # Ok::<(), stobbarel::Refusal>(())
    /// ```
    #[must_use]
    pub fn list(&self, decision: Decision) -> VoteList {
        let all = numbers(self.commits | self.aborts);
        let answer = |number: u8| if self.commits & 1 << number != 0 { Decision::Commit } else { Decision::Abort };
        VoteList { kind: self.kind, decision, view: self.view, pairs: UpTo::of(all.len(), |place| (all[place], answer(all[place]))) }
    }

    /// The same with the answers that count for it alone. What else a sheet holds would only be more to sign and to check.
    ///
    /// ```
    /// use stobbarel::{Decision, Group, Sheet};
    ///
    /// let mut votes = Sheet::votes(Group::of(1)?);
    /// votes.take(5, Decision::Abort)?;
    /// votes.take(2, Decision::Commit)?;
    /// assert_eq!(votes.counted(Decision::Commit).pairs, [(2, Decision::Commit)]);
    /// # Ok::<(), stobbarel::Refusal>(())
    /// ```
    #[must_use]
    pub fn counted(&self, decision: Decision) -> VoteList {
        let (mut head, mut numbers, mut answers) = ([0; 4], [0; 26], [0; 26]);
        // SAFETY: each pointer is to as many numbers as the function takes, and they do not overlap.
        let wrong = unsafe {
            let (to, boxes, said) = (head.as_mut_ptr(), numbers.as_mut_ptr(), answers.as_mut_ptr());
            c::stobbarel_sheet_list(self.kind as u8, self.view.0, self.commits, self.aborts, self.group.f().into(), u8::from(decision).into(), to, boxes, said)
        };
        debug_assert_eq!(wrong, 0, "a sheet of this package is in order");
        VoteList { kind: self.kind, decision, view: self.view, pairs: UpTo::of(head[3] as usize, |place| (numbers[place], decision)) }
    }
}

/// All answers on the sheet as a list for this decision ([`Sheet::list`]).
impl From<(&Sheet, Decision)> for VoteList {
    fn from((sheet, decision): (&Sheet, Decision)) -> VoteList {
        sheet.list(decision)
    }
}

impl fmt::Display for Sheet {
    fn fmt(&self, f: &mut fmt::Formatter<'_>) -> fmt::Result {
        match self.view() {
            None => f.write_str("votes")?,
            Some(view) => write!(f, "logs of view {view}")?,
        }
        write!(f, ", commit {:?}, abort {:?}", self.boxes(Decision::Commit), self.boxes(Decision::Abort))
    }
}

impl fmt::Debug for Sheet {
    fn fmt(&self, f: &mut fmt::Formatter<'_>) -> fmt::Result {
        let mut sheet = f.debug_struct("Sheet");
        sheet.field("kind", &self.kind).field("view", &self.view());
        sheet.field("commit", &self.boxes(Decision::Commit)).field("abort", &self.boxes(Decision::Abort)).finish()
    }
}
