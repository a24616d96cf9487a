//! What finishes a transaction that a dead gateway left: the views that a gateway is told, and the sheet of a view's leader.

use crate::records::{Election, Views};
use crate::refusal::Refusal;
use crate::sheet::numbers;
use crate::terms::{Decision, Group, Stamp, View, coded};
use crate::upto::UpTo;
use core::fmt;
use stobbarel_sys as c;

/// The views that boxes told a gateway, for one transaction: what its next IV lists.
///
/// ```
/// use stobbarel::{Group, View, ViewSheet};
///
/// let mut sheet = ViewSheet::new(Group::of(1)?);
/// sheet.tell(3, View(1))?;
/// assert_eq!(format!("{sheet:?}"), "ViewSheet { views: [(3, View(1))] }");
/// # Ok::<(), stobbarel::Refusal>(())
/// ```
#[derive(Clone, Copy, PartialEq, Eq, Hash)]
pub struct ViewSheet {
    group: Group,
    told: u32,
    views: [u16; 26],
}

impl ViewSheet {
    /// An empty sheet.
    ///
    /// ```
    /// use stobbarel::{Group, ViewSheet};
    ///
    /// assert!(ViewSheet::new(Group::of(1)?).views().is_empty());
    /// # Ok::<(), stobbarel::Refusal>(())
    /// ```
    #[must_use]
    pub fn new(group: Group) -> ViewSheet {
        ViewSheet { group, told: 0, views: [0; 26] }
    }

    /// A box told its current view, in an election answer, or 0 before it gave one. The highest that it told is kept.
    ///
    /// ```
    /// use stobbarel::{Group, Refusal, View, ViewSheet};
    ///
    /// let mut sheet = ViewSheet::new(Group::of(1)?);
    /// sheet.tell(3, View(2))?;
    /// sheet.tell(3, View(1))?;
    /// assert_eq!(sheet.views(), [(3, View(2))]);
    /// assert_eq!(sheet.tell(6, View(0)), Err(Refusal::Range));
    /// # Ok::<(), Refusal>(())
    /// ```
    pub fn tell(&mut self, number: u8, view: View) -> Result<(), Refusal> {
        // SAFETY: each pointer is to as many numbers as the function takes, and they do not overlap.
        Refusal::or_done(unsafe { c::stobbarel_tell(&mut self.told, self.views.as_mut_ptr(), self.group.f().into(), number.into(), view.0.into()) })
    }

    /// The boxes that told one, rising, and their views; those of an empty sheet cannot be written ([`Refusal::Count`]).
    ///
    /// ```
    /// use stobbarel::{Group, View, ViewSheet, Views};
    ///
    /// let mut sheet = ViewSheet::new(Group::of(1)?);
    /// sheet.tell(4, View(1))?;
    /// sheet.tell(0, View(0))?;
    /// assert_eq!(sheet.views(), [(0, View(0)), (4, View(1))]);
    /// assert_eq!(Views::from(&sheet), sheet.views());
    /// # Ok::<(), stobbarel::Refusal>(())
    /// ```
    #[must_use]
    pub fn views(&self) -> Views {
        let (mut count, mut numbers, mut listed) = (0, [0; 26], [0; 26]);
        // SAFETY: each pointer is to as many numbers as the function takes, and they do not overlap.
        let told = unsafe { c::stobbarel_told(self.told, self.views.as_ptr(), self.group.f().into(), &mut count, numbers.as_mut_ptr(), listed.as_mut_ptr()) };
        Refusal::or_done(told).expect("a sheet that took boxes of its group");
        UpTo::of(count, |place| (numbers[place], View(listed[place])))
    }
}

impl From<&ViewSheet> for Views {
    fn from(sheet: &ViewSheet) -> Views {
        sheet.views()
    }
}

impl fmt::Debug for ViewSheet {
    fn fmt(&self, f: &mut fmt::Formatter<'_>) -> fmt::Result {
        f.debug_struct("ViewSheet").field("views", &self.views()).finish()
    }
}

/// What a leader's sheet says after an election answer.
///
/// ```
/// assert_eq!(stobbarel::ElectionReply::Taken { lacking: 4 }.to_string(), "taken, 4 lacking");
/// ```
#[derive(Clone, Copy, Debug, PartialEq, Eq, Hash)]
pub enum ElectionReply {
    /// The answer stands on the sheet.
    Taken {
        /// How many answers are lacking of the 4f + 1 that a leader's decision needs; 0 where they are reached.
        lacking: u8,
    },
    /// The answer is for another view than the sheet, which stays as it was.
    OtherView,
    /// The box is already on the sheet, which stays as it was.
    Repeat,
}

impl fmt::Display for ElectionReply {
    fn fmt(&self, f: &mut fmt::Formatter<'_>) -> fmt::Result {
        match self {
            ElectionReply::Taken { lacking } => write!(f, "taken, {lacking} lacking"),
            ElectionReply::OtherView => f.pad("another view"),
            ElectionReply::Repeat => f.pad("a repeat"),
        }
    }
}

/// The election answers that a leader has, for one transaction and one view.
///
/// ```
/// use stobbarel::{Decision, ElectionSheet, Group, View};
///
/// let mut sheet = ElectionSheet::new(Group::of(1)?, View(1));
/// sheet.take(3, Decision::Abort, View(1))?;
/// assert_eq!(format!("{sheet:?}"), "ElectionSheet { view: View(1), commit: [], abort: [3] }");
/// # Ok::<(), stobbarel::Refusal>(())
/// ```
#[derive(Clone, Copy, PartialEq, Eq, Hash)]
pub struct ElectionSheet {
    group: Group,
    view: View,
    commits: u32,
    aborts: u32,
}

impl ElectionSheet {
    /// An empty sheet for a view.
    ///
    /// ```
    /// use stobbarel::{ElectionSheet, Group, Refusal, Stamp, View};
    ///
    /// let sheet = ElectionSheet::new(Group::of(1)?, View(1));
    /// assert_eq!(sheet.election(Stamp(50)), Err(Refusal::Election));
    /// # Ok::<(), Refusal>(())
    /// ```
    #[must_use]
    pub fn new(group: Group, view: View) -> ElectionSheet {
        ElectionSheet { group, view, commits: 0, aborts: 0 }
    }

    /// Takes one box's election answer: what it has logged, and the view that it answered for. A refusal leaves the sheet as it was.
    ///
    /// ```
    /// use stobbarel::{Decision, ElectionReply, ElectionSheet, Group, View};
    ///
    /// let mut sheet = ElectionSheet::new(Group::of(1)?, View(1));
    /// assert_eq!(sheet.take(3, Decision::Abort, View(1))?, ElectionReply::Taken { lacking: 4 });
    /// assert_eq!(sheet.take(4, Decision::Abort, View(2))?, ElectionReply::OtherView);
    /// # Ok::<(), stobbarel::Refusal>(())
    /// ```
    pub fn take(&mut self, number: u8, decision: Decision, view: View) -> Result<ElectionReply, Refusal> {
        let (f, answer, mut reply) = (self.group.f().into(), decision as u64, [0; 2]);
        // SAFETY: each pointer is to as many numbers as the function takes, and they do not overlap.
        unsafe { c::stobbarel_elect(self.view.0, &mut self.commits, &mut self.aborts, f, number.into(), answer, view.0.into(), reply.as_mut_ptr()) }
        match reply {
            [1, lacking] => Ok(ElectionReply::Taken { lacking }),
            [2, _] => Ok(ElectionReply::OtherView),
            [3, _] => Ok(ElectionReply::Repeat),
            [_, number] => Err(Refusal::told(number)),
        }
    }

    /// What the leader decides of the transaction with this stamp, by 4f + 1 of the answers, those of the lowest boxes; [`Refusal::Election`] where there are
    /// fewer.
    ///
    /// ```
    /// use stobbarel::{Decision, ElectionSheet, Group, Stamp, View};
    ///
    /// let mut sheet = ElectionSheet::new(Group::of(1)?, View(1));
    /// for (number, decision) in [(0, Decision::Commit), (1, Decision::Abort), (2, Decision::Abort), (4, Decision::Commit), (5, Decision::Abort)] {
    ///     sheet.take(number, decision, View(1))?;
    /// }
    /// let election = sheet.election(Stamp(50))?;
    /// assert_eq!((election.leader, election.decision), (3, Decision::Abort));
    /// # Ok::<(), stobbarel::Refusal>(())
    /// ```
    pub fn election(&self, stamp: Stamp) -> Result<Election, Refusal> {
        let (mut head, mut numbers, mut answers, mut views) = ([0; 4], [0; 26], [0; 26], [0; 26]);
        let (view, f) = (self.view.0, self.group.f().into());
        let (h, n, a, v) = (head.as_mut_ptr(), numbers.as_mut_ptr(), answers.as_mut_ptr(), views.as_mut_ptr());
        // SAFETY: each pointer is to as many numbers as the function takes, and they do not overlap.
        Refusal::or_done(unsafe { c::stobbarel_election(view, self.commits, self.aborts, f, stamp.0, h, n, a, v) })?;
        let [leader, decision, view, count] = head;
        let said = |code: u64| coded(code).expect("an election has answers");
        let answers = UpTo::of(count as usize, |place| (numbers[place], said(answers[place].into()), View(views[place])));
        Ok(Election { leader: leader as u8, decision: said(decision), view: View(view as u16), answers })
    }
}

impl fmt::Debug for ElectionSheet {
    fn fmt(&self, f: &mut fmt::Formatter<'_>) -> fmt::Result {
        let mut sheet = f.debug_struct("ElectionSheet");
        sheet.field("view", &self.view).field("commit", &numbers(self.commits)).field("abort", &numbers(self.aborts)).finish()
    }
}
