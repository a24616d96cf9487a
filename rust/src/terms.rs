//! The papers' words: stamp, key, view, mark, decision, kind, reason, and the group of boxes.

use crate::refusal::Refusal;
use core::fmt;
use stobbarel_sys as c;

/// A moment and a writer; 1 or more where it is in order.
///
/// ```
/// use stobbarel::Stamp;
///
/// assert!(Stamp(50) < Stamp::from(51));
/// assert_eq!(u64::from(Stamp(50)), 50);
/// ```
#[derive(Clone, Copy, Debug, Default, PartialEq, Eq, PartialOrd, Ord, Hash)]
pub struct Stamp(pub u64);

/// A register place; 0 to 511 where it is in order.
///
/// ```
/// assert_eq!(stobbarel::Key::from(3).to_string(), "3");
/// ```
#[derive(Clone, Copy, Debug, Default, PartialEq, Eq, PartialOrd, Ord, Hash)]
pub struct Key(pub u16);

/// A round of the fallback: the one that a decision was logged in, 0 for what an LG had logged, or the one that a box is in for a transaction. A proof from
/// logs is of one view.
///
/// ```
/// assert!(stobbarel::View::default() < stobbarel::View(1));
/// ```
#[derive(Clone, Copy, Debug, Default, PartialEq, Eq, PartialOrd, Ord, Hash)]
pub struct View(pub u16);

/// A number and its word, in both directions, and as the number that it is.
macro_rules! numbered {
    ($($word:ident is $number:ty),*) => {$(
        impl From<$number> for $word {
            fn from(number: $number) -> $word {
                $word(number)
            }
        }

        impl From<$word> for $number {
            fn from(word: $word) -> $number {
                word.0
            }
        }

        impl fmt::Display for $word {
            fn fmt(&self, f: &mut fmt::Formatter<'_>) -> fmt::Result {
                self.0.fmt(f)
            }
        }
    )*};
}

numbered!(Stamp is u64, Key is u16, View is u16);

/// A code that stands for nothing here.
///
/// ```
/// use stobbarel::{Decision, NoSuchCode};
///
/// assert_eq!(Decision::try_from(3), Err(NoSuchCode(3)));
/// assert_eq!(NoSuchCode(3).to_string(), "3 is no such code");
/// ```
#[derive(Clone, Copy, Debug, PartialEq, Eq, Hash)]
pub struct NoSuchCode(pub u8);

impl fmt::Display for NoSuchCode {
    fn fmt(&self, f: &mut fmt::Formatter<'_>) -> fmt::Result {
        write!(f, "{} is no such code", self.0)
    }
}

impl core::error::Error for NoSuchCode {}

/// The codes of a word's cases, in both directions, and each in words.
macro_rules! coded {
    ($word:ident: $($case:ident is $says:literal),*) => {
        impl TryFrom<u8> for $word {
            type Error = NoSuchCode;

            fn try_from(code: u8) -> Result<$word, NoSuchCode> {
                [$($word::$case),*].into_iter().find(|one| *one as u8 == code).ok_or(NoSuchCode(code))
            }
        }

        impl From<$word> for u8 {
            fn from(word: $word) -> u8 {
                word as u8
            }
        }

        impl fmt::Display for $word {
            fn fmt(&self, f: &mut fmt::Formatter<'_>) -> fmt::Result {
                f.pad(match self {
                    $($word::$case => $says),*
                })
            }
        }
    };
}

/// A code as the engine tells it, among wider numbers.
pub(crate) fn coded<T: TryFrom<u8>>(number: u64) -> Option<T> {
    u8::try_from(number).ok()?.try_into().ok()
}

/// What a message begins with.
///
/// ```
/// use stobbarel::Mark;
///
/// assert_eq!(Mark::try_from(1), Ok(Mark::Pr));
/// assert_eq!(Mark::Pr.to_string(), "PR");
/// ```
#[derive(Clone, Copy, Debug, PartialEq, Eq, Hash)]
pub enum Mark {
    /// 1: vote on a transaction.
    Pr = 1,
    /// 2: log a decision.
    Lg = 2,
    /// 3: take a decision.
    Dc = 3,
    /// 4: what stands at a key.
    Rd = 4,
    /// 5: move on to a view, and give an election answer.
    Iv = 5,
    /// 6: log what a view's leader decided.
    Ld = 6,
}

coded!(Mark: Pr is "PR", Lg is "LG", Dc is "DC", Rd is "RD", Iv is "IV", Ld is "LD");

/// What a list names, and what a box answers.
///
/// ```
/// use stobbarel::{Decision, Refusal, Vote};
///
/// assert_eq!(Decision::try_from(2), Ok(Decision::Abort));
/// assert_eq!(Decision::Abort.to_string(), "abort");
/// // A vote is one too, unless the box waits.
/// assert_eq!(Decision::try_from(Vote::Commit), Ok(Decision::Commit));
/// assert_eq!(Decision::try_from(Vote::Waiting), Err(Refusal::Code));
/// ```
#[derive(Clone, Copy, Debug, PartialEq, Eq, Hash)]
pub enum Decision {
    /// 1
    Commit = 1,
    /// 2
    Abort = 2,
}

coded!(Decision: Commit is "commit", Abort is "abort");

impl Decision {
    /// The one that it is not.
    ///
    /// ```
    /// use stobbarel::Decision;
    ///
    /// assert_eq!(Decision::Commit.other(), Decision::Abort);
    /// ```
    #[must_use]
    pub fn other(self) -> Decision {
        match self {
            Decision::Commit => Decision::Abort,
            Decision::Abort => Decision::Commit,
        }
    }
}

/// Of what a list or a tally sheet is made.
///
/// ```
/// use stobbarel::Kind;
///
/// assert_eq!(Kind::try_from(2), Ok(Kind::Logs));
/// assert_eq!(Kind::Logs.to_string(), "logs");
/// ```
#[derive(Clone, Copy, Debug, PartialEq, Eq, Hash)]
pub enum Kind {
    /// 1
    Votes = 1,
    /// 2
    Logs = 2,
}

coded!(Kind: Votes is "votes", Logs is "logs");

/// Why a box voted abort.
///
/// ```
/// use stobbarel::Reason;
///
/// assert_eq!(Reason::try_from(5), Ok(Reason::ReadMark));
/// assert_eq!(Reason::ReadMark.to_string(), "a written key's read mark is above this stamp");
/// ```
#[derive(Clone, Copy, Debug, PartialEq, Eq, Hash)]
pub enum Reason {
    /// 1: the stamp is above clock + δ.
    Ahead = 1,
    /// 2: a version read is not a live entry that writes the key; one at or below the low mark is not the folded one.
    NoVersion = 2,
    /// 3: a live entry writes a key read here, between the version and this stamp; or the key's folded version is above the version.
    Overwritten = 3,
    /// 4: a live entry above read a key written here, at a version below.
    Undercuts = 4,
    /// 5: a written key's read mark is above this stamp.
    ReadMark = 5,
    /// 6: what was waited for is aborted, lacks the key or is not held; or it is old by now, and not the folded one.
    Dependency = 6,
}

coded!(Reason:
    Ahead is "its stamp is above clock + delta",
    NoVersion is "a version read is no live entry that writes the key, nor the folded one",
    Overwritten is "a live entry writes a key read here, between the version and this stamp, or a folded one is above the version",
    Undercuts is "a live entry above read a key written here, at a version below",
    ReadMark is "a written key's read mark is above this stamp",
    Dependency is "what it waited for is aborted, lacks the key, is not held, or is old and not the folded one"
);

/// A group of 5f + 1 boxes, of which at most f are faulty, and how many answers each thing needs. Its boxes are numbered from 0.
///
/// ```
/// use stobbarel::{Group, Refusal};
///
/// let group = Group::of(1)?;
/// assert_eq!(group.boxes(), 6);
/// assert_eq!(Group::of(6), Err(Refusal::Group));
/// # Ok::<(), Refusal>(())
/// ```
#[derive(Clone, Copy, PartialEq, Eq, Hash)]
pub struct Group {
    f: u8,
    needed: [u8; 6],
}

impl Group {
    /// The group of f, which is 1 to 5.
    ///
    /// ```
    /// use stobbarel::{Group, Refusal};
    ///
    /// assert_eq!(Group::of(0), Err(Refusal::Group));
    /// // A wider number, as a file or a wire has it, is a group or is refused too.
    /// assert_eq!(Group::try_from(5), Group::of(5));
    /// assert_eq!(Group::try_from(257), Err(Refusal::Group));
    /// ```
    pub fn of(f: u8) -> Result<Group, Refusal> {
        let mut needed = [0; 6];
        // SAFETY: the pointer is to six numbers.
        Refusal::or_done(unsafe { c::stobbarel_thresholds(f.into(), needed.as_mut_ptr()) })?;
        // none of them is above 26
        Ok(Group { f, needed: needed.map(|number| number as u8) })
    }

    /// How many boxes may be faulty.
    ///
    /// ```
    /// assert_eq!(stobbarel::Group::of(2)?.f(), 2);
    /// # Ok::<(), stobbarel::Refusal>(())
    /// ```
    #[must_use]
    pub fn f(self) -> u8 {
        self.f
    }

    /// n: boxes are numbered 0 to n - 1.
    ///
    /// ```
    /// assert_eq!(stobbarel::Group::of(5)?.boxes(), 26);
    /// # Ok::<(), stobbarel::Refusal>(())
    /// ```
    #[must_use]
    pub fn boxes(self) -> u8 {
        self.needed[0]
    }

    /// The numbers of its boxes.
    ///
    /// ```
    /// assert!(stobbarel::Group::of(1)?.numbers().eq([0, 1, 2, 3, 4, 5]));
    /// # Ok::<(), stobbarel::Refusal>(())
    /// ```
    pub fn numbers(self) -> impl DoubleEndedIterator<Item = u8> + ExactSizeIterator {
        0..self.boxes()
    }

    /// Commit votes to log commit.
    ///
    /// ```
    /// assert_eq!(stobbarel::Group::of(1)?.commit_list(), 4);
    /// # Ok::<(), stobbarel::Refusal>(())
    /// ```
    #[must_use]
    pub fn commit_list(self) -> u8 {
        self.needed[1]
    }

    /// Abort votes to log abort.
    ///
    /// ```
    /// assert_eq!(stobbarel::Group::of(1)?.abort_list(), 2);
    /// # Ok::<(), stobbarel::Refusal>(())
    /// ```
    #[must_use]
    pub fn abort_list(self) -> u8 {
        self.needed[2]
    }

    /// Commit votes that prove commit.
    ///
    /// ```
    /// assert_eq!(stobbarel::Group::of(1)?.commit_proof(), 6);
    /// # Ok::<(), stobbarel::Refusal>(())
    /// ```
    #[must_use]
    pub fn commit_proof(self) -> u8 {
        self.needed[3]
    }

    /// Abort votes that prove abort.
    ///
    /// ```
    /// assert_eq!(stobbarel::Group::of(1)?.abort_proof(), 4);
    /// # Ok::<(), stobbarel::Refusal>(())
    /// ```
    #[must_use]
    pub fn abort_proof(self) -> u8 {
        self.needed[4]
    }

    /// Equal logged decisions that prove that decision.
    ///
    /// ```
    /// assert_eq!(stobbarel::Group::of(1)?.log_proof(), 5);
    /// # Ok::<(), stobbarel::Refusal>(())
    /// ```
    #[must_use]
    pub fn log_proof(self) -> u8 {
        self.needed[5]
    }
}

impl TryFrom<u64> for Group {
    type Error = Refusal;

    fn try_from(f: u64) -> Result<Group, Refusal> {
        Group::of(f.try_into().map_err(|_| Refusal::Group)?)
    }
}

impl fmt::Debug for Group {
    fn fmt(&self, f: &mut fmt::Formatter<'_>) -> fmt::Result {
        write!(f, "Group of f = {}", self.f)
    }
}
