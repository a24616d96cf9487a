//! Why nothing was done.

use crate::terms::NoSuchCode;
use core::fmt;

/// Why nothing was done: what was lent, a table, a sheet or a buffer, is as it was. The numbers are the paper's.
///
/// ```
/// use stobbarel::{Group, Refusal, Table};
///
/// let refusal = Table::new(Group::of(1)?, 256).unwrap_err();
/// assert_eq!(refusal, Refusal::Group);
/// assert_eq!(refusal.to_string(), "refused 14, group: f not 1 to 5, or capacity not 1 to 255");
/// # Ok::<(), Refusal>(())
/// ```
#[derive(Clone, Copy, Debug, PartialEq, Eq, Hash)]
#[non_exhaustive]
pub enum Refusal {
    /// 1: bytes end inside a record.
    Short,
    /// 2: the mark is not the one due.
    Mark,
    /// 3: r or w above 8, r + w = 0, list count 0 or above 26.
    Count,
    /// 4: bytes after the message.
    Trailing,
    /// 5: stamp 0, key above 511, box number n or more.
    Range,
    /// 6: keys or box numbers not strictly rising.
    Order,
    /// 7: a read version at or above the own stamp.
    Misbehaviour,
    /// 8: kind, decision or answer not 1 or 2; kind 2 in an LG.
    Code,
    /// 9: another body is held under this stamp.
    OtherBody,
    /// 10: no longer given, since an LG for a stamp not held is logged. The number is kept.
    Unknown,
    /// 11: the list misses its threshold. It lacks so many counted answers, 1 to the threshold.
    TooFew(u8),
    /// 12: the stamp is already decided otherwise.
    Contradiction,
    /// 13: a new entry is needed and the table is at capacity.
    Full,
    /// 14: f not 1 to 5, or capacity not 1 to 255.
    Group,
    /// 15: RD stamp above clock + δ.
    Ahead,
    /// 16: a lent table or tally sheet that is not in order.
    Table,
    /// 17: the output buffer is shorter than the record.
    Buffer,
    /// 18: the stamp is at or below the box's low mark, or a low mark is not above the present one.
    Old,
    /// 19: something at or below the low mark to be raised to is undecided.
    Undecided,
    /// 21: the box's current view is above that of a leader's decision, or its logged view is not below.
    Passed,
    /// 22: the box holds no log for this body, so that it has no election answer to give.
    NotLogged,
    /// 23: a leader's decision with a wrong leader, number of answers, view or majority; a leader's sheet with fewer than 4f + 1 answers.
    Election,
    /// 24: the new view would pass 65,535.
    LastView,
    /// 26: a passage above 127.
    Passage,
    /// 27: the committed versions at a passage's four keys are not all equal.
    Versions,
    /// 28: a passage's direction is not 0 or 1.
    Direction,
    /// 29: a passage's axle count is not 1 to 1000, as where none was ever written.
    AxleCount,
    /// 30: a passage's hot axle is above its count.
    HotAxle,
}

use Refusal::*;

/// Those that tell no more than their number: all but [`Refusal::TooFew`].
const PLAIN: [Refusal; 27] = [
    Short,
    Mark,
    Count,
    Trailing,
    Range,
    Order,
    Misbehaviour,
    Code,
    OtherBody,
    Unknown,
    Contradiction,
    Full,
    Group,
    Ahead,
    Table,
    Buffer,
    Old,
    Undecided,
    Passed,
    NotLogged,
    Election,
    LastView,
    Passage,
    Versions,
    Direction,
    AxleCount,
    HotAxle,
];

impl Refusal {
    /// The paper's number.
    ///
    /// ```
    /// assert_eq!(stobbarel::Refusal::TooFew(3).number(), 11);
    /// ```
    #[must_use]
    pub fn number(self) -> u8 {
        match self {
            Short => 1,
            Mark => 2,
            Count => 3,
            Trailing => 4,
            Range => 5,
            Order => 6,
            Misbehaviour => 7,
            Code => 8,
            OtherBody => 9,
            Unknown => 10,
            TooFew(_) => 11,
            Contradiction => 12,
            Full => 13,
            Group => 14,
            Ahead => 15,
            Table => 16,
            Buffer => 17,
            Old => 18,
            Undecided => 19,
            Passed => 21,
            NotLogged => 22,
            Election => 23,
            LastView => 24,
            Passage => 26,
            Versions => 27,
            Direction => 28,
            AxleCount => 29,
            HotAxle => 30,
        }
    }

    /// Its name, and when it is given.
    ///
    /// ```
    /// assert_eq!(stobbarel::Refusal::Short.words(), "short: bytes end inside a record");
    /// ```
    #[must_use]
    pub fn words(self) -> &'static str {
        match self {
            Short => "short: bytes end inside a record",
            Mark => "mark: the mark is not the one due",
            Count => "count: more than 8 reads or writes or none of both, or a list of none or of more than 26",
            Trailing => "trailing: bytes after the record",
            Range => "range: stamp 0, key above 511, or box number n or more",
            Order => "order: keys or box numbers not strictly rising",
            Misbehaviour => "misbehaviour: a read version at or above the own stamp",
            Code => "code: kind, decision or answer not 1 or 2, or logs in an LG",
            OtherBody => "other body: another body is held under this stamp",
            Unknown => "unknown: no longer given",
            TooFew(_) => "too few: the list misses its threshold",
            Contradiction => "contradiction: the stamp is already decided otherwise",
            Full => "full: a new entry is needed and the table is at capacity",
            Group => "group: f not 1 to 5, or capacity not 1 to 255",
            Ahead => "ahead: the stamp is above clock + delta",
            Table => "table: more entries than the capacity or too few bytes for it, or a row with more than 8 reads or writes or a wrong code",
            Buffer => "buffer: it is shorter than the record",
            Old => "old: the stamp is at or below the low mark, or the low mark is not above the present one",
            Undecided => "undecided: an entry at or below the low mark is undecided",
            Passed => "passed: the box's view is above the leader's, or its log's view is not below",
            NotLogged => "not logged: the box holds no log for this body",
            Election => "election: a wrong leader, number of answers, view or majority",
            LastView => "last view: the new view would pass 65535",
            Passage => "passage: passage above 127",
            Versions => "versions: the four committed versions not all equal",
            Direction => "direction: direction not 0 or 1",
            AxleCount => "axle count: count not 1 to 1000, as at a passage never written",
            HotAxle => "hot axle: hot axle above the count",
        }
    }

    /// How many counted answers a list lacks; none beside any other refusal than [`Refusal::TooFew`].
    ///
    /// ```
    /// use stobbarel::Refusal;
    ///
    /// assert_eq!((Refusal::TooFew(3).lacking(), Refusal::Short.lacking()), (Some(3), None));
    /// ```
    #[must_use]
    pub fn lacking(self) -> Option<u8> {
        match self {
            TooFew(lacking) => Some(lacking),
            _ => None,
        }
    }

    /// 0, or the number of a refusal, as the C functions answer.
    pub(crate) fn or_done(number: u8) -> Result<(), Refusal> {
        match number {
            0 => Ok(()),
            number => Err(Refusal::told(number)),
        }
    }

    /// The refusal of a number that the engine told.
    pub(crate) fn told(number: u8) -> Refusal {
        Refusal::try_from(number).expect("the engine tells a number of the paper's")
    }
}

/// The refusal of a number that tells no more; 11 does, and is none of them.
impl TryFrom<u8> for Refusal {
    type Error = NoSuchCode;

    fn try_from(number: u8) -> Result<Refusal, NoSuchCode> {
        PLAIN.into_iter().find(|one| one.number() == number).ok_or(NoSuchCode(number))
    }
}

impl fmt::Display for Refusal {
    fn fmt(&self, f: &mut fmt::Formatter<'_>) -> fmt::Result {
        write!(f, "refused {}, {}", self.number(), self.words())?;
        match self.lacking() {
            Some(lacking) => write!(f, ", it lacks {lacking}"),
            None => Ok(()),
        }
    }
}

impl core::error::Error for Refusal {}
