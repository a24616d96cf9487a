//! The passage register: four keys as one product, as a dispatcher reads it.

use crate::answer::Answer;
use crate::layout::KEYS;
use crate::records::{Transaction, write_rd};
use crate::refusal::Refusal;
use crate::table::Table;
use crate::terms::{Key, Stamp};
use crate::upto::UpTo;
use core::borrow::BorrowMut;
use core::fmt;
use stobbarel_sys as c;

/// Bytes of an RD.
const RD: usize = 12;

/// A passage, 0 to 127. It owns keys 4p to 4p + 3: train number, direction, axle count, hot axle.
///
/// ```
/// use stobbarel::{Passage, Refusal, Stamp};
///
/// assert_eq!(Passage(128).asks(Stamp(60)), Err(Refusal::Passage));
/// ```
#[derive(Clone, Copy, Debug, PartialEq, Eq, PartialOrd, Ord, Hash)]
pub struct Passage(pub u64);

/// What stands at a passage's keys, as the detector has it.
///
/// ```
/// let train = stobbarel::Values { train: 7402, direction: 0, axles: 240, hot: 3 };
/// assert_eq!(train.axles, 240);
/// ```
#[derive(Clone, Copy, Debug, PartialEq, Eq, Hash)]
pub struct Values {
    /// The train's number.
    pub train: u64,
    /// 0 or 1.
    pub direction: u64,
    /// How many axles the train has, 1 to 1000.
    pub axles: u64,
    /// The hot axle in the detector's order; 0 for none.
    pub hot: u64,
}

impl Values {
    fn lent(self) -> [u64; 4] {
        [self.train, self.direction, self.axles, self.hot]
    }
}

/// What a dispatcher reads of a passage.
///
/// ```
/// let report = stobbarel::Report { train: 7402, direction: 1, axles: 240, hot: 238 };
/// assert_eq!(report.to_string(), "train 7402, direction 1, 240 axles: hot axle 238 from the leading end");
/// ```
#[derive(Clone, Copy, Debug, PartialEq, Eq, Hash)]
pub struct Report {
    /// The train's number.
    pub train: u64,
    /// 0 or 1.
    pub direction: u64,
    /// How many axles the train has.
    pub axles: u64,
    /// The hot axle, counted from the train's leading end; 0 for none.
    pub hot: u64,
}

impl fmt::Display for Report {
    fn fmt(&self, f: &mut fmt::Formatter<'_>) -> fmt::Result {
        write!(f, "train {}, direction {}, {} axles: ", self.train, self.direction, self.axles)?;
        match self.hot {
            0 => write!(f, "no hot axle"),
            hot => write!(f, "hot axle {hot} from the leading end"),
        }
    }
}

/// The four RDs of a passage at one stamp.
///
/// ```
/// use stobbarel::{Passage, Stamp};
///
/// assert_eq!(Passage(5).asks(Stamp(60))?.messages().len(), 4);
/// # Ok::<(), stobbarel::Refusal>(())
/// ```
#[derive(Clone, Copy, Debug, PartialEq, Eq, Hash)]
pub struct Asks {
    passage: Passage,
    stamp: Stamp,
    keys: [u16; 4],
}

/// What the four answers showed: the committed versions and values. It belongs to the passage that was asked for.
///
/// ```
/// use stobbarel::{Group, Passage, Refusal, Stamp, Table};
///
/// let seen = Passage(5).look(&mut Table::new(Group::of(1)?, 8)?, 100, 10, Stamp(60))?;
/// assert_eq!(seen.report(), Err(Refusal::AxleCount), "nothing was ever written there");
/// # Ok::<(), Refusal>(())
/// ```
#[derive(Clone, Copy, Debug, PartialEq, Eq, Hash)]
pub struct Seen {
    passage: Passage,
    versions: [u64; 4],
    values: [u64; 4],
}

impl Passage {
    /// The RDs that a report or a correction is read from. 26 for a passage above 127, 5 for stamp 0.
    ///
    /// ```
    /// use stobbarel::{Passage, Refusal, Stamp};
    ///
    /// assert_eq!(Passage(5).asks(Stamp(0)), Err(Refusal::Range));
    /// ```
    pub fn asks(self, stamp: Stamp) -> Result<Asks, Refusal> {
        let mut keys = [0; 4];
        // SAFETY: the pointer is to four numbers.
        Refusal::or_done(unsafe { c::stobbarel_asks(self.0, stamp.0, keys.as_mut_ptr()) })?;
        Ok(Asks { passage: self, stamp, keys })
    }

    /// The same asked of one box, and answered.
    ///
    /// ```
    /// use stobbarel::{Group, Passage, Refusal, Stamp, Table};
    ///
    /// let mut table = Table::new(Group::of(1)?, 8)?;
    /// assert!(Passage(5).look(&mut table, 100, 10, Stamp(60)).is_ok());
    /// assert_eq!(Passage(5).look(&mut table, 100, 10, Stamp(111)), Err(Refusal::Ahead));
    /// # Ok::<(), Refusal>(())
    /// ```
    pub fn look<B, M>(self, table: &mut Table<B, M>, clock: u64, delta: u64, stamp: Stamp) -> Result<Seen, Refusal>
    where
        B: BorrowMut<[u8]>,
        M: BorrowMut<[u64; KEYS]>,
    {
        let asks = self.asks(stamp)?;
        asks.seen(asks.messages().map(|message| table.receive(clock, delta, &message)))
    }
}

impl Asks {
    /// The messages, in the order of the keys; each goes to the same box.
    ///
    /// ```
    /// use stobbarel::{Group, Key, Message, Passage, Stamp, read_message};
    ///
    /// let [train, ..] = Passage(5).asks(Stamp(60))?.messages();
    /// assert_eq!(read_message(Group::of(1)?, &train)?, Message::Read(Key(20), Stamp(60)));
    /// # Ok::<(), stobbarel::Refusal>(())
    /// ```
    #[must_use]
    pub fn messages(&self) -> [[u8; RD]; 4] {
        self.keys.map(|key| {
            let mut message = [0; RD];
            write_rd(Key(key), self.stamp, &mut message).expect("keys and stamp are in order, and there is room");
            message
        })
    }

    /// What the box's answers show, in the order of the messages. A refusal among them is told as it is; an answer to another message is 2.
    ///
    /// ```
    /// use stobbarel::{Answer, Passage, Refusal, Stamp, Version};
    ///
    /// let asks = Passage(5).asks(Stamp(60))?;
    /// let found = |value| Ok(Answer::Found { committed: Some(Version { stamp: Stamp(50), value }), undecided: None });
    /// assert!(asks.seen([found(7402), found(1), found(240), found(3)]).is_ok());
    /// assert_eq!(asks.seen([found(7402), found(1), found(240), Err(Refusal::Ahead)]), Err(Refusal::Ahead));
    /// # Ok::<(), Refusal>(())
    /// ```
    pub fn seen(&self, answers: [Result<Answer, Refusal>; 4]) -> Result<Seen, Refusal> {
        let mut seen = Seen { passage: self.passage, versions: [0; 4], values: [0; 4] };
        for (i, answer) in answers.into_iter().enumerate() {
            let Answer::Found { committed, .. } = answer? else { return Err(Refusal::Mark) };
            // version 0 and value 0 where nothing is committed
            (seen.versions[i], seen.values[i]) = committed.map_or((0, 0), |version| (version.stamp.0, version.value));
        }
        Ok(seen)
    }

    /// The report that the box's answers give.
    ///
    /// ```
    /// use stobbarel::{Answer, Passage, Stamp, Version};
    ///
    /// let found = |value| Ok(Answer::Found { committed: Some(Version { stamp: Stamp(50), value }), undecided: None });
    /// let report = Passage(5).asks(Stamp(60))?.report([found(7402), found(1), found(240), found(3)])?;
    /// assert_eq!(report.hot, 238);
    /// # Ok::<(), stobbarel::Refusal>(())
    /// ```
    pub fn report(&self, answers: [Result<Answer, Refusal>; 4]) -> Result<Report, Refusal> {
        self.seen(answers)?.report()
    }
}

/// The arrays lent for a transaction.
#[derive(Default)]
struct Made {
    reads: [u16; 8],
    versions: [u64; 8],
    writes: [u16; 8],
    values: [u64; 8],
}

impl Made {
    /// What a function makes in these arrays.
    fn by(stamp: Stamp, make: impl FnOnce(*mut u16, *mut u64, *mut u16, *mut u64) -> u8) -> Result<Transaction, Refusal> {
        let mut made = Made::default();
        Refusal::or_done(make(made.reads.as_mut_ptr(), made.versions.as_mut_ptr(), made.writes.as_mut_ptr(), made.values.as_mut_ptr()))?;
        let reads = UpTo::of(4, |i| (Key(made.reads[i]), Stamp(made.versions[i])));
        Ok(Transaction { stamp, reads, writes: UpTo::of(4, |i| (Key(made.writes[i]), made.values[i])) })
    }
}

// SAFETY of each call below: a pointer is to four numbers, or to eight of a transaction, and they do not overlap.

impl Seen {
    /// The committed versions, in the order of the keys; 0 where there is none.
    ///
    /// ```
    /// use stobbarel::{Group, Passage, Stamp, Table};
    ///
    /// let seen = Passage(5).look(&mut Table::new(Group::of(1)?, 8)?, 100, 10, Stamp(60))?;
    /// assert_eq!(seen.versions(), [Stamp(0); 4]);
    /// # Ok::<(), stobbarel::Refusal>(())
    /// ```
    #[must_use]
    pub fn versions(&self) -> [Stamp; 4] {
        self.versions.map(Stamp)
    }

    /// The report. 27 where the four versions are not all equal, 28 to 30 where the values are not a passage's, as where there was none.
    ///
    /// ```
    /// use stobbarel::{Group, Passage, Refusal, Stamp, Table};
    ///
    /// let seen = Passage(5).look(&mut Table::new(Group::of(1)?, 8)?, 100, 10, Stamp(60))?;
    /// assert_eq!(seen.report(), Err(Refusal::AxleCount));
    /// # Ok::<(), Refusal>(())
    /// ```
    pub fn report(&self) -> Result<Report, Refusal> {
        let mut out = [0; 4];
        Refusal::or_done(unsafe { c::stobbarel_report(self.passage.0, self.versions.as_ptr(), self.values.as_ptr(), out.as_mut_ptr()) })?;
        let [train, direction, axles, hot] = out;
        Ok(Report { train, direction, axles, hot })
    }

    /// The other direction, all else as it was: 26 to 30 of what was seen, then 5 or 7 of the stamp.
    ///
    /// ```
    /// use stobbarel::{Answer, Key, Passage, Stamp, Version};
    ///
    /// let found = |value| Ok(Answer::Found { committed: Some(Version { stamp: Stamp(50), value }), undecided: None });
    /// let seen = Passage(5).asks(Stamp(60))?.seen([found(7402), found(1), found(240), found(3)])?;
    /// assert_eq!(seen.correct_direction(Stamp(70))?.writes[1], (Key(21), 0));
    /// # Ok::<(), stobbarel::Refusal>(())
    /// ```
    pub fn correct_direction(&self, stamp: Stamp) -> Result<Transaction, Refusal> {
        let (p, seen, of) = (self.passage.0, self.versions.as_ptr(), self.values.as_ptr());
        Made::by(stamp, |k, v, l, u| unsafe { c::stobbarel_correct_direction(p, stamp.0, seen, of, k, v, l, u) })
    }

    /// Four new values: 26 to 30 of what was seen, 28 to 30 of what is new, then 5 or 7 of the stamp.
    ///
    /// ```
    /// use stobbarel::{Answer, Key, Passage, Stamp, Values, Version};
    ///
    /// let found = |value| Ok(Answer::Found { committed: Some(Version { stamp: Stamp(50), value }), undecided: None });
    /// let seen = Passage(5).asks(Stamp(60))?.seen([found(7402), found(1), found(240), found(3)])?;
    /// let right = seen.correct(Stamp(70), Values { train: 7403, direction: 1, axles: 240, hot: 3 })?;
    /// assert_eq!(right.writes[0], (Key(20), 7403));
    /// # Ok::<(), stobbarel::Refusal>(())
    /// ```
    pub fn correct(&self, stamp: Stamp, new: Values) -> Result<Transaction, Refusal> {
        let (p, seen, of, new) = (self.passage.0, self.versions.as_ptr(), self.values.as_ptr(), new.lent());
        Made::by(stamp, |k, v, l, u| unsafe { c::stobbarel_correct(p, stamp.0, seen, of, new.as_ptr(), k, v, l, u) })
    }

    /// A train at a passage, whatever stands there: 28 to 30 of what is new, then 5 or 7 of the stamp.
    ///
    /// ```
    /// use stobbarel::{Group, Key, Passage, Stamp, Table, Values};
    ///
    /// let seen = Passage(5).look(&mut Table::new(Group::of(1)?, 8)?, 100, 10, Stamp(40))?;
    /// let entry = seen.enter(Stamp(50), Values { train: 7402, direction: 0, axles: 240, hot: 3 })?;
    /// assert_eq!(entry.writes[2], (Key(22), 240));
    /// # Ok::<(), stobbarel::Refusal>(())
    /// ```
    pub fn enter(&self, stamp: Stamp, new: Values) -> Result<Transaction, Refusal> {
        let (p, seen, of, new) = (self.passage.0, self.versions.as_ptr(), self.values.as_ptr(), new.lent());
        Made::by(stamp, |k, v, l, u| unsafe { c::stobbarel_enter(p, stamp.0, seen, of, new.as_ptr(), k, v, l, u) })
    }
}
