//! One box: its table and read marks, and the calls.

use crate::answer::{Answer, Version, answered};
use crate::held::Held;
use crate::layout::{FOLD, FOLDS_AT, HEAD, KEYS, LOW_AT};
use crate::refusal::Refusal;
use crate::terms::{Group, Key, Mark, Stamp};
#[cfg(feature = "alloc")]
use alloc::{boxed::Box, vec, vec::Vec};
use core::borrow::{Borrow, BorrowMut};
use core::fmt;
use stobbarel_sys as c;

/// Who owns a table's bytes and its read marks: any two things that lend them.
macro_rules! table {
    ($($parameters:tt)*) => {
        /// A box's table and read marks.
        ///
        /// With the feature `alloc`, [`Table::new`] makes one that owns both. Without it, [`Table::kept`] takes them from wherever they are: as arrays, or
        /// lent.
        ///
        /// ```
        /// use stobbarel::layout::{KEYS, table_len};
        /// use stobbarel::{Answer, Group, Key, LONGEST, Stamp, Table, Transaction, Vote, write_pr};
        ///
        /// let (mut bytes, mut marks) = ([0; table_len(8)], [0; KEYS]);
        /// let mut table = Table::kept(Group::of(1)?, 8, &mut bytes[..], &mut marks);
        /// let tx = Transaction::new(Stamp(50), [], [(Key(3), 7)]);
        /// let answer = table.receive(100, 10, write_pr(&tx, &mut [0; LONGEST])?)?;
        /// assert_eq!(answer, Answer::Voted(Vote::Commit, Some(0)));
        /// assert_eq!(bytes[0], 1, "the table has an entry");
        /// # Ok::<(), stobbarel::Refusal>(())
        /// ```
        #[derive(Clone, PartialEq, Eq)]
        pub struct Table<$($parameters)*> {
            group: Group,
            capacity: u64,
            bytes: B,
            marks: M,
        }
    };
}

#[cfg(feature = "alloc")]
table!(B = Vec<u8>, M = Box<[u64; KEYS]>);
#[cfg(not(feature = "alloc"))]
table!(B, M);

#[cfg(feature = "alloc")]
impl Table {
    /// An empty table with room for 1 to 255 entries.
    ///
    /// ```
    /// use stobbarel::{Group, Refusal, Table};
    ///
    /// let group = Group::of(1)?;
    /// assert!(Table::new(group, 8).is_ok());
    /// assert_eq!(Table::new(group, 256), Err(Refusal::Group));
    /// # Ok::<(), Refusal>(())
    /// ```
    pub fn new(group: Group, capacity: u64) -> Result<Table, Refusal> {
        if !(1..=255).contains(&capacity) {
            return Err(Refusal::Group);
        }
        Ok(Table { group, capacity, bytes: vec![0; crate::layout::table_len(capacity as usize)], marks: Box::new([0; KEYS]) })
    }
}

impl<B, M> Table<B, M> {
    /// A table as it was kept, or a new one, whose bytes and read marks are all 0. Any bytes may be given: each call refuses a table that is not in order
    /// ([`Refusal::Table`]), and a capacity that is not 1 to 255 ([`Refusal::Group`]).
    ///
    /// ```
    /// use stobbarel::layout::{KEYS, table_len};
    /// use stobbarel::{Group, Refusal, Stamp, Table};
    ///
    /// let new = Table::kept(Group::of(1)?, 8, [0; table_len(8)], [0; KEYS]);
    /// assert_eq!(new.held(Stamp(50)), Ok(None));
    /// let short = Table::kept(Group::of(1)?, 8, [0; table_len(7)], [0; KEYS]);
    /// assert_eq!(short.held(Stamp(50)), Err(Refusal::Table));
    /// # Ok::<(), Refusal>(())
    /// ```
    pub fn kept(group: Group, capacity: u64, bytes: B, marks: M) -> Table<B, M> {
        Table { group, capacity, bytes, marks }
    }
}

impl<B: Borrow<[u8]>, M: Borrow<[u64; KEYS]>> Table<B, M> {
    /// The bytes, to be kept; [`layout`](crate::layout) says what stands where.
    ///
    /// ```
    /// use stobbarel::{Group, Table, layout::table_len};
    ///
    /// assert_eq!(Table::new(Group::of(1)?, 8)?.bytes(), [0; table_len(8)]);
    /// # Ok::<(), stobbarel::Refusal>(())
    /// ```
    #[must_use]
    pub fn bytes(&self) -> &[u8] {
        self.bytes.borrow()
    }

    /// The read marks, to be kept.
    ///
    /// ```
    /// use stobbarel::{Group, Key, LONGEST, Stamp, Table, write_rd};
    ///
    /// let mut table = Table::new(Group::of(1)?, 8)?;
    /// let answer = table.receive(100, 10, write_rd(Key(3), Stamp(60), &mut [0; LONGEST])?)?;
    /// assert_eq!(table.marks()[3], 60);
    /// # let _ = answer;
    /// # Ok::<(), stobbarel::Refusal>(())
    /// ```
    #[must_use]
    pub fn marks(&self) -> &[u64; KEYS] {
        self.marks.borrow()
    }

    /// What is held under a stamp, none where nothing is. Refused are a table that is not in order ([`Refusal::Table`]), and before it a capacity that is not 1
    /// to 255 ([`Refusal::Group`]).
    ///
    /// A gateway that finishes what another began has to send the transaction whole, and knows its stamp at best. A box's host reads it off the table:
    ///
    /// ```
    /// use stobbarel::{Group, Key, LONGEST, Stamp, Table, Transaction, View, Vote, read_tx, write_iv, write_pr};
    ///
    /// let group = Group::of(1)?;
    /// let mut table = Table::new(group, 8)?;
    /// let mut buffer = [0; LONGEST];
    /// let tx = Transaction::new(Stamp(50), [], [(Key(3), 7)]);
    /// let message = write_pr(&tx, &mut buffer)?;
    /// let answer = table.receive(100, 10, message)?;
    ///
    /// let held = table.held(Stamp(50))?.expect("the box voted on it");
    /// assert_eq!((held.vote, held.logged, held.decided, held.view), (Some(Vote::Commit), None, None, View(0)));
    /// // The bytes are what the box was sent; another gateway reads them, and goes on with its own messages.
    /// assert_eq!(held.body, &message[2..]);
    /// let whole = read_tx(held.body)?;
    /// assert_eq!(whole, tx);
    /// write_iv(group, &whole, &[(0, held.view)], &mut buffer)?;
    ///
    /// assert_eq!(table.held(Stamp(51))?, None);
    /// # let _ = answer;
    /// # Ok::<(), stobbarel::Refusal>(())
    /// ```
    pub fn held(&self, stamp: Stamp) -> Result<Option<Held<'_>>, Refusal> {
        Held::of(self.bytes(), self.capacity, stamp)
    }

    /// Its entries, in the order of their rows: for printers, and for whoever looks what is undecided.
    ///
    /// ```
    /// use stobbarel::{Group, Key, LONGEST, Stamp, Table, Transaction, read_tx, write_pr};
    ///
    /// let mut table = Table::new(Group::of(1)?, 8)?;
    /// for stamp in [50, 60] {
    ///     let tx = Transaction::new(Stamp(stamp), [], [(Key(3), 7)]);
    ///     let _ = table.receive(100, 10, write_pr(&tx, &mut [0; LONGEST])?)?;
    /// }
    /// let undecided = table.entries()?.filter(|entry| entry.decided.is_none());
    /// assert_eq!(undecided.map(|entry| read_tx(entry.body).unwrap().stamp).collect::<Vec<_>>(), [Stamp(50), Stamp(60)]);
    /// # Ok::<(), stobbarel::Refusal>(())
    /// ```
    pub fn entries(&self) -> Result<impl Iterator<Item = Held<'_>>, Refusal> {
        let table = self.bytes();
        let mut count = 0;
        // SAFETY: each pointer is to as many numbers as the function takes, and only the count is lent for writing.
        Refusal::or_done(unsafe { c::stobbarel_entries(table.as_ptr(), table.len(), self.capacity, &mut count) })?;
        Ok((0..count).filter_map(move |place| Held::at(table, self.capacity, place).ok().flatten()))
    }

    /// The low mark: what is at or below it, the box has let go. 0 before it is raised. Refused is a table that is too short for its head ([`Refusal::Table`]).
    ///
    /// ```
    /// use stobbarel::{Group, Stamp, Table};
    ///
    /// let mut table = Table::new(Group::of(1)?, 8)?;
    /// table.raise(Stamp(50))?;
    /// assert_eq!(table.low(), Ok(Stamp(50)));
    /// # Ok::<(), stobbarel::Refusal>(())
    /// ```
    pub fn low(&self) -> Result<Stamp, Refusal> {
        self.eight(LOW_AT).map(Stamp)
    }

    /// What the committed entries that left are folded into at a key, none where nothing is. Refused are a key above 511 ([`Refusal::Range`]) and a table that is
    /// too short for its head ([`Refusal::Table`]).
    ///
    /// ```
    /// use stobbarel::{Group, Key, Refusal, Table};
    ///
    /// let table = Table::new(Group::of(1)?, 8)?;
    /// assert_eq!((table.fold(Key(3)), table.fold(Key(512))), (Ok(None), Err(Refusal::Range)));
    /// # Ok::<(), Refusal>(())
    /// ```
    pub fn fold(&self, key: Key) -> Result<Option<Version>, Refusal> {
        let key = usize::from(key.0);
        if key >= KEYS {
            return Err(Refusal::Range);
        }
        Ok(Version::of(self.eight(FOLDS_AT + FOLD * key)?, self.eight(FOLDS_AT + FOLD * key + 8)?))
    }

    /// A number of the head.
    fn eight(&self, at: usize) -> Result<u64, Refusal> {
        let head = self.bytes().get(..HEAD).ok_or(Refusal::Table)?;
        Ok(u64::from_le_bytes(head[at..at + 8].try_into().expect("eight bytes")))
    }
}

impl<B: BorrowMut<[u8]>, M: BorrowMut<[u64; KEYS]>> Table<B, M> {
    /// One call, handed pointers to table, length, read marks and answer.
    fn answer(&mut self, call: impl FnOnce(*mut u8, usize, *mut u64, *mut u64)) -> Result<Answer, Refusal> {
        let mut row = [0; 5];
        let bytes = self.bytes.borrow_mut();
        call(bytes.as_mut_ptr(), bytes.len(), self.marks.borrow_mut().as_mut_ptr(), row.as_mut_ptr());
        answered(row).expect("the engine's five numbers are an answer")
    }

    // SAFETY of the two calls below: a pointer is to as many numbers as the function takes, and what is lent for writing is this table's own.

    /// Any of the six messages, by its mark. Call on a copy, make table and read marks durable together, and only then send the answer; after a refusal there
    /// is nothing to be written.
    ///
    /// ```
    /// use stobbarel::{Group, Refusal, Table};
    ///
    /// let mut table = Table::new(Group::of(1)?, 8)?;
    /// assert_eq!(table.receive(100, 10, b"PR"), Err(Refusal::Short));
    /// # Ok::<(), Refusal>(())
    /// ```
    pub fn receive(&mut self, clock: u64, delta: u64, message: &[u8]) -> Result<Answer, Refusal> {
        let (f, capacity) = (self.group.f().into(), self.capacity);
        self.answer(|t, n, k, row| unsafe { c::stobbarel_receive(t, n, k, f, capacity, clock, delta, message.as_ptr(), message.len(), row) })
    }

    /// The message of this mark; one with another mark is refused ([`Refusal::Mark`]).
    ///
    /// ```
    /// use stobbarel::{Group, Key, LONGEST, Mark, Refusal, Stamp, Table, write_rd};
    ///
    /// let mut table = Table::new(Group::of(1)?, 8)?;
    /// let mut buffer = [0; LONGEST];
    /// let message = write_rd(Key(3), Stamp(60), &mut buffer)?;
    /// assert_eq!(table.due(Mark::Pr, 100, 10, message), Err(Refusal::Mark));
    /// assert!(table.due(Mark::Rd, 100, 10, message).is_ok());
    /// # Ok::<(), Refusal>(())
    /// ```
    pub fn due(&mut self, mark: Mark, clock: u64, delta: u64, message: &[u8]) -> Result<Answer, Refusal> {
        let (mark, f, capacity) = (mark as u64, self.group.f().into(), self.capacity);
        self.answer(|t, n, k, row| unsafe { c::stobbarel_due(mark, t, n, k, f, capacity, clock, delta, message.as_ptr(), message.len(), row) })
    }

    /// Raises the low mark: of the entries at or below it the committed ones fold into one version and value for each key, the newest; those and the aborted ones
    /// leave, and their room is free again. Refused are a mark that is not above the present one ([`Refusal::Old`]), and one at or above something undecided
    /// ([`Refusal::Undecided`]); before them a table that is not in order ([`Refusal::Table`]). From then on a message with a stamp at or below it is refused
    /// ([`Refusal::Old`]), so that a commit that had not reached this box will not reach it any more: docs/KEEPERS.md says what to do first.
    ///
    /// ```
    /// use stobbarel::{Answer, Decision, Group, Key, LONGEST, Refusal, Stamp, Table, Transaction, Version, VoteList, write_dc, write_pr};
    ///
    /// let group = Group::of(1)?;
    /// let (mut table, mut buffer) = (Table::new(group, 1)?, [0; LONGEST]);
    /// let [first, next] = [50, 60].map(|stamp| Transaction::new(Stamp(stamp), [], [(Key(3), 7)]));
    /// let six = VoteList::votes(Decision::Commit, [0, 1, 2, 3, 4, 5].map(|number| (number, Decision::Commit)));
    /// assert_eq!(table.decide(100, 10, write_dc(group, &first, &six, &mut buffer)?), Ok(Answer::Done));
    /// assert_eq!(table.prepare(100, 10, write_pr(&next, &mut buffer)?), Err(Refusal::Full));
    ///
    /// table.raise(Stamp(50))?;
    /// assert!(table.prepare(100, 10, write_pr(&next, &mut buffer)?).is_ok());
    /// assert_eq!(table.fold(Key(3)), Ok(Some(Version { stamp: Stamp(50), value: 7 })));
    /// assert_eq!(table.prepare(100, 10, write_pr(&first, &mut buffer)?), Err(Refusal::Old));
    /// assert_eq!((table.raise(Stamp(50)), table.raise(Stamp(60))), (Err(Refusal::Old), Err(Refusal::Undecided)));
    /// # Ok::<(), Refusal>(())
    /// ```
    pub fn raise(&mut self, low: Stamp) -> Result<(), Refusal> {
        let (f, capacity, bytes) = (self.group.f().into(), self.capacity, self.bytes.borrow_mut());
        let mut row = [0; 5];
        // SAFETY: the pointers are to as many numbers as the function takes, and what is lent for writing is this table's own.
        unsafe { c::stobbarel_raise(bytes.as_mut_ptr(), bytes.len(), f, capacity, low.0, row.as_mut_ptr()) };
        match row {
            [8, 0, 0, 0, 0] => Ok(()),
            [6, number, 0, 0, 0] => Err(Refusal::told(number as u8)),
            _ => panic!("the engine's five numbers say no more than raised or refused"),
        }
    }

    /// PR: vote on a transaction.
    ///
    /// ```
    /// use stobbarel::{Answer, Group, Key, LONGEST, Stamp, Table, Transaction, Vote, write_pr};
    ///
    /// let mut table = Table::new(Group::of(1)?, 8)?;
    /// let tx = Transaction::new(Stamp(50), [], [(Key(3), 7)]);
    /// let answer = table.prepare(100, 10, write_pr(&tx, &mut [0; LONGEST])?)?;
    /// assert_eq!(answer, Answer::Voted(Vote::Commit, Some(0)));
    /// # Ok::<(), stobbarel::Refusal>(())
    /// ```
    pub fn prepare(&mut self, clock: u64, delta: u64, message: &[u8]) -> Result<Answer, Refusal> {
        self.due(Mark::Pr, clock, delta, message)
    }

    /// LG: log a decision, in view 0. A transaction that is not held takes an entry with this log and no vote; a PR for it later is voted on there.
    ///
    /// ```
    /// use stobbarel::{Answer, Decision, Group, Key, LONGEST, Stamp, Table, Transaction, View, VoteList, write_lg};
    ///
    /// let (group, tx) = (Group::of(1)?, Transaction::new(Stamp(50), [], [(Key(3), 7)]));
    /// let four = VoteList::votes(Decision::Commit, [0, 1, 2, 3].map(|number| (number, Decision::Commit)));
    /// let answer = Table::new(group, 8)?.log(100, 10, write_lg(group, &tx, &four, &mut [0; LONGEST])?)?;
    /// assert_eq!(answer, Answer::Logged(Decision::Commit, View(0)));
    /// # Ok::<(), stobbarel::Refusal>(())
    /// ```
    pub fn log(&mut self, clock: u64, delta: u64, message: &[u8]) -> Result<Answer, Refusal> {
        self.due(Mark::Lg, clock, delta, message)
    }

    /// DC: take a decision.
    ///
    /// ```
    /// use stobbarel::{Decision, Group, Key, LONGEST, Refusal, Stamp, Table, Transaction, VoteList, write_dc};
    ///
    /// let (group, tx) = (Group::of(1)?, Transaction::new(Stamp(50), [], [(Key(3), 7)]));
    /// let four = VoteList::votes(Decision::Commit, [0, 1, 2, 3].map(|number| (number, Decision::Commit)));
    /// let answer = Table::new(group, 8)?.decide(100, 10, write_dc(group, &tx, &four, &mut [0; LONGEST])?);
    /// assert_eq!(answer, Err(Refusal::TooFew(2)));
    /// # Ok::<(), Refusal>(())
    /// ```
    pub fn decide(&mut self, clock: u64, delta: u64, message: &[u8]) -> Result<Answer, Refusal> {
        self.due(Mark::Dc, clock, delta, message)
    }

    /// RD: what stands at a key; its read mark is raised.
    ///
    /// ```
    /// use stobbarel::{Answer, Group, Key, LONGEST, Stamp, Table, write_rd};
    ///
    /// let mut table = Table::new(Group::of(1)?, 8)?;
    /// let answer = table.read(100, 10, write_rd(Key(3), Stamp(60), &mut [0; LONGEST])?)?;
    /// assert_eq!(answer, Answer::Found { committed: None, undecided: None });
    /// # Ok::<(), stobbarel::Refusal>(())
    /// ```
    pub fn read(&mut self, clock: u64, delta: u64, message: &[u8]) -> Result<Answer, Refusal> {
        self.due(Mark::Rd, clock, delta, message)
    }

    /// IV: move on to the view that the listed views call for, and give an election answer.
    ///
    /// ```
    /// use stobbarel::{Group, Key, LONGEST, Refusal, Stamp, Table, Transaction, View, write_iv};
    ///
    /// let (group, tx) = (Group::of(1)?, Transaction::new(Stamp(50), [], [(Key(3), 7)]));
    /// // A box that has logged nothing has no election answer to give.
    /// let answer = Table::new(group, 8)?.invoke(100, 10, write_iv(group, &tx, &[(0, View(0))], &mut [0; LONGEST])?);
    /// assert_eq!(answer, Err(Refusal::NotLogged));
    /// # Ok::<(), Refusal>(())
    /// ```
    pub fn invoke(&mut self, clock: u64, delta: u64, message: &[u8]) -> Result<Answer, Refusal> {
        self.due(Mark::Iv, clock, delta, message)
    }

    /// LD: log what a view's leader decided, in that view.
    ///
    /// ```
    /// use stobbarel::{Answer, Decision, Election, Group, Key, LONGEST, Stamp, Table, Transaction, View, write_ld};
    ///
    /// let (group, tx, view) = (Group::of(1)?, Transaction::new(Stamp(50), [], [(Key(3), 7)]), View(1));
    /// let answers = [0, 1, 2, 3, 4].map(|number| (number, Decision::Abort, view));
    /// let election = Election { leader: 3, decision: Decision::Abort, view, answers: answers.into() };
    /// let answer = Table::new(group, 8)?.lead(100, 10, write_ld(group, &tx, &election, &mut [0; LONGEST])?)?;
    /// assert_eq!(answer, Answer::Logged(Decision::Abort, view));
    /// # Ok::<(), stobbarel::Refusal>(())
    /// ```
    pub fn lead(&mut self, clock: u64, delta: u64, message: &[u8]) -> Result<Answer, Refusal> {
        self.due(Mark::Ld, clock, delta, message)
    }
}

impl<B: Borrow<[u8]>, M> fmt::Debug for Table<B, M> {
    fn fmt(&self, f: &mut fmt::Formatter<'_>) -> fmt::Result {
        let entries = self.bytes.borrow().first();
        f.debug_struct("Table").field("group", &self.group).field("entries", &entries).field("capacity", &self.capacity).finish_non_exhaustive()
    }
}
