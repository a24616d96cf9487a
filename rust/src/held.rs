//! What a table holds under a stamp, and entry by entry.

use crate::answer::Vote;
use crate::refusal::Refusal;
use crate::short::Bytes;
use crate::terms::{Decision, Stamp, View, coded};
use core::fmt;
use stobbarel_sys as c;

/// What a table holds under a stamp: the first entry with it, as every message about that stamp finds it. [`Table::held`](crate::Table::held) tells it.
///
/// ```
/// use stobbarel::{Group, Key, LONGEST, Stamp, Table, Transaction, write_pr};
///
/// let mut table = Table::new(Group::of(1)?, 8)?;
/// let tx = Transaction::new(Stamp(50), [], [(Key(3), 7)]);
/// let answer = table.receive(100, 10, write_pr(&tx, &mut [0; LONGEST])?)?;
/// let held = table.held(Stamp(50))?.expect("the box voted on it");
/// assert_eq!(format!("{held:?}"), "Held { body: 22 bytes, vote: Some(Commit), decided: None, logged: None, view: View(0) }");
/// # let _ = answer;
/// # Ok::<(), stobbarel::Refusal>(())
/// ```
#[derive(Clone, Copy, PartialEq, Eq, Hash)]
pub struct Held<'a> {
    /// The transaction's bytes (TX), a part of the table; [`read_tx`](crate::read_tx) reads them.
    pub body: &'a [u8],
    /// What the box voted; none where only a log or a decision reached it.
    pub vote: Option<Vote>,
    /// What is decided.
    pub decided: Option<Decision>,
    /// What is logged, and the view that it was logged in.
    pub logged: Option<(Decision, View)>,
    /// The view that the box is in for this transaction.
    pub view: View,
}

impl<'a> Held<'a> {
    /// What these bytes hold as a table of that capacity.
    pub(crate) fn of(table: &'a [u8], capacity: u64, stamp: Stamp) -> Result<Option<Held<'a>>, Refusal> {
        let mut row = [0; 8];
        // SAFETY: each pointer is to as many numbers as the function takes, and only the row is lent for writing.
        Refusal::or_done(unsafe { c::stobbarel_held(table.as_ptr(), table.len(), capacity, stamp.0, row.as_mut_ptr()) })?;
        Ok(Held::named(table, row))
    }

    /// Their entry at a place, none where there are not so many.
    pub(crate) fn at(table: &'a [u8], capacity: u64, place: usize) -> Result<Option<Held<'a>>, Refusal> {
        let mut row = [0; 8];
        // SAFETY: as above.
        Refusal::or_done(unsafe { c::stobbarel_entry(table.as_ptr(), table.len(), capacity, place as u64, row.as_mut_ptr()) })?;
        Ok(Held::named(table, row))
    }

    /// The eight numbers by their names; none where no bytes are told, since a body has twelve at least.
    fn named(table: &'a [u8], [at, length, vote, reason, decided, logged, logged_in, view]: [u64; 8]) -> Option<Held<'a>> {
        let in_view = |view: u64| View(view.try_into().expect("a view has two bytes"));
        (length != 0).then(|| Held {
            body: &table[at as usize..][..length as usize],
            vote: Vote::of(vote, reason),
            decided: coded(decided),
            logged: coded(logged).map(|decision| (decision, in_view(logged_in))),
            view: in_view(view),
        })
    }
}

impl fmt::Debug for Held<'_> {
    fn fmt(&self, f: &mut fmt::Formatter<'_>) -> fmt::Result {
        let mut held = f.debug_struct("Held");
        held.field("body", &Bytes(self.body)).field("vote", &self.vote).field("decided", &self.decided);
        held.field("logged", &self.logged).field("view", &self.view).finish()
    }
}
