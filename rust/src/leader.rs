//! The fallback's other side, at a box's host: the leader of a view, and how fast a host lets views be raised.

use crate::election::{ElectionReply, ElectionSheet};
use crate::gateway::{Letter, Load, written};
use crate::records::{Transaction, read_tx, write_iv, write_ld};
use crate::refusal::Refusal;
use crate::terms::{Decision, Group, View};
use alloc::collections::BTreeMap;
use alloc::{vec, vec::Vec};
use core::fmt;

/// What a box does as a leader, for one transaction: election answers in, LDs out. A leader need not hold the transaction, so they come with the body. Whoever
/// calls has checked that an answer is signed by the box that it is heard from.
///
/// ```
/// use stobbarel::{Decision, Group, Key, LONGEST, Leader, Stamp, Transaction, View, write_tx};
///
/// let tx = Transaction::new(Stamp(50), [], [(Key(3), 7)]);
/// // Box 3 leads view 1 of stamp 50, and hears of five boxes what they have logged.
/// let mut leader = Leader::new(Group::of(1)?, 3, write_tx(&tx, &mut [0; LONGEST])?)?;
/// for number in 0..4 {
///     assert!(leader.hear(number, Decision::Commit, View(1)).is_empty());
/// }
/// assert_eq!(leader.hear(4, Decision::Abort, View(1)).len(), 6);
/// # Ok::<(), stobbarel::Refusal>(())
/// ```
#[derive(Clone)]
pub struct Leader {
    group: Group,
    number: u8,
    tx: Transaction,
    /// Of each box the answer of the highest view only.
    highest: BTreeMap<u8, (View, Decision)>,
    /// The LD of a view, once and for all.
    fixed: BTreeMap<View, Vec<u8>>,
}

impl Leader {
    /// This box as a leader for the transaction that a body is; refused where the body is not in order.
    ///
    /// ```
    /// use stobbarel::{Group, Leader, Refusal};
    ///
    /// assert_eq!(Leader::new(Group::of(1)?, 3, b"TX").unwrap_err(), Refusal::Short);
    /// # Ok::<(), Refusal>(())
    /// ```
    pub fn new(group: Group, number: u8, body: &[u8]) -> Result<Leader, Refusal> {
        let tx = read_tx(body)?;
        Ok(Leader { group, number, tx, highest: BTreeMap::new(), fixed: BTreeMap::new() })
    }

    /// An election answer. With 4f + 1 of one view that this box leads, the LD goes to all; whoever answers later gets the same one.
    ///
    /// ```
    /// use stobbarel::{Decision, Group, Key, LONGEST, Leader, Stamp, Transaction, View, write_tx};
    ///
    /// let tx = Transaction::new(Stamp(50), [], [(Key(3), 7)]);
    /// let mut leader = Leader::new(Group::of(1)?, 3, write_tx(&tx, &mut [0; LONGEST])?)?;
    /// assert!(leader.hear(0, Decision::Commit, View(1)).is_empty(), "one answer is too few");
    /// # Ok::<(), stobbarel::Refusal>(())
    /// ```
    #[must_use = "the letters are to be sent"]
    pub fn hear(&mut self, from: u8, decision: Decision, view: View) -> Vec<Letter> {
        if self.highest.get(&from).is_some_and(|(known, _)| *known > view) || from >= self.group.boxes() {
            return vec![];
        }
        let known = self.highest.entry(from).or_insert((view, decision));
        if known.0 < view {
            *known = (view, decision);
        }
        if let Some(ld) = self.fixed.get(&view) {
            return vec![Letter { to: from, load: Load::Message(ld.clone()) }];
        }
        let Some(ld) = self.decide(view) else { return vec![] };
        self.fixed.insert(view, ld.clone());
        self.group.numbers().map(|to| Letter { to, load: Load::Message(ld.clone()) }).collect()
    }

    /// The LD of a view, where enough boxes stand in it and this box leads it.
    fn decide(&self, view: View) -> Option<Vec<u8>> {
        let mut sheet = ElectionSheet::new(self.group, view);
        let taken = |(number, (of, decision)): (&u8, &(View, Decision))| sheet.take(*number, *decision, *of);
        let reached = self.highest.iter().map(taken).fold(false, |any, reply| any | (reply == Ok(ElectionReply::Taken { lacking: 0 })));
        let election = sheet.election(self.tx.stamp).ok().filter(|election| reached && election.leader == self.number)?;
        written(|out| write_ld(self.group, &self.tx, &election, out)).ok()
    }
}

impl fmt::Debug for Leader {
    fn fmt(&self, f: &mut fmt::Formatter<'_>) -> fmt::Result {
        let mut leader = f.debug_struct("Leader");
        leader.field("number", &self.number).field("stamp", &self.tx.stamp).field("heard", &self.highest.len()).finish_non_exhaustive()
    }
}

/// How fast a host lets the views of one transaction be raised. An IV that steps on from a view is held back until a pause after this host was first shown that
/// 3f + 1 boxes stand in it: else whoever never stops raising views outruns every leader. Bringing a box up to others, and the step from view 0, are never held
/// back.
///
/// ```
/// use stobbarel::{Group, Pace, View};
///
/// let mut pace = Pace::new(Group::of(1)?, 40);
/// let all = [0, 1, 2, 3, 4, 5].map(|number| (number, View(1)));
/// assert!(!pace.admits(&all, View(1), 10));
/// assert!(pace.admits(&all, View(1), 50));
/// # Ok::<(), stobbarel::Refusal>(())
/// ```
#[derive(Clone, Debug)]
pub struct Pace {
    group: Group,
    pause: u64,
    shown: BTreeMap<View, u64>,
}

/// A pause is doubled with each view so often.
const PAUSE_DOUBLINGS: u32 = 3;

impl Pace {
    /// The pause is several times what a leader needs: the way from a box to it and back.
    ///
    /// ```
    /// use stobbarel::{Group, Pace, View};
    ///
    /// assert!(Pace::new(Group::of(1)?, 40).admits(&[(0, View(0))], View(0), 0));
    /// # Ok::<(), stobbarel::Refusal>(())
    /// ```
    #[must_use]
    pub fn new(group: Group, pause: u64) -> Pace {
        Pace { group, pause, shown: BTreeMap::new() }
    }

    /// Whether an IV with these views, all of them signed, may go to a box in this view. Where not, [`question`] goes in its place.
    ///
    /// ```
    /// use stobbarel::{Group, Pace, View};
    ///
    /// let mut pace = Pace::new(Group::of(1)?, 40);
    /// let all = [0, 1, 2, 3, 4, 5].map(|number| (number, View(1)));
    /// assert!(!pace.admits(&all, View(1), 10));
    /// assert!(pace.admits(&all, View(1), 50));
    /// # Ok::<(), stobbarel::Refusal>(())
    /// ```
    #[must_use = "an IV that is not admitted is not to go to the box"]
    pub fn admits(&mut self, views: &[(u8, View)], current: View, now: u64) -> bool {
        let mut told: Vec<View> = views.iter().map(|(_, view)| *view).collect();
        told.sort_unstable_by(|a, b| b.cmp(a));
        let Some(common) = told.get(usize::from(self.group.commit_list()) - 1).copied() else { return true };
        if common == View(0) || common < current {
            return true;
        }
        let since = *self.shown.entry(common).or_insert(now);
        self.shown.retain(|view, _| *view >= current);
        now >= since.saturating_add(self.pause.saturating_mul(1 << u32::from(common.0 - 1).min(PAUSE_DOUBLINGS)))
    }
}

/// An IV that moves nobody: it lists one box, in view 0. The election answer tells the box's view.
///
/// ```
/// use stobbarel::{Group, Key, Message, Stamp, Transaction, View, question, read_message};
///
/// let (group, tx) = (Group::of(1)?, Transaction::new(Stamp(50), [], [(Key(3), 7)]));
/// let asked = question(group, &tx)?;
/// assert_eq!(read_message(group, &asked)?, Message::Invoke(tx, [(0, View(0))].into()));
/// # Ok::<(), stobbarel::Refusal>(())
/// ```
pub fn question(group: Group, tx: &Transaction) -> Result<Vec<u8>, Refusal> {
    written(|out| write_iv(group, tx, &[(0, View(0))], out))
}
