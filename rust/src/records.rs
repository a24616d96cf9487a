//! The records: written into a lent buffer, read from any bytes.

use crate::layout::LONGEST;
use crate::refusal::Refusal;
use crate::terms::{Decision, Group, Key, Kind, Mark, Stamp, View, coded};
use crate::upto::UpTo;
use stobbarel_sys as c;

/// The views that boxes told, by their numbers, which are strictly rising.
///
/// ```
/// use stobbarel::{View, Views};
///
/// assert_eq!(Views::from([(0, View(1))]).len(), 1);
/// ```
pub type Views = UpTo<(u8, View), 26>;

/// Up to eight reads and up to eight writes, at least one of either. Whether it is in order is told when it is written.
///
/// ```
/// use stobbarel::{Key, LONGEST, Refusal, Stamp, Transaction, write_pr};
///
/// let mut tx = Transaction::new(Stamp(60), [(Key(3), Stamp(50))], [(Key(3), 8)]);
/// assert!(write_pr(&tx, &mut [0; LONGEST]).is_ok());
/// tx.reads[0].1 = Stamp(70);
/// assert_eq!(write_pr(&tx, &mut [0; LONGEST]), Err(Refusal::Misbehaviour));
/// ```
#[derive(Clone, Debug, Default, PartialEq, Eq, Hash)]
pub struct Transaction {
    /// 1 or more.
    pub stamp: Stamp,
    /// Keys, strictly rising, each with the version that was read; version 0 is the start.
    pub reads: UpTo<(Key, Stamp), 8>,
    /// Keys, strictly rising, each with the value to write.
    pub writes: UpTo<(Key, u64), 8>,
}

impl Transaction {
    /// A transaction of these; arrays of up to eight are taken as they are.
    ///
    /// ```
    /// use stobbarel::{Key, Stamp, Transaction};
    ///
    /// let tx = Transaction::new(Stamp(50), [], [(Key(3), 7)]);
    /// assert_eq!((tx.reads.len(), tx.writes.len()), (0, 1));
    /// ```
    #[must_use]
    pub fn new(stamp: Stamp, reads: impl Into<UpTo<(Key, Stamp), 8>>, writes: impl Into<UpTo<(Key, u64), 8>>) -> Transaction {
        Transaction { stamp, reads: reads.into(), writes: writes.into() }
    }
}

/// What boxes answered: 1 to 26 of them, their numbers strictly rising. A tally sheet makes one of its answers ([`Sheet::list`](crate::Sheet::list)).
///
/// ```
/// use stobbarel::{Decision, Kind, VoteList};
///
/// assert_eq!(VoteList::votes(Decision::Commit, [(0, Decision::Commit)]).kind, Kind::Votes);
/// ```
#[derive(Clone, Debug, PartialEq, Eq, Hash)]
pub struct VoteList {
    /// Votes or logged decisions.
    pub kind: Kind,
    /// The decision that the list is for; only these answers are counted.
    pub decision: Decision,
    /// The view that all of the logs were given in. Votes have none: what stands here beside them is not written, and 0 is read.
    pub view: View,
    /// Box numbers and their answers.
    pub pairs: UpTo<(u8, Decision), 26>,
}

impl VoteList {
    /// A list of votes.
    ///
    /// ```
    /// use stobbarel::{Decision, View, VoteList};
    ///
    /// assert_eq!(VoteList::votes(Decision::Commit, [(0, Decision::Commit)]).view, View(0));
    /// ```
    #[must_use]
    pub fn votes(decision: Decision, pairs: impl Into<UpTo<(u8, Decision), 26>>) -> VoteList {
        VoteList { kind: Kind::Votes, decision, view: View(0), pairs: pairs.into() }
    }

    /// A list of logged decisions, all of them of this view.
    ///
    /// ```
    /// use stobbarel::{Decision, View, VoteList};
    ///
    /// assert_eq!(VoteList::logs(View(1), Decision::Commit, [(0, Decision::Commit)]).view, View(1));
    /// ```
    #[must_use]
    pub fn logs(view: View, decision: Decision, pairs: impl Into<UpTo<(u8, Decision), 26>>) -> VoteList {
        VoteList { kind: Kind::Logs, decision, view, pairs: pairs.into() }
    }
}

/// What a view's leader decides, and the election answers that it rests on; a box takes it with exactly 4f + 1 of them, all of its view, by the majority of
/// these. A leader's sheet makes one ([`ElectionSheet::election`](crate::ElectionSheet::election)).
///
/// ```
/// use stobbarel::{Decision, Election, Group, LONGEST, View, check_el, write_el};
///
/// let answers = [0, 1, 2, 3, 4].map(|number| (number, Decision::Commit, View(1)));
/// let election = Election { leader: 3, decision: Decision::Commit, view: View(1), answers: answers.into() };
/// let group = Group::of(1)?;
/// check_el(group, write_el(group, &election, &mut [0; LONGEST])?)?;
/// # Ok::<(), stobbarel::Refusal>(())
/// ```
#[derive(Clone, Debug, PartialEq, Eq, Hash)]
pub struct Election {
    /// The box that leads the view.
    pub leader: u8,
    /// What more than half of the answers say.
    pub decision: Decision,
    /// The view that it is for.
    pub view: View,
    /// Box numbers, strictly rising, what each has logged, and the view that it answered for.
    pub answers: UpTo<(u8, Decision, View), 26>,
}

/// A message by its values: what [`read_message`] reads, and [`write_message`] writes.
///
/// ```
/// use stobbarel::{Group, Key, LONGEST, Message, Stamp, read_message, write_message};
///
/// let (group, message) = (Group::of(1)?, Message::Read(Key(3), Stamp(60)));
/// assert_eq!(read_message(group, write_message(group, &message, &mut [0; LONGEST])?)?, message);
/// # Ok::<(), stobbarel::Refusal>(())
/// ```
#[derive(Clone, Debug, PartialEq, Eq, Hash)]
#[allow(clippy::large_enum_variant)] // there is no heap to put the large ones on
pub enum Message {
    /// PR: a transaction to vote on.
    Prepare(Transaction),
    /// LG: a decision to log.
    Log(Transaction, VoteList),
    /// DC: a decision.
    Decide(Transaction, VoteList),
    /// RD: what stands at a key, below a stamp.
    Read(Key, Stamp),
    /// IV: a transaction to be finished, and the views that boxes told, their numbers strictly rising.
    Invoke(Transaction, Views),
    /// LD: what a view's leader decided.
    Lead(Transaction, Election),
}

/// A transaction as it is lent.
struct LentTx {
    stamp: u64,
    r: usize,
    w: usize,
    reads: [u16; 8],
    versions: [u64; 8],
    writes: [u16; 8],
    values: [u64; 8],
}

impl LentTx {
    fn of(tx: &Transaction) -> LentTx {
        let (r, w) = (tx.reads.len(), tx.writes.len());
        let mut lent = LentTx { stamp: tx.stamp.0, r, w, reads: [0; 8], versions: [0; 8], writes: [0; 8], values: [0; 8] };
        for (i, (key, version)) in tx.reads.iter().enumerate() {
            (lent.reads[i], lent.versions[i]) = (key.0, version.0);
        }
        for (i, (key, value)) in tx.writes.iter().enumerate() {
            (lent.writes[i], lent.values[i]) = (key.0, *value);
        }
        lent
    }

    /// Keys and versions read, keys and values written.
    fn pointers(&self) -> (*const u16, *const u64, *const u16, *const u64) {
        (self.reads.as_ptr(), self.versions.as_ptr(), self.writes.as_ptr(), self.values.as_ptr())
    }
}

struct LentList {
    kind: u8,
    decision: u8,
    view: u16,
    count: usize,
    numbers: [u8; 26],
    answers: [u8; 26],
}

impl LentList {
    fn of(list: &VoteList) -> LentList {
        let (kind, decision, count) = (list.kind.into(), list.decision.into(), list.pairs.len());
        let mut lent = LentList { kind, decision, view: list.view.0, count, numbers: [0; 26], answers: [0; 26] };
        for (i, (number, answer)) in list.pairs.iter().enumerate() {
            (lent.numbers[i], lent.answers[i]) = (*number, (*answer).into());
        }
        lent
    }
}

/// The views of an IV, or the election answers of an LD.
struct LentViews {
    count: usize,
    numbers: [u8; 26],
    answers: [u8; 26],
    views: [u16; 26],
}

impl LentViews {
    /// A count above 26 is lent as it is, and refused.
    fn of(listed: impl ExactSizeIterator<Item = (u8, u8, View)>) -> LentViews {
        let mut lent = LentViews { count: listed.len(), numbers: [0; 26], answers: [0; 26], views: [0; 26] };
        for (i, (number, answer, view)) in listed.take(26).enumerate() {
            (lent.numbers[i], lent.answers[i], lent.views[i]) = (number, answer, view.0);
        }
        lent
    }

    fn told(views: &[(u8, View)]) -> LentViews {
        LentViews::of(views.iter().map(|(number, view)| (*number, 0, *view)))
    }

    fn elected(election: &Election) -> LentViews {
        LentViews::of(election.answers.iter().map(|(number, answer, view)| (*number, (*answer).into(), *view)))
    }

    /// Numbers, answers, views.
    fn pointers(&self) -> (*const u8, *const u8, *const u16) {
        (self.numbers.as_ptr(), self.answers.as_ptr(), self.views.as_ptr())
    }
}

/// What a writer put down at the front of a buffer.
fn written(out: &mut [u8], write: impl FnOnce(*mut u8, usize, &mut usize) -> u8) -> Result<&[u8], Refusal> {
    let mut length = 0;
    Refusal::or_done(write(out.as_mut_ptr(), out.len(), &mut length))?;
    Ok(&out[..length])
}

// SAFETY of each call below: a pointer is to as many numbers as the function takes, and only the buffer and the length are lent for writing.

/// A TX by itself. Each writer answers what it wrote, at the front of `out`; a refusal leaves `out` as it was.
///
/// ```
/// use stobbarel::{Key, LONGEST, Refusal, Stamp, Transaction, read_tx, write_tx};
///
/// let tx = Transaction::new(Stamp(50), [], [(Key(3), 7)]);
/// assert_eq!(read_tx(write_tx(&tx, &mut [0; LONGEST])?)?, tx);
/// assert_eq!(write_tx(&tx, &mut [0; 21]), Err(Refusal::Buffer));
/// # Ok::<(), Refusal>(())
/// ```
pub fn write_tx<'a>(tx: &Transaction, out: &'a mut [u8]) -> Result<&'a [u8], Refusal> {
    let x = LentTx::of(tx);
    let (k, v, l, u) = x.pointers();
    written(out, |o, n, length| unsafe { c::stobbarel_write_tx(x.stamp, x.r, x.w, k, v, l, u, o, n, length) })
}

/// A VL by itself.
///
/// ```
/// use stobbarel::{Decision, Group, LONGEST, VoteList, write_vl};
///
/// let list = VoteList::votes(Decision::Commit, [(4, Decision::Commit)]);
/// assert_eq!(write_vl(Group::of(1)?, &list, &mut [0; LONGEST])?, [b'V', b'L', 1, 1, 1, 4, 1]);
/// # Ok::<(), stobbarel::Refusal>(())
/// ```
pub fn write_vl<'a>(group: Group, list: &VoteList, out: &'a mut [u8]) -> Result<&'a [u8], Refusal> {
    let l = LentList::of(list);
    let (f, b, a) = (group.f().into(), l.numbers.as_ptr(), l.answers.as_ptr());
    written(out, |o, n, length| unsafe { c::stobbarel_write_vl(f, l.kind, l.decision, l.view, l.count, b, a, o, n, length) })
}

/// PR.
///
/// ```
/// use stobbarel::{Key, LONGEST, Stamp, Transaction, write_pr};
///
/// let tx = Transaction::new(Stamp(50), [], [(Key(3), 7)]);
/// assert!(write_pr(&tx, &mut [0; LONGEST])?.starts_with(b"PRTX"));
/// # Ok::<(), stobbarel::Refusal>(())
/// ```
pub fn write_pr<'a>(tx: &Transaction, out: &'a mut [u8]) -> Result<&'a [u8], Refusal> {
    let x = LentTx::of(tx);
    let (k, v, l, u) = x.pointers();
    written(out, |o, n, length| unsafe { c::stobbarel_write_pr(x.stamp, x.r, x.w, k, v, l, u, o, n, length) })
}

fn write_listed<'a>(mark: Mark, group: Group, tx: &Transaction, list: &VoteList, out: &'a mut [u8]) -> Result<&'a [u8], Refusal> {
    let (x, y) = (LentTx::of(tx), LentList::of(list));
    let (mark, f, (k, v, l, u), (b, a)) = (mark as u64, group.f().into(), x.pointers(), (y.numbers.as_ptr(), y.answers.as_ptr()));
    let (stamp, r, w, kind, decision, view, count) = (x.stamp, x.r, x.w, y.kind, y.decision, y.view, y.count);
    written(out, |o, n, length| unsafe { c::stobbarel_write_listed(mark, f, stamp, r, w, k, v, l, u, kind, decision, view, count, b, a, o, n, length) })
}

/// LG: its list is of votes, and has no view.
///
/// ```
/// use stobbarel::{Decision, Group, Key, LONGEST, Refusal, Stamp, Transaction, View, VoteList, write_lg};
///
/// let (group, tx) = (Group::of(1)?, Transaction::new(Stamp(50), [], [(Key(3), 7)]));
/// let logs = VoteList::logs(View(0), Decision::Commit, [(4, Decision::Commit)]);
/// assert_eq!(write_lg(group, &tx, &logs, &mut [0; LONGEST]), Err(Refusal::Code));
/// # Ok::<(), Refusal>(())
/// ```
pub fn write_lg<'a>(group: Group, tx: &Transaction, list: &VoteList, out: &'a mut [u8]) -> Result<&'a [u8], Refusal> {
    write_listed(Mark::Lg, group, tx, list, out)
}

/// DC.
///
/// ```
/// use stobbarel::{Decision, Group, Key, LONGEST, Stamp, Transaction, View, VoteList, write_dc};
///
/// let (group, tx) = (Group::of(1)?, Transaction::new(Stamp(50), [], [(Key(3), 7)]));
/// let logs = VoteList::logs(View(0), Decision::Commit, [(4, Decision::Commit)]);
/// assert!(write_dc(group, &tx, &logs, &mut [0; LONGEST])?.starts_with(b"DCTX"));
/// # Ok::<(), stobbarel::Refusal>(())
/// ```
pub fn write_dc<'a>(group: Group, tx: &Transaction, list: &VoteList, out: &'a mut [u8]) -> Result<&'a [u8], Refusal> {
    write_listed(Mark::Dc, group, tx, list, out)
}

/// A VS by itself: the views that boxes told.
///
/// ```
/// use stobbarel::{Group, LONGEST, View, write_vs};
///
/// assert_eq!(write_vs(Group::of(1)?, &[(4, View(258))], &mut [0; LONGEST])?, [b'V', b'S', 1, 4, 2, 1]);
/// # Ok::<(), stobbarel::Refusal>(())
/// ```
pub fn write_vs<'a>(group: Group, views: &[(u8, View)], out: &'a mut [u8]) -> Result<&'a [u8], Refusal> {
    let y = LentViews::told(views);
    let (f, (b, _, g)) = (group.f().into(), y.pointers());
    written(out, |o, n, length| unsafe { c::stobbarel_write_vs(f, y.count, b, g, o, n, length) })
}

/// An EL by itself: election answers, and what their leader decides.
///
/// ```
/// use stobbarel::{Decision, Election, Group, LONGEST, View, write_el};
///
/// let election = Election { leader: 3, decision: Decision::Abort, view: View(1), answers: [(4, Decision::Abort, View(1))].into() };
/// assert_eq!(write_el(Group::of(1)?, &election, &mut [0; LONGEST])?, [b'E', b'L', 3, 2, 1, 0, 1, 4, 2, 1, 0]);
/// # Ok::<(), stobbarel::Refusal>(())
/// ```
pub fn write_el<'a>(group: Group, election: &Election, out: &'a mut [u8]) -> Result<&'a [u8], Refusal> {
    let y = LentViews::elected(election);
    let (leader, decision, view) = (election.leader, election.decision.into(), election.view.0);
    let (f, (b, a, g)) = (group.f().into(), y.pointers());
    written(out, |o, n, length| unsafe { c::stobbarel_write_el(f, leader, decision, view, y.count, b, a, g, o, n, length) })
}

/// IV.
///
/// ```
/// use stobbarel::{Group, Key, LONGEST, Stamp, Transaction, View, write_iv};
///
/// let (group, tx) = (Group::of(1)?, Transaction::new(Stamp(50), [], [(Key(3), 7)]));
/// assert!(write_iv(group, &tx, &[(4, View(0))], &mut [0; LONGEST])?.starts_with(b"IVTX"));
/// # Ok::<(), stobbarel::Refusal>(())
/// ```
pub fn write_iv<'a>(group: Group, tx: &Transaction, views: &[(u8, View)], out: &'a mut [u8]) -> Result<&'a [u8], Refusal> {
    let (x, y) = (LentTx::of(tx), LentViews::told(views));
    let (f, (k, v, l, u), (b, _, g)) = (group.f().into(), x.pointers(), y.pointers());
    written(out, |o, n, length| unsafe { c::stobbarel_write_iv(f, x.stamp, x.r, x.w, k, v, l, u, y.count, b, g, o, n, length) })
}

/// LD.
///
/// ```
/// use stobbarel::{Decision, Election, Group, Key, LONGEST, Stamp, Transaction, View, write_ld};
///
/// let (group, tx) = (Group::of(1)?, Transaction::new(Stamp(50), [], [(Key(3), 7)]));
/// let election = Election { leader: 3, decision: Decision::Abort, view: View(1), answers: [(4, Decision::Abort, View(1))].into() };
/// assert!(write_ld(group, &tx, &election, &mut [0; LONGEST])?.starts_with(b"LDTX"));
/// # Ok::<(), stobbarel::Refusal>(())
/// ```
pub fn write_ld<'a>(group: Group, tx: &Transaction, election: &Election, out: &'a mut [u8]) -> Result<&'a [u8], Refusal> {
    let (x, y) = (LentTx::of(tx), LentViews::elected(election));
    let (leader, decision, view) = (election.leader, election.decision.into(), election.view.0);
    let (f, (k, v, l, u), (b, a, g)) = (group.f().into(), x.pointers(), y.pointers());
    written(out, |o, n, length| unsafe { c::stobbarel_write_ld(f, x.stamp, x.r, x.w, k, v, l, u, leader, decision, view, y.count, b, a, g, o, n, length) })
}

/// RD.
///
/// ```
/// use stobbarel::{Key, LONGEST, Stamp, write_rd};
///
/// assert_eq!(write_rd(Key(258), Stamp(60), &mut [0; LONGEST])?, [b'R', b'D', 2, 1, 60, 0, 0, 0, 0, 0, 0, 0]);
/// # Ok::<(), stobbarel::Refusal>(())
/// ```
pub fn write_rd(key: Key, stamp: Stamp, out: &mut [u8]) -> Result<&[u8], Refusal> {
    written(out, |o, n, length| unsafe { c::stobbarel_write_rd(key.0, stamp.0, o, n, length) })
}

/// Any of the six messages.
///
/// ```
/// use stobbarel::{Group, Key, LONGEST, Message, Stamp, Transaction, write_message};
///
/// let message = Message::Prepare(Transaction::new(Stamp(50), [], [(Key(3), 7)]));
/// assert!(write_message(Group::of(1)?, &message, &mut [0; LONGEST])?.starts_with(b"PR"));
/// # Ok::<(), stobbarel::Refusal>(())
/// ```
pub fn write_message<'a>(group: Group, message: &Message, out: &'a mut [u8]) -> Result<&'a [u8], Refusal> {
    match message {
        Message::Prepare(tx) => write_pr(tx, out),
        Message::Log(tx, list) => write_lg(group, tx, list, out),
        Message::Decide(tx, list) => write_dc(group, tx, list, out),
        Message::Read(key, stamp) => write_rd(*key, *stamp, out),
        Message::Invoke(tx, views) => write_iv(group, tx, views, out),
        Message::Lead(tx, election) => write_ld(group, tx, election, out),
    }
}

/// Whether these bytes are a TX in order.
///
/// ```
/// use stobbarel::{Refusal, check_tx};
///
/// assert_eq!(check_tx(b"TX"), Err(Refusal::Short));
/// ```
pub fn check_tx(bytes: &[u8]) -> Result<(), Refusal> {
    Refusal::or_done(unsafe { c::stobbarel_reading_tx(bytes.as_ptr(), bytes.len()) })
}

/// Whether these bytes are a VL in order.
///
/// ```
/// use stobbarel::{Group, check_vl};
///
/// assert_eq!(check_vl(Group::of(1)?, &[b'V', b'L', 1, 1, 1, 4, 1]), Ok(()));
/// # Ok::<(), stobbarel::Refusal>(())
/// ```
pub fn check_vl(group: Group, bytes: &[u8]) -> Result<(), Refusal> {
    Refusal::or_done(unsafe { c::stobbarel_reading_vl(group.f().into(), bytes.as_ptr(), bytes.len()) })
}

/// Whether these bytes are a VS in order.
///
/// ```
/// use stobbarel::{Group, check_vs};
///
/// assert_eq!(check_vs(Group::of(1)?, &[b'V', b'S', 1, 4, 2, 1]), Ok(()));
/// # Ok::<(), stobbarel::Refusal>(())
/// ```
pub fn check_vs(group: Group, bytes: &[u8]) -> Result<(), Refusal> {
    Refusal::or_done(unsafe { c::stobbarel_reading_vs(group.f().into(), bytes.as_ptr(), bytes.len()) })
}

/// Whether these bytes are an EL in order. Whether a box would take it depends on the transaction too.
///
/// ```
/// use stobbarel::{Group, check_el};
///
/// assert_eq!(check_el(Group::of(1)?, &[b'E', b'L', 3, 2, 1, 0, 1, 4, 2, 1, 0]), Ok(()));
/// # Ok::<(), stobbarel::Refusal>(())
/// ```
pub fn check_el(group: Group, bytes: &[u8]) -> Result<(), Refusal> {
    Refusal::or_done(unsafe { c::stobbarel_reading_el(group.f().into(), bytes.as_ptr(), bytes.len()) })
}

/// What an answer that was read says.
fn said(code: u64) -> Decision {
    coded(code).expect("what was read has an answer")
}

/// The head and the answers of a message that was read: an IV's has no leader, decision and answers.
struct ReadViews {
    head: [u64; 5],
    numbers: [u8; 26],
    answers: [u8; 26],
    views: [u16; 26],
}

impl ReadViews {
    fn of(group: Group, message: &[u8]) -> ReadViews {
        let mut read = ReadViews { head: [0; 5], numbers: [0; 26], answers: [0; 26], views: [0; 26] };
        let (h, b, a, g) = (read.head.as_mut_ptr(), read.numbers.as_mut_ptr(), read.answers.as_mut_ptr(), read.views.as_mut_ptr());
        // SAFETY: each pointer is to as many numbers as the function takes, and they do not overlap. The refusal was told before.
        unsafe { c::stobbarel_views(group.f().into(), message.as_ptr(), message.len(), h, b, a, g) };
        read
    }

    /// The views of an IV.
    fn told(&self) -> Views {
        UpTo::of(self.head[4] as usize, |i| (self.numbers[i], View(self.views[i])))
    }

    /// The election of an LD.
    fn election(&self) -> Election {
        let [_, leader, decision, view, count] = self.head;
        let answers = UpTo::of(count as usize, |i| (self.numbers[i], said(self.answers[i].into()), View(self.views[i])));
        Election { leader: leader as u8, decision: said(decision), view: View(view as u16), answers }
    }
}

/// The values of a message that was read.
#[derive(Default)]
struct Fields {
    head: [u64; 9],
    reads: [u16; 8],
    versions: [u64; 8],
    writes: [u16; 8],
    values: [u64; 8],
    numbers: [u8; 26],
    answers: [u8; 26],
}

impl Fields {
    fn of(group: Group, message: &[u8]) -> Result<Fields, Refusal> {
        let mut read = Fields::default();
        let (m, n, h) = (message.as_ptr(), message.len(), read.head.as_mut_ptr());
        let (k, v, l, u) = (read.reads.as_mut_ptr(), read.versions.as_mut_ptr(), read.writes.as_mut_ptr(), read.values.as_mut_ptr());
        let (b, a) = (read.numbers.as_mut_ptr(), read.answers.as_mut_ptr());
        // SAFETY: each pointer is to as many numbers as the function takes, and they do not overlap.
        Refusal::or_done(unsafe { c::stobbarel_fields(group.f().into(), m, n, h, k, v, l, u, b, a) })?;
        Ok(read)
    }

    fn transaction(&self) -> Transaction {
        let [_, stamp, r, w, ..] = self.head;
        let reads = UpTo::of(r as usize, |i| (Key(self.reads[i]), Stamp(self.versions[i])));
        Transaction { stamp: Stamp(stamp), reads, writes: UpTo::of(w as usize, |i| (Key(self.writes[i]), self.values[i])) }
    }

    fn list(&self) -> VoteList {
        let [.., kind, decision, view, count] = self.head;
        let pairs = UpTo::of(count as usize, |i| (self.numbers[i], said(self.answers[i].into())));
        VoteList { kind: coded(kind).expect("a list has a kind"), decision: said(decision), view: View(view as u16), pairs }
    }
}

/// A message's values. Without a clock, so never [`Refusal::Ahead`].
///
/// ```
/// use stobbarel::{Group, Refusal, read_message};
///
/// assert_eq!(read_message(Group::of(1)?, b"PRTX"), Err(Refusal::Short));
/// # Ok::<(), Refusal>(())
/// ```
pub fn read_message(group: Group, message: &[u8]) -> Result<Message, Refusal> {
    let read = Fields::of(group, message)?;
    let [mark, stamp, _, _, key, ..] = read.head;
    Ok(match coded(mark).expect("a message that was read has a mark") {
        Mark::Pr => Message::Prepare(read.transaction()),
        Mark::Lg => Message::Log(read.transaction(), read.list()),
        Mark::Dc => Message::Decide(read.transaction(), read.list()),
        Mark::Rd => Message::Read(Key(key as u16), Stamp(stamp)),
        Mark::Iv => Message::Invoke(read.transaction(), ReadViews::of(group, message).told()),
        Mark::Ld => Message::Lead(read.transaction(), ReadViews::of(group, message).election()),
    })
}

/// A TX by itself, such as a table holds ([`Table::held`](crate::Table::held)), read to its transaction.
///
/// ```
/// use stobbarel::{Key, LONGEST, Stamp, Transaction, read_tx, write_tx};
///
/// let tx = Transaction::new(Stamp(50), [], [(Key(3), 7)]);
/// assert_eq!(read_tx(write_tx(&tx, &mut [0; LONGEST])?)?, tx);
/// # Ok::<(), stobbarel::Refusal>(())
/// ```
pub fn read_tx(bytes: &[u8]) -> Result<Transaction, Refusal> {
    check_tx(bytes)?;
    // A PR is its mark and a TX, and its reading is one in every group.
    let mut buffer = [0; LONGEST];
    let message = &mut buffer[..2 + bytes.len()];
    message[..2].copy_from_slice(b"PR");
    message[2..].copy_from_slice(bytes);
    Ok(Fields::of(Group::of(1)?, message)?.transaction())
}

/// The transaction's bytes inside a message, as they stand; none of a refused message, or an RD.
///
/// ```
/// use stobbarel::{Group, Key, LONGEST, Stamp, Transaction, tx_part, write_pr};
///
/// let (group, tx) = (Group::of(1)?, Transaction::new(Stamp(50), [], [(Key(3), 7)]));
/// let mut buffer = [0; LONGEST];
/// let message = write_pr(&tx, &mut buffer)?;
/// assert_eq!(tx_part(group, message), Some(&message[2..]));
/// assert_eq!(tx_part(group, b"RD"), None);
/// # Ok::<(), stobbarel::Refusal>(())
/// ```
#[must_use]
pub fn tx_part(group: Group, message: &[u8]) -> Option<&[u8]> {
    // SAFETY: the pointer is to the message's bytes.
    let length = unsafe { c::stobbarel_part(group.f().into(), message.as_ptr(), message.len()) };
    (length > 0).then(|| &message[2..2 + length])
}
