//! A gateway's procedure for one transaction, without input or output: boxes' answers and the passing of time in, messages out, until there is a proof and the
//! boxes have it. Answers are counted by the sheets and messages written by the writers of this package. docs/GATEWAY.md has it in prose.
//!
//! Whoever calls has checked, before an answer is heard, that it comes from the box that it is heard from, and each signature beside a DC that is handed over.

use crate::answer::{Answer, Vote};
use crate::desk::Question;
use crate::election::ViewSheet;
use crate::layout::LONGEST;
use crate::records::{Message, Transaction, Views, read_message, tx_part, write_dc, write_iv, write_lg, write_pr, write_tx};
use crate::refusal::Refusal;
use crate::sheet::{Reply, Sheet};
use crate::short::Bytes;
use crate::table::Table;
use crate::terms::{Decision, Group, Reason, View};
use alloc::collections::BTreeMap;
use alloc::{vec, vec::Vec};
use core::fmt;

/// How long a gateway waits, in ticks of whatever clock its caller has.
///
/// ```
/// // A way to a box and back takes 8 ticks here.
/// let timing = stobbarel::Timing { patience: 10, first_try: 20, doublings: 10, farewells: 5 };
/// assert!(timing.first_try > timing.patience);
/// ```
#[derive(Clone, Copy, Debug, PartialEq, Eq, Hash)]
pub struct Timing {
    /// For votes, and again for logs, before it goes on with what is there: somewhat longer than the way to a box and back.
    pub patience: u64,
    /// For the first try of the fallback: a way to the boxes, from there to the leader, back to the boxes, and from there. Each further try has twice the time.
    pub first_try: u64,
    /// How often a time is doubled at most.
    pub doublings: u32,
    /// How often a DC is sent again to a box that has not answered it.
    pub farewells: u32,
}

/// A PR or an LG sent again has at most eight times the first wait: what it lacks may come at any moment.
const PATIENCE_DOUBLINGS: u32 = 3;

impl Timing {
    fn grown(self, base: u64, tries: u32) -> u64 {
        let times = 1u64.checked_shl(tries.min(self.doublings)).unwrap_or(u64::MAX);
        base.saturating_mul(times)
    }
}

/// Something for a box.
///
/// ```
/// use stobbarel::{Letter, Load};
///
/// let letter = Letter { to: 4, load: Load::Message(b"RD and ten bytes".to_vec()) };
/// assert_eq!(format!("{letter:?}"), "Letter { to: 4, load: Message(16 bytes) }");
/// ```
#[derive(Clone, Debug, PartialEq, Eq, Hash)]
#[must_use = "it is to be sent"]
pub struct Letter {
    /// The box's number.
    pub to: u8,
    /// What it is.
    pub load: Load,
}

/// What a letter is.
///
/// ```
/// use stobbarel::{Load, Question, Stamp};
///
/// assert!(matches!(Load::Ask(Question::Held(Stamp(50))), Load::Ask(_)));
/// ```
#[derive(Clone, PartialEq, Eq, Hash)]
pub enum Load {
    /// One of the six messages, for the box's engine.
    Message(Vec<u8>),
    /// A question for the box's host.
    Ask(Question),
}

impl fmt::Debug for Load {
    fn fmt(&self, f: &mut fmt::Formatter<'_>) -> fmt::Result {
        match self {
            Load::Message(message) => f.debug_tuple("Message").field(&Bytes(message)).finish(),
            Load::Ask(question) => f.debug_tuple("Ask").field(question).finish(),
        }
    }
}

/// A message put down in as many bytes as it has.
pub(crate) fn written(write: impl FnOnce(&mut [u8]) -> Result<&[u8], Refusal>) -> Result<Vec<u8>, Refusal> {
    write(&mut [0; LONGEST]).map(<[u8]>::to_vec)
}

#[derive(Clone, Copy, Debug, PartialEq, Eq, Hash)]
enum Step {
    Vote,
    Log,
    Fall,
    Done,
}

/// One transaction on its way to a proof. [`Desk`](crate::Desk) has several, and finishes what stands in their way.
///
/// ```
/// use stobbarel::{Decision, Gateway, Group, Key, Load, Stamp, Table, Timing, Transaction};
///
/// let group = Group::of(1)?;
/// let mut boxes = vec![Table::new(group, 8)?; 6];
/// let tx = Transaction::new(Stamp(50), [], [(Key(3), 7)]);
/// let mut gateway = Gateway::new(group, tx, Timing { patience: 10, first_try: 20, doublings: 10, farewells: 5 })?;
/// // The six PRs; the answers of the boxes make six DCs.
/// let mut letters = gateway.start(0);
/// while let Some(letter) = letters.pop() {
///     let Load::Message(message) = letter.load else { continue };
///     let answer = boxes[usize::from(letter.to)].receive(100, 10, &message);
///     letters.extend(gateway.hear(letter.to, answer, None, 1));
/// }
/// assert_eq!(gateway.outcome(), Some(Decision::Commit));
/// assert!(gateway.finished());
/// # Ok::<(), stobbarel::Refusal>(())
/// ```
#[derive(Clone)]
pub struct Gateway {
    group: Group,
    timing: Timing,
    tx: Transaction,
    body: Vec<u8>,
    step: Step,
    /// When `tick` has something to do, and how often it had in this step.
    due: u64,
    tries: u32,
    /// The first wait for votes is over.
    late: bool,
    /// The first vote of each box, and what it lacks.
    votes: Sheet,
    lacks: Reply,
    /// Boxes that wait; that cannot take the body (9, 13, 18); that voted abort for an entry that may be undecided (2, 3, 4).
    waiting: u32,
    barred: u32,
    clashed: u32,
    /// The one LG that this gateway logs with.
    lg: Vec<u8>,
    /// Logs by view, never thrown away, what each sheet lacks, and the boxes that told any.
    logs: BTreeMap<View, (Sheet, Reply)>,
    logged: u32,
    /// The highest view that each box told, 0 before it told one.
    views: ViewSheet,
    /// What the IV of this try calls for, the IV, and what boxes said to it: the view, or that they have no log (22).
    view: View,
    iv: Vec<u8>,
    spoken: BTreeMap<u8, View>,
    unlogged: u32,
    levelled: u32,
    falls: u32,
    /// The DC.
    proof: Option<(Decision, Vec<u8>)>,
    /// Boxes that need it no more: they answered Done, Decided, 9, 12 or 18.
    settled: u32,
}

// ---- what the caller sees

impl Gateway {
    /// For one transaction; refused where it is not in order.
    ///
    /// ```
    /// # use stobbarel::{Gateway, Group, Key, Stamp, Timing, Transaction};
    /// # let tx = Transaction::new(Stamp(50), [], [(Key(3), 7)]);
    /// # let timing = Timing { patience: 10, first_try: 20, doublings: 10, farewells: 5 };
    /// let gateway = Gateway::new(Group::of(1)?, tx, timing)?;
    /// assert_eq!(gateway.outcome(), None);
    /// let empty = Transaction::new(Stamp(50), [], []);
    /// assert_eq!(Gateway::new(Group::of(1)?, empty, timing).unwrap_err(), stobbarel::Refusal::Count);
    /// # Ok::<(), stobbarel::Refusal>(())
    /// ```
    pub fn new(group: Group, tx: Transaction, timing: Timing) -> Result<Gateway, Refusal> {
        let body = written(|out| write_tx(&tx, out))?;
        let mut views = ViewSheet::new(group);
        group.numbers().try_for_each(|number| views.tell(number, View(0)))?;
        let (commit_list, abort_list) = (group.commit_list(), group.abort_list());
        let lacks = Reply::Votes { commit_list, abort_list, commit_proof: group.commit_proof(), abort_proof: group.abort_proof() };
        Ok(Gateway {
            group,
            timing,
            tx,
            body,
            step: Step::Vote,
            due: 0,
            tries: 0,
            late: false,
            votes: Sheet::votes(group),
            lacks,
            waiting: 0,
            barred: 0,
            clashed: 0,
            lg: vec![],
            logs: BTreeMap::new(),
            logged: 0,
            views,
            view: View(0),
            iv: vec![],
            spoken: BTreeMap::new(),
            unlogged: 0,
            levelled: 0,
            falls: 0,
            proof: None,
            settled: 0,
        })
    }

    /// The first PRs.
    ///
    /// ```
    /// # use stobbarel::{Gateway, Group, Key, Stamp, Timing, Transaction};
    /// # let tx = Transaction::new(Stamp(50), [], [(Key(3), 7)]);
    /// # let timing = Timing { patience: 10, first_try: 20, doublings: 10, farewells: 5 };
    /// let mut gateway = Gateway::new(Group::of(1)?, tx, timing)?;
    /// assert_eq!(gateway.start(0).len(), 6);
    /// # Ok::<(), stobbarel::Refusal>(())
    /// ```
    #[must_use = "the letters are to be sent"]
    pub fn start(&mut self, now: u64) -> Vec<Letter> {
        self.due = now.saturating_add(self.timing.patience);
        self.letters(self.all(), &self.pr())
    }

    /// A box answered a message that has this body. With Decided, and with nothing else, it hands over the DC that it took.
    ///
    /// ```
    /// # use stobbarel::{Gateway, Group, Key, Stamp, Timing, Transaction};
    /// # let tx = Transaction::new(Stamp(50), [], [(Key(3), 7)]);
    /// # let timing = Timing { patience: 10, first_try: 20, doublings: 10, farewells: 5 };
    /// let mut gateway = Gateway::new(Group::of(1)?, tx, timing)?;
    /// let prs = gateway.start(0);
    /// let answer = Ok(stobbarel::Answer::Voted(stobbarel::Vote::Commit, Some(0)));
    /// assert!(gateway.hear(0, answer, None, 1).is_empty(), "five more are to be heard");
    /// # let _ = prs;
    /// # Ok::<(), stobbarel::Refusal>(())
    /// ```
    #[must_use = "the letters are to be sent"]
    pub fn hear(&mut self, from: u8, answer: Result<Answer, Refusal>, handed: Option<&[u8]>, now: u64) -> Vec<Letter> {
        if from >= self.group.boxes() {
            return vec![];
        }
        let (bit, mut out) = (1 << from, vec![]);
        match answer {
            Ok(Answer::Voted(vote, _)) => self.voted(from, vote),
            Ok(Answer::Logged(decision, view)) => out = self.logged(from, decision, view),
            Ok(Answer::Elected { view, .. }) => self.elected(from, view),
            Ok(Answer::Decided(_)) => {
                self.settled |= bit;
                handed.into_iter().for_each(|dc| self.handed(dc));
            }
            Ok(Answer::Done) => self.settled |= bit,
            Err(Refusal::OtherBody | Refusal::Contradiction | Refusal::Old) if self.step == Step::Done => self.settled |= bit,
            Err(Refusal::OtherBody | Refusal::Full) => self.barred |= bit,
            // it has let the transaction go, and its host may have kept the proof
            Err(Refusal::Old) => {
                self.barred |= bit;
                handed.into_iter().for_each(|dc| self.handed(dc));
            }
            Err(Refusal::NotLogged) if self.step == Step::Fall => {
                self.unlogged |= bit;
                out = self.letters(bit, &self.lg.clone());
            }
            _ => {}
        }
        out.extend(self.advance(now));
        out
    }

    /// A DC for this body that some box took, with its signatures, is a proof.
    ///
    /// ```
    /// # use stobbarel::{Gateway, Group, Key, Stamp, Timing, Transaction};
    /// # let tx = Transaction::new(Stamp(50), [], [(Key(3), 7)]);
    /// # let timing = Timing { patience: 10, first_try: 20, doublings: 10, farewells: 5 };
    /// use stobbarel::{Decision, LONGEST, VoteList, write_dc};
    ///
    /// let group = Group::of(1)?;
    /// let six = VoteList::votes(Decision::Commit, [0, 1, 2, 3, 4, 5].map(|number| (number, Decision::Commit)));
    /// let mut buffer = [0; LONGEST];
    /// let dc = write_dc(group, &tx, &six, &mut buffer)?;
    /// let mut gateway = Gateway::new(group, tx.clone(), timing)?;
    /// assert_eq!(gateway.hand(dc, 1).len(), 6, "it goes to all boxes");
    /// assert_eq!(gateway.outcome(), Some(Decision::Commit));
    /// # Ok::<(), stobbarel::Refusal>(())
    /// ```
    #[must_use = "the letters are to be sent"]
    pub fn hand(&mut self, dc: &[u8], now: u64) -> Vec<Letter> {
        self.handed(dc);
        self.advance(now)
    }

    /// Time has passed: what was not answered is sent again, or the gateway goes on without it.
    ///
    /// ```
    /// # use stobbarel::{Gateway, Group, Key, Stamp, Timing, Transaction};
    /// # let tx = Transaction::new(Stamp(50), [], [(Key(3), 7)]);
    /// # let timing = Timing { patience: 10, first_try: 20, doublings: 10, farewells: 5 };
    /// let mut gateway = Gateway::new(Group::of(1)?, tx, timing)?;
    /// let prs = gateway.start(0);
    /// assert!(gateway.tick(9).is_empty());
    /// assert_eq!(gateway.tick(10), prs, "nobody has answered");
    /// # Ok::<(), stobbarel::Refusal>(())
    /// ```
    #[must_use = "the letters are to be sent"]
    pub fn tick(&mut self, now: u64) -> Vec<Letter> {
        if self.due().is_none_or(|due| now < due) {
            return vec![];
        }
        self.tries += 1;
        match self.step {
            Step::Vote => self.vote_again(now),
            Step::Log => self.log_again(now),
            Step::Fall => self.fall_again(now),
            Step::Done => {
                self.due = now.saturating_add(self.timing.grown(self.timing.patience, self.tries));
                let dc = self.proof().expect("a step after the proof").to_vec();
                self.letters(self.all() & !self.settled, &dc)
            }
        }
    }

    /// When `tick` has something to do; none where nothing is left to do.
    ///
    /// ```
    /// # use stobbarel::{Gateway, Group, Key, Stamp, Timing, Transaction};
    /// # let tx = Transaction::new(Stamp(50), [], [(Key(3), 7)]);
    /// # let timing = Timing { patience: 10, first_try: 20, doublings: 10, farewells: 5 };
    /// let mut gateway = Gateway::new(Group::of(1)?, tx, timing)?;
    /// let prs = gateway.start(0);
    /// assert_eq!(gateway.due(), Some(10));
    /// # let _ = prs;
    /// # Ok::<(), stobbarel::Refusal>(())
    /// ```
    #[must_use]
    pub fn due(&self) -> Option<u64> {
        (!self.finished()).then_some(self.due)
    }

    /// A PR again to a box that has not voted: what it waits for is decided there.
    ///
    /// ```
    /// # use stobbarel::{Gateway, Group, Key, Stamp, Timing, Transaction};
    /// # let tx = Transaction::new(Stamp(50), [], [(Key(3), 7)]);
    /// # let timing = Timing { patience: 10, first_try: 20, doublings: 10, farewells: 5 };
    /// let mut gateway = Gateway::new(Group::of(1)?, tx, timing)?;
    /// assert_eq!(gateway.prompt(4).len(), 1);
    /// # Ok::<(), stobbarel::Refusal>(())
    /// ```
    #[must_use = "the letters are to be sent"]
    pub fn prompt(&self, to: u8) -> Vec<Letter> {
        let unheard = self.all() & 1u32.checked_shl(to.into()).unwrap_or(0) & !self.voters();
        if self.step == Step::Vote { self.letters(unheard, &self.pr()) } else { vec![] }
    }

    /// The transaction.
    ///
    /// ```
    /// # use stobbarel::{Gateway, Group, Key, Stamp, Timing, Transaction};
    /// # let tx = Transaction::new(Stamp(50), [], [(Key(3), 7)]);
    /// # let timing = Timing { patience: 10, first_try: 20, doublings: 10, farewells: 5 };
    /// let gateway = Gateway::new(Group::of(1)?, tx.clone(), timing)?;
    /// assert_eq!(gateway.transaction(), &tx);
    /// # Ok::<(), stobbarel::Refusal>(())
    /// ```
    #[must_use]
    pub fn transaction(&self) -> &Transaction {
        &self.tx
    }

    /// Its bytes, the TX.
    ///
    /// ```
    /// # use stobbarel::{Gateway, Group, Key, Stamp, Timing, Transaction};
    /// # let tx = Transaction::new(Stamp(50), [], [(Key(3), 7)]);
    /// # let timing = Timing { patience: 10, first_try: 20, doublings: 10, farewells: 5 };
    /// let gateway = Gateway::new(Group::of(1)?, tx, timing)?;
    /// assert!(gateway.body().starts_with(b"TX"));
    /// # Ok::<(), stobbarel::Refusal>(())
    /// ```
    #[must_use]
    pub fn body(&self) -> &[u8] {
        &self.body
    }

    /// What it has a proof of.
    ///
    /// ```
    /// # use stobbarel::{Gateway, Group, Key, Stamp, Timing, Transaction};
    /// # let tx = Transaction::new(Stamp(50), [], [(Key(3), 7)]);
    /// # let timing = Timing { patience: 10, first_try: 20, doublings: 10, farewells: 5 };
    /// let gateway = Gateway::new(Group::of(1)?, tx, timing)?;
    /// assert_eq!(gateway.outcome(), None);
    /// # Ok::<(), stobbarel::Refusal>(())
    /// ```
    #[must_use]
    pub fn outcome(&self) -> Option<Decision> {
        self.proof.as_ref().map(|(decision, _)| *decision)
    }

    /// The proof, as the DC that boxes take.
    ///
    /// ```
    /// # use stobbarel::{Gateway, Group, Key, Stamp, Timing, Transaction};
    /// # let tx = Transaction::new(Stamp(50), [], [(Key(3), 7)]);
    /// # let timing = Timing { patience: 10, first_try: 20, doublings: 10, farewells: 5 };
    /// let gateway = Gateway::new(Group::of(1)?, tx, timing)?;
    /// assert_eq!(gateway.proof(), None);
    /// # Ok::<(), stobbarel::Refusal>(())
    /// ```
    #[must_use]
    pub fn proof(&self) -> Option<&[u8]> {
        self.proof.as_ref().map(|(_, dc)| &dc[..])
    }

    /// Every box has the proof, or was sent it as often as is due.
    ///
    /// ```
    /// # use stobbarel::{Gateway, Group, Key, Stamp, Timing, Transaction};
    /// # let tx = Transaction::new(Stamp(50), [], [(Key(3), 7)]);
    /// # let timing = Timing { patience: 10, first_try: 20, doublings: 10, farewells: 5 };
    /// let gateway = Gateway::new(Group::of(1)?, tx, timing)?;
    /// assert!(!gateway.finished());
    /// # Ok::<(), stobbarel::Refusal>(())
    /// ```
    #[must_use]
    pub fn finished(&self) -> bool {
        self.step == Step::Done && (self.settled == self.all() || self.tries >= self.timing.farewells)
    }

    /// Some box waits, and for all the time that has passed no list can be made: another transaction is in the way.
    ///
    /// ```
    /// # use stobbarel::{Gateway, Group, Key, Stamp, Timing, Transaction};
    /// # let tx = Transaction::new(Stamp(50), [], [(Key(3), 7)]);
    /// # let timing = Timing { patience: 10, first_try: 20, doublings: 10, farewells: 5 };
    /// let gateway = Gateway::new(Group::of(1)?, tx, timing)?;
    /// assert!(!gateway.held_up());
    /// # Ok::<(), stobbarel::Refusal>(())
    /// ```
    #[must_use]
    pub fn held_up(&self) -> bool {
        self.step == Step::Vote && self.late && self.waiting != 0
    }

    /// Some box waits for another transaction, and votes are still gathered.
    ///
    /// ```
    /// # use stobbarel::{Gateway, Group, Key, Stamp, Timing, Transaction};
    /// # let tx = Transaction::new(Stamp(50), [], [(Key(3), 7)]);
    /// # let timing = Timing { patience: 10, first_try: 20, doublings: 10, farewells: 5 };
    /// let mut gateway = Gateway::new(Group::of(1)?, tx, timing)?;
    /// let more = gateway.hear(0, Ok(stobbarel::Answer::Voted(stobbarel::Vote::Waiting, Some(2))), None, 1);
    /// assert!(gateway.waits() && more.is_empty());
    /// # Ok::<(), stobbarel::Refusal>(())
    /// ```
    #[must_use]
    pub fn waits(&self) -> bool {
        self.step == Step::Vote && self.waiting != 0
    }

    /// Some box voted abort for another transaction (2, 3, 4), which may be undecided.
    ///
    /// ```
    /// # use stobbarel::{Gateway, Group, Key, Stamp, Timing, Transaction};
    /// # let tx = Transaction::new(Stamp(50), [], [(Key(3), 7)]);
    /// # let timing = Timing { patience: 10, first_try: 20, doublings: 10, farewells: 5 };
    /// let mut gateway = Gateway::new(Group::of(1)?, tx, timing)?;
    /// let vote = stobbarel::Vote::Abort(stobbarel::Reason::Overwritten);
    /// let more = gateway.hear(0, Ok(stobbarel::Answer::Voted(vote, Some(2))), None, 1);
    /// assert!(gateway.clashed() && more.is_empty());
    /// # Ok::<(), stobbarel::Refusal>(())
    /// ```
    #[must_use]
    pub fn clashed(&self) -> bool {
        self.clashed != 0
    }

    /// How many tries of the fallback there were, the first included; 0 without it.
    ///
    /// ```
    /// # use stobbarel::{Gateway, Group, Key, Stamp, Timing, Transaction};
    /// # let tx = Transaction::new(Stamp(50), [], [(Key(3), 7)]);
    /// # let timing = Timing { patience: 10, first_try: 20, doublings: 10, farewells: 5 };
    /// let gateway = Gateway::new(Group::of(1)?, tx, timing)?;
    /// assert_eq!(gateway.falls(), 0);
    /// # Ok::<(), stobbarel::Refusal>(())
    /// ```
    #[must_use]
    pub fn falls(&self) -> u32 {
        self.falls
    }
}

// ---- what it does

impl Gateway {
    fn all(&self) -> u32 {
        (1 << self.group.boxes()) - 1
    }

    fn letters(&self, to: u32, message: &[u8]) -> Vec<Letter> {
        let numbers = self.group.numbers().filter(|number| to & 1 << number != 0);
        numbers.map(|to| Letter { to, load: Load::Message(message.to_vec()) }).collect()
    }

    fn voters(&self) -> u32 {
        let boxes = [Decision::Commit, Decision::Abort].map(|answer| self.votes.boxes(answer));
        boxes.into_iter().flatten().fold(0, |mask, number| mask | 1 << number)
    }

    /// So many boxes have answered neither what the mask says nor that they cannot.
    fn unheard(&self, heard: u32) -> u32 {
        (self.all() & !heard & !self.barred).count_ones()
    }

    fn enough_logs(&self) -> bool {
        self.logged.count_ones() >= self.group.log_proof().into()
    }

    fn pr(&self) -> Vec<u8> {
        written(|out| write_pr(&self.tx, out)).expect("a transaction that was written before")
    }

    fn prove(&mut self, sheet: Sheet, decision: Decision) {
        if self.proof.is_none() {
            let list = sheet.counted(decision);
            self.proof = written(|out| write_dc(self.group, &self.tx, &list, out)).ok().map(|dc| (decision, dc));
        }
    }

    fn voted(&mut self, from: u8, vote: Vote) {
        let bit = 1 << from;
        let Some(decision) = vote.decision() else {
            self.waiting |= bit & !self.voters();
            return;
        };
        self.waiting &= !bit;
        let Ok(reply) = self.votes.take(from, decision) else { return };
        if let Reply::Votes { .. } = reply {
            self.lacks = reply;
            if matches!(vote, Vote::Abort(Reason::NoVersion | Reason::Overwritten | Reason::Undercuts)) {
                self.clashed |= bit;
            }
        }
        if reply.proof_reached(decision) {
            self.prove(self.votes, decision);
        }
    }

    /// A log, to an LG or by a leader. A box that had none to be elected with gets the IV now.
    fn logged(&mut self, from: u8, decision: Decision, view: View) -> Vec<Letter> {
        let bit = 1 << from;
        let none = Reply::Logs { commit_proof: self.group.log_proof(), abort_proof: self.group.log_proof() };
        let (sheet, lacks) = self.logs.entry(view).or_insert((Sheet::logs(self.group, view), none));
        let reply = sheet.take(from, decision).expect("a box of the group");
        if let Reply::Logs { .. } = reply {
            *lacks = reply;
        }
        let sheet = *sheet;
        if reply.proof_reached(decision) {
            self.prove(sheet, decision);
        }
        self.logged |= bit;
        self.views.tell(from, view).expect("a box of the group");
        if self.step == Step::Fall && self.unlogged & bit != 0 {
            self.unlogged &= !bit;
            return self.letters(bit, &self.iv.clone());
        }
        vec![]
    }

    fn elected(&mut self, from: u8, view: View) {
        self.views.tell(from, view).expect("a box of the group");
        self.spoken.insert(from, view);
    }

    /// A proof that was handed over is judged as a box would judge it; the answer alone says nothing.
    fn handed(&mut self, dc: &[u8]) {
        let taken = Table::new(self.group, 1).map(|mut one| one.decide(0, 0, dc));
        if self.proof.is_none() && taken == Ok(Ok(Answer::Done)) && tx_part(self.group, dc) == Some(&self.body) {
            if let Ok(Message::Decide(_, list)) = read_message(self.group, dc) {
                self.proof = Some((list.decision, dc.to_vec()));
            }
        }
    }

    /// What can be done at once.
    fn advance(&mut self, now: u64) -> Vec<Letter> {
        match (&self.proof, self.step) {
            (_, Step::Done) => vec![],
            (Some((_, dc)), _) => {
                let dc = dc.clone();
                (self.step, self.tries) = (Step::Done, 0);
                self.due = now.saturating_add(self.timing.patience);
                self.letters(self.all() & !self.settled, &dc)
            }
            (None, Step::Vote) if self.late || !self.fast_possible() => self.log(now),
            (None, Step::Log) if self.enough_logs() && !self.proof_possible() => self.fall(now),
            (None, Step::Fall) => self.follow(now),
            _ => vec![],
        }
    }

    fn fast_possible(&self) -> bool {
        let unheard = self.unheard(self.voters());
        let within = |decision| self.lacks.proof_lacks(decision).is_some_and(|lacks| u32::from(lacks) <= unheard);
        within(Decision::Commit) || within(Decision::Abort)
    }

    /// Whether equal logs of one view can still come of the boxes that told none.
    fn proof_possible(&self) -> bool {
        let unheard = self.unheard(self.logged);
        let within = |reply: &Reply, decision| reply.proof_lacks(decision).is_some_and(|lacks| u32::from(lacks) <= unheard);
        self.logs.values().any(|(_, reply)| within(reply, Decision::Commit) || within(reply, Decision::Abort))
    }

    /// The decision to log, where a list can be made: of two the one that more boxes have logged already.
    fn to_log(&self) -> Option<Decision> {
        let told = |decision| self.logs.values().map(|(sheet, _)| sheet.boxes(decision).len()).sum::<usize>();
        let by_logs = if told(Decision::Abort) > told(Decision::Commit) { Decision::Abort } else { Decision::Commit };
        [by_logs, by_logs.other()].into_iter().find(|decision| self.lacks.list_reached(*decision))
    }

    fn log(&mut self, now: u64) -> Vec<Letter> {
        let Some(decision) = self.to_log() else { return vec![] };
        let list = self.votes.counted(decision);
        let Ok(lg) = written(|out| write_lg(self.group, &self.tx, &list, out)) else { return vec![] };
        (self.step, self.tries, self.lg) = (Step::Log, 0, lg);
        self.due = now.saturating_add(self.timing.patience);
        let mut out = self.letters(self.all(), &self.lg.clone());
        out.extend(self.advance(now));
        out
    }

    fn wait(&mut self, now: u64) {
        self.due = now.saturating_add(self.timing.grown(self.timing.patience, self.tries.min(PATIENCE_DOUBLINGS)));
    }

    fn vote_again(&mut self, now: u64) -> Vec<Letter> {
        self.late = true;
        if self.to_log().is_some() {
            return self.log(now);
        }
        self.wait(now);
        self.letters(self.all() & !self.voters(), &self.pr())
    }

    fn log_again(&mut self, now: u64) -> Vec<Letter> {
        if self.enough_logs() {
            return self.fall(now);
        }
        self.wait(now);
        self.letters(self.all() & !self.logged, &self.lg.clone())
    }

    fn fall(&mut self, now: u64) -> Vec<Letter> {
        (self.step, self.tries, self.falls) = (Step::Fall, 0, 1);
        self.invoke(now)
    }

    /// The time of a try is over: LG again, since logs may have come unheard, and an IV by what is told now.
    fn fall_again(&mut self, now: u64) -> Vec<Letter> {
        self.levelled = 0;
        self.falls += 1;
        let mut out = self.letters(self.all(), &self.lg.clone());
        out.extend(self.invoke(now));
        out
    }

    /// The views told, highest first: the one at this place, 1 to n.
    fn nth_view(told: &[(u8, View)], place: u8) -> View {
        told[usize::from(place) - 1].1
    }

    fn told(&self) -> Views {
        let mut told = self.views.views();
        told.sort_unstable_by_key(|(number, view)| (core::cmp::Reverse(*view), *number));
        told
    }

    /// An IV to all. Where boxes are more than a step behind f + 1 others it lists these, which brings the rest up to them; else it lists all, which brings
    /// everybody one view above that of 3f + 1.
    fn invoke(&mut self, now: u64) -> Vec<Letter> {
        let mut told = self.told();
        let (high, common) = (Gateway::nth_view(&told, self.group.abort_list()), Gateway::nth_view(&told, self.group.commit_list()));
        self.view = View(common.0.saturating_add(1));
        if high > self.view {
            self.view = high;
            told.truncate(self.group.abort_list().into());
        }
        told.sort_unstable();
        self.iv = written(|out| write_iv(self.group, &self.tx, &told, out)).expect("views of the group's boxes, in order");
        self.spoken.clear();
        self.unlogged = 0;
        self.due = now.saturating_add(self.timing.grown(self.timing.first_try, self.tries));
        self.letters(self.all(), &self.iv.clone())
    }

    /// Others went on above the view of this try: it becomes this gateway's, and its leader gets the time. Where boxes can no longer meet in one view they are
    /// brought to one at once, at most twice in a try.
    fn follow(&mut self, now: u64) -> Vec<Letter> {
        let high = Gateway::nth_view(&self.told(), self.group.abort_list());
        if high > self.view {
            self.view = high;
            self.due = now.saturating_add(self.timing.grown(self.timing.first_try, self.tries));
        }
        let spoken = self.spoken.keys().fold(0, |mask, number| mask | 1 << number);
        let alike = |view: &View| self.spoken.values().filter(|other| *other == view).count() as u32;
        let most = self.spoken.values().map(alike).max().unwrap_or(0);
        if most + self.unheard(spoken) >= self.group.log_proof().into() || self.levelled == 2 {
            return vec![];
        }
        self.levelled += 1;
        self.invoke(now)
    }
}

impl fmt::Debug for Gateway {
    fn fmt(&self, f: &mut fmt::Formatter<'_>) -> fmt::Result {
        let mut gateway = f.debug_struct("Gateway");
        gateway.field("stamp", &self.tx.stamp).field("step", &self.step).field("outcome", &self.outcome()).finish_non_exhaustive()
    }
}
