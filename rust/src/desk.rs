//! A gateway's desk: the transactions that it cares for, and under them those of others that stand in their way and are finished first.

use crate::answer::{Answer, Vote};
use crate::gateway::{Gateway, Letter, Load, Timing};
use crate::held::Held;
use crate::records::{Transaction, read_tx};
use crate::refusal::Refusal;
use crate::short::Bytes;
use crate::terms::{Decision, Group, Stamp, View};
use alloc::collections::BTreeMap;
use alloc::{vec, vec::Vec};
use core::fmt;

/// What a gateway asks a box's host, beside the six messages.
///
/// ```
/// use stobbarel::{Question, Stamp};
///
/// assert_eq!(format!("{:?} {:?}", Question::Held(Stamp(50)), Question::Way(b"TX".to_vec())), "Held(Stamp(50)) Way(2 bytes)");
/// ```
#[derive(Clone, PartialEq, Eq, PartialOrd, Ord, Hash)]
pub enum Question {
    /// What is held under this stamp.
    Held(Stamp),
    /// Which undecided entries stand in the way of the transaction that this body is ([`in_the_way`]).
    Way(Vec<u8>),
}

impl fmt::Debug for Question {
    fn fmt(&self, f: &mut fmt::Formatter<'_>) -> fmt::Result {
        match self {
            Question::Held(stamp) => f.debug_tuple("Held").field(stamp).finish(),
            Question::Way(body) => f.debug_tuple("Way").field(&Bytes(body)).finish(),
        }
    }
}

/// What a host tells of an entry.
///
/// ```
/// use stobbarel::Holding;
///
/// let holding = Holding { body: b"TX".to_vec(), signed: true, vote: None, logged: None, proof: None };
/// assert_eq!(format!("{holding:?}"), "Holding { body: 2 bytes, signed: true, vote: None, logged: None, proof: None }");
/// ```
#[derive(Clone, PartialEq, Eq, Hash)]
pub struct Holding {
    /// The TX.
    pub body: Vec<u8>,
    /// Its writer's signature came along and was found right.
    pub signed: bool,
    /// What the box voted.
    pub vote: Option<Vote>,
    /// What it has logged.
    pub logged: Option<(Decision, View)>,
    /// The DC that it took, with the signatures beside it found right.
    pub proof: Option<Vec<u8>>,
}

impl Holding {
    /// An entry as it is held, with the DC from the host's file; a host has every body with its writer's signature.
    ///
    /// ```
    /// use stobbarel::{Group, Holding, Key, LONGEST, Stamp, Table, Transaction, Vote, write_pr};
    ///
    /// let mut table = Table::new(Group::of(1)?, 8)?;
    /// let tx = Transaction::new(Stamp(50), [], [(Key(3), 7)]);
    /// let answer = table.receive(100, 10, write_pr(&tx, &mut [0; LONGEST])?)?;
    /// let held = table.held(Stamp(50))?.expect("the box voted on it");
    /// assert_eq!(Holding::of(&held, None).vote, Some(Vote::Commit));
    /// # let _ = answer;
    /// # Ok::<(), stobbarel::Refusal>(())
    /// ```
    #[must_use]
    pub fn of(held: &Held<'_>, proof: Option<Vec<u8>>) -> Holding {
        Holding { body: held.body.to_vec(), signed: true, vote: held.vote, logged: held.logged, proof }
    }
}

impl fmt::Debug for Holding {
    fn fmt(&self, f: &mut fmt::Formatter<'_>) -> fmt::Result {
        let mut holding = f.debug_struct("Holding");
        holding.field("body", &Bytes(&self.body)).field("signed", &self.signed).field("vote", &self.vote);
        holding.field("logged", &self.logged).field("proof", &self.proof.as_deref().map(Bytes)).finish()
    }
}

/// At most so many entries of an answer are looked at.
///
/// ```
/// assert_eq!(stobbarel::MOST_HOLDINGS, 16);
/// ```
pub const MOST_HOLDINGS: usize = 16;

/// Whether one transaction, while it is undecided, can keep another from being voted on for commit: it is a version read there; it writes a key read there,
/// between the version and that stamp; or it has a higher stamp and read a key written there, at a version below.
///
/// ```
/// use stobbarel::{Key, Stamp, Transaction, in_the_way};
///
/// let first = Transaction::new(Stamp(50), [], [(Key(3), 7)]);
/// let second = Transaction::new(Stamp(60), [(Key(3), Stamp(50))], [(Key(3), 8)]);
/// assert!(in_the_way(&second, &first));
/// assert!(in_the_way(&Transaction::new(Stamp(55), [], [(Key(3), 9)]), &second));
/// ```
#[must_use]
pub fn in_the_way(of: &Transaction, other: &Transaction) -> bool {
    let read = of.reads.iter().any(|(_, version)| *version == other.stamp);
    let writes = |key| other.writes.iter().any(|(written, _)| *written == key);
    let between = of.reads.iter().any(|(key, version)| *version < other.stamp && other.stamp < of.stamp && writes(*key));
    let written = |key| of.writes.iter().any(|(one, _)| *one == key);
    let above = other.stamp > of.stamp && other.reads.iter().any(|(key, version)| *version < of.stamp && written(*key));
    read || between || above
}

/// One transaction on the desk.
#[derive(Clone)]
struct Work {
    gateway: Gateway,
    /// The caller cares for it; else it stood in the way.
    own: bool,
    /// How often boxes were asked what stands in its way, and what they told.
    asked: u32,
    told: BTreeMap<u8, Vec<Vec<u8>>>,
    /// The bodies found to stand in its way.
    below: Vec<Vec<u8>>,
}

/// So often is asked what made boxes vote against a transaction that is decided.
const MOST_ASKED: u32 = 4;

/// All that one gateway is at work on.
///
/// ```
/// use stobbarel::{Decision, Desk, Group, Key, Load, Stamp, Table, Timing, Transaction};
///
/// let group = Group::of(1)?;
/// let mut boxes = vec![Table::new(group, 8)?; 6];
/// let mut desk = Desk::new(group, Timing { patience: 10, first_try: 20, doublings: 10, farewells: 5 });
///
/// // 50 writes 7 at key 3. The letters go to the boxes, their answers come back, and there are more letters.
/// let tx = Transaction::new(Stamp(50), [], [(Key(3), 7)]);
/// let (mut letters, mut now) = (desk.care(tx, 0)?, 0);
/// let body = desk.gateways().next().expect("it is on the desk").body().to_vec();
/// while desk.due().is_some() {
///     now += 1;
///     for letter in std::mem::take(&mut letters) {
///         if let Load::Message(message) = letter.load {
///             let answer = boxes[usize::from(letter.to)].receive(100, 10, &message);
///             letters.extend(desk.hear(letter.to, &body, answer, None, now));
///         }
///     }
///     letters.extend(desk.tick(now));
/// }
/// assert_eq!(desk.outcome(&body), Some(Decision::Commit));
/// // two ways to the proof, two until every box has it
/// assert_eq!(now, 2);
/// # Ok::<(), stobbarel::Refusal>(())
/// ```
#[derive(Clone)]
pub struct Desk {
    group: Group,
    timing: Timing,
    works: BTreeMap<Vec<u8>, Work>,
    /// Stamps that are to be finished, whatever is held there, and what boxes told.
    sought: BTreeMap<Stamp, BTreeMap<u8, Vec<Vec<u8>>>>,
}

// ---- what the caller sees

impl Desk {
    /// A desk with nothing on it.
    ///
    /// ```
    /// # use stobbarel::{Desk, Group, Key, Stamp, Timing, Transaction};
    /// # let tx = Transaction::new(Stamp(50), [], [(Key(3), 7)]);
    /// # let timing = Timing { patience: 10, first_try: 20, doublings: 10, farewells: 5 };
    /// let desk = Desk::new(Group::of(1)?, timing);
    /// assert_eq!(desk.due(), None);
    /// # Ok::<(), stobbarel::Refusal>(())
    /// ```
    #[must_use]
    pub fn new(group: Group, timing: Timing) -> Desk {
        Desk { group, timing, works: BTreeMap::new(), sought: BTreeMap::new() }
    }

    /// Cares for a transaction from now on; refused where it is not in order.
    ///
    /// ```
    /// # use stobbarel::{Desk, Group, Key, Stamp, Timing, Transaction};
    /// # let tx = Transaction::new(Stamp(50), [], [(Key(3), 7)]);
    /// # let timing = Timing { patience: 10, first_try: 20, doublings: 10, farewells: 5 };
    /// let mut desk = Desk::new(Group::of(1)?, timing);
    /// assert_eq!(desk.care(tx, 0)?.len(), 6, "a PR for each box");
    /// assert_eq!(desk.care(Transaction::default(), 0), Err(stobbarel::Refusal::Count));
    /// # Ok::<(), stobbarel::Refusal>(())
    /// ```
    pub fn care(&mut self, tx: Transaction, now: u64) -> Result<Vec<Letter>, Refusal> {
        self.take_up(tx, true, now)
    }

    /// Finishes whatever boxes hold under a stamp, as is due before a low mark is raised above it. Asked once; the caller asks again.
    ///
    /// ```
    /// # use stobbarel::{Desk, Group, Key, Stamp, Timing, Transaction};
    /// # let tx = Transaction::new(Stamp(50), [], [(Key(3), 7)]);
    /// # let timing = Timing { patience: 10, first_try: 20, doublings: 10, farewells: 5 };
    /// let mut desk = Desk::new(Group::of(1)?, timing);
    /// assert_eq!(desk.sweep(Stamp(50)).len(), 6, "a question for each box");
    /// # Ok::<(), stobbarel::Refusal>(())
    /// ```
    #[must_use = "the letters are to be sent"]
    pub fn sweep(&mut self, stamp: Stamp) -> Vec<Letter> {
        self.sought.entry(stamp).or_default();
        self.ask(Question::Held(stamp))
    }

    /// Enough was told of a stamp; what was taken up there goes on.
    ///
    /// ```
    /// # use stobbarel::{Desk, Group, Key, Stamp, Timing, Transaction};
    /// # let tx = Transaction::new(Stamp(50), [], [(Key(3), 7)]);
    /// # let timing = Timing { patience: 10, first_try: 20, doublings: 10, farewells: 5 };
    /// let mut desk = Desk::new(Group::of(1)?, timing);
    /// let questions = desk.sweep(Stamp(50));
    /// desk.swept(Stamp(50));
    /// # let _ = questions;
    /// # Ok::<(), stobbarel::Refusal>(())
    /// ```
    pub fn swept(&mut self, stamp: Stamp) {
        self.sought.remove(&stamp);
    }

    /// A box answered a message that has this body; with Decided it hands over the DC that it took.
    ///
    /// ```
    /// # use stobbarel::{Desk, Group, Key, Stamp, Timing, Transaction};
    /// # let tx = Transaction::new(Stamp(50), [], [(Key(3), 7)]);
    /// # let timing = Timing { patience: 10, first_try: 20, doublings: 10, farewells: 5 };
    /// let mut desk = Desk::new(Group::of(1)?, timing);
    /// let prs = desk.care(tx.clone(), 0)?;
    /// let body = desk.gateways().next().expect("it is on the desk").body().to_vec();
    /// let answer = Ok(stobbarel::Answer::Voted(stobbarel::Vote::Commit, Some(0)));
    /// assert!(desk.hear(0, &body, answer, None, 1).is_empty(), "five more are to be heard");
    /// # let _ = prs;
    /// # Ok::<(), stobbarel::Refusal>(())
    /// ```
    #[must_use = "the letters are to be sent"]
    pub fn hear(&mut self, from: u8, body: &[u8], answer: Result<Answer, Refusal>, handed: Option<&[u8]>, now: u64) -> Vec<Letter> {
        let Some(work) = self.works.get_mut(body) else { return vec![] };
        let undecided = work.gateway.outcome().is_none();
        let mut out = work.gateway.hear(from, answer, handed, now);
        let aborted = undecided && work.own && work.gateway.outcome() == Some(Decision::Abort) && work.gateway.clashed();
        // what another left has been waiting long enough
        let left = !work.own && work.asked == 0 && work.gateway.waits();
        if aborted || left {
            out.extend(self.look(body));
        }
        if matches!(answer, Ok(Answer::Done | Answer::Decided(_))) {
            out.extend(self.prompt(from, body));
        }
        out
    }

    /// A host answered a question.
    ///
    /// ```
    /// # use stobbarel::{Desk, Group, Key, Stamp, Timing, Transaction};
    /// # let tx = Transaction::new(Stamp(50), [], [(Key(3), 7)]);
    /// # let timing = Timing { patience: 10, first_try: 20, doublings: 10, farewells: 5 };
    /// let mut desk = Desk::new(Group::of(1)?, timing);
    /// let questions = desk.sweep(Stamp(50));
    /// let none_held = desk.told(0, &stobbarel::Question::Held(Stamp(50)), &[], 1);
    /// assert!(none_held.is_empty());
    /// # let _ = questions;
    /// # Ok::<(), stobbarel::Refusal>(())
    /// ```
    #[must_use = "the letters are to be sent"]
    pub fn told(&mut self, from: u8, question: &Question, holdings: &[Holding], now: u64) -> Vec<Letter> {
        let holdings = &holdings[..holdings.len().min(MOST_HOLDINGS)];
        let bodies: Vec<Vec<u8>> = holdings.iter().map(|holding| holding.body.clone()).collect();
        let told = match question {
            Question::Held(stamp) => self.sought.get_mut(stamp),
            Question::Way(body) => self.works.get_mut(body).filter(|work| work.asked > 0).map(|work| &mut work.told),
        };
        let Some(told) = told.filter(|_| from < self.group.boxes()) else { return vec![] };
        told.insert(from, bodies);
        let told = told.clone();
        let alike = |body: &[u8]| told.values().filter(|bodies| bodies.iter().any(|one| one == body)).count();
        let mut out = vec![];
        for holding in holdings {
            let Ok(tx) = read_tx(&holding.body) else { continue };
            let sure = holding.signed || alike(&holding.body) >= self.group.abort_list().into();
            if sure && self.is_due(question, &tx) {
                out.extend(self.rescue(from, question, tx, holding, now));
            }
        }
        out
    }

    /// Time has passed.
    ///
    /// ```
    /// # use stobbarel::{Desk, Group, Key, Stamp, Timing, Transaction};
    /// # let tx = Transaction::new(Stamp(50), [], [(Key(3), 7)]);
    /// # let timing = Timing { patience: 10, first_try: 20, doublings: 10, farewells: 5 };
    /// let mut desk = Desk::new(Group::of(1)?, timing);
    /// let prs = desk.care(tx.clone(), 0)?;
    /// assert_eq!(desk.tick(10), prs, "nobody has answered");
    /// # Ok::<(), stobbarel::Refusal>(())
    /// ```
    #[must_use = "the letters are to be sent"]
    pub fn tick(&mut self, now: u64) -> Vec<Letter> {
        let (mut out, mut ask) = (vec![], vec![]);
        for (body, work) in &mut self.works {
            if work.gateway.due().is_some_and(|due| due <= now) {
                out.extend(work.gateway.tick(now));
                let clear = work.gateway.outcome().is_none() || work.told.len() >= self.group.log_proof().into() || work.asked >= MOST_ASKED;
                if work.gateway.held_up() || work.own && work.asked > 0 && !clear {
                    ask.push(body.clone());
                }
            }
        }
        ask.iter().for_each(|body| out.extend(self.look(body)));
        self.tidy();
        out
    }

    /// When `tick` has something to do; none where nothing is left to do.
    ///
    /// ```
    /// # use stobbarel::{Desk, Group, Key, Stamp, Timing, Transaction};
    /// # let tx = Transaction::new(Stamp(50), [], [(Key(3), 7)]);
    /// # let timing = Timing { patience: 10, first_try: 20, doublings: 10, farewells: 5 };
    /// let mut desk = Desk::new(Group::of(1)?, timing);
    /// let prs = desk.care(tx.clone(), 0)?;
    /// assert_eq!(desk.due(), Some(10));
    /// # let _ = prs;
    /// # Ok::<(), stobbarel::Refusal>(())
    /// ```
    #[must_use]
    pub fn due(&self) -> Option<u64> {
        self.works.values().filter_map(|work| work.gateway.due()).min()
    }

    /// What a transaction has a proof of.
    ///
    /// ```
    /// # use stobbarel::{Desk, Group, Key, Stamp, Timing, Transaction};
    /// # let tx = Transaction::new(Stamp(50), [], [(Key(3), 7)]);
    /// # let timing = Timing { patience: 10, first_try: 20, doublings: 10, farewells: 5 };
    /// let mut desk = Desk::new(Group::of(1)?, timing);
    /// let prs = desk.care(tx.clone(), 0)?;
    /// let body = desk.gateways().next().expect("it is on the desk").body().to_vec();
    /// assert_eq!(desk.outcome(&body), None);
    /// # let _ = prs;
    /// # Ok::<(), stobbarel::Refusal>(())
    /// ```
    #[must_use]
    pub fn outcome(&self, body: &[u8]) -> Option<Decision> {
        self.works.get(body).and_then(|work| work.gateway.outcome())
    }

    /// It is decided, and so is what was found to have stood in its way: an operation that was aborted may be tried again, under a new stamp.
    ///
    /// ```
    /// # use stobbarel::{Desk, Group, Key, Stamp, Timing, Transaction};
    /// # let tx = Transaction::new(Stamp(50), [], [(Key(3), 7)]);
    /// # let timing = Timing { patience: 10, first_try: 20, doublings: 10, farewells: 5 };
    /// let mut desk = Desk::new(Group::of(1)?, timing);
    /// let prs = desk.care(tx.clone(), 0)?;
    /// let body = desk.gateways().next().expect("it is on the desk").body().to_vec();
    /// assert!(!desk.clear(&body));
    /// # let _ = prs;
    /// # Ok::<(), stobbarel::Refusal>(())
    /// ```
    #[must_use]
    pub fn clear(&self, body: &[u8]) -> bool {
        let asked = |work: &Work| work.asked == 0 || work.told.len() >= self.group.log_proof().into() || work.asked >= MOST_ASKED || work.gateway.finished();
        let decided = |body: &Vec<u8>| self.works.get(body).is_none_or(|work| work.gateway.outcome().is_some());
        self.works.get(body).is_some_and(|work| work.gateway.outcome().is_some() && asked(work) && work.below.iter().all(decided))
    }

    /// The gateways at work, with the caller's own and those of others.
    ///
    /// ```
    /// # use stobbarel::{Desk, Group, Key, Stamp, Timing, Transaction};
    /// # let tx = Transaction::new(Stamp(50), [], [(Key(3), 7)]);
    /// # let timing = Timing { patience: 10, first_try: 20, doublings: 10, farewells: 5 };
    /// let mut desk = Desk::new(Group::of(1)?, timing);
    /// let prs = desk.care(tx.clone(), 0)?;
    /// assert_eq!(desk.gateways().count(), 1);
    /// # let _ = prs;
    /// # Ok::<(), stobbarel::Refusal>(())
    /// ```
    pub fn gateways(&self) -> impl Iterator<Item = &Gateway> {
        self.works.values().map(|work| &work.gateway)
    }

    /// The caller cares for it no more; what boxes have not taken yet is sent on until it is finished.
    ///
    /// ```
    /// # use stobbarel::{Desk, Group, Key, Stamp, Timing, Transaction};
    /// # let tx = Transaction::new(Stamp(50), [], [(Key(3), 7)]);
    /// # let timing = Timing { patience: 10, first_try: 20, doublings: 10, farewells: 5 };
    /// let mut desk = Desk::new(Group::of(1)?, timing);
    /// let prs = desk.care(tx.clone(), 0)?;
    /// let body = desk.gateways().next().expect("it is on the desk").body().to_vec();
    /// desk.leave(&body);
    /// assert_eq!(desk.gateways().count(), 1, "it is not finished");
    /// # let _ = prs;
    /// # Ok::<(), stobbarel::Refusal>(())
    /// ```
    pub fn leave(&mut self, body: &[u8]) {
        self.works.get_mut(body).into_iter().for_each(|work| work.own = false);
        self.tidy();
    }
}

// ---- what it does

impl Desk {
    fn ask(&self, question: Question) -> Vec<Letter> {
        self.group.numbers().map(|to| Letter { to, load: Load::Ask(question.clone()) }).collect()
    }

    fn look(&mut self, body: &[u8]) -> Vec<Letter> {
        let Some(work) = self.works.get_mut(body) else { return vec![] };
        work.asked += 1;
        self.ask(Question::Way(body.to_vec()))
    }

    fn take_up(&mut self, tx: Transaction, own: bool, now: u64) -> Result<Vec<Letter>, Refusal> {
        let mut gateway = Gateway::new(self.group, tx, self.timing)?;
        if let Some(work) = self.works.get_mut(gateway.body()) {
            work.own |= own;
            return Ok(vec![]);
        }
        let out = gateway.start(now);
        self.works.insert(gateway.body().to_vec(), Work { gateway, own, asked: 0, told: BTreeMap::new(), below: vec![] });
        Ok(out)
    }

    /// What was told is what was asked for: a box cannot have just anything finished.
    fn is_due(&self, question: &Question, tx: &Transaction) -> bool {
        match question {
            Question::Held(stamp) => tx.stamp == *stamp,
            Question::Way(body) => self.works.get(body).is_some_and(|work| in_the_way(work.gateway.transaction(), tx)),
        }
    }

    /// Takes up what stands in the way, and hears what the box has said of it.
    fn rescue(&mut self, from: u8, question: &Question, tx: Transaction, holding: &Holding, now: u64) -> Vec<Letter> {
        let Ok(mut out) = self.take_up(tx, false, now) else { return vec![] };
        if let Question::Way(above) = question {
            let below = &mut self.works.get_mut(above).expect("it is due").below;
            if !below.contains(&holding.body) {
                below.push(holding.body.clone());
            }
        }
        if let Some(vote) = holding.vote {
            out.extend(self.hear(from, &holding.body, Ok(Answer::Voted(vote, None)), None, now));
        }
        if let Some((decision, view)) = holding.logged {
            out.extend(self.hear(from, &holding.body, Ok(Answer::Logged(decision, view)), None, now));
        }
        if let Some(dc) = &holding.proof {
            let work = self.works.get_mut(&holding.body).expect("it was taken up");
            out.extend(work.gateway.hand(dc, now));
        }
        out
    }

    /// A box has taken a decision: what waited for it there is asked again.
    fn prompt(&mut self, to: u8, body: &[u8]) -> Vec<Letter> {
        let above = self.works.values_mut().filter(|work| work.below.iter().any(|one| one == body));
        above.flat_map(|work| work.gateway.prompt(to)).collect()
    }

    /// What stood in the way and is finished is put away.
    fn tidy(&mut self) {
        let needed: Vec<Vec<u8>> =
            self.works.values().filter(|work| work.own || work.gateway.outcome().is_none()).flat_map(|work| work.below.clone()).collect();
        self.works.retain(|body, work| work.own || !work.gateway.finished() || needed.contains(body));
    }
}

impl fmt::Debug for Desk {
    fn fmt(&self, f: &mut fmt::Formatter<'_>) -> fmt::Result {
        f.debug_struct("Desk").field("gateways", &self.works.len()).field("sought", &self.sought.len()).field("due", &self.due()).finish_non_exhaustive()
    }
}
