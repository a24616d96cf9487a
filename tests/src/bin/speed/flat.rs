//! The paper's rules over the lent table itself, in ordinary Rust that copies and allocates nothing: what the engine does, unproved.

use crate::model::{row_at, Answer, Decision, Settings, Vote, THRESHOLDS};
use stobbarel::layout::{table_len, BODY_AT, DECIDED_AT, FOLD, FOLDS_AT, HEAD, LOG_AT, LOG_VIEW_AT, LOW_AT, REASON_AT, ROW, VIEW_AT, VOTE_AT};

fn u16_at(bytes: &[u8], at: usize) -> u16 {
    u16::from_le_bytes([bytes[at], bytes[at + 1]])
}

fn u64_at(bytes: &[u8], at: usize) -> u64 {
    u64::from_le_bytes(bytes[at..at + 8].try_into().expect("eight bytes"))
}

/// A key and a version, or a key and a value.
fn pair(bytes: &[u8]) -> (u16, u64) {
    (u16::from_le_bytes([bytes[0], bytes[1]]), u64_at(bytes, 2))
}

/// A TX, in a row or inside a message.
#[derive(Clone, Copy)]
struct Body<'a>(&'a [u8]);

impl<'a> Body<'a> {
    fn length(self) -> usize {
        12 + 10 * (self.0[2] as usize + self.0[3] as usize)
    }

    fn stamp(self) -> u64 {
        u64_at(self.0, 4)
    }

    fn reads(self) -> impl Iterator<Item = (u16, u64)> + 'a {
        self.0[12..12 + 10 * self.0[2] as usize].chunks_exact(10).map(pair)
    }

    fn writes(self) -> impl Iterator<Item = (u16, u64)> + 'a {
        self.0[12 + 10 * self.0[2] as usize..self.length()].chunks_exact(10).map(pair)
    }

    fn writes_key(self, key: u16) -> bool {
        self.writes().any(|(written, _)| written == key)
    }
}

const NONE: u8 = 0;
const COMMIT: u8 = 1;
const ABORT: u8 = 2;
const WAITING: u8 = 3;

/// What stands in a row beside the body.
#[derive(Clone, Copy)]
struct Codes {
    vote: u8,
    reason: u8,
    log: u8,
    /// 0 where nothing is logged.
    log_view: u16,
    view: u16,
    decided: u8,
}

/// Of an entry that a call makes.
const NEW: Codes = Codes { vote: NONE, reason: 0, log: NONE, log_view: 0, view: 0, decided: NONE };

/// A row of the table.
#[derive(Clone, Copy)]
struct Row<'a>(&'a [u8; ROW]);

impl<'a> Row<'a> {
    fn body(self) -> Body<'a> {
        Body(&self.0[BODY_AT..])
    }

    fn codes(self) -> Codes {
        let log = self.0[LOG_AT];
        let log_view = if log == NONE { 0 } else { u16_at(self.0, LOG_VIEW_AT) };
        Codes { vote: self.0[VOTE_AT], reason: self.0[REASON_AT], log, log_view, view: u16_at(self.0, VIEW_AT), decided: self.0[DECIDED_AT] }
    }

    fn same(self, tx: Body) -> bool {
        let body = self.body();
        body.0[..body.length()] == *tx.0
    }

    fn in_order(self) -> bool {
        let (codes, counts) = (self.codes(), &self.0[BODY_AT + 2..BODY_AT + 4]);
        let reason = if codes.vote == ABORT { (1..=6).contains(&codes.reason) } else { codes.reason == 0 };
        counts[0] <= 8 && counts[1] <= 8 && codes.vote <= WAITING && reason && codes.log <= 2 && codes.decided <= 2
    }

    fn decided(self) -> u8 {
        self.0[DECIDED_AT]
    }

    fn live(self) -> bool {
        self.decided() == COMMIT || self.decided() == NONE && matches!(self.0[VOTE_AT], COMMIT | WAITING)
    }
}

/// The rows of a table that is taken.
#[derive(Clone, Copy)]
struct Rows<'a> {
    head: &'a [u8],
    rows: &'a [[u8; ROW]],
}

impl<'a> Rows<'a> {
    fn all(self) -> impl DoubleEndedIterator<Item = Row<'a>> {
        self.rows.iter().map(Row)
    }

    fn low(self) -> u64 {
        u64_at(self.head, LOW_AT)
    }

    /// Stamp and value.
    fn fold(self, key: u16) -> (u64, u64) {
        let at = FOLDS_AT + FOLD * key as usize;
        (u64_at(self.head, at), u64_at(self.head, at + 8))
    }

    fn live(self) -> impl Iterator<Item = Body<'a>> {
        self.all().filter(|row| row.live()).map(Row::body)
    }

    fn place(self, stamp: u64) -> Option<usize> {
        self.all().position(|row| row.body().stamp() == stamp)
    }

    fn held(self, stamp: u64) -> Option<Row<'a>> {
        self.place(stamp).map(|place| Row(&self.rows[place]))
    }

    fn names(self, key: u16, version: u64) -> bool {
        if version <= self.low() {
            return self.fold(key).0 == version;
        }
        self.held(version).is_some_and(|row| row.live() && row.body().writes_key(key))
    }

    /// The number of the first failing test.
    fn failing_test(self, marks: &[u64], tx: Body, settings: &Settings) -> Option<u8> {
        let stamp = tx.stamp();
        if ahead(settings, stamp) {
            return Some(1);
        }
        if tx.reads().any(|(key, version)| version != 0 && !self.names(key, version)) {
            return Some(2);
        }
        let missed = |held: Body| held.stamp() < stamp && tx.reads().any(|(key, version)| version < held.stamp() && held.writes_key(key));
        if tx.reads().any(|(key, version)| version < self.fold(key).0) || self.live().any(missed) {
            return Some(3);
        }
        let undercut = |held: Body| held.stamp() > stamp && held.reads().any(|(key, version)| version < stamp && tx.writes_key(key));
        if self.live().any(undercut) {
            return Some(4);
        }
        if tx.writes().any(|(key, _)| marks[key as usize] > stamp) {
            return Some(5);
        }
        None
    }

    /// The codes of vote and reason.
    fn waiting_rule(self, tx: Body) -> (u8, u8) {
        let mut vote = COMMIT;
        for (key, version) in tx.reads().filter(|(_, version)| *version != 0) {
            if version <= self.low() {
                if self.fold(key).0 == version {
                    continue;
                }
                return (ABORT, 6);
            }
            match self.held(version) {
                Some(row) if row.decided() == NONE => vote = WAITING,
                Some(row) if row.decided() == COMMIT && row.body().writes_key(key) => {}
                _ => return (ABORT, 6),
            }
        }
        (vote, 0)
    }

    fn first_vote(self, marks: &[u64], tx: Body, settings: &Settings) -> (u8, u8) {
        match self.failing_test(marks, tx, settings) {
            Some(reason) => (ABORT, reason),
            None => self.waiting_rule(tx),
        }
    }

    /// Version and value of the writer with the highest stamp strictly below, the first among equals, or what stands for it where there is none.
    fn newest(self, key: u16, below: u64, or: (u64, u64), wanted: impl Fn(Row) -> bool) -> (u64, u64) {
        let (mut best, mut found) = (0, or);
        for row in self.all().rev() {
            let stamp = row.body().stamp();
            if stamp < below && stamp >= best && wanted(row) {
                if let Some((_, value)) = row.body().writes().find(|(written, _)| *written == key) {
                    (best, found) = (stamp, (stamp, value));
                }
            }
        }
        found
    }
}

fn ahead(settings: &Settings, stamp: u64) -> bool {
    stamp > settings.clock && stamp - settings.clock > settings.delta
}

// ---- reading

fn rises(keys: impl Iterator<Item = u16>) -> bool {
    keys.is_sorted_by(|one, next| one < next)
}

/// The TX at the front and what stands behind it, its contents not yet judged.
fn cut_transaction(bytes: &[u8]) -> Result<(Body<'_>, &[u8]), u8> {
    if bytes.len() < 2 {
        return Err(1);
    }
    if !bytes.starts_with(b"TX") {
        return Err(2);
    }
    if bytes.len() < 4 {
        return Err(1);
    }
    if bytes[2] > 8 || bytes[3] > 8 || bytes[2] + bytes[3] == 0 {
        return Err(3);
    }
    let (tx, rest) = bytes.split_at_checked(Body(bytes).length()).ok_or(1)?;
    Ok((Body(tx), rest))
}

fn judge_transaction(tx: Body) -> Result<(), u8> {
    let keys = |pair: (u16, u64)| pair.0;
    if tx.stamp() == 0 || tx.reads().chain(tx.writes()).any(|(key, _)| key > 511) {
        return Err(5);
    }
    if !rises(tx.reads().map(keys)) || !rises(tx.writes().map(keys)) {
        return Err(6);
    }
    if tx.reads().any(|(_, version)| version >= tx.stamp()) {
        return Err(7);
    }
    Ok(())
}

/// A VL: kind, decision, and the pairs' bytes.
struct List<'a> {
    kind: u8,
    decision: u8,
    pairs: &'a [u8],
}

fn cut_list(bytes: &[u8]) -> Result<List<'_>, u8> {
    if bytes.len() < 2 {
        return Err(1);
    }
    if !bytes.starts_with(b"VL") {
        return Err(2);
    }
    if bytes.len() < 5 {
        return Err(1);
    }
    if bytes[4] == 0 || bytes[4] > 26 {
        return Err(3);
    }
    let pairs_at = if bytes[2] == 2 { 7 } else { 5 }; // behind the view, which does not matter
    let (pairs, behind) = bytes.split_at_checked(pairs_at + 2 * bytes[4] as usize).map(|(list, behind)| (&list[pairs_at..], behind)).ok_or(1)?;
    if !behind.is_empty() {
        return Err(4);
    }
    Ok(List { kind: bytes[2], decision: bytes[3], pairs })
}

impl List<'_> {
    fn judge(&self, settings: &Settings, logs_allowed: bool) -> Result<(), u8> {
        let odd = |code: u8| code != 1 && code != 2;
        let pairs = || self.pairs.chunks_exact(2);
        if odd(self.kind) || self.kind == 2 && !logs_allowed || odd(self.decision) || pairs().any(|pair| odd(pair[1])) {
            return Err(8);
        }
        if pairs().any(|pair| u64::from(pair[0]) >= settings.boxes()) {
            return Err(5);
        }
        if !rises(pairs().map(|pair| u16::from(pair[0]))) {
            return Err(6);
        }
        Ok(())
    }

    fn counted(&self) -> usize {
        self.pairs.chunks_exact(2).filter(|pair| pair[1] == self.decision).count()
    }

    /// How many counted answers it lacks, for logging or as a proof.
    fn lacking(&self, settings: &Settings, logging: bool) -> u8 {
        let column = match (logging, self.kind, self.decision) {
            (true, _, decision) => decision as usize - 1,
            (false, 1, decision) => decision as usize + 1,
            (false, _, _) => 4,
        };
        THRESHOLDS[settings.f as usize - 1][column].saturating_sub(self.counted()) as u8
    }
}

// ---- a box

/// The table stays, or a row becomes the message's body with these codes.
type Step = (Answer, Option<(usize, Codes)>);

fn decision(code: u8) -> Decision {
    if code == COMMIT {
        Decision::Commit
    } else {
        Decision::Abort
    }
}

fn told(vote: u8, reason: u8) -> Answer {
    match vote {
        COMMIT => Answer::Voted(Vote::Commit, None),
        ABORT => Answer::Voted(Vote::Abort(reason), None),
        _ => Answer::Voted(Vote::Waiting, None),
    }
}

fn keep(answer: Answer) -> Step {
    (answer, None)
}

fn prepare(rows: Rows, marks: &[u64], tx: Body, settings: &Settings) -> Step {
    let Some(place) = rows.place(tx.stamp()) else {
        if rows.rows.len() as u64 >= settings.capacity {
            return keep(Answer::Refused(13));
        }
        let (vote, reason) = rows.first_vote(marks, tx, settings);
        return (told(vote, reason), Some((rows.rows.len(), Codes { vote, reason, ..NEW })));
    };
    let held = Row(&rows.rows[place]);
    if !held.same(tx) {
        return keep(Answer::Refused(9));
    }
    let codes = held.codes();
    if codes.decided != NONE {
        return keep(Answer::Decided(decision(codes.decided)));
    }
    let (vote, reason) = match codes.vote {
        NONE => rows.first_vote(marks, tx, settings),
        WAITING => rows.waiting_rule(tx),
        cast => return keep(told(cast, codes.reason)),
    };
    (told(vote, reason), Some((place, Codes { vote, reason, ..codes })))
}

fn log(rows: Rows, tx: Body, list: &List, settings: &Settings) -> Step {
    let Some(place) = rows.place(tx.stamp()) else {
        let lacking = list.lacking(settings, true);
        if lacking > 0 {
            return keep(Answer::TooFew(lacking));
        }
        if rows.rows.len() as u64 >= settings.capacity {
            return keep(Answer::Refused(13));
        }
        let stored = Codes { log: list.decision, ..NEW };
        return (Answer::Logged(decision(list.decision), 0), Some((rows.rows.len(), stored)));
    };
    let held = Row(&rows.rows[place]);
    if !held.same(tx) {
        return keep(Answer::Refused(9));
    }
    let codes = held.codes();
    if codes.decided != NONE {
        return keep(Answer::Decided(decision(codes.decided)));
    }
    if codes.log != NONE {
        return keep(Answer::Logged(decision(codes.log), codes.log_view));
    }
    let lacking = list.lacking(settings, true);
    if lacking > 0 {
        return keep(Answer::TooFew(lacking));
    }
    (Answer::Logged(decision(list.decision), 0), Some((place, Codes { log: list.decision, log_view: 0, ..codes })))
}

fn decide(rows: Rows, tx: Body, list: &List, settings: &Settings) -> Step {
    let lacking = list.lacking(settings, false);
    if lacking > 0 {
        return keep(Answer::TooFew(lacking));
    }
    let alone = Codes { decided: list.decision, ..NEW };
    let Some(place) = rows.place(tx.stamp()) else {
        if rows.rows.len() as u64 >= settings.capacity {
            return keep(Answer::Refused(13));
        }
        return (Answer::Done, Some((rows.rows.len(), alone)));
    };
    let held = Row(&rows.rows[place]);
    match (held.same(tx), held.decided()) {
        (true, NONE) => (Answer::Done, Some((place, Codes { decided: list.decision, ..held.codes() }))),
        (true, decided) if decided == list.decision => keep(Answer::Done),
        (true, _) => keep(Answer::Refused(12)),
        (false, _) if list.decision == ABORT => keep(Answer::Refused(9)),
        (false, COMMIT) => keep(Answer::Refused(12)),
        (false, _) => (Answer::Done, Some((place, alone))),
    }
}

/// A VS or an EL: what stands before the count, where that is, and the ballots, of so many bytes each; the box first, the view last.
struct Told<'a> {
    head: &'a [u8],
    ballots: &'a [u8],
    each: usize,
}

fn cut_told<'a>(bytes: &'a [u8], mark: &[u8; 2]) -> Result<Told<'a>, u8> {
    if bytes.len() < 2 {
        return Err(1);
    }
    if !bytes.starts_with(mark) {
        return Err(2);
    }
    let (from, each) = if mark == b"VS" { (3, 3) } else { (7, 4) };
    let count = usize::from(*bytes.get(from - 1).ok_or(1)?);
    if count == 0 || count > 26 {
        return Err(3);
    }
    let (told, behind) = bytes.split_at_checked(from + each * count).ok_or(1)?;
    if !behind.is_empty() {
        return Err(4);
    }
    Ok(Told { head: &told[..from], ballots: &told[from..], each })
}

impl Told<'_> {
    fn each(&self) -> impl Iterator<Item = &[u8]> {
        self.ballots.chunks_exact(self.each)
    }

    fn views(&self) -> impl Iterator<Item = u16> + '_ {
        self.each().map(|ballot| u16_at(ballot, self.each - 2))
    }

    fn judge(&self, settings: &Settings) -> Result<(), u8> {
        let odd = |code: u8| code != 1 && code != 2;
        let wide = |number: u8| u64::from(number) >= settings.boxes();
        let election = self.each == 4;
        if election && (odd(self.head[3]) || self.each().any(|ballot| odd(ballot[1]))) {
            return Err(8);
        }
        if election && wide(self.head[2]) || self.each().any(|ballot| wide(ballot[0])) {
            return Err(5);
        }
        if !rises(self.each().map(|ballot| u16::from(ballot[0]))) {
            return Err(6);
        }
        Ok(())
    }

    /// The largest view that so many are at or above.
    fn reached(&self, needed: usize) -> Option<u16> {
        self.views().filter(|view| self.views().filter(|other| other >= view).count() >= needed).max()
    }
}

fn leader(settings: &Settings, view: u16, stamp: u64) -> u8 {
    ((u64::from(view) + stamp % settings.boxes()) % settings.boxes()) as u8
}

fn invoke(rows: Rows, tx: Body, told: &Told, settings: &Settings) -> Step {
    let Some(place) = rows.place(tx.stamp()) else { return keep(Answer::Refused(22)) };
    let (held, codes) = (Row(&rows.rows[place]), Row(&rows.rows[place]).codes());
    if !held.same(tx) {
        return keep(Answer::Refused(9));
    }
    if codes.decided != NONE {
        return keep(Answer::Decided(decision(codes.decided)));
    }
    if codes.log == NONE {
        return keep(Answer::Refused(22));
    }
    let row = THRESHOLDS[settings.f as usize - 1];
    let view = match (told.reached(row[0]), told.reached(row[1])) {
        (Some(65535), _) => return keep(Answer::Refused(24)),
        (Some(view), _) => codes.view.max(view + 1),
        (None, Some(view)) => codes.view.max(view),
        (None, None) => codes.view,
    };
    let answer = Answer::Elected { decision: decision(codes.log), view, leader: leader(settings, view, tx.stamp()) };
    (answer, Some((place, Codes { view, ..codes })))
}

fn lead(rows: Rows, tx: Body, told: &Told, settings: &Settings) -> Step {
    let place = rows.place(tx.stamp());
    let codes = match place.map(|place| Row(&rows.rows[place])) {
        Some(held) if !held.same(tx) => return keep(Answer::Refused(9)),
        Some(held) => held.codes(),
        None => NEW,
    };
    if codes.decided != NONE {
        return keep(Answer::Decided(decision(codes.decided)));
    }
    let (decided, view, all) = (told.head[3], u16_at(told.head, 4), THRESHOLDS[settings.f as usize - 1][4]);
    let agree = told.each().filter(|ballot| ballot[1] == decided).count();
    let leads = told.head[2] == leader(settings, view, tx.stamp()) && told.each().count() == all && told.views().all(|one| one == view) && 2 * agree > all;
    if !leads {
        return keep(Answer::Refused(23));
    }
    if codes.view > view || codes.log_view >= view {
        return keep(Answer::Refused(21));
    }
    if place.is_none() && rows.rows.len() as u64 >= settings.capacity {
        return keep(Answer::Refused(13));
    }
    (Answer::Logged(decision(decided), view), Some((place.unwrap_or(rows.rows.len()), Codes { log: decided, log_view: view, view, ..codes })))
}

fn read(rows: Rows, marks: &mut [u64], message: &[u8], settings: &Settings) -> Result<Answer, u8> {
    if message.len() < 12 {
        return Err(1);
    }
    if message.len() > 12 {
        return Err(4);
    }
    let (key, stamp) = pair(&message[2..]);
    if stamp == 0 || key > 511 {
        return Err(5);
    }
    if ahead(settings, stamp) {
        return Err(15);
    }
    if stamp <= rows.low() {
        return Err(18);
    }
    let mark = &mut marks[key as usize];
    *mark = stamp.max(*mark);
    let committed = rows.newest(key, stamp, rows.fold(key), |row| row.decided() == COMMIT);
    let undecided = rows.newest(key, stamp, (0, 0), |row| row.decided() == NONE && row.live());
    Ok(Answer::Found { committed, undecided })
}

/// The rows of a lent table, or 16.
fn taken(table: &[u8], capacity: usize) -> Result<Rows<'_>, u8> {
    if table.len() < table_len(capacity) || table[0] as usize > capacity {
        return Err(16);
    }
    let (head, rows) = table.split_at(HEAD);
    let rows = Rows { head, rows: &rows.as_chunks().0[..head[0] as usize] };
    if rows.all().all(Row::in_order) {
        Ok(rows)
    } else {
        Err(16)
    }
}

/// 18: the first that the state refuses.
fn not_old(rows: Rows, tx: Body) -> Result<(), u8> {
    if tx.stamp() <= rows.low() {
        return Err(18);
    }
    Ok(())
}

/// Any message but an RD as one step, and the length of its body.
fn step(rows: Rows, marks: &[u64], message: &[u8], settings: &Settings) -> Result<(Step, usize), u8> {
    let (tx, behind) = cut_transaction(&message[2..])?;
    if message.starts_with(b"PR") {
        if !behind.is_empty() {
            return Err(4);
        }
        judge_transaction(tx)?;
        not_old(rows, tx)?;
        return Ok((prepare(rows, marks, tx, settings), tx.0.len()));
    }
    if message.starts_with(b"IV") || message.starts_with(b"LD") {
        let invoking = message.starts_with(b"IV");
        let told = cut_told(behind, if invoking { b"VS" } else { b"EL" })?;
        judge_transaction(tx)?;
        told.judge(settings)?;
        not_old(rows, tx)?;
        let step = if invoking { invoke(rows, tx, &told, settings) } else { lead(rows, tx, &told, settings) };
        return Ok((step, tx.0.len()));
    }
    let list = cut_list(behind)?;
    judge_transaction(tx)?;
    let logging = message.starts_with(b"LG");
    list.judge(settings, !logging)?;
    not_old(rows, tx)?;
    let step = if logging { log(rows, tx, &list, settings) } else { decide(rows, tx, &list, settings) };
    Ok((step, tx.0.len()))
}

fn tried(table: &mut [u8], marks: &mut [u64], settings: &Settings, message: &[u8]) -> Result<Answer, u8> {
    if !settings.in_order() {
        return Err(14);
    }
    let rows = taken(table, settings.capacity as usize)?;
    let mark = message.get(..2).ok_or(1)?;
    if mark == b"RD" {
        return read(rows, marks, message, settings);
    }
    if !matches!(mark, b"PR" | b"LG" | b"DC" | b"IV" | b"LD") {
        return Err(2);
    }
    let ((answer, stored), length) = step(rows, marks, message, settings)?;
    if let Some((place, codes)) = stored {
        table[0] = table[0].max(place as u8 + 1);
        let row = &mut table[row_at(place)..][..ROW];
        (row[VOTE_AT], row[REASON_AT], row[LOG_AT], row[DECIDED_AT]) = (codes.vote, codes.reason, codes.log, codes.decided);
        row[LOG_VIEW_AT..LOG_VIEW_AT + 2].copy_from_slice(&codes.log_view.to_le_bytes());
        row[VIEW_AT..VIEW_AT + 2].copy_from_slice(&codes.view.to_le_bytes());
        row[BODY_AT..BODY_AT + length].copy_from_slice(&message[2..2 + length]);
    }
    Ok(answer)
}

/// Any of the six messages.
pub fn receive(table: &mut [u8], marks: &mut [u64], settings: &Settings, message: &[u8]) -> Answer {
    tried(table, marks, settings, message).unwrap_or_else(Answer::Refused)
}
