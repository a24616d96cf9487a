//! The engine's C functions, and one call of them on copies between guards.

use crate::model::{
    Answer, Decision, Draft, Election, ElectionReply, ElectionSheet, Holding, ListDraft, Record, Reply, Settings, Sheet, ViewSheet, ViewsDraft, Vote, MARKS,
};

use stobbarel_sys::{
    stobbarel_due, stobbarel_elect, stobbarel_election, stobbarel_fields, stobbarel_held, stobbarel_part, stobbarel_raise, stobbarel_reading,
    stobbarel_reading_el, stobbarel_reading_tx, stobbarel_reading_vl, stobbarel_reading_vs, stobbarel_receive, stobbarel_take, stobbarel_tell,
    stobbarel_thresholds, stobbarel_told, stobbarel_views, stobbarel_write_el, stobbarel_write_iv, stobbarel_write_ld, stobbarel_write_listed,
    stobbarel_write_pr, stobbarel_write_rd, stobbarel_write_tx, stobbarel_write_vl, stobbarel_write_vs,
};

/// By which function a message comes.
#[derive(Clone, Copy, Debug, PartialEq, Eq)]
pub enum Entrance {
    /// `stobbarel_receive`.
    Receive,
    /// `stobbarel_due` with this number for the mark.
    Due(u64),
    /// `stobbarel_raise` with this low mark: it takes no message, and neither clock nor read marks.
    Raise(u64),
}

impl Entrance {
    /// Numbers that are no mark's; some would be one if their upper half were dropped.
    pub const NO_MARK: [u64; 7] = [0, 7, 9, 255, 256 + 1, (1 << 32) + 2, u64::MAX];

    /// The one for messages with this mark alone.
    pub fn of(mark: &[u8; 2]) -> Option<Entrance> {
        MARKS.iter().position(|one| *one == mark).map(|place| Entrance::Due(place as u64 + 1))
    }

    pub const NAMES: [&'static str; 9] =
        ["by receive", "by due, PR", "by due, LG", "by due, DC", "by due, RD", "by due, IV", "by due, LD", "by due, a number that is no mark", "by raise"];

    pub fn name(self) -> &'static str {
        match self {
            Entrance::Receive => Self::NAMES[0],
            Entrance::Due(number @ 1..=6) => Self::NAMES[number as usize],
            Entrance::Due(_) => Self::NAMES[7],
            Entrance::Raise(_) => Self::NAMES[8],
        }
    }

    /// The marks that are taken there.
    pub fn taken(self) -> &'static [&'static [u8; 2]] {
        match self {
            Entrance::Receive => &MARKS,
            Entrance::Due(number @ 1..=6) => &MARKS[number as usize - 1..number as usize],
            Entrance::Due(_) | Entrance::Raise(_) => &[],
        }
    }
}

fn decision(code: u64) -> Option<Decision> {
    match code {
        1 => Some(Decision::Commit),
        2 => Some(Decision::Abort),
        _ => None,
    }
}

/// A vote that was cast.
fn vote_of(vote: u64, reason: u64) -> Option<Vote> {
    match (vote, reason) {
        (1, 0) => Some(Vote::Commit),
        (2, reason @ 1..=6) => Some(Vote::Abort(reason as u8)),
        (3, 0) => Some(Vote::Waiting),
        _ => None,
    }
}

/// A number that was told, be it 0, or no number, beside which there is 0.
fn number_of(told: u64, number: u64) -> Option<Option<u64>> {
    match (told, number) {
        (0, 0) => Some(None),
        (1, number) => Some(Some(number)),
        _ => None,
    }
}

/// The five numbers as an answer; none where they say no answer.
pub fn answer_of(out: [u64; 5]) -> Option<Answer> {
    match out {
        [1, vote, reason, told, number] => Some(Answer::Voted(vote_of(vote, reason)?, number_of(told, number)?)),
        [2, code, 0, 0, 0] => decision(code).map(Answer::Decided),
        [3, code, view @ 0..=65535, 0, 0] => decision(code).map(|decision| Answer::Logged(decision, view as u16)),
        [4, 0, 0, 0, 0] => Some(Answer::Done),
        [5, a, b, c, d] => Some(Answer::Found { committed: (a, b), undecided: (c, d) }),
        [6, 11, lacking @ 1..=26, 0, 0] => Some(Answer::TooFew(lacking as u8)),
        [6, number @ (1..=10 | 12..=19 | 21..=24), 0, 0, 0] => Some(Answer::Refused(number as u8)),
        [7, code, view @ 0..=65535, leader @ 0..=25, 0] => decision(code).map(|decision| Answer::Elected { decision, view: view as u16, leader: leader as u8 }),
        [8, 0, 0, 0, 0] => Some(Answer::Raised),
        _ => None,
    }
}

const GUARD: usize = 64;

/// One call. Table and marks become what the engine left; a byte written outside them is an error.
pub fn call(entrance: Entrance, table: &mut [u8], marks: &mut [u64], s: &Settings, message: &[u8]) -> Result<[u64; 5], String> {
    assert_eq!(marks.len(), 512);
    let mut room = vec![0xa5u8; table.len() + 2 * GUARD];
    room[GUARD..GUARD + table.len()].copy_from_slice(table);
    let mut places = vec![0xa5a5u64; 512 + 16];
    places[8..520].copy_from_slice(marks);
    let sent = message.to_vec();
    let mut out = [0x5a5au64; 9];
    let (t, n) = (room[GUARD..].as_mut_ptr(), table.len());
    let (k, o) = (places[8..].as_mut_ptr(), out[2..].as_mut_ptr());
    let (m, l) = (sent.as_ptr(), sent.len());
    // Each pointer is to as many numbers as the function takes, and they do not overlap.
    unsafe {
        match entrance {
            Entrance::Receive => stobbarel_receive(t, n, k, s.f, s.capacity, s.clock, s.delta, m, l, o),
            Entrance::Due(mark) => stobbarel_due(mark, t, n, k, s.f, s.capacity, s.clock, s.delta, m, l, o),
            Entrance::Raise(low) => stobbarel_raise(t, n, s.f, s.capacity, low, o),
        }
    }
    if room[..GUARD].iter().chain(&room[GUARD + table.len()..]).any(|byte| *byte != 0xa5) {
        return Err("bytes outside the table were written".into());
    }
    if places[..8].iter().chain(&places[520..]).any(|word| *word != 0xa5a5) {
        return Err("words outside the read marks were written".into());
    }
    if out[..2].iter().chain(&out[7..]).any(|word| *word != 0x5a5a) {
        return Err("words outside the answer were written".into());
    }
    if sent != message {
        return Err("the message was written".into());
    }
    table.copy_from_slice(&room[GUARD..GUARD + n]);
    marks.copy_from_slice(&places[8..520]);
    Ok([out[2], out[3], out[4], out[5], out[6]])
}

/// What a table holds under a stamp, over what stood in the eight places; the refusal 255 where they say nothing that can be held, or a byte that is not lent for
/// writing was written.
pub fn held(table: &[u8], capacity: u64, stamp: u64) -> Result<Option<Holding>, u8> {
    let lent = table.to_vec();
    let mut out = [0x5a5au64; 12];
    let number = unsafe { stobbarel_held(lent.as_ptr(), lent.len(), capacity, stamp, out[2..].as_mut_ptr()) };
    let [0x5a5a, 0x5a5a, row @ .., 0x5a5a, 0x5a5a] = out else { return Err(255) };
    match number {
        _ if lent != table => Err(255),
        0 if row == [0; 8] => Ok(None),
        0 => holding_of(table, row).map_or(Err(255), |holding| Ok(Some(holding))),
        number => Err(if row == [0; 8] { number } else { 255 }),
    }
}

/// The eight numbers as what is held; none where they say nothing that can be.
fn holding_of(table: &[u8], [at, length, vote, reason, decided, logged, logged_in, view]: [u64; 8]) -> Option<Holding> {
    let vote = if (vote, reason) == (0, 0) { Vote::None } else { vote_of(vote, reason)? };
    let settled = |code| if code == 0 { Some(None) } else { decision(code).map(Some) };
    let log = match (settled(logged)?, u16::try_from(logged_in).ok()?) {
        (None, 0) => None,
        (None, _) => return None,
        (Some(decision), view) => Some((decision, view)),
    };
    let (at, length) = (usize::try_from(at).ok()?, usize::try_from(length).ok()?);
    let body = table.get(at..at.checked_add(length)?)?.to_vec();
    Some(Holding { at, body, vote, decision: settled(decided)?, log, view: view.try_into().ok()? })
}

/// Reading alone: the length of the transaction's bytes, or the refusal.
pub fn reading(message: &[u8], f: u64) -> Result<usize, u8> {
    let (number, part) = unsafe { (stobbarel_reading(f, message.as_ptr(), message.len()), stobbarel_part(f, message.as_ptr(), message.len())) };
    match (number, part) {
        (0, part) => Ok(part),
        (number, 0) => Err(number),
        (_, _) => Err(255),
    }
}

/// One answer for a sheet; none where the five numbers say no reply.
pub fn tally(sheet: &mut Sheet, f: u64, number: u64, answer: u64) -> Option<Reply> {
    let mut out = [99u8; 5];
    unsafe { stobbarel_take(sheet.kind, &mut sheet.commits, &mut sheet.aborts, f, number, answer, out.as_mut_ptr()) }
    match out {
        [1, lacking @ ..] => Some(Reply::Votes(lacking)),
        [2, commit_proof, abort_proof, 0, 0] => Some(Reply::Logs([commit_proof, abort_proof])),
        [3, 0, 0, 0, 0] => Some(Reply::Repeat),
        [4, number, 0, 0, 0] => Some(Reply::Refused(number)),
        _ => None,
    }
}

/// One election answer for a leader's sheet; none where the two numbers say no reply.
pub fn elect(sheet: &mut ElectionSheet, f: u64, number: u64, answer: u64, view: u64) -> Option<ElectionReply> {
    let mut out = [99u8; 3];
    unsafe { stobbarel_elect(sheet.view, &mut sheet.commits, &mut sheet.aborts, f, number, answer, view, out.as_mut_ptr()) }
    match out {
        [1, lacking, 99] => Some(ElectionReply::Taken(lacking)),
        [2, 0, 99] => Some(ElectionReply::OtherView),
        [3, 0, 99] => Some(ElectionReply::Repeat),
        [4, number, 99] => Some(ElectionReply::Refused(number)),
        _ => None,
    }
}

/// What a leader's sheet makes for a stamp, over what stood there before; the refusal 255 where the numbers say no election, or places beside it are not 0.
pub fn election(sheet: &ElectionSheet, f: u64, stamp: u64) -> Result<Election, u8> {
    let (mut head, mut numbers, mut answers, mut views) = ([99; 5], [99; 26], [99; 26], [99; 26]);
    let number = unsafe {
        stobbarel_election(sheet.view, sheet.commits, sheet.aborts, f, stamp, head.as_mut_ptr(), numbers.as_mut_ptr(), answers.as_mut_ptr(), views.as_mut_ptr())
    };
    let [leader, code, view, count, behind] = head;
    let listed: Vec<(u8, u8, u16)> = (0..26).map(|i| (numbers[i], answers[i], views[i])).collect();
    if behind != 99 || count > 26 || listed[count as usize..].iter().any(|place| *place != (0, 0, 0)) {
        return Err(255);
    }
    if number != 0 {
        return Err(if [leader, code, view, count] == [0; 4] { number } else { 255 });
    }
    let answers = listed[..count as usize].iter().map(|(number, code, view)| Some((*number, decision((*code).into())?, *view))).collect::<Option<_>>();
    match (u8::try_from(leader), decision(code), u16::try_from(view), answers) {
        (Ok(leader), Some(decision), Ok(view), Some(answers)) => Ok(Election { leader, decision, view, answers }),
        _ => Err(255),
    }
}

/// A box told its view: the refusal's number, or 0.
pub fn tell(sheet: &mut ViewSheet, f: u64, number: u64, view: u64) -> u8 {
    unsafe { stobbarel_tell(&mut sheet.told, sheet.views.as_mut_ptr(), f, number, view) }
}

/// The boxes and views of a sheet, over what stood there before; the refusal 255 where places beside them are not 0.
pub fn told(sheet: &ViewSheet, f: u64) -> Result<Vec<(u8, u16)>, u8> {
    let (mut count, mut numbers, mut listed) = (99, [99; 26], [99; 26]);
    let number = unsafe { stobbarel_told(sheet.told, sheet.views.as_ptr(), f, &mut count, numbers.as_mut_ptr(), listed.as_mut_ptr()) };
    let all: Vec<(u8, u16)> = numbers.into_iter().zip(listed).collect();
    match number {
        _ if count > 26 || all[count..].iter().any(|place| *place != (0, 0)) => Err(255),
        0 => Ok(all[..count].to_vec()),
        number => Err(if count == 0 { number } else { 255 }),
    }
}

fn split<A: Copy + Default, B: Copy + Default, const N: usize>(pairs: &[(A, B); N]) -> ([A; N], [B; N]) {
    (pairs.map(|pair| pair.0), pairs.map(|pair| pair.1))
}

/// What a record is made of; zeros for what it does not have.
fn drafts(record: &Record) -> (Draft, ListDraft, ViewsDraft) {
    let (tx, list, told) = (Draft::default(), ListDraft::default(), ViewsDraft::default());
    match record {
        Record::Tx(draft) | Record::Pr(draft) => (*draft, list, told),
        Record::Vl(list) => (tx, *list, told),
        Record::Listed(_, draft, list) => (*draft, *list, told),
        Record::Rd { .. } => (tx, list, told),
        Record::Vs(told) | Record::El(told) => (tx, list, *told),
        Record::Iv(draft, told) | Record::Ld(draft, told) => (*draft, list, *told),
    }
}

/// One writer on a copy of the buffer between guards, which becomes what the engine left: the number and the length.
pub fn write(record: &Record, f: u64, out: &mut [u8]) -> Result<(u8, usize), String> {
    let mut room = vec![0xa5u8; out.len() + 2 * GUARD];
    room[GUARD..GUARD + out.len()].copy_from_slice(out);
    let mut length = usize::MAX;
    let (draft, list, told) = drafts(record);
    let ballots = (told.ballots.map(|one| one.0), told.ballots.map(|one| one.1), told.ballots.map(|one| one.2));
    let lent = (split(&draft.reads), split(&draft.writes), split(&list.pairs), ballots);
    let copy = lent;
    let ((k, v), (l, u), (b, a), (c, e, g)) = (&lent.0, &lent.1, &lent.2, &lent.3);
    let (k, v, l, u) = (k.as_ptr(), v.as_ptr(), l.as_ptr(), u.as_ptr());
    let (c, e, g) = (c.as_ptr(), e.as_ptr(), g.as_ptr());
    let (b, a, o, n) = (b.as_ptr(), a.as_ptr(), room[GUARD..].as_mut_ptr(), out.len());
    let (s, r, w) = (draft.stamp, draft.r, draft.w);
    let ViewsDraft { leader, decision, view, count, .. } = told;
    // Each pointer is to as many numbers as the function takes, and they do not overlap.
    let number = unsafe {
        match record {
            Record::Tx(_) => stobbarel_write_tx(s, r, w, k, v, l, u, o, n, &mut length),
            Record::Vl(_) => stobbarel_write_vl(f, list.kind, list.decision, list.view, list.count, b, a, o, n, &mut length),
            Record::Pr(_) => stobbarel_write_pr(s, r, w, k, v, l, u, o, n, &mut length),
            Record::Listed(mark, ..) => {
                stobbarel_write_listed(*mark, f, s, r, w, k, v, l, u, list.kind, list.decision, list.view, list.count, b, a, o, n, &mut length)
            }
            Record::Rd { key, stamp } => stobbarel_write_rd(*key, *stamp, o, n, &mut length),
            Record::Vs(_) => stobbarel_write_vs(f, count, c, g, o, n, &mut length),
            Record::El(_) => stobbarel_write_el(f, leader, decision, view, count, c, e, g, o, n, &mut length),
            Record::Iv(..) => stobbarel_write_iv(f, s, r, w, k, v, l, u, count, c, g, o, n, &mut length),
            Record::Ld(..) => stobbarel_write_ld(f, s, r, w, k, v, l, u, leader, decision, view, count, c, e, g, o, n, &mut length),
        }
    };
    if room[..GUARD].iter().chain(&room[GUARD + out.len()..]).any(|byte| *byte != 0xa5) {
        return Err("bytes outside the buffer were written".into());
    }
    if lent != copy {
        return Err("a record's values were written".into());
    }
    out.copy_from_slice(&room[GUARD..GUARD + n]);
    Ok((number, length))
}

/// A TX by itself: the refusal's number, or 0.
pub fn reading_tx(bytes: &[u8]) -> u8 {
    unsafe { stobbarel_reading_tx(bytes.as_ptr(), bytes.len()) }
}

/// A VL by itself.
pub fn reading_vl(bytes: &[u8], f: u64) -> u8 {
    unsafe { stobbarel_reading_vl(f, bytes.as_ptr(), bytes.len()) }
}

/// A VS by itself.
pub fn reading_vs(bytes: &[u8], f: u64) -> u8 {
    unsafe { stobbarel_reading_vs(f, bytes.as_ptr(), bytes.len()) }
}

/// An EL by itself.
pub fn reading_el(bytes: &[u8], f: u64) -> u8 {
    unsafe { stobbarel_reading_el(f, bytes.as_ptr(), bytes.len()) }
}

/// What a reader makes of the views in a message: the refusal's number, or 0; the number of the mark; what boxes told.
pub type Views = (u8, u64, ViewsDraft);

/// A message's views, over what stood there before; 255 where a number behind the fifth was written.
pub fn views(message: &[u8], f: u64) -> Views {
    let (mut head, mut numbers, mut answers, mut views) = ([99; 6], [99; 26], [99; 26], [99; 26]);
    let number =
        unsafe { stobbarel_views(f, message.as_ptr(), message.len(), head.as_mut_ptr(), numbers.as_mut_ptr(), answers.as_mut_ptr(), views.as_mut_ptr()) };
    let [mark, leader, decision, view, count, behind] = head;
    let told = ViewsDraft {
        leader: leader as u8,
        decision: decision as u8,
        view: view as u16,
        count: count as usize,
        ballots: std::array::from_fn(|i| (numbers[i], answers[i], views[i])),
    };
    let fits = behind == 99 && leader < 256 && decision < 256 && view < 65536;
    (if fits { number } else { 255 }, mark, told)
}

/// What a reader makes of a message: the refusal's number, or 0; the head's nine numbers; its values as drafts.
pub type Fields = (u8, [u64; 9], Draft, ListDraft);

/// A message's values, over what stood there before; 255 where a number behind the ninth was written.
pub fn fields(message: &[u8], f: u64) -> Fields {
    let (mut head, mut reads, mut versions, mut writes, mut values) = ([99; 10], [99; 8], [99; 8], [99; 8], [99; 8]);
    let (mut numbers, mut answers) = ([99; 26], [99; 26]);
    let number = unsafe {
        stobbarel_fields(
            f,
            message.as_ptr(),
            message.len(),
            head.as_mut_ptr(),
            reads.as_mut_ptr(),
            versions.as_mut_ptr(),
            writes.as_mut_ptr(),
            values.as_mut_ptr(),
            numbers.as_mut_ptr(),
            answers.as_mut_ptr(),
        )
    };
    let draft = Draft {
        stamp: head[1],
        r: head[2] as usize,
        w: head[3] as usize,
        reads: std::array::from_fn(|i| (reads[i], versions[i])),
        writes: std::array::from_fn(|i| (writes[i], values[i])),
    };
    let list = ListDraft {
        kind: head[5] as u8,
        decision: head[6] as u8,
        view: head[7] as u16,
        count: head[8] as usize,
        pairs: std::array::from_fn(|i| (numbers[i], answers[i])),
    };
    let [head @ .., behind] = head;
    (if behind == 99 { number } else { 255 }, head, draft, list)
}

/// n and the five thresholds, over what stood there before; 14 or 0.
pub fn thresholds(f: u64, before: [u64; 6]) -> (u8, [u64; 6]) {
    let mut out = before;
    let number = unsafe { stobbarel_thresholds(f, out.as_mut_ptr()) };
    (number, out)
}
