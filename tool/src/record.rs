//! The thirteen records: read from any bytes, written in their one form. The bench's own three, GP, CK and LM, are read and written here, all others by the package.

use stobbarel::{check_el, check_vl, check_vs, read_message, read_tx, write_el, write_message, write_tx, write_vl, write_vs};
use stobbarel::{Election, Group, Key, Message, Refusal, Stamp, Table, Transaction, Views, VoteList, LONGEST};

/// A record by itself.
#[derive(Clone, Debug, PartialEq, Eq)]
#[allow(clippy::large_enum_variant)] // as the package has its messages
pub enum Record {
    /// GP: what the bench is told first.
    Gp {
        /// 1 to 5.
        f: u8,
        /// 1 to 255.
        capacity: u8,
        /// δ.
        delta: u64,
    },
    /// CK: the clock from here on.
    Ck(u64),
    /// LM: the low mark to be raised to.
    Lm(u64),
    /// PR, LG, DC, RD, IV or LD.
    Message(Message),
    /// TX.
    Tx(Transaction),
    /// VL.
    Vl(VoteList),
    /// VS.
    Vs(Views),
    /// EL.
    El(Election),
}

const GP: usize = 12;
const CK: usize = 10;
const LM: usize = 10;

fn eight(bytes: &[u8]) -> u64 {
    u64::from_le_bytes(bytes.try_into().expect("eight bytes"))
}

/// 1 or 4, for a record of a fixed length.
fn length_is(length: usize, bytes: &[u8]) -> Result<(), Refusal> {
    match bytes.len() {
        n if n < length => Err(Refusal::Short),
        n if n > length => Err(Refusal::Trailing),
        _ => Ok(()),
    }
}

/// 14 where f or the capacity is none, as an empty table of them says.
fn told_right(f: u8, capacity: u8) -> Result<(), Refusal> {
    Table::new(Group::of(f)?, capacity.into()).map(|_| ())
}

fn read_gp(bytes: &[u8]) -> Result<Record, Refusal> {
    length_is(GP, bytes)?;
    let (f, capacity, delta) = (bytes[2], bytes[3], eight(&bytes[4..]));
    told_right(f, capacity)?;
    Ok(Record::Gp { f, capacity, delta })
}

fn read_ck(bytes: &[u8]) -> Result<Record, Refusal> {
    length_is(CK, bytes)?;
    Ok(Record::Ck(eight(&bytes[2..])))
}

fn read_lm(bytes: &[u8]) -> Result<Record, Refusal> {
    length_is(LM, bytes)?;
    Ok(Record::Lm(eight(&bytes[2..])))
}

/// A message of this mark: a transaction in order, and behind it a list by itself. The package reads a list's values inside a message only.
fn around(group: Group, mark: &[u8; 2], list: &[u8]) -> Result<Message, Refusal> {
    let tx = Transaction::new(Stamp(1), [], [(Key(0), 0)]);
    read_message(group, &[&mark[..], write_tx(&tx, &mut [0; LONGEST])?, list].concat())
}

fn read_vl(group: Group, bytes: &[u8]) -> Result<Record, Refusal> {
    check_vl(group, bytes)?;
    match around(group, b"DC", bytes)? {
        Message::Decide(_, list) => Ok(Record::Vl(list)),
        _ => unreachable!("it has the mark of a DC"),
    }
}

fn read_vs(group: Group, bytes: &[u8]) -> Result<Record, Refusal> {
    check_vs(group, bytes)?;
    match around(group, b"IV", bytes)? {
        Message::Invoke(_, views) => Ok(Record::Vs(views)),
        _ => unreachable!("it has the mark of an IV"),
    }
}

fn read_el(group: Group, bytes: &[u8]) -> Result<Record, Refusal> {
    check_el(group, bytes)?;
    match around(group, b"LD", bytes)? {
        Message::Lead(_, election) => Ok(Record::El(election)),
        _ => unreachable!("it has the mark of an LD"),
    }
}

/// What these bytes say, which are one record; box numbers are those of the group.
pub fn read(group: Group, bytes: &[u8]) -> Result<Record, Refusal> {
    match bytes.get(..2) {
        Some(b"GP") => read_gp(bytes),
        Some(b"CK") => read_ck(bytes),
        Some(b"LM") => read_lm(bytes),
        Some(b"TX") => read_tx(bytes).map(Record::Tx),
        Some(b"VL") => read_vl(group, bytes),
        Some(b"VS") => read_vs(group, bytes),
        Some(b"EL") => read_el(group, bytes),
        _ => read_message(group, bytes).map(Record::Message),
    }
}

/// How many bytes the record in front has: as few as its reader does not call short, since 1 goes before all that stands behind the cut. A wrong mark or count
/// is among them, and refused when they are read.
pub fn cut<T>(bytes: &[u8], read: impl Fn(&[u8]) -> Result<T, Refusal>) -> Result<usize, Refusal> {
    let short = |length: usize| matches!(read(&bytes[..length]), Err(Refusal::Short));
    let (mut low, mut high) = (0, bytes.len().min(LONGEST));
    if short(high) {
        return Err(Refusal::Short);
    }
    // Short at every length below one, and at none from there on.
    while low < high {
        let middle = (low + high) / 2;
        (low, high) = if short(middle) { (middle + 1, high) } else { (low, middle) };
    }
    Ok(low)
}

fn write_gp(f: u8, capacity: u8, delta: u64, out: &mut [u8]) -> Result<&[u8], Refusal> {
    told_right(f, capacity)?;
    out[..4].copy_from_slice(&[b'G', b'P', f, capacity]);
    out[4..GP].copy_from_slice(&delta.to_le_bytes());
    Ok(&out[..GP])
}

/// CK and LM: a mark and a number.
fn write_number<'a>(mark: &[u8; 2], number: u64, out: &'a mut [u8]) -> &'a [u8] {
    out[..2].copy_from_slice(mark);
    out[2..10].copy_from_slice(&number.to_le_bytes());
    &out[..10]
}

/// The record's bytes, or the writer's refusal.
pub fn write(group: Group, record: &Record) -> Result<Vec<u8>, Refusal> {
    let out = &mut [0; LONGEST][..];
    let written = match record {
        Record::Gp { f, capacity, delta } => write_gp(*f, *capacity, *delta, out)?,
        Record::Ck(clock) => write_number(b"CK", *clock, out),
        Record::Lm(low) => write_number(b"LM", *low, out),
        Record::Message(message) => write_message(group, message, out)?,
        Record::Tx(tx) => write_tx(tx, out)?,
        Record::Vl(list) => write_vl(group, list, out)?,
        Record::Vs(views) => write_vs(group, views, out)?,
        Record::El(election) => write_el(group, election, out)?,
    };
    Ok(written.to_vec())
}

/// The group of the records behind this one: a GP tells it.
pub fn group_behind(group: Group, record: &Record) -> Group {
    match record {
        Record::Gp { f, .. } => Group::of(*f).unwrap_or(group),
        _ => group,
    }
}
