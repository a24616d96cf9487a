//! Messages put together from their parts.

use crate::model::{transaction_bytes, Decision, Election, Kind, Transaction};

pub fn transaction(stamp: u64, reads: &[(u16, u64)], writes: &[(u16, u64)]) -> Transaction {
    Transaction { mark: *b"TX", stamp, reads: reads.to_vec(), writes: writes.to_vec() }
}

pub fn tx(stamp: u64, reads: &[(u16, u64)], writes: &[(u16, u64)]) -> Vec<u8> {
    transaction_bytes(&transaction(stamp, reads, writes))
}

pub fn pr(tx: &[u8]) -> Vec<u8> {
    [b"PR", tx].concat()
}

pub fn rd(key: u16, stamp: u64) -> Vec<u8> {
    [&b"RD"[..], &key.to_le_bytes(), &stamp.to_le_bytes()].concat()
}

/// The paper's number for a decision or an answer.
pub fn code(decision: Decision) -> u8 {
    match decision {
        Decision::Commit => 1,
        Decision::Abort => 2,
    }
}

/// An LG or a DC; logs are of view 0, as those from an LG are.
pub fn with_list(mark: &[u8; 2], tx: &[u8], kind: Kind, decision: Decision, answers: &[(u8, Decision)]) -> Vec<u8> {
    with_view(mark, tx, kind, decision, 0, answers)
}

/// The same with logs of a view; votes have none.
pub fn with_view(mark: &[u8; 2], tx: &[u8], kind: Kind, decision: Decision, view: u16, answers: &[(u8, Decision)]) -> Vec<u8> {
    let number = if kind == Kind::Votes { 1 } else { 2 };
    let mut bytes = [&mark[..], tx, b"VL", &[number, code(decision), answers.len() as u8]].concat();
    if kind == Kind::Logs {
        bytes.extend(view.to_le_bytes());
    }
    bytes.extend(answers.iter().flat_map(|(number, answer)| [*number, code(*answer)]));
    bytes
}

/// An IV: boxes and the views that they told.
pub fn iv(tx: &[u8], views: &[(u8, u16)]) -> Vec<u8> {
    let mut bytes = [b"IV", tx, b"VS", &[views.len() as u8]].concat();
    for (number, view) in views {
        bytes.push(*number);
        bytes.extend(view.to_le_bytes());
    }
    bytes
}

/// An LD: what a leader decides, and the election answers under it.
pub fn ld(tx: &[u8], led: &Election) -> Vec<u8> {
    let mut bytes = [b"LD", tx, b"EL", &[led.leader, code(led.decision)], &led.view.to_le_bytes(), &[led.answers.len() as u8]].concat();
    for (number, answer, view) in &led.answers {
        bytes.extend([*number, code(*answer)]);
        bytes.extend(view.to_le_bytes());
    }
    bytes
}
