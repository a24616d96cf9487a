//! What a table holds under a stamp, once more in ordinary Rust.

use super::*;

/// The first entry of a stamp: where its TX begins in the table, its bytes, and what is held beside it.
#[derive(Clone, Debug, PartialEq, Eq)]
pub struct Holding {
    pub at: usize,
    pub body: Vec<u8>,
    pub vote: Vote,
    pub decision: Option<Decision>,
    /// The logged decision and its view.
    pub log: Option<(Decision, u16)>,
    /// The current view.
    pub view: u16,
}

/// What a lent table holds under a stamp; 14 for the capacity, then 16.
pub fn held(table: &[u8], capacity: u64, stamp: u64) -> Result<Option<Holding>, u8> {
    if !(1..=255).contains(&capacity) {
        return Err(GROUP);
    }
    let entries = entries_of(table, capacity as usize).ok_or(TABLE)?;
    let first = entries.into_iter().enumerate().find(|(_, entry)| entry.body.stamp == stamp);
    Ok(first.map(|(place, entry)| Holding {
        at: row_at(place) + BODY_AT,
        body: transaction_bytes(&entry.body),
        vote: entry.vote,
        decision: entry.decision,
        log: entry.log,
        view: entry.view,
    }))
}
