//! One box of a register, its records, and the gateway's tally: the proved engine behind safe functions.
//!
//! What can be refused is a `Result` with a [`Refusal`], what may be absent an `Option`; a box's number is a `u8`. Nothing here allocates but what the feature
//! `alloc` brings, which is on by default: a [`Table`] that owns its bytes, and the gateway's procedure ([`Desk`], [`Gateway`], [`Leader`], [`Pace`]).
//! No function looks at a signature: whoever calls has checked those beside a message.
//!
//! ```
//! use stobbarel::{Answer, Decision, Group, Key, LONGEST, Refusal, Reply, Sheet, Stamp, Table, Transaction, Version, View, Vote, write_lg, write_pr, write_rd};
//!
//! let group = Group::of(1)?;
//! let mut table = Table::new(group, 8)?;
//! let mut buffer = [0; LONGEST];
//!
//! // 50 writes 7 at key 3: a vote for commit.
//! let tx = Transaction::new(Stamp(50), [], [(Key(3), 7)]);
//! let answer = table.receive(100, 10, write_pr(&tx, &mut buffer)?)?;
//! assert_eq!(answer, Answer::Voted(Vote::Commit, Some(0)));
//!
//! // An RD shows it, undecided.
//! let answer = table.receive(100, 10, write_rd(Key(3), Stamp(60), &mut buffer)?)?;
//! assert_eq!(answer, Answer::Found { committed: None, undecided: Some(Version { stamp: Stamp(50), value: 7 }) });
//!
//! // A gateway hears commit from four of the six boxes: enough to log it.
//! let mut sheet = Sheet::votes(group);
//! for number in 0..3 {
//!     assert!(!sheet.take(number, Decision::Commit)?.list_reached(Decision::Commit));
//! }
//! let reply = sheet.take(3, Decision::Commit)?;
//! assert!(reply.list_reached(Decision::Commit));
//! // Two more would prove it.
//! assert_eq!(reply, Reply::Votes { commit_list: 0, abort_list: 2, commit_proof: 2, abort_proof: 4 });
//!
//! // The box logs it. What boxes log goes on a sheet of its own, which is for one view: Sheet::logs(group, View(0)).
//! let answer = table.receive(100, 10, write_lg(group, &tx, &sheet.list(Decision::Commit), &mut buffer)?)?;
//! assert_eq!(answer, Answer::Logged(Decision::Commit, View(0)));
//! # Ok::<(), Refusal>(())
//! ```
#![no_std]
#![deny(missing_docs, missing_debug_implementations)]
#![cfg_attr(not(feature = "alloc"), allow(rustdoc::broken_intra_doc_links))]

#[cfg(feature = "alloc")]
extern crate alloc;

mod answer;
#[cfg(feature = "alloc")]
mod desk;
mod election;
#[cfg(feature = "alloc")]
mod gateway;
mod held;
#[cfg(feature = "alloc")]
mod leader;
mod passage;
mod records;
mod refusal;
mod sheet;
mod short;
mod table;
mod terms;
mod upto;

pub use answer::{Answer, Version, Vote};
#[cfg(feature = "alloc")]
pub use desk::{Desk, Holding, MOST_HOLDINGS, Question, in_the_way};
pub use election::{ElectionReply, ElectionSheet, ViewSheet};
#[cfg(feature = "alloc")]
pub use gateway::{Gateway, Letter, Load, Timing};
pub use held::Held;
pub use layout::LONGEST;
#[cfg(feature = "alloc")]
pub use leader::{Leader, Pace, question};
pub use passage::{Asks, Passage, Report, Seen, Values};
pub use records::{Election, Message, Transaction, Views, VoteList, check_el, check_tx, check_vl, check_vs, read_message, read_tx, tx_part};
pub use records::{write_dc, write_el, write_iv, write_ld, write_lg, write_message, write_pr, write_rd, write_tx, write_vl, write_vs};
pub use refusal::Refusal;
pub use sheet::{Reply, Sheet};
/// How a table is laid out, as `include/stobbarel.h` has it.
pub use stobbarel_sys::layout;
pub use table::Table;
pub use terms::{Decision, Group, Key, Kind, Mark, NoSuchCode, Reason, Stamp, View};
pub use upto::UpTo;

/// The version of the engine that is linked: major * 1000000 + minor * 1000 + patch.
///
/// ```
/// assert_eq!(stobbarel::version(), 7_000);
/// ```
#[must_use]
pub fn version() -> u32 {
    // SAFETY: it takes nothing.
    unsafe { stobbarel_sys::stobbarel_version() }
}
