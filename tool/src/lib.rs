//! Records as text, for people: each of the twelve as a line, what a box answers to them, and a kept table. What is read and written goes through the package's
//! readers and writers; docs/TOOL.md has the text's grammar.
#![deny(missing_docs)]

mod commands;
mod line;
mod record;
mod run;
mod table;
mod text;
mod words;

pub use commands::{told, Outcome};
pub use line::{pack_line, Wrong};
pub use record::{cut, group_behind, read, write, Record};
pub use run::{run, Line};
pub use table::{capacity_by_length, read_marks, readable};
pub use words::{answer, refusal};
