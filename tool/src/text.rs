//! A record as its line of text, in the one form.

use crate::record::Record;
use std::fmt::{Display, Formatter, Result};
use stobbarel::{Decision, Election, Kind, Message, Transaction, View, VoteList};

/// A box's answer behind its number.
fn sign(answer: Decision) -> char {
    match answer {
        Decision::Commit => '+',
        Decision::Abort => '-',
    }
}

/// Reads as `key@version`, with their word in front; nothing where there are none.
pub(crate) fn reads(tx: &Transaction) -> String {
    tx.reads.iter().map(|(key, version)| format!(" {key}@{version}")).collect()
}

/// Writes as `key=value`.
pub(crate) fn writes(tx: &Transaction) -> String {
    tx.writes.iter().map(|(key, value)| format!(" {key}={value}")).collect()
}

fn transaction(tx: &Transaction) -> String {
    let part = |word: &str, pairs: String| if pairs.is_empty() { pairs } else { format!(" {word}{pairs}") };
    format!("{}{}{}", tx.stamp, part("reads", reads(tx)), part("writes", writes(tx)))
}

fn list(list: &VoteList) -> String {
    let pairs: String = list.pairs.iter().map(|(number, answer)| format!(" {number}{}", sign(*answer))).collect();
    match list.kind {
        Kind::Votes => format!("votes {}{pairs}", list.decision),
        Kind::Logs => format!("logs {} view {}{pairs}", list.decision, list.view),
    }
}

fn views(views: &[(u8, View)]) -> String {
    let pairs: String = views.iter().map(|(number, view)| format!(" {number}:{view}")).collect();
    format!("views{pairs}")
}

fn election(election: &Election) -> String {
    let answers: String = election.answers.iter().map(|(number, answer, view)| format!(" {number}{}{view}", sign(*answer))).collect();
    format!("leader {} decision {} view {} answers{answers}", election.leader, election.decision, election.view)
}

fn message(message: &Message) -> String {
    match message {
        Message::Prepare(tx) => format!("PR {}", transaction(tx)),
        Message::Log(tx, votes) => format!("LG {} {}", transaction(tx), list(votes)),
        Message::Decide(tx, proof) => format!("DC {} {}", transaction(tx), list(proof)),
        Message::Read(key, stamp) => format!("RD {key} at {stamp}"),
        Message::Invoke(tx, told) => format!("IV {} {}", transaction(tx), views(told)),
        Message::Lead(tx, led) => format!("LD {} {}", transaction(tx), election(led)),
    }
}

impl Display for Record {
    fn fmt(&self, out: &mut Formatter) -> Result {
        match self {
            Record::Gp { f, capacity, delta } => write!(out, "GP f {f} capacity {capacity} delta {delta}"),
            Record::Ck(clock) => write!(out, "CK clock {clock}"),
            Record::Lm(low) => write!(out, "LM {low}"),
            Record::Message(one) => out.write_str(&message(one)),
            Record::Tx(tx) => write!(out, "TX {}", transaction(tx)),
            Record::Vl(one) => write!(out, "VL {}", list(one)),
            Record::Vs(told) => write!(out, "VS {}", views(told)),
            Record::El(led) => write!(out, "EL {}", election(led)),
        }
    }
}
