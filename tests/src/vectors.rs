//! Records read and written, messages by each entrance, bodies that a box logs before it has their PR, lists, the fallback, and answers taken by sheets: each refusal at its smallest
//! fault, two faults at once for neighbours in 01's order, and both sides of each threshold. The answers due are written down from 01 and 02; the engine, by its C interface,
//! and the model have to give them.
//! What the bench program can show of reading stands in tests/bench; here is the rest. Those of the fallback are in vectors/fallback.rs, those of what is held in vectors/held.rs,
//! those of the entries that a PR visits in vectors/visits.rs, those of old entries let go in vectors/low.rs.

mod fallback;
mod held;
mod low;
mod visits;

use crate::engine::{self, Entrance, Fields, Views};
use crate::member::Model;
use crate::model::{self, Answer, Decision, Draft, ListDraft, Record, Reply, Settings, Sheet, ViewsDraft, Vote, DC, LG, PAPER, THRESHOLDS};
use crate::records::Clerk;
use stobbarel::layout::{table_len, DECIDED_AT, HEAD, LOG_AT, REASON_AT, ROW, VOTE_AT};

/// How many were tried, and how many differ.
#[derive(Default)]
struct Tried {
    all: u64,
    wrong: u64,
}

impl Tried {
    fn one<T: PartialEq + std::fmt::Debug>(&mut self, what: &str, due: T, by_engine: T, by_model: T) {
        self.all += 1;
        for (who, given) in [("engine", by_engine), ("model", by_model)] {
            if given != due {
                self.wrong += 1;
                println!("{what}: the {who} gives {given:?}, and {due:?} is due");
            }
        }
    }
}

// ---- reading

/// 50 writes 7 at key 3, 22 bytes; 0 in its place writes it; 50 reads key 3 at 40 and writes it, 32 bytes.
const BODY: &[u8] = b"TX\x00\x01\x32\0\0\0\0\0\0\0\x03\0\x07\0\0\0\0\0\0\0";
const STAMP_0: &[u8] = b"TX\x00\x01\0\0\0\0\0\0\0\0\x03\0\x07\0\0\0\0\0\0\0";
const BOTH: &[u8] = b"TX\x01\x01\x32\0\0\0\0\0\0\0\x03\0\x28\0\0\0\0\0\0\0\x03\0\x07\0\0\0\0\0\0\0";
const VOTE: &[u8] = b"VL\x01\x01\x01\x00\x01";
/// A log of view 0, and one of view 0x1234.
const LOG: &[u8] = b"VL\x02\x01\x01\0\0\x00\x01";
const LOG_LATER: &[u8] = b"VL\x02\x01\x01\x34\x12\x00\x01";

/// Box 0 is in view 0x1234; box 3 leads view 1 of 50, and box 0 answered commit.
const VIEW: &[u8] = b"VS\x01\0\x34\x12";
const ELECTED: &[u8] = b"EL\x03\x01\x01\0\x01\0\x01\x01\0";

/// A message for a group of f: the refusal's number, or how many of its bytes are handed back as the transaction.
const MESSAGES: [(&str, u64, &[&[u8]], Result<usize, u8>); 34] = [
    ("nothing", 1, &[], Err(1)),
    ("a PR of one write", 1, &[b"PR", BODY], Ok(22)),
    ("a PR of a read and a write", 1, &[b"PR", BOTH], Ok(32)),
    ("an LG", 1, &[b"LG", BODY, VOTE], Ok(22)),
    ("a DC", 1, &[b"DC", BODY, VOTE], Ok(22)),
    ("a DC of logs", 1, &[b"DC", BODY, LOG], Ok(22)),
    ("a DC of logs of a later view", 1, &[b"DC", BODY, LOG_LATER], Ok(22)),
    ("a DC of logs of the last view", 1, &[b"DC", BODY, b"VL\x02\x01\x01\xff\xff\x00\x01"], Ok(22)),
    ("a DC of logs without a view", 1, &[b"DC", BODY, b"VL\x02\x01\x01\x00\x01"], Err(1)),
    ("a byte behind a DC of logs", 1, &[b"DC", BODY, LOG, b"\0"], Err(4)),
    ("a DC of votes with a view", 1, &[b"DC", BODY, b"VL\x01\x01\x01\0\0\x00\x01"], Err(4)),
    ("an LG of logs with their view", 1, &[b"LG", BODY, LOG], Err(8)),
    ("an RD", 1, &[b"RD\x03\0\x3c\0\0\0\0\0\0\0"], Ok(0)),
    ("box 25 of 26", 5, &[b"DC", BODY, b"VL\x01\x01\x01\x19\x01"], Ok(22)),
    ("14 before 1", 0, &[], Err(14)),
    ("14 before 2", 6, &[b"TX"], Err(14)),
    ("a byte behind a PR", 1, &[b"PR", BODY, b"\0"], Err(4)),
    ("a byte behind an LG", 1, &[b"LG", BODY, VOTE, b"\0"], Err(4)),
    ("a byte behind a DC", 1, &[b"DC", BODY, VOTE, b"\0"], Err(4)),
    ("a byte behind an RD", 1, &[b"RD\x03\0\x3c\0\0\0\0\0\0\0", b"\0"], Err(4)),
    ("4 before 5: stamp 0", 1, &[b"PR", STAMP_0, b"\0"], Err(4)),
    ("4 before 5: an RD of key 512 at 0", 1, &[b"RD\0\x02\0\0\0\0\0\0\0\0", b"\0"], Err(4)),
    ("an IV", 1, &[b"IV", BODY, VIEW], Ok(22)),
    ("an IV of a read and a write", 1, &[b"IV", BOTH, VIEW], Ok(32)),
    ("an LD", 1, &[b"LD", BODY, ELECTED], Ok(22)),
    ("an LD of box 25 of 26", 5, &[b"LD", BODY, b"EL\x19\x02\xff\xff\x01\x19\x02\0\0"], Ok(22)),
    ("a byte behind an IV", 1, &[b"IV", BODY, VIEW, b"\0"], Err(4)),
    ("a byte behind an LD", 1, &[b"LD", BODY, ELECTED, b"\0"], Err(4)),
    ("an IV with the answers of an LD", 1, &[b"IV", BODY, ELECTED], Err(2)),
    ("an LD with the views of an IV", 1, &[b"LD", BODY, VIEW], Err(2)),
    ("an IV with votes", 1, &[b"IV", BODY, VOTE], Err(2)),
    ("an LD with logs", 1, &[b"LD", BODY, LOG], Err(2)),
    ("an LG with views", 1, &[b"LG", BODY, VIEW], Err(2)),
    ("5 of the transaction before 8 of the answers", 1, &[b"LD", STAMP_0, b"EL\x03\x03\x01\0\x01\0\x01\x01\0"], Err(5)),
];

/// A TX by itself: the refusal's number, or 0.
const TX: [(&str, &[u8], u8); 19] = [
    ("one write", BODY, 0),
    ("a read and a write", BOTH, 0),
    ("nothing", b"", 1),
    ("one byte", b"T", 1),
    ("another mark", b"VL", 2),
    ("one count is missing", b"TX\x01", 1),
    ("nine reads", b"TX\x09\x00", 3),
    ("nine writes", b"TX\x00\x09", 3),
    ("neither", b"TX\x00\x00", 3),
    ("the stamp is missing", b"TX\x00\x01", 1),
    ("the last byte is missing", b"TX\x00\x01\x32\0\0\0\0\0\0\0\x03\0\x07\0\0\0\0\0\0", 1),
    ("a byte behind it", b"TX\x00\x01\x32\0\0\0\0\0\0\0\x03\0\x07\0\0\0\0\0\0\0\0", 4),
    ("4 before 5", b"TX\x00\x01\0\0\0\0\0\0\0\0\x03\0\x07\0\0\0\0\0\0\0\0", 4),
    ("stamp 0", STAMP_0, 5),
    ("key 512", b"TX\x00\x01\x32\0\0\0\0\0\0\0\x00\x02\x07\0\0\0\0\0\0\0", 5),
    ("a key twice", b"TX\x02\x00\x32\0\0\0\0\0\0\0\x03\0\0\0\0\0\0\0\0\0\x03\0\0\0\0\0\0\0\0\0", 6),
    ("the own stamp is read", b"TX\x01\x00\x32\0\0\0\0\0\0\0\x03\0\x32\0\0\0\0\0\0\0", 7),
    ("5 before 6", b"TX\x02\x00\0\0\0\0\0\0\0\0\x03\0\0\0\0\0\0\0\0\0\x03\0\0\0\0\0\0\0\0\0", 5),
    ("6 before 7", b"TX\x02\x00\x32\0\0\0\0\0\0\0\x03\0\x32\0\0\0\0\0\0\0\x03\0\0\0\0\0\0\0\0\0", 6),
];

/// A VL by itself for a group of f: the refusal's number, or 0.
const VL: [(&str, u64, &[u8], u8); 39] = [
    ("a vote", 1, VOTE, 0),
    ("a log", 1, b"VL\x02\x02\x01\0\0\x05\x02", 0),
    ("a log of view 1", 1, b"VL\x02\x02\x01\x01\0\x05\x02", 0),
    ("a log of view 255", 1, b"VL\x02\x02\x01\xff\0\x05\x02", 0),
    ("a log of view 256", 1, b"VL\x02\x02\x01\0\x01\x05\x02", 0),
    ("a log of the last view", 1, b"VL\x02\x02\x01\xff\xff\x05\x02", 0),
    ("logs, the view is missing", 1, b"VL\x02\x02\x01", 1),
    ("logs, one byte of the view", 1, b"VL\x02\x02\x01\0", 1),
    ("logs, the view and no pair", 1, b"VL\x02\x02\x01\0\0", 1),
    ("logs, the last pair is cut", 1, b"VL\x02\x02\x01\0\0\x05", 1),
    ("logs, a byte behind", 1, b"VL\x02\x02\x01\0\0\x05\x02\0", 4),
    ("logs without a view", 1, b"VL\x02\x02\x02\x04\x02\x05\x02", 1),
    ("none of logs before the view", 1, b"VL\x02\x01\x00", 3),
    ("27 logs before the view", 1, b"VL\x02\x01\x1b", 3),
    ("logs, the count is missing", 1, b"VL\x02\x01", 1),
    ("votes with a view", 1, b"VL\x01\x02\x01\0\0\x05\x02", 4),
    ("logs, box 5 behind a view that is no box", 1, b"VL\x02\x02\x01\x06\x03\x05\x02", 0),
    ("logs, box 6 of 6", 1, b"VL\x02\x02\x01\0\0\x06\x02", 5),
    ("logs, answer 3", 1, b"VL\x02\x02\x01\0\0\x05\x03", 8),
    ("logs, box 2 twice", 1, b"VL\x02\x02\x02\0\0\x02\x02\x02\x02", 6),
    ("kind 0, cut without a view", 1, b"VL\x00\x01\x01\x00\x01", 8),
    ("kind 255, cut without a view", 1, b"VL\xff\x01\x01\x00\x01", 8),
    ("box 25 of 26", 5, b"VL\x01\x01\x01\x19\x01", 0),
    ("14 before 1", 0, b"", 14),
    ("f 6", 6, VOTE, 14),
    ("nothing", 1, b"", 1),
    ("another mark", 1, b"TX", 2),
    ("the count is missing", 1, b"VL\x01\x01", 1),
    ("none", 1, b"VL\x01\x01\x00", 3),
    ("27", 1, b"VL\x01\x01\x1b", 3),
    ("a pair is cut", 1, b"VL\x01\x01\x01\x00", 1),
    ("4 before 8", 1, b"VL\x03\x01\x01\x00\x01\0", 4),
    ("kind 3", 1, b"VL\x03\x01\x01\x00\x01", 8),
    ("decision 0", 1, b"VL\x01\x00\x01\x00\x01", 8),
    ("answer 3", 1, b"VL\x01\x01\x01\x00\x03", 8),
    ("box 6 of 6", 1, b"VL\x01\x01\x01\x06\x01", 5),
    ("box 2 twice", 1, b"VL\x01\x01\x02\x02\x01\x02\x01", 6),
    ("8 before 5", 1, b"VL\x01\x01\x02\x06\x01\x07\x03", 8),
    ("5 before 6", 1, b"VL\x01\x01\x02\x06\x01\x06\x01", 5),
];

/// A VS by itself for a group of f: the refusal's number, or 0.
const VS: [(&str, u64, &[u8], u8); 18] = [
    ("a view", 1, VIEW, 0),
    ("view 0", 1, b"VS\x01\x05\0\0", 0),
    ("the last view", 1, b"VS\x01\x05\xff\xff", 0),
    ("two views", 1, b"VS\x02\0\x01\0\x05\0\x01", 0),
    ("box 25 of 26", 5, b"VS\x01\x19\0\0", 0),
    ("14 before 1", 0, b"", 14),
    ("f 6", 6, VIEW, 14),
    ("nothing", 1, b"", 1),
    ("another mark", 1, b"EL", 2),
    ("the count is missing", 1, b"VS", 1),
    ("none", 1, b"VS\0", 3),
    ("27", 1, b"VS\x1b", 3),
    ("half a view", 1, b"VS\x01\0\x34", 1),
    ("a byte behind it", 1, b"VS\x01\0\x34\x12\0", 4),
    ("4 before 5", 1, b"VS\x01\x06\0\0\0", 4),
    ("box 6 of 6", 1, b"VS\x01\x06\0\0", 5),
    ("box 2 twice", 1, b"VS\x02\x02\0\0\x02\x01\0", 6),
    ("5 before 6", 1, b"VS\x02\x06\0\0\x06\x01\0", 5),
];

/// An EL by itself for a group of f: the refusal's number, or 0.
const EL: [(&str, u64, &[u8], u8); 28] = [
    ("an answer", 1, ELECTED, 0),
    ("of another leader, view and decision than will be taken", 1, b"EL\0\x02\0\0\x01\x05\x01\xff\xff", 0),
    ("two answers", 1, b"EL\x03\x01\x01\0\x02\0\x01\x01\0\x05\x02\0\x01", 0),
    ("box 25 of 26 leads", 5, b"EL\x19\x01\x01\0\x01\0\x01\x01\0", 0),
    ("14 before 1", 0, b"", 14),
    ("f 6", 6, ELECTED, 14),
    ("nothing", 1, b"", 1),
    ("another mark", 1, b"VS", 2),
    ("only its mark", 1, b"EL", 1),
    ("no view", 1, b"EL\x03\x01", 1),
    ("half a view", 1, b"EL\x03\x01\x01", 1),
    ("the count is missing", 1, b"EL\x03\x01\x01\0", 1),
    ("none", 1, b"EL\x03\x01\x01\0\0", 3),
    ("27", 1, b"EL\x03\x01\x01\0\x1b", 3),
    ("half a view of an answer", 1, b"EL\x03\x01\x01\0\x01\0\x01\x01", 1),
    ("a byte behind it", 1, b"EL\x03\x01\x01\0\x01\0\x01\x01\0\0", 4),
    ("4 before 8", 1, b"EL\x03\x03\x01\0\x01\0\x01\x01\0\0", 4),
    ("decision 0", 1, b"EL\x03\0\x01\0\x01\0\x01\x01\0", 8),
    ("decision 3", 1, b"EL\x03\x03\x01\0\x01\0\x01\x01\0", 8),
    ("answer 0", 1, b"EL\x03\x01\x01\0\x01\0\0\x01\0", 8),
    ("answer 3", 1, b"EL\x03\x01\x01\0\x01\0\x03\x01\0", 8),
    ("box 6 of 6", 1, b"EL\x03\x01\x01\0\x01\x06\x01\x01\0", 5),
    ("box 6 of 6 leads", 1, b"EL\x06\x01\x01\0\x01\0\x01\x01\0", 5),
    ("box 2 twice", 1, b"EL\x03\x01\x01\0\x02\x02\x01\x01\0\x02\x01\x01\0", 6),
    ("8 before 5: the leader", 1, b"EL\x06\x01\x01\0\x01\0\x03\x01\0", 8),
    ("8 before 5: a box", 1, b"EL\x03\x01\x01\0\x02\x06\x01\x01\0\x07\x03\x01\0", 8),
    ("5 before 6: the leader", 1, b"EL\x06\x01\x01\0\x02\x02\x01\x01\0\x02\x01\x01\0", 5),
    ("5 before 6: a box", 1, b"EL\x03\x01\x01\0\x02\x06\x01\x01\0\x06\x01\x01\0", 5),
];

/// A message for a group of f = 1: the refusal's number, the mark's; leader, decision, view and count; and the first two ballots.
type Told = (u8, u64, [u64; 4], [(u8, u8, u16); 2]);

const TOLD: [(&str, &[&[u8]], Told); 9] = [
    ("views of a PR", &[b"PR", BODY], (0, 1, [0; 4], [(0, 0, 0); 2])),
    ("views of an LG", &[b"LG", BODY, VOTE], (0, 2, [0; 4], [(0, 0, 0); 2])),
    ("views of a DC of logs", &[b"DC", BODY, LOG_LATER], (0, 3, [0; 4], [(0, 0, 0); 2])),
    ("views of an RD", &[RD], (0, 4, [0; 4], [(0, 0, 0); 2])),
    ("views of an IV", &[b"IV", BODY, b"VS\x02\0\x34\x12\x05\xff\xff"], (0, 5, [0, 0, 0, 2], [(0, 0, 0x1234), (5, 0, 65535)])),
    ("views of an LD", &[b"LD", BODY, b"EL\x05\x02\x34\x12\x02\0\x01\x01\0\x05\x02\0\x01"], (0, 6, [5, 2, 0x1234, 2], [(0, 1, 1), (5, 2, 256)])),
    ("views of an IV, box 6 of 6", &[b"IV", BODY, b"VS\x01\x06\0\0"], (5, 0, [0; 4], [(0, 0, 0); 2])),
    ("views of an LD, answer 3", &[b"LD", BODY, b"EL\x03\x01\x01\0\x01\0\x03\x01\0"], (8, 0, [0; 4], [(0, 0, 0); 2])),
    ("views of nothing", &[], (1, 0, [0; 4], [(0, 0, 0); 2])),
];

fn told((number, mark, told): &Views) -> Told {
    let head = [u64::from(told.leader), u64::from(told.decision), u64::from(told.view), told.count as u64];
    (*number, *mark, head, [told.ballots[0], told.ballots[1]])
}

/// The records of the fallback, and what stands in them.
fn reading_views(tried: &mut Tried) {
    for (what, f, bytes, due) in VS {
        tried.one(&format!("VS: {what}"), due, engine::reading_vs(bytes, f), Model(PAPER).reading_vs(bytes, f));
    }
    for (what, f, bytes, due) in EL {
        tried.one(&format!("EL: {what}"), due, engine::reading_el(bytes, f), Model(PAPER).reading_el(bytes, f));
    }
    for (what, parts, due) in TOLD {
        let bytes = parts.concat();
        tried.one(what, due, told(&engine::views(&bytes, 1)), told(&Model(PAPER).views(&bytes, 1)));
    }
}

fn reading(tried: &mut Tried) {
    reading_views(tried);
    for (what, f, parts, due) in MESSAGES {
        let bytes = parts.concat();
        tried.one(what, due, engine::reading(&bytes, f), model::reading(&bytes, f));
    }
    for (what, bytes, due) in TX {
        tried.one(what, due, engine::reading_tx(bytes), model::reading_tx(bytes).err().unwrap_or(0));
    }
    for (what, f, bytes, due) in VL {
        tried.one(what, due, engine::reading_vl(bytes, f), model::reading_vl(bytes, f).err().unwrap_or(0));
    }
    for (what, parts, due) in LISTED {
        let bytes = parts.concat();
        tried.one(what, due, listed(&engine::fields(&bytes, 1)), listed(&Model(PAPER).fields(&bytes, 1)));
    }
}

/// A message for a group of f = 1: the refusal's number; kind, decision, view and count as its head has them; the list's first two pairs.
type Listed = (u8, [u64; 4], [(u8, u8); 2]);

const LISTED: [(&str, &[&[u8]], Listed); 15] = [
    ("values of a PR", &[b"PR", BODY], (0, [0, 0, 0, 0], [(0, 0); 2])),
    ("values of an RD", &[RD], (0, [0, 0, 0, 0], [(0, 0); 2])),
    ("values of an IV", &[b"IV", BODY, VIEW], (0, [0, 0, 0, 0], [(0, 0); 2])),
    ("values of an LD", &[b"LD", BODY, ELECTED], (0, [0, 0, 0, 0], [(0, 0); 2])),
    ("values of an LG", &[b"LG", BODY, VOTE], (0, [1, 1, 0, 1], [(0, 1), (0, 0)])),
    ("values of a DC of votes", &[b"DC", BODY, b"VL\x01\x02\x02\x03\x02\x05\x01"], (0, [1, 2, 0, 2], [(3, 2), (5, 1)])),
    ("values of a DC of logs", &[b"DC", BODY, b"VL\x02\x02\x02\0\0\x03\x02\x05\x01"], (0, [2, 2, 0, 2], [(3, 2), (5, 1)])),
    ("values, view 1", &[b"DC", BODY, b"VL\x02\x01\x01\x01\0\x05\x02"], (0, [2, 1, 1, 1], [(5, 2), (0, 0)])),
    ("values, view 255", &[b"DC", BODY, b"VL\x02\x01\x01\xff\0\x05\x02"], (0, [2, 1, 255, 1], [(5, 2), (0, 0)])),
    ("values, view 256", &[b"DC", BODY, b"VL\x02\x01\x01\0\x01\x05\x02"], (0, [2, 1, 256, 1], [(5, 2), (0, 0)])),
    ("values, view 0x1234", &[b"DC", BODY, LOG_LATER], (0, [2, 1, 0x1234, 1], [(0, 1), (0, 0)])),
    ("values, the last view", &[b"DC", BODY, b"VL\x02\x01\x01\xff\xff\x05\x02"], (0, [2, 1, 65535, 1], [(5, 2), (0, 0)])),
    ("values of logs in an LG", &[b"LG", BODY, LOG_LATER], (8, [0, 0, 0, 0], [(0, 0); 2])),
    ("values of logs, box 6 of 6", &[b"DC", BODY, b"VL\x02\x01\x01\x34\x12\x06\x01"], (5, [0, 0, 0, 0], [(0, 0); 2])),
    ("values of logs without a view", &[b"DC", BODY, b"VL\x02\x01\x01\x00\x01"], (1, [0, 0, 0, 0], [(0, 0); 2])),
];

fn listed((number, head, _, list): &Fields) -> Listed {
    (*number, [head[5], head[6], head[7], head[8]], [list.pairs[0], list.pairs[1]])
}

// ---- entrances

const RD: &[u8] = b"RD\x03\0\x3c\0\0\0\0\0\0\0";
/// Votes, apart from A6's number, which has vectors of its own.
const COMMIT: Answer = Answer::Voted(Vote::Commit, None);
const WAIT: Answer = Answer::Voted(Vote::Waiting, None);
/// Boxes 0 to 4, each for commit.
const COMMIT_LOGS: &[u8] = b"\0\x01\x01\x01\x02\x01\x03\x01\x04\x01";
const NOTHING_FOUND: Answer = Answer::Found { committed: (0, 0), undecided: (0, 0) };

const fn refused(number: u8) -> Answer {
    Answer::Refused(number)
}

/// 11, and what is lacking.
const fn too_few(lacking: u8) -> Answer {
    Answer::TooFew(lacking)
}

/// A message by an entrance, for f and a capacity, on an empty table for eight entries: the answer.
const ENTERED: [(&str, Entrance, u64, u64, &[&[u8]], Answer); 40] = [
    ("a PR by receive", Entrance::Receive, 1, 8, &[b"PR", BODY], COMMIT),
    ("a PR", Entrance::Due(1), 1, 8, &[b"PR", BODY], COMMIT),
    ("an LG", Entrance::Due(2), 1, 8, &[b"LG", BODY, VOTE], too_few(3)),
    ("a DC", Entrance::Due(3), 1, 8, &[b"DC", BODY, VOTE], too_few(5)),
    ("an RD", Entrance::Due(4), 1, 8, &[RD], NOTHING_FOUND),
    ("a DC of logs, view 0", Entrance::Due(3), 1, 8, &[b"DC", BODY, b"VL\x02\x01\x05\0\0", COMMIT_LOGS], Answer::Done),
    ("a DC of logs, view 1", Entrance::Due(3), 1, 8, &[b"DC", BODY, b"VL\x02\x01\x05\x01\0", COMMIT_LOGS], Answer::Done),
    ("a DC of logs, view 256", Entrance::Receive, 1, 8, &[b"DC", BODY, b"VL\x02\x01\x05\0\x01", COMMIT_LOGS], Answer::Done),
    ("a DC of logs, the last view", Entrance::Receive, 1, 8, &[b"DC", BODY, b"VL\x02\x01\x05\xff\xff", COMMIT_LOGS], Answer::Done),
    ("a DC of logs, too few of view 2", Entrance::Receive, 1, 8, &[b"DC", BODY, b"VL\x02\x02\x05\x02\0", COMMIT_LOGS], too_few(5)),
    ("a DC of logs without a view", Entrance::Due(3), 1, 8, &[b"DC", BODY, b"VL\x02\x01\x05", COMMIT_LOGS], refused(1)),
    ("an LG of logs", Entrance::Due(2), 1, 8, &[b"LG", BODY, b"VL\x02\x01\x05\0\0", COMMIT_LOGS], refused(8)),
    ("an RD where a PR is due", Entrance::Due(1), 1, 8, &[RD], refused(2)),
    ("a DC where an LG is due", Entrance::Due(2), 1, 8, &[b"DC", BODY, VOTE], refused(2)),
    ("an LG where a DC is due", Entrance::Due(3), 1, 8, &[b"LG", BODY, VOTE], refused(2)),
    ("a PR where an RD is due", Entrance::Due(4), 1, 8, &[b"PR", BODY], refused(2)),
    ("1 before 2: one byte of another mark", Entrance::Due(1), 1, 8, &[b"R"], refused(1)),
    ("2 before 1: another mark, cut", Entrance::Due(1), 1, 8, &[b"RD"], refused(2)),
    ("mark 0", Entrance::Due(0), 1, 8, &[b"PR", BODY], refused(2)),
    ("an IV", Entrance::Due(5), 1, 8, &[b"IV", BODY, VIEW], refused(22)),
    ("an IV by receive", Entrance::Receive, 1, 8, &[b"IV", BODY, VIEW], refused(22)),
    ("an LD", Entrance::Due(6), 1, 8, &[b"LD", BODY, ELECTED], refused(23)),
    ("an LD by receive", Entrance::Receive, 1, 8, &[b"LD", BODY, ELECTED], refused(23)),
    ("an LD where an IV is due", Entrance::Due(5), 1, 8, &[b"LD", BODY, ELECTED], refused(2)),
    ("an IV where an LD is due", Entrance::Due(6), 1, 8, &[b"IV", BODY, VIEW], refused(2)),
    ("an LG where an LD is due", Entrance::Due(6), 1, 8, &[b"LG", BODY, VOTE], refused(2)),
    ("an RD where an IV is due", Entrance::Due(5), 1, 8, &[RD], refused(2)),
    ("a mark that is LD but for its upper half", Entrance::Due((1 << 32) + 6), 1, 8, &[b"LD", BODY, ELECTED], refused(2)),
    ("mark 7", Entrance::Due(7), 1, 8, &[RD], refused(2)),
    ("mark 9", Entrance::Due(9), 1, 8, &[b"PR", BODY], refused(2)),
    ("a mark that is PR but for its upper half", Entrance::Due((1 << 32) + 1), 1, 8, &[b"PR", BODY], refused(2)),
    ("the largest mark", Entrance::Due(u64::MAX), 1, 8, &[RD], refused(2)),
    ("2 before 1: mark 0 and nothing", Entrance::Due(0), 1, 8, &[], refused(2)),
    ("2 before 4: mark 9 and a byte behind", Entrance::Due(9), 1, 8, &[RD, b"\0"], refused(2)),
    ("14 before 2: f", Entrance::Due(9), 0, 8, &[RD], refused(14)),
    ("14 before 2: capacity", Entrance::Due(0), 1, 256, &[RD], refused(14)),
    ("16 before 2", Entrance::Due(9), 1, 9, &[RD], refused(16)),
    ("16 before 2: another mark", Entrance::Due(1), 1, 9, &[RD], refused(16)),
    ("16 before 1", Entrance::Due(1), 1, 9, &[], refused(16)),
    ("a slice longer than needed", Entrance::Due(1), 1, 7, &[b"PR", BODY], COMMIT),
];

fn entering(tried: &mut Tried) {
    for (what, entrance, f, capacity, parts, due) in ENTERED {
        let (message, settings) = (parts.concat(), Settings { f, capacity, clock: 100, delta: 10 });
        let (mut table, mut marks) = (vec![0; table_len(8)], vec![0; 512]);
        let by_model = model::call(&mut table, &mut marks, &settings, &message, entrance.taken(), &mut Vec::new());
        let left = (table, marks);
        let (mut table, mut marks) = (vec![0; table_len(8)], vec![0; 512]);
        let by_engine = engine::call(entrance, &mut table, &mut marks, &settings, &message).ok().and_then(engine::answer_of);
        tried.one(what, Some(due), by_engine.map(Answer::apart_from_number), Some(by_model.apart_from_number()));
        tried.one(&format!("{what}: table and read marks"), left.clone(), (table, marks), left);
    }
}

// ---- a box that missed the prepare

/// 50 writes 8 at key 3; 60 reads key 3 at 50, at 0, at 40; 111 writes key 3.
const OTHER: &[u8] = b"TX\x00\x01\x32\0\0\0\0\0\0\0\x03\0\x08\0\0\0\0\0\0\0";
const READER: &[u8] = b"TX\x01\x00\x3c\0\0\0\0\0\0\0\x03\0\x32\0\0\0\0\0\0\0";
const READS_START: &[u8] = b"TX\x01\x00\x3c\0\0\0\0\0\0\0\x03\0\0\0\0\0\0\0\0\0";
const READS_40: &[u8] = b"TX\x01\x00\x3c\0\0\0\0\0\0\0\x03\0\x28\0\0\0\0\0\0\0";
const AHEAD: &[u8] = b"TX\x00\x01\x6f\0\0\0\0\0\0\0\x03\0\x07\0\0\0\0\0\0\0";

/// For f = 1: three and four commit votes, one and two abort votes; six commit votes and four abort votes, which are proofs.
const THREE: &[u8] = b"VL\x01\x01\x03\0\x01\x01\x01\x02\x01";
const COMMITS: &[u8] = b"VL\x01\x01\x04\0\x01\x01\x01\x02\x01\x03\x01";
const ONE: &[u8] = b"VL\x01\x02\x01\0\x02";
const ABORTS: &[u8] = b"VL\x01\x02\x02\0\x02\x01\x02";
const PROVES_COMMIT: &[u8] = b"VL\x01\x01\x06\0\x01\x01\x01\x02\x01\x03\x01\x04\x01\x05\x01";
const PROVES_ABORT: &[u8] = b"VL\x01\x02\x04\0\x02\x01\x02\x02\x02\x03\x02";

const LOGGED: Answer = Answer::Logged(Decision::Commit, 0);
const LOGGED_ABORT: Answer = Answer::Logged(Decision::Abort, 0);
const DECIDED_ABORT: Answer = Answer::Decided(Decision::Abort);

const fn abort(reason: u8) -> Answer {
    Answer::Voted(Vote::Abort(reason), None)
}

/// Messages in turn to an empty box of f = 1 with room for so many entries: what each is answered, and for each entry in the end vote, reason, log and decision.
struct Scene {
    what: &'static str,
    capacity: u64,
    told: &'static [(&'static [&'static [u8]], Answer)],
    rows: &'static [[u8; 4]],
}

const SCENES: [Scene; 25] = [
    Scene { what: "stored with vote none, not live", capacity: 8, told: &[(&[b"LG", BODY, COMMITS], LOGGED), (&[RD], NOTHING_FOUND)], rows: &[[0, 0, 1, 0]] },
    Scene { what: "logged abort", capacity: 8, told: &[(&[b"LG", BODY, ABORTS], LOGGED_ABORT)], rows: &[[0, 0, 2, 0]] },
    Scene { what: "11, nothing stored", capacity: 8, told: &[(&[b"LG", BODY, THREE], too_few(1)), (&[b"LG", BODY, ONE], too_few(1))], rows: &[] },
    Scene {
        what: "11 before 13, then 13",
        capacity: 1,
        told: &[
            (&[b"PR", READS_START], COMMIT),
            (&[b"LG", BODY, THREE], too_few(1)),
            (&[b"LG", BODY, ONE], too_few(1)),
            (&[b"LG", BODY, COMMITS], refused(13)),
            (&[b"LG", BODY, ABORTS], refused(13)),
        ],
        rows: &[[1, 0, 0, 0]],
    },
    Scene {
        what: "9 before 11",
        capacity: 1,
        told: &[(&[b"LG", BODY, COMMITS], LOGGED), (&[b"LG", OTHER, ONE], refused(9)), (&[b"PR", OTHER], refused(9))],
        rows: &[[0, 0, 1, 0]],
    },
    Scene {
        what: "that same log again, be the list too few",
        capacity: 1,
        told: &[(&[b"LG", BODY, COMMITS], LOGGED), (&[b"LG", BODY, ABORTS], LOGGED), (&[b"LG", BODY, ONE], LOGGED)],
        rows: &[[0, 0, 1, 0]],
    },
    Scene {
        what: "a later PR keeps the log, in a full table",
        capacity: 1,
        told: &[(&[b"LG", BODY, ABORTS], LOGGED_ABORT), (&[b"PR", BODY], COMMIT), (&[b"LG", BODY, COMMITS], LOGGED_ABORT), (&[b"PR", BODY], COMMIT)],
        rows: &[[1, 0, 2, 0]],
    },
    Scene {
        what: "a later PR keeps the place",
        capacity: 2,
        told: &[(&[b"LG", BODY, COMMITS], LOGGED), (&[b"PR", AHEAD], abort(1)), (&[b"PR", BODY], COMMIT)],
        rows: &[[1, 0, 1, 0], [2, 1, 0, 0]],
    },
    Scene {
        what: "a later PR, test 1; the vote stays",
        capacity: 8,
        told: &[(&[b"LG", AHEAD, COMMITS], LOGGED), (&[b"PR", AHEAD], abort(1)), (&[b"PR", AHEAD], abort(1))],
        rows: &[[2, 1, 1, 0]],
    },
    Scene { what: "a later PR, test 2", capacity: 8, told: &[(&[b"LG", READS_40, COMMITS], LOGGED), (&[b"PR", READS_40], abort(2))], rows: &[[2, 2, 1, 0]] },
    Scene {
        what: "a later PR, test 3",
        capacity: 8,
        told: &[(&[b"PR", BODY], COMMIT), (&[b"LG", READS_START, COMMITS], LOGGED), (&[b"PR", READS_START], abort(3))],
        rows: &[[1, 0, 0, 0], [2, 3, 1, 0]],
    },
    Scene {
        what: "a later PR, test 4",
        capacity: 8,
        told: &[(&[b"PR", READS_START], COMMIT), (&[b"LG", BODY, COMMITS], LOGGED), (&[b"PR", BODY], abort(4))],
        rows: &[[1, 0, 0, 0], [2, 4, 1, 0]],
    },
    Scene {
        what: "a later PR, test 5",
        capacity: 8,
        told: &[(&[b"LG", BODY, COMMITS], LOGGED), (&[RD], NOTHING_FOUND), (&[b"PR", BODY], abort(5))],
        rows: &[[2, 5, 1, 0]],
    },
    Scene {
        what: "a vote cast on a later PR is not tested again",
        capacity: 8,
        told: &[
            (&[b"LG", BODY, COMMITS], LOGGED),
            (&[b"PR", BODY], COMMIT),
            (&[RD], Answer::Found { committed: (0, 0), undecided: (50, 7) }),
            (&[b"PR", BODY], COMMIT),
        ],
        rows: &[[1, 0, 1, 0]],
    },
    Scene {
        what: "a later PR waits, and commits",
        capacity: 8,
        told: &[
            (&[b"PR", BODY], COMMIT),
            (&[b"LG", READER, COMMITS], LOGGED),
            (&[b"PR", READER], WAIT),
            (&[b"DC", BODY, PROVES_COMMIT], Answer::Done),
            (&[b"PR", READER], COMMIT),
        ],
        rows: &[[1, 0, 0, 1], [1, 0, 1, 0]],
    },
    Scene {
        what: "a later PR waits, and aborts",
        capacity: 8,
        told: &[
            (&[b"PR", BODY], COMMIT),
            (&[b"LG", READER, COMMITS], LOGGED),
            (&[b"PR", READER], WAIT),
            (&[b"DC", BODY, PROVES_ABORT], Answer::Done),
            (&[b"PR", READER], abort(6)),
        ],
        rows: &[[1, 0, 0, 2], [2, 6, 1, 0]],
    },
    Scene {
        what: "a reader before the PR: reason 2",
        capacity: 8,
        told: &[(&[b"LG", BODY, COMMITS], LOGGED), (&[b"PR", READER], abort(2)), (&[b"PR", BODY], COMMIT), (&[b"PR", READER], abort(2))],
        rows: &[[1, 0, 1, 0], [2, 2, 0, 0]],
    },
    Scene {
        what: "a reader after the PR waits",
        capacity: 8,
        told: &[(&[b"LG", BODY, COMMITS], LOGGED), (&[b"PR", BODY], COMMIT), (&[b"PR", READER], WAIT)],
        rows: &[[1, 0, 1, 0], [3, 0, 0, 0]],
    },
    Scene {
        what: "no clash by test 3 before the PR",
        capacity: 8,
        told: &[(&[b"LG", BODY, COMMITS], LOGGED), (&[b"PR", READS_START], COMMIT), (&[b"PR", BODY], abort(4))],
        rows: &[[2, 4, 1, 0], [1, 0, 0, 0]],
    },
    Scene {
        what: "no clash by test 4 before the PR",
        capacity: 8,
        told: &[(&[b"LG", READS_START, COMMITS], LOGGED), (&[b"PR", BODY], COMMIT), (&[b"PR", READS_START], abort(3))],
        rows: &[[2, 3, 1, 0], [1, 0, 0, 0]],
    },
    Scene {
        what: "a clash by test 4 after the PR",
        capacity: 8,
        told: &[(&[b"LG", READS_START, COMMITS], LOGGED), (&[b"PR", READS_START], COMMIT), (&[b"PR", BODY], abort(4))],
        rows: &[[1, 0, 1, 0], [2, 4, 0, 0]],
    },
    Scene {
        what: "a DC decides it, against its log",
        capacity: 1,
        told: &[
            (&[b"LG", BODY, COMMITS], LOGGED),
            (&[b"DC", BODY, PROVES_ABORT], Answer::Done),
            (&[b"PR", BODY], DECIDED_ABORT),
            (&[b"LG", BODY, COMMITS], DECIDED_ABORT),
        ],
        rows: &[[0, 0, 1, 2]],
    },
    Scene {
        what: "a DC commits it, which is live",
        capacity: 8,
        told: &[
            (&[b"LG", BODY, ABORTS], LOGGED_ABORT),
            (&[b"DC", BODY, PROVES_COMMIT], Answer::Done),
            (&[RD], Answer::Found { committed: (50, 7), undecided: (0, 0) }),
            (&[b"PR", READER], COMMIT),
        ],
        rows: &[[0, 0, 2, 1], [1, 0, 0, 0]],
    },
    Scene {
        what: "a DC abort of another body",
        capacity: 1,
        told: &[(&[b"LG", BODY, COMMITS], LOGGED), (&[b"DC", OTHER, PROVES_ABORT], refused(9))],
        rows: &[[0, 0, 1, 0]],
    },
    Scene {
        what: "a DC commit of another body replaces it",
        capacity: 1,
        told: &[
            (&[b"LG", BODY, COMMITS], LOGGED),
            (&[b"DC", OTHER, PROVES_COMMIT], Answer::Done),
            (&[b"PR", BODY], refused(9)),
            (&[b"LG", BODY, COMMITS], refused(9)),
        ],
        rows: &[[0, 0, 0, 1]],
    },
];

/// Vote, reason, log and decision of each entry.
fn rows(table: &[u8]) -> Vec<[u8; 4]> {
    let codes = |row: &[u8]| [VOTE_AT, REASON_AT, LOG_AT, DECIDED_AT].map(|at| row[at]);
    table[HEAD..].chunks(ROW).take(table[0] as usize).map(codes).collect()
}

/// One message to the engine's box and to the model's, by receive.
fn sent(
    tried: &mut Tried, what: &str, by_engine: &mut (Vec<u8>, Vec<u64>), by_model: &mut (Vec<u8>, Vec<u64>), settings: &Settings, message: &[u8], due: Answer,
) {
    let answer = engine::call(Entrance::Receive, &mut by_engine.0, &mut by_engine.1, settings, message).ok().and_then(engine::answer_of);
    let modelled = model::call(&mut by_model.0, &mut by_model.1, settings, message, Entrance::Receive.taken(), &mut Vec::new());
    tried.one(what, Some(due), answer.map(Answer::apart_from_number), Some(modelled.apart_from_number()));
}

fn missing_the_prepare(tried: &mut Tried) {
    for scene in SCENES {
        let settings = Settings { f: 1, capacity: scene.capacity, clock: 100, delta: 10 };
        let mut by_engine = (vec![0; table_len(scene.capacity as usize)], vec![0; 512]);
        let mut by_model = by_engine.clone();
        for (number, (parts, due)) in scene.told.iter().enumerate() {
            sent(tried, &format!("{}, message {number}", scene.what), &mut by_engine, &mut by_model, &settings, &parts.concat(), *due);
        }
        tried.one(&format!("{}: the entries", scene.what), scene.rows.to_vec(), rows(&by_engine.0), rows(&by_model.0));
        tried.one(&format!("{}: table and read marks", scene.what), by_model.clone(), by_engine, by_model);
    }
}

// ---- what is lacking

/// How a box stands when a list comes for 50.
#[derive(Clone, Copy, Debug)]
enum Before {
    /// It holds nothing.
    Empty,
    /// Another transaction has the room.
    Full,
    /// It has voted on 50.
    Voted,
    /// It has logged commit of 50, without its PR.
    Logged,
    /// It has decided commit of 50.
    Decided,
}

const BEFORE: [Before; 5] = [Before::Empty, Before::Full, Before::Voted, Before::Logged, Before::Decided];

/// A list with so many answers for what it decides, from box 0 on; with the others' answers or without. None where it would be empty. Logs are of a view that changes
/// with the list, since no view matters.
fn list_of(f: u64, kind: u8, decided: u8, counted: usize, others: bool) -> Option<Vec<u8>> {
    let all = if others { 5 * f as usize + 1 } else { counted };
    let mut bytes = vec![b'V', b'L', kind, decided, all as u8];
    if kind == LOGS {
        bytes.extend([0u16, 1, 255, 256, 65535][counted % 5].to_le_bytes());
    }
    bytes.extend((0..all).flat_map(|number| [number as u8, if number < counted { decided } else { 3 - decided }]));
    (all > 0).then_some(bytes)
}

/// What an LG or a DC with a list is answered that lacks so many. A list that is too few is told only where no log and no decision answers an LG.
fn due_of(log: bool, decided: u8, lacking: u8, before: Before) -> Answer {
    let decision = if decided == 1 { Decision::Commit } else { Decision::Abort };
    match (log, before) {
        (true, Before::Logged) => LOGGED,
        (true, Before::Decided) => Answer::Decided(Decision::Commit),
        _ if lacking > 0 => too_few(lacking),
        (_, Before::Full) => refused(13),
        (true, _) => Answer::Logged(decision, 0),
        (false, Before::Decided) if decided == 2 => refused(12),
        (false, _) => Answer::Done,
    }
}

/// Every list of every f: any number of answers that count, from none to all, with the others answering otherwise and without them, in an LG and in a DC of
/// either kind, for either decision, to a box as it may stand. So each threshold is met, missed by one, and missed wholly; and 10 is never given.
fn lists(tried: &mut Tried) {
    for f in 1..=5u64 {
        let row = THRESHOLDS[f as usize - 1];
        let every: Vec<u8> = (0..=5 * f as u8).collect();
        let proof = [&[b'V', b'L', 1, 1, every.len() as u8][..], &every.iter().flat_map(|number| [*number, 1]).collect::<Vec<u8>>()].concat();
        for (log, kind, decided, needed) in
            [(true, 1, 1, row[0]), (true, 1, 2, row[1]), (false, 1, 1, row[2]), (false, 1, 2, row[3]), (false, 2, 1, row[4]), (false, 2, 2, row[4])]
        {
            for (counted, others) in (0..=every.len()).flat_map(|counted| [(counted, false), (counted, true)]) {
                let Some(list) = list_of(f, kind, decided, counted, others) else { continue };
                for before in BEFORE {
                    let first: &[&[u8]] = match before {
                        Before::Empty => &[],
                        Before::Full => &[b"PR", READS_START],
                        Before::Voted => &[b"PR", BODY],
                        Before::Logged => &[b"LG", BODY, &proof],
                        Before::Decided => &[b"DC", BODY, &proof],
                    };
                    let settings = Settings { f, capacity: 1, clock: 100, delta: 10 };
                    let mut stood = (vec![0; table_len(1)], vec![0; 512]);
                    model::call(&mut stood.0, &mut stood.1, &settings, &first.concat(), Entrance::Receive.taken(), &mut Vec::new());
                    let (mut by_engine, mut by_model) = (stood.clone(), stood.clone());
                    let due = due_of(log, decided, needed.saturating_sub(counted) as u8, before);
                    let mark: &[u8] = if log { b"LG" } else { b"DC" };
                    let what =
                        format!("{}, f {f}, kind {kind}, {counted} of {needed} for {decided}, others {others}, {before:?}", String::from_utf8_lossy(mark));
                    sent(tried, &what, &mut by_engine, &mut by_model, &settings, &[mark, BODY, &list].concat(), due);
                    let left = if matches!(due, Answer::TooFew(_) | Answer::Refused(_)) { stood } else { by_model.clone() };
                    tried.one(&format!("{what}: table and read marks"), left, by_engine, by_model);
                }
            }
        }
    }
}

// ---- writing

/// So many reads of a key at a version and so many writes of 7 at it.
const fn counted(stamp: u64, r: usize, w: usize, key: u16, version: u64) -> Draft {
    Draft { stamp, r, w, reads: [(key, version); 8], writes: [(key, 7); 8] }
}

/// A read and a write.
const fn both(stamp: u64, key: u16, version: u64) -> Draft {
    counted(stamp, 1, 1, key, version)
}

/// So many answers, all of one box.
const fn list(kind: u8, decision: u8, count: usize, number: u8, answer: u8) -> ListDraft {
    of_view(kind, 0, decision, count, number, answer)
}

/// The same with a view beside the kind.
const fn of_view(kind: u8, view: u16, decision: u8, count: usize, number: u8, answer: u8) -> ListDraft {
    ListDraft { kind, decision, view, count, pairs: [(number, answer); 26] }
}

/// A record for a group of f and a buffer of so many bytes: the refusal's number, or the bytes that are written.
type Written = (&'static str, u64, Record, usize, Result<&'static [&'static [u8]], u8>);

static WRITTEN: [Written; 98] = [
    ("a TX", 1, Record::Tx(both(50, 3, 40)), 40, Ok(&[BOTH])),
    ("a TX into its own length", 1, Record::Tx(both(50, 3, 40)), 32, Ok(&[BOTH])),
    ("a TX, one byte short", 1, Record::Tx(both(50, 3, 40)), 31, Err(17)),
    ("nine reads", 1, Record::Tx(counted(50, 9, 1, 3, 40)), 40, Err(3)),
    ("nine writes", 1, Record::Tx(counted(50, 1, 9, 3, 40)), 40, Err(3)),
    ("neither", 1, Record::Tx(counted(50, 0, 0, 3, 40)), 40, Err(3)),
    ("counts whose sum wraps", 1, Record::Tx(counted(50, usize::MAX, usize::MAX, 3, 40)), 40, Err(3)),
    ("stamp 0", 1, Record::Tx(both(0, 3, 40)), 40, Err(5)),
    ("key 512", 1, Record::Tx(both(50, 512, 40)), 40, Err(5)),
    ("a key twice", 1, Record::Tx(counted(50, 2, 1, 3, 40)), 40, Err(6)),
    ("the own stamp is read", 1, Record::Tx(both(50, 3, 50)), 40, Err(7)),
    ("a PR", 1, Record::Pr(both(50, 3, 40)), 40, Ok(&[b"PR", BOTH])),
    ("a PR, one byte short", 1, Record::Pr(both(50, 3, 40)), 33, Err(17)),
    ("a VL", 1, Record::Vl(list(1, 2, 1, 5, 2)), 8, Ok(&[b"VL\x01\x02\x01\x05\x02"])),
    ("a VL of logs", 1, Record::Vl(list(2, 1, 1, 0, 1)), 10, Ok(&[LOG])),
    ("a VL of logs into its own length", 1, Record::Vl(list(2, 1, 1, 0, 1)), 9, Ok(&[LOG])),
    ("a VL of logs, one byte short", 1, Record::Vl(list(2, 1, 1, 0, 1)), 8, Err(17)),
    ("a VL of logs, room without the view", 1, Record::Vl(list(2, 1, 1, 0, 1)), 7, Err(17)),
    ("a VL of logs, view 1", 1, Record::Vl(of_view(2, 1, 2, 1, 5, 2)), 9, Ok(&[b"VL\x02\x02\x01\x01\0\x05\x02"])),
    ("a VL of logs, view 255", 1, Record::Vl(of_view(2, 255, 2, 1, 5, 2)), 9, Ok(&[b"VL\x02\x02\x01\xff\0\x05\x02"])),
    ("a VL of logs, view 256", 1, Record::Vl(of_view(2, 256, 2, 1, 5, 2)), 9, Ok(&[b"VL\x02\x02\x01\0\x01\x05\x02"])),
    ("a VL of logs, view 0x1234", 1, Record::Vl(of_view(2, 0x1234, 1, 1, 0, 1)), 9, Ok(&[LOG_LATER])),
    ("a VL of logs, the last view", 1, Record::Vl(of_view(2, 65535, 2, 1, 5, 2)), 9, Ok(&[b"VL\x02\x02\x01\xff\xff\x05\x02"])),
    ("a VL of votes, a view lent beside it", 1, Record::Vl(of_view(1, 0x1234, 1, 1, 0, 1)), 9, Ok(&[VOTE])),
    ("a VL of votes, a view lent, its own length", 1, Record::Vl(of_view(1, 65535, 1, 1, 0, 1)), 7, Ok(&[VOTE])),
    ("kind 3, a view lent beside it", 1, Record::Vl(of_view(3, 1, 2, 1, 5, 2)), 9, Err(8)),
    ("a VL, one byte short", 1, Record::Vl(list(1, 2, 1, 5, 2)), 6, Err(17)),
    ("f 0", 0, Record::Vl(list(1, 2, 1, 5, 2)), 8, Err(14)),
    ("a list of none", 1, Record::Vl(list(1, 2, 0, 5, 2)), 8, Err(3)),
    ("a list of 27", 1, Record::Vl(list(1, 2, 27, 5, 2)), 8, Err(3)),
    ("kind 3", 1, Record::Vl(list(3, 2, 1, 5, 2)), 8, Err(8)),
    ("decision 0", 1, Record::Vl(list(1, 0, 1, 5, 2)), 8, Err(8)),
    ("answer 3", 1, Record::Vl(list(1, 2, 1, 5, 3)), 8, Err(8)),
    ("box 6 of 6", 1, Record::Vl(list(1, 2, 1, 6, 2)), 8, Err(5)),
    ("box 5 twice", 1, Record::Vl(list(1, 2, 2, 5, 2)), 9, Err(6)),
    ("an LG", 1, Record::Listed(LG, both(50, 3, 40), list(1, 1, 1, 0, 1)), 50, Ok(&[b"LG", BOTH, VOTE])),
    ("an LG, one byte short", 1, Record::Listed(LG, both(50, 3, 40), list(1, 1, 1, 0, 1)), 40, Err(17)),
    ("logs in an LG", 1, Record::Listed(LG, both(50, 3, 40), list(2, 1, 1, 0, 1)), 50, Err(8)),
    ("an LG, a view lent beside its votes", 1, Record::Listed(LG, both(50, 3, 40), of_view(1, 256, 1, 1, 0, 1)), 41, Ok(&[b"LG", BOTH, VOTE])),
    ("a DC of logs", 1, Record::Listed(DC, both(50, 3, 40), list(2, 1, 1, 0, 1)), 43, Ok(&[b"DC", BOTH, LOG])),
    ("a DC of logs of a later view", 1, Record::Listed(DC, both(50, 3, 40), of_view(2, 0x1234, 1, 1, 0, 1)), 50, Ok(&[b"DC", BOTH, LOG_LATER])),
    ("a DC of logs, one byte short", 1, Record::Listed(DC, both(50, 3, 40), list(2, 1, 1, 0, 1)), 42, Err(17)),
    ("a DC, one byte short", 1, Record::Listed(DC, both(50, 3, 40), list(1, 1, 1, 0, 1)), 40, Err(17)),
    ("a list behind a PR", 1, Record::Listed(1, both(50, 3, 40), list(1, 1, 1, 0, 1)), 50, Err(2)),
    ("a list behind an RD", 1, Record::Listed(4, both(50, 3, 40), list(1, 1, 1, 0, 1)), 50, Err(2)),
    ("a list behind mark 0", 1, Record::Listed(0, both(50, 3, 40), list(1, 1, 1, 0, 1)), 50, Err(2)),
    ("a mark that is LG but for its upper half", 1, Record::Listed((1 << 32) + LG, both(50, 3, 40), list(1, 1, 1, 0, 1)), 50, Err(2)),
    ("14 before 2", 6, Record::Listed(9, both(50, 3, 40), list(1, 1, 1, 0, 1)), 50, Err(14)),
    ("3 of the list before 2", 1, Record::Listed(9, both(50, 3, 40), list(1, 1, 27, 0, 1)), 50, Err(3)),
    ("7 before 2", 1, Record::Listed(9, both(50, 3, 50), list(1, 1, 1, 0, 1)), 50, Err(7)),
    ("2 before 8", 1, Record::Listed(9, both(50, 3, 40), list(3, 0, 1, 6, 3)), 50, Err(2)),
    ("2 before 17", 1, Record::Listed(9, both(50, 3, 40), list(1, 1, 1, 0, 1)), 0, Err(2)),
    ("an RD", 1, Record::Rd { key: 3, stamp: 60 }, 13, Ok(&[b"RD\x03\0\x3c\0\0\0\0\0\0\0"])),
    ("an RD of the last key", 1, Record::Rd { key: 511, stamp: 1 }, 12, Ok(&[b"RD\xff\x01\x01\0\0\0\0\0\0\0"])),
    ("an RD, one byte short", 1, Record::Rd { key: 3, stamp: 60 }, 11, Err(17)),
    ("an RD of key 512", 1, Record::Rd { key: 512, stamp: 60 }, 13, Err(5)),
    ("an RD at stamp 0", 1, Record::Rd { key: 3, stamp: 0 }, 13, Err(5)),
    ("14 before 3", 6, Record::Listed(LG, counted(50, 9, 1, 3, 40), list(1, 1, 1, 0, 1)), 50, Err(14)),
    ("3 before 5", 1, Record::Tx(counted(0, 0, 0, 3, 40)), 40, Err(3)),
    ("3 of the list before 5", 1, Record::Listed(LG, both(0, 3, 40), list(1, 1, 27, 0, 1)), 50, Err(3)),
    ("5 before 6", 1, Record::Tx(counted(50, 2, 1, 512, 40)), 40, Err(5)),
    ("6 before 7", 1, Record::Tx(counted(50, 2, 1, 3, 60)), 40, Err(6)),
    ("7 before 8", 1, Record::Listed(LG, both(50, 3, 50), list(2, 1, 1, 0, 1)), 50, Err(7)),
    ("8 before 5 of a list", 1, Record::Listed(LG, both(50, 3, 40), list(2, 1, 1, 6, 1)), 50, Err(8)),
    ("5 before 6 of a list", 1, Record::Vl(list(1, 2, 2, 6, 2)), 8, Err(5)),
    ("6 before 17", 1, Record::Vl(list(1, 2, 26, 5, 2)), 8, Err(6)),
    ("7 before 17", 1, Record::Tx(both(50, 3, 50)), 31, Err(7)),
    ("5 before 17", 1, Record::Rd { key: 512, stamp: 60 }, 11, Err(5)),
    ("a VS", 1, Record::Vs(ballots(1, 0, 0x1234)), 7, Ok(&[VIEW])),
    ("a VS into its own length", 1, Record::Vs(ballots(1, 0, 0x1234)), 6, Ok(&[VIEW])),
    ("a VS, one byte short", 1, Record::Vs(ballots(1, 0, 0x1234)), 5, Err(17)),
    ("a VS, what only an EL has lent beside it", 1, Record::Vs(led_by(9, 9, 9, 1, 0, 9, 0x1234)), 6, Ok(&[VIEW])),
    ("a VS of the last view", 1, Record::Vs(ballots(1, 5, 65535)), 6, Ok(&[b"VS\x01\x05\xff\xff"])),
    ("a VS, f 0", 0, Record::Vs(ballots(27, 6, 0)), 6, Err(14)),
    ("a VS of none", 1, Record::Vs(ballots(0, 0, 0)), 6, Err(3)),
    ("a VS of 27", 1, Record::Vs(ballots(27, 6, 0)), 6, Err(3)),
    ("a VS, box 6 of 6", 1, Record::Vs(ballots(1, 6, 0)), 6, Err(5)),
    ("a VS, 5 before 6", 1, Record::Vs(ballots(2, 6, 0)), 9, Err(5)),
    ("a VS, box 5 twice, before 17", 1, Record::Vs(ballots(2, 5, 0)), 8, Err(6)),
    ("an EL", 1, Record::El(led_by(3, 1, 1, 1, 0, 1, 1)), 12, Ok(&[ELECTED])),
    ("an EL into its own length", 1, Record::El(led_by(3, 1, 1, 1, 0, 1, 1)), 11, Ok(&[ELECTED])),
    ("an EL, one byte short", 1, Record::El(led_by(3, 1, 1, 1, 0, 1, 1)), 10, Err(17)),
    ("an EL of views whose bytes differ", 1, Record::El(led_by(5, 2, 0x1234, 1, 5, 2, 256)), 11, Ok(&[b"EL\x05\x02\x34\x12\x01\x05\x02\0\x01"])),
    ("an EL of 27", 1, Record::El(led_by(6, 3, 1, 27, 6, 3, 1)), 11, Err(3)),
    ("an EL, decision 3", 1, Record::El(led_by(6, 3, 1, 1, 6, 1, 1)), 11, Err(8)),
    ("an EL, answer 0", 1, Record::El(led_by(6, 1, 1, 1, 6, 0, 1)), 11, Err(8)),
    ("an EL, box 6 of 6 leads", 1, Record::El(led_by(6, 1, 1, 2, 0, 1, 1)), 15, Err(5)),
    ("an EL, box 6 of 6", 1, Record::El(led_by(3, 1, 1, 2, 6, 1, 1)), 15, Err(5)),
    ("an EL, box 0 twice, before 17", 1, Record::El(led_by(3, 1, 1, 2, 0, 1, 1)), 14, Err(6)),
    ("an IV", 1, Record::Iv(both(50, 3, 40), ballots(1, 0, 0x1234)), 40, Ok(&[b"IV", BOTH, VIEW])),
    ("an IV, one byte short", 1, Record::Iv(both(50, 3, 40), ballots(1, 0, 0x1234)), 39, Err(17)),
    ("an IV, 3 of the views before 5", 1, Record::Iv(both(0, 3, 40), ballots(27, 0, 0)), 40, Err(3)),
    ("an IV, 7 before 5 of the views", 1, Record::Iv(both(50, 3, 50), ballots(1, 6, 0)), 40, Err(7)),
    ("an LD", 1, Record::Ld(both(50, 3, 40), led_by(3, 1, 1, 1, 0, 1, 1)), 45, Ok(&[b"LD", BOTH, ELECTED])),
    ("an LD, one byte short", 1, Record::Ld(both(50, 3, 40), led_by(3, 1, 1, 1, 0, 1, 1)), 44, Err(17)),
    ("an LD, 14 before 3", 6, Record::Ld(counted(50, 9, 1, 3, 40), led_by(3, 1, 1, 27, 0, 1, 1)), 45, Err(14)),
    ("an LD, 3 of the transaction", 1, Record::Ld(counted(50, 9, 1, 3, 40), led_by(3, 1, 1, 1, 0, 1, 1)), 45, Err(3)),
    ("an LD, 7 before 8", 1, Record::Ld(both(50, 3, 50), led_by(3, 3, 1, 1, 0, 1, 1)), 45, Err(7)),
];

/// So many boxes, all of one number, in a view.
const fn ballots(count: usize, number: u8, view: u16) -> ViewsDraft {
    led_by(0, 0, 0, count, number, 0, view)
}

/// A leader's decision and view, and so many answers, all of one box.
const fn led_by(leader: u8, decision: u8, view: u16, count: usize, number: u8, answer: u8, answered: u16) -> ViewsDraft {
    ViewsDraft { leader, decision, view, count, ballots: [(number, answer, answered); 26] }
}

/// What a buffer's bytes are before.
const CLEAR: u8 = 0xaa;

/// A writer's number and length, and the buffer that it leaves.
fn left(given: Result<Vec<u8>, u8>, room: usize) -> (Result<(u8, usize), String>, Vec<u8>) {
    let mut buffer = vec![CLEAR; room];
    let told = match given {
        Ok(bytes) => {
            buffer[..bytes.len()].copy_from_slice(&bytes);
            (0, bytes.len())
        }
        Err(number) => (number, 0),
    };
    (Ok(told), buffer)
}

fn writing(tried: &mut Tried) {
    for (what, f, record, room, due) in WRITTEN {
        let mut buffer = vec![CLEAR; room];
        let told = engine::write(&record, f, &mut buffer);
        let by_model = left(model::written(&record, f, room), room);
        tried.one(what, left(due.map(|parts| parts.concat()), room), (told, buffer), by_model);
    }
}

// ---- the tally

const VOTES: u8 = 1;
const LOGS: u8 = 2;
/// What a sheet of a kind says with so many answers of each: for each threshold what is lacking.
fn lacking(kind: u8, f: u64, commits: u64, aborts: u64) -> Reply {
    let row = THRESHOLDS[f as usize - 1].map(|needed| needed as u64);
    let of = |threshold: usize, given: u64| row[threshold].saturating_sub(given) as u8;
    if kind == VOTES {
        Reply::Votes([of(0, commits), of(1, aborts), of(2, commits), of(3, aborts)])
    } else {
        Reply::Logs([of(4, commits), of(4, aborts)])
    }
}

/// Boxes 0, 1, 2 .. answer alike on a sheet of a kind for f.
struct Walk {
    kind: u8,
    f: u64,
    answer: u64,
}

/// Of every kind, f and answer.
fn walks() -> impl Iterator<Item = Walk> {
    (1..=5).flat_map(|f| [(VOTES, 1), (VOTES, 2), (LOGS, 1), (LOGS, 2)].map(|(kind, answer)| Walk { kind, f, answer }))
}

fn sheet(kind: u8, commits: u32, aborts: u32) -> Sheet {
    Sheet { kind, commits, aborts }
}

/// One answer on a lent sheet: the reply, and the sheet afterwards.
fn taken(tried: &mut Tried, what: &str, lent: Sheet, f: u64, number: u64, answer: u64, due: (Reply, Sheet)) {
    let (mut by_engine, mut by_model) = (lent, lent);
    let reply = engine::tally(&mut by_engine, f, number, answer);
    let modelled = model::tally(&mut by_model, f, number, answer);
    tried.one(&format!("{what}, f {f}, box {number}, answer {answer} on {lent:?}"), (Some(due.0), due.1), (reply, by_engine), (Some(modelled), by_model));
}

/// Every answer of a walk; and once all have answered, what leaves the sheet as it is.
fn walk(tried: &mut Tried, walk: &Walk) {
    let Walk { kind, f, answer } = walk;
    let (n, other) = (5 * f + 1, 3 - answer);
    let after = |count: u64| {
        let mask = (1u32 << count) - 1;
        if *answer == 1 {
            sheet(*kind, mask, 0)
        } else {
            sheet(*kind, 0, mask)
        }
    };
    for number in 0..n {
        let given = number + 1;
        let reply = if *answer == 1 { lacking(*kind, *f, given, 0) } else { lacking(*kind, *f, 0, given) };
        taken(tried, "walk", after(number), *f, number, *answer, (reply, after(number + 1)));
        taken(tried, "again", after(number + 1), *f, 0, *answer, (Reply::Repeat, after(number + 1)));
        taken(tried, "again, otherwise", after(number + 1), *f, 0, other, (Reply::Repeat, after(number + 1)));
    }
    let all = after(n);
    taken(tried, "box n", all, *f, n, *answer, (Reply::Refused(5), all));
    taken(tried, "answer 0", all, *f, 0, 0, (Reply::Refused(8), all));
    taken(tried, "answer 3", all, *f, 0, 3, (Reply::Refused(8), all));
    taken(tried, "5 before 8", all, *f, n, 3, (Reply::Refused(5), all));
}

/// Sheets with any number of answers of either kind, of every f, as they become with one more; a commit proof's last vote and an abort vote beside one among them.
fn mixed(tried: &mut Tried) {
    for f in 1..=5u64 {
        let n = 5 * f + 1;
        for (commits, aborts) in (0..n).flat_map(|commits| (0..n - commits).map(move |aborts| (commits, aborts))) {
            let (c, a) = ((1u32 << commits) - 1, ((1u32 << aborts) - 1) << commits);
            let last = 1u32 << (n - 1);
            for kind in [VOTES, LOGS] {
                taken(tried, "mixed", sheet(kind, c, a), f, n - 1, 1, (lacking(kind, f, commits + 1, aborts), sheet(kind, c | last, a)));
                taken(tried, "mixed", sheet(kind, c, a), f, n - 1, 2, (lacking(kind, f, commits, aborts + 1), sheet(kind, c, a | last)));
            }
        }
    }
}

fn sheets(tried: &mut Tried) {
    walks().for_each(|one| walk(tried, &one));
    mixed(tried);
    let last = 1 << 25;
    // as 01's row of thresholds has it: one of each kind for f = 1 and f = 5
    taken(tried, "first", sheet(VOTES, 0, 0), 1, 0, 1, (Reply::Votes([3, 2, 5, 4]), sheet(VOTES, 1, 0)));
    taken(tried, "first", sheet(VOTES, 0, 0), 5, 0, 2, (Reply::Votes([16, 5, 26, 15]), sheet(VOTES, 0, 1)));
    taken(tried, "first", sheet(LOGS, 0, 0), 1, 0, 1, (Reply::Logs([4, 5]), sheet(LOGS, 1, 0)));
    taken(tried, "first", sheet(LOGS, 0, 0), 5, 0, 2, (Reply::Logs([21, 20]), sheet(LOGS, 0, 1)));
    taken(tried, "a commit proof", sheet(VOTES, 0b1_1111, 0), 1, 5, 1, (Reply::Votes([0, 2, 0, 4]), sheet(VOTES, 0b11_1111, 0)));
    // an abort proof and a commit vote beside it; a proof from logs and an abort beside it
    taken(tried, "other answer", sheet(VOTES, 0, 0b1111), 1, 5, 1, (Reply::Votes([3, 0, 5, 0]), sheet(VOTES, 0b10_0000, 0b1111)));
    taken(tried, "other answer", sheet(VOTES, 0, 0xffff), 5, 25, 1, (Reply::Votes([15, 0, 25, 0]), sheet(VOTES, last, 0xffff)));
    taken(tried, "other answer", sheet(LOGS, 0b1_1111, 0), 1, 5, 2, (Reply::Logs([0, 4]), sheet(LOGS, 0b1_1111, 0b10_0000)));
    taken(tried, "other answer", sheet(LOGS, 0x1f_ffff, 0), 5, 21, 2, (Reply::Logs([0, 20]), sheet(LOGS, 0x1f_ffff, 1 << 21)));
    // boxes may answer in any order
    taken(tried, "falling", sheet(VOTES, 0, 0), 1, 5, 2, (Reply::Votes([4, 1, 6, 3]), sheet(VOTES, 0, 0b10_0000)));
    taken(tried, "falling", sheet(VOTES, 0, 0b10_0000), 1, 3, 1, (Reply::Votes([3, 1, 5, 3]), sheet(VOTES, 0b1000, 0b10_0000)));
    taken(tried, "falling", sheet(VOTES, 0b1000, 0b10_0000), 1, 0, 2, (Reply::Votes([3, 0, 5, 2]), sheet(VOTES, 0b1000, 0b10_0001)));
    let refused: [(&str, Sheet, u64, u64, u64, u8); 14] = [
        ("f 0", sheet(VOTES, 0, 0), 0, 0, 1, 14),
        ("f 6", sheet(VOTES, 0, 0), 6, 0, 1, 14),
        ("14 before 16", sheet(0, 0, 0), 0, 0, 1, 14),
        ("kind 0", sheet(0, 0, 0), 1, 0, 1, 16),
        ("kind 3", sheet(3, 0, 0), 1, 0, 1, 16),
        ("box 6 of 6 under commit", sheet(VOTES, 1 << 6, 0), 1, 0, 1, 16),
        ("box 6 of 6 under abort", sheet(LOGS, 0, 1 << 6), 1, 0, 1, 16),
        ("a box under both", sheet(VOTES, 0b100, 0b100), 1, 0, 1, 16),
        ("16 before 5 and 8", sheet(VOTES, 0b100, 0b100), 1, 6, 3, 16),
        ("box 26 of 26", sheet(VOTES, 1 << 26, 0), 5, 0, 1, 16),
        ("box 25 under both", sheet(VOTES, last, last), 5, 0, 1, 16),
        ("the largest box", sheet(VOTES, last, 0), 5, u64::MAX, 1, 5),
        ("the largest answer", sheet(VOTES, last, 0), 5, 0, u64::MAX, 8),
        ("8 before Repeat", sheet(VOTES, last, 0), 5, 25, 3, 8),
    ];
    for (what, lent, f, number, answer, due) in refused {
        taken(tried, what, lent, f, number, answer, (Reply::Refused(due), lent));
    }
    taken(tried, "box 5 is on it", sheet(VOTES, 1 << 5, 0), 1, 0, 1, (Reply::Votes([2, 2, 4, 4]), sheet(VOTES, 0b10_0001, 0)));
    taken(tried, "box 25 is on it", sheet(VOTES, last, 0), 5, 25, 2, (Reply::Repeat, sheet(VOTES, last, 0)));
}

/// False where an answer is not the one due, or where none was tried.
pub fn check() -> bool {
    let mut tried = Tried::default();
    let parts: [(&str, fn(&mut Tried)); 25] = [
        ("reading", reading),
        ("entrances", entering),
        ("LGs before the PR", missing_the_prepare),
        ("lists", lists),
        ("entries visited", visits::numbers),
        ("entries visited by messages in turn", visits::in_turn),
        ("the most entries visited", visits::most),
        ("what is old", low::old),
        ("low marks raised", low::raising),
        ("folded versions", low::folded),
        ("waits for what goes", low::waiting),
        ("low marks and folds in lent tables", low::as_lent),
        ("the fallback", fallback::rescues),
        ("moving on", fallback::moves),
        ("a leader's decisions", fallback::led),
        ("leaders", fallback::leaders),
        ("what is held after messages", held::after_messages),
        ("what is held at each place", held::each_place),
        ("what is held in lent tables", held::as_lent),
        ("what is held, refused", held::refusals),
        ("writing", writing),
        ("the tally", sheets),
        ("elections", fallback::elections),
        ("elections refused", fallback::elections_refused),
        ("views told", fallback::views_told),
    ];
    let mut all = true;
    let told: Vec<String> = parts
        .iter()
        .map(|(what, part)| {
            let before = tried.all;
            part(&mut tried);
            all &= tried.all > before;
            format!("{} of {what}", tried.all - before)
        })
        .collect();
    println!("vectors of the papers: {}; {} differ", told.join(", "), tried.wrong);
    tried.wrong == 0 && all
}
