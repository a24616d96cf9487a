//! What a table holds under a stamp: a box held against the model on the tables that a mixture of calls leaves, damaged ones among them.

use crate::member::Member;
use crate::model::{self, row_at, Decision, Holding, Vote};
use stobbarel::layout::{BODY_AT, HEAD, LOG_AT, LOG_VIEW_AT, ROW};

/// What the mixture has to ask for and to find.
pub const HOLDINGS: [&str; 18] = [
    "held: nothing",
    "held: nothing, in an empty table",
    "held: refused 14",
    "held: refused 14, where 16 is due too",
    "held: refused 16",
    "held: vote none",
    "held: vote commit",
    "held: vote abort",
    "held: waiting",
    "held: decided commit",
    "held: decided abort",
    "held: logged commit",
    "held: logged abort",
    "held: logged in a later view",
    "held: in a later view",
    "held: a view beside no log, which is not told",
    "held: a stamp that stands twice",
    "held: eight reads and eight writes",
];

/// A table, a capacity and a stamp to ask for.
pub struct Asked<'a> {
    pub table: &'a [u8],
    pub capacity: u64,
    pub stamp: u64,
}

/// Capacities that no table has; some would be one if their upper half were dropped.
const CAPACITIES: [u64; 5] = [0, 256, 256 + 8, (1 << 32) + 8, u64::MAX];

/// The stamp at a place of the table, as far as it goes.
fn stamp_at(table: &[u8], place: usize) -> Option<u64> {
    let from = row_at(place) + BODY_AT + 4;
    Some(u64::from_le_bytes(table.get(from..from + 8)?.try_into().ok()?))
}

impl<'a> Asked<'a> {
    /// After a call: the message's stamp, that of a row or the one beside it, by what the message's bytes come to; now and then another capacity.
    pub fn after(table: &'a [u8], capacity: u64, message: &[u8]) -> Asked<'a> {
        let sum = message.iter().fold(0, |sum: usize, byte| sum.wrapping_mul(31).wrapping_add((*byte).into())) >> 3;
        let entries = table.first().copied().unwrap_or(0).max(1);
        let row = stamp_at(table, sum / 16 % usize::from(entries)).unwrap_or(0);
        let own = message.get(6..14).and_then(|eight| eight.try_into().ok()).map_or(0, u64::from_le_bytes);
        let stamp = match sum % 4 {
            0 => own,
            1 => row.wrapping_add(1),
            _ => row,
        };
        let capacity = if sum / 4 % 64 == 7 { CAPACITIES[sum / 256 % CAPACITIES.len()] } else { capacity };
        Asked { table, capacity, stamp }
    }

    /// What the box tells and what the model tells: what is met by it, and an error where they differ.
    pub fn compare(&self, one: &mut dyn Member, met: &mut Vec<&'static str>) -> Result<(), String> {
        let given = one.held(self.table, self.capacity, self.stamp);
        let due = model::held(self.table, self.capacity, self.stamp);
        self.names(&due, met);
        if given == due {
            return Ok(());
        }
        let Asked { table, capacity, stamp } = self;
        Err(format!(
            "held under {stamp}, capacity {capacity}, a table of {} bytes with {:?} entries\n  box   {given:?}\n  model {due:?}",
            table.len(),
            table.first()
        ))
    }

    fn names(&self, due: &Result<Option<Holding>, u8>, met: &mut Vec<&'static str>) {
        let mut meet = |name: &'static str, does: bool| met.extend(does.then_some(name));
        let held = match due {
            Ok(Some(held)) => held,
            Ok(None) => {
                meet("held: nothing", true);
                return meet("held: nothing, in an empty table", self.table[0] == 0);
            }
            Err(number) => {
                meet("held: refused 14", *number == 14);
                let room = self.table.len().saturating_sub(HEAD) / ROW;
                meet("held: refused 14, where 16 is due too", *number == 14 && model::entries_of(self.table, room).is_none());
                return meet("held: refused 16", *number == 16);
            }
        };
        let row = &self.table[held.at - BODY_AT..];
        meet("held: vote none", held.vote == Vote::None);
        meet("held: vote commit", held.vote == Vote::Commit);
        meet("held: vote abort", matches!(held.vote, Vote::Abort(_)));
        meet("held: waiting", held.vote == Vote::Waiting);
        meet("held: decided commit", held.decision == Some(Decision::Commit));
        meet("held: decided abort", held.decision == Some(Decision::Abort));
        meet("held: logged commit", held.log.is_some_and(|log| log.0 == Decision::Commit));
        meet("held: logged abort", held.log.is_some_and(|log| log.0 == Decision::Abort));
        meet("held: logged in a later view", held.log.is_some_and(|log| log.1 > 0));
        meet("held: in a later view", held.view > 0);
        meet("held: a view beside no log, which is not told", row[LOG_AT] == 0 && row[LOG_VIEW_AT..LOG_VIEW_AT + 2] != [0, 0]);
        meet("held: a stamp that stands twice", (0..self.table[0].into()).filter(|place| stamp_at(self.table, *place) == Some(self.stamp)).count() > 1);
        meet("held: eight reads and eight writes", held.body.len() == 172);
    }
}
