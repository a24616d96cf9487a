//! What several tests need.

use stobbarel::{Decision, LONGEST, Refusal, Transaction, UpTo, write_tx};

/// What a writer puts down.
pub fn bytes(write: impl FnOnce(&mut [u8]) -> Result<&[u8], Refusal>) -> Vec<u8> {
    write(&mut [0; LONGEST]).unwrap().to_vec()
}

/// A transaction's TX.
#[allow(dead_code)] // not in each of them
pub fn body(tx: &Transaction) -> Vec<u8> {
    bytes(|out| write_tx(tx, out))
}

/// These boxes, all of them with one answer.
#[allow(dead_code)]
pub fn alike(numbers: impl IntoIterator<Item = u8>, answer: Decision) -> UpTo<(u8, Decision), 26> {
    UpTo::gather(numbers.into_iter().map(|number| (number, answer))).unwrap()
}
