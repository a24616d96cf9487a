//! The C interface of the engine, as `include/stobbarel.h` declares it: each function of the library, and the numbers of a table's layout. Both are taken from
//! the header when this package is built, so that they stand in one place; the header says what each function owes and is owed. The package `stobbarel` has
//! the same behind safe functions.
//!
//! ```
//! let mut thresholds = [0; 6];
//! // SAFETY: the pointer is to six numbers.
//! let refusal = unsafe { stobbarel_sys::stobbarel_thresholds(1, thresholds.as_mut_ptr()) };
//! assert_eq!((refusal, thresholds), (0, [6, 4, 2, 6, 4, 5]));
//! ```
#![no_std]
#![deny(missing_docs)]

/// How a table is laid out, and how many keys and bytes there are.
///
/// ```
/// use stobbarel_sys::layout::{HEAD, ROW, table_len};
///
/// assert_eq!(table_len(8), HEAD + 8 * ROW);
/// ```
pub mod layout {
    include!(concat!(env!("OUT_DIR"), "/layout.rs"));
}

include!(concat!(env!("OUT_DIR"), "/functions.rs"));
