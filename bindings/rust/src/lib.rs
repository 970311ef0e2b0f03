//! Smack labels, access rules and CIPSO mappings: `libbalqirven.a`, version 5.1, with safe types.
//!
//! A [`Table`] holds labels, rules, mappings and the override list. Rule text goes in through a [`Loader`], in pieces that may be cut anywhere. Writes,
//! look-ups, questions and listings are methods of the table. Text is bytes: a call takes a `&str`, a `&[u8]` or whatever else is `AsRef<[u8]>`. A refusal is
//! the `Err` of a call, a [`Refused`], and then nothing has changed. `include/balqirven.h` tells of each call more than stands here.
//!
//! ```
//! use balqirven::{Decision, Loader, Table};
//!
//! let mut table = Table::fresh();
//! let mut loader = Loader::fresh();
//! loader.piece(&mut table, "Probe3 Air w\nAlarm A")?;
//! loader.piece(&mut table, "ir rx")?;
//! let report = loader.end(&mut table)?;
//! assert_eq!((report.lines, report.accepted, report.refused), (2, 2, 0));
//!
//! assert_eq!(table.question("Alarm", "Air", "r", false)?, Decision::Granted { rule: 6 });
//! assert_eq!(table.question("Alarm", "Air", "w", false)?, Decision::Denied { rule: 7 });
//! assert_eq!(table.question("Alarm", "Air", "w", true)?, Decision::Override { rule: 7 });
//! # Ok::<(), balqirven::Refused>(())
//! ```
//!
//! # How the duties of a host are kept
//!
//! The header leaves three duties to the host, since no callee can test them. Here the types keep them, so no call is `unsafe`:
//!
//! - *Pointers that are valid.* Each is made of a reference or a slice and goes with its length. So it is not NULL, also where the length is 0, and it is
//!   aligned. The parts of a table and the line of a loader are arrays of their full size, and a part of another size cannot be said.
//! - *Nothing overlaps what a call writes.* It is borrowed by `&mut`, so nothing else that the call gets lies in it: no output in a table
//!   ([`Table::list_rule`]), no text in the table that it changes ([`Table::label`]), and nothing is turned in place ([`record_to_line`]).
//! - *Nobody else writes during a call.* What a call writes it has by `&mut`, what it reads by `&`, and a table and a loader own their memory. So any number of
//!   threads can ask one table ([`Table::question`]), and none while another changes it ([`Loader::piece`]).
//!
//! # What of an answer is checked
//!
//! These are a panic, and only another library than the one of this header could bring them about: a kind or a refusal number that the header does not have;
//! a rule number that does not go with its kind (granted has 2 to 6, denied and override have 1 or 7); a text longer than the output that it is in, a label
//! outside of the label store, and a label of a packet option of over 255 bytes; a report that counts refused lines and names no first one, or names one and
//! counts none; and a fresh table that is refused. Nothing else of an answer is checked: counts, levels, sets, label numbers and places are handed on, and a
//! `bool` that is neither 0 nor 1 cannot be told.

#![deny(missing_docs)]
#![deny(unsafe_op_in_unsafe_fn)]
#![deny(clippy::undocumented_unsafe_blocks)]

/// Calls a function of the header with the three parts of a table, each as a pointer and a length, and with what it takes behind them.
macro_rules! lend {
    ($call:ident, read $table:expr $(, $more:expr)*) => {{
        let $crate::table::Parts { labels, entries, words } = &*$table.parts;
        $call(labels.as_ptr(), labels.len(), entries.as_ptr(), entries.len(), words.as_ptr(), words.len() $(, $more)*)
    }};
    ($call:ident, write $table:expr $(, $more:expr)*) => {{
        let $crate::table::Parts { labels, entries, words } = &mut *$table.parts;
        $call(labels.as_mut_ptr(), labels.len(), entries.as_mut_ptr(), entries.len(), words.as_mut_ptr(), words.len() $(, $more)*)
    }};
}

mod answer;
#[allow(non_camel_case_types)]
mod header;
mod loader;
mod refusal;
mod set;
mod table;

pub use loader::{FirstRefused, Loader, Report};
pub use refusal::{Refusal, Refused};
pub use set::{Record, Set};
pub use table::{Decision, Mapping, NewObject, PeerLabel, Table};

use answer::{found, front};
use header::{bq_line_to_record, bq_lowest_in_run, bq_lowest_of, bq_record_to_line};

/// The bytes of a table's label store.
pub const LABELS: usize = header::LABELS;
/// The bytes of a table's entries.
pub const ENTRIES: usize = header::ENTRIES;
/// The 64-bit words of a table.
pub const WORDS: usize = header::WORDS;
/// The most bytes of a line, and of every write but a mapping.
pub const LINE: usize = header::LINE;
/// The most bytes of a label.
pub const LONGEST_LABEL: usize = header::LONGEST_LABEL;
/// The most bytes of a listed rule: two labels, two spaces, five letters and a newline.
pub const LONGEST_RULE: usize = header::LONGEST_RULE;
/// The bytes of an old record.
pub const FIXED_RECORD: usize = header::FIXED_RECORD;
/// The bytes of each of the two label places of an old record.
pub const FIXED_PLACE: usize = header::FIXED_PLACE;
/// The most bytes of a label in an old record.
pub const FIXED_LABEL: usize = header::FIXED_LABEL;
/// The most bytes of the line that is made of an old record.
pub const LONGEST_FIXED_LINE: usize = header::LONGEST_FIXED_LINE;
/// The most bytes of a mapping write.
pub const LONGEST_MAPPING: usize = header::LONGEST_MAPPING;
/// Categories are 1 to this.
pub const HIGHEST_CATEGORY: u32 = header::HIGHEST_CATEGORY;
/// The level of a packet option for a label without a mapping. No mapping write takes it.
pub const OWN_LEVEL: u8 = header::OWN_LEVEL;
/// The most bytes of a label without a mapping that goes into a packet option.
pub const LONGEST_OWN_LABEL: usize = header::LONGEST_OWN_LABEL;
/// The most bytes of a packet option that is written.
pub const LONGEST_OPTION: usize = header::LONGEST_OPTION;
/// The most bytes of a packet option that is read.
pub const LONGEST_OPTION_READ: usize = header::LONGEST_OPTION_READ;

/// The lowest label number of the records that have this level and this set. A run has any length and content, and is no part of a table.
///
/// Refused with: 9 BadLevelOrCategory. It is for a level over 255 and for a set with a bit that is no category.
///
/// ```
/// use balqirven::{Record, Refusal, Set, lowest_in_run};
///
/// let set = Set::of([1, 184]).unwrap();
/// let run = [(7, 9), (5, 9), (3, 8)].map(|(label, level)| Record { label, level, set });
/// assert_eq!(lowest_in_run(&run, 9, set)?, Some(5));
/// assert_eq!(lowest_in_run(&run, 9, Set::empty())?, None);
/// assert_eq!(lowest_in_run(&[], 9, set)?, None);
/// assert_eq!(lowest_in_run(&run, 256, set).unwrap_err().refusal, Refusal::BadLevelOrCategory);
/// # Ok::<(), balqirven::Refused>(())
/// ```
pub fn lowest_in_run(run: &[Record], level: u64, set: Set) -> Result<Option<usize>, Refused> {
    // SAFETY: valid: `run` is a slice, with its own length, and a `Record` lies in memory as a `bq_record`, which set.rs asserts; apart: nothing is written;
    // alone: `run` is borrowed, so nobody writes it.
    found(unsafe { bq_lowest_in_run(run.as_ptr().cast(), run.len(), level, set.lent()) })
}

/// As [`lowest_in_run`], with each field of the records in a slice of its own, a set as its three words one after another. There are as many records as the
/// shortest of the three has room for.
///
/// Refused with: 9 BadLevelOrCategory.
///
/// ```
/// use balqirven::{Refusal, Set, lowest_of};
///
/// let (labels, levels, set_words) = ([7, 5, 2], [9, 9, 9], [1 << 63, 0, 0, 1 << 63, 0, 0]);
/// let set = Set::of([1]).unwrap();
/// assert_eq!(lowest_of(&labels, &levels, &set_words, 9, set)?, Some(5), "of the third record there is no set");
/// assert_eq!(lowest_of(&labels, &levels, &set_words[..5], 9, set)?, Some(7));
/// assert_eq!(lowest_of(&labels, &[], &set_words, 9, set)?, None);
/// assert_eq!(lowest_of(&labels, &levels, &set_words, 9, Set::from_words([0, 0, 1])).unwrap_err().refusal, Refusal::BadLevelOrCategory);
/// # Ok::<(), balqirven::Refused>(())
/// ```
pub fn lowest_of(labels: &[u64], levels: &[u64], set_words: &[u64], level: u64, set: Set) -> Result<Option<usize>, Refused> {
    // SAFETY: valid: three slices, each with its own length, and aligned as `u64`; apart: nothing is written; alone: the slices are borrowed, so nobody
    // writes them.
    found(unsafe { bq_lowest_of(labels.as_ptr(), labels.len(), levels.as_ptr(), levels.len(), set_words.as_ptr(), set_words.len(), level, set.lent()) })
}

/// An old record as a rule line in the listing's form, with its newline. It goes to the front of `out`, and the answer is that front; the rest stays, and on
/// a refusal all of it. [`LONGEST_FIXED_LINE`] bytes are enough for any.
///
/// Refused with: 14 BadRecord, 3 BadLabel, 4 BadAccess, 5 SameLabels, 12 OutputTooShort. No place is told.
///
/// ```
/// use balqirven::{LONGEST_FIXED_LINE, Refusal, record_to_line};
///
/// let mut out = [0; LONGEST_FIXED_LINE];
/// let record = format!("{:24}{:24}{}", "Alarm", "Air_StoreEast_1", "R--a-");
/// assert_eq!(record_to_line(&record, &mut out)?, b"Alarm Air_StoreEast_1 ra\n");
/// assert_eq!(record_to_line(&record[..52], &mut out).unwrap_err().refusal, Refusal::BadRecord);
/// # Ok::<(), balqirven::Refused>(())
/// ```
///
/// Nothing is turned in place:
///
/// ```compile_fail,E0502
/// let mut bytes = [b' '; 53];
/// balqirven::record_to_line(&bytes, &mut bytes);
/// ```
pub fn record_to_line(record: impl AsRef<[u8]>, out: &mut [u8]) -> Result<&[u8], Refused> {
    let record = record.as_ref();
    // SAFETY: valid: two slices, each with its own length; apart: `out` is borrowed by `&mut`, so `record` is not of it; alone: both are borrowed.
    front(unsafe { bq_record_to_line(record.as_ptr(), record.len(), out.as_mut_ptr(), out.len()) }, out)
}

/// A rule line, with or without a closing newline, as an old record, which is [`FIXED_RECORD`] bytes. It goes to the front of `out`, and the answer is that
/// front; the rest stays, and on a refusal all of it. A label is never cut, and a b is dropped.
///
/// Refused with: 1 TooLong, 2 WrongFields, 3 BadLabel, 4 BadAccess, 5 SameLabels, 15 NotInARecord, 12 OutputTooShort. No place is told.
///
/// ```
/// use balqirven::{FIXED_RECORD, Refusal, line_to_record};
///
/// let mut out = [0; FIXED_RECORD];
/// assert_eq!(line_to_record("Alarm Archive rab\n", &mut out)?, b"Alarm                   Archive                 r--a-");
/// assert_eq!(line_to_record("ClimateProbe_StoreNorth_01_Temp Air w", &mut out).unwrap_err().refusal, Refusal::NotInARecord);
/// # Ok::<(), balqirven::Refused>(())
/// ```
pub fn line_to_record(line: impl AsRef<[u8]>, out: &mut [u8]) -> Result<&[u8], Refused> {
    let line = line.as_ref();
    // SAFETY: valid: two slices, each with its own length; apart: `out` is borrowed by `&mut`, so `line` is not of it; alone: both are borrowed.
    front(unsafe { bq_line_to_record(line.as_ptr(), line.len(), out.as_mut_ptr(), out.len()) }, out)
}
