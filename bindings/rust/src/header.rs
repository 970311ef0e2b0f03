//! include/balqirven.h in Rust: its structs, its numbers and its calls, in the header's order and under the header's names. What each means stands there.
//! Nothing here is public outside this crate; lib.rs makes safe types of it.

#![allow(dead_code)]

pub const LABELS: usize = 16384;
pub const ENTRIES: usize = 840;
pub const WORDS: usize = 100;
pub const LINE: usize = 600;

pub const LONGEST_LABEL: usize = 255;
pub const LONGEST_RULE: usize = 2 * LONGEST_LABEL + 2 + 5 + 1;

pub const FIXED_RECORD: usize = 53;
pub const FIXED_PLACE: usize = 24;
pub const FIXED_LABEL: usize = 23;
pub const LONGEST_FIXED_LINE: usize = 2 * FIXED_LABEL + 2 + 5 + 1;

pub const LONGEST_MAPPING: usize = 1000;
pub const HIGHEST_CATEGORY: u32 = 184;

pub const OWN_LEVEL: u8 = 250;
pub const LONGEST_OWN_LABEL: usize = 23;
pub const LONGEST_OPTION: usize = 34;
pub const LONGEST_OPTION_READ: usize = 40;

#[repr(C)]
#[derive(Clone, Copy, Debug, Default, PartialEq, Eq)]
pub struct bq_set {
    pub word: [u64; 3],
}

#[repr(C)]
#[derive(Clone, Copy, Debug, Default, PartialEq, Eq)]
pub struct bq_report {
    pub lines: u32,
    pub accepted: u32,
    pub skipped: u32,
    pub refused: u32,
    pub first: u32,
    pub reason: u8,
    pub place: usize,
    pub bringup: u32,
}

#[repr(C)]
#[derive(Clone, Copy, Debug, Default, PartialEq, Eq)]
pub struct bq_loader {
    pub kept: usize,
    pub report: bq_report,
}

#[repr(C)]
#[derive(Clone, Copy, Debug, Default, PartialEq, Eq)]
pub struct bq_record {
    pub label: u64,
    pub level: u64,
    pub set: bq_set,
}

#[repr(C)]
#[derive(Clone, Copy, Debug, Default, PartialEq, Eq)]
pub struct bq_written {
    pub refused: bool,
    pub number: u8,
    pub place: usize,
}

#[repr(C)]
#[derive(Clone, Copy, Debug, Default, PartialEq, Eq)]
pub struct bq_counted {
    pub refused: bool,
    pub number: u8,
    pub count: usize,
    pub place: usize,
}

#[repr(C)]
#[derive(Clone, Copy, Debug, Default, PartialEq, Eq)]
pub struct bq_taken {
    pub refused: bool,
    pub number: u8,
    pub loader: bq_loader,
}

#[repr(C)]
#[derive(Clone, Copy, Debug, Default, PartialEq, Eq)]
pub struct bq_finished {
    pub refused: bool,
    pub number: u8,
    pub report: bq_report,
    pub loader: bq_loader,
}

#[repr(C)]
#[derive(Clone, Copy, Debug, Default, PartialEq, Eq)]
pub struct bq_length {
    pub refused: bool,
    pub number: u8,
    pub length: usize,
}

pub const BQ_MAPPED: u8 = 0;
pub const BQ_UNMAPPED: u8 = 1;
pub const BQ_LOOKUP_REFUSED: u8 = 2;

#[repr(C)]
#[derive(Clone, Copy, Debug, Default, PartialEq, Eq)]
pub struct bq_mapped {
    pub kind: u8,
    pub number: u8,
    pub level: u8,
    pub count: u32,
    pub set: bq_set,
    pub place: usize,
}

pub const BQ_LABEL: u8 = 0;
pub const BQ_NO_LABEL: u8 = 1;
pub const BQ_SEARCH_REFUSED: u8 = 2;

#[repr(C)]
#[derive(Clone, Copy, Debug, Default, PartialEq, Eq)]
pub struct bq_lowest {
    pub kind: u8,
    pub number: u8,
    pub label: usize,
}

pub const BQ_GRANTED: u8 = 0;
pub const BQ_DENIED: u8 = 1;
pub const BQ_OVERRIDE: u8 = 2;
pub const BQ_REFUSED: u8 = 3;

#[repr(C)]
#[derive(Clone, Copy, Debug, Default, PartialEq, Eq)]
pub struct bq_decision {
    pub kind: u8,
    pub number: u8,
    pub place: usize,
}

pub const BQ_CREATOR_LABEL: u8 = 0;
pub const BQ_CREATION_DENIED: u8 = 1;
pub const BQ_FOLDER_LABEL: u8 = 2;
pub const BQ_CREATION_REFUSED: u8 = 3;

#[repr(C)]
#[derive(Clone, Copy, Debug, Default, PartialEq, Eq)]
pub struct bq_labelled {
    pub kind: u8,
    pub number: u8,
    pub transmutes: bool,
}

#[repr(C)]
#[derive(Clone, Copy, Debug, Default, PartialEq, Eq)]
pub struct bq_part {
    pub refused: bool,
    pub number: u8,
    pub start: usize,
    pub length: usize,
}

#[repr(C)]
#[derive(Clone, Copy, Debug, PartialEq, Eq)]
pub struct bq_peer {
    pub refused: bool,
    pub number: u8,
    pub length: usize,
    pub bytes: [u8; LONGEST_LABEL],
}

#[rustfmt::skip]
unsafe extern "C" {
    pub fn bq_fresh_table(labels: *mut u8, labels_len: usize, entries: *const u8, entries_len: usize, words: *mut u64, words_len: usize) -> bq_written;
    pub fn bq_fresh_loader() -> bq_loader;
    pub fn bq_piece(labels: *mut u8, labels_len: usize, entries: *mut u8, entries_len: usize, words: *mut u64, words_len: usize, line: *mut u8, line_len: usize, loader: bq_loader, text: *const u8, text_len: usize) -> bq_taken;
    pub fn bq_end(labels: *mut u8, labels_len: usize, entries: *mut u8, entries_len: usize, words: *mut u64, words_len: usize, line: *mut u8, line_len: usize, loader: bq_loader) -> bq_finished;
    pub fn bq_change(labels: *mut u8, labels_len: usize, entries: *mut u8, entries_len: usize, words: *mut u64, words_len: usize, text: *const u8, text_len: usize) -> bq_written;
    pub fn bq_revoke(labels: *const u8, labels_len: usize, entries: *mut u8, entries_len: usize, words: *const u64, words_len: usize, label: *const u8, label_len: usize) -> bq_counted;
    pub fn bq_onlycap(labels: *mut u8, labels_len: usize, entries: *mut u8, entries_len: usize, words: *mut u64, words_len: usize, text: *const u8, text_len: usize) -> bq_written;
    pub fn bq_mapping(labels: *mut u8, labels_len: usize, entries: *mut u8, entries_len: usize, words: *mut u64, words_len: usize, text: *const u8, text_len: usize) -> bq_written;
    pub fn bq_by_label(labels: *const u8, labels_len: usize, entries: *const u8, entries_len: usize, words: *const u64, words_len: usize, label: *const u8, label_len: usize) -> bq_mapped;
    pub fn bq_by_level(labels: *const u8, labels_len: usize, entries: *const u8, entries_len: usize, words: *const u64, words_len: usize, level: u64, set: bq_set) -> bq_lowest;
    pub fn bq_lowest_in_run(records: *const bq_record, records_len: usize, level: u64, set: bq_set) -> bq_lowest;
    pub fn bq_lowest_of(run_labels: *const u64, run_labels_len: usize, run_levels: *const u64, run_levels_len: usize, run_set_words: *const u64, run_set_words_len: usize, level: u64, set: bq_set) -> bq_lowest;
    pub fn bq_question(labels: *const u8, labels_len: usize, entries: *const u8, entries_len: usize, words: *const u64, words_len: usize, subject: *const u8, subject_len: usize, object: *const u8, object_len: usize, request: *const u8, request_len: usize, capable: bool) -> bq_decision;
    pub fn bq_new_object(labels: *const u8, labels_len: usize, entries: *const u8, entries_len: usize, words: *const u64, words_len: usize, creator: *const u8, creator_len: usize, folder: *const u8, folder_len: usize, folder_transmutes: bool, is_folder: bool) -> bq_labelled;
    pub fn bq_list_rule(labels: *const u8, labels_len: usize, entries: *const u8, entries_len: usize, words: *const u64, words_len: usize, k: usize, out: *mut u8, out_len: usize) -> bq_length;
    pub fn bq_label(labels: *const u8, labels_len: usize, entries: *const u8, entries_len: usize, words: *const u64, words_len: usize, k: usize) -> bq_part;
    pub fn bq_label_check(labels: *const u8, labels_len: usize, entries: *const u8, entries_len: usize, words: *const u64, words_len: usize, k: usize) -> bq_written;
    pub fn bq_record_to_line(record: *const u8, record_len: usize, out: *mut u8, out_len: usize) -> bq_length;
    pub fn bq_line_to_record(line: *const u8, line_len: usize, out: *mut u8, out_len: usize) -> bq_length;
    pub fn bq_write_option(labels: *const u8, labels_len: usize, entries: *const u8, entries_len: usize, words: *const u64, words_len: usize, label: *const u8, label_len: usize, out: *mut u8, out_len: usize) -> bq_length;
    pub fn bq_read_option(labels: *const u8, labels_len: usize, entries: *const u8, entries_len: usize, words: *const u64, words_len: usize, option: *const u8, option_len: usize) -> bq_peer;
}
