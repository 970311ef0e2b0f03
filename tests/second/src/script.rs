//! Call scripts: one call a line in, one answer a line out.
//!
//! Bytes are written in hex, two digits a byte, and `-` for no bytes at all. In
//! a call they may also be written as they are behind a `=`, if each is from 33
//! to 126.
//! Numbers are decimal. Words are separated by spaces. An empty line and a line
//! that begins with `#` are passed over and get no answer. A line that is none
//! of these calls gets `bad line` and does nothing.
//!
//! | call | answer |
//! |---|---|
//! | `fresh` | `done` (new zero-filled memory with a fresh table) |
//! | `freshen` | `done` or `refused N` (a fresh table in the memory as it is) |
//! | `freshloader` | `done` (new zero-filled memory, a fresh loader) |
//! | `piece HEX` | `done` or `refused N` |
//! | `end` | `report LINES ACCEPTED SKIPPED REFUSED FIRSTLINE REASON PLACE BRINGUP` or `refused N` |
//! | `change HEX` | `done`, `refused 3 PLACE` or `refused N` |
//! | `revoke HEX` | `revoked COUNT`, `refused 3 PLACE` or `refused N` |
//! | `override HEX` | `done`, `refused 3 PLACE` or `refused N` |
//! | `mapping HEX` | `done`, `refused 3 PLACE` or `refused N` |
//! | `bylabel HEX` | `mapping LEVEL SET COUNT`, `none`, `refused 3 PLACE` or `refused N` |
//! | `bylevel LEVEL SET` | `label NUMBER`, `none` or `refused N` |
//! | `run LEVEL SET n,l,SET n,l,SET ...` | `label NUMBER`, `none` or `refused N` |
//! | `question SUBJECT OBJECT REQUEST 0` or `1` | `granted R`, `denied R`, `override R`, `refused 3 PLACE` or `refused N` |
//! | `list K HEX` | `length N HEX` or `refused N HEX`: the whole buffer afterwards |
//! | `label K` | `done HEX` or `refused N -` |
//! | `recordtoline HEX OUT` | `length N HEX` or `refused N HEX`: the whole output afterwards |
//! | `linetorecord HEX OUT` | `length N HEX` or `refused N HEX`: the whole output afterwards |
//! | `writeoption LABEL OUT` | `length N HEX` or `refused N HEX`: the whole output afterwards |
//! | `readoption HEX` | `peer HEX` or `refused N` |
//! | `newobject CREATOR FOLDER T D`, both `0` or `1` | `creator`, `folder 0`, `folder 1`, `denied` or `refused N` |
//! | `poke labels OFFSET HEX` | `done`: the bytes from OFFSET on |
//! | `poke entries OFFSET HEX` | `done` |
//! | `poke words INDEX VALUE` | `done`: one word |
//! | `poke line OFFSET HEX` | `done` |
//! | `poke loader INDEX VALUE` | `done`: one of the nine numbers |
//! | `resize labels N`, `entries`, `words`, `line` | `done`: cut at the end, or zeros added |
//! | `dump` | `dump labels H entries H words H line H counts L R M O loader K L A S R F N P B` |
//!
//! SET is the three words of a set with `:` between.
//!
//! PLACE is where the first bad byte of the first bad label stands, from 0. The
//! two calls for old records, the two for the packet option and that for a new
//! object have none: their 3 is `refused 3 HEX`, and `refused 3` of `readoption` and
//! `newobject`.
//!
//! In `newobject` T is `1` where the folder transmutes, D where the new object is a
//! folder; behind `folder` stands whether the new object transmutes.
//!
//! In a dump H is the 64-bit FNV-1a hash of a part as 16 hex digits; a word
//! counts as its eight bytes, lowest first. A count whose word has been cut off
//! is written `-`. Before the first call there are a fresh table and a fresh
//! loader.

pub use crate::call::{read_hex, write_hex, write_set, Call, Part, Poke};
pub use crate::machine::Machine;

use crate::plain::{words_of, Answer, Found, NewObject, Refusal, Report};
use crate::program::answer_text;
use crate::raw;

/// What a call answers, before it is text.
#[derive(Clone, PartialEq, Eq, Debug)]
pub enum Made {
    Done(Result<(), Refusal>),
    Report(Result<Report, Refusal>),
    Revoked(Result<usize, Refusal>),
    Mapping(Result<Option<Box<Found>>, Refusal>),
    Number(Result<Option<u64>, Refusal>),
    Answer(Answer),
    /// And the whole output afterwards.
    Written(Result<usize, Refusal>, Vec<u8>),
    /// And the label's bytes.
    Label(Result<(), Refusal>, Vec<u8>),
    Peer(Result<Vec<u8>, Refusal>),
    NewObject(NewObject),
    /// The text of a dump is of the memory as it is.
    Dump,
}

impl Machine {
    /// Makes the call on this line. None where the line is passed over.
    pub fn execute(&mut self, line: &str) -> Option<String> {
        let first = line.split_ascii_whitespace().next()?;
        if first.starts_with('#') {
            return None;
        }
        let made = Call::read(line).and_then(|call| self.make(&call));
        Some(match made {
            Some(made) => self.text_of(&made),
            None => "bad line".to_string(),
        })
    }

    /// Makes the call. None where a poke does not fit, or a part would get too long;
    /// then nothing changes.
    pub fn make(&mut self, call: &Call) -> Option<Made> {
        Some(match call {
            Call::Fresh => {
                self.fresh();
                Made::Done(Ok(()))
            }
            Call::Freshen => Made::Done(self.fresh_table()),
            Call::FreshLoader => {
                self.fresh_loader();
                Made::Done(Ok(()))
            }
            Call::Piece(bytes) => Made::Done(self.piece(bytes)),
            Call::End => Made::Report(self.end()),
            Call::Change(write) => Made::Done(self.change(write)),
            Call::Revoke(write) => Made::Revoked(self.revoke(write)),
            Call::Override(write) => Made::Done(self.override_write(write)),
            Call::Mapping(write) => Made::Done(self.mapping(write)),
            Call::ByLabel(label) => {
                let answer = self.by_label(label);
                Made::Mapping(answer.map(|found| found.map(Box::new)))
            }
            Call::ByLevel { level, set } => {
                let answer = self.by_level(*level, set);
                Made::Number(answer.map(|number| number.map(|number| number as u64)))
            }
            Call::Run {
                level,
                set,
                records,
            } => Made::Number(raw::by_run(records, *level, set)),
            Call::Question {
                subject,
                object,
                request,
                capable,
            } => Made::Answer(self.question(subject, object, request, *capable)),
            Call::List { k, output } => {
                let mut output = output.clone();
                Made::Written(self.list(*k, &mut output), output)
            }
            Call::Label { k } => Made::Label(self.label_check(*k), self.label(*k).to_vec()),
            Call::RecordToLine { record, output } => {
                let mut output = output.clone();
                Made::Written(raw::record_to_line(record, &mut output), output)
            }
            Call::LineToRecord { line, output } => {
                let mut output = output.clone();
                Made::Written(raw::line_to_record(line, &mut output), output)
            }
            Call::WriteOption { label, output } => {
                let mut output = output.clone();
                Made::Written(self.write_option(label, &mut output), output)
            }
            Call::ReadOption { option } => Made::Peer(self.read_option(option)),
            Call::NewObject {
                creator,
                folder,
                folder_transmutes,
                is_folder,
            } => Made::NewObject(self.new_object(creator, folder, *folder_transmutes, *is_folder)),
            Call::Poke(poke) => {
                self.poke(poke)?;
                Made::Done(Ok(()))
            }
            Call::Resize { part, size } => {
                self.resize(*part, *size)?;
                Made::Done(Ok(()))
            }
            Call::Dump => Made::Dump,
        })
    }

    /// The answer's line.
    fn text_of(&self, made: &Made) -> String {
        match made {
            Made::Done(answer) => done_text(*answer),
            Made::Report(Ok(report)) => whole_report_text(report),
            Made::Revoked(Ok(count)) => format!("revoked {count}"),
            Made::Mapping(Ok(Some(found))) => {
                let set = write_set(&words_of(&found.set));
                format!("mapping {} {set} {}", found.level, found.count)
            }
            Made::Number(Ok(Some(number))) => format!("label {number}"),
            Made::Mapping(Ok(None)) | Made::Number(Ok(None)) => "none".to_string(),
            Made::Answer(Answer::Refused(refusal))
            | Made::Report(Err(refusal))
            | Made::Revoked(Err(refusal))
            | Made::Mapping(Err(refusal))
            | Made::Number(Err(refusal)) => refused_text(*refusal),
            Made::Answer(answer) => answer_text(answer),
            Made::Written(answer, output) => length_text(*answer, output),
            Made::Label(answer, part) => format!("{} {}", done_text(*answer), write_hex(part)),
            Made::Peer(Ok(label)) => format!("peer {}", write_hex(label)),
            // No place is told beside a 3.
            Made::Peer(Err(refusal)) => format!("refused {}", refusal.number()),
            Made::NewObject(answer) => new_object_text(*answer),
            Made::Dump => self.dump(),
        }
    }

    /// The hash of each part, the four counts and the loader's nine numbers.
    fn dump(&self) -> String {
        let (state, loader) = (self.state(), self.loader());
        let mut word_bytes = Vec::new();
        for word in &state.words {
            word_bytes.extend_from_slice(&word.to_le_bytes());
        }
        let mut text = format!(
            "dump labels {:016x} entries {:016x} words {:016x} line {:016x} counts",
            fnv1a(&state.label_store),
            fnv1a(&state.entries),
            fnv1a(&word_bytes),
            fnv1a(&loader.line),
        );
        for index in 0..4 {
            match state.words.get(index) {
                Some(count) => text.push_str(&format!(" {count}")),
                None => text.push_str(" -"),
            }
        }
        text.push_str(" loader");
        for number in loader.numbers {
            text.push_str(&format!(" {number}"));
        }
        text
    }
}

/// All eight numbers of a report; the program prints no place.
fn whole_report_text(report: &Report) -> String {
    format!(
        "report {} {} {} {} {} {} {} {}",
        report.lines,
        report.accepted,
        report.skipped,
        report.refused,
        report.first_line,
        report.first_reason,
        report.first_place,
        report.bringup
    )
}

/// The number, and beside 3 the place.
fn refused_text(refusal: Refusal) -> String {
    match refusal {
        Refusal::BadLabel { place } => format!("refused 3 {place}"),
        other => format!("refused {}", other.number()),
    }
}

fn done_text(answer: Result<(), Refusal>) -> String {
    match answer {
        Ok(()) => "done".to_string(),
        Err(refusal) => refused_text(refusal),
    }
}

/// What was written to a lent output, and the whole output afterwards. No such
/// call tells a place.
fn length_text(answer: Result<usize, Refusal>, output: &[u8]) -> String {
    let answer = match answer {
        Ok(length) => format!("length {length}"),
        Err(refusal) => format!("refused {}", refusal.number()),
    };
    format!("{answer} {}", write_hex(output))
}

/// The label that a new object gets. No place is told beside a 3.
fn new_object_text(answer: NewObject) -> String {
    match answer {
        NewObject::CreatorLabel => "creator".to_string(),
        NewObject::FolderLabel { transmutes } => format!("folder {}", u8::from(transmutes)),
        NewObject::Denied => "denied".to_string(),
        NewObject::Refused(refusal) => format!("refused {}", refusal.number()),
    }
}

/// The 64-bit FNV-1a hash.
pub fn fnv1a(bytes: &[u8]) -> u64 {
    let mut hash: u64 = 0xcbf2_9ce4_8422_2325;
    for &byte in bytes {
        hash ^= u64::from(byte);
        hash = hash.wrapping_mul(0x0000_0100_0000_01b3);
    }
    hash
}
