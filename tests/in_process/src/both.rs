//! One call, made by the second implementation and by the library; then the answers and every lent byte are compared.

use std::fmt::Debug;

use second::plain::{self, Answer, NewObject, Record, Refusal, Report, words_of};
use second::raw;
use second::script::{Call, Machine, Part, Poke};

use crate::header::*;
use crate::lent::Lent;
use crate::wide;

/// What the library answers and what the second implementation does, or which lent bytes differ.
pub type Difference = String;

/// The calls of the header, in its order, for counting.
#[derive(Clone, Copy)]
pub enum Name {
    FreshTable,
    FreshLoader,
    Piece,
    End,
    Change,
    Revoke,
    Onlycap,
    Mapping,
    ByLabel,
    ByLevel,
    LowestInRun,
    LowestOf,
    Question,
    NewObject,
    ListRule,
    Label,
    LabelCheck,
    RecordToLine,
    LineToRecord,
    WriteOption,
    ReadOption,
}

/// The calls by name, and how many kinds of answers each has besides refusals.
pub const CALLS: [(&str, usize); 21] = [
    ("bq_fresh_table", 1),
    ("bq_fresh_loader", 1),
    ("bq_piece", 1),
    ("bq_end", 1),
    ("bq_change", 1),
    ("bq_revoke", 1),
    ("bq_onlycap", 1),
    ("bq_mapping", 1),
    ("bq_by_label", 2),
    ("bq_by_level", 2),
    ("bq_lowest_in_run", 2),
    ("bq_lowest_of", 2),
    ("bq_question", 3),
    ("bq_new_object", 3),
    ("bq_list_rule", 1),
    ("bq_label", 1),
    ("bq_label_check", 1),
    ("bq_record_to_line", 1),
    ("bq_line_to_record", 1),
    ("bq_write_option", 1),
    ("bq_read_option", 1),
];

const HEADER: &str = include_str!("../../../include/balqirven.h");

/// The refusals that the header lists for a call: the numbers behind `Refusals:` in the comment before its declaration, or those of the call that is named there
/// in their place. Limits stand there too, which are no refusal numbers.
fn listed(name: &str) -> Vec<usize> {
    let declared = HEADER.find(&format!(" {name}(")).expect("the header declares the call");
    let end = HEADER[..declared].rfind("*/").expect("a comment stands before it");
    let start = HEADER[..end].rfind("/*").expect("a comment has a beginning");
    let Some((_, text)) = HEADER[start..end].rsplit_once("Refusals:") else {
        return Vec::new();
    };
    let numbers = text.split(|c: char| !c.is_ascii_digit()).filter_map(|word| word.parse().ok());
    let refusals: Vec<usize> = numbers.filter(|&number| number < FIRST_KIND).collect();
    match text.split_once("as bq_") {
        Some((_, other)) if refusals.is_empty() => listed(&format!("bq_{}", other.trim_end_matches(|c: char| !c.is_ascii_alphabetic()))),
        _ => refusals,
    }
}

/// Behind the refusal numbers, 0 to 21, the kinds of an answer that is no refusal: done, granted, mapped, a label, the creator's label; denied, none; by
/// override, the folder's label.
pub const OUTCOMES: usize = 25;
const FIRST_KIND: usize = 22;

pub fn outcome_name(outcome: usize) -> String {
    match outcome.checked_sub(FIRST_KIND) {
        None => format!("refused {outcome}"),
        Some(kind) => ["done", "denied or none", "override or folder"][kind].to_string(),
    }
}

/// How often each call had each outcome.
#[derive(Clone, Copy)]
pub struct Counts(pub [[u64; OUTCOMES]; 21]);

impl Counts {
    pub fn new() -> Counts {
        Counts([[0; OUTCOMES]; 21])
    }

    /// The outcomes that the header has and that did not occur, and those that occurred and that it does not have.
    pub fn not_as_listed(&self) -> Vec<String> {
        let mut odd = Vec::new();
        for ((name, kinds), counts) in CALLS.iter().zip(&self.0) {
            let refusals = listed(name);
            for (outcome, &count) in counts.iter().enumerate() {
                let listed = refusals.contains(&outcome) || (FIRST_KIND..FIRST_KIND + kinds).contains(&outcome);
                if listed != (count > 0) {
                    odd.push(format!("{name}, {}: {count} times", outcome_name(outcome)));
                }
            }
        }
        odd
    }

    fn count(&mut self, name: Name, refused: bool, number: u8, kind: u8) {
        let outcome = if refused { usize::from(number) } else { FIRST_KIND + usize::from(kind) };
        // What is compared already cannot be out of these limits.
        self.0[name as usize][outcome] += 1;
    }
}

/// A library's call with the three parts of the tables in front.
macro_rules! library {
    ($lent:expr, $call:ident $(, $more:expr)*) => {
        unsafe {
            $call($lent.labels.start(), $lent.labels.len(), $lent.entries.start(), $lent.entries.len(), $lent.words.start(), $lent.words.len() $(, $more)*)
        }
    };
}

/// The same of a call that takes them with const.
macro_rules! library_reads {
    ($lent:expr, $call:ident $(, $more:expr)*) => {
        unsafe {
            $call($lent.labels.shown(), $lent.labels.len(), $lent.entries.shown(), $lent.entries.len(), $lent.words.shown(), $lent.words.len() $(, $more)*)
        }
    };
}

/// A fresh table, of entries that are taken with const.
fn fresh_table(lent: &Lent) -> bq_written {
    unsafe { bq_fresh_table(lent.labels.start(), lent.labels.len(), lent.entries.shown(), lent.entries.len(), lent.words.start(), lent.words.len()) }
}

#[cold]
fn differs<T: Debug>(library: T, second: T) -> Result<(), Difference> {
    Err(format!("library {library:?}, second {second:?}"))
}

#[inline]
fn same<T: PartialEq + Debug>(library: T, second: T) -> Result<(), Difference> {
    if library == second { Ok(()) } else { differs(library, second) }
}

/// Compares what was lent, and tells the first place where it differs.
#[inline]
fn same_bytes(part: &str, library: &[u8], second: &[u8]) -> Result<(), Difference> {
    if wide::same(library, second) { Ok(()) } else { first_place(part, library, second) }
}

#[inline]
fn same_words(part: &str, library: &[u64], second: &[u64]) -> Result<(), Difference> {
    if wide::same(wide::bytes(library), wide::bytes(second)) { Ok(()) } else { first_place(part, library, second) }
}

#[cold]
fn first_place<T: PartialEq + Debug>(part: &str, library: &[T], second: &[T]) -> Result<(), Difference> {
    match library.iter().zip(second).position(|(a, b)| a != b) {
        Some(at) => Err(format!("{part} {at}: library {:?}, second {:?}", library[at], second[at])),
        None => Err(format!("{part}: library has {}, second {}", library.len(), second.len())),
    }
}

fn written(answer: Result<(), Refusal>) -> bq_written {
    match answer {
        Ok(()) => bq_written::default(),
        Err(refusal) => bq_written { refused: true, number: refusal.number(), place: refusal.place() },
    }
}

fn length(answer: Result<usize, Refusal>) -> bq_length {
    match answer {
        Ok(length) => bq_length { length, ..bq_length::default() },
        Err(refusal) => bq_length { refused: true, number: refusal.number(), length: 0 },
    }
}

fn lowest(answer: Result<Option<usize>, Refusal>) -> bq_lowest {
    match answer {
        Ok(Some(label)) => bq_lowest { kind: BQ_LABEL, number: 0, label },
        Ok(None) => bq_lowest { kind: BQ_NO_LABEL, number: 0, label: 0 },
        Err(refusal) => bq_lowest { kind: BQ_SEARCH_REFUSED, number: refusal.number(), label: 0 },
    }
}

fn decision(answer: Answer) -> bq_decision {
    let (kind, number, place) = match answer {
        Answer::Granted { rule } => (BQ_GRANTED, rule, 0),
        Answer::Denied { rule } => (BQ_DENIED, rule, 0),
        Answer::Override { rule } => (BQ_OVERRIDE, rule, 0),
        Answer::Refused(refusal) => (BQ_REFUSED, refusal.number(), refusal.place()),
    };
    bq_decision { kind, number, place }
}

fn labelled(answer: NewObject) -> bq_labelled {
    let (kind, number, transmutes) = match answer {
        NewObject::CreatorLabel => (BQ_CREATOR_LABEL, 0, false),
        NewObject::Denied => (BQ_CREATION_DENIED, 0, false),
        NewObject::FolderLabel { transmutes } => (BQ_FOLDER_LABEL, 0, transmutes),
        NewObject::Refused(refusal) => (BQ_CREATION_REFUSED, refusal.number(), false),
    };
    bq_labelled { kind, number, transmutes }
}

fn reported(report: &Report) -> bq_report {
    bq_report {
        lines: report.lines,
        accepted: report.accepted,
        skipped: report.skipped,
        refused: report.refused,
        first: report.first_line,
        reason: report.first_reason as u8,
        place: report.first_place as usize,
        bringup: report.bringup,
    }
}

/// The second implementation's loader as the header has it.
fn loader_of(machine: &Machine) -> bq_loader {
    let numbers = &machine.loader().numbers;
    bq_loader {
        kept: numbers[raw::KEPT] as usize,
        report: bq_report {
            lines: numbers[raw::LINES] as u32,
            accepted: numbers[raw::ACCEPTED] as u32,
            skipped: numbers[raw::SKIPPED] as u32,
            refused: numbers[raw::REFUSED] as u32,
            first: numbers[raw::FIRST_LINE] as u32,
            reason: numbers[raw::FIRST_REASON] as u8,
            place: numbers[raw::FIRST_PLACE] as usize,
            bringup: numbers[raw::BRINGUP] as u32,
        },
    }
}

/// Every byte of the tables and of the line.
#[inline]
fn same_state(machine: &Machine, lent: &Lent) -> Result<(), Difference> {
    let state = machine.state();
    same_bytes("labels", lent.labels.seen(), &state.label_store)?;
    same_bytes("entries", lent.entries.seen(), &state.entries)?;
    same_words("words", lent.words.seen(), &state.words)?;
    same_bytes("line", lent.line.seen(), &machine.loader().line)
}

fn record(record: &Record) -> bq_record {
    bq_record { label: record.label, level: record.level, set: bq_set { word: record.set } }
}

/// The search of a run, as records and with the fields in three arrays of their own. There are as many records as the shortest array has room for: from turn to
/// turn the arrays have more elements than the records, in which the set is sought that is at hand, or too few for the last record. The turns are the
/// driver's, so that the driver gives a list of calls the same ones.
fn search_run(lent: &mut Lent, level: u64, set: [u64; 3], records: &[Record], counts: &mut Counts) -> Result<(), Difference> {
    const TURNS: [[isize; 3]; 22] = [
        [0, 0, 0],
        [1, 0, 0],
        [0, 1, 0],
        [1, 1, 0],
        [0, 0, 3],
        [1, 0, 3],
        [0, 1, 3],
        [1, 1, 1],
        [1, 1, 2],
        [0, 0, 1],
        [0, 0, 2],
        [5, 5, 2],
        [0, 0, -1],
        [0, 0, -2],
        [0, 0, -3],
        [1, 1, -1],
        [1, 1, -2],
        [1, 0, -3],
        [2, 0, 6],
        [0, 2, 6],
        [7, 0, 30],
        [0, 7, 30],
    ];
    let more = TURNS[lent.turn % TURNS.len()];
    lent.turn += 1;
    let kept = if more[2] < 0 { records.len().saturating_sub(1) } else { records.len() };
    let mut fields: [Vec<u64>; 3] = [Vec::new(), Vec::new(), Vec::new()];
    for record in records {
        fields[0].push(record.label);
        fields[1].push(record.level);
        fields[2].extend(record.set);
    }
    for (field, more) in fields.iter_mut().zip(more) {
        field.truncate(field.len().saturating_add_signed(more.min(0)));
    }
    fields[0].extend(vec![0; more[0].max(0) as usize]);
    fields[1].extend(vec![level; more[1].max(0) as usize]);
    for place in 0..more[2].max(0) as usize {
        fields[2].push(set[place % 3]);
    }
    let as_records: Vec<bq_record> = records.iter().map(record).collect();
    lent.records.lend(&as_records);
    for (room, field) in lent.fields.iter_mut().zip(&fields) {
        room.lend(field);
    }
    let sought = bq_set { word: set };
    let narrow = |answer: Result<Option<u64>, Refusal>| lowest(answer.map(|label| label.map(|number| number as usize)));

    let expected = narrow(raw::by_run(records, level, &set));
    let answer = unsafe { bq_lowest_in_run(lent.records.shown(), lent.records.len(), level, sought) };
    same(answer, expected)?;
    counts.count(Name::LowestInRun, answer.kind == BQ_SEARCH_REFUSED, answer.number, answer.kind);

    let expected = narrow(raw::by_run(&records[..kept], level, &set));
    let [labels, levels, set_words] = &lent.fields;
    let answer = unsafe { bq_lowest_of(labels.shown(), labels.len(), levels.shown(), levels.len(), set_words.shown(), set_words.len(), level, sought) };
    same(answer, expected)?;
    counts.count(Name::LowestOf, answer.kind == BQ_SEARCH_REFUSED, answer.number, answer.kind);

    if lent.records.seen() != as_records {
        return first_place("records", lent.records.seen(), &as_records);
    }
    for (room, field) in lent.fields.iter().zip(&fields) {
        same_words("fields of records", room.seen(), field)?;
    }
    Ok(())
}

/// A write: its answer, and the text that it was lent.
macro_rules! write {
    ($machine:expr, $lent:expr, $counts:expr, $bytes:expr, $name:expr, $second:ident, $call:ident) => {{
        let expected = written($machine.$second($bytes));
        let (text, text_len) = $lent.text(0, $bytes);
        let answer = library!($lent, $call, text, text_len);
        same(answer, expected)?;
        same_bytes("text", $lent.texts[0].seen(), $bytes)?;
        $counts.count($name, answer.refused, answer.number, 0);
    }};
}

/// A call that writes to a lent output: its answer, the text that it was lent, and the whole output.
macro_rules! to_output {
    ($lent:expr, $counts:expr, $name:expr, $bytes:expr, $output:expr, |$buffer:ident| $second:expr, |$text:ident, $text_len:ident, $out:ident, $out_len:ident| $call:expr) => {{
        let mut $buffer = std::mem::take(&mut $lent.expected_output);
        $buffer.clear();
        $buffer.extend_from_slice($output);
        let expected = length($second);
        let ($text, $text_len) = $lent.text(0, $bytes);
        let ($out, $out_len) = $lent.output($output);
        let answer = $call;
        let compared = same(answer, expected)
            .and_then(|()| same_bytes("output", $lent.output.seen(), &$buffer))
            .and_then(|()| same_bytes("text", $lent.texts[0].seen(), $bytes));
        $lent.expected_output = $buffer;
        compared?;
        $counts.count($name, answer.refused, answer.number, 0);
    }};
}

/// Makes the call on both sides; gives how many calls of the library that were. A call that pokes or resizes does it to both memories; None where it does
/// not fit.
pub fn make(machine: &mut Machine, lent: &mut Lent, call: &Call, counts: &mut Counts) -> Result<Option<u64>, Difference> {
    let mut library_calls = 1;
    match call {
        Call::Fresh => {
            machine.fresh();
            lent.labels.fill(LABELS, 0);
            lent.entries.fill(ENTRIES, 0);
            lent.words.fill(WORDS, 0);
            let answer = fresh_table(lent);
            same(answer, bq_written::default())?;
            counts.count(Name::FreshTable, answer.refused, answer.number, 0);
        }
        Call::FreshLoader => {
            machine.fresh_loader();
            lent.line.fill(LINE, 0);
            lent.loader = unsafe { bq_fresh_loader() };
            counts.count(Name::FreshLoader, false, 0, 0);
        }
        Call::Freshen => {
            let expected = written(machine.fresh_table());
            let answer = fresh_table(lent);
            same(answer, expected)?;
            counts.count(Name::FreshTable, answer.refused, answer.number, 0);
        }
        Call::Piece(bytes) => {
            let expected = machine.piece(bytes);
            let (text, text_len) = lent.text(0, bytes);
            let answer = library!(lent, bq_piece, lent.line.start(), lent.line.len(), lent.loader, text, text_len);
            let refusal = expected.err().map_or(0, Refusal::number);
            same((answer.refused, answer.number), (expected.is_err(), refusal))?;
            same_bytes("text", lent.texts[0].seen(), bytes)?;
            lent.loader = answer.loader;
            counts.count(Name::Piece, answer.refused, answer.number, 0);
        }
        Call::End => {
            let expected = machine.end();
            let answer = library!(lent, bq_end, lent.line.start(), lent.line.len(), lent.loader);
            let expected = match expected {
                Ok(report) => (false, 0, reported(&report)),
                Err(refusal) => (true, refusal.number(), bq_report::default()),
            };
            same((answer.refused, answer.number, answer.report), expected)?;
            lent.loader = answer.loader;
            counts.count(Name::End, answer.refused, answer.number, 0);
        }
        Call::Change(bytes) => write!(machine, lent, counts, bytes, Name::Change, change, bq_change),
        Call::Override(bytes) => write!(machine, lent, counts, bytes, Name::Onlycap, override_write, bq_onlycap),
        Call::Mapping(bytes) => write!(machine, lent, counts, bytes, Name::Mapping, mapping, bq_mapping),
        Call::Revoke(bytes) => {
            let expected = match machine.revoke(bytes) {
                Ok(count) => bq_counted { count, ..bq_counted::default() },
                Err(refusal) => bq_counted { refused: true, number: refusal.number(), count: 0, place: refusal.place() },
            };
            let (label, label_len) = lent.text(0, bytes);
            let answer = unsafe {
                bq_revoke(
                    lent.labels.shown(),
                    lent.labels.len(),
                    lent.entries.start(),
                    lent.entries.len(),
                    lent.words.shown(),
                    lent.words.len(),
                    label,
                    label_len,
                )
            };
            same(answer, expected)?;
            same_bytes("label", lent.texts[0].seen(), bytes)?;
            counts.count(Name::Revoke, answer.refused, answer.number, 0);
        }
        Call::ByLabel(bytes) => {
            let expected = match machine.by_label(bytes) {
                Ok(Some(found)) => bq_mapped {
                    kind: BQ_MAPPED,
                    level: found.level,
                    count: found.count as u32,
                    set: bq_set { word: words_of(&found.set) },
                    ..bq_mapped::default()
                },
                Ok(None) => bq_mapped { kind: BQ_UNMAPPED, ..bq_mapped::default() },
                Err(refusal) => bq_mapped { kind: BQ_LOOKUP_REFUSED, number: refusal.number(), place: refusal.place(), ..bq_mapped::default() },
            };
            let (label, label_len) = lent.text(0, bytes);
            let answer = library_reads!(lent, bq_by_label, label, label_len);
            same(answer, expected)?;
            same_bytes("label", lent.texts[0].seen(), bytes)?;
            counts.count(Name::ByLabel, answer.kind == BQ_LOOKUP_REFUSED, answer.number, answer.kind);
        }
        Call::ByLevel { level, set } => {
            let expected = lowest(machine.by_level(*level, set));
            let answer = library_reads!(lent, bq_by_level, *level, bq_set { word: *set });
            same(answer, expected)?;
            counts.count(Name::ByLevel, answer.kind == BQ_SEARCH_REFUSED, answer.number, answer.kind);
        }
        Call::Run { level, set, records } => {
            search_run(lent, *level, *set, records, counts)?;
            library_calls = 2;
        }
        Call::Question { subject, object, request, capable } => {
            let expected = decision(machine.question(subject, object, request, *capable));
            let (s, s_len) = lent.text(0, subject);
            let (o, o_len) = lent.text(1, object);
            let (r, r_len) = lent.text(2, request);
            let answer = library_reads!(lent, bq_question, s, s_len, o, o_len, r, r_len, *capable);
            same(answer, expected)?;
            same_bytes("subject", lent.texts[0].seen(), subject)?;
            same_bytes("object", lent.texts[1].seen(), object)?;
            same_bytes("request", lent.texts[2].seen(), request)?;
            counts.count(Name::Question, answer.kind == BQ_REFUSED, answer.number, answer.kind);
        }
        Call::NewObject { creator, folder, folder_transmutes, is_folder } => {
            let expected = labelled(machine.new_object(creator, folder, *folder_transmutes, *is_folder));
            let (c, c_len) = lent.text(0, creator);
            let (f, f_len) = lent.text(1, folder);
            let answer = library_reads!(lent, bq_new_object, c, c_len, f, f_len, *folder_transmutes, *is_folder);
            same(answer, expected)?;
            same_bytes("creator", lent.texts[0].seen(), creator)?;
            same_bytes("folder", lent.texts[1].seen(), folder)?;
            counts.count(Name::NewObject, answer.kind == BQ_CREATION_REFUSED, answer.number, answer.kind);
        }
        Call::List { k, output } => {
            to_output!(lent, counts, Name::ListRule, &[], output, |buffer| machine.list(*k, &mut buffer), |_text, _text_len, out, out_len| {
                library_reads!(lent, bq_list_rule, *k as usize, out, out_len)
            })
        }
        Call::Label { k } => {
            let check = machine.label_check(*k);
            let expected = match check {
                Ok(()) => {
                    let label = machine.label(*k);
                    let start = label.as_ptr() as usize - machine.state().label_store.as_ptr() as usize;
                    bq_part { start, length: label.len(), ..bq_part::default() }
                }
                Err(refusal) => bq_part { refused: true, number: refusal.number(), start: 0, length: 0 },
            };
            let answer = library_reads!(lent, bq_label, *k as usize);
            same(answer, expected)?;
            counts.count(Name::Label, answer.refused, answer.number, 0);
            let answer = library_reads!(lent, bq_label_check, *k as usize);
            same(answer, written(check))?;
            counts.count(Name::LabelCheck, answer.refused, answer.number, 0);
            library_calls = 2;
        }
        Call::RecordToLine { record, output } => {
            to_output!(lent, counts, Name::RecordToLine, record, output, |buffer| plain::record_to_line(record, &mut buffer), |text, text_len, out, out_len| {
                unsafe { bq_record_to_line(text, text_len, out, out_len) }
            })
        }
        Call::LineToRecord { line, output } => {
            to_output!(lent, counts, Name::LineToRecord, line, output, |buffer| plain::line_to_record(line, &mut buffer), |text, text_len, out, out_len| {
                unsafe { bq_line_to_record(text, text_len, out, out_len) }
            })
        }
        Call::WriteOption { label, output } => {
            to_output!(lent, counts, Name::WriteOption, label, output, |buffer| machine.write_option(label, &mut buffer), |text, text_len, out, out_len| {
                library_reads!(lent, bq_write_option, text, text_len, out, out_len)
            })
        }
        Call::ReadOption { option } => {
            let expected = match machine.read_option(option) {
                Ok(label) => {
                    let mut bytes = [0; LONGEST_LABEL];
                    bytes[..label.len()].copy_from_slice(&label);
                    bq_peer { refused: false, number: 0, length: label.len(), bytes }
                }
                Err(refusal) => bq_peer { refused: true, number: refusal.number(), length: 0, bytes: [0; LONGEST_LABEL] },
            };
            let (text, text_len) = lent.text(0, option);
            let answer = library_reads!(lent, bq_read_option, text, text_len);
            same(answer, expected)?;
            same_bytes("option", lent.texts[0].seen(), option)?;
            counts.count(Name::ReadOption, answer.refused, answer.number, 0);
        }
        Call::Poke(poke) => {
            if machine.poke(poke).is_none() {
                return Ok(None);
            }
            do_poke(lent, poke);
            library_calls = 0;
        }
        Call::Resize { part, size } => {
            if machine.resize(*part, *size).is_none() {
                return Ok(None);
            }
            match part {
                Part::Labels => lent.labels.resize(*size, 0),
                Part::Entries => lent.entries.resize(*size, 0),
                Part::Words => lent.words.resize(*size, 0),
                Part::Line => lent.line.resize(*size, 0),
            }
            library_calls = 0;
        }
        Call::Dump => library_calls = 0,
    }
    same_state(machine, lent)?;
    same(lent.loader, loader_of(machine))?;
    Ok(Some(library_calls))
}

fn do_poke(lent: &mut Lent, poke: &Poke) {
    match poke {
        Poke::Labels { at, bytes } => lent.labels.now()[*at..*at + bytes.len()].copy_from_slice(bytes),
        Poke::Entries { at, bytes } => lent.entries.now()[*at..*at + bytes.len()].copy_from_slice(bytes),
        Poke::Line { at, bytes } => lent.line.now()[*at..*at + bytes.len()].copy_from_slice(bytes),
        Poke::Words { index, value } => lent.words.now()[*index] = *value,
        Poke::Loader { index, value } => {
            let report = &mut lent.loader.report;
            match *index {
                raw::KEPT => lent.loader.kept = *value as usize,
                raw::LINES => report.lines = *value as u32,
                raw::ACCEPTED => report.accepted = *value as u32,
                raw::SKIPPED => report.skipped = *value as u32,
                raw::REFUSED => report.refused = *value as u32,
                raw::FIRST_LINE => report.first = *value as u32,
                raw::FIRST_REASON => report.reason = *value as u8,
                raw::FIRST_PLACE => report.place = *value as usize,
                _ => report.bringup = *value as u32,
            }
        }
    }
}
