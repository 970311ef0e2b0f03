//! The same calls over lent memory, which "may be damaged: see refusal 0".
//!
//! How the memory is laid out:
//!
//! | part          | size        | what is in it |
//! |---------------|-------------|---------------|
//! | `label_store` | 16384 bytes | 64 places of 256 bytes: the label's length, then its bytes |
//! | `entries`     | 840 bytes   | rule subjects 0..256, rule objects 256..512, rule modes 512..768, mapping labels 768..800, mapping levels 800..832, override labels 832..840 |
//! | `words`       | 100 words   | counts of labels, rules, mappings, override labels 0..4, of the mappings' sets the first words 4..36, the second 36..68, the third 68..100 |
//! | `line`        | 600 bytes   | the kept line |
//! | `numbers`     | 9 numbers   | kept, lines, accepted, skipped, refused, first line, first reason, first place, bringup |
//!
//! `kept` is the length of the kept line, or 601 for a line of over 600 bytes.
//!
//! Each call is: refusal 0 if the state is damaged; else make the plain model,
//! make the plain call, and write the model back. Only what lies below the
//! counts is ever written back, so an entry that did not change gets its own
//! bytes again, and every other byte stays.

use crate::plain::{
    self, has_unknown_bit, limited, search_run, set_of, words_of, Answer, Found, Loader, Mapping,
    NewObject, Record, Refusal, Report, Table, Words, LABEL_PLACES, LINE_LIMIT, MAPPING_PLACES,
    MODE_LETTERS, OVERRIDE_PLACES, RULE_PLACES,
};

/// A label's place: one byte of length and up to 255 bytes of label.
pub const PLACE: usize = 256;
pub const STORE_SIZE: usize = LABEL_PLACES * PLACE;

pub const SUBJECTS: usize = 0;
pub const OBJECTS: usize = 256;
pub const MODES: usize = 512;
pub const MAPPING_LABELS: usize = 768;
pub const LEVELS: usize = 800;
pub const OVERRIDES: usize = 832;
pub const ENTRIES_SIZE: usize = 840;

pub const LABEL_COUNT: usize = 0;
pub const RULE_COUNT: usize = 1;
pub const MAPPING_COUNT: usize = 2;
pub const OVERRIDE_COUNT: usize = 3;
/// Where the first, the second and the third words of the mappings' sets begin.
pub const SETS: [usize; 3] = [4, 36, 68];
pub const WORDS_SIZE: usize = 100;

pub const KEPT: usize = 0;
pub const LINES: usize = 1;
pub const ACCEPTED: usize = 2;
pub const SKIPPED: usize = 3;
pub const REFUSED: usize = 4;
pub const FIRST_LINE: usize = 5;
pub const FIRST_REASON: usize = 6;
pub const FIRST_PLACE: usize = 7;
/// How many accepted lines held a b.
pub const BRINGUP: usize = 8;

/// `kept` where the kept line has over 600 bytes.
pub const OVER: u64 = 601;

/// The lent tables.
#[derive(Clone, PartialEq, Eq, Debug)]
pub struct RawState {
    pub label_store: Vec<u8>,
    pub entries: Vec<u8>,
    pub words: Vec<u64>,
}

/// The lent loader.
#[derive(Clone, PartialEq, Eq, Debug)]
pub struct RawLoader {
    pub line: Vec<u8>,
    /// `kept` and the place may be any 64-bit number, the six counts any of 32
    /// bits, the reason any byte.
    pub numbers: [u64; 9],
}

impl RawState {
    /// New memory, zero everywhere, with a fresh table written into it.
    pub fn fresh() -> RawState {
        let mut state = RawState {
            label_store: vec![0; STORE_SIZE],
            entries: vec![0; ENTRIES_SIZE],
            words: vec![0; WORDS_SIZE],
        };
        write_table(&Table::fresh(), &mut state);
        state
    }
}

impl RawLoader {
    /// New memory, zero everywhere: an empty kept line and a report of zeros.
    pub fn fresh() -> RawLoader {
        RawLoader {
            line: vec![0; LINE_LIMIT],
            numbers: [0; 9],
        }
    }
}

// ---------------------------------------------------------------------------
// Refusal 0
// ---------------------------------------------------------------------------

/// Each of the three parts has its full size.
fn has_full_size(state: &RawState) -> bool {
    state.label_store.len() == STORE_SIZE
        && state.entries.len() == ENTRIES_SIZE
        && state.words.len() == WORDS_SIZE
}

/// Refusal 0 of the tables: "the lent state has a part not of its full size, a
/// count or length over its limit, a number that names no stored label, or an
/// unknown mode or category bit". Only what is stored below the counts is
/// looked at. A label's length is one byte, so it is never over 255.
pub fn raw_is_damaged(state: &RawState) -> bool {
    // "a part not of its full size"
    if !has_full_size(state) {
        return true;
    }
    // "a count ... over its limit"
    if state.words[LABEL_COUNT] > LABEL_PLACES as u64
        || state.words[RULE_COUNT] > RULE_PLACES as u64
        || state.words[MAPPING_COUNT] > MAPPING_PLACES as u64
        || state.words[OVERRIDE_COUNT] > OVERRIDE_PLACES as u64
    {
        return true;
    }
    let names_no_label = |number: u8| u64::from(number) >= state.words[LABEL_COUNT];
    for k in 0..state.words[RULE_COUNT] as usize {
        // "a number that names no stored label"
        if names_no_label(state.entries[SUBJECTS + k]) || names_no_label(state.entries[OBJECTS + k])
        {
            return true;
        }
        // "an unknown mode ... bit"; "a state with a b bit gets 0" as well.
        if state.entries[MODES + k] & !MODE_LETTERS != 0 {
            return true;
        }
    }
    for k in 0..state.words[MAPPING_COUNT] as usize {
        if names_no_label(state.entries[MAPPING_LABELS + k]) {
            return true;
        }
        // "an unknown ... category bit"
        if has_unknown_bit(&stored_words(state, k)) {
            return true;
        }
    }
    for k in 0..state.words[OVERRIDE_COUNT] as usize {
        if names_no_label(state.entries[OVERRIDES + k]) {
            return true;
        }
    }
    false
}

/// Refusal 0 of the loader, for the calls that take one: "a part not of its
/// full size, a ... length over its limit". Numbers that do not add up and
/// strange bytes in the kept line are not damage.
pub fn raw_loader_is_damaged(loader: &RawLoader) -> bool {
    loader.line.len() != LINE_LIMIT || loader.numbers[KEPT] > OVER
}

// ---------------------------------------------------------------------------
// From lent memory to the model
// ---------------------------------------------------------------------------

/// The model of an undamaged lent table; else refusal 0.
pub fn table_of(state: &RawState) -> Result<Table, Refusal> {
    let mut table = Table::empty();
    read_table(state, &mut table)?;
    Ok(table)
}

/// The same in the place of another model, whose own memory serves again.
pub fn read_table(state: &RawState, table: &mut Table) -> Result<(), Refusal> {
    if raw_is_damaged(state) {
        return Err(Refusal::Damaged);
    }
    let labels = state.words[LABEL_COUNT] as usize;
    table.labels.resize_with(labels, Vec::new);
    for (k, label) in table.labels.iter_mut().enumerate() {
        label.clear();
        label.extend_from_slice(stored_label(state, k));
    }
    table.rules.clear();
    for k in 0..state.words[RULE_COUNT] as usize {
        table.rules.push((
            usize::from(state.entries[SUBJECTS + k]),
            usize::from(state.entries[OBJECTS + k]),
            state.entries[MODES + k],
        ));
    }
    table.mappings.clear();
    for k in 0..state.words[MAPPING_COUNT] as usize {
        let Some(set) = set_of(&stored_words(state, k)) else {
            return Err(Refusal::Damaged);
        };
        table.mappings.push(Mapping {
            label: usize::from(state.entries[MAPPING_LABELS + k]),
            level: state.entries[LEVELS + k],
            set,
        });
    }
    table.override_list.clear();
    for k in 0..state.words[OVERRIDE_COUNT] as usize {
        table
            .override_list
            .push(usize::from(state.entries[OVERRIDES + k]));
    }
    Ok(())
}

/// The part of the lent label store that holds label k.
pub fn stored_label(state: &RawState, k: usize) -> &[u8] {
    let place = k * PLACE;
    let length = usize::from(state.label_store[place]);
    &state.label_store[place + 1..place + 1 + length]
}

/// The three words of the set of mapping k.
fn stored_words(state: &RawState, k: usize) -> Words {
    SETS.map(|row| state.words[row + k])
}

/// The model of an undamaged lent loader; else refusal 0. Of a line that is
/// over 600 bytes only that much is known, so one more byte stands for the rest.
pub fn loader_of(loader: &RawLoader) -> Result<Loader, Refusal> {
    if raw_loader_is_damaged(loader) {
        return Err(Refusal::Damaged);
    }
    let mut line = loader.line.clone();
    if loader.numbers[KEPT] == OVER {
        line.push(0);
    } else {
        line.truncate(loader.numbers[KEPT] as usize);
    }
    let mut model = Loader::fresh();
    model.line = line;
    read_numbers(loader, &mut model);
    Ok(model)
}

/// The model's numbers as they are in memory.
pub fn read_numbers(loader: &RawLoader, model: &mut Loader) {
    model.lines = loader.numbers[LINES];
    model.accepted = loader.numbers[ACCEPTED];
    model.skipped = loader.numbers[SKIPPED];
    model.refused = loader.numbers[REFUSED];
    model.first_line = loader.numbers[FIRST_LINE];
    model.first_reason = loader.numbers[FIRST_REASON];
    model.first_place = loader.numbers[FIRST_PLACE];
    model.bringup = loader.numbers[BRINGUP];
}

// ---------------------------------------------------------------------------
// From the model back to lent memory
// ---------------------------------------------------------------------------

/// Writes every stored entry and the four counts, and no other byte.
pub fn write_table(table: &Table, state: &mut RawState) {
    write_labels(table, 0, state);
    for place in 0..table.rules.len() {
        write_rule(table, place, state);
    }
    for place in 0..table.mappings.len() {
        write_mapping(table, place, state);
    }
    write_override_list(table, state);
    write_counts(table, state);
}

/// Writes the labels from this number on.
pub fn write_labels(table: &Table, from: usize, state: &mut RawState) {
    for (k, label) in table.labels.iter().enumerate().skip(from) {
        let place = k * PLACE;
        state.label_store[place] = label.len() as u8;
        state.label_store[place + 1..place + 1 + label.len()].copy_from_slice(label);
    }
}

/// Writes the rule of this place.
pub fn write_rule(table: &Table, place: usize, state: &mut RawState) {
    let (subject, object, modes) = table.rules[place];
    state.entries[SUBJECTS + place] = subject as u8;
    state.entries[OBJECTS + place] = object as u8;
    state.entries[MODES + place] = modes;
}

/// Writes the mapping of this place.
pub fn write_mapping(table: &Table, place: usize, state: &mut RawState) {
    let mapping = &table.mappings[place];
    state.entries[MAPPING_LABELS + place] = mapping.label as u8;
    state.entries[LEVELS + place] = mapping.level;
    for (row, word) in SETS.iter().zip(words_of(&mapping.set)) {
        state.words[row + place] = word;
    }
}

/// Writes every label of the override list.
pub fn write_override_list(table: &Table, state: &mut RawState) {
    for (k, label) in table.override_list.iter().enumerate() {
        state.entries[OVERRIDES + k] = *label as u8;
    }
}

/// Writes the four counts.
pub fn write_counts(table: &Table, state: &mut RawState) {
    state.words[LABEL_COUNT] = table.labels.len() as u64;
    state.words[RULE_COUNT] = table.rules.len() as u64;
    state.words[MAPPING_COUNT] = table.mappings.len() as u64;
    state.words[OVERRIDE_COUNT] = table.override_list.len() as u64;
}

/// Writes the nine numbers. The kept line's bytes are `store_bytes`' affair.
pub fn write_numbers(model: &Loader, loader: &mut RawLoader) {
    loader.numbers[KEPT] = model.line.len().min(OVER as usize) as u64;
    loader.numbers[LINES] = u64::from(limited(model.lines));
    loader.numbers[ACCEPTED] = u64::from(limited(model.accepted));
    loader.numbers[SKIPPED] = u64::from(limited(model.skipped));
    loader.numbers[REFUSED] = u64::from(limited(model.refused));
    loader.numbers[FIRST_LINE] = u64::from(limited(model.first_line));
    loader.numbers[FIRST_REASON] = u64::from(limited(model.first_reason));
    loader.numbers[FIRST_PLACE] = model.first_place;
    loader.numbers[BRINGUP] = u64::from(limited(model.bringup));
}

/// The kept line's bytes are stored at 0..kept as they come and are never
/// cleared; after 600 bytes a further byte only makes the line over-long.
pub fn store_bytes(loader: &mut RawLoader, bytes: &[u8]) {
    let mut kept = loader.numbers[KEPT] as usize;
    for &byte in bytes {
        if byte == b'\n' {
            kept = 0;
        } else if kept < LINE_LIMIT {
            loader.line[kept] = byte;
            kept += 1;
        } else {
            kept = OVER as usize;
        }
    }
    loader.numbers[KEPT] = kept as u64;
}

// ---------------------------------------------------------------------------
// The calls
// ---------------------------------------------------------------------------

/// "A fresh table has the five labels alone", made in lent memory of any
/// contents. Only "a part not of its full size" is refused with 0 here: what the
/// memory holds is not looked at. Bytes of no label and no count stay.
pub fn fresh_table(state: &mut RawState) -> Result<(), Refusal> {
    if !has_full_size(state) {
        return Err(Refusal::Damaged);
    }
    write_table(&Table::fresh(), state);
    Ok(())
}

/// A piece of rule text. Refusal 0, else done.
pub fn piece(state: &mut RawState, loader: &mut RawLoader, bytes: &[u8]) -> Result<(), Refusal> {
    let mut table = table_of(state)?;
    let mut model = loader_of(loader)?;
    model.piece(&mut table, bytes);
    write_table(&table, state);
    store_bytes(loader, bytes);
    assert_eq!(
        loader.numbers[KEPT] as usize,
        model.line.len().min(OVER as usize)
    );
    write_numbers(&model, loader);
    Ok(())
}

/// The end call. Refusal 0, else the report. The bytes of the line stay.
pub fn end(state: &mut RawState, loader: &mut RawLoader) -> Result<Report, Refusal> {
    let mut table = table_of(state)?;
    let mut model = loader_of(loader)?;
    let report = model.end(&mut table);
    write_table(&table, state);
    write_numbers(&model, loader);
    Ok(report)
}

/// A change. Refusals 0 1 2 3 4 5 6 7.
pub fn change(state: &mut RawState, write: &[u8]) -> Result<(), Refusal> {
    let mut table = table_of(state)?;
    table.change(write)?;
    write_table(&table, state);
    Ok(())
}

/// A revoke. Refusals 0 1 3.
pub fn revoke(state: &mut RawState, write: &[u8]) -> Result<usize, Refusal> {
    let mut table = table_of(state)?;
    let count = table.revoke(write)?;
    write_table(&table, state);
    Ok(count)
}

/// A write of the override list. Refusals 0 1 2 3 11 6.
pub fn override_write(state: &mut RawState, write: &[u8]) -> Result<(), Refusal> {
    let mut table = table_of(state)?;
    table.override_write(write)?;
    write_table(&table, state);
    Ok(())
}

/// A mapping. Refusals 0 1 2 3 9 6 10.
pub fn mapping(state: &mut RawState, write: &[u8]) -> Result<(), Refusal> {
    let mut table = table_of(state)?;
    table.mapping(write)?;
    write_table(&table, state);
    Ok(())
}

/// A mapping looked up by label. Refusals 0 3.
pub fn by_label(state: &RawState, label: &[u8]) -> Result<Option<Found>, Refusal> {
    table_of(state)?.by_label(label)
}

/// A mapping looked up by level and set. Refusals 0 9.
pub fn by_level(state: &RawState, level: u64, set: &Words) -> Result<Option<usize>, Refusal> {
    table_of(state)?.by_level(level, set)
}

/// The search of a lent run. Refusal 9; it takes no state, so never 0.
pub fn by_run(run: &[Record], level: u64, set: &Words) -> Result<Option<u64>, Refusal> {
    search_run(run, level, set)
}

/// A question. Refusals 0 3 8.
pub fn question(
    state: &RawState,
    subject: &[u8],
    object: &[u8],
    request: &[u8],
    has_override: bool,
) -> Answer {
    match table_of(state) {
        Ok(table) => table.question(subject, object, request, has_override),
        Err(refusal) => Answer::Refused(refusal),
    }
}

/// The listing of rule k. Refusals 0 13 12.
pub fn list(state: &RawState, k: u64, buffer: &mut [u8]) -> Result<usize, Refusal> {
    table_of(state)?.list(k, buffer)
}

/// Label k: "the very part of the lent label store that holds it, empty on a
/// refusal".
pub fn label(state: &RawState, k: u64) -> &[u8] {
    match label_check(state, k) {
        Ok(()) => stored_label(state, k as usize),
        Err(_) => &[],
    }
}

/// The call beside it. Refusals 0 13, else done.
pub fn label_check(state: &RawState, k: u64) -> Result<(), Refusal> {
    table_of(state)?.label_check(k)
}

/// An old fixed record turned into a rule line. Refusals 14 3 4 5 12; nothing is
/// lent but the record and the output, so never 0.
pub fn record_to_line(record: &[u8], output: &mut [u8]) -> Result<usize, Refusal> {
    plain::record_to_line(record, output)
}

/// A rule line turned into an old fixed record. Refusals 1 2 3 4 5 15 12; never 0.
pub fn line_to_record(line: &[u8], output: &mut [u8]) -> Result<usize, Refusal> {
    plain::line_to_record(line, output)
}

/// The option that a label is sent with. Refusals 0 3 19 12.
pub fn write_option(state: &RawState, label: &[u8], output: &mut [u8]) -> Result<usize, Refusal> {
    table_of(state)?.write_option(label, output)
}

/// The label that an option says, by value. Refusals 0 16 17 18 3 21.
pub fn read_option(state: &RawState, option: &[u8]) -> Result<Vec<u8>, Refusal> {
    table_of(state)?.read_option(option)
}

/// The label of a new object. Refusals 0 3.
pub fn new_object(
    state: &RawState,
    creator: &[u8],
    folder: &[u8],
    folder_transmutes: bool,
    is_folder: bool,
) -> NewObject {
    match table_of(state) {
        Ok(table) => table.new_object(creator, folder, folder_transmutes, is_folder),
        Err(refusal) => NewObject::Refused(refusal),
    }
}
