//! Lent memory together with its model.
//!
//! `raw` says what a call over lent memory is: decode it all, make the plain call,
//! write it all back. A machine keeps what was decoded, so that a call decodes
//! nothing where the memory is as the last call left it, and it writes back only what
//! such a call can change. What is poked or gets another size is decoded again when
//! it is wanted next.
//!
//! Where debug assertions are on, each call is also made by `raw` on a copy of the
//! memory, and the answer, every byte and the kept model are compared.

use std::cell::{OnceCell, RefCell};
use std::fmt::Debug;

use crate::call::{Part, Poke};
use crate::plain::{Answer, Found, Loader, NewObject, Refusal, Report, Table, Words, LINE_LIMIT};
use crate::raw::{self, RawLoader, RawState};

/// The longest part that `resize` makes.
pub const RESIZE_LIMIT: usize = 1 << 20;

/// The lent memory that calls are made on, and its model.
#[derive(Clone, Debug)]
pub struct Machine {
    state: RawState,
    loader: RawLoader,
    /// `raw::table_of(&state)`, where it is known.
    table: OnceCell<Result<Table, Refusal>>,
    /// `raw::loader_of(&loader)`, where it is known.
    kept: OnceCell<Result<Loader, Refusal>>,
    /// How often the tables may have changed.
    changes: u64,
    /// What `Table::fresh` gives.
    fresh: Table,
    /// A model that is no longer one, whose memory serves for the next.
    spare: RefCell<Option<Table>>,
    /// Room for what a piece tells of its lines.
    ends: Vec<LineEnd>,
}

/// Where a newline stands in a piece, and the place of the rule that its line sets.
type LineEnd = (usize, Option<usize>);

impl Machine {
    /// A fresh table and a fresh loader.
    pub fn new() -> Machine {
        Machine {
            state: RawState::fresh(),
            loader: RawLoader::fresh(),
            table: OnceCell::new(),
            kept: OnceCell::new(),
            changes: 0,
            fresh: Table::fresh(),
            spare: RefCell::new(None),
            ends: Vec::new(),
        }
    }

    /// The lent tables.
    pub fn state(&self) -> &RawState {
        &self.state
    }

    /// The lent loader.
    pub fn loader(&self) -> &RawLoader {
        &self.loader
    }

    /// A number that is another one whenever the tables may have changed.
    pub fn changes(&self) -> u64 {
        self.changes
    }

    /// The model of the lent tables, where they are undamaged.
    pub fn table(&self) -> Option<&Table> {
        self.model().ok()
    }

    /// The model of the tables has to be decoded when it is wanted next.
    fn forget_table(&mut self) {
        self.changes += 1;
        if let Some(Ok(table)) = self.table.take() {
            *self.spare.get_mut() = Some(table);
        }
    }

    /// And that of the loader.
    fn forget_loader(&mut self) {
        self.kept.take();
    }

    /// The model of the lent tables; else refusal 0.
    fn model(&self) -> Result<&Table, Refusal> {
        let model = self.table.get_or_init(|| {
            let mut table = self.spare.take().unwrap_or_else(Table::empty);
            match raw::read_table(&self.state, &mut table) {
                Ok(()) => Ok(table),
                Err(refusal) => {
                    self.spare.replace(Some(table));
                    Err(refusal)
                }
            }
        });
        model.as_ref().map_err(|&refusal| refusal)
    }

    /// The model, to change, and the memory that has to follow it.
    fn table_and_state(&mut self) -> Result<(&mut Table, &mut RawState), Refusal> {
        self.model()?;
        self.changes += 1;
        match self.table.get_mut() {
            Some(Ok(table)) => Ok((table, &mut self.state)),
            _ => Err(Refusal::Damaged),
        }
    }

    /// Both models, to change, and the memory that has to follow them.
    fn all_parts(&mut self) -> Result<Parts<'_>, Refusal> {
        self.model()?;
        self.changes += 1;
        self.kept.get_or_init(|| raw::loader_of(&self.loader));
        match (self.table.get_mut(), self.kept.get_mut()) {
            (Some(Ok(table)), Some(Ok(kept))) => Ok(Parts {
                table,
                state: &mut self.state,
                kept,
                loader: &mut self.loader,
                ends: &mut self.ends,
            }),
            _ => Err(Refusal::Damaged),
        }
    }
}

struct Parts<'a> {
    table: &'a mut Table,
    state: &'a mut RawState,
    kept: &'a mut Loader,
    loader: &'a mut RawLoader,
    ends: &'a mut Vec<LineEnd>,
}

impl Default for Machine {
    fn default() -> Machine {
        Machine::new()
    }
}

// ---------------------------------------------------------------------------
// The calls that write
// ---------------------------------------------------------------------------

impl Machine {
    /// As `raw::fresh_table`.
    pub fn fresh_table(&mut self) -> Result<(), Refusal> {
        self.write_call(
            |machine| {
                raw::fresh_table(&mut machine.state)?;
                machine.forget_table();
                Ok(())
            },
            |state, _| raw::fresh_table(state),
        )
    }

    /// As `raw::piece`.
    pub fn piece(&mut self, bytes: &[u8]) -> Result<(), Refusal> {
        self.write_call(
            |machine| {
                let parts = machine.all_parts()?;
                let (table, kept) = (parts.table, parts.kept);
                let (labels, ends) = (table.labels.len(), parts.ends);
                ends.clear();
                kept.piece_telling(table, bytes, |at, rule| ends.push((at, rule)));
                raw::write_labels(table, labels, parts.state);
                for place in ends.iter().filter_map(|(_, rule)| *rule) {
                    raw::write_rule(table, place, parts.state);
                }
                raw::write_counts(table, parts.state);
                store_bytes(parts.loader, bytes, ends);
                write_loader(kept, parts.loader);
                Ok(())
            },
            |state, loader| raw::piece(state, loader, bytes),
        )
    }

    /// As `raw::end`.
    pub fn end(&mut self) -> Result<Report, Refusal> {
        self.write_call(
            |machine| {
                let parts = machine.all_parts()?;
                let (table, kept) = (parts.table, parts.kept);
                let (labels, ends_line) = (table.labels.len(), !kept.line.is_empty());
                let report = kept.end(table);
                if ends_line {
                    raw::write_labels(table, labels, parts.state);
                    write_rules(table, parts.state);
                    raw::write_counts(table, parts.state);
                }
                write_loader(kept, parts.loader);
                Ok(report)
            },
            raw::end,
        )
    }

    /// As `raw::change`.
    pub fn change(&mut self, write: &[u8]) -> Result<(), Refusal> {
        self.write_call(
            |machine| {
                let (table, state) = machine.table_and_state()?;
                let labels = table.labels.len();
                let place = table.set_rule(write)?;
                raw::write_labels(table, labels, state);
                raw::write_rule(table, place, state);
                raw::write_counts(table, state);
                Ok(())
            },
            |state, _| raw::change(state, write),
        )
    }

    /// As `raw::revoke`.
    pub fn revoke(&mut self, write: &[u8]) -> Result<usize, Refusal> {
        self.write_call(
            |machine| {
                let (table, state) = machine.table_and_state()?;
                let count = table.revoke(write)?;
                write_rules(table, state);
                Ok(count)
            },
            |state, _| raw::revoke(state, write),
        )
    }

    /// As `raw::override_write`.
    pub fn override_write(&mut self, write: &[u8]) -> Result<(), Refusal> {
        self.write_call(
            |machine| {
                let (table, state) = machine.table_and_state()?;
                let labels = table.labels.len();
                table.override_write(write)?;
                raw::write_labels(table, labels, state);
                raw::write_override_list(table, state);
                raw::write_counts(table, state);
                Ok(())
            },
            |state, _| raw::override_write(state, write),
        )
    }

    /// As `raw::mapping`.
    pub fn mapping(&mut self, write: &[u8]) -> Result<(), Refusal> {
        self.write_call(
            |machine| {
                let (table, state) = machine.table_and_state()?;
                let labels = table.labels.len();
                let place = table.set_mapping(write)?;
                raw::write_labels(table, labels, state);
                raw::write_mapping(table, place, state);
                raw::write_counts(table, state);
                Ok(())
            },
            |state, _| raw::mapping(state, write),
        )
    }

    /// Makes a call that may write. With debug assertions: compares what it answers and
    /// leaves with what `plain`, the call of `raw`, does to a copy of the memory.
    fn write_call<T: PartialEq + Debug>(
        &mut self,
        call: impl FnOnce(&mut Machine) -> T,
        plain: impl FnOnce(&mut RawState, &mut RawLoader) -> T,
    ) -> T {
        let before = cfg!(debug_assertions).then(|| (self.state.clone(), self.loader.clone()));
        let answer = call(self);
        if let Some((mut state, mut loader)) = before {
            assert_eq!(answer, plain(&mut state, &mut loader));
            assert_eq!(self.state, state);
            assert_eq!(self.loader, loader);
            self.compare_models();
        }
        answer
    }

    /// What is kept is what would be decoded.
    fn compare_models(&self) {
        if let Some(model) = self.table.get() {
            assert_eq!(*model, raw::table_of(&self.state));
        }
        if let Some(model) = self.kept.get() {
            assert_eq!(*model, raw::loader_of(&self.loader));
        }
    }
}

fn write_rules(table: &Table, state: &mut RawState) {
    for place in 0..table.rules.len() {
        raw::write_rule(table, place, state);
    }
}

/// Writes the loader's numbers. The model gets them back as they are in memory,
/// limited, and of an over-long line no more than that it is one.
fn write_loader(kept: &mut Loader, loader: &mut RawLoader) {
    raw::write_numbers(kept, loader);
    raw::read_numbers(loader, kept);
    if kept.line.len() > LINE_LIMIT {
        kept.line.truncate(LINE_LIMIT);
        kept.line.push(0);
    }
}

/// As `raw::store_bytes`, whole lines at a time.
fn store_bytes(loader: &mut RawLoader, bytes: &[u8], ends: &[LineEnd]) {
    let mut kept = loader.numbers[raw::KEPT] as usize;
    let mut start = 0;
    for &(at, _) in ends {
        join_line(loader, kept, &bytes[start..at]);
        kept = 0;
        start = at + 1;
    }
    let kept = join_line(loader, kept, &bytes[start..]);
    loader.numbers[raw::KEPT] = kept as u64;
}

/// The bytes join a line of which so many are kept. Gives how many are kept then.
fn join_line(loader: &mut RawLoader, kept: usize, bytes: &[u8]) -> usize {
    // A line that is over-long has no room, and stays so.
    let room = LINE_LIMIT.saturating_sub(kept);
    if bytes.len() > room {
        loader.line[LINE_LIMIT - room..].copy_from_slice(&bytes[..room]);
        return raw::OVER as usize;
    }
    if !bytes.is_empty() {
        loader.line[kept..kept + bytes.len()].copy_from_slice(bytes);
    }
    kept + bytes.len()
}

// ---------------------------------------------------------------------------
// The calls that only read
// ---------------------------------------------------------------------------

impl Machine {
    /// As `raw::by_label`.
    pub fn by_label(&self, label: &[u8]) -> Result<Option<Found>, Refusal> {
        let answer = self.model().and_then(|table| table.by_label(label));
        self.compare(answer, |state| raw::by_label(state, label))
    }

    /// As `raw::by_level`.
    pub fn by_level(&self, level: u64, set: &Words) -> Result<Option<usize>, Refusal> {
        let answer = self.model().and_then(|table| table.by_level(level, set));
        self.compare(answer, |state| raw::by_level(state, level, set))
    }

    /// As `raw::question`.
    pub fn question(
        &self,
        subject: &[u8],
        object: &[u8],
        request: &[u8],
        has_override: bool,
    ) -> Answer {
        let answer = match self.model() {
            Ok(table) => table.question(subject, object, request, has_override),
            Err(refusal) => Answer::Refused(refusal),
        };
        self.compare(answer, |state| {
            raw::question(state, subject, object, request, has_override)
        })
    }

    /// As `raw::list`.
    pub fn list(&self, k: u64, buffer: &mut [u8]) -> Result<usize, Refusal> {
        self.output_call(
            buffer,
            |table, buffer| table.list(k, buffer),
            |state, buffer| raw::list(state, k, buffer),
        )
    }

    /// As `raw::label`: the part of the lent label store that holds label k, empty on a
    /// refusal.
    pub fn label(&self, k: u64) -> &[u8] {
        let part = match self.label_check(k) {
            Ok(()) => raw::stored_label(&self.state, k as usize),
            Err(_) => &[],
        };
        debug_assert!(std::ptr::eq(part, raw::label(&self.state, k)) || part.is_empty());
        debug_assert_eq!(part, raw::label(&self.state, k));
        part
    }

    /// As `raw::label_check`.
    pub fn label_check(&self, k: u64) -> Result<(), Refusal> {
        let answer = self.model().and_then(|table| table.label_check(k));
        self.compare(answer, |state| raw::label_check(state, k))
    }

    /// As `raw::write_option`.
    pub fn write_option(&self, label: &[u8], output: &mut [u8]) -> Result<usize, Refusal> {
        self.output_call(
            output,
            |table, output| table.write_option(label, output),
            |state, output| raw::write_option(state, label, output),
        )
    }

    /// As `raw::read_option`.
    pub fn read_option(&self, option: &[u8]) -> Result<Vec<u8>, Refusal> {
        let answer = self.model().and_then(|table| table.read_option(option));
        self.compare(answer, |state| raw::read_option(state, option))
    }

    /// As `raw::new_object`.
    pub fn new_object(
        &self,
        creator: &[u8],
        folder: &[u8],
        folder_transmutes: bool,
        is_folder: bool,
    ) -> NewObject {
        let answer = match self.model() {
            Ok(table) => table.new_object(creator, folder, folder_transmutes, is_folder),
            Err(refusal) => NewObject::Refused(refusal),
        };
        self.compare(answer, |state| {
            raw::new_object(state, creator, folder, folder_transmutes, is_folder)
        })
    }

    /// Gives the answer. With debug assertions: compares it with that of `raw`. A call
    /// that only reads cannot have changed the memory.
    fn compare<T: PartialEq + Debug>(&self, answer: T, plain: impl FnOnce(&RawState) -> T) -> T {
        if cfg!(debug_assertions) {
            assert_eq!(answer, plain(&self.state));
            self.compare_models();
        }
        answer
    }

    /// Makes a call that writes to a lent output, which is compared too.
    fn output_call(
        &self,
        output: &mut [u8],
        call: impl FnOnce(&Table, &mut [u8]) -> Result<usize, Refusal>,
        plain: impl FnOnce(&RawState, &mut [u8]) -> Result<usize, Refusal>,
    ) -> Result<usize, Refusal> {
        let before = cfg!(debug_assertions).then(|| output.to_vec());
        let answer = match self.model() {
            Ok(table) => call(table, output),
            Err(refusal) => Err(refusal),
        };
        if let Some(mut copy) = before {
            assert_eq!(answer, plain(&self.state, &mut copy));
            assert_eq!(output, copy);
            self.compare_models();
        }
        answer
    }
}

// ---------------------------------------------------------------------------
// Setters
// ---------------------------------------------------------------------------

impl Machine {
    /// The memory of the tables becomes as `RawState::fresh` makes it.
    pub fn fresh(&mut self) {
        let state = &mut self.state;
        zero(&mut state.label_store, raw::STORE_SIZE);
        zero(&mut state.entries, raw::ENTRIES_SIZE);
        zero(&mut state.words, raw::WORDS_SIZE);
        raw::write_table(&self.fresh, state);
        self.forget_table();
        debug_assert_eq!(self.state, RawState::fresh());
    }

    /// The memory of the loader becomes as `RawLoader::fresh` makes it.
    pub fn fresh_loader(&mut self) {
        zero(&mut self.loader.line, LINE_LIMIT);
        self.loader.numbers.fill(0);
        self.forget_loader();
        debug_assert_eq!(self.loader, RawLoader::fresh());
    }

    /// Writes into one part of the lent memory. None where it does not fit, and then
    /// nothing is written.
    pub fn poke(&mut self, poke: &Poke) -> Option<()> {
        match poke {
            Poke::Labels { at, bytes } => {
                poke_bytes(&mut self.state.label_store, *at, bytes)?;
                self.forget_table();
            }
            Poke::Entries { at, bytes } => {
                poke_bytes(&mut self.state.entries, *at, bytes)?;
                self.forget_table();
            }
            Poke::Words { index, value } => {
                *self.state.words.get_mut(*index)? = *value;
                self.forget_table();
            }
            Poke::Line { at, bytes } => {
                poke_bytes(&mut self.loader.line, *at, bytes)?;
                self.forget_loader();
            }
            Poke::Loader { index, value } => {
                let limit = match *index {
                    raw::KEPT | raw::FIRST_PLACE => u64::MAX,
                    raw::FIRST_REASON => u64::from(u8::MAX),
                    _ => u64::from(u32::MAX),
                };
                if *value > limit {
                    return None;
                }
                *self.loader.numbers.get_mut(*index)? = *value;
                self.forget_loader();
            }
        }
        Some(())
    }

    /// Gives one part of the lent memory another size: cut at its end, or zeros added.
    /// None for a size over `RESIZE_LIMIT`.
    pub fn resize(&mut self, part: Part, size: usize) -> Option<()> {
        if size > RESIZE_LIMIT {
            return None;
        }
        match part {
            Part::Labels => self.state.label_store.resize(size, 0),
            Part::Entries => self.state.entries.resize(size, 0),
            Part::Words => self.state.words.resize(size, 0),
            Part::Line => self.loader.line.resize(size, 0),
        }
        match part {
            Part::Line => self.forget_loader(),
            _ => self.forget_table(),
        }
        Some(())
    }
}

/// The part gets its full size and is zero everywhere.
fn zero<T: Copy + Default>(part: &mut Vec<T>, size: usize) {
    part.fill(T::default());
    part.resize(size, T::default());
}

fn poke_bytes(part: &mut [u8], at: usize, bytes: &[u8]) -> Option<()> {
    let end = at.checked_add(bytes.len())?;
    part.get_mut(at..end)?.copy_from_slice(bytes);
    Some(())
}
