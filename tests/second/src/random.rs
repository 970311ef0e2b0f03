//! Random call scripts, the same for the same seed.
//!
//! A script is a chain of short episodes. Each begins with fresh memory, brings
//! the table to some interesting place (empty, well filled, at a limit, odd, or
//! damaged) and then makes a run of random calls there. The calls are made on a
//! machine of the generator's own, so that it can aim: at stored labels, at the
//! exact length of a listing, at an entry below a count.
//!
//! An episode with a `resize` in it goes on to the next `fresh`, which always
//! stands with a `freshloader`; so a reader that cannot lend a part of another
//! size may leave out all lines from a `resize` up to the next `fresh`.
//! The loader's numbers are poked so that "no line was refused yet" is said by
//! all three of refused, first line and first reason, or by none. The place is
//! poked to any number.

use std::io::{self, Write};

use crate::plain::{
    self, category_bit, class_of, option_bytes, own_bits, set_of, words_of, Class, NewObject,
    Record, Table, Words,
};
use crate::raw;
use crate::script::{Call, Machine, Part, Poke};

/// A xorshift generator with a multiplied output.
pub struct Xorshift {
    state: u64,
}

impl Xorshift {
    pub fn new(seed: u64) -> Xorshift {
        let mixed = seed
            .wrapping_add(0x9e37_79b9_7f4a_7c15)
            .wrapping_mul(0xbf58_476d_1ce4_e5b9);
        // The state must not be zero.
        let mut random = Xorshift { state: mixed | 1 };
        for _ in 0..8 {
            random.next_number();
        }
        random
    }

    #[inline(always)]
    pub fn next_number(&mut self) -> u64 {
        let mut x = self.state;
        x ^= x << 13;
        x ^= x >> 7;
        x ^= x << 17;
        self.state = x;
        x.wrapping_mul(0x2545_f491_4f6c_dd1d)
    }

    /// A number from 0 to `limit` - 1.
    #[inline(always)]
    pub fn below(&mut self, limit: u64) -> u64 {
        (self.next_number() >> 20) % limit
    }

    #[inline(always)]
    pub fn chance(&mut self, percent: u64) -> bool {
        self.below(100) < percent
    }

    #[inline(always)]
    pub fn pick<T: Copy>(&mut self, choices: &[T]) -> T {
        choices[self.below(choices.len() as u64) as usize]
    }

    #[inline(always)]
    fn byte(&mut self) -> u8 {
        self.below(256) as u8
    }

    /// So many bytes, each of any value.
    fn bytes(&mut self, count: usize) -> Vec<u8> {
        (0..count).map(|_| self.byte()).collect()
    }

    /// At most so many of them.
    fn bytes_up_to(&mut self, limit: u64) -> Vec<u8> {
        let count = self.below(limit + 1);
        self.bytes(count as usize)
    }

    /// So many of these bytes.
    #[inline(always)]
    fn picks(&mut self, choices: &[u8], count: u64) -> Vec<u8> {
        (0..count).map(|_| self.pick(choices)).collect()
    }

    /// One or more of these bytes, at most so many.
    #[inline(always)]
    fn letters(&mut self, choices: &[u8], limit: u64) -> Vec<u8> {
        let count = 1 + self.below(limit);
        self.picks(choices, count)
    }

    /// An access field of a line.
    fn access(&mut self) -> Vec<u8> {
        let mut field = Vec::with_capacity(8);
        self.add_access(&mut field);
        field
    }

    fn add_access(&mut self, text: &mut Vec<u8>) {
        for _ in 0..1 + self.below(5) {
            text.push(self.pick(b"rwxatbRWXATB-rwxa"));
        }
    }
}

/// Which calls a script has: all of them; the two that turn old records into
/// lines and back; questions, and some writes, about labels that are hard to
/// tell apart; the calls that tell the place of a bad byte; mappings, look-ups and
/// runs of sets that are hard to tell apart; the packet option's writer and reader,
/// with mappings and look-ups beside them; lines with the retired letter b, with
/// changes, requests and conversions that have it and states that stored it; or the
/// labels of new objects, with the rules that they go by.
#[derive(Clone, Copy, PartialEq, Eq)]
pub enum Kind {
    Every,
    Records,
    Searches,
    Places,
    Categories,
    Options,
    Bringup,
    NewObjects,
}

/// The kinds and their words.
pub const KINDS: [(&str, Kind); 8] = [
    ("every", Kind::Every),
    ("records", Kind::Records),
    ("searches", Kind::Searches),
    ("places", Kind::Places),
    ("categories", Kind::Categories),
    ("options", Kind::Options),
    ("bringup", Kind::Bringup),
    ("newobjects", Kind::NewObjects),
];

/// Lengths just under and over 600 bytes, and for a mapping over 1,000 too.
const LINE_LENGTHS: [usize; 6] = [599, 600, 600, 601, 601, 602];
const MAPPING_LENGTHS: [usize; 9] = [600, 601, 800, 999, 1000, 1000, 1001, 1001, 1002];

/// Categories at a word's border or at a limit.
const EDGES: [u64; 12] = [1, 2, 62, 63, 64, 65, 66, 127, 128, 129, 183, 184];

/// The eight bits of a third word that are no categories.
const STRAY_BITS: u64 = 255;

/// Writes a script of `count` calls.
pub fn write_script(seed: u64, count: u64, kind: Kind, output: &mut dyn Write) -> io::Result<()> {
    let mut result = Ok(());
    generate(seed, count, kind, &mut |machine, call| {
        let made = machine.make(call);
        debug_assert!(made.is_some(), "{call:?}");
        result = writeln!(output, "{}", call.write());
        result.is_ok()
    });
    result
}

/// Gives the `count` calls of a script to `make`, one by one. It makes each of them on
/// the machine, once, and answers whether to go on. It may make calls of its own
/// beside it; where these change nothing, the script is that of `write_script`.
pub fn generate(
    seed: u64,
    count: u64,
    kind: Kind,
    make: &mut dyn FnMut(&mut Machine, &Call) -> bool,
) {
    let mut generator = Generator {
        random: Xorshift::new(seed),
        machine: Machine::new(),
        make,
        left: count,
        pool: Vec::new(),
        new_percent: 5,
        next_name: 0,
        pending: Vec::new(),
        handed: 0,
        sets: Vec::new(),
        transmuting: (u64::MAX, Vec::new()),
    };
    while generator.left > 0 {
        match kind {
            Kind::Every => generator.episode(),
            Kind::Records => generator.records_episode(),
            Kind::Searches => generator.searches_episode(),
            Kind::Places => generator.places_episode(),
            Kind::Categories => generator.categories_episode(),
            Kind::Options => generator.options_episode(),
            Kind::Bringup => generator.bringup_episode(),
            Kind::NewObjects => generator.newobjects_episode(),
        }
    }
}

/// The fields of a line or write.
struct Fields {
    /// One field behind the other.
    bytes: Vec<u8>,
    /// Where each of them ends.
    ends: Vec<usize>,
}

impl Fields {
    fn new() -> Fields {
        Fields {
            bytes: Vec::with_capacity(100),
            ends: Vec::with_capacity(10),
        }
    }

    fn from_iter(fields: impl IntoIterator<Item = impl AsRef<[u8]>>) -> Fields {
        let mut all = Fields::new();
        for field in fields {
            all.push(field);
        }
        all
    }

    fn push(&mut self, field: impl AsRef<[u8]>) {
        self.bytes.extend_from_slice(field.as_ref());
        self.ends.push(self.bytes.len());
    }

    /// A field of decimal digits, with zeros before them up to this width.
    fn push_number(&mut self, number: u64, width: usize) {
        add_number(&mut self.bytes, number, width);
        self.ends.push(self.bytes.len());
    }

    /// The last field goes.
    fn pop(&mut self) {
        self.ends.pop();
        self.bytes.truncate(self.ends.last().map_or(0, |end| *end));
    }

    fn iter(&self) -> impl Iterator<Item = &[u8]> {
        let mut start = 0;
        self.ends.iter().map(move |&end| {
            let field = &self.bytes[start..end];
            start = end;
            field
        })
    }

    /// The fields with one space between.
    fn spaced(&self) -> Vec<u8> {
        let mut text = Vec::with_capacity(self.bytes.len() + self.ends.len());
        for (k, field) in self.iter().enumerate() {
            if k > 0 {
                text.push(b' ');
            }
            text.extend_from_slice(field);
        }
        text
    }
}

/// Puts the digits of a number behind the text, with zeros before them up to this width.
fn add_number(text: &mut Vec<u8>, number: u64, width: usize) {
    let start = text.len();
    let mut rest = number;
    loop {
        text.push(b'0' + (rest % 10) as u8);
        rest /= 10;
        if rest == 0 && text.len() - start >= width {
            break;
        }
    }
    text[start..].reverse();
}

/// A letter and a number.
fn named(letter: u8, number: u64) -> Vec<u8> {
    let mut name = Vec::with_capacity(8);
    name.push(letter);
    add_number(&mut name, number, 0);
    name
}

struct Generator<'a> {
    random: Xorshift,
    machine: Machine,
    make: &'a mut dyn FnMut(&mut Machine, &Call) -> bool,
    /// How many calls are still to be made.
    left: u64,
    /// The labels that this episode likes to use.
    pool: Vec<Vec<u8>>,
    /// How often, of a hundred, a label is one that was never used before.
    new_percent: u64,
    next_name: u64,
    /// Rule text that is made but not yet handed over in pieces: from this place on.
    pending: Vec<u8>,
    handed: usize,
    /// The sets that an episode of the kind `categories` or `options` likes to use.
    sets: Vec<Words>,
    /// The numbers of `transmuting_pairs`, as they were after so many changes.
    transmuting: (u64, Vec<(usize, usize)>),
}

impl Generator<'_> {
    /// Has one call made.
    fn emit(&mut self, call: Call) {
        if self.left == 0 {
            return;
        }
        self.left -= 1;
        if !(self.make)(&mut self.machine, &call) {
            self.left = 0;
        }
    }

    fn poke_labels(&mut self, at: usize, bytes: impl Into<Vec<u8>>) {
        let bytes = bytes.into();
        self.emit(Call::Poke(Poke::Labels { at, bytes }));
    }

    fn poke_entries(&mut self, at: usize, bytes: impl Into<Vec<u8>>) {
        let bytes = bytes.into();
        self.emit(Call::Poke(Poke::Entries { at, bytes }));
    }

    fn poke_line(&mut self, bytes: impl Into<Vec<u8>>) {
        let bytes = bytes.into();
        self.emit(Call::Poke(Poke::Line { at: 0, bytes }));
    }

    fn poke_words(&mut self, index: usize, value: u64) {
        self.emit(Call::Poke(Poke::Words { index, value }));
    }

    fn poke_number(&mut self, index: usize, value: impl Into<u64>) {
        let value = value.into();
        self.emit(Call::Poke(Poke::Loader { index, value }));
    }

    // -----------------------------------------------------------------------
    // Episodes
    // -----------------------------------------------------------------------

    fn episode(&mut self) {
        self.emit(Call::Fresh);
        self.emit(Call::FreshLoader);
        self.set_pending(Vec::new());
        self.make_pool();
        self.new_percent = 5;
        match self.random.below(24) {
            0..=3 => self.calls(40),
            4 | 5 => self.at_label_limit(),
            6 | 7 => self.at_rule_limit(),
            8 | 9 => self.at_mapping_limit(),
            10 => {
                self.fill_labels_to(64);
                self.fill_rules_to(256);
                self.fill_mappings_to(32);
                self.new_percent = 20;
                self.calls(40);
            }
            11 => self.noise_episode(),
            12..=15 => self.damaged_episode(),
            16..=19 => self.odd_episode(),
            20 | 21 => self.loader_episode(),
            _ => self.override_episode(),
        }
    }

    /// Old records alone, with labels of one pool.
    fn records_episode(&mut self) {
        self.make_pool();
        for _ in 0..40 {
            self.record_call();
            self.line_call();
        }
    }

    /// Questions, and some writes, about labels that are hard to tell apart.
    fn searches_episode(&mut self) {
        self.emit(Call::Fresh);
        self.emit(Call::FreshLoader);
        self.set_pending(Vec::new());
        self.make_family();
        self.new_percent = 1;
        match self.random.below(5) {
            0 => {}
            1 | 2 => self.grow_family(),
            _ => self.lend_family(),
        }
        self.emit(Call::Dump);
        let count = 20 + self.random.below(60);
        for _ in 0..count {
            self.search_call();
        }
        self.emit(Call::Dump);
    }

    /// Labels with faults at all kinds of places, in a table that is fresh, used,
    /// full or damaged.
    fn places_episode(&mut self) {
        self.emit(Call::Fresh);
        self.emit(Call::FreshLoader);
        self.set_pending(Vec::new());
        self.make_pool();
        self.new_percent = 5;
        match self.random.below(12) {
            0..=3 => {}
            4..=7 => self.base_state(),
            8 => {
                let target = self.random.pick(&[62, 63, 64]);
                self.fill_labels_to(target);
            }
            9 => self.fill_rules_to(256),
            10 => {
                let target = self.random.pick(&[40, 64]);
                self.fill_labels_to(target);
                self.fill_mappings_to(32);
            }
            _ => {
                self.base_state();
                self.damage_and_mend(Self::damage, Self::place_call, 8);
            }
        }
        let count = 20 + self.random.below(40);
        for _ in 0..count {
            self.place_call();
        }
        self.emit(Call::End);
        self.emit(Call::Dump);
    }

    fn at_label_limit(&mut self) {
        let target = self.random.pick(&[60, 61, 62, 63, 63, 64]);
        self.fill_labels_to(target);
        self.new_percent = 35;
        self.calls(30);
    }

    fn at_rule_limit(&mut self) {
        let labels = self.random.pick(&[20, 30, 63]);
        self.fill_labels_to(labels);
        let target = self.random.pick(&[254, 255, 255, 256]);
        self.fill_rules_to(target);
        self.new_percent = 15;
        self.calls(30);
    }

    fn at_mapping_limit(&mut self) {
        let labels = self.random.pick(&[32, 40, 63, 64]);
        self.fill_labels_to(labels);
        let target = self.random.pick(&[30, 31, 31, 32]);
        self.fill_mappings_to(target);
        self.new_percent = 15;
        for _ in 0..15 {
            self.mapping_call();
            self.some_dump();
        }
        self.calls(15);
    }

    fn override_episode(&mut self) {
        self.base_state();
        let target = self.random.pick(&[20, 56, 60, 63]);
        self.fill_labels_to(target);
        self.new_percent = 15;
        for _ in 0..12 {
            self.override_call();
            self.some_dump();
            self.question_call();
            self.question_call();
        }
    }

    fn damaged_episode(&mut self) {
        if self.random.chance(70) {
            self.base_state();
        }
        if self.random.chance(20) {
            self.fill_labels_to(64);
        }
        if self.random.chance(15) {
            self.fill_rules_to(256);
        }
        self.calls(4);
        self.damage_and_mend(Self::damage, Self::every_call, 1);
        self.calls(6);
    }

    fn odd_episode(&mut self) {
        if self.random.chance(80) {
            self.base_state();
        }
        let times = 1 + self.random.below(4);
        for _ in 0..times {
            self.oddity();
        }
        self.emit(Call::Dump);
        self.every_call();
        self.calls(20);
    }

    /// Memory of random contents: labels of few different bytes, so that some
    /// are stored twice, and numbers of any kind, mostly below their limits. Now
    /// and then a fresh table is made of it.
    fn noise_episode(&mut self) {
        let labels = self.random.pick(&[0, 1, 4, 5, 20, 63, 64, 64]);
        let mut store = Vec::new();
        for _ in 0..64 {
            let length = match self.random.below(10) {
                0 => 0,
                1 => self.random.byte(),
                _ => 1 + self.random.below(2) as u8,
            };
            store.push(length);
            for _ in 0..255 {
                store.push(self.random.pick(b"abAB_^*?@- /\xff"));
            }
        }
        self.poke_labels(0, store);
        let mut entries = Vec::new();
        let any_number = self.random.chance(10);
        let any_modes = self.random.chance(10);
        for at in 0..raw::ENTRIES_SIZE {
            let is_modes = (raw::MODES..raw::MAPPING_LABELS).contains(&at);
            let is_level = (raw::LEVELS..raw::OVERRIDES).contains(&at);
            entries.push(match (is_modes, is_level) {
                (true, _) if any_modes => self.random.byte(),
                (true, _) => self.random.byte() & plain::MODE_LETTERS,
                (_, true) => self.random.pick(&[0, 7, 9, 250, 255]),
                _ if any_number => self.random.byte(),
                _ => self.random.below(labels.max(1)) as u8,
            });
        }
        self.poke_entries(0, entries);
        for place in 0..32 {
            let mut set = [0; 3];
            for word in &mut set {
                *word = self.random.pick(&[0, 0, 256, 1 << 63, (1 << 63) | 256]);
            }
            if self.random.chance(1) {
                set[2] = self.random.next_number();
            }
            for (row, word) in raw::SETS.iter().zip(set) {
                let index = row + place;
                self.poke_words(index, word);
            }
        }
        self.poke_words(0, labels);
        for (index, limit) in [(1, 256), (2, 32), (3, 8)] {
            let count = match self.random.below(4) {
                0 => 0,
                1 => limit,
                2 => 1 + self.random.below(3),
                _ => self.random.below(limit + 1),
            };
            self.poke_words(index, count);
        }
        self.emit(Call::Dump);
        self.every_call();
        self.calls(30);
        if self.random.chance(50) {
            self.emit(Call::Freshen);
            self.emit(Call::Dump);
            self.calls(10);
        }
    }

    fn loader_episode(&mut self) {
        if self.random.chance(50) {
            self.base_state();
        }
        for _ in 0..4 {
            self.odd_loader();
            for _ in 0..4 {
                self.piece_call();
                self.some_dump();
            }
            if self.random.chance(60) {
                self.emit(Call::End);
            }
            self.emit(Call::Dump);
        }
        self.calls(6);
    }

    /// A handful of rules, mappings and override labels.
    fn base_state(&mut self) {
        let mut text = Vec::with_capacity(500);
        let rules = 2 + self.random.below(8);
        for _ in 0..rules {
            let line = self.good_rule_line();
            text.extend_from_slice(&line);
            text.push(b'\n');
        }
        self.emit(Call::Piece(text));
        let mappings = 1 + self.random.below(4);
        for _ in 0..mappings {
            let label = self.pool_label();
            let mut write = label;
            let rest = [" 9 1 63", " 9 1 63", " 9 64 65 128 129 184", " 9 184"];
            write.extend_from_slice(self.random.pick(&rest).as_bytes());
            self.emit(Call::Mapping(write));
        }
        let overrides = 1 + self.random.below(3);
        let mut write = Vec::new();
        for _ in 0..overrides {
            let label = self.pool_label();
            write.extend_from_slice(&label);
            write.push(b' ');
        }
        self.emit(Call::Override(write));
        if self.random.chance(50) {
            self.emit(Call::FreshLoader);
        }
    }

    /// New labels come in, by override lists of eight or by rules.
    fn fill_labels_to(&mut self, target: usize) {
        let Some(table) = self.machine.table() else {
            return;
        };
        let mut missing = target.saturating_sub(table.labels.len());
        while missing > 0 && self.left > 0 {
            if self.random.chance(70) {
                let count = missing.min(8);
                let mut write = Vec::with_capacity(100);
                for _ in 0..count {
                    write.extend_from_slice(&self.new_name());
                    write.push(b' ');
                }
                self.emit(Call::Override(write));
                missing -= count;
            } else {
                let mut write = self.new_name();
                write.extend_from_slice(b" _ rwa -");
                self.emit(Call::Change(write));
                missing -= 1;
            }
        }
        if self.random.chance(50) {
            self.emit(Call::Override(b"-".to_vec()));
        }
    }

    /// Rules of stored labels come in, in one piece or a few.
    fn fill_rules_to(&mut self, target: usize) {
        let Some(table) = self.machine.table() else {
            return;
        };
        if table.labels.len() < 20 {
            self.fill_labels_to(20);
        }
        let Some(table) = self.machine.table() else {
            return;
        };
        let mut has_rule = [[false; plain::LABEL_PLACES]; plain::LABEL_PLACES];
        for rule in &table.rules {
            has_rule[rule.0][rule.1] = true;
        }
        let mut missing = target.saturating_sub(table.rules.len());
        let mut text = Vec::with_capacity(20 * missing);
        for (subject, subject_label) in table.labels.iter().enumerate() {
            for (object, object_label) in table.labels.iter().enumerate() {
                if missing == 0 || subject == object || has_rule[subject][object] {
                    continue;
                }
                text.extend_from_slice(subject_label);
                text.push(b' ');
                text.extend_from_slice(object_label);
                text.push(b' ');
                self.random.add_access(&mut text);
                text.push(b'\n');
                missing -= 1;
            }
        }
        while !text.is_empty() && self.left > 0 {
            let length = match self.random.below(3) {
                0 => 1 + self.random.below(text.len() as u64) as usize,
                _ => text.len(),
            };
            let rest = text.split_off(length);
            self.emit(Call::Piece(text));
            text = rest;
        }
        self.emit(Call::End);
    }

    fn fill_mappings_to(&mut self, target: usize) {
        let Some(table) = self.machine.table() else {
            return;
        };
        let mut missing = target.saturating_sub(table.mappings.len());
        let labels = table.labels.clone();
        let mut is_mapped = [false; plain::LABEL_PLACES];
        for mapping in &table.mappings {
            is_mapped[mapping.label] = true;
        }
        for (number, label) in labels.into_iter().enumerate() {
            if missing == 0 || is_mapped[number] {
                continue;
            }
            let mut write = label;
            write.push(b' ');
            write.extend_from_slice(
                self.random
                    .pick(&["9 1 63", "9", "0 5", "7 7 7 8", "9 65 127", "9 129 184"])
                    .as_bytes(),
            );
            self.emit(Call::Mapping(write));
            missing -= 1;
        }
    }

    // -----------------------------------------------------------------------
    // Damage: refusal 0
    // -----------------------------------------------------------------------

    /// A few times something is damaged, calls are made there, and mostly it is
    /// mended before the next damage comes. A part that got another size always is,
    /// by fresh memory.
    fn damage_and_mend(
        &mut self,
        damage: fn(&mut Self) -> Vec<Call>,
        call: fn(&mut Self),
        count: u64,
    ) {
        for _ in 0..1 + self.random.below(4) {
            if self.left == 0 {
                // The last call may have been a resize, which nothing mends any more.
                return;
            }
            let resized = self.random.chance(15);
            let mend = match resized {
                true => self.resize_part(),
                false => damage(self),
            };
            self.emit(Call::Dump);
            for _ in 0..count {
                call(self);
            }
            if self.random.chance(20) {
                self.every_call();
            }
            if resized {
                self.emit(Call::Freshen);
            }
            if resized || self.random.chance(85) {
                for call in mend {
                    self.emit(call);
                }
                self.emit(Call::Dump);
                call(self);
            }
        }
    }

    /// A part gets another size; gives the calls that undo it.
    fn resize_part(&mut self) -> Vec<Call> {
        let (part, size) = match self.random.below(4) {
            0 => (
                Part::Labels,
                self.random.pick(&[0, 256, 16383, 16385, 20000]),
            ),
            1 => (Part::Entries, self.random.pick(&[0, 256, 839, 841])),
            2 => (
                Part::Words,
                self.random.pick(&[0, 3, 4, 35, 36, 68, 99, 101]),
            ),
            _ => (Part::Line, self.random.pick(&[0, 1, 599, 601])),
        };
        self.emit(Call::Resize { part, size });
        vec![Call::Fresh, Call::FreshLoader]
    }

    /// Damages something below the counts; gives the calls that undo it.
    fn damage(&mut self) -> Vec<Call> {
        let counts: Vec<u64> = self.machine.state().words[..4].to_vec();
        let no_label = self.random.pick(&[counts[0].min(255), 64, 128, 255]);
        match self.random.below(14) {
            0 => {
                let value = self.over_limit(64);
                self.poke_word(raw::LABEL_COUNT, value)
            }
            1 => {
                let value = self.over_limit(256);
                self.poke_word(raw::RULE_COUNT, value)
            }
            2 => {
                let value = self.over_limit(32);
                self.poke_word(raw::MAPPING_COUNT, value)
            }
            3 => {
                let value = self.over_limit(8);
                self.poke_word(raw::OVERRIDE_COUNT, value)
            }
            // Fewer labels, so that numbers may lose theirs.
            4 => {
                let value = self.random.below(counts[0].min(64) + 1);
                self.poke_word(raw::LABEL_COUNT, value)
            }
            5 => self.poke_below(raw::SUBJECTS, counts[1], 256, no_label as u8),
            6 => self.poke_below(raw::OBJECTS, counts[1], 256, no_label as u8),
            7 | 12 => self.damage_modes(),
            8 => self.poke_below(raw::MAPPING_LABELS, counts[2], 32, no_label as u8),
            9 => self.damage_set(),
            10 => self.poke_below(raw::OVERRIDES, counts[3], 8, no_label as u8),
            11 => {
                let value = self.random.pick(&[
                    602,
                    603,
                    1000,
                    65536,
                    u64::from(u32::MAX),
                    1 << 32,
                    (1 << 32) + 5,
                    1 << 63,
                    u64::MAX,
                ]);
                self.poke_loader(raw::KEPT, value)
            }
            // Counts up to their limits, over places that hold zeros or old bytes.
            _ => {
                let index = self.random.below(4) as usize;
                let limit = [64, 256, 32, 8][index];
                let room = limit - counts[index].min(limit);
                let value = counts[index].min(limit) + self.random.below(room + 1);
                self.poke_word(index, value)
            }
        }
    }

    /// A place of a table that has so many of its places in use: the first, the
    /// last or any in use, the first behind them or any.
    fn place_of(&mut self, count: u64, places: u64) -> usize {
        let count = count.min(places);
        let place = match self.random.below(8) {
            0 => 0,
            1 => count.saturating_sub(1),
            2 => count.min(places - 1),
            3 => self.random.below(places),
            _ => self.random.below(count.max(1)),
        };
        place as usize
    }

    /// The modes of a rule change, mostly by bits that are no modes: that of b, 64
    /// or 128, beside letters or alone.
    fn damage_modes(&mut self) -> Vec<Call> {
        let count = self.machine.state().words[raw::RULE_COUNT];
        let at = raw::MODES + self.place_of(count, plain::RULE_PLACES as u64);
        let old = self.machine.state().entries[at];
        let bit = self.random.pick(&[1, 64, 128]);
        let any = self.random.byte();
        let value = self.random.pick(&[
            bit,
            old | bit,
            old | bit,
            old | bit,
            old | bit,
            plain::MODE_LETTERS | bit,
            plain::MODE_LETTERS,
            255,
            any,
        ]);
        self.poke_entry(at, value)
    }

    /// One word of a mapping's set changes. Mostly it is the third, which gets bits
    /// that are no categories; those of the other two all are.
    fn damage_set(&mut self) -> Vec<Call> {
        let count = self.machine.state().words[raw::MAPPING_COUNT];
        let place = self.place_of(count, plain::MAPPING_PLACES as u64);
        let row = self.random.pick(&[0, 1, 2, 2, 2, 2, 2, 2]);
        let index = raw::SETS[row] + place;
        let old = self.machine.state().words[index];
        let stray = 1 << self.random.below(8);
        let any = self.random.next_number();
        let value = self.random.pick(&[
            stray,
            old | stray,
            old | stray,
            old | stray,
            old | STRAY_BITS,
            old | 256,
            u64::MAX,
            u64::MAX - STRAY_BITS,
            any,
        ]);
        self.poke_word(index, value)
    }

    fn over_limit(&mut self, limit: u64) -> u64 {
        self.random
            .pick(&[limit + 1, limit + 2, 1000, 1 << 32, u64::MAX])
    }

    /// Pokes one byte of a row, at a place below its count or just at it.
    fn poke_below(&mut self, row: usize, count: u64, places: u64, value: u8) -> Vec<Call> {
        let place = self.random.below(count.min(places) + 1).min(places - 1);
        self.poke_entry(row + place as usize, value)
    }

    fn poke_entry(&mut self, at: usize, value: u8) -> Vec<Call> {
        let old = self.machine.state().entries[at];
        self.poke_entries(at, [value]);
        let bytes = vec![old];
        vec![Call::Poke(Poke::Entries { at, bytes })]
    }

    fn poke_word(&mut self, index: usize, value: u64) -> Vec<Call> {
        let old = self.machine.state().words[index];
        self.poke_words(index, value);
        vec![Call::Poke(Poke::Words { index, value: old })]
    }

    fn poke_loader(&mut self, index: usize, value: u64) -> Vec<Call> {
        let old = self.machine.loader().numbers[index];
        self.poke_number(index, value);
        vec![Call::Poke(Poke::Loader { index, value: old })]
    }

    // -----------------------------------------------------------------------
    // Oddities: strange, but not damage
    // -----------------------------------------------------------------------

    fn oddity(&mut self) {
        let Some(table) = self.machine.table() else {
            return;
        };
        if self.machine.loader().line.len() != plain::LINE_LIMIT {
            return;
        }
        let labels = table.labels.len() as u64;
        match self.random.below(12) {
            // A label stored twice.
            0 | 1 if labels >= 2 => {
                let from = self.random.below(labels);
                let to = self.random.below(labels);
                self.copy_label(from as usize, to as usize);
            }
            // An ill-formed label: empty, or with a strange byte, or very long.
            2 if labels >= 1 => {
                let at = self.random.below(labels) as usize * raw::PLACE;
                let length = self.random.pick(&[0, 1, 2, 255]);
                self.poke_labels(at, [length]);
            }
            3 if labels >= 1 => {
                let at = self.random.below(labels) as usize * raw::PLACE + 1;
                let byte = self.random.pick(&[0, 10, 32, b'-', b'/', 127, 255]);
                self.poke_labels(at, [byte]);
            }
            // Other labels than the five at 0 to 4, or none.
            4 => {
                let places = self.random.below(5) as usize;
                let name = self.new_name();
                let mut bytes = vec![name.len() as u8];
                bytes.extend_from_slice(&name);
                let at = places * raw::PLACE;
                self.poke_labels(at, bytes);
            }
            5 => {
                for index in [1, 2, 3] {
                    self.poke_words(index, 0);
                }
                let count = self.random.below(5);
                self.poke_words(0, count);
            }
            // A pair stored twice, or with subject equal to object.
            6 | 7 if !table.rules.is_empty() => {
                let from = self.random.below(table.rules.len() as u64) as usize;
                let to = self.random.below(table.rules.len() as u64) as usize;
                let (subject, object, _) = table.rules[from];
                let object = if self.random.chance(15) {
                    subject
                } else {
                    object
                };
                self.poke_entries(raw::SUBJECTS + to, [subject as u8]);
                self.poke_entries(raw::OBJECTS + to, [object as u8]);
            }
            // A label mapped twice, with a level of its own.
            8 if !table.mappings.is_empty() => {
                let from = self.random.below(table.mappings.len() as u64) as usize;
                let to = self.random.below(table.mappings.len() as u64) as usize;
                let label = table.mappings[from].label as u8;
                let at = raw::MAPPING_LABELS + to;
                self.poke_entries(at, [label]);
                let level = self.random.pick(&[8, 9, 250, 255]);
                let at = raw::LEVELS + to;
                self.poke_entries(at, [level]);
            }
            // An override label twice, or another one.
            9 if !table.override_list.is_empty() => {
                let to = self.random.below(table.override_list.len() as u64) as usize;
                let value = match self.random.below(2) {
                    0 => table.override_list[0] as u8,
                    _ => self.random.below(labels) as u8,
                };
                let at = raw::OVERRIDES + to;
                self.poke_entries(at, [value]);
            }
            // Strange bytes where nothing is stored.
            10 => self.fill_unused(),
            _ => self.odd_loader(),
        }
    }

    fn copy_label(&mut self, from: usize, to: usize) {
        let place = from * raw::PLACE;
        let length = usize::from(self.machine.state().label_store[place]);
        let bytes = self.machine.state().label_store[place..=place + length].to_vec();
        let at = to * raw::PLACE;
        self.poke_labels(at, bytes);
    }

    fn fill_unused(&mut self) {
        let Some(table) = self.machine.table() else {
            return;
        };
        let (labels, rules, mappings) =
            (table.labels.len(), table.rules.len(), table.mappings.len());
        let overrides = table.override_list.len();
        let filler = self.random.pick(&[0xff, 0x41, 0x80, 0x01]);
        let rows = [
            (raw::SUBJECTS, rules, 256),
            (raw::OBJECTS, rules, 256),
            (raw::MODES, rules, 256),
            (raw::MAPPING_LABELS, mappings, 32),
            (raw::LEVELS, mappings, 32),
            (raw::OVERRIDES, overrides, 8),
        ];
        for (row, used, places) in rows {
            if used < places {
                let bytes = vec![filler; places - used];
                let at = row + used;
                self.poke_entries(at, bytes);
            }
        }
        if mappings < 32 {
            for row in raw::SETS {
                self.poke_words(row + mappings, u64::MAX);
            }
        }
        if labels < 64 {
            let at = labels * raw::PLACE;
            let bytes = vec![filler; 600.min(raw::STORE_SIZE - at)];
            self.poke_labels(at, bytes);
        }
    }

    /// A kept line of some length and content, and numbers near their limit.
    fn odd_loader(&mut self) {
        match self.random.below(3) {
            0 => {
                let kept = self.random.pick(&[0, 1, 5, 17, 598, 599, 600, 601u64]);
                let filler = self.random.pick(b" \t\nA-\0\xff");
                let bytes = vec![filler; 600];
                self.poke_line(bytes);
                if self.random.chance(60) {
                    let line = self.rule_line();
                    let length = line.len().min(600);
                    self.poke_line(&line[..length]);
                }
                self.poke_number(raw::KEPT, kept);
            }
            1 => {
                for index in [raw::LINES, raw::ACCEPTED, raw::SKIPPED, raw::BRINGUP] {
                    let value = self.near_saturation();
                    self.poke_number(index, value);
                }
            }
            _ => {
                let value = self.near_saturation();
                self.poke_number(raw::LINES, value);
                self.poke_first_refused();
            }
        }
    }

    /// So many lines refused so far, the first of them with any place.
    fn poke_first_refused(&mut self) {
        let refused = self.random.pick(&[0, 0, 1, 7, 4294967294, 4294967295u32]);
        let (line, reason) = match refused {
            0 => (0, 0),
            _ => (1 + self.near_saturation() / 2, 1 + self.random.below(7)),
        };
        let any = self.random.next_number();
        let place = self
            .random
            .pick(&[0, 0, 1, 255, 600, 4294967295, 1 << 32, u64::MAX, any]);
        self.poke_number(raw::REFUSED, refused);
        self.poke_number(raw::FIRST_LINE, line);
        self.poke_number(raw::FIRST_REASON, reason);
        self.poke_number(raw::FIRST_PLACE, place);
    }

    fn near_saturation(&mut self) -> u32 {
        self.random
            .pick(&[0, 1, 4294967290, 4294967293, 4294967294, 4294967295])
    }

    // -----------------------------------------------------------------------
    // Labels and letters
    // -----------------------------------------------------------------------

    fn make_pool(&mut self) {
        self.pool.clear();
        let long = self.random.pick(&[22, 23, 24, 40, 254]);
        for k in 0..6u8 {
            // Labels that share a long beginning.
            let mut label = vec![b'L'; long as usize];
            label.push(b'a' + k);
            self.pool.push(label);
        }
        for name in [
            "A", "B", "a", "Probe3", "Air", "Alarm", "Desk", "Door", "Vault7", "r", "rw", "o",
        ] {
            self.pool.push(name.as_bytes().to_vec());
        }
        for mark in [
            "_", "^", "*", "?", "@", "!", "#", "~", ".", "a-", "**", "__",
        ] {
            self.pool.push(mark.as_bytes().to_vec());
        }
        let mut longest = vec![b'Z'; 255];
        self.pool.push(longest.clone());
        longest[254] = b'z';
        self.pool.push(longest);
        // Not always the whole pool, so that pairs come again.
        let kept = 6 + self.random.below(self.pool.len() as u64 - 6) as usize;
        while self.pool.len() > kept {
            let out = self.random.below(self.pool.len() as u64) as usize;
            self.pool.remove(out);
        }
    }

    fn pool_label(&mut self) -> Vec<u8> {
        let at = self.random.below(self.pool.len() as u64) as usize;
        self.pool[at].clone()
    }

    /// A short label that was not used before.
    fn new_name(&mut self) -> Vec<u8> {
        self.next_name += 1;
        named(b'N', self.next_name)
    }

    fn stored_label(&mut self) -> Vec<u8> {
        match self.machine.table() {
            Some(table) if !table.labels.is_empty() => {
                let at = self.random.below(table.labels.len() as u64) as usize;
                table.labels[at].clone()
            }
            _ => self.pool_label(),
        }
    }

    /// A label that has a mapping, where there is one.
    fn mapped_label(&mut self) -> Vec<u8> {
        match self.machine.table() {
            Some(table) if !table.mappings.is_empty() => {
                let at = self.random.below(table.mappings.len() as u64) as usize;
                table.labels[table.mappings[at].label].clone()
            }
            _ => self.label(),
        }
    }

    /// The two labels and the modes of a rule, where there is one.
    fn ruled_pair(&mut self) -> Option<(Vec<u8>, Vec<u8>, u8)> {
        let table = self.machine.table()?;
        if table.rules.is_empty() {
            return None;
        }
        let at = self.random.below(table.rules.len() as u64) as usize;
        let (subject, object, modes) = table.rules[at];
        Some((
            table.labels[subject].clone(),
            table.labels[object].clone(),
            modes,
        ))
    }

    /// A label that is the subject of a rule, where there is one.
    fn ruling_label(&mut self) -> Vec<u8> {
        match self.ruled_pair() {
            Some((subject, ..)) => subject,
            None => self.label(),
        }
    }

    /// Mostly a well-formed label.
    fn label(&mut self) -> Vec<u8> {
        if self.random.chance(self.new_percent) {
            return self.new_name();
        }
        match self.random.below(20) {
            0..=9 => self.pool_label(),
            10..=16 => self.stored_label(),
            17 => self
                .random
                .pick(&["_", "^", "*", "?", "@"])
                .as_bytes()
                .to_vec(),
            18 => {
                let mut label = self.pool_label();
                let at = self.random.below(label.len() as u64) as usize;
                label[at] ^= 0x20;
                label
            }
            _ => self.bad_label(),
        }
    }

    fn bad_label(&mut self) -> Vec<u8> {
        match self.random.below(8) {
            0 => self
                .random
                .pick(&["-", "--", "-A", "-CIPSO"])
                .as_bytes()
                .to_vec(),
            1 => vec![b'M'; self.random.pick(&[256, 257, 300])],
            2 => {
                let mut label = self.pool_label();
                let byte = self.random.pick(b"/\\'\"\x7f\x80\xff\0\r\n\x0b\x1f");
                let at = self.random.below(label.len() as u64 + 1) as usize;
                label.insert(at, byte);
                label
            }
            3 => {
                let mut label = self.pool_label();
                let at = self.random.below(label.len() as u64) as usize;
                label[at] = self.random.byte();
                label
            }
            4 => self.random.bytes_up_to(12),
            5 => vec![self.random.byte()],
            _ => self.faulty_label(),
        }
    }

    fn any_access(&mut self) -> Vec<u8> {
        if self.random.chance(8) {
            let mut field = self.random.access();
            let byte = self.random.pick(b"lqy+0/\r\n\xff\x80\0_");
            let at = self.random.below(field.len() as u64 + 1) as usize;
            field.insert(at, byte);
            return field;
        }
        self.random.access()
    }

    fn change_access(&mut self) -> Vec<u8> {
        if self.random.chance(12) {
            return self.any_access();
        }
        self.random.letters(b"rwxatRWXAT-", 4)
    }

    fn request(&mut self) -> Vec<u8> {
        match self.random.below(20) {
            0 => Vec::new(),
            1 => self.random.letters(b"rwxatb-lRq \n", 3),
            2 => self.random.letters(b"rwxaRWXA", 700),
            3 => self.random.bytes_up_to(4),
            _ => self.random.letters(b"rwxaRWXA", 3),
        }
    }

    /// Puts so many blanks behind the text, or some more.
    fn add_blanks(&mut self, text: &mut Vec<u8>, least: u64) {
        let more = match self.random.below(6) {
            0 => 1,
            1 => self.random.below(4),
            _ => 0,
        };
        for _ in 0..least + more {
            text.push(self.random.pick(b"  \t"));
        }
    }

    /// Fields with blanks between, sometimes before and after.
    fn join(&mut self, fields: impl IntoIterator<Item = impl AsRef<[u8]>>) -> Vec<u8> {
        let mut text = Vec::with_capacity(200);
        self.add_blanks(&mut text, 0);
        for (k, field) in fields.into_iter().enumerate() {
            if k > 0 {
                self.add_blanks(&mut text, 1);
            }
            text.extend_from_slice(field.as_ref());
        }
        self.add_blanks(&mut text, 0);
        text
    }

    /// More blanks, so that the text comes to one of these lengths.
    fn pad(&mut self, mut text: Vec<u8>, lengths: &[usize]) -> Vec<u8> {
        let target = self.random.pick(lengths);
        let at = match text.iter().position(|&byte| byte == b' ' || byte == b'\t') {
            Some(at) if self.random.chance(50) => at,
            _ if self.random.chance(50) => 0,
            _ => text.len(),
        };
        // Each is put before those that came before it.
        let count = target.saturating_sub(text.len());
        let mut blanks = self.random.picks(b" \t", count as u64);
        blanks.reverse();
        text.splice(at..at, blanks);
        text
    }

    // -----------------------------------------------------------------------
    // Lines and writes
    // -----------------------------------------------------------------------

    /// A rule line of pool labels that is accepted where there is room.
    fn good_rule_line(&mut self) -> Vec<u8> {
        let subject = self.pool_label();
        let mut object = self.pool_label();
        if object == subject {
            object = b"Other".to_vec();
        }
        let access = self.random.access();
        self.join(&[subject, object, access])
    }

    fn rule_line(&mut self) -> Vec<u8> {
        match self.random.below(30) {
            0..=6 => self.good_rule_line(),
            7..=17 => {
                let fields = [self.label(), self.label(), self.any_access()];
                self.join(&fields)
            }
            18 | 19 => {
                let count = self.random.pick(&[1, 2, 4, 5]);
                let mut fields = Vec::new();
                for _ in 0..count {
                    fields.push(self.label());
                }
                self.join(&fields)
            }
            20 => {
                let label = self.label();
                let fields = [label.clone(), label, self.any_access()];
                self.join(&fields)
            }
            21 => {
                let length = self.random.below(4);
                (0..length).map(|_| self.random.pick(b" \t")).collect()
            }
            22 => vec![b' '; self.random.pick(&[599, 600, 601, 602])],
            23 | 24 => {
                let line = self.good_rule_line();
                self.pad(line, &LINE_LENGTHS)
            }
            25 => self.random.bytes_up_to(40),
            26 => {
                let mut line = self.good_rule_line();
                line.push(b'\r');
                line
            }
            27 => {
                let mut subject = vec![b'Z'; 255];
                let mut object = vec![b'Y'; 255];
                subject[254] = self.random.pick(b"ab");
                object[254] = self.random.pick(b"ab");
                let access = self.random.access();
                self.join(&[subject, object, access])
            }
            28 => vec![b'Q'; self.random.pick(&[600, 601, 1000, 1500])],
            _ => Vec::new(),
        }
    }

    fn rule_text(&mut self) -> Vec<u8> {
        let mut text = Vec::with_capacity(500);
        let lines = 1 + self.random.below(6);
        for _ in 0..lines {
            let line = self.rule_line();
            text.extend_from_slice(&line);
            text.push(b'\n');
        }
        if self.random.chance(25) {
            text.pop();
        }
        text
    }

    /// A write of these fields: mostly as it is, sometimes spoilt, or with blanks
    /// to one of these lengths.
    fn write_of(&mut self, mut fields: Fields, lengths: &[usize]) -> Vec<u8> {
        if self.random.chance(5) {
            fields.pop();
        }
        if self.random.chance(4) {
            fields.push(self.label());
        }
        let mut text = self.join(fields.iter());
        if self.random.chance(5) {
            text = self.pad(text, lengths);
        }
        if self.random.chance(5) {
            text.push(b'\n');
        }
        if self.random.chance(4) && !text.is_empty() {
            let at = self.random.below(text.len() as u64) as usize;
            text[at] = self.random.byte();
        }
        if self.random.chance(2) {
            text = self
                .random
                .pick(&["", " ", "-", "\n", "\t \t"])
                .as_bytes()
                .to_vec();
        }
        text
    }

    /// One of these numbers, or now and then an odd one.
    fn digits(&mut self, usual: &[&'static str]) -> &'static str {
        const ODD: [&str; 31] = [
            "0", "00", "000", "0000", "0001", "001", "63", "063", "64", "65", "128", "129", "183",
            "184", "0184", "185", "186", "192", "193", "255", "256", "999", "1000", "+1", "-1",
            "-", "1a", "a", "1.", "\n", "1\r",
        ];
        if self.random.chance(10) {
            return self.random.pick(&ODD);
        }
        self.random.pick(usual)
    }

    // -----------------------------------------------------------------------
    // Calls
    // -----------------------------------------------------------------------

    /// A run of calls of all kinds.
    fn calls(&mut self, count: u64) {
        let count = count / 2 + self.random.below(count + 1);
        for _ in 0..count {
            self.any_call();
        }
    }

    fn any_call(&mut self) {
        match self.random.below(122) {
            0..=21 => self.piece_call(),
            22..=26 => self.emit(Call::End),
            27..=35 => self.change_call(),
            36..=40 => self.revoke_call(),
            41..=46 => self.override_call(),
            47..=54 => self.mapping_call(),
            55..=59 => self.by_label_call(),
            60..=64 => self.by_level_call(),
            65..=69 => self.run_call(),
            70..=84 => self.question_call(),
            85..=91 => self.list_call(),
            92..=95 => self.label_call(),
            96..=99 => self.record_call(),
            100..=103 => self.line_call(),
            104..=107 => self.write_option_call(),
            108..=112 => self.read_option_call(),
            113 => self.map_near_250(),
            114..=117 => self.new_object_call(),
            _ => self.emit(Call::Dump),
        }
        self.some_dump();
    }

    fn some_dump(&mut self) {
        if self.random.chance(25) {
            self.emit(Call::Dump);
        }
    }

    /// One call of each kind.
    fn every_call(&mut self) {
        self.piece_call();
        self.emit(Call::End);
        self.change_call();
        self.revoke_call();
        self.override_call();
        self.mapping_call();
        self.by_label_call();
        self.by_level_call();
        self.run_call();
        self.question_call();
        self.list_call();
        self.label_call();
        self.record_call();
        self.line_call();
        self.write_option_call();
        self.read_option_call();
        self.new_object_call();
        self.emit(Call::Dump);
    }

    fn set_pending(&mut self, text: Vec<u8>) {
        self.pending = text;
        self.handed = 0;
    }

    fn nothing_pending(&self) -> bool {
        self.handed == self.pending.len()
    }

    /// The next few bytes of the rule text, cut anywhere.
    fn piece_call(&mut self) {
        if self.nothing_pending() {
            let text = self.rule_text();
            self.set_pending(text);
        }
        let all = self.pending.len() - self.handed;
        let length = match self.random.below(8) {
            0 => 0,
            1 => 1,
            2 => self.random.below(8) as usize,
            3 | 4 => self.random.below(all as u64 + 1) as usize,
            _ => all,
        };
        let piece = &self.pending[self.handed..][..length.min(all)];
        self.handed += piece.len();
        self.emit(Call::Piece(piece.to_vec()));
    }

    fn change_call(&mut self) {
        let mut fields = Fields::new();
        fields.push(self.label());
        fields.push(self.label());
        fields.push(self.change_access());
        fields.push(self.change_access());
        let write = self.write_of(fields, &LINE_LENGTHS);
        self.emit(Call::Change(write));
    }

    fn revoke_call(&mut self) {
        let write = match self.random.below(12) {
            0 => {
                let label = self.label();
                self.join(&[label])
            }
            1 => vec![b'R'; self.random.pick(&[255, 256, 599, 600, 601])],
            2 => Vec::new(),
            3..=7 => self.ruling_label(),
            _ => self.label(),
        };
        self.emit(Call::Revoke(write));
    }

    fn override_call(&mut self) {
        let mut fields = Fields::new();
        match self.random.below(12) {
            0 | 1 => fields.push("-"),
            2 => match self.random.below(3) {
                0 => fields = Fields::from_iter(["-", "-"]),
                1 => fields = Fields::from_iter(["A", "-"]),
                _ => {}
            },
            3 => {
                // Many fields, few labels.
                let count = self.random.pick(&[20, 100, 290, 300]);
                let spread = self.random.pick(&[1, 8, 9]);
                for k in 0..count {
                    fields.push([b'a' + (k % spread) as u8]);
                }
            }
            4 | 5 => {
                // Just eight or nine different ones.
                let count = self.random.pick(&[7, 8, 8, 9, 10]);
                for k in 0..count {
                    fields.push(named(b'V', k));
                }
                if self.random.chance(50) {
                    fields.push("V0");
                }
            }
            _ => {
                let count = 1 + self.random.below(9);
                for _ in 0..count {
                    fields.push(self.label());
                }
            }
        };
        let write = if self.random.chance(80) {
            self.join(fields.iter())
        } else {
            self.write_of(fields, &LINE_LENGTHS)
        };
        self.emit(Call::Override(write));
    }

    /// A category of any word, often at an edge; sometimes no category.
    fn add_category(&mut self, fields: &mut Fields) {
        match self.random.below(3) {
            0 => fields.push(self.digits(&["1", "2", "62", "63", "5", "05"])),
            1 => fields.push_number(self.random.pick(&EDGES), 0),
            _ => {
                let usual = ["64", "65", "100", "128", "129", "183", "184", "079"];
                fields.push(self.digits(&usual));
            }
        }
    }

    fn mapping_call(&mut self) {
        let mut fields = Fields::new();
        fields.push(self.label());
        fields.push(self.digits(&["0", "9", "255", "7"]));
        let count = match self.random.below(10) {
            0 => self.random.pick(&[20, 63, 100, 184, 250]),
            _ => self.random.below(4),
        };
        for _ in 0..count {
            match count {
                0..=3 => self.add_category(&mut fields),
                _ => fields.push_number(1 + self.random.below(184), 0),
            }
        }
        let write = self.write_of(fields, &MAPPING_LENGTHS);
        self.emit(Call::Mapping(write));
    }

    /// A mapping write at level 250, or just beside it.
    fn map_near_250(&mut self) {
        let level = self.random.pick(&["249", "250", "250", "251"]);
        let mut fields = Fields::new();
        fields.push(self.label());
        fields.push(level);
        for _ in 0..self.random.below(3) {
            self.add_category(&mut fields);
        }
        let write = self.write_of(fields, &MAPPING_LENGTHS);
        self.emit(Call::Mapping(write));
    }

    fn by_label_call(&mut self) {
        let label = match self.random.below(12) {
            0 => Vec::new(),
            1 => vec![b'M'; self.random.pick(&[255, 256, 600, 601, 700])],
            2 => {
                let label = self.label();
                self.join(&[label])
            }
            3..=7 => self.mapped_label(),
            _ => self.label(),
        };
        self.emit(Call::ByLabel(label));
    }

    /// A level and a set: of a stored mapping, or near one, or any.
    fn level_and_set(&mut self) -> (u64, Words) {
        let mut level = self.random.pick(&[0, 7, 8, 9, 250, 255]);
        let mut set = self.few_categories();
        if let Some(table) = self.machine.table() {
            if !table.mappings.is_empty() && self.random.chance(60) {
                let at = self.random.below(table.mappings.len() as u64) as usize;
                level = u64::from(table.mappings[at].level);
                set = words_of(&table.mappings[at].set);
            }
        }
        match self.random.below(16) {
            0 => {
                level = self
                    .random
                    .pick(&[256, 257, 1000, 1 << 32, u64::MAX, level + 256])
            }
            1 => self.stray(&mut set),
            2 => {
                for word in &mut set {
                    *word = self.random.next_number();
                }
            }
            3 => set = [u64::MAX, u64::MAX, u64::MAX - STRAY_BITS],
            4 | 5 => set = self.near_set(set),
            _ => {}
        }
        (level, set)
    }

    /// A set of no, one or a few categories, often at edges.
    fn few_categories(&mut self) -> Words {
        let mut set = [0; 3];
        for _ in 0..self.random.pick(&[0, 1, 1, 2, 2, 3, 5]) {
            let any = 1 + self.random.below(plain::HIGHEST_CATEGORY);
            let edge = self.random.pick(&EDGES);
            let (word, bit) = category_bit(self.random.pick(&[any, edge, edge]));
            set[word] |= bit;
        }
        set
    }

    /// Bits that are no categories: one of the eight, or some.
    fn stray(&mut self, set: &mut Words) {
        set[2] |= match self.random.below(4) {
            0 => 1 + self.random.below(STRAY_BITS),
            _ => 1 << self.random.below(8),
        };
    }

    /// Another set that is hard to tell from this one. The third word's low bits
    /// stay, unless words change their places.
    fn near_set(&mut self, set: Words) -> Words {
        let mut near = set;
        let any = 1 + self.random.below(plain::HIGHEST_CATEGORY);
        let edge = self.random.pick(&EDGES);
        let (word, bit) = category_bit(self.random.pick(&[any, edge]));
        match self.random.below(12) {
            // One bit of one word.
            0..=3 => near[word] ^= bit,
            // The same count: a category goes and another comes.
            4..=6 => {
                near[word] ^= bit;
                let has = near[word] & bit != 0;
                let other = 1 + self.random.below(plain::HIGHEST_CATEGORY);
                for n in (other..=plain::HIGHEST_CATEGORY).chain(1..other) {
                    let (at, one) = category_bit(n);
                    if (at, one) != (word, bit) && (near[at] & one != 0) == has {
                        near[at] ^= one;
                        break;
                    }
                }
            }
            // The same words in another order.
            7 => near.swap(0, 1),
            8 => {
                let two = self.random.below(2) as usize;
                near.swap(two, 2);
            }
            9 => near.rotate_left(1),
            // A word is missing, or is another's.
            10 => near[word] = 0,
            _ => near[word] = near[(word + 1) % 3],
        }
        // What was moved to the third word says something there, or not.
        if self.random.chance(75) && set[2] & STRAY_BITS == 0 {
            near[2] &= !STRAY_BITS;
        }
        near
    }

    fn by_level_call(&mut self) {
        let (level, set) = self.level_and_set();
        self.emit(Call::ByLevel { level, set });
    }

    fn run_call(&mut self) {
        let (level, set) = self.level_and_set();
        let count = match self.random.below(12) {
            0 => 0,
            1 => self.random.below(200),
            _ => self.random.below(8),
        };
        self.emit_run(level, set, count, 70);
    }

    /// A run of so many records; of each its level and its set are, this often of
    /// a hundred, those that are sought.
    fn emit_run(&mut self, level: u64, set: Words, count: u64, percent: u64) {
        let mut records = Vec::with_capacity(count as usize);
        for _ in 0..count {
            let label = self
                .random
                .pick(&[0, 1, 5, 63, 64, 255, 256, 1 << 32, u64::MAX]);
            let other_level = self.random.pick(&[0, 9, 255, 256, level | 256, u64::MAX]);
            let record_level = if self.random.chance(percent.max(70)) {
                level
            } else {
                other_level
            };
            let mut record_set = set;
            if !self.random.chance(percent) {
                match self.random.below(8) {
                    0 => record_set = [0; 3],
                    1 => record_set = [u64::MAX; 3],
                    2 | 3 => self.stray(&mut record_set),
                    _ => record_set = self.near_set(set),
                }
            }
            records.push(Record {
                label,
                level: record_level,
                set: record_set,
            });
        }
        self.emit(Call::Run {
            level,
            set,
            records,
        });
    }

    fn question_call(&mut self) {
        let mut subject = self.label();
        let mut object = self.label();
        if self.random.chance(50) {
            if let Some((one, other, _)) = self.ruled_pair() {
                (subject, object) = (one, other);
            }
        }
        if self.random.chance(3) {
            object = Vec::new();
        }
        if self.random.chance(3) {
            subject = vec![b'S'; self.random.pick(&[255, 256, 700])];
        }
        if self.random.chance(4) {
            object = subject.clone();
        }
        let request = self.request();
        self.emit_question(subject, object, request);
    }

    fn emit_question(&mut self, subject: Vec<u8>, object: Vec<u8>, request: Vec<u8>) {
        let capable = self.random.below(2) == 1;
        self.emit(Call::Question {
            subject,
            object,
            request,
            capable,
        });
    }

    fn list_call(&mut self) {
        let mut k = self.random.pick(&[0, 1, 255, 256, 257, 1 << 32, u64::MAX]);
        let mut length = self.random.below(60);
        if let Some(table) = self.machine.table() {
            if self.random.chance(85) {
                k = self.random.below(table.rules.len() as u64 + 2);
            }
            let mut space = [0; 600];
            if let Ok(exact) = table.list(k, &mut space) {
                length = match self.random.below(5) {
                    0 => 0,
                    1 => exact as u64 - 1,
                    2 => exact as u64,
                    3 => exact as u64 + 1,
                    _ => exact as u64 + self.random.below(40),
                };
            }
        }
        let output = self.random.bytes(length as usize);
        self.emit(Call::List { k, output });
    }

    fn label_call(&mut self) {
        let mut k = self.random.pick(&[0, 4, 5, 63, 64, 256, 1 << 32, u64::MAX]);
        if let Some(table) = self.machine.table() {
            if self.random.chance(75) {
                k = self.random.below(table.labels.len() as u64 + 2);
            }
        }
        self.emit(Call::Label { k });
    }

    // -----------------------------------------------------------------------
    // Labels that are hard to tell apart
    // -----------------------------------------------------------------------

    /// The label with another byte at one place, or with a byte more or fewer at
    /// either end.
    fn near_label(&mut self, label: &[u8]) -> Vec<u8> {
        let mut near = label.to_vec();
        let length = near.len();
        let byte = self.random.pick(b"abAB1_");
        match self.random.below(12) {
            0 if length < plain::LABEL_LIMIT => near.push(byte),
            1 if length < plain::LABEL_LIMIT => near.insert(0, byte),
            2 if length > 1 => {
                near.pop();
            }
            3 if length > 1 => {
                near.remove(0);
            }
            _ if length > 0 => {
                // Anywhere, or among the few at the beginning or the end.
                let few = self.random.below(length.min(9) as u64) as usize;
                let at = match self.random.below(4) {
                    0 => few,
                    1 => length - 1 - few,
                    _ => self.random.below(length as u64) as usize,
                };
                near[at] = byte;
            }
            _ => near.push(byte),
        }
        near
    }

    /// A pool of labels each of which is near another.
    fn make_family(&mut self) {
        let length = self.random.pick(&[
            1, 1, 2, 3, 4, 4, 5, 6, 7, 8, 8, 9, 10, 12, 15, 16, 17, 18, 20, 23, 24, 31, 32, 33, 64,
            65, 128, 200, 254, 255,
        ]);
        let first = match self.random.below(4) {
            0 => vec![b'a'; length as usize],
            1 | 2 => (0..length).map(|_| self.random.pick(b"ab")).collect(),
            _ => self.label_of_length(length),
        };
        self.pool = vec![first];
        let size = self.random.pick(&[2, 4, 8, 20, 40, 66]);
        while self.pool.len() < size {
            let label = self.pool_label();
            let near = self.near_label(&label);
            self.pool.push(near);
        }
        if self.random.chance(40) {
            for mark in ["_", "^", "*", "?"] {
                self.pool.push(mark.as_bytes().to_vec());
            }
        }
    }

    /// The family comes in by rule text in random cuts, and by changes.
    fn grow_family(&mut self) {
        let lines = self.random.pick(&[1, 3, 10, 30, 60, 120]);
        for _ in 0..lines {
            let line = self.good_rule_line();
            self.pending.extend_from_slice(&line);
            self.pending.push(b'\n');
        }
        while !self.nothing_pending() && self.left > 0 {
            self.piece_call();
            if self.random.chance(10) {
                self.change_call();
            }
        }
        self.emit(Call::End);
    }

    /// A table that need not have been grown: labels of the family, some of them
    /// twice, then rules and an override list of their numbers, some of these
    /// twice too. Behind each count lies what would count if it were larger.
    fn lend_family(&mut self) {
        let labels = self
            .random
            .pick(&[0, 1, 2, 5, 6, 7, 8, 9, 15, 16, 17, 33, 56, 63, 64, 64]);
        let with_five = self.random.chance(50);
        let from = if with_five { 5 } else { 0 };
        for place in from..(labels + 1).min(64) {
            let label = self.pool_label();
            let mut bytes = vec![label.len() as u8];
            bytes.extend_from_slice(&label);
            if self.random.chance(20) {
                // What lies behind a label in its place.
                let more = self.pool_label();
                bytes.extend_from_slice(&more);
                bytes.truncate(raw::PLACE);
            }
            let at = place as usize * raw::PLACE;
            self.poke_labels(at, bytes);
        }
        self.poke_words(raw::LABEL_COUNT, labels);
        if labels == 0 {
            return;
        }
        let rules = self.random.pick(&[
            0, 1, 2, 8, 31, 32, 33, 34, 63, 64, 65, 96, 127, 200, 255, 256, 256,
        ]);
        let (few, some) = (1 + self.random.below(labels), 1 + self.random.below(labels));
        let places = (rules + self.random.pick(&[0, 1, 40])).min(256);
        let rows = [
            (raw::SUBJECTS, self.random.pick(&[few, labels])),
            (raw::OBJECTS, self.random.pick(&[some, labels])),
            (raw::MODES, 64),
        ];
        for (row, limit) in rows {
            let mut bytes: Vec<u8> = (0..places)
                .map(|_| self.random.below(limit) as u8)
                .collect();
            if row == raw::MODES {
                for modes in &mut bytes {
                    *modes &= plain::MODE_LETTERS;
                }
            }
            if !bytes.is_empty() {
                self.poke_entries(row, bytes);
            }
        }
        self.poke_words(raw::RULE_COUNT, rules);
        let overrides = self.random.pick(&[0, 0, 1, 2, 8]);
        let bytes: Vec<u8> = (0..8).map(|_| self.random.below(labels) as u8).collect();
        let at = raw::OVERRIDES;
        self.poke_entries(at, bytes);
        self.poke_words(raw::OVERRIDE_COUNT, overrides);
    }

    /// A label of the family or of the table, or near one of them, or a mark.
    fn family_label(&mut self) -> Vec<u8> {
        match self.random.below(12) {
            0..=3 => self.pool_label(),
            4..=8 => self.stored_label(),
            9 | 10 => {
                let label = self.stored_label();
                self.near_label(&label)
            }
            _ => vec![self.random.pick(b"_^*?@")],
        }
    }

    fn search_question(&mut self) {
        let mut subject = self.family_label();
        let mut object = match self.random.below(10) {
            0 => subject.clone(),
            1 | 2 => self.near_label(&subject),
            _ if self.random.chance(2) => self.bad_label(),
            _ => self.family_label(),
        };
        let mut request = match self.random.below(30) {
            0 => self.request(),
            _ => self.random.letters(b"rwxaRWXA", 2),
        };
        // Often a pair that has a rule, or one that is near it, and a letter that
        // the rule has.
        if self.random.chance(60) {
            if let Some((one, other, modes)) = self.ruled_pair() {
                (subject, object) = (one, other);
                let held = requests_of(modes);
                if !held.is_empty() && self.random.chance(80) {
                    request = self.random.letters(&held, 2);
                }
                match self.random.below(12) {
                    0 => subject = self.near_label(&subject),
                    1 => object = self.near_label(&object),
                    2 => std::mem::swap(&mut subject, &mut object),
                    _ => {}
                }
            }
        }
        self.emit_question(subject, object, request);
    }

    /// A question, or now and then another call that seeks a label.
    fn search_call(&mut self) {
        match self.random.below(40) {
            0..=27 => self.search_question(),
            28..=30 => self.change_call(),
            31..=33 => self.piece_call(),
            34 => self.emit(Call::End),
            35 => self.revoke_call(),
            36 => self.override_call(),
            37 => match self.random.below(2) {
                0 => self.mapping_call(),
                _ => self.by_label_call(),
            },
            38 => self.list_call(),
            _ => self.label_call(),
        }
        if self.random.chance(5) {
            self.emit(Call::Dump);
        }
    }

    // -----------------------------------------------------------------------
    // Labels with faults at all kinds of places
    // -----------------------------------------------------------------------

    /// The length of such a label: short, at an edge, or long.
    fn faulty_length(&mut self) -> u64 {
        match self.random.below(10) {
            0..=2 => 1 + self.random.below(40),
            3 | 4 => self.random.pick(&[1, 2, 22, 23, 24, 25]),
            5..=7 => self
                .random
                .pick(&[200, 253, 254, 255, 255, 256, 256, 257, 300]),
            8 => self
                .random
                .pick(&[590, 594, 595, 596, 597, 598, 599, 600, 601, 700]),
            _ => 1 + self.random.below(300),
        }
    }

    /// A place below this length: often at an edge or an end.
    fn fault_place(&mut self, length: u64) -> usize {
        let edge = self.random.pick(&[
            0,
            1,
            15,
            16,
            22,
            23,
            24,
            31,
            32,
            253,
            254,
            255,
            256,
            257,
            length / 2,
            length.saturating_sub(2),
            length - 1,
            length - 1,
        ]);
        match edge < length && self.random.chance(70) {
            true => edge as usize,
            false => self.random.below(length) as usize,
        }
    }

    /// A byte that is mostly no label byte: of each value, or a blank, or a dash.
    fn bad_byte(&mut self) -> u8 {
        match self.random.below(8) {
            0 => self.random.byte(),
            1 => self.random.pick(b"-- \t\n"),
            _ => loop {
                let byte = self.random.byte();
                if matches!(class_of(byte), Class::Other | Class::Newline) {
                    return byte;
                }
            },
        }
    }

    /// A label with some bytes put in that are mostly none of a label's.
    fn faulty_label(&mut self) -> Vec<u8> {
        let length = self.faulty_length();
        let mut label = self.label_of_length(length);
        for _ in 0..self.random.pick(&[0, 1, 1, 1, 1, 2, 3]) {
            let at = self.fault_place(length);
            label[at] = self.bad_byte();
        }
        if self.random.chance(10) {
            label[0] = b'-';
        }
        label
    }

    /// A subject and an object: both good, or one faulty, or both.
    fn place_pair(&mut self) -> (Vec<u8>, Vec<u8>) {
        let mut subject = self.label();
        let mut object = self.label();
        let which = self.random.below(12);
        if matches!(which, 0..=2 | 6) {
            subject = self.faulty_label();
        }
        if matches!(which, 3..=6) {
            object = self.faulty_label();
        }
        if self.random.chance(4) {
            object = subject.clone();
        }
        // Mostly the two have room in a line.
        if subject.len() + object.len() > 590 && self.random.chance(80) {
            match which {
                0..=2 => object = self.new_name(),
                3..=5 => subject = self.new_name(),
                _ => object.truncate(20),
            }
        }
        (subject, object)
    }

    fn add_some_blanks(&mut self, text: &mut Vec<u8>, counts: &[u64]) {
        for _ in 0..self.random.pick(counts) {
            text.push(self.random.pick(b" \t"));
        }
    }

    /// Fields with more blanks before and between than `join` has. Now and then a
    /// field too few or too many, or a text of one of these lengths.
    fn spread(&mut self, mut fields: Fields, lengths: &[usize]) -> Vec<u8> {
        if self.random.chance(4) {
            fields.pop();
        }
        if self.random.chance(4) {
            fields.push(self.label());
        }
        let mut text = Vec::with_capacity(500);
        self.add_some_blanks(&mut text, &[0, 0, 0, 1, 2, 3, 9]);
        for (k, field) in fields.iter().enumerate() {
            if k > 0 {
                self.add_some_blanks(&mut text, &[1, 1, 1, 1, 2, 3, 20]);
            }
            text.extend_from_slice(field);
        }
        self.add_some_blanks(&mut text, &[0, 0, 0, 1, 3]);
        if self.random.chance(10) {
            text = self.pad(text, lengths);
        }
        text
    }

    fn place_line(&mut self) -> Vec<u8> {
        let (subject, object) = self.place_pair();
        let access = self.any_access();
        self.spread(Fields::from_iter([subject, object, access]), &LINE_LENGTHS)
    }

    /// A few lines; that they are few lets each of them be the first that is
    /// refused.
    fn place_text(&mut self) -> Vec<u8> {
        let mut text = Vec::with_capacity(500);
        for _ in 0..1 + self.random.below(4) {
            let line = match self.random.below(6) {
                0 => self.rule_line(),
                1 => self.good_rule_line(),
                _ => self.place_line(),
            };
            text.extend_from_slice(&line);
            text.push(b'\n');
        }
        if self.random.chance(30) {
            text.pop();
        }
        text
    }

    /// A lent label: faulty, good, or none.
    fn place_label(&mut self) -> Vec<u8> {
        match self.random.below(12) {
            0..=5 => self.faulty_label(),
            6 => Vec::new(),
            _ => self.label(),
        }
    }

    fn place_call(&mut self) {
        match self.random.below(64) {
            0..=19 => {
                if self.nothing_pending() {
                    // Often the text before ends here.
                    if self.random.chance(60) {
                        self.emit(Call::End);
                    }
                    if self.random.chance(10) {
                        self.poke_first_refused();
                    }
                    let text = self.place_text();
                    self.set_pending(text);
                }
                self.piece_call();
            }
            20 | 21 => self.emit(Call::End),
            22..=29 => {
                let (subject, object) = self.place_pair();
                let mut fields = Fields::from_iter([subject, object]);
                fields.push(self.change_access());
                fields.push(self.change_access());
                let write = self.spread(fields, &LINE_LENGTHS);
                self.emit(Call::Change(write));
            }
            30..=34 => {
                let label = match self.random.below(6) {
                    0 => self.ruling_label(),
                    _ => self.place_label(),
                };
                self.emit(Call::Revoke(label));
            }
            35..=40 => {
                let count = self.random.pick(&[1, 1, 2, 3, 5, 8, 9, 12]);
                let mut fields = Fields::new();
                for _ in 0..count {
                    let used: usize = fields.iter().map(|field| field.len() + 2).sum();
                    let mut field = match self.random.below(10) {
                        0 | 1 => self.faulty_label(),
                        2 => b"-".to_vec(),
                        _ => self.label(),
                    };
                    if used + field.len() > 570 && self.random.chance(90) {
                        field = self.new_name();
                    }
                    fields.push(field);
                }
                let write = self.spread(fields, &LINE_LENGTHS);
                self.emit(Call::Override(write));
            }
            41..=46 => {
                let label = match self.random.below(5) {
                    0 | 1 => self.faulty_label(),
                    // As long as the write may be.
                    2 => {
                        let length = self.random.pick(&[602, 800, 996, 997, 998, 999, 1000]);
                        let mut label = self.label_of_length(length);
                        if self.random.chance(60) {
                            let at = self.fault_place(length);
                            label[at] = self.bad_byte();
                        }
                        label
                    }
                    _ => self.label(),
                };
                let level = self.digits(&["0", "9", "255"]);
                let mut fields = Fields::new();
                fields.push(label);
                fields.push(level);
                for _ in 0..self.random.below(3) {
                    fields.push(self.digits(&["1", "5", "63", "64", "100", "184"]));
                }
                let write = self.spread(fields, &MAPPING_LENGTHS);
                self.emit(Call::Mapping(write));
            }
            47..=51 => {
                let label = match self.random.below(6) {
                    0 => self.mapped_label(),
                    _ => self.place_label(),
                };
                self.emit(Call::ByLabel(label));
            }
            52..=60 => {
                let (mut subject, mut object) = self.place_pair();
                match self.random.below(16) {
                    0 => subject = Vec::new(),
                    1 => object = Vec::new(),
                    2 => object = subject.clone(),
                    _ => {}
                }
                let request = self.request();
                self.emit_question(subject, object, request);
            }
            // These tell no place.
            61 => {
                let line = self.place_line();
                let output = self.output(None);
                self.emit_line(line, output);
            }
            62 => self.record_call(),
            _ => self.emit(Call::Dump),
        }
        if self.random.chance(8) {
            self.emit(Call::Dump);
        }
    }

    // -----------------------------------------------------------------------
    // Sets that are hard to tell apart
    // -----------------------------------------------------------------------

    /// Sets each of which is near another.
    fn make_sets(&mut self) {
        let any = [
            self.random.next_number(),
            self.random.next_number(),
            self.random.next_number() & !STRAY_BITS,
        ];
        let all = [u64::MAX, u64::MAX, u64::MAX - STRAY_BITS];
        let few = self.few_categories();
        self.sets = vec![self.random.pick(&[[0; 3], few, few, any, all])];
        let size = self.random.pick(&[2, 4, 8, 20]);
        while self.sets.len() < size {
            let at = self.random.below(self.sets.len() as u64) as usize;
            let mut near = self.near_set(self.sets[at]);
            near[2] &= !STRAY_BITS;
            self.sets.push(near);
        }
    }

    fn family_set(&mut self) -> Words {
        let at = self.random.below(self.sets.len() as u64) as usize;
        self.sets[at]
    }

    /// The categories of a set, in some order, some of them with leading zeros up to a
    /// width, and some twice.
    fn written_categories(&mut self, set: Words) -> Vec<(u64, usize)> {
        let mut written = Vec::with_capacity(64);
        let (zeros, repeats) = (
            self.random.pick(&[0, 20, 100]),
            self.random.pick(&[0, 0, 30]),
        );
        for n in 1..=plain::HIGHEST_CATEGORY {
            let (word, bit) = category_bit(n);
            if set[word] & bit == 0 {
                continue;
            }
            let times = 1 + usize::from(self.random.chance(repeats));
            for _ in 0..times {
                let width = match self.random.chance(zeros) {
                    true => self.random.pick(&[2, 3, 3]),
                    false => 0,
                };
                written.push((n, width));
            }
        }
        match self.random.below(3) {
            0 => {}
            1 => written.reverse(),
            _ => {
                for k in (1..written.len()).rev() {
                    let other = self.random.below(k as u64 + 1) as usize;
                    written.swap(k, other);
                }
            }
        }
        written
    }

    /// A mapping write of a set of the family, or one at a limit.
    fn write_family_set(&mut self) {
        let label = match self.random.below(20) {
            0 => self.label_of_length(255),
            1 => self.bad_label(),
            2..=9 => self.mapped_label(),
            _ => self.label(),
        };
        let level = match self.random.below(12) {
            0 => self.digits(&["0", "9", "255"]),
            1 => "8",
            _ => "9",
        };
        let set = self.family_set();
        let mut categories = self.written_categories(set);
        if self.random.chance(15) {
            let odd = self.random.pick(&[
                (0, 0),
                (0, 2),
                (0, 3),
                (1, 0),
                (63, 0),
                (64, 0),
                (65, 0),
                (127, 0),
                (128, 0),
                (129, 0),
                (183, 0),
                (184, 0),
                (184, 4),
                (185, 0),
                (186, 0),
                (192, 0),
                (193, 0),
                (255, 0),
                (256, 0),
                (999, 0),
                (1000, 0),
            ]);
            let at = self.random.below(categories.len() as u64 + 1) as usize;
            categories.insert(at, odd);
        }
        let mut fields = Fields::new();
        fields.push(label);
        fields.push(level);
        for (category, width) in categories {
            fields.push_number(category, width);
        }
        let mut write = match self.random.chance(60) {
            true => fields.spaced(),
            false => self.join(fields.iter()),
        };
        if self.random.chance(25) {
            let target = self.random.pick(&[600, 601, 999, 1000, 1000, 1001]);
            match self.random.below(2) {
                0 => write = self.pad(write, &[target]),
                _ => {
                    // More categories instead of blanks.
                    while write.len() < target {
                        let more = 1 + self.random.below(plain::HIGHEST_CATEGORY);
                        write.push(b' ');
                        add_number(&mut write, more, 0);
                    }
                    write.truncate(target);
                }
            }
        }
        self.emit(Call::Mapping(write));
    }

    /// Mappings that need not have been written: sets of the family for stored
    /// labels, some of them twice. Behind the count lies what would count, or would
    /// be damage, if it were larger.
    fn lend_mappings(&mut self) {
        let labels = self.random.pick(&[5, 8, 20, 40, 64]);
        self.fill_labels_to(labels);
        let labels = self.machine.state().words[raw::LABEL_COUNT];
        let count = self.random.pick(&[1, 2, 3, 8, 31, 32, 32]);
        let places = (count + self.random.pick(&[0, 1, 8])).min(32);
        let twice = self.random.chance(30);
        for place in 0..places as usize {
            let label = match twice || place as u64 >= labels {
                true => self.random.below(labels),
                false => labels - 1 - place as u64,
            };
            let level = self.random.pick(&[9, 9, 9, 8, 255]);
            let mut set = self.family_set();
            if place as u64 >= count && self.random.chance(50) {
                self.stray(&mut set);
            }
            self.poke_entries(raw::MAPPING_LABELS + place, [label as u8]);
            self.poke_entries(raw::LEVELS + place, [level]);
            for (row, word) in raw::SETS.iter().zip(set) {
                let index = row + place;
                self.poke_words(index, word);
            }
        }
        self.poke_words(raw::MAPPING_COUNT, count);
    }

    /// Mapping writes, look-ups both ways and runs over sets that are hard to tell
    /// apart, in a table that is fresh, grown, lent, full or damaged.
    fn categories_episode(&mut self) {
        self.emit(Call::Fresh);
        self.emit(Call::FreshLoader);
        self.set_pending(Vec::new());
        self.make_pool();
        self.make_sets();
        self.new_percent = 5;
        match self.random.below(12) {
            0 | 1 => {}
            2..=5 => self.lend_mappings(),
            6..=8 => {
                for _ in 0..self.random.pick(&[2, 8, 20]) {
                    self.write_family_set();
                }
            }
            9 => {
                let target = self.random.pick(&[40, 64]);
                self.fill_labels_to(target);
                let target = self.random.pick(&[31, 32]);
                self.fill_mappings_to(target);
            }
            _ => {
                self.lend_mappings();
                self.damage_and_mend(Self::damage_set, Self::category_call, 4);
            }
        }
        self.emit(Call::Dump);
        for _ in 0..20 + self.random.below(40) {
            self.category_call();
        }
        self.emit(Call::Dump);
    }

    /// A level and a set to seek: of the family, of the table, or near one.
    fn sought(&mut self) -> (u64, Words) {
        if self.random.chance(40) {
            return self.level_and_set();
        }
        let mut set = self.family_set();
        match self.random.below(10) {
            0 => self.stray(&mut set),
            1 | 2 => set = self.near_set(set),
            _ => {}
        }
        (self.random.pick(&[9, 9, 9, 9, 8, 255, 256]), set)
    }

    fn category_call(&mut self) {
        match self.random.below(40) {
            0..=12 => self.write_family_set(),
            13 | 14 => self.mapping_call(),
            15..=20 => {
                let label = self.mapped_label();
                self.emit(Call::ByLabel(label));
            }
            21..=27 => {
                let (level, set) = self.sought();
                self.emit(Call::ByLevel { level, set });
            }
            28..=36 => {
                let (level, set) = self.sought();
                let count = self.random.pick(&[0, 1, 1, 2, 3, 5, 8, 20]);
                let percent = self.random.pick(&[0, 10, 30, 60]);
                self.emit_run(level, set, count, percent);
            }
            37 => self.any_call(),
            _ => self.emit(Call::Dump),
        }
        if self.random.chance(8) {
            self.emit(Call::Dump);
        }
    }

    // -----------------------------------------------------------------------
    // Old fixed records
    // -----------------------------------------------------------------------

    /// A well-formed label of this many bytes.
    fn label_of_length(&mut self, length: u64) -> Vec<u8> {
        let mut label = Vec::with_capacity(length as usize);
        while (label.len() as u64) < length {
            let byte = 33 + self.random.below(94) as u8;
            let is_first_dash = label.is_empty() && byte == b'-';
            if class_of(byte) == Class::Label && !is_first_dash {
                label.push(byte);
            }
        }
        label
    }

    /// A label of 1 to 23 bytes.
    fn fixed_label(&mut self) -> Vec<u8> {
        if self.random.chance(40) {
            let label = self.pool_label();
            if label.len() <= plain::FIXED_LABEL_LIMIT {
                return label;
            }
        }
        let any = 1 + self.random.below(23);
        let length = self.random.pick(&[1, 2, 22, 23, any, any]);
        self.label_of_length(length)
    }

    /// Two different labels of 1 to 23 bytes.
    fn fixed_pair(&mut self) -> (Vec<u8>, Vec<u8>) {
        let subject = self.fixed_label();
        let mut object = self.fixed_label();
        if self.random.chance(15) {
            // Different in one byte alone.
            object = subject.clone();
            let at = self.random.below(object.len() as u64) as usize;
            object[at] = self.random.pick(b"aZ9~");
        }
        while object == subject {
            object = self.fixed_label();
        }
        (subject, object)
    }

    /// A record that is accepted where the output has room.
    fn good_record(&mut self) -> Vec<u8> {
        let (subject, object) = self.fixed_pair();
        let mut record = subject;
        record.resize(plain::FIXED_PLACE, b' ');
        record.extend_from_slice(&object);
        record.resize(2 * plain::FIXED_PLACE, b' ');
        for letters in [b"rR-", b"wW-", b"xX-", b"aA-", b"tT-"] {
            record.push(self.random.pick(letters));
        }
        record
    }

    /// One thing about a record becomes wrong, or now and then stays right.
    fn spoil_record(&mut self, record: &mut Vec<u8>) {
        if record.len() != plain::FIXED_RECORD {
            return;
        }
        let place = plain::FIXED_PLACE * self.random.below(2) as usize;
        let any = self.random.below(plain::FIXED_RECORD as u64) as usize;
        match self.random.below(12) {
            0 => record[any] = self.random.byte(),
            // A strange byte among those of a label, or in its filling.
            1 | 2 => {
                let used = record[place..]
                    .iter()
                    .position(|&byte| byte == b' ')
                    .unwrap_or(1)
                    .max(1);
                let at = match self.random.below(4) {
                    0 => self.random.below(plain::FIXED_PLACE as u64),
                    1 => 0,
                    _ => self.random.below(used as u64),
                };
                record[place + at as usize] =
                    self.random.pick(b" -/\\'\"\t\n\r\0\x1f\x7f\x80\xa0\xffA");
            }
            3 => record.insert(any, self.random.pick(b" A-r\n\0")),
            4 => {
                record.remove(any);
            }
            5 => record[place..place + plain::FIXED_PLACE].fill(b' '),
            // A place without a space at its end.
            6 => match self.random.below(2) {
                0 => record[place + plain::FIXED_PLACE - 1] = self.random.pick(b"F\t\0"),
                _ => record[place..place + plain::FIXED_PLACE].fill(b'F'),
            },
            // A letter in another's place, or a byte that has none.
            7 | 8 => {
                let at = 2 * plain::FIXED_PLACE + self.random.below(5) as usize;
                record[at] = self.random.pick(b"rwxatRWXATbB _\r\0\xff");
            }
            9 | 10 => {
                // Subject = object.
                let label = record[..plain::FIXED_PLACE].to_vec();
                record[plain::FIXED_PLACE..2 * plain::FIXED_PLACE].copy_from_slice(&label);
            }
            _ => {
                let length = self.random.pick(&[0, 1, 24, 48, 52, 54, 106, 600, 601]);
                record.resize(length, b' ');
            }
        }
    }

    /// A record with no, one or two things wrong.
    fn record(&mut self) -> Vec<u8> {
        if self.random.chance(2) {
            return self.random.bytes_up_to(60);
        }
        let mut record = self.good_record();
        let faults = self.random.pick(&[0, 0, 0, 0, 1, 1, 1, 2]);
        for _ in 0..faults {
            self.spoil_record(&mut record);
        }
        record
    }

    /// Letters that a record has a place for, and placeholders.
    fn fixed_access(&mut self) -> Vec<u8> {
        self.random.letters(b"rwxatRWXAT-bB", 6)
    }

    /// A line that is accepted where the output has room.
    fn good_fixed_line(&mut self) -> Vec<u8> {
        let (subject, object) = self.fixed_pair();
        let access = self.fixed_access();
        self.join(&[subject, object, access])
    }

    /// A line to make a record of: often a good one, with or without a newline.
    fn fixed_line(&mut self) -> Vec<u8> {
        let mut line = match self.random.below(24) {
            0..=12 => self.good_fixed_line(),
            13..=15 => {
                // Labels about as long as a place, with a beginning that is the same.
                let longest = self.label_of_length(25);
                let mut fields = Vec::new();
                for _ in 0..2 {
                    let length = self.random.pick(&[22, 23, 24, 25]);
                    fields.push(longest[..length].to_vec());
                }
                fields[1][21] = self.random.pick(b"ab");
                fields.push(self.fixed_access());
                self.join(&fields)
            }
            16 | 17 => {
                let line = self.good_fixed_line();
                self.pad(line, &LINE_LENGTHS)
            }
            18 => {
                let label = self.label();
                let fields = [label.clone(), label, self.any_access()];
                self.join(&fields)
            }
            19 => self.rule_text(),
            _ => self.rule_line(),
        };
        let newlines = self.random.pick(&[0, 0, 0, 1, 1, 1, 1, 2]);
        line.resize(line.len() + newlines, b'\n');
        if self.random.chance(5) && !line.is_empty() {
            let at = self.random.below(line.len() as u64) as usize;
            line[at] = match self.random.below(2) {
                0 => self.random.byte(),
                _ => self.random.pick(b" \t\n\r-/bB"),
            };
        }
        line
    }

    /// An output of random bytes; `written` is how many the call writes, where
    /// it is not refused for another reason.
    fn output(&mut self, written: Option<usize>) -> Vec<u8> {
        let length = match (written, self.random.below(16)) {
            (_, 0) => 0,
            (Some(exact), 1 | 2) => exact - 1,
            (Some(exact), 3..=9) => exact,
            (Some(exact), 10 | 11) => exact + 1,
            (Some(exact), 12) => self.random.below(exact as u64) as usize,
            (Some(exact), 13 | 14) => exact + self.random.below(40) as usize,
            (None, 1..=14) => self.random.pick(&[1, 7, 13, 52, 53, 53, 54, 60]),
            _ => self.random.pick(&[255, 517, 518, 519, 600, 601]),
        };
        self.random.bytes(length)
    }

    fn emit_record(&mut self, record: impl Into<Vec<u8>>, output: Vec<u8>) {
        let record = record.into();
        self.emit(Call::RecordToLine { record, output });
    }

    fn emit_line(&mut self, line: impl Into<Vec<u8>>, output: Vec<u8>) {
        let line = line.into();
        self.emit(Call::LineToRecord { line, output });
    }

    /// A record turned into its line; often that line back, and then once more.
    fn record_call(&mut self) {
        let record = self.record();
        let mut line = [0; 600];
        let written = plain::record_to_line(&record, &mut line).ok();
        let output = self.output(written);
        self.emit_record(record, output);
        let Some(length) = written else { return };
        if self.random.chance(40) {
            let output = self.output(Some(plain::FIXED_RECORD));
            self.emit_line(&line[..length], output);
            let mut again = [0; plain::FIXED_RECORD];
            let back = plain::line_to_record(&line[..length], &mut again);
            if back.is_ok() && self.random.chance(30) {
                let output = self.output(Some(length));
                self.emit_record(again, output);
            }
        }
    }

    /// A line turned into its record; now and then that record back.
    fn line_call(&mut self) {
        let line = self.fixed_line();
        self.turn_line(line);
    }

    fn turn_line(&mut self, line: Vec<u8>) {
        let mut record = [0; plain::FIXED_RECORD];
        let written = plain::line_to_record(&line, &mut record).ok();
        let output = self.output(written);
        self.emit_line(line, output);
        if written.is_some() && self.random.chance(20) {
            let mut space = [0; 600];
            let length = plain::record_to_line(&record, &mut space).ok();
            let output = self.output(length);
            self.emit_record(record, output);
        }
    }

    // -----------------------------------------------------------------------
    // The retired letter
    // -----------------------------------------------------------------------

    /// Lines with b, and what stands beside it, in a table that is fresh, used, full,
    /// lent or damaged.
    fn bringup_episode(&mut self) {
        self.emit(Call::Fresh);
        self.emit(Call::FreshLoader);
        self.set_pending(Vec::new());
        self.make_pool();
        for name in ["b", "B", "bB", "rb"] {
            self.pool.push(name.as_bytes().to_vec());
        }
        self.new_percent = 5;
        match self.random.below(12) {
            0..=3 => {}
            4 => self.base_state(),
            5 => {
                let target = self.random.pick(&[62, 63, 64]);
                self.fill_labels_to(target);
            }
            6 => {
                let target = self.random.pick(&[254, 255, 256, 256]);
                self.fill_rules_to(target);
            }
            7 => {
                self.lend_family();
                self.fill_unused();
            }
            _ => {
                match self.random.below(3) {
                    0 => self.base_state(),
                    1 => self.lend_family(),
                    _ => {
                        let target = self.random.pick(&[30, 255, 256]);
                        self.fill_rules_to(target);
                    }
                }
                self.damage_and_mend(Self::damage_modes, Self::bringup_call, 6);
            }
        }
        self.emit(Call::Dump);
        for _ in 0..30 + self.random.below(50) {
            self.bringup_call();
        }
        self.emit(Call::End);
        self.emit(Call::Dump);
    }

    /// Good letters and dashes, then b or B anywhere among them, then now and then a
    /// byte that is not allowed: often one that differs from b in one bit.
    fn bringup_access(&mut self) -> Vec<u8> {
        let mut field = match self.random.below(6) {
            0 => Vec::new(),
            1 => vec![b'-'; self.random.pick(&[1, 2, 5])],
            _ => self.random.letters(b"rwxatRWXAT--", 6),
        };
        let with_b = self.random.pick(&[0, 1, 1, 1, 1, 2, 3]);
        for _ in 0..with_b {
            let at = self.random.below(field.len() as u64 + 1) as usize;
            field.insert(at, self.random.pick(b"bB"));
        }
        if self.random.chance(10) {
            let at = self.random.below(field.len() as u64 + 1) as usize;
            let byte = self.random.pick(b"lq/\r\0\xffc`fj\"\xe2C@FJ\x02\xc2");
            field.insert(at, byte);
        }
        if field.is_empty() {
            field.push(self.random.pick(b"bB-"));
        }
        field
    }

    /// A line with such a field: mostly of two good labels, else with a fault of any
    /// other kind.
    fn bringup_line(&mut self) -> Vec<u8> {
        let mut fields = vec![self.pool_label(), self.pool_label(), self.bringup_access()];
        if fields[0] == fields[1] && self.random.chance(80) {
            fields[1] = self.new_name();
        }
        match self.random.below(32) {
            0..=3 => {
                fields[0] = self.label();
                fields[1] = self.label();
            }
            // A label that is not well formed.
            4 | 5 => {
                let at = self.random.below(2) as usize;
                fields[at] = self.bad_label();
            }
            6 => fields[1] = fields[0].clone(),
            // Two new labels; two stored ones, which mostly have no rule.
            7 => {
                fields[0] = self.new_name();
                fields[1] = self.new_name();
            }
            8 | 9 => {
                fields[0] = self.stored_label();
                fields[1] = self.stored_label();
            }
            // Too few fields or too many.
            10 => {
                fields.remove(0);
            }
            11 => fields.push(self.bringup_access()),
            // About 600 bytes, of blanks or of the letter itself.
            12 => {
                let line = self.join(&fields);
                return self.pad(line, &LINE_LENGTHS);
            }
            13 => {
                let mut line = fields.join(&b' ');
                let target = self.random.pick(&LINE_LENGTHS);
                while line.len() < target {
                    line.push(self.random.pick(b"bbbB-r"));
                }
                return line;
            }
            14 => return self.rule_line(),
            _ => {}
        }
        self.join(&fields)
    }

    fn bringup_text(&mut self) -> Vec<u8> {
        let mut text = Vec::with_capacity(500);
        for _ in 0..1 + self.random.below(6) {
            text.extend(self.bringup_line());
            text.push(b'\n');
        }
        if self.random.chance(30) {
            text.pop();
        }
        text
    }

    /// The count of such lines near its limit, by itself or beside that of all
    /// accepted ones.
    fn poke_bringup(&mut self) {
        let value = self.near_saturation();
        self.poke_number(raw::BRINGUP, value);
        if self.random.chance(30) {
            let value = self.near_saturation();
            self.poke_number(raw::ACCEPTED, value);
        }
    }

    /// A change that has the letter in one of its two access fields, in both or in
    /// none.
    fn bringup_change(&mut self) {
        let (subject, object) = match self.ruled_pair() {
            Some((subject, object, _)) if self.random.chance(60) => (subject, object),
            _ => (self.label(), self.label()),
        };
        let mut fields = vec![subject, object];
        for _ in 0..2 {
            let access = match self.random.below(3) {
                0 => self.bringup_access(),
                _ => self.random.letters(b"rwxatRWXAT-", 4),
            };
            fields.push(access);
        }
        let write = self.join(&fields);
        self.emit(Call::Change(write));
    }

    /// A question about a pair that has a rule, or any; now and then the request has
    /// the letter.
    fn bringup_question(&mut self) {
        let (subject, object, modes) = match self.ruled_pair() {
            Some(pair) if self.random.chance(80) => pair,
            _ => (self.label(), self.label(), 0),
        };
        let held = requests_of(modes);
        let mut request = match !held.is_empty() && self.random.chance(60) {
            true => self.random.letters(&held, 3),
            false => self.random.letters(b"rwxaRWXA", 2),
        };
        if self.random.chance(20) {
            let at = self.random.below(request.len() as u64 + 1) as usize;
            request.insert(at, self.random.pick(b"bB"));
        }
        if self.random.chance(4) {
            request = vec![self.random.pick(b"bB-t")];
        }
        self.emit_question(subject, object, request);
    }

    /// A record made of a line with the letter: of a pair that has a rule, of two
    /// labels that a record has room for, or of any such line.
    fn bringup_record(&mut self) {
        let access = self.bringup_access();
        let mut line = match self.random.below(8) {
            0..=2 => match self.ruled_pair() {
                Some((subject, object, _)) => self.join(&[subject, object, access]),
                None => self.bringup_line(),
            },
            3 | 4 => self.bringup_line(),
            _ => {
                let (subject, object) = self.fixed_pair();
                self.join(&[subject, object, access])
            }
        };
        if self.random.chance(50) {
            line.push(b'\n');
        }
        self.turn_line(line);
    }

    /// A record that has the letter as an access byte, which is refused.
    fn bringup_in_record(&mut self) {
        let mut record = self.good_record();
        let at = 2 * plain::FIXED_PLACE + self.random.below(5) as usize;
        record[at] = self.random.pick(b"bB");
        let output = self.output(None);
        self.emit_record(record, output);
    }

    fn bringup_call(&mut self) {
        match self.random.below(64) {
            0..=23 => {
                if self.nothing_pending() {
                    if self.random.chance(50) {
                        self.emit(Call::End);
                    }
                    if self.random.chance(15) {
                        self.poke_bringup();
                    }
                    let text = self.bringup_text();
                    self.set_pending(text);
                }
                self.piece_call();
            }
            24..=27 => self.emit(Call::End),
            28..=34 => self.bringup_change(),
            35..=43 => self.bringup_question(),
            44..=48 => self.list_call(),
            49..=56 => self.bringup_record(),
            57 => self.record_call(),
            58 => self.bringup_in_record(),
            59 => self.revoke_call(),
            60 | 61 => self.any_call(),
            _ => self.emit(Call::Dump),
        }
        if self.random.chance(8) {
            self.emit(Call::Dump);
        }
    }

    // -----------------------------------------------------------------------
    // The packet option
    // -----------------------------------------------------------------------

    /// Labels about as long as an option can hold, some of them the beginning of
    /// another, and short and long ones.
    fn make_option_pool(&mut self) {
        self.pool.clear();
        let size = self.random.pick(&[6, 10, 16, 30]);
        while self.pool.len() < size {
            let any = 1 + self.random.below(40);
            let length = self.random.pick(&[
                1, 1, 2, 3, 7, 8, 9, 16, 21, 22, 22, 23, 23, 23, 24, 24, 25, 254, 255, any, any,
            ]);
            let label = match self.random.below(6) {
                0 | 1 if !self.pool.is_empty() => {
                    let mut label = self.pool_label();
                    label.truncate(length as usize);
                    label
                }
                2 if !self.pool.is_empty() => {
                    let label = self.pool_label();
                    self.near_label(&label)
                }
                // Bytes with one bit, and with all that a label byte can have.
                3 => (0..length).map(|_| self.random.pick(b"@@ABC~P`")).collect(),
                _ => self.label_of_length(length),
            };
            self.pool.push(label);
        }
        if self.random.chance(50) {
            for mark in ["_", "^", "*", "?", "@"] {
                self.pool.push(mark.as_bytes().to_vec());
            }
        }
    }

    /// Few sets, so that several labels are mapped alike; some are a label's own
    /// bits.
    fn make_option_sets(&mut self) {
        self.make_sets();
        let kept = self.random.pick(&[1, 2, 3, 6]);
        self.sets.truncate(kept);
        for _ in 0..self.random.pick(&[0, 1, 2]) {
            let mut label = self.pool_label();
            label.truncate(plain::OWN_BITS_LIMIT);
            self.sets.push(words_of(&own_bits(&label)));
        }
    }

    /// A level near 250, or another.
    fn option_level(&mut self) -> u8 {
        self.random
            .pick(&[9, 9, 9, 0, 122, 248, 249, 249, 250, 250, 251, 251, 255])
    }

    /// A mapping write of a pool label at such a level.
    fn map_option_label(&mut self) {
        let label = match self.random.below(12) {
            0 => self.label(),
            1 => self.stored_label(),
            _ => self.pool_label(),
        };
        let mut fields = Fields::new();
        fields.push(label);
        match self.random.below(20) {
            0 => fields.push(self.digits(&["249", "250", "251", "025", "0250"])),
            1 => fields.push("250"),
            _ => fields.push_number(u64::from(self.option_level()), 0),
        }
        let set = self.family_set();
        for (category, width) in self.written_categories(set) {
            fields.push_number(category, width);
        }
        let write = match self.random.chance(90) {
            true => fields.spaced(),
            false => self.write_of(fields, &MAPPING_LENGTHS),
        };
        self.emit(Call::Mapping(write));
    }

    /// A label as it may stand in a lent store: of the pool, so that some are stored
    /// twice, or ill-formed, or of length 0.
    fn lent_label(&mut self) -> Vec<u8> {
        let mut label = self.pool_label();
        let at = self.random.below(label.len() as u64) as usize;
        match self.random.below(16) {
            0 => label.clear(),
            1 => label[at] = self.bad_byte(),
            2 => label[0] = b'-',
            3 => label[at] = 0,
            4 if label.len() < plain::LABEL_LIMIT => label.push(0),
            _ => {}
        }
        label
    }

    /// A table that need not have been grown: labels of the pool, then mappings of
    /// their numbers, some of these twice, at levels near 250 and at 250. Behind the
    /// count lies what would count if it were larger.
    fn lend_options(&mut self) {
        let labels = self.random.pick(&[1, 5, 6, 8, 12, 20, 40, 63, 64]);
        let from = if self.random.chance(80) { 5 } else { 0 };
        for place in from..labels {
            let label = self.lent_label();
            let mut bytes = vec![label.len() as u8];
            bytes.extend_from_slice(&label);
            if self.random.chance(15) {
                // What lies behind a label in its place.
                let more = self.pool_label();
                bytes.extend_from_slice(&more);
                bytes.truncate(raw::PLACE);
            }
            let at = place as usize * raw::PLACE;
            self.poke_labels(at, bytes);
        }
        self.poke_words(raw::LABEL_COUNT, labels);
        let count = self.random.pick(&[1, 2, 4, 8, 16, 31, 32]).min(labels + 3);
        let places = (count + self.random.pick(&[0, 1, 4])).min(32);
        let (mut numbers, mut levels) = (Vec::new(), Vec::new());
        for place in 0..places as usize {
            numbers.push(self.random.below(labels) as u8);
            levels.push(match self.random.chance(20) {
                true => plain::LABEL_LEVEL,
                false => self.option_level(),
            });
            let set = self.family_set();
            for (row, word) in raw::SETS.iter().zip(set) {
                let index = row + place;
                if self.machine.state().words.get(index) != Some(&word) {
                    self.poke_words(index, word);
                }
            }
        }
        self.poke_entries(raw::MAPPING_LABELS, numbers);
        self.poke_entries(raw::LEVELS, levels);
        self.poke_words(raw::MAPPING_COUNT, count);
    }

    /// Options written and read, in a table that is fresh, grown, lent, full or
    /// damaged.
    fn options_episode(&mut self) {
        self.emit(Call::Fresh);
        self.emit(Call::FreshLoader);
        self.set_pending(Vec::new());
        self.make_option_pool();
        self.make_option_sets();
        self.new_percent = 5;
        match self.random.below(12) {
            0 => {}
            1..=4 => {
                for _ in 0..self.random.pick(&[2, 6, 12, 20]) {
                    self.map_option_label();
                }
            }
            5..=8 => self.lend_options(),
            9 => {
                let target = self.random.pick(&[40, 64]);
                self.fill_labels_to(target);
                let target = self.random.pick(&[31, 32]);
                self.fill_mappings_to(target);
            }
            _ => {
                self.lend_options();
                self.damage_and_mend(Self::damage, Self::option_call, 6);
            }
        }
        self.emit(Call::Dump);
        for _ in 0..40 + self.random.below(60) {
            self.option_call();
        }
        self.emit(Call::Dump);
    }

    fn option_call(&mut self) {
        match self.random.below(40) {
            0..=11 => self.write_option_call(),
            12..=28 => self.read_option_call(),
            29..=33 => self.map_option_label(),
            34 => {
                let label = self.mapped_label();
                self.emit(Call::ByLabel(label));
            }
            35 | 36 => self.by_level_call(),
            37 => self.any_call(),
            38 => self.label_call(),
            _ => self.emit(Call::Dump),
        }
        if self.random.chance(4) {
            self.emit(Call::Dump);
        }
    }

    /// The option of a label, or why there is none. `output` is mostly as long as
    /// the option, or about as long. Often the option is then read.
    fn write_option_call(&mut self) {
        let label = match self.random.below(24) {
            0..=6 => self.mapped_label(),
            7..=12 => self.pool_label(),
            13..=15 => self.stored_label(),
            16 | 17 => self.label(),
            18..=20 => {
                let length = self.random.pick(&[1, 2, 22, 23, 24, 25, 40, 255]);
                self.label_of_length(length)
            }
            21 => {
                let length = self.random.pick(&[256, 257, 600, 601, 1001]);
                self.label_of_length(length)
            }
            22 => self.faulty_label(),
            _ => match self.random.below(4) {
                0 => Vec::new(),
                _ => self.bad_label(),
            },
        };
        let mut space = [0; 40];
        let written = match self.machine.table() {
            Some(table) => table.write_option(&label, &mut space).ok(),
            None => None,
        };
        let exact = written.unwrap_or(12);
        let length = match self.random.below(16) {
            0 => 0,
            1 | 2 => exact - 1,
            3 => self.random.below(exact as u64) as usize,
            4..=8 => exact,
            9 | 10 => exact + 1,
            11..=13 => 34,
            14 => 40,
            _ => self.random.pick(&[9, 10, 11, 33, 35, 255, 600]),
        };
        let output = self.random.bytes(length);
        self.emit(Call::WriteOption { label, output });
        if let Some(length) = written {
            if self.random.chance(30) {
                let option = space[..length].to_vec();
                self.emit(Call::ReadOption { option });
            }
        }
    }

    fn read_option_call(&mut self) {
        let option = self.option();
        self.emit(Call::ReadOption { option });
    }

    /// An option with no, one or two things about it changed, or bytes that are
    /// none.
    fn option(&mut self) -> Vec<u8> {
        if self.random.chance(6) {
            return self.random.bytes_up_to(60);
        }
        let mut option = self.good_option();
        if self.random.chance(25) {
            self.add_zeros(&mut option);
        }
        for _ in 0..self.random.pick(&[0, 0, 0, 0, 1, 1, 1, 1, 2, 2]) {
            self.spoil_option(&mut option);
        }
        option
    }

    /// The option of a stored mapping, of a label's own bits, or of some level and
    /// set.
    fn good_option(&mut self) -> Vec<u8> {
        if self.random.chance(50) {
            if let Some(table) = self.machine.table() {
                if !table.mappings.is_empty() {
                    let at = self.random.below(table.mappings.len() as u64) as usize;
                    let mapping = &table.mappings[at];
                    return option_bytes(mapping.level, &mapping.set);
                }
            }
        }
        if self.random.chance(70) {
            let mut label = match self.random.below(8) {
                0 | 1 => self.fixed_label(),
                2 => self.bad_label(),
                3 => self.stored_label(),
                4 => self.random.bytes_up_to(23),
                _ => self.pool_label(),
            };
            label.truncate(plain::OWN_BITS_LIMIT);
            return option_bytes(plain::LABEL_LEVEL, &own_bits(&label));
        }
        let level = self.option_level();
        let words = match self.sets.is_empty() || self.random.chance(30) {
            true => self.few_categories(),
            false => {
                let set = self.family_set();
                match self.random.chance(40) {
                    true => self.near_set(set),
                    false => set,
                }
            }
        };
        // Words that are moved may have a bit that is no category.
        option_bytes(level, &set_of(&words).unwrap_or_default())
    }

    /// Zero bytes behind the bitmap, up to 30 bytes of it or over; the lengths are
    /// right.
    fn add_zeros(&mut self, option: &mut Vec<u8>) {
        let bitmap = option.len().saturating_sub(plain::BEFORE_BITMAP);
        let any = self.random.below(31) as usize;
        let target = self.random.pick(&[
            bitmap + 1,
            bitmap + 1,
            23,
            24,
            29,
            30,
            30,
            30,
            31,
            31,
            any,
            any,
            32,
            40,
            245,
        ]);
        let total = plain::BEFORE_BITMAP + target.max(bitmap);
        option.resize(total, 0);
        set_lengths(option);
    }

    /// One thing about an option changes; mostly that is a fault.
    fn spoil_option(&mut self, option: &mut Vec<u8>) {
        if option.len() < plain::BEFORE_BITMAP {
            return;
        }
        let any = self.random.below(option.len() as u64) as usize;
        match self.random.below(26) {
            // One byte, anywhere or before the bitmap.
            0 => option[any] = self.random.byte(),
            1 => option[any] ^= 1 << self.random.below(8),
            2 => option[self.random.below(10) as usize] = self.random.byte(),
            // One bit of the bitmap: a category comes or goes.
            3..=5 => {
                let any = self.random.below(185);
                let edge = self.random.pick(&EDGES);
                let number = self.random.pick(&[any, edge]);
                turn_bit(option, number);
            }
            // A bit that is no category.
            6 => turn_bit(option, 0),
            7..=9 => {
                let any = 185 + self.random.below(55);
                let number = self.random.pick(&[185, 191, 192, 239, any, any, any, any]);
                turn_bit(option, number);
            }
            // Cut at its end, the lengths right or not.
            10 => {
                option.truncate(any);
                if self.random.chance(50) {
                    set_lengths(option);
                }
            }
            // More bytes behind it, the lengths right or not.
            11 => {
                for _ in 0..self.random.pick(&[1, 1, 2, 3, 4]) {
                    let byte = self.random.pick(&[0, 0, 1, 128, 255]);
                    option.push(byte);
                }
                if self.random.chance(50) {
                    set_lengths(option);
                }
            }
            12..=14 => {
                let other = self.random.pick(&[
                    [3, 0, 0, 0],
                    [0, 0, 0, 0],
                    [0, 0, 0, 1],
                    [0, 0, 0, 2],
                    [0, 0, 0, 4],
                    [0, 0, 3, 0],
                    [0, 1, 0, 3],
                    [1, 0, 0, 3],
                    [0, 0, 1, 3],
                    [255, 255, 255, 255],
                ]);
                option[2..plain::BEFORE_TAG].copy_from_slice(&other);
            }
            15 => option[6] = self.random.pick(&[0, 2, 3, 5, 6, 7, 129, 255]),
            16 => option[8] = self.random.pick(&[1, 2, 128, 255]),
            17 => {
                let at = self.random.pick(&[1, 7]);
                let wrong = [
                    option[at].wrapping_add(1),
                    option[at].wrapping_sub(1),
                    0,
                    255,
                ];
                option[at] = self.random.pick(&wrong);
            }
            // Both lengths are wrong alike.
            18 => {
                let by = self.random.pick(&[1, 2, 254, 255]);
                option[1] = option[1].wrapping_add(by);
                option[7] = option[7].wrapping_add(by);
            }
            // A second tag, which the total length holds.
            19 => {
                option.extend_from_slice(&[1, 4, 0, 9]);
                option[1] = option.len() as u8;
            }
            20 | 21 => option[9] = self.option_level(),
            // Another byte of a label, or a zero byte in it, at level 250.
            _ => {
                let set: Vec<u64> = (1..=plain::HIGHEST_CATEGORY)
                    .filter(|n| {
                        let at = plain::BEFORE_BITMAP + *n as usize / 8;
                        option.get(at).is_some_and(|b| b & (0x80 >> (n % 8)) != 0)
                    })
                    .collect();
                let length = set.last().map_or(1, |n| (n - 1) / 8 + 1);
                let i = self.random.below(length);
                let byte = match self.random.below(4) {
                    0 | 1 => 0,
                    2 => self.bad_byte(),
                    _ => self.random.pick(b"-/ \"'\\\x7f\x80\xffA"),
                };
                option[9] = plain::LABEL_LEVEL;
                for j in 0..8 {
                    let n = 8 * i + j + 1;
                    if set.contains(&n) != (byte & (0x80 >> j) != 0) {
                        turn_bit(option, n);
                    }
                }
            }
        }
    }

    // -----------------------------------------------------------------------
    // The label of a new object
    // -----------------------------------------------------------------------

    /// New objects of few creators in few folders, in a table that is fresh, grown,
    /// lent, full or damaged.
    fn newobjects_episode(&mut self) {
        self.emit(Call::Fresh);
        self.emit(Call::FreshLoader);
        self.set_pending(Vec::new());
        self.make_folder_pool();
        self.new_percent = 3;
        match self.random.below(16) {
            0 => {}
            1..=6 => self.grow_folders(),
            7..=12 => self.lend_folders(),
            13 => {
                let target = self.random.pick(&[30, 64]);
                self.fill_labels_to(target);
                let target = self.random.pick(&[100, 255, 256]);
                self.fill_rules_to(target);
            }
            _ => {
                match self.random.below(2) {
                    0 => self.grow_folders(),
                    _ => self.lend_folders(),
                }
                self.damage_and_mend(Self::damage, Self::folder_call, 6);
            }
        }
        self.emit(Call::Dump);
        for _ in 0..40 + self.random.below(60) {
            self.folder_call();
        }
        self.emit(Call::End);
        self.emit(Call::Dump);
    }

    /// A few labels, so that creators and folders meet often: names, labels that
    /// agree but for their last byte, or labels one byte or one length apart. Mostly
    /// some marks are among them.
    fn make_folder_pool(&mut self) {
        self.pool.clear();
        match self.random.below(3) {
            0 => {
                for name in ["Recorder", "Alarm", "Records", "alarm", "w", "t"] {
                    self.pool.push(name.as_bytes().to_vec());
                }
            }
            1 => {
                let length = self.random.pick(&[1, 22, 23, 24, 40, 253, 254]);
                for last in b"abcd" {
                    let mut label = vec![b'L'; length];
                    label.push(*last);
                    self.pool.push(label);
                }
            }
            _ => {
                let length = self.random.pick(&[1, 2, 4, 8, 22, 23, 24, 64, 254, 255]);
                let first = self.label_of_length(length);
                self.pool.push(first);
                for _ in 0..3 {
                    let label = self.pool_label();
                    let near = self.near_label(&label);
                    self.pool.push(near);
                }
            }
        }
        for _ in 0..self.random.pick(&[0, 1, 2, 3]) {
            self.pool.push(vec![self.random.pick(b"_^*?@")]);
        }
    }

    /// The modes of a rule: none, any of the 32 sets, or one with w, or with w and t.
    fn folder_modes(&mut self) -> u8 {
        let any = self.random.byte() & plain::MODE_LETTERS;
        match self.random.below(10) {
            0 => 0,
            1..=3 => any,
            4 | 5 => any | plain::W,
            _ => any | plain::W | plain::T,
        }
    }

    /// Such modes as an access field, in either case, now and then with a placeholder.
    fn folder_access(&mut self) -> Vec<u8> {
        let modes = self.folder_modes();
        let mut field = Vec::new();
        for (letter, bit) in plain::LETTERS {
            if modes & bit != 0 {
                let large = letter.to_ascii_uppercase();
                field.push(self.random.pick(&[letter, letter, large]));
            }
        }
        if field.is_empty() || self.random.chance(10) {
            let at = self.random.below(field.len() as u64 + 1) as usize;
            field.insert(at, self.random.pick(b"--b"));
        }
        field
    }

    /// A line with such a field: mostly of two labels of the pool or of a pair that has
    /// a rule, now and then any line.
    fn folder_line(&mut self) -> Vec<u8> {
        if self.random.chance(8) {
            return self.rule_line();
        }
        let (creator, folder) = match self.ruled_pair() {
            Some((creator, folder, _)) if self.random.chance(30) => (creator, folder),
            _ => (self.pool_label(), self.pool_label()),
        };
        let access = self.folder_access();
        self.join(&[creator, folder, access])
    }

    fn folder_text(&mut self) -> Vec<u8> {
        let mut text = Vec::with_capacity(500);
        for _ in 0..1 + self.random.below(4) {
            text.extend(self.folder_line());
            text.push(b'\n');
        }
        if self.random.chance(30) {
            text.pop();
        }
        text
    }

    /// A change that gives or takes w or t, or other letters, mostly of a pair that has
    /// a rule.
    fn folder_change(&mut self) {
        let (creator, folder) = match self.ruled_pair() {
            Some((creator, folder, _)) if self.random.chance(70) => (creator, folder),
            _ => (self.pool_label(), self.pool_label()),
        };
        let mut allow = self.random.letters(b"wtWTrxa-", 2);
        let mut deny = self.random.letters(b"wtWTrxa-", 2);
        match self.random.below(3) {
            0 => allow = b"-".to_vec(),
            1 => deny = b"-".to_vec(),
            _ => {}
        }
        let write = self.join(&[creator, folder, allow, deny]);
        self.emit(Call::Change(write));
    }

    /// The rules come in by text in random cuts, and by changes.
    fn grow_folders(&mut self) {
        for _ in 0..self.random.pick(&[2, 4, 8, 12]) {
            let mut text = self.folder_text();
            text.push(b'\n');
            self.set_pending(text);
            self.piece_call();
            if self.random.chance(20) {
                self.folder_change();
            }
        }
    }

    /// A table that need not have been grown: the five labels and those of the pool,
    /// some of them twice, now and then in another order, cut, or at the end of 64;
    /// rules of any two of them, of a label and itself too, some pairs twice with other
    /// modes, some under the second number of a label; and an override list. Behind the
    /// count lie rules that would count if it were larger.
    fn lend_folders(&mut self) {
        let mut labels: Vec<Vec<u8>> = Table::fresh().labels;
        labels.extend(self.pool.clone());
        for _ in 0..self.random.pick(&[0, 0, 1, 2, 4]) {
            labels.push(self.pool_label());
        }
        if self.random.chance(30) {
            let one = self.random.below(5) as usize;
            let other = self.random.below(labels.len() as u64) as usize;
            labels.swap(one, other);
        }
        if self.random.chance(10) {
            let count = 1 + self.random.below(labels.len() as u64);
            labels.truncate(count as usize);
        }
        let mut lowest = 0;
        if self.random.chance(12) {
            // Labels that have no rule stand before them.
            while labels.len() < plain::LABEL_PLACES {
                labels.insert(0, named(b'F', labels.len() as u64));
                lowest += 1;
            }
        }
        let mut store = Vec::new();
        for label in &labels {
            store.push(label.len() as u8);
            store.extend_from_slice(label);
            store.resize(store.len().next_multiple_of(raw::PLACE), 0);
        }
        self.poke_labels(0, store);
        let count = labels.len() as u64;
        self.poke_words(raw::LABEL_COUNT, count);
        let rules = self.random.pick(&[1, 4, 8, 16, 32, 64, 255, 256]);
        let places = (rules + self.random.pick(&[0, 1, 8])).min(256);
        let mut rows = [Vec::new(), Vec::new(), Vec::new()];
        for place in 0..places {
            let mut pair = [lowest; 2].map(|n| (n + self.random.below(count - n)) as u8);
            if place > 0 && self.random.chance(30) {
                // The pair of an earlier rule, or turned, or its creator with itself.
                let before = self.random.below(place) as usize;
                let (creator, folder) = (rows[0][before], rows[1][before]);
                let turned = [folder, creator];
                let alone = [creator, creator];
                pair = [creator, folder];
                pair = self.random.pick(&[pair, pair, turned, alone]);
            }
            rows[0].push(pair[0]);
            rows[1].push(pair[1]);
            rows[2].push(self.folder_modes());
        }
        for (at, row) in [raw::SUBJECTS, raw::OBJECTS, raw::MODES]
            .into_iter()
            .zip(rows)
        {
            self.poke_entries(at, row);
        }
        self.poke_words(raw::RULE_COUNT, rules);
        let overrides = self.random.pick(&[0, 0, 1, 2, 8]);
        let bytes: Vec<u8> = (0..8).map(|_| self.random.below(count) as u8).collect();
        let at = raw::OVERRIDES;
        self.poke_entries(at, bytes);
        self.poke_words(raw::OVERRIDE_COUNT, overrides);
    }

    /// The two labels of the last rule, or of the first behind the count where they are
    /// labels.
    fn pair_at_count(&mut self) -> Option<(Vec<u8>, Vec<u8>)> {
        let table = self.machine.table()?;
        let count = table.rules.len();
        let place = self.random.pick(&[count.saturating_sub(1), count]);
        if place == plain::RULE_PLACES {
            return None;
        }
        let entries = &self.machine.state().entries;
        let label = |row: usize| table.labels.get(usize::from(entries[row + place]));
        let (creator, folder) = (label(raw::SUBJECTS)?, label(raw::OBJECTS)?);
        Some((creator.clone(), folder.clone()))
    }

    /// The two labels of a rule by which the folder's label is given, where there is one.
    fn transmuting_pair(&mut self) -> Option<(Vec<u8>, Vec<u8>)> {
        let table = self.machine.table()?;
        // They are sought again only where the tables may have changed.
        if self.transmuting.0 != self.machine.changes() {
            self.transmuting = (self.machine.changes(), transmuting_pairs(table));
        }
        let pairs = &self.transmuting.1;
        if pairs.is_empty() {
            return None;
        }
        let (creator, folder) = self.random.pick(pairs);
        Some((table.labels[creator].clone(), table.labels[folder].clone()))
    }

    /// Creator and folder often have a rule by which the folder's label is given, or any
    /// rule; now and then one of them is another label, or near it, or ill-formed.
    /// Sometimes the question for w stands beside it.
    fn new_object_call(&mut self) {
        let mut creator = self.label();
        let mut folder = self.label();
        if self.random.chance(60) {
            if let Some((one, other, _)) = self.ruled_pair() {
                (creator, folder) = (one, other);
            }
        }
        if self.random.chance(65) {
            if let Some((one, other)) = self.transmuting_pair() {
                (creator, folder) = (one, other);
            }
        }
        if self.random.chance(3) {
            if let Some((one, other)) = self.pair_at_count() {
                (creator, folder) = (one, other);
            }
        }
        match self.random.below(60) {
            0 => creator = folder.clone(),
            1 => folder = creator.clone(),
            2 | 3 => std::mem::swap(&mut creator, &mut folder),
            4 => creator = self.near_label(&creator),
            5 => folder = self.near_label(&folder),
            6 => creator = vec![self.random.pick(b"_^*?@")],
            7 => folder = vec![self.random.pick(b"_^*?@")],
            8 => creator = self.bad_label(),
            9 => folder = self.bad_label(),
            10 => match self.random.below(3) {
                0 => creator = Vec::new(),
                1 => folder = Vec::new(),
                _ => (creator, folder) = (self.bad_label(), self.bad_label()),
            },
            11 => match self.random.below(3) {
                0 => creator = self.new_name(),
                1 => folder = self.new_name(),
                _ => {
                    creator = self.new_name();
                    folder = creator.clone();
                }
            },
            _ => {}
        }
        let folder_transmutes = self.random.chance(80);
        let is_folder = self.random.below(2) == 1;
        // Whether the question stands beside it.
        let with_question = self.random.chance(12);
        let pair = with_question.then(|| (creator.clone(), folder.clone()));
        self.emit(Call::NewObject {
            creator,
            folder,
            folder_transmutes,
            is_folder,
        });
        if let Some((subject, object)) = pair {
            self.emit_question(subject, object, b"w".to_vec());
        }
    }

    /// The label of a new object, or a call that changes the rules it goes by.
    fn folder_call(&mut self) {
        match self.random.below(50) {
            0..=35 => self.new_object_call(),
            36..=38 => {
                if self.nothing_pending() {
                    let text = self.folder_text();
                    self.set_pending(text);
                }
                self.piece_call();
            }
            39 => self.emit(Call::End),
            40..=42 => self.folder_change(),
            43 | 44 => self.override_call(),
            45 => match self.random.below(3) {
                0 => self.revoke_call(),
                1 => self.list_call(),
                _ => self.label_call(),
            },
            46 => self.oddity(),
            47 => self.any_call(),
            _ => self.emit(Call::Dump),
        }
        if self.random.chance(4) {
            self.emit(Call::Dump);
        }
    }
}

/// The two numbers of each rule by which the folder's label is given, in order. It is
/// what `new_object` says of each, but each label is looked at once.
fn transmuting_pairs(table: &Table) -> Vec<(usize, usize)> {
    const PLACES: usize = plain::LABEL_PLACES;
    // The modes of the first rule of each two numbers.
    let mut modes = [[0; PLACES]; PLACES];
    for rule in table.rules.iter().rev() {
        modes[rule.0][rule.1] = rule.2;
    }
    // The first number of each label that may be given and may give.
    let mut firsts: [Option<Option<usize>>; PLACES] = [None; PLACES];
    let mut first_of = |number: usize| {
        *firsts[number].get_or_insert_with(|| {
            let label = &table.labels[number];
            let may = plain::is_well_formed(label) && label != b"*";
            may.then(|| table.number_of(label)).flatten()
        })
    };
    let mut pairs = Vec::new();
    for rule in &table.rules {
        let (Some(creator), Some(folder)) = (first_of(rule.0), first_of(rule.1)) else {
            continue;
        };
        let write_and_transmute = plain::W | plain::T;
        if creator != folder && modes[creator][folder] & write_and_transmute == write_and_transmute
        {
            pairs.push((rule.0, rule.1));
        }
    }
    debug_assert!(table.rules.iter().all(|rule| {
        let (creator, folder) = (&table.labels[rule.0], &table.labels[rule.1]);
        let answer = table.new_object(creator, folder, true, false);
        let gives = matches!(answer, NewObject::FolderLabel { .. });
        gives == pairs.contains(&(rule.0, rule.1))
    }));
    pairs
}

/// The letters of these modes that a request may have.
fn requests_of(modes: u8) -> Vec<u8> {
    plain::LETTERS
        .iter()
        .filter(|(_, bit)| plain::REQUEST_LETTERS & modes & bit != 0)
        .map(|&(letter, _)| letter)
        .collect()
}

/// Both lengths, where there is room for them, say how many bytes there are.
fn set_lengths(option: &mut [u8]) {
    let total = option.len();
    if total > 7 {
        option[1] = total as u8;
        option[7] = (total - plain::BEFORE_TAG) as u8;
    }
}

/// Turns the bit of this number, in a bitmap that gets long enough for it.
fn turn_bit(option: &mut Vec<u8>, number: u64) {
    let at = plain::BEFORE_BITMAP + number as usize / 8;
    if option.len() <= at {
        option.resize(at + 1, 0);
        set_lengths(option);
    }
    option[at] ^= 0x80 >> (number % 8);
}
