//! Calls that are quick to make: between two calls of a random script (tests/second/src/random.rs), which bring the memory to interesting places, come several
//! of these. Their arguments are labels, pairs, levels and sets that are stored right now, or ones that the script used before, or either with a byte changed.

use second::plain::{self, Record, Table, Words, category_bit, option_bytes, own_bits, words_of};
use second::random::Xorshift;
use second::raw;
use second::script::{Call, Machine, Part, Poke};

use crate::header::{ENTRIES, LABELS, LINE, WORDS};

const REMEMBERED: usize = 64;

/// The arguments that were used last, of one sort.
struct Ring {
    texts: Vec<Vec<u8>>,
    next: usize,
}

impl Ring {
    fn new(first: &[&[u8]]) -> Ring {
        Ring { texts: first.iter().map(|text| text.to_vec()).collect(), next: 0 }
    }

    /// Long texts are slow to make again and again.
    fn learn(&mut self, text: &[u8]) {
        if text.len() > 1100 {
            return;
        }
        if self.texts.len() < REMEMBERED {
            self.texts.push(text.to_vec());
        } else {
            let old = &mut self.texts[self.next % REMEMBERED];
            old.clear();
            old.extend_from_slice(text);
            self.next += 1;
        }
    }
}

const OWN_LABELS: [&[u8]; 5] = [b"_", b"^", b"*", b"?", b"@"];
const REQUESTS: [&[u8]; 24] = [
    b"r", b"w", b"x", b"a", b"rw", b"rx", b"wa", b"rwx", b"rwxa", b"R", b"W", b"X", b"A", b"rW", b"RWXA", b"rr", b"axwr", b"", b"t", b"b", b"rt", b"-", b"l",
    b"r ",
];
const MODES: [&[u8]; 24] = [
    b"r", b"w", b"x", b"a", b"t", b"rw", b"rx", b"wt", b"rwx", b"rwxa", b"rwxat", b"RWXAT", b"-", b"r-", b"--", b"Rt", b"xxa", b"b", b"rB", b"wbt", b"l",
    b"rwxl", b"0", b"r/",
];
const BLANKS: [&[u8]; 8] = [b" ", b" ", b" ", b" ", b" ", b" ", b"  ", b"\t"];
const OUTPUT_LENGTHS: [usize; 10] = [0, 5, 9, 10, 12, 33, 34, 53, 54, 518];
const OPTION_LENGTHS: [usize; 8] = [0, 9, 10, 12, 33, 34, 40, 64];
const ODD_BYTES: [u8; 17] = [b'A', b'a', b'_', b'*', b'@', b'?', b'^', b'-', b'/', b' ', b'\t', b'\n', b'~', 127, 128, 0, 255];
const BIG: [u64; 6] = [64, 256, 257, 1 << 32, 1 << 63, u64::MAX];

/// What arguments are drawn from.
struct Pool {
    random: Xorshift,
    labels: Ring,
    requests: Ring,
    writes: Ring,
    mappings: Ring,
    pieces: Ring,
    records: Ring,
    options: Ring,
    sets: Vec<Words>,
    next_set: usize,
}

impl Pool {
    fn below(&mut self, limit: usize) -> usize {
        self.random.below(limit as u64) as usize
    }

    /// One of a ring.
    fn of(&mut self, which: fn(&Pool) -> &Ring, into: &mut Vec<u8>) {
        let count = which(self).texts.len();
        let at = self.below(count);
        into.extend_from_slice(&which(self).texts[at]);
    }

    /// A byte becomes another, goes, or comes.
    fn mutate(&mut self, text: &mut Vec<u8>, from: usize) {
        let length = text.len() - from;
        let at = from + self.below(length + 1);
        let byte = match self.below(4) {
            0 => self.below(256) as u8,
            _ => ODD_BYTES[self.below(ODD_BYTES.len())],
        };
        match self.below(8) {
            0 if at < text.len() => {
                text.remove(at);
            }
            1 => text.insert(at, byte),
            2 => text.truncate(at),
            3 if at < text.len() => text[at] ^= 32,
            4 if at < text.len() => text[at] ^= 1 << self.below(8),
            _ if at < text.len() => text[at] = byte,
            _ => text.push(byte),
        }
    }

    /// A label is put behind what is there.
    fn label(&mut self, table: Option<&Table>, into: &mut Vec<u8>) {
        let from = into.len();
        match (self.below(16), table) {
            (0..=9, Some(table)) if !table.labels.is_empty() => {
                let at = self.below(table.labels.len());
                into.extend_from_slice(&table.labels[at]);
            }
            (10, _) => into.extend_from_slice(OWN_LABELS[self.below(5)]),
            (11, _) if self.below(8) == 0 => {
                let (length, byte) = (if self.below(4) == 0 { 255 } else { self.below(258) }, b'A' + self.below(26) as u8);
                into.resize(from + length, byte);
            }
            _ => self.of(|pool| &pool.labels, into),
        }
        match self.below(4096) {
            // Its length is the same as before in 16 bits, or in eight.
            0 => into.resize(into.len() + 65536, b'L'),
            1..=7 => into.resize(into.len() + 256, b'L'),
            8..=255 => self.mutate(into, from),
            _ => {}
        }
    }

    /// Over 255 fields, of which eight bits tell few.
    fn many_fields(&mut self, into: &mut Vec<u8>) {
        for _ in 0..256 + self.below(12) {
            let names = b"AAAAAAAAAAAr1BCDEFGHIJ";
            into.extend_from_slice(&[names[self.below(names.len())], b' ']);
        }
    }

    /// Two labels, often those of a stored rule.
    fn pair(&mut self, table: Option<&Table>, subject: &mut Vec<u8>, object: &mut Vec<u8>) {
        subject.clear();
        object.clear();
        match table {
            Some(table) if !table.rules.is_empty() && self.below(2) == 0 => {
                let (s, o, _) = table.rules[self.below(table.rules.len())];
                subject.extend_from_slice(&table.labels[s]);
                object.extend_from_slice(&table.labels[o]);
                match self.below(16) {
                    0 => std::mem::swap(subject, object),
                    1 => self.mutate(subject, 0),
                    2 => self.mutate(object, 0),
                    _ => {}
                }
            }
            _ => {
                self.label(table, subject);
                self.label(table, object);
            }
        }
    }

    fn blank(&mut self, into: &mut Vec<u8>) {
        into.extend_from_slice(BLANKS[self.below(8)]);
    }

    fn modes(&mut self, into: &mut Vec<u8>) {
        into.extend_from_slice(MODES[self.below(24)]);
    }

    /// The fields of a rule line, or of a change.
    fn fields(&mut self, table: Option<&Table>, change: bool, into: &mut Vec<u8>) {
        if self.below(256) == 0 {
            return self.many_fields(into);
        }
        self.label(table, into);
        self.blank(into);
        self.label(table, into);
        self.blank(into);
        self.modes(into);
        if change {
            self.blank(into);
            self.modes(into);
        }
    }

    fn number(&mut self, into: &mut Vec<u8>, limit: usize) {
        let number = self.below(limit);
        into.extend_from_slice(number.to_string().as_bytes());
    }

    fn set(&mut self, table: Option<&Table>) -> Words {
        let mut set = match table {
            Some(table) if !table.mappings.is_empty() && self.below(4) != 0 => words_of(&table.mappings[self.below(table.mappings.len())].set),
            _ => {
                let at = self.below(self.sets.len());
                self.sets[at]
            }
        };
        if self.below(8) == 0 {
            let (word, bit) = category_bit(1 + self.random.below(192));
            set[word] ^= bit;
        }
        set
    }

    fn level(&mut self, table: Option<&Table>) -> u64 {
        match table {
            Some(table) if !table.mappings.is_empty() && self.below(4) != 0 => u64::from(table.mappings[self.below(table.mappings.len())].level),
            _ if self.below(16) == 0 => BIG[self.below(6)],
            _ => self.random.below(260),
        }
    }

    fn number_of(&mut self, count: usize) -> u64 {
        match self.below(32) {
            0 => BIG[self.below(6)],
            1 => self.random.below(count as u64 + 2) | 1 << self.below(64),
            _ => self.random.below(count as u64 + 2),
        }
    }

    fn output(&mut self, lengths: &[usize], into: &mut Vec<u8>) {
        let length = match self.below(2048) {
            0 => 65536 + self.below(54),
            1..=8 => 519 + self.below(1000),
            9..=255 => self.below(80),
            _ => lengths[self.below(lengths.len())],
        };
        let byte = self.below(256) as u8;
        into.clear();
        into.resize(length, byte);
    }

    fn record(&mut self, table: Option<&Table>, into: &mut Vec<u8>) {
        into.clear();
        if self.below(2) == 0 {
            self.of(|pool| &pool.records, into);
        } else {
            for end in [plain::FIXED_PLACE, 2 * plain::FIXED_PLACE] {
                self.label(table, into);
                into.resize(end, b' ');
            }
            for letter in b"rwxat" {
                let byte = match self.below(4) {
                    0 => b'-',
                    1 => letter.to_ascii_uppercase(),
                    _ => *letter,
                };
                into.push(byte);
            }
        }
        if self.below(256) == 0 {
            into.resize(into.len() + 256, b' ');
        }
        if self.below(4) == 0 {
            self.mutate(into, 0);
        }
    }

    fn option(&mut self, table: Option<&Table>, into: &mut Vec<u8>) {
        into.clear();
        match (self.below(4), table) {
            (0 | 1, _) => self.of(|pool| &pool.options, into),
            (2, Some(table)) if !table.mappings.is_empty() => {
                let mapping = &table.mappings[self.below(table.mappings.len())];
                into.extend_from_slice(&option_bytes(mapping.level, &mapping.set));
            }
            _ => {
                let mut label = Vec::new();
                self.label(table, &mut label);
                label.truncate(plain::OWN_BITS_LIMIT);
                into.extend_from_slice(&option_bytes(plain::LABEL_LEVEL, &own_bits(&label)));
            }
        }
        if self.below(256) == 0 {
            // As many bytes as the option says, in eight bits.
            into.resize(into.len() + 256, 0);
        }
        if self.below(4) == 0 {
            self.mutate(into, 0);
        }
    }
}

/// The quick calls of one script.
pub struct Quick {
    pool: Pool,
    /// One call of each sort, made anew each time in the same memory.
    question: Call,
    new_object: Call,
    by_label: Call,
    by_level: Call,
    list: Call,
    label: Call,
    write_option: Call,
    read_option: Call,
    run: Call,
    record_to_line: Call,
    line_to_record: Call,
    change: Call,
    revoke: Call,
    override_list: Call,
    mapping: Call,
    piece: Call,
}

/// The memory that a slot holds for its call. Each slot keeps the sort of call that it was made with.
macro_rules! slot {
    ($slot:expr, $pattern:pat) => {
        let $pattern = &mut $slot else { unreachable!() };
    };
}

impl Quick {
    pub fn new(seed: u64) -> Quick {
        let none = Vec::new;
        let mut labels = Ring::new(&OWN_LABELS);
        for length in [1, 23, 24, 254, 255, 256] {
            labels.learn(&vec![b'L'; length]);
        }
        labels.learn(b"");
        labels.learn(b"-a");
        Quick {
            pool: Pool {
                random: Xorshift::new(seed),
                labels,
                requests: Ring::new(&REQUESTS),
                writes: Ring::new(&[b"-"]),
                mappings: Ring::new(&[b"A 1 1"]),
                pieces: Ring::new(&[b"\n", b" ", b"A B r\n"]),
                records: Ring::new(&[b""]),
                options: Ring::new(&[b""]),
                sets: vec![[0; 3]],
                next_set: 0,
            },
            question: Call::Question { subject: none(), object: none(), request: none(), capable: false },
            new_object: Call::NewObject { creator: none(), folder: none(), folder_transmutes: false, is_folder: false },
            by_label: Call::ByLabel(none()),
            by_level: Call::ByLevel { level: 0, set: [0; 3] },
            list: Call::List { k: 0, output: none() },
            label: Call::Label { k: 0 },
            write_option: Call::WriteOption { label: none(), output: none() },
            read_option: Call::ReadOption { option: none() },
            run: Call::Run { level: 0, set: [0; 3], records: Vec::new() },
            record_to_line: Call::RecordToLine { record: none(), output: none() },
            line_to_record: Call::LineToRecord { line: none(), output: none() },
            change: Call::Change(none()),
            revoke: Call::Revoke(none()),
            override_list: Call::Override(none()),
            mapping: Call::Mapping(none()),
            piece: Call::Piece(none()),
        }
    }

    /// Remembers the arguments of a script's call.
    pub fn learn(&mut self, call: &Call) {
        let pool = &mut self.pool;
        let mut set = None;
        match call {
            Call::Question { subject, object, request, .. } => {
                pool.labels.learn(subject);
                pool.labels.learn(object);
                pool.requests.learn(request);
            }
            Call::NewObject { creator, folder, .. } => {
                pool.labels.learn(creator);
                pool.labels.learn(folder);
            }
            Call::Revoke(label) | Call::ByLabel(label) | Call::WriteOption { label, .. } => pool.labels.learn(label),
            Call::Change(text) | Call::Override(text) | Call::LineToRecord { line: text, .. } => pool.writes.learn(text),
            Call::Mapping(text) => pool.mappings.learn(text),
            Call::Piece(text) => pool.pieces.learn(text),
            Call::RecordToLine { record, .. } => pool.records.learn(record),
            Call::ReadOption { option } => pool.options.learn(option),
            Call::ByLevel { set: sought, .. } | Call::Run { set: sought, .. } => set = Some(*sought),
            _ => {}
        }
        if let Some(set) = set {
            if pool.sets.len() < REMEMBERED {
                pool.sets.push(set);
            } else {
                pool.sets[pool.next_set % REMEMBERED] = set;
                pool.next_set += 1;
            }
        }
    }

    /// A number below the limit, of the quick calls' own chance.
    pub fn below(&mut self, limit: u64) -> u64 {
        self.pool.random.below(limit)
    }

    /// The next quick call.
    pub fn next(&mut self, machine: &Machine) -> &Call {
        let table = machine.table();
        let pool = &mut self.pool;
        let state = machine.state();
        let cut = (state.label_store.len(), state.entries.len(), state.words.len()) != (LABELS, ENTRIES, WORDS);
        if cut && pool.below(16) == 0 {
            // It is refused, and the state stays.
            return &Call::Freshen;
        }
        match pool.below(128) {
            0..=43 => {
                slot!(self.question, Call::Question { subject, object, request, capable });
                if pool.below(8) == 0 {
                    // The same once more: there may be a write between, of the same pair.
                    return &self.question;
                }
                pool.pair(table, subject, object);
                request.clear();
                pool.of(|pool| &pool.requests, request);
                if pool.below(32) == 0 {
                    pool.mutate(request, 0);
                }
                if !request.is_empty() && pool.below(4096) == 0 {
                    let length = [5, 256, 257, 65536, 65537][pool.below(5)];
                    let last = request[request.len() - 1];
                    request.resize(length, last);
                }
                *capable = pool.below(4) == 0;
                &self.question
            }
            44..=57 => {
                slot!(self.new_object, Call::NewObject { creator, folder, folder_transmutes, is_folder });
                if pool.below(8) == 0 {
                    return &self.new_object;
                }
                pool.pair(table, creator, folder);
                *folder_transmutes = pool.below(4) != 0;
                *is_folder = pool.below(2) == 0;
                &self.new_object
            }
            58..=65 => {
                slot!(self.by_label, Call::ByLabel(label));
                if pool.below(8) == 0 {
                    return &self.by_label;
                }
                label.clear();
                pool.label(table, label);
                &self.by_label
            }
            66..=73 => {
                slot!(self.by_level, Call::ByLevel { level, set });
                *level = pool.level(table);
                *set = pool.set(table);
                &self.by_level
            }
            74..=81 => {
                slot!(self.list, Call::List { k, output });
                *k = pool.number_of(table.map_or(0, |table| table.rules.len()));
                pool.output(&OUTPUT_LENGTHS, output);
                &self.list
            }
            82..=85 => {
                slot!(self.label, Call::Label { k });
                *k = pool.number_of(table.map_or(0, |table| table.labels.len()));
                &self.label
            }
            86..=91 => {
                slot!(self.write_option, Call::WriteOption { label, output });
                label.clear();
                pool.label(table, label);
                pool.output(&OPTION_LENGTHS, output);
                &self.write_option
            }
            92..=95 => {
                slot!(self.read_option, Call::ReadOption { option });
                pool.option(table, option);
                &self.read_option
            }
            96..=98 => {
                slot!(self.run, Call::Run { level, set, records });
                *level = pool.level(table);
                *set = pool.set(table);
                records.clear();
                let count = match pool.below(1024) {
                    0 => 256 + pool.below(64),
                    1 => 4096 + pool.below(8),
                    2..=63 => pool.below(40),
                    _ => pool.below(6),
                };
                for _ in 0..count {
                    let level = match pool.below(8) {
                        0 => pool.level(table),
                        1 => *level ^ 1 << pool.below(64),
                        _ => *level,
                    };
                    let set = if pool.below(4) == 0 { pool.set(table) } else { *set };
                    records.push(Record { label: pool.number_of(64), level, set });
                }
                &self.run
            }
            99..=101 => {
                slot!(self.record_to_line, Call::RecordToLine { record, output });
                pool.record(table, record);
                pool.output(&OUTPUT_LENGTHS, output);
                &self.record_to_line
            }
            102..=104 => {
                slot!(self.line_to_record, Call::LineToRecord { line, output });
                line.clear();
                pool.fields(table, false, line);
                if pool.below(2) == 0 {
                    line.push(b'\n');
                }
                pool.output(&OUTPUT_LENGTHS, output);
                &self.line_to_record
            }
            105..=112 => {
                slot!(self.change, Call::Change(text));
                text.clear();
                match pool.below(8) {
                    0 => pool.of(|pool| &pool.writes, text),
                    sort @ (1 | 2) => {
                        // The pair of the last question, or of the last new object.
                        let (one, other) = match (sort, &self.question, &self.new_object) {
                            (1, Call::Question { subject, object, .. }, _) => (subject, object),
                            (_, _, Call::NewObject { creator, folder, .. }) => (creator, folder),
                            _ => unreachable!(),
                        };
                        text.extend_from_slice(one);
                        pool.blank(text);
                        text.extend_from_slice(other);
                        for _ in 0..2 {
                            pool.blank(text);
                            pool.modes(text);
                        }
                    }
                    _ => pool.fields(table, true, text),
                }
                &self.change
            }
            113 => {
                slot!(self.revoke, Call::Revoke(label));
                label.clear();
                pool.label(table, label);
                &self.revoke
            }
            114 => {
                slot!(self.override_list, Call::Override(text));
                text.clear();
                match pool.below(4) {
                    0 if pool.below(16) == 0 => pool.many_fields(text),
                    0 => text.push(b'-'),
                    1 => pool.of(|pool| &pool.writes, text),
                    count => {
                        for _ in 0..count {
                            pool.label(table, text);
                            pool.blank(text);
                        }
                    }
                }
                &self.override_list
            }
            115..=118 => {
                slot!(self.mapping, Call::Mapping(text));
                text.clear();
                match pool.below(4) {
                    0 => pool.of(|pool| &pool.mappings, text),
                    sort => {
                        match &self.by_label {
                            Call::ByLabel(label) if sort == 1 => text.extend_from_slice(label),
                            _ => pool.label(table, text),
                        }
                        pool.blank(text);
                        pool.number(text, 258);
                        for _ in 0..pool.below(5) {
                            pool.blank(text);
                            pool.number(text, 187);
                        }
                    }
                }
                &self.mapping
            }
            119..=125 => {
                slot!(self.piece, Call::Piece(text));
                text.clear();
                match pool.below(8) {
                    0 if pool.below(4) == 0 => text.extend_from_slice([b"".as_slice(), b"\n", b" \n", b"b\n", b"B\n", b"\n\n"][pool.below(6)]),
                    0 if pool.below(256) == 0 => {
                        // Many lines, and many bytes.
                        pool.fields(table, false, text);
                        text.push(b'\n');
                        let times = [256, 257, 65536 / text.len() + 1][pool.below(3)];
                        *text = text.repeat(times);
                        text.truncate(1 << 19);
                    }
                    0 => pool.of(|pool| &pool.pieces, text),
                    cut => {
                        pool.fields(table, false, text);
                        text.push(b'\n');
                        // Cut anywhere: what is left out is the front of the line, or its end.
                        let at = pool.below(text.len());
                        match cut {
                            1 => text.truncate(at),
                            2 => {
                                text.drain(..at);
                            }
                            _ => {}
                        }
                    }
                }
                &self.piece
            }
            _ => &Call::End,
        }
    }

    /// A byte of the tables, or a count, that becomes another; and the poke that puts it back.
    pub fn damage(&mut self, machine: &Machine) -> Option<(Call, Call)> {
        let pool = &mut self.pool;
        let state = machine.state();
        let counted = |index: usize, limit: usize| state.words.get(index).map_or(0, |&count| (count as usize).min(limit));
        let entry = |at: usize, pool: &mut Pool| {
            let old = *state.entries.get(at)?;
            let byte = match pool.below(3) {
                0 => old ^ (1 << pool.below(8)),
                1 => counted(raw::LABEL_COUNT, 255) as u8,
                _ => pool.below(256) as u8,
            };
            let poke = |byte| Call::Poke(Poke::Entries { at, bytes: vec![byte] });
            Some((poke(byte), poke(old)))
        };
        let word = |index: usize, value: u64| {
            let old = *state.words.get(index)?;
            let poke = |value| Call::Poke(Poke::Words { index, value });
            Some((poke(value), poke(old)))
        };
        if pool.below(16) == 0 {
            let (part, full, now) = [
                (Part::Labels, LABELS, state.label_store.len()),
                (Part::Entries, ENTRIES, state.entries.len()),
                (Part::Words, WORDS, state.words.len()),
                (Part::Line, LINE, machine.loader().line.len()),
            ][pool.below(4)];
            let resize = |size| Call::Resize { part, size };
            return (now == full).then(|| (resize(if pool.below(2) == 0 { full - 1 } else { full + 1 }), resize(full)));
        }
        match pool.below(8) {
            0 => {
                let index = pool.below(4);
                let limit = [64, 256, 32, 8][index];
                let value = match pool.below(3) {
                    0 => limit + 1,
                    1 => BIG[pool.below(6)],
                    _ => pool.random.below(limit + 1),
                };
                word(index, value)
            }
            1 | 2 => {
                let row = [raw::SUBJECTS, raw::OBJECTS, raw::MODES][pool.below(3)];
                entry(row + pool.below(counted(raw::RULE_COUNT, 256).max(1)), pool)
            }
            3 => {
                let row = [raw::MAPPING_LABELS, raw::LEVELS][pool.below(2)];
                entry(row + pool.below(counted(raw::MAPPING_COUNT, 32).max(1)), pool)
            }
            4 => entry(raw::OVERRIDES + pool.below(counted(raw::OVERRIDE_COUNT, 8).max(1)), pool),
            5 => {
                let at = raw::SETS[pool.below(3)] + pool.below(counted(raw::MAPPING_COUNT, 32).max(1));
                let old = *state.words.get(at)?;
                word(at, old ^ (1 << pool.below(64)))
            }
            6 => {
                // The length of a label, or a byte of it.
                let place = raw::PLACE * pool.below(counted(raw::LABEL_COUNT, 64).max(1));
                let at = place + if pool.below(2) == 0 { 0 } else { pool.below(24) };
                let old = *state.label_store.get(at)?;
                let byte = match pool.below(2) {
                    0 => old.wrapping_add(1),
                    _ => pool.below(256) as u8,
                };
                let poke = |byte| Call::Poke(Poke::Labels { at, bytes: vec![byte] });
                Some((poke(byte), poke(old)))
            }
            7 if pool.below(2) == 0 => {
                // What counts the lines, near a limit of 32, 31, 16 and 8 bits.
                let index = [raw::LINES, raw::ACCEPTED, raw::SKIPPED, raw::BRINGUP][pool.below(4)];
                let old = machine.loader().numbers[index];
                let value = [u32::MAX, u32::MAX - 1, i32::MAX as u32, 0xffff, 255][pool.below(5)];
                let poke = |value| Call::Poke(Poke::Loader { index, value });
                Some((poke(u64::from(value)), poke(old)))
            }
            _ => {
                let old = machine.loader().numbers[raw::KEPT];
                let value = [0, 1, 600, 601, 602, u64::MAX][pool.below(6)];
                let poke = |value| Call::Poke(Poke::Loader { index: raw::KEPT, value });
                Some((poke(value), poke(old)))
            }
        }
    }
}
