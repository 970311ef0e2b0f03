//! One call of a script, and its text.
//!
//! `Call::read` takes a line of a script, `Call::write` gives one; FORMAT.md tells
//! the forms. What is written is read as the same call again.

use crate::plain::{Record, Words};

/// One case for each kind of line. Bytes are as they are lent; an output is what
/// stands in the lent buffer before the call.
#[derive(Clone, PartialEq, Eq, Debug)]
pub enum Call {
    /// New memory, zero everywhere, with a fresh table in it.
    Fresh,
    /// A fresh table in the memory as it is.
    Freshen,
    /// New memory, zero everywhere, for the loader.
    FreshLoader,
    Piece(Vec<u8>),
    End,
    Change(Vec<u8>),
    Revoke(Vec<u8>),
    Override(Vec<u8>),
    Mapping(Vec<u8>),
    ByLabel(Vec<u8>),
    ByLevel {
        level: u64,
        set: Words,
    },
    Run {
        level: u64,
        set: Words,
        records: Vec<Record>,
    },
    Question {
        subject: Vec<u8>,
        object: Vec<u8>,
        request: Vec<u8>,
        capable: bool,
    },
    List {
        k: u64,
        output: Vec<u8>,
    },
    Label {
        k: u64,
    },
    RecordToLine {
        record: Vec<u8>,
        output: Vec<u8>,
    },
    LineToRecord {
        line: Vec<u8>,
        output: Vec<u8>,
    },
    WriteOption {
        label: Vec<u8>,
        output: Vec<u8>,
    },
    ReadOption {
        option: Vec<u8>,
    },
    NewObject {
        creator: Vec<u8>,
        folder: Vec<u8>,
        folder_transmutes: bool,
        is_folder: bool,
    },
    Poke(Poke),
    Resize {
        part: Part,
        size: usize,
    },
    Dump,
}

/// What is written into lent memory without a call of the papers.
#[derive(Clone, PartialEq, Eq, Debug)]
pub enum Poke {
    /// Bytes of the label store.
    Labels { at: usize, bytes: Vec<u8> },
    /// Bytes of the entries.
    Entries { at: usize, bytes: Vec<u8> },
    /// Bytes of the kept line.
    Line { at: usize, bytes: Vec<u8> },
    /// One word.
    Words { index: usize, value: u64 },
    /// One of the loader's nine numbers.
    Loader { index: usize, value: u64 },
}

/// A part of lent memory that can get another size.
#[derive(Clone, Copy, PartialEq, Eq, Debug)]
pub enum Part {
    Labels,
    Entries,
    Words,
    Line,
}

// ---------------------------------------------------------------------------
// Reading
// ---------------------------------------------------------------------------

impl Call {
    /// The call on this line. None where there is none: on a line that is passed over
    /// too.
    pub fn read(line: &str) -> Option<Call> {
        let words: Vec<&str> = line.split_ascii_whitespace().collect();
        Some(match words[..] {
            ["fresh"] => Call::Fresh,
            ["freshen"] => Call::Freshen,
            ["freshloader"] => Call::FreshLoader,
            ["piece", bytes] => Call::Piece(read_hex(bytes)?),
            ["end"] => Call::End,
            ["change", bytes] => Call::Change(read_hex(bytes)?),
            ["revoke", bytes] => Call::Revoke(read_hex(bytes)?),
            ["override", bytes] => Call::Override(read_hex(bytes)?),
            ["mapping", bytes] => Call::Mapping(read_hex(bytes)?),
            ["bylabel", label] => Call::ByLabel(read_hex(label)?),
            ["bylevel", level, set] => Call::ByLevel {
                level: read_u64(level)?,
                set: read_set(set)?,
            },
            ["run", level, set, ref records @ ..] => Call::Run {
                level: read_u64(level)?,
                set: read_set(set)?,
                records: records
                    .iter()
                    .map(|record| read_record(record))
                    .collect::<Option<_>>()?,
            },
            ["question", subject, object, request, capable] => Call::Question {
                subject: read_hex(subject)?,
                object: read_hex(object)?,
                request: read_hex(request)?,
                capable: read_flag(capable)?,
            },
            ["list", k, output] => Call::List {
                k: read_u64(k)?,
                output: read_hex(output)?,
            },
            ["label", k] => Call::Label { k: read_u64(k)? },
            ["recordtoline", record, output] => Call::RecordToLine {
                record: read_hex(record)?,
                output: read_hex(output)?,
            },
            ["linetorecord", line, output] => Call::LineToRecord {
                line: read_hex(line)?,
                output: read_hex(output)?,
            },
            ["writeoption", label, output] => Call::WriteOption {
                label: read_hex(label)?,
                output: read_hex(output)?,
            },
            ["readoption", option] => Call::ReadOption {
                option: read_hex(option)?,
            },
            ["newobject", creator, folder, transmutes, is_folder] => Call::NewObject {
                creator: read_hex(creator)?,
                folder: read_hex(folder)?,
                folder_transmutes: read_flag(transmutes)?,
                is_folder: read_flag(is_folder)?,
            },
            ["poke", part, at, value] => Call::Poke(read_poke(part, read_usize(at)?, value)?),
            ["resize", part, size] => Call::Resize {
                part: read_part(part)?,
                size: read_usize(size)?,
            },
            ["dump"] => Call::Dump,
            _ => return None,
        })
    }
}

fn read_poke(part: &str, at: usize, value: &str) -> Option<Poke> {
    Some(match part {
        "labels" => Poke::Labels {
            at,
            bytes: read_hex(value)?,
        },
        "entries" => Poke::Entries {
            at,
            bytes: read_hex(value)?,
        },
        "line" => Poke::Line {
            at,
            bytes: read_hex(value)?,
        },
        "words" => Poke::Words {
            index: at,
            value: read_u64(value)?,
        },
        "loader" => Poke::Loader {
            index: at,
            value: read_u64(value)?,
        },
        _ => return None,
    })
}

fn read_part(word: &str) -> Option<Part> {
    match word {
        "labels" => Some(Part::Labels),
        "entries" => Some(Part::Entries),
        "words" => Some(Part::Words),
        "line" => Some(Part::Line),
        _ => None,
    }
}

/// `1` for yes, `0` for no.
fn read_flag(word: &str) -> Option<bool> {
    match word {
        "0" => Some(false),
        "1" => Some(true),
        _ => None,
    }
}

/// A decimal number: digits alone.
fn read_u64(word: &str) -> Option<u64> {
    if !word.bytes().all(|byte| byte.is_ascii_digit()) {
        return None;
    }
    word.parse().ok()
}

fn read_usize(word: &str) -> Option<usize> {
    usize::try_from(read_u64(word)?).ok()
}

/// `A:B:C`: the three words of a set.
fn read_set(word: &str) -> Option<Words> {
    let numbers: Vec<&str> = word.split(':').collect();
    if numbers.len() != 3 {
        return None;
    }
    Some([
        read_u64(numbers[0])?,
        read_u64(numbers[1])?,
        read_u64(numbers[2])?,
    ])
}

/// `n,l,A:B:C`: a label number, a level and a set.
fn read_record(word: &str) -> Option<Record> {
    let numbers: Vec<&str> = word.split(',').collect();
    if numbers.len() != 3 {
        return None;
    }
    Some(Record {
        label: read_u64(numbers[0])?,
        level: read_u64(numbers[1])?,
        set: read_set(numbers[2])?,
    })
}

/// Bytes in hex; `-` for none; or `=` and one or more bytes from 33 to 126 as
/// they are.
pub fn read_hex(word: &str) -> Option<Vec<u8>> {
    if word == "-" {
        return Some(Vec::new());
    }
    if let Some(plain) = word.strip_prefix('=') {
        let is_plain = !plain.is_empty() && plain.bytes().all(|byte| (33..=126).contains(&byte));
        return is_plain.then(|| plain.as_bytes().to_vec());
    }
    let digits = word.as_bytes();
    if !digits.len().is_multiple_of(2) {
        return None;
    }
    let mut bytes = Vec::with_capacity(digits.len() / 2);
    for pair in digits.chunks(2) {
        bytes.push(hex_digit(pair[0])? * 16 + hex_digit(pair[1])?);
    }
    Some(bytes)
}

fn hex_digit(digit: u8) -> Option<u8> {
    match digit {
        b'0'..=b'9' => Some(digit - b'0'),
        b'a'..=b'f' => Some(digit - b'a' + 10),
        b'A'..=b'F' => Some(digit - b'A' + 10),
        _ => None,
    }
}

// ---------------------------------------------------------------------------
// Writing
// ---------------------------------------------------------------------------

impl Call {
    /// The line of this call, bytes in hex, without a newline.
    pub fn write(&self) -> String {
        match self {
            Call::Fresh => "fresh".to_string(),
            Call::Freshen => "freshen".to_string(),
            Call::FreshLoader => "freshloader".to_string(),
            Call::Piece(bytes) => format!("piece {}", write_hex(bytes)),
            Call::End => "end".to_string(),
            Call::Change(write) => format!("change {}", write_hex(write)),
            Call::Revoke(write) => format!("revoke {}", write_hex(write)),
            Call::Override(write) => format!("override {}", write_hex(write)),
            Call::Mapping(write) => format!("mapping {}", write_hex(write)),
            Call::ByLabel(label) => format!("bylabel {}", write_hex(label)),
            Call::ByLevel { level, set } => format!("bylevel {level} {}", write_set(set)),
            Call::Run {
                level,
                set,
                records,
            } => {
                let mut text = format!("run {level} {}", write_set(set));
                for Record { label, level, set } in records {
                    text.push_str(&format!(" {label},{level},{}", write_set(set)));
                }
                text
            }
            Call::Question {
                subject,
                object,
                request,
                capable,
            } => format!(
                "question {} {} {} {}",
                write_hex(subject),
                write_hex(object),
                write_hex(request),
                u8::from(*capable)
            ),
            Call::List { k, output } => format!("list {k} {}", write_hex(output)),
            Call::Label { k } => format!("label {k}"),
            Call::RecordToLine { record, output } => {
                format!("recordtoline {} {}", write_hex(record), write_hex(output))
            }
            Call::LineToRecord { line, output } => {
                format!("linetorecord {} {}", write_hex(line), write_hex(output))
            }
            Call::WriteOption { label, output } => {
                format!("writeoption {} {}", write_hex(label), write_hex(output))
            }
            Call::ReadOption { option } => format!("readoption {}", write_hex(option)),
            Call::NewObject {
                creator,
                folder,
                folder_transmutes,
                is_folder,
            } => format!(
                "newobject {} {} {} {}",
                write_hex(creator),
                write_hex(folder),
                u8::from(*folder_transmutes),
                u8::from(*is_folder)
            ),
            Call::Poke(poke) => match poke {
                Poke::Labels { at, bytes } => format!("poke labels {at} {}", write_hex(bytes)),
                Poke::Entries { at, bytes } => format!("poke entries {at} {}", write_hex(bytes)),
                Poke::Line { at, bytes } => format!("poke line {at} {}", write_hex(bytes)),
                Poke::Words { index, value } => format!("poke words {index} {value}"),
                Poke::Loader { index, value } => format!("poke loader {index} {value}"),
            },
            Call::Resize { part, size } => {
                let part = match part {
                    Part::Labels => "labels",
                    Part::Entries => "entries",
                    Part::Words => "words",
                    Part::Line => "line",
                };
                format!("resize {part} {size}")
            }
            Call::Dump => "dump".to_string(),
        }
    }
}

/// The three words of a set, with `:` between.
pub fn write_set(set: &Words) -> String {
    format!("{}:{}:{}", set[0], set[1], set[2])
}

/// Bytes in hex; `-` for none.
pub fn write_hex(bytes: &[u8]) -> String {
    if bytes.is_empty() {
        return "-".to_string();
    }
    let mut text = String::with_capacity(bytes.len() * 2);
    for byte in bytes {
        text.push(char::from(b"0123456789abcdef"[usize::from(byte / 16)]));
        text.push(char::from(b"0123456789abcdef"[usize::from(byte % 16)]));
    }
    text
}
