//! A host of the library in Rust: it loads an old rule file in pieces, asks, changes, revokes, maps and lists, says where a bad label goes wrong and how
//! many lines still have the retired letter b, turns a file of old records into rules and back, labels packets that another side reads, and labels the files
//! that the recorder and the alarm make in one folder.
//!
//! From the root of the repository, with target/staticlib/libbalqirven.a built:
//!
//!   cargo run --release --offline --manifest-path bindings/rust/Cargo.toml --example host -- examples/store_north.rules examples/old_logger.records
//!
//! examples/host.c is the same in C and examples/host.py in Python; all three write examples/host.expected. The crate is bindings/rust: its types keep what
//! include/balqirven.h asks of a host.

use balqirven::{Decision, Loader, NewObject, Record, Refusal, Refused, Set, Table, line_to_record, lowest_in_run, record_to_line};
use balqirven::{FIXED_PLACE, FIXED_RECORD, HIGHEST_CATEGORY, LONGEST_FIXED_LINE, LONGEST_OPTION, OWN_LEVEL};
use std::error::Error;
use std::ffi::OsString;
use std::io::Write;
use std::path::Path;
use std::process::ExitCode;

/// What ends the program: a file that cannot be read, or a refusal of what cannot be refused here. Every other refusal is printed, and the program goes on.
type Failed = Box<dyn Error>;

/// As `print!`, which panics where standard output cannot be written, a closed pipe for instance: this ends the program with a message and status 1.
macro_rules! say {
    ($($text:tt)*) => {
        if let Err(error) = write!(std::io::stdout().lock(), $($text)*) {
            eprintln!("host: standard output: {error}");
            std::process::exit(1);
        }
    };
}

/// Where the first bad label goes wrong: at a byte that no label may have, at a dash that begins it, at the first byte too many, or, of an empty
/// label, where its first byte would be. The library counts bytes from 0; a reader counts them from 1, as lines are counted.
fn goes_wrong(place: usize, of: &str) -> String {
    format!("a label goes wrong at byte {} of {of}, counted from 1: by that byte, by a dash in front or by its length", place + 1)
}

/// A refusal by its number, and with what a reader of this number wants to know. `of` is what a place is counted in.
fn refused(Refused { refusal, place }: Refused, of: &str) -> String {
    match (refusal, place) {
        (_, Some(place)) => format!("refused {}: {}", refusal.number(), goes_wrong(place, of)),
        (Refusal::BadLevelOrCategory, None) => {
            let level = format!("a level is not 0 to 255 or is {OWN_LEVEL} in a write");
            format!("refused {}: {level}, a category not 1 to {HIGHEST_CATEGORY}, or a bit of the set is no category", refusal.number())
        }
        (_, None) => format!("refused {}", refusal.number()),
    }
}

/// The same with the crate's own sentence.
fn in_words(refusal: Refusal) -> String {
    format!("refused with {}: {refusal}", refusal.number())
}

fn text(bytes: &[u8]) -> std::borrow::Cow<'_, str> {
    String::from_utf8_lossy(bytes)
}

fn fresh(whose: &str) -> Table {
    say!("fresh table{whose}: done\n");
    Table::fresh()
}

/// The three writes that answer nothing but that they are done.
fn done(write: &str, answer: Result<(), Refused>) {
    match answer {
        Ok(()) => say!("{write}: done\n"),
        Err(error) => say!("{write}: {}\n", refused(error, "the write")),
    }
}

fn change(table: &mut Table, text: &str) {
    done(&format!("change '{text}'"), table.change(text));
}

fn override_list(table: &mut Table, text: &str) {
    done(&format!("override list '{text}'"), table.override_list(text));
}

fn mapping(table: &mut Table, text: &str) {
    done(&format!("mapping '{text}'"), table.mapping(text));
}

fn revoke(table: &mut Table, subject: &str) {
    match table.revoke(subject) {
        Ok(count) => say!("revoke '{subject}': {count} rules\n"),
        Err(error) => say!("revoke '{subject}': {}\n", refused(error, "that label")),
    }
}

fn ask(table: &Table, subject: &str, object: &str, request: &str, capable: bool) {
    let answer = match table.question(subject, object, request, capable) {
        Ok(Decision::Granted { rule }) => format!("granted {rule}"),
        Ok(Decision::Denied { rule }) => format!("denied {rule}"),
        Ok(Decision::Override { rule }) => format!("override {rule}"),
        Err(error) => refused(error, "the subject or, where that is well formed, of the object"),
    };
    say!("may {subject} have {request} to {object}{}: {answer}\n", if capable { " (override capability)" } else { "" });
}

/// Ends the text and prints its report.
fn end(loader: &mut Loader, table: &mut Table) -> Result<(), Failed> {
    let report = loader.end(table)?;
    say!("load: {} lines, {} accepted, {} skipped, {} refused\n", report.lines, report.accepted, report.skipped, report.refused);
    if let Some(first) = report.first {
        let Refused { refusal, place } = first.reason;
        let why = place.map_or(refusal.to_string(), |place| goes_wrong(place, "the line"));
        say!("line {} is the first refused, with {}: {why}\n", first.line, refusal.number());
    }
    if report.bringup > 0 {
        say!("{} accepted lines held the retired letter b, which was dropped\n", report.bringup);
    }
    Ok(())
}

/// Loads rule text in pieces of a size that has nothing to do with its lines.
fn load(table: &mut Table, rules: &[u8]) -> Result<(), Failed> {
    let mut loader = Loader::fresh();
    for piece in rules.chunks(37) {
        loader.piece(table, piece)?;
    }
    end(&mut loader, table)
}

fn list(table: &Table) -> Result<(), Failed> {
    for (k, rule) in table.rules()?.enumerate() {
        say!("rule {k}: {}", text(&rule));
    }
    Ok(())
}

fn categories(set: Set) -> String {
    set.categories().map(|category| format!(" {category}")).collect()
}

fn show_mapping(table: &Table, label: &str) {
    let answer = match table.by_label(label) {
        Ok(Some(mapping)) => format!("level {}, {} categories:{}", mapping.level, mapping.count, categories(mapping.set)),
        Ok(None) => "none".to_string(),
        Err(error) => refused(error, "that label"),
    };
    say!("mapping of '{label}': {answer}\n");
}

fn show_label_of(table: &Table, level: u64, set: Set) -> Result<(), Failed> {
    let sought = format!("level {level}, categories{}", categories(set));
    match table.by_level(level, set) {
        Ok(Some(k)) => say!("{sought}: label {k}, {}\n", text(table.label(k)?)),
        Ok(None) => say!("{sought}: no label\n"),
        Err(error) => say!("mapping by level and set: {}\n", refused(error, "")),
    }
    Ok(())
}

fn show_lowest(run: &[Record], level: u64, set: Set) {
    let sought = format!("level {level}, categories{}", categories(set));
    match lowest_in_run(run, level, set) {
        Ok(Some(k)) => say!("{sought}: lowest of the run is label {k}\n"),
        Ok(None) => say!("{sought}: none of the run\n"),
        Err(error) => say!("search of a run: {}\n", refused(error, "")),
    }
}

/// Turns each record of a file into its line and loads the lines as rule text. A refused record gives no line, and the others load all the same; so the
/// report counts lines, not records. Of a file cut short the rest is refused with BadRecord.
fn load_records(table: &mut Table, file: &[u8]) -> Result<(), Failed> {
    let mut loader = Loader::fresh();
    for (k, record) in (1..).zip(file.chunks(FIXED_RECORD)) {
        match record_to_line(record, &mut [0; LONGEST_FIXED_LINE]) {
            Ok(line) => loader.piece(table, line)?,
            Err(error) => say!("record {k} is {}\n", in_words(error.refusal)),
        }
    }
    end(&mut loader, table)
}

/// Turns every rule back into a record, which the file has to have, but for capital letters in the access bytes; in labels they count.
fn back_to_records(table: &Table, file: &[u8]) -> Result<(), Failed> {
    let has = |record: &[u8]| {
        let (labels, access) = record.split_at(2 * FIXED_PLACE);
        file.chunks_exact(FIXED_RECORD).any(|old| old.starts_with(labels) && old[labels.len()..].eq_ignore_ascii_case(access))
    };
    let (mut rules, mut back) = (0, 0);
    for rule in table.rules()? {
        match line_to_record(&rule, &mut [0; FIXED_RECORD]) {
            Err(error) => say!("rule {rules} is {}\n", in_words(error.refusal)),
            Ok(record) if !has(record) => say!("rule {rules} came back as a record that the file does not have\n"),
            Ok(_) => back += 1,
        }
        rules += 1;
    }
    say!("{back} of {rules} rules came back as records of the file, but for the case of access letters\n");
    if back == rules { Ok(()) } else { Err("not every rule came back".into()) }
}

fn show_record(rule: &str) {
    match line_to_record(rule, &mut [0; FIXED_RECORD]) {
        Ok(record) => say!("'{rule}' as a record: '{}'\n", text(record)),
        Err(error) => say!("'{rule}' is {}\n", in_words(error.refusal)),
    }
}

/// This side labels a packet. The options of a packet are a multiple of four bytes, at most 40; what fills them up behind the option is zero bytes.
fn label_packet(table: &Table, label: &str) -> Result<Vec<u8>, Refused> {
    let mut options = table.write_option(label, &mut [0; LONGEST_OPTION])?.to_vec();
    say!("packet of '{label}': {}\n", options.iter().map(u8::to_string).collect::<Vec<_>>().join(" "));
    options.resize(options.len().next_multiple_of(4), 0);
    Ok(options)
}

/// The other side reads a packet. The option has as many bytes as its byte 1 says; where these are not there, all that there are go to the call,
/// which refuses them.
fn read_packet(other: &Table, options: &[u8]) {
    let length = options.get(1).map_or(0, |&total| usize::from(total));
    match other.read_option(options.get(..length).unwrap_or(options)) {
        Ok(label) => say!("the other side reads: '{}'\n", text(label.bytes())),
        Err(error) => say!("the other side reads: {error}\n"),
    }
}

/// A packet of this label, from this side to the other. Where it cannot be labelled, it is not sent.
fn send_packet(table: &Table, other: &Table, label: &str) {
    match label_packet(table, label) {
        Ok(options) => read_packet(other, &options),
        Err(error) => say!("packet of '{label}': {error}\n"),
    }
}

/// Labels on packets. A label without a mapping goes as its own bits, which any side reads; one with a mapping is read where the other side, which has a
/// table of its own, has the same mapping. The numbers that labels have need not agree.
fn packets() -> Result<(), Failed> {
    let (mut table, mut other) = (fresh(""), fresh(" of the other side"));
    let (probe, probe_mapping) = ("ClimateProbe_StoreNorth_01_Temp", "ClimateProbe_StoreNorth_01_Temp 9 1 100 184");
    mapping(&mut table, "Desk 250 1"); // BadLevelOrCategory: level 250 is for labels without a mapping
    send_packet(&table, &other, "Recorder");
    send_packet(&table, &other, probe); // NotInAnOption: 31 bytes, and no mapping yet
    mapping(&mut table, probe_mapping);
    send_packet(&table, &other, probe); // NoSuchMapping: the other side does not have it yet
    done(&format!("mapping '{probe_mapping}' of the other side"), other.mapping(probe_mapping));
    send_packet(&table, &other, probe);
    send_packet(&table, &other, "Archive/2026"); // BadLabel: of a packet no place is told

    let mut options = label_packet(&table, "Alarm")?;
    options[5] = 4; // OtherDoi: 4 in place of 3
    say!("with DOI 4, ");
    read_packet(&other, &options);
    Ok(())
}

/// A file or a folder that a creator wants to make in a folder. A host that makes files gives it the label that is named here, and, where it says so, the
/// mark that a transmuting folder has.
fn create(table: &Table, creator: &str, folder: &str, folder_transmutes: bool, is_folder: bool) {
    let mark = |transmutes| if transmutes { " (transmutes)" } else { "" };
    let answer = match table.new_object(creator, folder, folder_transmutes, is_folder) {
        Ok(NewObject::CreatorLabel) => format!("label {creator}"),
        Ok(NewObject::FolderLabel { transmutes }) => format!("label {folder}{}", mark(transmutes)),
        Ok(NewObject::Denied) => "denied".to_string(),
        Err(error) => error.to_string(),
    };
    say!("{creator} makes a {} in {folder}{}: {answer}\n", if is_folder { "folder" } else { "file" }, mark(folder_transmutes));
}

/// The recorder and the alarm make record files in one folder, Records, which transmutes. The recorder can read a file that the alarm made only where it has
/// the folder's label; for that the alarm's rule needs t.
fn shared_folder() {
    let mut table = fresh("");
    change(&mut table, "Recorder Records rwxt -");
    change(&mut table, "Alarm Records rwx -");
    create(&table, "Recorder", "Records", true, false);
    create(&table, "Alarm", "Records", true, false); // no t: the file has the alarm's own label,
    ask(&table, "Recorder", "Alarm", "r", false); // and the recorder can't read it
    change(&mut table, "Alarm Records t -");
    create(&table, "Alarm", "Records", true, false);
    ask(&table, "Recorder", "Records", "r", false);
    create(&table, "Alarm", "Records", true, true); // a folder in it transmutes too,
    create(&table, "Alarm", "Records", false, true); // but not in a folder that does not
    create(&table, "Records", "Records", true, true); // one label: rule 5 grants, and no rule with t
    create(&table, "Desk", "Records", true, false); // may not write there; override is not considered
    create(&table, "Alarm/2", "Records", true, false); // BadLabel: no place is told here
}

fn run(rules: &Path, records: &Path) -> Result<(), Failed> {
    let read = |path: &Path| std::fs::read(path).map_err(|error| format!("{}: {error}", path.display()));

    let table = &mut fresh("");
    load(table, &read(rules)?)?;
    ask(table, "ClimateProbe_StoreNorth_01_Temp", "Air_StoreNorth_01", "w", false);
    ask(table, "ClimateProbe_StoreNorth_01_Temp", "Air_StoreNorth_02", "w", false);
    ask(table, "Alarm", "Air_StoreNorth_02", "r", false); // its line is an old one, with rB: r counts
    ask(table, "Alarm", "Air_StoreNorth_02", "rb", false); // BadRequest: b is no letter of a request, nor is t below
    ask(table, "Desk", "Air_StoreNorth_01", "r", false);
    ask(table, "Desk", "Air_StoreNorth_01", "r", true);
    ask(table, "Desk", "Air_StoreNorth_01", "rt", true);
    ask(table, "Desk", "Archive/2026", "r", true); // BadLabel: with the place of the slash

    change(table, "Alarm Archive r -");
    change(table, "Alarm Archive rb -"); // BadAccess: only lines may still have b
    change(table, "Alarm Alarm r -"); // SameLabels
    change(table, "Alarm Archive/2026 r -"); // BadLabel, as three more below
    ask(table, "Alarm", "Archive", "r", false);

    revoke(table, "Recorder "); // the blank is a byte of the label here
    revoke(table, "Recorder");
    ask(table, "Recorder", "Archive", "a", false);

    override_list(table, "Desk -"); // only a dash alone clears the list
    override_list(table, "Desk Alarm");
    ask(table, "Recorder", "Archive", "a", true);
    ask(table, "Desk", "Archive", "a", true);

    mapping(table, "Archive 9 1 63");
    show_mapping(table, "Archive");
    show_mapping(table, "Archive/2026");
    let set = |categories: &[u32]| Set::of(categories.iter().copied()).ok_or("a category is 1 to 184");
    let one = set(&[1])?;
    show_label_of(table, 9, set(&[1, 63])?)?;
    show_lowest(&[(7, 9), (5, 9), (3, 8)].map(|(label, level)| Record { label, level, set: one }), 9, one);

    mapping(table, "Desk 9 100 184");
    mapping(table, "Desk 9 100 185"); // BadLevelOrCategory, as three more below
    show_mapping(table, "Desk");
    let desk = set(&[100, 184])?;
    show_label_of(table, 9, desk)?;
    let desk_run = [(8, desk), (6, desk), (2, set(&[100])?)].map(|(label, set)| Record { label, level: 9, set });
    show_lowest(&desk_run, 9, desk);
    let [first, second, third] = desk.words();
    let stray = Set::from_words([first, second, third | 1]); // the lowest bit of the last word is no category
    show_label_of(table, 9, stray)?;
    show_lowest(&desk_run, 9, stray);
    list(table)?; // no rule has b

    let (_, _, words) = table.parts_mut();
    words[1] = 257; // a damaged state: every call refuses it with Damaged, and leaves it as it is
    done("change on 257 rules", table.change("Alarm Archive r -"));

    let file = read(records)?;
    let table = &mut fresh("");
    load_records(table, &file)?;
    list(table)?;
    back_to_records(table, &file)?;
    show_record("Alarm Archive ra");
    show_record("Alarm Archive rab"); // the same record
    show_record("ClimateProbe_StoreNorth_01_Temp Air_StoreNorth_01 w"); // NotInARecord

    packets()?;
    shared_folder();
    Ok(())
}

fn main() -> ExitCode {
    let arguments: Vec<OsString> = std::env::args_os().collect();
    let [_, rules, records] = &arguments[..] else {
        eprintln!("usage: host RULEFILE RECORDFILE");
        return ExitCode::from(2);
    };
    if let Err(error) = run(rules.as_ref(), records.as_ref()) {
        eprintln!("host: {error}");
        return ExitCode::FAILURE;
    }
    ExitCode::SUCCESS
}
