//! Calls and their text, the machine beside the calls of `raw`, and the generator that
//! hands out calls.

use second::plain::{Record, Refusal, Table};
use second::random::{generate, write_script, Kind, KINDS};
use second::raw::{self, RawLoader, RawState};
use second::script::{Call, Machine, Made, Part, Poke};

// --- Calls and their text ------------------------------------------------------

/// A call of each kind beside its line.
fn calls() -> Vec<(&'static str, Call)> {
    let b = |text: &str| text.as_bytes().to_vec();
    vec![
        ("fresh", Call::Fresh),
        ("freshen", Call::Freshen),
        ("freshloader", Call::FreshLoader),
        ("piece 4120420a", Call::Piece(b("A B\n"))),
        ("piece -", Call::Piece(Vec::new())),
        ("end", Call::End),
        ("change 41", Call::Change(b("A"))),
        ("revoke 41", Call::Revoke(b("A"))),
        ("override 2d", Call::Override(b("-"))),
        ("mapping 412039", Call::Mapping(b("A 9"))),
        ("bylabel 00ff", Call::ByLabel(vec![0, 255])),
        (
            "bylevel 256 1:0:18446744073709551615",
            Call::ByLevel {
                level: 256,
                set: [1, 0, u64::MAX],
            },
        ),
        (
            "run 9 0:0:0",
            Call::Run {
                level: 9,
                set: [0; 3],
                records: Vec::new(),
            },
        ),
        (
            "run 9 0:0:0 18446744073709551615,0,1:2:3 5,9,0:0:0",
            Call::Run {
                level: 9,
                set: [0; 3],
                records: vec![
                    Record {
                        label: u64::MAX,
                        level: 0,
                        set: [1, 2, 3],
                    },
                    Record {
                        label: 5,
                        level: 9,
                        set: [0; 3],
                    },
                ],
            },
        ),
        (
            "question 41 - 72 1",
            Call::Question {
                subject: b("A"),
                object: Vec::new(),
                request: b("r"),
                capable: true,
            },
        ),
        (
            "list 18446744073709551615 aa",
            Call::List {
                k: u64::MAX,
                output: vec![0xaa],
            },
        ),
        ("label 64", Call::Label { k: 64 }),
        (
            "recordtoline 41 -",
            Call::RecordToLine {
                record: b("A"),
                output: Vec::new(),
            },
        ),
        (
            "linetorecord 41 0a",
            Call::LineToRecord {
                line: b("A"),
                output: b("\n"),
            },
        ),
        (
            "writeoption 41 0000",
            Call::WriteOption {
                label: b("A"),
                output: vec![0; 2],
            },
        ),
        ("readoption 86", Call::ReadOption { option: vec![134] }),
        (
            "newobject 41 42 1 0",
            Call::NewObject {
                creator: b("A"),
                folder: b("B"),
                folder_transmutes: true,
                is_folder: false,
            },
        ),
        (
            "poke labels 256 0141",
            Call::Poke(Poke::Labels {
                at: 256,
                bytes: vec![1, 65],
            }),
        ),
        (
            "poke entries 0 05",
            Call::Poke(Poke::Entries {
                at: 0,
                bytes: vec![5],
            }),
        ),
        (
            "poke line 18446744073709551615 -",
            Call::Poke(Poke::Line {
                at: usize::MAX,
                bytes: Vec::new(),
            }),
        ),
        (
            "poke words 3 8",
            Call::Poke(Poke::Words { index: 3, value: 8 }),
        ),
        (
            "poke loader 8 4294967296",
            Call::Poke(Poke::Loader {
                index: 8,
                value: 1 << 32,
            }),
        ),
        (
            "resize labels 0",
            Call::Resize {
                part: Part::Labels,
                size: 0,
            },
        ),
        (
            "resize entries 841",
            Call::Resize {
                part: Part::Entries,
                size: 841,
            },
        ),
        (
            "resize words 99",
            Call::Resize {
                part: Part::Words,
                size: 99,
            },
        ),
        (
            "resize line 18446744073709551615",
            Call::Resize {
                part: Part::Line,
                size: usize::MAX,
            },
        ),
        ("dump", Call::Dump),
    ]
}

#[test]
fn each_call_has_its_line() {
    for (line, call) in calls() {
        assert_eq!(call.write(), line);
        assert_eq!(Call::read(line), Some(call), "{line}");
    }
    let bytes: Vec<u8> = (0..=255).collect();
    let call = Call::Piece(bytes);
    assert_eq!(Call::read(&call.write()), Some(call));
}

#[test]
fn a_line_that_is_no_call_is_read_as_none() {
    for line in [
        "",
        "  ",
        "# fresh",
        "fresher",
        "fresh fresh",
        "piece",
        "piece 4",
    ] {
        assert_eq!(Call::read(line), None, "{line}");
    }
    // Bytes as they are, and more blanks.
    assert_eq!(
        Call::read("  change   =A "),
        Some(Call::Change(b"A".to_vec()))
    );
}

#[test]
fn random_calls_are_read_as_they_were_written() {
    for (name, kind) in KINDS {
        generate(11, 3000, kind, &mut |machine, call| {
            assert_eq!(Call::read(&call.write()).as_ref(), Some(call), "{name}");
            machine.make(call).is_some()
        });
    }
}

// --- The machine beside the calls of raw ---------------------------------------

/// The call made by `raw` on this memory. None for a setter and for a dump.
fn made_by_raw(state: &mut RawState, loader: &mut RawLoader, call: &Call) -> Option<Made> {
    let written = |output: &Vec<u8>, call: &dyn Fn(&mut [u8]) -> Result<usize, Refusal>| {
        let mut output = output.clone();
        Made::Written(call(&mut output), output)
    };
    Some(match call {
        Call::Freshen => Made::Done(raw::fresh_table(state)),
        Call::Piece(bytes) => Made::Done(raw::piece(state, loader, bytes)),
        Call::End => Made::Report(raw::end(state, loader)),
        Call::Change(write) => Made::Done(raw::change(state, write)),
        Call::Revoke(write) => Made::Revoked(raw::revoke(state, write)),
        Call::Override(write) => Made::Done(raw::override_write(state, write)),
        Call::Mapping(write) => Made::Done(raw::mapping(state, write)),
        Call::ByLabel(label) => {
            Made::Mapping(raw::by_label(state, label).map(|found| found.map(Box::new)))
        }
        Call::ByLevel { level, set } => {
            let answer = raw::by_level(state, *level, set);
            Made::Number(answer.map(|number| number.map(|number| number as u64)))
        }
        Call::Run {
            level,
            set,
            records,
        } => Made::Number(raw::by_run(records, *level, set)),
        Call::Question {
            subject,
            object,
            request,
            capable,
        } => Made::Answer(raw::question(state, subject, object, request, *capable)),
        Call::List { k, output } => written(output, &|output| raw::list(state, *k, output)),
        Call::Label { k } => {
            Made::Label(raw::label_check(state, *k), raw::label(state, *k).to_vec())
        }
        Call::RecordToLine { record, output } => {
            written(output, &|output| raw::record_to_line(record, output))
        }
        Call::LineToRecord { line, output } => {
            written(output, &|output| raw::line_to_record(line, output))
        }
        Call::WriteOption { label, output } => {
            written(output, &|output| raw::write_option(state, label, output))
        }
        Call::ReadOption { option } => Made::Peer(raw::read_option(state, option)),
        Call::NewObject {
            creator,
            folder,
            folder_transmutes,
            is_folder,
        } => {
            let (transmutes, is_folder) = (*folder_transmutes, *is_folder);
            Made::NewObject(raw::new_object(
                state, creator, folder, transmutes, is_folder,
            ))
        }
        _ => return None,
    })
}

/// Without debug assertions too, the machine answers and leaves what `raw` does, call
/// after call.
#[test]
fn a_machine_does_what_raw_does() {
    for (name, kind) in KINDS {
        let (mut state, mut loader) = (RawState::fresh(), RawLoader::fresh());
        generate(21, 4000, kind, &mut |machine, call| {
            let made = machine.make(call).unwrap();
            match made_by_raw(&mut state, &mut loader, call) {
                Some(same) => assert_eq!(made, same, "{name} {call:?}"),
                None => {
                    match call {
                        Call::Fresh => state = RawState::fresh(),
                        Call::FreshLoader => loader = RawLoader::fresh(),
                        // What these do is told in tests/script.rs.
                        _ => (state, loader) = (machine.state().clone(), machine.loader().clone()),
                    }
                }
            }
            assert_eq!(*machine.state(), state, "{name} {call:?}");
            assert_eq!(*machine.loader(), loader, "{name} {call:?}");
            let table = raw::table_of(&state).ok();
            assert_eq!(machine.table(), table.as_ref(), "{name} {call:?}");
            true
        });
    }
}

#[test]
fn a_poke_tells_the_model() {
    let mut machine = Machine::new();
    assert_eq!(machine.change(b"A B rw -"), Ok(()));
    assert_eq!(machine.table().unwrap().rules, [(5, 6, 48)]);
    let poke = |at: usize, byte: u8| Poke::Entries {
        at,
        bytes: vec![byte],
    };
    assert_eq!(machine.poke(&poke(raw::MODES, 4)), Some(()));
    assert_eq!(machine.table().unwrap().rules, [(5, 6, 4)]);
    // A number that names no label, and the right one again.
    assert_eq!(machine.poke(&poke(raw::OBJECTS, 7)), Some(()));
    assert_eq!(machine.table(), None);
    assert_eq!(machine.change(b"A B rw -"), Err(Refusal::Damaged));
    assert_eq!(machine.poke(&poke(raw::OBJECTS, 6)), Some(()));
    assert_eq!(machine.table().unwrap().rules, [(5, 6, 4)]);
    // A part of another size, and again of its own.
    assert_eq!(machine.resize(Part::Words, 99), Some(()));
    assert_eq!(machine.table(), None);
    assert_eq!(machine.resize(Part::Words, 100), Some(()));
    assert_eq!(machine.table().unwrap().rules, [(5, 6, 4)]);
    machine.fresh();
    assert_eq!(machine.table(), Some(&Table::fresh()));
    assert_eq!(*machine.state(), RawState::fresh());
    // What does not fit does nothing.
    let before = machine.changes();
    assert_eq!(machine.poke(&poke(raw::ENTRIES_SIZE, 1)), None);
    assert_eq!(machine.resize(Part::Labels, 1 << 21), None);
    assert_eq!(*machine.state(), RawState::fresh());
    assert_eq!(machine.changes(), before);
}

#[test]
fn a_poke_of_the_loader_leaves_the_tables_known() {
    let mut machine = Machine::new();
    machine.piece(b"A B r\nC").unwrap();
    let before = machine.changes();
    let line = Poke::Line {
        at: 0,
        bytes: b"D".to_vec(),
    };
    assert_eq!(machine.poke(&line), Some(()));
    let kept = Poke::Loader { index: 0, value: 0 };
    assert_eq!(machine.poke(&kept), Some(()));
    assert_eq!(machine.resize(Part::Line, 599), Some(()));
    assert_eq!(machine.end(), Err(Refusal::Damaged));
    machine.fresh_loader();
    assert_eq!(machine.table().unwrap().rules.len(), 1);
    assert_eq!(*machine.loader(), RawLoader::fresh());
    assert_eq!(machine.end().unwrap().lines, 0);
    // The two end calls had the tables to change, and nothing else had.
    assert_eq!(machine.changes(), before + 2);
}

// --- The generator -------------------------------------------------------------

fn script_of(kind: Kind, seed: u64, count: u64) -> String {
    let mut text = Vec::new();
    write_script(seed, count, kind, &mut text).unwrap();
    String::from_utf8(text).unwrap()
}

#[test]
fn the_calls_are_those_of_the_script() {
    for (name, kind) in KINDS {
        let mut text = String::new();
        generate(5, 2000, kind, &mut |machine, call| {
            text.push_str(&call.write());
            text.push('\n');
            machine.make(call);
            // Further calls that change nothing do not change the script.
            machine.question(b"A", b"B", b"r", true);
            machine.label_check(3).is_ok() || machine.table().is_none_or(|t| t.labels.len() < 4)
        });
        assert_eq!(text, script_of(kind, 5, 2000), "{name}");
    }
}

#[test]
fn generating_ends_where_it_is_told_to() {
    let mut count = 0;
    generate(5, 2000, Kind::Every, &mut |machine, call| {
        machine.make(call);
        count += 1;
        count < 77
    });
    assert_eq!(count, 77);
    generate(5, 0, Kind::Every, &mut |_, _| panic!("there is no call"));
}
