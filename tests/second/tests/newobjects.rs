//! 02, Seven: "Record files in a shared folder." Each of its sentences, and what
//! stands on either side of it.

mod common;

use common::*;
use second::plain::*;
use second::raw::{self, RawLoader, RawState, LABEL_COUNT, MODES, OBJECTS, PLACE, RULE_COUNT};
use NewObject::{CreatorLabel, Denied, FolderLabel};

const BOTH: [bool; 2] = [false, true];

/// The folder's label for a file, and for a folder.
const FILE: NewObject = FolderLabel { transmutes: false };
const FOLDER: NewObject = FolderLabel { transmutes: true };

/// The four answers for a creator and a folder: the folder transmutes not, and the
/// new object is a file or a folder; the folder transmutes, and the same.
fn made(table: &Table, creator: &str, folder: &str) -> [NewObject; 4] {
    let (creator, folder) = (creator.as_bytes(), folder.as_bytes());
    [(false, false), (false, true), (true, false), (true, true)].map(|(transmutes, is_folder)| {
        let answer = table.new_object(creator, folder, transmutes, is_folder);
        assert_eq!(answer == Denied, {
            let question = table.question(creator, folder, b"w", false);
            matches!(question, Answer::Denied { .. })
        });
        answer
    })
}

/// What the four are where w is granted, but not by a rule with t; where a rule with
/// w and t grants it; and where nothing does.
const CREATORS: [NewObject; 4] = [CreatorLabel; 4];
const TRANSMUTED: [NewObject; 4] = [CreatorLabel, CreatorLabel, FILE, FOLDER];
const DENIED: [NewObject; 4] = [Denied; 4];

/// The 32 sets of letters, with their bits.
fn all_modes() -> Vec<(String, u8)> {
    let letters = [('r', R), ('w', W), ('x', X), ('a', A), ('t', T)];
    (0..32)
        .map(|k| {
            let held = letters.iter().enumerate().filter(|(j, _)| k >> j & 1 == 1);
            held.fold((String::new(), 0), |(text, bits), (_, (letter, bit))| {
                (format!("{text}{letter}"), bits | bit)
            })
        })
        .collect()
}

/// A lent state with these labels and rules.
fn lent(labels: &[&str], rules: &[(u8, u8, u8)]) -> RawState {
    let mut state = RawState::fresh();
    for (k, label) in labels.iter().enumerate() {
        state.label_store[k * PLACE] = label.len() as u8;
        state.label_store[k * PLACE + 1..][..label.len()].copy_from_slice(label.as_bytes());
    }
    state.words[LABEL_COUNT] = labels.len() as u64;
    for (k, (subject, object, modes)) in rules.iter().enumerate() {
        state.entries[k] = *subject;
        state.entries[OBJECTS + k] = *object;
        state.entries[MODES + k] = *modes;
    }
    state.words[RULE_COUNT] = rules.len() as u64;
    state
}

/// The four answers in a lent state.
fn made_in(state: &RawState, creator: &str, folder: &str) -> [NewObject; 4] {
    made(&raw::table_of(state).unwrap(), creator, folder)
}

// --- "The recorder and the alarm both make files in one folder."

#[test]
fn the_recorder_and_the_alarm() {
    let table =
        loaded("Recorder Records rwxt\nAlarm Records wt\nDesk Records w\nDoor Records rx\n");
    assert_eq!(made(&table, "Recorder", "Records"), TRANSMUTED);
    assert_eq!(made(&table, "Alarm", "Records"), TRANSMUTED);
    assert_eq!(made(&table, "Desk", "Records"), CREATORS);
    assert_eq!(made(&table, "Door", "Records"), DENIED);
    assert_eq!(made(&table, "Records", "Records"), CREATORS);
    assert_eq!(made(&table, "Records", "Alarm"), DENIED);
}

// --- "If the creator may not write to the folder by rules 1 to 7, say denied"

#[test]
fn denied_exactly_where_w_is() {
    let table = loaded("A B w\nB A r\n^ A rx\nA _ rx\n* A rwxat\nA * -\nA ^ wt\n");
    for (creator, folder, answers) in [
        ("*", "A", DENIED),
        ("*", "*", DENIED),
        ("*", "_", DENIED),
        ("*", "Unknown", DENIED),
        // Rules 2 and 3 are for r and x alone.
        ("^", "A", DENIED),
        ("A", "_", DENIED),
        ("^", "_", DENIED),
        ("A", "*", CREATORS),
        ("^", "*", CREATORS),
        ("A", "A", CREATORS),
        ("_", "_", CREATORS),
        ("^", "^", CREATORS),
        ("A", "B", CREATORS),
        ("B", "A", DENIED),
        ("A", "^", TRANSMUTED),
        ("?", "@", DENIED),
        ("@", "?", DENIED),
    ] {
        assert_eq!(made(&table, creator, folder), answers, "{creator} {folder}");
    }
}

#[test]
fn append_is_not_write_and_t_is_not_either() {
    for access in ["a", "at", "t", "rxat", "rx", "r", "-"] {
        let table = loaded(&format!("A B {access}\n"));
        assert_eq!(made(&table, "A", "B"), DENIED, "{access}");
    }
}

// --- "override isn't considered here"

#[test]
fn no_override_list_matters() {
    for list in ["-", "A", "B", "A B", "C", "*", "_ ^ * ? @"] {
        let mut table = loaded("A B r\nA C wt\nA D w\n");
        table.override_write(list.as_bytes()).unwrap();
        assert_eq!(made(&table, "A", "B"), DENIED, "{list}");
        assert_eq!(made(&table, "*", "B"), DENIED, "{list}");
        assert_eq!(made(&table, "A", "Unknown"), DENIED, "{list}");
        assert_eq!(made(&table, "A", "C"), TRANSMUTED, "{list}");
        assert_eq!(made(&table, "A", "D"), CREATORS, "{list}");
    }
}

// --- "The folder's label is given when the folder transmutes and rule 6 granted
// --- the write by a rule with t; a new folder then transmutes too. Otherwise it's
// --- the creator's label, and it doesn't transmute."

#[test]
fn every_set_of_modes() {
    assert_eq!(all_modes().len(), 32);
    for (letters, bits) in all_modes() {
        let expected = match (letters.contains('w'), letters.contains('t')) {
            (true, true) => TRANSMUTED,
            (true, false) => CREATORS,
            (false, _) => DENIED,
        };
        let line = match letters.as_str() {
            "" => "A B -".to_string(),
            _ => format!("A B {letters}"),
        };
        let table = loaded(&line);
        assert_eq!(made(&table, "A", "B"), expected, "{letters}");
        assert_eq!(made(&table, "B", "A"), DENIED, "{letters}");
        let mut table = Table::fresh();
        table.change(format!("{line} -").as_bytes()).unwrap();
        assert_eq!(made(&table, "A", "B"), expected, "{letters}");
        let labels = ["_", "^", "*", "?", "@", "A", "B"];
        let state = lent(&labels, &[(5, 6, bits)]);
        assert_eq!(made_in(&state, "A", "B"), expected, "{letters}");
        // Another rule decides earlier, whatever the pair's rule is.
        for (creator, folder, numbers, expected) in [
            ("A", "A", (5, 5), CREATORS),
            ("A", "*", (5, 2), CREATORS),
            ("_", "_", (0, 0), CREATORS),
            ("^", "*", (1, 2), CREATORS),
            ("*", "A", (2, 5), DENIED),
            ("*", "*", (2, 2), DENIED),
            // And these have none that does for w.
            ("^", "A", (1, 5), expected),
            ("A", "_", (5, 0), expected),
            ("^", "_", (1, 0), expected),
            ("?", "@", (3, 4), expected),
        ] {
            let state = lent(&labels, &[(numbers.0, numbers.1, bits)]);
            assert_eq!(
                made_in(&state, creator, folder),
                expected,
                "{creator} {folder} {letters}"
            );
        }
    }
}

#[test]
fn an_earlier_rule_that_grants_gives_the_creators_label() {
    // Rule 4 and rule 5 come before rule 6, also where a rule with t is stored.
    let table = loaded("A * rwxat\n");
    assert_eq!(made(&table, "A", "*"), CREATORS);
    let state = lent(&["A", "B"], &[(0, 0, W | T), (1, 1, W | T)]);
    assert_eq!(made_in(&state, "A", "A"), CREATORS);
    assert_eq!(made_in(&state, "B", "B"), CREATORS);
    assert_eq!(made_in(&state, "A", "B"), DENIED);
}

#[test]
fn writes_between_are_seen() {
    let mut table = Table::fresh();
    assert_eq!(made(&table, "A", "B"), DENIED);
    load_into(&mut table, b"A B w");
    assert_eq!(made(&table, "A", "B"), CREATORS);
    table.change(b"A B t -").unwrap();
    assert_eq!(made(&table, "A", "B"), TRANSMUTED);
    table.change(b"A B - w").unwrap();
    assert_eq!(made(&table, "A", "B"), DENIED);
    table.change(b"A B w t").unwrap();
    assert_eq!(made(&table, "A", "B"), CREATORS);
    load_into(&mut table, b"A B TWb");
    assert_eq!(made(&table, "A", "B"), TRANSMUTED);
    load_into(&mut table, b"A B rt");
    assert_eq!(made(&table, "A", "B"), DENIED);
    load_into(&mut table, b"A B wt");
    assert_eq!(table.revoke(b"B"), Ok(0));
    assert_eq!(made(&table, "A", "B"), TRANSMUTED);
    assert_eq!(table.revoke(b"A"), Ok(1));
    assert_eq!(made(&table, "A", "B"), DENIED);
}

// --- "A well-formed label not in the table is judged like any other; it has no
// --- rules."

#[test]
fn unknown_labels() {
    let table = loaded("A B wt\n_ B wt\nA _ wt\n");
    let before = table.clone();
    for (creator, folder, answers) in [
        ("New", "B", DENIED),
        ("A", "New", DENIED),
        ("New", "Other", DENIED),
        ("New", "New", CREATORS),
        ("New", "*", CREATORS),
        ("*", "New", DENIED),
        ("New", "_", DENIED),
        ("^", "New", DENIED),
        ("a", "B", DENIED),
        ("A", "b", DENIED),
        ("AA", "B", DENIED),
    ] {
        assert_eq!(made(&table, creator, folder), answers, "{creator} {folder}");
    }
    assert_eq!(table, before);
}

#[test]
fn labels_that_agree_in_their_beginning() {
    for length in [1, 22, 23, 24, 253, 254] {
        let long = "L".repeat(length);
        let (one, two) = (format!("{long}1"), format!("{long}2"));
        let table = loaded(&format!("{one} B wt\n{two} B w\nB {one} wt\nB {two} r\n"));
        assert_eq!(made(&table, &one, "B"), TRANSMUTED);
        assert_eq!(made(&table, &two, "B"), CREATORS);
        assert_eq!(made(&table, &long, "B"), DENIED);
        assert_eq!(made(&table, "B", &one), TRANSMUTED);
        assert_eq!(made(&table, "B", &two), DENIED);
        assert_eq!(made(&table, "B", &long), DENIED);
        assert_eq!(made(&table, &one, &two), DENIED);
        assert_eq!(made(&table, &one, &one), CREATORS);
    }
}

// --- "Where such a state holds a label, pair or mapping twice, the first counts,
// --- and a label means its first number."

#[test]
fn pairs_stored_twice() {
    for (first, second, answers) in [
        (W | T, W, TRANSMUTED),
        (W, W | T, CREATORS),
        (T, W, DENIED),
        (0, W | T, DENIED),
        (W, T, CREATORS),
        (R | A, W | T, DENIED),
        (W | T, 0, TRANSMUTED),
    ] {
        let state = lent(
            &["A", "B", "C"],
            &[(0, 2, 0), (0, 1, first), (0, 1, second)],
        );
        assert_eq!(made_in(&state, "A", "B"), answers, "{first} {second}");
    }
}

#[test]
fn labels_stored_twice() {
    let labels = ["_", "A", "B", "A", "B"];
    for (rules, answers) in [
        (vec![(3, 4, W | T)], DENIED),
        (vec![(3, 2, W | T)], DENIED),
        (vec![(1, 4, W | T)], DENIED),
        (vec![(1, 2, W | T)], TRANSMUTED),
        (vec![(3, 4, W | T), (1, 2, W)], CREATORS),
        (vec![(3, 4, W), (1, 2, W | T)], TRANSMUTED),
        (vec![(1, 2, T), (3, 4, W)], DENIED),
        (vec![(1, 3, W | T)], DENIED),
    ] {
        let state = lent(&labels, &rules);
        assert_eq!(made_in(&state, "A", "B"), answers, "{rules:?}");
        assert_eq!(made_in(&state, "A", "A"), CREATORS, "{rules:?}");
    }
}

#[test]
fn the_marks_are_known_by_their_bytes() {
    // Other labels stand at 0, 1 and 2, and the marks elsewhere or nowhere.
    let state = lent(
        &["X", "Y", "Z", "*", "_"],
        &[
            (0, 2, W | T),
            (1, 0, W | T),
            (2, 0, W | T),
            (3, 0, W | T),
            (0, 3, W | T),
            (0, 4, W | T),
        ],
    );
    assert_eq!(made_in(&state, "X", "Z"), TRANSMUTED);
    assert_eq!(made_in(&state, "Y", "X"), TRANSMUTED);
    assert_eq!(made_in(&state, "Z", "X"), TRANSMUTED);
    assert_eq!(made_in(&state, "*", "X"), DENIED);
    assert_eq!(made_in(&state, "X", "*"), CREATORS);
    assert_eq!(made_in(&state, "X", "_"), TRANSMUTED);
    assert_eq!(made_in(&state, "^", "X"), DENIED);
    let empty = lent(&[], &[]);
    assert_eq!(made_in(&empty, "A", "*"), CREATORS);
    assert_eq!(made_in(&empty, "A", "A"), CREATORS);
    assert_eq!(made_in(&empty, "*", "*"), DENIED);
    assert_eq!(made_in(&empty, "A", "B"), DENIED);
}

// --- "Refusals: 3." 0 comes before it.

#[test]
fn ill_formed_labels() {
    let table = loaded("A B wt\n");
    let long = [b'L'; 256];
    let bad: [&[u8]; 9] = [
        b"", b"-", b"-A", b"A/", b"A B", b"A\n", b"\x7f", b"\xc4", &long,
    ];
    for label in bad {
        for transmutes in BOTH {
            for is_folder in BOTH {
                for (creator, folder) in [
                    (label, &b"B"[..]),
                    (b"A", label),
                    (label, label),
                    (b"*", label),
                    (label, b"*"),
                ] {
                    assert_eq!(
                        table.new_object(creator, folder, transmutes, is_folder),
                        NewObject::Refused(Refusal::BadLabel { place: 0 }),
                        "{creator:?} {folder:?}"
                    );
                }
            }
        }
    }
    let longest = "L".repeat(255);
    assert_eq!(made(&table, &longest, &longest), CREATORS);
}

#[test]
fn damage_comes_first() {
    let sound = lent(&["_", "A", "B"], &[(1, 2, W | T)]);
    let damages: [fn(&mut RawState); 10] = [
        |state| state.words[LABEL_COUNT] = 65,
        |state| state.words[LABEL_COUNT] = 2,
        |state| state.words[RULE_COUNT] = 257,
        |state| state.entries[0] = 3,
        |state| state.entries[OBJECTS] = 255,
        |state| state.entries[MODES] |= 1,
        |state| state.entries[MODES] |= 64,
        |state| state.label_store.truncate(16383),
        |state| state.entries.push(0),
        |state| state.words.truncate(99),
    ];
    for damage in damages {
        let mut state = sound.clone();
        damage(&mut state);
        for (creator, folder) in [("A", "B"), ("A", "A"), ("*", "*"), ("A", "*"), ("", "-")] {
            let answer = raw::new_object(&state, creator.as_bytes(), folder.as_bytes(), true, true);
            assert_eq!(answer, NewObject::Refused(Refusal::Damaged));
        }
    }
    assert_eq!(raw::new_object(&sound, b"A", b"B", true, true), FOLDER);
    assert_eq!(raw::new_object(&sound, b"A", b"B", true, false), FILE);
    assert_eq!(
        raw::new_object(&sound, b"A", b"B", false, true),
        CreatorLabel
    );
    let refused = NewObject::Refused(Refusal::BadLabel { place: 0 });
    assert_eq!(raw::new_object(&sound, b"", b"B", true, true), refused);
}

#[test]
fn a_line_under_way_does_not_matter() {
    let mut state = RawState::fresh();
    let mut loader = RawLoader::fresh();
    raw::piece(&mut state, &mut loader, b"A B wt").unwrap();
    assert_eq!(raw::new_object(&state, b"A", b"B", true, true), Denied);
    raw::piece(&mut state, &mut loader, b"\nA B r").unwrap();
    assert_eq!(raw::new_object(&state, b"A", b"B", true, true), FOLDER);
    raw::end(&mut state, &mut loader).unwrap();
    assert_eq!(raw::new_object(&state, b"A", b"B", true, true), Denied);
}
