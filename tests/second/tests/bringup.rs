//! 02, Six: "The bring-up letter goes." Each of its sentences, and what stands
//! on either side of it.

mod common;

use common::*;
use second::plain::*;
use second::program;
use second::raw::{self, raw_is_damaged, RawLoader, RawState, BRINGUP, MODES};

/// Access fields with b, and what is left of each.
const WITH_B: [(&str, u8); 16] = [
    ("b", 0),
    ("B", 0),
    ("bb", 0),
    ("bB", 0),
    ("-b", 0),
    ("b-", 0),
    ("-b-", 0),
    ("-b-B", 0),
    ("rb", R),
    ("br", R),
    ("Rb", R),
    ("rRb", R),
    ("rBw", R | W),
    ("r-b-W", R | W),
    ("btaxwr", R | W | X | A | T),
    ("RWXATB", R | W | X | A | T),
];

/// A fresh table after one line, which is accepted, and its count of b.
fn after_line(line: &str) -> (Table, u32) {
    let mut table = Table::fresh();
    let report = load_into(&mut table, line.as_bytes());
    assert_eq!((report.lines, report.accepted), (1, 1), "{line}");
    (table, report.bringup)
}

/// The count of this text, loaded into this table.
fn count_of(table: &Table, text: &[u8]) -> u32 {
    load_into(&mut table.clone(), text).bringup
}

// --- "Old files must still load: b or B in a line's access field counts as a
// --- placeholder"

#[test]
fn b_is_a_placeholder_of_a_line() {
    for (access, modes) in WITH_B {
        let (table, count) = after_line(&format!("A B {access}"));
        assert_eq!(table.rules, vec![(5, 6, modes)], "{access}");
        assert_eq!(count, 1, "{access}");
        // As a dash is, in the same place.
        let (with_dash, count) = after_line(&format!("A B {}", access.replace(['b', 'B'], "-")));
        assert_eq!(table, with_dash, "{access}");
        assert_eq!(count, 0, "{access}");
    }
}

#[test]
fn every_access_field_of_up_to_four_bytes() {
    let letters = b"rwxatRWXATbB-lq/";
    let mut fields: Vec<Vec<u8>> = vec![Vec::new()];
    for _ in 0..4 {
        for k in 0..fields.len() {
            for &letter in letters {
                let field = [&fields[k][..], &[letter]].concat();
                fields.push(field);
            }
        }
        fields.sort();
        fields.dedup();
    }
    for field in fields.iter().filter(|field| !field.is_empty()) {
        let mut table = Table::fresh();
        let report = load_into(&mut table, &[b"A B ", &field[..]].concat());
        if field.iter().any(|byte| b"lq/".contains(byte)) {
            assert_eq!((report.first_reason, report.bringup), (4, 0), "{field:?}");
            assert_eq!(table, Table::fresh());
            continue;
        }
        let mut modes = 0;
        for (letter, bit) in [(b'r', R), (b'w', W), (b'x', X), (b'a', A), (b't', T)] {
            if field.contains(&letter) || field.contains(&letter.to_ascii_uppercase()) {
                modes |= bit;
            }
        }
        let held = field.contains(&b'b') || field.contains(&b'B');
        assert_eq!(table.rules, vec![(5, 6, modes)], "{field:?}");
        assert_eq!(report.bringup, u32::from(held), "{field:?}");
    }
}

#[test]
fn another_bad_letter_is_still_refused() {
    for access in ["bq", "qb", "bl", "b/", "b\r", "b\0", "rbwq", "bβ"] {
        let line = format!("A B {access}");
        assert_eq!(reason_of_line(&Table::fresh(), line.as_bytes()), 4);
        assert_eq!(count_of(&Table::fresh(), line.as_bytes()), 0, "{access:?}");
    }
}

#[test]
fn b_is_a_byte_like_others_for_lengths_and_fields() {
    let fresh = Table::fresh();
    let line = [&b"A B "[..], &[b'b'; 596]].concat();
    assert_eq!(line.len(), 600);
    assert_eq!(reason_of_line(&fresh, &line), 0);
    assert_eq!(count_of(&fresh, &line), 1);
    let longer = [&line[..], b"B"].concat();
    assert_eq!(reason_of_line(&fresh, &longer), 1);
    assert_eq!(count_of(&fresh, &longer), 0);
    // It parts no fields and is none that may be left out.
    assert_eq!(reason_of_line(&fresh, b"A B b b"), 2);
    assert_eq!(reason_of_line(&fresh, b"A b"), 2);
    // And in a label it is a label byte.
    let mut table = Table::fresh();
    let report = load_into(&mut table, b"b B r\nB b r\nbB Bb -");
    assert_eq!((report.accepted, report.bringup), (3, 0));
    assert_eq!(table.labels[5..], [&b"b"[..], b"B", b"bB", b"Bb"]);
    // The place of a bad byte counts it too.
    let report = load_into(&mut table, b" bb/ B b");
    assert_eq!((report.first_reason, report.first_place), (3, 3));
}

#[test]
fn a_line_with_b_sets_its_pair_wholly() {
    let mut table = loaded("A B rwxat\n");
    assert_eq!(load_into(&mut table, b"A B rb").accepted, 1);
    assert_eq!(table.rules, vec![(5, 6, R)]);
    assert_eq!(load_into(&mut table, b"A B b").accepted, 1);
    assert_eq!(table.rules, vec![(5, 6, 0)]);
}

// --- "the report gains a count of accepted lines that held it"

#[test]
fn the_count_is_of_lines() {
    let fresh = Table::fresh();
    assert_eq!(count_of(&fresh, b""), 0);
    assert_eq!(count_of(&fresh, b"A B bbbBB\n"), 1);
    assert_eq!(count_of(&fresh, b"A B b\nA B r\nA B B\nC D Rb"), 3);
    // The same line again counts again.
    assert_eq!(count_of(&fresh, b"A B b\nA B b\nA B b\n"), 3);
    // What it does to the table does not matter, nor does it to the other counts.
    let report = load_into(&mut fresh.clone(), b"A B rb\n\nA A b\nA B w\nA B b");
    let expected = Report {
        lines: 5,
        accepted: 3,
        skipped: 1,
        refused: 1,
        first_line: 3,
        first_reason: 5,
        first_place: 0,
        bringup: 2,
    };
    assert_eq!(report, expected);
}

#[test]
fn refused_and_skipped_lines_are_not_counted() {
    let fresh = Table::fresh();
    let mut full = Table::fresh();
    fill_labels(&mut full, 64);
    let mut ruled = Table::fresh();
    fill_labels(&mut ruled, 20);
    fill_rules(&mut ruled, 256);
    let long = [&b"A B b"[..], &[b' '; 596]].concat();
    let refused: [(&Table, &[u8], u32); 10] = [
        (&fresh, &long, 1),
        (&fresh, b"A b", 2),
        (&fresh, b"A B b b", 2),
        (&fresh, b"b", 2),
        (&fresh, b"A/ B b", 3),
        (&fresh, b"A -B b", 3),
        (&fresh, b"A B bq", 4),
        (&fresh, b"A A rb", 5),
        (&full, b"New N0 rb", 6),
        (&ruled, b"N14 N13 rb", 7),
    ];
    for (table, line, reason) in refused {
        assert_eq!(reason_of_line(table, line), reason, "{line:?}");
        assert_eq!(count_of(table, line), 0, "{line:?}");
        // An accepted line beside it is.
        let text = [line, b"\n_ ^ b\n", line].concat();
        assert_eq!(count_of(table, &text), 1, "{line:?}");
    }
    assert_eq!(count_of(&fresh, b"\n \n\t\n"), 0);
}

#[test]
fn cuts_do_not_matter_to_the_count() {
    let text = b"A B rb\nA A b\nC D bB-\n\nA B q\nE F r\nb B B";
    for first in 0..=text.len() {
        for second in first..=text.len() {
            let mut table = Table::fresh();
            let mut loader = Loader::fresh();
            for piece in [&text[..first], &text[first..second], &text[second..]] {
                loader.piece(&mut table, piece);
                ask(&table, "A", "B", "r");
            }
            let report = loader.end(&mut table);
            assert_eq!((report.accepted, report.bringup), (4, 3));
        }
    }
}

#[test]
fn the_count_is_limited_and_the_end_call_begins_afresh() {
    let most = u32::MAX;
    let mut table = Table::fresh();
    let mut loader = Loader::fresh();
    loader.bringup = u64::from(most) - 2;
    loader.piece(&mut table, b"A B b\nA B r\nA B b\n");
    assert_eq!(loader.report().bringup, most);
    loader.piece(&mut table, b"A B b\nA B b");
    assert_eq!(loader.end(&mut table).bringup, most);
    // The true number goes on; its report does not.
    assert_eq!(loader, Loader::fresh());
    assert_eq!(loader.end(&mut table).bringup, 0);
    loader.piece(&mut table, b"A B b\n");
    assert_eq!(loader.end(&mut table).bringup, 1);

    let mut state = RawState::fresh();
    for (before, after) in [(0, 1), (most - 2, most - 1), (most - 1, most), (most, most)] {
        let mut loader = RawLoader::fresh();
        loader.numbers[BRINGUP] = u64::from(before);
        raw::piece(&mut state, &mut loader, b"A B b\nA B r").unwrap();
        assert_eq!(loader.numbers[BRINGUP], u64::from(after));
        raw::piece(&mut state, &mut loader, b"b").unwrap();
        let report = raw::end(&mut state, &mut loader).unwrap();
        assert_eq!(report.bringup, after.saturating_add(1));
        assert_eq!(loader.numbers, [0; 9]);
    }
}

// --- "Stored modes, listings and answers have no b, and a state with a b bit
// --- gets 0; P10 then reads granted 6."

#[test]
fn p10() {
    let table = loaded("Probe3 Air rRb");
    assert_eq!(ask(&table, "Probe3", "Air", "r"), granted(6));
    let output = program::run(b"Probe3 Air rRb\n?\nProbe3 Air r\n");
    assert_eq!(output, b"1 1 0 0 0 0 1\ngranted 6\n");
}

#[test]
fn no_rule_has_b() {
    for (access, modes) in WITH_B {
        let (table, _) = after_line(&format!("A B {access}"));
        let letters = String::from_utf8(write_modes(modes)).unwrap();
        assert_eq!(listing(&table), format!("A B {letters}\n").as_bytes());
        let mut state = RawState::fresh();
        let mut loader = RawLoader::fresh();
        let line = format!("A B {access}\n");
        raw::piece(&mut state, &mut loader, line.as_bytes()).unwrap();
        assert_eq!(state.entries[MODES], modes);
        assert!(!raw_is_damaged(&state));
        for request in ["r", "w", "x", "a"] {
            let expected = match letters.contains(request) {
                true => granted(6),
                false => denied(7),
            };
            assert_eq!(ask(&table, "A", "B", request), expected, "{access}");
        }
    }
}

#[test]
fn the_longest_listed_rule() {
    let (one, two) = ("L".repeat(255), "M".repeat(255));
    let (table, _) = after_line(&format!("{one} {two} bTAXWRB"));
    assert_eq!(listing(&table).len(), 518);
    assert!(listing(&table).ends_with(b" rwxat\n"));
    let mut buffer = [7; 517];
    assert_eq!(table.list(0, &mut buffer), Err(Refusal::OutputTooShort));
}

#[test]
fn a_lent_b_bit_is_damage_below_the_count_alone() {
    let mut state = RawState::fresh();
    let mut loader = RawLoader::fresh();
    raw::piece(&mut state, &mut loader, b"A B r\nB C -\nC A rwxat\n").unwrap();
    for place in 0..6 {
        for bit in [1, 64, 128] {
            let mut copy = state.clone();
            copy.entries[MODES + place] |= bit;
            let damaged = place < 3;
            assert_eq!(raw_is_damaged(&copy), damaged, "{place} {bit}");
            let answer = raw::question(&copy, b"A", b"B", b"r", false);
            match damaged {
                true => assert_eq!(answer, Answer::Refused(Refusal::Damaged)),
                false => assert_eq!(answer, granted(6)),
            }
        }
    }
    // A rule that comes to stand there is not touched by what was there.
    state.entries[MODES + 3] = 255;
    raw::change(&mut state, b"B A w -").unwrap();
    assert_eq!(state.entries[MODES + 3], W);
}

// --- "Line-to-record conversion drops b."

#[test]
fn a_record_is_made_without_b() {
    let turned = |line: &str| {
        let mut record = [7; 53];
        assert_eq!(line_to_record(line.as_bytes(), &mut record), Ok(53));
        record
    };
    for (access, modes) in WITH_B {
        let letters = String::from_utf8(write_modes(modes)).unwrap();
        let expected = turned(&format!("A B {letters}\n"));
        assert_eq!(turned(&format!("A B {access}")), expected, "{access}");
        assert_eq!(turned(&format!(" A\tB {access} \n")), expected, "{access}");
        let mut line = [0; 60];
        let length = record_to_line(&expected, &mut line).unwrap();
        assert_eq!(&line[..length], format!("A B {letters}\n").as_bytes());
    }
    // 15 is for a label alone.
    let long = "L".repeat(24);
    for line in [format!("{long} B b"), format!("A {long} rb")] {
        let answer = line_to_record(line.as_bytes(), &mut [0; 53]);
        assert_eq!(answer, Err(Refusal::NotInARecord));
    }
    let answer = line_to_record(b"A B b", &mut [0; 52]);
    assert_eq!(answer, Err(Refusal::OutputTooShort));
}

#[test]
fn a_record_holds_no_b() {
    for place in 48..53 {
        for byte in [b'b', b'B'] {
            let mut record = [b' '; 53];
            record[0] = b'A';
            record[24] = b'B';
            record[48..].fill(b'-');
            record[place] = byte;
            let answer = record_to_line(&record, &mut [0; 60]);
            assert_eq!(answer, Err(Refusal::BadAccess), "{place}");
        }
    }
}

// --- "Change still refuses it with 4."

#[test]
fn a_change_and_a_request_refuse_b() {
    let table = loaded("A B rwxat\n");
    for (access, _) in WITH_B {
        for write in [
            format!("A B {access} -"),
            format!("A B - {access}"),
            format!("A B {access} {access}"),
        ] {
            let mut copy = table.clone();
            let answer = copy.change(write.as_bytes());
            assert_eq!(answer, Err(Refusal::BadAccess), "{write}");
            assert_eq!(copy, table);
        }
        assert_eq!(
            ask(&table, "A", "B", access),
            Answer::Refused(Refusal::BadRequest),
            "{access}"
        );
    }
}

// --- "the program prints it last on the report line, so 01's example begins
// --- 1 1 0 0 0 0 0"

#[test]
fn the_program_prints_the_count_last() {
    let output = |input: &[u8]| String::from_utf8(program::run(input)).unwrap();
    assert_eq!(
        output(b"Probe3 Air w\n?\nProbe3 Air w\nAir Probe3 w o\n"),
        "1 1 0 0 0 0 0\ngranted 6\noverride 7\n"
    );
    assert_eq!(output(b"A B b"), "1 1 0 0 0 0 1\n");
    assert_eq!(
        output(b"A B b\nA A rb\nC D wB\nA/ B b\n?\nC D w\nA B b\nA B r\n"),
        "4 2 0 2 2 5 2\ngranted 6\nrefused 8\ndenied 7\n"
    );
}
