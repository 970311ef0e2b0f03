//! Every refusal number in every call that can give it, and neighbours in the
//! order of refusals: an input that both numbers fit gets the earlier one.
//! A refusal leaves the table as it was; each `refused_` function checks that.

mod common;

use common::*;
use second::plain::*;

fn refused_change(table: &Table, write: &[u8]) -> u8 {
    let mut copy = table.clone();
    let refusal = copy.change(write).unwrap_err();
    assert_eq!(&copy, table);
    refusal.number()
}

fn refused_revoke(table: &Table, write: &[u8]) -> u8 {
    let mut copy = table.clone();
    let refusal = copy.revoke(write).unwrap_err();
    assert_eq!(&copy, table);
    refusal.number()
}

fn refused_override(table: &Table, write: &[u8]) -> u8 {
    let mut copy = table.clone();
    let refusal = copy.override_write(write).unwrap_err();
    assert_eq!(&copy, table);
    refusal.number()
}

fn refused_mapping(table: &Table, write: &[u8]) -> u8 {
    let mut copy = table.clone();
    let refusal = copy.mapping(write).unwrap_err();
    assert_eq!(&copy, table);
    refusal.number()
}

/// Blanks behind the text, up to this many bytes.
fn padded(text: &[u8], length: usize) -> Vec<u8> {
    let mut bytes = text.to_vec();
    while bytes.len() < length {
        bytes.push(b' ');
    }
    bytes
}

/// 64 labels.
fn full_of_labels() -> Table {
    let mut table = Table::fresh();
    fill_labels(&mut table, 64);
    table
}

/// 256 rules of 20 labels; the last label has no rules as subject.
fn full_of_rules() -> Table {
    let mut table = Table::fresh();
    fill_labels(&mut table, 20);
    fill_rules(&mut table, 256);
    table
}

/// 64 labels and 256 rules.
fn full_of_both() -> Table {
    let mut table = full_of_rules();
    fill_labels(&mut table, 64);
    table
}

#[test]
fn the_numbers() {
    let all = [
        Refusal::Damaged,
        Refusal::TooLong,
        Refusal::WrongFields,
        Refusal::BadLabel { place: 12 },
        Refusal::BadAccess,
        Refusal::SameLabels,
        Refusal::NoLabelPlace,
        Refusal::NoRulePlace,
        Refusal::BadRequest,
        Refusal::BadLevelOrCategory,
        Refusal::NoMappingPlace,
        Refusal::TooManyOverrideLabels,
        Refusal::OutputTooShort,
        Refusal::NoSuchNumber,
        Refusal::BadRecord,
        Refusal::NotInARecord,
    ];
    for (number, refusal) in all.iter().enumerate() {
        assert_eq!(usize::from(refusal.number()), number);
    }
    // 20 is no number of these calls.
    for (refusal, number) in [
        (Refusal::BadOption, 16),
        (Refusal::OtherDoi, 17),
        (Refusal::BadOptionCategory, 18),
        (Refusal::UnmappedTooLong, 19),
        (Refusal::NoMappingMatches, 21),
    ] {
        assert_eq!(refusal.number(), number);
    }
}

// --- rule 1 2 3 4 5 6 7 ------------------------------------------------------

#[test]
fn rule_line() {
    let fresh = Table::fresh();
    // 1
    assert_eq!(reason_of_line(&fresh, &padded(b"A B r", 600)), 0);
    assert_eq!(reason_of_line(&fresh, &padded(b"A B r", 601)), 1);
    // 2
    for line in ["A", "A B", "A B r w", "A B r w x"] {
        assert_eq!(reason_of_line(&fresh, line.as_bytes()), 2, "{line}");
    }
    // 3
    for line in ["-A B r", "A -B r", "A/ B r", "A 'B r", "- B r", "A - r"] {
        assert_eq!(reason_of_line(&fresh, line.as_bytes()), 3, "{line}");
    }
    // 4
    for line in ["A B q", "A B rl", "A B r+", "A B 0"] {
        assert_eq!(reason_of_line(&fresh, line.as_bytes()), 4, "{line}");
    }
    // 5
    assert_eq!(reason_of_line(&fresh, b"A A r"), 5);
    assert_eq!(reason_of_line(&fresh, b"_ _ -"), 5);
    assert_eq!(reason_of_line(&fresh, b"A a r"), 0);
    // 6
    assert_eq!(reason_of_line(&full_of_labels(), b"New N0 r"), 6);
    assert_eq!(reason_of_line(&full_of_labels(), b"N0 New r"), 6);
    // 7
    assert_eq!(reason_of_line(&full_of_rules(), b"N14 N13 r"), 7);
    assert_eq!(reason_of_line(&full_of_rules(), b"_ ^ r"), 0);
}

#[test]
fn rule_line_neighbours() {
    let fresh = Table::fresh();
    // 1 before 2, and 601 blanks are not skipped.
    assert_eq!(reason_of_line(&fresh, &padded(b"A B", 601)), 1);
    assert_eq!(reason_of_line(&fresh, &padded(b"A B", 600)), 2);
    assert_eq!(reason_of_line(&fresh, &padded(b"", 601)), 1);
    // 2 before 3
    assert_eq!(reason_of_line(&fresh, b"A/ B"), 2);
    assert_eq!(reason_of_line(&fresh, b"A/ B r w"), 2);
    // 3 before 4, for the subject and for the object
    assert_eq!(reason_of_line(&fresh, b"A/ B q"), 3);
    assert_eq!(reason_of_line(&fresh, b"A B/ q"), 3);
    // 3 before 5: two equal labels that are no labels
    assert_eq!(reason_of_line(&fresh, b"A/ A/ r"), 3);
    // 4 before 5
    assert_eq!(reason_of_line(&fresh, b"A A q"), 4);
    // 5 before 6, 5 before 7
    assert_eq!(reason_of_line(&full_of_labels(), b"New New r"), 5);
    assert_eq!(reason_of_line(&full_of_rules(), b"N0 N0 r"), 5);
    // 4 before 6, 4 before 7
    assert_eq!(reason_of_line(&full_of_labels(), b"New N0 q"), 4);
    assert_eq!(reason_of_line(&full_of_rules(), b"N14 N13 q"), 4);
    // 6 before 7
    assert_eq!(reason_of_line(&full_of_both(), b"New N0 r"), 6);
    // 7 where there is room for labels: the label does not enter.
    assert_eq!(reason_of_line(&full_of_rules(), b"New N0 r"), 7);
}

#[test]
fn six_counts_different_new_labels() {
    let mut table = Table::fresh();
    fill_labels(&mut table, 62);
    assert_eq!(reason_of_line(&table, b"X Y r"), 0);
    fill_labels(&mut table, 63);
    assert_eq!(reason_of_line(&table, b"X Y r"), 6);
    assert_eq!(reason_of_line(&table, b"X N0 r"), 0);
    // A repeat in an override list counts once.
    let mut copy = table.clone();
    assert_eq!(copy.override_write(b"X X N0 X"), Ok(()));
    assert_eq!(refused_override(&table, b"X Y"), 6);
}

// --- change 1 2 3 4 5 6 7 ----------------------------------------------------

#[test]
fn change() {
    let fresh = Table::fresh();
    let mut copy = fresh.clone();
    assert_eq!(copy.change(&padded(b"A B r w", 600)), Ok(()));
    assert_eq!(refused_change(&fresh, &padded(b"A B r w", 601)), 1);
    for write in ["", " ", "A", "A B", "A B r", "A B r w x", "A B r w \n"] {
        assert_eq!(refused_change(&fresh, write.as_bytes()), 2, "{write:?}");
    }
    for write in [
        "A/ B r w",
        "A -B r w",
        "A\nB C r w",
        "A B\n r w",
        "\nA B r w",
    ] {
        assert_eq!(refused_change(&fresh, write.as_bytes()), 3, "{write:?}");
    }
    for write in [
        "A B q w",
        "A B r q",
        "A B b -",
        "A B - B",
        "A B r w\n",
        "A B r\n w",
    ] {
        assert_eq!(refused_change(&fresh, write.as_bytes()), 4, "{write:?}");
    }
    assert_eq!(refused_change(&fresh, b"A A r w"), 5);
    assert_eq!(refused_change(&full_of_labels(), b"New N0 r w"), 6);
    assert_eq!(refused_change(&full_of_rules(), b"N14 N13 r w"), 7);
    let mut copy = full_of_rules();
    assert_eq!(copy.change(b"_ ^ w r"), Ok(()));
}

#[test]
fn change_neighbours() {
    let fresh = Table::fresh();
    assert_eq!(refused_change(&fresh, &padded(b"A B", 601)), 1);
    assert_eq!(refused_change(&fresh, &padded(b"", 601)), 1);
    assert_eq!(refused_change(&fresh, b"A/ B q"), 2);
    assert_eq!(refused_change(&fresh, b"A/ B q q"), 3);
    assert_eq!(refused_change(&fresh, b"A B/ b q"), 3);
    assert_eq!(refused_change(&fresh, b"A A q w"), 4);
    assert_eq!(refused_change(&fresh, b"A A r b"), 4);
    assert_eq!(refused_change(&full_of_labels(), b"New New r w"), 5);
    assert_eq!(refused_change(&full_of_rules(), b"N0 N0 r w"), 5);
    assert_eq!(refused_change(&full_of_both(), b"New N0 r w"), 6);
    assert_eq!(refused_change(&full_of_rules(), b"New N0 r w"), 7);
}

// --- revoke 1 3 ----------------------------------------------------------------

#[test]
fn revoke() {
    let table = loaded("A B r\n");
    assert_eq!(refused_revoke(&table, &[b'A'; 601]), 1);
    for write in ["", " ", " A", "A ", "A B", "A\n", "-", "-A", "A/", "\t"] {
        assert_eq!(refused_revoke(&table, write.as_bytes()), 3, "{write:?}");
    }
    assert_eq!(refused_revoke(&table, &[b'A'; 256]), 3);
    assert_eq!(refused_revoke(&table, &[b'A'; 600]), 3);
    assert_eq!(refused_revoke(&table, &[b'/'; 600]), 3);
    // 1 before 3
    assert_eq!(refused_revoke(&table, &[b'/'; 601]), 1);
    assert_eq!(refused_revoke(&table, &[b' '; 601]), 1);
}

// --- override list 1 2 3 11 6 --------------------------------------------------

#[test]
fn override_list() {
    let fresh = Table::fresh();
    assert_eq!(refused_override(&fresh, &padded(b"A", 601)), 1);
    let mut copy = fresh.clone();
    assert_eq!(copy.override_write(&padded(b"A", 600)), Ok(()));
    assert_eq!(copy.override_write(&padded(b"-", 600)), Ok(()));
    for write in ["", " ", "\t \t"] {
        assert_eq!(refused_override(&fresh, write.as_bytes()), 2, "{write:?}");
    }
    for write in ["- -", "A -", "- A", "--", "-A", "A/", "A B\n", "\n", "-\n"] {
        assert_eq!(refused_override(&fresh, write.as_bytes()), 3, "{write:?}");
    }
    assert_eq!(refused_override(&fresh, b"1 2 3 4 5 6 7 8 9"), 11);
    assert_eq!(refused_override(&fresh, b"_ ^ * ? @ 6 7 8 9"), 11);
    assert_eq!(refused_override(&full_of_labels(), b"New"), 6);
    assert_eq!(refused_override(&full_of_labels(), b"N0 New"), 6);
}

#[test]
fn override_list_neighbours() {
    let fresh = Table::fresh();
    // 1 before 2
    assert_eq!(refused_override(&fresh, &padded(b"", 601)), 1);
    // 1 before 3; a dash too
    assert_eq!(refused_override(&fresh, &padded(b"A/", 601)), 1);
    assert_eq!(refused_override(&fresh, &padded(b"-", 601)), 1);
    // 3 before 11, wherever the bad one stands
    assert_eq!(refused_override(&fresh, b"1 2 3 4 5 6 7 8 9 /"), 3);
    assert_eq!(refused_override(&fresh, b"/ 1 2 3 4 5 6 7 8 9"), 3);
    assert_eq!(refused_override(&fresh, b"1 2 3 4 5 6 7 8 9 -"), 3);
    // 3 before 6
    assert_eq!(refused_override(&full_of_labels(), b"New /"), 3);
    // 11 before 6
    assert_eq!(
        refused_override(&full_of_labels(), b"1 2 3 4 5 6 7 8 9"),
        11
    );
    assert_eq!(refused_override(&full_of_labels(), b"1 2 3 4 5 6 7 8"), 6);
}

#[test]
fn a_refused_override_write_keeps_the_list() {
    let mut table = Table::fresh();
    table.override_write(b"A B").unwrap();
    for write in ["", "- -", "1 2 3 4 5 6 7 8 9", "C D/"] {
        refused_override(&table, write.as_bytes());
    }
}

// --- mapping 1 2 3 9 6 10 --------------------------------------------------------

#[test]
fn mapping() {
    let fresh = Table::fresh();
    let mut copy = fresh.clone();
    assert_eq!(copy.mapping(&padded(b"V 1", 1000)), Ok(()));
    assert_eq!(refused_mapping(&fresh, &padded(b"V 1", 1001)), 1);
    for write in ["", " ", "V", " V "] {
        assert_eq!(refused_mapping(&fresh, write.as_bytes()), 2, "{write:?}");
    }
    for write in ["-V 1", "V/ 1", "V\nW 1", "- 1"] {
        assert_eq!(refused_mapping(&fresh, write.as_bytes()), 3, "{write:?}");
    }
    for write in [
        "V 250",
        "V 256",
        "V 999",
        "V 0001",
        "V 1000",
        "V +1",
        "V -1",
        "V -",
        "V x",
        "V 1x",
        "V 1\n",
        "V \n",
        "V 1 0",
        "V 1 185",
        "V 1 256",
        "V 1 0184",
        "V 1 0001",
        "V 1 1 x",
        "V 1 -",
        "V 1 1 \n",
        "V 1 \u{663}",
    ] {
        assert_eq!(refused_mapping(&fresh, write.as_bytes()), 9, "{write:?}");
    }
    assert_eq!(refused_mapping(&full_of_labels(), b"New 1"), 6);
    let mut table = full_of_labels();
    fill_mappings(&mut table, 31);
    let mut copy = table.clone();
    assert_eq!(copy.mapping(b"N30 1"), Ok(()));
    fill_mappings(&mut table, 32);
    assert_eq!(refused_mapping(&table, b"N30 1"), 10);
    let mut copy = table.clone();
    assert_eq!(copy.mapping(b"_ 255 63"), Ok(()));
    assert_eq!(copy.mappings.len(), 32);
    assert_eq!(
        copy.mappings[0],
        Mapping {
            label: 0,
            level: 255,
            set: Categories::from([63])
        }
    );
}

#[test]
fn mapping_neighbours() {
    let fresh = Table::fresh();
    // 1 before 2
    assert_eq!(refused_mapping(&fresh, &padded(b"V", 1001)), 1);
    assert_eq!(refused_mapping(&fresh, &padded(b"", 1001)), 1);
    // 2 before 3
    assert_eq!(refused_mapping(&fresh, b"V/"), 2);
    // 3 before 9
    assert_eq!(refused_mapping(&fresh, b"V/ 256"), 3);
    assert_eq!(refused_mapping(&fresh, b"V/ 1 185"), 3);
    // 9 before 6
    assert_eq!(refused_mapping(&full_of_labels(), b"New 256"), 9);
    assert_eq!(refused_mapping(&full_of_labels(), b"New 1 0"), 9);
    // 6 before 10
    let mut table = full_of_labels();
    fill_mappings(&mut table, 32);
    assert_eq!(refused_mapping(&table, b"New 1"), 6);
    // 9 before 10
    assert_eq!(refused_mapping(&table, b"N40 256"), 9);
    // 10 where there is room for the label: it does not enter.
    let mut table = Table::fresh();
    fill_labels(&mut table, 40);
    fill_mappings(&mut table, 32);
    assert_eq!(refused_mapping(&table, b"New 1"), 10);
}

// --- look-ups: 3; 9 ----------------------------------------------------------------

#[test]
fn by_label() {
    let table = Table::fresh();
    for (label, place) in [
        ("", 0),
        ("-", 0),
        ("V/", 1),
        (" V", 0),
        ("V ", 1),
        ("V\n", 1),
    ] {
        assert_eq!(
            table.by_label(label.as_bytes()),
            Err(Refusal::BadLabel { place }),
            "{label:?}"
        );
    }
    let too_long = Err(Refusal::BadLabel { place: 255 });
    assert_eq!(table.by_label(&[b'V'; 255]), Ok(None));
    assert_eq!(table.by_label(&[b'V'; 256]), too_long);
    // A look-up is no write: never 1.
    assert_eq!(table.by_label(&[b'V'; 601]), too_long);
}

#[test]
fn by_level_and_run() {
    let table = Table::fresh();
    let bad = Err(Refusal::BadLevelOrCategory);
    let none = [0; 3];
    for (level, set) in [
        (256, none),
        (u64::MAX, none),
        (0, [0, 0, 1]),
        (0, [0, 0, 128]),
        (0, [u64::MAX; 3]),
        (256, [0, 0, 1]),
    ] {
        assert_eq!(table.by_level(level, &set), bad);
        assert_eq!(
            search_run(&[], level, &set),
            Err(Refusal::BadLevelOrCategory)
        );
    }
    let all = [u64::MAX, u64::MAX, u64::MAX - 255];
    assert_eq!(table.by_level(255, &all), Ok(None));
    // A level is not cut to a byte.
    let mut table = Table::fresh();
    table.mapping(b"V 0").unwrap();
    assert_eq!(table.by_level(256, &none), bad);
}

// --- question 3 8 ---------------------------------------------------------------------

#[test]
fn question() {
    let table = loaded("A B r\n");
    let bad_label = |place| Answer::Refused(Refusal::BadLabel { place });
    let bad_request = Answer::Refused(Refusal::BadRequest);
    for (subject, object, place) in [
        ("", "B", 0),
        ("A", "", 0),
        ("-", "B", 0),
        ("A", "B/", 1),
        ("A ", "B", 1),
    ] {
        assert_eq!(ask(&table, subject, object, "r"), bad_label(place));
        // 3 before 8
        assert_eq!(ask(&table, subject, object, "q"), bad_label(place));
        assert_eq!(ask(&table, subject, object, ""), bad_label(place));
    }
    let too_long = bad_label(255);
    assert_eq!(table.question(&[b'A'; 256], b"B", b"r", true), too_long);
    assert_eq!(table.question(b"B", &[b'A'; 601], b"r", true), too_long);
    for request in [
        "", "-", "r-", "t", "b", "rt", "rb", "q", " r", "r\n", "l", "0",
    ] {
        assert_eq!(ask(&table, "A", "B", request), bad_request, "{request:?}");
        // Refusals come before the rules and before the override.
        assert_eq!(ask(&table, "*", "B", request), bad_request);
        assert_eq!(ask(&table, "A", "A", request), bad_request);
        assert_eq!(
            table.question(b"B", b"A", request.as_bytes(), true),
            bad_request
        );
    }
}

// --- listing 13 12; label by number 13 ---------------------------------------------------

#[test]
fn listing_and_label_by_number() {
    let table = loaded("Alarm Air rx\n");
    let mut buffer = [9; 12];
    assert_eq!(table.list(0, &mut buffer), Err(Refusal::OutputTooShort));
    assert_eq!(table.list(1, &mut buffer), Err(Refusal::NoSuchNumber));
    // 13 before 12
    assert_eq!(table.list(999, &mut []), Err(Refusal::NoSuchNumber));
    assert_eq!(table.list(u64::MAX, &mut []), Err(Refusal::NoSuchNumber));
    assert_eq!(buffer, [9; 12]);

    assert_eq!(table.label(6), b"Air");
    assert_eq!(table.label_check(6), Ok(()));
    for k in [7, 64, 1 << 32, u64::MAX] {
        assert_eq!(table.label(k), b"");
        assert_eq!(table.label_check(k), Err(Refusal::NoSuchNumber));
    }
}
