//! The examples of the paper, every line of "Either side of a limit", "Ways to
//! get it nearly right", and the demands as far as running can show them.

mod common;

use common::*;
use second::plain::*;

// --- Labels ---------------------------------------------------------------

#[test]
fn the_classes_of_all_bytes() {
    for byte in 0..=255u8 {
        let expected = if byte == 32 || byte == 9 {
            Class::Blank
        } else if byte == 10 {
            Class::Newline
        } else if (33..=126).contains(&byte) && !b"/\\'\"".contains(&byte) {
            Class::Label
        } else {
            Class::Other
        };
        assert_eq!(class_of(byte), expected, "{byte}");
        // A single byte is a label exactly when it is a label byte and no dash.
        let alone = expected == Class::Label && byte != b'-';
        assert_eq!(is_well_formed(&[byte]), alone, "{byte}");
    }
    assert_eq!(class_of(b'-'), Class::Label);
}

#[test]
fn label_forms() {
    for good in ["a-", "A-B", "!", "#", "~", ".", "**", "^^", "_x", "\u{21}"] {
        assert!(is_well_formed(good.as_bytes()), "{good}");
    }
    for bad in [
        "", "-", "--", "-x", "a/b", "a\\", "'", "a\"b", "a b", "a\tb", "a\n", "a\u{7f}",
    ] {
        assert!(!is_well_formed(bad.as_bytes()), "{bad:?}");
    }
    assert!(is_well_formed(&[b'L'; 255]));
    assert!(!is_well_formed(&[b'L'; 256]));
    assert!(!is_well_formed(b"a\0"));
    assert!(!is_well_formed(b"a\x80"));
}

#[test]
fn the_five_labels() {
    let table = Table::fresh();
    let five: Vec<&[u8]> = vec![b"_", b"^", b"*", b"?", b"@"];
    assert_eq!(table.labels, five);
    for (k, label) in five.iter().enumerate() {
        assert_eq!(table.label(k as u64), *label);
    }
    assert!(table.rules.is_empty() && table.mappings.is_empty() && table.override_list.is_empty());
}

#[test]
fn labels_enter_in_the_order_written_and_never_leave() {
    let mut table = loaded("S O r\nO T w\n");
    table.change(b"C D r w").unwrap();
    table.mapping(b"M 1").unwrap();
    table.override_write(b"V U V S").unwrap();
    let names: Vec<&[u8]> = vec![b"S", b"O", b"T", b"C", b"D", b"M", b"V", b"U"];
    assert_eq!(&table.labels[5..], names);
    // A revoke, look-ups, questions and refused writes enter nothing.
    let before = table.clone();
    assert_eq!(table.revoke(b"Unknown"), Ok(0));
    assert_eq!(table.by_label(b"Unknown"), Ok(None));
    ask(&table, "Unknown", "Other", "r");
    assert_eq!(table.mapping(b"New 256"), Err(Refusal::BadLevelOrCategory));
    assert_eq!(table, before);
    table.revoke(b"S").unwrap();
    table.override_write(b"-").unwrap();
    assert_eq!(table.labels, before.labels);
}

#[test]
fn case_and_every_byte_of_a_label_count() {
    let table = loaded("Air Probe r\nair Probe w\n");
    assert_eq!(table.rules.len(), 2);
    assert_eq!(ask(&table, "Air", "Probe", "w"), denied(7));
    assert_eq!(ask(&table, "air", "Probe", "w"), granted(6));
}

// --- Modes ----------------------------------------------------------------

#[test]
fn letters_read_and_written() {
    let (line, change) = (LINE_PLACEHOLDERS, CHANGE_PLACEHOLDERS);
    for placeholders in [line, change] {
        assert_eq!(read_access(b"a-r", placeholders), Some(A | R));
        assert_eq!(read_access(b"-", placeholders), Some(0));
        assert_eq!(read_access(b"-----", placeholders), Some(0));
        assert_eq!(read_access(b"taxwr", placeholders), Some(62));
        assert_eq!(read_access(b"l", placeholders), None);
    }
    assert_eq!(read_access(b"rRb", line), Some(R));
    assert_eq!(read_access(b"b", change), None);
    assert_eq!(read_access(b"B", change), None);
    assert_eq!(write_modes(62), b"rwxat");
    assert_eq!(write_modes(0), b"-");
    assert_eq!((R, W, X, A, T), (32, 16, 8, 4, 2));
    // What is written is read back, for every set of letters.
    for modes in (0..64).step_by(2) {
        assert_eq!(read_access(&write_modes(modes), line), Some(modes));
        assert_eq!(read_access(&write_modes(modes), change), Some(modes));
    }
    // Only these bytes are allowed, in either case.
    for byte in 0..=255u8 {
        let in_line = b"rwxatbRWXATB-".contains(&byte);
        let in_change = b"rwxatRWXAT-".contains(&byte);
        let in_request = b"rwxaRWXA".contains(&byte);
        assert_eq!(read_access(&[byte], line).is_some(), in_line, "{byte}");
        assert_eq!(read_access(&[byte], change).is_some(), in_change, "{byte}");
        assert_eq!(read_request(&[byte]).is_some(), in_request, "{byte}");
    }
    assert_eq!(read_request(b"rRwW"), Some(R | W));
    assert_eq!(read_request(b""), None);
}

// --- Rule text ------------------------------------------------------------

#[test]
fn blanks_around_and_between_fields() {
    let table = loaded(" \tA  \t B\t\trw \t\n");
    assert_eq!(table.rules, vec![(5, 6, R | W)]);
}

#[test]
fn control_bytes_are_bytes_of_a_field() {
    let table = Table::fresh();
    assert_eq!(reason_of_line(&table, b"A B r\r"), 4);
    assert_eq!(reason_of_line(&table, b"A B r \r"), 2);
    assert_eq!(reason_of_line(&table, b"\r"), 2);
    assert_eq!(reason_of_line(&table, b"A\x0bB C r"), 3);
    assert_eq!(reason_of_line(&table, b"A\0 B r"), 3);
    assert_eq!(reason_of_line(&table, b"A B\xa0 r"), 3);
    assert_eq!(reason_of_line(&table, b"A B r\0"), 4);
}

#[test]
fn the_end_call() {
    let mut table = Table::fresh();
    let mut loader = Loader::fresh();
    // Right after a newline there is no further line.
    loader.piece(&mut table, b"A B r\n");
    let report = loader.end(&mut table);
    assert_eq!((report.lines, report.accepted), (1, 1));
    // Twice in a row: the second report is all zeros.
    assert_eq!(loader.end(&mut table), Loader::fresh().report());
    assert_eq!(loader, Loader::fresh());
    // One blank is a line, skipped; nothing at all is none.
    loader.piece(&mut table, b" ");
    let report = loader.end(&mut table);
    assert_eq!((report.lines, report.skipped), (1, 1));
    // Bytes after the last newline are one more line.
    loader.piece(&mut table, b"\nC D r");
    assert_eq!(table.rules.len(), 1);
    let report = loader.end(&mut table);
    assert_eq!((report.lines, report.skipped, report.accepted), (2, 1, 1));
    assert_eq!(table.rules.len(), 2);
}

#[test]
fn the_report_names_the_first_refused_line() {
    let mut table = Table::fresh();
    let text = b"A B r\n\nA A r\nA B q\n  \nA B w\nbad\n";
    let report = load_into(&mut table, text);
    let expected = Report {
        lines: 7,
        accepted: 2,
        skipped: 2,
        refused: 3,
        first_line: 3,
        first_reason: 5,
        first_place: 0,
        bringup: 0,
    };
    assert_eq!(report, expected);
    assert_eq!(table.rules, vec![(5, 6, W)]);
}

#[test]
fn report_numbers_are_limited_each_by_itself() {
    let mut table = Table::fresh();
    let mut loader = Loader::fresh();
    loader.lines = 4_294_967_294;
    loader.accepted = 4_294_967_290;
    loader.piece(&mut table, b"\n\n\nA A r\n");
    assert_eq!(loader.lines, 4_294_967_298);
    let report = loader.end(&mut table);
    let expected = Report {
        lines: 4_294_967_295,
        accepted: 4_294_967_290,
        skipped: 3,
        refused: 1,
        first_line: 4_294_967_295,
        first_reason: 5,
        first_place: 0,
        bringup: 0,
    };
    assert_eq!(report, expected);
}

#[test]
fn an_accepted_line_sets_its_pair_wholly_in_its_place() {
    let mut table = loaded("A B rwxat\nC D r\n");
    let report = load_into(&mut table, b"A B t\nA B t\n");
    assert_eq!(report.accepted, 2);
    assert_eq!(table.rules, vec![(5, 6, T), (7, 8, R)]);
}

#[test]
fn a_single_write_while_a_line_is_under_way_acts_at_once() {
    let mut table = Table::fresh();
    let mut loader = Loader::fresh();
    loader.piece(&mut table, b"A B r");
    table.change(b"B A w -").unwrap();
    assert_eq!(ask(&table, "B", "A", "w"), granted(6));
    assert_eq!(ask(&table, "A", "B", "r"), denied(7));
    loader.piece(&mut table, b"w\n");
    assert_eq!(ask(&table, "A", "B", "rw"), granted(6));
    // Judged against the table as it then is.
    assert_eq!(table.rules, vec![(5, 6, W), (6, 5, R | W)]);
}

// --- Single writes --------------------------------------------------------

#[test]
fn change() {
    let mut table = loaded("A B r\n");
    table.change(b" A\tB wa w ").unwrap();
    assert_eq!(table.rules, vec![(5, 6, R | A)]);
    table.change(b"A B - rwxat").unwrap();
    assert_eq!(table.rules, vec![(5, 6, 0)]);
    // A pair without a rule gets one, last, even for nothing at all.
    table.change(b"C D - -").unwrap();
    assert_eq!(table.rules, vec![(5, 6, 0), (7, 8, 0)]);
    table.change(b"C D RWr- -X").unwrap();
    assert_eq!(table.rules[1], (7, 8, R | W));
}

#[test]
fn revoke() {
    let mut table = loaded("A B r\nC B w\nA C rwxat\nB A r\nA _ -\n");
    assert_eq!(table.revoke(b"A"), Ok(3));
    assert_eq!(
        table.rules,
        vec![(5, 6, 0), (7, 6, W), (5, 7, 0), (6, 5, R), (5, 0, 0)]
    );
    // Rules without modes are counted too.
    assert_eq!(table.revoke(b"A"), Ok(3));
    assert_eq!(table.revoke(b"_"), Ok(0));
    assert_eq!(table.revoke(b"Nobody"), Ok(0));
}

#[test]
fn override_list() {
    let mut table = Table::fresh();
    table.override_write(b"B A B _ A").unwrap();
    assert_eq!(table.override_list, vec![5, 6, 0]);
    table.override_write(b" A ").unwrap();
    assert_eq!(table.override_list, vec![6]);
    table.override_write(b"\t- ").unwrap();
    assert!(table.override_list.is_empty());
    table.override_write(b"1 2 3 4 5 6 7 8 1 8").unwrap();
    assert_eq!(table.override_list, (7..15).collect::<Vec<usize>>());
    // Three hundred fields.
    let many = vec![&b"A"[..]; 300].join(&b' ');
    assert_eq!(many.len(), 599);
    table.override_write(&many).unwrap();
    assert_eq!(table.override_list, vec![6]);
}

#[test]
fn mapping() {
    let mut table = Table::fresh();
    table.mapping(b"V 9").unwrap();
    table.mapping(b"W 255 63 1 63 001").unwrap();
    table.mapping(b"V 000 05").unwrap();
    let five = Categories::from([5]);
    assert_eq!(
        table.mappings,
        vec![
            Mapping {
                label: 5,
                level: 0,
                set: five.clone()
            },
            Mapping {
                label: 6,
                level: 255,
                set: Categories::from([1, 63])
            },
        ]
    );
    let found = Found {
        level: 0,
        set: five,
        count: 1,
    };
    assert_eq!(table.by_label(b"V"), Ok(Some(found)));
    assert_eq!(table.by_label(b"_"), Ok(None));
    // All categories.
    let mut all = b"U 1".to_vec();
    for category in 1..=184 {
        all.extend_from_slice(format!(" {category}").as_bytes());
    }
    table.mapping(&all).unwrap();
    let found = table.by_label(b"U").unwrap().unwrap();
    assert_eq!(found.count, 184);
    assert_eq!(words_of(&found.set), [u64::MAX, u64::MAX, u64::MAX - 255]);
}

#[test]
fn a_set_is_counted_in_categories() {
    for category in 1..=184u64 {
        let mut table = Table::fresh();
        table.mapping(format!("V 1 {category}").as_bytes()).unwrap();
        let found = table.by_label(b"V").unwrap().unwrap();
        let words = match category {
            1..=64 => [1 << (64 - category), 0, 0],
            65..=128 => [0, 1 << (128 - category), 0],
            _ => [0, 0, 1 << (192 - category)],
        };
        assert_eq!(words_of(&found.set), words);
        assert_eq!(set_of(&words), Some(found.set));
        assert_eq!(found.count, 1);
    }
}

#[test]
fn look_up_by_level_and_set() {
    let mut table = Table::fresh();
    for write in ["A 1", "B 9 1", "C 9 2", "A 9 1", "_ 3"] {
        table.mapping(write.as_bytes()).unwrap();
    }
    let (none, one, two) = ([0; 3], [1 << 63, 0, 0], [1 << 62, 0, 0]);
    // The lowest label number, not the first mapping.
    assert_eq!(table.by_level(9, &one), Ok(Some(5)));
    table.mapping(b"A 8 1").unwrap();
    assert_eq!(table.by_level(9, &one), Ok(Some(6)));
    assert_eq!(table.by_level(9, &two), Ok(Some(7)));
    assert_eq!(table.by_level(3, &none), Ok(Some(0)));
    assert_eq!(table.by_level(9, &none), Ok(None));
    assert_eq!(table.by_level(1, &none), Ok(None));
    table.mapping(b"^ 9 1").unwrap();
    assert_eq!(table.by_level(9, &one), Ok(Some(1)));
    assert_eq!(table.mappings.last().unwrap().label, 1);
}

#[test]
fn search_of_a_run() {
    let record = |label, level, set| Record { label, level, set };
    let (none, two, three) = ([0; 3], [2, 0, 0], [2, 0, 1]);
    let run = [
        record(200, 9, two),
        record(70, 9, two),
        record(3, 9, [4, 0, 0]),
        record(3, 8, two),
        record(71, 9, two),
        record(0, 9, three),
    ];
    assert_eq!(search_run(&run, 9, &two), Ok(Some(70)));
    assert_eq!(search_run(&run, 9, &[4, 0, 0]), Ok(Some(3)));
    assert_eq!(search_run(&run, 7, &two), Ok(None));
    assert_eq!(search_run(&[], 7, &two), Ok(None));
    assert_eq!(search_run(&run[..1], 9, &two), Ok(Some(200)));
    // A record's set may hold a bit that is no category; no look-up may.
    let bad = Err(Refusal::BadLevelOrCategory);
    assert_eq!(search_run(&run, 9, &three), bad);
    assert_eq!(search_run(&[], 256, &none), bad);
    // Many records.
    let mut long = vec![record(9, 1, none); 5000];
    long.push(record(8, 1, none));
    assert_eq!(search_run(&long, 1, &none), Ok(Some(8)));
}

#[test]
fn on_a_grown_table_both_searches_agree() {
    let mut table = Table::fresh();
    for write in ["B 9 1", "A 9 184", "C 1", "_ 9 1", "D 1", "A 1", "E 9 65"] {
        table.mapping(write.as_bytes()).unwrap();
    }
    let run: Vec<Record> = table
        .mappings
        .iter()
        .map(|m| Record {
            label: m.label as u64,
            level: u64::from(m.level),
            set: words_of(&m.set),
        })
        .collect();
    for level in [0, 1, 9, 255, 256] {
        for set in [
            [0; 3],
            [0, 0, 1],
            [1 << 63, 0, 0],
            [0, 1 << 63, 0],
            [0, 0, 256],
        ] {
            let in_table = table.by_level(level, &set).map(|n| n.map(|n| n as u64));
            assert_eq!(in_table, search_run(&run, level, &set));
        }
    }
}

// --- Questions ------------------------------------------------------------

#[test]
fn the_seven_rules_in_order() {
    let table = loaded("A B rwx\nA _ w\n^ A w\n* A r\nA * -\n? A r\n");
    assert_eq!(ask(&table, "*", "A", "r"), denied(1));
    assert_eq!(ask(&table, "^", "A", "rx"), granted(2));
    assert_eq!(ask(&table, "^", "_", "r"), granted(2));
    assert_eq!(ask(&table, "^", "A", "w"), granted(6));
    assert_eq!(ask(&table, "A", "_", "xr"), granted(3));
    assert_eq!(ask(&table, "A", "_", "w"), granted(6));
    assert_eq!(ask(&table, "A", "_", "rw"), denied(7));
    assert_eq!(ask(&table, "A", "*", "rwxa"), granted(4));
    assert_eq!(ask(&table, "A", "A", "rwxa"), granted(5));
    assert_eq!(ask(&table, "A", "B", "RwW"), granted(6));
    assert_eq!(ask(&table, "A", "B", "a"), denied(7));
    assert_eq!(ask(&table, "B", "A", "r"), denied(7));
    // The last two of the five have no special rule.
    assert_eq!(ask(&table, "@", "A", "r"), denied(7));
    assert_eq!(ask(&table, "A", "@", "r"), denied(7));
    assert_eq!(ask(&table, "A", "?", "r"), denied(7));
    assert_eq!(ask(&table, "?", "A", "r"), granted(6));
    // Labels that only begin like the five are ordinary.
    assert_eq!(ask(&table, "**", "A", "r"), denied(7));
    assert_eq!(ask(&table, "^^", "A", "r"), denied(7));
    assert_eq!(ask(&table, "A", "__", "r"), denied(7));
    // Labels that the table does not know.
    assert_eq!(ask(&table, "Unknown", "Unknown", "rwxa"), granted(5));
    assert_eq!(ask(&table, "Unknown", "Other", "r"), denied(7));
    assert_eq!(ask(&table, "Unknown", "_", "x"), granted(3));
    assert_eq!(ask(&table, "Unknown", "*", "w"), granted(4));
}

#[test]
fn a_rule_of_t_alone_grants_nothing() {
    let table = loaded("A B t\n");
    for request in ["r", "w", "x", "a"] {
        assert_eq!(ask(&table, "A", "B", request), denied(7));
    }
}

#[test]
fn override_capability() {
    let mut table = loaded("A B r\n");
    let ask = |table: &Table, subject: &[u8], object: &[u8], request: &[u8]| {
        table.question(subject, object, request, true)
    };
    let by_override = |rule| Answer::Override { rule };
    // The list is empty: it counts for all, even a label that is not stored.
    assert_eq!(ask(&table, b"B", b"A", b"w"), by_override(7));
    assert_eq!(ask(&table, b"Unknown", b"A", b"w"), by_override(7));
    assert_eq!(ask(&table, b"*", b"A", b"w"), by_override(1));
    // A grant stays a grant, a refusal a refusal.
    assert_eq!(ask(&table, b"A", b"B", b"r"), granted(6));
    assert_eq!(
        ask(&table, b"A", b"B", b"t"),
        Answer::Refused(Refusal::BadRequest)
    );
    table.override_write(b"B").unwrap();
    assert_eq!(ask(&table, b"B", b"A", b"w"), by_override(7));
    assert_eq!(ask(&table, b"A", b"B", b"w"), denied(7));
    assert_eq!(ask(&table, b"*", b"B", b"w"), denied(1));
    assert_eq!(ask(&table, b"Unknown", b"A", b"w"), denied(7));
    // It is the subject that counts, and only with the capability.
    assert_eq!(table.question(b"B", b"A", b"w", false), denied(7));
    table.override_write(b"* Q").unwrap();
    assert_eq!(ask(&table, b"*", b"B", b"w"), by_override(1));
    assert_eq!(ask(&table, b"Q", b"B", b"w"), by_override(7));
    table.override_write(b"-").unwrap();
    assert_eq!(ask(&table, b"A", b"B", b"w"), by_override(7));
}

#[test]
fn no_limit_on_the_length_of_a_request() {
    let table = loaded("A B r\n");
    assert_eq!(table.question(b"A", b"B", &[b'r'; 5000], false), granted(6));
}

// --- Listing --------------------------------------------------------------

#[test]
fn the_listing_of_the_paper() {
    let table = loaded("Probe3 Air w\nAlarm Air Rx\nDesk Alarm -\n");
    assert_eq!(
        listing(&table),
        b"Probe3 Air w\nAlarm Air rx\nDesk Alarm -\n"
    );
}

#[test]
fn listing_goes_to_the_front_of_the_buffer() {
    let table = loaded("Alarm Air Rx\n");
    let mut buffer = [7; 16];
    assert_eq!(table.list(0, &mut buffer), Ok(13));
    assert_eq!(&buffer, b"Alarm Air rx\n\x07\x07\x07");
    let mut exact = [7; 13];
    assert_eq!(table.list(0, &mut exact), Ok(13));
    let mut short = [7; 12];
    assert_eq!(table.list(0, &mut short), Err(Refusal::OutputTooShort));
    assert_eq!(short, [7; 12]);
}

// --- Either side of a limit -------------------------------------------------

#[test]
fn p1_to_p6() {
    let table = Table::fresh();
    assert_eq!(ask(&table, "*", "_", "r"), denied(1)); // P1
    assert_eq!(ask(&table, "^", "Door", "rx"), granted(2)); // P2
    assert_eq!(ask(&table, "Door", "_", "rw"), denied(7)); // P3
    assert_eq!(ask(&table, "^", "*", "rw"), granted(4)); // P4
    assert_eq!(ask(&table, "*", "*", "r"), denied(1)); // P5
    assert_eq!(ask(&table, "Door", "Door", "rwxa"), granted(5)); // P6
}

#[test]
fn p7_to_p10() {
    let table = loaded("Probe3 Air w");
    assert_eq!(ask(&table, "Probe3", "Air", "w"), granted(6)); // P7
    assert_eq!(ask(&table, "Probe3", "Air", "rw"), denied(7)); // P8
    assert_eq!(ask(&table, "Air", "Probe3", "w"), denied(7)); // P9
    let table = loaded("Probe3 Air rRb");
    assert_eq!(ask(&table, "Probe3", "Air", "r"), granted(6)); // P10
}

#[test]
fn p11_and_p12() {
    let mut table = loaded("A B r");
    table.change(b"A B wa w").unwrap(); // P11
    assert_eq!(table.rules, vec![(5, 6, R | A)]);
    let mut table = Table::fresh();
    table.mapping(b"Vault7 9 1 63").unwrap(); // P12
    let found = Found {
        level: 9,
        set: Categories::from([1, 63]),
        count: 2,
    };
    assert_eq!(table.by_label(b"Vault7"), Ok(Some(found)));
}

#[test]
fn labels_of_255_and_256_bytes() {
    let mut table = Table::fresh();
    let mut one = vec![b'L'; 255];
    let mut other = one.clone();
    one[254] = b'1';
    other[254] = b'2';
    let line = [&one[..], b" ", &other[..], b" r"].concat();
    assert_eq!(load_into(&mut table, &line).accepted, 1);
    assert_eq!(table.labels.len(), 7);
    assert_eq!(table.rules, vec![(5, 6, R)]);
    let line = [&one[..], b"x Air r"].concat();
    assert_eq!(reason_of_line(&table, &line), 3);
    let line = [b"Air ", &one[..], b"x r"].concat();
    assert_eq!(reason_of_line(&table, &line), 3);
}

#[test]
fn blanks_of_600_and_601_bytes() {
    let mut table = Table::fresh();
    for ending in ["", "\n"] {
        let text = [&vec![b' '; 600][..], ending.as_bytes()].concat();
        let report = load_into(&mut table, &text);
        assert_eq!((report.lines, report.skipped, report.refused), (1, 1, 0));
        let text = [&vec![b'\t'; 601][..], ending.as_bytes()].concat();
        let report = load_into(&mut table, &text);
        assert_eq!((report.lines, report.skipped, report.refused), (1, 0, 1));
        assert_eq!((report.first_line, report.first_reason), (1, 1));
    }
}

#[test]
fn with_63_labels() {
    let mut table = Table::fresh();
    fill_labels(&mut table, 63);
    assert_eq!(reason_of_line(&table, b"X Y r"), 6);
    assert!(table.number_of(b"X").is_none() && table.number_of(b"Y").is_none());
    assert_eq!(load_into(&mut table, b"X N0 r").accepted, 1);
    assert_eq!(table.labels.len(), 64);
    assert_eq!(reason_of_line(&table, b"Y N0 r"), 6);
    assert_eq!(reason_of_line(&table, b"N0 Y r"), 6);
    assert_eq!(reason_of_line(&table, b"N0 X r"), 0);
}

#[test]
fn with_256_rules() {
    let mut table = Table::fresh();
    fill_labels(&mut table, 20);
    fill_rules(&mut table, 255);
    let last = String::from_utf8(table.labels[19].clone()).unwrap();
    let new_pair = format!("{last} _ r");
    assert_eq!(reason_of_line(&table, new_pair.as_bytes()), 0);
    fill_rules(&mut table, 256);
    assert_eq!(reason_of_line(&table, new_pair.as_bytes()), 7);
    let report = load_into(&mut table, b"_ ^ wa\n");
    assert_eq!(report.accepted, 1);
    assert_eq!(table.rules[0], (0, 1, W | A));
    assert_eq!(table.rules.len(), 256);
}

#[test]
fn categories_0_and_185() {
    let mut table = Table::fresh();
    for write in ["V 1 0", "V 1 185", "V 1 000", "V 1 1 185", "V 1 999"] {
        assert_eq!(
            table.mapping(write.as_bytes()),
            Err(Refusal::BadLevelOrCategory),
            "{write}"
        );
    }
    assert_eq!(table, Table::fresh());
    table.mapping(b"V 1 1").unwrap();
    table.mapping(b"V 1 64").unwrap();
    table.mapping(b"V 1 184").unwrap();
}

// --- Ways to get it nearly right --------------------------------------------

#[test]
fn a_request_is_judged_whole() {
    let table = loaded("^ Door w\nDoor _ w\n");
    assert_eq!(ask(&table, "^", "Door", "rw"), denied(7));
    assert_eq!(ask(&table, "Door", "_", "rw"), denied(7));
}

#[test]
fn a_line_refused_for_its_object_leaves_no_subject() {
    let mut table = Table::fresh();
    load_into(&mut table, b"New bad/ r\n");
    assert_eq!(table, Table::fresh());
}

#[test]
fn write_does_not_stand_for_append() {
    let table = loaded("A B w\nC B a\n");
    assert_eq!(ask(&table, "A", "B", "a"), denied(7));
    assert_eq!(ask(&table, "C", "B", "w"), denied(7));
}

#[test]
fn cuts_do_not_matter() {
    let text = b" Probe3 Air w\nAl\tAir Rx\n\nbad line\nA A r\nDesk Alarm -";
    let mut whole = Table::fresh();
    let report = load_into(&mut whole, text);
    for first in 0..=text.len() {
        for second in first..=text.len() {
            let mut table = Table::fresh();
            let mut loader = Loader::fresh();
            loader.piece(&mut table, &text[..first]);
            loader.piece(&mut table, b"");
            ask(&table, "Desk", "Alarm", "r");
            loader.piece(&mut table, &text[first..second]);
            ask(&table, "bad/", "Alarm", "r");
            loader.piece(&mut table, &text[second..]);
            assert_eq!(loader.end(&mut table), report);
            assert_eq!(table, whole);
        }
    }
}

// --- Demand 2 ----------------------------------------------------------------

#[test]
fn loading_a_triple_changes_no_other_pair() {
    let names = ["_", "^", "*", "?", "A", "B", "New"];
    let before = loaded("A B rw\nB A x\n_ A w\n");
    for subject in names {
        for object in names {
            if subject == object {
                continue;
            }
            let mut after = before.clone();
            let line = format!("{subject} {object} wa");
            assert_eq!(load_into(&mut after, line.as_bytes()).accepted, 1);
            for s in names {
                for o in names {
                    for request in ["r", "w", "x", "a", "wa", "rwxa"] {
                        if (s, o) != (subject, object) {
                            assert_eq!(
                                ask(&after, s, o, request),
                                ask(&before, s, o, request),
                                "{line}: {s} {o} {request}"
                            );
                        }
                    }
                }
            }
        }
    }
}

#[test]
fn two_labels_that_agree_in_23_bytes_are_two() {
    let table = loaded("Store-Two-Probe-Humidity-1 Air w\nStore-Two-Probe-Humidity-2 Air -\n");
    assert_eq!(
        ask(&table, "Store-Two-Probe-Humidity-1", "Air", "w"),
        granted(6)
    );
    assert_eq!(
        ask(&table, "Store-Two-Probe-Humidity-2", "Air", "w"),
        denied(7)
    );
}

#[test]
fn a_listing_loaded_into_a_fresh_table_gives_the_same_rules() {
    let mut table = Table::fresh();
    fill_labels(&mut table, 40);
    fill_rules(&mut table, 256);
    table.revoke(b"^").unwrap();
    table.change(b"_ * wxat r").unwrap();
    load_into(&mut table, b"_ ? rwxat");
    let text = listing(&table);
    let mut again = Table::fresh();
    let report = load_into(&mut again, &text);
    assert_eq!((report.accepted, report.refused), (256, 0));
    assert_eq!(listing(&again), text);
}
