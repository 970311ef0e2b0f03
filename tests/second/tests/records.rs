//! Old fixed records (02, One): each refusal of both calls, their order, the
//! places of a record, the newlines of a line, the output, and there and back.

mod common;

use common::*;
use second::plain::*;

/// Two places of 24 bytes and the access bytes.
fn record(subject: &str, object: &str, access: &str) -> Vec<u8> {
    format!("{subject:24}{object:24}{access}").into_bytes()
}

/// Blanks behind the text, up to this many bytes.
fn padded(text: &[u8], length: usize) -> Vec<u8> {
    let mut bytes = text.to_vec();
    while bytes.len() < length {
        bytes.push(b' ');
    }
    bytes
}

/// What is written for the record. The rest of the output stays.
fn line_of(record: &[u8]) -> Vec<u8> {
    let mut output = [0xee; 100];
    let length = record_to_line(record, &mut output).unwrap();
    assert!(output[length..].iter().all(|&byte| byte == 0xee));
    output[..length].to_vec()
}

/// What is written for the line. The rest of the output stays.
fn record_of(line: &[u8]) -> Vec<u8> {
    let mut output = [0xee; 100];
    assert_eq!(line_to_record(line, &mut output), Ok(53));
    assert!(output[53..].iter().all(|&byte| byte == 0xee));
    output[..53].to_vec()
}

/// The number of the record's refusal, with room and without. Each output stays.
fn refused_record(record: &[u8]) -> u8 {
    let mut output = [0xee; 100];
    let refusal = record_to_line(record, &mut output).unwrap_err();
    assert_eq!(output, [0xee; 100]);
    assert_eq!(record_to_line(record, &mut []), Err(refusal));
    refusal.number()
}

/// The same of a line.
fn refused_line(line: &[u8]) -> u8 {
    let mut output = [0xee; 100];
    let refusal = line_to_record(line, &mut output).unwrap_err();
    assert_eq!(output, [0xee; 100]);
    assert_eq!(line_to_record(line, &mut []), Err(refusal));
    refusal.number()
}

#[test]
fn the_record_and_its_line() {
    let fixed = b"Probe3                  Air                     rw-A-";
    assert_eq!(fixed.len(), 53);
    assert_eq!(line_of(fixed), b"Probe3 Air rwa\n");
    assert_eq!(
        record_of(b"Probe3 Air rwa\n"),
        b"Probe3                  Air                     rw-a-"
    );
    assert_eq!(line_of(&record("A", "B", "-----")), b"A B -\n");
    assert_eq!(line_of(&record("A", "B", "RWXAT")), b"A B rwxat\n");
    assert_eq!(record_of(b"A B -"), record("A", "B", "-----"));
    assert_eq!(record_of(b"A B tTaxwr-"), record("A", "B", "rwxat"));
    assert_eq!(record_of(b"* _ a-r"), record("*", "_", "r--a-"));
    // A dash is a label byte, though never the first.
    assert_eq!(line_of(&record("a-", "b--", "r----")), b"a- b-- r\n");
}

#[test]
fn every_access_there_and_back() {
    let mut patterns = 0;
    for number in 0..243u32 {
        let mut access = String::new();
        let mut letters = String::new();
        for (k, letter) in ["r", "w", "x", "a", "t"].iter().enumerate() {
            match number / 3u32.pow(k as u32) % 3 {
                0 => access.push('-'),
                1 => {
                    access.push_str(letter);
                    letters.push_str(letter);
                }
                _ => {
                    access.push_str(&letter.to_uppercase());
                    letters.push_str(letter);
                }
            }
        }
        if letters.is_empty() {
            letters.push('-');
        }
        let line = line_of(&record("Alarm", "Air", &access));
        assert_eq!(line, format!("Alarm Air {letters}\n").as_bytes());
        let small = record("Alarm", "Air", &access.to_lowercase());
        assert_eq!(record_of(&line), small);
        assert_eq!(line_of(&small), line);
        patterns += 1;
    }
    assert_eq!(patterns, 243);
}

// --- record 14 3 4 5 12 --------------------------------------------------------

#[test]
fn a_record_of_another_length() {
    let good = record("A", "B", "rwxat");
    for length in 0..53 {
        assert_eq!(refused_record(&good[..length]), 14, "{length}");
    }
    for more in [&b" "[..], b"-", b"b", b"\n", b"\0"] {
        assert_eq!(refused_record(&[&good[..], more].concat()), 14);
    }
    assert_eq!(refused_record(&[&good[..], &good[..]].concat()), 14);
}

#[test]
fn the_places_of_a_record() {
    let longest = "L2345678901234567890123";
    assert_eq!(longest.len(), 23);
    for label in ["L", "L2", &longest[..22], longest] {
        let line = format!("{label} B r\n");
        assert_eq!(line_of(&record(label, "B", "r----")), line.as_bytes());
        let line = format!("B {label} r\n");
        assert_eq!(line_of(&record("B", label, "r----")), line.as_bytes());
    }
    let inner = ["A B", "A  B", "A                     B"];
    let leading = [" A", "                       A", "                      A"];
    let none = ["", "                        "];
    let no_end = ["L23456789012345678901234", "-23456789012345678901234"];
    for place in inner.iter().chain(&leading).chain(&none).chain(&no_end) {
        assert_eq!(refused_record(&record(place, "B", "r----")), 14, "{place}");
        assert_eq!(refused_record(&record("B", place, "r----")), 14, "{place}");
    }
    // Only a space fills: behind a space each other byte is 14.
    for byte in ["\t", "\n", "\0", "-", "/", "\u{7f}"] {
        let place = format!("A {byte}");
        assert_eq!(refused_record(&record(&place, "B", "r----")), 14);
        assert_eq!(refused_record(&record("B", &place, "r----")), 14);
    }
}

#[test]
fn labels_of_a_record() {
    for label in [
        "-", "-A", "A/", "\\", "A'B", "\"", "A\t", "\tA", "A\n", "\n", "A\0", "\0", "A\u{7f}",
    ] {
        assert_eq!(refused_record(&record(label, "B", "r----")), 3, "{label:?}");
        assert_eq!(refused_record(&record("B", label, "r----")), 3, "{label:?}");
    }
    for byte in 128..=255 {
        let mut high = record("AA", "BB", "r----");
        high[1] = byte;
        assert_eq!(refused_record(&high), 3);
        high[1] = b'A';
        high[24] = byte;
        assert_eq!(refused_record(&high), 3);
    }
}

#[test]
fn access_bytes_of_a_record() {
    let own: [&[u8]; 5] = [b"rR-", b"wW-", b"xX-", b"aA-", b"tT-"];
    for (k, allowed) in own.iter().enumerate() {
        for byte in 0..=255u8 {
            let mut fixed = record("A", "B", "rwxat");
            fixed[48 + k] = byte;
            if allowed.contains(&byte) {
                line_of(&fixed);
            } else {
                assert_eq!(refused_record(&fixed), 4, "{k} {byte}");
            }
        }
    }
    assert_eq!(refused_record(&record("A", "B", "wr---")), 4);
    assert_eq!(refused_record(&record("A", "B", "----b")), 4);
}

#[test]
fn equal_labels_of_a_record() {
    assert_eq!(refused_record(&record("A", "A", "r----")), 5);
    assert_eq!(refused_record(&record("_", "_", "-----")), 5);
    let longest = "L".repeat(23);
    assert_eq!(refused_record(&record(&longest, &longest, "r----")), 5);
    assert_eq!(line_of(&record("A", "a", "r----")), b"A a r\n");
    assert_eq!(line_of(&record("A", "AA", "r----")), b"A AA r\n");
}

#[test]
fn record_neighbours() {
    // 14 before 3, whichever place has which; and 14 by the length.
    assert_eq!(refused_record(&record("/ A", "B", "r----")), 14);
    assert_eq!(refused_record(&record("/", "", "r----")), 14);
    assert_eq!(refused_record(&record("", "/", "r----")), 14);
    assert_eq!(refused_record(&record("/", "B", "r---")), 14);
    // 3 before 4
    assert_eq!(refused_record(&record("/", "B", "q----")), 3);
    assert_eq!(refused_record(&record("A", "/", "----b")), 3);
    // 4 before 5
    assert_eq!(refused_record(&record("A", "A", "w----")), 4);
    // 3 before 5
    assert_eq!(refused_record(&record("-", "-", "r----")), 3);
    // 5 before 12: `refused_record` lends no byte too.
    assert_eq!(refused_record(&record("A", "A", "r----")), 5);
}

// --- line 1 2 3 4 5 15 12 ------------------------------------------------------

#[test]
fn the_length_and_newlines_of_a_line() {
    let expected = record("A", "B", "r----");
    let most = padded(b"A B r", 600);
    let over = padded(b"A B r", 601);
    assert_eq!(record_of(&most), expected);
    assert_eq!(record_of(&[&most[..], b"\n"].concat()), expected);
    assert_eq!(refused_line(&[&most[..], b"\n\n"].concat()), 1);
    assert_eq!(refused_line(&over), 1);
    assert_eq!(refused_line(&[&over[..], b"\n"].concat()), 1);
    // One newline is taken off; another is a byte of its field.
    assert_eq!(record_of(b"A B r\n"), expected);
    assert_eq!(record_of(b"A B r \n"), expected);
    assert_eq!(refused_line(b"A B r\n\n"), 4);
    assert_eq!(refused_line(b"A B r \n\n"), 2);
    assert_eq!(refused_line(b"A B r\n "), 4);
    assert_eq!(refused_line(b"A B \nr"), 4);
    assert_eq!(refused_line(b"\nA B r"), 3);
    assert_eq!(refused_line(b"A\n B r"), 3);
    assert_eq!(refused_line(b"A B\n r\n"), 3);
    assert_eq!(refused_line(b"A\nB r"), 2);
    assert_eq!(refused_line(b"A B r\nC D w\n"), 2);
    // A newline is no blank: each of these has too few fields.
    for line in [&b"A\n"[..], b"\n", b"\n\n", b"\n\n\n", b"A B\n", b"A B\n\n"] {
        assert_eq!(refused_line(line), 2, "{line:?}");
    }
}

#[test]
fn blanks_of_a_line() {
    let expected = record("A", "B", "r----");
    for line in [
        "  A   B   r  ",
        "\tA\tB\tr\t",
        " \t A \t B \t r \t \n",
        "A\tB r\n",
    ] {
        assert_eq!(record_of(line.as_bytes()), expected, "{line:?}");
    }
    // Nothing is skipped.
    for line in ["", " ", "\t", " \t ", " \n", "\t\n"] {
        assert_eq!(refused_line(line.as_bytes()), 2, "{line:?}");
    }
    assert_eq!(refused_line(&[b' '; 600]), 2);
    assert_eq!(refused_line(&[b' '; 601]), 1);
    // A carriage return is no blank.
    assert_eq!(refused_line(b"A B r\r\n"), 4);
    assert_eq!(refused_line(b"A B r \r\n"), 2);
    assert_eq!(refused_line(b"A\r B r\n"), 3);
}

#[test]
fn fields_of_a_line() {
    for line in ["A", "A B", "A B r w", "A B r w x"] {
        assert_eq!(refused_line(line.as_bytes()), 2, "{line}");
    }
    for line in ["-A B r", "A -B r", "A/ B r", "A 'B r", "- B r", "A - r"] {
        assert_eq!(refused_line(line.as_bytes()), 3, "{line}");
    }
    let label = "L".repeat(256);
    assert_eq!(refused_line(format!("{label} B r").as_bytes()), 3);
    assert_eq!(refused_line(format!("B {label} r").as_bytes()), 3);
    for line in ["A B q", "A B rl", "A B r+", "A B 0", "A B rb/"] {
        assert_eq!(refused_line(line.as_bytes()), 4, "{line}");
    }
    assert_eq!(refused_line(b"A A r"), 5);
    assert_eq!(refused_line(b"_ _ -"), 5);
    assert_eq!(record_of(b"A a r"), record("A", "a", "r----"));
}

#[test]
fn what_no_record_holds() {
    let long = "L".repeat(255);
    for length in [1, 22, 23] {
        let label = &long[..length];
        let line = format!("{label} B x");
        assert_eq!(record_of(line.as_bytes()), record(label, "B", "--x--"));
        let line = format!("B {label} x");
        assert_eq!(record_of(line.as_bytes()), record("B", label, "--x--"));
    }
    for length in [24, 25, 48, 254, 255] {
        let label = &long[..length];
        assert_eq!(refused_line(format!("{label} B x").as_bytes()), 15);
        assert_eq!(refused_line(format!("B {label} x").as_bytes()), 15);
    }
    // A label is never cut: these two agree in their first 23 bytes.
    let one = format!("{}1", &long[..23]);
    let two = format!("{}2", &long[..23]);
    assert_eq!(refused_line(format!("{one} {two} r").as_bytes()), 15);
    assert_eq!(
        refused_line(format!("{one} {} r", &one[..23]).as_bytes()),
        15
    );
}

#[test]
fn line_neighbours() {
    // 1 before 2
    assert_eq!(refused_line(&padded(b"A B", 601)), 1);
    assert_eq!(refused_line(&padded(b"A B", 600)), 2);
    // 2 before 3
    assert_eq!(refused_line(b"A/ B"), 2);
    assert_eq!(refused_line(b"A/ B r x"), 2);
    // 3 before 4
    assert_eq!(refused_line(b"A/ B q"), 3);
    assert_eq!(refused_line(b"A B/ q"), 3);
    // 4 before 5, and before 15
    assert_eq!(refused_line(b"A A q"), 4);
    assert_eq!(refused_line(b"A A bq"), 4);
    let label = "L".repeat(24);
    assert_eq!(refused_line(format!("{label} B q").as_bytes()), 4);
    assert_eq!(refused_line(format!("{label} B bq").as_bytes()), 4);
    // 5 before 15
    assert_eq!(refused_line(format!("{label} {label} r").as_bytes()), 5);
    assert_eq!(refused_line(format!("{label} {label} b").as_bytes()), 5);
    // 15 before 12: `refused_line` lends no byte too.
    assert_eq!(refused_line(format!("{label} B r").as_bytes()), 15);
    assert_eq!(refused_line(format!("{label} B b").as_bytes()), 15);
}

// --- the output ------------------------------------------------------------------

#[test]
fn outputs() {
    let fixed = record("Alarm", "Air", "R----");
    let line = b"Alarm Air r\n";
    for length in 0..12 {
        let mut output = vec![0xee; length];
        let answer = record_to_line(&fixed, &mut output);
        assert_eq!(answer, Err(Refusal::OutputTooShort));
        assert_eq!(output, vec![0xee; length]);
    }
    for length in [12, 13, 53, 600] {
        let mut output = vec![0xee; length];
        assert_eq!(record_to_line(&fixed, &mut output), Ok(12));
        assert_eq!(&output[..12], line);
        assert_eq!(output[12..], vec![0xee; length - 12]);
    }
    for length in 0..53 {
        let mut output = vec![0xee; length];
        let answer = line_to_record(line, &mut output);
        assert_eq!(answer, Err(Refusal::OutputTooShort));
        assert_eq!(output, vec![0xee; length]);
    }
    for length in [53, 54, 600] {
        let mut output = vec![0xee; length];
        assert_eq!(line_to_record(line, &mut output), Ok(53));
        assert_eq!(output[..53], record("Alarm", "Air", "r----"));
        assert_eq!(output[53..], vec![0xee; length - 53]);
    }
}

// --- there and back ----------------------------------------------------------------

#[test]
fn the_line_is_that_of_the_listing() {
    let longest = "L".repeat(23);
    for fixed in [
        record("Probe3", "Air", "-W---"),
        record("Alarm", "Air", "R-x--"),
        record("Desk", "Alarm", "-----"),
        record(&longest, "*", "rwxat"),
        record("_", &longest, "----T"),
    ] {
        let line = line_of(&fixed);
        let mut table = Table::fresh();
        let report = load_into(&mut table, &line);
        assert_eq!((report.lines, report.accepted), (1, 1));
        assert_eq!(listing(&table), line);
        let small = record_of(&line);
        assert_eq!(small[..48], fixed[..48]);
        assert_eq!(small[48..], fixed[48..].to_ascii_lowercase());
    }
    for (line, listed) in [
        ("A B -", "A B -\n"),
        (" A\tB  taR ", "A B rat\n"),
        ("A B XXxx--\n", "A B x\n"),
    ] {
        assert_eq!(line_of(&record_of(line.as_bytes())), listed.as_bytes());
    }
}
