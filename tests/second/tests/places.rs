//! 02, Three: where the first bad byte stands. Every number here is written from
//! the paper by hand.

mod common;

use common::*;
use second::plain::*;
use second::raw::{self, RawLoader, RawState};

/// This many letters, with other bytes at some places.
fn label(length: usize, others: &[(usize, u8)]) -> Vec<u8> {
    let mut bytes = vec![b'L'; length];
    for (place, byte) in others {
        bytes[*place] = *byte;
    }
    bytes
}

/// The place that the label check says; None where the label is well formed.
fn fault(label: &[u8]) -> Option<usize> {
    match check_label(label, 0) {
        Ok(()) => None,
        Err(Refusal::BadLabel { place }) => Some(place),
        Err(other) => panic!("{other:?}"),
    }
}

fn joined(parts: &[&[u8]]) -> Vec<u8> {
    parts.concat()
}

/// Reason and place of the one line.
fn line(table: &Table, text: &[u8]) -> (u32, u64) {
    let mut copy = table.clone();
    let report = load_into(&mut copy, text);
    assert_eq!(report.lines, 1, "{text:?}");
    (report.first_reason, report.first_place)
}

fn change(text: &[u8]) -> Refusal {
    Table::fresh().change(text).unwrap_err()
}

fn overrides(text: &[u8]) -> Refusal {
    Table::fresh().override_write(text).unwrap_err()
}

fn mapping(text: &[u8]) -> Refusal {
    Table::fresh().mapping(text).unwrap_err()
}

fn question(subject: &[u8], object: &[u8], request: &[u8]) -> Refusal {
    match Table::fresh().question(subject, object, request, true) {
        Answer::Refused(refusal) => refusal,
        other => panic!("{other:?}"),
    }
}

/// Refusal 3 with this place.
fn bad(place: usize) -> Refusal {
    Refusal::BadLabel { place }
}

// --- the label check -----------------------------------------------------------

#[test]
fn the_three_that_the_paper_names() {
    // "0 for a leading dash"
    assert_eq!(fault(b"-"), Some(0));
    assert_eq!(fault(b"-Air"), Some(0));
    assert_eq!(fault(b"-A/r"), Some(0));
    assert_eq!(fault(&label(300, &[(0, b'-')])), Some(0));
    // "255 for a label that is too long with no earlier fault"
    assert_eq!(fault(&label(256, &[])), Some(255));
    assert_eq!(fault(&label(300, &[])), Some(255));
    assert_eq!(fault(&label(70000, &[])), Some(255));
    // "0 for an empty one"
    assert_eq!(fault(b""), Some(0));
}

#[test]
fn the_first_bad_byte() {
    assert_eq!(fault(b"/"), Some(0));
    assert_eq!(fault(b"Air/"), Some(3));
    assert_eq!(fault(b"A/r/"), Some(1));
    assert_eq!(fault(b"A r"), Some(1));
    assert_eq!(fault(b"Air\n"), Some(3));
    assert_eq!(fault(b" Air"), Some(0));
    // A dash inside is a label byte.
    assert_eq!(fault(b"A-r"), None);
    assert_eq!(fault(b"A--/"), Some(3));
    // Of too long a label: an earlier fault, one just before the limit, at it,
    // behind it.
    assert_eq!(fault(&label(300, &[(100, b'/')])), Some(100));
    assert_eq!(fault(&label(300, &[(254, b'/')])), Some(254));
    assert_eq!(fault(&label(300, &[(255, b'/')])), Some(255));
    assert_eq!(fault(&label(300, &[(256, b'/')])), Some(255));
    assert_eq!(fault(&label(300, &[(280, b'/')])), Some(255));
    assert_eq!(fault(&label(300, &[(280, b'/'), (100, 0)])), Some(100));
    // Of the longest and one more.
    assert_eq!(fault(&label(255, &[])), None);
    assert_eq!(fault(&label(255, &[(254, b'/')])), Some(254));
    assert_eq!(fault(&label(256, &[(254, b'/')])), Some(254));
    assert_eq!(fault(&label(256, &[(255, b'/')])), Some(255));
    // A dash where the label is too long is no earlier fault.
    assert_eq!(fault(&label(256, &[(1, b'-'), (255, b'-')])), Some(255));
}

#[test]
fn every_byte_at_every_kind_of_place() {
    for byte in 0..=255u8 {
        let is_label_byte = (33..=126).contains(&byte) && !b"/\\'\"".contains(&byte);
        for length in [1, 2, 24, 254, 255] {
            for place in [0, 1, 23, 253, 254] {
                if place >= length {
                    continue;
                }
                let good = is_label_byte && (place > 0 || byte != b'-');
                let expected = if good { None } else { Some(place) };
                assert_eq!(fault(&label(length, &[(place, byte)])), expected, "{byte}");
            }
        }
        for place in [255, 256, 299] {
            assert_eq!(fault(&label(300, &[(place, byte)])), Some(255), "{byte}");
        }
    }
}

/// A label has a place exactly when it is not well formed; before the place stand
/// label bytes alone, and at it one that is none, or a leading dash, or nothing.
#[test]
fn a_place_goes_with_every_refusal() {
    let bytes = b"a-/ \n\xff~";
    for length in 0..5u32 {
        for number in 0..7usize.pow(length) {
            let mut rest = number;
            let mut text = Vec::new();
            for _ in 0..length {
                text.push(bytes[rest % 7]);
                rest /= 7;
            }
            let place = fault(&text);
            assert_eq!(place.is_none(), is_well_formed(&text), "{text:?}");
            if let Some(place) = place {
                let before = &text[..place];
                assert!(before.iter().all(|&byte| class_of(byte) == Class::Label));
                let is_bad = match text.get(place) {
                    None => text.is_empty(),
                    Some(b'-') => place == 0,
                    Some(&byte) => class_of(byte) != Class::Label,
                };
                assert!(is_bad, "{text:?}");
            }
        }
    }
}

// --- "as a place in the line, write or lent label" --------------------------------

#[test]
fn lines() {
    let table = Table::fresh();
    assert_eq!(line(&table, b"A/ B r"), (3, 1));
    assert_eq!(line(&table, b" A/ B r"), (3, 2));
    assert_eq!(line(&table, b"\t \tA/ B r"), (3, 4));
    assert_eq!(line(&table, b"A B/ r"), (3, 3));
    assert_eq!(line(&table, b"A \t B/ r"), (3, 5));
    assert_eq!(line(&table, b"  A  B/ r"), (3, 6));
    // A leading dash, and a dash alone.
    assert_eq!(line(&table, b"-A B r"), (3, 0));
    assert_eq!(line(&table, b" -A B r"), (3, 1));
    assert_eq!(line(&table, b"A -B r"), (3, 2));
    assert_eq!(line(&table, b"A - r"), (3, 2));
    assert_eq!(line(&table, b"- - -"), (3, 0));
    // "the first bad label in order"
    assert_eq!(line(&table, b"AB/ /B r"), (3, 2));
    assert_eq!(line(&table, b"AB/ -B r"), (3, 2));
    // Too long.
    let long = label(256, &[]);
    assert_eq!(line(&table, &joined(&[&long, b" B r"])), (3, 255));
    assert_eq!(line(&table, &joined(&[b"  ", &long, b" B r"])), (3, 257));
    assert_eq!(line(&table, &joined(&[b"A\t", &long, b" r"])), (3, 257));
    let later = label(300, &[(280, b'/')]);
    assert_eq!(line(&table, &joined(&[b"A ", &later, b" r"])), (3, 257));
    let earlier = label(300, &[(100, b'/')]);
    assert_eq!(line(&table, &joined(&[b"A ", &earlier, b" r"])), (3, 102));
    // The furthest in a line of 600 bytes: the object of one byte at 597.
    let far = joined(&[b"A", &[b' '; 596], b"/ r"]);
    assert_eq!(far.len(), 600);
    assert_eq!(line(&table, &far), (3, 597));
    // A label of 596 bytes just fits: 600 bytes.
    let widest = joined(&[&label(596, &[]), b" B r"]);
    assert_eq!(line(&table, &widest), (3, 255));
}

#[test]
fn beside_other_reasons_there_is_no_place() {
    let table = Table::fresh();
    assert_eq!(line(&table, &joined(&[b"A B/ r", &[b' '; 595]])), (1, 0));
    assert_eq!(line(&table, b"A B/"), (2, 0));
    assert_eq!(line(&table, b"A B/ r w"), (2, 0));
    assert_eq!(line(&table, b"A B q"), (4, 0));
    assert_eq!(line(&table, b"A A r"), (5, 0));
    assert_eq!(line(&table, b"A B r"), (0, 0));
    assert_eq!(line(&table, b"   "), (0, 0));
    // 3 comes before 4 and 5.
    assert_eq!(line(&table, b"A B/ q"), (3, 3));
    assert_eq!(line(&table, b"A/ A/ q"), (3, 1));
    let mut full = Table::fresh();
    fill_labels(&mut full, 64);
    assert_eq!(line(&full, b"New1 New2 r"), (6, 0));
    assert_eq!(line(&full, b"New1 New2/ r"), (3, 9));
    assert_eq!(change(b"A B/ r"), Refusal::WrongFields);
    assert_eq!(change(b"A B/ r r r"), Refusal::WrongFields);
    assert_eq!(mapping(b"A/"), Refusal::WrongFields);
    assert_eq!(mapping(&joined(&[b"A/ 9", &[b' '; 997]])), Refusal::TooLong);
    assert_eq!(overrides(&label(601, &[(0, b'/')])), Refusal::TooLong);
    for refusal in [
        Refusal::Damaged,
        Refusal::TooLong,
        Refusal::WrongFields,
        Refusal::BadAccess,
        Refusal::NotInARecord,
    ] {
        assert_eq!(refusal.place(), 0);
    }
    assert_eq!(bad(7).place(), 7);
}

#[test]
fn changes() {
    assert_eq!(change(b"A/ B r w"), bad(1));
    assert_eq!(change(b"  A B/ r w"), bad(5));
    assert_eq!(change(b"A/ B/ r w"), bad(1));
    assert_eq!(change(b"A B/ q q"), bad(3));
    // A newline in a write is a bad byte of its field, or a field of its own.
    assert_eq!(change(b"A\nB C r w"), bad(1));
    assert_eq!(change(b"A \n r w"), bad(2));
    assert_eq!(change(b"\nA B r w"), bad(0));
}

#[test]
fn override_lists() {
    assert_eq!(overrides(b"A -"), bad(2));
    assert_eq!(overrides(b"- A"), bad(0));
    assert_eq!(overrides(b" - -"), bad(1));
    assert_eq!(overrides(b"A B C/ D/"), bad(5));
    assert_eq!(overrides(b"\tA\tB\t-C"), bad(5));
    // 3 before 11 and 6.
    assert_eq!(overrides(b"A B C D E F G H I J/"), bad(19));
    // A lone dash is no refusal.
    let mut table = Table::fresh();
    assert_eq!(table.override_write(b" -\t"), Ok(()));
}

#[test]
fn mappings() {
    assert_eq!(mapping(b"V/ 9"), bad(1));
    assert_eq!(mapping(b" \tV/ 256"), bad(3));
    assert_eq!(mapping(b"- 9"), bad(0));
    assert_eq!(mapping(&joined(&[b" ", &label(256, &[]), b" 9"])), bad(256));
    // In a write of over 600 bytes too, up to 1,000.
    assert_eq!(mapping(&joined(&[b"A/ 9", &[b' '; 996]])), bad(1));
    assert_eq!(mapping(&joined(&[&[b' '; 998], b"/ 9"])), Refusal::TooLong);
    assert_eq!(mapping(&joined(&[&[b' '; 997], b"/ 9"])), bad(997));
    assert_eq!(mapping(&joined(&[&label(998, &[]), b" 9"])), bad(255));
}

#[test]
fn lent_labels() {
    let mut table = Table::fresh();
    // Blanks are bad bytes here.
    let cases: [(&[u8], usize); 6] = [
        (b"", 0),
        (b" A", 0),
        (b"A ", 1),
        (b"-A", 0),
        (b"Air/", 3),
        (b"A\tB", 1),
    ];
    for (text, place) in cases {
        assert_eq!(table.revoke(text), Err(bad(place)));
        assert_eq!(table.by_label(text), Err(bad(place)));
        assert_eq!(question(text, b"B", b"r"), bad(place));
        assert_eq!(question(b"B", text, b"r"), bad(place));
        assert_eq!(question(b"B", text, b"q"), bad(place));
    }
    assert_eq!(table.revoke(&label(600, &[])), Err(bad(255)));
    assert_eq!(table.revoke(&label(600, &[(599, b'/')])), Err(bad(255)));
    assert_eq!(
        table.revoke(&label(601, &[(0, b'/')])),
        Err(Refusal::TooLong)
    );
    assert_eq!(table.by_label(&label(601, &[(9, b'/')])), Err(bad(9)));
    // A question: the subject's place if the subject is bad, else the object's.
    assert_eq!(question(b"ABC/", b"D/", b"r"), bad(3));
    assert_eq!(question(b"ABC", b"D/", b"r"), bad(1));
    assert_eq!(question(b"ABC/", b"", b""), bad(3));
    assert_eq!(question(b"ABC", b"D", b"q"), Refusal::BadRequest);
}

// --- the report --------------------------------------------------------------------

/// First line, reason and place of a whole text.
fn first(text: &[u8]) -> (u32, u32, u64) {
    let report = load_into(&mut Table::fresh(), text);
    (report.first_line, report.first_reason, report.first_place)
}

#[test]
fn the_first_refused_line_alone() {
    assert_eq!(first(b"A B r\n\n  A/ B r\nA B/ r\n"), (3, 3, 3));
    // The first by 2, then one by 3.
    assert_eq!(first(b"A B\nA B/ r\n"), (1, 2, 0));
    // The first by 3 at place 0, then another 3 elsewhere.
    assert_eq!(first(b"-A B r\nA B/ r\n"), (1, 3, 0));
    assert_eq!(first(b"/ B r\nA B/ r\n"), (1, 3, 0));
    assert_eq!(first(b"A B r\n"), (0, 0, 0));
    assert_eq!(first(b"A B/ r"), (1, 3, 3));
}

#[test]
fn a_second_text_begins_without_a_place() {
    let mut table = Table::fresh();
    let mut loader = Loader::fresh();
    loader.piece(&mut table, b"A B/ r\n");
    assert_eq!(loader.first_place, 3);
    assert_eq!(loader.end(&mut table).first_place, 3);
    assert_eq!(loader.first_place, 0);
    loader.piece(&mut table, b"A B\nA B/ r\n");
    assert_eq!(loader.end(&mut table).first_place, 0);
}

#[test]
fn whatever_the_cuts() {
    let text = b"A B r\n \t Al/rm Air r\n-A B r\n";
    for one in 0..=text.len() {
        for two in one..=text.len() {
            let mut table = Table::fresh();
            let mut loader = Loader::fresh();
            for part in [&text[..one], &text[one..two], &text[two..]] {
                loader.piece(&mut table, part);
            }
            let report = loader.end(&mut table);
            let found = (report.first_line, report.first_reason, report.first_place);
            assert_eq!(found, (2, 3, 5), "{one} {two}");
        }
    }
}

#[test]
fn a_lent_place_stays_until_a_first_line_is_refused() {
    for refused in [0, 1, 7, u64::from(u32::MAX)] {
        for place in [0, 1, 600, 1 << 32, u64::MAX] {
            let mut state = RawState::fresh();
            let mut loader = RawLoader::fresh();
            loader.numbers[raw::REFUSED] = refused;
            loader.numbers[raw::FIRST_PLACE] = place;
            raw::piece(&mut state, &mut loader, b"A B r\n\n").unwrap();
            assert_eq!(loader.numbers[raw::FIRST_PLACE], place);
            raw::piece(&mut state, &mut loader, b"A B/ r\n").unwrap();
            let kept = if refused == 0 { 3 } else { place };
            assert_eq!(loader.numbers[raw::FIRST_PLACE], kept);
            let report = raw::end(&mut state, &mut loader).unwrap();
            assert_eq!(report.first_place, kept);
            assert_eq!(loader.numbers, [0; 9]);
        }
    }
    // A first refusal that is no 3 has place 0, whatever lay there.
    let mut state = RawState::fresh();
    let mut loader = RawLoader::fresh();
    loader.numbers[raw::FIRST_PLACE] = 99;
    raw::piece(&mut state, &mut loader, b"A A r\n").unwrap();
    assert_eq!(raw::end(&mut state, &mut loader).unwrap().first_place, 0);
}

#[test]
fn a_damaged_state_has_no_place() {
    let mut state = RawState::fresh();
    state.words[raw::LABEL_COUNT] = 65;
    assert_eq!(raw::change(&mut state, b"A/ B r w"), Err(Refusal::Damaged));
    assert_eq!(raw::revoke(&mut state, b"A/"), Err(Refusal::Damaged));
    assert_eq!(raw::by_label(&state, b"A/"), Err(Refusal::Damaged));
    let answer = raw::question(&state, b"A/", b"B", b"r", false);
    assert_eq!(answer, Answer::Refused(Refusal::Damaged));
}

// --- what tells no place ---------------------------------------------------------------

#[test]
fn old_records_tell_none() {
    let mut output = [7; 60];
    assert_eq!(line_to_record(b"  A/ B r", &mut output), Err(bad(0)));
    assert_eq!(line_to_record(b"A B/ r\n", &mut output), Err(bad(0)));
    let record = format!("{:24}{:24}{}", "Al/rm", "Air", "rwxat");
    assert_eq!(record_to_line(record.as_bytes(), &mut output), Err(bad(0)));
    assert_eq!(output, [7; 60]);
}

#[test]
fn the_program_prints_no_place() {
    let input = b"A B/ r\n?\nA B/ r\n-A B r\nA B r\n";
    let output = second::program::run(input);
    assert_eq!(output, b"1 0 0 1 1 3 0\nrefused 3\nrefused 3\ndenied 7\n");
}
