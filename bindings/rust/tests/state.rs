//! What a call leaves: the bytes behind its output, a damaged state, a loader; and every field of a report.

use balqirven::*;

/// What each call of a table answers on this one, in the header's order: the number that it is refused with, if it is.
fn every_call(table: &mut Table, loader: &mut Loader, out: &mut [u8]) -> [Option<u8>; 15] {
    fn number<T>(answer: Result<T, Refused>) -> Option<u8> {
        answer.err().map(|refused| refused.refusal.number())
    }
    [
        number(loader.piece(table, "Alarm Air r\nAlarm Ai")),
        number(loader.end(table)),
        number(table.change("Alarm Air r -")),
        number(table.revoke("Alarm")),
        number(table.override_list("Alarm")),
        number(table.mapping("Alarm 9 1")),
        number(table.by_label("Alarm")),
        number(table.by_level(9, Set::empty())),
        number(table.question("Alarm", "Air", "r", true)),
        number(table.new_object("Alarm", "Air", true, true)),
        number(table.list_rule(0, out)),
        number(table.label(0)),
        number(table.label_check(0)),
        number(table.write_option("Alarm", out)),
        number(table.read_option([134, 11, 0, 0, 0, 3, 1, 5, 0, 250, 32])),
    ]
}

/// Damage of each kind that a Rust host can say: a count over its limit (labels, rules, mappings, override list), a number that names no stored label, an
/// unknown mode bit, a bit of a stored set that is no category. (Where a part of the state stands in these arrays, crates/store says.)
#[test]
fn a_damaged_state_is_refused_by_every_call_and_stays() {
    let mut sound = Table::fresh();
    sound.change("Alarm Air r -").unwrap();
    sound.mapping("Alarm 9 1").unwrap();
    sound.override_list("Desk").unwrap();
    assert_eq!(every_call(&mut sound.clone(), &mut Loader::fresh(), &mut [0; LONGEST_RULE]), [None; 15]);

    type Damage = fn(&mut [u8; ENTRIES], &mut [u64; WORDS]);
    let damages: [Damage; 8] = [
        |_, words| words[0] = 65,
        |_, words| words[1] = 257,
        |_, words| words[2] = 1 << 32,
        |_, words| words[3] = 9,
        |entries, _| entries[0] = 8,
        |entries, _| entries[512] = 255,
        |entries, _| entries[832] = 200,
        |_, words| words[68] = 1,
    ];
    for (k, damage) in damages.into_iter().enumerate() {
        let mut table = sound.clone();
        let (_, entries, words) = table.parts_mut();
        damage(entries, words);
        let (before, mut out) = (table.clone(), [0xa5; LONGEST_RULE]);
        let mut loader = Loader::fresh();
        assert_eq!(every_call(&mut table, &mut loader, &mut out), [Some(0); 15], "damage {k}");
        assert!(table.parts() == before.parts(), "damage {k}");
        assert_eq!(out, [0xa5; LONGEST_RULE], "damage {k}");
        assert_eq!(loader.report(), Report::default(), "damage {k}");
        assert_eq!(table.rules().err().unwrap().refusal, Refusal::Damaged);
        assert_eq!(table.labels().err().unwrap().refusal, Refusal::Damaged);
        table.make_fresh();
        assert_eq!(table.labels().unwrap().count(), 5);
    }
}

/// A loader keeps its line under way and its report over a refused call.
#[test]
fn a_loader_goes_on_after_a_refusal() {
    let (mut table, mut damaged, mut loader) = (Table::fresh(), Table::fresh(), Loader::fresh());
    damaged.parts_mut().2[1] = 257;
    loader.piece(&mut table, "Alarm Air q\nAlarm Ai").unwrap();
    let report = loader.report();
    assert_eq!(loader.piece(&mut damaged, "x").unwrap_err().refusal, Refusal::Damaged);
    assert_eq!(loader.end(&mut damaged).unwrap_err().refusal, Refusal::Damaged);
    assert_eq!(loader.report(), report);
    loader.piece(&mut table, "r r").unwrap();
    let reason = Refused { refusal: Refusal::BadAccess, place: None };
    let first = Some(FirstRefused { line: 1, reason });
    assert_eq!(loader.end(&mut table), Ok(Report { lines: 2, accepted: 1, skipped: 0, refused: 1, first, bringup: 0 }));
    assert_eq!(table.rules().unwrap().collect::<Vec<_>>(), [b"Alarm Air r\n"]);
    assert_eq!(loader.report(), Report::default());
}

/// Every field of a report, each with a number of its own, whatever the pieces are.
#[test]
fn every_field_of_a_report() {
    let accepted = "Alarm Air rb\nAlarm Air B\nAlarm Air b-\nAlarm Air r\n";
    let text = format!("\n \t\n{accepted}{accepted}Alarm Air/2 r\nAlarm Air\n{}\nAlarm Alarm r\nAlarm\tAir rwxat", "A".repeat(601));
    let reason = Refused { refusal: Refusal::BadLabel, place: Some(9) };
    let report = Report { lines: 15, accepted: 9, skipped: 2, refused: 4, first: Some(FirstRefused { line: 11, reason }), bringup: 6 };
    for size in [1, 2, 7, 37, 600, 5000] {
        let (mut table, mut loader) = (Table::fresh(), Loader::fresh());
        for piece in text.as_bytes().chunks(size) {
            loader.piece(&mut table, piece).unwrap();
        }
        assert_eq!(loader.report(), Report { lines: 14, accepted: 8, ..report });
        assert_eq!(loader.end(&mut table), Ok(report), "pieces of {size}");
        assert_eq!(table.rules().unwrap().collect::<Vec<_>>(), [b"Alarm Air rwxat\n"]);
    }
}

/// An output has the text at its front and its old bytes behind; on a refusal all of these. An output of just the length is enough.
#[test]
fn the_rest_of_an_output_stays() {
    let mut table = Table::fresh();
    table.change("Alarm Air ra -").unwrap();
    let record = b"Alarm                   Air                     r--a-";
    let option = [134, 12, 0, 0, 0, 3, 1, 6, 0, 250, 32, 128];
    type Call<'a> = &'a dyn for<'b> Fn(&'b mut [u8]) -> Result<&'b [u8], Refused>;
    let calls: [(&[u8], Call); 4] = [
        (b"Alarm Air ra\n", &|out| table.list_rule(0, out)),
        (b"Alarm Air ra\n", &|out| record_to_line(record, out)),
        (record, &|out| line_to_record("Alarm Air ra", out)),
        (&option, &|out| table.write_option("A", out)),
    ];
    for (expected, call) in calls {
        for length in 0..expected.len() {
            let mut out = vec![0xa5; length];
            assert_eq!(call(&mut out).unwrap_err().refusal, Refusal::OutputTooShort);
            assert_eq!(out, vec![0xa5; length]);
        }
        for length in [expected.len(), expected.len() + 1, 1000] {
            let mut out = vec![0xa5; length];
            assert_eq!(call(&mut out), Ok(expected));
            assert_eq!(&out[..expected.len()], expected);
            assert!(out[expected.len()..].iter().all(|&byte| byte == 0xa5));
        }
    }
}

/// A fresh table is made of memory with any contents, and the bytes that it does not need stay.
#[test]
fn a_table_made_fresh_leaves_the_rest_of_its_memory() {
    let mut table = Table::from_parts(&[0xa5; LABELS], &[0xa5; ENTRIES], &[0xa5; WORDS]);
    table.make_fresh();
    let (labels, entries, words) = table.parts();
    assert_eq!(labels.iter().filter(|&&byte| byte != 0xa5).count(), 10, "five labels of one byte, each with its length");
    assert!(entries.iter().all(|&byte| byte == 0xa5));
    assert_eq!(words[..5], [5, 0, 0, 0, 0xa5]);
    assert_eq!(table.label(2), Ok(&b"*"[..]));
    assert_eq!(table.label(2).unwrap().as_ptr_range(), labels[2 * 256 + 1..][..1].as_ptr_range(), "the very bytes of the label store");
}

/// A table without a label is no damaged one, though no calls grow it.
#[test]
fn a_table_without_labels() {
    let table = Table::from_parts(&[0; LABELS], &[0; ENTRIES], &[0; WORDS]);
    assert_eq!(table.label_check(0).unwrap_err().refusal, Refusal::NoSuchNumber);
    assert_eq!(table.labels().unwrap().count(), 0);
    assert_eq!(table.rules().unwrap().count(), 0);
}

/// Tables, loaders and answers can be sent to other threads and shared between them.
#[test]
fn everything_is_send_and_sync() {
    fn send_and_sync<T: Send + Sync>() {}
    send_and_sync::<(Table, Loader, Report, Refused)>();
    send_and_sync::<(Set, Record, Mapping, NewObject, Decision, PeerLabel)>();
}
