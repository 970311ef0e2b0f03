//! Every refusal is reached through the crate, with its number, and a place exactly where the header says that the call tells one.

use balqirven::*;

/// What a call was refused with.
fn of<T: std::fmt::Debug>(answer: Result<T, Refused>) -> Refused {
    answer.unwrap_err()
}

/// A table with 64 labels, which is all of them, and with 256 rules and 32 mappings likewise.
fn full() -> Table {
    let mut table = Table::fresh();
    for label in 0..59 {
        table.change(format!("L{label} _ r -")).unwrap();
    }
    assert_eq!(table.labels().unwrap().count(), 64);
    let pairs = (0..59).flat_map(|subject| (0..59).map(move |object| (subject, object))).filter(|(subject, object)| subject != object);
    for (subject, object) in pairs.take(256 - 59) {
        table.change(format!("L{subject} L{object} w -")).unwrap();
    }
    assert_eq!(table.rules().unwrap().count(), 256);
    for label in 0..32 {
        table.mapping(format!("L{label} 9 {}", label + 1)).unwrap();
    }
    table
}

/// The first refused line of a text.
fn first_of(table: &mut Table, text: &str) -> Refused {
    let mut loader = Loader::fresh();
    loader.piece(table, text).unwrap();
    loader.end(table).unwrap().first.unwrap().reason
}

#[test]
fn every_refusal_number() {
    let (mut table, mut full, mut damaged) = (Table::fresh(), full(), Table::fresh());
    damaged.parts_mut().2[0] = 65;
    let a = |count| "A".repeat(count);
    let out = &mut [0; LONGEST_RULE];
    let reached = [
        (0, of(damaged.label(0))),
        (1, of(table.change(a(601)))),
        (2, of(table.change("Alarm Air r"))),
        (3, of(table.change("Alarm A/r r -"))),
        (4, of(table.change("Alarm Air rb -"))),
        (5, of(table.change("Alarm Alarm r -"))),
        (6, of(full.override_list("L1 New"))),
        (7, of(full.change("L58 L57 r -"))),
        (8, of(table.question("Alarm", "Air", "", false))),
        (9, of(table.mapping("Alarm 256"))),
        (10, of(full.mapping("L32 9"))),
        (11, of(table.override_list("a b c d e f g h i"))),
        (12, of(full.list_rule(0, &mut out[..6]))),
        (13, of(full.list_rule(256, out))),
        (14, of(record_to_line([b' '; 53], out))),
        (15, of(line_to_record(a(24) + " Air r", out))),
        (16, of(table.read_option([134, 10, 0, 0, 0, 3, 1, 4, 1, 9]))),
        (17, of(table.read_option([134, 10, 0, 0, 0, 4, 1, 4, 0, 9]))),
        (18, of(table.read_option([134, 11, 0, 0, 0, 3, 1, 5, 0, 9, 128]))),
        (19, of(table.write_option(a(24), out))),
        (21, of(table.read_option([134, 10, 0, 0, 0, 3, 1, 4, 0, 9]))),
    ];
    for (number, refused) in reached {
        assert_eq!(refused.refusal.number(), number, "{refused}");
        assert_eq!(refused.place, (number == 3).then_some(7), "{refused}");
    }
    let numbers = reached.map(|(number, _)| number);
    assert!((0..=255).filter_map(Refusal::from_number).map(Refusal::number).eq(numbers), "a refusal is not reached here");
}

/// A label that goes wrong at its byte 2 where the call tells a place, and where it tells none; and other numbers of calls that tell places.
#[test]
fn the_place_of_a_bad_label() {
    let mut table = Table::fresh();
    let at = |place| Refused { refusal: Refusal::BadLabel, place };
    assert_eq!(of(table.change("\t Al/arm Air r -")), at(Some(4)));
    assert_eq!(of(table.change("Alarm Ai/r r -")), at(Some(8)));
    assert_eq!(of(table.revoke("Al/arm")), at(Some(2)));
    assert_eq!(of(table.override_list("Desk Al/arm")), at(Some(7)));
    assert_eq!(of(table.mapping("Al/arm 9")), at(Some(2)));
    assert_eq!(of(table.by_label("Al/arm")), at(Some(2)));
    assert_eq!(of(table.question("Al/arm", "/", "r", false)), at(Some(2)));
    assert_eq!(of(table.question("Alarm", "Ai/r", "r", false)), at(Some(2)));
    assert_eq!(first_of(&mut table, "Alarm Air r\n\tAlarm Ai/r r\n"), at(Some(9)));

    assert_eq!(of(table.revoke("")), at(Some(0)));
    assert_eq!(of(table.revoke("-Alarm")), at(Some(0)));
    assert_eq!(of(table.revoke("A".repeat(256))), at(Some(255)));

    let out = &mut [0; LONGEST_RULE];
    assert_eq!(of(table.new_object("Al/arm", "Air", true, true)), at(None));
    assert_eq!(of(table.write_option("Al/arm", out)), at(None));
    assert_eq!(of(table.read_option([134, 11, 0, 0, 0, 3, 1, 5, 0, 250, 1])), at(None));
    assert_eq!(of(record_to_line(format!("{:24}{:24}-----", "Al/arm", "Air"), out)), at(None));
    assert_eq!(of(line_to_record("Al/arm Air r", out)), at(None));

    let other = |refusal| Refused { refusal, place: None };
    assert_eq!(of(table.revoke("A".repeat(601))), other(Refusal::TooLong));
    assert_eq!(of(table.mapping("A".repeat(1000))), other(Refusal::WrongFields));
    assert_eq!(of(table.mapping("A".repeat(1001))), other(Refusal::TooLong));
    assert_eq!(of(table.mapping("Alarm 0009")), other(Refusal::BadLevelOrCategory));
    assert_eq!(of(table.question("Alarm", "Air", "b", false)), other(Refusal::BadRequest));
    assert_eq!(first_of(&mut table, "Alarm Air r\nAlarm Air q\nA/ B r\n"), other(Refusal::BadAccess));
    assert_eq!(table.labels().unwrap().last().unwrap(), b"Air", "a refused write stores no label");
}

/// Where a full table takes nothing more, the line is refused as the write is.
#[test]
fn lines_of_a_full_table() {
    let mut full = full();
    assert_eq!(first_of(&mut full, "New _ r\n").refusal, Refusal::LabelsFull);
    assert_eq!(first_of(&mut full, "L58 L57 r\n").refusal, Refusal::RulesFull);
    assert_eq!(first_of(&mut full, &" ".repeat(601)).refusal, Refusal::TooLong);
    assert_eq!(first_of(&mut full, "L58 L58 r").refusal, Refusal::SameLabels);
    assert_eq!(full.by_level(9, Set::of([32]).unwrap()), Ok(Some(5 + 31)));
}

#[test]
#[rustfmt::skip]
fn every_sentence() {
    let sentences = [
        (0, "the state in memory is damaged"),
        (1, "it is too long: a line or a write has at most 600 bytes, a mapping 1,000"),
        (2, "the number of fields is wrong: a line has 3, a change 4, a mapping 2 or more, an override list 1 or more"),
        (3, "a label is not well formed"),
        (4, "an access byte is not allowed where it stands"),
        (5, "subject and object are the same label"),
        (6, "the table has no room for the new labels"),
        (7, "the table has no room for one more rule"),
        (8, "the request is empty or has something else than the letters r, w, x and a"),
        (9, "a level or a category is wrong: levels are 0 to 255 (in a mapping not 250), categories 1 to 184; in a write each has 1 to 3 digits"),
        (10, "the table has no room for one more mapping"),
        (11, "the override list has over 8 different labels"),
        (12, "the buffer that was lent for the output is too short"),
        (13, "the rules, or the labels, end before that number"),
        (14, "it does not have 53 bytes, or a label place is all spaces, has another byte after a space or does not end in a space"),
        (15, "a label has over 23 bytes; no old record holds that, and a label is never cut"),
        (16, "it is not laid out as one packet option with one tag of type 1 and nothing behind it"),
        (17, "it has another DOI than 3"),
        (18, "it has category 0 or one above 184"),
        (19, "a label without a mapping has over 23 bytes; no packet option holds that, and a label is never cut"),
        (21, "no label has a mapping with its level and categories"),
    ];
    let refusals: Vec<_> = (0..=255).filter_map(Refusal::from_number).collect();
    assert_eq!(refusals.iter().map(|refusal| (refusal.number(), refusal.sentence())).collect::<Vec<_>>(), sentences);
    assert!(refusals.iter().all(|refusal| refusal.to_string() == refusal.sentence()));
}
