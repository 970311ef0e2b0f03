//! Numbers and texts go in and come out whole, up to the most that the header allows.

use balqirven::*;

fn refusal<T: std::fmt::Debug>(answer: Result<T, Refused>) -> Refusal {
    answer.unwrap_err().refusal
}

/// A bad label's place.
fn place<T: std::fmt::Debug>(answer: Result<T, Refused>) -> usize {
    let refused = answer.unwrap_err();
    assert_eq!(refused.refusal, Refusal::BadLabel);
    refused.place.unwrap()
}

#[test]
fn the_longest_rule() {
    let [subject, object] = ["S", "O"].map(|letter| letter.repeat(LONGEST_LABEL));
    let mut table = Table::fresh();
    table.change(format!("{subject} {object} rwxat -")).unwrap();
    let rule = format!("{subject} {object} rwxat\n");
    assert_eq!(rule.len(), LONGEST_RULE);
    assert_eq!(table.list_rule(0, &mut [0; LONGEST_RULE]), Ok(rule.as_bytes()));
    assert!(table.rules().unwrap().eq([rule.as_bytes()]));
    assert!(table.labels().unwrap().skip(5).eq([subject.as_bytes(), object.as_bytes()]));
}

#[test]
fn every_rule_of_a_subject_is_counted() {
    let mut table = Table::fresh();
    for k in 0..58 {
        assert_eq!(table.revoke("Alarm"), Ok(k));
        table.change(format!("Alarm Air{k} r -")).unwrap();
    }
    assert_eq!(table.labels().unwrap().count(), 64, "no more fit");
    assert_eq!(table.revoke("Alarm"), Ok(58));
}

#[test]
fn a_mapped_label_of_an_option_is_not_cut() {
    let (label, option) = ("A".repeat(LONGEST_LABEL), [134, 11, 0, 0, 0, 3, 1, 5, 0, 9, 64]);
    let mut table = Table::fresh();
    table.mapping(format!("{label} 9 1")).unwrap();
    assert_eq!(table.write_option(&label, &mut [0; 11]), Ok(&option[..]));
    let read = table.read_option(option).unwrap();
    assert_eq!(read.bytes(), label.as_bytes());
    assert_eq!(read.as_ref(), label.as_bytes());
    assert_eq!(format!("{read:?}"), format!("PeerLabel(\"{label}\")"));
}

#[test]
fn a_default_is_fresh() {
    assert!(Table::default().parts() == Table::fresh().parts());
    assert_eq!(format!("{:?}", Loader::default()), format!("{:?}", Loader::fresh()));
    let fresh = "Loader { kept: 0, report: Report { lines: 0, accepted: 0, skipped: 0, refused: 0, first: None, bringup: 0 }, .. }";
    assert_eq!(format!("{:?}", Loader::default()), fresh);
}

/// A level, a rule's number and a label's number with one high bit are not those without it.
#[test]
fn high_bits_count() {
    let mut table = Table::fresh();
    table.change("Alarm Air r -").unwrap();
    table.mapping("Air 9 1").unwrap();
    let set = Set::of([1]).unwrap();
    let (run, words) = ([Record { label: 6, level: 9, set }], [1 << 63, 0, 0]);
    assert_eq!(table.by_level(9, set), Ok(Some(6)));
    for bit in 8..64 {
        let level = 1 << bit | 9;
        for level in [level, level & !9] {
            assert_eq!(refusal(table.by_level(level, set)), Refusal::BadLevelOrCategory, "{level}");
            assert_eq!(refusal(lowest_in_run(&run, level, set)), Refusal::BadLevelOrCategory, "{level}");
            assert_eq!(refusal(lowest_of(&[6], &[9], &words, level, set)), Refusal::BadLevelOrCategory, "{level}");
        }
        assert_eq!(lowest_in_run(&[Record { level, ..run[0] }], 9, set), Ok(None), "{level}");
        assert_eq!(lowest_of(&[6], &[level], &words, 9, set), Ok(None), "{level}");
    }
    for bit in 3..64 {
        assert_eq!(refusal(table.list_rule(1 << bit, &mut [0; LONGEST_RULE])), Refusal::NoSuchNumber, "bit {bit}");
        assert_eq!(refusal(table.label(1 << bit)), Refusal::NoSuchNumber, "bit {bit}");
        assert_eq!(refusal(table.label_check(1 << bit)), Refusal::NoSuchNumber, "bit {bit}");
    }
    for bit in 0..64 {
        let label = 1 << bit;
        assert_eq!(lowest_in_run(&[Record { label, ..run[0] }], 9, set), Ok(Some(label as usize)), "bit {bit}");
        assert_eq!(lowest_of(&[label], &[9], &words, 9, set), Ok(Some(label as usize)), "bit {bit}");
    }
}

/// The record that is sought stands last, in runs of every length up to 70.
#[test]
fn the_whole_run_is_searched() {
    let set = Set::of([1, 100, 184]).unwrap();
    for last in 0..70 {
        let run: Vec<_> = (0..=last).map(|k| Record { label: 1000 - k, level: if k == last { 9 } else { 8 }, set }).collect();
        assert_eq!(lowest_in_run(&run, 9, set), Ok(Some(1000 - last as usize)));
        let labels: Vec<_> = run.iter().map(|record| record.label).collect();
        let levels: Vec<_> = run.iter().map(|record| record.level).collect();
        let set_words: Vec<_> = run.iter().flat_map(|record| record.set.words()).collect();
        assert_eq!(lowest_of(&labels, &levels, &set_words, 9, set), Ok(Some(1000 - last as usize)));
    }
}

/// Each category goes to the library and comes back, alone and with all others.
#[test]
fn every_category() {
    let all = (1..=HIGHEST_CATEGORY).map(|category| format!(" {category}")).collect::<String>();
    let alone = (1..=HIGHEST_CATEGORY).map(|category| (format!(" {category}"), Set::of([category]).unwrap(), 1));
    for (listed, set, count) in alone.chain([(all, Set::of(1..=HIGHEST_CATEGORY).unwrap(), HIGHEST_CATEGORY)]) {
        let mut table = Table::fresh();
        table.mapping(format!("Air 255{listed}")).unwrap();
        assert_eq!(table.by_label("Air"), Ok(Some(Mapping { level: 255, set, count })), "{listed}");
        let run = [Record { label: 7, level: 255, set }];
        assert_eq!(table.by_level(255, set), Ok(Some(5)), "{listed}");
        assert_eq!(lowest_in_run(&run, 255, set), Ok(Some(7)), "{listed}");
        assert_eq!(lowest_of(&[7], &[255], &set.words(), 255, set), Ok(Some(7)), "{listed}");
        assert_eq!(table.by_level(255, Set::empty()), Ok(None), "{listed}");
        assert_eq!(lowest_in_run(&run, 255, Set::empty()), Ok(None), "{listed}");
        assert_eq!(lowest_of(&[7], &[255], &set.words(), 255, Set::empty()), Ok(None), "{listed}");
    }
}

/// A bad byte at every place that one can have: 0 to 255 in a label, and in a line or a write as far as the fields behind it leave room.
#[test]
fn every_place() {
    let mut table = Table::fresh();
    for at in 0..=LONGEST_LABEL {
        let bad = "A".repeat(at) + "/";
        assert_eq!(place(table.question(&bad, "Air", "r", false)), at);
        assert_eq!(place(table.question("Alarm", &bad, "r", false)), at);
        assert_eq!(place(table.by_label(&bad)), at);
        assert_eq!(place(table.revoke(&bad)), at);
    }
    let text = |at, rest: &str| " ".repeat(at) + rest;
    for at in 0..LONGEST_MAPPING - 2 {
        assert_eq!(place(table.mapping(text(at, "/ 9"))), at);
    }
    for at in 0..LINE {
        assert_eq!(place(table.override_list(text(at, "/"))), at);
    }
    for at in 0..LINE - 8 {
        assert_eq!(place(table.change(text(at, "/ Air r -"))), at);
    }
    for at in 0..LINE - 6 {
        let mut loader = Loader::fresh();
        loader.piece(&mut table, text(at, "/ Air r")).unwrap();
        let first = loader.end(&mut table).unwrap().first.unwrap();
        assert_eq!(place(Err::<(), _>(first.reason)), at);
    }
}
