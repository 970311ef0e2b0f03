//! Small functions that the tests share.
#![allow(dead_code)]

use second::plain::{Answer, Loader, Report, Table};

/// A fresh table after this rule text, and the report.
pub fn load_into(table: &mut Table, text: &[u8]) -> Report {
    let mut loader = Loader::fresh();
    loader.piece(table, text);
    loader.end(table)
}

pub fn loaded(text: &str) -> Table {
    let mut table = Table::fresh();
    let report = load_into(&mut table, text.as_bytes());
    assert_eq!(report.refused, 0, "{text}");
    table
}

/// The reason of the one line, or 0 where it is accepted or skipped.
pub fn reason_of_line(table: &Table, line: &[u8]) -> u32 {
    let mut copy = table.clone();
    let report = load_into(&mut copy, line);
    assert_eq!(report.lines, 1);
    if report.refused == 1 {
        assert_eq!(&copy, table, "a refused line does nothing");
    }
    report.first_reason
}

pub fn ask(table: &Table, subject: &str, object: &str, request: &str) -> Answer {
    table.question(
        subject.as_bytes(),
        object.as_bytes(),
        request.as_bytes(),
        false,
    )
}

pub fn granted(rule: u8) -> Answer {
    Answer::Granted { rule }
}

pub fn denied(rule: u8) -> Answer {
    Answer::Denied { rule }
}

/// The labels `N0`, `N1`, ... enter until the table has this many labels.
pub fn fill_labels(table: &mut Table, target: usize) {
    let mut k = 0;
    while table.labels.len() < target {
        table.override_write(format!("N{k}").as_bytes()).unwrap();
        k += 1;
    }
    table.override_write(b"-").unwrap();
}

/// Pairs of stored labels get rules until there are this many.
pub fn fill_rules(table: &mut Table, target: usize) {
    let labels: Vec<String> = table
        .labels
        .iter()
        .map(|label| String::from_utf8(label.clone()).unwrap())
        .collect();
    for subject in &labels {
        for object in &labels {
            if subject != object && table.rules.len() < target {
                let report = load_into(table, format!("{subject} {object} r").as_bytes());
                assert_eq!(report.accepted, 1);
            }
        }
    }
    assert_eq!(table.rules.len(), target);
}

/// Stored labels get mappings until there are this many.
pub fn fill_mappings(table: &mut Table, target: usize) {
    let labels = table.labels.clone();
    for label in labels {
        if table.mappings.len() < target {
            let mut write = label;
            write.extend_from_slice(b" 1 1");
            table.mapping(&write).unwrap();
        }
    }
    assert_eq!(table.mappings.len(), target);
}

/// The whole listing, rule after rule.
pub fn listing(table: &Table) -> Vec<u8> {
    let mut text = Vec::new();
    for k in 0..table.rules.len() as u64 {
        let mut buffer = vec![0; 600];
        let length = table.list(k, &mut buffer).unwrap();
        text.extend_from_slice(&buffer[..length]);
    }
    text
}
