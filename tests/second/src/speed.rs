//! How quick `Machine` is: `second speed`. Nothing is compared here.

use std::hint::black_box;
use std::io::{self, Write};
use std::time::{Duration, Instant};

use crate::plain::words_of;
use crate::random::{self, generate, Kind};
use crate::script::Machine;

/// Each kind is generated, and each call repeated, for about so long.
const SPAN: Duration = Duration::from_millis(700);

/// Calls a second of each kind, or of this one alone, and then nanoseconds of some
/// calls in a table of some size and in a full one.
pub fn measure(only: Option<Kind>, output: &mut dyn Write) -> io::Result<()> {
    for (name, kind) in random::KINDS {
        if only.is_some_and(|only| only != kind) {
            continue;
        }
        let start = Instant::now();
        let mut calls = 0u64;
        generate(1, u64::MAX, kind, &mut |machine, call| {
            black_box(machine.make(call));
            calls += 1;
            !calls.is_multiple_of(1000) || start.elapsed() < SPAN
        });
        let speed = calls as f64 / start.elapsed().as_secs_f64();
        writeln!(output, "generate {name}: {speed:.0} calls a second")?;
    }
    if only.is_some() {
        return Ok(());
    }
    for (labels, rules) in [(20, 40), (64, 256)] {
        let mut machine = filled(labels, rules);
        let counts = &machine.state().words[..3];
        writeln!(output, "labels, rules, mappings {counts:?}:")?;
        let pairs: Vec<(Vec<u8>, Vec<u8>)> = pairs_of(&machine);
        let sets: Vec<_> = match machine.table() {
            Some(table) => table.mappings.iter().map(|m| words_of(&m.set)).collect(),
            None => Vec::new(),
        };
        repeat(output, "question of a pair that has a rule", |k| {
            let (subject, object) = &pairs[k % pairs.len()];
            black_box(machine.question(subject, object, b"rw", false));
        })?;
        repeat(output, "question of a pair that has none", |k| {
            let (subject, object) = &pairs[k % pairs.len()];
            black_box(machine.question(object, subject, b"rw", true));
        })?;
        repeat(output, "by_level of a stored set", |k| {
            let _ = black_box(machine.by_level(9, &sets[k % sets.len()]));
        })?;
        let mut lines = Vec::new();
        for (subject, object) in &pairs {
            lines.push([subject, &b" "[..], object, b" rw -"].concat());
        }
        repeat(output, "change of a pair that has a rule", |k| {
            let _ = black_box(machine.change(&lines[k % lines.len()]));
        })?;
        for line in &mut lines {
            line.truncate(line.len() - 2);
            line.push(b'\n');
        }
        repeat(output, "piece with one short line", |k| {
            let _ = black_box(machine.piece(&lines[k % lines.len()]));
        })?;
    }
    Ok(())
}

/// A table with so many labels and rules, and 32 mappings where there are labels for
/// them.
fn filled(labels: usize, rules: usize) -> Machine {
    let mut machine = Machine::new();
    for k in 5..labels {
        let _ = machine.override_write(format!("Label{k}").as_bytes());
    }
    let _ = machine.override_write(b"-");
    let others = labels - 5;
    for k in 0..rules {
        let (subject, object) = (5 + k % others, 5 + (k + 1 + k / others) % others);
        let _ = machine.piece(format!("Label{subject} Label{object} rw\n").as_bytes());
    }
    for k in 5..labels.min(37) {
        let _ = machine.mapping(format!("Label{k} 9 {k} {} 184", 2 * k).as_bytes());
    }
    machine
}

/// The labels of each rule.
fn pairs_of(machine: &Machine) -> Vec<(Vec<u8>, Vec<u8>)> {
    let mut pairs = Vec::new();
    if let Some(table) = machine.table() {
        for rule in &table.rules {
            pairs.push((table.labels[rule.0].clone(), table.labels[rule.1].clone()));
        }
    }
    pairs
}

fn repeat(output: &mut dyn Write, name: &str, mut call: impl FnMut(usize)) -> io::Result<()> {
    let start = Instant::now();
    let mut calls = 0;
    while start.elapsed() < SPAN / 2 {
        for k in calls..calls + 1000 {
            call(k);
        }
        calls += 1000;
    }
    let each = start.elapsed().as_nanos() as f64 / calls as f64;
    writeln!(output, "  {name}: {each:.0} ns")
}
