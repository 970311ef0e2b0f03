//! Makes a list of calls that shows a difference short.

use std::process::exit;

use second::plain::Record;
use second::script::{Call, Machine};

use crate::both::{self, Counts, Difference};
use crate::lent::{Lent, Place, shared};
use crate::processes::{self, Ended};

/// Makes the calls on both sides, from fresh memory on. A list with a call that does not fit shows nothing.
fn play(calls: &[Call], place: Place) -> Result<(), Difference> {
    let mut counts = Counts::new();
    let mut machine = Machine::new();
    let mut lent = Lent::new(place);
    let start = [Call::Fresh, Call::FreshLoader];
    for call in start.iter().chain(calls) {
        if both::make(&mut machine, &mut lent, call, &mut counts)?.is_none() {
            return Ok(());
        }
    }
    Ok(())
}

fn differs(calls: &[Call], place: Place) -> bool {
    let ended = processes::in_a_child(|| {
        // Of the processor's time a list of calls takes some thousandths of a second.
        processes::end_after(2);
        if play(calls, place).is_err() {
            exit(1);
        }
    });
    ended != Ended::Well
}

/// The words for the difference that the list shows.
pub fn what_differs(calls: &[Call], place: Place) -> String {
    #[derive(Clone, Copy)]
    struct Words {
        length: usize,
        bytes: [u8; 4000],
    }
    let words: *mut Words = shared();
    let ended = processes::in_a_child(|| {
        processes::end_after(2);
        if let Err(difference) = play(calls, place) {
            let bytes = difference.as_bytes();
            // Only this process writes there, until it ends.
            let words = unsafe { &mut *words };
            words.length = bytes.len().min(words.bytes.len());
            words.bytes[..words.length].copy_from_slice(&bytes[..words.length]);
            exit(1);
        }
    });
    // The other process has ended.
    let words = unsafe { words.read_volatile() };
    match words.length {
        0 => ended.to_string(),
        length => String::from_utf8_lossy(&words.bytes[..length]).into_owned(),
    }
}

/// Leaves out things, in chunks that get smaller, while `still` holds of the rest.
fn fewer<T: Clone>(mut things: Vec<T>, still: &mut dyn FnMut(&[T]) -> bool) -> Vec<T> {
    let mut chunk = (things.len() / 2).max(1);
    loop {
        let mut at = 0;
        while at < things.len() {
            let mut rest = things[..at].to_vec();
            rest.extend_from_slice(&things[(at + chunk).min(things.len())..]);
            if still(&rest) {
                things = rest;
            } else {
                at += chunk;
            }
        }
        // Of a very long text, whose length shows the difference, each byte is not tried.
        if chunk == 1 || chunk < things.len() / 512 {
            return things;
        }
        chunk /= 2;
    }
}

/// The texts of a call.
fn texts(call: &mut Call) -> Vec<&mut Vec<u8>> {
    match call {
        Call::Piece(text) | Call::Change(text) | Call::Revoke(text) | Call::Override(text) | Call::Mapping(text) | Call::ByLabel(text) => vec![text],
        Call::Question { subject, object, request, .. } => vec![subject, object, request],
        Call::NewObject { creator, folder, .. } => vec![creator, folder],
        Call::List { output, .. } => vec![output],
        Call::RecordToLine { record, output } => vec![record, output],
        Call::LineToRecord { line, output } => vec![line, output],
        Call::WriteOption { label, output } => vec![label, output],
        Call::ReadOption { option } => vec![option],
        _ => vec![],
    }
}

/// The fields of all texts, each once, the longest first.
fn all_fields(calls: &mut [Call]) -> Vec<Vec<u8>> {
    let mut found = Vec::new();
    for text in calls.iter_mut().flat_map(texts) {
        found.extend(text.split(|byte| b" \t\n".contains(byte)).map(<[u8]>::to_vec));
    }
    found.sort_by_key(|field| (std::cmp::Reverse(field.len()), field.clone()));
    found.dedup();
    found
}

/// The calls with this field of every text turned into another.
fn with_field(calls: &[Call], old: &[u8], new: &[u8]) -> Vec<Call> {
    let mut changed = calls.to_vec();
    for text in changed.iter_mut().flat_map(texts) {
        let mut rest = std::mem::take(text);
        while !rest.is_empty() {
            let end = rest.iter().position(|byte| b" \t\n".contains(byte)).unwrap_or(rest.len());
            let behind = rest.split_off(end.max(1));
            text.extend_from_slice(if rest == old { new } else { &rest });
            rest = behind;
        }
    }
    changed
}

/// A short list that shows a difference too.
pub fn reduced(mut calls: Vec<Call>, place: Place) -> Vec<Call> {
    if !differs(&calls, place) {
        println!("made again from the start of the script, the calls show no difference: something is kept between scripts. They are all given");
        return calls;
    }
    // An episode of a script begins with fresh memory; mostly one is enough.
    let mut starts: Vec<usize> = (0..calls.len()).filter(|&at| calls[at] == Call::Fresh).collect();
    starts.reverse();
    if let Some(start) = starts.into_iter().take(20).find(|&start| differs(&calls[start..], place)) {
        calls.drain(..start);
    }
    loop {
        let before = calls.clone();
        calls = fewer(calls, &mut |rest| differs(rest, place));
        // Labels become shorter wherever they stand.
        for field in all_fields(&mut calls) {
            let lengths = [1, 2, field.len() / 4, field.len() / 2, field.len().saturating_sub(1)];
            for length in lengths.into_iter().filter(|&length| 0 < length && length < field.len()) {
                let changed = with_field(&calls, &field, &field[..length]);
                if differs(&changed, place) {
                    calls = changed;
                    break;
                }
            }
        }
        for at in 0..calls.len() {
            if let Call::Run { level, set, records } = calls[at].clone() {
                let with = |records: &[Record]| {
                    let mut changed = calls.clone();
                    changed[at] = Call::Run { level, set, records: records.to_vec() };
                    changed
                };
                let short = fewer(records, &mut |rest| differs(&with(rest), place));
                calls = with(&short);
            }
            for which in 0..texts(&mut calls[at]).len() {
                let with = |bytes: &[u8]| {
                    let mut changed = calls.clone();
                    *texts(&mut changed[at])[which] = bytes.to_vec();
                    changed
                };
                let bytes = texts(&mut calls[at].clone())[which].clone();
                let short = fewer(bytes, &mut |rest| differs(&with(rest), place));
                calls = with(&short);
            }
        }
        if calls == before {
            return calls;
        }
    }
}
