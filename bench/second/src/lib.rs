//! The second implementation behind a C interface, so that one program can time it beside the library. Its own tables are used, which are
//! never damaged: it has no damage check to do.

use second::plain::{Answer, Loader, Report, Table};

pub struct Both {
    table: Table,
    loader: Loader,
}

/// A kind (0 granted, 1 denied, 2 override, 3 refused) and the number.
#[repr(C)]
pub struct Shown {
    kind: u8,
    number: u8,
}

unsafe fn bytes<'a>(at: *const u8, length: usize) -> &'a [u8] {
    std::slice::from_raw_parts(at, length)
}

#[no_mangle]
pub extern "C" fn second_new() -> *mut Both {
    Box::into_raw(Box::new(Both {
        table: Table::fresh(),
        loader: Loader::fresh(),
    }))
}

/// # Safety
/// `both` is from `second_new` and is not used again.
#[no_mangle]
pub unsafe extern "C" fn second_free(both: *mut Both) {
    drop(Box::from_raw(both));
}

/// A label put last.
///
/// # Safety
/// `both` is from `second_new`; `text` is readable for its length.
#[no_mangle]
pub unsafe extern "C" fn second_label(both: *mut Both, text: *const u8, length: usize) {
    (*both).table.labels.push(bytes(text, length).to_vec());
}

/// A rule put last by numbers, even where the pair has one.
///
/// # Safety
/// `both` is from `second_new`.
#[no_mangle]
pub unsafe extern "C" fn second_push(both: *mut Both, subject: usize, object: usize, modes: u8) {
    (*both).table.rules.push((subject, object, modes));
}

/// # Safety
/// `both` is from `second_new`; the others are readable for their lengths.
#[no_mangle]
pub unsafe extern "C" fn second_question(
    both: *const Both,
    subject: *const u8,
    subject_len: usize,
    object: *const u8,
    object_len: usize,
    request: *const u8,
    request_len: usize,
    capable: bool,
) -> Shown {
    let answer = (*both).table.question(
        bytes(subject, subject_len),
        bytes(object, object_len),
        bytes(request, request_len),
        capable,
    );
    match answer {
        Answer::Granted { rule } => Shown { kind: 0, number: rule },
        Answer::Denied { rule } => Shown { kind: 1, number: rule },
        Answer::Override { rule } => Shown { kind: 2, number: rule },
        Answer::Refused(refusal) => Shown { kind: 3, number: refusal.number() },
    }
}

/// # Safety
/// `both` is from `second_new`; `text` is readable for its length.
#[no_mangle]
pub unsafe extern "C" fn second_piece(both: *mut Both, text: *const u8, length: usize) {
    let both = &mut *both;
    both.loader.piece(&mut both.table, bytes(text, length));
}

/// The report as seven numbers; the place is left out.
///
/// # Safety
/// `both` is from `second_new`; `out` has room for seven.
#[no_mangle]
pub unsafe extern "C" fn second_end(both: *mut Both, out: *mut u32) {
    let both = &mut *both;
    let report: Report = both.loader.end(&mut both.table);
    let numbers = [
        report.lines,
        report.accepted,
        report.skipped,
        report.refused,
        report.first_line,
        report.first_reason,
        report.bringup,
    ];
    std::slice::from_raw_parts_mut(out, 7).copy_from_slice(&numbers);
}

/// 0, or -1 where it was refused.
///
/// # Safety
/// `both` is from `second_new`; `text` is readable for its length.
#[no_mangle]
pub unsafe extern "C" fn second_change(both: *mut Both, text: *const u8, length: usize) -> i32 {
    match (*both).table.change(bytes(text, length)) {
        Ok(()) => 0,
        Err(_) => -1,
    }
}

/// The length of rule k's text, or 0 where it was refused.
///
/// # Safety
/// `both` is from `second_new`; `out` is writable for its length.
#[no_mangle]
pub unsafe extern "C" fn second_list(both: *const Both, k: u64, out: *mut u8, length: usize) -> usize {
    let out = std::slice::from_raw_parts_mut(out, length);
    (*both).table.list(k, out).unwrap_or(0)
}
