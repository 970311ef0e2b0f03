//! "What the program reads and writes".

use crate::plain::{fields_exactly, Answer, Loader, Refusal, Report, Table, LINE_LIMIT};

/// All of standard input to all of standard output.
pub fn run(input: &[u8]) -> Vec<u8> {
    let (rule_text, questions) = split_at_question_mark(input);

    let mut table = Table::fresh();
    let mut loader = Loader::fresh();
    loader.piece(&mut table, rule_text);
    let report = loader.end(&mut table);

    let mut output = Vec::new();
    output.extend_from_slice(report_text(&report).as_bytes());
    output.push(b'\n');
    for line in lines_of(questions) {
        let answer = question_line(&table, line);
        output.extend_from_slice(answer_text(&answer).as_bytes());
        output.push(b'\n');
    }
    output
}

/// "Standard input holds rule text, the first line that is exactly `?`, then
/// question lines". Gives the bytes before that line and the bytes after it.
/// Without such a line all of the input is rule text.
fn split_at_question_mark(input: &[u8]) -> (&[u8], &[u8]) {
    let mut start = 0;
    while start < input.len() {
        let rest = &input[start..];
        let length = match rest.iter().position(|&byte| byte == b'\n') {
            Some(length) => length,
            None => rest.len(),
        };
        let end = start + length;
        let next = (end + 1).min(input.len());
        if &input[start..end] == b"?" {
            return (&input[..start], &input[next..]);
        }
        start = next;
    }
    (input, &[])
}

/// The lines of a text; "the last line needs no newline".
fn lines_of(text: &[u8]) -> Vec<&[u8]> {
    let mut lines: Vec<&[u8]> = text.split(|&byte| byte == b'\n').collect();
    // What is behind the last newline is a line only if it has a byte.
    if lines.last() == Some(&&b""[..]) {
        lines.pop();
    }
    lines
}

/// "subject, object, request and, where the asker has the capability, a fourth
/// field `o`". "A question line over 600 bytes gets `refused 1`, other fields
/// than these `refused 2`, both before 3."
pub fn question_line(table: &Table, line: &[u8]) -> Answer {
    if line.len() > LINE_LIMIT {
        return Answer::Refused(Refusal::TooLong);
    }
    if let Some([subject, object, request]) = fields_exactly(line) {
        return table.question(subject.bytes, object.bytes, request.bytes, false);
    }
    match fields_exactly(line) {
        Some([subject, object, request, o]) if o.bytes == b"o" => {
            table.question(subject.bytes, object.bytes, request.bytes, true)
        }
        _ => Answer::Refused(Refusal::WrongFields),
    }
}

/// "lines, accepted, skipped, refused, first refused line, its reason; 0 0
/// where none". 02, Three: "the program prints as before", so no place. 02, Six:
/// "the program prints" the count of lines that held a b "last on the report line".
pub fn report_text(report: &Report) -> String {
    format!(
        "{} {} {} {} {} {} {}",
        report.lines,
        report.accepted,
        report.skipped,
        report.refused,
        report.first_line,
        report.first_reason,
        report.bringup
    )
}

/// "`granted 6` ..., `denied 7`, `override 7` or `refused 3`, with the number that
/// applies"; no place here either, and since Six no b.
pub fn answer_text(answer: &Answer) -> String {
    match answer {
        Answer::Granted { rule } => format!("granted {rule}"),
        Answer::Denied { rule } => format!("denied {rule}"),
        Answer::Override { rule } => format!("override {rule}"),
        Answer::Refused(refusal) => format!("refused {}", refusal.number()),
    }
}
