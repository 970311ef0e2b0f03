//! "What the program reads and writes".

use second::program::run;

fn output(input: &[u8]) -> String {
    String::from_utf8(run(input)).unwrap()
}

#[test]
fn the_example_of_the_paper() {
    let input = b"Probe3 Air w\n?\nProbe3 Air w\nAir Probe3 w o\n";
    let expected = "1 1 0 0 0 0 0\ngranted 6\noverride 7\n";
    assert_eq!(output(input), expected);
    // "the last line needs no newline".
    assert_eq!(output(&input[..input.len() - 1]), expected);
}

#[test]
fn every_answer() {
    let input = b"A B rb\nC D w\n?\nA B r\nC D w\n* A r\n* A r o\nA B q\nA/ B r\nA C r\n\
        ^ A x\nA _ r\nA * w\nA A a\nA B rx o\n";
    assert_eq!(
        output(input),
        "2 2 0 0 0 0 1\ngranted 6\ngranted 6\ndenied 1\noverride 1\nrefused 8\nrefused 3\n\
         denied 7\ngranted 2\ngranted 3\ngranted 4\ngranted 5\noverride 7\n"
    );
}

#[test]
fn no_question_mark() {
    assert_eq!(output(b""), "0 0 0 0 0 0 0\n");
    assert_eq!(output(b"\n"), "1 0 1 0 0 0 0\n");
    assert_eq!(output(b"A B r"), "1 1 0 0 0 0 0\n");
    assert_eq!(output(b"A B r\n\nA A r\n "), "4 1 2 1 3 5 0\n");
}

#[test]
fn the_question_mark_line() {
    assert_eq!(output(b"?"), "0 0 0 0 0 0 0\n");
    assert_eq!(output(b"?\n"), "0 0 0 0 0 0 0\n");
    assert_eq!(output(b"A B r\n?"), "1 1 0 0 0 0 0\n");
    // Not exactly `?`: rule lines.
    for line in ["? ", " ?", "?\r", "??"] {
        let input = format!("{line}\n");
        assert_eq!(output(input.as_bytes()), "1 0 0 1 1 2 0\n", "{line:?}");
        assert_eq!(output(line.as_bytes()), "1 0 0 1 1 2 0\n", "{line:?}");
    }
    // A later one is a question line of one field.
    assert_eq!(
        output(b"?\n?\n? ? r\n"),
        "0 0 0 0 0 0 0\nrefused 2\ngranted 5\n"
    );
    assert_eq!(output(b"? ? r\n?\n"), "1 0 0 1 1 5 0\n");
    // Lines after it never load.
    assert_eq!(
        output(b"?\nA B r\nA B r\n"),
        "0 0 0 0 0 0 0\ndenied 7\ndenied 7\n"
    );
}

#[test]
fn fields_of_a_question_line() {
    let questions = [
        ("", "refused 2"),
        (" ", "refused 2"),
        ("A", "refused 2"),
        ("A B", "refused 2"),
        ("A B r x", "refused 2"),
        ("A B r O", "refused 2"),
        ("A B r oo", "refused 2"),
        ("A B r 0", "refused 2"),
        ("A B r o o", "refused 2"),
        ("A B r o\r", "refused 2"),
        ("A B o", "refused 8"),
        ("A B r\r", "refused 8"),
        ("A B - o", "refused 8"),
        ("A/ B q", "refused 3"),
        ("A B/ q o", "refused 3"),
        ("A/ B", "refused 2"),
        ("A/ B r x", "refused 2"),
        (" \tA  B\tr\to ", "override 7"),
        ("o o r o", "granted 5"),
    ];
    for (line, answer) in questions {
        let input = format!("?\n{line}\n");
        let expected = format!("0 0 0 0 0 0 0\n{answer}\n");
        assert_eq!(output(input.as_bytes()), expected, "{line:?}");
    }
}

#[test]
fn the_length_of_a_question_line() {
    let line =
        |length: usize, text: &str| format!("?\n{text}{}\n", " ".repeat(length - text.len()));
    assert_eq!(
        output(line(600, "A B r").as_bytes()),
        "0 0 0 0 0 0 0\ndenied 7\n"
    );
    assert_eq!(
        output(line(601, "A B r").as_bytes()),
        "0 0 0 0 0 0 0\nrefused 1\n"
    );
    // 1 before 2 before 3
    assert_eq!(
        output(line(601, "A/").as_bytes()),
        "0 0 0 0 0 0 0\nrefused 1\n"
    );
    assert_eq!(
        output(line(600, "A/").as_bytes()),
        "0 0 0 0 0 0 0\nrefused 2\n"
    );
    assert_eq!(
        output(line(601, "").as_bytes()),
        "0 0 0 0 0 0 0\nrefused 1\n"
    );
    assert_eq!(
        output(line(600, "").as_bytes()),
        "0 0 0 0 0 0 0\nrefused 2\n"
    );
}

#[test]
fn an_empty_line_among_the_questions() {
    assert_eq!(
        output(b"?\n\nA A r\n\n"),
        "0 0 0 0 0 0 0\nrefused 2\ngranted 5\nrefused 2\n"
    );
}

#[test]
fn the_report_of_refused_lines() {
    assert_eq!(output(b"A B r\n\n\nbad\nA A r\n?\n"), "5 1 2 2 4 2 0\n");
    let long = [&[b' '; 601][..], b"\n?\n"].concat();
    assert_eq!(output(&long), "1 0 0 1 1 1 0\n");
}
