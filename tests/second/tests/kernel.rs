//! Recorded answers of a running kernel, where the paper does not decide
//! otherwise. `kernel_excerpt.txt` holds the writes and the answers in short.
//! With KERNEL_VECTORS set to a folder that has the whole recordings, these are
//! compared too.

mod common;

use common::*;
use second::plain::*;

const EXCERPT: &str = include_str!("kernel_excerpt.txt");

const REQUESTS: [&str; 15] = [
    "r", "w", "rw", "x", "rx", "wx", "rwx", "a", "ra", "wa", "rwa", "xa", "rxa", "wxa", "rwxa",
];

/// The paper's letters without l, and without b in a change; a dash where
/// nothing is left.
fn without(field: &str, letters: &str) -> String {
    let rest: String = field.chars().filter(|c| !letters.contains(*c)).collect();
    if rest.is_empty() {
        "-".to_string()
    } else {
        rest
    }
}

/// One recorded write, made as the paper would have it.
fn make_write(table: &mut Table, file: &str, text: &str) {
    let fields: Vec<&str> = text.split(' ').collect();
    match file {
        "load2" => {
            let line = format!("{} {} {}", fields[0], fields[1], without(fields[2], "l"));
            let report = load_into(table, line.as_bytes());
            if fields[0] == fields[1] {
                assert_eq!(report.first_reason, 5, "{text}");
            } else {
                assert_eq!(report.accepted, 1, "{text}");
            }
        }
        "change-rule" => {
            let allow = without(fields[2], "lb");
            let deny = without(fields[3], "lb");
            let write = format!("{} {} {allow} {deny}", fields[0], fields[1]);
            assert_eq!(table.change(write.as_bytes()), Ok(()), "{text}");
        }
        "revoke-subject" => {
            assert!(table.revoke(text.as_bytes()).is_ok(), "{text}");
        }
        _ => panic!("{file}"),
    }
}

/// "`@` has no special rule in 01; the kernel allows all to and from it, after
/// the rule on subject `*`."
fn is_comparable(subject: &str, object: &str) -> bool {
    subject == "*" || (subject != "@" && object != "@")
}

fn is_granted(table: &Table, subject: &str, object: &str, request: &str) -> bool {
    match ask(table, subject, object, request) {
        Answer::Granted { .. } => true,
        Answer::Denied { .. } => false,
        answer => panic!("{answer:?}"),
    }
}

#[test]
fn the_answers_after_each_stage() {
    let mut labels = Vec::new();
    let mut writes = Vec::new();
    let mut answers = Vec::new();
    for row in EXCERPT.lines().filter(|row| !row.starts_with('#')) {
        let (kind, rest) = row.split_once(' ').unwrap();
        match kind {
            "label" => labels.push(rest),
            "write" => {
                let (stage, rest) = rest.split_once(' ').unwrap();
                let (file, text) = rest.split_once(' ').unwrap();
                writes.push((stage, file, text));
            }
            "answers" => answers.push(rest.split(' ').collect::<Vec<&str>>()),
            _ => panic!("{row}"),
        }
    }
    assert_eq!((labels.len(), writes.len(), answers.len()), (15, 71, 60));

    let mut table = Table::fresh();
    let mut compared = 0;
    for stage in ["S0", "S1", "S2", "S3"] {
        for (_, file, text) in writes.iter().filter(|write| write.0 == stage) {
            make_write(&mut table, file, text);
        }
        for row in answers.iter().filter(|row| row[0] == stage) {
            let subject = row[1];
            for (object, mask) in labels.iter().zip(&row[2..]) {
                if !is_comparable(subject, object) {
                    continue;
                }
                let mask = u32::from_str_radix(mask, 16).unwrap();
                for (k, request) in REQUESTS.iter().enumerate() {
                    let expected = mask & (1 << k) != 0;
                    assert_eq!(
                        is_granted(&table, subject, object, request),
                        expected,
                        "{stage}: {subject} {object} {request}"
                    );
                    compared += 1;
                }
            }
        }
    }
    // 225 pairs less 28 with @, by 15 requests and 4 stages.
    assert_eq!(compared, 4 * 15 * (225 - 28));
}

#[test]
fn labels_that_the_kernel_kept_whole() {
    // Alone and first in a label: these bytes; elsewhere the dash too.
    let kept = b"!#$%&()*+,.0123456789:;<=>?@ABCDEFGHIJKLMNOPQRSTUVWXYZ[]^_`\
                 abcdefghijklmnopqrstuvwxyz{|}~";
    assert_eq!(kept.len(), 89);
    for byte in 1..=255u8 {
        let first = kept.contains(&byte);
        let later = first || byte == b'-';
        assert_eq!(is_well_formed(&[byte]), first, "{byte}");
        assert_eq!(is_well_formed(&[byte, b'L', b'a', b'b']), first, "{byte}");
        assert_eq!(is_well_formed(&[b'L', byte, b'e', b'l']), later, "{byte}");
        assert_eq!(is_well_formed(&[b'L', b'a', b'b', byte]), later, "{byte}");
    }
    for length in [1, 2, 22, 23, 24, 25, 254, 255] {
        assert!(is_well_formed(&vec![b'0'; length]));
    }
    for length in [256, 257, 300, 1000] {
        assert!(!is_well_formed(&vec![b'0'; length]));
    }
    for refused in ["-", "--", "-A", "-CIPSO"] {
        assert!(!is_well_formed(refused.as_bytes()));
    }
    for whole in [
        "A-",
        "A-B",
        "_",
        "^",
        "*",
        "?",
        "@",
        "__",
        "**",
        "@@",
        "^^",
        "??",
        "_A",
        "*A",
        "@A",
        ".",
        "#",
        "#x",
        ":",
        "::a",
        "(x)",
        "{x}",
        "%",
        "a=b",
        "User::Pkg",
        "1",
        "0",
    ] {
        assert!(is_well_formed(whole.as_bytes()), "{whole}");
    }
}

/// The level and the categories in the option bytes that a kernel sent: ten
/// bytes of head, the level the last of them, then the categories from 0 on,
/// the highest bit first.
fn level_and_set(option: &str) -> (u8, Categories) {
    let bytes = second::script::read_hex(option).unwrap();
    let length = usize::from(bytes[1]);
    let mut set = Categories::new();
    for (k, byte) in bytes[10..length].iter().enumerate() {
        for bit in 0..8 {
            let category = k * 8 + bit;
            if byte & (0x80 >> bit) != 0 {
                set.insert(category as u64);
            }
        }
    }
    (bytes[9], set)
}

#[test]
fn mappings_as_the_kernel_sent_them() {
    let recorded = [
        ("9", "1 63", "861200000003010c000940000000000000010000"),
        ("5", "2 4 6", "860b00000003010500052a00"),
        ("0", "", "860a00000003010400000000"),
        ("255", "", "860a00000003010400ff0000"),
        ("1", "1", "860b00000003010500014000"),
        ("3", "7", "860b00000003010500030100"),
        ("3", "8", "860c00000003010600030080"),
        ("3", "15", "860c00000003010600030001"),
        (
            "4",
            "1 2 3 4 5 6 7 8 9 10 11 12 13 14 15 16 17 18 19 20 21 22 23 24",
            "860e00000003010800047fffff800000",
        ),
        ("2", "5 5 5", "860b00000003010500020400"),
        ("6", "63 1", "861200000003010c000640000000000000010000"),
        ("12", "1 2 3", "860b000000030105000c7000"),
        ("3", "79", "861400000003010e000300000000000000000001"),
        (
            "3",
            "80",
            "861500000003010f00030000000000000000000080000000",
        ),
        (
            "7",
            "100 184",
            "862200000003011c00070000000000000000000000000800000000000000000000800000",
        ),
        (
            "9",
            "184",
            "862200000003011c00090000000000000000000000000000000000000000000000800000",
        ),
    ];
    for (level, categories, option) in recorded {
        let mut table = Table::fresh();
        let write = format!("Map {level} {categories}");
        assert_eq!(table.mapping(write.as_bytes()), Ok(()), "{write}");
        let found = table.by_label(b"Map").unwrap().unwrap();
        assert_eq!((found.level, found.set), level_and_set(option), "{write}");
        // The kernel's bytes, but for what fills the header up to four.
        let bytes = second::script::read_hex(option).unwrap();
        let (sent, filling) = bytes.split_at(usize::from(bytes[1]));
        assert!(filling.len() < 4 && filling.iter().all(|&byte| byte == 0));
        let mut output = [0; 40];
        assert_eq!(table.write_option(b"Map", &mut output), Ok(sent.len()));
        assert_eq!(&output[..sent.len()], sent, "{write}");
        assert_eq!(table.read_option(sent).unwrap(), b"Map", "{write}");
        if !filling.is_empty() {
            assert_eq!(table.read_option(&bytes), Err(Refusal::BadOption));
        }
    }
    // A level that the kernel takes and the papers do not. It sent a label's bits.
    let mut table = Table::fresh();
    assert_eq!(
        table.mapping(b"Map 250 2 8 10"),
        Err(Refusal::BadLevelOrCategory)
    );
    let sent = second::script::read_hex("860c00000003010600fa20a0").unwrap();
    assert_eq!(
        (250, Categories::from([2, 8, 10])),
        level_and_set("860c00000003010600fa20a0")
    );
    assert_eq!(table.read_option(&sent).unwrap(), b"A@");
    let mut output = [0; 12];
    assert_eq!(table.write_option(b"A@", &mut output), Ok(12));
    assert_eq!(output, sent[..]);
    // A category that the kernel takes, and ignores, and the papers do not.
    for categories in ["0", "0 3"] {
        let mut table = Table::fresh();
        let write = format!("Map 3 {categories}");
        assert_eq!(
            table.mapping(write.as_bytes()),
            Err(Refusal::BadLevelOrCategory),
            "{write}"
        );
    }
}

// --- The whole recordings, where they are at hand --------------------------------

fn recording(name: &str) -> Option<String> {
    let folder = std::env::var_os("KERNEL_VECTORS")?;
    let path = std::path::Path::new(&folder).join(name);
    Some(std::fs::read_to_string(path).unwrap())
}

fn rows(text: &str) -> impl Iterator<Item = Vec<&str>> {
    text.lines()
        .filter(|row| !row.starts_with("#s") && !row.starts_with("# ") && !row.starts_with("#p"))
        .map(|row| row.split('\t').collect())
}

#[test]
fn whole_recording_of_questions() {
    let Some(rules) = recording("rules.txt") else {
        return;
    };
    let files = [
        ("S0", "questions_s0_norules.tsv"),
        ("S1", "questions_s1.tsv"),
        ("S2", "questions_s2.tsv"),
        ("S3", "questions.tsv"),
    ];
    let mut table = Table::fresh();
    for (stage, name) in files {
        for row in rows(&rules).filter(|row| row[0] == stage) {
            make_write(&mut table, row[1], row[2]);
        }
        let text = recording(name).unwrap();
        let mut asked = 0;
        for row in rows(&text) {
            asked += 1;
            if is_comparable(row[0], row[1]) {
                let expected = row[3] == "1";
                assert_eq!(
                    is_granted(&table, row[0], row[1], row[2]),
                    expected,
                    "{row:?}"
                );
            }
        }
        assert_eq!(asked, 3375);
    }
}

/// `%41` stands for the byte 0x41.
fn unescape(text: &str) -> Vec<u8> {
    let bytes = text.as_bytes();
    let mut label = Vec::new();
    let mut k = 0;
    while k < bytes.len() {
        if bytes[k] == b'%' {
            label.push(u8::from_str_radix(&text[k + 1..k + 3], 16).unwrap());
            k += 3;
        } else {
            label.push(bytes[k]);
            k += 1;
        }
    }
    label
}

#[test]
fn whole_recording_of_labels() {
    let Some(text) = recording("labels.tsv") else {
        return;
    };
    let mut seen = 0;
    for row in rows(&text) {
        seen += 1;
        let label = unescape(row[2]);
        let whole = *row.last().unwrap() == "whole";
        assert_eq!(is_well_formed(&label), whole, "{row:?}");
    }
    assert_eq!(seen, 1063);
}

#[test]
fn whole_recording_of_mappings() {
    let Some(text) = recording("cipso.tsv") else {
        return;
    };
    let mut seen = 0;
    for row in text.lines().map(|row| row.split('\t').collect::<Vec<_>>()) {
        let Some(rest) = row[1].strip_prefix("cipso2 level ") else {
            continue;
        };
        let (level, categories) = rest.split_once(" cats ").unwrap();
        let categories: Vec<&str> = match categories {
            "none" => Vec::new(),
            list => list.split(',').collect(),
        };
        let mut table = Table::fresh();
        let write = format!("{} {level} {}", row[0], categories.join(" "));
        let answer = table.mapping(write.as_bytes());
        let known = categories
            .iter()
            .all(|c| (1..=184).contains(&c.parse::<u32>().unwrap()));
        if !known || level == "250" {
            assert_eq!(answer, Err(Refusal::BadLevelOrCategory));
        } else {
            assert_eq!(answer, Ok(()));
            let found = table.by_label(row[0].as_bytes()).unwrap().unwrap();
            assert_eq!((found.level, found.set), level_and_set(row[2]), "{row:?}");
            seen += 1;
        }
    }
    assert_eq!(seen, 17);
}
