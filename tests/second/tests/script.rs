//! The script's forms, and the scripts that the generator writes.

use std::collections::{BTreeMap, BTreeSet};

use second::plain::{fields, fields_exactly, is_well_formed, Answer, Line, Loader, Refusal, Table};
use second::plain::{T, W};
use second::random::{write_script, Kind, Xorshift};
use second::raw;
use second::script::{fnv1a, read_hex, write_hex, Machine};

/// Makes the calls and compares the answers.
fn check(calls: &[(&str, &str)]) {
    let mut machine = Machine::new();
    for (call, answer) in calls {
        assert_eq!(machine.execute(call).as_deref(), Some(*answer), "{call}");
    }
}

fn hex(text: &str) -> String {
    write_hex(text.as_bytes())
}

#[test]
fn every_form() {
    let piece = format!("piece {}", hex("Alarm Air rxb\nA A rb\nX"));
    let change = format!("change {}", hex("Alarm Air w -"));
    let revoke = format!("revoke {}", hex("Alarm"));
    let overrides = format!("override {}", hex("Alarm"));
    let mapping = format!("mapping {}", hex("Air 9 1 63"));
    let by_label = format!("bylabel {}", hex("Air"));
    let unmapped = format!("bylabel {}", hex("Alarm"));
    let question =
        |s: &str, o: &str, r: &str, c: u8| format!("question {} {} {} {c}", hex(s), hex(o), hex(r));
    let listed = format!("length 14 {}ff", hex("Alarm Air rwx\n"));
    let air = format!("done {}", hex("Air"));
    let record = hex(&format!("{:24}{:24}{}", "Alarm", "Air", "Rw--t"));
    let record_back = hex(&format!("{:24}{:24}{}", "Alarm", "Air", "rw--t"));
    let line = hex("Alarm Air rwt\n");
    let to_line = format!("recordtoline {record} {}ff", "00".repeat(14));
    let written_line = format!("length 14 {line}ff");
    let to_line_short = format!("recordtoline {record} {}", "07".repeat(13));
    let not_written = format!("refused 12 {}", "07".repeat(13));
    let to_record = format!("linetorecord {line} {}ff", "00".repeat(53));
    let written_record = format!("length 53 {record_back}ff");
    check(&[
        ("fresh", "done"),
        ("freshloader", "done"),
        (&piece, "done"),
        ("end", "report 3 1 0 2 2 5 0 1"),
        ("end", "report 0 0 0 0 0 0 0 0"),
        (&change, "done"),
        // One byte too short for the listing.
        (
            "list 0 0102030405060708090a0b0c0d",
            "refused 12 0102030405060708090a0b0c0d",
        ),
        ("list 0 0000000000000000000000000000ff", &listed),
        ("list 1 -", "refused 13 -"),
        (&question("Alarm", "Air", "r", 0), "granted 6"),
        (&question("Alarm", "Air", "a", 0), "denied 7"),
        (&question("Alarm", "Air", "a", 1), "override 7"),
        (&question("Alarm", "Air", "", 1), "refused 8"),
        (&overrides, "done"),
        (&question("Air", "Alarm", "a", 1), "denied 7"),
        ("override 2d", "done"),
        ("override -", "refused 2"),
        (&mapping, "done"),
        (&by_label, "mapping 9 9223372036854775810:0:0 2"),
        (&unmapped, "none"),
        ("bylabel -", "refused 3 0"),
        ("bylabel =A/", "refused 3 1"),
        ("revoke =A/", "refused 3 1"),
        // ` A B/ r -`, ` A -`, `\tA/ 9`
        ("change 204120422f2072202d", "refused 3 4"),
        ("override 2041202d", "refused 3 3"),
        ("mapping 09412f2039", "refused 3 2"),
        ("question =A/ =-B =r 0", "refused 3 1"),
        ("question =A =-B =r 0", "refused 3 0"),
        // ` A/ B r` twice, without a newline at the end
        ("piece 20412f204220720a", "done"),
        ("piece 20412f20422072", "done"),
        ("end", "report 2 0 0 2 1 3 2 0"),
        ("bylevel 9 9223372036854775810:0:0", "label 6"),
        ("bylevel 9 0:0:9223372036854775810", "refused 9"),
        ("bylevel 9 0:9223372036854775810:0", "none"),
        ("bylevel 9 0:0:0", "none"),
        ("bylevel 256 0:0:0", "refused 9"),
        (
            "run 9 2:3:256 7,9,2:3:256 3,9,2:3:256 1,9,4:3:256",
            "label 3",
        ),
        ("run 9 2:0:0", "none"),
        ("run 9 2:0:0 1,9,2:0:1", "none"),
        ("run 9 2:0:1 1,9,2:0:1", "refused 9"),
        (&revoke, "revoked 1"),
        ("label 6", &air),
        ("label 7", "refused 13 -"),
        (&to_line, &written_line),
        (&to_line_short, &not_written),
        (&to_record, &written_record),
        ("recordtoline - 0708", "refused 14 0708"),
        ("linetorecord - 0708", "refused 2 0708"),
        ("linetorecord =A -", "refused 2 -"),
        // ` A/ B r`: no place here
        ("linetorecord 20412f20422072 0708", "refused 3 0708"),
        (
            "writeoption =A 000000000000000000000000ff",
            "length 12 860c00000003010600fa2080ff",
        ),
        (
            "writeoption =Air 0000000000000000000000000000000000000708",
            "length 18 861200000003010c000940000000000000010708",
        ),
        ("writeoption =A 0708", "refused 12 0708"),
        ("writeoption =A -", "refused 12 -"),
        // No place here either.
        ("writeoption =A/ 0708", "refused 3 0708"),
        ("writeoption - -", "refused 3 -"),
        ("writeoption =LLLLLLLLLLLLLLLLLLLLLLLL 07", "refused 19 07"),
        ("readoption 860c00000003010600fa2080", "peer 41"),
        (
            "readoption 861200000003010c00094000000000000001",
            "peer 416972",
        ),
        ("readoption -", "refused 16"),
        ("readoption 860a0000000401040009", "refused 17"),
        ("readoption 860b000000030105000980", "refused 18"),
        ("readoption 860a00000003010400fa", "refused 3"),
        ("readoption 860a0000000301040009", "refused 21"),
        ("mapping =Air", "refused 2"),
        // `A 250`
        ("mapping 4120323530", "refused 9"),
        // The label's place gets the length 0.
        ("poke labels 1536 00", "done"),
        ("readoption 861200000003010c00094000000000000001", "peer -"),
        ("poke labels 1536 03", "done"),
        // `Alarm Air wt`
        ("change 416c61726d20416972207774202d", "done"),
        ("newobject =Alarm =Air 1 1", "folder 1"),
        ("newobject =Alarm =Air 1 0", "folder 0"),
        ("newobject 416c61726d 416972 0 1", "creator"),
        ("newobject =Air =Alarm 1 1", "denied"),
        // No place here either.
        ("newobject =Alarm =Ai/ 1 1", "refused 3"),
        ("newobject - - 0 0", "refused 3"),
        // `Alarm Air - wt`
        ("change 416c61726d20416972202d207774", "done"),
        ("poke words 0 65", "done"),
        ("writeoption =A/ 0708", "refused 0 0708"),
        ("readoption -", "refused 0"),
        ("newobject - - 0 0", "refused 0"),
        // No table is lent to these two.
        (&to_line, &written_line),
        (&to_record, &written_record),
        ("label 6", "refused 0 -"),
        ("end", "refused 0"),
        ("poke words 0 7", "done"),
        ("label 6", &air),
        ("resize line 599", "done"),
        ("piece -", "refused 0"),
        ("freshloader", "done"),
        ("piece -", "done"),
        ("poke loader 0 602", "done"),
        ("end", "refused 0"),
        ("poke loader 0 0", "done"),
        ("poke loader 0 18446744073709551615", "done"),
        ("end", "refused 0"),
        ("poke loader 0 0", "done"),
        ("poke loader 7 18446744073709551615", "done"),
        ("poke loader 8 4294967295", "done"),
        ("end", "report 0 0 0 0 0 0 18446744073709551615 4294967295"),
        ("end", "report 0 0 0 0 0 0 0 0"),
        (
            "run 9 2:0:0 18446744073709551615,9,2:0:0 256,9,2:0:0 1,265,2:0:0",
            "label 256",
        ),
        ("poke words 0 65", "done"),
        ("freshen", "done"),
        ("label 4", "done 40"),
        ("label 5", "refused 13 -"),
        ("resize entries 841", "done"),
        ("freshen", "refused 0"),
        ("resize entries 840", "done"),
        ("poke line 599 ff", "done"),
        ("poke labels 16383 ff", "done"),
        ("poke entries 839 ff", "done"),
    ]);
}

#[test]
fn lines_that_are_no_calls() {
    let mut machine = Machine::new();
    assert_eq!(machine.execute(""), None);
    assert_eq!(machine.execute("  "), None);
    assert_eq!(machine.execute("# words"), None);
    for line in [
        "frsh",
        "fresh 1",
        "piece",
        "piece 1",
        "piece xy",
        "end 1",
        "label",
        "label -1",
        "label 18446744073709551616",
        "bylevel 1",
        "bylevel 1 2",
        "bylevel 1 2:3",
        "bylevel 1 2:3:",
        "bylevel 1 2:3:4:5",
        "bylevel 1 2:3:18446744073709551616",
        "run 1",
        "run 1 2",
        "run 1 2:0:0 3",
        "run 1 2:0:0 3,4",
        "run 1 2:0:0 3,4,5",
        "run 1 2:0:0 3,4,5:0",
        "question 41 42 72 2",
        "question 41 42 72",
        "poke words 100 0",
        "poke line 600 00",
        "poke line 599 0000",
        "poke loader 9 0",
        "poke loader 8 4294967296",
        "poke loader 7 18446744073709551616",
        "poke loader 0 18446744073709551616",
        "poke loader 1 4294967296",
        "poke loader 6 256",
        "freshen 1",
        "poke other 0 00",
        "resize other 3",
        "resize line 99999999999",
        "list 0",
        "recordtoline",
        "recordtoline 41",
        "recordtoline 41 4",
        "recordtoline 41 42 43",
        "linetorecord",
        "linetorecord 41",
        "linetorecord 4 42",
        "linetorecord 41 42 43",
        "writeoption",
        "writeoption 41",
        "writeoption 41 4",
        "writeoption 41 42 43",
        "readoption",
        "readoption 4",
        "readoption 41 42",
        "newobject",
        "newobject 41 42",
        "newobject 41 42 1",
        "newobject 41 42 1 2",
        "newobject 41 42 2 1",
        "newobject 41 42 - 0",
        "newobject 41 4 1 1",
        "newobject 4 42 1 1",
        "newobject 41 42 1 1 1",
    ] {
        assert_eq!(machine.execute(line).as_deref(), Some("bad line"), "{line}");
    }
    // They did nothing.
    let dump = machine.execute("dump");
    assert_eq!(dump, Machine::new().execute("dump"));
}

#[test]
fn a_dump() {
    assert_eq!(fnv1a(b""), 0xcbf29ce484222325);
    assert_eq!(fnv1a(b"a"), 0xaf63dc4c8601ec8c);
    assert_eq!(fnv1a(b"foobar"), 0x85944171f73967e8);
    let mut machine = Machine::new();
    let zeros = format!("{:016x}", fnv1a(&[0; 600]));
    let dump = machine.execute("dump").unwrap();
    assert!(dump.contains(&format!(
        " line {zeros} counts 5 0 0 0 loader 0 0 0 0 0 0 0 0 0"
    )));
    machine.execute("resize words 2");
    let dump = machine.execute("dump").unwrap();
    assert!(dump.contains(" counts 5 0 - - loader "), "{dump}");
}

#[test]
fn hex_there_and_back() {
    let all: Vec<u8> = (0..=255).collect();
    assert_eq!(read_hex(&write_hex(&all)), Some(all));
    assert_eq!(read_hex("-"), Some(Vec::new()));
    assert_eq!(write_hex(b""), "-");
    assert_eq!(read_hex("fF"), Some(vec![255]));
    assert_eq!(read_hex("f"), None);
    assert_eq!(read_hex("fg"), None);
    assert_eq!(read_hex("=Air"), Some(b"Air".to_vec()));
    assert_eq!(read_hex("=="), Some(b"=".to_vec()));
    assert_eq!(read_hex("=!~"), Some(b"!~".to_vec()));
    assert_eq!(read_hex("="), None);
    assert_eq!(read_hex("=\u{7f}"), None);
    assert_eq!(read_hex("=\u{e4}"), None);
}

// --- The generator -------------------------------------------------------------

fn script_of(kind: Kind, seed: u64, count: u64) -> Vec<String> {
    let mut text = Vec::new();
    write_script(seed, count, kind, &mut text).unwrap();
    let text = String::from_utf8(text).unwrap();
    text.lines().map(str::to_string).collect()
}

fn random_script(seed: u64, count: u64) -> Vec<String> {
    script_of(Kind::Every, seed, count)
}

#[test]
fn the_same_seed_gives_the_same_script() {
    assert_eq!(random_script(7, 500), random_script(7, 500));
    assert_ne!(random_script(7, 500), random_script(8, 500));
    // A shorter script is the beginning of a longer one.
    assert_eq!(random_script(7, 300), random_script(7, 500)[..300]);
    assert!(random_script(7, 0).is_empty());
}

#[test]
fn random_calls_are_calls_and_refusals_leave_every_byte() {
    for seed in 0..6 {
        let mut machine = Machine::new();
        let script = random_script(seed, 4000);
        assert_eq!(script.len(), 4000);
        for call in script {
            let state = machine.state().clone();
            let loader = machine.loader().clone();
            let damaged = raw::raw_is_damaged(&state);
            let answer = machine.execute(&call).unwrap();
            assert_ne!(answer, "bad line", "{call}");
            let kind = call.split(' ').next().unwrap();
            let is_setter = ["fresh", "freshen", "freshloader", "poke", "resize"].contains(&kind);
            if answer.starts_with("refused") {
                assert_eq!(*machine.state(), state, "{call}");
                assert_eq!(*machine.loader(), loader, "{call}");
            }
            let takes_no_table = ["dump", "run", "recordtoline", "linetorecord"].contains(&kind);
            if damaged && !is_setter && !takes_no_table {
                assert!(answer.starts_with("refused 0"), "{call}");
            }
            // No call damages a state.
            if !damaged && !is_setter {
                assert!(!raw::raw_is_damaged(machine.state()), "{call}");
            }
            // Questions and look-ups change nothing.
            let reads = [
                "bylabel",
                "bylevel",
                "run",
                "question",
                "list",
                "label",
                "recordtoline",
                "linetorecord",
                "writeoption",
                "readoption",
                "newobject",
                "dump",
            ];
            if reads.contains(&kind) {
                assert_eq!(*machine.state(), state, "{call}");
                assert_eq!(*machine.loader(), loader, "{call}");
            }
        }
    }
}

#[test]
fn random_scripts_reach_every_refusal_of_every_call() {
    let orders: [(&str, &[u8]); 17] = [
        ("freshen", &[0]),
        ("piece", &[0]),
        ("end", &[0]),
        ("change", &[0, 1, 2, 3, 4, 5, 6, 7]),
        ("revoke", &[0, 1, 3]),
        ("override", &[0, 1, 2, 3, 11, 6]),
        ("mapping", &[0, 1, 2, 3, 9, 6, 10]),
        ("bylabel", &[0, 3]),
        ("bylevel", &[0, 9]),
        ("run", &[9]),
        ("question", &[0, 3, 8]),
        ("list", &[0, 13, 12]),
        ("recordtoline", &[14, 3, 4, 5, 12]),
        ("linetorecord", &[1, 2, 3, 4, 5, 15, 12]),
        ("writeoption", &[0, 3, 19, 12]),
        ("readoption", &[0, 16, 17, 18, 3, 21]),
        ("newobject", &[0, 3]),
    ];
    let mut seen = BTreeSet::new();
    let mut reasons = BTreeSet::new();
    for seed in 0..10 {
        let mut machine = Machine::new();
        for call in random_script(seed, 3000) {
            let kind = call.split(' ').next().unwrap().to_string();
            let answer = machine.execute(&call).unwrap();
            let words: Vec<&str> = answer.split(' ').collect();
            if words[0] == "refused" {
                seen.insert((kind, words[1].parse::<u8>().unwrap()));
            } else if words[0] == "report" {
                reasons.insert(words[6].parse::<u8>().unwrap());
            }
        }
    }
    for (kind, numbers) in orders {
        for number in numbers {
            assert!(
                seen.contains(&(kind.to_string(), *number)),
                "{kind} {number}"
            );
        }
    }
    assert!(seen.contains(&("label".to_string(), Refusal::NoSuchNumber.number())));
    assert_eq!(reasons, (0..=7).collect());
    // And no other refusal of any call.
    let label: (&str, &[u8]) = ("label", &[0, 13]);
    for (kind, number) in seen {
        let allowed = orders
            .iter()
            .chain([&label])
            .any(|order| order.0 == kind && order.1.contains(&number));
        assert!(allowed, "{kind} {number}");
    }
}

/// Of the calls that turn records and lines over, a good share is accepted, and
/// often the text of a call is what the call before it wrote.
#[test]
fn random_records_and_lines_are_often_accepted() {
    let kinds = ["recordtoline", "linetorecord"];
    let (mut calls, mut accepted, mut back) = ([0; 2], [0; 2], [0; 2]);
    for seed in 0..4 {
        let mut machine = Machine::new();
        let mut before = String::new();
        for call in random_script(seed, 5000) {
            let answer = machine.execute(&call).unwrap();
            let words: Vec<&str> = call.split(' ').collect();
            if let Some(kind) = kinds.iter().position(|kind| *kind == words[0]) {
                calls[kind] += 1;
                if answer.starts_with("length ") {
                    accepted[kind] += 1;
                    let written = before.split(' ').nth(2).unwrap_or("");
                    if before.starts_with("length ") && written.starts_with(words[1]) {
                        back[kind] += 1;
                    }
                }
            }
            before = answer;
        }
    }
    for kind in 0..2 {
        assert!(calls[kind] > 300, "{calls:?}");
        assert!(accepted[kind] * 4 > calls[kind], "{accepted:?} {calls:?}");
        assert!(
            accepted[kind] * 3 < calls[kind] * 2,
            "{accepted:?} {calls:?}"
        );
        assert!(back[kind] > 10, "{back:?}");
    }
}

/// Of questions about labels that are hard to tell apart, none is put to a damaged
/// state, a good share is granted by rule 6, and every answer comes. Often labels
/// and pairs are stored twice.
#[test]
fn random_searches_get_every_answer() {
    let mut answers = BTreeMap::new();
    let (mut questions, mut labels_twice, mut pairs_twice) = (0, 0, 0);
    for seed in 0..4 {
        let mut machine = Machine::new();
        for call in script_of(Kind::Searches, seed, 10000) {
            let answer = machine.execute(&call).unwrap();
            assert_ne!(answer, "bad line", "{call}");
            if !call.starts_with("question ") {
                continue;
            }
            let table = raw::table_of(machine.state()).unwrap();
            let labels: BTreeSet<_> = table.labels.iter().collect();
            let pairs: BTreeSet<_> = table.rules.iter().map(|rule| (rule.0, rule.1)).collect();
            questions += 1;
            labels_twice += u32::from(labels.len() < table.labels.len());
            pairs_twice += u32::from(pairs.len() < table.rules.len());
            // All places of a 3 as one answer.
            let answer = match answer.starts_with("refused 3 ") {
                true => "refused 3".to_string(),
                false => answer,
            };
            *answers.entry(answer).or_insert(0) += 1;
        }
    }
    let expected = [
        "denied 1",
        "denied 7",
        "granted 2",
        "granted 3",
        "granted 4",
        "granted 5",
        "granted 6",
        "override 1",
        "override 7",
        "refused 3",
        "refused 8",
    ];
    assert_eq!(answers.keys().collect::<Vec<_>>(), expected);
    assert!(answers["granted 6"] * 10 > questions, "{answers:?}");
    assert!(labels_twice * 5 > questions, "{labels_twice} {questions}");
    assert!(pairs_twice * 5 > questions, "{pairs_twice} {questions}");
}

/// Of calls about places, every one is both accepted and refused with 3 in a good
/// share; first refused lines have every reason, and places of every kind come.
#[test]
fn random_places_are_of_every_kind() {
    let kinds = [
        "change", "revoke", "override", "mapping", "bylabel", "question",
    ];
    let mut calls = BTreeMap::new();
    let mut places = BTreeSet::new();
    let mut first = BTreeMap::new();
    for seed in 0..6 {
        let mut machine = Machine::new();
        for call in script_of(Kind::Places, seed, 10000) {
            let answer = machine.execute(&call).unwrap();
            assert_ne!(answer, "bad line", "{call}");
            let kind = call.split(' ').next().unwrap().to_string();
            let words: Vec<&str> = answer.split(' ').collect();
            if words[0] == "report" {
                *first.entry(words[6].to_string()).or_insert(0) += 1;
                if words[6] == "3" {
                    places.insert(("line".to_string(), words[7].parse::<u64>().unwrap()));
                }
            }
            if !kinds.contains(&kind.as_str()) {
                continue;
            }
            let count = calls.entry(kind.clone()).or_insert([0; 3]);
            count[0] += 1;
            match words[..] {
                ["refused", "3", place] => {
                    count[2] += 1;
                    places.insert((kind, place.parse().unwrap()));
                }
                ["refused", _] => {}
                ["refused", ..] => panic!("{answer}"),
                _ => count[1] += 1,
            }
        }
    }
    for kind in kinds {
        let [all, accepted, bad] = calls[kind];
        assert!(accepted * 4 > all, "{kind} {all} {accepted}");
        assert!(bad * 6 > all, "{kind} {all} {bad}");
        for place in [0, 1, 22, 23, 24, 254, 255] {
            assert!(
                places.contains(&(kind.to_string(), place)),
                "{kind} {place}"
            );
        }
        // A lent label has no place over 255; a write has.
        let far = places.iter().any(|(k, place)| k == kind && *place > 300);
        let is_write = ["change", "override", "mapping"].contains(&kind);
        assert_eq!(far, is_write, "{kind}");
    }
    let lines = places.iter().filter(|(kind, _)| kind == "line").count();
    assert!(lines > 100, "{lines}");
    let reasons: Vec<&str> = first.keys().map(String::as_str).collect();
    assert_eq!(reasons, ["0", "1", "2", "3", "4", "5", "6", "7"]);
    let all: u32 = first.values().sum();
    assert!(first["3"] * 6 > all, "{first:?}");
}

/// Of calls about categories each is both answered and refused in a good share;
/// sets are found and not found; categories of every word, every bit that is none
/// and writes of every length near a limit come. The ordinary kind reaches these
/// too.
#[test]
fn random_categories_are_of_every_kind() {
    for (kind, seeds) in [(Kind::Categories, 0..2), (Kind::Every, 0..4)] {
        let mut answers = BTreeMap::new();
        let mut seen = BTreeSet::new();
        let mut words_in_use = [false; 3];
        let mut counts = BTreeSet::new();
        for seed in seeds {
            let mut machine = Machine::new();
            for call in script_of(kind, seed, 10000) {
                let answer = machine.execute(&call).unwrap();
                assert_ne!(answer, "bad line", "{call}");
                let words: Vec<&str> = call.split(' ').collect();
                let said = answer.split(' ').next().unwrap();
                let said = match (said, words[0]) {
                    ("refused", _) => answer.split(' ').take(2).collect::<Vec<_>>().join(" "),
                    _ => said.to_string(),
                };
                *answers.entry((words[0].to_string(), said)).or_insert(0) += 1;
                match words[0] {
                    "mapping" => {
                        let length = words[1].len() / 2;
                        if [600, 601, 999, 1000, 1001].contains(&length) {
                            seen.insert(format!("write {length}"));
                        }
                    }
                    "bylabel" if answer.starts_with("mapping ") => {
                        let set = answer.split(' ').nth(2).unwrap();
                        for (k, word) in set.split(':').enumerate() {
                            words_in_use[k] |= word != "0";
                        }
                        counts.insert(answer.split(' ').nth(3).unwrap().to_string());
                    }
                    "bylevel" | "run" => {
                        let bits = |set: &str| set.rsplit(':').next().unwrap().parse::<u64>();
                        for bit in 0..8 {
                            if bits(words[2]).unwrap() >> bit & 1 != 0 {
                                seen.insert(format!("{} {bit}", words[0]));
                            }
                            for record in &words[3..] {
                                if bits(record).unwrap() >> bit & 1 != 0 {
                                    seen.insert(format!("record {bit}"));
                                }
                            }
                        }
                    }
                    "poke" if words[1] == "words" => {
                        let at: usize = words[2].parse().unwrap();
                        let value: u64 = words[3].parse().unwrap();
                        if let Some(row) = raw::SETS.iter().rposition(|&row| row <= at) {
                            seen.insert(format!("poke row {row}"));
                            for bit in 0..8 {
                                if row == 2 && value >> bit & 1 != 0 {
                                    seen.insert(format!("poke {bit}"));
                                }
                            }
                        }
                    }
                    _ => {}
                }
            }
        }
        for length in [600, 601, 999, 1000, 1001] {
            assert!(seen.contains(&format!("write {length}")), "{length}");
        }
        for bit in 0..8 {
            for place in ["bylevel", "run", "record", "poke"] {
                assert!(seen.contains(&format!("{place} {bit}")), "{place} {bit}");
            }
        }
        for row in 0..3 {
            assert!(seen.contains(&format!("poke row {row}")), "{row}");
        }
        assert_eq!(words_in_use, [true; 3]);
        assert!(counts.len() > 10, "{counts:?}");
        if kind == Kind::Categories {
            assert!(counts.contains("184"));
            let count = |call: &str, answer: &str| {
                let key = (call.to_string(), answer.to_string());
                answers.get(&key).copied().unwrap_or(0)
            };
            for call in ["mapping", "bylabel", "bylevel", "run"] {
                let all: i32 = answers
                    .iter()
                    .filter(|(key, _)| key.0 == call)
                    .map(|(_, count)| count)
                    .sum();
                assert!(all > 1000, "{call} {all}");
                let good = match call {
                    "mapping" => count(call, "done"),
                    "bylabel" => count(call, "mapping"),
                    _ => count(call, "label"),
                };
                assert!(good * 5 > all, "{call} {good} {all}");
                match call {
                    "mapping" => {
                        for number in [0, 1, 2, 3, 6, 9, 10] {
                            let refused = count(call, &format!("refused {number}"));
                            assert!(refused > 5, "{call} {number} {refused}");
                        }
                    }
                    "bylabel" => assert!(count(call, "refused 0") > 20),
                    _ => {
                        assert!(count(call, "none") * 6 > all, "{call} {answers:?}");
                        assert!(count(call, "refused 9") > 100, "{call}");
                    }
                }
            }
            assert!(count("bylevel", "refused 0") > 20);
        }
    }
}

/// Of the calls about the packet option each answer comes often, and so do mapping
/// writes at level 250. Labels and options of every length near a limit come, bits
/// that are no categories, outputs of every kind of length, and labels that are
/// stored twice, mapped alike, ill-formed or empty. Over a third of the calls are
/// these two.
#[test]
fn random_options_are_of_every_kind() {
    let mut answers = BTreeMap::new();
    let mut seen = BTreeSet::new();
    let (mut all, mut options, mut read_back) = (0, 0, 0);
    for seed in 0..4 {
        let mut machine = Machine::new();
        let mut before = String::new();
        for call in script_of(Kind::Options, seed, 10000) {
            let answer = machine.execute(&call).unwrap();
            assert_ne!(answer, "bad line", "{call}");
            all += 1;
            let words: Vec<&str> = call.split(' ').collect();
            let said: Vec<&str> = answer.split(' ').collect();
            let bytes = |word: &str| read_hex(word).unwrap();
            let mut key = match said[0] {
                "refused" => format!("{} refused {}", words[0], said[1]),
                other => format!("{} {other}", words[0]),
            };
            match words[0] {
                "writeoption" => {
                    options += 1;
                    let (label, output) = (bytes(words[1]).len(), bytes(words[2]).len());
                    seen.insert(format!("label {label} {}", said[0]));
                    if said[0] == "length" {
                        let length: usize = said[1].parse().unwrap();
                        seen.insert(format!("written {length}"));
                        seen.insert(format!("output {}", output - length));
                        let level = bytes(said[2])[9];
                        key.push_str(if level == 250 { " 250" } else { " mapped" });
                        let table = raw::table_of(machine.state()).unwrap();
                        let found = table.by_label(&bytes(words[1])).unwrap();
                        if level == 250 && found.is_some() {
                            key.push_str(" stored");
                        }
                    } else if said[1] == "12" {
                        let table = raw::table_of(machine.state()).unwrap();
                        let exact = table.write_option(&bytes(words[1]), &mut [0; 40]);
                        seen.insert(format!("lacks {}", exact.unwrap() - output));
                        seen.insert(format!("short {output}"));
                    }
                }
                "readoption" => {
                    options += 1;
                    let option = bytes(words[1]);
                    seen.insert(format!("option {} {}", option.len(), said[0]));
                    if said[0] == "peer" {
                        let by_bits = option[9] == 250;
                        key.push_str(if by_bits { " 250" } else { " mapped" });
                        let label = bytes(said[1]);
                        seen.insert(format!("peer {}", label.len()));
                        if !second::plain::is_well_formed(&label) {
                            key.push_str(" ill-formed");
                        }
                        let trailing = option.len() > 10 && option.last() == Some(&0);
                        if trailing {
                            seen.insert("trailing zeros".to_string());
                        }
                        let written = before.split(' ').nth(2).unwrap_or("");
                        if before.starts_with("length ") && written.starts_with(words[1]) {
                            read_back += 1;
                        }
                    }
                    if said == ["refused", "18"] {
                        for (at, byte) in option[10..].iter().enumerate() {
                            for bit in (0..8).filter(|bit| byte & (0x80 >> bit) != 0) {
                                seen.insert(format!("bit {}", 8 * at + bit));
                            }
                        }
                    }
                }
                "mapping" => {
                    let write = bytes(words[1]);
                    let level = write.split(|byte| *byte == b' ').nth(1).unwrap_or(b"");
                    seen.insert(format!("level {}", String::from_utf8_lossy(level)));
                }
                _ => {}
            }
            *answers.entry(key).or_insert(0) += 1;
            before = answer;
        }
    }
    assert!(options * 3 > all, "{options} {all}");
    assert!(read_back > 500, "{read_back}");
    let often = [
        ("writeoption length 250", 500),
        ("writeoption length 250 stored", 100),
        ("writeoption length mapped", 500),
        ("writeoption refused 0", 50),
        ("writeoption refused 3", 300),
        ("writeoption refused 12", 300),
        ("writeoption refused 19", 300),
        ("readoption peer 250", 500),
        ("readoption peer mapped", 500),
        ("readoption peer mapped ill-formed", 25),
        ("readoption refused 0", 50),
        ("readoption refused 3", 300),
        ("readoption refused 16", 500),
        ("readoption refused 17", 300),
        ("readoption refused 18", 300),
        ("readoption refused 21", 300),
        ("mapping done", 300),
        ("mapping refused 9", 100),
    ];
    for (key, least) in often {
        let count = answers.get(key).copied().unwrap_or(0);
        assert!(count > least, "{key} {count}");
    }
    for length in [1, 22, 23, 24, 255] {
        assert!(seen.contains(&format!("label {length} length")), "{length}");
        assert!(seen.contains(&format!("peer {length}")), "{length}");
    }
    for length in [24, 255, 256] {
        assert!(
            seen.contains(&format!("label {length} refused")),
            "{length}"
        );
    }
    assert!(seen.contains("peer 0"));
    assert!(seen.contains("trailing zeros"));
    for length in [10, 11, 12, 33, 34] {
        assert!(seen.contains(&format!("written {length}")), "{length}");
    }
    for word in ["output 0", "output 1", "lacks 1", "short 0"] {
        assert!(seen.contains(word), "{word}");
    }
    for length in 0..60 {
        let refused = seen.contains(&format!("option {length} refused"));
        assert!(refused, "{length}");
        let read = seen.contains(&format!("option {length} peer"));
        assert!(!read || (10..=40).contains(&length), "{length}");
    }
    for length in [10, 11, 12, 33, 34, 39, 40] {
        assert!(seen.contains(&format!("option {length} peer")), "{length}");
    }
    for bit in (185..240).chain([0]) {
        assert!(seen.contains(&format!("bit {bit}")), "{bit}");
    }
    for level in ["249", "250", "251"] {
        assert!(seen.contains(&format!("level {level}")), "{level}");
    }
}

/// What is seen of the retired letter in a script: how often each thing came.
fn bringup_seen(kind: Kind, seeds: std::ops::Range<u64>) -> BTreeMap<String, u32> {
    let mut seen = BTreeMap::new();
    let mut see = |what: String| *seen.entry(what).or_insert(0) += 1;
    let has_b = |bytes: &[u8]| bytes.contains(&b'b') || bytes.contains(&b'B');
    // The access field, or the last of what there is.
    let last_field = |line: &[u8]| fields(line).last().map(|field| field.bytes.to_vec());
    for seed in seeds {
        let mut machine = Machine::new();
        for call in script_of(kind, seed, 10000) {
            let table = raw::table_of(machine.state());
            let loader = raw::loader_of(machine.loader());
            let damage: Vec<u8> = match &table {
                Err(_) if machine.state().words.len() == raw::WORDS_SIZE => {
                    let rules = machine.state().words[raw::RULE_COUNT].min(256) as usize;
                    let modes = machine.state().entries.get(raw::MODES..raw::MODES + rules);
                    modes.unwrap_or_default().to_vec()
                }
                _ => Vec::new(),
            };
            let answer = machine.execute(&call).unwrap();
            assert_ne!(answer, "bad line", "{call}");
            let words: Vec<&str> = call.split(' ').collect();
            let said: Vec<&str> = answer.split(' ').collect();
            let refused = |number: &str| said.starts_with(&["refused", number]);
            let bytes = |word: &str| read_hex(word).unwrap();
            match words[0] {
                "piece" => {
                    if let (Ok(mut table), Ok(mut loader)) = (table, loader) {
                        let piece = bytes(words[1]);
                        if !loader.line.is_empty() && piece.contains(&b'\n') {
                            see("line in pieces".to_string());
                        }
                        for byte in piece {
                            let access = last_field(&loader.line).unwrap_or_default();
                            if byte == b'\n' && has_b(&access) {
                                match table.judge_line(&loader.line) {
                                    Line::Accepted(rule, _) => {
                                        assert!(rule.held_b);
                                        let at = access.iter().position(|b| b"bB".contains(b));
                                        let at = at.unwrap().min(6);
                                        see(format!("accepted {at} of {}", access.len()));
                                        see(format!("accepted modes {}", rule.modes));
                                        see("accepted".to_string());
                                    }
                                    Line::Refused(refusal) => {
                                        see(format!("refused {}", refusal.number()));
                                    }
                                    Line::Skipped => {}
                                }
                            }
                            loader.piece(&mut table, &[byte]);
                        }
                    }
                }
                "end" if said[0] == "report" => {
                    see(format!("count {}", said[8].parse::<u64>().unwrap().min(5)));
                    if said[8] == "4294967295" {
                        see("limit".to_string());
                    }
                }
                "change" => {
                    let write = bytes(words[1]);
                    if let Some([_, _, allow, deny]) = fields_exactly(&write) {
                        let which = (has_b(allow.bytes), has_b(deny.bytes));
                        if refused("4") {
                            see(format!("change {which:?}"));
                        } else {
                            assert!(which == (false, false) || said[0] == "refused", "{call}");
                        }
                    }
                }
                "question" if refused("8") && has_b(&bytes(words[3])) => see("request".to_string()),
                "question" if said[0] != "refused" => see(answer.clone()),
                "linetorecord" => {
                    let access = last_field(&bytes(words[1])).unwrap_or_default();
                    let number = if said[0] == "refused" { said[1] } else { "" };
                    if has_b(&access) {
                        see(format!("linetorecord {} {number}", said[0]));
                    }
                }
                "recordtoline" if refused("4") && has_b(&bytes(words[1])[48..]) => {
                    see("recordtoline".to_string());
                }
                "list" if said[0] == "length" => {
                    let listed = bytes(said[2])[..said[1].parse().unwrap()].to_vec();
                    assert!(!has_b(listed.rsplit(|byte| *byte == b' ').next().unwrap()));
                    see("listed".to_string());
                }
                "poke" if words[1] == "loader" && words[2] == "8" => {
                    see(format!("poke {}", words[3]));
                }
                _ => {}
            }
            // A single bit of the modes that is none, which alone makes it 0; or one
            // behind the count, which doesn't.
            for bit in [1, 64, 128] {
                let others = damage.iter().any(|modes| modes & 193 & !bit != 0);
                if refused("0") && !others && damage.iter().any(|modes| modes & bit != 0) {
                    see(format!("bit {bit} {}", words[0]));
                }
                if let Ok(table) = raw::table_of(machine.state()) {
                    let behind = &machine.state().entries[raw::MODES + table.rules.len()..];
                    let behind = &behind[..256 - table.rules.len()];
                    if said[0] == "granted" && behind.iter().any(|modes| modes & bit != 0) {
                        see(format!("behind {bit}"));
                    }
                }
            }
        }
    }
    seen
}

/// Lines with the retired letter are accepted, with it at every place and with all
/// modes beside it, and refused by every number; a change has it in either field and
/// a request too; records are made of such lines, or not, by every number; each bit
/// that is no mode makes every call answer 0 below the count of rules and nothing
/// behind it; the count comes to its limit. The ordinary kind reaches the most of
/// these.
#[test]
fn random_bringup_letters_are_of_every_kind() {
    let every = [
        "accepted",
        "refused 1",
        "refused 2",
        "refused 3",
        "refused 4",
        "refused 5",
        "refused 6",
        "refused 7",
        "line in pieces",
        "count 0",
        "count 1",
        "count 2",
        "limit",
        "change (true, false)",
        "change (false, true)",
        "request",
        "granted 6",
        "denied 7",
        "override 7",
        "linetorecord length ",
        "linetorecord refused 3",
        "linetorecord refused 4",
        "linetorecord refused 5",
        "linetorecord refused 12",
        "linetorecord refused 15",
        "recordtoline",
        "listed",
        "poke 4294967294",
        "poke 4294967295",
        "bit 1 question",
        "bit 64 question",
        "bit 128 question",
        "behind 1",
        "behind 64",
        "behind 128",
    ];
    for (kind, seeds, least) in [(Kind::Bringup, 0..4, 10), (Kind::Every, 0..6, 0)] {
        let seen = bringup_seen(kind, seeds);
        let count = |what: &str| seen.get(what).copied().unwrap_or(0);
        for what in every {
            assert!(count(what) > least, "{what} {}", count(what));
        }
        if kind == Kind::Every {
            continue;
        }
        let often = [
            ("accepted", 3000),
            ("refused 4", 300),
            ("change (true, false)", 200),
            ("change (false, true)", 200),
            ("change (true, true)", 100),
            ("request", 300),
            ("granted 6", 500),
            ("linetorecord length ", 500),
            ("linetorecord refused 15", 100),
            ("linetorecord refused 1", 5),
            ("linetorecord refused 2", 20),
            ("listed", 300),
            ("count 5", 50),
            ("limit", 50),
        ];
        for (what, least) in often {
            assert!(count(what) > least, "{what} {}", count(what));
        }
        for length in 1..=6 {
            for at in 0..length {
                let what = format!("accepted {at} of {length}");
                assert!(count(&what) > 5, "{what}");
            }
        }
        for modes in (0..64).step_by(2) {
            let what = format!("accepted modes {modes}");
            assert!(count(&what) > 5, "{what}");
        }
        let lent_the_tables = [
            "piece",
            "end",
            "change",
            "revoke",
            "override",
            "mapping",
            "bylabel",
            "bylevel",
            "question",
            "list",
            "label",
            "writeoption",
            "readoption",
            "newobject",
        ];
        for call in lent_the_tables {
            for bit in [1, 64, 128] {
                let what = format!("bit {bit} {call}");
                assert!(count(&what) > 0, "{what}");
            }
        }
    }
}

/// Whether this rule, of a lent or grown table, is not the one that counts: its pair
/// stands before it, or one of its labels does.
fn is_shadowed(table: &Table, place: usize) -> bool {
    let (subject, object, _) = table.rules[place];
    let pair = |rule: &(usize, usize, u8)| (&table.labels[rule.0], &table.labels[rule.1]);
    table.rules[..place]
        .iter()
        .any(|rule| pair(rule) == pair(&table.rules[place]))
        || table.number_of(&table.labels[subject]) != Some(subject)
        || table.number_of(&table.labels[object]) != Some(object)
}

/// Of the labels of new objects each answer comes often, of rules with every set of
/// modes and by each rule of the seven that can decide; of unknown labels and labels
/// stored twice, pairs stored twice and rules of a label with itself; with the creator
/// on the override list and not; and while a line is under way. The ordinary kind has
/// every answer too.
#[test]
fn random_new_objects_are_of_every_kind() {
    for (kind, seeds) in [(Kind::NewObjects, 0..5), (Kind::Every, 0..6)] {
        let mut seen: BTreeMap<String, u32> = BTreeMap::new();
        let mut all = 0;
        for seed in seeds {
            let mut machine = Machine::new();
            for call in script_of(kind, seed, 20000) {
                let words: Vec<&str> = call.split(' ').collect();
                let answer = machine.execute(&call).unwrap();
                assert_ne!(answer, "bad line", "{call}");
                if words[0] != "newobject" {
                    continue;
                }
                all += 1;
                let mut see = |what: String| *seen.entry(what).or_insert(0) += 1;
                see(answer.clone());
                see(format!("{answer} of {} {}", words[3], words[4]));
                let (creator, folder) = (read_hex(words[1]).unwrap(), read_hex(words[2]).unwrap());
                let Ok(table) = raw::table_of(machine.state()) else {
                    continue;
                };
                if answer == "refused 3" {
                    for (who, label) in [("creator", &creator), ("folder", &folder)] {
                        match label[..] {
                            [] => see(format!("{who} empty")),
                            [b'-', ..] => see(format!("{who} dash")),
                            _ if label.len() > 255 => see(format!("{who} long")),
                            _ if !is_well_formed(label) => see(format!("{who} byte")),
                            _ => {}
                        }
                    }
                    continue;
                }
                match table.question(&creator, &folder, b"w", false) {
                    Answer::Granted { rule } => see(format!("{answer} by {rule}")),
                    Answer::Denied { rule } => see(format!("{answer} by {rule}")),
                    other => panic!("{other:?}"),
                }
                for (who, label) in [("creator", &creator), ("folder", &folder)] {
                    if let [b'_' | b'^' | b'*' | b'?' | b'@'] = label[..] {
                        see(format!("{who} {} {answer}", char::from(label[0])));
                    }
                    if table.number_of(label).is_none() {
                        see(format!("{who} unknown {answer}"));
                    }
                    if table.labels.iter().filter(|other| *other == label).count() > 1 {
                        see(format!("{who} twice {answer}"));
                    }
                }
                let (mut first, mut others) = (None, Vec::new());
                for (place, (subject, object, modes)) in table.rules.iter().enumerate() {
                    if (&table.labels[*subject], &table.labels[*object]) == (&creator, &folder) {
                        match is_shadowed(&table, place) {
                            true => others.push(*modes),
                            false => first = Some(*modes),
                        }
                    }
                }
                if let Some(modes) = first {
                    see(format!("modes {modes} {} {}", words[3], words[4]));
                    if creator == folder && modes & (W | T) == W | T {
                        see(format!("itself {answer}"));
                    }
                }
                if others
                    .iter()
                    .any(|modes| (first.unwrap_or(0) ^ modes) & W != 0)
                {
                    see(format!("other w {answer}"));
                }
                if others
                    .iter()
                    .any(|modes| (first.unwrap_or(0) ^ modes) & T != 0)
                {
                    see(format!("other t {answer}"));
                }
                let list = &table.override_list;
                let number = table.number_of(&creator);
                let listed = match (list.is_empty(), number) {
                    (true, _) => "no list",
                    (_, Some(number)) if list.contains(&number) => "listed",
                    _ => "not listed",
                };
                see(format!("{listed} {answer}"));
                if machine.loader().numbers[raw::KEPT] > 0 {
                    see(format!("under way {answer}"));
                }
            }
        }
        let count = |what: &str| seen.get(what).copied().unwrap_or(0);
        let answers = ["creator", "denied", "folder 0", "folder 1"];
        for what in answers.iter().chain(&["refused 0", "refused 3"]) {
            assert!(count(what) > 10, "{what} {}", count(what));
        }
        if kind == Kind::Every {
            continue;
        }
        assert!(all > 40000, "{all}");
        for what in answers {
            assert!(count(what) * 100 > all * 15, "{what} {}", count(what));
        }
        for what in answers {
            for rest in ["no list", "listed", "not listed", "under way"] {
                let what = format!("{rest} {what}");
                assert!(count(&what) > 300, "{what} {}", count(&what));
            }
            for rest in ["creator twice", "folder twice", "other w", "other t"] {
                let what = format!("{rest} {what}");
                assert!(count(&what) > 20, "{what} {}", count(&what));
            }
        }
        for modes in (0..64).step_by(2) {
            for flags in ["0 0", "0 1", "1 0", "1 1"] {
                let what = format!("modes {modes} {flags}");
                assert!(count(&what) > 5, "{what} {}", count(&what));
            }
        }
        let often = [
            ("creator by 4", 300),
            ("creator by 5", 300),
            ("creator by 6", 3000),
            ("denied by 1", 300),
            ("denied by 7", 3000),
            ("itself creator", 50),
            ("creator * denied", 300),
            ("folder * creator", 300),
            ("folder _ folder 0", 50),
            ("folder _ denied", 50),
            ("folder ^ folder 1", 50),
            ("folder ? folder 1", 50),
            ("folder @ folder 1", 50),
            ("creator _ folder 1", 50),
            ("creator ^ folder 1", 50),
            ("creator ^ denied", 50),
            ("creator ? folder 1", 50),
            ("creator @ folder 1", 50),
            ("creator unknown creator", 50),
            ("creator unknown denied", 300),
            ("folder unknown denied", 300),
            ("creator empty", 50),
            ("folder empty", 50),
            ("creator dash", 50),
            ("folder dash", 50),
            ("creator long", 50),
            ("folder long", 50),
            ("creator byte", 100),
            ("folder byte", 100),
        ];
        for (what, least) in often {
            assert!(count(what) > least, "{what} {}", count(what));
        }
    }
}

/// Demand 3: the same bytes and end calls, whatever the cuts and questions.
#[test]
fn random_cuts_do_not_matter() {
    let mut random = Xorshift::new(99);
    for _ in 0..200 {
        let mut text = Vec::new();
        for _ in 0..random.below(30) {
            let choices: [&[u8]; 13] = [
                b"A B r\n",
                b"C D",
                b"\n",
                b" ",
                b"\t",
                b"A A r\n",
                b"x\n",
                b"/ B r\n",
                b" \tA B/ r\n",
                b"E F q\n",
                b"G H -wb\n",
                b"G H bq\n",
                b"G G B\n",
            ];
            text.extend_from_slice(random.pick(&choices));
            if random.chance(3) {
                text.extend_from_slice(&[b' '; 597]);
            }
        }
        let mut table = Table::fresh();
        let mut loader = Loader::fresh();
        loader.piece(&mut table, &text);
        let report = loader.end(&mut table);

        let mut machine = Machine::new();
        let mut rest = &text[..];
        while !rest.is_empty() {
            let length = random.below(rest.len() as u64 + 1) as usize;
            machine.execute(&format!("piece {}", write_hex(&rest[..length])));
            machine.execute("question 41 42 72 0");
            rest = &rest[length..];
        }
        let again = machine.end().unwrap();
        assert_eq!(again, report);
        assert_eq!(raw::table_of(machine.state()).unwrap(), table);
    }
}
