//! The crate against include/balqirven.h, read as text: its version, its sizes, its refusal numbers, and each struct and call of src/header.rs. So where the
//! header changes and this crate does not, a test fails.

use balqirven::*;

/// The header without its comments, and src/header.rs, each with single spaces.
fn texts() -> (String, String) {
    let read = |path: &str| std::fs::read_to_string(format!("{}/{path}", env!("CARGO_MANIFEST_DIR"))).unwrap();
    let c = read("../../include/balqirven.h");
    let code = c.split("/*").map(|part| part.split_once("*/").map_or(part, |(_, code)| code)).collect::<String>();
    let single = |text: &str| text.lines().map(|line| line.split_whitespace().collect::<Vec<_>>().join(" ")).collect::<Vec<_>>().join("\n");
    (single(&code), single(&read("src/header.rs")).replace('\n', " "))
}

/// The names and numbers of an enum, from the text between its braces.
fn numbers(list: &str) -> Vec<(&str, u8)> {
    list.split(',').map(|item| item.trim().split_once(" = ").unwrap()).map(|(name, number)| (name, number.parse().unwrap())).collect()
}

/// A field or a parameter in C, such as `const uint8_t *labels`, as the names and the type that src/header.rs has for it.
fn in_rust(declared: &str) -> Vec<String> {
    let (constant, declared) = declared.strip_prefix("const ").map_or((false, declared), |rest| (true, rest));
    let (kind, names) = declared.split_once(' ').unwrap();
    let kind = match kind {
        "uint8_t" => "u8",
        "uint32_t" => "u32",
        "uint64_t" => "u64",
        "size_t" => "usize",
        kind => kind,
    };
    let typed = |name: &str| match (name.strip_prefix('*'), name.split_once('[')) {
        (Some(name), _) => format!("{name}: *{} {kind}", if constant { "const" } else { "mut" }),
        (_, Some((name, size))) => format!("{name}: [{kind}; {}]", size.trim_end_matches(']').trim_start_matches("BQ_")),
        _ => format!("{name}: {kind}"),
    };
    names.split(", ").map(typed).collect()
}

#[test]
fn the_version() {
    let (c, _) = texts();
    let [major, minor] = ["MAJOR", "MINOR"].map(|part| c.split_once(&format!("#define BQ_VERSION_{part} ")).unwrap().1.lines().next().unwrap());
    assert_eq!(env!("CARGO_PKG_VERSION"), format!("{major}.{minor}.0"));
}

#[test]
fn the_sizes() {
    let (c, _) = texts();
    let sizes = [
        ("LABELS", LABELS),
        ("ENTRIES", ENTRIES),
        ("WORDS", WORDS),
        ("LINE", LINE),
        ("LONGEST_LABEL", LONGEST_LABEL),
        ("LONGEST_RULE", LONGEST_RULE),
        ("FIXED_RECORD", FIXED_RECORD),
        ("FIXED_PLACE", FIXED_PLACE),
        ("FIXED_LABEL", FIXED_LABEL),
        ("LONGEST_FIXED_LINE", LONGEST_FIXED_LINE),
        ("LONGEST_MAPPING", LONGEST_MAPPING),
        ("HIGHEST_CATEGORY", HIGHEST_CATEGORY as usize),
        ("OWN_LEVEL", OWN_LEVEL.into()),
        ("LONGEST_OWN_LABEL", LONGEST_OWN_LABEL),
        ("LONGEST_OPTION", LONGEST_OPTION),
        ("LONGEST_OPTION_READ", LONGEST_OPTION_READ),
    ];
    let size = |name: &str| sizes.iter().find(|(known, _)| *known == name).map(|(_, size)| *size);
    // a number, a size that is known by its name, or a sum of products of these
    let value = |text: &str| text.parse().ok().or_else(|| size(text.trim_start_matches("BQ_"))).unwrap();
    let sum = |text: &str| text.trim_matches(['(', ')']).split(" + ").map(|term| term.split(" * ").map(value).product::<usize>()).sum::<usize>();

    let defines = c.lines().filter_map(|line| line.strip_prefix("#define BQ_")?.split_once(' '));
    let defines: Vec<_> = defines.filter(|(name, _)| !name.contains('(') && !name.starts_with("VERSION_")).collect();
    assert!(defines.iter().map(|(name, _)| *name).eq(sizes.iter().map(|(name, _)| *name)), "a size is missing: {defines:?}");
    for (name, text) in defines {
        assert_eq!(size(name), Some(sum(text)), "{name}");
    }
}

#[test]
fn the_refusal_numbers() {
    let (c, _) = texts();
    let (_, list) = c.split_once("enum bq_refusal {").unwrap();
    let listed = numbers(list.split_once('}').unwrap().0);
    assert_eq!(listed.len(), 21);
    for number in 0..=255 {
        // BQ_NOT_IN_A_RECORD is NotInARecord
        let word = |word: &str| word[..1].to_string() + &word[1..].to_lowercase();
        let name = listed.iter().find(|listed| listed.1 == number).map(|(name, _)| name.split('_').skip(1).map(word).collect::<String>());
        let refusal = Refusal::from_number(number);
        assert_eq!(refusal.map(|refusal| format!("{refusal:?}")), name, "{number}");
        assert!(refusal.is_none_or(|refusal| refusal.number() == number && refusal as u8 == number), "{number}");
    }
    let mut sentences: Vec<_> = (0..=255).filter_map(Refusal::from_number).map(Refusal::sentence).collect();
    sentences.sort();
    sentences.dedup();
    assert_eq!(sentences.len(), 21, "each has a sentence of its own");
}

#[test]
fn the_structs_and_kinds() {
    let (c, rust) = texts();
    let c = c.replace('\n', " ");
    let structs: Vec<_> = c.split("typedef struct { ").skip(1).map(|text| text.split_once("; } ").unwrap()).collect();
    assert_eq!(structs.len(), 15);
    for (fields, name) in structs {
        let name = name.split_once(';').unwrap().0;
        let fields: String = fields.split("; ").flat_map(in_rust).map(|field| format!("pub {field}, ")).collect();
        let found = rust.split_once(&format!("pub struct {name} {{ ")).unwrap();
        assert!(found.1.starts_with(&format!("{fields}}}")), "{name}: {fields}");
        assert!(found.0.rsplit_once("#[repr(C)]").unwrap().1.starts_with(" #[derive("), "{name} is in C's order");
    }
    let kinds: Vec<_> = c.split("enum { ").skip(1).flat_map(|text| numbers(text.split_once(" }").unwrap().0)).collect();
    assert_eq!(kinds.len(), 14);
    for (name, number) in kinds {
        assert!(rust.contains(&format!("pub const {name}: u8 = {number};")), "{name}");
    }
}

/// The calls of the header: the name, and all of it as src/header.rs has to have it.
fn calls() -> Vec<(String, String)> {
    let c = texts().0.replace('\n', " ");
    let (_, calls) = c.split_once("bq_peer; ").unwrap();
    let one = |call: &str| {
        let (head, parameters) = call.trim().strip_suffix(')')?.split_once('(')?;
        let (answer, name) = head.split_once(' ')?;
        let parameters: Vec<_> = parameters.split(", ").filter(|parameter| *parameter != "void").flat_map(in_rust).collect();
        Some((name.to_string(), format!("pub fn {name}({}) -> {answer};", parameters.join(", "))))
    };
    calls.split(';').filter_map(one).collect()
}

#[test]
fn the_calls_as_they_are_declared() {
    let (_, rust) = texts();
    let calls = calls();
    assert_eq!(calls.len(), 21);
    assert_eq!(rust.matches("pub fn ").count(), 21);
    for (_, declared) in calls {
        assert!(rust.contains(&declared), "{declared}");
    }
}

/// Each call of the header, through the crate.
#[test]
fn each_call_is_reached() {
    let mut table = Table::fresh();
    table.change("Alarm Air rwt -").unwrap();
    table.mapping("Air 9 1").unwrap();
    let (set, record) = (Set::of([1]).unwrap(), b"Alarm                   Air                     rw--t");
    let reached: [(&str, &dyn Fn() -> bool); 21] = [
        ("bq_fresh_table", &|| Table::fresh().label(4) == Ok(b"@") && Table::fresh().label(5).is_err()),
        ("bq_fresh_loader", &|| Loader::fresh().report() == Report::default()),
        ("bq_piece", &|| {
            let (mut table, mut loader) = (table.clone(), Loader::fresh());
            loader.piece(&mut table, "Alarm Air x\n") == Ok(()) && table.rules().unwrap().eq([b"Alarm Air x\n"])
        }),
        ("bq_end", &|| {
            let (mut table, mut loader) = (table.clone(), Loader::fresh());
            loader.piece(&mut table, "Alarm Air x").unwrap();
            loader.end(&mut table).unwrap().accepted == 1 && table.rules().unwrap().eq([b"Alarm Air x\n"])
        }),
        ("bq_change", &|| {
            let mut table = table.clone();
            table.change("Alarm Air x w") == Ok(()) && table.rules().unwrap().eq([b"Alarm Air rxt\n"])
        }),
        ("bq_revoke", &|| {
            let mut table = table.clone();
            table.revoke("Alarm") == Ok(1) && table.rules().unwrap().eq([b"Alarm Air -\n"])
        }),
        ("bq_onlycap", &|| {
            let mut table = table.clone();
            table.override_list("Desk") == Ok(()) && table.question("Alarm", "Air", "x", true) == Ok(Decision::Denied { rule: 7 })
        }),
        ("bq_mapping", &|| {
            let mut table = table.clone();
            table.mapping("Desk 7 2") == Ok(()) && table.by_level(7, Set::of([2]).unwrap()) == Ok(Some(7))
        }),
        ("bq_by_label", &|| table.by_label("Air") == Ok(Some(Mapping { level: 9, set, count: 1 }))),
        ("bq_by_level", &|| table.by_level(9, set) == Ok(Some(6))),
        ("bq_lowest_in_run", &|| lowest_in_run(&[(3, 9), (2, 8)].map(|(label, level)| Record { label, level, set }), 9, set) == Ok(Some(3))),
        ("bq_lowest_of", &|| lowest_of(&[3, 2], &[9, 8], &[1 << 63, 0, 0, 1 << 63, 0, 0], 8, set) == Ok(Some(2))),
        ("bq_question", &|| table.question("Alarm", "Air", "rw", false) == Ok(Decision::Granted { rule: 6 })),
        ("bq_new_object", &|| table.new_object("Alarm", "Air", true, true) == Ok(NewObject::FolderLabel { transmutes: true })),
        ("bq_list_rule", &|| table.list_rule(0, &mut [0; 14]) == Ok(b"Alarm Air rwt\n")),
        ("bq_label", &|| table.label(6) == Ok(b"Air")),
        ("bq_label_check", &|| table.label_check(6) == Ok(()) && table.label_check(7).is_err()),
        ("bq_record_to_line", &|| record_to_line(record, &mut [0; 14]) == Ok(b"Alarm Air rwt\n")),
        ("bq_line_to_record", &|| line_to_record("Alarm Air rwt", &mut [0; 53]) == Ok(record)),
        ("bq_write_option", &|| table.write_option("Air", &mut [0; 11]) == Ok(&[134, 11, 0, 0, 0, 3, 1, 5, 0, 9, 64])),
        ("bq_read_option", &|| table.read_option([134, 11, 0, 0, 0, 3, 1, 5, 0, 9, 64]).unwrap().bytes() == b"Air"),
    ];
    assert!(calls().iter().map(|(name, _)| name.as_str()).eq(reached.iter().map(|(name, _)| *name)), "the header has other calls");
    for (name, call) in reached {
        assert!(call(), "{name}");
    }
}
