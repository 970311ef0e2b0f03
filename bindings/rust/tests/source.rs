//! The text of this crate: the refusals that its documentation names, held to those that include/balqirven.h lists; the pointers that it makes; and build.rs.

use balqirven::Refusal;
use std::path::Path;
use std::process::Command;

fn read(path: &str) -> String {
    std::fs::read_to_string(Path::new(env!("CARGO_MANIFEST_DIR")).join(path)).unwrap()
}

/// src/*.rs but header.rs, which only declares.
fn sources() -> Vec<(String, String)> {
    let folder = Path::new(env!("CARGO_MANIFEST_DIR")).join("src");
    let names = std::fs::read_dir(folder).unwrap().map(|file| file.unwrap().file_name().into_string().unwrap());
    let sources: Vec<_> = names.filter(|name| name != "header.rs").map(|name| (name.clone(), read(&format!("src/{name}")))).collect();
    assert!(sources.iter().any(|(name, _)| name == "table.rs"));
    sources
}

/// Each call of the header and its refusals, in the order in which they are judged. A comment lists them as "Refusals: 0 1 3.", with words beside a number
/// ("0; 9 for a level over 255", "0 16 17 18, then 3 at level 250, 21 at any other") or as those of another call ("as bq_piece").
fn listed() -> Vec<(String, Vec<u8>)> {
    let header = read("../../include/balqirven.h");
    let mut calls: Vec<(String, Vec<u8>)> = Vec::new();
    for (comment, code) in header.split("/*").skip(1).map(|part| part.split_once("*/").unwrap()) {
        let list = comment.split_once("Refusals: ").map_or("", |(_, list)| list.split('.').next().unwrap());
        let numbers = match list.strip_prefix("as ") {
            Some(other) => calls.iter().find(|(name, _)| name == other).unwrap().1.clone(),
            None => list.split([',', ';']).flat_map(|item| item.trim().trim_start_matches("then ").split(' ').map_while(|word| word.parse().ok())).collect(),
        };
        let names = code.split('(').map(|before| before.rsplit(' ').next().unwrap()).filter(|name| name.starts_with("bq_") && !name.contains(';'));
        calls.extend(names.map(|name| (name.to_string(), numbers.clone())));
    }
    assert_eq!(calls.len(), 21);
    calls
}

/// A function of this crate: the calls of the header that it makes, whether a host can be refused by it, and the refusals that its documentation names.
struct Function {
    name: String,
    calls: Vec<String>,
    refused: bool,
    named: Option<Vec<u8>>,
}

/// "Refused with: 0 Damaged, 13 NoSuchNumber." as the numbers. Each has to go with its name.
fn named(line: &str) -> Option<Vec<u8>> {
    let (list, _) = line.strip_prefix("Refused with: ")?.split_once('.').expect("the list is in one line");
    let one = |item: &str| {
        let (number, name) = item.split_once(' ').unwrap();
        let refusal = Refusal::from_number(number.parse().unwrap()).unwrap();
        assert_eq!(format!("{refusal:?}"), name);
        refusal.number()
    };
    Some(list.split(", ").map(one).collect())
}

fn functions() -> Vec<Function> {
    let (calls, mut functions, mut documented) = (listed(), Vec::<Function>::new(), None);
    for (file, source) in sources() {
        let (code, _) = source.split_once("#[cfg(test)]").unwrap_or((&source, ""));
        for line in code.lines().map(str::trim_start) {
            let (before, after) = line.split_once("fn ").unwrap_or(("none", ""));
            if let Some(text) = line.strip_prefix("///") {
                assert!(text.is_empty() || text.starts_with(' '));
                let here = named(text.trim_start());
                assert!(here.is_none() || documented.is_none(), "{file}: {line}: a function has one list");
                documented = documented.or(here);
            } else if ["", "pub ", "pub const ", "pub(crate) ", "pub(crate) const "].contains(&before) {
                let name = after.split(['(', '<']).next().unwrap().to_string();
                let refused = before.starts_with("pub ") && line.contains("Refused>");
                functions.push(Function { name, calls: Vec::new(), refused, named: documented.take() });
            } else if !line.starts_with("//") && !line.starts_with("#[") {
                assert!(documented.is_none(), "{file}: {line}: only a function has a list");
                let made = calls.iter().map(|(name, _)| name).filter(|name| line.contains(&format!("{name}(")) || line.contains(&format!("({name},")));
                for name in made {
                    functions.last_mut().unwrap().calls.push(name.clone());
                }
            }
        }
    }
    functions
}

#[test]
fn the_documentation_names_the_refusals_of_the_header() {
    let (listed, functions) = (listed(), functions());
    for Function { name, calls, refused, named } in &functions {
        let expected = match (name.as_str(), &calls[..]) {
            ("make_fresh", [call]) if call == "bq_fresh_table" => None, // 0, only for a part not of its full size, which a table does not have
            ("fresh", [call]) if call == "bq_fresh_loader" => None,     // the header lists none
            ("rules" | "labels", []) => Some(vec![0]),                  // they end at 13, and lend an output that is long enough
            (_, []) => None,
            (_, [call]) => listed.iter().find(|(name, _)| name == call).map(|(_, numbers)| numbers.clone()),
            _ => panic!("{name} makes more calls than one: {calls:?}"),
        };
        assert_eq!(*named, expected, "{name}, which calls {calls:?}");
        assert_eq!(*refused, named.is_some(), "{name}");
    }
    let mut made: Vec<_> = functions.iter().flat_map(|function| &function.calls).collect();
    let mut all: Vec<_> = listed.iter().map(|(name, _)| name).collect();
    made.sort();
    all.sort();
    assert_eq!(made, all, "each call of the header is made in one place");
}

/// What a call writes it gets as `as_mut_ptr()`, of a `&mut`. No pointer to be written is made of one to be read: that would compile, and seem to work.
#[test]
fn no_pointer_is_cast_to_be_written() {
    for (name, source) in sources() {
        for cast in ["cast_mut", "*mut", "transmute(", "transmute::"] {
            assert!(!source.contains(cast), "{name} has {cast}");
        }
    }
}

/// build.rs as cargo runs it: with the variable, without it, and where it cannot link.
#[test]
fn what_build_rs_says() {
    let folder = Path::new(env!("CARGO_TARGET_TMPDIR")).join("build_script");
    let [script, lib] = ["script", "lib"].map(|name| folder.join(name));
    std::fs::create_dir_all(&lib).unwrap();
    std::fs::write(lib.join("libbalqirven.a"), "").unwrap();
    let mut rustc = Command::new(std::env::var_os("RUSTC").unwrap_or("rustc".into()));
    rustc.args(["--edition", "2024", "-o"]).arg(&script).arg("build.rs").current_dir(env!("CARGO_MANIFEST_DIR"));
    assert!(rustc.env("CARGO_MANIFEST_DIR", env!("CARGO_MANIFEST_DIR")).status().unwrap().success());

    // where it stands, lib is a folder with an archive also by its relative name
    let says = |arch: &str, named: Option<&Path>| {
        let mut script = Command::new(&script);
        script.current_dir(&folder).env("CARGO_CFG_TARGET_ARCH", arch).env_remove("BALQIRVEN_LIB_DIR");
        let output = script.envs(named.map(|folder| ("BALQIRVEN_LIB_DIR", folder))).output().unwrap();
        assert!(output.status.success());
        String::from_utf8(output.stdout).unwrap().lines().map(|line| line.strip_prefix("cargo::").unwrap().to_string()).collect::<Vec<_>>()
    };
    let watched = |folder: &Path| ["rerun-if-env-changed=BALQIRVEN_LIB_DIR".into(), format!("rerun-if-changed={}", folder.join("libbalqirven.a").display())];
    let linked = |folder: &Path| [format!("rustc-link-search=native={}", folder.display()), "rustc-link-lib=static=balqirven".to_string()];

    assert_eq!(says("x86_64", Some(&lib)), [watched(&lib), linked(&lib)].concat());
    let checkout = Path::new(env!("CARGO_MANIFEST_DIR")).join("../../target/staticlib");
    assert_eq!(says("x86_64", None)[..2], watched(&checkout));
    if checkout.join("libbalqirven.a").is_file() {
        assert_eq!(says("x86_64", None)[2..], linked(&checkout));
    }

    let missing = folder.join("missing");
    for (arch, named, error) in [
        ("x86_64", Path::new("lib"), "BALQIRVEN_LIB_DIR is to be a whole path, and is 'lib'"),
        ("x86_64", &missing, &format!("{}/libbalqirven.a is not there", missing.display())),
        ("aarch64", &lib, "libbalqirven.a is for x86-64 alone"),
    ] {
        let said = says(arch, Some(named));
        assert_eq!(said[..2], watched(named));
        assert!(said.len() == 3 && said[2].starts_with(&format!("error={error}")), "{said:?}");
    }
}
