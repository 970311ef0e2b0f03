//! `second program`, `second script`, `second random SEED COUNT [KIND]`, `second speed
//! [KIND]`.
//! The forms of a script are told in `script.rs` and in FORMAT.md.

use std::io::{self, BufRead, BufWriter, Read, Write};
use std::process::ExitCode;

use second::program;
use second::random::{self, Kind};
use second::script::Machine;
use second::speed;

fn main() -> ExitCode {
    let words: Vec<String> = std::env::args().skip(1).collect();
    let words: Vec<&str> = words.iter().map(String::as_str).collect();
    let result = match words.as_slice() {
        ["program"] => run_program(),
        ["script"] => run_script(),
        ["random", seed, count, word @ ..] => {
            let (kind, seed, count) = (kind_of(word), seed.parse(), count.parse());
            let (Some(kind), Ok(seed), Ok(count)) = (kind, seed, count) else {
                return usage();
            };
            run_random(seed, count, kind)
        }
        ["speed"] => speed::measure(None, &mut io::stdout()),
        ["speed", word] => match kind_of(&[word]) {
            Some(kind) => speed::measure(Some(kind), &mut io::stdout()),
            None => return usage(),
        },
        _ => return usage(),
    };
    match result {
        Ok(()) => ExitCode::SUCCESS,
        Err(error) => {
            eprintln!("second: {error}");
            ExitCode::FAILURE
        }
    }
}

/// The kind of this word; without one, every kind of call.
fn kind_of(words: &[&str]) -> Option<Kind> {
    match words {
        [] => Some(Kind::Every),
        [word] => {
            let mut kinds = random::KINDS.into_iter();
            kinds.find(|(name, _)| name == word).map(|(_, kind)| kind)
        }
        _ => None,
    }
}

fn usage() -> ExitCode {
    let kinds = random::KINDS.map(|(name, _)| name).join(" | ");
    eprintln!("usage: second program | second script | second random SEED COUNT [KIND] |");
    eprintln!("second speed [KIND], where KIND is {kinds}");
    ExitCode::FAILURE
}

fn run_program() -> io::Result<()> {
    let mut input = Vec::new();
    io::stdin().lock().read_to_end(&mut input)?;
    let mut output = io::stdout().lock();
    output.write_all(&program::run(&input))?;
    output.flush()
}

fn run_script() -> io::Result<()> {
    let mut machine = Machine::new();
    let mut input = io::stdin().lock();
    let mut output = BufWriter::new(io::stdout().lock());
    let mut line = Vec::new();
    loop {
        line.clear();
        if input.read_until(b'\n', &mut line)? == 0 {
            break;
        }
        if let Some(answer) = machine.execute(&String::from_utf8_lossy(&line)) {
            writeln!(output, "{answer}")?;
        }
    }
    output.flush()
}

fn run_random(seed: u64, count: u64, kind: Kind) -> io::Result<()> {
    let mut output = BufWriter::new(io::stdout().lock());
    random::write_script(seed, count, kind, &mut output)?;
    output.flush()
}
