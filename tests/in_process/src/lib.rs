//! The library and the second implementation in one process: random calls, random cuts and random damaged states, and after each call the answer and
//! every lent byte are compared.
//!
//!   in_process CALLS SEED FILE
//!
//! makes CALLS calls of the library, the same for the same seed. Exit status 1 where there is a difference: the list of calls that shows it, made short, is then in
//! FILE, in the form of tests/second/FORMAT.md. The status is 1 too where five million calls or more did not meet every answer that the header lists.
//! tests/compare_in_process builds it and runs it.
//!
//! The calls come in scripts. A script starts from fresh memory and has a seed of its own, so it can be made again. One process makes the calls; the
//! process that started it stays behind to find out, should the first one come to an end that it must not, which call was the last.

#[path = "../../../bindings/rust/src/header.rs"]
#[allow(non_camel_case_types)]
mod header;

mod both;
mod lent;
mod processes;
mod quick;
mod reduce;
mod wide;

use std::fs;
use std::process::exit;

use second::random::{self, Kind};
use second::script::{Call, Machine};

use both::{CALLS, Counts};
use lent::{Lent, Place};
use quick::Quick;

/// The kinds of scripts in turn.
const KINDS: [Kind; 12] = [
    Kind::Every,
    Kind::Searches,
    Kind::Every,
    Kind::Places,
    Kind::Categories,
    Kind::Every,
    Kind::Options,
    Kind::Bringup,
    Kind::Every,
    Kind::NewObjects,
    Kind::Records,
    Kind::Every,
];

/// How many calls of its own a script has, and how many quick ones come behind each, and behind damage.
const OWN_CALLS: u64 = 300;
const QUICK: u64 = 20;
const QUICK_IN_DAMAGE: u64 = 10;

/// So many calls have to meet each answer that the header lists for each call.
const ENOUGH: u64 = 5_000_000;

/// How a script lends its memory: in each kind of script, each way comes in its turn.
fn place_of(script: u64) -> Place {
    const PLACES: [Place; 5] = [Place::End, Place::Front, Place::End, Place::Front, Place::Odd];
    PLACES[((script + script / KINDS.len() as u64) % 5) as usize]
}

/// Makes the calls of one script: the generator's, and quick ones between. `make` makes a call and answers whether to go on.
fn run_script(seed: u64, script: u64, make: &mut dyn FnMut(&mut Machine, &Call) -> bool) {
    let kind = KINDS[(script % KINDS.len() as u64) as usize];
    let own_seed = seed.wrapping_mul(0x9e37_79b9_7f4a_7c15).wrapping_add(script);
    let mut quick = Quick::new(own_seed);
    random::generate(own_seed, OWN_CALLS, kind, &mut |machine, call| {
        if !make(machine, call) {
            return false;
        }
        if matches!(call, Call::Fresh | Call::FreshLoader | Call::Poke(_) | Call::Resize { .. } | Call::Dump) {
            return true;
        }
        quick.learn(call);
        for _ in 0..QUICK {
            if !make(machine, quick.next(machine)) {
                return false;
            }
        }
        if quick.below(16) == 0 {
            let Some((damage, mend)) = quick.damage(machine) else {
                return true;
            };
            if !make(machine, &damage) {
                return false;
            }
            for _ in 0..QUICK_IN_DAMAGE {
                if !make(machine, quick.next(machine)) {
                    return false;
                }
            }
            return make(machine, &mend);
        }
        true
    });
}

/// What the process that makes the calls tells the one that waits.
#[derive(Clone, Copy)]
struct Progress {
    script: u64,
    /// Which call of the script is being made, from 1.
    call: u64,
    /// How many calls of the library were made, by name and outcome.
    counts: Counts,
    total: u64,
    /// In how many scripts.
    scripts: u64,
}

/// Makes the calls; ends with status 1 at a difference.
fn work(calls: u64, seed: u64, progress: &mut Progress) {
    let mut lents = [Place::End, Place::Front, Place::Odd].map(Lent::new);
    for script in 0.. {
        progress.script = script;
        progress.call = 0;
        progress.scripts = script + 1;
        processes::end_after(10);
        let place = place_of(script);
        let lent = lents.iter_mut().find(|lent| lent.place() == place).expect("each place is there");
        lent.clear();
        // The generator's machine is fresh, and so is what is lent to the library.
        let mut machine = Machine::new();
        for call in [Call::Fresh, Call::FreshLoader] {
            if both::make(&mut machine, lent, &call, &mut progress.counts).is_err() {
                exit(1);
            }
        }
        run_script(seed, script, &mut |machine, call| {
            progress.call += 1;
            match both::make(machine, lent, call, &mut progress.counts) {
                Ok(made) => {
                    progress.total += made.expect("what is poked lies in its part");
                    progress.total < calls
                }
                Err(_) => exit(1),
            }
        });
        if progress.total >= calls {
            return;
        }
    }
}

/// The calls of a script up to this one, by the second implementation alone.
fn recorded(seed: u64, script: u64, last: u64) -> Vec<Call> {
    let mut calls = Vec::new();
    run_script(seed, script, &mut |machine, call| {
        calls.push(call.clone());
        // The last one is not made: it may be the second implementation that came to a bad end.
        let more = (calls.len() as u64) < last;
        if more {
            machine.execute(&call.write());
        }
        more
    });
    calls
}

fn tell(counts: &Counts) {
    for ((name, _), outcomes) in CALLS.iter().zip(&counts.0) {
        let met = outcomes.iter().enumerate().filter(|(_, count)| **count > 0);
        let told: Vec<String> = met.map(|(outcome, count)| format!("{}: {count}", both::outcome_name(outcome))).collect();
        println!("{name}: {}", told.join(", "));
    }
}

fn run(calls: u64, seed: u64, file: &str) -> i32 {
    assert!(wide::tried(), "the comparison of bytes does not see each of them");
    let shared: *mut Progress = lent::shared();
    let started = std::time::Instant::now();
    // Only that process writes there, until it ends.
    let ended = processes::in_a_child(|| work(calls, seed, unsafe { &mut *shared }));
    let progress = unsafe { shared.read_volatile() };
    let seconds = started.elapsed().as_secs_f64();
    if ended == processes::Ended::Well && progress.total >= calls {
        if std::env::var_os("COUNTS").is_some() {
            tell(&progress.counts);
        }
        // Fewer calls need not meet every answer.
        let odd = progress.counts.not_as_listed();
        if calls >= ENOUGH && !odd.is_empty() {
            println!("seed {seed}: {} calls, but not the answers that the header lists: {}", progress.total, odd.join("; "));
            return 1;
        }
        let rate = progress.total as f64 / seconds;
        println!(
            "seed {seed}: {} calls of the library in {} scripts, no difference ({seconds:.1} s, {rate:.0} calls a second)",
            progress.total, progress.scripts
        );
        return 0;
    }
    let place = place_of(progress.script);
    println!("seed {seed}: a difference in script {}, call {}, after {} calls and {seconds:.3} s ({ended})", progress.script, progress.call, progress.total);
    let calls = recorded(seed, progress.script, progress.call);
    let mut short = reduce::reduced(calls, place);
    if short.is_empty() {
        // What is made before every list shows it.
        short = vec![Call::Fresh, Call::FreshLoader];
    }
    let text: String = short.iter().map(|call| call.write() + "\n").collect();
    if let Err(error) = fs::write(file, &text) {
        eprintln!("{file}: {error}");
    }
    println!("reduced to {} calls, lent as {place:?}:\n{text}{}", short.len(), reduce::what_differs(&short, place));
    1
}

#[unsafe(no_mangle)]
pub extern "C" fn main() -> i32 {
    let arguments: Vec<String> = std::env::args().collect();
    let numbers = |at: usize| arguments.get(at).and_then(|word| word.parse().ok());
    match (numbers(1), numbers(2), arguments.get(3)) {
        (Some(calls), Some(seed), Some(file)) => run(calls, seed, file),
        _ => {
            eprintln!("usage: in_process CALLS SEED FILE");
            2
        }
    }
}
