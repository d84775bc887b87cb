//! Compares the proved library with the model of document 01, over generated
//! cases: every answer, every output byte and the whole system must agree.

#![deny(unsafe_code)]

#[allow(unsafe_code)] // it makes the library's own calls, which are C's
mod by_value;
mod case;
mod compare;
mod convert;
mod coverage;
mod families;
mod fields;
mod generate;
mod lent;
mod options;
mod pair;
mod question;
mod random;
mod recordings;
mod records;
mod report;
mod self_check;

use std::process::ExitCode;
use std::time::Instant;

use case::Case;
use coverage::Coverage;
use families::{Family, FAMILIES};
use options::Options;
use random::Random;
use report::Tally;

/// A family with so many differences is not run on.
const ENOUGH: usize = 3;

/// The exit status of arguments that are not understood.
const MISUSED: u8 = 2;

fn main() -> ExitCode {
    match Options::from_arguments() {
        Ok(options) => match options.recordings {
            Some(count) => recordings::run(&options, count),
            None => run(&options),
        },
        Err(words) => {
            eprintln!("{words}");
            ExitCode::from(MISUSED)
        }
    }
}

fn run(options: &Options) -> ExitCode {
    let begun = Instant::now();
    let mut tally = Tally::default();
    let mut seen = Coverage::new();
    println!("seed {}", options.seed);
    let (variants, unnoticed) = self_check::run();
    let words = format!("{variants} wrong variants, each to be noticed");
    tally.add("self-check", &words, &unnoticed);
    for (place, family) in FAMILIES.iter().enumerate() {
        let count = options.numbers(place).count();
        if count > 0 {
            let since = Instant::now();
            let differences = run_family(options, place, family, &mut seen);
            let seconds = since.elapsed().as_secs_f32();
            let words = format!("{count} cases in {seconds:.1} s: {}", family.about);
            tally.add(family.name, &words, &differences);
        }
    }
    if options.only.is_none() {
        println!("met in both:");
        let missed = seen.print();
        tally.add("coverage", "every count above 0", &missed);
    }
    println!("{:.0} seconds", begun.elapsed().as_secs_f32());
    tally.end()
}

/// Runs a family's cases, and gives the differences in words.
fn run_family(
    options: &Options,
    place: usize,
    family: &Family,
    seen: &mut Coverage,
) -> Vec<String> {
    let mut differences = Vec::new();
    for number in options.numbers(place) {
        let random = Random::of_case(options.seed, place as u64, number);
        let mut case = Case::new(number, random, seen);
        if let Err(difference) = (family.run)(&mut case) {
            differences.push(report::difference(options, family.name, &case, &difference));
        }
        if differences.len() == ENOUGH {
            differences.push("the cases after it are not run".into());
            break;
        }
    }
    differences
}
