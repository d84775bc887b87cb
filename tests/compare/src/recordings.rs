//! Recordings for the programs: cases of every family, each with what the model
//! says that the listing and why print of it.

use std::fs;
use std::io;
use std::process::ExitCode;

use gjalvorn_model::{listing, why};

use crate::case::Case;
use crate::coverage::Coverage;
use crate::families::FAMILIES;
use crate::options::Options;
use crate::random::Random;
use crate::report;

pub fn run(options: &Options, count: u64) -> ExitCode {
    match write(options, count) {
        Ok(()) => ExitCode::SUCCESS,
        Err(error) => {
            eprintln!("recordings not written: {error}");
            ExitCode::FAILURE
        }
    }
}

/// Writes so many cases of each family.
fn write(options: &Options, count: u64) -> io::Result<()> {
    let mut seen = Coverage::new();
    for (place, family) in FAMILIES.iter().enumerate() {
        for number in 0..count {
            let random = Random::of_case(options.seed, place as u64, number);
            let mut case = Case::new(number, random, &mut seen);
            // Where the two differ is the comparison's to tell: the recording is there all the same.
            let _ = (family.run)(&mut case);
            let path = report::write(options, family.name, &case)?;
            fs::write(path.with_extension("listing"), listing(&case.recording))?;
            fs::write(path.with_extension("why"), why(&case.recording))?;
        }
    }
    Ok(())
}
