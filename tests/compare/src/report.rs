//! What is printed and written of a run.

use std::fs;
use std::io;
use std::path::PathBuf;
use std::process::ExitCode;

use crate::case::Case;
use crate::compare::Difference;
use crate::options::Options;

/// Passed and failed, a line each.
#[derive(Default)]
pub struct Tally {
    passed: usize,
    failed: usize,
}

impl Tally {
    /// One line, and the faults below it; it is passed where there are none.
    pub fn add(&mut self, name: &str, words: &str, faults: &[String]) {
        if faults.is_empty() {
            self.passed += 1;
            println!("{name}: {words}");
        } else {
            self.failed += 1;
            println!("{name}: FAILED ({words})");
        }
        for fault in faults {
            println!("  {fault}");
        }
    }

    /// The last line, and the exit status.
    pub fn end(&self) -> ExitCode {
        println!("{} passed, {} failed", self.passed, self.failed);
        ExitCode::from(u8::from(self.failed > 0))
    }
}

/// A difference in words, its case being written where the listing program can
/// read it.
pub fn difference(options: &Options, family: &str, case: &Case, found: &Difference) -> String {
    let Difference(words) = found;
    let (seed, number) = (options.seed, case.number);
    let mut lines = vec![format!("seed {seed}, case {number} of {family}: {words}")];
    lines.push(match write(options, family, case) {
        Ok(path) => format!("table and events: {}", path.display()),
        Err(error) => format!("table and events not written: {error}"),
    });
    if let Some(note) = &case.note {
        lines.push(format!("reached by {:?}", case.leading));
        lines.push(format!("then {note}"));
        lines.push(format!("then come {:?}", case.then));
    }
    lines.join("\n    ")
}

/// Writes a case's table and events into a file of its own.
pub fn write(options: &Options, family: &str, case: &Case) -> io::Result<PathBuf> {
    let name = format!("{family}-{}-{}.bin", options.seed, case.number);
    let path = options.folder.join(name);
    fs::create_dir_all(&options.folder)?;
    fs::write(&path, &case.recording)?;
    Ok(path)
}
