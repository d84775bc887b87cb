//! The arguments.

use std::env;
use std::ops::Range;
use std::path::PathBuf;

use crate::families::{FAMILIES, WHOLE};

const USAGE: &str = "\
compare [--seed N] [--cases N] [--only FAMILY N] [--recordings N] [--to FOLDER]
  --seed    what all cases are drawn from
  --cases   how many, over all families; a run of few cases may miss a target and fail
  --only    one case of one family, as a difference names it
  --recordings  compare nothing: write so many cases of each family, and what the programs are to print of each
  --to      where the cases that differ, or the recordings, are written";

const DEFAULT_SEED: u64 = 1;
const DEFAULT_CASES: u64 = 210_000;
// Relative to the repository, where the script starts the program.
const DEFAULT_FOLDER: &str = "target/compare";

pub struct Options {
    pub seed: u64,
    cases: u64,
    /// One family's place and one case's number.
    pub only: Option<(usize, u64)>,
    /// How many recordings of each family are written, and nothing compared.
    pub recordings: Option<u64>,
    pub folder: PathBuf,
}

impl Options {
    /// The options, or words for the user.
    pub fn from_arguments() -> Result<Self, String> {
        let mut options = Options {
            seed: DEFAULT_SEED,
            cases: DEFAULT_CASES,
            only: None,
            recordings: None,
            folder: DEFAULT_FOLDER.into(),
        };
        let mut arguments = env::args().skip(1);
        while let Some(name) = arguments.next() {
            let mut value = || arguments.next().ok_or_else(|| USAGE.to_string());
            match name.as_str() {
                "--seed" => options.seed = number(&value()?)?,
                "--cases" => options.cases = number(&value()?)?,
                "--only" => options.only = Some((family(&value()?)?, number(&value()?)?)),
                "--recordings" => options.recordings = Some(number(&value()?)?),
                "--to" => options.folder = value()?.into(),
                _ => return Err(USAGE.to_string()),
            }
        }
        Ok(options)
    }

    /// The numbers of a family's cases.
    pub fn numbers(&self, place: usize) -> Range<u64> {
        match self.only {
            None => 0..self.cases.saturating_mul(FAMILIES[place].share) / WHOLE,
            Some((only, number)) if only == place => number..number.saturating_add(1),
            Some(_) => 0..0,
        }
    }
}

fn number(word: &str) -> Result<u64, String> {
    word.parse()
        .map_err(|_| format!("not a number: {word}\n{USAGE}"))
}

fn family(word: &str) -> Result<usize, String> {
    FAMILIES
        .iter()
        .position(|family| family.name == word)
        .ok_or_else(|| format!("no such family: {word}\n{USAGE}"))
}
