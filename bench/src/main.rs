//! Times the proved library beside the model of document 01, on the same bytes
//! and in one run.

mod check;
mod inputs;
#[cfg_attr(target_arch = "x86_64", path = "proved/bindings.rs")]
#[cfg_attr(not(target_arch = "x86_64"), path = "proved/shim.rs")]
mod proved;
mod random;
mod records;
mod side;
mod stream;
mod timing;

use std::process::ExitCode;

use inputs::{Case, Inputs, BATCH};
use records::{Size, LARGEST, SMALL};
use side::{Model, Proved};
use timing::{Pair, REPEATS};

/// The five measures of one table.
struct Figures {
    batch: Pair,
    event: Pair,
    by_value: Pair,
    serve: Pair,
    table: Pair,
}

fn main() -> ExitCode {
    println!("medians of {REPEATS} repeats of each side, in turn; nanoseconds");
    println!("table    one       proved    model  ratio");
    match (figures(LARGEST), figures(SMALL)) {
        (Ok(largest), Ok(small)) => {
            print_last(&largest, &small);
            ExitCode::SUCCESS
        }
        (Err(words), _) | (_, Err(words)) => {
            eprintln!("bench: {words}");
            ExitCode::FAILURE
        }
    }
}

/// Checks, times and prints a table of a size.
fn figures(size: Size) -> Result<Figures, &'static str> {
    let case = Case::new(size);
    let proved = Inputs::<Proved>::new(&case);
    let model = Inputs::<Model>::new(&case);
    check::check(&proved, &model)?;
    let figures = Figures {
        batch: Pair::measure(|| proved.time_batches(), || model.time_batches()),
        event: Pair::measure(|| proved.time_events(), || model.time_events()),
        by_value: Pair::measure(|| proved.time_by_value(), || model.time_events()),
        serve: Pair::measure(|| proved.time_serves(), || model.time_serves()),
        table: Pair::measure(|| proved.time_table(), || model.time_table()),
    };
    print_row(&case, "batch", &figures.batch);
    print_row(&case, "event", &figures.event);
    print_row(&case, "by value", &figures.by_value);
    print_row(&case, "SERVE", &figures.serve);
    print_row(&case, "table", &figures.table);
    Ok(figures)
}

fn print_row(case: &Case, one: &str, pair: &Pair) {
    let (name, ratio) = (case.size.name, pair.ratio());
    println!(
        "{name:<8} {one:<8} {:>8.1} {:>8.1} {ratio:>6.2}",
        pair.proved, pair.model
    );
}

fn print_last(largest: &Figures, small: &Figures) {
    println!("batch: one event of a batch of {BATCH}; event: one by apply, of the same stream, in place;");
    println!(
        "by value: the same, the proved system handed over and back (the model's is in place);"
    );
    println!("SERVE: one by apply, each on a copy of the system before it; table: one read_table");
    println!(
        "one event: {:.0} ns, one SERVE: {:.0} ns (largest table; RT-Gang reports 380 to 910 ns added to a \
         6810 ns context switch for a gang preemption, document 002, Table III: not the same work)",
        largest.event.proved, largest.serve.proved
    );
    print_ratio("batch", &largest.batch, &small.batch);
    print_ratio("event", &largest.event, &small.event);
    print_ratio("table", &largest.table, &small.table);
}

/// The larger of a measure's two ratios.
fn print_ratio(name: &str, largest: &Pair, small: &Pair) {
    println!("{name} ratio {:.2}", largest.ratio().max(small.ratio()));
}
