// Times the library's DMA runs, data writes, lines, recorded steps, step backs, scripts and a reader beside plain Rust
// programs of the same work and prints a table.
// `bench [N]`: the best of N repetitions (100 if not given). Exits with 1 if the two ever differ in what they leave.
mod exports;
mod machine;
mod measure;
mod plain;
mod plain_line;
mod plain_reader;
mod plain_script;
mod plain_tape;
mod work;

use std::process::ExitCode;
use std::time::Duration;

use measure::{measure, Best};
use work::Work;

fn main() -> ExitCode {
    let Some(repetitions) = repetitions() else {
        eprintln!("usage: bench [repetitions, at least 1]");
        return ExitCode::from(2);
    };
    let works = work::all();
    match measure(&works, repetitions) {
        Ok(bests) => {
            print_table(&works, &bests);
            ExitCode::SUCCESS
        }
        Err(what) => {
            eprintln!("{what}");
            ExitCode::from(1)
        }
    }
}

// None where the argument is no number of repetitions.
fn repetitions() -> Option<u32> {
    match std::env::args().nth(1) {
        None => Some(100),
        Some(text) => text.parse().ok().filter(|n| *n > 0),
    }
}

fn print_table(works: &[Work], bests: &[Best]) {
    println!("| work | ours, ns per unit | plain Rust, ns per unit | ratio |");
    println!("|---|---|---|---|");
    for (work, best) in works.iter().zip(bests) {
        print_row(work, best);
    }
}

fn print_row(work: &Work, best: &Best) {
    let ours = per_unit(best.ours, work.units);
    let plain = per_unit(best.plain, work.units);
    println!(
        "| {} | {ours:.2} | {plain:.2} | {:.2} |",
        work.name,
        ours / plain
    );
}

fn per_unit(time: Duration, units: u32) -> f64 {
    time.as_nanos() as f64 / f64::from(units)
}
