//! An independent second program for the chip of docs/DEFINITION.md, which comments here cite as
//! "definition". It was written from the rules in words, without a look at the proved program or
//! its definitions. Where the rules left a choice its author had our readings, so there the two
//! agree because both follow the reading; docs/DECISIONS.md lists them.
//! Reads and makes replay streams (docs/STREAM.md), and counts which rules the streams meet. Runs a
//! script as the program `script` does, and makes script files.
//! The chip's description is Charles MacDonald's "Sega Genesis VDP documentation", 1.5f.

#![forbid(unsafe_code)]

mod answer;
#[cfg(test)]
mod bench;
mod book;
mod calls;
mod cells;
mod check;
mod cover;
#[cfg(test)]
mod deliveries;
mod dma;
mod draw;
#[cfg(test)]
mod equals;
#[cfg(test)]
mod flags;
#[cfg(test)]
mod frames;
#[cfg(test)]
mod intensities;
#[cfg(test)]
mod longest;
#[cfg(test)]
mod masking;
#[cfg(test)]
mod missing;
mod pattern;
mod planes;
mod ports;
#[cfg(test)]
mod readers;
mod replay;
mod script;
#[cfg(test)]
mod scripts;
#[cfg(test)]
mod shaded_lines;
mod shading;
mod sprites;
mod state;
mod streams;
mod tape;
mod timing;
#[cfg(test)]
mod worked;

use std::io::{self, Read, Write};
use std::path::Path;
use std::process::ExitCode;

use script::files::files;
use script::program;

const USAGE: &str = "usage: reference replay [--book] < stream
       reference gen SEED KIND COUNT > stream
       reference cover STREAM ..
       reference script < script
       reference scripts SEED COUNT DIRECTORY
kinds: ports dma refusals tape timing drawing mix script reader";

fn main() -> ExitCode {
    let words: Vec<String> = std::env::args().skip(1).collect();
    let words: Vec<&str> = words.iter().map(String::as_str).collect();
    let done = match words.as_slice() {
        ["replay"] => replay_plain(),
        ["replay", "--book"] => replay_with_book(),
        ["gen", seed, kind, count] => match generate(seed, kind, count) {
            Some(bytes) => io::stdout().write_all(&bytes).map(|()| ExitCode::SUCCESS),
            None => Ok(usage()),
        },
        ["cover", first, more @ ..] => cover_streams(first, more),
        ["script"] => run_script(),
        ["scripts", seed, count, directory] => match (seed.parse(), count.parse()) {
            (Ok(seed), Ok(count)) => write_scripts(seed, count, directory),
            _ => Ok(usage()),
        },
        _ => Ok(usage()),
    };
    done.unwrap_or_else(|error| {
        eprintln!("reference: {error}");
        ExitCode::FAILURE
    })
}

fn usage() -> ExitCode {
    eprintln!("{USAGE}");
    ExitCode::from(2)
}

fn input() -> io::Result<Vec<replay::Command>> {
    let mut bytes = Vec::new();
    let most = (replay::MOST_COMMANDS * replay::COMMAND_BYTES) as u64;
    io::stdin().lock().take(most).read_to_end(&mut bytes)?;
    Ok(replay::commands(&bytes))
}

fn replay_plain() -> io::Result<ExitCode> {
    let mut machine = replay::Machine::new();
    let mut out = io::BufWriter::new(io::stdout().lock());
    for command in input()? {
        for line in machine.apply(&command) {
            writeln!(out, "{line}")?;
        }
    }
    out.flush()?;
    Ok(ExitCode::SUCCESS)
}

/// A difference from the book is told on standard error and makes the exit status 1.
fn replay_with_book() -> io::Result<ExitCode> {
    let mut checker = check::Checker::new();
    let mut out = io::BufWriter::new(io::stdout().lock());
    let mut code = ExitCode::SUCCESS;
    for (index, command) in input()?.iter().enumerate() {
        let (lines, difference) = checker.apply(command);
        for line in lines {
            writeln!(out, "{line}")?;
        }
        if let Some(difference) = difference {
            eprintln!("command {index} {command:?}: {difference}");
            code = ExitCode::FAILURE;
        }
    }
    out.flush()?;
    Ok(code)
}

fn generate(seed: &str, kind: &str, count: &str) -> Option<Vec<u8>> {
    let kind = streams::Kind::named(kind)?;
    let commands = streams::stream(seed.parse().ok()?, kind, count.parse().ok()?);
    Some(commands.iter().flat_map(|command| command.to_bytes()).collect())
}

/// A rule or an answer that never came up in the streams makes the exit status 1.
fn cover_streams(first: &str, more: &[&str]) -> io::Result<ExitCode> {
    let mut tally = cover::Tally::new();
    for file in std::iter::once(&first).chain(more) {
        let bytes = std::fs::read(file).map_err(|error| named(error, file))?;
        tally.follow(&replay::commands(&bytes));
    }
    io::stdout().write_all(tally.text().as_bytes())?;
    Ok(if tally.never().is_empty() { ExitCode::SUCCESS } else { ExitCode::FAILURE })
}

/// A script that is refused, or stopped by a refused call, makes the exit status 1.
fn run_script() -> io::Result<ExitCode> {
    let mut script = Vec::new();
    let enough = program::MOST_BYTES as u64 + 1;
    io::stdin().lock().take(enough).read_to_end(&mut script)?;
    let told = program::told(&script);
    let mut out = io::BufWriter::new(io::stdout().lock());
    for line in &told.lines {
        writeln!(out, "{line}")?;
    }
    out.flush()?;
    Ok(if told.done { ExitCode::SUCCESS } else { ExitCode::FAILURE })
}

fn write_scripts(seed: u64, count: usize, directory: &str) -> io::Result<ExitCode> {
    for (name, bytes) in files(seed, count) {
        let path = Path::new(directory).join(&name);
        std::fs::write(path, bytes).map_err(|error| named(error, &name))?;
    }
    Ok(ExitCode::SUCCESS)
}

/// An error with the name of the file that it is about.
fn named(error: io::Error, name: &str) -> io::Error {
    io::Error::new(error.kind(), format!("{name}: {error}"))
}
