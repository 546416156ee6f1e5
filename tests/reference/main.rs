//! The rules a second time, apart from the proved code, to catch mistakes in it.
//!
//! It is written in another shape: a board changed in place and plain Rust throughout.
//! `reference` computes every stored output under crates/cases_*/ and every *.expected of the schedules under examples/.

mod agent;
mod answer;
mod board;
mod cases;
mod ceiling;
mod dice;
#[cfg(test)]
mod ledger;
mod lost;
mod player;
mod random;
mod repair;
mod run;
mod schedule;
mod script;
mod word;
#[cfg(test)]
mod writer;

use std::io::{self, Read, Write};
use std::path::Path;
use std::process::ExitCode;

use cases::Case;

const USAGE: &str = "\
reference play               plays the schedule on standard input
reference repair             plays it, then cares for the slots of fenced nodes
reference ceiling PROGRAM    what a program prints that meets the ceiling; the programs are readers, writers,
                             most (a counter at its highest) and care (whoever has to clear is lost)
reference begin              what a program prints that begins its board again after a fence
reference LIST FOLDER        writes the schedules of a list and prints their names; the lists are
                             cases and examples, repaired_cases and repaired_examples
";

fn main() -> ExitCode {
    let arguments: Vec<String> = std::env::args().skip(1).collect();
    let words: Vec<&str> = arguments.iter().map(String::as_str).collect();
    let printed = match words[..] {
        ["play"] => Ok(player::printed_for(&standard_input())),
        ["repair"] => Ok(repair::printed_for(&standard_input())),
        ["ceiling", "readers"] => ceiling::printed_for_ceiling(script::READER),
        ["ceiling", "writers"] => ceiling::printed_for_ceiling(script::WRITER),
        ["ceiling", "most"] => ceiling::printed_for_most(),
        ["ceiling", "care"] => ceiling::printed_for_care(),
        ["begin"] => lost::printed_for_begin(),
        ["cases", folder] => write_schedules(Path::new(folder), &cases::all()),
        ["examples", folder] => write_schedules(Path::new(folder), &cases::examples()),
        ["repaired_cases", folder] => write_schedules(Path::new(folder), &cases::repaired()),
        ["repaired_examples", folder] => {
            write_schedules(Path::new(folder), &cases::repaired_examples())
        }
        _ => Err(USAGE.to_owned()),
    };
    let done = printed.and_then(|lines| {
        io::stdout()
            .write_all(lines.as_bytes())
            .map_err(|error| format!("standard output: {error}"))
    });
    match done {
        Ok(()) => ExitCode::SUCCESS,
        Err(message) => {
            eprintln!("{}", message.trim_end());
            ExitCode::FAILURE
        }
    }
}

/// One byte more than is played is enough to see that the input is too long.
/// An error while reading counts as the end of the input.
fn standard_input() -> Vec<u8> {
    let mut input = Vec::new();
    let limit = player::MOST_INPUT_BYTES as u64 + 1;
    let _ = io::stdin().lock().take(limit).read_to_end(&mut input);
    input
}

/// Writes each schedule to a file of its own, after its entries set by hand were compared.
fn write_schedules(folder: &Path, cases: &[Case]) -> Result<String, String> {
    let mut names = String::new();
    for case in cases {
        case.compare()?;
        let name = format!("{}.schedule", case.name);
        std::fs::write(folder.join(&name), &case.schedule)
            .map_err(|error| format!("{name}: {error}"))?;
        names.push_str(&name);
        names.push('\n');
    }
    Ok(names)
}
