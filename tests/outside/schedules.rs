//! Plays drawn schedules with the player, or with the repair program, and compares its lines with the reference's, one by one.

#[path = "../reference/agent.rs"]
#[allow(dead_code)]
mod agent;
#[path = "../reference/answer.rs"]
#[allow(dead_code)]
mod answer;
#[path = "../reference/board.rs"]
#[allow(dead_code)]
mod board;
#[path = "../reference/dice.rs"]
#[allow(dead_code)]
mod dice;
mod draw;
#[path = "../reference/player.rs"]
#[allow(dead_code)]
mod player;
#[path = "../reference/random.rs"]
#[allow(dead_code)]
mod random;
#[path = "../reference/repair.rs"]
#[allow(dead_code)]
mod repair;
#[path = "../reference/run.rs"]
#[allow(dead_code)]
mod run;
#[path = "../reference/schedule.rs"]
#[allow(dead_code)]
mod schedule;
mod shrink;
#[path = "../reference/word.rs"]
#[allow(dead_code)]
mod word;

use std::io::{Read, Write};
use std::path::Path;
use std::process::{Command, ExitCode, Stdio};
use std::time::Instant;

use dice::Dice;
use draw::{CLASSES, LONG};

const USAGE: &str = "\
schedules SEED ROUNDS FOLDER play|repair PROGRAM...        so many schedules of each class, a quarter of the long ones
schedules SEED calls=CALLS FOLDER play|repair PROGRAM...   rounds until so many calls were played
PROGRAM is the command that plays standard input and, after 'repair', cares for the slots of fenced nodes. A schedule that
differs is written to FOLDER.
";

/// Tries in making one schedule shorter.
const TRIES: u32 = 20_000;

/// A program and what the reference prints in its place.
struct Compared<'a> {
    name: &'a str,
    command: &'a [String],
    expected: fn(&[u8]) -> String,
}

impl Compared<'_> {
    /// What the program printed, or why that cannot be told.
    fn printed(&self, schedule: &[u8]) -> Result<Vec<u8>, String> {
        let program = &self.command[0];
        let mut child = Command::new(program)
            .args(&self.command[1..])
            .stdin(Stdio::piped())
            .stdout(Stdio::piped())
            .spawn()
            .map_err(|error| format!("{program} does not start: {error}"))?;
        let mut input = child.stdin.take().expect("a pipe");
        let mut output = child.stdout.take().expect("a pipe");
        let mut lines = Vec::new();
        std::thread::scope(|scope| {
            // A program may end before it has read all: what it printed tells.
            scope.spawn(move || drop(input.write_all(schedule)));
            output.read_to_end(&mut lines)
        })
        .map_err(|error| format!("its output cannot be read: {error}"))?;
        let status = child.wait().map_err(|error| error.to_string())?;
        match status.success() {
            true => Ok(lines),
            false => Err(format!("the program ended with {status}")),
        }
    }

    /// The number of lines if all are the reference's, or the first difference in words.
    fn lines(&self, schedule: &[u8]) -> Result<u64, String> {
        let expected = (self.expected)(schedule);
        let found = self.printed(schedule)?;
        if found == expected.as_bytes() {
            return Ok(expected.lines().count() as u64);
        }
        let found = String::from_utf8_lossy(&found).into_owned();
        let (mut ours, mut theirs) = (expected.split('\n'), found.split('\n'));
        let mut line = 1;
        loop {
            match (ours.next(), theirs.next()) {
                (Some(a), Some(b)) if a == b => line += 1,
                (a, b) => {
                    let [a, b] = [a, b].map(|text| text.unwrap_or("nothing more"));
                    return Err(format!(
                        "line {line}: the reference has '{a}', the program '{b}'"
                    ));
                }
            }
        }
    }
}

/// Says what differs, makes the schedule shorter and writes it down.
fn report(program: &Compared, class: &str, schedule: &[u8], said: &str, folder: &Path, seed: u64) {
    println!(
        "schedules: DIFFERENCE in '{class}', {} bytes: {said}",
        schedule.len()
    );
    let shortest = shrink::shrunk(schedule, TRIES, |bytes| program.lines(bytes).is_err());
    let path = folder.join(format!("differs-{seed}.schedule"));
    let written = std::fs::create_dir_all(folder).and_then(|()| std::fs::write(&path, &shortest));
    let said = program
        .lines(&shortest)
        .err()
        .unwrap_or("the program does not always answer the same".to_owned());
    println!(
        "schedules: the shortest found has {} bytes: {said}",
        shortest.len()
    );
    if shortest.len() <= 100 {
        let hex: Vec<String> = shortest.iter().map(|byte| format!("{byte:02x}")).collect();
        println!("schedules: {}", hex.join(" "));
    }
    match written {
        Ok(()) => println!("schedules: it is in {}", path.display()),
        Err(error) => println!(
            "schedules: it could not be written to {}: {error}",
            path.display()
        ),
    }
}

/// When to stop.
enum Until {
    Rounds(u64),
    Calls(u64),
}

fn compare(seed: u64, until: &Until, folder: &Path, program: &Compared) -> ExitCode {
    println!("schedules: seed {seed}, {}", program.name);
    let start = Instant::now();
    let (mut schedules, mut calls, mut said_at) = (0u64, 0u64, 0);
    for round in 0.. {
        if match *until {
            Until::Rounds(most) => round == most,
            Until::Calls(most) => calls >= most,
        } {
            break;
        }
        for (at, (class, draw)) in CLASSES.iter().enumerate() {
            if LONG.contains(&at) && round % 4 != 0 {
                continue;
            }
            let mut dice =
                Dice::seeded(seed ^ (round * 64 + at as u64).wrapping_mul(0x9e37_79b9_7f4a_7c15));
            let schedule = draw(&mut dice);
            match program.lines(&schedule) {
                // All lines but the end line are of one call each.
                Ok(lines) => calls += lines - 1,
                Err(said) => {
                    report(program, class, &schedule, &said, folder, seed);
                    return ExitCode::FAILURE;
                }
            }
            schedules += 1;
        }
        let seconds = start.elapsed().as_secs();
        if seconds >= said_at + 20 {
            said_at = seconds;
            println!("schedules: {schedules} schedules, {calls} calls so far, equal, {seconds} s");
        }
    }
    println!(
        "schedules: {schedules} schedules, {calls} calls, each printed line equal, {:.1} s",
        start.elapsed().as_secs_f64()
    );
    ExitCode::SUCCESS
}

fn main() -> ExitCode {
    let arguments: Vec<String> = std::env::args().skip(1).collect();
    let [seed, until, folder, name, command @ ..] = &arguments[..] else {
        eprint!("{USAGE}");
        return ExitCode::from(2);
    };
    let expected: Option<fn(&[u8]) -> String> = match name.as_str() {
        "play" => Some(player::printed_for),
        "repair" => Some(repair::printed_for),
        _ => None,
    };
    let until = match until.strip_prefix("calls=") {
        Some(calls) => calls.parse().map(Until::Calls),
        None => until.parse().map(Until::Rounds),
    };
    match (seed.parse(), until, expected) {
        (Ok(seed), Ok(until), Some(expected)) if !command.is_empty() => {
            let program = Compared {
                name,
                command,
                expected,
            };
            compare(seed, &until, Path::new(folder), &program)
        }
        _ => {
            eprint!("{USAGE}");
            ExitCode::from(2)
        }
    }
}
