//! Times the proved run beside the rival, in one process and in turns, and prints medians. Differences in what they do end it first.

mod board;
mod loads;

use loads::Load;
use std::hint::black_box;
use std::process::ExitCode;
use std::time::Instant;

unsafe extern "C" {
    fn brancove_bench_run(
        words: *mut u64,
        n_words: usize,
        schedule: *const u8,
        n_schedule: usize,
        report: *mut u8,
        n_report: usize,
    ) -> u64;
}

const ROUNDS: usize = 61;
/// Rounds before these, which do not count.
const WARM: usize = 2;

type Run = fn(&mut [u64], &[u8], &mut [u8]) -> u64;

fn proved(words: &mut [u64], schedule: &[u8], report: &mut [u8]) -> u64 {
    // SAFETY: three slices, each as its place and its length, as the function's signature has them.
    unsafe {
        brancove_bench_run(
            words.as_mut_ptr(),
            words.len(),
            schedule.as_ptr(),
            schedule.len(),
            report.as_mut_ptr(),
            report.len(),
        )
    }
}

/// What a run leaves: verbs, words and report.
fn outcome(run: Run, load: &Load, room: usize) -> (u64, Vec<u64>, Vec<u8>) {
    let mut words = vec![77; load.words];
    let mut report = vec![0xee; room];
    let verbs = run(&mut words, &load.schedule, &mut report);
    (verbs, words, report)
}

/// Runs of the rival on 2 words whose ending, records and bytes are known: the rows of `run_rules`'s specs/Examples.antt, and three cut records.
fn wrong_ending() -> Option<String> {
    const WORKED: &[u8] = &[1, 0, 0, 1, 2, 0, 3, 0, 4, 0, 0];
    const HELD_AND_FENCED: &[u8] = &[5, 0, 0, 1, 3, 2, 0, 6, 3, 3, 0];
    const ASKING_AND_CARED_FOR: &[u8] = &[5, 0, 0, 1, 3, 6, 3, 2, 0, 7, 0];
    const WAITING_AND_CARED_FOR: &[u8] = &[
        1, 0, 0, 1, 2, 0, 5, 0, 0, 1, 3, 2, 1, 6, 3, 3, 0, 7, 1, 7, 1,
    ];
    let rows: [(usize, usize, &[u8], usize, (u8, usize, usize, u64)); 19] = [
        (10, 100, WORKED, 0, (0, 4, 11, 2)),
        (1, 100, WORKED, 0, (11, 1, 4, 0)),
        (0, 100, WORKED, 11, (0, 0, 0, 0)),
        (0, 0, WORKED, 99, (0, 0, 0, 0)),
        (10, 23, WORKED, 0, (12, 1, 4, 0)),
        (0, 0, WORKED, 0, (11, 0, 0, 0)),
        (10, 100, &[8], 0, (8, 0, 0, 0)),
        (10, 11, &[8], 0, (12, 0, 0, 0)),
        (10, 100, &[1, 0, 0], 0, (7, 0, 0, 0)),
        (10, 11, &[2], 0, (12, 0, 0, 0)),
        (10, 100, &[1, 0, 0, 1, 2, 0, 9], 0, (8, 2, 6, 1)),
        (10, 100, &[1, 0, 0, 1, 2], 0, (7, 1, 4, 0)),
        (10, 100, &[2, 9, 4, 1, 0], 0, (0, 2, 5, 0)),
        (10, 100, HELD_AND_FENCED, 0, (0, 4, 11, 1)),
        (10, 100, ASKING_AND_CARED_FOR, 0, (0, 4, 11, 0)),
        (10, 100, WAITING_AND_CARED_FOR, 0, (0, 8, 21, 5)),
        (10, 100, &[5, 0, 0, 1], 0, (7, 0, 0, 0)),
        (10, 100, &[6], 0, (7, 0, 0, 0)),
        (10, 100, &[7], 0, (7, 0, 0, 0)),
    ];
    rows.iter()
        .find_map(|&(allowance, room, schedule, at, row)| {
            let (mut words, mut report) = ([0; 2], vec![0; room]);
            let mut board = board::Board::begin(&mut words);
            let ran = board::run(&mut board, &mut words, schedule, at, allowance, &mut report);
            let came = (ran.ending, ran.records, ran.bytes, ran.verbs);
            (came != row).then(|| format!("{schedule:?} from {at}: {came:?} and not {row:?}"))
        })
}

/// The first thing in which the two differ.
fn difference(load: &Load, room: usize) -> Option<String> {
    let (verbs, words, report) = outcome(proved, load, room);
    let (other_verbs, other_words, other_report) = outcome(board::bench_run, load, room);
    if let Some(at) = report.iter().zip(&other_report).position(|(a, b)| a != b) {
        let entry = at / 12 * 12..(at / 12 * 12 + 12).min(room);
        return Some(format!(
            "{}: report byte {at}, record {}: {:?} and {:?}",
            load.name,
            at / 12,
            &report[entry.clone()],
            &other_report[entry]
        ));
    }
    if words != other_words {
        return Some(format!("{}: the words differ", load.name));
    }
    if verbs != other_verbs {
        return Some(format!("{}: {verbs} verbs and {other_verbs}", load.name));
    }
    None
}

/// Nanoseconds per record of one turn.
fn turn(run: Run, load: &Load, words: &mut [u64], report: &mut [u8]) -> f64 {
    let start = Instant::now();
    for _ in 0..load.times {
        black_box(run(
            black_box(words),
            black_box(&load.schedule),
            black_box(report),
        ));
    }
    start.elapsed().as_nanos() as f64 / (load.records * load.times) as f64
}

fn accepted(load: &Load) -> usize {
    let (_, _, report) = outcome(board::bench_run, load, load.records * 12);
    report
        .chunks_exact(12)
        .filter(|entry| entry[0] == 0)
        .count()
}

fn main() -> ExitCode {
    let timed = [
        loads::steps("steps, 64 words", 64),
        loads::steps("steps, 4,096 words", 4_096),
        loads::opens(),
        loads::mixed(64),
    ];
    let also = loads::compared_only();
    if let Some(said) = wrong_ending() {
        println!("FAILED: the Rust run ends otherwise. {said}");
        return ExitCode::FAILURE;
    }
    let mut compared = 0;
    for load in timed.iter().chain(&also) {
        let all = load.records * 12;
        for room in [all, all + 19, all / 2 + 5, 11, 0] {
            if let Some(said) = difference(load, room) {
                println!("FAILED: the two runs differ. {said}");
                return ExitCode::FAILURE;
            }
            compared += 1;
        }
    }
    println!("{compared} reports compared byte for byte, with words and verbs: equal");
    println!("{ROUNDS} rounds in turns; ns per record: the median round, then the fastest round\n");
    println!(
        "{:<20} {:>8} {:>9} {:>8} {:>8} {:>6} {:>8} {:>8} {:>6}",
        "load", "records", "accepted", "proved", "Rust", "ratio", "proved", "Rust", "ratio"
    );
    for load in &timed {
        let mut words = vec![0; load.words];
        let mut report = vec![0; load.records * 12];
        let (mut ours, mut theirs) = (Vec::new(), Vec::new());
        for round in 0..ROUNDS + WARM {
            let a = turn(proved, load, &mut words, &mut report);
            let b = turn(board::bench_run, load, &mut words, &mut report);
            if round >= WARM {
                ours.push(a);
                theirs.push(b);
            }
        }
        ours.sort_by(f64::total_cmp);
        theirs.sort_by(f64::total_cmp);
        let (a, b) = (ours[ROUNDS / 2], theirs[ROUNDS / 2]);
        let (c, d) = (ours[0], theirs[0]);
        println!(
            "{:<20} {:>8} {:>8.1}% {a:>8.2} {b:>8.2} {:>6.2} {c:>8.2} {d:>8.2} {:>6.2}",
            load.name,
            load.records * load.times,
            100.0 * accepted(load) as f64 / load.records as f64,
            a / b,
            c / d
        );
    }
    ExitCode::SUCCESS
}
