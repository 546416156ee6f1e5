//! Compares the archive that reads and writes schedules for C with the reference: writes on every edge and by chance, reads of any bytes,
//! and whole schedules that are written, read and written again.

#[path = "../reference/dice.rs"]
#[allow(dead_code)]
mod dice;
#[path = "../reference/schedule.rs"]
#[allow(dead_code)]
mod schedule;
#[path = "../reference/writer.rs"]
mod writer;

use std::fmt::{self, Debug, Display};
use std::process::ExitCode;

use dice::Dice;
use schedule::Call;

/// The structs of include/brancove.h.
mod c {
    #[repr(C)]
    #[derive(Clone, Copy, Debug, PartialEq, Eq)]
    pub struct Standing {
        pub number: u8,
        pub kind: u8,
        pub first: u64,
        pub second: u64,
        pub third: u64,
        pub next: usize,
    }

    #[repr(C)]
    #[derive(Clone, Copy, Debug, PartialEq, Eq)]
    pub struct Placed {
        pub number: u8,
        pub place: usize,
    }

    const _: () = assert!(size_of::<Standing>() == 40 && size_of::<Placed>() == 16);

    extern "C" {
        pub fn brancove_schedule_read(schedule: *const u8, length: usize, place: usize)
            -> Standing;
        pub fn brancove_schedule_write(
            buffer: *mut u8,
            length: usize,
            place: usize,
            kind: u64,
            first: u64,
            second: u64,
            third: u64,
        ) -> Placed;
    }
}

/// A record to be written: a kind and three numbers, whatever they are.
#[derive(Clone, Copy, Debug, PartialEq, Eq)]
struct Asked {
    kind: u64,
    numbers: [u64; 3],
}

impl Asked {
    fn of(call: Call) -> Self {
        let (kind, numbers) = writer::numbers_of(call);
        Asked {
            kind: u64::from(kind),
            numbers,
        }
    }

    fn read(stands: c::Standing) -> Self {
        Asked {
            kind: u64::from(stands.kind),
            numbers: [stands.first, stands.second, stands.third],
        }
    }

    /// What has to be read where this was written, with the place behind it.
    fn standing(self, next: usize) -> c::Standing {
        let [first, second, third] = self.numbers;
        c::Standing {
            number: 0,
            kind: self.kind as u8,
            first,
            second,
            third,
            next,
        }
    }
}

impl Display for Asked {
    fn fmt(&self, to: &mut fmt::Formatter) -> fmt::Result {
        write!(to, "kind {} with {:?}", self.kind, self.numbers)
    }
}

/// Bytes on either side of what is lent, which must stay.
const BESIDE: usize = 16;

/// Bytes that are lent, a buffer or a schedule, between others that are not.
#[derive(Clone, PartialEq, Eq)]
struct Lent {
    memory: Vec<u8>,
}

impl Lent {
    fn drawn(dice: &mut Dice, length: usize) -> Self {
        let mut memory = vec![0; BESIDE + length + BESIDE];
        for bytes in memory.chunks_mut(8) {
            bytes.copy_from_slice(&dice.any().to_le_bytes()[..bytes.len()]);
        }
        Lent { memory }
    }

    fn length(&self) -> usize {
        self.memory.len() - 2 * BESIDE
    }

    fn bytes(&mut self) -> &mut [u8] {
        let length = self.length();
        &mut self.memory[BESIDE..][..length]
    }

    /// The bytes before a place and from it on.
    fn around(&self, place: usize) -> &[u8] {
        &self.memory[place..place + 2 * BESIDE]
    }

    /// What the reference writes.
    fn write(&mut self, place: usize, asked: Asked) -> c::Placed {
        match writer::write(self.bytes(), place, asked.kind, asked.numbers) {
            Ok(place) => c::Placed { number: 0, place },
            Err(refusal) => c::Placed {
                number: refusal.number(),
                place,
            },
        }
    }

    /// What the archive writes.
    fn write_by_archive(&mut self, place: usize, asked: Asked) -> c::Placed {
        let length = self.length();
        let [first, second, third] = asked.numbers;
        // SAFETY: here and below the pointer is to so many bytes that live and are used by nobody else.
        unsafe {
            let buffer = self.memory.as_mut_ptr().add(BESIDE);
            c::brancove_schedule_write(buffer, length, place, asked.kind, first, second, third)
        }
    }

    /// What the reference reads.
    fn read(&mut self, place: usize) -> c::Standing {
        let stands = writer::standing(self.bytes(), place);
        let [first, second, third] = stands.numbers;
        c::Standing {
            number: stands.number,
            kind: stands.kind,
            first,
            second,
            third,
            next: stands.next,
        }
    }

    /// What the archive reads.
    fn read_by_archive(&mut self, place: usize) -> c::Standing {
        let length = self.length();
        unsafe {
            let schedule = self.memory.as_mut_ptr().add(BESIDE);
            c::brancove_schedule_read(schedule, length, place)
        }
    }
}

/// What is lent stands between two bars. Of much memory only the beginning is shown.
impl Debug for Lent {
    fn fmt(&self, to: &mut fmt::Formatter) -> fmt::Result {
        let bars = [BESIDE, BESIDE + self.length()];
        for (at, byte) in self.memory.iter().take(128).enumerate() {
            for _ in bars.iter().filter(|bar| **bar == at) {
                to.write_str("| ")?;
            }
            write!(to, "{byte:02x} ")?;
        }
        to.write_str(if self.memory.len() > 128 { ".." } else { "" })
    }
}

fn same<T: PartialEq + Debug>(
    what: impl Display,
    given: &Lent,
    expected: T,
    theirs: T,
) -> Result<(), String> {
    if expected == theirs {
        return Ok(());
    }
    let length = given.length();
    Err(format!(
        "{what}, {length} bytes lent:\n  given       {given:?}\n  expected    {expected:?}\n  the archive {theirs:?}"
    ))
}

/// Writes in two copies of what is given. Gives what the archive told and left.
fn compare_write(given: &Lent, place: usize, asked: Asked) -> Result<(c::Placed, Lent), String> {
    let (mut ours, mut theirs) = (given.clone(), given.clone());
    let placed = ours.write(place, asked);
    let their_placed = theirs.write_by_archive(place, asked);
    same(
        format_args!("write of {asked} at place {place}"),
        given,
        (placed, &ours),
        (their_placed, &theirs),
    )?;
    Ok((their_placed, theirs))
}

/// Reads at a place. Gives what the archive read.
fn compare_read(schedule: &mut Lent, place: usize) -> Result<c::Standing, String> {
    let ours = schedule.read(place);
    let theirs = schedule.read_by_archive(place);
    same(
        format_args!("read at place {place}"),
        schedule,
        ours,
        theirs,
    )?;
    Ok(theirs)
}

const NUMBERS: [u64; 10] = [0, 1, 7, 255, 256, 257, 65_535, 65_536, 1 << 32, u64::MAX];

/// The kinds that exist, their neighbours, and numbers that are a kind when they are cut.
fn kinds() -> impl Iterator<Item = u64> {
    let far = [65_539, (1 << 32) + 1, 1 << 63, u64::MAX];
    (0..=9).chain(255..=263).chain(far)
}

/// All places up to one that is past the end; then far ones, the last such that adding to them runs over.
fn places(past: usize) -> impl Iterator<Item = usize> {
    let far = [1 << 32, 1 << 63];
    (0..=past).chain(far).chain(usize::MAX - 4..=usize::MAX)
}

fn edges(dice: &mut Dice) -> Result<u64, String> {
    let mut writes = 0;
    for kind in kinds() {
        for (first, second) in NUMBERS.into_iter().flat_map(|a| NUMBERS.map(|b| (a, b))) {
            for third in NUMBERS {
                let asked = Asked {
                    kind,
                    numbers: [first, second, third],
                };
                for length in 0..=7 {
                    let given = Lent::drawn(dice, length);
                    for place in places(8) {
                        compare_write(&given, place, asked)?;
                        writes += 1;
                    }
                }
            }
        }
    }
    Ok(writes)
}

/// An edge, or any.
fn byte(dice: &mut Dice) -> u8 {
    match dice.below(4) {
        0 => [0, 1, 7, 254, 255][dice.below(5) as usize],
        _ => dice.any() as u8,
    }
}

fn record(dice: &mut Dice) -> u16 {
    u16::from_le_bytes([byte(dice), byte(dice)])
}

/// A call of any kind. An open by a node is often by node 0.
fn call(dice: &mut Dice) -> Call {
    match dice.below(7) {
        0 => Call::Open {
            record: record(dice),
            mode: byte(dice),
        },
        1 => Call::Step { slot: byte(dice) },
        2 => Call::Release { slot: byte(dice) },
        3 => Call::Show {
            record: record(dice),
        },
        4 => Call::OpenFor {
            record: record(dice),
            mode: byte(dice),
            node: byte(dice) * dice.below(2) as u8,
        },
        5 => Call::Fence { node: byte(dice) },
        _ => Call::Care { slot: byte(dice) },
    }
}

/// Mostly a call; else with a kind that does not exist, or a number that is too large or has no field, or both.
fn asked(dice: &mut Dice) -> Asked {
    let Asked { kind, numbers } = Asked::of(call(dice));
    let mut asked = Asked { kind, numbers };
    if dice.one_in(16) {
        // A kind again when its higher bytes are cut off; below, the number that it was.
        let cut = kind + (1 << (8 + dice.below(56)));
        asked.kind = [0, 8, 9, cut, dice.any()][dice.below(5) as usize];
    }
    if dice.one_in(8) {
        let at = dice.below(3) as usize;
        let cut = numbers[at] + (1 << (8 + dice.below(56)));
        asked.numbers[at] = [1, 256, 65_536, cut, dice.any()][dice.below(5) as usize];
    }
    asked
}

/// Mostly inside; else about the end, or so far behind it that adding to it runs over.
fn place(dice: &mut Dice, length: usize) -> usize {
    let about = |dice: &mut Dice, number: u64| dice.below(number) as usize;
    match dice.below(8) {
        0 => length.saturating_sub(6) + about(dice, 12),
        1 => usize::MAX - about(dice, 6),
        _ => about(dice, length as u64 + 1),
    }
}

/// Writes, and reads of what was written: it must be what was asked, up to the place that was told. Gives how many were accepted.
fn by_chance(dice: &mut Dice, writes: u64) -> Result<u64, String> {
    let mut accepted = 0;
    for _ in 0..writes {
        let length = dice.below(65) as usize;
        let given = Lent::drawn(dice, length);
        let (place, asked) = (place(dice, length), asked(dice));
        let (placed, mut after) = compare_write(&given, place, asked)?;
        if placed.number != 0 {
            continue;
        }
        accepted += 1;
        let stands = compare_read(&mut after, place)?;
        same(
            format_args!("read of {asked}, written at place {place}"),
            &after,
            asked.standing(placed.place),
            stands,
        )?;
    }
    Ok(accepted)
}

/// Bytes most of which are kinds or next to one.
fn small_bytes(dice: &mut Dice) -> Lent {
    let length = dice.below(25) as usize;
    let mut schedule = Lent::drawn(dice, length);
    for byte in schedule.bytes() {
        if !dice.one_in(6) {
            *byte = dice.below(9) as u8;
        }
    }
    schedule
}

/// Reads at every place of small bytes and past them. Each record that stands there is written again, in the place of other bytes.
fn reads(dice: &mut Dice, schedules: u64) -> Result<u64, String> {
    let mut reads = 0;
    for _ in 0..schedules {
        let given = small_bytes(dice);
        let mut schedule = given.clone();
        for place in places(given.length() + 2) {
            let stands = compare_read(&mut schedule, place)?;
            let what = format_args!("the bytes after a read at place {place}");
            same(what, &given, &given, &schedule)?;
            reads += 1;
            if stands.kind == 0 {
                continue;
            }
            let asked = Asked::read(stands);
            let other = Lent::drawn(dice, given.length());
            let (placed, mut after) = compare_write(&other, place, asked)?;
            let record = place..stands.next;
            same(
                format_args!("write of what was read at place {place}: {asked}"),
                &other,
                (stands.next, &schedule.bytes()[record.clone()]),
                (placed.place, &after.bytes()[record]),
            )?;
        }
        written_again(dice, &mut schedule)?;
    }
    Ok(reads)
}

/// Reads a schedule from the first byte on, until no record stands there, and writes what was read in other bytes. These must then be the
/// schedule's, up to the place where it was read to. Gives the calls.
fn written_again(dice: &mut Dice, schedule: &mut Lent) -> Result<Vec<Asked>, String> {
    let mut other = Lent::drawn(dice, schedule.length());
    let mut expected = other.clone();
    let mut calls = Vec::new();
    let mut place = 0;
    loop {
        let stands = compare_read(schedule, place)?;
        if stands.kind == 0 {
            break;
        }
        let asked = Asked::read(stands);
        let told = other.write_by_archive(place, asked);
        same(
            format_args!("write of what was read at place {place}: {asked}"),
            schedule,
            (0, stands.next),
            (told.number, told.place),
        )?;
        calls.push(asked);
        place = told.place;
    }
    expected.bytes()[..place].copy_from_slice(&schedule.bytes()[..place]);
    same("a schedule written again", schedule, &expected, &other)?;
    Ok(calls)
}

/// Writes calls one behind the other until one does not fit. Gives them, and their bytes.
fn written(dice: &mut Dice, length: usize) -> Result<(Vec<Asked>, Lent), String> {
    let given = Lent::drawn(dice, length);
    let (mut ours, mut theirs) = (given.clone(), given.clone());
    let mut calls = Vec::new();
    let mut place = 0;
    loop {
        let asked = Asked::of(call(dice));
        let expected = ours.write(place, asked);
        let told = theirs.write_by_archive(place, asked);
        same(
            format_args!("write of {asked} at place {place} of a schedule"),
            &given,
            (expected, ours.around(place)),
            (told, theirs.around(place)),
        )?;
        if told.number != 0 {
            break;
        }
        calls.push(asked);
        place = told.place;
    }
    same("a whole schedule written", &given, &ours, &theirs)?;
    let mut schedule = Lent::drawn(dice, place);
    schedule.bytes().copy_from_slice(&theirs.bytes()[..place]);
    Ok((calls, schedule))
}

/// Whole schedules, written, read and written again: the calls are the same. Gives how many they were.
fn schedules(dice: &mut Dice, lengths: &[usize]) -> Result<u64, String> {
    let mut number = 0;
    for &length in lengths {
        let (calls, mut schedule) = written(dice, length)?;
        let read = written_again(dice, &mut schedule)?;
        same("the calls of a whole schedule", &schedule, &calls, &read)?;
        number += calls.len() as u64;
    }
    Ok(number)
}

fn all(seed: u64, writes: u64) -> Result<(), String> {
    let mut dice = Dice::seeded(seed);
    println!("writer: seed {seed}");
    let on_edges = edges(&mut dice)?;
    let accepted = by_chance(&mut dice, writes)?;
    let reads = reads(&mut dice, writes / 10)?;
    let lengths: Vec<usize> = (0..1_000).chain([65_536; 10]).collect();
    let (whole, calls) = (lengths.len(), schedules(&mut dice, &lengths)?);
    println!(
        "writer: {on_edges} writes on edges, {writes} by chance, {accepted} of these accepted and read, {reads} reads of any bytes, \
         {whole} whole schedules with {calls} calls: equal"
    );
    Ok(())
}

fn main() -> ExitCode {
    let arguments: Vec<u64> = std::env::args()
        .skip(1)
        .map_while(|text| text.parse().ok())
        .collect();
    let [seed, writes] = arguments[..] else {
        eprintln!("writer SEED WRITES");
        return ExitCode::from(2);
    };
    match all(seed, writes) {
        Ok(()) => ExitCode::SUCCESS,
        Err(said) => {
            println!("writer: DIFFERENCE in {said}");
            ExitCode::FAILURE
        }
    }
}
