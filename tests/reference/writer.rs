//! The writer: a call goes in as plain numbers, its record is put into a lent buffer, and the next free place comes back.
//! And the way back: what stands at a place of a schedule, as the same plain numbers.

use std::num::TryFromIntError;

use crate::schedule::{Call, Next, Reader, BODY_CUT_SHORT, UNKNOWN_KIND};

/// Why a record was not written.
#[derive(Clone, Copy, Debug, PartialEq, Eq)]
pub enum Refusal {
    UnknownKind,
    NumberTooLarge,
    NoRoom,
}

impl Refusal {
    pub const fn number(self) -> u8 {
        match self {
            Refusal::UnknownKind => UNKNOWN_KIND,
            Refusal::NumberTooLarge => 18,
            Refusal::NoRoom => 12,
        }
    }
}

/// A number that does not fit its field.
impl From<TryFromIntError> for Refusal {
    fn from(_: TryFromIntError) -> Self {
        Refusal::NumberTooLarge
    }
}

/// The call of a kind and its numbers, in the order of their fields. Where the kind has no field, only 0 fits.
fn call_of(kind: u64, numbers: [u64; 3]) -> Result<Call, Refusal> {
    Ok(match (kind, numbers) {
        (1, [record, mode, 0]) => Call::Open {
            record: record.try_into()?,
            mode: mode.try_into()?,
        },
        (2, [slot, 0, 0]) => Call::Step {
            slot: slot.try_into()?,
        },
        (3, [slot, 0, 0]) => Call::Release {
            slot: slot.try_into()?,
        },
        (4, [record, 0, 0]) => Call::Show {
            record: record.try_into()?,
        },
        (5, [record, mode, node]) => Call::OpenFor {
            record: record.try_into()?,
            mode: mode.try_into()?,
            node: node.try_into()?,
        },
        (6, [node, 0, 0]) => Call::Fence {
            node: node.try_into()?,
        },
        (7, [slot, 0, 0]) => Call::Care {
            slot: slot.try_into()?,
        },
        (1..=7, _) => return Err(Refusal::NumberTooLarge),
        _ => return Err(Refusal::UnknownKind),
    })
}

/// The kind of a call and its numbers.
pub fn numbers_of(call: Call) -> (u8, [u64; 3]) {
    match call {
        Call::Open { record, mode } => (1, [record.into(), mode.into(), 0]),
        Call::Step { slot } => (2, [slot.into(), 0, 0]),
        Call::Release { slot } => (3, [slot.into(), 0, 0]),
        Call::Show { record } => (4, [record.into(), 0, 0]),
        Call::OpenFor { record, mode, node } => (5, [record.into(), mode.into(), node.into()]),
        Call::Fence { node } => (6, [node.into(), 0, 0]),
        Call::Care { slot } => (7, [slot.into(), 0, 0]),
    }
}

/// Puts the record of a call at a place of the buffer and gives the next free place. A refusal leaves the buffer.
pub fn write(
    buffer: &mut [u8],
    place: usize,
    kind: u64,
    numbers: [u64; 3],
) -> Result<usize, Refusal> {
    let record = call_of(kind, numbers)?.bytes();
    buffer
        .get_mut(place..)
        .and_then(|room| room.get_mut(..record.len()))
        .ok_or(Refusal::NoRoom)?
        .copy_from_slice(&record);
    Ok(place + record.len())
}

/// What stands at a place of a schedule. Where no record stands, kind and numbers are 0 and the next place is the place itself.
#[derive(Clone, Copy, Debug, PartialEq, Eq)]
pub struct Standing {
    pub number: u8,
    pub kind: u8,
    pub numbers: [u64; 3],
    pub next: usize,
}

pub fn standing(schedule: &[u8], place: usize) -> Standing {
    let nothing = |number| Standing {
        number,
        kind: 0,
        numbers: [0; 3],
        next: place,
    };
    match Reader::at(schedule, place).look() {
        Next::Record { call, length } => {
            let (kind, numbers) = numbers_of(call);
            Standing {
                number: 0,
                kind,
                numbers,
                next: place + length,
            }
        }
        Next::End => nothing(0),
        Next::UnknownKind => nothing(UNKNOWN_KIND),
        Next::BodyCutShort => nothing(BODY_CUT_SHORT),
    }
}

#[cfg(test)]
mod tests {
    use super::*;
    use crate::cases;
    use crate::dice::Dice;

    /// A call as it is handed to the writer.
    type Plain = (u64, [u64; 3]);
    type Write = fn(&mut [u8], usize, u64, [u64; 3]) -> Result<usize, Refusal>;

    /// The kinds, each with the bytes of its three fields, 0 where it has none.
    const FIELDS: [(u64, [usize; 3]); 7] = [
        (1, [2, 1, 0]),
        (2, [1, 0, 0]),
        (3, [1, 0, 0]),
        (4, [2, 0, 0]),
        (5, [2, 1, 1]),
        (6, [1, 0, 0]),
        (7, [1, 0, 0]),
    ];

    /// The first number that a field of so many bytes cannot hold.
    fn too_large(bytes: usize) -> u64 {
        1 << (8 * bytes)
    }

    #[test]
    fn each_kind_has_its_bytes() {
        let by_hand: [(u64, [u64; 3], &[u8]); 12] = [
            (1, [0x1234, 7, 0], &[1, 0x34, 0x12, 7]),
            (1, [0xffff, 0xff, 0], &[1, 0xff, 0xff, 0xff]),
            (2, [0, 0, 0], &[2, 0]),
            (2, [255, 0, 0], &[2, 255]),
            (3, [9, 0, 0], &[3, 9]),
            (4, [0xff00, 0, 0], &[4, 0x00, 0xff]),
            (4, [0x00ff, 0, 0], &[4, 0xff, 0x00]),
            (5, [0x1234, 7, 0], &[5, 0x34, 0x12, 7, 0]),
            (5, [0x1234, 7, 9], &[5, 0x34, 0x12, 7, 9]),
            (5, [0, 0, 255], &[5, 0, 0, 0, 255]),
            (6, [255, 0, 0], &[6, 255]),
            (7, [0, 0, 0], &[7, 0]),
        ];
        for (kind, numbers, record) in by_hand {
            let mut buffer = [0xee; 9];
            let next = 2 + record.len();
            assert_eq!(write(&mut buffer, 2, kind, numbers), Ok(next));
            assert_eq!(buffer[..2], [0xee; 2]);
            assert_eq!(&buffer[2..next], record);
            assert!(buffer[next..].iter().all(|&byte| byte == 0xee));
            let read = Standing {
                number: 0,
                kind: kind as u8,
                numbers,
                next,
            };
            assert_eq!(standing(&buffer, 2), read);
        }
    }

    #[test]
    fn kind_1_and_kind_5_with_node_0_stay_different() {
        let (mut open, mut open_for) = ([0xee; 5], [0xee; 5]);
        assert_eq!(write(&mut open, 0, 1, [3, 1, 0]), Ok(4));
        assert_eq!(write(&mut open_for, 0, 5, [3, 1, 0]), Ok(5));
        assert_eq!(open, [1, 3, 0, 1, 0xee]);
        assert_eq!(open_for, [5, 3, 0, 1, 0]);
        assert_eq!(standing(&open, 0).kind, 1);
        assert_eq!(standing(&open_for, 0).kind, 5);
    }

    /// The board refuses all modes but two; the writer none.
    #[test]
    fn every_mode_is_written() {
        for mode in 0..=255 {
            for kind in [1, 5] {
                let mut buffer = [0; 5];
                assert!(write(&mut buffer, 0, kind, [0, mode, 0]).is_ok());
                assert_eq!(u64::from(buffer[3]), mode);
            }
        }
    }

    /// What is told for a buffer of so many bytes that must stay as it is.
    fn refused(length: usize, place: usize, kind: u64, numbers: [u64; 3]) -> u8 {
        let mut buffer = vec![0xee; length];
        let refusal = write(&mut buffer, place, kind, numbers).expect_err("it is refused");
        assert!(buffer.iter().all(|&byte| byte == 0xee));
        refusal.number()
    }

    #[test]
    fn refusals_come_in_their_order() {
        for (length, place) in [(0, 0), (1, 0), (9, 10), (9, usize::MAX)] {
            assert_eq!(refused(length, place, 8, [1 << 16, 0, 0]), 8);
            assert_eq!(refused(length, place, 8, [0; 3]), 8);
            for (kind, _) in FIELDS {
                assert_eq!(refused(length, place, kind, [1 << 16, 0, 0]), 18);
                assert_eq!(refused(length, place, kind, [0; 3]), 12);
            }
        }
        assert_eq!(refused(9, 0, 0, [1 << 16, 0, 0]), 8);
        assert_eq!(refused(9, 0, 2, [1 << 16, 0, 0]), 18);
    }

    #[test]
    fn a_kind_is_never_cut() {
        let unknown = [0, 8, 9, 255, 256, 1 << 16, 1 << 32, 1 << 63, u64::MAX];
        let cut = FIELDS
            .into_iter()
            .flat_map(|(kind, _)| [8, 16, 32, 63].map(|bits| (1 << bits) + kind));
        for kind in unknown.into_iter().chain(cut) {
            assert_eq!(refused(9, 0, kind, [0; 3]), 8, "{kind}");
        }
    }

    /// Each field holds all numbers of its bytes and no other. A field of no bytes holds only 0.
    #[test]
    fn a_number_fits_its_field_or_is_refused() {
        for (kind, fields) in FIELDS {
            for (at, bytes) in fields.into_iter().enumerate() {
                let with = |number| {
                    let mut numbers = [0; 3];
                    numbers[at] = number;
                    numbers
                };
                for number in [0, too_large(bytes) / 2, too_large(bytes) - 1] {
                    let mut buffer = [0xee; 5];
                    let next = write(&mut buffer, 0, kind, with(number)).expect("it fits");
                    assert_eq!(standing(&buffer[..next], 0).numbers, with(number));
                }
                let over = [0, 1, 1 << 8, 1 << 32].map(|more| too_large(bytes) + more);
                for number in over.into_iter().chain([u64::MAX]) {
                    assert_eq!(refused(9, 0, kind, with(number)), 18, "{kind} {number}");
                }
            }
        }
    }

    #[test]
    fn a_record_needs_room_for_all_of_it() {
        for (kind, fields) in FIELDS {
            let record = 1 + fields.iter().sum::<usize>();
            for length in 0..=8 {
                for place in (0..=9).chain(usize::MAX - 8..=usize::MAX) {
                    if place <= length && length - place >= record {
                        let mut buffer = vec![0xee; length];
                        let next = write(&mut buffer, place, kind, [0; 3]);
                        assert_eq!(next, Ok(place + record));
                    } else {
                        assert_eq!(refused(length, place, kind, [0; 3]), 12);
                    }
                }
            }
        }
    }

    #[test]
    fn what_stands_at_a_place() {
        let nothing = |number, next| Standing {
            number,
            kind: 0,
            numbers: [0; 3],
            next,
        };
        let schedule = [5, 1, 2, 3, 4, 9, 2];
        let numbers = [0x0201, 3, 4];
        let record = Standing {
            number: 0,
            kind: 5,
            numbers,
            next: 5,
        };
        assert_eq!(standing(&schedule, 0), record);
        assert_eq!(standing(&schedule, 5), nothing(8, 5));
        assert_eq!(standing(&schedule, 6), nothing(7, 6));
        for place in [7, 8, usize::MAX - 1, usize::MAX] {
            assert_eq!(standing(&schedule, place), nothing(0, place));
        }
        assert_eq!(standing(&[], 0), nothing(0, 0));
        for short in 1..5 {
            assert_eq!(standing(&schedule[..short], 0), nothing(7, 0));
        }
    }

    /// The calls that stand one behind the other from the first byte on, and what stands behind the last.
    fn taken_apart(schedule: &[u8]) -> (Vec<Plain>, Standing) {
        let mut calls = Vec::new();
        let mut place = 0;
        loop {
            let stands = standing(schedule, place);
            if stands.kind == 0 {
                return (calls, stands);
            }
            calls.push((u64::from(stands.kind), stands.numbers));
            place = stands.next;
        }
    }

    /// Writes calls one behind the other. Gives the next free place, or where and why one was refused.
    fn put_together(buffer: &mut [u8], calls: &[Plain]) -> Result<usize, (usize, Refusal)> {
        let mut place = 0;
        for &(kind, numbers) in calls {
            place = write(buffer, place, kind, numbers).map_err(|refusal| (place, refusal))?;
        }
        Ok(place)
    }

    /// Numbers that fit, often the smallest and the largest.
    fn drawn(dice: &mut Dice) -> Plain {
        let (kind, fields) = FIELDS[dice.below(7) as usize];
        let numbers = fields.map(|bytes| match dice.below(4) {
            0 => 0,
            1 => too_large(bytes) - 1,
            _ => dice.below(too_large(bytes)),
        });
        (kind, numbers)
    }

    #[test]
    fn reading_what_was_written_gives_the_same_calls() {
        let mut dice = Dice::seeded(31);
        for _ in 0..2_000 {
            let calls: Vec<Plain> = (0..dice.below(60)).map(|_| drawn(&mut dice)).collect();
            let mut buffer: Vec<u8> = (0..400).map(|_| dice.any() as u8).collect();
            let before = buffer.clone();
            let end = put_together(&mut buffer, &calls).expect("there is room");
            assert_eq!(buffer[end..], before[end..]);
            let (read, behind) = taken_apart(&buffer[..end]);
            assert_eq!(read, calls);
            assert_eq!((behind.number, behind.next), (0, end));

            // A buffer of exactly these bytes takes them all. With a byte less it takes all but the last.
            assert_eq!(put_together(&mut vec![0; end], &calls), Ok(end));
            if let Some((_, all_but_one)) = calls.split_last() {
                let mut short = vec![0xee; end - 1];
                let (place, refusal) = put_together(&mut short, &calls).expect_err("one is left");
                assert_eq!(refusal, Refusal::NoRoom);
                assert_eq!(short[..place], buffer[..place]);
                assert!(short[place..].iter().all(|&byte| byte == 0xee));
                assert_eq!(taken_apart(&short[..place]).0, all_but_one);
            }
        }
    }

    /// A schedule read and written again, up to where it ends or cannot be read on. Gives how many calls it has.
    fn written_again(schedule: &[u8]) -> usize {
        let (calls, behind) = taken_apart(schedule);
        let mut copy = vec![0xee; schedule.len()];
        assert_eq!(put_together(&mut copy, &calls), Ok(behind.next));
        assert_eq!(copy[..behind.next], schedule[..behind.next]);
        assert!(copy[behind.next..].iter().all(|&byte| byte == 0xee));
        assert_eq!(behind.number == 0, behind.next == schedule.len());
        calls.len()
    }

    #[test]
    fn writing_what_was_read_gives_the_same_bytes() {
        let mut dice = Dice::seeded(32);
        for _ in 0..20_000 {
            let schedule: Vec<u8> = (0..dice.below(80))
                .map(|_| match dice.below(8) {
                    0 => dice.any() as u8,
                    _ => 1 + dice.below(7) as u8,
                })
                .collect();
            written_again(&schedule);
        }
    }

    #[test]
    fn every_stored_schedule_is_read_and_written_again() {
        let lists = [
            cases::all(),
            cases::repaired(),
            cases::examples(),
            cases::repaired_examples(),
        ];
        let (mut schedules, mut calls) = (0, 0);
        for case in lists.iter().flatten() {
            schedules += 1;
            calls += written_again(&case.schedule);
        }
        assert!(schedules >= 120 && calls > 100_000, "{schedules} {calls}");
    }

    /// What the request says of one call, on fields set by hand: the answer, and the buffer afterwards.
    fn said(
        buffer: &[u8],
        place: usize,
        kind: u64,
        numbers: [u64; 3],
    ) -> (Result<usize, u8>, Vec<u8>) {
        let refused = |number| (Err(number), buffer.to_vec());
        let Some((_, fields)) = FIELDS.iter().find(|(known, _)| *known == kind) else {
            return refused(8);
        };
        if numbers
            .iter()
            .zip(fields)
            .any(|(&number, &bytes)| number >= too_large(bytes))
        {
            return refused(18);
        }
        let next = place as u128 + 1 + fields.iter().sum::<usize>() as u128;
        if next > buffer.len() as u128 {
            return refused(12);
        }
        let mut after = buffer.to_vec();
        let mut at = place;
        let mut put = |byte| {
            after[at] = byte;
            at += 1;
        };
        put(kind as u8);
        for (number, &bytes) in numbers.iter().zip(fields) {
            (0..bytes).for_each(|byte| put((number >> (8 * byte)) as u8));
        }
        (Ok(next as usize), after)
    }

    const KINDS: [u64; 12] = [0, 1, 2, 3, 4, 5, 6, 7, 8, 257, 261, u64::MAX];
    const NUMBERS: [u64; 7] = [0, 1, 7, 255, 256, 65_535, 65_536];
    const ROOMS: [(usize, usize); 10] = [
        (0, 0),
        (1, 0),
        (2, 0),
        (3, 1),
        (5, 0),
        (6, 1),
        (8, 2),
        (8, 8),
        (8, 9),
        (8, usize::MAX - 2),
    ];

    /// How many calls on the edges a writer gets wrong.
    fn faults(write: Write) -> usize {
        let mut dice = Dice::seeded(33);
        let mut faults = 0;
        for kind in KINDS {
            for first in NUMBERS {
                for (second, third) in NUMBERS.into_iter().flat_map(|n| NUMBERS.map(|m| (n, m))) {
                    for (length, place) in ROOMS {
                        let numbers = [first, second, third];
                        let mut buffer: Vec<u8> = (0..length).map(|_| dice.any() as u8).collect();
                        let expected = said(&buffer, place, kind, numbers);
                        let told =
                            write(&mut buffer, place, kind, numbers).map_err(Refusal::number);
                        faults += usize::from((told, buffer) != expected);
                    }
                }
            }
        }
        faults
    }

    /// Only the numbers that the kind has a field for.
    fn without_unused(kind: u64, mut numbers: [u64; 3]) -> [u64; 3] {
        if let Some((_, fields)) = FIELDS.iter().find(|(known, _)| *known == kind) {
            for (number, &bytes) in numbers.iter_mut().zip(fields) {
                *number *= u64::from(bytes > 0);
            }
        }
        numbers
    }

    /// Writers that are wrong in one way each.
    const WRONG_WRITERS: [(&str, Write); 14] = [
        ("12 before 18", |buffer, place, kind, numbers| {
            write(&mut buffer.to_vec(), place, kind, [0; 3])?;
            write(buffer, place, kind, numbers)
        }),
        ("18 before 8", |buffer, place, kind, numbers| {
            if numbers.iter().any(|&number| number > 65_535) {
                return Err(Refusal::NumberTooLarge);
            }
            write(buffer, place, kind, numbers)
        }),
        ("high byte first", |buffer, place, kind, numbers| {
            let next = write(buffer, place, kind, numbers)?;
            if matches!(kind, 1 | 4 | 5) {
                buffer.swap(place + 1, place + 2);
            }
            Ok(next)
        }),
        (
            "kind 5 with node 0 as kind 1",
            |buffer, place, kind, numbers| match (kind, numbers) {
                (5, [_, _, 0]) => write(buffer, place, 1, numbers),
                _ => write(buffer, place, kind, numbers),
            },
        ),
        (
            "a mode above 1 refused",
            |buffer, place, kind, numbers| match (kind, numbers) {
                (1 | 5, [_, mode, _]) if mode > 1 => Err(Refusal::NumberTooLarge),
                _ => write(buffer, place, kind, numbers),
            },
        ),
        (
            "a byte behind the record written",
            |buffer, place, kind, numbers| {
                let next = write(buffer, place, kind, numbers)?;
                if let Some(byte) = buffer.get_mut(next) {
                    *byte = 0;
                }
                Ok(next)
            },
        ),
        (
            "the last byte never used",
            |buffer, place, kind, numbers| {
                let length = buffer.len().saturating_sub(1);
                write(&mut buffer[..length], place, kind, numbers)
            },
        ),
        ("a place that runs over", |buffer, place, kind, numbers| {
            let length = call_of(kind, numbers)?.bytes().len();
            match place.checked_add(length) {
                Some(_) => write(buffer, place, kind, numbers),
                None => Ok(place.wrapping_add(length)),
            }
        }),
        (
            "a place past the end as the end",
            |buffer, place, kind, numbers| {
                let place = place.min(buffer.len().saturating_sub(2));
                write(buffer, place, kind, numbers)
            },
        ),
        ("the kind cut to a byte", |buffer, place, kind, numbers| {
            write(buffer, place, kind & 255, numbers)
        }),
        (
            "the first number cut to two bytes",
            |buffer, place, kind, [first, second, third]| {
                write(buffer, place, kind, [first & 65_535, second, third])
            },
        ),
        (
            "numbers without a field ignored",
            |buffer, place, kind, numbers| {
                write(buffer, place, kind, without_unused(kind, numbers))
            },
        ),
        (
            "the place that was given",
            |buffer, place, kind, numbers| write(buffer, place, kind, numbers).map(|_| place),
        ),
        (
            "the kind left behind by a refusal",
            |buffer, place, kind, numbers| {
                let told = write(buffer, place, kind, numbers);
                if let (Err(Refusal::NoRoom), Some(byte)) = (told, buffer.get_mut(place)) {
                    *byte = kind as u8;
                }
                told
            },
        ),
    ];

    #[test]
    fn the_writer_does_what_is_said_and_wrong_ones_are_found_out() {
        assert_eq!(faults(write), 0);
        for (name, wrong) in WRONG_WRITERS {
            assert!(faults(wrong) > 0, "{name}");
        }
    }
}
