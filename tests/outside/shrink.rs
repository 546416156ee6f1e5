//! Makes a schedule shorter while it still shows what it shows: parts are left out, halves first, then single records.
//! A step, a release or a care is kept as one of the request that it meant, so that it follows its request into another slot.

use crate::agent::Phase;
use crate::answer::Outcome;
use crate::board::Board;
use crate::player::WORDS;
use crate::run::make;
use crate::schedule::{Call, Next, Reader};

#[derive(Clone, Copy)]
enum Of {
    /// The request of this open, by its place among the parts.
    Opened(usize),
    Slot(u8),
}

#[derive(Clone, Copy)]
enum Part {
    /// A call that names no slot.
    Call(Call),
    Step(Of),
    Release(Of),
    Care(Of),
    /// A byte behind the last whole record.
    Byte(u8),
}

/// Which open each slot in use belongs to.
struct Traced {
    board: Board,
    opened_by: [usize; 256],
}

impl Traced {
    fn new() -> Self {
        Traced {
            board: Board::fresh(WORDS).expect("64 words are accepted"),
            opened_by: [0; 256],
        }
    }

    fn of(&self, slot: u8) -> Of {
        match self.board.slots[usize::from(slot)].phase() {
            Phase::Free => Of::Slot(slot),
            _ => Of::Opened(self.opened_by[usize::from(slot)]),
        }
    }

    fn slot(&self, of: Of) -> Option<u8> {
        match of {
            Of::Slot(slot) => Some(slot),
            Of::Opened(by) => (0..=255).find(|&slot| {
                let at = usize::from(slot);
                self.board.slots[at].phase() != Phase::Free && self.opened_by[at] == by
            }),
        }
    }

    fn make(&mut self, call: Call, at: usize) {
        if let Ok(Outcome::Opened { slot }) = make(&mut self.board, call) {
            self.opened_by[usize::from(slot)] = at;
        }
    }
}

fn parts_of(schedule: &[u8]) -> Vec<(usize, Part)> {
    let mut traced = Traced::new();
    let mut reader = Reader::at(schedule, 0);
    let mut parts = Vec::new();
    while let Next::Record { call, length } = reader.look() {
        let part = match call {
            Call::Step { slot } => Part::Step(traced.of(slot)),
            Call::Release { slot } => Part::Release(traced.of(slot)),
            Call::Care { slot } => Part::Care(traced.of(slot)),
            _ => Part::Call(call),
        };
        traced.make(call, parts.len());
        parts.push((parts.len(), part));
        reader.pass(length);
    }
    for &byte in &schedule[reader.place().min(schedule.len())..] {
        parts.push((parts.len(), Part::Byte(byte)));
    }
    parts
}

/// The bytes of some of the parts. Steps, releases and cares of requests that are not there are left out.
fn bytes_of(parts: &[(usize, Part)]) -> Vec<u8> {
    let mut traced = Traced::new();
    let mut bytes = Vec::new();
    for &(at, part) in parts {
        let call = match part {
            Part::Call(call) => Some(call),
            Part::Step(of) => traced.slot(of).map(|slot| Call::Step { slot }),
            Part::Release(of) => traced.slot(of).map(|slot| Call::Release { slot }),
            Part::Care(of) => traced.slot(of).map(|slot| Call::Care { slot }),
            Part::Byte(byte) => {
                bytes.push(byte);
                None
            }
        };
        if let Some(call) = call {
            bytes.extend_from_slice(&call.bytes());
            traced.make(call, at);
        }
    }
    bytes
}

/// The shortest schedule found for which the test still holds. It tries at most so many.
pub fn shrunk(schedule: &[u8], mut tries: u32, mut holds: impl FnMut(&[u8]) -> bool) -> Vec<u8> {
    let mut best = schedule.to_vec();
    loop {
        let mut parts = parts_of(&best);
        let before = best.len();
        let mut size = parts.len().div_ceil(2).max(1);
        loop {
            // From the end, so that what comes after a difference goes first.
            let mut end = parts.len();
            while end > 0 && tries > 0 {
                let start = end.saturating_sub(size);
                let fewer = [&parts[..start], &parts[end..]].concat();
                let bytes = bytes_of(&fewer);
                tries -= 1;
                if bytes.len() < best.len() && holds(&bytes) {
                    best = bytes;
                    parts = fewer;
                }
                end = start;
            }
            if size == 1 {
                break;
            }
            size = size.div_ceil(2);
        }
        if best.len() == before || tries == 0 {
            return best;
        }
    }
}
