//! Calls written down together with the entries that the rules call for.
//! The entries are set by hand. The reference must compute the same ones.

use crate::player::{Player, MOST_INPUT_BYTES};
use crate::repair::cares_after;
use crate::run::{Entry, RunResult};
use crate::schedule::Call;
use crate::word::Counters;

pub const READER: u8 = 0;
pub const WRITER: u8 = 1;

pub fn open(record: u16, mode: u8) -> Call {
    Call::Open { record, mode }
}

pub fn step(slot: u8) -> Call {
    Call::Step { slot }
}

pub fn release(slot: u8) -> Call {
    Call::Release { slot }
}

pub fn show(record: u16) -> Call {
    Call::Show { record }
}

pub fn open_for(node: u8, record: u16, mode: u8) -> Call {
    Call::OpenFor { record, mode, node }
}

pub fn fence(node: u8) -> Call {
    Call::Fence { node }
}

pub fn care(slot: u8) -> Call {
    Call::Care { slot }
}

const fn accepted(outcome: u8, slot: u8, value: u64) -> Entry {
    Entry {
        number: 0,
        outcome,
        slot,
        value,
    }
}

pub fn opened(slot: u8) -> Entry {
    accepted(1, slot, 0)
}

pub fn granted(slot: u8) -> Entry {
    accepted(2, slot, 0)
}

pub fn waiting(slot: u8, ahead: u64) -> Entry {
    accepted(3, slot, ahead)
}

pub fn full(slot: u8) -> Entry {
    accepted(4, slot, 0)
}

pub fn withdrawn(slot: u8) -> Entry {
    accepted(5, slot, 0)
}

pub fn released(slot: u8) -> Entry {
    accepted(6, slot, 0)
}

pub fn clearing_due(slot: u8) -> Entry {
    accepted(7, slot, 0)
}

pub fn cleared(slot: u8) -> Entry {
    accepted(8, slot, 0)
}

pub fn not_yet_clear(slot: u8) -> Entry {
    accepted(9, slot, 0)
}

pub fn shown(n_x: u16, n_s: u16, m_x: u16, m_s: u16) -> Entry {
    accepted(10, 0, Counters::new(n_x, n_s, m_x, m_s).word())
}

pub fn freed_unasked(slot: u8) -> Entry {
    accepted(12, slot, 0)
}

pub fn fenced() -> Entry {
    accepted(13, 0, 0)
}

/// A refused open or show has slot 0; a refused step, release or care has the slot that it names.
pub fn refused(number: u8, slot: u8) -> Entry {
    Entry {
        number,
        outcome: 0,
        slot,
        value: 0,
    }
}

impl Call {
    pub fn gives(self, entry: Entry) -> Line {
        Line { call: self, entry }
    }
}

/// A call and the entry that it must give.
#[derive(Clone, Copy)]
pub struct Line {
    pub call: Call,
    pub entry: Entry,
}

/// A request is opened in the slot of the entry, and its first step gives this entry.
pub fn asks(record: u16, mode: u8, told: Entry) -> [Line; 2] {
    [
        open(record, mode).gives(opened(told.slot)),
        step(told.slot).gives(told),
    ]
}

/// The same for a node.
pub fn asks_for(node: u8, record: u16, mode: u8, told: Entry) -> [Line; 2] {
    let [opened, stepped] = asks(record, mode, told);
    [open_for(node, record, mode).gives(opened.entry), stepped]
}

/// Calls in order, then bytes that are no whole record, then the ending of the whole,
/// and where it is repaired, what each care call prints: slot, phase before, outcome.
#[derive(Clone, Default)]
pub struct Script {
    pub lines: Vec<Line>,
    pub tail: Vec<u8>,
    pub ending: u8,
    pub cares: Option<Vec<[u8; 3]>>,
}

impl Script {
    pub fn of(lines: impl Into<Vec<Line>>) -> Self {
        Script {
            lines: lines.into(),
            ..Script::default()
        }
    }

    pub fn ending_with(self, tail: &[u8], ending: u8) -> Self {
        Script {
            tail: tail.to_vec(),
            ending,
            ..self
        }
    }

    pub fn repaired_by(self, cares: impl Into<Vec<[u8; 3]>>) -> Self {
        Script {
            cares: Some(cares.into()),
            ..self
        }
    }

    pub fn schedule(&self) -> Vec<u8> {
        let mut bytes: Vec<u8> = self
            .lines
            .iter()
            .flat_map(|line| line.call.bytes())
            .collect();
        bytes.extend_from_slice(&self.tail);
        bytes
    }

    fn entries(&self) -> Vec<Entry> {
        self.lines.iter().map(|line| line.entry).collect()
    }

    fn totals(&self) -> RunResult {
        let bytes: usize = self.lines.iter().map(|line| line.call.bytes().len()).sum();
        let verbs = self
            .lines
            .iter()
            .filter(|line| line.entry.sent_a_verb(line.call));
        RunResult {
            ending: self.ending,
            records: self.lines.len() as u64,
            bytes: bytes as u64,
            verbs: verbs.count() as u64,
        }
    }

    /// Plays the script on a board where something may have been played before.
    pub fn compare_on(&self, player: &mut Player) -> Result<(), String> {
        let before = player.totals();
        let mut computed = Vec::new();
        player.play(&self.schedule(), |_, entry| computed.push(entry));
        for (place, (&computed, written)) in computed.iter().zip(self.entries()).enumerate() {
            if computed != written {
                return Err(format!(
                    "record {}: computed {computed:?}, written {written:?}",
                    place + 1
                ));
            }
        }
        let (after, written) = (player.totals(), self.totals());
        let computed = RunResult {
            ending: after.ending,
            records: after.records - before.records,
            bytes: after.bytes - before.bytes,
            verbs: after.verbs - before.verbs,
        };
        if computed != written {
            return Err(format!("end: computed {computed:?}, written {written:?}"));
        }
        Ok(())
    }

    /// Compares the written entries with those that the reference computes from a fresh board.
    pub fn compare(&self) -> Result<(), String> {
        assert!(self.schedule().len() <= MOST_INPUT_BYTES);
        self.compare_on(&mut Player::on_a_fresh_board())?;
        let Some(written) = &self.cares else {
            return Ok(());
        };
        let computed: Vec<[u8; 3]> = cares_after(&self.schedule())
            .iter()
            .map(|care| care.numbers())
            .collect();
        if computed != *written {
            return Err(format!("cares: computed {computed:?}, written {written:?}"));
        }
        Ok(())
    }
}
