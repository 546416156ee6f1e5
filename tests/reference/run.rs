//! One run: records played on a board until the schedule, the allowance or the report ends.

use crate::answer::{Answer, Outcome};
use crate::board::{Board, NO_NODE_NAMED};
use crate::schedule::{Call, Next, Reader, BODY_CUT_SHORT, UNKNOWN_KIND};

pub const ENTRY_BYTES: usize = 12;

pub const COMPLETE: u8 = 0;
pub const ALLOWANCE_SPENT: u8 = 11;
pub const REPORT_FULL: u8 = 12;

/// What a report says of one call.
#[derive(Clone, Copy, Debug, PartialEq, Eq)]
pub struct Entry {
    pub number: u8,
    pub outcome: u8,
    pub slot: u8,
    pub value: u64,
}

impl Entry {
    fn of(call: Call, answer: Answer) -> Self {
        let slot = match (call, answer) {
            (Call::Step { slot } | Call::Release { slot } | Call::Care { slot }, _) => slot,
            (_, Ok(Outcome::Opened { slot })) => slot,
            _ => 0,
        };
        match answer {
            Ok(outcome) => Entry {
                number: 0,
                outcome: outcome.number(),
                slot,
                value: outcome.value(),
            },
            Err(refusal) => Entry {
                number: refusal.number(),
                outcome: 0,
                slot,
                value: 0,
            },
        }
    }

    /// Whether this entry's call sent a verb: accepted steps, releases and cares do, but for a care that freed its slot unasked.
    pub fn sent_a_verb(self, call: Call) -> bool {
        let may_send = matches!(
            call,
            Call::Step { .. } | Call::Release { .. } | Call::Care { .. }
        );
        may_send && self.number == 0 && self.outcome != Outcome::FreedUnasked.number()
    }

    pub fn bytes(self) -> [u8; ENTRY_BYTES] {
        let mut bytes = [0; ENTRY_BYTES];
        bytes[0] = self.number;
        bytes[1] = self.outcome;
        bytes[2] = self.slot;
        bytes[4..].copy_from_slice(&self.value.to_le_bytes());
        bytes
    }

    pub fn read(bytes: [u8; ENTRY_BYTES]) -> Self {
        let [number, outcome, slot, _, value @ ..] = bytes;
        Entry {
            number,
            outcome,
            slot,
            value: u64::from_le_bytes(value),
        }
    }
}

#[derive(Clone, Copy, Debug, Default, PartialEq, Eq)]
pub struct RunResult {
    pub ending: u8,
    pub records: u64,
    pub bytes: u64,
    pub verbs: u64,
}

/// Plays records from the reader's place and leaves the reader where the run ended.
/// Entries stand at the start of the report; the bytes past them stay.
pub fn run(board: &mut Board, reader: &mut Reader, allowance: u64, report: &mut [u8]) -> RunResult {
    let start = reader.place();
    let mut result = RunResult::default();
    let mut used = 0;
    result.ending = loop {
        let (call, length) = match reader.look() {
            Next::End => break COMPLETE,
            _ if result.records == allowance => break ALLOWANCE_SPENT,
            _ if report.len() - used < ENTRY_BYTES => break REPORT_FULL,
            Next::UnknownKind => break UNKNOWN_KIND,
            Next::BodyCutShort => break BODY_CUT_SHORT,
            Next::Record { call, length } => (call, length),
        };
        let entry = Entry::of(call, make(board, call));
        report[used..used + ENTRY_BYTES].copy_from_slice(&entry.bytes());
        used += ENTRY_BYTES;
        reader.pass(length);
        result.records += 1;
        result.verbs += u64::from(entry.sent_a_verb(call));
    };
    result.bytes = (reader.place() - start) as u64;
    result
}

pub fn make(board: &mut Board, call: Call) -> Answer {
    match call {
        Call::Open { record, mode } => {
            board.open(u64::from(record), u64::from(mode), NO_NODE_NAMED)
        }
        Call::Step { slot } => board.step(u64::from(slot)),
        Call::Release { slot } => board.release(u64::from(slot)),
        Call::Show { record } => board.show(u64::from(record)),
        Call::OpenFor { record, mode, node } => {
            board.open(u64::from(record), u64::from(mode), node)
        }
        Call::Fence { node } => board.fence(node),
        Call::Care { slot } => board.care(u64::from(slot)),
    }
}

#[cfg(test)]
mod tests {
    use super::*;

    const WORKED_EXAMPLE: [u8; 11] = [1, 0, 0, 1, 2, 0, 3, 0, 4, 0, 0];

    fn run_once(
        schedule: &[u8],
        place: usize,
        allowance: u64,
        room: usize,
    ) -> (RunResult, usize, Vec<u8>) {
        let mut board = Board::fresh(64).unwrap();
        let mut reader = Reader::at(schedule, place);
        let mut report = vec![0xee; room];
        let result = run(&mut board, &mut reader, allowance, &mut report);
        (result, reader.place(), report)
    }

    fn ending(schedule: &[u8], allowance: u64, room: usize) -> u8 {
        run_once(schedule, 0, allowance, room).0.ending
    }

    #[test]
    fn the_report_is_written_byte_by_byte_and_the_rest_stays() {
        let (result, place, report) = run_once(&WORKED_EXAMPLE, 0, 9, 53);
        assert_eq!(
            result,
            RunResult {
                ending: COMPLETE,
                records: 4,
                bytes: 11,
                verbs: 2
            }
        );
        assert_eq!(place, 11);
        #[rustfmt::skip]
        assert_eq!(report, [
            0, 1, 0, 0, 0, 0, 0, 0, 0, 0, 0, 0,
            0, 2, 0, 0, 0, 0, 0, 0, 0, 0, 0, 0,
            0, 6, 0, 0, 0, 0, 0, 0, 0, 0, 0, 0,
            0, 10, 0, 0, 0, 0, 1, 0, 0, 0, 1, 0,
            0xee, 0xee, 0xee, 0xee, 0xee,
        ]);
    }

    #[test]
    fn endings_are_tested_in_order() {
        let unknown = [9];
        let cut = [1];
        assert_eq!(ending(&[], 0, 0), COMPLETE);
        assert_eq!(ending(&unknown, 0, 0), ALLOWANCE_SPENT);
        assert_eq!(ending(&cut, 0, 12), ALLOWANCE_SPENT);
        assert_eq!(ending(&unknown, 1, 11), REPORT_FULL);
        assert_eq!(ending(&cut, 1, 11), REPORT_FULL);
        assert_eq!(ending(&unknown, 1, 12), UNKNOWN_KIND);
        assert_eq!(ending(&cut, 1, 12), BODY_CUT_SHORT);
        assert_eq!(ending(&WORKED_EXAMPLE, 4, 48), COMPLETE);
        assert_eq!(ending(&WORKED_EXAMPLE, 3, 36), ALLOWANCE_SPENT);
        assert_eq!(ending(&WORKED_EXAMPLE, 4, 47), REPORT_FULL);
    }

    #[test]
    fn a_run_that_stops_keeps_its_place() {
        let (result, place, _) = run_once(&[1, 0, 0, 1, 2, 0, 9], 0, 9, 99);
        assert_eq!(
            result,
            RunResult {
                ending: UNKNOWN_KIND,
                records: 2,
                bytes: 6,
                verbs: 1
            }
        );
        assert_eq!(place, 6);
        let (result, place, _) = run_once(&WORKED_EXAMPLE, 40, 0, 0);
        assert_eq!(result, RunResult::default());
        assert_eq!(place, 40);
    }

    #[test]
    fn a_refused_call_is_a_record_and_sends_no_verb() {
        let (result, _, report) = run_once(&[2, 5, 3, 6, 1, 64, 0, 0], 0, 9, 99);
        assert_eq!(
            result,
            RunResult {
                ending: COMPLETE,
                records: 3,
                bytes: 8,
                verbs: 0
            }
        );
        assert_eq!(report[..4], [4, 0, 5, 0]);
        assert_eq!(report[12..16], [4, 0, 6, 0]);
        assert_eq!(report[24..28], [2, 0, 0, 0]);
    }

    #[test]
    fn a_care_is_a_verb_unless_it_frees_unasked() {
        let opens = [5, 0, 0, 1, 3].repeat(3);
        let calls = [2, 0, 2, 1, 6, 3, 7, 2, 7, 2, 7, 1, 7, 0, 3, 1];
        let (result, _, report) = run_once(&[&opens[..], &calls].concat(), 0, 99, 999);
        assert_eq!(
            result,
            RunResult {
                ending: COMPLETE,
                records: 11,
                bytes: 31,
                verbs: 4
            }
        );
        let entries: Vec<&[u8]> = report.chunks_exact(ENTRY_BYTES).skip(5).take(6).collect();
        #[rustfmt::skip]
        assert_eq!(entries, [
            [0, 13, 0, 0, 0, 0, 0, 0, 0, 0, 0, 0],
            [0, 12, 2, 0, 0, 0, 0, 0, 0, 0, 0, 0],
            [4, 0, 2, 0, 0, 0, 0, 0, 0, 0, 0, 0],
            [0, 3, 1, 0, 1, 0, 0, 0, 0, 0, 0, 0],
            [0, 6, 0, 0, 0, 0, 0, 0, 0, 0, 0, 0],
            [15, 0, 1, 0, 0, 0, 0, 0, 0, 0, 0, 0],
        ]);
    }
}
