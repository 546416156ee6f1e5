//! The player: schedules on a fresh board of 64 words, in as many runs as the buffers need,
//! and the lines that it prints.

use std::fmt::Write;

use crate::answer::Refusal;
use crate::board::Board;
use crate::run::{run, Entry, RunResult, ALLOWANCE_SPENT, ENTRY_BYTES, REPORT_FULL};
use crate::schedule::Reader;

pub const WORDS: usize = 64;

/// The longest schedule that the program plays.
pub const MOST_INPUT_BYTES: usize = 65_536;

/// How much one run may do. The printed lines do not depend on it.
#[derive(Clone, Copy)]
pub struct Buffers {
    pub allowance: u64,
    pub report_bytes: usize,
}

const BUFFERS: Buffers = Buffers {
    allowance: 1_000,
    report_bytes: 700 * ENTRY_BYTES,
};

/// A board, and what has been played on it so far. The ending is that of the last schedule.
#[derive(Clone)]
pub struct Player {
    board: Board,
    buffers: Buffers,
    totals: RunResult,
}

impl Player {
    pub fn on_a_fresh_board() -> Self {
        Player::with_buffers(BUFFERS)
    }

    fn with_buffers(buffers: Buffers) -> Self {
        let board = Board::fresh(WORDS).expect("64 words are accepted");
        Player {
            board,
            buffers,
            totals: RunResult::default(),
        }
    }

    /// Begins the board anew with the first of its words. It has all of them afterwards, and the totals stay.
    pub fn begin_with(&mut self, number_of_words: usize) -> Result<(), Refusal> {
        let not_lent = self.board.words.split_off(number_of_words);
        let begun = self.board.begin();
        self.board.words.extend(not_lent);
        begun
    }

    pub fn totals(&self) -> RunResult {
        self.totals
    }

    /// Plays a schedule and hands out each entry with its count over all schedules.
    pub fn play(&mut self, schedule: &[u8], mut on_entry: impl FnMut(u64, Entry)) {
        let mut reader = Reader::at(schedule, 0);
        let mut report = vec![0; self.buffers.report_bytes];
        loop {
            let result = run(
                &mut self.board,
                &mut reader,
                self.buffers.allowance,
                &mut report,
            );
            for entry in report
                .chunks_exact(ENTRY_BYTES)
                .take(result.records as usize)
            {
                self.totals.records += 1;
                on_entry(
                    self.totals.records,
                    Entry::read(entry.try_into().expect("12 bytes")),
                );
            }
            self.totals.bytes += result.bytes;
            self.totals.verbs += result.verbs;
            self.totals.ending = result.ending;
            if !matches!(result.ending, ALLOWANCE_SPENT | REPORT_FULL) {
                return;
            }
        }
    }

    pub fn play_silently(&mut self, schedule: &[u8]) {
        self.play(schedule, |_, _| ());
    }

    pub fn play_aloud(&mut self, schedule: &[u8], lines: &mut String) {
        self.play(
            schedule,
            |count,
             Entry {
                 number,
                 outcome,
                 slot,
                 value,
             }| {
                writeln!(lines, "{count} {number} {outcome} {slot} {value}")
                    .expect("a string takes every line");
            },
        );
    }

    pub fn board(self) -> Board {
        self.board
    }

    pub fn end_line(&self) -> String {
        let RunResult {
            ending,
            records,
            bytes,
            verbs,
        } = self.totals;
        format!("end {ending} {records} {bytes} {verbs}\n")
    }
}

/// The lines for an input, and the board that it leaves. With too long an input nothing is played.
pub fn played(input: &[u8]) -> (String, Option<Board>) {
    if input.len() > MOST_INPUT_BYTES {
        return ("end 13 0 0 0\n".to_owned(), None);
    }
    let mut player = Player::on_a_fresh_board();
    let mut lines = String::new();
    player.play_aloud(input, &mut lines);
    lines += &player.end_line();
    (lines, Some(player.board()))
}

/// Everything that the program prints for an input.
pub fn printed_for(input: &[u8]) -> String {
    played(input).0
}

#[cfg(test)]
mod tests {
    use super::*;
    use crate::cases;

    #[test]
    fn the_worked_example_prints_its_five_lines() {
        let printed = printed_for(&[1, 0, 0, 1, 2, 0, 3, 0, 4, 0, 0]);
        assert_eq!(
            printed,
            "1 0 1 0 0\n2 0 2 0 0\n3 0 6 0 0\n4 0 10 0 281474976776192\nend 0 4 11 2\n"
        );
    }

    #[test]
    fn nothing_prints_its_end_line_and_too_much_prints_13() {
        assert_eq!(printed_for(&[]), "end 0 0 0 0\n");
        assert_eq!(printed_for(&vec![4; 65_537]), "end 13 0 0 0\n");
        assert!(printed_for(&vec![4; 65_536]).ends_with("end 7 21845 65535 0\n"));
    }

    #[test]
    fn the_buffers_do_not_show_in_the_lines() {
        for case in cases::all()
            .iter()
            .filter(|case| case.schedule.len() < 10_000)
        {
            let expected = printed_for(&case.schedule);
            for (allowance, report_bytes) in [
                (1, 12),
                (1, 50),
                (3, 12),
                (2, 47),
                (7, 1_000),
                (u64::MAX, 131),
            ] {
                let mut player = Player::with_buffers(Buffers {
                    allowance,
                    report_bytes,
                });
                let mut lines = String::new();
                player.play_aloud(&case.schedule, &mut lines);
                assert_eq!(lines + &player.end_line(), expected, "{}", case.name);
            }
        }
    }
}
