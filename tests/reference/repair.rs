//! The repair program: it plays a schedule and then cares for what fenced nodes left behind.

use std::fmt::Write;

use crate::agent::Phase;
use crate::answer::Answer;
use crate::board::{Board, SLOTS};
use crate::player::played;

/// One care call: its slot, the phase that it found there, and its answer.
#[derive(Clone, Copy, Debug, PartialEq, Eq)]
pub struct Care {
    pub slot: u8,
    pub found: Phase,
    pub answer: Answer,
}

impl Care {
    /// The outcome's number, 0 if the call was refused.
    fn outcome(self) -> u8 {
        self.answer.map_or(0, |outcome| outcome.number())
    }

    /// What is printed: slot, phase before, outcome.
    pub fn numbers(self) -> [u8; 3] {
        [self.slot, self.found as u8, self.outcome()]
    }

    /// Refused, waiting and not yet clear lead no further.
    pub fn leads_further(self) -> bool {
        !matches!(self.outcome(), 0 | 3 | 9)
    }
}

/// The care call for a slot, if it is in use and of a fenced node.
pub fn care_for(board: &mut Board, at: usize) -> Option<Care> {
    let found = board.slots[at].phase();
    let lost = found != Phase::Free && board.is_fenced(at);
    lost.then(|| Care {
        slot: at as u8,
        found,
        answer: board.care(at as u64),
    })
}

/// Each of these slots once, lowest first.
pub fn pass(board: &mut Board) -> Vec<Care> {
    (0..SLOTS).filter_map(|at| care_for(board, at)).collect()
}

/// Passes up to and with the first that is done.
pub fn passes(
    board: &mut Board,
    pass: impl Fn(&mut Board) -> Vec<Care>,
    done: impl Fn(&[Care]) -> bool,
) -> Vec<Care> {
    let mut all = Vec::new();
    loop {
        let cares = pass(board);
        all.extend_from_slice(&cares);
        if done(&cares) {
            return all;
        }
    }
}

pub fn none_leads_further(cares: &[Care]) -> bool {
    !cares.iter().any(|care| care.leads_further())
}

pub fn repair(board: &mut Board) -> Vec<Care> {
    passes(board, pass, none_leads_further)
}

/// The cares after a schedule, none if it is too long to be played.
pub fn cares_after(input: &[u8]) -> Vec<Care> {
    played(input)
        .1
        .map_or(Vec::new(), |mut board| repair(&mut board))
}

/// Everything that the program prints for an input.
pub fn printed_for(input: &[u8]) -> String {
    let (mut lines, board) = played(input);
    if let Some(mut board) = board {
        for care in repair(&mut board) {
            let [slot, found, outcome] = care.numbers();
            writeln!(lines, "{slot} {found} {outcome}").expect("a string takes every line");
        }
    }
    lines
}

#[cfg(test)]
mod tests {
    use super::*;
    use crate::agent::Request;
    use crate::answer::Refusal;

    #[test]
    fn the_players_lines_come_first_and_the_end_line_counts_the_schedule_alone() {
        let schedule = [5, 0, 0, 1, 9, 2, 0, 5, 0, 0, 0, 9, 6, 9];
        let played = "1 0 1 0 0\n2 0 2 0 0\n3 0 1 1 0\n4 0 13 0 0\nend 0 4 14 1\n";
        assert_eq!(printed_for(&schedule), format!("{played}0 3 6\n1 1 12\n"));
        // A body that is cut short or a kind that does not exist ends the schedule, not the program.
        for (last, ending) in [(7, "end 7 4 14 1"), (8, "end 8 4 14 1")] {
            let stopped = printed_for(&[&schedule[..], &[last]].concat());
            assert!(stopped.ends_with(&format!("\n{ending}\n0 3 6\n1 1 12\n")));
        }
    }

    #[test]
    fn nothing_prints_its_end_line_and_too_much_prints_13() {
        assert_eq!(printed_for(&[]), "end 0 0 0 0\n");
        assert_eq!(printed_for(&[6, 0]), "1 0 13 0 0\nend 0 1 2 0\n");
        assert_eq!(printed_for(&[6; 65_537]), "end 13 0 0 0\n");
    }

    #[test]
    fn passes_go_on_while_one_care_leads_further() {
        // Three writers of node 5 in the slots 2, 1 and 0 of the queue: each pass lets one of them go and grants another.
        let opens = [5, 0, 0, 1, 5].repeat(3);
        let printed = printed_for(&[&opens[..], &[2, 2, 2, 1, 2, 0, 6, 5]].concat());
        let (_, cares) = printed.split_once("end 0 7 23 3\n").unwrap();
        let right = [
            "0 2 3", "1 2 3", "2 3 6", "0 2 3", "1 2 2", "0 2 3", "1 3 6", "0 2 2", "0 3 6", "",
        ];
        assert_eq!(cares, right.join("\n"));
    }

    #[test]
    fn a_refused_care_is_printed_and_leads_no_further() {
        let mut board = Board::lent(vec![0]);
        board.slots[3] = Request::opened(1, 0);
        board.slots[4] = Request::opened(0, 0);
        board.fence(0).unwrap();
        let numbers: Vec<[u8; 3]> = repair(&mut board)
            .iter()
            .map(|care| care.numbers())
            .collect();
        assert_eq!(numbers, [[3, 1, 0], [4, 1, 12], [3, 1, 0]]);
        assert_eq!(board.care(3), Err(Refusal::RecordNotLent));
    }
}
