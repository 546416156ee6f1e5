//! Random schedules. The same seed always gives the same bytes.

use crate::agent::Phase;
use crate::board::{Board, SLOTS};
use crate::dice::Dice;
use crate::player::WORDS;
use crate::run::run;
use crate::schedule::{Call, Reader};

/// What happens to the bytes after they are drawn.
#[derive(Clone, Copy, Debug, PartialEq, Eq)]
pub enum Damage {
    None,
    ChangedBytes(u64),
    CutShort,
}

/// How a random schedule is drawn.
#[derive(Clone, Copy, Debug)]
pub struct Plan {
    pub seed: u64,
    pub length: usize,
    pub records: u64,
    pub writers_in_eight: u64,
    pub most_in_use: usize,
    pub wrong_calls_in_sixteen: u64,
    /// Nodes that open requests and are lost now and then. With 0 no call names a node or cares for a slot.
    pub nodes: u64,
    pub damage: Damage,
}

impl Plan {
    /// Draws calls while following them on a board, so that most of them fit the phases.
    pub fn schedule(&self) -> Vec<u8> {
        let mut dice = Dice::seeded(self.seed);
        let mut board = Board::fresh(WORDS).expect("64 words are accepted");
        let mut schedule = Vec::new();
        loop {
            let call = if dice.below(16) < self.wrong_calls_in_sixteen {
                self.wrong_call(&mut dice)
            } else {
                self.fitting_call(&mut dice, &board)
            };
            let bytes = call.bytes();
            if schedule.len() + bytes.len() > self.length {
                break;
            }
            run(&mut board, &mut Reader::at(&bytes, 0), 1, &mut [0; 12]);
            schedule.extend_from_slice(&bytes);
        }
        self.damaged(schedule, &mut dice)
    }

    fn fitting_call(&self, dice: &mut Dice, board: &Board) -> Call {
        let in_use = board.slots_in_use();
        if self.nodes > 0 && dice.one_in(40) {
            return Call::Fence {
                node: dice.below(self.nodes) as u8,
            };
        }
        if in_use == 0 || (in_use < self.most_in_use && dice.one_in(3)) {
            let mode = u8::from(dice.below(8) < self.writers_in_eight);
            let record = dice.below(self.records) as u16;
            return self.open(dice, board, record, mode);
        }
        if dice.one_in(12) {
            return Call::Show {
                record: dice.below(self.records) as u16,
            };
        }
        let phase_of = |slot: u8| board.slots[usize::from(slot)].phase();
        let skipped = dice.below(in_use as u64) as usize;
        let slot = (0..=255)
            .filter(|&slot| phase_of(slot) != Phase::Free)
            .nth(skipped)
            .expect("fewer slots are skipped than are in use");
        if self.nodes > 0 && board.is_fenced(usize::from(slot)) != dice.one_in(12) {
            return Call::Care { slot };
        }
        match phase_of(slot) {
            Phase::Held => Call::Release { slot },
            _ => Call::Step { slot },
        }
    }

    /// By one of the nodes, or mostly by another where that one is lost.
    fn open(&self, dice: &mut Dice, board: &Board, record: u16, mode: u8) -> Call {
        if self.nodes == 0 || dice.one_in(4) {
            return Call::Open { record, mode };
        }
        let one = dice.below(self.nodes) as u8;
        let lost = board.fenced[usize::from(one)] && !dice.one_in(8);
        let node = if lost { dice.below(256) as u8 } else { one };
        Call::OpenFor { record, mode, node }
    }

    fn damaged(&self, mut schedule: Vec<u8>, dice: &mut Dice) -> Vec<u8> {
        let length = schedule.len() as u64;
        match self.damage {
            Damage::None => {}
            Damage::ChangedBytes(times) => {
                for _ in 0..times {
                    let at = length / 2 + dice.below(length - length / 2);
                    let most_added = if dice.one_in(2) { 4 } else { 255 };
                    let added = 1 + dice.below(most_added) as u8;
                    schedule[at as usize] = schedule[at as usize].wrapping_add(added);
                }
            }
            Damage::CutShort => {
                // The last record stays without its last byte.
                schedule.pop();
            }
        }
        schedule
    }

    /// A call drawn without looking: it may fit all the same.
    fn wrong_call(&self, dice: &mut Dice) -> Call {
        let any_byte = dice.below(SLOTS as u64) as u8;
        let far_record = dice.below(1 << 16) as u16;
        match dice.below(if self.nodes == 0 { 8 } else { 12 }) {
            0 => Call::Open {
                record: far_record,
                mode: any_byte % 3,
            },
            1 => Call::Open {
                record: 0,
                mode: any_byte,
            },
            2 => Call::Show { record: far_record },
            3 => Call::Step { slot: any_byte },
            4 => Call::Release { slot: any_byte },
            5 => Call::Step { slot: any_byte % 8 },
            6 | 7 => Call::Release { slot: any_byte % 8 },
            8 => Call::OpenFor {
                record: far_record,
                mode: any_byte % 3,
                node: any_byte % 4,
            },
            9 => Call::OpenFor {
                record: 0,
                mode: any_byte % 3,
                node: any_byte,
            },
            10 => Call::Fence { node: any_byte },
            _ => Call::Care { slot: any_byte % 8 },
        }
    }
}

/// Forty schedules from 10 to 3,000 bytes, from one crowded record to many quiet ones; then some in which nodes are lost.
pub fn plans() -> Vec<Plan> {
    let lost = (0..6).map(|at| Plan {
        seed: 2_000 + at,
        length: 150 + 500 * at as usize,
        records: [1, 2, 1, 3][at as usize % 4],
        writers_in_eight: [4, 2, 6][at as usize % 3],
        most_in_use: [6, 12, 40, 256][at as usize % 4],
        wrong_calls_in_sixteen: at % 3,
        nodes: [3, 2, 1, 8][at as usize % 4],
        damage: match at {
            4 => Damage::ChangedBytes(2),
            5 => Damage::CutShort,
            _ => Damage::None,
        },
    });
    (0..40)
        .map(|at| Plan {
            seed: 1_000 + at,
            length: 13 + (2_987 * at / 39) as usize,
            records: [1, 2, 3, 5][at as usize % 4],
            writers_in_eight: [4, 1, 2, 6, 8, 0, 3][at as usize % 7],
            most_in_use: [6, 12, 3, 40, 256][at as usize % 5],
            wrong_calls_in_sixteen: [1, 4, 0][at as usize % 3],
            nodes: 0,
            damage: match at % 8 {
                3 | 5 => Damage::ChangedBytes(1 + at / 10),
                6 => Damage::CutShort,
                _ => Damage::None,
            },
        })
        .chain(lost)
        .collect()
}

#[cfg(test)]
mod tests {
    use super::*;

    #[test]
    fn the_same_plan_draws_the_same_bytes() {
        for plan in plans() {
            let schedule = plan.schedule();
            assert_eq!(schedule, plan.schedule());
            assert!(schedule.len() <= plan.length && schedule.len() + 6 > plan.length);
        }
    }
}
