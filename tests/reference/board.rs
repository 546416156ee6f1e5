//! The board: lock words, 256 request slots with their nodes, and the fences, all changed in place.
//! It finds the request and the word, sends the verb, and hands the result to the request.

use crate::agent::{Phase, Request};
use crate::answer::{Answer, Outcome, Refusal};
use crate::word::Verb;

pub const SLOTS: usize = 256;

/// The nodes that there are: a node is one byte.
pub const NODES: usize = 256;

/// The node of a slot that is opened without one, and of every slot that becomes free.
pub const NO_NODE_NAMED: u8 = 0;

/// The largest number of words that a board works on.
pub const MOST_WORDS: usize = 4_096;

#[derive(Clone)]
pub struct Board {
    pub words: Vec<u64>,
    pub slots: [Request; SLOTS],
    /// The node of each slot.
    pub nodes: [u8; SLOTS],
    /// Whether each node is fenced.
    pub fenced: [bool; NODES],
}

impl Board {
    /// A board on words as they are. No begin has been made on it.
    pub fn lent(words: Vec<u64>) -> Self {
        Board {
            words,
            slots: [Request::FREE; SLOTS],
            nodes: [NO_NODE_NAMED; SLOTS],
            fenced: [false; NODES],
        }
    }

    /// A fresh board.
    pub fn fresh(number_of_words: usize) -> Result<Self, Refusal> {
        let mut board = Board::lent(vec![0; number_of_words]);
        board.begin()?;
        Ok(board)
    }

    pub fn begin(&mut self) -> Result<(), Refusal> {
        if self.words.is_empty() || self.words.len() > MOST_WORDS {
            return Err(Refusal::WrongNumberOfWords);
        }
        self.words.fill(0);
        *self = Board::lent(std::mem::take(&mut self.words));
        Ok(())
    }

    pub fn open(&mut self, record: u64, mode: u64, node: u8) -> Answer {
        self.word(record)?;
        if mode > 1 {
            return Err(Refusal::NeitherReaderNorWriter);
        }
        if self.fenced[usize::from(node)] {
            return Err(Refusal::OpenByAFencedNode);
        }
        let lowest_free = self
            .slots
            .iter()
            .position(|request| request.phase() == Phase::Free);
        let at = lowest_free.ok_or(Refusal::AllSlotsInUse)?;
        self.slots[at] = Request::opened(record as u16, mode as u8);
        self.nodes[at] = node;
        Ok(Outcome::Opened { slot: at as u8 })
    }

    pub fn step(&mut self, slot: u64) -> Answer {
        let at = self.slot_of_an_unfenced_node(slot)?;
        let returned = self.send(at, self.slots[at].step_verb())?;
        self.hand_over(at, |request| request.step_take(returned))
    }

    pub fn release(&mut self, slot: u64) -> Answer {
        let at = self.slot_of_an_unfenced_node(slot)?;
        let returned = self.send(at, self.slots[at].release_verb())?;
        self.hand_over(at, |request| request.release_take(returned))
    }

    /// From now until begin the node sends no verb of its own. It may be fenced already.
    pub fn fence(&mut self, node: u8) -> Answer {
        self.fenced[usize::from(node)] = true;
        Ok(Outcome::Fenced)
    }

    /// Does for a slot of a fenced node what the node would have to do next. Where nothing is sent the record must be lent all the same.
    pub fn care(&mut self, slot: u64) -> Answer {
        let at = self.slot_in_use(slot)?;
        if !self.is_fenced(at) {
            return Err(Refusal::SlotOfAnUnfencedNode);
        }
        let verb = self.slots[at].care_verb();
        let word = self.word(u64::from(self.slots[at].record))?;
        let returned = verb.map_or(0, |verb| verb.send(word));
        self.hand_over(at, |request| request.care_take(returned))
    }

    pub fn show(&mut self, record: u64) -> Answer {
        Ok(Outcome::Shown {
            word: *self.word(record)?,
        })
    }

    pub fn slots_in_use(&self) -> usize {
        self.slots
            .iter()
            .filter(|request| request.phase() != Phase::Free)
            .count()
    }

    /// Whether the node of this slot is fenced.
    pub fn is_fenced(&self, at: usize) -> bool {
        self.fenced[usize::from(self.nodes[at])]
    }

    /// A request takes its result. A slot that becomes free forgets its node.
    fn hand_over(&mut self, at: usize, take: impl FnOnce(&mut Request) -> Answer) -> Answer {
        let answer = take(&mut self.slots[at]);
        if self.slots[at].phase() == Phase::Free {
            self.nodes[at] = NO_NODE_NAMED;
        }
        answer
    }

    fn slot_of_an_unfenced_node(&self, slot: u64) -> Result<usize, Refusal> {
        let at = self.slot_in_use(slot)?;
        if self.is_fenced(at) {
            return Err(Refusal::SlotOfAFencedNode);
        }
        Ok(at)
    }

    fn slot_in_use(&self, slot: u64) -> Result<usize, Refusal> {
        if slot >= SLOTS as u64 {
            return Err(Refusal::SlotAbove255);
        }
        let at = slot as usize;
        match self.slots[at].phase() {
            Phase::Free => Err(Refusal::SlotFree),
            _ => Ok(at),
        }
    }

    /// Sends a slot's verb to the word of its record. A phase without a verb is refused before the record is looked at.
    fn send(&mut self, at: usize, verb: Option<Verb>) -> Result<u64, Refusal> {
        let verb = verb.ok_or(Refusal::WrongPhase)?;
        let record = u64::from(self.slots[at].record);
        Ok(verb.send(self.word(record)?))
    }

    /// The word of a record. Words past the 4,096th are out of reach.
    fn word(&mut self, record: u64) -> Result<&mut u64, Refusal> {
        let reach = self.words.len().min(MOST_WORDS) as u64;
        if record >= reach {
            return Err(Refusal::RecordNotLent);
        }
        Ok(&mut self.words[record as usize])
    }
}

#[cfg(test)]
mod tests {
    use super::*;
    use crate::word::Counters;

    #[test]
    fn begin_refuses_no_words_and_too_many_and_then_changes_nothing() {
        for number_of_words in [0, 4_097, 5_000] {
            let mut board = Board::lent(vec![3; number_of_words]);
            board.slots[4].phase = 77;
            board.nodes[4] = 9;
            board.fence(9).unwrap();
            assert_eq!(board.begin(), Err(Refusal::WrongNumberOfWords));
            assert!(board.words.iter().all(|&word| word == 3));
            assert_eq!((board.slots[4].phase, board.nodes[4]), (77, 9));
            assert!(board.fenced[9]);
        }
        for number_of_words in [1, 4_096] {
            let mut board = Board::lent(vec![3; number_of_words]);
            board.slots[4].phase = 77;
            board.nodes[4] = 9;
            board.fence(9).unwrap();
            assert_eq!(board.begin(), Ok(()));
            assert_eq!(board.words, vec![0; number_of_words]);
            assert_eq!(board.slots, [Request::FREE; SLOTS]);
            assert_eq!(board.nodes, [0; SLOTS]);
            assert_eq!(board.fenced, [false; NODES]);
        }
    }

    #[test]
    fn records_that_are_not_lent_are_refused() {
        let mut none = Board::lent(vec![]);
        assert_eq!(none.open(0, 9, 0), Err(Refusal::RecordNotLent));
        assert_eq!(none.show(0), Err(Refusal::RecordNotLent));

        let mut many = Board::lent(vec![8; 5_000]);
        assert_eq!(many.show(4_095), Ok(Outcome::Shown { word: 8 }));
        assert_eq!(many.show(4_096), Err(Refusal::RecordNotLent));
        assert_eq!(many.open(4_095, 1, 0), Ok(Outcome::Opened { slot: 0 }));
        assert_eq!(many.open(4_096, 1, 0), Err(Refusal::RecordNotLent));
        assert_eq!(many.open(u64::MAX, 1, 0), Err(Refusal::RecordNotLent));
        assert_eq!(many.open(0, 256, 0), Err(Refusal::NeitherReaderNorWriter));
    }

    #[test]
    fn refusals_of_step_and_release_come_in_order() {
        let mut board = Board::fresh(2).unwrap();
        let far = Request {
            record: 2,
            ..Request::opened(0, 1)
        };
        board.slots[0] = Request { phase: 77, ..far };
        board.slots[1] = Request {
            phase: Phase::Held as u8,
            ..far
        };
        board.slots[2] = far;
        let before = board.slots;

        for slot in [256, 257, u64::MAX] {
            assert_eq!(board.step(slot), Err(Refusal::SlotAbove255));
            assert_eq!(board.release(slot), Err(Refusal::SlotAbove255));
        }
        assert_eq!(board.step(0), Err(Refusal::SlotFree));
        assert_eq!(board.release(0), Err(Refusal::SlotFree));
        assert_eq!(board.step(1), Err(Refusal::WrongPhase));
        assert_eq!(board.release(1), Err(Refusal::RecordNotLent));
        assert_eq!(board.step(2), Err(Refusal::RecordNotLent));
        assert_eq!(board.release(2), Err(Refusal::WrongPhase));
        assert_eq!(board.slots, before);
        assert_eq!(board.words, [0, 0]);
    }

    #[test]
    fn two_hundred_and_fifty_six_opens_are_accepted_and_the_next_gets_6() {
        let mut board = Board::fresh(64).unwrap();
        for slot in 0..=255 {
            assert_eq!(board.slots_in_use(), usize::from(slot));
            assert_eq!(board.open(0, 0, 0), Ok(Outcome::Opened { slot }));
        }
        assert_eq!(board.slots_in_use(), 256);
        let refused = board.open(0, 0, 0).unwrap_err();
        assert_eq!(refused.number(), 6);
    }

    #[test]
    fn a_slot_with_any_other_phase_number_is_opened_as_a_free_one() {
        let mut board = Board::fresh(1).unwrap();
        board.slots = [Request::opened(0, 0); SLOTS];
        board.slots[200] = Request {
            phase: 6,
            clearing_word: 9,
            ..Request::opened(5, 1)
        };
        assert_eq!(board.slots_in_use(), 255);
        assert_eq!(board.open(0, 1, 0), Ok(Outcome::Opened { slot: 200 }));
        assert_eq!(board.slots[200], Request::opened(0, 1));
    }

    #[test]
    fn the_slow_reader_is_still_granted() {
        let mut board = Board::fresh(64).unwrap();
        for mode in [1, 0, 0] {
            board.open(0, mode, 0).unwrap();
        }
        assert_eq!(board.step(0), Ok(Outcome::Granted));
        assert_eq!(board.step(1), Ok(Outcome::Waiting { ahead: 1 }));
        assert_eq!(board.step(2), Ok(Outcome::Waiting { ahead: 1 }));
        assert_eq!(board.release(0), Ok(Outcome::Released));
        assert_eq!(board.step(2), Ok(Outcome::Granted));
        assert_eq!(board.release(2), Ok(Outcome::Released));
        assert_eq!(board.words[0], Counters::new(1, 1, 1, 2).word());
        assert_eq!(board.step(1), Ok(Outcome::Granted));
    }

    /// Slots of node 1 and, from 8 on, of node 2 in each phase; of the records 0 and 1 only 0 is lent. The phases 0 and 6 are free.
    fn board_of_two_nodes() -> Board {
        let mut board = Board::fresh(1).unwrap();
        for phase in 0..=6 {
            for (at, node) in [(0, 1), (8, 2)] {
                for record in [0, 1] {
                    let at = usize::from(at + phase + 16 * record as u8);
                    board.slots[at] = Request {
                        phase,
                        clearing_word: 9,
                        ..Request::opened(record, 1)
                    };
                    board.nodes[at] = node;
                }
            }
        }
        board
    }

    /// All that a board keeps.
    fn kept(board: &Board) -> (Vec<u64>, [Request; SLOTS], [u8; SLOTS], [bool; NODES]) {
        (board.words.clone(), board.slots, board.nodes, board.fenced)
    }

    #[test]
    fn a_fenced_node_comes_after_a_free_slot_and_before_a_wrong_phase_and_a_record() {
        let mut board = board_of_two_nodes();
        board.fence(1).unwrap();
        let before = kept(&board);
        for slot in [0, 6, 8, 14, 16, 22, 255] {
            assert_eq!(board.step(slot), Err(Refusal::SlotFree));
            assert_eq!(board.release(slot), Err(Refusal::SlotFree));
            assert_eq!(board.care(slot), Err(Refusal::SlotFree));
        }
        for slot in (1..=5).chain(17..=21) {
            assert_eq!(board.step(slot), Err(Refusal::SlotOfAFencedNode));
            assert_eq!(board.release(slot), Err(Refusal::SlotOfAFencedNode));
        }
        // Node 2 is refused for its phase, then for its record, and is not cared for in any phase.
        assert_eq!(board.step(11), Err(Refusal::WrongPhase));
        assert_eq!(board.step(27), Err(Refusal::WrongPhase));
        assert_eq!(board.release(27), Err(Refusal::RecordNotLent));
        assert_eq!(board.step(26), Err(Refusal::RecordNotLent));
        for slot in (9..=13).chain(25..=29) {
            assert_eq!(board.care(slot), Err(Refusal::SlotOfAnUnfencedNode));
        }
        // A care never finds a wrong phase, and the record is asked for in every phase.
        for slot in 17..=21 {
            assert_eq!(board.care(slot), Err(Refusal::RecordNotLent));
        }
        for slot in [256, u64::MAX] {
            assert_eq!(board.care(slot), Err(Refusal::SlotAbove255));
        }
        assert_eq!(kept(&board), before);
    }

    #[test]
    fn opens_are_refused_in_order() {
        let mut board = Board::fresh(1).unwrap();
        board.slots = [Request::opened(0, 0); SLOTS];
        board.fence(255).unwrap();
        let before = kept(&board);
        assert_eq!(board.open(1, 2, 255), Err(Refusal::RecordNotLent));
        assert_eq!(board.open(0, 2, 255), Err(Refusal::NeitherReaderNorWriter));
        assert_eq!(board.open(0, 1, 255), Err(Refusal::OpenByAFencedNode));
        assert_eq!(board.open(0, 1, 254), Err(Refusal::AllSlotsInUse));
        assert_eq!(kept(&board), before);
        board.slots[7].phase = 6;
        assert_eq!(board.open(0, 1, 254), Ok(Outcome::Opened { slot: 7 }));
        assert_eq!(board.nodes[7], 254);
    }

    #[test]
    fn a_care_does_what_the_phase_asks_for_and_a_freed_slot_forgets_its_node() {
        for (at, found, outcome, left) in [
            (1usize, 0, Outcome::FreedUnasked, 0),
            (2, 0, Outcome::Granted, 0),
            (2, 1 << 48, Outcome::Passed, 1 << 48),
            (3, 0, Outcome::ClearingDue, 1 << 48),
            (4, 1 << 16, Outcome::Withdrawn, 0),
            (5, 9, Outcome::Cleared, 0),
            (5, 8, Outcome::NotYetClear, 8),
        ] {
            let mut board = board_of_two_nodes();
            board.words[0] = found;
            board.fence(1).unwrap();
            assert_eq!(board.care(at as u64), Ok(outcome));
            assert_eq!(board.words[0], left);
            match board.slots[at].phase() {
                Phase::Free => assert_eq!((board.slots[at], board.nodes[at]), (Request::FREE, 0)),
                _ => assert_eq!(board.nodes[at], 1),
            }
        }
        let mut board = board_of_two_nodes();
        board.slots[3].clearing_word = 0;
        assert_eq!(board.release(3), Ok(Outcome::Released));
        assert_eq!((board.slots[3], board.nodes[3]), (Request::FREE, 0));
        assert_eq!(board.step(4), Ok(Outcome::Withdrawn));
        assert_eq!((board.slots[4], board.nodes[4]), (Request::FREE, 0));
    }

    #[test]
    fn a_fence_changes_nothing_else_and_may_be_set_again() {
        let mut board = board_of_two_nodes();
        let before = kept(&board);
        for _ in 0..2 {
            assert_eq!(board.fence(200), Ok(Outcome::Fenced));
            let (words, slots, nodes, fenced) = kept(&board);
            assert_eq!(
                (words, slots, nodes),
                (before.0.clone(), before.1, before.2)
            );
            assert!((0..NODES).all(|node| fenced[node] == (node == 200)));
        }
    }
}
