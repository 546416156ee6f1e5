//! One request: what it sends next, and what it becomes when the result arrives.
//! The result may be any 64-bit number. Nothing here knows of slots or of lent words.

use crate::answer::{Answer, Outcome, Refusal};
use crate::word::{
    Counters, Exclusive, Shared, Verb, CEIL, ONE_MORE_M_S, ONE_MORE_M_X, ONE_MORE_N_S, ONE_MORE_N_X,
};

/// The last ticket below the ceiling. Who draws it clears the record later.
const LAST_TICKET: u16 = CEIL - 1;

const NO_CLEARING_WORD: u64 = 0;

/// A mode as a rule reads it.
#[derive(Clone, Copy, Debug, PartialEq, Eq)]
pub enum Mode {
    Reader,
    Writer,
}

/// A phase as a rule reads it. The numbers are those that a request keeps.
#[derive(Clone, Copy, Debug, PartialEq, Eq)]
#[repr(u8)]
pub enum Phase {
    Free = 0,
    Asking = 1,
    Waiting = 2,
    Held = 3,
    Owing = 4,
    Clearing = 5,
}

#[derive(Clone, Copy, Debug, PartialEq, Eq)]
pub struct Ticket {
    pub x: Exclusive,
    pub s: Shared,
}

/// A request as it is kept. Mode and phase are bytes and may hold any number.
/// Clearing word 0 means that there is none: no rule ever gives out 0.
#[derive(Clone, Copy, Debug, PartialEq, Eq)]
pub struct Request {
    pub record: u16,
    pub mode: u8,
    pub ticket: Ticket,
    pub clearing_word: u64,
    pub phase: u8,
}

impl Request {
    /// The content of every slot that becomes free.
    pub const FREE: Request = Request {
        record: 0,
        mode: 0,
        ticket: Ticket {
            x: Exclusive(0),
            s: Shared(0),
        },
        clearing_word: NO_CLEARING_WORD,
        phase: Phase::Free as u8,
    };

    pub fn opened(record: u16, mode: u8) -> Self {
        Request {
            record,
            mode,
            phase: Phase::Asking as u8,
            ..Request::FREE
        }
    }

    pub fn phase(&self) -> Phase {
        match self.phase {
            1 => Phase::Asking,
            2 => Phase::Waiting,
            3 => Phase::Held,
            4 => Phase::Owing,
            5 => Phase::Clearing,
            _ => Phase::Free,
        }
    }

    pub fn mode(&self) -> Mode {
        match self.mode {
            0 => Mode::Reader,
            _ => Mode::Writer,
        }
    }

    /// The verb of a step, if the phase allows one.
    pub fn step_verb(&self) -> Option<Verb> {
        match self.phase() {
            Phase::Free | Phase::Held => None,
            Phase::Asking => Some(Verb::Add(self.one_more_ticket())),
            Phase::Waiting => Some(Verb::Read),
            Phase::Owing => Some(Verb::Add(self.one_more_ticket().wrapping_neg())),
            Phase::Clearing => Some(Verb::Swap {
                old: self.clearing_word,
                new: 0,
            }),
        }
    }

    /// The verb of a release, if the phase allows one.
    pub fn release_verb(&self) -> Option<Verb> {
        match (self.phase(), self.mode()) {
            (Phase::Held, Mode::Reader) => Some(Verb::Add(ONE_MORE_N_S)),
            (Phase::Held, Mode::Writer) => Some(Verb::Add(ONE_MORE_N_X)),
            _ => None,
        }
    }

    /// Takes what a step's verb returned.
    pub fn step_take(&mut self, returned: u64) -> Answer {
        match self.phase() {
            Phase::Free | Phase::Held => Err(Refusal::WrongPhase),
            Phase::Asking => Ok(self.take_a_ticket(Counters::of(returned))),
            Phase::Waiting => Ok(self.test_the_turn(Counters::of(returned))),
            Phase::Owing => Ok(self.leave_with(Outcome::Withdrawn)),
            Phase::Clearing if returned == self.clearing_word => {
                Ok(self.leave_with(Outcome::Cleared))
            }
            Phase::Clearing => Ok(Outcome::NotYetClear),
        }
    }

    /// Takes what a release's verb returned. The answer does not depend on it.
    pub fn release_take(&mut self, _returned: u64) -> Answer {
        if self.phase() != Phase::Held {
            return Err(Refusal::WrongPhase);
        }
        if self.clearing_word == NO_CLEARING_WORD {
            return Ok(self.leave_with(Outcome::Released));
        }
        self.enter(Phase::Clearing);
        Ok(Outcome::ClearingDue)
    }

    /// The verb of a care, by a caretaker in the place of a lost node: none for a request that has not asked.
    pub fn care_verb(&self) -> Option<Verb> {
        match self.phase() {
            Phase::Asking => None,
            Phase::Held => self.release_verb(),
            _ => self.step_verb(),
        }
    }

    /// Takes what a care's verb returned. A request that has not asked is freed, and what is handed over is not looked at.
    pub fn care_take(&mut self, returned: u64) -> Answer {
        match self.phase() {
            Phase::Asking => Ok(self.leave_with(Outcome::FreedUnasked)),
            Phase::Held => self.release_take(returned),
            _ => self.step_take(returned),
        }
    }

    fn one_more_ticket(&self) -> u64 {
        match self.mode() {
            Mode::Reader => ONE_MORE_M_S,
            Mode::Writer => ONE_MORE_M_X,
        }
    }

    /// Either counter at the ceiling turns the request away, whatever its own kind.
    fn take_a_ticket(&mut self, p: Counters) -> Outcome {
        if p.m_x.0 >= CEIL || p.m_s.0 >= CEIL {
            self.enter(Phase::Owing);
            return Outcome::Full;
        }
        self.ticket = Ticket { x: p.m_x, s: p.m_s };
        self.clearing_word = match self.mode() {
            Mode::Reader if p.m_s.0 == LAST_TICKET => {
                Counters::new(p.m_x.0, CEIL, p.m_x.0, CEIL).word()
            }
            Mode::Writer if p.m_x.0 == LAST_TICKET => {
                Counters::new(CEIL, p.m_s.0, CEIL, p.m_s.0).word()
            }
            _ => NO_CLEARING_WORD,
        };
        self.test_the_turn(p)
    }

    fn test_the_turn(&mut self, v: Counters) -> Outcome {
        let Ticket { x, s } = self.ticket;
        let writer = self.mode() == Mode::Writer;
        if v.n_x > x || (writer && v.n_s > s) {
            return self.leave_with(Outcome::Passed);
        }
        if v.n_x == x && (!writer || v.n_s == s) {
            self.enter(Phase::Held);
            return Outcome::Granted;
        }
        self.enter(Phase::Waiting);
        Outcome::Waiting {
            ahead: self.ahead(v),
        }
    }

    /// The number ahead: writers for a reader, writers and readers for a writer.
    /// Asked only where the turn has not passed: no counter that is taken off is above its half of the ticket.
    fn ahead(&self, v: Counters) -> u32 {
        let writers = u32::from(self.ticket.x.0 - v.n_x.0);
        match self.mode() {
            Mode::Reader => writers,
            Mode::Writer => writers + u32::from(self.ticket.s.0 - v.n_s.0),
        }
    }

    fn enter(&mut self, phase: Phase) {
        self.phase = phase as u8;
    }

    fn leave_with(&mut self, outcome: Outcome) -> Outcome {
        *self = Request::FREE;
        outcome
    }
}

#[cfg(test)]
mod tests {
    use super::*;

    const READER: u8 = 0;
    const WRITER: u8 = 1;

    fn step(request: &mut Request, word: &mut u64) -> Outcome {
        let returned = request.step_verb().expect("a verb to send").send(word);
        request.step_take(returned).expect("an accepted step")
    }

    /// Opens a request and asks on the given word.
    fn ask(mode: u8, counters: Counters) -> (Outcome, Request, Counters) {
        let mut request = Request::opened(9, mode);
        let mut word = counters.word();
        let outcome = step(&mut request, &mut word);
        (outcome, request, Counters::of(word))
    }

    /// A waiting request with ticket (3, 4) reads the given word.
    fn look(mode: u8, counters: Counters) -> (Outcome, Request) {
        let mut request = Request::opened(9, mode);
        request.ticket = ticket(3, 4);
        request.phase = Phase::Waiting as u8;
        let mut word = counters.word();
        let outcome = step(&mut request, &mut word);
        assert_eq!(word, counters.word());
        (outcome, request)
    }

    fn grants((outcome, request): (Outcome, Request)) {
        assert_eq!((outcome, request.phase()), (Outcome::Granted, Phase::Held));
    }

    fn waits_for(ahead: u32, (outcome, request): (Outcome, Request)) {
        assert_eq!(
            (outcome, request.phase()),
            (Outcome::Waiting { ahead }, Phase::Waiting)
        );
    }

    fn passes(seen: (Outcome, Request)) {
        assert_eq!(seen, (Outcome::Passed, Request::FREE));
    }

    fn ticket(x: u16, s: u16) -> Ticket {
        Ticket {
            x: Exclusive(x),
            s: Shared(s),
        }
    }

    #[test]
    fn p1_writer_waits_for_three() {
        let (outcome, request, after) = ask(WRITER, Counters::new(1, 1, 1, 4));
        assert_eq!(outcome, Outcome::Waiting { ahead: 3 });
        assert_eq!(after, Counters::new(1, 1, 2, 4));
        assert_eq!(request.ticket, ticket(1, 4));
        assert_eq!(request.phase(), Phase::Waiting);
        assert_eq!(request.clearing_word, NO_CLEARING_WORD);
    }

    #[test]
    fn p2_last_reader_below_the_ceiling_gets_the_clearing_word() {
        let (outcome, request, after) = ask(READER, Counters::new(29_998, 32_765, 30_000, 32_767));
        assert_eq!(outcome, Outcome::Waiting { ahead: 2 });
        assert_eq!(after, Counters::new(29_998, 32_765, 30_000, 32_768));
        assert_eq!(request.ticket, ticket(30_000, 32_767));
        assert_eq!(
            request.clearing_word,
            Counters::new(30_000, 32_768, 30_000, 32_768).word()
        );
    }

    #[test]
    fn p3_reader_at_the_ceiling_is_turned_away_and_withdraws() {
        let mut request = Request::opened(9, READER);
        let mut word = Counters::new(5, 5, 5, 32_768).word();
        assert_eq!(step(&mut request, &mut word), Outcome::Full);
        assert_eq!(Counters::of(word), Counters::new(5, 5, 5, 32_769));
        assert_eq!(request.phase(), Phase::Owing);
        assert_eq!(request.ticket, ticket(0, 0));
        assert_eq!(step(&mut request, &mut word), Outcome::Withdrawn);
        assert_eq!(Counters::of(word), Counters::new(5, 5, 5, 32_768));
        assert_eq!(request, Request::FREE);
    }

    #[test]
    fn p4_reader_is_turned_away_by_the_writers_counter() {
        let (outcome, _, after) = ask(READER, Counters::new(5, 7, 32_768, 7));
        assert_eq!(outcome, Outcome::Full);
        assert_eq!(after, Counters::new(5, 7, 32_768, 8));
    }

    #[test]
    fn p5_reader_on_a_fresh_word_is_granted() {
        let (outcome, request, after) = ask(READER, Counters::of(0));
        assert_eq!(outcome, Outcome::Granted);
        assert_eq!(request.phase(), Phase::Held);
        assert_eq!(after, Counters::new(0, 0, 0, 1));
    }

    #[test]
    fn p6_p7_p8_writer_reads() {
        grants(look(WRITER, Counters::new(3, 4, 6, 6)));
        waits_for(1, look(WRITER, Counters::new(2, 4, 6, 6)));
        passes(look(WRITER, Counters::new(3, 5, 6, 6)));
    }

    #[test]
    fn p9_p10_p11_reader_reads() {
        grants(look(READER, Counters::new(3, 9, 5, 9)));
        waits_for(1, look(READER, Counters::new(2, 9, 4, 9)));
        passes(look(READER, Counters::new(4, 4, 5, 9)));
    }

    #[test]
    fn p12_clearing_needs_the_exact_word() {
        let clearing_word = Counters::new(30_000, 32_768, 30_000, 32_768).word();
        let clearing = Request {
            clearing_word,
            phase: Phase::Clearing as u8,
            ..Request::opened(9, READER)
        };

        let owed = Counters::new(30_000, 32_768, 30_001, 32_768).word();
        let (mut request, mut word) = (clearing, owed);
        assert_eq!(step(&mut request, &mut word), Outcome::NotYetClear);
        assert_eq!((request, word), (clearing, owed));

        let (mut request, mut word) = (clearing, clearing_word);
        assert_eq!(step(&mut request, &mut word), Outcome::Cleared);
        assert_eq!((request, word), (Request::FREE, 0));
    }

    #[test]
    fn last_writer_below_the_ceiling_gets_the_clearing_word() {
        let (outcome, request, _) = ask(WRITER, Counters::new(32_767, 12, 32_767, 12));
        assert_eq!(outcome, Outcome::Granted);
        assert_eq!(
            request.clearing_word,
            Counters::new(32_768, 12, 32_768, 12).word()
        );
        // A writer at the readers' last ticket clears nothing, and the other way round.
        let (_, request, _) = ask(WRITER, Counters::new(0, 0, 0, 32_767));
        assert_eq!(request.clearing_word, NO_CLEARING_WORD);
        let (_, request, _) = ask(READER, Counters::new(0, 0, 32_767, 0));
        assert_eq!(request.clearing_word, NO_CLEARING_WORD);
    }

    #[test]
    fn release_with_a_clearing_word_keeps_the_request() {
        let mut request = Request {
            phase: Phase::Held as u8,
            ..Request::opened(9, 7)
        };
        let mut plain = request;
        assert_eq!(request.release_verb(), Some(Verb::Add(ONE_MORE_N_X)));
        assert_eq!(plain.release_take(123), Ok(Outcome::Released));
        assert_eq!(plain, Request::FREE);

        request.clearing_word = 5;
        assert_eq!(request.release_take(123), Ok(Outcome::ClearingDue));
        assert_eq!(request.phase(), Phase::Clearing);
        assert_eq!((request.mode, request.clearing_word), (7, 5));
    }

    #[test]
    fn any_other_kept_number_counts_as_the_document_says() {
        for phase in [0, 6, 77, 255] {
            let free = Request {
                phase,
                ..Request::opened(9, 0)
            };
            let mut request = free;
            assert_eq!(request.phase(), Phase::Free);
            assert_eq!((request.step_verb(), request.release_verb()), (None, None));
            assert_eq!(request.care_verb(), None);
            assert_eq!(request.step_take(1), Err(Refusal::WrongPhase));
            assert_eq!(request.release_take(1), Err(Refusal::WrongPhase));
            assert_eq!(request.care_take(1), Err(Refusal::WrongPhase));
            assert_eq!(request, free);
        }
        let (_, request, after) = ask(7, Counters::of(0));
        assert_eq!(after, Counters::new(0, 0, 1, 0));
        assert_eq!(request.mode, 7);
    }

    #[test]
    fn an_ask_on_a_strange_word_may_be_told_that_it_has_passed() {
        let (outcome, request, after) = ask(READER, Counters::new(4, 0, 3, 0));
        assert_eq!((outcome, request), (Outcome::Passed, Request::FREE));
        assert_eq!(after, Counters::new(4, 0, 3, 1));
    }

    #[test]
    fn a_writer_waits_for_both_kinds_and_a_reader_for_writers() {
        for (n_s, readers) in [(0, 4), (1, 3), (3, 1), (4, 0)] {
            let seen = Counters::new(1, n_s, 6, 9);
            waits_for(2 + readers, look(WRITER, seen));
            waits_for(2, look(READER, seen));
        }
        // Readers alone are before the writer.
        waits_for(3, look(WRITER, Counters::new(3, 1, 6, 9)));
        // More readers have released than were before this one.
        for n_s in [5, 9, 32_768, 65_535] {
            waits_for(3, look(READER, Counters::new(0, n_s, 6, 9)));
        }
    }

    /// What a waiting request with the highest ticket is told when nothing is released.
    fn widest(mode: u8) -> Answer {
        let mut request = Request::opened(9, mode);
        request.ticket = ticket(65_535, 65_535);
        request.phase = Phase::Waiting as u8;
        request.step_take(0)
    }

    #[test]
    fn the_number_ahead_of_a_writer_is_wider_than_a_counter() {
        for mode in [WRITER, 2, 7, 255] {
            assert_eq!(widest(mode), Ok(Outcome::Waiting { ahead: 131_070 }));
        }
    }

    #[test]
    fn the_number_ahead_of_a_reader_fits_in_a_counter() {
        assert_eq!(widest(READER), Ok(Outcome::Waiting { ahead: 65_535 }));
    }

    #[test]
    fn a_care_of_a_request_that_has_not_asked_sends_nothing_and_frees_it() {
        for mode in [READER, WRITER, 7] {
            for returned in [0, 1, 32_768, u64::MAX] {
                let mut request = Request::opened(9, mode);
                assert_eq!(request.care_verb(), None);
                assert_eq!(request.care_take(returned), Ok(Outcome::FreedUnasked));
                assert_eq!(request, Request::FREE);
            }
        }
    }

    /// A caretaker's turn: the verb is sent and its result taken.
    fn care(request: &mut Request, word: &mut u64) -> Outcome {
        let returned = request.care_verb().expect("a verb to send").send(word);
        request.care_take(returned).expect("an accepted care")
    }

    #[test]
    fn cares_end_a_request_in_its_turn() {
        // The last writer below the ceiling waits for the one before it, and another is turned away.
        let mut word = Counters::new(32_766, 5, 32_767, 5).word();
        let mut last = Request::opened(9, WRITER);
        let mut late = Request::opened(9, WRITER);
        assert_eq!(step(&mut last, &mut word), Outcome::Waiting { ahead: 1 });
        assert_eq!(step(&mut late, &mut word), Outcome::Full);

        assert_eq!(care(&mut last, &mut word), Outcome::Waiting { ahead: 1 });
        assert_eq!(last.phase(), Phase::Waiting);
        word += ONE_MORE_N_X;
        assert_eq!(care(&mut last, &mut word), Outcome::Granted);
        assert_eq!(Counters::of(word), Counters::new(32_767, 5, 32_769, 5));
        assert_eq!(care(&mut last, &mut word), Outcome::ClearingDue);
        assert_eq!(Counters::of(word), Counters::new(32_768, 5, 32_769, 5));
        assert_eq!(care(&mut last, &mut word), Outcome::NotYetClear);
        assert_eq!(care(&mut late, &mut word), Outcome::Withdrawn);
        assert_eq!(Counters::of(word), Counters::new(32_768, 5, 32_768, 5));
        assert_eq!(care(&mut last, &mut word), Outcome::Cleared);
        assert_eq!((last, late, word), (Request::FREE, Request::FREE, 0));

        // A reader that holds, and one that comes too late.
        let (_, mut reader, seen) = ask(READER, Counters::of(0));
        word = seen.word();
        assert_eq!(care(&mut reader, &mut word), Outcome::Released);
        assert_eq!(
            (reader, Counters::of(word)),
            (Request::FREE, Counters::new(0, 1, 0, 1))
        );
        reader = Request {
            phase: Phase::Waiting as u8,
            ..Request::opened(9, READER)
        };
        word = ONE_MORE_N_X;
        assert_eq!(care(&mut reader, &mut word), Outcome::Passed);
        assert_eq!((reader, word), (Request::FREE, ONE_MORE_N_X));
    }

    #[test]
    fn what_a_rule_does_not_name_stays() {
        let given = Request {
            ticket: ticket(5, 6),
            clearing_word: 99,
            ..Request::opened(9, READER)
        };
        let mut turned_away = given;
        turned_away
            .step_take(Counters::new(0, 0, 0, 40_000).word())
            .unwrap();
        assert_eq!(
            turned_away,
            Request {
                phase: Phase::Owing as u8,
                ..given
            }
        );

        let mut drawn = given;
        drawn.step_take(0).unwrap();
        assert_eq!(drawn.clearing_word, NO_CLEARING_WORD);
    }

    #[test]
    fn clearing_without_a_clearing_word_swaps_nothing_for_nothing() {
        let mut request = Request {
            phase: Phase::Clearing as u8,
            ..Request::opened(9, READER)
        };
        assert_eq!(request.step_verb(), Some(Verb::Swap { old: 0, new: 0 }));
        assert_eq!(request.step_take(3), Ok(Outcome::NotYetClear));
        assert_eq!(request.step_take(0), Ok(Outcome::Cleared));
    }
}
