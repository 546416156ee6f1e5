//! The lock word and the three verbs that a network card performs on it.
//! Nothing here knows of requests, tickets or boards.

/// Tickets of one kind that a record gives before it must be cleared.
pub const CEIL: u16 = 32_768;

pub const ONE_MORE_M_S: u64 = 1;
pub const ONE_MORE_M_X: u64 = 1 << 16;
pub const ONE_MORE_N_S: u64 = 1 << 32;
pub const ONE_MORE_N_X: u64 = 1 << 48;

/// A count of writers' tickets or releases.
#[derive(Clone, Copy, Debug, PartialEq, Eq, PartialOrd, Ord)]
pub struct Exclusive(pub u16);

/// A count of readers' tickets or releases.
#[derive(Clone, Copy, Debug, PartialEq, Eq, PartialOrd, Ord)]
pub struct Shared(pub u16);

/// The four counters of a lock word, highest bits first.
#[derive(Clone, Copy, Debug, PartialEq, Eq)]
pub struct Counters {
    pub n_x: Exclusive,
    pub n_s: Shared,
    pub m_x: Exclusive,
    pub m_s: Shared,
}

impl Counters {
    pub const fn new(n_x: u16, n_s: u16, m_x: u16, m_s: u16) -> Self {
        Self {
            n_x: Exclusive(n_x),
            n_s: Shared(n_s),
            m_x: Exclusive(m_x),
            m_s: Shared(m_s),
        }
    }

    pub const fn of(word: u64) -> Self {
        Self::new(
            (word >> 48) as u16,
            (word >> 32) as u16,
            (word >> 16) as u16,
            word as u16,
        )
    }

    pub const fn word(self) -> u64 {
        (self.n_x.0 as u64) << 48
            | (self.n_s.0 as u64) << 32
            | (self.m_x.0 as u64) << 16
            | self.m_s.0 as u64
    }
}

/// What a request sends to a lock word. A request with nothing to send has no verb.
#[derive(Clone, Copy, Debug, PartialEq, Eq)]
pub enum Verb {
    Add(u64),
    Read,
    Swap { old: u64, new: u64 },
}

impl Verb {
    /// Performs the verb and gives the word as it was before.
    /// An add is one sum over all 64 bits: a counter that overflows runs into the next.
    pub fn send(self, word: &mut u64) -> u64 {
        let before = *word;
        *word = match self {
            Verb::Add(number) => before.wrapping_add(number),
            Verb::Read => before,
            Verb::Swap { old, new } if before == old => new,
            Verb::Swap { .. } => before,
        };
        before
    }
}

#[cfg(test)]
mod tests {
    use super::*;

    #[test]
    fn counters_come_back_out_of_the_word() {
        let edges = [0, 1, 2, 32_767, 32_768, 33_023, 65_534, 65_535];
        for a in edges {
            for b in edges {
                for c in edges {
                    for d in edges {
                        let counters = Counters::new(a, b, c, d);
                        assert_eq!(Counters::of(counters.word()), counters);
                    }
                }
            }
        }
        assert_eq!(
            Counters::of(0x0001_0002_0003_0004),
            Counters::new(1, 2, 3, 4)
        );
    }

    #[test]
    fn each_step_moves_its_own_counter() {
        let after = |number: u64| {
            let mut word = Counters::new(1, 2, 3, 4).word();
            assert_eq!(
                Verb::Add(number).send(&mut word),
                Counters::new(1, 2, 3, 4).word()
            );
            Counters::of(word)
        };
        assert_eq!(after(ONE_MORE_N_X), Counters::new(2, 2, 3, 4));
        assert_eq!(after(ONE_MORE_N_S), Counters::new(1, 3, 3, 4));
        assert_eq!(after(ONE_MORE_M_X), Counters::new(1, 2, 4, 4));
        assert_eq!(after(ONE_MORE_M_S), Counters::new(1, 2, 3, 5));
        assert_eq!(
            after(ONE_MORE_M_X.wrapping_neg()),
            Counters::new(1, 2, 2, 4)
        );
        assert_eq!(
            after(ONE_MORE_M_S.wrapping_neg()),
            Counters::new(1, 2, 3, 3)
        );
    }

    #[test]
    fn an_add_carries_over_the_whole_word() {
        let mut word = Counters::new(0, 0, 0, 65_535).word();
        Verb::Add(ONE_MORE_M_S).send(&mut word);
        assert_eq!(Counters::of(word), Counters::new(0, 0, 1, 0));

        let mut word = Counters::new(65_535, 1, 2, 3).word();
        Verb::Add(ONE_MORE_N_X).send(&mut word);
        assert_eq!(Counters::of(word), Counters::new(0, 1, 2, 3));
    }

    #[test]
    fn read_and_a_swap_that_does_not_match_change_nothing() {
        let mut word = 77;
        assert_eq!(Verb::Read.send(&mut word), 77);
        assert_eq!(word, 77);
        assert_eq!(Verb::Swap { old: 76, new: 5 }.send(&mut word), 77);
        assert_eq!(word, 77);
        assert_eq!(Verb::Swap { old: 77, new: 5 }.send(&mut word), 77);
        assert_eq!(word, 5);
    }
}
