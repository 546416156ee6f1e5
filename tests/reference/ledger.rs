//! A second look at the board, for tests only: what calls and answers say about tickets.
//! It never reads a lock word to foretell an answer.

use std::collections::HashMap;

use crate::agent::Phase;
use crate::answer::{Answer, Outcome, Refusal};
use crate::board::{Board, NODES, SLOTS};
use crate::dice::Dice;
use crate::repair::{care_for, none_leads_further, pass, passes, repair, Care};
use crate::run::make;
use crate::schedule::Call;
use crate::word::{Counters, CEIL};

#[derive(Clone, Copy, Debug, PartialEq, Eq)]
enum State {
    Open,
    Holds { ticket: usize },
    Waits { ticket: usize },
    OwesWithdrawal,
    Clears,
}

impl State {
    fn phase(self) -> Phase {
        match self {
            State::Open => Phase::Asking,
            State::Holds { .. } => Phase::Held,
            State::Waits { .. } => Phase::Waiting,
            State::OwesWithdrawal => Phase::Owing,
            State::Clears => Phase::Clearing,
        }
    }
}

/// Who stands in a slot.
#[derive(Clone, Copy, Debug)]
struct User {
    writer: bool,
    node: u8,
    state: State,
}

#[derive(Clone, Copy)]
struct Ticket {
    writer: bool,
    node: u8,
    released: bool,
}

impl Ticket {
    fn conflicts_with(self, other: Ticket) -> bool {
        self.writer || other.writer
    }
}

fn number_of(tickets: &[Ticket], counted: impl Fn(Ticket) -> bool) -> usize {
    tickets.iter().filter(|ticket| counted(**ticket)).count()
}

/// The nodes that were fenced so far.
#[derive(Clone)]
struct Fences([bool; NODES]);

impl Fences {
    fn hold(&self, node: u8) -> bool {
        self.0[usize::from(node)]
    }
}

/// One record's tickets since it began or was last cleared, and who stands in which slot for it.
#[derive(Clone)]
struct Ledger {
    record: u16,
    tickets: Vec<Ticket>,
    slots: Vec<Option<User>>,
    times_cleared: u32,
    times_only_a_withdrawal_stood_in_the_way: u32,
}

impl Ledger {
    fn of(record: u16) -> Self {
        Ledger {
            record,
            tickets: Vec::new(),
            slots: vec![None; SLOTS],
            times_cleared: 0,
            times_only_a_withdrawal_stood_in_the_way: 0,
        }
    }

    fn given(&self, writer: bool) -> usize {
        number_of(&self.tickets, |ticket| ticket.writer == writer)
    }

    fn at_the_ceiling(&self) -> bool {
        self.given(true) >= usize::from(CEIL) || self.given(false) >= usize::from(CEIL)
    }

    /// Earlier tickets that conflict with this one and are not released.
    fn ahead_of(&self, ticket: usize) -> usize {
        let own = self.tickets[ticket];
        number_of(&self.tickets[..ticket], |earlier| {
            !earlier.released && earlier.conflicts_with(own)
        })
    }

    /// What the request with this ticket must be told now.
    fn turn_of(&self, ticket: usize) -> Outcome {
        match self.ahead_of(ticket) {
            0 => Outcome::Granted,
            ahead => waiting(ahead),
        }
    }

    /// The ticket of whoever waits in this slot.
    fn ticket_of(&self, slot: u8) -> usize {
        match self.slots[usize::from(slot)].map(|user| user.state) {
            Some(State::Waits { ticket }) => ticket,
            other => panic!("nobody waits there: {other:?}"),
        }
    }

    fn every_ticket_is_released(&self) -> bool {
        self.tickets.iter().all(|ticket| ticket.released)
    }

    fn withdrawals_owed(&self, of_whom: impl Fn(&User) -> bool) -> usize {
        let users = self.slots.iter().flatten();
        users
            .filter(|user| user.state == State::OwesWithdrawal && of_whom(user))
            .count()
    }

    /// The node of whoever has to clear.
    fn clearer(&self) -> Option<u8> {
        let mut users = self.slots.iter().flatten();
        let clearer = users.find(|user| user.state == State::Clears);
        clearer.map(|user| user.node)
    }

    fn nobody_holds_beside_a_writer(&self) -> bool {
        let holders: Vec<bool> = self
            .slots
            .iter()
            .flatten()
            .filter(|user| matches!(user.state, State::Holds { .. }))
            .map(|user| user.writer)
            .collect();
        holders.len() <= 1 || !holders.contains(&true)
    }

    /// The lock word that these tickets and withdrawals make.
    fn word(&self) -> Counters {
        let [readers, writers] = [false, true].map(|writer| {
            let released = number_of(&self.tickets, |ticket| {
                ticket.writer == writer && ticket.released
            });
            let asked = self.given(writer) + self.withdrawals_owed(|user| user.writer == writer);
            [released as u16, asked as u16]
        });
        Counters::new(writers[0], readers[0], writers[1], readers[1])
    }

    /// Writes down a call on this record or on a slot that is its own or free, and its answer.
    fn take(&mut self, call: Call, answer: Answer, fences: &Fences) {
        match call {
            Call::Open { mode, .. } => self.open(answer, mode == 1, 0, fences),
            Call::OpenFor { mode, node, .. } => self.open(answer, mode == 1, node, fences),
            Call::Show { .. } => {
                let word = self.word().word();
                assert_eq!(answer, Ok(Outcome::Shown { word }));
            }
            Call::Fence { .. } => unreachable!("a fence is of no record"),
            Call::Step { slot } | Call::Release { slot } | Call::Care { slot } => {
                let Some(user) = self.slots[usize::from(slot)] else {
                    return assert_eq!(answer, Err(Refusal::SlotFree));
                };
                self.slots[usize::from(slot)] = self.after(call, user, answer, fences);
            }
        }
    }

    fn open(&mut self, answer: Answer, writer: bool, node: u8, fences: &Fences) {
        match answer {
            _ if fences.hold(node) => assert_eq!(answer, Err(Refusal::OpenByAFencedNode)),
            Ok(Outcome::Opened { slot }) => {
                let state = State::Open;
                self.slots[usize::from(slot)] = Some(User {
                    writer,
                    node,
                    state,
                })
            }
            _ => assert!(self.slots.iter().all(Option::is_some)),
        }
    }

    /// Who stands there after a call on the slot. A care is the step or the release that it makes; where nothing was asked yet
    /// it is neither.
    fn after(&mut self, call: Call, user: User, answer: Answer, fences: &Fences) -> Option<User> {
        let refused = |refusal| {
            assert_eq!(answer, Err(refusal));
            Some(user)
        };
        match (call, user.state) {
            (Call::Care { .. }, _) if !fences.hold(user.node) => {
                refused(Refusal::SlotOfAnUnfencedNode)
            }
            (Call::Care { .. }, State::Open) => {
                assert_eq!(answer, Ok(Outcome::FreedUnasked));
                None
            }
            (Call::Step { .. } | Call::Release { .. }, _) if fences.hold(user.node) => {
                refused(Refusal::SlotOfAFencedNode)
            }
            (Call::Step { .. }, State::Holds { .. }) => refused(Refusal::WrongPhase),
            (_, State::Holds { ticket }) => self.after_release(user, ticket, answer),
            (Call::Release { .. }, _) => refused(Refusal::WrongPhase),
            _ => self.after_step(user, answer),
        }
    }

    fn after_step(&mut self, user: User, answer: Answer) -> Option<User> {
        let state = match user.state {
            State::Open if self.at_the_ceiling() => {
                assert_eq!(answer, Ok(Outcome::Full));
                State::OwesWithdrawal
            }
            State::Open => {
                self.tickets.push(Ticket {
                    writer: user.writer,
                    node: user.node,
                    released: false,
                });
                let ticket = self.tickets.len() - 1;
                self.turn(answer.unwrap(), ticket).unwrap()
            }
            State::Waits { ticket } => self.turn(answer.unwrap(), ticket).unwrap(),
            State::Holds { .. } => unreachable!("no step is made of a holder"),
            State::OwesWithdrawal => {
                assert_eq!(answer, Ok(Outcome::Withdrawn));
                return None;
            }
            State::Clears => {
                let released = self.every_ticket_is_released();
                if released && self.withdrawals_owed(|_| true) == 0 {
                    assert_eq!(answer, Ok(Outcome::Cleared));
                    self.tickets.clear();
                    self.times_cleared += 1;
                    return None;
                }
                assert_eq!(answer, Ok(Outcome::NotYetClear));
                self.times_only_a_withdrawal_stood_in_the_way += u32::from(released);
                State::Clears
            }
        };
        Some(User { state, ..user })
    }

    /// The state after a turn test that told this, or both what was told and what should have been.
    fn turn(&self, told: Outcome, ticket: usize) -> Result<State, [Outcome; 2]> {
        let right = self.turn_of(ticket);
        match told {
            _ if told != right => Err([told, right]),
            Outcome::Granted => Ok(State::Holds { ticket }),
            _ => Ok(State::Waits { ticket }),
        }
    }

    fn after_release(&mut self, user: User, ticket: usize, answer: Answer) -> Option<User> {
        self.tickets[ticket].released = true;
        let last = self.given(user.writer) == usize::from(CEIL)
            && self.tickets[ticket + 1..]
                .iter()
                .all(|later| later.writer != user.writer);
        if !last {
            assert_eq!(answer, Ok(Outcome::Released));
            return None;
        }
        assert_eq!(answer, Ok(Outcome::ClearingDue));
        let state = State::Clears;
        Some(User { state, ..user })
    }

    /// Whether a lost request in this state waits for a living node: for an earlier ticket, or to clear, for any ticket or withdrawal.
    fn the_living_stand_before(&self, state: State, fences: &Fences) -> bool {
        let among = |tickets: &[Ticket]| {
            number_of(tickets, |ticket| {
                !ticket.released && !fences.hold(ticket.node)
            }) > 0
        };
        match state {
            State::Waits { ticket } => among(&self.tickets[..ticket]),
            State::Clears => {
                among(&self.tickets) || self.withdrawals_owed(|user| !fences.hold(user.node)) > 0
            }
            _ => false,
        }
    }
}

fn waiting(ahead: usize) -> Outcome {
    Outcome::Waiting {
        ahead: ahead as u32,
    }
}

/// A board, a ledger for each record, and the fences as the calls have set them.
#[derive(Clone)]
struct History {
    board: Board,
    ledgers: Vec<Ledger>,
    fences: Fences,
}

impl History {
    fn fresh(records: u16) -> Self {
        History {
            board: Board::fresh(usize::from(records)).unwrap(),
            ledgers: (0..records).map(Ledger::of).collect(),
            fences: Fences([false; NODES]),
        }
    }

    /// Which ledger has somebody in this slot.
    fn ledger_of(&self, slot: u8) -> Option<usize> {
        let mut ledgers = self.ledgers.iter();
        ledgers.position(|ledger| ledger.slots[usize::from(slot)].is_some())
    }

    fn fence(&mut self, node: u8) {
        let answer = make(&mut self.board, Call::Fence { node });
        assert_eq!(answer, Ok(Outcome::Fenced));
        self.fences.0[usize::from(node)] = true;
    }

    /// Makes some way of repairing and writes its cares into the ledgers.
    fn repair_by(&mut self, way: fn(&mut Board) -> Vec<Care>) {
        for Care {
            slot,
            found,
            answer,
        } in way(&mut self.board)
        {
            let at = self.ledger_of(slot).expect("a care of a slot in use");
            let ledger = &mut self.ledgers[at];
            let user = ledger.slots[usize::from(slot)];
            assert_eq!(user.map(|user| user.state.phase()), Some(found));
            ledger.take(Call::Care { slot }, answer, &self.fences);
        }
    }

    /// Whether only those lost requests are left for which living nodes stand in the way.
    fn is_repaired(&self) -> bool {
        self.ledgers.iter().all(|ledger| {
            let users = ledger.slots.iter().flatten();
            let mut lost = users.filter(|user| self.fences.hold(user.node));
            lost.all(|user| ledger.the_living_stand_before(user.state, &self.fences))
        })
    }
}

/// How random calls are drawn.
struct Plan {
    seed: u64,
    calls: u64,
    slots: u64,
    writers_in_eight: u64,
    /// With 0 all requests are of node 0, and there are no fences, cares and shows.
    nodes: u64,
}

impl Plan {
    /// Plays random calls and compares each answer with what the ledger of its record foretells.
    /// Hands out the ledger, the ticket and whether it was drawn just now, wherever a request is told to wait.
    fn follow(&self, history: &mut History, mut on_wait: impl FnMut(&Ledger, usize, bool)) {
        let mut dice = Dice::seeded(self.seed);
        for _ in 0..self.calls {
            let slot = dice.below(self.slots) as u8;
            let any = dice.below(history.ledgers.len() as u64) as usize;
            let user = history.ledger_of(slot);
            let drawn = dice.below(if self.nodes == 0 { 4 } else { 8 });
            if drawn == 7 && dice.one_in(24) {
                history.fence(dice.below(self.nodes) as u8);
                continue;
            }
            let History {
                board,
                ledgers,
                fences,
            } = history;
            let ledger = &mut ledgers[user.unwrap_or(any)];
            let record = ledger.record;
            let given = ledger.tickets.len();
            let call = match (user, drawn) {
                (None, 0) => {
                    let writer = dice.below(8) < self.writers_in_eight;
                    self.open(&mut dice, record, u8::from(writer))
                }
                (_, 1) => Call::Release { slot },
                (_, 4 | 5) => Call::Care { slot },
                (_, 6) => Call::Show { record },
                _ => Call::Step { slot },
            };
            let answer = make(board, call);
            ledger.take(call, answer, fences);
            if let Ok(Outcome::Waiting { .. }) = answer {
                let ticket = ledger.ticket_of(slot);
                on_wait(ledger, ticket, ticket == given);
            }
            let Counters { n_x, n_s, m_x, m_s } = Counters::of(board.words[usize::from(record)]);
            assert!([n_x.0, n_s.0, m_x.0, m_s.0]
                .iter()
                .all(|&counter| counter <= 33_023));
            assert!(ledger.nobody_holds_beside_a_writer());
        }
    }

    fn open(&self, dice: &mut Dice, record: u16, mode: u8) -> Call {
        if self.nodes == 0 || dice.one_in(8) {
            return Call::Open { record, mode };
        }
        let node = dice.below(self.nodes) as u8;
        Call::OpenFor { record, mode, node }
    }
}

type Count = fn(&Ledger, usize) -> usize;

/// Wrong ways to count who is ahead of a ticket.
const MISTAKES: [(&str, Count); 7] = [
    ("one too many", |ledger, ticket| ledger.ahead_of(ticket) + 1),
    ("one too few", |ledger, ticket| ledger.ahead_of(ticket) - 1),
    ("earlier readers for a reader too", |ledger, ticket| {
        number_of(&ledger.tickets[..ticket], |earlier| !earlier.released)
    }),
    ("only writers for a writer too", |ledger, ticket| {
        number_of(&ledger.tickets[..ticket], |earlier| {
            !earlier.released && earlier.writer
        })
    }),
    ("every earlier ticket", |_, ticket| ticket),
    ("released tickets too", |ledger, ticket| {
        let own = ledger.tickets[ticket];
        number_of(&ledger.tickets[..ticket], |earlier| {
            earlier.conflicts_with(own)
        })
    }),
    ("later tickets too", |ledger, ticket| {
        let own = ledger.tickets[ticket];
        let later = &ledger.tickets[ticket + 1..];
        ledger.ahead_of(ticket) + number_of(later, |later| later.conflicts_with(own))
    }),
];

#[test]
fn grants_and_numbers_follow_the_earlier_conflicting_tickets() {
    let mut waits: HashMap<(bool, bool), u32> = HashMap::new();
    let mut refused = [0; MISTAKES.len()];
    let mut most = 0;
    for seed in 0..120 {
        let mut history = History::fresh([1, 1, 1, 3][seed as usize % 4]);
        let plan = Plan {
            seed,
            calls: 3_000,
            slots: [2, 3, 4, 5, 6, 8, 10, 12, 16, 24, 40][seed as usize % 11],
            writers_in_eight: seed % 9,
            nodes: 0,
        };
        plan.follow(&mut history, |ledger, ticket, just_drawn| {
            let kind = (ledger.tickets[ticket].writer, just_drawn);
            *waits.entry(kind).or_default() += 1;
            most = most.max(ledger.ahead_of(ticket));
            for ((_, number), times) in MISTAKES.iter().zip(&mut refused) {
                let told = waiting(number(ledger, ticket));
                *times += u32::from(ledger.turn(told, ticket).is_err());
            }
        });
    }
    // Both kinds wait, with a ticket just drawn and with an older one, behind few and many, and each mistake would be seen.
    assert!(
        waits.len() == 4 && waits.values().all(|&times| times > 3_000),
        "{waits:?}"
    );
    assert!(most > 20, "{most}");
    for ((mistake, _), times) in MISTAKES.iter().zip(refused) {
        assert!(times > 3_000, "{mistake}: {times} times");
    }
}

/// Tickets 0 and 1 are released, 2 holds, and all others wait.
#[test]
fn a_wrong_number_ahead_is_refused() {
    let (reader, writer) = (false, true);
    let mut ledger = Ledger::of(0);
    ledger.tickets = [
        writer, reader, reader, writer, reader, writer, reader, writer, reader, writer,
    ]
    .map(|writer| Ticket {
        writer,
        node: 0,
        released: false,
    })
    .into();
    ledger.tickets[0].released = true;
    ledger.tickets[1].released = true;
    let told = |ahead, ticket| ledger.turn(waiting(ahead), ticket);

    // Reader 6 waits for writers 3 and 5.
    let ticket = 6;
    assert_eq!(told(2, ticket), Ok(State::Waits { ticket }));
    let both_kinds = 4;
    let (one_too_few, one_too_many) = (1, 3);
    let (with_released_ones, with_later_ones) = (3, 4);
    let all_earlier_ones = 6;
    for wrong in [
        both_kinds,
        one_too_few,
        one_too_many,
        with_released_ones,
        with_later_ones,
        all_earlier_ones,
        0,
    ] {
        assert_eq!(told(wrong, ticket), Err([waiting(wrong), waiting(2)]));
    }
    assert_eq!(
        ledger.turn(Outcome::Granted, ticket),
        Err([Outcome::Granted, waiting(2)])
    );

    // Writer 7 waits for 2 to 6.
    let ticket = 7;
    assert_eq!(told(5, ticket), Ok(State::Waits { ticket }));
    let (writers_alone, readers_alone) = (2, 3);
    let (one_too_few, one_too_many) = (4, 6);
    let (with_released_ones, with_later_ones) = (7, 7);
    for wrong in [
        writers_alone,
        readers_alone,
        one_too_few,
        one_too_many,
        with_released_ones,
        with_later_ones,
        0,
    ] {
        assert_eq!(told(wrong, ticket), Err([waiting(wrong), waiting(5)]));
    }

    // Reader 2 holds: nobody is before it, so it is not told to wait.
    let ticket = 2;
    assert_eq!(
        ledger.turn(Outcome::Granted, ticket),
        Ok(State::Holds { ticket })
    );
    assert_eq!(told(0, ticket), Err([waiting(0), Outcome::Granted]));
    assert_eq!(told(1, ticket), Err([waiting(1), Outcome::Granted]));
}

/// Tickets given before the random calls that meet the ceiling.
const ALMOST: usize = 32_750;

/// A history in which all these tickets were given to one kind and released.
fn almost_at_the_ceiling(mode: u8) -> History {
    let mut history = History::fresh(1);
    let (record, slot) = (0, 0);
    for _ in 0..ALMOST {
        let [opened, granted, released] = [
            Call::Open { record, mode },
            Call::Step { slot },
            Call::Release { slot },
        ]
        .map(|call| make(&mut history.board, call));
        assert_eq!(opened, Ok(Outcome::Opened { slot }));
        assert_eq!(granted, Ok(Outcome::Granted));
        assert_eq!(released, Ok(Outcome::Released));
        history.ledgers[0].tickets.push(Ticket {
            writer: mode == 1,
            node: 0,
            released: true,
        });
    }
    history
}

#[test]
fn full_and_cleared_come_exactly_when_the_ledger_says() {
    let (mut cleared, mut withdrawals_in_the_way) = (0, 0);
    for seed in 0..40 {
        let mode = seed % 2;
        let mut history = almost_at_the_ceiling(mode as u8);
        let plan = Plan {
            seed,
            calls: 1_500,
            slots: 3 + seed % 9,
            writers_in_eight: [2, 6][mode as usize],
            nodes: 0,
        };
        plan.follow(&mut history, |_, _, _| ());
        cleared += history.ledgers[0].times_cleared;
        withdrawals_in_the_way += history.ledgers[0].times_only_a_withdrawal_stood_in_the_way;
    }
    assert!(cleared > 10 && withdrawals_in_the_way > 10);
}

/// A repair that leaves out the slots of one phase.
fn without(left_out: Phase, board: &mut Board) -> Vec<Care> {
    let pass = |board: &mut Board| {
        let mut cares = Vec::new();
        for at in 0..SLOTS {
            if board.slots[at].phase() != left_out {
                cares.extend(care_for(board, at));
            }
        }
        cares
    };
    passes(board, pass, none_leads_further)
}

type Way = fn(&mut Board) -> Vec<Care>;

/// Wrong ways to repair: they stop too early, or leave out a phase.
const WRONG_WAYS: [(&str, Way); 8] = [
    ("nothing is done", |_| Vec::new()),
    ("one pass", pass),
    ("passes until somebody is told to wait", |board| {
        passes(board, pass, |cares| {
            cares.is_empty() || !cares.iter().all(|care| care.leads_further())
        })
    }),
    ("without those that ask", |board| {
        without(Phase::Asking, board)
    }),
    ("without those that wait", |board| {
        without(Phase::Waiting, board)
    }),
    ("without those that hold", |board| {
        without(Phase::Held, board)
    }),
    ("without those that owe", |board| {
        without(Phase::Owing, board)
    }),
    ("without those that clear", |board| {
        without(Phase::Clearing, board)
    }),
];

/// How often each wrong way was found out, and in which states lost requests were left by the right one.
#[derive(Default)]
struct Repairs {
    found_out: [u32; WRONG_WAYS.len()],
    left_waiting: u32,
    left_clearing: u32,
}

impl Repairs {
    /// Repairs a history, and copies of it in the wrong ways.
    fn try_all(&mut self, history: &mut History) {
        for ((_, way), times) in WRONG_WAYS.iter().zip(&mut self.found_out) {
            let mut copy = history.clone();
            copy.repair_by(*way);
            *times += u32::from(!copy.is_repaired());
        }
        history.repair_by(repair);
        assert!(history.is_repaired());
        for user in history
            .ledgers
            .iter()
            .flat_map(|ledger| ledger.slots.iter().flatten())
        {
            let lost = history.fences.hold(user.node);
            self.left_waiting += u32::from(lost && user.state.phase() == Phase::Waiting);
            self.left_clearing += u32::from(lost && user.state.phase() == Phase::Clearing);
        }
    }

    /// Then every node in use is lost too, and nothing stays.
    fn lose_all(&mut self, history: &mut History) {
        for at in 0..SLOTS {
            if history.board.slots[at].phase() != Phase::Free {
                history.fence(history.board.nodes[at]);
            }
        }
        self.try_all(history);
        assert_eq!(history.board.slots_in_use(), 0);
        for (ledger, word) in history.ledgers.iter().zip(&history.board.words) {
            let Counters { n_x, n_s, m_x, m_s } = ledger.word();
            assert_eq!((n_x, n_s), (m_x, m_s));
            assert_eq!(ledger.word(), Counters::of(*word));
        }
    }
}

#[test]
fn a_care_counts_as_the_step_or_release_that_it_makes() {
    let mut waits: HashMap<(bool, bool), u32> = HashMap::new();
    let mut repairs = Repairs::default();
    for seed in 0..240 {
        let mut history = History::fresh([1, 2, 1, 3][seed as usize % 4]);
        for turn in 0..3 {
            let plan = Plan {
                seed: 3 * seed + turn,
                calls: 400,
                slots: [2, 4, 6, 8, 12, 24, 40][seed as usize % 7],
                writers_in_eight: seed % 9,
                nodes: [2, 4, 9, 40, 256][seed as usize % 5],
            };
            plan.follow(&mut history, |ledger, ticket, just_drawn| {
                let kind = (ledger.tickets[ticket].writer, just_drawn);
                *waits.entry(kind).or_default() += 1;
            });
            repairs.try_all(&mut history);
        }
        repairs.lose_all(&mut history);
    }
    assert!(
        waits.len() == 4 && waits.values().all(|&times| times > 1_000),
        "{waits:?}"
    );
    let phases_that_come_up = 6;
    for ((way, _), times) in WRONG_WAYS
        .iter()
        .zip(repairs.found_out)
        .take(phases_that_come_up)
    {
        assert!(times > 50, "{way}: {times} times");
    }
    assert!(repairs.left_waiting > 50, "{}", repairs.left_waiting);
}

/// Short turns until somebody has to clear, whose node is then lost. Other nodes were lost by chance before.
#[test]
fn a_lost_request_at_the_ceiling_withdraws_and_clears() {
    let mut repairs = Repairs::default();
    let mut cleared = 0;
    for seed in 0..60 {
        let mode = seed % 2;
        let mut history = almost_at_the_ceiling(mode as u8);
        for turn in 0..200 {
            let plan = Plan {
                seed: 200 * seed + turn,
                calls: 10,
                slots: 3 + seed % 9,
                writers_in_eight: [2, 6][mode as usize],
                nodes: [8, 30, 256][seed as usize % 3],
            };
            plan.follow(&mut history, |_, _, _| ());
            if let Some(node) = history.ledgers[0].clearer() {
                history.fence(node);
                break;
            }
        }
        repairs.try_all(&mut history);
        repairs.lose_all(&mut history);
        cleared += history.ledgers[0].times_cleared;
    }
    assert!(cleared > 10, "{cleared}");
    assert!(repairs.left_clearing > 5, "{}", repairs.left_clearing);
    for ((way, _), times) in WRONG_WAYS.iter().zip(repairs.found_out) {
        assert!(times > 5, "{way}: {times} times");
    }
}
