//! Compares the archive of the C agent with the reference's agent: each function on every edge, on numbers by chance, and through whole lives.

#[path = "../reference/agent.rs"]
#[allow(dead_code)]
mod agent;
#[path = "../reference/answer.rs"]
#[allow(dead_code)]
mod answer;
#[path = "../reference/dice.rs"]
#[allow(dead_code)]
mod dice;
#[path = "../reference/word.rs"]
#[allow(dead_code)]
mod word;

use std::fmt::{Debug, Display};
use std::process::ExitCode;

use agent::{Phase, Request, Ticket};
use answer::Answer;
use dice::Dice;
use word::{Counters, Exclusive, Shared, Verb};

/// The structs of include/brancove.h.
mod c {
    #[repr(C)]
    #[derive(Clone, Copy, Debug, PartialEq, Eq)]
    pub struct Request {
        pub record: u16,
        pub mode: u8,
        pub phase: u8,
        pub x: u16,
        pub s: u16,
        pub clearing: u64,
    }

    #[repr(C)]
    #[derive(Clone, Copy, Debug, PartialEq, Eq)]
    pub struct Verb {
        pub kind: u8,
        pub first: u64,
        pub second: u64,
    }

    #[repr(C)]
    #[derive(Clone, Copy, Debug, PartialEq, Eq)]
    pub struct Told {
        pub number: u8,
        pub outcome: u8,
        pub ahead: u64,
    }

    #[repr(C)]
    #[derive(Clone, Copy, Debug, PartialEq, Eq)]
    pub struct Counters {
        pub nx: u16,
        pub ns: u16,
        pub mx: u16,
        pub ms: u16,
    }

    const _: () = assert!(size_of::<Request>() == 16 && size_of::<Verb>() == 24);
    const _: () = assert!(size_of::<Told>() == 16 && size_of::<Counters>() == 8);

    extern "C" {
        pub fn brancove_ask(q: *mut Request, record: u16, mode: u8) -> u8;
        pub fn brancove_step_sends(q: *mut Request) -> Verb;
        pub fn brancove_release_sends(q: *mut Request) -> Verb;
        pub fn brancove_care_sends(q: *mut Request) -> Verb;
        pub fn brancove_step_takes(q: *mut Request, result: u64) -> Told;
        pub fn brancove_release_takes(q: *mut Request, result: u64) -> Told;
        pub fn brancove_care_takes(q: *mut Request, result: u64) -> Told;
        pub fn brancove_split(word: u64) -> Counters;
    }
}

/// What is done with a request in use: what the reference sends and takes for it, and what the archive does.
struct Act {
    name: &'static str,
    verb: fn(&Request) -> Option<Verb>,
    take: fn(&mut Request, u64) -> Answer,
    sends: unsafe extern "C" fn(*mut c::Request) -> c::Verb,
    takes: unsafe extern "C" fn(*mut c::Request, u64) -> c::Told,
}

const STEP: Act = Act {
    name: "step",
    verb: Request::step_verb,
    take: Request::step_take,
    sends: c::brancove_step_sends,
    takes: c::brancove_step_takes,
};

const RELEASE: Act = Act {
    name: "release",
    verb: Request::release_verb,
    take: Request::release_take,
    sends: c::brancove_release_sends,
    takes: c::brancove_release_takes,
};

const CARE: Act = Act {
    name: "care",
    verb: Request::care_verb,
    take: Request::care_take,
    sends: c::brancove_care_sends,
    takes: c::brancove_care_takes,
};

fn in_c(request: &Request) -> c::Request {
    c::Request {
        record: request.record,
        mode: request.mode,
        phase: request.phase,
        x: request.ticket.x.0,
        s: request.ticket.s.0,
        clearing: request.clearing_word,
    }
}

fn verb_in_c(verb: Option<Verb>) -> c::Verb {
    let (kind, first, second) = match verb {
        None => (0, 0, 0),
        Some(Verb::Add(number)) => (1, number, 0),
        Some(Verb::Read) => (2, 0, 0),
        Some(Verb::Swap { old, new }) => (3, old, new),
    };
    c::Verb {
        kind,
        first,
        second,
    }
}

fn told_in_c(answer: Answer) -> c::Told {
    match answer {
        Ok(outcome) => c::Told {
            number: 0,
            outcome: outcome.number(),
            ahead: outcome.value(),
        },
        Err(refusal) => c::Told {
            number: refusal.number(),
            outcome: 0,
            ahead: 0,
        },
    }
}

/// Calls the archive on a request that stands between two others, which must stay.
fn called<T>(request: &Request, call: impl FnOnce(*mut c::Request) -> T) -> (c::Request, T) {
    let guard = c::Request {
        record: 0xa5a5,
        mode: 0xa5,
        phase: 0xa5,
        x: 0xa5a5,
        s: 0xa5a5,
        clearing: !0,
    };
    let mut table = [guard, in_c(request), guard];
    let answer = call(&mut table[1]);
    assert!(
        table[0] == guard && table[2] == guard,
        "the archive wrote beside the request {request:?}"
    );
    (table[1], answer)
}

fn same<T: PartialEq + Debug>(
    what: impl Display,
    given: &Request,
    result: u64,
    ours: T,
    theirs: T,
) -> Result<(), String> {
    if ours == theirs {
        return Ok(());
    }
    Err(format!(
        "{what} of {given:?} with result {result:#018x}:\n  the reference {ours:?}\n  the archive   {theirs:?}"
    ))
}

/// Sends and takes of a step, a release and a care.
fn compare(given: &Request, result: u64) -> Result<(), String> {
    for act in [STEP, RELEASE, CARE] {
        let name = act.name;
        let ours = (in_c(given), verb_in_c((act.verb)(given)));
        // SAFETY: here and below the pointer is to one request that lives and is used by nobody else.
        let theirs = called(given, |q| unsafe { (act.sends)(q) });
        same(format_args!("{name}_sends"), given, result, ours, theirs)?;

        let mut after = *given;
        let told = told_in_c((act.take)(&mut after, result));
        let theirs = called(given, |q| unsafe { (act.takes)(q, result) });
        same(
            format_args!("{name}_takes"),
            given,
            result,
            (in_c(&after), told),
            theirs,
        )?;
    }
    Ok(())
}

fn compare_ask(given: &Request, record: u16, mode: u8) -> Result<(), String> {
    let ours = match (mode, given.phase()) {
        (2.., _) => (in_c(given), 3),
        (_, Phase::Free) => (in_c(&Request::opened(record, mode)), 0),
        _ => (in_c(given), 5),
    };
    let theirs = called(given, |q| unsafe { c::brancove_ask(q, record, mode) });
    same(
        "ask",
        given,
        u64::from(record) << 8 | u64::from(mode),
        ours,
        theirs,
    )
}

fn compare_split(word: u64) -> Result<(), String> {
    let Counters { n_x, n_s, m_x, m_s } = Counters::of(word);
    let ours = c::Counters {
        nx: n_x.0,
        ns: n_s.0,
        mx: m_x.0,
        ms: m_s.0,
    };
    same("split", &Request::FREE, word, ours, unsafe {
        c::brancove_split(word)
    })
}

const PHASES: [u8; 9] = [0, 1, 2, 3, 4, 5, 6, 7, 255];
const MODES: [u8; 4] = [0, 1, 2, 255];
const COUNTS: [u16; 8] = [0, 1, 32_766, 32_767, 32_768, 32_769, 65_534, 65_535];

fn request(record: u16, mode: u8, phase: u8, (x, s): (u16, u16), clearing_word: u64) -> Request {
    Request {
        record,
        mode,
        ticket: Ticket {
            x: Exclusive(x),
            s: Shared(s),
        },
        clearing_word,
        phase,
    }
}

fn pairs() -> impl Iterator<Item = (u16, u16)> {
    COUNTS.into_iter().flat_map(|a| COUNTS.map(|b| (a, b)))
}

/// Each phase, mode, ticket and word of the edges. The clearing word is none, the result, or near it: in turns, such that each
/// phase, mode and ticket meets each of the four.
fn edges() -> Result<u64, String> {
    let mut requests = 0;
    for (turn, word) in pairs()
        .flat_map(|n| pairs().map(move |m| (n, m)))
        .enumerate()
    {
        let ((n_x, n_s), (m_x, m_s)) = word;
        let result = Counters::new(n_x, n_s, m_x, m_s).word();
        compare_split(result)?;
        for (phase, mode) in PHASES
            .into_iter()
            .flat_map(|phase| MODES.map(|mode| (phase, mode)))
        {
            for (at, ticket) in pairs().enumerate() {
                let clearing = [0, result, result.wrapping_add(1), !result][(turn + at) % 4];
                compare(&request(m_s ^ 7, mode, phase, ticket, clearing), result)?;
                requests += 1;
            }
        }
    }
    Ok(requests)
}

fn asks() -> Result<u64, String> {
    let mut asks = 0;
    for phase in 0..=255 {
        for mode in 0..=255 {
            for kept in MODES {
                for record in [0, 1, 63, 4_095, 4_096, 65_535] {
                    compare_ask(&request(9, kept, phase, (3, 4), 5), record, mode)?;
                    asks += 1;
                }
            }
        }
    }
    Ok(asks)
}

/// An edge, a small number, one near the ceiling, or any.
fn count(dice: &mut Dice) -> u16 {
    match dice.below(4) {
        0 => COUNTS[dice.below(8) as usize],
        1 => dice.below(6) as u16,
        2 => 32_760 + dice.below(16) as u16,
        _ => dice.any() as u16,
    }
}

fn by_chance(dice: &mut Dice, requests: u64) -> Result<(), String> {
    for _ in 0..requests {
        let (x, s) = (count(dice), count(dice));
        // Half of the words are near the ticket, so that each turn comes up.
        let (n_x, n_s) = match dice.below(2) {
            0 => (
                x.wrapping_add(dice.below(3) as u16).wrapping_sub(1),
                s.wrapping_add(dice.below(3) as u16).wrapping_sub(1),
            ),
            _ => (count(dice), count(dice)),
        };
        let result = Counters::new(n_x, n_s, count(dice), count(dice)).word();
        let clearing = [0, result, dice.any()][dice.below(3) as usize];
        let phase = match dice.below(8) {
            0 => dice.any() as u8,
            _ => dice.below(6) as u8,
        };
        let mode = match dice.below(4) {
            0 => dice.any() as u8,
            _ => dice.below(2) as u8,
        };
        let given = request(dice.any() as u16, mode, phase, (x, s), clearing);
        compare(&given, result)?;
        compare_ask(&given, dice.any() as u16, dice.any() as u8 % 4)?;
        compare_split(result)?;
    }
    Ok(())
}

/// Requests of the reference and of the archive, side by side, each with a word of its own for all of them.
struct Lives {
    word: u64,
    their_word: u64,
    ours: [Request; LIVES],
    theirs: [c::Request; LIVES],
    /// Those that a caretaker has taken over. They stay its own until they are free.
    lost: [bool; LIVES],
    cares: u64,
    unasked: u64,
    cleared: u64,
}

const LIVES: usize = 24;

impl Lives {
    fn on(word: u64) -> Self {
        Lives {
            word,
            their_word: word,
            ours: [Request::FREE; LIVES],
            theirs: [in_c(&Request::FREE); LIVES],
            lost: [false; LIVES],
            cares: 0,
            unasked: 0,
            cleared: 0,
        }
    }

    /// One turn of a request. Newcomers are few, so that clearing comes; one turn in 32 is its node's last.
    fn turn(&mut self, at: usize, dice: &mut Dice) -> Result<(), String> {
        let phase = self.ours[at].phase();
        if phase == Phase::Free {
            return match dice.below(16) {
                0 => self.ask(at, dice.below(2) as u8),
                _ => Ok(()),
            };
        }
        self.lost[at] |= dice.below(32) == 0;
        if self.lost[at] {
            return self.take_care(at);
        }
        match phase {
            Phase::Held => self.play(at, &RELEASE)?,
            _ => self.play(at, &STEP)?,
        };
        Ok(())
    }

    fn ask(&mut self, at: usize, mode: u8) -> Result<(), String> {
        let given = self.ours[at];
        self.ours[at] = Request::opened(at as u16, mode);
        self.lost[at] = false;
        let number = unsafe { c::brancove_ask(&mut self.theirs[at], at as u16, mode) };
        let (ours, theirs) = (in_c(&self.ours[at]), self.theirs[at]);
        same("ask", &given, self.word, (ours, 0), (theirs, number))
    }

    /// Cares until the request is free, or is told to wait for others.
    fn take_care(&mut self, at: usize) -> Result<(), String> {
        loop {
            let told = self.play(at, &CARE)?;
            self.cares += 1;
            self.unasked += u64::from(told.outcome == 12);
            if matches!(told.outcome, 3 | 9) || self.ours[at].phase() == Phase::Free {
                return Ok(());
            }
        }
    }

    /// Sends a verb on either side, where there is one, and takes its result. Requests, answers and words must be equal then.
    fn play(&mut self, at: usize, act: &Act) -> Result<c::Told, String> {
        let given = self.ours[at];
        let verb = (act.verb)(&given);
        let returned = verb.map_or(0, |verb| verb.send(&mut self.word));
        let told = told_in_c((act.take)(&mut self.ours[at], returned));

        let their = &mut self.theirs[at];
        let returned = send(unsafe { (act.sends)(their) }, &mut self.their_word);
        let their_told = unsafe { (act.takes)(their, returned) };
        same(
            format_args!("a life's {}", act.name),
            &given,
            self.word,
            (in_c(&self.ours[at]), told, self.word),
            (*their, their_told, self.their_word),
        )?;
        self.cleared += u64::from(told.outcome == 8);
        Ok(told)
    }
}

/// Lives from words just below a ceiling. Gives how many cares there were, how many of them freed unasked, and how many words were cleared.
fn lives(dice: &mut Dice, turns: u64) -> Result<[u64; 3], String> {
    let mut counts = [0; 3];
    for _ in 0..turns / 4_000 {
        let (writers, readers) = match dice.below(3) {
            0 => (32_760, dice.below(32_000) as u16),
            1 => (dice.below(32_000) as u16, 32_760),
            _ => (32_766, 32_766),
        };
        let mut lives = Lives::on(Counters::new(writers, readers, writers, readers).word());
        for _ in 0..4_000 {
            lives.turn(dice.below(LIVES as u64) as usize, dice)?;
        }
        for (all, one) in counts
            .iter_mut()
            .zip([lives.cares, lives.unasked, lives.cleared])
        {
            *all += one;
        }
    }
    Ok(counts)
}

/// Performs a verb as the header says it.
fn send(verb: c::Verb, word: &mut u64) -> u64 {
    let before = *word;
    match verb.kind {
        1 => *word = before.wrapping_add(verb.first),
        3 if before == verb.first => *word = verb.second,
        _ => {}
    }
    before
}

fn all(seed: u64, requests: u64) -> Result<(), String> {
    let mut dice = Dice::seeded(seed);
    println!("agents: seed {seed}");
    println!(
        "agents: {} requests on edges, six functions each: equal",
        edges()?
    );
    println!("agents: {} asks: equal", asks()?);
    by_chance(&mut dice, requests)?;
    println!("agents: {requests} requests by chance, eight functions each: equal");
    let turns = requests / 4_000 * 4_000;
    let [cares, unasked, cleared] = lives(&mut dice, turns)?;
    println!(
        "agents: {turns} turns of lives on words near the ceiling, {cares} cares, {unasked} freed unasked, {cleared} times cleared: equal"
    );
    Ok(())
}

fn main() -> ExitCode {
    let arguments: Vec<u64> = std::env::args()
        .skip(1)
        .map_while(|text| text.parse().ok())
        .collect();
    let [seed, requests] = arguments[..] else {
        eprintln!("agents SEED REQUESTS");
        return ExitCode::from(2);
    };
    match all(seed, requests) {
        Ok(()) => ExitCode::SUCCESS,
        Err(said) => {
            println!("agents: DIFFERENCE in {said}");
            ExitCode::FAILURE
        }
    }
}
