//! Times the archive's agent beside a plain Rust one, in one process and in turns, and prints medians. Differences in what they do end it first.

#[allow(dead_code)]
mod loads;

use loads::Dice;
use std::hint::black_box;
use std::process::ExitCode;
use std::time::Instant;

/// A request, as include/brancove.h has it.
#[derive(Clone, Copy, Debug, Default, PartialEq, Eq)]
#[repr(C)]
struct Request {
    record: u16,
    mode: u8,
    phase: u8,
    x: u16,
    s: u16,
    clearing: u64,
}

#[derive(Clone, Copy, Debug, Default, PartialEq, Eq)]
#[repr(C)]
struct Verb {
    kind: u8,
    first: u64,
    second: u64,
}

#[derive(Clone, Copy, Debug, Default, PartialEq, Eq)]
#[repr(C)]
struct Told {
    number: u8,
    outcome: u8,
    ahead: u64,
}

unsafe extern "C" {
    fn brancove_step_sends(q: &mut Request) -> Verb;
    fn brancove_step_takes(q: &mut Request, result: u64) -> Told;
    fn brancove_release_sends(q: &mut Request) -> Verb;
    fn brancove_release_takes(q: &mut Request, result: u64) -> Told;
}

/// The rival: the same rules as one would write them in Rust for speed.
mod plain {
    use super::{Request, Told, Verb};

    const CEIL: u16 = 32_768;

    fn add(number: u64) -> Verb {
        Verb {
            kind: 1,
            first: number,
            second: 0,
        }
    }

    fn told(outcome: u8) -> Told {
        Told {
            outcome,
            ..Told::default()
        }
    }

    const REFUSED: Told = Told {
        number: 5,
        outcome: 0,
        ahead: 0,
    };

    fn freed(q: &mut Request, outcome: u8) -> Told {
        *q = Request::default();
        told(outcome)
    }

    /// The word at rest after so many writers and readers.
    fn at_rest(writers: u16, readers: u16) -> u64 {
        (u64::from(writers) << 16 | u64::from(readers)) * 0x1_0000_0001
    }

    fn turn(q: &mut Request, word: u64) -> Told {
        let (n_x, n_s, writer) = ((word >> 48) as u16, (word >> 32) as u16, q.mode != 0);
        if n_x > q.x || writer && n_s > q.s {
            return freed(q, 11);
        }
        if n_x == q.x && (!writer || n_s == q.s) {
            q.phase = 3;
            return told(2);
        }
        q.phase = 2;
        let (writers, readers) = (q.x - n_x, if writer { q.s - n_s } else { 0 });
        Told {
            ahead: u64::from(writers) + u64::from(readers),
            ..told(3)
        }
    }

    fn asked(q: &mut Request, word: u64) -> Told {
        let (m_x, m_s) = ((word >> 16) as u16, word as u16);
        if m_x >= CEIL || m_s >= CEIL {
            q.phase = 4;
            return told(4);
        }
        (q.x, q.s) = (m_x, m_s);
        q.clearing = match q.mode {
            0 if m_s == CEIL - 1 => at_rest(m_x, CEIL),
            1.. if m_x == CEIL - 1 => at_rest(CEIL, m_s),
            _ => 0,
        };
        turn(q, word)
    }

    #[inline]
    pub fn step_sends(q: &mut Request) -> Verb {
        let one = if q.mode == 0 { 1 } else { 1 << 16 };
        match q.phase {
            1 => add(one),
            2 => Verb {
                kind: 2,
                ..Verb::default()
            },
            4 => add(one.wrapping_neg()),
            5 => Verb {
                kind: 3,
                first: q.clearing,
                second: 0,
            },
            _ => Verb::default(),
        }
    }

    #[inline]
    pub fn step_takes(q: &mut Request, result: u64) -> Told {
        match q.phase {
            1 => asked(q, result),
            2 => turn(q, result),
            4 => freed(q, 5),
            5 if q.clearing == result => freed(q, 8),
            5 => told(9),
            _ => REFUSED,
        }
    }

    #[inline]
    pub fn release_sends(q: &mut Request) -> Verb {
        match q.phase {
            3 => add(if q.mode == 0 { 1 << 32 } else { 1 << 48 }),
            _ => Verb::default(),
        }
    }

    #[inline]
    pub fn release_takes(q: &mut Request, _result: u64) -> Told {
        if q.phase != 3 {
            return REFUSED;
        }
        if q.clearing == 0 {
            return freed(q, 6);
        }
        q.phase = 5;
        told(7)
    }
}

/// The four functions of an agent.
trait Agent {
    fn step_sends(q: &mut Request) -> Verb;
    fn step_takes(q: &mut Request, result: u64) -> Told;
    fn release_sends(q: &mut Request) -> Verb;
    fn release_takes(q: &mut Request, result: u64) -> Told;
}

/// The rival behind the archive's boundary: as a caller in C would have it.
mod called {
    use super::{Request, Told, Verb, plain};

    #[inline(never)]
    pub extern "C" fn step_sends(q: &mut Request) -> Verb {
        plain::step_sends(q)
    }

    #[inline(never)]
    pub extern "C" fn step_takes(q: &mut Request, result: u64) -> Told {
        plain::step_takes(q, result)
    }

    #[inline(never)]
    pub extern "C" fn release_sends(q: &mut Request) -> Verb {
        plain::release_sends(q)
    }

    #[inline(never)]
    pub extern "C" fn release_takes(q: &mut Request, result: u64) -> Told {
        plain::release_takes(q, result)
    }
}

macro_rules! agent {
    ($name:ident: $step_sends:path, $step_takes:path, $release_sends:path, $release_takes:path) => {
        struct $name;

        // SAFETY: each function gets one request that lives and is used by nobody else.
        #[allow(unused_unsafe)]
        impl Agent for $name {
            #[inline(always)]
            fn step_sends(q: &mut Request) -> Verb {
                unsafe { $step_sends(q) }
            }
            #[inline(always)]
            fn step_takes(q: &mut Request, result: u64) -> Told {
                unsafe { $step_takes(q, result) }
            }
            #[inline(always)]
            fn release_sends(q: &mut Request) -> Verb {
                unsafe { $release_sends(q) }
            }
            #[inline(always)]
            fn release_takes(q: &mut Request, result: u64) -> Told {
                unsafe { $release_takes(q, result) }
            }
        }
    };
}

agent!(Proved: brancove_step_sends, brancove_step_takes, brancove_release_sends, brancove_release_takes);
agent!(Called: called::step_sends, called::step_takes, called::release_sends, called::release_takes);
agent!(Inlined: plain::step_sends, plain::step_takes, plain::release_sends, plain::release_takes);

/// A request and what its verb gave back.
type Case = (Request, u64);

fn word(n_x: u64, n_s: u64, m_x: u64, m_s: u64) -> u64 {
    n_x << 48 | n_s << 32 | m_x << 16 | m_s
}

const CASES: usize = 4_096;

/// Requests that ask on a word where some wait and some are granted.
fn asking() -> Vec<Case> {
    let mut dice = Dice::new(0x5eed_0011);
    let case = |_| {
        let (n_x, n_s) = (dice.below(3), dice.below(9));
        let request = Request {
            record: dice.below(64) as u16,
            mode: dice.below(2) as u8,
            phase: 1,
            ..Request::default()
        };
        (
            request,
            word(
                n_x as u64,
                n_s as u64,
                (n_x + dice.below(2)) as u64,
                (n_s + dice.below(2)) as u64,
            ),
        )
    };
    (0..CASES).map(case).collect()
}

/// Requests that wait and read a word at which it is not their turn yet.
fn waiting() -> Vec<Case> {
    let mut dice = Dice::new(0x5eed_0012);
    let case = |_| {
        let (x, s) = (1 + dice.below(40), 1 + dice.below(40));
        let request = Request {
            record: 1,
            mode: dice.below(2) as u8,
            phase: 2,
            x: x as u16,
            s: s as u16,
            clearing: 0,
        };
        (
            request,
            word(dice.below(x) as u64, dice.below(s) as u64, 99, 99),
        )
    };
    (0..CASES).map(case).collect()
}

/// Every phase that sends on a step, in no order.
fn any_phase() -> Vec<Case> {
    let mut dice = Dice::new(0x5eed_0013);
    let (asking, waiting) = (asking(), waiting());
    let case = |at: usize| match dice.below(8) {
        0..3 => asking[at],
        3..6 => waiting[at],
        6 => (
            Request {
                phase: 4,
                ..asking[at].0
            },
            asking[at].1,
        ),
        _ => (
            Request {
                phase: 5,
                clearing: waiting[at].1,
                ..waiting[at].0
            },
            waiting[at].1 ^ dice.below(2) as u64,
        ),
    };
    (0..CASES).map(case).collect()
}

fn held() -> Vec<Case> {
    let mut cases = waiting();
    for (at, (request, _)) in cases.iter_mut().enumerate() {
        request.phase = 3;
        request.clearing = if at % 64 == 0 { 9 } else { 0 };
    }
    cases
}

struct Load {
    name: &'static str,
    cases: Vec<Case>,
    releases: bool,
}

impl Load {
    /// Nanoseconds per case of one turn. What comes of a case goes into a sum, so that it is computed.
    #[inline(never)]
    fn turn<A: Agent>(&self) -> f64 {
        const TIMES: usize = 25;
        let start = Instant::now();
        let mut sum = 0u64;
        for _ in 0..TIMES {
            for &(request, result) in black_box(&self.cases) {
                let mut q = request;
                let (verb, told) = match self.releases {
                    true => (A::release_sends(&mut q), A::release_takes(&mut q, result)),
                    false => (A::step_sends(&mut q), A::step_takes(&mut q, result)),
                };
                black_box(&q);
                sum =
                    sum.wrapping_add(verb.first ^ told.ahead ^ u64::from(verb.kind ^ told.outcome));
            }
        }
        black_box(sum);
        start.elapsed().as_nanos() as f64 / (TIMES * self.cases.len()) as f64
    }
}

/// What one agent makes of a case, in all four functions.
fn made<A: Agent>((request, result): Case) -> [(Request, Verb, Told); 2] {
    let (mut a, mut b) = (request, request);
    let verbs = (A::step_sends(&mut a), A::release_sends(&mut b));
    let told = (
        A::step_takes(&mut a, result),
        A::release_takes(&mut b, result),
    );
    [(a, verbs.0, told.0), (b, verbs.1, told.1)]
}

/// Requests and results by chance, many of them near the ceiling.
fn by_chance(dice: &mut Dice) -> Case {
    let mut count = || match dice.below(3) {
        0 => 32_764 + dice.below(8) as u64,
        1 => dice.below(4) as u64,
        _ => dice.below(65_536) as u64,
    };
    let result = word(count(), count(), count(), count());
    let (x, s) = (count() as u16, count() as u16);
    let request = Request {
        record: dice.below(65_536) as u16,
        mode: [0, 1, 2, 255][dice.below(4)],
        phase: [0, 1, 1, 2, 2, 3, 4, 5, 6, 255][dice.below(10)],
        x,
        s,
        clearing: [0, result, 7][dice.below(3)],
    };
    (request, result)
}

const ROUNDS: usize = 61;
/// Rounds before these, which do not count.
const WARM: usize = 2;

fn main() -> ExitCode {
    let loads = [
        Load {
            name: "step, asking",
            cases: asking(),
            releases: false,
        },
        Load {
            name: "step, waiting",
            cases: waiting(),
            releases: false,
        },
        Load {
            name: "step, any phase",
            cases: any_phase(),
            releases: false,
        },
        Load {
            name: "release",
            cases: held(),
            releases: true,
        },
    ];
    let mut dice = Dice::new(0x5eed_0014);
    let chance = (0..1_000_000).map(|_| by_chance(&mut dice));
    let mut compared = 0;
    for case in loads
        .iter()
        .flat_map(|load| load.cases.iter().copied())
        .chain(chance)
    {
        let (proved, plain) = (made::<Proved>(case), made::<Inlined>(case));
        if proved != plain {
            println!("FAILED: the two agents differ on {case:?}\n{proved:?}\n{plain:?}");
            return ExitCode::FAILURE;
        }
        compared += 1;
    }
    println!("{compared} requests compared in four functions: equal");
    println!(
        "{ROUNDS} rounds in turns; ns per verb sent and taken, the median round (the fastest round)"
    );
    println!(
        "called: the Rust agent behind the same C boundary; inlined: the Rust agent in the loop itself\n"
    );
    println!(
        "{:<16} {:>16} {:>16} {:>16} {:>10} {:>10}",
        "load", "proved", "called", "inlined", "to called", "to inlined"
    );
    for load in &loads {
        let mut times = [const { Vec::new() }; 3];
        for round in 0..ROUNDS + WARM {
            let taken = [
                load.turn::<Proved>(),
                load.turn::<Called>(),
                load.turn::<Inlined>(),
            ];
            if round >= WARM {
                times
                    .iter_mut()
                    .zip(taken)
                    .for_each(|(times, time)| times.push(time));
            }
        }
        times
            .iter_mut()
            .for_each(|times| times.sort_by(f64::total_cmp));
        let [proved, called, inlined] = times.each_ref().map(|times| times[ROUNDS / 2]);
        let [a, b, c] = times
            .each_ref()
            .map(|times| format!("{:.2} ({:.2})", times[ROUNDS / 2], times[0]));
        println!(
            "{:<16} {a:>16} {b:>16} {c:>16} {:>10.2} {:>10.2}",
            load.name,
            proved / called,
            proved / inlined
        );
    }
    ExitCode::SUCCESS
}
