//! Schedules drawn to trouble a player. The same class and the same dice always give the same bytes.

use crate::dice::Dice;
use crate::player::MOST_INPUT_BYTES;
use crate::random::{Damage, Plan};
use crate::schedule::Call;

/// How a schedule is drawn. The names are printed.
pub const CLASSES: [(&str, fn(&mut Dice) -> Vec<u8>); 18] = [
    ("nothing", |_| Vec::new()),
    ("one record", one_record),
    ("a few records", |dice| planned(dice, 13, 60, Damage::None)),
    ("hundreds of bytes", |dice| {
        planned(dice, 100, 999, Damage::None)
    }),
    ("thousands of bytes", |dice| {
        planned(dice, 1_000, 9_999, Damage::None)
    }),
    ("tens of thousands", |dice| {
        planned(dice, 10_000, 65_530, Damage::None)
    }),
    ("the most bytes", |dice| filled(dice, MOST_INPUT_BYTES)),
    ("a byte too many", |dice| filled(dice, MOST_INPUT_BYTES + 1)),
    ("any bytes", any_bytes),
    ("small bytes", small_bytes),
    ("a full board", full_board),
    ("a crowd on one record", |dice| crowd(dice, 0)),
    ("refused calls", refused_calls),
    ("an unknown kind", unknown_kind),
    ("a cut body", cut_body),
    ("changed bytes", |dice| {
        let times = 1 + dice.below(6);
        planned(dice, 20, 3_000, Damage::ChangedBytes(times))
    }),
    ("a crowd and lost nodes", |dice| {
        let nodes = 1 + dice.below(6);
        crowd(dice, nodes)
    }),
    ("nodes lost at the end", lost_at_the_end),
];

/// The classes that take long to play, by their places.
pub const LONG: std::ops::RangeInclusive<usize> = 5..=7;

/// Numbers that are likely to matter, and any other.
fn slot(dice: &mut Dice) -> u8 {
    match dice.below(4) {
        0 => [0, 1, 63, 64, 127, 128, 191, 192, 254, 255][dice.below(10) as usize],
        _ => dice.below(256) as u8,
    }
}

fn record(dice: &mut Dice) -> u16 {
    match dice.below(4) {
        0 => [0, 1, 62, 63, 64, 65, 255, 256, 4_095, 4_096, 65_535][dice.below(11) as usize],
        1 => dice.below(1 << 16) as u16,
        _ => dice.below(64) as u16,
    }
}

fn mode(dice: &mut Dice) -> u8 {
    match dice.below(8) {
        0 => [2, 3, 127, 128, 255][dice.below(5) as usize],
        _ => dice.below(2) as u8,
    }
}

/// Few nodes, so that fences meet them, and rarely any other.
fn node(dice: &mut Dice) -> u8 {
    match dice.below(8) {
        0 => [127, 128, 254, 255][dice.below(4) as usize],
        1 => dice.below(256) as u8,
        _ => dice.below(3) as u8,
    }
}

fn call(dice: &mut Dice) -> Call {
    match dice.below(7) {
        0 => Call::Open {
            record: record(dice),
            mode: mode(dice),
        },
        1 => Call::Step { slot: slot(dice) },
        2 => Call::Release { slot: slot(dice) },
        3 => Call::Show {
            record: record(dice),
        },
        4 => Call::OpenFor {
            record: record(dice),
            mode: mode(dice),
            node: node(dice),
        },
        5 if dice.one_in(4) => Call::Fence { node: node(dice) },
        _ => Call::Care { slot: slot(dice) },
    }
}

/// An open for one of so many nodes, node 0 also by the kind that names none.
fn open_by(dice: &mut Dice, nodes: u64, record: u16, mode: u8) -> Call {
    match dice.below(nodes + 1) {
        0 => Call::Open { record, mode },
        number => Call::OpenFor {
            record,
            mode,
            node: number as u8 - 1,
        },
    }
}

fn put(schedule: &mut Vec<u8>, call: Call) {
    schedule.extend_from_slice(&call.bytes());
}

fn one_record(dice: &mut Dice) -> Vec<u8> {
    call(dice).bytes()
}

/// Calls that mostly fit the phases.
fn planned(dice: &mut Dice, least: u64, most: u64, damage: Damage) -> Vec<u8> {
    Plan {
        seed: dice.below(u64::MAX),
        length: (least + dice.below(most - least + 1)) as usize,
        records: [1, 2, 3, 8, 64][dice.below(5) as usize],
        writers_in_eight: dice.below(9),
        most_in_use: [2, 6, 20, 100, 256][dice.below(5) as usize],
        wrong_calls_in_sixteen: [0, 1, 4][dice.below(3) as usize],
        nodes: [0, 1, 2, 5, 40][dice.below(5) as usize],
        damage,
    }
    .schedule()
}

/// A long schedule of exactly so many bytes. The bytes put on at the end may be a cut record.
fn filled(dice: &mut Dice, length: usize) -> Vec<u8> {
    let mut schedule = planned(dice, 50_000, 65_000, Damage::None);
    while schedule.len() + 5 <= length {
        put(&mut schedule, call(dice));
    }
    while schedule.len() < length {
        schedule.push(dice.below(8) as u8);
    }
    schedule
}

fn any_bytes(dice: &mut Dice) -> Vec<u8> {
    (0..dice.below(300))
        .map(|_| dice.below(256) as u8)
        .collect()
}

/// Bytes from 1 to 7, rarely 0 or 8: kinds, slots, records, modes and nodes at once.
fn small_bytes(dice: &mut Dice) -> Vec<u8> {
    let unknown_in = 100 + dice.below(3_000);
    (0..dice.below(4_000))
        .map(|_| match dice.one_in(unknown_in) {
            true => 8 * dice.below(2) as u8,
            false => 1 + dice.below(7) as u8,
        })
        .collect()
}

/// Opens up to and past the last slot, some slots freed and opened again, then all kinds of calls.
fn full_board(dice: &mut Dice) -> Vec<u8> {
    let mut schedule = Vec::new();
    let records = 1 + dice.below(64);
    let nodes = dice.below(4);
    let open = |dice: &mut Dice| {
        let (record, mode) = (dice.below(records) as u16, dice.below(2) as u8);
        open_by(dice, nodes, record, mode)
    };
    for _ in 0..255 + dice.below(4) {
        put(&mut schedule, open(dice));
    }
    for _ in 0..dice.below(2_000) {
        let slot = slot(dice);
        match dice.below(8) {
            0 => put(&mut schedule, open(dice)),
            1 => put(&mut schedule, call(dice)),
            2 | 3 => put(&mut schedule, Call::Release { slot }),
            4 if nodes > 0 => put(&mut schedule, Call::Care { slot }),
            _ => put(&mut schedule, Call::Step { slot }),
        }
    }
    schedule
}

/// Many requests on one record that ask in one order and are stepped and released in another. Where nodes are named, they are
/// lost one by one and some of their slots cared for.
fn crowd(dice: &mut Dice, nodes: u64) -> Vec<u8> {
    let mut schedule = Vec::new();
    let record = dice.below(64) as u16;
    let number = 2 + dice.below(255);
    let writers_in_eight = dice.below(9);
    for _ in 0..number {
        let mode = u8::from(dice.below(8) < writers_in_eight);
        put(&mut schedule, open_by(dice, nodes, record, mode));
    }
    let mut order: Vec<u8> = (0..number).map(|slot| slot as u8).collect();
    for round in 0..2 + dice.below(6) {
        match dice.below(4) {
            0 => order.reverse(),
            1 => {}
            _ => (1..order.len()).for_each(|at| order.swap(at, dice.below(at as u64 + 1) as usize)),
        }
        if nodes > 0 && round > 0 {
            let node = dice.below(nodes) as u8;
            put(&mut schedule, Call::Fence { node });
        }
        for &slot in &order {
            put(&mut schedule, Call::Step { slot });
            if round > 0 && dice.one_in(2) {
                put(&mut schedule, Call::Release { slot });
            }
            if nodes > 0 && round > 0 && dice.one_in(3) {
                put(&mut schedule, Call::Care { slot });
            }
            if dice.one_in(16) {
                put(&mut schedule, Call::Show { record });
            }
            if dice.one_in(16) {
                let mode = dice.below(2) as u8;
                put(&mut schedule, open_by(dice, nodes, record, mode));
            }
        }
    }
    schedule
}

/// Requests of a few nodes in all phases, on few records; then some of the nodes are lost, and nobody cares.
fn lost_at_the_end(dice: &mut Dice) -> Vec<u8> {
    let mut schedule = Vec::new();
    let (nodes, records) = (1 + dice.below(5), 1 + dice.below(3));
    let slots = 1 + dice.below(40);
    for _ in 0..dice.below(300) {
        let slot = dice.below(slots) as u8;
        let (record, mode) = (dice.below(records) as u16, dice.below(2) as u8);
        let call = match dice.below(8) {
            0..=2 => open_by(dice, nodes, record, mode),
            3 => Call::Release { slot },
            _ => Call::Step { slot },
        };
        put(&mut schedule, call);
    }
    for node in 0..nodes as u8 {
        if dice.one_in(2) {
            put(&mut schedule, Call::Fence { node });
        }
    }
    schedule
}

/// Calls drawn without a look at the board.
fn refused_calls(dice: &mut Dice) -> Vec<u8> {
    let mut schedule = Vec::new();
    for _ in 0..1 + dice.below(800) {
        put(&mut schedule, call(dice));
    }
    schedule
}

/// A byte that is no kind, between two records.
fn unknown_kind(dice: &mut Dice) -> Vec<u8> {
    let mut schedule = planned(dice, 13, 2_000, Damage::None);
    schedule.push([0, 8, 9, 127, 128, 254, 255][dice.below(7) as usize]);
    schedule.extend(any_bytes(dice));
    schedule
}

/// The last record without its last byte or more.
fn cut_body(dice: &mut Dice) -> Vec<u8> {
    let mut schedule = planned(dice, 13, 2_000, Damage::None);
    let last = call(dice).bytes();
    let kept = 1 + dice.below(last.len() as u64 - 1) as usize;
    schedule.extend_from_slice(&last[..kept]);
    schedule
}
