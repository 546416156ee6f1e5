//! The stored case schedules, in the order in which they are played.

use crate::lost;
use crate::player::MOST_INPUT_BYTES;
use crate::random::{plans, Damage};
use crate::schedule::{BODY_CUT_SHORT, UNKNOWN_KIND};
use crate::script::{
    asks, granted, open, opened, refused, release, released, show, shown, step, waiting, Line,
    Script, READER, WRITER,
};

/// A schedule under a name that says what it shows.
pub struct Case {
    pub name: String,
    pub schedule: Vec<u8>,
    by_hand: Option<Script>,
}

impl Case {
    pub fn by_hand(name: impl Into<String>, script: Script) -> Self {
        Case {
            name: name.into(),
            schedule: script.schedule(),
            by_hand: Some(script),
        }
    }

    pub fn of_bytes(name: impl Into<String>, schedule: Vec<u8>) -> Self {
        Case {
            name: name.into(),
            schedule,
            by_hand: None,
        }
    }

    /// Compares the entries set by hand, where there are any, with the computed ones.
    pub fn compare(&self) -> Result<(), String> {
        let Some(script) = &self.by_hand else {
            return Ok(());
        };
        script
            .compare()
            .map_err(|difference| format!("{}: {difference}", self.name))
    }
}

pub fn all() -> Vec<Case> {
    let mut cases = vec![
        Case::by_hand("worked_example", worked_example()),
        Case::by_hand("empty", Script::default()),
        Case::by_hand("slow_reader_is_still_granted", slow_reader()),
        Case::by_hand("writer_behind_readers", writer_behind_readers()),
        Case::by_hand(
            "later_reader_does_not_overtake_a_waiting_writer",
            later_reader(),
        ),
        Case::by_hand(
            "reader_behind_a_writer_and_two_readers_waits_for_1",
            reader_behind_a_writer_and_two_readers(),
        ),
        Case::by_hand(
            "reader_behind_two_writers_waits_for_2",
            reader_behind_two_writers(),
        ),
        Case::by_hand(
            "reader_opened_first_but_stepped_after_a_writer",
            reader_opened_before_a_writer(),
        ),
        Case::by_hand(
            "number_ahead_of_a_reader_falls_with_writers_only",
            number_of_a_reader_falls(),
        ),
        Case::by_hand(
            "number_ahead_of_a_writer_falls_with_both_kinds",
            number_of_a_writer_falls(),
        ),
        Case::by_hand(
            "later_tickets_change_no_number_ahead",
            later_tickets_change_no_number(),
        ),
        Case::by_hand("readers_share", readers_share()),
        Case::by_hand("records_are_independent", records_are_independent()),
        Case::by_hand(
            "two_hundred_and_fifty_six_opens_and_one_more",
            one_open_too_many(),
        ),
        Case::by_hand(
            "two_hundred_and_fifty_six_requests_on_one_record",
            all_slots_on_one_record(),
        ),
        Case::by_hand("freed_slots_are_used_again_lowest_first", freed_slots()),
        Case::by_hand("every_slot_is_free_at_first", every_slot_is_free()),
        Case::by_hand("every_refusal_number", every_refusal_number()),
        Case::by_hand("show_of_every_record", show_of_every_record()),
    ];
    cases.extend(lost::played());
    cases.extend(unknown_kinds());
    cases.extend(cut_bodies());
    cases.extend(long_inputs());
    cases.extend(random_calls());
    cases
}

pub fn worked_example() -> Script {
    Script::of([
        open(0, WRITER).gives(opened(0)),
        step(0).gives(granted(0)),
        release(0).gives(released(0)),
        show(0).gives(shown(1, 0, 1, 0)),
    ])
}

/// The second of two readers is served and leaves before the first one looks.
pub fn slow_reader() -> Script {
    Script::of([
        open(0, WRITER).gives(opened(0)),
        step(0).gives(granted(0)),
        open(0, READER).gives(opened(1)),
        step(1).gives(waiting(1, 1)),
        open(0, READER).gives(opened(2)),
        step(2).gives(waiting(2, 1)),
        release(0).gives(released(0)),
        step(2).gives(granted(2)),
        release(2).gives(released(2)),
        show(0).gives(shown(1, 1, 1, 2)),
        step(1).gives(granted(1)),
        show(0).gives(shown(1, 1, 1, 2)),
        release(1).gives(released(1)),
        show(0).gives(shown(1, 2, 1, 2)),
    ])
}

/// A writer asks while two readers hold. It is granted after both have released.
pub fn writer_behind_readers() -> Script {
    Script::of([
        open(5, READER).gives(opened(0)),
        step(0).gives(granted(0)),
        open(5, READER).gives(opened(1)),
        step(1).gives(granted(1)),
        open(5, WRITER).gives(opened(2)),
        step(2).gives(waiting(2, 2)),
        release(1).gives(released(1)),
        step(2).gives(waiting(2, 1)),
        release(0).gives(released(0)),
        step(2).gives(granted(2)),
        show(5).gives(shown(0, 2, 1, 2)),
        release(2).gives(released(2)),
        show(5).gives(shown(1, 2, 1, 2)),
    ])
}

/// The reader could share with the holder, but a writer drew its ticket in between.
fn later_reader() -> Script {
    Script::of([
        open(0, READER).gives(opened(0)),
        step(0).gives(granted(0)),
        open(0, WRITER).gives(opened(1)),
        step(1).gives(waiting(1, 1)),
        open(0, READER).gives(opened(2)),
        step(2).gives(waiting(2, 1)),
        release(0).gives(released(0)),
        step(2).gives(waiting(2, 1)),
        step(1).gives(granted(1)),
        step(2).gives(waiting(2, 1)),
        release(1).gives(released(1)),
        step(2).gives(granted(2)),
        release(2).gives(released(2)),
        show(0).gives(shown(1, 2, 1, 2)),
    ])
}

/// The writer stands first. Each reader waits for it and for no other reader.
fn reader_behind_a_writer_and_two_readers() -> Script {
    let mut lines = [
        asks(0, WRITER, granted(0)),
        asks(0, READER, waiting(1, 1)),
        asks(0, READER, waiting(2, 1)),
        asks(0, READER, waiting(3, 1)),
    ]
    .concat();
    lines.extend([
        step(3).gives(waiting(3, 1)),
        show(0).gives(shown(0, 0, 1, 3)),
        release(0).gives(released(0)),
        step(3).gives(granted(3)),
    ]);
    Script::of(lines)
}

/// Both writers count, the one that holds and the one that waits.
fn reader_behind_two_writers() -> Script {
    let mut lines = [
        asks(0, WRITER, granted(0)),
        asks(0, WRITER, waiting(1, 1)),
        asks(0, READER, waiting(2, 2)),
    ]
    .concat();
    lines.extend([
        step(2).gives(waiting(2, 2)),
        release(0).gives(released(0)),
        step(2).gives(waiting(2, 1)),
        step(1).gives(granted(1)),
        release(1).gives(released(1)),
        step(2).gives(granted(2)),
    ]);
    Script::of(lines)
}

/// A ticket is drawn with the first step, so the writer's is before that of the second reader.
fn reader_opened_before_a_writer() -> Script {
    Script::of([
        open(0, READER).gives(opened(0)),
        open(0, READER).gives(opened(1)),
        open(0, WRITER).gives(opened(2)),
        step(0).gives(granted(0)),
        step(2).gives(waiting(2, 1)),
        step(1).gives(waiting(1, 1)),
    ])
}

/// Tickets: two readers that hold, a writer, a reader, a writer, and the reader that looks again and again.
fn number_of_a_reader_falls() -> Script {
    let mut lines = [
        asks(4, READER, granted(0)),
        asks(4, READER, granted(1)),
        asks(4, WRITER, waiting(2, 2)),
        asks(4, READER, waiting(3, 1)),
        asks(4, WRITER, waiting(4, 4)),
        asks(4, READER, waiting(5, 2)),
    ]
    .concat();
    lines.extend([
        // The two readers release.
        release(1).gives(released(1)),
        step(5).gives(waiting(5, 2)),
        release(0).gives(released(0)),
        step(5).gives(waiting(5, 2)),
        // The first writer is granted and releases.
        step(2).gives(granted(2)),
        step(5).gives(waiting(5, 2)),
        release(2).gives(released(2)),
        step(5).gives(waiting(5, 1)),
        // The reader between the writers is granted and releases.
        step(3).gives(granted(3)),
        step(5).gives(waiting(5, 1)),
        release(3).gives(released(3)),
        step(5).gives(waiting(5, 1)),
        // The second writer is granted and releases.
        step(4).gives(granted(4)),
        step(5).gives(waiting(5, 1)),
        release(4).gives(released(4)),
        step(5).gives(granted(5)),
        show(4).gives(shown(2, 3, 2, 4)),
    ]);
    Script::of(lines)
}

/// Tickets: a writer that holds, two readers, a writer, a reader, and the writer that looks again and again.
fn number_of_a_writer_falls() -> Script {
    let mut lines = [
        asks(6, WRITER, granted(0)),
        asks(6, READER, waiting(1, 1)),
        asks(6, READER, waiting(2, 1)),
        asks(6, WRITER, waiting(3, 3)),
        asks(6, READER, waiting(4, 2)),
        asks(6, WRITER, waiting(5, 5)),
    ]
    .concat();
    lines.extend([
        // The first writer releases.
        release(0).gives(released(0)),
        step(5).gives(waiting(5, 4)),
        // The two readers are granted and release, the later one first.
        step(1).gives(granted(1)),
        step(2).gives(granted(2)),
        step(5).gives(waiting(5, 4)),
        release(2).gives(released(2)),
        step(5).gives(waiting(5, 3)),
        release(1).gives(released(1)),
        step(5).gives(waiting(5, 2)),
        // The second writer is granted and releases.
        step(3).gives(granted(3)),
        step(5).gives(waiting(5, 2)),
        release(3).gives(released(3)),
        step(5).gives(waiting(5, 1)),
        // The reader between the writers is granted and releases.
        step(4).gives(granted(4)),
        step(5).gives(waiting(5, 1)),
        release(4).gives(released(4)),
        step(5).gives(granted(5)),
        show(6).gives(shown(2, 3, 3, 3)),
    ]);
    Script::of(lines)
}

/// Those who wait look again while further requests are opened and draw their tickets.
fn later_tickets_change_no_number() -> Script {
    Script::of([
        open(0, WRITER).gives(opened(0)),
        step(0).gives(granted(0)),
        open(0, READER).gives(opened(1)),
        step(1).gives(waiting(1, 1)),
        open(0, WRITER).gives(opened(2)),
        step(1).gives(waiting(1, 1)),
        step(2).gives(waiting(2, 2)),
        step(1).gives(waiting(1, 1)),
        open(0, READER).gives(opened(3)),
        step(2).gives(waiting(2, 2)),
        step(3).gives(waiting(3, 2)),
        step(1).gives(waiting(1, 1)),
        step(2).gives(waiting(2, 2)),
        open(0, WRITER).gives(opened(4)),
        step(4).gives(waiting(4, 4)),
        step(1).gives(waiting(1, 1)),
        step(2).gives(waiting(2, 2)),
        step(3).gives(waiting(3, 2)),
        open(0, READER).gives(opened(5)),
        step(5).gives(waiting(5, 3)),
        step(1).gives(waiting(1, 1)),
        step(2).gives(waiting(2, 2)),
        step(3).gives(waiting(3, 2)),
        step(4).gives(waiting(4, 4)),
        show(0).gives(shown(0, 0, 3, 3)),
    ])
}

fn readers_share() -> Script {
    let mut lines = Vec::new();
    for slot in 0..10 {
        lines.push(open(7, READER).gives(opened(slot)));
        lines.push(step(slot).gives(granted(slot)));
    }
    lines.push(show(7).gives(shown(0, 0, 0, 10)));
    for slot in (0..10).rev() {
        lines.push(release(slot).gives(released(slot)));
    }
    lines.push(show(7).gives(shown(0, 10, 0, 10)));
    Script::of(lines)
}

/// A writer holds each record at the same time; each second writer waits for its own record only.
fn records_are_independent() -> Script {
    let mut lines = Vec::new();
    for record in 0..64 {
        let slot = record as u8;
        lines.push(open(record, WRITER).gives(opened(slot)));
        lines.push(step(slot).gives(granted(slot)));
    }
    for record in 0..64 {
        let slot = 64 + record as u8;
        lines.push(open(record, WRITER).gives(opened(slot)));
        lines.push(step(slot).gives(waiting(slot, 1)));
    }
    lines.push(release(40).gives(released(40)));
    for slot in 64..128 {
        let entry = if slot == 104 {
            granted(slot)
        } else {
            waiting(slot, 1)
        };
        lines.push(step(slot).gives(entry));
    }
    lines.push(show(39).gives(shown(0, 0, 2, 0)));
    lines.push(show(40).gives(shown(1, 0, 2, 0)));
    lines.push(show(41).gives(shown(0, 0, 2, 0)));
    Script::of(lines)
}

fn open_all_slots(mode: impl Fn(u8) -> u8, record: impl Fn(u8) -> u16) -> Vec<Line> {
    (0..=255)
        .map(|slot| open(record(slot), mode(slot)).gives(opened(slot)))
        .collect()
}

fn one_open_too_many() -> Script {
    let mut lines = open_all_slots(|slot| slot % 2, |slot| u16::from(slot % 64));
    lines.extend([
        open(0, READER).gives(refused(6, 0)),
        open(63, WRITER).gives(refused(6, 0)),
        release(0).gives(refused(5, 0)),
        release(255).gives(refused(5, 255)),
        step(0).gives(granted(0)),
        open(0, READER).gives(refused(6, 0)),
        release(0).gives(released(0)),
        step(0).gives(refused(4, 0)),
        open(9, WRITER).gives(opened(0)),
        open(9, WRITER).gives(refused(6, 0)),
        step(255).gives(granted(255)),
        release(255).gives(released(255)),
        open(9, READER).gives(opened(255)),
        open(9, READER).gives(refused(6, 0)),
        show(0).gives(shown(0, 1, 0, 1)),
        show(63).gives(shown(1, 0, 1, 0)),
    ]);
    Script::of(lines)
}

/// Each fourth is a writer. It waits for all before it, a reader for the writers among them; then all are served in order.
fn all_slots_on_one_record() -> Script {
    let mut lines = open_all_slots(|slot| u8::from(slot % 4 == 0), |_| 3);
    lines.push(step(0).gives(granted(0)));
    for slot in 1..=255 {
        let ahead = if slot % 4 == 0 { slot } else { slot / 4 + 1 };
        lines.push(step(slot).gives(waiting(slot, u64::from(ahead))));
    }
    lines.push(show(3).gives(shown(0, 0, 64, 192)));
    for slot in 0..=255 {
        if slot > 0 {
            lines.push(step(slot).gives(granted(slot)));
        }
        lines.push(release(slot).gives(released(slot)));
    }
    lines.push(show(3).gives(shown(64, 192, 64, 192)));
    Script::of(lines)
}

/// Slots are freed from the highest to the lowest and come back from the lowest to the highest.
fn freed_slots() -> Script {
    let freed: [u8; 11] = [0, 1, 62, 63, 64, 65, 127, 128, 191, 192, 255];
    let mut lines = open_all_slots(|_| READER, |_| 1);
    for &slot in freed.iter().rev() {
        lines.push(step(slot).gives(granted(slot)));
        lines.push(release(slot).gives(released(slot)));
    }
    for &slot in &freed {
        lines.push(open(2, READER).gives(opened(slot)));
    }
    lines.push(open(2, READER).gives(refused(6, 0)));
    for slot in [128, 64] {
        lines.push(step(slot).gives(granted(slot)));
        lines.push(release(slot).gives(released(slot)));
    }
    lines.push(open(2, WRITER).gives(opened(64)));
    lines.push(step(192).gives(granted(192)));
    lines.push(release(192).gives(released(192)));
    lines.push(open(2, WRITER).gives(opened(128)));
    lines.push(open(2, WRITER).gives(opened(192)));
    lines.push(open(2, WRITER).gives(refused(6, 0)));
    lines.push(show(2).gives(shown(0, 3, 0, 3)));
    Script::of(lines)
}

fn every_slot_is_free() -> Script {
    let mut lines = Vec::new();
    for slot in 0..=255 {
        lines.push(step(slot).gives(refused(4, slot)));
        lines.push(release(slot).gives(refused(4, slot)));
    }
    Script::of(lines)
}

/// Each number with which a call of a schedule can be refused, and the order of the tests.
fn every_refusal_number() -> Script {
    let mut lines = Vec::new();
    for record in [64, 4_095, 4_096, 65_535] {
        lines.push(open(record, READER).gives(refused(2, 0)));
        lines.push(open(record, WRITER).gives(refused(2, 0)));
        lines.push(open(record, 2).gives(refused(2, 0)));
        lines.push(show(record).gives(refused(2, 0)));
    }
    for mode in [2, 7, 255] {
        lines.push(open(0, mode).gives(refused(3, 0)));
        lines.push(open(63, mode).gives(refused(3, 0)));
    }
    lines.extend([
        step(0).gives(refused(4, 0)),
        release(0).gives(refused(4, 0)),
        step(255).gives(refused(4, 255)),
        release(255).gives(refused(4, 255)),
        open(0, WRITER).gives(opened(0)),
        step(1).gives(refused(4, 1)),
        release(0).gives(refused(5, 0)),
        step(0).gives(granted(0)),
        step(0).gives(refused(5, 0)),
        open(0, READER).gives(opened(1)),
        step(1).gives(waiting(1, 1)),
        release(1).gives(refused(5, 1)),
        step(1).gives(waiting(1, 1)),
        show(0).gives(shown(0, 0, 1, 1)),
    ]);
    for slot in 2..=255 {
        lines.push(open(63, READER).gives(opened(slot)));
    }
    lines.extend([
        open(0, READER).gives(refused(6, 0)),
        open(0, 2).gives(refused(3, 0)),
        open(64, READER).gives(refused(2, 0)),
        open(64, 2).gives(refused(2, 0)),
        release(0).gives(released(0)),
        release(0).gives(refused(4, 0)),
        show(0).gives(shown(1, 0, 1, 1)),
        show(63).gives(shown(0, 0, 0, 0)),
    ]);
    Script::of(lines)
}

/// Record r is used by r mod 5 readers and, where r is odd, by one writer after them.
fn show_of_every_record() -> Script {
    let mut lines = Vec::new();
    let mut show_all = Vec::new();
    for record in 0..64 {
        let (readers, writers) = (record % 5, record % 2);
        for mode in [READER]
            .repeat(usize::from(readers))
            .into_iter()
            .chain([WRITER].repeat(usize::from(writers)))
        {
            lines.push(open(record, mode).gives(opened(0)));
            lines.push(step(0).gives(granted(0)));
            lines.push(release(0).gives(released(0)));
        }
        show_all.push(show(record).gives(shown(writers, readers, writers, readers)));
    }
    lines.extend(show_all);
    lines.push(show(64).gives(refused(2, 0)));
    Script::of(lines)
}

/// A kind that does not exist ends the run. What follows is never read.
fn unknown_kinds() -> Vec<Case> {
    [0, 8, 255]
        .map(|kind| {
            let mut tail = vec![kind];
            tail.extend(step(0).bytes());
            tail.extend(show(0).bytes());
            let script = Script::of([open(0, WRITER).gives(opened(0)), step(0).gives(granted(0))]);
            let name = format!("unknown_kind_{kind}_in_the_middle");
            Case::by_hand(name, script.ending_with(&tail, UNKNOWN_KIND))
        })
        .into()
}

/// The input ends inside a record. A byte lost earlier is another matter: the reader reads on.
fn cut_bodies() -> Vec<Case> {
    let before = || {
        Script::of([
            open(0, READER).gives(opened(0)),
            step(0).gives(granted(0)),
            show(0).gives(shown(0, 0, 0, 1)),
        ])
    };
    let cut =
        |name: &str, tail: &[u8]| Case::by_hand(name, before().ending_with(tail, BODY_CUT_SHORT));
    let alone = |name: &str, tail: &[u8]| {
        Case::by_hand(name, Script::default().ending_with(tail, BODY_CUT_SHORT))
    };
    vec![
        cut("cut_open_with_0_body_bytes_at_the_end", &[1]),
        cut("cut_open_with_1_body_byte_at_the_end", &[1, 0]),
        cut("cut_open_with_2_body_bytes_at_the_end", &[1, 0, 0]),
        cut("cut_step_with_0_body_bytes_at_the_end", &[2]),
        cut("cut_release_with_0_body_bytes_at_the_end", &[3]),
        cut("cut_show_with_0_body_bytes_at_the_end", &[4]),
        cut("cut_show_with_1_body_byte_at_the_end", &[4, 0]),
        cut("cut_open_for_a_node_with_0_body_bytes_at_the_end", &[5]),
        cut(
            "cut_open_for_a_node_with_3_body_bytes_at_the_end",
            &[5, 0, 0, 0],
        ),
        cut("cut_fence_with_0_body_bytes_at_the_end", &[6]),
        cut("cut_care_with_0_body_bytes_at_the_end", &[7]),
        alone("cut_open_and_nothing_else", &[1, 0, 0]),
        alone("cut_step_and_nothing_else", &[2]),
        Case::by_hand(
            "cut_open_in_the_middle_takes_the_bytes_that_follow",
            open_without_its_mode(),
        ),
        Case::by_hand(
            "cut_step_in_the_middle_takes_the_kind_that_follows",
            step_without_its_slot(),
        ),
    ]
}

/// 01 00 00 _ 02 00 03 00: the mode is missing, so kind 2 is read as the mode.
fn open_without_its_mode() -> Script {
    Script::of([open(0, 2).gives(refused(3, 0))]).ending_with(&[0, 3, 0], UNKNOWN_KIND)
}

/// 01 00 00 01 02 _ 03 00: the slot is missing, so kind 3 is read as the slot.
fn step_without_its_slot() -> Script {
    Script::of([
        open(0, WRITER).gives(opened(0)),
        step(3).gives(refused(4, 3)),
    ])
    .ending_with(&[0], UNKNOWN_KIND)
}

/// One writer and one reader, and the reader looks again and again.
fn a_reader_that_looks(times: usize) -> Vec<Line> {
    let mut lines = vec![
        open(0, WRITER).gives(opened(0)),
        open(0, READER).gives(opened(1)),
        step(0).gives(granted(0)),
    ];
    lines.extend([step(1).gives(waiting(1, 1))].repeat(times));
    lines
}

/// A request is opened, granted and released, over and over on one record.
fn requests_one_after_the_other(number: usize) -> Vec<Line> {
    let mut lines = Vec::new();
    for at in 0..number {
        lines.push(open(9, (at % 2) as u8).gives(opened(0)));
        lines.push(step(0).gives(granted(0)));
        lines.push(release(0).gives(released(0)));
    }
    lines
}

fn long_inputs() -> Vec<Case> {
    let long = Script::of(
        [
            requests_one_after_the_other(1_000),
            a_reader_that_looks(500),
        ]
        .concat(),
    );
    let full = Script::of(a_reader_that_looks((MOST_INPUT_BYTES - 10) / 2));

    let mut lines = requests_one_after_the_other(8_191);
    lines.push(show(9).gives(shown(4_095, 4_096, 4_095, 4_096)));
    lines.push(show(8).gives(shown(0, 0, 0, 0)));
    let full_and_cut = Script::of(lines).ending_with(&[4, 0], BODY_CUT_SHORT);

    let mut one_byte_over = full.schedule();
    one_byte_over.push(0);
    vec![
        Case::by_hand("longer_than_one_report", long),
        Case::by_hand("exactly_65536_bytes", full),
        Case::by_hand("65536_bytes_whose_last_record_is_cut", full_and_cut),
        Case::of_bytes("one_byte_over_65536", one_byte_over),
    ]
}

fn random_calls() -> Vec<Case> {
    plans()
        .iter()
        .enumerate()
        .map(|(at, plan)| {
            let number = at + 1;
            let lost = if plan.nodes > 0 {
                "_and_lost_nodes"
            } else {
                ""
            };
            let damage = match plan.damage {
                Damage::None => "",
                Damage::ChangedBytes(_) => "_with_changed_bytes",
                Damage::CutShort => "_cut_short",
            };
            let name = format!("random_calls_{number:02}{lost}{damage}");
            Case::of_bytes(name, plan.schedule())
        })
        .collect()
}

/// The schedules that are repaired, in the order in which they are played.
pub fn repaired() -> Vec<Case> {
    lost::repaired()
}

/// The schedules that the pages under examples/ explain.
pub fn examples() -> Vec<Case> {
    vec![
        Case::by_hand("worked_example", worked_example()),
        Case::by_hand("slow_reader", slow_reader()),
        Case::by_hand("writer_behind_readers", writer_behind_readers()),
        Case::by_hand("wrong_calls", wrong_calls()),
        Case::by_hand("lost_node", lost::lost_node()),
    ]
}

/// The same for examples/repair/.
pub fn repaired_examples() -> Vec<Case> {
    vec![Case::by_hand("lost_node", lost::lost_node_repaired())]
}

/// Calls that are refused with their numbers, and a last byte that ends the run.
fn wrong_calls() -> Script {
    Script::of([
        open(64, READER).gives(refused(2, 0)),
        open(0, 7).gives(refused(3, 0)),
        open(64, 7).gives(refused(2, 0)),
        show(4_096).gives(refused(2, 0)),
        step(9).gives(refused(4, 9)),
        open(0, WRITER).gives(opened(0)),
        release(0).gives(refused(5, 0)),
        step(0).gives(granted(0)),
        step(0).gives(refused(5, 0)),
        release(0).gives(released(0)),
        release(0).gives(refused(4, 0)),
        show(0).gives(shown(1, 0, 1, 0)),
    ])
    .ending_with(&[0], UNKNOWN_KIND)
}

#[cfg(test)]
mod tests {
    use super::*;
    use crate::player::{printed_for, Player};
    use crate::run::Entry;
    use std::collections::HashSet;

    #[test]
    fn every_entry_set_by_hand_is_computed() {
        for case in [all(), examples(), repaired(), repaired_examples()]
            .iter()
            .flatten()
        {
            assert_eq!(case.compare(), Ok(()));
        }
    }

    #[test]
    fn names_differ() {
        for cases in [all(), repaired()] {
            let names: HashSet<&str> = cases.iter().map(|case| case.name.as_str()).collect();
            assert_eq!(names.len(), cases.len());
        }
    }

    #[test]
    fn the_long_cases_have_their_lengths() {
        let length = |name: &str| {
            all()
                .iter()
                .find(|case| case.name == name)
                .unwrap()
                .schedule
                .len()
        };
        assert_eq!(length("exactly_65536_bytes"), 65_536);
        assert_eq!(length("65536_bytes_whose_last_record_is_cut"), 65_536);
        assert_eq!(length("one_byte_over_65536"), 65_537);
    }

    #[test]
    fn random_calls_meet_what_a_schedule_can_meet() {
        let mut seen: HashSet<(u8, u8)> = HashSet::new();
        let mut endings = HashSet::new();
        for case in random_calls() {
            let mut player = Player::on_a_fresh_board();
            player.play(
                &case.schedule,
                |_,
                 Entry {
                     number, outcome, ..
                 }| {
                    seen.insert((number, outcome));
                },
            );
            endings.insert(player.totals().ending);
            assert!(
                printed_for(&case.schedule).lines().count() > 3,
                "{}",
                case.name
            );
        }
        let expected = [
            (0, 1),
            (0, 2),
            (0, 3),
            (0, 6),
            (0, 10),
            (2, 0),
            (3, 0),
            (4, 0),
            (5, 0),
            (0, 12),
            (0, 13),
            (14, 0),
            (15, 0),
            (16, 0),
        ];
        assert!(expected.iter().all(|pair| seen.contains(pair)), "{seen:?}");
        assert_eq!(endings, HashSet::from([0, 7, 8]));
    }
}
