//! The stored cases in which nodes are lost: fences, cares by hand, what the repair program makes of a schedule, and fences over a begin.

use crate::answer::Refusal;
use crate::cases::Case;
use crate::player::{Player, MOST_INPUT_BYTES, WORDS};
use crate::schedule::UNKNOWN_KIND;
use crate::script::{
    asks, asks_for, care, fence, fenced, freed_unasked, granted, open, open_for, opened, refused,
    release, released, show, shown, step, waiting, Line, Script, READER, WRITER,
};

/// Schedules for the player.
pub fn played() -> Vec<Case> {
    [
        ("kind_5_with_node_0_is_kind_1", kind_5_with_node_0()),
        ("node_0_is_fenced_before_any_open", node_0_is_fenced()),
        ("open_checks_2_3_14_6", order_of_open()),
        ("step_and_release_check_4_15_5", order_of_step_and_release()),
        ("care_checks_4_16", order_of_care()),
        ("care_in_each_phase", care_in_each_phase()),
        ("dead_writer_with_three_behind_it", dead_writer()),
        (
            "dead_waiter_is_granted_by_a_care_and_released_by_the_next",
            dead_waiter(),
        ),
        (
            "dead_reader_before_a_writer_and_a_reader",
            dead_reader_before_a_writer(),
        ),
        ("a_node_is_fenced_twice", fenced_twice()),
        ("node_255", node_255()),
        (
            "slot_freed_unasked_is_opened_again",
            freed_unasked_and_opened_again(),
        ),
        ("verbs_of_cares", verbs_of_cares()),
        (
            "the_node_goes_with_its_request",
            node_goes_with_its_request(),
        ),
        (
            "two_hundred_and_fifty_six_nodes_are_lost",
            every_node_is_lost(),
        ),
    ]
    .map(|(name, script)| Case::by_hand(name, script))
    .into()
}

fn kind_5_with_node_0() -> Script {
    Script::of([
        open(0, WRITER).gives(opened(0)),
        open_for(0, 0, WRITER).gives(opened(1)),
        step(0).gives(granted(0)),
        step(1).gives(waiting(1, 1)),
        care(0).gives(refused(16, 0)),
        care(1).gives(refused(16, 1)),
        release(0).gives(released(0)),
        step(1).gives(granted(1)),
        release(1).gives(released(1)),
        open(64, READER).gives(refused(2, 0)),
        open_for(0, 64, READER).gives(refused(2, 0)),
        open(0, 2).gives(refused(3, 0)),
        open_for(0, 0, 2).gives(refused(3, 0)),
        open(1, READER).gives(opened(0)),
        open_for(0, 1, READER).gives(opened(1)),
        fence(0).gives(fenced()),
        open(1, READER).gives(refused(14, 0)),
        open_for(0, 1, READER).gives(refused(14, 0)),
        step(0).gives(refused(15, 0)),
        step(1).gives(refused(15, 1)),
        care(0).gives(freed_unasked(0)),
        care(1).gives(freed_unasked(1)),
        show(0).gives(shown(2, 0, 2, 0)),
        show(1).gives(shown(0, 0, 0, 0)),
    ])
}

fn node_0_is_fenced() -> Script {
    Script::of([
        fence(0).gives(fenced()),
        open(0, READER).gives(refused(14, 0)),
        open(63, WRITER).gives(refused(14, 0)),
        open_for(0, 0, READER).gives(refused(14, 0)),
        // A free slot is free whatever is fenced.
        step(0).gives(refused(4, 0)),
        release(0).gives(refused(4, 0)),
        care(0).gives(refused(4, 0)),
        open_for(1, 0, WRITER).gives(opened(0)),
        step(0).gives(granted(0)),
        open(0, READER).gives(refused(14, 0)),
        release(0).gives(released(0)),
        show(0).gives(shown(1, 0, 1, 0)),
    ])
}

fn order_of_open() -> Script {
    let mut lines = vec![
        fence(7).gives(fenced()),
        open_for(7, 64, 2).gives(refused(2, 0)),
        open_for(7, 4_096, READER).gives(refused(2, 0)),
        open_for(7, 0, 2).gives(refused(3, 0)),
        open_for(7, 63, 255).gives(refused(3, 0)),
        open_for(7, 63, WRITER).gives(refused(14, 0)),
    ];
    for slot in 0..=255 {
        lines.push(open_for(8, u16::from(slot % 64), READER).gives(opened(slot)));
    }
    lines.extend([
        open_for(8, 0, READER).gives(refused(6, 0)),
        open(0, READER).gives(refused(6, 0)),
        open_for(7, 0, READER).gives(refused(14, 0)),
        open_for(7, 0, 2).gives(refused(3, 0)),
        open_for(7, 64, READER).gives(refused(2, 0)),
        fence(0).gives(fenced()),
        open(0, READER).gives(refused(14, 0)),
        open_for(8, 0, READER).gives(refused(6, 0)),
        // The fence of node 8 frees no slot; a care does.
        fence(8).gives(fenced()),
        open_for(9, 0, READER).gives(refused(6, 0)),
        care(200).gives(freed_unasked(200)),
        open_for(9, 0, READER).gives(opened(200)),
        open_for(9, 0, READER).gives(refused(6, 0)),
    ]);
    Script::of(lines)
}

/// Node 3 holds in slot 0, waits in slot 1 and asks in slot 2. Node 4 asks in slot 3.
fn order_of_step_and_release() -> Script {
    let mut lines = [
        asks_for(3, 5, WRITER, granted(0)),
        asks_for(3, 5, READER, waiting(1, 1)),
    ]
    .concat();
    lines.extend([
        open_for(3, 5, READER).gives(opened(2)),
        open_for(4, 5, READER).gives(opened(3)),
        step(0).gives(refused(5, 0)),
        release(1).gives(refused(5, 1)),
        release(2).gives(refused(5, 2)),
        fence(3).gives(fenced()),
    ]);
    for slot in [0, 1, 2] {
        lines.push(step(slot).gives(refused(15, slot)));
        lines.push(release(slot).gives(refused(15, slot)));
    }
    lines.extend([
        step(4).gives(refused(4, 4)),
        release(4).gives(refused(4, 4)),
        release(3).gives(refused(5, 3)),
        show(5).gives(shown(0, 0, 1, 1)),
        step(3).gives(waiting(3, 1)),
        release(3).gives(refused(5, 3)),
        care(0).gives(released(0)),
        step(0).gives(refused(4, 0)),
        release(0).gives(refused(4, 0)),
        step(3).gives(granted(3)),
        step(3).gives(refused(5, 3)),
        show(5).gives(shown(1, 0, 1, 2)),
    ]);
    Script::of(lines)
}

/// Slots of an unfenced node in each phase, and free ones.
fn order_of_care() -> Script {
    let mut lines = vec![
        care(0).gives(refused(4, 0)),
        care(255).gives(refused(4, 255)),
        fence(9).gives(fenced()),
        care(0).gives(refused(4, 0)),
    ];
    lines.extend(asks_for(8, 0, WRITER, granted(0)));
    lines.extend(asks_for(8, 0, READER, waiting(1, 1)));
    lines.extend([
        open_for(8, 0, READER).gives(opened(2)),
        open(0, READER).gives(opened(3)),
    ]);
    for slot in 0..4 {
        lines.push(care(slot).gives(refused(16, slot)));
    }
    lines.extend([
        show(0).gives(shown(0, 0, 1, 1)),
        fence(8).gives(fenced()),
        care(3).gives(refused(16, 3)),
        care(4).gives(refused(4, 4)),
        care(2).gives(freed_unasked(2)),
        care(2).gives(refused(4, 2)),
        care(1).gives(waiting(1, 1)),
        care(0).gives(released(0)),
        care(0).gives(refused(4, 0)),
    ]);
    Script::of(lines)
}

/// Node 2 asks in slot 1, waits in slot 2 and is behind the holder of node 1.
fn care_in_each_phase() -> Script {
    Script::of([
        open_for(1, 9, READER).gives(opened(0)),
        open_for(2, 9, READER).gives(opened(1)),
        open_for(2, 9, WRITER).gives(opened(2)),
        step(0).gives(granted(0)),
        step(2).gives(waiting(2, 1)),
        fence(2).gives(fenced()),
        care(1).gives(freed_unasked(1)),
        care(2).gives(waiting(2, 1)),
        show(9).gives(shown(0, 0, 1, 1)),
        release(0).gives(released(0)),
        care(2).gives(granted(2)),
        show(9).gives(shown(0, 1, 1, 1)),
        care(2).gives(released(2)),
        show(9).gives(shown(1, 1, 1, 1)),
        care(2).gives(refused(4, 2)),
    ])
}

/// Node 1 dies while its writer holds. Two readers and a writer of other nodes wait behind it.
fn three_behind_a_writer() -> Vec<Line> {
    [
        asks_for(1, 0, WRITER, granted(0)),
        asks_for(2, 0, READER, waiting(1, 1)),
        asks_for(3, 0, READER, waiting(2, 1)),
        asks_for(4, 0, WRITER, waiting(3, 3)),
    ]
    .concat()
}

pub fn dead_writer() -> Script {
    let mut lines = three_behind_a_writer();
    lines.extend([
        fence(1).gives(fenced()),
        step(1).gives(waiting(1, 1)),
        release(0).gives(refused(15, 0)),
        care(0).gives(released(0)),
        step(1).gives(granted(1)),
        step(2).gives(granted(2)),
        step(3).gives(waiting(3, 2)),
        release(1).gives(released(1)),
        release(2).gives(released(2)),
        step(3).gives(granted(3)),
        release(3).gives(released(3)),
        open_for(1, 0, READER).gives(refused(14, 0)),
        show(0).gives(shown(2, 2, 2, 2)),
    ]);
    Script::of(lines)
}

/// Node 2 dies while it waits. Its ticket cannot be taken back, so it has its turn and lets go.
fn dead_waiter() -> Script {
    let mut lines = [
        asks_for(1, 0, WRITER, granted(0)),
        asks_for(2, 0, WRITER, waiting(1, 1)),
        asks_for(3, 0, READER, waiting(2, 2)),
    ]
    .concat();
    lines.extend([
        fence(2).gives(fenced()),
        care(1).gives(waiting(1, 1)),
        release(0).gives(released(0)),
        step(2).gives(waiting(2, 1)),
        care(1).gives(granted(1)),
        step(2).gives(waiting(2, 1)),
        step(1).gives(refused(15, 1)),
        release(1).gives(refused(15, 1)),
        care(1).gives(released(1)),
        step(2).gives(granted(2)),
        show(0).gives(shown(2, 0, 2, 1)),
    ]);
    Script::of(lines)
}

fn dead_reader_before_a_writer() -> Script {
    let mut lines = [
        asks_for(1, 0, READER, granted(0)),
        asks_for(2, 0, READER, granted(1)),
        asks_for(3, 0, WRITER, waiting(2, 2)),
        asks_for(4, 0, READER, waiting(3, 1)),
    ]
    .concat();
    lines.extend([
        fence(1).gives(fenced()),
        care(0).gives(released(0)),
        step(2).gives(waiting(2, 1)),
        release(1).gives(released(1)),
        step(2).gives(granted(2)),
        // The writer's node dies too.
        fence(3).gives(fenced()),
        step(3).gives(waiting(3, 1)),
        care(2).gives(released(2)),
        step(3).gives(granted(3)),
        show(0).gives(shown(1, 2, 1, 3)),
    ]);
    Script::of(lines)
}

fn fenced_twice() -> Script {
    Script::of([
        fence(6).gives(fenced()),
        fence(6).gives(fenced()),
        open_for(6, 0, READER).gives(refused(14, 0)),
        open_for(5, 0, READER).gives(opened(0)),
        fence(5).gives(fenced()),
        care(0).gives(freed_unasked(0)),
        fence(5).gives(fenced()),
        fence(6).gives(fenced()),
        open_for(5, 0, READER).gives(refused(14, 0)),
        open_for(6, 0, READER).gives(refused(14, 0)),
        open_for(7, 0, READER).gives(opened(0)),
        show(0).gives(shown(0, 0, 0, 0)),
    ])
}

fn node_255() -> Script {
    let mut lines = [
        asks_for(255, 63, WRITER, granted(0)),
        asks_for(254, 63, WRITER, waiting(1, 1)),
        asks(63, WRITER, waiting(2, 2)),
    ]
    .concat();
    lines.extend([
        fence(255).gives(fenced()),
        open_for(255, 63, WRITER).gives(refused(14, 0)),
        open_for(254, 63, WRITER).gives(opened(3)),
        step(0).gives(refused(15, 0)),
        step(1).gives(waiting(1, 1)),
        care(1).gives(refused(16, 1)),
        care(2).gives(refused(16, 2)),
        care(0).gives(released(0)),
        step(1).gives(granted(1)),
    ]);
    Script::of(lines)
}

/// Node 5 dies before its request draws a ticket: nobody can be behind it.
fn freed_unasked_and_opened_again() -> Script {
    Script::of([
        open_for(5, 2, WRITER).gives(opened(0)),
        open_for(6, 2, WRITER).gives(opened(1)),
        fence(5).gives(fenced()),
        care(0).gives(freed_unasked(0)),
        care(0).gives(refused(4, 0)),
        show(2).gives(shown(0, 0, 0, 0)),
        open_for(6, 3, READER).gives(opened(0)),
        care(0).gives(refused(16, 0)),
        step(0).gives(granted(0)),
        show(2).gives(shown(0, 0, 0, 0)),
        show(3).gives(shown(0, 0, 0, 1)),
    ])
}

/// Seven verbs: three steps, a release and three cares. The cares that free unasked or are refused send none.
fn verbs_of_cares() -> Script {
    let mut lines = [
        asks_for(1, 0, WRITER, granted(0)),
        asks_for(1, 0, WRITER, waiting(1, 1)),
    ]
    .concat();
    lines.extend(asks_for(2, 1, READER, granted(2)));
    lines.extend([
        open_for(1, 0, READER).gives(opened(3)),
        open_for(1, 0, READER).gives(opened(4)),
        care(3).gives(refused(16, 3)),
        fence(1).gives(fenced()),
        care(3).gives(freed_unasked(3)),
        care(4).gives(freed_unasked(4)),
        care(4).gives(refused(4, 4)),
        step(1).gives(refused(15, 1)),
        care(1).gives(waiting(1, 1)),
        care(0).gives(released(0)),
        care(1).gives(granted(1)),
        release(2).gives(released(2)),
    ]);
    Script::of(lines)
}

/// A slot that was freed has forgotten its node, and one that is opened again has its new one.
fn node_goes_with_its_request() -> Script {
    Script::of([
        open_for(3, 0, READER).gives(opened(0)),
        step(0).gives(granted(0)),
        release(0).gives(released(0)),
        fence(3).gives(fenced()),
        open(0, READER).gives(opened(0)),
        care(0).gives(refused(16, 0)),
        step(0).gives(granted(0)),
        release(0).gives(released(0)),
        open_for(4, 0, READER).gives(opened(0)),
        fence(0).gives(fenced()),
        step(0).gives(granted(0)),
        fence(4).gives(fenced()),
        care(0).gives(released(0)),
        show(0).gives(shown(0, 3, 0, 3)),
    ])
}

/// Each slot has a node of its own; four of them share a record. A pass of cares in the order of the slots.
fn every_node_is_lost() -> Script {
    let mut lines = Vec::new();
    for slot in 0..=255 {
        let told = match slot / 64 {
            0 => granted(slot),
            before => waiting(slot, u64::from(before)),
        };
        lines.extend(asks_for(slot, u16::from(slot % 64), WRITER, told));
    }
    for node in 0..=255 {
        lines.push(fence(node).gives(fenced()));
        lines.push(open_for(node, 0, READER).gives(refused(14, 0)));
    }
    for slot in 0..=255 {
        let told = match slot / 64 {
            0 => released(slot),
            1 => granted(slot),
            before => waiting(slot, u64::from(before) - 1),
        };
        lines.push(care(slot).gives(told));
    }
    lines.push(show(63).gives(shown(1, 0, 4, 0)));
    Script::of(lines)
}

/// The story of the examples: node 1 holds in slot 0, waits in slot 2 and has not asked in slot 4 when it is lost.
fn a_node_is_lost() -> Vec<Line> {
    let mut lines = [
        asks_for(1, 0, WRITER, granted(0)),
        asks_for(2, 0, READER, waiting(1, 1)),
        asks_for(1, 0, READER, waiting(2, 1)),
        asks_for(3, 0, WRITER, waiting(3, 3)),
    ]
    .concat();
    lines.push(open_for(1, 0, READER).gives(opened(4)));
    lines.push(fence(1).gives(fenced()));
    lines
}

pub fn lost_node() -> Script {
    let mut lines = a_node_is_lost();
    lines.extend([
        release(0).gives(refused(15, 0)),
        open_for(1, 0, READER).gives(refused(14, 0)),
        care(1).gives(refused(16, 1)),
        care(0).gives(released(0)),
        step(1).gives(granted(1)),
        care(2).gives(granted(2)),
        care(2).gives(released(2)),
        care(4).gives(freed_unasked(4)),
        step(3).gives(waiting(3, 1)),
        release(1).gives(released(1)),
        step(3).gives(granted(3)),
        show(0).gives(shown(1, 2, 2, 2)),
    ]);
    Script::of(lines)
}

pub fn lost_node_repaired() -> Script {
    Script::of(a_node_is_lost()).repaired_by([[0, 3, 6], [2, 2, 2], [4, 1, 12], [2, 3, 6]])
}

/// Schedules for the repair program. Phases: 1 Asking, 2 Waiting, 3 Held.
pub fn repaired() -> Vec<Case> {
    let mut cases: Vec<Case> = [
        ("nothing_is_fenced", nothing_is_fenced()),
        ("dead_holder", dead_holder()),
        ("dead_writer_with_three_behind_it", dead_writer_repaired()),
        (
            "dead_waiter_is_granted_and_released",
            dead_waiter_repaired(),
        ),
        ("dead_before_it_asked", dead_before_it_asked()),
        (
            "dead_waiter_behind_a_living_holder",
            behind_a_living_holder(),
        ),
        ("two_nodes_are_lost", two_nodes_are_lost()),
        (
            "lower_slot_waits_for_a_higher_one",
            lower_slot_waits_for_a_higher_one(),
        ),
        ("after_an_unknown_kind", after_an_unknown_kind()),
        ("reader_crowd", reader_crowd()),
        (
            "every_slot_is_of_a_lost_node",
            every_slot_is_of_a_lost_node(),
        ),
    ]
    .map(|(name, script)| Case::by_hand(name, script))
    .into();
    let mut long = Script::of(three_behind_a_writer()).schedule();
    long.extend(fence(1).bytes().repeat(MOST_INPUT_BYTES / 2));
    long.truncate(MOST_INPUT_BYTES + 1);
    cases.push(Case::of_bytes("one_byte_over_65536", long));
    cases
}

fn nothing_is_fenced() -> Script {
    let mut lines = three_behind_a_writer();
    lines.push(open_for(1, 1, READER).gives(opened(4)));
    lines.push(fence(9).gives(fenced()));
    Script::of(lines).repaired_by([])
}

fn dead_holder() -> Script {
    let mut lines = asks_for(1, 0, READER, granted(0)).to_vec();
    lines.push(fence(1).gives(fenced()));
    Script::of(lines).repaired_by([[0, 3, 6]])
}

/// The three stay as they are: their nodes live and look again themselves.
fn dead_writer_repaired() -> Script {
    let mut lines = three_behind_a_writer();
    lines.push(fence(1).gives(fenced()));
    Script::of(lines).repaired_by([[0, 3, 6]])
}

fn dead_waiter_repaired() -> Script {
    let mut lines = [
        asks_for(1, 0, WRITER, granted(0)),
        asks_for(2, 0, WRITER, waiting(1, 1)),
    ]
    .concat();
    lines.push(release(0).gives(released(0)));
    lines.push(fence(2).gives(fenced()));
    Script::of(lines).repaired_by([[1, 2, 2], [1, 3, 6]])
}

fn dead_before_it_asked() -> Script {
    Script::of([
        open_for(1, 0, READER).gives(opened(0)),
        open_for(2, 0, WRITER).gives(opened(1)),
        open_for(1, 0, WRITER).gives(opened(2)),
        fence(1).gives(fenced()),
    ])
    .repaired_by([[0, 1, 12], [2, 1, 12]])
}

fn behind_a_living_holder() -> Script {
    let mut lines = [
        asks_for(1, 0, WRITER, granted(0)),
        asks_for(2, 0, READER, waiting(1, 1)),
    ]
    .concat();
    lines.push(fence(2).gives(fenced()));
    Script::of(lines).repaired_by([[1, 2, 3]])
}

/// Node 3 lives, and waits between two requests of node 2.
fn two_nodes_are_lost() -> Script {
    let mut lines = [
        asks_for(1, 0, WRITER, granted(0)),
        asks_for(2, 0, WRITER, waiting(1, 1)),
        asks_for(3, 0, WRITER, waiting(2, 2)),
        asks_for(2, 0, WRITER, waiting(3, 3)),
    ]
    .concat();
    lines.extend([
        open_for(1, 0, READER).gives(opened(4)),
        fence(2).gives(fenced()),
        fence(1).gives(fenced()),
    ]);
    Script::of(lines).repaired_by([
        [0, 3, 6],
        [1, 2, 2],
        [3, 2, 3],
        [4, 1, 12],
        [1, 3, 6],
        [3, 2, 3],
        [3, 2, 3],
    ])
}

/// Slot 0 waits for slot 1, so a pass too many goes by before its turn comes.
fn lower_slot_waits_for_a_higher_one() -> Script {
    Script::of([
        open_for(7, 0, WRITER).gives(opened(0)),
        open_for(7, 0, WRITER).gives(opened(1)),
        step(1).gives(granted(1)),
        step(0).gives(waiting(0, 1)),
        fence(7).gives(fenced()),
    ])
    .repaired_by([[0, 2, 3], [1, 3, 6], [0, 2, 2], [0, 3, 6]])
}

fn after_an_unknown_kind() -> Script {
    let mut lines = asks(0, WRITER, granted(0)).to_vec();
    lines.push(fence(0).gives(fenced()));
    Script::of(lines)
        .ending_with(&[8, 7, 0], UNKNOWN_KIND)
        .repaired_by([[0, 3, 6]])
}

/// Readers of nodes 1 and 2 hold in turns, a writer of node 1 waits for them, and readers of both wait behind it.
fn reader_crowd() -> Script {
    let mut lines = Vec::new();
    for slot in 0..8 {
        lines.extend(asks_for(1 + slot % 2, 4, READER, granted(slot)));
    }
    lines.extend(asks_for(1, 4, WRITER, waiting(8, 8)));
    for slot in 9..13 {
        lines.extend(asks_for(1 + slot % 2, 4, READER, waiting(slot, 1)));
    }
    lines.push(fence(1).gives(fenced()));
    let waiting = [[8, 2, 3], [10, 2, 3], [12, 2, 3]];
    let mut cares = vec![[0, 3, 6], [2, 3, 6], [4, 3, 6], [6, 3, 6]];
    cares.extend([waiting, waiting].concat());
    Script::of(lines).repaired_by(cares)
}

/// Writers of two nodes on one record, the last slot first in the queue.
fn every_slot_is_of_a_lost_node() -> Script {
    let mut lines = Vec::new();
    for slot in 0..=255 {
        lines.push(open_for(slot % 2, 0, WRITER).gives(opened(slot)));
    }
    lines.push(step(255).gives(granted(255)));
    lines.push(step(254).gives(waiting(254, 1)));
    lines.push(fence(0).gives(fenced()));
    lines.push(fence(1).gives(fenced()));
    let mut cares: Vec<[u8; 3]> = (0..254).map(|slot| [slot, 1, 12]).collect();
    cares.extend([[254, 2, 3], [255, 3, 6], [254, 2, 2], [254, 3, 6]]);
    Script::of(lines).repaired_by(cares)
}

/// Plays a script after its entries set by hand were compared.
fn play_aloud(script: Script, player: &mut Player, lines: &mut String) -> Result<(), String> {
    script.compare_on(&mut player.clone())?;
    player.play_aloud(&script.schedule(), lines);
    Ok(())
}

/// What a program prints that fences node 3 and begins its board again: with no words, which is refused and leaves the fence,
/// and then with all 64. No schedule has a begin. The program plays on one board of 64 words, begun with them, with the count going on:
///
/// | bytes | call | number, outcome |
/// |---|---|---|
/// | `06 03`, `05 00 00 00 03` | node 3 is fenced, and may not open | 0 13, 14 0 |
/// | | begin with no words: 9 | |
/// | `05 00 00 00 03`, `05 00 00 00 04` | node 3 still may not open, node 4 may | 14 0, 0 1 |
/// | | begin with 64 words: accepted | |
/// | `05 00 00 00 03`, `02 00`, `04 00 00` | node 3 opens slot 0 and steps it; the word | 0 1, 0 2, 0 10 |
///
/// The end line is over all three schedules.
pub fn printed_for_begin() -> Result<String, String> {
    let open_reader = |node| open_for(node, 0, READER);
    let fenced_first = [
        fence(3).gives(fenced()),
        open_reader(3).gives(refused(14, 0)),
    ];
    let fenced_still = [
        open_reader(3).gives(refused(14, 0)),
        open_reader(4).gives(opened(0)),
    ];
    let fenced_no_more = [
        open_reader(3).gives(opened(0)),
        step(0).gives(granted(0)),
        show(0).gives(shown(0, 0, 0, 1)),
    ];
    let mut player = Player::on_a_fresh_board();
    let mut lines = String::new();
    play_aloud(Script::of(fenced_first), &mut player, &mut lines)?;
    if player.begin_with(0) != Err(Refusal::WrongNumberOfWords) {
        return Err("a begin with no words was not refused with 9".to_owned());
    }
    play_aloud(Script::of(fenced_still), &mut player, &mut lines)?;
    player.begin_with(WORDS).map_err(|refusal| {
        format!(
            "a begin with 64 words was refused with {}",
            refusal.number()
        )
    })?;
    play_aloud(Script::of(fenced_no_more), &mut player, &mut lines)?;
    Ok(lines + &player.end_line())
}

#[cfg(test)]
mod tests {
    use super::*;

    #[test]
    fn a_node_stays_fenced_until_a_begin_is_accepted() {
        assert_eq!(
            printed_for_begin().unwrap(),
            "1 0 13 0 0\n2 14 0 0 0\n3 14 0 0 0\n4 0 1 0 0\n5 0 1 0 0\n6 0 2 0 0\n7 0 10 0 1\nend 0 7 27 1\n"
        );
    }
}
