//! The edge at 32,768 tickets of one kind. No schedule of 65,536 bytes reaches it,
//! so one board plays a short block many times and then the calls at the edge.

use crate::player::Player;
use crate::script::{
    care, cleared, clearing_due, fence, fenced, full, granted, not_yet_clear, open, open_for,
    opened, refused, release, released, show, shown, step, waiting, withdrawn, Line, Script,
    READER, WRITER,
};
use crate::word::CEIL;

/// Tickets drawn and released before the calls at the edge.
const TICKETS_BEFORE: u16 = CEIL - 1;

/// A player on whose board record 0 has given 32,767 tickets of one kind, all released.
fn one_ticket_below_the_ceiling(mode: u8) -> Player {
    let block = Script::of([
        open(0, mode).gives(opened(0)),
        step(0).gives(granted(0)),
        release(0).gives(released(0)),
    ]);
    let schedule = block.schedule();
    let mut player = Player::on_a_fresh_board();
    for _ in 0..TICKETS_BEFORE {
        player.play_silently(&schedule);
    }
    player
}

/// The last ticket, two requests turned away, the clearing that waits for both, and a new start.
fn calls_at_the_ceiling(mode: u8) -> Script {
    let other = 1 - mode;
    let word = |releases: u16, tickets: u16, tickets_of_the_other_kind: u16| match mode {
        READER => shown(0, releases, tickets_of_the_other_kind, tickets),
        _ => shown(releases, 0, tickets, tickets_of_the_other_kind),
    };
    Script::of([
        open(0, mode).gives(opened(0)),
        step(0).gives(granted(0)),
        open(0, mode).gives(opened(1)),
        step(1).gives(full(1)),
        open(0, other).gives(opened(2)),
        step(2).gives(full(2)),
        show(0).gives(word(32_767, 32_769, 1)),
        release(0).gives(clearing_due(0)),
        step(0).gives(not_yet_clear(0)),
        step(1).gives(withdrawn(1)),
        step(0).gives(not_yet_clear(0)),
        step(2).gives(withdrawn(2)),
        show(0).gives(word(32_768, 32_768, 0)),
        step(0).gives(cleared(0)),
        show(0).gives(shown(0, 0, 0, 0)),
        open(0, mode).gives(opened(0)),
        step(0).gives(granted(0)),
        open(0, other).gives(opened(1)),
        step(1).gives(waiting(1, 1)),
        release(0).gives(released(0)),
        step(1).gives(granted(1)),
        release(1).gives(released(1)),
        show(0).gives(shown(1, 1, 1, 1)),
    ])
}

/// The last ticket stays held and all other slots are turned away: no counter gets higher.
fn calls_to_the_highest_counter() -> Script {
    let mut lines: Vec<Line> = vec![
        open(0, READER).gives(opened(0)),
        step(0).gives(granted(0)),
        show(0).gives(shown(0, 32_767, 0, 32_768)),
    ];
    for slot in 1..=255 {
        lines.push(open(0, READER).gives(opened(slot)));
        lines.push(step(slot).gives(full(slot)));
    }
    lines.push(show(0).gives(shown(0, 32_767, 0, 33_023)));
    Script::of(lines)
}

/// Node 1 draws the last ticket and is turned away once; then it is lost. Node 2 is turned away beside it and lives.
/// The program: 32,767 times `01 00 00 00 02 00 03 00` on one fresh board of 64 words, without a line; then these calls as one
/// schedule, each with its line, the first of which has count 98,302; then the end line over all that was played:
///
/// | bytes | call | outcome |
/// |---|---|---|
/// | `05 00 00 00 01`, `02 00` | node 1 opens slot 0 for a reader and steps it | 1, 2 |
/// | `05 00 00 00 02`, `02 01` | node 2 opens slot 1 for a reader and steps it | 1, 4 |
/// | `05 00 00 01 01`, `02 02` | node 1 opens slot 2 for a writer and steps it | 1, 4 |
/// | `06 01` | node 1 is fenced | 13 |
/// | `07 00`, `07 00` | care: the holder lets go, and cannot clear yet | 7, 9 |
/// | `03 00`, `02 00`, `02 02` | calls of a fenced node: 15 each | 0 |
/// | `07 02`, `07 00` | care: the lost node's withdrawal; node 2 still owes | 5, 9 |
/// | `02 01`, `04 00 00` | node 2 withdraws; the word | 5, 10 |
/// | `07 00`, `04 00 00` | care: cleared; the word is 0 | 8, 10 |
/// | `05 00 00 01 01`, `05 00 00 01 02`, `02 00` | node 1 may not open (14), node 2 may | 0, 1, 2 |
/// | `03 00`, `04 00 00` | node 2 releases; the word | 6, 10 |
fn calls_of_a_lost_clearer() -> Script {
    let [open_reader, open_writer] =
        [READER, WRITER].map(|mode| move |node| open_for(node, 0, mode));
    Script::of([
        open_reader(1).gives(opened(0)),
        step(0).gives(granted(0)),
        open_reader(2).gives(opened(1)),
        step(1).gives(full(1)),
        open_writer(1).gives(opened(2)),
        step(2).gives(full(2)),
        fence(1).gives(fenced()),
        care(0).gives(clearing_due(0)),
        care(0).gives(not_yet_clear(0)),
        release(0).gives(refused(15, 0)),
        step(0).gives(refused(15, 0)),
        step(2).gives(refused(15, 2)),
        care(2).gives(withdrawn(2)),
        care(0).gives(not_yet_clear(0)),
        step(1).gives(withdrawn(1)),
        show(0).gives(shown(0, 32_768, 0, 32_768)),
        care(0).gives(cleared(0)),
        show(0).gives(shown(0, 0, 0, 0)),
        open_writer(1).gives(refused(14, 0)),
        open_writer(2).gives(opened(0)),
        step(0).gives(granted(0)),
        release(0).gives(released(0)),
        show(0).gives(shown(1, 0, 1, 0)),
    ])
}

fn printed_at_the_edge(mode: u8, script: &Script) -> Result<String, String> {
    script.compare_on(&mut one_ticket_below_the_ceiling(mode))?;
    let mut player = one_ticket_below_the_ceiling(mode);
    let mut lines = String::new();
    player.play_aloud(&script.schedule(), &mut lines);
    Ok(lines + &player.end_line())
}

/// What a program at the ceiling of readers (mode 0) or of writers (mode 1) prints.
pub fn printed_for_ceiling(mode: u8) -> Result<String, String> {
    printed_at_the_edge(mode, &calls_at_the_ceiling(mode))
}

/// What a program that drives a counter to its highest value prints.
pub fn printed_for_most() -> Result<String, String> {
    printed_at_the_edge(READER, &calls_to_the_highest_counter())
}

/// What a program prints in which whoever has to clear is lost.
pub fn printed_for_care() -> Result<String, String> {
    printed_at_the_edge(READER, &calls_of_a_lost_clearer())
}

#[cfg(test)]
mod tests {
    use super::*;

    #[test]
    fn the_ceiling_is_reached_and_cleared_for_both_kinds() {
        for mode in [READER, WRITER] {
            let printed = printed_for_ceiling(mode).unwrap();
            assert!(printed.starts_with("98302 0 1 0 0\n98303 0 2 0 0\n"));
            assert!(printed.ends_with("98324 0 10 0 281479271743489\nend 0 98324 262196 65548\n"));
        }
    }

    #[test]
    fn a_lost_clearer_is_cared_for() {
        let printed = printed_for_care().unwrap();
        assert!(printed.starts_with("98302 0 1 0 0\n98303 0 2 0 0\n"));
        assert!(printed.contains("98308 0 13 0 0\n98309 0 7 0 0\n98310 0 9 0 0\n98311 15 0 0 0\n"));
        assert!(printed.contains("98317 0 10 0 140737488388096\n98318 0 8 0 0\n98319 0 10 0 0\n"));
        assert!(printed.ends_with("98324 0 10 0 281474976776192\nend 0 98324 262200 65545\n"));
    }

    #[test]
    fn the_highest_counter_is_33023() {
        let printed = printed_for_most().unwrap();
        let word: u64 = 32_767 << 32 | 33_023;
        let end = format!("98815 0 10 0 {word}\nend 0 98815 263678 65790\n");
        assert!(
            printed.ends_with(&end),
            "{}",
            &printed[printed.len() - 80..]
        );
    }
}
