//! The rival: the same rules as one would write them in Rust for speed. The board is changed in place and keeps a map of its slots in use.

const SLOTS: usize = 256;
const NODES: usize = 256;
const MOST_WORDS: usize = 4_096;
const ENTRY: usize = 12;

/// Tickets of one kind that a record gives before it must be cleared.
const CEIL: u16 = 32_768;

#[derive(Clone, Copy, PartialEq, Eq)]
#[repr(u8)]
enum Phase {
    Free,
    Asking,
    Waiting,
    Held,
    Owing,
    Clearing,
}

#[derive(Clone, Copy)]
#[repr(C)]
struct Request {
    record: u16,
    writer: bool,
    phase: Phase,
    x: u16,
    s: u16,
    clearing: u64,
}

const _: () = assert!(size_of::<Request>() == 16);

const FREE: Request = Request {
    record: 0,
    writer: false,
    phase: Phase::Free,
    x: 0,
    s: 0,
    clearing: 0,
};

/// The four counters of a lock word.
struct Counters {
    n_x: u16,
    n_s: u16,
    m_x: u16,
    m_s: u16,
}

impl Counters {
    #[inline]
    fn of(word: u64) -> Self {
        Counters {
            n_x: (word >> 48) as u16,
            n_s: (word >> 32) as u16,
            m_x: (word >> 16) as u16,
            m_s: word as u16,
        }
    }
}

/// The word at rest after so many writers and readers.
fn at_rest(writers: u16, readers: u16) -> u64 {
    (u64::from(writers) << 16 | u64::from(readers)) * 0x1_0000_0001
}

/// The numbers of an answer: a refusal, or an outcome with a value.
struct Answer {
    number: u8,
    outcome: u8,
    value: u64,
}

#[inline]
fn refused(number: u8) -> Answer {
    Answer {
        number,
        outcome: 0,
        value: 0,
    }
}

#[inline]
fn came_to(outcome: u8, value: u64) -> Answer {
    Answer {
        number: 0,
        outcome,
        value,
    }
}

pub struct Board {
    slots: [Request; SLOTS],
    used: [u64; 4],
    nodes: [u8; SLOTS],
    fenced: [bool; NODES],
}

impl Board {
    /// A fresh board over the words, which become 0 unless there are none or too many.
    pub fn begin(words: &mut [u64]) -> Self {
        if words.len() <= MOST_WORDS {
            words.fill(0);
        }
        Board {
            slots: [FREE; SLOTS],
            used: [0; 4],
            nodes: [0; SLOTS],
            fenced: [false; NODES],
        }
    }

    #[inline]
    fn lowest_free(&self) -> Option<usize> {
        let part = self.used.iter().position(|&bits| bits != u64::MAX)?;
        Some(part * 64 + self.used[part].trailing_ones() as usize)
    }

    #[inline]
    fn free(&mut self, slot: u8) {
        self.slots[usize::from(slot)] = FREE;
        self.nodes[usize::from(slot)] = 0;
        self.used[usize::from(slot) / 64] &= !(1 << (slot % 64));
    }

    /// Whether the node of a slot is fenced.
    #[inline]
    fn is_fenced(&self, slot: u8) -> bool {
        self.fenced[usize::from(self.nodes[usize::from(slot)])]
    }

    /// The slot is 0 where the open is refused.
    #[inline]
    fn open(&mut self, words: &[u64], record: u16, mode: u8, node: u8) -> (Answer, u8) {
        if usize::from(record) >= words.len() {
            return (refused(2), 0);
        }
        if mode > 1 {
            return (refused(3), 0);
        }
        if self.fenced[usize::from(node)] {
            return (refused(14), 0);
        }
        let Some(slot) = self.lowest_free() else {
            return (refused(6), 0);
        };
        self.slots[slot] = Request {
            record,
            writer: mode == 1,
            phase: Phase::Asking,
            ..FREE
        };
        self.nodes[slot] = node;
        self.used[slot / 64] |= 1 << (slot % 64);
        (came_to(1, 0), slot as u8)
    }

    #[inline]
    fn step(&mut self, words: &mut [u64], slot: u8) -> Answer {
        match self.slots[usize::from(slot)].phase {
            Phase::Free => refused(4),
            _ if self.is_fenced(slot) => refused(15),
            Phase::Held => refused(5),
            _ => self.go_on(words, slot),
        }
    }

    #[inline]
    fn release(&mut self, words: &mut [u64], slot: u8) -> Answer {
        match self.slots[usize::from(slot)].phase {
            Phase::Free => refused(4),
            _ if self.is_fenced(slot) => refused(15),
            Phase::Held => self.let_go(words, slot),
            _ => refused(5),
        }
    }

    #[inline]
    fn fence(&mut self, node: u8) -> Answer {
        self.fenced[usize::from(node)] = true;
        came_to(13, 0)
    }

    /// A request that has not asked is freed without a verb, where its record is lent.
    #[inline]
    fn care(&mut self, words: &mut [u64], slot: u8) -> Answer {
        let request = self.slots[usize::from(slot)];
        match request.phase {
            Phase::Free => refused(4),
            _ if !self.is_fenced(slot) => refused(16),
            Phase::Asking if usize::from(request.record) >= words.len() => refused(2),
            Phase::Asking => {
                self.free(slot);
                came_to(12, 0)
            }
            Phase::Held => self.let_go(words, slot),
            _ => self.go_on(words, slot),
        }
    }

    /// What a step does in a phase that has one. Called from two places and not inlined, it would cost a step a third more instructions.
    #[inline(always)]
    fn go_on(&mut self, words: &mut [u64], slot: u8) -> Answer {
        let request = &mut self.slots[usize::from(slot)];
        let Some(word) = words.get_mut(usize::from(request.record)) else {
            return refused(2);
        };
        let before = *word;
        let ticket = if request.writer { 1 << 16 } else { 1 };
        match request.phase {
            Phase::Asking => {
                *word = before.wrapping_add(ticket);
                let p = Counters::of(before);
                if p.m_x >= CEIL || p.m_s >= CEIL {
                    request.phase = Phase::Owing;
                    return came_to(4, 0);
                }
                request.x = p.m_x;
                request.s = p.m_s;
                request.clearing = match request.writer {
                    true if p.m_x == CEIL - 1 => at_rest(CEIL, p.m_s),
                    false if p.m_s == CEIL - 1 => at_rest(p.m_x, CEIL),
                    _ => 0,
                };
                self.turn(slot, before)
            }
            Phase::Waiting => self.turn(slot, before),
            Phase::Owing => {
                *word = before.wrapping_sub(ticket);
                self.free(slot);
                came_to(5, 0)
            }
            _ if before == request.clearing => {
                *word = 0;
                self.free(slot);
                came_to(8, 0)
            }
            _ => came_to(9, 0),
        }
    }

    #[inline]
    fn turn(&mut self, slot: u8, word: u64) -> Answer {
        let request = &mut self.slots[usize::from(slot)];
        let v = Counters::of(word);
        if v.n_x > request.x || request.writer && v.n_s > request.s {
            self.free(slot);
            return came_to(11, 0);
        }
        if v.n_x == request.x && (!request.writer || v.n_s == request.s) {
            request.phase = Phase::Held;
            return came_to(2, 0);
        }
        request.phase = Phase::Waiting;
        let writers = u64::from(request.x - v.n_x);
        let readers = match request.writer {
            true => u64::from(request.s - v.n_s),
            false => 0,
        };
        came_to(3, writers + readers)
    }

    /// What a release does to a request that holds.
    #[inline(always)]
    fn let_go(&mut self, words: &mut [u64], slot: u8) -> Answer {
        let request = &mut self.slots[usize::from(slot)];
        let Some(word) = words.get_mut(usize::from(request.record)) else {
            return refused(2);
        };
        *word = word.wrapping_add(if request.writer { 1 << 48 } else { 1 << 32 });
        if request.clearing == 0 {
            self.free(slot);
            return came_to(6, 0);
        }
        request.phase = Phase::Clearing;
        came_to(7, 0)
    }
}

#[inline]
fn show(words: &[u64], record: u16) -> Answer {
    match words.get(usize::from(record)) {
        Some(&word) => came_to(10, word),
        None => refused(2),
    }
}

/// What a run came to: its ending number, the records played, the bytes of the schedule that they took, the verbs sent.
#[derive(Debug, PartialEq, Eq)]
pub struct Ran {
    pub ending: u8,
    pub records: usize,
    pub bytes: usize,
    pub verbs: u64,
}

/// Plays the schedule from a place on, within an allowance of records and the room of the report.
pub fn run(
    board: &mut Board,
    words: &mut [u64],
    schedule: &[u8],
    at: usize,
    allowance: usize,
    report: &mut [u8],
) -> Ran {
    let reach = words.len().min(MOST_WORDS);
    let words = &mut words[..reach];
    let start = schedule.get(at..).unwrap_or_default();
    let mut rest = start;
    let (mut records, mut verbs) = (0, 0);
    let mut stopped = None;
    for entry in report.chunks_exact_mut(ENTRY).take(allowance) {
        let (answer, slot, after) = match *rest {
            [1, low, high, mode, ref after @ ..] => {
                let (answer, slot) = board.open(words, u16::from_le_bytes([low, high]), mode, 0);
                (answer, slot, after)
            }
            [2, slot, ref after @ ..] => {
                let answer = board.step(words, slot);
                verbs += u64::from(answer.number == 0);
                (answer, slot, after)
            }
            [3, slot, ref after @ ..] => {
                let answer = board.release(words, slot);
                verbs += u64::from(answer.number == 0);
                (answer, slot, after)
            }
            [4, low, high, ref after @ ..] => {
                (show(words, u16::from_le_bytes([low, high])), 0, after)
            }
            [5, low, high, mode, node, ref after @ ..] => {
                let (answer, slot) = board.open(words, u16::from_le_bytes([low, high]), mode, node);
                (answer, slot, after)
            }
            [6, node, ref after @ ..] => (board.fence(node), 0, after),
            [7, slot, ref after @ ..] => {
                let answer = board.care(words, slot);
                verbs += u64::from(answer.number == 0 && answer.outcome != 12);
                (answer, slot, after)
            }
            ref other => {
                stopped = Some(left_by(other));
                break;
            }
        };
        entry[..4].copy_from_slice(&[answer.number, answer.outcome, slot, 0]);
        entry[4..].copy_from_slice(&answer.value.to_le_bytes());
        rest = after;
        records += 1;
    }
    let ending = match stopped {
        Some(ending) => ending,
        None if rest.is_empty() => 0,
        None if records == allowance => 11,
        None => 12,
    };
    Ran {
        ending,
        records,
        bytes: start.len() - rest.len(),
        verbs,
    }
}

/// What a run ends with where no record stands: at the end, at a cut record, at an unknown kind.
fn left_by(rest: &[u8]) -> u8 {
    match rest {
        [] => 0,
        [1..=7, ..] => 7,
        _ => 8,
    }
}

/// What is timed, as `brancove_bench_run` has it: a fresh board plays the whole schedule. Gives the number of verbs.
pub fn bench_run(words: &mut [u64], schedule: &[u8], report: &mut [u8]) -> u64 {
    let mut board = Board::begin(words);
    run(&mut board, words, schedule, 0, 1 << 40, report).verbs
}
