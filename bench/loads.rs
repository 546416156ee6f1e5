//! The schedules. Each is made from fixed numbers: the same bytes on every machine.

pub struct Load {
    pub name: &'static str,
    pub words: usize,
    pub schedule: Vec<u8>,
    pub records: usize,
    /// How often one turn plays it, each time on a fresh board.
    pub times: usize,
}

pub struct Script {
    bytes: Vec<u8>,
    records: usize,
}

impl Script {
    pub fn new() -> Self {
        Script {
            bytes: Vec::new(),
            records: 0,
        }
    }

    pub fn open(&mut self, record: u16, mode: u8) {
        let [low, high] = record.to_le_bytes();
        self.put(&[1, low, high, mode]);
    }

    pub fn step(&mut self, slot: u8) {
        self.put(&[2, slot]);
    }

    pub fn release(&mut self, slot: u8) {
        self.put(&[3, slot]);
    }

    pub fn show(&mut self, record: u16) {
        let [low, high] = record.to_le_bytes();
        self.put(&[4, low, high]);
    }

    pub fn open_for(&mut self, node: u8, record: u16, mode: u8) {
        let [low, high] = record.to_le_bytes();
        self.put(&[5, low, high, mode, node]);
    }

    pub fn fence(&mut self, node: u8) {
        self.put(&[6, node]);
    }

    pub fn care(&mut self, slot: u8) {
        self.put(&[7, slot]);
    }

    fn put(&mut self, bytes: &[u8]) {
        self.bytes.extend_from_slice(bytes);
        self.records += 1;
    }

    pub fn load(self, name: &'static str, words: usize, times: usize) -> Load {
        Load {
            name,
            words,
            schedule: self.bytes,
            records: self.records,
            times,
        }
    }
}

/// Numbers from a seed (xorshift with a product).
pub struct Dice(u64);

impl Dice {
    pub fn new(seed: u64) -> Self {
        Dice(seed)
    }

    pub fn below(&mut self, n: usize) -> usize {
        self.0 ^= self.0 >> 12;
        self.0 ^= self.0 << 25;
        self.0 ^= self.0 >> 27;
        (self.0.wrapping_mul(0x2545_f491_4f6c_dd1d) >> 33) as usize % n
    }
}

/// One writer holds the last record, 255 others wait, and the waiting ones step again and again.
pub fn steps(name: &'static str, words: usize) -> Load {
    let mut script = Script::new();
    for slot in 0..=255 {
        script.open(words as u16 - 1, u8::from(slot % 3 == 0));
        script.step(slot);
    }
    for i in 0..200_000 {
        script.step((i % 255 + 1) as u8);
    }
    script.load(name, words, 1)
}

/// From an empty to a full board.
pub fn opens() -> Load {
    let mut script = Script::new();
    for i in 0..256 {
        script.open(i % 64, (i % 2) as u8);
    }
    script.load("opens", 64, 400)
}

#[derive(Clone, Copy, PartialEq, Eq)]
enum Lives {
    Asking,
    Waiting,
    Held,
}

/// Opens, steps, releases and shows on four records, so that most calls are accepted: whoever plays keeps count of what each slot came to.
pub fn mixed(words: usize) -> Load {
    const RECORDS: usize = 4;
    let mut dice = Dice::new(0x5eed_0001);
    let mut script = Script::new();
    let mut slots: [Option<(usize, bool, Lives)>; 256] = [None; 256];
    let mut lines: [Vec<usize>; RECORDS] = Default::default(); // who drew a ticket and has not released, in the order of the tickets
    for _ in 0..200_000 {
        let slot = dice.below(64);
        match slots[slot] {
            _ if dice.below(16) == 0 => script.show(dice.below(RECORDS) as u16),
            None => {
                let (record, writer) = (dice.below(RECORDS), dice.below(4) == 0);
                let lowest = slots.iter().position(Option::is_none).unwrap();
                script.open(record as u16, u8::from(writer));
                slots[lowest] = Some((record, writer, Lives::Asking));
            }
            Some((record, _, Lives::Held)) if dice.below(32) != 0 => {
                script.release(slot as u8);
                lines[record].retain(|&other| other != slot);
                slots[slot] = None;
            }
            Some((record, writer, life)) => {
                script.step(slot as u8);
                if life == Lives::Asking {
                    lines[record].push(slot);
                }
                if life != Lives::Held {
                    let mut before = lines[record].iter().take_while(|&&other| other != slot);
                    let granted = before.all(|&other| !writer && !slots[other].unwrap().1);
                    let life = if granted { Lives::Held } else { Lives::Waiting };
                    slots[slot] = Some((record, writer, life));
                }
            }
        }
    }
    script.load("mixed", words, 1)
}

/// Calls of 32 nodes, of which one after the other is lost. The last call may be cut.
fn lost_nodes(dice: &mut Dice) -> Load {
    let mut script = Script::new();
    for _ in 0..dice.below(3_000) {
        let node = dice.below(32) as u8;
        match dice.below(64) {
            0 => script.fence(node),
            1 => script.open_for(node, dice.below(80) as u16, dice.below(4) as u8),
            2..=4 => script.open(dice.below(3) as u16, dice.below(2) as u8),
            5..=18 => script.open_for(node, dice.below(3) as u16, dice.below(2) as u8),
            19..=36 => script.step(dice.below(24) as u8),
            37..=47 => script.release(dice.below(24) as u8),
            48..=62 => script.care(dice.below(24) as u8),
            _ => script.care(dice.below(256) as u8),
        }
    }
    let mut load = script.load("lost nodes", 64, 1);
    for _ in 0..dice.below(4) {
        load.schedule.pop();
    }
    load
}

/// Record 0 has one ticket of the mode left.
fn near_a_ceiling(mode: u8) -> Script {
    let mut script = Script::new();
    for _ in 0..32_767 {
        script.open(0, mode);
        script.step(0);
        script.release(0);
    }
    script
}

/// Who has the last ticket is lost, and so is one that was turned away: released, not yet clear, withdrawn, cleared.
fn lost_past_a_ceiling(mode: u8) -> Load {
    let mut script = near_a_ceiling(mode);
    for (node, slot) in [(1, 0), (2, 1)] {
        script.open_for(node, 0, mode);
        script.step(slot);
        script.fence(node);
    }
    for slot in [0, 0, 1, 0] {
        script.care(slot);
    }
    script.load("lost past a ceiling", 1, 1)
}

/// Schedules that are compared and not timed: any bytes, and records driven to the ceiling and cleared; both with nodes that are lost too.
pub fn compared_only() -> Vec<Load> {
    let mut loads = Vec::new();
    let mut dice = Dice::new(0x5eed_0002);
    for _ in 0..200 {
        let mut script = Script::new();
        for _ in 0..dice.below(3_000) {
            match dice.below(64) {
                0 => script.open(dice.below(80) as u16, dice.below(4) as u8),
                1 => script.show(dice.below(80) as u16),
                2..=15 => script.open(dice.below(3) as u16, dice.below(2) as u8),
                16..=45 => script.step(dice.below(24) as u8),
                46..=62 => script.release(dice.below(24) as u8),
                _ => script.step(dice.below(256) as u8),
            }
        }
        let mut load = script.load("any calls", 64, 1);
        for _ in 0..dice.below(4) {
            load.schedule.push(dice.below(9) as u8);
        }
        loads.push(load);
    }
    for mode in [0, 1] {
        let mut script = Script::new();
        for _ in 0..40_000 {
            script.open(0, mode);
            script.step(0);
            script.release(0);
            script.step(0);
        }
        loads.push(script.load("a ceiling, cleared", 64, 1));
        let mut script = near_a_ceiling(mode);
        for _ in 0..200_000 {
            match dice.below(8) {
                0 | 1 => script.open(0, dice.below(2) as u8),
                2 | 3 => script.release(dice.below(4) as u8),
                4 => script.show(0),
                _ => script.step(dice.below(4) as u8),
            }
        }
        loads.push(script.load("past a ceiling", 1, 1));
        loads.push(lost_past_a_ceiling(mode));
    }
    for _ in 0..200 {
        loads.push(lost_nodes(&mut dice));
    }
    for words in [0, 4_096, 4_097, 5_000] {
        let mut load = mixed(words);
        load.name = "other numbers of words";
        loads.push(load);
    }
    loads
}
