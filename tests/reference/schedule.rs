//! Schedules in bytes: the seven kinds of record, a reader over them and their writing.

pub const BODY_CUT_SHORT: u8 = 7;
pub const UNKNOWN_KIND: u8 = 8;

#[derive(Clone, Copy, Debug, PartialEq, Eq)]
pub enum Call {
    Open { record: u16, mode: u8 },
    Step { slot: u8 },
    Release { slot: u8 },
    Show { record: u16 },
    OpenFor { record: u16, mode: u8, node: u8 },
    Fence { node: u8 },
    Care { slot: u8 },
}

impl Call {
    pub fn bytes(self) -> Vec<u8> {
        match self {
            Call::Open { record, mode } => {
                let [low, high] = record.to_le_bytes();
                vec![1, low, high, mode]
            }
            Call::Step { slot } => vec![2, slot],
            Call::Release { slot } => vec![3, slot],
            Call::Show { record } => {
                let [low, high] = record.to_le_bytes();
                vec![4, low, high]
            }
            Call::OpenFor { record, mode, node } => {
                let [low, high] = record.to_le_bytes();
                vec![5, low, high, mode, node]
            }
            Call::Fence { node } => vec![6, node],
            Call::Care { slot } => vec![7, slot],
        }
    }
}

/// What stands at a reader's place.
#[derive(Clone, Copy, Debug, PartialEq, Eq)]
pub enum Next {
    Record { call: Call, length: usize },
    End,
    UnknownKind,
    BodyCutShort,
}

/// A schedule and the place up to which it has been read.
pub struct Reader<'s> {
    schedule: &'s [u8],
    place: usize,
}

impl<'s> Reader<'s> {
    pub fn at(schedule: &'s [u8], place: usize) -> Self {
        Reader { schedule, place }
    }

    pub fn place(&self) -> usize {
        self.place
    }

    /// Looks at the next record without moving.
    pub fn look(&self) -> Next {
        let Some((&kind, body)) = self
            .schedule
            .get(self.place..)
            .and_then(<[u8]>::split_first)
        else {
            return Next::End;
        };
        let call = match (kind, body) {
            (1, &[low, high, mode, ..]) => Call::Open {
                record: u16::from_le_bytes([low, high]),
                mode,
            },
            (2, &[slot, ..]) => Call::Step { slot },
            (3, &[slot, ..]) => Call::Release { slot },
            (4, &[low, high, ..]) => Call::Show {
                record: u16::from_le_bytes([low, high]),
            },
            (5, &[low, high, mode, node, ..]) => Call::OpenFor {
                record: u16::from_le_bytes([low, high]),
                mode,
                node,
            },
            (6, &[node, ..]) => Call::Fence { node },
            (7, &[slot, ..]) => Call::Care { slot },
            (1..=7, _) => return Next::BodyCutShort,
            _ => return Next::UnknownKind,
        };
        Next::Record {
            call,
            length: call.bytes().len(),
        }
    }

    /// Moves past a record of the given length.
    pub fn pass(&mut self, length: usize) {
        self.place += length;
    }
}

#[cfg(test)]
mod tests {
    use super::*;

    #[test]
    fn what_is_written_is_read() {
        for call in [
            Call::Open {
                record: 0x1234,
                mode: 7,
            },
            Call::Step { slot: 255 },
            Call::Release { slot: 0 },
            Call::Show { record: 0xff00 },
            Call::OpenFor {
                record: 0x1234,
                mode: 7,
                node: 0,
            },
            Call::Fence { node: 255 },
            Call::Care { slot: 9 },
        ] {
            let bytes = call.bytes();
            let length = bytes.len();
            assert_eq!(Reader::at(&bytes, 0).look(), Next::Record { call, length });
            for short in 1..length {
                assert_eq!(Reader::at(&bytes[..short], 0).look(), Next::BodyCutShort);
            }
        }
    }

    #[test]
    fn only_seven_kinds_are_known() {
        for kind in 0..=255u8 {
            let known = (1..=7).contains(&kind);
            let next = Reader::at(&[kind, 0, 0, 0, 0], 0).look();
            assert_eq!(next == Next::UnknownKind, !known);
            let alone = Reader::at(&[kind], 0).look();
            assert_eq!(
                alone,
                if known {
                    Next::BodyCutShort
                } else {
                    Next::UnknownKind
                }
            );
        }
    }

    #[test]
    fn at_and_past_the_end_there_is_nothing() {
        for place in [2, 3, usize::MAX] {
            assert_eq!(Reader::at(&[2, 0], place).look(), Next::End);
        }
    }
}
