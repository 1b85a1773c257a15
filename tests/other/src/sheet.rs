//! The plan sheet: six header words, then three words for each move.

use crate::moves::{Move, State};
use crate::words::{put_word, word};

pub const SHEET_HEADER_BYTES: usize = 24;
pub const RECORD_BYTES: usize = 12;
pub const MOST_MOVES: u64 = 999_999;

/// One move and the clock after it.
#[derive(Clone, Copy, Debug, PartialEq, Eq)]
pub struct Record {
    pub step: Move,
    pub clock: u64,
}

#[derive(Clone, Debug, PartialEq, Eq)]
pub struct Sheet {
    pub arrival: u64,
    pub spell: u64,
    pub shift: u64,
    pub week: u64,
    pub labels: u64,
    pub records: Vec<Record>,
}

pub fn sheet_bytes(moves: usize) -> usize {
    SHEET_HEADER_BYTES + RECORD_BYTES * moves
}

impl Sheet {
    /// The sheet of these records, whose figures are those of the state at the end.
    pub fn ending_at(end: &State, labels: u64, records: Vec<Record>) -> Sheet {
        Sheet {
            arrival: end.clock,
            spell: end.spell,
            shift: end.shift,
            week: end.week,
            labels,
            records,
        }
    }

    /// None for a torn sheet.
    pub fn read(bytes: &[u8]) -> Option<Sheet> {
        if bytes.len() < SHEET_HEADER_BYTES {
            return None;
        }
        let moves = word(bytes, 0);
        if moves > MOST_MOVES || bytes.len() != sheet_bytes(moves as usize) {
            return None;
        }
        let record = |at: &[u8]| Record {
            step: Move {
                kind: word(at, 0),
                number: word(at, 4),
            },
            clock: word(at, 8),
        };
        Some(Sheet {
            arrival: word(bytes, 4),
            spell: word(bytes, 8),
            shift: word(bytes, 12),
            week: word(bytes, 16),
            labels: word(bytes, 20),
            records: bytes[SHEET_HEADER_BYTES..]
                .chunks_exact(RECORD_BYTES)
                .map(record)
                .collect(),
        })
    }

    pub fn length(&self) -> usize {
        sheet_bytes(self.records.len())
    }

    /// Writes the header and the records; later bytes stay.
    pub fn write(&self, bytes: &mut [u8]) {
        let moves = self.records.len() as u64;
        let figures = [self.arrival, self.spell, self.shift, self.week];
        let header = [&[moves], &figures[..], &[self.labels]].concat();
        let records = self
            .records
            .iter()
            .flat_map(|record| [record.step.kind, record.step.number, record.clock]);
        for (index, value) in header.into_iter().chain(records).enumerate() {
            put_word(bytes, 4 * index, value);
        }
    }

    pub fn bytes(&self) -> Vec<u8> {
        let mut bytes = vec![0; self.length()];
        self.write(&mut bytes);
        bytes
    }
}
