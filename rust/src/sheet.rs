//! Plan sheets and their moves.
use std::fmt;

use crate::words::{bytes_of, words_in};
use crate::{BREAK, DRIVE, FIRST_PART, REST, SECOND_PART, WEEKLY_REST};
use crate::{Refusal, Refused, SHEET_HEADER_BYTES, SHEET_RECORD_BYTES};

/// The most moves of a sheet.
const MOST_MOVES: usize = 999_999;

/// What kind of move it is. It is displayed as its word in a listing.
///
/// ```
/// use trunk::MoveKind;
///
/// assert_eq!(MoveKind::from_number(6), Some(MoveKind::WeeklyRest));
/// assert_eq!(MoveKind::WeeklyRest.to_string(), "weekly");
/// ```
#[derive(Clone, Copy, Debug, PartialEq, Eq, Hash)]
#[repr(u32)]
pub enum MoveKind {
    /// A drive, by the road of the move's number. All others are pauses, at the junction of the move's number.
    Drive = DRIVE,
    /// A break.
    Break = BREAK,
    /// A rest.
    Rest = REST,
    /// The first part of a split break.
    FirstPart = FIRST_PART,
    /// The second part of a split break.
    SecondPart = SECOND_PART,
    /// A weekly rest.
    WeeklyRest = WEEKLY_REST,
}

impl MoveKind {
    const ALL: [MoveKind; 6] = [
        MoveKind::Drive,
        MoveKind::Break,
        MoveKind::Rest,
        MoveKind::FirstPart,
        MoveKind::SecondPart,
        MoveKind::WeeklyRest,
    ];

    /// The kind's number on a sheet, 1 to 6.
    pub const fn number(self) -> u32 {
        self as u32
    }

    /// The kind of this number; none outside 1 to 6.
    pub fn from_number(number: u32) -> Option<MoveKind> {
        let mut kinds = MoveKind::ALL.into_iter();
        kinds.find(|kind| kind.number() == number)
    }

    /// Its word in a listing.
    pub const fn word(self) -> &'static str {
        match self {
            MoveKind::Drive => "drive",
            MoveKind::Break => "break",
            MoveKind::Rest => "rest",
            MoveKind::FirstPart => "first",
            MoveKind::SecondPart => "second",
            MoveKind::WeeklyRest => "weekly",
        }
    }
}

impl fmt::Display for MoveKind {
    fn fmt(&self, f: &mut fmt::Formatter<'_>) -> fmt::Result {
        f.pad(self.word())
    }
}

/// A move on a sheet.
#[derive(Clone, Copy, Debug, PartialEq, Eq, Hash)]
pub struct Move {
    /// What kind of move it is.
    pub kind: MoveKind,
    /// The road of a drive, the junction of a pause.
    pub number: u32,
    /// The clock after it, in seconds.
    pub clock: u32,
}

impl Move {
    /// The three words of the move's record.
    pub const fn words(self) -> [u32; 3] {
        [self.kind.number(), self.number, self.clock]
    }

    /// The move of a record's three words; none where the kind is outside 1 to 6.
    pub fn from_words([kind, number, clock]: [u32; 3]) -> Option<Move> {
        let kind = MoveKind::from_number(kind)?;
        Some(Move {
            kind,
            number,
            clock,
        })
    }
}

/// A plan sheet: the figures of its header, and its moves.
///
/// ```
/// use trunk::{MoveKind, Order, Sheet};
///
/// let map = std::fs::read("../crates/plan/data/map")?; // map T
/// let order = Order::european(1, 3, 0, 100_000).to_bytes();
/// let (mut words, mut lent) = ([0; 10 * trunk::LABEL_WORDS], [0; 1000]);
/// trunk::plan(&map, &order, &[], &mut words, &mut lent)?;
///
/// let sheet = Sheet::from_bytes(&lent)?;
/// assert_eq!((sheet.arrival, sheet.labels), (20_700, 4));
/// let moves: Vec<_> = sheet.moves.iter().map(|m| (m.kind.word(), m.number, m.clock)).collect();
/// assert_eq!(moves, [("drive", 1, 10_800), ("break", 2, 13_500), ("drive", 2, 20_700)]);
/// assert_eq!(sheet.to_bytes(), lent[..60]);
/// # Ok::<(), Box<dyn std::error::Error>>(())
/// ```
#[derive(Clone, Debug, Default, PartialEq, Eq, Hash)]
pub struct Sheet {
    /// When the last move ends, in seconds.
    pub arrival: u32,
    /// Wheel time then since the last break, second part, rest or weekly rest.
    pub spell: u32,
    /// Wheel time then since the last rest or weekly rest.
    pub shift: u32,
    /// Wheel time then since the last weekly rest.
    pub week: u32,
    /// How many labels the search counted.
    pub labels: u32,
    /// The moves, in their order.
    pub moves: Vec<Move>,
}

impl Sheet {
    /// Reads the sheet that stands at the head of these bytes. What is behind it is left out, since the sheet that is lent
    /// to [`plan`](crate::plan) may be longer than its plan.
    ///
    /// Bytes that are too short for their moves, or that count more than 999,999, are [`Refusal::TornSheet`]; then a move
    /// whose kind is outside 1 to 6 is [`Refusal::ForeignMove`], the first such. Whether the moves are legal and the figures
    /// true is for [`audit`](crate::audit) to say.
    pub fn from_bytes(bytes: &[u8]) -> Result<Sheet, Refused> {
        let torn = Refused {
            refusal: Refusal::TornSheet,
            place: bytes.len() as u64,
        };
        let (header, behind) = bytes.split_at_checked(SHEET_HEADER_BYTES).ok_or(torn)?;
        let [count, arrival, spell, shift, week, labels] = words_in(header);
        let count = count as usize;
        if MOST_MOVES < count || behind.len() < SHEET_RECORD_BYTES * count {
            return Err(torn);
        }
        let moves = read_moves(&behind[..SHEET_RECORD_BYTES * count])?;
        Ok(Sheet {
            arrival,
            spell,
            shift,
            week,
            labels,
            moves,
        })
    }

    /// The sheet's bytes, 24 and 12 for each move.
    pub fn to_bytes(&self) -> Vec<u8> {
        let header = [
            self.moves.len() as u32,
            self.arrival,
            self.spell,
            self.shift,
            self.week,
            self.labels,
        ];
        let mut bytes: Vec<u8> = bytes_of(header).collect();
        for step in &self.moves {
            bytes.extend(bytes_of(step.words()));
        }
        bytes
    }
}

fn read_moves(records: &[u8]) -> Result<Vec<Move>, Refused> {
    let records = records.chunks_exact(SHEET_RECORD_BYTES);
    let read = |(i, record)| {
        Move::from_words(words_in(record)).ok_or(Refused {
            refusal: Refusal::ForeignMove,
            place: i as u64 + 1,
        })
    };
    records.enumerate().map(read).collect()
}
