//! The reply of every operation, and the documents' refusal numbers by name.

#[derive(Clone, Copy, Debug, PartialEq, Eq)]
pub struct Reply {
    pub number: u64,
    pub place: u64,
    pub arrival: u64,
}

impl Reply {
    pub fn success(place: u64, arrival: u64) -> Reply {
        Reply {
            number: 0,
            place,
            arrival,
        }
    }

    pub fn refused(number: u64, place: u64) -> Reply {
        Reply {
            number,
            place,
            arrival: 0,
        }
    }

    /// Whether planning or a preview refused before its search, and so leaves the label space as it was.
    pub fn is_before_search(&self) -> bool {
        matches!(self.number, SHORT_MAP..=BAD_TRIP | UNKNOWN_ROAD | BAD_BANS)
    }
}

/// The reply of a judgement that carries its refusal as an error.
pub fn told(judged: Result<Reply, Reply>) -> Reply {
    judged.unwrap_or_else(|refused| refused)
}

pub const SHORT_MAP: u64 = 1;
pub const STRANGE_MAP: u64 = 2;
pub const OVERSIZE: u64 = 3;
pub const MISFIT: u64 = 4;
pub const BAD_JUNCTION: u64 = 5;
pub const BAD_ROAD: u64 = 6;
pub const BROKEN_CHAIN: u64 = 7;
pub const BAD_LETTERING: u64 = 8;
pub const BAD_ORDER: u64 = 9;
pub const BAD_RULES: u64 = 10;
pub const BAD_TRIP: u64 = 11;
pub const FULL: u64 = 12;
pub const NO_ROAD: u64 = 13;
pub const SHORT_SHEET: u64 = 14;
pub const TORN_SHEET: u64 = 15;
pub const FOREIGN_MOVE: u64 = 16;
pub const OVERRUN: u64 = 17;
pub const FALSE_FIGURE: u64 = 18;
pub const STRAY: u64 = 19;
pub const UNKNOWN_NAME: u64 = 20;
pub const TORN_TRACE: u64 = 21;
pub const ODD_RECORD: u64 = 22;
pub const PAST_LIMIT: u64 = 23;
pub const UNKNOWN_ROAD: u64 = 24;
pub const BAD_BANS: u64 = 25;
