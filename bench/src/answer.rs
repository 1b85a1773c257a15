//! What a planner answers, in one shape for all, so that answers can be compared.

use other::reply::{Reply, NO_ROAD};
use other::sheet::{sheet_bytes, Sheet};
use other::words::word;

#[derive(Debug, PartialEq, Eq)]
pub enum Answer {
    Planned(Sheet),
    /// There is no journey, and so many labels.
    NoRoad(u64),
}

impl Answer {
    /// The answer that a reply and the sheet written beside it tell.
    pub fn told(reply: &Reply, sheet: &[u8]) -> Result<Answer, String> {
        match reply.number {
            0 => {
                let length = sheet_bytes(word(sheet, 0) as usize);
                let sheet = Sheet::read(&sheet[..length]).ok_or("the sheet is torn")?;
                if (sheet.labels, sheet.arrival) != (reply.place, reply.arrival) {
                    return Err(format!("{reply:?} differs from the sheet's header"));
                }
                Ok(Answer::Planned(sheet))
            }
            NO_ROAD => Ok(Answer::NoRoad(reply.place)),
            _ => Err(format!("{reply:?}")),
        }
    }

    /// N.
    pub fn labels(&self) -> u64 {
        match self {
            Answer::Planned(sheet) => sheet.labels,
            Answer::NoRoad(labels) => *labels,
        }
    }
    /// For a complaint: two plans with equal summaries differ in a move.
    pub fn summary(&self) -> String {
        match self {
            Answer::Planned(sheet) => format!(
                "N {}, arrival {}, {} moves",
                sheet.labels,
                sheet.arrival,
                sheet.records.len()
            ),
            Answer::NoRoad(labels) => format!("no road, N {labels}"),
        }
    }
}
