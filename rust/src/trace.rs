//! Traces of a tachograph.
use crate::words::bytes_of;
use crate::{DRIVING, OTHER_WORK, PAUSE};

/// What a driver does, in a trace's record.
#[derive(Clone, Copy, Debug, PartialEq, Eq, Hash)]
#[repr(u32)]
pub enum Activity {
    /// Other work: it clears nothing and ends a pause.
    OtherWork = OTHER_WORK,
    /// Driving.
    Driving = DRIVING,
    /// A pause; neighbouring ones are one pause.
    Pause = PAUSE,
}

/// A record of a trace: an activity and how long it lasts.
///
/// ```
/// use trunk::{Activity, TraceRecord};
///
/// let driven = TraceRecord::new(Activity::Driving, 9_000);
/// let paused = TraceRecord::new(Activity::Pause, 2_700);
/// let trace = trunk::trace_bytes(&[driven, paused]);
/// assert_eq!(trace, [1, 0, 0, 0, 0x28, 0x23, 0, 0, 2, 0, 0, 0, 0x8C, 0x0A, 0, 0]);
/// ```
#[derive(Clone, Copy, Debug, PartialEq, Eq, Hash)]
pub struct TraceRecord {
    /// What the driver does.
    pub activity: Activity,
    /// For how many seconds: 1 to [`MOST_TRACE_SECONDS`](crate::MOST_TRACE_SECONDS), which [`replay`](crate::replay) judges.
    pub seconds: u32,
}

impl TraceRecord {
    /// So many seconds of an activity.
    pub const fn new(activity: Activity, seconds: u32) -> TraceRecord {
        TraceRecord { activity, seconds }
    }

    /// The two words of the record.
    pub const fn words(self) -> [u32; 2] {
        [self.activity as u32, self.seconds]
    }
}

/// The bytes of a trace of these records.
pub fn trace_bytes(records: &[TraceRecord]) -> Vec<u8> {
    bytes_of(records.iter().flat_map(|record| record.words())).collect()
}
