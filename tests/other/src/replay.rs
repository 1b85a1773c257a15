//! Hours from the tachograph (document 02, P3, P5 and P7): a trace replayed over the driver's figures.
//! Refusals 10, 11 and 21 to 23.
//!
//! No figure is carried from record to record. Wherever one is asked for, the wheel time since the
//! last pause that was long enough is added up afresh, out of all the records before; and so is the
//! mark found afresh.

use crate::moves::Document;
use crate::operations::{LentFigures, LentRules};
use crate::order::{refuse_broken, Order};
use crate::reply::*;
use crate::words::{bytes_of, word};

pub const TRACE_RECORD_BYTES: usize = 8;
pub const LONGEST_ACTIVITY: u64 = 1_000_000;

pub const OTHER_WORK: u64 = 0;
pub const DRIVING: u64 = 1;
pub const PAUSE: u64 = 2;

/// A pair of words of the trace, whatever they hold.
#[derive(Clone, Copy, Debug, PartialEq, Eq)]
pub struct TraceRecord {
    pub activity: u64,
    pub seconds: u64,
}

impl TraceRecord {
    /// The records of a trace that is not torn.
    pub fn read_all(trace: &[u8]) -> Vec<TraceRecord> {
        let read = |record: &[u8]| TraceRecord {
            activity: word(record, 0),
            seconds: word(record, 4),
        };
        trace.chunks_exact(TRACE_RECORD_BYTES).map(read).collect()
    }

    pub fn all_bytes(records: &[TraceRecord]) -> Vec<u8> {
        let words = |record: &TraceRecord| [record.activity, record.seconds];
        bytes_of(&records.iter().flat_map(words).collect::<Vec<u64>>())
    }

    pub fn is_odd(&self) -> bool {
        self.activity > PAUSE || !(1..=LONGEST_ACTIVITY).contains(&self.seconds)
    }
}

/// What a trace is replayed with: words 4 to 14 of an order, and the mark as lent.
#[derive(Clone, Debug)]
pub struct Hours {
    pub order: Order,
    pub marked: bool,
}

impl Hours {
    fn of(rules: LentRules, figures: LentFigures) -> Hours {
        let [spell, shift, week, mark] = figures.map(u64::from);
        Hours {
            order: Order::of_hours(rules.map(u64::from), [spell, shift, week]),
            marked: mark != 0,
        }
    }
}

/// The rules of replaying. The defaults are document 02's; a wrong copy changes one of them.
pub trait Replayer: Sized {
    /// Whether two neighbouring records belong to one pause.
    fn joins(one: &TraceRecord, next: &TraceRecord) -> bool {
        one.activity == PAUSE && next.activity == PAUSE
    }

    /// Whether a whole pause of so many seconds clears spell, with or without the mark before it.
    fn clears_spell(pause: u64, marked: bool, order: &Order) -> bool {
        pause >= order.break_time || ends_split(pause, marked, order)
    }

    /// Whether it clears shift.
    fn clears_shift(pause: u64, order: &Order) -> bool {
        pause >= order.rest_time
    }

    /// Whether it clears the week.
    fn clears_week(pause: u64, order: &Order) -> bool {
        pause >= order.weekly_rest
    }

    /// The mark after a stretch with a whole pause of so many seconds, or with none.
    fn marked_after(pause: u64, marked: bool, order: &Order) -> bool {
        let is_cleared = pause >= order.break_time || ends_split(pause, marked, order);
        !is_cleared && (marked || order.has_split() && pause >= order.first_part)
    }

    /// The refusal that the last of some records meets, where those before it have met none.
    fn refusal(records: &[TraceRecord], hours: &Hours) -> Option<u64> {
        if records.last()?.is_odd() {
            return Some(ODD_RECORD);
        }
        is_past_limit::<Self>(records, hours).then_some(PAST_LIMIT)
    }
}

/// Whether a pause is a second part.
fn ends_split(pause: u64, marked: bool, order: &Order) -> bool {
    order.has_split() && marked && pause >= order.second_part
}

impl Replayer for Document {}

pub fn replay<R: Replayer>(trace: &[u8], rules: LentRules, figures: &mut LentFigures) -> Reply {
    told(replayed::<R>(trace, rules, figures))
}

fn replayed<R: Replayer>(
    trace: &[u8],
    rules: LentRules,
    figures: &mut LentFigures,
) -> Result<Reply, Reply> {
    let hours = Hours::of(rules, *figures);
    refuse_broken(BAD_RULES, &hours.order.rules())?;
    refuse_broken(BAD_TRIP, &hours.order.figures())?;
    if !trace.len().is_multiple_of(TRACE_RECORD_BYTES) {
        return Err(Reply::refused(TORN_TRACE, trace.len() as u64));
    }
    let records = TraceRecord::read_all(trace);
    for number in 1..=records.len() {
        if let Some(refusal) = R::refusal(&records[..number], &hours) {
            return Err(Reply::refused(refusal, number as u64));
        }
    }
    let [spell, shift, week] = figures_after::<R>(&records, &hours);
    let marked = is_marked_after::<R>(&records, &hours);
    *figures = [spell, shift, week, u64::from(marked)].map(|figure| figure as u32);
    Ok(Reply::success(records.len() as u64, 0))
}

/// Spell, shift and week after all of some records.
pub fn figures_after<R: Replayer>(records: &[TraceRecord], hours: &Hours) -> [u64; 3] {
    let order = &hours.order;
    let clears_spell = |pause, before: &[TraceRecord]| {
        R::clears_spell(pause, is_marked_after::<R>(before, hours), order)
    };
    let clears_shift = |pause, _: &[TraceRecord]| R::clears_shift(pause, order);
    let clears_week = |pause, _: &[TraceRecord]| R::clears_week(pause, order);
    [
        wheel_time::<R>(records, order.spell, clears_spell),
        wheel_time::<R>(records, order.shift, clears_shift),
        wheel_time::<R>(records, order.week, clears_week),
    ]
}

/// The wheel time since the last pause that clears it; where there is none, all of it and that of
/// the start. `clears` is asked of a whole pause and the records before it.
fn wheel_time<R: Replayer>(
    records: &[TraceRecord],
    at_start: u64,
    clears: impl Fn(u64, &[TraceRecord]) -> bool,
) -> u64 {
    let mut driven = 0;
    let mut before = records;
    for stretch in records.chunk_by(R::joins).rev() {
        before = &before[..before.len() - stretch.len()];
        let pause = seconds_of(PAUSE, stretch);
        if pause > 0 && clears(pause, before) {
            return driven;
        }
        driven += seconds_of(DRIVING, stretch);
    }
    at_start + driven
}

/// Whether the driver has the mark after all of some records. The last pause that leaves the same
/// with and without a mark before it is looked for; those behind it are taken in turn.
fn is_marked_after<R: Replayer>(records: &[TraceRecord], hours: &Hours) -> bool {
    let after = |marked, pause| R::marked_after(pause, marked, &hours.order);
    let mut marked = hours.marked;
    let mut behind = Vec::new();
    for stretch in records.chunk_by(R::joins).rev() {
        let pause = seconds_of(PAUSE, stretch);
        if after(true, pause) == after(false, pause) {
            marked = after(true, pause);
            break;
        }
        behind.push(pause);
    }
    behind.into_iter().rev().fold(marked, after)
}

/// The seconds of one activity in a stretch of the trace.
fn seconds_of(activity: u64, stretch: &[TraceRecord]) -> u64 {
    let records = stretch.iter().filter(|record| record.activity == activity);
    records.map(|record| record.seconds).sum()
}

/// Whether the last of some records is driving that takes a figure over its limit.
pub fn is_past_limit<R: Replayer>(records: &[TraceRecord], hours: &Hours) -> bool {
    if records.last().is_none_or(|last| last.activity != DRIVING) {
        return false;
    }
    let order = &hours.order;
    let limits = [order.spell_limit, order.shift_limit, order.week_limit];
    let figures = figures_after::<R>(records, hours);
    figures
        .iter()
        .zip(limits)
        .any(|(figure, limit)| *figure > limit)
}
