//! Traces to replay: legal ones that just meet or just miss limits, breaks and rests, and spoilt ones
//! for refusals 10, 11 and 21 to 23. Sometimes several faults at once, since the order of refusals
//! matters.

use super::damage::damage_order_word;
use super::orders::random_hours;
use super::random::Random;
use crate::moves::Document;
use crate::operations::{LentFigures, LentRules};
use crate::order::Order;
use crate::probe::Probe;
use crate::replay::{
    figures_after, Hours, TraceRecord, DRIVING, LONGEST_ACTIVITY, OTHER_WORK, PAUSE,
    TRACE_RECORD_BYTES,
};
use crate::words::word;

const ALL_BITS: u64 = u32::MAX as u64;

/// A trace with the rules and the figures that it is replayed with.
#[derive(Clone, Debug)]
pub struct Replay {
    pub trace: Vec<u8>,
    pub rules: LentRules,
    pub figures: LentFigures,
}

impl Replay {
    pub fn probe(&self) -> Probe {
        Probe::Replay {
            trace: self.trace.clone(),
            rules: self.rules,
            figures: self.figures,
        }
    }
}

/// By which limits and pauses are measured: seconds, so that they often coincide, hours, and the
/// longest there may be.
const UNITS: [u64; 6] = [1, 2, 3, 7, 3_600, 333_333];

pub fn random_replay(random: &mut Random) -> Replay {
    let unit = random.pick(&UNITS);
    let hours = Hours {
        order: random_hours(random, unit),
        marked: random.one_in(2),
    };
    let mut records = random_records(random, &hours);
    for _ in 0..random.pick(&[0, 0, 0, 0, 1, 1, 2, 3]) {
        damage_record(random, &mut records, &hours.order);
    }
    let mut trace = TraceRecord::all_bytes(&records);
    if random.one_in(10) {
        tear(random, &mut trace);
    }
    let mut words = hours.order.bytes();
    for _ in 0..random.pick(&[0, 0, 0, 0, 0, 0, 1, 2]) {
        let number = 4 + random.index(11);
        damage_order_word(random, &mut words, number);
    }
    let word = |number: usize| word(&words, 4 * number) as u32;
    Replay {
        trace,
        rules: [6, 7, 8, 9, 10, 11, 12, 13].map(word),
        figures: [word(4), word(5), word(14), u32::from(hours.marked)],
    }
}

fn random_records(random: &mut Random, hours: &Hours) -> Vec<TraceRecord> {
    let mut records = Vec::new();
    for _ in 0..random.pick(&[0, 1, 2, 4, 8, 16]) {
        match random.below(8) {
            0..=3 => add_driving(random, hours, &mut records),
            4 => records.push(other_work(random)),
            _ => add_pauses(random, &hours.order, &mut records),
        }
    }
    records
}

/// As much driving as a limit allows, less, or, seldom, a second more. Mostly none where none is
/// allowed.
fn add_driving(random: &mut Random, hours: &Hours, records: &mut Vec<TraceRecord>) {
    let order = &hours.order;
    let limits = [order.spell_limit, order.shift_limit, order.week_limit];
    let figures = figures_after::<Document>(records, hours);
    let left = |(limit, figure): (u64, u64)| limit.saturating_sub(figure);
    let allowed = limits.into_iter().zip(figures).map(left).min();
    let allowed = allowed.expect("three limits");
    let any = random.between(1, allowed.max(1));
    let seconds = match random.below(24) {
        0 => allowed + 1,
        1..=5 => allowed,
        6..=7 => allowed.saturating_sub(1),
        _ if allowed == 0 => 0,
        _ => any,
    };
    if seconds > 0 {
        records.push(record(DRIVING, seconds));
    }
}

fn other_work(random: &mut Random) -> TraceRecord {
    let seconds = random.pick(&[1, 2, 3_600, LONGEST_ACTIVITY]);
    record(OTHER_WORK, seconds)
}

/// A pause about as long as a break, a rest of either kind or a part of a split, whole or cut up: neighbours, which
/// make one pause, or with other work between them, which makes several.
fn add_pauses(random: &mut Random, order: &Order, records: &mut Vec<TraceRecord>) {
    let mut lengths = vec![order.break_time, order.rest_time, order.weekly_rest];
    if order.has_split() {
        lengths.extend([order.first_part, order.second_part].repeat(3));
    }
    let needed = random.pick(&lengths);
    let shorter = random.between(1, needed);
    let length = random.pick(&[shorter, needed - 1, needed, needed, needed + 1]);
    let pieces = random.pick(&[1, 1, 2, 2, 3]);
    let is_apart = random.one_in(3);
    for (index, seconds) in cut(random, length, pieces).into_iter().enumerate() {
        if is_apart && index > 0 {
            records.push(other_work(random));
        }
        records.push(record(PAUSE, seconds));
    }
}

/// So many seconds in at most so many pieces of at least one second each.
fn cut(random: &mut Random, length: u64, pieces: usize) -> Vec<u64> {
    let mut left = length;
    let mut cut = Vec::new();
    while left > 1 && cut.len() + 1 < pieces {
        let piece = random.between(1, left - 1);
        cut.push(piece);
        left -= piece;
    }
    if left > 0 {
        cut.push(left);
    }
    cut
}

/// A record whose seconds are in range.
fn record(activity: u64, seconds: u64) -> TraceRecord {
    TraceRecord {
        activity,
        seconds: seconds.min(LONGEST_ACTIVITY),
    }
}

/// Refusals 22 and 23, and the last values before them; both in one record are among them.
fn damage_record(random: &mut Random, records: &mut [TraceRecord], order: &Order) {
    if records.is_empty() {
        return;
    }
    let index = random.index(records.len());
    let damaged = &mut records[index];
    match random.below(5) {
        0 => damaged.activity = random.pick(&[3, 256, 257, 258, ALL_BITS]),
        1 => damaged.seconds = random.pick(&[0, 1, LONGEST_ACTIVITY]),
        2 => damaged.seconds = random.pick(&[LONGEST_ACTIVITY + 1, ALL_BITS]),
        3 => {
            damaged.activity = DRIVING;
            damaged.seconds = random.pick(&[0, LONGEST_ACTIVITY + 1, ALL_BITS]);
        }
        _ => {
            let limit = random.pick(&[order.spell_limit, order.shift_limit, order.week_limit]);
            *damaged = record(DRIVING, limit + 1);
        }
    }
}

/// Refusal 21: some bytes of a record too many or too few.
fn tear(random: &mut Random, trace: &mut Vec<u8>) {
    let torn = random.between(1, TRACE_RECORD_BYTES as u64 - 1) as usize;
    if random.one_in(2) || trace.is_empty() {
        trace.extend(random.bytes(torn));
    } else {
        trace.truncate(trace.len() - torn);
    }
}
