//! Sheets to retime and audit: true ones made by wandering, and spoilt ones for refusals 15 to 19.

use super::random::Random;
use crate::moves::{Document, Move, State, Trip, BREAK, FIRST, REST, SECOND, WEEKLY};
use crate::order::{Order, LATEST_CLOCK};
use crate::sheet::{Record, Sheet, RECORD_BYTES, SHEET_HEADER_BYTES};
use crate::words::{put_word, word};

const ALL_BITS: u64 = u32::MAX as u64;

#[derive(Clone, Debug)]
pub struct Timing {
    pub order: Vec<u8>,
    pub sheet: Vec<u8>,
}

/// A sheet for a trip, with the trip's order or one fitted to the sheet.
pub fn random_timing(random: &mut Random, trip: &Trip) -> Timing {
    let trip = &with_time_to_pause(random, trip);
    let (steps, states) = wander(random, trip);
    let mut sheet = true_sheet(random, &steps, &states).bytes();
    for _ in 0..random.pick(&[0, 0, 0, 1, 1, 2]) {
        damage_sheet(random, &mut sheet, trip.map.roads.len() as u64);
    }
    Timing {
        order: fitted_order(random, &trip.order, &states).bytes(),
        sheet,
    }
}

/// Often with a latest that leaves time for several pauses: the states need not be listed here.
fn with_time_to_pause(random: &mut Random, trip: &Trip) -> Trip {
    let mut patient = trip.clone();
    let order = &mut patient.order;
    if random.one_in(2) {
        let more = 4 * order.rest_time + 2 * order.weekly_rest + 4 * order.spell_limit;
        order.latest = (order.latest + more).min(LATEST_CLOCK);
    }
    patient
}

/// Some moves from the start, mostly legal ones, and the states from the start on. A pause that the
/// rules do not offer leaves the state.
fn wander(random: &mut Random, trip: &Trip) -> (Vec<Move>, Vec<State>) {
    let mut states = vec![trip.start()];
    let mut steps = Vec::new();
    let mut pauses = Vec::new();
    for _ in 0..random.between(0, 7) {
        let here = states[states.len() - 1];
        let mut moves = trip.legal_moves::<Document>(&here);
        if moves.is_empty() || random.one_in(12) {
            moves = trip.offered_moves::<Document>(&here);
        }
        if pauses.is_empty() && random.one_in(3) {
            pauses = any_pauses(random);
        }
        if let Some(kind) = pauses.pop() {
            let number = here.junction;
            let step = Move { kind, number };
            moves = vec![(step, trip.after(&here, step).unwrap_or(here))];
        }
        if moves.is_empty() {
            break;
        }
        let (step, after) = random.pick(&moves);
        steps.push(step);
        states.push(after);
    }
    (steps, states)
}

/// Kinds of pauses, the last one first, offered or not: mostly one, sometimes another pause between the
/// parts of a split, which then has cleared the mark.
fn any_pauses(random: &mut Random) -> Vec<u64> {
    let between = random.pick(&[BREAK, REST, WEEKLY]);
    if random.one_in(8) {
        return vec![SECOND, between, FIRST];
    }
    vec![random.pick(&[BREAK, REST, FIRST, FIRST, SECOND, SECOND, WEEKLY])]
}

fn true_sheet(random: &mut Random, steps: &[Move], states: &[State]) -> Sheet {
    let record = |(step, after): (&Move, &State)| Record {
        step: *step,
        clock: after.clock,
    };
    let records = steps.iter().zip(&states[1..]).map(record).collect();
    let labels = random.pick(&[0, 1, 7, 1_000_000, ALL_BITS]);
    Sheet::ending_at(&states[states.len() - 1], labels, records)
}

/// Often with the target where the moves end, and a limit or latest just met or just missed, or
/// without a split.
fn fitted_order(random: &mut Random, order: &Order, states: &[State]) -> Order {
    let mut fitted = order.clone();
    if !random.one_in(4) {
        fitted.target = states[states.len() - 1].junction;
    }
    let missed_by = random.below(2);
    let highest = |figure: fn(&State) -> u64| states.iter().map(figure).max().expect("the start");
    match random.below(10) {
        0 => fitted.latest = highest(|s| s.clock).saturating_sub(missed_by),
        1 => fitted.spell_limit = highest(|s| s.spell).saturating_sub(missed_by),
        2 => fitted.shift_limit = highest(|s| s.shift).saturating_sub(missed_by),
        3 => limit_week(&mut fitted, highest(|s| s.week).saturating_sub(missed_by)),
        4 => [fitted.first_part, fitted.second_part] = [0, 0],
        _ => {}
    }
    fitted
}

/// The other limits are not above it.
fn limit_week(order: &mut Order, limit: u64) {
    order.week_limit = limit;
    order.shift_limit = order.shift_limit.min(limit);
    order.spell_limit = order.spell_limit.min(limit);
}

fn damage_sheet(random: &mut Random, sheet: &mut Vec<u8>, roads: u64) {
    if sheet.len() < SHEET_HEADER_BYTES {
        return;
    }
    let moves = (sheet.len() - SHEET_HEADER_BYTES) / RECORD_BYTES;
    match random.below(8) {
        0 => damage_length(random, sheet),
        1 => damage_count(random, sheet),
        2 => damage_figure(random, sheet),
        _ if moves == 0 => damage_figure(random, sheet),
        _ => {
            let index = random.index(moves);
            let at = SHEET_HEADER_BYTES + RECORD_BYTES * index;
            damage_record(random, &mut sheet[at..at + RECORD_BYTES], roads);
        }
    }
}

fn damage_length(random: &mut Random, sheet: &mut Vec<u8>) {
    let length = sheet.len() as u64;
    let shorter = random.between(0, length);
    let changed = random.pick(&[
        0,
        20,
        23,
        24,
        length - 4,
        length - 1,
        length + 1,
        length + 12,
        shorter,
    ]);
    sheet.resize(changed as usize, 0);
}

/// Counts whose 24 + 12M wraps to the sheet's length in 32 bits are among them.
fn damage_count(random: &mut Random, sheet: &mut [u8]) {
    let moves = word(sheet, 0) & 0xFFFF;
    let wrapping = moves + (random.between(1, 3) << 30);
    let less = moves.saturating_sub(1);
    let changed = random.pick(&[0, less, moves + 1, 999_999, 1_000_000, wrapping, ALL_BITS]);
    put_word(sheet, 0, changed);
}

fn damage_figure(random: &mut Random, sheet: &mut [u8]) {
    let at = random.pick(&[4, 8, 12, 16, 16, 20]);
    put_word(sheet, at, beside(random, word(sheet, at)));
}

fn damage_record(random: &mut Random, record: &mut [u8], roads: u64) {
    let kind = random.pick(&[0, 1, 2, 3, 4, 5, 5, 6, 6, 7, 257, ALL_BITS]);
    let road = random.between(0, roads + 1);
    let number = random.pick(&[0, road, road, roads + 1, ALL_BITS]);
    match random.below(4) {
        0 => put_word(record, 0, kind),
        1 => put_word(record, 4, number),
        2 => {
            put_word(record, 0, kind);
            put_word(record, 4, number);
        }
        _ => put_word(record, 8, beside(random, word(record, 8))),
    }
}

fn beside(random: &mut Random, value: u64) -> u64 {
    let more = (value + 1).min(ALL_BITS);
    random.pick(&[0, value.saturating_sub(1), more, ALL_BITS])
}
