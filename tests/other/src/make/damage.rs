//! Maps and orders spoilt on purpose, aimed at refusals 1 to 11 and at the last values before
//! them. Sometimes several faults at once, since the order of refusals matters.

use super::random::Random;
use crate::map::Map;
use crate::mapcheck::{MOST_JUNCTIONS, MOST_NAME_BYTES, MOST_ROADS};
use crate::order::{LATEST_CLOCK, LONGEST_RULE, ORDER_BYTES};
use crate::words::{put_word, word};

const ALL_BITS: u64 = u32::MAX as u64;
const ORDER_WORDS: usize = ORDER_BYTES / 4;

pub fn damaged_map(random: &mut Random, sound: &Map) -> Vec<u8> {
    let mut map = sound.clone();
    let faults = random.pick(&[0, 1, 1, 1, 2, 3]);
    for _ in 0..faults {
        damage_parts(random, &mut map);
    }
    let mut bytes = map.bytes();
    if faults == 0 || random.one_in(8) {
        damage_size(random, &mut bytes);
    }
    bytes
}

/// Refusals 5 to 8.
fn damage_parts(random: &mut Random, map: &mut Map) {
    match random.below(6) {
        0 => damage_junction(random, map),
        1 => damage_links(random, map),
        2 => damage_letter(random, map),
        _ if map.roads.is_empty() => damage_junction(random, map),
        3 => damage_links(random, map),
        _ => damage_road(random, map),
    }
}

fn damage_junction(random: &mut Random, map: &mut Map) {
    let roads = map.roads.len() as u64;
    let names = map.names.len() as u64;
    let index = random.index(map.junctions.len());
    let junction = &mut map.junctions[index];
    match random.below(4) {
        0 => junction.first = random.pick(&[roads, roads + 1, ALL_BITS]),
        1 => junction.car_park = random.pick(&[0, 1, 2, 256, ALL_BITS]),
        2 => {
            junction.name_start = 0;
            junction.name_length = random.pick(&[0, 1, 32, 33, names, names + 1, ALL_BITS]);
        }
        _ => {
            let last_start = names.saturating_sub(junction.name_length);
            let wrapping = ALL_BITS - junction.name_length.saturating_sub(1);
            junction.name_start = random.pick(&[last_start, last_start + 1, wrapping, ALL_BITS]);
        }
    }
}

fn damage_road(random: &mut Random, map: &mut Map) {
    let junctions = map.junctions.len() as u64;
    let roads = map.roads.len() as u64;
    let index = random.index(map.roads.len());
    let number = index as u64 + 1;
    let road = &mut map.roads[index];
    match random.below(5) {
        0 => road.from = random.pick(&[0, 1, junctions, junctions + 1, ALL_BITS]),
        1 => road.to = random.pick(&[0, 1, junctions, junctions + 1, ALL_BITS]),
        2 => road.metres = random.pick(&[0, 1, 2_000_000, 2_000_001, ALL_BITS]),
        3 => road.speed = random.pick(&[0, 4, 5, 130, 131, ALL_BITS]),
        _ => road.next = random.pick(&[number - 1, number, roads, roads + 1, ALL_BITS]),
    }
}

/// Chains that end early, skip roads or run into others: refusal 7, with every field in range.
fn damage_links(random: &mut Random, map: &mut Map) {
    let roads = map.roads.len() as u64;
    if roads == 0 || random.one_in(2) {
        let index = random.index(map.junctions.len());
        map.junctions[index].first = random.between(0, roads);
        return;
    }
    let index = random.index(map.roads.len());
    let number = index as u64 + 1;
    let later = random.between(number, roads);
    map.roads[index].next = if later == number { 0 } else { later };
}

fn damage_letter(random: &mut Random, map: &mut Map) {
    let index = random.index(map.names.len());
    map.names[index] = random.pick(&[0, 0x1F, 0x20, 0x7E, 0x7F, 0x80, 0xFF]);
}

/// Refusals 1 to 4.
fn damage_size(random: &mut Random, bytes: &mut Vec<u8>) {
    match random.below(8) {
        0 => bytes.truncate(random.index(17)),
        1 => put_word(bytes, 0, random.pick(&[0, 2, 257, 0x0100_0000, ALL_BITS])),
        2 => {
            let counts = [0, MOST_JUNCTIONS, MOST_JUNCTIONS + 1, ALL_BITS];
            put_word(bytes, 4, random.pick(&counts));
        }
        3 => put_word(bytes, 8, last_or_above(random, MOST_ROADS)),
        4 => put_word(bytes, 12, last_or_above(random, MOST_NAME_BYTES)),
        5 => {
            put_word(bytes, 8, ALL_BITS);
            put_word(bytes, 12, ALL_BITS);
        }
        6 => bytes.truncate(random.between(16, bytes.len() as u64 - 1) as usize),
        _ => {
            let more = random.between(1, 20) as usize;
            bytes.extend(vec![b'x'; more]);
        }
    }
}

/// The last value in range, or one above it.
fn last_or_above(random: &mut Random, last: u64) -> u64 {
    random.pick(&[last, last + 1, ALL_BITS])
}

/// Refusals 9 to 11.
pub fn damaged_order(random: &mut Random, sound: &[u8]) -> Vec<u8> {
    let mut bytes = sound.to_vec();
    for _ in 0..random.pick(&[0, 1, 1, 1, 2, 3]) {
        let any = random.index(ORDER_WORDS);
        let of_the_week = random.pick(&[12, 13, 14]);
        let number = random.pick(&[any, any, of_the_week]);
        damage_order_word(random, &mut bytes, number);
    }
    if random.one_in(6) {
        bytes.resize(random.pick(&[0, 4, 40, 48, 56, 59, 61, 64, 120]), 0);
    }
    bytes
}

fn below(figure: u64) -> u64 {
    figure.saturating_sub(1)
}

fn above(figure: u64) -> u64 {
    (figure + 1).min(ALL_BITS)
}

/// Replaces a word of an order by one that its own rules ask about, or by one near another word.
pub fn damage_order_word(random: &mut Random, bytes: &mut [u8], number: usize) {
    let [shift, break_time, shift_limit, rest_time, week_limit] =
        [5, 7, 8, 9, 12].map(|other| word(bytes, 4 * other));
    let figure = match number {
        0 | 1 => random.pick(&[0, 1, 8, 9, ALL_BITS]),
        2 | 3 => random.pick(&[0, LATEST_CLOCK, LATEST_CLOCK + 1, ALL_BITS]),
        4 | 5 => random.pick(&[0, 1, ALL_BITS]),
        10 | 11 => random.pick(&[0, 0, 1, break_time, above(break_time)]),
        12 => random.pick(&[
            shift_limit,
            below(shift_limit),
            LONGEST_RULE,
            LONGEST_RULE + 1,
        ]),
        13 => random.pick(&[rest_time, below(rest_time), LONGEST_RULE, LONGEST_RULE + 1]),
        14 => random.pick(&[shift, below(shift), week_limit, above(week_limit)]),
        _ => random.pick(&[0, 1, LONGEST_RULE, LONGEST_RULE + 1, ALL_BITS]),
    };
    let other = word(bytes, 4 * random.index(ORDER_WORDS));
    let beside = random.pick(&[below(other), other, above(other)]);
    let value = random.pick(&[figure, beside]);
    put_word(bytes, 4 * number, value);
}
