//! Replaying traces under the European rules: limits of 16,200 and 32,400 seconds, a break of 2,700
//! and a rest of 39,600, without a split and in a week that is never full.

use super::fixtures::*;
use crate::operations::DOCUMENT;
use crate::operations::{LentFigures, LentRules};
use crate::order::EUROPEAN_RULES;
use crate::replay::{DRIVING, OTHER_WORK, PAUSE};
use crate::reply::Reply;
use crate::words::bytes_of;

const EUROPEAN: [u32; 4] = [16_200, 2_700, 32_400, 39_600];
const WEEK: u32 = 1_000_000;
const TIRED: [u32; 2] = [16_200, 32_400];

pub fn trace(records: &[(u64, u64)]) -> Vec<u8> {
    let words = |&(activity, seconds): &(u64, u64)| [activity, seconds];
    bytes_of(&records.iter().flat_map(words).collect::<Vec<u64>>())
}

/// The reply and the figures afterwards.
pub fn replayed(trace: &[u8], rules: LentRules, before: LentFigures) -> (Reply, LentFigures) {
    let mut figures = before;
    let reply = (DOCUMENT.replay)(trace, rules, &mut figures);
    (reply, figures)
}

/// The same without a split and without the mark, which then is never set. The week starts as the shift.
fn replayed_whole(trace: &[u8], rules: [u32; 4], before: [u32; 2]) -> (Reply, [u32; 2]) {
    let mut with_week = [0; 8];
    with_week[..4].copy_from_slice(&rules);
    with_week[6..].copy_from_slice(&[WEEK, WEEK]);
    let [spell, shift] = before;
    let (reply, figures) = replayed(trace, with_week, [spell, shift, shift, 0]);
    let [spell, shift, _, mark] = figures;
    assert_eq!(mark, 0);
    (reply, [spell, shift])
}

/// All records are taken, and these are the figures afterwards.
fn expect(records: &[(u64, u64)], before: [u32; 2], after: [u32; 2]) {
    let taken = Reply::success(records.len() as u64, 0);
    assert_eq!(
        replayed_whole(&trace(records), EUROPEAN, before),
        (taken, after),
        "{records:?}"
    );
}

/// A refusal leaves the figures as they were.
fn expect_refused(trace: &[u8], rules: [u32; 4], figures: [u32; 2], number: u64, place: u64) {
    let expected = (refused(number, place), figures);
    assert_eq!(replayed_whole(trace, rules, figures), expected);
}

fn expect_odd_or_past(records: &[(u64, u64)], figures: [u32; 2], number: u64, place: u64) {
    expect_refused(&trace(records), EUROPEAN, figures, number, place);
}

pub fn nothing_to_replay() {
    assert_eq!(EUROPEAN.map(u64::from), EUROPEAN_RULES[..4]);
    expect(&[], [0, 0], [0, 0]);
    expect(&[], [15, 20], [15, 20]);
    expect(&[], TIRED, TIRED);
}

pub fn activities() {
    expect(&[(DRIVING, 1)], [0, 0], [1, 1]);
    expect(&[(DRIVING, 100), (DRIVING, 200)], [5, 7], [305, 307]);
    expect(&[(OTHER_WORK, 1_000_000)], [5, 7], [5, 7]);
    for (seconds, after) in [
        (1, TIRED),
        (2_699, TIRED),
        (2_700, [0, 32_400]),
        (39_599, [0, 32_400]),
        (39_600, [0, 0]),
        (1_000_000, [0, 0]),
    ] {
        expect(&[(PAUSE, seconds)], TIRED, after);
    }
}

pub fn neighbouring_pauses_are_one() {
    expect(&[(PAUSE, 1_350), (PAUSE, 1_350)], TIRED, [0, 32_400]);
    expect(&[(PAUSE, 1_350), (PAUSE, 1_349)], TIRED, TIRED);
    expect(&[(PAUSE, 36_899), (PAUSE, 2_701)], TIRED, [0, 0]);
    expect(&[(PAUSE, 36_899), (PAUSE, 2_700)], TIRED, [0, 32_400]);
    expect(
        &[(PAUSE, 2_699), (OTHER_WORK, 1), (PAUSE, 2_699)],
        TIRED,
        TIRED,
    );
    expect(
        &[(PAUSE, 39_599), (OTHER_WORK, 1), (PAUSE, 39_599)],
        TIRED,
        [0, 32_400],
    );
    expect(
        &[(PAUSE, 2_699), (DRIVING, 1), (PAUSE, 2_699)],
        [5, 7],
        [6, 8],
    );
    expect(&[(PAUSE, 2_700), (DRIVING, 9)], [5, 7], [9, 16]);
    expect(&[(DRIVING, 9), (PAUSE, 2_700)], [5, 7], [0, 16]);
    let two_to_the_32nd = [vec![(PAUSE, 1_000_000); 4_294], vec![(PAUSE, 967_296)]].concat();
    expect(&two_to_the_32nd, TIRED, [0, 0]);
}

pub fn limits() {
    expect(&[(DRIVING, 16_200)], [0, 0], [16_200, 16_200]);
    expect_odd_or_past(&[(DRIVING, 16_201)], [0, 0], 23, 1);
    expect(&[(DRIVING, 1)], [16_199, 32_399], TIRED);
    expect_odd_or_past(&[(DRIVING, 2)], [16_199, 20_000], 23, 1);
    expect_odd_or_past(&[(DRIVING, 2)], [0, 32_399], 23, 1);
    // The break is known to be over only when the driving begins, and then counts for it.
    let second_spell = [
        (DRIVING, 16_200),
        (PAUSE, 1_350),
        (PAUSE, 1_350),
        (DRIVING, 16_200),
    ];
    expect(&second_spell, [0, 0], TIRED);
    let third_spell = [&second_spell[..], &[(PAUSE, 39_599), (DRIVING, 1)]].concat();
    expect_odd_or_past(&third_spell, [0, 0], 23, 6);
}

pub fn odd_records() {
    for odd in [
        (3, 1),
        (256, 1),
        (257, 1),
        (258, 1),
        (ALL_BITS, 1),
        (OTHER_WORK, 0),
        (DRIVING, 0),
        (PAUSE, 0),
        (OTHER_WORK, 1_000_001),
        (DRIVING, 1_000_001),
        (PAUSE, 1_000_001),
        (PAUSE, ALL_BITS),
    ] {
        expect_odd_or_past(&[odd], TIRED, 22, 1);
        expect_odd_or_past(&[(PAUSE, 39_600), (DRIVING, 9), odd], TIRED, 22, 3);
    }
    expect_odd_or_past(&[(DRIVING, 16_201), (3, 0)], [0, 0], 23, 1);
    expect_odd_or_past(&[(3, 0), (DRIVING, 16_201)], [0, 0], 22, 1);
}

pub fn order_of_refusals() {
    let torn = &trace(&[(3, 0), (3, 0)])[..15];
    let charged = |rules: [u32; 4], figures: [u32; 2], number: u64, place: u64| {
        expect_refused(torn, rules, figures, number, place);
        expect_refused(&[], rules, figures, number, place);
    };
    charged([0, 2_700, 32_400, 39_600], [9, 5], 10, 6);
    charged([16_200, 0, 0, 0], [9, 5], 10, 7);
    charged([32_401, 2_700, 32_400, 39_600], [9, 5], 10, 8);
    charged([16_200, 39_601, 32_400, 39_600], [9, 5], 10, 9);
    charged(EUROPEAN, [16_201, 0], 11, 4);
    charged(EUROPEAN, [9, 5], 11, 5);
    charged(EUROPEAN, [0, 32_401], 11, 5);
    expect_refused(torn, EUROPEAN, TIRED, 21, 15);
    for length in [1, 7, 9] {
        let torn = &trace(&[(PAUSE, 39_600), (PAUSE, 1)])[..length];
        expect_refused(torn, EUROPEAN, TIRED, 21, length as u64);
    }
}
