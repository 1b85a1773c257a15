//! The split break: plans, sheets and traces worked out by hand.

use super::fixtures::*;
use super::trace_cases::{replayed, trace};
use crate::map::Map;
use crate::moves::{Document, Mark, Offer, State, Trip};
use crate::operations::{LentFigures, LentRules, DOCUMENT};
use crate::order::{Order, EUROPEAN_RULES};
use crate::planning::{answer_of, labels_of, reachable_states};
use crate::replay::{DRIVING, OTHER_WORK, PAUSE};
use crate::reply::Reply;
use crate::sheet::Sheet;

pub fn opened(map: &Map, order: &Order) -> Trip {
    Trip::open(&map.bytes(), &order.bytes(), &[]).expect("an accepted run")
}

/// Junction, clock, spell, shift and whether marked, of every label by rank.
fn labels(map: &Map, order: &Order) -> Vec<(u64, u64, u64, u64, bool)> {
    let trip = opened(map, order);
    let reachable = reachable_states::<Document>(&trip);
    let answer = answer_of::<Document>(&trip, &reachable);
    let row = |s: State| {
        (
            s.junction,
            s.clock,
            s.spell,
            s.shift,
            s.mark == Mark::Marked,
        )
    };
    let labels = labels_of::<Document>(&reachable, answer);
    labels.into_iter().map(row).collect()
}

/// With Europe's parts T's plan stays, but two labels with the mark are counted.
pub fn map_t_with_the_parts_of_europe() {
    let rows = [
        (1, 0, 0, 0, false),
        (2, 10_800, 10_800, 10_800, false),
        (2, 11_700, 10_800, 10_800, true),
        (2, 13_500, 0, 10_800, false),
        (2, 14_400, 0, 10_800, true),
        (3, 20_700, 7_200, 18_000, false),
    ];
    assert_eq!(labels(&map_t(), &order_t_split()), rows);
    let plan = plan_sheet(&map_t(), &order_t_split());
    let expected = [(1, 1, 10_800), (2, 2, 13_500), (1, 2, 20_700)];
    assert_eq!((plan.labels, plan.records), (6, records(&expected)));
    let full = refused(12, 5);
    assert_eq!(planned(&map_t(), &order_t_split(), 59, 60).0, full);
    let just_room = Reply::success(6, 20_700);
    assert_eq!(planned(&map_t(), &order_t_split(), 60, 60).0, just_room);
}

/// A first part at B and a second at C take 7 seconds where the break takes 10.
pub fn split_beats_the_break() {
    let map = small_map(&[0, 1, 1, 0], &[(1, 2, 4), (2, 3, 6), (3, 4, 5)]);
    let mut order = small_order(1, 4);
    (order.spell_limit, order.break_time, order.rest_time) = (10, 10, 100);
    (order.first_part, order.second_part, order.latest) = (2, 5, 50);
    let rows = [(1, 1, 4), (4, 2, 6), (1, 2, 12), (5, 3, 17), (1, 3, 22)];
    let plan = plan_sheet(&map, &order);
    assert_eq!((plan.labels, plan.records), (10, records(&rows)));
    assert_eq!((plan.spell, plan.shift), (5, 15));
    (order.first_part, order.second_part) = (0, 0);
    let plan = plan_sheet(&map, &order);
    let rows = [(1, 1, 4), (1, 2, 10), (2, 3, 20), (1, 3, 25)];
    assert_eq!((plan.labels, plan.records), (6, records(&rows)));
}

/// A marked state elsewhere with the answer's figures is counted, whatever its junction's number.
pub fn rank_puts_the_marked_one_first() {
    for (answer, other) in [(4, 5), (5, 4)] {
        let roads = [(1, 2, 5), (2, answer, 6), (1, 3, 3), (3, other, 6)];
        let map = small_map(&[0, 1, 1, 0, 0], &roads);
        let mut order = small_order(1, answer);
        (order.spell_limit, order.shift_limit) = (8, 8);
        (order.break_time, order.rest_time, order.latest) = (4, 10, 21);
        (order.first_part, order.second_part) = (2, 3);
        let by_rank = labels(&map, &order);
        assert_eq!(by_rank.len(), 16);
        assert_eq!(by_rank[14], (other, 21, 6, 6, true));
        assert_eq!(by_rank[15], (answer, 21, 6, 6, false));
    }
}

pub fn dominance_with_the_mark() {
    let state = |clock, mark| State {
        clock,
        spell: 5,
        shift: 5,
        week: 5,
        mark,
        junction: 1,
    };
    let (marked, unmarked) = (state(9, Mark::Marked), state(9, Mark::Unmarked));
    assert!(marked.dominates(&unmarked) && !unmarked.dominates(&marked));
    assert!(marked < unmarked);
    let earlier = state(8, Mark::Unmarked);
    assert!(!earlier.dominates(&marked) && earlier.dominates(&unmarked));
    assert!(!marked.dominates(&earlier) && earlier < marked);
}

/// The reply to audit of pauses at Lay, which is the order's source and target, with clocks and header as they must be.
pub fn audited_pauses(order: &Order, kinds: &[u64]) -> Reply {
    let trip = opened(&map_t(), order);
    let mut state = trip.start();
    let mut rows = Vec::new();
    for kind in kinds {
        let step = records(&[(*kind, 2, 0)])[0].step;
        state = Document::after(&trip, &state, step).unwrap_or(state);
        rows.push((*kind, 2, state.clock));
    }
    let sheet = Sheet::ending_at(&state, 1, records(&rows)).bytes();
    (DOCUMENT.audit)(&map_t().bytes(), &order.bytes(), &[], &sheet)
}

fn audited_at_lay(kinds: &[u64], parts: [u64; 2]) -> Reply {
    let mut order = order_t();
    (order.source, order.target) = (2, 2);
    (order.spell, order.shift, order.week) = (7, 9, 9);
    [order.first_part, order.second_part] = parts;
    audited_pauses(&order, kinds)
}

pub fn moves_of_a_split() {
    let [_, _, _, _, parts @ .., _, _] = EUROPEAN_RULES;
    for (kinds, arrival) in [
        (&[4][..], 900),
        (&[4, 4], 1_800),
        (&[4, 5], 2_700),
        (&[4, 5, 4, 5], 5_400),
        (&[4, 2], 3_600),
        (&[4, 3], 40_500),
    ] {
        let done = Reply::success(kinds.len() as u64, arrival);
        assert_eq!(audited_at_lay(kinds, parts), done, "{kinds:?}");
    }
    for (kinds, place) in [
        (&[5][..], 1),
        (&[4, 5, 5], 3),
        (&[4, 2, 5], 3),
        (&[4, 3, 5], 3),
        (&[7], 1),
    ] {
        let foreign = refused(16, place);
        assert_eq!(audited_at_lay(kinds, parts), foreign, "{kinds:?}");
    }
    assert_eq!(audited_at_lay(&[4], [0, 0]), refused(16, 1));
    assert_eq!(audited_at_lay(&[2, 5], [0, 0]), refused(16, 2));
}

const EUROPEAN: LentRules = [16_200, 2_700, 32_400, 39_600, 900, 1_800, 201_600, 162_000];
const NO_SPLIT: LentRules = [16_200, 2_700, 32_400, 39_600, 0, 0, 201_600, 162_000];

/// By spell, shift and mark. No pause here is a weekly rest: the week gains what is driven.
fn expect(rules: LentRules, rows: &[(u64, u64)], before: [u32; 3], after: [u32; 3]) {
    let taken = Reply::success(rows.len() as u64, 0);
    let driving = rows.iter().filter(|(activity, _)| *activity == DRIVING);
    let driven: u64 = driving.map(|(_, seconds)| seconds).sum();
    let week = 25;
    assert_eq!(
        replayed(&trace(rows), rules, with_week(before, week)),
        (taken, with_week(after, week + driven as u32)),
        "{rows:?}"
    );
}

fn with_week([spell, shift, mark]: [u32; 3], week: u32) -> LentFigures {
    [spell, shift, week, mark]
}

pub fn replayed_pauses() {
    for (marked, pause, after) in [
        (0, 899, [15, 20, 0]),
        (0, 900, [15, 20, 1]),
        (0, 1_800, [15, 20, 1]),
        (0, 2_699, [15, 20, 1]),
        (0, 2_700, [0, 20, 0]),
        (1, 899, [15, 20, 1]),
        (1, 1_799, [15, 20, 1]),
        (1, 1_800, [0, 20, 0]),
        (1, 2_699, [0, 20, 0]),
        (1, 2_700, [0, 20, 0]),
        (1, 39_600, [0, 0, 0]),
    ] {
        expect(EUROPEAN, &[(PAUSE, pause)], [15, 20, marked], after);
    }
    for pause in [1, 900, 1_800, 2_699] {
        for marked in [0, 1] {
            let figures = [15, 20, marked];
            expect(NO_SPLIT, &[(PAUSE, pause)], figures, figures);
        }
    }
    expect(NO_SPLIT, &[(PAUSE, 2_700)], [15, 20, 1], [0, 20, 0]);
    expect(EUROPEAN, &[(DRIVING, 5)], [15, 20, 1], [20, 25, 1]);
}

pub fn replayed_pauses_are_judged_whole() {
    let twice = [(PAUSE, 900), (PAUSE, 900)];
    expect(EUROPEAN, &twice, [15, 20, 0], [15, 20, 1]);
    let apart = [(PAUSE, 900), (OTHER_WORK, 1), (PAUSE, 1_800)];
    expect(EUROPEAN, &apart, [15, 20, 0], [0, 20, 0]);
    let cut = [(PAUSE, 1_000), (PAUSE, 800)];
    expect(EUROPEAN, &cut, [15, 20, 1], [0, 20, 0]);
    let long = [(PAUSE, 1_800), (PAUSE, 899)];
    expect(EUROPEAN, &long, [15, 20, 0], [15, 20, 1]);
}

pub fn refused_traces_leave_the_mark() {
    let records = [(PAUSE, 900), (DRIVING, 16_201)];
    for mark in [0, 1] {
        let figures = [0, 0, 0, mark];
        let kept = (refused(23, 2), figures);
        assert_eq!(replayed(&trace(&records), EUROPEAN, figures), kept);
    }
    for (parts, place) in [
        ([0, 1], 10),
        ([1, 0], 11),
        ([2_701, 1], 10),
        ([1, 2_701], 11),
    ] {
        let mut rules = EUROPEAN;
        [rules[4], rules[5]] = parts;
        let kept = (refused(10, place), [9, 5, 4, 1]);
        assert_eq!(replayed(&[0; 9], rules, [9, 5, 4, 1]), kept);
    }
}
