//! The week: plans, sheets and traces worked out by hand.

use super::fixtures::*;
use super::split_cases::{audited_pauses, opened};
use super::trace_cases::{replayed, trace};
use crate::map::Map;
use crate::moves::{Document, Mark, State};
use crate::operations::{LentFigures, LentRules, DOCUMENT};
use crate::order::Order;
use crate::planning::{answer_of, labels_of, reachable_states, undominated};
use crate::replay::{DRIVING, OTHER_WORK, PAUSE};
use crate::reply::Reply;
use crate::sheet::Sheet;

/// Junction, clock, spell, shift and week of every label by rank.
fn labels(map: &Map, order: &Order) -> Vec<[u64; 5]> {
    let trip = opened(map, order);
    let reachable = reachable_states::<Document>(&trip);
    let answer = answer_of::<Document>(&trip, &reachable);
    let row = |s: State| [s.junction, s.clock, s.spell, s.shift, s.week];
    let labels = labels_of::<Document>(&reachable, answer);
    labels.into_iter().map(row).collect()
}

/// The plan's label count, its figures and its records.
fn expect_plan(map: &Map, order: &Order, labels: u64, figures: [u64; 4], rows: &[(u64, u64, u64)]) {
    let plan = plan_sheet(map, order);
    assert_eq!((plan.labels, plan.records), (labels, records(rows)));
    assert_eq!([plan.arrival, plan.spell, plan.shift, plan.week], figures);
}

/// Latest one second before the arrival leaves every label but the answer.
fn expect_no_road_before(map: &Map, order: &Order, arrival: u64, labels: u64) {
    let mut late = order.clone();
    late.latest = arrival - 1;
    assert_eq!(planned(map, &late, 4_000, 1_000).0, refused(13, labels));
}

/// Two roads of 6 seconds, and 10 of a week: after a rest at the car park the second road would make 12 of
/// it. So the driver takes the weekly rest of 5, and arrives at 6 + 5 + 6.
pub fn weekly_rest_where_a_rest_is_not_enough() {
    let map = small_map(&[0, 1, 0], &[(1, 2, 6), (2, 3, 6)]);
    let rules = [6, 1, 6, 3, 0, 0, 10, 5];
    let mut order = Order {
        source: 1,
        target: 3,
        latest: 17,
        ..Order::of_hours(rules, [0; 3])
    };
    let rows = [
        [1, 0, 0, 0, 0],
        [2, 6, 6, 6, 6],
        [2, 7, 0, 6, 6],
        [2, 9, 0, 0, 6],
        [2, 11, 0, 0, 0],
        [3, 17, 6, 6, 6],
    ];
    assert_eq!(labels(&map, &order), rows);
    let moves = [(1, 1, 6), (6, 2, 11), (1, 2, 17)];
    expect_plan(&map, &order, 6, [17, 6, 6, 6], &moves);
    expect_no_road_before(&map, &order, 17, 5);
    order.week_limit = 12;
    let moves = [(1, 1, 6), (3, 2, 9), (1, 2, 15)];
    expect_plan(&map, &order, 6, [15, 6, 6, 12], &moves);
    // One second of the week too many, and no car park at the source.
    (order.week, order.week_limit) = (5, 10);
    assert_eq!(planned(&map, &order, 800, 100).0, refused(13, 1));
}

/// Europe's rules, to End by Lay: 10,800 and 7,200 seconds.
fn late_in_the_week(week: u64, latest: u64) -> Order {
    Order {
        week,
        latest,
        ..order_t()
    }
}

/// With 183,600 seconds of the week driven, 18,000 are left, and the trip takes just these: T's plan stays.
/// With a second more, or with 190,800, after which Lay is reached with nothing left, the weekly rest of
/// 162,000 is taken there: 10,800 + 162,000 + 7,200 = 180,000. With 190,801 Lay is not reached.
pub fn map_t_late_in_the_week() {
    let t = map_t();
    let moves = [(1, 1, 10_800), (2, 2, 13_500), (1, 2, 20_700)];
    let figures = [20_700, 7_200, 18_000, 201_600];
    expect_plan(&t, &late_in_the_week(183_600, 180_000), 4, figures, &moves);
    for week in [183_601, 190_800] {
        let order = late_in_the_week(week, 180_000);
        let moves = [(1, 1, 10_800), (6, 2, 172_800), (1, 2, 180_000)];
        let figures = [180_000, 7_200, 7_200, 7_200];
        expect_plan(&t, &order, 6, figures, &moves);
        expect_no_road_before(&t, &order, 180_000, 5);
    }
    let rows = [
        [1, 0, 0, 0, 190_800],
        [2, 10_800, 10_800, 10_800, 201_600],
        [2, 13_500, 0, 10_800, 201_600],
        [2, 50_400, 0, 0, 201_600],
        [2, 172_800, 0, 0, 0],
        [3, 180_000, 7_200, 7_200, 7_200],
    ];
    assert_eq!(labels(&t, &late_in_the_week(190_800, 180_000)), rows);
    let too_late = late_in_the_week(190_801, 180_000);
    assert_eq!(planned(&t, &too_late, 800, 100).0, refused(13, 1));
}

/// A line of 8 junctions, its inner ones car parks, with 7 roads of 9 hours: 226,800 seconds, more than a
/// week's 201,600. Europe's rules, but with spells of 9 hours, so that each road takes a whole shift.
///
/// With rests alone junction j is reached at a = 32,400 (j - 1) + 39,600 (j - 2), and the last one at 464,400
/// with 226,800 of the week. One of the six rests must be weekly, which takes 122,400 seconds more: 586,800.
/// Taken at the last car park it leaves the lowest week.
///
/// Labels: the start; at each car park the state at a, and those after a break, a rest and a weekly rest; from
/// the second car park on also the one that took its weekly rest at the car park before, at a + 122,400, and
/// that after a break, while after a rest it has the clock of the weekly rest here, which clears more; and
/// the answer. That is 1 + 4 + 5 * 6 + 1 = 36.
pub fn more_than_a_week_of_driving() {
    const ROAD: u64 = 32_400;
    let parks = [0, 1, 1, 1, 1, 1, 1, 0];
    let roads: Vec<_> = (1..8).map(|from| (from, from + 1, ROAD)).collect();
    let map = small_map(&parks, &roads);
    let order = Order {
        target: 8,
        spell_limit: ROAD,
        latest: 586_800,
        ..order_t()
    };
    let mut moves = Vec::new();
    let mut clock = 0;
    for junction in 2..8 {
        clock += ROAD;
        moves.push((1, junction - 1, clock));
        let (kind, seconds) = if junction < 7 {
            (3, 39_600)
        } else {
            (6, 162_000)
        };
        clock += seconds;
        moves.push((kind, junction, clock));
    }
    moves.push((1, 7, 586_800));
    let figures = [586_800, ROAD, ROAD, ROAD];
    expect_plan(&map, &order, 36, figures, &moves);
    expect_no_road_before(&map, &order, 586_800, 35);
    let without_a_week = Order {
        week_limit: 1_000_000,
        ..order
    };
    assert_eq!(plan_sheet(&map, &without_a_week).arrival, 464_400);
}

/// Two ways of 4 and 3 seconds to a car park, and 6 from there. Of the week 9 seconds are left, so that the
/// longer way takes the weekly rest of 6: 4 + 6 + 6 = 16. On the shorter way a rest of 5 and a first part of
/// 2 end at 16 too, with the mark and with 15 of the week. It ranks behind the answer, and is not counted.
pub fn rank_puts_the_week_before_the_mark() {
    for (answer, other) in [(4, 5), (5, 4)] {
        let roads = [(1, 2, 4), (2, answer, 6), (1, 3, 3), (3, other, 6)];
        let map = small_map(&[0, 1, 1, 0, 0], &roads);
        let rules = [6, 3, 6, 5, 2, 3, 15, 6];
        let order = Order {
            source: 1,
            target: answer,
            latest: 16,
            ..Order::of_hours(rules, [0, 0, 6])
        };
        let tied = State {
            clock: 16,
            spell: 6,
            shift: 6,
            week: 15,
            mark: Mark::Marked,
            junction: other,
        };
        let reachable = reachable_states::<Document>(&opened(&map, &order));
        assert!(undominated::<Document>(&reachable).contains(&tied));
        let by_rank = labels(&map, &order);
        assert_eq!(by_rank.last(), Some(&[answer, 16, 6, 6, 6]));
        assert!(!by_rank.contains(&[other, 16, 6, 6, 15]));
    }
}

pub fn dominance_with_the_week() {
    let state = |clock, shift, week, mark| State {
        clock,
        spell: 5,
        shift,
        week,
        mark,
        junction: 1,
    };
    let (fresh, tired) = (
        state(9, 5, 5, Mark::Unmarked),
        state(9, 5, 6, Mark::Unmarked),
    );
    assert!(fresh.dominates(&tired) && !tired.dominates(&fresh) && fresh < tired);
    let tired_marked = state(9, 5, 6, Mark::Marked);
    assert!(!fresh.dominates(&tired_marked) && !tired_marked.dominates(&fresh));
    assert!(fresh < tired_marked);
    let tired_earlier = state(8, 5, 6, Mark::Unmarked);
    assert!(!fresh.dominates(&tired_earlier) && !tired_earlier.dominates(&fresh));
    let rested = state(9, 4, 7, Mark::Unmarked);
    assert!(!fresh.dominates(&rested) && !rested.dominates(&fresh) && rested < fresh);
}

fn audited_at_lay(kinds: &[u64], week: u64) -> Reply {
    let order = Order {
        source: 2,
        target: 2,
        latest: 1_000_000,
        spell: 7,
        shift: 9,
        week,
        ..order_t_split()
    };
    audited_pauses(&order, kinds)
}

pub fn moves_of_a_week() {
    for (kinds, arrival) in [
        (&[6][..], 162_000),
        (&[6, 6], 324_000),
        (&[2, 6], 164_700),
        (&[3, 6], 201_600),
        (&[4, 6], 162_900),
        (&[6, 4, 5], 164_700),
        (&[4, 5, 6], 164_700),
    ] {
        let done = Reply::success(kinds.len() as u64, arrival);
        for week in [9, 201_600] {
            assert_eq!(audited_at_lay(kinds, week), done, "{kinds:?}");
        }
    }
    assert_eq!(audited_at_lay(&[6, 5], 9), refused(16, 2));
    assert_eq!(audited_at_lay(&[4, 6, 5], 9), refused(16, 3));
    assert_eq!(audited_at_lay(&[7], 9), refused(16, 1));
}

/// The week of a sheet stands at byte 16 and N at byte 20. From Hub by Lay to End, with a rest or with a
/// weekly rest at Lay, from a week of 100 seconds.
pub fn weeks_of_sheets() {
    let order = late_in_the_week(100, 180_000);
    let map = map_t().bytes();
    let timed = |given: &[u8]| {
        let mut out = vec![MARK; 60];
        let reply = (DOCUMENT.retime)(&map, &order.bytes(), &[], given, &mut out);
        (reply, out)
    };
    for (kind, pause_end, week) in [(3, 50_400, 18_100), (6, 172_800, 7_200)] {
        let arrival = pause_end + 7_200;
        let sheet = Sheet {
            arrival,
            spell: 7_200,
            shift: 7_200,
            week,
            labels: 77,
            records: records(&[(1, 1, 10_800), (kind, 2, pause_end), (1, 2, arrival)]),
        };
        let truly = sheet.bytes();
        let done = Reply::success(3, arrival);
        assert_eq!(timed(&truly), (done, truly.clone()));
        assert_eq!(timed(&with_word(&truly, 16, 5)), (done, truly.clone()));
        let other_count = with_word(&truly, 20, ALL_BITS);
        assert_eq!(timed(&other_count), (done, other_count.clone()));
        let audit = |given: &[u8]| (DOCUMENT.audit)(&map, &order.bytes(), &[], given);
        assert_eq!([audit(&truly), audit(&other_count)], [done; 2]);
        for false_week in [0, week - 1, week + 1, 77] {
            assert_eq!(audit(&with_word(&truly, 16, false_week)), refused(18, 4));
        }
    }
}

/// Over the week's limit by one second, and just met. The week of the start counts.
pub fn week_limits_of_sheets() {
    let moves = [(1, 1, 10_800), (3, 2, 50_400), (1, 2, 57_600)];
    let audited = |week: u64, header: u64| {
        let sheet = Sheet {
            arrival: 57_600,
            spell: 7_200,
            shift: 7_200,
            week: header,
            labels: 1,
            records: records(&moves),
        };
        let order = late_in_the_week(week, 100_000);
        (DOCUMENT.audit)(&map_t().bytes(), &order.bytes(), &[], &sheet.bytes())
    };
    assert_eq!(audited(183_600, 201_600), Reply::success(3, 57_600));
    assert_eq!(audited(183_601, 201_601), refused(17, 3));
    assert_eq!(audited(190_800, 208_800), refused(17, 3));
    assert_eq!(audited(190_801, 208_801), refused(17, 1));
}

const EUROPEAN: LentRules = [16_200, 2_700, 32_400, 39_600, 900, 1_800, 201_600, 162_000];

fn expect(rows: &[(u64, u64)], before: LentFigures, after: LentFigures) {
    let taken = Reply::success(rows.len() as u64, 0);
    let seen = replayed(&trace(rows), EUROPEAN, before);
    assert_eq!(seen, (taken, after), "{rows:?}");
}

fn expect_refused(rows: &[(u64, u64)], figures: LentFigures, number: u64, place: u64) {
    let seen = replayed(&trace(rows), EUROPEAN, figures);
    assert_eq!(seen, (refused(number, place), figures), "{rows:?}");
}

pub fn replayed_weeks() {
    let before = [15, 20, 25, 1];
    for (pause, after) in [
        (899, before),
        (2_700, [0, 20, 25, 0]),
        (39_600, [0, 0, 25, 0]),
        (161_999, [0, 0, 25, 0]),
        (162_000, [0; 4]),
        (162_001, [0; 4]),
        (1_000_000, [0; 4]),
    ] {
        expect(&[(PAUSE, pause)], before, after);
    }
    expect(&[(DRIVING, 5)], before, [20, 25, 30, 1]);
    expect(&[(OTHER_WORK, 162_000)], before, before);
    let joined = [(PAUSE, 81_000), (PAUSE, 81_000), (DRIVING, 9)];
    expect(&joined, before, [9, 9, 9, 0]);
    let apart = [(PAUSE, 161_999), (OTHER_WORK, 1), (PAUSE, 161_999)];
    expect(&apart, before, [0, 0, 25, 0]);
}

pub fn replayed_week_limits() {
    let late = [0, 0, 190_800, 0];
    expect(&[(DRIVING, 10_800)], late, [10_800, 10_800, 201_600, 0]);
    expect_refused(&[(DRIVING, 10_801)], late, 23, 1);
    expect_refused(
        &[(DRIVING, 10_800), (PAUSE, 161_999), (DRIVING, 1)],
        late,
        23,
        3,
    );
    let next_week = [(DRIVING, 10_800), (PAUSE, 162_000), (DRIVING, 16_200)];
    expect(&next_week, late, [16_200, 16_200, 16_200, 0]);
    let full = [0, 0, 201_600, 0];
    expect(&[], full, full);
    expect_refused(&[(DRIVING, 1)], full, 23, 1);
    expect_refused(&[], [0, 0, 201_601, 0], 11, 14);
    expect_refused(&[], [15, 20, 19, 0], 11, 14);
    expect_refused(&[], [15, 32_401, 0, 0], 11, 5);
    expect_refused(&[(3, 0)], [16_201, 0, 0, 0], 11, 4);
}
