//! Plans worked out by hand.

use super::fixtures::*;
use crate::map::Map;
use crate::operations::DOCUMENT;
use crate::order::Order;
use crate::planning;
use crate::reply::Reply;

/// The plan's label count and its records.
fn expect_plan(map: &Map, order: &Order, labels: u64, rows: &[(u64, u64, u64)]) {
    let plan = plan_sheet(map, order);
    assert_eq!((plan.labels, plan.records), (labels, records(rows)));
}

/// No moves, N = 1, and the header carries the starting figures, even for a tired driver.
pub fn source_is_target() {
    let map = small_map(&[1], &[(1, 1, 5)]);
    let mut order = small_order(1, 1);
    (order.departure, order.spell, order.shift, order.week) = (9, 40, 50, 60);
    let plan = plan_sheet(&map, &order);
    let figures = (plan.arrival, plan.spell, plan.shift, plan.week);
    assert_eq!(figures, (9, 40, 50, 60));
    assert_eq!((plan.labels, plan.records.len()), (1, 0));
    assert_eq!(planned(&map, &order, 10, 24).0, Reply::success(1, 9));
    assert_eq!(planned(&map, &order, 9, 24).0, refused(12, 0));
    assert_eq!(planned(&map, &order, 10, 23).0, refused(14, 24));
}

/// Equal figures at a lower junction than target's are counted, at a higher one not.
pub fn rank_ends_with_junction() {
    let map = small_map(&[0, 0, 0], &[(1, 2, 5), (1, 3, 5)]);
    expect_plan(&map, &small_order(1, 2), 2, &[(1, 1, 5)]);
    expect_plan(&map, &small_order(1, 3), 3, &[(1, 2, 5)]);
}

/// Four roads leave the source, but two labels are enough.
pub fn only_labels_are_counted() {
    let map = small_map(&[0; 5], &[(1, 2, 1), (1, 3, 5), (1, 4, 6), (1, 5, 7)]);
    assert_eq!(
        planned(&map, &small_order(1, 2), 20, 36).0,
        Reply::success(2, 1)
    );
}

/// A direct road and two roads of the same total: the start is the lowest label.
pub fn lowest_parent() {
    let map = small_map(&[0, 0, 0], &[(1, 2, 3), (2, 3, 4), (1, 3, 7)]);
    expect_plan(&map, &small_order(1, 3), 3, &[(1, 3, 7)]);
}

pub fn lowest_road() {
    let map = small_map(&[0, 0], &[(1, 2, 9), (1, 2, 5), (1, 2, 5)]);
    expect_plan(&map, &small_order(1, 2), 2, &[(1, 2, 5)]);
}

/// The first to reach junction 2 has no hours left for the last road; the one that paused has.
pub fn slower_lorry_with_hours_left() {
    let map = small_map(&[0, 0, 0, 1], &[(1, 2, 5), (2, 3, 6), (1, 4, 3), (4, 2, 3)]);
    let mut order = small_order(1, 3);
    order.spell_limit = 9;
    let rows = [(1, 3, 3), (2, 4, 5), (1, 4, 8), (1, 2, 14)];
    expect_plan(&map, &order, 6, &rows);
}

pub fn rest_clears_both_figures() {
    let map = small_map(&[0, 1, 0], &[(1, 2, 5), (2, 3, 5)]);
    let mut order = small_order(1, 3);
    (order.spell_limit, order.shift_limit) = (5, 5);
    (order.break_time, order.rest_time) = (1, 10);
    expect_plan(&map, &order, 5, &[(1, 1, 5), (3, 2, 15), (1, 2, 20)]);
    let plan = plan_sheet(&map, &order);
    assert_eq!((plan.spell, plan.shift), (5, 5));
}

pub fn target_is_generated_before_it_is_lowest() {
    let map = small_map(&[0, 0, 0], &[(1, 3, 10), (1, 2, 3), (2, 3, 3)]);
    expect_plan(&map, &small_order(1, 3), 3, &[(1, 2, 3), (1, 3, 6)]);
}

/// From Lay to End with 9,001 seconds of spell: a break comes before the first drive.
pub fn tired_driver_pauses_at_source() {
    let mut order = order_t();
    (order.source, order.spell, order.shift, order.week) = (2, 9_001, 9_001, 9_001);
    expect_plan(&map_t(), &order, 3, &[(2, 2, 2_700), (1, 2, 9_900)]);
    (order.spell, order.shift) = (9_000, 9_000);
    expect_plan(&map_t(), &order, 3, &[(1, 2, 7_200)]);
}

/// N is then the number of all undominated reachable states.
pub fn no_journey() {
    let mut order = order_t();
    (order.source, order.target) = (3, 1);
    assert_eq!(planned(&map_t(), &order, 10, 0).0, refused(13, 1));
    // From Lay: the start and End; pauses of a fresh driver are dominated.
    order.source = 2;
    assert_eq!(planned(&map_t(), &order, 800, 0).0, refused(13, 2));
    // A tired driver has states after a break and after a rest too, at Lay and at End.
    (order.spell, order.shift, order.week) = (100, 100, 100);
    assert_eq!(planned(&map_t(), &order, 800, 0).0, refused(13, 6));
}

pub fn full_before_no_road_and_short_sheet() {
    let mut order = order_t();
    assert_eq!(planned(&map_t(), &order, 39, 0).0, refused(12, 3));
    order.latest = 20_699;
    assert_eq!(planned(&map_t(), &order, 29, 0).0, refused(12, 2));
    assert_eq!(planned(&map_t(), &order, 30, 0).0, refused(13, 3));
}

pub fn labels_that_fit() {
    for (words, labels) in [(0, 0), (9, 0), (10, 1), (19, 1), (10_000_000, 1_000_000)] {
        assert_eq!(planning::labels_that_fit(words), labels);
    }
    assert_eq!(planning::labels_that_fit(10_000_010), 1_000_000);
}

pub fn map_and_order_come_first() {
    let plan = |map: &[u8], order: &[u8]| (DOCUMENT.plan)(map, order, &[], &mut [], &mut []);
    let (map, order) = (map_t().bytes(), order_t().bytes());
    assert_eq!(plan(&map[..132], &[]), refused(4, 133));
    assert_eq!(plan(&map, &order[..8]), refused(9, 8));
    assert_eq!(plan(&map, &with_word(&order, 28, 0)), refused(10, 7));
    assert_eq!(plan(&map, &with_word(&order, 4, 4)), refused(11, 1));
    assert_eq!(plan(&map, &order), refused(12, 0));
}
