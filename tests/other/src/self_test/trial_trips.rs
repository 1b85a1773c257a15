//! Document 01's trial trips, with road times as document 02 (P2) rounds them.

use super::fixtures::*;
use crate::listing::listings;
use crate::map::{road_time, Road};
use crate::moves::{Document, Mark, State, Trip, DRIVE};
use crate::order::{Order, EUROPEAN_RULES};
use crate::reply::Reply;
use crate::sheet::Sheet;
use crate::words::bytes_of;

pub fn road_times() {
    let times: Vec<u64> = map_t().roads.iter().map(Road::time).collect();
    assert_eq!(times, [10_800, 7_200, 18_000]);
    assert_eq!(road_time(1, 130), 1);
    assert_eq!(road_time(1_250, 90), 50);
    assert_eq!(road_time(1_251, 90), 50);
    assert_eq!(road_time(2_000_000, 5), 1_440_000);
    let at_36 = |metres: [u64; 5]| metres.map(|metres| road_time(metres, 36));
    assert_eq!(at_36([5, 15, 25, 35, 45]), [1, 2, 2, 4, 4]);
    assert_eq!(at_36([4, 14, 24, 34, 44]), [1, 1, 2, 3, 4]);
    assert_eq!(at_36([6, 16, 26, 36, 46]), [1, 2, 3, 4, 5]);
}

fn plan_t() -> Sheet {
    Sheet {
        arrival: 20_700,
        spell: 7_200,
        shift: 18_000,
        week: 18_000,
        labels: 4,
        records: records(&[(1, 1, 10_800), (2, 2, 13_500), (1, 2, 20_700)]),
    }
}

pub fn map_t_is_planned() {
    let (reply, sheet) = planned(&map_t(), &order_t(), 40, 60);
    assert_eq!(reply, Reply::success(4, 20_700));
    assert_eq!(sheet, plan_t().bytes());
}

pub fn three_labels_are_full() {
    for label_words in [30, 39] {
        let (reply, sheet) = planned(&map_t(), &order_t(), label_words, 60);
        assert_eq!(reply, refused(12, 3));
        assert_eq!(sheet, [MARK; 60]);
    }
}

pub fn latest_just_met_and_just_missed() {
    let mut order = order_t();
    order.latest = 20_700;
    assert_eq!(
        planned(&map_t(), &order, 800, 60).0,
        Reply::success(4, 20_700)
    );
    order.latest = 20_699;
    assert_eq!(planned(&map_t(), &order, 800, 60).0, refused(13, 3));
}

/// Spell 9,000 and a road of 7,200 seconds is legal, 9,001 is not.
pub fn spell_just_met_and_just_missed() {
    for (spell, legal) in [(9_000, true), (9_001, false)] {
        let mut order = order_t();
        (order.source, order.spell, order.shift, order.week) = (2, spell, spell, spell);
        let trip = Trip::open(&map_t().bytes(), &order.bytes(), &[]).expect("an accepted run");
        let mut moves = trip.legal_moves::<Document>(&trip.start());
        moves.retain(|(step, _)| step.kind == DRIVE);
        assert_eq!(moves.len(), usize::from(legal));
    }
}

pub fn dominance() {
    let state = |clock, spell, shift, junction| State {
        clock,
        spell,
        shift,
        week: shift,
        mark: Mark::Unmarked,
        junction,
    };
    let (early, fresh) = (
        state(10_000, 10_000, 10_000, 1),
        state(13_000, 300, 10_300, 1),
    );
    assert!(!early.dominates(&fresh) && !fresh.dominates(&early));
    assert!(!early.dominates(&early));
    assert!(early.dominates(&state(10_000, 10_000, 10_001, 1)));
    assert!(!early.dominates(&state(10_000, 10_000, 10_001, 2)));
}

pub fn sheet_just_long_enough() {
    let (reply, sheet) = planned(&map_t(), &order_t(), 800, 59);
    assert_eq!(reply, refused(14, 60));
    assert_eq!(sheet, [MARK; 59]);
    let (reply, sheet) = planned(&map_t(), &order_t(), 800, 64);
    assert_eq!(reply, Reply::success(4, 20_700));
    assert_eq!(sheet[..60], plan_t().bytes());
    assert_eq!(sheet[60..], [MARK; 4]);
}

/// Map T's listing, and that of an order which no journey meets.
pub fn listings_one_after_the_other() {
    let map = map_t().bytes();
    let mut trips = Vec::new();
    for latest in [20_700, 20_699] {
        let order = Order {
            latest,
            ..order_t()
        };
        let order = order.bytes();
        trips.extend(bytes_of(&[map.len() as u64, order.len() as u64]));
        trips.extend(&map);
        trips.extend(order);
    }
    let expected = "\
drive 1 Lay 10800
break 2 Lay 13500
drive 2 End 20700
arrive 20700 7200 18000 labels 4

refused 13 3

";
    assert_eq!(listings(&trips), expected);
}

pub fn european_figures() {
    let expected = [16_200, 2_700, 32_400, 39_600, 900, 1_800, 201_600, 162_000];
    assert_eq!(EUROPEAN_RULES, expected);
}
