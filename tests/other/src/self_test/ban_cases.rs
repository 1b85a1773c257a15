//! Trips with banned roads, and ban lists, worked out by hand.

use super::fixtures::*;
use crate::calendar::DAY_SECONDS;
use crate::map::Map;
use crate::moves::{Document, Mark, State, Trip};
use crate::operations::DOCUMENT;
use crate::order::Order;
use crate::planning::{answer_of, labels_of, reachable_states};
use crate::reply::Reply;
use crate::sheet::Sheet;

const SUNDAY: u64 = DAY_SECONDS;
const OPENS: u64 = SUNDAY + 79_200;
const GOOD_FRIDAY: u64 = 9_590_400;
const EASTER_MONDAY: u64 = 9_849_600;

/// Map T's order, on another day.
fn t_from(departure: u64, latest: u64) -> Order {
    Order {
        departure,
        latest,
        ..order_t()
    }
}

/// The plan's label count, its arrival, spell and shift, and its records.
fn expect_plan(
    map: &Map,
    order: &Order,
    bans: &[u32],
    labels: u64,
    figures: [u64; 3],
    rows: &[(u64, u64, u64)],
) {
    let plan = plan_sheet_under(map, order, bans);
    assert_eq!((plan.labels, plan.records), (labels, records(rows)));
    assert_eq!([plan.arrival, plan.spell, plan.shift], figures);
}

fn expect_no_road(map: &Map, order: &Order, bans: &[u32], labels: u64) {
    let reply = planned_under(map, order, bans, 800, 100).0;
    assert_eq!(reply, refused(13, labels));
}

/// Road 2 opens at 165,600, after the rest; the break arrives as early with a higher shift, and ranks behind.
pub fn rest_in_place_of_a_queue() {
    let rows = [(1, 1, 97_200), (3, 2, 136_800), (1, 2, 172_800)];
    let figures = [172_800, 7_200, 7_200];
    expect_plan(&map_t(), &t_from(SUNDAY, 172_800), &[2], 5, figures, &rows);
    expect_no_road(&map_t(), &t_from(SUNDAY, 172_799), &[2], 4);
    let without = [(1, 1, 97_200), (2, 2, 99_900), (1, 2, 107_100)];
    let figures = [107_100, 7_200, 18_000];
    expect_plan(
        &map_t(),
        &t_from(SUNDAY, 172_800),
        &[],
        4,
        figures,
        &without,
    );
}

/// Junction, clock, spell, shift and mark of the labels, by rank.
fn labels(map: &Map, order: &Order, bans: &[u32]) -> Vec<(u64, u64, u64, u64, bool)> {
    let trip = Trip::open(&map.bytes(), &order.bytes(), bans).expect("an accepted run");
    let reachable = reachable_states::<Document>(&trip);
    let answer = answer_of::<Document>(&trip, &reachable);
    let labels = labels_of::<Document>(&reachable, answer);
    let row = |s: &State| {
        (
            s.junction,
            s.clock,
            s.spell,
            s.shift,
            s.mark == Mark::Marked,
        )
    };
    labels.iter().map(row).collect()
}

/// A first part in the queue makes a marked state, which is better, and is never used. The second part is as long as the
/// break, so that it leads from one label where the break does.
pub fn idle_first_part() {
    let order = Order {
        first_part: 900,
        second_part: 2_700,
        ..t_from(SUNDAY, 172_800)
    };
    let rows = [
        (1, 1, 97_200),
        (3, 2, 136_800),
        (4, 2, 137_700),
        (1, 2, 172_800),
    ];
    let figures = [172_800, 7_200, 7_200];
    expect_plan(&map_t(), &order, &[2], 8, figures, &rows);
    let by_rank = [
        (1, 86_400, 0, 0, false),
        (2, 97_200, 10_800, 10_800, false),
        (2, 98_100, 10_800, 10_800, true),
        (2, 99_900, 0, 10_800, false),
        (2, 100_800, 0, 10_800, true),
        (2, 136_800, 0, 0, false),
        (2, 137_700, 0, 0, true),
        (3, 172_800, 7_200, 7_200, true),
    ];
    assert_eq!(labels(&map_t(), &order, &[2]), by_rank);
}

/// From a car park by a banned road of 5 to another, and on by one of 6, with a break between. A first part of 2 fits into
/// the queue, and with its mark the second part of 3 is as good as the break: the lower kind is written. Labels: the start and
/// its marked state; at the second car park the lorry as it comes, after the break, and after a first part behind that; the
/// answer. Where the queue is a second shorter, the marked lorry comes a second later, and both are labels there.
pub fn lower_kind_on_ties() {
    let map = small_map(&[1, 1, 0], &[(1, 2, 5), (2, 3, 6)]);
    let order = |queue| Order {
        source: 1,
        target: 3,
        departure: OPENS - queue,
        latest: OPENS + 20,
        ..Order::of_hours([10, 3, 11, 20, 2, 3, 11, 20], [0; 3])
    };
    let arrival = OPENS + 5 + 3 + 6;
    let figures = [arrival, 6, 11];
    let behind = [(1, 1, OPENS + 5), (2, 2, OPENS + 8), (1, 2, arrival)];
    let first = |clock| [&[(4, 1, clock)], &behind[..]].concat();
    expect_plan(&map, &order(2), &[1], 6, figures, &first(OPENS));
    expect_plan(&map, &order(1), &[1], 7, figures, &behind);
}

/// Only the moment of entry counts: road 1 is entered in the last second of Saturday, and left on Sunday.
pub fn only_entry_counts() {
    let t = map_t();
    let rows = [(1, 1, 97_199), (2, 2, 99_899), (1, 2, 107_099)];
    let figures = [107_099, 7_200, 18_000];
    expect_plan(&t, &t_from(86_399, 172_800), &[1], 4, figures, &rows);
    let queued = [(1, 1, 176_400), (2, 2, 179_100), (1, 2, 186_300)];
    let figures = [186_300, 7_200, 18_000];
    expect_plan(&t, &t_from(86_400, 200_000), &[1], 4, figures, &queued);
    expect_plan(&t, &t_from(165_599, 200_000), &[1], 4, figures, &queued);
    expect_plan(&t, &t_from(165_600, 200_000), &[1], 4, figures, &queued);
    let later = [(1, 1, 176_401), (2, 2, 179_101), (1, 2, 186_301)];
    let figures = [186_301, 7_200, 18_000];
    expect_plan(&t, &t_from(165_601, 200_000), &[1], 4, figures, &later);
}

/// Of two ways the longer one, which is open, arrives before the gate of the shorter one does.
pub fn detour_round_a_ban() {
    let map = small_map(&[0; 3], &[(1, 3, 5), (1, 2, 8), (2, 3, 9)]);
    let order = |queue| Order {
        departure: OPENS - queue,
        latest: OPENS + 100,
        ..small_order(1, 3)
    };
    let by_2 = |start: u64| [(1, 2, start + 8), (1, 3, start + 17)];
    expect_plan(
        &map,
        &order(13),
        &[1],
        3,
        [OPENS + 4, 17, 17],
        &by_2(OPENS - 13),
    );
    let shorter = [(1, 1, OPENS + 5)];
    // As early, and with a lower spell.
    expect_plan(&map, &order(12), &[1], 3, [OPENS + 5, 5, 5], &shorter);
    expect_plan(&map, &order(12), &[1, 2, 3], 2, [OPENS + 5, 5, 5], &shorter);
    expect_plan(
        &map,
        &order(12),
        &[2, 3],
        2,
        [OPENS - 7, 5, 5],
        &[(1, 1, OPENS - 7)],
    );
}

/// Where source is target there is nothing to queue for, and a queue takes no car park.
pub fn start_in_a_ban() {
    let map = small_map(&[0, 0], &[(1, 2, 5), (1, 1, 1)]);
    let at_home = Order {
        departure: SUNDAY,
        latest: SUNDAY + 90_000,
        ..small_order(1, 1)
    };
    expect_plan(&map, &at_home, &[1, 2], 1, [SUNDAY, 0, 0], &[]);
    let away = Order {
        target: 2,
        ..at_home
    };
    let rows = [(1, 1, OPENS + 5)];
    expect_plan(&map, &away, &[1, 2], 2, [OPENS + 5, 5, 5], &rows);
}

/// From Good Friday's queue into Saturday, and from Easter Sunday's two open hours into the queue of Easter Monday.
pub fn easter_weekend() {
    let t = map_t();
    let all = [1, 2, 3];
    let saturday = GOOD_FRIDAY + DAY_SECONDS;
    let rows = [
        (1, 1, saturday + 3_600),
        (2, 2, saturday + 6_300),
        (1, 2, saturday + 13_500),
    ];
    let figures = [saturday + 13_500, 7_200, 18_000];
    let order = t_from(GOOD_FRIDAY, saturday + 86_399);
    expect_plan(&t, &order, &all, 4, figures, &rows);
    let rows = [
        (1, 1, EASTER_MONDAY + 3_600),
        (3, 2, EASTER_MONDAY + 43_200),
        (1, 2, EASTER_MONDAY + 86_400),
    ];
    let figures = [EASTER_MONDAY + 86_400, 7_200, 7_200];
    let order = t_from(EASTER_MONDAY - 7_200, EASTER_MONDAY + 86_400);
    expect_plan(&t, &order, &all, 5, figures, &rows);
}

fn timed(order: &Order, bans: &[u32], given: &Sheet) -> (Reply, Vec<u8>) {
    let mut out = vec![MARK; given.length()];
    let retime = DOCUMENT.retime;
    let reply = retime(
        &map_t().bytes(),
        &order.bytes(),
        bans,
        &given.bytes(),
        &mut out,
    );
    (reply, out)
}

fn audited(order: &Order, bans: &[u32], sheet: &Sheet) -> Reply {
    (DOCUMENT.audit)(&map_t().bytes(), &order.bytes(), bans, &sheet.bytes())
}

fn sheet_of(rows: &[(u64, u64, u64)], arrival: u64, spell: u64, shift: u64) -> Sheet {
    Sheet {
        arrival,
        spell,
        shift,
        week: 18_000,
        labels: 4,
        records: records(rows),
    }
}

/// The queue is in the clock alone.
pub fn queues_on_sheets() {
    let order = t_from(SUNDAY, 172_800);
    let queued = [(1, 1, 97_200), (2, 2, 99_900), (1, 2, 172_800)];
    let truly = sheet_of(&queued, 172_800, 7_200, 18_000);
    let open = sheet_of(
        &[queued[0], queued[1], (1, 2, 107_100)],
        107_100,
        7_200,
        18_000,
    );
    let done = Reply::success(3, 172_800);
    for given in [&truly, &open] {
        assert_eq!(timed(&order, &[2], given), (done, truly.bytes()));
    }
    assert_eq!(audited(&order, &[2], &truly), done);
    assert_eq!(audited(&order, &[2], &open), refused(18, 3));
    assert_eq!(audited(&order, &[], &truly), refused(18, 3));
    let patient = t_from(SUNDAY, 200_000);
    assert_eq!(audited(&patient, &[1, 3], &open), refused(18, 1));
    assert_eq!(audited(&order, &[1, 3], &open), refused(17, 1));
    assert_eq!(audited(&order, &[], &open), Reply::success(3, 107_100));
    let too_late = t_from(SUNDAY, 172_799);
    assert_eq!(audited(&too_late, &[2], &truly), refused(17, 3));
    assert_eq!(timed(&too_late, &[2], &truly).0, refused(17, 3));
}

/// A struck road leads back, and keeps its ban: the lorry queues before it drives round.
pub fn struck_road_keeps_its_ban() {
    let mut map = map_t();
    map.strike(1);
    let order = Order {
        target: 1,
        ..t_from(SUNDAY, 200_000)
    };
    let round = Sheet {
        week: 10_800,
        ..sheet_of(&[(1, 1, 176_400)], 176_400, 10_800, 10_800)
    };
    let audit = |bans| (DOCUMENT.audit)(&map.bytes(), &order.bytes(), bans, &round.bytes());
    assert_eq!(audit(&[1]), Reply::success(1, 176_400));
    assert_eq!(audit(&[]), refused(18, 1));
}

/// Position, from 1, of the first number that is 0, above 3 or not above the one before; 0 where the list passes.
const LISTS: [(&[u32], u64); 18] = [
    (&[], 0),
    (&[1], 0),
    (&[3], 0),
    (&[1, 2, 3], 0),
    (&[1, 3], 0),
    (&[0], 1),
    (&[4], 1),
    (&[u32::MAX], 1),
    (&[0, 1, 2], 1),
    (&[0, 0], 1),
    (&[1, 1], 2),
    (&[2, 1], 2),
    (&[2, 1, 9], 2),
    (&[1, 0], 2),
    (&[1, 2, 2], 3),
    (&[1, 2, 4], 3),
    (&[1, 3, 2], 3),
    (&[1, 2, 3, 4], 4),
];

pub fn lists_that_pass_and_lists_that_do_not() {
    let (map, order) = (map_t().bytes(), order_t().bytes());
    for (list, place) in LISTS {
        let reply = match place {
            0 => Reply::success(0, 0),
            _ => refused(25, place),
        };
        assert_eq!(
            (DOCUMENT.check_order)(&order, list, 3, 3),
            reply,
            "{list:?}"
        );
        let planned = planned_under(&map_t(), &order_t(), list, 800, 100);
        if place > 0 {
            assert_eq!(planned, (reply, vec![MARK; 100]), "{list:?}");
        } else {
            assert_eq!(planned.0, Reply::success(4, 20_700), "{list:?}");
        }
    }
    let check = |list: &[u32], roads| (DOCUMENT.check_order)(&order, list, 3, roads);
    assert_eq!(check(&[1], 0), refused(25, 1));
    assert_eq!(check(&[], 0), Reply::success(0, 0));
    assert_eq!(check(&[4, u32::MAX], u32::MAX), Reply::success(0, 0));
    assert_eq!((DOCUMENT.audit)(&map, &order, &[3, 3], &[]), refused(25, 2));
}

/// 1 to 11 first, 25 then, and 12 to 19 behind it; a preview judges its road before the list.
pub fn order_of_refusals() {
    let (map, order) = (map_t().bytes(), order_t().bytes());
    let bad = &[0][..];
    for (map, order, reply) in [
        (&map[..132], &order[..], refused(4, 133)),
        (&with_word(&map, 88, 9), &order, refused(6, 2)),
        (&map, &order[..59], refused(9, 59)),
        (&map, &with_word(&order, 28, 0), refused(10, 7)),
        (&map, &with_word(&order, 4, 4), refused(11, 1)),
        (&map, &order, refused(25, 1)),
    ] {
        assert_eq!((DOCUMENT.plan)(map, order, bad, &mut [], &mut []), reply);
        assert_eq!((DOCUMENT.retime)(map, order, bad, &[], &mut []), reply);
        assert_eq!((DOCUMENT.audit)(map, order, bad, &[]), reply);
        let preview =
            |road| (DOCUMENT.preview)(&mut map.to_vec(), order, bad, road, &mut [], &mut []);
        assert_eq!(preview(1), reply);
        let unknown = match reply.number {
            25 => refused(24, 4),
            _ => reply,
        };
        assert_eq!(preview(4), unknown);
        if reply.number >= 9 {
            assert_eq!((DOCUMENT.check_order)(order, bad, 3, 3), reply);
        }
    }
}
