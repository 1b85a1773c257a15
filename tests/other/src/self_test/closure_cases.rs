//! Striking and the preview, worked out by hand.

use super::fixtures::*;
use crate::map::Map;
use crate::operations::DOCUMENT;
use crate::order::Order;
use crate::reply::Reply;
use crate::sheet::Sheet;

fn struck(map: &[u8], road: u32) -> (Reply, Vec<u8>) {
    let mut bytes = map.to_vec();
    let reply = (DOCUMENT.strike)(&mut bytes, road);
    (reply, bytes)
}

/// The to-junctions of map T's roads stand at 68, 88 and 108.
pub fn striking() {
    let t = map_t().bytes();
    for (road, offset, from) in [(1, 68, 1), (2, 88, 2), (3, 108, 1)] {
        let after = with_word(&t, offset, from);
        assert_eq!(struck(&t, road), (Reply::success(0, 0), after.clone()));
        assert_eq!(struck(&after, road), (Reply::success(0, 0), after.clone()));
        assert_eq!((DOCUMENT.check_map)(&after), Reply::success(0, 0));
    }
    let parallel = small_map(&[0, 0], &[(1, 2, 5), (1, 2, 5)]);
    let first_struck = small_map(&[0, 0], &[(1, 1, 5), (1, 2, 5)]);
    let after = (Reply::success(0, 0), first_struck.bytes());
    assert_eq!(struck(&parallel.bytes(), 1), after);
}

/// A refusal changes no byte.
pub fn unknown_roads() {
    let t = map_t().bytes();
    for road in [0, 4, u32::MAX] {
        assert_eq!(struck(&t, road), (refused(24, road.into()), t.clone()));
    }
    let without_roads = small_map(&[0], &[]).bytes();
    for road in [0, 1, u32::MAX] {
        let unknown = refused(24, road.into());
        assert_eq!(
            struck(&without_roads, road),
            (unknown, without_roads.clone())
        );
    }
    let bad_letter = with_word(&t, 129, 0);
    for road in [1, 9] {
        assert_eq!(
            struck(&bad_letter, road),
            (refused(8, 129), bad_letter.clone())
        );
    }
    let bad_end = with_word(&t, 88, 4);
    assert_eq!(struck(&bad_end, 2), (refused(6, 2), bad_end));
    assert_eq!(struck(&t[..15], 0), (refused(1, 15), t[..15].to_vec()));
}

/// The reply, and the marked sheet afterwards. The map stays, and so do the label words where the
/// search has not begun.
fn previewed(map: &[u8], order: &[u8], road: u32, words: usize, bytes: usize) -> (Reply, Vec<u8>) {
    let (mut lent, mut labels, mut sheet) = (map.to_vec(), vec![7; words], vec![MARK; bytes]);
    let reply = (DOCUMENT.preview)(&mut lent, order, &[], road, &mut labels, &mut sheet);
    assert_eq!(lent, map);
    assert!(!reply.is_before_search() || labels == vec![7; words]);
    (reply, sheet)
}

/// With space to spare.
fn preview(map: &Map, order: &Order, road: u32) -> (Reply, Vec<u8>) {
    previewed(&map.bytes(), &order.bytes(), road, 800, 100)
}

/// The label count, the arrival and the records of a closure's plan.
fn expect_preview(
    map: &Map,
    order: &Order,
    road: u32,
    labels: u64,
    arrival: u64,
    rows: &[(u64, u64, u64)],
) {
    let (reply, sheet) = preview(map, order, road);
    assert_eq!(reply, Reply::success(labels, arrival));
    let written = Sheet::read(&sheet[..24 + 12 * rows.len()]).expect("a plan");
    assert_eq!((written.labels, written.arrival), (labels, arrival));
    assert_eq!(written.records, records(rows));
    assert!(sheet[written.length()..].iter().all(|byte| *byte == MARK));
}

/// Road 3 takes longer than a spell, so that T's plan stays; without road 1 only the start is left, and
/// without road 2 the start, Lay, and Lay after a break and after a rest.
pub fn closures_on_map_t() {
    let (t, order) = (map_t(), order_t());
    let rows = [(1, 1, 10_800), (2, 2, 13_500), (1, 2, 20_700)];
    expect_preview(&t, &order, 3, 4, 20_700, &rows);
    let unwritten = vec![MARK; 100];
    assert_eq!(preview(&t, &order, 1), (refused(13, 1), unwritten.clone()));
    assert_eq!(preview(&t, &order, 2), (refused(13, 4), unwritten));
}

/// From 1 to 4 over 2, or over 3, which takes longer.
fn two_ways() -> Map {
    small_map(
        &[0; 4],
        &[(1, 2, 3), (2, 4, 4), (1, 3, 5), (3, 4, 6), (1, 4, 20)],
    )
}

pub fn detours() {
    let (map, order) = (two_ways(), small_order(1, 4));
    let rows = [(1, 1, 3), (1, 2, 7)];
    assert_eq!(plan_sheet(&map, &order).records, records(&rows));
    let detour = [(1, 3, 5), (1, 4, 11)];
    expect_preview(&map, &order, 1, 3, 11, &detour);
    expect_preview(&map, &order, 2, 4, 11, &detour);
    // Without junction 3 there is a label less.
    expect_preview(&map, &order, 3, 3, 7, &rows);
    expect_preview(&map, &order, 4, 4, 7, &rows);
    expect_preview(&map, &order, 5, 4, 7, &rows);
}

/// The closed road leads to junction 2 first and dominates two states there; without it both are labels.
pub fn more_labels_than_before() {
    let roads = [(1, 2, 3), (1, 3, 4), (3, 2, 5), (1, 4, 12)];
    let (map, order) = (small_map(&[0, 0, 1, 0], &roads), small_order(1, 4));
    assert_eq!(plan_sheet(&map, &order).labels, 5);
    expect_preview(&map, &order, 1, 6, 12, &[(1, 4, 12)]);
}

pub fn closures_of_other_roads() {
    let parallel = small_map(&[0, 0], &[(1, 2, 5), (1, 2, 5), (2, 2, 1)]);
    let order = small_order(1, 2);
    expect_preview(&parallel, &order, 1, 2, 5, &[(1, 2, 5)]);
    expect_preview(&parallel, &order, 2, 2, 5, &[(1, 1, 5)]);
    expect_preview(&parallel, &order, 3, 2, 5, &[(1, 1, 5)]);
    let at_home = preview(&parallel, &small_order(1, 1), 1);
    assert_eq!(at_home.0, Reply::success(1, 0));
}

/// What fits is judged by the struck trip: here three labels, where the open one has two.
pub fn full_and_short_by_the_struck_trip() {
    let map = small_map(&[0; 3], &[(1, 3, 2), (1, 2, 3), (2, 3, 4)]).bytes();
    let order = small_order(1, 3).bytes();
    let unwritten = |bytes| vec![MARK; bytes];
    assert_eq!(
        previewed(&map, &order, 1, 29, 48),
        (refused(12, 2), unwritten(48))
    );
    assert_eq!(
        previewed(&map, &order, 1, 30, 47),
        (refused(14, 48), unwritten(47))
    );
    assert_eq!(previewed(&map, &order, 1, 30, 48).0, Reply::success(3, 7));
    assert_eq!(previewed(&map, &order, 2, 20, 36).0, Reply::success(2, 2));
}

/// 1 to 11 of the lent map and order, 24, and 12 to 14 of the struck trip.
pub fn order_of_refusals() {
    let (map, order) = (map_t().bytes(), order_t().bytes());
    let reply = |map: &[u8], order: &[u8], road, words| previewed(map, order, road, words, 0).0;
    assert_eq!(reply(&map[..15], &order, 4, 0), refused(1, 15));
    assert_eq!(reply(&with_word(&map, 88, 9), &order, 2, 0), refused(6, 2));
    assert_eq!(
        reply(&with_word(&map, 129, 0), &order, 4, 0),
        refused(8, 129)
    );
    assert_eq!(reply(&map, &order[..59], 4, 0), refused(9, 59));
    assert_eq!(reply(&map, &with_word(&order, 28, 0), 4, 0), refused(10, 7));
    assert_eq!(reply(&map, &with_word(&order, 4, 4), 4, 0), refused(11, 1));
    for road in [0, 4, u32::MAX] {
        assert_eq!(reply(&map, &order, road, 0), refused(24, road.into()));
        assert_eq!(reply(&map, &order, road, 800), refused(24, road.into()));
    }
    assert_eq!(reply(&map, &order, 3, 39), refused(12, 3));
    assert_eq!(reply(&map, &order, 2, 39), refused(12, 3));
    assert_eq!(reply(&map, &order, 2, 40), refused(13, 4));
    assert_eq!(reply(&map, &order, 3, 40), refused(14, 60));
}

/// The plan from before goes on from where the closed road led; the preview's passes.
pub fn audits_on_the_struck_map() {
    let (map, order) = (two_ways(), small_order(1, 4));
    let audit =
        |map: &[u8], sheet: &Sheet| (DOCUMENT.audit)(map, &order.bytes(), &[], &sheet.bytes());
    let plan = plan_sheet(&map, &order);
    let open = map.bytes();
    for (road, after_closure) in [
        (1, refused(16, 2)),
        (2, refused(19, 2)),
        (3, Reply::success(2, 7)),
    ] {
        let (_, struck) = struck(&open, road);
        assert_eq!(audit(&struck, &plan), after_closure);
        let (reply, sheet) = preview(&map, &order, road);
        let previewed = Sheet::read(&sheet[..48]).expect("two drives");
        for map in [&struck, &open] {
            assert_eq!(audit(map, &previewed), Reply::success(2, reply.arrival));
        }
    }
}
