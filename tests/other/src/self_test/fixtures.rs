//! Map T, small maps and short ways to call the operations.

use crate::map::{Junction, Map, Road};
use crate::moves::Move;
use crate::operations::DOCUMENT;
use crate::order::{Order, EUROPEAN_RULES};
use crate::reply::Reply;
use crate::sheet::{Record, Sheet};
use crate::words::put_word;

pub const ALL_BITS: u64 = u32::MAX as u64;

/// Map T of document 01: Hub 1, Lay 2 (car park), End 3.
pub fn map_t() -> Map {
    let junction = |car_park, name_start| Junction {
        first: 0,
        car_park,
        name_start,
        name_length: 3,
    };
    let road = |from, to, metres| Road {
        from,
        to,
        metres,
        speed: 80,
        next: 0,
    };
    let mut map = Map {
        junctions: vec![junction(0, 0), junction(1, 3), junction(0, 6)],
        roads: vec![
            road(1, 2, 240_000),
            road(2, 3, 160_000),
            road(1, 3, 400_000),
        ],
        names: b"HubLayEnd".to_vec(),
    };
    map.link_chains();
    map
}

/// The European order of the trial trips, which has no split.
pub fn order_t() -> Order {
    Order {
        first_part: 0,
        second_part: 0,
        ..order_t_split()
    }
}

/// The same with Europe's parts.
pub fn order_t_split() -> Order {
    Order {
        source: 1,
        target: 3,
        latest: 100_000,
        ..Order::of_hours(EUROPEAN_RULES, [0; 3])
    }
}

/// Junctions by their car park flags; roads by from, to and seconds (10 m/s).
pub fn small_map(car_parks: &[u64], roads: &[(u64, u64, u64)]) -> Map {
    let junction = |car_park: &u64| Junction {
        first: 0,
        car_park: *car_park,
        name_start: 0,
        name_length: 1,
    };
    let road = |&(from, to, seconds): &(u64, u64, u64)| Road {
        from,
        to,
        metres: 10 * seconds,
        speed: 36,
        next: 0,
    };
    let mut map = Map {
        junctions: car_parks.iter().map(junction).collect(),
        roads: roads.iter().map(road).collect(),
        names: b"x".to_vec(),
    };
    map.link_chains();
    map
}

/// Limits that small maps never meet, no split, and no time for a weekly rest.
pub fn small_order(source: u64, target: u64) -> Order {
    Order {
        source,
        target,
        latest: 1_000,
        ..Order::of_hours([100, 2, 100, 20, 0, 0, 100, 1_001], [0; 3])
    }
}

pub const MARK: u8 = 0xEE;

/// The reply and the marked sheet afterwards.
pub fn planned(map: &Map, order: &Order, label_words: usize, bytes: usize) -> (Reply, Vec<u8>) {
    planned_under(map, order, &[], label_words, bytes)
}

/// The same with banned roads.
pub fn planned_under(
    map: &Map,
    order: &Order,
    bans: &[u32],
    label_words: usize,
    bytes: usize,
) -> (Reply, Vec<u8>) {
    let mut sheet = vec![MARK; bytes];
    let mut labels = vec![7; label_words];
    let reply = (DOCUMENT.plan)(&map.bytes(), &order.bytes(), bans, &mut labels, &mut sheet);
    (reply, sheet)
}

/// The plan of a run with space to spare.
pub fn plan_sheet(map: &Map, order: &Order) -> Sheet {
    plan_sheet_under(map, order, &[])
}

/// The same with banned roads.
pub fn plan_sheet_under(map: &Map, order: &Order, bans: &[u32]) -> Sheet {
    let (reply, sheet) = planned_under(map, order, bans, 800, 1_000);
    assert_eq!(reply.number, 0);
    let moves = usize::from(sheet[0]);
    let plan = Sheet::read(&sheet[..24 + 12 * moves]).expect("a plan");
    assert_eq!(reply, Reply::success(plan.labels, plan.arrival));
    assert!(sheet[plan.length()..].iter().all(|byte| *byte == MARK));
    plan
}

pub fn records(rows: &[(u64, u64, u64)]) -> Vec<Record> {
    let record = |&(kind, number, clock): &(u64, u64, u64)| Record {
        step: Move { kind, number },
        clock,
    };
    rows.iter().map(record).collect()
}

/// The bytes with the word at an offset replaced.
pub fn with_word(bytes: &[u8], offset: usize, value: u64) -> Vec<u8> {
    let mut changed = bytes.to_vec();
    put_word(&mut changed, offset, value);
    changed
}

pub fn refused(number: u64, place: u64) -> Reply {
    Reply::refused(number, place)
}
