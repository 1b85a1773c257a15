//! Roads struck and their closures previewed.
use super::*;

const TO_OF_ROAD_2: usize = 16 + 16 * 4 + 20 + 4;
const ROADS: u32 = 4;

/// From Hub 1 by Lay 2 to End 4 as in map T; from Lay there is also a longer way by Inn 3, a car park too.
fn map_with_a_detour() -> Vec<u8> {
    let mut map = bytes_of(&[
        1, 4, ROADS, 12, // header
        1, 0, 0, 3, 2, 1, 3, 3, 4, 1, 6, 3, 0, 0, 9, 3, // junctions
        1, 2, 240000, 80, 0, 2, 4, 160000, 80, 3, 2, 3, 100000, 80, 0, 3, 4, 120000, 80,
        0, // roads
    ]);
    map.extend_from_slice(b"HubLayInnEnd");
    map
}

/// The European order from Hub to End, without a split.
fn order() -> Vec<u8> {
    european_order([1, 4], 100_000, [0, 0])
}

fn planned(labels: u64, arrival: u64) -> Result<Planned, Refused> {
    Ok(Planned { labels, arrival })
}

#[test]
fn strikes_a_road() {
    let mut map = map_with_a_detour();
    assert_eq!(strike(&mut map, 2), Ok(()));
    let mut expected = map_with_a_detour();
    expected[TO_OF_ROAD_2] = 2;
    assert_eq!(map, expected);
    assert_eq!(check_map(&map), Ok(()));
    assert_eq!(strike(&mut map, 2), Ok(()));
    assert_eq!(map, expected);
}

#[test]
fn a_refused_strike_changes_nothing() {
    let mut map = map_with_a_detour();
    for road in [0, ROADS + 1, u32::MAX] {
        let unknown = refused(Refusal::UnknownRoad, road.into());
        assert_eq!(strike(&mut map, road), unknown);
    }
    assert_eq!(map, map_with_a_detour());
    map[TO_OF_ROAD_2] = 5;
    for road in [2, 9] {
        assert_eq!(strike(&mut map, road), refused(Refusal::BadRoad, 2));
    }
    assert_eq!(map[TO_OF_ROAD_2], 5);
}

/// Without road 2 the break is taken at Inn: by then the spell is lower than after a break at Lay.
#[test]
fn previews_a_detour() {
    let (map, order) = (map_with_a_detour(), order());
    let (mut words, mut sheet) = ([7; LABEL_WORDS * 6], vec![0xEE; 76]);
    let open = plan(&map, &order, &[], &mut words, &mut sheet);
    assert_eq!(open, planned(6, 20_700));
    sheet.fill(0xEE);
    let closed = preview(&map, &order, &[], 2, &mut words, &mut sheet);
    assert_eq!(closed, planned(6, 23_400));
    let records = [
        [DRIVE, 1, 10_800],
        [DRIVE, 3, 15_300],
        [BREAK, 3, 18_000],
        [DRIVE, 4, 23_400],
    ];
    let mut written = bytes_of(&[4, 23_400, 5_400, 20_700, 20_700, 6]);
    written.extend(bytes_of(&records.concat()));
    written.extend([0xEE; 4]);
    assert_eq!(sheet, written);
    assert_eq!(map, map_with_a_detour());
}

/// Without road 1 the trip ends at Hub; without road 3 Inn is not reached; without road 4 it leads nowhere.
#[test]
fn previews_closures_of_the_other_roads() {
    let (map, order) = (map_with_a_detour(), order());
    let (mut words, mut sheet) = ([7; LABEL_WORDS * 6], [0xEE; 60]);
    for (road, expected) in [
        (1, refused(Refusal::NoRoad, 1)),
        (2, refused(Refusal::ShortSheet, 72)),
    ] {
        let closed = preview(&map, &order, &[], road, &mut words, &mut sheet);
        assert_eq!((closed, sheet), (expected, [0xEE; 60]));
    }
    for (road, labels) in [(3, 4), (4, 6)] {
        let closed = preview(&map, &order, &[], road, &mut words, &mut sheet);
        assert_eq!(closed, planned(labels, 20_700));
    }
}

/// A preview is planning on a struck copy: the answer and every byte of the sheet, with room and without.
#[test]
fn a_preview_is_planning_on_a_struck_copy() {
    let (map, order) = (map_with_a_detour(), order());
    for road in 1..=ROADS {
        let mut copy = map.clone();
        strike(&mut copy, road).unwrap();
        for labels in 0..=7 {
            for bytes in [0, 59, 60, 71, 72, 84] {
                let (mut words, mut sheet) = (vec![7; LABEL_WORDS * labels], vec![0xEE; bytes]);
                let answer = plan(&copy, &order, &[], &mut words, &mut sheet);
                let (mut words, mut other) = (vec![9; LABEL_WORDS * labels], vec![0xEE; bytes]);
                let closed = preview(&map, &order, &[], road, &mut words, &mut other);
                assert_eq!((closed, other), (answer, sheet));
            }
        }
    }
    assert_eq!(map, map_with_a_detour());
}

/// The drive of the closed road leads back, so that what follows it is foreign, or the end is astray.
#[test]
fn a_sheet_is_audited_on_the_struck_map() {
    let (map, order) = (map_with_a_detour(), order());
    let mut words = [7; LABEL_WORDS * 6];
    let (mut open, mut closed) = ([0; 60], [0; 72]);
    plan(&map, &order, &[], &mut words, &mut open).unwrap();
    preview(&map, &order, &[], 2, &mut words, &mut closed).unwrap();
    let [without_1, without_2] = [1, 2].map(|road| {
        let mut copy = map.clone();
        strike(&mut copy, road).unwrap();
        copy
    });
    let foreign = refused(Refusal::ForeignMove, 2);
    assert_eq!(audit(&without_1, &order, &[], &open), foreign);
    assert_eq!(
        audit(&without_2, &order, &[], &open),
        refused(Refusal::Stray, 2)
    );
    let timed = Ok(Timed {
        moves: 4,
        arrival: 23_400,
    });
    assert_eq!(audit(&without_2, &order, &[], &closed), timed);
    assert_eq!(audit(&map, &order, &[], &closed), timed);
}

/// 24 comes after the order's refusals and before those of the search, and leaves words and sheet.
#[test]
fn an_unknown_road_is_refused_before_the_search() {
    let (map, order) = (map_with_a_detour(), order());
    let (mut words, mut sheet) = ([7; LABEL_WORDS], [0xEE; 24]);
    for road in [0, ROADS + 1, u32::MAX] {
        let unknown = refused(Refusal::UnknownRoad, road.into());
        let closed = preview(&map, &order, &[], road, &mut words, &mut sheet);
        assert_eq!(closed, unknown);
        assert_eq!(preview(&map, &order, &[], road, &mut [], &mut []), unknown);
    }
    let short = preview(&map, &order[..59], &[], 0, &mut words, &mut sheet);
    assert_eq!(short, refused(Refusal::BadOrder, 59));
    let mut bad_map = map.clone();
    bad_map[TO_OF_ROAD_2] = 5;
    let bad = preview(&bad_map, &order, &[], 2, &mut words, &mut sheet);
    assert_eq!(bad, refused(Refusal::BadRoad, 2));
    assert_eq!((words, sheet), ([7; LABEL_WORDS], [0xEE; 24]));
}

/// Nothing where the reply is short, three numbers where it is longer.
#[test]
fn a_strike_needs_room_for_its_reply() {
    let (mut map, mut reply) = (map_with_a_detour(), [9; 4]);
    let mut struck = |room: usize| {
        unsafe { raw::trunk_strike(map.as_mut_ptr(), map.len(), 2, reply.as_mut_ptr(), room) };
        (map[TO_OF_ROAD_2], reply)
    };
    assert_eq!(struck(2), (4, [9; 4]));
    assert_eq!(struck(4), (2, [0, 0, 0, 9]));
}

#[test]
fn a_preview_needs_room_for_its_reply() {
    let (map, order) = (map_with_a_detour(), order());
    let (mut words, mut sheet, mut reply) = ([7; LABEL_WORDS * 6], [0xEE; 72], [9; 4]);
    let mut previewed = |room: usize| {
        unsafe {
            raw::trunk_preview(
                map.as_ptr(),
                map.len(),
                order.as_ptr(),
                order.len(),
                [].as_ptr(),
                0,
                2,
                words.as_mut_ptr(),
                words.len(),
                sheet.as_mut_ptr(),
                sheet.len(),
                reply.as_mut_ptr(),
                room,
            )
        };
        (words, sheet[0], reply)
    };
    assert_eq!(previewed(2), ([7; LABEL_WORDS * 6], 0xEE, [9; 4]));
    let (_, moves, reply) = previewed(4);
    assert_eq!((moves, reply), (4, [0, 6, 23_400, 9]));
}
