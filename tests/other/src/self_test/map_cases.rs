//! Map check, name and chain making.

use super::fixtures::*;
use crate::map::Map;
use crate::operations::DOCUMENT;
use crate::reply::Reply;

fn check(map: &[u8]) -> (u64, u64) {
    let reply = (DOCUMENT.check_map)(map);
    assert_eq!(reply.arrival, 0);
    (reply.number, reply.place)
}

/// The reply to map T after a change.
fn check_changed(change: impl Fn(&mut Map)) -> (u64, u64) {
    let mut map = map_t();
    change(&mut map);
    check(&map.bytes())
}

pub fn sizes() {
    let t = map_t().bytes();
    assert_eq!(t.len(), 133);
    assert_eq!(check(&t), (0, 0));
    assert_eq!(check(&[]), (1, 0));
    assert_eq!(check(&t[..15]), (1, 15));
    assert_eq!(check(&t[..16]), (4, 133));
    assert_eq!(check(&t[..132]), (4, 133));
    assert_eq!(check(&[&t[..], b"x"].concat()), (4, 133));
    for (offset, value, reply) in [
        (0, 0, (2, 0)),
        (0, 257, (2, 0)),
        (4, 0, (3, 4)),
        (4, 12_288, (4, 196_693)),
        (4, 12_289, (3, 4)),
        (8, 40_960, (4, 819_273)),
        (8, 40_961, (3, 8)),
        (12, 1_048_576, (4, 1_048_700)),
        (12, 1_048_577, (3, 12)),
    ] {
        assert_eq!(check(&with_word(&t, offset, value)), reply);
    }
    let roads_and_names = with_word(&with_word(&t, 8, ALL_BITS), 12, ALL_BITS);
    assert_eq!(check(&roads_and_names), (3, 8));
    assert_eq!(check(&small_map(&[0], &[]).bytes()), (0, 0));
}

pub fn junctions() {
    assert_eq!(check_changed(|map| map.junctions[2].first = 4), (5, 3));
    for flag in [2, 256, ALL_BITS] {
        assert_eq!(
            check_changed(|map| map.junctions[1].car_park = flag),
            (5, 2)
        );
    }
    for length in [0, 4, 33, ALL_BITS] {
        assert_eq!(
            check_changed(|map| map.junctions[2].name_length = length),
            (5, 3)
        );
    }
    for start in [7, ALL_BITS - 2, ALL_BITS] {
        assert_eq!(
            check_changed(|map| map.junctions[0].name_start = start),
            (5, 1)
        );
    }
    assert_eq!(check_changed(|map| map.junctions[0].name_start = 6), (0, 0));
    let mut nameless = small_map(&[0], &[]);
    nameless.names.clear();
    assert_eq!(check(&nameless.bytes()), (5, 1));
    for (length, reply) in [(32, (0, 0)), (33, (5, 1))] {
        let mut long = small_map(&[0], &[]);
        long.names = vec![b'x'; 40];
        long.junctions[0].name_length = length;
        assert_eq!(check(&long.bytes()), reply);
    }
}

pub fn roads() {
    for end in [0, 4, ALL_BITS] {
        assert_eq!(check_changed(|map| map.roads[1].from = end), (6, 2));
        assert_eq!(check_changed(|map| map.roads[1].to = end), (6, 2));
    }
    for (metres, number) in [(0, 6), (1, 0), (2_000_000, 0), (2_000_001, 6)] {
        assert_eq!(check_changed(|map| map.roads[0].metres = metres).0, number);
    }
    for (speed, number) in [(4, 6), (5, 0), (130, 0), (131, 6)] {
        assert_eq!(check_changed(|map| map.roads[0].speed = speed).0, number);
    }
    for next in [1, 2, 4, ALL_BITS] {
        assert_eq!(check_changed(|map| map.roads[1].next = next), (6, 2));
    }
    let loops_and_parallels = small_map(&[0], &[(1, 1, 3), (1, 1, 3)]);
    assert_eq!(check(&loops_and_parallels.bytes()), (0, 0));
}

pub fn chains() {
    assert_eq!(check_changed(|map| map.roads[0].next = 0), (7, 3));
    assert_eq!(check_changed(|map| map.junctions[0].first = 2), (7, 1));
    // Road 2 is on its own chain and on junction 3's.
    assert_eq!(check_changed(|map| map.junctions[2].first = 2), (7, 2));
    // Junction 1's chain runs through the foreign road 2 and never comes to road 3.
    assert_eq!(check_changed(|map| map.roads[0].next = 2), (7, 2));
    // Junction 3's chain shows road 2 as foreign, but road 1 is off its chain.
    let mut two_defects = small_map(&[0, 0, 0], &[(1, 1, 1), (2, 1, 1)]);
    (
        two_defects.junctions[0].first,
        two_defects.junctions[1].first,
    ) = (0, 0);
    two_defects.junctions[2].first = 2;
    assert_eq!(check(&two_defects.bytes()), (7, 1));
}

pub fn letters() {
    for (letter, reply) in [
        (0x1F, (8, 124)),
        (0x20, (0, 0)),
        (0x7E, (0, 0)),
        (0x7F, (8, 124)),
    ] {
        assert_eq!(check_changed(|map| map.names[0] = letter), reply);
    }
    assert_eq!(check_changed(|map| map.names[8] = 0xFF), (8, 132));
    let mut unused = small_map(&[0], &[]);
    unused.names.push(0);
    assert_eq!(check(&unused.bytes()), (8, 33));
}

pub fn order_of_refusals() {
    let junction_and_road = |map: &mut Map| {
        map.roads[0].speed = 0;
        map.junctions[2].car_park = 2;
    };
    assert_eq!(check_changed(junction_and_road), (5, 3));
    let road_and_chain = |map: &mut Map| {
        map.roads[2].speed = 0;
        map.junctions[0].first = 0;
    };
    assert_eq!(check_changed(road_and_chain), (6, 3));
    let chain_and_letter = |map: &mut Map| {
        map.roads[0].next = 0;
        map.names[0] = 0;
    };
    assert_eq!(check_changed(chain_and_letter), (7, 3));
}

pub fn names() {
    let t = map_t().bytes();
    for (junction, offset, spelt) in [(1, 124, b"Hub"), (2, 127, b"Lay"), (3, 130, b"End")] {
        assert_eq!(
            (DOCUMENT.name)(&t, junction),
            (Reply::success(3, 0), offset, 3)
        );
        assert_eq!(&t[offset..offset + 3], spelt);
    }
    for junction in [0, 4, u32::MAX] {
        let unknown = refused(20, u64::from(junction));
        assert_eq!((DOCUMENT.name)(&t, junction), (unknown, 0, 0));
    }
    assert_eq!((DOCUMENT.name)(&t[..132], 9), (refused(4, 133), 0, 0));
}

fn chained(map: &Map) -> (Reply, Vec<u8>) {
    let mut bytes = map.bytes();
    let reply = (DOCUMENT.make_chains)(&mut bytes);
    (reply, bytes)
}

/// First and next are ignored, whatever they hold; a refusal changes no byte.
pub fn chain_making() {
    for link in [0, 1, 3, ALL_BITS] {
        let mut map = map_t();
        map.junctions
            .iter_mut()
            .for_each(|junction| junction.first = link);
        map.roads.iter_mut().for_each(|road| road.next = link);
        assert_eq!(chained(&map), (Reply::success(0, 0), map_t().bytes()));
        map.names[8] = 0x7F;
        assert_eq!(chained(&map), (refused(8, 132), map.bytes()));
    }
    let map = small_map(
        &[0, 0, 0],
        &[(2, 1, 1), (1, 1, 1), (2, 2, 1), (1, 3, 1), (2, 1, 1)],
    );
    let firsts: Vec<u64> = map
        .junctions
        .iter()
        .map(|junction| junction.first)
        .collect();
    let nexts: Vec<u64> = map.roads.iter().map(|road| road.next).collect();
    assert_eq!(firsts, [2, 1, 0]);
    assert_eq!(nexts, [3, 4, 5, 0, 0]);
    assert_eq!(check(&map.bytes()), (0, 0));
    let mut bad_flag = map_t();
    bad_flag.junctions[2].car_park = 7;
    assert_eq!(chained(&bad_flag), (refused(5, 3), bad_flag.bytes()));
    let mut bad_from = map_t();
    bad_from.roads[2].from = 0;
    assert_eq!(chained(&bad_from), (refused(6, 3), bad_from.bytes()));
}
