//! Ban days: queues at banned roads in plans, previews and kept sheets, and lists that are refused.
use super::*;

const SUNDAY: u32 = DAY_SECONDS; // 2 January 2000
const OPENING: u32 = SUNDAY + 22 * 3_600;

/// The European order from 1 to 3, without a split.
fn order(departure: u32, latest: u32) -> Vec<u8> {
    Order::european(1, 3, departure, latest).to_bytes().to_vec()
}

fn planned(labels: u64, arrival: u32) -> Result<Planned, Refused> {
    let arrival = arrival.into();
    Ok(Planned { labels, arrival })
}

fn timed(moves: u64, arrival: u32) -> Result<Timed, Refused> {
    let arrival = arrival.into();
    Ok(Timed { moves, arrival })
}

/// What planning map T answers with these banned roads, and the sheet.
fn planned_with(bans: &[u32], order: &[u8]) -> (Result<Planned, Refused>, Sheet) {
    let (mut words, mut lent) = ([7; LABEL_WORDS * 8], [0; 100]);
    let answer = plan(&map_t(), order, bans, &mut words, &mut lent);
    (answer, Sheet::from_bytes(&lent).unwrap())
}

fn moves_of(sheet: &Sheet) -> Vec<[u32; 3]> {
    sheet.moves.iter().map(|step| step.words()).collect()
}

/// The rest ends long before road 2 opens, so that it costs nothing and leaves the lower shift.
#[test]
fn a_rest_is_taken_in_place_of_the_queue() {
    let order = order(SUNDAY, OPENING + 7_200);
    let (answer, sheet) = planned_with(&[2], &order);
    assert_eq!(answer, planned(5, 172_800));
    let moves = [[DRIVE, 1, 97_200], [REST, 2, 136_800], [DRIVE, 2, 172_800]];
    assert_eq!(moves_of(&sheet), moves);
    let header = [sheet.arrival, sheet.spell, sheet.shift, sheet.week];
    assert_eq!(header, [172_800, 7_200, 7_200, 18_000]);
    let (open, _) = planned_with(&[], &order);
    assert_eq!(open, planned(4, SUNDAY + 20_700));
    let (banned_elsewhere, _) = planned_with(&[3], &order);
    assert_eq!(banned_elsewhere, open);
}

#[test]
fn the_queue_counts_against_the_latest_arrival() {
    let (late, _) = planned_with(&[2], &order(SUNDAY, OPENING + 7_199));
    assert_eq!(late, refused(Refusal::NoRoad, 4));
}

/// It stands idle in the plan: the queue has room for it, and a state with the mark is the better one.
#[test]
fn the_queue_swallows_a_first_part() {
    let rules = Rules {
        second_part: 2_700,
        ..Rules::european()
    };
    let split = Order {
        rules,
        ..Order::european(1, 3, SUNDAY, OPENING + 7_200)
    };
    let (answer, sheet) = planned_with(&[2], &split.to_bytes());
    assert_eq!(answer, planned(8, 172_800));
    let moves = [
        [DRIVE, 1, 97_200],
        [REST, 2, 136_800],
        [FIRST_PART, 2, 137_700],
        [DRIVE, 2, 172_800],
    ];
    assert_eq!(moves_of(&sheet), moves);
}

/// Hub is no car park. Spell and shift at Lay are those of the drive alone, so that the break is as without the queue.
#[test]
fn a_queue_is_neither_driving_nor_a_pause() {
    let (answer, sheet) = planned_with(&[1], &order(SUNDAY, 2_000_000));
    assert_eq!(answer, planned(4, OPENING + 20_700));
    let moves = [
        [DRIVE, 1, 176_400],
        [BREAK, 2, 179_100],
        [DRIVE, 2, 186_300],
    ];
    assert_eq!(moves_of(&sheet), moves);
    assert_eq!((sheet.spell, sheet.shift), (7_200, 18_000));
}

/// Only the moment of entry counts: a second before midnight and at 22:00 there is no queue.
#[test]
fn gates_open_on_ban_days_at_22() {
    const EASTER_SUNDAY: u32 = 9_763_200;
    let day = DAY_SECONDS;
    let [good_friday, easter_monday, ascension, whit_monday] =
        [-2, 1, 39, 50].map(|days| EASTER_SUNDAY.wrapping_add_signed(days * day as i32));
    assert_eq!([good_friday, easter_monday], [9_590_400, 9_849_600]);
    assert_eq!([ascension, whit_monday], [13_132_800, 14_083_200]);
    let good_friday_2024 = 764_985_600;
    let of_the_day = |clock: u32| clock - clock % day + 22 * 3_600;
    let queueing = [
        SUNDAY,
        OPENING - 1,
        good_friday,
        easter_monday,
        ascension,
        whit_monday,
        good_friday_2024,
    ];
    for departure in queueing {
        let (answer, _) = planned_with(&[1], &order(departure, 2_000_000_000));
        assert_eq!(answer, planned(4, of_the_day(departure) + 20_700));
    }
    let easter_evening = of_the_day(EASTER_SUNDAY);
    for departure in [
        SUNDAY - 1,
        OPENING,
        SUNDAY + day,
        easter_evening,
        good_friday - 1,
    ] {
        let (answer, _) = planned_with(&[1], &order(departure, 2_000_000_000));
        assert_eq!(answer, planned(4, departure + 20_700));
    }
}

/// A number 0, above R or not above the one before, with the first such position.
const SPOILT: [(&[u32], u64); 7] = [
    (&[0], 1),
    (&[4], 1),
    (&[u32::MAX, 0], 1),
    (&[1, 1], 2),
    (&[2, 1, 0], 2),
    (&[1, 2, 4], 3),
    (&[1, 2, 3, 4], 4),
];

#[test]
fn a_bad_list_is_refused_before_the_search() {
    let order = order(SUNDAY, 200_000);
    for (bans, place) in SPOILT {
        let (mut words, mut sheet) = ([7; LABEL_WORDS], [0xEE; 24]);
        let bad = refused(Refusal::BadBans, place);
        assert_eq!(plan(&map_t(), &order, bans, &mut words, &mut sheet), bad);
        let closed = preview(&map_t(), &order, bans, 3, &mut words, &mut sheet);
        assert_eq!(closed, refused(Refusal::BadBans, place));
        assert_eq!((words, sheet), ([7; LABEL_WORDS], [0xEE; 24]));
    }
}

/// After the map's and the order's refusals, in a preview after the road's, and before the sheet's.
#[test]
fn a_bad_list_has_its_place_among_the_refusals() {
    let (map, order, bad_list) = (map_t(), order(SUNDAY, 200_000), &[0]);
    let early = Order::european(1, 3, 1, 0).to_bytes();
    let bad_trip = refused(Refusal::BadTrip, 3);
    assert_eq!(check_order(&early, bad_list, 3, 3), bad_trip);
    let unplanned = plan(&map, &early, bad_list, &mut [], &mut []);
    assert_eq!(unplanned, refused(Refusal::BadTrip, 3));
    let closed = |order, road| preview(&map, order, bad_list, road, &mut [], &mut []);
    assert_eq!(closed(&early[..], 4), refused(Refusal::BadTrip, 3));
    assert_eq!(closed(&order[..], 4), refused(Refusal::UnknownRoad, 4));
    assert_eq!(closed(&order[..], 3), refused(Refusal::BadBans, 1));
    let torn = [0; 23];
    let bad = refused(Refusal::BadBans, 1);
    assert_eq!(audit(&map, &order, bad_list, &torn), bad);
    assert_eq!(retime(&map, &order, bad_list, &torn, &mut []), bad);
    let torn_sheet = refused(Refusal::TornSheet, 23);
    assert_eq!(audit(&map, &order, &[1], &torn), torn_sheet);
}

#[test]
fn checks_ban_lists_without_a_map() {
    let order = order(SUNDAY, 200_000);
    for (bans, place) in SPOILT {
        let bad = refused(Refusal::BadBans, place);
        assert_eq!(check_order(&order, bans, 3, 3), bad);
    }
    for (bans, roads) in [(&[1, 2, 3][..], 3), (&[2], 2), (&[u32::MAX], u32::MAX)] {
        assert_eq!(check_order(&order, bans, 3, roads), Ok(()));
        let one_fewer = refused(Refusal::BadBans, bans.len() as u64);
        assert_eq!(check_order(&order, bans, 3, roads - 1), one_fewer);
    }
    assert_eq!(check_order(&order, &[], 3, 0), Ok(()));
}

/// An empty list is a pointer and 0: what stands there is not read.
#[test]
fn an_empty_list_may_point_anywhere() {
    let spoilt = [0];
    let (answer, _) = planned_with(&spoilt[..0], &order(SUNDAY, 200_000));
    assert_eq!(answer, planned(4, SUNDAY + 20_700));
}

#[test]
fn kept_sheets_are_timed_with_their_queues() {
    let (map, order) = (map_t(), order(SUNDAY, 200_000));
    let (_, open) = planned_with(&[], &order);
    let open = open.to_bytes();
    let mut out = vec![0; open.len()];
    assert_eq!(audit(&map, &order, &[], &open), timed(3, 107_100));
    let late = refused(Refusal::FalseFigure, 3);
    assert_eq!(audit(&map, &order, &[2], &open), late);
    assert_eq!(
        retime(&map, &order, &[2], &open, &mut out),
        timed(3, 172_800)
    );
    assert_eq!(audit(&map, &order, &[2], &out), timed(3, 172_800));
    let retimed = Sheet::from_bytes(&out).unwrap();
    let moves = [[DRIVE, 1, 97_200], [BREAK, 2, 99_900], [DRIVE, 2, 172_800]];
    assert_eq!(moves_of(&retimed), moves);
    assert_eq!((retimed.spell, retimed.shift), (7_200, 18_000));

    let in_time = Order::european(1, 3, SUNDAY, 172_799).to_bytes();
    let overrun = refused(Refusal::Overrun, 3);
    assert_eq!(retime(&map, &in_time, &[2], &open, &mut out), overrun);
}

/// Road 1, struck, leads from Hub to Hub; it is queued for as before.
#[test]
fn a_struck_road_keeps_its_ban() {
    let mut map = map_t();
    strike(&mut map, 1).unwrap();
    let order = Order::european(1, 1, SUNDAY, 200_000).to_bytes();
    let drive = Move {
        kind: MoveKind::Drive,
        number: 1,
        clock: 0,
    };
    let round = Sheet {
        moves: vec![drive],
        ..Sheet::default()
    };
    let mut out = [0; 36];
    let queued = retime(&map, &order, &[1], &round.to_bytes(), &mut out);
    assert_eq!(queued, timed(1, OPENING + 10_800));
}

#[test]
fn a_preview_queues_as_planning_on_a_struck_copy() {
    let (map, order) = (map_t(), order(SUNDAY, 200_000));
    for road in 1..=3 {
        let mut copy = map.clone();
        strike(&mut copy, road).unwrap();
        for bans in [&[][..], &[1], &[2], &[1, 2], &[1, 2, 3]] {
            let (mut words, mut sheet) = ([7; LABEL_WORDS * 8], [0xEE; 100]);
            let answer = plan(&copy, &order, bans, &mut words, &mut sheet);
            let mut other = [0xEE; 100];
            let closed = preview(&map, &order, bans, road, &mut words, &mut other);
            assert_eq!((closed, other), (answer, sheet));
        }
    }
    let closed = preview(
        &map,
        &order,
        &[2],
        3,
        &mut [7; LABEL_WORDS * 8],
        &mut [0; 60],
    );
    assert_eq!(closed, planned(5, 172_800));
}

/// Every road of the largest map is banned: the lorry queues once and drives the ring from 22:00 on.
#[test]
fn the_largest_list_on_the_largest_map() {
    let map = ring_map(MOST_JUNCTIONS as u32, MOST_ROADS as u32);
    let order = Order::european(2, 1, SUNDAY, 200_000).to_bytes();
    let every_road: Vec<u32> = (1..=MOST_ROADS as u32).collect();
    let (mut words, mut sheet) = (vec![7; LABEL_WORDS * 12_288], vec![0; 24 + 12 * 12_287]);
    let answer = plan(&map, &order, &every_road, &mut words, &mut sheet);
    assert_eq!(answer, planned(12_288, OPENING + 12_287));
    let audited = audit(&map, &order, &every_road, &sheet);
    assert_eq!(audited, timed(12_287, OPENING + 12_287));
    let one_more: Vec<u32> = (1..=MOST_ROADS as u32 + 1).collect();
    let bad = refused(Refusal::BadBans, 40_961);
    assert_eq!(plan(&map, &order, &one_more, &mut words, &mut sheet), bad);
}
