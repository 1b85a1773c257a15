//! Document 01's trial trips, a refusal of each call, the largest map, replayed traces, closures, weeks and ban days,
//! through the library; beside it the header's figures and sentences, and the types for orders, sheets and traces.
mod bans;
mod closures;
mod formats;
mod header;
mod weeks;

use super::*;

const NAMES: &[u8] = b"HubLayEnd";
const FIRST_ROAD_OF_HUB: usize = 16;
const NEXT_OF_ROAD_1: usize = 16 + 16 * 3 + 16;
const LABELS_ON_SHEET: usize = 20;

fn bytes_of(words: &[u32]) -> Vec<u8> {
    words.iter().flat_map(|word| word.to_le_bytes()).collect()
}

/// Map T: Hub 1, Lay 2 (a car park), End 3.
fn map_t() -> Vec<u8> {
    let mut map = bytes_of(&[
        1, 3, 3, 9, // header
        1, 0, 0, 3, 2, 1, 3, 3, 0, 0, 6, 3, // junctions
        1, 2, 240000, 80, 3, 2, 3, 160000, 80, 0, 1, 3, 400000, 80, 0, // roads
    ]);
    map.extend_from_slice(NAMES);
    map
}

/// The European order from 1 to 3, without a split.
fn order_t(latest: u32) -> Vec<u8> {
    order_with_parts(latest, [0, 0])
}

fn order_with_parts(latest: u32, parts: [u32; 2]) -> Vec<u8> {
    european_order([1, 3], latest, parts)
}

/// For a driver who comes from a weekly rest.
fn european_order([source, target]: [u32; 2], latest: u32, parts: [u32; 2]) -> Vec<u8> {
    let ends_and_figures = [source, target, 0, latest, 0, 0];
    let limits_and_pauses = [16200, 2700, 32400, 39600];
    let week = [201600, 162000, 0];
    bytes_of(&[&ends_and_figures[..], &limits_and_pauses, &parts, &week].concat())
}

fn planned_sheet() -> Vec<u8> {
    let mut sheet = vec![0; 60];
    plan(
        &map_t(),
        &order_t(100_000),
        &[],
        &mut [7; LABEL_WORDS * 4],
        &mut sheet,
    )
    .unwrap();
    sheet
}

fn refused<T>(refusal: Refusal, place: u64) -> Result<T, Refused> {
    Err(Refused { refusal, place })
}

#[test]
fn plans_map_t() {
    let mut sheet = vec![0xEE; 64];
    let planned = plan(
        &map_t(),
        &order_t(100_000),
        &[],
        &mut [7; LABEL_WORDS * 4],
        &mut sheet,
    );
    assert_eq!(
        planned,
        Ok(Planned {
            labels: 4,
            arrival: 20_700
        })
    );
    let mut written = bytes_of(&[
        3, 20_700, 7_200, 18_000, 18_000, 4, // header
        1, 1, 10_800, 2, 2, 13_500, 1, 2, 20_700, // records
    ]);
    written.extend([0xEE; 4]);
    assert_eq!(sheet, written);
}

/// Two labels with the mark more; the plan is the same.
#[test]
fn plans_map_t_with_europes_parts() {
    let order = order_with_parts(100_000, [900, 1_800]);
    let mut sheet = vec![0; 60];
    let planned = plan(&map_t(), &order, &[], &mut [7; LABEL_WORDS * 6], &mut sheet);
    assert_eq!(
        planned,
        Ok(Planned {
            labels: 6,
            arrival: 20_700
        })
    );
    let mut expected = planned_sheet();
    expected[LABELS_ON_SHEET] = 6;
    assert_eq!(sheet, expected);
    let full = plan(
        &map_t(),
        &order,
        &[],
        &mut [7; LABEL_WORDS * 6 - 1],
        &mut sheet,
    );
    assert_eq!(full, refused(Refusal::Full, 5));
}

/// A second less than the break: a first and a second part at Lay.
#[test]
fn plans_a_split_break() {
    let order = order_with_parts(100_000, [900, 1_799]);
    let mut sheet = vec![0; 72];
    let planned = plan(&map_t(), &order, &[], &mut [7; LABEL_WORDS * 6], &mut sheet);
    assert_eq!(
        planned,
        Ok(Planned {
            labels: 6,
            arrival: 20_699
        })
    );
    let records = [
        [DRIVE, 1, 10_800],
        [FIRST_PART, 2, 11_700],
        [SECOND_PART, 2, 13_499],
        [DRIVE, 2, 20_699],
    ];
    let mut written = bytes_of(&[4, 20_699, 7_200, 18_000, 18_000, 6]);
    written.extend(bytes_of(&records.concat()));
    assert_eq!(sheet, written);
    let timed = Ok(Timed {
        moves: 4,
        arrival: 20_699,
    });
    assert_eq!(audit(&map_t(), &order, &[], &sheet), timed);
    let without_split = audit(&map_t(), &order_t(100_000), &[], &sheet);
    assert_eq!(without_split, refused(Refusal::ForeignMove, 2));
}

#[test]
fn latest_arrival_decides() {
    let planned = plan(
        &map_t(),
        &order_t(20_700),
        &[],
        &mut [0; LABEL_WORDS * 4],
        &mut [0; 60],
    );
    assert_eq!(
        planned,
        Ok(Planned {
            labels: 4,
            arrival: 20_700
        })
    );
    let late = plan(
        &map_t(),
        &order_t(20_699),
        &[],
        &mut [0; LABEL_WORDS * 4],
        &mut [0; 60],
    );
    assert_eq!(late, refused(Refusal::NoRoad, 3));
}

#[test]
fn three_labels_are_full() {
    let full = plan(
        &map_t(),
        &order_t(100_000),
        &[],
        &mut [0; LABEL_WORDS * 4 - 1],
        &mut [0; 60],
    );
    assert_eq!(full, refused(Refusal::Full, 3));
}

#[test]
fn no_label_space_and_no_sheet() {
    assert_eq!(
        plan(&map_t(), &order_t(100_000), &[], &mut [], &mut []),
        refused(Refusal::Full, 0)
    );
}

#[test]
fn a_short_sheet_stays() {
    let mut sheet = [0xEE; 59];
    let short = plan(
        &map_t(),
        &order_t(100_000),
        &[],
        &mut [0; LABEL_WORDS * 4],
        &mut sheet,
    );
    assert_eq!(short, refused(Refusal::ShortSheet, 60));
    assert_eq!(sheet, [0xEE; 59]);
}

#[test]
fn a_refusal_before_the_search_leaves_the_label_space() {
    let mut words = [7; LABEL_WORDS * 4];
    let bad = plan(
        &map_t(),
        &order_t(100_000)[..59],
        &[],
        &mut words,
        &mut [0; 60],
    );
    assert_eq!(bad, refused(Refusal::BadOrder, 59));
    assert_eq!(words, [7; LABEL_WORDS * 4]);
}

#[test]
fn retimes_and_audits_a_plan() {
    let timed = Ok(Timed {
        moves: 3,
        arrival: 20_700,
    });
    let true_sheet = planned_sheet();
    let mut false_sheet = true_sheet.clone();
    false_sheet[4] += 1; // arrival
    false_sheet[24 + 12 + 8] += 1; // the clock after move 2
    let mut out = vec![0; 60];
    assert_eq!(audit(&map_t(), &order_t(100_000), &[], &true_sheet), timed);
    assert_eq!(
        audit(&map_t(), &order_t(100_000), &[], &false_sheet),
        refused(Refusal::FalseFigure, 2)
    );
    assert_eq!(
        retime(&map_t(), &order_t(100_000), &[], &false_sheet, &mut out),
        timed
    );
    assert_eq!(out, true_sheet);
    assert_eq!(
        retime(
            &map_t(),
            &order_t(100_000),
            &[],
            &false_sheet,
            &mut out[..59]
        ),
        refused(Refusal::ShortSheet, 60)
    );
    for length in [23, 59] {
        assert_eq!(
            audit(&map_t(), &order_t(100_000), &[], &true_sheet[..length]),
            refused(Refusal::TornSheet, length as u64)
        );
    }
}

#[test]
fn names_are_parts_of_the_map() {
    let map = map_t();
    assert_eq!(name(&map, 1), Ok("Hub"));
    assert_eq!(name(&map, 2), Ok("Lay"));
    assert_eq!(
        name(&map, 3).unwrap().as_ptr(),
        map[map.len() - 3..].as_ptr()
    );
    assert_eq!(name(&map, 0), refused(Refusal::UnknownName, 0));
    assert_eq!(name(&map, 4), refused(Refusal::UnknownName, 4));
    assert_eq!(name(&map[..132], 1), refused(Refusal::Misfit, 133));
}

#[test]
fn checks_and_chains_maps() {
    let mut map = map_t();
    assert_eq!(check_map(&map), Ok(()));
    assert_eq!(check_map(&[]), refused(Refusal::ShortMap, 0));
    map[FIRST_ROAD_OF_HUB] = 3;
    map[NEXT_OF_ROAD_1] = 0;
    assert_eq!(check_map(&map), refused(Refusal::BrokenChain, 1));
    assert_eq!(make_chains(&mut map), Ok(()));
    assert_eq!(map, map_t());
    map[0] = 2;
    assert_eq!(make_chains(&mut map), refused(Refusal::StrangeMap, 0));
}

#[test]
fn checks_orders_without_a_map() {
    let order = order_t(100_000);
    assert_eq!(check_order(&order, &[], 3, 3), Ok(()));
    assert_eq!(check_order(&order, &[], u32::MAX, 3), Ok(()));
    assert_eq!(check_order(&[], &[], 3, 3), refused(Refusal::BadOrder, 0));
    assert_eq!(
        check_order(&order[..48], &[], 3, 3),
        refused(Refusal::BadOrder, 48)
    );
    assert_eq!(
        check_order(&order[..59], &[], 3, 3),
        refused(Refusal::BadOrder, 59)
    );
    assert_eq!(check_order(&order, &[], 2, 3), refused(Refusal::BadTrip, 1));
    assert_eq!(check_order(&order, &[], 0, 3), refused(Refusal::BadTrip, 0));
    let mut no_rest = european_order([0, 3], 100_000, [0, 0]);
    no_rest[36..40].fill(0);
    assert_eq!(
        check_order(&no_rest, &[], 3, 3),
        refused(Refusal::BadRules, 9)
    );
    for (parts, place) in [
        ([0, 1], 10),
        ([1, 0], 11),
        ([2_701, 1], 10),
        ([1, 2_701], 11),
    ] {
        let order = order_with_parts(100_000, parts);
        assert_eq!(
            check_order(&order, &[], 3, 3),
            refused(Refusal::BadRules, place)
        );
    }
    let european = order_with_parts(100_000, [900, 1_800]);
    assert_eq!(
        (european.len(), check_order(&european, &[], 3, 3)),
        (ORDER_BYTES, Ok(()))
    );
}

/// A map that is sound but for its counts, with as many name bytes as there may be and no fewer roads than junctions.
/// Its last roads, one from each junction to the next and from the last to the first, take a second; those before them
/// are too long for any driver.
fn ring_map(junctions: u32, roads: u32) -> Vec<u8> {
    let mut map = bytes_of(&[1, junctions, roads, MOST_NAME_BYTES as u32]);
    for junction in 1..=junctions {
        let first = (roads + junction - 1) % junctions + 1;
        map.extend(bytes_of(&[first, 0, 0, 1]));
    }
    for number in 1..=roads {
        let behind = roads - number;
        let from = junctions - behind % junctions;
        let next = if behind < junctions {
            0
        } else {
            number + junctions
        };
        let (metres, speed) = if behind < junctions {
            (1, 130)
        } else {
            (2_000_000, 5)
        };
        map.extend(bytes_of(&[from, from % junctions + 1, metres, speed, next]));
    }
    map.resize(map.len() + MOST_NAME_BYTES, b'n');
    map
}

/// The European order from 2 to 1.
fn ring_order() -> Vec<u8> {
    european_order([2, 1], 100_000, [0, 0])
}

/// Each junction of the largest map is a label, and the plan takes the ring's roads in turn; the last is the map's last.
#[test]
fn the_largest_map_passes_and_plans() {
    let mut map = ring_map(MOST_JUNCTIONS as u32, MOST_ROADS as u32);
    assert_eq!((map.len(), MOST_MAP_BYTES), (2_064_400, 2_064_400));
    assert_eq!(check_map(&map), Ok(()));
    let before = map.clone();
    assert_eq!(make_chains(&mut map), Ok(()));
    assert_eq!(map, before);
    assert_eq!(name(&map, 12_288), Ok("n"));
    let (order, mut sheet) = (ring_order(), vec![0; 24 + 12 * 12_287]);
    assert_eq!(
        plan(
            &map,
            &order,
            &[],
            &mut vec![7; LABEL_WORDS * 12_288],
            &mut sheet
        ),
        Ok(Planned {
            labels: 12_288,
            arrival: 12_287
        })
    );
    assert_eq!(
        sheet[sheet.len() - 12..],
        bytes_of(&[1, 40_960, 12_287])[..]
    );
    let timed = Ok(Timed {
        moves: 12_287,
        arrival: 12_287,
    });
    let mut out = vec![0; sheet.len()];
    assert_eq!(retime(&map, &order, &[], &sheet, &mut out), timed);
    assert_eq!(out, sheet);
    assert_eq!(audit(&map, &order, &[], &sheet), timed);
}

/// The ring's last road is the only one that leads to the target in time; all other junctions are reached.
#[test]
fn the_largest_map_is_previewed_and_struck() {
    let mut map = ring_map(MOST_JUNCTIONS as u32, MOST_ROADS as u32);
    let order = ring_order();
    let mut words = vec![7; LABEL_WORDS * 12_288];
    let none = refused(Refusal::NoRoad, 12_287);
    assert_eq!(
        preview(&map, &order, &[], 40_960, &mut words, &mut []),
        none
    );
    assert_eq!(
        strike(&mut map, 40_961),
        refused(Refusal::UnknownRoad, 40_961)
    );
    assert_eq!(strike(&mut map, 40_960), Ok(()));
    assert_eq!(check_map(&map), Ok(()));
    assert_eq!(plan(&map, &order, &[], &mut words, &mut []), none);
}

#[test]
fn one_junction_or_road_too_many_is_oversize() {
    for (junctions, roads, place) in [(12_289, 40_960, 4), (12_288, 40_961, 8)] {
        let mut map = ring_map(junctions, roads);
        let (mut words, mut sheet) = ([7; LABEL_WORDS], [0xEE; 24]);
        assert_eq!(
            plan(&map, &ring_order(), &[], &mut words, &mut sheet),
            refused(Refusal::Oversize, place)
        );
        assert_eq!((words, sheet), ([7; LABEL_WORDS], [0xEE; 24]));
        assert_eq!(check_map(&map), refused(Refusal::Oversize, place));
        let before = map.clone();
        assert_eq!(make_chains(&mut map), refused(Refusal::Oversize, place));
        assert_eq!(map, before);
    }
}

/// Who lends fewer than three numbers for the reply gets nothing changed.
#[test]
fn a_short_reply_changes_nothing() {
    let (map, order) = (map_t(), order_t(100_000));
    let (mut words, mut sheet, mut reply) = ([7; LABEL_WORDS * 4], [0xEE; 60], [9; 2]);
    unsafe {
        raw::trunk_plan(
            map.as_ptr(),
            map.len(),
            order.as_ptr(),
            order.len(),
            [].as_ptr(),
            0,
            words.as_mut_ptr(),
            words.len(),
            sheet.as_mut_ptr(),
            sheet.len(),
            reply.as_mut_ptr(),
            reply.len(),
        )
    };
    assert_eq!(
        (words, sheet, reply),
        ([7; LABEL_WORDS * 4], [0xEE; 60], [9; 2])
    );
}

/// The order check too: nothing where the reply is short, three numbers where it is longer.
#[test]
fn an_order_is_judged_into_the_reply_alone() {
    let (order, mut reply) = (order_t(100_000), [9; 4]);
    let mut judge = |room: usize| {
        let (bans, reply_at) = ([].as_ptr(), reply.as_mut_ptr());
        unsafe {
            raw::trunk_check_order(order.as_ptr(), order.len(), bans, 0, 2, 3, reply_at, room)
        };
        reply
    };
    assert_eq!(judge(2), [9; 4]);
    assert_eq!(judge(4), [11, 1, 0, 9]);
}

/// A reply longer than three keeps its rest; a part shorter than two stops the call.
#[test]
fn a_name_needs_room_for_its_place() {
    let map = map_t();
    let (mut reply, mut part) = ([9; 4], [9; 3]);
    unsafe {
        raw::trunk_name(
            map.as_ptr(),
            map.len(),
            2,
            reply.as_mut_ptr(),
            4,
            part.as_mut_ptr(),
            1,
        )
    };
    assert_eq!((reply, part), ([9; 4], [9; 3]));
    unsafe {
        raw::trunk_name(
            map.as_ptr(),
            map.len(),
            2,
            reply.as_mut_ptr(),
            4,
            part.as_mut_ptr(),
            3,
        )
    };
    assert_eq!((reply, part), ([0, 3, 0, 9], [127, 3, 9]));
    unsafe {
        raw::trunk_name(
            map.as_ptr(),
            map.len(),
            4,
            reply.as_mut_ptr(),
            4,
            part.as_mut_ptr(),
            3,
        )
    };
    assert_eq!((reply, part), ([20, 4, 0, 9], [0, 0, 9]));
}

/// All figures at their European limits.
const TIRED: Figures = figures([16_200, 32_400, 201_600], false);

const fn figures([spell, shift, week]: [u32; 3], marked: bool) -> Figures {
    Figures {
        spell,
        shift,
        week,
        marked,
    }
}

fn trace_of(records: &[(u32, u32)]) -> Vec<u8> {
    let words = |&(activity, seconds): &(u32, u32)| [activity, seconds];
    bytes_of(&records.iter().flat_map(words).collect::<Vec<u32>>())
}

/// What replaying answers, and the figures afterwards.
fn replayed(trace: &[u8], rules: Rules, before: Figures) -> (Result<u64, Refused>, Figures) {
    let mut figures = before;
    let answer = replay(trace, rules, &mut figures);
    (answer.map(|replayed| replayed.records), figures)
}

#[test]
fn a_day_is_replayed() {
    let mut day = vec![
        (OTHER_WORK, 1_800),
        (DRIVING, 16_200),
        (PAUSE, 1_500),
        (PAUSE, 1_200),
        (DRIVING, 9_000),
    ];
    let after = |wheel| figures(wheel, false);
    let fresh = Figures::default();
    let european = |day: &[(u32, u32)]| replayed(&trace_of(day), Rules::european(), fresh);
    assert_eq!(european(&day), (Ok(5), after([9_000, 25_200, 25_200])));
    day.push((PAUSE, 39_599));
    assert_eq!(european(&day), (Ok(6), after([0, 25_200, 25_200])));
    day.push((PAUSE, 1));
    assert_eq!(european(&day), (Ok(7), after([0, 0, 25_200])));
    day.push((PAUSE, 162_000 - 39_600 - 1));
    assert_eq!(european(&day), (Ok(8), after([0, 0, 25_200])));
    day.push((PAUSE, 1));
    assert_eq!(european(&day), (Ok(9), after([0, 0, 0])));
    assert_eq!(
        replayed(&[], Rules::european(), TIRED),
        (Ok(0), TIRED),
        "an empty trace"
    );
}

#[test]
fn other_work_ends_a_pause() {
    let apart = trace_of(&[(PAUSE, 2_699), (OTHER_WORK, 1), (PAUSE, 2_699)]);
    let no_split = Rules {
        first_part: 0,
        second_part: 0,
        ..Rules::european()
    };
    assert_eq!(replayed(&apart, no_split, TIRED), (Ok(3), TIRED));
    let broken = figures([0, 32_400, 201_600], false);
    assert_eq!(replayed(&apart, Rules::european(), TIRED), (Ok(3), broken));
}

#[test]
fn a_pause_is_judged_whole_with_the_mark_before_it() {
    let european = |records: &[(u32, u32)], marked| {
        let (answer, after) = replayed(
            &trace_of(records),
            Rules::european(),
            figures([15, 20, 25], marked),
        );
        assert_eq!(answer, Ok(records.len() as u64));
        after
    };
    let (unmarked, marked, broken) = (
        figures([15, 20, 25], false),
        figures([15, 20, 25], true),
        figures([0, 20, 25], false),
    );
    assert_eq!(european(&[(PAUSE, 899)], false), unmarked);
    assert_eq!(european(&[(PAUSE, 900)], false), marked);
    assert_eq!(european(&[(PAUSE, 900), (PAUSE, 900)], false), marked);
    assert_eq!(
        european(&[(PAUSE, 900), (OTHER_WORK, 1), (PAUSE, 1_800)], false),
        broken
    );
    assert_eq!(european(&[(PAUSE, 1_799)], true), marked);
    assert_eq!(european(&[(PAUSE, 1_000), (PAUSE, 800)], true), broken);
    assert_eq!(european(&[(PAUSE, 2_700)], true), broken);
    assert_eq!(european(&[(DRIVING, 5)], true), figures([20, 25, 30], true));
}

/// 4,294,967,296 seconds of pause, which 32 bits would take for none.
#[test]
fn a_pause_may_be_longer_than_a_word() {
    let mut pauses = vec![(PAUSE, 1_000_000); 4_294];
    pauses.push((PAUSE, 967_296));
    assert_eq!(
        replayed(&trace_of(&pauses), Rules::european(), TIRED),
        (Ok(4_295), Figures::default())
    );
}

#[test]
fn a_refused_trace_leaves_the_figures() {
    let weekly_then = |record| trace_of(&[(PAUSE, 162_000), record]);
    let torn = weekly_then((PAUSE, 1))[..15].to_vec();
    let cases = [
        (weekly_then((DRIVING, 16_201)), Refusal::PastLimit, 2),
        (weekly_then((DRIVING, 1_000_001)), Refusal::OddRecord, 2),
        (weekly_then((PAUSE, 0)), Refusal::OddRecord, 2),
        (weekly_then((257, 1)), Refusal::OddRecord, 2),
        (torn, Refusal::TornTrace, 15),
    ];
    for (trace, refusal, place) in cases {
        for marked in [false, true] {
            let before = Figures { marked, ..TIRED };
            assert_eq!(
                replayed(&trace, Rules::european(), before),
                (refused(refusal, place), before)
            );
        }
    }
}

/// Judged as an order's words, before the trace.
#[test]
fn rules_and_figures_come_first() {
    let no_rest = Rules {
        rest_time: 0,
        ..Rules::european()
    };
    let spell_above_shift = figures([2, 1, 1], true);
    assert_eq!(
        replayed(&[0], no_rest, spell_above_shift),
        (refused(Refusal::BadRules, 9), spell_above_shift)
    );
    assert_eq!(
        replayed(&[0], Rules::european(), spell_above_shift),
        (refused(Refusal::BadTrip, 5), spell_above_shift)
    );
    let above_its_limit = figures([16_201, 16_201, 16_201], true);
    let lone_zero = Rules {
        first_part: 0,
        ..Rules::european()
    };
    assert_eq!(
        replayed(&[0], lone_zero, spell_above_shift),
        (refused(Refusal::BadRules, 10), spell_above_shift)
    );
    assert_eq!(
        replayed(&[0], Rules::european(), above_its_limit),
        (refused(Refusal::BadTrip, 4), above_its_limit)
    );
}

/// Calls the library with so many of these rule words, figure words and numbers for the reply.
fn replayed_raw(trace: &[u8], counts: [usize; 3], before: [u32; 5]) -> ([u32; 5], [u64; 4]) {
    let rules = [
        16_200, 2_700, 32_400, 39_600, 900, 1_800, 201_600, 162_000, 0,
    ];
    let (mut figures, mut reply) = (before, [9; 4]);
    let [rule_count, figure_count, reply_count] = counts;
    unsafe {
        raw::trunk_replay(
            trace.as_ptr(),
            trace.len(),
            rules.as_ptr(),
            rule_count,
            figures.as_mut_ptr(),
            figure_count,
            reply.as_mut_ptr(),
            reply_count,
        )
    };
    (figures, reply)
}

/// With too little room for rules, figures or reply nothing is written; words behind them are not read and stay.
#[test]
fn a_replay_needs_room_for_rules_and_figures() {
    let trace = trace_of(&[(DRIVING, 9)]);
    let before = [5, 7, 8, 1, u32::MAX];
    let done = ([14, 16, 17, 1, u32::MAX], [0, 1, 0, 9]);
    for counts in [[8, 4, 3], [8, 4, 4], [9, 4, 3], [8, 5, 3], [9, 5, 4]] {
        assert_eq!(replayed_raw(&trace, counts, before), done);
    }
    for counts in [[7, 4, 3], [8, 3, 3], [8, 4, 2], [6, 3, 3], [0, 0, 0]] {
        assert_eq!(replayed_raw(&trace, counts, before), (before, [9; 4]));
    }
}

/// Any number but 0 is a mark. A success tells it as 1, a refusal leaves the number.
#[test]
fn a_mark_is_any_number_but_0() {
    let first_part = trace_of(&[(PAUSE, 900)]);
    let second_part = trace_of(&[(PAUSE, 1_800)]);
    let past_limit = trace_of(&[(DRIVING, 16_201)]);
    for mark in [1, 2, 256, u32::MAX] {
        let before = [5, 7, 9, mark, 8];
        let after = |trace: &[u8]| replayed_raw(trace, [8, 4, 3], before).0;
        assert_eq!(after(&[]), [5, 7, 9, 1, 8]);
        assert_eq!(after(&first_part), [5, 7, 9, 1, 8]);
        assert_eq!(after(&second_part), [0, 7, 9, 0, 8]);
        assert_eq!(after(&past_limit), before);
    }
}
