//! The week: its three words of an order, the weekly rest in plans and kept sheets, and in replayed traces.
use super::*;

const WEEK_LIMIT: usize = 12;
const WEEKLY_REST_TIME: usize = 13;
const WEEK: usize = 14;
const WEEK_ON_SHEET: usize = 16;

/// The European order from 1 to 3, without a split, with these words changed.
fn order_with(latest: u32, changes: &[(usize, u32)]) -> Vec<u8> {
    let mut order = order_t(latest);
    for &(number, word) in changes {
        order[4 * number..][..4].copy_from_slice(&word.to_le_bytes());
    }
    order
}

fn planned(labels: u64, arrival: u64) -> Result<Planned, Refused> {
    Ok(Planned { labels, arrival })
}

#[test]
fn judges_the_words_of_the_week() {
    let judged = |changes: &[(usize, u32)]| check_order(&order_with(100_000, changes), &[], 3, 3);
    let accepted: [&[(usize, u32)]; 5] = [
        &[(WEEK_LIMIT, 32_400)],
        &[(WEEK_LIMIT, 1_000_000)],
        &[(WEEKLY_REST_TIME, 39_600)],
        &[(WEEKLY_REST_TIME, 1_000_000)],
        &[(WEEK, 201_600)],
    ];
    for changes in accepted {
        assert_eq!(judged(changes), Ok(()));
    }
    for (word, outside) in [
        (WEEK_LIMIT, [32_399, 1_000_001]),
        (WEEKLY_REST_TIME, [39_599, 1_000_001]),
    ] {
        for figure in outside {
            assert_eq!(
                judged(&[(word, figure)]),
                refused(Refusal::BadRules, word as u64)
            );
        }
    }
    let bad_week = refused(Refusal::BadTrip, WEEK as u64);
    assert_eq!(judged(&[(WEEK, 201_601)]), bad_week);
    assert_eq!(judged(&[(5, 1)]), bad_week, "below shift");
    assert_eq!(judged(&[(5, 1), (WEEK, 1)]), Ok(()));
    assert_eq!(
        judged(&[(5, 32_401), (WEEK, 201_601)]),
        refused(Refusal::BadTrip, 5)
    );
    assert_eq!(
        judged(&[(0, 0), (WEEKLY_REST_TIME, 0), (WEEK, 201_601)]),
        refused(Refusal::BadRules, 13)
    );
}

/// T takes 18,000 seconds of driving, the last 7,200 from the car park on.
#[test]
fn the_week_decides_between_break_and_weekly_rest() {
    let (mut words, mut sheet) = ([7; LABEL_WORDS * 6], vec![0; 60]);
    let mut answer = |week: u32, latest: u32| {
        let order = order_with(latest, &[(WEEK, week)]);
        let answer = plan(&map_t(), &order, &[], &mut words, &mut sheet);
        (answer, sheet.clone())
    };
    let fits = bytes_of(&[
        3, 20_700, 7_200, 18_000, 201_600, 4, // header
        DRIVE, 1, 10_800, BREAK, 2, 13_500, DRIVE, 2, 20_700, // records
    ]);
    assert_eq!(answer(183_600, 200_000), (planned(4, 20_700), fits));
    let weekly = bytes_of(&[
        3,
        180_000,
        7_200,
        7_200,
        7_200,
        6, // header
        DRIVE,
        1,
        10_800,
        WEEKLY_REST,
        2,
        172_800,
        DRIVE,
        2,
        180_000, // records
    ]);
    for latest in [180_000, 200_000] {
        let expected = (planned(6, 180_000), weekly.clone());
        assert_eq!(answer(183_601, latest), expected);
    }
    let (late, _) = answer(183_601, 179_999);
    assert_eq!(late, refused(Refusal::NoRoad, 5));
    let (worn_out, _) = answer(190_801, 200_000);
    assert_eq!(worn_out, refused(Refusal::NoRoad, 1), "not even to Lay");
}

/// In place of the break a rest or a weekly rest: only this one brings the week below its limit.
#[test]
fn a_kept_sheet_is_held_against_the_week() {
    let order = order_with(200_000, &[(WEEK, 183_601)]);
    let mut sheet = vec![0; 60];
    plan(&map_t(), &order, &[], &mut [7; LABEL_WORDS * 6], &mut sheet).unwrap();
    let timed = Ok(Timed {
        moves: 3,
        arrival: 180_000,
    });
    assert_eq!(audit(&map_t(), &order, &[], &sheet), timed);

    let mut false_week = sheet.clone();
    false_week[WEEK_ON_SHEET] += 1;
    let header = refused(Refusal::FalseFigure, 4);
    assert_eq!(audit(&map_t(), &order, &[], &false_week), header);
    let mut out = vec![0; 60];
    assert_eq!(retime(&map_t(), &order, &[], &false_week, &mut out), timed);
    assert_eq!(out, sheet);

    let mut rested = sheet.clone();
    rested[SHEET_HEADER_BYTES + SHEET_RECORD_BYTES] = REST as u8;
    let overrun = refused(Refusal::Overrun, 3);
    assert_eq!(retime(&map_t(), &order, &[], &rested, &mut out), overrun);
    let mut unknown_kind = sheet;
    unknown_kind[SHEET_HEADER_BYTES + SHEET_RECORD_BYTES] = 7;
    let foreign = refused(Refusal::ForeignMove, 2);
    assert_eq!(
        retime(&map_t(), &order, &[], &unknown_kind, &mut out),
        foreign
    );
}

#[test]
fn a_trace_takes_the_week_past_its_limit() {
    let rest_then = |seconds| trace_of(&[(PAUSE, 39_600), (DRIVING, seconds)]);
    let before = figures([9_000, 25_200, 200_000], true);
    let european = |trace: &[u8]| replayed(trace, Rules::european(), before);
    assert_eq!(
        european(&rest_then(1_600)),
        (Ok(2), figures([1_600, 1_600, 201_600], false))
    );
    assert_eq!(
        european(&rest_then(1_601)),
        (refused(Refusal::PastLimit, 2), before)
    );
    let weekly_then = trace_of(&[(PAUSE, 162_000), (DRIVING, 1_601)]);
    assert_eq!(
        european(&weekly_then),
        (Ok(2), figures([1_601, 1_601, 1_601], false))
    );
}

/// Words 12 to 14, judged as in an order, before the trace.
#[test]
fn the_week_of_a_replay_is_judged_as_an_orders() {
    let torn = &[0];
    let european = Rules::european();
    let short_week = Rules {
        week_limit: 32_399,
        ..european
    };
    let short_rest = Rules {
        weekly_rest: 39_599,
        ..european
    };
    for (rules, place) in [(short_week, 12), (short_rest, 13)] {
        let before = figures([2, 1, 0], false);
        let bad_rules = refused(Refusal::BadRules, place);
        assert_eq!(replayed(torn, rules, before), (bad_rules, before));
    }
    for (wheel, place) in [
        ([2, 1, 0], 5),
        ([1, 2, 1], 14),
        ([1, 2, 201_601], 14),
        ([0, 32_401, 201_601], 5),
    ] {
        let before = figures(wheel, true);
        let bad_trip = refused(Refusal::BadTrip, place);
        assert_eq!(replayed(torn, european, before), (bad_trip, before));
    }
}
