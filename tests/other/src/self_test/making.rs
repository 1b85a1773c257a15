//! The generator, the practice maps and the laws.

use std::collections::BTreeSet;

use crate::case_probes::ample_plan;
use crate::compare::marks;
use crate::equal_clocks;
use crate::laws::obeyed;
use crate::lettering;
use crate::make::practice::{draw, practice_map, USUAL_START};
use crate::make::{case, Case};
use crate::mapcheck::check_map;
use crate::moves::{Document, State, Trip};
use crate::operations::DOCUMENT;
use crate::planning::{reachable_states, undominated};
use crate::probe::{answer, Probe};
use crate::reply::{Reply, BAD_JUNCTION, BAD_LETTERING, NO_ROAD};
use crate::sheet::sheet_bytes;
use crate::special;
use crate::words::word;
use crate::wrong::{wrong_copies, WrongCopy};

const SEED: u64 = 1;
const CASES: u64 = 300;

fn cases() -> impl Iterator<Item = Case> {
    (1..=CASES).map(|number| case(SEED, number))
}

pub fn practice_maps() {
    assert_eq!(draw(&mut USUAL_START.clone()), 723_471_715);
    let single = practice_map(1, USUAL_START);
    assert_eq!(single.names, b"J1");
    assert!(single
        .roads
        .iter()
        .all(|road| (road.from, road.to) == (1, 1)));
    for junctions in [1, 2, 9, 10, 100, 12_288] {
        let map = practice_map(junctions, USUAL_START);
        let bytes = map.bytes();
        assert_eq!(check_map(&bytes), Reply::success(0, 0));
        assert_eq!(
            bytes.len() as u64,
            16 + 56 * junctions + map.names.len() as u64
        );
        let mut linked = map.clone();
        linked.link_chains();
        assert_eq!(linked, map);
    }
    let largest = practice_map(12_288, USUAL_START);
    assert_eq!(
        (largest.names.len(), largest.bytes().len()),
        (62_622, 750_766)
    );
}

/// Both runs are accepted, and B has all that A has, but for bans: of those it has no others.
pub fn pairs_make_nothing_worse() {
    for case in cases() {
        let Some(easier) = &case.easier else {
            continue;
        };
        let a = Trip::open(&case.run.map, &case.run.order, &case.run.bans).expect("accepted");
        let b = Trip::open(&easier.map, &easier.order, &easier.bans).expect("accepted");
        for (one, other) in a.map.roads.iter().zip(&b.map.roads) {
            assert_eq!((one.from, one.to), (other.from, other.to));
            assert!(other.time() <= one.time());
        }
        for (one, other) in a.map.junctions.iter().zip(&b.map.junctions) {
            assert!(other.car_park >= one.car_park);
        }
        assert!(b.bans.iter().all(|banned| a.bans.contains(banned)));
        let (a, b) = (a.order.words(), b.order.words());
        assert_eq!(a[..4], b[..4]);
        let no_higher = [4, 5, 7, 9, 13, 14];
        assert!(no_higher.iter().all(|number| b[*number] <= a[*number]));
        assert!([6, 8, 12].iter().all(|number| b[*number] >= a[*number]));
        let split = |words: &[u64; 15]| words[10] != 0;
        assert!(!split(&a) || split(&b) && b[10] <= a[10] && b[11] <= a[11]);
    }
}

/// The definition itself: each state is held against every reachable one.
fn undominated_by_pairs(reachable: &BTreeSet<State>) -> Vec<State> {
    let dominated = |state: &State| reachable.iter().any(|other| other.dominates(state));
    reachable
        .iter()
        .filter(|state| !dominated(state))
        .copied()
        .collect()
}

pub fn dominance_by_pairs_agrees() {
    for case in cases() {
        if let Ok(trip) = Trip::open(&case.run.map, &case.run.order, &case.run.bans) {
            let reachable = reachable_states::<Document>(&trip);
            let expected = undominated_by_pairs(&reachable);
            assert_eq!(undominated::<Document>(&reachable), expected);
        }
    }
}

pub fn plans_pass_their_audit() {
    for (number, case) in (1..).zip(cases()) {
        let run = &case.run;
        let seen = answer(&DOCUMENT, &ample_plan(&mut marks(SEED, number), run));
        if seen.reply.number != 0 {
            continue;
        }
        let moves = word(&seen.written, 0);
        let plan = &seen.written[..sheet_bytes(moves as usize)];
        let audited = (DOCUMENT.audit)(&run.map, &run.order, &run.bans, plan);
        assert_eq!(audited, Reply::success(moves, seen.reply.arrival));
    }
}

/// Wrong copies that the laws alone must find, without a second implementation.
const UNLAWFUL: [&str; 20] = [
    "full-when-just-enough",
    "invented-count",
    "sheet-unwritten",
    "pauses-joined-across-work",
    "refused-trace-half-replayed",
    "pause-at-the-end-unjudged",
    "lent-mark-ignored",
    "mark-not-handed-back",
    "lent-week-ignored",
    "week-not-handed-back",
    "strike-moves-the-other-end",
    "preview-of-the-open-map",
    "preview-strikes-the-lent-map",
    "preview-of-an-undriven-road-is-the-plan",
    "preview-counts-the-open-labels",
    "list-ignored-in-previews",
    "roads-not-listed-banned-in-plans",
    "equal-neighbours-accepted",
    "bad-bans-behind-full",
    "bad-bans-behind-a-torn-sheet",
];

pub fn laws_notice_wrong_copies() {
    let copies = wrong_copies();
    for name in UNLAWFUL {
        let is_named = |copy: &&WrongCopy| copy.name == name;
        let copy = copies.iter().find(is_named).expect(name);
        let unnoticed = (1..)
            .zip(cases())
            .filter(|(_, case)| case.easier.is_some())
            .all(|(number, case)| {
                obeyed(&copy.operations, &case, &mut marks(SEED, number)).is_ok()
            });
        assert!(!unnoticed, "{name}");
    }
}

pub fn special_calls_have_the_replies_meant() {
    let replies: Vec<(&str, u64, u64)> = special::probes()
        .iter()
        .map(|probe| (probe.operation(), answer(&DOCUMENT, probe).reply))
        .map(|(operation, reply)| (operation, reply.number, reply.place))
        .collect();
    let longest = 24 + 12 * 1_000_000;
    let expected = [
        ("make chains", 0, 0),
        ("strike", 0, 0),
        ("preview", 0, 3),
        ("name", 0, 32),
        ("plan", 0, 3),
        ("check map", 0, 0),
        ("check map", 7, 40_960),
        ("check map", 8, 2_064_399),
        ("check map", 3, 4),
        ("make chains", 3, 4),
        ("strike", 3, 4),
        ("plan", 3, 4),
        ("preview", 3, 4),
        ("check map", 3, 8),
        ("make chains", 3, 8),
        ("strike", 3, 8),
        ("plan", 3, 8),
        ("preview", 3, 8),
        ("check order", 0, 0),
        ("check order", 25, 40_960),
        ("plan", 0, 3),
        ("retime", 0, 999_999),
        ("audit", 0, 999_999),
        ("retime", 15, longest),
        ("audit", 15, longest),
        ("plan", 0, 1),
        ("check map", 7, 1),
        ("replay", 0, 0),
        ("replay", 0, 4_296),
        ("replay", 0, 204_000),
        ("replay", 23, 204_000),
    ];
    assert_eq!(replies[..expected.len()], expected);
    let (operation, number, labels) = replies[expected.len()];
    assert_eq!((operation, number), ("plan", 0));
    assert!(labels > 8);
}

pub fn letterings_have_a_bad_byte_at_every_place() {
    let mut found = BTreeSet::new();
    for probe in lettering::probes() {
        if let Probe::CheckMap { map } = &probe {
            let name_bytes = word(map, 12) as usize;
            let reply = answer(&DOCUMENT, &probe).reply;
            let place = reply.place.checked_sub((map.len() - name_bytes) as u64);
            found.insert((name_bytes, reply.number, place));
        }
    }
    assert!(found.contains(&(0, BAD_JUNCTION, None)));
    for length in lettering::LENGTHS {
        assert!(found.contains(&(length, 0, None)));
        for place in 0..length as u64 {
            assert!(found.contains(&(length, BAD_LETTERING, Some(place))));
        }
    }
    for place in lettering::LONG - 20..lettering::LONG {
        assert!(found.contains(&(lettering::LONG, BAD_LETTERING, Some(place as u64))));
    }
}

/// Number and arrival of each, rested and tired, without a split and with one. Behind them are the first with
/// a road closed, and on a Sunday: there all roads open at 165,600, three roads after the departure, when a break
/// at the source, as long as six, has three roads to go. There are no more than 17 clocks for the labels to have, since pauses take as long
/// as some roads.
pub fn equal_clocks_have_the_replies_meant() {
    const TOO_FAR: (u64, u64) = (NO_ROAD, 0);
    let near = [(0, 8 * 450), (0, (8 + 6) * 450)];
    let just_met = [(0, 16 * 450), TOO_FAR];
    let round_the_edge = [(0, 9 * 450), (0, (9 + 6) * 450)];
    let far = [TOO_FAR; 2];
    let planned = [near, just_met, round_the_edge, far].map(|pair| pair.repeat(2));
    let replies: Vec<Reply> = equal_clocks::probes()
        .iter()
        .map(|probe| answer(&DOCUMENT, probe).reply)
        .collect();
    let told: Vec<(u64, u64)> = replies
        .iter()
        .map(|reply| (reply.number, reply.arrival))
        .collect();
    let opens = 165_600;
    let on_sunday = vec![(0, opens + 8 * 450), (0, opens + (3 + 8) * 450)];
    assert_eq!(told, [planned.concat(), near.into(), on_sunday].concat());
    let counts: Vec<u64> = replies.iter().map(|reply| reply.place).collect();
    assert!(counts.iter().all(|count| *count > 100));
    let closed = &counts[counts.len() - 2 * near.len()..counts.len() - near.len()];
    assert!(closed
        .iter()
        .zip(&counts)
        .all(|(closed, open)| closed < open));
}
