//! Wrong copies of ban lists: how they are read, how they are judged, and refusal 25 beside the others.

use super::shared::*;
use super::{right_plan, WrongCopy};
use crate::bans::accepted_bans;
use crate::moves::{Document, Trip};
use crate::operations::{Operations, DOCUMENT};
use crate::order::check_order;
use crate::planning::WORDS_OF_A_LABEL;
use crate::reply::*;
use crate::retiming::{audit, retime};
use crate::sheet::Sheet;
use crate::striking::preview;
use crate::words::word;

pub fn copies() -> Vec<WrongCopy> {
    let mut copies = list_copies();
    copies.extend(judge_copies());
    copies.extend(place_copies());
    copies
}

/// How a copy reads a list that passes.
trait Reader {
    fn read(bans: &[u32], roads: u32) -> Vec<u32>;
}

fn read_as<R: Reader>(map: &[u8], order: &[u8], bans: &[u32]) -> Vec<u32> {
    match Trip::open(map, order, bans) {
        Ok(trip) => R::read(bans, trip.map.roads.len() as u32),
        Err(_) => bans.to_vec(),
    }
}

fn plan_reading<R: Reader>(
    map: &[u8],
    order: &[u8],
    bans: &[u32],
    labels: &mut [u32],
    sheet: &mut [u8],
) -> Reply {
    right_plan(map, order, &read_as::<R>(map, order, bans), labels, sheet)
}

fn preview_reading<R: Reader>(
    map: &mut [u8],
    order: &[u8],
    bans: &[u32],
    road: u32,
    labels: &mut [u32],
    sheet: &mut [u8],
) -> Reply {
    let read = read_as::<R>(map, order, bans);
    preview(map, order, &read, road, labels, sheet)
}

fn retime_reading<R: Reader>(
    map: &[u8],
    order: &[u8],
    bans: &[u32],
    sheet: &[u8],
    out: &mut [u8],
) -> Reply {
    retime::<Document>(map, order, &read_as::<R>(map, order, bans), sheet, out)
}

fn audit_reading<R: Reader>(map: &[u8], order: &[u8], bans: &[u32], sheet: &[u8]) -> Reply {
    audit::<Document>(map, order, &read_as::<R>(map, order, bans), sheet)
}

/// A wrong reading in each call alone.
macro_rules! in_each_call {
    ($($reader:ident: $name:literal),* $(,)?) => {
        vec![$(
            with_plan(concat!($name, "-in-plans"), plan_reading::<$reader>),
            with_preview(concat!($name, "-in-previews"), preview_reading::<$reader>),
            with_retime(concat!($name, "-in-retiming"), retime_reading::<$reader>),
            with_audit(concat!($name, "-in-audits"), audit_reading::<$reader>),
        )*]
    };
}

fn list_copies() -> Vec<WrongCopy> {
    in_each_call![
        Ignored: "list-ignored",
        FirstUnseen: "first-listed-road-open",
        LastUnseen: "last-listed-road-open",
        FromNought: "listed-roads-counted-from-0",
        Reversed: "roads-not-listed-banned",
    ]
}

macro_rules! read_otherwise {
    ($reader:ident, |$bans:ident, $roads:ident| $read:expr) => {
        struct $reader;

        impl Reader for $reader {
            fn read($bans: &[u32], $roads: u32) -> Vec<u32> {
                $read
            }
        }
    };
}

read_otherwise!(Ignored, |_bans, _roads| Vec::new());
read_otherwise!(FirstUnseen, |bans, _roads| bans
    .iter()
    .skip(1)
    .copied()
    .collect());
read_otherwise!(LastUnseen, |bans, _roads| {
    bans[..bans.len().saturating_sub(1)].to_vec()
});
read_otherwise!(FromNought, |bans, roads| {
    let next = bans.iter().map(|number| number + 1);
    next.filter(|number| *number <= roads).collect()
});
read_otherwise!(Reversed, |bans, roads| {
    (1..=roads)
        .filter(|number| !bans.contains(number))
        .collect()
});

/// How a copy judges a list: the place that it tells, if it refuses.
trait Judge {
    fn place(bans: &[u32], roads: u32) -> Option<usize>;
}

fn judged<J: Judge>(bans: &[u32], roads: u32) -> Result<(), Reply> {
    match J::place(bans, roads) {
        Some(place) => Err(Reply::refused(BAD_BANS, place as u64)),
        None => Ok(()),
    }
}

fn checked<J: Judge>(order: &[u8], bans: &[u32], junctions: u32, roads: u32) -> Reply {
    let reply = check_order(order, &[], junctions, roads);
    match reply.number {
        0 => told(judged::<J>(bans, roads).map(|()| reply)),
        _ => reply,
    }
}

/// A list that is wrongly accepted is planned with as if its faults were not there.
fn planned<J: Judge>(
    map: &[u8],
    order: &[u8],
    bans: &[u32],
    labels: &mut [u32],
    sheet: &mut [u8],
) -> Reply {
    let Ok(trip) = Trip::open(map, order, &[]) else {
        return right_plan(map, order, bans, labels, sheet);
    };
    let roads = trip.map.roads.len() as u32;
    let sound = (1..=roads).filter(|number| bans.contains(number));
    match judged::<J>(bans, roads) {
        Ok(()) => right_plan(map, order, &sound.collect::<Vec<u32>>(), labels, sheet),
        Err(refused) => refused,
    }
}

macro_rules! in_checks_and_plans {
    ($($judge:ident: $name:literal),* $(,)?) => {
        vec![$(
            checking($name, checked::<$judge>),
            with_plan(concat!($name, "-in-plans"), planned::<$judge>),
        )*]
    };
}

fn judge_copies() -> Vec<WrongCopy> {
    in_checks_and_plans![
        EqualAccepted: "equal-neighbours-accepted",
        FallingAccepted: "falling-list-accepted",
        ZeroAccepted: "road-0-banned",
        AboveAccepted: "road-above-the-last-banned",
        LastRefused: "ban-of-the-last-road-refused",
        EmptyRefused: "empty-list-refused",
        LastUnjudged: "last-number-unjudged",
        PlaceFrom0: "place-in-the-list-from-0",
        PlaceIsNumber: "place-is-the-number-listed",
        LastFault: "place-of-the-last-fault",
        RangeFirst: "range-judged-before-rising",
    ]
}

/// Whether the number at this index, from 0, is out of range; and whether it is not above the one before.
fn faults(bans: &[u32], roads: u32, index: usize) -> (bool, bool) {
    let is_outside = !(1..=roads).contains(&bans[index]);
    (is_outside, index > 0 && bans[index] <= bans[index - 1])
}

/// The place of the first index that is bad.
fn first(bans: &[u32], mut is_bad: impl FnMut(usize) -> bool) -> Option<usize> {
    (0..bans.len())
        .find(|index| is_bad(*index))
        .map(|index| index + 1)
}

fn right_place(bans: &[u32], roads: u32) -> Option<usize> {
    let refused = accepted_bans(bans, roads.into()).err()?;
    Some(refused.place as usize)
}

macro_rules! judged_otherwise {
    ($judge:ident, |$bans:ident, $roads:ident| $place:expr) => {
        struct $judge;

        impl Judge for $judge {
            fn place($bans: &[u32], $roads: u32) -> Option<usize> {
                $place
            }
        }
    };
}

judged_otherwise!(EqualAccepted, |bans, roads| first(bans, |index| {
    let (is_outside, is_low) = faults(bans, roads, index);
    is_outside || is_low && bans[index] < bans[index - 1]
}));
judged_otherwise!(FallingAccepted, |bans, roads| first(bans, |index| {
    faults(bans, roads, index).0
}));
judged_otherwise!(ZeroAccepted, |bans, roads| first(bans, |index| {
    let (is_outside, is_low) = faults(bans, roads, index);
    is_low || is_outside && bans[index] > 0
}));
judged_otherwise!(AboveAccepted, |bans, roads| first(bans, |index| {
    let (is_outside, is_low) = faults(bans, roads, index);
    is_low || is_outside && bans[index] == 0
}));
judged_otherwise!(LastRefused, |bans, roads| {
    right_place(bans, roads.saturating_sub(1))
});
judged_otherwise!(EmptyRefused, |bans, roads| match bans.len() {
    0 => Some(1),
    _ => right_place(bans, roads),
});
judged_otherwise!(LastUnjudged, |bans, roads| {
    right_place(&bans[..bans.len().saturating_sub(1)], roads)
});
judged_otherwise!(PlaceFrom0, |bans, roads| Some(
    right_place(bans, roads)? - 1
));
judged_otherwise!(PlaceIsNumber, |bans, roads| {
    Some(bans[right_place(bans, roads)? - 1] as usize)
});
judged_otherwise!(LastFault, |bans, roads| {
    let is_bad = |index: &usize| faults(bans, roads, *index) != (false, false);
    Some((0..bans.len()).rfind(is_bad)? + 1)
});
judged_otherwise!(RangeFirst, |bans, roads| {
    let outside = first(bans, |index| faults(bans, roads, index).0);
    outside.or(right_place(bans, roads))
});

/// Refusal 25 before others or behind them, or not at all.
fn place_copies() -> Vec<WrongCopy> {
    let mut copies = check_place_copies().to_vec();
    copies.extend(plan_place_copies());
    copies.extend(timed_place_copies());
    copies.extend(preview_place_copies());
    copies
}

fn check_place_copies() -> [WrongCopy; 4] {
    [
        checking(
            "bad-bans-before-the-trip",
            |order, bans, junctions, roads| {
                let reply = check_order(order, bans, junctions, roads);
                bans_before(BAD_TRIP, bans, roads, reply)
            },
        ),
        checking(
            "bad-bans-before-the-rules",
            |order, bans, junctions, roads| {
                let reply = check_order(order, bans, junctions, roads);
                bans_before(BAD_RULES, bans, roads, reply)
            },
        ),
        checking("list-unjudged-in-checks", |order, _, junctions, roads| {
            check_order(order, &[], junctions, roads)
        }),
        checking(
            "list-judged-by-the-junctions",
            |order, bans, junctions, _| check_order(order, bans, junctions, junctions),
        ),
    ]
}

fn plan_place_copies() -> [WrongCopy; 3] {
    [
        with_plan(
            "bad-bans-before-the-trip-in-plans",
            |map, order, bans, labels, sheet| {
                bans_before_the_trip(map, bans, right_plan(map, order, bans, labels, sheet))
            },
        ),
        with_plan("bad-bans-behind-full", |map, order, bans, labels, sheet| {
            let reply = right_plan(map, order, bans, labels, sheet);
            full_before_bans(labels.len(), reply)
        }),
        with_plan(
            "bad-bans-touch-labels",
            |map, order, bans, labels, sheet| {
                let reply = right_plan(map, order, bans, labels, sheet);
                touching(labels, reply)
            },
        ),
    ]
}

fn timed_place_copies() -> [WrongCopy; 2] {
    [
        WrongCopy {
            name: "bad-bans-before-the-trip-timed",
            operations: Operations {
                retime: |map, order, bans, sheet, out| {
                    let reply = retime::<Document>(map, order, bans, sheet, out);
                    bans_before_the_trip(map, bans, reply)
                },
                audit: |map, order, bans, sheet| {
                    let reply = audit::<Document>(map, order, bans, sheet);
                    bans_before_the_trip(map, bans, reply)
                },
                ..DOCUMENT
            },
        },
        WrongCopy {
            name: "bad-bans-behind-a-torn-sheet",
            operations: Operations {
                retime: |map, order, bans, sheet, out| {
                    torn_before_bans(sheet, retime::<Document>(map, order, bans, sheet, out))
                },
                audit: |map, order, bans, sheet| {
                    torn_before_bans(sheet, audit::<Document>(map, order, bans, sheet))
                },
                ..DOCUMENT
            },
        },
    ]
}

fn preview_place_copies() -> [WrongCopy; 3] {
    [
        with_preview(
            "preview-bad-bans-before-the-road",
            |map, order, bans, road, labels, sheet| {
                let reply = preview(map, order, bans, road, labels, sheet);
                match reply.number {
                    UNKNOWN_ROAD => bans_before(UNKNOWN_ROAD, bans, word(map, 8) as u32, reply),
                    _ => reply,
                }
            },
        ),
        with_preview(
            "preview-bad-bans-behind-full",
            |map, order, bans, road, labels, sheet| {
                let reply = preview(map, order, bans, road, labels, sheet);
                full_before_bans(labels.len(), reply)
            },
        ),
        with_preview(
            "preview-bad-bans-touch-labels",
            |map, order, bans, road, labels, sheet| {
                let reply = preview(map, order, bans, road, labels, sheet);
                touching(labels, reply)
            },
        ),
    ]
}

/// Refuses the list in place of a refusal with this number.
fn bans_before(number: u64, bans: &[u32], roads: u32, reply: Reply) -> Reply {
    match accepted_bans(bans, roads.into()) {
        Err(refused) if reply.number == number => refused,
        _ => reply,
    }
}

/// By R of a map that is accepted, as it is where the trip is refused.
fn bans_before_the_trip(map: &[u8], bans: &[u32], reply: Reply) -> Reply {
    match reply.number {
        BAD_TRIP => bans_before(BAD_TRIP, bans, word(map, 8) as u32, reply),
        _ => reply,
    }
}

/// No trip needs less than a label.
fn full_before_bans(label_words: usize, reply: Reply) -> Reply {
    match reply.number {
        BAD_BANS if label_words < WORDS_OF_A_LABEL => Reply::refused(FULL, 0),
        _ => reply,
    }
}

/// Touches the first label word where the list is refused.
fn touching(labels: &mut [u32], reply: Reply) -> Reply {
    if let (BAD_BANS, Some(first)) = (reply.number, labels.first_mut()) {
        *first = !*first;
    }
    reply
}

fn torn_before_bans(sheet: &[u8], reply: Reply) -> Reply {
    match reply.number {
        BAD_BANS if Sheet::read(sheet).is_none() => Reply::refused(TORN_SHEET, sheet.len() as u64),
        _ => reply,
    }
}
