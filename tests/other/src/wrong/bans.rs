//! Wrong copies of ban days, of gates and queues, and of what is written where kinds of move tie.

use super::shared::*;
use super::{default_half, right_plan, WrongCopy};
use crate::calendar::*;
use crate::moves::{Mark, Move, Offer, State, Trip, BREAK, DRIVE, FIRST, SECOND};
use crate::planning::Planner;
use crate::reply::Reply;
use crate::sheet::{sheet_bytes, Record, Sheet};
use crate::words::word;

pub fn copies() -> Vec<WrongCopy> {
    let mut copies = day_copies();
    copies.extend(gate_copies());
    copies.extend(queue_copies());
    copies.extend(tie_copies());
    copies
}

fn day_copies() -> Vec<WrongCopy> {
    in_plans_and_timed![
        SaturdaysBanned: "saturdays-for-sundays",
        SundaysOpen: "sundays-open",
        FeastsOpen: "feasts-open",
        GoodFridayOpen: "good-friday-open",
        EasterMondayOpen: "easter-monday-open",
        AscensionOpen: "ascension-open",
        WhitMondayOpen: "whit-monday-open",
        AscensionEarly: "ascension-a-day-early",
        NextEasterMonday: "easter-monday-of-the-next-year",
        EasterOf2000: "easter-of-2000-in-every-year",
        LeapDayForgotten: "leap-day-forgotten",
        YearsOf365Days: "years-of-365-days",
    ]
    .to_vec()
}

/// The state after a drive of a banned road that is entered at another clock.
fn after_entry(
    trip: &Trip,
    state: &State,
    step: Move,
    entry: impl Fn(u64) -> u64,
) -> Option<State> {
    after_changed(trip, state, step, DRIVE, |after| {
        if trip.is_banned(step.number) {
            after.clock = entry(state.clock) + trip.map.road(step.number).time();
        }
    })
}

/// A copy in which banned roads are entered at another clock.
macro_rules! entered_otherwise {
    ($copy:ident, |$clock:ident| $entry:expr) => {
        struct $copy;

        impl Offer for $copy {
            fn after(trip: &Trip, state: &State, step: Move) -> Option<State> {
                after_entry(trip, state, step, |$clock| $entry)
            }
        }

        impl Planner for $copy {}
    };
}

/// A copy with other ban days.
macro_rules! banned_otherwise {
    ($copy:ident, |$day:ident| $is_ban_day:expr) => {
        entered_otherwise!($copy, |clock| entry_by(clock, |$day| $is_ban_day));
    };
}

banned_otherwise!(SaturdaysBanned, |day| day % 7 == 0 || is_feast(day));
banned_otherwise!(SundaysOpen, |day| is_feast(day));
banned_otherwise!(FeastsOpen, |day| is_sunday(day));
banned_otherwise!(GoodFridayOpen, |day| is_sunday_or(day, &[1, 39, 50]));
banned_otherwise!(EasterMondayOpen, |day| is_sunday_or(day, &[-2, 39, 50]));
banned_otherwise!(AscensionOpen, |day| is_sunday_or(day, &[-2, 1, 50]));
banned_otherwise!(WhitMondayOpen, |day| is_sunday_or(day, &[-2, 1, 39]));
banned_otherwise!(AscensionEarly, |day| is_sunday_or(day, &[-2, 1, 38, 50]));
banned_otherwise!(NextEasterMonday, |day| {
    let year = year_of(day);
    let next = day_of_year(easter(year + 1));
    is_sunday_or(day, &[-2, 39, 50]) || day_of_year(day) == next + 1
});
banned_otherwise!(EasterOf2000, |day| {
    is_sunday(day) || is_feast_by(day_of_year(day), day_of_year(easter(2000)), &FEASTS)
});
// Feasts of a leap year fall a day early.
banned_otherwise!(LeapDayForgotten, |day| {
    let year = year_of(day);
    is_sunday(day) || is_feast_by(day + u64::from(is_leap(year)), easter(year), &FEASTS)
});
banned_otherwise!(YearsOf365Days, |day| {
    let easter = day_of_year(easter(FIRST_YEAR + day / 365));
    is_sunday(day) || is_feast_by(day % 365, easter, &FEASTS)
});

/// Whether a day is a Sunday or lies so far from its year's Easter.
fn is_sunday_or(day: u64, distances: &[i64]) -> bool {
    is_sunday(day) || is_feast_by(day, easter(year_of(day)), distances)
}

fn is_feast_by(day: u64, easter: u64, distances: &[i64]) -> bool {
    let is_day = |distance: &i64| easter.checked_add_signed(*distance) == Some(day);
    distances.iter().any(is_day)
}

/// Days since the year's first.
fn day_of_year(day: u64) -> u64 {
    let (year, month) = (year_of(day), 1);
    let first = Date {
        year,
        month,
        day: 1,
    };
    day - day_of(first)
}

fn gate_copies() -> Vec<WrongCopy> {
    in_plans_and_timed![
        OpensLate: "gate-opens-a-second-late",
        OpensEarly: "gate-opens-a-second-early",
        OpensAtMidnight: "gate-opens-at-midnight",
        EntryAt22Queues: "entry-at-22-queues",
        MidnightOpen: "entry-at-midnight-does-not-queue",
        RowsOfBanDays: "ban-days-in-a-row-are-one",
        LeavingCounts: "leaving-counts-too",
    ]
    .to_vec()
}

entered_otherwise!(OpensLate, |clock| {
    let open = clock % DAY_SECONDS > OPENING || !is_ban_day(clock / DAY_SECONDS);
    if open {
        clock
    } else {
        entry(clock) + 1
    }
});
entered_otherwise!(OpensEarly, |clock| match entry(clock) {
    queued if queued > clock => queued - 1,
    _ => clock,
});
entered_otherwise!(OpensAtMidnight, |clock| match entry(clock) {
    queued if queued > clock => queued - OPENING + DAY_SECONDS,
    _ => clock,
});
// Until the day ends.
entered_otherwise!(EntryAt22Queues, |clock| {
    let is_opening = clock % DAY_SECONDS == OPENING && is_ban_day(clock / DAY_SECONDS);
    if is_opening {
        clock - OPENING + DAY_SECONDS
    } else {
        entry(clock)
    }
});
entered_otherwise!(MidnightOpen, |clock| match clock % DAY_SECONDS {
    0 => clock,
    _ => entry(clock),
});
// The gate stays shut between them.
entered_otherwise!(RowsOfBanDays, |clock| {
    let last = (clock / DAY_SECONDS..).find(|day| !is_ban_day(day + 1));
    match last.expect("a day that is none") {
        last if is_ban_day(last) => clock.max(last * DAY_SECONDS + OPENING),
        _ => clock,
    }
});

/// A road that would be left in a ban is entered when the ban ends.
struct LeavingCounts;

impl Offer for LeavingCounts {
    fn after(trip: &Trip, state: &State, step: Move) -> Option<State> {
        after_entry(trip, state, step, |clock| {
            let left = entry(clock) + trip.map.road(step.number).time();
            match entry(left) {
                later if later > left => later,
                _ => entry(clock),
            }
        })
    }
}

impl Planner for LeavingCounts {}

fn queue_copies() -> Vec<WrongCopy> {
    in_plans_and_timed![
        QueueInSpell: "queue-added-to-spell",
        QueueInShift: "queue-added-to-shift",
        QueueInWeek: "queue-added-to-the-week",
        GateWithoutRoad: "gate-without-the-road-time",
        QueueIsBreak: "queue-as-long-as-a-break-clears-spell",
        QueueIsRest: "queue-as-long-as-a-rest-clears-shift",
        QueueClearsMark: "queue-clears-the-mark",
        QueueAtParks: "queue-needs-a-car-park",
        NoQueues: "no-queues-at-all",
    ]
    .to_vec()
}

/// How long a lorry has queued in a drive of this road.
fn queue_before(trip: &Trip, state: &State, after: &State, step: Move) -> u64 {
    match step.kind {
        DRIVE => after.clock - state.clock - trip.map.road(step.number).time(),
        _ => 0,
    }
}

/// A copy in which a drive behind a queue leaves another state, or none.
macro_rules! queued_otherwise {
    ($copy:ident, |$trip:ident, $step:ident, $queue:ident, $after:ident| $changed:expr) => {
        struct $copy;

        impl Offer for $copy {
            fn after($trip: &Trip, state: &State, $step: Move) -> Option<State> {
                let $after = $trip.after(state, $step)?;
                let $queue = queue_before($trip, state, &$after, $step);
                if $queue == 0 {
                    return Some($after);
                }
                $changed
            }
        }

        impl Planner for $copy {}
    };
}

queued_otherwise!(QueueInSpell, |_trip, step, queue, after| Some(State {
    spell: after.spell + queue,
    ..after
}));
queued_otherwise!(QueueInShift, |_trip, step, queue, after| Some(State {
    shift: after.shift + queue,
    ..after
}));
queued_otherwise!(QueueInWeek, |_trip, step, queue, after| Some(State {
    week: after.week + queue,
    ..after
}));
queued_otherwise!(GateWithoutRoad, |trip, step, queue, after| Some(State {
    clock: after.clock - trip.map.road(step.number).time(),
    ..after
}));
queued_otherwise!(QueueIsBreak, |trip, step, queue, after| {
    let road = trip.map.road(step.number).time();
    let is_break = queue >= trip.order.break_time;
    let spell = if is_break { road } else { after.spell };
    Some(State { spell, ..after })
});
queued_otherwise!(QueueIsRest, |trip, step, queue, after| {
    let road = trip.map.road(step.number).time();
    let is_rest = queue >= trip.order.rest_time;
    let shift = if is_rest { road } else { after.shift };
    Some(State { shift, ..after })
});
queued_otherwise!(QueueClearsMark, |_trip, step, queue, after| Some(State {
    mark: Mark::Unmarked,
    ..after
}));
queued_otherwise!(QueueAtParks, |trip, step, queue, after| {
    let from = trip.map.road(step.number).from as usize;
    let is_park = trip.map.junctions[from - 1].car_park == 1;
    is_park.then_some(after)
});
queued_otherwise!(NoQueues, |_trip, step, queue, _after| None);

fn tie_copies() -> [WrongCopy; 2] {
    [
        planning::<SecondBeforeBreak>("second-part-wins-over-the-break"),
        with_plan("idle-first-part-tidied-away", first_part_tidied_away),
    ]
}

struct SecondBeforeBreak;

impl Planner for SecondBeforeBreak {
    fn parent(leading: &[(usize, Move)]) -> Option<(usize, Move)> {
        let (parent, step) = *leading.iter().min()?;
        let is_tied = |&&(index, other): &&(usize, Move)| {
            (index, step.kind, other.kind) == (parent, BREAK, SECOND)
        };
        leading
            .iter()
            .find(is_tied)
            .or(Some(&(parent, step)))
            .copied()
    }
}

default_half!(Offer: SecondBeforeBreak);

/// Leaves out each first part behind which no second part comes.
fn first_part_tidied_away(
    map: &[u8],
    order: &[u8],
    bans: &[u32],
    labels: &mut [u32],
    sheet: &mut [u8],
) -> Reply {
    let reply = right_plan(map, order, bans, labels, sheet);
    if reply.number == 0 {
        let length = sheet_bytes(word(sheet, 0) as usize);
        let mut plan = Sheet::read(&sheet[..length]).expect("a plan");
        let is_second = |record: &Record| record.step.kind == SECOND;
        let used = plan.records.iter().rposition(is_second).unwrap_or(0);
        let mut place = 0..;
        plan.records
            .retain(|record| place.next() < Some(used) || record.step.kind != FIRST);
        plan.write(sheet);
    }
    reply
}
