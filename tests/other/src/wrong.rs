//! Deliberately wrong copies: `compare` must find each.

mod ban_lists;
mod bans;
mod closures;
mod shared;
mod splits;
mod weeks;

use crate::bans::accepted_bans;
use crate::chains::make_chains;
use crate::map::Road;
use crate::mapcheck::{check_map, MOST_JUNCTIONS};
use crate::moves::{Document, Move, Offer, State, Trip, BREAK, DRIVE, REST};
use crate::names::name;
use crate::operations::{
    LentFigures, LentRules, NameAnswer, Operations, PlanFunction, ReplayFunction, DOCUMENT,
};
use crate::order::{check_order, refuse_broken, Order, ORDER_BYTES};
use crate::planning::{labels_that_fit, plan, Planner};
use crate::replay::{
    is_past_limit, replay, Hours, Replayer, TraceRecord, DRIVING, PAUSE, TRACE_RECORD_BYTES,
};
use crate::reply::*;
use crate::retiming::{audit, retime};
use crate::sheet::{sheet_bytes, Sheet};
use crate::words::{put_word, word};
use shared::{with_audit, with_plan, with_retime};

#[derive(Clone, Copy)]
pub struct WrongCopy {
    pub name: &'static str,
    pub operations: Operations,
}

pub fn wrong_copies() -> Vec<WrongCopy> {
    let planning: [(&'static str, PlanFunction); 23] = [
        ("dominance-on-clock-alone", plan::<ClockAlone>),
        ("dominance-on-clock-and-spell", plan::<ClockAndSpell>),
        ("dominance-with-shift-reversed", plan::<ShiftReversed>),
        ("parent-last-found", plan::<ParentLastFound>),
        ("highest-road-on-ties", plan::<HighestRoad>),
        ("full-when-just-enough", plan::<FullWhenJustEnough>),
        ("count-without-junction-rank", plan::<CountWithoutJunction>),
        ("answer-not-counted", plan::<AnswerNotCounted>),
        ("rest-leaves-spell", plan::<RestLeavesSpell>),
        ("break-clears-shift", plan::<BreakClearsShift>),
        ("no-pause-before-driving", plan::<NoPauseBeforeDriving>),
        ("road-time-rounded-up", plan::<RoadTimeRoundedUp>),
        ("road-time-half-up", plan::<RoadTimeHalfUp>),
        ("road-time-half-to-odd", plan::<RoadTimeHalfToOdd>),
        ("no-least-second", plan::<NoLeastSecond>),
        ("full-before-looking", full_before_looking),
        ("always-no-road", always_no_road),
        ("every-sheet-short", every_sheet_short),
        ("sheet-unwritten", sheet_unwritten),
        ("invented-count", invented_count),
        ("place-of-full-is-count", place_of_full_is_count),
        ("plan-clears-tail", plan_clears_tail),
        ("labels-touched-early", labels_touched_early),
    ];
    let mut copies = planning.map(|(name, plan)| with_plan(name, plan)).to_vec();
    copies.extend(other_copies());
    copies.extend(check_copies());
    copies.extend(replay_copies());
    copies.extend(splits::copies());
    copies.extend(weeks::copies());
    copies.extend(closures::copies());
    copies.extend(bans::copies());
    copies.extend(ban_lists::copies());
    copies
}

fn other_copies() -> Vec<WrongCopy> {
    vec![
        with_retime("retime-copies-clocks", retime_copies_clocks),
        with_retime("retime-clears-tail", retime_clears_tail),
        with_retime("retime-short-before-stray", retime_short_before_stray),
        with_audit("audit-ignores-shift", audit_ignores_shift),
        WrongCopy {
            name: "name-from-map-start",
            operations: Operations {
                name: name_from_map_start,
                ..DOCUMENT
            },
        },
        WrongCopy {
            name: "chains-before-lettering",
            operations: Operations {
                make_chains: chains_before_lettering,
                ..DOCUMENT
            },
        },
    ]
}

fn check_copies() -> [WrongCopy; 7] {
    let with_map_check = |name, check_map| WrongCopy {
        name,
        operations: Operations {
            check_map,
            ..DOCUMENT
        },
    };
    [
        with_map_check("misfit-tells-length-seen", misfit_tells_length_seen),
        with_map_check("one-junction-too-many", one_junction_too_many),
        with_map_check("first-letter-of-a-word-unseen", first_letter_unseen),
        with_map_check("control-character-below-space", control_below_space),
        with_map_check("bad-letter-told-by-its-word", told_by_its_word),
        with_map_check("letters-behind-the-words-unseen", letters_behind_unseen),
        WrongCopy {
            name: "order-rules-after-trip",
            operations: Operations {
                check_order: order_rules_after_trip,
                ..DOCUMENT
            },
        },
    ]
}

fn replay_copies() -> [WrongCopy; 12] {
    let replaying: [(&'static str, ReplayFunction); 12] = [
        ("pauses-not-joined", replay::<PausesNotJoined>),
        ("pauses-joined-across-work", replay::<JoinedAcrossWork>),
        ("break-just-met-clears-nothing", replay::<BreakStrict>),
        ("rest-just-met-clears-spell-alone", replay::<RestStrict>),
        ("limit-just-met-is-past", replay::<LimitStrict>),
        ("past-limit-before-odd-record", replay::<PastBeforeOdd>),
        (
            "seconds-of-driving-judged-alone",
            replay::<DrivingJudgedAlone>,
        ),
        ("every-odd-record-first", every_odd_record_first),
        ("torn-trace-before-rules", torn_trace_before_rules),
        ("refused-trace-half-replayed", refused_trace_half_replayed),
        ("pause-at-the-end-unjudged", pause_at_the_end_unjudged),
        ("activity-by-its-low-byte", activity_by_its_low_byte),
    ];
    replaying.map(|(name, replay)| WrongCopy {
        name,
        operations: Operations { replay, ..DOCUMENT },
    })
}

/// The half of a copy that is as the documents say.
macro_rules! default_half {
    ($half:ident: $($copy:ident),* $(,)?) => {
        $(impl $half for $copy {})*
    };
}
pub(crate) use default_half;

default_half!(Offer: ClockAlone, ClockAndSpell, ShiftReversed, ParentLastFound, HighestRoad);
default_half!(Offer: FullWhenJustEnough, CountWithoutJunction, AnswerNotCounted);
default_half!(Planner: RestLeavesSpell, BreakClearsShift, NoPauseBeforeDriving);
default_half!(Planner: RoadTimeRoundedUp, RoadTimeHalfUp, RoadTimeHalfToOdd, NoLeastSecond);

struct ClockAlone;

impl Planner for ClockAlone {
    fn dominates(one: &State, other: &State) -> bool {
        one.junction == other.junction && one.clock <= other.clock
    }
}

struct ClockAndSpell;

impl Planner for ClockAndSpell {
    fn dominates(one: &State, other: &State) -> bool {
        ClockAlone::dominates(one, other) && one.spell <= other.spell
    }
}

struct ShiftReversed;

impl Planner for ShiftReversed {
    fn dominates(one: &State, other: &State) -> bool {
        ClockAndSpell::dominates(one, other) && one.shift >= other.shift
    }
}

struct ParentLastFound;

impl Planner for ParentLastFound {
    fn parent(leading: &[(usize, Move)]) -> Option<(usize, Move)> {
        let (last, _) = *leading.iter().max()?;
        leading.iter().find(|(index, _)| *index == last).copied()
    }
}

struct HighestRoad;

impl Planner for HighestRoad {
    fn parent(leading: &[(usize, Move)]) -> Option<(usize, Move)> {
        let (parent, step) = *leading.iter().min()?;
        let same_kind =
            |(index, other): &&(usize, Move)| *index == parent && other.kind == step.kind;
        leading.iter().filter(same_kind).max().copied()
    }
}

struct FullWhenJustEnough;

impl Planner for FullWhenJustEnough {
    fn is_full(labels: usize, fitting: usize) -> bool {
        labels >= fitting
    }
}

struct CountWithoutJunction;

impl Planner for CountWithoutJunction {
    fn counts(state: &State, answer: &State) -> bool {
        let key = |s: &State| (s.clock, s.spell, s.shift, s.week, s.mark);
        key(state) <= key(answer)
    }
}

struct AnswerNotCounted;

impl Planner for AnswerNotCounted {
    fn counts(state: &State, answer: &State) -> bool {
        state < answer
    }
}

struct RestLeavesSpell;

impl Offer for RestLeavesSpell {
    fn after(trip: &Trip, state: &State, step: Move) -> Option<State> {
        let mut after = trip.after(state, step)?;
        if step.kind == REST {
            after.spell = state.spell;
        }
        Some(after)
    }
}

struct BreakClearsShift;

impl Offer for BreakClearsShift {
    fn after(trip: &Trip, state: &State, step: Move) -> Option<State> {
        let mut after = trip.after(state, step)?;
        if step.kind == BREAK {
            after.shift = 0;
        }
        Some(after)
    }
}

struct NoPauseBeforeDriving;

impl Offer for NoPauseBeforeDriving {
    fn after(trip: &Trip, state: &State, step: Move) -> Option<State> {
        let offered = step.kind == DRIVE || *state != trip.start();
        trip.after(state, step).filter(|_| offered)
    }
}

/// The state after a move where a road takes the seconds that `time` gives.
fn after_timed(trip: &Trip, state: &State, step: Move, time: fn(&Road) -> u64) -> Option<State> {
    let mut after = trip.after(state, step)?;
    if step.kind == DRIVE {
        let seconds = time(trip.map.road(step.number));
        after.clock = state.clock + seconds;
        after.spell = state.spell + seconds;
        after.shift = state.shift + seconds;
        after.week = state.week + seconds;
    }
    Some(after)
}

/// A road's time in half seconds, rounded down, and whether nothing was lost.
fn half_seconds(road: &Road) -> (u64, bool) {
    let (dividend, divisor) = (36 * road.metres, 5 * road.speed);
    (dividend / divisor, dividend % divisor == 0)
}

struct RoadTimeRoundedUp;

impl Offer for RoadTimeRoundedUp {
    fn after(trip: &Trip, state: &State, step: Move) -> Option<State> {
        after_timed(trip, state, step, |road| {
            (18 * road.metres).div_ceil(5 * road.speed)
        })
    }
}

struct RoadTimeHalfUp;

impl Offer for RoadTimeHalfUp {
    fn after(trip: &Trip, state: &State, step: Move) -> Option<State> {
        after_timed(trip, state, step, |road| {
            half_seconds(road).0.div_ceil(2).max(1)
        })
    }
}

struct RoadTimeHalfToOdd;

impl Offer for RoadTimeHalfToOdd {
    fn after(trip: &Trip, state: &State, step: Move) -> Option<State> {
        after_timed(trip, state, step, |road| match half_seconds(road) {
            (halves, true) if halves % 2 == 1 => halves / 2 + (halves / 2 + 1) % 2,
            _ => road.time(),
        })
    }
}

/// A road of 0 seconds only leads to a higher junction, since a label's parent must rank before it.
struct NoLeastSecond;

impl Offer for NoLeastSecond {
    fn after(trip: &Trip, state: &State, step: Move) -> Option<State> {
        after_timed(trip, state, step, |road| match half_seconds(road) {
            (0, _) | (1, true) if road.from < road.to => 0,
            _ => road.time(),
        })
    }
}

/// The right reply, with the sheet written as it must be.
fn right_plan(
    map: &[u8],
    order: &[u8],
    bans: &[u32],
    labels: &mut [u32],
    sheet: &mut [u8],
) -> Reply {
    plan::<Document>(map, order, bans, labels, sheet)
}

fn accepts(map: &[u8], order: &[u8], bans: &[u32]) -> bool {
    Trip::open(map, order, bans).is_ok()
}

fn full_before_looking(
    map: &[u8],
    order: &[u8],
    bans: &[u32],
    labels: &mut [u32],
    sheet: &mut [u8],
) -> Reply {
    if accepts(map, order, bans) {
        return Reply::refused(FULL, labels_that_fit(labels.len()) as u64);
    }
    right_plan(map, order, bans, labels, sheet)
}

fn always_no_road(
    map: &[u8],
    order: &[u8],
    bans: &[u32],
    labels: &mut [u32],
    sheet: &mut [u8],
) -> Reply {
    let reply = right_plan(map, order, bans, labels, &mut sheet.to_vec());
    match reply.number {
        0 => Reply::refused(NO_ROAD, reply.place),
        _ => reply,
    }
}

fn every_sheet_short(
    map: &[u8],
    order: &[u8],
    bans: &[u32],
    labels: &mut [u32],
    sheet: &mut [u8],
) -> Reply {
    let mut written = sheet.to_vec();
    let reply = right_plan(map, order, bans, labels, &mut written);
    match reply.number {
        0 => Reply::refused(SHORT_SHEET, sheet_bytes(word(&written, 0) as usize) as u64),
        _ => reply,
    }
}

fn sheet_unwritten(
    map: &[u8],
    order: &[u8],
    bans: &[u32],
    labels: &mut [u32],
    sheet: &mut [u8],
) -> Reply {
    right_plan(map, order, bans, labels, &mut sheet.to_vec())
}

fn invented_count(
    map: &[u8],
    order: &[u8],
    bans: &[u32],
    labels: &mut [u32],
    sheet: &mut [u8],
) -> Reply {
    let mut reply = right_plan(map, order, bans, labels, sheet);
    if reply.number == 0 {
        reply.place = labels_that_fit(labels.len()) as u64;
        put_word(sheet, 20, reply.place);
    }
    reply
}

fn place_of_full_is_count(
    map: &[u8],
    order: &[u8],
    bans: &[u32],
    labels: &mut [u32],
    sheet: &mut [u8],
) -> Reply {
    let reply = right_plan(map, order, bans, labels, sheet);
    if reply.number != FULL {
        return reply;
    }
    let mut ample = vec![0; 100_000];
    let counted = right_plan(map, order, bans, &mut ample, &mut vec![0; 100_000]);
    Reply::refused(FULL, counted.place)
}

fn plan_clears_tail(
    map: &[u8],
    order: &[u8],
    bans: &[u32],
    labels: &mut [u32],
    sheet: &mut [u8],
) -> Reply {
    let reply = right_plan(map, order, bans, labels, sheet);
    if reply.number == 0 {
        clear_tail(sheet);
    }
    reply
}

fn labels_touched_early(
    map: &[u8],
    order: &[u8],
    bans: &[u32],
    labels: &mut [u32],
    sheet: &mut [u8],
) -> Reply {
    if let Some(first) = labels.first_mut() {
        *first = 0;
    }
    right_plan(map, order, bans, labels, sheet)
}

fn retime_copies_clocks(
    map: &[u8],
    order: &[u8],
    bans: &[u32],
    sheet: &[u8],
    out: &mut [u8],
) -> Reply {
    let reply = retime::<Document>(map, order, bans, sheet, out);
    if reply.number == 0 {
        let records = out.iter_mut().zip(sheet).skip(sheet_bytes(0));
        records.for_each(|(written, given)| *written = *given);
    }
    reply
}

fn retime_clears_tail(
    map: &[u8],
    order: &[u8],
    bans: &[u32],
    sheet: &[u8],
    out: &mut [u8],
) -> Reply {
    let reply = retime::<Document>(map, order, bans, sheet, out);
    if reply.number == 0 {
        clear_tail(out);
    }
    reply
}

fn retime_short_before_stray(
    map: &[u8],
    order: &[u8],
    bans: &[u32],
    sheet: &[u8],
    out: &mut [u8],
) -> Reply {
    let reply = retime::<Document>(map, order, bans, sheet, out);
    match reply.number {
        STRAY if out.len() < sheet.len() => Reply::refused(SHORT_SHEET, sheet.len() as u64),
        _ => reply,
    }
}

fn clear_tail(sheet: &mut [u8]) {
    let written = sheet_bytes(word(sheet, 0) as usize);
    sheet[written..].fill(0);
}

fn audit_ignores_shift(map: &[u8], order: &[u8], bans: &[u32], sheet: &[u8]) -> Reply {
    let mut truly = sheet.to_vec();
    if retime::<Document>(map, order, bans, sheet, &mut truly).number != 0 {
        return audit::<Document>(map, order, bans, sheet);
    }
    let mut given = Sheet::read(sheet).expect("a sheet that was retimed");
    given.shift = word(&truly, 12);
    audit::<Document>(map, order, bans, &given.bytes())
}

fn name_from_map_start(map: &[u8], junction: u32) -> NameAnswer {
    let (reply, offset, length) = name(map, junction);
    match reply.number {
        0 => (reply, offset - 16, length),
        _ => (reply, offset, length),
    }
}

fn chains_before_lettering(map: &mut [u8]) -> Reply {
    let reply = make_chains(map);
    if reply.number == BAD_LETTERING {
        put_word(map, 16, 0);
    }
    reply
}

fn misfit_tells_length_seen(map: &[u8]) -> Reply {
    let reply = check_map(map);
    match reply.number {
        MISFIT => Reply::refused(MISFIT, map.len() as u64),
        _ => reply,
    }
}

/// Judges a map with one junction too many by the largest count.
fn one_junction_too_many(map: &[u8]) -> Reply {
    let reply = check_map(map);
    if reply != Reply::refused(OVERSIZE, 4) || word(map, 4) != MOST_JUNCTIONS + 1 {
        return reply;
    }
    let mut largest = map.to_vec();
    put_word(&mut largest, 4, MOST_JUNCTIONS);
    check_map(&largest)
}

/// Judges the map with a letter in place of each name byte for which `unseen` holds of its offset among the names, how
/// many there are, and itself.
fn check_without(map: &[u8], unseen: fn(usize, usize, u8) -> bool) -> Reply {
    if check_map(map).number != BAD_LETTERING {
        return check_map(map);
    }
    let mut judged = map.to_vec();
    let count = word(map, 12) as usize;
    let names = map.len() - count;
    for (offset, byte) in judged[names..].iter_mut().enumerate() {
        if unseen(offset, count, *byte) {
            *byte = b'x';
        }
    }
    check_map(&judged)
}

fn first_letter_unseen(map: &[u8]) -> Reply {
    check_without(map, |offset, _, _| offset.is_multiple_of(4))
}

fn control_below_space(map: &[u8]) -> Reply {
    check_without(map, |_, _, byte| byte == 0x1F)
}

fn letters_behind_unseen(map: &[u8]) -> Reply {
    check_without(map, |offset, count, _| offset >= count - count % 4)
}

fn told_by_its_word(map: &[u8]) -> Reply {
    let reply = check_map(map);
    match reply.number {
        BAD_LETTERING => Reply::refused(BAD_LETTERING, reply.place - reply.place % 4),
        _ => reply,
    }
}

fn order_rules_after_trip(bytes: &[u8], bans: &[u32], junctions: u32, roads: u32) -> Reply {
    if bytes.len() != ORDER_BYTES {
        return check_order(bytes, bans, junctions, roads);
    }
    let order = Order::read(bytes);
    let judged = refuse_broken(BAD_TRIP, &order.trip(u64::from(junctions)))
        .and_then(|()| refuse_broken(BAD_RULES, &order.rules()))
        .and_then(|()| accepted_bans(bans, u64::from(roads)));
    told(judged.map(|_| Reply::success(0, 0)))
}

struct PausesNotJoined;

impl Replayer for PausesNotJoined {
    fn joins(_: &TraceRecord, _: &TraceRecord) -> bool {
        false
    }
}

struct JoinedAcrossWork;

impl Replayer for JoinedAcrossWork {
    fn joins(one: &TraceRecord, next: &TraceRecord) -> bool {
        one.activity != DRIVING && next.activity != DRIVING
    }
}

struct BreakStrict;

impl Replayer for BreakStrict {
    fn clears_spell(pause: u64, marked: bool, order: &Order) -> bool {
        Document::clears_spell(pause, marked, order)
            && (pause != order.break_time || Self::clears_shift(pause, order))
    }
}

struct RestStrict;

impl Replayer for RestStrict {
    fn clears_shift(pause: u64, order: &Order) -> bool {
        pause > order.rest_time
    }
}

struct LimitStrict;

impl Replayer for LimitStrict {
    fn refusal(records: &[TraceRecord], hours: &Hours) -> Option<u64> {
        let mut lower = hours.clone();
        lower.order.spell_limit -= 1;
        lower.order.shift_limit -= 1;
        Document::refusal(records, &lower)
    }
}

struct PastBeforeOdd;

impl Replayer for PastBeforeOdd {
    fn refusal(records: &[TraceRecord], hours: &Hours) -> Option<u64> {
        if is_past_limit::<Document>(records, hours) {
            return Some(PAST_LIMIT);
        }
        Document::refusal(records, hours)
    }
}

struct DrivingJudgedAlone;

impl Replayer for DrivingJudgedAlone {
    fn refusal(records: &[TraceRecord], hours: &Hours) -> Option<u64> {
        match records.last()?.activity {
            DRIVING => Document::refusal(records, hours),
            activity => (activity > PAUSE).then_some(ODD_RECORD),
        }
    }
}

/// The right reply, with the figures brought up to date as they must be.
fn right_replay(trace: &[u8], rules: LentRules, figures: &mut LentFigures) -> Reply {
    replay::<Document>(trace, rules, figures)
}

fn every_odd_record_first(trace: &[u8], rules: LentRules, figures: &mut LentFigures) -> Reply {
    let reply = right_replay(trace, rules, figures);
    let records = TraceRecord::read_all(trace);
    match records.iter().position(TraceRecord::is_odd) {
        Some(index) if reply.number == PAST_LIMIT => Reply::refused(ODD_RECORD, index as u64 + 1),
        _ => reply,
    }
}

fn torn_trace_before_rules(trace: &[u8], rules: LentRules, figures: &mut LentFigures) -> Reply {
    if trace.len().is_multiple_of(TRACE_RECORD_BYTES) {
        return right_replay(trace, rules, figures);
    }
    Reply::refused(TORN_TRACE, trace.len() as u64)
}

/// Leaves the figures that the records before the refused one lead to.
fn refused_trace_half_replayed(trace: &[u8], rules: LentRules, figures: &mut LentFigures) -> Reply {
    let reply = right_replay(trace, rules, figures);
    if [ODD_RECORD, PAST_LIMIT].contains(&reply.number) {
        let before = TRACE_RECORD_BYTES * (reply.place as usize - 1);
        right_replay(&trace[..before], rules, figures);
    }
    reply
}

fn pause_at_the_end_unjudged(trace: &[u8], rules: LentRules, figures: &mut LentFigures) -> Reply {
    let start = *figures;
    let reply = right_replay(trace, rules, figures);
    if reply.number == 0 {
        let mut records = TraceRecord::read_all(trace);
        while records.pop_if(|last| last.activity == PAUSE).is_some() {}
        *figures = start;
        right_replay(&TraceRecord::all_bytes(&records), rules, figures);
    }
    reply
}

fn activity_by_its_low_byte(trace: &[u8], rules: LentRules, figures: &mut LentFigures) -> Reply {
    let mut low = trace.to_vec();
    for record in low.chunks_exact_mut(TRACE_RECORD_BYTES) {
        record[1..4].fill(0);
    }
    right_replay(&low, rules, figures)
}
