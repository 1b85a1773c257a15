//! Wrong copies of the week: its words in an order and in a sheet's header, the weekly rest, the week in
//! states and in replayed traces.

use std::cmp::Ordering;

use super::shared::*;
use super::{default_half, right_plan, right_replay, WrongCopy};
use crate::moves::{accepted_run, Document, Move, Offer, State, Trip, BREAK, DRIVE, REST, WEEKLY};
use crate::operations::{LentFigures, LentRules, Operations, ReplayFunction, DOCUMENT};
use crate::order::{check_order, Order, EUROPEAN_RULES, ORDER_BYTES};
use crate::planning::{plan, Planner, MOST_LABELS, WORDS_OF_A_LABEL};
use crate::replay::{replay, Hours, Replayer, TraceRecord, DRIVING, OTHER_WORK};
use crate::reply::*;
use crate::retiming::{audit, retime};
use crate::sheet::{sheet_bytes, Sheet};
use crate::striking::strike;
use crate::words::{bytes_of, put_word, word};

pub fn copies() -> Vec<WrongCopy> {
    let mut copies = rule_copies().to_vec();
    copies.extend(figure_copies());
    copies.extend(move_copies());
    copies.extend(label_copies());
    copies.extend(sheet_copies());
    copies.extend(replay_copies());
    copies
}

/// The rules on words 12 and 13 are those from 10 on: not below the shift limit or the rest, and at most
/// 1,000,000.
fn rule_copies() -> [WrongCopy; 9] {
    [
        judging!("week-limit-below-the-shift-limit", |_, by| {
            by.rules[10].1 = true
        }),
        judging!("week-limit-charged-to-the-shift-limit", |_, by| {
            by.rules[10].0 = 8
        }),
        judging!("week-limit-as-the-shift-limit-refused", |order, by| {
            by.rules[10].1 = order.shift_limit < order.week_limit
        }),
        judging!("week-limit-above-a-million", |_, by| {
            by.rules[11].1 = true
        }),
        judging!("weekly-rest-below-the-rest", |_, by| {
            by.rules[12].1 = true
        }),
        judging!("weekly-rest-charged-to-the-rest", |_, by| {
            by.rules[12].0 = 9
        }),
        judging!("weekly-rest-as-the-rest-refused", |order, by| {
            by.rules[12].1 = order.rest_time < order.weekly_rest
        }),
        judging!("weekly-rest-above-a-million", |_, by| {
            by.rules[13].1 = true
        }),
        checking("order-of-48-bytes-accepted", order_of_48_bytes_accepted),
    ]
}

/// With Europe's week, and none of it driven but the shift.
fn order_of_48_bytes_accepted(bytes: &[u8], bans: &[u32], junctions: u32, roads: u32) -> Reply {
    if bytes.len() != ORDER_BYTES - 12 {
        return check_order(bytes, bans, junctions, roads);
    }
    let [.., week_limit, weekly_rest] = EUROPEAN_RULES;
    let week = bytes_of(&[week_limit, weekly_rest, word(bytes, 20)]);
    check_order(&[bytes, &week].concat(), bans, junctions, roads)
}

/// The last two rules of the trip are those on word 14: not below the shift, and at most its limit.
fn figure_copies() -> [WrongCopy; 7] {
    [
        judging!("week-below-the-shift", |_, by| { by.trip[7].1 = true }),
        judging!("week-charged-to-the-shift", |_, by| { by.trip[7].0 = 5 }),
        judging!("week-above-its-limit", |_, by| { by.trip[8].1 = true }),
        judging!("week-charged-to-its-limit", |_, by| { by.trip[8].0 = 12 }),
        judging!("week-at-its-limit-refused", |order, by| {
            by.trip[8].1 = order.week < order.week_limit
        }),
        judging!("week-before-the-rest-of-the-trip", |_, by| {
            if by.trip[7..].iter().any(|(_, holds)| !holds) {
                by.trip.drain(..7);
            }
        }),
        judging!("week-under-bad-rules", |_, by| {
            by.rules.extend(by.trip.drain(7..));
        }),
    ]
}

fn move_copies() -> Vec<WrongCopy> {
    in_plans_and_timed![
        DriveLeavesWeek: "drive-leaves-the-week",
        BreakClearsWeek: "break-clears-the-week",
        RestClearsWeek: "rest-clears-the-week",
        WeeklyLeavesSpell: "weekly-leaves-spell",
        WeeklyLeavesShift: "weekly-leaves-shift",
        WeeklyLeavesWeek: "weekly-leaves-the-week",
        WeeklyKeepsMark: "weekly-keeps-the-mark",
        NoWeekly: "no-weekly-rest",
        WeeklyAnywhere: "weekly-needs-no-car-park",
        WeeklyAsRest: "weekly-as-long-as-a-rest",
        WeekStrict: "week-limit-just-met-is-over",
        WeekUnlimited: "week-without-a-limit",
    ]
    .to_vec()
}

changed_move!(DriveLeavesWeek, DRIVE, |state, after| after.week =
    state.week);
changed_move!(BreakClearsWeek, BREAK, |_state, after| after.week = 0);
changed_move!(RestClearsWeek, REST, |_state, after| after.week = 0);
changed_move!(WeeklyLeavesSpell, WEEKLY, |state, after| after.spell =
    state.spell);
changed_move!(WeeklyLeavesShift, WEEKLY, |state, after| after.shift =
    state.shift);
changed_move!(WeeklyLeavesWeek, WEEKLY, |state, after| after.week =
    state.week);
changed_move!(WeeklyKeepsMark, WEEKLY, |state, after| after.mark =
    state.mark);

struct NoWeekly;

impl Offer for NoWeekly {
    fn after(trip: &Trip, state: &State, step: Move) -> Option<State> {
        trip.after(state, step).filter(|_| step.kind != WEEKLY)
    }
}

struct WeeklyAnywhere;

impl Offer for WeeklyAnywhere {
    fn after(trip: &Trip, state: &State, step: Move) -> Option<State> {
        if step.kind == WEEKLY && step.number == state.junction {
            return trip.after_pause(state, WEEKLY);
        }
        trip.after(state, step)
    }
}

struct WeeklyAsRest;

impl Offer for WeeklyAsRest {
    fn after(trip: &Trip, state: &State, step: Move) -> Option<State> {
        after_changed(trip, state, step, WEEKLY, |after| {
            after.clock = state.clock + trip.order.rest_time
        })
    }
}

struct WeekStrict;

impl Offer for WeekStrict {
    fn allows(trip: &Trip, after: &State) -> bool {
        trip.allows(after) && after.week < trip.order.week_limit
    }
}

struct WeekUnlimited;

impl Offer for WeekUnlimited {
    fn allows(trip: &Trip, after: &State) -> bool {
        trip.allows(&State { week: 0, ..*after })
    }
}

default_half!(Planner: NoWeekly, WeeklyAnywhere, WeeklyAsRest, WeekStrict, WeekUnlimited);

fn label_copies() -> [WrongCopy; 7] {
    [
        planning::<WeekUnseen>("dominance-ignores-the-week"),
        planning::<WeekReversed>("dominance-with-the-week-reversed"),
        planning::<RankWithoutWeek>("rank-ignores-the-week"),
        planning::<WeekBehindMark>("rank-puts-the-week-behind-the-mark"),
        planning::<WeekBeforeShift>("rank-puts-the-week-before-the-shift"),
        planning::<NineWords>("label-of-nine-words"),
        WrongCopy {
            name: "preview-label-of-nine-words",
            operations: Operations {
                preview: preview_of_nine_words,
                ..DOCUMENT
            },
        },
    ]
}

default_half!(Offer: WeekUnseen, WeekReversed, RankWithoutWeek, WeekBehindMark, WeekBeforeShift);
default_half!(Offer: NineWords);

/// Dominance by the other figures, whatever the weeks.
fn others_dominate(one: &State, other: &State) -> bool {
    let week = other.week;
    one != other && (State { week, ..*one } == *other || State { week, ..*one }.dominates(other))
}

struct WeekUnseen;

impl Planner for WeekUnseen {
    fn dominates(one: &State, other: &State) -> bool {
        others_dominate(one, other)
    }
}

struct WeekReversed;

impl Planner for WeekReversed {
    fn dominates(one: &State, other: &State) -> bool {
        others_dominate(one, other) && one.week >= other.week
    }
}

struct RankWithoutWeek;

impl Planner for RankWithoutWeek {
    fn rank(one: &State, other: &State) -> Ordering {
        let key = |s: &State| (s.clock, s.spell, s.shift, s.mark, s.junction);
        key(one).cmp(&key(other))
    }
}

struct WeekBehindMark;

impl Planner for WeekBehindMark {
    fn rank(one: &State, other: &State) -> Ordering {
        let key = |s: &State| (s.clock, s.spell, s.shift, s.mark, s.week, s.junction);
        key(one).cmp(&key(other))
    }
}

struct WeekBeforeShift;

impl Planner for WeekBeforeShift {
    fn rank(one: &State, other: &State) -> Ordering {
        let key = |s: &State| (s.clock, s.spell, s.week, s.shift, s.mark, s.junction);
        key(one).cmp(&key(other))
    }
}

struct NineWords;

impl Planner for NineWords {
    fn fitting(label_words: usize) -> usize {
        MOST_LABELS.min(label_words / (WORDS_OF_A_LABEL - 1))
    }
}

fn preview_of_nine_words(
    map: &mut [u8],
    order: &[u8],
    bans: &[u32],
    road: u32,
    labels: &mut [u32],
    sheet: &mut [u8],
) -> Reply {
    if let Err(refused) = accepted_run(map, order) {
        return refused;
    }
    let mut copy = map.to_vec();
    match strike(&mut copy, road) {
        Reply { number: 0, .. } => plan::<NineWords>(&copy, order, bans, labels, sheet),
        refused => refused,
    }
}

fn sheet_copies() -> Vec<WrongCopy> {
    vec![
        with_plan("plan-exchanges-week-and-count", plan_exchanged),
        with_plan("plan-needs-20-and-12-bytes-a-move", plan_needs_less),
        with_plan("plan-fits-in-20-and-12-bytes-a-move", plan_fits_in_less),
        with_retime("retime-exchanges-week-and-count", retime_exchanged),
        with_retime("retime-copies-the-count-from-byte-16", count_from_byte_16),
        with_retime("retime-copies-the-week", week_copied),
        with_retime("retime-needs-20-and-12-bytes-a-move", retime_needs_less),
        with_retime("retime-of-a-header-of-20-bytes", retime_without_week),
        with_audit("audit-of-a-header-of-20-bytes", audit_without_week),
        with_audit("audit-ignores-the-week", audit_ignores_week),
        with_audit("audit-takes-the-week-from-byte-20", week_from_byte_20),
    ]
}

/// The bytes of a sheet that the week adds.
const WEEK_BYTES: usize = 4;

fn exchange(sheet: &mut [u8]) {
    let [week, labels] = [16, 20].map(|offset| word(sheet, offset));
    put_word(sheet, 16, labels);
    put_word(sheet, 20, week);
}

fn plan_exchanged(
    map: &[u8],
    order: &[u8],
    bans: &[u32],
    labels: &mut [u32],
    sheet: &mut [u8],
) -> Reply {
    let reply = right_plan(map, order, bans, labels, sheet);
    if reply.number == 0 {
        exchange(sheet);
    }
    reply
}

/// The reply with a shorter length told for a short sheet.
fn needing_less(reply: Reply) -> Reply {
    match reply.number {
        SHORT_SHEET => Reply::refused(SHORT_SHEET, reply.place - WEEK_BYTES as u64),
        _ => reply,
    }
}

fn plan_needs_less(
    map: &[u8],
    order: &[u8],
    bans: &[u32],
    labels: &mut [u32],
    sheet: &mut [u8],
) -> Reply {
    needing_less(right_plan(map, order, bans, labels, sheet))
}

fn plan_fits_in_less(
    map: &[u8],
    order: &[u8],
    bans: &[u32],
    labels: &mut [u32],
    sheet: &mut [u8],
) -> Reply {
    let mut longer = [&*sheet, &[0; WEEK_BYTES]].concat();
    let reply = right_plan(map, order, bans, labels, &mut longer);
    let kept = sheet.len();
    sheet.copy_from_slice(&longer[..kept]);
    reply
}

fn retime_exchanged(map: &[u8], order: &[u8], bans: &[u32], sheet: &[u8], out: &mut [u8]) -> Reply {
    let reply = retime::<Document>(map, order, bans, sheet, out);
    if reply.number == 0 {
        exchange(out);
    }
    reply
}

fn count_from_byte_16(
    map: &[u8],
    order: &[u8],
    bans: &[u32],
    sheet: &[u8],
    out: &mut [u8],
) -> Reply {
    let reply = retime::<Document>(map, order, bans, sheet, out);
    if reply.number == 0 {
        put_word(out, 20, word(sheet, 16));
    }
    reply
}

fn week_copied(map: &[u8], order: &[u8], bans: &[u32], sheet: &[u8], out: &mut [u8]) -> Reply {
    let reply = retime::<Document>(map, order, bans, sheet, out);
    if reply.number == 0 {
        put_word(out, 16, word(sheet, 16));
    }
    reply
}

fn retime_needs_less(
    map: &[u8],
    order: &[u8],
    bans: &[u32],
    sheet: &[u8],
    out: &mut [u8],
) -> Reply {
    needing_less(retime::<Document>(map, order, bans, sheet, out))
}

/// The sheet with a week put into its header, if it has as many bytes as its moves ask for without one.
fn with_week(sheet: &[u8]) -> Vec<u8> {
    let header = sheet_bytes(0) - WEEK_BYTES;
    let is_without = |moves: u64| sheet.len() as u64 == header as u64 + 12 * moves;
    if sheet.len() < header || !is_without(word(sheet, 0)) {
        return sheet.to_vec();
    }
    [&sheet[..16], &[0; WEEK_BYTES], &sheet[16..]].concat()
}

fn retime_without_week(
    map: &[u8],
    order: &[u8],
    bans: &[u32],
    sheet: &[u8],
    out: &mut [u8],
) -> Reply {
    retime::<Document>(map, order, bans, &with_week(sheet), out)
}

fn audit_without_week(map: &[u8], order: &[u8], bans: &[u32], sheet: &[u8]) -> Reply {
    audit::<Document>(map, order, bans, &with_week(sheet))
}

/// The sheet as given and as retimed, if it can be.
fn given_and_true(map: &[u8], order: &[u8], bans: &[u32], sheet: &[u8]) -> Option<(Sheet, Sheet)> {
    let mut retimed = sheet.to_vec();
    let reply = retime::<Document>(map, order, bans, sheet, &mut retimed);
    (reply.number == 0).then_some((Sheet::read(sheet)?, Sheet::read(&retimed)?))
}

fn audit_ignores_week(map: &[u8], order: &[u8], bans: &[u32], sheet: &[u8]) -> Reply {
    match given_and_true(map, order, bans, sheet) {
        Some((mut given, truly)) => {
            given.week = truly.week;
            audit::<Document>(map, order, bans, &given.bytes())
        }
        None => audit::<Document>(map, order, bans, sheet),
    }
}

fn week_from_byte_20(map: &[u8], order: &[u8], bans: &[u32], sheet: &[u8]) -> Reply {
    match Sheet::read(sheet) {
        Some(mut given) => {
            given.week = given.labels;
            audit::<Document>(map, order, bans, &given.bytes())
        }
        None => audit::<Document>(map, order, bans, sheet),
    }
}

fn replay_copies() -> [WrongCopy; 11] {
    let replaying: [(&'static str, ReplayFunction); 11] = [
        (
            "weekly-pause-just-met-leaves-the-week",
            replay::<WeeklyStrict>,
        ),
        ("weekly-pause-is-a-rest", replay::<WeeklyIsRest>),
        ("weekly-pause-keeps-the-mark", replay::<WeeklyMarks>),
        ("replayed-rest-clears-the-week", replay::<RestIsWeekly>),
        ("replayed-week-just-met-is-past", replay::<WeekJustMet>),
        ("replayed-week-without-a-limit", replay::<NoWeekLimit>),
        ("replayed-driving-leaves-the-week", driving_leaves_the_week),
        ("lent-week-ignored", lent_week_ignored),
        ("lent-week-unjudged", lent_week_unjudged),
        ("week-not-handed-back", week_not_handed_back),
        ("week-handed-back-behind-the-mark", week_behind_the_mark),
    ];
    replaying.map(|(name, replay)| WrongCopy {
        name,
        operations: Operations { replay, ..DOCUMENT },
    })
}

struct WeeklyStrict;

impl Replayer for WeeklyStrict {
    fn clears_week(pause: u64, order: &Order) -> bool {
        pause > order.weekly_rest
    }
}

struct WeeklyIsRest;

impl Replayer for WeeklyIsRest {
    fn clears_week(_: u64, _: &Order) -> bool {
        false
    }
}

struct WeeklyMarks;

impl Replayer for WeeklyMarks {
    fn marked_after(pause: u64, marked: bool, order: &Order) -> bool {
        Document::marked_after(pause, marked, order) || marked && pause >= order.weekly_rest
    }
}

struct RestIsWeekly;

impl Replayer for RestIsWeekly {
    fn clears_week(pause: u64, order: &Order) -> bool {
        Document::clears_shift(pause, order)
    }
}

struct WeekJustMet;

impl Replayer for WeekJustMet {
    fn refusal(records: &[TraceRecord], hours: &Hours) -> Option<u64> {
        let mut lower = hours.clone();
        lower.order.week_limit -= 1;
        Document::refusal(records, &lower)
    }
}

struct NoWeekLimit;

impl Replayer for NoWeekLimit {
    fn refusal(records: &[TraceRecord], hours: &Hours) -> Option<u64> {
        let mut higher = hours.clone();
        higher.order.week_limit = u64::MAX;
        Document::refusal(records, &higher)
    }
}

/// The week is the one that other work in the place of all driving leaves.
fn driving_leaves_the_week(trace: &[u8], rules: LentRules, figures: &mut LentFigures) -> Reply {
    let mut undriven = *figures;
    let reply = replay::<NoWeekLimit>(trace, rules, figures);
    if reply.number == 0 {
        let mut records = TraceRecord::read_all(trace);
        for record in &mut records {
            if record.activity == DRIVING {
                record.activity = OTHER_WORK;
            }
        }
        right_replay(&TraceRecord::all_bytes(&records), rules, &mut undriven);
        figures[2] = undriven[2];
    }
    reply
}

/// Takes the shift for it.
fn lent_week_ignored(trace: &[u8], rules: LentRules, figures: &mut LentFigures) -> Reply {
    let [spell, shift, _, mark] = *figures;
    let mut as_shift = [spell, shift, shift, mark];
    let reply = right_replay(trace, rules, &mut as_shift);
    if reply.number == 0 {
        *figures = as_shift;
    }
    reply
}

fn lent_week_unjudged(trace: &[u8], rules: LentRules, figures: &mut LentFigures) -> Reply {
    match right_replay(trace, rules, figures) {
        Reply {
            number: BAD_TRIP,
            place: 14,
            ..
        } => lent_week_ignored(trace, rules, figures),
        reply => reply,
    }
}

fn week_not_handed_back(trace: &[u8], rules: LentRules, figures: &mut LentFigures) -> Reply {
    let [_, _, week, _] = *figures;
    let reply = right_replay(trace, rules, figures);
    figures[2] = week;
    reply
}

fn week_behind_the_mark(trace: &[u8], rules: LentRules, figures: &mut LentFigures) -> Reply {
    let reply = right_replay(trace, rules, figures);
    if reply.number == 0 {
        figures.swap(2, 3);
    }
    reply
}
