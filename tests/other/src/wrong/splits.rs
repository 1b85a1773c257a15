//! Wrong copies of the split break: its words in an order, its two kinds of move, its mark in states
//! and in replayed pauses.

use std::cmp::{Ordering, Reverse};

use super::shared::*;
use super::{default_half, right_replay, WrongCopy};
use crate::moves::{Document, Mark, Move, Offer, State, Trip, BREAK, DRIVE, FIRST, REST, SECOND};
use crate::operations::{LentFigures, LentRules, Operations, ReplayFunction, DOCUMENT};
use crate::order::Order;
use crate::planning::Planner;
use crate::replay::{replay, Replayer, TraceRecord, LONGEST_ACTIVITY, OTHER_WORK, PAUSE};
use crate::reply::*;

pub fn copies() -> Vec<WrongCopy> {
    let mut copies = order_copies().to_vec();
    copies.extend(move_copies());
    copies.extend(label_copies());
    copies.extend(replay_copies());
    copies
}

/// The parts' rules are those from 6 on: each part at most the break, and then not alone zero.
fn order_copies() -> [WrongCopy; 6] {
    [
        judging!("first-part-alone-zero-accepted", |_, by| {
            by.rules[7].1 = true
        }),
        judging!("second-part-alone-zero-accepted", |_, by| {
            by.rules[9].1 = true
        }),
        judging!("lone-zero-charged-to-the-other", |_, by| {
            (by.rules[7].0, by.rules[9].0) = (11, 10)
        }),
        judging!("first-part-above-the-break", |_, by| {
            by.rules[6].1 = true
        }),
        judging!("second-part-above-the-break", |_, by| {
            by.rules[8].1 = true
        }),
        judging!("part-as-long-as-the-break-refused", |order, by| {
            by.rules[6].1 = order.first_part < order.break_time
        }),
    ]
}

/// The last ones are timed alone, since no plan shows them. So it is with a break that keeps the mark: a
/// first part behind the break leads to the same state, and where both parts are shorter than the
/// break, they lead to an earlier one.
fn move_copies() -> Vec<WrongCopy> {
    let mut copies = in_plans_and_timed![
        RestKeepsMark: "rest-keeps-the-mark",
        DriveClearsMark: "drive-clears-the-mark",
        SecondUnmarked: "second-without-the-mark",
        FirstClearsSpell: "first-clears-spell",
        SecondLeavesSpell: "second-leaves-spell",
        SecondClearsShift: "second-clears-shift",
        SecondKeepsMark: "second-keeps-the-mark",
        PartsAnywhere: "parts-need-no-car-park",
        PartsExchanged: "parts-exchanged",
    ]
    .to_vec();
    copies.push(timing::<BreakKeepsMark>("break-keeps-the-mark-timed"));
    copies.push(timing::<FirstOnceOnly>("no-first-with-the-mark-timed"));
    copies.push(timing::<PartsWithoutSplit>("parts-without-a-split-timed"));
    copies
}

changed_move!(BreakKeepsMark, BREAK, |state, after| after.mark =
    state.mark);
changed_move!(RestKeepsMark, REST, |state, after| after.mark = state.mark);
changed_move!(DriveClearsMark, DRIVE, |_state, after| after.mark =
    Mark::Unmarked);
changed_move!(FirstClearsSpell, FIRST, |_state, after| after.spell = 0);
changed_move!(SecondLeavesSpell, SECOND, |state, after| after.spell =
    state.spell);
changed_move!(SecondClearsShift, SECOND, |_state, after| after.shift = 0);
changed_move!(SecondKeepsMark, SECOND, |state, after| after.mark =
    state.mark);

struct SecondUnmarked;

impl Offer for SecondUnmarked {
    fn after(trip: &Trip, state: &State, step: Move) -> Option<State> {
        let marked = State {
            mark: Mark::Marked,
            ..*state
        };
        let before = if step.kind == SECOND { &marked } else { state };
        trip.after(before, step)
    }
}

struct PartsAnywhere;

impl Offer for PartsAnywhere {
    fn after(trip: &Trip, state: &State, step: Move) -> Option<State> {
        if [FIRST, SECOND].contains(&step.kind) && step.number == state.junction {
            return trip.after_pause(state, step.kind);
        }
        trip.after(state, step)
    }
}

struct PartsExchanged;

impl Offer for PartsExchanged {
    fn after(trip: &Trip, state: &State, step: Move) -> Option<State> {
        let (first, second) = (trip.order.first_part, trip.order.second_part);
        let mut after = trip.after(state, step)?;
        match step.kind {
            FIRST => after.clock = state.clock + second,
            SECOND => after.clock = state.clock + first,
            _ => {}
        }
        Some(after)
    }
}

/// Never seen in a plan: a state with the mark dominates itself after another first part.
struct FirstOnceOnly;

impl Offer for FirstOnceOnly {
    fn after(trip: &Trip, state: &State, step: Move) -> Option<State> {
        let offered = step.kind != FIRST || state.mark == Mark::Unmarked;
        trip.after(state, step).filter(|_| offered)
    }
}

/// Takes parts of no seconds at a car park. Planning would never end with them.
struct PartsWithoutSplit;

impl Offer for PartsWithoutSplit {
    fn after(trip: &Trip, state: &State, step: Move) -> Option<State> {
        if trip.order.has_split() || ![FIRST, SECOND].contains(&step.kind) {
            return trip.after(state, step);
        }
        let pause = Move {
            kind: BREAK,
            ..step
        };
        trip.after(state, pause).map(|_| *state)
    }
}

/// No copy in which a marked state dominates no unmarked one: it has the same labels, since the journey
/// without the last first part is there too, unmarked and earlier.
fn label_copies() -> [WrongCopy; 4] {
    [
        planning::<UnmarkedBetter>("unmarked-state-better"),
        planning::<MarkUnseen>("dominance-ignores-the-mark"),
        planning::<RankWithoutMark>("rank-ignores-the-mark"),
        planning::<UnmarkedFirst>("rank-puts-unmarked-first"),
    ]
}

default_half!(Planner: SecondUnmarked, PartsAnywhere, PartsExchanged);
default_half!(Offer: UnmarkedBetter, MarkUnseen, RankWithoutMark, UnmarkedFirst);

/// Dominance by clock, spell, shift and week alone.
fn figures_dominate(one: &State, other: &State) -> bool {
    let mark = other.mark;
    one != other && (State { mark, ..*one } == *other || State { mark, ..*one }.dominates(other))
}

struct UnmarkedBetter;

impl Planner for UnmarkedBetter {
    fn dominates(one: &State, other: &State) -> bool {
        figures_dominate(one, other) && one.mark >= other.mark
    }
}

struct MarkUnseen;

impl Planner for MarkUnseen {
    fn dominates(one: &State, other: &State) -> bool {
        figures_dominate(one, other)
    }
}

struct RankWithoutMark;

impl Planner for RankWithoutMark {
    fn rank(one: &State, other: &State) -> Ordering {
        let key = |s: &State| (s.clock, s.spell, s.shift, s.week, s.junction);
        key(one).cmp(&key(other))
    }
}

struct UnmarkedFirst;

impl Planner for UnmarkedFirst {
    fn rank(one: &State, other: &State) -> Ordering {
        let key = |s: &State| {
            let figures = (s.clock, s.spell, s.shift, s.week);
            (figures, Reverse(s.mark), s.junction)
        };
        key(one).cmp(&key(other))
    }
}

fn replay_copies() -> [WrongCopy; 14] {
    let replaying: [(&'static str, ReplayFunction); 14] = [
        ("pause-judged-while-it-lasts", pause_judged_while_it_lasts),
        ("long-pause-keeps-the-mark", replay::<BreakMarks>),
        ("rest-alone-keeps-the-mark", replay::<RestMarks>),
        ("second-part-needs-no-mark", replay::<NoMarkNeeded>),
        (
            "unmarked-second-clears-spell-too",
            replay::<UnmarkedClearsSpell>,
        ),
        ("unmarked-second-sets-no-mark", replay::<UnmarkedSetsNone>),
        ("second-part-clears-the-mark-alone", replay::<MarkAlone>),
        ("first-part-just-met-sets-no-mark", replay::<FirstStrict>),
        (
            "second-part-just-met-clears-nothing",
            replay::<SecondStrict>,
        ),
        ("short-pause-clears-the-mark", replay::<ShortClears>),
        ("first-part-clears-spell", replay::<FirstClears>),
        ("no-split-and-any-pause-marks", replay::<MarksWithoutSplit>),
        ("lent-mark-ignored", lent_mark_ignored),
        ("mark-not-handed-back", mark_not_handed_back),
    ];
    replaying.map(|(name, replay)| WrongCopy {
        name,
        operations: Operations { replay, ..DOCUMENT },
    })
}

/// Judges a pause anew at each of its records, with the mark that its own beginning has set: every
/// record of a pause is replaced by a pause of all the seconds so far, and other work behind it.
fn pause_judged_while_it_lasts(trace: &[u8], rules: LentRules, figures: &mut LentFigures) -> Reply {
    let start = *figures;
    let reply = right_replay(trace, rules, figures);
    if reply.number != 0 {
        return reply;
    }
    let mut judged = Vec::new();
    let mut lasted = 0;
    for mut record in TraceRecord::read_all(trace) {
        if record.activity == PAUSE {
            lasted = LONGEST_ACTIVITY.min(lasted + record.seconds);
            record.seconds = lasted;
        } else {
            lasted = 0;
        }
        judged.extend([record, SECOND_OF_WORK]);
    }
    let mut wrong = start;
    if right_replay(&TraceRecord::all_bytes(&judged), rules, &mut wrong).number == 0 {
        *figures = wrong;
    }
    reply
}

const SECOND_OF_WORK: TraceRecord = TraceRecord {
    activity: OTHER_WORK,
    seconds: 1,
};

fn lent_mark_ignored(trace: &[u8], rules: LentRules, figures: &mut LentFigures) -> Reply {
    let [spell, shift, week, _] = *figures;
    let mut unmarked = [spell, shift, week, 0];
    let reply = right_replay(trace, rules, &mut unmarked);
    if reply.number == 0 {
        *figures = unmarked;
    }
    reply
}

fn mark_not_handed_back(trace: &[u8], rules: LentRules, figures: &mut LentFigures) -> Reply {
    let [.., mark] = *figures;
    let reply = right_replay(trace, rules, figures);
    figures[3] = mark;
    reply
}

/// A copy with another mark after a whole pause.
macro_rules! marked_otherwise {
    ($copy:ident, |$pause:ident, $marked:ident, $order:ident| $after:expr) => {
        struct $copy;

        impl Replayer for $copy {
            fn marked_after($pause: u64, $marked: bool, $order: &Order) -> bool {
                $after
            }
        }
    };
}

/// A copy in which other pauses clear spell.
macro_rules! cleared_otherwise {
    ($copy:ident, |$pause:ident, $marked:ident, $order:ident| $clears:expr) => {
        struct $copy;

        impl Replayer for $copy {
            fn clears_spell($pause: u64, $marked: bool, $order: &Order) -> bool {
                $clears
            }
        }
    };
}

marked_otherwise!(BreakMarks, |pause, marked, order| {
    let is_break = pause >= order.break_time && pause < order.rest_time;
    Document::marked_after(pause, marked, order) || marked && is_break
});
marked_otherwise!(RestMarks, |pause, marked, order| {
    Document::marked_after(pause, marked, order) || marked && pause >= order.rest_time
});
marked_otherwise!(UnmarkedSetsNone, |pause, marked, order| {
    let is_second = pause >= order.second_part;
    Document::marked_after(pause, marked, order) && (marked || !is_second)
});
marked_otherwise!(FirstStrict, |pause, marked, order| {
    let just_met = pause == order.first_part;
    Document::marked_after(pause, marked, order) && (marked || !just_met)
});
marked_otherwise!(ShortClears, |pause, marked, order| {
    let is_short = (1..order.break_time).contains(&pause) && pause < order.first_part;
    Document::marked_after(pause, marked, order) && !is_short
});
marked_otherwise!(MarksWithoutSplit, |pause, marked, order| {
    let short = (1..order.break_time).contains(&pause);
    Document::marked_after(pause, marked, order) || short && !order.has_split()
});
cleared_otherwise!(UnmarkedClearsSpell, |pause, _marked, order| {
    Document::clears_spell(pause, true, order)
});
cleared_otherwise!(MarkAlone, |pause, _marked, order| {
    Document::clears_spell(pause, false, order)
});
cleared_otherwise!(FirstClears, |pause, marked, order| {
    let is_first = order.has_split() && pause >= order.first_part;
    Document::clears_spell(pause, marked, order) || is_first
});

struct NoMarkNeeded;

impl Replayer for NoMarkNeeded {
    fn clears_spell(pause: u64, _: bool, order: &Order) -> bool {
        Document::clears_spell(pause, true, order)
    }

    fn marked_after(pause: u64, marked: bool, order: &Order) -> bool {
        let is_second = order.has_split() && pause >= order.second_part;
        Document::marked_after(pause, marked, order) && !is_second
    }
}

struct SecondStrict;

impl Replayer for SecondStrict {
    fn clears_spell(pause: u64, marked: bool, order: &Order) -> bool {
        Document::clears_spell(pause, marked && pause != order.second_part, order)
    }

    fn marked_after(pause: u64, marked: bool, order: &Order) -> bool {
        let just_met = marked && pause == order.second_part && pause < order.break_time;
        Document::marked_after(pause, marked, order) || just_met
    }
}
