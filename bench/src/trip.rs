//! What both planners know of an order: its figures, states, and what moves lead to.

use other::mapcheck::MOST_ROADS;
use other::moves::{Mark, Move, BREAK, DRIVE, FIRST, REST, SECOND, WEEKLY};
use other::order::Order;
use other::sheet::{Record, Sheet};

use crate::ban_days::gate;

/// The fields stand in the order of rank, so that the derived comparison is rank.
#[derive(Clone, Copy, Debug, PartialEq, Eq, PartialOrd, Ord)]
pub struct State {
    pub clock: u32,
    pub spell: u32,
    pub shift: u32,
    pub week: u32,
    pub mark: Mark,
    pub junction: u32,
}

/// A move as one number: a road's number, or a pause. The numbers rise by kind, then by road.
pub type Step = u32;

pub const BREAK_STEP: Step = MOST_ROADS as Step + 1; // above every road's number
pub const REST_STEP: Step = BREAK_STEP + 1;
pub const FIRST_STEP: Step = REST_STEP + 1;
pub const SECOND_STEP: Step = FIRST_STEP + 1;
pub const WEEKLY_STEP: Step = SECOND_STEP + 1;

/// An accepted order's figures.
#[derive(Clone, Copy, Debug)]
pub struct Trip {
    pub start: State,
    pub target: u32,
    latest: u32,
    spell_limit: u32,
    break_time: u32,
    shift_limit: u32,
    rest_time: u32,
    /// Both 0 where there is no split.
    first_part: u32,
    second_part: u32,
    week_limit: u32,
    weekly_rest: u32,
}

impl Trip {
    pub fn new(order: &Order) -> Trip {
        Trip {
            start: State {
                clock: order.departure as u32,
                spell: order.spell as u32,
                shift: order.shift as u32,
                week: order.week as u32,
                mark: Mark::Unmarked,
                junction: order.source as u32,
            },
            target: order.target as u32,
            latest: order.latest as u32,
            spell_limit: order.spell_limit as u32,
            break_time: order.break_time as u32,
            shift_limit: order.shift_limit as u32,
            rest_time: order.rest_time as u32,
            first_part: order.first_part as u32,
            second_part: order.second_part as u32,
            week_limit: order.week_limit as u32,
            weekly_rest: order.weekly_rest as u32,
        }
    }

    /// The road is entered when its gate opens; only the clock sees the queue.
    pub fn after_drive(&self, state: &State, to: u32, time: u32, is_banned: bool) -> State {
        let entry = if is_banned {
            gate(state.clock)
        } else {
            state.clock
        };
        State {
            clock: entry + time,
            spell: state.spell + time,
            shift: state.shift + time,
            week: state.week + time,
            junction: to,
            ..*state
        }
    }

    /// The pauses that a car park offers and the states after them.
    pub fn pauses(&self, state: &State) -> impl Iterator<Item = (Step, State)> {
        let is_split = self.first_part != 0;
        let is_marked = state.mark == Mark::Marked;
        let later = |seconds, mark| State {
            clock: state.clock + seconds,
            mark,
            ..*state
        };
        let broken = |seconds| State {
            spell: 0,
            ..later(seconds, Mark::Unmarked)
        };
        let rested = |seconds| State {
            shift: 0,
            ..broken(seconds)
        };
        let after_weekly_rest = State {
            week: 0,
            ..rested(self.weekly_rest)
        };
        let pauses = [
            (BREAK_STEP, broken(self.break_time), true),
            (REST_STEP, rested(self.rest_time), true),
            (FIRST_STEP, later(self.first_part, Mark::Marked), is_split),
            (SECOND_STEP, broken(self.second_part), is_split && is_marked),
            (WEEKLY_STEP, after_weekly_rest, true),
        ];
        let offered = pauses.into_iter().filter(|(_, _, is_offered)| *is_offered);
        offered.map(|(step, after, _)| (step, after))
    }

    /// Whether a move that leads to this state is legal.
    pub fn allows(&self, after: &State) -> bool {
        after.spell <= self.spell_limit
            && after.shift <= self.shift_limit
            && after.week <= self.week_limit
            && after.clock <= self.latest
    }
}

/// The sheet's record of a step that led to a state. A pause is where it leads.
pub fn record_of(step: Step, after: &State) -> Record {
    let (kind, number) = match step {
        BREAK_STEP => (BREAK, after.junction),
        REST_STEP => (REST, after.junction),
        FIRST_STEP => (FIRST, after.junction),
        SECOND_STEP => (SECOND, after.junction),
        WEEKLY_STEP => (WEEKLY, after.junction),
        road => (DRIVE, road),
    };
    Record {
        step: Move {
            kind,
            number: number.into(),
        },
        clock: after.clock.into(),
    }
}

/// The sheet of a plan with these records.
pub fn sheet_ending_at(end: &State, labels: u64, records: Vec<Record>) -> Sheet {
    Sheet {
        arrival: end.clock.into(),
        spell: end.spell.into(),
        shift: end.shift.into(),
        week: end.week.into(),
        labels,
        records,
    }
}
