//! States, the moves that the rules offer, and which of them are legal.

use crate::bans::accepted_bans;
use crate::calendar;
use crate::map::Map;
use crate::mapcheck::accepted_map;
use crate::order::{accepted_order, Order};
use crate::reply::Reply;

pub const DRIVE: u64 = 1;
pub const BREAK: u64 = 2;
pub const REST: u64 = 3;
pub const FIRST: u64 = 4;
pub const SECOND: u64 = 5;
pub const WEEKLY: u64 = 6;

/// The mark that a first part sets. The better one stands first, for rank and for dominance.
#[derive(Clone, Copy, Debug, PartialEq, Eq, PartialOrd, Ord)]
pub enum Mark {
    Marked,
    Unmarked,
}

/// The fields stand in the order of rank, so that the derived comparison is rank.
#[derive(Clone, Copy, Debug, PartialEq, Eq, PartialOrd, Ord)]
pub struct State {
    pub clock: u64,
    pub spell: u64,
    pub shift: u64,
    pub week: u64,
    pub mark: Mark,
    pub junction: u64,
}

impl State {
    /// Of two different states at one junction, whether this one dominates the other.
    pub fn dominates(&self, other: &State) -> bool {
        self != other
            && self.junction == other.junction
            && self.clock <= other.clock
            && self.spell <= other.spell
            && self.shift <= other.shift
            && self.week <= other.week
            && self.mark <= other.mark
    }
}

/// Any kind and number that a sheet may hold. The derived comparison takes the lowest kind first,
/// then the lowest number.
#[derive(Clone, Copy, Debug, PartialEq, Eq, PartialOrd, Ord)]
pub struct Move {
    pub kind: u64,
    pub number: u64,
}

/// An accepted map with an accepted order and ban list.
#[derive(Clone, Debug)]
pub struct Trip {
    pub map: Map,
    pub order: Order,
    /// The numbers of the banned roads.
    pub bans: Vec<u32>,
}

/// Map and order, unless one of refusals 1 to 11 fits.
pub fn accepted_run(map: &[u8], order: &[u8]) -> Result<(Map, Order), Reply> {
    let map = accepted_map(map)?;
    let order = accepted_order(order, map.junctions.len() as u64)?;
    Ok((map, order))
}

impl Trip {
    /// Refusals 1 to 11 and 25.
    pub fn open(map: &[u8], order: &[u8], bans: &[u32]) -> Result<Trip, Reply> {
        let (map, order) = accepted_run(map, order)?;
        let bans = accepted_bans(bans, map.roads.len() as u64)?.to_vec();
        Ok(Trip { map, order, bans })
    }

    /// A trip that meets no banned road.
    pub fn without_bans(map: Map, order: Order) -> Trip {
        let bans = Vec::new();
        Trip { map, order, bans }
    }

    pub fn start(&self) -> State {
        State {
            clock: self.order.departure,
            spell: self.order.spell,
            shift: self.order.shift,
            week: self.order.week,
            mark: Mark::Unmarked,
            junction: self.order.source,
        }
    }

    /// The state after a move, legal or not; none where the rules do not offer the move.
    pub fn after(&self, state: &State, step: Move) -> Option<State> {
        match step.kind {
            DRIVE => self.after_drive(state, step.number),
            _ if self.may_pause(state, step.number) => self.after_pause(state, step.kind),
            _ => None,
        }
    }

    /// The state after a pause of this kind, wherever it is taken.
    pub fn after_pause(&self, state: &State, kind: u64) -> Option<State> {
        let order = &self.order;
        let later = |seconds| State {
            clock: state.clock + seconds,
            ..*state
        };
        match kind {
            BREAK => Some(State {
                spell: 0,
                mark: Mark::Unmarked,
                ..later(order.break_time)
            }),
            REST => Some(State {
                spell: 0,
                shift: 0,
                mark: Mark::Unmarked,
                ..later(order.rest_time)
            }),
            FIRST if order.has_split() => Some(State {
                mark: Mark::Marked,
                ..later(order.first_part)
            }),
            SECOND if order.has_split() && state.mark == Mark::Marked => Some(State {
                spell: 0,
                mark: Mark::Unmarked,
                ..later(order.second_part)
            }),
            WEEKLY => Some(State {
                spell: 0,
                shift: 0,
                week: 0,
                mark: Mark::Unmarked,
                ..later(order.weekly_rest)
            }),
            _ => None,
        }
    }

    fn after_drive(&self, state: &State, number: u64) -> Option<State> {
        if !(1..=self.map.roads.len() as u64).contains(&number) {
            return None;
        }
        let road = self.map.road(number);
        (road.from == state.junction).then(|| State {
            clock: self.entry(state, number) + road.time(),
            spell: state.spell + road.time(),
            shift: state.shift + road.time(),
            week: state.week + road.time(),
            junction: road.to,
            ..*state
        })
    }

    /// When a lorry in this state enters a road: a queue before it adds to nothing but the clock.
    fn entry(&self, state: &State, number: u64) -> u64 {
        if self.is_banned(number) {
            calendar::entry(state.clock)
        } else {
            state.clock
        }
    }

    pub fn is_banned(&self, number: u64) -> bool {
        self.bans.iter().any(|banned| u64::from(*banned) == number)
    }

    fn may_pause(&self, state: &State, number: u64) -> bool {
        number == state.junction && self.map.junctions[number as usize - 1].car_park == 1
    }

    /// Every move that some state at a junction may be offered.
    fn moves_at(&self, junction: u64) -> impl Iterator<Item = Move> {
        let drives = (1..=self.map.roads.len() as u64).map(|number| (DRIVE, number));
        let pauses = (BREAK..=WEEKLY).map(move |kind| (kind, junction));
        drives
            .chain(pauses)
            .map(|(kind, number)| Move { kind, number })
    }

    /// Whether a move that leads to this state is legal.
    pub fn allows(&self, after: &State) -> bool {
        after.spell <= self.order.spell_limit
            && after.shift <= self.order.shift_limit
            && after.week <= self.order.week_limit
            && after.clock <= self.order.latest
    }

    /// Every move that the rules offer, with the state after it.
    pub fn offered_moves<O: Offer>(&self, state: &State) -> Vec<(Move, State)> {
        self.moves_at(state.junction)
            .filter_map(|step| Some((step, O::after(self, state, step)?)))
            .collect()
    }

    pub fn legal_moves<O: Offer>(&self, state: &State) -> Vec<(Move, State)> {
        let mut moves = self.offered_moves::<O>(state);
        moves.retain(|(_, after)| O::allows(self, after));
        moves
    }
}

/// What planning, retiming and audit take a move to do, and which they take for legal. The defaults are
/// the documents'; a wrong copy changes one of them.
pub trait Offer: Sized {
    fn after(trip: &Trip, state: &State, step: Move) -> Option<State> {
        trip.after(state, step)
    }

    fn allows(trip: &Trip, after: &State) -> bool {
        trip.allows(after)
    }
}

/// What the documents say, with nothing changed.
pub struct Document;

impl Offer for Document {}
