//! Planning, written to follow document 01's words and not to be fast: all reachable states are
//! enumerated first, and everything else is said about that set.

use std::cmp::Ordering;
use std::collections::{BTreeSet, VecDeque};

use crate::moves::{Document, Move, Offer, State, Trip};
use crate::reply::*;
use crate::sheet::{Record, Sheet};

pub const WORDS_OF_A_LABEL: usize = 10;
pub const MOST_LABELS: usize = 1_000_000;

/// The rules of planning. The defaults are the documents'; a wrong copy changes one of them.
pub trait Planner: Offer {
    fn dominates(one: &State, other: &State) -> bool {
        one.dominates(other)
    }

    fn rank(one: &State, other: &State) -> Ordering {
        one.cmp(other)
    }

    /// Whether an undominated state is counted in N when there is this answer.
    fn counts(state: &State, answer: &State) -> bool {
        Self::rank(state, answer).is_le()
    }

    /// The parent and its move, out of every label's index and move that lead to a label.
    fn parent(leading: &[(usize, Move)]) -> Option<(usize, Move)> {
        leading.iter().min().copied()
    }

    fn fitting(label_words: usize) -> usize {
        labels_that_fit(label_words)
    }

    fn is_full(labels: usize, fitting: usize) -> bool {
        labels > fitting
    }
}

impl Planner for Document {}

pub fn plan<P: Planner>(
    map: &[u8],
    order: &[u8],
    bans: &[u32],
    labels: &mut [u32],
    sheet: &mut [u8],
) -> Reply {
    told(planned::<P>(map, order, bans, labels.len(), sheet))
}

pub fn labels_that_fit(words: usize) -> usize {
    MOST_LABELS.min(words / WORDS_OF_A_LABEL)
}

fn planned<P: Planner>(
    map: &[u8],
    order: &[u8],
    bans: &[u32],
    label_words: usize,
    sheet: &mut [u8],
) -> Result<Reply, Reply> {
    let trip = Trip::open(map, order, bans)?;
    let reachable = reachable_states::<P>(&trip);
    let answer = answer_of::<P>(&trip, &reachable);
    let labels = labels_of::<P>(&reachable, answer);
    let count = labels.len() as u64;
    let fitting = P::fitting(label_words);
    if P::is_full(labels.len(), fitting) {
        return Err(Reply::refused(FULL, fitting as u64));
    }
    let answer = answer.ok_or(Reply::refused(NO_ROAD, count))?;
    let written = Sheet::ending_at(answer, count, plan_records::<P>(&trip, &labels, answer));
    if sheet.len() < written.length() {
        return Err(Reply::refused(SHORT_SHEET, written.length() as u64));
    }
    written.write(sheet);
    Ok(Reply::success(count, answer.clock))
}

/// The start and all that legal moves lead to from a reachable state.
pub fn reachable_states<P: Planner>(trip: &Trip) -> BTreeSet<State> {
    spread::<P>(trip, usize::MAX)
}

/// Whether a trip has at most so many reachable states.
pub fn reaches_at_most(trip: &Trip, most: usize) -> bool {
    spread::<Document>(trip, most).len() <= most
}

/// The reachable states, breadth first; once there are more than `most`, only some of them.
fn spread<P: Planner>(trip: &Trip, most: usize) -> BTreeSet<State> {
    let mut seen = BTreeSet::from([trip.start()]);
    let mut waiting = VecDeque::from([trip.start()]);
    while let Some(state) = waiting.pop_front() {
        if seen.len() > most {
            break;
        }
        for (_, after) in trip.legal_moves::<P>(&state) {
            if seen.insert(after) {
                waiting.push_back(after);
            }
        }
    }
    seen
}

/// The lowest-ranked reachable state at target.
pub fn answer_of<'a, P: Planner>(trip: &Trip, reachable: &'a BTreeSet<State>) -> Option<&'a State> {
    reachable
        .iter()
        .filter(|state| state.junction == trip.order.target)
        .min_by(|one, other| P::rank(one, other))
}

/// The labels by rank: the undominated states, up to the answer where there is one.
pub fn labels_of<P: Planner>(reachable: &BTreeSet<State>, answer: Option<&State>) -> Vec<State> {
    let mut labels = undominated::<P>(reachable);
    labels.sort_by(P::rank);
    if let Some(answer) = answer {
        labels.retain(|state| P::counts(state, answer));
    }
    labels
}

/// A dominating state ranks lower, and a state that any reachable one dominates is dominated by an
/// undominated one; so each state need only be held against the undominated ones before it.
pub fn undominated<P: Planner>(reachable: &BTreeSet<State>) -> Vec<State> {
    let mut kept: Vec<State> = Vec::new();
    for state in reachable {
        if !kept.iter().any(|before| P::dominates(before, state)) {
            kept.push(*state);
        }
    }
    kept
}

/// The records of a trip's plan, however many labels it needs; none where there is no journey.
pub fn records_of<P: Planner>(trip: &Trip) -> Vec<Record> {
    let reachable = reachable_states::<P>(trip);
    let Some(answer) = answer_of::<P>(trip, &reachable) else {
        return Vec::new();
    };
    let labels = labels_of::<P>(&reachable, Some(answer));
    plan_records::<P>(trip, &labels, answer)
}

/// The plan's records in travelling order: parents are followed back from the answer.
fn plan_records<P: Planner>(trip: &Trip, labels: &[State], answer: &State) -> Vec<Record> {
    let mut records = Vec::new();
    let mut reached = *answer;
    while reached != trip.start() {
        let leading = moves_to::<P>(trip, labels, &reached);
        let Some((parent, step)) = P::parent(&leading) else {
            break; // only a wrong copy drops a label's parent
        };
        records.push(Record {
            step,
            clock: reached.clock,
        });
        reached = labels[parent];
    }
    records.reverse();
    records
}

/// Every label's index and move that lead to exactly this state.
fn moves_to<P: Planner>(trip: &Trip, labels: &[State], state: &State) -> Vec<(usize, Move)> {
    let leading = |(index, label)| {
        trip.legal_moves::<P>(label)
            .into_iter()
            .filter(|(_, after)| after == state)
            .map(move |(step, _)| (index, step))
            .collect::<Vec<_>>()
    };
    labels.iter().enumerate().flat_map(leading).collect()
}
