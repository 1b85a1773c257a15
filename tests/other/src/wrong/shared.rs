//! What several files of wrong copies make them with.

use super::WrongCopy;
use crate::bans::accepted_bans;
use crate::moves::{Move, Offer, State, Trip};
use crate::operations::{
    AuditFunction, CheckOrderFunction, Operations, PlanFunction, PreviewFunction, RetimeFunction,
    DOCUMENT,
};
use crate::order::{check_order, refuse_broken, Order, ORDER_BYTES};
use crate::planning::{plan, Planner};
use crate::reply::*;
use crate::retiming::{audit, retime};

/// Each rule on an order: the word it is charged to, and whether it holds.
pub struct Verdicts {
    /// On words 6 to 13: see `Order::rules`.
    pub rules: Vec<(u64, bool)>,
    /// On words 0 to 5 and 14: see `Order::trip`.
    pub trip: Vec<(u64, bool)>,
}

/// The order judged with some verdicts changed.
pub fn check_by(
    bytes: &[u8],
    bans: &[u32],
    junctions: u32,
    roads: u32,
    change: impl Fn(&Order, &mut Verdicts),
) -> Reply {
    if bytes.len() != ORDER_BYTES {
        return check_order(bytes, bans, junctions, roads);
    }
    let order = Order::read(bytes);
    let mut verdicts = Verdicts {
        rules: order.rules().to_vec(),
        trip: order.trip(u64::from(junctions)),
    };
    change(&order, &mut verdicts);
    let judged = refuse_broken(BAD_RULES, &verdicts.rules)
        .and_then(|()| refuse_broken(BAD_TRIP, &verdicts.trip))
        .and_then(|()| accepted_bans(bans, u64::from(roads)));
    told(judged.map(|_| Reply::success(0, 0)))
}

pub fn checking(name: &'static str, check_order: CheckOrderFunction) -> WrongCopy {
    WrongCopy {
        name,
        operations: Operations {
            check_order,
            ..DOCUMENT
        },
    }
}

/// A copy of the order check in which some verdicts are changed.
macro_rules! judging {
    ($name:literal, |$order:pat_param, $by:ident| $change:expr) => {
        checking($name, |bytes, bans, junctions, roads| {
            check_by(bytes, bans, junctions, roads, |$order, $by| $change)
        })
    };
}
pub(super) use judging;

pub fn with_plan(name: &'static str, plan: PlanFunction) -> WrongCopy {
    let operations = Operations { plan, ..DOCUMENT };
    WrongCopy { name, operations }
}

pub fn with_preview(name: &'static str, preview: PreviewFunction) -> WrongCopy {
    let operations = Operations {
        preview,
        ..DOCUMENT
    };
    WrongCopy { name, operations }
}

pub fn with_retime(name: &'static str, retime: RetimeFunction) -> WrongCopy {
    let operations = Operations { retime, ..DOCUMENT };
    WrongCopy { name, operations }
}

pub fn with_audit(name: &'static str, audit: AuditFunction) -> WrongCopy {
    let operations = Operations { audit, ..DOCUMENT };
    WrongCopy { name, operations }
}

pub fn planning<P: Planner>(name: &'static str) -> WrongCopy {
    WrongCopy {
        name,
        operations: Operations {
            plan: plan::<P>,
            ..DOCUMENT
        },
    }
}

pub fn timing<O: Offer>(name: &'static str) -> WrongCopy {
    WrongCopy {
        name,
        operations: Operations {
            retime: retime::<O>,
            audit: audit::<O>,
            ..DOCUMENT
        },
    }
}

/// A wrong move twice: in planning, where it must change a plan or N, and in retiming and audit.
macro_rules! in_plans_and_timed {
    ($($copy:ident: $name:literal),* $(,)?) => {
        [$(planning::<$copy>($name), timing::<$copy>(concat!($name, "-timed"))),*]
    };
}
pub(super) use in_plans_and_timed;

/// The state after a move, changed where the move is of one kind.
pub fn after_changed(
    trip: &Trip,
    state: &State,
    step: Move,
    kind: u64,
    change: impl Fn(&mut State),
) -> Option<State> {
    let mut after = trip.after(state, step)?;
    if step.kind == kind {
        change(&mut after);
    }
    Some(after)
}

/// A copy in which moves of one kind leave another state.
macro_rules! changed_move {
    ($copy:ident, $kind:ident, |$before:ident, $after:ident| $change:expr) => {
        struct $copy;

        impl Offer for $copy {
            fn after(trip: &Trip, $before: &State, step: Move) -> Option<State> {
                after_changed(trip, $before, step, $kind, |$after| $change)
            }
        }

        impl Planner for $copy {}
    };
}
pub(super) use changed_move;
