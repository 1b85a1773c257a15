//! Laws of ban lists: a list that does not pass is refused alike by every call, a shorter one never makes a trip later, and
//! one that a trip cannot meet changes nothing.

use super::{ensure, nothing_worse};
use crate::bans::accepted_bans;
use crate::calendar::{entry, DAY_SECONDS};
use crate::case_probes::ample_plan;
use crate::make::random::Random;
use crate::make::{Case, Run};
use crate::moves::{accepted_run, Trip};
use crate::operations::Operations;
use crate::order::Order;
use crate::probe::{answer, Probe};
use crate::reply::Reply;

/// The first law that a case's lists break, in words.
pub fn obeyed(operations: &Operations, case: &Case, random: &mut Random) -> Result<(), String> {
    for list in &case.lists {
        let run = Run {
            bans: list.clone(),
            ..case.run.clone()
        };
        refused_alike(operations, &run).map_err(|law| format!("{law}: {list:?}"))?;
    }
    if case.run.bans.is_empty() {
        return Ok(());
    }
    match Trip::open(&case.run.map, &case.run.order, &case.run.bans) {
        Ok(trip) => without_a_list(operations, &case.run, &trip.order, random),
        Err(_) => Ok(()),
    }
}

/// Where map and order are accepted, and the list is not.
fn refused_alike(operations: &Operations, run: &Run) -> Result<(), String> {
    let Run { map, order, bans } = run;
    let Ok((sound, _)) = accepted_run(map, order) else {
        return Ok(());
    };
    let [junctions, roads] = [sound.junctions.len(), sound.roads.len()].map(|count| count as u32);
    let checked = (operations.check_order)(order, bans, junctions, roads);
    let passes = accepted_bans(bans, roads.into()).is_ok();
    ensure(
        passes == (checked == Reply::success(0, 0)),
        "a ban list that does not pass is accepted, or one that does is refused",
    )?;
    if passes {
        return Ok(());
    }
    let mut replies = vec![
        (operations.plan)(map, order, bans, &mut [], &mut []),
        (operations.retime)(map, order, bans, &[], &mut []),
        (operations.audit)(map, order, bans, &[]),
    ];
    if roads > 0 {
        let preview = operations.preview;
        replies.push(preview(
            &mut map.clone(),
            order,
            bans,
            roads,
            &mut [],
            &mut [],
        ));
    }
    ensure(
        replies.iter().all(|reply| *reply == checked),
        "a bad ban list is not refused alike",
    )
}

/// An empty list never makes the trip later. Where no clock up to latest stands in a ban, it changes nothing.
fn without_a_list(
    operations: &Operations,
    run: &Run,
    order: &Order,
    random: &mut Random,
) -> Result<(), String> {
    let without = Run::without_bans(run.map.clone(), run.order.clone());
    nothing_worse(operations, run, &without, random)?;
    if meets_a_ban(order) {
        return Ok(());
    }
    let plan = ample_plan(random, run);
    let Probe::Plan { labels, sheet, .. } = plan.clone() else {
        unreachable!("an ample plan is a plan");
    };
    let unbanned = Probe::Plan {
        run: without,
        labels,
        sheet,
    };
    ensure(
        answer(operations, &plan) == answer(operations, &unbanned),
        "a ban list changes a trip that meets no ban",
    )
}

/// Whether a lorry would queue at departure or at a midnight up to latest.
fn meets_a_ban(order: &Order) -> bool {
    let first_midnight = order.departure - order.departure % DAY_SECONDS + DAY_SECONDS;
    let midnights = (first_midnight..=order.latest).step_by(DAY_SECONDS as usize);
    [order.departure]
        .into_iter()
        .chain(midnights)
        .any(|clock| entry(clock) != clock)
}
