//! Retiming and audit.

use crate::moves::{Offer, State, Trip};
use crate::reply::*;
use crate::sheet::{Record, Sheet};

pub fn retime<O: Offer>(
    map: &[u8],
    order: &[u8],
    bans: &[u32],
    sheet: &[u8],
    out: &mut [u8],
) -> Reply {
    told(retimed::<O>(map, order, bans, sheet, out))
}

pub fn audit<O: Offer>(map: &[u8], order: &[u8], bans: &[u32], sheet: &[u8]) -> Reply {
    told(audited::<O>(map, order, bans, sheet))
}

fn retimed<O: Offer>(
    map: &[u8],
    order: &[u8],
    bans: &[u32],
    sheet: &[u8],
    out: &mut [u8],
) -> Result<Reply, Reply> {
    let (trip, given) = opened(map, order, bans, sheet)?;
    let ignore_clock = |_: u64, _: &Record, _: &State| Ok(());
    let states = walk::<O>(&trip, &given, ignore_clock)?;
    let end = reached_target(&trip, &states)?;
    if out.len() < given.length() {
        return Err(Reply::refused(SHORT_SHEET, given.length() as u64));
    }
    let timed = |(record, after): (&Record, &State)| Record {
        clock: after.clock,
        ..*record
    };
    let records = given.records.iter().zip(&states[1..]).map(timed).collect();
    Sheet::ending_at(&end, given.labels, records).write(out);
    Ok(succeeded(&given, &end))
}

fn audited<O: Offer>(map: &[u8], order: &[u8], bans: &[u32], sheet: &[u8]) -> Result<Reply, Reply> {
    let (trip, given) = opened(map, order, bans, sheet)?;
    let compare_clock = |number: u64, record: &Record, after: &State| {
        if record.clock == after.clock {
            Ok(())
        } else {
            Err(Reply::refused(FALSE_FIGURE, number))
        }
    };
    let states = walk::<O>(&trip, &given, compare_clock)?;
    let end = reached_target(&trip, &states)?;
    let given_figures = [given.arrival, given.spell, given.shift, given.week];
    if given_figures != [end.clock, end.spell, end.shift, end.week] {
        let header = given.records.len() as u64 + 1;
        return Err(Reply::refused(FALSE_FIGURE, header));
    }
    Ok(succeeded(&given, &end))
}

/// Refusals 1 to 11, 25 and 15.
fn opened(map: &[u8], order: &[u8], bans: &[u32], sheet: &[u8]) -> Result<(Trip, Sheet), Reply> {
    let trip = Trip::open(map, order, bans)?;
    let torn = Reply::refused(TORN_SHEET, sheet.len() as u64);
    Ok((trip, Sheet::read(sheet).ok_or(torn)?))
}

/// The start and the state after each record: refusals 16 and 17 in each move, then `judge_clock`.
fn walk<O: Offer>(
    trip: &Trip,
    given: &Sheet,
    judge_clock: impl Fn(u64, &Record, &State) -> Result<(), Reply>,
) -> Result<Vec<State>, Reply> {
    let mut state = trip.start();
    let mut states = vec![state];
    for (number, record) in (1..).zip(&given.records) {
        let foreign = Reply::refused(FOREIGN_MOVE, number);
        state = O::after(trip, &state, record.step).ok_or(foreign)?;
        if !O::allows(trip, &state) {
            return Err(Reply::refused(OVERRUN, number));
        }
        judge_clock(number, record, &state)?;
        states.push(state);
    }
    Ok(states)
}

fn reached_target(trip: &Trip, states: &[State]) -> Result<State, Reply> {
    let end = states[states.len() - 1];
    if end.junction == trip.order.target {
        Ok(end)
    } else {
        Err(Reply::refused(STRAY, end.junction))
    }
}

fn succeeded(given: &Sheet, end: &State) -> Reply {
    Reply::success(given.records.len() as u64, end.clock)
}
