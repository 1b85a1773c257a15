//! Laws of a closure: what striking changes, and that a preview is planning on a struck copy, whose plan is never better
//! than the one before.

use super::ensure;
use crate::closure_probes::ample_preview;
use crate::make::closures::Closure;
use crate::make::random::Random;
use crate::make::Run;
use crate::map::{HEADER_BYTES, JUNCTION_BYTES, ROAD_BYTES};
use crate::moves::DRIVE;
use crate::operations::Operations;
use crate::probe::{answer, Answer, Probe};
use crate::reply::{Reply, FOREIGN_MOVE, NO_ROAD, STRAY};
use crate::sheet::{sheet_bytes, Record, Sheet};
use crate::words::{put_word, word};

/// The first law that a closure breaks, in words, and the preview that shows it.
pub fn obeyed(
    operations: &Operations,
    closure: &Closure,
    random: &mut Random,
) -> Result<(), String> {
    let preview = ample_preview(random, closure);
    judged(operations, closure, &preview).map_err(|law| format!("{law}\n{}", preview.describe()))
}

fn judged(operations: &Operations, closure: &Closure, preview: &Probe) -> Result<(), String> {
    let mut struck = closure.run.clone();
    if (operations.strike)(&mut struck.map, closure.road).number != 0 {
        return ensure(
            struck.map == closure.run.map,
            "a refused strike changes the map",
        );
    }
    leads_back(operations, closure, &struck)?;
    let previewed = answer(operations, preview);
    ensure(
        previewed == answer(operations, &planning_like(preview, &struck)),
        "a preview is not planning on the struck map",
    )?;
    if let Some(sheet) = plan_in(&previewed) {
        let expected = Reply::success(sheet.records.len() as u64, sheet.arrival);
        for run in [&struck, &closure.run] {
            ensure(
                audited(operations, run, &sheet) == expected,
                "a preview's sheet does not pass its audit, on the struck map or on the other",
            )?;
        }
    }
    let open = answer(operations, &planning_like(preview, &closure.run));
    nothing_better(operations, closure, &struck, &open, &previewed)
}

/// The struck map passes, and differs in the road's to-junction alone.
fn leads_back(operations: &Operations, closure: &Closure, struck: &Run) -> Result<(), String> {
    let mut expected = closure.run.map.clone();
    let at = road_offset(&expected, closure.road);
    let from = word(&expected, at);
    put_word(&mut expected, at + 4, from);
    ensure(struck.map == expected, "striking changes something else")?;
    ensure(
        (operations.check_map)(&struck.map) == Reply::success(0, 0),
        "a struck map does not pass",
    )
}

fn road_offset(map: &[u8], road: u32) -> usize {
    HEADER_BYTES + JUNCTION_BYTES * word(map, 4) as usize + ROAD_BYTES * (road as usize - 1)
}

/// Planning of a run that is lent what the preview is.
fn planning_like(preview: &Probe, run: &Run) -> Probe {
    let Probe::Preview { labels, sheet, .. } = preview else {
        unreachable!("an ample preview is a preview");
    };
    Probe::Plan {
        run: run.clone(),
        labels: labels.clone(),
        sheet: sheet.clone(),
    }
}

/// The plan that an answer has written, if it has.
fn plan_in(answer: &Answer) -> Option<Sheet> {
    if answer.reply.number != 0 {
        return None;
    }
    let length = sheet_bytes(word(&answer.written, 0) as usize);
    Sheet::read(answer.written.get(..length)?)
}

fn audited(operations: &Operations, run: &Run, sheet: &Sheet) -> Reply {
    (operations.audit)(&run.map, &run.order, &run.bans, &sheet.bytes())
}

/// A closure brings no journey and no earlier arrival. A plan that does not drive the road stays, but
/// for its label count. One that does is refused on the struck map: the drive leads back, so that the move behind
/// it is foreign or, where it is the last, the end is astray.
fn nothing_better(
    operations: &Operations,
    closure: &Closure,
    struck: &Run,
    open: &Answer,
    previewed: &Answer,
) -> Result<(), String> {
    if open.reply.number == NO_ROAD {
        return ensure(
            previewed.reply.number == NO_ROAD,
            "a closure makes a journey",
        );
    }
    let Some(plan) = plan_in(open) else {
        return Ok(());
    };
    let closed = plan_in(previewed);
    if let Some(closed) = &closed {
        ensure(plan.arrival <= closed.arrival, "a closure arrives earlier")?;
    }
    let Some(number) = first_drive(&plan.records, closure.road) else {
        let labels = previewed.reply.place;
        return ensure(
            closed == Some(Sheet { labels, ..plan }),
            "the closure of a road that the plan does not drive changes the plan",
        );
    };
    let expected = if number < plan.records.len() {
        Reply::refused(FOREIGN_MOVE, number as u64 + 1)
    } else {
        let from = word(&struck.map, road_offset(&struck.map, closure.road));
        Reply::refused(STRAY, from)
    };
    ensure(
        audited(operations, struck, &plan) == expected,
        "a sheet that drives the closed road is not refused behind it",
    )
}

/// The first move, from 1, that drives the road.
fn first_drive(records: &[Record], road: u32) -> Option<usize> {
    let drives =
        |record: &Record| record.step.kind == DRIVE && record.step.number == u64::from(road);
    Some(records.iter().position(drives)? + 1)
}
