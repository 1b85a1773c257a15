//! Laws between replies of one implementation: label space is free, demand 3, a trace may be
//! replayed in two parts, what a closure changes, and what a ban list does.

mod bans;
mod closures;

use crate::case_probes::{ample_plan, label_count, marked_words, AMPLE_WORDS};
use crate::make::random::Random;
use crate::make::traces::Replay;
use crate::make::{Case, Run};
use crate::operations::Operations;
use crate::planning::WORDS_OF_A_LABEL;
use crate::probe::{answer, Answer, Probe};
use crate::replay::{TraceRecord, PAUSE, TRACE_RECORD_BYTES};
use crate::reply::{Reply, FULL, SHORT_SHEET};
use crate::sheet::sheet_bytes;
use crate::words::{bytes_of, word};

/// The first law that a case breaks, in words.
pub fn obeyed(operations: &Operations, case: &Case, random: &mut Random) -> Result<(), String> {
    for run in case.runs() {
        label_space_is_free(operations, run, random)?;
    }
    if let Some(easier) = &case.easier {
        nothing_worse(operations, &case.run, easier, random)?;
    }
    for replay in &case.replays {
        two_parts_are_one(operations, replay, random)?;
    }
    for closure in &case.closures {
        closures::obeyed(operations, closure, random)?;
    }
    bans::obeyed(operations, case, random)
}

/// Runs that differ only in label space, none of them full, have equal replies and sheets.
fn label_space_is_free(
    operations: &Operations,
    run: &Run,
    random: &mut Random,
) -> Result<(), String> {
    let ample = ample_plan(random, run);
    let first = answer(operations, &ample);
    let Probe::Plan { sheet, .. } = &ample else {
        unreachable!("an ample plan is a plan");
    };
    let labels = WORDS_OF_A_LABEL * label_count(&first.reply).unwrap_or(1);
    for label_words in [labels, labels + WORDS_OF_A_LABEL - 1, AMPLE_WORDS] {
        let other = answer(
            operations,
            &Probe::Plan {
                run: run.clone(),
                labels: marked_words(random, label_words),
                sheet: sheet.clone(),
            },
        );
        ensure(
            other.reply.number == FULL || other == first,
            "the answer changes with the label space",
        )?;
    }
    Ok(())
}

/// Demand 3: where A plans, A's moves hold under B and B plans too, neither arriving later.
fn nothing_worse(
    operations: &Operations,
    run: &Run,
    easier: &Run,
    random: &mut Random,
) -> Result<(), String> {
    let first = answer(operations, &ample_plan(random, run));
    if first.reply.number != 0 {
        return Ok(());
    }
    let timed = moves_hold(operations, &first, easier, random)?;
    let second = answer(operations, &ample_plan(random, easier)).reply;
    ensure(second.number == 0, "B does not plan although A does")?;
    ensure(
        second.arrival <= timed.arrival,
        "B arrives later than A's moves under B",
    )?;
    full_by_its_own_count(operations, easier, &second, random)
}

/// A's header and records, timed afresh under B into sheets at least as long.
fn moves_hold(
    operations: &Operations,
    first: &Answer,
    easier: &Run,
    random: &mut Random,
) -> Result<Reply, String> {
    let moves = word(&first.written, 0);
    let taken = first
        .written
        .get(..sheet_bytes(moves as usize))
        .ok_or("A's sheet does not hold its moves")?;
    let retime = |out| Probe::Retime {
        run: easier.clone(),
        sheet: taken.to_vec(),
        out,
    };
    let exact = answer(operations, &retime(random.bytes(taken.len()))).reply;
    let longer = answer(operations, &retime(random.bytes(taken.len() + 9))).reply;
    for timed in [exact, longer] {
        ensure(
            timed.number == 0 && timed.place == moves,
            "A's moves do not hold under B",
        )?;
        ensure(
            timed.arrival <= first.reply.arrival,
            "A's moves arrive later under B",
        )?;
    }
    Ok(exact)
}

/// B is full exactly when its own count says so, and otherwise finds its road.
fn full_by_its_own_count(
    operations: &Operations,
    easier: &Run,
    planned: &Reply,
    random: &mut Random,
) -> Result<(), String> {
    let count = planned.place as usize;
    for labels in [0, 1, count - 1, count, count + 1] {
        for bytes in [0, sheet_bytes(count)] {
            let probe = Probe::Plan {
                run: easier.clone(),
                labels: marked_words(random, WORDS_OF_A_LABEL * labels),
                sheet: random.bytes(bytes),
            };
            let expected = match (labels < count, bytes) {
                (true, _) => FULL,
                (false, 0) => SHORT_SHEET,
                (false, _) => 0,
            };
            ensure(
                answer(operations, &probe).reply.number == expected,
                "B's refusal is not the one its own plan asks for",
            )?;
        }
    }
    Ok(())
}

/// A trace that is not torn, cut where no pause goes on: its second part, replayed from the figures
/// that the first one leaves, does what the whole trace does, and its records count on.
fn two_parts_are_one(
    operations: &Operations,
    replay: &Replay,
    random: &mut Random,
) -> Result<(), String> {
    if !replay.trace.len().is_multiple_of(TRACE_RECORD_BYTES) {
        return Ok(());
    }
    let cut = random.pick(&cuts_beside_pauses(&TraceRecord::read_all(&replay.trace)));
    let (one, next) = replay.trace.split_at(TRACE_RECORD_BYTES * cut);
    let replayed = |trace: &[u8], figures| {
        let probe = Probe::Replay {
            trace: trace.to_vec(),
            rules: replay.rules,
            figures,
        };
        answer(operations, &probe)
    };
    let whole = replayed(&replay.trace, replay.figures);
    let first = replayed(one, replay.figures);
    let expected = match first.reply.number {
        0 => {
            let figures = [0, 4, 8, 12].map(|offset| word(&first.written, offset) as u32);
            counted_on(replay, &first, replayed(next, figures))
        }
        _ => first,
    };
    ensure(whole == expected, "two parts of a trace are not the whole").map_err(|law| {
        format!(
            "{law}, cut behind record {cut}\n{}",
            replay.probe().describe()
        )
    })
}

/// Between which records a trace can be cut and no pause with it.
fn cuts_beside_pauses(records: &[TraceRecord]) -> Vec<usize> {
    let is_pause = |index: usize| records.get(index).is_some_and(|r| r.activity == PAUSE);
    (0..=records.len())
        .filter(|cut| *cut == 0 || !is_pause(cut - 1) || !is_pause(*cut))
        .collect()
}

/// What the second part leaves, as the whole trace must: a refusal leaves the figures of the start.
fn counted_on(replay: &Replay, first: &Answer, second: Answer) -> Answer {
    let reply = Reply {
        place: first.reply.place + second.reply.place,
        ..second.reply
    };
    let written = match reply.number {
        0 => second.written,
        _ => bytes_of(&replay.figures.map(u64::from)),
    };
    Answer {
        reply,
        written,
        ..second
    }
}

fn ensure(holds: bool, complaint: &str) -> Result<(), String> {
    if holds {
        Ok(())
    } else {
        Err(complaint.to_string())
    }
}
