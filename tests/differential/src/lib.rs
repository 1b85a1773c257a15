//! The proved library, through its Rust package, as one of the implementations that can stand beside each other.

use other::operations::{LentFigures, LentRules, NameAnswer, Operations};
use other::reply::Reply;
use trunk::{Figures, Planned, Refused, Rules, Timed};

pub const LIBRARY: Operations = Operations {
    check_map: |map| told(trunk::check_map(map), |()| (0, 0)),
    check_order: |order, bans, junctions, roads| {
        told(trunk::check_order(order, bans, junctions, roads), |()| {
            (0, 0)
        })
    },
    plan: |map, order, bans, words, sheet| {
        told(trunk::plan(map, order, bans, words, sheet), planned)
    },
    retime: |map, order, bans, sheet, out| told(trunk::retime(map, order, bans, sheet, out), timed),
    audit: |map, order, bans, sheet| told(trunk::audit(map, order, bans, sheet), timed),
    name: named,
    make_chains: |map| told(trunk::make_chains(map), |()| (0, 0)),
    replay: replayed,
    strike: |map, road| told(trunk::strike(map, road), |()| (0, 0)),
    preview: |map, order, bans, road, words, sheet| {
        told(
            trunk::preview(map, order, bans, road, words, sheet),
            planned,
        )
    },
};

/// Place and arrival of a success, or the refusal.
fn told<T>(answer: Result<T, Refused>, figures: impl FnOnce(T) -> (u64, u64)) -> Reply {
    match answer {
        Ok(success) => {
            let (place, arrival) = figures(success);
            Reply::success(place, arrival)
        }
        Err(refused) => Reply::refused(refused.refusal.number(), refused.place),
    }
}

fn planned(planned: Planned) -> (u64, u64) {
    (planned.labels, planned.arrival)
}

fn timed(timed: Timed) -> (u64, u64) {
    (timed.moves, timed.arrival)
}

/// The part's offset is where it stands in the map.
fn named(map: &[u8], junction: u32) -> NameAnswer {
    let part = trunk::name(map, junction);
    let (offset, length) = match part {
        Ok(part) => (part.as_ptr() as usize - map.as_ptr() as usize, part.len()),
        Err(_) => (0, 0),
    };
    let reply = told(part, |part| (part.len() as u64, 0));
    (reply, offset, length)
}

/// The figures are handed back whatever the reply, so that a refusal which changes them shows.
fn replayed(trace: &[u8], rules: LentRules, figures: &mut LentFigures) -> Reply {
    let [spell, shift, week, mark] = *figures;
    let mut lent = Figures {
        spell,
        shift,
        week,
        marked: mark != 0,
    };
    let answer = trunk::replay(trace, Rules::from_words(rules), &mut lent);
    *figures = [lent.spell, lent.shift, lent.week, lent.marked.into()];
    told(answer, |replayed| (replayed.records, 0))
}
