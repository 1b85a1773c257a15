//! What the random cases reach: refusals by operation, and how plans come out.

use std::collections::BTreeMap;
use std::fmt::Write;

use crate::case_probes::{ample_plan, label_count, probes};
use crate::compare::marks;
use crate::make::random::Random;
use crate::make::{case, Run};
use crate::moves::{Document, Move, Trip, BREAK, DRIVE, FIRST, SECOND, WEEKLY};
use crate::operations::{LentRules, DOCUMENT};
use crate::order::LONGEST_RULE;
use crate::planning::{answer_of, reachable_states, reaches_at_most, records_of};
use crate::probe::{answer, Answer, Probe};
use crate::reply::{Reply, BAD_BANS, BAD_RULES, BAD_TRIP, FALSE_FIGURE, NO_ROAD, PAST_LIMIT};
use crate::sheet::{sheet_bytes, Record, Sheet};
use crate::words::word;

const OPERATIONS: [&str; 10] = [
    "check map",
    "check order",
    "plan",
    "retime",
    "audit",
    "name",
    "make chains",
    "replay",
    "strike",
    "preview",
];

#[derive(Default)]
pub struct Summary {
    calls: u64,
    /// Replies by number and operation.
    replies: BTreeMap<(u64, &'static str), u64>,
    pairs: u64,
    /// Runs with a plan or with no road, by the highest power of two not above N.
    counts: BTreeMap<u64, u64>,
    /// Plans by number of moves.
    lengths: BTreeMap<usize, u64>,
    /// Plans with at least one move of a kind.
    kinds: BTreeMap<u64, u64>,
    /// Accepted traces by the figures that they leave.
    figures: BTreeMap<&'static str, u64>,
    /// Answers that the week alone decides.
    by_the_week: BTreeMap<&'static str, u64>,
    /// Runs with banned roads, and what the bans do.
    by_the_bans: BTreeMap<&'static str, u64>,
}

pub fn summary(seed: u64, count: u64) -> Summary {
    let mut summary = Summary::default();
    for number in 1..=count {
        let case = case(seed, number);
        let random = &mut marks(seed, number);
        for probe in probes(&DOCUMENT, &case, random) {
            summary.add_call(&probe, &answer(&DOCUMENT, &probe));
        }
        summary.pairs += u64::from(case.easier.is_some());
        for run in case.runs() {
            summary.add_plan(random, run);
        }
    }
    summary
}

impl Summary {
    fn add_call(&mut self, probe: &Probe, seen: &Answer) {
        let key = (seen.reply.number, probe.operation());
        *self.replies.entry(key).or_default() += 1;
        self.calls += 1;
        if let Some(what) = decided_by_the_week(probe, seen.reply) {
            *self.by_the_week.entry(what).or_default() += 1;
        }
        if let (Probe::Replay { rules, .. }, 0) = (probe, seen.reply.number) {
            self.add_figures(*rules, seen);
        }
    }

    fn add_figures(&mut self, rules: LentRules, seen: &Answer) {
        let [spell_limit, _, shift_limit, .., week_limit, _] = rules.map(u64::from);
        let [spell, shift, week, mark] = [0, 4, 8, 12].map(|offset| word(&seen.written, offset));
        for (name, is_so) in [
            ("spell at its limit", spell == spell_limit),
            ("shift at its limit", shift == shift_limit),
            ("spell alone 0", spell == 0 && shift > 0),
            ("spell and shift 0", shift == 0 && week > 0),
            ("all 0", week == 0),
            ("week at its limit", week == week_limit),
            ("the mark", mark != 0),
        ] {
            *self.figures.entry(name).or_default() += u64::from(is_so);
        }
    }

    fn add_plan(&mut self, random: &mut Random, run: &Run) {
        let seen = answer(&DOCUMENT, &ample_plan(random, run));
        if let Some(count) = label_count(&seen.reply) {
            *self.counts.entry(1 << count.ilog2()).or_default() += 1;
        }
        if seen.reply.number == 0 {
            self.add_moves(&seen);
        }
        if seen.reply.number == NO_ROAD && week_bars_the_way(run) {
            *self.by_the_week.entry("runs without a road").or_default() += 1;
        }
        if label_count(&seen.reply).is_some() && !run.bans.is_empty() {
            self.add_bans(run, &seen);
        }
    }

    fn add_bans(&mut self, run: &Run, seen: &Answer) {
        let trip = Trip::open(&run.map, &run.order, &run.bans).expect("a run that was searched");
        let open = Trip::without_bans(trip.map.clone(), trip.order.clone());
        let [records, open_records] = [&trip, &open].map(records_of::<Document>);
        let has_road = seen.reply.number == 0;
        let uses = |kind| records.iter().any(|record| record.step.kind == kind);
        for (what, is_so) in [
            ("runs", true),
            ("without a road", !has_road && !open_records.is_empty()),
            ("with a queue", queues(&trip, &records)),
            ("with another plan", has_road && records != open_records),
            ("with a first part alone", uses(FIRST) && !uses(SECOND)),
            ("with tied kinds", has_tied_kinds(&trip, &records)),
        ] {
            *self.by_the_bans.entry(what).or_default() += u64::from(is_so);
        }
    }

    fn add_moves(&mut self, seen: &Answer) {
        let length = sheet_bytes(word(&seen.written, 0) as usize);
        let records = Sheet::read(&seen.written[..length])
            .expect("a plan")
            .records;
        *self.lengths.entry(records.len()).or_default() += 1;
        for kind in DRIVE..=WEEKLY {
            if records.iter().any(|record| record.step.kind == kind) {
                *self.kinds.entry(kind).or_default() += 1;
            }
        }
    }

    pub fn describe(&self) -> String {
        let mut text = format!("{} calls, {} pairs of runs\n", self.calls, self.pairs);
        let _ = write!(text, "{:>7}", "number");
        for operation in OPERATIONS {
            let _ = write!(text, "{operation:>12}");
        }
        text.push('\n');
        for number in 0..=BAD_BANS {
            let _ = write!(text, "{number:>7}");
            for operation in OPERATIONS {
                let times = self.replies.get(&(number, operation)).unwrap_or(&0);
                let _ = write!(text, "{times:>12}");
            }
            text.push('\n');
        }
        describe_row(&mut text, "runs with N from", &self.counts);
        describe_row(&mut text, "plans with moves", &self.lengths);
        describe_row(&mut text, "plans with kind", &self.kinds);
        describe_row(&mut text, "traces that leave", &self.figures);
        describe_row(&mut text, "by the week alone", &self.by_the_week);
        describe_row(&mut text, "with banned roads", &self.by_the_bans);
        text
    }
}

/// Whether a plan has a drive behind a queue.
fn queues(trip: &Trip, records: &[Record]) -> bool {
    let begun = [trip.order.departure].into_iter();
    let before = begun.chain(records.iter().map(|record| record.clock));
    records.iter().zip(before).any(|(record, before)| {
        let Move { kind, number } = record.step;
        kind == DRIVE && record.clock > before + trip.map.road(number).time()
    })
}

/// Whether a plan has a break to which a second part would have been as good.
fn has_tied_kinds(trip: &Trip, records: &[Record]) -> bool {
    let mut marked = false;
    let tied = records.iter().any(|record| {
        let is_tied = marked && record.step.kind == BREAK;
        marked = record.step.kind == FIRST || marked && record.step.kind == DRIVE;
        is_tied
    });
    tied && trip.order.second_part == trip.order.break_time
}

/// What a call shows of the week, where nothing else would give its answer.
fn decided_by_the_week(probe: &Probe, reply: Reply) -> Option<&'static str> {
    match (probe, reply.number, reply.place) {
        (Probe::CheckOrder { .. }, BAD_RULES, 12) => Some("orders charged to word 12"),
        (Probe::CheckOrder { .. }, BAD_RULES, 13) => Some("orders charged to word 13"),
        (Probe::CheckOrder { .. }, BAD_TRIP, 14) => Some("orders charged to word 14"),
        (Probe::Audit { run, sheet }, FALSE_FIGURE, _) => {
            is_week_alone_false(run, sheet).then_some("sheets with a false figure")
        }
        (
            Probe::Replay {
                trace,
                rules,
                figures,
            },
            PAST_LIMIT,
            _,
        ) => {
            let mut unlimited = *rules;
            unlimited[6] = LONGEST_RULE as u32;
            let other = (DOCUMENT.replay)(trace, unlimited, &mut figures.clone());
            (other != reply).then_some("traces past a limit")
        }
        _ => None,
    }
}

fn is_week_alone_false(run: &Run, sheet: &[u8]) -> bool {
    let mut truly = sheet.to_vec();
    let retimed = (DOCUMENT.retime)(&run.map, &run.order, &run.bans, sheet, &mut truly);
    let [given, truly] = [sheet, &truly].map(Sheet::read);
    match (given, truly) {
        (Some(given), Some(truly)) if retimed.number == 0 => {
            let week = truly.week;
            given.week != week && Sheet { week, ..given } == truly
        }
        _ => false,
    }
}

/// The most states that are listed to see whether there is a road without the week limit.
const MOST_STATES: usize = 20_000;

/// Whether a run that has no road has one under the highest week limit.
fn week_bars_the_way(run: &Run) -> bool {
    let mut trip = Trip::open(&run.map, &run.order, &run.bans).expect("a run that was searched");
    trip.order.week_limit = LONGEST_RULE;
    reaches_at_most(&trip, MOST_STATES)
        && answer_of::<Document>(&trip, &reachable_states::<Document>(&trip)).is_some()
}

fn describe_row<K: std::fmt::Display>(text: &mut String, title: &str, row: &BTreeMap<K, u64>) {
    let entries: Vec<String> = row
        .iter()
        .map(|(key, times)| format!("{key}: {times}"))
        .collect();
    let _ = writeln!(text, "{title}: {}", entries.join(", "));
}
