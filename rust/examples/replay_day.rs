//! Plans map T for a driver who comes from a weekly rest, then brings the hours up to date from a day's trace and plans
//! again, early in the week and where the week is nearly driven, as `examples/replay_day.c` does.
mod ending;
mod listing;
mod map_t;

use std::process::ExitCode;

use trunk::{Activity, Figures, LABEL_WORDS, Order, Refused, Rules, TraceRecord};

const RULES: Rules = Rules::european();

/// What the tachograph has.
const DAY: [TraceRecord; 7] = [
    TraceRecord::new(Activity::OtherWork, 1_800), // loading
    TraceRecord::new(Activity::Driving, 10_800),
    TraceRecord::new(Activity::Pause, 1_200), // two neighbours, which are one pause, as long as a break
    TraceRecord::new(Activity::Pause, 1_500),
    TraceRecord::new(Activity::Driving, 4_500),
    TraceRecord::new(Activity::OtherWork, 900),
    TraceRecord::new(Activity::Pause, 900), // too short for a break, but the first part of one
];

fn main() -> ExitCode {
    ending::ended(plan_three_times())
}

fn plan_three_times() -> Result<(), Refused> {
    let from_weekly_rest = Figures::default();
    let late_in_the_week = Figures {
        week: 170_000,
        ..Figures::default()
    };
    plan(from_weekly_rest)?;
    plan_after_day(from_weekly_rest)?;
    plan_after_day(late_in_the_week)
}

/// Plans with the day behind these hours.
fn plan_after_day(mut figures: Figures) -> Result<(), Refused> {
    let replayed = trunk::replay(&trunk::trace_bytes(&DAY), RULES, &mut figures)?;
    println!("reply 0 {} 0", replayed.records);
    plan(figures)
}

/// From Hub to End, with these hours behind the driver. An order has no place for the mark.
fn plan(figures: Figures) -> Result<(), Refused> {
    let Figures {
        spell,
        shift,
        week,
        marked,
    } = figures;
    let mark = u32::from(marked);
    println!("spell {spell} shift {shift} week {week} mark {mark}");
    let map = map_t::map_t();
    let trip = Order {
        rules: RULES,
        ..Order::european(1, 3, 0, 200_000)
    };
    let order = trip.with_figures(figures).to_bytes();
    let mut words = vec![0; LABEL_WORDS * 100]; // room for 100 labels
    let mut sheet = vec![0; 1000];
    let planned = trunk::plan(&map, &order, &[], &mut words, &mut sheet)?;
    println!("reply 0 {} {}", planned.labels, planned.arrival);
    listing::print_moves(&map, &sheet)
}
