//! Tests of this implementation, for `cargo test` and for the program's `self-test`.

mod ban_cases;
mod calendar_cases;
mod closure_cases;
mod fixtures;
mod making;
mod map_cases;
mod order_cases;
mod plan_cases;
mod sheet_cases;
mod split_cases;
mod trace_cases;
mod trial_trips;
mod week_cases;

/// A test's name and the function that panics where it fails.
pub type Test = (&'static str, fn());

/// Lists functions with their names.
macro_rules! tests {
    ($($test:path),* $(,)?) => {
        vec![$((stringify!($test), $test as fn())),*]
    };
}

pub fn tests() -> Vec<Test> {
    tests![
        trial_trips::road_times,
        trial_trips::map_t_is_planned,
        trial_trips::three_labels_are_full,
        trial_trips::latest_just_met_and_just_missed,
        trial_trips::spell_just_met_and_just_missed,
        trial_trips::dominance,
        trial_trips::sheet_just_long_enough,
        trial_trips::listings_one_after_the_other,
        trial_trips::european_figures,
        map_cases::sizes,
        map_cases::junctions,
        map_cases::roads,
        map_cases::chains,
        map_cases::letters,
        map_cases::order_of_refusals,
        map_cases::names,
        map_cases::chain_making,
        order_cases::length,
        order_cases::charges,
        order_cases::charges_of_parts,
        order_cases::charges_of_the_week,
        order_cases::last_values_pass,
        plan_cases::source_is_target,
        plan_cases::rank_ends_with_junction,
        plan_cases::only_labels_are_counted,
        plan_cases::lowest_parent,
        plan_cases::lowest_road,
        plan_cases::slower_lorry_with_hours_left,
        plan_cases::rest_clears_both_figures,
        plan_cases::target_is_generated_before_it_is_lowest,
        plan_cases::tired_driver_pauses_at_source,
        plan_cases::no_journey,
        plan_cases::full_before_no_road_and_short_sheet,
        plan_cases::labels_that_fit,
        plan_cases::map_and_order_come_first,
        sheet_cases::retimed,
        sheet_cases::moves_that_are_refused,
        sheet_cases::torn,
        sheet_cases::stray_and_short,
        sheet_cases::false_figures,
        trace_cases::nothing_to_replay,
        trace_cases::activities,
        trace_cases::neighbouring_pauses_are_one,
        trace_cases::limits,
        trace_cases::odd_records,
        trace_cases::order_of_refusals,
        split_cases::map_t_with_the_parts_of_europe,
        split_cases::split_beats_the_break,
        split_cases::rank_puts_the_marked_one_first,
        split_cases::dominance_with_the_mark,
        split_cases::moves_of_a_split,
        split_cases::replayed_pauses,
        split_cases::replayed_pauses_are_judged_whole,
        split_cases::refused_traces_leave_the_mark,
        week_cases::weekly_rest_where_a_rest_is_not_enough,
        week_cases::map_t_late_in_the_week,
        week_cases::more_than_a_week_of_driving,
        week_cases::rank_puts_the_week_before_the_mark,
        week_cases::dominance_with_the_week,
        week_cases::moves_of_a_week,
        week_cases::weeks_of_sheets,
        week_cases::week_limits_of_sheets,
        week_cases::replayed_weeks,
        week_cases::replayed_week_limits,
        closure_cases::striking,
        closure_cases::unknown_roads,
        closure_cases::closures_on_map_t,
        closure_cases::detours,
        closure_cases::more_labels_than_before,
        closure_cases::closures_of_other_roads,
        closure_cases::full_and_short_by_the_struck_trip,
        closure_cases::order_of_refusals,
        closure_cases::audits_on_the_struck_map,
        calendar_cases::easter_of_known_years,
        calendar_cases::easter_in_its_bounds,
        calendar_cases::leap_days_and_year_ends,
        calendar_cases::sundays,
        calendar_cases::feasts,
        calendar_cases::gates,
        calendar_cases::sundays_alone_after_the_last_year,
        ban_cases::rest_in_place_of_a_queue,
        ban_cases::idle_first_part,
        ban_cases::lower_kind_on_ties,
        ban_cases::only_entry_counts,
        ban_cases::detour_round_a_ban,
        ban_cases::start_in_a_ban,
        ban_cases::easter_weekend,
        ban_cases::queues_on_sheets,
        ban_cases::struck_road_keeps_its_ban,
        ban_cases::lists_that_pass_and_lists_that_do_not,
        ban_cases::order_of_refusals,
        making::practice_maps,
        making::pairs_make_nothing_worse,
        making::dominance_by_pairs_agrees,
        making::plans_pass_their_audit,
        making::laws_notice_wrong_copies,
        making::special_calls_have_the_replies_meant,
        making::letterings_have_a_bad_byte_at_every_place,
        making::equal_clocks_have_the_replies_meant,
    ]
}

#[cfg(test)]
mod run {
    #[test]
    fn all() {
        for (name, test) in super::tests() {
            println!("{name}");
            test();
        }
    }
}
