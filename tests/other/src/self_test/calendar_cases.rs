//! Days, Easter and gates, from dates that are known.

use crate::calendar::*;

fn day(year: u64, month: u64, day: u64) -> u64 {
    day_of(Date { year, month, day })
}

/// The first and the last day that Easter can fall on are among them, and years whose full moon the calendar moves.
pub fn easter_of_known_years() {
    for (year, month, of_month) in [
        (2000, 4, 23),
        (2008, 3, 23),
        (2011, 4, 24),
        (2019, 4, 21),
        (2022, 4, 17),
        (2023, 4, 9),
        (2024, 3, 31),
        (2025, 4, 20),
        (2035, 3, 25),
        (2038, 4, 25),
        (2049, 4, 18),
        (2076, 4, 19),
        (2285, 3, 22),
    ] {
        assert_eq!(easter(year), day(year, month, of_month), "{year}");
    }
}

/// Easter is a Sunday from 22 March to 25 April.
pub fn easter_in_its_bounds() {
    for year in FIRST_YEAR..=LAST_YEAR {
        let easter = easter(year);
        assert!(is_sunday(easter));
        assert!((day(year, 3, 22)..=day(year, 4, 25)).contains(&easter));
    }
}

pub fn leap_days_and_year_ends() {
    assert_eq!([2000, 2024, 2104].map(is_leap), [true; 3]);
    assert_eq!([2001, 2100, 2200, 2299].map(is_leap), [false; 4]);
    for (date, number) in [
        ((2000, 1, 1), 0),
        ((2000, 2, 29), 59),
        ((2000, 3, 1), 60),
        ((2000, 12, 31), 365),
        ((2001, 1, 1), 366),
        ((2001, 3, 1), 366 + 59),
        ((2004, 12, 31), 5 * 365 + 1),
        ((2063, 5, 18), 23_148),
    ] {
        let (year, month, of_month) = date;
        assert_eq!(day(year, month, of_month), number, "{date:?}");
        assert_eq!(year_of(number), year, "{date:?}");
    }
    assert_eq!(day(2100, 2, 28) + 1, day(2100, 3, 1));
    assert_eq!(2_000_000_000 / DAY_SECONDS, day(2063, 5, 18));
}

pub fn sundays() {
    assert!(!is_sunday(0) && is_sunday(1) && !is_sunday(2) && is_sunday(8));
    for (year, month, of_month) in [(2000, 12, 31), (2012, 1, 1), (2024, 2, 25), (2063, 5, 13)] {
        assert!(is_sunday(day(year, month, of_month)));
    }
    assert!(!is_sunday(day(2024, 2, 29)) && !is_sunday(day(2024, 2, 24)));
}

/// Weekdays that are ban days, and the days beside them.
pub fn feasts() {
    for (year, dates) in [
        (2000, [(4, 21), (4, 24), (6, 1), (6, 12)]),
        (2008, [(3, 21), (3, 24), (5, 1), (5, 12)]),
        (2024, [(3, 29), (4, 1), (5, 9), (5, 20)]),
        (2038, [(4, 23), (4, 26), (6, 3), (6, 14)]),
    ] {
        for (month, of_month) in dates {
            assert!(is_ban_day(day(year, month, of_month)), "{year}");
            assert!(!is_sunday(day(year, month, of_month)), "{year}");
        }
        let [friday, monday, ascension, whit_monday] =
            dates.map(|(month, of_month)| day(year, month, of_month));
        for beside in [
            friday - 1,
            friday + 1,
            monday + 1,
            ascension - 1,
            ascension + 1,
            whit_monday + 1,
        ] {
            assert!(!is_ban_day(beside), "{year}");
        }
    }
}

/// A clock, and when a banned road is entered then.
pub fn gates() {
    for (clock, entered) in [
        (0, 0),
        (86_399, 86_399),
        (86_400, 165_600),
        (165_599, 165_600),
        (165_600, 165_600),
        (172_799, 172_799),
        (172_800, 172_800),
        // Good Friday 2000, and the Saturday behind it.
        (9_590_399, 9_590_399),
        (9_590_400, 9_669_600),
        (9_669_600, 9_669_600),
        (9_676_800, 9_676_800),
        // Easter Sunday from 22:00 on, and Easter Monday.
        (9_763_200, 9_842_400),
        (9_842_400, 9_842_400),
        (9_849_599, 9_849_599),
        (9_849_600, 9_928_800),
        (9_928_799, 9_928_800),
        (9_928_800, 9_928_800),
        // Ascension and Whit Monday 2000.
        (13_132_800, 13_212_000),
        (13_212_000, 13_212_000),
        (14_083_200, 14_162_400),
        (14_162_400, 14_162_400),
        // Good Friday 2024.
        (764_985_600, 765_064_800),
        (764_985_599, 764_985_599),
        (2_000_000_000, 2_000_000_000),
    ] {
        assert_eq!(entry(clock), entered, "{clock}");
    }
}

/// After 2299 only Sundays are ban days.
pub fn sundays_alone_after_the_last_year() {
    let (easter, next) = (day(2300, 4, 8), day(2299, 4, 16));
    assert!(is_sunday(easter) && is_ban_day(easter) && !is_ban_day(easter + 1));
    assert!(is_sunday(next) && is_ban_day(next + 1));
}
