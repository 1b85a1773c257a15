//! Days, dates, Easter and ban days (document 02, P8). Days are counted from 0, which is Saturday 1 January 2000.
//!
//! Nothing here follows the reckoning of Meeus, Jones and Butcher, nor a table of dates. Years and months are walked one by
//! one. Easter is found as the church defines it: the first Sunday after the paschal full moon, which goes by the moon's age
//! at the year's beginning, the epact; that is handed on from year to year.

use std::sync::LazyLock;

pub const DAY_SECONDS: u64 = 86_400;

/// When a ban ends, in seconds of its day: 22:00.
pub const OPENING: u64 = 22 * 3_600;

pub const FIRST_YEAR: u64 = 2000;

/// The last year whose feasts are known.
pub const LAST_YEAR: u64 = 2299;

/// Good Friday, Easter Monday, Ascension and Whit Monday, in days from Easter.
pub const FEASTS: [i64; 4] = [-2, 1, 39, 50];

/// Month and day count from 1.
#[derive(Clone, Copy, Debug, PartialEq, Eq)]
pub struct Date {
    pub year: u64,
    pub month: u64,
    pub day: u64,
}

pub fn is_leap(year: u64) -> bool {
    year.is_multiple_of(4) && (!year.is_multiple_of(100) || year.is_multiple_of(400))
}

pub fn days_of_year(year: u64) -> u64 {
    365 + u64::from(is_leap(year))
}

fn days_of_month(year: u64, month: u64) -> u64 {
    match month {
        2 => 28 + u64::from(is_leap(year)),
        4 | 6 | 9 | 11 => 30,
        _ => 31,
    }
}

/// The number of a date's day. A day past the month's end is one of the next month.
pub fn day_of(date: Date) -> u64 {
    let years = (FIRST_YEAR..date.year).map(days_of_year);
    let months = (1..date.month).map(|month| days_of_month(date.year, month));
    years.chain(months).sum::<u64>() + date.day - 1
}

pub fn year_of(day: u64) -> u64 {
    let mut left = day;
    let mut year = FIRST_YEAR;
    while left >= days_of_year(year) {
        left -= days_of_year(year);
        year += 1;
    }
    year
}

pub fn is_sunday(day: u64) -> bool {
    day % 7 == 1
}

/// How often a year has stood in its place among the nineteen after which the moon's phases come on the same dates.
fn golden_number(year: u64) -> u64 {
    year % 19 + 1
}

/// The moon's age in days on the last day of the year before. From year to year it rises by 11, and by 12 where the
/// nineteen years begin again; the years that the Gregorian calendar keeps from being leap years take one off, and every 300
/// years the moon's own correction puts one on.
fn epact(year: u64) -> u64 {
    let in_2000 = 24;
    (FIRST_YEAR + 1..=year).fold(in_2000, |before, next| {
        let leap_of_the_moon = u64::from(golden_number(next) == 1);
        let lost_leap_day = u64::from(next.is_multiple_of(4) && !is_leap(next));
        let of_the_moon = u64::from(next.is_multiple_of(300));
        (before + 30 + 11 + leap_of_the_moon + of_the_moon - lost_leap_day) % 30
    })
}

/// The fourteenth day of the moon that is new from 8 March on, as a day of March. That moon follows one of thirty days,
/// in which each epact has a day of its own, but for the late ones: the moons of spring have 29 days by turns, so that 24
/// shares its day with 25, and 25 in the later half of the nineteen years with 26.
fn paschal_full_moon(year: u64) -> u64 {
    let epact = epact(year);
    let new_in_march = 1 + (30 - epact) % 30;
    let shares_its_day = epact == 24 || epact == 25 && golden_number(year) > 11;
    let new_moon = match new_in_march {
        8.. => new_in_march,
        _ => new_in_march + 30 - u64::from(shares_its_day),
    };
    new_moon + 13
}

/// The first Sunday after the paschal full moon.
pub fn easter(year: u64) -> u64 {
    let full_moon = day_of(Date {
        year,
        month: 3,
        day: paschal_full_moon(year),
    });
    let sunday = (full_moon + 1..).find(|day| is_sunday(*day));
    sunday.expect("a Sunday within seven days")
}

/// Whether a day is a feast on which lorries are banned.
pub fn is_feast(day: u64) -> bool {
    let year = year_of(day);
    if year > LAST_YEAR {
        return false;
    }
    let easter = REMEMBERED[(year - FIRST_YEAR) as usize];
    let is_day = |distance: &i64| easter.checked_add_signed(*distance) == Some(day);
    FEASTS.iter().any(is_day)
}

/// Easter of every year, reckoned once: comparisons ask often.
static REMEMBERED: LazyLock<Vec<u64>> =
    LazyLock::new(|| (FIRST_YEAR..=LAST_YEAR).map(easter).collect());

pub fn is_ban_day(day: u64) -> bool {
    is_sunday(day) || is_feast(day)
}

/// When a lorry that comes at this clock enters a banned road.
pub fn entry(clock: u64) -> u64 {
    entry_by(clock, is_ban_day)
}

/// The same with other days for ban days.
pub fn entry_by(clock: u64, is_ban_day: impl Fn(u64) -> bool) -> u64 {
    let midnight = clock - clock % DAY_SECONDS;
    if is_ban_day(clock / DAY_SECONDS) {
        clock.max(midnight + OPENING)
    } else {
        clock
    }
}
