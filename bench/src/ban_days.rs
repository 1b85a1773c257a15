//! Ban days, as the planners here reckon them: when a banned road may be entered. Easter is worked out by Gauss's rule for
//! the years that an order's clock can reach.

use other::order::LATEST_CLOCK;

const DAY: u32 = 86_400;
const OPENING: u32 = 22 * 3_600;
const FIRST_YEAR: u32 = 2_000;
/// In which the latest clock lies.
const LAST_YEAR: u32 = 2_063;
const FIRST_SUNDAY: usize = 1;
/// Easter less two days, and so many days behind it: Good Friday, Easter Monday, Ascension and Whit Monday.
const FEASTS_FROM_GOOD_FRIDAY: [usize; 4] = [0, 3, 41, 52];
const DAYS: usize = LATEST_CLOCK as usize / DAY as usize + 1;

static IS_BAN_DAY: [bool; DAYS] = mark_ban_days();

/// When a lorry that comes to a banned road at this clock may enter it.
pub fn gate(clock: u32) -> u32 {
    let (day, time) = (clock / DAY, clock % DAY);
    if time < OPENING && IS_BAN_DAY[day as usize] {
        return DAY * day + OPENING;
    }
    clock
}

/// The days from 1 January 2000 on that are ban days, counted from 0, up to that of the latest clock.
pub fn ban_days() -> impl Iterator<Item = u32> {
    (0..)
        .zip(&IS_BAN_DAY)
        .filter(|(_, is_ban_day)| **is_ban_day)
        .map(|(day, _)| day)
}

const fn mark_ban_days() -> [bool; DAYS] {
    let mut marked = [false; DAYS];
    let mut day = FIRST_SUNDAY;
    while day < DAYS {
        marked[day] = true;
        day += 7;
    }
    let mut new_year = 0;
    let mut year = FIRST_YEAR;
    while year <= LAST_YEAR {
        mark_feasts(&mut marked, new_year + easter(year) - 2);
        new_year += 365 + is_leap(year) as usize;
        year += 1;
    }
    marked
}

const fn mark_feasts(marked: &mut [bool; DAYS], good_friday: usize) {
    let mut feast = 0;
    while feast < FEASTS_FROM_GOOD_FRIDAY.len() {
        let day = good_friday + FEASTS_FROM_GOOD_FRIDAY[feast];
        if day < DAYS {
            marked[day] = true;
        }
        feast += 1;
    }
}

/// No year here ends a century that is not a leap year.
const fn is_leap(year: u32) -> bool {
    year.is_multiple_of(4)
}

/// The days from New Year's Day to Easter, by Gauss's rule with its figures for 1900 to 2099.
const fn easter(year: u32) -> usize {
    let moon = (19 * (year % 19) + 24) % 30;
    let weekday = (2 * (year % 4) + 4 * (year % 7) + 6 * moon + 5) % 7;
    let is_too_late = moon == 29 || moon == 28 && year % 19 > 10;
    let from_22_march = moon + weekday - if weekday == 6 && is_too_late { 7 } else { 0 };
    let to_22_march = 31 + 28 + is_leap(year) as u32 + 21;
    (to_22_march + from_22_march) as usize
}
