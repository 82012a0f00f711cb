//! The days from 2024 to 2099, their dates, their changeovers, and their quarters with the starts by the wall clock.

use crate::columns;

/// How many days the calendar has.
pub const DAYS: u64 = 27759;

/// The first year of the calendar.
const FIRST_YEAR: u64 = 2024;

/// The last year of the calendar.
const LAST_YEAR: u64 = 2099;

/// The days of four years, the first of them a leap year.
const FOUR_YEARS: u64 = 4 * 365 + 1;

/// The width of the column in which a changeover day is written.
const CHANGEOVER_WIDTH: usize = 6;

/// The minutes of a quarter.
const QUARTER: u64 = 15;

/// The minutes of an hour, by which the clocks are changed.
const HOUR_MINUTES: u64 = 60;

/// The minutes that the wall clock shows from midnight to midnight.
const DAY_MINUTES: u64 = 24 * HOUR_MINUTES;

/// The minutes at 02:00, when the clocks of March go forward to 03:00.
const TWO: u64 = 2 * HOUR_MINUTES;

/// The minutes at 03:00, when the clocks of October go back to 02:00.
const THREE: u64 = 3 * HOUR_MINUTES;

/// The days of each month in a common year.
const MONTHS: [u64; 12] = [31, 28, 31, 30, 31, 30, 31, 31, 30, 31, 30, 31];

/// Tells whether a year of the calendar is a leap year; no century year lies among them.
fn leap(year: u64) -> bool {
    year.is_multiple_of(4)
}

/// Gives the length of a month, counted from 1, in a year of the calendar.
fn month_length(year: u64, month: u64) -> u64 {
    let extra = if month == 2 && leap(year) { 1 } else { 0 };
    MONTHS[month as usize - 1] + extra
}

/// Gives the number of the first day of a year of the calendar.
fn year_start(year: u64) -> u64 {
    let passed = year - FIRST_YEAR;
    passed * 365 + passed.div_ceil(4)
}

/// Gives the number of the first day of a month, counted from 1, in a year of the calendar.
fn month_start(year: u64, month: u64) -> u64 {
    let months: u64 = (1..month).map(|earlier| month_length(year, earlier)).sum();
    year_start(year) + months
}

/// Gives the number of the last Sunday of a month, counted from 1, in a year of the calendar.
fn last_sunday(year: u64, month: u64) -> u64 {
    let last = month_start(year, month) + month_length(year, month) - 1;
    let since_sunday = (last + 1) % 7;
    last - since_sunday
}

/// Splits a day of the calendar into year, month and day of the month.
fn civil(day: u64) -> (u64, u64, u64) {
    let in_four = day % FOUR_YEARS;
    let years = if in_four < 366 { 0 } else { (in_four - 1) / 365 };
    let year = FIRST_YEAR + 4 * (day / FOUR_YEARS) + years;
    let mut rest = day - year_start(year);
    let mut month = 1;
    while rest >= month_length(year, month) {
        rest -= month_length(year, month);
        month += 1;
    }
    (year, month, rest + 1)
}

/// Gives how many quarters a day has, or nothing for a day outside the calendar.
pub fn quarters(day: u64) -> Option<u64> {
    if day >= DAYS {
        return None;
    }
    let sunday = day % 7 == 6;
    if !sunday {
        return Some(96);
    }
    match civil(day) {
        (_, 3, 25..=31) => Some(92),
        (_, 10, 25..=31) => Some(100),
        _ => Some(96),
    }
}

/// The letter that tells apart the two quarters of a doubled hour that start at the same minutes.
#[derive(Clone, Copy, PartialEq, Eq, PartialOrd, Ord, Debug)]
pub enum Letter {
    /// That of the first.
    A,
    /// That of the second.
    B,
}

/// The start of a quarter by the wall clock.
#[derive(Clone, Copy, PartialEq, Eq, PartialOrd, Ord, Debug)]
pub struct Start {
    /// The minutes from midnight that the wall clock shows.
    pub minutes: u64,
    /// The letter, if the quarter belongs to a doubled hour.
    pub letter: Option<Letter>,
}

/// Gives the start of a day's quarter by the wall clock, or nothing if there is no such day or quarter.
pub fn wall_clock_start(day: u64, quarter: u64) -> Option<Start> {
    let quarters = quarters(day)?;
    if !(1..=quarters).contains(&quarter) {
        return None;
    }
    let passed = QUARTER * (quarter - 1);
    let (minutes, letter) = match quarters {
        92 if passed >= TWO => (passed + HOUR_MINUTES, None),
        100 if passed >= THREE + HOUR_MINUTES => (passed - HOUR_MINUTES, None),
        100 if passed >= THREE => (passed - HOUR_MINUTES, Some(Letter::B)),
        100 if passed >= TWO => (passed, Some(Letter::A)),
        _ => (passed, None),
    };
    Some(Start { minutes, letter })
}

/// Gives the first quarter of a day that starts at given minutes by the wall clock, or nothing if none does.
pub fn first_quarter_at(day: u64, minutes: u64) -> Option<u64> {
    let quarters = quarters(day)?;
    if minutes >= DAY_MINUTES || !minutes.is_multiple_of(QUARTER) {
        return None;
    }
    let passed = match quarters {
        92 if (TWO..THREE).contains(&minutes) => return None,
        92 if minutes >= THREE => minutes - HOUR_MINUTES,
        100 if minutes >= THREE => minutes + HOUR_MINUTES,
        _ => minutes,
    };
    Some(passed / QUARTER + 1)
}

/// Gives the day of a date written as the number YYYYMMDD, or nothing if the calendar has no such date.
pub fn day_of(date: u64) -> Option<u64> {
    let (year, month, in_month) = (date / 10000, date / 100 % 100, date % 100);
    if !(FIRST_YEAR..=LAST_YEAR).contains(&year) || !(1..=12).contains(&month) {
        return None;
    }
    if in_month < 1 || in_month > month_length(year, month) {
        return None;
    }
    Some(month_start(year, month) + in_month - 1)
}

/// Gives the date of a day as the number YYYYMMDD, or nothing for a day outside the calendar.
pub fn date_of(day: u64) -> Option<u64> {
    if day >= DAYS {
        return None;
    }
    let (year, month, in_month) = civil(day);
    Some(year * 10000 + month * 100 + in_month)
}

/// Gives the changeover days of the calendar, for each year that of March and then that of October.
pub fn changeovers() -> Vec<u64> {
    (FIRST_YEAR..=LAST_YEAR)
        .flat_map(|year| [last_sunday(year, 3), last_sunday(year, 10)])
        .collect()
}

/// Gives the changeover day of a number, counted from 0, or nothing beyond the last.
pub fn changeover(number: u64) -> Option<u64> {
    changeovers().get(usize::try_from(number).ok()?).copied()
}

/// Gives the changeover days as a text, one right-justified number per line.
pub fn changeover_text() -> Vec<u8> {
    let mut text = Vec::new();
    for day in changeovers() {
        columns::put(&mut text, day, CHANGEOVER_WIDTH);
        text.push(b'\n');
    }
    text
}

#[cfg(test)]
mod tests {
    use super::*;
    use crate::samples::starts_by_hour;

    /// Gives a start without a letter from its hour and minute.
    fn plain(hour: u64, minute: u64) -> Option<Start> {
        let minutes = 60 * hour + minute;
        Some(Start { minutes, letter: None })
    }

    /// Gives a start with a letter from its hour and minute.
    fn doubled(hour: u64, minute: u64, letter: Letter) -> Option<Start> {
        let letter = Some(letter);
        plain(hour, minute).map(|start| Start { letter, ..start })
    }

    #[test]
    fn changeover_days_have_their_quarters() {
        assert_eq!(quarters(0), Some(96));
        assert_eq!(quarters(89), Some(96));
        assert_eq!(quarters(90), Some(92));
        assert_eq!(quarters(91), Some(96));
        assert_eq!(quarters(300), Some(100));
        assert_eq!(quarters(27758), Some(96));
        assert_eq!(quarters(27759), None);
        assert_eq!(quarters(u64::MAX), None);
        let short = (0..DAYS).filter(|&day| quarters(day) == Some(92)).count();
        let long = (0..DAYS).filter(|&day| quarters(day) == Some(100)).count();
        assert_eq!((short, long), (76, 76));
    }

    #[test]
    fn changeover_days_are_the_last_sundays() {
        for day in 0..DAYS {
            let date = date_of(day).unwrap();
            let month = date / 100 % 100;
            let next_week = date_of(day + 7).map(|later| later / 100 % 100);
            let last_sunday = day % 7 == 6 && next_week != Some(month);
            let expected = match (last_sunday, month) {
                (true, 3) => 92,
                (true, 10) => 100,
                _ => 96,
            };
            assert_eq!(quarters(day), Some(expected));
        }
    }

    #[test]
    fn changeovers_rise_from_the_first_year_to_the_last() {
        let table = changeovers();
        assert_eq!(table.len(), 152);
        assert_eq!(table[..2], [90, 300]);
        assert!(table.is_sorted_by(|earlier, later| earlier < later));
        assert_eq!(date_of(table[151]), Some(20991025));
    }

    #[test]
    fn changeovers_are_the_days_of_other_lengths() {
        let table = changeovers();
        for (first, length) in [(0, 92), (1, 100)] {
            let listed: Vec<u64> = table.iter().copied().skip(first).step_by(2).collect();
            let found: Vec<u64> = (0..DAYS).filter(|&day| quarters(day) == Some(length)).collect();
            assert_eq!(listed, found);
        }
        for day in 0..DAYS {
            assert_eq!(table.contains(&day), quarters(day) != Some(96));
        }
    }

    #[test]
    fn changeovers_are_given_by_number() {
        for (number, day) in (0..).zip(changeovers()) {
            assert_eq!(changeover(number), Some(day));
        }
        for beyond in [152, 153, u64::from(u32::MAX) + 1, u64::MAX] {
            assert_eq!(changeover(beyond), None);
        }
    }

    #[test]
    fn changeovers_are_written_one_per_line() {
        let text = changeover_text();
        assert!(text.starts_with(b"    90\n   300\n"));
        assert_eq!(text.len(), 152 * 7);
        for (line, day) in text.chunks(7).zip(changeovers()) {
            assert_eq!(line[6], b'\n');
            assert_eq!(columns::number(&line[..6]), Some(day));
        }
    }

    #[test]
    fn an_ordinary_day_starts_each_quarter_without_a_letter() {
        for day in [0, 83, 89, 91, 97, 299, 301, 307, 27758] {
            for quarter in 1..=96 {
                let start = plain(0, 15 * (quarter - 1));
                assert_eq!(wall_clock_start(day, quarter), start);
                assert_eq!(first_quarter_at(day, 15 * (quarter - 1)), Some(quarter));
            }
            for beyond in [0, 97, 100, u64::MAX] {
                assert_eq!(wall_clock_start(day, beyond), None);
            }
        }
        assert_eq!(wall_clock_start(83, 21), plain(5, 0));
        assert_eq!(wall_clock_start(83, 96), plain(23, 45));
    }

    #[test]
    fn the_day_of_march_misses_the_hour_from_two() {
        for quarter in 1..=92 {
            let missed = if quarter < 9 { 0 } else { 60 };
            assert_eq!(wall_clock_start(90, quarter), plain(0, 15 * (quarter - 1) + missed));
        }
        for (quarter, start) in [
            (1, plain(0, 0)),
            (8, plain(1, 45)),
            (9, plain(3, 0)),
            (12, plain(3, 45)),
            (13, plain(4, 0)),
            (17, plain(5, 0)),
            (92, plain(23, 45)),
            (93, None),
            (0, None),
            (u64::MAX, None),
        ] {
            assert_eq!(wall_clock_start(90, quarter), start);
        }
        for minutes in [120, 135, 150, 165] {
            assert_eq!(first_quarter_at(90, minutes), None);
        }
        assert_eq!(first_quarter_at(90, 105), Some(8));
        assert_eq!(first_quarter_at(90, 180), Some(9));
        assert_eq!(first_quarter_at(90, 1425), Some(92));
    }

    #[test]
    fn the_day_of_october_has_the_hour_from_two_twice() {
        for (quarter, start) in [
            (1, plain(0, 0)),
            (8, plain(1, 45)),
            (9, doubled(2, 0, Letter::A)),
            (10, doubled(2, 15, Letter::A)),
            (11, doubled(2, 30, Letter::A)),
            (12, doubled(2, 45, Letter::A)),
            (13, doubled(2, 0, Letter::B)),
            (14, doubled(2, 15, Letter::B)),
            (15, doubled(2, 30, Letter::B)),
            (16, doubled(2, 45, Letter::B)),
            (17, plain(3, 0)),
            (25, plain(5, 0)),
            (100, plain(23, 45)),
            (101, None),
            (0, None),
            (u64::MAX, None),
        ] {
            assert_eq!(wall_clock_start(300, quarter), start);
        }
        for quarter in 17..=100 {
            assert_eq!(wall_clock_start(300, quarter), plain(0, 15 * (quarter - 1) - 60));
        }
        assert_eq!(first_quarter_at(300, 120), Some(9));
        assert_eq!(first_quarter_at(300, 165), Some(12));
        assert_eq!(first_quarter_at(300, 180), Some(17));
        assert_eq!(first_quarter_at(300, 1425), Some(100));
    }

    #[test]
    fn starts_are_those_of_the_hours_on_every_day() {
        for day in 0..DAYS {
            let expected = starts_by_hour(day);
            assert_eq!(quarters(day), Some(expected.len() as u64));
            for (quarter, start) in (1..).zip(expected) {
                assert_eq!(wall_clock_start(day, quarter), Some(start));
            }
        }
        for day in [DAYS, u64::MAX] {
            assert_eq!(wall_clock_start(day, 1), None);
            assert_eq!(first_quarter_at(day, 0), None);
        }
    }

    #[test]
    fn start_and_letter_tell_the_quarter() {
        for day in [83, 90, 97, 300, 307].into_iter().chain(changeovers()) {
            let count = quarters(day).unwrap();
            let mut starts: Vec<Start> = (1..=count).filter_map(|number| wall_clock_start(day, number)).collect();
            starts.sort();
            starts.dedup();
            assert_eq!(starts.len() as u64, count);
        }
    }

    #[test]
    fn the_first_quarter_at_given_minutes_is_found_by_a_plain_search() {
        for day in [83, 90, 97, 300, 307].into_iter().chain(changeovers()) {
            let starts = starts_by_hour(day);
            for minutes in (0..=1600).chain([u64::MAX - 60, u64::MAX]) {
                let found = (1..).zip(&starts).find(|(_, start)| start.minutes == minutes);
                assert_eq!(first_quarter_at(day, minutes), found.map(|(quarter, _)| quarter));
            }
        }
    }

    #[test]
    fn dates_and_days_agree() {
        assert_eq!(date_of(0), Some(20240101));
        assert_eq!(date_of(90), Some(20240331));
        assert_eq!(date_of(300), Some(20241027));
        assert_eq!(date_of(27758), Some(20991231));
        assert_eq!(date_of(27759), None);
        let mut day = 0;
        for date in 20230000..=21010000 {
            if let Some(found) = day_of(date) {
                assert_eq!(found, day);
                assert_eq!(date_of(day), Some(date));
                day += 1;
            }
        }
        assert_eq!(day, DAYS);
    }

    #[test]
    fn false_dates_have_no_day() {
        for date in [
            0,
            20250229,
            20240230,
            20240001,
            20241301,
            20240100,
            20231231,
            21000101,
            99999999,
            u64::MAX,
        ] {
            assert_eq!(day_of(date), None);
        }
    }
}
