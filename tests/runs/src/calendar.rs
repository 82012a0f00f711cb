//! Every day, every date and every changeover through the library and through the second implementation, and what program
//! `changeovers` prints.

use crate::program;
use second::calendar;
use share_library::calls::Dated;
use share_library::Refusal;

/// The numbers that are tried as dates: every month and day from 2023 to 2100, right ones and wrong ones, and some of
/// other lengths.
fn dates() -> impl Iterator<Item = u64> {
    let years = 2023..=2100;
    let all = years
        .flat_map(|year| (0..=13).flat_map(move |month| (0..=32).map(move |day| (year * 100 + month) * 100 + day)));
    all.chain([
        0,
        1,
        240_101,
        2_024_010,
        202_401_010,
        99_999_999,
        u64::MAX,
        1 << 63,
        1 << 32,
        20_240_101 + (1 << 32),
    ])
}

/// The answer of a call that looks for a day; 9 and 0 stand for none.
fn dated(found: Option<u64>) -> Dated {
    match found {
        Some(day) => Dated { answer: 0, day },
        None => Dated {
            answer: second::refusal::NO_SUCH_DAY,
            day: 0,
        },
    }
}

/// Compares every entry of the table of changeovers, the places beyond the last, and the printed table. Tells how many
/// places were answered by a day, and how many by 9.
fn compare_changeovers() -> Result<(u64, u64), String> {
    let entries = calendar::changeovers().len() as u64;
    if entries != share_library::CHANGEOVER_COUNT {
        return Err(format!(
            "the number of changeovers differs: the second implementation has {entries}"
        ));
    }
    let places = (0..entries + 1000).chain([1 << 16, 1 << 32, 1 << 63, u64::MAX]);
    let mut refused = 0;
    for place in places {
        let expected = calendar::changeover(place);
        refused += u64::from(expected.is_none());
        let same = share_library::calls::changeover(place) == dated(expected)
            && share_library::changeover(place) == expected.ok_or(Refusal::NoSuchDay);
        if !same {
            return Err(format!("the changeover at place {place} differs"));
        }
    }
    if program::written(&program::program("changeovers"), b"") != calendar::changeover_text() {
        return Err("the table that program changeovers prints differs".to_string());
    }
    Ok((entries, refused))
}

/// Compares all days, dates and changeovers.
pub fn compare() -> Result<String, String> {
    let days = || (0..calendar::DAYS + 1000).chain([1 << 32, 1 << 63, u64::MAX]);
    if let Some(day) = days().find(|&day| share_library::calls::quarters(day) != calendar::quarters(day).unwrap_or(0)) {
        return Err(format!("the quarters of day {day} differ"));
    }
    if let Some(day) = days().find(|&day| share_library::calls::date(day) != calendar::date_of(day).unwrap_or(0)) {
        return Err(format!("the date of day {day} differs"));
    }
    if let Some(date) = dates().find(|&date| share_library::calls::day(date) != dated(calendar::day_of(date))) {
        return Err(format!("the day of date {date} differs"));
    }
    let right = dates().filter(|&date| calendar::day_of(date).is_some()).count();
    if right as u64 != calendar::DAYS {
        return Err(format!("{right} dates are right"));
    }
    let (entries, refused) = compare_changeovers()?;
    Ok(format!(
        "quarters and dates of {} days, the days of {} numbers, {right} of them dates, {entries} changeovers, {refused} places refused by 9, the printed table",
        calendar::DAYS,
        dates().count()
    ))
}
