//! Submissions, clears and evaluations for a group: mostly such as are accepted, with corrections, repeats and clocks
//! that go back, and every kind of argument that is refused.

use crate::calls::Kept;
use crate::groups;
use crate::matches::{self, HOUR_QUARTERS};
use crate::random::Random;
use crate::shown::{self, At};
use crate::sides::Event;
use second::calendar;
use second::evaluation::weeks_earlier;
use second::registration::Registration;
use second::service::Service;
use std::sync::OnceLock;

/// A few days and quarters, so that readings meet: a day, those of the weeks before it, and neighbours; and quarters of
/// the first of these days.
pub struct Slots {
    pub days: Vec<u64>,
    pub quarters: Vec<u64>,
}

/// The days that have 92 or 100 quarters.
pub fn changeover_days() -> &'static [u64] {
    static DAYS: OnceLock<Vec<u64>> = OnceLock::new();
    DAYS.get_or_init(|| (0..calendar::DAYS).filter(|&day| matches::changeover(day)).collect())
}

/// A day, those of the weeks before it, and its neighbours.
fn days_around(day: u64) -> Vec<u64> {
    let before = [0, 7, 14, 21, 28, 35, 1].into_iter();
    let mut days: Vec<u64> = before.filter_map(|before| day.checked_sub(before)).collect();
    days.push((day + 1).min(calendar::DAYS - 1));
    days
}

/// Slots around a day on which clocks change, or around one of the four Sundays after it. Two of the quarters are an
/// hour apart, as matched quarters may be.
fn slots_near_changeover(random: &mut Random) -> Slots {
    let day = random.pick(changeover_days()) + 7 * random.between(0, 4);
    let mut quarter = || match random.below(10) {
        0 => random.between(89, 96),
        1 | 2 => random.between(5, 20),
        _ => random.between(9, 12),
    };
    let (one, other) = (quarter(), quarter());
    let other = other + random.pick(&[0, HOUR_QUARTERS]);
    Slots {
        days: days_around(day),
        quarters: vec![one, one + HOUR_QUARTERS, other],
    }
}

/// Slots near a changeover, or around a day that is early, late or any.
pub fn slots(random: &mut Random) -> Slots {
    let last = calendar::DAYS - 1;
    let day = match random.below(7) {
        0 => random.between(0, 40),
        1 => last - random.between(0, 40),
        2 => random.between(0, last),
        _ => return slots_near_changeover(random),
    };
    let quarters = [1, 2, 4, 8, 9, 12, 13, 40, 91, 92, 93, 96, 97, 100];
    Slots {
        days: days_around(day),
        quarters: (0..3).map(|_| random.pick(&quarters)).collect(),
    }
}

/// How many weeks a day lies before a later one, if it does by whole weeks.
fn weeks_before(later: u64, day: u64) -> Option<u64> {
    let apart = later.checked_sub(day)?;
    (apart > 0 && apart.is_multiple_of(7)).then_some(apart / 7)
}

/// A quarter so many weeks before a later day, for a reading that is to count for a quarter of that day: mostly the one
/// it is matched with; now and then the second of a doubled hour or the one of the same number, which may not count.
fn earlier_quarter(random: &mut Random, weeks: u64, later: u64, quarter: u64) -> u64 {
    match weeks_earlier(weeks, later, quarter) {
        Some(first) if matches::letter(first).is_some() && random.one_in(2) => first.1 + HOUR_QUARTERS,
        Some((_, matched)) if !random.one_in(8) => matched,
        _ => quarter,
    }
}

/// A quarter of a later day that a quarter so many weeks before counts for, or, if it counts for none, the one of the
/// same number or one an hour from it.
fn later_quarter(random: &mut Random, weeks: u64, later: u64, at: At) -> u64 {
    let near = [at.1, at.1 + HOUR_QUARTERS, at.1.saturating_sub(HOUR_QUARTERS)];
    let counts = |&&quarter: &&u64| weeks_earlier(weeks, later, quarter) == Some(at);
    let found: Vec<u64> = near.iter().filter(counts).copied().collect();
    random.pick(if found.is_empty() { &near } else { &found })
}

/// A clock: mostly a little later than the last stamp, now and then set back, rarely at or above the limit.
fn clock(random: &mut Random, last: u64) -> u64 {
    match random.below(200) {
        0 => random.pick(&[0, 999_999_999_998, 999_999_999_999]),
        1..=3 => random.pick(&[1_000_000_000_000, u64::MAX, 9_999_999_999_999]),
        4..=40 => last.saturating_sub(random.below(1000)),
        41..=60 => last,
        _ => last.saturating_add(random.below(100)),
    }
}

/// The code of one of the group's points, rarely another.
fn code(random: &mut Random, service: &Service) -> u64 {
    let codes = &service.registration.codes;
    let points = service.registration.points().clamp(1, 64);
    match random.below(40) {
        0 => random.pick(&[0, 1, u64::MAX, 999_999_999_999_999_999, codes[0] ^ 1]),
        1 => groups::code(random),
        _ => codes[random.place(points)],
    }
}

/// A day of the slots, rarely one that there is not, or one at the kept day.
fn day(random: &mut Random, service: &Service, slots: &Slots) -> u64 {
    let kept = service.state.kept_day;
    match random.below(40) {
        0 => random.pick(&[calendar::DAYS - 1, calendar::DAYS, 99_999, u64::MAX]),
        1 => random.pick(&[
            kept,
            kept.saturating_sub(1),
            kept.saturating_add(27),
            kept.saturating_add(28),
        ]),
        2 => random.below(calendar::DAYS),
        _ => random.pick(&slots.days),
    }
}

/// A quarter of the slots, rarely one that there is not.
fn quarter(random: &mut Random, slots: &Slots) -> u64 {
    match random.below(30) {
        0 => random.pick(&[0, 93, 97, 101, 999, u64::MAX]),
        _ => random.pick(&slots.quarters),
    }
}

/// A day and a quarter: where the day lies weeks before the first of the slots' days, mostly the quarter that one of
/// the slots is matched with.
fn slot(random: &mut Random, service: &Service, slots: &Slots) -> At {
    let (day, quarter) = (day(random, service, slots), quarter(random, slots));
    match weeks_before(slots.days[0], day) {
        Some(weeks) => (day, earlier_quarter(random, weeks, slots.days[0], quarter)),
        None => (day, quarter),
    }
}

/// A value with the sign of its point, from so few that repeats occur; rarely of the wrong sign or size.
fn value(random: &mut Random, producer: bool) -> i64 {
    let magnitude = match random.below(12) {
        0 => 99_999_999,
        1 => random.between(0, 99_999_999) as i64,
        _ => random.pick(&[0, 0, 1, 2, 3, 100, 101, 1001, 25_000]),
    };
    let suits = if producer { magnitude } else { -magnitude };
    match random.below(40) {
        0 => random.pick(&[100_000_000, -100_000_000, 999_999_999, i64::MAX, i64::MIN, i64::MIN + 1]),
        1 => -suits,
        _ => suits,
    }
}

/// A stamp from the kept one to the last, both ends often, rarely one outside.
fn stamp(random: &mut Random, service: &Service) -> u64 {
    let (least, most) = (service.state.kept_stamp, service.state.last);
    match random.below(12) {
        0 => least,
        1 => least.saturating_sub(1),
        2 => most.saturating_add(1),
        3 if random.one_in(4) => random.pick(&[0, u64::MAX, 999_999_999_999]),
        4..=6 => most,
        _ if least < most => random.between(least, most),
        _ => most,
    }
}

/// The reading of one of the journal's entries once more: with its own magnitude, or with another as a correction.
fn again(random: &mut Random, kept: &Kept) -> Option<Event> {
    let (service, entries) = (&kept.service, kept.entries());
    let at = (!entries.is_empty()).then(|| 3 * random.place(entries.len() / 3))?;
    let (place, stored) = (entries[at + 1], entries[at + 2]);
    let point = (place / 100 / calendar::DAYS) as usize;
    let magnitude = if random.one_in(4) { stored ^ 1 } else { stored };
    let value = if point < service.registration.producers {
        magnitude as i64
    } else {
        -(magnitude as i64)
    };
    Some(Event::Submission {
        clock: clock(random, service.state.last),
        code: service.registration.codes[point],
        day: place / 100 % calendar::DAYS,
        quarter: place % 100 + 1,
        value,
    })
}

/// A submission.
fn submission(random: &mut Random, service: &Service, slots: &Slots) -> Event {
    let code = code(random, service);
    let registration = &service.registration;
    let producer = registration.codes[..registration.producers.min(64)].contains(&code);
    let (day, quarter) = slot(random, service, slots);
    Event::Submission {
        clock: clock(random, service.state.last),
        code,
        day,
        quarter,
        value: value(random, producer),
    }
}

/// A reading one to four weeks before the first of the slots' days, of a point that has none for that day's quarter or
/// for any of its weeks: alone it makes the substitute, where the status is 0.
fn lone(random: &mut Random, kept: &Kept, slots: &Slots) -> Option<Event> {
    let Registration { producers, codes, .. } = kept.service.registration;
    let point = random.place(kept.service.registration.points());
    let (first, asked) = (slots.days[0], random.pick(&slots.quarters));
    let (day, quarter) = weeks_earlier(random.between(1, 4), first, asked)?;
    if kept.view(point, u64::MAX).all(&shown::matched(first, asked)) != [None; 5] {
        return None;
    }
    let magnitude = random.pick(&[0, 1, 3, 101, 25_000]);
    Some(Event::Submission {
        clock: clock(random, kept.service.state.last),
        code: codes[point],
        day,
        quarter,
        value: if point < producers { magnitude } else { -magnitude },
    })
}

/// A reading of 0 on the first of the slots' days, the one that is evaluated most.
fn zero_on_the_day(random: &mut Random, service: &Service, slots: &Slots) -> Event {
    Event::Submission {
        clock: clock(random, service.state.last),
        code: code(random, service),
        day: slots.days[0],
        quarter: quarter(random, slots),
        value: 0,
    }
}

/// The first few points of a group and a quarter of the slots, of which readings in the weeks before the first of the
/// slots' days are to meet; their magnitudes are below a limit.
pub struct Focus {
    points: usize,
    quarter: u64,
    limit: u64,
}

/// A focus on one to three points, which get their statuses anew, mostly 0. Their magnitudes are 0 alone, 0 and 1, or
/// any.
pub fn focus(random: &mut Random, registration: &mut Registration, slots: &Slots) -> Focus {
    let points = registration.points().min(random.pick(&[1, 1, 2, 3]));
    for status in &mut registration.statuses[..points] {
        *status = if random.one_in(2) { random.below(4) as u8 } else { 0 };
    }
    Focus {
        points,
        quarter: random.pick(&slots.quarters),
        limit: random.pick(&[1, 2, 100_000, 100_000]),
    }
}

/// How many weeks before a day a reading is placed, one to four: often so many that clocks changed then.
fn weeks_back(random: &mut Random, day: u64) -> u64 {
    let changed = |&weeks: &u64| matches::changeover(day.saturating_sub(7 * weeks));
    match (1..=4).find(changed) {
        Some(weeks) if random.one_in(3) => weeks,
        _ => random.between(1, 4),
    }
}

/// A reading of one of a focus's points one to four weeks before the first of the slots' days, or on day 0 where there
/// is no such day; now and then on the first of the days itself.
fn reading_in(random: &mut Random, service: &Service, slots: &Slots, focus: &Focus) -> Event {
    let point = random.place(focus.points);
    let (first, asked) = (slots.days[0], focus.quarter);
    let weeks = weeks_back(random, first);
    let (day, quarter) = if random.one_in(20) {
        (first, asked)
    } else {
        let quarter = earlier_quarter(random, weeks, first, asked);
        (first.saturating_sub(7 * weeks), quarter)
    };
    let magnitude = random.below(focus.limit) as i64;
    Event::Submission {
        clock: clock(random, service.state.last),
        code: service.registration.codes[point],
        day,
        quarter,
        value: if point < service.registration.producers {
            magnitude
        } else {
            -magnitude
        },
    }
}

/// A call in a focus: mostly a reading, else the evaluation that the readings are for, often as of the last stamp;
/// rarely a reading at any of the slots.
pub fn event_in(random: &mut Random, service: &Service, slots: &Slots, focus: &Focus) -> Event {
    match random.below(30) {
        0..=12 => Event::Evaluation {
            day: slots.days[0],
            quarter: focus.quarter,
            until: if random.one_in(2) {
                service.state.last
            } else {
                stamp(random, service)
            },
        },
        13 => submission(random, service, slots),
        _ => reading_in(random, service, slots, focus),
    }
}

/// A clear: mostly of no day of the slots or the oldest of them.
fn clear(random: &mut Random, service: &Service, slots: &Slots) -> Event {
    let kept = service.state.kept_day;
    let oldest = slots.days.iter().copied().min().unwrap_or(0);
    let day = match random.below(8) {
        0 => day(random, service, slots),
        1 => kept.saturating_sub(1),
        2 | 3 => kept,
        4 => oldest,
        _ => kept.max(oldest.saturating_sub(random.below(30))),
    };
    Event::Clear {
        day,
        stamp: stamp(random, service),
    }
}

/// An evaluation, mostly of the first of the slots' days.
fn evaluation(random: &mut Random, service: &Service, slots: &Slots) -> Event {
    let (day, quarter) = if random.one_in(3) {
        slot(random, service, slots)
    } else {
        (slots.days[0], quarter(random, slots))
    };
    Event::Evaluation {
        day,
        quarter,
        until: stamp(random, service),
    }
}

/// The first of the slots' days evaluated at the quarter that the journal's last entry counts for, as of the last stamp.
fn evaluation_at_once(random: &mut Random, kept: &Kept, slots: &Slots) -> Option<Event> {
    let entry = kept.entries().chunks_exact(3).next_back()?;
    let (day, quarter) = (entry[1] / 100 % calendar::DAYS, entry[1] % 100 + 1);
    let first = slots.days[0];
    Some(Event::Evaluation {
        day: first,
        quarter: match weeks_before(first, day) {
            Some(weeks) => later_quarter(random, weeks, first, (day, quarter)),
            None => quarter,
        },
        until: kept.service.state.last,
    })
}

/// A call on the service and its journal as they stand.
pub fn event(random: &mut Random, kept: &Kept, slots: &Slots) -> Event {
    let service = &kept.service;
    match random.below(30) {
        0..=3 => again(random, kept).unwrap_or_else(|| submission(random, service, slots)),
        4..=6 => lone(random, kept, slots).unwrap_or_else(|| submission(random, service, slots)),
        7..=9 => zero_on_the_day(random, service, slots),
        10..=17 => submission(random, service, slots),
        18..=19 => clear(random, service, slots),
        20..=23 => evaluation_at_once(random, kept, slots).unwrap_or_else(|| evaluation(random, service, slots)),
        _ => evaluation(random, service, slots),
    }
}
