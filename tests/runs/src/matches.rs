//! How often the means of accepted evaluations are matched with their earlier weeks over a changeover of the clocks.

use crate::shown::{At, Shown, View};
use second::calendar::{self, Letter};
use second::evaluation::WEEKS;
use std::fmt;

/// How many quarters the second of a doubled hour stands behind the first.
pub const HOUR_QUARTERS: u64 = 4;

/// How many means there are of each kind.
#[derive(Default, PartialEq, Debug)]
pub struct Matches {
    /// How many have a reading of another quarter number in them: on a day of 92 quarters, on one of 100, from a day of
    /// 92, from one of 100.
    pub other_number: [u64; 4],
    /// How many are of the second hour from 02:00.
    pub second_hour: u64,
    /// How many are of a quarter that an earlier day misses, where that day's quarter of the same number shows no
    /// reading, and where it shows one.
    pub missing_hour: [u64; 2],
    /// How many have the first of a doubled hour in them, where the second shows a reading of another magnitude.
    pub doubled_hour: u64,
}

/// Whether clocks change on a day.
pub fn changeover(day: u64) -> bool {
    matches!(calendar::quarters(day), Some(92 | 100))
}

/// Whether clocks change on a day or on one of the four that its means look back to.
pub fn near_changeover(day: u64) -> bool {
    let mut days = (0..=WEEKS).filter_map(|weeks| day.checked_sub(7 * weeks));
    days.any(changeover)
}

/// The letter of a day's quarter, if it belongs to a doubled hour.
pub fn letter((day, quarter): At) -> Option<Letter> {
    calendar::wall_clock_start(day, quarter)?.letter
}

/// The readings of a mean: where each stands, and its magnitude.
fn readings(slots: &[Option<At>; 5], shown: &[Option<Shown>; 5]) -> Vec<(At, u64)> {
    let earlier = slots.iter().zip(shown).skip(1);
    earlier
        .filter_map(|(slot, found)| Some(((*slot)?, (*found)?.1)))
        .collect()
}

/// Which of the four kinds a mean is that has a reading of another quarter number in it: by its day, and that reading's.
fn kind(day: u64, other_day: u64) -> usize {
    match (calendar::quarters(day), calendar::quarters(other_day)) {
        (Some(92), _) => 0,
        (Some(100), _) => 1,
        (_, Some(92)) => 2,
        _ => 3,
    }
}

/// The earlier day that misses a day's quarter, if there is one.
fn missing_on(day: u64, slots: &[Option<At>; 5]) -> Option<u64> {
    let unmatched = (0..=WEEKS).zip(slots).find(|(_, slot)| slot.is_none());
    day.checked_sub(7 * unmatched?.0)
}

impl Matches {
    /// Counts the mean of a point as well, by the day's quarter and those that it is matched with, and the entries shown
    /// there: none for the first, and one at least for the others.
    pub fn count(&mut self, view: View, slots: &[Option<At>; 5], shown: &[Option<Shown>; 5]) {
        let Some((day, quarter)) = slots[0].filter(|&(day, _)| near_changeover(day)) else {
            return;
        };
        let readings = readings(slots, shown);
        if let Some(((other_day, _), _)) = readings.iter().find(|((_, number), _)| *number != quarter) {
            self.other_number[kind(day, *other_day)] += 1;
        }
        self.second_hour += u64::from(letter((day, quarter)) == Some(Letter::B));
        if let Some(short) = missing_on(day, slots) {
            self.missing_hour[usize::from(view.at((short, quarter)).is_some())] += 1;
        }
        self.count_doubled(view, &readings);
    }

    /// Counts a mean by its reading of the first of a doubled hour, if it has one.
    fn count_doubled(&mut self, view: View, readings: &[(At, u64)]) {
        let first = readings.iter().find(|(slot, _)| letter(*slot) == Some(Letter::A));
        if let Some(((day, number), magnitude)) = first {
            let second = view.at((*day, number + HOUR_QUARTERS));
            self.doubled_hour += u64::from(second.is_some_and(|(_, other)| other != *magnitude));
        }
    }

    /// All counts, one after another.
    pub fn counts(&self) -> Vec<u64> {
        [
            &self.other_number[..],
            &[self.second_hour],
            &self.missing_hour,
            &[self.doubled_hour],
        ]
        .concat()
    }
}

impl fmt::Display for Matches {
    fn fmt(&self, out: &mut fmt::Formatter) -> fmt::Result {
        let Matches {
            other_number,
            second_hour,
            missing_hour,
            doubled_hour,
        } = self;
        write!(
            out,
            "means with a reading of another quarter number on days of 92 and of 100 quarters, and from days of 92 and \
             of 100: {other_number:?}, means of the second hour from 02:00: {second_hour}, means of a quarter that an \
             earlier day misses, without and with a reading at its number there: {missing_hour:?}, means with the first \
             of a doubled hour whose second shows another magnitude: {doubled_hour}"
        )
    }
}

#[cfg(test)]
mod tests {
    use super::*;
    use crate::shown::{entries_at, matched};

    /// The count of one mean, at a day's quarter, of a point that has these readings.
    fn counted((day, quarter): At, readings: &[(At, u64)]) -> Matches {
        let (entries, slots) = (entries_at(3, readings), matched(day, quarter));
        let view = View {
            entries: &entries,
            point: 3,
            until: u64::MAX,
        };
        let mut matches = Matches::default();
        matches.count(view, &slots, &view.all(&slots));
        matches
    }

    #[test]
    fn another_number_is_counted_by_the_days() {
        for (at, reading, kind) in [
            ((90, 9), (83, 13), 0),
            ((90, 92), (62, 96), 0),
            ((300, 17), (293, 13), 1),
            ((300, 100), (272, 96), 1),
            ((97, 13), (90, 9), 2),
            ((118, 96), (90, 92), 2),
            ((307, 13), (300, 17), 3),
            ((328, 96), (300, 100), 3),
        ] {
            let mut expected = Matches::default();
            expected.other_number[kind] = 1;
            assert_eq!(counted(at, &[(reading, 5)]), expected, "{at:?}");
        }
        for (at, reading) in [
            ((90, 8), (83, 8)),
            ((97, 13), (83, 13)),
            ((125, 13), (118, 13)),
            ((300, 9), (293, 9)),
            ((307, 13), (293, 13)),
            ((335, 13), (328, 13)),
        ] {
            assert_eq!(counted(at, &[(reading, 5)]), Matches::default(), "{at:?}");
        }
    }

    #[test]
    fn the_second_hour_is_counted() {
        for quarter in 9..=20 {
            let single = quarter - if quarter > 12 { HOUR_QUARTERS } else { 0 };
            let matches = counted((300, quarter), &[((293, single), 5)]);
            assert_eq!(matches.second_hour, u64::from((13..=16).contains(&quarter)));
            assert_eq!(matches.other_number, [0, u64::from(quarter > 12), 0, 0]);
        }
    }

    #[test]
    fn a_missing_hour_is_counted_by_what_stands_at_its_number() {
        for (weeks, quarter) in (1..=4).flat_map(|weeks| (9..=12).map(move |quarter| (weeks, quarter))) {
            let day = 90 + 7 * weeks;
            let other = ((if weeks == 1 { day - 14 } else { day - 7 }, quarter), 5);
            let missing = |counts| Matches {
                missing_hour: counts,
                ..Matches::default()
            };
            assert_eq!(counted((day, quarter), &[other]), missing([1, 0]));
            assert_eq!(counted((day, quarter), &[other, ((90, quarter), 6)]), missing([0, 1]));
            for not_missing in [quarter - HOUR_QUARTERS, quarter + HOUR_QUARTERS] {
                let reading = ((other.0 .0, not_missing), 5);
                assert_eq!(counted((day, not_missing), &[reading]), missing([0, 0]));
            }
        }
    }

    #[test]
    fn a_doubled_hour_is_counted_where_its_readings_differ() {
        for (weeks, quarter) in (1..=4).flat_map(|weeks| (9..=12).map(move |quarter| (weeks, quarter))) {
            let at = (300 + 7 * weeks, quarter);
            let (first, second) = ((300, quarter), (300, quarter + HOUR_QUARTERS));
            for (readings, doubled_hour) in [
                (vec![(first, 5)], 0),
                (vec![(first, 5), (second, 5)], 0),
                (vec![(first, 5), (second, 6)], 1),
                (vec![(second, 6), (first, 6), (first, 5)], 1),
                (vec![(second, 6), (first, 5), (first, 6)], 0),
            ] {
                let expected = Matches {
                    doubled_hour,
                    ..Matches::default()
                };
                assert_eq!(counted(at, &readings), expected, "{at:?} {readings:?}");
            }
        }
    }
}
