//! The evaluation of a quarter from readings, with substitutes for those that are missing, and with the origin of each
//! value.

use crate::allocation::{allocate, mean, Outcome};
use crate::calendar;
use crate::registration::{Registration, POINTS};

/// How many earlier weeks the readings for a substitute come from.
pub const WEEKS: u64 = 4;

/// The origin of a value that is the point's own reading. That of a mean is the number of weeks in it.
const MEASURED: u64 = 0;

/// The origin of a value that is zero since the point has no reading and a status above 0.
const ZERO_BY_STATUS: u64 = 5;

/// The origin of a value that is zero since neither the quarter nor an earlier week has a reading.
const ZERO_FOR_LACK: u64 = 6;

/// Gives the day and quarter that match a day's quarter a number of weeks earlier, if there are such: the first quarter
/// of the earlier day that starts at the same time by the wall clock.
pub fn weeks_earlier(weeks: u64, day: u64, quarter: u64) -> Option<(u64, u64)> {
    let earlier_day = day.checked_sub(7 * weeks)?;
    let start = calendar::wall_clock_start(day, quarter)?;
    let earlier_quarter = calendar::first_quarter_at(earlier_day, start.minutes)?;
    Some((earlier_day, earlier_quarter))
}

/// The readings of a point in the earlier weeks, as far as a mean needs them.
#[derive(Clone, Copy, PartialEq, Eq, Default, Debug)]
pub struct Total {
    /// The sum of their magnitudes.
    pub sum: u128,
    /// How many there are.
    pub count: u128,
}

impl Total {
    /// Takes one more reading in.
    pub fn add(&mut self, magnitude: u64) {
        self.sum += u128::from(magnitude);
        self.count += 1;
    }
}

/// The value of a point in a quarter.
#[derive(Clone, Copy, PartialEq, Eq, Debug)]
struct Value {
    /// Its magnitude.
    magnitude: u64,
    /// Where it comes from.
    origin: u64,
}

/// Looks up the value of a point with a status, and with it its origin: its own reading, else its substitute.
fn look_up(status: u8, own: Option<u64>, earlier: impl FnOnce() -> Total) -> Value {
    if let Some(magnitude) = own {
        return Value {
            magnitude,
            origin: MEASURED,
        };
    }
    if status > 0 {
        return Value {
            magnitude: 0,
            origin: ZERO_BY_STATUS,
        };
    }
    let Total { sum, count } = earlier();
    Value {
        magnitude: mean(sum, count),
        origin: if count > 0 { count as u64 } else { ZERO_FOR_LACK },
    }
}

/// What the evaluation of a quarter gives.
#[derive(Clone, PartialEq, Eq, Debug)]
pub struct Evaluation {
    /// What the allocation of the points' values gives.
    pub outcome: Outcome,
    /// The origins of these values, by point.
    pub origins: Vec<u64>,
}

impl Evaluation {
    /// Gives the numbers in the order of the result list.
    pub fn numbers(&self) -> Vec<u64> {
        let Outcome {
            shares,
            withdrawals,
            supplies,
            ..
        } = &self.outcome;
        [&shares[..], withdrawals, supplies, &self.origins].concat()
    }
}

/// Gives how many numbers the result list of a group has: one for each pair and two for each point.
pub fn result_size(registration: &Registration) -> usize {
    registration.pairs() + 2 * registration.points()
}

/// Evaluates a quarter of an undamaged group, where `own` looks up a point's reading and `earlier` those before it.
pub fn evaluate(
    registration: &Registration,
    own: impl Fn(usize) -> Option<u64>,
    earlier: impl Fn(usize) -> Total,
) -> Evaluation {
    let mut magnitudes = [0; POINTS];
    let mut origins = vec![0; registration.points()];
    for (point, origin) in origins.iter_mut().enumerate() {
        let value = look_up(registration.statuses[point], own(point), || earlier(point));
        (magnitudes[point], *origin) = (value.magnitude, value.origin);
    }
    Evaluation {
        outcome: allocate(registration, &magnitudes),
        origins,
    }
}

#[cfg(test)]
mod tests {
    use super::*;
    use crate::calendar::{quarters, DAYS};
    use crate::samples::{group, large_group, starts_by_hour};

    /// Gives a value from its magnitude and its origin.
    fn value(magnitude: u64, origin: u64) -> Value {
        Value { magnitude, origin }
    }

    #[test]
    fn earlier_weeks_keep_the_quarter_and_begin_with_the_calendar() {
        assert_eq!(weeks_earlier(1, 100, 5), Some((93, 5)));
        assert_eq!(weeks_earlier(3, 100, 5), Some((79, 5)));
        assert_eq!(weeks_earlier(1, 7, 1), Some((0, 1)));
        assert_eq!(weeks_earlier(1, 6, 1), None);
        assert_eq!(weeks_earlier(4, 28, 96), Some((0, 96)));
        assert_eq!(weeks_earlier(4, 27, 96), None);
    }

    /// Checks the matches of a day a number of weeks earlier by a plain search over all quarters of the earlier day.
    fn check_matches(weeks: u64, day: u64) {
        let earlier_day = (day >= 7 * weeks).then(|| day - 7 * weeks);
        let earlier_starts = earlier_day.map(starts_by_hour).unwrap_or_default();
        for (quarter, start) in (1..).zip(starts_by_hour(day)) {
            let mut numbered = (1..).zip(&earlier_starts);
            let found = numbered.find(|(_, earlier)| earlier.minutes == start.minutes);
            let expected = found.map(|(number, _)| (day - 7 * weeks, number));
            assert_eq!(weeks_earlier(weeks, day, quarter), expected, "{weeks} {day} {quarter}");
        }
    }

    #[test]
    fn earlier_weeks_are_matched_as_by_a_plain_search() {
        for day in (0..DAYS).filter(|day| *day < 3 * 366 || *day > DAYS - 2 * 366 || day % 7 == 6) {
            (1..=WEEKS).for_each(|weeks| check_matches(weeks, day));
        }
    }

    #[test]
    fn earlier_weeks_keep_the_quarter_where_no_day_is_a_changeover_day() {
        let ordinary = |day: u64| (0..=WEEKS).all(|weeks| quarters(day - 7 * weeks) == Some(96));
        for day in (7 * WEEKS..DAYS).filter(|&day| ordinary(day)) {
            for (weeks, quarter) in (1..=WEEKS).flat_map(|weeks| (1..=96).map(move |quarter| (weeks, quarter))) {
                assert_eq!(weeks_earlier(weeks, day, quarter), Some((day - 7 * weeks, quarter)));
            }
        }
    }

    #[test]
    fn the_bakery_at_five_is_matched_with_five() {
        for weeks in 1..=WEEKS {
            assert_eq!(weeks_earlier(weeks, 90, 17), Some((90 - 7 * weeks, 21)));
            assert_eq!(weeks_earlier(weeks, 300, 25), Some((300 - 7 * weeks, 21)));
            assert_eq!(weeks_earlier(weeks, 90 + 7 * weeks, 21), Some((90, 17)));
            assert_eq!(weeks_earlier(weeks, 300 + 7 * weeks, 21), Some((300, 25)));
        }
    }

    #[test]
    fn both_quarters_of_a_doubled_hour_take_the_single_one() {
        for (weeks, place) in (1..=WEEKS).flat_map(|weeks| (0..4).map(move |place| (weeks, place))) {
            let single = Some((300 - 7 * weeks, 9 + place));
            assert_eq!(weeks_earlier(weeks, 300, 9 + place), single);
            assert_eq!(weeks_earlier(weeks, 300, 13 + place), single);
        }
        assert_eq!(weeks_earlier(1, 300, 8), Some((293, 8)));
        assert_eq!(weeks_earlier(1, 300, 17), Some((293, 13)));
        assert_eq!(weeks_earlier(1, 300, 100), Some((293, 96)));
    }

    #[test]
    fn a_doubled_hour_gives_its_first() {
        for weeks in 1..=WEEKS {
            let day = 300 + 7 * weeks;
            for (quarter, earlier) in [(8, 8), (9, 9), (12, 12), (13, 17), (16, 20), (96, 100)] {
                assert_eq!(weeks_earlier(weeks, day, quarter), Some((300, earlier)));
            }
            assert!((1..=96).all(|quarter| !matches!(weeks_earlier(weeks, day, quarter), Some((_, 13..=16)))));
        }
    }

    #[test]
    fn a_missing_hour_gives_no_match() {
        for weeks in 1..=WEEKS {
            let day = 90 + 7 * weeks;
            for (quarter, earlier) in [(8, 8), (13, 9), (16, 12), (96, 92)] {
                assert_eq!(weeks_earlier(weeks, day, quarter), Some((90, earlier)));
            }
            for quarter in 9..=12 {
                assert_eq!(weeks_earlier(weeks, day, quarter), None);
            }
            assert_eq!(weeks_earlier(weeks, 90, 8), Some((90 - 7 * weeks, 8)));
            assert_eq!(weeks_earlier(weeks, 90, 9), Some((90 - 7 * weeks, 13)));
            assert_eq!(weeks_earlier(weeks, 90, 92), Some((90 - 7 * weeks, 96)));
        }
    }

    #[test]
    fn quarters_that_are_none_have_no_match() {
        for (day, quarter) in [
            (90, 0),
            (90, 93),
            (97, 97),
            (300, 101),
            (307, 97),
            (307, u64::MAX),
            (DAYS, 1),
            (u64::MAX, 1),
        ] {
            assert_eq!(weeks_earlier(1, day, quarter), None);
        }
    }

    #[test]
    fn a_reading_is_measured_whatever_it_is_and_whatever_the_status() {
        for status in 0..=3 {
            for reading in [0, 1, 9, 99_999_999] {
                for earlier in [Total::default(), Total { sum: 0, count: 4 }, Total { sum: 7, count: 2 }] {
                    assert_eq!(look_up(status, Some(reading), || earlier), value(reading, 0));
                }
            }
        }
    }

    #[test]
    fn a_status_above_0_gives_zero_whatever_the_earlier_weeks_have() {
        for status in 1..=3 {
            for count in 0..=4 {
                assert_eq!(look_up(status, None, || Total { sum: 0, count }), value(0, 5));
                assert_eq!(look_up(status, None, || Total { sum: 9 * count, count }), value(0, 5));
            }
        }
    }

    #[test]
    fn a_mean_has_its_weeks_as_origin() {
        for count in 1..=4 {
            let weeks = count as u64;
            assert_eq!(look_up(0, None, || Total { sum: 9 * count, count }), value(9, weeks));
            assert_eq!(
                look_up(0, None, || Total { sum: 1, count }),
                value(u64::from(weeks < 3), weeks)
            );
            assert_eq!(look_up(0, None, || Total { sum: 0, count }), value(0, weeks));
        }
        assert_eq!(look_up(0, None, Total::default), value(0, 6));
    }

    #[test]
    fn origins_stand_behind_the_supplies() {
        let readings = [Some(1001), None, Some(0)];
        let earlier = |point: usize| Total {
            sum: 100 * point as u128,
            count: 1,
        };
        let evaluation = evaluate(&group(), |point| readings[point], earlier);
        assert_eq!(evaluation.origins, [0, 1, 0]);
        assert_eq!(evaluation.numbers(), [100, 0, 0, 0, 901, 0, 1, 0]);
    }

    #[test]
    fn a_result_has_a_number_for_each_pair_and_two_for_each_point() {
        for (producers, consumers, size) in [
            (1, 1, 5),
            (1, 2, 8),
            (2, 3, 16),
            (5, 59, 423),
            (6, 58, 418),
            (63, 1, 133),
        ] {
            let registration = large_group(producers, consumers, 1);
            assert_eq!(result_size(&registration), size);
            let evaluation = evaluate(&registration, |_| None, |_| Total::default());
            assert_eq!(evaluation.numbers().len(), size);
        }
    }
}
