//! How often the readings that an evaluation finds for a point stand at an edge of its look-up.

use crate::calls::Kept;
use crate::matches::Matches;
use crate::shown::{matched, Shown};
use std::fmt;

/// How often the values of accepted evaluations stand at an edge.
#[derive(Default, PartialEq, Debug)]
pub struct Edges {
    /// How many are measured as 0, by status 0 to 3.
    pub zeros_measured: [u64; 4],
    /// How many are zero by status although an earlier week has a reading, by status 1 to 3.
    pub earlier_unused: [u64; 3],
    /// How many are the mean of readings of 0, by 1 to 4 weeks.
    pub means_of_zeros: [u64; 4],
    /// How many are the reading of week 1, 2, 3 or 4 alone.
    pub alone: [u64; 4],
    /// How many are a mean with the journal's oldest entry in it.
    pub with_oldest: u64,
    /// How many are a mean that is matched over a changeover.
    pub matches: Matches,
}

impl Edges {
    /// Counts those of an evaluation as well.
    pub fn count(&mut self, kept: &Kept, day: u64, quarter: u64, until: u64) {
        let registration = &kept.service.registration;
        let slots = matched(day, quarter);
        for point in 0..registration.points() {
            let status = usize::from(registration.statuses[point]);
            let view = kept.view(point, until);
            let shown = view.all(&slots);
            match shown {
                [Some((_, magnitude)), ..] => self.zeros_measured[status] += u64::from(magnitude == 0),
                [None, None, None, None, None] => (),
                _ if status > 0 => self.earlier_unused[status - 1] += 1,
                [None, earlier @ ..] => {
                    self.count_mean(&earlier);
                    self.matches.count(view, &slots, &shown);
                }
            }
        }
    }

    /// Counts a mean by the entries of the four weeks, of which there is one at least.
    fn count_mean(&mut self, earlier: &[Option<Shown>; 4]) {
        let met: Vec<usize> = (0..4).filter(|&week| earlier[week].is_some()).collect();
        let mut entries = earlier.iter().flatten();
        if let [week] = met[..] {
            self.alone[week] += 1;
        }
        self.with_oldest += u64::from(entries.clone().any(|&(number, _)| number == 0));
        self.means_of_zeros[met.len() - 1] += u64::from(entries.all(|&(_, magnitude)| magnitude == 0));
    }

    /// All counts, one after another.
    pub fn counts(&self) -> Vec<u64> {
        [
            &self.zeros_measured[..],
            &self.earlier_unused,
            &self.means_of_zeros,
            &self.alone,
            &[self.with_oldest],
            &self.matches.counts(),
        ]
        .concat()
    }
}

impl fmt::Display for Edges {
    fn fmt(&self, out: &mut fmt::Formatter) -> fmt::Result {
        let Edges {
            zeros_measured,
            earlier_unused,
            means_of_zeros,
            alone,
            with_oldest,
            matches,
        } = self;
        write!(
            out,
            "readings of 0 with status 0 to 3: {zeros_measured:?}, zeros by status 1 to 3 where an earlier week has a \
             reading: {earlier_unused:?}, means of zeros over 1 to 4 weeks: {means_of_zeros:?}, readings of week 1, 2, \
             3 or 4 alone: {alone:?}, means with the journal's oldest entry: {with_oldest}, {matches}"
        )
    }
}

#[cfg(test)]
mod tests {
    use super::*;
    use crate::groups;
    use crate::random::Random;
    use crate::shown::At;
    use crate::sides::Event;
    use second::service::Service;

    /// A fresh service of a group whose points all have status 0.
    fn active(seed: u64) -> Kept {
        let mut registration = groups::registration(&mut Random::new(seed));
        registration.statuses = [0; 64];
        Kept {
            service: Service::fresh(&registration).expect("a registration that keeps every rule"),
            journal: vec![0; 30],
        }
    }

    /// Submits a reading of the first point, a producer, at a day's quarter.
    fn submit_at(kept: &mut Kept, (day, quarter): At, value: i64) {
        let event = Event::Submission {
            clock: 0,
            code: kept.service.registration.codes[0],
            day,
            quarter,
            value,
        };
        assert_eq!(kept.make(event, &mut []).0, 0);
    }

    /// Submits a reading of the first point at quarter 5 of a day.
    fn submit(kept: &mut Kept, day: u64, value: i64) {
        submit_at(kept, (day, 5), value);
    }

    /// The edges of one evaluation.
    fn counted(kept: &Kept, day: u64, quarter: u64, until: u64) -> Edges {
        let mut edges = Edges::default();
        edges.count(kept, day, quarter, until);
        edges
    }

    #[test]
    fn a_week_alone_is_counted() {
        for week in 1..=4 {
            let mut kept = active(week);
            submit(&mut kept, 100 - 7 * week, 7);
            let with_oldest = Edges {
                with_oldest: 1,
                ..Edges::default()
            };
            let mut once = Edges {
                with_oldest: 1,
                ..Edges::default()
            };
            once.alone[week as usize - 1] = 1;
            assert_eq!(counted(&kept, 100, 5, 1), once);
            // Not as of an earlier stamp, nor at another quarter, nor where another week or the day itself has one.
            assert_eq!(counted(&kept, 100, 5, 0), Edges::default());
            assert_eq!(counted(&kept, 100, 6, 1), Edges::default());
            let mut two = kept.clone();
            submit(&mut two, 100 - 7 * (5 - week), 7);
            assert_eq!(counted(&two, 100, 5, 2), with_oldest);
            submit(&mut kept, 100, 7);
            assert_eq!(counted(&kept, 100, 5, 2), Edges::default());
        }
    }

    /// The edges of an evaluation with a reading of a number of weeks before alone, which is the journal's only entry.
    fn alone(weeks: u64, other_number: [u64; 4]) -> Edges {
        let mut edges = Edges {
            with_oldest: 1,
            ..Edges::default()
        };
        edges.alone[weeks as usize - 1] = 1;
        edges.matches.other_number = other_number;
        edges
    }

    #[test]
    fn a_week_alone_is_counted_at_the_same_time_of_day() {
        for weeks in 1..=4 {
            for ((day, quarter), matched, other_number) in [
                ((90, 9), 13, [1, 0, 0, 0]),
                ((90, 8), 8, [0; 4]),
                ((300, 17), 13, [0, 1, 0, 0]),
                ((300, 9), 9, [0; 4]),
                ((90 + 7 * weeks, 13), 9, [0, 0, 1, 0]),
                ((300 + 7 * weeks, 13), 17, [0, 0, 0, 1]),
                ((300 + 7 * weeks, 9), 9, [0; 4]),
            ] {
                let mut kept = active(weeks);
                submit_at(&mut kept, (day - 7 * weeks, matched), 7);
                assert_eq!(counted(&kept, day, quarter, 1), alone(weeks, other_number));
            }
        }
    }

    #[test]
    fn a_reading_at_another_time_of_day_is_not_counted() {
        for weeks in 1..=4 {
            for ((day, quarter), unmatched) in [
                ((90, 9), 9),
                ((90, 9), 12),
                ((300, 13), 13),
                ((300, 17), 17),
                ((90 + 7 * weeks, 9), 9),
                ((90 + 7 * weeks, 13), 13),
                ((300 + 7 * weeks, 9), 13),
                ((300 + 7 * weeks, 13), 13),
            ] {
                let mut kept = active(weeks);
                submit_at(&mut kept, (day - 7 * weeks, unmatched), 7);
                assert_eq!(counted(&kept, day, quarter, 1), Edges::default());
            }
        }
    }

    #[test]
    fn zeros_are_counted_by_status_and_by_weeks() {
        let mut kept = active(1);
        for week in 1..=4 {
            submit(&mut kept, 100 - 7 * week, 0);
            let edges = counted(&kept, 100, 5, week);
            let mut expected = [0; 4];
            expected[week as usize - 1] = 1;
            assert_eq!(edges.means_of_zeros, expected);
            assert_eq!((edges.zeros_measured, edges.earlier_unused), ([0; 4], [0; 3]));
        }
        submit(&mut kept, 93, 1);
        assert_eq!(counted(&kept, 100, 5, 5).means_of_zeros, [0; 4]);
        submit(&mut kept, 100, 0);
        for status in 0..=3 {
            kept.service.registration.statuses[0] = status;
            let mut measured = Edges::default();
            measured.zeros_measured[usize::from(status)] = 1;
            assert_eq!(counted(&kept, 100, 5, 6), measured);
            if status > 0 {
                let mut unused = Edges::default();
                unused.earlier_unused[usize::from(status) - 1] = 1;
                assert_eq!(counted(&kept, 100, 5, 5), unused);
                assert_eq!(counted(&kept, 100, 5, 1), unused);
                assert_eq!(counted(&kept, 100, 5, 0), Edges::default());
            }
        }
    }
}
