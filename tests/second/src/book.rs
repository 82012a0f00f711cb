//! The book: every accepted reading with its stamp, nothing ever taken out.

use crate::evaluation::{self, weeks_earlier, Evaluation, Total, WEEKS};
use crate::registration::Registration;
use std::collections::HashMap;

/// The readings noted for each code, day and quarter as stamps, which rise, with magnitudes.
type Readings = HashMap<(u64, u64, u64), Vec<(u64, u64)>>;

/// The book of one group.
pub struct Book {
    registration: Registration,
    readings: Readings,
    last: u64,
}

impl Book {
    /// Begins a book with a registration, no readings and last stamp 0.
    pub fn new(registration: &Registration) -> Book {
        Book {
            registration: *registration,
            readings: HashMap::new(),
            last: 0,
        }
    }

    /// Gives the last stamp.
    pub fn last(&self) -> u64 {
        self.last
    }

    /// Notes an accepted submission, unless it repeats the newest reading, and gives its stamp.
    pub fn submit(&mut self, clock: u64, code: u64, day: u64, quarter: u64, value: i64) -> u64 {
        let magnitude = value.unsigned_abs();
        let noted = self.readings.entry((code, day, quarter)).or_default();
        match noted.last() {
            Some(&(stamp, newest)) if newest == magnitude => stamp,
            _ => {
                let stamp = clock.max(self.last.saturating_add(1));
                noted.push((stamp, magnitude));
                self.last = stamp;
                stamp
            }
        }
    }

    /// Gives the newest reading with a stamp up to the given one.
    fn reading(&self, code: u64, day: u64, quarter: u64, until: u64) -> Option<u64> {
        let noted = self.readings.get(&(code, day, quarter))?;
        let count = noted.partition_point(|&(stamp, _)| stamp <= until);
        noted[..count].last().map(|&(_, magnitude)| magnitude)
    }

    /// Adds up the readings of the earlier weeks as of a stamp.
    fn earlier(&self, code: u64, day: u64, quarter: u64, until: u64) -> Total {
        let mut total = Total::default();
        for (day, quarter) in (1..=WEEKS).filter_map(|weeks| weeks_earlier(weeks, day, quarter)) {
            if let Some(magnitude) = self.reading(code, day, quarter, until) {
                total.add(magnitude);
            }
        }
        total
    }

    /// Gives the result for a day and quarter as of a stamp.
    pub fn result(&self, day: u64, quarter: u64, until: u64) -> Evaluation {
        let codes = &self.registration.codes;
        evaluation::evaluate(
            &self.registration,
            |point| self.reading(codes[point], day, quarter, until),
            |point| self.earlier(codes[point], day, quarter, until),
        )
    }
}

#[cfg(test)]
mod tests {
    use super::*;
    use crate::samples::{group, PRODUCER};

    #[test]
    fn readings_are_shown_as_of_a_stamp() {
        let mut book = Book::new(&group());
        assert_eq!(book.submit(10, PRODUCER, 1, 1, 5), 10);
        assert_eq!(book.submit(3, PRODUCER, 1, 1, 6), 11);
        assert_eq!(book.submit(30, PRODUCER, 1, 1, 6), 11);
        assert_eq!(book.submit(0, PRODUCER, 1, 1, 5), 12);
        assert_eq!(book.last(), 12);
        for (day, until, supply, origin) in [
            (1, 0, 0, 6),
            (1, 9, 0, 6),
            (1, 10, 5, 0),
            (1, 11, 6, 0),
            (1, 12, 5, 0),
            (8, 9, 0, 6),
            (8, 11, 6, 1),
            (29, 12, 5, 1),
            (36, 12, 0, 6),
        ] {
            let result = book.result(day, 1, until);
            assert_eq!(result.outcome.supplies, [supply]);
            assert_eq!(result.origins, [origin, 6, 6]);
        }
    }

    #[test]
    fn earlier_weeks_are_matched_by_the_wall_clock() {
        let mut book = Book::new(&group());
        for (day, quarter, value) in [
            (83, 21, 5),
            (83, 17, 4),
            (90, 9, 3),
            (300, 9, 20),
            (300, 13, 21),
            (300, 17, 30),
        ] {
            book.submit(0, PRODUCER, day, quarter, value);
        }
        for (day, quarter, supply, origin) in [
            (90, 17, 5, 1),
            (90, 13, 4, 1),
            (90, 21, 0, 6),
            (97, 21, 5, 1),
            (118, 9, 0, 6),
            (118, 13, 3, 1),
            (328, 9, 20, 1),
            (328, 13, 30, 1),
            (328, 17, 0, 6),
        ] {
            let result = book.result(day, quarter, 6);
            assert_eq!(result.outcome.supplies, [supply]);
            assert_eq!(result.origins, [origin, 6, 6]);
        }
    }
}
