//! The entries that an evaluation finds for a point: at its own quarter, and at those that this one is matched with in
//! the four weeks before.

use second::calendar;
use second::evaluation::weeks_earlier;

/// A day and one of its quarters.
pub type At = (u64, u64);

/// An entry that is shown: its number in the journal, from 0, and its magnitude.
pub type Shown = (usize, u64);

/// The entries of an undamaged journal, seen for a point as of a stamp.
#[derive(Clone, Copy)]
pub struct View<'a> {
    pub entries: &'a [u64],
    pub point: usize,
    pub until: u64,
}

impl View<'_> {
    /// The entry shown at a day's quarter.
    pub fn at(&self, (day, quarter): At) -> Option<Shown> {
        let place = (self.point as u64 * calendar::DAYS + day) * 100 + quarter - 1;
        let mut newest_first = self.entries.chunks_exact(3).enumerate().rev();
        let (number, entry) = newest_first.find(|(_, entry)| entry[0] <= self.until && entry[1] == place)?;
        Some((number, entry[2]))
    }

    /// The entries shown at some slots.
    pub fn all(&self, slots: &[Option<At>; 5]) -> [Option<Shown>; 5] {
        slots.map(|slot| self.at(slot?))
    }
}

/// A day's quarter, and those that it is matched with one to four weeks before.
pub fn matched(day: u64, quarter: u64) -> [Option<At>; 5] {
    std::array::from_fn(|weeks| match weeks {
        // Matched with its own day, the second of a doubled hour would be the first.
        0 => Some((day, quarter)),
        _ => weeks_earlier(weeks as u64, day, quarter),
    })
}

/// The entries of a point's readings at some slots, stamped 1, 2, 3 and so on.
#[cfg(test)]
pub fn entries_at(point: u64, readings: &[(At, u64)]) -> Vec<u64> {
    let entry = |(stamp, &((day, quarter), magnitude))| {
        let place = (point * calendar::DAYS + day) * 100 + quarter - 1;
        [stamp, place, magnitude]
    };
    (1..).zip(readings).flat_map(entry).collect()
}

#[cfg(test)]
mod tests {
    use super::*;

    /// The magnitudes shown for a point at a day's quarter and in the four weeks before.
    fn magnitudes(entries: &[u64], point: usize, (day, quarter): At, until: u64) -> [Option<u64>; 5] {
        let view = View { entries, point, until };
        let shown = view.all(&matched(day, quarter));
        shown.map(|found| found.map(|(_, magnitude)| magnitude))
    }

    #[test]
    fn the_newest_entry_up_to_the_stamp_is_shown() {
        let entries = entries_at(
            2,
            &[
                ((93, 5), 10),
                ((100, 5), 11),
                ((93, 5), 12),
                ((93, 6), 13),
                ((65, 5), 14),
            ],
        );
        let none = [None; 5];
        for (until, shown) in [
            (0, none),
            (1, [None, Some((0, 10)), None, None, None]),
            (2, [Some((1, 11)), Some((0, 10)), None, None, None]),
            (4, [Some((1, 11)), Some((2, 12)), None, None, None]),
        ] {
            let view = |point| View {
                entries: &entries,
                point,
                until,
            };
            assert_eq!(view(2).all(&matched(100, 5)), shown);
            assert_eq!(view(1).all(&matched(100, 5)), none);
        }
    }

    #[test]
    fn on_a_changeover_day_earlier_weeks_are_shown_by_the_wall_clock() {
        let week = |quarter: u64| [((83, quarter), quarter), ((293, quarter), quarter)];
        let entries = entries_at(0, &[5, 8, 9, 12, 13, 16, 17, 21, 92, 93, 96].map(week).concat());
        for (at, earlier) in [
            ((90, 5), Some(5)),
            ((90, 8), Some(8)),
            ((90, 9), Some(13)),
            ((90, 12), Some(16)),
            ((90, 13), Some(17)),
            ((90, 17), Some(21)),
            ((90, 92), Some(96)),
            ((300, 8), Some(8)),
            ((300, 9), Some(9)),
            ((300, 12), Some(12)),
            ((300, 13), Some(9)),
            ((300, 16), Some(12)),
            ((300, 17), Some(13)),
            ((300, 25), Some(21)),
            ((300, 97), Some(93)),
            ((300, 100), Some(96)),
        ] {
            let shown = magnitudes(&entries, 0, at, u64::MAX);
            assert_eq!(shown, [None, earlier, None, None, None], "{at:?}");
        }
    }

    #[test]
    fn on_later_sundays_the_changeover_day_is_shown_by_the_wall_clock() {
        let changeover = |quarter: u64| [((90, quarter), quarter), ((300, quarter), quarter)];
        let both = [8, 9, 12, 13, 16, 17, 20, 92].map(changeover).concat();
        let entries = entries_at(0, &[both, vec![((300, 100), 100)]].concat());
        for weeks in 1..=4 {
            for (day, quarter, earlier) in [
                (90, 8, Some(8)),
                (90, 9, None),
                (90, 12, None),
                (90, 13, Some(9)),
                (90, 16, Some(12)),
                (90, 96, Some(92)),
                (300, 8, Some(8)),
                (300, 9, Some(9)),
                (300, 12, Some(12)),
                (300, 13, Some(17)),
                (300, 16, Some(20)),
                (300, 96, Some(100)),
            ] {
                let mut expected = [None; 5];
                expected[weeks as usize] = earlier;
                let shown = magnitudes(&entries, 0, (day + 7 * weeks, quarter), u64::MAX);
                assert_eq!(shown, expected, "{weeks} weeks after day {day}, quarter {quarter}");
            }
        }
    }

    #[test]
    fn each_of_a_doubled_hour_shows_its_own_reading() {
        let entries = entries_at(0, &[((300, 9), 1), ((300, 13), 2), ((293, 9), 3), ((293, 13), 4)]);
        for (until, quarter, shown) in [
            (3, 9, [Some(1), Some(3)]),
            (3, 13, [Some(2), Some(3)]),
            (1, 13, [None, None]),
            (4, 17, [None, Some(4)]),
        ] {
            assert_eq!(magnitudes(&entries, 0, (300, quarter), until)[..2], shown);
        }
    }
}
