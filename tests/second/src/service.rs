//! The service: a record of the group's registration and state, and the calls that work on a lent journal.

use crate::calendar::{self, DAYS};
use crate::evaluation::{self, weeks_earlier, Evaluation, Total, WEEKS};
use crate::refusal::*;
use crate::registration::{Registration, POINTS};
use std::collections::HashMap;

/// How many numbers an entry of the journal has: stamp, place, magnitude.
pub const ENTRY: usize = 3;

/// How many quarters a place leaves room for on each day.
const QUARTERS: u64 = 100;

/// How many places each point has.
const POINT_PLACES: u64 = DAYS * QUARTERS;

/// The quarters that every day has.
const SURE_QUARTERS: u64 = 92;

/// The greatest stamp.
pub const GREATEST_STAMP: u64 = 999_999_999_999;

/// The greatest magnitude of a reading, in hundredths of a kWh.
pub const GREATEST_MAGNITUDE: u64 = 99_999_999;

/// How many days before the evaluated one its evaluation looks back.
const LOOK_BACK: u64 = 7 * WEEKS;

/// What changes in a service from call to call.
#[derive(Clone, Copy, PartialEq, Eq, Debug)]
pub struct State {
    /// The last stamp given.
    pub last: u64,
    /// The kept stamp: no earlier state can be evaluated.
    pub kept_stamp: u64,
    /// The kept day: no earlier day has entries.
    pub kept_day: u64,
    /// How many entries the journal has.
    pub entries: usize,
}

/// The record of one group's service.
#[derive(Clone, Copy, PartialEq, Eq, Debug)]
pub struct Service {
    /// The registration of the group.
    pub registration: Registration,
    /// The state after the calls so far.
    pub state: State,
}

/// Gives the place of a point, day and quarter.
fn place_of(point: usize, day: u64, quarter: u64) -> u64 {
    (point as u64 * DAYS + day) * QUARTERS + quarter - 1
}

/// Gives the day of a place.
fn day_of_place(place: u64) -> u64 {
    place / QUARTERS % DAYS
}

/// Tells whether a day has a quarter.
fn quarter_exists(day: u64, quarter: u64) -> bool {
    calendar::quarters(day).is_some_and(|quarters| (1..=quarters).contains(&quarter))
}

/// Gives how many of the entries, whose stamps rise, have a stamp at most the given one.
fn entries_until(entries: &[u64], stamp: u64) -> usize {
    let (mut low, mut high) = (0, entries.len() / ENTRY);
    while low < high {
        let middle = low + (high - low) / 2;
        if entries[ENTRY * middle] <= stamp {
            low = middle + 1;
        } else {
            high = middle;
        }
    }
    low
}

/// Gives the newest entry for a place.
fn newest(entries: &[u64], place: u64) -> Option<&[u64]> {
    entries.rchunks_exact(ENTRY).find(|entry| entry[1] == place)
}

/// Gives the magnitude of a value, or nothing if its sign or size does not suit the point's side.
fn magnitude_of(producer: bool, value: i64) -> Option<u64> {
    let sign_right = if producer { value >= 0 } else { value <= 0 };
    let magnitude = value.unsigned_abs();
    (sign_right && magnitude <= GREATEST_MAGNITUDE).then_some(magnitude)
}

impl Service {
    /// Makes a service without entries from a registration alone, unless that is damaged.
    pub fn fresh(registration: &Registration) -> Result<Service, u64> {
        if registration.damaged() {
            return Err(DAMAGED);
        }
        let state = State {
            last: 0,
            kept_stamp: 0,
            kept_day: 0,
            entries: 0,
        };
        Ok(Service {
            registration: *registration,
            state,
        })
    }

    /// Tells whether the record or the journal that goes with it is damaged.
    pub fn damaged(&self, journal: &[u64]) -> bool {
        let state = &self.state;
        self.registration.damaged()
            || state.kept_stamp > state.last
            || state.last > GREATEST_STAMP
            || state.kept_day >= DAYS
            || state.entries > journal.len() / ENTRY
            || self.entries_damaged(self.entries(journal))
    }

    /// Gives the part of the journal that holds entries.
    fn entries<'a>(&self, journal: &'a [u64]) -> &'a [u64] {
        &journal[..ENTRY * self.state.entries]
    }

    /// Tells whether stamps fail to rise up to the last one, or an entry has a wrong place or magnitude.
    fn entries_damaged(&self, entries: &[u64]) -> bool {
        let places = self.registration.points() as u64 * POINT_PLACES;
        let mut before = 0;
        for entry in entries.chunks_exact(ENTRY) {
            let (stamp, place, magnitude) = (entry[0], entry[1], entry[2]);
            if stamp <= before || stamp > self.state.last || place >= places || magnitude > GREATEST_MAGNITUDE {
                return true;
            }
            let (day, quarter) = (day_of_place(place), place % QUARTERS + 1);
            if day < self.state.kept_day || (quarter > SURE_QUARTERS && !quarter_exists(day, quarter)) {
                return true;
            }
            before = stamp;
        }
        false
    }

    /// Takes a reading and gives the stamp it stands under, or the number of the refusal.
    pub fn submit(
        &mut self,
        journal: &mut [u64],
        clock: u64,
        code: u64,
        day: u64,
        quarter: u64,
        value: i64,
    ) -> Result<u64, u64> {
        if self.damaged(journal) {
            return Err(DAMAGED);
        }
        let point = self.registration.point_of(code).ok_or(CODE_NOT_IN_GROUP)?;
        if !quarter_exists(day, quarter) {
            return Err(NO_SUCH_DAY);
        }
        if day < self.state.kept_day {
            return Err(DAY_CLEARED);
        }
        let magnitude = magnitude_of(point < self.registration.producers, value).ok_or(VALUE_WRONG)?;
        if clock > GREATEST_STAMP || self.state.last == GREATEST_STAMP {
            return Err(CLOCK_OUTSIDE);
        }
        self.store(journal, clock, place_of(point, day, quarter), magnitude)
    }

    /// Appends an entry for a place unless its newest one has the same magnitude, and gives the stamp.
    fn store(&mut self, journal: &mut [u64], clock: u64, place: u64, magnitude: u64) -> Result<u64, u64> {
        match newest(self.entries(journal), place) {
            Some(entry) if entry[2] == magnitude => return Ok(entry[0]),
            _ => {}
        }
        let end = ENTRY * self.state.entries;
        let slot = journal[end..].get_mut(..ENTRY).ok_or(JOURNAL_FULL)?;
        let stamp = clock.max(self.state.last + 1);
        slot.copy_from_slice(&[stamp, place, magnitude]);
        self.state.last = stamp;
        self.state.entries += 1;
        Ok(stamp)
    }

    /// Makes a day and stamp the kept ones and gives how many entries that dropped, or the number of the refusal.
    pub fn clear(&mut self, journal: &mut [u64], day: u64, stamp: u64) -> Result<u64, u64> {
        if self.damaged(journal) {
            return Err(DAMAGED);
        }
        if day >= DAYS {
            return Err(NO_SUCH_DAY);
        }
        if day < self.state.kept_day {
            return Err(DAY_CLEARED);
        }
        if stamp < self.state.kept_stamp || stamp > self.state.last {
            return Err(STAMP_OUTSIDE);
        }
        let entries = &mut journal[..ENTRY * self.state.entries];
        let kept = compact(entries, day, stamp);
        let dropped = self.state.entries - kept;
        self.state = State {
            last: self.state.last,
            kept_stamp: stamp,
            kept_day: day,
            entries: kept,
        };
        Ok(dropped as u64)
    }

    /// Evaluates a quarter as of a stamp into the result list and gives the rounds, or the number of the refusal.
    pub fn evaluate(
        &self,
        journal: &[u64],
        day: u64,
        quarter: u64,
        until: u64,
        result: &mut [u64],
    ) -> Result<u64, u64> {
        if self.damaged(journal) {
            return Err(DAMAGED);
        }
        if !quarter_exists(day, quarter) {
            return Err(NO_SUCH_DAY);
        }
        let kept_day = self.state.kept_day;
        if day < kept_day || (kept_day > 0 && day < kept_day + LOOK_BACK) {
            return Err(DAY_CLEARED);
        }
        if until < self.state.kept_stamp || until > self.state.last {
            return Err(STAMP_OUTSIDE);
        }
        let needed = evaluation::result_size(&self.registration);
        let target = result.get_mut(..needed).ok_or(TOO_SHORT)?;
        let evaluation = self.evaluation(self.entries(journal), day, quarter, until);
        target.copy_from_slice(&evaluation.numbers());
        Ok(evaluation.outcome.rounds)
    }

    /// Gives the evaluation of a quarter as of a stamp from the entries of an undamaged journal.
    fn evaluation(&self, entries: &[u64], day: u64, quarter: u64, until: u64) -> Evaluation {
        let shown = &entries[..ENTRY * entries_until(entries, until)];
        let own = own_readings(shown, day, quarter);
        evaluation::evaluate(
            &self.registration,
            |point| own[point],
            |point| earlier_readings(shown, point, day, quarter),
        )
    }
}

/// Gives the newest reading of each point for a quarter from entries whose stamps rise.
fn own_readings(entries: &[u64], day: u64, quarter: u64) -> [Option<u64>; POINTS] {
    let place_of_first = place_of(0, day, quarter);
    let mut readings = [None; POINTS];
    for entry in entries.chunks_exact(ENTRY) {
        let (place, magnitude) = (entry[1], entry[2]);
        if place % POINT_PLACES == place_of_first {
            readings[(place / POINT_PLACES) as usize] = Some(magnitude);
        }
    }
    readings
}

/// Gives the places that match a point's quarter in the earlier weeks, the latest week first.
fn earlier_places(point: usize, day: u64, quarter: u64) -> [Option<u64>; WEEKS as usize] {
    std::array::from_fn(|week| {
        let (day, quarter) = weeks_earlier(week as u64 + 1, day, quarter)?;
        Some(place_of(point, day, quarter))
    })
}

/// Gives which of the earlier weeks, counted from 0, is matched at a place, if one is.
fn week_of_place(place: u64, point: usize, day: u64, places: &[Option<u64>]) -> Option<usize> {
    let first_place = place_of(point, day.saturating_sub(LOOK_BACK), 1);
    if place.wrapping_sub(first_place) >= LOOK_BACK * QUARTERS {
        return None;
    }
    places.iter().position(|&earlier| earlier == Some(place))
}

/// Adds up the newest readings of a point in the earlier weeks, going back once from the last of the entries.
fn earlier_readings(entries: &[u64], point: usize, day: u64, quarter: u64) -> Total {
    let places = earlier_places(point, day, quarter);
    let mut total = Total::default();
    let mut met = 0u32;
    for entry in entries.rchunks_exact(ENTRY) {
        let (place, magnitude) = (entry[1], entry[2]);
        let found = week_of_place(place, point, day, &places);
        if let Some(week) = found.filter(|week| met & (1 << week) == 0) {
            met |= 1 << week;
            total.add(magnitude);
            if total.count == u128::from(WEEKS) {
                break;
            }
        }
    }
    total
}

/// Moves the entries that a clear keeps to the front, empties the rest and gives how many are kept.
fn compact(entries: &mut [u64], day: u64, stamp: u64) -> usize {
    let until = entries_until(entries, stamp);
    let mut shown = HashMap::new();
    for (number, entry) in entries.chunks_exact(ENTRY).take(until).enumerate() {
        shown.insert(entry[1], number);
    }
    let mut kept = 0;
    for number in 0..entries.len() / ENTRY {
        let place = entries[ENTRY * number + 1];
        if day_of_place(place) >= day && (number >= until || shown.get(&place) == Some(&number)) {
            entries.copy_within(ENTRY * number..ENTRY * (number + 1), ENTRY * kept);
            kept += 1;
        }
    }
    entries[ENTRY * kept..].fill(0);
    kept
}

#[cfg(test)]
mod tests {
    use super::*;
    use crate::allocation::allocate;
    use crate::book::Book;
    use crate::samples::{code, group, large_group, starts_by_hour, Dice, CONSUMER, FOREIGN, PRODUCER};

    /// Gives a fresh service of the sample group and an empty journal for a number of entries.
    fn fresh(entries: usize) -> (Service, Vec<u64>) {
        (Service::fresh(&group()).unwrap(), vec![0; ENTRY * entries])
    }

    /// Gives the producer's remaining supply as of a stamp, while consumers have no readings.
    fn supply(service: &Service, journal: &[u64], day: u64, quarter: u64, until: u64) -> Result<u64, u64> {
        let mut result = [0; 8];
        service
            .evaluate(journal, day, quarter, until, &mut result)
            .map(|_| result[4])
    }

    #[test]
    fn stamps_do_not_go_back_with_the_clock() {
        let (mut service, mut journal) = fresh(9);
        assert_eq!(service.submit(&mut journal, 500, PRODUCER, 1, 1, 10), Ok(500));
        assert_eq!(service.submit(&mut journal, 20, PRODUCER, 1, 1, 11), Ok(501));
        assert_eq!(service.submit(&mut journal, 20, PRODUCER, 1, 1, 11), Ok(501));
        assert_eq!(service.submit(&mut journal, 900, PRODUCER, 1, 1, 10), Ok(900));
        assert_eq!(
            service.state,
            State {
                last: 900,
                kept_stamp: 0,
                kept_day: 0,
                entries: 3
            }
        );
        assert_eq!(journal[..12], [500, 100, 10, 501, 100, 11, 900, 100, 10, 0, 0, 0]);
        assert_eq!(supply(&service, &journal, 1, 1, 499), Ok(0));
        assert_eq!(supply(&service, &journal, 1, 1, 500), Ok(10));
        assert_eq!(supply(&service, &journal, 1, 1, 899), Ok(11));
        assert_eq!(supply(&service, &journal, 1, 1, 900), Ok(10));
        assert_eq!(supply(&service, &journal, 1, 1, 901), Err(STAMP_OUTSIDE));
    }

    #[test]
    fn a_clear_keeps_the_reading_shown_at_the_kept_stamp() {
        let (mut service, mut journal) = fresh(6);
        for (clock, day, value) in [(1, 0, 5), (2, 30, 6), (3, 30, 7), (4, 31, 8), (5, 30, 9)] {
            assert_eq!(service.submit(&mut journal, clock, PRODUCER, day, 1, value), Ok(clock));
        }
        journal[15..].fill(77);
        assert_eq!(service.clear(&mut journal, 1, 4), Ok(2));
        assert_eq!(
            service.state,
            State {
                last: 5,
                kept_stamp: 4,
                kept_day: 1,
                entries: 3
            }
        );
        assert_eq!(
            journal,
            [3, 3000, 7, 4, 3100, 8, 5, 3000, 9, 0, 0, 0, 0, 0, 0, 77, 77, 77]
        );
        assert_eq!(supply(&service, &journal, 30, 1, 4), Ok(7));
        assert_eq!(supply(&service, &journal, 30, 1, 5), Ok(9));
        assert_eq!(supply(&service, &journal, 30, 1, 3), Err(STAMP_OUTSIDE));
        assert_eq!(service.clear(&mut journal, 1, 3), Err(STAMP_OUTSIDE));
        assert_eq!(service.clear(&mut journal, 0, 3), Err(DAY_CLEARED));
        assert_eq!(service.clear(&mut journal, 27758, 5), Ok(3));
        assert_eq!(service.state.last, 5);
        assert_eq!(service.submit(&mut journal, 0, PRODUCER, 27758, 96, 1), Ok(6));
    }

    #[test]
    fn a_kept_day_bars_four_weeks() {
        let (mut service, mut journal) = fresh(9);
        assert_eq!(supply(&service, &journal, 0, 1, 0), Ok(0));
        assert_eq!(service.clear(&mut journal, 100, 0), Ok(0));
        assert_eq!(supply(&service, &journal, 99, 1, 0), Err(DAY_CLEARED));
        assert_eq!(supply(&service, &journal, 127, 1, 0), Err(DAY_CLEARED));
        assert_eq!(supply(&service, &journal, 128, 1, 0), Ok(0));
        assert_eq!(service.submit(&mut journal, 1, PRODUCER, 99, 1, 0), Err(DAY_CLEARED));
        assert_eq!(service.submit(&mut journal, 1, PRODUCER, 100, 1, 0), Ok(1));
    }

    #[test]
    fn substitutes_are_means_of_four_weeks() {
        let (mut service, mut journal) = fresh(20);
        for (day, value) in [(0, 1), (7, 2), (14, 10), (21, 11), (1, 900), (35, 500)] {
            service.submit(&mut journal, 0, PRODUCER, day, 96, value).unwrap();
        }
        assert_eq!(supply(&service, &journal, 28, 96, 2), Ok(2));
        assert_eq!(supply(&service, &journal, 28, 96, 1), Ok(1));
        assert_eq!(supply(&service, &journal, 28, 96, 4), Ok(6));
        assert_eq!(supply(&service, &journal, 28, 95, 4), Ok(0));
        assert_eq!(supply(&service, &journal, 35, 96, 5), Ok(8));
        assert_eq!(supply(&service, &journal, 35, 96, 6), Ok(500));
        service.registration.statuses[0] = 3;
        assert_eq!(supply(&service, &journal, 28, 96, 4), Ok(0));
        assert_eq!(supply(&service, &journal, 35, 96, 6), Ok(500));
    }

    /// A reading of the sample group: code, day, quarter and value.
    type Reading = (u64, u64, u64, i64);

    /// The magnitude of a point's value and its origin.
    type Value = (u64, u64);

    /// The value of a point with status 0 for which no reading is shown.
    const NONE: Value = (0, 6);

    /// Gives the values of the three points from the result that shares them out.
    fn values(result: &[u64]) -> [Value; 3] {
        let [first_share, second_share, first_left, second_left, supply_left, origins @ ..]: [u64; 8] =
            result.try_into().unwrap();
        [
            (first_share + second_share + supply_left, origins[0]),
            (first_share + first_left, origins[1]),
            (second_share + second_left, origins[2]),
        ]
    }

    /// Checks the values that service and book use for a group's day and quarter as of a stamp; the readings have
    /// stamps from 1 on.
    fn check_group(registration: &Registration, readings: &[Reading], asked: (u64, u64, u64), expected: [Value; 3]) {
        let (mut service, mut journal) = (Service::fresh(registration).unwrap(), vec![0; ENTRY * readings.len()]);
        let mut book = Book::new(registration);
        for (&(code, day, quarter, value), stamp) in readings.iter().zip(1..) {
            assert_eq!(service.submit(&mut journal, 0, code, day, quarter, value), Ok(stamp));
            assert_eq!(book.submit(0, code, day, quarter, value), stamp);
        }
        let (day, quarter, until) = asked;
        let mut result = [9; 8];
        service.evaluate(&journal, day, quarter, until, &mut result).unwrap();
        assert_eq!(values(&result), expected);
        assert_eq!(values(&book.result(day, quarter, until).numbers()), expected);
    }

    /// Checks the values that service and book use for the sample group.
    fn check_values(readings: &[Reading], asked: (u64, u64, u64), expected: [Value; 3]) {
        check_group(&group(), readings, asked, expected);
    }

    /// Gives the sample group with a status for all its points.
    fn group_of_status(status: u8) -> Registration {
        let mut registration = group();
        registration.statuses[..3].fill(status);
        registration
    }

    #[test]
    fn a_reading_of_0_is_measured_with_each_status() {
        let earlier = (0..4).map(|week| (PRODUCER, 7 * week, 1, 100));
        let readings: Vec<Reading> = earlier.chain([(PRODUCER, 28, 1, 0), (CONSUMER, 28, 1, 0)]).collect();
        for status in 0..=3 {
            let registration = group_of_status(status);
            let missing = if status > 0 { (0, 5) } else { NONE };
            check_group(&registration, &readings, (28, 1, 6), [(0, 0), (0, 0), missing]);
            check_group(&registration, &readings, (28, 1, 5), [(0, 0), missing, missing]);
        }
    }

    #[test]
    fn a_status_above_0_gives_zero_by_status() {
        let mut readings: Vec<Reading> = (0..4).map(|week| (PRODUCER, 7 * week, 1, 100)).collect();
        readings.extend([(PRODUCER, 28, 1, 70), (PRODUCER, 28, 1, 0)]);
        let zero = (0, 5);
        for status in 1..=3 {
            for (until, value) in [(0, zero), (1, zero), (2, zero), (4, zero), (5, (70, 0)), (6, (0, 0))] {
                check_group(&group_of_status(status), &readings, (28, 1, until), [value, zero, zero]);
            }
            check_group(&group_of_status(status), &readings, (28, 2, 6), [zero; 3]);
            check_group(&group_of_status(status), &readings, (0, 1, 0), [zero; 3]);
        }
        for (until, value) in [
            (0, NONE),
            (1, (100, 1)),
            (2, (100, 2)),
            (4, (100, 4)),
            (5, (70, 0)),
            (6, (0, 0)),
        ] {
            check_values(&readings, (28, 1, until), [value, NONE, NONE]);
        }
    }

    #[test]
    fn each_point_has_its_own_status_and_origin() {
        let second_consumer = group().codes[2];
        let readings = [(CONSUMER, 21, 1, 0), (second_consumer, 28, 1, 0), (CONSUMER, 14, 1, -1)];
        let mut registration = group();
        registration.statuses[0] = 2;
        check_group(&registration, &readings, (28, 1, 3), [(0, 5), (1, 2), (0, 0)]);
        registration.statuses[..3].copy_from_slice(&[0, 1, 3]);
        check_group(&registration, &readings, (28, 1, 3), [NONE, (0, 5), (0, 0)]);
        check_group(&registration, &readings, (28, 1, 1), [NONE, (0, 5), (0, 5)]);
    }

    #[test]
    fn a_mean_of_zeros_has_its_weeks_as_origin() {
        let weeks = [0, 7, 14, 21].map(|day| (CONSUMER, day, 96, 0));
        for count in 1..=4 {
            check_values(&weeks, (28, 96, count), [NONE, (0, count), NONE]);
            check_values(&weeks[4 - count as usize..], (28, 96, count), [NONE, (0, count), NONE]);
        }
        check_values(&weeks, (28, 96, 0), [NONE; 3]);
        check_values(&weeks, (29, 96, 4), [NONE; 3]);
        check_values(&weeks, (28, 95, 4), [NONE; 3]);
    }

    #[test]
    fn readings_later_than_the_stamp_have_no_part_in_origins() {
        let readings = [
            (PRODUCER, 93, 7, 10),
            (PRODUCER, 93, 7, 0),
            (PRODUCER, 86, 7, 0),
            (PRODUCER, 107, 7, 0),
            (PRODUCER, 79, 7, 4),
            (PRODUCER, 107, 7, 8),
        ];
        for (until, value) in [
            (0, NONE),
            (1, (10, 1)),
            (2, (0, 1)),
            (3, (0, 2)),
            (4, (0, 0)),
            (5, (0, 0)),
            (6, (8, 0)),
        ] {
            check_values(&readings, (107, 7, until), [value, NONE, NONE]);
        }
    }

    #[test]
    fn weeks_before_the_first_day_give_no_value() {
        let readings: Vec<Reading> = (0..28).map(|day| (CONSUMER, day, 1, -40)).collect();
        for (day, weeks) in [(28, 4), (34, 4), (41, 3), (48, 2), (55, 1)] {
            check_values(&readings, (day, 1, 28), [NONE, (40, weeks), NONE]);
        }
        for day in 0..28 {
            let value = if day < 7 { NONE } else { (40, day / 7) };
            check_values(&readings, (day, 1, day), [NONE, value, NONE]);
            check_values(&readings, (day, 1, day + 1), [NONE, (40, 0), NONE]);
        }
        let late = [27731, 27738, 27745, 27752].map(|day| (PRODUCER, day, 1, 40));
        check_values(&late, (0, 1, 4), [NONE; 3]);
    }

    #[test]
    fn the_oldest_entry_counts_in_a_mean() {
        let readings = [
            (PRODUCER, 0, 1, 8),
            (CONSUMER, 3, 9, -5),
            (PRODUCER, 21, 1, 40),
            (PRODUCER, 3, 9, 7),
        ];
        for (until, mean, weeks) in [(1, 8, 1), (2, 8, 1), (3, 24, 2), (4, 24, 2)] {
            check_values(&readings, (28, 1, until), [(mean, weeks), NONE, NONE]);
        }
        for day in [7, 14, 21, 28] {
            check_values(&readings[..2], (day, 1, 2), [(8, 1), NONE, NONE]);
        }
        check_values(&readings, (10, 9, 4), [(7, 1), (5, 1), NONE]);
        check_values(&readings[1..], (31, 9, 1), [NONE, (5, 1), NONE]);
    }

    #[test]
    fn earlier_weeks_are_shown_as_of_the_stamp() {
        let readings = [
            (PRODUCER, 7, 1, 10),
            (PRODUCER, 7, 1, 30),
            (PRODUCER, 14, 1, 50),
            (PRODUCER, 7, 1, 90),
            (PRODUCER, 14, 1, 0),
        ];
        for (until, value) in [
            (0, NONE),
            (1, (10, 1)),
            (2, (30, 1)),
            (3, (40, 2)),
            (4, (70, 2)),
            (5, (45, 2)),
        ] {
            check_values(&readings, (28, 1, until), [value, NONE, NONE]);
        }
    }

    #[test]
    fn a_mean_is_over_the_weeks_that_have_a_reading() {
        let weeks = [(79, 1), (86, 10), (93, 100), (100, 1002)];
        for chosen in 0..16 {
            let has_reading = |place: usize| chosen >> place & 1 == 1;
            let mut readings: Vec<Reading> = (0..4)
                .filter(|&place| has_reading(place))
                .map(|place| (PRODUCER, weeks[place].0, 7, weeks[place].1))
                .collect();
            let (sum, count): (i64, u64) = (readings.iter().map(|reading| reading.3).sum(), readings.len() as u64);
            let value = match count {
                0 => NONE,
                _ => ((2 * sum as u64 + count) / (2 * count), count),
            };
            for _ in 0..2 {
                check_values(&readings, (107, 7, count), [value, NONE, NONE]);
                readings.reverse();
            }
        }
    }

    #[test]
    fn a_mean_goes_back_to_the_fourth_week_met() {
        let mut readings = vec![(PRODUCER, 100, 7, 1000)];
        readings.extend((0..20).map(|value| (PRODUCER, 93, 7, value)));
        readings.extend([(PRODUCER, 86, 7, 3), (PRODUCER, 79, 7, 2)]);
        check_values(&readings, (107, 7, 23), [(256, 4), NONE, NONE]);
        readings.insert(0, (PRODUCER, 100, 7, 500));
        check_values(&readings, (107, 7, 24), [(256, 4), NONE, NONE]);
        readings.rotate_left(2);
        check_values(&readings, (107, 7, 24), [(256, 4), NONE, NONE]);
    }

    #[test]
    fn a_mean_passes_over_other_points_quarters_and_days() {
        let second_consumer = group().codes[2];
        let readings = [
            (PRODUCER, 93, 7, 40),
            (CONSUMER, 93, 7, -500),
            (PRODUCER, 93, 6, 501),
            (PRODUCER, 93, 8, 502),
            (PRODUCER, 92, 7, 503),
            (PRODUCER, 94, 7, 504),
            (PRODUCER, 72, 7, 505),
            (PRODUCER, 106, 7, 506),
            (PRODUCER, 114, 7, 507),
            (PRODUCER, 107, 6, 508),
            (second_consumer, 86, 7, -60),
            (second_consumer, 100, 7, -61),
        ];
        check_values(&readings, (107, 7, 12), [(40, 1), (500, 1), (61, 2)]);
        check_values(&readings, (107, 7, 11), [(40, 1), (500, 1), (60, 1)]);
        check_values(&readings, (107, 7, 1), [(40, 1), NONE, NONE]);
        check_values(&readings[1..], (107, 7, 11), [NONE, (500, 1), (61, 2)]);
    }

    /// Gives the magnitude of the entry for a place with the greatest stamp up to the given one.
    fn looked_up(entries: &[u64], place: u64, until: u64) -> Option<u64> {
        let shown = entries.chunks_exact(ENTRY).filter(|entry| entry[0] <= until);
        let of_place = shown.filter(|entry| entry[1] == place);
        of_place.max_by_key(|entry| entry[0]).map(|entry| entry[2])
    }

    /// Gives the place a number of days before that starts at the same time by the wall clock, by a plain search.
    fn place_before(own_place: u64, before: u64) -> Option<u64> {
        let (day, number) = (own_place / 100 % 27759, own_place % 100);
        let minutes = starts_by_hour(day)[number as usize].minutes;
        let starts = starts_by_hour(day.checked_sub(before)?);
        let found = (0..).zip(starts).find(|(_, start)| start.minutes == minutes);
        found.map(|(earlier, _)| own_place - number - 100 * before + earlier)
    }

    /// Gives the value that counts for a point, by looking it up and, failing that, each week in turn.
    fn expected_value(entries: &[u64], status: u8, own_place: u64, until: u64) -> Value {
        if let Some(own) = looked_up(entries, own_place, until) {
            return (own, 0);
        }
        let found: Vec<u64> = [7, 14, 21, 28]
            .iter()
            .filter_map(|&before| looked_up(entries, place_before(own_place, before)?, until))
            .collect();
        match (status, found.len() as u64) {
            (0, 0) => (0, 6),
            (0, count) => {
                let sum: u64 = found.iter().sum();
                (sum / count + u64::from(sum % count * 2 >= count), count)
            }
            _ => (0, 5),
        }
    }

    /// Checks evaluations of days a whole number of weeks after the first one by a look-up for each point and week.
    fn check_by_look_up(first_day: u64, quarters: [u64; 3]) {
        let mut dice = Dice(2463534242);
        let mut seen = [0; 7];
        for (producers, consumers) in [(1, 1), (1, 2), (3, 9), (5, 59), (63, 1)] {
            let registration = large_group(producers, consumers, 1);
            let points = registration.points() as u64;
            let (mut service, mut journal) = (Service::fresh(&registration).unwrap(), vec![0; ENTRY * 2000]);
            for _ in 0..2000 {
                let (point, day) = (dice.below(points), dice.below(6) * 7 + dice.below(20) / 19);
                let (day, quarter) = (first_day + day, quarters[dice.below(3) as usize]);
                let magnitude = dice.below(2) as i64 * dice.below(1000) as i64;
                let value = magnitude * if point < producers as u64 { 1 } else { -1 };
                let _ = service.submit(&mut journal, 0, code(point), day, quarter, value);
            }
            let entries = service.entries(&journal);
            for _ in 0..300 {
                let (day, quarter) = (first_day + dice.below(10) * 7, quarters[dice.below(3) as usize]);
                let until = dice.below(service.state.last + 1);
                let (magnitudes, origins): (Vec<u64>, Vec<u64>) = (0..points)
                    .map(|point| (point * 27759 + day) * 100 + quarter - 1)
                    .zip(registration.statuses)
                    .map(|(place, status)| expected_value(entries, status, place, until))
                    .unzip();
                origins.iter().for_each(|&origin| seen[origin as usize] += 1);
                let outcome = allocate(&registration, &magnitudes);
                let expected = Evaluation { outcome, origins }.numbers();
                let mut result = vec![0; expected.len()];
                service.evaluate(&journal, day, quarter, until, &mut result).unwrap();
                assert_eq!(result, expected);
            }
        }
        assert!(seen.iter().all(|&times| times > 100), "{seen:?}");
    }

    #[test]
    fn evaluations_equal_a_look_up_for_each_point_and_week() {
        check_by_look_up(0, [1, 2, 3]);
        for first_day in [69, 279] {
            check_by_look_up(first_day, [9, 13, 17]);
        }
    }

    /// Gives readings of the first consumer at a quarter on each of the days, all with one magnitude.
    fn withdrawals(days: &[u64], quarter: u64, magnitude: i64) -> Vec<Reading> {
        let reading = |&day| (CONSUMER, day, quarter, -magnitude);
        days.iter().map(reading).collect()
    }

    #[test]
    fn a_bakery_at_five_has_its_mean_from_five() {
        for (weeks, (changeover, at_five)) in (1..=4).flat_map(|weeks| [(weeks, (90, 17)), (weeks, (300, 25))]) {
            let before: Vec<u64> = (1..=weeks).map(|week| changeover - 7 * week).collect();
            let readings = [
                withdrawals(&before, 21, 500),
                withdrawals(&before, 17, 400),
                withdrawals(&before, 25, 600),
            ]
            .concat();
            let asked = (changeover, at_five, 3 * weeks);
            check_values(&readings, asked, [NONE, (500, weeks), NONE]);
            let readings = [
                withdrawals(&[changeover], at_five, 500),
                withdrawals(&[changeover], 21, 700),
            ]
            .concat();
            check_values(&readings, (changeover + 7 * weeks, 21, 2), [NONE, (500, 1), NONE]);
        }
    }

    #[test]
    fn a_mean_over_a_changeover_takes_each_week_by_the_wall_clock() {
        let readings = [
            (PRODUCER, 76, 21, 1),
            (PRODUCER, 83, 21, 10),
            (PRODUCER, 90, 17, 100),
            (PRODUCER, 90, 21, 5000),
            (PRODUCER, 97, 21, 1003),
            (PRODUCER, 97, 17, 7000),
        ];
        for (until, value) in [(1, (1, 1)), (2, (6, 2)), (4, (37, 3)), (6, (279, 4))] {
            check_values(&readings, (104, 21, until), [value, NONE, NONE]);
        }
    }

    #[test]
    fn both_quarters_of_a_doubled_hour_have_the_single_ones_mean() {
        let days = [272, 279, 286, 293];
        let mut readings: Vec<Reading> = (9..=20)
            .flat_map(|quarter| withdrawals(&days, quarter, 10 * quarter as i64))
            .collect();
        for (first, second) in (9..=12).zip(13..) {
            check_values(&readings, (300, first, 48), [NONE, (10 * first, 4), NONE]);
            check_values(&readings, (300, second, 48), [NONE, (10 * first, 4), NONE]);
        }
        for (quarter, value) in [(8, NONE), (17, (130, 4)), (20, (160, 4)), (24, (200, 4)), (25, NONE)] {
            check_values(&readings, (300, quarter, 48), [NONE, value, NONE]);
        }
        readings.extend(withdrawals(&[300], 9, 7));
        check_values(&readings, (300, 9, 49), [NONE, (7, 0), NONE]);
        check_values(&readings, (300, 13, 49), [NONE, (90, 4), NONE]);
    }

    #[test]
    fn an_earlier_doubled_hour_gives_its_first() {
        let readings: Vec<Reading> = (9..=20)
            .flat_map(|quarter| withdrawals(&[300], quarter, 10 * quarter as i64))
            .collect();
        for (day, place) in [307, 314, 321, 328]
            .iter()
            .flat_map(|&day| (0..4).map(move |place| (day, place)))
        {
            check_values(&readings, (day, 9 + place, 12), [NONE, (90 + 10 * place, 1), NONE]);
            check_values(&readings, (day, 13 + place, 12), [NONE, (170 + 10 * place, 1), NONE]);
            check_values(&readings, (day, 17 + place, 12), [NONE; 3]);
            check_values(&readings[4..8], (day, 9 + place, 4), [NONE; 3]);
            check_values(&readings[4..8], (day, 13 + place, 4), [NONE; 3]);
        }
    }

    #[test]
    fn an_earlier_missing_hour_counts_for_none() {
        let on_changeover = withdrawals(&[90], 9, 800);
        for (day, weeks) in (90..).step_by(7).zip(0..=4).skip(1) {
            for quarter in 9..=12 {
                check_values(&on_changeover, (day, quarter, 1), [NONE; 3]);
            }
            check_values(&on_changeover, (day, 13, 1), [NONE, (800, 1), NONE]);
            let others: Vec<u64> = (1..=4)
                .filter(|&week| week != weeks)
                .map(|week| day - 7 * week)
                .collect();
            let readings = [on_changeover.clone(), withdrawals(&others, 9, 20)].concat();
            check_values(&readings, (day, 9, 4), [NONE, (20, 3), NONE]);
            let readings = [on_changeover.clone(), withdrawals(&others, 13, 20)].concat();
            check_values(&readings, (day, 13, 4), [NONE, (215, 4), NONE]);
        }
        check_values(&on_changeover, (125, 13, 1), [NONE; 3]);
    }

    #[test]
    fn past_stamps_follow_the_wall_clock_and_stay_as_they_are() {
        for (changeover, at_three) in [(90, 9), (300, 17)] {
            let (mut service, mut journal) = fresh(20);
            for value in [40, 50, 60] {
                service
                    .submit(&mut journal, 0, PRODUCER, changeover, at_three, value)
                    .unwrap();
            }
            for (stamp, value) in [(0, 0), (1, 40), (2, 50), (3, 60)] {
                assert_eq!(supply(&service, &journal, changeover + 28, 13, stamp), Ok(value));
            }
            service.submit(&mut journal, 0, PRODUCER, changeover, 13, 900).unwrap();
            service
                .submit(&mut journal, 0, PRODUCER, changeover + 7, 13, 70)
                .unwrap();
            assert_eq!(service.clear(&mut journal, changeover, 2), Ok(1));
            for (stamp, value) in [(2, 50), (3, 60), (4, 60), (5, 65)] {
                assert_eq!(supply(&service, &journal, changeover + 28, 13, stamp), Ok(value));
            }
        }
    }

    #[test]
    fn an_earlier_day_without_the_quarter_gives_no_value() {
        let (mut service, mut journal) = fresh(20);
        service.submit(&mut journal, 0, PRODUCER, 83, 96, 40).unwrap();
        assert_eq!(service.submit(&mut journal, 0, PRODUCER, 90, 93, 40), Err(NO_SUCH_DAY));
        assert_eq!(supply(&service, &journal, 97, 96, 1), Ok(40));
        service.submit(&mut journal, 0, PRODUCER, 300, 100, 70).unwrap();
        assert_eq!(
            service.submit(&mut journal, 0, PRODUCER, 300, 101, 40),
            Err(NO_SUCH_DAY)
        );
        assert_eq!(supply(&service, &journal, 300, 100, 2), Ok(70));
        assert_eq!(supply(&service, &journal, 307, 97, 2), Err(NO_SUCH_DAY));
        service.submit(&mut journal, 0, PRODUCER, 83, 9, 30).unwrap();
        service.submit(&mut journal, 0, PRODUCER, 90, 9, 90).unwrap();
        assert_eq!(supply(&service, &journal, 97, 9, 4), Ok(30));
    }

    #[test]
    fn submissions_are_refused_in_order() {
        let (mut service, mut journal) = fresh(1);
        service.submit(&mut journal, 7, CONSUMER, 5, 5, -9).unwrap();
        let cases = [
            (1 << 40, FOREIGN, 9, 0, i64::MIN, CODE_NOT_IN_GROUP),
            (1 << 40, 0, 9, 1, 0, CODE_NOT_IN_GROUP),
            (1 << 40, PRODUCER, DAYS, 1, -1, NO_SUCH_DAY),
            (1 << 40, PRODUCER, u64::MAX, u64::MAX, -1, NO_SUCH_DAY),
            (1 << 40, PRODUCER, 1, 0, -1, NO_SUCH_DAY),
            (1 << 40, PRODUCER, 1, 97, -1, NO_SUCH_DAY),
            (1 << 40, PRODUCER, 1, 1, -1, VALUE_WRONG),
            (1 << 40, PRODUCER, 1, 1, 100_000_000, VALUE_WRONG),
            (1 << 40, CONSUMER, 1, 1, 1, VALUE_WRONG),
            (1 << 40, CONSUMER, 1, 1, i64::MIN, VALUE_WRONG),
            (1_000_000_000_000, CONSUMER, 5, 5, -9, CLOCK_OUTSIDE),
            (GREATEST_STAMP, CONSUMER, 5, 5, -8, JOURNAL_FULL),
        ];
        for (clock, code, day, quarter, value, refusal) in cases {
            let before = (service, journal.clone());
            assert_eq!(
                service.submit(&mut journal, clock, code, day, quarter, value),
                Err(refusal)
            );
            assert_eq!((service, journal.clone()), before);
        }
        assert_eq!(service.submit(&mut journal, 0, CONSUMER, 5, 5, -9), Ok(7));
    }

    #[test]
    fn the_greatest_stamp_ends_submissions() {
        let (mut service, mut journal) = fresh(3);
        assert_eq!(
            service.submit(&mut journal, GREATEST_STAMP, CONSUMER, 5, 5, 0),
            Ok(GREATEST_STAMP)
        );
        assert_eq!(service.submit(&mut journal, 1, CONSUMER, 5, 5, 0), Err(CLOCK_OUTSIDE));
        assert_eq!(service.submit(&mut journal, 1, CONSUMER, 5, 5, 1), Err(VALUE_WRONG));
        assert_eq!(supply(&service, &journal, 5, 5, GREATEST_STAMP), Ok(0));
    }

    #[test]
    fn short_lists_are_refused_last() {
        let (mut service, _) = fresh(0);
        assert_eq!(service.submit(&mut [0; 2], 1, PRODUCER, 1, 1, 1), Err(JOURNAL_FULL));
        let mut result = [9; 9];
        for length in 0..8 {
            assert_eq!(service.evaluate(&[], 1, 1, 0, &mut result[..length]), Err(TOO_SHORT));
            assert_eq!(
                service.evaluate(&[], 1, 1, 1, &mut result[..length]),
                Err(STAMP_OUTSIDE)
            );
        }
        assert_eq!(result, [9; 9]);
        for length in [8, 9] {
            assert_eq!(service.evaluate(&[], 1, 1, 0, &mut result[..length]), Ok(2));
            assert_eq!(result, [0, 0, 0, 0, 0, 6, 6, 6, 9]);
        }
    }

    #[test]
    fn every_broken_rule_is_damage() {
        let (mut service, mut journal) = fresh(3);
        service.submit(&mut journal, 50, PRODUCER, 90, 92, 1).unwrap();
        service.submit(&mut journal, 60, CONSUMER, 90, 92, -99999999).unwrap();
        assert!(!service.damaged(&journal));
        let states: [fn(&mut State); 6] = [
            |state| state.kept_stamp = 61,
            |state| state.last = 1_000_000_000_000,
            |state| state.last = 59,
            |state| state.kept_day = 91,
            |state| state.entries = 3,
            |state| state.entries = usize::MAX,
        ];
        for (number, change) in states.iter().enumerate() {
            let mut changed = service;
            change(&mut changed.state);
            assert!(changed.damaged(&journal), "state {number}");
        }
        let damage = [
            (0, 0),
            (0, 60),
            (3, 50),
            (1, 9092),
            (1, 3 * DAYS * 100),
            (1, u64::MAX),
            (5, 100_000_000),
        ];
        for (place, number) in damage {
            let mut changed = journal.clone();
            changed[place] = number;
            assert!(service.damaged(&changed), "number {place}");
            assert_eq!(service.submit(&mut changed, u64::MAX, 0, 0, 0, 0), Err(DAMAGED));
            assert_eq!(service.clear(&mut changed, u64::MAX, 0), Err(DAMAGED));
            assert_eq!(service.evaluate(&changed, u64::MAX, 0, 0, &mut []), Err(DAMAGED));
        }
        assert!(service.damaged(&journal[..5]));
        assert_eq!(Service::fresh(&Registration::zeros()), Err(DAMAGED));
    }

    /// Gives a number that is often small, sometimes huge.
    fn any_number(dice: &mut Dice, usual: u64) -> u64 {
        match dice.below(40) {
            0 => u64::MAX,
            1 => dice.below(u64::MAX),
            _ => dice.below(usual),
        }
    }

    #[test]
    fn service_and_book_agree() {
        let around = [(49, [1, 2]), (83, [9, 13]), (293, [9, 13])];
        for (seed, (first_day, quarters)) in (1..40u64).flat_map(|seed| around.map(|days| (seed, days))) {
            let mut dice = Dice(seed.wrapping_mul(0x9E3779B97F4A7C15));
            let (producers, consumers) = (1 + dice.below(6), 1 + dice.below(6));
            let registration = large_group(producers as usize, consumers as usize, dice.below(2) as u8);
            let mut service = Service::fresh(&registration).unwrap();
            let mut book = Book::new(&registration);
            let mut journal = vec![dice.below(9); 40 + dice.below(400) as usize];
            for _ in 0..3000 {
                let day = any_number(&mut dice, 6).saturating_mul(7).saturating_add(first_day);
                let number = any_number(&mut dice, 2);
                let quarter = *quarters.get(number as usize).unwrap_or(&number);
                play(&mut dice, &mut service, &mut journal, &mut book, (day, quarter));
                assert!(!service.damaged(&journal));
            }
        }
    }

    /// Plays one call on service and book and compares them.
    fn play(dice: &mut Dice, service: &mut Service, journal: &mut [u64], book: &mut Book, asked: (u64, u64)) {
        let (day, quarter) = asked;
        let stamp = service.state.last.saturating_sub(dice.below(30)) + dice.below(2);
        let before = (*service, journal.to_vec());
        let refused = match dice.below(100) {
            0 => service.clear(journal, dice.below(5) * 7, stamp).is_err(),
            1..=40 => {
                let mut result = [4; 100];
                let answer = service.evaluate(journal, day, quarter, stamp, &mut result);
                if let Ok(rounds) = answer {
                    let expected = book.result(day, quarter, stamp);
                    assert_eq!(rounds, expected.outcome.rounds);
                    assert_eq!(result[..expected.numbers().len()], expected.numbers());
                }
                true
            }
            _ => {
                let point = dice.below(service.registration.points() as u64 + 1);
                let producer = (point as usize) < service.registration.producers;
                let value = dice.below(4) as i64 * if producer { 1 } else { -1 };
                let clock = service.state.last.saturating_sub(3) + dice.below(6);
                let answer = service.submit(journal, clock, code(point), day, quarter, value);
                if let Ok(stamp) = answer {
                    assert_eq!(book.submit(clock, code(point), day, quarter, value), stamp);
                    assert_eq!(book.last(), service.state.last);
                }
                answer.is_err()
            }
        };
        if refused {
            assert!((*service, journal.to_vec()) == before);
        }
    }

    #[test]
    fn any_record_and_journal_are_borne() {
        let mut dice = Dice(88172645463325252);
        for _ in 0..20000 {
            let (mut service, mut journal) = (Service::fresh(&group()).unwrap(), vec![0; dice.below(12) as usize]);
            let _ = service.submit(&mut journal, 5, PRODUCER, 30, 3, 4);
            let _ = service.submit(&mut journal, 9, CONSUMER, 30, 3, -4);
            let odd = any_number(&mut dice, 40);
            match dice.below(8) {
                0 => service.registration.producers = odd as usize,
                1 => service.registration.consumers = odd as usize,
                2 => service.state.last = odd,
                3 => service.state.kept_day = odd,
                4 => service.state.kept_stamp = odd,
                5 => service.state.entries = odd as usize,
                _ => journal.iter_mut().for_each(|number| *number ^= odd * (*number % 2)),
            }
            let (day, quarter, stamp) = (
                any_number(&mut dice, 70),
                any_number(&mut dice, 5),
                any_number(&mut dice, 12),
            );
            let mut result = [0; 8];
            let _ = service.evaluate(&journal, day, quarter, stamp, &mut result);
            let _ = service.submit(&mut journal, stamp, PRODUCER, day, quarter, odd as i64);
            let _ = service.clear(&mut journal, day, stamp);
        }
    }
}
