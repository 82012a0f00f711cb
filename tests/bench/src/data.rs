//! The data of the benchmark: groups, their readings over successive quarter hours, and journals of them.

use runs::groups;
use second::calendar;
use second::registration::Registration;
use second::service::ENTRY;

/// The day of the first reading, 1 January 2026.
const FIRST_DAY: u64 = 731;

/// The stamp of a journal's first entry, in seconds of the clock on that day.
pub const FIRST_STAMP: u64 = 1_767_225_600;

/// The most producers that a consumer names.
const NAMED_MOST: usize = 5;

/// The sum that the keys of one producer do not exceed.
const KEYS_MOST: usize = 10000;

/// The reading of a point in a quarter hour.
#[derive(Clone, Copy)]
pub struct Reading {
    pub point: usize,
    pub day: u64,
    pub quarter: u64,
    pub magnitude: u64,
}

/// A journal with its last stamp and with room for one more entry.
pub struct Journal {
    pub last: u64,
    pub entries: usize,
    pub numbers: Vec<u64>,
}

impl Reading {
    /// The place of the reading in the journal.
    fn place(&self) -> u64 {
        (self.point as u64 * calendar::DAYS + self.day) * 100 + self.quarter - 1
    }

    /// The value to be submitted: a supply is positive, a withdrawal negative.
    pub fn value(&self, registration: &Registration) -> i64 {
        let magnitude = self.magnitude as i64;
        if self.point < registration.producers {
            magnitude
        } else {
            -magnitude
        }
    }

    /// The reading with another magnitude.
    fn corrected(&self) -> Reading {
        Reading {
            magnitude: self.magnitude + 1,
            ..*self
        }
    }
}

impl Journal {
    /// A journal with an entry for each reading, in their order.
    pub fn of(readings: &[Reading]) -> Journal {
        let mut numbers = Vec::with_capacity(ENTRY * (readings.len() + 1));
        for (stamp, reading) in (FIRST_STAMP..).zip(readings) {
            numbers.extend([stamp, reading.place(), reading.magnitude]);
        }
        numbers.extend([0; ENTRY]);
        Journal {
            last: FIRST_STAMP + readings.len() as u64 - 1,
            entries: readings.len(),
            numbers,
        }
    }
}

/// The code of a point.
fn code(point: usize) -> u64 {
    groups::code_of(85_918_240_000_000_000 + point as u64)
}

/// A group in which every consumer names as many producers as it may, the first of them in turn, with equal keys.
pub fn group(producers: usize, consumers: usize) -> Registration {
    let mut group = Registration::zeros();
    group.producers = producers;
    group.consumers = consumers;
    group.iteration = 1;
    for point in 0..producers + consumers {
        group.codes[point] = code(point);
    }
    let named = producers.min(NAMED_MOST);
    for consumer in 0..consumers {
        group.counts[consumer] = named as u8;
        for priority in 0..named {
            group.sources[NAMED_MOST * consumer + priority] = ((consumer + priority) % producers + 1) as u8;
            group.keys[NAMED_MOST * consumer + priority] = (KEYS_MOST / consumers) as u16;
        }
    }
    group
}

/// A magnitude below a limit, mixed from point, day and quarter.
fn magnitude(point: usize, day: u64, quarter: u64, limit: u64) -> u64 {
    let mixed = ((day * 100 + quarter) * 64 + point as u64).wrapping_mul(0x9e37_79b9_7f4a_7c15);
    (mixed >> 32) % limit
}

/// So many readings: of all points, quarter hour after quarter hour, day after day; supplies are the greater ones.
pub fn readings(registration: &Registration, count: usize) -> Vec<Reading> {
    let (producers, points) = (registration.producers, registration.points());
    let quarters = (FIRST_DAY..).flat_map(|day| {
        let quarters = calendar::quarters(day).unwrap_or(0);
        (1..=quarters).map(move |quarter| (day, quarter))
    });
    let all = quarters.flat_map(|(day, quarter)| {
        (0..points).map(move |point| {
            let limit = if point < producers { 10_000 } else { 1_000 };
            Reading {
                point,
                day,
                quarter,
                magnitude: magnitude(point, day, quarter, limit),
            }
        })
    });
    all.take(count).collect()
}

/// So many readings, of which half correct the others: behind the readings of a day come their corrections.
pub fn corrected_readings(registration: &Registration, count: usize) -> Vec<Reading> {
    let readings = readings(registration, count / 2);
    let days = readings.chunk_by(|reading, next| reading.day == next.day);
    days.flat_map(|day| day.iter().copied().chain(day.iter().map(Reading::corrected)))
        .collect()
}
