//! Groups and numbers that several tests use.

use crate::calendar::{self, Letter, Start};
use crate::registration::{Registration, NAMED};
use crate::registration_text;

/// The text of a group with one producer and two consumers.
pub const GROUP: &str = "\
G   1   2 1
D 859182400220162071 0
O 859182400220162088 0 1   1  4000
O 859182400220162095 0 1   1  6000
";

/// The producer of that group.
pub const PRODUCER: u64 = 859182400220162071;

/// The first consumer of that group.
pub const CONSUMER: u64 = 859182400220162088;

/// A true code that no point of that group has.
pub const FOREIGN: u64 = 859182400110035201;

/// Gives that group.
pub fn group() -> Registration {
    registration_text::read(GROUP.as_bytes()).unwrap()
}

/// Gives a true code for each number.
pub fn code(number: u64) -> u64 {
    let stem = 85918240000000000 + number;
    let text = stem.to_string();
    let sum: u64 = (text.bytes().rev().zip([3, 1].iter().cycle()))
        .map(|(digit, weight)| u64::from(digit - b'0') * weight)
        .sum();
    stem * 10 + (10 - sum % 10) % 10
}

/// Gives a group with points of every status, in which every consumer names as many producers as it can, beginning with
/// its own number.
pub fn large_group(producers: usize, consumers: usize, iteration: u8) -> Registration {
    let mut registration = Registration::zeros();
    registration.producers = producers;
    registration.consumers = consumers;
    registration.iteration = iteration;
    for point in 0..producers + consumers {
        registration.codes[point] = code(point as u64);
        registration.statuses[point] = [0, 0, 0, 1, 0, 2, 3][point % 7];
    }
    for consumer in 0..consumers {
        let count = producers.min(NAMED);
        registration.counts[consumer] = count as u8;
        for place in 0..count {
            registration.sources[NAMED * consumer + place] = ((consumer + place) % producers + 1) as u8;
            registration.keys[NAMED * consumer + place] = (10000 / consumers) as u16;
        }
    }
    registration
}

/// Gives the hours of a day by the wall clock in order: March leaves out that from two, October has it twice.
fn hours(day: u64) -> Vec<(u64, Option<Letter>)> {
    let at_two = match calendar::quarters(day) {
        Some(92) => vec![],
        Some(100) => vec![(2, Some(Letter::A)), (2, Some(Letter::B))],
        _ => vec![(2, None)],
    };
    [
        vec![(0, None), (1, None)],
        at_two,
        (3..24).map(|hour| (hour, None)).collect(),
    ]
    .concat()
}

/// Gives the starts of all quarters of a day in order, four to each hour.
pub fn starts_by_hour(day: u64) -> Vec<Start> {
    let quarters_of = |(hour, letter)| {
        [0, 15, 30, 45].map(|minute| Start {
            minutes: 60 * hour + minute,
            letter,
        })
    };
    hours(day).into_iter().flat_map(quarters_of).collect()
}

/// Numbers that look random, the same in every run.
pub struct Dice(pub u64);

impl Dice {
    /// Gives the next number below a limit.
    pub fn below(&mut self, limit: u64) -> u64 {
        self.0 ^= self.0 << 13;
        self.0 ^= self.0 >> 7;
        self.0 ^= self.0 << 17;
        self.0 % limit
    }
}
