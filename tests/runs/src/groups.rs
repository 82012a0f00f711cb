//! Groups: registrations that keep every rule, of 2 to 64 points.

use crate::random::Random;
use second::registration::Registration;

/// The registration code whose first 17 digits these are: the check digit stands behind them.
pub fn code_of(front: u64) -> u64 {
    let mut rest = front;
    let mut sum = 0;
    let mut weight = 3;
    while rest > 0 {
        sum += weight * (rest % 10);
        weight = 4 - weight;
        rest /= 10;
    }
    10 * front + (10 - sum % 10) % 10
}

/// A registration code.
pub fn code(random: &mut Random) -> u64 {
    code_of(random.between(10_000_000_000_000_000, 99_999_999_999_999_999))
}

/// How many points a group has: mostly few, now and then as many as there may be or as may iterate.
fn point_count(random: &mut Random) -> u64 {
    match random.below(10) {
        0..=5 => random.between(2, 6),
        6..=7 => random.between(2, 20),
        8 => random.pick(&[49, 50, 51, 63, 64]),
        _ => random.between(2, 64),
    }
}

/// How many of a group's points are producers.
fn producer_count(random: &mut Random, points: u64) -> u64 {
    match random.below(3) {
        0 => 1,
        1 => random.between(1, 5.min(points - 1)),
        _ => random.between(1, points - 1),
    }
}

/// The producers that each consumer names, by their numbers from 1, none twice on one line.
fn name_producers(random: &mut Random, registration: &mut Registration) {
    let producers = registration.producers;
    for consumer in 0..registration.consumers {
        let count = random.between(1, producers.min(5) as u64) as usize;
        registration.counts[consumer] = count as u8;
        let mut free: Vec<u8> = (1..=producers as u8).collect();
        for priority in 0..count {
            let at = random.place(free.len());
            registration.sources[5 * consumer + priority] = free.swap_remove(at);
        }
    }
}

/// Keys for those who name one producer: each at least 1, in sum at most 10000 and often just that.
fn share_out(random: &mut Random, registration: &mut Registration, places: &[usize]) {
    let total = match random.below(3) {
        0 => 10000,
        1 => 9999,
        _ => random.between(places.len() as u64, 10000),
    };
    let mut left = total - places.len() as u64;
    for (done, &place) in places.iter().enumerate() {
        let most = if random.one_in(4) {
            left
        } else {
            (2 * left / (places.len() - done) as u64).min(left)
        };
        let more = if done + 1 == places.len() {
            left
        } else {
            random.between(0, most)
        };
        registration.keys[place] = (1 + more) as u16;
        left -= more;
    }
}

/// A registration that keeps every rule.
pub fn registration(random: &mut Random) -> Registration {
    let points = point_count(random);
    let producers = producer_count(random, points);
    let mut made = Registration::zeros();
    made.producers = producers as usize;
    made.consumers = (points - producers) as usize;
    made.iteration = random.below(2) as u8;
    for point in 0..points as usize {
        made.codes[point] = code(random);
        made.statuses[point] = if random.one_in(2) { random.below(4) as u8 } else { 0 };
    }
    name_producers(random, &mut made);
    for producer in 1..=producers as u8 {
        let places: Vec<usize> = (0..320).filter(|&place| made.sources[place] == producer).collect();
        if !places.is_empty() {
            share_out(random, &mut made, &places);
        }
    }
    made
}
