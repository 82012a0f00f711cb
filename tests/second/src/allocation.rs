//! The allocation of supplies to withdrawals in rounds.

use crate::registration::{Registration, NAMED, WHOLE};

/// The most points a group has for its rounds to be repeated.
const ITERATING_POINTS: usize = 50;

/// The most rounds there are.
const MOST_ROUNDS: usize = 5;

/// What an allocation gives.
#[derive(Clone, PartialEq, Eq, Debug)]
pub struct Outcome {
    /// The shares of the pairs: consumers in order, priorities within.
    pub shares: Vec<u64>,
    /// The remaining withdrawals, by consumer.
    pub withdrawals: Vec<u64>,
    /// The remaining supplies, by producer.
    pub supplies: Vec<u64>,
    /// How many rounds there were.
    pub rounds: u64,
}

/// Gives how many rounds the allocation of a group has.
fn rounds(registration: &Registration) -> usize {
    if registration.iteration == 1 && registration.points() <= ITERATING_POINTS {
        registration.consumers.min(MOST_ROUNDS)
    } else {
        1
    }
}

/// Gives the part of a supply that a key stands for, rounded down.
fn part(key: u16, supply: u64) -> u64 {
    let (key, whole) = (u64::from(key), u64::from(WHOLE));
    key * (supply / whole) + key * (supply % whole) / whole
}

/// Allocates the supplies of an undamaged group to its withdrawals; the magnitudes stand by point.
pub fn allocate(registration: &Registration, magnitudes: &[u64]) -> Outcome {
    let (supplies, withdrawals) = magnitudes[..registration.points()].split_at(registration.producers);
    let mut outcome = Outcome {
        shares: vec![0; registration.pairs()],
        withdrawals: withdrawals.to_vec(),
        supplies: supplies.to_vec(),
        rounds: rounds(registration) as u64,
    };
    for _ in 0..outcome.rounds {
        play_round(registration, &mut outcome);
    }
    outcome
}

/// Plays one round: withdrawals fall with every share, supplies only when the round ends.
fn play_round(registration: &Registration, outcome: &mut Outcome) {
    let mut left = outcome.supplies.clone();
    let mut shares = outcome.shares.iter_mut();
    for (consumer, withdrawal) in outcome.withdrawals.iter_mut().enumerate() {
        let first = NAMED * consumer;
        let named = first..first + usize::from(registration.counts[consumer]);
        for (place, sum) in named.zip(&mut shares) {
            let producer = usize::from(registration.sources[place]) - 1;
            let share = part(registration.keys[place], outcome.supplies[producer]).min(*withdrawal);
            *withdrawal -= share;
            *sum += share;
            left[producer] -= share;
        }
    }
    outcome.supplies = left;
}

/// Gives the mean of values with a sum and a count to the nearest whole number, halves up, and 0 for no values.
pub fn mean(sum: u128, count: u128) -> u64 {
    (2 * sum + count).checked_div(2 * count).unwrap_or(0) as u64
}

#[cfg(test)]
mod tests {
    use super::*;
    use crate::registration_text::read;
    use crate::samples::{group, large_group};

    /// Gives an outcome from its parts.
    fn outcome(shares: &[u64], withdrawals: &[u64], supplies: &[u64], rounds: u64) -> Outcome {
        Outcome {
            shares: shares.to_vec(),
            withdrawals: withdrawals.to_vec(),
            supplies: supplies.to_vec(),
            rounds,
        }
    }

    #[test]
    fn one_place_shares_with_itself() {
        let text = b"G   1   1 1\nD 859182400220162071 0\nO 859182400220162088 0 1   1 10000\n";
        let result = allocate(&read(text).unwrap(), &[951, 422]);
        assert_eq!(result, outcome(&[422], &[0], &[529], 1));
    }

    #[test]
    fn a_cottage_shares_with_a_flat() {
        let text = "G   1   2 1\nD 859182400220095195 0\n\
                    O 859182400220095201 0 1   1  4000\nO 859182400110035201 0 1   1  6000\n";
        let result = allocate(&read(text.as_bytes()).unwrap(), &[751, 37, 1221]);
        assert_eq!(result, outcome(&[37, 608], &[0, 613], &[106], 2));
    }

    #[test]
    fn a_village_shares() {
        let text = "G   2   3 1\nD 859182400220009116 0\nD 859182400220008850 0\n\
                    O 859182400220009123 0 2   1  3000   2  1000\n\
                    O 859182400220009260 0 2   2  1000   1  7000\n\
                    O 859182400220009499 0 1   2  1000\n";
        let result = allocate(&read(text.as_bytes()).unwrap(), &[220, 13245, 337, 120, 3687]);
        assert_eq!(result, outcome(&[66, 271, 120, 0, 3514], &[0, 0, 173], &[154, 9340], 3));
    }

    #[test]
    fn shares_are_rounded_down_and_supplies_wait_for_the_round() {
        let result = allocate(
            &Registration {
                iteration: 0,
                ..group()
            },
            &[1001, 9999, 9999],
        );
        assert_eq!(result, outcome(&[400, 600], &[9599, 9399], &[1], 1));
    }

    #[test]
    fn fifty_points_iterate_and_more_do_not() {
        for (producers, consumers, iteration, rounds) in [
            (2, 48, 1, 5),
            (2, 49, 1, 1),
            (2, 48, 0, 1),
            (5, 59, 1, 1),
            (5, 4, 1, 4),
            (5, 1, 1, 1),
            (46, 4, 1, 4),
        ] {
            let registration = large_group(producers, consumers, iteration);
            assert_eq!(allocate(&registration, &[77777; 64]).rounds, rounds);
        }
    }

    #[test]
    fn nothing_is_lost() {
        for magnitude in [0, 1, 9999, 99999999, u64::MAX] {
            let registration = large_group(4, 46, 1);
            let result = allocate(&registration, &[magnitude; 64]);
            let mut supplies = result.supplies.clone();
            let mut shares = result.shares.iter();
            for consumer in 0..46 {
                for place in 0..4 {
                    let producer = usize::from(registration.sources[NAMED * consumer + place]) - 1;
                    supplies[producer] += shares.next().unwrap();
                }
            }
            assert_eq!(supplies, [magnitude; 4]);
        }
    }

    #[test]
    fn means_round_halves_up() {
        assert_eq!(mean(0, 0), 0);
        assert_eq!(mean(7, 1), 7);
        assert_eq!(mean(3, 2), 2);
        assert_eq!(mean(4, 3), 1);
        assert_eq!(mean(5, 3), 2);
        assert_eq!(mean(1, 4), 0);
        assert_eq!(mean(2, 4), 1);
        assert_eq!(mean(4 * u128::from(u64::MAX), 4), u64::MAX);
    }
}
