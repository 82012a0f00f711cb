//! What a result says by name: as the Rust package has it, and as the second implementation has it.

use crate::calls::Kept;
use crate::shown::{matched, Shown};
use second::allocation::mean;
use second::evaluation::{evaluate, Total};
use second::registration::{Registration, NAMED};
use share_library::{Evaluation, Origin, PointResult};

/// A point's code, value, remainder and origin.
type Point = [u64; 4];

/// All that a result says.
#[derive(PartialEq, Debug)]
pub struct Named {
    rounds: u64,
    numbers: Vec<u64>,
    /// Each share behind its consumer and its producer, which count from 0.
    shares: Vec<(usize, usize, u64)>,
    withdrawals: Vec<u64>,
    supplies: Vec<u64>,
    origins: Vec<u64>,
    points: Vec<Point>,
    /// What is found by each code of the group.
    by_code: Vec<Option<Point>>,
}

/// The readings of the earlier weeks by the entries shown for them, as far as a mean needs them.
fn total(earlier: &[Option<Shown>]) -> Total {
    let mut total = Total::default();
    earlier
        .iter()
        .flatten()
        .for_each(|&(_, magnitude)| total.add(magnitude));
    total
}

/// The value of a point with a status, by the entries shown for its own day and for the four weeks before.
fn value(status: u8, [own, earlier @ ..]: &[Option<Shown>; 5]) -> u64 {
    match own {
        Some((_, magnitude)) => *magnitude,
        None if status > 0 => 0,
        None => {
            let Total { sum, count } = total(earlier);
            mean(sum, count)
        }
    }
}

/// Each consumer with each producer that it names, both counted from 0.
fn pairs(registration: &Registration) -> impl Iterator<Item = (usize, usize)> + '_ {
    (0..registration.consumers).flat_map(|consumer| {
        let count = usize::from(registration.counts[consumer]);
        let named = &registration.sources[NAMED * consumer..][..count];
        named.iter().map(move |&source| (consumer, usize::from(source) - 1))
    })
}

impl Named {
    /// What the package says of a group with these codes.
    pub fn of_package(evaluation: &Evaluation, codes: &[u64]) -> Named {
        let numbers = |point: PointResult| [point.code, point.value, point.remaining, point.origin.number()];
        let shares = evaluation.shares();
        Named {
            rounds: evaluation.rounds() as u64,
            numbers: evaluation.numbers().to_vec(),
            shares: shares.map(|pair| (pair.consumer, pair.producer, pair.share)).collect(),
            withdrawals: evaluation.remaining_withdrawals().to_vec(),
            supplies: evaluation.remaining_supplies().to_vec(),
            origins: evaluation.origins().map(Origin::number).collect(),
            points: evaluation.points().map(numbers).collect(),
            by_code: codes
                .iter()
                .map(|&code| evaluation.of_code(code).map(numbers))
                .collect(),
        }
    }

    /// What the second implementation says of a quarter hour as of a stamp. A point's value is what it is given for the
    /// allocation, and not what its shares and its remainder add up to.
    pub fn of_second(kept: &Kept, day: u64, quarter: u64, until: u64) -> Named {
        let registration = &kept.service.registration;
        let slots = matched(day, quarter);
        let shown = |point| kept.view(point, until).all(&slots);
        let found: Vec<[Option<Shown>; 5]> = (0..registration.points()).map(shown).collect();
        let own = |point: usize| found[point][0].map(|(_, magnitude)| magnitude);
        let evaluation = evaluate(registration, own, |point| total(&found[point][1..]));
        let numbers = evaluation.numbers();
        let (outcome, origins) = (evaluation.outcome, evaluation.origins);
        let remaining: Vec<u64> = [&outcome.supplies[..], &outcome.withdrawals].concat();
        let point = |at: usize| {
            let value = value(registration.statuses[at], &found[at]);
            [registration.codes[at], value, remaining[at], origins[at]]
        };
        let points: Vec<Point> = (0..registration.points()).map(point).collect();
        let shares = pairs(registration).zip(outcome.shares);
        Named {
            rounds: outcome.rounds,
            numbers,
            shares: shares
                .map(|((consumer, producer), share)| (consumer, producer, share))
                .collect(),
            withdrawals: outcome.withdrawals,
            supplies: outcome.supplies,
            origins,
            by_code: points.iter().copied().map(Some).collect(),
            points,
        }
    }
}
