//! The result of an accepted evaluation, by name.

use crate::{Origin, Registration};

/// What an evaluation gave: the round count, and the numbers of the result, which stand in the caller's list. It borrows
/// that list alone, so the service can be used while a result is held. Two results are equal where registration, round
/// count and all numbers are.
#[derive(Clone, Copy, PartialEq, Eq, Debug)]
pub struct Evaluation<'a> {
    registration: Registration,
    rounds: usize,
    numbers: &'a [u64],
    shares: &'a [u64],
    withdrawals: &'a [u64],
    supplies: &'a [u64],
    origins: &'a [u64],
}

/// What a consumer gets from a producer that it names; both are counted from 0, among consumers and among producers.
#[derive(Clone, Copy, PartialEq, Eq, Debug)]
pub struct Share {
    pub consumer: usize,
    pub producer: usize,
    pub share: u64,
}

/// What a result says of one point: its value, as a magnitude, which is the supply of a producer and the withdrawal of a
/// consumer; what remains of it after all shares; and where it came from.
#[derive(Clone, Copy, PartialEq, Eq, Debug)]
pub struct PointResult {
    pub code: u64,
    pub value: u64,
    pub remaining: u64,
    pub origin: Origin,
}

impl<'a> Evaluation<'a> {
    /// The result that stands at the front of a list: shares, remaining withdrawals, remaining supplies, origins.
    pub(crate) fn of(registration: Registration, rounds: usize, list: &'a [u64]) -> Evaluation<'a> {
        // Only an accepted evaluation comes here: its registration keeps every rule, and all its numbers stand in the list.
        // Others are borne too, here, below and in `pairs`, only so that nothing can panic.
        let mut rest = list;
        let mut part = |count: usize| {
            let (part, later) = rest.split_at(count.min(rest.len()));
            rest = later;
            part
        };
        let shares = part(registration.pairs().count());
        let withdrawals = part(registration.consumers);
        let supplies = part(registration.producers);
        let origins = part(supplies.len() + withdrawals.len());
        Evaluation {
            registration,
            rounds,
            numbers: &list[..list.len() - rest.len()],
            shares,
            withdrawals,
            supplies,
            origins,
        }
    }

    /// How many rounds were made.
    pub fn rounds(&self) -> usize {
        self.rounds
    }

    /// All numbers of the result, as they stand in the list.
    pub fn numbers(&self) -> &'a [u64] {
        self.numbers
    }

    /// Each pair's share: consumers in order, priorities within.
    pub fn shares(&self) -> impl Iterator<Item = Share> + '_ {
        let pairs = self.registration.pairs().zip(self.shares);
        pairs.map(|((consumer, producer), &share)| Share {
            consumer,
            producer,
            share,
        })
    }

    /// What remains of each consumer's withdrawal.
    pub fn remaining_withdrawals(&self) -> &'a [u64] {
        self.withdrawals
    }

    /// What remains of each producer's supply.
    pub fn remaining_supplies(&self) -> &'a [u64] {
        self.supplies
    }

    /// Where each point's value came from, producers first.
    pub fn origins(&self) -> impl Iterator<Item = Origin> + 'a {
        self.origins.iter().copied().filter_map(Origin::from_number)
    }

    /// What the result says of each point, producers first.
    pub fn points(&self) -> impl Iterator<Item = PointResult> + '_ {
        (0..self.origins.len()).filter_map(|point| self.point(point))
    }

    /// What the result says of the point with this code, if the group has it.
    pub fn of_code(&self, code: u64) -> Option<PointResult> {
        let point = self.registration.codes.iter().position(|&own| own == code)?;
        self.point(point)
    }

    /// What the result says of a point; points count from 0, producers first. Shares and remainder add up to the value.
    fn point(&self, point: usize) -> Option<PointResult> {
        let consumer = point.checked_sub(self.registration.producers);
        let remaining = *self.supplies.iter().chain(self.withdrawals).nth(point)?;
        let own = |share: &Share| share.producer == point || Some(share.consumer) == consumer;
        let shares = self.shares().filter(own).map(|share| share.share);
        Some(PointResult {
            code: *self.registration.codes.get(point)?,
            value: shares.fold(remaining, u64::saturating_add),
            remaining,
            origin: Origin::from_number(*self.origins.get(point)?)?,
        })
    }
}

#[cfg(test)]
mod tests {
    use super::{Evaluation, PointResult, Share};
    use crate::{Origin, Registration, RESULT_MOST};

    /// A registration of zeros.
    const NOTHING: Registration = Registration {
        producers: 0,
        consumers: 0,
        iteration: 0,
        codes: [0; 64],
        statuses: [0; 64],
        counts: [0; 64],
        sources: [0; 320],
        keys: [0; 320],
    };

    /// Two producers and two consumers: the first names the second producer and then the first, the second the first.
    fn group() -> Registration {
        let mut group = NOTHING;
        group.producers = 2;
        group.consumers = 2;
        group.codes[..4].copy_from_slice(&[11, 12, 13, 14]);
        group.counts[..2].copy_from_slice(&[2, 1]);
        group.sources[..2].copy_from_slice(&[2, 1]);
        group.sources[5] = 1;
        group
    }

    /// Three shares, two remaining withdrawals, two remaining supplies, four origins, and two numbers that stand behind.
    const LIST: [u64; 13] = [10, 20, 30, 1, 2, 3, 4, 0, 6, 5, 2, 99, 99];

    #[test]
    fn parts_stand_one_after_the_other() {
        let evaluation = Evaluation::of(group(), 2, &LIST);
        let pairs = [(0, 1, 10), (0, 0, 20), (1, 0, 30)];
        let shares = pairs.map(|(consumer, producer, share)| Share {
            consumer,
            producer,
            share,
        });
        assert_eq!(evaluation.rounds(), 2);
        assert_eq!(evaluation.numbers(), &LIST[..11]);
        assert!(evaluation.shares().eq(shares));
        assert_eq!(evaluation.remaining_withdrawals(), [1, 2]);
        assert_eq!(evaluation.remaining_supplies(), [3, 4]);
        let origins = [0, 6, 5, 2].map(Origin::from_number);
        assert!(evaluation.origins().map(Some).eq(origins));
    }

    #[test]
    fn a_point_is_found_by_its_code() {
        let evaluation = Evaluation::of(group(), 2, &LIST);
        let found = [
            (11, 20 + 30 + 3, 3, Origin::Measured),
            (12, 10 + 4, 4, Origin::ZeroForLack),
            (13, 10 + 20 + 1, 1, Origin::ZeroByStatus),
            (14, 30 + 2, 2, Origin::MeanOfTwoWeeks),
        ];
        let points = found.map(|(code, value, remaining, origin)| PointResult {
            code,
            value,
            remaining,
            origin,
        });
        assert!(evaluation.points().eq(points));
        for point in points {
            assert_eq!(evaluation.of_code(point.code), Some(point));
        }
        assert_eq!(evaluation.of_code(15), None);
        assert_eq!(evaluation.of_code(0), None);
    }

    #[test]
    fn the_longest_result_fills_the_longest_list() {
        let mut group = NOTHING;
        group.producers = 5;
        group.consumers = 59;
        group.counts[..59].fill(5);
        group.sources[..295].fill(1);
        let list = [0; RESULT_MOST + 1];
        let evaluation = Evaluation::of(group, 1, &list);
        assert_eq!(evaluation.numbers().len(), RESULT_MOST);
        assert_eq!(evaluation.points().count(), 64);
    }

    #[test]
    fn what_no_evaluation_gives_is_borne() {
        let short = Evaluation::of(group(), 0, &LIST[..8]);
        assert_eq!(short.points().count(), 1);
        assert_eq!(short.of_code(12), None);
        let mut group = group();
        (group.producers, group.consumers) = (usize::MAX, usize::MAX);
        group.counts = [u8::MAX; 64];
        let damaged = Evaluation::of(group, 0, &LIST);
        assert_eq!(damaged.shares().count(), LIST.len());
        assert_eq!(damaged.points().count(), 0);
        assert_eq!(damaged.of_code(11), None);
    }
}
