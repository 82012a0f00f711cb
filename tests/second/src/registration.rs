//! The registration of a group: its points, their codes and statuses, and who shares with whom by which key.

/// The most points a group has.
pub const POINTS: usize = 64;

/// The most producers a consumer names.
pub const NAMED: usize = 5;

/// The greatest status.
pub const GREATEST_STATUS: u8 = 3;

/// The whole, to which the keys of a producer may sum, in hundredths of a percent.
pub const WHOLE: u16 = 10000;

/// A group's registration; points stand from 0, producers first, and everything unused is 0.
#[derive(Clone, Copy, PartialEq, Eq, Debug)]
pub struct Registration {
    /// How many producers there are.
    pub producers: usize,
    /// How many consumers there are.
    pub consumers: usize,
    /// Whether rounds are repeated: 1 if so, else 0.
    pub iteration: u8,
    /// The registration code of each point.
    pub codes: [u64; 64],
    /// The status of each point.
    pub statuses: [u8; 64],
    /// How many producers each consumer names.
    pub counts: [u8; 64],
    /// The named producers, counted from 1, in falling priority from place 5 * consumer on.
    pub sources: [u8; 320],
    /// The keys that go with the named producers.
    pub keys: [u16; 320],
}

/// Tells whether a code has 18 digits, the first not 0, and the right check digit.
pub fn code_right(code: u64) -> bool {
    if !(100_000_000_000_000_000..1_000_000_000_000_000_000).contains(&code) {
        return false;
    }
    let (mut rest, mut sum, mut weight) = (code / 10, code % 10, 3);
    while rest > 0 {
        sum += rest % 10 * weight;
        rest /= 10;
        weight = 4 - weight;
    }
    sum % 10 == 0
}

impl Registration {
    /// Gives the registration in which every number is 0.
    pub fn zeros() -> Registration {
        Registration {
            producers: 0,
            consumers: 0,
            iteration: 0,
            codes: [0; 64],
            statuses: [0; 64],
            counts: [0; 64],
            sources: [0; 320],
            keys: [0; 320],
        }
    }

    /// Gives how many points there are.
    pub fn points(&self) -> usize {
        self.producers.saturating_add(self.consumers)
    }

    /// Gives how many pairs of a consumer and a producer it names there are.
    pub fn pairs(&self) -> usize {
        self.counts
            .iter()
            .take(self.consumers)
            .map(|&count| usize::from(count))
            .sum()
    }

    /// Gives the point that has a code, if the group has one.
    pub fn point_of(&self, code: u64) -> Option<usize> {
        self.codes.iter().take(self.points()).position(|&known| known == code)
    }

    /// Tells whether a rule on points and keys is broken or an unused number is not 0.
    pub fn damaged(&self) -> bool {
        !counts_right(self.producers, self.consumers)
            || self.iteration > 1
            || self.points_damaged()
            || self.consumers_damaged()
            || self.unused_filled()
            || self.code_twice()
            || self.keys_above()
    }

    /// Tells whether a used code or status is wrong.
    fn points_damaged(&self) -> bool {
        let points = self.points();
        self.statuses[..points].iter().any(|&status| status > GREATEST_STATUS)
            || !self.codes[..points].iter().all(|&code| code_right(code))
    }

    /// Tells whether a consumer names a wrong number of producers, a wrong one or one with a wrong key.
    fn consumers_damaged(&self) -> bool {
        (0..self.consumers).any(|consumer| {
            let count = usize::from(self.counts[consumer]);
            if !(1..=NAMED).contains(&count) {
                return true;
            }
            let used = NAMED * consumer..NAMED * consumer + count;
            !named_right(self.producers, &self.sources[used.clone()], &self.keys[used])
        })
    }

    /// Tells whether a number that no point and no pair uses is not 0.
    fn unused_filled(&self) -> bool {
        let points = self.points();
        self.codes[points..].iter().any(|&code| code != 0)
            || self.statuses[points..].iter().any(|&status| status != 0)
            || self.counts[self.consumers..].iter().any(|&count| count != 0)
            || (0..NAMED * POINTS).any(|place| {
                let used = place % NAMED < usize::from(self.counts[place / NAMED]);
                !used && (self.sources[place] != 0 || self.keys[place] != 0)
            })
    }

    /// Tells whether two points have the same code.
    pub fn code_twice(&self) -> bool {
        let codes = &self.codes[..self.points().min(POINTS)];
        codes
            .iter()
            .enumerate()
            .any(|(point, code)| codes[..point].contains(code))
    }

    /// Tells whether the keys of some producer sum to more than the whole.
    pub fn keys_above(&self) -> bool {
        let mut sums = [0u32; 256];
        for (&source, &key) in self.sources.iter().zip(&self.keys) {
            sums[usize::from(source)] += u32::from(key);
        }
        sums[1..].iter().any(|&sum| sum > u32::from(WHOLE))
    }
}

/// Tells whether the counts of producers and consumers are within the limits of a group.
pub fn counts_right(producers: usize, consumers: usize) -> bool {
    producers >= 1 && consumers >= 1 && producers.saturating_add(consumers) <= POINTS
}

/// Tells whether the producers that one consumer names are known, none twice, with keys within their limits.
pub fn named_right(producers: usize, sources: &[u8], keys: &[u16]) -> bool {
    let known = sources
        .iter()
        .all(|&source| (1..=producers).contains(&usize::from(source)));
    let differ = sources
        .iter()
        .enumerate()
        .all(|(place, source)| !sources[..place].contains(source));
    known && differ && keys.iter().all(|key| (1..=WHOLE).contains(key))
}

#[cfg(test)]
mod tests {
    use super::*;
    use crate::samples::{group, large_group};

    #[test]
    fn codes_have_a_check_digit() {
        assert!(code_right(859182400220162071));
        assert!(!code_right(859182400220162072));
        assert!(code_right(859182400110035201));
        for code in [
            0,
            1,
            85918240022016207,
            8591824002201620711,
            u64::MAX,
            99999999999999999,
        ] {
            assert!(!code_right(code));
        }
    }

    #[test]
    fn any_field_values_are_judged() {
        assert!(Registration::zeros().damaged());
        for (producers, consumers) in [
            (usize::MAX, 1),
            (1, usize::MAX),
            (usize::MAX, usize::MAX),
            (64, 1),
            (0, 64),
        ] {
            let mut registration = group();
            (registration.producers, registration.consumers) = (producers, consumers);
            assert!(registration.damaged());
            assert_eq!(registration.points(), producers.saturating_add(consumers));
        }
        let full = Registration {
            sources: [255; 320],
            keys: [65535; 320],
            counts: [255; 64],
            ..large_group(5, 59, 1)
        };
        assert!(full.damaged());
        assert_eq!(full.pairs(), 59 * 255);
        assert!(!large_group(5, 59, 1).damaged());
        assert!(!large_group(1, 63, 0).damaged());
        assert!(!large_group(63, 1, 0).damaged());
    }

    #[test]
    fn every_broken_rule_is_damage() {
        let broken: [fn(&mut Registration); 16] = [
            |group| group.iteration = 2,
            |group| group.codes[0] += 1,
            |group| group.codes[1] = group.codes[0],
            |group| group.codes[3] = 859182400110035201,
            |group| group.statuses[2] = 4,
            |group| group.statuses[3] = 1,
            |group| group.counts[0] = 0,
            |group| group.counts[0] = 6,
            |group| group.counts[2] = 1,
            |group| group.sources[0] = 0,
            |group| group.sources[0] = 2,
            |group| group.sources[1] = 1,
            |group| group.sources[10] = 1,
            |group| group.keys[0] = 0,
            |group| group.keys[5] = 6001,
            |group| group.keys[319] = 1,
        ];
        assert!(!group().damaged());
        for (number, break_rule) in broken.iter().enumerate() {
            let mut registration = group();
            break_rule(&mut registration);
            assert!(registration.damaged(), "rule {number}");
        }
        let mut twice = large_group(2, 2, 0);
        twice.sources[1] = twice.sources[0];
        assert!(twice.damaged());
    }
}
