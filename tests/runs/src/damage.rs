//! Records and journals with one rule broken: of the registration, of the record's numbers, of the journal's entries.
//! Each way breaks its rule alone, but for those of `WITH_OTHERS`.

use crate::calls::Kept;
use crate::groups;
use crate::random::Random;
use second::registration::Registration;
use second::service::State;

/// The name of a rule, and how it is broken: false where record and journal have nothing to break it with.
pub type Break = (&'static str, fn(&mut Random, &mut Kept) -> bool);

/// The greatest stamp.
const STAMP_MOST: u64 = 999_999_999_999;

/// How many days the calendar has.
const DAYS: u64 = 27759;

/// No producer is left, so those that are named are not there.
const NO_PRODUCER: &str = "no producer";

/// A number of points that the lists of the registration have no room for.
const COUNT_AT_THE_END: &str = "number of points at the end of its range";

/// A key that is too great is too great for the sum of keys as well.
const KEY_ABOVE: &str = "key above 10000";

/// A place so great that its day may be any.
const PLACE_AT_THE_END: &str = "place at the end of its range";

/// The ways that cannot break their rule alone.
pub const WITH_OTHERS: [&str; 4] = [NO_PRODUCER, COUNT_AT_THE_END, KEY_ABOVE, PLACE_AT_THE_END];

/// A group of one producer and 63 consumers, each of which names it with the same key.
fn largest(random: &mut Random) -> Registration {
    let mut made = Registration::zeros();
    (made.producers, made.consumers) = (1, 63);
    made.codes = std::array::from_fn(|_| groups::code(random));
    for consumer in 0..63 {
        made.counts[consumer] = 1;
        (made.sources[5 * consumer], made.keys[5 * consumer]) = (1, 100);
    }
    made
}

/// One of the points.
fn point(random: &mut Random, registration: &Registration) -> usize {
    random.place(registration.points())
}

/// The place of a pair that is used: five to a consumer.
fn pair(random: &mut Random, registration: &Registration) -> usize {
    let consumer = random.place(registration.consumers);
    5 * consumer + random.place(registration.counts[consumer] as usize)
}

/// The place of a pair that is not used.
fn unused_pair(random: &mut Random, registration: &Registration) -> Option<usize> {
    let used = |place: usize| place / 5 < registration.consumers && place % 5 < registration.counts[place / 5] as usize;
    let free: Vec<usize> = (0..320).filter(|&place| !used(place)).collect();
    (!free.is_empty()).then(|| random.pick(&free))
}

/// Sets a number of a list that has it, and tells so.
fn set<T>(list: &mut [T], at: usize, number: T) -> bool {
    match list.get_mut(at) {
        Some(place) => {
            *place = number;
            true
        }
        None => false,
    }
}

/// Rules on the number of points and on the iteration.
const COUNTS: &[Break] = &[
    (NO_PRODUCER, |_, kept| {
        kept.service.registration.producers = 0;
        true
    }),
    ("no consumer", |_, kept| {
        let registration = &mut kept.service.registration;
        registration.codes[registration.producers..].fill(0);
        registration.statuses[registration.producers..].fill(0);
        (registration.consumers, registration.counts) = (0, [0; 64]);
        (registration.sources, registration.keys) = ([0; 320], [0; 320]);
        kept.service.state.entries = 0;
        true
    }),
    ("65 points", |random, kept| {
        kept.service.registration = largest(random);
        let registration = &mut kept.service.registration;
        (registration.consumers, registration.counts[63]) = (64, 1);
        (registration.sources[315], registration.keys[315]) = (1, 100);
        kept.service.state.entries = 0;
        true
    }),
    (COUNT_AT_THE_END, |random, kept| {
        let registration = &mut kept.service.registration;
        let count = random.pick(&[64, 65, 320, usize::MAX, usize::MAX / 2 + 1]);
        let side = if random.one_in(2) {
            &mut registration.producers
        } else {
            &mut registration.consumers
        };
        *side = count;
        registration.points() > 64
    }),
    ("iteration above 1", |random, kept| {
        kept.service.registration.iteration = random.pick(&[2, 3, 255]);
        true
    }),
];

/// Rules on codes, statuses and what is not used of them.
const POINTS: &[Break] = &[
    ("false check digit", |random, kept| {
        let at = point(random, &kept.service.registration);
        let code = &mut kept.service.registration.codes[at];
        *code = *code / 10 * 10 + (*code % 10 + random.between(1, 9)) % 10;
        true
    }),
    ("code of other than 18 digits", |random, kept| {
        let at = point(random, &kept.service.registration);
        let short = groups::code_of(random.between(1_000_000_000_000_000, 9_999_999_999_999_999));
        let long = groups::code_of(random.between(100_000_000_000_000_000, 999_999_999_999_999_999));
        set(&mut kept.service.registration.codes, at, random.pick(&[0, short, long]))
    }),
    ("code twice", |random, kept| {
        let registration = &mut kept.service.registration;
        let (one, other) = (point(random, registration), point(random, registration));
        registration.codes[other] = registration.codes[one];
        one != other
    }),
    ("status above 3", |random, kept| {
        let at = point(random, &kept.service.registration);
        set(&mut kept.service.registration.statuses, at, random.pick(&[4, 5, 255]))
    }),
    ("unused code", |random, kept| {
        let at = kept.service.registration.points();
        let number = if random.one_in(2) {
            groups::code(random)
        } else {
            random.pick(&[1, u64::MAX])
        };
        set(&mut kept.service.registration.codes[at..], random.place(64), number)
    }),
    ("unused status", |random, kept| {
        let at = kept.service.registration.points();
        set(
            &mut kept.service.registration.statuses[at..],
            random.place(64),
            random.pick(&[1, 2, 255]),
        )
    }),
    ("unused count", |random, kept| {
        let at = kept.service.registration.consumers;
        set(
            &mut kept.service.registration.counts[at..],
            random.place(64),
            random.pick(&[1, 5, 255]),
        )
    }),
];

/// Rules on the producers named and on keys.
const PAIRS: &[Break] = &[
    ("no producer named", |random, kept| {
        let registration = &mut kept.service.registration;
        let consumer = random.place(registration.consumers);
        registration.counts[consumer] = 0;
        registration.sources[5 * consumer..][..5].fill(0);
        registration.keys[5 * consumer..][..5].fill(0);
        true
    }),
    ("more than 5 producers named", |random, kept| {
        let count = &mut kept.service.registration.counts[random.place(kept.service.registration.consumers)];
        let all_named = *count == 5;
        *count = random.pick(&[6, 7, 255]);
        all_named
    }),
    ("producer unknown", |random, kept| {
        let registration = &mut kept.service.registration;
        let place = pair(random, registration);
        registration.sources[place] = random.pick(&[0, registration.producers as u8 + 1, 65, 255]);
        true
    }),
    ("producer twice", |random, kept| {
        let registration = &mut kept.service.registration;
        let consumer = random.place(registration.consumers);
        let (first, second) = (5 * consumer, 5 * consumer + 1);
        // The producer's keys sum to what they did.
        registration.sources[second] = registration.sources[first];
        registration.keys[second] = 1;
        registration.keys[first] -= 1;
        registration.counts[consumer] > 1 && registration.keys[first] > 0
    }),
    ("key 0", |random, kept| {
        let place = pair(random, &kept.service.registration);
        set(&mut kept.service.registration.keys, place, 0)
    }),
    (KEY_ABOVE, |random, kept| {
        let place = pair(random, &kept.service.registration);
        set(&mut kept.service.registration.keys, place, random.pick(&[10001, 65535]))
    }),
    ("keys above 10000", |random, kept| {
        let registration = &mut kept.service.registration;
        let place = pair(random, registration);
        let source = registration.sources[place];
        let of_source = |at: &usize| registration.sources[*at] == source && *at != place;
        let others: u32 = (0..320).filter(of_source).map(|at| registration.keys[at] as u32).sum();
        registration.keys[place] = (10001 - others.min(10000)) as u16;
        (1..=10000).contains(&others)
    }),
    ("unused producer's number", |random, kept| {
        match unused_pair(random, &kept.service.registration) {
            Some(place) => set(&mut kept.service.registration.sources, place, random.pick(&[1, 2, 255])),
            None => false,
        }
    }),
    ("unused key", |random, kept| {
        match unused_pair(random, &kept.service.registration) {
            Some(place) => set(
                &mut kept.service.registration.keys,
                place,
                random.pick(&[1, 10000, 65535]),
            ),
            None => false,
        }
    }),
];

/// Rules on the record's own numbers.
const RECORD: &[Break] = &[
    ("P above the last stamp", |random, kept| {
        let State { last, .. } = kept.service.state;
        kept.service.state.kept_stamp = random.pick(&[last + 1, STAMP_MOST + 1, u64::MAX]);
        true
    }),
    ("last stamp above its limit", |random, kept| {
        kept.service.state.last = random.pick(&[STAMP_MOST + 1, u64::MAX, 1 << 63]);
        true
    }),
    ("K above the last day", |random, kept| {
        kept.service.state.entries = 0;
        kept.service.state.kept_day = random.pick(&[DAYS, DAYS + 1, u64::MAX, 1 << 63]);
        true
    }),
    ("more entries than the list holds", |random, kept| {
        let room = kept.journal.len() / 3;
        let most = usize::MAX;
        kept.service.state.entries = random.pick(&[room + 1, most, most / 3, most / 3 + 1, most / 2 + 1, 1 << 62]);
        true
    }),
];

/// An entry of the journal, if it has one: where its three numbers begin.
fn entry(random: &mut Random, kept: &Kept) -> Option<usize> {
    (kept.service.state.entries > 0).then(|| 3 * random.place(kept.service.state.entries))
}

/// Replaces a number of an entry: 0 for its stamp, 1 its place, 2 its magnitude.
fn replace(
    random: &mut Random,
    kept: &mut Kept,
    which: usize,
    number: fn(&mut Random, &Kept, u64) -> Option<u64>,
) -> bool {
    let Some(at) = entry(random, kept) else { return false };
    match number(random, kept, kept.journal[at + which]) {
        Some(wrong) => set(&mut kept.journal, at + which, wrong),
        None => false,
    }
}

/// Rules on the journal's entries.
const ENTRIES: &[Break] = &[
    ("stamp 0", |_, kept| {
        let any = kept.service.state.entries > 0;
        any && set(&mut kept.journal, 0, 0)
    }),
    ("stamp above the last", |random, kept| {
        let State { entries, last, .. } = kept.service.state;
        entries > 0 && set(&mut kept.journal, 3 * entries - 3, random.pick(&[last + 1, u64::MAX]))
    }),
    ("stamps that do not rise", |random, kept| {
        let Some(at) = entry(random, kept) else { return false };
        let before = if at >= 3 { kept.journal[at - 3] } else { return false };
        kept.journal[at] = random.pick(&[before, before - before / 2, 1]).max(1);
        kept.journal[at] <= before
    }),
    ("entry of a wrong point", |random, kept| {
        replace(random, kept, 1, |random, kept, place| {
            let points = kept.service.registration.points() as u64;
            let point = random.pick(&[points, points + 1, 1 << 32]);
            Some(point * DAYS * 100 + place % (DAYS * 100))
        })
    }),
    (PLACE_AT_THE_END, |random, kept| {
        replace(random, kept, 1, |random, _, _| {
            Some(random.pick(&[u64::MAX, u64::MAX - 99, 1 << 63]))
        })
    }),
    ("entry of a day below K", |random, kept| {
        let Some(at) = entry(random, kept) else { return false };
        let day = kept.journal[at + 1] / 100 % DAYS;
        kept.service.state.kept_day = day + 1;
        (0..kept.service.state.entries).all(|i| 3 * i == at || kept.journal[3 * i + 1] / 100 % DAYS > day)
            && day + 1 < DAYS
    }),
    ("entry of a quarter that its day lacks", |random, kept| {
        replace(random, kept, 1, |random, _, place| {
            let quarters = second::calendar::quarters(place / 100 % DAYS)?;
            let wrong = (quarters < 100).then(|| random.between(quarters, 99))?;
            Some(place / 100 * 100 + wrong)
        })
    }),
    ("magnitude above its limit", |random, kept| {
        replace(random, kept, 2, |random, _, _| {
            Some(random.pick(&[100_000_000, 100_000_001, u64::MAX, 1 << 63]))
        })
    }),
];

/// Every rule, with the way in which it is broken.
pub fn breaks() -> Vec<Break> {
    [COUNTS, POINTS, PAIRS, RECORD, ENTRIES].concat()
}

/// Brings the record's numbers to the ends that are allowed: nothing is damaged by it.
pub fn to_the_ends(random: &mut Random, kept: &mut Kept) {
    let state = &mut kept.service.state;
    match random.below(4) {
        0 => state.last = STAMP_MOST,
        1 => state.kept_stamp = state.last,
        2 => (state.last, state.kept_stamp) = (STAMP_MOST, STAMP_MOST),
        _ if state.entries == 0 => state.kept_day = DAYS - 1,
        _ => {
            let earliest = (0..state.entries).map(|i| kept.journal[3 * i + 1] / 100 % DAYS).min();
            state.kept_day = earliest.unwrap_or(0);
        }
    }
}

#[cfg(test)]
mod tests {
    use super::*;
    use crate::library;
    use second::registration::code_right;

    /// The numbers of a registration that are used: how many points, and which places of pairs.
    fn used(registration: &Registration) -> (usize, Vec<usize>) {
        let consumers = 0..registration.consumers.min(64);
        let places = consumers.flat_map(|c| (0..registration.counts[c].min(5) as usize).map(move |p| 5 * c + p));
        (registration.points().min(64), places.collect())
    }

    /// The rules on points and keys that are broken.
    fn of_registration(registration: &Registration) -> Vec<&'static str> {
        let Registration {
            producers,
            consumers,
            iteration,
            codes,
            statuses,
            counts,
            sources,
            keys,
        } = registration;
        let (points, places) = used(registration);
        let key_sum = |source: u8| {
            places
                .iter()
                .filter(|&&at| sources[at] == source)
                .map(|&at| keys[at] as u64)
                .sum()
        };
        let twice = |&at: &usize| (at / 5 * 5..at).any(|before| sources[before] == sources[at] && sources[at] > 0);
        let idle = |at: &usize| !places.contains(at);
        let rules = [
            (
                "points",
                *producers == 0 || *consumers == 0 || registration.points() > 64,
            ),
            ("iteration", *iteration > 1),
            ("code", codes[..points].iter().any(|&code| !code_right(code))),
            ("code twice", (0..points).any(|at| codes[..at].contains(&codes[at]))),
            ("status", statuses[..points].iter().any(|&status| status > 3)),
            (
                "count",
                counts[..(*consumers).min(64)]
                    .iter()
                    .any(|count| !(1..=5).contains(count)),
            ),
            (
                "producer",
                places
                    .iter()
                    .any(|&at| sources[at] == 0 || sources[at] as usize > *producers),
            ),
            ("producer twice", places.iter().any(twice)),
            ("key", places.iter().any(|&at| !(1..=10000).contains(&keys[at]))),
            (
                "keys",
                (1..=64).any(|source| {
                    let sum: u64 = key_sum(source);
                    sum > 10000
                }),
            ),
            ("unused code", codes[points..].iter().any(|&code| code > 0)),
            ("unused status", statuses[points..].iter().any(|&status| status > 0)),
            (
                "unused count",
                counts[(*consumers).min(64)..].iter().any(|&count| count > 0),
            ),
            ("unused source", (0..320).filter(idle).any(|at| sources[at] > 0)),
            ("unused key", (0..320).filter(idle).any(|at| keys[at] > 0)),
        ];
        rules.into_iter().filter(|rule| rule.1).map(|rule| rule.0).collect()
    }

    /// The rules on the record's numbers and on the entries that are broken.
    fn of_journal(kept: &Kept) -> Vec<&'static str> {
        let State {
            last,
            kept_stamp,
            kept_day,
            entries,
        } = kept.service.state;
        let room = kept.journal.len() / 3;
        let held: Vec<&[u64]> = kept
            .journal
            .chunks_exact(3)
            .take(if entries > room { 0 } else { entries })
            .collect();
        let stamps: Vec<u64> = held.iter().map(|entry| entry[0]).collect();
        let points = kept.service.registration.points() as u64;
        let day = |entry: &[u64]| entry[1] / 100 % DAYS;
        let lacks = |entry: &&[u64]| second::calendar::quarters(day(entry)).unwrap() < entry[1] % 100 + 1;
        let rules = [
            ("P", kept_stamp > last),
            ("last", last > STAMP_MOST),
            ("K", kept_day >= DAYS),
            ("room", entries > room),
            ("stamp", stamps.iter().any(|stamp| !(1..=last).contains(stamp))),
            ("rising", stamps.windows(2).any(|two| two[0] >= two[1])),
            ("point", held.iter().any(|entry| entry[1] / 100 / DAYS >= points)),
            ("day", held.iter().any(|entry| day(entry) < kept_day)),
            ("quarter", held.iter().any(lacks)),
            ("magnitude", held.iter().any(|entry| entry[2] > 99_999_999)),
        ];
        rules.into_iter().filter(|rule| rule.1).map(|rule| rule.0).collect()
    }

    #[test]
    fn each_way_breaks_one_rule() {
        let mut rules = std::collections::BTreeSet::new();
        for (seed, rule) in (0..40).flat_map(|seed| breaks().into_iter().map(move |rule| (seed, rule))) {
            let (sound, kept) = library::broken(&mut Random::new(seed), rule);
            assert_eq!(
                [of_registration(&sound.service.registration), of_journal(&sound)].concat(),
                [""; 0]
            );
            let broken = [of_registration(&kept.service.registration), of_journal(&kept)].concat();
            assert!(!broken.is_empty(), "{} breaks nothing", rule.0);
            if !WITH_OTHERS.contains(&rule.0) {
                assert_eq!(broken.len(), 1, "{} breaks {broken:?}", rule.0);
                rules.extend(broken);
            }
        }
        // 15 rules of the registration, 10 of record and journal: each is broken alone by some way.
        assert_eq!(rules.len(), 25, "{rules:?}");
    }
}
