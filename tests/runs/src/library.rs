//! Calls through the library and through the second implementation: on services as they grow, on damaged ones, and on
//! texts.

use crate::calls::{Both, Call, Kept};
use crate::damage::{self, Break};
use crate::edges::Edges;
use crate::events::{self, Slots};
use crate::groups;
use crate::lines;
use crate::origins::{self, Origins};
use crate::random::Random;
use crate::sheets;
use crate::sides::Event;
use crate::smaller;
use second::evaluation::result_size;
use second::refusal;
use second::registration::Registration;
use second::service::Service;

/// How many rounds the tests compare.
pub const ROUNDS: u64 = 180;

/// How many calls they are to have at least, and how many of these on damaged records and journals.
const CALLS_LEAST: (u64, u64) = (300_000, 30_000);

/// How often at least each origin and each edge is to occur, and a damaged registration to be written to no byte and to
/// one.
const CASES_LEAST: u64 = 2_000;

/// A record, a journal and the calls that are made on them.
struct Scenario {
    start: Kept,
    calls: Vec<Call>,
    /// Whether every call has to be refused by 15.
    damaged: bool,
}

/// What was seen: how often each answer, how many calls, how many on damaged records and journals; the origins of the
/// values in accepted evaluations and their edges; how often a damaged registration was written to no byte, and to one.
#[derive(Default)]
struct Seen {
    answers: [u64; 17],
    calls: u64,
    damaged: u64,
    origins: Origins,
    edges: Edges,
    short: [u64; 2],
}

impl Seen {
    /// Counts a call that both sides answered alike, by what they have now.
    fn count(&mut self, both: &Both, call: &Call, answer: u64, damaged: bool) {
        self.answers[answer as usize] += 1;
        self.calls += 1;
        self.damaged += u64::from(damaged);
        match call {
            Call::Write { buffer, .. } if damaged && buffer.len() < 2 => self.short[buffer.len()] += 1,
            Call::On {
                event: Event::Evaluation { day, quarter, until },
                ..
            } if answer == 0 => {
                let kept = both.second();
                let origins = origins::of_result(&kept.service.registration, both.result());
                origins::count(&mut self.origins, origins.iter().copied());
                self.edges.count(kept, *day, *quarter, *until);
            }
            _ => (),
        }
    }

    /// Says what was seen too seldom for all the rounds of the tests.
    fn enough(&self) -> Result<(), String> {
        if let Some(missing) = (0..17).find(|&answer| self.answers[answer] == 0) {
            return Err(format!("no call was answered by {missing}"));
        }
        if self.calls < CALLS_LEAST.0 || self.damaged < CALLS_LEAST.1 {
            return Err(format!(
                "{} calls and {} on damaged ones are too few",
                self.calls, self.damaged
            ));
        }
        let cases = [&self.origins[..], &self.edges.counts(), &self.short].concat();
        if cases.iter().any(|&seen| seen < CASES_LEAST) {
            return Err(format!(
                "too few: origins 0 to 6: {:?}; {}; writes of a damaged registration to no byte and to one: {:?}",
                self.origins, self.edges, self.short
            ));
        }
        Ok(())
    }
}

/// How many numbers a journal has: none to ten, or room for a few, some or many entries, in threes or not.
fn journal_length(random: &mut Random) -> u64 {
    match random.below(10) {
        0 | 1 => random.between(0, 10),
        2..=4 => random.between(10, 60),
        9 if random.one_in(10) => random.between(1000, 3000),
        _ => random.between(60, 300),
    }
}

/// A fresh service, and a journal with any numbers in it.
fn fresh(random: &mut Random) -> Kept {
    let registration = groups::registration(random);
    let length = journal_length(random);
    let journal = (0..length)
        .map(|_| {
            if random.one_in(2) {
                random.number()
            } else {
                random.below(5)
            }
        })
        .collect();
    Kept {
        service: Service::fresh(&registration).expect("a registration that keeps every rule"),
        journal,
    }
}

/// A fresh service, mostly of a group that is not large.
fn fresh_mostly_small(random: &mut Random) -> Kept {
    loop {
        let kept = fresh(random);
        if kept.service.registration.points() <= 20 || random.one_in(4) {
            return kept;
        }
    }
}

/// A result list: long enough, just long enough, one too short, without room for the origins, any too short, or empty;
/// with any numbers in it.
fn result_list(random: &mut Random, registration: &Registration) -> Vec<u64> {
    let size = result_size(registration);
    let length = match random.below(16) {
        0 => 0,
        1 | 2 => size - 1,
        3 => size - registration.points(),
        4 => random.place(size),
        5..=11 => size,
        _ => size + random.place(10),
    };
    vec![random.number(); length]
}

/// An event on a service as it stands, with a result list.
fn on(random: &mut Random, kept: &Kept, slots: &Slots) -> Call {
    let event = events::event(random, kept, slots);
    Call::On {
        event,
        result: result_list(random, &kept.service.registration),
    }
}

/// Calls one after another on a service that grows.
fn growing(random: &mut Random, count: u64) -> Scenario {
    let mut kept = fresh(random);
    if random.one_in(10) {
        damage::to_the_ends(random, &mut kept);
    }
    let start = kept.clone();
    let slots = events::slots(random);
    let mut made = Vec::new();
    for _ in 0..count {
        let call = on(random, &kept, &slots);
        if let Call::On { event, result } = &call {
            kept.make(*event, &mut result.clone());
        }
        made.push(call);
    }
    Scenario {
        start,
        calls: made,
        damaged: false,
    }
}

/// A service that has grown, with its entries.
fn grown(random: &mut Random) -> Kept {
    let scenario = growing(random, 15);
    let mut kept = scenario.start;
    for call in &scenario.calls {
        if let Call::On { event, result } = call {
            kept.make(*event, &mut result.clone());
        }
    }
    kept
}

/// A service that has grown, and the same with one rule broken.
pub fn broken(random: &mut Random, (_, break_rule): Break) -> (Kept, Kept) {
    loop {
        let sound = grown(random);
        let mut kept = sound.clone();
        if break_rule(random, &mut kept) {
            return (sound, kept);
        }
    }
}

/// Calls on a service with one rule broken, by arguments that suit the sound one and by others; where the rule is one
/// of the registration, this is written and made a service of.
fn damaged(random: &mut Random, rule: Break) -> Scenario {
    let (sound, kept) = broken(random, rule);
    let (slots, other) = (events::slots(random), fresh(random));
    let mut made = Vec::new();
    for suits in [&sound, &sound, &sound, &sound, &other, &other] {
        let event = events::event(random, suits, &slots);
        made.push(Call::On {
            event,
            result: vec![7; random.place(500)],
        });
    }
    let registration = Box::new(kept.service.registration);
    if registration.damaged() {
        made.push(Call::Fresh {
            registration: registration.clone(),
        });
        for length in [0, 1, random.place(5000)] {
            made.push(Call::Write {
                registration: registration.clone(),
                buffer: vec![7; length],
            });
        }
    }
    Scenario {
        start: kept,
        calls: made,
        damaged: true,
    }
}

/// Calls on a record whose numbers stand at the ends of what is allowed.
fn at_the_ends(random: &mut Random) -> Scenario {
    let mut kept = grown(random);
    damage::to_the_ends(random, &mut kept);
    let slots = events::slots(random);
    let made = (0..6).map(|_| on(random, &kept, &slots)).collect();
    Scenario {
        start: kept,
        calls: made,
        damaged: false,
    }
}

/// Readings of up to three points in the four weeks before one quarter hour, in any order and with corrections, and
/// evaluations of that quarter hour as of any stamp.
fn earlier_weeks(random: &mut Random) -> Scenario {
    let mut kept = fresh_mostly_small(random);
    kept.journal.resize(random.between(60, 120) as usize, 7);
    let slots = events::slots(random);
    let focus = events::focus(random, &mut kept.service.registration, &slots);
    let start = kept.clone();
    let mut made = Vec::new();
    for _ in 0..random.between(20, 60) {
        let event = events::event_in(random, &kept.service, &slots, &focus);
        let result = if random.one_in(8) {
            result_list(random, &kept.service.registration)
        } else {
            vec![7; result_size(&kept.service.registration)]
        };
        kept.make(event, &mut result.clone());
        made.push(Call::On { event, result });
    }
    Scenario {
        start,
        calls: made,
        damaged: false,
    }
}

/// A text of a registration, right, broken or spoilt.
fn text(random: &mut Random, registration: &Registration) -> Vec<u8> {
    let mut text = match random.below(3) {
        0 => sheets::right_text(registration),
        _ => sheets::broken_text(random, registration),
    };
    if random.one_in(3) && !text.is_empty() {
        lines::spoil(random, &mut text);
    }
    text
}

/// Texts read, registrations written to buffers of every kind of length, and services made of them.
fn texts(random: &mut Random) -> Scenario {
    let mut made = Vec::new();
    for _ in 0..5 {
        let registration = Box::new(groups::registration(random));
        let length = sheets::right_text(&registration).len();
        let room = match random.below(4) {
            0 => random.place(length),
            1 => length - 1,
            2 => length,
            _ => length + random.place(20),
        };
        made.push(Call::Read {
            text: text(random, &registration),
        });
        made.push(Call::Read {
            text: text(random, &registration),
        });
        made.push(Call::Write {
            registration: registration.clone(),
            buffer: vec![random.number() as u8; room],
        });
        made.push(Call::Fresh { registration });
    }
    Scenario {
        start: fresh(random),
        calls: made,
        damaged: false,
    }
}

/// Makes the calls of a scenario on both sides, and counts what was seen; or says what differs.
fn run(start: &Kept, calls: &[Call], damaged: bool, seen: &mut Seen) -> Result<(), String> {
    let mut both = Both::new(start);
    for call in calls {
        let answer = both.make(call)?;
        if damaged && answer != refusal::DAMAGED {
            return Err(format!("a damaged record or journal was answered by {answer}"));
        }
        seen.count(&both, call, answer, damaged);
    }
    Ok(())
}

/// Says what differs: the seed, the fewest calls found that show it, and the service that they are made on.
fn report(seed: u64, what: &str, scenario: &Scenario) -> String {
    let Scenario { start, calls, damaged } = scenario;
    let differ = |calls: &[Call]| run(start, calls, *damaged, &mut Seen::default()).err();
    let fewest = smaller::smallest(calls, 1000, &mut |calls| differ(calls).is_some());
    let why = differ(&fewest).unwrap_or_default();
    let calls: Vec<String> = fewest.iter().map(|call| format!("{call:?}")).collect();
    format!(
        "seed {seed}, {what}: {why}\nThe smallest failing list of calls found:\n{}\non {:?}\nwith the journal {:?}",
        calls.join("\n"),
        start.service,
        start.journal
    )
}

/// Makes a scenario's calls and counts what was seen; or reports what differs.
fn count(seed: u64, what: &str, scenario: &Scenario, seen: &mut Seen) -> Result<(), String> {
    run(&scenario.start, &scenario.calls, scenario.damaged, seen).map_err(|_| report(seed, what, scenario))
}

/// Compares so many rounds of scenarios, the first one that of the seed. In each: services that grow, every rule
/// broken, and texts.
pub fn compare(seed: u64, rounds: u64) -> Result<String, String> {
    let mut seen = Seen::default();
    let breaks = damage::breaks();
    for seed in seed..seed + rounds {
        let random = &mut Random::new(seed);
        for _ in 0..32 {
            count(seed, "a service that grows", &growing(random, 40), &mut seen)?;
            count(
                seed,
                "a record at the ends of its ranges",
                &at_the_ends(random),
                &mut seen,
            )?;
            for _ in 0..2 {
                count(seed, "earlier weeks", &earlier_weeks(random), &mut seen)?;
            }
            count(seed, "texts", &texts(random), &mut seen)?;
        }
        for rule in &breaks {
            count(seed, rule.0, &damaged(random, *rule), &mut seen)?;
        }
    }
    if rounds >= ROUNDS {
        seen.enough()?;
    }
    let Seen {
        answers,
        calls,
        damaged,
        origins,
        edges,
        short,
    } = seen;
    Ok(format!(
        "{calls} calls from seed {seed} on, no difference; {damaged} of them on records and journals damaged in {} \
         ways, {short:?} of these writes to no byte and to one; origins 0 to 6: {origins:?}; {edges}; answers 0 to 16: \
         {answers:?}",
        breaks.len()
    ))
}
