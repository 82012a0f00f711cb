//! One service for years: submissions, clears and evaluations through the library under a clock that is set back now
//! and then, each accepted answer compared with the book. Nothing may be altered by a refused call, and no call may be
//! refused by 15.

use crate::events;
use crate::groups;
use crate::matches::{near_changeover, Matches};
use crate::origins::{self, Origins};
use crate::random::Random;
use crate::shown::{matched, View};
use crate::sides::{self, Event};
use second::book::Book;
use second::calendar;
use second::evaluation::result_size;
use second::refusal;
use second::registration::Registration;
use std::collections::VecDeque;

/// How many calls the tests make.
pub const CALLS: u64 = 1_000_000;

/// How many entries the journal has room for.
const ROOM: usize = 1200;

/// How often at least each origin is to occur in all the calls of the tests.
const ORIGINS_LEAST: u64 = 4_000;

/// How often at least each kind of mean that is matched over a changeover is to occur in them.
const MATCHES_LEAST: u64 = 10;

/// The quarters that the readings of a year are of, by turns: few, so that readings meet, and mostly an hour apart around
/// the hours that clocks leave out or have twice.
const QUARTERS: [[u64; 4]; 4] = [[9, 13, 17, 92], [12, 16, 20, 96], [1, 8, 9, 13], [13, 17, 21, 25]];

/// How many past evaluations are asked again.
const REMEMBERED: usize = 200;

/// An evaluation that was accepted: its day, quarter and stamp, and all its numbers, origins too, with the round count.
type Evaluated = (u64, u64, u64, Vec<u64>);

/// A service with its journal, the copy that a refused call is held to, the book, and where the world stands.
struct Soak {
    random: Random,
    service: share_library::Service,
    journal: Vec<u64>,
    service_before: share_library::Service,
    journal_before: Vec<u64>,
    book: Book,
    size: usize,
    clock: u64,
    today: u64,
    remembered: VecDeque<Evaluated>,
    seen: Seen,
}

/// What was seen.
#[derive(Default, Debug)]
struct Seen {
    calls: u64,
    new_readings: u64,
    repeats: u64,
    evaluations: u64,
    origins: Origins,
    matches: Matches,
    asked_again: u64,
    clears: u64,
    dropped: u64,
    clock_set_back: u64,
    refused: [u64; 17],
}

/// A group of 6 to 12 points that iterates, with points of status 0 and of one above.
fn registration(random: &mut Random) -> Registration {
    loop {
        let made = groups::registration(random);
        let statuses = &made.statuses[..made.points()];
        let mixed = statuses.contains(&0) && statuses.iter().any(|&status| status > 0);
        if (6..=12).contains(&made.points()) && made.iteration == 1 && made.consumers > 2 && mixed {
            return made;
        }
    }
}

impl Soak {
    /// A fresh service with its journal of any numbers, and its book.
    fn new(seed: u64) -> Soak {
        let mut random = Random::new(seed);
        let registration = registration(&mut random);
        let service =
            share_library::Service::fresh(&sides::lent_registration(&registration)).expect("a right registration");
        let journal: Vec<u64> = (0..3 * ROOM).map(|_| random.number()).collect();
        Soak {
            random,
            service,
            service_before: service,
            journal_before: journal.clone(),
            journal,
            book: Book::new(&registration),
            size: result_size(&registration),
            clock: 1000,
            today: 0,
            remembered: VecDeque::new(),
            seen: Seen::default(),
        }
    }

    /// The clock goes on, or is set back; about every forty calls a day ends.
    fn tick(&mut self) {
        self.clock += self.random.below(60);
        if self.random.one_in(300) {
            let most = if self.random.one_in(50) { 200_000 } else { 5_000 };
            self.clock = self.clock.saturating_sub(self.random.below(most));
            self.seen.clock_set_back += 1;
        }
        if self.random.one_in(40) && self.today + 1 < calendar::DAYS {
            self.today += 1;
        }
    }

    /// The day on which clocks changed last or one of the four Sundays after it, if that is not long past.
    fn day_near_changeover(&mut self) -> Option<u64> {
        let days = events::changeover_days();
        let passed = days.partition_point(|&day| day <= self.today);
        let last = days[..passed].last()?;
        let weeks = (self.today - last) / 7;
        (weeks < 6).then(|| last + 7 * self.random.between(0, weeks.min(4)))
    }

    /// A day of late: today, a week or some weeks before, rarely one long past; often one near a changeover.
    fn day(&mut self) -> u64 {
        if self.random.one_in(2) {
            if let Some(day) = self.day_near_changeover() {
                return day;
            }
        }
        let before = match self.random.below(10) {
            0..=3 => 0,
            4..=8 => 7 * self.random.below(6),
            _ => self.random.below(80),
        };
        self.today.saturating_sub(before)
    }

    /// One of the quarters of a day's year, rarely one of the last that days have.
    fn quarter(&mut self, day: u64) -> u64 {
        if self.random.one_in(20) {
            return self.random.pick(&[92, 96, 97, 100]);
        }
        let year = calendar::date_of(day).map_or(0, |date| date / 10000);
        self.random.pick(&QUARTERS[year as usize % QUARTERS.len()])
    }

    /// A reading, often with a value that its quarter hour has had.
    fn submission(&mut self) -> Event {
        let registration = &self.service.registration;
        let point = self.random.place(registration.producers + registration.consumers);
        let magnitude = if self.random.one_in(50) {
            100_000_000
        } else {
            self.random.pick(&[0, 1, 7, 100, 2501, 99_999_999])
        };
        let value = if point < registration.producers {
            magnitude
        } else {
            -magnitude
        };
        let code = registration.codes[point];
        let day = self.day();
        Event::Submission {
            clock: self.clock,
            code,
            day,
            quarter: self.quarter(day),
            value,
        }
    }

    /// A stamp from the kept one to the last, rarely one later.
    fn stamp(&mut self) -> u64 {
        let state = self.service.state;
        match self.random.below(20) {
            0 => state.last + 1,
            1 => state.numbers.kept_stamp,
            2..=6 => state.last,
            _ => self.random.between(state.numbers.kept_stamp, state.last),
        }
    }

    /// An evaluation of a quarter hour of late, or one that was accepted before.
    fn evaluation(&mut self) -> Event {
        if self.random.one_in(4) && !self.remembered.is_empty() {
            let at = self.random.place(self.remembered.len());
            let (day, quarter, until, _) = self.remembered[at];
            return Event::Evaluation { day, quarter, until };
        }
        let day = self.day();
        let quarter = self.quarter(day);
        Event::Evaluation {
            day,
            quarter,
            until: self.stamp(),
        }
    }

    /// A clear that leaves some seventy days.
    fn clear(&mut self) -> Event {
        let kept = self.service.state.numbers.kept_day;
        let day = kept.max(self.today.saturating_sub(70 + self.random.below(10)));
        let day = if self.random.one_in(400) { day + 40 } else { day };
        Event::Clear {
            day,
            stamp: self.stamp(),
        }
    }

    /// The next call.
    fn event(&mut self) -> Event {
        match self.random.below(1000) {
            0..=8 => self.clear(),
            9..=600 => self.submission(),
            _ => self.evaluation(),
        }
    }

    /// A refused call altered nothing, and nothing was damaged.
    fn refused(&mut self, answer: u64) -> Result<(), String> {
        self.seen.refused[answer as usize] += 1;
        if answer == refusal::DAMAGED {
            return Err("a call was refused by 15".to_string());
        }
        if self.service != self.service_before || self.journal != self.journal_before {
            return Err(format!("a call refused by {answer} altered record or journal"));
        }
        Ok(())
    }

    /// Counts the means of an accepted evaluation that are matched over a changeover.
    fn count_matches(&mut self, (day, quarter, until): (u64, u64, u64), origins: &[u64]) {
        if !near_changeover(day) {
            return;
        }
        let entries = &self.journal[..3 * self.service.state.numbers.entries];
        let slots = matched(day, quarter);
        for point in (0..origins.len()).filter(|&point| (1..=4).contains(&origins[point])) {
            let view = View { entries, point, until };
            self.seen.matches.count(view, &slots, &view.all(&slots));
        }
    }

    /// An accepted evaluation gives the book's numbers, origins too, and those of any accepted one before it.
    fn evaluated(&mut self, (day, quarter, until): (u64, u64, u64), rounds: u64, result: &[u64]) -> Result<(), String> {
        let expected = self.book.result(day, quarter, until);
        let mut numbers = result.to_vec();
        if numbers != expected.numbers() || rounds != expected.outcome.rounds {
            return Err(format!(
                "the library gives {rounds} rounds and {numbers:?}, the book {expected:?}"
            ));
        }
        numbers.push(rounds);
        self.seen.evaluations += 1;
        self.count_matches((day, quarter, until), &expected.origins);
        origins::count(&mut self.seen.origins, expected.origins);
        let before = self
            .remembered
            .iter()
            .find(|past| (past.0, past.1, past.2) == (day, quarter, until));
        match before {
            Some(past) if past.3 != numbers => return Err(format!("{past:?} was given before, now {numbers:?}")),
            Some(_) => self.seen.asked_again += 1,
            None => self.remembered.push_back((day, quarter, until, numbers)),
        }
        if self.remembered.len() > REMEMBERED {
            self.remembered.pop_front();
        }
        Ok(())
    }

    /// An accepted call is held to the book.
    fn accepted(&mut self, event: Event, number: u64, result: &[u64]) -> Result<(), String> {
        match event {
            Event::Submission {
                clock,
                code,
                day,
                quarter,
                value,
            } => {
                let expected = self.book.submit(clock, code, day, quarter, value);
                if number != expected {
                    return Err(format!("the library gives the stamp {number}, the book {expected}"));
                }
                let repeat = self.service.state.numbers.entries == self.service_before.state.numbers.entries;
                *(if repeat {
                    &mut self.seen.repeats
                } else {
                    &mut self.seen.new_readings
                }) += 1;
            }
            Event::Clear { .. } => {
                self.seen.clears += 1;
                self.seen.dropped += number;
            }
            Event::Evaluation { day, quarter, until } => self.evaluated((day, quarter, until), number, result)?,
        }
        self.service_before = self.service;
        self.journal_before.copy_from_slice(&self.journal);
        Ok(())
    }

    /// One call.
    fn step(&mut self) -> Result<(), String> {
        self.tick();
        let event = self.event();
        let mut result = vec![0; self.size];
        let (answer, number) = sides::through_library(&mut self.service, &mut self.journal, event, &mut result);
        self.seen.calls += 1;
        let judged = if answer == 0 {
            self.accepted(event, number, &result)
        } else {
            self.refused(answer)
        };
        judged.map_err(|why| format!("call {}, {event:?}: {why}", self.seen.calls))
    }

    /// Says what was seen too seldom for a run of a million calls.
    fn enough(&self) -> Result<(), String> {
        origins::enough(&self.seen.origins, ORIGINS_LEAST)?;
        if self.seen.matches.counts().iter().any(|&seen| seen < MATCHES_LEAST) {
            return Err(format!("too few over changeovers: {}", self.seen.matches));
        }
        let Seen {
            new_readings,
            repeats,
            evaluations,
            asked_again,
            clears,
            dropped,
            clock_set_back,
            ..
        } = self.seen;
        let least = new_readings.min(repeats).min(evaluations).min(asked_again).min(dropped);
        if least < 20_000 || clears < 5_000 || clock_set_back < 1_000 {
            return Err(format!("too little was seen: {:?}", self.seen));
        }
        Ok(())
    }
}

/// So many calls on one service.
pub fn run(seed: u64, count: u64) -> Result<String, String> {
    let mut soak = Soak::new(seed);
    for _ in 0..count {
        soak.step().map_err(|why| format!("seed {seed}: {why}"))?;
    }
    if count >= CALLS {
        soak.enough().map_err(|why| format!("seed {seed}: {why}"))?;
    }
    let (day, last) = (soak.today, soak.service.state.last);
    Ok(format!(
        "seed {seed}, up to day {day} and stamp {last}, every accepted answer is the book's: {:?}",
        soak.seen
    ))
}
