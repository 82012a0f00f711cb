//! The cells of the table: each call on each group, with so many entries in the journal.

use crate::data::{self, Journal, Reading};
use runs::sides::Event;
use second::registration::Registration;
use second::service::State;

/// What is measured: a call, the group and journal that it starts from, and the answer that it has to give.
pub struct Cell {
    pub name: &'static str,
    pub registration: Registration,
    pub journal: Journal,
    pub call: Event,
    pub answer: u64,
}

/// The producers and consumers of each group.
const GROUPS: [(usize, usize); 2] = [(3, 5), (5, 59)];

/// The numbers of entries for every call.
const ENTRIES: [usize; 3] = [1_000, 10_000, 100_000];

/// The number of entries for the clear alone.
const ENTRIES_CLEARED: usize = 400_000;

/// The most points of a group with several rounds, and the most rounds.
const ITERATED: (usize, u64) = (50, 5);

/// A way to make a cell for a group and a number of entries.
type Maker = fn(&Registration, usize) -> Cell;

impl Cell {
    /// The numbers of the record before the call.
    pub fn state(&self) -> State {
        State {
            last: self.journal.last,
            kept_stamp: 0,
            kept_day: 0,
            entries: self.journal.entries,
        }
    }

    /// The cell in words, for messages.
    pub fn words(&self) -> String {
        format!(
            "{} with {} points and {} entries",
            self.name,
            self.registration.points(),
            self.journal.entries
        )
    }
}

/// The submission of a reading by its point.
fn submission(registration: &Registration, clock: u64, reading: &Reading) -> Event {
    let code = registration.codes[reading.point];
    let value = reading.value(registration);
    Event::Submission {
        clock,
        code,
        day: reading.day,
        quarter: reading.quarter,
        value,
    }
}

/// A cell of a call that has to answer with a number, on a journal of these readings.
fn cell(name: &'static str, registration: &Registration, readings: &[Reading], call: Event, answer: u64) -> Cell {
    Cell {
        name,
        registration: *registration,
        journal: Journal::of(readings),
        call,
        answer,
    }
}

/// The submission of the reading that follows those of the journal: it is stored under the clock's stamp.
fn submit_new(registration: &Registration, entries: usize) -> Cell {
    let readings = data::readings(registration, entries + 1);
    let clock = data::FIRST_STAMP + entries as u64;
    let call = submission(registration, clock, &readings[entries]);
    cell("submit, new", registration, &readings[..entries], call, clock)
}

/// The submission of the reading in the middle of the journal once more: its stamp is told again.
fn submit_repeat(registration: &Registration, entries: usize) -> Cell {
    let readings = data::readings(registration, entries);
    let middle = entries / 2;
    let call = submission(registration, data::FIRST_STAMP + entries as u64, &readings[middle]);
    cell(
        "submit, repeat",
        registration,
        &readings,
        call,
        data::FIRST_STAMP + middle as u64,
    )
}

/// The evaluation, as of the last stamp, of a quarter hour near the journal's end in which the first so many points have
/// no reading and all others have one.
fn evaluate_without(name: &'static str, registration: &Registration, entries: usize, missing: usize) -> Cell {
    let mut readings = data::readings(registration, entries + missing);
    let Reading { day, quarter, .. } = readings[entries + missing - registration.points()];
    readings.retain(|reading| (reading.day, reading.quarter) != (day, quarter) || reading.point >= missing);
    let call = Event::Evaluation {
        day,
        quarter,
        until: data::FIRST_STAMP + entries as u64 - 1,
    };
    let (points_most, rounds_most) = ITERATED;
    let rounds = if registration.points() <= points_most {
        rounds_most.min(registration.consumers as u64)
    } else {
        1
    };
    cell(name, registration, &readings, call, rounds)
}

/// The evaluation of a quarter hour in which all points have a reading.
fn evaluate(registration: &Registration, entries: usize) -> Cell {
    evaluate_without("evaluate", registration, entries, 0)
}

/// The evaluation of one in which one point has none.
fn evaluate_one_missing(registration: &Registration, entries: usize) -> Cell {
    evaluate_without("evaluate, one missing", registration, entries, 1)
}

/// The evaluation of one in which no point has one.
fn evaluate_all_missing(registration: &Registration, entries: usize) -> Cell {
    evaluate_without("evaluate, all missing", registration, entries, registration.points())
}

/// The clear up to day 0 and the last stamp: it drops the half of the entries that are superseded.
fn clear(registration: &Registration, entries: usize) -> Cell {
    let readings = data::corrected_readings(registration, entries);
    let call = Event::Clear {
        day: 0,
        stamp: data::FIRST_STAMP + entries as u64 - 1,
    };
    cell("clear", registration, &readings, call, entries as u64 / 2)
}

/// All cells, each made when it is asked for, in the order of the table.
pub fn all() -> impl Iterator<Item = Cell> {
    let makers: [(Maker, &[usize]); 6] = [
        (submit_new, &[]),
        (submit_repeat, &[]),
        (evaluate, &[]),
        (evaluate_one_missing, &[]),
        (evaluate_all_missing, &[]),
        (clear, &[ENTRIES_CLEARED]),
    ];
    makers.into_iter().flat_map(|(make, more)| {
        GROUPS.into_iter().flat_map(move |(producers, consumers)| {
            let registration = data::group(producers, consumers);
            ENTRIES
                .iter()
                .chain(more)
                .map(move |&entries| make(&registration, entries))
        })
    })
}
