//! The two sides: the library and the second implementation, with one name for a call on a service and its answer.

use second::registration::Registration;
use second::service::{Service, State};
use share_library::calls;

/// A call on a service.
#[derive(Clone, Copy, Debug)]
pub enum Event {
    /// A reading is submitted.
    Submission {
        clock: u64,
        code: u64,
        day: u64,
        quarter: u64,
        value: i64,
    },
    /// The journal is cleared up to a day and a stamp.
    Clear { day: u64, stamp: u64 },
    /// A quarter hour is evaluated as of a stamp.
    Evaluation { day: u64, quarter: u64, until: u64 },
}

/// The answer of a call, 0 where it is accepted, and the number beside it.
pub type Answer = (u64, u64);

/// A registration as the library has it.
pub fn lent_registration(of: &Registration) -> share_library::Registration {
    share_library::Registration {
        producers: of.producers,
        consumers: of.consumers,
        iteration: of.iteration,
        codes: of.codes,
        statuses: of.statuses,
        counts: of.counts,
        sources: of.sources,
        keys: of.keys,
    }
}

/// The changing part of a record as the library has it.
pub fn lent_state(of: &State) -> share_library::State {
    share_library::State {
        last: of.last,
        numbers: share_library::Numbers {
            kept_stamp: of.kept_stamp,
            kept_day: of.kept_day,
            entries: of.entries,
        },
    }
}

/// A record as the library has it.
pub fn lent_service(of: &Service) -> share_library::Service {
    share_library::Service {
        registration: lent_registration(&of.registration),
        state: lent_state(&of.state),
    }
}

/// The answer of a result: a refusal comes with a 0.
pub fn answer(result: Result<u64, u64>) -> Answer {
    match result {
        Ok(number) => (0, number),
        Err(refusal) => (refusal, 0),
    }
}

/// Makes a call through the library.
pub fn through_library(
    service: &mut share_library::Service,
    journal: &mut [u64],
    event: Event,
    result: &mut [u64],
) -> Answer {
    match event {
        Event::Submission {
            clock,
            code,
            day,
            quarter,
            value,
        } => {
            let measurement = share_library::Measurement {
                code,
                day,
                quarter,
                value,
            };
            let given = calls::submit(service, journal, clock, measurement);
            (given.answer, given.stamp)
        }
        Event::Clear { day, stamp } => {
            let given = calls::clear(service, journal, day, stamp);
            (given.answer, given.dropped as u64)
        }
        Event::Evaluation { day, quarter, until } => {
            let given = calls::evaluate(service, journal, day, quarter, until, result);
            (given.answer, given.rounds as u64)
        }
    }
}

/// Makes a call through the second implementation.
pub fn through_second(service: &mut Service, journal: &mut [u64], event: Event, result: &mut [u64]) -> Answer {
    answer(match event {
        Event::Submission {
            clock,
            code,
            day,
            quarter,
            value,
        } => service.submit(journal, clock, code, day, quarter, value),
        Event::Clear { day, stamp } => service.clear(journal, day, stamp),
        Event::Evaluation { day, quarter, until } => service.evaluate(journal, day, quarter, until, result),
    })
}
