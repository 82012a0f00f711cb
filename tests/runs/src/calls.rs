//! A call made through the library and through the second implementation, with all that it gives and leaves compared.

use crate::named::Named;
use crate::shown::View;
use crate::sides::{self, Event};
use second::registration::Registration;
use second::registration_text;
use second::service::{Service, State};
use share_library::{calls, Refusal};

/// A call, with what is lent to it beside record and journal.
#[derive(Clone, Debug)]
pub enum Call {
    Read {
        text: Vec<u8>,
    },
    Write {
        registration: Box<Registration>,
        buffer: Vec<u8>,
    },
    Fresh {
        registration: Box<Registration>,
    },
    On {
        event: Event,
        result: Vec<u64>,
    },
}

/// A record of the second implementation and its journal.
#[derive(Clone)]
pub struct Kept {
    pub service: Service,
    pub journal: Vec<u64>,
}

impl Kept {
    /// The part of the journal that holds entries, as far as there is room for them.
    pub fn entries(&self) -> &[u64] {
        let room = self.journal.len() / 3;
        &self.journal[..3 * self.service.state.entries.min(room)]
    }

    /// These entries, seen for a point as of a stamp.
    pub fn view(&self, point: usize, until: u64) -> View<'_> {
        View {
            entries: self.entries(),
            point,
            until,
        }
    }

    /// Makes an event's call through the second implementation.
    pub fn make(&mut self, event: Event, result: &mut [u64]) -> sides::Answer {
        sides::through_second(&mut self.service, &mut self.journal, event, result)
    }
}

/// A record and a journal on both sides, and the result list as the newest call on them left it.
pub struct Both {
    service: share_library::Service,
    journal: Vec<u64>,
    second: Kept,
    result: Vec<u64>,
}

/// Gives the answer where both sides are the same, and else says what differs.
fn same<T: PartialEq + std::fmt::Debug>(what: &str, answer: u64, library: T, second: T) -> Result<u64, String> {
    if library == second {
        return Ok(answer);
    }
    Err(format!(
        "{what} differs:\nlibrary: {library:?}\nsecond implementation: {second:?}"
    ))
}

/// Reads a text on both sides; what is accepted is written back too, and must be the text.
fn read(text: &[u8]) -> Result<u64, String> {
    let library = calls::read(text);
    let (answer, registration) = match registration_text::read(text) {
        Ok(registration) => (0, registration),
        Err(refusal) => (refusal, Registration::zeros()),
    };
    same("the answer", answer, library.answer, answer)?;
    same(
        "the registration",
        answer,
        library.registration,
        sides::lent_registration(&registration),
    )?;
    if answer != 0 {
        return Ok(answer);
    }
    let mut buffer = vec![0; share_library::TEXT_MOST];
    let bytes = calls::write(&library.registration, &mut buffer).bytes;
    same("the text written back", answer, &buffer[..bytes], text)
}

/// Writes a registration on both sides.
fn write(registration: &Registration, buffer: &[u8]) -> Result<u64, String> {
    let (mut library, mut second) = (buffer.to_vec(), buffer.to_vec());
    let written = calls::write(&sides::lent_registration(registration), &mut library);
    let expected = sides::answer(registration_text::write(registration, &mut second).map(|bytes| bytes as u64));
    same(
        "the answer of the writer",
        expected.0,
        (written.answer, written.bytes as u64),
        expected,
    )?;
    same("the buffer", expected.0, library, second)
}

/// Makes a fresh service on both sides; a refused one is a record of zeros.
fn fresh(registration: &Registration) -> Result<u64, String> {
    let library = calls::fresh(&sides::lent_registration(registration));
    let zeros = State {
        last: 0,
        kept_stamp: 0,
        kept_day: 0,
        entries: 0,
    };
    let (answer, service) = match Service::fresh(registration) {
        Ok(service) => (0, service),
        Err(refusal) => (
            refusal,
            Service {
                registration: Registration::zeros(),
                state: zeros,
            },
        ),
    };
    same("the answer of fresh", answer, library.answer, answer)?;
    same(
        "the fresh record",
        answer,
        library.service,
        sides::lent_service(&service),
    )
}

impl Both {
    /// The same record and journal on both sides.
    pub fn new(start: &Kept) -> Both {
        let service = sides::lent_service(&start.service);
        Both {
            service,
            journal: start.journal.clone(),
            second: start.clone(),
            result: Vec::new(),
        }
    }

    /// Makes an event's call on both sides, and compares answer, record, journal and result list whole.
    fn on(&mut self, event: Event, result: &[u64]) -> Result<u64, String> {
        let (mut results, mut expected) = (result.to_vec(), result.to_vec());
        let given = sides::through_library(&mut self.service, &mut self.journal, event, &mut results);
        let wanted = self.second.make(event, &mut expected);
        let second = &self.second.service;
        same("the answer", wanted.0, given, wanted)?;
        same(
            "the record's changing part",
            wanted.0,
            self.service.state,
            sides::lent_state(&second.state),
        )?;
        let registration = sides::lent_registration(&second.registration);
        same(
            "the record's registration",
            wanted.0,
            self.service.registration,
            registration,
        )?;
        same("the journal", wanted.0, &self.journal, &self.second.journal)?;
        same("the result list", wanted.0, &results, &expected)?;
        self.result = expected;
        match event {
            Event::Evaluation { day, quarter, until } if wanted.0 == 0 => self.by_name(day, quarter, until),
            _ => Ok(wanted.0),
        }
    }

    /// Makes an accepted evaluation's call by the package's method, and compares all that its result says by name.
    fn by_name(&self, day: u64, quarter: u64, until: u64) -> Result<u64, String> {
        let mut list = vec![0; self.result.len()];
        let registration = &self.second.service.registration;
        let codes = &registration.codes[..registration.points()];
        let given = self.service.evaluate(&self.journal, day, quarter, until, &mut list);
        let named = given.map(|evaluation| Named::of_package(&evaluation, codes));
        let expected = Named::of_second(&self.second, day, quarter, until);
        same("the result by name", 0, named.map_err(Refusal::number), Ok(expected))
    }

    /// The record and the journal of the second implementation, as the calls so far left them.
    pub fn second(&self) -> &Kept {
        &self.second
    }

    /// The result list of the newest call on the record, which is the same on both sides.
    pub fn result(&self) -> &[u64] {
        &self.result
    }

    /// Makes a call on both sides: its answer, or what differs.
    pub fn make(&mut self, call: &Call) -> Result<u64, String> {
        match call {
            Call::Read { text } => read(text),
            Call::Write { registration, buffer } => write(registration, buffer),
            Call::Fresh { registration } => fresh(registration),
            Call::On { event, result } => self.on(*event, result),
        }
    }
}
