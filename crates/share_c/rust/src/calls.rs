//! The calls of the static library, each with its answer as numbers: `answer` is 0 for an accepted call, and else the
//! number of its refusal, with zeros beside it. The caller owns record, journal, result list and buffer, and lends them
//! for the length of a call.

use crate::{Measurement, Registration, Service};

/// The answer of `read`: the registration, zeros where it is refused.
#[repr(C)]
#[derive(Clone, Copy, PartialEq, Eq, Debug)]
pub struct Read {
    pub answer: u64,
    pub registration: Registration,
}

/// The answer of `write`: how many bytes were written.
#[repr(C)]
#[derive(Clone, Copy, PartialEq, Eq, Debug)]
pub struct Written {
    pub answer: u64,
    pub bytes: usize,
}

/// The answer of `fresh`: the record, zeros where it is refused.
#[repr(C)]
#[derive(Clone, Copy, PartialEq, Eq, Debug)]
pub struct Fresh {
    pub answer: u64,
    pub service: Service,
}

/// The answer of `submit`: the stamp of the reading.
#[repr(C)]
#[derive(Clone, Copy, PartialEq, Eq, Debug)]
pub struct Submitted {
    pub answer: u64,
    pub stamp: u64,
}

/// The answer of `clear`: how many entries were dropped.
#[repr(C)]
#[derive(Clone, Copy, PartialEq, Eq, Debug)]
pub struct Cleared {
    pub answer: u64,
    pub dropped: usize,
}

/// The answer of `evaluate`: the round count.
#[repr(C)]
#[derive(Clone, Copy, PartialEq, Eq, Debug)]
pub struct Evaluated {
    pub answer: u64,
    pub rounds: usize,
}

/// The answer of `day` and of `changeover`: the day's number.
#[repr(C)]
#[derive(Clone, Copy, PartialEq, Eq, Debug)]
pub struct Dated {
    pub answer: u64,
    pub day: u64,
}

extern "C" {
    fn share_read(text: *const u8, text_length: usize) -> Read;
    fn share_write(registration: Registration, out: *mut u8, out_length: usize) -> Written;
    fn share_fresh(registration: Registration) -> Fresh;
    fn share_submit(
        service: &mut Service,
        journal: *mut u64,
        journal_length: usize,
        clock: u64,
        measurement: Measurement,
    ) -> Submitted;
    fn share_clear(service: &mut Service, journal: *mut u64, journal_length: usize, day: u64, stamp: u64) -> Cleared;
    fn share_evaluate(
        service: Service,
        journal: *const u64,
        journal_length: usize,
        day: u64,
        quarter: u64,
        until: u64,
        result: *mut u64,
        result_length: usize,
    ) -> Evaluated;
    fn share_day(date: u64) -> Dated;
    fn share_changeover(place: u64) -> Dated;
    fn share_date(day: u64) -> u64;
    fn share_quarters(day: u64) -> u64;
}

/// Reads a registration from its text.
pub fn read(text: &[u8]) -> Read {
    unsafe { share_read(text.as_ptr(), text.len()) }
}

/// Writes a registration's text to the front of a buffer.
pub fn write(registration: &Registration, out: &mut [u8]) -> Written {
    unsafe { share_write(*registration, out.as_mut_ptr(), out.len()) }
}

/// A service made from a registration alone.
pub fn fresh(registration: &Registration) -> Fresh {
    unsafe { share_fresh(*registration) }
}

/// A submission: record and journal are altered in place.
pub fn submit(service: &mut Service, journal: &mut [u64], clock: u64, measurement: Measurement) -> Submitted {
    unsafe { share_submit(service, journal.as_mut_ptr(), journal.len(), clock, measurement) }
}

/// A clear: record and journal are altered in place.
pub fn clear(service: &mut Service, journal: &mut [u64], day: u64, stamp: u64) -> Cleared {
    unsafe { share_clear(service, journal.as_mut_ptr(), journal.len(), day, stamp) }
}

/// The evaluation of a quarter hour as of a stamp.
pub fn evaluate(
    service: &Service,
    journal: &[u64],
    day: u64,
    quarter: u64,
    until: u64,
    result: &mut [u64],
) -> Evaluated {
    unsafe {
        share_evaluate(
            *service,
            journal.as_ptr(),
            journal.len(),
            day,
            quarter,
            until,
            result.as_mut_ptr(),
            result.len(),
        )
    }
}

/// The day of a date YYYYMMDD.
pub fn day(date: u64) -> Dated {
    unsafe { share_day(date) }
}

/// The day at a place of the table of changeover days; places count from 0.
pub fn changeover(place: u64) -> Dated {
    unsafe { share_changeover(place) }
}

/// The date YYYYMMDD of a day, 0 where the calendar has no such day.
pub fn date(day: u64) -> u64 {
    unsafe { share_date(day) }
}

/// How many quarter hours a day has, 0 where the calendar has no such day.
pub fn quarters(day: u64) -> u64 {
    unsafe { share_quarters(day) }
}
