//! The proved server for Rust: safe calls over the static library of crate share_c.
//!
//! [`calls`] has the library's calls as they are: each answers by numbers. The methods of [`Registration`] and [`Service`],
//! [`day`] and [`changeover`] make these calls and give a `Result`, with a [`Refusal`] where a call is refused. An accepted
//! evaluation gives an [`Evaluation`], in which the parts of the result have names.

pub mod calls;
mod evaluation;
mod origin;
mod refusal;

pub use evaluation::{Evaluation, PointResult, Share};
pub use origin::Origin;
pub use refusal::Refusal;

/// A buffer of so many bytes holds the text of every registration.
pub const TEXT_MOST: usize = 4552;

/// A list of so many numbers holds every result.
pub const RESULT_MOST: usize = 423;

/// The table of changeover days has so many entries, two for each year from 2024 to 2099.
pub const CHANGEOVER_COUNT: u64 = 152;

/// A consumer names at most so many producers.
const NAMED_MOST: usize = 5;

/// A group: its points, producers first, and who names whom with which key. What is not used is 0.
///
/// Consumer `c` names `counts[c]` producers, in falling priority, from place `5 * c` on: `sources` has their numbers,
/// counted from 1, and `keys` the keys in hundredths of a percent.
#[repr(C)]
#[derive(Clone, Copy, PartialEq, Eq, Debug)]
pub struct Registration {
    pub producers: usize,
    pub consumers: usize,
    pub iteration: u8,
    pub codes: [u64; 64],
    pub statuses: [u8; 64],
    pub counts: [u8; 64],
    pub sources: [u8; 320],
    pub keys: [u16; 320],
}

/// What is kept of a group beside its registration: kept stamp, kept day, and how many entries the journal has.
#[repr(C)]
#[derive(Clone, Copy, PartialEq, Eq, Debug)]
pub struct Numbers {
    pub kept_stamp: u64,
    pub kept_day: u64,
    pub entries: usize,
}

/// What changes of a service's record: the last stamp given, and the group's numbers.
#[repr(C)]
#[derive(Clone, Copy, PartialEq, Eq, Debug)]
pub struct State {
    pub last: u64,
    pub numbers: Numbers,
}

/// What a submission brings: the code of a point, a day and its quarter, and the value, positive for a supply and negative
/// for a withdrawal.
#[repr(C)]
#[derive(Clone, Copy, PartialEq, Eq, Debug)]
pub struct Measurement {
    pub code: u64,
    pub day: u64,
    pub quarter: u64,
    pub value: i64,
}

/// The record of a service.
#[repr(C)]
#[derive(Clone, Copy, PartialEq, Eq, Debug)]
pub struct Service {
    pub registration: Registration,
    pub state: State,
}

impl Registration {
    /// Reads a registration from its text of G, D and O lines.
    pub fn read(text: &[u8]) -> Result<Registration, Refusal> {
        let read = calls::read(text);
        Refusal::unless(read.answer, read.registration)
    }

    /// Writes the text of G, D and O lines to the front of a buffer, and tells how many bytes it has; later bytes stay.
    pub fn write(&self, out: &mut [u8]) -> Result<usize, Refusal> {
        let written = calls::write(self, out);
        Refusal::unless(written.answer, written.bytes)
    }

    /// Each consumer with each producer that it names, both counted from 0: consumers in order, priorities within.
    pub(crate) fn pairs(&self) -> impl Iterator<Item = (usize, usize)> + '_ {
        let named = self.sources.chunks(NAMED_MOST).zip(self.counts).take(self.consumers);
        named.enumerate().flat_map(|(consumer, (sources, count))| {
            let producers = sources.iter().take(count.into());
            producers.map(move |&source| (consumer, usize::from(source).saturating_sub(1)))
        })
    }
}

impl Service {
    /// A service made from a registration alone: no entries, and all stamps and days 0.
    pub fn fresh(registration: &Registration) -> Result<Service, Refusal> {
        let fresh = calls::fresh(registration);
        Refusal::unless(fresh.answer, fresh.service)
    }

    /// Submits a measurement, and tells the stamp of its reading.
    pub fn submit(&mut self, journal: &mut [u64], clock: u64, measurement: Measurement) -> Result<u64, Refusal> {
        let submitted = calls::submit(self, journal, clock, measurement);
        Refusal::unless(submitted.answer, submitted.stamp)
    }

    /// Clears the journal, and tells how many entries were dropped: those of days below `day`, and of the others, among
    /// those up to `stamp`, all but the newest for each code, day and quarter; later ones stay. Day and stamp become the
    /// kept ones.
    pub fn clear(&mut self, journal: &mut [u64], day: u64, stamp: u64) -> Result<usize, Refusal> {
        let cleared = calls::clear(self, journal, day, stamp);
        Refusal::unless(cleared.answer, cleared.dropped)
    }

    /// Evaluates a quarter hour as of a stamp. The result list gets the pairs' shares, then what remains of each withdrawal,
    /// then of each supply, then the origin of each point's value; later numbers stay. It needs a number for each pair and
    /// two for each point; [`RESULT_MOST`] are always enough. What is given borrows that list alone. Two accepted evaluations
    /// of one quarter hour as of one stamp give the same, whatever was submitted or cleared between them.
    pub fn evaluate<'a>(
        &self,
        journal: &[u64],
        day: u64,
        quarter: u64,
        until: u64,
        result: &'a mut [u64],
    ) -> Result<Evaluation<'a>, Refusal> {
        let evaluated = calls::evaluate(self, journal, day, quarter, until, result);
        let rounds = Refusal::unless(evaluated.answer, evaluated.rounds)?;
        Ok(Evaluation::of(self.registration, rounds, result))
    }
}

/// The day of a date, which is written as the number YYYYMMDD.
pub fn day(date: u64) -> Result<u64, Refusal> {
    let dated = calls::day(date);
    Refusal::unless(dated.answer, dated.day)
}

/// The day at a place of the table of changeover days; places count from 0. At place 2n stands the last Sunday of March
/// of the year 2024 + n, a day of 92 quarter hours, at place 2n + 1 that of October, a day of 100. Refused by `NoSuchDay`
/// from place [`CHANGEOVER_COUNT`] on.
pub fn changeover(place: u64) -> Result<u64, Refusal> {
    let dated = calls::changeover(place);
    Refusal::unless(dated.answer, dated.day)
}
