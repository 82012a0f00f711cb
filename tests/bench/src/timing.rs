//! The measurement of a cell: library and second in turn, every call timed alone and its outcome compared.

use crate::cells::Cell;
use crate::servers::Server;
use runs::sides::{Answer, Event};
use second::service::ENTRY;
use share_library::RESULT_MOST;
use std::hint::black_box;
use std::time::{Duration, Instant};

/// How many samples each of the two gives for a cell.
pub const SAMPLES: usize = 21;

/// How long a sample of the slower of the two takes, if one call is not longer.
const SAMPLE_TIME: Duration = Duration::from_millis(8);

/// How many calls are made before the first sample.
const FIRST_CALLS: usize = 3;

/// What a result list holds where no evaluation has written.
const UNWRITTEN: u64 = u64::MAX;

/// The time of one call or run, in nanoseconds, for each of the two.
pub struct Times {
    pub proved: f64,
    pub second: f64,
}

impl Times {
    /// How many times as long the proved one takes.
    pub fn ratio(&self) -> f64 {
        self.proved / self.second
    }
}

/// What a call leaves: answer, record, and the list that it writes to.
#[derive(PartialEq)]
struct Outcome {
    answer: Answer,
    state: share_library::State,
    written: Vec<u64>,
}

/// A server with lists of its own.
struct Runner<S> {
    server: S,
    journal: Vec<u64>,
    result: Vec<u64>,
}

impl<S: Server> Runner<S> {
    /// A runner of a cell's group and journal.
    fn new(cell: &Cell) -> Result<Runner<S>, String> {
        let refused = |answer| format!("{}: {} refuses the registration by {answer}", cell.words(), S::NAME);
        let server = S::of(&cell.registration).map_err(refused)?;
        Ok(Runner {
            server,
            journal: cell.journal.numbers.clone(),
            result: vec![UNWRITTEN; RESULT_MOST],
        })
    }

    /// Puts back what the call changes.
    fn restore(&mut self, cell: &Cell) {
        self.server.set_state(&cell.state());
        match cell.call {
            Event::Submission { .. } => self.journal[ENTRY * cell.journal.entries..].fill(0),
            Event::Evaluation { .. } => self.result.fill(UNWRITTEN),
            Event::Clear { .. } => self.journal.copy_from_slice(&cell.journal.numbers),
        }
    }

    /// The numbers of the lists that the call may write.
    fn written(&self, cell: &Cell) -> &[u64] {
        match cell.call {
            Event::Submission { .. } => &self.journal[ENTRY * cell.journal.entries..],
            Event::Evaluation { .. } => &self.result,
            Event::Clear { .. } => &self.journal,
        }
    }

    /// Makes the call from the cell's start, and tells its answer and its time.
    fn once(&mut self, cell: &Cell) -> (Answer, Duration) {
        self.restore(cell);
        let begin = Instant::now();
        let answer = self
            .server
            .make(black_box(cell.call), &mut self.journal, &mut self.result);
        let time = begin.elapsed();
        (black_box(answer), time)
    }

    /// The outcome of the call.
    fn outcome(&mut self, cell: &Cell) -> Outcome {
        let (answer, _) = self.once(cell);
        Outcome {
            answer,
            state: self.server.state(),
            written: self.written(cell).to_vec(),
        }
    }

    /// Makes so many calls, each with the outcome that is expected, and tells the time of all.
    fn sample(&mut self, cell: &Cell, calls: usize, expected: &Outcome) -> Result<Duration, String> {
        let mut sum = Duration::ZERO;
        for _ in 0..calls {
            let (answer, time) = self.once(cell);
            sum += time;
            let state = self.server.state();
            if answer != expected.answer || state != expected.state || self.written(cell) != expected.written {
                return Err(format!(
                    "{}: {} gives another outcome: {answer:?}",
                    cell.words(),
                    S::NAME
                ));
            }
        }
        Ok(sum)
    }
}

/// Measures a cell: the two take turns, and which of them is first changes from sample to sample.
pub fn measure(cell: &Cell) -> Result<Times, String> {
    let mut library = Runner::<share_library::Service>::new(cell)?;
    let mut second = Runner::<second::service::Service>::new(cell)?;
    let expected = agreed(cell, library.outcome(cell), second.outcome(cell))?;
    let first = library
        .sample(cell, FIRST_CALLS, &expected)?
        .max(second.sample(cell, FIRST_CALLS, &expected)?);
    let calls = (SAMPLE_TIME.as_nanos() / (first.as_nanos() / FIRST_CALLS as u128).max(1)).max(1) as usize;
    let (mut of_library, mut of_second) = (Vec::new(), Vec::new());
    for number in 0..SAMPLES {
        if number % 2 == 0 {
            of_library.push(library.sample(cell, calls, &expected)?);
            of_second.push(second.sample(cell, calls, &expected)?);
        } else {
            of_second.push(second.sample(cell, calls, &expected)?);
            of_library.push(library.sample(cell, calls, &expected)?);
        }
    }
    if library.journal != second.journal || library.result != second.result {
        return Err(format!("{}: journals or results differ at the end", cell.words()));
    }
    let each = |samples| median(samples).as_nanos() as f64 / calls as f64;
    Ok(Times {
        proved: each(of_library),
        second: each(of_second),
    })
}

/// The outcome of both, which has to be the same and to have the cell's answer.
fn agreed(cell: &Cell, library: Outcome, second: Outcome) -> Result<Outcome, String> {
    if library != second {
        let (ours, theirs) = (library.answer, second.answer);
        return Err(format!(
            "{}: library and second differ, {ours:?} and {theirs:?}",
            cell.words()
        ));
    }
    if library.answer != (0, cell.answer) {
        return Err(format!(
            "{}: the answer is {:?}, not {}",
            cell.words(),
            library.answer,
            cell.answer
        ));
    }
    Ok(library)
}

/// The middle one of an odd number of times.
pub fn median(mut times: Vec<Duration>) -> Duration {
    times.sort();
    times[times.len() / 2]
}

/// What the clock itself adds to the time of a call, in nanoseconds.
pub fn clock_time() -> u128 {
    let times = (0..10_001).map(|_| Instant::now().elapsed()).collect();
    median(times).as_nanos()
}
