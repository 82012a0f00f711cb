//! Program `share`: a registration, then events, and an answer to each.

use crate::calendar;
use crate::columns::{cut, first_line, number, put_line, signed};
use crate::refusal::*;
use crate::registration::{Registration, NAMED, POINTS};
use crate::registration_text;
use crate::service::{Service, ENTRY};

/// The most bytes an input has.
pub const INPUT_LIMIT: usize = 32768;

/// How many entries the program's journal has room for.
const ENTRIES: usize = 1000;

/// How many numbers are enough for the result list of any group.
const RESULT: usize = NAMED * POINTS + 2 * POINTS;

/// An event line that is in its columns, its date still a number.
enum Event {
    /// A reading arrives.
    Submission {
        clock: u64,
        code: u64,
        date: u64,
        quarter: u64,
        value: i64,
    },
    /// Old entries may go.
    Clear { date: u64, stamp: u64 },
    /// A quarter is asked for.
    Evaluation { date: u64, quarter: u64, until: u64 },
}

/// A service with its journal, and the answers so far.
struct Run {
    service: Service,
    journal: Vec<u64>,
    out: Vec<u8>,
}

/// Gives what the program writes for an input.
pub fn share(input: &[u8]) -> Vec<u8> {
    let mut out = Vec::new();
    if input.len() > INPUT_LIMIT {
        put_answer(&mut out, Err(NOT_IN_COLUMNS));
        return out;
    }
    let (registration, events) = input.split_at(events_start(input));
    match registration_text::read(registration).and_then(|registration| Service::fresh(&registration)) {
        Err(refusal) => {
            put_answer(&mut out, Err(refusal));
            out
        }
        Ok(service) => Run {
            service,
            journal: vec![0; ENTRY * ENTRIES],
            out,
        }
        .answer_all(events),
    }
}

/// Gives where the first line begins that starts with the letter of an event; without one, where the input ends.
fn events_start(input: &[u8]) -> usize {
    let mut start = 0;
    while start < input.len() && !matches!(input[start], b'M' | b'C' | b'E') {
        start += first_line(&input[start..]).0.len();
    }
    start
}

/// Reads an event line, or gives nothing if it is malformed.
fn read_event(line: &[u8]) -> Option<Event> {
    let text = line.strip_suffix(b"\n")?;
    match text.first()? {
        b'M' => {
            let [clock, code, date, quarter, value] = cut(text, b'M', [13, 19, 9, 4, 10])?;
            let (clock, code, date) = (number(clock)?, number(code)?, number(date)?);
            Some(Event::Submission {
                clock,
                code,
                date,
                quarter: number(quarter)?,
                value: signed(value)?,
            })
        }
        b'C' => {
            let [date, stamp] = cut(text, b'C', [9, 13])?;
            Some(Event::Clear {
                date: number(date)?,
                stamp: number(stamp)?,
            })
        }
        b'E' => {
            let [date, quarter, until] = cut(text, b'E', [9, 4, 13])?;
            Some(Event::Evaluation {
                date: number(date)?,
                quarter: number(quarter)?,
                until: number(until)?,
            })
        }
        _ => None,
    }
}

/// Appends an A line: no refusal and the number an accepted call gave, or the refusal and 0.
fn put_answer(out: &mut Vec<u8>, answer: Result<u64, u64>) {
    let (refusal, number) = match answer {
        Ok(number) => (0, number),
        Err(refusal) => (refusal, 0),
    };
    put_line(out, b'A', &[(refusal, 4), (number, 13)]);
}

/// Gives the day of a date, or the refusal of a date that does not exist.
fn day_of(date: u64) -> Result<u64, u64> {
    calendar::day_of(date).ok_or(NO_SUCH_DAY)
}

impl Run {
    /// Answers all event lines in turn and gives the answers.
    fn answer_all(mut self, events: &[u8]) -> Vec<u8> {
        let mut rest = events;
        while !rest.is_empty() {
            let (line, later) = first_line(rest);
            self.answer(line);
            rest = later;
        }
        self.out
    }

    /// Answers one event line.
    fn answer(&mut self, line: &[u8]) {
        match read_event(line) {
            None => put_answer(&mut self.out, Err(NOT_IN_COLUMNS)),
            Some(Event::Submission {
                clock,
                code,
                date,
                quarter,
                value,
            }) => {
                let journal = &mut self.journal;
                let service = &mut self.service;
                let answer = day_of(date).and_then(|day| service.submit(journal, clock, code, day, quarter, value));
                put_answer(&mut self.out, answer);
            }
            Some(Event::Clear { date, stamp }) => {
                let answer = day_of(date).and_then(|day| self.service.clear(&mut self.journal, day, stamp));
                put_answer(&mut self.out, answer);
            }
            Some(Event::Evaluation { date, quarter, until }) => self.answer_evaluation(date, quarter, until),
        }
    }

    /// Answers an evaluation with an R line and, if it is accepted, the lines of its result.
    fn answer_evaluation(&mut self, date: u64, quarter: u64, until: u64) {
        let mut result = [0; RESULT];
        let answer =
            day_of(date).and_then(|day| self.service.evaluate(&self.journal, day, quarter, until, &mut result));
        match answer {
            Err(refusal) => put_line(&mut self.out, b'R', &[(refusal, 4), (0, 2)]),
            Ok(rounds) => {
                put_line(&mut self.out, b'R', &[(0, 4), (rounds, 2)]);
                put_result(&mut self.out, &self.service.registration, &result);
            }
        }
    }
}

/// Appends the S, U, V and W lines of a result list.
fn put_result(out: &mut Vec<u8>, registration: &Registration, result: &[u64]) {
    let mut numbers = result.iter().copied();
    for consumer in 0..registration.consumers {
        let named = &registration.sources[NAMED * consumer..][..usize::from(registration.counts[consumer])];
        for (&source, share) in named.iter().zip(&mut numbers) {
            put_line(
                out,
                b'S',
                &[(consumer as u64 + 1, 4), (u64::from(source), 4), (share, 10)],
            );
        }
    }
    for (consumer, withdrawal) in (1..=registration.consumers as u64).zip(&mut numbers) {
        put_line(out, b'U', &[(consumer, 4), (withdrawal, 10)]);
    }
    for (producer, supply) in (1..=registration.producers as u64).zip(&mut numbers) {
        put_line(out, b'V', &[(producer, 4), (supply, 10)]);
    }
    for (point, origin) in (1..=registration.points() as u64).zip(&mut numbers) {
        put_line(out, b'W', &[(point, 4), (origin, 2)]);
    }
}

#[cfg(test)]
mod tests {
    use super::*;
    use crate::samples::GROUP;

    /// Three readings for one quarter.
    const READINGS: &str = "\
M         1000 859182400220162071 20240102   1      1001
M         1000 859182400220162088 20240102   1      -100
M          990 859182400220162095 20240102   1      -900
";

    /// The answers to the three readings.
    const STAMPS: &str = "\
A   0         1000
A   0         1001
A   0         1002
";

    /// Gives the answers to events that follow the sample group and its readings.
    fn answers(events: &str) -> String {
        let written = String::from_utf8(share([GROUP, READINGS, events].concat().as_bytes())).unwrap();
        written.strip_prefix(STAMPS).unwrap().to_string()
    }

    #[test]
    fn the_sample_list_is_answered() {
        let expected = "\
R   0 2
S   1   1       100
S   2   1       780
U   1         0
U   2       120
V   1       121
W   1 0
W   2 0
W   3 0
";
        assert_eq!(answers("E 20240102   1         1002\n"), expected);
    }

    #[test]
    fn an_earlier_stamp_shows_earlier_readings() {
        let expected = "\
R   0 2
S   1   1       100
S   2   1         0
U   1         0
U   2         0
V   1       901
W   1 0
W   2 0
W   3 6
";
        assert_eq!(answers("E 20240102   1         1001\n"), expected);
    }

    #[test]
    fn origins_are_numbered_through_all_points() {
        let input = "\
G   2   2 0
D 859182400220162071 0
D 859182400110035201 2
O 859182400220162088 0 2   1  4000   2  4000
O 859182400220162095 1 1   2  6000
M            1 859182400220162071 20240102   1      1000
M            2 859182400220162088 20240102   1         0
M            3 859182400110035201 20240102   1       500
E 20240109   1            3
";
        let expected = "\
A   0            1
A   0            2
A   0            3
R   0 1
S   1   1         0
S   1   2         0
S   2   2         0
U   1         0
U   2         0
V   1      1000
V   2         0
W   1 1
W   2 5
W   3 1
W   4 5
";
        assert_eq!(String::from_utf8(share(input.as_bytes())).unwrap(), expected);
    }

    #[test]
    fn a_changeover_sunday_has_its_means_by_the_wall_clock() {
        let readings = [
            ("20240324  21", "A   0         1003\n"),
            ("20240331   9", "A   0         1004\n"),
            ("20241020   9", "A   0         1005\n"),
            ("20241027  13", "A   0         1006\n"),
        ];
        let submissions = readings.map(|(place, _)| format!("M            1 859182400220162071 {place}       500\n"));
        let stamps = readings.map(|(_, stamp)| stamp).concat();
        for (asked, supply, origin) in [
            ("20240331  17", 500, 1),
            ("20240331  21", 0, 6),
            ("20240407   9", 0, 6),
            ("20240407  13", 500, 1),
            ("20241027   9", 500, 1),
            ("20241027  13", 500, 0),
            ("20241027  14", 0, 6),
            ("20241103  13", 0, 6),
        ] {
            let written = answers(&format!("{}E {asked}         1006\n", submissions.concat()));
            let result = format!(
                "R   0 2\nS   1   1         0\nS   2   1         0\nU   1         0\nU   2         0\n\
                 V   1{supply:>10}\nW   1{origin:>2}\nW   2 6\nW   3 6\n"
            );
            assert_eq!(written, [&stamps[..], &result].concat(), "{asked}");
        }
    }

    #[test]
    fn evaluations_and_clears_are_answered() {
        let cases = [
            ("E 20240102   1         1003\n", "R  12 0\n"),
            ("E 20250229   1         1003\n", "R   9 0\n"),
            ("E 20240102  97         1003\n", "R   9 0\n"),
            ("E 20240102   1        1002\n", "A   1            0\n"),
            ("E 20240102   1         1002", "A   1            0\n"),
            ("C 20240102         1002\n", "A   0            0\n"),
            ("C 20240103         1002\n", "A   0            3\n"),
            ("C 20240102         1003\n", "A  12            0\n"),
            ("C 21000101         1002\n", "A   9            0\n"),
            ("C    40102         1002\n", "A   9            0\n"),
            ("\nG   1   2 1\n", "A   1            0\nA   1            0\n"),
            ("", ""),
        ];
        for (event, answer) in cases {
            assert_eq!(answers(event), answer, "{event}");
        }
    }

    #[test]
    fn submissions_are_answered() {
        let cases = [
            ("859182400110035201 20240102   1      1001", 8, 0),
            ("859182400110035201 20240102   0      1001", 8, 0),
            ("859182400110035201 20240000   1      1001", 9, 0),
            ("859182400220162072 20240102   1      1001", 8, 0),
            ("  9182400220162072 20240102   1      1001", 8, 0),
            ("059182400220162072 20240102   1      1001", 1, 0),
            ("859182400220162071 20240102 100      1001", 9, 0),
            ("859182400220162071 20240102   1        -1", 10, 0),
            ("859182400220162071 20240102   1 100000000", 10, 0),
            ("859182400220162071 20240102   1        -0", 1, 0),
            ("859182400220162071 20240102   1  99999999", 0, 1003),
            ("859182400220162071 20240102   1      1001", 0, 1000),
        ];
        for (event, refusal, stamp) in cases {
            let answer = answers(&format!("M            1 {event}\n"));
            assert_eq!(answer, format!("A{refusal:>4}{stamp:>13}\n"), "{event}");
        }
    }

    #[test]
    fn the_registration_reaches_to_the_first_event_letter() {
        let refused = b"A   1            0\n".to_vec();
        assert_eq!(share(b""), refused);
        assert_eq!(share(READINGS.as_bytes()), refused);
        assert_eq!(share([GROUP, "X\n", READINGS].concat().as_bytes()), refused);
        assert_eq!(share(GROUP.as_bytes()), b"");
        assert_eq!(share([GROUP, "E"].concat().as_bytes()), refused);
        assert_eq!(share(GROUP.replace("6000", "6001").as_bytes()), b"A   7            0\n");
    }

    #[test]
    fn the_input_has_a_limit() {
        let mut input = [GROUP, "C\n"].concat().into_bytes();
        input.resize(INPUT_LIMIT, b'C');
        assert_eq!(share(&input), b"A   1            0\nA   1            0\n");
        input.push(b'\n');
        assert_eq!(share(&input), b"A   1            0\n");
    }
}
