//! Inputs through program `share` and through the second implementation, byte for byte.

use crate::calls::Kept;
use crate::events;
use crate::groups;
use crate::lines;
use crate::origins::{self, Origins};
use crate::random::Random;
use crate::sheets;
use crate::smaller;
use second::calendar;
use second::evaluation::weeks_earlier;
use second::registration::Registration;
use second::service::Service;
use std::io::{Read, Write};
use std::path::{Path, PathBuf};
use std::process::{Command, Stdio};

/// How many inputs the tests compare.
pub const INPUTS: u64 = 2_500;

/// How many bytes the program reads.
const INPUT_MOST: usize = 32768;

/// How many numbers the program's journal has.
const JOURNAL: usize = 3000;

/// The answers that a text can have: 14, 15 and 16 are refusals of calls that the program never makes.
const ANSWERS: std::ops::RangeInclusive<usize> = 0..=13;

/// A program that `rt` proved and built, by its name.
pub fn program(name: &str) -> PathBuf {
    Path::new(env!("CARGO_MANIFEST_DIR"))
        .join("../../crates")
        .join(name)
        .join("out")
        .join(name)
}

/// What a program writes for an input.
pub fn written(program: &Path, input: &[u8]) -> Vec<u8> {
    let mut child = Command::new(program)
        .stdin(Stdio::piped())
        .stdout(Stdio::piped())
        .spawn()
        .unwrap_or_else(|error| panic!("{}: {error}; `rt run` in its folder builds it", program.display()));
    // Program `share` reads its input before it writes, and ends early where there is too much of it.
    let _ = child.stdin.take().expect("a pipe").write_all(input);
    let mut output = Vec::new();
    child
        .stdout
        .take()
        .expect("a pipe")
        .read_to_end(&mut output)
        .expect("the program's output");
    assert!(
        child.wait().expect("the program's end").success(),
        "the program ends by itself"
    );
    output
}

/// How many bytes of events an input gets: mostly few, now and then about as many as the program reads.
fn length(random: &mut Random) -> usize {
    match random.below(40) {
        0 => INPUT_MOST + random.place(200) - 100,
        1 => random.place(INPUT_MOST),
        _ => random.place(3000),
    }
}

/// The text of a registration, mostly right.
fn group_text(random: &mut Random, registration: &Registration) -> Vec<u8> {
    let mut text = if random.one_in(4) {
        sheets::broken_text(random, registration)
    } else {
        sheets::right_text(registration)
    };
    if random.one_in(8) && !text.is_empty() {
        lines::spoil(random, &mut text);
    }
    text
}

/// The lines of an input: a registration, then events, which now and then are in a focus.
fn input(random: &mut Random) -> Vec<u8> {
    let slots = events::slots(random);
    let mut registration = groups::registration(random);
    let focus = (random.one_in(3)).then(|| events::focus(random, &mut registration, &slots));
    let mut text = group_text(random, &registration);
    let service = Service::fresh(&registration).expect("a registration that keeps every rule");
    let mut kept = Kept {
        service,
        journal: vec![0; JOURNAL],
    };
    let most = length(random);
    while text.len() < most {
        let event = match &focus {
            Some(focus) => events::event_in(random, &kept.service, &slots, focus),
            None => events::event(random, &kept, &slots),
        };
        let mut line = lines::line(random, event);
        if random.one_in(15) {
            lines::spoil(random, &mut line);
        } else {
            // Later events are to fit the service that this one leaves.
            kept.make(event, &mut []);
        }
        text.extend(line);
    }
    cut(random, &mut text);
    text
}

/// Brings a long input to just the number of bytes that are read, or to one more.
fn cut(random: &mut Random, text: &mut Vec<u8>) {
    if text.len() > INPUT_MOST && random.one_in(2) {
        text.truncate(INPUT_MOST + random.place(2));
        if let Some(last) = text.last_mut() {
            *last = b'\n';
        }
    }
}

/// How many means of other quarter numbers there have to be on days of 92 quarters, and on days of 100.
const OTHER_NUMBERS_LEAST: u64 = 100;

/// What was seen: how often each answer, how often each origin, and how many means on days of 92 quarters and on days of
/// 100 have only readings of another quarter number in them.
#[derive(Default)]
struct Seen {
    answers: [u64; 17],
    origins: Origins,
    other_numbers: [u64; 2],
}

/// The number in a column of a line, which has to have one.
fn number(line: &[u8], column: std::ops::Range<usize>) -> usize {
    let text = line.get(column).and_then(|bytes| std::str::from_utf8(bytes).ok());
    text.and_then(|text| text.trim().parse().ok())
        .unwrap_or_else(|| panic!("a line without its number: '{}'", line.escape_ascii()))
}

/// The day and the quarter of an E line, where there is such a day.
fn asked(line: &[u8]) -> Option<(u64, u64)> {
    let day = calendar::day_of(number(line, 1..10) as u64)?;
    Some((day, number(line, 10..14) as u64))
}

impl Seen {
    /// Counts the answers of an output's A and R lines, and the origins of its W lines. From the last on, each A or R
    /// line answers a line of the input.
    fn count(&mut self, input: &[u8], output: &[u8]) {
        let mut events = input.split_inclusive(|&byte| byte == b'\n').rev();
        let mut means = 0;
        for line in output.split(|&byte| byte == b'\n').rev() {
            match line.first() {
                Some(b'A') => {
                    self.answers[number(line, 1..5)] += 1;
                    events.next();
                }
                Some(b'R') => {
                    self.answers[number(line, 1..5)] += 1;
                    self.count_means(events.next().and_then(asked), std::mem::take(&mut means));
                }
                Some(b'W') => {
                    let origin = number(line, 5..7) as u64;
                    origins::count(&mut self.origins, [origin]);
                    means += u64::from((1..=4).contains(&origin));
                }
                _ => (),
            }
        }
    }

    /// Counts the means of an evaluated quarter, where its day has 92 or 100 quarters and it is matched with another
    /// number: in all four weeks, since clocks changed in none of them.
    fn count_means(&mut self, asked: Option<(u64, u64)>, means: u64) {
        let Some((day, quarter)) = asked else {
            return;
        };
        let other = weeks_earlier(1, day, quarter).is_some_and(|(_, number)| number != quarter);
        match calendar::quarters(day) {
            Some(92) if other => self.other_numbers[0] += means,
            Some(100) if other => self.other_numbers[1] += means,
            _ => (),
        }
    }

    /// Says what was not seen in all the inputs of the tests.
    fn enough(&self) -> Result<(), String> {
        if let Some(missing) = ANSWERS.clone().find(|&answer| self.answers[answer] == 0) {
            return Err(format!("no input was answered by {missing}"));
        }
        if self.other_numbers.iter().any(|&means| means < OTHER_NUMBERS_LEAST) {
            return Err(format!(
                "too few means of other quarter numbers on days of 92 and of 100 quarters: {:?}",
                self.other_numbers
            ));
        }
        origins::enough(&self.origins, 1)
    }
}

/// Says what differs: the seed, the smallest failing input found, and both outputs.
fn report(seed: u64, program: &Path, input: &[u8]) -> String {
    let differs = |lines: &[&[u8]]| {
        let input = lines.concat();
        written(program, &input) != second::program::share(&input)
    };
    let whole: Vec<&[u8]> = input.split_inclusive(|&byte| byte == b'\n').collect();
    let smallest = smaller::smallest(&whole, 2000, &mut |lines| differs(lines)).concat();
    let show = |bytes: &[u8]| bytes.escape_ascii().to_string().replace("\\n", "\\n\n");
    format!(
        "seed {seed}: the outputs differ. The smallest failing input found:
{}
\
         program share writes:
{}
the second implementation:
{}",
        show(&smallest),
        show(&written(program, &smallest)),
        show(&second::program::share(&smallest))
    )
}

/// Compares so many inputs, the first one that of the seed.
pub fn compare(seed: u64, count: u64) -> Result<String, String> {
    let program = program("share");
    let mut seen = Seen::default();
    for seed in seed..seed + count {
        let input = input(&mut Random::new(seed));
        let expected = second::program::share(&input);
        if written(&program, &input) != expected {
            return Err(report(seed, &program, &input));
        }
        seen.count(&input, &expected);
    }
    if count >= INPUTS {
        seen.enough()?;
    }
    Ok(format!(
        "{count} inputs from seed {seed} on, the same bytes; answers 0 to 13: {:?}; origins 0 to 6: {:?}; means of \
         other quarter numbers on days of 92 and of 100 quarters: {:?}",
        &seen.answers[ANSWERS], seen.origins, seen.other_numbers
    ))
}

#[cfg(test)]
mod tests {
    use super::*;

    #[test]
    fn means_of_other_quarter_numbers_are_counted_by_their_day() {
        let input = include_bytes!("../../share/wall_clock.in");
        let output = include_bytes!("../../share/wall_clock.out");
        let mut seen = Seen::default();
        seen.count(input, output);
        assert_eq!(seen.other_numbers, [3, 2]);
        assert_eq!(seen.origins, [4, 9, 1, 0, 0, 0, 6]);
    }
}
