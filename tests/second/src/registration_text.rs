//! The registration as a text of G, D and O lines, read and written.

use crate::columns::{cut, first_line, number, put, put_line};
use crate::refusal::*;
use crate::registration::{code_right, counts_right, named_right, Registration, GREATEST_STATUS, NAMED};

/// The widths of the columns of a G line: producers, consumers, iteration.
const G_WIDTHS: [usize; 3] = [4, 4, 2];

/// The widths of the columns of a D line: code, status.
const D_WIDTHS: [usize; 2] = [19, 2];

/// The widths of the columns that every O line has: code, status, count.
const O_WIDTHS: [usize; 3] = [19, 2, 2];

/// The length of the part that every O line has, its letter included.
const O_FIXED: usize = 24;

/// The widths of the columns for one named producer: its number, its key.
const NAMED_WIDTHS: [usize; 2] = [4, 6];

/// Reads a registration from its text, or gives the number of the refusal.
pub fn read(text: &[u8]) -> Result<Registration, u64> {
    let mut registration = Registration::zeros();
    let (line, mut rest) = first_line(text);
    read_group(line, &mut registration)?;
    for point in 0..registration.producers {
        let (line, later) = first_line(rest);
        read_producer(line, point, &mut registration)?;
        rest = later;
    }
    for consumer in 0..registration.consumers {
        let (line, later) = first_line(rest);
        read_consumer(line, consumer, &mut registration)?;
        rest = later;
    }
    if !rest.is_empty() {
        return Err(NOT_IN_COLUMNS);
    }
    if registration.code_twice() {
        return Err(CODE_TWICE);
    }
    if registration.keys_above() {
        return Err(KEYS_ABOVE);
    }
    Ok(registration)
}

/// Reads the numbers of a whole line with its letter, its columns and its line feed.
fn line_numbers<const N: usize>(line: &[u8], letter: u8, widths: [usize; N]) -> Result<[u64; N], u64> {
    let text = line.strip_suffix(b"\n").ok_or(NOT_IN_COLUMNS)?;
    part_numbers(text, letter, widths)
}

/// Reads the numbers of a letter and the columns behind it.
fn part_numbers<const N: usize>(text: &[u8], letter: u8, widths: [usize; N]) -> Result<[u64; N], u64> {
    let columns = cut(text, letter, widths).ok_or(NOT_IN_COLUMNS)?;
    let mut numbers = [0; N];
    for (place, column) in columns.iter().enumerate() {
        numbers[place] = number(column).ok_or(NOT_IN_COLUMNS)?;
    }
    Ok(numbers)
}

/// Reads the G line.
fn read_group(line: &[u8], registration: &mut Registration) -> Result<(), u64> {
    let [producers, consumers, iteration] = line_numbers(line, b'G', G_WIDTHS)?;
    if !counts_right(producers as usize, consumers as usize) {
        return Err(COUNT_OUTSIDE);
    }
    if iteration > 1 {
        return Err(STATUS_OR_ITERATION_ABOVE);
    }
    registration.producers = producers as usize;
    registration.consumers = consumers as usize;
    registration.iteration = iteration as u8;
    Ok(())
}

/// Notes the code and status of a point, the status tested first.
fn note_point(point: usize, code: u64, status: u64, registration: &mut Registration) -> Result<(), u64> {
    if status > u64::from(GREATEST_STATUS) {
        return Err(STATUS_OR_ITERATION_ABOVE);
    }
    if !code_right(code) {
        return Err(CODE_FALSE);
    }
    registration.codes[point] = code;
    registration.statuses[point] = status as u8;
    Ok(())
}

/// Reads the D line of a producer.
fn read_producer(line: &[u8], point: usize, registration: &mut Registration) -> Result<(), u64> {
    let [code, status] = line_numbers(line, b'D', D_WIDTHS)?;
    note_point(point, code, status, registration)
}

/// Reads the O line of a consumer: the part every line has, then as many named producers as it counts.
fn read_consumer(line: &[u8], consumer: usize, registration: &mut Registration) -> Result<(), u64> {
    let fixed = line.get(..O_FIXED).ok_or(NOT_IN_COLUMNS)?;
    let [code, status, count] = part_numbers(fixed, b'O', O_WIDTHS)?;
    let count = count as usize;
    if !(1..=NAMED).contains(&count) {
        return Err(COUNT_OUTSIDE);
    }
    let named = read_named(&line[O_FIXED..], count)?;
    note_point(registration.producers + consumer, code, status, registration)?;
    note_named(consumer, &named[..count], registration)
}

/// Reads the producer numbers and keys behind the fixed part of an O line, up to its line feed.
fn read_named(rest: &[u8], count: usize) -> Result<[(u64, u64); NAMED], u64> {
    let text = rest.strip_suffix(b"\n").ok_or(NOT_IN_COLUMNS)?;
    let [source_width, key_width] = NAMED_WIDTHS;
    let width = source_width + key_width;
    if text.len() != count * width {
        return Err(NOT_IN_COLUMNS);
    }
    let mut named = [(0, 0); NAMED];
    for (place, part) in text.chunks_exact(width).enumerate() {
        let (source, key) = part.split_at(source_width);
        named[place] = (
            number(source).ok_or(NOT_IN_COLUMNS)?,
            number(key).ok_or(NOT_IN_COLUMNS)?,
        );
    }
    Ok(named)
}

/// Notes the producers that a consumer names, if all of them and their keys are right.
fn note_named(consumer: usize, named: &[(u64, u64)], registration: &mut Registration) -> Result<(), u64> {
    let first = NAMED * consumer;
    for (place, &(source, key)) in (first..).zip(named) {
        registration.sources[place] = u8::try_from(source).map_err(|_| PRODUCER_OR_KEY_WRONG)?;
        registration.keys[place] = u16::try_from(key).map_err(|_| PRODUCER_OR_KEY_WRONG)?;
    }
    registration.counts[consumer] = named.len() as u8;
    let used = first..first + named.len();
    if named_right(
        registration.producers,
        &registration.sources[used.clone()],
        &registration.keys[used],
    ) {
        Ok(())
    } else {
        Err(PRODUCER_OR_KEY_WRONG)
    }
}

/// Gives the text of a registration; a damaged one has none.
pub fn text_of(registration: &Registration) -> Vec<u8> {
    let mut text = Vec::new();
    if registration.damaged() {
        return text;
    }
    let group = [
        registration.producers as u64,
        registration.consumers as u64,
        u64::from(registration.iteration),
    ];
    put_line(
        &mut text,
        b'G',
        &[
            (group[0], G_WIDTHS[0]),
            (group[1], G_WIDTHS[1]),
            (group[2], G_WIDTHS[2]),
        ],
    );
    for point in 0..registration.producers {
        let status = u64::from(registration.statuses[point]);
        put_line(
            &mut text,
            b'D',
            &[(registration.codes[point], D_WIDTHS[0]), (status, D_WIDTHS[1])],
        );
    }
    for consumer in 0..registration.consumers {
        put_consumer(&mut text, consumer, registration);
    }
    text
}

/// Appends the O line of a consumer.
fn put_consumer(text: &mut Vec<u8>, consumer: usize, registration: &Registration) {
    let point = registration.producers + consumer;
    text.push(b'O');
    put(text, registration.codes[point], O_WIDTHS[0]);
    put(text, u64::from(registration.statuses[point]), O_WIDTHS[1]);
    put(text, u64::from(registration.counts[consumer]), O_WIDTHS[2]);
    let first = NAMED * consumer;
    for place in first..first + usize::from(registration.counts[consumer]) {
        put(text, u64::from(registration.sources[place]), NAMED_WIDTHS[0]);
        put(text, u64::from(registration.keys[place]), NAMED_WIDTHS[1]);
    }
    text.push(b'\n');
}

/// Writes the text of a registration to the front of a buffer and gives its length, or the number of the refusal.
pub fn write(registration: &Registration, out: &mut [u8]) -> Result<usize, u64> {
    if registration.damaged() {
        return Err(DAMAGED);
    }
    let text = text_of(registration);
    let target = out.get_mut(..text.len()).ok_or(TOO_SHORT)?;
    target.copy_from_slice(&text);
    Ok(text.len())
}

#[cfg(test)]
mod tests {
    use super::*;
    use crate::samples::{group, large_group, GROUP};

    /// Reads the sample group with one piece of its text replaced.
    fn with(from: &str, to: &str) -> Result<Registration, u64> {
        assert!(GROUP.contains(from));
        read(GROUP.replacen(from, to, 1).as_bytes())
    }

    #[test]
    fn a_group_is_read_and_written() {
        assert_eq!(text_of(&group()), GROUP.as_bytes());
        for registration in [
            large_group(5, 59, 1),
            large_group(1, 63, 0),
            large_group(63, 1, 1),
            large_group(12, 30, 0),
        ] {
            assert_eq!(read(&text_of(&registration)), Ok(registration));
        }
        let mut full = large_group(1, 1, 1);
        full.keys[0] = 10000;
        assert_eq!(read(&text_of(&full)), Ok(full));
    }

    #[test]
    fn the_writer_leaves_what_it_does_not_write() {
        let mut buffer = [7; 200];
        assert_eq!(write(&group(), &mut buffer), Ok(GROUP.len()));
        assert_eq!(&buffer[..GROUP.len()], GROUP.as_bytes());
        assert!(buffer[GROUP.len()..].iter().all(|&byte| byte == 7));
        let mut short = vec![7; GROUP.len() - 1];
        assert_eq!(write(&group(), &mut short), Err(TOO_SHORT));
        assert_eq!(write(&Registration::zeros(), &mut short), Err(DAMAGED));
        assert_eq!(write(&Registration::zeros(), &mut []), Err(DAMAGED));
        assert!(short.iter().all(|&byte| byte == 7));
    }

    #[test]
    fn each_refusal_has_its_number() {
        assert_eq!(with("G   1   2 1", "G 1 2 1"), Err(NOT_IN_COLUMNS));
        assert_eq!(with("2071", "2072"), Err(CODE_FALSE));
        assert_eq!(with("   2 1", "   0 1"), Err(COUNT_OUTSIDE));
        assert_eq!(with("   1   2 1", "   0   2 1"), Err(COUNT_OUTSIDE));
        assert_eq!(with("   2 1", "  64 1"), Err(COUNT_OUTSIDE));
        assert_eq!(with("162095", "162088"), Err(CODE_TWICE));
        assert_eq!(with("162095", "162071"), Err(CODE_TWICE));
        assert_eq!(with("   2 1", "   2 2"), Err(STATUS_OR_ITERATION_ABOVE));
        assert_eq!(with("071 0", "071 4"), Err(STATUS_OR_ITERATION_ABOVE));
        assert_eq!(with("1  4000", "1     0"), Err(PRODUCER_OR_KEY_WRONG));
        assert_eq!(with("1  4000", "1 10001"), Err(PRODUCER_OR_KEY_WRONG));
        assert_eq!(with("1  4000", "1 99999"), Err(PRODUCER_OR_KEY_WRONG));
        assert_eq!(with("1  4000", "2  4000"), Err(PRODUCER_OR_KEY_WRONG));
        assert_eq!(with("   1  4000", " 999  4000"), Err(PRODUCER_OR_KEY_WRONG));
        assert_eq!(with("1   1  4000", "2   1  4000   1   100"), Err(PRODUCER_OR_KEY_WRONG));
        assert_eq!(with("6000", "6001"), Err(KEYS_ABOVE));
    }

    #[test]
    fn lines_are_complete_and_end_in_line_feeds() {
        for length in 0..GROUP.len() {
            assert_eq!(
                read(&GROUP.as_bytes()[..length]),
                Err(NOT_IN_COLUMNS),
                "length {length}"
            );
        }
        for extra in ["\n", " ", "O", "M", "O 859182400220162095 0 1   1  6000\n"] {
            assert_eq!(read([GROUP, extra].concat().as_bytes()), Err(NOT_IN_COLUMNS));
        }
        assert_eq!(with("\nO", "\r\nO"), Err(NOT_IN_COLUMNS));
        assert_eq!(with("\nO", "\n\nO"), Err(NOT_IN_COLUMNS));
        assert_eq!(with("G", "g"), Err(NOT_IN_COLUMNS));
        assert_eq!(with("071 0", "071 00"), Err(NOT_IN_COLUMNS));
    }

    #[test]
    fn tests_come_in_their_order() {
        assert_eq!(with("   1   2 1", "   0   2 2"), Err(COUNT_OUTSIDE));
        assert_eq!(with("   1   2 1\n", "   0   2 2 \n"), Err(NOT_IN_COLUMNS));
        assert_eq!(with("071 0", "072 4"), Err(STATUS_OR_ITERATION_ABOVE));
        assert_eq!(with("088 0 1   1  4000", "089 4 6"), Err(COUNT_OUTSIDE));
        assert_eq!(with("088 0 1   1  4000", "089 4 0   1  4000"), Err(COUNT_OUTSIDE));
        assert_eq!(with("088 0 1   1  4000", "089 4 2   9  4000"), Err(NOT_IN_COLUMNS));
        assert_eq!(
            with("088 0 1   1  4000", "089 4 1   9  4000"),
            Err(STATUS_OR_ITERATION_ABOVE)
        );
        assert_eq!(with("088 0 1   1  4000", "089 0 1   9  4000"), Err(CODE_FALSE));
        assert_eq!(
            with("088 0 1   1  4000", "071 0 1   9  4000"),
            Err(PRODUCER_OR_KEY_WRONG)
        );
        assert_eq!(
            with("095 0 1   1  6000\n", "088 0 1   1  6001\n\n"),
            Err(NOT_IN_COLUMNS)
        );
        assert_eq!(with("095 0 1   1  6000\n", "088 0 1   1  6001\n"), Err(CODE_TWICE));
        assert_eq!(with("095 0 1   1  6000\n", "095 0 7"), Err(COUNT_OUTSIDE));
        assert_eq!(with(" 859182400220162071 0", "   9182400220162071 0"), Err(CODE_FALSE));
        assert_eq!(with(" 859182400220162071 0", "                  0 0"), Err(CODE_FALSE));
        assert_eq!(
            with(" 859182400220162071 0", " 059182400220162071 0"),
            Err(NOT_IN_COLUMNS)
        );
    }

    #[test]
    fn an_accepted_text_is_the_one_that_is_written() {
        let mut accepted = 0;
        for place in 0..GROUP.len() {
            for byte in 0..=255 {
                let mut text = GROUP.as_bytes().to_vec();
                text[place] = byte;
                if let Ok(registration) = read(&text) {
                    assert!(!registration.damaged());
                    assert_eq!(text_of(&registration), text);
                    accepted += 1;
                }
            }
        }
        assert!(accepted > GROUP.len());
    }
}
