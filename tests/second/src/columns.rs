//! Numbers right-justified in fixed columns, read and written.

use std::io::Write;

/// Reads digits without leading zeros.
fn digits(text: &[u8]) -> Option<u64> {
    if text.is_empty() || (text.len() > 1 && text[0] == b'0') {
        return None;
    }
    text.iter().try_fold(0u64, |number, byte| {
        let digit = byte.is_ascii_digit().then(|| u64::from(byte - b'0'))?;
        number.checked_mul(10)?.checked_add(digit)
    })
}

/// Gives what stands behind the leading spaces of a column, of which there is at least one.
fn behind_spaces(column: &[u8]) -> Option<&[u8]> {
    let spaces = column.iter().take_while(|&&byte| byte == b' ').count();
    (spaces > 0).then(|| &column[spaces..])
}

/// Reads a column that holds a number without sign.
pub fn number(column: &[u8]) -> Option<u64> {
    digits(behind_spaces(column)?)
}

/// Reads a column that holds a number with or without a minus, which never stands before 0.
pub fn signed(column: &[u8]) -> Option<i64> {
    let text = behind_spaces(column)?;
    match text.strip_prefix(b"-") {
        None => i64::try_from(digits(text)?).ok(),
        Some(rest) => match digits(rest)? {
            0 => None,
            size => i64::try_from(size).ok().map(|size| -size),
        },
    }
}

/// Cuts a text that begins with a letter into the columns behind it; the text has to be exactly as long.
pub fn cut<const N: usize>(text: &[u8], letter: u8, widths: [usize; N]) -> Option<[&[u8]; N]> {
    if text.first() != Some(&letter) || text.len() != 1 + widths.iter().sum::<usize>() {
        return None;
    }
    let mut rest = &text[1..];
    Some(widths.map(|width| {
        let (column, later) = rest.split_at(width);
        rest = later;
        column
    }))
}

/// Appends a number right-justified in a column of the given width.
pub fn put(out: &mut Vec<u8>, number: u64, width: usize) {
    write!(out, "{number:>width$}").expect("a growing list takes every byte");
}

/// Appends a line: its letter, its numbers each with the width of its column, and the line feed.
pub fn put_line(out: &mut Vec<u8>, letter: u8, numbers: &[(u64, usize)]) {
    out.push(letter);
    for &(number, width) in numbers {
        put(out, number, width);
    }
    out.push(b'\n');
}

/// Cuts the first line, its line feed included, from a text; without a line feed the whole text is the line.
pub fn first_line(text: &[u8]) -> (&[u8], &[u8]) {
    let end = text
        .iter()
        .position(|&byte| byte == b'\n')
        .map_or(text.len(), |place| place + 1);
    text.split_at(end)
}

#[cfg(test)]
mod tests {
    use super::*;

    #[test]
    fn numbers_stand_right_justified_behind_a_space() {
        assert_eq!(number(b"   1"), Some(1));
        assert_eq!(number(b" 0"), Some(0));
        assert_eq!(number(b" 859182400220162071"), Some(859182400220162071));
        for wrong in [
            &b"    "[..],
            b"",
            b"1",
            b"1234",
            b"  01",
            b" 1  ",
            b" 1 2",
            b"  -1",
            b"  +1",
            b"\t  1",
            b"  1\r",
        ] {
            assert_eq!(number(wrong), None);
        }
    }

    #[test]
    fn a_minus_stands_directly_before_digits() {
        assert_eq!(signed(b" -99999999"), Some(-99999999));
        assert_eq!(signed(b" 999999999"), Some(999999999));
        assert_eq!(signed(b"         0"), Some(0));
        for wrong in [
            &b"        -0"[..],
            b"       -05",
            b"       - 5",
            b"        +5",
            b"-999999999",
            b"       --5",
            b"         -",
        ] {
            assert_eq!(signed(wrong), None);
        }
    }
}
