//! Lines of events, in their columns and not.

use crate::random::Random;
use crate::sides::Event;
use second::calendar;

/// The date of a day, or some date that there is not for a day that there is not.
fn date(random: &mut Random, day: u64) -> u64 {
    let missing = [
        20250229, 20240230, 20241301, 20240100, 20231231, 21000101, 20240431, 0, 2024, 99999999, 1000001,
    ];
    match calendar::date_of(day) {
        Some(date) if !random.one_in(60) => date,
        _ => random.pick(&missing),
    }
}

/// The line of an event. A number that is too large for its column makes the line longer.
pub fn line(random: &mut Random, event: Event) -> Vec<u8> {
    match event {
        Event::Submission {
            clock,
            code,
            day,
            quarter,
            value,
        } => {
            let date = date(random, day);
            format!("M{clock:13}{code:19}{date:9}{quarter:4}{value:10}\n").into_bytes()
        }
        Event::Clear { day, stamp } => {
            let date = date(random, day);
            format!("C{date:9}{stamp:13}\n").into_bytes()
        }
        Event::Evaluation { day, quarter, until } => {
            let date = date(random, day);
            format!("E{date:9}{quarter:4}{until:13}\n").into_bytes()
        }
    }
}

/// Changes one byte, or adds one, or takes one out.
fn change_byte(random: &mut Random, text: &mut Vec<u8>) {
    let bytes = b" 0159-+\r\t\n\0xmMCEGDO.,;\x80\xff";
    let at = random.place(text.len());
    match random.below(4) {
        0 => text[at] = random.pick(bytes),
        1 => text.insert(at, random.pick(bytes)),
        2 => {
            text.remove(at);
        }
        _ => text.swap(at, at.saturating_sub(1)),
    }
}

/// Writes the first spaces of a column as zeros, or the minus before a 0.
fn fill_column(random: &mut Random, text: &mut [u8]) {
    let at = random.place(text.len());
    let Some(space) = text[at..].iter().position(|&byte| byte == b' ') else {
        return;
    };
    let spaces = text[at + space..].iter().take_while(|&&byte| byte == b' ').count();
    let end = at + space + spaces;
    text[end - 1] = random.pick(b"0-+");
    if spaces > 2 && random.one_in(2) {
        text[at + space + 1..end].fill(b'0');
    }
}

/// Spoils a text that is not empty: one byte, a column, its end, its letter, or all of it.
pub fn spoil(random: &mut Random, text: &mut Vec<u8>) {
    match random.below(10) {
        0..=3 => change_byte(random, text),
        4 | 5 => fill_column(random, text),
        6 => text.truncate(random.place(text.len())),
        7 => {
            let end = text.len() - 1;
            text.splice(
                end..,
                random
                    .pick(&[&b"\r\n"[..], b" \n", b"", b"\n\n", b"0\n"])
                    .iter()
                    .copied(),
            );
        }
        8 => text[0] = random.pick(b"mceARSUVWGDO \n"),
        _ => {
            *text = random
                .pick(&[&b"\n"[..], b"M\n", b"E", b"C \n", b"x\n", b"A   0            0\n"])
                .to_vec()
        }
    }
}
