//! Texts of registrations, right ones and such as break a rule. A sheet holds the numbers of the lines, whatever they
//! are.

use crate::groups;
use crate::random::Random;
use second::registration::Registration;

/// The numbers of a D line or of an O line.
#[derive(Clone)]
struct Point {
    code: u64,
    status: u64,
}

/// The numbers of an O line: the count stands in it by itself, whatever is named.
#[derive(Clone)]
struct Consumer {
    point: Point,
    count: u64,
    named: Vec<(u64, u64)>,
}

/// The numbers of a registration's lines.
#[derive(Clone)]
struct Sheet {
    group: [u64; 3],
    producers: Vec<Point>,
    consumers: Vec<Consumer>,
}

/// The sheet of a registration.
fn sheet(registration: &Registration) -> Sheet {
    let point = |at: usize| Point {
        code: registration.codes[at],
        status: registration.statuses[at] as u64,
    };
    let consumer = |at: usize| {
        let places = 5 * at..5 * at + registration.counts[at] as usize;
        let named = places
            .map(|place| (registration.sources[place] as u64, registration.keys[place] as u64))
            .collect();
        Consumer {
            point: point(registration.producers + at),
            count: registration.counts[at] as u64,
            named,
        }
    };
    Sheet {
        group: [
            registration.producers as u64,
            registration.consumers as u64,
            registration.iteration as u64,
        ],
        producers: (0..registration.producers).map(point).collect(),
        consumers: (0..registration.consumers).map(consumer).collect(),
    }
}

/// The lines of a sheet.
fn lines(sheet: &Sheet) -> Vec<String> {
    let [producers, consumers, iteration] = sheet.group;
    let mut made = vec![format!("G{producers:4}{consumers:4}{iteration:2}\n")];
    for point in &sheet.producers {
        made.push(format!("D{:19}{:2}\n", point.code, point.status));
    }
    for consumer in &sheet.consumers {
        let named: String = consumer
            .named
            .iter()
            .map(|(source, key)| format!("{source:4}{key:6}"))
            .collect();
        made.push(format!(
            "O{:19}{:2}{:2}{named}\n",
            consumer.point.code, consumer.point.status, consumer.count
        ));
    }
    made
}

/// One of the points, of either side.
fn point<'a>(random: &mut Random, sheet: &'a mut Sheet) -> &'a mut Point {
    let at = random.place(sheet.producers.len() + sheet.consumers.len());
    match at.checked_sub(sheet.producers.len()) {
        None => &mut sheet.producers[at],
        Some(consumer) => &mut sheet.consumers[consumer].point,
    }
}

/// Breaks a rule of the G line, of a code or of a status.
fn break_point(random: &mut Random, sheet: &mut Sheet) {
    match random.below(7) {
        0 => sheet.group[random.place(2)] = random.pick(&[0, 1, 2, 32, 63, 64, 65, 999, 1000]),
        1 => sheet.group[2] = random.between(0, 10),
        2 => point(random, sheet).status = random.between(0, 10),
        3 => point(random, sheet).code ^= 1 << random.below(8),
        4 => point(random, sheet).code /= 10,
        5 => point(random, sheet).code = random.pick(&[0, 1, 1_000_000_000_000_000_000, 99_999_999_999_999_999]),
        _ => {
            let code = point(random, sheet).code;
            point(random, sheet).code = code;
        }
    }
}

/// Breaks a rule of an O line's count, producers or keys.
fn break_consumer(random: &mut Random, sheet: &mut Sheet) {
    let most = sheet.producers.len() as u64;
    let at = random.place(sheet.consumers.len());
    let consumer = &mut sheet.consumers[at];
    let pair = random.place(consumer.named.len());
    match random.below(8) {
        0 => consumer.count = random.between(0, 10),
        1 => consumer.named[pair].0 = random.pick(&[0, 1, most, most + 1, 999, 1000]),
        2 => consumer.named[pair].1 = random.pick(&[0, 1, 10000, 10001, 99999, 100_000]),
        3 => consumer.named[pair].1 += 1,
        4 => {
            let again = consumer.named[pair];
            consumer.named.push(again);
            consumer.count += 1;
        }
        5 => {
            consumer.named.pop();
        }
        6 => {
            consumer.named.clear();
            consumer.count = 0;
        }
        _ => {
            let (source, key) = (random.between(1, most), random.between(1, 10000));
            consumer.named.push((source, key));
            consumer.count = consumer.named.len() as u64;
        }
    }
}

/// Drops, repeats or exchanges lines, or puts one in.
fn break_lines(random: &mut Random, lines: &mut Vec<String>) {
    let at = random.place(lines.len());
    match random.below(5) {
        0 => {
            lines.remove(at);
        }
        1 => lines.insert(at, lines[at].clone()),
        2 => lines.swap(at, 0),
        3 => lines.push(random.pick(&["\n", " ", "G   1   1 0\n", "x\n"]).to_string()),
        _ => lines.insert(at, random.pick(&["\n", "D 859182400220162071 0\n", "\0"]).to_string()),
    }
}

/// The text of a registration that keeps every rule.
pub fn right_text(registration: &Registration) -> Vec<u8> {
    lines(&sheet(registration)).concat().into_bytes()
}

/// The text of a registration with one to three of its rules broken.
pub fn broken_text(random: &mut Random, registration: &Registration) -> Vec<u8> {
    let mut broken = sheet(registration);
    for _ in 0..random.between(1, 3) {
        match random.below(3) {
            0 => break_point(random, &mut broken),
            _ => break_consumer(random, &mut broken),
        }
        if random.one_in(20) {
            broken.producers[0].code = groups::code(random);
        }
        if broken.consumers.iter().any(|consumer| consumer.named.is_empty()) {
            break;
        }
    }
    let mut made = lines(&broken);
    if random.one_in(4) {
        break_lines(random, &mut made);
    }
    made.concat().into_bytes()
}
