//! The two programs as processes on the same inputs: crates/share/out/share and the binary of the second implementation.

use crate::data::{self, Reading};
use crate::timing::{median, Times};
use second::registration::Registration;
use second::{calendar, registration_text};
use std::fs;
use std::io::Write;
use std::path::{Path, PathBuf};
use std::process::{Command, Stdio};
use std::time::{Duration, Instant};

/// How often each program runs on an input.
pub const RUNS: usize = 101;

/// The most bytes that the programs read.
const INPUT_MOST: usize = 32768;

/// An input with its name.
pub struct Input {
    pub name: String,
    pub text: Vec<u8>,
}

/// The two programs.
pub struct Programs {
    share: PathBuf,
    second: PathBuf,
}

impl Programs {
    /// The programs where they are built: `second` lies beside the benchmark.
    pub fn find() -> Result<Programs, String> {
        let own = std::env::current_exe().map_err(|error| error.to_string())?;
        let share = root().join("crates/share/out/share");
        let second = own.with_file_name(format!("second{}", std::env::consts::EXE_SUFFIX));
        for (program, command) in [(&share, "bash share.sh"), (&second, "cargo build -p second")] {
            if !program.exists() {
                return Err(format!("{} is not there: run `{command}` first", program.display()));
            }
        }
        Ok(Programs { share, second })
    }

    /// Runs both on an input in turn, compares every output, and tells the time of a run.
    pub fn measure(&self, input: &Input) -> Result<Times, String> {
        let (expected, _) = run(&self.share, input)?;
        accepted(input, &expected)?;
        let timed = |program| {
            let (output, time) = run(program, input)?;
            if output == expected {
                Ok(time)
            } else {
                Err(format!("{}: the programs' outputs differ", input.name))
            }
        };
        let (mut of_share, mut of_second) = (Vec::new(), Vec::new());
        for number in 0..RUNS {
            if number % 2 == 0 {
                of_share.push(timed(&self.share)?);
                of_second.push(timed(&self.second)?);
            } else {
                of_second.push(timed(&self.second)?);
                of_share.push(timed(&self.share)?);
            }
        }
        let each = |times| median(times).as_nanos() as f64;
        Ok(Times {
            proved: each(of_share),
            second: each(of_second),
        })
    }
}

/// The root folder of the project.
fn root() -> &'static Path {
    Path::new(concat!(env!("CARGO_MANIFEST_DIR"), "/../.."))
}

/// Runs a program on an input, from its start to its end, and tells its output and its time.
fn run(program: &Path, input: &Input) -> Result<(Vec<u8>, Duration), String> {
    let failed = |error| format!("{} on {}: {error}", program.display(), input.name);
    let begin = Instant::now();
    let mut process = Command::new(program)
        .stdin(Stdio::piped())
        .stdout(Stdio::piped())
        .spawn()
        .map_err(failed)?;
    if let Some(mut stdin) = process.stdin.take() {
        stdin.write_all(&input.text).map_err(failed)?;
    }
    let output = process.wait_with_output().map_err(failed)?;
    let time = begin.elapsed();
    if !output.status.success() {
        return Err(format!("{} on {}: {}", program.display(), input.name, output.status));
    }
    Ok((output.stdout, time))
}

/// Whether all lines of an input were accepted.
fn accepted(input: &Input, output: &[u8]) -> Result<(), String> {
    let refused = |line: &[u8]| matches!(line.first(), Some(b'A' | b'R')) && !line[1..].starts_with(b"   0");
    if output.is_empty() || output.split(|&byte| byte == b'\n').any(refused) {
        return Err(format!("{}: a line is refused", input.name));
    }
    Ok(())
}

/// The M line of a reading.
fn m_line(registration: &Registration, clock: u64, reading: &Reading) -> String {
    let code = registration.codes[reading.point];
    let date = calendar::date_of(reading.day).unwrap_or(0);
    format!(
        "M{clock:13}{code:19}{date:9}{:4}{:10}\n",
        reading.quarter,
        reading.value(registration)
    )
}

/// Appends lines, as many as an input may have, and tells how many they are.
fn fill(text: &mut Vec<u8>, lines: impl Iterator<Item = String>) -> usize {
    let mut count = 0;
    for line in lines {
        if text.len() + line.len() > INPUT_MOST {
            break;
        }
        text.extend(line.bytes());
        count += 1;
    }
    count
}

/// Case LIST of the paper.
fn list() -> Result<Input, String> {
    let file = root().join("tests/share/list.in");
    let text = fs::read(&file).map_err(|error| format!("{}: {error}", file.display()))?;
    Ok(Input {
        name: String::from("case LIST"),
        text,
    })
}

/// A group and as many submissions as an input may have.
fn submissions(registration: &Registration) -> Input {
    let mut text = registration_text::text_of(registration);
    let readings = data::readings(registration, INPUT_MOST);
    let lines = (data::FIRST_STAMP..)
        .zip(&readings)
        .map(|(clock, reading)| m_line(registration, clock, reading));
    let count = fill(&mut text, lines);
    Input {
        name: format!("{count} M lines, {} points", registration.points()),
        text,
    }
}

/// A group, a reading of each point, and as many evaluations of the readings' quarter hour as an input may have.
fn evaluations(registration: &Registration) -> Input {
    let mut text = registration_text::text_of(registration);
    let points = registration.points();
    let readings = data::readings(registration, points);
    let lines = (data::FIRST_STAMP..)
        .zip(&readings)
        .map(|(clock, reading)| m_line(registration, clock, reading));
    fill(&mut text, lines);
    let date = calendar::date_of(readings[0].day).unwrap_or(0);
    let quarter = readings[0].quarter;
    let stamps = (data::FIRST_STAMP..).take(points).cycle();
    let count = fill(
        &mut text,
        stamps.map(|until| format!("E{date:9}{quarter:4}{until:13}\n")),
    );
    Input {
        name: format!("{count} E lines, {points} points"),
        text,
    }
}

/// The inputs of the program's table.
pub fn inputs() -> Result<[Input; 3], String> {
    Ok([
        list()?,
        submissions(&data::group(3, 5)),
        evaluations(&data::group(5, 59)),
    ])
}
