//! The benchmark: the proved library and program against the second implementation, in one run and on the same data.
//!
//! Every answer, journal and result of the two is compared; where they differ the benchmark ends with an error.

mod cells;
mod data;
mod programs;
mod servers;
mod table;
mod timing;

use programs::Programs;
use std::process::ExitCode;
use table::Table;
use timing::Times;

/// The numbers of entries between which growth is told.
const GROWTH: (usize, usize) = (10_000, 100_000);

/// A measured cell: call, points, entries and the times.
struct Measured {
    call: &'static str,
    points: usize,
    entries: usize,
    times: Times,
}

/// Measures all cells.
fn measure_cells() -> Result<Vec<Measured>, String> {
    let measure = |cell: cells::Cell| {
        let times = timing::measure(&cell)?;
        let points = cell.registration.points();
        Ok(Measured {
            call: cell.name,
            points,
            entries: cell.journal.entries,
            times,
        })
    };
    cells::all().map(measure).collect()
}

/// A number with two decimals.
fn decimals(number: f64) -> String {
    format!("{number:.2}")
}

/// The table of calls.
fn calls_table(cells: &[Measured]) -> Table {
    let mut table = Table::new(1, &["call", "points", "entries", "library ns", "second ns", "ratio"]);
    for Measured {
        call,
        points,
        entries,
        times,
    } in cells
    {
        table.row(vec![
            call.to_string(),
            points.to_string(),
            entries.to_string(),
            format!("{:.0}", times.proved),
            format!("{:.0}", times.second),
            decimals(times.ratio()),
        ]);
    }
    table
}

/// The table of growth: by which factor a call takes longer with more entries.
fn growth_table(cells: &[Measured]) -> Table {
    let (few, many) = GROWTH;
    let mut table = Table::new(1, &["call", "points", "library growth", "second growth"]);
    for from in cells.iter().filter(|cell| cell.entries == few) {
        let same = |cell: &&Measured| cell.call == from.call && cell.points == from.points && cell.entries == many;
        if let Some(to) = cells.iter().find(same) {
            table.row(vec![
                from.call.to_string(),
                from.points.to_string(),
                decimals(to.times.proved / from.times.proved),
                decimals(to.times.second / from.times.second),
            ]);
        }
    }
    table
}

/// The table of programs.
fn programs_table() -> Result<Table, String> {
    let programs = Programs::find()?;
    let mut table = Table::new(1, &["input", "bytes", "share µs", "second µs", "ratio"]);
    for input in programs::inputs()? {
        let times = programs.measure(&input)?;
        table.row(vec![
            input.name,
            input.text.len().to_string(),
            format!("{:.0}", times.proved / 1000.0),
            format!("{:.0}", times.second / 1000.0),
            decimals(times.ratio()),
        ]);
    }
    Ok(table)
}

/// Measures everything and prints the tables.
fn report() -> Result<(), String> {
    let cells = measure_cells()?;
    let programs = programs_table()?;
    println!(
        "Library and second implementation in turn, in one process; ns per call, median of {} samples, each call \
         timed alone ({} ns of it are the clock's); all answers, records, journals and results are equal.\n",
        timing::SAMPLES,
        timing::clock_time()
    );
    println!("{}", calls_table(&cells));
    println!("Growth from {} to {} entries, as a factor:\n", GROWTH.0, GROWTH.1);
    println!("{}", growth_table(&cells));
    println!(
        "Programs as processes in turn, from start to end; µs per run, median of {} runs; all outputs are equal.\n",
        programs::RUNS
    );
    print!("{programs}");
    Ok(())
}

/// Prints the tables, or tells what went wrong.
fn main() -> ExitCode {
    match report() {
        Ok(()) => ExitCode::SUCCESS,
        Err(message) => {
            eprintln!("bench: {message}");
            ExitCode::FAILURE
        }
    }
}
