//! Case LIST through the static library: a group is read, three measurements are submitted, and their quarter hour is evaluated.

use share_library::{Evaluation, Measurement, Refusal, Registration, Service, RESULT_MOST};

const TEXT: &str = "\
G   1   2 1
D 859182400220162071 0
O 859182400220162088 0 1   1  4000
O 859182400220162095 0 1   1  6000
";

/// Clock, code and value of each submission.
const SUBMISSIONS: [(u64, u64, i64); 3] = [
    (1000, 859182400220162071, 1001),
    (1000, 859182400220162088, -100),
    (990, 859182400220162095, -900),
];

fn main() -> Result<(), Refusal> {
    let registration = Registration::read(TEXT.as_bytes())?;
    let mut service = Service::fresh(&registration)?;
    let day = share_library::day(20240102)?;
    let mut journal = [0; 30];
    for (clock, code, value) in SUBMISSIONS {
        let measurement = Measurement {
            code,
            day,
            quarter: 1,
            value,
        };
        let stamp = service.submit(&mut journal, clock, measurement)?;
        println!("A{:4}{stamp:13}", 0);
    }
    let mut result = [0; RESULT_MOST];
    let evaluation = service.evaluate(&journal, day, 1, 1002, &mut result)?;
    println!("R{:4}{:2}", 0, evaluation.rounds());
    print_result(&evaluation);
    Ok(())
}

/// The lines of a result: each consumer's shares, what remains of each withdrawal, what remains of each supply, the origin of
/// each point's value.
fn print_result(evaluation: &Evaluation) {
    for share in evaluation.shares() {
        println!("S{:4}{:4}{:10}", share.consumer + 1, share.producer + 1, share.share);
    }
    for (consumer, remaining) in evaluation.remaining_withdrawals().iter().enumerate() {
        println!("U{:4}{remaining:10}", consumer + 1);
    }
    for (producer, remaining) in evaluation.remaining_supplies().iter().enumerate() {
        println!("V{:4}{remaining:10}", producer + 1);
    }
    for (point, origin) in evaluation.origins().enumerate() {
        println!("W{:4}{:2}", point + 1, origin.number());
    }
}
