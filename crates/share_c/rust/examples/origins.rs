//! Where values came from, through the static library: a group in which every origin occurs. A line for each point has its
//! code, its value in the quarter hour, what remains of that after all shares, and its origin. A correction that comes
//! later alters nothing of it as of the stamp before.

use share_library::{Measurement, Refusal, Registration, Service, RESULT_MOST};

const TEXT: &str = "\
G   2   6 0
D 859182400220162071 0
D 859182400220162088 0
O 859182400220162095 0 1   1  2500
O 859182400220162101 0 2   1  2000   2  2000
O 859182400220162118 0 1   2  2500
O 859182400220162125 1 1   1  1000
O 859182400220162132 0 1   2  1000
O 859182400220162149 2 1   1   500
";

/// Code, weeks before the day that is evaluated, quarter and value of each submission, point by point.
const SUBMISSIONS: [(u64, u64, u64, i64); 14] = [
    (859182400220162071, 0, 49, 1200),
    (859182400220162088, 4, 49, 400),
    (859182400220162088, 3, 49, 410),
    (859182400220162088, 2, 49, 390),
    (859182400220162088, 1, 49, 401),
    (859182400220162095, 3, 49, -150),
    (859182400220162101, 4, 49, -400),
    (859182400220162101, 2, 49, -301),
    (859182400220162118, 3, 49, -101),
    (859182400220162118, 2, 49, -101),
    (859182400220162118, 1, 49, -100),
    (859182400220162125, 1, 49, -800),
    (859182400220162132, 1, 50, -700),
    (859182400220162149, 0, 49, -90),
];

fn main() -> Result<(), Refusal> {
    let mut service = Service::fresh(&Registration::read(TEXT.as_bytes())?)?;
    let day = share_library::day(20240130)?;
    let mut journal = [0; 3 * (SUBMISSIONS.len() + 1)];
    for (code, weeks, quarter, value) in SUBMISSIONS {
        let measurement = Measurement {
            code,
            day: day - 7 * weeks,
            quarter,
            value,
        };
        service.submit(&mut journal, 1000, measurement)?;
    }
    let until = service.state.last;
    let mut result = [0; RESULT_MOST];
    let evaluation = service.evaluate(&journal, day, 49, until, &mut result)?;
    for point in evaluation.points() {
        println!("{}{:8}{:8}  {}", point.code, point.value, point.remaining, point.origin);
    }
    let correction = Measurement {
        code: 859182400220162088,
        day,
        quarter: 49,
        value: 500,
    };
    service.submit(&mut journal, 1000, correction)?;
    let mut later = [0; RESULT_MOST];
    assert_eq!(service.evaluate(&journal, day, 49, until, &mut later)?, evaluation);
    let newest = service.evaluate(&journal, day, 49, service.state.last, &mut later)?;
    assert_ne!(newest, evaluation);
    Ok(())
}
