//! The changeover days from 2024 to 2099 through the static library, one to a line.

use share_library::{changeover, Refusal, CHANGEOVER_COUNT};

fn main() -> Result<(), Refusal> {
    for place in 0..CHANGEOVER_COUNT {
        println!("{:6}", changeover(place)?);
    }
    assert_eq!(changeover(CHANGEOVER_COUNT), Err(Refusal::NoSuchDay));
    Ok(())
}
