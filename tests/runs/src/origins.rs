//! The origins of the points' values in accepted evaluations, and how often each occurs.

use second::evaluation::result_size;
use second::registration::Registration;

/// How often each of the origins 0 to 6 occurred.
pub type Origins = [u64; 7];

/// The origins of a group's result, which are the last of its numbers, one for each point.
pub fn of_result<'a>(registration: &Registration, result: &'a [u64]) -> &'a [u64] {
    let size = result_size(registration);
    &result[size - registration.points()..size]
}

/// Counts origins as well.
pub fn count(seen: &mut Origins, origins: impl IntoIterator<Item = u64>) {
    for origin in origins {
        seen[origin as usize] += 1;
    }
}

/// Says which origin occurred less often than each has to.
pub fn enough(seen: &Origins, least: u64) -> Result<(), String> {
    match seen.iter().position(|&times| times < least) {
        Some(origin) => Err(format!(
            "only {} values have the origin {origin}, and {least} have to",
            seen[origin]
        )),
        None => Ok(()),
    }
}

#[cfg(test)]
mod tests {
    use super::*;
    use crate::groups;
    use crate::random::Random;

    #[test]
    fn origins_are_the_last_numbers_of_a_result() {
        let registration = groups::registration(&mut Random::new(1));
        let (size, points) = (result_size(&registration), registration.points());
        let list: Vec<u64> = (0..size as u64 + 3).collect();
        let last: Vec<u64> = ((size - points) as u64..size as u64).collect();
        assert_eq!(of_result(&registration, &list), last);
    }

    #[test]
    fn an_origin_that_occurred_too_seldom_is_told() {
        let mut seen = Origins::default();
        count(&mut seen, [0, 1, 2, 3, 4, 6, 6]);
        assert_eq!(seen, [1, 1, 1, 1, 1, 0, 2]);
        let told = enough(&seen, 1).unwrap_err();
        assert_eq!(told, "only 0 values have the origin 5, and 1 have to");
        count(&mut seen, [5]);
        assert_eq!(enough(&seen, 1), Ok(()));
        assert!(enough(&seen, 2).is_err());
    }
}
