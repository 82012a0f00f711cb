//! The smallest failing input that can be found by leaving parts out.

/// Leaves out as many elements as it can, in ever smaller runs, so that `fails` still holds; it is asked `tries` times
/// at most.
pub fn smallest<T: Clone>(all: &[T], mut tries: usize, fails: &mut dyn FnMut(&[T]) -> bool) -> Vec<T> {
    let mut kept = all.to_vec();
    let mut run = kept.len().max(1);
    while run > 0 {
        let mut at = 0;
        while at < kept.len() && tries > 0 {
            let mut fewer = kept.clone();
            fewer.drain(at..(at + run).min(kept.len()));
            tries -= 1;
            if fails(&fewer) {
                kept = fewer;
            } else {
                at += run;
            }
        }
        run /= 2;
    }
    kept
}
