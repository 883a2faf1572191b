//! Holds `examples/neighbours.rs` to its two halves.
#[path = "../examples/neighbours.rs"]
mod neighbours;

use neighbours::{counts, play};
use std::error::Error;

#[test]
fn one_neighbour_that_hangs_takes_the_other_along() -> Result<(), Box<dyn Error>> {
    let half = play(false)?;
    assert_eq!(counts(&half, false), [0, 0, 4]);
    let [answered, refused, _] = counts(&half, true);
    assert_eq!((answered, refused), (0, 0));
    Ok(())
}

#[test]
fn bulkheads_keep_the_good_neighbour_apart() -> Result<(), Box<dyn Error>> {
    let half = play(true)?;
    assert_eq!(counts(&half, false), [200, 0, 0]);
    assert_eq!(counts(&half, true), [0, 12, 4]);
    Ok(())
}
