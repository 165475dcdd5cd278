//! Timing: runs of two or more sides, taken in turn.

use std::time::Duration;

/// The runs of each side.
pub const RUNS: usize = 11;
/// A run shorter than this would be measured badly.
const LONG_ENOUGH: Duration = Duration::from_millis(5);

/// One run of a side: so many passes over what is measured; answers the time
/// they took without what comes before and after.
pub type Run<S> = fn(&mut S, usize) -> Duration;

/// Nanoseconds for one of what is measured.
#[derive(Clone, Copy)]
pub struct Figures {
    pub median: f64,
    pub least: f64,
    pub most: f64,
}

/// Measures the sides. A pass goes over so many submissions or questions.
pub fn measure<S>(shared: &mut S, sides: &[Run<S>], per_pass: usize) -> Vec<Figures> {
    let passes = enough_passes(shared, sides);
    let mut times = vec![Vec::new(); sides.len()];
    for turn in 0..RUNS {
        for at in order(sides.len(), turn) {
            let nanoseconds = sides[at](shared, passes).as_nanos() as f64;
            times[at].push(nanoseconds / (passes * per_pass) as f64);
        }
    }
    times.into_iter().map(figures).collect()
}

/// The sides take turns in going first.
fn order(sides: usize, turn: usize) -> Vec<usize> {
    let mut order: Vec<usize> = (0..sides).collect();
    if turn % 2 == 1 {
        order.reverse();
    }
    order
}

/// The passes after which the run of every side is long enough.
fn enough_passes<S>(shared: &mut S, sides: &[Run<S>]) -> usize {
    let mut passes = 1;
    for side in sides {
        while side(shared, passes) < LONG_ENOUGH {
            passes *= 2;
        }
    }
    passes
}

fn figures(mut times: Vec<f64>) -> Figures {
    times.sort_by(f64::total_cmp);
    Figures {
        median: times[times.len() / 2],
        least: times[0],
        most: times[times.len() - 1],
    }
}
