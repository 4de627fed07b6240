//! Hill climbing on small grids: the times, out of a few, that make a search take the most cells.
use cases::random::Random;

use crate::grounds::Ground;

const TIMES: [f32; 10] = [0.0, 1.0 / 1024.0, 1.0, 2.0, 3.0, 5.0, 8.0, 13.0, 1024.0, f32::NAN];
const BEGINNINGS: u64 = 40;
const CHANGES: usize = 5_000;

/// The best ground of this side that climbing from several beginnings finds, by its takes.
pub fn climbed(side: usize, takes: impl Fn(&Ground) -> u64) -> Ground {
    let tops = (0..BEGINNINGS).map(|beginning| climb(side, &mut Random::new(side as u64, beginning), &takes));
    tops.max_by_key(|(height, _)| *height).expect("there are beginnings").1
}

/// Changes one or two cells at a time, and keeps what does not lower the takes.
fn climb(side: usize, random: &mut Random, takes: impl Fn(&Ground) -> u64) -> (u64, Ground) {
    let times = (0..side * side).map(|_| random.pick(&TIMES)).collect();
    let mut ground = Ground { side, times, targets: vec![0] };
    let mut height = takes(&ground);
    for _ in 0..CHANGES {
        let mut other = ground.clone();
        for _ in 0..1 + random.below(2) {
            let at = random.below(side * side);
            other.times[at] = random.pick(&TIMES);
        }
        let reached = takes(&other);
        if reached >= height {
            (height, ground) = (reached, other);
        }
    }
    (height, ground)
}

/// The small ground again and again, side by side.
pub fn tiled(small: &Ground, side: usize) -> Ground {
    let time = |at: usize| small.times[at / side % small.side * small.side + at % side % small.side];
    Ground { side, times: (0..side * side).map(time).collect(), targets: vec![0] }
}

/// Each cell of the small ground as a square of cells.
pub fn stretched(small: &Ground, side: usize) -> Ground {
    let time = |at: usize| small.times[at / side * small.side / side * small.side + at % side * small.side / side];
    Ground { side, times: (0..side * side).map(time).collect(), targets: vec![0] }
}
