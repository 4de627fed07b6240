//! Families of square grids of times, by their side, with the cells from which the search starts.
use cases::random::Random;

/// Times of a square of cells, and the cells that are targets.
#[derive(Clone)]
pub struct Ground {
    pub side: usize,
    pub times: Vec<f32>,
    pub targets: Vec<usize>,
}

/// A ground for each side.
pub type Family = fn(usize) -> Ground;

pub const FAMILIES: [(&str, Family); 9] = [
    ("even", even),
    ("zero", zero),
    ("drawn", drawn),
    ("scattered targets", scattered_targets),
    ("spiral", spiral),
    ("spiral with falling walls", falling_spiral),
    ("late fronts", late_fronts),
    ("ribbon and pool", ribbon_and_pool),
    ("loops and pool", loops_and_pool),
];

const BARRED: f32 = f32::NAN;
const TINY: f32 = 1.0 / 1024.0;
const HUGE: f32 = 1024.0;

impl Ground {
    fn filled(side: usize, time: f32) -> Ground {
        Ground { side, times: vec![time; side * side], targets: vec![0] }
    }

    fn set(&mut self, (row, col): Place, time: f32) {
        self.times[row * self.side + col] = time;
    }
}

type Place = (usize, usize);

/// The same time everywhere.
fn even(side: usize) -> Ground {
    Ground::filled(side, 1.0)
}

fn zero(side: usize) -> Ground {
    Ground::filled(side, 0.0)
}

/// Times from 0 to 10, each drawn by itself.
fn drawn(side: usize) -> Ground {
    let random = &mut Random::new(1, side as u64);
    let time = |_| random.below(1 << 24) as f32 / 1_677_721.6;
    Ground { side, times: (0..side * side).map(time).collect(), targets: vec![0] }
}

/// The drawn ground, with one cell in a hundred a target.
fn scattered_targets(side: usize) -> Ground {
    let random = &mut Random::new(2, side as u64);
    Ground { targets: (0..side * side).filter(|_| random.chance(1)).collect(), ..drawn(side) }
}

/// A spiral road of tiny times from the corner inwards, with huge times between its turns.
fn spiral(side: usize) -> Ground {
    let mut ground = Ground::filled(side, HUGE);
    for place in spiral_road(side) {
        ground.set(place, TINY);
    }
    ground
}

/// The same road; the further in a cell between its turns is, the cheaper.
fn falling_spiral(side: usize) -> Ground {
    let mut ground = spiral(side);
    for row in 0..side {
        for col in 0..side {
            let edge = row.min(col).min(side - 1 - row).min(side - 1 - col);
            if ground.times[row * side + col] == HUGE {
                ground.set((row, col), 2.0 * (side - edge) as f32);
            }
        }
    }
    ground
}

/// The cells of a road that turns right where it would leave the grid or touch itself, until it has to turn twice.
fn spiral_road(side: usize) -> Vec<Place> {
    let mut taken = vec![false; side * side];
    let mut road = vec![(0, 0)];
    let (mut place, mut step, mut turns) = ((0, 0), (0, 1), 0);
    taken[0] = true;
    while turns < 2 {
        let free = |count| ahead(side, place, step, count).is_none_or(|(row, col)| !taken[row * side + col]);
        let next = ahead(side, place, step, 1).filter(|_| free(1) && free(2));
        match next {
            Some((row, col)) => {
                taken[row * side + col] = true;
                road.push((row, col));
                (place, turns) = ((row, col), 0);
            }
            None => (step, turns) = ((step.1, -step.0), turns + 1),
        }
    }
    road
}

fn ahead(side: usize, (row, col): Place, step: (isize, isize), count: isize) -> Option<Place> {
    let row = row.checked_add_signed(step.0 * count)?;
    let col = col.checked_add_signed(step.1 * count)?;
    (row < side && col < side).then_some((row, col))
}

/// A road to and fro, row by row. Each row can also be had straight across a wall, dearer and earlier; lower walls are
/// cheaper, so that each row's front is overtaken again and again.
fn late_fronts(side: usize) -> Ground {
    let mut ground = Ground::filled(side, TINY);
    for row in (1..side).step_by(2) {
        let opening = if row % 4 == 1 { side - 1 } else { 0 };
        for col in (0..side).filter(|&col| col != opening) {
            ground.set((row, col), 4.0 * (side - row) as f32);
        }
    }
    ground
}

/// A ribbon of three lanes, folded to and fro, below a pool of zero times. The start is at one end of the first lane,
/// whose times are 0. The lane in the middle is a wall that gets cheaper from cell to cell. The third lane's times are 0
/// too, and it opens into the pool. So each cell of the wall, one take later than the one before it, lets a better
/// distance through, which runs back along the third lane and then over the whole pool.
fn ribbon_and_pool(side: usize) -> Ground {
    let folds = side.div_ceil(7);
    let pool_rows = side - 4 * folds;
    let mut ground = Ground::filled(side, BARRED);
    ground.times[..(pool_rows + 1) * side].fill(0.0);
    let wall = folded(side, pool_rows + 1, folds);
    for pair in wall.windows(2) {
        for centre in pair {
            beside(*centre, pair).into_iter().for_each(|place| ground.set(place, 0.0));
        }
    }
    for (at, &place) in wall.iter().enumerate() {
        ground.set(place, 2.0 * (wall.len() - at) as f32);
    }
    ground.targets = vec![(pool_rows + 2) * side + 1];
    ground
}

/// The two places left and right of a place on a way that goes as this pair of neighbours does.
fn beside((row, col): Place, pair: &[Place]) -> [Place; 2] {
    if pair[0].0 == pair[1].0 { [(row - 1, col), (row + 1, col)] } else { [(row, col - 1), (row, col + 1)] }
}

/// A way that begins in this row, goes to the right end and, four rows lower, back, and so on; a column is left free at
/// either end.
fn folded(side: usize, first: usize, folds: usize) -> Vec<Place> {
    let mut way = vec![];
    for fold in 0..folds {
        let row = first + 4 * fold;
        let cols = 1..side - 1;
        let along: Vec<Place> = cols.map(|col| (row, col)).collect();
        way.extend(if fold % 2 == 0 { along } else { along.into_iter().rev().collect() });
        if fold + 1 < folds {
            let turn = if fold % 2 == 0 { side - 2 } else { 1 };
            way.extend((row + 1..row + 4).map(|row| (row, turn)));
        }
    }
    way
}

/// Two ways from the cell on the left to the next loop's: above 10 diagonal steps, below 12, which are less far.
const LOOP: [&[u8; 10]; 6] = [b"..o.o.o.o.", b".o.o.o.o.o", b"o.........", b".o.......o", b".o.......o", b"..ooooooo."];

/// A chain of loops, folded to and fro, below a pool of the same times. In each loop a front parts in two, of which the
/// one that comes two steps later is better: out of each loop comes one front more, and all run over the whole pool.
fn loops_and_pool(side: usize) -> Ground {
    let folds = side / 14;
    let pool_rows = side - 7 * folds;
    let (left, right) = (1, (side - 3) / 10 * 10 + 1);
    let mut ground = Ground::filled(side, BARRED);
    ground.times[..pool_rows * side].fill(1.0);
    for fold in 0..folds {
        let top = pool_rows + 7 * fold + 1;
        for (row, line) in LOOP.iter().enumerate() {
            let open = (left..right).filter(|col| line[(col - left) % 10] == b'o');
            open.for_each(|col| ground.set((top + row, col), 1.0));
        }
        let (turn, end) = if fold % 2 == 0 { (left - 1, right) } else { (right + 1, left) };
        (top - 4..top + 2).for_each(|row| ground.set((row, turn), 1.0));
        ground.set((top + 2, right), 1.0);
        ground.targets = vec![(top + 2) * side + end];
    }
    ground
}
