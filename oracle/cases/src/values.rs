//! Kinds of cells. A grid has one kind throughout, since each kind brings out something of its own: equal times make
//! ties, small whole numbers make near ties, the odd ones overflow, vanish or are no numbers at all.
use crate::random::Random;

const SUBNORMAL: f32 = f32::from_bits(1);
const LARGEST_SUBNORMAL: f32 = f32::from_bits(0x007F_FFFF);

/// Numbers that are not below 0 and of which each is a limit of something.
const ODD: [f32; 14] = [
    0.0,
    -0.0,
    SUBNORMAL,
    LARGEST_SUBNORMAL,
    f32::MIN_POSITIVE,
    0.1,
    0.5,
    1.0,
    3.0,
    16_777_216.0,
    1e30,
    f32::MAX / 4.0,
    f32::MAX,
    f32::INFINITY,
];

const BELOW_ZERO: [f32; 5] = [-1.0, -SUBNORMAL, -0.1, -f32::MAX, f32::NEG_INFINITY];

/// A NaN with any sign and payload, quiet or signalling.
pub fn any_nan(random: &mut Random) -> f32 {
    let payload = 1 + random.below(0x7F_FFFF) as u32;
    let sign = random.pick(&[0, 0x8000_0000]);
    f32::from_bits(sign | 0x7F80_0000 | payload)
}

/// Times: not below 0, with nodata among them or not.
pub fn times(random: &mut Random, n: usize) -> Vec<f32> {
    let nodata = random.pick(&[0, 0, 10, 40]);
    let same = random.pick(&ODD);
    let kind = random.below(5);
    let time = |random: &mut Random| match kind {
        0 => same,
        1 => random.below(10) as f32,
        2 => random.pick(&ODD),
        3 => all_digits(random),
        _ => f32::from_bits(random.below(0x7F80_0001) as u32),
    };
    (0..n).map(|_| if random.chance(nodata) { any_nan(random) } else { time(random) }).collect()
}

/// A number from 0 to 10 whose 24 digits are all in use.
pub fn all_digits(random: &mut Random) -> f32 {
    random.below(1 << 24) as f32 / 1_677_721.6
}

pub fn below_zero(random: &mut Random) -> f32 {
    random.pick(&BELOW_ZERO)
}

/// Values or amounts: anything, of either sign.
pub fn values(random: &mut Random, n: usize) -> Vec<f32> {
    let nodata = random.pick(&[0, 10, 40]);
    let kind = random.below(4);
    let value = |random: &mut Random| match kind {
        0 => random.below(100) as f32,
        1 => random.pick(&ODD) * random.pick(&[1.0, -1.0]),
        2 => all_digits(random) - 5.0,
        _ => f32::from_bits(random.bits() as u32),
    };
    (0..n).map(|_| if random.chance(nodata) { any_nan(random) } else { value(random) }).collect()
}

/// At most `most` of the cells keep their value, the others become 0.
pub fn thin_out<T: Copy>(random: &mut Random, cells: &mut [T], zero: T, most: usize) {
    for at in (most..cells.len()).rev() {
        cells.swap(at, random.below(at + 1));
        cells[at] = zero;
    }
    for at in (1..cells.len()).rev() {
        cells.swap(at, random.below(at + 1));
    }
}

/// Target or mask bytes.
pub fn targets(random: &mut Random, n: usize) -> Vec<u8> {
    let percent = random.pick(&[0, 0, 4, 10, 20, 50, 100]);
    let kind = random.pick(&[&[1][..], &[1, 255], &[1, 2, 254, 255], &[255]]);
    let mut cells: Vec<u8> = (0..n).map(|_| if random.chance(percent) { random.pick(kind) } else { 0 }).collect();
    if n > 0 && random.chance(80) {
        cells[random.below(n)] = 1;
    }
    cells
}

/// Ditches: scattered, in lines whose cells meet at corners, or a wall across a row.
pub fn obstacles(random: &mut Random, rows: usize, cols: usize) -> Vec<u8> {
    let kind = random.below(4);
    let percent = random.pick(&[0, 10, 30, 50]);
    let period = 2 + random.below(3);
    let wall = random.below(rows.max(1));
    let gap = random.below(cols.max(1));
    let falling = random.chance(50);
    let byte = random.pick(&[&[1][..], &[1, 255], &[1, 2, 255]]);
    let cell = |row: usize, col: usize, random: &mut Random| {
        let ditch = match kind {
            0 => random.chance(percent),
            1 => (if falling { row + col } else { row + period * cols - col }) % period == 0,
            2 => row == wall && col != gap,
            _ => row.abs_diff(wall) == col.abs_diff(gap) || random.chance(percent / 5),
        };
        if ditch { random.pick(byte) } else { 0 }
    };
    (0..rows).flat_map(|row| (0..cols).map(move |col| (row, col))).map(|(row, col)| cell(row, col, random)).collect()
}

/// A cell size that is accepted, or now and then one that is not.
pub fn cell_size(random: &mut Random) -> f32 {
    if random.chance(8) {
        random.pick(&[0.0, -0.0, -1.0, f32::NAN, -f32::NAN, f32::INFINITY, f32::NEG_INFINITY])
    } else {
        random.pick(&[1.0, 1.0, 10.0, 0.5, 0.1, 25.4, 1e-3, SUBNORMAL, LARGEST_SUBNORMAL, 1e38, f32::MAX])
    }
}

/// A limit: one of the true distances or beside it where there is one, or a number that is the end of something.
pub fn limit(random: &mut Random, distances: &[f32]) -> f32 {
    if !distances.is_empty() && random.chance(60) {
        let at = random.pick(distances).max(random.pick(distances));
        random.pick(&[at, at, at, at.next_up(), at.next_down()])
    } else {
        match random.below(10) {
            0..3 => f32::INFINITY,
            3..5 => random.pick(&ODD),
            5..7 => (1 + random.below(30)) as f32 / 2.0,
            7 => random.pick(&[-0.0, 0.0, -1.0, f32::NEG_INFINITY]),
            8 => 16_777_216.0 + 2.0 * random.below(8) as f32,
            _ => any_nan(random),
        }
    }
}
