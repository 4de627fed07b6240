//! Round numbers, and numbers as a legend writes them.
use crate::numbers::thousands;

/// What a round number has before its power of ten; half and ten are there for a number just below or above a power.
const LEADING: [&str; 5] = ["0.5", "1", "2", "5", "10"];

/// Numbers from here on are written with a power of ten.
const DIGITS_MOST: f64 = 1e9;
/// And so are those with decimals behind this power of ten.
const FINEST: i32 = -6;

/// The number nearest to `wanted` by their ratio, and not above `most`, that is 1, 2 or 5 times a power of ten. Both are
/// finite and above 0, and `most` is not below `wanted`.
pub fn nearest(wanted: f64, most: f64) -> f64 {
    let exponent = wanted.log10().floor();
    let candidates = LEADING.map(|leading| format!("{leading}e{exponent}").parse::<f64>().unwrap_or(0.0));
    let fitting = candidates.into_iter().filter(|candidate| *candidate > 0.0 && *candidate <= most);
    let away = |candidate: &f64| (candidate / wanted).ln().abs();
    fitting.min_by(|one, other| away(one).total_cmp(&away(other))).unwrap_or(wanted)
}

/// A round number: `20,000`, `0.05`, `1e-9`.
pub fn written(number: f64) -> String {
    match number {
        _ if (1.0..DIGITS_MOST).contains(&number) => thousands(number as u64),
        _ if (1e-4..1.0).contains(&number) => number.to_string(),
        _ => format!("{number:e}"),
    }
}

/// Numbers that lie within `span` of each other, with as many digits as tell apart its hundredths, and no zeros at the
/// end that all of them have.
pub fn written_alike(numbers: &[f64], span: f64) -> Vec<String> {
    let order = |number: f64| number.abs().log10().floor() as i32;
    let largest = numbers.iter().fold(0.0, |largest: f64, number| largest.max(number.abs()));
    let finest = order(span) - 2;
    if largest >= DIGITS_MOST || finest < FINEST {
        let digits = usize::try_from(order(largest) - finest).unwrap_or(0).min(9);
        with_fewest_digits(numbers, digits, |number, digits| format!("{number:.digits$e}"))
    } else {
        let digits = usize::try_from(-finest).unwrap_or(0);
        let decimals = with_fewest_digits(numbers, digits, |number, digits| format!("{number:.digits$}"));
        decimals.iter().map(|decimal| parted(decimal)).collect()
    }
}

/// All numbers written with the fewest digits that say the same as `most` of them.
fn with_fewest_digits(numbers: &[f64], most: usize, write: impl Fn(f64, usize) -> String) -> Vec<String> {
    let read = |number: f64, digits: usize| write(number, digits).parse::<f64>().unwrap_or(number);
    let say_the_same = |fewer: &usize| numbers.iter().all(|number| read(*number, *fewer) == read(*number, most));
    let digits = (0..most).find(say_the_same).unwrap_or(most);
    let as_read = |number: f64| if read(number, digits) == 0.0 { 0.0 } else { number };
    // What is written as 0 has no sign and no power of ten.
    numbers.iter().map(|number| write(as_read(*number), digits).replace("e0", "")).collect()
}

/// A decimal number with its thousands parted.
fn parted(decimal: &str) -> String {
    let (sign, rest) = decimal.strip_prefix('-').map_or(("", decimal), |rest| ("-", rest));
    let (whole, part) = rest.split_at(rest.find('.').unwrap_or(rest.len()));
    let whole = whole.parse().map_or(whole.to_owned(), thousands);
    format!("{sign}{whole}{part}")
}
