//! Floats as text: the shortest digits that bring each back bit for bit.

/// The f32 nearest to a number in text; infinity is `inf`. None where the text is no number, or a finite one that is
/// above every f32.
pub fn read_float(text: &str) -> Option<f32> {
    let number: f32 = text.parse().ok()?;
    let says_infinity = text.contains(['n', 'N']);
    if number.is_infinite() && !says_infinity { None } else { Some(number) }
}

/// The one float, beside its negative, whose shortest digits, 7.038531e-26, read as a double and then rounded to a float
/// are another one: found by trying all floats.
const LOST_THROUGH_A_DOUBLE: u32 = 0x15AE_43FD;

/// Adds the float in the shortest digits that bring it back: `14.142136`, `10`, `9.313226e-10`, `inf`. They do so also
/// where a program reads a double and rounds it then.
pub fn push_float(text: &mut String, number: f32) {
    if number.abs().to_bits() == LOST_THROUGH_A_DOUBLE {
        text.push_str(&format!("{number:.8e}"));
    } else if number.is_finite() {
        let mut buffer = ryu::Buffer::new();
        let digits = buffer.format_finite(number);
        text.push_str(digits.strip_suffix(".0").unwrap_or(digits));
    } else {
        text.push_str(&number.to_string());
    }
}

/// The float in the shortest digits that bring it back.
pub fn shortest(number: f32) -> String {
    let mut text = String::new();
    push_float(&mut text, number);
    text
}

/// The same with a decimal point, by which other programs see that a file holds floats.
pub fn with_point(number: f32) -> String {
    let text = shortest(number);
    match text.split_once('e') {
        _ if text.contains('.') || !number.is_finite() => text,
        Some((digits, exponent)) => format!("{digits}.0e{exponent}"),
        None => text + ".0",
    }
}

/// A count with its thousands parted: 1,048,576.
pub fn thousands(count: u64) -> String {
    let digits = count.to_string();
    let parts: Vec<&str> =
        digits.as_bytes().rchunks(3).rev().map(|part| str::from_utf8(part).expect("digits")).collect();
    parts.join(",")
}
