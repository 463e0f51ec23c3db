//! Numbers typed by candidates, marked over whole numbers.

use super::Refusal;

pub const LINE_LENGTH: usize = 13;

pub const WRONG: u8 = 0;
pub const RIGHT: u8 = 1;
pub const BLANK: u8 = 2;
pub const OTHER_UNIT: u8 = 3;
pub const NO_NUMBER: u8 = 4;

/// The signed error is held to this, both ways.
const MOST_ERROR: u64 = 1_000_000;

/// "A sheet line holds the number as given, the model value as a float, the
/// verdict, and the signed error."
#[derive(Clone, Copy, Debug)]
pub struct SheetLine {
    /// The pattern of the float as typed; zero where blank.
    pub given: u32,
    pub model: f32,
    pub verdict: u8,
    pub error: i32,
}

impl SheetLine {
    /// "4, 4, 1 and 4 bytes, low byte first."
    pub fn to_bytes(&self) -> [u8; LINE_LENGTH] {
        let mut bytes = [0; LINE_LENGTH];
        bytes[0..4].copy_from_slice(&self.given.to_le_bytes());
        bytes[4..8].copy_from_slice(&self.model.to_le_bytes());
        bytes[8] = self.verdict;
        bytes[9..13].copy_from_slice(&self.error.to_le_bytes());
        bytes
    }
}

/// Marks a typed answer: its unit byte (0 blank, 1 seconds, 2 metres) and the
/// pattern of its float. 23 if the question or the unit byte is out of range.
pub fn mark(
    kind: u8,
    amount: u32,
    speed: u32,
    tolerance: u32,
    unit: u8,
    pattern: u32,
) -> Result<SheetLine, Refusal> {
    let most_amount = match kind {
        1 => 20_000,
        2 => 10_000,
        _ => return Err(Refusal::Number),
    };
    if !(1..=most_amount).contains(&amount) || !(1..=200).contains(&speed) || tolerance > 10_000 || unit > 2 {
        return Err(Refusal::Number);
    }
    // The exact answer as a fraction: 18D/(5v) seconds, 5vT/18 metres. Its
    // parts are below 2^24, so that the casts are exact and the division
    // gives the nearest float.
    let (above, below) = match kind {
        1 => (18 * amount, 5 * speed),
        _ => (5 * speed * amount, 18),
    };
    let model = above as f32 / below as f32;
    let unmarked = |given, verdict| SheetLine { given, model, verdict, error: 0 };
    if unit == 0 {
        return Ok(unmarked(0, BLANK));
    }
    // Kind 1 asks for seconds, unit 1; kind 2 for metres, unit 2.
    if unit != kind {
        return Ok(unmarked(pattern, OTHER_UNIT));
    }
    if !f32::from_bits(pattern).is_finite() {
        return Ok(unmarked(pattern, NO_NUMBER));
    }
    let (is_right, error) = distance(pattern, above.into(), below.into(), tolerance.into());
    Ok(SheetLine { given: pattern, model, verdict: if is_right { RIGHT } else { WRONG }, error })
}

/// Whether a finite float is within the tolerance of above/below, and the
/// signed error in thousandths.
#[inline]
fn distance(pattern: u32, above: u64, below: u64, tolerance: u64) -> (bool, i32) {
    let is_negative = pattern >> 31 == 1;
    let exponent = pattern >> 23 & 255;
    let fraction = u64::from(pattern & 0x7f_ffff);
    // The value is significand / 2^shift.
    let (significand, shift) = match exponent {
        0 => (fraction, 149),
        1..150 => (fraction | 0x80_0000, 150 - exponent),
        // 2^23 and more: a thousand away from every exact answer, which is
        // below 600,000.
        _ => return (false, if is_negative { -(MOST_ERROR as i32) } else { MOST_ERROR as i32 }),
    };
    // All values between zero and one part in 1000 * below (at most a
    // million) compare alike: only that they are not zero counts. One that is
    // below 2^-40 is taken as 2^-40, so that the sums fit.
    let (significand, shift) = if shift > 64 { (significand.min(1), 40) } else { (significand, shift) };
    // Thousandths, times below, times 2^shift.
    let typed = i128::from(1000 * below * significand);
    let typed = if is_negative { -typed } else { typed };
    let difference = typed - (i128::from(1000 * above) << shift);
    let size = difference.unsigned_abs();
    let is_right = size <= u128::from(tolerance * below) << shift;
    // Cutting twice is cutting once by the product.
    let error = ((size >> shift) as u64 / below).min(MOST_ERROR) as i32;
    (is_right, if difference < 0 { -error } else { error })
}
