//! What 02 asks of a result, by whole numbers alone: nothing here converts between an integer and a binary64.

const SIGN: u64 = 1 << 63;
const LEADING: u64 = 1 << 52;

/// The exponent from which on sizes are infinite or NaN, the one at which the last digit is worth 1, and the one at which
/// it is worth 2^-53.
const NOT_FINITE: u64 = 2047;
const WHOLE: u64 = 1075;
const UNIT: u64 = 1022;

/// How a word was converted.
#[derive(Clone, Copy, Debug, PartialEq, Eq, PartialOrd, Ord)]
pub enum Case {
    Exact,
    Down,
    Up,
    TieDown,
    TieUp,
    WholeNumber,
    FractionDropped,
    OnlyFraction,
    Nan,
    Infinite,
    Outside,
}

fn exponent(pattern: u64) -> u64 {
    (pattern & !SIGN) / LEADING
}

/// In units of 2^-53; of sizes from 1/2 to below 2^64, among which is every integer's nearest and those beside it, 0 apart.
fn units(size: u64) -> Option<u128> {
    let exponent = exponent(size);
    (UNIT..=UNIT + 64).contains(&exponent).then(|| u128::from(LEADING + size % LEADING) << (exponent - UNIT))
}

/// "The nearest binary64, ties to even". Patterns of one sign are in the order of their sizes, so if neither neighbour is
/// closer, none is.
pub fn nearest(integer: i64, given: Option<u64>) -> Result<Case, String> {
    let pattern = given.ok_or("refused")?;
    if integer == 0 {
        return if pattern == 0 { Ok(Case::Exact) } else { Err("0 is +0.0".to_string()) };
    }
    let size = pattern & !SIGN;
    let wanted = u128::from(integer.unsigned_abs()) << 53;
    let distance = |size| units(size).map(|there| there.abs_diff(wanted));
    let near = (units(size), distance(size.wrapping_sub(1)), distance(size + 1));
    let (Some(there), Some(below), Some(above)) = near else {
        return Err("of quite another size".to_string());
    };
    let (here, beside, up) = (there.abs_diff(wanted), below.min(above), there > wanted);
    match here {
        _ if (pattern >= SIGN) != (integer < 0) => Err("of another sign".to_string()),
        _ if beside < here => Err("a binary64 beside it is closer".to_string()),
        0 => Ok(Case::Exact),
        _ if beside == here && size % 2 == 1 => Err("the one beside it is as close, and even".to_string()),
        _ if beside == here => Ok(if up { Case::TieUp } else { Case::TieDown }),
        _ => Ok(if up { Case::Up } else { Case::Down }),
    }
}

/// Whether a finite size is at least the number, which is at most 2^64.
fn at_least(size: u64, number: u128) -> bool {
    let exponent = exponent(size);
    let leading = if exponent == 0 { 0 } else { LEADING };
    let digits = u128::from(leading + size % LEADING);
    match exponent.checked_sub(WHOLE) {
        Some(up) => up > 64 || digits << up >= number,
        // Below 2^53 last digits, of which 2^63 are worth less than 1.
        None if WHOLE - exponent > 63 => number == 0,
        None => digits >= number << (WHOLE - exponent),
    }
}

/// "REAL to INTEGER drops the fraction": the size is at least the integer's and below the next. Refused is "a NaN, an
/// infinity or a value outside -2^63 to 2^63-1 after the fraction is dropped".
pub fn without_fraction(pattern: u64, given: Option<i64>) -> Result<Case, String> {
    let (size, negative) = (pattern & !SIGN, pattern >= SIGN);
    let finite = exponent(size) < NOT_FINITE;
    let past = (1u128 << 63) + u128::from(negative);
    let Some(integer) = given else {
        return match finite {
            false if size % LEADING == 0 => Ok(Case::Infinite),
            false => Ok(Case::Nan),
            true if at_least(size, past) => Ok(Case::Outside),
            true => Err("refused inside the range".to_string()),
        };
    };
    let whole = u128::from(integer.unsigned_abs());
    let signed = integer == 0 || (integer < 0) == negative;
    match finite && signed && at_least(size, whole) && !at_least(size, whole + 1) {
        false => Err("not the value without its fraction".to_string()),
        true if integer == 0 && size != 0 => Ok(Case::OnlyFraction),
        true if has_fraction(size) => Ok(Case::FractionDropped),
        true => Ok(Case::WholeNumber),
    }
}

/// Of a size from 1 on: a digit that is worth less than 1.
fn has_fraction(size: u64) -> bool {
    let below = WHOLE.saturating_sub(exponent(size));
    below <= 52 && size % LEADING % (1 << below) != 0
}
