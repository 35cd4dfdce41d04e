//! Positions as decimal text: a latitude and a longitude in degrees, as `-33.85 151.2`.

/// How many units of 1e-7 degrees a degree has.
const DEGREE: i64 = 10_000_000;

/// The latitude and the longitude in units of 1e-7 degrees, in range or not; nothing where the text spells no position.
pub fn position(text: &str) -> Option<(i64, i64)> {
    let (latitude, rest) = text.split_once(' ')?;
    Some((number(latitude)?, number(rest.trim_start_matches(' '))?))
}

/// The units of a number: perhaps a minus sign, one to three digits, perhaps a dot and one to seven digits.
fn number(text: &str) -> Option<i64> {
    let unsigned = text.strip_prefix('-').unwrap_or(text);
    let (whole, decimals) = unsigned.split_once('.').unwrap_or((unsigned, "0"));
    let whole = digits(whole, 3)? * DEGREE;
    let decimals = digits(decimals, 7)? * DEGREE / 10_i64.pow(decimals.len() as u32);
    let units = whole + decimals;
    Some(if text.starts_with('-') { -units } else { units })
}

/// The number that one digit to so many spell.
fn digits(text: &str, most: usize) -> Option<i64> {
    let are_digits =
        (1..=most).contains(&text.len()) && text.bytes().all(|byte| byte.is_ascii_digit());
    are_digits.then(|| text.parse().ok())?
}
