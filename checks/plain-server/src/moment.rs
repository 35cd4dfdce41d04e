//! Stamps, and the instants that they say.

use std::time::{SystemTime, UNIX_EPOCH};

/// An instant in UTC: seconds from the beginning of 1970, and nanoseconds.
#[derive(Clone, Copy, PartialEq, Eq, PartialOrd, Ord, Debug)]
pub struct Moment {
    seconds: i64,
    nanoseconds: u32,
}

impl Moment {
    /// The instant of the machine's clock.
    pub fn now() -> Moment {
        let passed = SystemTime::now()
            .duration_since(UNIX_EPOCH)
            .unwrap_or_default();
        Moment {
            seconds: passed.as_secs() as i64,
            nanoseconds: passed.subsec_nanos(),
        }
    }

    /// The instant of a stamp: `YYYY-MM-DDThh:mm:ss`, perhaps a dot and 1 to 9 digits, and `Z`.
    pub fn of_stamp(stamp: &str) -> Option<Moment> {
        let bytes = stamp.strip_suffix('Z')?.as_bytes();
        let (whole, fraction) = bytes.split_at_checked(19)?;
        for (place, mark) in [(4, b'-'), (7, b'-'), (10, b'T'), (13, b':'), (16, b':')] {
            if whole[place] != mark {
                return None;
            }
        }
        let part = |from: usize, to: usize| digits(&whole[from..to]);
        let days = days(part(0, 4)?, part(5, 7)?, part(8, 10)?)?;
        let (hour, minute, second) = (part(11, 13)?, part(14, 16)?, part(17, 19)?);
        if hour > 23 || minute > 59 || second > 59 {
            return None;
        }
        Some(Moment {
            seconds: ((days * 24 + hour) * 60 + minute) * 60 + second,
            nanoseconds: nanoseconds(fraction)?,
        })
    }
}

/// The number that digits spell.
fn digits(bytes: &[u8]) -> Option<i64> {
    bytes.iter().try_fold(0, |number, byte| {
        byte.is_ascii_digit()
            .then(|| number * 10 + i64::from(byte - b'0'))
    })
}

/// The nanoseconds of a fraction of a second: nothing, or a dot and 1 to 9 digits.
fn nanoseconds(fraction: &[u8]) -> Option<u32> {
    match fraction {
        [] => Some(0),
        [b'.', places @ ..] if (1..=9).contains(&places.len()) => {
            let number = digits(places)? * 10_i64.pow(9 - places.len() as u32);
            u32::try_from(number).ok()
        }
        _ => None,
    }
}

/// The days from the beginning of 1970 to a day that exists.
fn days(year: i64, month: i64, day: i64) -> Option<i64> {
    let is_leap = year % 4 == 0 && (year % 100 != 0 || year % 400 == 0);
    let length = match month {
        4 | 6 | 9 | 11 => 30,
        2 if is_leap => 29,
        2 => 28,
        1 | 3..=12 => 31,
        _ => return None,
    };
    if year < 1 || day < 1 || day > length {
        return None;
    }
    // Years are counted from March, so that the leap day comes last.
    let years = if month > 2 { year } else { year - 1 };
    let leap_days = years / 4 - years / 100 + years / 400;
    let of_months = (153 * ((month + 9) % 12) + 2) / 5;
    Some(years * 365 + leap_days + of_months + day - 719_469)
}

#[cfg(test)]
mod tests {
    use super::*;

    #[test]
    fn counts_from_1970() {
        let seconds = |stamp| Moment::of_stamp(stamp).map(|moment| moment.seconds);
        assert_eq!(seconds("1970-01-01T00:00:00Z"), Some(0));
        assert_eq!(seconds("2000-03-01T00:00:00Z"), Some(951_868_800));
        assert_eq!(seconds("2026-02-28T23:59:59.5Z"), Some(1_772_323_199));
        assert_eq!(seconds("2026-02-29T00:00:00Z"), None);
    }
}
