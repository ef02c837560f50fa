//! Times: seconds since 1970, or UTC as ISO 8601 writes it.

use crate::description::Token;

const FORM: &str = "a time is given in seconds since 1970, as 1700000000, or in UTC, as \
                    2023-11-14T22:13:20Z";
/// Digits stand where it has a 0.
const UTC: &[u8] = b"0000-00-00T00:00:00Z";
const FIRST_YEAR: u64 = 1970;
const MONTHS: [u64; 12] = [31, 28, 31, 30, 31, 30, 31, 31, 30, 31, 30, 31];

/// The seconds of one time.
pub fn seconds(tokens: &[Token]) -> Result<u64, String> {
    let [Token::Word(word)] = tokens else {
        return Err(FORM.to_string());
    };
    let seconds = match is_utc(word) {
        true => of_utc(word),
        false => number(word),
    };
    seconds.ok_or_else(|| FORM.to_string())
}

/// A number that has digits alone, and 64 bits at the most.
fn number(digits: &[u8]) -> Option<u64> {
    let all_digits = digits.iter().all(u8::is_ascii_digit);
    let text = std::str::from_utf8(digits).ok().filter(|_| all_digits);
    text?.parse().ok()
}

fn is_utc(word: &[u8]) -> bool {
    let own = |(form, octet): (&u8, &u8)| match form {
        b'0' => octet.is_ascii_digit(),
        _ => octet.eq_ignore_ascii_case(form),
    };
    word.len() == UTC.len() && UTC.iter().zip(word).all(own)
}

/// The seconds of a time of this form, if there is such a day and second.
fn of_utc(word: &[u8]) -> Option<u64> {
    let numbers = word.split(|octet| !octet.is_ascii_digit());
    let numbers: Vec<u64> = numbers.filter_map(number).collect();
    let [year, month, day, hour, minute, second] = numbers[..] else {
        return None;
    };
    let is_time = hour < 24 && minute < 60 && second < 60;
    let days = days(year, month, day).filter(|_| is_time)?;
    Some(((days * 24 + hour) * 60 + minute) * 60 + second)
}

/// The days since 1970 began.
fn days(year: u64, month: u64, day: u64) -> Option<u64> {
    let index = usize::try_from(month).ok()?.checked_sub(1)?;
    let leap = u64::from(is_leap(year));
    let february = if month == 2 { leap } else { 0 };
    let length = *MONTHS.get(index)? + february;
    if year < FIRST_YEAR || day == 0 || day > length {
        return None;
    }
    let years: u64 = (FIRST_YEAR..year)
        .map(|own| 365 + u64::from(is_leap(own)))
        .sum();
    let months: u64 = MONTHS.iter().take(index).sum();
    let after_february = if month > 2 { leap } else { 0 };
    Some(years + months + after_february + day - 1)
}

fn is_leap(year: u64) -> bool {
    year.is_multiple_of(4) && (!year.is_multiple_of(100) || year.is_multiple_of(400))
}
