//! Numbers as people write them.

use super::forms::NUMBER;

/// A whole number in range, however it is written.
pub fn read(field: &str) -> Option<i64> {
    let number = field.parse().ok();
    number.filter(|number| (-NUMBER..=NUMBER).contains(number))
}

/// A number as somebody types it, in the form that it has in a sheet; one out of
/// range is for Retouch to refuse, and one that no cell can hold becomes the
/// largest or smallest that can. Else what to write in its place.
///
/// ```
/// use lindypo::typed_number;
///
/// assert_eq!(typed_number("-325"), Ok(-325));
/// assert_eq!(typed_number("2000000000"), Ok(2_000_000_000));
/// assert_eq!(typed_number("99999999999999999999"), Ok(i64::MAX));
/// assert_eq!(
///     typed_number("-3.25"),
///     Err("numbers are whole: in hundredths it is `-325`".to_string())
/// );
/// assert_eq!(typed_number("x"), Err("a number is digits, with `-` before them below 0".to_string()));
/// ```
pub fn typed(word: &str) -> Result<i64, String> {
    let (sign, digits) = split_sign(word);
    let is_plain = is_digits(digits) && !digits.starts_with('0') && !word.starts_with('+');
    match word.parse::<i64>() {
        Ok(number) if is_plain || word == "0" => Ok(number),
        Err(_) if is_plain && sign == "-" => Ok(i64::MIN),
        Err(_) if is_plain => Ok(i64::MAX),
        _ => Err(instead(word).unwrap_or_else(|| PLAIN.to_string())),
    }
}

const PLAIN: &str = "a number is digits, with `-` before them below 0";

/// What to write in place of a field that is no number.
pub fn instead(field: &str) -> Option<String> {
    if let Some(number) = read(field) {
        let what = match field.as_bytes()[0] {
            b'+' => "a number has no plus sign",
            _ if number == 0 && field.starts_with('-') => "zero has no sign",
            _ => "a number has no leading zeros",
        };
        return Some(format!("{what}: write `{number}`"));
    }
    let (sign, digits) = split_sign(field);
    let is_whole = is_digits(digits);
    match is_whole {
        true if sign == "-" => Some(format!("the smallest number is -{NUMBER}")),
        true => Some(format!("the largest number is {NUMBER}")),
        false => decimal(sign, digits).or_else(|| trimmed(sign, digits)),
    }
}

fn split_sign(field: &str) -> (&str, &str) {
    match field.strip_prefix('-') {
        Some(digits) => ("-", digits),
        None => ("", field.strip_prefix('+').unwrap_or(field)),
    }
}

fn is_digits(field: &str) -> bool {
    !field.is_empty() && field.bytes().all(|byte| byte.is_ascii_digit())
}

/// Whether digits have a point or comma.
pub fn is_decimal(field: &str) -> bool {
    let parts = split_sign(field).1.split_once(['.', ',']);
    parts.is_some_and(|(whole, part)| is_digits(part) && (whole.is_empty() || is_digits(whole)))
}

/// A number with a point or comma.
fn decimal(sign: &str, digits: &str) -> Option<String> {
    let (whole, part) = digits
        .split_once(['.', ','])
        .filter(|_| is_decimal(digits))?;
    let hundredths = read(&format!("{sign}{whole}{part:0<2}")).filter(|_| part.len() <= 2);
    Some(match hundredths {
        Some(number) => format!("numbers are whole: in hundredths it is `{number}`"),
        None => "numbers are whole: write it in a smaller unit, as hundredths".to_string(),
    })
}

/// Digits with something after them: a sign, a unit.
fn trimmed(sign: &str, digits: &str) -> Option<String> {
    let end = digits.find(|letter: char| !letter.is_ascii_digit())?;
    let (digits, rest) = digits.split_at(end);
    let sign = if rest == "-" { "-" } else { sign };
    let number = read(&format!("{sign}{digits}"))?;
    Some(match rest {
        "-" => format!("the sign stands before the digits: write `{number}`"),
        _ => format!("a number is digits alone: is `{number}` meant?"),
    })
}
