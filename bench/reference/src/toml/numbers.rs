//! Values that are neither strings nor arrays.

use super::{NotToml, Value};

/// Reads a truth value, a whole number or a float.
pub fn read_word(word: &[u8]) -> Result<Value, NotToml> {
    let word = str::from_utf8(word).map_err(|_| NotToml)?;
    if matches!(word, "true" | "false") {
        return Ok(Value::Other);
    }
    for (prefix, radix) in [("0x", 16), ("0o", 8), ("0b", 2)] {
        if let Some(digits) = word.strip_prefix(prefix) {
            let digits = without_underscores(digits, |digit| digit.is_digit(radix))?;
            return i64::from_str_radix(&digits, radix).map(Value::Whole).map_err(|_| NotToml);
        }
    }
    let unsigned = word.strip_prefix(['+', '-']).unwrap_or(word);
    if matches!(unsigned, "inf" | "nan") {
        return Ok(Value::Other);
    }
    match unsigned.find(['.', 'e', 'E']) {
        Some(place) => read_float(unsigned, place),
        None => read_whole(word, unsigned),
    }
}

fn read_whole(word: &str, unsigned: &str) -> Result<Value, NotToml> {
    let digits = decimal_digits(unsigned)?;
    let sign = if word.starts_with('-') { "-" } else { "" };
    format!("{sign}{digits}").parse().map(Value::Whole).map_err(|_| NotToml)
}

/// A float is a whole part with a fraction, an exponent or both, from this place on. One that is too large for an f64 is refused.
fn read_float(float: &str, place: usize) -> Result<Value, NotToml> {
    let (whole, rest) = float.split_at(place);
    decimal_digits(whole)?;
    let (fraction, exponent) = match rest.split_once(['e', 'E']) {
        Some((fraction, exponent)) => (fraction, Some(exponent)),
        None => (rest, None),
    };
    if let Some(digits) = fraction.strip_prefix('.') {
        without_underscores(digits, |digit| digit.is_ascii_digit())?;
    }
    if let Some(exponent) = exponent {
        let digits = exponent.strip_prefix(['+', '-']).unwrap_or(exponent);
        without_underscores(digits, |digit| digit.is_ascii_digit())?;
    }
    let number: f64 = float.replace('_', "").parse().map_err(|_| NotToml)?;
    if number.is_finite() { Ok(Value::Other) } else { Err(NotToml) }
}

/// Digits, of which the first is 0 only where it stands alone.
fn decimal_digits(text: &str) -> Result<String, NotToml> {
    let digits = without_underscores(text, |digit| digit.is_ascii_digit())?;
    if digits.len() > 1 && digits.starts_with('0') { Err(NotToml) } else { Ok(digits) }
}

/// The digits without the underscores, each of which stands between two digits.
fn without_underscores(text: &str, is_digit: impl Fn(char) -> bool) -> Result<String, NotToml> {
    let has_good_groups = text.split('_').all(|group| !group.is_empty() && group.chars().all(&is_digit));
    if has_good_groups { Ok(text.replace('_', "")) } else { Err(NotToml) }
}
