//! What rust_decimal makes of a numeral, and its numbers in millionths.
use rust_decimal::Decimal;
use std::str::FromStr;

/// The number in millionths, where these are whole.
fn millionths(d: Decimal) -> Option<i128> {
    let (mut m, mut s) = (d.mantissa(), d.scale());
    while s > 6 {
        if m % 10 != 0 {
            return None;
        }
        m /= 10;
        s -= 1;
    }
    m.checked_mul(10i128.pow(6 - s))
}

/// What rust_decimal reads, in millionths where these are whole and within the limit.
pub fn numeral(src: &str) -> String {
    match Decimal::from_str(src).ok().and_then(millionths) {
        Some(m) if m.abs() <= 10_000_000_000_000 => format!("{} {}", if m < 0 { "-" } else { "+" }, m.abs()),
        _ => "not".to_string(),
    }
}

pub fn decimal(src: &str) -> String {
    match Decimal::from_str(src) {
        Ok(d) => format!("{} {}", d.mantissa(), d.scale()),
        Err(_) => "refused".to_string(),
    }
}

/// A number that the original keeps: in millionths, or `~` and the number itself where these are not whole.
pub fn kept(d: &Decimal) -> String {
    match millionths(*d) {
        Some(m) => m.to_string(),
        None => format!("~{}", d.normalize()),
    }
}
