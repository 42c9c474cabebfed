//! Numbers as a reader writes them.

use std::fmt::Display;

/// Digits in groups of three: 1,980.
pub fn commas(number: impl Display) -> String {
    let digits = number.to_string();
    let mut grouped = String::new();
    for (index, digit) in digits.chars().enumerate() {
        if index > 0 && (digits.len() - index).is_multiple_of(3) {
            grouped.push(',');
        }
        grouped.push(digit);
    }
    grouped
}

/// Thousandths as a number with the decimals that it needs: 123.36.
pub fn thousandths(number: u128) -> String {
    let whole = commas(number / 1000);
    match number % 1000 {
        0 => whole,
        part => {
            let decimals = format!("{part:03}");
            format!("{whole}.{}", decimals.trim_end_matches('0'))
        }
    }
}

/// A quotient with the decimals that it needs; where four aren't enough, two points follow them: 6.72, 51.6923..
pub fn quotient(number: u128, divisor: u128) -> String {
    let scaled = 10_000 * number;
    let parts = scaled / divisor;
    let (whole, decimals) = (commas(parts / 10_000), format!("{:04}", parts % 10_000));
    if !scaled.is_multiple_of(divisor) {
        return format!("{whole}.{decimals}..");
    }
    match decimals.trim_end_matches('0') {
        "" => whole,
        needed => format!("{whole}.{needed}"),
    }
}

/// A part of a whole in per cent with one decimal, rounded up, so that 100.0 is never shown for more than the whole and a
/// part above it always shows as more.
pub fn per_cent(part: u128, whole: u128) -> String {
    if whole == 0 {
        return "-".to_string();
    }
    let tenths = (part * 1000).div_ceil(whole);
    format!("{}.{}", commas(tenths / 10), tenths % 10)
}

/// One thing or several.
pub fn counted(count: usize, one: &str, several: &str) -> String {
    format!(
        "{} {}",
        commas(count),
        if count == 1 { one } else { several }
    )
}
