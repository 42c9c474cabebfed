//! A colour for each flow in two shades, and one for a share.

/// Neighbours in the list of flows get hues far apart.
fn hue(flow: usize) -> f64 {
    (210.0 + flow as f64 * 137.508) % 360.0
}

pub fn sending(flow: usize) -> String {
    format!("hsl({:.0},62%,38%)", hue(flow))
}

pub fn waiting(flow: usize) -> String {
    format!("hsl({:.0},58%,76%)", hue(flow))
}

/// How much of a limit is used.
pub fn share(part: u64, whole: u64) -> &'static str {
    let cent = 100 * u128::from(part);
    let of = |limit: u128| cent > limit * u128::from(whole);
    match () {
        _ if of(100) => "#d32f2f",
        _ if of(80) => "#e79a5b",
        _ if of(50) => "#f2d071",
        _ => "#a9d3a0",
    }
}
