//! A flow's burst at each hop of its path, with the parts of S that it grows by.

use crate::numbers::{commas, quotient};
use crate::titles::queue_name;
use plain::formula::{growth, shortest_sending};
use plain::orders::{Flow, SMALLEST_FRAME};
use plain::work::HopWork;

/// The bursts along a path; where it has several hops, first what S is made of. Where a flow is to be changed, its old
/// bursts stand beside.
pub fn bursts(flow: &Flow, hops: &[HopWork], old: &[HopWork]) -> Vec<String> {
    // The last hop adds nothing to S: no hop comes after it.
    let before = &hops[..hops.len().saturating_sub(1)];
    let mut lines = Vec::new();
    if !before.is_empty() {
        lines.push(format!(
            "shortest sending time: no frame leaves a queue sooner than it is sent, and the smallest has {SMALLEST_FRAME} bytes"
        ));
        lines.extend(sending_times(before));
        lines.push(
            "parts of S: threshold less shortest sending time; only this rest can bunch frames"
                .to_string(),
        );
        let numbered = before.iter().enumerate();
        lines.extend(numbered.map(|(index, hop)| part(index, hop)));
    }
    lines.push("bursts along the path".to_string());
    let olds = old.iter().map(Some).chain(std::iter::repeat(None));
    lines.extend(hops.iter().zip(olds).map(|(hop, old)| {
        let before = old.map(|old| format!(", in place of {}", commas(old.share.burst)));
        burst(flow, hop) + &before.unwrap_or_default()
    }));
    lines
}

/// `672 bits at 100 Mbit/s: 6.72, so 7 µs`, each speed of these hops once.
fn sending_times(hops: &[HopWork]) -> Vec<String> {
    let mut speeds: Vec<u128> = Vec::new();
    for speed in hops.iter().map(|hop| u128::from(hop.queue.speed)) {
        if !speeds.contains(&speed) {
            speeds.push(speed);
        }
    }
    speeds.into_iter().map(sending_time).collect()
}

fn sending_time(speed: u128) -> String {
    let bits = u128::from(8 * SMALLEST_FRAME);
    let (exact, whole) = (quotient(bits, speed), commas(shortest_sending(speed)));
    let rounded = if exact == whole {
        String::new()
    } else {
        format!("{exact}, so ")
    };
    format!(
        "  {bits} bits at {} Mbit/s: {rounded}{whole} µs",
        commas(speed)
    )
}

/// `link 2 level 1: 371 − 7 = 364, S 364 + 364 = 728`; the first hop's part is S by itself.
fn part(index: usize, hop: &HopWork) -> String {
    let queue = &hop.queue;
    let (threshold, shortest) = (
        u128::from(queue.threshold),
        shortest_sending(u128::from(queue.speed)),
    );
    let sign = if threshold < shortest {
        " is below zero:"
    } else {
        " ="
    };
    let mut line = format!(
        "  {}: {} − {}{sign} {}",
        queue_name(hop.hop),
        commas(threshold),
        commas(shortest),
        commas(hop.growth)
    );
    if index > 0 {
        let (before, with) = (hop.earlier, hop.earlier + hop.growth);
        line += &format!(
            ", S {} + {} = {}",
            commas(before),
            commas(hop.growth),
            commas(with)
        );
    }
    line
}

fn burst(flow: &Flow, hop: &HopWork) -> String {
    let at = queue_name(hop.hop);
    if hop.earlier == 0 {
        return format!("  {at}: {}", commas(hop.share.burst));
    }
    let grown = growth(hop.share.rate, hop.earlier);
    format!(
        "  {at}: {} + ceil({} × {} / {}) = {}",
        commas(flow.burst),
        commas(flow.rate),
        commas(hop.earlier),
        grown.divisor,
        commas(hop.share.burst)
    )
}
