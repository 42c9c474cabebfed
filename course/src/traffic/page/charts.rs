//! What stands below the frames of a level: its backlog, and the instants of the stretch.

use super::stretch::{Shown, Stretch};
use super::svg::{Drawing, WIDTH};
use crate::numbers::commas;
use plain::table::Queue;

pub const LEFT: f64 = 78.0;
pub const RIGHT: f64 = WIDTH - 10.0;
const CHART: f64 = 30.0;

/// Where instants lie across.
#[derive(Clone, Copy)]
pub struct Scale {
    pub stretch: Stretch,
}

impl Scale {
    /// Whether a bar between these instants has a part in the stretch.
    pub fn shows(&self, from: f64, to: f64) -> bool {
        to > self.stretch.from as f64 && from < self.stretch.to as f64
    }

    /// Whether an instant lies in the stretch.
    pub fn holds(&self, instant: f64) -> bool {
        (self.stretch.from as f64..=self.stretch.to as f64).contains(&instant)
    }

    /// Cut off at the ends of the stretch.
    pub fn x(&self, instant: f64) -> f64 {
        let Stretch { from, to } = self.stretch;
        let share = (instant - from as f64) / (to - from).max(1) as f64;
        LEFT + (RIGHT - LEFT) * share.clamp(0.0, 1.0)
    }
}

/// Bytes in the queue against its buffer, the dashed line; the next free height.
pub fn backlog(
    drawing: &mut Drawing,
    scale: Scale,
    queue: &Queue,
    shown: &Shown,
    greatest: u64,
    top: f64,
) -> f64 {
    let full = queue.buffer.max(greatest) as f64;
    let height = |bytes: u64| top + CHART - (CHART - 2.0) * bytes as f64 / full;
    let Queue {
        link,
        level,
        buffer,
        ..
    } = queue;
    let path = outline(scale, shown, height);
    drawing.raw(&format!(
        "<path class=\"backlog\" data-link=\"{link}\" data-level=\"{level}\" d=\"{path}\"/>"
    ));
    let (base, limit) = (height(0), height(*buffer));
    drawing.line((LEFT, base), (RIGHT, base), "class=\"axis\"");
    drawing.line((LEFT, limit), (RIGHT, limit), "class=\"buffer\"");
    drawing.note((4.0, top + 8.0), "backlog max");
    drawing.note((4.0, top + 19.0), &format!("{} of", commas(greatest)));
    drawing.note((4.0, top + 30.0), &format!("{} B", commas(buffer)));
    base
}

/// Up and down in steps, from the base and back to it.
fn outline(scale: Scale, shown: &Shown, height: impl Fn(u64) -> f64) -> String {
    let Stretch { from, to } = scale.stretch;
    let mut path = format!("M{:.2} {:.2}", scale.x(from as f64), height(0));
    let mut before = 0;
    for &(instant, bytes) in &shown.backlog {
        let (x, old, new) = (scale.x(instant as f64), height(before), height(bytes));
        path += &format!("L{x:.2} {old:.2}L{x:.2} {new:.2}");
        before = bytes;
    }
    let (x, last, base) = (scale.x(to as f64), height(before), height(0));
    path + &format!("L{x:.2} {last:.2}V{base:.2}Z")
}

/// Steps of 1, 2 or 5 times a power of ten, eight at most.
fn step(span: u64) -> u64 {
    let mut step = 1;
    loop {
        for times in [1, 2, 5] {
            if span / (step * times) <= 7 {
                return step * times;
            }
        }
        step *= 10;
    }
}

/// The instants along the lower edge; the next free height.
pub fn time(drawing: &mut Drawing, scale: Scale, top: f64) -> f64 {
    let Stretch { from, to } = scale.stretch;
    drawing.line((LEFT, top), (RIGHT, top), "class=\"axis\"");
    drawing.note((4.0, top + 14.0), "instant, µs");
    let step = step(to - from);
    let mut tick = from.div_ceil(step) * step;
    while tick <= to {
        let x = scale.x(tick as f64);
        drawing.line((x, top), (x, top + 4.0), "class=\"axis\"");
        let at_end = x > RIGHT - 24.0;
        let anchor = if at_end { "end" } else { "middle" };
        let x = if at_end { RIGHT } else { x };
        let look = format!("class=\"small\" text-anchor=\"{anchor}\"");
        drawing.text((x, top + 14.0), &look, &commas(tick));
        tick += step;
    }
    top + 20.0
}
