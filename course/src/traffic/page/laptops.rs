//! Laptops' frames on a link, in grey, in a lane of their own: they are in no queue.

use super::charts::{Scale, LEFT, RIGHT};
use super::lanes::instant;
use super::stretch::Recorder;
use super::svg::{Drawing, Rect};
use crate::numbers::commas;
use crate::traffic::frames::BestEffort;
use crate::traffic::report::sent;
use crate::traffic::slots::before_moment;
use plain::table::Queue;

const HEIGHT: f64 = 27.0;
const BAR: f64 = 9.0;
const LEAST_WITH_EDGE: f64 = 4.0;

/// A link's longest best-effort frame, `1,542 B`; nothing where no laptop may be plugged in.
pub fn longest(link: &Queue) -> Option<String> {
    let bytes = link.best_effort_frame;
    (bytes > 0).then(|| format!("{} B", commas(bytes)))
}

/// The lane of a link that laptops share; the next free height.
pub fn lane(
    drawing: &mut Drawing,
    scale: Scale,
    link: &Queue,
    recorder: &Recorder,
    top: f64,
) -> f64 {
    let index = link.link as usize - 1;
    let (frames, more) = (&recorder.laptops[index], recorder.more_laptops[index]);
    let limit = match longest(link) {
        Some(longest) => format!("to {longest}"),
        // One that doesn't conform.
        None if !frames.is_empty() => "none allowed".to_string(),
        None => return top,
    };
    drawing.rect(Rect(LEFT, top, RIGHT - LEFT, HEIGHT), "class=\"lane\"");
    drawing.text((4.0, top + 11.0), "class=\"name\"", "laptops");
    drawing.note((4.0, top + 23.0), &limit);
    for frame in frames {
        one_frame(drawing, scale, link, frame, top + 3.0);
    }
    let words = match (frames.is_empty(), more) {
        (true, _) => "no laptop's frame in this stretch".to_string(),
        (_, 0) => String::new(),
        _ => format!("and {} more: choose a shorter stretch", commas(more)),
    };
    drawing.note((LEFT + 6.0, top + 23.0), &words);
    top + HEIGHT + 12.0
}

/// A thin line while it is ready and waits, then a bar; its numbers for a reader who points at it.
fn one_frame(drawing: &mut Drawing, scale: Scale, link: &Queue, frame: &BestEffort, y: f64) {
    let speed = link.speed;
    let ready = instant(before_moment(frame.laptop.ready, speed), speed);
    let (first, end) = (instant(frame.first, speed), instant(frame.end(), speed));
    drawing.raw(&format!(
        "<g class=\"laptop\" data-link=\"{}\" data-ready=\"{}\" data-bytes=\"{}\" data-gone=\"{}\">",
        link.link, frame.laptop.ready, frame.laptop.bytes, frame.gone
    ));
    drawing.raw(&format!(
        "<title>a laptop's frame, {} bytes: {}</title>",
        commas(frame.laptop.bytes),
        sent(frame, speed)
    ));
    if first > ready && scale.shows(ready, first) {
        let middle = y + BAR / 2.0;
        let at = |instant: f64| (scale.x(instant), middle);
        drawing.line(at(ready), at(first), "class=\"ready\"");
    }
    if scale.shows(first, end) {
        let (x, to) = (scale.x(first), scale.x(end));
        let bar = Rect(x, y, (to - x).max(0.6), BAR);
        // An edge, so that one right behind another can be told from it; a narrow one would be all edge.
        let edge = match to - x > LEAST_WITH_EDGE {
            true => " stroke=\"#fff\" stroke-width=\"0.8\"",
            false => "",
        };
        drawing.rect(bar, &format!("class=\"best-effort\"{edge}"));
    }
    drawing.raw("</g>");
}
