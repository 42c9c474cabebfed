//! A link in the stretch: for each level a lane with its frames, its backlog below, and the time.

use super::charts::{backlog, time, Scale, LEFT, RIGHT};
use super::colours;
use super::laptops;
use super::stretch::Recorder;
use super::svg::{Drawing, Rect};
use crate::numbers::commas;
use crate::traffic::figures::Seen;
use crate::traffic::frames::Stay;
use crate::traffic::hall::Hall;
use crate::traffic::report::behind;
use crate::traffic::slots::{micros, Slots};
use crate::traffic::trace;

const ROW: f64 = 11.0;
/// With more rows than fit, rows are lower.
const MOST_HEIGHT: f64 = 40.0 * ROW;
/// What a bar takes of its row.
const BAR: f64 = 9.0 / 11.0;
/// With more rows than this, frames share a row as soon as the one before has left.
const MOST_ROWS: usize = 16;

/// One link being drawn.
struct Lanes<'a> {
    hall: &'a Hall,
    recorder: &'a Recorder<'a>,
    closest: Option<&'a Stay>,
    scale: Scale,
    drawing: Drawing,
}

/// One drawing for a link; `queues` are its levels.
pub fn link(
    hall: &Hall,
    seen: &[Seen],
    recorder: &Recorder,
    closest: Option<&Stay>,
    queues: &[usize],
) -> String {
    let scale = Scale {
        stretch: recorder.stretch,
    };
    let mut lanes = Lanes {
        hall,
        recorder,
        closest,
        scale,
        drawing: Drawing::default(),
    };
    let mut y = 4.0;
    for &queue in queues {
        if hall.bounds[queue].is_none() {
            let words = format!("level {}: no flow", hall.queues[queue].level);
            lanes.drawing.note((4.0, y + 10.0), &words);
            y += 20.0;
            continue;
        }
        y = lanes.lane(queue, y);
        let (limits, shown) = (&hall.queues[queue], &recorder.shown[queue]);
        let greatest = seen[queue].backlog;
        y = backlog(&mut lanes.drawing, scale, limits, shown, greatest, y + 5.0) + 12.0;
    }
    let first = &hall.queues[queues[0]];
    y = laptops::lane(&mut lanes.drawing, scale, first, recorder, y);
    y = time(&mut lanes.drawing, scale, y);
    let ends = [scale.stretch.from, scale.stretch.to].map(commas);
    let name = format!("link {}, instants {}", first.link, ends.join(" to "));
    lanes.drawing.finish(y, &name)
}

/// A time on a link as an instant with its fraction, for drawing alone.
pub fn instant(slots: Slots, speed: u64) -> f64 {
    slots as f64 / (1000.0 * speed as f64)
}

/// The row of each stay: the first one that is free again, where a row is taken until the
/// threshold's end and the cable's, or with many frames until the frame has left.
fn rows(hall: &Hall, stays: &[Stay], threshold: u64) -> Vec<usize> {
    let assign = |end: &dyn Fn(&Stay) -> u64| {
        let mut free_from: Vec<u64> = Vec::new();
        let mut rows = Vec::new();
        for stay in stays {
            let row = free_from.iter().position(|&free| free <= stay.frame.came);
            let row = row.unwrap_or_else(|| {
                free_from.push(0);
                free_from.len() - 1
            });
            free_from[row] = end(stay);
            rows.push(row);
        }
        (free_from.len(), rows)
    };
    let (count, apart) = assign(&|stay| {
        let limit = stay.frame.came + threshold;
        limit.max(hall.reached(stay))
    });
    match count <= MOST_ROWS {
        true => apart,
        false => assign(&|stay| stay.gone).1,
    }
}

impl Lanes<'_> {
    /// A level's frames; the next free height.
    fn lane(&mut self, queue: usize, top: f64) -> f64 {
        let (limits, shown) = (&self.hall.queues[queue], &self.recorder.shown[queue]);
        let mut stays = shown.stays.clone();
        stays.sort_by_key(|stay| (stay.frame.came, stay.first));
        let rows = rows(self.hall, &stays, limits.threshold);
        // Two rows at least: the lane's name and threshold stand beside it.
        let count = rows.iter().max().map_or(2, |row| (row + 1).max(2)) as f64;
        let row_height = ROW.min(MOST_HEIGHT / count);
        let height = count * row_height + 5.0;
        let drawing = &mut self.drawing;
        drawing.rect(Rect(LEFT, top, RIGHT - LEFT, height), "class=\"lane\"");
        let name = format!("level {}", limits.level);
        drawing.text((4.0, top + 11.0), "class=\"name\"", &name);
        let threshold = format!("{} µs", commas(limits.threshold));
        drawing.note((4.0, top + 23.0), &threshold);
        if stays.is_empty() {
            drawing.note((LEFT + 6.0, top + 11.0), "no frame in this stretch");
        }
        for (stay, row) in stays.iter().zip(rows) {
            self.one_frame(stay, top + 3.0 + row as f64 * row_height, row_height * BAR);
        }
        let bottom = top + height;
        if shown.more == 0 {
            return bottom;
        }
        let words = format!(
            "and {} frames more: choose a shorter stretch",
            commas(shown.more)
        );
        let look = format!("class=\"small\" data-more=\"{}\"", shown.more);
        self.drawing
            .text((LEFT + 6.0, bottom + 10.0), &look, &words);
        bottom + 14.0
    }

    /// A frame's bars, with its numbers for a reader who points at it.
    fn one_frame(&mut self, stay: &Stay, y: f64, height: f64) {
        let queue = &self.hall.queues[stay.queue];
        let number = self.hall.flows[stay.frame.flow].number;
        let told = trace::COLUMNS.iter().zip(trace::numbers(self.hall, stay));
        let data: String = told
            .map(|(name, value)| format!(" data-{name}=\"{value}\""))
            .collect();
        self.drawing.raw(&format!("<g class=\"frame\"{data}>"));
        let times = [stay.first, stay.end()];
        let [first, end] = times.map(|time| micros(time, queue.speed));
        let laptop = behind(self.hall, stay).map_or(String::new(), |words| format!(", {words}"));
        let cable = match queue.fixed_delay {
            0 => String::new(),
            _ => format!(", on the cable to {}", commas(self.hall.reached(stay))),
        };
        self.drawing.raw(&format!(
            "<title>flow {number} frame {}, {} bytes: came {}{laptop}, sent from {first} to {end}, stay {} of {} µs{cable}</title>",
            commas(stay.frame.number),
            commas(stay.frame.bytes),
            commas(stay.frame.came),
            commas(stay.length()),
            commas(queue.threshold)
        ));
        let [first, end] = times.map(|time| instant(time, queue.speed));
        self.bars(stay, (first, end), (y, height));
        self.cable(stay, y + height / 2.0);
        self.drawing.raw("</g>");
    }

    /// A thin line from where the frame left to where it comes to its next queue or its destination.
    fn cable(&mut self, stay: &Stay, y: f64) {
        let (gone, reached) = (stay.gone as f64, self.hall.reached(stay) as f64);
        if gone == reached || !self.scale.shows(gone, reached) {
            return;
        }
        let look = format!(
            "class=\"cable\" stroke=\"{}\"",
            colours::sending(stay.frame.flow)
        );
        let at = |instant: f64| (self.scale.x(instant), y);
        self.drawing.line(at(gone), at(reached), &look);
    }

    /// The threshold as a bar behind, then waiting and sending in the flow's two shades; the flow's
    /// number where there is room.
    fn bars(&mut self, stay: &Stay, (first, last): (f64, f64), (y, height): (f64, f64)) {
        let threshold = self.hall.queues[stay.queue].threshold;
        let (drawing, scale) = (&mut self.drawing, self.scale);
        let mut bar = |from: f64, to: f64, look: &str| {
            if !scale.shows(from, to) {
                return 0.0;
            }
            let (x, end) = (scale.x(from), scale.x(to));
            drawing.rect(Rect(x, y, (end - x).max(0.6), height), look);
            end - x
        };
        let (came, gone) = (stay.frame.came as f64, stay.gone as f64);
        let limit = (stay.frame.came + threshold) as f64;
        let fill = |colour: String| format!("fill=\"{colour}\"");
        bar(came, limit, "class=\"threshold\"");
        bar(came, first, &fill(colours::waiting(stay.frame.flow)));
        let width = bar(first, last, &fill(colours::sending(stay.frame.flow)));
        if stay.length() > threshold {
            bar(limit, gone, "class=\"late\"");
        }
        if self.closest == Some(stay) {
            bar(came, gone, "class=\"closest\"");
        }
        if scale.holds(limit) {
            let x = scale.x(limit);
            drawing.line((x, y), (x, y + height), "class=\"limit\"");
        }
        let label = self.hall.flows[stay.frame.flow].number.to_string();
        if width >= 5.5 * label.len() as f64 + 2.0 && height >= 8.5 {
            let middle = scale.x(first) + width / 2.0;
            drawing.text((middle, y + 7.6), "class=\"on\"", &label);
        }
    }
}
