//! The hall's map: nodes, links, and of each queue the share of its threshold that was used.

use super::colours;
use super::laptops;
use super::places::{places, Spot};
use super::svg::{Drawing, Rect, WIDTH};
use crate::numbers::{commas, per_cent};
use crate::traffic::figures::Seen;
use crate::traffic::hall::Hall;
use plain::table::Queue;
use std::collections::BTreeMap;

const NODE: f64 = 13.0;
const BOX: f64 = 62.0;
const ROW: f64 = 11.0;
const IN_ROW: usize = 8;
/// A hall with more links or nodes than this is shown link by link.
const MOST_DRAWN: usize = 20;

/// A link as it is drawn: a curve from node to node, bent at one point.
struct Curve {
    queues: Vec<usize>,
    from: Spot,
    to: Spot,
    bend: Spot,
}

impl Curve {
    /// Its middle, or as near to it as a box isn't cut off.
    fn box_spot(&self) -> Spot {
        let half = |a: f64, bend: f64, b: f64| (a + 2.0 * bend + b) / 4.0;
        let edge = BOX / 2.0 + 1.0;
        let x = half(self.from.x, self.bend.x, self.to.x);
        Spot {
            x: x.clamp(edge, WIDTH - edge),
            y: half(self.from.y, self.bend.y, self.to.y),
        }
    }
}

/// A point so far before the end of a line.
fn short_of(start: Spot, end: Spot, by: f64) -> Spot {
    let (dx, dy) = (end.x - start.x, end.y - start.y);
    let length = dx.hypot(dy).max(0.001);
    Spot {
        x: end.x - dx / length * by,
        y: end.y - dy / length * by,
    }
}

/// Whether a straight line between two nodes runs through a third.
fn through(from: Spot, to: Spot, node: Spot) -> bool {
    let (dx, dy) = (to.x - from.x, to.y - from.y);
    let (nx, ny) = (node.x - from.x, node.y - from.y);
    let length = dx.hypot(dy).max(0.001);
    let (along, aside) = ((nx * dx + ny * dy) / length, (nx * dy - ny * dx) / length);
    along > NODE && along < length - NODE && aside.abs() < NODE
}

/// The links' curves; those between the same two nodes bend to different sides, and one that would run through a third so
/// far that its box is beside it.
fn curves(hall: &Hall, spots: &BTreeMap<u64, Spot>) -> Vec<Curve> {
    let mut between: BTreeMap<(u64, u64), u32> = BTreeMap::new();
    let mut curves = Vec::new();
    for queues in hall.links() {
        let link = &hall.queues[queues[0]];
        let (from, to) = (spots[&link.from], spots[&link.to]);
        let pair = (link.from.min(link.to), link.from.max(link.to));
        let shared = hall
            .links()
            .iter()
            .filter(|other| {
                let other = &hall.queues[other[0]];
                (other.from.min(other.to), other.from.max(other.to)) == pair
            })
            .count();
        let turn = between.entry(pair).or_insert(0);
        let (dx, dy) = (to.x - from.x, to.y - from.y);
        let length = dx.hypot(dy).max(0.001);
        // The way back sees its own right hand, so both bend the same amount to be apart.
        let side = 30.0 * f64::from(1 + *turn / 2);
        let beside = BOX.max(tall(hall, &queues)) / 2.0 + NODE + 4.0;
        let aside = match spots.values().any(|&node| through(from, to, node)) {
            true => side.max(beside),
            false if shared > 1 => side,
            false => 0.0,
        };
        *turn += 1;
        curves.push(Curve {
            queues,
            from,
            to,
            bend: Spot {
                x: (from.x + to.x) / 2.0 + dy / length * 2.0 * aside,
                y: (from.y + to.y) / 2.0 - dx / length * 2.0 * aside,
            },
        });
    }
    curves
}

/// Boxes that lie over each other move apart, up and down.
fn spread(boxes: &mut [(Spot, f64)]) {
    for _ in 0..200 {
        let mut moved = false;
        for a in 0..boxes.len() {
            for b in a + 1..boxes.len() {
                let ((first, high), (second, tall)) = (boxes[a], boxes[b]);
                let apart = (high + tall) / 2.0 + 4.0 - (first.y - second.y).abs();
                if (first.x - second.x).abs() >= BOX + 4.0 || apart <= 0.0 {
                    continue;
                }
                let way = if first.y <= second.y { 0.5 } else { -0.5 };
                boxes[a].0.y -= way * apart;
                boxes[b].0.y += way * apart;
                moved = true;
            }
        }
        if !moved {
            break;
        }
    }
}

/// What a link's cable takes, `120 µs`; nothing where it takes no time.
pub fn cable(link: &Queue) -> Option<String> {
    let delay = link.fixed_delay;
    (delay > 0).then(|| format!("{} µs", commas(delay)))
}

/// What stands below the levels of a link: its cable's time, and the longest frame of a laptop. There is no room for a word
/// before them, nor for a blank.
fn further(link: &Queue) -> Vec<String> {
    let cable = cable(link).map(|delay| format!("+{delay}"));
    let laptop = laptops::longest(link).map(|bytes| format!("≤{bytes}"));
    cable.into_iter().chain(laptop).collect()
}

/// The height of a link's box: a row for each level, and one for each thing more.
fn tall(hall: &Hall, queues: &[usize]) -> f64 {
    let more = further(&hall.queues[queues[0]]).len();
    14.0 + ROW * (queues.len() + more) as f64
}

pub fn map(hall: &Hall, seen: &[Seen]) -> String {
    let spots = places(&hall.queues);
    match hall.links().len().max(spots.len()) > MOST_DRAWN {
        true => grid(hall, seen),
        false => network(hall, seen, &spots),
    }
}

/// Nodes, curves and boxes.
fn network(hall: &Hall, seen: &[Seen], spots: &BTreeMap<u64, Spot>) -> String {
    let curves = curves(hall, spots);
    let at_curve = |curve: &Curve| (curve.box_spot(), tall(hall, &curve.queues));
    let mut boxes: Vec<(Spot, f64)> = curves.iter().map(at_curve).collect();
    spread(&mut boxes);
    let nodes = || spots.values().map(|spot| (*spot, 2.0 * NODE));
    let edges = || boxes.iter().copied().chain(nodes());
    let top = edges()
        .map(|(spot, high)| spot.y - high / 2.0)
        .fold(0.0, f64::min);
    let end = edges()
        .map(|(spot, high)| spot.y + high / 2.0)
        .fold(0.0, f64::max);
    let mut drawing = Drawing::default();
    drawing.raw(
        "<defs><marker id=\"tip\" viewBox=\"0 0 8 8\" refX=\"7\" refY=\"4\" markerWidth=\"7\" markerHeight=\"7\" \
         orient=\"auto\"><path d=\"M0 0L8 4L0 8Z\" fill=\"#555\"/></marker></defs>",
    );
    drawing.raw(&format!("<g transform=\"translate(0 {:.1})\">", 6.0 - top));
    for curve in &curves {
        draw_curve(&mut drawing, hall, curve);
    }
    for (curve, (spot, _)) in curves.iter().zip(&boxes) {
        let name = format!("link {}", hall.queues[curve.queues[0]].link);
        draw_box(&mut drawing, hall, seen, &curve.queues, *spot, &name);
    }
    for (node, spot) in spots {
        drawing.raw(&format!(
            "<circle class=\"node\" cx=\"{:.2}\" cy=\"{:.2}\" r=\"{NODE}\"/>",
            spot.x, spot.y
        ));
        let label = node.to_string();
        let size = [12.0, 12.0, 10.0, 8.5][label.len().min(4) - 1];
        let look = bold(size);
        drawing.text((spot.x, spot.y + size / 3.0), &look, &label);
    }
    drawing.raw("</g>");
    drawing.finish(end - top + 12.0, "the hall's nodes and links")
}

/// A box for each link, row by row, named `link: from, to`.
fn grid(hall: &Hall, seen: &[Seen]) -> String {
    let mut drawing = Drawing::default();
    let mut top = 4.0;
    for row in hall.links().chunks(IN_ROW) {
        let high = row
            .iter()
            .map(|queues| tall(hall, queues))
            .fold(0.0, f64::max);
        for (column, queues) in row.iter().enumerate() {
            let link = &hall.queues[queues[0]];
            let spot = Spot {
                x: WIDTH / IN_ROW as f64 * (column as f64 + 0.5),
                y: top + tall(hall, queues) / 2.0,
            };
            let name = format!("{}: {}→{}", link.link, link.from, link.to);
            draw_box(&mut drawing, hall, seen, queues, spot, &name);
        }
        top += high + 8.0;
    }
    drawing.finish(top, "the hall's links")
}

fn draw_curve(drawing: &mut Drawing, hall: &Hall, curve: &Curve) {
    let start = short_of(curve.bend, curve.from, NODE);
    let end = short_of(curve.bend, curve.to, NODE + 1.0);
    drawing.raw(&format!(
        "<path class=\"link\" d=\"M{:.2} {:.2}Q{:.2} {:.2} {:.2} {:.2}\" marker-end=\"url(#tip)\"><title>link {}</title></path>",
        start.x, start.y, curve.bend.x, curve.bend.y, end.x, end.y,
        hall.queues[curve.queues[0]].link
    ));
}

/// Bold letters of this size about a middle.
fn bold(size: f64) -> String {
    format!("style=\"font-size:{size}px\" font-weight=\"bold\" text-anchor=\"middle\"")
}

/// The link's number, a row for each level, what its cable takes, and the longest frame of a laptop.
fn draw_box(
    drawing: &mut Drawing,
    hall: &Hall,
    seen: &[Seen],
    queues: &[usize],
    spot: Spot,
    name: &str,
) {
    let high = tall(hall, queues);
    let (x, top) = (spot.x - BOX / 2.0, spot.y - high / 2.0);
    drawing.rect(Rect(x, top, BOX, high), "class=\"box\"");
    // Numbers of four digits at both ends need smaller letters.
    let size = if name.chars().count() > 10 { 7.5 } else { 10.0 };
    drawing.text((spot.x, top + 10.0), &bold(size), name);
    for (row, &queue) in queues.iter().enumerate() {
        let y = top + 13.0 + row as f64 * ROW;
        draw_share(drawing, hall, queue, seen[queue].stay(), (x, y));
    }
    for (row, words) in further(&hall.queues[queues[0]]).iter().rev().enumerate() {
        let y = top + high - 3.0 - row as f64 * ROW;
        drawing.text((spot.x, y), "class=\"tiny\" text-anchor=\"middle\"", words);
    }
}

/// A level's share as a bar and in per cent.
fn draw_share(drawing: &mut Drawing, hall: &Hall, queue: usize, stay: u64, (x, y): (f64, f64)) {
    let limits = &hall.queues[queue];
    let (room, height) = (BOX - 14.0, ROW - 2.0);
    let share = (stay as f64 / limits.threshold as f64).min(1.0);
    drawing.rect(Rect(x + 12.0, y, room, height), "class=\"empty\"");
    let look = format!("fill=\"{}\"", colours::share(stay, limits.threshold));
    drawing.rect(Rect(x + 12.0, y, room * share, height), &look);
    let level = limits.level.to_string();
    drawing.text((x + 3.0, y + 8.0), "class=\"tiny\"", &level);
    let words = match hall.bounds[queue] {
        Some(_) => format!("{} %", per_cent(stay.into(), limits.threshold.into())),
        None => "no flow".to_string(),
    };
    let look = "class=\"tiny\" text-anchor=\"end\"";
    drawing.text((x + BOX - 4.0, y + 8.0), look, &words);
}
