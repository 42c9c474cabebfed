//! A run as one HTML file without script: the verdict, the hall's map, the lanes of each link in a
//! stretch, and the table.

mod charts;
mod colours;
mod lanes;
mod laptops;
mod map;
mod places;
pub mod stretch;
mod svg;

use super::figures::{Seen, Verdict};
use super::hall::Hall;
use super::report::{delayed, rows, HEADINGS};
use crate::numbers::commas;
use plain::orders::Flow;
use plain::table::Queue;
use stretch::{Recorder, Stretch};
use svg::escape;

/// What the page shows beside the drawings.
pub struct Words<'a> {
    pub title: &'a str,
    pub summary: &'a str,
    pub remark: &'a str,
}

pub fn page(
    hall: &Hall,
    seen: &[Seen],
    verdict: &Verdict,
    recorder: &Recorder,
    words: &Words,
) -> String {
    let broken = if verdict.kept() { "" } else { " broken" };
    let mut html = format!(
        "<!DOCTYPE html>\n<html lang=\"en\">\n<head>\n<meta charset=\"utf-8\"/>\n<meta name=\"viewport\" content=\"width=device-width, initial-scale=1\"/>\n\
         <title>{title}</title>\n<style>\n{style}</style>\n</head>\n<body>\n<h1>{title}</h1>\n<p>{}. {}.</p>\n<p class=\"verdict{broken}\" id=\"verdict\">{}</p>\n",
        escape(&capital(words.summary)),
        escape(&capital(words.remark)),
        escape(&verdict.words(hall, seen)),
        title = escape(words.title),
        style = include_str!("style.css"),
    );
    html += &format!(
        "<section>\n<h2>The hall</h2>\n<p>At each link, level by level, the longest stay in per cent of the threshold{}.</p>\n",
        match (hall.has_cables(), hall.has_laptops()) {
            (true, true) => "; below, after a +, what its cable takes, and after a ≤ the longest frame of a laptop",
            (true, false) => "; below, after a +, what its cable takes",
            (false, true) => "; below, after a ≤, the longest frame of a laptop",
            (false, false) => "",
        }
    );
    html += &map::map(hall, seen);
    html += "</section>\n<section>\n<h2>Every queue that carries a flow</h2>\n";
    html += &table(hall, seen, verdict);
    for line in delayed(hall, seen).lines() {
        html += &format!("<p class=\"delayed\">{}</p>\n", escape(&capital(line)));
    }
    html += "</section>\n";
    html += &drawings(hall, seen, verdict, recorder);
    html + "</body>\n</html>\n"
}

fn capital(text: &str) -> String {
    let mut letters = text.chars();
    match letters.next() {
        None => String::new(),
        Some(first) => first.to_uppercase().chain(letters).collect(),
    }
}

fn table(hall: &Hall, seen: &[Seen], verdict: &Verdict) -> String {
    let mut html = String::from("<div class=\"scroll\"><table>\n<thead><tr>");
    for (name, unit) in HEADINGS {
        html += &format!("<th>{name} {unit}</th>");
    }
    html += "</tr></thead>\n<tbody>\n";
    let carrying = (0..hall.queues.len()).filter(|&queue| hall.bounds[queue].is_some());
    for (queue, row) in carrying.zip(rows(hall, seen)) {
        let over = seen[queue].late > 0 || verdict.exceeded.contains(&queue);
        let near = verdict.closest.is_some_and(|stay| stay.queue == queue);
        let look = match (over, near) {
            (true, _) => " class=\"over\"",
            (_, true) => " class=\"near\"",
            _ => "",
        };
        let limits = &hall.queues[queue];
        html +=
            &format!(
            "<tr{look} data-link=\"{}\" data-level=\"{}\" data-stay=\"{}\" data-backlog=\"{}\">",
            limits.link, limits.level, seen[queue].stay(), seen[queue].backlog
        );
        for cell in row {
            html += &format!("<td>{}</td>", escape(&cell));
        }
        html += "</tr>\n";
    }
    html + "</tbody></table></div>\n"
}

fn drawings(hall: &Hall, seen: &[Seen], verdict: &Verdict, recorder: &Recorder) -> String {
    let Stretch { from, to } = recorder.stretch;
    let mut html = format!(
        "<section id=\"stretch\" data-from=\"{from}\" data-to=\"{to}\">\n<h2>Instants {} to {}</h2>\n\
         <p>A lane for each level: a frame waits in the light shade of its flow and is sent in the dark one. The light grey bar behind it is its threshold, \
         the black line its end; the frame with a black edge comes closest. {}{}Below, the bytes in the queue; the dashed line is the buffer.</p>\n",
        commas(from),
        commas(to),
        match hall.has_cables() {
            true => "The dotted line after a frame is its time on the cable, in no queue. ",
            false => "",
        },
        match hall.has_laptops() || recorder.has_laptops() {
            true => "Laptops' frames are dark grey, in a lane of their own, for they are in no queue. ",
            false => "",
        }
    );
    html += &legend(hall, recorder);
    html += "</section>\n";
    let mut empty = Vec::new();
    for queues in hall.links() {
        let first = &hall.queues[queues[0]];
        let idle = recorder.laptops[first.link as usize - 1].is_empty();
        if idle && queues.iter().all(|&queue| hall.bounds[queue].is_none()) {
            empty.push(first.link.to_string());
            continue;
        }
        html += &format!("<section>\n<h2>{}</h2>\n", heading(first));
        html += &lanes::link(hall, seen, recorder, verdict.closest.as_ref(), &queues);
        html += "</section>\n";
    }
    match empty.as_slice() {
        [] => html,
        [one] => html + &format!("<p>Link {one} carries no flow.</p>\n"),
        several => html + &format!("<p>Links {} carry no flow.</p>\n", several.join(", ")),
    }
}

/// `Link 5, node 4 to 6, 1,000 Mbit/s, cable 120 µs, laptops to 1,542 B`.
fn heading(link: &Queue) -> String {
    let cable = map::cable(link).map(|delay| format!(", cable {delay}"));
    let laptops = laptops::longest(link).map(|bytes| format!(", laptops to {bytes}"));
    format!(
        "Link {}, node {} to {}, {} Mbit/s{}{}",
        link.link,
        link.from,
        link.to,
        commas(link.speed),
        cable.unwrap_or_default(),
        laptops.unwrap_or_default()
    )
}

/// The flows that are seen in the stretch, and the laptops.
fn legend(hall: &Hall, recorder: &Recorder) -> String {
    let mut html = String::from("<ul class=\"flows\">\n");
    for (index, flow) in hall.flows.iter().enumerate() {
        let mut stays = recorder.shown.iter().flat_map(|shown| &shown.stays);
        if !stays.any(|stay| stay.frame.flow == index) {
            continue;
        }
        html += &format!(
            "<li><span class=\"swatch\" style=\"background:{}\"></span><span class=\"swatch\" style=\"background:{}\"></span> {}</li>\n",
            colours::waiting(index), colours::sending(index), flow_words(flow)
        );
    }
    if recorder.has_laptops() {
        html += "<li><span class=\"swatch laptops\"></span> laptops' frames, best effort; a thin line while one waits</li>\n";
    }
    html + "</ul>\n"
}

fn flow_words(flow: &Flow) -> String {
    let hops: Vec<String> = flow
        .hops
        .iter()
        .map(|hop| format!("{}.{}", hop.link, hop.level))
        .collect();
    format!(
        "flow {}: {} kbit/s, burst {}, frames to {}; link.level {}",
        flow.number,
        commas(flow.rate),
        commas(flow.burst),
        commas(flow.frame),
        hops.join(" ")
    )
}
