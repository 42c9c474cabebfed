//! The page: well-formed, on its own, and its figures are those of the trace.

mod common;

use common::pages::{check, drawn_by, made};
use common::tags::{well_formed, Tag};
use common::{course as call, example, tight_hall, Temporary};
use course::hall::make;
use course::status::Status;
use halls::rng::Rng;
use halls::tables::{full_ring, loose, table_text, Shape};
use plain::orders::{write_registration, Flow, Hop};
use plain::table::Queue;
use std::fs;

#[test]
fn the_pages_figures_are_those_of_the_trace() {
    let folder = "hall";
    for sends in ["hall/sends.txt", "hall/greedy.txt"] {
        check(&made(folder, sends, &[], Status::Fine));
        let shuffled = ["--arrivals", "7"];
        check(&made(folder, sends, &shuffled, Status::Fine));
    }
    check(&made("two-flows", "two-flows/sends.txt", &[], Status::Fine));
    check(&made(
        "shared",
        "shared/doubled.txt",
        &["--anyway"],
        Status::Late,
    ));
}

#[test]
fn a_long_run_shows_the_stretch_around_the_closest_frame() {
    let around = made("hall", "hall/greedy.txt", &[], Status::Fine);
    check(&around);
    let tags = well_formed(&around.page).unwrap();
    let drawn = tags
        .iter()
        .filter(|tag| tag.get("class") == Some("frame"))
        .count();
    assert!(drawn < around.rows.len());
    // The closest frame is flow 101's frame 21 at link 3 level 1, instants 40,332 to 40,455.
    let closest = |tag: &&Tag| {
        tag.get("data-flow") == Some("101")
            && tag.get("data-frame") == Some("21")
            && tag.get("data-link") == Some("3")
    };
    assert_eq!(tags.iter().filter(closest).count(), 1);
    assert_eq!(around.page.matches("class=\"closest\"").count(), 1);
    // At 316 the first frame of flow 101 leaves link 1 and reaches link 2.
    for (from, to) in [("100", "400"), ("316", "400"), ("200", "316")] {
        let chosen = ["--from", from, "--to", to];
        let chosen = made("hall", "hall/greedy.txt", &chosen, Status::Fine);
        check(&chosen);
        let stretch = format!("data-from=\"{from}\" data-to=\"{to}\"");
        assert!(chosen.page.contains(&stretch));
    }
}

/// The labeller's camera sends a picture: its frame leaves link 5 at 137 and comes to link 7 at 257, in the stretch or past
/// an end of it. The map and the lanes name what the cable takes; a hall without cables has none of it.
#[test]
fn cables_are_drawn() {
    let folder = Temporary::new();
    let sends = folder.write("sends.txt", b"0 203 1542\n");
    for (from, to, drawn) in [
        (0, 400, [137.0, 257.0]),
        (200, 400, [200.0, 257.0]),
        (0, 200, [137.0, 200.0]),
    ] {
        let ends = [from, to].map(|end: u64| end.to_string());
        let stretch = ["--from", &ends[0], "--to", &ends[1]];
        let call = |words: &[&str]| call(&[words, &stretch].concat());
        let made = drawn_by(&folder, &example("hall"), &sends, Status::Fine, call);
        check(&made);
        let tags = well_formed(&made.page).unwrap();
        let size = |tag: &Tag, name: &str| tag.get(name).unwrap().parse::<f64>().unwrap();
        let classed = |class| tags.iter().find(|tag| tag.get("class") == Some(class));
        let (lane, cable) = (classed("lane").unwrap(), classed("cable").unwrap());
        let instants = ["x1", "x2"].map(|end| {
            let share = (size(cable, end) - size(lane, "x")) / size(lane, "width");
            (from as f64 + share * (to - from) as f64).round()
        });
        assert_eq!(instants, drawn);
        // Links 5 and 6 in the map, link 5 above its lanes.
        assert_eq!(made.page.matches(">+120 µs</text>").count(), 2);
        assert!(made.page.contains("1,000 Mbit/s, cable 120 µs"));
        assert!(made
            .page
            .contains(", stay 13 of 300 µs, on the cable to 257</title>"));
        assert!(made.page.contains("The dotted line after a frame"));
    }
    let none = made("two-flows", "two-flows/sends.txt", &[], Status::Fine).page;
    let words = none.split("</style>").nth(1).unwrap();
    assert!(!words.contains("cable") && !words.contains("dotted"));
}

/// The page of frames of 20 µs on one link with a threshold of 1,000 µs and this cable.
fn on_one_link(fixed_delay: u64, sends: &str, stretch: &[&str]) -> String {
    let table = format!("   1   1   2   100 1   1000    10000{fixed_delay:>7}\n");
    let order = b" 1     7     1000     500  250   90000  1   1 1\n";
    let folder = Temporary::with(table.as_bytes(), order);
    let sends = folder.write("sends.txt", sends.as_bytes());
    let call = |words: &[&str]| call(&[words, stretch].concat());
    let made = drawn_by(&folder, &folder.word(), &sends, Status::Fine, call);
    check(&made);
    made.page
}

/// A short run is shown until its last frame comes from the cable; a frame's row is taken until then; what ended before the
/// stretch isn't drawn at its edge.
#[test]
fn a_cable_has_room() {
    let whole = on_one_link(1_015, "5 7 250\n", &[]);
    assert!(whole.contains("data-from=\"5\" data-to=\"1040\""));
    let two = "0 7 250\n2000 7 250\n";
    let page = on_one_link(5_000, two, &["--from", "0", "--to", "8000"]);
    let tags = well_formed(&page).unwrap();
    let behind = |tag: &&Tag| tag.get("class") == Some("threshold");
    let bars: Vec<&Tag> = tags.iter().filter(behind).collect();
    assert_eq!(bars.len(), 2);
    assert_ne!(bars[0].get("y"), bars[1].get("y"));
    let later = on_one_link(5_000, two, &["--from", "3500", "--to", "4000"]);
    assert_eq!(later.matches("class=\"cable\"").count(), 2);
    assert_eq!(later.matches("class=\"limit\"").count(), 0);
}

/// The two frames of document 01's flows: each bar begins and ends at its instant, and the backlog
/// is as high as its share of the buffer.
#[test]
fn bars_lie_where_their_instants_are() {
    let options = ["--from", "0", "--to", "400"];
    let made = made("two-flows", "two-flows/sends.txt", &options, Status::Fine);
    let tags = well_formed(&made.page).unwrap();
    let size = |tag: &Tag, name: &str| tag.get(name).unwrap().parse::<f64>().unwrap();
    let lane = tags
        .iter()
        .find(|tag| tag.get("class") == Some("lane"))
        .unwrap();
    let (left, across) = (size(lane, "x"), size(lane, "width"));
    let instants = |tag: &Tag| {
        let at = |x: f64| (x - left) / across * 400.0;
        let (x, width) = (size(tag, "x"), size(tag, "width"));
        [at(x), at(x + width)].map(|instant| (instant * 10.0).round() / 10.0)
    };
    let bars_of = |flow: &str| {
        let of_flow = |tag: &Tag| tag.name == "g" && tag.get("data-flow") == Some(flow);
        let group = tags.iter().position(of_flow).unwrap();
        let bars = tags[group + 1..].iter().filter(|tag| tag.name == "rect");
        bars.take(3).map(instants).collect::<Vec<_>>()
    };
    // Threshold, waiting, sending; flow 8 doesn't wait.
    assert_eq!(bars_of("7"), [[1.0, 372.0], [1.0, 123.4], [123.4, 246.7]]);
    assert_eq!(bars_of("8")[..2], [[0.0, 374.0], [0.0, 123.4]]);
    let charts = tags
        .iter()
        .filter(|tag| tag.get("class") == Some("backlog"));
    for chart in charts {
        let points = chart.get("d").unwrap().split(['M', 'L', 'V', 'Z']);
        let heights = points.filter_map(|point| point.split(' ').nth(1)?.parse::<f64>().ok());
        let heights: Vec<f64> = heights.collect();
        let top = heights.iter().copied().fold(f64::MAX, f64::min);
        // 1,542 of 2,000 bytes, of 28 units.
        assert!(
            (heights[0] - top - 28.0 * 0.771).abs() < 0.02,
            "{heights:?}"
        );
    }
}

/// Writes a hall's two files; greedy sends for all its flows.
fn written(place: &Temporary, queues: &[Queue], flows: &[Flow]) -> String {
    place.write("table.txt", &table_text(queues));
    let orders: Vec<u8> = flows.iter().flat_map(write_registration).collect();
    place.write("orders.txt", &orders);
    let greedy = |(index, flow): (usize, &Flow)| format!("greedy {} from {index}\n", flow.number);
    let text: String = flows.iter().enumerate().map(greedy).collect();
    place.write("sends.txt", text.as_bytes())
}

/// Halls with loops, parallel links and several speeds.
#[test]
fn pages_of_random_halls_agree_with_their_traces() {
    let mut halls = 0;
    for index in 0..60 {
        let mut rng = Rng::new(3, index);
        let Some(hall) = tight_hall(&mut rng) else {
            continue;
        };
        let place = Temporary::new();
        let sends = written(&place, &hall.queues, &hall.flows);
        let made = drawn_by(&place, &place.word(), &sends, Status::Fine, call);
        // The trace's figures are worked out anew frame by frame: long runs would take long.
        if made.rows.len() < 3_000 {
            check(&made);
            assert_eq!(made.page.matches("class=\"closest\"").count(), 1);
            halls += 1;
        }
    }
    assert!(halls > 20, "{halls} halls");
}

/// A chain too long for columns, on a circle; a ring of 64 links, link by link.
#[test]
fn large_halls_have_a_map() {
    let flow = |number, hops: Vec<Hop>| Flow {
        number,
        rate: 1_000,
        burst: 3_084,
        frame: 1_542,
        deadline: 10_000_000,
        hops,
    };
    let along =
        |links: std::ops::RangeInclusive<u64>| links.map(|link| Hop { link, level: 1 }).collect();
    let chain = loose(&mut Rng::new(1, 1), Shape::Chain, 12, 2, &[100]);
    let ring = full_ring(1_000, 10_000, 1_000_000);
    for (queues, nodes) in [(chain, 13), (ring, 0)] {
        let place = Temporary::new();
        let flows = [flow(7, along(1..=12)), flow(8, along(3..=5))];
        let sends = written(&place, &queues, &flows);
        let made = drawn_by(&place, &place.word(), &sends, Status::Fine, call);
        check(&made);
        assert_eq!(made.page.matches("class=\"node\"").count(), nodes);
        let links = queues.iter().filter(|queue| queue.level == 1).count();
        assert_eq!(made.page.matches("class=\"box\"").count(), links);
    }
}

/// A ring of three, whose last link passes the node between its ends, and made halls, with a link at the map's edge: no box
/// is cut off or lies under a node.
#[test]
fn boxes_can_be_read() {
    let link = |link: u64, to: u64| format!("{link:>4}{link:>4}{to:>4}   100 1    400     4000\n");
    let ring = [link(1, 2), link(2, 3), link(3, 1)].concat();
    let mut halls = vec![(ring.into_bytes(), Vec::new())];
    halls.extend((1..=5).map(|seed| (make(seed).table, make(seed).orders)));
    for (table, orders) in halls {
        let folder = Temporary::with(&table, &orders);
        let (sends, page) = (
            folder.write("sends.txt", b""),
            folder.write("page.html", b""),
        );
        let drawn = call(&["traffic", &folder.word(), &sends, "--page", &page]);
        assert_eq!(drawn.status, Status::Fine, "{}", drawn.errors);
        let text = fs::read_to_string(&page).unwrap();
        let tags = well_formed(&text).unwrap();
        let sizes = |class: &str, names: &[&str]| -> Vec<Vec<f64>> {
            let found = tags.iter().filter(|tag| tag.get("class") == Some(class));
            let size = |tag: &Tag, name| tag.get(name).unwrap().parse().unwrap();
            found
                .map(|tag| names.iter().map(|name| size(tag, name)).collect())
                .collect()
        };
        let boxes = sizes("box", &["x", "y", "width", "height"]);
        assert!(!boxes.is_empty());
        for area in boxes {
            let (right, low) = (area[0] + area[2], area[1] + area[3]);
            assert!(area[0] >= 0.0 && right <= 640.0, "{area:?}");
            for node in sizes("node", &["cx", "cy"]) {
                let across = (area[0]..right).contains(&node[0]);
                assert!(!across || !(area[1]..low).contains(&node[1]), "{area:?}");
            }
        }
    }
}

/// The check of tags finds what is wrong.
#[test]
fn tags_out_of_turn_are_found() {
    let page = |body: &str| format!("<!DOCTYPE html>\n<p>{body}</p>\n");
    for good in ["", "a &amp; b", "<b a=\"1\"/>", "<b><i/></b>"] {
        assert!(well_formed(&page(good)).is_ok(), "{good}");
    }
    for bad in [
        "<b>",
        "</b>",
        "<b><i></b></i>",
        "a & b",
        "a > b",
        "<b a=1/>",
        "<b a=\"1\" a=\"2\"/>",
        "<b a=\"&\"/>",
    ] {
        assert!(well_formed(&page(bad)).is_err(), "{bad}");
    }
    assert!(well_formed("<p></p>").is_err());
}
