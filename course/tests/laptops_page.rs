//! Laptops' frames on the page and in the trace.

mod common;

use common::course as call;
use common::pages::{check, drawn_by, made, Made};
use common::ports::{ports, two_flows};
use common::tags::{well_formed, Tag};
use course::status::Status;
use std::fs;

/// The example with laptops, drawn from instant 30 to 90.
fn example_page() -> Made {
    let stretch = ["--from", "30", "--to", "90"];
    let drawn = made("hall", "hall/laptop.txt", &stretch, Status::Fine);
    check(&drawn);
    drawn
}

/// Grey bars in a lane of their own, where their instants are.
#[test]
fn laptops_are_drawn() {
    let page = example_page().page;
    let tags = well_formed(&page).unwrap();
    let size = |tag: &Tag, name: &str| tag.get(name).unwrap().parse::<f64>().unwrap();
    let classed = |class: &str| -> Vec<&Tag> {
        let found = tags.iter().filter(|tag| tag.get("class") == Some(class));
        found.collect()
    };
    let lane = classed("lane")[0];
    let at = |x: f64| 30.0 + 60.0 * (x - size(lane, "x")) / size(lane, "width");
    let port = &ports()[0];
    let micros = |bytes: u64| 8.0 * bytes as f64 / port.speed as f64;
    let first = 47.999;
    let second = first + micros(port.best_effort_frame) + micros(200);
    let bars = classed("best-effort");
    assert_eq!((bars.len(), classed("laptop").len()), (2, 2));
    for (bar, start) in bars.into_iter().zip([first, second]) {
        let (x, width) = (size(bar, "x"), size(bar, "width"));
        assert_eq!(bar.get("stroke"), Some("#fff"));
        let end = start + micros(port.best_effort_frame);
        let off = (at(x) - start).abs().max((at(x + width) - end).abs());
        assert!(off < 0.01, "{start}: off by {off}");
    }
    // The second waited.
    assert_eq!(classed("ready").len(), 1);
}

/// What the page says of laptops; nothing of it in a hall without a port.
#[test]
fn laptops_are_named() {
    let page = example_page().page;
    for words in [
        "> laptops' frames, best effort",
        ">≤1,542 B</text>",
        "cable 120 µs, laptops to 1,542 B</h2>",
        "Laptops' frames are dark grey",
        "The light grey bar behind it is its threshold",
        "came 48, behind a laptop's frame, 12.335 of 12.336 µs left, sent from 60.335 to 61.935, stay",
        ">Link 5 level 1: flow 101 frame 1 came at 48 behind a laptop's frame",
        "<title>a laptop's frame, 1,542 bytes: ready at 50, sent from 61.935 to 74.271</title>",
    ] {
        assert!(page.contains(words), "{words}");
    }
    let none = made("two-flows", "two-flows/sends.txt", &[], Status::Fine).page;
    let words = none.split("</style>").nth(1).unwrap();
    assert!(!words.contains("aptop"));
}

/// A laptop on a link that carries no flow is drawn too, and a stretch without one says so.
#[test]
fn laptops_alone_are_drawn() {
    let folder = two_flows(1_542);
    folder.write("orders.txt", b"");
    let sends = folder.write("sends.txt", b"laptop 1 3.25 1000\n");
    let page = folder.0.join("page.html").display().to_string();
    let outcome = call(&[
        "traffic",
        &folder.word(),
        &sends,
        "--page",
        &page,
        "--from",
        "0",
        "--to",
        "100",
    ]);
    assert_eq!(outcome.status, Status::Fine, "{}", outcome.errors);
    assert!(outcome.printed.ends_with("no flow's frame sent\n"));
    let text = fs::read_to_string(&page).unwrap();
    assert_eq!(text.matches("class=\"best-effort\"").count(), 1);
    let quiet = |words: &[&str]| call(&[words, &["--from", "0", "--to", "20"]].concat());
    let held = two_flows(1_542);
    let sends = held.write("sends.txt", b"1 7 1542\nlaptop 1 900 1000\n");
    let drawn = drawn_by(&held, &held.word(), &sends, Status::Fine, quiet);
    check(&drawn);
    assert!(drawn.page.contains("no laptop's frame in this stretch"));
    // The whole of a short run lasts until its last frame has left, a laptop's too: 1,000 bytes take 80 µs.
    let sends = held.write("sends.txt", b"1 7 1542\nlaptop 1 400.5 1000\n");
    let whole = drawn_by(&held, &held.word(), &sends, Status::Fine, call);
    check(&whole);
    assert!(whole.page.contains("data-from=\"1\" data-to=\"481\""));
}

/// The trace has what was left of a laptop's frame, and bits to the thousandth.
#[test]
fn the_trace_has_laptops() {
    let folder = two_flows(1_542);
    let sends = folder.write("sends.txt", b"laptop 1 0.999 1542\n1 7 1542\n500 8 1542\n");
    let drawn = drawn_by(&folder, &folder.word(), &sends, Status::Fine, call);
    check(&drawn);
    // 0.999 + 123.36 is 124.359; 123.359 are left at 1.
    let rows: Vec<[u64; 4]> = drawn
        .rows
        .iter()
        .map(|row| [row[0], row[5], row[6], row[12]])
        .collect();
    assert_eq!(rows, [[7, 124, 35_900, 123_359], [8, 500, 0, 0]]);
}
