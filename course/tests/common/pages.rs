//! A run's page and trace, and that the one agrees with the other.

use super::tags::{well_formed, Tag};
use super::{course as call, example, Temporary};
use course::numbers::commas;
use course::status::{Outcome, Status};
use course::traffic::trace::COLUMNS;
use std::collections::{BTreeMap, BTreeSet};

/// A trace's columns: flow, frame, link, level, came, started, bit, gone, stay, threshold, bytes, reached, behind. Bits and
/// what is left of a laptop's frame are in thousandths here.
pub type Row = [u64; 13];

/// What stands in a column.
fn value(column: &str, word: &str) -> u64 {
    if !["bit", "behind"].contains(&column) {
        return word.parse().unwrap();
    }
    let (whole, part) = word.split_once('.').unwrap_or((word, "0"));
    assert!(part.len() <= 3, "{word}");
    1000 * whole.parse::<u64>().unwrap() + format!("{part:0<3}").parse::<u64>().unwrap()
}

fn trace_rows(text: &str) -> Vec<Row> {
    let mut lines = text.lines();
    let header =
        "flow\tframe\tlink\tlevel\tcame\tstarted\tbit\tgone\tstay\tthreshold\tbytes\treached\tbehind";
    assert_eq!(lines.next(), Some(header));
    let row = |line: &str| {
        let words = COLUMNS.iter().zip(line.split('\t'));
        let numbers: Vec<u64> = words.map(|(name, word)| value(name, word)).collect();
        Row::try_from(numbers).unwrap()
    };
    lines.map(row).collect()
}

/// Longest stay and greatest backlog of each queue, from the trace alone: bytes of the frames that
/// have come and are not gone, after each instant's arrivals.
fn figures(rows: &[Row]) -> BTreeMap<(u64, u64), (u64, u64)> {
    let mut found: BTreeMap<(u64, u64), (u64, u64)> = BTreeMap::new();
    for row in rows {
        let [_, _, link, level, came, _, _, gone, stay, _, _, _, _] = *row;
        assert_eq!(stay, gone - came);
        let held = rows.iter().filter(|other| {
            (other[2], other[3]) == (link, level) && (other[4]..other[7]).contains(&came)
        });
        let backlog: u64 = held.map(|other| other[10]).sum();
        let most = found.entry((link, level)).or_default();
        *most = (most.0.max(stay), most.1.max(backlog));
    }
    found
}

pub struct Made {
    pub page: String,
    pub rows: Vec<Row>,
    pub verdict: String,
    pub printed: String,
}

/// An example's page and trace.
pub fn made(folder: &str, sends: &str, options: &[&str], status: Status) -> Made {
    let place = Temporary::new();
    let outcome_of = |words: &[&str]| call(&[words, options].concat());
    drawn_by(
        &place,
        &example(folder),
        &example(sends),
        status,
        outcome_of,
    )
}

/// A hall's page and trace, by a call of the program.
pub fn drawn_by(
    place: &Temporary,
    folder: &str,
    sends: &str,
    status: Status,
    call: impl Fn(&[&str]) -> Outcome,
) -> Made {
    let path = |file: &str| place.0.join(file).display().to_string();
    let (page, trace) = (path("page.html"), path("trace.tsv"));
    let outcome = call(&["traffic", folder, sends, "--page", &page, "--trace", &trace]);
    assert_eq!(outcome.status, status, "{}", outcome.errors);
    Made {
        page: std::fs::read_to_string(page).unwrap(),
        rows: trace_rows(&std::fs::read_to_string(trace).unwrap()),
        verdict: outcome.printed.lines().last().unwrap().to_string(),
        printed: outcome.printed,
    }
}

/// The frames drawn are those of the trace that meet the stretch, number by number, and so are those on a cable in it.
fn frames_agree(made: &Made, tags: &[Tag]) {
    let stretch = tags
        .iter()
        .find(|tag| tag.get("id") == Some("stretch"))
        .unwrap();
    let (from, to) = (stretch.number("data-from"), stretch.number("data-to"));
    let drawn: BTreeSet<Row> = tags
        .iter()
        .filter(|tag| tag.get("class") == Some("frame"))
        .map(|tag| COLUMNS.map(|name| value(name, tag.get(&format!("data-{name}")).unwrap())))
        .collect();
    let meeting = made
        .rows
        .iter()
        .filter(|row| row[4] <= to && row[11] >= from);
    let meeting: BTreeSet<Row> = meeting.copied().collect();
    // A lane with very many says how many more there are.
    let left_out = tags.iter().filter(|tag| tag.get("data-more").is_some());
    let left_out: u64 = left_out.map(|tag| tag.number("data-more")).sum();
    assert_eq!(drawn.len() as u64 + left_out, meeting.len() as u64);
    assert!(!drawn.is_empty() && drawn.is_subset(&meeting));
    let cables = tags.iter().filter(|tag| tag.get("class") == Some("cable"));
    let on_cable = |row: &&Row| row[7] < row[11] && row[7] < to && row[11] > from;
    assert_eq!(cables.count(), drawn.iter().filter(on_cable).count());
}

/// The table's numbers, as data and as text, are those of the trace.
fn table_agrees(made: &Made, tags: &[Tag]) {
    let known = figures(&made.rows);
    let rows: Vec<&Tag> = tags
        .iter()
        .filter(|tag| tag.name == "tr" && tag.get("data-link").is_some())
        .collect();
    let mut met = 0;
    for row in rows {
        let (link, level) = (row.number("data-link"), row.number("data-level"));
        let (stay, backlog) = known.get(&(link, level)).copied().unwrap_or_default();
        assert_eq!(
            (row.number("data-stay"), row.number("data-backlog")),
            (stay, backlog)
        );
        let start = format!("data-link=\"{link}\" data-level=\"{level}\" data-stay=\"{stay}\"");
        let line = made
            .page
            .lines()
            .find(|line| line.starts_with("<tr") && line.contains(&start))
            .unwrap();
        let cells: Vec<&str> = line
            .split("<td>")
            .skip(1)
            .map(|cell| cell.split("</td>").next().unwrap())
            .collect();
        let shown = if known.contains_key(&(link, level)) {
            commas(stay)
        } else {
            "-".to_string()
        };
        assert_eq!(&cells[..3], [&link.to_string(), &level.to_string(), &shown]);
        assert_eq!(cells[5], commas(backlog));
        assert!(made.printed.contains(cells[7]));
        met += usize::from(known.contains_key(&(link, level)));
    }
    assert_eq!(met, known.len());
}

pub fn check(made: &Made) {
    let tags = well_formed(&made.page).unwrap_or_else(|why| panic!("{why}"));
    frames_agree(made, &tags);
    table_agrees(made, &tags);
    assert!(made
        .page
        .contains(&format!("id=\"verdict\">{}</p>", made.verdict)));
    for outside in ["http", "<script", "src=", "href=", "@import", "<link"] {
        assert!(!made.page.contains(outside), "{outside}");
    }
    assert_eq!(
        made.page.matches("url(").count(),
        made.page.matches("url(#tip)").count()
    );
}
