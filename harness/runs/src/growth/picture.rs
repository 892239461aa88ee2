//! The picture itself, as SVG: a row of panels for each kind of numbers, both axes logarithmic.

use super::panels::{self, Panel, Point, CALLS, WHO};
use super::tables::{self, Kind};
use std::fmt::Write;

const TITLE: &str = "What a call takes, by the number of junctions";

const WIDTH: f64 = 1000.0;
const HEIGHT: f64 = 690.0;
/// The left edge of the first panel, and the right edge of the last.
const LEFT: f64 = 64.0;
const RIGHT: f64 = 984.0;
/// The upper edges of the rows of panels.
const TOPS: [f64; 2] = [138.0, 442.0];
const TALL: f64 = 210.0;
const GAP: f64 = 18.0;

/// Colours for a light page and for a dark one; the picture has its own ground, so that it can be read on either.
const STYLE: &str = "<style>
text { fill: #1f2328; font: 12px sans-serif }
.title { font-size: 16px; font-weight: bold }
.name { font-weight: bold }
.small { fill: #59636e; font-size: 11px }
.ground { fill: #ffffff }
.grid { stroke: #d1d9e0; stroke-width: 1; fill: none }
.library, .plain, .dijkstra { stroke-width: 2; fill: none }
.library { stroke: #0969da } circle.library { fill: #0969da }
.plain { stroke: #bc4c00; stroke-dasharray: 6 3 } circle.plain { fill: #ffffff; stroke-dasharray: none }
.dijkstra { stroke: #59636e; stroke-dasharray: 2 3 } circle.dijkstra { fill: #59636e; stroke-dasharray: none }
@media (prefers-color-scheme: dark) {
text { fill: #f0f6fc }
.small { fill: #9198a1 }
.ground { fill: #0d1117 }
.grid { stroke: #3d444d }
.library { stroke: #4493f8 } circle.library { fill: #4493f8 }
.plain { stroke: #f0883e } circle.plain { fill: #0d1117 }
.dijkstra { stroke: #9198a1 } circle.dijkstra { fill: #9198a1 }
}
</style>
";

/// A logarithmic axis: the numbers at its ends and where they are drawn.
struct Axis {
    ends: [f64; 2],
    places: [f64; 2],
}

impl Axis {
    fn place(&self, number: f64) -> f64 {
        let [low, high] = self.ends.map(f64::ln);
        let [from, to] = self.places;
        from + (number.ln() - low) / (high - low) * (to - from)
    }
}

/// The picture of a page's tables.
pub fn of(page: &str, name: &str) -> Result<String, String> {
    let tables = tables::all(page);
    let rows = Kind::ALL.map(|kind| panels::row(&tables, kind));
    let mut sizes: Vec<f64> = rows
        .iter()
        .flat_map(|row| points(row))
        .map(|(n, _)| n)
        .collect();
    sizes.sort_by(f64::total_cmp);
    sizes.dedup();
    if sizes.is_empty() {
        return Err("no table has numbers of a county".to_string());
    }
    let mut text = format!(
        "<svg xmlns=\"http://www.w3.org/2000/svg\" viewBox=\"0 0 {WIDTH} {HEIGHT}\" width=\"{WIDTH}\" height=\"{HEIGHT}\" role=\"img\">\n\
         <title>{TITLE}</title>\n{STYLE}\
         <rect class=\"ground\" width=\"{WIDTH}\" height=\"{HEIGHT}\" rx=\"6\"/>\n"
    );
    words(&mut text, "title", 16.0, 30.0, TITLE);
    let from = format!("Synthetic counties, both axes logarithmic. Drawn from the tables of {name} that are named above each row.");
    words(&mut text, "small", 16.0, 48.0, &from);
    legend(&mut text);
    for ((kind, row), top) in Kind::ALL.into_iter().zip(&rows).zip(TOPS) {
        draw_row(&mut text, kind, row, top, &sizes);
    }
    text.push_str("</svg>\n");
    Ok(text)
}

fn points<'a>(row: &'a [Panel]) -> impl Iterator<Item = Point> + 'a {
    row.iter()
        .flat_map(|panel| panel.lines.iter().flatten().copied())
}

/// Words that begin at a place.
fn words(text: &mut String, class: &str, x: f64, y: f64, words: &str) {
    placed(text, class, "start", x, y, words);
}

/// Words that begin, end or have their middle at a place.
fn placed(text: &mut String, class: &str, anchor: &str, x: f64, y: f64, words: &str) {
    let words = words.replace('&', "&amp;").replace('<', "&lt;");
    // writing to a string never fails
    let _ = writeln!(
        text,
        "<text class=\"{class}\" text-anchor=\"{anchor}\" x=\"{x:.1}\" y=\"{y:.1}\">{words}</text>"
    );
}

/// A line through places; none where there is no more than one.
fn line(text: &mut String, class: &str, places: &[Point]) {
    let places: Vec<String> = places
        .iter()
        .map(|(x, y)| format!("{x:.1} {y:.1}"))
        .collect();
    if places.len() > 1 {
        // writing to a string never fails
        let _ = writeln!(
            text,
            "<path class=\"{class}\" d=\"M{}\"/>",
            places.join("L")
        );
    }
}

fn legend(text: &mut String) {
    let mut x = LEFT;
    for (name, class) in WHO {
        line(text, class, &[(x, 68.0), (x + 36.0, 68.0)]);
        dot(text, class, (x + 18.0, 68.0), name);
        let name = match class {
            "dijkstra" => {
                "Dijkstra: one pair beside distance and route, one to all beside the sweeps"
            }
            _ => name,
        };
        words(text, "", x + 44.0, 72.0, name);
        x += 140.0;
    }
}

/// A measured number; pointing at it shows what it is.
fn dot(text: &mut String, class: &str, (x, y): Point, title: &str) {
    // writing to a string never fails
    let _ = writeln!(
        text,
        "<circle class=\"{class}\" cx=\"{x:.1}\" cy=\"{y:.1}\" r=\"3\"><title>{title}</title></circle>"
    );
}

fn draw_row(text: &mut String, kind: Kind, row: &[Panel], top: f64, sizes: &[f64]) {
    words(text, "name", 16.0, top - 34.0, kind.words());
    words(text, "small", 216.0, top - 34.0, &panels::sources(row));
    let marks = marks(points(row).map(|(_, number)| number));
    let up = Axis {
        ends: [marks[0], marks[marks.len() - 1]],
        places: [top + TALL, top],
    };
    for mark in &marks {
        placed(
            text,
            "small",
            "end",
            LEFT - 6.0,
            up.place(*mark) + 4.0,
            &grouped(*mark),
        );
    }
    let wide = (RIGHT - LEFT + GAP) / CALLS.len() as f64;
    for (at, panel) in row.iter().enumerate() {
        let left = LEFT + wide * at as f64;
        let across = Axis {
            // one size alone stands at the left edge
            ends: [sizes[0], sizes[sizes.len() - 1].max(sizes[0] * 2.0)],
            places: [left, left + wide - GAP],
        };
        frame(text, &across, &up, sizes, &marks);
        words(text, "name", left, top - 10.0, panel.call);
        draw_panel(text, panel, &across, &up);
    }
}

/// The grid of a panel, and the junctions below it.
fn frame(text: &mut String, across: &Axis, up: &Axis, sizes: &[f64], marks: &[f64]) {
    let ([left, right], [bottom, top]) = (across.places, up.places);
    let mut grid = String::new();
    // writing to a string never fails
    for mark in marks {
        let _ = write!(grid, "M{left:.1} {:.1}H{right:.1}", up.place(*mark));
    }
    for (at, n) in sizes.iter().enumerate() {
        let x = across.place(*n);
        let _ = write!(grid, "M{x:.1} {top:.1}V{:.1}", bottom + 4.0);
        // there is room for every other number, between the panel's edges
        let anchor = match at {
            0 => "start",
            _ if at + 1 == sizes.len() => "end",
            _ => "middle",
        };
        if at % 2 == 0 {
            placed(text, "small", anchor, x, bottom + 18.0, &grouped(*n));
        }
    }
    let _ = writeln!(text, "<path class=\"grid\" d=\"{grid}\"/>");
}

fn draw_panel(text: &mut String, panel: &Panel, across: &Axis, up: &Axis) {
    if panel.table.is_none() {
        let middle = |axis: &Axis| (axis.places[0] + axis.places[1]) / 2.0;
        placed(
            text,
            "small",
            "middle",
            middle(across),
            middle(up),
            "not measured",
        );
    }
    // the library's line is drawn last, over the others
    for ((who, class), measured) in WHO.into_iter().zip(&panel.lines).rev() {
        let place = |(n, number): &Point| (across.place(*n), up.place(*number));
        let places: Vec<Point> = measured.iter().map(place).collect();
        line(text, class, &places);
        for ((n, number), place) in measured.iter().zip(places) {
            let title = format!("{who}, {}, {n} junctions: {number}", panel.call);
            dot(text, class, place, &title);
        }
    }
}

/// The numbers 1, 2, 5, 10, 20 .. round all that was measured, at least two; 1 to 10 where nothing was.
fn marks(numbers: impl Iterator<Item = f64>) -> Vec<f64> {
    let ends = numbers
        .map(|number| (number, number))
        .reduce(|(low, high), (number, _)| (low.min(number), high.max(number)));
    let (low, high) = ends.unwrap_or((1.0, 10.0));
    let all: Vec<f64> = (-3..10)
        .flat_map(|power| [1.0, 2.0, 5.0].map(|digit| digit * 10_f64.powi(power)))
        .collect();
    let last = all.len() - 1;
    let from = all.iter().rposition(|mark| *mark <= low).unwrap_or(0);
    let to = all.iter().position(|mark| *mark >= high).unwrap_or(last);
    let from = from.min(last - 1);
    all[from..=to.max(from + 1)].to_vec()
}

/// A number with commas between thousands.
fn grouped(number: f64) -> String {
    let digits = format!("{number}");
    let mut text = String::new();
    for (at, digit) in digits.chars().enumerate() {
        if at > 0 && (digits.len() - at) % 3 == 0 && number >= 1.0 {
            text.push(',');
        }
        text.push(digit);
    }
    text
}

#[cfg(test)]
mod tests {
    use super::*;

    const ONE_TABLE: &str = "\
## Growth

Microseconds:

| n | build | route |
|---:|---:|---:|
| 256 | 8.1 / 10.6 = 0.77 | |
| 1024 | 71.6 / 72.3 = 0.99 | 78.6 |
";

    #[test]
    fn a_higher_number_stands_higher() {
        let up = Axis {
            ends: [1.0, 100.0],
            places: [300.0, 100.0],
        };
        assert_eq!(
            [1.0, 10.0, 100.0].map(|number| up.place(number).round()),
            [300.0, 200.0, 100.0]
        );
    }

    #[test]
    fn what_is_not_measured_is_told() {
        let picture = of(ONE_TABLE, "a page").expect("it has numbers");
        assert!(picture.contains("library, build, 256 junctions: 8.1<"));
        assert!(picture.contains("plain Rust, build, 1024 junctions: 72.3<"));
        assert!(picture.contains("library, route, 1024 junctions: 78.6<"));
        assert_eq!(picture.matches("<circle").count(), 3 + 5);
        assert_eq!(picture.matches("not measured").count(), 5 + 7);
        assert!(!picture.contains("NaN") && !picture.contains("inf"));
    }

    #[test]
    fn a_page_without_numbers_is_refused() {
        assert!(of("## Growth\n", "a page").is_err());
    }

    #[test]
    fn marks_hold_all_numbers() {
        assert_eq!(marks([3.6, 40.0].into_iter()), [2.0, 5.0, 10.0, 20.0, 50.0]);
        assert_eq!(marks([5.0].into_iter()), [5.0, 10.0]);
        assert_eq!(marks([].into_iter()), [1.0, 2.0, 5.0, 10.0]);
    }

    #[test]
    fn thousands_are_parted() {
        assert_eq!(
            [5.0, 256.0, 4096.0, 50000.0].map(grouped),
            ["5", "256", "4,096", "50,000"]
        );
    }
}
