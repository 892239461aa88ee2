//! What each panel of the picture shows: one call, measured in one way.

use super::tables::{Kind, Table};

/// The calls, and whether Dijkstra answers the same question.
pub const CALLS: [(&str, bool); 7] = [
    ("build", false),
    ("customise", false),
    ("distance", true),
    ("route", true),
    ("sweep_from", true),
    ("sweep_to", true),
    ("change", false),
];

/// Whose numbers a line shows, as the legend and the style name them.
pub const WHO: [(&str, &str); 3] = [
    ("library", "library"),
    ("plain Rust", "plain"),
    ("Dijkstra", "dijkstra"),
];

/// Junctions and what was measured there.
pub type Point = (f64, f64);

/// The lines of one call, and the table that they are drawn from; none where nothing was measured.
pub struct Panel<'a> {
    pub call: &'static str,
    pub table: Option<&'a Table<'a>>,
    /// One for each of `WHO`.
    pub lines: [Vec<Point>; 3],
}

/// A row of panels, all measured in one way.
pub fn row<'a>(tables: &'a [Table<'a>], kind: Kind) -> Vec<Panel<'a>> {
    CALLS
        .map(|(call, alone)| panel(tables, kind, call, alone))
        .into()
}

/// The first table of the page that has numbers of the call.
fn panel<'a>(tables: &'a [Table<'a>], kind: Kind, call: &'static str, dijkstra: bool) -> Panel<'a> {
    let table = tables
        .iter()
        .find(|table| table.kind == kind && !table.points(call, false).is_empty());
    let lines = table.map(|table| {
        let mut lines = [
            table.points(call, false),
            table.points(call, true),
            table.points("Dijkstra", false),
        ];
        if !dijkstra {
            lines[2].clear();
        }
        lines
    });
    Panel {
        call,
        table,
        lines: lines.unwrap_or_default(),
    }
}

/// The tables that a row is drawn from, each with its calls, in words.
pub fn sources(row: &[Panel]) -> String {
    let mut told: Vec<(String, Vec<&str>)> = Vec::new();
    for panel in row {
        let Some(table) = panel.table else { continue };
        let remark = match table.remark {
            "" => String::new(),
            remark => format!(", {remark}"),
        };
        let name = format!("“{}”{remark}", table.section);
        match told.last_mut() {
            Some((last, calls)) if *last == name => calls.push(panel.call),
            _ => told.push((name, vec![panel.call])),
        }
    }
    let words = told
        .iter()
        .map(|(name, calls)| format!("{name}: {}", calls.join(", ")));
    words.collect::<Vec<_>>().join("; ")
}
