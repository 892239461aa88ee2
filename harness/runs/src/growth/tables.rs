//! The tables of a page that have numbers for the counties.

/// What is measured.
#[derive(Clone, Copy, Debug, PartialEq)]
pub enum Kind {
    /// Times by the clock.
    Microseconds,
    /// Instructions, in thousands.
    Instructions,
}

impl Kind {
    /// Both, in the order of the page.
    pub const ALL: [Kind; 2] = [Kind::Microseconds, Kind::Instructions];

    /// The words with which the line above a table begins.
    pub fn words(self) -> &'static str {
        match self {
            Kind::Microseconds => "Microseconds",
            Kind::Instructions => "Thousands of instructions",
        }
    }
}

/// A table of one kind of numbers.
pub struct Table<'a> {
    /// The heading that it stands under.
    pub section: &'a str,
    pub kind: Kind,
    /// What else the line above it says first, as the machine; nothing in most.
    pub remark: &'a str,
    columns: Vec<&'a str>,
    rows: Vec<Vec<&'a str>>,
}

/// All tables of a page with a line above them that tells their kind.
pub fn all(page: &str) -> Vec<Table<'_>> {
    let mut tables = Vec::new();
    let (mut section, mut above) = ("", "");
    let mut lines = page.lines().peekable();
    while let Some(line) = lines.next() {
        if let Some(title) = line.strip_prefix("## ") {
            section = title;
        }
        if !line.starts_with('|') {
            above = if line.is_empty() { above } else { line };
            continue;
        }
        let mut rows = Vec::new();
        while let Some(row) = lines.next_if(|line| line.starts_with('|')) {
            rows.push(cells(row));
        }
        let kind = Kind::ALL
            .into_iter()
            .find(|kind| above.starts_with(kind.words()));
        if let Some(kind) = kind {
            tables.push(Table {
                section,
                kind,
                remark: remark(&above[kind.words().len()..]),
                columns: cells(line),
                rows,
            });
        }
        above = "";
    }
    tables
}

fn cells(line: &str) -> Vec<&str> {
    line.trim_matches('|').split('|').map(str::trim).collect()
}

/// Of `, aarch64, before ..:` it is `aarch64`.
fn remark(words: &str) -> &str {
    let words = words.trim_start_matches([',', ':', ' ']);
    words.split([',', ':']).next().unwrap_or_default()
}

impl Table<'_> {
    /// The numbers of a column by junctions, as far as there are: the first of each cell, or the second after a `/`.
    pub fn points(&self, column: &str, second: bool) -> Vec<(f64, f64)> {
        let is_it = |name: &&str| *name == column || *name == format!("{column} to all");
        let Some(at) = self.columns.iter().position(is_it) else {
            return Vec::new();
        };
        self.rows
            .iter()
            .filter_map(|row| {
                let cell = row.get(at)?.split('=').next()?;
                let number = cell.split('/').nth(second as usize)?.trim();
                Some((self.junctions(row)?, positive(number)?))
            })
            .collect()
    }

    /// How many junctions the county of a row has; none for another net.
    fn junctions(&self, row: &[&str]) -> Option<f64> {
        match (*self.columns.first()?, *row.first()?) {
            ("n", number) => positive(number),
            ("net", name) => positive(name.strip_prefix("county ")?),
            _ => None,
        }
    }
}

/// A number that a logarithmic axis has a place for.
fn positive(word: &str) -> Option<f64> {
    word.parse()
        .ok()
        .filter(|number: &f64| number.is_finite() && *number > 0.0)
}

#[cfg(test)]
mod tests {
    use super::*;

    const PAGE: &str = "\
## Growth

Microseconds:

| n | arcs | build | route | Dijkstra |
|---:|---:|---:|---:|---:|
| 256 | 739 | 8.1 / 10.6 = 0.77 | 12.4 / 12.2 = 1.02 | 7.5 |
| 512 | 1551 | | 30.4 / - = - | 18.6 |
| 1024 | 3069 | NaN / 0.0 = inf |
| 2048 |

Thousands of instructions:

| n | arcs | build | route | Dijkstra |
|---:|---:|---:|---:|---:|

## Apart

Microseconds, aarch64, before the last change (as told):

| net | n | sweep_from | Dijkstra to all |
|---|---:|---:|---:|
| bologna | 155 | 2.1 / 2.2 = 0.93 | 4.7 |
| county 256 | 256 | 4.0 / 4.7 = 0.84 | 14.7 |

| call | build |
|---|---:|
| build | 3 |
";

    #[test]
    fn numbers_that_are_there_are_read() {
        let tables = all(PAGE);
        let growth = &tables[0];
        assert_eq!((growth.section, growth.remark), ("Growth", ""));
        assert_eq!(growth.points("build", false), [(256.0, 8.1)]);
        assert_eq!(growth.points("build", true), [(256.0, 10.6)]);
        assert_eq!(
            growth.points("route", false),
            [(256.0, 12.4), (512.0, 30.4)]
        );
        assert_eq!(growth.points("route", true), [(256.0, 12.2)]);
        assert_eq!(
            growth.points("Dijkstra", false),
            [(256.0, 7.5), (512.0, 18.6)]
        );
        assert_eq!(growth.points("sweep_from", false), []);
    }

    #[test]
    fn a_table_without_rows_has_no_numbers() {
        let empty = &all(PAGE)[1];
        assert_eq!(empty.kind, Kind::Instructions);
        assert_eq!(empty.points("build", false), []);
    }

    #[test]
    fn of_other_tables_the_counties_are_read() {
        let tables = all(PAGE);
        assert_eq!(tables.len(), 3);
        let apart = &tables[2];
        assert_eq!((apart.section, apart.remark), ("Apart", "aarch64"));
        assert_eq!(apart.points("sweep_from", true), [(256.0, 4.7)]);
        assert_eq!(apart.points("Dijkstra", false), [(256.0, 14.7)]);
    }
}
