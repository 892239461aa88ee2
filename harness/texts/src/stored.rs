//! The stored runs: texts in the folder `nets` with what must be printed for each.

use naive::program::Printed;
use std::fs;
use std::path::{Path, PathBuf};

/// The texts beside the nets, for people. The others are in the folder `program`.
const BESIDE: [&str; 3] = ["n4.gr", "bologna.txt", "county.txt"];

/// The table of what `bad_line` must print.
const TABLE: &str = "faults.txt";

/// A stored text.
#[derive(Clone, Debug)]
pub struct Stored {
    /// Its name, by which it is in the table.
    pub name: String,
    /// Its file.
    pub path: PathBuf,
    /// The text.
    pub text: Vec<u8>,
}

/// The folder of most texts.
pub fn folder(nets: &Path) -> PathBuf {
    nets.join("program")
}

/// An error with the file that it concerns.
pub fn told(path: &Path) -> impl Fn(std::io::Error) -> String + '_ {
    move |error| format!("{}: {error}", path.display())
}

/// The files of a folder that end in this, by name.
fn files(folder: &Path, ending: &str) -> Result<Vec<PathBuf>, String> {
    let mut paths = Vec::new();
    for entry in fs::read_dir(folder).map_err(told(folder))? {
        let path = entry.map_err(told(folder))?.path();
        let named = path
            .extension()
            .is_some_and(|extension| extension == ending);
        if named && !path.ends_with(TABLE) {
            paths.push(path);
        }
    }
    paths.sort();
    Ok(paths)
}

/// Every stored text.
pub fn texts(nets: &Path) -> Result<Vec<Stored>, String> {
    let mut paths: Vec<PathBuf> = BESIDE.iter().map(|name| nets.join(name)).collect();
    paths.extend(files(&folder(nets), "txt")?);
    let stored = |path: PathBuf| {
        let stem = path.file_stem().unwrap_or_default();
        Ok(Stored {
            name: stem.to_string_lossy().into_owned(),
            text: fs::read(&path).map_err(told(&path))?,
            path,
        })
    };
    paths.into_iter().map(stored).collect()
}

/// What the table has of a text: its name, and below it, each after four spaces, the lines that `bad_line` must print.
fn entry(name: &str, bad_line: &str) -> String {
    let below = bad_line.lines().map(|line| format!("    {line}\n"));
    format!("{name}\n{}", below.collect::<String>())
}

/// The names of the table, each with what `bad_line` must print.
fn entries(table: &str) -> Result<Vec<(&str, String)>, String> {
    let mut entries: Vec<(&str, String)> = Vec::new();
    for line in table.lines() {
        match (line.strip_prefix("    "), entries.last_mut()) {
            (Some(line), Some((_, said))) => *said += &format!("{line}\n"),
            (Some(line), None) => return Err(format!("{TABLE} has no name above {line}")),
            (None, _) => entries.push((line, String::new())),
        }
    }
    Ok(entries)
}

/// Writes what must be printed for every text: `NAME.out` beside the text, and the table.
pub fn store(nets: &Path, printed: impl Fn(&[u8]) -> Printed) -> Result<(), String> {
    let mut table = String::new();
    for stored in texts(nets)? {
        let printed = printed(&stored.text);
        let path = stored.path.with_extension("out");
        fs::write(&path, printed.route).map_err(told(&path))?;
        table += &entry(&stored.name, &printed.bad_line);
    }
    let path = folder(nets).join(TABLE);
    fs::write(&path, table).map_err(told(&path))
}

/// Every stored text with what must be printed. A text without, or an output or a name of the table without its text, is
/// an error.
pub fn expected(nets: &Path) -> Result<Vec<(Stored, Printed)>, String> {
    let path = folder(nets).join(TABLE);
    let table = fs::read_to_string(&path).map_err(told(&path))?;
    let mut entries = entries(&table)?.into_iter();
    let mut expected = Vec::new();
    for stored in texts(nets)? {
        let entry = entries.next().filter(|&(name, _)| name == stored.name);
        let Some((_, bad_line)) = entry else {
            return Err(format!("{TABLE} does not have {} in turn", stored.name));
        };
        let path = stored.path.with_extension("out");
        let route = fs::read_to_string(&path).map_err(told(&path))?;
        expected.push((stored, Printed { route, bad_line }));
    }
    let outputs = BESIDE.len() + files(&folder(nets), "out")?.len();
    match outputs == expected.len() && entries.next().is_none() {
        true => Ok(expected),
        false => Err("an output or a name of the table has no text".to_string()),
    }
}

#[cfg(test)]
mod tests {
    use super::*;

    #[test]
    fn a_table_is_read_as_it_is_written() {
        let said = [
            ("a-b", "line 2: x\n    a 1  2 \n"),
            ("c", "keeps\n"),
            ("d", ""),
        ];
        let table: String = said.iter().map(|(name, said)| entry(name, said)).collect();
        let read = entries(&table).unwrap_or_default();
        assert_eq!(read, said.map(|(name, said)| (name, said.to_string())));
    }
}
