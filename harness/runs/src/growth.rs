//! The growth of each call as a picture: read from the tables of docs/BENCHMARKS.md, so that it is drawn without measuring.

mod panels;
mod picture;
mod tables;

pub use tables::Kind;

use std::fs;
use std::path::Path;

/// Draws the tables of a page.
pub fn draw(page: &Path, picture: &Path) -> Result<(), String> {
    let told = |file: &Path, error| format!("{}: {error}", file.display());
    let text = fs::read_to_string(page).map_err(|error| told(page, error))?;
    let name = page.file_name().unwrap_or_default().to_string_lossy();
    let drawn = picture::of(&text, &name).map_err(|error| format!("{name}: {error}"))?;
    fs::write(picture, drawn).map_err(|error| told(picture, error))
}
