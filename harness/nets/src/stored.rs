//! The nets that are stored in the folder `nets` of the repository.

use crate::{dimacs, order, Net};
use std::path::{Path, PathBuf};

/// Their names.
pub const NAMES: [&str; 4] = ["bologna", "liechtenstein", "syn1024", "syn256"];

/// The folder, unless told otherwise.
pub fn folder() -> PathBuf {
    Path::new(env!("CARGO_MANIFEST_DIR")).join("../../nets")
}

/// A net with its order by dissection.
pub fn read(folder: &Path, name: &str) -> Result<(Net, Vec<u32>), String> {
    let net = dimacs::read(folder, name)?;
    let order = order::dissection(&net.east, &net.north, &net.tails, &net.heads);
    Ok((net, order))
}
