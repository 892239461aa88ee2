//! Writes the made texts of a folder of nets, and by the independent program what must be printed for every text.

use naive::program::printed;
use std::path::Path;
use std::process::ExitCode;
use texts::{made, stored};

fn main() -> ExitCode {
    let words: Vec<String> = std::env::args().skip(1).collect();
    let [folder] = words.as_slice() else {
        eprintln!("store-program FOLDER: the folder of nets, as `nets`");
        return ExitCode::from(2);
    };
    let folder = Path::new(folder);
    match made::write(folder).and_then(|()| stored::store(folder, printed)) {
        Ok(()) => ExitCode::SUCCESS,
        Err(error) => {
            eprintln!("{error}");
            ExitCode::FAILURE
        }
    }
}
