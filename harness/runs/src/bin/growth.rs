//! Draws the growth of each call, as the tables of a page have it: `growth ../docs/BENCHMARKS.md ../docs/growth.svg`.

use std::process::exit;

fn main() {
    let words: Vec<String> = std::env::args().skip(1).collect();
    let [page, picture] = words.as_slice() else {
        eprintln!("growth PAGE PICTURE: draws the tables of a page, as docs/BENCHMARKS.md, as an SVG picture");
        exit(2);
    };
    if let Err(error) = runs::growth::draw(page.as_ref(), picture.as_ref()) {
        eprintln!("{error}");
        exit(1);
    }
}
