//! Stands in for `route` or `bad_line`, to try the runs themselves: `standin-program route` is the independent program,
//! `standin-program route 3` the same with fault 3 planted.

use naive::program::printed;
use std::io::{stdin, Read};
use std::process::ExitCode;
use texts::faults::{self, How};

fn main() -> ExitCode {
    let words: Vec<String> = std::env::args().skip(1).collect();
    let number: usize = words.get(1).map_or(0, |word| word.parse().unwrap_or(0));
    let fault = number.checked_sub(1).map(|at| faults::all()[at].1);
    let input = input(matches!(fault, Some(How::ReadsOnce)));
    let said = match fault {
        Some(How::Prints(prints)) => prints(&input),
        _ => printed(&input),
    };
    let said = match words.first().map(String::as_str) {
        Some("bad_line") => said.bad_line,
        _ => said.route,
    };
    print!("{said}");
    let refused = said.starts_with("refused") || said.starts_with("line ");
    match fault {
        Some(How::Complains) if refused => eprintln!("refused"),
        Some(How::EndsWith1) if refused => return ExitCode::FAILURE,
        _ => {}
    }
    ExitCode::SUCCESS
}

/// Standard input, the whole or what a single read gives.
fn input(once: bool) -> Vec<u8> {
    let mut input = Vec::new();
    if once {
        input.resize(100_000, 0);
        let length = stdin().read(&mut input).unwrap_or(0);
        input.truncate(length);
    } else {
        // what came before an error is the input
        let _ = stdin().read_to_end(&mut input);
    }
    input
}
