//! The stand-in for the two programs: the independent program with one fault planted. The runs must find each.

mod answering;
mod reading;
mod telling;

use naive::program::Printed;

/// What the programs print for an input.
type Prints = fn(&[u8]) -> Printed;

/// How the stand-in goes wrong.
#[derive(Clone, Copy)]
pub enum How {
    /// It prints something else.
    Prints(Prints),
    /// It takes what a single read gives for the whole input.
    ReadsOnce,
    /// It writes to standard error when it refuses.
    Complains,
    /// It ends with status 1 when it refuses.
    EndsWith1,
}

/// A fault in words, and how it shows.
pub type Fault = (&'static str, How);

/// Faults of the whole run.
const RUNNING: [Fault; 3] = [
    ("only what the first read gives is read", How::ReadsOnce),
    ("a refusal is told on standard error too", How::Complains),
    ("a refusal ends with status 1", How::EndsWith1),
];

/// Every fault.
pub fn all() -> Vec<Fault> {
    let printing = reading::FAULTS
        .iter()
        .chain(&answering::FAULTS)
        .chain(&telling::FAULTS);
    let printing = printing.map(|&(name, prints)| (name, How::Prints(prints)));
    printing.chain(RUNNING).collect()
}
