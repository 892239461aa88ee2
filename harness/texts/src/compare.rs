//! Compares the programs with what they must print, on stored, long and random texts.

use crate::long::Long;
use crate::program::{Fed, Programs};
use crate::random;
use crate::shrink::smaller_texts;
use crate::stored::Stored;
use cases::shrink::shrink;
use naive::program::{printed, Printed};
use nets::source::Source;

/// A text on which a program goes wrong.
pub struct Wrong {
    /// The text's name.
    pub name: String,
    /// What goes wrong.
    pub said: String,
    /// The text itself.
    pub text: Vec<u8>,
}

/// The stored texts on which the programs go wrong, handed over as files and slowly through a pipe.
pub fn stored<'a>(
    programs: &'a Programs,
    texts: &'a [(Stored, Printed)],
) -> impl Iterator<Item = Wrong> + 'a {
    texts.iter().filter_map(|(stored, expected)| {
        let fed = [Fed::File(&stored.path), Fed::Slowly(&stored.text)];
        wrong(programs, &fed, expected, &stored.name, &stored.text)
    })
}

/// The long texts on which the programs go wrong, handed over through a pipe, at once and slowly.
pub fn long<'a>(programs: &'a Programs, texts: &'a [Long]) -> impl Iterator<Item = Wrong> + 'a {
    texts.iter().filter_map(|long| {
        let fed = [Fed::Pipe(&long.text), Fed::Slowly(&long.text)];
        wrong(programs, &fed, &long.expected, long.name, &long.text)
    })
}

fn wrong(
    programs: &Programs,
    ways: &[Fed],
    expected: &Printed,
    name: &str,
    text: &[u8],
) -> Option<Wrong> {
    let said = ways.iter().find_map(|&fed| programs.wrong(fed, expected));
    said.map(|said| Wrong {
        name: name.to_string(),
        said,
        text: text.to_vec(),
    })
}

/// The random text of a seed and a number.
pub fn random_text(seed: u64, number: u64) -> Vec<u8> {
    random::any(&mut Source::nth(seed, number))
}

/// What goes wrong on any text, by the independent program.
pub fn against_the_independent(programs: &Programs, text: &[u8]) -> Option<String> {
    programs.wrong(Fed::Pipe(text), &printed(text))
}

/// The smallest text found on which the programs still go wrong, with what they do there.
pub fn made_small(programs: &Programs, wrong: Wrong) -> Wrong {
    let fails = |text: &Vec<u8>| against_the_independent(programs, text);
    let (text, said) = shrink(wrong.text, wrong.said, |text| smaller_texts(text), fails);
    Wrong {
        text,
        said,
        ..wrong
    }
}
