//! Texts that are a step smaller.

use crate::written::{ended, is_kind, junction_places, number, parted, said_n, words};
use cases::shrink::cuts;

/// Texts without some lines; without some arcs and with m to match; without one junction; without some bytes.
pub fn smaller_texts(text: &[u8]) -> Vec<Vec<u8>> {
    let (lines, rest) = parted(text);
    let mut smaller = Vec::new();
    for (start, end) in cuts(lines.len()) {
        let kept = [&lines[..start], &lines[end..]].concat();
        smaller.push([ended(&kept), rest.clone()].concat());
    }
    let arcs: Vec<usize> = (0..lines.len())
        .filter(|&at| is_kind(&lines[at], b"a"))
        .collect();
    for (start, end) in cuts(arcs.len()) {
        let kept = without_lines(&lines, |at| arcs[start..end].contains(&at));
        smaller.push([ended(&kept), rest.clone()].concat());
    }
    for junction in 1..=said_n(&lines).unwrap_or(0).min(300) {
        let kept = without_junction(&lines, junction);
        smaller.push([ended(&kept), rest.clone()].concat());
    }
    if text.len() < 200 || lines.len() < 3 {
        for (start, end) in cuts(text.len()) {
            smaller.push([&text[..start], &text[end..]].concat());
        }
    }
    smaller.retain(|candidate| candidate.len() < text.len());
    smaller
}

/// The lines without those at these places; the sizes of the `p` line fall by the arcs and the junctions left out.
fn without_lines(lines: &[Vec<u8>], left_out: impl Fn(usize) -> bool) -> Vec<Vec<u8>> {
    let gone = |kind: &[u8]| {
        let gone = |&at: &usize| left_out(at) && is_kind(&lines[at], kind);
        (0..lines.len()).filter(gone).count() as u32
    };
    let (junctions, arcs) = (gone(b"o"), gone(b"a"));
    let kept = (0..lines.len()).filter(|&at| !left_out(at));
    kept.map(|at| {
        let mut words: Vec<Vec<u8>> = words(&lines[at]).iter().map(|word| word.to_vec()).collect();
        if words.len() == 4 && words[0] == b"p" {
            for (size, less) in [(2, junctions), (3, arcs)] {
                let fallen = number(&words[size]).map(|size| size.saturating_sub(less));
                words[size] = fallen.map_or(words[size].clone(), |size| size.to_string().into());
            }
        }
        words.join(&b' ')
    })
    .collect()
}

/// The lines without those that name a junction; higher ones fall by one.
fn without_junction(lines: &[Vec<u8>], junction: u32) -> Vec<Vec<u8>> {
    let names = |at: usize| {
        let words = words(&lines[at]);
        junction_places(&words).any(|place| number(words[place]) == Some(junction))
    };
    let renumbered = |line: Vec<u8>| {
        let words = words(&line);
        let junctions = junction_places(&words);
        let word = |place: usize| match number(words[place]) {
            Some(at) if junctions.contains(&place) && at > junction => {
                (at - 1).to_string().into_bytes()
            }
            _ => words[place].to_vec(),
        };
        (0..words.len()).map(word).collect::<Vec<_>>().join(&b' ')
    };
    let kept = without_lines(lines, names);
    kept.into_iter().map(renumbered).collect()
}

#[cfg(test)]
mod tests {
    use super::*;

    #[test]
    fn a_junction_leaves_with_its_lines_and_the_sizes_follow() {
        let text = b"c\np sp 3 3\na 1 2 5\na 2 3 5\na 3 1 -\no 3\no 2\no 1\nq 1 3\nq 2 2\n";
        let (lines, _) = parted(text);
        let without = ended(&without_junction(&lines, 2));
        assert_eq!(
            String::from_utf8_lossy(&without),
            "c\np sp 2 1\na 2 1 -\no 2\no 1\nq 1 2\n"
        );
        assert!(smaller_texts(text).contains(&without));
    }
}
