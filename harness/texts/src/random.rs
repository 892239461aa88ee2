//! Random texts: nets of all shapes with questions, written in all the ways that the rules allow; half of them spoilt.

use crate::spoil::spoil;
use crate::written::{each_word, ended, net_lines, question_line};
use cases::Case;
use naive::text::{MOST_ARCS, MOST_QUESTIONS};
use nets::county::{county, USUAL};
use nets::source::Source;
use nets::{order, Net};

/// Any text.
pub fn any(source: &mut Source) -> Vec<u8> {
    let mut text = well_written(source);
    if source.percent(50) {
        for _ in 0..source.pick(&[1, 1, 1, 2, 3]) {
            text = spoil(text, source);
        }
    }
    text
}

/// A text that keeps the rules.
pub fn well_written(source: &mut Source) -> Vec<u8> {
    let (net, order) = any_net(source);
    let mut lines = net_lines(&net, &order);
    for _ in 0..source.pick(&[0, 1, 3, 10, 20, MOST_QUESTIONS]) {
        let mut end = || source.below(net.n) as u32;
        lines.push(question_line(end(), end()));
    }
    let mut lines: Vec<Vec<u8>> = lines.into_iter().map(String::into_bytes).collect();
    if source.percent(30) {
        for _ in 0..source.between(1, 6) {
            let at = source.below(lines.len() + 1);
            lines.insert(at, comment(source));
        }
    }
    let text = ended(&lines);
    match source.percent(10) {
        true => each_word(&text, zeros_before),
        false => text,
    }
}

/// A small net mostly, with any order; else a county with an order that keeps the graph thin.
fn any_net(source: &mut Source) -> (Net, Vec<u32>) {
    if source.percent(10) {
        let net = county(source.between(60, 256), USUAL, source);
        let order = match source.percent(80) {
            true => order::dissection(&net.east, &net.north, &net.tails, &net.heads),
            false => order::shuffled(net.n, source),
        };
        return (net, order);
    }
    let case = loop {
        let case = cases::small(source);
        if case.tails.len() <= MOST_ARCS {
            break case;
        }
    };
    let Case {
        n,
        tails,
        heads,
        costs,
        order,
        ..
    } = case;
    let net = Net {
        n,
        tails,
        heads,
        costs,
        ..Net::default()
    };
    (net, order)
}

/// A comment of any bytes.
pub fn comment(source: &mut Source) -> Vec<u8> {
    let length = source.pick(&[0, 1, 2, 9, 40]);
    let mut line = b"c".to_vec();
    for at in 0..length {
        let byte = source.below(256) as u8;
        line.push(match (at, byte) {
            (0, _) => b' ',
            (_, b'\n') => b'\r',
            (_, byte) => byte,
        });
    }
    line
}

/// A number of fewer than nine digits with a zero before it.
fn zeros_before(word: &[u8]) -> Vec<u8> {
    let number = word.len() < 9 && word.iter().all(u8::is_ascii_digit);
    let zero: &[u8] = if number { b"0" } else { b"" };
    [zero, word].concat()
}

#[cfg(test)]
mod tests {
    use super::*;

    #[test]
    fn a_text_keeps_the_rules_until_it_is_spoilt() {
        for number in 0..300 {
            let text = well_written(&mut Source::nth(1, number));
            assert!(naive::text::read(&text).is_ok(), "text {number}");
        }
        let any = (0..300).map(|number| any(&mut Source::nth(2, number)));
        let broken = any.filter(|text| naive::text::read(text).is_err()).count();
        assert!((60..200).contains(&broken), "{broken} of 300");
    }
}
