//! A net with its order and questions, written as the program reads it.

use nets::{Net, CLOSED};

/// The lines of a net: `p`, every `a`, every `o`. The text counts junctions from 1.
pub fn net_lines(net: &Net, order: &[u32]) -> Vec<String> {
    let mut lines = vec![format!("p sp {} {}", net.n, net.tails.len())];
    for arc in 0..net.tails.len() {
        let cost = match net.costs[arc] {
            CLOSED => "-".to_string(),
            cost => cost.to_string(),
        };
        let (tail, head) = (net.tails[arc] + 1, net.heads[arc] + 1);
        lines.push(format!("a {tail} {head} {cost}"));
    }
    lines.extend(order.iter().map(|junction| format!("o {}", junction + 1)));
    lines
}

/// The line of a question, its junctions counted from 0 here.
pub fn question_line(from: u32, to: u32) -> String {
    format!("q {} {}", from + 1, to + 1)
}

/// Lines, each ended by LF.
pub fn ended<T: AsRef<[u8]>>(lines: &[T]) -> Vec<u8> {
    let ended = |line: &T| [line.as_ref(), b"\n"].concat();
    lines.iter().flat_map(ended).collect()
}

/// The ended lines of a text, and what stands after its last LF.
pub fn parted(text: &[u8]) -> (Vec<Vec<u8>>, Vec<u8>) {
    let mut parts: Vec<Vec<u8>> = text
        .split(|&byte| byte == b'\n')
        .map(<[u8]>::to_vec)
        .collect();
    let rest = parts.pop().unwrap_or_default();
    (parts, rest)
}

/// A text with each ended line changed; what stands after the last LF stays.
pub fn each_line(text: &[u8], change: impl FnMut(Vec<u8>) -> Vec<u8>) -> Vec<u8> {
    let (lines, rest) = parted(text);
    let lines: Vec<Vec<u8>> = lines.into_iter().map(change).collect();
    [ended(&lines), rest].concat()
}

/// A text with each word changed of the lines that aren't comments.
pub fn each_word(text: &[u8], change: impl Fn(&[u8]) -> Vec<u8>) -> Vec<u8> {
    each_line(text, |line| match is_kind(&line, b"c") {
        true => line,
        false => words(&line)
            .into_iter()
            .map(&change)
            .collect::<Vec<_>>()
            .join(&b' '),
    })
}

/// The words of a line.
pub fn words(line: &[u8]) -> Vec<&[u8]> {
    line.split(|&byte| byte == b' ').collect()
}

/// Whether a line's first word is this one.
pub fn is_kind(line: &[u8], kind: &[u8]) -> bool {
    words(line)[0] == kind
}

/// The number that a word says.
pub fn number(word: &[u8]) -> Option<u32> {
    std::str::from_utf8(word).ok()?.parse().ok()
}

/// Where among a line's words its junctions stand.
pub fn junction_places(words: &[&[u8]]) -> std::ops::Range<usize> {
    match words[0] {
        b"a" | b"q" => 1..words.len().min(3),
        b"o" => 1..words.len().min(2),
        _ => 0..0,
    }
}

/// n as the first `p` line says it, if it does.
pub fn said_n(lines: &[Vec<u8>]) -> Option<u32> {
    said_size(lines, 2)
}

/// m as the first `p` line says it, if it does.
pub fn said_m(lines: &[Vec<u8>]) -> Option<u32> {
    said_size(lines, 3)
}

fn said_size(lines: &[Vec<u8>], at: usize) -> Option<u32> {
    let line = lines.iter().find(|line| is_kind(line, b"p"))?;
    number(words(line).get(at)?)
}
