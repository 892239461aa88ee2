//! Changes that mostly break a text's rules: bytes, words and lines put in, taken out, exchanged.

use crate::random::comment;
use crate::written::{ended, parted, words};
use naive::text::MOST_BYTES;
use nets::source::Source;

/// Bytes that the rules care for, and some that they don't.
const BYTES: &[u8] = b"\n\n \t\r\0-+.0123456789capoqsx\x0b\x7f\x80\xff";

/// What may come in place of a space or of an LF.
const PARTINGS: [&str; 9] = ["", " ", "  ", "\t", "\n", "\n\n", "\r\n", " \n", "\n "];

/// Words in place of a number.
const WORDS: [&str; 29] = [
    "",
    "-",
    "--",
    "+1",
    "-1",
    "0",
    "000",
    "1",
    "2",
    "3",
    "007",
    "64",
    "65",
    "255",
    "256",
    "257",
    "1023",
    "1024",
    "1025",
    "500000",
    "500001",
    "999999999",
    "0000000001",
    "1000000000",
    "4294967295",
    "4294967297",
    "18446744073709551617",
    "x",
    "1x",
];

/// Lines to put in.
const LINES: [&str; 20] = [
    "",
    " ",
    "c",
    "cc",
    " c",
    "c\t",
    "C",
    "p sp 1 0",
    "p sp 0 0",
    "p sp 3 3",
    "a 1 1 1",
    "a 1 2 -",
    "a 1 2 3 4",
    "o 1",
    "o 2",
    "q 1 1",
    "q 1 2",
    "q 1",
    "x",
    "\r",
];

/// The text with one change.
pub fn spoil(text: Vec<u8>, source: &mut Source) -> Vec<u8> {
    match source.below(13) {
        0 | 1 => byte_changed(text, source),
        2 | 3 => parting_changed(text, source),
        4..=6 => word_changed(text, source),
        7 | 8 => lines_changed(text, source),
        9 => size_changed(text, source),
        10 => cut_short(text, source),
        11 => stretched(text, source),
        _ => grown(text, source),
    }
}

/// A byte changed, put in or taken out.
fn byte_changed(mut text: Vec<u8>, source: &mut Source) -> Vec<u8> {
    let at = source.below(text.len() + 1);
    let new = source.pick(BYTES);
    match source.below(3) {
        0 if at < text.len() => text[at] = new,
        1 if at < text.len() => drop(text.remove(at)),
        _ => text.insert(at, new),
    }
    text
}

/// A space or an LF becomes something like it.
fn parting_changed(mut text: Vec<u8>, source: &mut Source) -> Vec<u8> {
    let parting = |&at: &usize| text[at] == b' ' || text[at] == b'\n';
    let places: Vec<usize> = (0..text.len()).filter(parting).collect();
    if !places.is_empty() {
        let at = source.pick(&places);
        let other: &str = source.pick(&PARTINGS);
        text.splice(at..=at, other.bytes());
    }
    text
}

/// A word of any line becomes another.
fn word_changed(text: Vec<u8>, source: &mut Source) -> Vec<u8> {
    let (mut lines, rest) = parted(&text);
    if !lines.is_empty() {
        let at = source.below(lines.len());
        let mut line: Vec<&[u8]> = words(&lines[at]);
        let word = source.below(line.len());
        line[word] = source.pick(&WORDS).as_bytes();
        lines[at] = line.join(&b' ');
    }
    [ended(&lines), rest].concat()
}

/// A line gets a byte order mark, or a byte of it comes again and again, round the 80 of a line that are shown.
fn stretched(text: Vec<u8>, source: &mut Source) -> Vec<u8> {
    let (mut lines, rest) = parted(&text);
    if !lines.is_empty() {
        let at = source.below(lines.len());
        let line = &mut lines[at];
        let place = source.below(line.len() + 1);
        let more = source.between(78, 82).saturating_sub(line.len());
        match line.get(place).copied() {
            Some(byte) if place > 0 => drop(line.splice(place..place, vec![byte; more])),
            _ => drop(line.splice(..0, *b"\xef\xbb\xbf")),
        }
    }
    [ended(&lines), rest].concat()
}

/// Lines exchanged, taken out, doubled, moved, put in.
fn lines_changed(text: Vec<u8>, source: &mut Source) -> Vec<u8> {
    let (mut lines, rest) = parted(&text);
    if lines.is_empty() {
        return text;
    }
    let (at, other) = (source.below(lines.len()), source.below(lines.len()));
    match source.below(6) {
        0 => lines.swap(at, other),
        1 => drop(lines.remove(at)),
        2 => lines.insert(at, lines[at].clone()),
        3 => {
            let line = lines.remove(at);
            lines.insert(other, line);
        }
        4 => lines.insert(at, comment(source)),
        _ => lines.insert(at, source.pick(&LINES).into()),
    }
    [ended(&lines), rest].concat()
}

/// n or m of the `p` line one more or one less.
fn size_changed(text: Vec<u8>, source: &mut Source) -> Vec<u8> {
    let (mut lines, rest) = parted(&text);
    let by = source.pick(&[-1, 1]);
    let which = source.between(2, 3);
    if let Some(line) = lines.iter_mut().find(|line| line.starts_with(b"p sp ")) {
        let mut words: Vec<String> = words(line)
            .into_iter()
            .map(|word| String::from_utf8_lossy(word).into_owned())
            .collect();
        if let Some(Ok(size)) = words.get(which).map(|word| word.parse::<i64>()) {
            words[which] = (size + by).max(0).to_string();
            *line = words.join(" ").into_bytes();
        }
    }
    [ended(&lines), rest].concat()
}

/// The last LF taken away, or the end from anywhere on.
fn cut_short(mut text: Vec<u8>, source: &mut Source) -> Vec<u8> {
    let length = match source.percent(50) {
        true => text.len().saturating_sub(1),
        false => source.below(text.len() + 1),
    };
    text.truncate(length);
    text
}

/// More questions than there may be, or a comment that makes the text just as long as it may be, or longer.
fn grown(mut text: Vec<u8>, source: &mut Source) -> Vec<u8> {
    if source.percent(60) {
        let line = source.pick(&["q 1 1\n", "q 2 1\n", "q 1 999999999\n"]);
        text.extend(line.repeat(source.between(1, 70)).bytes());
        return text;
    }
    let length = source.pick(&[MOST_BYTES - 1, MOST_BYTES, MOST_BYTES + 1, 2 * MOST_BYTES]);
    text.extend(b"c ");
    text.resize(length.max(text.len() + 1) - 1, b'.');
    text.push(b'\n');
    text
}
