//! What `bad_line` tells of a text that is refused: the line at fault, the refusal's number, the cause, and the line itself.

use crate::text::{
    cost_of, junction, number, MOST_ARCS, MOST_BYTES, MOST_JUNCTIONS, MOST_QUESTIONS,
};

/// Of a word or a line no more bytes are shown.
const MOST_SHOWN: usize = 80;

/// A cause in words, and the word of the line that is at fault, if it is a single one.
#[derive(Clone, Debug, PartialEq, Eq)]
struct Cause<'a> {
    words: String,
    word: Option<&'a [u8]>,
}

impl<'a> Cause<'a> {
    fn whole(words: impl Into<String>) -> Cause<'a> {
        Cause {
            words: words.into(),
            word: None,
        }
    }

    fn of(words: impl Into<String>, word: &'a [u8]) -> Cause<'a> {
        Cause {
            words: words.into(),
            word: Some(word),
        }
    }
}

/// What is printed for a text that is refused with this number at this place: of 14 a line, else an arc or a position.
pub fn told(input: &[u8], refusal: u32, place: usize) -> String {
    let lines: Vec<&[u8]> = input.split(|&byte| byte == b'\n').collect();
    let (at, cause) = match refusal {
        14 => (place, of_text(&lines, place)),
        _ => of_net(&lines, refusal, place),
    };
    let here = cause.word.map(|word| format!("; here {}", shown(word)));
    let line = at.checked_sub(1).map_or(&b""[..], |at| lines[at]);
    let below = match line {
        b"" => String::new(),
        line => format!("  {}\n", shown(line)),
    };
    format!(
        "line {at}: refused {refusal}: {}{}\n{below}",
        cause.words,
        here.unwrap_or_default()
    )
}

/// Bytes as they are from the space to the tilde, else by their number; of many only the first.
fn shown(bytes: &[u8]) -> String {
    let byte = |&byte: &u8| match byte {
        b' '..=b'~' => char::from(byte).to_string(),
        other => format!("\\x{other:02x}"),
    };
    let start = bytes.iter().take(MOST_SHOWN).map(byte).collect::<String>();
    match bytes.len() > MOST_SHOWN {
        true => start + " ..",
        false => start,
    }
}

/// The words of a line.
fn words_of(line: &[u8]) -> Vec<&[u8]> {
    line.split(|&byte| byte == b' ').collect()
}

/// The lines before the one at fault: the sizes that `p` told, and how many lines of each other kind there are.
#[derive(Default)]
struct Before {
    sizes: Option<(usize, usize)>,
    arcs: usize,
    seats: usize,
    questions: usize,
}

impl Before {
    fn of(lines: &[&[u8]]) -> Before {
        let mut before = Before::default();
        for line in lines {
            match *words_of(line) {
                [b"p", _, n, m] => {
                    let size = |word| number(word).unwrap_or_default() as usize;
                    before.sizes = Some((size(n), size(m)));
                }
                [b"a", ..] => before.arcs += 1,
                [b"o", ..] => before.seats += 1,
                [b"q", ..] => before.questions += 1,
                _ => {}
            }
        }
        before
    }
}

/// Why the text breaks the rules at this line. The lines end with what stands after the last LF.
fn of_text<'a>(lines: &[&'a [u8]], at: usize) -> Cause<'a> {
    if at == 0 {
        return Cause::whole(format!("a text has at most {MOST_BYTES} bytes"));
    }
    let (line, before) = (lines[at - 1], Before::of(&lines[..at - 1]));
    match (at == lines.len(), line) {
        (true, b"") => Cause::whole(of_end(&before)),
        (true, _) => Cause::whole("the last line does not end with LF"),
        (false, _) => of_bytes(line)
            .map(Cause::whole)
            .or_else(|| of_words(&words_of(line)))
            .or_else(|| of_turn(words_of(line)[0], &before).map(Cause::whole))
            .expect("a line at fault has a cause"),
    }
}

/// Why the text may not end here.
fn of_end(before: &Before) -> String {
    let Some((n, m)) = before.sizes else {
        return "the text ends; it has no line p sp n m".to_string();
    };
    match before.arcs < m {
        true => format!("the text ends; {}", arcs_missing(m, before.arcs)),
        false => format!("the text ends; {}", seats_missing(n, before.seats)),
    }
}

fn arcs_missing(m: usize, here: usize) -> String {
    format!("p says {m} arcs, here are {here}")
}

fn seats_missing(n: usize, here: usize) -> String {
    format!("p says {n} junctions, here are {here} lines o")
}

/// Why these bytes are no line of words parted by single spaces.
fn of_bytes(line: &[u8]) -> Option<&'static str> {
    if line.starts_with(b"\xef\xbb\xbf") {
        Some("the line begins with a byte order mark")
    } else if line.ends_with(b"\r") {
        Some("the line ends in CR LF; it must end in LF alone")
    } else if line.contains(&b'\t') {
        Some("words are parted by one space; here is a tab")
    } else if line.is_empty() {
        Some("the line is empty")
    } else if words_of(line).contains(&&b""[..]) {
        Some("words are parted by one space; here are more, or one at an end")
    } else {
        None
    }
}

/// What a word must be, and what is said if it isn't.
type Rule = (fn(&[u8]) -> bool, &'static str);

const JUNCTION: Rule = (
    |word| junction(word).is_some(),
    "a junction is a number from 1 on, of at most nine digits",
);
const COST: Rule = (|word| cost_of(word).is_some(), "a cost is 1 to 500000 or -");
const SP: Rule = (|word| word == b"sp", "p is followed by sp");
const JUNCTIONS: Rule = (
    |word| at_most(word, MOST_JUNCTIONS),
    "there are at most 256 junctions",
);
const ARCS: Rule = (
    |word| at_most(word, MOST_ARCS),
    "there are at most 1024 arcs",
);

fn at_most(word: &[u8], most: usize) -> bool {
    number(word).is_some_and(|number| number as usize <= most)
}

/// The first word from the left that is wrong, missing or too many.
fn of_words<'a>(words: &[&'a [u8]]) -> Option<Cause<'a>> {
    let (form, rules): (&str, &[Rule]) = match words[0] {
        b"p" => ("p sp n m", &[SP, JUNCTIONS, ARCS]),
        b"a" => ("a tail head cost", &[JUNCTION, JUNCTION, COST]),
        b"o" => ("o junction", &[JUNCTION]),
        b"q" => ("q from to", &[JUNCTION, JUNCTION]),
        other => return Some(Cause::of("a line begins with c, p, a, o or q", other)),
    };
    for (at, (keeps, otherwise)) in (1..).zip(rules) {
        match words.get(at) {
            None => {
                let few = format!("the line has too few words; it is {form}");
                return Some(Cause::whole(few));
            }
            Some(word) if !keeps(word) => return Some(Cause::of(*otherwise, word)),
            Some(_) => {}
        }
    }
    let many = |word: &&'a [u8]| {
        let words = format!("the line has too many words; it is {form}");
        Cause::of(words, word)
    };
    words.get(rules.len() + 1).map(many)
}

/// Why a line of this kind may not stand after those before it.
fn of_turn(kind: &[u8], before: &Before) -> Option<String> {
    let Some((n, m)) = before.sizes else {
        return Some("the line p sp n m must come first".to_string());
    };
    match kind {
        b"p" => Some("there is one line p, and it came before".to_string()),
        b"a" => Some(format!("p says {m} arcs; this is one more")),
        _ if before.arcs < m => Some(arcs_missing(m, before.arcs)),
        b"o" => Some(format!("p says {n} junctions; this is one line o more")),
        _ if before.seats < n => Some(seats_missing(n, before.seats)),
        _ if before.questions == MOST_QUESTIONS => {
            Some(format!("there are at most {MOST_QUESTIONS} questions"))
        }
        _ => None,
    }
}

/// Where the net of a text that keeps the rules is refused, and why.
fn of_net<'a>(lines: &[&'a [u8]], refusal: u32, place: usize) -> (usize, Cause<'a>) {
    let nth = |kind: &[u8], nth: usize| {
        let numbered = (1usize..).zip(lines.iter().map(|line| words_of(line)));
        let mut of_kind = numbered.filter(|(_, words)| words[0] == kind);
        of_kind.nth(nth).expect("the refusal's place has its line")
    };
    let (p, sizes) = nth(b"p", 0);
    let n = number(sizes[2]).unwrap_or_default();
    let over = |word: &[u8]| junction(word).is_some_and(|junction| junction >= n);
    match refusal {
        1 => (p, Cause::of("there must be a junction", sizes[2])),
        3 => {
            let (at, arc) = nth(b"a", place);
            let end = if over(arc[1]) { arc[1] } else { arc[2] };
            let words = format!("an arc ends at junctions 1 to {n}");
            (at, Cause::of(words, end))
        }
        4 => {
            let (at, seat) = nth(b"o", place);
            let words = match over(seat[1]) {
                true => format!("the order has junctions 1 to {n}"),
                false => "each junction stands in the order once".to_string(),
            };
            (at, Cause::of(words, seat[1]))
        }
        6 => {
            let words = "this order makes more than 4096 edges";
            (nth(b"o", 0).0, Cause::whole(words))
        }
        9 => {
            let (at, arc) = nth(b"a", place);
            (at, Cause::of(COST.1, arc[3]))
        }
        other => panic!("no text comes to refusal {other}"),
    }
}
