//! "The program": what its text says, line by line and word by word, or the line that breaks its rules.

use crate::CLOSED;

/// "Over 256 junctions, 1,024 arcs, 64 questions or 65,536 bytes .. is 14"
pub const MOST_JUNCTIONS: usize = 256;
/// The arcs.
pub const MOST_ARCS: usize = 1_024;
/// The questions.
pub const MOST_QUESTIONS: usize = 64;
/// The bytes.
pub const MOST_BYTES: usize = 65_536;

/// What a text says. The text counts junctions from 1; here they count from 0, as everywhere else.
#[derive(Clone, Debug, Default, PartialEq, Eq)]
pub struct Text {
    /// The arcs' tails.
    pub tails: Vec<u32>,
    /// The arcs' heads.
    pub heads: Vec<u32>,
    /// The arcs' costs.
    pub costs: Vec<u32>,
    /// The order.
    pub order: Vec<u32>,
    /// The questions, each as from and to.
    pub questions: Vec<(u32, u32)>,
}

/// What the text says, or refusal 14's place. "Lines count from 1; too long an input gives line 0, one that ends early
/// the line after its last." A last line without LF has that very number: it comes after the lines that have an end.
pub fn read(input: &[u8]) -> Result<Text, usize> {
    if input.len() > MOST_BYTES {
        return Err(0);
    }
    let mut parts: Vec<&[u8]> = input.split(|&byte| byte == b'\n').collect();
    let after_the_last_lf = parts.pop().unwrap_or_default();
    let mut reading = Reading::default();
    for (number, line) in (1usize..).zip(&parts) {
        reading.line(line).ok_or(number)?;
    }
    match after_the_last_lf.is_empty() && reading.has_net() {
        true => Ok(reading.text),
        false => Err(parts.len() + 1),
    }
}

/// What has been read so far.
#[derive(Default)]
struct Reading {
    /// n and m of the line `p sp n m`, once it has come.
    sizes: Option<(usize, usize)>,
    text: Text,
}

impl Reading {
    /// Takes one line more, if it keeps the rules and may stand here: "Lines whose first word is `c` are skipped. Then
    /// `p sp n m`, m lines `a tail head cost` .., n lines `o junction`, any number of `q from to`."
    fn line(&mut self, line: &[u8]) -> Option<()> {
        let words: Vec<&[u8]> = line.split(|&byte| byte == b' ').collect();
        match *words {
            [b"c", ..] => Some(()),
            [b"p", b"sp", n, m] => self.sizes_line(number(n)?, number(m)?),
            [b"a", tail, head, cost] => {
                self.arc_line(junction(tail)?, junction(head)?, cost_of(cost)?)
            }
            [b"o", at] => self.order_line(junction(at)?),
            [b"q", from, to] => self.question_line(junction(from)?, junction(to)?),
            _ => None,
        }
    }

    fn sizes_line(&mut self, n: u32, m: u32) -> Option<()> {
        let (n, m) = (n as usize, m as usize);
        let good = self.sizes.is_none() && n <= MOST_JUNCTIONS && m <= MOST_ARCS;
        self.sizes = Some((n, m));
        good.then_some(())
    }

    fn arc_line(&mut self, tail: u32, head: u32, cost: u32) -> Option<()> {
        let (_, m) = self.sizes?;
        self.text.tails.push(tail);
        self.text.heads.push(head);
        self.text.costs.push(cost);
        (self.text.tails.len() <= m).then_some(())
    }

    fn order_line(&mut self, junction: u32) -> Option<()> {
        let (n, m) = self.sizes?;
        self.text.order.push(junction);
        (self.text.tails.len() == m && self.text.order.len() <= n).then_some(())
    }

    fn question_line(&mut self, from: u32, to: u32) -> Option<()> {
        self.text.questions.push((from, to));
        (self.has_net() && self.text.questions.len() <= MOST_QUESTIONS).then_some(())
    }

    /// Whether the sizes, m arcs and n order lines have come.
    fn has_net(&self) -> bool {
        self.sizes == Some((self.text.order.len(), self.text.tails.len()))
    }
}

/// "numbers of one to nine digits"
pub(crate) fn number(word: &[u8]) -> Option<u32> {
    let good = (1..=9).contains(&word.len()) && word.iter().all(u8::is_ascii_digit);
    let value = |word: &[u8]| {
        word.iter()
            .fold(0, |value, digit| value * 10 + u32::from(digit - b'0'))
    };
    good.then(|| value(word))
}

/// "junctions from 1"; "a junction 0 .. is 14"
pub(crate) fn junction(word: &[u8]) -> Option<u32> {
    number(word)?.checked_sub(1)
}

/// "cost `-` is CLOSED"
pub(crate) fn cost_of(word: &[u8]) -> Option<u32> {
    match word {
        b"-" => Some(CLOSED),
        digits => number(digits),
    }
}
