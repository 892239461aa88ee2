//! Faults in what `bad_line` tells: another cause, another word, another line, other bytes.

use super::Prints;
use crate::written::{ended, is_kind, parted, said_m, said_n, words};
use naive::program::{printed, Printed};

/// Each fault in words, and what the programs then print.
pub const FAULTS: [(&str, Prints); 33] = [
    ("a tab is looked for before CR", |input| {
        as_if(input, |line| without_end(line, b"\r"))
    }),
    ("a byte order mark is looked for last", |input| {
        as_if(input, |line| without_start(line, b"\xef\xbb\xbf"))
    }),
    ("a missing LF is looked for last", lf_last),
    ("an early end is looked for before a missing LF", end_first),
    (
        "words are counted before they are looked at",
        words_counted_first,
    ),
    ("a line's turn is looked at before its words", |input| {
        as_if(input, |line| good_words(line).join(&b' '))
    }),
    ("the last wrong word is told", last_wrong_word),
    ("the word after the one at fault is shown", |input| {
        word_as(input, |at| at + 1)
    }),
    ("the letter is shown for the word at fault", |input| {
        word_as(input, |_| 0)
    }),
    ("no word is shown", |input| {
        told_as(input, |told| told.here = None)
    }),
    ("the line is not shown", |input| {
        told_as(input, |told| told.below = None)
    }),
    ("a line without bytes is shown too", |input| {
        told_as(input, |told| {
            told.below.get_or_insert_default();
        })
    }),
    ("the line before is shown", |input| {
        told_as(input, |told| {
            told.below = line_shown(input, told.line.wrapping_sub(1))
        })
    }),
    ("79 bytes are shown", |input| {
        shown_as(input, |line| cut(line, 79, 79))
    }),
    ("81 bytes are shown", |input| {
        shown_as(input, |line| cut(line, 81, 81))
    }),
    ("there is more after 80 bytes", |input| {
        shown_as(input, |line| cut(line, 80, 79))
    }),
    ("bytes are counted as they are shown", |input| {
        shown_as(input, |line| {
            let all = cut(line, line.len(), line.len());
            cut(all.as_bytes(), 80, 80)
        })
    }),
    ("a byte's number has capitals", |input| {
        told_as(input, |told| told.below = told.below.take().map(capitals))
    }),
    ("byte 127 is shown as it is", |input| {
        told_as(input, |told| {
            told.below = told.below.take().map(|line| line.replace("\\x7f", "\x7f"));
        })
    }),
    ("a backslash is doubled", |input| {
        shown_as(input, |line| {
            let doubled = |&byte: &u8| vec![byte; if byte == b'\\' { 2 } else { 1 }];
            cut(&line.iter().flat_map(doubled).collect::<Vec<u8>>(), 80, 80)
        })
    }),
    ("n is told where m is meant", |input| {
        sizes_as(input, |n, _, told| said(told, " arcs", n))
    }),
    ("m is told where n is meant", |input| {
        sizes_as(input, |_, m, told| {
            said(told, " junctions", m);
            told.cause = until(&told.cause, " 1 to ", m);
        })
    }),
    ("one arc more than came is told", |input| {
        told_as(input, |told| told.cause = one_more(&told.cause))
    }),
    ("an early end is told in the same words", |input| {
        told_as(input, |told| {
            told.cause = told.cause.replace("the text ends; p", "p");
        })
    }),
    ("lines of arcs are counted without comments", |input| {
        told_as(input, |told| {
            if ["3", "9"].contains(&told.number.as_str()) {
                let before = parted(input).0.into_iter().take(told.line);
                told.line -= before.filter(|line| is_kind(line, b"c")).count();
            }
        })
    }),
    ("refusal 3 always shows the head", |input| {
        of_refusal(input, "3", |told| told.here = word_of(input, told.line, 2))
    }),
    ("refusal 3 always shows the tail", |input| {
        of_refusal(input, "3", |told| told.here = word_of(input, told.line, 1))
    }),
    ("a junction seen earlier is told as one over n", |input| {
        let n = said_n(&parted(input).0).unwrap_or(0);
        of_refusal(input, "4", |told| {
            told.cause = format!("the order has junctions 1 to {n}");
        })
    }),
    ("a junction over n is told as one seen earlier", |input| {
        of_refusal(input, "4", |told| {
            told.cause = "each junction stands in the order once".to_string();
        })
    }),
    ("refusal 6 stands at the line p", |input| {
        let lines = parted(input).0;
        of_refusal(input, "6", |told| {
            let p = lines.iter().position(|line| is_kind(line, b"p"));
            told.line = p.map_or(0, |at| at + 1);
            told.below = line_shown(input, told.line);
        })
    }),
    ("m is shown where there is no junction", |input| {
        of_refusal(input, "1", |told| told.here = word_of(input, told.line, 3))
    }),
    ("what build and customise refuse is not told", |input| {
        let said = printed(input);
        match said.bad_line.contains(": refused 14: ") {
            true => said,
            false => Printed {
                bad_line: "the text keeps the rules\n".to_string(),
                ..said
            },
        }
    }),
    ("a refused question is told", |input| {
        let said = printed(input);
        match said.route.contains(" refused 11\n") {
            true => Printed {
                bad_line: "line 1: refused 11: there is no such junction\n".to_string(),
                ..said
            },
            false => said,
        }
    }),
];

/// What `bad_line` tells of a text that is refused, in its parts.
struct Told {
    line: usize,
    number: String,
    cause: String,
    /// The word that is shown after the cause.
    here: Option<String>,
    /// The line that is shown below.
    below: Option<String>,
}

impl Told {
    /// The parts of what is printed, none if the text is not refused.
    fn of(bad_line: &str) -> Option<Told> {
        let (told, below) = bad_line.split_once('\n')?;
        let (line, rest) = told.strip_prefix("line ")?.split_once(": refused ")?;
        let (number, cause) = rest.split_once(": ")?;
        let (cause, here) = match cause.rsplit_once("; here ") {
            Some((cause, word)) if !cause.starts_with("words are parted") => {
                (cause, Some(word.to_string()))
            }
            _ => (cause, None),
        };
        Some(Told {
            line: line.parse().ok()?,
            number: number.to_string(),
            cause: cause.to_string(),
            here,
            below: below
                .strip_prefix("  ")
                .map(|below| below.trim_end_matches('\n').to_string()),
        })
    }

    /// The parts as they are printed.
    fn printed(self) -> String {
        let here = self.here.map(|word| format!("; here {word}"));
        let below = self.below.map(|line| format!("  {line}\n"));
        let (here, below) = (here.unwrap_or_default(), below.unwrap_or_default());
        let Told {
            line,
            number,
            cause,
            ..
        } = self;
        format!("line {line}: refused {number}: {cause}{here}\n{below}")
    }
}

/// What is told becomes something else.
fn told_as(input: &[u8], change: impl FnOnce(&mut Told)) -> Printed {
    let said = printed(input);
    let Some(mut told) = Told::of(&said.bad_line) else {
        return said;
    };
    change(&mut told);
    Printed {
        bad_line: told.printed(),
        ..said
    }
}

/// What is told of one refusal becomes something else.
fn of_refusal(input: &[u8], number: &str, change: impl FnOnce(&mut Told)) -> Printed {
    told_as(input, |told| {
        if told.number == number {
            change(told);
        }
    })
}

/// The cause is that of another text, if this is refused at the same line.
fn cause_of(input: &[u8], other: &[u8]) -> Printed {
    told_as(input, |told| {
        let of_other = Told::of(&printed(other).bad_line);
        if let Some(other) = of_other.filter(|other| other.line == told.line) {
            told.cause = other.cause;
            told.here = other.here;
        }
    })
}

/// The line at fault, if it ends with LF, is looked at as if it were another.
fn as_if(input: &[u8], other: impl Fn(&[u8]) -> Vec<u8>) -> Printed {
    let (mut lines, rest) = parted(input);
    let Some(told) = Told::of(&printed(input).bad_line) else {
        return printed(input);
    };
    let at = told.line.wrapping_sub(1);
    let Some(line) = lines.get_mut(at) else {
        return printed(input);
    };
    *line = other(line);
    cause_of(input, &[ended(&lines), rest].concat())
}

fn lf_last(input: &[u8]) -> Printed {
    match input.last() {
        None | Some(b'\n') => printed(input),
        Some(_) => cause_of(input, &[input, b"\n"].concat()),
    }
}

fn end_first(input: &[u8]) -> Printed {
    cause_of(input, &ended(&parted(input).0))
}

fn without_start(line: &[u8], start: &[u8]) -> Vec<u8> {
    line.strip_prefix(start).unwrap_or(line).to_vec()
}

fn without_end(line: &[u8], end: &[u8]) -> Vec<u8> {
    line.strip_suffix(end).unwrap_or(line).to_vec()
}

/// Words that are good for a line's kind, as many as that has; of another kind the line's own.
fn good_words(line: &[u8]) -> Vec<&[u8]> {
    match words(line)[0] {
        b"p" => vec![b"p", b"sp", b"1", b"1"],
        b"a" => vec![b"a", b"1", b"1", b"1"],
        b"o" => vec![b"o", b"1"],
        b"q" => vec![b"q", b"1", b"1"],
        _ => words(line),
    }
}

fn words_counted_first(input: &[u8]) -> Printed {
    let counted = as_if(input, |line| {
        let mut words = words(line);
        for (word, good) in words.iter_mut().zip(good_words(line)) {
            *word = good;
        }
        words.join(&b' ')
    });
    match counted.bad_line.contains(": the line has too ") {
        true => counted,
        false => printed(input),
    }
}

fn last_wrong_word(input: &[u8]) -> Printed {
    as_if(input, |line| {
        let mut words = words(line);
        let kind = words[0];
        let wrong = |word: &[u8]| !word.iter().all(u8::is_ascii_digit) || word.len() > 9;
        if matches!(kind, b"a" | b"q") && words.len() > 2 && wrong(words[2]) {
            words[1] = b"1";
        }
        words.join(&b' ')
    })
}

/// A line's bytes, none for line 0; the last is what stands after the last LF.
fn bytes_of(input: &[u8], line: usize) -> Vec<u8> {
    let (mut lines, rest) = parted(input);
    lines.push(rest);
    lines.get(line.wrapping_sub(1)).cloned().unwrap_or_default()
}

/// A line as it is shown, if it has bytes.
fn line_shown(input: &[u8], line: usize) -> Option<String> {
    let line = bytes_of(input, line);
    (!line.is_empty()).then(|| cut(&line, 80, 80))
}

/// A word of a line as it is shown, if it is there.
fn word_of(input: &[u8], line: usize, at: usize) -> Option<String> {
    let line = bytes_of(input, line);
    words(&line).get(at).map(|word| cut(word, 80, 80))
}

/// The word that is shown becomes another of the line.
fn word_as(input: &[u8], change: impl Fn(usize) -> usize) -> Printed {
    told_as(input, |told| {
        let mut places = 0..words(&bytes_of(input, told.line)).len();
        let at = places.find(|&at| word_of(input, told.line, at) == told.here);
        let other = at.and_then(|at| word_of(input, told.line, change(at)));
        told.here = other.or(told.here.take());
    })
}

/// The line is shown in another way.
fn shown_as(input: &[u8], show: impl Fn(&[u8]) -> String) -> Printed {
    told_as(input, |told| {
        let line = bytes_of(input, told.line);
        told.below = told.below.take().map(|_| show(&line));
    })
}

/// The first bytes as they are shown, and that there are more if they are over the second number.
fn cut(bytes: &[u8], most: usize, enough: usize) -> String {
    let byte = |&byte: &u8| match (b' '..=b'~').contains(&byte) {
        true => char::from(byte).to_string(),
        false => format!("\\x{byte:02x}"),
    };
    let start: String = bytes.iter().take(most).map(byte).collect();
    let dots = if bytes.len() > enough { " .." } else { "" };
    start + dots
}

/// The numbers of bytes in capitals.
fn capitals(line: String) -> String {
    let mut parts = line.split("\\x");
    let mut all = parts.next().unwrap_or_default().to_string();
    for part in parts {
        let (number, rest) = part.split_at(part.len().min(2));
        all += &format!("\\x{}{rest}", number.to_uppercase());
    }
    all
}

/// n and m of the `p` line are at hand.
fn sizes_as(input: &[u8], change: impl Fn(u32, u32, &mut Told)) -> Printed {
    let (lines, _) = parted(input);
    match (said_n(&lines), said_m(&lines)) {
        (Some(n), Some(m)) => told_as(input, |told| change(n, m, told)),
        _ => printed(input),
    }
}

/// `p says` another number of these.
fn said(told: &mut Told, what: &str, number: u32) {
    let cause = &told.cause;
    let parts = cause.split_once("p says ").and_then(|(start, rest)| {
        let (_, end) = rest.split_once(what)?;
        Some(format!("{start}p says {number}{what}{end}"))
    });
    told.cause = parts.unwrap_or(cause.clone());
}

/// The number at the cause's end becomes another, if these words stand before it.
fn until(cause: &str, before: &str, number: u32) -> String {
    match cause.split_once(before) {
        Some((start, _)) => format!("{start}{before}{number}"),
        None => cause.to_string(),
    }
}

/// `here are` one arc more.
fn one_more(cause: &str) -> String {
    let parts = cause.split_once(" arcs, here are ");
    let more = parts.and_then(|(start, count)| {
        let count: u32 = count.parse().ok()?;
        Some(format!("{start} arcs, here are {}", count + 1))
    });
    more.unwrap_or(cause.to_string())
}
