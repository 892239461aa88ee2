//! Faults in reading the text: the text is changed so that the independent program reads it as the faulty one would.

use super::Prints;
use crate::written::{
    each_line, each_word, ended, is_kind, junction_places, number, parted, said_n, words,
};
use naive::program::{printed, Printed};
use naive::text::{read, MOST_BYTES, MOST_QUESTIONS};

/// Each fault in words, and what the programs then print.
pub const FAULTS: [(&str, Prints); 37] = [
    ("a last line without LF is accepted", last_lf_given),
    ("an unended last line is no line", unended_line_dropped),
    ("empty lines are skipped", |input| {
        lines_as(input, |line| line.is_empty(), b"c")
    }),
    ("spaces in a row count as one", spaces_in_a_row),
    ("a space at a line's end is dropped", |input| {
        let without = |line: Vec<u8>| line.strip_suffix(b" ").unwrap_or(&line).to_vec();
        printed(&each_line(input, without))
    }),
    ("a space at a line's start is dropped", |input| {
        let without = |line: Vec<u8>| line.strip_prefix(b" ").unwrap_or(&line).to_vec();
        printed(&each_line(input, without))
    }),
    ("a TAB parts words", |input| bytes_as(input, b'\t', b' ')),
    ("a CR before LF is dropped", |input| {
        let without = |line: Vec<u8>| line.strip_suffix(b"\r").unwrap_or(&line).to_vec();
        printed(&each_line(input, without))
    }),
    ("capitals are read as small letters", |input| {
        printed(&input.to_ascii_lowercase())
    }),
    ("any word with c at its start starts a comment", |input| {
        lines_as(input, |line| line.starts_with(b"c"), b"c")
    }),
    ("c and a TAB start a comment", |input| {
        lines_as(input, |line| line.starts_with(b"c\t"), b"c")
    }),
    ("a comment needs a space after c", |input| {
        lines_as(input, |line| line == b"c", b"x")
    }),
    ("comments stand before p only", comments_before_p_only),
    ("comments stand before q only", comments_before_q_only),
    ("a comment holds ASCII only", |input| {
        lines_as(input, |line| !line.is_ascii(), b"x")
    }),
    ("a comment keeps the rule of single spaces", |input| {
        let doubled = |line: &[u8]| words(line).contains(&b"".as_slice());
        lines_as(input, doubled, b"x")
    }),
    ("ten digits are read", |input| {
        let ten = |word: &[u8]| word.len() == 10 && word.iter().all(u8::is_ascii_digit);
        words_as(input, ten, "999999999")
    }),
    ("numbers of any length are read in 32 bits", in_32_bits),
    ("a number without digits is 0", |input| {
        words_as(input, <[u8]>::is_empty, "0")
    }),
    ("leading zeros are refused", |input| {
        words_as(input, |word| word.len() > 1 && word[0] == b'0', "x")
    }),
    ("a plus sign is read", |input| {
        let unsigned = |word: &[u8]| word.strip_prefix(b"+").unwrap_or(word).to_vec();
        printed(&each_word(input, unsigned))
    }),
    ("junction 0 is left to the calls", |input| {
        junctions_as(input, |number| number == 0, "257")
    }),
    ("a junction over n is the text's fault", junction_over_n),
    ("a junction over 256 is the text's fault", |input| {
        junctions_as(input, |number| number > 256, "0")
    }),
    ("n over 256 is left to build", n_left_to_build),
    ("256 junctions are too many", |input| {
        sizes_as(input, 2, "256", "x")
    }),
    ("257 junctions are accepted", |input| {
        sizes_as(input, 2, "257", "256")
    }),
    ("1,024 arcs are too many", |input| {
        sizes_as(input, 3, "1024", "x")
    }),
    ("1,025 arcs are accepted", |input| {
        sizes_as(input, 3, "1025", "1024")
    }),
    ("64 questions are too many", |input| {
        printed(&nth_kind_as(input, b"q", MOST_QUESTIONS, b"x"))
    }),
    ("a 65th question is accepted", |input| {
        printed(&nth_kind_as(input, b"q", MOST_QUESTIONS + 1, b"c"))
    }),
    ("a second p is skipped", |input| {
        printed(&nth_kind_as(input, b"p", 2, b"c"))
    }),
    ("65,536 bytes are too many", |input| match input.len() {
        MOST_BYTES => printed(&[0; MOST_BYTES + 1]),
        _ => printed(input),
    }),
    ("too long an input is cut", |input| {
        printed(&input[..input.len().min(MOST_BYTES)])
    }),
    (
        "a faulty line comes before too long an input",
        faulty_line_first,
    ),
    (
        "answers are printed before the text is read",
        answers_before_the_end,
    ),
    (
        "build refuses before the text is read",
        build_before_the_end,
    ),
];

/// The lines of a kind become another line.
fn lines_as(input: &[u8], of_kind: impl Fn(&[u8]) -> bool, other: &[u8]) -> Printed {
    printed(&each_line(input, |line| match of_kind(&line) {
        true => other.to_vec(),
        false => line,
    }))
}

/// The words of a kind become another word.
fn words_as(input: &[u8], of_kind: impl Fn(&[u8]) -> bool, other: &str) -> Printed {
    printed(&each_word(input, |word| match of_kind(word) {
        true => other.into(),
        false => word.to_vec(),
    }))
}

fn bytes_as(input: &[u8], byte: u8, other: u8) -> Printed {
    let changed = |&at: &u8| if at == byte { other } else { at };
    printed(&input.iter().map(changed).collect::<Vec<u8>>())
}

/// From the nth line of a kind on, lines of that kind become another line.
fn nth_kind_as(input: &[u8], kind: &[u8], nth: usize, other: &[u8]) -> Vec<u8> {
    let mut seen = 0;
    each_line(input, |line| {
        seen += usize::from(is_kind(&line, kind));
        match seen >= nth && is_kind(&line, kind) {
            true => other.to_vec(),
            false => line,
        }
    })
}

/// The junctions of a kind become another word.
fn junctions_as(input: &[u8], of_kind: impl Fn(u32) -> bool, other: &str) -> Printed {
    printed(&each_line(input, |line| {
        let mut words = words(&line);
        for at in junction_places(&words) {
            if number(words[at]).is_some_and(&of_kind) {
                words[at] = other.as_bytes();
            }
        }
        words.join(&b' ')
    }))
}

/// One of the sizes of the `p` line becomes another word.
fn sizes_as(input: &[u8], at: usize, size: &str, other: &str) -> Printed {
    printed(&each_line(input, |line| {
        let mut words = words(&line);
        if words.len() == 4 && words[0] == b"p" && words[at] == size.as_bytes() {
            words[at] = other.as_bytes();
        }
        words.join(&b' ')
    }))
}

fn last_lf_given(input: &[u8]) -> Printed {
    match input.last() {
        None | Some(b'\n') => printed(input),
        Some(_) => printed(&[input, b"\n"].concat()),
    }
}

fn unended_line_dropped(input: &[u8]) -> Printed {
    printed(&ended(&parted(input).0))
}

fn spaces_in_a_row(input: &[u8]) -> Printed {
    printed(&each_line(input, |mut line| {
        line.dedup_by(|next, byte| *next == b' ' && *byte == b' ');
        line
    }))
}

fn comments_before_p_only(input: &[u8]) -> Printed {
    comments_before(input, b"p")
}

fn comments_before_q_only(input: &[u8]) -> Printed {
    comments_before(input, b"q")
}

/// Comments after the first line of a kind become other lines.
fn comments_before(input: &[u8], kind: &[u8]) -> Printed {
    let mut seen = false;
    printed(&each_line(input, |line| {
        seen |= is_kind(&line, kind);
        match seen && is_kind(&line, b"c") {
            true => b"x".to_vec(),
            false => line,
        }
    }))
}

fn in_32_bits(input: &[u8]) -> Printed {
    printed(&each_word(input, |word| {
        let digits = word.len() > 9 && word.iter().all(u8::is_ascii_digit);
        match digits {
            true => {
                let wrapped = word.iter().fold(0u32, |value, digit| {
                    let shifted = value.wrapping_mul(10);
                    shifted.wrapping_add(u32::from(digit - b'0'))
                });
                wrapped.min(999_999_999).to_string().into_bytes()
            }
            false => word.to_vec(),
        }
    }))
}

fn junction_over_n(input: &[u8]) -> Printed {
    let n = said_n(&parted(input).0).unwrap_or(0);
    junctions_as(input, |number| number > n, "0")
}

fn n_left_to_build(input: &[u8]) -> Printed {
    match said_n(&parted(input).0) {
        Some(n) if n > 256 => Printed {
            route: "refused 1\n".to_string(),
            ..printed(b"p sp 0 0\n")
        },
        _ => printed(input),
    }
}

fn faulty_line_first(input: &[u8]) -> Printed {
    let start = &input[..input.len().min(MOST_BYTES)];
    match read(start) {
        Err(_) => printed(start),
        Ok(_) => printed(input),
    }
}

/// What is printed for the lines before the faulty one, if those keep the rules.
fn printed_before_the_fault(input: &[u8]) -> Option<String> {
    let line = read(input).err().filter(|&line| line > 0)?;
    let before = ended(&parted(input).0[..line - 1]);
    read(&before).ok().map(|_| printed(&before).route)
}

fn answers_before_the_end(input: &[u8]) -> Printed {
    let mut said = printed(input);
    if let Some(route) = printed_before_the_fault(input) {
        said.route = route + &said.route;
    }
    said
}

fn build_before_the_end(input: &[u8]) -> Printed {
    let mut said = printed(input);
    let before = printed_before_the_fault(input);
    if let Some(route) = before.filter(|route| route.starts_with("refused")) {
        said.route = route;
    }
    said
}
