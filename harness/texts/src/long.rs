//! Texts that are only long. They are made here and not stored; what must be printed is written by hand.

use naive::program::Printed;

/// N4 as document 01 asks it: 13 lines.
const N4: &str = include_str!("../../../nets/n4.gr");

/// What document 01 says that it prints.
const N4_ANSWER: &str = "edges 5\n2 4 9 3 1 2 3\n1 2 12 3 2 3 4\n1 1 0 0\n";

/// The greatest length.
const MOST: usize = 65_536;

/// A long text with what must be printed for it.
pub struct Long {
    /// What it is.
    pub name: &'static str,
    /// The text.
    pub text: Vec<u8>,
    /// What must be printed.
    pub expected: Printed,
}

/// One comment line of so many bytes, its LF counted.
fn comment(length: usize) -> String {
    format!("c {}\n", "x".repeat(length - 3))
}

/// N4 with a comment after it, so many bytes in all.
fn n4_of(length: usize) -> String {
    N4.to_string() + &comment(length - N4.len())
}

fn good(name: &'static str, text: String, route: &str) -> Long {
    Long {
        name,
        text: text.into_bytes(),
        expected: Printed {
            route: route.to_string(),
            bad_line: "the text keeps the rules\n".to_string(),
        },
    }
}

/// A text that is refused: what `bad_line` tells after `line `, and the line that it shows, if there is one.
fn refused(name: &'static str, text: String, number: u32, told: &str, line: &str) -> Long {
    let below = match line {
        "" => String::new(),
        line => format!("  {line}\n"),
    };
    Long {
        name,
        text: text.into_bytes(),
        expected: Printed {
            route: format!("refused {number}\n"),
            bad_line: format!("line {told}\n{below}"),
        },
    }
}

/// A text of more than 65,536 bytes.
fn long(name: &'static str, text: String) -> Long {
    let told = "0: refused 14: a text has at most 65536 bytes";
    refused(name, text, 14, told, "")
}

/// A comment, then N4, so many bytes in all.
fn n4_at_the_end_of(length: usize) -> String {
    comment(length - N4.len()) + N4
}

/// So many lines that are the word c alone.
fn c_lines(count: usize) -> String {
    "c\n".repeat(count)
}

/// All of them.
pub fn all() -> Vec<Long> {
    let mut all = well_written();
    all.extend(too_long());
    all.extend(with_a_faulty_line());
    all.extend(with_many_lines_or_words());
    all
}

fn well_written() -> Vec<Long> {
    let no_junctions = c_lines(32_763) + "p sp 0 0\n";
    vec![
        good("N4 and a comment, 65,535 bytes", n4_of(MOST - 1), N4_ANSWER),
        good("N4 and a comment, 65,536 bytes", n4_of(MOST), N4_ANSWER),
        good(
            "a comment and N4, 65,536 bytes",
            n4_at_the_end_of(MOST),
            N4_ANSWER,
        ),
        refused(
            "32,763 lines c, then p sp 0 0",
            no_junctions,
            1,
            "32764: refused 1: there must be a junction; here 0",
            "p sp 0 0",
        ),
    ]
}

fn too_long() -> Vec<Long> {
    let faulty_start = "x\n".to_string() + &n4_of(MOST);
    vec![
        long("N4 and a comment, 65,537 bytes", n4_of(MOST + 1)),
        long("a comment and N4, 65,537 bytes", n4_at_the_end_of(MOST + 1)),
        long("N4 and a comment, 65,792 bytes", n4_of(MOST + 256)),
        long("N4 and a comment, 131,072 bytes", n4_of(2 * MOST)),
        long("N4 and a comment, 1,000,000 bytes", n4_of(1_000_000)),
        long("too long, line 1 is faulty", faulty_start),
        long("too long, the last line has no LF", n4_of(MOST) + "c"),
        long("too long by an empty line", n4_of(MOST) + "\n"),
        long("too long, N4 comes again", n4_of(MOST) + N4),
        long("65,537 bytes and no LF", "c".repeat(MOST + 1)),
        long("65,537 empty lines", "\n".repeat(MOST + 1)),
    ]
}

/// Why a text whose last line has no LF breaks the rules.
const UNENDED: &str = "refused 14: the last line does not end with LF";

/// Why a line that is the word x does.
const BEGINS_WITH_X: &str = "refused 14: a line begins with c, p, a, o or q; here x";

fn with_a_faulty_line() -> Vec<Long> {
    let faulty = |name, text, told: &str, line: &str| refused(name, text, 14, told, line);
    let first = "x\n".to_string() + &n4_of(MOST - 2);
    let last = n4_of(MOST - 2) + "x\n";
    let unended = n4_of(MOST - 1) + "c";
    let words = "c ".repeat(MOST / 2);
    vec![
        faulty(
            "65,536 bytes, line 1 is faulty",
            first,
            &format!("1: {BEGINS_WITH_X}"),
            "x",
        ),
        faulty(
            "65,536 bytes, the last line is faulty",
            last,
            &format!("15: {BEGINS_WITH_X}"),
            "x",
        ),
        faulty(
            "65,536 bytes, the last line has no LF",
            unended,
            &format!("15: {UNENDED}"),
            "c",
        ),
        faulty(
            "65,536 bytes and no LF",
            words,
            &format!("1: {UNENDED}"),
            &format!("{} ..", "c ".repeat(40)),
        ),
        faulty(
            "65,536 empty lines",
            "\n".repeat(MOST),
            "1: refused 14: the line is empty",
            "",
        ),
    ]
}

fn with_many_lines_or_words() -> Vec<Long> {
    let faulty = |name, text, told: &str, line: &str| refused(name, text, 14, told, line);
    let early_end = c_lines(32_763) + "p sp 1 0\n";
    let digits = "1".repeat(60_000);
    vec![
        faulty(
            "32,768 lines c",
            c_lines(32_768),
            "32769: refused 14: the text ends; it has no line p sp n m",
            "",
        ),
        faulty(
            "32,763 lines c, then p sp 1 0",
            early_end,
            "32765: refused 14: the text ends; p says 1 junctions, here are 0 lines o",
            "",
        ),
        faulty(
            "a word of 60,000 digits",
            format!("p sp {digits} 0\n"),
            &format!(
                "1: refused 14: there are at most 256 junctions; here {} ..",
                &digits[..80]
            ),
            &format!("p sp {} ..", &digits[..75]),
        ),
        faulty(
            "30,000 words",
            "p ".repeat(30_000) + "\n",
            "1: refused 14: words are parted by one space; here are more, or one at an end",
            &format!("{} ..", "p ".repeat(40)),
        ),
        faulty(
            "20,000 words too many",
            format!("p sp 1 1{}\n", " 1".repeat(20_000)),
            "1: refused 14: the line has too many words; it is p sp n m; here 1",
            &format!("p sp 1 1{} ..", " 1".repeat(36)),
        ),
    ]
}

#[cfg(test)]
mod tests {
    use super::*;

    #[test]
    fn the_independent_program_prints_what_is_written_by_hand() {
        for long in all() {
            let printed = naive::program::printed(&long.text);
            assert_eq!(printed, long.expected, "{}", long.name);
        }
    }
}
