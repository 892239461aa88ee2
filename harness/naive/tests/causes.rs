//! What `bad_line` tells: every cause, with what must be printed written by hand.

use naive::program::printed;

/// Two junctions and a road between them, without questions.
const PAIR: &str = "p sp 2 1\na 1 2 7\no 1\no 2\n";

/// What is told of a text, whole.
fn tells(text: impl AsRef<[u8]>, told: &str) {
    let text = text.as_ref();
    let start = String::from_utf8_lossy(&text[..text.len().min(200)]);
    assert_eq!(printed(text).bad_line, told, "{start:?}");
}

/// What is told of a line after the net's, which is shown below it.
fn tells_of(line: &str, cause: &str) {
    let told = format!("line 5: refused 14: {cause}\n  {line}\n");
    tells(format!("{PAIR}{line}\n"), &told);
}

#[test]
fn a_text_that_is_too_long() {
    let told = "line 0: refused 14: a text has at most 65536 bytes\n";
    tells("x".repeat(65_537), told);
    tells("\n".repeat(65_537), told);
}

#[test]
fn a_text_that_ends_early() {
    let ends = |text: &str, line: usize, cause: &str| {
        let told = format!("line {line}: refused 14: the text ends; {cause}\n");
        tells(text, &told);
    };
    ends("", 1, "it has no line p sp n m");
    ends("c\nc\n", 3, "it has no line p sp n m");
    ends("p sp 2 3\n", 2, "p says 3 arcs, here are 0");
    ends("p sp 2 2\nc\na 1 2 7\n", 4, "p says 2 arcs, here are 1");
    ends("p sp 2 0\n", 2, "p says 2 junctions, here are 0 lines o");
    ends(
        "p sp 3 0\no 1\nc\no 2\n",
        5,
        "p says 3 junctions, here are 2 lines o",
    );
    ends("p sp 003 01\n", 2, "p says 1 arcs, here are 0");
}

#[test]
fn a_last_line_without_lf() {
    let last = "line 5: refused 14: the last line does not end with LF\n";
    for (line, shown) in [
        ("q 1 2", "q 1 2"),
        ("c", "c"),
        (" ", " "),
        ("q\t1 2\r", "q\\x091 2\\x0d"),
        ("x", "x"),
    ] {
        tells(format!("{PAIR}{line}"), &format!("{last}  {shown}\n"));
    }
}

#[test]
fn bytes_that_part_no_words() {
    let mark = "line 1: refused 14: the line begins with a byte order mark\n";
    tells(
        format!("\u{feff}{PAIR}"),
        &format!("{mark}  \\xef\\xbb\\xbfp sp 2 1\n"),
    );
    tells(
        "\u{feff}c\t\r\n",
        &format!("{mark}  \\xef\\xbb\\xbfc\\x09\\x0d\n"),
    );
    let cr = "line 1: refused 14: the line ends in CR LF; it must end in LF alone\n";
    tells("p sp 2 1\r\n", &format!("{cr}  p sp 2 1\\x0d\n"));
    tells("\tx  \r\n", &format!("{cr}  \\x09x  \\x0d\n"));
    tells("\r\n", &format!("{cr}  \\x0d\n"));
    let tab = "line 1: refused 14: words are parted by one space; here is a tab\n";
    tells("p\tsp 2  1\n", &format!("{tab}  p\\x09sp 2  1\n"));
    tells("\n", "line 1: refused 14: the line is empty\n");
    let parted = "words are parted by one space; here are more, or one at an end";
    for line in [" ", "x  y", " q 1 2", "q 1 2 ", "q 1  x", "p  "] {
        tells_of(line, parted);
    }
}

#[test]
fn other_letters() {
    for letter in ["x", "cc", "P", "aa", "1", "sp", "\\", "~"] {
        let cause = format!("a line begins with c, p, a, o or q; here {letter}");
        tells_of(letter, &cause);
        tells_of(&format!("{letter} 1 2"), &cause);
    }
}

#[test]
fn words_of_p() {
    tells_of("p x", "p is followed by sp; here x");
    tells_of("p 300 2000 1 1", "p is followed by sp; here 300");
    for n in ["257", "1000000000", "x", "-", "+1", "0000000001"] {
        let cause = format!("there are at most 256 junctions; here {n}");
        tells_of(&format!("p sp {n}"), &cause);
        tells_of(&format!("p sp {n} 2000 1"), &cause);
    }
    for m in ["1025", "1000000000", "x", "-", "0000000001"] {
        let cause = format!("there are at most 1024 arcs; here {m}");
        tells_of(&format!("p sp 256 {m}"), &cause);
        tells_of(&format!("p sp 1 {m} 1"), &cause);
    }
}

#[test]
fn words_that_are_no_junction_or_no_cost() {
    for word in ["0", "000", "x", "-", "0000000001", "1000000000", "1.", "c"] {
        let cause =
            format!("a junction is a number from 1 on, of at most nine digits; here {word}");
        tells_of(&format!("a {word}"), &cause);
        tells_of(&format!("a {word} x x x"), &cause);
        tells_of(&format!("a 1 {word}"), &cause);
        tells_of(&format!("o {word}"), &cause);
        tells_of(&format!("o {word} 1"), &cause);
        tells_of(&format!("q {word}"), &cause);
        tells_of(&format!("q 3 {word} 1"), &cause);
    }
    for word in ["--", "x", "-1", "1000000000", "0000000001"] {
        let cause = format!("a cost is 1 to 500000 or -; here {word}");
        tells_of(&format!("a 1 2 {word}"), &cause);
        tells_of(&format!("a 1 2 {word} 1"), &cause);
    }
}

#[test]
fn too_few_words_and_too_many() {
    for (form, whole) in [
        ("p sp n m", "p sp 256 1024"),
        ("a tail head cost", "a 9 9 -"),
        ("o junction", "o 9"),
        ("q from to", "q 9 9"),
    ] {
        let words: Vec<&str> = whole.split(' ').collect();
        for count in 1..words.len() {
            let cause = format!("the line has too few words; it is {form}");
            tells_of(&words[..count].join(" "), &cause);
        }
        let cause = format!("the line has too many words; it is {form}; here x");
        tells_of(&format!("{whole} x"), &cause);
        tells_of(&format!("{whole} x y"), &cause);
    }
}

#[test]
fn lines_out_of_turn() {
    tells_of("p sp 2 1", "there is one line p, and it came before");
    for line in ["a 1 2 7", "o 1", "q 1 2"] {
        let cause = "line 2: refused 14: the line p sp n m must come first";
        tells(
            format!("c\n{line}\n{PAIR}"),
            &format!("{cause}\n  {line}\n"),
        );
    }
    tells_of("a 1 2 7", "p says 1 arcs; this is one more");
    tells_of("o 1", "p says 2 junctions; this is one line o more");
    for line in ["o 1", "q 1 1"] {
        let cause = "line 4: refused 14: p says 2 arcs, here are 1";
        let text = format!("p sp 3 2\na 1 2 7\nc\n{line}\n");
        tells(text, &format!("{cause}\n  {line}\n"));
    }
    tells(
        "p sp 3 1\na 1 2 7\no 1\nc\no 2\nq 1 1\n",
        "line 6: refused 14: p says 3 junctions, here are 2 lines o\n  q 1 1\n",
    );
    let asked = PAIR.to_string() + &"q 2 2\n".repeat(64);
    tells(
        format!("{asked}c\nq 1 2\n"),
        "line 70: refused 14: there are at most 64 questions\n  q 1 2\n",
    );
}

#[test]
fn the_first_cause_is_told() {
    // a second p, too many arcs, an order line before all arcs: first the words are looked at
    tells_of("p sp 2 x", "there are at most 1024 arcs; here x");
    tells_of(
        "a 1 2",
        "the line has too few words; it is a tail head cost",
    );
    tells(
        "q 0 1\n",
        "line 1: refused 14: a junction is a number from 1 on, of at most nine digits; here 0\n  q 0 1\n",
    );
}

#[test]
fn no_junctions() {
    let told = "line 2: refused 1: there must be a junction; here 00\n  p sp 00 1\n";
    tells("c\np sp 00 1\na 9 9 0\nq 1 1\n", told);
}

#[test]
fn arcs_that_end_nowhere() {
    let of = |arc: &str, word: &str| {
        let told = format!("line 4: refused 3: an arc ends at junctions 1 to 2; here {word}\n");
        let text = format!("p sp 2 3\na 1 2 7\nc\n{arc}\na 5 5 0\no 9\no 9\n");
        tells(text, &format!("{told}  {arc}\n"));
    };
    of("a 3 1 7", "3");
    of("a 1 03 7", "03");
    of("a 4 5 0", "4");
    of("a 2 999999999 -", "999999999");
}

#[test]
fn orders_that_name_no_junction_or_one_twice() {
    let of = |last: &str, cause: &str| {
        let text = format!("p sp 3 1\na 1 2 0\no 2\nc\no 1\n{last}\nq 9 9\n");
        tells(text, &format!("line 6: refused 4: {cause}\n  {last}\n"));
    };
    of("o 4", "the order has junctions 1 to 3; here 4");
    of("o 004", "the order has junctions 1 to 3; here 004");
    of("o 1", "each junction stands in the order once; here 1");
    of("o 02", "each junction stands in the order once; here 02");
}

#[test]
fn costs_out_of_bounds() {
    for cost in ["0", "000", "500001", "999999999"] {
        let told = format!("line 4: refused 9: a cost is 1 to 500000 or -; here {cost}\n");
        let text = format!("p sp 2 2\na 1 2 7\nc\na 2 2 {cost}\no 1\no 2\nq 9 9\n");
        tells(text, &format!("{told}  a 2 2 {cost}\n"));
    }
}

#[test]
fn an_order_of_too_many_edges() {
    let mut text = "p sp 256 255\n".to_string();
    (2..=256).for_each(|leaf| text += &format!("a 1 {leaf} 0\n"));
    text += "c\n";
    (1..=256).for_each(|junction| text += &format!("o {junction}\n"));
    let told = "line 258: refused 6: this order makes more than 4096 edges\n  o 1\n";
    tells(text, told);
}

#[test]
fn at_most_80_bytes_are_shown() {
    for (length, dots) in [(79, ""), (80, ""), (81, " .."), (1_000, " ..")] {
        let word = "é".repeat(length).into_bytes();
        let shown = "\\xc3\\xa9".repeat(length.min(80) / 2);
        let half = if length == 79 { "\\xc3" } else { "" };
        let told = format!("line 1: refused 14: a line begins with c, p, a, o or q; here {shown}{half}{dots}\n  {shown}{half}{dots}\n");
        tells([&word[..length], b"\n"].concat(), &told);
    }
    let line = format!("o {}", "1".repeat(79));
    let cause = "a junction is a number from 1 on, of at most nine digits; here";
    let told = format!(
        "line 5: refused 14: {cause} {}\n  o {} ..\n",
        "1".repeat(79),
        "1".repeat(78)
    );
    tells(format!("{PAIR}{line}\n"), &told);
}

#[test]
fn bytes_that_are_no_text_are_shown_by_number() {
    tells(
        b"\x00\x1f ~\\\x7f\x80\xff\n",
        "line 1: refused 14: a line begins with c, p, a, o or q; here \\x00\\x1f\n  \\x00\\x1f ~\\\\x7f\\x80\\xff\n",
    );
}

#[test]
fn questions_that_are_refused_do_not_matter() {
    tells(
        format!("{PAIR}q 3 1\nq 1 999999999\n"),
        "the text keeps the rules\n",
    );
}
