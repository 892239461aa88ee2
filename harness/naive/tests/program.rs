//! The program's rules, each with what must be printed, written by hand from document 01 and from how it is read.

use naive::program::printed;

/// N4 with its order, without questions.
const N4: &str = "p sp 4 5\na 2 1 3\na 1 3 4\na 3 4 2\na 4 2 6\na 2 4 20\no 1\no 2\no 3\no 4\n";

/// Two junctions and a road between them, without questions.
const PAIR: &str = "p sp 2 1\na 1 2 7\no 1\no 2\n";

/// The text keeps the rules, and `route` prints this.
fn answered(text: &str, route: &str) {
    let printed = printed(text.as_bytes());
    assert_eq!(printed.bad_line, "the text keeps the rules\n", "{text:?}");
    assert_eq!(printed.route, route, "{text:?}");
}

/// The text breaks the rules at this line.
fn breaks(text: impl AsRef<[u8]>, line: usize) {
    refused(text, 14, line);
}

/// The text is refused with this number, and this line is told.
fn refused(text: impl AsRef<[u8]>, number: u32, line: usize) {
    let text = text.as_ref();
    let printed = printed(text);
    let start = String::from_utf8_lossy(&text[..text.len().min(200)]);
    let told = format!("line {line}: refused {number}: ");
    assert!(printed.bad_line.starts_with(&told), "{start:?}: {told}");
    assert_eq!(printed.route, format!("refused {number}\n"), "{start:?}");
}

#[test]
fn n4_prints_what_the_paper_shows() {
    answered(
        &format!("{N4}q 2 4\nq 1 2\nq 1 1\n"),
        "edges 5\n2 4 9 3 1 2 3\n1 2 12 3 2 3 4\n1 1 0 0\n",
    );
    answered(N4, "edges 5\n");
}

#[test]
fn n4_with_a_closed_arc_and_with_a_sixth_one() {
    let p7 = N4.replace("a 3 4 2", "a 3 4 -");
    answered(
        &format!("{p7}q 1 2\nq 2 4\n"),
        "edges 5\n1 2 none\n2 4 20 1 5\n",
    );
    let p8 = p7.replace("4 5", "4 6").replace("20\n", "20\na 2 4 30\n");
    answered(&format!("{p8}q 2 4\n"), "edges 5\n2 4 30 1 6\n");
}

#[test]
fn a_late_fault_of_the_text_comes_before_other_refusals() {
    refused("p sp 0 0\n", 1, 1);
    breaks("p sp 0 0\nq 0 1\n", 2);
    breaks("p sp 1 1\na 9 9 0\no 9\nq 1 1\nq\n", 5);
}

#[test]
fn comments_stand_anywhere_and_hold_anything() {
    answered(
        "c\nc  two  spaces \np sp 2 1\nc p sp 3 4\na 1 2 7\nc\no 1\nc \no 2\nc é\tx\r\nq 1 2\nc\n",
        "edges 1\n1 2 7 1 1\n",
    );
    let mut any: Vec<u8> = PAIR.into();
    any.extend(b"c ");
    any.extend((0..=255).filter(|&byte| byte != b'\n'));
    any.extend(b"\n");
    assert_eq!(printed(&any).route, "edges 1\n");
    for other in ["cc", " c", "c\t", "C", "c\r", "cq 1 2", "comment"] {
        breaks(format!("c\n{other}\n{PAIR}"), 2);
        breaks(format!("{PAIR}{other}\n"), 5);
    }
}

#[test]
fn comments_count_as_lines_and_as_bytes() {
    breaks("c\nc\nx\n", 3);
    breaks(format!("{PAIR}c"), 5);
    breaks("c\n".repeat(32_768), 32_769);
    breaks("c\n".repeat(32_768) + "c", 0);
}

#[test]
fn leading_zeros_are_read_and_never_printed() {
    answered(
        "p sp 000000002 001\na 01 002 0007\no 1\no 000000002\nq 01 2\nq 2 003\n",
        "edges 1\n1 2 7 1 1\n2 3 refused 11\n",
    );
    breaks("p sp 2 1\na 000 2 7\no 1\no 2\n", 2);
    breaks("p sp 2 1\na 1 2 7\no 0\no 2\n", 3);
    breaks(format!("{PAIR}q 0 1\n"), 5);
    breaks(format!("{PAIR}q 1 000000000\n"), 5);
}

#[test]
fn a_number_has_one_to_nine_digits_and_nothing_else() {
    let words = [
        "",
        "+2",
        "-2",
        "--",
        "-0",
        "2-",
        "2.",
        "0x2",
        "two",
        "2\t",
        "2\r",
        "0000000002",
        "1000000000",
        "4294967295",
        "4294967297",
        "18446744073709551617",
        "é",
    ];
    for word in words {
        breaks(format!("p sp {word} 1\na 1 2 7\no 1\no 2\n"), 1);
        breaks(format!("p sp 2 {word}\na 1 2 7\no 1\no 2\n"), 1);
        breaks(format!("p sp 2 1\na {word} 2 7\no 1\no 2\n"), 2);
        breaks(format!("p sp 2 1\na 1 {word} 7\no 1\no 2\n"), 2);
        breaks(format!("p sp 2 1\na 1 2 {word}\no 1\no 2\n"), 2);
        breaks(format!("p sp 2 1\na 1 2 7\no 1\no {word}\n"), 4);
        breaks(format!("{PAIR}q {word} 2\n"), 5);
        breaks(format!("{PAIR}q 1 {word}\n"), 5);
    }
    for line in ["o -", "q - 1", "q 1 -", "a - 1 2", "p sp - 1", "p sp 1 -"] {
        breaks(format!("{line}\n{PAIR}"), 1);
        breaks(format!("{PAIR}{line}\n"), 5);
    }
}

#[test]
fn costs_of_up_to_nine_digits_are_well_written() {
    let text = |cost: &str| format!("p sp 2 1\na 1 2 {cost}\no 1\no 2\nq 1 2\nq 2 1\n");
    for (cost, route) in [
        ("1", "edges 1\n1 2 1 1 1\n2 1 none\n"),
        ("500000", "edges 1\n1 2 500000 1 1\n2 1 none\n"),
        ("-", "edges 1\n1 2 none\n2 1 none\n"),
    ] {
        answered(&text(cost), route);
    }
    for cost in ["0", "000000000", "500001", "999999999"] {
        refused(text(cost), 9, 2);
    }
}

#[test]
fn a_junction_over_n_is_well_written() {
    for far in ["3", "257", "999999999"] {
        refused(PAIR.replace("1 2 7", &format!("{far} 2 7")), 3, 2);
        refused(PAIR.replace("1 2 7", &format!("1 {far} 7")), 3, 2);
        refused(PAIR.replace("o 1", &format!("o {far}")), 4, 3);
        answered(
            &format!("{PAIR}q 1 {far}\nq {far} 1\nq {far} {far}\nq 1 2\n"),
            &format!("edges 1\n1 {far} refused 11\n{far} 1 refused 11\n{far} {far} refused 11\n1 2 7 1 1\n"),
        );
    }
    refused(PAIR.replace("o 1", "o 2"), 4, 4);
}

#[test]
fn sizes_over_the_limits_are_faults_of_their_line() {
    refused("p sp 0 0\nq 1 1\n", 1, 1);
    refused("p sp 0 1\na 1 1 1\n", 1, 1);
    breaks("p sp 257 0\n", 1);
    breaks("c\np sp 1 1025\n", 2);
    breaks("p sp 256 1024\n", 2);
}

#[test]
fn the_65th_question_is_one_too_many() {
    let asked = PAIR.to_string() + &"q 2 2\n".repeat(64);
    answered(&asked, &("edges 1\n".to_string() + &"2 2 0 0\n".repeat(64)));
    breaks(format!("{asked}q 2 2\n"), 69);
    breaks(format!("{asked}c\nq 2 2\nx\n"), 70);
    answered(
        &format!("{asked}c\n"),
        &("edges 1\n".to_string() + &"2 2 0 0\n".repeat(64)),
    );
}

#[test]
fn an_input_of_65_536_bytes_is_the_longest() {
    let filled = |length: usize| format!("{PAIR}c {}\n", "x".repeat(length - PAIR.len() - 3));
    answered(&filled(65_536), "edges 1\n");
    breaks(filled(65_537), 0);
    breaks("x\n".to_string() + &filled(65_536), 0);
    breaks("\n".repeat(65_536), 1);
    breaks("\n".repeat(65_537), 0);
    breaks("x".repeat(65_536), 1);
}

#[test]
fn an_input_that_ends_early_gives_the_line_after_its_last() {
    breaks("", 1);
    breaks("c\n", 2);
    breaks("p sp 2 1\n", 2);
    breaks("p sp 2 1\na 1 2 7\n", 3);
    breaks("p sp 2 1\na 1 2 7\no 1\n", 4);
    breaks("p sp 2 1\na 1 2 7\no 1\nc\n", 5);
}

#[test]
fn a_last_line_without_lf_gives_its_own_line() {
    breaks("c", 1);
    breaks("p sp 0 0", 1);
    breaks("p sp 2 1\na 1 2 7", 2);
    breaks(PAIR.trim_end(), 4);
    breaks(format!("{PAIR}q 1 2"), 5);
    breaks(format!("{PAIR} "), 5);
}

#[test]
fn any_other_line_gives_its_own_line() {
    for other in [
        "",
        " ",
        "x",
        "\r",
        "p",
        "a",
        "o",
        "q",
        "P sp 2 1",
        "p  sp 2 1",
        " q 1 2",
        "q 1 2 ",
        "q 1  2",
        "q\t1 2",
        "q 1 2 2",
        "q 1 2\r",
        "p sp 2 1",
        "a 1 2 7",
        "o 1",
        "Q 1 2",
        "qq 1 2",
        "p sp 2 1 1",
        "v 1 2 3",
        "\0",
    ] {
        breaks(format!("{PAIR}{other}\n"), 5);
        breaks(format!("{PAIR}q 1 2\n{other}\n"), 6);
        breaks(
            format!(
                "p sp 2 2\na 1 2 7\nc\n{}\no 1\no 2\n",
                other.replace("a 1 2 7", "x")
            ),
            4,
        );
    }
    breaks("p ps 0 0\n", 1);
    breaks("p 0 0\n", 1);
    breaks("p sp 0\n", 1);
}

#[test]
fn a_line_out_of_turn_gives_its_own_line() {
    breaks("a 1 2 7\np sp 2 1\n", 1);
    breaks("o 1\n", 1);
    breaks("q 1 1\n", 1);
    breaks("p sp 2 1\no 1\n", 2);
    breaks("p sp 2 1\nq 1 1\n", 2);
    breaks("p sp 2 1\na 1 2 7\na 1 2 7\n", 3);
    breaks("p sp 2 1\na 1 2 7\no 1\nq 1 2\n", 4);
    breaks("p sp 2 1\na 1 2 7\no 1\na 1 2 7\n", 4);
    breaks("p sp 2 1\na 1 2 7\no 1\no 2\no 2\n", 5);
}

/// A star of 90 roads, its centre first: all 91 junctions are joined, 4,095 pairs; then so many roads apart from it.
fn star(roads_apart: usize) -> String {
    let n = 91 + 2 * roads_apart;
    let mut text = format!("p sp {n} {}\n", 90 + roads_apart);
    (2..=91).for_each(|leaf| text += &format!("a 1 {leaf} 5\n"));
    (0..roads_apart).for_each(|road| text += &format!("a {} {} 5\n", 92 + 2 * road, 93 + 2 * road));
    (1..=n).for_each(|junction| text += &format!("o {junction}\n"));
    text
}

#[test]
fn heads_room_is_4_096() {
    answered(&star(0), "edges 4095\n");
    answered(&(star(1) + "q 92 93\n"), "edges 4096\n92 93 5 1 91\n");
    refused(star(2), 6, 94);
    refused(star(2).replace("a 1 2 5", "a 1 2 0"), 6, 94);
}

#[test]
fn route_room_is_enough_for_256_junctions() {
    let mut text = "p sp 256 255\n".to_string();
    (1..256).for_each(|at| text += &format!("a {at} {} 500000\n", at + 1));
    (1..=256).for_each(|at| text += &format!("o {at}\n"));
    let arcs: Vec<String> = (1..256).map(|arc| arc.to_string()).collect();
    answered(
        &(text + "q 1 256\n"),
        &format!("edges 255\n1 256 127500000 255 {}\n", arcs.join(" ")),
    );
}
