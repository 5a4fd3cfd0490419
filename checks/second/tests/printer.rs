//! The column printer: its refusals in their order, odd input, and columns against looks through the hours.

mod common;

use common::{column, draw_column, draw_n, draw_series, look_through, made};
use second::printer::hour_lines;
use second::random::Random;
use second::{edges, finished, print};

fn printed(input: impl AsRef<[u8]>) -> String {
    String::from_utf8(print(input.as_ref())).expect("the printer prints plain text")
}

#[test]
fn columns_are_a_look_through_the_hours() {
    let seed = 51;
    let mut random = Random::new(seed);
    for _ in 0..4_000 {
        let n = draw_n(&mut random, 70);
        let table = made(&draw_series(&mut random, n));
        let drawn = draw_column(&mut random, n);
        let (a, b, w) = (drawn.a, drawn.b, drawn.w);
        let mut expected = String::from("column first last low high nodes\n");
        for k in 0..w {
            let column = column(a, b, w, k);
            let count = finished(n, &table.coefficients, &table.codes, column).unwrap().count;
            expected += &match look_through(&table.readings, edges(n, column).unwrap()) {
                Some(f) => format!("{k} {} {} {} {} {count}\n", f.first.grams, f.last.grams, f.low, f.high),
                None => format!("{k} - - - - {count}\n"),
            };
        }
        let input = format!("{a} {b} {w}\n{}", hour_lines(&table.readings));
        assert_eq!(printed(&input), expected, "seed {seed}, {input}");
    }
}

#[test]
fn columns_without_hours_or_readings() {
    let expected = "column first last low high nodes\n0 5 5 5 5 3\n1 - - - - 0\n2 - - - - 3\n3 - - - - 0\n";
    assert_eq!(printed("0 2 4\n5\n-\n"), expected);
    assert_eq!(printed("0 1 1\n-\n"), "column first last low high nodes\n0 - - - - 1\n");
}

/// All combinations of a bad line, no or too many hours, a number out of range, a bad window and a bad column count.
#[test]
fn refusals_in_their_order() {
    for bits in 0..64u32 {
        let there = |cause: u32| bits >> cause & 1 == 1;
        let (bad_line, no_hour, too_many, out_of_range, bad_window, bad_columns) =
            (there(0), there(1), there(2), there(3), there(4), there(5));
        if no_hour && (too_many || out_of_range) {
            continue;
        }
        let n: usize = if no_hour { 0 } else { 1 + if too_many { 16_384 } else { 6 } };
        let mut lines = vec![String::from("5"); n];
        if out_of_range {
            lines[4] = String::from("2000003");
            lines[5] = String::from("-1000001");
        }
        let window = if bad_window { "3 3" } else { "0 7" };
        let w = if bad_columns { 4_097 } else { 4_096 };
        lines.insert(0, format!("{window} {w}"));
        if bad_line {
            lines.push(String::from("5 5"));
        }
        let causes = [
            (bad_line, format!("refused 12 at {}\n", lines.len())),
            (no_hour || too_many, String::from("refused 1 at 0\n")),
            (out_of_range, String::from("refused 2 at 4\n")),
            (bad_window, String::from("refused 5 at 0\n")),
            (bad_columns, String::from("refused 6 at 0\n")),
        ];
        let given = printed(lines.join("\n"));
        match causes.iter().find(|(there, _)| *there) {
            Some((_, refused)) => assert_eq!(&given, refused, "causes {bits:06b}"),
            None => assert_eq!(given.lines().count(), 4_097, "causes {bits:06b}"),
        }
    }
}

#[test]
fn the_first_bad_line_is_the_one_named() {
    assert_eq!(printed("0 7 3 \n5\nx\ny\n"), "refused 12 at 1\n");
    assert_eq!(printed("0 7 3\n5\nx\ny\n"), "refused 12 at 3\n");
    assert_eq!(printed("0 7 3\n5\n6\n\n7\n"), "refused 12 at 4\n");
}

#[test]
fn bad_first_lines() {
    let bad = [
        "",
        " ",
        "0",
        "0 7",
        "0 7 3 4",
        " 0 7 3",
        "0 7 3 ",
        "0  7 3",
        "0 7  3",
        "0\t7 3",
        "-0 7 3",
        "0 -7 3",
        "+0 7 3",
        "000000 7 3",
        "0 100000 3",
        "0 7 000003",
        "a 7 3",
        "0 7 3\r",
        "0,7,3",
        "0 7 3\0",
        "41200",
        "-",
    ];
    for line in bad {
        assert_eq!(printed(format!("{line}\n1\n2\n")), "refused 12 at 1\n", "{line:?}");
    }
    assert_eq!(printed(b"0 1 1\n\xff\n"), "refused 12 at 2\n");
    assert_eq!(printed(b"\xff"), "refused 12 at 1\n");
}

#[test]
fn bounds_of_the_first_line() {
    for line in ["0 0 1", "1 1 1", "2 1 1", "0 3 1", "99999 99999 1", "0 99999 1", "2 2 0"] {
        assert_eq!(printed(format!("{line}\n1\n2\n")), "refused 5 at 0\n", "{line:?}");
    }
    for line in ["0 2 0", "0 2 4097", "0 2 99999", "1 2 00000"] {
        assert_eq!(printed(format!("{line}\n1\n2\n")), "refused 6 at 0\n", "{line:?}");
    }
    assert_eq!(printed("0 2 4096\n1\n2\n").lines().count(), 4_097);
    assert_eq!(printed("1 2 1\n1\n2\n"), "column first last low high nodes\n0 2 2 2 2 3\n");
}

#[test]
fn bounds_of_the_hours() {
    let ends = "0 2 1\n-1000000\n1000000\n";
    let expected = "column first last low high nodes\n0 -1000000 1000000 -1000000 1000000 3\n";
    assert_eq!(printed(ends), expected);
    for number in ["1000001", "-1000001", "2000001", "2000002", "2000003", "-2000003", "9999999", "-9999999"] {
        assert_eq!(printed(format!("0 1 1\n-\n{number}\n")), "refused 2 at 1\n", "{number}");
    }
    let most = format!("0 1 1\n{}", "-\n".repeat(16_384));
    assert_eq!(printed(&most), "column first last low high nodes\n0 - - - - 1\n");
    assert_eq!(printed(format!("{most}-")), "refused 1 at 0\n");
    // One more hour than is taken comes before a number out of range.
    assert_eq!(printed(format!("0 1 1\n2000003\n{}", "-\n".repeat(16_384))), "refused 1 at 0\n");
}

/// Whether a line is bad, told by taking it apart from its start.
fn is_bad(index: usize, line: &[u8]) -> bool {
    let Ok(text) = std::str::from_utf8(line) else {
        return true;
    };
    let plain = |text: &str, most| (1..=most).contains(&text.len()) && text.chars().all(|c| "0123456789".contains(c));
    if index > 0 {
        return text != "-" && !plain(text.strip_prefix('-').unwrap_or(text), 7);
    }
    match text.split_once(' ').and_then(|(a, rest)| Some((a, rest.split_once(' ')?))) {
        Some((a, (b, w))) => ![a, b, w].iter().all(|field| plain(field, 5)),
        None => true,
    }
}

#[test]
fn odd_bytes_are_bad_lines() {
    let seed = 52;
    let mut random = Random::new(seed);
    let (mut good, mut bad) = (0, 0);
    for _ in 0..100_000 {
        let mut input = String::from("0 3 2\n412\n-\n-5\n").into_bytes();
        for _ in 0..1 + random.below(2) {
            let place = random.below(input.len() as u64) as usize;
            let byte = random.one_of(b"0123456789 --\n\n\r\t+.x\0\xff");
            match random.below(3) {
                0 => input[place] = byte,
                1 => input.insert(place, byte),
                _ => drop(input.remove(place)),
            }
        }
        let mut lines: Vec<&[u8]> = input.split(|&byte| byte == b'\n').collect();
        if lines.len() > 1 && lines.last() == Some(&&b""[..]) {
            lines.pop();
        }
        let given = printed(&input);
        match lines.iter().enumerate().position(|(index, line)| is_bad(index, line)) {
            Some(index) => {
                assert_eq!(given, format!("refused 12 at {}\n", index + 1), "seed {seed}, {input:?}");
                bad += 1;
            }
            None => {
                assert!(!given.starts_with("refused 12 "), "seed {seed}, {input:?}");
                good += 1;
            }
        }
    }
    assert!(good > 1_000 && bad > 1_000, "{good} good, {bad} bad");
}
