//! Short inputs of the printer.

use crate::hours::GAP;
use crate::printer::{hour_lines, EXAMPLE};
use crate::random::Random;
use crate::vectors::has;
use crate::vectors::made::mixed;

/// Document 01's example, its end and its windows changed.
pub(super) fn examples() -> Vec<Vec<u8>> {
    let (first, hours) = EXAMPLE.split_once('\n').expect("line 1 and the hours");
    let mut inputs =
        vec![EXAMPLE.into(), EXAMPLE.trim_end().into(), format!("{EXAMPLE}\n"), EXAMPLE.replace('\n', "\r\n")];
    inputs.extend([format!("{first}\r\n{hours}"), format!("{first}\n{hours}\r\n"), EXAMPLE.replace('\n', "\r")]);
    let windows = ["0 7 1", "0 7 7", "0 7 8", "0 7 20", "6 7 1", "2 3 2", "3 5 3", "1 6 4", "0 6 5"];
    inputs.extend(windows.map(|window| format!("{window}\n{hours}")));
    inputs.into_iter().map(String::into_bytes).collect()
}

/// Nothing, lines that are empty, and the last line with its line feed and without.
pub(super) fn empty_lines() -> Vec<Vec<u8>> {
    let inputs = [
        "",
        "\n",
        "\n\n",
        "\n0 1 1\n5\n",
        "0 1 1",
        "0 1 1\n",
        "0 1 1\n\n",
        "0 1 1\n\n\n",
        "0 1 1\n5",
        "0 1 1\n5\n",
        "0 1 1\n5\n\n",
        "0 1 1\n5\n\n\n",
        "0 1 1\n\n5\n",
        "0 2 1\n5\n\n6",
        "0 1 1\n-",
        "0 2 2\n-\n-5",
        "0 0 0",
        "7 3 99999\n",
    ];
    inputs.map(Vec::from).to_vec()
}

/// Line 1, good and bad, before two hours.
pub(super) fn first_lines() -> Vec<Vec<u8>> {
    let good = ["00000 00001 00001", "0000 00001 00001", "0 00002 2", "00001 2 03"];
    #[rustfmt::skip]
    let bad: [&[u8]; 46] = [
        b" ", b"0", b"-", b"41200", b"0 2", b"0 2 ", b"0  2", b" 0 2", b"0 2 1 4", b"0 2 1 ", b" 0 2 1", b"0  2 1",
        b"0 2  1", b"  ", b"   ", b"0 2 - 1", b"-0 2 1", b"0 -2 1", b"0 2 -1", b"- 2 1", b"0 - 1", b"0 2 -", b"+0 2 1",
        b"0\t2 1", b"0 2\t1", b"0 2 1\t", b"0,2,1", b"a 2 1", b"0 2 x", b"0 2 1\r", b"\r", b"0 2 1\0", b"\x000 2 1",
        b"0 2\x001", b"0 2 \xff", b"\xff", b"0\xa02 1", b"\xef\xbb\xbf0 2 1", b"0 2 /", b"0 : 1", b"0! 2 1", b"0 2 1.0",
        b"000000 2 1", b"0 100000 1", b"0 2 000001", b"0 2 100001",
    ];
    // Of 16 to 20 bytes.
    let long = [
        "000000 00001 001",
        "0000000000000001",
        "000000 0001 00001",
        "00000 00001 00001 ",
        "00000 00001 000001",
        "00000 000001 00001",
        " 00000 00001 00001",
        "00000 00001 00001 1",
        "00000 00001 0000111",
        "000000 000001 00001",
        "000000 000001 000001",
        "00000 00001 00001xxx",
        "00000000000000000000",
    ];
    let lines = good.map(str::as_bytes).into_iter().chain(bad).chain(long.map(str::as_bytes));
    lines.map(|line| [line, b"\n1\n-2\n"].concat()).collect()
}

/// Windows and widths, good and bad, of two hours.
pub(super) fn windows() -> Vec<Vec<u8>> {
    // 65,536 more than a good number, too: what a count of 16 bits would not tell from it.
    #[rustfmt::skip]
    let windows = [
        "0 2 1", "0 2 2", "0 2 3", "0 2 4", "1 2 1", "1 2 5", "0 1 2", "0 0 1", "1 1 1", "2 2 1", "2 1 1", "0 3 1",
        "2 3 1", "3 4 1", "0 16385 1", "0 65538 1", "65536 65537 1", "0 99999 1", "99999 99999 1", "0 2 0", "0 2 4097",
        "0 2 65537", "0 2 99999", "1 2 00000", "0 0 0", "1 1 4097", "0 3 0", "2 1 4096",
    ];
    windows.map(|window| format!("{window}\n700\n-900\n").into_bytes()).to_vec()
}

/// Hours that are good lines, readings or not: each alone, at the end of the window and beyond it.
pub(super) fn hours() -> Vec<Vec<u8>> {
    #[rustfmt::skip]
    let readings = [
        "-", "0", "-0", "-0000000", "0000000", "0000007", "-0000007", "9", "-9", "1000000", "-1000000", "0999999",
        "-0999999",
    ];
    #[rustfmt::skip]
    let no_readings = [
        "1000001", "-1000001", "1000010", "1999999", "2000000", "2000001", "2000002", "2000003", "-2000003", "2000004",
        "9999999", "-9999999",
    ];
    let mut inputs: Vec<String> = readings.iter().map(|hour| format!("0 1 1\n{hour}\n")).collect();
    inputs.push(format!("0 {0} {0}\n{1}\n", readings.len(), readings.join("\n")));
    inputs.push(format!("1 5 2\n{}", readings.join("\n")));
    inputs.extend(no_readings.iter().map(|hour| format!("0 2 1\n5\n{hour}\n")));
    inputs.push(format!("0 1 1\n5\n-\n6\n{}\n", no_readings.join("\n")));
    inputs.push(format!("5 6 1\n{}", no_readings.join("\n")));
    inputs.extend((1..=9).map(|n| format!("0 {n} 2\n{}", "-\n".repeat(n))));
    inputs.extend((1..=9).map(|n| format!("0 {} 1\n{}-8\n", n + 1, "-\n".repeat(n))));
    inputs.into_iter().map(String::into_bytes).collect()
}

/// Hours that are bad lines: as line 2 and later, with lines behind them, and as last line with its line feed and
/// without.
pub(super) fn bad_hours() -> Vec<Vec<u8>> {
    #[rustfmt::skip]
    let bad: [&[u8]; 60] = [
        b"00000007", b"-00000007", b"12345678", b"-12345678", b"10000000", b"--", b"--1", b"---", b"-1-", b"1-", b"1-1",
        b"+", b"+1", b"-+1", b"- 1", b"- ", b" -", b" ", b"  ", b" 1", b"1 ", b"1 1", b"1  1", b"\r", b"1\r", b"-\r",
        b"\t", b"1\t", b"\t1", b"\0", b"1\0", b"\x001", b"-\0", b"\xff", b"1\xff", b"\xb1", b"1\x80", b"-\xb1",
        b"\xc3\xa9", b"\xe2\x88\x921", b"x", b"1x", b"-x", b"0x1", b"1.5", b"1,5", b"1e3", b"/", b":", b"1/", b"1:",
        b"1111111111111111", b"11111111111111111", b"111111111111111111", b"1111111111111111111",
        b"11111111111111111111", b"-000000000000001", b"0 1 1", b"refused 12 at 2", b"4294967296",
    ];
    let around: [(&str, &str); 4] = [("", "\n"), ("5\n-6\n", ""), ("-\n", "\n7\n"), ("2000003\n7\n", "\n--\n8\n")];
    let input = |(index, line): (usize, &[u8])| {
        let (before, after) = around[index % around.len()];
        [b"0 1 1\n", before.as_bytes(), line, after.as_bytes()].concat()
    };
    bad.into_iter().enumerate().map(input).collect()
}

/// Any one or two causes of a refusal together: a bad line 1, a bad hour, a second one, no hour, a number out of range,
/// the window, the width. Without an hour no number is out of range.
pub(super) fn pairs_of_causes() -> Vec<Vec<u8>> {
    let there_can_be = |causes: &u32| causes.count_ones() <= 2 && !(has(*causes, 3) && has(*causes, 4));
    (0..1 << 7).filter(there_can_be).map(with_causes).collect()
}

fn with_causes(causes: u32) -> Vec<u8> {
    let mut lines = vec!["7"; if has(causes, 3) { 0 } else { 6 }];
    if has(causes, 4) {
        lines.splice(0..3, ["8", "-1000001", "9999999"]);
    }
    if has(causes, 1) {
        lines.insert(lines.len() / 2, "7-");
    }
    if has(causes, 2) {
        lines.push("-7 ");
    }
    let window = if has(causes, 5) { "3 3" } else { "0 1" };
    let width = if has(causes, 6) { "0" } else { "1" };
    let end = if has(causes, 0) { " " } else { "" };
    lines.iter().fold(format!("{window} {width}{end}\n"), |input, line| input + line + "\n").into_bytes()
}

/// A short series drawn in a window of any columns.
pub(super) fn drawn(random: &mut Random) -> Vec<u8> {
    let n = match random.below(3) {
        0 => (1 << random.below(6)) + random.below(3),
        _ => 1 + random.below(40),
    };
    let mut hours = mixed(random, n as usize);
    if random.once_in(3) {
        let silent = random.below(n) as usize;
        hours[silent..].fill(GAP);
    }
    let a = random.below(n);
    let b = a + 1 + random.below(n - a);
    let (a, b) = if random.once_in(3) { (0, n) } else { (a, b) };
    let w = 1 + random.below(b - a + 3);
    format!("{a} {b} {w}\n{}", hour_lines(&hours)).into_bytes()
}
