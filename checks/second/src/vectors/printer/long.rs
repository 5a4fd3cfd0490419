//! Long inputs of the printer: long lines, and long series of short lines.

use crate::hours::MOST_HOURS;

/// Lines that are far too long, and ones that would be good if bytes of them were lost.
pub(super) fn long_lines() -> Vec<Vec<u8>> {
    let digits = "5".repeat(1_000);
    let zeros = "0".repeat(256);
    let spaces = " ".repeat(300);
    let inputs = [
        format!("{digits}\n5\n"),
        format!("0 1 1\n{digits}\n"),
        format!("0 1 1\n5\n-{digits}"),
        format!("0 1 1\n5\n{}\n--\n", "-".repeat(1_000)),
        format!("0 1 1\n--\n{digits}\n"),
        format!("0 1 1{spaces}\n5\n"),
        format!("{spaces}0 1 1\n5\n"),
        format!("00000 00001 00001{digits}\n5\n"),
        format!("{zeros}0 1 1\n5\n"),
        format!("0 1 {zeros}1\n5\n"),
        format!("0 1 1\n{zeros}5\n"),
        format!("0 1 1\n-{zeros}5\n"),
        format!("0 1 1\n1000000{zeros}\n"),
        format!("0 1 1\n{}5\n", "0".repeat(65_536)),
    ];
    inputs.map(String::into_bytes).to_vec()
}

/// Series at the greatest length and beyond. Their hours are one byte each wherever more is not the point.
pub(super) fn long_series() -> Vec<Vec<u8>> {
    let most = MOST_HOURS as usize;
    let (fives, good) = ("5\n".repeat(most), digits_and_gaps(most));
    let widest: String = (0..1_024).map(|hour| if hour % 7 == 3 { "1000000\n" } else { "-1000000\n" }).collect();
    let inputs = [
        format!("0 16384 4096\n{good}"),
        format!("1 16384 99\n{}", good.trim_end()),
        // More bytes are printed than a count of 16 bits holds.
        format!("0 1024 4096\n{widest}"),
        format!("16383 16384 1\n{good}"),
        format!("0 16385 1\n{good}5"),
        format!("0 1 1\n{fives}\n"),
        format!("0 1 1\n{}1000001\n", &fives[2..]),
        format!("3 3 0\n2000003\n{fives}"),
        // One line more than a count of 16 bits holds.
        format!("0 1 1\n{}--\n5\n", "-\n".repeat(65_536)),
        format!("0 5000 3\n{}8\n{}", "-\n".repeat(2_500), "-\n".repeat(2_499)),
        format!("17 4097 9\n{}", digits_and_gaps(4_097)),
    ];
    inputs.map(String::into_bytes).to_vec()
}

/// So many hours of one byte each.
fn digits_and_gaps(n: usize) -> String {
    let digit = |hour: usize| char::from(b'0' + (hour * hour / 5 % 10) as u8);
    (0..n).flat_map(|hour| [if hour % 11 == 4 { '-' } else { digit(hour) }, '\n']).collect()
}
