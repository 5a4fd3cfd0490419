//! The inputs: those of the vectors, damaged texts, and long ones.

use second::hours::{GAP, GREATEST_READING};
use second::printer::hour_lines;
use second::random::Random;
use second::vectors::printer;

/// So many of the vectors' short inputs are drawn; the long ones are all taken.
const OF_VECTORS: usize = 150;
/// Vectors' inputs from so many bytes on are long.
const LONG: usize = 200;
/// So many good texts, good texts but for line 1, and damaged ones.
const GOOD: usize = 30;
const WINDOWED: usize = 30;
const DAMAGED: usize = 70;

/// The bytes that are put into a good text.
const BYTES: &[u8] = b"0123456789 --\n\n\r\t+.x\0\xff";

/// All inputs of a run.
pub fn inputs(seed: u64) -> Vec<Vec<u8>> {
    let mut random = Random::new(seed);
    let mut inputs = of_vectors(&mut random);
    inputs.extend((0..GOOD).map(|_| good(&mut random)));
    inputs.extend((0..WINDOWED).map(|_| windowed(&mut random)));
    inputs.extend((0..DAMAGED).map(|_| damaged(&mut random)));
    inputs.extend(longest(&mut random));
    inputs.extend(too_long(&mut random));
    inputs
}

/// Inputs of the vectors.
fn of_vectors(random: &mut Random) -> Vec<Vec<u8>> {
    let (mut short, mut taken): (Vec<_>, Vec<_>) = printer::inputs().into_iter().partition(|input| input.len() < LONG);
    for _ in 0..OF_VECTORS.min(short.len()) {
        taken.push(short.swap_remove(random.below(short.len() as u64) as usize));
    }
    taken
}

/// A series of n hours: with no, few or many gaps and with close, far or extreme readings.
fn series(random: &mut Random, n: usize) -> Vec<i32> {
    let gaps = random.one_of(&[2, 5, 30, 1_000_000]);
    let (least, greatest) = random.one_of(&[(0, 9), (-9, 9), (30_000, 60_000), (-GREATEST_READING, GREATEST_READING)]);
    (0..n).map(|_| if random.once_in(gaps) { GAP } else { random.between(least, greatest) }).collect()
}

/// A text of n hours in a window of any columns.
fn text(random: &mut Random, n: usize) -> Vec<u8> {
    let n_hours = n as u64;
    let a = random.below(n_hours);
    let b = a + 1 + random.below(n_hours - a);
    let (a, b) = if random.once_in(2) { (0, n_hours) } else { (a, b) };
    let w = 1 + random.below((b - a + 5).min(4_096));
    format!("{a} {b} {w}\n{}", hour_lines(&series(random, n))).into_bytes()
}

/// A good text of up to some hundred hours.
fn good(random: &mut Random) -> Vec<u8> {
    let most = random.one_of(&[3, 20, 300]);
    let n = 1 + random.below(most) as usize;
    let mut text = text(random, n);
    if random.once_in(3) {
        text.pop();
    }
    text
}

/// A text of few hours in a window that may begin and end anywhere, in any number of columns.
fn windowed(random: &mut Random) -> Vec<u8> {
    let n = random.below(30);
    let [a, b] = [0; 2].map(|_| random.below(n + 3));
    let (a, b) = if random.once_in(3) { (a, b) } else { (a.min(b), a.max(b)) };
    let w = random.one_of(&[0, 1, 2, 3, n, 4_096, 4_097, 65_537, 99_999]);
    format!("{a} {b} {w}\n{}", hour_lines(&series(random, n as usize))).into_bytes()
}

/// A good text with up to three damages.
fn damaged(random: &mut Random) -> Vec<u8> {
    let mut text = good(random);
    for _ in 0..1 + random.below(3) {
        damage(random, &mut text);
    }
    text
}

/// Changes, adds or removes a byte, exchanges two lines, or puts a number where an hour was.
fn damage(random: &mut Random, text: &mut Vec<u8>) {
    if text.is_empty() {
        return;
    }
    let place = random.below(text.len() as u64) as usize;
    match random.below(5) {
        0 => text[place] = random.one_of(BYTES),
        1 => text.insert(place, random.one_of(BYTES)),
        2 => drop(text.remove(place)),
        _ => {
            let mut lines: Vec<Vec<u8>> = text.split(|&byte| byte == b'\n').map(Vec::from).collect();
            let [one, other] = [0; 2].map(|_| random.below(lines.len() as u64) as usize);
            if random.once_in(2) {
                lines.swap(one, other);
            } else {
                lines[one] = random.between(-9_999_999, 9_999_999).to_string().into_bytes();
            }
            *text = lines.join(&b'\n');
        }
    }
}

/// Texts of many hours, up to as many as there can be.
fn longest(random: &mut Random) -> Vec<Vec<u8>> {
    let mut inputs = Vec::new();
    for n in [1_000, 4_095, 8_192, 8_193, 16_383, 16_384, 16_384] {
        inputs.push(text(random, n));
        let mut damaged = text(random, n);
        damage(random, &mut damaged);
        inputs.push(damaged);
    }
    let widest = hour_lines(&vec![-GREATEST_READING; 16_384]);
    inputs.push(format!("0 16384 4096\n{widest}").into_bytes());
    inputs
}

/// Too many hours, a bad line far behind them, and lines of megabytes.
fn too_long(random: &mut Random) -> Vec<Vec<u8>> {
    let hours = hour_lines(&series(random, 40_001));
    let long = |byte: &str| byte.repeat(3_000_000);
    let inputs = [
        format!("0 1 1\n{hours}"),
        format!("0 1 1\n{hours}--\n5\n"),
        format!("0 1 1\n{hours}{hours}--"),
        format!("0 1 1\n2000003\n{hours}\n"),
        // Seven hours more than a count of 16 bits holds.
        format!("0 7 3\n{}", "5\n".repeat(65_536 + 7)),
        long("0"),
        format!("0 1 1\n5\n{}\n", long("5")),
        format!("0 1 1\n-{}\n5\nx\n", long("0")),
    ];
    inputs.map(String::into_bytes).to_vec()
}

#[cfg(test)]
mod tests {
    use super::*;

    fn printed(input: &[u8]) -> String {
        String::from_utf8(second::print(input)).expect("plain text")
    }

    #[test]
    fn good_texts_are_taken_and_damaged_ones_not_always() {
        let mut random = Random::new(3);
        let mut refused = 0;
        for _ in 0..500 {
            assert!(printed(&good(&mut random)).starts_with("column "));
            refused += usize::from(printed(&damaged(&mut random)).starts_with("refused "));
        }
        assert!((200..480).contains(&refused), "{refused}");
    }

    #[test]
    fn a_bad_line_far_behind() {
        let printed: Vec<String> = too_long(&mut Random::new(3)).iter().map(|input| printed(input)).collect();
        for text in ["refused 1 at 0\n", "refused 12 at 40003\n", "refused 12 at 80004\n", "refused 12 at 1\n"] {
            assert!(printed.iter().any(|printed| printed == text), "{text}");
        }
    }

    #[test]
    fn the_same_seed_gives_the_same_inputs() {
        assert!(inputs(5) == inputs(5));
        assert!(inputs(5) != inputs(6));
    }
}
