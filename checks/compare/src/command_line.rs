//! The command line of the programs.

/// What the command line says.
#[derive(Clone, Copy, Debug, Default, PartialEq, Eq)]
pub struct Asked {
    /// The seed, if it is given.
    pub seed: Option<u64>,
    /// The number of calls, if it is given.
    pub calls: Option<usize>,
}

impl Asked {
    /// `[--seed N] [[--calls] N]`, nothing else: a number alone is that of the calls.
    pub fn of(mut arguments: impl Iterator<Item = String>) -> Option<Asked> {
        let mut asked = Asked::default();
        while let Some(word) = arguments.next() {
            match word.as_str() {
                "--seed" => asked.seed = Some(arguments.next()?.parse().ok()?),
                "--calls" => asked.calls = Some(arguments.next()?.parse().ok()?),
                calls => asked.calls = Some(calls.parse().ok()?),
            }
        }
        Some(asked)
    }
}

#[cfg(test)]
mod tests {
    use super::*;

    #[test]
    fn command_lines() {
        let asked = |line: &str| Asked::of(line.split_whitespace().map(String::from));
        assert_eq!(asked(""), Some(Asked { seed: None, calls: None }));
        assert_eq!(asked("--seed 7"), Some(Asked { seed: Some(7), calls: None }));
        assert_eq!(asked("--calls 9 --seed 7"), Some(Asked { seed: Some(7), calls: Some(9) }));
        assert_eq!(asked("9"), Some(Asked { seed: None, calls: Some(9) }));
        assert_eq!(asked("--seed 7 9"), Some(Asked { seed: Some(7), calls: Some(9) }));
        assert_eq!(asked("--seed 18446744073709551615").and_then(|asked| asked.seed), Some(u64::MAX));
        assert_eq!(asked("--seed"), None);
        assert_eq!(asked("--seed x"), None);
        assert_eq!(asked("--calls -1"), None);
        assert_eq!(asked("--other 7"), None);
        assert_eq!(asked("--calls"), None);
        assert_eq!(asked("9x"), None);
    }
}
