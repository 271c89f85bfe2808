//! The number of turns that a round is given, as it is asked for.

use std::fmt;

/// A number in decimal digits, however large.
#[derive(Clone, Debug, PartialEq, Eq)]
pub struct Turns {
    digits: String,
}

impl Turns {
    /// Decimal digits, with no sign, and no 0 in front of others.
    pub fn of(word: &str) -> Option<Turns> {
        let is_digits = !word.is_empty() && word.bytes().all(|byte| byte.is_ascii_digit());
        let is_padded = word.len() > 1 && word.starts_with('0');
        let digits = word.to_string();
        (is_digits && !is_padded).then_some(Turns { digits })
    }

    /// As the library takes it: a larger number is refused as the largest of 32 bits is.
    pub fn number(&self) -> u32 {
        self.digits.parse().unwrap_or(u32::MAX)
    }
}

impl fmt::Display for Turns {
    fn fmt(&self, out: &mut fmt::Formatter<'_>) -> fmt::Result {
        out.write_str(&self.digits)
    }
}

#[cfg(test)]
mod tests {
    use super::*;

    #[test]
    fn numbers() {
        for (word, number) in [
            ("0", 0),
            ("1", 1),
            ("10", 10),
            ("4096", 4_096),
            ("4097", 4_097),
            ("4294967295", u32::MAX),
            ("4294967296", u32::MAX),
            ("99999999999999999999999999999999999999999", u32::MAX),
        ] {
            let turns = Turns::of(word).unwrap();
            assert_eq!((turns.number(), turns.to_string()), (number, word.into()));
        }
    }

    #[test]
    fn other_words() {
        for word in [
            "", "-1", "+1", "00", "04", "0x4", "4.0", "1e3", "4,096", "4_096", " 4", "4 ", "-",
            "four", "４",
        ] {
            assert_eq!(Turns::of(word), None, "{word}");
        }
    }
}
