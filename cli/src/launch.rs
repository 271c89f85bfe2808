//! The label that a run is launched at, as it is asked for.

use xemdulba::{Label, Refusal, Settings};

#[derive(Clone, Copy, Debug, PartialEq, Eq)]
pub enum Launch {
    /// None was asked for: the smaller of C plus 1 and the bound.
    Low,
    /// The bound of block 0.
    Bound,
    At(Label),
}

/// What a launch label may be, in words.
pub const LABELS: &str = "a label from 0 to 15, or bound";

/// The highest label.
const TOP: u8 = 15;

impl Launch {
    /// `bound`, or a label in decimal digits.
    pub fn of(word: &str) -> Option<Launch> {
        if word == "bound" {
            return Some(Launch::Bound);
        }
        let label = (0..=TOP).find(|label| label.to_string() == word)?;
        Some(Launch::At(Label(label)))
    }

    /// How the run of a book begins. A book that cannot be read has no bound, and its run would be
    /// refused likewise.
    pub fn settings(self, book: &[u8]) -> Result<Settings, Refusal> {
        let low = Settings::default();
        Ok(match self {
            Launch::Low => low,
            Launch::Bound => low.launch(xemdulba::bound(book)?),
            Launch::At(label) => low.launch(label),
        })
    }
}

#[cfg(test)]
mod tests {
    use super::*;

    #[test]
    fn words() {
        assert_eq!(Launch::of("bound"), Some(Launch::Bound));
        for label in 0..=15 {
            let word = label.to_string();
            assert_eq!(Launch::of(&word), Some(Launch::At(Label(label))));
        }
        for word in [
            "", "16", "255", "256", "300", "-1", "+1", "04", "0x4", "4.0", " 4", "4 ", "low",
            "Bound", "bound ", "four",
        ] {
            assert_eq!(Launch::of(word), None, "{word}");
        }
    }

    /// C is 3, and block 0 has the bound 12.
    #[test]
    fn settings() {
        let book = [1, 3, 48, 12];
        let at = |label| Ok(Settings::default().launch(Label(label)));
        assert_eq!(Launch::Low.settings(&book), Ok(Settings::default()));
        assert_eq!(Launch::Bound.settings(&book), at(12));
        assert_eq!(Launch::At(Label(13)).settings(&book), at(13));
    }

    #[test]
    fn no_bound() {
        let book = [1, 15, 48, 12];
        let refusal = Launch::Bound.settings(&book).unwrap_err();
        assert_eq!((refusal.number, refusal.place), (5, 0));
        assert_eq!(Launch::Low.settings(&book), Ok(Settings::default()));
    }
}
