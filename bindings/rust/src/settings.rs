//! How a run or a round begins.

use crate::library::DEFAULT_LAUNCH;
use crate::records::Label;

/// How a run or a round begins. By default job 0 is launched low: at the smaller of C plus 1 and the bound of
/// block 0.
#[derive(Clone, Copy, Debug, Default, PartialEq, Eq, Hash)]
pub struct Settings {
    launch: Option<Label>,
}

impl Settings {
    /// The same with job 0 launched at this label, which is also its history. A run or a round is
    /// refused by 14 where the label is above the bound of block 0.
    ///
    /// ```
    /// use xemdulba::{bound, run, Answer, Label, Settings};
    ///
    /// // C is 3; a block of bound 12, whose step lowers its job to 9.
    /// let book = [1, 3, 48, 12, 72, 9];
    /// assert_eq!(bound(&book)?, Label(12));
    /// let answers = |settings| run(&book, &[80, 0], settings).map(|run| run.answers);
    /// assert_eq!(answers(Settings::default())?, [Answer::Blocked]);
    /// assert_eq!(answers(Settings::default().launch(Label(12)))?, [Answer::Done]);
    /// assert_eq!(answers(Settings::default().launch(Label(13))).unwrap_err().number, 14);
    /// # Ok::<(), xemdulba::Refusal>(())
    /// ```
    #[must_use]
    pub fn launch(self, label: Label) -> Settings {
        Settings {
            launch: Some(label),
        }
    }

    /// As the library takes it.
    pub(crate) fn launch_number(self) -> u32 {
        self.launch.map_or(DEFAULT_LAUNCH, |label| label.0.into())
    }
}
