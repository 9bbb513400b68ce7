//! The versions of both files. All that depends on the version is said here.

/// The version that a chart or network file bears in its first byte.
#[derive(Clone, Copy, PartialEq, Eq, PartialOrd, Ord, Debug, Default)]
pub enum Version {
    #[default]
    One = 1,
    Two = 2,
}

impl Version {
    /// Every version, in the order of the numbers.
    pub const ALL: [Version; 2] = [Version::One, Version::Two];

    /// The version of a number; none for other numbers.
    pub fn of_number(number: u8) -> Option<Version> {
        Version::ALL.into_iter().find(|version| version.number() == number)
    }

    pub fn number(self) -> u8 {
        self as u8
    }

    /// Whether an advance may stand in place of an assignment.
    pub fn has_advances(self) -> bool {
        self >= Version::Two
    }
}
