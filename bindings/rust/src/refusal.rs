//! The number of a refusal, which is an error.

use core::error::Error;
use core::fmt;

use crate::names::REASONS;
use crate::text::entry;

/// The number of a refusal.
///
/// ```
/// use brassdozen::{Refusal, home};
///
/// let refusal = home(0xef00_0000).unwrap_err();
/// assert_eq!(refusal, Refusal::NO_ROW);
/// assert_eq!(refusal.to_string(), "refused 3: no instruction that is known here");
/// ```
#[derive(Debug, Clone, Copy, PartialEq, Eq, Hash)]
pub struct Refusal(pub u8);

impl Refusal {
    /// The reason, as `refusals.txt` has it; nothing for a number that no refusal has.
    pub fn reason(self) -> &'static str {
        entry(&REASONS, self.0.into())
    }
}

impl Error for Refusal {}

impl fmt::Display for Refusal {
    fn fmt(&self, f: &mut fmt::Formatter<'_>) -> fmt::Result {
        match self.reason() {
            "" => write!(f, "refused {}", self.0),
            reason => write!(f, "refused {}: {reason}", self.0),
        }
    }
}
