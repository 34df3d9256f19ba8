//! The reasons to refuse.

mod table;

pub use table::Refusal;

use std::error::Error;
use std::fmt;

/// What is said of a refusal.
struct Texts {
    text: &'static str,
    meaning: &'static str,
    advice: &'static str,
}

impl Refusal {
    /// Its number, from 1 on.
    pub const fn number(self) -> u32 {
        self as u32
    }

    /// The reason in a few words.
    ///
    /// ```
    /// # use parchgable::Refusal;
    /// let refusal = Refusal::try_from(24)?;
    /// assert_eq!(refusal.text(), "span outside the stored bytes");
    /// assert_eq!(refusal.to_string(), "refused 24: span outside the stored bytes");
    /// # Ok::<(), parchgable::UnknownRefusal>(())
    /// ```
    pub const fn text(self) -> &'static str {
        self.texts().text
    }

    /// What was found, in whole sentences.
    pub const fn meaning(self) -> &'static str {
        self.texts().meaning
    }

    /// What the one who uploaded the file, or asked for something in it, can do.
    pub const fn advice(self) -> &'static str {
        self.texts().advice
    }
}

impl fmt::Display for Refusal {
    fn fmt(&self, to: &mut fmt::Formatter) -> fmt::Result {
        write!(to, "refused {}: {}", self.number(), self.text())
    }
}

impl Error for Refusal {}

/// A number that no refusal has.
#[derive(Clone, Copy, Debug, PartialEq, Eq)]
pub struct UnknownRefusal(pub u32);

impl fmt::Display for UnknownRefusal {
    fn fmt(&self, to: &mut fmt::Formatter) -> fmt::Result {
        let (number, count) = (self.0, Refusal::ALL.len());
        write!(to, "there is no refusal {number}; they are 1 to {count}")
    }
}

impl Error for UnknownRefusal {}

impl TryFrom<u32> for Refusal {
    type Error = UnknownRefusal;

    fn try_from(number: u32) -> Result<Self, UnknownRefusal> {
        let mut all = Refusal::ALL.into_iter();
        all.find(|refusal| refusal.number() == number)
            .ok_or(UnknownRefusal(number))
    }
}

/// The answer that a result's refusal number stands for.
///
/// # Panics
///
/// If the number is none of the table's: then the linked library is another
/// than this crate was written for, and none of its answers could be trusted.
pub fn check(number: u32) -> Result<(), Refusal> {
    match number {
        0 => Ok(()),
        _ => Err(Refusal::try_from(number).expect("libne.a of this release")),
    }
}

#[cfg(test)]
mod tests {
    use super::check;

    #[test]
    #[should_panic(expected = "libne.a of this release: UnknownRefusal(27)")]
    fn a_number_of_another_library() {
        let _ = check(27);
    }
}
