//! Why a call was refused.
use core::error::Error;
use core::fmt;

// The papers' table makes the type, so that a refusal is one line of it. The sentences are those of include/ledusprig.h; tests/cargo compares them.
macro_rules! refusals {
    ($($variant:ident = $number:literal, $name:literal, $sentence:literal;)*) => {
        /// A refusal, with the number and the name that the yard's papers fix for it, and a sentence.
        ///
        /// ```
        /// use ledusprig::{calls, Refusal};
        ///
        /// let refusal = calls::limit(65).unwrap_err();
        /// assert_eq!(refusal, Refusal::Width);
        /// assert_eq!((refusal.number(), refusal.name()), (1, "WIDTH"));
        /// assert_eq!(refusal.to_string(), "refusal 1 (WIDTH): a width isn't 2 to 64, or a block's isn't 8, 16, 32 or 64");
        /// ```
        ///
        /// It is an [`Error`], so `?` hands it on:
        ///
        /// ```
        /// use ledusprig::{Takum, Width};
        ///
        /// fn tag(tally: i64) -> Result<u64, Box<dyn std::error::Error>> {
        ///     Ok(Takum::try_from((Width::W16, tally))?.word())
        /// }
        /// assert_eq!(tag(514).unwrap(), 0x5A01);
        /// assert!(tag(515).unwrap_err().to_string().starts_with("refusal 4 (INEXACT): "));
        /// ```
        #[derive(Clone, Copy, Debug, PartialEq, Eq, Hash)]
        #[non_exhaustive]
        pub enum Refusal {
            $(
                #[doc = concat!("Refusal ", $number, " (", $name, "): ", $sentence, ".")]
                $variant,
            )*
            /// A refusal whose number this version of the crate does not know: that of a newer archive. Only a number that has no name of its own
            /// becomes one, so that a refusal never has two forms.
            ///
            /// ```
            /// use ledusprig::Refusal;
            ///
            /// let newer = Refusal::try_from(4_294_967_295).unwrap();
            /// assert!(matches!(newer, Refusal::Other { number: 4_294_967_295, .. }));
            /// ```
            #[non_exhaustive]
            Other {
                /// The number.
                number: u32,
            },
        }

        impl Refusal {
            /// The papers' number.
            #[must_use]
            pub const fn number(self) -> u32 {
                match self {
                    $(Refusal::$variant => $number,)*
                    Refusal::Other { number } => number,
                }
            }

            /// The papers' name, as `INEXACT`; `UNKNOWN` where this version of the crate does not know it.
            #[must_use]
            pub const fn name(self) -> &'static str {
                match self {
                    $(Refusal::$variant => $name,)*
                    Refusal::Other { .. } => "UNKNOWN",
                }
            }

            fn sentence(self) -> &'static str {
                match self {
                    $(Refusal::$variant => $sentence,)*
                    Refusal::Other { .. } => "the library is newer than this crate, which has no name for it",
                }
            }
        }

        /// The refusal of a number, which is never 0.
        ///
        /// ```
        /// use ledusprig::Refusal;
        ///
        /// assert_eq!(Refusal::try_from(4), Ok(Refusal::Inexact));
        /// assert_eq!(Refusal::try_from(12).unwrap().number(), 12);
        /// assert!(Refusal::try_from(0).is_err());
        /// ```
        impl TryFrom<u32> for Refusal {
            type Error = NoRefusal;

            fn try_from(number: u32) -> Result<Refusal, NoRefusal> {
                match number {
                    0 => Err(NoRefusal),
                    $($number => Ok(Refusal::$variant),)*
                    number => Ok(Refusal::Other { number }),
                }
            }
        }
    };
}

refusals! {
    Width = 1, "WIDTH", "a width isn't 2 to 64, or a block's isn't 8, 16, 32 or 64";
    Stray = 2, "STRAY", "a word has a bit set at or above its width";
    Nar = 3, "NAR", "a whole number is wanted of NaR";
    Inexact = 4, "INEXACT", "strict, and no word, or no whole number, has the value; or no width from 2 to 64 has a word with it";
    Over = 5, "OVER", "the whole number falls outside signed 64 bits";
    Room = 6, "ROOM", "the result slice is too short";
    Size = 7, "SIZE", "a block, or the buffer for one, isn't 512 bytes";
    Mark = 8, "MARK", "a block's byte 0 isn't 0x54";
    Check = 9, "CHECK", "a block's check sum A or B differs";
    Count = 10, "COUNT", "a block has more words than its width has room for";
    Fill = 11, "FILL", "an unused word byte of a block isn't zero";
    Retired = 13, "RETIRED", "blocks of width 8 are read, but no longer written";
}

impl Refusal {
    /// The answer of a call, or the refusal of that number; 0 is none.
    pub(crate) fn unless<T>(number: u32, answer: T) -> Result<T, Refusal> {
        match Refusal::try_from(number) {
            Ok(refusal) => Err(refusal),
            Err(NoRefusal) => Ok(answer),
        }
    }
}

/// Its number, name and sentence.
impl fmt::Display for Refusal {
    fn fmt(&self, f: &mut fmt::Formatter<'_>) -> fmt::Result {
        write!(f, "refusal {} ({}): {}", self.number(), self.name(), self.sentence())
    }
}

impl Error for Refusal {}

/// The number 0 was to become a refusal.
#[derive(Clone, Copy, Debug, PartialEq, Eq, Hash)]
#[non_exhaustive]
pub struct NoRefusal;

impl fmt::Display for NoRefusal {
    fn fmt(&self, f: &mut fmt::Formatter<'_>) -> fmt::Result {
        f.write_str("0 is no refusal: it says that a call was answered")
    }
}

impl Error for NoRefusal {}

/// Why a column was not moved, or a block not written, and which of the words is to blame.
///
/// ```
/// use ledusprig::{calls, Refusal, Rule};
///
/// let mut results = [0; 3];
/// let refused = calls::move_column(16, 8, Rule::Strict, &[0x4000, 0x5A01, 0x5A01], &mut results).unwrap_err();
/// assert_eq!((refused.refusal, refused.position), (Refusal::Inexact, Some(1)));
/// assert!(refused.to_string().ends_with(" at position 1"));
/// assert_eq!(results, [0; 3]);
/// ```
#[derive(Clone, Copy, Debug, PartialEq, Eq, Hash)]
#[non_exhaustive]
pub struct ColumnRefusal {
    /// Why.
    pub refusal: Refusal,
    /// The lowest position of a word that is refused, counted from 0; none where it is not one word that is refused, but the whole column or block.
    pub position: Option<usize>,
}

impl ColumnRefusal {
    /// With the position that the library tells, which says nothing unless the refusal is one of a word.
    pub(crate) fn at(refusal: Refusal, position: usize) -> ColumnRefusal {
        let position = match refusal {
            Refusal::Stray | Refusal::Inexact => Some(position),
            _ => None,
        };
        ColumnRefusal { refusal, position }
    }
}

/// The refusal of a whole column or block.
impl From<Refusal> for ColumnRefusal {
    fn from(refusal: Refusal) -> ColumnRefusal {
        ColumnRefusal { refusal, position: None }
    }
}

/// The refusal's sentence, and the position where there is one.
impl fmt::Display for ColumnRefusal {
    fn fmt(&self, f: &mut fmt::Formatter<'_>) -> fmt::Result {
        self.refusal.fmt(f)?;
        match self.position {
            Some(position) => write!(f, ", at position {position}"),
            None => Ok(()),
        }
    }
}

impl Error for ColumnRefusal {}

#[cfg(test)]
mod tests {
    use super::Refusal;

    #[test]
    fn the_number_of_a_newer_archive_is_handed_over() {
        assert_eq!(Refusal::unless(0, 'a'), Ok('a'));
        for number in 1..=20 {
            assert_eq!(Refusal::unless(number, 'a').map_err(Refusal::number), Err(number));
        }
        assert_eq!(Refusal::unless(u32::MAX, 'a'), Err(Refusal::Other { number: u32::MAX }));
    }
}
