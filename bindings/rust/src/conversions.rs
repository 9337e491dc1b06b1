//! Conversions by the standard traits: where a change of type can be meant in one way only.
//!
//! What can fail is strict: a value becomes exactly what is asked for, and needs no saying, or is refused. Rounding has to be asked for by the name of
//! its rule ([`Width::write_whole`], [`Takum::take_whole`] and the like).
use crate::answers::{Rule, Taking};
use crate::refusals::Refusal;
use crate::words::{Takum, Width};

// i32 is there since a literal without a type is one.
macro_rules! to_width {
    ($($number:ty)*) => {$(
        /// A width, or [`Refusal::Width`] if it isn't 2 to 64.
        ///
        /// ```
        /// use ledusprig::{Refusal, Width};
        ///
        #[doc = concat!("assert_eq!(Width::try_from(16_", stringify!($number), "), Ok(Width::W16));")]
        #[doc = concat!("assert_eq!(Width::try_from(", stringify!($number), "::MAX), Err(Refusal::Width));")]
        /// ```
        impl TryFrom<$number> for Width {
            type Error = Refusal;

            fn try_from(bits: $number) -> Result<Width, Refusal> {
                // what is no u32 isn't 2 to 64 either
                u32::try_from(bits).map_or(Err(Refusal::Width), Width::new)
            }
        }
    )*};
}

to_width! { u8 u32 i32 usize }

/// Its number of bits.
impl From<Width> for u32 {
    fn from(width: Width) -> u32 {
        width.bits()
    }
}

/// The word for a whole number by the strict rule, or [`Refusal::Inexact`]. There is none from `(Width, u64)`, which could be meant as a word:
/// that is [`Takum::new`].
///
/// ```
/// use ledusprig::{Refusal, Takum, Width};
///
/// assert_eq!(Takum::try_from((Width::W16, 514_i64))?.word(), 0x5A01);
/// assert_eq!(Takum::try_from((Width::W16, 515_i64)), Err(Refusal::Inexact));
/// # Ok::<(), Refusal>(())
/// ```
impl TryFrom<(Width, i64)> for Takum {
    type Error = Refusal;

    fn try_from((width, x): (Width, i64)) -> Result<Takum, Refusal> {
        width.write_whole(Rule::Strict, x).map(|written| written.word)
    }
}

/// The word for a binary64 number by the strict rule, or [`Refusal::Inexact`]. NaN and both infinities give NaR.
///
/// ```
/// use ledusprig::{Refusal, Takum, Width};
///
/// assert_eq!(Takum::try_from((Width::W16, 1.5))?.word(), 0x4400);
/// assert_eq!(Takum::try_from((Width::W16, 0.1)), Err(Refusal::Inexact));
/// assert!(Takum::try_from((Width::W16, f64::NAN))?.is_nar());
/// # Ok::<(), Refusal>(())
/// ```
impl TryFrom<(Width, f64)> for Takum {
    type Error = Refusal;

    fn try_from((width, x): (Width, f64)) -> Result<Takum, Refusal> {
        width.write_binary64(Rule::Strict, x).map(|written| written.word)
    }
}

/// Its whole number by the strict rule, or [`Refusal::Nar`], [`Refusal::Over`] or [`Refusal::Inexact`].
///
/// ```
/// use ledusprig::{Refusal, Takum, Width};
///
/// assert_eq!(i64::try_from(Takum::new(Width::W16, 0x5A01)?), Ok(514));
/// assert_eq!(i64::try_from(Takum::new(Width::W16, 0x4400)?), Err(Refusal::Inexact));
/// assert_eq!(i64::try_from(Width::W16.nar()), Err(Refusal::Nar));
/// # Ok::<(), Refusal>(())
/// ```
impl TryFrom<Takum> for i64 {
    type Error = Refusal;

    fn try_from(takum: Takum) -> Result<i64, Refusal> {
        takum.take_whole(Taking::Strict)
    }
}

/// Its binary64 number, NaN for NaR: exactly its value up to width 57; from 58 on the nearest, ties to even, as
/// [`take_binary64`](Takum::take_binary64) gives it.
///
/// ```
/// use ledusprig::{Refusal, Takum, Width};
///
/// assert_eq!(f64::from(Takum::new(Width::W16, 0x4400)?), 1.5);
/// assert!(f64::from(Width::W16.nar()).is_nan());
/// # Ok::<(), Refusal>(())
/// ```
impl From<Takum> for f64 {
    fn from(takum: Takum) -> f64 {
        takum.take_binary64().unwrap_or(f64::NAN)
    }
}
