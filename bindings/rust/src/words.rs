//! A width and a word that have been accepted once.
use crate::answers::{Kind, MovedColumn, Reading, Rule, Taking, Value, Written, ZERO};
use crate::calls;
use crate::refusals::{ColumnRefusal, Refusal};
use core::cmp::Ordering;
use core::ops::Neg;

/// A width from 2 to 64.
///
/// ```
/// use ledusprig::{Refusal, Width};
///
/// assert_eq!(Width::W16.limit(), 512);
/// assert_eq!(Width::new(12)?.limit(), 64);
/// assert_eq!(Width::new(65), Err(Refusal::Width));
/// # Ok::<(), Refusal>(())
/// ```
#[derive(Clone, Copy, Debug, PartialEq, Eq, PartialOrd, Ord, Hash)]
pub struct Width {
    bits: u32,
}

/// A word with its width.
///
/// ```
/// use ledusprig::{Refusal, Rule, Takum, Width};
///
/// let one_and_a_half = Takum::new(Width::W16, 0x4400)?;
/// assert_eq!(one_and_a_half.take_binary64(), Some(1.5));
/// assert_eq!((-one_and_a_half).word(), 0xBC00);
/// assert_eq!(one_and_a_half.move_to(Width::W64, Rule::Strict)?.word.take_binary64(), Some(1.5));
/// # Ok::<(), Refusal>(())
/// ```
#[derive(Clone, Copy, PartialEq, Eq, Hash)]
pub struct Takum {
    width: Width,
    word: u64,
}

/// The answer of a call that, by its contract, the library refuses only for a bad width or a stray bit, given a width and words that it
/// accepted before.
fn accepted<T>(answer: Result<T, Refusal>) -> T {
    answer.expect("the library accepted this width and word before")
}

impl Width {
    /// The least width, 2.
    pub const LEAST: Width = Width { bits: 2 };

    /// The greatest width, 64.
    pub const GREATEST: Width = Width { bits: 64 };

    /// 8 bits. This and the next three are the widths that a sheet block can have; with this one blocks are read, but no longer written.
    pub const W8: Width = Width { bits: 8 };

    /// 16 bits.
    pub const W16: Width = Width { bits: 16 };

    /// 32 bits.
    pub const W32: Width = Width { bits: 32 };

    /// 64 bits.
    pub const W64: Width = Width { bits: 64 };

    /// A width, or [`Refusal::Width`] if it isn't 2 to 64.
    pub fn new(bits: u32) -> Result<Width, Refusal> {
        calls::nar(bits).map(|_| Width { bits })
    }

    /// The width that a whole number needs: the least at which it has a word, or [`Refusal::Inexact`] where none up to 64 has one. Every greater width
    /// has one too.
    ///
    /// ```
    /// use ledusprig::{Refusal, Takum, Width};
    ///
    /// let width = Width::shortest(515)?;
    /// assert_eq!(width.bits(), 17);
    /// assert!(Takum::try_from((width, 515_i64)).is_ok());
    /// assert_eq!(Takum::try_from((Width::W16, 515_i64)), Err(Refusal::Inexact));
    /// # Ok::<(), Refusal>(())
    /// ```
    pub fn shortest(x: i64) -> Result<Width, Refusal> {
        calls::shortest_width(x).map(|bits| Width { bits })
    }

    /// Its number of bits.
    #[must_use]
    pub const fn bits(self) -> u32 {
        self.bits
    }

    /// A word that is known to be one of this width: the library gave or accepted it, or it is zero.
    const fn given(self, word: u64) -> Takum {
        Takum { width: self, word }
    }

    /// What was written at this width.
    fn written(self, answer: Result<Written, Refusal>) -> Result<Written<Takum>, Refusal> {
        answer.map(|Written { word, saying }| Written { word: self.given(word), saying })
    }

    /// The largest positive word.
    #[must_use]
    pub fn largest(self) -> Takum {
        self.given(accepted(calls::largest(self.bits)))
    }

    /// The smallest positive word.
    #[must_use]
    pub fn smallest(self) -> Takum {
        self.given(accepted(calls::smallest(self.bits)))
    }

    /// Zero: the word [`ZERO`].
    ///
    /// ```
    /// use ledusprig::{Takum, Width};
    ///
    /// const EMPTY: Takum = Width::W16.zero();
    /// assert!(EMPTY.is_zero());
    /// ```
    #[must_use]
    pub const fn zero(self) -> Takum {
        self.given(ZERO)
    }

    /// NaR, "not a real".
    #[must_use]
    pub fn nar(self) -> Takum {
        self.given(accepted(calls::nar(self.bits)))
    }

    /// The exact-count limit: each whole number from -limit to limit has a word, and limit + 1 has none.
    #[must_use]
    pub fn limit(self) -> u64 {
        accepted(calls::limit(self.bits))
    }

    /// The word for a value and which way it went, or [`Refusal::Inexact`] by the strict rule.
    ///
    /// ```
    /// use ledusprig::{Refusal, Rule, Value, Width};
    ///
    /// let three_quarters = Value { negative: false, m: 3, k: -2 };
    /// assert_eq!(Width::W16.write(Rule::Strict, three_quarters)?.word.take_binary64(), Some(0.75));
    /// # Ok::<(), Refusal>(())
    /// ```
    pub fn write(self, rule: Rule, value: Value) -> Result<Written<Takum>, Refusal> {
        self.written(calls::write(self.bits, rule, value))
    }

    /// The word for a whole number and which way it went, or [`Refusal::Inexact`] by the strict rule.
    pub fn write_whole(self, rule: Rule, x: i64) -> Result<Written<Takum>, Refusal> {
        self.written(calls::write_whole(self.bits, rule, x))
    }

    /// The word for a binary64 number and which way it went, or [`Refusal::Inexact`] by the strict rule. NaN and both infinities give NaR, both zeros
    /// give zero, and these are exact.
    pub fn write_binary64(self, rule: Rule, x: f64) -> Result<Written<Takum>, Refusal> {
        self.written(calls::write_binary64(self.bits, rule, x))
    }

    /// Moves a column of words of this width to another; see [`calls::move_column`].
    pub fn move_column(self, to: Width, rule: Rule, words: &[u64], results: &mut [u64]) -> Result<MovedColumn, ColumnRefusal> {
        calls::move_column(self.bits, to.bits, rule, words, results)
    }

    /// Writes words of this width as the sheet block of that number; see [`calls::write_block`].
    ///
    /// ```
    /// use ledusprig::{calls, Block, ColumnRefusal, Refusal, Takum, Width, BLOCK_SIZE, BLOCK_WORDS};
    ///
    /// let rows = [42_i64, 38, 516].map(|joints| Takum::try_from((Width::W16, joints)).unwrap().word());
    /// let mut block = [0; BLOCK_SIZE];
    /// Width::W16.write_block(7, &rows, &mut block)?;
    ///
    /// let mut words = [0; BLOCK_WORDS];
    /// assert_eq!(calls::read_block(&block, &mut words), Ok(Block { width: 16, number: 7, count: 3 }));
    /// assert_eq!(words[..3], rows);
    ///
    /// // a width that no block has, one that no block is written with any more, and a buffer that is no block
    /// assert_eq!(Width::LEAST.write_block(7, &[], &mut block), Err(ColumnRefusal::from(Refusal::Width)));
    /// assert_eq!(Width::W8.write_block(7, &[], &mut block), Err(ColumnRefusal::from(Refusal::Retired)));
    /// assert_eq!(Width::W16.write_block(7, &rows, &mut block[..511]), Err(ColumnRefusal::from(Refusal::Size)));
    /// # Ok::<(), ColumnRefusal>(())
    /// ```
    pub fn write_block(self, number: u32, words: &[u64], buffer: &mut [u8]) -> Result<(), ColumnRefusal> {
        calls::write_block(self.bits, number, words, buffer)
    }
}

impl Takum {
    /// A word of a width, or [`Refusal::Stray`] if it has a bit set at or above the width.
    pub fn new(width: Width, word: u64) -> Result<Takum, Refusal> {
        calls::negate(width.bits, word).map(|_| width.given(word))
    }

    /// Its width.
    #[must_use]
    pub const fn width(self) -> Width {
        self.width
    }

    /// Its bits, the low ones of 64; all others are zero.
    #[must_use]
    pub const fn word(self) -> u64 {
        self.word
    }

    /// Whether it is NaR, "not a real".
    #[must_use]
    pub fn is_nar(self) -> bool {
        self.read().kind == Kind::Nar
    }

    /// Whether it is zero.
    #[must_use]
    pub fn is_zero(self) -> bool {
        self.read().kind == Kind::Zero
    }

    /// Its value by its parts, and its own fraction bits.
    ///
    /// ```
    /// use ledusprig::{Refusal, Takum, Width};
    ///
    /// // 512 on a tag, 1 at the greatest width, and a void: how fine are they?
    /// assert_eq!(Takum::new(Width::W16, 0x5A00)?.read().own, 8);
    /// assert_eq!(Takum::try_from((Width::W64, 1_i64))?.read().own, 59);
    /// assert_eq!(Width::W16.nar().read().own, 0);
    /// # Ok::<(), Refusal>(())
    /// ```
    #[must_use]
    pub fn read(self) -> Reading {
        accepted(calls::read(self.width.bits, self.word))
    }

    /// The word of another width for its value and which way that went, or [`Refusal::Inexact`] by the strict rule. Going wider never changes a value,
    /// so it is always exact.
    ///
    /// ```
    /// use ledusprig::{Refusal, Rule, Saying, Takum, Width, Written};
    ///
    /// // 515 stays itself at 32 bits, and goes up to 516 at 16
    /// let tally = Takum::try_from((Width::W32, 515_i64))?;
    /// assert!(tally.move_to(Width::W64, Rule::Rounded)?.is_exact());
    /// let tag = Takum::try_from((Width::W16, 516_i64))?;
    /// assert_eq!(tally.move_to(Width::W16, Rule::Rounded)?, Written { word: tag, saying: Saying::Above });
    /// # Ok::<(), Refusal>(())
    /// ```
    ///
    /// Move directly: a rounded move by way of a narrower width need not give the same word, unless its first move says exact.
    ///
    /// ```
    /// use ledusprig::{Refusal, Rule, Value, Width};
    ///
    /// // 513 + 2^-20 goes to 514 at 16 bits, and by way of 32 bits to 512
    /// let length = Width::W64.write(Rule::Strict, Value { negative: false, m: (513 << 20) + 1, k: -20 })?.word;
    /// assert_eq!(length.move_to(Width::W16, Rule::Rounded)?.word.to_string(), "514");
    /// let bench = length.move_to(Width::W32, Rule::Rounded)?;
    /// assert!(!bench.is_exact());
    /// assert_eq!(bench.word.move_to(Width::W16, Rule::Rounded)?.word.to_string(), "512");
    /// # Ok::<(), Refusal>(())
    /// ```
    pub fn move_to(self, to: Width, rule: Rule) -> Result<Written<Takum>, Refusal> {
        to.written(calls::move_word(self.width.bits, to.bits, rule, self.word))
    }

    /// Its whole number, or [`Refusal::Nar`], [`Refusal::Over`] or, by the strict rule, [`Refusal::Inexact`].
    pub fn take_whole(self, taking: Taking) -> Result<i64, Refusal> {
        calls::take_whole(self.width.bits, taking, self.word)
    }

    /// Its binary64 number, none for NaR; see [`calls::take_binary64`].
    #[must_use]
    pub fn take_binary64(self) -> Option<f64> {
        accepted(calls::take_binary64(self.width.bits, self.word))
    }
}

/// The word with the negated value; zero and NaR stay.
impl Neg for Takum {
    type Output = Takum;

    fn neg(self) -> Takum {
        self.width.given(accepted(calls::negate(self.width.bits, self.word)))
    }
}

/// The order of values within one width, NaR below everything; words of two widths have none.
///
/// ```
/// use ledusprig::Width;
///
/// let width = Width::W16;
/// assert!(width.nar() < -width.largest() && width.smallest() < width.largest());
/// assert_eq!(width.nar().partial_cmp(&Width::W64.nar()), None);
/// ```
impl PartialOrd for Takum {
    fn partial_cmp(&self, other: &Takum) -> Option<Ordering> {
        if self.width != other.width {
            return None;
        }
        Some(accepted(calls::compare(self.width.bits, self.word, other.word)))
    }
}
