//! What calls are given and what they answer.

/// The size of a sheet block in bytes: `[0; BLOCK_SIZE]` is a buffer for one.
pub const BLOCK_SIZE: usize = 512;

/// The most words that a block has: a result slice of this length has room for every block.
pub const BLOCK_WORDS: usize = 496;

/// The word of zero, at every width. With its width it is [`Width::zero`](crate::Width::zero).
pub const ZERO: u64 = 0;

/// How a value becomes a word. The numbers are the archive's.
#[derive(Clone, Copy, Debug, PartialEq, Eq, Hash)]
pub enum Rule {
    /// Of the nonzero words with the value's sign the one nearest to it by value; of two that are equally near the one whose lowest bit is
    /// 0; past the ends the end word, never zero and never NaR. Zero gives zero.
    Rounded = 0,
    /// The word with exactly that value, or [`Refusal::Inexact`](crate::Refusal::Inexact).
    Strict = 1,
}

/// How a word becomes a whole number. The numbers are the archive's.
///
/// ```
/// use ledusprig::{Refusal, Rule, Taking, Width};
///
/// let taken = |x: f64, taking: Taking| Width::W16.write_binary64(Rule::Strict, x)?.word.take_whole(taking);
/// assert_eq!([2.5, 3.5, -2.5].map(|x| taken(x, Taking::Nearest)), [Ok(2), Ok(4), Ok(-2)]);
/// assert_eq!(taken(2.5, Taking::Strict), Err(Refusal::Inexact));
/// ```
#[derive(Clone, Copy, Debug, PartialEq, Eq, Hash)]
pub enum Taking {
    /// The whole number nearest to the value; of two that are equally near the even one.
    Nearest = 0,
    /// The value itself, or [`Refusal::Inexact`](crate::Refusal::Inexact) where it isn't whole.
    Strict = 1,
}

/// A value offered for writing: m * 2^k, or its negation; m = 0 is zero, whichever the sign.
#[derive(Clone, Copy, Debug, PartialEq, Eq, Hash)]
pub struct Value {
    /// Whether it is -m * 2^k.
    pub negative: bool,
    /// The significand, any number.
    pub m: u64,
    /// The exponent, any number.
    pub k: i32,
}

/// Which way a value went: where the word that was written for it, or that it was moved to, lies as seen from the value. Signs count: -512 is above
/// -513. The numbers are the archive's.
///
/// ```
/// use ledusprig::{Refusal, Rule, Saying, Value, Width};
///
/// let said = |x: i64| Width::W16.write_whole(Rule::Rounded, x).map(|written| written.saying);
/// assert_eq!([512, 513, 515].map(said), [Ok(Saying::Exact), Ok(Saying::Below), Ok(Saying::Above)]);
/// assert_eq!([-512, -513, -515].map(said), [Ok(Saying::Exact), Ok(Saying::Above), Ok(Saying::Below)]);
///
/// let far = Width::W16.write(Rule::Rounded, Value { negative: true, m: 1, k: 300 })?;
/// assert_eq!((far.word, far.saying), (-Width::W16.largest(), Saying::PastTheEnd));
/// # Ok::<(), Refusal>(())
/// ```
#[derive(Clone, Copy, Debug, PartialEq, Eq, Hash)]
pub enum Saying {
    /// The word has exactly the value. Zero and NaR are exact, and so is every word that the strict rule gives.
    Exact = 0,
    /// The word is below the value.
    Below = 1,
    /// The word is above the value.
    Above = 2,
    /// The size is beyond the largest word, or isn't zero and is short of the smallest one, and the word is the end word. This is said in place of
    /// `Below` and `Above`, since an end word may be any distance away.
    PastTheEnd = 3,
}

impl Saying {
    /// That of the archive's number. A number that there isn't, as a newer archive may give one, is taken as past the end, which says least.
    pub(crate) fn of(number: u32) -> Saying {
        let near = [Saying::Exact, Saying::Below, Saying::Above];
        near.into_iter().find(|&saying| saying as u32 == number).unwrap_or(Saying::PastTheEnd)
    }
}

/// A word that was written or moved, and which way the value went. The word is a number in [`calls`](crate::calls), and a [`Takum`](crate::Takum) by
/// the calls of [`Width`](crate::Width) and `Takum`.
///
/// ```
/// use ledusprig::{calls, Refusal, Rule, Saying, Width, Written};
///
/// // A clerk sees 512. Were there 512 joints, or 513?
/// let [true_512, from_513] = [512, 513].map(|joints| Width::W16.write_whole(Rule::Rounded, joints).unwrap());
/// assert_eq!(true_512.word, from_513.word);
/// assert!(true_512.is_exact() && !from_513.is_exact());
///
/// assert_eq!(calls::write_whole(16, Rule::Rounded, 513)?, Written { word: 0x5A00, saying: Saying::Below });
/// # Ok::<(), Refusal>(())
/// ```
#[derive(Clone, Copy, Debug, PartialEq, Eq, Hash)]
pub struct Written<Word = u64> {
    /// The word.
    pub word: Word,
    /// Which way the value went.
    pub saying: Saying,
}

impl<Word> Written<Word> {
    /// Whether the word has exactly the value.
    #[must_use]
    pub const fn is_exact(&self) -> bool {
        matches!(self.saying, Saying::Exact)
    }
}

/// How many words of a column were moved, and how many of these have kept their value.
#[derive(Clone, Copy, Debug, PartialEq, Eq, Hash)]
pub struct MovedColumn {
    /// How many words were moved: all of the column.
    pub moved: usize,
    /// How many of these are [`Saying::Exact`]: zero and NaR are, and by the strict rule, or to a width that isn't narrower, all of them.
    pub exact: usize,
}

/// The value of a word, and how fine it is.
///
/// ```
/// use ledusprig::{calls, Kind, Reading, Refusal};
///
/// // -1.5 is -3072 * 2^(0 - 11)
/// assert_eq!(calls::read(16, 0xBC00), Ok(Reading { kind: Kind::Number { negative: true, h: 0, m: 3072, p: 11 }, own: 11 }));
/// assert_eq!(calls::read(16, 0x8000), Ok(Reading { kind: Kind::Nar, own: 0 }));
///
/// // 4 of the 7 fraction bits of 1 at width 8 are appended zeros
/// let one = calls::read(8, 0x40)?;
/// assert_eq!((one.kind, one.own), (Kind::Number { negative: false, h: 0, m: 128, p: 7 }, 3));
/// # Ok::<(), Refusal>(())
/// ```
#[derive(Clone, Copy, Debug, PartialEq, Eq, Hash)]
pub struct Reading {
    /// What the word is.
    pub kind: Kind,
    /// How many fraction bits are the word's own: `p` less the zero bits that were appended, which are no precision, or 0 where that would be
    /// negative. So it never exceeds `p`, and from width 12 on it is `p`. Zero and NaR have 0. It is a count of the word's bits: a move to a wider
    /// width keeps the value and can raise it, and a word and its negation can differ (2 at width 16 has 10, -2 has 11).
    pub own: u32,
}

/// What a word is: zero, NaR, or a number by its parts.
#[derive(Clone, Copy, Debug, PartialEq, Eq, Hash)]
pub enum Kind {
    /// Zero.
    Zero,
    /// NaR, "not a real".
    Nar,
    /// A number that isn't zero, of the size m * 2^(h - p), with 2^p <= m < 2^(p + 1).
    Number {
        /// Its sign.
        negative: bool,
        /// The exponent of the greatest power of two that is not above the size.
        h: i32,
        /// The significand.
        m: u64,
        /// The number of fraction bits; of a word of fewer than 12 bits, with zero bits appended up to 12.
        p: u32,
    },
}

/// What a sheet block says of itself; its words are in the results.
#[derive(Clone, Copy, Debug, PartialEq, Eq, Hash)]
pub struct Block {
    /// The width of its words in bits: 8, 16, 32 or 64.
    pub width: u32,
    /// The block's number.
    pub number: u32,
    /// How many words it has.
    pub count: u32,
}

#[cfg(test)]
mod tests {
    use super::Saying;

    #[test]
    fn the_archives_numbers_are_sayings_and_any_other_says_least() {
        let sayings = [Saying::Exact, Saying::Below, Saying::Above, Saying::PastTheEnd];
        for (saying, number) in sayings.into_iter().zip(0..) {
            assert_eq!((Saying::of(number), saying as u32), (saying, number));
        }
        for number in [4, 5, 0x8000_0000, u32::MAX] {
            assert_eq!(Saying::of(number), Saying::PastTheEnd);
        }
    }
}
