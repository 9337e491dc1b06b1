//! How widths, words and sayings are shown.
use crate::answers::{Kind, Reading, Saying, Taking};
use crate::words::{Takum, Width};
use core::fmt::{self, Alignment, Write};

/// Its number of bits.
impl fmt::Display for Width {
    fn fmt(&self, f: &mut fmt::Formatter<'_>) -> fmt::Result {
        self.bits().fmt(f)
    }
}

/// `exact`, `below`, `above` or `past the end`.
///
/// ```
/// use ledusprig::Saying;
///
/// assert_eq!(format!("{:<6}[{}]", Saying::Above, Saying::PastTheEnd), "above [past the end]");
/// ```
impl fmt::Display for Saying {
    fn fmt(&self, f: &mut fmt::Formatter<'_>) -> fmt::Result {
        f.pad(match self {
            Saying::Exact => "exact",
            Saying::Below => "below",
            Saying::Above => "above",
            Saying::PastTheEnd => "past the end",
        })
    }
}

/// Its value as a decimal number, `NaR` for NaR. A number without `~` is exactly the value; where its binary64 number has to be shown by the
/// fewest digits that tell it apart, which need not be all of them, `~` stands before it. [`Takum::read`] has the value exactly.
///
/// With a precision it has so many decimals: a whole number of 64 bits has zeros, any other value is its binary64 number rounded to so many, with
/// `~` before it unless that is exactly the value.
///
/// Width, fill and alignment, `+` and the `0` before a width do what they do for an `f64`, with `~` before the sign; but `NaR` gets no zeros.
///
/// ```
/// use ledusprig::{Refusal, Rule, Takum, Width};
///
/// let third = |width: Width| width.write_binary64(Rule::Rounded, 1.0 / 3.0).map(|written| written.word);
/// assert_eq!(Takum::new(Width::W16, 0x5A01)?.to_string(), "514");
/// assert_eq!(Takum::new(Width::W16, 0xBC00)?.to_string(), "-1.5");
/// assert_eq!(third(Width::W8)?.to_string(), "0.3125");
/// assert_eq!(third(Width::W32)?.to_string(), "~0.3333333320915699");
/// assert_eq!(format!("{:.2} {:.5}", third(Width::W8)?, third(Width::W8)?), "~0.31 0.31250");
/// assert_eq!(format!("{:+} {:08} {:5}", third(Width::W8)?, -third(Width::W8)?, Width::W16.nar()), "+0.3125 -00.3125   NaR");
/// # Ok::<(), Refusal>(())
/// ```
impl fmt::Display for Takum {
    fn fmt(&self, f: &mut fmt::Formatter<'_>) -> fmt::Result {
        let Some(number) = self.take_binary64() else {
            return pad(f, format_args!("NaR"));
        };
        let plus = if f.sign_plus() { "+" } else { "" };
        let (sign, size) = if number < 0.0 { ("-", -number) } else { (plus, number) };
        match (self.take_whole(Taking::Strict), f.precision()) {
            (Ok(whole), None | Some(0)) => pad_number(f, true, sign, format_args!("{}", whole.unsigned_abs())),
            (Ok(whole), Some(decimals)) => pad_number(f, true, sign, format_args!("{}.{:0<decimals$}", whole.unsigned_abs(), "")),
            (Err(_), None) => pad_number(f, is_short(self.read()), sign, format_args!("{size:?}")),
            (Err(_), Some(decimals)) => {
                let exact = Takum::try_from((self.width(), number)) == Ok(*self) && has_decimals(self.read(), decimals);
                pad_number(f, exact, sign, format_args!("{size:.decimals$}"))
            }
        }
    }
}

/// The size of a number that isn't zero as m * 2^k with m odd.
fn odd(reading: Reading) -> Option<(u64, i32)> {
    let Kind::Number { h, m, p, .. } = reading.kind else {
        return None;
    };
    let zeros = m.trailing_zeros();
    Some((m >> zeros, h - p as i32 + zeros as i32))
}

/// Whether a value that is no whole number has at most 15 decimal digits. Then they are the ones that an `f64` is shown by: no other number of
/// so few digits has the same binary64 number.
fn is_short(reading: Reading) -> bool {
    // 2^k is 5^-k / 10^-k
    odd(reading).is_some_and(|(m, k)| {
        let digits = (k..0).try_fold(m, |digits, _| digits.checked_mul(5));
        k < 0 && digits.is_some_and(|digits| digits < 1_000_000_000_000_000)
    })
}

/// Whether so many decimals are all that the value has. An odd number times 2^k, k below 0, has -k.
fn has_decimals(reading: Reading, decimals: usize) -> bool {
    odd(reading).is_some_and(|(_, k)| usize::try_from(-k).unwrap_or(0) <= decimals)
}

/// Puts a number into its field; the zeros of `{:08}` stand between its sign and its digits.
fn pad_number(f: &mut fmt::Formatter<'_>, exact: bool, sign: &str, digits: fmt::Arguments<'_>) -> fmt::Result {
    let mark = if exact { "" } else { "~" };
    let zeros = if f.sign_aware_zero_pad() { free(f, format_args!("{mark}{sign}{digits}"))? } else { 0 };
    pad(f, format_args!("{mark}{sign}{:0<zeros$}{digits}", ""))
}

/// Puts a text into its field as a number is put: at the right, unless told otherwise.
fn pad(f: &mut fmt::Formatter<'_>, text: fmt::Arguments<'_>) -> fmt::Result {
    let free = free(f, text)?;
    let before = match f.align() {
        Some(Alignment::Left) => 0,
        Some(Alignment::Center) => free / 2,
        _ => free,
    };
    fill(f, before)?;
    f.write_fmt(text)?;
    fill(f, free - before)
}

/// How many places of its field a text leaves free.
fn free(f: &fmt::Formatter<'_>, text: fmt::Arguments<'_>) -> Result<usize, fmt::Error> {
    let mut length = Length(0);
    length.write_fmt(text)?;
    Ok(f.width().unwrap_or(0).saturating_sub(length.0))
}

fn fill(f: &mut fmt::Formatter<'_>, places: usize) -> fmt::Result {
    let fill = f.fill();
    (0..places).try_for_each(|_| f.write_char(fill))
}

/// The length of what is written to it, since there is no place to keep that.
struct Length(usize);

impl Write for Length {
    fn write_str(&mut self, text: &str) -> fmt::Result {
        self.0 += text.len();
        Ok(())
    }
}

/// Its width and its word in hex.
///
/// ```
/// use ledusprig::{Refusal, Takum, Width};
///
/// assert_eq!(format!("{:?}", Takum::new(Width::W16, 0x5A01)?), "Takum { width: 16, word: 0x5a01 }");
/// # Ok::<(), Refusal>(())
/// ```
impl fmt::Debug for Takum {
    fn fmt(&self, f: &mut fmt::Formatter<'_>) -> fmt::Result {
        let word = self.word();
        f.debug_struct("Takum").field("width", &self.width().bits()).field("word", &format_args!("{word:#x}")).finish()
    }
}

macro_rules! as_the_word {
    ($($form:ident $example:literal;)*) => {$(
        /// Its word, as a `u64` is shown.
        ///
        /// ```
        /// use ledusprig::{Refusal, Takum, Width};
        ///
        /// let tally = Takum::new(Width::W16, 0x5A01)?;
        #[doc = $example]
        /// # Ok::<(), Refusal>(())
        /// ```
        impl fmt::$form for Takum {
            fn fmt(&self, f: &mut fmt::Formatter<'_>) -> fmt::Result {
                fmt::$form::fmt(&self.word(), f)
            }
        }
    )*};
}

as_the_word! {
    LowerHex r#"assert_eq!(format!("{tally:x} {tally:#x} {tally:06x}"), "5a01 0x5a01 005a01");"#;
    UpperHex r#"assert_eq!(format!("{tally:X} {tally:#X}"), "5A01 0x5A01");"#;
    Binary r#"assert_eq!(format!("{tally:b} {tally:#018b}"), "101101000000001 0b0101101000000001");"#;
}
