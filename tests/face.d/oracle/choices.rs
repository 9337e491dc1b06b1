//! Pseudo-random choices of widths, words, values and numbers, the edges among them.
use crate::exact::number::Whole;
use crate::numbers::binary64::{finest, nearest_pattern, with_sign, INFINITY, NAN};
use crate::numbers::whole::whole_in;
use crate::words::refusals::{make_width, BAD_WIDTHS};
use crate::words::sequence::{low_bits, Sequence};
use crate::words::widths::{exact_count_limit, largest_word, nar_word};
use crate::writing::answers::{write, write_number};
use crate::writing::around::{beside, itself, midpoint_above, Pair};
use crate::writing::nearest::value_of;
use crate::writing::offers::{Offer, FINE_SCALE};

pub struct Choices(Sequence);

impl Choices {
    pub fn new(start: u32) -> Choices {
        Choices(Sequence::new(start))
    }

    pub fn number(&mut self) -> u64 {
        self.0.next_number()
    }

    /// A number below `count`.
    pub fn below(&mut self, count: u64) -> u64 {
        self.number() % count
    }

    /// True in one of `count` choices.
    pub fn once_in(&mut self, count: u64) -> bool {
        self.below(count) == 0
    }

    pub fn one_of<T: Copy>(&mut self, these: &[T]) -> T {
        these[self.below(these.len() as u64) as usize]
    }

    pub fn good_width(&mut self) -> u32 {
        2 + self.below(63) as u32
    }

    /// A width, seldom a bad one.
    pub fn width(&mut self) -> u32 {
        if self.once_in(24) {
            self.one_of(&BAD_WIDTHS)
        } else {
            self.good_width()
        }
    }

    /// A word of a width: any, or one of a few digits, of a whole number, at an edge, or with stray bits; at a bad width any number.
    pub fn word(&mut self, width: u32) -> u64 {
        if make_width(width).is_err() {
            return self.number();
        }
        match self.below(16) {
            0 if width < 64 => self.number() | 1 << (u64::from(width) + self.below(u64::from(64 - width))),
            1 => {
                let nar = nar_word(width).unwrap();
                let edge = self.one_of(&[0, 1, nar / 2, nar - 1, nar, nar + 1]);
                low_bits(if self.once_in(2) { edge } else { edge.wrapping_neg() }, width)
            }
            2..=5 => {
                let whole = self.whole();
                whole_in(width, whole).rounded.unwrap().word
            }
            6..=9 => {
                let narrow = 2 + self.below(u64::from(width) - 1) as u32;
                self.0.next_word(narrow) << (width - narrow)
            }
            _ => self.0.next_word(width),
        }
    }

    /// The word of i and a half, of either sign, or one beside it: the words drawn above are hardly ever halves. At a bad width any number.
    pub fn half(&mut self, width: u32) -> u64 {
        let Ok(limit) = exact_count_limit(width) else {
            return self.number();
        };
        // Up to the limit every whole number has a word, and half of one has a word too (not so at the narrowest widths, where it is rounded).
        let odd = u128::from(self.number() >> self.below(64)) % u128::from(limit) | 1;
        let offer = Offer { minus: self.once_in(2), m: odd, k: -1 };
        let word = write(width, &offer).rounded.unwrap().word;
        low_bits(word.wrapping_add(self.one_of(&[0, 0, 1, u64::MAX])), width)
    }

    /// A word to move that has the value of a word of the target width, mostly of an end, or lies halfway between two of them, of either sign, or one
    /// beside it: the words drawn above hardly ever do. At a bad width any number.
    pub fn edge_to_move(&mut self, from: u32, to: u32) -> u64 {
        if make_width(from).is_err() || make_width(to).is_err() {
            return self.number();
        }
        let size = if self.once_in(3) { self.midpoint(to) } else { self.value(to) };
        let number = if self.once_in(2) { size } else { size.negated() };
        let word = write_number(from, &number).rounded.unwrap().word;
        low_bits(word.wrapping_add(self.one_of(&[0, 1, u64::MAX])), from)
    }

    /// A width whose largest word is 1, 2^15 or 2^63, and a whole number at that end or beside it, of either sign. The other widths end past all
    /// whole numbers.
    pub fn whole_at_end(&mut self) -> (u32, i64) {
        let (width, end) = self.one_of(&[(2, 1), (3, 1 << 15), (4, i64::MIN)]);
        let end = if self.once_in(2) { end } else { end.wrapping_neg() };
        (width, end.wrapping_add(self.below(5) as i64 - 2))
    }

    /// A whole number halfway between two words of a width, of either sign; where the midpoint chosen isn't whole or is too large, another one. At a
    /// bad width any.
    pub fn whole_halfway(&mut self, width: u32) -> i64 {
        let whole = self.whole();
        let Ok(near) = whole_in(width, whole.saturating_abs().max(1)).rounded else {
            return whole;
        };
        if near.word == largest_word(width).unwrap() {
            return whole;
        }
        let halfway = midpoint_above(width, near.word).cut_by_power_of_two(FINE_SCALE).to_signed().unwrap_or(whole);
        if self.once_in(2) {
            halfway
        } else {
            halfway.wrapping_neg()
        }
    }

    /// A whole number of any length; seldom one at an edge.
    pub fn whole(&mut self) -> i64 {
        let shift = self.below(64);
        match self.below(8) {
            0 => self.one_of(&[i64::MIN, i64::MIN + 1, i64::MAX, i64::MAX - 1, 0, 1, -1]),
            1 => (1_i64 << (shift % 63)).wrapping_add(self.below(5) as i64 - 2),
            _ => self.number() as i64 >> shift,
        }
    }

    /// A whole number to find the shortest width of: any, a power of two, a small tally, or one with zeros at its end, half of these so long that they
    /// need about 64 bits. Of either sign.
    pub fn whole_to_fit(&mut self) -> i64 {
        let size = match self.below(8) {
            0 | 1 => self.whole(),
            2 => 1 << self.below(64),
            3 => self.below(2050) as i64,
            4 | 5 => {
                let length = 1 + self.below(63);
                let zeros = self.below(length);
                self.ending_in_zeros(length, zeros)
            }
            _ => {
                let (length, zeros) = (55 + self.below(9), self.below(10));
                self.ending_in_zeros(length, zeros)
            }
        };
        if self.once_in(2) {
            size
        } else {
            size.wrapping_neg()
        }
    }

    /// A positive number of `length` bits, of which the last `zeros` are zero and the one before them isn't.
    fn ending_in_zeros(&mut self, length: u64, zeros: u64) -> i64 {
        let any = self.number() >> (64 - length);
        let ends = 1 << (length - 1) | 1 << zeros;
        ((any | ends) >> zeros << zeros) as i64
    }

    /// The midpoint between two neighbouring positive words, held times 2^400.
    fn midpoint(&mut self, width: u32) -> Whole {
        let largest = largest_word(width).unwrap();
        let a = if largest == 1 { 0 } else { 1 + self.below(largest - 1) };
        midpoint_above(width, a)
    }

    /// The value of a positive word, held times 2^400; mostly that of an end word.
    fn value(&mut self, width: u32) -> Whole {
        let largest = largest_word(width).unwrap();
        let word = if self.once_in(4) { 1 + self.below(largest) } else { self.one_of(&[1, largest]) };
        value_of(width, word)
    }

    /// A size as an offer, if it is one, or one of the offers beside it.
    fn on_or_beside(&mut self, size: &Whole) -> Pair {
        match self.below(3) {
            0 => itself(size).unwrap_or_else(|| beside(size).below),
            1 => beside(size).below,
            _ => beside(size).above,
        }
    }

    /// A significand of any length.
    fn significand(&mut self) -> u128 {
        u128::from(self.number() >> self.below(64))
    }

    /// A value to write: any, one on or beside a midpoint between two words or the value of one, or one with any exponent.
    pub fn offer(&mut self, width: u32) -> Offer {
        let minus = self.once_in(2);
        let (m, k) = match self.below(10) {
            0 | 1 if make_width(width).is_ok() => {
                let midpoint = self.midpoint(width);
                self.on_or_beside(&midpoint)
            }
            4 | 5 if make_width(width).is_ok() => {
                let value = self.value(width);
                self.on_or_beside(&value)
            }
            2 => (self.significand(), self.number() as i32 >> self.below(32)),
            3 => (u128::from(self.one_of(&[0, 1, u64::MAX, 1 << 63])), self.one_of(&[i32::MIN, -308, -307, -255, 0, 191, 254, 255, i32::MAX])),
            _ => (self.significand(), self.below(640) as i32 - 352),
        };
        Offer { minus, m, k }
    }

    /// The pattern of a binary64 number: any, one in the range of words, one on or beside a midpoint between two words or the value of one, or a
    /// special one.
    pub fn pattern(&mut self, width: u32) -> u64 {
        let minus = self.once_in(2);
        let size = match self.below(10) {
            0 => self.number() >> 1,
            1 => self.one_of(&[0, 1, (1 << 52) - 1, 1 << 52, INFINITY - 1, INFINITY, INFINITY + 1, NAN]),
            2..=4 if make_width(width).is_ok() => {
                let midpoint = self.midpoint(width);
                nearest_pattern(&finest(&midpoint)) - 1 + self.below(3)
            }
            5 | 6 if make_width(width).is_ok() => {
                let value = self.value(width);
                nearest_pattern(&finest(&value)) - 1 + self.below(3)
            }
            _ => ((1023 - 260 + self.below(520)) << 52) + ((self.number() >> 12) & u64::MAX << self.below(53)),
        };
        with_sign(minus, size)
    }
}
