//! The digest of a line, and how it takes an answer in (docs/CENSUS.md); written from the papers alone.

use crate::words::reading::{Kind, Reading};
use crate::words::refusals::Refusal;
use crate::words::sequence::{scramble, D0};
use crate::writing::answers::{Answer, Answers};

/// The digest of one line.
pub struct Digest(u64);

impl Digest {
    pub fn new() -> Digest {
        Digest(D0)
    }

    pub fn take(&mut self, x: u64) {
        self.0 = scramble(self.0.wrapping_add(x));
    }

    fn take_signed(&mut self, z: i64) {
        if z >= 0 {
            self.take(0);
            self.take(z as u64);
        } else {
            self.take(1);
            self.take((-1 - z) as u64);
        }
    }

    pub fn take_refusal(&mut self, refusal: Refusal) {
        self.take(3);
        self.take(refusal as u64);
    }

    /// A word that is neither written nor moved, a width (a shortest width too) or a limit.
    pub fn take_number(&mut self, answer: Result<u64, Refusal>) {
        match answer {
            Err(refusal) => self.take_refusal(refusal),
            Ok(number) => {
                self.take(0);
                self.take(number);
            }
        }
    }

    /// A comparison or a whole number.
    pub fn take_signed_number(&mut self, answer: Result<i64, Refusal>) {
        match answer {
            Err(refusal) => self.take_refusal(refusal),
            Ok(number) => {
                self.take(0);
                self.take_signed(number);
            }
        }
    }

    pub fn take_reading(&mut self, answer: Result<Reading, Refusal>) {
        match answer {
            Err(refusal) => self.take_refusal(refusal),
            Ok(reading) => {
                self.take_kind(reading.kind);
                self.take(reading.own_fraction_bits as u64);
            }
        }
    }

    fn take_kind(&mut self, kind: Kind) {
        match kind {
            Kind::Zero => self.take(0),
            Kind::NaR => self.take(1),
            Kind::Number { minus, h, m, p } => {
                self.take(2);
                self.take(u64::from(minus));
                self.take_signed(h);
                self.take(m);
                self.take(p as u64);
            }
        }
    }

    /// "A word that was written or moved": the word, then the number of its saying.
    pub fn take_answer(&mut self, answer: Result<Answer, Refusal>) {
        self.take_number(answer.map(|answer| answer.word));
        if let Ok(answer) = answer {
            self.take(answer.saying as u64);
        }
    }

    /// First the rounded answer, then the strict one.
    pub fn take_answers(&mut self, answers: Answers) {
        self.take_answer(answers.rounded);
        self.take_answer(answers.strict);
    }

    /// 16 lower-case hex digits.
    pub fn text(&self) -> String {
        format!("{:016x}", self.0)
    }
}
