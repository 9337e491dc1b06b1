// What both sides hand over: the structs of crates/ledusprig/src/handed/, and the plain version's answers as such.
use crate::plain::block::Header;
use crate::plain::column::Moved;
use crate::plain::reading::{Kind, Reading};
use crate::plain::Written;

#[repr(C)]
#[derive(Clone, Copy)]
pub struct HandedSaying {
    pub refusal: u32,
    pub saying: u32,
    pub word: u64,
}

#[repr(C)]
#[derive(Clone, Copy)]
pub struct HandedReading {
    pub refusal: u32,
    pub kind: u32,
    pub negative: bool,
    pub h: i32,
    pub m: u64,
    pub p: u32,
    pub own: u32,
}

#[repr(C)]
#[derive(Clone, Copy)]
pub struct HandedWhole {
    pub refusal: u32,
    pub whole: i64,
}

#[repr(C)]
#[derive(Clone, Copy)]
pub struct HandedWidth {
    pub refusal: u32,
    pub width: u32,
}

#[repr(C)]
#[derive(Clone, Copy)]
pub struct HandedNumber {
    pub refusal: u32,
    pub real: bool,
    pub number: f64,
}

#[repr(C)]
#[derive(Clone, Copy)]
pub struct HandedColumn {
    pub refusal: u32,
    pub position: usize,
    pub moved: usize,
    pub exact: usize,
}

#[repr(C)]
#[derive(Clone, Copy)]
pub struct HandedBlock {
    pub refusal: u32,
    pub width: u32,
    pub number: u32,
    pub count: u32,
}

#[repr(C)]
#[derive(Clone, Copy)]
pub struct HandedWriting {
    pub refusal: u32,
    pub position: usize,
}

impl From<Result<Written, u32>> for HandedSaying {
    #[inline(always)]
    fn from(answer: Result<Written, u32>) -> Self {
        match answer {
            Ok(Written { word, saying }) => HandedSaying { refusal: 0, saying, word },
            Err(refusal) => HandedSaying { refusal, saying: 0, word: 0 },
        }
    }
}

impl From<Result<Reading, u32>> for HandedReading {
    #[inline(always)]
    fn from(answer: Result<Reading, u32>) -> Self {
        let none = HandedReading { refusal: 0, kind: 0, negative: false, h: 0, m: 0, p: 0, own: 0 };
        match answer {
            Ok(Reading { kind: Kind::Zero, own }) => HandedReading { own, ..none },
            Ok(Reading { kind: Kind::Nar, own }) => HandedReading { kind: 1, own, ..none },
            Ok(Reading { kind: Kind::Number { negative, h, m, p }, own }) => HandedReading { refusal: 0, kind: 2, negative, h, m, p, own },
            Err(refusal) => HandedReading { refusal, ..none },
        }
    }
}

impl From<Result<i64, u32>> for HandedWhole {
    #[inline(always)]
    fn from(answer: Result<i64, u32>) -> Self {
        match answer {
            Ok(whole) => HandedWhole { refusal: 0, whole },
            Err(refusal) => HandedWhole { refusal, whole: 0 },
        }
    }
}

impl From<Result<u32, u32>> for HandedWidth {
    #[inline(always)]
    fn from(answer: Result<u32, u32>) -> Self {
        match answer {
            Ok(width) => HandedWidth { refusal: 0, width },
            Err(refusal) => HandedWidth { refusal, width: 0 },
        }
    }
}

impl From<Result<Option<f64>, u32>> for HandedNumber {
    #[inline(always)]
    fn from(answer: Result<Option<f64>, u32>) -> Self {
        match answer {
            Ok(Some(number)) => HandedNumber { refusal: 0, real: true, number },
            Ok(None) => HandedNumber { refusal: 0, real: false, number: f64::NAN },
            Err(refusal) => HandedNumber { refusal, real: false, number: 0.0 },
        }
    }
}

impl From<Result<Moved, (u32, Option<usize>)>> for HandedColumn {
    #[inline(always)]
    fn from(answer: Result<Moved, (u32, Option<usize>)>) -> Self {
        match answer {
            Ok(Moved { moved, exact }) => HandedColumn { refusal: 0, position: 0, moved, exact },
            Err((refusal, position)) => HandedColumn { refusal, position: position.unwrap_or(0), moved: 0, exact: 0 },
        }
    }
}

impl From<Result<Header, u32>> for HandedBlock {
    #[inline(always)]
    fn from(answer: Result<Header, u32>) -> Self {
        match answer {
            Ok(header) => HandedBlock { refusal: 0, width: header.width, number: header.number, count: header.count as u32 },
            Err(refusal) => HandedBlock { refusal, width: 0, number: 0, count: 0 },
        }
    }
}

impl From<Result<(), (u32, Option<usize>)>> for HandedWriting {
    #[inline(always)]
    fn from(answer: Result<(), (u32, Option<usize>)>) -> Self {
        match answer {
            Ok(()) => HandedWriting { refusal: 0, position: 0 },
            Err((refusal, position)) => HandedWriting { refusal, position: position.unwrap_or(0) },
        }
    }
}

// What is given and what is handed over, as rows of numbers, so that all can be compared and printed alike.
pub trait Parts: Copy {
    fn parts(self) -> [u64; 4];

    // In one number, for the checksums of the timed rounds.
    #[inline(always)]
    fn bits(self) -> u64 {
        let [a, b, c, d] = self.parts();
        a.rotate_left(48) ^ b ^ c.rotate_left(16) ^ d.rotate_left(32)
    }
}

impl Parts for u64 {
    #[inline(always)]
    fn parts(self) -> [u64; 4] {
        [0, self, 0, 0]
    }
}

impl Parts for i64 {
    #[inline(always)]
    fn parts(self) -> [u64; 4] {
        [0, self as u64, 0, 0]
    }
}

impl Parts for f64 {
    #[inline(always)]
    fn parts(self) -> [u64; 4] {
        [0, self.to_bits(), 0, 0]
    }
}

impl Parts for HandedSaying {
    #[inline(always)]
    fn parts(self) -> [u64; 4] {
        [self.refusal as u64, self.word, self.saying as u64, 0]
    }
}

impl Parts for HandedReading {
    #[inline(always)]
    fn parts(self) -> [u64; 4] {
        let pair = |low: u32, high: u32| low as u64 | (high as u64) << 32;
        [pair(self.refusal, self.kind), self.m, pair(self.h as u32, self.negative as u32), pair(self.p, self.own)]
    }

    // Field by field. A pair of them would be loaded at once, and a processor waits for that where they were stored one by one.
    #[inline(always)]
    fn bits(self) -> u64 {
        let fields = [self.refusal, self.kind, self.negative as u32, self.h as u32, self.p, self.own];
        fields.iter().fold(self.m, |bits, &field| bits.rotate_left(7) ^ field as u64)
    }
}

impl Parts for HandedWhole {
    #[inline(always)]
    fn parts(self) -> [u64; 4] {
        [self.refusal as u64, self.whole as u64, 0, 0]
    }
}

impl Parts for HandedWidth {
    #[inline(always)]
    fn parts(self) -> [u64; 4] {
        [self.refusal as u64, self.width as u64, 0, 0]
    }
}

impl Parts for HandedNumber {
    #[inline(always)]
    fn parts(self) -> [u64; 4] {
        [self.refusal as u64, self.number.to_bits(), self.real as u64, 0]
    }
}

impl Parts for HandedColumn {
    #[inline(always)]
    fn parts(self) -> [u64; 4] {
        [self.refusal as u64, self.position as u64, self.moved as u64, self.exact as u64]
    }
}

impl Parts for HandedBlock {
    #[inline(always)]
    fn parts(self) -> [u64; 4] {
        [self.refusal as u64, self.width as u64, self.number as u64, self.count as u64]
    }
}

impl Parts for HandedWriting {
    #[inline(always)]
    fn parts(self) -> [u64; 4] {
        [self.refusal as u64, self.position as u64, 0, 0]
    }
}
