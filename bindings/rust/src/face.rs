//! The archive's functions as crates/ledusprig exports them. include/ledusprig.h says what each answers.

#[repr(C)]
pub struct WordAnswer {
    pub refusal: u32,
    pub word: u64,
}

#[repr(C)]
pub struct SayingAnswer {
    pub refusal: u32,
    pub saying: u32,
    pub word: u64,
}

#[repr(C)]
pub struct ReadingAnswer {
    pub refusal: u32,
    pub kind: u32,
    pub negative: bool,
    pub h: i32,
    pub m: u64,
    pub p: u32,
    pub own: u32,
}

/// The values of `kind`; any other is that of a number.
pub const KIND_ZERO: u32 = 0;
pub const KIND_NAR: u32 = 1;

#[repr(C)]
pub struct OrderAnswer {
    pub refusal: u32,
    pub order: i32,
}

#[repr(C)]
pub struct LimitAnswer {
    pub refusal: u32,
    pub limit: u64,
}

#[repr(C)]
pub struct WidthAnswer {
    pub refusal: u32,
    pub width: u32,
}

#[repr(C)]
pub struct WholeAnswer {
    pub refusal: u32,
    pub whole: i64,
}

#[repr(C)]
pub struct NumberAnswer {
    pub refusal: u32,
    pub real: bool,
    pub number: f64,
}

#[repr(C)]
pub struct ColumnAnswer {
    pub refusal: u32,
    pub position: usize,
    pub moved: usize,
    pub exact: usize,
}

#[repr(C)]
pub struct BlockAnswer {
    pub refusal: u32,
    pub width: u32,
    pub number: u32,
    pub count: u32,
}

#[repr(C)]
pub struct WrittenAnswer {
    pub refusal: u32,
    pub position: usize,
}

extern "C" {
    pub fn takum_largest(n: u32) -> WordAnswer;
    pub fn takum_smallest(n: u32) -> WordAnswer;
    pub fn takum_nar(n: u32) -> WordAnswer;
    pub fn takum_limit(n: u32) -> LimitAnswer;
    pub fn takum_read(n: u32, word: u64) -> ReadingAnswer;
    pub fn takum_compare(n: u32, x: u64, y: u64) -> OrderAnswer;
    pub fn takum_negate(n: u32, word: u64) -> WordAnswer;
    pub fn takum_write(n: u32, rule: u32, negative: bool, m: u64, k: i32) -> SayingAnswer;
    pub fn takum_move(from: u32, to: u32, rule: u32, word: u64) -> SayingAnswer;
    pub fn takum_write_whole(n: u32, rule: u32, x: i64) -> SayingAnswer;
    pub fn takum_take_whole(n: u32, taking: u32, word: u64) -> WholeAnswer;
    pub fn takum_shortest_width(x: i64) -> WidthAnswer;
    pub fn takum_write_binary64(n: u32, rule: u32, x: f64) -> SayingAnswer;
    pub fn takum_take_binary64(n: u32, word: u64) -> NumberAnswer;
    pub fn takum_move_column(
        from: u32,
        to: u32,
        rule: u32,
        words: *const u64,
        words_length: usize,
        results: *mut u64,
        results_length: usize,
    ) -> ColumnAnswer;
    pub fn takum_read_block(block: *const u8, block_length: usize, results: *mut u64, results_length: usize) -> BlockAnswer;
    pub fn takum_write_block(
        width: u32,
        number: u32,
        words: *const u64,
        words_length: usize,
        buffer: *mut u8,
        buffer_length: usize,
    ) -> WrittenAnswer;
}
