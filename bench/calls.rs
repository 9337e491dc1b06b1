// The calls of the three sides: the library, the plain version and an empty call, which tells what the loop and the call cost by themselves.
// All are called through a pointer, so none is inlined into the loop.
use crate::handed::{HandedBlock, HandedColumn, HandedNumber, HandedReading, HandedSaying, HandedWhole, HandedWidth, HandedWriting};
use crate::plain;
use std::slice::{from_raw_parts, from_raw_parts_mut};

pub type Write = unsafe extern "C" fn(u32, u32, bool, u64, i32) -> HandedSaying;
pub type Move = unsafe extern "C" fn(u32, u32, u32, u64) -> HandedSaying;
// Something of one width in, or a word of it out: by a rule, or where there is none.
pub type ByRule<T, R> = unsafe extern "C" fn(u32, u32, T) -> R;
pub type Outright<T, R> = unsafe extern "C" fn(u32, T) -> R;
pub type ShortestWidth = unsafe extern "C" fn(i64) -> HandedWidth;
// A lent slice is a pointer and a length.
pub type MoveColumn = unsafe extern "C" fn(u32, u32, u32, *const u64, usize, *mut u64, usize) -> HandedColumn;
pub type ReadBlock = unsafe extern "C" fn(*const u8, usize, *mut u64, usize) -> HandedBlock;
pub type WriteBlock = unsafe extern "C" fn(u32, u32, *const u64, usize, *mut u8, usize) -> HandedWriting;

// crates/ledusprig
extern "C" {
    fn takum_read(n: u32, word: u64) -> HandedReading;
    fn takum_write(n: u32, rule: u32, negative: bool, m: u64, k: i32) -> HandedSaying;
    fn takum_move(from: u32, to: u32, rule: u32, word: u64) -> HandedSaying;
    fn takum_write_whole(n: u32, rule: u32, x: i64) -> HandedSaying;
    fn takum_take_whole(n: u32, taking: u32, word: u64) -> HandedWhole;
    fn takum_shortest_width(x: i64) -> HandedWidth;
    fn takum_write_binary64(n: u32, rule: u32, x: f64) -> HandedSaying;
    fn takum_take_binary64(n: u32, word: u64) -> HandedNumber;
    fn takum_move_column(from: u32, to: u32, rule: u32, words: *const u64, count: usize, results: *mut u64, room: usize) -> HandedColumn;
    fn takum_read_block(block: *const u8, size: usize, results: *mut u64, room: usize) -> HandedBlock;
    fn takum_write_block(width: u32, number: u32, words: *const u64, count: usize, buffer: *mut u8, size: usize) -> HandedWriting;
}

pub const READ: [Outright<u64, HandedReading>; 3] = [takum_read, plain_read, empty_read];
pub const WRITE: [Write; 3] = [takum_write, plain_write, empty_write];
pub const MOVE: [Move; 3] = [takum_move, plain_move, empty_move];
pub const WRITE_WHOLE: [ByRule<i64, HandedSaying>; 3] = [takum_write_whole, plain_write_whole, empty_write_whole];
pub const TAKE_WHOLE: [ByRule<u64, HandedWhole>; 3] = [takum_take_whole, plain_take_whole, empty_take_whole];
pub const SHORTEST_WIDTH: [ShortestWidth; 3] = [takum_shortest_width, plain_shortest_width, empty_shortest_width];
pub const WRITE_BINARY64: [ByRule<f64, HandedSaying>; 3] = [takum_write_binary64, plain_write_binary64, empty_write_binary64];
pub const TAKE_BINARY64: [Outright<u64, HandedNumber>; 3] = [takum_take_binary64, plain_take_binary64, empty_take_binary64];
pub const MOVE_COLUMN: [MoveColumn; 3] = [takum_move_column, plain_move_column, empty_move_column];
pub const READ_BLOCK: [ReadBlock; 3] = [takum_read_block, plain_read_block, empty_read_block];
pub const WRITE_BLOCK: [WriteBlock; 3] = [takum_write_block, plain_write_block, empty_write_block];

extern "C" fn plain_read(n: u32, word: u64) -> HandedReading {
    plain::reading::read_word(n, word).into()
}

extern "C" fn plain_write(n: u32, rule: u32, negative: bool, m: u64, k: i32) -> HandedSaying {
    plain::write(n, rule != 0, negative, m, k).into()
}

extern "C" fn plain_move(from: u32, to: u32, rule: u32, word: u64) -> HandedSaying {
    plain::move_word(from, to, rule != 0, word).into()
}

extern "C" fn plain_write_whole(n: u32, rule: u32, x: i64) -> HandedSaying {
    plain::whole::write_whole(n, rule != 0, x).into()
}

extern "C" fn plain_take_whole(n: u32, rule: u32, word: u64) -> HandedWhole {
    plain::whole::take_whole(n, rule != 0, word).into()
}

extern "C" fn plain_shortest_width(x: i64) -> HandedWidth {
    plain::whole::shortest_width(x).into()
}

extern "C" fn plain_write_binary64(n: u32, rule: u32, x: f64) -> HandedSaying {
    plain::binary64::write_binary64(n, rule != 0, x).into()
}

extern "C" fn plain_take_binary64(n: u32, word: u64) -> HandedNumber {
    plain::binary64::take_binary64(n, word).into()
}

unsafe extern "C" fn plain_move_column(from: u32, to: u32, rule: u32, words: *const u64, count: usize, results: *mut u64, room: usize) -> HandedColumn {
    plain::column::move_column(from, to, rule != 0, from_raw_parts(words, count), from_raw_parts_mut(results, room)).into()
}

unsafe extern "C" fn plain_read_block(block: *const u8, size: usize, results: *mut u64, room: usize) -> HandedBlock {
    plain::block::read_block(from_raw_parts(block, size), from_raw_parts_mut(results, room)).into()
}

unsafe extern "C" fn plain_write_block(width: u32, number: u32, words: *const u64, count: usize, buffer: *mut u8, size: usize) -> HandedWriting {
    plain::block::write_block(width, number, from_raw_parts(words, count), from_raw_parts_mut(buffer, size)).into()
}

extern "C" fn empty_read(_n: u32, word: u64) -> HandedReading {
    HandedReading { refusal: 0, kind: 2, negative: false, h: 0, m: word, p: 0, own: 0 }
}

extern "C" fn empty_write(_n: u32, _rule: u32, _negative: bool, m: u64, _k: i32) -> HandedSaying {
    HandedSaying { refusal: 0, saying: 0, word: m }
}

extern "C" fn empty_move(_from: u32, _to: u32, _rule: u32, word: u64) -> HandedSaying {
    HandedSaying { refusal: 0, saying: 0, word }
}

extern "C" fn empty_write_whole(_n: u32, _rule: u32, x: i64) -> HandedSaying {
    HandedSaying { refusal: 0, saying: 0, word: x as u64 }
}

extern "C" fn empty_take_whole(_n: u32, _rule: u32, word: u64) -> HandedWhole {
    HandedWhole { refusal: 0, whole: word as i64 }
}

extern "C" fn empty_shortest_width(x: i64) -> HandedWidth {
    HandedWidth { refusal: 0, width: x as u32 }
}

extern "C" fn empty_write_binary64(_n: u32, _rule: u32, x: f64) -> HandedSaying {
    HandedSaying { refusal: 0, saying: 0, word: x.to_bits() }
}

extern "C" fn empty_take_binary64(_n: u32, word: u64) -> HandedNumber {
    HandedNumber { refusal: 0, real: true, number: f64::from_bits(word) }
}

extern "C" fn empty_move_column(_from: u32, _to: u32, _rule: u32, _words: *const u64, count: usize, _results: *mut u64, _room: usize) -> HandedColumn {
    HandedColumn { refusal: 0, position: 0, moved: count, exact: 0 }
}

extern "C" fn empty_read_block(_block: *const u8, _size: usize, _results: *mut u64, _room: usize) -> HandedBlock {
    HandedBlock { refusal: 0, width: 0, number: 0, count: 0 }
}

extern "C" fn empty_write_block(_width: u32, _number: u32, _words: *const u64, _count: usize, _buffer: *mut u8, _size: usize) -> HandedWriting {
    HandedWriting { refusal: 0, position: 0 }
}

// Calls of one width, whether or not they have a rule.
pub trait One<T, R>: Copy {
    fn on(self, n: u32, strict: bool, x: T) -> R;
}

impl<T, R> One<T, R> for ByRule<T, R> {
    #[inline(always)]
    fn on(self, n: u32, strict: bool, x: T) -> R {
        unsafe { self(n, strict as u32, x) }
    }
}

impl<T, R> One<T, R> for Outright<T, R> {
    #[inline(always)]
    fn on(self, n: u32, _strict: bool, x: T) -> R {
        unsafe { self(n, x) }
    }
}

// Those that work on slices, called on slices.
#[inline(always)]
pub fn on_column(call: MoveColumn, from: u32, to: u32, strict: bool, words: &[u64], results: &mut [u64]) -> HandedColumn {
    unsafe { call(from, to, strict as u32, words.as_ptr(), words.len(), results.as_mut_ptr(), results.len()) }
}

#[inline(always)]
pub fn on_block(call: ReadBlock, block: &[u8], results: &mut [u64]) -> HandedBlock {
    unsafe { call(block.as_ptr(), block.len(), results.as_mut_ptr(), results.len()) }
}

#[inline(always)]
pub fn on_content(call: WriteBlock, width: u32, number: u32, words: &[u64], buffer: &mut [u8]) -> HandedWriting {
    unsafe { call(width, number, words.as_ptr(), words.len(), buffer.as_mut_ptr(), buffer.len()) }
}
