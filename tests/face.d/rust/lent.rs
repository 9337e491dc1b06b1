//! The calls that are lent slices. Each slice lies between guards, and what the call may not change is compared afterwards.
use crate::calls::{rule, same};
use crate::text::{put, put_bytes, put_words, Given};
use std::fmt::Write;
use ledusprig::{calls, MovedColumn, Width};

const GUARDS: usize = 8;

/// An odd number of guards around a buffer leaves it at an odd address, where it may be.
const BUFFER_GUARDS: usize = 9;

/// What stands in each place of the results or of the buffer, and of the guards around them, before the call.
fn sentinel(place: usize) -> u64 {
    0xA5A5_A5A5_A5A5_A5A5 ^ place as u64
}

/// Makes a call with a result slice of `room` words between guards. The answer stands beside the whole row.
fn lend<T>(room: usize, call: impl FnOnce(&mut [u64]) -> T) -> (T, Vec<u64>) {
    let mut row: Vec<u64> = (0..room + 2 * GUARDS).map(sentinel).collect();
    let answer = call(&mut row[GUARDS..GUARDS + room]);
    (answer, row)
}

/// Says so where a place of the row changed that is not one of the `written` first results.
fn put_changes(to: &mut String, row: &[u64], written: usize) {
    for (place, &word) in row.iter().enumerate() {
        let may_change = (GUARDS..GUARDS + written).contains(&place);
        if !may_change && word != sentinel(place) {
            let place = place as i64 - GUARDS as i64;
            write!(to, ", with place {place} of the results changed to {word:#x}").expect("a text takes all that is put");
        }
    }
}

/// What is lent to be read, between guards; and a copy, to be compared after the call.
fn guarded<T: Copy + Default>(lent: &[T]) -> (Vec<T>, Vec<T>) {
    let guards = [T::default(); GUARDS];
    let row = [&guards, lent, &guards].concat();
    (row.clone(), row)
}

fn put_difference<T: PartialEq>(to: &mut String, row: &[T], copy: &[T]) {
    if row != copy {
        to.push_str(", with what was lent to be read changed");
    }
}

pub fn move_column(given: &mut Given, to: &mut String) {
    let (source, target, rule) = (given.width(), given.width(), rule(given));
    let (column, copy) = guarded(&given.words());
    let (words, room) = (&column[GUARDS..column.len() - GUARDS], given.room());
    let plain = lend(room, |results| calls::move_column(source, target, rule, words, results));
    let typed = lend(room, |results| {
        let (source, target) = (Width::new(source)?, Width::new(target)?);
        source.move_column(target, rule, words, results)
    });
    let (answer, row) = same(to, plain, typed);
    let position = answer.err().and_then(|refused| refused.position);
    put(to, answer.map_err(|refused| refused.refusal), |to, MovedColumn { moved, exact }| {
        write!(to, "moved {moved} exact {exact} ")?;
        put_words(to, &row[GUARDS..GUARDS + moved])
    });
    if let Some(position) = position {
        write!(to, " at {position}").expect("a text takes all that is put");
    }
    put_changes(to, &row, answer.map_or(0, |column| column.moved));
    put_difference(to, &column, &copy);
}

pub fn read_block(given: &mut Given, to: &mut String) {
    let (block, copy) = guarded(&given.bytes());
    let (bytes, room) = (&block[GUARDS..block.len() - GUARDS], given.room());
    let (answer, row) = lend(room, |results| calls::read_block(bytes, results));
    let count = answer.map_or(0, |block| block.count as usize);
    put(to, answer, |to, block| {
        write!(to, "block {} {} {} ", block.width, block.number, block.count)?;
        put_words(to, &row[GUARDS..GUARDS + count])
    });
    put_changes(to, &row, count);
    put_difference(to, &block, &copy);
}

/// Makes a call with a buffer of `size` bytes between guards. The answer stands beside the whole row of bytes.
fn lend_buffer<T>(size: usize, call: impl FnOnce(&mut [u8]) -> T) -> (T, Vec<u8>) {
    let mut bytes: Vec<u8> = (0..size + 2 * BUFFER_GUARDS).map(|place| sentinel(place) as u8).collect();
    let answer = call(&mut bytes[BUFFER_GUARDS..BUFFER_GUARDS + size]);
    (answer, bytes)
}

/// Says so where a byte changed that is not one of the buffer's first `written`, of several the first.
fn put_changed_byte(to: &mut String, bytes: &[u8], written: usize) {
    let may_change = BUFFER_GUARDS..BUFFER_GUARDS + written;
    let changed = bytes.iter().enumerate().find(|&(place, &byte)| !may_change.contains(&place) && byte != sentinel(place) as u8);
    if let Some((place, byte)) = changed {
        let place = place as i64 - BUFFER_GUARDS as i64;
        write!(to, ", with byte {place} of the buffer changed to {byte:#x}").expect("a text takes all that is put");
    }
}

pub fn write_block(given: &mut Given, to: &mut String) {
    let (n, number) = (given.width(), given.number() as u32);
    let (column, copy) = guarded(&given.words());
    let (words, size) = (&column[GUARDS..column.len() - GUARDS], given.size());
    let plain = lend_buffer(size, |buffer| calls::write_block(n, number, words, buffer));
    let typed = lend_buffer(size, |buffer| Width::new(n)?.write_block(number, words, buffer));
    let (answer, bytes) = same(to, plain, typed);
    let position = answer.err().and_then(|refused| refused.position);
    put(to, answer.map_err(|refused| refused.refusal), |to, ()| {
        to.push_str("written ");
        put_bytes(to, &bytes[BUFFER_GUARDS..BUFFER_GUARDS + size])
    });
    if let Some(position) = position {
        write!(to, " at {position}").expect("a text takes all that is put");
    }
    put_changed_byte(to, &bytes, if answer.is_ok() { size } else { 0 });
    put_difference(to, &column, &copy);
}
