// A sheet block, read and written.
use super::{CHECK, COUNT, FILL, MARK, RETIRED, ROOM, SIZE, STRAY, WIDTH};

pub struct Header {
    pub width: u32,
    pub number: u32,
    pub count: usize,
}

pub fn read_block(block: &[u8], results: &mut [u64]) -> Result<Header, u32> {
    if block.len() != 512 {
        return Err(SIZE);
    }
    if block[0] != 0x54 {
        return Err(MARK);
    }
    if sums_of(block) != (four_bytes(&block[504..508]), four_bytes(&block[508..])) {
        return Err(CHECK);
    }
    let width = block[1] as u32;
    if ![8, 16, 32, 64].contains(&width) {
        return Err(WIDTH);
    }
    let size = width as usize / 8;
    let count = u16::from_le_bytes([block[2], block[3]]) as usize;
    let end = 8 + size * count;
    if end > 504 {
        return Err(COUNT);
    }
    if block[end..504].iter().fold(0, |all, byte| all | byte) != 0 {
        return Err(FILL);
    }
    if count > results.len() {
        return Err(ROOM);
    }
    let (bytes, results) = (&block[8..end], &mut results[..count]);
    match size {
        1 => unpack(bytes, results, |[b]: [u8; 1]| b as u64),
        2 => unpack(bytes, results, |b| u16::from_le_bytes(b) as u64),
        4 => unpack(bytes, results, |b| u32::from_le_bytes(b) as u64),
        _ => unpack(bytes, results, u64::from_le_bytes),
    }
    Ok(Header { width, number: four_bytes(&block[4..8]), count })
}

// A refusal with the position of the stray word, where it is one.
pub fn write_block(width: u32, number: u32, words: &[u64], buffer: &mut [u8]) -> Result<(), (u32, Option<usize>)> {
    if ![8, 16, 32, 64].contains(&width) {
        return Err((WIDTH, None));
    }
    if width == 8 {
        return Err((RETIRED, None));
    }
    let size = width as usize / 8;
    if words.len() > 496 / size {
        return Err((COUNT, None));
    }
    if buffer.len() != 512 {
        return Err((SIZE, None));
    }
    let most = u64::MAX >> (64 - width);
    if let Some(position) = words.iter().position(|&word| word > most) {
        return Err((STRAY, Some(position)));
    }
    buffer[..2].copy_from_slice(&[0x54, width as u8]);
    buffer[2..4].copy_from_slice(&(words.len() as u16).to_le_bytes());
    buffer[4..8].copy_from_slice(&number.to_le_bytes());
    let (bytes, unused) = buffer[8..504].split_at_mut(size * words.len());
    match size {
        2 => pack(words, bytes, |word| (word as u16).to_le_bytes()),
        4 => pack(words, bytes, |word| (word as u32).to_le_bytes()),
        _ => pack(words, bytes, u64::to_le_bytes),
    }
    unused.fill(0);
    let (a, b) = sums_of(buffer);
    buffer[504..508].copy_from_slice(&a.to_le_bytes());
    buffer[508..].copy_from_slice(&b.to_le_bytes());
    Ok(())
}

// A and B over bytes 0 to 503.
pub fn sums_of(block: &[u8]) -> (u32, u32) {
    block[..504].chunks_exact(4).fold((0, 0), |(a, b): (u32, u32), bytes| {
        let next = a.wrapping_add(four_bytes(bytes));
        (next, b.wrapping_add(next))
    })
}

fn four_bytes(bytes: &[u8]) -> u32 {
    u32::from_le_bytes(bytes.try_into().unwrap())
}

#[inline(always)]
fn unpack<const SIZE: usize>(bytes: &[u8], results: &mut [u64], number: impl Fn([u8; SIZE]) -> u64) {
    for (result, word) in results.iter_mut().zip(bytes.chunks_exact(SIZE)) {
        *result = number(word.try_into().unwrap());
    }
}

#[inline(always)]
fn pack<const SIZE: usize>(words: &[u64], bytes: &mut [u8], word_bytes: impl Fn(u64) -> [u8; SIZE]) {
    for (place, &word) in bytes.chunks_exact_mut(SIZE).zip(words) {
        place.copy_from_slice(&word_bytes(word));
    }
}
