// A plain Rust lister: the same text as the proved program's, for the same input.
mod plain;

use plain::{block::read_block, reading::own_bits, whole::take_whole, OVER};
use std::io::{stdin, stdout, Read, Result, Write};

// Input is read, and text written, in pieces of about this size.
const PIECE: usize = 65_536;

fn main() -> Result<()> {
    let (mut input, mut output) = (stdin().lock(), stdout().lock());
    let mut text = Vec::with_capacity(2 * PIECE);
    let mut piece = Vec::with_capacity(PIECE);
    let mut words = [0; 496];
    let mut place = 0;
    loop {
        piece.clear();
        input.by_ref().take(PIECE as u64).read_to_end(&mut piece)?;
        for block in piece.chunks(512) {
            put_block(&mut text, block, place, &mut words);
            place += 1;
            if text.len() >= PIECE {
                output.write_all(&text)?;
                text.clear();
            }
        }
        if piece.len() < PIECE {
            return output.write_all(&text);
        }
    }
}

fn put_block(text: &mut Vec<u8>, block: &[u8], place: u64, words: &mut [u64]) {
    let mut line = Line { room: [0; 64], first: 64 };
    match read_block(block, words) {
        Ok(header) => {
            for (position, &word) in words[..header.count].iter().enumerate() {
                line.end();
                if header.width == 8 {
                    line.bytes(b" old");
                }
                line.decimal(own_bits(header.width, word) as u64);
                line.byte(b' ');
                line.whole(header.width, word);
                line.byte(b' ');
                line.hex(header.width, word);
                line.byte(b' ');
                line.decimal(position as u64);
                line.byte(b' ');
                line.decimal(header.number as u64);
                text.extend_from_slice(line.text());
            }
        }
        Err(refusal) => {
            line.end();
            line.decimal(refusal as u64);
            line.bytes(b" refused ");
            line.decimal(place);
            line.bytes(b"block ");
            text.extend_from_slice(line.text());
        }
    }
}

// A line, put from its end to its start, so that no number's length has to be known before its digits. None is longer than 56 bytes.
struct Line {
    room: [u8; 64],
    first: usize,
}

impl Line {
    fn end(&mut self) {
        self.first = 64;
        self.byte(b'\n');
    }

    fn text(&self) -> &[u8] {
        &self.room[self.first..]
    }

    fn byte(&mut self, byte: u8) {
        self.first -= 1;
        self.room[self.first] = byte;
    }

    fn bytes(&mut self, bytes: &[u8]) {
        self.first -= bytes.len();
        self.room[self.first..self.first + bytes.len()].copy_from_slice(bytes);
    }

    fn whole(&mut self, width: u32, word: u64) {
        match take_whole(width, false, word) {
            Ok(x) => {
                self.decimal(x.unsigned_abs());
                if x < 0 {
                    self.byte(b'-');
                }
            }
            Err(OVER) => self.bytes(b"over"),
            Err(_) => self.bytes(b"nar"),
        }
    }

    fn decimal(&mut self, n: u64) {
        let mut rest = n;
        loop {
            self.byte(b'0' + (rest % 10) as u8);
            rest /= 10;
            if rest == 0 {
                return;
            }
        }
    }

    fn hex(&mut self, width: u32, word: u64) {
        for i in 0..width / 4 {
            self.byte(b"0123456789abcdef"[(word >> (4 * i)) as usize & 15]);
        }
    }
}
