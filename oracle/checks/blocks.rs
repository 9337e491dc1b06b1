//! Checks of the papers' statements on the sheet block and the lister; written from the papers alone.

use crate::census::blocks::{change_of_kind, next_block};
use crate::sheets::blocks::{
    good_block, number_of_place, read_block, room_of, sums, Block, Heading, BLOCK_WIDTHS, COUNT_OF_NUMBERS, TWO_TO_32,
};
use crate::sheets::faults::Faulty;
use crate::sheets::lister::list;
use crate::sheets::stack::stack_sheet;
use crate::words::refusals::Refusal;
use crate::words::sequence::Sequence;

pub fn check() {
    check_case();
    check_lister();
    check_stack();
    check_good_blocks();
    check_sums();
    check_faults();
}

/// The case of paper 01, byte by byte as it stands there.
pub fn case() -> Block {
    let mut block = [0; 512];
    block[..12].copy_from_slice(&[0x54, 0x10, 0x02, 0x00, 0x01, 0x00, 0x00, 0x00, 0x00, 0x5A, 0x00, 0x80]);
    block[504..508].copy_from_slice(&0x80026A55_u32.to_le_bytes());
    block[508..].copy_from_slice(&0x012FA1D5_u32.to_le_bytes());
    block
}

fn check_case() {
    let case = case();
    assert!(sums(&case) == (0x80026A55, 0x012FA1D5));
    assert!(good_block(16, 1, &[0x5A00, 0x8000]) == case);
    let mut results = [7; 4];
    assert!(read_block(&case, &mut results) == Ok(Heading { width: 16, number: 1, count: 2 }));
    assert!(results == [0x5A00, 0x8000, 7, 7]);
    assert!(read_block(&case, &mut results[..1]) == Err(Refusal::Room));
}

pub fn listing(input: &[u8]) -> String {
    let mut output = Vec::new();
    list(input, &mut output).expect("a vector takes every line");
    String::from_utf8(output).expect("the lines are plain text")
}

/// "It prints exactly" the two lines, and by paper 02, Wish 3, "the printed case of document 01 ends its lines in ` 8`
/// and ` 0`"; what the paper says of refused blocks, of a short last piece and of empty input.
fn check_lister() {
    let case = case();
    let lines = "1 0 5a00 512 8\n1 1 8000 nar 0\n";
    assert!(listing(&case) == lines);
    assert!(listing(&[]).is_empty());
    for size in 1..512 {
        assert!(listing(&case[..size]) == "block 0 refused 7\n");
    }
    let mut damaged = case;
    damaged[8] ^= 1;
    let sheet = [&damaged[..], &case, &damaged, &case[..1]].concat();
    assert!(listing(&sheet) == format!("block 0 refused 9\n{lines}block 2 refused 9\nblock 3 refused 7\n"));
    // An empty block has no line. All digits, a minus sign, `over` of both signs, and the greatest block number. -1.5
    // goes to the even number: "The lister prints by the new rule" (paper 02, Wish 2). The last fields are 32 - r - 5,
    // but 0 for zero: the words start with 1 1 000, 1 0 111, 0 1 111, 1 0 000 and 1 0 010, so r is 0, 0, 7, 7 and 5.
    let block = good_block(32, u32::MAX, &[0, 0xC000_0000, 0xBC00_0000, 0x7FFF_FFFF, 0x8000_0001, 0x9000_0000]);
    let sheet = [&good_block(8, 5, &[])[..], &block].concat();
    let expected = [
        "4294967295 0 00000000 0 0",
        "4294967295 1 c0000000 -1 27",
        "4294967295 2 bc000000 -2 27",
        "4294967295 3 7fffffff over 20",
        "4294967295 4 80000001 over 20",
        "4294967295 5 90000000 -9223372036854775808 22",
    ];
    assert!(listing(&sheet) == expected.join("\n") + "\n");
    // Two digits at 8 bits. "Appended zeros are no precision": 7 is 0 1 001 1 11, and 0x7F is 0 1 111 111. "The lister
    // puts ` old` at the end of their lines" (paper 02, Wish 10).
    let lines = "6 0 4f 7 2 old\n6 1 7f over 0 old\n6 2 80 nar 0 old\n";
    assert!(listing(&good_block(8, 6, &[0x4F, 0x7F, 0x80])) == lines);
}

/// "A refused block prints `block I refused N`, I being its place in the input from 0, and the lister goes on; a short
/// last piece is refused 7": in the sheet of sheets/stack.rs.
fn check_stack() {
    let listing = listing(&stack_sheet());
    let (refused, listed): (Vec<&str>, Vec<&str>) = listing.lines().partition(|line| line.starts_with("block"));
    let expected = [
        "block 0 refused 8",
        "block 5 refused 9",
        "block 126 refused 1",
        "block 127 refused 10",
        "block 128 refused 11",
        "block 129 refused 8",
        "block 150 refused 9",
        "block 199 refused 1",
        "block 200 refused 7",
    ];
    assert!(refused == expected);
    for answer in ["nar", "over", "0", "-1", "7", "515", "-9223372036854775808"] {
        assert!(listed.iter().any(|line| line.split(' ').nth(3) == Some(answer)), "{answer} is listed");
    }
}

/// Blocks of all widths, with no word and with all there is room for.
fn check_good_blocks() {
    for width in BLOCK_WIDTHS {
        let mut sequence = Sequence::new(0);
        let full = room_of(width);
        assert!(full * width as usize == 496 * 8);
        for count in [0, 1, full - 1, full] {
            let words: Vec<u64> = (0..count).map(|_position| sequence.next_word(width)).collect();
            let block = good_block(width, 77, &words);
            let mut results = vec![7; count + 1];
            assert!(read_block(&block, &mut results) == Ok(Heading { width, number: 77, count }));
            assert!(results[..count] == words && results[count] == 7);
        }
        let block = next_block(&mut sequence, width, full + 1);
        assert!(read_block(&block, &mut []) == Err(Refusal::Count));
    }
}

/// B another way: the first number is in all 126 running values, the next in 125, and so on. "Any change confined to one
/// of the 126 numbers must be noticed"; and what the kinds of docs/CENSUS.md, part 34, do to the sums.
fn check_sums() {
    let mut sequence = Sequence::new(1);
    for width in BLOCK_WIDTHS {
        let block = next_block(&mut sequence, width, room_of(width));
        let weighted = (0..COUNT_OF_NUMBERS).map(|place| number_of_place(&block, place) * (126 - place as u64));
        assert!(sums(&block).1 == weighted.sum::<u64>() % TWO_TO_32);
        for place in 0..COUNT_OF_NUMBERS - 2 {
            let d = 1 + sequence.next_number() % (TWO_TO_32 - 1);
            let (a, b) = sums(&block);
            let differs = |kind| {
                let changed = sums(&change_of_kind(&block, kind, place, d));
                (changed.0 != a, changed.1 != b)
            };
            // A change of one number always changes A.
            assert!(differs(1).0);
            assert!(differs(2) == (false, true) && differs(3) == (true, false) && differs(4) == (false, false));
            let changed = change_of_kind(&block, 1, place, d);
            let noticed = read_block(&changed, &mut [0; 496]);
            assert!(noticed == Err(if changed[0] == block[0] { Refusal::Check } else { Refusal::Mark }));
        }
    }
}

/// "Order for blocks: SIZE, MARK, CHECK, WIDTH, COUNT, FILL, ROOM": of several the first is given, and nothing is
/// written.
fn check_faults() {
    use Refusal::{Check, Count, Fill, Mark, Room, Size, Width};
    let mut sequence = Sequence::new(2);
    for width in BLOCK_WIDTHS {
        let count = room_of(width) / 2;
        let block = next_block(&mut sequence, width, count);
        for faults in 1..128_u64 {
            let faulty = Faulty::new(&block, width, count, faults);
            let first = [Size, Mark, Check, Width, Count, Fill, Room][faults.trailing_zeros() as usize];
            let mut results = vec![7; faulty.room];
            assert!(read_block(&faulty.block[..faulty.size], &mut results) == Err(first));
            assert!(results.iter().all(|&number| number == 7));
        }
        let faultless = Faulty::new(&block, width, count, 0);
        assert!(faultless.block == block && read_block(&block, &mut vec![0; faultless.room]).is_ok());
    }
}
