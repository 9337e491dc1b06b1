//! Checks of the printed figures against papers 01 and 02; written from the papers alone.
//!
//! Each line stands below the sentence of paper 01 that gives it, or that it follows from, in HALVES of paper 02,
//! Wish 2, in OWN_BITS of Wish 3, in SAYINGS of Wish 4 and in SHORTEST of Wish 9; the marks P are left out. The words
//! that the papers don't name were worked out by hand from the fields of Definition 2: S, D, R, C and F from the top.
//! What is said beside a word (Wish 4) follows from its value and the one offered.

/// Every line below is printed, and no other is.
pub fn check(lines: &[String]) {
    let expected = [
        &READING[..],
        &LIMITS,
        &WRITING,
        &ERRORS_THAT_LOOK_RIGHT,
        &WHOLE_NUMBERS,
        &HALVES,
        &BINARY64,
        &OWN_BITS,
        &SAYINGS,
        &SHORTEST,
    ]
    .concat();
    for line in &expected {
        assert!(lines.iter().any(|printed| printed == line), "not printed: {line}");
    }
    for line in lines {
        assert!(expected.contains(&line.as_str()), "not from the papers: {line}");
    }
    assert!(lines.len() == expected.len());
}

const READING: [&str; 14] = [
    // "0xFFF at width 12 has e = -255 and F = 0 and is -2^-254."
    "width 12 word fff is -1 * 2^-254",
    // "0x4800 is 2; 0x4A00 is 3." "514 is 0x5A01."
    "width 16 word 4800 is 1 * 2^1",
    "width 16 word 4a00 is 3 * 2^0",
    "width 16 word 5a01 is 257 * 2^1",
    // "Width 8: 7 is 0x4F, 8 is 0x50." "0x7E is 2^223."
    "width 8 word 4f is 7 * 2^0",
    "width 8 word 50 is 1 * 2^3",
    "width 8 word 7e is 1 * 2^223",
    // "Width 2: 01 is 1, 11 is -1, 10 is NaR."
    "width 2 word 1 is 1 * 2^0",
    "width 2 word 3 is -1 * 2^0",
    "width 2 word 2 is nar",
    // "Width 0 and width 65 are refused 1; 0x10000 at width 16 is refused 2."
    "width 0 is refused 1",
    "width 65 is refused 1",
    "width 16 word 10000 is refused 2",
    // "Reading a negative word as a sign beside a size. 0xBC00 then comes out wrong." "0xBC00 is -1.5."
    "width 16 word bc00 is -3 * 2^-1",
];

/// "Limits: 1 at widths 2, 3 and 4; 2 at 5; 8 at 8; 64 at 12; 512 at 16; 2^24 at 32; 2^55 at 64."
const LIMITS: [&str; 9] = [
    "width 2 limit 1",
    "width 3 limit 1",
    "width 4 limit 1",
    "width 5 limit 2",
    "width 8 limit 8",
    "width 12 limit 64",
    "width 16 limit 512",
    "width 32 limit 16777216",
    "width 64 limit 36028797018963968",
];

const WRITING: [&str; 18] = [
    // "514 is 0x5A01; 515 rounded is 0x5A02", which is 516.
    "width 16 writing 257 * 2^1 rounded gives 5a01, exact",
    "width 16 writing 257 * 2^1 strict gives 5a01, exact",
    "width 16 writing 515 * 2^0 rounded gives 5a02, above",
    "width 16 writing 515 * 2^0 strict is refused 4",
    // "2^-300 writes as 0x0001; 2^300 as 0x7FFF."
    "width 16 writing 1 * 2^-300 rounded gives 1, past the end",
    "width 16 writing 1 * 2^300 rounded gives 7fff, past the end",
    // "Width 8: 7 is 0x4F, 8 is 0x50, 9 and 10 rounded are 0x50, 9 strict is INEXACT."
    "width 8 writing 7 * 2^0 rounded gives 4f, exact",
    "width 8 writing 7 * 2^0 strict gives 4f, exact",
    "width 8 writing 1 * 2^3 rounded gives 50, exact",
    "width 8 writing 1 * 2^3 strict gives 50, exact",
    "width 8 writing 9 * 2^0 rounded gives 50, below",
    "width 8 writing 9 * 2^0 strict is refused 4",
    "width 8 writing 5 * 2^1 rounded gives 50, below",
    // "Width 2: ... every positive value writes as 01."
    "width 2 writing 1 * 2^0 rounded gives 1, exact",
    "width 2 writing 3 * 2^0 rounded gives 1, past the end",
    "width 2 writing 1 * 2^-300 rounded gives 1, past the end",
    "width 2 writing 1 * 2^300 rounded gives 1, past the end",
    // "0xBC00 is -1.5."
    "width 16 writing -3 * 2^-1 strict gives bc00, exact",
];

const ERRORS_THAT_LOOK_RIGHT: [&str; 11] = [
    // "At width 8, 2^231 is nearest to 0x7E by value."
    "width 8 writing 1 * 2^231 rounded gives 7e, below",
    // "513 + 2^-20 at width 64 goes to 514 at 16; through 32 it would go to 512." Times 2^20 it is 537919489. It is
    // 512 * (1 + 2^-9 + 2^-29), and p is 56, so F is 2^47 + 2^27 after the 0x5A of 512.
    "width 64 writing 537919489 * 2^-20 strict gives 5a00800008000000, exact",
    "width 64 moving 5a00800008000000 to width 16 rounded gives 5a01, above",
    "width 64 moving 5a00800008000000 to width 32 rounded gives 5a008000, below",
    "width 32 moving 5a008000 to width 16 rounded gives 5a00, below",
    // "Sending tiny values to zero because zero is nearer."
    "width 16 writing -1 * 2^-300 rounded gives ffff, past the end",
    "width 64 writing 1 * 2^-2147483648 rounded gives 1, past the end",
    // "Adding one past all ones in the fraction without letting the carry run into the characteristic and regime."
    // These go up to 2 (0 1 001 0), 4 (0 1 001 1), 2^7 (0 1 011 000) and 2^15 (0 1 100 0000), F being 0.
    "width 16 writing 18446744073709551615 * 2^-63 rounded gives 4800, above",
    "width 16 writing 18446744073709551615 * 2^-62 rounded gives 4c00, above",
    "width 16 writing 18446744073709551615 * 2^-57 rounded gives 5800, above",
    "width 16 writing 18446744073709551615 * 2^-49 rounded gives 6000, above",
];

const WHOLE_NUMBERS: [&str; 23] = [
    // "515 rounded is 0x5A02", and 0x5A01 being 514, that is 516. "512 at 16; 2^24 at 32": at 32 bits 515 has a word,
    // 512 * (1 + 3 * 2^-9), and p is 24, so F is 3 * 2^15 after the 0x5A of 512.
    "width 16 whole number 515 rounded gives 5a02, above",
    "width 16 word 5a02 nearest is 516",
    "width 16 whole number 515 strict is refused 4",
    "width 32 whole number 515 strict gives 5a018000, exact",
    "width 32 word 5a018000 strict is 515",
    // "512 writes as 0x5A00. 513 rounded is 0x5A00, strict is INEXACT." "Negation is two's complement negation."
    "width 16 whole number 512 strict gives 5a00, exact",
    "width 16 whole number 513 strict is refused 4",
    "width 16 whole number -512 strict gives a600, exact",
    "width 16 whole number -513 strict is refused 4",
    // "1,023 rounded is 0x5B00." "9 and 10 rounded are 0x50."
    "width 16 whole number 1023 rounded gives 5b00, above",
    "width 8 whole number 10 rounded gives 50, below",
    // "Halves to the even number" (paper 02, Wish 2): -0.5 goes to 0, 0x3800 being 0.5. "0xBC00 is -1.5." "0x8000 is
    // NaR": "a whole number is wanted of NaR".
    "width 16 word c800 nearest is 0",
    "width 16 word c800 strict is refused 4",
    "width 16 word bc00 nearest is -2",
    "width 16 word 8000 nearest is refused 3",
    "width 16 word 10000 nearest is refused 2",
    "width 65 word 0 nearest is refused 1",
    // "A word of value -2^63 goes out; 2^63 is refused 5." 2^63 is 0 1 110 000000. At width 64 the words below it lie
    // 2^8 apart, so it is the nearest to 2^63 - 1.
    "width 16 whole number -9223372036854775808 strict gives 9000, exact",
    "width 64 whole number 9223372036854775807 strict is refused 4",
    "width 64 whole number 9223372036854775807 rounded gives 7000000000000000, above",
    "width 16 word 9000 strict is -9223372036854775808",
    "width 16 word 7000 strict is refused 5",
    "width 16 word 7000 nearest is refused 5",
];

/// Paper 02, Wish 2: "The trade rounds to the nearest, halves to the even number." "Strict stays. OVER is judged on the
/// rounded number; the order of refusals stands."
const HALVES: [&str; 22] = [
    // "2.5 goes to 2." 0x4900 is 0 1 001 0 and F = 256 of 10 bits: (1 + 1/4) * 2. A step of F is 2^-9, so the words
    // beside it are 2.5 - 2^-9 and 2.5 + 2^-9.
    "width 16 word 4900 is 5 * 2^-1",
    "width 16 word 4900 nearest is 2",
    "width 16 word 4900 strict is refused 4",
    "width 16 word 48ff nearest is 2",
    "width 16 word 4901 nearest is 3",
    // "3.5 to 4." 0x4B00 has F = 768 of 10 bits: (1 + 3/4) * 2.
    "width 16 word 4b00 is 7 * 2^-1",
    "width 16 word 4b00 nearest is 4",
    // "-2.5 to -2." "Negation is two's complement negation": of 0x4900 it is 0xB700, and of 0x4901 it is 0xB6FF.
    "width 16 word b700 is -5 * 2^-1",
    "width 16 word b700 nearest is -2",
    "width 16 word b700 strict is refused 4",
    "width 16 word b6ff nearest is -3",
    // "0x3800 is 0.5": 0 0 111 and F of 11 bits. 0x3801 is just above it, and 0xC7FF is the negation of that.
    "width 16 word 3800 nearest is 0",
    "width 16 word 3801 nearest is 1",
    "width 16 word c7ff nearest is -1",
    // "0x4400 is 1.5."
    "width 16 word 4400 nearest is 2",
    // 0 1 101 10110 and F of 54 bits, all of them 1: c is 31 + 22, and the value (2 - 2^-54) * 2^53. That is 2^54 - 1/2,
    // or (2^55 - 1) * 2^-1. 2^54 is even. With F less by 2 it is 2^54 - 3/2, and 2^54 - 2 is even.
    "width 64 word 6dbfffffffffffff is 36028797018963967 * 2^-1",
    "width 64 word 6dbfffffffffffff nearest is 18014398509481984",
    "width 64 word 6dbfffffffffffff strict is refused 4",
    "width 64 word 6dbffffffffffffd nearest is 18014398509481982",
    // The negation of the first.
    "width 64 word 9240000000000001 nearest is -18014398509481984",
    // 0 1 101 11111 and F of 54 bits, all of them 1: (2 - 2^-54) * 2^62, which is 2^63 - 2^8. The other one is the
    // negation of 0 1 110 000000 and F = 1 of 53 bits, which is 2^63 + 2^10: "the whole number falls outside signed 64
    // bits".
    "width 64 word 6fffffffffffffff nearest is 9223372036854775552",
    "width 64 word 8fffffffffffffff nearest is refused 5",
];

const BINARY64: [&str; 13] = [
    // "0x4400 is 1.5; 0xBC00 is -1.5": exponent field 1023 and the highest fraction bit.
    "width 16 binary64 3ff8000000000000 strict gives 4400, exact",
    "width 16 binary64 bff8000000000000 strict gives bc00, exact",
    // "NaN and both infinities give NaR, both zeros give zero, every other number is written rounded or strict." The
    // least and the greatest number lie past the ends of the width.
    "width 16 binary64 0 strict gives 0, exact",
    "width 16 binary64 8000000000000000 strict gives 0, exact",
    "width 16 binary64 1 rounded gives 1, past the end",
    "width 16 binary64 7fefffffffffffff rounded gives 7fff, past the end",
    "width 16 binary64 7ff0000000000000 strict gives 8000, exact",
    "width 16 binary64 nan strict gives 8000, exact",
    // "binary64 out answers either a number or "no reading" for NaR." "Zero goes out as positive zero."
    "width 16 word 4400 as binary64 is 3ff8000000000000",
    "width 16 word bc00 as binary64 is bff8000000000000",
    "width 16 word 0 as binary64 is 0",
    "width 16 word 8000 as binary64 is no reading",
    "width 16 word 10000 as binary64 is refused 2",
];

/// Paper 02, Wish 3: "n - r - 5 for a finite word, or 0 where that is negative, since appended zeros are no precision;
/// and 0 for zero and NaR."
const OWN_BITS: [&str; 32] = [
    // "The printed case of document 01 ends its lines in ` 8` and ` 0`." 0x5A00 is 0 1 011 and r = 3.
    "width 16 word 5a00 own bits 8",
    "width 16 word 8000 own bits 0",
    "width 16 word 0 own bits 0",
    // A refused word has no reading: "a refusal hands back its number ... and nothing else".
    "width 16 word 10000 own bits is refused 2",
    "width 65 word 0 own bits is refused 1",
    // 0x7F is 0 1 111 111, and four of its seven bits C are appended: 8 - 7 - 5 is negative.
    "width 8 word 7f own bits 0",
    // 1 is 0 1 000 000, 7 is 0 1 001 1 11, and 8 is 0 1 010 00 0.
    "width 8 word 40 own bits 3",
    "width 8 word 4f own bits 2",
    "width 8 word 50 own bits 1",
    // 1 0 000 001 with r = 7, 1 1 000 000 with r = 0, and 1 1 111 111 with r = 7.
    "width 8 word 81 own bits 0",
    "width 8 word c0 own bits 3",
    "width 8 word ff own bits 0",
    // No string of two bits reaches the regime.
    "width 2 word 0 own bits 0",
    "width 2 word 1 own bits 0",
    "width 2 word 2 own bits 0",
    "width 2 word 3 own bits 0",
    // 0 1 000 has just the five bits before F, 0 1 000 0 one more. 0 1 010 0 has one of its two bits C.
    "width 5 word 8 own bits 0",
    "width 6 word 10 own bits 1",
    "width 6 word 14 own bits 0",
    // On either side of width 12, with r = 0 and with r = 7. At 11 one of the seven bits C is appended, at 12 they are
    // all there, and at 13 there is one bit F.
    "width 11 word 200 own bits 6",
    "width 11 word 7ff own bits 0",
    "width 12 word 400 own bits 7",
    "width 12 word fff own bits 0",
    "width 13 word 1 own bits 1",
    // 1 0 111 with r = 0; 0 1 110 with r = 6, which is 2^63 and too large for a whole number; 0 1 111 with r = 7.
    "width 16 word bc00 own bits 11",
    "width 16 word 7000 own bits 5",
    "width 16 word 7fff own bits 4",
    // 515 has the r of 512.
    "width 32 word 5a018000 own bits 24",
    // 1 is 0 1 000; then zero, NaR, and 0 0 000 with r = 7.
    "width 64 word 4000000000000000 own bits 59",
    "width 64 word 0 own bits 0",
    "width 64 word 8000000000000000 own bits 0",
    "width 64 word 1 own bits 52",
];

/// Paper 02, Wish 4: "one of four things: exact, word below the value, word above it (signed), or past the end."
const SAYINGS: [&str; 53] = [
    // "A clerk seeing 512 can't tell a true 512 from a rounded 513." 512 writes as 0x5A00. The negations of the words of
    // 512 and 516 are 0xA600 and 0xA5FE: -512 is above -513, and -516 is below -515.
    "width 16 writing 513 * 2^0 rounded gives 5a00, below",
    "width 16 writing 1 * 2^9 rounded gives 5a00, exact",
    "width 16 writing -513 * 2^0 rounded gives a600, above",
    "width 16 writing -515 * 2^0 rounded gives a5fe, below",
    // "Past the end is said when the size is beyond the largest word": that is 31 * 2^250, or 0x7FFF, and its own size
    // is exact. 31 * 2^59 is 17870283321406128128. 2^254 is 0 1 111 1111111 0000, the nearest to 2^254 - 2^190.
    "width 16 writing -1 * 2^300 rounded gives 8001, past the end",
    "width 16 writing 31 * 2^250 rounded gives 7fff, exact",
    "width 16 writing -31 * 2^250 rounded gives 8001, exact",
    "width 16 writing 31 * 2^250 strict gives 7fff, exact",
    "width 16 writing 18446744073709551615 * 2^190 rounded gives 7ff0, above",
    "width 16 writing 17870283321406128129 * 2^191 rounded gives 7fff, past the end",
    "width 16 writing 17870283321406128127 * 2^191 rounded gives 7fff, above",
    // "Or is nonzero and short of the smallest": that is 17 * 2^-259, and 0x0002 is 18 * 2^-259. 33 * 2^-260 is 16.5 of
    // these steps, and 35 * 2^-260 is 17.5, which lies halfway and goes to the even word.
    "width 16 writing 17 * 2^-259 rounded gives 1, exact",
    "width 16 writing -17 * 2^-259 rounded gives ffff, exact",
    "width 16 writing 33 * 2^-260 rounded gives 1, past the end",
    "width 16 writing -33 * 2^-260 rounded gives ffff, past the end",
    "width 16 writing 35 * 2^-260 rounded gives 2, above",
    "width 16 writing -35 * 2^-260 rounded gives fffe, below",
    // "NaR and zero are exact."
    "width 16 writing 0 * 2^0 rounded gives 0, exact",
    "width 16 writing -0 * 2^0 rounded gives 0, exact",
    // "Width 2: 01 is 1, 11 is -1."
    "width 2 writing -3 * 2^0 rounded gives 3, past the end",
    "width 2 writing -1 * 2^0 rounded gives 3, exact",
    "width 2 writing 1 * 2^-1 rounded gives 1, past the end",
    "width 2 writing 1 * 2^0 strict gives 1, exact",
    // "0x7F is 2^239; 0x7E is 2^223; 0x01 is 2^-239." The negation of 0x7E is 0x82. 3 * 2^238 is 1.5 * 2^239, and
    // 3 * 2^-241 is 0.75 * 2^-239.
    "width 8 writing -1 * 2^231 rounded gives 82, above",
    "width 8 writing 1 * 2^239 rounded gives 7f, exact",
    "width 8 writing 3 * 2^238 rounded gives 7f, past the end",
    "width 8 writing 1 * 2^-239 rounded gives 1, exact",
    "width 8 writing 3 * 2^-241 rounded gives 1, past the end",
    // Moves. At width 8, 0x5A is 0 1 011 010, which is 2^9, and the next word 2^10; 0x5A01 is 514. Both ends of 16 bits
    // lie past those of 8. "Going wider never changes a value."
    "width 16 moving 5a01 to width 8 rounded gives 5a, below",
    "width 16 moving 8000 to width 8 rounded gives 80, exact",
    "width 16 moving 0 to width 8 rounded gives 0, exact",
    "width 16 moving 7fff to width 8 rounded gives 7f, past the end",
    "width 16 moving 1 to width 8 rounded gives 1, past the end",
    "width 16 moving a600 to width 64 rounded gives a600000000000000, exact",
    // 513, -513 and 515, at widths that have them.
    "width 64 moving 5a00800000000000 to width 16 rounded gives 5a00, below",
    "width 64 moving a5ff800000000000 to width 16 rounded gives a600, above",
    "width 32 moving 5a018000 to width 16 rounded gives 5a02, above",
    // The same of whole numbers.
    "width 16 whole number 513 rounded gives 5a00, below",
    "width 16 whole number 512 rounded gives 5a00, exact",
    "width 16 whole number -513 rounded gives a600, above",
    "width 16 whole number -515 rounded gives a5fe, below",
    "width 32 whole number 515 rounded gives 5a018000, exact",
    "width 16 whole number 0 rounded gives 0, exact",
    "width 2 whole number 3 rounded gives 1, past the end",
    "width 2 whole number 1 rounded gives 1, exact",
    // And of binary64: 515, which is (1 + 3 * 2^-9) * 2^9 with the exponent field 1032, and -513; both infinities, NaN
    // and negative zero; the greatest and the least number, with a minus sign.
    "width 16 binary64 4080180000000000 rounded gives 5a02, above",
    "width 16 binary64 c080080000000000 rounded gives a600, above",
    "width 16 binary64 7ff0000000000000 rounded gives 8000, exact",
    "width 16 binary64 fff0000000000000 rounded gives 8000, exact",
    "width 16 binary64 nan rounded gives 8000, exact",
    "width 16 binary64 8000000000000000 rounded gives 0, exact",
    "width 16 binary64 ffefffffffffffff rounded gives 8001, past the end",
    "width 16 binary64 8000000000000001 rounded gives ffff, past the end",
];

/// Paper 02, Wish 9: "Answer the least width from 2 to 64 at which it has a word." In the strings below the zeros at
/// the end are left out: appended they change no value. Two bits are the fewest.
const SHORTEST: [&str; 69] = [
    // "Zero needs 2." "Width 2: 01 is 1, 11 is -1."
    "whole number 0 needs width 2",
    "whole number 1 needs width 2",
    // 0 1 001, then 3 as 0 1 001 0 1 and 4 as 0 1 001 1.
    "whole number 2 needs width 5",
    "whole number 3 needs width 7",
    "whole number 4 needs width 6",
    // 0 1 001 1 01, 0 1 001 1 1 and 0 1 001 1 11.
    "whole number 5 needs width 8",
    "whole number 6 needs width 7",
    "whole number 7 needs width 8",
    // 8 is 0 1 010 00, so 0 1 01. "As printed it gives 9 for the number 9, which needs 10": 0 1 010 00 001. 10 is
    // 0 1 010 00 01.
    "whole number 8 needs width 4",
    "whole number 9 needs width 10",
    "whole number 10 needs width 9",
    // 0 1 010 01, 0 1 010 01 0001 and 0 1 010 10 0101.
    "whole number 16 needs width 7",
    "whole number 17 needs width 11",
    "whole number 42 needs width 11",
    // From 128 to 2^15 - 1 there are three bits C, and a number that is odd has all its bits but the highest in F. 255
    // has 0 1 011 000 and seven bits F, 256 is 0 1 011 001.
    "whole number 255 needs width 15",
    "whole number 256 needs width 8",
    "whole number 257 needs width 16",
    // 512 is 0 1 011 01. Its limit being 512, 16 bits have no 513.
    "whole number 511 needs width 16",
    "whole number 512 needs width 7",
    "whole number 513 needs width 17",
    "whole number 514 needs width 16",
    "whole number 515 needs width 17",
    "whole number 516 needs width 15",
    // 1,024 is 0 1 011 011, 2,048 is 0 1 011 1 and 4,096 is 0 1 011 101.
    "whole number 1023 needs width 17",
    "whole number 1024 needs width 8",
    "whole number 1025 needs width 18",
    "whole number 2048 needs width 6",
    "whole number 4095 needs width 19",
    "whole number 4096 needs width 8",
    // From 2^15 to 2^31 - 1 there are four bits C. 65,535 has 15 bits F, 65,536 is 0 1 100 0001.
    "whole number 65535 needs width 24",
    "whole number 65536 needs width 9",
    // "2^24 at 32": 2^24 - 1 has 23 bits F and 2^24 + 1 has 24. 2^24 is 0 1 100 1001.
    "whole number 16777215 needs width 32",
    "whole number 16777216 needs width 9",
    "whole number 16777217 needs width 33",
    "whole number 16777218 needs width 32",
    // From 2^31 on there are five bits C. 2^32 is 0 1 101 00001, and 2^32 - 1 has 31 bits F.
    "whole number 4294967296 needs width 10",
    "whole number 4294967295 needs width 41",
    // "2^55 at 64." 2^54 + 1 and 2^55 - 1 have 54 bits F, 2^55 + 1 has 55, and 2^55 + 2 has 54. 2^55 is 0 1 101 11.
    "whole number 18014398509481985 needs width 64",
    "whole number 36028797018963967 needs width 64",
    "whole number 36028797018963968 needs width 7",
    "whole number 36028797018963969 is refused 4",
    "whole number 36028797018963970 needs width 64",
    // 2^56 is 0 1 101 11001, and 2^56 + 2 has 55 bits F.
    "whole number 72057594037927936 needs width 10",
    "whole number 72057594037927938 is refused 4",
    // 2^62 is 0 1 101 11111. 2^62 + 2^8 has 54 bits F, 2^62 + 2^7 has 55, and 2^62 - 1 has 61.
    "whole number 4611686018427387904 needs width 10",
    "whole number 4611686018427388160 needs width 64",
    "whole number 4611686018427388032 is refused 4",
    "whole number 4611686018427387903 is refused 4",
    // 2^63 - 1 has 62 bits F, 2^63 - 2^9 has 53, 2^63 - 2^8 has 54, and 2^63 - 2^7 has 55.
    "whole number 9223372036854775807 is refused 4",
    "whole number 9223372036854775296 needs width 63",
    "whole number 9223372036854775552 needs width 64",
    "whole number 9223372036854775680 is refused 4",
    // "Negation is two's complement negation in n bits", so a number and its negation have words at the same widths.
    "whole number -1 needs width 2",
    "whole number -2 needs width 5",
    "whole number -3 needs width 7",
    "whole number -8 needs width 4",
    "whole number -9 needs width 10",
    "whole number -10 needs width 9",
    "whole number -512 needs width 7",
    "whole number -513 needs width 17",
    "whole number -515 needs width 17",
    "whole number -1024 needs width 8",
    "whole number -16777217 needs width 33",
    "whole number -36028797018963968 needs width 7",
    "whole number -36028797018963969 is refused 4",
    "whole number -4611686018427387904 needs width 10",
    "whole number -9223372036854775807 is refused 4",
    "whole number -9223372036854775296 needs width 63",
    // 2^63, which is too large for a whole number, is 0 1 110 000000, so 0 1 11. The negation of that is 1 0 01.
    "whole number -9223372036854775808 needs width 4",
];
