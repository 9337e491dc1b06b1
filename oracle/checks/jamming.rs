//! Checks of the law of jamming, by trial; written from the papers alone.
//!
//! A size of more than 128 bits can be brought to a long value: its 128 leading bits are kept, and where anything else
//! than zeros is cut off, the lowest of them is set. The law says that this long value has the answers of the size, and
//! the sayings. It follows from paper 01's rule, as no value of a word and no midpoint between two has as many as 128
//! significant bits: the long value lies on the same side of all of them as the size, or on the same one.

use crate::checks::midpoints::first_neighbours;
use crate::checks::writing::{between, check_writing};
use crate::exact::number::Whole;
use crate::words::sequence::Sequence;
use crate::writing::answers::{write, write_number};
use crate::writing::around::{leading, midpoint_above, Pair};
use crate::writing::nearest::value_of;
use crate::writing::offers::{size_of, Offer};

pub fn check() {
    check_any_sizes();
    check_near_sizes();
    check_bits_of_midpoints();
    check_too_few_bits();
}

/// The leading bits of a size, as many as `count` says, the lowest of them set where anything else than zeros is cut.
fn jammed(size: &Whole, count: i64) -> Pair {
    let (x, k) = leading(size, count);
    let all_is_kept = size_of(x, k) == *size;
    (if all_is_kept { x } else { x | 1 }, k)
}

/// The law, of one size.
fn check_jammed(width: u32, size: &Whole) {
    check_writing(width, jammed(size, 128), write_number(width, size));
}

/// Sizes from 2^-272 up to 2^260, past both ends of every width.
fn check_any_sizes() {
    for width in 2..=64 {
        let mut sequence = Sequence::new(8800 + width);
        for _place in 0..64 {
            let count_of_bits = 129 + sequence.next_number() % 532;
            check_jammed(width, &chosen_size(&mut sequence, count_of_bits as i64));
        }
    }
}

/// A whole number of so many bits, up to 705; below the highest bit they are pseudo-random.
fn chosen_size(sequence: &mut Sequence, count_of_bits: i64) -> Whole {
    let mut size = Whole::power_of_two(0);
    for _place in 0..11 {
        size = size.times_power_of_two(64).plus(&Whole::from_unsigned(u128::from(sequence.next_number())));
    }
    size.cut_by_power_of_two(size.count_of_bits() - count_of_bits)
}

/// Values of words and midpoints, and sizes that lie beside them by less than the 128 leading bits show.
fn check_near_sizes() {
    for width in 3..=64 {
        let mut sequence = Sequence::new(8900 + width);
        for a in first_neighbours(width) {
            for size in [value_of(width, a), midpoint_above(width, a)] {
                let lower = size.count_of_bits() - 128;
                let least = Whole::power_of_two(0);
                let most = Whole::power_of_two(lower).minus(&least);
                let any = chosen_size(&mut sequence, lower);
                check_jammed(width, &size);
                for distance in [least, any, most] {
                    check_jammed(width, &size.minus(&distance));
                    check_jammed(width, &size.plus(&distance));
                }
            }
        }
    }
}

/// Midpoints have at most 64 significant bits, but for widths 5 and 6, where some have 65.
fn check_bits_of_midpoints() {
    for width in 3..=64 {
        let bits_of = |midpoint: Whole| midpoint.count_of_bits() - midpoint.count_of_twos();
        let most = first_neighbours(width).into_iter().map(|a| bits_of(midpoint_above(width, a))).max().unwrap();
        if width == 5 || width == 6 {
            assert!(most == 65);
        } else {
            assert!(most <= 64);
        }
    }
}

/// With 64 bits there is no such law at the widths 5 and 6. At 5, 2^126 + 1 lies below the midpoint 2^126 + 2^62 of
/// 2^63 and 2^127; its leading 64 bits, the lowest of them set, are 2^126 + 2^63, which lies above it. At 6, 2^95 lies
/// between these two; 2^190 + 1 and the midpoint of 2^127 and 2^191 are the same there.
fn check_too_few_bits() {
    for (width, below, exponent) in [(5, 0b01110, 126), (6, 0b011110, 190)] {
        let midpoint = size_of(1, exponent).plus(&size_of(1, exponent - 64));
        assert!(midpoint == midpoint_above(width, below));
        let size = size_of(1, exponent).plus(&size_of(1, 0));
        let by_64_bits = jammed(&size, 64);
        assert!(by_64_bits == ((1 << 63) + 1, exponent - 63));
        assert!(write_number(width, &size) == between(below, below));
        assert!(write(width, &Offer::plus(by_64_bits.0, by_64_bits.1)) == between(below, below + 1));
        check_jammed(width, &size);
    }
}
