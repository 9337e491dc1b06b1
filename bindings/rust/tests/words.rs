//! Widths, the words that belong to them, and the crate's version.
use ledusprig::{Kind, Reading, Rule, Saying, Takum, Width, Written, VERSION, ZERO};

#[test]
fn the_widths_of_sheets_are_constants() {
    for (width, bits) in [(Width::W8, 8), (Width::W16, 16), (Width::W32, 32), (Width::W64, 64)] {
        assert_eq!(Width::new(bits), Ok(width));
    }
}

#[test]
fn zero_is_what_the_library_writes_for_it() {
    const EMPTY: Takum = Width::W8.zero();
    assert_eq!(EMPTY.word(), ZERO);
    for bits in 2..=64 {
        let width = Width::new(bits).unwrap();
        assert_eq!(width.write_whole(Rule::Strict, 0), Ok(Written { word: width.zero(), saying: Saying::Exact }));
        assert_eq!(width.zero().read(), Reading { kind: Kind::Zero, own: 0 });
    }
}

#[test]
fn zero_and_nar_are_told_apart_from_all_others() {
    for word in 0..=0xFF {
        let takum = Takum::new(Width::W8, word).unwrap();
        assert_eq!((takum.is_zero(), takum.is_nar()), (word == 0, word == 0x80));
    }
}

#[test]
fn a_number_past_the_limit_needs_a_wider_word() {
    for bits in 2..=64 {
        let width = Width::new(bits).unwrap();
        let limit = i64::try_from(width.limit()).unwrap();
        for sign in [1, -1] {
            assert!(Width::shortest(sign * limit).unwrap() <= width);
            assert!(Width::shortest(sign * (limit + 1)).map_or(true, |needed| needed > width));
        }
    }
}

/// 1 has the regime 0, and the largest word, from 5 bits on, the regime 7. Five bits stand before those of the regime.
#[test]
fn zeros_that_are_appended_are_no_fraction_bits_of_a_word() {
    for bits in 2..=64_u32 {
        let width = Width::new(bits).unwrap();
        let (one, largest) = (Takum::try_from((width, 1_i64)).unwrap(), width.largest());
        assert_eq!((fraction_bits(one), one.read().own), (Some(bits.max(12) - 5), bits.saturating_sub(5)));
        assert_eq!(width.nar().read(), Reading { kind: Kind::Nar, own: 0 });
        if bits >= 5 {
            assert_eq!((fraction_bits(largest), largest.read().own), (Some(bits.max(12) - 12), bits.saturating_sub(12)));
        }
    }
}

fn fraction_bits(takum: Takum) -> Option<u32> {
    match takum.read().kind {
        Kind::Number { p, .. } => Some(p),
        Kind::Zero | Kind::Nar => None,
    }
}

#[test]
fn the_version_is_the_manifests() {
    assert_eq!(VERSION, env!("CARGO_PKG_VERSION"));
}
