//! The conversions by the standard traits answer what the calls answer; a whole number that is rounded has to be asked for by a call.
use ledusprig::{Refusal, Rule, Taking, Takum, Width};

const TWO_TO_63: f64 = 9_223_372_036_854_775_808.0;

#[test]
fn a_number_becomes_a_width_as_by_new() {
    for bits in 0..=255_u8 {
        let width = Width::new(u32::from(bits));
        assert_eq!(Width::try_from(bits), width);
        assert_eq!(Width::try_from(u32::from(bits)), width);
        assert_eq!(Width::try_from(i32::from(bits)), width);
        assert_eq!(Width::try_from(usize::from(bits)), width);
        assert_eq!(width.map(u32::from), width.map(Width::bits));
    }
}

#[test]
fn a_number_that_is_no_u32_is_no_width() {
    assert_eq!(Width::try_from(-16), Err(Refusal::Width));
    assert_eq!(Width::try_from(i32::MIN), Err(Refusal::Width));
    assert_eq!(Width::try_from(usize::MAX), Err(Refusal::Width));
    #[cfg(target_pointer_width = "64")]
    assert_eq!(Width::try_from((1_usize << 32) + 16), Err(Refusal::Width));
}

#[test]
fn whole_numbers_go_in_and_out_strictly() {
    for x in (-1030..=1030).chain([i64::MIN, i64::MAX]) {
        let written = Takum::try_from((Width::W16, x));
        assert_eq!(written, Width::W16.write_whole(Rule::Strict, x).map(|written| written.word));
        if let Ok(takum) = written {
            assert_eq!(i64::try_from(takum), Ok(x));
        }
    }
    assert_eq!(Takum::try_from((Width::W16, 515_i64)), Err(Refusal::Inexact));
}

/// The double of a 16-bit word is exactly its value, so that its nearest whole number is the word's.
#[test]
fn whole_numbers_go_out_by_nearest_where_it_is_asked_for() {
    for word in 0..=0xFFFF {
        let takum = Takum::new(Width::W16, word).unwrap();
        let nearest = match f64::from(takum).round_ties_even() {
            number if number.is_nan() => Err(Refusal::Nar),
            number if (-TWO_TO_63..TWO_TO_63).contains(&number) => Ok(number as i64),
            _ => Err(Refusal::Over),
        };
        assert_eq!(takum.take_whole(Taking::Nearest), nearest);
    }
}

#[test]
fn doubles_go_in_strictly_and_out_by_the_value() {
    let (mut taken, mut refused) = (0, 0);
    for word in 0..=0xFFFF {
        let takum = Takum::new(Width::W16, word).unwrap();
        assert_eq!(i64::try_from(takum), takum.take_whole(Taking::Strict));
        let number = f64::from(takum);
        assert_eq!(number.is_nan(), takum.is_nar());
        assert_eq!(Takum::try_from((Width::W16, number)), Ok(takum));
        match Takum::try_from((Width::W8, number)) {
            Ok(_) => taken += 1,
            Err(refusal) => {
                assert_eq!(refusal, Refusal::Inexact);
                refused += 1;
            }
        }
    }
    assert_eq!((taken, refused), (256, 65_536 - 256));
}
