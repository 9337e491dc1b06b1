//! What is shown of a word: its value, never as if it were exact where it is not, and its bits.
use ledusprig::{Rule, Saying, Takum, Value, Width};

/// The digits that count: no sign, point or exponent, and no zeros at the ends.
fn digits(text: &str) -> String {
    let mantissa = text.split('e').next().unwrap().replace(['-', '.'], "");
    mantissa.trim_matches('0').to_string()
}

#[test]
fn a_value_without_a_mark_has_all_its_digits() {
    let (mut exact, mut marked) = (0, 0);
    for word in (0..=0xFFFF).step_by(32) {
        let takum = Takum::new(Width::W16, word).unwrap();
        let (text, number) = (takum.to_string(), f64::from(takum));
        if takum.is_nar() {
            assert_eq!(text, "NaR");
        } else if let Some(rest) = text.strip_prefix('~') {
            assert_eq!(rest.parse(), Ok(number));
            marked += 1;
        } else {
            assert_eq!(text.parse(), Ok(number));
            assert_eq!(digits(&text), digits(&format!("{number:.400e}")), "{text}");
            exact += 1;
        }
    }
    assert!(exact > 500 && marked > 500, "{exact} {marked}");
}

#[test]
fn of_a_wide_word_it_is_never_said_to_be_exact_by_too_few_digits() {
    let shown = |x: f64| Takum::try_from((Width::W64, x)).unwrap().to_string();
    assert_eq!(shown(0.1), "~0.1");
    assert_eq!(shown(0.75), "0.75");
    assert_eq!(shown(-1.0 / 1_048_576.0), "-9.5367431640625e-7");
    assert_eq!(shown((1_u64 << 60) as f64), "1152921504606846976");
    assert_eq!(shown((1_u64 << 63) as f64), "~9.223372036854776e18");
    let odd = Takum::try_from((Width::W64, (1_i64 << 54) + 1)).unwrap();
    assert_eq!(odd.to_string(), "18014398509481985");
}

#[test]
fn with_a_precision_too_only_what_is_exact_has_no_mark() {
    let (mut exact, mut marked) = (0, 0);
    for word in (0..=0xFFFF).step_by(32).filter(|&word| word != 0x8000) {
        let takum = Takum::new(Width::W16, word).unwrap();
        let number = f64::from(takum);
        let all = format!("{number:.400}"); // of 16 bits an f64 has the value, and no value has more decimals
        for decimals in [0, 1, 4, 20, 60, 300] {
            let (text, cut) = (format!("{takum:.decimals$}"), format!("{number:.decimals$}"));
            if format!("{cut}{}{:0<rest$}", if decimals == 0 { "." } else { "" }, "", rest = 400 - decimals) == all {
                assert_eq!(text, cut);
                exact += 1;
            } else {
                assert_eq!(text, format!("~{cut}"));
                marked += 1;
            }
        }
    }
    assert!(exact > 1000 && marked > 1000, "{exact} {marked}");
}

#[test]
fn a_whole_number_has_zeros_for_decimals() {
    let odd = Takum::try_from((Width::W64, -(1_i64 << 53) - 1)).unwrap();
    assert_eq!(format!("{odd} {odd:.0} {odd:.2} {:.1}", Width::W64.zero()), "-9007199254740993 -9007199254740993 -9007199254740993.00 0.0");
    // beyond an i64 the binary64 number is all there is, exact or not
    let beyond = Takum::try_from((Width::W64, (1_u64 << 63) as f64)).unwrap();
    assert_eq!(format!("{beyond} {beyond:.0} {beyond:.1}"), "~9.223372036854776e18 9223372036854775808 9223372036854775808.0");
    // 1 + 2^-54 has a word of 64 bits, and its binary64 number is 1
    let near = Width::W64.write(Rule::Strict, Value { negative: false, m: (1 << 54) + 1, k: -54 }).unwrap().word;
    assert_eq!(format!("{near} {near:.1} {near:.60}"), format!("~1.0 ~1.0 ~1.{:060}", 0));
}

#[test]
fn fields_are_filled_as_those_of_numbers() {
    let (half, nar) = (Takum::try_from((Width::W16, -0.5)).unwrap(), Width::W16.nar());
    assert_eq!(format!("[{half:7}] [{half:<7}] [{half:^7}] [{half:*>7}] [{half:2}]"), "[   -0.5] [-0.5   ] [ -0.5  ] [***-0.5] [-0.5]");
    assert_eq!(format!("[{nar:5}] [{nar:<5}] [{nar:.1}]"), "[  NaR] [NaR  ] [NaR]");
    assert_eq!(format!("[{half:.3}] [{half:8.1}]"), "[-0.500] [    -0.5]");
    assert_eq!(format!("[{half:08}] [{half:08.2}] [{half:*<08}] [{half:02}] [{half:+}]"), "[-00000.5] [-0000.50] [-00000.5] [-0.5] [-0.5]");
    let (up, ten) = (-half, Takum::try_from((Width::W16, 10_i64)).unwrap());
    let tenth = Takum::try_from((Width::W64, 0.1)).unwrap();
    assert_eq!(format!("[{up:+}] [{up:+06}] [{ten:+}] [{ten:05}] [{ten:+07.1}]"), "[+0.5] [+000.5] [+10] [00010] [+0010.0]");
    assert_eq!(format!("[{tenth:+}] [{tenth:+07.1}] [{:07}] [{tenth:>+7}]", -tenth), "[~+0.1] [~+000.1] [~-000.1] [  ~+0.1]");
    assert_eq!(format!("[{nar:+}] [{nar:06}] [{nar:+06.1}]"), "[NaR] [   NaR] [   NaR]");
}

#[test]
fn sayings_are_texts() {
    let sayings = [Saying::Exact, Saying::Below, Saying::Above, Saying::PastTheEnd];
    assert_eq!(sayings.map(|saying| saying.to_string()), ["exact", "below", "above", "past the end"]);
    assert_eq!(format!("[{:7}] [{:>7}] [{:?}]", Saying::Exact, Saying::Below, Saying::PastTheEnd), "[exact  ] [  below] [PastTheEnd]");
}

#[test]
fn bits_are_shown_as_those_of_a_number() {
    let tally = Takum::new(Width::W16, 0x5A01).unwrap();
    assert_eq!(format!("{tally:x} {tally:X} {tally:#x} {tally:#010x} {tally:>6x}"), "5a01 5A01 0x5a01 0x00005a01   5a01");
    assert_eq!(format!("{tally:b} {tally:#b}"), "101101000000001 0b101101000000001");
    assert_eq!(format!("{tally:?}"), "Takum { width: 16, word: 0x5a01 }");
    assert_eq!(format!("{}", tally.width()), "16");
}
