//! Exact figures.

use study_tool::exact::{Figure, FigureError, Fraction, is_decimal};

fn value(text: &str) -> Fraction {
    Figure::parse(text).expect(text).value
}

#[track_caller]
fn same(text: &str, numerator: u128, denominator: u128) {
    assert_eq!(
        Some(value(text)),
        Fraction::new(numerator, denominator),
        "{text}"
    );
}

#[test]
fn decimal_notation_is_read() {
    same("0", 0, 1);
    same("24", 24, 1);
    same("0.15", 3, 20);
    same(".15", 3, 20);
    same("4.", 4, 1);
    same("+4.000", 4, 1);
    same("25900.20064", 2_590_020_064, 100_000);
    same("1.5e-3", 3, 2_000);
    same("2.5E+2", 250, 1);
    same("-0.0", 0, 1);
    same("1000000000000000000000000000000000000", 10u128.pow(36), 1);
    same("0.000000000000000000000000000000000005", 5, 10u128.pow(36));
    same("1.50000000000000000000000000000000000000000000", 3, 2);
}

#[test]
fn other_text_is_not_a_figure() {
    for text in [
        "", ".", "-", "x", "1,000", "1.2.3", "1e", "1e+", "e5", "--1", "1 2", "0x10", "inf", "NaN",
        "٣",
    ] {
        assert_eq!(Figure::parse(text), Err(FigureError::NotDecimal), "{text}");
        assert!(!is_decimal(text), "{text}");
    }
    assert!(is_decimal("-3.5"));
    assert_eq!(Figure::parse("-3.5"), Err(FigureError::Negative));
}

#[test]
fn what_cannot_be_kept_exactly_is_an_error() {
    for text in [
        "123456789012345678901234567890123456789",
        "0.123456789012345678901234567890123456789",
        "1e40",
        "1e-40",
        "1e99999999999999999999",
    ] {
        assert_eq!(Figure::parse(text), Err(FigureError::TooLong), "{text}");
        assert!(is_decimal(text), "{text}");
    }
    let tiny = value("1e-30");
    assert_eq!(tiny.times(tiny), None);
    assert_eq!(tiny.divided_by(Fraction::ZERO), None);
}

#[test]
fn places_are_those_written() {
    for (text, places) in [
        ("360600.0", 1),
        ("5", 0),
        ("0.000", 3),
        ("1.5e-3", 4),
        ("1.5e3", 0),
    ] {
        assert_eq!(Figure::parse(text).expect(text).places, places, "{text}");
    }
}

#[test]
fn halves_go_up() {
    for (text, nearest) in [
        ("0.4999999999999999999999999999", 0),
        ("0.5", 1),
        ("1.5", 2),
        ("2.5", 3),
        ("2.4", 2),
        ("65535.5", 65_536),
        ("7", 7),
    ] {
        assert_eq!(value(text).nearest(), nearest, "{text}");
    }
    assert_eq!(value("2.4").rounding(), value("0.4"));
    assert_eq!(value("2.5").rounding(), value("0.5"));
    assert_eq!(value("2.7").rounding(), value("0.3"));
    assert!(value("7").rounding().is_zero());
}

#[test]
fn floating_point_would_go_wrong_here() {
    let hundred = Fraction::whole(100);
    // 1.005 × 100 is 100.49999999999999 in floating point, 0.29 × 100 is 28.999999999999996.
    assert_eq!(value("1.005").times(hundred).expect("fits").nearest(), 101);
    assert!(
        value("0.29")
            .times(hundred)
            .expect("fits")
            .rounding()
            .is_zero()
    );
    assert_eq!(value("0.1").plus(value("0.2")), Some(value("0.3")));
    assert_eq!(value("0.3").apart(value("0.1")), Some(value("0.2")));
    assert_eq!(value("0.1").apart(value("0.3")), Some(value("0.2")));
    // Figures as floating point prints them can be multiplied.
    assert!(
        value("0.05555555555555555")
            .times(value("0.15000000000000002"))
            .is_some()
    );
}

#[test]
fn order_is_exact() {
    let third = Fraction::new(1, 3).expect("fits");
    assert!(value("0.333333333333333333333333333333333333") < third);
    assert!(third < value("0.333333333333333333333333333333333334"));
    assert!(value("2") < value("2.5"));
    assert!(value("2.5") > value("2"));
    assert!(value("0") < value("1e-30"));
    assert_eq!(value("1.50").cmp(&value("1.5")), std::cmp::Ordering::Equal);
    for one in 0..40u128 {
        for other in 0..40u128 {
            let (a, b) = (
                Fraction::new(one, 7).expect("fits"),
                Fraction::new(other, 5).expect("fits"),
            );
            assert_eq!(a.cmp(&b), (5 * one).cmp(&(7 * other)), "{one}/7 {other}/5");
        }
    }
}

#[test]
fn fractions_are_shown_in_decimals() {
    for (numerator, denominator, shown) in [
        (0, 1, "0"),
        (65_535, 1, "65,535"),
        (4_917_717, 10_000_000, "0.4917717"),
        (1, 3, "0.333333333…"),
        (123_456_789, 2, "61,728,394.5"),
        (1, 1_000_000_000, "0.000000001"),
        (1, 10_000_000_000, "0.000000000…"),
    ] {
        let fraction = Fraction::new(numerator, denominator).expect("fits");
        assert_eq!(fraction.to_string(), shown);
    }
}
