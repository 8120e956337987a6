//! The stand-ins on known answers.

use crate::binary::int::DecodedInt;
use crate::binary::uint::minimal_be_bytes;
use crate::decimal::{Coefficient, Sign};
use crate::result::{EncodingError, IonError, IonFailure, IonResult};
use crate::types::overflowing_int::OverflowingInt;
use crate::{Decimal, Int};
use arrayvec::{ArrayString, ArrayVec};
use num_integer::Integer;
use std::cmp::Ordering;
use std::io::Write;

#[test]
fn itoa_prints_as_the_standard_library_does() {
    let mut numbers = vec![0, u64::MAX];
    for power in 0..20 {
        let power = 10u64.pow(power);
        numbers.extend([power - 1, power, power + 1, power / 7]);
    }
    for number in numbers {
        let mut buffer = itoa::Buffer::new();
        assert_eq!(buffer.format(number), number.to_string());
        assert_eq!(buffer.format(number as usize), number.to_string());
        assert_eq!(buffer.format(number as i64), (number as i64).to_string());
        let wide = number as u128 * number as u128;
        assert_eq!(buffer.format(wide), wide.to_string());
    }
    assert_eq!(itoa::Buffer::new().format(u128::MAX), u128::MAX.to_string());
    assert_eq!(itoa::Buffer::new().format(i64::MIN), i64::MIN.to_string());
    for number in 0..100_000u64 {
        assert_eq!(itoa::Buffer::new().format(number), number.to_string());
    }
}

#[test]
fn an_array_vec_takes_what_there_is_room_for() {
    let mut bytes: ArrayVec<u8, 4> = ArrayVec::new();
    assert!(bytes.is_empty());
    assert_eq!(bytes.write(&[1, 2, 3]).unwrap(), 3);
    assert_eq!(bytes.write(&[4, 5]).unwrap(), 1);
    assert_eq!(bytes[..], [1, 2, 3, 4]);
    assert!(bytes.write_all(&[6]).is_err());

    let mut text: ArrayString<3> = ArrayString::new();
    assert!(text.try_push_str("ab").is_ok());
    assert!(text.try_push_str("cd").is_err());
    assert_eq!(&*text, "ab");
    text.clear();
    assert!(text.is_empty());
}

#[test]
fn the_fewest_big_endian_bytes() {
    let bytes = |number| {
        let (bytes, start) = minimal_be_bytes(number);
        bytes[start..].to_vec()
    };
    assert_eq!(bytes(0), [0]);
    assert_eq!(bytes(1), [1]);
    assert_eq!(bytes(0xFF), [0xFF]);
    assert_eq!(bytes(0x100), [1, 0]);
    assert_eq!(bytes(123_456_789), [0x07, 0x5B, 0xCD, 0x15]);
    assert_eq!(bytes(u128::MAX), [0xFF; 16]);
}

#[test]
fn integers_as_int_fields() {
    let bytes = |number: i64| {
        let mut bytes = Vec::new();
        DecodedInt::write(&mut bytes, &Int::from(number)).unwrap();
        bytes
    };
    assert_eq!(bytes(127), [0x7F]);
    assert_eq!(bytes(128), [0x00, 0x80]);
    assert_eq!(bytes(-127), [0xFF]);
    assert_eq!(bytes(-128), [0x80, 0x80]);
    assert_eq!(bytes(256), [0x01, 0x00]);
    // The scope has no bytes for a zero; the writers of decimals never pass one.
    assert_eq!(bytes(0), [0x00]);
}

#[test]
fn signs_and_zeros() {
    let negative_zero = Coefficient::from_sign_and_value(Sign::Negative, 0u64);
    assert!(negative_zero.is_negative_zero());
    assert!(negative_zero.as_int().is_none());
    assert!(!Decimal::new(negative_zero, -3).is_less_than_zero());
    let minus_five = Coefficient::from_sign_and_value(Sign::Negative, 5u64);
    assert!(Decimal::new(minus_five.clone(), -3).is_less_than_zero());
    assert_eq!(minus_five.magnitude().as_u128(), Some(5));
    assert_eq!(minus_five.to_string(), "-5");
    assert_eq!(Decimal::new(12_345u64, -3).to_string(), "12.345");
}

#[test]
fn scaled_magnitudes() {
    let number = |magnitude| OverflowingInt::new(Sign::Positive, magnitude);
    assert_eq!(number(12_345).div_rem_pow10(3), (number(12), number(345)));
    assert_eq!(number(12).div_rem_pow10(u64::MAX), (number(0), number(12)));
    assert_eq!(number(16).cmp_magnitude_scaled(2, &number(1600)), Ordering::Equal);
    assert_eq!(number(1).cmp_magnitude_scaled(u64::MAX, &number(u128::MAX)), Ordering::Greater);
    assert_eq!(number(0).cmp_magnitude_scaled(u64::MAX, &number(1)), Ordering::Less);
    assert!(Decimal::new(16u64, 3) == Decimal::new(1600u64, 1));
}

#[test]
fn error_texts() {
    let error = IonError::from(EncodingError::new("no room"));
    assert_eq!(error.to_string(), "no room");
    let error = IonResult::<()>::illegal_operation("no such day").unwrap_err();
    let text = "the user has performed an operation that is not legal in the current state: no such day";
    assert_eq!(error.to_string(), text);
    let error = IonError::application("outside");
    assert_eq!(error.to_string(), "outside");
}

#[test]
fn quotients_and_cold_code() {
    assert_eq!(64usize.div_rem(&7), (9, 1));
    assert_eq!(ice_code::ice!(1 + 1), 2);
    assert_eq!(ice_code::ice!(label => 1 + 1), 2);
}
