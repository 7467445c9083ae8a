//! Tests of the parts of `support` that replace proved code.
extern crate std;

use super::arrayvec::{ArrayString, ArrayVec};
use super::itoa::Buffer;
use super::memchr::{memchr, memrchr};
use super::unicode::properties::{GeneralCategory, is_grapheme_extend};
use std::string::ToString;
use std::vec;

#[test]
fn memchr_finds_the_first_of_any_places() {
    // Up to three groups of 32 bytes and a part of a fourth.
    for len in 0..100 {
        assert_eq!(memchr(b'_', &vec![b'a'; len]), None, "{len}");
        for first in 0..len {
            for second in first..len {
                for other in [0, b'^', b'`', 0x5E, 0x7F, 0x80, 0xDF, 0xFF] {
                    let mut text = vec![other; len];
                    text[first] = b'_';
                    text[second] = b'_';
                    assert_eq!(memchr(b'_', &text), Some(first), "{len} {second} {other}");
                }
            }
        }
    }
}

#[test]
fn memrchr_finds_the_last_of_any_places() {
    for len in 0..100usize {
        for other in [b'-', b'/', 0, 0x7F, 0x80, 0xAE, 0xFF] {
            assert_eq!(memrchr(b'.', &vec![other; len]), None, "{len} {other}");
            for last in 0..len {
                for first in 0..=last {
                    let mut text = vec![other; len];
                    text[first] = b'.';
                    text[last] = b'.';
                    assert_eq!(memrchr(b'.', &text), Some(last), "{len} {first} {other}");
                }
            }
        }
    }
}

#[test]
fn memchr_finds_each_byte() {
    for needle in 0..=u8::MAX {
        for other in 0..=u8::MAX {
            let text = [
                other, other, needle, other, needle, other, other, other, other,
            ];
            let first = text.iter().position(|byte| *byte == needle);
            assert_eq!(memchr(needle, &text), first, "{needle} {other}");
        }
    }
}

#[test]
fn numbers_are_formatted_as_rust_does() {
    let mut numbers = vec![0, 1, 9, 10, 11, 99, 100, u128::MAX, u128::MAX - 1];
    for shift in 0..128 {
        numbers.extend([1 << shift, (1 << shift) - 1, (1 << shift) + 1]);
    }
    for digits in 0..39 {
        let power = 10u128.pow(digits);
        numbers.extend([power - 1, power, power + 1]);
    }
    for number in numbers {
        assert_eq!(Buffer::new().format(number), number.to_string());
    }
    assert_eq!(Buffer::new().format(u64::MAX), u64::MAX.to_string());
}

#[test]
fn an_array_vector_keeps_its_elements() {
    let mut vector = ArrayVec::<u32, 4>::new();
    vector.push(1);
    vector.push(3);
    vector.insert(1, 2);
    assert_eq!(vector.as_slice(), [1, 2, 3]);
    vector.insert(0, 0);
    assert!(vector.is_full());
    assert_eq!(vector.as_slice(), [0, 1, 2, 3]);
}

#[test]
fn an_array_string_keeps_its_text() {
    let mut text = ArrayString::<5>::new();
    text.push_str("\u{e9}");
    text.push_str("");
    assert_eq!(text.remaining_capacity(), 3);
    text.push_str("abc");
    assert_eq!((text.as_str(), text.remaining_capacity()), ("\u{e9}abc", 0));
}

#[test]
fn some_characters_have_their_properties() {
    let rows = [
        ('\0', GeneralCategory::Control),
        ('a', GeneralCategory::Other),
        ('\u{a0}', GeneralCategory::SpaceSeparator),
        ('\u{ad}', GeneralCategory::Format),
        ('\u{2028}', GeneralCategory::LineSeparator),
        ('\u{2029}', GeneralCategory::ParagraphSeparator),
        ('\u{d7ff}', GeneralCategory::Unassigned),
        ('\u{e000}', GeneralCategory::PrivateUse),
        ('\u{ffff}', GeneralCategory::Unassigned),
        ('\u{10fffd}', GeneralCategory::PrivateUse),
        (char::MAX, GeneralCategory::Unassigned),
    ];
    for (c, category) in rows {
        assert_eq!(GeneralCategory::for_char(c), category, "{c:?}");
    }
    assert!(is_grapheme_extend('\u{301}') && !is_grapheme_extend('a'));
}
