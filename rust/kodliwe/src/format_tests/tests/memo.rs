// Made from crates/format_tests/src/tests/memo.rt by packaging/crate/erase.py: edit that file instead.
//! Tests a memo with keys that share a hash, long keys and full memory.

use crate::support::rt::HostRuntime;
use crate::support::test::Fail;
use crate::text_memo::{MAX_KEY, MAX_TEXT, Noted, TextMemo, hash_of};

/// Returns the text that a memo has for a key.
fn text_of<'m>(memo: &'m TextMemo, key: &[u8], hash: u64) -> Option<&'m [u8]> {
    memo.get(key, hash)
}

#[test]
fn a_text_is_found_again() -> Result<(), Fail> {
    let rt = HostRuntime;
    let mut memo = TextMemo::new(rt.alloc());
    let keys: [&[u8]; 3] = [
        b"k",
        b"a key of twenty bytes",
        b"another key of many more bytes",
    ];
    for key in keys {
        assert_eq!(text_of(&memo, key, hash_of(key)), None);
        memo.insert(key, b"text", hash_of(key));
    }
    for key in keys {
        assert_eq!(text_of(&memo, key, hash_of(key)), Some(b"text".as_slice()));
    }
    Ok(())
}

/// Returns whether a memo has this text for a key whose hash is 7.
fn has_text(memo: &TextMemo, key: &[u8], text: &[u8]) -> bool {
    if key.is_empty() {
        return false;
    }
    match text_of(memo, key, 7) {
        Some(found) => found == text,
        None => false,
    }
}

#[test]
fn keys_of_one_hash_have_their_own_texts() -> Result<(), Fail> {
    let rt = HostRuntime;
    let mut memo = TextMemo::new(rt.alloc());
    memo.insert(b"first", b"one", 7);
    memo.insert(b"third", b"three", 7);
    assert!(has_text(&memo, b"first", b"one"));
    assert!(has_text(&memo, b"third", b"three"));
    assert!(text_of(&memo, b"fifth", 7).is_none());
    // A pair has two entries, and the older one is removed.
    memo.insert(b"fifth", b"", 7);
    assert!(text_of(&memo, b"first", 7).is_none());
    assert!(has_text(&memo, b"third", b"three"));
    assert!(has_text(&memo, b"fifth", b""));
    Ok(())
}

#[test]
fn long_keys_and_texts_have_no_entry() -> Result<(), Fail> {
    let rt = HostRuntime;
    let bytes = [b'a'; 2049];
    let mut memo = TextMemo::new(rt.alloc());
    for &(key_len, text_len, is_kept) in &[
        (MAX_KEY, MAX_TEXT, true),
        (MAX_KEY.saturating_add(1), 1, false),
        (1, MAX_TEXT.saturating_add(1), false),
    ] {
        let key = bytes.get(..key_len).unwrap_or(b"");
        let text = bytes.get(..text_len).unwrap_or(b"");
        memo.insert(key, text, 1);
        assert_eq!(text_of(&memo, key, 1), is_kept.then_some(text));
    }
    Ok(())
}

#[test]
fn a_key_is_noted() -> Result<(), Fail> {
    let rt = HostRuntime;
    let mut memo = TextMemo::new(rt.alloc());
    assert_eq!(memo.note(2), Noted::New);
    assert_eq!(memo.note(2), Noted::Again);
    // Another key with the same index replaces the fingerprint.
    assert_eq!(memo.note(4), Noted::New);
    assert_eq!(memo.note(2), Noted::New);
    // The key of a long text is noted apart, so it keeps no other key out.
    memo.note_too_long(2);
    assert_eq!(memo.note(2), Noted::TooLong);
    assert_eq!(memo.note(4), Noted::New);
    assert_eq!(memo.note(4), Noted::Again);
    assert_eq!(memo.note(2), Noted::New);
    assert_eq!(memo.note(2), Noted::TooLong);
    // Another one replaces it.
    memo.note_too_long(4);
    assert_eq!(memo.note(4), Noted::New);
    assert_eq!(memo.note(4), Noted::TooLong);
    assert_eq!(memo.note(2), Noted::New);
    assert_eq!(memo.note(2), Noted::Again);
    Ok(())
}

#[test]
fn every_byte_of_a_key_changes_its_hash() -> Result<(), Fail> {
    let keys: [&[u8]; 2] = [
        b"_RNvMNtNtNtNtCs8a2262Dv4r_3mio3sys4unix8selector5epollNtB2_8Selector6select",
        b"_ZN4core3fmt9Formatter3pad17h05af221e174051e9E",
    ];
    for key in keys {
        let hash = hash_of(key);
        let mut changed = [0; 128];
        for place in 0..key.len().min(128) {
            for (to, from) in changed.iter_mut().zip(key) {
                *to = *from;
            }
            changed[place] ^= 1;
            let other = changed.get(..key.len()).unwrap_or(b"");
            assert!(hash_of(other) != hash);
        }
    }
    Ok(())
}

#[test]
fn a_full_memo_starts_anew() -> Result<(), Fail> {
    let rt = HostRuntime;
    let text = [b'a'; MAX_TEXT];
    let mut memo = TextMemo::new(rt.alloc());
    assert_eq!(memo.note(7), Noted::New);
    assert_eq!(memo.allocated(), 32_768);
    memo.insert(b"key", b"text", 7);
    // The pairs take 196,608 bytes, and the first texts 65,536.
    assert_eq!(memo.allocated(), 294_912);
    let mut lost = 0;
    for turn in 0..5_000u64 {
        let key = turn.to_le_bytes();
        memo.insert(&key, &text, turn << 32);
        assert_eq!(text_of(&memo, &key, turn << 32), Some(text.as_slice()));
        let first = 0u64.to_le_bytes();
        if lost == 0 && text_of(&memo, &first, 0).is_none() {
            lost = turn;
        }
    }
    // 2,040 entries of 2,056 bytes and one of 7 are the most.
    assert_eq!(lost, 2_040);
    assert_eq!(memo.allocated(), 4_423_680);
    // The notes stay.
    assert_eq!(memo.note(7), Noted::Again);
    Ok(())
}
