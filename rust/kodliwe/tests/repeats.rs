//! `demangle_bytes`, which remembers the paths of symbols, writes the same as `demangle_slice`,
//! which remembers nothing. This holds for all chunks of the reader and for symbols that come
//! repeatedly.
#![cfg(feature = "stream")]
use std::io::{self, BufRead, Read};

const SYMBOLS: [&str; 22] = [
    "_ZN3foo3barE",
    "_ZN4core3fmt9Formatter3pad17h05af221e174051e9E",
    "_ZN4core3fmt9Formatter3pad17h05af221e174051eaE",
    "_ZN47_$LT$u32$u20$as$u20$core..iter..range..Step$GT$17forward_unchecked17hfa563f05ad3692ccE",
    "_ZN4core3fmt9Formatter3pad17h05af221e174051e9E.llvm.1234567890123456789",
    "_ZN4core3fmt9Formatter3pad17h05af221e174051e9E.llvm.12.34",
    "_ZN4core3fmt9Formatter3pad17h05af221e174051e9E.constprop.0",
    "_ZNSt6vectorIiSaIiEE17_M_realloc_insertIJRKiEEEvN9__gnu_cxx17__normal_iteratorIPiS1_EEDpOT_",
    "_ZNSt6vectorIiSaIiEE17_M_realloc_insert.constprop.0",
    "_RNvMNtNtNtNtCs8a2262Dv4r_3mio3sys4unix8selector5epollNtB2_8Selector6select",
    "_RNvMNtNtNtNtCs8a2262Dv4r_3mio3sys4unix8selector5epollNtB2_8Selector6select.llvm.9876543210",
    "_RNvXs_NtNtCs1234_4core3ops8functionNtB4_5FnMut8call_mut",
    "_RNvC5crate4main_not_allowed",
    "_RNvC5crate4mainNvC5other",
    "_RNvNtC5crate4main3fooC5other.llvm.1F",
    "_RINvC5crate7genericRL1_uE",
    "_RC1a",
    "_R_is_no_symbol_at_all_and_ends_1",
    "_ZN",
    "_",
    "_Z",
    "a word",
];

/// A reader that makes a text available in chunks.
struct Chunks<'a> {
    text: &'a [u8],
    size: usize,
}

impl Read for Chunks<'_> {
    fn read(&mut self, buffer: &mut [u8]) -> io::Result<usize> {
        let chunk = self.fill_buf()?;
        let len = chunk.len().min(buffer.len());
        buffer[..len].copy_from_slice(&chunk[..len]);
        self.consume(len);
        Ok(len)
    }
}

impl BufRead for Chunks<'_> {
    fn fill_buf(&mut self) -> io::Result<&[u8]> {
        Ok(&self.text[..self.text.len().min(self.size)])
    }

    fn consume(&mut self, len: usize) {
        self.text = &self.text[len..];
    }
}

/// Returns a symbol whose references double its path at each level.
fn deep_tuple(levels: usize) -> String {
    let digits = b"0123456789abcdefghijklmnopqrstuvwxyz";
    let (mut symbol, mut at) = ("IC1aTC1bC1bE".to_string(), 4);
    for _ in 0..levels {
        let here = symbol.len();
        let reference = digits[at - 1] as char;
        symbol += &format!("TB{reference}_B{reference}_E");
        at = here;
    }
    format!("_R{symbol}E")
}

/// Returns a text in which each symbol comes many times, apart from some that come once.
fn repeats() -> Vec<u8> {
    let mut symbols: Vec<String> = SYMBOLS.map(String::from).into();
    symbols.push(deep_tuple(2));
    // Its text is longer than an entry, and this symbol is longer than a key.
    symbols.push(format!(
        "_RINvC1a1bT{}EE",
        "NtNtC4core6option6Option".repeat(20)
    ));
    symbols.push(format!("_ZN{}17h05af221e174051e9E", "8abcdefgh".repeat(40)));
    symbols.push(format!(
        "_ZN{}17h05af221e174051e9E",
        "8abcdefgh".repeat(300)
    ));
    let mut text = Vec::new();
    let mut chance: u32 = 1;
    for turn in 0..1_500u32 {
        chance = chance.wrapping_mul(1_664_525).wrapping_add(1_013_904_223);
        text.extend_from_slice(symbols[chance as usize / 65_536 % symbols.len()].as_bytes());
        text.extend_from_slice(
            [&b"\n"[..], b" ", b"\xFF", b"-", b"+0x1f\n"][chance as usize / 256 % 5],
        );
        if turn % 7 == 0 {
            text.extend_from_slice(format!("_ZN4once17h{chance:016x}E\n").as_bytes());
        }
    }
    text
}

#[test]
fn repeats_are_written_as_the_first_time() {
    let text = repeats();
    for include_hash in [false, true] {
        for limit in [0, 40, kodliwe::MAX_SIZE] {
            let mut memory = vec![0; 16 * text.len()];
            let len = kodliwe::demangle_slice(&text, &mut memory, include_hash, limit).unwrap();
            for size in [1, 2, 3, 61, 65_536] {
                let mut input = Chunks { text: &text, size };
                let mut output = Vec::new();
                kodliwe::demangle_bytes_limited(&mut input, &mut output, include_hash, limit)
                    .unwrap();
                assert!(
                    output == memory[..len],
                    "hash {include_hash}, limit {limit}, chunks of {size}"
                );
            }
        }
    }
}
