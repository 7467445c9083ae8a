//! Counts the writes of a `BytesFilter`, and shows what it remembers. A text that it prints is written
//! from the start of one buffer, and a text that it remembers from a place of its own on the heap.
#![cfg(feature = "stream")]
use kodliwe::{BytesFilter, Format, StreamFault};
use std::io::{self, ErrorKind, Write};

const LEGACY: &str = "_ZN4core3fmt9Formatter3pad17h05af221e174051e9E";
const LEGACY_PATH: &str = "core::fmt::Formatter::pad";

/// A symbol whose path is long for it, and its path.
const MANY: &str = "_RINvC5crate8functionFGN_EuE";
const MANY_PATH: &str = "crate::function::<for<'a, 'b, 'c, 'd, 'e, 'f, 'g, 'h, 'i, 'j, 'k, 'l, 'm, 'n, \
    'o, 'p, 'q, 'r, 's, 't, 'u, 'v, 'w, 'x, 'y, 'z, '_26, '_27, '_28, '_29, '_30, '_31, '_32, '_33, \
    '_34, '_35, '_36, '_37, '_38, '_39, '_40, '_41, '_42, '_43, '_44, '_45, '_46, '_47, '_48, '_49, \
    '_50> fn()>";

/// A writer that keeps what it takes, counts the writes, and fails at one of them.
#[derive(Default)]
struct Counted {
    bytes: Vec<u8>,
    writes: usize,
    /// The address of the bytes of the first write.
    first: usize,
    fails_at: Option<usize>,
}

impl Write for Counted {
    fn write(&mut self, bytes: &[u8]) -> io::Result<usize> {
        if self.fails_at == Some(self.writes) {
            return Err(ErrorKind::StorageFull.into());
        }
        if self.writes == 0 {
            self.first = bytes.as_ptr() as usize;
        }
        self.writes += 1;
        self.bytes.extend_from_slice(bytes);
        Ok(bytes.len())
    }

    fn flush(&mut self) -> io::Result<()> {
        Ok(())
    }
}

/// How a symbol was written.
#[derive(Debug, PartialEq)]
struct Written {
    writes: usize,
    is_remembered: bool,
}

/// Returns a symbol that is printed first of all, and its path, which has 3,002 bytes.
fn first() -> (String, String) {
    let name = "x".repeat(1_500);
    let symbol = format!("_ZN1500{name}1500{name}17h05af221e174051e9E");
    (symbol, format!("{name}::{name}"))
}

/// A filter, and the address of the buffer into which it prints a text of up to 4,096 bytes.
struct Watched {
    filter: BytesFilter,
    buffer: usize,
}

impl Watched {
    /// Returns a filter that printed `first`.
    fn new() -> Watched {
        Watched::with_format(Format::new())
    }

    /// Returns a filter that printed `first` in this format, so its buffer has 4,096 bytes.
    fn with_format(format: Format) -> Watched {
        let mut watched = Watched {
            filter: BytesFilter::with_format(format),
            buffer: 0,
        };
        let (symbol, path) = first();
        watched.buffer = watched.write(&symbol, &path).first;
        watched
    }

    /// Filters a symbol and the line feed after it, and asserts the output.
    fn write(&mut self, symbol: &str, path: &str) -> Counted {
        let text = format!("{symbol}\n");
        let (mut input, mut output) = (text.as_bytes(), Counted::default());
        while !input.is_empty() {
            assert!(self.filter.step(&mut input, &mut output).unwrap());
        }
        assert_eq!(output.bytes, format!("{path}\n").into_bytes(), "{symbol}");
        output
    }
}

const PRINTED: Written = Written {
    writes: 1,
    is_remembered: false,
};

const REMEMBERED: Written = Written {
    writes: 1,
    is_remembered: true,
};

/// Filters a symbol and the line feed after it. Returns how the symbol was written.
fn written(watched: &mut Watched, symbol: &str, path: &str) -> Written {
    let output = watched.write(symbol, path);
    let (here, its_start) = (&raw const output as usize, &raw const *watched as usize);
    // The calls are less deep than this. The heap may begin directly after the stack.
    let stack = here - (1 << 16)..here;
    let its_bytes = its_start..its_start + size_of::<Watched>();
    let is_printed = stack.contains(&output.first)
        || its_bytes.contains(&output.first)
        || output.first == watched.buffer;
    Written {
        // One more is for the line feed.
        writes: output.writes - 1,
        is_remembered: !is_printed,
    }
}

/// Filters legacy symbols that come once.
fn filter_new(filter: &mut Watched, numbers: std::ops::Range<u64>) {
    for number in numbers {
        written(filter, &format!("_ZN4once17h{number:016x}E"), "once");
    }
}

#[test]
fn a_repeated_symbol_is_one_write() {
    let mut filter = Watched::new();
    for (symbol, path) in [(MANY, MANY_PATH), (LEGACY, LEGACY_PATH)] {
        for wanted in [PRINTED, PRINTED, REMEMBERED, REMEMBERED] {
            assert_eq!(written(&mut filter, symbol, path), wanted);
        }
    }
}

#[test]
fn a_legacy_symbol_is_one_write() {
    let long = format!("_ZN{}E", "9functions".repeat(300));
    let long_path = vec!["functions"; 300].join("::");
    let rows = [
        (LEGACY, LEGACY_PATH),
        ("_ZN9functions4nameE", "functions::name"),
        ("_ZN1a1bE", "a::b"),
        (&long, &long_path),
    ];
    let mut filter = Watched::new();
    for (symbol, path) in rows {
        for _ in 0..3 {
            let writes = written(&mut filter, symbol, path).writes;
            assert_eq!(writes, 1, "{symbol}");
        }
    }
}

#[test]
fn a_legacy_symbol_whose_suffix_ends_in_a_digit_is_one_write() {
    for (suffix, printed) in [
        (".llvm.12345678901234567890", ""),
        (".constprop.0", ".constprop.0"),
        (".cold.7", ".cold.7"),
    ] {
        let (symbol, path) = (
            LEGACY.to_string() + suffix,
            LEGACY_PATH.to_string() + printed,
        );
        let mut filter = Watched::new();
        for wanted in [PRINTED, PRINTED, REMEMBERED] {
            assert_eq!(written(&mut filter, &symbol, &path), wanted, "{suffix}");
        }
    }
}

#[test]
fn a_v0_symbol_is_one_write() {
    let long = format!("_RNvCs{}_1a1b", "0".repeat(2_037));
    let longer = format!("_RNvCs{}_1a1b", "0".repeat(2_039));
    assert_eq!((long.len(), longer.len()), (2_048, 2_050));
    let rows = [
        ("_RNvC5crate8function", "crate::function", "crate::function"),
        (
            "_RNvC5crate9functions",
            "crate::functions",
            "crate::functions",
        ),
        (
            "_RNvNtC5crate4main3fooC5other",
            "crate::main::foo",
            "crate::main::foo",
        ),
        (
            "_RNvNtC5crate4main3foo.llvm.1F",
            "crate::main::foo",
            "crate::main::foo",
        ),
        (
            "_RINvC5crate7genericmtE",
            "crate::generic::<u32, u16>",
            "crate::generic::<_>",
        ),
        (&long, "a::b", "a::b"),
        (&longer, "a::b", "a::b"),
        (MANY, MANY_PATH, "crate::function::<_>"),
    ];
    for (symbol, path, folded) in rows {
        for (fold_arguments, path) in [(false, path), (true, folded)] {
            let format = Format::new().with_folded_arguments(fold_arguments);
            let mut filter = Watched::with_format(format);
            for _ in 0..3 {
                assert_eq!(written(&mut filter, symbol, path).writes, 1, "{symbol}");
            }
        }
    }
}

/// Returns a symbol whose path has a name of `len` letters `times` times, and the path.
fn named_often(len: usize, times: usize) -> (String, String) {
    let name = "x".repeat(len);
    let symbol = format!("_RIC2abC{len}{name}{}E", "B4_".repeat(times - 1));
    let path = format!("ab::<{}>", vec![name; times].join(", "));
    (symbol, path)
}

#[test]
fn a_text_of_up_to_2048_bytes_is_remembered() {
    for (len, is_remembered) in [(1_019, true), (1_020, true), (1_021, false)] {
        let (symbol, path) = named_often(len, 2);
        assert_eq!(path.len(), 2 * len + 8);
        let mut filter = Watched::new();
        for is_remembered in [false, false, is_remembered, is_remembered] {
            let wanted = Written {
                writes: 1,
                is_remembered,
            };
            assert_eq!(written(&mut filter, &symbol, &path), wanted, "{len}");
        }
    }
}

#[test]
fn a_text_of_any_length_is_one_write() {
    for times in [2, 3, 4, 5, 8, 9, 30, 100, 330] {
        let (symbol, path) = named_often(1_020, times);
        assert!(symbol.len() <= 2_048);
        let mut filter = Watched::new();
        // The buffer grows, and holds the same text again.
        for _ in 0..4 {
            assert_eq!(written(&mut filter, &symbol, &path).writes, 1, "{times}");
        }
        // A short text after it is no longer.
        for _ in 0..4 {
            assert_eq!(written(&mut filter, LEGACY, LEGACY_PATH).writes, 1);
        }
    }
}

/// Returns a symbol whose path has a binder of 3,845 lifetimes `times` times, and the path.
fn bound_often(times: usize) -> (String, String) {
    let name = "x".repeat(1_000);
    let symbol = format!("_RIC1000{name}{}E", "FGZZ_Eu".repeat(times));
    let letters = ('a'..='z').map(|letter| format!("'{letter}"));
    let numbers = (26..3_845).map(|number| format!("'_{number}"));
    let lifetimes: Vec<String> = letters.chain(numbers).collect();
    let binder = format!("for<{}> fn()", lifetimes.join(", "));
    (
        symbol,
        format!("{name}::<{}>", vec![binder; times].join(", ")),
    )
}

#[test]
fn a_path_of_up_to_a_million_bytes_is_one_write() {
    for times in [18, 22, 29] {
        let (symbol, path) = bound_often(times);
        assert!(path.len() > 27_000 * times && path.len() <= 1_000_000);
        let mut filter = Watched::new();
        for _ in 0..3 {
            assert_eq!(written(&mut filter, &symbol, &path).writes, 1, "{times}");
        }
    }
}

#[test]
fn a_long_text_with_a_limit_over_a_million_is_written_in_parts() {
    let format = Format::new().with_limit(1_000_001);
    for (times, wanted) in [(2, 1..2), (3, 2..8)] {
        let (symbol, path) = named_often(1_020, times);
        let mut filter = Watched::with_format(format);
        for _ in 0..4 {
            let writes = written(&mut filter, &symbol, &path).writes;
            assert!(wanted.contains(&writes), "{times}: {writes}");
        }
    }
}

#[test]
fn a_symbol_after_a_run_that_is_none_is_one_write() {
    let mut filter = Watched::new();
    let damaged = "_RINvC5crate8functionmmmmmmmmmmmmmmmmmmm";
    written(&mut filter, damaged, damaged);
    let path = "crate::functions";
    assert_eq!(written(&mut filter, "_RNvC5crate9functions", path), PRINTED);
}

#[test]
fn a_filter_reads_another_input_after_its_end() {
    let mut filter = BytesFilter::new(false);
    let mut output = Vec::new();
    // A path would replace the `_` too, if the first input did not end before it.
    for text in ["x", "_RNvC1a1b", "_", "_RNvC1a1b\n"] {
        let mut input = text.as_bytes();
        while filter.step(&mut input, &mut output).unwrap() {}
    }
    assert_eq!(output, b"xa::b_a::b\n");
}

/// Filters a hundred symbols, whose last name has so many bytes, three times. Returns the length of
/// a symbol, and how many were remembered the third time.
fn remembered_of_length(len: usize) -> (usize, usize) {
    let (mut filter, mut remembered, mut symbol_len) = (Watched::new(), 0, 0);
    for turn in 0..3 {
        for number in 0..100 {
            let path = format!("crate_{number:02}::{}", "x".repeat(len));
            let symbol = format!("_RNvC8crate_{number:02}{len}{}", "x".repeat(len));
            let is_remembered = written(&mut filter, &symbol, &path).is_remembered;
            remembered += usize::from(turn == 2 && is_remembered);
            symbol_len = symbol.len();
        }
    }
    (symbol_len, remembered)
}

#[test]
fn symbols_of_at_least_20_bytes_are_remembered_beside_one_another() {
    for len in [5, 9, 13, 19, 40, 100] {
        let (symbol_len, remembered) = remembered_of_length(len);
        // Two of them may share a slot of the memo.
        assert!(symbol_len >= 20 && remembered >= 95, "{len}: {remembered}");
    }
    for len in [1, 4] {
        let (symbol_len, remembered) = remembered_of_length(len);
        assert!(symbol_len < 20 && remembered == 0, "{len}: {remembered}");
    }
}

#[test]
fn a_filter_remembers_nothing_for_a_while_if_symbols_come_once() {
    let mut filter = Watched::new();
    // Each symbol that comes first adds one to a count, and so does the one of the new filter.
    filter_new(&mut filter, 0..4_095);
    for _ in 0..3 {
        assert_eq!(written(&mut filter, MANY, MANY_PATH), PRINTED);
    }
    // It starts again after 32,768 runs.
    filter_new(&mut filter, 4_095..4_095 + 32_765);
    for wanted in [PRINTED, PRINTED, REMEMBERED] {
        assert_eq!(written(&mut filter, MANY, MANY_PATH), wanted);
    }
}

/// Filters one repeated symbol among others that come once. Returns how often it was remembered.
fn remembered_of(turns: u64, others: u64) -> u64 {
    let mut filter = Watched::new();
    let mut remembered = 0;
    for turn in 0..turns {
        filter_new(&mut filter, turn * others..(turn + 1) * others);
        remembered += u64::from(written(&mut filter, MANY, MANY_PATH).is_remembered);
    }
    remembered
}

#[test]
fn one_repeated_symbol_of_twenty_keeps_the_memory_on() {
    assert_eq!(remembered_of(2_000, 10), 1_998);
    assert_eq!(remembered_of(2_000, 19), 1_998);
    // Of 41 lookups, 40 add one to the count and one subtracts 19. At 4,096 nothing is remembered.
    assert!((190..200).contains(&remembered_of(800, 40)));
}

#[test]
fn an_error_of_the_writer_is_returned_as_it_is() {
    let text = format!("{LEGACY}\n{MANY}\n").repeat(5);
    let mut whole = Counted::default();
    kodliwe::demangle_bytes(&mut text.as_bytes(), &mut whole, false).unwrap();
    for fails_at in 0..whole.writes {
        let mut output = Counted {
            fails_at: Some(fails_at),
            ..Counted::default()
        };
        let fault = kodliwe::demangle_bytes(&mut text.as_bytes(), &mut output, false).unwrap_err();
        assert!(
            matches!(&fault, StreamFault::Write(error) if error.kind() == ErrorKind::StorageFull),
            "write {fails_at}: {fault:?}"
        );
        assert!(whole.bytes.starts_with(&output.bytes));
    }
}
