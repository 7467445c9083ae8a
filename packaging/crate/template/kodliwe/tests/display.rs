//! Tests what a formatter gets, which is the pieces of a path, joined to longer texts.
use kodliwe::{ArraySink, demangle};
use std::fmt::{self, Write};

/// A writer that rejects the text which exceeds its room.
struct Narrow {
    texts: Vec<String>,
    room: usize,
    /// Whether it takes the start of the rejected text.
    is_cutting: bool,
    is_full: bool,
}

impl Narrow {
    fn of(room: usize, is_cutting: bool) -> Self {
        Narrow {
            texts: Vec::new(),
            room,
            is_cutting,
            is_full: false,
        }
    }
}

impl Write for Narrow {
    fn write_str(&mut self, text: &str) -> fmt::Result {
        assert!(!self.is_full, "it got a text after it had failed");
        assert!(!text.is_empty(), "it got an empty text");
        if text.len() <= self.room {
            self.room -= text.len();
            self.texts.push(text.to_owned());
            return Ok(());
        }
        self.is_full = true;
        if self.is_cutting {
            let end = (0..=self.room).rev().find(|end| text.is_char_boundary(*end));
            self.texts.push(text[..end.unwrap_or(0)].to_owned());
        }
        Err(fmt::Error)
    }
}

/// A legacy symbol whose elements have these lengths, and its path.
fn legacy_of(lengths: &[usize]) -> (String, String) {
    let names: Vec<String> = lengths
        .iter()
        .zip('a'..)
        .map(|(length, letter)| letter.to_string().repeat(*length))
        .collect();
    let elements: String = names.iter().map(|name| format!("{}{name}", name.len())).collect();
    (format!("_ZN{elements}E"), names.join("::"))
}

/// The same in the scheme v0.
fn v0_of(lengths: &[usize]) -> (String, String) {
    let (_, path) = legacy_of(lengths);
    let symbol = path.split("::").enumerate().fold(String::new(), |inner, (at, name)| {
        let head = if at == 0 { "C".to_owned() } else { format!("Nv{inner}") };
        format!("{head}{}{name}", name.len())
    });
    (format!("_R{symbol}"), path)
}

/// Texts of each style.
fn symbols() -> Vec<String> {
    let mut symbols: Vec<String> = [
        "_ZN4core3fmt9Formatter3pad17h05af221e174051e9E.llvm.0AB@1",
        "_ZN71_$LT$Test$u20$$u2b$$u20$$u27$static$u20$as$u20$foo..Bar$LT$Test$GT$$GT$3barE.x",
        "_RNvMs1_NtCs8a2262Dv4r_3mio4unixNtB5_8Selector6select.suffix",
        "_RNCNvXs_C3fooINtB4_3BarpEu9gdel_cca4size0",
        "_RIC0Khb_Kc301_KRe616263_E",
        "_RMC0DIC1aL0_EEL_",
        "_ZNE",
        "main",
        "größe.llvm.x",
        "",
    ]
    .map(String::from)
    .into();
    for lengths in [&[255][..], &[256], &[257], &[254, 1], &[250, 4, 1], &[3, 256, 2], &[3, 600, 300, 2]] {
        symbols.push(legacy_of(lengths).0);
        symbols.push(v0_of(lengths).0);
    }
    symbols.push("o".repeat(700));
    symbols
}

/// The text of a path in a sink, which takes it piece by piece.
fn by_pieces(symbol: &str, include_hash: bool) -> String {
    let mut sink = ArraySink::<4096>::new();
    assert!(demangle(symbol).write_to(&mut sink, include_hash).is_ok());
    sink.as_str().to_owned()
}

#[test]
fn a_formatter_that_fails_got_a_prefix() {
    for symbol in symbols() {
        for include_hash in [false, true] {
            let whole = by_pieces(&symbol, include_hash);
            for (room, is_cutting) in (0..=whole.len()).flat_map(|room| [(room, false), (room, true)]) {
                let mut writer = Narrow::of(room, is_cutting);
                let path = demangle(&symbol);
                let result = if include_hash { write!(writer, "{path}") } else { write!(writer, "{path:#}") };
                assert_eq!(result.is_ok(), room == whole.len(), "{symbol}, {room}");
                assert_eq!(writer.is_full, result.is_err());
                let got = writer.texts.concat();
                assert!(whole.starts_with(&got), "{symbol}, {room}: {got}");
                assert!(result.is_err() || got == whole, "{symbol}: {got}");
            }
        }
    }
}

/// The texts that a formatter gets.
fn texts_of(symbol: &str) -> Vec<String> {
    let mut writer = Narrow::of(usize::MAX, false);
    assert!(write!(writer, "{}", demangle(symbol)).is_ok());
    writer.texts
}

#[test]
fn a_formatter_gets_few_texts() {
    let lengths = |symbol: &str| -> Vec<usize> { texts_of(symbol).iter().map(String::len).collect() };
    assert_eq!(lengths("_ZNE"), [0; 0]);
    assert_eq!(lengths("main"), [4]);
    for of in [legacy_of, v0_of] {
        for (elements, wanted) in [
            (&[3, 4, 5][..], &[16][..]),
            (&[256], &[256]),
            (&[257], &[257]),
            (&[253, 1], &[256]),
            (&[254, 1], &[256, 1]),
            (&[255, 1], &[255, 3]),
            (&[3, 256, 2], &[5, 256, 4]),
            (&[3, 257, 2], &[5, 257, 4]),
        ] {
            let (symbol, path) = of(elements);
            assert_eq!(lengths(&symbol), wanted, "{elements:?}");
            assert_eq!(texts_of(&symbol).concat(), path);
        }
    }
}

#[test]
fn a_path_past_the_limit_ends_in_a_marker() {
    let symbol = "_RMC0FGZZZ_Eu.x";
    let whole = texts_of(symbol).concat();
    assert_eq!(whole.len(), 1_000_017);
    assert!(whole.ends_with("111113, '_{size limit reached}.x"));
    for room in [0, 255, 256, 257, 500_000, 999_994, 999_995, 1_000_014, 1_000_016] {
        let mut writer = Narrow::of(room, true);
        assert!(write!(writer, "{}", demangle(symbol)).is_err());
        assert_eq!(writer.texts.concat(), whole[..room]);
    }
}

#[test]
fn options_of_a_formatter_have_no_effect() {
    for symbol in ["_ZN3foo17h05af221e174051e9E", "_RNvCs_3foo3bar", "main"] {
        let path = demangle(symbol);
        let (whole, short) = (by_pieces(symbol, true), by_pieces(symbol, false));
        assert_eq!(format!("{path:>60}|{path:<60}|{path:*^60}"), [&whole[..]; 3].join("|"));
        assert_eq!(format!("{path:.1}|{path:+}|{path:060.3}|{path:?}"), [&whole[..]; 4].join("|"));
        assert_eq!(format!("{path:#>60}|{path:#60.1}|{path:#?}"), [&whole, &short, &short].map(|text| &text[..]).join("|"));
    }
}
