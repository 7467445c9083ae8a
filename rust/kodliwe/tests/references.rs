//! A sink that holds its text gets the same for a symbol as one that does not. The first copies the
//! text of a target to which a reference leads again. The symbols are made, with many references.
use kodliwe::{
    FmtSink, Format, RereadLimit, SliceSink, demangle, demangle_slice_formatted, try_demangle,
};

/// How many symbols are made.
const SYMBOLS: u64 = 2_000;

/// The most bytes of a path. It has room for some texts of 500 levels.
const MOST: usize = 3_000;

/// What a place of a symbol begins.
#[derive(Clone, Copy, PartialEq)]
enum Part {
    Path,
    Type,
    Constant,
}

use Part::{Constant, Path, Type};

/// Names with texts that are productions with and without an error.
const NAMES: [&str; 9] = [
    "1a", "3std", "6Option", "5RL0_h", "4TZpE", "6NvC1aZ", "5ThuaE", "4j7_E", "0",
];

const DIGITS: &[u8; 62] = b"0123456789abcdefghijklmnopqrstuvwxyzABCDEFGHIJKLMNOPQRSTUVWXYZ";

/// Makes a symbol from a number.
struct Maker {
    chance: u64,
    text: String,
    places: Vec<(usize, Part)>,
}

impl Maker {
    /// Returns a number below `most`.
    fn below(&mut self, most: usize) -> usize {
        self.chance ^= self.chance << 13;
        self.chance ^= self.chance >> 7;
        self.chance ^= self.chance << 17;
        (self.chance >> 20) as usize % most
    }

    fn push(&mut self, text: &str) {
        self.text.push_str(text);
    }

    /// Appends a number as a reference has it: 0 is `_`, and others are one less in base 62.
    fn number(&mut self, value: usize) {
        let mut reversed = Vec::new();
        let mut rest = value;
        while rest > 0 {
            let digit = if reversed.is_empty() { rest - 1 } else { rest };
            reversed.push(DIGITS[digit % 62] as char);
            rest = digit / 62;
        }
        self.text.extend(reversed.iter().rev());
        self.push("_");
    }

    fn name(&mut self) {
        let name = NAMES[self.below(NAMES.len())];
        self.push(name);
    }

    /// Appends a reference, mostly to a place of this kind. Returns `false` if there is none.
    fn reference(&mut self, part: Part) -> bool {
        let other = self.below(12);
        let place = if other == 0 {
            self.below(self.text.len())
        } else if other <= 2 && !self.places.is_empty() {
            let index = self.below(self.places.len());
            self.places[index].0
        } else {
            let fitting: Vec<usize> = self
                .places
                .iter()
                .filter(|place| place.1 == part)
                .map(|place| place.0)
                .collect();
            // Some places are led to again and again.
            let among = if self.below(2) == 0 {
                fitting.len()
            } else {
                fitting.len().min(3)
            };
            if among == 0 {
                return false;
            }
            fitting[self.below(among)]
        };
        self.push("B");
        self.number(place);
        true
    }

    /// Begins a part, as a reference half of the time. Returns `false` if it was one.
    fn begins(&mut self, part: Part) -> bool {
        if self.below(2) == 0 && self.reference(part) {
            return false;
        }
        self.places.push((self.text.len(), part));
        true
    }

    fn path(&mut self, depth: usize) {
        if !self.begins(Path) {
            return;
        }
        match if depth == 0 { 0 } else { self.below(8) } {
            0 => {
                self.push(["C", "Cs_", "Cs1_"][self.chance as usize % 3]);
                self.name();
            }
            1..=3 => {
                self.push(["Nv", "Nt", "NC"][self.chance as usize % 3]);
                self.path(depth - 1);
                self.name();
            }
            4 | 5 => {
                self.push("I");
                self.path(depth - 1);
                self.arguments(depth - 1);
            }
            6 => {
                self.push("Y");
                self.kind(depth - 1);
                self.path(depth - 1);
            }
            _ => {
                self.push("M");
                self.path(depth - 1);
                self.kind(depth - 1);
            }
        }
    }

    /// Appends the rest of a list of types, constants and lifetimes.
    fn arguments(&mut self, depth: usize) {
        for _ in 0..1 + self.below(5) {
            match self.below(8) {
                0 | 2 => {
                    self.push("K");
                    self.constant(depth);
                }
                1 => self.lifetime(),
                _ => self.kind(depth),
            }
        }
        self.push("E");
    }

    fn lifetime(&mut self) {
        self.push(["L_", "L0_", "L1_"][self.chance as usize % 3]);
    }

    fn kind(&mut self, depth: usize) {
        if !self.begins(Type) {
            return;
        }
        match if depth == 0 { 0 } else { self.below(11) } {
            0 => self.push(["h", "u", "a", "e"][self.chance as usize % 4]),
            1 | 2 => {
                self.push("R");
                if self.below(2) == 0 {
                    self.lifetime();
                }
                self.kind(depth - 1);
            }
            3 | 4 => {
                self.push("T");
                for _ in 0..self.below(5) {
                    self.kind(depth - 1);
                }
                self.push("E");
            }
            5 | 6 => {
                self.push(["FG_", "FG0_", "F", "FUG_"][self.chance as usize % 4]);
                for _ in 0..self.below(3) {
                    self.kind(depth - 1);
                }
                self.push("E");
                self.kind(depth - 1);
            }
            7 => {
                self.push(["DG_", "D"][self.chance as usize % 2]);
                self.path(depth - 1);
                if self.below(2) == 0 {
                    self.push("p1x");
                    self.kind(depth - 1);
                }
                self.push("E");
                self.lifetime();
            }
            8 => {
                self.push("A");
                self.kind(depth - 1);
                self.constant(depth - 1);
            }
            _ => self.path(depth - 1),
        }
    }

    /// Appends a type with many levels, and one with a reference to it. Then come references to both
    /// below so many others that they are too deep at some.
    fn deep_kinds(&mut self) {
        let deep = self.text.len();
        let count = 20 + self.below(200);
        self.push(&"R".repeat(count));
        self.kind(2);
        let around = self.text.len();
        self.push("RB");
        self.number(deep);
        for _ in 0..8 {
            let above = match self.below(3) {
                0 => self.below(300),
                _ => 480 - count + self.below(20),
            };
            self.push(&"R".repeat(above));
            self.push("B");
            self.number([deep, around][above % 2]);
        }
    }

    fn constant(&mut self, depth: usize) {
        if !self.begins(Constant) {
            return;
        }
        match if depth == 0 { 0 } else { self.below(6) } {
            0 => self.push(["j7_", "hff_", "b1_", "c61_", "p"][self.chance as usize % 5]),
            1 => self.push(["Re6162_", "Re_"][self.chance as usize % 2]),
            2..=4 => {
                self.push("V");
                self.path(depth - 1);
                self.push("U");
            }
            _ => {
                self.push("T");
                for _ in 0..self.below(3) {
                    self.constant(depth - 1);
                }
                self.push("E");
            }
        }
    }
}

/// Returns the symbol of a number.
fn symbol_of(number: u64) -> String {
    let chance = number.wrapping_mul(0x9E37_79B9_7F4A_7C15) | 1;
    let mut maker = Maker {
        chance,
        text: String::new(),
        places: Vec::new(),
    };
    maker.push("INv");
    // A path with arguments has other text in a value than in a type.
    maker.places.push((maker.text.len(), Path));
    maker.push("I");
    maker.path(2);
    maker.arguments(2);
    maker.push("1f");
    for _ in 0..3 {
        maker.kind(4);
    }
    if number % 5 == 0 {
        maker.deep_kinds();
    }
    maker.arguments(4);
    format!("_R{}", maker.text)
}

/// Returns the path of a symbol in a format, from a sink that does not hold it.
fn printed(symbol: &str, format: Format) -> String {
    let mut path = String::new();
    assert!(
        demangle(symbol)
            .write_formatted(&mut FmtSink::new(&mut path), format)
            .is_ok()
    );
    path
}

/// Asserts that a slice of `room` bytes gets a path as far as it reaches, and counts all of it.
fn assert_gets(symbol: &str, format: Format, room: usize, path: &str) {
    let mut memory = vec![b'-'; room];
    let mut slice = SliceSink::new(&mut memory);
    assert!(demangle(symbol).write_formatted(&mut slice, format).is_ok());
    assert_eq!(slice.len(), path.len(), "{symbol} in {room}: {format:?}");
    let kept = room.min(path.len());
    assert_eq!(
        String::from_utf8_lossy(&memory[..kept]),
        String::from_utf8_lossy(&path.as_bytes()[..kept]),
        "{symbol} in {room}: {format:?}"
    );
    assert!(
        memory[kept..].iter().all(|byte| *byte == b'-'),
        "{symbol} in {room}"
    );
}

/// The forms that are compared.
fn forms() -> [Format; 3] {
    let plain = Format::new()
        .with_limit(MOST)
        .with_reread_limit(RereadLimit::Linear);
    [
        plain,
        plain.with_hash(true),
        plain.with_folded_arguments(true),
    ]
}

/// Returns the made texts that are symbols.
fn symbols() -> impl Iterator<Item = (usize, String)> {
    let made = (0..SYMBOLS).map(|number| (number as usize, symbol_of(number)));
    made.filter(|(_, symbol)| try_demangle(symbol).is_ok())
}

#[test]
fn symbols_have_many_references() {
    let many = symbols()
        .filter(|(_, symbol)| symbol.matches('B').count() > 5)
        .count();
    assert!(many > SYMBOLS as usize / 2, "only {many}");
}

#[test]
fn a_slice_gets_what_a_string_gets() {
    for (number, symbol) in symbols() {
        for format in forms() {
            let path = printed(&symbol, format);
            for room in [MOST + 40, number % 201] {
                assert_gets(&symbol, format, room, &path);
            }
        }
    }
}

#[test]
fn a_slice_gets_what_a_string_gets_under_limits() {
    for (number, symbol) in symbols() {
        let limit = number % 201;
        let [plain, with_hash, folded] = forms();
        for format in [
            plain.with_limit(limit),
            folded.with_limit(limit / 2),
            with_hash.with_reread_limit(RereadLimit::Bytes(limit)),
            plain.with_reread_limit(RereadLimit::Bytes(10 * limit)),
        ] {
            let path = printed(&symbol, format);
            assert_gets(&symbol, format, MOST + 40, &path);
            assert_gets(&symbol, format, limit, &path);
        }
    }
}

#[test]
fn a_text_gets_what_a_string_gets() {
    for (_, symbol) in symbols() {
        for format in forms() {
            let path = printed(&symbol, format);
            let mut memory = [b'-'; MOST + 40];
            let len = demangle_slice_formatted(symbol.as_bytes(), &mut memory, format);
            assert_eq!(len, Some(path.len()), "{symbol}: {format:?}");
            assert_eq!(
                String::from_utf8_lossy(&memory[..path.len()]),
                path,
                "{symbol}: {format:?}"
            );
        }
    }
}

#[cfg(feature = "stream")]
#[test]
fn a_filter_writes_what_a_string_gets() {
    for format in forms() {
        let symbols: Vec<String> = symbols().map(|(_, symbol)| symbol).collect();
        let mut output = Vec::new();
        kodliwe::demangle_bytes_formatted(&mut symbols.join("\n").as_bytes(), &mut output, format)
            .unwrap();
        let output = String::from_utf8(output).unwrap();
        assert_eq!(output.lines().count(), symbols.len());
        for (line, symbol) in output.lines().zip(&symbols) {
            assert_eq!(line, printed(symbol, format), "{symbol}: {format:?}");
        }
    }
}
