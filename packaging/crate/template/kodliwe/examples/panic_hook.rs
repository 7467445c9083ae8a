//! Prints the path of the function in which a program panicked.
//!
//! A panic hook may run where memory is short, so it prints into an array.
//!
//!     cargo run --example panic_hook
use kodliwe::{ArraySink, Format, demangle};
use std::panic;

/// Paths without hashes, cut at what the array has room for.
const FORMAT: Format = Format::new().with_limit(200);

/// Writes a message with the path of a symbol.
fn report(symbol: &str, place: &str) {
    let mut path = ArraySink::<256>::new();
    if demangle(symbol).write_formatted(&mut path, FORMAT).is_err() {
        eprintln!("panicked at {place} in {symbol}");
        return;
    }
    eprintln!("panicked at {place} in {}", path.as_str());
}

fn main() {
    panic::set_hook(Box::new(|info| {
        let place = info.location().map_or_else(String::new, ToString::to_string);
        // A program takes the symbol from a backtrace of its own.
        report("_RNvCs8a2262Dv4r_3mio4poll", &place);
    }));
    let ended = panic::catch_unwind(|| panic!("an event was lost"));
    assert!(ended.is_err());
}
