//! Tests of the crate's public interface.
use kodliwe::{
    ArraySink, Demangle, FmtSink, Format, MAX_SIZE, RereadLimit, SinkRefused, SliceSink, TextSink,
    TryDemangleError, demangle, demangle_slice, demangle_slice_formatted, demangle_text,
    demangle_text_formatted, demangle_text_limited, try_demangle,
};
use std::error::Error;
use std::fmt::{Debug, Display};
use std::panic::{RefUnwindSafe, UnwindSafe};

const SYMBOL: &str = "_ZN3foo3bar17h05af221e174051e9E";

const FOLDED: Format = Format::new().with_folded_arguments(true);

fn has_auto_traits<T: Send + Sync + Unpin + UnwindSafe + RefUnwindSafe>() {}
fn is_printed<T: Display + Debug>() {}
fn is_copied<T: Copy>() {}
fn is_error<T: Error + Send + Sync + 'static>() {}

#[test]
fn types_have_their_traits() {
    has_auto_traits::<Demangle<'static>>();
    has_auto_traits::<TryDemangleError>();
    has_auto_traits::<SinkRefused>();
    has_auto_traits::<ArraySink<8>>();
    is_printed::<Demangle<'static>>();
    is_copied::<Demangle<'static>>();
    is_copied::<Format>();
    is_error::<TryDemangleError>();
    is_error::<SinkRefused>();
}

#[test]
fn errors_say_what_is_wrong() {
    let error = try_demangle("main").unwrap_err();
    assert_eq!(error.to_string(), "the text is not a Rust symbol");
    assert_eq!(SinkRefused.to_string(), "the sink refused a piece of text");
}

#[test]
fn a_sink_takes_what_fits() {
    let mut short = ArraySink::<5>::default();
    assert!(demangle(SYMBOL).write_to(&mut short, false).is_err());
    assert_eq!((short.as_str(), short.is_failed()), ("foo::", true));
    let text = format!("{short:?}");
    assert_eq!(text, "ArraySink { text: \"foo::\", is_failed: true }");
}

#[test]
fn each_form_is_written() {
    let mut path = ArraySink::<64>::new();
    assert!(demangle(SYMBOL).write_to(&mut path, true).is_ok());
    assert_eq!(path.as_str(), "foo::bar::h05af221e174051e9");
    let mut cut = ArraySink::<64>::new();
    assert!(demangle(SYMBOL).write_limited(&mut cut, true, 8).is_ok());
    assert_eq!(cut.as_str(), "foo::bar{size limit reached}");
    let mut folded = ArraySink::<64>::new();
    assert!(
        demangle("_RINvC3foo3barhE")
            .write_folded(&mut folded, true, 100)
            .is_ok()
    );
    assert_eq!(folded.as_str(), "foo::bar::<_>");
    let mut formatted = ArraySink::<64>::new();
    let format = Format::default().with_hash(true).with_limit(8);
    assert!(
        demangle(SYMBOL)
            .write_formatted(&mut formatted, format)
            .is_ok()
    );
    assert_eq!(formatted.as_str(), "foo::bar{size limit reached}");
}

#[test]
fn a_formatter_is_a_sink() {
    let mut path = String::new();
    let mut sink = FmtSink::new(&mut path);
    assert!(demangle(SYMBOL).write_formatted(&mut sink, FOLDED).is_ok());
    assert_eq!(format!("{sink:?}"), "FmtSink { is_failed: false, .. }");
    assert_eq!(path, "foo::bar");
}

#[test]
fn a_format_has_what_was_set() {
    let symbol = "_RINvCs8a2262Dv4r_3mio4pollhE";
    for (has_hash, has_folded_arguments, limit, wanted) in [
        (false, false, 100, "mio::poll::<u8>"),
        (true, false, 100, "mio[1888792e1a78739]::poll::<u8>"),
        (false, true, 100, "mio::poll::<_>"),
        (false, false, 6, "mio::{size limit reached}"),
    ] {
        let format = Format::new()
            .with_hash(has_hash)
            .with_folded_arguments(has_folded_arguments);
        let mut path = String::new();
        let written = demangle(symbol)
            .write_formatted(&mut FmtSink::new(&mut path), format.with_limit(limit));
        assert!(written.is_ok());
        assert_eq!(path, wanted);
    }
    assert_eq!(Format::default(), Format::new());
}

#[test]
fn a_format_keeps_what_was_set_before() {
    let mut setters: [fn(Format) -> Format; 4] = [
        |format| format.with_hash(true),
        |format| format.with_folded_arguments(true),
        |format| format.with_limit(7),
        |format| format.with_reread_limit(RereadLimit::Bytes(9)),
    ];
    let set = |setters: &[fn(Format) -> Format]| {
        setters
            .iter()
            .fold(Format::new(), |format, set| set(format))
    };
    let all = set(&setters);
    for _ in 0..2 {
        for _ in 0..4 {
            assert_eq!(set(&setters), all);
            assert_ne!(set(&setters[1..]), all);
            setters.rotate_left(1);
        }
        setters.reverse();
    }
}

/// A symbol with generic arguments and the hash of a crate, and its paths: whether it has the hash, the
/// limit, the path, and the folded one.
const MIO: &str = "_RINvCs8a2262Dv4r_3mio4pollhE";
const MIO_PATHS: [(bool, usize, &str, &str); 6] = [
    (false, 100, "mio::poll::<u8>", "mio::poll::<_>"),
    (
        true,
        100,
        "mio[1888792e1a78739]::poll::<u8>",
        "mio[1888792e1a78739]::poll::<_>",
    ),
    (
        false,
        9,
        "mio::poll{size limit reached}",
        "mio::poll{size limit reached}",
    ),
    (
        true,
        9,
        "mio[{size limit reached}",
        "mio[{size limit reached}",
    ),
    (false, 0, "{size limit reached}", "{size limit reached}"),
    (true, 0, "{size limit reached}", "{size limit reached}"),
];

#[test]
fn a_path_has_the_hash_and_the_limit_that_are_given() {
    for (has_hash, limit, path, folded) in MIO_PATHS {
        let format = Format::new().with_hash(has_hash).with_limit(limit);
        let symbol = demangle(MIO);
        let mut paths: [ArraySink<64>; 7] = Default::default();
        symbol
            .write_limited(&mut paths[0], has_hash, limit)
            .unwrap();
        symbol.write_formatted(&mut paths[1], format).unwrap();
        demangle_text_limited(MIO, &mut paths[2], has_hash, limit).unwrap();
        demangle_text_formatted(MIO, &mut paths[3], format).unwrap();
        symbol.write_folded(&mut paths[4], has_hash, limit).unwrap();
        symbol
            .write_formatted(&mut paths[5], format.with_folded_arguments(true))
            .unwrap();
        demangle_text_formatted(MIO, &mut paths[6], format.with_folded_arguments(true)).unwrap();
        let wanted = [path, path, path, path, folded, folded, folded];
        assert_eq!(paths.each_ref().map(ArraySink::as_str), wanted);
        let mut memory = [0; 64];
        let len = demangle_slice(MIO.as_bytes(), &mut memory, has_hash, limit).unwrap();
        assert_eq!(&memory[..len], path.as_bytes());
        if limit == 100 {
            let mut whole: [ArraySink<64>; 2] = Default::default();
            symbol.write_to(&mut whole[0], has_hash).unwrap();
            demangle_text(MIO, &mut whole[1], has_hash).unwrap();
            assert_eq!(whole.each_ref().map(ArraySink::as_str), [path, path]);
            let shown = if has_hash {
                symbol.to_string()
            } else {
                format!("{symbol:#}")
            };
            assert_eq!(shown, path);
        }
    }
}

#[test]
fn a_path_of_a_symbol_is_cut_at_a_million_bytes() {
    // Its path has 2,000,000 bytes.
    let symbol = demangle("_RMC0FGZZZ_Eu");
    let mut paths: [String; 3] = Default::default();
    symbol
        .write_formatted(&mut FmtSink::new(&mut paths[0]), Format::new())
        .unwrap();
    demangle_text_formatted(
        symbol.as_str(),
        &mut FmtSink::new(&mut paths[1]),
        Format::new(),
    )
    .unwrap();
    paths[2] = format!("{symbol:#}");
    for path in paths {
        let cut = path.strip_suffix("{size limit reached}").unwrap();
        assert!((MAX_SIZE - 20..=MAX_SIZE).contains(&cut.len()));
    }
}

#[test]
fn texts_are_demangled() {
    let text = format!("at {SYMBOL}:7");
    let mut whole = ArraySink::<64>::new();
    assert!(demangle_text(&text, &mut whole, true).is_ok());
    assert_eq!(whole.as_str(), "at foo::bar::h05af221e174051e9:7");
    let mut cut = ArraySink::<64>::new();
    assert!(demangle_text_limited(&text, &mut cut, false, 4).is_ok());
    assert_eq!(cut.as_str(), "at foo{size limit reached}:7");
    let mut out = [0; 64];
    assert_eq!(
        demangle_slice(text.as_bytes(), &mut out, false, MAX_SIZE),
        Some(13)
    );
    assert_eq!(&out[..13], b"at foo::bar:7");
}

#[test]
fn texts_are_demangled_in_a_format() {
    let text = "at _RINvC3foo3barhE:7";
    let mut whole = ArraySink::<64>::new();
    assert!(demangle_text_formatted(text, &mut whole, FOLDED).is_ok());
    assert_eq!(whole.as_str(), "at foo::bar::<_>:7");
    let mut out = [0; 64];
    assert_eq!(
        demangle_slice_formatted(text.as_bytes(), &mut out, FOLDED),
        Some(18)
    );
    assert_eq!(&out[..18], b"at foo::bar::<_>:7");
}

#[test]
fn a_slice_counts_what_does_not_fit() {
    let mut memory = [0; 4];
    let mut sink = SliceSink::new(&mut memory);
    assert!(demangle(SYMBOL).write_to(&mut sink, false).is_ok());
    assert_eq!(sink.len(), 8);
    assert_eq!(
        format!("{sink:?}"),
        "SliceSink { len: 8, is_failed: false, .. }"
    );
    assert_eq!(&memory, b"foo:");
    assert!(SliceSink::new(&mut []).is_empty());
    let mut sink = SliceSink::new(&mut []);
    assert!(sink.put("a").is_ok());
    assert!(!sink.is_empty());
}

#[test]
fn a_formatter_that_failed_is_shown() {
    struct Full;

    impl std::fmt::Write for Full {
        fn write_str(&mut self, _: &str) -> std::fmt::Result {
            Err(std::fmt::Error)
        }
    }

    let mut full = Full;
    let mut sink = FmtSink::new(&mut full);
    assert!(demangle(SYMBOL).write_to(&mut sink, false).is_err());
    assert_eq!(format!("{sink:?}"), "FmtSink { is_failed: true, .. }");
}

#[test]
fn calls_over_bytes_limit_what_is_read_again() {
    // The test `each_byte_of_a_symbol_allows_384` of demangle_vectors has the arithmetic.
    let names = format!("{}C0{}", "Nt".repeat(62), "0".repeat(62));
    let symbol = format!("_RMC0TT{names}{}E{}E", "B4_".repeat(30), "B3_".repeat(22));
    let tuple = format!("({}), ", ", ".repeat(30)).repeat(22);
    let whole = format!("<({tuple}({}))>", ", ".repeat(30));
    let cut = format!("<({tuple}({}{{size limit reached}}", ", ".repeat(28));
    let format = Format::new();
    for (format, path, replaced) in [
        (format, &whole, &cut),
        (format.with_folded_arguments(true), &whole, &cut),
        (format.with_limit(MAX_SIZE), &whole, &cut),
        (format.with_reread_limit(RereadLimit::Linear), &cut, &cut),
        (
            format.with_reread_limit(RereadLimit::Bytes(384 * 353)),
            &cut,
            &cut,
        ),
        (
            format.with_reread_limit(RereadLimit::Unlimited),
            &whole,
            &whole,
        ),
    ] {
        let mut printed = ArraySink::<2048>::new();
        assert!(
            demangle(&symbol)
                .write_formatted(&mut printed, format)
                .is_ok()
        );
        assert_eq!(printed.as_str(), path);
        let mut text = ArraySink::<2048>::new();
        assert!(demangle_text_formatted(&symbol, &mut text, format).is_ok());
        assert_eq!(text.as_str(), path);
        let mut memory = [0; 2048];
        let len = demangle_slice_formatted(symbol.as_bytes(), &mut memory, format);
        assert_eq!(
            len.and_then(|len| memory.get(..len)),
            Some(replaced.as_bytes())
        );
        #[cfg(feature = "stream")]
        {
            let mut output = Vec::new();
            kodliwe::demangle_bytes_formatted(&mut symbol.as_bytes(), &mut output, format).unwrap();
            assert_eq!(output, replaced.as_bytes());
        }
    }
}

#[test]
fn calls_over_bytes_write_at_most_1_000_bytes_for_each() {
    let symbol = b"_RMC0FG15FTGf_Eu";
    for format in [Format::new(), Format::new().with_folded_arguments(true)] {
        let size = |format| demangle_slice_formatted(symbol, &mut [], format).unwrap();
        assert!(size(format) <= 1_000 * symbol.len());
        assert!(size(format.with_limit(MAX_SIZE)) > 1_000 * symbol.len());
        #[cfg(feature = "stream")]
        {
            let mut filter = kodliwe::BytesFilter::with_format(format);
            let (mut input, mut output) = (&symbol[..], Vec::new());
            while filter.step(&mut input, &mut output).unwrap() {}
            assert_eq!(output.len(), size(format));
        }
    }
}

#[cfg(feature = "stream")]
mod streams {
    use super::{FOLDED, MIO, MIO_PATHS, has_auto_traits, is_error};
    use kodliwe::{
        BytesFilter, Format, StreamFault, WriteSink, demangle, demangle_bytes,
        demangle_bytes_formatted, demangle_bytes_limited, demangle_stream, demangle_stream_named,
    };
    use std::error::Error;
    use std::io::{self, ErrorKind, Write};

    const TEXT: &[u8] = b"at _ZN3foo3barE:7\n";

    /// A writer that accepts nothing.
    struct Closed;

    impl Write for Closed {
        fn write(&mut self, _: &[u8]) -> io::Result<usize> {
            Err(ErrorKind::BrokenPipe.into())
        }

        fn flush(&mut self) -> io::Result<()> {
            Ok(())
        }
    }

    #[test]
    fn types_have_their_traits() {
        fn is_sent<T: Send + Sync>() {}
        is_error::<StreamFault>();
        is_sent::<StreamFault>();
        has_auto_traits::<BytesFilter>();
    }

    #[test]
    fn each_call_copies_the_text() {
        let mut outputs: [Vec<u8>; 4] = Default::default();
        demangle_stream(&mut &TEXT[..], &mut outputs[0], false).unwrap();
        demangle_stream_named(&mut &TEXT[..], &mut outputs[1], false).unwrap();
        demangle_bytes(&mut &TEXT[..], &mut outputs[2], false).unwrap();
        let (mut filter, mut input) = (BytesFilter::new(false), TEXT);
        while filter.step(&mut input, &mut outputs[3]).unwrap() {}
        for output in outputs {
            assert_eq!(output, b"at foo::bar:7\n");
        }
        let mut output = Vec::new();
        demangle_bytes_limited(&mut &TEXT[..], &mut output, false, 4).unwrap();
        let (mut filter, mut input) = (BytesFilter::with_limit(false, 4), TEXT);
        while filter.step(&mut input, &mut output).unwrap() {}
        let cut = b"at foo{size limit reached}:7\n";
        assert_eq!(output, [&cut[..], &cut[..]].concat());
    }

    #[test]
    fn each_call_has_the_hash_and_the_limit_that_are_given() {
        for (has_hash, limit, path, folded) in MIO_PATHS {
            let text = MIO.as_bytes();
            let format = Format::new().with_hash(has_hash).with_limit(limit);
            let mut outputs: [Vec<u8>; 4] = Default::default();
            demangle_bytes_limited(&mut &text[..], &mut outputs[0], has_hash, limit).unwrap();
            demangle_bytes_formatted(&mut &text[..], &mut outputs[1], format).unwrap();
            let (mut filter, mut input) = (BytesFilter::with_limit(has_hash, limit), text);
            while filter.step(&mut input, &mut outputs[2]).unwrap() {}
            let fold = format.with_folded_arguments(true);
            let (mut filter, mut input) = (BytesFilter::with_format(fold), text);
            while filter.step(&mut input, &mut outputs[3]).unwrap() {}
            let wanted = [path, path, path, folded];
            assert_eq!(
                outputs.map(|output| String::from_utf8(output).unwrap()),
                wanted
            );
            if limit == 100 {
                let mut outputs: [Vec<u8>; 4] = Default::default();
                demangle_stream(&mut &text[..], &mut outputs[0], has_hash).unwrap();
                demangle_stream_named(&mut &text[..], &mut outputs[1], has_hash).unwrap();
                demangle_bytes(&mut &text[..], &mut outputs[2], has_hash).unwrap();
                let (mut filter, mut input) = (BytesFilter::new(has_hash), text);
                while filter.step(&mut input, &mut outputs[3]).unwrap() {}
                for output in outputs {
                    assert_eq!(output, path.as_bytes());
                }
            }
        }
    }

    #[test]
    fn each_fault_is_shown() {
        let rows = [
            (
                StreamFault::Read(ErrorKind::TimedOut.into()),
                "the input could not be read",
                "Read(Kind(TimedOut))",
            ),
            (
                StreamFault::Write(ErrorKind::StorageFull.into()),
                "the output could not be written",
                "Write(Kind(StorageFull))",
            ),
            (StreamFault::NotUtf8, "a line is not UTF-8", "NotUtf8"),
            (StreamFault::Memory, "out of memory", "Memory"),
        ];
        let kinds = [
            ErrorKind::TimedOut,
            ErrorKind::StorageFull,
            ErrorKind::InvalidData,
            ErrorKind::OutOfMemory,
        ];
        for ((fault, text, debug), kind) in rows.into_iter().zip(kinds) {
            assert_eq!(
                (fault.to_string(), format!("{fault:?}")),
                (text.into(), debug.into())
            );
            let source = fault
                .source()
                .and_then(|error| error.downcast_ref::<io::Error>())
                .map(io::Error::kind);
            assert_eq!(
                source,
                matches!(fault, StreamFault::Read(_) | StreamFault::Write(_)).then_some(kind)
            );
            assert_eq!(io::Error::from(fault).kind(), kind);
        }
    }

    #[test]
    fn a_format_is_that_of_the_text() {
        let text = b"_RNvMC3fooINtB2_3BarlE3baz ".repeat(3);
        let wanted = b"<foo::Bar<_>>::baz ".repeat(3);
        let mut outputs: [Vec<u8>; 2] = Default::default();
        demangle_bytes_formatted(&mut &text[..], &mut outputs[0], FOLDED).unwrap();
        let (mut filter, mut input) = (BytesFilter::with_format(FOLDED), &text[..]);
        while filter.step(&mut input, &mut outputs[1]).unwrap() {}
        for output in outputs {
            assert_eq!(output, wanted);
        }
    }

    #[test]
    fn a_fault_tells_who_failed() {
        let closed = demangle_stream_named(&mut &TEXT[..], &mut Closed, false).unwrap_err();
        assert_eq!(closed.to_string(), "the output could not be written");
        assert_eq!(io::Error::from(closed).kind(), ErrorKind::BrokenPipe);
        let bytes = demangle_stream_named(&mut &b"\xFF"[..], &mut io::sink(), false).unwrap_err();
        assert_eq!(
            (bytes.to_string(), format!("{bytes:?}")),
            ("a line is not UTF-8".into(), "NotUtf8".into())
        );
        assert_eq!(io::Error::from(bytes).kind(), ErrorKind::InvalidData);
    }

    #[test]
    fn a_writer_is_a_sink() {
        let mut output = Vec::new();
        let mut sink = WriteSink::new(&mut output);
        demangle("_ZN3foo3barE").write_to(&mut sink, false).unwrap();
        assert!(sink.into_fault().is_none());
        assert_eq!(output, b"foo::bar");
        let mut closed = Closed;
        let mut sink = WriteSink::new(&mut closed);
        assert_eq!(format!("{sink:?}"), "WriteSink { is_failed: false, .. }");
        assert!(demangle("_ZN3foo3barE").write_to(&mut sink, false).is_err());
        assert_eq!(format!("{sink:?}"), "WriteSink { is_failed: true, .. }");
        assert_eq!(
            sink.into_fault().map(|error| error.kind()),
            Some(ErrorKind::BrokenPipe)
        );
        let mut sink = WriteSink::new(&mut closed);
        assert!(demangle("_ZN3foo3barE").write_to(&mut sink, false).is_err());
        assert_eq!(
            sink.into_result().unwrap_err().kind(),
            ErrorKind::BrokenPipe
        );
    }
}
