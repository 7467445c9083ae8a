//! Items for the other packages of this workspace. They may change in any release.

/// Items of the crate `demangle_sink` of the source.
pub mod demangle_sink {
    #[cfg(feature = "std")]
    pub use crate::demangle_sink::WriteSink;
}

/// Items of the crate `piece_buffer` of the source.
pub mod piece_buffer {
    #[cfg(feature = "stream")]
    pub use crate::piece_buffer::{CAPACITY, PieceBuffer};
}

/// Items of the crate `rustc_demangle` of the source.
pub mod rustc_demangle {
    pub use crate::rustc_demangle::{
        Demangle, Form, Format, SizeLimit, demangle_slice_formatted, try_demangle,
        write_with_path_len,
    };
    /// Items of its module `sink`.
    pub mod sink {
        pub use crate::rustc_demangle::sink::{SliceSink, TextSink};
    }
    #[cfg(feature = "stream")]
    pub use crate::rustc_demangle::{
        BytesFilter, StreamFault, SymbolMemo, demangle_bytes_counted, demangle_bytes_formatted,
        demangle_stream_named, run_start,
    };
}

/// Memory and vectors, in the form of the source.
#[cfg(feature = "stream")]
pub mod support {
    pub use crate::support::{alloc, vec};
}
