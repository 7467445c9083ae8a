//! The public interface, which is that of the published crate. This file is compiled with either.
use rustc_demangle::{demangle, try_demangle, Demangle, TryDemangleError};
use std::error::Error;
use std::fmt::{Debug, Display};
use std::hash::Hash;
use std::panic::{RefUnwindSafe, UnwindSafe};

/// Whether a type has a trait: the inherent constant exists only if it has, and takes precedence
/// over the trait's.
macro_rules! has {
    ($type:ty: $($bound:tt)+) => {{
        struct Probe<T>(std::marker::PhantomData<T>);
        #[allow(dead_code)]
        trait Otherwise {
            const HAS: bool = false;
        }
        impl<T> Otherwise for Probe<T> {}
        #[allow(dead_code)]
        impl<T: $($bound)+> Probe<T> {
            const HAS: bool = true;
        }
        Probe::<$type>::HAS
    }};
}

#[test]
fn the_calls_have_their_types() {
    let _: for<'a> fn(&'a str) -> Demangle<'a> = demangle;
    let _: for<'a> fn(&'a str) -> Result<Demangle<'a>, TryDemangleError> = try_demangle;
    let _: for<'d> fn(&'d Demangle<'static>) -> &'static str = Demangle::as_str;
}

#[cfg(feature = "std")]
#[test]
fn the_stream_has_its_type() {
    type Stream =
        for<'r, 'w> fn(&'r mut &'static [u8], &'w mut Vec<u8>, bool) -> std::io::Result<()>;
    let _: Stream = rustc_demangle::demangle_stream::<&'static [u8], Vec<u8>>;
}

#[test]
fn a_demangled_symbol_has_these_traits_and_no_other() {
    type D = Demangle<'static>;
    assert!(has!(D: Display) && has!(D: Debug));
    assert!(has!(D: Send) && has!(D: Sync) && has!(D: Unpin));
    assert!(has!(D: UnwindSafe) && has!(D: RefUnwindSafe));
    assert!(!has!(D: Clone) && !has!(D: Copy) && !has!(D: Default));
    assert!(!has!(D: PartialEq) && !has!(D: PartialOrd) && !has!(D: Hash));
}

#[test]
fn an_error_has_these_traits_and_no_other() {
    type E = TryDemangleError;
    assert!(has!(E: Debug) && has!(E: Clone));
    assert!(has!(E: Send) && has!(E: Sync) && has!(E: Unpin));
    assert!(has!(E: UnwindSafe) && has!(E: RefUnwindSafe));
    assert!(!has!(E: Display) && !has!(E: Error) && !has!(E: Copy) && !has!(E: Default));
    assert!(!has!(E: PartialEq) && !has!(E: Hash));
}

#[test]
fn a_longer_life_serves_as_a_shorter_one() {
    fn shorter<'s>(symbol: Demangle<'static>, _: &'s str) -> Demangle<'s> {
        symbol
    }
    let life = String::new();
    assert_eq!(shorter(demangle("_ZN4testE"), &life).as_str(), "_ZN4testE");
}

#[test]
fn what_as_str_answers_outlives_the_value() {
    let text = String::from("_ZN4testE");
    let kept = demangle(&text).as_str();
    assert_eq!(kept.as_ptr(), text.as_ptr());
}

#[test]
fn an_error_tells_its_name() {
    let error = try_demangle("la la la").unwrap_err();
    assert_eq!(
        format!("{:?}", error.clone()),
        "TryDemangleError { _priv: () }"
    );
}
