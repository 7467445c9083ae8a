//! Names the shared library for those who link with it.
use std::env;

fn main() {
    println!("cargo:rerun-if-changed=build.rs");
    let is = |key: &str, value: &str| env::var(key).is_ok_and(|found| found == value);
    if is("CARGO_CFG_TARGET_VENDOR", "apple") {
        link("-install_name,@rpath/libkodliwe.0.dylib");
        link("-compatibility_version,0.0.0,-current_version,0.1.0");
    } else if is("CARGO_CFG_TARGET_FAMILY", "unix") {
        link("-soname,libkodliwe.so.0");
        link("-z,defs");
    }
}

/// Gives words to the linker of the shared library.
fn link(words: &str) {
    println!("cargo:rustc-cdylib-link-arg=-Wl,{words}");
}
