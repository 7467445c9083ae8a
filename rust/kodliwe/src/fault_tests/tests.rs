// Made from crates/fault_tests/src/tests.rt by packaging/crate/erase.py: edit that file instead.
//! Tests of readers, writers and heaps that fail.

mod faults;
