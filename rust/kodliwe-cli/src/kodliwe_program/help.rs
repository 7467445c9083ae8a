// Made from crates/kodliwe_program/src/help.rt by packaging/crate/erase.py: edit that file instead.
//! The texts that the program prints in both builds.

pub const WAITING: &str = "kodliwe: reading standard input; press Ctrl-D to end\n";

pub const HELP: &str = "\
Usage: kodliwe [OPTIONS] [SYMBOL]...

Copies text with each Rust symbol in it demangled (legacy _ZN..E and v0 _R..).
Each SYMBOL is a line. Without any, and without -i, standard input is read. All
that is no Rust symbol stays: bytes that are not UTF-8, and C++ functions.

  nm program | kodliwe
  kodliwe _ZN3foo17h05af221e174051e9E

Options:
  -i, --input FILE    Read FILE; - is standard input. May be given several times
  -o, --output FILE   Write FILE once all is read; - is standard output
      --hash          Keep the hashes of legacy symbols (foo::h05af221e174051e9)
  -f, --fold          Print generic arguments as _ (Vec<_> for Vec<u8>)
  -l, --limit BYTES   Cut each path at BYTES (at most 1000000 if not given)
      --man           Print the manual page; kodliwe --man | man -l - shows it
      --completions SHELL  Print the completions of bash, zsh or fish
  -h, --help          Print this help
  -V, --version       Print the version, how it was built, and the licence
      --              Each word after it is a SYMBOL

SYMBOLs and inputs are printed in their order. The status is 0, also if the
reader of the output closes it; 1 if an input can't be read or the output can't
be written; 2 if an option is not valid, and then nothing is read.
";
