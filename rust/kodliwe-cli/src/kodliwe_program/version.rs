//! The version, and how the program was built.

pub const VERSION: &str = "\
kodliwe 0.1.0
Built by rustc from the source that Rattle proved, and tested; not proved
Licence: MIT
";
