// Made from crates/kodliwe_program/src/arguments/kinds.rt by packaging/crate/erase.py: edit that file instead.
//! Finds the kind of one argument.

use crate::kodliwe_program::about::{About, Shell};
use crate::kodliwe_program::arguments::{Argument, UsageError, ValuedOption};

/// Returns whether an argument is the option `short` or `long`, and the value if the argument
/// includes it, as `-iFILE` or `--input=FILE`.
fn option_value<'a>(argument: &'a str, short: &str, long: &str) -> Option<Option<&'a str>> {
    if argument == short || argument == long {
        return Some(None);
    }
    if let Some(rest) = argument.strip_prefix(long) {
        if let Some(value) = rest.strip_prefix("=") {
            return Some(Some(value));
        }
    }
    argument.strip_prefix(short).map(Some)
}

/// Returns the kind of an option that needs a value, which the argument may include. Returns `None`
/// for `--completions` without its value, and for any other argument.
fn classify_valued_option(argument: &str) -> Option<Argument<'_>> {
    if let Some(name) = argument.strip_prefix("--completions=") {
        return Some(Argument::CompletionsOf(name));
    }
    if let Some(value) = option_value(argument, "-i", "--input") {
        return Some(Argument::Valued(ValuedOption::Input, value));
    }
    if let Some(value) = option_value(argument, "-o", "--output") {
        return Some(Argument::Valued(ValuedOption::Output, value));
    }
    option_value(argument, "-l", "--limit")
        .map(|value| Argument::Valued(ValuedOption::Limit, value))
}

/// Returns the kind of an argument before `--`.
pub(super) fn classify(argument: &str) -> Argument<'_> {
    if !argument.starts_with("-") {
        return Argument::Symbol;
    }
    match argument {
        "-" => Argument::Stdin,
        "--" => Argument::End,
        "--hash" => Argument::Hash,
        "-f" | "--fold" => Argument::Fold,
        "-h" | "--help" => Argument::Print(About::Help),
        "-V" | "--version" => Argument::Print(About::Version),
        "--man" => Argument::Print(About::Manual),
        "--completions" => Argument::Completions,
        _ => match classify_valued_option(argument) {
            Some(kind) => kind,
            None => Argument::Unknown,
        },
    }
}

/// Returns the shell of this name. Fails if there is none.
pub(super) fn shell_of(name: &str) -> Result<Shell, UsageError<'_>> {
    match name {
        "bash" => Ok(Shell::Bash),
        "zsh" => Ok(Shell::Zsh),
        "fish" => Ok(Shell::Fish),
        _ => Err(UsageError::BadShell(name)),
    }
}
