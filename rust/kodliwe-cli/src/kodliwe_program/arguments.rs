// Made from crates/kodliwe_program/src/arguments.rt by packaging/crate/erase.py: edit that file instead.
//! Parses the command-line arguments.

use crate::support::string::String;
use crate::support::vec::Vec;
mod kinds;
mod requests;

use crate::kodliwe_program::about::About;
use crate::kodliwe_program::arguments::kinds::{classify, shell_of};
use crate::support::alloc::{AllocError, Global};

/// A text to filter, or an argument to print.
#[derive(Clone, Copy)]
pub enum InputSource<'a> {
    Stdin,
    File(&'a str),
    /// A SYMBOL argument.
    Symbol(&'a str),
}

/// The output that the arguments name.
#[derive(Clone, Copy, Debug, PartialEq, Eq)]
pub enum Target<'a> {
    Stdout,
    File(&'a str),
}

/// The texts to filter, and the options.
pub struct Request<'a> {
    /// The texts to filter, in the order of the arguments. If it is empty, standard input is
    /// filtered.
    pub sources: Vec<InputSource<'a>>,
    /// The value of `-o`, if it was given.
    pub output: Option<Target<'a>>,
    pub include_hash: bool,
    /// Whether `_` is printed for generic arguments.
    pub fold_arguments: bool,
    /// The value of `-l`, the most bytes of a path, if it was given.
    pub limit: Option<usize>,
}

/// The action that the arguments request.
pub enum Command<'a> {
    /// Prints a text about the program.
    Print(About),
    Filter(Request<'a>),
}

/// Why the arguments are invalid.
#[derive(Clone, Copy)]
pub enum UsageError<'a> {
    /// This argument starts with `-` but is not an option.
    Unknown(&'a str),
    /// The option in this argument has no FILE after it.
    NoFile(&'a str),
    /// The option in this argument has no number of bytes in it or after it.
    NoNumber(&'a str),
    /// The first text is an option's argument, and the second its value, which is not a number of
    /// bytes.
    BadNumber(&'a str, &'a str),
    /// The option in this argument was given before.
    SecondOutput(&'a str),
    /// `--completions` has no SHELL after it.
    NoShell,
    /// The value of `--completions` is not the name of a shell.
    BadShell(&'a str),
    Memory,
}

impl From<AllocError> for UsageError<'_> {
    fn from(_error: AllocError) -> Self {
        UsageError::Memory
    }
}

/// The options that have a value.
#[derive(Clone, Copy)]
pub enum ValuedOption {
    Input,
    Output,
    Limit,
}

/// The kind of one argument before `--`.
#[derive(Clone, Copy)]
pub enum Argument<'a> {
    Symbol,
    /// `-`.
    Stdin,
    /// `--`.
    End,
    /// An option, with its value if the argument includes it.
    Valued(ValuedOption, Option<&'a str>),
    Hash,
    Fold,
    /// An option that prints a text.
    Print(About),
    /// `--completions` without its value.
    Completions,
    /// `--completions` with this value.
    CompletionsOf(&'a str),
    /// Any other argument that starts with `-`.
    Unknown,
}

/// The meaning of the next argument.
#[derive(Clone, Copy)]
pub enum NextArgument<'a> {
    Anything,
    /// The value of the option in this argument.
    Value(ValuedOption, &'a str),
    /// The value of `--completions`.
    Shell,
    Symbol,
}

/// The action after an argument is read.
#[derive(Clone, Copy)]
pub enum AfterArgument<'a> {
    NextArgument(NextArgument<'a>),
    Print(About),
}

impl<'a> Request<'a> {
    /// Applies an option, or waits for its value if the argument does not include it. Fails as
    /// `set_value` does.
    fn parse_option(
        &mut self,
        option: ValuedOption,
        argument: &'a str,
        within: Option<&'a str>,
    ) -> Result<AfterArgument<'a>, UsageError<'a>> {
        let Some(value) = within else {
            return Ok(AfterArgument::NextArgument(NextArgument::Value(
                option, argument,
            )));
        };
        self.set_value(option, argument, value)?;
        Ok(AfterArgument::NextArgument(NextArgument::Anything))
    }

    /// Applies an argument before `--` that is not an option's value. Fails if the argument is not
    /// valid or memory can't be allocated.
    fn parse_option_or_symbol(
        &mut self,
        argument: &'a str,
    ) -> Result<AfterArgument<'a>, UsageError<'a>> {
        match classify(argument) {
            Argument::Symbol => self.add_symbol(argument)?,
            Argument::Stdin => self.add_file("-")?,
            Argument::End => return Ok(AfterArgument::NextArgument(NextArgument::Symbol)),
            Argument::Valued(option, within) => return self.parse_option(option, argument, within),
            Argument::Hash => self.include_hash = true,
            Argument::Fold => self.fold_arguments = true,
            Argument::Print(about) => return Ok(AfterArgument::Print(about)),
            Argument::Completions => return Ok(AfterArgument::NextArgument(NextArgument::Shell)),
            Argument::CompletionsOf(name) => {
                let shell = shell_of(name)?;
                return Ok(AfterArgument::Print(About::Completions(shell)));
            }
            Argument::Unknown => return Err(UsageError::Unknown(argument)),
        }
        Ok(AfterArgument::NextArgument(NextArgument::Anything))
    }

    /// Applies one argument. Fails if it is not valid or memory can't be allocated.
    fn parse_argument(
        &mut self,
        next: NextArgument<'a>,
        argument: &'a str,
    ) -> Result<AfterArgument<'a>, UsageError<'a>> {
        match next {
            NextArgument::Anything => self.parse_option_or_symbol(argument),
            NextArgument::Value(option, name) => {
                self.set_value(option, name, argument)?;
                Ok(AfterArgument::NextArgument(NextArgument::Anything))
            }
            NextArgument::Shell => {
                let shell = shell_of(argument)?;
                Ok(AfterArgument::Print(About::Completions(shell)))
            }
            NextArgument::Symbol => {
                self.add_symbol(argument)?;
                Ok(AfterArgument::NextArgument(NextArgument::Symbol))
            }
        }
    }
}

/// Returns the error for an option without a value after it.
fn missing_value(option: ValuedOption, argument: &str) -> UsageError<'_> {
    match option {
        ValuedOption::Input | ValuedOption::Output => UsageError::NoFile(argument),
        ValuedOption::Limit => UsageError::NoNumber(argument),
    }
}

/// Parses the arguments after the program's name.
///
/// Options and symbols may come in any order. After `--` each argument is a symbol. The first
/// option that prints a text is the result, and no argument after it is read.
///
/// # Errors
///
/// Fails at the first argument that starts with `-` and is not an option. Fails at an option
/// without its FILE, its number of BYTES or its SHELL, and at a second `-o`. Fails if memory can't
/// be allocated.
pub fn parse_arguments(alloc: Global, arguments: &[String]) -> Result<Command<'_>, UsageError<'_>> {
    let mut request = Request::new(alloc);
    let mut next = NextArgument::Anything;
    for argument in arguments {
        match request.parse_argument(next, argument.as_str())? {
            AfterArgument::NextArgument(following) => next = following,
            AfterArgument::Print(about) => return Ok(Command::Print(about)),
        }
    }
    match next {
        NextArgument::Anything | NextArgument::Symbol => Ok(Command::Filter(request)),
        NextArgument::Value(option, argument) => Err(missing_value(option, argument)),
        NextArgument::Shell => Err(UsageError::NoShell),
    }
}
