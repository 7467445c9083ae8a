// Made from crates/kodliwe_program/src/arguments/requests.rt by packaging/crate/erase.py: edit that file instead.
//! Adds what the arguments say to a request.

use crate::kodliwe_program::arguments::{InputSource, Request, Target, UsageError, ValuedOption};
use crate::support::alloc::{AllocError, Global};
use crate::support::vec::Vec;

impl<'a> Request<'a> {
    /// Returns a request with the default options and nothing to filter.
    pub(super) fn new(alloc: Global) -> Request<'a> {
        Request {
            sources: Vec::new(alloc),
            output: None,
            include_hash: false,
            fold_arguments: false,
            limit: None,
        }
    }

    /// Adds a SYMBOL. Fails if memory can't be allocated.
    pub(super) fn add_symbol(&mut self, argument: &'a str) -> Result<(), AllocError> {
        self.sources.push(InputSource::Symbol(argument))?;
        Ok(())
    }

    /// Adds a file, or standard input if its name is `-`. Fails if memory can't be allocated.
    pub(super) fn add_file(&mut self, file: &'a str) -> Result<(), AllocError> {
        let source = if file == "-" {
            InputSource::Stdin
        } else {
            InputSource::File(file)
        };
        self.sources.push(source)?;
        Ok(())
    }

    /// Sets the output. Fails if the output was set before; `argument` is the option's argument.
    fn set_output(&mut self, argument: &'a str, value: &'a str) -> Result<(), UsageError<'a>> {
        if self.output.is_some() {
            return Err(UsageError::SecondOutput(argument));
        }
        self.output = Some(if value == "-" {
            Target::Stdout
        } else {
            Target::File(value)
        });
        Ok(())
    }

    /// Applies the value of an option; `argument` is the option's argument. Fails if the value is
    /// not valid, if the output was set before, or if memory can't be allocated.
    pub(super) fn set_value(
        &mut self,
        option: ValuedOption,
        argument: &'a str,
        value: &'a str,
    ) -> Result<(), UsageError<'a>> {
        match option {
            ValuedOption::Input => self.add_file(value)?,
            ValuedOption::Output => return self.set_output(argument, value),
            ValuedOption::Limit => {
                let Ok(limit) = value.parse::<usize>() else {
                    return Err(UsageError::BadNumber(argument, value));
                };
                self.limit = Some(limit);
            }
        }
        Ok(())
    }
}
