// Made from crates/rustc_demangle/src/stream/credit.rt by packaging/crate/erase.py: edit that file instead.
//! Whether the runs of a text are printed before they are known to be symbols.

use crate::demangle_value::value::printing::starts_as_v0;

/// How many bytes of a run that was printed in vain cost one symbol.
const BYTES_PER_SYMBOL: usize = 8;

/// How many bytes of its text cost one symbol.
const TEXT_PER_SYMBOL: usize = 12;

/// How much fuel that its references used up costs one symbol.
const FUEL_PER_SYMBOL: usize = 32;

/// How many symbols one costs whose print gave up. It is printed again, so less of it was in vain.
const GIVEN_UP: usize = 16;

/// How many symbols count for later runs.
const MOST_SAVED: usize = 64;

/// Whether the runs of a text are printed first. After v0 runs that were printed in vain, they are
/// not, until enough symbols were read for what these cost. So a text of such runs takes little
/// longer than validating all runs first. A run is printed in vain if it is no symbol, or if the
/// print gave up.
#[derive(Clone, Copy)]
pub(super) struct Credit {
    /// How many symbols the runs in vain cost, less those that were read. If it is more than
    /// `MOST_SAVED`, no run is printed first.
    owed: usize,
}

impl Credit {
    /// Returns the credit of a text of which nothing was read.
    #[cfg_attr(not(debug_assertions), inline(always))]
    pub(super) fn new() -> Self {
        Credit { owed: MOST_SAVED }
    }

    /// Returns whether a run may be printed first.
    #[cfg_attr(not(debug_assertions), inline(always))]
    pub(super) fn is_given(&self) -> bool {
        self.owed <= MOST_SAVED
    }

    /// Takes account of a run that is no symbol, for which so many bytes were printed and so much fuel
    /// was used up. Only v0 runs count, because few bytes of others are printed before it is known.
    #[cfg_attr(not(debug_assertions), inline(always))]
    pub(super) fn lose(&mut self, run: &str, printed: usize, fuel: usize) {
        if starts_as_v0(run.as_bytes()) {
            let bytes = run.len() / BYTES_PER_SYMBOL + printed / TEXT_PER_SYMBOL;
            self.owed += bytes + fuel / FUEL_PER_SYMBOL + 1;
        }
    }

    /// Takes account of a symbol whose print gave up. Only v0 symbols count, as for `lose`.
    #[cfg_attr(not(debug_assertions), inline(always))]
    pub(super) fn give_up(&mut self, run: &str) {
        if starts_as_v0(run.as_bytes()) {
            self.owed += GIVEN_UP;
        }
    }

    /// Takes account of a symbol that was read.
    #[cfg_attr(not(debug_assertions), inline(always))]
    pub(super) fn gain(&mut self) {
        self.owed = self.owed.saturating_sub(1);
    }
}
