// Made from crates/demangle_v0_parser/src/fuel.rt by packaging/crate/erase.py: edit that file instead.
//! The fuel of a print that may be in vain: the bytes that references may make it read again.
//!
//! A back reference may lead to bytes that were read before, and these to others. So a run that may
//! be no symbol is not printed to its end in any case. Outside of references a print reads each byte
//! once, as validation does. Within them it has only a little fuel: some from its start, and some for
//! each byte that it read outside. If that is used up, the print gives up, and the run is read. A
//! symbol is then printed once more.
//!
//! The fuel only says where a print stops. The limit of the bytes that are read again bounds its
//! looks.

/// The fuel of a print at its start.
#[cfg(feature = "stream")]
const FIRST_FUEL: usize = 128;

/// The fuel that a byte adds which is read outside of references.
const EARNED_FUEL: usize = 3;

/// The fuel that a reference uses up besides that for the bytes of its target. It is nearly what the
/// three bytes of a short reference add.
const REFERENCE: usize = 8;

/// The fuel that a constant or a function type uses up, which are slow to print.
const SLOW_PART: usize = 16;

/// The fuel that a name in Punycode or the text of a string uses up, which are slower.
const SLOW_TEXT: usize = 1024;

/// The fuel of a parse. A reference and each byte that it makes the parse read again use up some.
#[derive(Clone, Copy)]
pub struct Fuel {
    /// How much was used up. Within a reference, this has all bytes by which it leads back.
    pub used: usize,
    /// How much may be used up before the print stops. It is 0 for a parse that does not stop.
    pub most: usize,
    /// The place after the last reference that no other one enclosed.
    pub outer: usize,
}

impl Fuel {
    /// Returns the fuel of a parse that does not stop.
    #[cfg_attr(not(debug_assertions), inline(always))]
    pub fn none() -> Self {
        Fuel {
            used: 0,
            most: 0,
            outer: 0,
        }
    }

    /// Returns the fuel of a print that may be in vain, at its start.
    #[cfg(feature = "stream")]
    #[cfg_attr(not(debug_assertions), inline(always))]
    pub fn for_first_print() -> Self {
        Fuel {
            used: 0,
            most: FIRST_FUEL,
            outer: 0,
        }
    }

    /// Returns whether no fuel is left. Then a print that may be in vain stops.
    #[cfg_attr(not(debug_assertions), inline(always))]
    pub fn is_used_up(&self) -> bool {
        self.used >= self.most
    }

    /// Leaves no fuel, as after an error. What was used up stays the same.
    #[cfg_attr(not(debug_assertions), inline(always))]
    pub fn use_up(&mut self) {
        self.most = self.most.min(self.used);
    }

    /// Uses up so much fuel.
    #[cfg_attr(not(debug_assertions), inline(always))]
    fn pay(&mut self, fuel: usize) {
        self.used = self.used.saturating_add(fuel);
    }

    /// Uses up fuel for a constant or a function type.
    #[cfg_attr(not(debug_assertions), inline(always))]
    pub(crate) fn pay_part(&mut self) {
        self.pay(SLOW_PART);
    }

    /// Uses up fuel for a text, if it is slow to print.
    #[cfg_attr(not(debug_assertions), inline(always))]
    pub(crate) fn pay_text(&mut self, is_slow: bool) {
        if is_slow {
            self.pay(SLOW_TEXT);
        }
    }

    /// Begins a reference to `target` that ends before `next`, and uses up fuel for it and for the
    /// bytes by which it leads back. If no other one encloses it, it first earns fuel for the bytes
    /// that were read since the one before it.
    ///
    /// Uses up all fuel at a reference to which its own target leads. No real symbol has one.
    #[cfg_attr(not(debug_assertions), inline(always))]
    pub(crate) fn enter(&mut self, target: usize, next: usize) {
        // A parse that does not stop calls nothing.
        if self.most > 0 {
            self.enter_limited(target, next);
        }
    }

    /// Does the same as `enter`.
    // It is not inlined, so that the loop of printing stays small.
    #[inline(never)]
    fn enter_limited(&mut self, target: usize, next: usize) {
        self.pay((next - target).saturating_add(REFERENCE));
        if next > self.outer {
            let earned = (next - self.outer).saturating_mul(EARNED_FUEL);
            self.most = self.most.saturating_add(earned);
            self.outer = next;
        } else if next == self.outer {
            self.use_up();
        }
    }

    /// Ends a reference, whose target ended at `end`. Gives back the fuel for the bytes from there up
    /// to `next`, where the parse continues. So a reference uses up the fuel for itself and for the
    /// bytes of its target.
    ///
    /// Uses up all fuel if the target has an error or ends after the reference.
    #[cfg_attr(not(debug_assertions), inline(always))]
    pub(crate) fn leave(&mut self, end: Option<usize>, next: usize) {
        if self.most > 0 {
            self.leave_limited(end, next);
        }
    }

    /// Does the same as `leave`.
    #[inline(never)]
    fn leave_limited(&mut self, end: Option<usize>, next: usize) {
        match end {
            Some(end) if end <= next => self.used = self.used.saturating_sub(next - end),
            _ => self.use_up(),
        }
    }
}
