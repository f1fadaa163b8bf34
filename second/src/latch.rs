//! A breaker's latch: the step after which it parted, or 0 while it has not.

use crate::limits::Whole;

/// The steps of an SW: closed from `close` on, told to open at `open`.
#[derive(Clone, Copy, PartialEq, Eq, Debug)]
pub struct Breaker {
    pub close: Whole,
    pub open: Whole,
}

impl Breaker {
    /// The first step after which it may part: at or after open - 1, and later than its closing step.
    pub fn first_chance(self) -> Whole {
        (self.open - 1).max(self.close + 1)
    }

    /// The latch after a step, from the one before it and the currents of this step and of the one before.
    pub fn latch_after(self, latch: Whole, step: Whole, now: Whole, before: Whole) -> Whole {
        if latch == 0 && step >= self.first_chance() && is_current_zero(now, before) {
            step
        } else {
            latch
        }
    }

    /// By all currents from step 1 on, with nothing kept between steps: the first step that has its chance and a
    /// current zero. What flows after it is nothing, but that is not asked.
    pub fn latch_of_all(self, currents: &[Whole]) -> Whole {
        let current_of = |step: Whole| currents[step as usize - 1];
        let mut chances = self.first_chance()..=currents.len() as Whole;
        chances.find(|step| is_current_zero(current_of(*step), current_of(step - 1))).unwrap_or(0)
    }

    /// By the steps at which its current was zero or had turned, in rising order: the first that has its chance.
    pub fn latch_among(self, zeros: &[Whole]) -> Whole {
        let early = zeros.partition_point(|step| *step < self.first_chance());
        zeros.get(early).copied().unwrap_or(0)
    }

    /// Closed at its closing step and from then on, unless it parted after an earlier step.
    pub fn is_closed(self, latch: Whole, step: Whole) -> bool {
        self.close <= step && (latch == 0 || step <= latch)
    }
}

/// The current is zero, or of opposite sign to the one before. Zero has no sign, so that nothing is opposite to it.
pub fn is_current_zero(now: Whole, before: Whole) -> bool {
    now == 0 || (now < 0 && before > 0) || (now > 0 && before < 0)
}
