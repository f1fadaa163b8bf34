//! A node's peak: the largest magnitude over all accepted steps of its area, and the first step where it came.

use crate::limits::Whole;

/// Before any step both are 0.
#[derive(Clone, Copy, PartialEq, Eq, Debug, Default)]
pub struct Peak {
    pub magnitude: Whole,
    pub step: Whole,
}

impl Peak {
    /// The peak after this step. The first step has none before it, whatever stood there; later only a greater
    /// magnitude counts, so that the first of equal ones stays.
    pub fn after(self, step: Whole, voltage: Whole) -> Peak {
        let magnitude = voltage.abs();
        if step == 1 || magnitude > self.magnitude {
            Peak { magnitude, step }
        } else {
            self
        }
    }

    /// By all voltages from step 1 on, with nothing kept between steps: the largest magnitude is looked for
    /// first, its place afterwards.
    pub fn of_all(voltages: &[Whole]) -> Peak {
        let magnitudes = || voltages.iter().map(|voltage| voltage.abs());
        let Some(magnitude) = magnitudes().max() else { return Peak::default() };
        let before = magnitudes().take_while(|lower| *lower < magnitude).count();
        Peak { magnitude, step: before as Whole + 1 }
    }
}
