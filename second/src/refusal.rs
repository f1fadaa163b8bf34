//! The numbered refusals.

#[derive(Clone, Copy, PartialEq, Eq, Debug)]
pub enum Refusal {
    Form = 1,
    Node = 2,
    Value = 3,
    Travel = 4,
    Double = 5,
    Full = 6,
    Size = 7,
    Network = 8,
    Store = 9,
    State = 10,
    Area = 11,
    Done = 12,
    Wait = 13,
    Floating = 14,
    Range = 15,
    Unbalanced = 16,
    History = 17,
}

impl Refusal {
    pub fn number(self) -> u64 {
        self as u64
    }
}

/// A refused advance. `place` is a node for 14 to 16, a branch for 13 and 17, and 0 for the rest.
#[derive(Clone, Copy, PartialEq, Eq, Debug)]
pub struct Stop {
    pub refusal: Refusal,
    pub place: usize,
}

impl Stop {
    pub fn at(refusal: Refusal, place: usize) -> Stop {
        Stop { refusal, place }
    }

    pub fn nowhere(refusal: Refusal) -> Stop {
        Stop { refusal, place: 0 }
    }
}
