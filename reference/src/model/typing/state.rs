//! What typing knows at a step: P, the registers, and whether a lower has stood.

/// "Each register has a known shape"; a cell shape is given by its number.
#[derive(Clone, Copy, Debug, PartialEq, Eq)]
pub enum Known {
    Unknown,
    Plain,
    Code(u8),
    CellOf(u8),
}

/// "Each register has a known shape and an effect."
#[derive(Clone, Copy, Debug, PartialEq, Eq)]
pub struct Register {
    pub shape: Known,
    pub effect: u8,
}

impl Register {
    /// "Low effect means unknown shape", and counts as 0.
    pub const LOW: Register = Register {
        shape: Known::Unknown,
        effect: 0,
    };
}

/// P, the eight registers, and whether "an earlier lower" stands in the block.
#[derive(Clone, Copy, Debug, PartialEq, Eq)]
pub struct State {
    pub p: u8,
    pub registers: [Register; 8],
    pub lowered: bool,
}

impl State {
    pub fn register(&self, number: u8) -> Register {
        self.registers[usize::from(number)]
    }

    pub fn set(&mut self, number: u8, register: Register) {
        self.registers[usize::from(number)] = register;
    }

    /// "A used effect is the smaller of effect and P."
    pub fn used(&self, register: Register) -> u8 {
        register.effect.min(self.p)
    }
}
