//! The sixteen refusals, with the numbers of the paper.

/// Why a call was refused. `as u32`, or `number()`, gives the paper's number.
#[derive(Clone, Copy, Debug, PartialEq, Eq)]
pub enum Refusal {
    /// m outside 1..10
    BlockSize = 1,
    /// C outside 1..2047
    Ceiling = 2,
    /// k outside 1..16
    Scale = 3,
    /// T outside 1..`LARGEST_LIMIT`
    Limit = 4,
    /// criterion outside 0..4
    Criterion = 5,
    /// operand outside its criterion's range
    Operand = 6,
    /// a slice shorter than needed
    Slice = 7,
    /// a mask value other than 0 or 1
    MaskValue = 8,
    /// no information position
    NoInformation = 9,
    /// an LLR of size above C
    Llr = 10,
    /// a factor or weight not finite or not above zero
    Factor = 11,
    /// a sample not finite
    Sample = 12,
    /// a message byte above 1
    MessageByte = 13,
    /// a malformed text
    Text = 14,
    /// a tally that cannot be right, or is full
    Tally = 15,
    /// a radio number above 63
    Radio = 16,
}

impl Refusal {
    /// The number in the paper.
    pub fn number(self) -> u32 {
        self as u32
    }
}

/// `Ok` where the condition holds, else the refusal.
pub fn require(condition: bool, otherwise: Refusal) -> Result<(), Refusal> {
    if condition {
        Ok(())
    } else {
        Err(otherwise)
    }
}
