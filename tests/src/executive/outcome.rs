//! What a call, an event or ticks give: the answer, what is added to it, and the wakes in order.

use super::answer::Answer;

pub type Message = [u8; 16];

/// What stands behind an answer number.
#[derive(Clone, Debug, PartialEq, Eq)]
pub enum Addition {
    Nothing,
    Message(Message),
    /// The numbers rise.
    Inputs(Vec<u8>),
    Milliseconds(u32),
    /// How many orders were carried out. Many ticks with many orders need more than 32 bits.
    OrdersCarriedOut(u64),
    /// A part of the pool, as long as the caller asked for; it may have no byte.
    Data(Vec<u8>),
    /// The level that holds a semaphore, if any does.
    Holder(Option<u8>),
}

/// A process that waited is READY again.
#[derive(Clone, Debug, PartialEq, Eq)]
pub struct Wake {
    pub level: u8,
    pub answer: Answer,
    pub addition: Addition,
}

#[derive(Clone, Debug, PartialEq, Eq)]
pub struct Outcome {
    pub answer: Answer,
    pub addition: Addition,
    pub wakes: Vec<Wake>,
}

impl Outcome {
    /// An answer with nothing behind it that wakes nobody.
    pub fn plain(answer: Answer) -> Outcome {
        Outcome { answer, addition: Addition::Nothing, wakes: Vec::new() }
    }

    pub fn with(answer: Answer, addition: Addition) -> Outcome {
        Outcome { answer, addition, wakes: Vec::new() }
    }

    pub fn waking(answer: Answer, wakes: Vec<Wake>) -> Outcome {
        Outcome { answer, addition: Addition::Nothing, wakes }
    }
}
