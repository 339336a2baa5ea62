//! The answer numbers.

/// Named as the table of answers has them; the comment is the manual's word.
#[derive(Clone, Copy, Debug, PartialEq, Eq, PartialOrd, Ord)]
pub enum Answer {
    /// OK
    Done,
    /// RECUNKNOWN
    ReceiverUnknown,
    /// RENOTDRY
    ReceiverNotWaiting,
    /// RECBUFOFL
    ReceiverBufferFull,
    /// BUFFERMT
    BufferEmpty,
    /// BUFFEROFL
    BufferOverflow,
    /// PARAMERROR
    ParameterError,
    /// NOTASK
    NoOrder,
    /// NOTFOUND
    NotFound,
    /// CMDPRIVILEGED
    NotPermitted,
    /// NOUSER
    NoUser,
    /// ILLIOADDRESS
    NoSuchInput,
    /// TASKLISTOFL
    OrdersFull,
    /// TIMECONDITION
    TimeCondition,
    /// NOSEMANUMBER
    NoSemaphore,
    /// NOPOOLINIT
    PoolNotInitialised,
    /// POOLOVERFLOW
    BeyondPool,
    /// DATALENFAULT
    DataLengthFault,
    /// POOLLENFAULT
    PoolLengthFault,
    /// SUSPENDED
    Suspended,
    /// NOTREADY
    NotReady,
    /// STARTED
    Started,
    /// BADCONFIG
    BadConfiguration,
    /// BADLOG
    BadLog,
    /// NOTHOLDER
    NotHolder,
}

impl Answer {
    pub fn number(self) -> u8 {
        match self {
            Answer::Done => 0,
            Answer::ReceiverUnknown => 1,
            Answer::ReceiverNotWaiting => 2,
            Answer::ReceiverBufferFull => 3,
            Answer::BufferEmpty => 4,
            Answer::BufferOverflow => 5,
            Answer::ParameterError => 6,
            Answer::NoOrder => 7,
            Answer::NotFound => 8,
            Answer::NotPermitted => 9,
            Answer::NoUser => 10,
            Answer::NoSuchInput => 11,
            Answer::OrdersFull => 13,
            Answer::TimeCondition => 14,
            Answer::NoSemaphore => 15,
            Answer::PoolNotInitialised => 16,
            Answer::BeyondPool => 17,
            Answer::DataLengthFault => 18,
            Answer::PoolLengthFault => 19,
            Answer::Suspended => 32,
            Answer::NotReady => 33,
            Answer::Started => 34,
            Answer::BadConfiguration => 35,
            Answer::BadLog => 36,
            Answer::NotHolder => 37,
        }
    }

    /// 0, 5, 14 and 32 are no refusals.
    pub fn is_refusal(self) -> bool {
        !matches!(self, Answer::Done | Answer::BufferOverflow | Answer::TimeCondition | Answer::Suspended)
    }
}
