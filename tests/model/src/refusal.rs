//! The refusal numbers.

/// Document 01, "Refusal numbers". A success has the number 0 and no case here.
#[derive(Clone, Copy, Debug, PartialEq, Eq)]
#[repr(u8)]
pub enum Refusal {
    /// 1 to 3 bytes are left at a record's start, or fewer than its length says.
    CutShort = 1,
    /// The kind is not of this stream.
    WrongKind = 2,
    /// The length is not that of the kind.
    WrongLength = 3,
    /// The first table record is not CORES, or there is a second CORES.
    MisplacedCores = 4,
    /// A 33rd gang or a 129th thread.
    TooMany = 5,
    /// A count, priority, budget, number or transaction count is out of range
    /// or not in the table.
    OutOfRange = 6,
    /// The priority is already taken.
    PriorityTaken = 7,
    /// The table ends without CORES, without a gang, or with a gang that has
    /// no thread.
    Incomplete = 8,
    /// FINISH or WAIT of a thread that is not running.
    NotRunning = 9,
    /// WAKE of a thread that is not waiting.
    NotWaiting = 10,
    /// TRAFFIC from a core with an occupant.
    Occupied = 11,
    /// RELEASE when the number is 4,294,967,295.
    NumbersUsedUp = 12,
    /// The next answer has no room.
    NoRoom = 13,
    /// The system handed in is not well formed.
    NotWellFormed = 14,
}

impl Refusal {
    /// The number that document 01 gives to this refusal.
    pub const fn number(self) -> u8 {
        self as u8
    }
}
