//! The enumerations and refusals, by their numbers. Written by tools/interface from interface/rowkeeper.txt.

/// Which right row a left row takes.
#[derive(Clone, Copy, Debug, PartialEq, Eq)]
pub enum Strategy {
    /// The last row whose key is not greater.
    Backward = 0,
    /// The first row whose key is not smaller.
    Forward = 1,
    /// The row whose key is nearest; of two equally near keys the greater.
    Nearest = 2,
}

impl Strategy {
    /// The one of a number, or none if no one has it.
    pub const fn of(number: u64) -> Option<Strategy> {
        match number {
            0 => Some(Strategy::Backward),
            1 => Some(Strategy::Forward),
            2 => Some(Strategy::Nearest),
            _ => None,
        }
    }
}

/// Whether turns check that rows are in order.
#[derive(Clone, Copy, Debug, PartialEq, Eq)]
pub enum Check {
    /// Nothing is checked.
    Off = 0,
    /// Left frames and held rows are checked, and left frames against earlier ones by rows that have a key.
    On = 1,
    /// As on; left frames are checked against earlier ones by all their rows.
    Strict = 2,
}

impl Check {
    /// The one of a number, or none if no one has it.
    pub const fn of(number: u64) -> Option<Check> {
        match number {
            0 => Some(Check::Off),
            1 => Some(Check::On),
            2 => Some(Check::Strict),
            _ => None,
        }
    }
}

/// The state of the node.
#[derive(Clone, Copy, Debug, PartialEq, Eq)]
pub enum NodeState {
    /// It takes left frames.
    Running = 0,
    /// Left is done; frames still wait.
    Flush = 1,
    /// Everything is done.
    Done = 2,
}

impl NodeState {
    /// The one of a number, or none if no one has it.
    pub const fn of(number: u64) -> Option<NodeState> {
        match number {
            0 => Some(NodeState::Running),
            1 => Some(NodeState::Flush),
            2 => Some(NodeState::Done),
            _ => None,
        }
    }
}

/// The state of a port, as it comes in to a port call and as it is returned.
#[derive(Clone, Copy, Debug, PartialEq, Eq)]
pub enum Port {
    /// Nothing can pass it at present.
    Blocked = 0,
    /// It can pass frames.
    Ready = 1,
    /// Nothing will pass it any more.
    Done = 2,
}

impl Port {
    /// The one of a number, or none if no one has it.
    pub const fn of(number: u64) -> Option<Port> {
        match number {
            0 => Some(Port::Blocked),
            1 => Some(Port::Ready),
            2 => Some(Port::Done),
            _ => None,
        }
    }
}

/// Why a call is refused. If several refusals apply, the first in checking order is given; the numbers say nothing
/// about that order. Later versions may have more of them.
#[derive(Clone, Copy, Debug, PartialEq, Eq, PartialOrd, Ord)]
#[non_exhaustive]
pub enum Refusal {
    /// Options with more than four by-columns, a tolerance above 2^63 − 1, or Nearest without equality. Raw spans: a
    /// flag that is neither 0 nor 1.
    BadOptions = 1,
    /// The join is inconsistent, or does not fit its areas.
    BadJoin = 2,
    /// An earlier turn found rows out of order and marked the join failed.
    Failed = 3,
    /// The call comes at the wrong time.
    Closed = 4,
    /// The words are not a frame or table with the columns that the call expects.
    BadFrame = 5,
    /// There is no room in an area or in the output.
    NoRoom = 6,
    /// The numbers of right rows or of turns are used up.
    UsedUp = 7,
    /// Left rows are out of order. The join is marked failed.
    LeftOrder = 8,
    /// Right rows are out of order. The join is marked failed.
    RightOrder = 9,
    /// Options with more than eight carried columns; a reader that is told of more.
    TooManyCarried = 10,
    /// Options with a list of ranks that is empty or has more than 64 codes, has a code twice, or is for a column that
    /// is no by-column.
    BadRanks = 11,
    /// The by-column with a list of ranks has a value in the frame or table that is not on the list.
    UnknownCode = 12,
    /// Standing: the place is none of the carried columns. The readers: the frame has a column count that the reader
    /// does not know.
    BadColumns = 13,
    /// A table is not sorted as the options say.
    Unsorted = 14,
    /// Takings: an amount, a count or a sum is beyond its limits.
    Beyond = 15,
    /// Spans: a point is null, or greater than the next.
    BadPoints = 16,
    /// A plan: heights that do not add up to their table's rows, or a height above 4,096.
    BadHeights = 17,
    /// Boundaries that are more than 16, null in a column or not strictly ascending, or any where there are no by-
    /// columns.
    BadBoundaries = 18,
}

impl Refusal {
    /// All refusals, by number.
    pub const ALL: [Refusal; 18] = [
        Refusal::BadOptions,
        Refusal::BadJoin,
        Refusal::Failed,
        Refusal::Closed,
        Refusal::BadFrame,
        Refusal::NoRoom,
        Refusal::UsedUp,
        Refusal::LeftOrder,
        Refusal::RightOrder,
        Refusal::TooManyCarried,
        Refusal::BadRanks,
        Refusal::UnknownCode,
        Refusal::BadColumns,
        Refusal::Unsorted,
        Refusal::Beyond,
        Refusal::BadPoints,
        Refusal::BadHeights,
        Refusal::BadBoundaries,
    ];

    /// What it says: the text of `rowkeeper_refusal_text`.
    pub const fn text(self) -> &'static str {
        match self {
            Refusal::BadOptions => "the options are invalid",
            Refusal::BadJoin => "the join is inconsistent, or does not fit its areas",
            Refusal::Failed => "an earlier turn found rows out of order",
            Refusal::Closed => "the call comes at the wrong time",
            Refusal::BadFrame => "the words are not a frame or table with the columns that the call expects",
            Refusal::NoRoom => "there is no room in an area or in the output",
            Refusal::UsedUp => "the numbers of rows or turns are used up",
            Refusal::LeftOrder => "left rows are out of order",
            Refusal::RightOrder => "right rows are out of order",
            Refusal::TooManyCarried => "there are more than 8 carried columns",
            Refusal::BadRanks => "the list of ranks is empty or too long, has a code twice or is for no by-column",
            Refusal::UnknownCode => "the by-column with a list of ranks has a value that is not on the list",
            Refusal::BadColumns => "there is no such column, or the reader does not know frames of so many columns",
            Refusal::Unsorted => "the table is not sorted",
            Refusal::Beyond => "an amount, a count or a sum is beyond its limits",
            Refusal::BadPoints => "a point is null, or greater than the next",
            Refusal::BadHeights => "the heights do not add up to their table, or one is no height of a frame",
            Refusal::BadBoundaries => "the boundaries are too many, null or out of order, or there are no by-columns",
        }
    }
}
