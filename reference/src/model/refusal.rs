//! The refusals, each with the paper's number.

/// Why an operation was refused. The discriminant is the paper's number.
#[derive(Clone, Copy, PartialEq, Eq, PartialOrd, Ord, Hash, Debug)]
#[repr(u8)]
pub enum Refusal {
    /// The chart file is too short or too long, or its version or length is wrong.
    ChartHeader = 1,
    /// A count of the chart is outside its range.
    ChartCount = 2,
    /// A record's length disagrees with its content or with the file.
    ChartLength = 3,
    /// A field other than a parent is out of range.
    ChartField = 4,
    /// A parent is not a composite of smaller number, or a composite has no child.
    Parent = 5,
    /// There are more than 16 sequential states.
    SequentialCount = 6,
    /// There is no sequential state.
    NoSequential = 7,
    /// The entry marks are inconsistent.
    EntryMarks = 8,
    /// A composite state has exit marks.
    ExitMarks = 9,
    /// A transition's ends are not children of one sequential state.
    TransitionEnds = 10,
    /// An exit is present with a basic source or absent with a composite one.
    TransitionExit = 11,
    /// An entry is present with a basic destination or is no mark of a composite one.
    TransitionEntry = 12,
    /// A receiver assigns, or a variable is assigned twice.
    Assignments = 13,
    /// Two transitions of one channel have parents that lie one below the other.
    NestedChannel = 14,
    /// The network would have more than 1,024 edges.
    EdgeCount = 15,
    /// The lent buffer is shorter than the network.
    BufferLength = 16,
    /// Not a configuration of this chart, or bounds broken.
    ChartConfiguration = 17,
    /// Not 1 to 16 known numbers, strictly ascending.
    List = 18,
    /// One transition or edge of the list is inactive.
    Inactive = 19,
    /// The set is not allowed.
    NotAllowed = 20,
    /// The new configuration breaks a bound.
    BoundBroken = 21,
    /// Zero ticks, or a clock would pass its limit.
    Ticks = 22,
    /// A network's header, count or length is wrong.
    NetworkLength = 24,
    /// A network's field is out of range, or the network is inconsistent.
    NetworkField = 25,
    /// Not a configuration of this network, or bounds broken.
    NetworkConfiguration = 26,
    /// An urgent location is occupied and must be left first.
    Urgency = 27,
    /// An assignment or advance of the list has a result that leaves signed 32 bits.
    RangeLeft = 28,
    /// A window of no tick, or a tick that is smaller than the one before it.
    WeftBreaks = 29,
}

impl Refusal {
    /// Every refusal, in the order of the numbers.
    pub const ALL: [Refusal; 28] = [
        Refusal::ChartHeader,
        Refusal::ChartCount,
        Refusal::ChartLength,
        Refusal::ChartField,
        Refusal::Parent,
        Refusal::SequentialCount,
        Refusal::NoSequential,
        Refusal::EntryMarks,
        Refusal::ExitMarks,
        Refusal::TransitionEnds,
        Refusal::TransitionExit,
        Refusal::TransitionEntry,
        Refusal::Assignments,
        Refusal::NestedChannel,
        Refusal::EdgeCount,
        Refusal::BufferLength,
        Refusal::ChartConfiguration,
        Refusal::List,
        Refusal::Inactive,
        Refusal::NotAllowed,
        Refusal::BoundBroken,
        Refusal::Ticks,
        Refusal::NetworkLength,
        Refusal::NetworkField,
        Refusal::NetworkConfiguration,
        Refusal::Urgency,
        Refusal::RangeLeft,
        Refusal::WeftBreaks,
    ];

    /// The paper's number.
    pub fn number(self) -> u8 {
        self as u8
    }
}
