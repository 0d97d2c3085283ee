//! Deliberate mistakes, switched on one at a time, to show that tests can fail.

/// One deliberate mistake; `None` is the right program.
#[derive(Clone, Copy, Debug, PartialEq, Eq)]
pub enum Slip {
    /// No mistake.
    None,
    /// Where the first pending job fails the ceiling test, the first pending job that may run does.
    StartBestThatPasses,
    /// The ceiling test asks for "at most" in place of "below".
    CeilingAtMost,
    /// The waiting bound looks only at sections whose ceiling reaches the waiting job.
    NarrowedWaitingBound,
    /// Sections of one tick set no ceiling.
    OneTickSectionsDropped,
    /// Deadlines are modified in table order.
    DeadlinesInTableOrder,
    /// Lateness is counted from the modified deadline.
    LatenessAgainstModified,
    /// The mark follows the report alone, whatever the predecessors' marks.
    MarkByReportAlone,
    /// The failing place of the density test is counted from 0.
    DensityPlaceFromZero,
    /// The text may have leading zeros in its numbers.
    LeadingZeroAccepted,
    /// The place of a cycle is the lowest job that topological sorting leaves over.
    CycleByLeftover,
    /// Adjacent sections count as overlapping.
    AdjacentOverlap,
    /// The b of the density test is taken over jobs with larger or equal D.
    LongestOfEqualToo,
    /// The modified release is the smallest, not the largest.
    ReleasesByMinimum,
    /// A job holds a section also when its executed count equals from.
    HoldsAtFrom,
}

/// The mistakes that show in what the program prints for some text: all but the one of the waiting
/// bound, which it doesn't print, and the one of silent reports, which it doesn't meet.
pub const SHOWN_BY_PROGRAM: [Slip; 12] = [
    Slip::StartBestThatPasses,
    Slip::CeilingAtMost,
    Slip::OneTickSectionsDropped,
    Slip::DeadlinesInTableOrder,
    Slip::LatenessAgainstModified,
    Slip::DensityPlaceFromZero,
    Slip::LeadingZeroAccepted,
    Slip::CycleByLeftover,
    Slip::AdjacentOverlap,
    Slip::LongestOfEqualToo,
    Slip::ReleasesByMinimum,
    Slip::HoldsAtFrom,
];
