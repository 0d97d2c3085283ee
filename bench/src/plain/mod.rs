//! The dispatcher as it would be written by hand: slices in, slices out, nothing allocated, the
//! same judging, the same refusals in the same order. No proof, bounds checks on.

pub mod answer;
pub mod check;
pub mod choice;
pub mod density;
pub mod order;
pub mod read;
pub mod run;
pub mod times;
pub mod write;

use fuzz::abi::{Count, Counts, Entries, Late, Length, LentLists, PlanLists};
use fuzz::abi::{StateLists, Stepped, TableLists, Tick, Verdict};

/// Latest release or deadline.
pub const LATEST: u32 = 1_000_000;
/// Most jobs of a table.
pub const MOST_JOBS: usize = 64;
/// Number of resources.
pub const RESOURCES: usize = 16;

/// A refusal's number and place.
#[derive(Clone, Copy, Debug, PartialEq, Eq)]
pub struct Refused {
    /// The number, 1 to 14.
    pub number: u32,
    /// The line, job, arc or section, or 0.
    pub place: u32,
}

/// What is answered, or why it is refused.
pub type Judged<T> = Result<T, Refused>;

/// Refuses with this number at this place.
pub fn refuse<T>(number: u32, place: usize) -> Judged<T> {
    let place = place as u32;
    Err(Refused { number, place })
}

/// Turns a judged value into an answer of the interface, by the fields after refusal and place.
macro_rules! answer {
    ($judged:expr, $name:ident { $($field:ident),+ }) => {
        match $judged {
            Ok(($($field,)+)) => $name { refusal: 0, place: 0, $($field),+ },
            Err(Refused { number: refusal, place }) => {
                $name { refusal, place, $($field: 0),+ }
            }
        }
    };
}

/// The entries written by hand, each a call as those of the library are.
#[derive(Clone, Copy, Debug, Default)]
pub struct Plain {
    /// Whether a text is judged in a pass of its own, without lists to keep its values in.
    pub reads_twice: bool,
    /// Whether a run goes from event to event.
    pub by_events: bool,
}

/// Reads once, and runs tick by tick.
pub const BY_TICKS: Plain = Plain {
    reads_twice: false,
    by_events: false,
};

/// Reads twice, and runs from event to event, as the library does.
pub const BY_EVENTS: Plain = Plain {
    reads_twice: true,
    by_events: true,
};

impl Entries for Plain {
    #[inline(never)]
    fn read(&self, text: &[u8], lent: LentLists) -> Counts {
        let read = match self.reads_twice {
            true => read::read_twice(text, lent),
            false => read::read(text, lent),
        };
        answer!(
            read.map(|counts| (counts[0], counts[1], counts[2])),
            Counts {
                jobs,
                arcs,
                sections
            }
        )
    }

    #[inline(never)]
    fn write(&self, table: TableLists, out: &mut [u8]) -> Length {
        answer!(
            write::write(table, out).map(|bytes| (bytes,)),
            Length { bytes }
        )
    }

    #[inline(never)]
    fn plan(&self, table: TableLists, times: &mut [u32]) -> Count {
        answer!(
            times::plan(table, times).map(|times| (times,)),
            Count { times }
        )
    }

    #[inline(never)]
    fn density(&self, plan: PlanLists) -> Verdict {
        let failing = density::lowest_failing(plan);
        answer!(
            failing.map(|place| (u32::from(place == 0), place)),
            Verdict { yes, failing }
        )
    }

    #[inline(never)]
    fn start(&self, plan: PlanLists, lent: LentLists) -> Tick {
        answer!(run::start(plan, lent).map(|_| (0,)), Tick { tick })
    }

    #[inline(never)]
    fn step(&self, plan: PlanLists, tick: u32, state: LentLists, silent: bool) -> Stepped {
        match run::step(plan, tick, state, silent) {
            Ok(ran) => Stepped {
                refusal: 0,
                place: 0,
                tick: tick + 1,
                ran: u32::from(ran.is_some()),
                job: ran.unwrap_or(0) as u32,
            },
            Err(Refused { number, place }) => Stepped {
                refusal: number,
                place,
                tick,
                ran: 0,
                job: 0,
            },
        }
    }

    #[inline(never)]
    fn run(&self, plan: PlanLists, lent: LentLists) -> Tick {
        let end = match self.by_events {
            true => run::run_by_events(plan, lent).map(|(tick, _)| tick),
            false => run::run_by_ticks(plan, lent),
        };
        answer!(end.map(|tick| (tick,)), Tick { tick })
    }

    #[inline(never)]
    fn lateness(&self, plan: PlanLists, tick: u32, state: StateLists, job: u32) -> Late {
        let late = run::lateness(plan, tick, state, job);
        answer!(
            late.map(|late| (u32::from(late.is_some()), late.unwrap_or(0))),
            Late { finished, lateness }
        )
    }

    #[inline(never)]
    fn answer(&self, text: &[u8], out: &mut [u8]) -> Length {
        answer!(
            answer::answer(text, out).map(|bytes| (bytes,)),
            Length { bytes }
        )
    }
}
