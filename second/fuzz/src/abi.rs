//! The C interface as `include/zubrelets.h` declares it: the only file that knows it.
//!
//! Every answer starts with the refusal's number and place, both 0 for none. With a refusal the
//! values after them are 0, but for a step's tick, which is the one handed in.

/// The three lists of a table.
#[derive(Clone, Copy, Debug)]
pub struct TableLists<'a> {
    /// Release, cost, deadline of each job.
    pub jobs: &'a [u32],
    /// Before, after of each arc.
    pub arcs: &'a [u32],
    /// Job, resource, from, to of each section.
    pub sections: &'a [u32],
}

/// The four lists of a plan.
#[derive(Clone, Copy, Debug)]
pub struct PlanLists<'a> {
    /// The table's lists.
    pub table: TableLists<'a>,
    /// Modified release, modified deadline of each job.
    pub times: &'a [u32],
}

/// Three lists of a state, to be read: executed ticks, marks, finishes.
pub type StateLists<'a> = [&'a [u32]; 3];
/// Three lent lists: of a table (jobs, arcs, sections) or of a state (executed, marks, finish).
pub type LentLists<'a> = [&'a mut [u32]; 3];

/// An answer of any entry: the refusal's number and place, and the values after them, the rest 0.
#[derive(Clone, Copy, Debug, Default, PartialEq, Eq)]
pub struct Numbers {
    /// The refusal's number, 0 for none.
    pub refusal: u32,
    /// The refusal's place.
    pub place: u32,
    /// The values in their order.
    pub values: [i64; 3],
}

/// Declares an answer of the C interface by the fields after refusal and place, and turns it into
/// numbers and back.
macro_rules! answers {
    ($($(#[$doc:meta])* $name:ident { $($field:ident: $type:ty),+ })+) => {$(
        $(#[$doc])*
        #[repr(C)]
        #[derive(Clone, Copy, Debug, PartialEq, Eq)]
        #[allow(missing_docs)]
        pub struct $name {
            pub refusal: u32,
            pub place: u32,
            $(pub $field: $type,)+
        }

        impl From<$name> for Numbers {
            fn from(answer: $name) -> Numbers {
                let given = [$(answer.$field as i64),+];
                let mut values = [0; 3];
                values[..given.len()].copy_from_slice(&given);
                Numbers { refusal: answer.refusal, place: answer.place, values }
            }
        }

        impl From<Numbers> for $name {
            fn from(numbers: Numbers) -> $name {
                let [$($field,)+ ..] = numbers.values;
                $name {
                    refusal: numbers.refusal,
                    place: numbers.place,
                    $($field: $field as $type,)+
                }
            }
        }
    )+};
}

answers! {
    /// What `zub_read` answers: how many jobs, arcs and sections it read.
    Counts { jobs: u32, arcs: u32, sections: u32 }
    /// What `zub_write` and `zub_answer` answer: how many bytes they wrote.
    Length { bytes: usize }
    /// What `zub_plan` answers: how many numbers it wrote into the times.
    Count { times: u32 }
    /// What `zub_density` answers: 1 for yes, and the lowest failing place with a no.
    Verdict { yes: u32, failing: u32 }
    /// What `zub_start` and `zub_run` answer: the tick of the state that they wrote.
    Tick { tick: u32 }
    /// What `zub_step` answers: the tick after it, 1 if a job ran, and which.
    Stepped { tick: u32, ran: u32, job: u32 }
    /// What `zub_lateness` answers: 1 if the job has finished, and its lateness.
    Late { finished: u32, lateness: i32 }
}

/// The entries, on slices: those of the library, or what stands in for it.
pub trait Entries {
    /// Reads a table's text into lent lists.
    fn read(&self, text: &[u8], lent: LentLists) -> Counts;
    /// Writes a table's text into a lent list.
    fn write(&self, table: TableLists, out: &mut [u8]) -> Length;
    /// Checks a table and writes its modified times.
    fn plan(&self, table: TableLists, times: &mut [u32]) -> Count;
    /// Tests the density of a plan.
    fn density(&self, plan: PlanLists) -> Verdict;
    /// Writes the state in which a run starts.
    fn start(&self, plan: PlanLists, lent: LentLists) -> Tick;
    /// Does one tick on a state.
    fn step(&self, plan: PlanLists, tick: u32, state: LentLists, silent: bool) -> Stepped;
    /// Runs a plan to the end with every report answered.
    fn run(&self, plan: PlanLists, lent: LentLists) -> Tick;
    /// Gives the lateness of a job of a state.
    fn lateness(&self, plan: PlanLists, tick: u32, state: StateLists, job: u32) -> Late;
    /// Writes what the program prints for a text.
    fn answer(&self, text: &[u8], out: &mut [u8]) -> Length;
}

#[cfg(feature = "library")]
pub use library::Library;

#[cfg(feature = "library")]
mod library {
    use super::*;

    type In = *const u32;
    type Out = *mut u32;

    #[rustfmt::skip]
    extern "C" {
        fn zub_read(text: *const u8, text_len: usize, jobs: Out, jobs_len: usize,
            arcs: Out, arcs_len: usize, sections: Out, sections_len: usize) -> Counts;
        fn zub_write(jobs: In, jobs_len: usize, arcs: In, arcs_len: usize,
            sections: In, sections_len: usize, out: *mut u8, out_len: usize) -> Length;
        fn zub_plan(jobs: In, jobs_len: usize, arcs: In, arcs_len: usize,
            sections: In, sections_len: usize, times: Out, times_len: usize) -> Count;
        fn zub_density(jobs: In, jobs_len: usize, arcs: In, arcs_len: usize,
            sections: In, sections_len: usize, times: In, times_len: usize) -> Verdict;
        fn zub_start(jobs: In, jobs_len: usize, arcs: In, arcs_len: usize,
            sections: In, sections_len: usize, times: In, times_len: usize,
            executed: Out, executed_len: usize, marks: Out, marks_len: usize,
            finish: Out, finish_len: usize) -> Tick;
        fn zub_step(jobs: In, jobs_len: usize, arcs: In, arcs_len: usize,
            sections: In, sections_len: usize, times: In, times_len: usize, tick: u32,
            executed: Out, executed_len: usize, marks: Out, marks_len: usize,
            finish: Out, finish_len: usize, silent: bool) -> Stepped;
        fn zub_run(jobs: In, jobs_len: usize, arcs: In, arcs_len: usize,
            sections: In, sections_len: usize, times: In, times_len: usize,
            executed: Out, executed_len: usize, marks: Out, marks_len: usize,
            finish: Out, finish_len: usize) -> Tick;
        fn zub_lateness(jobs: In, jobs_len: usize, arcs: In, arcs_len: usize,
            sections: In, sections_len: usize, times: In, times_len: usize, tick: u32,
            executed: In, executed_len: usize, marks: In, marks_len: usize,
            finish: In, finish_len: usize, job: u32) -> Late;
        fn zub_answer(text: *const u8, text_len: usize, out: *mut u8, out_len: usize) -> Length;
    }

    /// Calls an entry with a pointer and a length for each list, the lent ones behind the semicolon.
    ///
    /// Each list is a slice, so its pointer and length agree, and a lent one overlaps no other.
    macro_rules! call {
        ($entry:ident, $($list:expr),+; $($lent:expr),*) => {
            unsafe {
                $entry($($list.as_ptr(), $list.len(),)+ $($lent.as_mut_ptr(), $lent.len(),)*)
            }
        };
    }

    /// The linked library.
    #[derive(Clone, Copy, Debug, Default)]
    pub struct Library;

    impl Entries for Library {
        fn read(&self, text: &[u8], [jobs, arcs, sections]: LentLists) -> Counts {
            call!(zub_read, text; jobs, arcs, sections)
        }

        fn write(&self, t: TableLists, out: &mut [u8]) -> Length {
            call!(zub_write, t.jobs, t.arcs, t.sections; out)
        }

        fn plan(&self, t: TableLists, times: &mut [u32]) -> Count {
            call!(zub_plan, t.jobs, t.arcs, t.sections; times)
        }

        fn density(&self, p: PlanLists) -> Verdict {
            let t = p.table;
            call!(zub_density, t.jobs, t.arcs, t.sections, p.times;)
        }

        fn start(&self, p: PlanLists, [executed, marks, finish]: LentLists) -> Tick {
            let t = p.table;
            call!(zub_start, t.jobs, t.arcs, t.sections, p.times; executed, marks, finish)
        }

        fn run(&self, p: PlanLists, [executed, marks, finish]: LentLists) -> Tick {
            let t = p.table;
            call!(zub_run, t.jobs, t.arcs, t.sections, p.times; executed, marks, finish)
        }

        fn answer(&self, text: &[u8], out: &mut [u8]) -> Length {
            call!(zub_answer, text; out)
        }

        #[rustfmt::skip]
        fn step(&self, p: PlanLists, tick: u32, state: LentLists, silent: bool) -> Stepped {
            let (t, [executed, marks, finish]) = (p.table, state);
            unsafe {
                zub_step(t.jobs.as_ptr(), t.jobs.len(), t.arcs.as_ptr(), t.arcs.len(),
                    t.sections.as_ptr(), t.sections.len(), p.times.as_ptr(), p.times.len(), tick,
                    executed.as_mut_ptr(), executed.len(), marks.as_mut_ptr(), marks.len(),
                    finish.as_mut_ptr(), finish.len(), silent)
            }
        }

        #[rustfmt::skip]
        fn lateness(&self, p: PlanLists, tick: u32, state: StateLists, job: u32) -> Late {
            let (t, [executed, marks, finish]) = (p.table, state);
            unsafe {
                zub_lateness(t.jobs.as_ptr(), t.jobs.len(), t.arcs.as_ptr(), t.arcs.len(),
                    t.sections.as_ptr(), t.sections.len(), p.times.as_ptr(), p.times.len(), tick,
                    executed.as_ptr(), executed.len(), marks.as_ptr(), marks.len(),
                    finish.as_ptr(), finish.len(), job)
            }
        }
    }
}
