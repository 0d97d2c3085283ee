//! Tables, plans and states, as flat lists of 32-bit numbers.

/// Most jobs of a table.
pub const MOST_JOBS: usize = 64;
/// Most arcs of a table.
pub const MOST_ARCS: usize = 256;
/// Most sections of a table.
pub const MOST_SECTIONS: usize = 128;
/// Largest release or deadline, given or modified.
pub const LARGEST_INSTANT: u32 = 1_000_000;
/// Largest cost.
pub const LARGEST_COST: u32 = 100_000;
/// Number of resources.
pub const RESOURCES: usize = 16;
/// Largest tick of a state.
pub const LARGEST_TICK: u32 = 10_000_000;

/// Mark of a job that has none.
pub const MARK_NONE: u32 = 0;
/// Mark of a fresh job.
pub const MARK_FRESH: u32 = 1;
/// Mark of a stale job.
pub const MARK_STALE: u32 = 2;

/// A table of jobs as three flat lists.
#[derive(Clone, Debug, Default, PartialEq, Eq)]
pub struct Table {
    /// Release, cost, deadline of each job.
    pub jobs: Vec<u32>,
    /// Before, after of each arc.
    pub arcs: Vec<u32>,
    /// Job, resource, from, to of each section.
    pub sections: Vec<u32>,
}

/// A table with its modified times.
#[derive(Clone, Debug, Default, PartialEq, Eq)]
pub struct Plan {
    /// The table.
    pub table: Table,
    /// Modified release, modified deadline of each job.
    pub times: Vec<u32>,
}

/// A state of a run.
#[derive(Clone, Debug, Default, PartialEq, Eq)]
pub struct State {
    /// The tick.
    pub tick: u32,
    /// Executed ticks of each job.
    pub executed: Vec<u32>,
    /// Mark of each job: 0 none, 1 fresh, 2 stale.
    pub marks: Vec<u32>,
    /// Finish of each job, 0 until it ends.
    pub finish: Vec<u32>,
}

/// One job of a table.
#[derive(Clone, Copy, Debug, PartialEq, Eq)]
pub struct Job {
    /// Given release.
    pub release: u32,
    /// Cost in ticks.
    pub cost: u32,
    /// Given deadline.
    pub deadline: u32,
}

/// One arc of a table.
#[derive(Clone, Copy, Debug, PartialEq, Eq)]
pub struct Arc {
    /// The predecessor.
    pub before: usize,
    /// The successor.
    pub after: usize,
}

/// One section of a table.
#[derive(Clone, Copy, Debug, PartialEq, Eq)]
pub struct Section {
    /// The job that owns it.
    pub job: usize,
    /// Its resource.
    pub resource: usize,
    /// First executed tick that it covers.
    pub from: u32,
    /// First executed tick behind it.
    pub to: u32,
}

impl Section {
    /// Gives the number of ticks that the section covers.
    pub fn length(&self) -> u32 {
        self.to - self.from
    }
}

impl Table {
    /// Gives the number of whole jobs in the list.
    pub fn job_count(&self) -> usize {
        self.jobs.len() / 3
    }

    /// Gives the jobs by number.
    pub fn each_job(&self) -> impl Iterator<Item = Job> + '_ {
        self.jobs.chunks_exact(3).map(|v| Job {
            release: v[0],
            cost: v[1],
            deadline: v[2],
        })
    }

    /// Gives the arcs by number.
    pub fn each_arc(&self) -> impl Iterator<Item = Arc> + '_ {
        self.arcs.chunks_exact(2).map(|v| Arc {
            before: v[0] as usize,
            after: v[1] as usize,
        })
    }

    /// Gives the sections by number.
    pub fn each_section(&self) -> impl Iterator<Item = Section> + '_ {
        self.sections.chunks_exact(4).map(|v| Section {
            job: v[0] as usize,
            resource: v[1] as usize,
            from: v[2],
            to: v[3],
        })
    }

    /// Gives the cost of a job of the table.
    pub fn cost(&self, job: usize) -> u32 {
        self.jobs[3 * job + 1]
    }

    /// Gives the given deadline of a job of the table.
    pub fn deadline(&self, job: usize) -> u32 {
        self.jobs[3 * job + 2]
    }

    /// Gives the direct predecessors of a job, once for each arc.
    pub fn predecessors(&self, job: usize) -> impl Iterator<Item = usize> + '_ {
        let arcs = self.each_arc().filter(move |arc| arc.after == job);
        arcs.map(|arc| arc.before)
    }

    /// Gives the direct successors of a job, once for each arc.
    pub fn successors(&self, job: usize) -> impl Iterator<Item = usize> + '_ {
        let arcs = self.each_arc().filter(move |arc| arc.before == job);
        arcs.map(|arc| arc.after)
    }
}

impl Plan {
    /// Gives the modified release of a job of the plan.
    pub fn release(&self, job: usize) -> u32 {
        self.times[2 * job]
    }

    /// Gives the modified deadline of a job of the plan.
    pub fn deadline(&self, job: usize) -> u32 {
        self.times[2 * job + 1]
    }

    /// Gives the relative deadline of a job of a plan within its bounds.
    pub fn relative_deadline(&self, job: usize) -> u32 {
        self.deadline(job) - self.release(job)
    }
}
