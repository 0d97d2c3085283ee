//! Accepted tables made from random numbers, small enough that a run is some tens or hundreds of
//! ticks.
//!
//! Arcs follow a drawn order of the jobs, so they hold no cycle. Sections of a job lie within each
//! other on other resources or side by side, so they don't clash. Each deadline leaves the time
//! that the job and all before it need, so no window is too short.

use crate::random::Random;
use crate::table::{Table, MOST_ARCS, MOST_JOBS, MOST_SECTIONS, RESOURCES};

/// The kinds of accepted tables.
pub const KINDS: u32 = 6;

/// A table as records.
#[derive(Clone, Debug, Default, PartialEq, Eq)]
pub struct Rows {
    /// Release, cost, deadline of each job.
    pub jobs: Vec<[u32; 3]>,
    /// Before, after of each arc.
    pub arcs: Vec<[u32; 2]>,
    /// Job, resource, from, to of each section.
    pub sections: Vec<[u32; 4]>,
}

impl Rows {
    /// Gives the table as flat lists.
    pub fn table(&self) -> Table {
        Table {
            jobs: self.jobs.concat(),
            arcs: self.arcs.concat(),
            sections: self.sections.concat(),
        }
    }

    /// Gives the number of jobs.
    pub fn job_count(&self) -> u32 {
        self.jobs.len() as u32
    }

    /// Adds this many jobs with releases and costs below these limits, deadlines still open.
    fn add_jobs(&mut self, random: &mut Random, count: u32, releases: u32, costs: u32) {
        for _ in 0..count {
            let release = random.below(releases);
            self.jobs.push([release, 1 + random.below(costs), 0]);
        }
    }

    /// Adds this many arcs, each from an earlier to a later place of the order.
    fn add_arcs(&mut self, random: &mut Random, order: &[u32], count: u32) {
        for _ in 0..if order.len() > 1 { count } else { 0 } {
            let after = 1 + random.place(order.len() - 1);
            self.arcs.push([order[random.place(after)], order[after]]);
        }
    }

    /// Adds sections of a job within its ticks from the first to the last, on these resources.
    fn nest(&mut self, random: &mut Random, job: u32, first: u32, last: u32, buses: &[u32]) {
        let Some((&bus, others)) = buses.split_first() else {
            return;
        };
        if first >= last {
            return;
        }
        let from = first + random.below(last - first) * random.below(2);
        let to = from + 1 + random.below(last - from);
        self.sections.push([job, bus, from, to]);
        if random.percent(60) {
            self.nest(random, job, from, to, others);
        }
        if random.percent(40) {
            self.nest(random, job, to, last, buses);
        }
    }

    /// Adds sections to about this part of the jobs, in a hundred, on the first so many resources.
    fn add_sections(&mut self, random: &mut Random, percent: u32, resources: u32) {
        for job in 0..self.job_count() {
            if random.percent(percent) {
                let buses = random.order(resources);
                self.nest(random, job, 0, self.jobs[job as usize][1], &buses);
            }
        }
        random.shuffle(&mut self.sections);
    }

    /// Gives each job a deadline that leaves it and all before it their time and less than this
    /// much more, rounded up to the grid so that some are equal.
    ///
    /// The arcs must follow the order.
    pub(crate) fn set_deadlines(
        &mut self,
        random: &mut Random,
        order: &[u32],
        more: u32,
        grid: u32,
    ) {
        let mut ends = vec![0; self.jobs.len()];
        for &job in order {
            let [release, cost, _] = self.jobs[job as usize];
            let before = self.arcs.iter().filter(|arc| arc[1] == job);
            let ready = before.map(|arc| ends[arc[0] as usize]).max();
            let end = ready.unwrap_or(0).max(release) + cost;
            ends[job as usize] = end;
            self.jobs[job as usize][2] = (end + random.below(more)).next_multiple_of(grid);
        }
    }
}

/// Makes an accepted table of this kind; the turn goes through its sizes.
pub fn accepted(random: &mut Random, kind: u32, turn: u32) -> Rows {
    match kind {
        0 => tied(random),
        1 => nested(random),
        2 => contended(random),
        3 => chained(random),
        4 => overloaded(random),
        _ => sized(random, 1 + turn % MOST_JOBS as u32),
    }
}

/// Makes an accepted table of any kind and size, every other one of many sizes.
pub fn any_accepted(random: &mut Random) -> Rows {
    let (kind, turn) = (random.below(2 * KINDS), random.below(MOST_JOBS as u32));
    accepted(random, kind, turn)
}

/// Makes a table with few different releases, costs and deadlines, so that the order of jobs and
/// the ceilings meet equal ones.
fn tied(random: &mut Random) -> Rows {
    let mut rows = Rows::default();
    let count = 2 + random.below(7);
    let costs = 1 + random.below(4);
    rows.add_jobs(random, count, 2, costs);
    let step = 1 + random.below(4);
    for job in &mut rows.jobs {
        job[0] *= step;
    }
    let order = random.order(count);
    let arcs = random.below(3);
    rows.add_arcs(random, &order, arcs);
    rows.add_sections(random, 60, 2);
    let grid = 8 + random.below(9);
    rows.set_deadlines(random, &order, 2, grid);
    for job in rows.jobs.iter_mut().filter(|job| job[0] == 0) {
        job[2] += grid;
    }
    rows
}

/// Makes a table whose jobs nest sections on up to four shared resources; the earlier a job comes,
/// the more time it has.
fn nested(random: &mut Random) -> Rows {
    let mut rows = Rows::default();
    let count = 2 + random.below(5);
    rows.add_jobs(random, count, 12, 12);
    rows.add_sections(random, 90, 4);
    let order = random.order(count);
    rows.set_deadlines(random, &order, 9, 1);
    for job in &mut rows.jobs {
        job[2] += 4 * (12 - job[0]);
    }
    rows
}

/// Makes a table in which a long job owns a resource while short ones with earlier deadlines come.
fn contended(random: &mut Random) -> Rows {
    let mut rows = Rows::default();
    let count = 2 + random.below(6);
    rows.add_jobs(random, count, 10, 3);
    let long = random.below(count);
    let cost = 5 + random.below(9);
    rows.jobs[long as usize] = [random.below(2), cost, 0];
    rows.add_sections(random, 90, 2);
    rows.sections.retain(|section| section[0] != long);
    let from = random.below(2);
    rows.sections.push([long, 0, from, cost]);
    rows.nest(random, long, from, cost, &[1, 2]);
    random.shuffle(&mut rows.sections);
    let order = random.order(count);
    rows.set_deadlines(random, &order, 8, 1);
    rows.jobs[long as usize][2] += 30 + random.below(30);
    rows
}

/// Makes a table of chains: probes that wake, read, filter and publish over shared resources.
fn chained(random: &mut Random) -> Rows {
    let mut rows = Rows::default();
    let (chains, links) = (1 + random.below(4), 2 + random.below(4));
    let count = chains * links;
    rows.add_jobs(random, count, 9, 5);
    let order = random.order(count);
    for chain in order.chunks_exact(links as usize) {
        rows.arcs
            .extend(chain.windows(2).map(|pair| [pair[0], pair[1]]));
    }
    let across = random.below(4);
    rows.add_arcs(random, &order, across);
    random.shuffle(&mut rows.arcs);
    rows.add_sections(random, 50, 2);
    let (more, grid) = (1 + random.below(40), 1 + random.below(6));
    rows.set_deadlines(random, &order, more, grid);
    rows
}

/// Makes a table of jobs with hardly more time than each needs alone, so that many end late.
fn overloaded(random: &mut Random) -> Rows {
    let mut rows = Rows::default();
    let count = 3 + random.below(10);
    rows.add_jobs(random, count, 6, 9);
    let order = random.order(count);
    let arcs = random.below(count);
    rows.add_arcs(random, &order, arcs);
    rows.add_sections(random, 50, 3);
    rows.set_deadlines(random, &order, 3, 1);
    rows
}

/// Makes a table of so many jobs with small costs, and with many arcs and sections.
pub(crate) fn sized(random: &mut Random, count: u32) -> Rows {
    let mut rows = Rows::default();
    let releases = 1 + random.below(2 * count);
    rows.add_jobs(random, count, releases, 4);
    let order = random.order(count);
    let arcs = random.below(5 * count).min(MOST_ARCS as u32);
    rows.add_arcs(random, &order, arcs);
    rows.add_sections(random, 90, RESOURCES as u32);
    rows.sections.truncate(MOST_SECTIONS);
    let (more, grid) = (1 + random.below(4 * count), 1 + random.below(9));
    rows.set_deadlines(random, &order, more, grid);
    rows
}

/// Makes a table of the most jobs, arcs and sections, two of each job within each other.
pub(crate) fn full(random: &mut Random) -> Rows {
    let mut rows = Rows::default();
    let jobs = MOST_JOBS as u32;
    rows.add_jobs(random, jobs, 100, 4);
    let order = random.order(jobs);
    rows.add_arcs(random, &order, MOST_ARCS as u32);
    for job in 0..jobs {
        let cost = rows.jobs[job as usize][1];
        let (bus, from) = (random.below(RESOURCES as u32), random.below(cost));
        let inner = [job, (bus + 1) % RESOURCES as u32, from, cost];
        rows.sections.extend([[job, bus, 0, cost], inner]);
    }
    random.shuffle(&mut rows.sections);
    rows.set_deadlines(random, &order, 200, 5);
    rows
}
