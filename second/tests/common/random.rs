//! Small seeded tables and reports.

use super::table;
pub use second::random::Random;
use second::Table;

/// Tables and reports from a generator of numbers.
pub trait Tables {
    /// Gives a small table, mostly an accepted one.
    fn table(&mut self) -> Table;

    /// Gives a table in which one long job owns a resource while short ones come.
    fn contended_table(&mut self) -> Table;

    /// Gives a section of a job.
    fn section(&mut self, job: u32, cost: u32) -> [u32; 4];

    /// Gives some arcs, mostly without a cycle.
    fn arcs(&mut self, jobs: u32) -> Vec<[u32; 2]>;

    /// Gives reports for this many ticks.
    fn reports(&mut self, ticks: u32) -> Vec<bool>;
}

impl Tables for Random {
    fn table(&mut self) -> Table {
        if self.percent(50) {
            return self.contended_table();
        }
        let count = 1 + self.below(6);
        let slack = 1 + self.below(24);
        let mut jobs = Vec::new();
        for _ in 0..count {
            let (release, cost) = (self.below(8), 1 + self.below(4));
            jobs.push([release, cost, release + cost + self.below(slack)]);
        }
        let mut sections = Vec::new();
        for _ in 0..self.below(5) {
            let job = self.below(count);
            sections.push(self.section(job, jobs[job as usize][1]));
        }
        table(&jobs, &self.arcs(count), &sections)
    }

    fn contended_table(&mut self) -> Table {
        let count = 2 + self.below(4);
        let long = self.below(count);
        let slack = 2 + self.below(8);
        let mut jobs = Vec::new();
        let mut sections = Vec::new();
        for job in 0..count {
            let (release, cost) = match job == long {
                true => (self.below(2), 3 + self.below(5)),
                false => (1 + self.below(7), 1 + self.below(2)),
            };
            let room = if job == long { 30 } else { self.below(slack) };
            jobs.push([release, cost, release + cost + room]);
            if job == long {
                sections.push([job, 0, self.below(2), cost]);
            } else if self.percent(70) {
                sections.push(self.section(job, cost));
            }
        }
        let arcs = if self.percent(50) {
            self.arcs(count)
        } else {
            vec![]
        };
        table(&jobs, &arcs, &sections)
    }

    fn section(&mut self, job: u32, cost: u32) -> [u32; 4] {
        let from = self.below(cost);
        let to = from + 1 + self.below(cost - from);
        [job, self.below(3), from, to]
    }

    fn arcs(&mut self, jobs: u32) -> Vec<[u32; 2]> {
        let turn = self.below(jobs);
        let flip = self.percent(50);
        let number = |place: u32| match flip {
            true => jobs - 1 - (place + turn) % jobs,
            false => (place + turn) % jobs,
        };
        let count = if jobs > 1 { self.below(jobs + 1) } else { 0 };
        let mut arcs = Vec::new();
        for _ in 0..count {
            let after = 1 + self.below(jobs - 1);
            arcs.push([number(self.below(after)), number(after)]);
        }
        if self.percent(5) {
            arcs.push([self.below(jobs), self.below(jobs)]);
        }
        arcs
    }

    fn reports(&mut self, ticks: u32) -> Vec<bool> {
        let silent = [0, 10, 50, 100][self.below(4) as usize];
        (0..ticks).map(|_| self.percent(silent)).collect()
    }
}
