//! The six clauses of the run, judged by replaying a trace from the definitions.

use second::{Plan, State, Table, Trace};

/// Gives the first clause, a to f, that a run breaks; 'x' if the end state isn't its replay.
pub fn broken_clause(plan: &Plan, reports: &[bool], trace: &Trace) -> Option<char> {
    let replay = Replay::of(plan, trace);
    let clauses = [
        ('x', replay.ends_as(&trace.end)),
        ('a', replay.ancestors_first()),
        ('b', replay.one_inside()),
        ('c', replay.marks_right(reports, &trace.end)),
        ('d', replay.waits_bounded()),
        ('e', replay.never_idle()),
        ('f', replay.ends_in_time()),
    ];
    let mut broken = clauses.into_iter().filter(|(_, holds)| !holds);
    broken.next().map(|(clause, _)| clause)
}

/// Gives for each job whether it is an ancestor of this one.
pub fn ancestors(table: &Table, job: usize) -> Vec<bool> {
    let mut found = vec![false; table.jobs.len() / 3];
    let mut open = vec![job];
    while let Some(job) = open.pop() {
        for arc in table.arcs.chunks(2).filter(|arc| arc[1] as usize == job) {
            let before = arc[0] as usize;
            if !found[before] {
                found[before] = true;
                open.push(before);
            }
        }
    }
    found
}

/// A run told from its ticks alone.
struct Replay<'a> {
    plan: &'a Plan,
    ran: &'a [Option<usize>],
    /// Executed ticks of each job before each tick, and at the end.
    executed: Vec<Vec<u32>>,
    /// Tick after the last one of each job.
    finish: Vec<u32>,
    jobs: usize,
}

impl Replay<'_> {
    fn of<'a>(plan: &'a Plan, trace: &'a Trace) -> Replay<'a> {
        let jobs = plan.table.jobs.len() / 3;
        let mut executed = vec![vec![0; jobs]];
        let mut finish = vec![0; jobs];
        for (tick, ran) in trace.ran.iter().enumerate() {
            let mut after = executed[tick].clone();
            if let Some(job) = *ran {
                after[job] += 1;
                finish[job] = tick as u32 + 1;
            }
            executed.push(after);
        }
        let ran = &trace.ran;
        Replay {
            plan,
            ran,
            executed,
            finish,
            jobs,
        }
    }

    fn cost(&self, job: usize) -> u32 {
        self.plan.table.jobs[3 * job + 1]
    }

    fn release(&self, job: usize) -> u32 {
        self.plan.times[2 * job]
    }

    /// Tells whether one job comes after the other in the order.
    fn later(&self, one: usize, other: usize) -> bool {
        let key = |job: usize| (self.plan.times[2 * job + 1], self.release(job), job);
        key(one) > key(other)
    }

    fn ends_as(&self, end: &State) -> bool {
        let costs: Vec<u32> = (0..self.jobs).map(|job| self.cost(job)).collect();
        let last = &self.executed[self.ran.len()];
        end.tick as usize == self.ran.len()
            && end.executed == *last
            && end.executed == costs
            && end.finish == self.finish
    }

    fn ancestors_first(&self) -> bool {
        let mut ticks = self.ran.iter().enumerate();
        ticks.all(|(tick, ran)| match *ran {
            None => true,
            Some(job) => {
                let before = ancestors(&self.plan.table, job);
                (0..self.jobs).all(|a| !before[a] || self.executed[tick][a] == self.cost(a))
            }
        })
    }

    /// Gives the resources that a job is inside at a tick.
    fn inside(&self, job: usize, tick: usize) -> u32 {
        let executed = self.executed[tick][job];
        let mut resources = 0;
        for section in self.plan.table.sections.chunks(4) {
            let (from, to) = (section[2], section[3]);
            let holds = from < executed && executed < to;
            let covered = self.ran[tick] == Some(job) && from <= executed && executed < to;
            if section[0] as usize == job && (holds || covered) {
                resources |= 1 << section[1];
            }
        }
        resources
    }

    fn one_inside(&self) -> bool {
        (0..self.ran.len()).all(|tick| {
            let mut taken = 0;
            (0..self.jobs).all(|job| {
                let inside = self.inside(job, tick);
                let free = taken & inside == 0;
                taken |= inside;
                free
            })
        })
    }

    fn marks_right(&self, reports: &[bool], end: &State) -> bool {
        let silent = |job: usize| {
            let last = self.finish[job] as usize - 1;
            reports.get(last).copied().unwrap_or(false)
        };
        (0..self.jobs).all(|job| {
            let before = ancestors(&self.plan.table, job);
            let stale = (0..self.jobs).any(|a| (a == job || before[a]) && silent(a));
            end.marks[job] == if stale { 2 } else { 1 }
        })
    }

    fn waits_bounded(&self) -> bool {
        (0..self.jobs).all(|job| {
            let window = self.release(job) as usize..self.finish[job] as usize;
            let ran = self.ran[window].iter().flatten();
            let given: Vec<usize> = ran.copied().filter(|&ran| self.later(ran, job)).collect();
            let sections = self.plan.table.sections.chunks(4);
            let later = sections.filter(|section| self.later(section[0] as usize, job));
            let longest = later.map(|section| section[3] - section[2]).max();
            let bound = longest.map_or(0, |ticks| ticks - 1);
            given.len() as u32 <= bound && given.iter().all(|&ran| ran == given[0])
        })
    }

    fn never_idle(&self) -> bool {
        let mut ticks = self.ran.iter().enumerate();
        ticks.all(|(tick, ran)| {
            let waits = |job: usize| {
                self.release(job) as usize <= tick && self.executed[tick][job] < self.cost(job)
            };
            ran.is_some() || !(0..self.jobs).any(waits)
        })
    }

    fn ends_in_time(&self) -> bool {
        let release = (0..self.jobs).map(|job| self.release(job)).max();
        let costs: u32 = (0..self.jobs).map(|job| self.cost(job)).sum();
        let latest = release.unwrap_or(0) + costs;
        self.ran.len() as u32 <= latest && self.finish.iter().all(|&finish| finish <= latest)
    }
}
