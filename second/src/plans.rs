//! Plans made from a number, for the proved programs to be compared on.
//!
//! The same number always makes the same plan. Eight kinds take turns, and within a kind the
//! turns go through its sizes, places and damages, so that some thousand numbers in a row meet
//! all of them.

use crate::density::density;
use crate::random::Random;
use crate::table::{Plan, Table, LARGEST_INSTANT};

/// The kinds of plans that take turns.
pub const KINDS: u64 = 8;

/// A number below the largest common multiple, with many divisors.
const RICH: u32 = 735_134_400;

/// Relative deadlines whose common multiple is just below or just above the largest one: one
/// less, one more, more by a little, much more, less by a little.
pub(crate) const NEAR_THE_LIMIT: [&[u32]; 5] = [
    &[333_667, 2_997, 999, 111, 81, 37, 27, 9, 3],
    &[52_579, 19_019, 368_053, 2_717, 1_001, 143, 77, 19, 7],
    &[31_627, 31_643],
    &[999_983, 1_009],
    &[31_607, 31_627],
];

/// A plan in the making: its jobs are release, cost and relative deadline.
#[derive(Default)]
struct Draft {
    jobs: Vec<[u32; 3]>,
    arcs: Vec<[u32; 2]>,
    sections: Vec<[u32; 4]>,
}

impl Draft {
    /// Adds a job; its release leaves room for the relative deadline.
    fn job(&mut self, random: &mut Random, cost: u32, relative: u32) {
        let room = (LARGEST_INSTANT + 1 - relative).min(50);
        let release = random.below(room) * random.below(2);
        self.jobs.push([release, cost, relative]);
    }

    /// Adds sections within their jobs, every other one a single tick.
    fn sections(&mut self, random: &mut Random, count: u32, resources: u32) {
        for number in 0..count {
            let job = random.below(self.jobs.len() as u32);
            let cost = self.jobs[job as usize][1];
            let from = random.below(cost);
            let rest = if number % 2 == 0 { 0 } else { cost - from };
            let to = from + 1 + random.below(rest);
            self.sections.push([job, random.below(resources), from, to]);
        }
    }

    /// Adds arcs between any two jobs, cycles too.
    fn arcs(&mut self, random: &mut Random, count: u32) {
        let jobs = self.jobs.len() as u32;
        for _ in 0..count {
            self.arcs.push([random.below(jobs), random.below(jobs)]);
        }
    }

    /// Gives the plan whose given times are the modified ones.
    fn plan(self) -> Plan {
        let due = |job: &[u32; 3]| job[0] + job[2];
        let jobs = self.jobs.iter().flat_map(|j| [j[0], j[1], due(j)]);
        Plan {
            table: Table {
                jobs: jobs.collect(),
                arcs: self.arcs.concat(),
                sections: self.sections.concat(),
            },
            times: self.jobs.iter().flat_map(|j| [j[0], due(j)]).collect(),
        }
    }
}

/// Gives the divisors of [`RICH`] from 64 on, up to the largest that a cost can fill.
fn divisors() -> Vec<u32> {
    (64..=50_000).filter(|d| RICH.is_multiple_of(*d)).collect()
}

/// Makes the plan of this number.
pub fn plan(number: u64) -> Plan {
    let mut random = Random(number);
    let (kind, turn) = (number % KINDS, (number / KINDS) as u32);
    match kind {
        0 => light(&mut random, 1 + turn % 64),
        1 => failing_at(&mut random, 1 + turn % 64),
        2 => crowded(&mut random),
        3 => near_the_limit(&mut random, turn),
        4 => damaged(&mut random, turn),
        5 => unlike_a_table(&mut random, 1 + turn % 64),
        6 => sized(&mut random, turn % 65),
        _ => equal(&mut random, 2 + turn % 63),
    }
}

/// Makes a plan of so many jobs that take about half of the time together.
fn light(random: &mut Random, jobs: u32) -> Plan {
    let relatives = divisors();
    let mut draft = Draft::default();
    for _ in 0..jobs {
        let relative = random.one_of(&relatives);
        let cost = 1 + random.below(relative / (2 * jobs));
        draft.job(random, cost, relative);
    }
    let count = random.below(5);
    draft.sections(random, count, 4);
    draft.plan()
}

/// Makes a plan that fails at this place: the job there fills its relative deadline alone, and
/// the jobs before it have cost 1. At the first place a section of a single tick is the rest.
fn failing_at(random: &mut Random, place: u32) -> Plan {
    let relatives = divisors();
    let jobs = (place + random.below(65 - place)).max(2);
    let mut sorted = random.order(relatives.len() as u32);
    sorted.truncate(jobs as usize);
    sorted.sort_unstable();
    let order = random.order(jobs);
    let mut draft = Draft::default();
    for &rank in &order {
        let relative = relatives[sorted[rank as usize] as usize];
        let cost = if rank + 1 == place { relative } else { 1 };
        draft.job(random, cost, relative);
    }
    if place == 1 {
        let job_at = |rank: u32| order.iter().position(|&r| r == rank).unwrap_or(0) as u32;
        draft.sections = vec![[job_at(0), 0, 0, 1], [job_at(1), 0, 0, 1]];
    }
    draft.plan()
}

/// Makes a plan of few jobs with small relative deadlines, many of them equal, and sections.
fn crowded(random: &mut Random) -> Plan {
    let mut draft = Draft::default();
    for _ in 0..1 + random.below(7) {
        let relative = 1 + random.below(16);
        let cost = 1 + random.below(relative) / (1 + random.below(4));
        draft.job(random, cost, relative);
    }
    let count = random.below(9);
    draft.sections(random, count, 3);
    draft.plan()
}

/// Makes a plan whose common multiple is near the largest one.
fn near_the_limit(random: &mut Random, turn: u32) -> Plan {
    let relatives = NEAR_THE_LIMIT[turn as usize % NEAR_THE_LIMIT.len()];
    let mut draft = Draft::default();
    for place in 0..2 + random.below(6) as usize {
        let relative = match place {
            0 | 1 => relatives[place],
            _ => random.one_of(relatives),
        };
        let share = 1 + random.below(12);
        let cost = 1 + random.below((relative / share).min(99_999));
        draft.job(random, cost.min(relative), relative);
    }
    let count = random.below(5);
    draft.sections(random, count, 2);
    draft.plan()
}

/// Makes a plan and takes it out of its bounds, in one of many ways by turns.
fn damaged(random: &mut Random, turn: u32) -> Plan {
    let mut plan = crowded(random);
    let jobs = plan.table.job_count() as u32;
    let job = random.below(jobs) as usize;
    let cost = plan.table.cost(job);
    let table = &mut plan.table;
    match turn % 20 {
        0 => plan.times[2 * job + 1] = plan.times[2 * job] + cost - 1,
        1 => plan.times[2 * job + 1] = LARGEST_INSTANT + 1,
        2 => plan.times[2 * job] = plan.times[2 * job + 1] + 1,
        3 => plan.times.truncate(2 * jobs as usize - 1),
        4 => plan.times.extend([0, 100]),
        5 => table.jobs[3 * job + 1] = 0,
        6 => table.jobs[3 * job + 1] = 100_001,
        7 => table.arcs.extend([0, jobs]),
        8 => table.arcs.extend([jobs, 0]),
        9 => table.arcs.push(0),
        10 => table.arcs = vec![0; 514],
        11 => table.sections.extend([0, 16, 0, 1]),
        12 => table.sections.extend([job as u32, 0, cost - 1, cost + 1]),
        13 => table.sections.extend([job as u32, 0, 0, 0]),
        14 => table.sections.extend([jobs, 0, 0, 1]),
        15 => table.sections.extend([0, 0]),
        16 => table.sections = [0, 0, 0, 1].repeat(129),
        17 => plan = sixty_five_jobs(),
        18 => table.jobs.push(1),
        _ => table.jobs[3 * job] = LARGEST_INSTANT + 1,
    }
    plan
}

/// Makes a plan of one job too many.
fn sixty_five_jobs() -> Plan {
    let jobs = vec![[0, 1, 100]; 65];
    let draft = Draft {
        jobs,
        ..Draft::default()
    };
    draft.plan()
}

/// Makes a plan with cyclic arcs and times that its table does not give.
fn unlike_a_table(random: &mut Random, jobs: u32) -> Plan {
    let relatives = divisors();
    let mut draft = Draft::default();
    for _ in 0..jobs {
        let relative = random.one_of(&relatives);
        let cost = 1 + random.below(2 * relative / jobs).min(relative - 1);
        draft.job(random, cost, relative);
    }
    let count = 1 + random.below(2 * jobs);
    draft.arcs(random, count);
    draft.sections(random, jobs / 2, 16);
    let mut plan = draft.plan();
    for place in 0..jobs as usize {
        plan.table.jobs[3 * place] = random.below(LARGEST_INSTANT + 1);
        plan.table.jobs[3 * place + 2] = random.below(LARGEST_INSTANT + 1);
    }
    plan
}

/// Makes a plan of so many jobs, none included, whose costs come near the whole time.
fn sized(random: &mut Random, jobs: u32) -> Plan {
    let relatives = divisors();
    let mut draft = Draft::default();
    for _ in 0..jobs {
        let relative = random.one_of(&relatives);
        let share = relative / jobs;
        let cost = 1 + share / 2 + random.below(share);
        draft.job(random, cost.min(relative), relative);
    }
    if jobs > 0 {
        let count = random.below(jobs);
        draft.sections(random, count, 16);
    }
    draft.plan()
}

/// Makes a plan of so many jobs with one relative deadline, which the costs fill exactly or pass
/// by one tick; the last job may have a larger one.
fn equal(random: &mut Random, jobs: u32) -> Plan {
    let each = 1 + random.below(9);
    let relative = jobs * each;
    let mut draft = Draft::default();
    for place in 0..jobs {
        let last = u32::from(place + 1 == jobs);
        let times = 1 + last * random.below(2);
        draft.job(random, each, relative * times);
    }
    let over = random.below(jobs) as usize;
    draft.jobs[over][1] += random.below(2);
    let count = random.below(4);
    draft.sections(random, count, 2);
    draft.plan()
}

/// Gives a list as how many numbers it has, and these.
fn listed(list: &[u32]) -> String {
    let numbers = list.iter().map(|number| format!(" {number}"));
    format!("{}{}\n", list.len(), numbers.collect::<String>())
}

/// Gives the plans of so many numbers from the first on, for a program that reads cases: none
/// for the first two entries that it asks, then how many there are for the density test, and
/// each one's number and its four lists.
pub fn plan_lines(first: u64, count: u64) -> String {
    let mut lines = format!("0\n0\n{count}\n");
    for number in first..first + count {
        let plan = plan(number);
        let table = &plan.table;
        lines += &format!("{number}\n");
        for list in [&table.jobs, &table.arcs, &table.sections, &plan.times] {
            lines += &listed(list);
        }
    }
    lines
}

/// Gives the line that is expected for each of these plans.
pub fn answer_lines(first: u64, count: u64) -> String {
    let line = |number: u64| match density(&plan(number)) {
        Ok(density) if density.yes => format!("{number}: yes\n"),
        Ok(density) => format!("{number}: no, place {}\n", density.place),
        Err(r) => format!("{number}: refusal {} place {}\n", r.number, r.place),
    };
    (first..first + count).map(line).collect()
}
