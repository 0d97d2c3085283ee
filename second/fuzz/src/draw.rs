//! Draws questions: texts, tables, plans and lent lists of all kinds, right and damaged.

use crate::asked::Asked;
use crate::state_draw::state;
use second::faults::{make_room, put_in_rows};
use second::random::Random;
use second::rows::{accepted, any_accepted};
use second::table::{LARGEST_COST, LARGEST_INSTANT, LARGEST_TICK};
use second::{check, plans, read, texts, write, Plan, Table};

/// Runs of plans with large costs, in a hundred.
pub const LONG_RUNS: u32 = 5;

/// Draws a question of this kind, by its place in [`crate::asked::KINDS`].
pub fn asked(random: &mut Random, kind: usize) -> Asked {
    match kind {
        0 => read_question(random),
        1 => {
            let table = table(random);
            let need = write(&table).map_or(random.place(400), |text| text.len());
            let room = room(random, need);
            Asked::Write { table, room }
        }
        2 => {
            let table = table(random);
            let room = room(random, 2 * table.job_count());
            Asked::Plan { table, room }
        }
        3 => Asked::Density { plan: plan(random) },
        4 => {
            let plan = plan(random);
            let rooms = rooms(random, [plan.table.job_count(); 3]);
            Asked::Start { plan, rooms }
        }
        5 => step_question(random),
        6 => {
            let plan = match random.percent(LONG_RUNS) {
                true => plan(random),
                false => short_plan(random),
            };
            let rooms = rooms(random, [plan.table.job_count(); 3]);
            Asked::Run { plan, rooms }
        }
        7 => lateness_question(random),
        8 => {
            let text = text(random);
            let need = second::answer(&text).len();
            let room = room(random, need);
            Asked::Answer { text, room }
        }
        _ => walk_question(random),
    }
}

/// Draws a text to be read.
fn read_question(random: &mut Random) -> Asked {
    let text = text(random);
    let needs = match read(&text) {
        Ok(table) => [table.jobs.len(), table.arcs.len(), table.sections.len()],
        Err(_) => [random.place(193), random.place(513), random.place(513)],
    };
    let rooms = rooms(random, needs);
    Asked::Read { text, rooms }
}

/// Draws a plan, a state and a report.
fn step_question(random: &mut Random) -> Asked {
    let plan = plan(random);
    let state = state(random, &plan);
    let silent = random.percent(50);
    Asked::Step {
        plan,
        state,
        silent,
    }
}

/// Draws a plan, a state and a job, seldom one that isn't in the table.
fn lateness_question(random: &mut Random) -> Asked {
    let plan = plan(random);
    let state = state(random, &plan);
    let jobs = plan.table.job_count() as u32;
    let job = match random.below(20) {
        0 => jobs,
        1 => random.one_of(&[jobs + 1, 64, u32::MAX]),
        _ => random.below(jobs),
    };
    Asked::Lateness { plan, state, job }
}

/// Draws a small accepted plan with more reports than its run has ticks.
fn walk_question(random: &mut Random) -> Asked {
    let kind = random.below(5);
    let table = accepted(random, kind, 0).table();
    let plan = check(&table).unwrap_or_default();
    let ticks = second::dispatch::latest_end(&plan) + 1;
    let silent = random.one_of(&[0, 10, 50, 100]);
    let reports = (0..ticks).map(|_| random.percent(silent)).collect();
    Asked::Walk { plan, reports }
}

/// Draws the length of a lent list for this need: mostly just enough, or one less, or more.
fn room(random: &mut Random, need: usize) -> usize {
    match random.below(16) {
        0..=6 => need,
        7..=9 => need.saturating_sub(1),
        10 => need.saturating_sub(1 + random.place(need)),
        11..=13 => need + 1 + random.place(4),
        14 => need + random.place(300),
        _ => random.place(need + 2),
    }
}

/// Draws the lengths of three lent lists, in half of the cases enough for all.
fn rooms(random: &mut Random, needs: [usize; 3]) -> [usize; 3] {
    let enough = random.percent(50);
    needs.map(|need| match enough {
        true => need + random.place(4) * random.place(2),
        false => room(random, need),
    })
}

/// Draws a text: one of [`texts`], seldom bytes or lines that are hardly one.
pub fn text(random: &mut Random) -> Vec<u8> {
    match random.below(16) {
        0 => (0..random.below(60)).map(|_| random.word() as u8).collect(),
        1 => {
            let keys = [
                "jobs", "release", "cost", "deadline", "arcs", "sections", "to",
            ];
            let lines = 0..1 + random.below(9);
            let line = |_| format!("{}={}\n", random.one_of(&keys), random.below(3));
            lines.map(line).collect::<String>().into_bytes()
        }
        _ => texts::text(random.word() >> 3),
    }
}

/// Draws a table: an accepted one, one with one or two faults from 5 to 10, one with lists of any
/// length and content, or one that is damaged in some other way.
pub fn table(random: &mut Random) -> Table {
    let mut rows = any_accepted(random);
    match random.below(10) {
        0..=3 => rows.table(),
        4..=6 => {
            make_room(&mut rows);
            let mut faults = [0; 2].map(|_| 5 + random.below(6));
            faults.sort_unstable();
            put_in_rows(random, &mut rows, faults[1]);
            if random.percent(50) {
                put_in_rows(random, &mut rows, faults[0]);
            }
            rows.table()
        }
        7 => Table {
            jobs: any_list(random, 3 * 66),
            arcs: any_list(random, 2 * 258),
            sections: any_list(random, 4 * 130),
        },
        _ => {
            let mut table = rows.table();
            for _ in 0..1 + random.below(3) {
                damage_table(random, &mut table);
            }
            table
        }
    }
}

/// Draws a list of at most this length, seldom a much longer one, of small numbers or any.
fn any_list(random: &mut Random, most: usize) -> Vec<u32> {
    let most = if random.percent(3) { 50 * most } else { most };
    let length = random.place(most + 1);
    let small = random.percent(50);
    let cell = |_| match small {
        true => random.below(5),
        false => random.word() as u32 >> random.below(32),
    };
    (0..length).map(cell).collect()
}

/// Damages one of three lists.
fn damage_table(random: &mut Random, table: &mut Table) {
    match random.below(3) {
        0 => damage(random, &mut table.jobs, 3 * 65),
        1 => damage(random, &mut table.arcs, 2 * 257),
        _ => damage(random, &mut table.sections, 4 * 129),
    }
}

/// Changes the length of a list, up to one that is too long, or one of its numbers.
pub fn damage(random: &mut Random, list: &mut Vec<u32>, too_long: usize) {
    let place = random.place(list.len());
    let last = list.last().copied().unwrap_or(0);
    match random.below(12) {
        0 => list.push(last),
        1 => drop(list.pop()),
        2 => list.truncate(place),
        3 => list.resize(too_long, last),
        _ if list.is_empty() => (),
        4..=5 => list[place] = list[place].wrapping_add(1),
        6..=7 => list[place] = list[place].wrapping_sub(1),
        8 => list[place] = random.below(66),
        9 => list[place] = random.word() as u32,
        _ => list[place] = random.one_of(&[0, 1, 2, 3, 15, 16]) + random.one_of(&BOUNDS),
    }
}

/// Bounds that values are put at, or a little over.
const BOUNDS: [u32; 6] = [0, 1, 63, LARGEST_COST, LARGEST_INSTANT, LARGEST_TICK];

/// Draws a plan of any kind; its costs may be large.
pub fn plan(random: &mut Random) -> Plan {
    match random.below(4) {
        0 => plans::plan(random.word()),
        _ => short_plan(random),
    }
}

/// Draws a plan with small costs: of an accepted table, or unlike any table, every third damaged.
pub fn short_plan(random: &mut Random) -> Plan {
    let table = any_accepted(random).table();
    let mut plan = match random.percent(50) {
        true => check(&table).unwrap_or_default(),
        false => odd_plan(random, table),
    };
    if random.percent(33) {
        for _ in 0..1 + random.below(2) {
            match random.below(4) {
                0 => damage(random, &mut plan.times, 2 * 65),
                _ => damage_table(random, &mut plan.table),
            }
        }
    }
    plan
}

/// Draws a plan within its bounds whose arcs, sections and times no check would give: cycles,
/// clashes, and windows that have nothing to do with the table.
fn odd_plan(random: &mut Random, mut table: Table) -> Plan {
    let jobs = table.job_count() as u32;
    let arcs = 0..random.below(2 * jobs);
    let arc = |_| [random.below(jobs), random.below(jobs)];
    table.arcs = arcs.flat_map(arc).collect();
    table.sections.clear();
    for _ in 0..random.below(2 * jobs) {
        let job = random.below(jobs);
        let cost = table.cost(job as usize);
        let from = random.below(cost);
        let to = from + 1 + random.below(cost - from);
        let resource = random.below(1 + jobs.min(15));
        table.sections.extend([job, resource, from, to]);
    }
    let mut times = Vec::new();
    for job in table.jobs.chunks_exact_mut(3) {
        let release = random.below(12);
        times.extend([release, release + job[1] + random.below(20)]);
        if random.percent(50) {
            job[0] = random.below(LARGEST_INSTANT + 1);
            job[2] = random.below(LARGEST_INSTANT + 1);
        }
    }
    Plan { table, times }
}
