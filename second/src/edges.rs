//! Texts at the bounds, on both sides of them.

use crate::random::Random;
use crate::rows::{full, sized, Rows};
use crate::table::{LARGEST_COST, LARGEST_INSTANT, MOST_ARCS, MOST_JOBS, MOST_SECTIONS, RESOURCES};
use crate::writer::written;

/// Tables of one job that run longest: the largest cost, the latest release, and both.
const LONGEST_RUNS: [[u32; 3]; 3] = [
    [0, LARGEST_COST, LARGEST_COST],
    [LARGEST_INSTANT - 1, 1, LARGEST_INSTANT],
    [
        LARGEST_INSTANT - LARGEST_COST,
        LARGEST_COST,
        LARGEST_INSTANT,
    ],
];

/// Jobs at the bounds of their values, accepted or refused by a single tick.
const SINGLE_JOBS: [[u32; 3]; 12] = [
    [0, 1, 1],
    [0, 1, 0],
    [0, 1, LARGEST_INSTANT],
    [0, 0, LARGEST_INSTANT],
    [0, 5, 5],
    [0, 5, 4],
    [0, LARGEST_COST, LARGEST_COST - 1],
    [0, LARGEST_COST + 1, LARGEST_INSTANT],
    [LARGEST_INSTANT, 1, LARGEST_INSTANT],
    [LARGEST_INSTANT - 1, 2, LARGEST_INSTANT],
    [LARGEST_INSTANT + 1, 1, LARGEST_INSTANT],
    [0, 1, LARGEST_INSTANT + 1],
];

/// Gives a text at some bound; the turn goes through the bounds, and each of the longest runs has
/// one turn only.
pub fn text(random: &mut Random, turn: u32) -> Vec<u8> {
    if let Some(&job) = LONGEST_RUNS.get(turn as usize) {
        return written(&one_job(job, &[[0, 15, 0, job[1]]]).table());
    }
    let single = SINGLE_JOBS[(turn / 8) as usize % SINGLE_JOBS.len()];
    let rows = match turn % 8 {
        0 => counts_at_bounds(random, turn / 8),
        1 => many_costs(random, turn / 8),
        2 => one_job(single, &[]),
        3 => long_chain(random, turn / 8),
        4 => deep_sections(random, turn / 8),
        5 => section_at_bounds(random),
        6 => return longest_text(turn / 8),
        _ => repeated_arcs(random),
    };
    written(&rows.table())
}

/// Makes a table of one job with these sections.
fn one_job(job: [u32; 3], sections: &[[u32; 4]]) -> Rows {
    Rows {
        jobs: vec![job],
        sections: sections.to_vec(),
        ..Rows::default()
    }
}

/// Makes a table with the most jobs, arcs and sections, by turns with one more of them.
fn counts_at_bounds(random: &mut Random, turn: u32) -> Rows {
    let mut rows = full(random);
    match turn % 4 {
        1 => rows.jobs.push([0, 1, 9]),
        2 => rows.arcs.push(rows.arcs[0]),
        3 => rows.sections.push([0, 15, 0, 1]),
        _ => (),
    }
    rows
}

/// Makes a table of up to the most jobs, at every fourth turn of the most, all with the largest
/// cost: up to 6,400,000 ticks.
fn many_costs(random: &mut Random, turn: u32) -> Rows {
    let count = match turn % 4 {
        0 => MOST_JOBS as u32,
        _ => 2 + random.below(MOST_JOBS as u32 - 1),
    };
    let cost = LARGEST_COST;
    let mut rows = Rows::default();
    for job in 0..count {
        let due = LARGEST_INSTANT - random.below(3);
        rows.jobs.push([random.below(cost), cost, due]);
        let (from, bus) = (random.below(cost), random.below(RESOURCES as u32));
        rows.sections.push([job, bus, from, cost]);
    }
    rows
}

/// Makes a chain of the most jobs, from the first to the last or back; by turns the last one has
/// just enough time, one tick too little, or none and the costs are the largest.
fn long_chain(random: &mut Random, turn: u32) -> Rows {
    let mut order: Vec<u32> = (0..MOST_JOBS as u32).collect();
    match turn % 3 {
        0 => order.reverse(),
        1 => random.shuffle(&mut order),
        _ => (),
    }
    let cost = if turn % 4 == 3 { LARGEST_COST } else { 2 };
    let mut rows = Rows {
        jobs: vec![[0, cost, LARGEST_INSTANT]; MOST_JOBS],
        arcs: order.windows(2).map(|pair| [pair[0], pair[1]]).collect(),
        ..Rows::default()
    };
    let last = order[MOST_JOBS - 1] as usize;
    let enough = 2 * MOST_JOBS as u32;
    rows.jobs[last][2] = [enough, enough - 1, enough, 0][turn as usize % 4];
    rows
}

/// Makes two jobs: one within every resource at once, or with the most sections side by side.
fn deep_sections(random: &mut Random, turn: u32) -> Rows {
    let cost = MOST_SECTIONS as u32 + 2;
    let mut rows = Rows {
        jobs: vec![[0, cost, 400], [1 + random.below(cost), 1, 300]],
        ..Rows::default()
    };
    let sections: Vec<[u32; 4]> = match turn % 3 {
        0 => (0..16).map(|bus| [0, bus, 1, cost]).collect(),
        1 => (0..16).map(|bus| [0, bus, bus, cost - bus]).collect(),
        _ => (0..127).map(|tick| [0, 15, tick, tick + 1]).collect(),
    };
    rows.sections = sections;
    random.shuffle(&mut rows.sections);
    rows.sections.push([1, random.below(16), 0, 1]);
    rows
}

/// Makes a small table with a section at the bounds of its job, resource or range, or just over.
fn section_at_bounds(random: &mut Random) -> Rows {
    let jobs = vec![[0, 5, 40], [2, 3, 20], [1, 1, 9]];
    let cost = jobs[random.place(3)][1];
    let from = random.one_of(&[0, 2, 4, 5]);
    let (job, resource) = (random.below(4), random.one_of(&[0, 14, 15, 16]));
    Rows {
        jobs,
        arcs: vec![],
        sections: vec![[0, 15, 1, 4], [job, resource, from, cost + random.below(2)]],
    }
}

/// Gives the longest text that the reader takes, by turns as it is, with one byte more or less,
/// or with hardly one left.
fn longest_text(turn: u32) -> Vec<u8> {
    let rows = Rows {
        jobs: vec![[u32::MAX; 3]; MOST_JOBS],
        arcs: vec![[u32::MAX; 2]; MOST_ARCS],
        sections: vec![[u32::MAX; 4]; MOST_SECTIONS],
    };
    let mut text = written(&rows.table());
    match turn % 6 {
        1 => text.push(b'\n'),
        2 => text.insert(0, b'\n'),
        3 => drop(text.pop()),
        4 => text.clear(),
        5 => text = b"\n".to_vec(),
        _ => (),
    }
    text
}

/// Makes a table whose arcs are one arc many times, or that and its return.
fn repeated_arcs(random: &mut Random) -> Rows {
    let count = 3 + random.below(9);
    let mut rows = sized(random, count);
    rows.arcs = vec![[2, 1]; 2 + random.place(MOST_ARCS - 2)];
    rows.set_deadlines(random, &[2, 1, 0], 9, 4);
    if random.percent(30) {
        rows.arcs.push([1, 2]);
    }
    rows
}
