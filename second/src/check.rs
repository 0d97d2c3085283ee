//! Checking a table: refusals 2 to 10.

use crate::cycles::lowest_on_cycle;
use crate::refusal::{refuse_first_wrong, refuse_short_room, Refusal};
use crate::slip::Slip;
use crate::table::{Job, Plan, Section, Table};
use crate::table::{LARGEST_COST, LARGEST_INSTANT, RESOURCES};
use crate::table::{MOST_ARCS, MOST_JOBS, MOST_SECTIONS};
use crate::times::{modified_times_with, topological_order};

/// Checks a table and gives its plan, or the first of refusals 2 to 10.
pub fn check(table: &Table) -> Result<Plan, Refusal> {
    check_with(table, Slip::None)
}

/// Checks a table with a lent list of this many numbers for the modified times, two for each job.
pub fn check_into(table: &Table, room: usize) -> Result<Plan, Refusal> {
    let plan = check(table)?;
    refuse_short_room(&[(room, plan.times.len())])?;
    Ok(plan)
}

/// Checks a table with a slip.
pub fn check_with(table: &Table, slip: Slip) -> Result<Plan, Refusal> {
    counts(table)?;
    values(table)?;
    clashes(table, slip)?;
    cycle(table, slip)?;
    let times = modified_times_with(table, slip);
    windows(table, &times)?;
    let flat = times.into_iter().flat_map(|(r, d)| [r as u32, d as u32]);
    Ok(Plan {
        table: table.clone(),
        times: flat.collect(),
    })
}

/// Refuses with 2, 3 or 4 lists of the wrong length, place 0.
pub fn counts(table: &Table) -> Result<(), Refusal> {
    let whole = |list: &[u32], record: usize, most: usize| {
        list.len().is_multiple_of(record) && list.len() <= record * most
    };
    if table.jobs.is_empty() || !whole(&table.jobs, 3, MOST_JOBS) {
        return Err(Refusal::new(2, 0));
    }
    if !whole(&table.arcs, 2, MOST_ARCS) {
        return Err(Refusal::new(3, 0));
    }
    if !whole(&table.sections, 4, MOST_SECTIONS) {
        return Err(Refusal::new(4, 0));
    }
    Ok(())
}

/// Refuses with 5, 6 or 7 jobs, arcs and sections out of bounds.
///
/// The table must pass refusals 2 to 4.
pub fn values(table: &Table) -> Result<(), Refusal> {
    let jobs = table.job_count();
    refuse_first_wrong(5, table.each_job().map(|job| !job_in_bounds(job)))?;
    let arcs = table.each_arc();
    refuse_first_wrong(6, arcs.map(|arc| arc.before.max(arc.after) >= jobs))?;
    let sections = table.each_section();
    refuse_first_wrong(7, sections.map(|section| !in_its_job(table, section)))
}

/// Tells whether release, cost and deadline are in their bounds.
fn job_in_bounds(job: Job) -> bool {
    job.release.max(job.deadline) <= LARGEST_INSTANT && (1..=LARGEST_COST).contains(&job.cost)
}

/// Tells whether a section has a job, a resource and a range within its job's cost.
fn in_its_job(table: &Table, section: Section) -> bool {
    let cost = match table.each_job().nth(section.job) {
        Some(job) => job.cost,
        None => return false,
    };
    section.resource < RESOURCES && section.from < section.to && section.to <= cost
}

/// Refuses with 8 a section that clashes with a lower-numbered one.
fn clashes(table: &Table, slip: Slip) -> Result<(), Refusal> {
    let sections: Vec<Section> = table.each_section().collect();
    let clashes_with_lower = (0..sections.len()).map(|number| {
        let lower = &sections[..number];
        lower.iter().any(|l| clash(l, &sections[number], slip))
    });
    refuse_first_wrong(8, clashes_with_lower)
}

/// Tells whether two sections clash, by the number of ticks that they share.
///
/// One lies within the other exactly when they share all ticks of the shorter one.
fn clash(one: &Section, other: &Section, slip: Slip) -> bool {
    let shared = i64::from(one.to.min(other.to)) - i64::from(one.from.max(other.from));
    let overlap = match slip {
        Slip::AdjacentOverlap => shared >= 0,
        _ => shared > 0,
    };
    let within = shared == i64::from(one.length().min(other.length()));
    one.job == other.job && overlap && (one.resource == other.resource || !within)
}

/// Refuses with 9 the lowest job on any cycle.
fn cycle(table: &Table, slip: Slip) -> Result<(), Refusal> {
    let lowest = match slip {
        Slip::CycleByLeftover => {
            let sorted = topological_order(table);
            (0..table.job_count()).find(|job| !sorted.contains(job))
        }
        _ => lowest_on_cycle(table),
    };
    match lowest {
        Some(job) => Err(Refusal::new(9, job)),
        None => Ok(()),
    }
}

/// Refuses with 10 the lowest job whose modified window is below its cost.
fn windows(table: &Table, times: &[(i64, i64)]) -> Result<(), Refusal> {
    let jobs = table.each_job().zip(times);
    refuse_first_wrong(10, jobs.map(|(job, (r, d))| d - r < i64::from(job.cost)))
}
