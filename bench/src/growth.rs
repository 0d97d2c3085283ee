//! How the cost of a step and of a plan grows with jobs, arcs and sections.

use crate::desk::{Asked, Desk};
use crate::inputs::{layered, plan_of};
use crate::plain::BY_TICKS;
use crate::timing::undisturbed;
use fuzz::abi::{Library, Numbers};
use second::Plan;

/// Jobs, arcs and sections of a table.
type Size = [u32; 3];

/// A way to ask an entry about a plan.
type Way = Box<dyn FnMut() -> Numbers>;

/// Gives the four ways that are timed of a plan: a walk and planning, library and plain each.
fn ways(plan: &Plan) -> [Way; 4] {
    let [mut a, mut b, mut c, mut d] = [(); 4].map(|()| Desk::of_plan(plan));
    [
        Box::new(move || a.ask(&Library, Asked::Walk)),
        Box::new(move || b.ask(&BY_TICKS, Asked::Walk)),
        Box::new(move || c.ask(&Library, Asked::Plan)),
        Box::new(move || d.ask(&BY_TICKS, Asked::Plan)),
    ]
}

/// Prints a line for each of these sizes; a step is the mean of a run's.
fn print_sizes(name: &str, sizes: &[Size]) {
    let tables = sizes
        .iter()
        .map(|&[jobs, arcs, sections]| layered(jobs, arcs, sections));
    let plans: Vec<Plan> = tables.map(|rows| plan_of(&rows)).collect();
    let mut all: Vec<Way> = plans.iter().flat_map(ways).collect();
    let times = undisturbed(&mut all);
    println!("\n{name}\n");
    println!(
        "{:>5}{:>6}{:>10}{:>15}{:>13}{:>15}{:>13}",
        "jobs", "arcs", "sections", "step, library", "plain", "plan, library", "plain"
    );
    for ((&[jobs, arcs, sections], plan), times) in sizes.iter().zip(&plans).zip(times.chunks(4)) {
        let ticks = second::run(plan).expect("it is within bounds").tick;
        let steps = f64::from(ticks + 1);
        println!(
            "{jobs:>5}{arcs:>6}{sections:>10}{:>15.0}{:>13.0}{:>15.0}{:>13.0}",
            times[0] / steps,
            times[1] / steps,
            times[2],
            times[3]
        );
    }
}

/// Prints how the cost grows with each of the three, and with all of them.
pub fn print() {
    println!("\nHow the cost grows, in ns");
    let jobs = [8, 16, 32, 64];
    let part = [0, 1, 2, 3, 4];
    print_sizes("Jobs alone", &jobs.map(|jobs| [jobs, 0, 0]));
    print_sizes("Arcs", &part.map(|part| [64, 64 * part, 0]));
    print_sizes("Sections", &part.map(|part| [64, 0, 32 * part]));
    print_sizes("All", &jobs.map(|jobs| [jobs, 4 * jobs, 2 * jobs]));
}
