//! The table of ratios: the library against the same work written by hand.

use crate::desk::{Asked, Desk};
use crate::inputs::{for_density, full, layered, plan_of, state_at, times, with_cost, Turn};
use crate::plain::{Plain, BY_EVENTS, BY_TICKS};
use crate::timing::{both, BATCHES};
use fuzz::abi::{Entries, Library, Numbers};
use second::random::Random;
use second::rows::Rows;
use second::{check, edges, read, write, Plan, Table};

/// The table of the first example.
pub const P1: &[u8] = include_bytes!("../../tables/p1.table");
/// The table of a shelf of four probes.
pub const COLD_STORE: &[u8] = include_bytes!("../../tables/cold-store.table");

/// The turn at which [`edges::text`] gives the longest text.
const LONGEST: u32 = 6;

/// A line of the table.
struct Line {
    name: &'static str,
    desk: Desk,
    asked: Asked,
    plain: Plain,
    /// What a call does so many times.
    parts: u32,
}

/// Makes a line in which each call counts as one.
fn line(name: &'static str, desk: Desk, asked: Asked) -> Line {
    Line {
        name,
        desk,
        asked,
        plain: BY_TICKS,
        parts: 1,
    }
}

/// Makes a line whose plain side goes the library's own ways.
fn line_by_events(name: &'static str, desk: Desk, asked: Asked) -> Line {
    Line {
        plain: BY_EVENTS,
        ..line(name, desk, asked)
    }
}

/// Makes a line of single steps, the mean of those of a whole run with its refused last one.
fn walk(name: &'static str, plan: &Plan) -> Line {
    let end = second::run(plan).expect("the plan is within its bounds");
    Line {
        parts: end.tick + 1,
        ..line(name, Desk::of_plan(plan), Asked::Walk)
    }
}

/// Gives the plan of a text that is accepted.
pub fn plan_of_text(text: &[u8]) -> Plan {
    let table = read(text).expect("the text is right");
    check(&table).expect("the table is accepted")
}

/// Gives the text of a table.
fn text_of(rows: &Rows) -> Vec<u8> {
    write(&rows.table()).expect("the counts are right")
}

/// Gives the lines of reading, writing and answering texts.
fn text_lines() -> Vec<Line> {
    let longest = edges::text(&mut Random(1), LONGEST);
    assert_eq!(longest.len(), 20_830);
    let table: Table = read(&longest).expect("the text is right");
    let unplanned = Plan {
        table,
        times: vec![],
    };
    let (text, accepted) = (Desk::of_text(&longest), text_of(&at_bounds()));
    vec![
        line(
            "read the longest text, 20,830 bytes",
            text.clone(),
            Asked::Read,
        ),
        line_by_events("  plain in two passes", text.clone(), Asked::Read),
        line("write it", Desk::of_plan(&unplanned), Asked::Write),
        line(
            "answer it (5: its values are too large)",
            text,
            Asked::Answer,
        ),
        line(
            "answer an accepted text, all at bounds",
            Desk::of_text(&accepted),
            Asked::Answer,
        ),
    ]
}

/// Makes the table of the most jobs, arcs and sections with the largest cost.
pub fn at_bounds() -> Rows {
    times(with_cost(full(), 100), 1_000)
}

/// Gives the lines of planning, of single steps and of the density test.
fn plan_lines() -> Vec<Line> {
    let plan = plan_of(&full());
    let short = plan_of(&with_cost(full(), 4));
    let dense = Desk::of_plan(&plan_of(&for_density()));
    let step = |name, turn| {
        let desk = Desk::of_state(&plan, &state_at(&plan, turn));
        line(name, desk, Asked::Step)
    };
    vec![
        line(
            "plan 64 jobs, 256 arcs, 128 sections",
            Desk::of_plan(&plan),
            Asked::Plan,
        ),
        walk("step, 4 jobs, mean of a run", &plan_of(&layered(4, 3, 2))),
        walk("step, 64 / 256 / 128, mean of a run", &short),
        step("  the first pending job runs on", Turn::RunsOn),
        step("  it starts", Turn::Starts),
        step("  it is held back", Turn::HeldBack),
        step("  a job ends", Turn::Ends),
        line("density test, 64 / 256 / 128", dense, Asked::Density),
    ]
}

/// Gives the lines of whole runs.
fn run_lines() -> Vec<Line> {
    let [p1, cold] = [P1, COLD_STORE].map(|text| Desk::of_plan(&plan_of_text(text)));
    let long = with_cost(full(), 100);
    let [long, longest] = [times(long, 10), at_bounds()].map(|rows| Desk::of_plan(&plan_of(&rows)));
    vec![
        line("run P1, 7 ticks", p1.clone(), Asked::Run),
        line_by_events("  plain by events", p1, Asked::Run),
        line("run the cold store, 44 ticks", cold.clone(), Asked::Run),
        line_by_events("  plain by events", cold, Asked::Run),
        line("run 64 / 256 / 128, costs 1,000", long.clone(), Asked::Run),
        line_by_events("  plain by events", long, Asked::Run),
        line_by_events(
            "run it, costs 100,000, plain by events",
            longest,
            Asked::Run,
        ),
    ]
}

/// Gives what an entry answers, and the desk as it leaves it.
fn outcome(line: &Line, entries: &impl Entries) -> (Numbers, Desk) {
    let mut desk = line.desk.clone();
    let numbers = match line.asked {
        Asked::Step => desk.step(entries).into(),
        asked => desk.ask(entries, asked),
    };
    (numbers, desk)
}

/// Sees that both sides answer alike and leave their lists alike, or ends the program.
fn compare(line: &Line) {
    let alike = outcome(line, &Library) == outcome(line, &line.plain);
    assert!(alike, "{}: the two sides differ", line.name);
}

/// Times both sides of a line and prints it.
fn print_line(line: &Line) {
    let [mut library, mut plain] = [line.desk.clone(), line.desk.clone()];
    let times = both(
        || library.ask(&Library, line.asked),
        || plain.ask(&line.plain, line.asked),
    );
    let [one, other] = times.medians().map(|time| time / f64::from(line.parts));
    let [low, ratio, high] = times.ratios();
    println!(
        "{:<42}{one:>11.1}{other:>13.1}{ratio:>9.2}{low:>9.2}{high:>7.2}",
        line.name
    );
}

/// Compares both sides of every line, then times and prints them.
pub fn print() {
    let lines = [text_lines(), plan_lines(), run_lines()];
    let lines: Vec<Line> = lines.into_iter().flatten().collect();
    lines.iter().for_each(compare);
    println!("Both sides answer alike on all {} lines.\n", lines.len());
    println!("ns for each call and ratio are medians of {BATCHES} batches; spread is from the");
    println!("tenth to the ninetieth percentile of the ratio.\n");
    println!(
        "{:<42}{:>11}{:>13}{:>9}{:>16}",
        "", "library", "plain", "ratio", "spread"
    );
    lines.iter().for_each(print_line);
}
