//! What a run costs: its events, not its ticks.

use crate::desk::{Asked, Desk};
use crate::inputs::{even, full, plan_lists_of, plan_of, times, with_cost};
use crate::plain::run::run_by_events;
use crate::ratios::{at_bounds, plan_of_text, COLD_STORE, P1};
use crate::timing::{both, Times};
use fuzz::abi::{Entries, Library};
use second::random::Random;
use second::rows::{any_accepted, Rows};
use second::Plan;
use std::time::Instant;

/// Steps of which the mean is taken for a run that has millions.
const STEPS: u32 = 100_000;
/// Tables whose decisions are counted.
const TABLES: u64 = 1_000;
/// The largest part of the time of single steps that a run at all bounds may take.
const MOST_PART: f64 = 1.0 / 1_000.0;

/// Times the library's run of a plan beside another way.
fn run_beside<T>(plan: &Plan, other: impl FnMut() -> T) -> Times {
    let mut desk = Desk::of_plan(plan);
    both(|| desk.ask(&Library, Asked::Run), other)
}

/// Gives the end state of the library's run of a plan: its tick, and its three lists.
fn end_of(plan: &Plan) -> (u32, [Vec<u32>; 3]) {
    let mut lists = [0; 3].map(|zero| vec![zero; plan.table.job_count()]);
    let lent = lists.each_mut().map(Vec::as_mut_slice);
    let end = Library.run(plan_lists_of(plan), lent);
    assert_eq!(end.refusal, 0);
    (end.tick, lists)
}

/// Gives the number of decisions of a run by events, which must end as the library's run does.
fn decisions(plan: &Plan) -> u32 {
    let mut lists = [0; 3].map(|zero| vec![zero; plan.table.job_count()]);
    let lent = lists.each_mut().map(Vec::as_mut_slice);
    let (tick, decisions) = run_by_events(plan_lists_of(plan), lent).expect("it is within bounds");
    assert_eq!((tick, lists), end_of(plan), "the runs end otherwise");
    decisions
}

/// Holds the library's run at all bounds against single steps and against the second program.
fn print_at_bounds() {
    let plan = plan_of(&at_bounds());
    let (ticks, lists) = end_of(&plan);
    let end = second::run(&plan).expect("the plan is within its bounds");
    let theirs = (end.tick, [end.executed, end.marks, end.finish]);
    assert_eq!((ticks, lists), theirs, "the second program ends otherwise");
    let beside = run_beside(&plan, || second::run(&plan));
    let [run, by_second] = beside.medians();
    let mut desk = Desk::of_plan(&plan);
    let begun = Instant::now();
    desk.walk(&Library, STEPS);
    let step = begun.elapsed().as_nanos() as f64 / f64::from(STEPS);
    let ticking = step * f64::from(ticks);
    println!("64 jobs of cost 100,000, 256 arcs, 128 sections: {ticks} ticks");
    println!("  decisions                     {:>12}", decisions(&plan));
    println!("  run                           {:>12.3} ms", run / 1e6);
    println!("  single steps, {STEPS} timed, all of them at that rate");
    println!("                                {:>12.1} ms", ticking / 1e6);
    println!("  run / single steps            {:>12.7}", run / ticking);
    println!(
        "  second program                {:>12.3} ms",
        by_second / 1e6
    );
    println!(
        "  run / second program          {:>12.2}",
        beside.ratios()[1]
    );
    assert!(
        run / ticking < MOST_PART,
        "a run at all bounds costs its ticks"
    );
}

/// Times a table beside the same with all its times multiplied.
fn print_table_multiplied(rows: &Rows) {
    let plan = plan_of(rows);
    for factor in [10, 100, 1_000] {
        let multiplied = plan_of(&times(rows.clone(), factor));
        let mut desk = Desk::of_plan(&plan);
        let beside = run_beside(&multiplied, || desk.ask(&Library, Asked::Run));
        let [many, one] = beside.medians().map(|time| time / 1e3);
        let ratio = beside.ratios()[1];
        let counts = [&plan, &multiplied].map(decisions);
        println!("  by {factor:>5}  {one:>8.1} us {many:>8.1} us  ratio {ratio:.2}  decisions {counts:?}");
    }
}

/// Times a table that has decisions for a single tick, which look no further, and one of even times, which has none.
fn print_multiplied() {
    println!("\n64 jobs of cost 100, 256 arcs, 128 sections, and all times multiplied");
    print_table_multiplied(&with_cost(full(), 100));
    println!("  the same with all times even, so that no decision is for a single tick");
    print_table_multiplied(&even(with_cost(full(), 100)));
}

/// Times runs of small tables beside single steps, each of which judges the plan again.
fn print_small() {
    println!("\nSmall tables, run / start and single steps of the library");
    for (name, text) in [("P1", P1), ("cold store", COLD_STORE)] {
        let plan = plan_of_text(text);
        let mut desk = Desk::of_plan(&plan);
        let beside = run_beside(&plan, || desk.ask(&Library, Asked::Walk));
        println!("  {name:<12}{:.2}", beside.ratios()[1]);
    }
}

/// Counts the decisions of generated tables against their jobs and sections.
fn print_decisions() {
    let mut most = 0.0_f64;
    let mut sum = 0;
    for number in 0..TABLES {
        let plan = plan_of(&any_accepted(&mut Random(number)));
        let jobs = plan.table.job_count() as u32;
        let sections = plan.table.each_section().count() as u32;
        let count = decisions(&plan);
        assert!(
            count <= jobs + 2 * sections + jobs,
            "table {number}: {count} decisions"
        );
        most = most.max(f64::from(count) / f64::from(2 * jobs + sections));
        sum += count;
    }
    println!("\nDecisions of {TABLES} generated tables: {sum}");
    println!("  none has more than jobs + 2 x sections + jobs");
    println!("  the most, for each one of 2 x jobs + sections: {most:.2}");
}

/// Prints what runs cost; ends the program where one costs its ticks.
pub fn print() {
    println!("\nA run costs its events\n");
    print_at_bounds();
    print_multiplied();
    print_small();
    print_decisions();
}
