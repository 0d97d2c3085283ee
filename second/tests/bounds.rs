//! Plans and states handed in: refusals 12 and 13, the readings 20 and 22 to 31.

mod common;

use common::{p1, refused, table};
use second::table::{MARK_FRESH, MARK_NONE, MARK_STALE};
use second::{check, density, lateness, run, run_with, start, start_into, step, trace};
use second::{Plan, State, Table};

/// Makes a plan of these times, judged by no check.
fn plan(table: Table, times: &[[u32; 2]]) -> Plan {
    let times = times.concat();
    Plan { table, times }
}

/// Makes a state without marks and finishes.
fn state(tick: u32, executed: &[u32]) -> State {
    State {
        tick,
        executed: executed.to_vec(),
        marks: vec![0; executed.len()],
        finish: vec![0; executed.len()],
    }
}

/// Asserts that every entry that takes a plan refuses this one with 12.
fn assert_plan_refused(plan: &Plan) {
    let state = state(0, &vec![0; plan.table.jobs.len() / 3]);
    assert_eq!(step(plan, &state, false), refused(12, 0), "{plan:?}");
    assert_eq!(lateness(plan, &state, 0), refused(12, 0), "{plan:?}");
    assert_eq!(density(plan), refused(12, 0), "{plan:?}");
    assert_eq!(start(plan), refused(12, 0), "{plan:?}");
    assert_eq!(start_into(plan, 0, 0, 0), refused(12, 0), "{plan:?}");
    assert_eq!(run(plan), refused(12, 0), "{plan:?}");
    assert_eq!(run_with(plan, &[true]), refused(12, 0), "{plan:?}");
    assert_eq!(trace(plan, &[]), refused(12, 0), "{plan:?}");
}

#[test]
fn refusal_12_of_a_plan() {
    let right = check(&p1()).unwrap();
    let wrong = |change: &dyn Fn(&mut Plan)| {
        let mut plan = right.clone();
        change(&mut plan);
        assert_plan_refused(&plan);
    };
    wrong(&|plan| plan.table.jobs.clear());
    wrong(&|plan| plan.table.jobs.truncate(8));
    wrong(&|plan| plan.table.arcs.push(0));
    wrong(&|plan| plan.table.arcs.resize(514, 0));
    wrong(&|plan| plan.table.sections.push(0));
    wrong(&|plan| plan.table.sections = [0, 0, 1, 4].repeat(129));
    wrong(&|plan| plan.table.jobs[0] = 1_000_001);
    wrong(&|plan| plan.table.jobs[1] = 0);
    wrong(&|plan| plan.table.jobs[2] = 1_000_001);
    wrong(&|plan| plan.table.arcs[0] = 3);
    wrong(&|plan| plan.table.arcs[1] = 3);
    wrong(&|plan| plan.table.sections[0] = 3);
    wrong(&|plan| plan.table.sections[1] = 16);
    wrong(&|plan| plan.table.sections[2] = 4);
    wrong(&|plan| plan.table.sections[3] = 5);
    wrong(&|plan| plan.times[1] = 1_000_001);
    wrong(&|plan| plan.times[1] = 3);
    wrong(&|plan| plan.times[0] = 17);
    wrong(&|plan| plan.times[0] = u32::MAX);
}

#[test]
fn reading_25_lists_are_exactly_as_long_as_the_jobs() {
    let right = check(&p1()).unwrap();
    for length in [0, 2, 5, 7, 8] {
        let mut plan = right.clone();
        plan.times.resize(length, 100);
        assert_plan_refused(&plan);
    }
    let lists: [fn(&mut State) -> &mut Vec<u32>; 3] =
        [|s| &mut s.executed, |s| &mut s.marks, |s| &mut s.finish];
    for list in lists {
        for length in [0, 2, 4] {
            let mut state = start(&right).unwrap();
            list(&mut state).resize(length, 0);
            assert_eq!(step(&right, &state, true), refused(12, 0));
            assert_eq!(lateness(&right, &state, 0), refused(12, 0));
        }
    }
}

#[test]
fn refusal_12_of_a_state() {
    let plan = check(&p1()).unwrap();
    let wrong = |change: &dyn Fn(&mut State)| {
        let mut state = start(&plan).unwrap();
        change(&mut state);
        assert_eq!(step(&plan, &state, false), refused(12, 0), "{state:?}");
        assert_eq!(lateness(&plan, &state, 0), refused(12, 0), "{state:?}");
    };
    wrong(&|state| state.executed[0] = 5);
    wrong(&|state| state.executed[2] = u32::MAX);
    wrong(&|state| state.marks[1] = 3);
    wrong(&|state| state.finish[1] = 10_000_001);
    wrong(&|state| state.tick = 10_000_001);
    let mut state = start(&plan).unwrap();
    state.finish[1] = 10_000_000;
    assert!(step(&plan, &state, false).is_ok());
}

#[test]
fn reading_20_times_of_an_accepted_table_are_in_bounds() {
    let jobs = [[0, 100_000, 1_000_000], [900_000, 100_000, 1_000_000]];
    let plan = check(&table(&jobs, &[[0, 1]], &[])).unwrap();
    assert_eq!(plan.times, [0, 900_000, 900_000, 1_000_000]);
    assert!(start(&plan).is_ok());
}

#[test]
fn reading_22_cyclic_arcs_and_clashing_sections_are_served() {
    let sections = [[0, 0, 0, 3], [0, 0, 1, 4], [1, 0, 0, 2]];
    let odd = table(
        &[[0, 4, 1], [9, 2, 0]],
        &[[0, 1], [1, 0], [0, 0]],
        &sections,
    );
    let plan = plan(odd, &[[0, 9], [1, 5]]);
    // Relative deadlines 9 and 4, ceiling 4: job 1 waits while job 0 is within 0 to 4.
    let trace = trace(&plan, &[]).unwrap();
    let ran: Vec<usize> = trace.ran.into_iter().flatten().collect();
    assert_eq!(ran, [0, 0, 0, 0, 1, 1]);
    assert_eq!(run(&plan), Ok(trace.end));
    let density = density(&plan).unwrap();
    assert_eq!((density.multiple, density.place), (36, 1));
    assert_eq!(density.sums, [2 * 9 + 3 * 9, 2 * 9 + 4 * 4]);
}

#[test]
fn reading_23_refusal_12_comes_before_13() {
    let plan = check(&table(&[[0, 2, 2]], &[], &[])).unwrap();
    assert_eq!(step(&plan, &state(10_000_000, &[2]), false), refused(12, 0));
    assert_eq!(step(&plan, &state(10_000_000, &[1]), false), refused(12, 0));
    assert_eq!(step(&plan, &state(9_999_999, &[2]), false), refused(13, 0));
    let last = step(&plan, &state(9_999_999, &[1]), false).unwrap().state;
    assert_eq!((last.tick, last.finish[0]), (10_000_000, 10_000_000));
    assert_eq!(lateness(&plan, &last, 0), Ok(Some(9_999_998)));
}

#[test]
fn reading_24_finished_means_executed_equals_cost() {
    let plan = check(&table(&[[0, 2, 5], [0, 1, 5]], &[], &[])).unwrap();
    assert_eq!(step(&plan, &state(7, &[2, 1]), false), refused(13, 0));
    let odd = State {
        marks: vec![MARK_FRESH; 2],
        finish: vec![3; 2],
        ..state(7, &[2, 0])
    };
    let step = step(&plan, &odd, true).unwrap();
    assert_eq!(step.ran, Some(1));
    assert_eq!(step.state.marks, [MARK_FRESH, MARK_STALE]);
    assert_eq!(step.state.finish, [3, 8]);
}

#[test]
fn reading_26_marks_in_odd_states() {
    // The unfinished predecessor 0 is marked stale already; job 1 is first in the order.
    let jobs = [[0, 2, 9], [0, 1, 9], [0, 1, 9]];
    let plan = plan(
        table(&jobs, &[[0, 1], [2, 2]], &[]),
        &[[0, 9], [0, 2], [0, 3]],
    );
    let mut odd = state(0, &[0, 0, 0]);
    odd.marks = vec![MARK_STALE, MARK_FRESH, MARK_STALE];
    odd.finish = vec![4, 5, 6];
    let after = step(&plan, &odd, false).unwrap();
    assert_eq!(after.ran, Some(1));
    assert_eq!(after.state.marks, [MARK_STALE, MARK_STALE, MARK_STALE]);
    assert_eq!(after.state.finish, [4, 1, 6]);
    // The self-arc of job 2 looks at its own mark before the step.
    let after = step(&plan, &after.state, false).unwrap();
    assert_eq!(after.ran, Some(2));
    assert_eq!(after.state.marks[2], MARK_STALE);
    let mut fresh = odd;
    fresh.marks = vec![MARK_NONE; 3];
    fresh.executed[1] = 1;
    let after = step(&plan, &fresh, false).unwrap();
    assert_eq!((after.ran, after.state.marks[2]), (Some(2), MARK_FRESH));
}

#[test]
fn reading_27_started_but_not_released() {
    let sections = [[0, 0, 0, 3], [1, 0, 0, 1]];
    let plan = plan(
        table(&[[0, 3, 30], [0, 1, 3]], &[], &sections),
        &[[5, 30], [0, 3]],
    );
    let after = step(&plan, &state(2, &[1, 0]), false).unwrap();
    assert_eq!(after.ran, Some(1), "job 0 doesn't block before its release");
    let after = step(&plan, &state(5, &[1, 0]), false).unwrap();
    assert_eq!(after.ran, Some(0), "job 0 blocks from its release on");
    let after = step(&plan, &state(2, &[1, 1]), false).unwrap();
    assert_eq!(after.ran, None, "job 0 doesn't run before its release");
}

#[test]
fn reading_28_reports_count_only_when_a_job_finishes() {
    let plan = check(&table(&[[2, 2, 9]], &[], &[])).unwrap();
    let end = run_with(&plan, &[true, true, true, false]).unwrap();
    assert_eq!(end.marks, [MARK_FRESH]);
    let end = run_with(&plan, &[false, false, false, true]).unwrap();
    assert_eq!(end.marks, [MARK_STALE]);
    let idle = step(&plan, &start(&plan).unwrap(), true).unwrap();
    assert_eq!((idle.ran, &idle.state), (None, &state(1, &[0])));
}

#[test]
fn reading_30_lateness_of_an_unfinished_job_is_none() {
    let plan = check(&p1()).unwrap();
    let mut state = state(10_000_000, &[4, 1, 0]);
    state.finish = vec![4, 9, 9];
    assert_eq!(lateness(&plan, &state, 0), Ok(Some(-16)));
    assert_eq!(lateness(&plan, &state, 1), Ok(None));
    assert_eq!(lateness(&plan, &state, 2), Ok(None));
    assert_eq!(lateness(&plan, &state, 3), refused(12, 0));
    assert_eq!(lateness(&plan, &state, usize::MAX), refused(12, 0));
}

#[test]
fn reading_30_lateness_of_an_odd_state_without_a_finish() {
    let plan = check(&table(&[[0, 1, 1_000_000]], &[], &[])).unwrap();
    assert_eq!(lateness(&plan, &state(5, &[1]), 0), Ok(Some(-1_000_000)));
}

#[test]
fn reading_31_start_state() {
    let plan = check(&p1()).unwrap();
    assert_eq!(start(&plan), Ok(state(0, &[0, 0, 0])));
    assert_eq!(start_into(&plan, 3, 4, 5), start(&plan));
    for (executed, marks, finish) in [(2, 3, 3), (3, 2, 3), (3, 3, 2)] {
        let refusal = start_into(&plan, executed, marks, finish);
        assert_eq!(refusal, refused(11, 0));
    }
}
