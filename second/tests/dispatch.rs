//! Order, ceilings, ticks and demand 3: the readings 32 to 37 and 44 to 50.

mod common;

use common::{p1, refused, table};
use second::dispatch::latest_end;
use second::order::{ceilings, order_of_jobs};
use second::table::{MARK_FRESH, MARK_STALE};
use second::{answer, check, lateness, run, run_with, start, step, trace, waits, waits_with};
use second::{write, Plan, Slip, State, Table};

/// Gives the jobs that ran at each tick of the run of a table, -1 at idle ones.
fn ran(table: &Table) -> Vec<i32> {
    let plan = check(table).unwrap();
    let trace = trace(&plan, &[]).unwrap();
    assert_eq!(run(&plan).as_ref(), Ok(&trace.end));
    let numbers = trace.ran.into_iter();
    numbers
        .map(|job| job.map_or(-1, |job| job as i32))
        .collect()
}

#[test]
fn reading_32_order_by_all_three_keys() {
    let jobs = [[0, 1, 9], [3, 1, 7], [2, 1, 7], [2, 1, 7], [0, 1, 5]];
    let plan = check(&table(&jobs, &[], &[])).unwrap();
    assert_eq!(order_of_jobs(&plan), [4, 2, 3, 1, 0]);
    // The modified times count: job 0 gets deadline 4 and comes first.
    let plan = check(&table(&jobs, &[[0, 4]], &[])).unwrap();
    assert_eq!(order_of_jobs(&plan), [0, 4, 2, 3, 1]);
    // With the modified release 3, job 2 comes behind job 1 of the same deadline.
    let jobs = [[3, 1, 6], [2, 1, 7], [0, 1, 7]];
    let plan = check(&table(&jobs, &[[0, 2]], &[])).unwrap();
    assert_eq!(order_of_jobs(&plan), [0, 1, 2]);
}

#[test]
fn reading_33_ceilings_count_every_section() {
    let sections = [[0, 3, 0, 4], [1, 3, 1, 2], [2, 5, 0, 1], [0, 5, 1, 3]];
    let jobs = [[0, 4, 20], [2, 2, 10], [0, 1, 12]];
    let plan = check(&table(&jobs, &[], &sections)).unwrap();
    let mut expected = [None; 16];
    expected[3] = Some(8);
    expected[5] = Some(12);
    assert_eq!(ceilings(&plan), expected);
}

#[test]
fn reading_33_a_finished_job_still_sets_the_ceiling() {
    // Job 0 finishes at 1 and leaves the ceiling 1 on resource 0, which holds up job 2.
    let jobs = [[0, 1, 1], [0, 3, 20], [2, 1, 5]];
    let sections = [[0, 0, 0, 1], [1, 0, 0, 3]];
    assert_eq!(ran(&table(&jobs, &[], &sections)), [0, 1, 1, 1, 2]);
    assert_eq!(ran(&table(&jobs, &[], &sections[1..])), [0, 1, 2, 1, 1]);
}

#[test]
fn reading_33_a_resource_of_one_job_holds_up_later_levels() {
    // Only job 0 uses the resource: the ceiling is its own relative deadline 6.
    let jobs = [[2, 3, 8], [3, 1, 7]];
    let own = [[0, 0, 0, 3]];
    assert_eq!(ran(&table(&jobs, &[], &own)), [-1, -1, 0, 1, 0, 0]);
    let jobs = [[2, 3, 8], [1, 1, 7]];
    let plan = check(&table(&jobs, &[], &own)).unwrap();
    let mut held = start(&plan).unwrap();
    (held.tick, held.executed[0]) = (3, 1);
    let after = step(&plan, &held, false).unwrap();
    assert_eq!(after.ran, Some(0), "relative deadline 6 isn't below 6");
}

#[test]
fn reading_34_strictly_between() {
    // Job 0 has executed 1 when job 1 comes.
    let jobs = [[0, 4, 20], [1, 1, 3]];
    let inside = |from, to| ran(&table(&jobs, &[], &[[0, 0, from, to], [1, 0, 0, 1]]));
    assert_eq!(inside(1, 4), [0, 1, 0, 0, 0], "not entered");
    assert_eq!(inside(0, 1), [0, 1, 0, 0, 0], "left");
    assert_eq!(inside(0, 2), [0, 0, 1, 0, 0], "held");
    assert_eq!(inside(0, 3), [0, 0, 0, 1, 0], "held");
}

#[test]
fn reading_35_rule_4_takes_the_first_started_job() {
    // Job 3 is held up by job 0; job 1 is started and before job 0, job 2 is not started.
    let jobs = [[0, 3, 40], [1, 2, 10], [2, 1, 9], [2, 1, 5]];
    let sections = [[0, 0, 0, 3], [2, 0, 0, 1], [3, 0, 0, 1]];
    assert_eq!(ran(&table(&jobs, &[], &sections)), [0, 0, 0, 3, 2, 1, 1]);
    let plan = check(&table(&jobs, &[], &sections)).unwrap();
    let state = State {
        tick: 5,
        executed: vec![1, 1, 0, 0],
        marks: vec![0; 4],
        finish: vec![0; 4],
    };
    assert_eq!(step(&plan, &state, false).unwrap().ran, Some(1));
}

#[test]
fn rule_3_a_lower_relative_deadline_passes_the_ceiling() {
    let jobs = [[0, 3, 20], [1, 1, 9], [2, 1, 5]];
    let sections = [[0, 0, 0, 3], [1, 0, 0, 1]];
    assert_eq!(ran(&table(&jobs, &[], &sections)), [0, 0, 2, 0, 1]);
}

#[test]
fn reading_36_lateness_by_the_given_deadline() {
    let table = table(&[[0, 1, 2], [0, 1, 2]], &[[0, 1]], &[]);
    let plan = check(&table).unwrap();
    let end = run(&plan).unwrap();
    assert_eq!(lateness(&plan, &end, 0), Ok(Some(-1)));
    let text = answer(&write(&table).unwrap());
    let first = "jobs=2\nrelease=0\ndeadline=1\nfinish=1\nlateness=-1\nmark=fresh\n";
    assert!(text.starts_with(first.as_bytes()));
}

#[test]
fn reading_37_ticks_is_the_largest_finish() {
    let table = table(&[[90, 2, 99], [0, 1, 5]], &[], &[]);
    let end = run(&check(&table).unwrap()).unwrap();
    assert_eq!((end.tick, &end.finish[..]), (92, &[92, 1][..]));
    let text = answer(&write(&table).unwrap());
    assert!(text.ends_with(b"\nticks=92\n"));
}

#[test]
fn reading_44_at_a_decision_two_jobs_may_stand_before_one_section() {
    // At tick 1 job 0 has executed from = 1 and doesn't hold; job 1 enters and leaves.
    let jobs = [[0, 3, 20], [1, 1, 3]];
    let sections = [[0, 0, 1, 3], [1, 0, 0, 1]];
    assert_eq!(ran(&table(&jobs, &[], &sections)), [0, 1, 0, 0]);
}

/// The example in which a job of an early deadline but a low level is held up.
fn three_jobs() -> Plan {
    let jobs = [[0, 3, 4], [1, 1, 3], [2, 1, 3]];
    let sections = [[0, 0, 0, 3], [1, 0, 0, 1]];
    check(&table(&jobs, &[], &sections)).unwrap()
}

#[test]
fn reading_45_the_waiting_bound_is_over_all_sections_of_later_jobs() {
    let plan = three_jobs();
    let right = waits(&plan).unwrap();
    assert!(right.iter().all(|wait| wait.ticks <= wait.bound));
    assert_eq!((right[2].ticks, right[2].bound), (1, 2));
    assert_eq!(right[2].given_to, [0]);
    let narrowed = waits_with(&plan, Slip::NarrowedWaitingBound).unwrap();
    assert_eq!((narrowed[2].ticks, narrowed[2].bound), (1, 0));
    assert_eq!((narrowed[1].ticks, narrowed[1].bound), (2, 2));
}

#[test]
fn reading_46_from_the_given_release_the_bound_fails() {
    // Job 2 of the first example: from tick 0, four ticks go to the later job 0.
    let plan = check(&p1()).unwrap();
    let trace = trace(&plan, &[]).unwrap();
    let finish = trace.end.finish[2] as usize;
    let to_job_0 = |from: usize| {
        trace.ran[from..finish]
            .iter()
            .filter(|&&j| j == Some(0))
            .count()
    };
    let wait = &waits(&plan).unwrap()[2];
    assert_eq!((to_job_0(0), to_job_0(2), wait.bound), (4, 2, 2));
}

#[test]
fn reading_47_sections_of_one_tick_hold_nobody_up() {
    let jobs = [[0, 3, 20], [1, 1, 3]];
    let one_tick = [[0, 0, 0, 1], [0, 0, 1, 2], [0, 0, 2, 3], [1, 0, 0, 1]];
    for sections in [&one_tick[..], &[]] {
        let plan = check(&table(&jobs, &[], sections)).unwrap();
        let wait = &waits(&plan).unwrap()[1];
        assert_eq!((wait.ticks, wait.bound), (0, 0));
    }
}

#[test]
fn reading_48_a_job_runs_at_its_release() {
    assert_eq!(
        ran(&table(&[[2, 1, 9], [4, 1, 9]], &[], &[])),
        [-1, -1, 0, -1, 1]
    );
}

#[test]
fn reading_49_only_the_report_of_the_finishing_step_counts() {
    let jobs = [[0, 2, 9], [0, 2, 9], [0, 1, 9]];
    let plan = check(&table(&jobs, &[[0, 1]], &[])).unwrap();
    let (fresh, stale) = (MARK_FRESH, MARK_STALE);
    let marks = |silent: u32| {
        let reports: Vec<bool> = (0..5).map(|tick| tick == silent).collect();
        run_with(&plan, &reports).unwrap().marks
    };
    assert_eq!(order_of_jobs(&plan), [0, 1, 2]);
    assert_eq!(marks(0), [fresh, fresh, fresh]);
    assert_eq!(marks(1), [stale, stale, fresh]);
    assert_eq!(marks(2), [fresh, fresh, fresh]);
    assert_eq!(marks(3), [fresh, stale, fresh]);
    assert_eq!(marks(4), [fresh, fresh, stale]);
}

#[test]
fn staleness_passes_along_a_chain() {
    let jobs = [[0, 1, 9]; 4];
    let plan = check(&table(&jobs, &[[0, 1], [1, 2], [2, 3]], &[])).unwrap();
    let end = run_with(&plan, &[false, true, false, false]).unwrap();
    assert_eq!(end.marks, [MARK_FRESH, MARK_STALE, MARK_STALE, MARK_STALE]);
}

#[test]
fn reading_50_the_bound_of_the_end_is_reached() {
    let longest: Vec<[u32; 3]> = vec![[900_000, 100_000, 1_000_000]; 64];
    let plan = check(&table(&longest, &[], &[])).unwrap();
    assert_eq!(latest_end(&plan), 7_300_000);
    let end = run(&plan).unwrap();
    assert_eq!((end.tick, end.finish[63]), (7_300_000, 7_300_000));
    assert_eq!(step(&plan, &end, false), refused(13, 0));
}
