//! The shelf examples, with every fact that is stated of each.

mod common;

use common::{p1, refused, table, P1_TEXT};
use second::order::ceilings;
use second::table::{MARK_FRESH, MARK_STALE};
use second::{answer, check, density, density_answer, lateness, modified_times, read, run};
use second::{run_with, start, step, trace, waits, write, Plan, Table};

const P1_ANSWER: &str = "jobs=3\nrelease=0\ndeadline=20\nfinish=4\nlateness=-16\nmark=fresh\n\
    release=2\ndeadline=10\nfinish=6\nlateness=-4\nmark=fresh\n\
    release=2\ndeadline=12\nfinish=7\nlateness=-5\nmark=fresh\nticks=7\n";

fn jobs_only(jobs: &[[u32; 3]]) -> Table {
    table(jobs, &[], &[])
}

/// Gives the lateness of each job at the end of a run with every report answered.
fn all_lateness(plan: &Plan) -> Vec<Option<i64>> {
    let end = run(plan).unwrap();
    let jobs = 0..plan.table.job_count();
    jobs.map(|job| lateness(plan, &end, job).unwrap()).collect()
}

/// Gives the program's two lines of a refusal.
fn refusal_lines(number: u32, place: u32) -> Vec<u8> {
    format!("refusal={number}\nplace={place}\n").into_bytes()
}

/// Asserts that the check refuses a table and that the program says so.
fn assert_refused(table: &Table, number: u32, place: u32) {
    assert_eq!(check(table), refused(number, place));
    let text = write(table).unwrap();
    assert_eq!(answer(&text), refusal_lines(number, place));
    assert_eq!(density_answer(&text), refusal_lines(number, place));
}

#[test]
fn p1_modified_times() {
    let plan = check(&p1()).unwrap();
    assert_eq!(plan.times, [0, 20, 2, 10, 2, 12]);
    assert_eq!(modified_times(&p1()), [(0, 20), (2, 10), (2, 12)]);
}

#[test]
fn p1_ticks() {
    let plan = check(&p1()).unwrap();
    let mut state = start(&plan).unwrap();
    for (tick, job) in [0, 0, 0, 0, 1, 1, 2].into_iter().enumerate() {
        assert_eq!(state.tick as usize, tick);
        let step = step(&plan, &state, false).unwrap();
        assert_eq!(step.ran, Some(job));
        state = step.state;
    }
    assert_eq!(step(&plan, &state, false), refused(13, 0));
    assert_eq!(state, run(&plan).unwrap());
    assert_eq!((state.tick, &state.finish[..]), (7, &[4, 6, 7][..]));
}

#[test]
fn p1_job_1_waits_two_ticks() {
    let plan = check(&p1()).unwrap();
    let waits = waits(&plan).unwrap();
    assert_eq!((waits[1].ticks, waits[1].bound), (2, 3 - 1));
    assert_eq!(waits[1].given_to, [0]);
    assert_eq!((waits[0].ticks, waits[0].bound), (0, 0));
    assert_eq!((waits[2].ticks, waits[2].bound), (2, 2));
}

#[test]
fn p1_printed() {
    assert_eq!(
        String::from_utf8(answer(P1_TEXT.as_bytes())).unwrap(),
        P1_ANSWER
    );
    assert_eq!(answer(&write(&p1()).unwrap()), P1_ANSWER.as_bytes());
}

#[test]
fn p2_density() {
    let plan = check(&p1()).unwrap();
    assert_eq!(ceilings(&plan)[..2], [Some(8), None]);
    let density = density(&plan).unwrap();
    assert_eq!(density.multiple, 40);
    assert_eq!(density.sums, [25, 26, 22]);
    assert_eq!((density.yes, density.place), (true, 0));
    assert_eq!(density_answer(P1_TEXT.as_bytes()), b"density=yes\n");
}

#[test]
fn p3_silent_at_tick_5() {
    let plan = check(&p1()).unwrap();
    let mut state = start(&plan).unwrap();
    for tick in 0..7 {
        state = step(&plan, &state, tick == 5).unwrap().state;
    }
    assert_eq!(state.marks, [MARK_FRESH, MARK_STALE, MARK_STALE]);
    let reports = [false, false, false, false, false, true];
    assert_eq!(run_with(&plan, &reports), Ok(state));
}

#[test]
fn p4_cycle() {
    let jobs = [[0, 1, 10], [0, 1, 10]];
    assert_refused(&table(&jobs, &[[0, 1], [1, 0]], &[]), 9, 0);
}

#[test]
fn p5_window_of_one_job() {
    assert!(check(&jobs_only(&[[0, 5, 5]])).is_ok());
    assert_refused(&jobs_only(&[[0, 5, 4]]), 10, 0);
}

#[test]
fn p6_deadline_becomes_2() {
    let table = table(&[[0, 3, 10], [0, 4, 6]], &[[0, 1]], &[]);
    assert_eq!(modified_times(&table), [(0, 2), (0, 6)]);
    assert_refused(&table, 10, 0);
}

#[test]
fn p7_deadline_becomes_minus_2() {
    let table = table(&[[0, 1, 100], [0, 5, 3]], &[[0, 1]], &[]);
    assert_eq!(modified_times(&table)[0].1, -2);
    assert_refused(&table, 10, 0);
}

#[test]
fn p8_three_idle_ticks() {
    let plan = check(&jobs_only(&[[3, 1, 4]])).unwrap();
    let trace = trace(&plan, &[]).unwrap();
    assert_eq!(trace.ran, [None, None, None, Some(0)]);
    assert_eq!(trace.end.finish, [4]);
    assert_eq!(all_lateness(&plan), [Some(0)]);
}

#[test]
fn p9_sections_of_one_job() {
    let sections = |one: [u32; 2], other: [u32; 2], resource| {
        let sections = [[0, 0, one[0], one[1]], [0, resource, other[0], other[1]]];
        table(&[[0, 5, 5]], &[], &sections)
    };
    assert_refused(&sections([0, 3], [2, 5], 0), 8, 1);
    assert_refused(&sections([0, 3], [2, 5], 1), 8, 1);
    assert!(check(&sections([0, 2], [2, 4], 0)).is_ok());
}

#[test]
fn p10_late_and_too_dense() {
    let table = jobs_only(&[[0, 3, 3], [0, 3, 5]]);
    let plan = check(&table).unwrap();
    assert_eq!(all_lateness(&plan), [Some(0), Some(1)]);
    let density = density(&plan).unwrap();
    assert_eq!((density.multiple, &density.sums[..]), (15, &[15, 24][..]));
    assert_eq!((density.yes, density.place), (false, 2));
    let text = write(&table).unwrap();
    assert_eq!(density_answer(&text), b"density=no\nplace=2\n");
}

#[test]
fn two_prime_relative_deadlines_are_14() {
    let table = jobs_only(&[[0, 1, 999_983], [0, 1, 1_009]]);
    assert_eq!(density(&check(&table).unwrap()), refused(14, 0));
    let text = write(&table).unwrap();
    assert_eq!(density_answer(&text), refusal_lines(14, 0));
    assert!(answer(&text).starts_with(b"jobs=2\n"));
}

#[test]
fn empty_text_is_1_line_1() {
    assert_eq!(read(b""), refused(1, 1));
    assert_eq!(answer(b""), refusal_lines(1, 1));
    assert_eq!(density_answer(b""), refusal_lines(1, 1));
}
