//! The density test: refusal 14 and the readings 29 and 38 to 43.

mod common;

use common::{refused, table};
use second::{check, density, Density, Plan};

/// Tests the density of an accepted table.
fn of(jobs: &[[u32; 3]], sections: &[[u32; 4]]) -> Density {
    density(&check(&table(jobs, &[], sections)).unwrap()).unwrap()
}

/// Gives a job that is released at 0.
fn job(cost: u32, relative: u32) -> [u32; 3] {
    [0, cost, relative]
}

#[test]
fn reading_29_the_smallest_relative_deadline_is_1() {
    let answer = of(&[job(1, 1)], &[]);
    assert_eq!(
        (answer.multiple, answer.sums, answer.yes),
        (1, vec![1], true)
    );
}

#[test]
fn reading_38_equal_relative_deadlines_do_not_block_each_other() {
    let answer = of(&[job(2, 6), job(3, 6)], &[[0, 0, 0, 2], [1, 0, 0, 3]]);
    assert_eq!(answer.sums, [2, 5]);
    // Ties by number: the sums come in table order.
    let answer = of(&[job(3, 6), job(2, 6)], &[]);
    assert_eq!(answer.sums, [3, 5]);
}

#[test]
fn reading_39_the_whole_section_counts() {
    let sections = [[0, 0, 0, 1], [1, 0, 0, 3]];
    assert_eq!(of(&[job(1, 5), job(3, 10)], &sections).sums, [2 + 6, 2 + 3]);
    // Without a user of relative deadline 5 the ceiling is 10 and does not reach it.
    assert_eq!(of(&[job(1, 5), job(3, 10)], &sections[1..]).sums, [2, 5]);
    // A section of one tick sets the ceiling and is counted.
    let sections = [[0, 0, 0, 1], [1, 0, 2, 3]];
    assert_eq!(of(&[job(1, 5), job(3, 10)], &sections).sums, [2 + 2, 2 + 3]);
}

#[test]
fn reading_39_a_ceiling_below_counts_for_jobs_without_a_section() {
    // Job 1 has no section; resource 0 has ceiling 5, resource 1 only the ceiling 20.
    let jobs = [job(1, 5), job(1, 10), job(4, 20)];
    let sections = [[0, 0, 0, 1], [2, 0, 0, 2], [2, 1, 0, 4]];
    assert_eq!(
        of(&jobs, &sections).sums,
        [4 + 2 * 4, 4 + 2 + 2 * 2, 4 + 2 + 4]
    );
}

#[test]
fn reading_40_refusal_14_comes_before_any_answer() {
    let jobs = [job(1_009, 1_009), job(1_009, 1_009), job(1, 999_983)];
    let plan = check(&table(&jobs, &[], &[])).unwrap();
    assert_eq!(density(&plan), refused(14, 0));
}

#[test]
fn reading_40_around_1_000_000_000() {
    // The number itself is out of reach: it asks for a relative deadline divisible by 5 to the 9th.
    let answer = of(&[job(1, 333_667), job(1, 81 * 37)], &[]);
    assert_eq!((answer.multiple, answer.yes), (999_999_999, true));
    let jobs = [job(1, 52_579), job(1, 7 * 11 * 13 * 19)];
    let plan = check(&table(&jobs, &[], &[])).unwrap();
    assert_eq!(density(&plan), refused(14, 0), "1,000,000,001");
}

#[test]
fn reading_41_large_sums() {
    // One job of relative deadline 1 and a section of 100,000 ticks on its resource.
    let jobs = [job(1, 1), job(100_000, 1_000_000), job(1, 999)];
    let answer = of(&jobs, &[[0, 0, 0, 1], [1, 0, 0, 100_000]]);
    assert_eq!(answer.multiple, 999_000_000);
    assert_eq!(answer.sums[0], 999_000_000 * 100_001);
    assert_eq!((answer.yes, answer.place), (false, 1));
}

#[test]
fn reading_42_places_are_not_job_numbers() {
    let answer = of(&[job(3, 5), job(1, 9), job(3, 3)], &[]);
    assert_eq!(answer.sums, [45, 45 + 27, 45 + 27 + 5]);
    assert_eq!(answer.place, 2);
}

#[test]
fn reading_43_the_relative_deadlines_are_those_of_the_plan() {
    let plan = Plan {
        table: table(&[[0, 1, 999_983], [0, 1, 1_009]], &[], &[]),
        times: vec![3, 5, 4, 8],
    };
    let answer = density(&plan).unwrap();
    assert_eq!((answer.multiple, answer.sums), (4, vec![2, 3]));
}
