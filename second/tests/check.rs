//! The table check: refusals 2 to 11 and the readings 14 to 21.

mod common;

use common::{p1, refused, table, wrong_lengths};
use second::cycles::{lowest_on_cycle, reachable};
use second::times::topological_order;
use second::{check, check_into, modified_times, Plan, Table};

const FREE: [u32; 3] = [0, 10, 100];

/// Checks jobs without sections.
fn check_arcs(jobs: &[[u32; 3]], arcs: &[[u32; 2]]) -> Result<Plan, second::Refusal> {
    check(&table(jobs, arcs, &[]))
}

/// Checks sections of two jobs of cost 10.
fn check_sections(sections: &[[u32; 4]]) -> Result<Plan, second::Refusal> {
    check(&table(&[FREE, FREE], &[], sections))
}

#[test]
fn reading_14_list_lengths_in_the_check() {
    for (table, number) in wrong_lengths() {
        assert_eq!(check(&table), refused(number, 0));
    }
}

#[test]
fn most_jobs_arcs_and_sections_are_accepted() {
    let mut sections = Vec::new();
    for job in 0..64 {
        sections.extend([[job, 0, 0, 1], [job, 15, 0, 1]]);
    }
    let most = table(&[FREE; 64], &[[0, 63]; 256], &sections);
    assert_eq!(check(&most).unwrap().times.len(), 128);
}

#[test]
fn refusal_05_bounds_of_a_job() {
    let largest = [0, 100_000, 1_000_000];
    for job in [largest, [999_999, 1, 1_000_000], [0, 1, 1]] {
        assert!(check_arcs(&[FREE, job], &[]).is_ok(), "{job:?}");
    }
    let wrong = [
        [1_000_001, 1, 1_000_000],
        [0, 0, 10],
        [0, 100_001, 1_000_000],
        [0, 1, 1_000_001],
        [u32::MAX, u32::MAX, u32::MAX],
    ];
    for job in wrong {
        assert_eq!(check_arcs(&[FREE, job], &[]), refused(5, 1), "{job:?}");
        assert_eq!(check_arcs(&[FREE, job, job], &[]), refused(5, 1));
    }
    assert_eq!(
        check_arcs(&[FREE, [1_000_000, 1, 1_000_000]], &[]),
        refused(10, 1)
    );
    assert_eq!(check_arcs(&[[0, 1, 0]], &[]), refused(10, 0));
}

#[test]
fn refusal_06_an_arc_names_a_job_not_in_the_table() {
    for arc in [[0, 2], [2, 0], [2, 2], [u32::MAX, 0], [64, 64]] {
        assert_eq!(check_arcs(&[FREE; 2], &[[0, 1], arc, arc]), refused(6, 1));
    }
}

#[test]
fn reading_16_refusal_07_a_section_out_of_bounds() {
    for section in [[1, 15, 0, 10], [1, 15, 9, 10], [0, 0, 0, 1]] {
        assert!(check_sections(&[section]).is_ok(), "{section:?}");
    }
    let wrong = [
        [2, 0, 0, 1],
        [u32::MAX, 0, 0, 1],
        [0, 16, 0, 1],
        [0, 0, 1, 1],
        [0, 0, 2, 1],
        [0, 0, 0, 11],
        [9, 99, 9, 9],
    ];
    for section in wrong {
        let right = [1, 0, 0, 1];
        assert_eq!(check_sections(&[right, section, section]), refused(7, 1));
    }
}

#[test]
fn reading_15_the_numbers_come_in_order() {
    let all = table(
        &[[0, 1, 0], [0, 0, 0]],
        &[[0, 0], [0, 2]],
        &[[0, 0, 0, 1], [0, 0, 0, 1], [2, 0, 0, 1]],
    );
    assert_eq!(check(&all), refused(5, 1));
    let six = Table {
        jobs: vec![0, 1, 0, 0, 1, 0],
        ..all
    };
    assert_eq!(check(&six), refused(6, 1));
    let seven = Table {
        arcs: vec![0, 0],
        ..six
    };
    assert_eq!(check(&seven), refused(7, 2));
    let eight = Table {
        sections: seven.sections[..8].to_vec(),
        ..seven
    };
    assert_eq!(check(&eight), refused(8, 1));
    let nine = Table {
        sections: eight.sections[..4].to_vec(),
        ..eight
    };
    assert_eq!(check(&nine), refused(9, 0));
    assert_eq!(
        check(&Table {
            arcs: vec![],
            ..nine
        }),
        refused(10, 0)
    );
}

#[test]
fn reading_17_what_clashes() {
    // Adjacent, apart, of another job, equal or nested on different resources.
    let allowed = [
        [[0, 0, 0, 2], [0, 0, 2, 4]],
        [[0, 0, 2, 4], [0, 0, 0, 2]],
        [[0, 0, 0, 2], [0, 1, 2, 4]],
        [[0, 0, 0, 2], [0, 0, 5, 6]],
        [[0, 0, 0, 3], [1, 0, 2, 5]],
        [[0, 0, 0, 3], [0, 1, 0, 3]],
        [[0, 0, 0, 3], [0, 1, 1, 2]],
        [[0, 0, 1, 2], [0, 1, 0, 3]],
        [[0, 0, 0, 2], [0, 1, 0, 3]],
        [[0, 0, 1, 3], [0, 1, 0, 3]],
    ];
    for pair in allowed {
        assert!(check_sections(&pair).is_ok(), "{pair:?}");
    }
    let clashing = [
        [[0, 0, 0, 3], [0, 0, 2, 5]],
        [[0, 0, 0, 3], [0, 1, 2, 5]],
        [[0, 0, 2, 5], [0, 1, 0, 3]],
        [[0, 0, 0, 3], [0, 0, 0, 3]],
        [[0, 0, 0, 5], [0, 0, 1, 2]],
        [[0, 0, 1, 2], [0, 0, 0, 5]],
    ];
    for pair in clashing {
        assert_eq!(check_sections(&pair), refused(8, 1), "{pair:?}");
    }
    let far = [
        [0, 0, 0, 3],
        [1, 0, 0, 3],
        [0, 1, 4, 9],
        [0, 2, 2, 6],
        [0, 3, 1, 5],
    ];
    assert_eq!(check_sections(&far), refused(8, 3));
}

#[test]
fn reading_18_lowest_job_on_a_cycle() {
    let place = |arcs: &[[u32; 2]]| match check_arcs(&[FREE; 5], arcs) {
        Err(refusal) if refusal.number == 9 => Some(refusal.place),
        Ok(_) => None,
        other => panic!("{other:?}"),
    };
    assert_eq!(place(&[[3, 3]]), Some(3));
    assert_eq!(place(&[[1, 1], [1, 0]]), Some(1), "after a cycle");
    assert_eq!(place(&[[0, 1], [1, 1]]), Some(1), "leading to a cycle");
    assert_eq!(place(&[[0, 1], [4, 2], [2, 3], [3, 4], [1, 3]]), Some(2));
    assert_eq!(place(&[[3, 4], [4, 3], [1, 2], [2, 1]]), Some(1));
    assert_eq!(
        place(&[[3, 4], [4, 3], [3, 2], [2, 1], [0, 3]]),
        Some(3),
        "between"
    );
    assert_eq!(
        place(&[[4, 3], [3, 2], [2, 1], [1, 0], [4, 0], [4, 0]]),
        None
    );
}

#[test]
fn a_long_cycle_is_found() {
    let arcs: Vec<[u32; 2]> = (0..64).map(|job| [job, (job + 37) % 64]).collect();
    assert_eq!(check_arcs(&[FREE; 64], &arcs), refused(9, 0));
    let table = table(&[FREE; 64], &arcs, &[]);
    assert_eq!(lowest_on_cycle(&table), Some(0));
    assert!(reachable(&table).iter().all(|&word| word == u64::MAX));
    assert!(topological_order(&table).is_empty());
}

#[test]
fn repeated_arcs_are_allowed() {
    let plan = check_arcs(&[[1, 2, 9], [0, 2, 8]], &[[0, 1], [0, 1], [0, 1]]);
    assert_eq!(plan.unwrap().times, [1, 6, 1, 8]);
}

#[test]
fn reading_19_windows_are_judged_after_all_times() {
    // Job 2 spoils the window of job 1, job 1 the one of job 0; job 0 is the lowest.
    let jobs = [[0, 2, 10], [0, 2, 10], [0, 5, 5]];
    let plan = check_arcs(&jobs, &[[0, 1], [1, 2]]);
    assert_eq!(plan, refused(10, 0));
    // Only job 1 fails; its predecessor has room.
    let plan = check_arcs(&[[0, 1, 20], [9, 2, 10]], &[[0, 1]]);
    assert_eq!(plan, refused(10, 1));
}

#[test]
fn reading_19_deadlines_far_below_zero() {
    let jobs = [[0, 100_000, 0]; 64];
    let arcs: Vec<[u32; 2]> = (0..63).map(|job| [job, job + 1]).collect();
    let times = modified_times(&table(&jobs, &arcs, &[]));
    assert_eq!(times[0], (0, -6_300_000));
    assert_eq!(times[63], (0, 0));
    assert_eq!(check_arcs(&jobs, &arcs), refused(10, 0));
}

#[test]
fn modified_times_pass_along_chains_in_any_numbering() {
    let jobs = [[0, 1, 90], [5, 2, 50], [2, 3, 80], [7, 4, 99]];
    let times = modified_times(&table(&jobs, &[[3, 0], [0, 2], [2, 1]], &[]));
    assert_eq!(times, [(7, 45), (7, 50), (7, 48), (7, 44)]);
    let times = modified_times(&table(&jobs, &[[1, 2], [2, 0], [0, 3]], &[]));
    assert_eq!(times, [(5, 90), (5, 50), (5, 80), (7, 99)]);
}

#[test]
fn reading_21_room_of_the_check_is_judged_last() {
    let plan = check(&p1());
    assert_eq!(check_into(&p1(), 6), plan);
    assert_eq!(check_into(&p1(), 100), plan);
    assert_eq!(check_into(&p1(), 5), refused(11, 0));
    let late = table(&[[0, 2, 1]], &[], &[]);
    assert_eq!(check_into(&late, 0), refused(10, 0));
}
