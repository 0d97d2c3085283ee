//! The generated plans meet what the programs are to be compared on.

use second::cycles::lowest_on_cycle;
use second::plans::{plan, plan_lines, KINDS};
use second::{density, Plan};
use std::collections::BTreeSet;

/// Numbers of plans that are compared; `.ci/compare` has the same, in batches of 32.
const PLANS: u64 = 2_560;

/// Counts the plans for which something is so.
fn count(is_so: impl Fn(&Plan) -> bool) -> usize {
    (0..PLANS).filter(|&number| is_so(&plan(number))).count()
}

#[test]
fn every_answer_of_the_density_test_occurs() {
    let answers = (0..PLANS).map(|number| density(&plan(number)));
    let answers: Vec<_> = answers.collect();
    let places = answers.iter().flatten().map(|answer| answer.place);
    assert_eq!(places.collect::<BTreeSet<u32>>(), (0..=64).collect());
    let refusals = |number| {
        let refusals = answers.iter().filter_map(|answer| answer.as_ref().err());
        refusals.filter(|r| r.number == number).count()
    };
    assert!(refusals(12) >= 300, "{} times 12", refusals(12));
    assert!(refusals(14) >= 150, "{} times 14", refusals(14));
    let yes = answers.iter().flatten().filter(|answer| answer.yes).count();
    assert!(yes >= 500, "{yes} times yes");
}

#[test]
fn multiples_on_both_sides_of_the_limit_occur() {
    let multiples = (0..PLANS).filter_map(|number| density(&plan(number)).ok());
    let multiples: BTreeSet<u128> = multiples.map(|answer| answer.multiple).collect();
    assert!(multiples.contains(&999_999_999));
    for pair in [[52_579, 19_019], [999_983, 1_009]] {
        let has = |plan: &Plan, relative| {
            plan.times
                .chunks_exact(2)
                .any(|t| t[1].checked_sub(t[0]) == Some(relative))
        };
        let with_both = count(|plan| pair.iter().all(|&relative| has(plan, relative)));
        assert!(with_both > 0, "{pair:?}");
    }
}

#[test]
fn every_size_and_the_small_things_occur() {
    let sizes = (0..PLANS).map(|number| plan(number).table.job_count());
    assert_eq!(sizes.collect::<BTreeSet<usize>>(), (0..=65).collect());
    let mut rows = count(|plan| plan.table.each_section().any(|s| s.to == s.from + 1));
    assert!(rows >= 500, "{rows} with a section of one tick");
    rows = count(|plan| density(plan).is_ok() && lowest_on_cycle(&plan.table).is_some());
    assert!(rows >= 100, "{rows} with a cycle");
    rows = count(|plan| match second::check(&plan.table) {
        Ok(checked) => checked.times != plan.times,
        Err(_) => density(plan).is_ok(),
    });
    assert!(rows >= 200, "{rows} with times of no table");
    rows = count(|plan| {
        let mut relatives = BTreeSet::new();
        let mut spans = plan.times.chunks_exact(2).map(|t| t[1].checked_sub(t[0]));
        density(plan).is_ok() && spans.any(|span| !relatives.insert(span))
    });
    assert!(rows >= 500, "{rows} with equal relative deadlines");
}

#[test]
fn a_batch_fits_the_programs_buffer() {
    assert_eq!(PLANS % (32 * KINDS), 0);
    for first in (0..PLANS).step_by(32) {
        assert!(plan_lines(first, 32).len() < 65_536, "from {first}");
    }
}
