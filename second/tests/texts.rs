//! The generated texts meet everything that the programs are to be compared on.

use second::faults::LONG;
use second::slip::SHOWN_BY_PROGRAM;
use second::texts::{faults, text, ACCEPTED_KINDS, KINDS, TEXTS};
use second::{answer, answer_with, density_answer, density_answer_with};
use second::{check, read, run, waits, Plan, Refusal};
use std::collections::{BTreeMap, BTreeSet};

/// Gives the plan of a text, or its refusal.
fn planned(text: &[u8]) -> Result<Plan, Refusal> {
    check(&read(text)?)
}

/// Gives the number of each text with its plan, or its refusal.
fn answers() -> Vec<(u64, Result<Plan, Refusal>)> {
    let numbers = 0..TEXTS;
    numbers
        .map(|number| (number, planned(&text(number))))
        .collect()
}

/// Gives the plans of the accepted texts.
fn plans() -> Vec<Plan> {
    let answers = answers().into_iter();
    answers.filter_map(|(_, answer)| answer.ok()).collect()
}

/// Asserts that so many plans are of this kind at least.
fn assert_many(plans: &[Plan], least: usize, kind: &str, is_one: impl Fn(&Plan) -> bool) {
    let count = plans.iter().filter(|plan| is_one(plan)).count();
    assert!(count >= least, "{count} {kind}");
}

/// Tells whether two of these numbers are equal.
fn tied(mut numbers: impl Iterator<Item = u32>) -> bool {
    let mut seen = BTreeSet::new();
    numbers.any(|number| !seen.insert(number))
}

/// Tells whether a section lies within another of the same job.
fn nests(plan: &Plan) -> bool {
    let sections: Vec<_> = plan.table.each_section().collect();
    let lies_within = |inner: usize, outer: usize| {
        let (inner, outer) = (sections[inner], sections[outer]);
        inner.job == outer.job && outer.from <= inner.from && inner.to <= outer.to
    };
    let all = || 0..sections.len();
    all().any(|one| all().any(|other| one != other && lies_within(one, other)))
}

/// Tells whether sections of two jobs are on one resource.
fn shares(plan: &Plan) -> bool {
    let mut owner = BTreeMap::new();
    let mut sections = plan.table.each_section();
    sections.any(|section| *owner.entry(section.resource).or_insert(section.job) != section.job)
}

/// Tells whether some job of the plan gives ticks to a later one.
fn some_job_waits(plan: &Plan) -> bool {
    let waits = waits(plan).unwrap();
    waits.iter().any(|wait| wait.ticks > 0)
}

#[test]
fn every_refusal_occurs_at_many_places() {
    let mut places: BTreeMap<u32, Vec<u32>> = BTreeMap::new();
    for refusal in answers().into_iter().filter_map(|(_, answer)| answer.err()) {
        places
            .entry(refusal.number)
            .or_default()
            .push(refusal.place);
    }
    assert!(places.keys().copied().eq(1..=10), "{:?}", places.keys());
    for (number, places) in places {
        let different = places.iter().collect::<BTreeSet<_>>().len();
        assert!(places.len() >= 20, "{} times {number}", places.len());
        let least = if number == 2 { 1 } else { 8 };
        assert!(different >= least, "{number} at {different} places");
    }
}

#[test]
fn the_faults_put_in_are_the_ones_refused() {
    let mut pairs = BTreeSet::new();
    for (number, answer) in answers() {
        let faults = faults(number);
        let refused = answer.as_ref().err().map_or(0, |refusal| refusal.number);
        match faults[..] {
            [] if number % KINDS < ACCEPTED_KINDS => assert_eq!(refused, 0, "text {number}"),
            [] => (),
            [1..=4, 1..=4] => assert!(faults.contains(&refused), "text {number}"),
            _ => assert_eq!(Some(&refused), faults.iter().min(), "text {number}"),
        }
        pairs.insert(faults);
    }
    assert_eq!(pairs.len(), 1 + 10 + 55);
}

#[test]
fn accepted_tables_have_waits_nests_and_ties() {
    let plans = plans();
    assert!(plans.len() >= 600, "{} accepted", plans.len());
    assert_many(&plans, 200, "with a wait on a bus", |plan| {
        (nests(plan) || shares(plan)) && plan.table.cost(0) < 1_000 && some_job_waits(plan)
    });
    assert_many(&plans, 200, "with nested sections", nests);
    assert_many(&plans, 200, "with shared resources", shares);
    assert_many(&plans, 200, "with arcs", |plan| !plan.table.arcs.is_empty());
    assert_many(&plans, 200, "with equal deadlines", |plan| {
        tied(plan.times.iter().skip(1).step_by(2).copied())
    });
    assert_many(&plans, 200, "with equal releases", |plan| {
        tied(plan.times.iter().step_by(2).copied())
    });
    assert_many(&plans, 200, "with equal relative deadlines", |plan| {
        tied((0..plan.table.job_count()).map(|job| plan.relative_deadline(job)))
    });
    assert_many(&plans, 200, "with a late job", |plan| {
        let end = run(plan).unwrap();
        let jobs = 0..plan.table.job_count();
        jobs.into_iter()
            .any(|job| end.finish[job] > plan.table.deadline(job))
    });
}

#[test]
fn every_bound_is_met() {
    let plans = plans();
    let sizes: BTreeSet<usize> = plans.iter().map(|plan| plan.table.job_count()).collect();
    assert_eq!(sizes, (1..=64).collect());
    assert_many(&plans, 3, "with 256 arcs", |p| p.table.arcs.len() == 512);
    assert_many(&plans, 3, "with 128 sections", |plan| {
        plan.table.sections.len() == 512
    });
    let has = |place: usize, value: u32| {
        move |plan: &Plan| plan.table.jobs.chunks(3).any(|job| job[place] == value)
    };
    assert_many(&plans, 1, "released as late as can be", has(0, 999_999));
    assert_many(&plans, 2, "with the largest cost", has(1, 100_000));
    assert_many(&plans, 5, "with the largest deadline", has(2, 1_000_000));
    assert_many(&plans, 5, "on the last resource", |plan| {
        plan.table
            .each_section()
            .any(|section| section.resource == 15)
    });
}

#[test]
fn some_runs_are_as_long_as_can_be() {
    let longest = plans().iter().map(|plan| run(plan).unwrap().tick).max();
    assert!(longest >= Some(6_400_000), "{longest:?}");
}

#[test]
fn texts_are_short_long_and_longest() {
    let lengths: Vec<usize> = (0..TEXTS).map(|number| text(number).len()).collect();
    assert!(lengths.contains(&0));
    assert!(lengths.contains(&20_830) && lengths.contains(&20_831));
    let long = lengths.iter().filter(|&&length| length > 65_536).count();
    assert!(long >= 20, "{long} long");
    assert!(lengths.iter().all(|&length| length < 2 * LONG));
}

#[test]
fn the_density_test_answers_and_refuses() {
    let mut counts: BTreeMap<String, u32> = BTreeMap::new();
    for number in 0..TEXTS {
        let lines = String::from_utf8(density_answer(&text(number))).unwrap();
        let first = lines.lines().next().unwrap().to_string();
        *counts.entry(first).or_default() += 1;
    }
    for (line, least) in [("density=yes", 20), ("density=no", 200), ("refusal=14", 10)] {
        let count = counts.get(line).copied().unwrap_or(0);
        assert!(count >= least, "{count} times {line}");
    }
}

#[test]
fn every_mistake_of_the_program_shows() {
    let mut shown = SHOWN_BY_PROGRAM.map(|_| 0);
    for number in 0..TEXTS {
        let text = text(number);
        let right = (answer(&text), density_answer(&text));
        for (&slip, shown) in SHOWN_BY_PROGRAM.iter().zip(&mut shown) {
            let wrong = (answer_with(&text, slip), density_answer_with(&text, slip));
            *shown += u32::from(wrong != right);
        }
    }
    assert!(shown.iter().all(|&texts| texts >= 5), "{shown:?}");
}
