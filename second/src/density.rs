//! The density test, over a sorted copy of the jobs and with 128-bit sums.

use crate::bounds::plan_in_bounds;
use crate::order::ceilings_with;
use crate::refusal::Refusal;
use crate::slip::Slip;
use crate::table::Plan;

/// Largest common multiple that the test works with.
pub const LARGEST_MULTIPLE: u128 = 1_000_000_000;

/// The answer of the density test.
#[derive(Clone, Debug, PartialEq, Eq)]
pub struct Density {
    /// Whether every place passes.
    pub yes: bool,
    /// The lowest failing place, from 1; 0 with a yes.
    pub place: u32,
    /// The least common multiple of all relative deadlines.
    pub multiple: u128,
    /// The left-hand sum of each place, over the multiple.
    pub sums: Vec<u128>,
}

/// Tests the density of a plan, or gives refusal 12, then 14.
pub fn density(plan: &Plan) -> Result<Density, Refusal> {
    density_with(plan, Slip::None)
}

/// Tests the density of a plan with a slip.
pub fn density_with(plan: &Plan, slip: Slip) -> Result<Density, Refusal> {
    plan_in_bounds(plan)?;
    let mut sorted: Vec<(u32, usize)> = (0..plan.table.job_count())
        .map(|job| (plan.relative_deadline(job), job))
        .collect();
    sorted.sort_unstable();
    let multiple = common_multiple(sorted.iter().map(|(relative, _)| *relative))?;
    let mut used = 0;
    let mut sums: Vec<u128> = Vec::new();
    for (relative, job) in sorted {
        let share = multiple / u128::from(relative);
        used += u128::from(plan.table.cost(job)) * share;
        sums.push(used + u128::from(longest_blocking(plan, relative, slip)) * share);
    }
    let failing = sums.iter().position(|&sum| sum > multiple);
    let first = match slip {
        Slip::DensityPlaceFromZero => 0,
        _ => 1,
    };
    Ok(Density {
        yes: failing.is_none(),
        place: failing.map_or(0, |place| place as u32 + first),
        multiple,
        sums,
    })
}

/// Gives the least common multiple, or refusal 14 as soon as it is too large.
fn common_multiple(relative_deadlines: impl Iterator<Item = u32>) -> Result<u128, Refusal> {
    let mut multiple: u128 = 1;
    for relative in relative_deadlines.map(u128::from) {
        multiple *= relative / common_divisor(multiple, relative);
        if multiple > LARGEST_MULTIPLE {
            return Err(Refusal::new(14, 0));
        }
    }
    Ok(multiple)
}

/// Gives the greatest common divisor by remainders.
fn common_divisor(mut one: u128, mut other: u128) -> u128 {
    while other > 0 {
        (one, other) = (other, one % other);
    }
    one
}

/// Gives the longest section of a job with larger relative deadline, on a resource whose ceiling
/// is at most this one; 0 if none.
fn longest_blocking(plan: &Plan, relative: u32, slip: Slip) -> u32 {
    let ceilings = ceilings_with(plan, slip);
    let larger = |job: usize| match slip {
        Slip::LongestOfEqualToo => plan.relative_deadline(job) >= relative,
        _ => plan.relative_deadline(job) > relative,
    };
    let sections = plan.table.each_section();
    let blocking = sections.filter(|section| {
        let reaches = ceilings[section.resource].is_some_and(|ceiling| ceiling <= relative);
        larger(section.job) && reaches
    });
    blocking.map(|section| section.length()).max().unwrap_or(0)
}
