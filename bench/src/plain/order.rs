//! The arcs as words of 64 bits, and the order that they ask for.

use super::{refuse, Judged, MOST_JOBS};

/// The direct predecessors and successors of each job.
pub struct Neighbours {
    /// The jobs before each.
    pub before: [u64; MOST_JOBS],
    /// The jobs after each.
    pub after: [u64; MOST_JOBS],
}

/// Gives the neighbours of each job.
pub fn neighbours(arcs: &[u32]) -> Neighbours {
    let mut found = Neighbours {
        before: [0; MOST_JOBS],
        after: [0; MOST_JOBS],
    };
    for arc in arcs.chunks_exact(2) {
        found.after[arc[0] as usize] |= 1 << arc[1];
        found.before[arc[1] as usize] |= 1 << arc[0];
    }
    found
}

/// Gives the jobs of a word, the lowest first.
pub fn jobs_of(mut word: u64) -> impl Iterator<Item = usize> {
    std::iter::from_fn(move || {
        let job = (word != 0).then(|| word.trailing_zeros() as usize)?;
        word &= word - 1;
        Some(job)
    })
}

/// Gives the jobs in an order that follows the arcs, or refuses with 9.
pub fn order(neighbours: &Neighbours, count: usize) -> Judged<[usize; MOST_JOBS]> {
    let mut order = [0; MOST_JOBS];
    let mut placed = 0;
    let mut done = 0_u64;
    let free = |job: &usize| neighbours.before[*job] == 0;
    let mut ready = (0..count)
        .filter(free)
        .fold(0_u64, |word, job| word | 1 << job);
    while ready != 0 {
        let job = ready.trailing_zeros() as usize;
        ready &= ready - 1;
        done |= 1 << job;
        order[placed] = job;
        placed += 1;
        for next in jobs_of(neighbours.after[job]) {
            if neighbours.before[next] & !done == 0 {
                ready |= 1 << next;
            }
        }
    }
    match placed == count {
        true => Ok(order),
        false => refuse(9, lowest_on_cycle(neighbours, count)),
    }
}

/// Gives the lowest job that the arcs lead back to, for arcs that hold a cycle.
fn lowest_on_cycle(neighbours: &Neighbours, count: usize) -> usize {
    let mut reached = neighbours.after;
    for through in 0..count {
        for job in 0..count {
            if reached[job] >> through & 1 == 1 {
                reached[job] |= reached[through];
            }
        }
    }
    let mut jobs = 0..count;
    jobs.find(|&job| reached[job] >> job & 1 == 1).unwrap_or(0)
}
