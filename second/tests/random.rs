//! Seeded random tables, plans, states and texts.

mod common;

use common::clauses::{ancestors, broken_clause};
use common::random::{Random, Tables};
use common::P1_TEXT;
use second::{check, density};
use second::{modified_times, read, run_with, start, step, trace, waits, write};
use second::{Plan, Refusal, State, Step, Table};

const TABLES: u32 = 20_000;

/// Gives accepted tables among this many random ones, with the generator.
fn accepted(seed: u64, tables: u32, mut each: impl FnMut(&mut Random, Plan)) -> u32 {
    let mut random = Random(seed);
    let mut count = 0;
    for _ in 0..tables {
        let table = random.table();
        if let Ok(plan) = check(&table) {
            count += 1;
            each(&mut random, plan);
        }
    }
    count
}

#[test]
fn demand_3_on_every_run() {
    let mut held_up = 0;
    let mut stale = 0;
    let runs = accepted(1, TABLES, |random, plan| {
        let reports = random.reports(60);
        let trace = trace(&plan, &reports).unwrap();
        let broken = broken_clause(&plan, &reports, &trace);
        assert_eq!(broken, None, "{plan:?} {reports:?} {trace:?}");
        let waits = waits(&plan).unwrap();
        assert!(waits.iter().all(|wait| wait.ticks <= wait.bound));
        held_up += u32::from(waits.iter().any(|wait| wait.ticks > 0));
        stale += u32::from(trace.end.marks.contains(&2));
    });
    assert!(runs > TABLES / 2, "{runs} runs");
    assert!(held_up > runs / 10, "{held_up} of {runs} with a wait");
    assert!(stale > runs / 4, "{stale} of {runs} with a stale job");
}

#[test]
fn runs_by_stretches_by_ticks_and_by_steps_agree() {
    accepted(2, TABLES / 2, |random, plan| {
        let reports = random.reports(60);
        let trace = trace(&plan, &reports).unwrap();
        assert_eq!(
            run_with(&plan, &reports).as_ref(),
            Ok(&trace.end),
            "{plan:?}"
        );
        let mut state = start(&plan).unwrap();
        for (&ran, silent) in trace.ran.iter().zip(reports) {
            let step = step(&plan, &state, silent).unwrap();
            assert_eq!((step.ran, step.state.tick), (ran, state.tick + 1));
            state = step.state;
        }
        assert_eq!(state, trace.end);
    });
}

#[test]
fn lists_written_and_read_give_the_same_lists() {
    let mut random = Random(3);
    for _ in 0..TABLES {
        let mut table = random.table();
        let small = random.percent(50);
        let lists = [&mut table.jobs, &mut table.arcs, &mut table.sections];
        for value in lists.into_iter().flatten() {
            if !small && random.percent(40) {
                *value = random.word() as u32 >> random.below(32);
            }
        }
        let text = write(&table).unwrap();
        assert_eq!(read(&text).as_ref(), Ok(&table));
    }
}

#[test]
fn texts_read_and_written_give_the_same_bytes() {
    let mut random = Random(4);
    let mut read_well = 0;
    for _ in 0..TABLES {
        let mut text = write(&random.table()).unwrap();
        for _ in 0..random.below(3) {
            change_one_byte(&mut random, &mut text);
        }
        match read(&text) {
            Ok(table) => {
                read_well += 1;
                assert_eq!(write(&table), Ok(text));
            }
            Err(refusal) => assert_first_wrong_line(&text, refusal),
        }
    }
    assert!(read_well > TABLES / 4, "{read_well}");
}

/// Changes, takes out or puts in one byte.
fn change_one_byte(random: &mut Random, text: &mut Vec<u8>) {
    let place = random.below(text.len() as u32) as usize;
    let byte = match random.below(4) {
        0 => b'\n',
        1 => random.word() as u8,
        _ => P1_TEXT.as_bytes()[random.below(P1_TEXT.len() as u32) as usize],
    };
    match random.below(3) {
        0 => text[place] = byte,
        1 => drop(text.remove(place)),
        _ => text.insert(place, byte),
    }
}

/// Asserts that the lines before the refused one are right and the refused one isn't.
fn assert_first_wrong_line(text: &[u8], refusal: Refusal) {
    let place = refusal.place as usize;
    let lines: Vec<&[u8]> = text.split_inclusive(|&byte| byte == b'\n').collect();
    assert!((1..=lines.len() + 1).contains(&place), "{refusal:?}");
    let before = lines[..place - 1].concat();
    match read(&before) {
        Ok(_) => assert_eq!(refusal.number, 1, "bytes after the last line"),
        Err(early) => assert_eq!((early.number, early.place), (1, refusal.place)),
    }
    let with_it = lines[..place.min(lines.len())].concat();
    assert_eq!(read(&with_it), Err(refusal));
}

#[test]
fn the_check_agrees_with_its_definitions() {
    let mut random = Random(5);
    let mut cycles = 0;
    for _ in 0..TABLES {
        let mut table = random.table();
        table.sections.clear();
        let expected = literal_check(&table);
        cycles += u32::from(expected.is_err_and(|refusal| refusal.number == 9));
        assert_eq!(check(&table).map(|_| ()), expected, "{table:?}");
        if let Ok(plan) = check(&table) {
            let times = modified_times(&table).into_iter();
            let flat = times.flat_map(|(r, d)| [r as u32, d as u32]);
            assert_eq!(plan.times, flat.collect::<Vec<u32>>());
        }
    }
    assert!(cycles > TABLES / 100, "{cycles}");
}

/// Gives refusal 9 or 10 of a table without sections, by their words.
fn literal_check(table: &Table) -> Result<(), Refusal> {
    let jobs = 0..table.jobs.len() / 3;
    let refuse = |number, job: Option<usize>| match job {
        Some(job) => Err(Refusal::new(number, job)),
        None => Ok(()),
    };
    let mut on_cycle = jobs.clone().filter(|&job| ancestors(table, job)[job]);
    refuse(9, on_cycle.next())?;
    let times = modified_times(table);
    jobs.clone()
        .for_each(|job| assert_times(table, &times, job));
    let window = |job: usize| times[job].1 - times[job].0;
    let mut short = jobs.filter(|&job| window(job) < i64::from(table.jobs[3 * job + 1]));
    refuse(10, short.next())
}

/// Asserts that the times of a job are what the rules say of its neighbours' times.
fn assert_times(table: &Table, times: &[(i64, i64)], job: usize) {
    let mut release = i64::from(table.jobs[3 * job]);
    let mut deadline = i64::from(table.jobs[3 * job + 2]);
    for arc in table.arcs.chunks(2) {
        let (before, after) = (arc[0] as usize, arc[1] as usize);
        if after == job {
            release = release.max(times[before].0);
        }
        if before == job {
            deadline = deadline.min(times[after].1 - i64::from(table.jobs[3 * after + 1]));
        }
    }
    assert_eq!(times[job], (release, deadline), "{table:?}");
}

/// Gives a plan and a state within the bounds of a step, odd ones too.
fn odd_plan_and_state(random: &mut Random) -> (Plan, State) {
    let mut table = random.table();
    let jobs = table.jobs.len() / 3;
    for value in &mut table.arcs {
        *value = random.below(jobs as u32);
    }
    let mut times = Vec::new();
    let mut state = State {
        tick: random.below(12),
        ..State::default()
    };
    for job in 0..jobs {
        let cost = table.jobs[3 * job + 1];
        let release = random.below(8);
        times.extend([release, release + cost + random.below(12)]);
        state.executed.push(random.below(cost + 1));
        state.marks.push(random.below(3));
        state.finish.push(random.below(9));
    }
    (Plan { table, times }, state)
}

/// Gives the job that the rules of one tick name, word by word.
fn literal_pick(plan: &Plan, state: &State) -> Option<usize> {
    let jobs = 0..state.executed.len();
    let relative = |job: usize| plan.times[2 * job + 1] - plan.times[2 * job];
    let cost = |job: usize| plan.table.jobs[3 * job + 1];
    let is_pending =
        |job: usize| plan.times[2 * job] <= state.tick && state.executed[job] < cost(job);
    let key = |job: &usize| (plan.times[2 * job + 1], plan.times[2 * job], *job);
    let first = jobs
        .clone()
        .filter(|&job| is_pending(job))
        .min_by_key(key)?;
    if state.executed[first] >= 1 {
        return Some(first);
    }
    let sections = || plan.table.sections.chunks(4);
    let passes = sections().all(|held| {
        let job = held[0] as usize;
        let holds = held[2] < state.executed[job] && state.executed[job] < held[3];
        let users = sections().filter(|section| section[1] == held[1]);
        let ceiling = users
            .map(|section| relative(section[0] as usize))
            .min()
            .unwrap();
        !(holds && is_pending(job)) || relative(first) < ceiling
    });
    if passes {
        return Some(first);
    }
    let started = jobs.filter(|&job| is_pending(job) && state.executed[job] >= 1);
    started.min_by_key(key)
}

/// Gives the step after this state by the words of the rules, and whether it finishes a job.
fn literal_step(plan: &Plan, state: &State, silent: bool) -> (Step, bool) {
    let mut after = state.clone();
    after.tick += 1;
    let ran = literal_pick(plan, state);
    let mut finishes = false;
    if let Some(job) = ran {
        after.executed[job] += 1;
        finishes = after.executed[job] == plan.table.jobs[3 * job + 1];
        if finishes {
            let arcs = plan.table.arcs.chunks(2);
            let mut before = arcs.filter(|arc| arc[1] as usize == job);
            let inherited = before.any(|arc| state.marks[arc[0] as usize] == 2);
            after.marks[job] = if silent || inherited { 2 } else { 1 };
            after.finish[job] = after.tick;
        }
    }
    (Step { state: after, ran }, finishes)
}

#[test]
fn steps_are_literal_on_odd_plans_and_states() {
    let mut random = Random(6);
    let (mut finished, mut refused) = (0, 0);
    for _ in 0..TABLES {
        let (plan, state) = odd_plan_and_state(&mut random);
        let silent = random.percent(50);
        let costs: Vec<u32> = plan.table.jobs.chunks(3).map(|job| job[1]).collect();
        let step = step(&plan, &state, silent);
        if state.executed == costs {
            refused += 1;
            assert_eq!(step, Err(Refusal::new(13, 0)));
        } else {
            let (expected, finishes) = literal_step(&plan, &state, silent);
            finished += u32::from(finishes);
            assert_eq!(step, Ok(expected), "{plan:?} {state:?}");
        }
    }
    assert!(finished > TABLES / 10, "{finished}");
    assert!(refused > TABLES / 200, "{refused}");
}

#[test]
fn density_agrees_with_fractions() {
    let mut random = Random(7);
    let mut answers = [0, 0];
    for _ in 0..TABLES {
        let (plan, _) = odd_plan_and_state(&mut random);
        let expected = literal_density(&plan);
        let answer = density(&plan).unwrap();
        assert_eq!(
            (answer.yes, answer.place),
            (expected == 0, expected),
            "{plan:?}"
        );
        answers[usize::from(answer.yes)] += 1;
    }
    assert!(
        answers.iter().all(|&count| count > TABLES / 10),
        "{answers:?}"
    );
}

/// Gives the lowest failing place, 0 if none, over the product of all relative deadlines.
fn literal_density(plan: &Plan) -> u32 {
    let pairs = plan.times.chunks(2);
    let relative: Vec<u128> = pairs.map(|pair| (pair[1] - pair[0]).into()).collect();
    let relative = &relative;
    let product: u128 = relative.iter().product();
    let jobs = 0..relative.len();
    let up_to = |job: usize| {
        let places = jobs.clone();
        places.filter(move |&other| (relative[other], other) <= (relative[job], job))
    };
    let fails = |job: &usize| {
        let cost = |job: usize| u128::from(plan.table.jobs[3 * job + 1]);
        let shares = up_to(*job).map(|first| cost(first) * product / relative[first]);
        let b = literal_b(plan, relative, relative[*job]);
        shares.sum::<u128>() + u128::from(b) * product / relative[*job] > product
    };
    let failing = jobs.clone().filter(fails);
    failing
        .map(|job| up_to(job).count() as u32)
        .min()
        .unwrap_or(0)
}

/// Gives the b of a place with this relative deadline.
fn literal_b(plan: &Plan, relative: &[u128], of_place: u128) -> u32 {
    let sections = || plan.table.sections.chunks(4);
    let blocking = sections().filter(|section| {
        let mut users = sections().filter(|user| user[1] == section[1]);
        let reaches = users.any(|user| relative[user[0] as usize] <= of_place);
        relative[section[0] as usize] > of_place && reaches
    });
    let lengths = blocking.map(|section| section[3] - section[2]);
    lengths.max().unwrap_or(0)
}
