//! The faults that a text can be refused for, 1 to 10, each put into a right table or text at a
//! place drawn at random.

use crate::random::Random;
use crate::rows::Rows;
use crate::table::{LARGEST_COST, LARGEST_INSTANT, MOST_ARCS, MOST_JOBS, MOST_SECTIONS, RESOURCES};
use crate::times::modified_times;

/// More bytes than a program's buffer has.
pub const LONG: usize = 70_000;

/// Most arcs of a cycle that is put in.
const LONGEST_CYCLE: u32 = 6;

/// Lines that break the rules of the text where `K=V` is right, with key and value put in.
const WRONG_LINES: [&str; 36] = [
    "K=V\r\n",
    "K=V\r",
    "K=V",
    "\rK=V\n",
    "K=0V\n",
    "K=00\n",
    "K=4294967296\n",
    "K=42949672950\n",
    "K=18446744073709551616\n",
    "K=V99999999999\n",
    "K= V\n",
    "K =V\n",
    " K=V\n",
    "K=V \n",
    "K=\tV\n",
    "K=+V\n",
    "K=-V\n",
    "K=-0\n",
    "K=V.0\n",
    "K=Ve0\n",
    "K=0xV\n",
    "K=V_0\n",
    "K=\n",
    "K\n",
    "KV\n",
    "K:V\n",
    "K==V\n",
    "=V\n",
    "\n",
    "\nK=V\n",
    "Ks=V\n",
    "xK=V\n",
    "K=V\0\n",
    "\u{feff}K=V\n",
    "K=\u{ff11}\n",
    "",
];

/// Makes room for the records of two faults.
pub fn make_room(rows: &mut Rows) {
    rows.arcs.truncate(MOST_ARCS - 2 * LONGEST_CYCLE as usize);
    rows.sections.truncate(MOST_SECTIONS - 4);
}

/// Puts a fault of this number, 5 to 10, into a table.
///
/// Fault 10 asks for a table that passes 2 to 9; the others for one that passes 2 to 4.
pub fn put_in_rows(random: &mut Random, rows: &mut Rows, number: u32) {
    match number {
        5 => job_out_of_bounds(random, rows),
        6 => unknown_job_in_arc(random, rows),
        7 => section_out_of_bounds(random, rows),
        8 => clash(random, rows),
        9 => cycle(random, rows),
        _ => short_window(random, rows),
    }
}

/// Puts a fault of this number, 1 to 4, into the lines of these rows.
pub fn put_in_text(random: &mut Random, rows: &Rows, text: &mut Vec<u8>, number: u32) {
    let arcs_line = 1 + 3 * rows.jobs.len();
    let sections_line = arcs_line + 1 + 2 * rows.arcs.len();
    let (line, key, most) = match number {
        2 => (0, "jobs", MOST_JOBS),
        3 => (arcs_line, "arcs", MOST_ARCS),
        4 => (sections_line, "sections", MOST_SECTIONS),
        _ => return break_the_rules(random, text),
    };
    let least = if number == 2 { 0 } else { most as u32 + 1 };
    let count = random.one_of(&[least, most as u32 + 1, most as u32 + 2, 1_000, u32::MAX]);
    let mut lines = lines(text);
    lines[line] = format!("{key}={count}\n").into_bytes();
    *text = lines.concat();
}

/// Puts a record at any place of a list.
fn put<const N: usize>(random: &mut Random, list: &mut Vec<[u32; N]>, record: [u32; N]) {
    list.insert(random.place(list.len() + 1), record);
}

/// Gives a job of the table.
fn any_job(random: &mut Random, rows: &Rows) -> usize {
    random.place(rows.jobs.len())
}

/// Takes a release, cost or deadline out of its bounds.
fn job_out_of_bounds(random: &mut Random, rows: &mut Rows) {
    let job = any_job(random, rows);
    let late = random.one_of(&[LARGEST_INSTANT + 1, 1 << 20, 1 << 31, u32::MAX]);
    let field = random.below(3) as usize;
    rows.jobs[job][field] = match field {
        1 => random.one_of(&[0, LARGEST_COST + 1, LARGEST_INSTANT, u32::MAX]),
        _ => late,
    };
}

/// Puts in an arc that names a job not in the table.
fn unknown_job_in_arc(random: &mut Random, rows: &mut Rows) {
    let jobs = rows.job_count();
    let unknown = random.one_of(&[jobs, jobs + 1, 64.max(jobs), u32::MAX]);
    let known = random.below(jobs);
    let arc = random.one_of(&[[unknown, known], [known, unknown], [unknown, unknown]]);
    put(random, &mut rows.arcs, arc);
}

/// Puts in a section with a wrong job, resource or range.
fn section_out_of_bounds(random: &mut Random, rows: &mut Rows) {
    let job = any_job(random, rows);
    let cost = rows.jobs[job][1];
    let from = random.below(cost);
    let (jobs, job) = (rows.job_count(), job as u32);
    let section = match random.below(9) {
        0 => [jobs, 0, 0, 1],
        1 => [u32::MAX, 0, 0, 1],
        2 => [job, RESOURCES as u32, from, cost],
        3 => [job, u32::MAX, from, cost],
        4 => [job, 1, from, from],
        5 => [job, 2, cost, from],
        6 => [job, 3, from, cost + 1],
        7 => [job, 4, from, u32::MAX],
        _ => [job, 5, u32::MAX, cost],
    };
    put(random, &mut rows.sections, section);
}

/// Puts in two sections of a job that cross, or overlap on one resource.
fn clash(random: &mut Random, rows: &mut Rows) {
    let job = any_job(random, rows);
    let cost = rows.jobs[job][1];
    let bus = random.below(RESOURCES as u32);
    let from = random.below(cost);
    let to = from + 1 + random.below(cost - from);
    let (one, other) = match random.below(3) {
        0 if cost >= 3 => {
            let middle = 1 + random.below(cost - 2);
            let other_bus = random.one_of(&[bus, 15 - bus]);
            ([bus, 0, middle + 1], [other_bus, middle, cost])
        }
        1 => ([bus, 0, cost], [bus, from, to]),
        _ => ([bus, from, to], [bus, from, to]),
    };
    let mut pair = [one, other];
    random.shuffle(&mut pair);
    for [bus, from, to] in pair {
        put(random, &mut rows.sections, [job as u32, bus, from, to]);
    }
}

/// Puts in the arcs of a cycle, a self-arc too.
fn cycle(random: &mut Random, rows: &mut Rows) {
    let jobs = rows.job_count();
    let mut ring = random.order(jobs);
    let longest = 1 + random.below(LONGEST_CYCLE.min(jobs));
    ring.truncate(1 + random.below(longest) as usize);
    for (place, &before) in ring.iter().enumerate() {
        let after = ring[(place + 1) % ring.len()];
        put(random, &mut rows.arcs, [before, after]);
    }
}

/// Leaves a job too little time: by its own deadline, or by the deadline of a direct successor.
fn short_window(random: &mut Random, rows: &mut Rows) {
    let releases = modified_times(&rows.table());
    let end = |job: usize| releases[job].0 as u32 + rows.jobs[job][1];
    let job = any_job(random, rows);
    let mut of_one_arc = None;
    if !rows.arcs.is_empty() && random.percent(60) {
        let [before, after] = random.one_of(&rows.arcs).map(|job| job as usize);
        of_one_arc = Some((after, end(before) + rows.jobs[after][1]));
    }
    let (short, needed) = of_one_arc.unwrap_or((job, end(job)));
    rows.jobs[short][2] = random.one_of(&[needed - 1, needed - 1, needed / 2, 0]);
}

/// Gives the lines of a text, each with its LF.
fn lines(text: &[u8]) -> Vec<Vec<u8>> {
    let lines = text.split_inclusive(|&byte| byte == b'\n');
    lines.map(<[u8]>::to_vec).collect()
}

/// Breaks the rules of the text in one place, of any line or of the whole.
fn break_the_rules(random: &mut Random, text: &mut Vec<u8>) {
    let at = random.place(text.len());
    match random.below(16) {
        0 => text.truncate(at),
        1 => drop(text.pop()),
        2 | 3 => {
            let more = ["\n", "x", "job=0\n", "sections=0\n", "\0", "\r\n"];
            text.extend_from_slice(random.one_of(&more).as_bytes());
        }
        4 => *text = text.repeat(2),
        5 | 6 => lengthen(random, text),
        7 => change_lines(random, text, |lines, line| {
            let other = if line == 0 { 1 } else { line - 1 };
            lines.swap(line, other);
        }),
        8 => change_lines(random, text, |lines, line| {
            lines.insert(line, lines[line].clone())
        }),
        _ => {
            let wrong = random.one_of(&WRONG_LINES);
            change_lines(random, text, |lines, line| {
                let right = String::from_utf8_lossy(&lines[line]).into_owned();
                let (key, value) = right.trim_end().split_once('=').unwrap_or_default();
                let line_of = wrong.replace('K', key).replace('V', value);
                lines[line] = line_of.into_bytes();
            });
        }
    }
}

/// Changes a text at one of its lines; one that is cut down to its first line stays.
fn change_lines(
    random: &mut Random,
    text: &mut Vec<u8>,
    change: impl FnOnce(&mut Vec<Vec<u8>>, usize),
) {
    let mut lines = lines(text);
    let line = random.place(lines.len());
    if lines.len() > 1 {
        change(&mut lines, line);
    }
    *text = lines.concat();
}

/// Puts one byte into a text so often that no buffer holds it.
pub(crate) fn lengthen(random: &mut Random, text: &mut Vec<u8>) {
    let byte = random.one_of(b"09\n= \0\xff");
    let at = random.place(text.len() + 1);
    let rest = text.split_off(at);
    text.resize(at + LONG, byte);
    text.extend(rest);
}
