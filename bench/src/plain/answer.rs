//! The whole program: a table's text in, the lines of its run out.

use super::read::read;
use super::run::run_by_events;
use super::times::plan;
use super::write::Page;
use super::{refuse, Judged, Refused, MOST_JOBS};
use fuzz::abi::{PlanLists, TableLists};

/// Most bytes that an answer has.
const MOST_BYTES: usize = 5_729;

/// Prints what the program says of a text to the front of `out`; gives how many bytes.
pub fn answer(text: &[u8], out: &mut [u8]) -> Judged<usize> {
    let mut bytes = [0; MOST_BYTES];
    let mut page = Page::of(&mut bytes);
    if let Err(refused) = print_text(text, &mut page) {
        print_refusal(refused, &mut page);
    }
    let written = page.written();
    if out.len() < written {
        return refuse(11, 0);
    }
    out[..written].copy_from_slice(&bytes[..written]);
    Ok(written)
}

/// Prints a refusal.
fn print_refusal(refused: Refused, page: &mut Page) {
    page.put_line(b"refusal=", refused.number);
    page.put_line(b"place=", refused.place);
}

/// Reads, plans and runs a table, and prints its end; prints nothing where it refuses.
fn print_text(text: &[u8], page: &mut Page) -> Judged<()> {
    let (mut jobs, mut arcs, mut sections) = ([0; 192], [0; 512], [0; 512]);
    let counts = read(text, [&mut jobs, &mut arcs, &mut sections])?;
    let [j, a, s] = counts.map(|count| count as usize);
    let table = TableLists {
        jobs: &jobs[..3 * j],
        arcs: &arcs[..2 * a],
        sections: &sections[..4 * s],
    };
    let mut times = [0; 2 * MOST_JOBS];
    plan(table, &mut times)?;
    let times = &times[..2 * j];
    let mut state = [[0; MOST_JOBS]; 3];
    let lent = state.each_mut().map(|list| &mut list[..j]);
    let (tick, _) = run_by_events(PlanLists { table, times }, lent)?;
    let [_, marks, finish] = &state;
    page.put_line(b"jobs=", counts[0]);
    for (job, row) in table.jobs.chunks_exact(3).enumerate() {
        page.put_line(b"release=", times[2 * job]);
        page.put_line(b"deadline=", times[2 * job + 1]);
        page.put_line(b"finish=", finish[job]);
        put_lateness(finish[job], row[2], page);
        put_mark(marks[job], page);
    }
    page.put_line(b"ticks=", tick);
    Ok(())
}

/// Prints how late a job ended.
fn put_lateness(finish: u32, deadline: u32, page: &mut Page) {
    match finish < deadline {
        true => page.put_line(b"lateness=-", deadline - finish),
        false => page.put_line(b"lateness=", finish - deadline),
    }
}

/// Prints the mark of a job.
fn put_mark(mark: u32, page: &mut Page) {
    match mark {
        2 => page.put(b"mark=stale\n"),
        _ => page.put(b"mark=fresh\n"),
    }
}
