//! What the program prints.

use crate::check::check_with;
use crate::density::density_with;
use crate::dispatch::{lateness_with, run_with_slip};
use crate::reader::read_with;
use crate::refusal::Refusal;
use crate::slip::Slip;
use crate::table::{MARK_FRESH, MARK_STALE};

/// Gives what the program prints for this text: the run of its table, or a refusal.
pub fn answer(text: &[u8]) -> Vec<u8> {
    answer_with(text, Slip::None)
}

/// Gives what the program prints for this text, with a slip.
pub fn answer_with(text: &[u8], slip: Slip) -> Vec<u8> {
    printed(run_lines(text, slip))
}

/// Gives what the program prints of the density test of this text, or a refusal.
pub fn density_answer(text: &[u8]) -> Vec<u8> {
    density_answer_with(text, Slip::None)
}

/// Gives what the program prints of the density test, with a slip.
pub fn density_answer_with(text: &[u8], slip: Slip) -> Vec<u8> {
    printed(density_lines(text, slip))
}

/// Gives the lines of a run to the end with every report answered.
fn run_lines(text: &[u8], slip: Slip) -> Result<Vec<String>, Refusal> {
    let plan = check_with(&read_with(text, slip)?, slip)?;
    let end = run_with_slip(&plan, &[], slip)?;
    let mut lines = vec![format!("jobs={}", plan.table.job_count())];
    for job in 0..plan.table.job_count() {
        let lateness = lateness_with(&plan, &end, job, slip)?;
        let lateness = lateness.map_or("none".to_string(), |ticks| ticks.to_string());
        lines.extend([
            format!("release={}", plan.release(job)),
            format!("deadline={}", plan.deadline(job)),
            format!("finish={}", end.finish[job]),
            format!("lateness={lateness}"),
            format!("mark={}", name_of_mark(end.marks[job])),
        ]);
    }
    lines.push(format!("ticks={}", end.tick));
    Ok(lines)
}

/// Gives the lines of a density test.
fn density_lines(text: &[u8], slip: Slip) -> Result<Vec<String>, Refusal> {
    let plan = check_with(&read_with(text, slip)?, slip)?;
    let density = density_with(&plan, slip)?;
    Ok(match density.yes {
        true => vec!["density=yes".to_string()],
        false => vec!["density=no".to_string(), format!("place={}", density.place)],
    })
}

/// Names a mark; only a slip leaves one out.
fn name_of_mark(mark: u32) -> &'static str {
    match mark {
        MARK_FRESH => "fresh",
        MARK_STALE => "stale",
        _ => "none",
    }
}

/// Gives the bytes of these lines or of the refusal.
fn printed(lines: Result<Vec<String>, Refusal>) -> Vec<u8> {
    let lines = lines.unwrap_or_else(|refusal| {
        vec![
            format!("refusal={}", refusal.number),
            format!("place={}", refusal.place),
        ]
    });
    let ended = lines.into_iter().map(|line| line + "\n");
    ended.collect::<String>().into_bytes()
}
