//! Writing a table's text.

use crate::check::counts;
use crate::reader::{ARC_KEYS, JOB_KEYS, SECTION_KEYS};
use crate::refusal::{refuse_short_room, Refusal};
use crate::table::Table;

/// Writes a table's text; values other than the counts are not judged.
pub fn write(table: &Table) -> Result<Vec<u8>, Refusal> {
    counts(table)?;
    Ok(written(table))
}

/// Gives the lines of a table whatever its counts, for texts that are to be refused too.
pub(crate) fn written(table: &Table) -> Vec<u8> {
    let mut text = String::new();
    write_list(&mut text, "jobs", &JOB_KEYS, &table.jobs);
    write_list(&mut text, "arcs", &ARC_KEYS, &table.arcs);
    write_list(&mut text, "sections", &SECTION_KEYS, &table.sections);
    text.into_bytes()
}

/// Writes a table's text into a lent list of this length.
pub fn write_into(table: &Table, room: usize) -> Result<Vec<u8>, Refusal> {
    let text = write(table)?;
    refuse_short_room(&[(room, text.len())])?;
    Ok(text)
}

/// Appends the count of a list and its records.
fn write_list(text: &mut String, name: &str, keys: &[&str], list: &[u32]) {
    text.push_str(&format!("{name}={}\n", list.len() / keys.len()));
    for (key, value) in keys.iter().cycle().zip(list) {
        text.push_str(&format!("{key}={value}\n"));
    }
}
