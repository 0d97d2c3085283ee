//! Reading a table's text.
//!
//! The text is cut into lines first; the keys that the places demand come from iterators.

use crate::refusal::{refuse_short_room, Refusal};
use crate::slip::Slip;
use crate::table::{Table, MOST_ARCS, MOST_JOBS, MOST_SECTIONS};
use std::ops::RangeInclusive;

/// The keys of a job.
pub(crate) const JOB_KEYS: [&str; 3] = ["release", "cost", "deadline"];
/// The keys of an arc.
pub(crate) const ARC_KEYS: [&str; 2] = ["before", "after"];
/// The keys of a section.
pub(crate) const SECTION_KEYS: [&str; 4] = ["job", "resource", "from", "to"];

/// Reads a table from its text.
pub fn read(text: &[u8]) -> Result<Table, Refusal> {
    read_with(text, Slip::None)
}

/// Reads a table into lent lists of these lengths.
pub fn read_into(
    text: &[u8],
    jobs_room: usize,
    arcs_room: usize,
    sections_room: usize,
) -> Result<Table, Refusal> {
    let table = read(text)?;
    refuse_short_room(&[
        (jobs_room, table.jobs.len()),
        (arcs_room, table.arcs.len()),
        (sections_room, table.sections.len()),
    ])?;
    Ok(table)
}

/// Reads a table from its text, with a slip.
pub fn read_with(text: &[u8], slip: Slip) -> Result<Table, Refusal> {
    let mut reader = Reader {
        rest: Box::new(text.split_inclusive(|&byte| byte == b'\n')),
        number: 0,
        slip,
    };
    let count = reader.count("jobs", 1..=MOST_JOBS, 2)?;
    let jobs = reader.records(&JOB_KEYS, count)?;
    let count = reader.count("arcs", 0..=MOST_ARCS, 3)?;
    let arcs = reader.records(&ARC_KEYS, count)?;
    let count = reader.count("sections", 0..=MOST_SECTIONS, 4)?;
    let sections = reader.records(&SECTION_KEYS, count)?;
    reader.end()?;
    Ok(Table {
        jobs,
        arcs,
        sections,
    })
}

/// The lines not read yet, and the number of the last one read.
struct Reader<'a> {
    rest: Box<dyn Iterator<Item = &'a [u8]> + 'a>,
    number: usize,
    slip: Slip,
}

impl Reader<'_> {
    /// Reads one line of this key and gives its number.
    fn value(&mut self, key: &str) -> Result<u32, Refusal> {
        self.number += 1;
        let line = self.rest.next().unwrap_or_default();
        let value = value_of_line(line, key, self.slip);
        value.ok_or(Refusal::new(1, self.number))
    }

    /// Reads a count, refused with this number unless it is one of these.
    fn count(
        &mut self,
        key: &str,
        allowed: RangeInclusive<usize>,
        refusal: u32,
    ) -> Result<usize, Refusal> {
        let count = self.value(key)? as usize;
        if !allowed.contains(&count) {
            return Err(Refusal::new(refusal, self.number));
        }
        Ok(count)
    }

    /// Reads this many records of these keys.
    fn records(&mut self, keys: &[&str], count: usize) -> Result<Vec<u32>, Refusal> {
        let demanded = keys.iter().cycle().take(keys.len() * count);
        demanded.map(|key| self.value(key)).collect()
    }

    /// Refuses the line after the last demanded one.
    fn end(&mut self) -> Result<(), Refusal> {
        match self.rest.next() {
            Some(_) => Err(Refusal::new(1, self.number + 1)),
            None => Ok(()),
        }
    }
}

/// Gives the number of a line that has this key and is ended by LF.
fn value_of_line(line: &[u8], key: &str, slip: Slip) -> Option<u32> {
    let line = std::str::from_utf8(line).ok()?;
    let (found, digits) = line.strip_suffix('\n')?.split_once('=')?;
    if found != key {
        return None;
    }
    let number: i128 = digits.parse().ok()?;
    let right = match slip {
        Slip::LeadingZeroAccepted => digits.bytes().all(|byte| byte.is_ascii_digit()),
        _ => number.to_string() == digits,
    };
    u32::try_from(number).ok().filter(|_| right)
}
