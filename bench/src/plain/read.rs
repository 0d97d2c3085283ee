//! Reads a table's text, once: into lists of its own, which are handed on when all of it is right.

use super::{refuse, Judged};
use fuzz::abi::LentLists;

/// One of the three parts of a text: its count's key, its rows' keys, the counts that are right and
/// the refusal of a wrong one.
struct Part {
    head: &'static [u8],
    keys: &'static [&'static [u8]],
    counts: std::ops::RangeInclusive<u32>,
    refusal: u32,
}

const JOBS: Part = Part {
    head: b"jobs=",
    keys: &[b"release=", b"cost=", b"deadline="],
    counts: 1..=64,
    refusal: 2,
};

const ARCS: Part = Part {
    head: b"arcs=",
    keys: &[b"before=", b"after="],
    counts: 0..=256,
    refusal: 3,
};

const SECTIONS: Part = Part {
    head: b"sections=",
    keys: &[b"job=", b"resource=", b"from=", b"to="],
    counts: 0..=128,
    refusal: 4,
};

/// What is still to be read, and the number of its first line.
struct Lines<'a> {
    rest: &'a [u8],
    line: usize,
}

impl Lines<'_> {
    /// Takes the line of this key and gives its value, or refuses with 1.
    fn value(&mut self, key: &[u8]) -> Judged<u32> {
        let Some((value, rest)) = value_of_line(self.rest, key) else {
            return refuse(1, self.line);
        };
        self.rest = rest;
        self.line += 1;
        Ok(value)
    }

    /// Takes a part and hands each value with its place to `put`; gives the number of rows.
    fn part(&mut self, part: &Part, mut put: impl FnMut(usize, u32)) -> Judged<u32> {
        let line = self.line;
        let count = self.value(part.head)?;
        if !part.counts.contains(&count) {
            return refuse(part.refusal, line);
        }
        let mut place = 0;
        for _ in 0..count {
            for key in part.keys {
                put(place, self.value(key)?);
                place += 1;
            }
        }
        Ok(count)
    }

    /// Refuses with 1 where anything is left.
    fn end(&self) -> Judged<()> {
        match self.rest {
            [] => Ok(()),
            _ => refuse(1, self.line),
        }
    }
}

/// Gives the value of the line of this key that the text starts with, and what comes after it.
fn value_of_line<'a>(text: &'a [u8], key: &[u8]) -> Option<(u32, &'a [u8])> {
    let digits = text.strip_prefix(key)?;
    let mut value: u32 = 0;
    for (place, &byte) in digits.iter().enumerate() {
        match byte {
            b'0'..=b'9' if place == 0 || value > 0 => {
                let digit = u32::from(byte - b'0');
                value = value.checked_mul(10)?.checked_add(digit)?;
            }
            b'\n' if place > 0 => return Some((value, &digits[place + 1..])),
            _ => return None,
        }
    }
    None
}

/// Reads a text into the fronts of the lent lists; gives the number of jobs, arcs and sections.
pub fn read(text: &[u8], lent: LentLists) -> Judged<[u32; 3]> {
    let mut jobs = [0; 3 * 64];
    let mut arcs = [0; 2 * 256];
    let mut sections = [0; 4 * 128];
    let mut lines = Lines {
        rest: text,
        line: 1,
    };
    let counts = [
        lines.part(&JOBS, |place, value| jobs[place] = value)?,
        lines.part(&ARCS, |place, value| arcs[place] = value)?,
        lines.part(&SECTIONS, |place, value| sections[place] = value)?,
    ];
    lines.end()?;
    let values = [
        &jobs[..3 * counts[0] as usize],
        &arcs[..2 * counts[1] as usize],
        &sections[..4 * counts[2] as usize],
    ];
    hand_on(values, lent)?;
    Ok(counts)
}

/// Reads a text in two passes, the first of which only judges; gives what [`read`] gives.
pub fn read_twice(text: &[u8], lent: LentLists) -> Judged<[u32; 3]> {
    let mut lines = Lines {
        rest: text,
        line: 1,
    };
    let counts = [
        lines.part(&JOBS, |_, _| ())?,
        lines.part(&ARCS, |_, _| ())?,
        lines.part(&SECTIONS, |_, _| ())?,
    ];
    lines.end()?;
    let [jobs, arcs, sections] = lent;
    let [j, a, s] = counts.map(|count| count as usize);
    if jobs.len() < 3 * j || arcs.len() < 2 * a || sections.len() < 4 * s {
        return refuse(11, 0);
    }
    let mut lines = Lines {
        rest: text,
        line: 1,
    };
    lines.part(&JOBS, |place, value| jobs[place] = value)?;
    lines.part(&ARCS, |place, value| arcs[place] = value)?;
    lines.part(&SECTIONS, |place, value| sections[place] = value)?;
    Ok(counts)
}

/// Copies lists to the fronts of lent ones, or refuses with 11 and copies none.
fn hand_on(values: [&[u32]; 3], lent: LentLists) -> Judged<()> {
    let mut both = values.iter().zip(&lent);
    if both.any(|(values, lent)| lent.len() < values.len()) {
        return refuse(11, 0);
    }
    for (values, lent) in values.iter().zip(lent) {
        lent[..values.len()].copy_from_slice(values);
    }
    Ok(())
}
