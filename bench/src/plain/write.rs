//! Writes a table's text: its length first, then its bytes.

use super::check::judge_counts;
use super::{refuse, Judged};
use fuzz::abi::TableLists;

/// Bytes lent to a writer, and how many of them are written.
pub struct Page<'a> {
    bytes: &'a mut [u8],
    written: usize,
}

impl Page<'_> {
    /// Starts at the front of these bytes.
    pub fn of(bytes: &mut [u8]) -> Page<'_> {
        Page { bytes, written: 0 }
    }

    /// Gives how many bytes are written.
    pub fn written(&self) -> usize {
        self.written
    }

    /// Writes these bytes behind the others.
    pub fn put(&mut self, bytes: &[u8]) {
        let end = self.written + bytes.len();
        self.bytes[self.written..end].copy_from_slice(bytes);
        self.written = end;
    }

    /// Writes the digits of a number.
    pub fn put_number(&mut self, number: u32) {
        let mut digits = [0; 10];
        let mut first = digits.len();
        let mut rest = number;
        loop {
            first -= 1;
            digits[first] = b'0' + (rest % 10) as u8;
            rest /= 10;
            if rest == 0 {
                break;
            }
        }
        self.put(&digits[first..]);
    }

    /// Writes the line of a key and a number.
    pub fn put_line(&mut self, key: &[u8], number: u32) {
        self.put(key);
        self.put_number(number);
        self.put(b"\n");
    }
}

/// Gives how many bytes the line of a key and a number has.
fn line_length(key: &[u8], number: u32) -> usize {
    key.len() + number.checked_ilog10().unwrap_or(0) as usize + 2
}

/// The keys of the rows of the three parts, behind their counts' keys.
const KEYS: [(&[u8], &[&[u8]]); 3] = [
    (b"jobs=", &[b"release=", b"cost=", b"deadline="]),
    (b"arcs=", &[b"before=", b"after="]),
    (b"sections=", &[b"job=", b"resource=", b"from=", b"to="]),
];

/// Hands each line of a table's text to `each`, as its key and number.
fn each_line(table: TableLists, mut each: impl FnMut(&[u8], u32)) {
    let lists = [table.jobs, table.arcs, table.sections];
    for ((head, keys), list) in KEYS.into_iter().zip(lists) {
        each(head, (list.len() / keys.len()) as u32);
        for row in list.chunks_exact(keys.len()) {
            for (key, &number) in keys.iter().zip(row) {
                each(key, number);
            }
        }
    }
}

/// Writes the text of a table to the front of `out`; gives how many bytes it has.
pub fn write(table: TableLists, out: &mut [u8]) -> Judged<usize> {
    judge_counts(table)?;
    let mut needed = 0;
    each_line(table, |key, number| needed += line_length(key, number));
    if out.len() < needed {
        return refuse(11, 0);
    }
    let mut page = Page::of(out);
    each_line(table, |key, number| page.put_line(key, number));
    Ok(needed)
}
