//! Lists with known cells before and behind them, so that it shows when anything is written there.

use second::random::Random;

/// Cells on each side of a list.
pub const GUARDS: usize = 4;

/// A list between guard cells.
#[derive(Clone, Debug, PartialEq, Eq)]
pub struct Guarded<T> {
    cells: Vec<T>,
}

/// A cell of a list.
pub trait Cell: Copy + PartialEq + std::fmt::Debug {
    /// Draws what a cell holds: small or like a text, so that reading on would go unnoticed by
    /// tests of bounds, or anything.
    fn draw(random: &mut Random) -> Self;
}

impl Cell for u32 {
    fn draw(random: &mut Random) -> u32 {
        match random.percent(50) {
            true => random.below(4),
            false => random.word() as u32,
        }
    }
}

impl Cell for u8 {
    fn draw(random: &mut Random) -> u8 {
        match random.percent(80) {
            true => random.one_of(b"0123456789=\n"),
            false => random.word() as u8,
        }
    }
}

impl<T: Cell> Guarded<T> {
    /// Puts guards around a copy of this list.
    pub fn of(random: &mut Random, list: &[T]) -> Guarded<T> {
        let mut cells = Vec::with_capacity(list.len() + 2 * GUARDS);
        cells.extend((0..GUARDS).map(|_| T::draw(random)));
        cells.extend_from_slice(list);
        cells.extend((0..GUARDS).map(|_| T::draw(random)));
        Guarded { cells }
    }

    /// Makes a list of this length that holds anything.
    pub fn drawn(random: &mut Random, length: usize) -> Guarded<T> {
        let cells = length + 2 * GUARDS;
        Guarded {
            cells: (0..cells).map(|_| T::draw(random)).collect(),
        }
    }

    /// Gives the list without its guards.
    pub fn list(&self) -> &[T] {
        &self.cells[GUARDS..self.cells.len() - GUARDS]
    }

    /// Lends the list without its guards.
    pub fn lend(&mut self) -> &mut [T] {
        let end = self.cells.len() - GUARDS;
        &mut self.cells[GUARDS..end]
    }

    /// Writes the front of the list, as a success does.
    pub fn write_front(&mut self, front: &[T]) {
        self.lend()[..front.len()].copy_from_slice(front);
    }

    /// Says where this differs first from what was expected, with a front of this length.
    pub fn difference(&self, expected: &Guarded<T>, front: usize) -> Option<String> {
        let mut cells = self.cells.iter().zip(&expected.cells);
        let place = cells.position(|(found, expected)| found != expected)?;
        let end = self.cells.len() - GUARDS;
        let part = match place {
            place if place < GUARDS => "in a guard before the list".to_string(),
            place if place < GUARDS + front => format!("at {} of what is written", place - GUARDS),
            place if place < end => format!("at {}, which is not written", place - GUARDS),
            _ => "in a guard behind the list".to_string(),
        };
        let (found, expected) = (self.cells[place], expected.cells[place]);
        Some(format!("{part}: expected {expected:?}, found {found:?}"))
    }
}
