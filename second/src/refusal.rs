//! The numbered refusals.

/// A numbered refusal with its place.
#[derive(Clone, Copy, Debug, PartialEq, Eq)]
pub struct Refusal {
    /// The number, 1 to 14.
    pub number: u32,
    /// The line, job, arc or section the refusal speaks of, or 0.
    pub place: u32,
}

impl Refusal {
    /// Makes a refusal of this number at this place.
    pub fn new(number: u32, place: usize) -> Refusal {
        let place = u32::try_from(place).unwrap_or(u32::MAX);
        Refusal { number, place }
    }
}

/// Refuses with this number at the first wrong verdict, counted from 0.
pub(crate) fn refuse_first_wrong(
    number: u32,
    mut wrong: impl Iterator<Item = bool>,
) -> Result<(), Refusal> {
    match wrong.position(|wrong| wrong) {
        Some(place) => Err(Refusal::new(number, place)),
        None => Ok(()),
    }
}

/// Refuses with 11 where one of the lent lists is shorter than its need.
pub(crate) fn refuse_short_room(rooms_and_needs: &[(usize, usize)]) -> Result<(), Refusal> {
    if rooms_and_needs.iter().any(|(room, need)| room < need) {
        return Err(Refusal::new(11, 0));
    }
    Ok(())
}
