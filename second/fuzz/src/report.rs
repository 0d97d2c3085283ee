//! Runs cases and reports what they met, or the first that differs.

use crate::abi::Entries;
use crate::answers::answer;
use crate::asked::{Asked, KINDS};
use crate::draw;
use crate::outcome::{differences, expected, found, Lent};
use second::random::Random;
use second::slip::{Slip, SHOWN_BY_PROGRAM};
use std::collections::BTreeMap;

/// The mistakes of the second program that show in some entry: all but the one of the waiting
/// bound, which no entry gives.
pub const SLIPS: [Slip; 13] = {
    let mut slips = [Slip::MarkByReportAlone; 13];
    let mut place = 0;
    while place < SHOWN_BY_PROGRAM.len() {
        slips[place] = SHOWN_BY_PROGRAM[place];
        place += 1;
    }
    slips
};

/// One case: a question drawn from a seed and a number.
pub struct Case {
    /// The seed of the whole run.
    pub seed: u64,
    /// The number of the case.
    pub number: u64,
    /// The question.
    pub asked: Asked,
    /// What is left of the case's random numbers, for the content of lists.
    random: Random,
}

impl Case {
    /// Draws the case of this number; kinds take turns.
    pub fn draw(seed: u64, number: u64) -> Case {
        let mut random = Random(Random(seed).word() ^ number);
        let kind = (number % KINDS.len() as u64) as usize;
        let asked = draw::asked(&mut random, kind);
        Case {
            seed,
            number,
            asked,
            random,
        }
    }

    /// Asks the entries and the second program, the latter with a slip, and gives the refusal that
    /// both gave, 0 for none, or says in which ways they differ.
    pub fn judge(&self, entries: &dyn Entries, slip: Slip) -> Result<u32, Vec<String>> {
        let mut random = self.random.clone();
        let lent = Lent::of(&mut random, &self.asked);
        let answer = answer(&self.asked, slip);
        let found = found(entries, &self.asked, &mut random, lent.clone());
        let expected = expected(&answer, lent);
        if expected == found {
            return Ok(found.numbers.refusal);
        }
        Err(differences(&expected, &found, &answer))
    }

    /// Shows the case whole.
    pub fn shown(&self) -> String {
        let (kind, asked) = (self.asked.kind(), &self.asked);
        format!("seed {}, case {}, {kind}\n{asked}", self.seed, self.number)
    }
}

/// How often each entry gave each refusal, 0 for none.
#[derive(Clone, Debug, Default, PartialEq, Eq)]
pub struct Met(pub BTreeMap<(&'static str, u32), u64>);

impl Met {
    /// Counts a case.
    pub fn count(&mut self, kind: &'static str, refusal: u32) {
        *self.0.entry((kind, refusal)).or_default() += 1;
    }

    /// Gives a line for each kind.
    pub fn lines(&self) -> String {
        let mut lines = String::new();
        for kind in KINDS {
            let of_kind = self.0.iter().filter(|((name, _), _)| *name == kind);
            let counts = of_kind.map(|((_, refusal), count)| match refusal {
                0 => format!(" answered {count}"),
                _ => format!(" refusal {refusal}: {count}"),
            });
            lines += &format!("{kind}:{}\n", counts.collect::<Vec<_>>().join(","));
        }
        lines
    }
}

/// Runs so many cases; `before` is told each number first. Gives what they met, or the first that
/// differs and in which ways.
pub fn run(
    entries: &dyn Entries,
    seed: u64,
    cases: std::ops::Range<u64>,
    slip: Slip,
    mut before: impl FnMut(u64),
) -> Result<Met, Box<(Case, Vec<String>)>> {
    let mut met = Met::default();
    for number in cases {
        before(number);
        let case = Case::draw(seed, number);
        match case.judge(entries, slip) {
            Ok(refusal) => met.count(case.asked.kind(), refusal),
            Err(ways) => return Err(Box::new((case, ways))),
        }
    }
    Ok(met)
}
