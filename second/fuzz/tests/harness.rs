//! The harness meets everything, and notices what it is there to notice.

use fuzz::abi::{Count, Counts, Entries, Late, Length, LentLists, PlanLists, StateLists};
use fuzz::abi::{Stepped, TableLists, Tick, Verdict};
use fuzz::guarded::Guarded;
use fuzz::report::{run, Met, SLIPS};
use fuzz::stand_in::StandIn;
use second::random::Random;
use second::Slip;

const CASES: u64 = 20_000;

/// What each kind of question can meet, 0 for no refusal.
const MEETS: [(&str, &[u32]); 10] = [
    ("read", &[0, 1, 2, 3, 4, 11]),
    ("write", &[0, 2, 3, 4, 11]),
    ("plan", &[0, 2, 3, 4, 5, 6, 7, 8, 9, 10, 11]),
    ("density", &[0, 12, 14]),
    ("start", &[0, 11, 12]),
    ("step", &[0, 12, 13]),
    ("run", &[0, 11, 12]),
    ("lateness", &[0, 12]),
    ("answer", &[0, 11]),
    ("walk", &[0]),
];

/// Runs the cases of this seed against these entries.
fn ran(entries: &dyn Entries, seed: u64, slip: Slip) -> Result<Met, Vec<String>> {
    run(entries, seed, 0..CASES, slip, |_| ()).map_err(|failed| failed.1)
}

#[test]
fn the_right_entries_differ_nowhere_and_meet_everything() {
    let Met(met) = ran(&StandIn, 1, Slip::None).unwrap();
    let expected = MEETS
        .iter()
        .flat_map(|(kind, all)| all.iter().map(|&refusal| (*kind, refusal)));
    let mut expected: Vec<_> = expected.collect();
    expected.sort_unstable();
    assert!(met.keys().copied().eq(expected), "{met:?}");
    assert!(met.values().all(|&count| count >= 40), "{met:?}");
}

#[test]
fn every_slip_shows() {
    for slip in SLIPS {
        for seed in [1, 2] {
            assert!(ran(&StandIn, seed, slip).is_err(), "{slip:?}, seed {seed}");
        }
    }
}

#[test]
fn the_same_seed_gives_the_same_cases() {
    let first = ran(&StandIn, 3, Slip::None);
    assert_eq!(first, ran(&StandIn, 3, Slip::None));
    assert_ne!(first, ran(&StandIn, 4, Slip::None));
}

/// A way in which entries can be wrong though their answer looks right.
#[derive(Clone, Copy, Debug)]
enum Wrong {
    /// A refused read writes its first list.
    WritesWhenRefused,
    /// A read clears its last list behind what it read.
    ClearsTheRest,
    /// A read writes nothing.
    WritesNothing,
    /// A refusal of the reader is one line off.
    PlaceOff,
    /// A refused step hands back tick 0.
    LosesTheTick,
    /// A refused step writes a mark.
    MarksWhenRefused,
}

impl Entries for Wrong {
    fn read(&self, text: &[u8], lent: LentLists) -> Counts {
        let [jobs, arcs, sections] = lent;
        let mut copy = jobs.to_vec();
        let written = match self {
            Wrong::WritesNothing => &mut copy,
            _ => &mut *jobs,
        };
        let mut answer = StandIn.read(text, [written, arcs, &mut *sections]);
        match self {
            Wrong::WritesWhenRefused if answer.refusal > 0 => jobs.fill(0),
            Wrong::ClearsTheRest if answer.refusal == 0 => {
                sections[4 * answer.sections as usize..].fill(0);
            }
            Wrong::PlaceOff if answer.refusal == 1 => answer.place -= 1,
            _ => (),
        }
        answer
    }

    fn step(&self, plan: PlanLists, tick: u32, lent: LentLists, silent: bool) -> Stepped {
        let [executed, marks, finish] = lent;
        let mut answer = StandIn.step(plan, tick, [executed, &mut *marks, finish], silent);
        match self {
            Wrong::LosesTheTick if answer.refusal > 0 => answer.tick = 0,
            Wrong::MarksWhenRefused if answer.refusal > 0 => marks.fill(1),
            _ => (),
        }
        answer
    }

    fn write(&self, table: TableLists, out: &mut [u8]) -> Length {
        StandIn.write(table, out)
    }

    fn plan(&self, table: TableLists, times: &mut [u32]) -> Count {
        StandIn.plan(table, times)
    }

    fn density(&self, plan: PlanLists) -> Verdict {
        StandIn.density(plan)
    }

    fn start(&self, plan: PlanLists, lent: LentLists) -> Tick {
        StandIn.start(plan, lent)
    }

    fn run(&self, plan: PlanLists, lent: LentLists) -> Tick {
        StandIn.run(plan, lent)
    }

    fn lateness(&self, plan: PlanLists, tick: u32, state: StateLists, job: u32) -> Late {
        StandIn.lateness(plan, tick, state, job)
    }

    fn answer(&self, text: &[u8], out: &mut [u8]) -> Length {
        StandIn.answer(text, out)
    }
}

#[test]
fn wrong_lists_places_and_ticks_are_noticed() {
    for (wrong, told) in [
        (Wrong::WritesWhenRefused, "which is not written"),
        (Wrong::ClearsTheRest, "which is not written"),
        (Wrong::WritesNothing, "of what is written"),
        (Wrong::PlaceOff, "found Numbers"),
        (Wrong::LosesTheTick, "found Numbers"),
        (Wrong::MarksWhenRefused, "lent list 1 at"),
    ] {
        let ways = ran(&wrong, 5, Slip::None).unwrap_err();
        assert!(ways[0].contains(told), "{wrong:?}: {ways:?}");
    }
}

#[test]
fn guards_are_looked_at_on_both_sides() {
    let list = Guarded::of(&mut Random(1), &[7_u32, 8, 9]);
    let same = Guarded::of(&mut Random(1), &[7_u32, 8, 9]);
    assert_eq!(list.difference(&same, 2), None);
    let other = Guarded::of(&mut Random(2), &[7_u32, 8, 9]);
    let told = list.difference(&other, 2).unwrap();
    assert!(told.contains("in a guard before the list"), "{told}");
    let longer = Guarded::of(&mut Random(1), &[7_u32, 8, 9, 10]);
    let told = list.difference(&longer, 2).unwrap();
    assert!(told.contains("in a guard behind the list"), "{told}");
}
