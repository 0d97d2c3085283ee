//! Each slip shows: with its switch on, the outcome differs from the right one.

mod common;

use common::clauses::broken_clause;
use common::{p1, refused, table, ONE_JOB};
use second::table::{MARK_FRESH, MARK_STALE};
use second::{answer_with, check, check_with, density_answer_with, density_with};
use second::{lateness_with, modified_times_with, read, read_with, run_with_slip, start};
use second::{step_with, trace_with_slip, waits, waits_with, write, Slip, Table};

/// Gives the jobs that run at each tick with a slip, -1 at idle ones.
fn ran(table: &Table, slip: Slip) -> Vec<i32> {
    let plan = check_with(table, slip).unwrap();
    let trace = trace_with_slip(&plan, &[], slip).unwrap();
    let numbers = trace.ran.into_iter();
    numbers
        .map(|job| job.map_or(-1, |job| job as i32))
        .collect()
}

/// Gives the clause that the run of a table breaks with a slip.
fn broken(table: &Table, slip: Slip) -> Option<char> {
    let plan = check(table).unwrap();
    let trace = trace_with_slip(&plan, &[], slip).unwrap();
    broken_clause(&plan, &[], &trace)
}

/// Two jobs on one resource; the second comes while the first holds it.
fn two_on_one_resource() -> Table {
    let sections = [[0, 0, 0, 2], [1, 0, 0, 1]];
    table(&[[0, 2, 3], [1, 1, 2]], &[], &sections)
}

#[test]
fn start_best_that_passes() {
    let slip = Slip::StartBestThatPasses;
    let sections = [[0, 0, 0, 4], [2, 0, 0, 1]];
    let arcs = table(&[[0, 4, 5], [3, 1, 4], [1, 1, 3]], &[[2, 1]], &sections);
    assert_eq!(ran(&arcs, Slip::None), [0, 0, 0, 0, 2, 1]);
    assert_eq!(ran(&arcs, slip), [0, 0, 0, 1, 0, 2]);
    assert_eq!(broken(&arcs, Slip::None), None);
    assert_eq!(broken(&arcs, slip), Some('a'));
    let sections = [[0, 0, 0, 3], [1, 0, 0, 1]];
    let smallest = table(&[[0, 3, 4], [1, 1, 3], [2, 1, 3]], &[], &sections);
    assert_eq!(ran(&smallest, Slip::None), [0, 0, 0, 1, 2]);
    assert_eq!(ran(&smallest, slip), [0, 0, 2, 0, 1]);
}

#[test]
fn ceiling_at_most() {
    let slip = Slip::CeilingAtMost;
    assert_eq!(ran(&p1(), Slip::None), [0, 0, 0, 0, 1, 1, 2]);
    assert_eq!(ran(&p1(), slip), [0, 0, 1, 1, 0, 0, 2]);
    assert_eq!(broken(&p1(), slip), Some('b'));
    assert_eq!(ran(&two_on_one_resource(), Slip::None), [0, 0, 1]);
    assert_eq!(ran(&two_on_one_resource(), slip), [0, 1, 0]);
    assert_eq!(broken(&two_on_one_resource(), slip), Some('b'));
}

#[test]
fn narrowed_waiting_bound() {
    let sections = [[0, 0, 0, 3], [1, 0, 0, 1]];
    let plan = check(&table(&[[0, 3, 4], [1, 1, 3], [2, 1, 3]], &[], &sections)).unwrap();
    let pairs = |slip| {
        let waits = waits_with(&plan, slip).unwrap();
        waits
            .iter()
            .map(|wait| (wait.ticks, wait.bound))
            .collect::<Vec<_>>()
    };
    assert_eq!(pairs(Slip::None), [(0, 0), (2, 2), (1, 2)]);
    assert_eq!(pairs(Slip::NarrowedWaitingBound), [(0, 0), (2, 2), (1, 0)]);
    assert!(waits(&plan)
        .unwrap()
        .iter()
        .all(|wait| wait.ticks <= wait.bound));
}

#[test]
fn one_tick_sections_dropped() {
    let slip = Slip::OneTickSectionsDropped;
    assert_eq!(ran(&p1(), slip), [0, 0, 1, 1, 2, 0, 0]);
    assert_eq!(broken(&p1(), slip), Some('b'));
    let plan = check(&p1()).unwrap();
    assert_eq!(density_with(&plan, slip).unwrap().sums, [10, 14, 22]);
    assert_eq!(ran(&two_on_one_resource(), Slip::None), [0, 0, 1]);
    assert_eq!(ran(&two_on_one_resource(), slip), [0, 1, 0]);
    assert_eq!(broken(&two_on_one_resource(), slip), Some('b'));
    let sections = [[0, 0, 0, 1], [1, 0, 0, 1]];
    let dense = write(&table(&[[0, 1, 1], [0, 1, 2]], &[], &sections)).unwrap();
    let right = density_answer_with(&dense, Slip::None);
    assert_eq!(right, b"density=no\nplace=1\n");
    assert_eq!(density_answer_with(&dense, slip), b"density=no\nplace=2\n");
}

#[test]
fn deadlines_in_table_order() {
    let slip = Slip::DeadlinesInTableOrder;
    let chain = |deadlines: [u32; 3]| {
        let jobs = deadlines.map(|deadline| [0, 1, deadline]);
        table(&jobs, &[[0, 1], [1, 2]], &[])
    };
    // Accepted with too late a deadline, so that job 0 comes last.
    let accepted = chain([9, 9, 3]);
    assert_eq!(
        modified_times_with(&accepted, Slip::None),
        [(0, 1), (0, 2), (0, 3)]
    );
    assert_eq!(
        modified_times_with(&accepted, slip),
        [(0, 8), (0, 2), (0, 3)]
    );
    assert_eq!(ran(&accepted, Slip::None), [0, 1, 2]);
    assert_eq!(ran(&accepted, slip), [1, 2, 0]);
    // Accepted where it must be refused.
    assert_eq!(check(&chain([2, 2, 2])), refused(10, 0));
    assert_eq!(
        check_with(&chain([2, 2, 2]), slip).unwrap().times,
        [0, 1, 0, 1, 0, 2]
    );
    // The smallest one: another place.
    assert_eq!(check(&chain([1, 2, 1])), refused(10, 0));
    assert_eq!(check_with(&chain([1, 2, 1]), slip), refused(10, 1));
}

#[test]
fn lateness_against_modified() {
    let table = table(&[[0, 1, 2], [0, 1, 2]], &[[0, 1]], &[]);
    let plan = check(&table).unwrap();
    let end = run_with_slip(&plan, &[], Slip::None).unwrap();
    let late = |slip| lateness_with(&plan, &end, 0, slip).unwrap();
    assert_eq!(late(Slip::None), Some(-1));
    assert_eq!(late(Slip::LatenessAgainstModified), Some(0));
    let text = write(&table).unwrap();
    let printed = |slip| String::from_utf8(answer_with(&text, slip)).unwrap();
    assert!(printed(Slip::None).contains("lateness=-1\n"));
    assert!(!printed(Slip::LatenessAgainstModified).contains("lateness=-1\n"));
}

#[test]
fn mark_by_report_alone() {
    let slip = Slip::MarkByReportAlone;
    let marks = |table: &Table, silent: u32, slip| {
        let plan = check(table).unwrap();
        let reports: Vec<bool> = (0..9).map(|tick| tick == silent).collect();
        run_with_slip(&plan, &reports, slip).unwrap().marks
    };
    assert_eq!(
        marks(&p1(), 5, Slip::None),
        [MARK_FRESH, MARK_STALE, MARK_STALE]
    );
    assert_eq!(marks(&p1(), 5, slip), [MARK_FRESH, MARK_STALE, MARK_FRESH]);
    let smallest = table(&[[0, 1, 1], [0, 1, 2]], &[[0, 1]], &[]);
    assert_eq!(marks(&smallest, 0, Slip::None), [MARK_STALE, MARK_STALE]);
    assert_eq!(marks(&smallest, 0, slip), [MARK_STALE, MARK_FRESH]);
    let plan = check(&smallest).unwrap();
    let clause = |slip| {
        let trace = trace_with_slip(&plan, &[true], slip).unwrap();
        broken_clause(&plan, &[true], &trace)
    };
    assert_eq!((clause(Slip::None), clause(slip)), (None, Some('c')));
}

#[test]
fn density_place_from_zero() {
    let slip = Slip::DensityPlaceFromZero;
    let smallest = table(&[[0, 1, 1], [0, 1, 1]], &[], &[]);
    for table in [table(&[[0, 3, 3], [0, 3, 5]], &[], &[]), smallest] {
        let text = write(&table).unwrap();
        let right = density_answer_with(&text, Slip::None);
        assert_eq!(right, b"density=no\nplace=2\n");
        assert_eq!(density_answer_with(&text, slip), b"density=no\nplace=1\n");
    }
}

#[test]
fn leading_zero_accepted() {
    let slip = Slip::LeadingZeroAccepted;
    let text = ONE_JOB.replace("release=0", "release=00");
    assert_eq!(read(text.as_bytes()), refused(1, 2));
    assert_eq!(read_with(text.as_bytes(), slip), read(ONE_JOB.as_bytes()));
    let text = ONE_JOB.replace("jobs=1", "jobs=01");
    assert_eq!(read(text.as_bytes()), refused(1, 1));
    assert_eq!(read_with(text.as_bytes(), slip), read(ONE_JOB.as_bytes()));
    let signed = ONE_JOB.replace("jobs=1", "jobs=+1");
    assert_eq!(read_with(signed.as_bytes(), slip), refused(1, 1));
}

#[test]
fn cycle_by_leftover() {
    let after_a_cycle = table(&[[0, 1, 1], [0, 1, 1]], &[[1, 0], [1, 1]], &[]);
    assert_eq!(check(&after_a_cycle), refused(9, 1));
    let wrong = check_with(&after_a_cycle, Slip::CycleByLeftover);
    assert_eq!(wrong, refused(9, 0));
}

#[test]
fn adjacent_overlap() {
    let slip = Slip::AdjacentOverlap;
    let p9 = table(&[[0, 5, 5]], &[], &[[0, 0, 0, 2], [0, 0, 2, 4]]);
    let smallest = table(&[[0, 2, 2]], &[], &[[0, 0, 0, 1], [0, 0, 1, 2]]);
    for table in [p9, smallest] {
        assert!(check(&table).is_ok());
        assert_eq!(check_with(&table, slip), refused(8, 1));
    }
}

#[test]
fn longest_of_equal_too() {
    let slip = Slip::LongestOfEqualToo;
    let smallest = check(&table(&[[0, 1, 1]], &[], &[[0, 0, 0, 1]])).unwrap();
    let right = density_with(&smallest, Slip::None).unwrap();
    assert_eq!((right.yes, &right.sums[..]), (true, &[1][..]));
    let wrong = density_with(&smallest, slip).unwrap();
    assert_eq!((wrong.place, &wrong.sums[..]), (1, &[2][..]));
    // Another job of equal relative deadline, not the job itself.
    let two = check(&table(&[[0, 1, 2], [0, 1, 2]], &[], &[[0, 0, 0, 1]])).unwrap();
    assert_eq!(density_with(&two, Slip::None).unwrap().sums, [1, 2]);
    assert_eq!(density_with(&two, slip).unwrap().sums, [2, 3]);
    assert_eq!(density_with(&two, slip).unwrap().place, 2);
    let p1 = check(&p1()).unwrap();
    assert_eq!(density_with(&p1, slip).unwrap().sums, [25, 26, 28]);
}

#[test]
fn releases_by_minimum() {
    let slip = Slip::ReleasesByMinimum;
    assert_eq!(
        check_with(&p1(), slip).unwrap().times,
        [0, 20, 2, 10, 0, 12]
    );
    assert_eq!(ran(&p1(), slip), [2, 0, 1, 1, 0, 0, 0]);
    let smallest = table(&[[0, 1, 1], [1, 1, 1]], &[[1, 0]], &[]);
    assert_eq!(check(&smallest), refused(10, 0));
    assert_eq!(check_with(&smallest, slip), refused(10, 1));
}

#[test]
fn holds_at_from() {
    let slip = Slip::HoldsAtFrom;
    let sections = [[0, 0, 1, 2], [1, 0, 1, 2]];
    let entering = table(&[[0, 2, 4], [1, 2, 3]], &[], &sections);
    assert_eq!(ran(&entering, Slip::None), [0, 1, 1, 0]);
    assert_eq!(ran(&entering, slip), [0, 0, 1, 1]);
    // The smallest one: a job held up by its own section from 0.
    let smallest = table(&[[0, 1, 1]], &[], &[[0, 0, 0, 1]]);
    let plan = check(&smallest).unwrap();
    let first = start(&plan).unwrap();
    let step = |slip| step_with(&plan, &first, false, slip).unwrap();
    assert_eq!(step(Slip::None).ran, Some(0));
    assert_eq!(step(slip).ran, None);
    assert_eq!(run_with_slip(&plan, &[], slip), start(&plan));
}
