//! The text: the readings 1 to 14, and what the rules say of reader and writer.

mod common;

use common::{p1, refused, table, wrong_lengths, ONE_JOB, P1_TEXT};
use second::{read, read_into, write, write_into, Table};

fn place_of(text: &str) -> (u32, u32) {
    let refusal = read(text.as_bytes()).expect_err(text);
    (refusal.number, refusal.place)
}

#[test]
fn p1_reads_and_writes() {
    assert_eq!(read(P1_TEXT.as_bytes()), Ok(p1()));
    assert_eq!(write(&p1()), Ok(P1_TEXT.as_bytes().to_vec()));
}

#[test]
fn reading_01_bad_count_without_lf_is_1() {
    assert_eq!(place_of("jobs=65"), (1, 1));
    assert_eq!(place_of("jobs=0"), (1, 1));
    assert_eq!(place_of("jobs=65\n"), (2, 1));
    let text = ONE_JOB.replace("arcs=0\nsections=0\n", "arcs=257");
    assert_eq!(place_of(&text), (1, 5));
    let text = ONE_JOB.replace("sections=0\n", "sections=129");
    assert_eq!(place_of(&text), (1, 6));
}

#[test]
fn reading_02_count_that_is_no_number_is_1() {
    for wrong in [
        "4294967296",
        "065",
        "",
        "00",
        "-1",
        "+1",
        "1 ",
        " 1",
        "0x1",
        "1=",
    ] {
        assert_eq!(place_of(&format!("jobs={wrong}\n")), (1, 1), "{wrong}");
    }
    let long = "9".repeat(100_000);
    assert_eq!(place_of(&format!("jobs={long}\n")), (1, 1));
    for number in ["0", "65", "4294967295"] {
        assert_eq!(place_of(&format!("jobs={number}\n")), (2, 1), "{number}");
    }
}

#[test]
fn reading_03_bad_count_hides_later_faults_but_not_earlier_ones() {
    assert_eq!(place_of("jobs=65\nnonsense"), (2, 1));
    let text = ONE_JOB.replace("arcs=0\nsections=0\n", "arcs=257\nsections=129\n");
    assert_eq!(place_of(&text), (3, 5));
    let text = text.replace("cost=1", "coat=1");
    assert_eq!(place_of(&text), (1, 3));
}

#[test]
fn reading_04_place_of_a_bad_count_is_its_line() {
    let text = P1_TEXT.replace("arcs=1", "arcs=257");
    assert_eq!(place_of(&text), (3, 2 + 3 * 3));
    let text = P1_TEXT.replace("sections=2", "sections=129");
    assert_eq!(place_of(&text), (4, 3 + 3 * 3 + 2));
}

#[test]
fn reading_05_text_that_stops_early() {
    for length in 0..P1_TEXT.len() {
        let text = &P1_TEXT[..length];
        let lines_ended = text.matches('\n').count() as u32;
        assert_eq!(place_of(text), (1, lines_ended + 1), "{text:?}");
    }
}

#[test]
fn reading_06_bytes_after_the_last_line() {
    for more in ["\n", "x", "job=0\n", "job=0", "\n\n", "\0", "jobs=1\n"] {
        assert_eq!(place_of(&format!("{ONE_JOB}{more}")), (1, 7), "{more:?}");
    }
    let mut text = ONE_JOB.as_bytes().to_vec();
    text.push(0xff);
    assert_eq!(read(&text), refused(1, 7));
}

#[test]
fn reading_07_cr_blanks_and_signs_are_wrong_on_their_own_line() {
    for wrong in [
        "cost=1\r", "cost= 1", " cost=1", "cost =1", "cost=+1", "cost=-1",
    ] {
        assert_eq!(
            place_of(&ONE_JOB.replace("cost=1", wrong)),
            (1, 3),
            "{wrong:?}"
        );
    }
    assert_eq!(place_of(&ONE_JOB.replace('\n', "\r\n")), (1, 1));
    assert_eq!(place_of(&ONE_JOB.replace("cost=1\n", "cost=1\r")), (1, 3));
    assert_eq!(place_of(&ONE_JOB.replace("cost=1\n", "\ncost=1\n")), (1, 3));
    let text = [b"jobs=1\nrelease=", &[0xd9, 0xa1][..], b"\n"].concat();
    assert_eq!(read(&text), refused(1, 2));
}

#[test]
fn reading_08_keys_are_matched_whole() {
    for wrong in [
        "job=1", "jobss=1", "Jobs=1", "jobs1", "jobs", "=1", "job", "jobs==1",
    ] {
        assert_eq!(place_of(&format!("{wrong}\n")), (1, 1), "{wrong}");
    }
    assert_eq!(place_of(&P1_TEXT.replace("\njob=1", "\njobs=1")), (1, 19));
    assert_eq!(
        place_of(&ONE_JOB.replace("release=0\ncost=1", "cost=1\nrelease=0")),
        (1, 2)
    );
}

#[test]
fn reading_09_values_are_not_judged() {
    let text = P1_TEXT.replace("cost=4", "cost=0");
    let text = text.replace("resource=0\nfrom=1", "resource=4294967295\nfrom=9");
    let table = read(text.as_bytes()).unwrap();
    assert_eq!(table.jobs[1], 0);
    assert_eq!(table.sections[..4], [0, u32::MAX, 9, 4]);
    assert_eq!(
        place_of(&P1_TEXT.replace("cost=4", "cost=4294967296")),
        (1, 3)
    );
    assert_eq!(place_of(&P1_TEXT.replace("cost=4", "cost=04")), (1, 3));
}

#[test]
fn reading_10_room_is_judged_last() {
    let text = P1_TEXT.as_bytes();
    assert_eq!(read_into(text, 9, 2, 8), Ok(p1()));
    assert_eq!(read_into(text, 900, 200, 800), Ok(p1()));
    for (jobs, arcs, sections) in [(8, 2, 8), (9, 1, 8), (9, 2, 7), (0, 0, 0)] {
        assert_eq!(read_into(text, jobs, arcs, sections), refused(11, 0));
    }
    let text = format!("{P1_TEXT}\n");
    assert_eq!(read_into(text.as_bytes(), 0, 0, 0), refused(1, 23));
    assert_eq!(read_into(b"jobs=65\n", 0, 0, 0), refused(2, 1));
}

#[test]
fn reading_11_empty_text() {
    assert_eq!(place_of(""), (1, 1));
    assert_eq!(place_of("\n"), (1, 1));
}

/// The table with the longest text.
fn longest() -> Table {
    Table {
        jobs: vec![u32::MAX; 192],
        arcs: vec![u32::MAX; 512],
        sections: vec![u32::MAX; 512],
    }
}

#[test]
fn reading_12_longest_text() {
    let text = write(&longest()).unwrap();
    assert_eq!(text.len(), 20_830);
    assert_eq!(text.iter().filter(|&&byte| byte == b'\n').count(), 1_219);
    assert_eq!(read(&text), Ok(longest()));
    let long = [&text[..], b"job=0\n", &[b'7'; 100_000]].concat();
    assert_eq!(read(&long), refused(1, 1_220));
    assert_eq!(read(&long[..20_831]), refused(1, 1_220));
}

#[test]
fn reading_13_the_writer_judges_no_values() {
    let odd = table(&[[7, 0, 4_000_000_000]], &[[9, 9]], &[[5, 99, 3, 2]]);
    let text = write(&odd).unwrap();
    assert_eq!(read(&text), Ok(odd));
    assert_eq!(write_into(&p1(), P1_TEXT.len()), write(&p1()));
    assert_eq!(write_into(&p1(), P1_TEXT.len() - 1), refused(11, 0));
}

#[test]
fn reading_14_list_lengths_in_the_writer() {
    for (table, number) in wrong_lengths() {
        assert_eq!(write(&table), refused(number, 0));
        assert_eq!(write_into(&table, 0), refused(number, 0));
    }
    let all = Table {
        jobs: vec![],
        arcs: vec![1],
        sections: vec![1],
    };
    assert_eq!(write(&all), refused(2, 0));
    let two = Table {
        jobs: vec![1; 3],
        ..all
    };
    assert_eq!(write(&two), refused(3, 0));
    assert_eq!(
        write(&Table {
            arcs: vec![],
            ..two
        }),
        refused(4, 0)
    );
}
