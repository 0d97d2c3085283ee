//! The tables of the root's folder `tables` print what stands beside them.

use second::{answer, check, read, waits};
use std::fs;
use std::path::{Path, PathBuf};

/// Gives the folder of the tables.
fn folder() -> PathBuf {
    Path::new(env!("CARGO_MANIFEST_DIR")).join("../tables")
}

#[test]
fn each_table_prints_what_stands_beside_it() {
    let files = fs::read_dir(folder()).unwrap();
    let paths = files.map(|file| file.unwrap().path());
    let tables = paths.filter(|path| path.extension().is_some_and(|end| end == "table"));
    let mut count = 0;
    for table in tables {
        let expected = fs::read(table.with_extension("out")).unwrap();
        let found = answer(&fs::read(&table).unwrap());
        assert_eq!(found, expected, "{}", table.display());
        count += 1;
    }
    assert_eq!(count, 4);
}

#[test]
fn a_wake_of_the_cold_store_waits_for_the_bus() {
    let text = fs::read(folder().join("cold-store.table")).unwrap();
    let waits = waits(&check(&read(&text).unwrap()).unwrap()).unwrap();
    assert_eq!((waits[4].ticks, &waits[4].given_to[..]), (4, &[1][..]));
    assert_eq!(waits[4].bound, 4);
}
