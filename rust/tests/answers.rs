//! The committed tables of answers are those that the command in crates/worked_cases/src/main.rt makes.
use std::{fs, path::Path};
use vowherunga::reference::answers::{tables, TABLES};

#[test]
fn the_tables_are_made_anew() {
    for (name, table) in TABLES.iter().zip(tables()) {
        let path = Path::new(env!("CARGO_MANIFEST_DIR")).join(format!("../crates/worked_cases/data/answers/{name}"));
        let committed = fs::read(&path).unwrap();
        assert!(committed == table.into_bytes(), "{} is another file", path.display());
    }
}
