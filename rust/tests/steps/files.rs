//! The files of tests/cones: what stands there as the output is what the reference's machine gives, and what the library gives.
use crate::alike::Runs;
use std::{fs, path::Path, path::PathBuf};
use vowherunga::reference::steps::Memory;

/// The step lists of a folder.
fn lists(folder: &str) -> Vec<PathBuf> {
    let folder = Path::new(env!("CARGO_MANIFEST_DIR")).join("..").join(folder);
    let paths = fs::read_dir(folder).unwrap().map(|entry| entry.unwrap().path());
    paths
        .filter(|path| path.extension().is_some_and(|extension| extension == "in"))
        .collect()
}

/// The output of each list's run, in as much memory as `cones` lends.
fn outputs(runs: &mut Runs, lists: &[PathBuf]) -> Vec<String> {
    let memory = Memory::zeros(2048, 2048);
    lists
        .iter()
        .map(|path| runs.compare(&fs::read(path).unwrap(), &memory).output)
        .collect()
}

#[test]
fn files_of_cones() {
    let mut runs = Runs::new();
    let (whole, broken) = (lists("tests/cones"), lists("tests/cones/broken"));
    for (path, output) in whole.iter().zip(outputs(&mut runs, &whole)) {
        let path = path.with_extension("out");
        assert!(output.as_bytes() == fs::read(&path).unwrap(), "{} is another file", path.display());
    }
    for (path, output) in broken.iter().zip(outputs(&mut runs, &broken)) {
        assert_eq!(output, "refused=6\nstep=0\n", "{}", path.display());
    }
    runs.expect(&[
        ("done", 10),
        ("refused=4", 2),
        ("refused=7", 3),
        ("refused=11", 4),
        ("refused=6", 70),
    ]);
}
