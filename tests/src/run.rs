//! Seeds, counts and what every run of the comparisons prints.

use std::io::Write;
use std::path::{Path, PathBuf};

/// The seed of the gate.
pub const GATE_SEED: u64 = 20_061_215;
/// How many random tables of up to six states the gate compares.
pub const GATE_COUNT: u64 = 100_000;

fn number(name: &str, otherwise: u64) -> u64 {
    match std::env::var(name) {
        Ok(text) => text.parse().unwrap_or_else(|_| panic!("{name} is not a number: {text}")),
        Err(_) => otherwise,
    }
}

/// The seed: KIRDANZUG_SEED, or the gate's.
pub fn seed() -> u64 {
    number("KIRDANZUG_SEED", GATE_SEED)
}

/// This share of the count: KIRDANZUG_COUNT, or the gate's, over the divisor (at least 1).
pub fn count(divisor: u64) -> u64 {
    (number("KIRDANZUG_COUNT", GATE_COUNT) / divisor).max(1)
}

/// Prints a line past the capture of `cargo test`.
pub fn report(line: &str) {
    let line = format!("kirdanzug-tests: {line}\n");
    std::io::stderr().write_all(line.as_bytes()).expect("standard error is open");
}

/// A proved program: the one that the variable names, or ../crates/NAME/out/NAME; nothing, and a line, where that
/// has not been built.
pub fn program(variable: &str, name: &str) -> Option<PathBuf> {
    let path = match std::env::var_os(variable).map(PathBuf::from) {
        Some(path) => {
            assert!(path.exists(), "{variable} names {}, which is missing", path.display());
            path
        }
        None => Path::new(env!("CARGO_MANIFEST_DIR")).join("../crates").join(name).join("out").join(name),
    };
    if !path.exists() {
        report(&format!("skipped: {} does not exist", path.display()));
        return None;
    }
    Some(path)
}

/// Runs `work` for every number below `count`, over the machine's processors, and gives what each
/// thread gathered. A panic in one is passed on.
pub fn spread<T: Default + Send>(count: u64, work: impl Fn(u64, &mut T) + Sync) -> Vec<T> {
    let threads = std::thread::available_parallelism().map_or(1, |n| n.get()) as u64;
    let work = &work;
    std::thread::scope(|scope| {
        let start = |thread| {
            scope.spawn(move || {
                let mut gathered = T::default();
                (thread..count).step_by(threads as usize).for_each(|i| work(i, &mut gathered));
                gathered
            })
        };
        let running: Vec<_> = (0..threads).map(start).collect();
        running.into_iter().map(|thread| thread.join().expect("a comparison failed")).collect()
    })
}
