//! The solving program against the oracle's text: bytes on standard input, text on standard output.
//! KIRDANZUG_SOLVE names the program; otherwise it is ../crates/solve/out/solve.

use kirdanzug_tests::gen::{self, Rng, SHAPES};
use kirdanzug_tests::oracle;
use kirdanzug_tests::run::{self, count, report, seed, spread};
use kirdanzug_tests::stations;
use std::fs::File;
use std::io::Write;
use std::os::fd::OwnedFd;
use std::os::unix::net::UnixStream;
use std::path::PathBuf;
use std::process::{Command, Output, Stdio};

/// The program, or nothing where it has not been built.
fn program() -> Option<PathBuf> {
    run::program("KIRDANZUG_SOLVE", "solve")
}

/// All that the program prints for this input.
fn printed(program: &PathBuf, input: &[u8]) -> String {
    let mut child = Command::new(program)
        .stdin(Stdio::piped())
        .stdout(Stdio::piped())
        .stderr(Stdio::piped())
        .spawn()
        .expect("the program starts");
    let mut stdin = child.stdin.take().expect("standard input is piped");
    // The program may stop reading after 4,096 bytes; then the rest cannot be written.
    let sent = stdin.write_all(input);
    assert!(sent.is_ok() || input.len() > 4096, "the program does not read its input");
    drop(stdin);
    let output = child.wait_with_output().expect("the program ends");
    assert!(output.stderr.is_empty(), "standard error: {}", String::from_utf8_lossy(&output.stderr));
    String::from_utf8(output.stdout).expect("the program prints text")
}

#[test]
fn program_prints_the_stations() {
    let Some(program) = program() else { return };
    for (input, text) in stations::printed() {
        assert_eq!(printed(&program, &input), text, "{input:?}");
    }
}

/// What the program does with this standard input and output.
fn ran(program: &PathBuf, stdin: Stdio, stdout: Stdio) -> Output {
    let child = Command::new(program).stdin(stdin).stdout(stdout).stderr(Stdio::piped()).spawn();
    child.expect("the program starts").wait_with_output().expect("the program ends")
}

/// Nothing on standard output, one line on standard error, and the exit status of every run.
fn tells(output: &Output, line: &str) {
    assert_eq!(String::from_utf8_lossy(&output.stdout), "");
    assert_eq!(String::from_utf8_lossy(&output.stderr), line);
    assert!(output.status.success(), "a program of the kit ends with 0");
}

const UNREAD: &str = "the input can't be read\n";
const UNWRITTEN: &str = "the answer can't be written\n";

/// Reading a folder fails at once: that is no empty table.
#[test]
fn program_tells_an_input_that_cannot_be_read() {
    let Some(program) = program() else { return };
    let folder = File::open(env!("CARGO_MANIFEST_DIR")).expect("the folder can be opened");
    tells(&ran(&program, folder.into(), Stdio::piped()), UNREAD);
}

/// A whole table comes, and the next read fails (nothing more is there, and the other end is open): that is
/// no end of the input.
#[test]
fn program_tells_an_input_that_breaks_off() {
    let Some(program) = program() else { return };
    let (mut sender, receiver) = UnixStream::pair().expect("a pair of sockets");
    sender.write_all(&stations::bytes(&stations::A)).expect("the table is sent");
    receiver.set_nonblocking(true).expect("the socket can be set");
    tells(&ran(&program, OwnedFd::from(receiver).into(), Stdio::piped()), UNREAD);
    drop(sender);
}

/// A table that comes in pieces is one table.
#[test]
fn program_reads_on_after_a_short_read() {
    let Some(program) = program() else { return };
    let (mut sender, receiver) = UnixStream::pair().expect("a pair of sockets");
    let table = stations::bytes(&stations::B);
    let child = Command::new(&program).stdin(OwnedFd::from(receiver)).stdout(Stdio::piped()).spawn();
    let child = child.expect("the program starts");
    for part in table.chunks(7) {
        sender.write_all(part).expect("the part is sent");
        std::thread::sleep(std::time::Duration::from_millis(2));
    }
    drop(sender);
    let output = child.wait_with_output().expect("the program ends");
    assert_eq!(String::from_utf8_lossy(&output.stdout), "no 2\n");
}

/// A full disk takes nothing.
#[test]
fn program_tells_an_answer_that_cannot_be_written() {
    let Some(program) = program() else { return };
    let table = PathBuf::from(env!("CARGO_MANIFEST_DIR")).join("../tables/A");
    let table = File::open(table).expect("tables/A is there");
    let full = File::options().write(true).open("/dev/full").expect("/dev/full is there");
    tells(&ran(&program, table.into(), full.into()), UNWRITTEN);
}

#[test]
fn program_prints_what_the_oracle_says() {
    let Some(program) = program() else { return };
    let seed = seed();
    let inputs = count(100);
    let work = |i: u64, kinds: &mut [u64; 6]| {
        let mut rng = Rng::new(seed, i);
        let input = input(&mut rng, i as usize);
        let expected = oracle::program(&input);
        assert_eq!(printed(&program, &input), expected, "{input:?}");
        let kind = KINDS.iter().position(|&start| expected.starts_with(start)).expect("it is an answer");
        // The parked states' word is the fourth.
        let parked = input.get(3) == Some(&0x11) && input.get(12..14).is_some_and(|mask| mask != [0, 0]);
        kinds[kind] += 1;
        kinds[3 + kind] += u64::from(parked && (kind < 2 || expected.starts_with("refused 19 ")));
    };
    let sum = |sum: [u64; 6], part: [u64; 6]| [0, 1, 2, 3, 4, 5].map(|i| sum[i] + part[i]);
    let kinds = spread(inputs, work).into_iter().fold([0; 6], sum);
    let (kinds_of_all, parked) = kinds.split_at(3);
    report(&format!(
        "program: seed {seed}, {inputs} inputs, yes, no, refused: {kinds_of_all:?}; with parked states yes, no, \
         refused by 19: {parked:?}"
    ));
    assert!(kinds.iter().all(|&kind| kind > 0) || inputs < 1000);
}

/// How the answers begin.
const KINDS: [&str; 3] = ["yes", "no", "refused"];

/// A table's bytes, sometimes with a parked state that moves on, sometimes damaged as words, sometimes as bytes,
/// sometimes very long.
fn input(rng: &mut Rng, i: usize) -> Vec<u8> {
    let (n, a, o) = (rng.within(1, 12), rng.within(1, 8), rng.within(1, 8));
    let mut game = gen::game(rng, SHAPES[i % SHAPES.len()], n, a, o);
    if rng.percent(5) {
        game = gen::moving_on(rng, game);
    }
    let mut table = oracle::table_words(&game);
    if rng.percent(20) {
        gen::damage(rng, &mut table);
    }
    let mut bytes = stations::bytes(&table);
    match rng.below(20) {
        0 => bytes.truncate(rng.below(bytes.len() + 1)),
        1 => bytes.resize(rng.pick(&[4092, 4095, 4096, 4097, 4100, 70_000]), 0),
        2 => bytes.push(rng.word() as u8),
        _ => (),
    }
    bytes
}
