//! The walk over a set's members (document 02, change 4), by the program `walk_vectors`, which prints it for every
//! set and action of the tables on its standard input. KIRDANZUG_WALKS names the program; otherwise it is
//! ../crates/walk_vectors/out/walk_vectors.

use kirdanzug_tests::game::{Game, Walk};
use kirdanzug_tests::gen::{self, Rng, SHAPES};
use kirdanzug_tests::oracle;
use kirdanzug_tests::run::{count, program, report, seed, spread};
use kirdanzug_tests::stations;
use std::fmt::Write as FormatWrite;
use std::fs;
use std::io::Write;
use std::path::Path;
use std::process::{Command, Stdio};

/// All that the program prints for these words: it reads them all, then it prints.
fn printed(program: &Path, words: &[u32]) -> String {
    let mut child = Command::new(program).stdin(Stdio::piped()).stdout(Stdio::piped()).spawn().expect("it starts");
    let mut stdin = child.stdin.take().expect("standard input is piped");
    stdin.write_all(&stations::bytes(words)).expect("the program reads its input");
    drop(stdin);
    let output = child.wait_with_output().expect("the program ends");
    String::from_utf8(output.stdout).expect("the program prints text")
}

/// How many walks ended at a blocked member, at one with members before it, and went on past a parked one.
#[derive(Default)]
struct Seen {
    walks: u64,
    blocked: u64,
    later: u64,
    past_parked: u64,
}

/// The words of the first table: as many as its head asks, or all where there are fewer.
fn first_length(words: &[u32]) -> usize {
    let [n, a, o, top] = words[0].to_le_bytes();
    oracle::table_length(n.into(), a.into(), o.into(), top & 1 == 1).min(words.len())
}

/// What the program should print for tables one behind the other.
fn expected(mut words: &[u32], seen: &mut Seen) -> String {
    let mut text = String::new();
    while !words.is_empty() {
        let (table, rest) = words.split_at(first_length(words));
        words = rest;
        writeln!(text, "table {}", table.len()).expect("a string takes it");
        match oracle::read_table(table) {
            Err(refusal) => writeln!(text, "refused {} {}", refusal.number, refusal.place).expect("a string takes it"),
            Ok(game) => walks(&game, &mut text, seen),
        }
    }
    text
}

/// The lines of one game: each action, each set of its states, and the set of the state behind them.
fn walks(game: &Game, text: &mut String, seen: &mut Seen) {
    for action in 0..game.a {
        for set in 0..=1u32 << game.n {
            seen.walks += 1;
            let line = match game.walk(action, set) {
                Walk::Post(successors, looked) => {
                    seen.past_parked += u64::from(looked > 1 && game.parked.is_some_and(|parked| parked & set != 0));
                    format!("post {successors} {looked}")
                }
                Walk::Blocked(member, looked) => {
                    seen.blocked += 1;
                    seen.later += u64::from(looked > 1);
                    format!("blocked {member} {looked}")
                }
            };
            writeln!(text, "walk {action} {set}: {line}").expect("a string takes it");
        }
    }
}

/// The rows of the crate `walk_vectors`, worked out by hand, are those of the model.
#[test]
fn rows_of_the_walk() {
    let folder = Path::new(env!("CARGO_MANIFEST_DIR")).join("../crates/walk_vectors");
    let input = fs::read(folder.join("stdin")).expect("stdin is there");
    let words: Vec<u32> = input.chunks_exact(4).map(|word| u32::from_le_bytes(word.try_into().unwrap())).collect();
    let mut seen = Seen::default();
    let text = fs::read_to_string(folder.join("stdout")).expect("stdout is there");
    assert_eq!(expected(&words, &mut seen), text);
    assert!(seen.blocked > 0 && seen.later > 0 && seen.past_parked > 0, "the rows have each case");
}

/// Random tables, twenty to a call, the last one damaged now and then; every fiftieth call one of twelve states.
#[test]
fn walks_of_random_tables() {
    let Some(program) = program("KIRDANZUG_WALKS", "walk_vectors") else { return };
    let seed = seed();
    let calls = count(500);
    let work = |i: u64, seen: &mut Seen| {
        let mut rng = Rng::new(seed, i);
        let mut words = Vec::new();
        let (tables, most) = if i % 50 == 7 { (1, 12) } else { (20, 6) };
        for k in 0..tables {
            let (n, a, o) = (rng.within(most / 2, most), rng.within(1, 8), rng.within(1, 8));
            let mut table = gen::table(&mut rng, SHAPES[(i as usize + k) % SHAPES.len()], n, a, o);
            if k + 1 == tables && rng.percent(30) {
                gen::damage(&mut rng, &mut table);
            }
            words.extend(table);
        }
        assert_eq!(printed(&program, &words), expected(&words, seen), "{words:x?}");
    };
    let sum = |sum: Seen, part: Seen| Seen {
        walks: sum.walks + part.walks,
        blocked: sum.blocked + part.blocked,
        later: sum.later + part.later,
        past_parked: sum.past_parked + part.past_parked,
    };
    let seen = spread(calls, work).into_iter().fold(Seen::default(), sum);
    report(&format!(
        "walks: seed {seed}, {calls} calls, {} walks, {} blocked, {} of them behind another member, {} past a parked one",
        seen.walks, seen.blocked, seen.later, seen.past_parked
    ));
}
