//! The proved solver and the independent one, both built for release, in one run on the same tables.
//! The ratio is that of the proved solver to the better of the two independent searches (boundary);
//! what the other (flat) takes stands beside them.
//!
//! `cargo run --release --bin bench` prints a table of medians and ratios, and with a file named behind
//! it (`bench PLOT.svg`) also writes a plot of time against n there. Both sides read the table's words, write
//! the card and zero the lent work words, as document 01 says. Buffers are not cleared before a call.
//! Both sides check a card once in a run, in a step and in each move of a runner. Both judges of cards read the
//! table's and the card's words in each call, both trimmers the card's, and both writers of KISS2 too. `bench trim` prints
//! the trimmers' rows alone, `bench kiss` those of the writers and readers of KISS2.
//! Answers are compared before anything is timed. What is measured is the
//! processor time of the thread, the two sides in turn, so that a busy machine does little harm.

use kirdanzug_tests::archive;
use kirdanzug_tests::fast::{self, Search};
use kirdanzug_tests::fast_kiss::Kiss;
use kirdanzug_tests::fast_trim::Trimmer;
use kirdanzug_tests::gen::{self, Rng, Shape, Wiring, SHAPES};
use kirdanzug_tests::kiss::text_of;
use kirdanzug_tests::oracle::{card_words, decide, read_card, read_table, table_words, Verdict, NO_CELL};
use kirdanzug_tests::run::seed;
use kirdanzug_tests::stations;
use kirdanzug_tests::trim;
use std::hint::black_box;
use std::path::PathBuf;

/// How often each row is measured; the median counts.
const SAMPLES: usize = 41;
/// How long one measurement takes at least, in microseconds.
const SAMPLE_TIME: f64 = 2000.0;
/// Card words that are always enough: 924 cells of 9 words, and the front.
const CARD_ROOM: usize = 1 + 8 + 924 * 9;

/// Median times per input, in microseconds, of the proved side and the independent ones, and the
/// median of the ratios of neighbouring measurements of the first two.
struct Medians {
    times: Vec<f64>,
    ratio: f64,
}

/// The processor time of this thread so far, in microseconds (Linux).
fn processor_time() -> f64 {
    #[repr(C)]
    struct Timespec {
        seconds: i64,
        nanoseconds: i64,
    }
    extern "C" {
        fn clock_gettime(clock: i32, time: *mut Timespec) -> i32;
    }
    const THREAD_CPUTIME: i32 = 3;
    let mut time = Timespec { seconds: 0, nanoseconds: 0 };
    let status = unsafe { clock_gettime(THREAD_CPUTIME, &mut time) };
    assert_eq!(status, 0, "the clock cannot be read");
    time.seconds as f64 * 1e6 + time.nanoseconds as f64 / 1e3
}

/// Times the sides in turn. Each closure works through all inputs of the row once.
fn measure(inputs: usize, sides: &mut [&mut dyn FnMut()]) -> Medians {
    let counts: Vec<u32> = sides.iter_mut().map(|side| runs(side)).collect();
    let mut samples: Vec<Vec<f64>> = vec![Vec::new(); sides.len()];
    for _ in 0..SAMPLES {
        for (i, side) in sides.iter_mut().enumerate() {
            samples[i].push(time(counts[i], side));
        }
    }
    let ratio = median(samples[0].iter().zip(&samples[1]).map(|(rattle, rust)| rattle / rust).collect());
    let times = samples.into_iter().map(|times| median(times) / inputs as f64).collect();
    Medians { times, ratio }
}

/// How many runs fill a measurement.
fn runs(work: &mut dyn FnMut()) -> u32 {
    let mut runs = 1;
    loop {
        if time(runs, work) * f64::from(runs) >= SAMPLE_TIME {
            return runs;
        }
        runs *= 2;
    }
}

/// Microseconds for one run.
fn time(runs: u32, work: &mut dyn FnMut()) -> f64 {
    let start = processor_time();
    (0..runs).for_each(|_| work());
    (processor_time() - start) / f64::from(runs)
}

fn median(mut times: Vec<f64>) -> f64 {
    times.sort_by(f64::total_cmp);
    times[times.len() / 2]
}

// ---- Solve -------------------------------------------------------------------------------------

/// A row of the benchmark: its name and the words of its tables.
struct Tables {
    name: String,
    tables: Vec<Vec<u32>>,
}

fn random_tables(shape: Shape, n: usize, count: u64) -> Vec<Vec<u32>> {
    let table = |i| table_words(&gen::unmarked_game(&mut Rng::new(seed(), i), shape, n, 8, 8));
    (0..count).map(table).collect()
}

/// The shapes of the mixed rows.
fn mixed_shapes() -> impl Iterator<Item = Shape> {
    SHAPES.into_iter().filter(|&shape| shape != Shape::Counter && shape != Shape::Ring)
}

fn mixed_tables(n: usize, count: u64) -> Vec<Vec<u32>> {
    mixed_shapes().flat_map(|shape| random_tables(shape, n, count)).collect()
}

/// The random tables with some states parked in each; none is bad as well.
fn parked_tables(shape: Shape, n: usize, count: u64) -> Vec<Vec<u32>> {
    let table = |i| {
        let rng = &mut Rng::new(seed(), i);
        let game = gen::unmarked_game(rng, shape, n, 8, 8);
        let parked = rng.some_set(n, 25) & !game.bad;
        table_words(&gen::parked_at(game, parked))
    };
    (0..count).map(table).collect()
}

fn mixed_parked_tables(n: usize, count: u64) -> Vec<Vec<u32>> {
    mixed_shapes().flat_map(|shape| parked_tables(shape, n, count)).collect()
}

/// The ring with 498 cells, and its last state parked.
fn parked_ring(o: usize) -> Vec<Vec<u32>> {
    vec![table_words(&gen::parked_at(gen::ring(12, &gen::WIDE_RING, o), 1 << 11))]
}

/// The ring with 498 cells.
fn wide_ring(o: usize) -> Vec<Vec<u32>> {
    vec![table_words(&gen::ring(12, &gen::WIDE_RING, o))]
}

/// Rings with observations that overlap: what is known lies in several cells, and the tightest need not be
/// the lowest.
fn overlapping_rows() -> Vec<Tables> {
    let row = |name: &str, blocked| Tables {
        name: format!("{name}, overlapping observations, n 12, o 8"),
        tables: vec![table_words(&gen::overlapping_ring(&mut Rng::new(seed(), 7), blocked))],
    };
    vec![row("large antichain", &gen::WIDE_RING), row("antichain of three sizes", &gen::MIXED_RING)]
}

fn rows_at_twelve() -> Vec<Tables> {
    let mut rows = Vec::new();
    let mut add = |name: String, tables| rows.push(Tables { name, tables });
    for shape in [Shape::Dense, Shape::Sparse, Shape::Blocked, Shape::Overlapping, Shape::Permutations, Shape::Uniform] {
        add(format!("random, {shape:?}, n 12, a 8, o 8"), random_tables(shape, 12, 20));
    }
    add("random, mixed, n 12, a 8, o 8".into(), mixed_tables(12, 5));
    add("knowledge counter, n 12".into(), vec![table_words(&gen::counter(12))]);
    add("large antichain, n 12, o 1".into(), wide_ring(1));
    add("large antichain, n 12, o 8".into(), wide_ring(8));
    rows
}

/// The same with parked states.
fn parked_rows_at_twelve() -> Vec<Tables> {
    let mut rows = Vec::new();
    let mut add = |name: &str, tables| rows.push(Tables { name: format!("parked, {name}"), tables });
    for shape in [Shape::Sparse, Shape::Blocked] {
        add(&format!("random, {shape:?}, n 12, a 8, o 8"), parked_tables(shape, 12, 20));
    }
    add("random, mixed, n 12, a 8, o 8", mixed_parked_tables(12, 5));
    add("ring, n 12, o 8", parked_ring(8));
    rows
}

/// The words that both sides answer and write must be the same.
fn compare_answers(table: &[u32], work: &mut [u32], solver: &mut fast::Solver) -> [u64; 3] {
    let (mut theirs, mut ours) = (vec![0; CARD_ROOM], vec![0; CARD_ROOM]);
    let mut other_work = vec![0; work.len()];
    let mut answer = [9; 3];
    archive::solve(table, work, &mut theirs, &mut answer);
    let expected = match solver.solve(table, &mut other_work, &mut ours) {
        fast::Verdict::Yes { index, cells } => [0, index.into(), cells as u64],
        fast::Verdict::No { round } => [1, round.into(), 0],
        fast::Verdict::Refused { number, place } => [2, number.into(), place as u64],
    };
    assert_eq!(answer, expected, "the solvers differ on {table:x?}");
    assert_eq!(theirs, ours, "the cards differ on {table:x?}");
    answer
}

/// What the tables of a row are: how many yes, the most cells and the largest round number or index.
fn describe(answers: &[[u64; 3]]) -> String {
    let yes = answers.iter().filter(|answer| answer[0] == 0).count();
    let cells = answers.iter().filter(|answer| answer[0] == 0).map(|answer| answer[2]).max().unwrap_or(0);
    let rounds = answers.iter().map(|answer| answer[1]).max().unwrap_or(0);
    format!("{yes} of {} yes, cells ≤ {cells}, rounds ≤ {rounds}", answers.len())
}

fn measure_solve(tables: &[Vec<u32>]) -> (Medians, String) {
    let (mut flat, mut boundary) = (fast::Solver::new(Search::Flat), fast::Solver::new(Search::Boundary));
    let mut work = vec![0u32; 4 * 4096];
    tables.iter().for_each(|table| {
        compare_answers(table, &mut work, &mut boundary);
    });
    let answers: Vec<[u64; 3]> = tables.iter().map(|table| compare_answers(table, &mut work, &mut flat)).collect();
    let [mut card, mut flat_card, mut boundary_card] = [(); 3].map(|_| vec![0u32; CARD_ROOM]);
    let [mut flat_work, mut boundary_work] = [(); 2].map(|_| work.clone());
    let mut rattle = || {
        for table in tables {
            let mut answer = [0; 3];
            archive::solve(black_box(table), &mut work, &mut card, &mut answer);
            black_box(answer);
        }
    };
    let mut rust = || solve_all(&mut boundary, tables, &mut boundary_work, &mut boundary_card);
    let mut other = || solve_all(&mut flat, tables, &mut flat_work, &mut flat_card);
    (measure(tables.len(), &mut [&mut rattle, &mut rust, &mut other]), describe(&answers))
}

fn solve_all(solver: &mut fast::Solver, tables: &[Vec<u32>], work: &mut [u32], card: &mut [u32]) {
    for table in tables {
        black_box(solver.solve(black_box(table), work, card));
    }
}

// ---- Lists and judge ---------------------------------------------------------------------------

type Archived = fn(u32, &[u32], &[u32], &mut [u32], &mut [u64; 3]);
type Independent = fn(u32, &[u32], &[u32], &mut [u32]) -> Result<usize, (u32, usize)>;

fn measure_lists(archived: Archived, independent: Independent, first: &[u32], second: &[u32]) -> (Medians, String) {
    let (mut out, mut other) = (vec![0; 4096], vec![0; 4096]);
    let mut answer = [9; 3];
    archived(12, first, second, &mut out, &mut answer);
    let length = independent(12, first, second, &mut other).expect("there is room");
    assert_eq!((answer, &out), ([0, length as u64, 0], &other), "the lists differ");
    let mut rattle = || archived(12, black_box(first), black_box(second), &mut out, &mut answer);
    let mut rust = || {
        black_box(independent(12, black_box(first), black_box(second), &mut other)).expect("there is room");
    };
    let medians = measure(1, &mut [&mut rattle, &mut rust]);
    (medians, format!("{} and {} sets to {length}", first.len(), second.len()))
}

fn measure_judge(tables: &[Vec<u32>], masks: &[u32], k: u32) -> (Medians, String) {
    let mut judge = fast::Judge::new();
    let mut good = 0;
    for (table, &mask) in tables.iter().zip(masks) {
        let mut answer = [9; 3];
        archive::judge(table, mask, k, &mut answer);
        let expected = judge.judge(table, mask, k).expect("the table is accepted");
        assert_eq!(answer, [0, expected.into(), 0], "the judges differ on {table:x?}");
        good += u32::from(expected);
    }
    let mut rattle = || {
        for (table, &mask) in tables.iter().zip(masks) {
            let mut answer = [0; 3];
            archive::judge(black_box(table), mask, k, &mut answer);
            black_box(answer);
        }
    };
    let mut rust = || {
        for (table, &mask) in tables.iter().zip(masks) {
            black_box(judge.judge(black_box(table), mask, k)).expect("the table is accepted");
        }
    };
    (measure(tables.len(), &mut [&mut rattle, &mut rust]), format!("{good} of {} good", tables.len()))
}

// ---- Cards -------------------------------------------------------------------------------------

/// A card of the solver with the observations of a play under it.
struct Played {
    card: Vec<u32>,
    cells: usize,
    observations: Vec<u32>,
}

fn played(table: &[u32], length: usize) -> Played {
    let game = read_table(table).expect("the table is accepted");
    let Verdict::Yes { card, .. } = decide(&game) else { panic!("the table has a card") };
    let observations = gen::play(&mut Rng::new(seed(), 3), &game, &card, length);
    Played { card: card_words(&card), cells: card.cells.len(), observations }
}

fn measure_run(Played { card, cells, observations }: &Played) -> (Medians, String) {
    let (mut out, mut other) = (vec![0; observations.len()], vec![0; observations.len()]);
    let mut answer = [9; 3];
    archive::run(card, observations, &mut out, &mut answer);
    let taken = fast::run(card, observations, &mut other).expect("a play is taken");
    assert_eq!((answer, &out), ([0, taken as u64, 0], &other), "the runs differ");
    let mut rattle = || archive::run(black_box(card), black_box(observations), &mut out, &mut answer);
    let mut rust = || {
        black_box(fast::run(black_box(card), black_box(observations), &mut other)).expect("a play is taken");
    };
    (measure(1, &mut [&mut rattle, &mut rust]), format!("{cells} cells"))
}

/// The cells that the play comes through, each with the observation that follows.
fn places(Played { card, observations, .. }: &Played) -> Vec<(u32, u32)> {
    let mut cell = None;
    let mut places = Vec::new();
    for &observation in observations {
        places.extend(cell.map(|cell| (cell, observation)));
        let moved = cell.map_or_else(|| fast::open(card, observation), |cell| fast::step(card, cell, observation));
        cell = Some(moved.expect("a play is taken").0);
    }
    places
}

fn words_of(moved: fast::Moved) -> [u64; 3] {
    let (cell, action) = moved.expect("a play is taken");
    [0, cell.into(), action.into()]
}

fn measure_step(played: &Played) -> (Medians, String) {
    let Played { card, cells, .. } = played;
    let places = places(played);
    for &(cell, observation) in &places {
        let mut answer = [9; 3];
        archive::step(card, cell, observation, &mut answer);
        assert_eq!(answer, words_of(fast::step(card, cell, observation)), "the steps differ");
    }
    let mut rattle = || {
        for &(cell, observation) in &places {
            let mut answer = [0; 3];
            archive::step(black_box(card), cell, observation, &mut answer);
            black_box(answer);
        }
    };
    let mut rust = || {
        for &(cell, observation) in &places {
            black_box(fast::step(black_box(card), cell, observation)).expect("a play is taken");
        }
    };
    (measure(places.len(), &mut [&mut rattle, &mut rust]), format!("{cells} cells"))
}

/// A runner opened and moved twice.
fn measure_drive(Played { card, cells, observations }: &Played) -> (Medians, String) {
    let three: [u32; 3] = observations[..3].try_into().expect("three observations");
    let mut answer = [9; 3];
    archive::drive(card, three, &mut answer);
    assert_eq!(answer, words_of(fast::drive(card, three)), "the runners differ");
    let mut rattle = || archive::drive(black_box(card), black_box(three), &mut answer);
    let mut rust = || {
        black_box(fast::drive(black_box(card), black_box(three))).expect("a play is taken");
    };
    (measure(1, &mut [&mut rattle, &mut rust]), format!("{cells} cells"))
}

/// A table and a card for it.
type Pair = (Vec<u32>, Vec<u32>);

/// Those of the tables that have a card, with the solver's.
fn solved(tables: Vec<Vec<u32>>) -> Vec<Pair> {
    let card = |table: &Vec<u32>| match decide(&read_table(table).expect("the table is accepted")) {
        Verdict::Yes { card, .. } => Some(card_words(&card)),
        Verdict::No { .. } => None,
    };
    tables.into_iter().filter_map(|table| card(&table).map(|card| (table, card))).collect()
}

/// A card drawn by hand with a cell for each of the 4,096 sets of twelve states.
fn all_sets(o: usize) -> Pair {
    let mut rng = Rng::new(seed(), 4);
    let game = gen::opened(gen::unmarked_game(&mut rng, Shape::Sparse, 12, 8, o));
    (table_words(&game), card_words(&gen::card_of_all_sets(&mut rng, &game)))
}

/// The same with three of the states parked.
fn all_parked_sets(o: usize) -> Pair {
    let mut rng = Rng::new(seed(), 4);
    let game = gen::opened(gen::unmarked_game(&mut rng, Shape::Sparse, 12, 8, o));
    let game = gen::parked_at(game, 0x888);
    (table_words(&game), card_words(&gen::card_of_all_sets(&mut rng, &game)))
}

/// The card refused early: it says of every observation that it cannot occur first.
fn refused_early((table, mut card): Pair, o: usize) -> Pair {
    card[1..=o].iter_mut().for_each(|word| *word |= NO_CELL);
    (table, card)
}

fn measure_card_judge(pairs: &[Pair]) -> (Medians, String) {
    let mut judge = fast::CardJudge::new();
    let (mut accepted, mut cells) = (0, 0);
    for (table, card) in pairs {
        let mut answer = [9; 3];
        archive::judge_card(table, card, &mut answer);
        let expected = match judge.judge(table, card) {
            Ok(()) => [0, 0, 0],
            Err((number, place)) => [2, number.into(), place as u64],
        };
        assert_eq!(answer, expected, "the judges of cards differ on {table:x?}, {card:x?}");
        accepted += u32::from(answer[0] == 0);
        cells = cells.max(card[0] & 0xFFFF);
    }
    let mut rattle = || {
        for (table, card) in pairs {
            let mut answer = [0; 3];
            archive::judge_card(black_box(table), black_box(card), &mut answer);
            black_box(answer);
        }
    };
    let mut rust = || {
        for (table, card) in pairs {
            let _ = black_box(judge.judge(black_box(table), black_box(card)));
        }
    };
    let what = format!("{accepted} of {} accepted, cells ≤ {cells}", pairs.len());
    (measure(pairs.len(), &mut [&mut rattle, &mut rust]), what)
}

/// Trims each card into rooms for the largest, on both sides.
fn measure_trim(cards: &[Vec<u32>]) -> (Medians, String) {
    let mut trimmer = Trimmer::new();
    let longest = cards.iter().map(Vec::len).max().expect("there are cards");
    let [mut work, mut other_work] = [(); 2].map(|_| vec![7u32; 4096]);
    let [mut out, mut other_out] = [(); 2].map(|_| vec![7u32; longest]);
    let (mut cells, mut kept) = (0, 0);
    for card in cards {
        let mut answer = [9; 3];
        archive::trim(card, &mut work, &mut out, &mut answer);
        let (words, left) = trimmer.trim(card, &mut other_work, &mut other_out).expect("there is room");
        assert_eq!(answer, [0, words as u64, left as u64], "the trimmers differ on {card:x?}");
        assert_eq!((&work, &out), (&other_work, &other_out), "the words differ on {card:x?}");
        (cells, kept) = (cells + (card[0] & 0xFFFF), kept + left);
    }
    let mut rattle = || {
        for card in cards {
            let mut answer = [0; 3];
            archive::trim(black_box(card), &mut work, &mut out, &mut answer);
            black_box(answer);
        }
    };
    let mut rust = || {
        for card in cards {
            black_box(trimmer.trim(black_box(card), &mut other_work, &mut other_out)).expect("there is room");
        }
    };
    let medians = measure(cards.len(), &mut [&mut rattle, &mut rust]);
    let many = if cards.len() > 1 { format!("{} cards, ", cards.len()) } else { String::new() };
    (medians, format!("{many}{kept} of {cells} cells kept"))
}

/// Writes each card as KISS2 into a room for the longest text, on both sides.
fn measure_write_kiss(cards: &[Vec<u32>]) -> (Medians, String) {
    let (mut kiss, longest) = (Kiss::new(), kirdanzug::KISS_BYTES_MAX);
    let [mut text, mut other] = [(); 2].map(|_| vec![7u8; longest]);
    let mut total = 0;
    for card in cards {
        let mut answer = [9; 3];
        archive::write_kiss(card, &mut text, &mut answer);
        let bytes = kiss.write(card, &mut other).expect("it has a text");
        assert_eq!(answer, [0, bytes as u64, 0], "the writers differ on {card:x?}");
        assert!(text == other, "the texts differ on {card:x?}");
        total += bytes;
    }
    let mut rattle = || {
        for card in cards {
            let mut answer = [0; 3];
            archive::write_kiss(black_box(card), &mut text, &mut answer);
            black_box(answer);
        }
    };
    let mut rust = || {
        for card in cards {
            black_box(kiss.write(black_box(card), &mut other)).expect("it has a text");
        }
    };
    (measure(cards.len(), &mut [&mut rattle, &mut rust]), described(cards, total))
}

/// Reads the text of each card, on both sides.
fn measure_read_kiss(cards: &[Vec<u32>]) -> (Medians, String) {
    let mut kiss = Kiss::new();
    let [mut out, mut other] = [(); 2].map(|_| vec![7u32; kirdanzug::KISS_CARD_WORDS_MAX]);
    let text = |card: &Vec<u32>| text_of(&read_card(card).expect("it is a card")).into_bytes();
    let texts: Vec<Vec<u8>> = cards.iter().map(text).collect();
    for text in &texts {
        let mut answer = [9; 3];
        archive::read_kiss(text, &mut out, &mut answer);
        let (words, cells) = kiss.read(text, &mut other).expect("it is a text");
        assert_eq!(answer, [0, words as u64, cells as u64], "the readers differ on {}", text.escape_ascii());
        assert_eq!(out, other, "the cards differ on {}", text.escape_ascii());
    }
    let mut rattle = || {
        for text in &texts {
            let mut answer = [0; 3];
            archive::read_kiss(black_box(text), &mut out, &mut answer);
            black_box(answer);
        }
    };
    let mut rust = || {
        for text in &texts {
            black_box(kiss.read(black_box(text), &mut other)).expect("it is a text");
        }
    };
    let medians = measure(cards.len(), &mut [&mut rattle, &mut rust]);
    (medians, described(cards, texts.iter().map(Vec::len).sum()))
}

/// How many cells the cards have, and how many bytes their texts.
fn described(cards: &[Vec<u32>], bytes: usize) -> String {
    let cells: u32 = cards.iter().map(|card| card[0] & 0xFFFF).sum();
    let many = if cards.len() > 1 { format!("{} cards, ", cards.len()) } else { String::new() };
    format!("{many}{cells} cells, {bytes} bytes")
}

/// The solver's cards for those of the tables that have one.
fn solved_cards(tables: Vec<Vec<u32>>) -> Vec<Vec<u32>> {
    solved(tables).into_iter().map(|(_, card)| card).collect()
}

/// The cards without their idle cells.
fn without_idle(cards: Vec<Vec<u32>>) -> Vec<Vec<u32>> {
    let trimmed = |card: &Vec<u32>| card_words(&trim::trimmed(&read_card(card).expect("it is a card")));
    cards.iter().map(trimmed).collect()
}

/// An antichain of so many random sets of six states.
fn random_antichain(rng: &mut Rng, length: usize) -> Vec<u32> {
    let mut sets: Vec<u32> = (0..4096u32).filter(|set| set.count_ones() == 6).collect();
    for i in 0..length {
        let other = rng.within(i, sets.len() - 1);
        sets.swap(i, other);
    }
    sets.truncate(length);
    sets.sort_unstable();
    sets
}

// ---- What is printed ---------------------------------------------------------------------------

fn print_head() {
    println!("| input | what | Rattle µs | Rust µs | ratio | Rust, flat search µs |");
    println!("|---|---|--:|--:|--:|--:|");
}

fn print_row(name: &str, (medians, what): &(Medians, String)) {
    let (times, ratio) = (&medians.times, medians.ratio);
    let other = times.get(2).map_or(String::new(), |time| format!("{time:.2}"));
    println!("| {name} | {what} | {:.2} | {:.2} | {ratio:.2} | {other} |", times[0], times[1]);
}

fn main() {
    let plot = std::env::args().nth(1).map(PathBuf::from);
    println!("Median of {SAMPLES} measurements, per call; ratio is Rattle over Rust. Seed {}.\n", seed());
    match plot.as_deref().and_then(|name| name.to_str()) {
        Some("trim") => return print_trims(),
        Some("kiss") => return print_kisses(),
        _ => (),
    }
    print_head();
    let mut ratios = Vec::new();
    for row in rows_at_twelve() {
        let measured = measure_solve(&row.tables);
        print_row(&format!("solve: {}", row.name), &measured);
        ratios.push(measured.0.ratio);
    }
    // Not counted in the median, which stays that of the rows before change 3.
    for row in overlapping_rows() {
        print_row(&format!("solve: {}", row.name), &measure_solve(&row.tables));
    }
    print_lists();
    print_judges();
    print_cards();
    print_card_judges();
    println!("\nMedian ratio of the solve rows: {:.2}\n", median(ratios));
    print_parked();
    print_trims();
    println!();
    print_kisses();
    println!();
    print_head();
    let curves = growth();
    match plot {
        Some(path) => write_plot(&path, &curves),
        None => println!("\nNo plot was asked for: `cargo run --release --bin bench PLOT.svg` writes one."),
    }
}

fn print_lists() {
    let mut rng = Rng::new(seed(), 1);
    let of_size = |size| -> Vec<u32> { (0..4096u32).filter(|set| set.count_ones() == size).collect() };
    let (six, five) = (of_size(6), of_size(5));
    let (first, second) = (random_antichain(&mut rng, 60), random_antichain(&mut rng, 60));
    let short: (&[u32], &[u32]) = (&[0x00F, 0x0F0, 0xF00], &[0x333, 0xCCC]);
    for (name, first, second) in
        [("all of six, all of five", &six[..], &five[..]), ("sixty random", &first, &second), ("short", short.0, short.1)]
    {
        print_row(&format!("join: {name}, n 12"), &measure_lists(archive::join, fast::join, first, second));
        print_row(&format!("meet: {name}, n 12"), &measure_lists(archive::meet, fast::meet, first, second));
    }
}

fn print_judges() {
    let mut rng = Rng::new(seed(), 2);
    for shape in [Shape::Sparse, Shape::Blocked, Shape::Overlapping] {
        let tables = random_tables(shape, 12, 20);
        let masks: Vec<u32> = tables.iter().map(|_| rng.some_set(12, 15)).collect();
        print_row(&format!("judge: {shape:?}, n 12, k 4"), &measure_judge(&tables, &masks, 4));
    }
}

fn print_cards() {
    let wide = &wide_ring(8)[0];
    for (name, table) in [("large antichain, o 8", &wide[..]), ("station C", &stations::C)] {
        for length in [1000, 10] {
            print_row(&format!("run: {name}, {length} observations"), &measure_run(&played(table, length)));
        }
        let few = played(table, 21);
        print_row(&format!("step: {name}"), &measure_step(&few));
        print_row(&format!("runner: {name}, 3 observations"), &measure_drive(&few));
    }
}

fn print_card_judges() {
    let row = |name: &str, pairs: &[Pair]| print_row(&format!("judge of cards: {name}"), &measure_card_judge(pairs));
    row("station A", &[(stations::A.to_vec(), stations::A_CARD.to_vec())]);
    row("random, mixed, n 12, a 8, o 8", &solved(mixed_tables(12, 5)));
    row("rings, n 12, a 8, o 8", &solved(random_tables(Shape::Ring, 12, 20)));
    for o in [1, 8] {
        row(&format!("large antichain, n 12, o {o}"), &solved(wide_ring(o)));
    }
    for o in [1, 8] {
        row(&format!("all sets, by hand, n 12, o {o}"), &[all_sets(o)]);
        row(&format!("all sets, refused at a first word, o {o}"), &[refused_early(all_sets(o), o)]);
    }
}

/// Cards without idle cells: the solver's, of which some have idle cells and some not, and cards of 4,096 cells.
fn print_trims() {
    print_head();
    let row = |name: &str, cards: &[Vec<u32>]| print_row(&format!("trim: {name}"), &measure_trim(cards));
    row("station A", &[stations::A_CARD.to_vec()]);
    row("station tightest", &[stations::TIGHTEST_CARD.to_vec()]);
    row("random, mixed, n 12, a 8, o 8", &solved_cards(mixed_tables(12, 5)));
    row("rings, n 12, a 8, o 8", &solved_cards(random_tables(Shape::Ring, 12, 20)));
    for o in [1, 8] {
        row(&format!("large antichain, n 12, o {o}"), &solved_cards(wide_ring(o)));
    }
    for Tables { name, tables } in overlapping_rows() {
        let cards = solved_cards(tables);
        row(&name, &cards);
        row(&format!("{name}, again"), &without_idle(cards));
    }
    for o in [1, 8] {
        row(&format!("chain of 4,096 cells, o {o}"), &[card_words(&gen::chain(4096, o))]);
        row(&format!("one reached cell of 4,096, o {o}"), &[card_words(&gen::lone(4096, o))]);
    }
    for o in [2, 8] {
        let card = gen::wired(&mut Rng::new(seed(), 5), Wiring::Islands, 4096, 8, o, true);
        row(&format!("cells in islands, 4,096, o {o}"), &[card_words(&card)]);
    }
}

/// Cards as KISS2 text: the solver's without their idle cells, and cards of 4,096 cells, all reached.
fn print_kisses() {
    print_head();
    let row = |name: &str, cards: &[Vec<u32>]| {
        print_row(&format!("write KISS2: {name}"), &measure_write_kiss(cards));
        print_row(&format!("read KISS2: {name}"), &measure_read_kiss(cards));
    };
    row("station A", &[stations::A_CARD.to_vec()]);
    row("random, mixed, n 12, a 8, o 8", &without_idle(solved_cards(mixed_tables(12, 5))));
    for o in [1, 8] {
        row(&format!("large antichain, n 12, o {o}"), &without_idle(solved_cards(wide_ring(o))));
    }
    for Tables { name, tables } in overlapping_rows() {
        row(&name, &without_idle(solved_cards(tables)));
    }
    row("chain of 4,096 cells, o 1", &[card_words(&gen::chain(4096, 1))]);
    for (o, share) in [(1, 100), (2, 75), (8, 50), (8, 100)] {
        let card = gen::full_card(&mut Rng::new(seed(), 6), 4096, 8, o, share);
        row(&format!("4,096 cells at random, o {o}, {share} of 100 occur"), &[card_words(&card)]);
    }
}

/// The rows with parked states: solve, the plain judge, the judge of cards.
fn print_parked() {
    print_head();
    for row in parked_rows_at_twelve() {
        print_row(&format!("solve: {}", row.name), &measure_solve(&row.tables));
    }
    let mut rng = Rng::new(seed(), 2);
    for shape in [Shape::Sparse, Shape::Blocked] {
        let tables = parked_tables(shape, 12, 20);
        let masks: Vec<u32> = tables.iter().map(|_| rng.some_set(12, 15)).collect();
        print_row(&format!("judge: parked, {shape:?}, n 12, k 4"), &measure_judge(&tables, &masks, 4));
    }
    let row = |name: &str, pairs: &[Pair]| {
        print_row(&format!("judge of cards: parked, {name}"), &measure_card_judge(pairs));
    };
    row("station N", &[(stations::N.to_vec(), stations::N_CARD.to_vec())]);
    row("random, mixed, n 12, a 8, o 8", &solved(mixed_parked_tables(12, 5)));
    row("all sets, by hand, n 12, o 8", &[all_parked_sets(8)]);
    println!();
}

/// A curve of the plot: its name and, for each n, the medians.
struct Curve {
    name: &'static str,
    points: Vec<(usize, Medians)>,
}

fn growth() -> Vec<Curve> {
    let kinds: [(&'static str, fn(usize) -> Vec<Vec<u32>>); 3] = [
        ("random, a 8, o 8", |n| mixed_tables(n, 5)),
        ("knowledge counter", |n| vec![table_words(&gen::counter(n))]),
        ("rings, a 8, o 8", |n| random_tables(Shape::Ring, n, 20)),
    ];
    let curve = |(name, tables): (&'static str, fn(usize) -> Vec<Vec<u32>>)| {
        let point = |n| {
            let measured = measure_solve(&tables(n));
            print_row(&format!("growth: {name}, n {n}"), &measured);
            (n, measured.0)
        };
        Curve { name, points: (4..=12).map(point).collect() }
    };
    kinds.into_iter().map(curve).collect()
}

// ---- The plot ----------------------------------------------------------------------------------

const WIDTH: f64 = 760.0;
const HEIGHT: f64 = 460.0;
const LEFT: f64 = 80.0;
const RIGHT: f64 = 540.0;
const TOP: f64 = 50.0;
const BOTTOM: f64 = 400.0;

/// The place of n on the x axis, 4 to 12.
fn across(n: usize) -> f64 {
    LEFT + (n as f64 - 4.0) / 8.0 * (RIGHT - LEFT)
}

/// The place of a time on the y axis, in powers of ten from `least` to `most`.
fn down(time: f64, least: f64, most: f64) -> f64 {
    BOTTOM - (time.log10() - least) / (most - least) * (BOTTOM - TOP)
}

fn write_plot(path: &PathBuf, curves: &[Curve]) {
    let times = || curves.iter().flat_map(|curve| &curve.points).flat_map(|(_, medians)| &medians.times[..2]);
    let times = || times().copied();
    let least = times().fold(f64::MAX, f64::min).log10().floor();
    let most = times().fold(f64::MIN, f64::max).log10().ceil();
    let mut svg = format!(
        "<svg xmlns=\"http://www.w3.org/2000/svg\" viewBox=\"0 0 {WIDTH} {HEIGHT}\" \
         font-family=\"sans-serif\" font-size=\"12\">\n<rect width=\"{WIDTH}\" height=\"{HEIGHT}\" fill=\"white\"/>\n\
         <text x=\"{LEFT}\" y=\"28\" font-size=\"15\">Time of one solve against the number of states</text>\n"
    );
    svg += &axes(least, most);
    for (number, curve) in curves.iter().enumerate() {
        let color = ["#0072b2", "#d55e00", "#009e73"][number % 3];
        let line = |side: usize| -> Vec<(f64, f64)> {
            curve.points.iter().map(|(n, medians)| (across(*n), down(medians.times[side], least, most))).collect()
        };
        let legend = TOP + 20.0 + number as f64 * 50.0;
        svg += &drawn(&line(0), color, "none", legend, &format!("{}: Rattle", curve.name));
        svg += &drawn(&line(1), color, "6 4", legend + 20.0, &format!("{}: Rust", curve.name));
    }
    svg += "</svg>\n";
    std::fs::write(path, svg).unwrap_or_else(|error| panic!("{}: {error}", path.display()));
    println!("\nPlot: {}", path.display());
}

/// The frame, a line for each power of ten and a mark for each n.
fn axes(least: f64, most: f64) -> String {
    let mut svg = String::new();
    for power in least as i32..=most as i32 {
        let y = down(10f64.powi(power), least, most);
        let label = 10f64.powi(power);
        svg += &format!("<line x1=\"{LEFT}\" y1=\"{y:.1}\" x2=\"{RIGHT}\" y2=\"{y:.1}\" stroke=\"#dddddd\"/>\n");
        svg += &format!("<text x=\"{}\" y=\"{:.1}\" text-anchor=\"end\">{label} µs</text>\n", LEFT - 8.0, y + 4.0);
    }
    for n in 4..=12 {
        let x = across(n);
        svg += &format!("<text x=\"{x:.1}\" y=\"{}\" text-anchor=\"middle\">{n}</text>\n", BOTTOM + 18.0);
    }
    let middle = (LEFT + RIGHT) / 2.0;
    svg += &format!("<text x=\"{middle}\" y=\"{}\" text-anchor=\"middle\">states n</text>\n", BOTTOM + 40.0);
    svg
}

/// A line with its entry in the legend.
fn drawn(points: &[(f64, f64)], color: &str, dashes: &str, legend: f64, name: &str) -> String {
    let path: Vec<String> = points.iter().map(|(x, y)| format!("{x:.1},{y:.1}")).collect();
    let style = format!("fill=\"none\" stroke=\"{color}\" stroke-width=\"2\" stroke-dasharray=\"{dashes}\"");
    let (from, to, label) = (RIGHT + 15.0, RIGHT + 45.0, RIGHT + 52.0);
    format!(
        "<polyline points=\"{}\" {style}/>\n<line x1=\"{from}\" y1=\"{legend}\" x2=\"{to}\" y2=\"{legend}\" {style}/>\n\
         <text x=\"{label}\" y=\"{}\">{name}</text>\n",
        path.join(" "),
        legend + 4.0
    )
}
