//! The models against what document 01 itself says: stations, refusals, printed text; and against the stations
//! with parked states, those in which several cells hold the states in question, trimmed cards and cards as text,
//! worked out by hand.

use kirdanzug_tests::check::{
    differ_in_names, holds_by_states, keeps_clear, keeps_within, names_tightest, no_holds, Runner,
};
use kirdanzug_tests::fast::{self, Search};
use kirdanzug_tests::fast_kiss::Kiss;
use kirdanzug_tests::fast_trim::Trimmer;
use kirdanzug_tests::game::{self, Game};
use kirdanzug_tests::oracle::{self, Call, Refusal, Verdict};
use kirdanzug_tests::stations::{self, Row};
use kirdanzug_tests::texts;

fn check(rows: Vec<Row>) {
    for Row { name, call, outcome } in rows {
        assert_eq!(oracle::outcome(&call), outcome, "{name}: {call:?}");
    }
}

#[test]
fn oracle_gives_the_stations() {
    check(stations::stations());
}

#[test]
fn oracle_gives_every_refusal() {
    check(stations::refusals());
}

#[test]
fn oracle_gives_the_runs() {
    check(stations::runs());
}

#[test]
fn oracle_gives_the_checks() {
    check(stations::checks());
}

#[test]
fn oracle_gives_the_judged_cards() {
    check(stations::judged());
}

#[test]
fn oracle_gives_the_stations_with_parked_states() {
    check(stations::parked_stations());
    check(stations::parked_cards());
}

#[test]
fn oracle_gives_the_refusals_with_parked_states() {
    check(stations::parked_refusals());
    check(stations::parked_writes());
}

#[test]
fn oracle_gives_the_tightest_cells() {
    check(stations::tightest_stations());
    check(stations::tightest_cards());
}

#[test]
fn oracle_gives_the_trimmed_cards() {
    check(stations::trimmed());
    check(stations::trim_refusals());
}

#[test]
fn oracle_gives_the_texts() {
    check(texts::texts());
    check(texts::text_refusals());
}

#[test]
fn oracle_gives_the_departures() {
    check(texts::departures());
}

#[test]
fn every_number_has_a_row() {
    let answers = stations::rows().map(|row| row.outcome.answer);
    let numbers: Vec<u64> = answers.filter(|answer| answer[0] == 2).map(|answer| answer[1]).collect();
    for number in (1..=19).chain(20..=21) {
        assert!(numbers.contains(&number), "{number} has no row");
    }
}

#[test]
fn oracle_prints_the_text() {
    for (input, text) in stations::printed() {
        assert_eq!(oracle::program(&input), text);
    }
}

/// The families of station A as document 01 lists them: (7), (3), (1, 2), settled at 2.
#[test]
fn families_of_station_a() {
    let game = oracle::read_table(&stations::A).unwrap();
    let good_for = |k| -> Vec<u32> {
        let family: Vec<bool> = (0..8).map(|set| game::good(&game, set, k)).collect();
        game::maximal(3, &family)
    };
    assert_eq!(good_for(0), [7]);
    assert_eq!(good_for(1), [3]);
    assert_eq!(good_for(2), [1, 2]);
    assert_eq!(good_for(3), [1, 2]);
    assert_eq!(game::families(&game).index, 2);
}

/// "Where it is the only one, the list is (0)".
#[test]
fn only_the_empty_set_is_good() {
    let game = oracle::read_table(&stations::D).unwrap();
    assert_eq!(game::maximal(1, &game::families(&game).family), [0]);
}

/// The families of the stations N and P, with parked states, worked out by hand.
#[test]
fn families_with_parked_states() {
    let good_for = |table: &[u32], k| -> Vec<u32> {
        let game = oracle::read_table(table).unwrap();
        let family: Vec<bool> = (0..1 << game.n).map(|set| game::good(&game, set, k)).collect();
        game::maximal(game.n, &family)
    };
    let lists = |table| [0, 1, 2, 3].map(|k| good_for(table, k));
    assert_eq!(lists(&stations::N), [vec![15], vec![7], vec![5, 6], vec![5, 6]]);
    assert_eq!(lists(&stations::P), [vec![7], vec![3], vec![3], vec![3]]);
    assert_eq!(lists(&stations::E_LOST), [vec![1], vec![0], vec![0], vec![0]]);
}

/// The families of the stations in which several cells hold the states in question, worked out by hand.
#[test]
fn families_of_the_tightest_cells() {
    let lists = |table: &[u32]| {
        let game = oracle::read_table(table).unwrap();
        let good_for = |k| -> Vec<bool> { (0..1 << game.n).map(|set| game::good(&game, set, k)).collect() };
        [0, 1, 2].map(|k| game::maximal(game.n, &good_for(k)))
    };
    assert_eq!(lists(&stations::TIGHTEST), [vec![15], vec![7, 9], vec![7, 9]]);
    assert_eq!(lists(&stations::TIED), [vec![31], vec![7, 9, 17], vec![7, 9, 17]]);
}

/// The check of the tightest takes the cards written by hand, and refuses each in which one word names the widest
/// cell, the first found or the highest of those with the fewest states; and what is no such cell at all.
#[test]
fn check_of_the_tightest_tells_right_from_wrong() {
    use stations::*;
    let others: [(&[u32], &[u32]); 15] = [
        (&TIGHTEST, &TIGHTEST_FIRST_WIDE),
        (&TIGHTEST, &TIGHTEST_NEXT_WIDE),
        (&TIGHTEST, &TIGHTEST_LOWEST),
        (&TIED, &TIED_FIRST_HIGHEST),
        (&TIED, &TIED_NEXT_HIGHEST),
        (&TIED, &TIED_NEXT_WIDE),
        (&TIED, &TIED_LOWEST),
        // No such cell, none though some state is in question, and one though none is.
        (&TIGHTEST, &with(TIGHTEST_CARD, 3, 0xB0000002)),
        (&TIED, &with(TIED_CARD, 1, 0x9000FFFF)),
        (&C, &with(C_CARD, 8, 0xB0010001)),
        (&E_PARKED, &with(E_PARKED_CARD, 3, 0xB0000000)),
        // A cell that does not hold the states.
        (&A, &with(A_CARD, 3, 0xB0000000)),
        (&C, &with(C_CARD, 5, 0xB0010000)),
        (&N, &with(N_CARD, 2, 0x90010001)),
        (&N, &with(N_CARD, 7, 0xB0000001)),
    ];
    let right: [(&[u32], &[u32]); 8] = [
        (&TIGHTEST, &TIGHTEST_CARD),
        (&TIED, &TIED_CARD),
        (&A, &A_CARD),
        (&C, &C_CARD),
        (&F, &F_CARD),
        (&M, &M_CARD),
        (&N, &N_CARD),
        (&E_PARKED, &E_PARKED_CARD),
    ];
    for (table, card) in right {
        assert_eq!(names_tightest(table, card), Ok(()), "{card:x?}");
    }
    for (table, card) in others {
        assert!(names_tightest(table, card).is_err(), "{card:x?}");
    }
}

/// Cards of the two rules: the lowest cell named is what document 01 had, and nothing else differs.
#[test]
fn cards_of_both_rules() {
    use stations::*;
    let lowest = |table: &[u32]| match oracle::decide_by(&game_of(table), oracle::lowest) {
        Verdict::Yes { card, .. } => oracle::card_words(&card),
        Verdict::No { .. } => panic!("the answer is yes"),
    };
    assert_eq!(lowest(&TIGHTEST), TIGHTEST_LOWEST);
    assert_eq!(lowest(&TIED), TIED_LOWEST);
    assert_eq!(lowest(&A), A_CARD);
    assert_eq!(differ_in_names(&TIGHTEST_CARD, &TIGHTEST_LOWEST), Ok(3));
    assert_eq!(differ_in_names(&TIED_CARD, &TIED_LOWEST), Ok(4));
    assert_eq!(differ_in_names(&TIED_CARD, &TIED_CARD), Ok(0));
    // The head, a cell's set, its action, an observation, "cannot occur", the length.
    let damages = [(0, 0x80310002), (4, 0xA010000B), (4, 0xA0000009), (1, 0x90010001), (5, 0xB000FFFF)];
    let others = damages.map(|(place, word)| with(TIED_CARD, place, word));
    for other in others.iter().map(|card| &card[..]).chain([&TIED_CARD[..7]]) {
        assert!(differ_in_names(&TIED_CARD, other).is_err(), "{other:x?}");
    }
}

/// The write's refusals, 2, 11, 5, 6, 7, 10 in this order; 19 and the bit stand among the rows.
#[test]
fn writing_fields() {
    let fields = oracle::read_fields(&stations::A).unwrap();
    assert_eq!(fields, stations::A_FIELDS);
    let refused = |number, place| Err(Refusal { number, place });
    let write = |change: &dyn Fn(&mut oracle::Fields), room| {
        let mut changed = fields.clone();
        change(&mut changed);
        oracle::write_fields(&changed, room)
    };
    assert_eq!(write(&|_| (), 10), Ok(stations::A.to_vec()));
    assert_eq!(write(&|_| (), 9), refused(10, 10));
    assert_eq!(write(&|f| f.observations[0] = 3, 9), refused(7, 2));
    assert_eq!(write(&|f| (f.start, f.observations[0]) = (0, 3), 9), refused(6, 1));
    assert_eq!(write(&|f| (f.start, f.moves[5]) = (0, 8), 9), refused(5, 9));
    assert_eq!(write(&|f| f.bad = 1 << 16, 10), refused(5, 2));
    assert_eq!(write(&|f| f.observations[0] = 15, 10), refused(5, 3));
    assert_eq!(write(&|f| f.observations[1] = 1, 10), refused(11, 0));
    assert_eq!(write(&|f| f.moves[6] = 1, 10), refused(11, 0));
    assert_eq!(write(&|f| f.moves[95] = 8, 10), refused(11, 0));
    assert_eq!(write(&|f| (f.start, f.moves[6]) = (8, 1), 10), refused(11, 0));
    for n in [0, 13, 259] {
        assert_eq!(write(&|f| (f.n, f.moves[95]) = (n, 1), 10), refused(2, 0));
    }
    assert_eq!(write(&|f| f.a = 9, 10), refused(2, 0));
    assert_eq!(write(&|f| f.o = 0, 10), refused(2, 0));
}

/// The fast models give the stations too.
#[test]
fn fast_models_give_the_stations() {
    [Search::Flat, Search::Boundary].into_iter().for_each(fast_model_gives_the_stations);
}

fn fast_model_gives_the_stations(search: Search) {
    let mut solver = fast::Solver::new(search);
    let mut judge = fast::Judge::new();
    let mut card_judge = fast::CardJudge::new();
    let mut trimmer = Trimmer::new();
    let mut kiss = Kiss::new();
    for Row { name, call, outcome } in stations::rows() {
        let mut out = vec![0; 64];
        let mut bytes = vec![0; 900];
        let found = match call {
            Call::Solve { table, work, card } => {
                match solver.solve(table, &mut vec![7; work], &mut out[..card]) {
                    fast::Verdict::Yes { index, cells } => [0, index.into(), cells as u64],
                    fast::Verdict::No { round } => [1, round.into(), 0],
                    fast::Verdict::Refused { number, place } => [2, number.into(), place as u64],
                }
            }
            Call::Judge { table, mask, k } => answer(judge.judge(table, mask, k).map(usize::from)),
            Call::Join { n, first, second, out: room } => answer(fast::join(n, first, second, &mut out[..room])),
            Call::Meet { n, first, second, out: room } => answer(fast::meet(n, first, second, &mut out[..room])),
            Call::Open { card, observation } => moved(fast::open(card, observation)),
            Call::Step { card, cell, observation } => moved(fast::step(card, cell, observation)),
            Call::Run { card, observations, out: room } => answer(fast::run(card, observations, &mut out[..room])),
            Call::Drive { card, observations } => moved(fast::drive(card, observations)),
            Call::JudgeCard { table, card } => answer(card_judge.judge(table, card).map(|()| 0)),
            Call::Trim { card, work, out: room } => {
                let done = trimmer.trim(card, &mut vec![7; work], &mut out[..room]);
                done.map_or_else(|refusal| answer(Err(refusal)), |(words, cells)| [0, words as u64, cells as u64])
            }
            Call::WriteKiss { card, text } => {
                let found = answer(kiss.write(card, &mut bytes[..text]));
                out = bytes.into_iter().map(u32::from).collect();
                found
            }
            Call::ReadKiss { text, out: room } => {
                let done = kiss.read(text, &mut out[..room]);
                done.map_or_else(|refusal| answer(Err(refusal)), |(words, cells)| [0, words as u64, cells as u64])
            }
            // The benchmark has none of these.
            Call::Rewrite { .. }
            | Call::CheckTable { .. }
            | Call::CheckCard { .. }
            | Call::Write { .. }
            | Call::Show { .. } => continue,
        };
        assert_eq!(found, outcome.answer, "{name}");
        assert_eq!(out[..outcome.written.len()], outcome.written, "{name}");
    }
}

fn answer(result: Result<usize, (u32, usize)>) -> [u64; 3] {
    match result {
        Ok(value) => [0, value as u64, 0],
        Err((number, place)) => [2, number.into(), place as u64],
    }
}

fn moved(result: fast::Moved) -> [u64; 3] {
    match result {
        Ok((cell, action)) => [0, cell.into(), action.into()],
        Err((number, place)) => [2, number.into(), place as u64],
    }
}

/// A runner over the oracle's reading of a card.
struct CardRunner<'a>(&'a [u32]);

impl Runner for CardRunner<'_> {
    fn open(&mut self, observation: usize) -> Option<(u32, u32)> {
        oracle::open(self.0, observation as u32).ok()
    }
    fn step(&mut self, cell: u32, observation: usize) -> Option<(u32, u32)> {
        oracle::step(self.0, cell, observation as u32).ok()
    }
}

fn game_of(table: &[u32]) -> Game {
    oracle::read_table(table).unwrap()
}

/// The checkers accept what the document says and refuse what it calls wrong.
#[test]
fn checkers_tell_right_from_wrong() {
    let played = |table: &[u32], card: &[u32]| keeps_clear(&game_of(table), &mut CardRunner(card));
    assert_eq!(played(&stations::A, &stations::A_CARD), Ok(()));
    assert_eq!(played(&stations::C, &stations::C_CARD), Ok(()));
    // A's card does not keep B clear, D and E have no card, and a card may refuse too early.
    assert!(played(&stations::B, &stations::A_CARD).is_err());
    assert!(played(&stations::D, &stations::F_CARD).is_err());
    assert!(played(&stations::E, &stations::F_CARD).is_err());
    assert!(played(&stations::A, &stations::with(stations::A_CARD, 5, 0xB000FFFF)).is_err());
    assert!(played(&stations::A, &stations::with(stations::A_CARD, 1, 0x9000FFFF)).is_err());
    // A play that ends in a parked state ended well, but not in one that is bad too.
    assert_eq!(played(&stations::E_PARKED, &stations::E_PARKED_CARD), Ok(()));
    assert_eq!(played(&stations::M, &stations::M_CARD), Ok(()));
    assert_eq!(played(&stations::N, &stations::N_CARD), Ok(()));
    assert!(played(&stations::E_LOST, &stations::E_PARKED_CARD).is_err());
    assert!(played(&stations::E, &stations::E_PARKED_CARD).is_err());
    assert!(played(&stations::M_UNMARKED, &stations::M_CARD).is_err());
    assert!(played(&stations::N_UNMARKED, &stations::N_CARD).is_err());
    let rounds = [
        (&stations::B[..], 2),
        (&stations::D, 1),
        (&stations::E, 1),
        (&stations::G, 4),
        (&stations::H, 2),
        (&stations::E_LOST, 1),
        (&stations::G_LOST, 4),
        (&stations::M_UNMARKED, 1),
        (&stations::N_UNMARKED, 1),
    ];
    for (table, k) in rounds {
        assert_eq!(no_holds(&game_of(table), k), Ok(()));
        assert!(no_holds(&game_of(table), k + 1).is_err());
        assert!(no_holds(&game_of(table), k - 1).is_err());
    }
    for k in 1..8 {
        assert!(no_holds(&game_of(&stations::A), k).is_err());
    }
}

/// A safe card need not be accepted: the set of cell 1 says that the cell is never entered, though it is.
#[test]
fn a_safe_card_whose_set_says_too_little() {
    let (game, words) = (game_of(&stations::A), &stations::A_CARD_SILENT);
    let card = oracle::read_card(words).unwrap();
    let set = |cell: u32| card.cells[cell as usize].mask;
    assert_eq!(keeps_clear(&game, &mut CardRunner(words)), Ok(()));
    assert!(keeps_within(&game, &mut CardRunner(words), set).is_err());
    assert!(!holds_by_states(&game, &card));
    assert_eq!(oracle::judge_card(&stations::A, words), Err(Refusal { number: 18, place: 3 }));
}
