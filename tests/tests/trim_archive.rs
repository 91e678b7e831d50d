//! The proved trimmer against its plain model, with guard words around every buffer, and what document 02's change 5
//! says of all cards, asked of the archive.
#![cfg(feature = "archive")]

use kirdanzug_tests::archive;
use kirdanzug_tests::game::Game;
use kirdanzug_tests::gen::{self, Rng, SHAPES, WIRINGS};
use kirdanzug_tests::guard::compare;
use kirdanzug_tests::idle::Idle;
use kirdanzug_tests::oracle::{self, card_length, Call, Card, Outcome, Verdict};
use kirdanzug_tests::run::{count, report, seed, spread};
use kirdanzug_tests::stations;
use kirdanzug_tests::trim;

/// How many random inputs are enough for every answer to come up; 9 on a damaged card is the rarest.
const ENOUGH: u64 = 1000;

/// What the comparisons came by.
#[derive(Default)]
struct Tally {
    calls: u64,
    /// Cards trimmed, those of them with idle cells, and the most cells kept.
    done: u64,
    idle: u64,
    most: u64,
    /// Refused by 8, 9 and 13, and the highest word at fault.
    refused: [u64; 3],
    highest: u64,
}

impl Tally {
    fn add(&mut self, card: &[u32], outcome: &Outcome) {
        self.calls += 1;
        match outcome.answer {
            [0, words, cells] => {
                self.done += 1;
                self.idle += u64::from(words < card.len() as u64);
                self.most = self.most.max(cells);
            }
            [2, 8, _] => self.refused[0] += 1,
            [2, 9, _] => self.refused[1] += 1,
            [2, 13, place] => {
                self.refused[2] += 1;
                self.highest = self.highest.max(place);
            }
            other => panic!("{other:?} is no answer of trim"),
        }
    }

    fn sum(parts: Vec<Tally>) -> Tally {
        parts.into_iter().fold(Tally::default(), |sum, part| Tally {
            calls: sum.calls + part.calls,
            done: sum.done + part.done,
            idle: sum.idle + part.idle,
            most: sum.most.max(part.most),
            refused: std::array::from_fn(|i| sum.refused[i] + part.refused[i]),
            highest: sum.highest.max(part.highest),
        })
    }

    fn report(&self, name: &str) {
        let Tally { calls, done, idle, most, refused, highest } = self;
        report(&format!(
            "trim, {name}: seed {}, {calls} calls, {done} done (up to {most} cells), {idle} of them with idle cells, \
             refused by 8, 9, 13: {refused:?} (up to word {highest})",
            seed()
        ));
    }

    /// Each answer came up: cards with idle cells and without, 8 and 9; 13 where words were damaged, and only there.
    fn must_have_all(&self, damaged: bool) {
        let Tally { done, idle, refused, .. } = self;
        assert!(0 < *idle && idle < done, "{idle} of {done} cards have idle cells");
        assert!(refused[0] > 0 && refused[1] > 0, "by 8, 9, 13: {refused:?}");
        assert_eq!(refused[2] > 0, damaged, "by 8, 9, 13: {refused:?}");
    }
}

/// Compares one call with the model.
fn try_trim(rng: &mut Rng, tally: &mut Tally, card: &[u32], work: usize, out: usize) {
    let expected = trim::outcome(card, work, out);
    compare(rng, &Call::Trim { card, work, out }, &expected);
    tally.add(card, &expected);
}

/// The words of a card, its cells, and how many words it is trimmed to.
fn sized(card: &Card) -> (Vec<u32>, usize, usize) {
    (oracle::card_words(card), card.cells.len(), card_length(trim::reached(card).len(), card.o))
}

/// A right card with exact, longer and shorter rooms, and with none.
fn try_rooms(rng: &mut Rng, tally: &mut Tally, card: &Card) {
    let (words, work, out) = sized(card);
    let (more_work, more_out) = (work + rng.within(1, 20), out + rng.within(1, 20));
    let (less_work, less_out) = (rng.below(work), rng.below(out));
    for (work, out) in [
        (work, out),
        (more_work, more_out),
        (work - 1, out),
        (less_work, more_out),
        (work, out - 1),
        (more_work, less_out),
        (more_work, words.len()),
        (0, 0),
    ] {
        try_trim(rng, tally, &words, work, out);
    }
}

/// Every work room up to some words more than are needed with every room for the card; no model is asked.
#[test]
fn every_room_of_the_cards_by_hand() {
    let (mut rng, mut tally) = (Rng::new(seed(), 0), Tally::default());
    for (_, card, trimmed) in stations::TRIMS {
        let (cells, words) = ((card[0] & 0xFFFF) as usize, trimmed.len());
        let answer = [0, words as u64, u64::from(trimmed[0] & 0xFFFF)];
        for (work, out) in (0..cells + 3).flat_map(|work| (0..words + 3).map(move |out| (work, out))) {
            let expected = match (work < cells, out < words) {
                (true, _) => Outcome::refused(8, cells as u64),
                (_, true) => Outcome { zeroed: cells, ..Outcome::refused(9, words as u64) },
                _ => Outcome { answer, zeroed: cells, written: trimmed.to_vec() },
            };
            compare(&mut rng, &Call::Trim { card, work, out }, &expected);
            tally.add(card, &expected);
        }
    }
    tally.report("cards by hand");
    tally.must_have_all(false);
}

/// All cards of few cells and observations, with every sort of room.
#[test]
fn all_small_cards() {
    let mut parts = Vec::new();
    for (cells, o) in [(1, 1), (1, 2), (1, 3), (2, 1), (2, 2), (2, 3), (3, 1), (3, 2), (4, 1), (5, 1)] {
        let work = |number: u64, tally: &mut Tally| {
            try_rooms(&mut Rng::new(seed(), number), tally, &gen::small_card(cells, o, number));
        };
        parts.extend(spread(gen::small_cards(cells, o), work));
    }
    let tally = Tally::sum(parts);
    tally.report("all small cards");
    tally.must_have_all(false);
}

/// Cards of up to forty cells, of every wiring, entered and not, with many idle cells and few; then damaged.
#[test]
fn random_cards() {
    let work = |i: u64, tally: &mut Tally| {
        let rng = &mut Rng::new(seed(), i);
        let (cells, a, o) = (rng.within(1, 40), rng.within(1, 8), rng.within(1, 8));
        let card = gen::wired(rng, WIRINGS[i as usize % WIRINGS.len()], cells, a, o, i % 5 != 0);
        try_rooms(rng, tally, &card);
        let (mut words, work, out) = sized(&card);
        gen::damage(rng, &mut words);
        // Whatever is wrong with the rooms, the card's check comes first.
        for (work, out) in [(work + 8, out + 8), (work, 0), (0, 0)] {
            try_trim(rng, tally, &words, work, out);
        }
    };
    let cards = count(5);
    let tally = Tally::sum(spread(cards, work));
    tally.report("random cards");
    if cards >= ENOUGH {
        tally.must_have_all(true);
    }
}

/// The solver's cards, for random tables and the largest antichains.
#[test]
fn cards_of_the_solver() {
    let card = |game: &Game| match oracle::decide(game) {
        Verdict::Yes { card, .. } => Some(card),
        Verdict::No { .. } => None,
    };
    let work = |i: u64, tally: &mut Tally| {
        let rng = &mut Rng::new(seed(), i);
        let (n, a, o) = (rng.within(1, 7), rng.within(1, 8), rng.within(1, 8));
        let game = gen::game(rng, SHAPES[i as usize % SHAPES.len()], n, a, o);
        card(&game).into_iter().for_each(|card| try_rooms(rng, tally, &card));
    };
    let games = count(20);
    let mut parts = spread(games, work);
    let (mut rng, mut tally) = (Rng::new(seed(), 2), Tally::default());
    for blocked in [&gen::WIDE_RING, &gen::MIXED_RING] {
        let overlapping = gen::overlapping_ring(&mut rng, blocked);
        for game in [1, 2, 8].map(|o| gen::ring(12, blocked, o)).into_iter().chain([overlapping]) {
            try_rooms(&mut rng, &mut tally, &card(&game).expect("the ring has a card"));
        }
    }
    parts.push(tally);
    let tally = Tally::sum(parts);
    tally.report("the solver's cards");
    if games >= ENOUGH {
        tally.must_have_all(false);
    }
}

/// Cards of 4,096 cells and of one less: of every wiring, the chain in the worst order, one reached cell; each also
/// with a word wrong anywhere.
#[test]
fn long_cards() {
    let (mut rng, mut tally) = (Rng::new(seed(), 1), Tally::default());
    for o in [1, 2, 5, 8] {
        let wired = WIRINGS.map(|wiring| gen::wired(&mut rng, wiring, 4096, 8, o, true));
        let unentered = gen::wired(&mut rng, WIRINGS[0], 4095, 8, o, false);
        for card in wired.into_iter().chain([unentered, gen::chain(4096, o), gen::lone(4096, o)]) {
            try_rooms(&mut rng, &mut tally, &card);
            let (mut words, work, out) = sized(&card);
            let place = rng.within(1, words.len() - 1);
            words[place] ^= 1 << rng.within(13, 31);
            try_trim(&mut rng, &mut tally, &words, work, out);
        }
    }
    tally.report("long cards");
    tally.must_have_all(true);
    assert_eq!(tally.most, 4096);
}

/// One cell, observation or action more than a card may have, the length right for its head; and none of them.
#[test]
fn heads_at_the_limits() {
    let (mut rng, mut tally) = (Rng::new(seed(), 3), Tally::default());
    let wiring = WIRINGS[0];
    for (cells, a, o) in [(4097, 1, 1), (4096, 9, 1), (4096, 8, 9), (1, 8, 9), (1, 9, 8), (4096, 8, 8), (1, 1, 1)] {
        let (words, work, out) = sized(&gen::wired(&mut rng, wiring, cells, a, o, true));
        let fits = cells <= 4096 && a <= 8 && o <= 8;
        assert_eq!(trim::outcome(&words, work, out).answer[0] == 0, fits, "{cells} cells, a {a}, o {o}");
        try_trim(&mut rng, &mut tally, &words, work, out);
    }
    for none in [0xFFFF, 0xF << 16, 0xF << 20] {
        let mut words = stations::A_CARD;
        words[0] &= !none;
        try_trim(&mut rng, &mut tally, &words, 9, 9);
    }
    assert_eq!((tally.done, tally.refused), (2, [0, 0, 8]));
}

/// Every bit of every word of some cards flipped, and each word cut off, left out or doubled.
#[test]
fn every_single_damage() {
    let (mut rng, mut tally) = (Rng::new(seed(), 4), Tally::default());
    for (_, card, trimmed) in stations::TRIMS {
        for damaged in damages(card) {
            for (work, out) in [(8, card.len() + 3), (8, trimmed.len() - 1), (1, 0), (0, 0)] {
                try_trim(&mut rng, &mut tally, &damaged, work, out);
            }
        }
    }
    tally.report("every single damage");
    tally.must_have_all(true);
}

fn damages(card: &[u32]) -> Vec<Vec<u32>> {
    let flipped = |place: usize, bit: u32| {
        let mut words = card.to_vec();
        words[place] ^= 1 << bit;
        words
    };
    let cut = |place: usize| {
        let (front, behind) = card.split_at(place);
        [front.to_vec(), [front, &behind[1..]].concat(), [front, &behind[..1], behind].concat()]
    };
    let bits = (0..card.len()).flat_map(|place| (0..32).map(move |bit| (place, bit)));
    bits.map(|(place, bit)| flipped(place, bit)).chain((0..card.len()).flat_map(cut)).collect()
}

// ---- What is said of all cards -----------------------------------------------------------------

/// The archive's answer, which must be the models'.
fn asked(rng: &mut Rng, call: Call) -> Outcome {
    let expected = oracle::outcome(&call);
    compare(rng, &call, &expected);
    expected
}

/// All that is said of a card: the cells, every move on both cards, and runs over some lists.
fn try_said(met: &mut Idle, rng: &mut Rng, card: &Card) -> (Vec<u32>, Vec<u32>) {
    let words = oracle::card_words(card);
    let trimmed = met.trimmed(&mut |call| asked(rng, call), &words);
    met.same_moves(&mut |call| asked(rng, call), &words, &trimmed);
    for _ in 0..4 {
        let numbers = gen::numbers(rng, card, 12);
        met.same_runs(&mut |call| asked(rng, call), &words, &trimmed, &numbers);
    }
    (words, trimmed)
}

#[test]
fn said_of_all_small_cards() {
    let mut met = Idle::default();
    for (cells, o) in [(1, 1), (1, 2), (2, 1), (2, 2), (3, 1), (4, 1)] {
        let work = |number: u64, met: &mut Idle| {
            try_said(met, &mut Rng::new(seed(), number), &gen::small_card(cells, o, number));
        };
        spread(gen::small_cards(cells, o), work).iter().for_each(|part| met.add(part));
    }
    report(&format!("cards without idle cells, all small: {met:?}"));
    met.must_have_all_but(&["accepted", "accepted whole", "refused", "mended"]);
}

/// Random cards, and cards for random tables: the solver's, redrawn and drawn by hand.
#[test]
fn said_of_random_cards() {
    let work = |i: u64, met: &mut Idle| {
        let mut rng = Rng::new(seed(), i);
        let (n, a, o) = (rng.within(1, 6), rng.within(1, 8), rng.within(1, 8));
        let cells = rng.within(1, 20);
        let wired = gen::wired(&mut rng, WIRINGS[i as usize % WIRINGS.len()], cells, a, o, i % 5 != 0);
        try_said(met, &mut rng, &wired);
        let game = gen::game(&mut rng, SHAPES[i as usize % SHAPES.len()], n, a, o);
        try_table(met, &mut rng, &game);
    };
    let (mut met, cards) = (Idle::default(), count(50));
    spread(cards, work).iter().for_each(|part| met.add(part));
    report(&format!("cards without idle cells, random: seed {}, {cards} cards and tables, {met:?}", seed()));
    if cards >= ENOUGH {
        met.must_have_all_but(&[]);
    }
}

/// The card that the archive itself writes for a table, trimmed, is accepted; and so stays what was accepted before.
fn try_table(met: &mut Idle, rng: &mut Rng, game: &Game) {
    let table = &oracle::table_words(game);
    let solved = archived(table).map(|words| oracle::read_card(&words).expect("solve writes a card"));
    if let Some(card) = &solved {
        let (words, trimmed) = try_said(met, rng, card);
        met.judged(&mut |call| asked(rng, call), table, &words, &trimmed);
        compare(rng, &Call::JudgeCard { table, card: &trimmed }, &Outcome::done(0, 0));
    }
    for _ in 0..3 {
        let words = gen::card_for(rng, game, solved.as_ref());
        let trimmed = met.trimmed(&mut |call| asked(rng, call), &words);
        met.judged(&mut |call| asked(rng, call), table, &words, &trimmed);
    }
}

/// The card that the archive writes for a table.
fn archived(table: &[u32]) -> Option<Vec<u32>> {
    let (mut work, mut card, mut answer) = (vec![7; 1 << 14], vec![7; card_length(924, 8)], [9; 3]);
    archive::solve(table, &mut work, &mut card, &mut answer);
    let o = (card[0] >> 16 & 15) as usize;
    (answer[0] == 0).then(|| card[..card_length(answer[2] as usize, o)].to_vec())
}

/// Long runs on the largest cards.
#[test]
fn said_of_long_cards() {
    let (mut rng, mut met) = (Rng::new(seed(), 5), Idle::default());
    let lone = [1, 8].map(|o| gen::lone(4096, o));
    let wired = WIRINGS.map(|wiring| gen::wired(&mut rng, wiring, 4096, 8, 8, true));
    for card in lone.into_iter().chain([gen::chain(4096, 1), gen::chain(4096, 8)]).chain(wired) {
        let words = oracle::card_words(&card);
        let trimmed = met.trimmed(&mut |call| asked(&mut rng, call), &words);
        for longest in [10, 100, 5000, 5000] {
            let numbers = gen::numbers(&mut rng, &card, longest);
            met.same_runs(&mut |call| asked(&mut rng, call), &words, &trimmed, &numbers);
        }
        // The whole chain, and one observation more than it has.
        for length in [4096, 4097] {
            met.same_runs(&mut |call| asked(&mut rng, call), &words, &trimmed, &vec![card.o as u32 - 1; length]);
        }
    }
    report(&format!("cards without idle cells, long: seed {}, {met:?}", seed()));
    assert!(met.idle > 0 && met.whole > 0 && met.runs[0] > 0 && met.runs[2] > 0, "{met:?}");
}

/// The station of tables/tightest: solved, its cell 0 trimmed off, accepted, run; all by hand.
#[test]
fn the_tightest_station() {
    let (table, card) = (&stations::TIGHTEST, &stations::TIGHTEST_TRIMMED);
    let solved = archived(table).expect("the answer is yes");
    let (mut work, mut out, mut answer) = ([7; 3], [7; 6], [9; 3]);
    archive::trim(&solved, &mut work, &mut out, &mut answer);
    assert_eq!((answer, work), ([0, 4, 1], [0, 0, 7]));
    assert_eq!((&out[..4], &out[4..]), (&card[..], &[7, 7][..]));
    let rng = &mut Rng::new(seed(), 6);
    compare(rng, &Call::JudgeCard { table, card }, &Outcome::done(0, 0));
    let actions = Outcome { answer: [0, 3, 0], zeroed: 0, written: vec![1; 3] };
    compare(rng, &Call::Run { card, observations: &[0, 0, 0], out: 3 }, &actions);
}
