//! The models of the trimmer against each other, without the archive: the plain one, what lists of observations
//! lead to, the check on words and the quick one; and what document 02's change 5 says of all cards.

use kirdanzug_tests::check::is_trimmed;
use kirdanzug_tests::fast_trim::Trimmer;
use kirdanzug_tests::game::Game;
use kirdanzug_tests::gen::{self, Rng, SHAPES, WIRINGS};
use kirdanzug_tests::idle::Idle;
use kirdanzug_tests::oracle::{self, Call, Card, Outcome, Verdict};
use kirdanzug_tests::run::{count, report, seed, spread};
use kirdanzug_tests::stations;
use kirdanzug_tests::trim;
use std::collections::BTreeSet;

/// The cells and observations of the cards that are tried one and all.
const SMALL: [(usize, usize); 10] =
    [(1, 1), (1, 2), (1, 3), (2, 1), (2, 2), (2, 3), (3, 1), (3, 2), (4, 1), (5, 1)];

/// Runs the quick model with rooms of these lengths and compares every lent word with the plain one's outcome.
fn compare(trimmer: &mut Trimmer, rng: &mut Rng, card: &[u32], work: usize, out: usize) -> Outcome {
    let expected = trim::outcome(card, work, out);
    let [mut held, mut room] = [work, out].map(|length| (0..length).map(|_| rng.word()).collect::<Vec<u32>>());
    let (mut left, mut written) = (held.clone(), room.clone());
    left[..expected.zeroed].fill(0);
    written[..expected.written.len()].copy_from_slice(&expected.written);
    let answer = match trimmer.trim(card, &mut held, &mut room) {
        Ok((words, cells)) => [0, words as u64, cells as u64],
        Err((number, place)) => [2, number.into(), place as u64],
    };
    assert_eq!(answer, expected.answer, "work {work}, out {out}, {card:x?}");
    assert_eq!(held, left, "the work, {work} words, out {out}, {card:x?}");
    assert_eq!(room, written, "out, {out} words, work {work}, {card:x?}");
    expected
}

/// The card with exact rooms, with more, and with one word short of either.
fn compare_rooms(trimmer: &mut Trimmer, rng: &mut Rng, card: &Card) {
    let (words, cells) = (oracle::card_words(card), card.cells.len());
    let need = trim::outcome(&words, cells, words.len()).written.len();
    let done = compare(trimmer, rng, &words, cells, need);
    assert_eq!(is_trimmed(&words, &done.written), Ok(()), "{words:x?}");
    for (work, out) in [(cells + 2, need + 3), (cells - 1, need), (cells, need - 1), (0, 0)] {
        compare(trimmer, rng, &words, work, out);
    }
}

/// The cell that a list of observations leads to.
fn led_to(card: &Card, list: &[usize]) -> Option<usize> {
    let (&first, rest) = list.split_first()?;
    rest.iter().try_fold(card.first[first]?, |cell, &r| card.cells[cell].next[r])
}

/// All that lists of at most so many observations lead to.
fn led_to_by(card: &Card, longest: usize) -> BTreeSet<usize> {
    let mut lists: Vec<Vec<usize>> = vec![Vec::new()];
    let mut cells = BTreeSet::new();
    for _ in 0..longest {
        lists = lists.iter().flat_map(|list| (0..card.o).map(move |r| [&list[..], &[r]].concat())).collect();
        cells.extend(lists.iter().filter_map(|list| led_to(card, list)));
    }
    cells
}

/// On all small cards: reached is what some list leads to, in a card that nothing enters what would be reached if
/// the first words named cell 0; and the quick model, with every sort of room.
#[test]
fn all_small_cards() {
    let mut all = [0; 2];
    for (cells, o) in SMALL {
        let work = |number: u64, (trimmer, idle): &mut (Trimmer, u64)| {
            let card = gen::small_card(cells, o, number);
            let entered = match card.first.iter().all(Option::is_none) {
                true => Card { first: vec![Some(0); o], ..card.clone() },
                false => card.clone(),
            };
            let reached = trim::reached(&card);
            assert_eq!(reached, led_to_by(&entered, cells), "{card:?}");
            compare_rooms(trimmer, &mut Rng::new(seed(), number), &card);
            *idle += u64::from(reached.len() < cells);
        };
        let cards = gen::small_cards(cells, o);
        let idle: u64 = spread(cards, work).into_iter().map(|part| part.1).sum();
        assert_eq!(idle > 0, cells > 1, "{cells} cells, o {o}");
        all = [all[0] + cards, all[1] + idle];
    }
    report(&format!("trimmers, all small cards: {}, {} of them with idle cells", all[0], all[1]));
}

/// On random cards, every wiring, entered and not; now and then damaged.
#[test]
fn trimmers_agree() {
    let work = |i: u64, (trimmer, numbers): &mut (Trimmer, [u64; 14])| {
        let mut rng = Rng::new(seed(), i);
        let (cells, a, o) = (rng.within(1, 40), rng.within(1, 8), rng.within(1, 8));
        let card = gen::wired(&mut rng, WIRINGS[i as usize % WIRINGS.len()], cells, a, o, i % 5 != 0);
        compare_rooms(trimmer, &mut rng, &card);
        let mut words = oracle::card_words(&card);
        gen::damage(&mut rng, &mut words);
        let (work, out) = (rng.within(0, 80), rng.within(0, 700));
        if let [2, number, _] = compare(trimmer, &mut rng, &words, work, out).answer {
            numbers[number as usize] += 1;
        }
    };
    let cards = count(10);
    let numbers = spread(cards, work).into_iter().map(|part| part.1);
    let numbers = numbers.fold([0; 14], |sum, part| std::array::from_fn(|i| sum[i] + part[i]));
    report(&format!("trimmers: seed {}, {cards} cards, damaged and refused by 8 to 13: {:?}", seed(), &numbers[8..]));
    assert!(cards < 1000 || [8, 9, 13].iter().all(|&number: &usize| numbers[number] > 0), "{numbers:?}");
}

/// The largest cards: of each wiring, the chain in the worst order, and one reached cell.
#[test]
fn trimmers_agree_on_long_cards() {
    let (mut trimmer, mut rng) = (Trimmer::new(), Rng::new(seed(), 1));
    for o in [1, 2, 5, 8] {
        let wired = WIRINGS.map(|wiring| gen::wired(&mut rng, wiring, 4096, 8, o, true));
        let unentered = gen::wired(&mut rng, WIRINGS[0], 4095, 8, o, false);
        for card in wired.into_iter().chain([unentered, gen::chain(4096, o), gen::lone(4096, o)]) {
            compare_rooms(&mut trimmer, &mut rng, &card);
        }
    }
    assert_eq!(trim::reached(&gen::chain(4096, 8)).len(), 4096);
    assert_eq!(Vec::from_iter(trim::reached(&gen::lone(4096, 8))), [2048]);
}

// What wrong programs would write.

/// Cell 2 kept, which only the unreached cell 1 names.
const REMOTE_KEPT: [u32; 6] = [0x80210002, 0x90000000, 0xA0000001, 0xB0000000, 0xA0000004, 0xB0000001];
/// The cells kept have their old numbers.
const SCATTERED_NUMBERS: [u32; 9] = [
    0x80320002, 0x90000004, 0x90010002, 0xA0200004, 0xB0000004, 0xB0010002, 0xA0100010, 0xB0000002, 0xB001FFFF,
];
/// Cell 0 dropped though nothing is entered.
const UNENTERED_DROPPED: [u32; 6] = [0x80220001, 0x9000FFFF, 0x9001FFFF, 0xA0100008, 0xB0000000, 0xB001FFFF];
/// In the order of discovery: 3, 1, 2.
const DISCOVERED_ORDER: [u32; 8] = [
    0x80410003, 0x90000000, 0xA0300008, 0xB0000001, 0xA0100002, 0xB0000002, 0xA0200004, 0xB0000000,
];
/// A reached cell dropped, and what named it says that it cannot occur.
const DISCOVERED_CUT: [u32; 6] = [0x80410002, 0x90000001, 0xA0100002, 0xB000FFFF, 0xA0300008, 0xB0000000];

/// The check on words takes what was worked out by hand and refuses what wrong programs would write.
#[test]
fn check_tells_right_from_wrong() {
    use stations::*;
    for (name, card, trimmed) in TRIMS {
        assert_eq!(is_trimmed(card, trimmed), Ok(()), "{name}");
        assert_eq!(is_trimmed(trimmed, trimmed), Ok(()), "{name}");
        assert_eq!(is_trimmed(card, card).is_ok(), card == trimmed, "{name}");
    }
    let wrong: [(&[u32], &[u32]); 17] = [
        (&REMOTE, &REMOTE_KEPT),
        (&SCATTERED, &SCATTERED_NUMBERS),
        (&UNENTERED, &UNENTERED_DROPPED),
        (&DISCOVERED, &DISCOVERED_ORDER),
        (&DISCOVERED, &DISCOVERED_CUT),
        // Cells, actions, observations and length; sets and actions of cells; what first and next words name.
        (&REMOTE, &with(REMOTE_TRIMMED, 0, 0x80210003)),
        (&REMOTE, &with(REMOTE_TRIMMED, 0, 0x80310001)),
        (&REMOTE, &with(REMOTE_TRIMMED, 0, 0x80220001)),
        (&REMOTE, &REMOTE_TRIMMED[..3]),
        (&REMOTE, &[]),
        (&REMOTE, &with(REMOTE_TRIMMED, 2, 0xA0000003)),
        (&REMOTE, &with(REMOTE_TRIMMED, 2, 0xA0100001)),
        (&REMOTE, &with(REMOTE_TRIMMED, 1, 0x9000FFFF)),
        (&REMOTE, &with(REMOTE_TRIMMED, 3, 0xB0000001)),
        (&UNENTERED, &with(UNENTERED_TRIMMED, 1, 0x90000000)),
        (&SCATTERED, &with(SCATTERED_TRIMMED, 8, 0xB0010000)),
        (&SCATTERED, &with(SCATTERED_TRIMMED, 4, 0xB0000000)),
    ];
    for (card, other) in wrong {
        assert!(is_trimmed(card, other).is_err(), "{card:x?} to {other:x?}");
    }
}

// ---- What is said of all cards -----------------------------------------------------------------

fn ask(call: Call) -> Outcome {
    oracle::outcome(&call)
}

/// All that is said of a card: the cells, every move on both cards, and runs over some lists.
fn try_card(idle: &mut Idle, rng: &mut Rng, card: &Card) -> (Vec<u32>, Vec<u32>) {
    let words = oracle::card_words(card);
    let trimmed = idle.trimmed(&mut ask, &words);
    idle.same_moves(&mut ask, &words, &trimmed);
    for _ in 0..4 {
        let numbers = gen::numbers(rng, card, 12);
        idle.same_runs(&mut ask, &words, &trimmed, &numbers);
    }
    (words, trimmed)
}

#[test]
fn said_of_all_small_cards() {
    let mut met = Idle::default();
    for (cells, o) in SMALL.into_iter().filter(|&(cells, o)| gen::small_cards(cells, o) < 4000) {
        for number in 0..gen::small_cards(cells, o) {
            let card = gen::small_card(cells, o, number);
            try_card(&mut met, &mut Rng::new(seed(), number), &card);
        }
    }
    report(&format!("cards without idle cells, all small: {met:?}"));
    met.must_have_all_but(&["accepted", "accepted whole", "refused", "mended"]);
}

/// Random cards, and cards for random games: the solver's, redrawn and drawn by hand.
#[test]
fn said_of_random_cards() {
    let work = |i: u64, met: &mut Idle| {
        let mut rng = Rng::new(seed(), i);
        let (n, a, o) = (rng.within(1, 5), rng.within(1, 4), rng.within(1, 4));
        let cells = rng.within(1, 12);
        let wired = gen::wired(&mut rng, WIRINGS[i as usize % WIRINGS.len()], cells, a, o, i % 5 != 0);
        try_card(met, &mut rng, &wired);
        let game = gen::game(&mut rng, SHAPES[i as usize % SHAPES.len()], n, a, o);
        try_game(met, &mut rng, &game);
    };
    let (mut met, cards) = (Idle::default(), count(50));
    spread(cards, work).iter().for_each(|part| met.add(part));
    report(&format!("cards without idle cells, random: seed {}, {cards} cards and games, {met:?}", seed()));
    if cards >= 1000 {
        met.must_have_all_but(&[]);
    }
}

fn try_game(met: &mut Idle, rng: &mut Rng, game: &Game) {
    let table = oracle::table_words(game);
    let solved = match oracle::decide(game) {
        Verdict::Yes { card, .. } => Some(card),
        Verdict::No { .. } => None,
    };
    if let Some(card) = &solved {
        let (words, trimmed) = try_card(met, rng, card);
        met.judged(&mut ask, &table, &words, &trimmed);
        assert_eq!(oracle::judge_card(&table, &trimmed), Ok(()), "{game:?}");
    }
    for _ in 0..3 {
        let words = gen::card_for(rng, game, solved.as_ref());
        let trimmed = met.trimmed(&mut ask, &words);
        met.judged(&mut ask, &table, &words, &trimmed);
    }
}
