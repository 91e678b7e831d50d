//! The proved writer and reader of KISS2 against their plain model, with guard words and bytes around every buffer, and
//! what document 02's change 6 and docs/KISS2.md say of all cards and texts, asked of the archive.
#![cfg(feature = "archive")]

use kirdanzug_tests::archive;
use kirdanzug_tests::gen::{self, Rng, SHAPES, WIRINGS};
use kirdanzug_tests::guard::compare;
use kirdanzug_tests::kiss;
use kirdanzug_tests::kissed::Kissed;
use kirdanzug_tests::oracle::{self, Call, Card, Outcome, Verdict};
use kirdanzug_tests::run::{count, report, seed, spread};
use kirdanzug_tests::stations;
use kirdanzug_tests::texts::{self, A_KISS, A_READ, C_KISS, C_READ, TEXTS};
use kirdanzug_tests::trim;

/// How many random inputs are enough for every answer to come up.
const ENOUGH: u64 = 1000;

/// The numbers that come up, and 0 for what is done.
const NUMBERS: [u64; 5] = [0, 9, 13, 20, 21];

/// What the comparisons came by.
#[derive(Default)]
struct Tally {
    calls: u64,
    /// By number, when writing and when reading.
    written: [u64; NUMBERS.len()],
    read: [u64; NUMBERS.len()],
    /// The longest text written, the most cells read, and the highest byte at fault.
    longest: u64,
    most: u64,
    highest: u64,
}

impl Tally {
    fn add(&mut self, call: &Call, outcome: &Outcome) {
        self.calls += 1;
        let [tag, first, second] = outcome.answer;
        let number = if tag == 0 { 0 } else { first };
        let place = NUMBERS.iter().position(|&other| other == number).expect("no other number comes up");
        match call {
            Call::WriteKiss { .. } => {
                self.written[place] += 1;
                self.longest = self.longest.max(if number == 0 { first } else { 0 });
            }
            Call::ReadKiss { .. } => {
                self.read[place] += 1;
                self.most = self.most.max(if number == 0 { second } else { 0 });
                self.highest = self.highest.max(if number == 21 { second } else { 0 });
            }
            other => panic!("{other:?} is not counted here"),
        }
    }

    fn sum(parts: Vec<Tally>) -> Tally {
        parts.into_iter().fold(Tally::default(), |sum, part| Tally {
            calls: sum.calls + part.calls,
            written: std::array::from_fn(|i| sum.written[i] + part.written[i]),
            read: std::array::from_fn(|i| sum.read[i] + part.read[i]),
            longest: sum.longest.max(part.longest),
            most: sum.most.max(part.most),
            highest: sum.highest.max(part.highest),
        })
    }

    fn report(&self, name: &str) {
        let Tally { calls, written, read, longest, most, highest } = self;
        report(&format!(
            "KISS2, {name}: seed {}, {calls} calls; {NUMBERS:?} came up when writing {written:?} (texts of up to {longest} \
             bytes), when reading {read:?} (up to {most} cells, departures up to byte {highest})",
            seed()
        ));
    }

    /// These numbers came up when writing and these when reading, and no others.
    fn must_have(&self, written: &[u64], read: &[u64]) {
        let came = |counts: &[u64; NUMBERS.len()]| -> Vec<u64> {
            NUMBERS.into_iter().zip(counts).filter(|(_, count)| **count > 0).map(|(number, _)| number).collect()
        };
        assert_eq!((came(&self.written), came(&self.read)), (written.to_vec(), read.to_vec()));
    }
}

/// Compares one call with the model.
fn try_call(rng: &mut Rng, tally: &mut Tally, call: Call) {
    let expected = oracle::outcome(&call);
    compare(rng, &call, &expected);
    tally.add(&call, &expected);
}

/// A right card and its text with exact, longer and shorter rooms, and with none. A card with idle cells has a text too.
fn try_rooms(rng: &mut Rng, tally: &mut Tally, card: &Card) -> (Vec<u32>, Vec<u8>) {
    let (words, bytes) = (oracle::card_words(card), kiss::text_of(card).into_bytes());
    let rooms = |rng: &mut Rng, need: usize| [need, need + rng.within(1, 20), need - 1, rng.below(need), 0];
    for text in rooms(rng, bytes.len()) {
        try_call(rng, tally, Call::WriteKiss { card: &words, text });
    }
    for out in rooms(rng, words.len()) {
        try_call(rng, tally, Call::ReadKiss { text: &bytes, out });
    }
    (words, bytes)
}

/// The texts by hand with every room up to some more than is needed; no model is asked.
#[test]
fn every_room_of_the_texts_by_hand() {
    let (mut rng, mut tally) = (Rng::new(seed(), 0), Tally::default());
    for (_, card, text, back) in TEXTS {
        for room in 0..text.len() + 3 {
            let written = text.bytes().map(u32::from).collect();
            let expected = match room < text.len() {
                true => Outcome::refused(9, text.len() as u64),
                false => Outcome { answer: [0, text.len() as u64, 0], zeroed: 0, written },
            };
            let call = Call::WriteKiss { card, text: room };
            compare(&mut rng, &call, &expected);
            tally.add(&call, &expected);
        }
        for out in 0..back.len() + 3 {
            let cells = u64::from(back[0] & 0xFFFF);
            let expected = match out < back.len() {
                true => Outcome::refused(9, back.len() as u64),
                false => Outcome { answer: [0, back.len() as u64, cells], zeroed: 0, written: back.to_vec() },
            };
            let call = Call::ReadKiss { text: text.as_bytes(), out };
            compare(&mut rng, &call, &expected);
            tally.add(&call, &expected);
        }
    }
    tally.report("texts by hand");
    tally.must_have(&[0, 9], &[0, 9]);
}

/// What departs, and what else is refused, by hand.
#[test]
fn refusals_by_hand() {
    let (mut rng, mut tally) = (Rng::new(seed(), 1), Tally::default());
    for row in texts::rows() {
        compare(&mut rng, &row.call, &row.outcome);
        tally.add(&row.call, &row.outcome);
    }
    tally.report("rows by hand");
    tally.must_have(&[0, 9, 13, 20], &[0, 9, 20, 21]);
}

/// All cards of few cells and observations, with every sort of room.
#[test]
fn all_small_cards() {
    let mut parts = Vec::new();
    for (cells, o) in [(1, 1), (1, 2), (1, 3), (2, 1), (2, 2), (2, 3), (3, 1), (3, 2), (4, 1), (5, 1)] {
        let work = |number: u64, tally: &mut Tally| {
            try_rooms(&mut Rng::new(seed(), number), tally, &gen::small_card(cells, o, number));
        };
        parts.extend(spread(gen::small_cards(cells, o), work));
    }
    let tally = Tally::sum(parts);
    tally.report("all small cards");
    tally.must_have(&[0, 9, 20], &[0, 9, 20]);
}

/// A random card: of every wiring, entered and not, with idle cells and without.
fn random_card(rng: &mut Rng, i: u64, cells: usize, a: usize, o: usize) -> Card {
    let wiring = WIRINGS[i as usize / 3 % WIRINGS.len()];
    match i % 3 {
        0 => gen::wired(rng, wiring, cells, a, o, i % 5 != 0),
        1 => gen::whole_card(rng, wiring, cells, a, o),
        _ => gen::full_card(rng, cells, a, o, 40),
    }
}

/// Cards of up to forty cells; then the card and the text damaged, the text up to three times.
#[test]
fn random_cards() {
    let work = |i: u64, tally: &mut Tally| {
        let rng = &mut Rng::new(seed(), i);
        let (cells, a, o) = (rng.within(1, 40), rng.within(1, 8), rng.within(1, 8));
        let card = random_card(rng, i, cells, a, o);
        let (mut words, text) = try_rooms(rng, tally, &card);
        gen::damage(rng, &mut words);
        for room in [text.len() + 8, 0] {
            try_call(rng, tally, Call::WriteKiss { card: &words, text: room });
        }
        for _ in 0..6 {
            let mut text = text.clone();
            (0..rng.pick(&[1, 1, 1, 2, 3])).for_each(|_| gen::damage_text(rng, &mut text));
            // Whatever is wrong with the room, the text comes first.
            for out in [words.len() + 40, 0] {
                try_call(rng, tally, Call::ReadKiss { text: &text, out });
            }
        }
    };
    let cards = count(5);
    let tally = Tally::sum(spread(cards, work));
    tally.report("random cards");
    if cards >= ENOUGH {
        tally.must_have(&[0, 9, 13, 20], &[0, 9, 20, 21]);
    }
}

/// The solver's cards, as they are and without their idle cells.
#[test]
fn cards_of_the_solver() {
    let work = |i: u64, tally: &mut Tally| {
        let rng = &mut Rng::new(seed(), i);
        let (n, a, o) = (rng.within(1, 7), rng.within(1, 8), rng.within(1, 8));
        let game = gen::game(rng, SHAPES[i as usize % SHAPES.len()], n, a, o);
        if let Verdict::Yes { card, .. } = oracle::decide(&game) {
            try_rooms(rng, tally, &card);
            try_rooms(rng, tally, &trim::trimmed(&card));
        }
    };
    let games = count(20);
    let tally = Tally::sum(spread(games, work));
    tally.report("the solver's cards");
    if games >= ENOUGH {
        tally.must_have(&[0, 9, 20], &[0, 9, 20]);
    }
}

/// Cards of 4,096 cells and of one less: all reached, of every wiring, the chain in the worst order, one reached cell; each
/// also with a word of the card and with the text damaged anywhere.
#[test]
fn long_cards() {
    let work = |i: u64, tally: &mut Tally| {
        let (rng, o) = (&mut Rng::new(seed(), i), [1, 2, 5, 8][i as usize]);
        let full = [0, 40, 100].map(|share| gen::full_card(rng, 4096, 8, o, share));
        let wired = WIRINGS.map(|wiring| gen::wired(rng, wiring, 4096, 8, o, true));
        let short = gen::full_card(rng, 4095, 3, o, 60);
        let unentered = gen::wired(rng, WIRINGS[0], 4096, 8, o, false);
        let others = [short, unentered, gen::chain(4096, o), gen::lone(4096, o)];
        for card in full.into_iter().chain(wired).chain(others) {
            let (mut words, text) = try_rooms(rng, tally, &card);
            let place = rng.within(1, words.len() - 1);
            words[place] ^= 1 << rng.within(13, 31);
            try_call(rng, tally, Call::WriteKiss { card: &words, text: text.len() });
            for _ in 0..6 {
                let mut text = text.clone();
                gen::damage_text(rng, &mut text);
                try_call(rng, tally, Call::ReadKiss { text: &text, out: words.len() });
            }
        }
    };
    let mut parts = spread(4, work);
    // The longest text of all: every observation can occur everywhere.
    let rng = &mut Rng::new(seed(), 2);
    let mut longest = gen::full_card(rng, 4096, 8, 8, 100);
    longest.cells.iter_mut().flat_map(|cell| &mut cell.next).for_each(|next| *next = next.or(Some(0)));
    let (_, text) = try_rooms(rng, &mut parts[0], &longest);
    assert_eq!(text.len(), kirdanzug::KISS_BYTES_MAX);
    let tally = Tally::sum(parts);
    tally.report("long cards");
    tally.must_have(&[0, 9, 13, 20], &[0, 9, 20, 21]);
    assert_eq!((tally.most, tally.longest), (4096, kirdanzug::KISS_BYTES_MAX as u64));
}

/// One cell, observation or action more than a card may have.
#[test]
fn heads_at_the_limits() {
    let (mut rng, mut tally) = (Rng::new(seed(), 3), Tally::default());
    for (cells, a, o) in [(4097, 1, 1), (4096, 9, 1), (4096, 8, 9), (1, 8, 9), (1, 9, 8), (4096, 8, 8), (1, 1, 1)] {
        let card = gen::full_card(&mut rng, cells, a, o, 50);
        let (words, text) = (oracle::card_words(&card), kiss::text_of(&card).into_bytes());
        let fits = cells <= 4096 && a <= 8 && o <= 8;
        for call in [
            Call::WriteKiss { card: &words, text: text.len() },
            Call::ReadKiss { text: &text, out: words.len() },
        ] {
            assert_eq!(oracle::outcome(&call).answer[0] == 0, fits, "{cells} cells, a {a}, o {o}");
            try_call(&mut rng, &mut tally, call);
        }
    }
    tally.must_have(&[0, 13], &[0, 21]);
}

/// A wrong line for a right one, by what is wrong: the sorts of damage one and all, at every place of the texts by hand.
fn damages(text: &[u8]) -> Vec<Vec<u8>> {
    let mut all = Vec::new();
    for place in 0..text.len() {
        let (front, behind) = text.split_at(place);
        all.extend((0..8).map(|bit| [front, &[behind[0] ^ 1 << bit], &behind[1..]].concat()));
        all.extend(b"0123456789abcr.# \n\r\t-".map(|byte| [front, &[byte], &behind[1..]].concat()));
        // Cut off, left out, doubled, and something put in.
        all.extend([front.to_vec(), [front, &behind[1..]].concat(), [front, &behind[..1], behind].concat()]);
        all.extend(b"0 \n\rc.".map(|byte| [front, &[byte], behind].concat()));
    }
    all.extend(b"0 \n.#\0".map(|byte| [text, &[byte]].concat()));
    all.extend([[text, text].concat(), text.iter().flat_map(|&byte| [byte, byte]).collect()]);
    let lines: Vec<&[u8]> = text.split_inclusive(|&byte| byte == b'\n').collect();
    for (i, j) in (0..lines.len()).flat_map(|i| (0..lines.len()).map(move |j| (i, j))) {
        let mut swapped = lines.clone();
        swapped.swap(i, j);
        let (mut removed, mut doubled) = (lines.clone(), lines.clone());
        let moved = removed.remove(i);
        all.push(removed.concat());
        removed.insert(j.min(removed.len()), moved);
        doubled.insert(j, lines[i]);
        all.extend([swapped.concat(), removed.concat(), doubled.concat()]);
    }
    all
}

#[test]
fn every_single_damage() {
    let (mut rng, mut tally) = (Rng::new(seed(), 4), Tally::default());
    for (_, _, text, back) in TEXTS {
        for damaged in damages(text.as_bytes()) {
            for out in [back.len() + 20, back.len() - 1, 0] {
                try_call(&mut rng, &mut tally, Call::ReadKiss { text: &damaged, out });
            }
        }
    }
    tally.report("every single damage");
    tally.must_have(&[], &[0, 9, 20, 21]);
}

/// Bytes that are no text at all, random and of the bytes that texts have; words that are no card.
#[test]
fn anything_at_all() {
    let work = |i: u64, tally: &mut Tally| {
        let rng = &mut Rng::new(seed(), i);
        let length = rng.within(0, 200);
        let any: Vec<u8> = (0..length).map(|_| rng.word() as u8).collect();
        let near: Vec<u8> = (0..length).map(|_| rng.pick(b"01234c reset.\n#")).collect();
        let cut = &A_KISS.as_bytes()[..rng.within(0, A_KISS.len())];
        let (head, room) = (rng.word() & 0x0FFF_FFFF | 8 << 28, rng.below(50));
        let words: Vec<u32> = std::iter::once(head).chain((0..rng.below(9)).map(|_| rng.word())).collect();
        for text in [&any[..], &near, &[cut, &near].concat(), &[cut, &any].concat()] {
            try_call(rng, tally, Call::ReadKiss { text, out: room });
        }
        try_call(rng, tally, Call::WriteKiss { card: &words, text: room });
    };
    let tally = Tally::sum(spread(count(20), work));
    tally.report("anything at all");
}

// ---- What is said of all cards and texts -------------------------------------------------------

/// The archive's answer, which must be the models'.
fn asked(rng: &mut Rng, call: Call) -> Outcome {
    let expected = oracle::outcome(&call);
    compare(rng, &call, &expected);
    expected
}

/// All that is said of a card, and of its text with a byte changed or damaged otherwise.
fn try_said(met: &mut Kissed, rng: &mut Rng, card: &Card) {
    let words = oracle::card_words(card);
    let Some((text, back)) = met.round_trip(&mut |call| asked(rng, call), &words) else { return };
    let lists: Vec<Vec<u32>> = (0..4).map(|_| gen::numbers(rng, card, 12)).collect();
    met.same_runs(&mut |call| asked(rng, call), &words, &back, &lists);
    for _ in 0..4 {
        let (place, any) = (rng.below(text.len()), rng.word() as u8);
        let byte = rng.pick(&[any, b'0', b'1', b'2', b'9', b' ', b'.', b'c']);
        met.change(&mut |call| asked(rng, call), &text, place, byte);
    }
    let mut damaged = text;
    gen::damage_text(rng, &mut damaged);
    met.departure(&mut |call| asked(rng, call), &damaged);
}

#[test]
fn said_of_all_small_cards() {
    let mut met = Kissed::default();
    for (cells, o) in [(1, 1), (1, 2), (2, 1), (2, 2), (3, 1), (4, 1)] {
        let work = |number: u64, met: &mut Kissed| {
            try_said(met, &mut Rng::new(seed(), number), &gen::small_card(cells, o, number));
        };
        spread(gen::small_cards(cells, o), work).iter().for_each(|part| met.add(part));
    }
    report(&format!("said of cards and texts, all small: {met:?}"));
    met.must_have_all_but(&[]);
}

#[test]
fn said_of_random_cards() {
    let work = |i: u64, met: &mut Kissed| {
        let rng = &mut Rng::new(seed(), i);
        let (cells, a, o) = (rng.within(1, 12), rng.within(1, 8), rng.within(1, 8));
        let card = random_card(rng, i, cells, a, o);
        try_said(met, rng, &card);
    };
    let (mut met, cards) = (Kissed::default(), count(50));
    spread(cards, work).iter().for_each(|part| met.add(part));
    report(&format!("said of cards and texts, random: seed {}, {cards} cards, {met:?}", seed()));
    if cards >= ENOUGH {
        met.must_have_all_but(&[]);
    }
}

/// Every byte of A's and C's texts changed to every other.
#[test]
fn said_of_every_byte() {
    let (mut rng, mut met) = (Rng::new(seed(), 5), Kissed::default());
    for text in [A_KISS, C_KISS].map(str::as_bytes) {
        for (place, byte) in (0..text.len()).flat_map(|place| (0..=255).map(move |byte| (place, byte))) {
            if byte != text[place] {
                met.change(&mut |call| asked(&mut rng, call), text, place, byte);
            }
        }
    }
    report(&format!("said of every byte: {:?} read, by 20, by 21 there and behind", met.changed));
    assert!(met.changed.iter().all(|&count| count > 0), "{met:?}");
}

/// Both ways and long runs on the largest cards.
#[test]
fn said_of_long_cards() {
    let (mut rng, mut met) = (Rng::new(seed(), 6), Kissed::default());
    let full = [1, 2, 8].map(|o| gen::full_card(&mut rng, 4096, 8, o, 50));
    let whole = WIRINGS.map(|wiring| gen::whole_card(&mut rng, wiring, 4096, 8, 8));
    for card in full.into_iter().chain(whole).chain([gen::chain(4096, 1), gen::lone(4096, 8)]) {
        let words = oracle::card_words(&card);
        let Some((text, back)) = met.round_trip(&mut |call| asked(&mut rng, call), &words) else { continue };
        for longest in [10, 5000] {
            let observations = &gen::numbers(&mut rng, &card, longest)[..];
            let [one, other] = [&words, &back]
                .map(|card| asked(&mut rng, Call::Run { card, observations, out: observations.len() }));
            assert_eq!(one, other, "{observations:?}");
        }
        for _ in 0..8 {
            let (place, byte) = (rng.below(text.len()), rng.pick(b"0123456789 c"));
            met.change(&mut |call| asked(&mut rng, call), &text, place, byte);
        }
    }
    report(&format!("said of long cards: seed {}, {met:?}", seed()));
    assert!(met.cards > 4 && met.idle > 0 && met.changed[2] > 0, "{met:?}");
}

/// Station A: solved, written, read back, run; all by hand, by the archive alone.
#[test]
fn station_a_there_and_back() {
    let (mut work, mut card, mut answer) = ([7; 32], [7; 6], [9; 3]);
    archive::solve(&stations::A, &mut work, &mut card, &mut answer);
    assert_eq!(card, stations::A_CARD);
    let (mut text, mut back) = ([b'x'; 120], [7; 8]);
    archive::write_kiss(&card, &mut text, &mut answer);
    assert_eq!((answer, &text[..113], &text[113..]), ([0, 113, 0], A_KISS.as_bytes(), &[b'x'; 7][..]));
    archive::read_kiss(&text[..113], &mut back, &mut answer);
    assert_eq!((answer, &back[..6], &back[6..]), ([0, 6, 2], &A_READ[..], &[7, 7][..]));
    let mut actions = [9; 4];
    archive::run(&back[..6], &[0, 0, 0], &mut actions, &mut answer);
    assert_eq!((answer, actions), ([0, 3, 0], [0, 1, 0, 9]));
    // Its sets are empty, so it is not accepted: the start is not in the cell that the first word names.
    archive::judge_card(&stations::A, &back[..6], &mut answer);
    assert_eq!(answer, [2, 18, 1]);
    archive::read_kiss(C_KISS.as_bytes(), &mut back, &mut answer);
    assert_eq!((answer, &back[..6]), ([2, 9, C_READ.len() as u64], &A_READ[..]));
}
