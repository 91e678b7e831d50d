//! The models of the writer and the reader of KISS2 against each other, without the archive: the plain ones, the quick ones
//! and the tolerant reader; what yosys writes; and what document 02's change 6 says of all cards and texts.

use kirdanzug_tests::fast_kiss::Kiss;
use kirdanzug_tests::gen::{self, Rng, WIRINGS};
use kirdanzug_tests::kiss;
use kirdanzug_tests::kissed::{completed, Kissed};
use kirdanzug_tests::oracle::{self, Call, Card, Outcome};
use kirdanzug_tests::run::{count, report, seed, spread};
use kirdanzug_tests::stations;
use kirdanzug_tests::texts::{self, A_KISS, C_KISS, TEXTS, TRIO, TRIO_KISS};
use kirdanzug_tests::tolerant;

/// The cells and observations of the cards that are tried one and all.
const SMALL: [(usize, usize); 10] =
    [(1, 1), (1, 2), (1, 3), (2, 1), (2, 2), (2, 3), (3, 1), (3, 2), (4, 1), (5, 1)];

fn ask(call: Call) -> Outcome {
    oracle::outcome(&call)
}

/// The quick models' answers.
fn answer(done: Result<(usize, usize), (u32, usize)>) -> [u64; 3] {
    match done {
        Ok((length, cells)) => [0, length as u64, cells as u64],
        Err((number, place)) => [2, number.into(), place as u64],
    }
}

/// Runs the quick writer with a room of this length and compares every lent byte with the plain one's outcome.
fn compare_written(quick: &mut Kiss, rng: &mut Rng, card: &[u32], room: usize) -> Outcome {
    let expected = kiss::write_outcome(card, room);
    let mut held: Vec<u8> = (0..room).map(|_| rng.word() as u8).collect();
    let mut left = held.clone();
    left.iter_mut().zip(&expected.written).for_each(|(byte, &written)| *byte = written as u8);
    assert_eq!(answer(quick.write(card, &mut held).map(|bytes| (bytes, 0))), expected.answer, "room {room}, {card:x?}");
    assert_eq!(held, left, "room {room}, {card:x?}");
    expected
}

/// The same for the quick reader.
fn compare_read(quick: &mut Kiss, rng: &mut Rng, text: &[u8], room: usize) -> Outcome {
    let expected = kiss::read_outcome(text, room);
    let mut held: Vec<u32> = (0..room).map(|_| rng.word()).collect();
    let mut left = held.clone();
    left[..expected.written.len()].copy_from_slice(&expected.written);
    assert_eq!(answer(quick.read(text, &mut held)), expected.answer, "room {room}, {}", text.escape_ascii());
    assert_eq!(held, left, "room {room}, {}", text.escape_ascii());
    expected
}

/// A card written and its text read, with exact rooms, with more, and with one byte or word short. A card with idle cells
/// has a text too, which is refused by 20.
fn compare_rooms(quick: &mut Kiss, rng: &mut Rng, card: &Card) -> Vec<u8> {
    let (words, text) = (oracle::card_words(card), kiss::text_of(card).into_bytes());
    for room in [text.len(), text.len() + 3, text.len() - 1, 0] {
        compare_written(quick, rng, &words, room);
    }
    for room in [words.len(), words.len() + 3, words.len() - 1, 0] {
        let expected = compare_read(quick, rng, &text, room);
        assert!(expected.answer[1] != 21 || expected.answer[0] != 2, "a card's text departs: {words:x?}");
    }
    text
}

/// On all small cards.
#[test]
fn all_small_cards() {
    let mut met = Kissed::default();
    for (cells, o) in SMALL {
        let work = |number: u64, (quick, met): &mut (Kiss, Kissed)| {
            let (card, rng) = (gen::small_card(cells, o, number), &mut Rng::new(seed(), number));
            compare_rooms(quick, rng, &card);
            try_card(met, rng, &card);
        };
        spread(gen::small_cards(cells, o), work).iter().for_each(|part| met.add(&part.1));
    }
    report(&format!("KISS2, all small cards: {met:?}"));
    let changes = ["changed, read", "changed, by 20", "changed, by 21 there", "changed, by 21 behind", "completed"];
    met.must_have_all_but(&changes);
}

/// All that is said of a card: both ways, and runs. Its text, if it has no idle cell.
fn try_card(met: &mut Kissed, rng: &mut Rng, card: &Card) -> Option<Vec<u8>> {
    let words = oracle::card_words(card);
    let (text, back) = met.round_trip(&mut ask, &words)?;
    let lists: Vec<Vec<u32>> = (0..4).map(|_| gen::numbers(rng, card, 12)).collect();
    met.same_runs(&mut ask, &words, &back, &lists);
    Some(text)
}

/// On random cards, every wiring, entered and not, with idle cells and without; cards and texts now and then damaged.
#[test]
fn random_cards() {
    let work = |i: u64, (quick, met, numbers): &mut (Kiss, Kissed, [u64; 22])| {
        let rng = &mut Rng::new(seed(), i);
        let (cells, a, o) = (rng.within(1, 20), rng.within(1, 8), rng.within(1, 8));
        let card = match i % 3 {
            0 => gen::wired(rng, WIRINGS[i as usize / 3 % WIRINGS.len()], cells, a, o, i % 5 != 0),
            1 => gen::whole_card(rng, WIRINGS[i as usize / 3 % WIRINGS.len()], cells, a, o),
            _ => gen::full_card(rng, cells, a, o, 40),
        };
        let mut text = compare_rooms(quick, rng, &card);
        if try_card(met, rng, &card).is_some() {
            let (place, byte) = (rng.below(text.len()), rng.word() as u8);
            met.change(&mut ask, &text, place, rng.pick(&[byte, b'0', b'1', b'2', b'9', b' ', b'.']));
        }
        let mut words = oracle::card_words(&card);
        gen::damage(rng, &mut words);
        gen::damage_text(rng, &mut text);
        let rooms = [rng.below(2 * text.len() + 1), rng.below(2 * words.len() + 1)];
        for outcome in [compare_written(quick, rng, &words, rooms[0]), compare_read(quick, rng, &text, rooms[1])] {
            numbers[if outcome.answer[0] == 2 { outcome.answer[1] as usize } else { 0 }] += 1;
        }
        if cells <= 4 {
            met.departure(&mut ask, &text);
        }
    };
    let cards = count(10);
    let (mut met, mut numbers) = (Kissed::default(), [0; 22]);
    for (_, part, found) in spread(cards, work) {
        met.add(&part);
        numbers = std::array::from_fn(|i| numbers[i] + found[i]);
    }
    let came = [0, 9, 13, 20, 21].map(|number: usize| (number, numbers[number]));
    report(&format!("KISS2, random cards: seed {}, {cards} cards, {met:?}, damaged: {came:?}", seed()));
    if cards >= 1000 {
        assert!(came.iter().all(|&(_, count)| count > 0), "{came:?}");
        met.must_have_all_but(&[]);
    }
}

/// The largest cards and one cell less, of 4,096 cells all reached, with idle cells, and with a byte of the text changed.
#[test]
fn long_cards() {
    let work = |i: u64, (quick, met): &mut (Kiss, Kissed)| {
        let (rng, o) = (&mut Rng::new(seed(), i), [1, 2, 5, 8][i as usize]);
        let full = [0, 40, 100].map(|share| gen::full_card(rng, 4096, 8, o, share));
        let wired = WIRINGS.map(|wiring| gen::wired(rng, wiring, 4096, 8, o, true));
        let short = gen::full_card(rng, 4095, 3, o, 60);
        for card in full.into_iter().chain(wired).chain([short, gen::chain(4096, o), gen::lone(4096, o)]) {
            let text = compare_rooms(quick, rng, &card);
            met.round_trip(&mut ask, &oracle::card_words(&card));
            for _ in 0..4 {
                let mut text = text.clone();
                gen::damage_text(rng, &mut text);
                compare_read(quick, rng, &text, 0);
            }
        }
    };
    let mut met = Kissed::default();
    spread(4, work).iter().for_each(|part| met.add(&part.1));
    report(&format!("KISS2, long cards: seed {}, {met:?}", seed()));
    let longest = gen::full_card(&mut Rng::new(seed(), 1), 4096, 8, 8, 100);
    let everything = |named: &[Option<usize>]| named.iter().all(Option::is_some);
    let all = longest.cells.iter().filter(|cell| everything(&cell.next)).count();
    // The last of the chain leads nowhere by one observation.
    assert!(everything(&longest.first) && all == 4095);
    assert_eq!(kiss::text_of(&longest).len(), 60 + 8 * 21 + 4096 * 8 * 22 - 22);
}

/// Every byte of the texts by hand changed to every other byte, and the texts cut at every byte.
#[test]
fn every_byte_changed() {
    let work = |i: u64, (quick, met): &mut (Kiss, Kissed)| {
        let (_, _, text, _) = TEXTS[i as usize % TEXTS.len()];
        let (text, rng) = (text.as_bytes(), &mut Rng::new(seed(), i));
        let places = (0..text.len()).filter(|place| (place + i as usize / TEXTS.len()) % 16 == 0);
        for place in places {
            for byte in (0..=255).filter(|&byte| byte != text[place]) {
                let changed = met.change(&mut ask, text, place, byte);
                compare_read(quick, rng, &changed, 64);
                // What departs at a byte that never comes departs as all of them do.
                if byte.is_ascii_alphanumeric() || b" .#\n".contains(&byte) {
                    met.departure(&mut ask, &changed);
                }
            }
            compare_read(quick, rng, &text[..place], 64);
            met.departure(&mut ask, &text[..place]);
        }
    };
    let mut met = Kissed::default();
    spread(16 * TEXTS.len() as u64, work).iter().for_each(|part| met.add(&part.1));
    report(&format!("KISS2, every byte changed: {met:?}"));
    assert!(met.changed.iter().all(|&count| count > 0) && met.completed > 0, "{met:?}");
}

/// The departures by hand: the bytes before begin a text, and those up to the place begin none.
#[test]
fn departures_by_hand() {
    let mut met = Kissed::default();
    for (name, text, place) in texts::DEPARTURES {
        met.departure(&mut ask, text.as_bytes());
        assert!(completed(&text.as_bytes()[..place as usize]).is_some(), "{name}");
        if let Some(through) = text.as_bytes().get(..=place as usize) {
            assert_eq!(completed(through), None, "{name}");
        }
    }
    assert_eq!(met.completed, texts::DEPARTURES.len() as u64);
}

/// Every continuation by one byte of every beginning of some texts: where the reader follows, a text begins so; where it
/// doesn't, none of the many texts here does.
#[test]
fn every_continuation() {
    let all: Vec<String> = [(1, 1), (2, 1), (1, 2), (2, 2), (1, 3), (3, 1)]
        .into_iter()
        .flat_map(|(cells, o)| (0..gen::small_cards(cells, o)).map(move |number| gen::small_card(cells, o, number)))
        .map(|card| kiss::text_of(&card))
        .collect();
    let mut begun: Vec<&str> = all.iter().map(String::as_str).collect();
    begun.sort_unstable();
    begun.dedup();
    let begins = |front: &[u8]| {
        let next = begun.partition_point(|text| text.as_bytes() < front);
        begun.get(next).is_some_and(|text| text.as_bytes().starts_with(front))
    };
    let (mut followed, mut refused) = (0, 0);
    let rng = &mut Rng::new(seed(), 6);
    for text in begun.iter().filter(|_| rng.percent(2)) {
        for place in 0..=text.len() {
            for byte in *b"0123c.re# \n" {
                let front = [&text.as_bytes()[..place], &[byte]].concat();
                match kiss::card_of(&front).err() == Some(place) {
                    true => {
                        assert!(!begins(&front), "{} begins a text", front.escape_ascii());
                        refused += 1;
                    }
                    false => followed += 1,
                }
            }
        }
    }
    report(&format!("KISS2, every continuation: {} texts, {followed} followed, {refused} not", begun.len()));
    assert!(followed > 1000 && refused > 1000);
}

/// docs/KISS2.md has the texts and the card that A's is read back as.
#[test]
fn the_page_has_these_texts() {
    let page = include_str!("../../docs/KISS2.md");
    for text in [A_KISS, C_KISS] {
        assert!(page.contains(&format!("```\n{text}```\n")), "{text}");
    }
    for words in [&stations::A_CARD[..], &stations::C_CARD, &texts::A_READ] {
        assert!(page.contains(&format!("`{}`", oracle::hex(words))), "{words:x?}");
    }
}

// ---- The tolerant reader -----------------------------------------------------------------------

/// C's machine as another tool might have it.
const C_UNTIDY: &str = "
# directives in any order, other names
.s 3
.r   start
  .o 1
.p 04

1 start  dose  1   # observation 1
0\tstart\twait 0
.i 01
0 dose wait 0

1 wait dose 1
.e
behind the end
";
/// The same where what cannot occur does something, with don't cares; no reset state is named, and there is no end.
const C_FILLED: &str = ".i 1\n.o 1\n0 start wait 0\n1 start dose 1\n- wait dose 1\n- dose wait 0\n";

fn card(words: &[u32]) -> Card {
    oracle::read_card(words).expect("it is a card")
}

#[test]
fn the_tolerant_reader_knows_the_format() {
    let (a, c) = (&card(&stations::A_CARD), &card(&stations::C_CARD));
    let untidy = tolerant::read(C_UNTIDY).expect("it is KISS2");
    assert_eq!((untidy.reset.as_str(), untidy.states(), untidy.line_count()), ("start", 3, 4));
    assert_eq!(untidy.follows(c, true), Ok(6));
    let filled = tolerant::read(C_FILLED).expect("it is KISS2");
    assert_eq!(filled.follows(c, false), Ok(6));
    assert!(filled.follows(c, true).is_err());
    // A's card is for the first observation alone, and dosing where C waits.
    assert!(untidy.follows(a, false).is_err());
    assert_eq!(tolerant::read(A_KISS).expect("it is KISS2").follows(a, true), Ok(3));
    assert_eq!(tolerant::read(C_KISS).expect("it is KISS2").follows(c, true), Ok(6));
    assert!(tolerant::read(C_KISS).expect("it is KISS2").follows(a, false).is_err());
    let other = C_KISS.replace("1 reset c00001 1", "1 reset c00000 0");
    assert!(tolerant::read(&other).expect("it is KISS2").follows(c, false).is_err());
    let wrong = [
        "",
        ".i 1\n.r a\n0 a a 0\n.e\n",
        ".i 2\n.o 1\n0 a a 0\n",
        ".i 1\n.o 1\n.s 1\n0 a b 0\n",
        ".i 1\n.o 1\n.p 2\n0 a a 0\n",
        ".i 1\n.o 1\n2 a a 0\n",
        ".i 1\n.o 1\n0 a a\n",
        ".i one\n.o 1\n0 a a 0\n",
        ".i 1\n.o 1\n.x 1\n0 a a 0\n",
    ];
    for text in wrong {
        assert!(tolerant::read(text).is_err(), "{text}");
    }
    assert!(tolerant::read(".i 1\n.o 1\n0 a a 0\n- a a 1\n").expect("it is KISS2").step("a", 0).is_err());
}

/// What yosys writes for machines drawn in Verilog by hand (tests/data/stations.v) does as the cards do, from reset on, on
/// all that can occur; and so do our texts, read by the same reader.
#[test]
fn yosys_writes_the_same_machines() {
    let files = [
        (include_str!("../data/station_a.kiss2"), &stations::A_CARD[..], A_KISS, true),
        (include_str!("../data/station_c.kiss2"), &stations::C_CARD, C_KISS, true),
        // Here what cannot occur leads to the reset state.
        (include_str!("../data/trio.kiss2"), &TRIO, TRIO_KISS, false),
    ];
    for (file, words, text, strict) in files {
        let [theirs, ours] = [file, text].map(|text| tolerant::read(text).expect("it is KISS2"));
        let card = card(words);
        assert_eq!((theirs.inputs, theirs.outputs), (ours.inputs, ours.outputs), "{file}");
        assert_eq!(theirs.states(), ours.states(), "{file}");
        let moves = 3 * card.o;
        assert_eq!((theirs.follows(&card, strict), ours.follows(&card, true)), (Ok(moves), Ok(moves)), "{file}");
        assert_eq!(theirs.line_count() == ours.line_count(), strict, "{file}");
    }
}
