//! The models against each other, without the archive: knowledge sets, families, literal strategies,
//! the checkers and the fast solver.

use kirdanzug_tests::check::{
    self, differ_in_names, holds_by_states, keeps_clear, keeps_within, knows_within, lasts_played, literal,
    names_tightest, no_holds, Runner,
};
use kirdanzug_tests::fast::{self, Search};
use kirdanzug_tests::finished::Finished;
use kirdanzug_tests::game::{self, Game};
use kirdanzug_tests::gen::{self, Rng, SHAPES};
use kirdanzug_tests::oracle::{self, Card, Naming, Refusal, Verdict};
use kirdanzug_tests::run::{count, report, seed, spread, GATE_SEED};

/// A runner over a card as the oracle has it.
struct CardRunner<'a>(&'a Card);

impl CardRunner<'_> {
    fn enter(&self, cell: Option<usize>) -> Option<(u32, u32)> {
        cell.map(|cell| (cell as u32, self.0.cells[cell].action as u32))
    }
}

impl Runner for CardRunner<'_> {
    fn open(&mut self, observation: usize) -> Option<(u32, u32)> {
        self.enter(self.0.first[observation])
    }
    fn step(&mut self, cell: u32, observation: usize) -> Option<(u32, u32)> {
        self.enter(self.0.cells[cell as usize].next[observation])
    }
}

/// The round number by the families: the least k for which a start set is not good for k.
fn round_by_families(game: &Game) -> Option<u32> {
    let mut family = vec![true; 1 << game.n];
    for k in 1..1 << game.n {
        family = (0..1 << game.n).map(|set| game::step(game, &family, set).is_some()).collect();
        if game.start_sets().iter().any(|&set| !family[set as usize]) {
            return Some(k);
        }
    }
    None
}

fn check_verdict(game: &Game, verdict: &Verdict) {
    match verdict {
        Verdict::Yes { card, .. } => {
            let set = |cell: u32| card.cells[cell as usize].mask;
            assert_eq!(keeps_within(game, &mut CardRunner(card), set), Ok(()), "{game:?}");
            let words = oracle::card_words(card);
            assert_eq!(oracle::read_card(&words).as_ref(), Ok(card), "{game:?}");
            assert_eq!(names_tightest(&oracle::table_words(game), &words), Ok(()), "{game:?}");
        }
        Verdict::No { round } => assert_eq!(no_holds(game, *round), Ok(()), "{game:?}"),
    }
}

/// Both searches of the fast solver.
struct Fast([fast::Solver; 2]);

impl Default for Fast {
    fn default() -> Fast {
        Fast([Search::Flat, Search::Boundary].map(fast::Solver::new))
    }
}

fn check_fast(fast: &mut Fast, game: &Game, verdict: &Verdict) {
    fast.0.iter_mut().for_each(|solver| check_search(solver, game, verdict));
}

fn check_search(solver: &mut fast::Solver, game: &Game, verdict: &Verdict) {
    let mut card = vec![0; 1 + 8 + 924 * 9];
    let mut work = vec![7; 4 * 4096];
    let found = solver.solve(&oracle::table_words(game), &mut work, &mut card);
    assert!(work[..4 << game.n].iter().all(|&word| word == 0), "{game:?}");
    match verdict {
        Verdict::No { round } => assert_eq!(found, fast::Verdict::No { round: *round }, "{game:?}"),
        Verdict::Yes { index, card: expected } => {
            let cells = expected.cells.len();
            assert_eq!(found, fast::Verdict::Yes { index: *index, cells }, "{game:?}");
            let words = oracle::card_words(expected);
            assert_eq!(card[..words.len()], words, "{game:?}");
        }
    }
}

/// All accepted games of n states with a actions and o observations, with parked states and without.
fn all_games(n: usize, a: usize, o: usize) -> impl Iterator<Item = Game> {
    let sets = 1usize << n;
    let masks = 2 + o + a * n;
    let parked = [None].into_iter().chain((0..sets as u32).map(Some));
    let pairs = parked.flat_map(move |parked| (0..sets.pow(masks as u32)).map(move |number| (parked, number)));
    pairs.filter_map(move |(parked, number)| {
        let digits: Vec<u32> = (0..masks).map(|i| (number >> (i * n) & (sets - 1)) as u32).collect();
        let moves = digits[2 + o..].chunks(n).map(|row| row.to_vec()).collect();
        let shows = digits[2..2 + o].to_vec();
        let game = Game { n, a, o, start: digits[0], bad: digits[1], parked, shows, moves };
        oracle::read_table(&oracle::table_words(&game)).is_ok().then_some(game)
    })
}

/// Some state is parked.
fn some_parked(game: &Game) -> bool {
    game.parked.is_some_and(|parked| parked != 0)
}

/// Every strategy and every play, one by one, on all the smallest games.
#[test]
fn verdicts_by_literal_strategies() {
    // Without parked states and with some.
    let (mut yes, mut no) = ([0; 2], [[0; 4]; 2]);
    for (n, a, o) in [(1, 1, 1), (1, 1, 2), (1, 2, 1), (1, 2, 2), (2, 1, 1), (2, 1, 2), (2, 2, 1), (2, 2, 2)] {
        for game in all_games(n, a, o) {
            let parked = usize::from(some_parked(&game));
            match game::verdict(&game) {
                None => {
                    // A no has k below 2^n, so lasting 2^n - 1 rounds is enough.
                    assert!(literal::some_strategy_lasts(&game, (1 << n) - 1), "{game:?}");
                    yes[parked] += 1;
                }
                Some(k) => {
                    assert!(!literal::some_strategy_lasts(&game, k), "{game:?}");
                    assert!(literal::some_strategy_lasts(&game, k - 1), "{game:?}");
                    no[parked][k as usize] += 1;
                }
            }
        }
    }
    for (name, yes, no) in [("none", yes[0], no[0]), ("some", yes[1], no[1])] {
        report(&format!("literal strategies, {name} parked: {yes} yes, no with 1, 2, 3 rounds: {:?}", &no[1..]));
        assert!(yes > 1000 && no[1] > 1000 && no[2] > 10);
    }
    // With two states and one of them parked the third round is never the one that is lost.
    assert!(no[0][3] > 10 && no[1][3] == 0);
}

/// The same on random games of three states, where the number of strategies allows it.
#[test]
fn verdicts_by_literal_strategies_on_three_states() {
    let seed = seed();
    let (mut tried, mut longest, mut parked) = (0, 0, [0; 2]);
    let random = (0..count(50)).map(|i| {
        let mut rng = Rng::new(seed, i);
        let shape = rng.pick(&SHAPES);
        let (a, o) = (rng.within(1, 2), rng.within(1, 2));
        gen::game(&mut rng, shape, 3, a, o)
    });
    for game in random.chain(long_games()) {
        let verdict = game::verdict(&game);
        let rounds = verdict.unwrap_or(3);
        // At most 2^14 strategies.
        if game.o == 2 && rounds > 3 {
            continue;
        }
        tried += 1;
        longest = longest.max(rounds);
        if some_parked(&game) {
            parked[usize::from(verdict.is_none())] += 1;
        }
        assert_eq!(literal::some_strategy_lasts(&game, rounds), verdict.is_none(), "{game:?}");
        assert!(literal::some_strategy_lasts(&game, rounds - 1), "{game:?}");
    }
    report(&format!(
        "literal strategies on three states: seed {seed}, {tried} games, up to {longest} rounds; with parked states \
         no, yes: {parked:?}"
    ));
    assert!(longest >= 6 && (tried < 1000 || parked.iter().all(|&games| games > 50)));
}

/// Games of three states that are lost late, found by search: no with 6, and with a parked state no with 4.
fn long_games() -> [Game; 2] {
    let game = |start, bad, parked, moves: [[u32; 3]; 2]| {
        let moves = moves.map(Vec::from).to_vec();
        Game { n: 3, a: 2, o: 1, start, bad, parked, shows: vec![7], moves }
    };
    [game(2, 0, None, [[4, 0, 3], [4, 1, 0]]), game(1, 4, Some(4), [[4, 3, 0], [2, 0, 0]])]
}

#[test]
fn long_games_are_long() {
    assert_eq!(long_games().map(|game| game::verdict(&game)), [Some(6), Some(4)]);
}

/// What a comparison of many games came by.
#[derive(Default, Debug)]
struct Tally {
    yes: u64,
    no: u64,
    /// Those with a parked state.
    parked_yes: u64,
    parked_no: u64,
    longest: u32,
    most_cells: usize,
    latest_index: u32,
}

impl Tally {
    fn add(&mut self, game: &Game, verdict: &Verdict) {
        let parked = u64::from(some_parked(game));
        match verdict {
            Verdict::Yes { index, card } => {
                self.yes += 1;
                self.parked_yes += parked;
                self.most_cells = self.most_cells.max(card.cells.len());
                self.latest_index = self.latest_index.max(*index);
            }
            Verdict::No { round } => {
                self.no += 1;
                self.parked_no += parked;
                self.longest = self.longest.max(*round);
            }
        }
    }

    fn sum(parts: Vec<(Fast, Tally)>) -> Tally {
        parts.into_iter().map(|part| part.1).fold(Tally::default(), |sum, part| Tally {
            yes: sum.yes + part.yes,
            no: sum.no + part.no,
            parked_yes: sum.parked_yes + part.parked_yes,
            parked_no: sum.parked_no + part.parked_no,
            longest: sum.longest.max(part.longest),
            most_cells: sum.most_cells.max(part.most_cells),
            latest_index: sum.latest_index.max(part.latest_index),
        })
    }
}

fn compare_models(name: &str, games: u64, least: usize, most: usize, by_families: bool) {
    let seed = seed();
    let work = |i: u64, (fast, tally): &mut (Fast, Tally)| {
        let mut rng = Rng::new(seed, i);
        let shape = SHAPES[i as usize % SHAPES.len()];
        let (n, a, o) = (rng.within(least, most), rng.within(1, 8), rng.within(1, 8));
        let game = gen::game(&mut rng, shape, n, a, o);
        let verdict = oracle::decide(&game);
        if by_families {
            let round = match verdict {
                Verdict::Yes { .. } => None,
                Verdict::No { round } => Some(round),
            };
            assert_eq!(round_by_families(&game), round, "{game:?}");
        }
        check_verdict(&game, &verdict);
        check_fast(fast, &game, &verdict);
        tally.add(&game, &verdict);
    };
    let tally = Tally::sum(spread(games, work));
    report(&format!("{name}: seed {seed}, {games} games, {tally:?}"));
    assert!(games < 1000 || tally.yes * 5 > games && tally.no * 5 > games, "a verdict is too seldom");
    // A third of the tables have the bit, and most of these a parked state.
    let seldom = tally.parked_yes * 20 < games || tally.parked_no * 40 < games;
    assert!(games < 1000 || !seldom, "a verdict with parked states is too seldom");
}

#[test]
fn models_agree_up_to_six_states() {
    compare_models("models up to 6 states", count(5), 1, 6, true);
}

#[test]
fn models_agree_up_to_twelve_states() {
    compare_models("models up to 12 states", count(100), 7, 12, false);
}

/// The knowledge counter: no with 2^(n/2).
#[test]
fn counters_count() {
    for n in 2..=12 {
        let game = gen::counter(n);
        assert_eq!(game::verdict(&game), Some(1 << (n / 2)));
    }
}

/// The ring for the benchmark has a large antichain.
#[test]
fn wide_ring_is_wide() {
    let game = gen::ring(12, &gen::WIDE_RING, 2);
    let verdict = oracle::decide(&game);
    check_verdict(&game, &verdict);
    check_fast(&mut Fast::default(), &game, &verdict);
    assert!(matches!(verdict, Verdict::Yes { card, .. } if card.cells.len() == 498));
}

// ---- The tightest next cell --------------------------------------------------------------------

/// The widest of the cells that hold the states.
fn widest(cells: &[u32], states: u32) -> usize {
    let size = |cell: usize| game::members(cells[cell]).count();
    oracle::holders(cells, states).max_by_key(|&cell| size(cell)).expect("a settled set lies in a cell")
}

/// The highest of those with the fewest states.
fn highest_of_tightest(cells: &[u32], states: u32) -> usize {
    let size = |cell: usize| game::members(cells[cell]).count();
    let fewest = size(oracle::tightest(cells, states));
    oracle::holders(cells, states).filter(|&cell| size(cell) == fewest).last().expect("the tightest is one")
}

/// The rules that a program might go by instead.
const WRONG_RULES: [(&str, Naming); 3] =
    [("lowest", oracle::lowest), ("widest", widest), ("highest of the tightest", highest_of_tightest)];

/// The words of the card that names cells by the rule, and the settling count.
fn card_by(game: &Game, naming: Naming) -> Option<(Vec<u32>, u32)> {
    match oracle::decide_by(game, naming) {
        Verdict::Yes { index, card } => Some((oracle::card_words(&card), index)),
        Verdict::No { .. } => None,
    }
}

/// The card that the fast solver writes, and the settling count.
fn fast_card(solver: &mut fast::Solver, table: &[u32]) -> Option<(Vec<u32>, u32)> {
    let (mut work, mut card) = (vec![0; 4 * 4096], vec![0; 1 + 8 + 924 * 9]);
    let fast::Verdict::Yes { index, .. } = solver.solve(table, &mut work, &mut card) else { return None };
    let (cells, o) = ((card[0] & 0xFFFF) as usize, (card[0] >> 16 & 15) as usize);
    card.truncate(oracle::card_length(cells, o));
    Some((card, index))
}

/// The fast solver's card against the cards of the other rules: they differ in the cells named alone, and where
/// they do, the check of the tightest refuses the other. How many words differ, rule by rule.
fn compare_rules(solver: &mut fast::Solver, game: &Game) -> [usize; 3] {
    let table = oracle::table_words(game);
    let Some((card, index)) = fast_card(solver, &table) else {
        assert!(WRONG_RULES.iter().all(|rule| card_by(game, rule.1).is_none()), "{game:?}");
        return [0; 3];
    };
    assert_eq!(names_tightest(&table, &card), Ok(()), "{game:?}");
    WRONG_RULES.map(|(name, naming)| {
        let (other, other_index) = card_by(game, naming).expect("the verdict is the same");
        assert_eq!(index, other_index, "{game:?}");
        let words = differ_in_names(&card, &other).unwrap_or_else(|why| panic!("{name}: {why}, {game:?}"));
        assert_eq!(names_tightest(&table, &other).is_ok(), words == 0, "{name}: {game:?}");
        words
    })
}

/// The cards that differ by each rule.
fn differing(words: [usize; 3]) -> [u64; 3] {
    words.map(|words| u64::from(words > 0))
}

#[test]
fn other_rules_name_other_cells_alone() {
    let seed = seed();
    let work = |i: u64, (fast, cards): &mut (Fast, [u64; 3])| {
        let mut rng = Rng::new(seed, i);
        let (n, a, o) = (rng.within(1, 8), rng.within(1, 8), rng.within(1, 8));
        let game = gen::game(&mut rng, SHAPES[i as usize % SHAPES.len()], n, a, o);
        let found = differing(compare_rules(&mut fast.0[i as usize / SHAPES.len() % 2], &game));
        *cards = [0, 1, 2].map(|rule| cards[rule] + found[rule]);
    };
    let games = count(20);
    let sum = |sum: [u64; 3], part: (Fast, [u64; 3])| [0, 1, 2].map(|rule| sum[rule] + part.1[rule]);
    let cards = spread(games, work).into_iter().fold([0; 3], sum);
    let names = WRONG_RULES.map(|rule| rule.0);
    report(&format!("rules of naming: seed {seed}, {games} games, cards that differ by {names:?}: {cards:?}"));
    assert!(games < 1000 || cards.iter().all(|&cards| cards * 200 > games), "a rule makes too seldom a difference");
}

/// The rings of the benchmark: their cells are those of the plain rings, and some words, in the second ring many,
/// name another cell than the lowest.
#[test]
fn overlapping_rings_name_other_cells() {
    let mut fast = Fast::default();
    for (blocked, cells, least) in [(&gen::WIDE_RING, 498, 20), (&gen::MIXED_RING, 216, 300)] {
        let game = gen::overlapping_ring(&mut Rng::new(seed(), 7), blocked);
        let verdict = oracle::decide(&game);
        check_verdict(&game, &verdict);
        check_fast(&mut fast, &game, &verdict);
        let words = compare_rules(&mut fast.0[1], &game);
        report(&format!("overlapping ring: seed {}, {cells} cells, words that differ by rule {words:?}", seed()));
        assert!(words.iter().all(|&words| words >= least) || seed() != GATE_SEED);
        assert!(matches!(verdict, Verdict::Yes { card, .. } if card.cells.len() == cells));
    }
}

/// On the observations of random plays the cell holds all that the player may hold for possible.
#[test]
fn cells_hold_what_is_known() {
    let seed = seed();
    let mut longest = 0;
    for i in 0..count(50) {
        let mut rng = Rng::new(seed, i);
        let (n, a, o) = (rng.within(1, 8), rng.within(1, 8), rng.within(1, 8));
        let game = gen::game(&mut rng, SHAPES[i as usize % SHAPES.len()], n, a, o);
        let Some(card) = solved(&game) else { continue };
        let observations = gen::play(&mut rng, &game, &card, 30);
        let set = |cell: u32| card.cells[cell as usize].mask;
        assert_eq!(knows_within(&game, &mut CardRunner(&card), &observations, set), Ok(()), "{game:?}");
        // A set that is said to lack a state which may come is noticed.
        if observations.len() == 30 {
            let first = game.start & game.shows[observations[0] as usize];
            let lacking = |cell: u32| set(cell) & !first;
            assert!(knows_within(&game, &mut CardRunner(&card), &observations, lacking).is_err(), "{game:?}");
        }
        longest = longest.max(observations.len());
    }
    assert!(count(50) < 1000 || longest == 30);
}

/// Plays one by one, nothing remembered: as the product of states and cells says.
#[test]
fn plays_one_by_one() {
    let mut played = 0;
    for game in all_games(2, 2, 1).chain(all_games(2, 1, 2)) {
        if let Verdict::Yes { card, .. } = oracle::decide(&game) {
            assert!(lasts_played(&game, &mut CardRunner(&card), 5), "{game:?}");
            // With every start state allowed the two ways of playing must still agree.
            let wider = Game { start: 3, ..game.clone() };
            let kept = keeps_clear(&wider, &mut CardRunner(&card)).is_ok();
            assert_eq!(lasts_played(&wider, &mut CardRunner(&card), 5), kept, "{game:?}");
            played += 1;
        }
    }
    assert!(played > 100);
}

/// Lists: the oracle's join and meet by hand-made closure, and the fast ones.
#[test]
fn lists_agree() {
    let seed = seed();
    for i in 0..count(20) {
        let mut rng = Rng::new(seed, i);
        let n = rng.within(1, 8);
        let (first, second) = (gen::list(&mut rng, n, 12), gen::list(&mut rng, n, 12));
        let held = |list: &[u32], set: u32| list.iter().any(|&other| game::subset(set, other));
        let maximal = |inside: &dyn Fn(u32) -> bool| {
            let family: Vec<bool> = (0..1 << n).map(inside).collect();
            game::maximal(n, &family)
        };
        let join = maximal(&|set| held(&first, set) || held(&second, set));
        let meet = maximal(&|set| held(&first, set) && held(&second, set));
        let mut out = [0; 256];
        assert_eq!(oracle::join(n as u32, &first, &second, 256).unwrap(), join);
        assert_eq!(oracle::meet(n as u32, &first, &second, 256).unwrap(), meet);
        assert_eq!(fast::join(n as u32, &first, &second, &mut out), Ok(join.len()));
        assert_eq!(out[..join.len()], join);
        assert_eq!(fast::meet(n as u32, &first, &second, &mut out), Ok(meet.len()));
        assert_eq!(out[..meet.len()], meet);
    }
}

/// The judges, and the refusals of the fast solver on damaged tables.
#[test]
fn judges_and_refusals_agree() {
    let seed = seed();
    let mut judge = fast::Judge::new();
    let mut solver = fast::Solver::new(Search::Flat);
    let (mut good, mut tables_refused, mut moving) = (0, 0, 0);
    for i in 0..count(20) {
        let mut rng = Rng::new(seed, i);
        let shape = SHAPES[i as usize % SHAPES.len()];
        let (n, a, o) = (rng.within(1, 12), rng.within(1, 8), rng.within(1, 8));
        let mut game = gen::game(&mut rng, shape, n, a, o);
        if rng.percent(20) {
            game = gen::moving_on(&mut rng, game);
        }
        let mut table = oracle::table_words(&game);
        let (mask, k) = (rng.set(n + 1, 30), rng.within(0, 5) as u32);
        if rng.percent(50) {
            gen::damage(&mut rng, &mut table);
        }
        let expected = oracle::judge(&table, mask, k);
        let found = judge.judge(&table, mask, k);
        assert_eq!(found, expected.map_err(refused), "{table:x?}");
        good += u32::from(found == Ok(true));
        if let Err(refusal) = oracle::read_table(&table) {
            let expected = fast::Verdict::Refused { number: refusal.number, place: refusal.place as usize };
            assert_eq!(solver.solve(&table, &mut [], &mut []), expected, "{table:x?}");
            tables_refused += 1;
            moving += u32::from(refusal.number == 19);
        }
    }
    report(&format!("judges: seed {seed}, {good} good, {tables_refused} tables refused, {moving} of them by 19"));
    assert!(count(20) < 1000 || good > 100 && tables_refused > 100 && moving > 100);
}

fn refused(refusal: Refusal) -> (u32, usize) {
    (refusal.number, refusal.place as usize)
}

/// Runs, moves and driven runners of the fast model, on right and on damaged cards. A refused run
/// writes nothing, and none writes behind its actions.
#[test]
fn runs_agree() {
    let seed = seed();
    let mut answers = [0; 18];
    for i in 0..count(5) {
        let mut rng = Rng::new(seed, i);
        let (words, observations) = card_and_observations(&mut rng);
        let cell = rng.below(20) as u32;
        for &observation in observations.iter().take(3) {
            assert_eq!(fast::open(&words, observation), oracle::open(&words, observation).map_err(refused));
            assert_eq!(fast::step(&words, cell, observation), oracle::step(&words, cell, observation).map_err(refused));
        }
        if let Some(&three) = observations.first_chunk() {
            assert_eq!(fast::drive(&words, three), oracle::drive(&words, three).map_err(refused), "{words:x?}");
        }
        let mut out = vec![9; rng.within(0, 30)];
        let expected = oracle::run(&words, &observations, out.len()).map_err(refused);
        let found = fast::run(&words, &observations, &mut out);
        assert_eq!(found, expected.as_ref().map(Vec::len).map_err(|&refusal| refusal), "{words:x?}");
        let mut left = expected.unwrap_or_default();
        left.resize(out.len(), 9);
        assert_eq!(out, left, "{words:x?}");
        answers[found.map_or_else(|refusal| refusal.0 as usize, |_| 0)] += 1;
    }
    report(&format!("runs: seed {seed}, taken {}, refused by 12 to 15: {:?}", answers[0], &answers[12..16]));
    assert!(count(5) < 1000 || [0, 12, 13, 14, 15].iter().all(|&number: &usize| answers[number] > 50));
}

/// A card, sometimes damaged, and observations that it takes, sometimes with another among them.
fn card_and_observations(rng: &mut Rng) -> (Vec<u32>, Vec<u32>) {
    let (cells, a, o) = (rng.pick(&[1, 2, 3, 17, 100]), rng.within(1, 8), rng.within(1, 8));
    let mut words = gen::card(rng, cells, a, o);
    let card = oracle::read_card(&words).expect("the card is right");
    let length = rng.within(0, 20);
    let mut observations = gen::walk(rng, &card, length);
    if rng.percent(50) && !observations.is_empty() {
        let (place, near, wild) = (rng.below(observations.len()), rng.within(0, o + 1) as u32, rng.word());
        observations[place] = rng.pick(&[near, near, wild]);
    }
    if rng.percent(30) {
        gen::damage(rng, &mut words);
    }
    (words, observations)
}

/// The judges of cards: the oracle's, the fast one, and the one by states. What is accepted keeps every play
/// clear, in cells whose sets hold the state. The solver's card is accepted, and so is the unfolded one.
#[test]
fn card_judges_agree() {
    let seed = seed();
    let mut judge = fast::CardJudge::new();
    let mut answers = [0; 20];
    // Cards over tables with a parked state, refused and accepted.
    let mut parked = [0; 2];
    for i in 0..count(2) {
        let mut rng = Rng::new(seed, i);
        let (n, a, o) = (rng.within(1, 6), rng.within(1, 8), rng.within(1, 8));
        let game = gen::game(&mut rng, SHAPES[i as usize % SHAPES.len()], n, a, o);
        let (mut table, solved) = (oracle::table_words(&game), solved(&game));
        if let Some(card) = &solved {
            for card in [card.clone()].into_iter().chain(gen::unfolded(&game, card, 200)) {
                assert_eq!(judge.judge(&table, &oracle::card_words(&card)), Ok(()), "{game:?}");
            }
        }
        let mut words = gen::card_for(&mut rng, &game, solved.as_ref());
        spoil(&mut rng, game, &mut table, &mut words);
        let expected = oracle::judge_card(&table, &words);
        assert_eq!(judge.judge(&table, &words), expected.map_err(refused), "{table:x?} {words:x?}");
        let number = expected.map_or_else(|refusal| refusal.number as usize, |()| 0);
        answers[number] += 1;
        if let (0 | 18, Ok(game), Ok(card)) = (number, oracle::read_table(&table), oracle::read_card(&words)) {
            assert_eq!(holds_by_states(&game, &card), expected.is_ok(), "{game:?} {card:?}");
            parked[usize::from(expected.is_ok())] += u64::from(some_parked(&game));
            if expected.is_ok() {
                let set = |cell: u32| card.cells[cell as usize].mask;
                assert_eq!(keeps_within(&game, &mut CardRunner(&card), set), Ok(()), "{game:?} {card:?}");
            }
        }
    }
    let (accepted, refused) = answers.split_at(1);
    report(&format!("judges of cards: seed {seed}, accepted {accepted:?}, refused by 1 to 19: {refused:?}"));
    report(&format!("judges of cards: seed {seed}, with parked states refused by 18, accepted {parked:?}"));
    let numbers = [0, 1, 2, 3, 4, 5, 6, 7, 13, 16, 18, 19];
    assert!(count(2) < 1000 || parked.iter().all(|&cards| cards * 20 > count(2)));
    assert!(count(2) < 50_000 || numbers.iter().all(|&number: &usize| answers[number] > 0));
    assert!(count(2) < 1000 || answers[0] * 10 > count(2) && answers[18] * 10 > count(2));
}

/// Now and then the table or the card is damaged, or the table has a parked state that moves on.
fn spoil(rng: &mut Rng, game: Game, table: &mut Vec<u32>, card: &mut Vec<u32>) {
    match rng.below(50) {
        0..=4 => gen::damage(rng, table),
        5..=9 => gen::damage(rng, card),
        10 => *table = oracle::table_words(&gen::moving_on(rng, game)),
        _ => (),
    }
}

/// The solver's card of a game, where it has one.
fn solved(game: &Game) -> Option<Card> {
    match oracle::decide(game) {
        Verdict::Yes { card, .. } => Some(card),
        Verdict::No { .. } => None,
    }
}

/// Cards of every number of cells up to 40, drawn by hand and redrawn.
#[test]
fn card_judges_agree_on_every_length() {
    let mut judge = fast::CardJudge::new();
    let mut accepted = 0;
    for i in 0..400 {
        let mut rng = Rng::new(seed(), i);
        let (n, a, o) = (rng.within(1, 12), rng.within(1, 8), rng.within(1, 8));
        let game = gen::open_game(&mut rng, n, a, o);
        let mut card = gen::drawn(&mut rng, &game, 1 + i as usize % 40);
        for _ in 0..2 {
            let (table, words) = (oracle::table_words(&game), oracle::card_words(&card));
            let expected = oracle::judge_card(&table, &words).map_err(refused);
            assert_eq!(judge.judge(&table, &words), expected, "{table:x?} {words:x?}");
            accepted += u32::from(expected.is_ok());
            gen::redraw(&mut rng, &game, &mut card);
        }
    }
    assert!((100..700).contains(&accepted), "{accepted} of 800 accepted");
}

/// Cards of 4,096 cells, right and with a word changed anywhere.
#[test]
fn card_judges_agree_on_long_cards() {
    let mut rng = Rng::new(seed(), 1);
    let mut judge = fast::CardJudge::new();
    for o in 1..=8 {
        let game = gen::open_game(&mut rng, 12, 8, o);
        let table = oracle::table_words(&game);
        let card = oracle::card_words(&gen::card_of_all_sets(&mut rng, &game));
        assert_eq!(judge.judge(&table, &card), Ok(()), "{game:?}");
        for _ in 0..20 {
            let (mut words, place) = (card.clone(), rng.below(card.len()));
            words[place] ^= 1 << rng.below(13);
            let expected = oracle::judge_card(&table, &words).map_err(refused);
            assert_eq!(judge.judge(&table, &words), expected, "word {place}: {:x}, {game:?}", words[place]);
        }
    }
}

/// Searching for a strategy and the families tell the same of every number of rounds.
#[test]
fn searching_agrees_with_judging() {
    let seed = seed();
    for i in 0..count(100) {
        let mut rng = Rng::new(seed, i);
        let shape = SHAPES[i as usize % SHAPES.len()];
        let (a, o) = (rng.within(1, 3), rng.within(1, 3));
        let game = gen::game(&mut rng, shape, 5, a, o);
        let mut search = check::Search::new(&game);
        for k in 0..=4 {
            let good = game.start_sets().iter().all(|&set| game::good(&game, set, k));
            assert_eq!(search.some_strategy_lasts(k), good, "{game:?}");
        }
    }
}

/// What change 2 says of all tables, on all the smallest.
#[test]
fn finished_batches_on_all_small_games() {
    let mut met = Finished::default();
    for (n, a, o) in [(1, 1, 1), (1, 2, 2), (2, 1, 1), (2, 1, 2), (2, 2, 1)] {
        all_games(n, a, o).for_each(|game| met.table(&mut |call| oracle::outcome(&call), &game));
    }
    report(&format!("finished batches, all small games: {met:?}"));
    // It takes three states to win a round and lose all the same.
    met.must_have_all_but(&["a later round", "moving on", "two moving on"]);
}

/// The same on random games, and on tables in which a parked state moves on.
#[test]
fn finished_batches_on_random_games() {
    let seed = seed();
    let work = |i: u64, met: &mut Finished| {
        let mut rng = Rng::new(seed, i);
        let (n, a, o) = (rng.within(1, 5), rng.within(1, 4), rng.within(1, 4));
        let mut game = gen::unmarked_game(&mut rng, SHAPES[i as usize % SHAPES.len()], n, a, o);
        if rng.percent(50) {
            game = gen::with_ends(&mut rng, game);
        }
        if rng.percent(70) {
            game = gen::parking(&mut rng, game);
        }
        met.table(&mut |call| oracle::outcome(&call), &game);
        met.moving_on(&mut |call| oracle::outcome(&call), &gen::moving_on(&mut rng, game));
    };
    let games = count(20);
    let mut met = Finished::default();
    spread(games, work).iter().for_each(|part| met.add(part));
    report(&format!("finished batches, random games: seed {seed}, {games} games, {met:?}"));
    if games >= 1000 {
        met.must_have_all_but(&[]);
    }
}
