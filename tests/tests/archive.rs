//! The proved archive against the models, every entry, with guard words around every buffer.
#![cfg(feature = "archive")]

use kirdanzug_tests::archive;
use kirdanzug_tests::check::{differ_in_names, keeps_clear, keeps_within, knows_within, lasts_played, no_holds};
use kirdanzug_tests::finished::Finished;
use kirdanzug_tests::game::{subset, Game};
use kirdanzug_tests::gen::{self, Rng, Shape, SHAPES};
use kirdanzug_tests::guard::{compare, ArchiveRunner};
use kirdanzug_tests::oracle::{
    self, card_length, work_length, Call, Card, Cell, Decided, Fields, Outcome, Spot, Verdict, NO_CELL, PARKED_BIT,
};
use kirdanzug_tests::run::{count, report, seed, spread};
use kirdanzug_tests::stack;
use kirdanzug_tests::stations;
use std::collections::BTreeMap;

/// How many random inputs are enough for every verdict and refusal to come up; the rarest, 6 and 7, come up in
/// one of some hundreds.
const ENOUGH: u64 = 4000;

/// The numbers of refusals, and 0.
const NUMBERS: usize = 22;

/// What the comparisons came by: how often each verdict and each refusal was the right answer.
#[derive(Default, Clone)]
struct Tally {
    calls: u64,
    yes: u64,
    no: u64,
    longest: u64,
    most_cells: u64,
    refusals: [u64; NUMBERS],
    runs: Runs,
    checks: Checks,
    judged: Judged,
    parked: Parked,
}

impl Tally {
    fn add(&mut self, call: &Call, outcome: &Outcome) {
        self.parked.add_call(call, outcome);
        match *call {
            Call::Run { observations, out, .. } => return self.runs.add_run(observations.len(), out, outcome),
            Call::Drive { .. } => return self.runs.add_drive(outcome),
            Call::CheckTable { .. } | Call::CheckCard { .. } | Call::Write { .. } => {
                return self.checks.add_call(call, outcome)
            }
            Call::JudgeCard { card, .. } => return self.judged.add_call(card, outcome),
            _ => self.calls += 1,
        }
        let [tag, first, second] = outcome.answer;
        match (call, tag) {
            (Call::Solve { .. }, 0) => {
                self.yes += 1;
                self.most_cells = self.most_cells.max(second);
            }
            (_, 1) => {
                self.no += 1;
                self.longest = self.longest.max(first);
            }
            (_, 2) => self.refusals[first as usize] += 1,
            _ => (),
        }
    }

    fn sum(parts: Vec<Tally>) -> Tally {
        parts.into_iter().fold(Tally::default(), |mut sum, part| {
            sum.calls += part.calls;
            sum.yes += part.yes;
            sum.no += part.no;
            sum.longest = sum.longest.max(part.longest);
            sum.most_cells = sum.most_cells.max(part.most_cells);
            add_each(&mut sum.refusals, &part.refusals);
            sum.runs.add(&part.runs);
            sum.checks.add(&part.checks);
            sum.judged.add(&part.judged);
            sum.parked.add(&part.parked);
            sum
        })
    }

    fn report(&self, name: &str, tried: u64) {
        let Tally { calls, yes, no, longest, most_cells, refusals, runs, checks, judged, parked } = self;
        report(&format!(
            "{name}: seed {}, {tried} inputs, {calls} calls, solve yes {yes} (up to {most_cells} cells), \
             no {no} (up to {longest} rounds), refusals {}",
            seed(),
            listed(refusals)
        ));
        runs.report(name);
        checks.report(name);
        judged.report(name);
        parked.report(name);
    }

    /// The same where so many random inputs were tried that each number must have come up.
    fn must_have_of(&self, tried: u64, numbers: &[usize]) {
        if tried >= ENOUGH {
            self.must_have(numbers);
        }
    }

    /// The same for the runs.
    fn must_have_runs_of(&self, tried: u64) {
        if tried >= ENOUGH {
            self.runs.must_have_all();
        }
    }

    /// The same for the checks of tables and cards, and for what is written.
    fn must_have_checks_of(&self, tried: u64) {
        if tried >= ENOUGH {
            self.checks.must_have_all();
        }
    }

    /// The same for the judge of cards.
    fn must_have_judged_of(&self, tried: u64) {
        if tried >= ENOUGH {
            self.judged.must_have(&[0, 1, 2, 3, 4, 5, 6, 7, 13, 16, 18, 19]);
            self.judged.must_have_drawn(tried / 4, tried / 10);
        }
    }

    /// The same for tables with parked states.
    fn must_have_parked_of(&self, tried: u64) {
        if tried >= ENOUGH {
            self.parked.must_have_all(tried / 50);
        }
    }

    fn must_have(&self, numbers: &[usize]) {
        for &number in numbers {
            assert!(self.refusals[number] > 0, "refusal {number} never came up");
        }
    }
}

fn add_each(sum: &mut [u64; NUMBERS], part: &[u64; NUMBERS]) {
    sum.iter_mut().zip(part).for_each(|(mine, theirs)| *mine += theirs);
}

/// How often each refusal came up.
fn listed(refusals: &[u64; NUMBERS]) -> String {
    let some: Vec<String> =
        (1..NUMBERS).filter(|&i| refusals[i] > 0).map(|i| format!("{i}: {}", refusals[i])).collect();
    format!("{{{}}}", some.join(", "))
}

/// What runs over lists of observations and runners driven by three came by. In both arrays the
/// number at 0 counts the calls that were not refused.
#[derive(Default, Clone)]
struct Runs {
    run: [u64; NUMBERS],
    driven: [u64; NUMBERS],
    /// The most observations that a run took.
    longest: usize,
    /// Runs refused by 12 or 14 for which the room was short too.
    short_too: u64,
    /// Runs refused by 13 with no observation.
    unobserved: u64,
}

/// The number of a refusal, 0 where there is none.
fn number_of(outcome: &Outcome) -> usize {
    match outcome.answer {
        [2, number, _] => number as usize,
        _ => 0,
    }
}

impl Runs {
    fn add_run(&mut self, observations: usize, out: usize, outcome: &Outcome) {
        let number = number_of(outcome);
        self.run[number] += 1;
        match number {
            0 => self.longest = self.longest.max(observations),
            12 | 14 => self.short_too += u64::from(out < observations),
            13 => self.unobserved += u64::from(observations == 0),
            _ => (),
        }
    }

    fn add_drive(&mut self, outcome: &Outcome) {
        self.driven[number_of(outcome)] += 1;
    }

    fn add(&mut self, part: &Runs) {
        add_each(&mut self.run, &part.run);
        add_each(&mut self.driven, &part.driven);
        self.longest = self.longest.max(part.longest);
        self.short_too += part.short_too;
        self.unobserved += part.unobserved;
    }

    fn report(&self, name: &str) {
        let Runs { run, driven, longest, short_too, unobserved } = self;
        if run.iter().chain(driven).all(|&times| times == 0) {
            return;
        }
        report(&format!(
            "{name}, runs: seed {}, {} taken (up to {longest} observations), refusals {}, by 12 or 14 with a short \
             room {short_too}, by 13 with no observation {unobserved}; driven: {} entered, refusals {}",
            seed(),
            run[0],
            listed(run),
            driven[0],
            listed(driven)
        ));
    }

    /// Runs were taken, and refused by each of these numbers.
    fn must_have(&self, numbers: &[usize]) {
        for &number in [0].iter().chain(numbers) {
            assert!(self.run[number] > 0, "{number} never came up in a run");
        }
    }

    /// All that a run and a driven runner answer, and the earlier of two refusals where both hold.
    fn must_have_all(&self) {
        self.must_have(&[12, 13, 14, 15]);
        for number in [0, 12, 13, 14] {
            assert!(self.driven[number] > 0, "{number} never came up in a driven runner");
        }
        assert!(self.short_too > 0, "no run was refused on the way with a short room");
        assert!(self.unobserved > 0, "no run was refused by 13 with no observation");
    }
}

/// What the checks by themselves and the write came by. The number at 0 counts the calls that were not
/// refused.
#[derive(Default, Clone)]
struct Checks {
    table: [u64; NUMBERS],
    card: [u64; NUMBERS],
    write: [u64; NUMBERS],
}

impl Checks {
    fn add_call(&mut self, call: &Call, outcome: &Outcome) {
        let numbers = match call {
            Call::CheckTable { .. } => &mut self.table,
            Call::CheckCard { .. } => &mut self.card,
            _ => &mut self.write,
        };
        numbers[number_of(outcome)] += 1;
    }

    fn add(&mut self, part: &Checks) {
        add_each(&mut self.table, &part.table);
        add_each(&mut self.card, &part.card);
        add_each(&mut self.write, &part.write);
    }

    fn report(&self, name: &str) {
        let Checks { table, card, write } = self;
        if table.iter().chain(card).chain(write).all(|&times| times == 0) {
            return;
        }
        report(&format!(
            "{name}, checks: seed {}, tables fine {}, refusals {}; cards fine {}, refusals {}; fields written {}, \
             refusals {}",
            seed(),
            table[0],
            listed(table),
            card[0],
            listed(card),
            write[0],
            listed(write)
        ));
    }

    fn must_have_tables(&self, numbers: &[usize]) {
        numbers.iter().for_each(|&number| assert!(self.table[number] > 0, "{number} never came up in a table's check"));
    }

    fn must_have_cards(&self) {
        assert!(self.card[0] > 0 && self.card[13] > 0, "cards were checked: {:?}", self.card);
    }

    fn must_have_writes(&self, numbers: &[usize]) {
        numbers.iter().for_each(|&number| assert!(self.write[number] > 0, "{number} never came up in a write"));
    }

    /// All that the checks and the write answer.
    fn must_have_all(&self) {
        self.must_have_tables(&[0, 1, 2, 3, 4, 5, 6, 7, 19]);
        self.must_have_cards();
        self.must_have_writes(&[0, 2, 5, 6, 7, 10, 11, 19]);
    }
}

/// What the judge of cards came by. The number at 0 counts the cards that were accepted.
#[derive(Default, Clone)]
struct Judged {
    numbers: [u64; NUMBERS],
    /// Cards refused by 18 at a first word, a cell word, a next word.
    spots: [u64; 3],
    /// Accepted cards that are not the solver's.
    by_hand: u64,
    /// Cards that keep every play clear, but are refused by 18.
    safe: u64,
    /// The most cells of an accepted card, and the highest word at fault.
    most_cells: u64,
    highest: u64,
}

impl Judged {
    fn add_call(&mut self, card: &[u32], outcome: &Outcome) {
        self.numbers[number_of(outcome)] += 1;
        match outcome.answer {
            [2, 18, place] => {
                let spot = match oracle::spot((card[0] >> 16 & 15) as usize, place as usize) {
                    Spot::Head => panic!("nothing is asked of the head: {card:x?}"),
                    Spot::First { .. } => 0,
                    Spot::Cell { .. } => 1,
                    Spot::Next { .. } => 2,
                };
                self.spots[spot] += 1;
                self.highest = self.highest.max(place);
            }
            [2, ..] => (),
            _ => self.most_cells = self.most_cells.max(u64::from(card[0] & 0xFFFF)),
        }
    }

    fn add(&mut self, part: &Judged) {
        add_each(&mut self.numbers, &part.numbers);
        self.spots.iter_mut().zip(part.spots).for_each(|(mine, theirs)| *mine += theirs);
        self.by_hand += part.by_hand;
        self.safe += part.safe;
        self.most_cells = self.most_cells.max(part.most_cells);
        self.highest = self.highest.max(part.highest);
    }

    fn report(&self, name: &str) {
        let Judged { numbers, spots, by_hand, safe, most_cells, highest } = self;
        if numbers.iter().all(|&times| times == 0) {
            return;
        }
        report(&format!(
            "{name}, cards judged: seed {}, accepted {} (up to {most_cells} cells; {by_hand} not the solver's), \
             refusals {}, by 18 at a first, cell, next word {spots:?} (up to word {highest}), though safe {safe}",
            seed(),
            numbers[0],
            listed(numbers)
        ));
    }

    /// Each of these numbers came up, and 18 at each sort of word.
    fn must_have(&self, numbers: &[usize]) {
        numbers.iter().for_each(|&number| assert!(self.numbers[number] > 0, "{number} never came up in a judged card"));
        assert!(self.spots.iter().all(|&times| times > 0), "18 at a first, cell, next word: {:?}", self.spots);
    }

    /// So many cards were accepted that are not the solver's, and so many safe ones refused.
    fn must_have_drawn(&self, by_hand: u64, safe: u64) {
        assert!(self.by_hand >= by_hand, "{} cards by hand were accepted", self.by_hand);
        assert!(self.safe >= safe, "{} safe cards were refused", self.safe);
    }
}

/// What calls on tables with a parked state came by.
#[derive(Default, Clone)]
struct Parked {
    /// Solve: yes, no. The plain judge: good, not good. The judge of cards: accepted, refused by 18.
    solved: [u64; 2],
    good: [u64; 2],
    cards: [u64; 2],
    /// Accepted cards of which every play was played out.
    played: u64,
    /// Tables shown, written again, and written from fields.
    shown: u64,
    again: u64,
    written: u64,
    /// Tables written with the bit and no parked state.
    none: u64,
    /// Refused by 19: checks, solve, the plain judge, the judge of cards, show, rewrite, write.
    moving: [u64; 7],
}

/// The mask of the parked states in a table's words, where it marks them.
fn parked_in(table: &[u32]) -> Option<u32> {
    (table.first()? & PARKED_BIT != 0).then(|| table.get(3).map(|word| word & 0xFFFF))?
}

impl Parked {
    fn add_call(&mut self, call: &Call, outcome: &Outcome) {
        let (number, parked) = match *call {
            Call::CheckTable { table } => (0, parked_in(table)),
            Call::Solve { table, .. } => (1, parked_in(table)),
            Call::Judge { table, .. } => (2, parked_in(table)),
            Call::JudgeCard { table, .. } => (3, parked_in(table)),
            Call::Show { table, .. } => (4, parked_in(table)),
            Call::Rewrite { table, .. } => (5, parked_in(table)),
            Call::Write { fields, .. } => (6, fields.parked_marked.then_some(fields.parked)),
            _ => return,
        };
        let Some(parked) = parked else { return };
        let count = match (call, outcome.answer) {
            (_, [2, 19, _]) => &mut self.moving[number],
            (Call::Write { .. } | Call::Rewrite { .. }, [0, ..]) if parked == 0 => &mut self.none,
            _ if parked == 0 => return,
            (Call::JudgeCard { .. }, [0, ..]) => &mut self.cards[0],
            (Call::JudgeCard { .. }, [2, 18, _]) => &mut self.cards[1],
            (_, [2, ..]) => return,
            (Call::Solve { .. }, [tag, ..]) => &mut self.solved[tag as usize],
            (Call::Judge { .. }, [_, good, _]) => &mut self.good[1 - good as usize],
            (Call::Show { .. }, _) => &mut self.shown,
            (Call::Rewrite { .. }, _) => &mut self.again,
            (Call::Write { .. }, _) => &mut self.written,
            _ => return,
        };
        *count += 1;
    }

    fn add(&mut self, part: &Parked) {
        let both = |sum: &mut [u64; 2], part: [u64; 2]| *sum = [0, 1].map(|i| sum[i] + part[i]);
        both(&mut self.solved, part.solved);
        both(&mut self.good, part.good);
        both(&mut self.cards, part.cards);
        self.played += part.played;
        self.shown += part.shown;
        self.again += part.again;
        self.written += part.written;
        self.none += part.none;
        self.moving.iter_mut().zip(part.moving).for_each(|(mine, theirs)| *mine += theirs);
    }

    fn report(&self, name: &str) {
        let Parked { solved, good, cards, played, shown, again, written, none, moving } = self;
        if [solved, good, cards].into_iter().flatten().chain(moving).all(|&times| times == 0) {
            return;
        }
        report(&format!(
            "{name}, parked states: seed {}, solve yes, no {solved:?}, sets good, not good {good:?}, cards accepted, \
             refused by 18 {cards:?}, played out {played}, shown {shown}, rewritten {again}, written {written}, with \
             none parked {none}; by 19 checked, solved, judged, card judged, shown, rewritten, written {moving:?}",
            seed()
        ));
    }

    /// Each answer came up, each verdict and each judgement so often, and each function met 19.
    fn must_have_all(&self, least: u64) {
        let Parked { solved, good, cards, played, shown, again, written, none, moving } = self;
        for (name, both) in [("solve", solved), ("judge", good), ("judge of cards", cards)] {
            assert!(both.iter().all(|&times| times >= least), "{name} with parked states: {both:?}");
        }
        assert!(*played >= least, "{played} accepted cards with parked states were played out");
        assert!([shown, again, written, none].into_iter().all(|&times| times > 0), "shown or written");
        assert!(moving.iter().all(|&times| times > 0), "19: {moving:?}");
    }

    /// Each verdict came up on tables with a parked state.
    fn must_have_verdicts(&self) {
        assert!(self.solved.iter().all(|&times| times > 0), "yes, no with parked states: {:?}", self.solved);
    }
}

/// Compares one call with the oracle.
fn try_call(rng: &mut Rng, tally: &mut Tally, call: Call) {
    let expected = oracle::outcome(&call);
    compare(rng, &call, &expected);
    tally.add(&call, &expected);
}

/// Lengths for a buffer of which so many words are needed: short, exact, long, none.
fn lengths(rng: &mut Rng, needed: usize) -> [usize; 4] {
    let short = match rng.percent(50) {
        true => needed.saturating_sub(1),
        false => rng.below(needed.max(1)),
    };
    [needed, short, needed + rng.within(1, 40), 0]
}

/// Solve on any words.
fn try_solve(rng: &mut Rng, tally: &mut Tally, table: &[u32]) {
    try_decided(rng, tally, table, &oracle::decided(table));
}

/// The card of a yes is accepted against its table, whatever the model says.
fn accepts(rng: &Rng, tally: &mut Tally, table: &[u32], card: &[u32]) {
    let (call, accepted) = (Call::JudgeCard { table, card }, Outcome::done(0, 0));
    compare(&mut rng.clone(), &call, &accepted);
    tally.add(&call, &accepted);
}

/// Solve with short, exact and long work and card buffers, on a table already decided. Where it is a yes, the
/// card is judged.
fn try_decided(rng: &mut Rng, tally: &mut Tally, table: &[u32], decided: &Decided) {
    if let Ok((_, Verdict::Yes { card, .. })) = decided {
        accepts(rng, tally, table, &oracle::card_words(card));
    }
    let (work, card) = match decided {
        Ok((n, Verdict::Yes { card, .. })) => (work_length(*n), card_length(card.cells.len(), card.o)),
        Ok((n, Verdict::No { .. })) => (work_length(*n), 16),
        Err(_) => (32, 16),
    };
    let mut one = |rng: &mut Rng, work, card| {
        let call = Call::Solve { table, work, card };
        let expected = oracle::solve_outcome(decided, work, card);
        compare(rng, &call, &expected);
        tally.add(&call, &expected);
    };
    let works = lengths(rng, work);
    let cards = lengths(rng, card);
    one(rng, works[0], cards[0]);
    one(rng, works[2], cards[2]);
    one(rng, works[2], cards[1]);
    let either = rng.pick(&[cards[1], cards[2]]);
    one(rng, works[1], either);
}

/// Every play under the card's actions stays clear, run by the archive, in cells that hold its states; a no holds.
fn check_verdict(game: &Game, verdict: &Verdict) {
    match verdict {
        Verdict::Yes { card, .. } => {
            let words = oracle::card_words(card);
            let set = |cell: u32| card.cells[cell as usize].mask;
            assert_eq!(keeps_within(game, &mut ArchiveRunner { card: &words }, set), Ok(()), "{game:?}");
        }
        Verdict::No { round } => assert_eq!(no_holds(game, *round), Ok(()), "{game:?}"),
    }
}

/// A number with a bit far above its field set: it must not be cut to the field.
fn overlong(rng: &mut Rng, number: u32) -> u32 {
    number | 1 << rng.within(16, 31)
}

/// Cell numbers that matter for a card of m cells.
fn some_cell(rng: &mut Rng, m: usize) -> u32 {
    let any = rng.below(m) as u32;
    let (long, wild) = (overlong(rng, any), rng.word());
    let m = m as u32;
    rng.pick(&[0, any, any, any, m - 1, m, NO_CELL, long, wild])
}

fn some_observation(rng: &mut Rng, o: usize) -> u32 {
    let any = rng.below(o) as u32;
    let (long, wild) = (overlong(rng, any), rng.word());
    let o = o as u32;
    rng.pick(&[0, any, any, any, any, o - 1, o, o + 1, any + 8, any + 16, long, wild])
}

/// Opening, steps and showing on a card's words, whatever they are.
fn try_card(rng: &mut Rng, tally: &mut Tally, table: &[u32], card: &[u32], calls: usize) {
    let head = card.first().copied().unwrap_or(0);
    let (m, o) = ((head & 0xFFFF).max(1) as usize, (head >> 16 & 15).max(1) as usize);
    try_check(rng, tally, Call::CheckCard { card });
    try_check(rng, tally, Call::JudgeCard { table, card });
    for _ in 0..calls {
        let (cell, observation) = (some_cell(rng, m), some_observation(rng, o));
        try_call(rng, tally, Call::Open { card, observation });
        try_call(rng, tally, Call::Step { card, cell, observation });
        try_call(rng, tally, Call::Show { table, card, cell });
        try_runs(rng, tally, card, o, 12);
    }
}

/// Runs over some observations with exact, short, long and no room, and a runner driven by three. They
/// draw from a copy of the generator, so that the other calls are what they are without them.
fn try_runs(rng: &Rng, tally: &mut Tally, card: &[u32], o: usize, longest: usize) {
    let rng = &mut rng.clone();
    let observations = &some_observations(rng, card, o, longest);
    for out in lengths(rng, observations.len()) {
        try_call(rng, tally, Call::Run { card, observations, out });
    }
    let some = some_observations(rng, card, o, 3);
    let observations = [0, 1, 2].map(|i| some.get(i).copied().unwrap_or_else(|| some_observation(rng, o)));
    try_call(rng, tally, Call::Drive { card, observations });
}

/// Observations that the card takes, mostly with another in one place; any where the card is wrong.
fn some_observations(rng: &mut Rng, card: &[u32], o: usize, longest: usize) -> Vec<u32> {
    let length = rng.within(0, longest);
    let mut observations = match oracle::read_card(card) {
        Ok(card) => gen::walk(rng, &card, length),
        Err(_) => (0..length).map(|_| some_observation(rng, o)).collect(),
    };
    if !observations.is_empty() && rng.percent(60) {
        let place = rng.below(observations.len());
        observations[place] = some_observation(rng, o);
    }
    observations
}

/// A check by itself, or a judged card. It draws from a copy of the generator, as the runs do.
fn try_check(rng: &Rng, tally: &mut Tally, call: Call) {
    try_call(&mut rng.clone(), tally, call);
}

/// The fields of an accepted table give its words again, with exact, short, long and no room; and then
/// fields with something wrong in them.
fn try_write(rng: &Rng, tally: &mut Tally, table: &[u32]) {
    let rng = &mut rng.clone();
    let mut fields = oracle::read_fields(table).expect("the table is accepted");
    assert_eq!(oracle::write_fields(&fields, table.len()).as_deref(), Ok(table));
    for out in lengths(rng, table.len()) {
        try_call(rng, tally, Call::Write { fields: &fields, out });
    }
    for _ in 0..2 {
        gen::damage_fields(rng, &mut fields);
        let out = rng.pick(&[table.len(), table.len() + 40, 0]);
        try_call(rng, tally, Call::Write { fields: &fields, out });
    }
}

/// A random play under the solver's card: a run over its observations is taken whole, and the cells that the
/// archive's runner comes to hold all that the player may hold for possible.
fn try_play(rng: &Rng, tally: &mut Tally, game: &Game, card: &Card) {
    let rng = &mut rng.clone();
    let length = rng.within(0, 40);
    let observations = &gen::play(rng, game, card, length);
    let set = |cell: u32| card.cells[cell as usize].mask;
    let card = &oracle::card_words(card);
    assert_eq!(knows_within(game, &mut ArchiveRunner { card }, observations, set), Ok(()), "{game:?}");
    let taken = oracle::run(card, observations, length).map(|actions| actions.len());
    assert_eq!(taken, Ok(observations.len()), "{game:?}");
    // It may have ended before, but only in a parked state.
    assert!(observations.len() == length || game.parked.is_some(), "{game:?}");
    try_call(rng, tally, Call::Run { card, observations, out: length });
}

/// Judging some masks, one of them from n up at times, and k from 0 to 5 or anything.
fn try_judge(rng: &mut Rng, tally: &mut Tally, table: &[u32], calls: usize) {
    let n = (table.first().copied().unwrap_or(3) & 15).max(1) as usize;
    for _ in 0..calls {
        let share = rng.pick(&[10, 30, 60]);
        let (inside, about, wild) = (rng.set(n, share), rng.set(n + 1, share), rng.word());
        let long = overlong(rng, inside);
        let mask = rng.pick(&[inside, inside, inside, inside, about, long, wild]);
        let (long, wild) = (overlong(rng, 2), rng.word());
        let k = rng.pick(&[0, 1, 2, 2, 3, 3, 3, 4, 4, 4, 5, long, wild]);
        try_call(rng, tally, Call::Judge { table, mask, k });
    }
}

/// Every entry on one table: as it is, then damaged, then its card damaged.
fn try_table(rng: &mut Rng, tally: &mut Tally, table: &[u32]) {
    let decided = oracle::decided(table);
    try_decided(rng, tally, table, &decided);
    let (_, verdict) = decided.as_ref().expect("the table is accepted");
    let game = oracle::read_table(table).expect("the table is accepted");
    check_verdict(&game, verdict);
    try_judge(rng, tally, table, 2);
    for out in lengths(rng, table.len()) {
        try_call(rng, tally, Call::Rewrite { table, out });
    }
    try_check(rng, tally, Call::CheckTable { table });
    try_write(rng, tally, table);
    try_drawn(rng, tally, &Station { table, game: &game, solved: solved(verdict) }, 3);
    if let Verdict::Yes { card, .. } = verdict {
        try_play(rng, tally, &game, card);
        let mut card = oracle::card_words(card);
        try_card(rng, tally, table, &card, 2);
        gen::damage(rng, &mut card);
        try_card(rng, tally, table, &card, 1);
    }
    try_damaged(rng, tally, table);
    try_moving(rng, tally, game);
}

/// Now and then a table in which a parked state moves on, and its fields.
fn try_moving(rng: &Rng, tally: &mut Tally, game: Game) {
    let rng = &mut rng.clone();
    if rng.percent(10) {
        let game = gen::moving_on(rng, game);
        let table = &oracle::table_words(&game);
        try_solve(rng, tally, table);
        try_fields_of(rng, tally, &game);
        try_judge(rng, tally, table, 1);
        let card = &gen::card(rng, 2, game.a, game.o);
        for call in [
            Call::CheckTable { table },
            Call::Rewrite { table, out: table.len() },
            Call::Show { table, card, cell: 1 },
            Call::JudgeCard { table, card },
        ] {
            try_call(rng, tally, call);
        }
    }
}

/// The game's fields, whatever its masks, with exact, short, long and no room.
fn try_fields_of(rng: &mut Rng, tally: &mut Tally, game: &Game) {
    let fields = &oracle::fields_of(game);
    for out in lengths(rng, oracle::table_length(game.n, game.a, game.o, game.parked.is_some())) {
        try_call(rng, tally, Call::Write { fields, out });
    }
}

fn try_damaged(rng: &mut Rng, tally: &mut Tally, table: &[u32]) {
    let mut damaged = table.to_vec();
    for _ in 0..rng.within(1, 2) {
        gen::damage(rng, &mut damaged);
    }
    try_solve(rng, tally, &damaged);
    try_check(rng, tally, Call::CheckTable { table: &damaged });
    try_judge(rng, tally, &damaged, 1);
    try_call(rng, tally, Call::Rewrite { table: &damaged, out: table.len() });
    let card = gen::card(rng, 2, 2, 2);
    try_call(rng, tally, Call::Show { table: &damaged, card: &card, cell: 1 });
    let mut wrong = card.clone();
    gen::damage(&mut rng.clone(), &mut wrong);
    for card in [&card, &wrong] {
        try_check(rng, tally, Call::JudgeCard { table: &damaged, card });
    }
}

// ---- Cards judged ------------------------------------------------------------------------------

/// An accepted table, its game, and the solver's card where it has one.
struct Station<'a> {
    table: &'a [u32],
    game: &'a Game,
    solved: Option<&'a Card>,
}

fn solved(verdict: &Verdict) -> Option<&Card> {
    match verdict {
        Verdict::Yes { card, .. } => Some(card),
        Verdict::No { .. } => None,
    }
}

/// Some cards for the station: the solver's redrawn, drawn by hand, any. They are drawn from a copy of the
/// generator, as the runs are.
fn try_drawn(rng: &Rng, tally: &mut Tally, station: &Station, cards: usize) {
    let rng = &mut rng.clone();
    for _ in 0..cards {
        let card = gen::card_for(rng, station.game, station.solved);
        try_judged(rng, tally, station, &card);
    }
}

/// A card judged, and played on the archive's runner. What is accepted keeps every play clear, and the state
/// is always in the set of the cell; so the table is a yes, and each set lies in one of the solver's cells.
fn try_judged(rng: &mut Rng, tally: &mut Tally, station: &Station, words: &[u32]) {
    let &Station { table, game, solved } = station;
    let call = Call::JudgeCard { table, card: words };
    let expected = oracle::outcome(&call);
    compare(rng, &call, &expected);
    tally.add(&call, &expected);
    let mut runner = ArchiveRunner { card: words };
    match number_of(&expected) {
        0 => {
            let card = oracle::read_card(words).expect("what is accepted is a card");
            let set = |cell: u32| card.cells[cell as usize].mask;
            assert_eq!(keeps_within(game, &mut runner, set), Ok(()), "{call:?}");
            let largest = solved.unwrap_or_else(|| panic!("a card is accepted where there is none: {call:?}"));
            let held = |cell: &Cell| largest.cells.iter().any(|large| subset(cell.mask, large.mask));
            assert!(card.cells.iter().all(held), "{call:?}");
            tally.judged.by_hand += u64::from(card != *largest);
            tally.parked.played += u64::from(game.parked.is_some_and(|parked| parked != 0));
        }
        18 => tally.judged.safe += u64::from(keeps_clear(game, &mut runner).is_ok()),
        _ => (),
    }
}

/// A number taken apart, digit by digit.
struct Digits(u64);

impl Digits {
    fn next(&mut self, base: usize) -> usize {
        let digit = self.0 % base as u64;
        self.0 /= base as u64;
        digit as usize
    }

    /// What the words of o observations name, of m cells or none.
    fn named(&mut self, m: usize, o: usize) -> Vec<Option<usize>> {
        (0..o).map(|_| self.next(m + 1)).map(|cell| (cell < m).then_some(cell)).collect()
    }
}

/// The cards of m cells with masks below a bound, by number.
struct Cards {
    a: usize,
    o: usize,
    m: usize,
    masks: usize,
}

impl Cards {
    fn count(&self) -> u64 {
        let named = (self.m as u64 + 1).pow(self.o as u32);
        named * ((self.masks * self.a) as u64 * named).pow(self.m as u32)
    }

    fn words(&self, number: u64) -> Vec<u32> {
        let &Cards { a, o, m, masks } = self;
        let mut digits = Digits(number);
        let first = digits.named(m, o);
        let mut cell =
            |_| Cell { mask: digits.next(masks) as u32, action: digits.next(a), next: digits.named(m, o) };
        oracle::card_words(&Card { a, o, first, cells: (0..m).map(&mut cell).collect() })
    }
}

/// All cards of one, two or three cells against all tables of one or two states, with a state from n up in
/// their sets too (alone, where there are many cards). With the bit and no parked state some of the cards are enough.
#[test]
fn all_small_cards() {
    // States, actions, observations, cells, and how many masks.
    let families = [
        (1, 1, 1, 3, 4),
        (1, 1, 2, 2, 4),
        (1, 2, 1, 2, 4),
        (1, 2, 2, 2, 4),
        (2, 1, 1, 2, 8),
        (2, 1, 2, 1, 8),
        (2, 2, 1, 1, 8),
        (2, 2, 1, 2, 5),
        (2, 2, 2, 1, 5),
    ];
    for ((n, a, o, m, masks), marked) in families.into_iter().flat_map(|family| [(family, false), (family, true)]) {
        let (cards, small) = (Cards { a, o, m, masks }, Small { n, a, o, marked });
        let work = |number: u64, tally: &mut Tally| {
            let game = small.game(number);
            let step = if game.parked == Some(0) { 37 } else { 1 };
            let all = (0..cards.count()).step_by(step).map(|number| cards.words(number));
            try_cards(&mut Rng::new(seed(), number), tally, &game, all);
        };
        let tally = Tally::sum(spread(small.count(), work));
        let name = format!("all cards of {m} cells, tables of {}", small.name());
        tally.judged.report(&name);
        tally.parked.report(&name);
        tally.judged.must_have(if marked { &[0, 6, 7, 18, 19] } else { &[0, 6, 7, 18] });
        tally.judged.must_have_drawn(if marked { 20 } else { 90 }, if marked { 20 } else { 1000 });
        let Parked { cards, played, .. } = tally.parked;
        assert!(!marked || played > 0 && cards[1] > 0, "cards played out {played}, {cards:?}");
    }
}

/// The cards judged against the game's table, the solver's too where it has one. One of them is enough where the
/// table is refused.
fn try_cards(rng: &mut Rng, tally: &mut Tally, game: &Game, cards: impl Iterator<Item = Vec<u32>>) {
    let table = &oracle::table_words(game);
    let Ok((_, verdict)) = oracle::decided(table) else {
        return cards.take(1).for_each(|card| try_call(rng, tally, Call::JudgeCard { table, card: &card }));
    };
    let station = Station { table, game, solved: solved(&verdict) };
    if let Some(card) = station.solved {
        accepts(rng, tally, table, &oracle::card_words(card));
    }
    cards.for_each(|card| try_judged(rng, tally, &station, &card));
}

/// The solver's card of one table judged against another: with one state more or less in one mask, and any
/// of these numbers of actions and observations.
#[test]
fn cards_of_other_tables() {
    let work = |i: u64, tally: &mut Tally| {
        let mut rng = Rng::new(seed(), i);
        let (n, a, o) = (rng.within(1, 6), rng.within(1, 4), rng.within(1, 4));
        let game = gen::game(&mut rng, SHAPES[i as usize % SHAPES.len()], n, a, o);
        let Verdict::Yes { card, .. } = oracle::decide(&game) else { return };
        let card = oracle::card_words(&card);
        accepts(&rng, tally, &oracle::table_words(&game), &card);
        let (shape, n) = (rng.pick(&SHAPES), rng.within(1, 6));
        for other in [gen::changed(&mut rng, &game), gen::game(&mut rng, shape, n, a, o)] {
            try_cards(&mut rng, tally, &other, [card.clone()].into_iter());
        }
    };
    let tables = count(4);
    let tally = Tally::sum(spread(tables, work));
    tally.judged.report("cards of other tables");
    if tables >= ENOUGH {
        tally.judged.must_have(&[0, 6, 7, 16, 18, 19]);
        tally.judged.must_have_drawn(tables / 50, tables / 20);
    }
}

/// Cards of every number of cells up to 130, drawn by hand where every set is good, and redrawn.
#[test]
fn cards_of_every_length() {
    let work = |i: u64, tally: &mut Tally| {
        let mut rng = Rng::new(seed(), i);
        let (n, a, o) = (rng.within(1, 7), rng.within(1, 8), rng.within(1, 8));
        let game = gen::open_game(&mut rng, n, a, o);
        let card = gen::drawn(&mut rng, &game, 1 + i as usize % 130);
        let mut redrawn = card.clone();
        gen::redraw(&mut rng, &game, &mut redrawn);
        let cards = [card, redrawn].map(|card| oracle::card_words(&card));
        try_cards(&mut rng, tally, &game, cards.into_iter());
    };
    let tally = Tally::sum(spread(130 * 10, work));
    tally.judged.report("cards of every length");
    tally.judged.must_have(&[0, 18]);
    tally.judged.must_have_drawn(500, 50);
}

/// Cards of 4,096 cells, one for every set of twelve states: as they are, where a first word and the last word
/// say that it cannot occur, and with a bit changed of a first word, of a cell's set or action, of a next word.
#[test]
fn long_cards_judged() {
    let mut rng = Rng::new(seed(), 10);
    let mut tally = Tally::default();
    for (o, marked) in [(1, false), (3, false), (8, false), (1, true), (8, true)] {
        let mut game = gen::unmarked_game(&mut rng, Shape::Sparse, 12, 8, o);
        if marked {
            game = gen::parked_at(game, 1 << 11);
        }
        let game = gen::opened(game);
        let card = oracle::card_words(&gen::card_of_all_sets(&mut rng, &game));
        try_cards(&mut rng, &mut tally, &game, [card.clone()].into_iter());
        let first = (1..=o).find(|&place| card[place] & 0xFFFF != NO_CELL).expect("something is shown first");
        let mut words: Vec<(usize, u32)> = [first, card.len() - 1].map(|place| (place, card[place] | NO_CELL)).into();
        for _ in 0..20 {
            let row = rng.within(1, 4096) * (1 + o);
            let (first, next) = (rng.within(1, o), row + rng.within(1, o));
            words.extend([first, row, next].map(|place| (place, card[place] ^ 1 << rng.below(12))));
            words.push((row, card[row] ^ 1 << rng.within(20, 22)));
        }
        for (place, word) in words {
            let (mut changed, table) = (card.clone(), &oracle::table_words(&game));
            changed[place] = word;
            try_call(&mut rng, &mut tally, Call::JudgeCard { table, card: &changed });
        }
    }
    tally.judged.report("long cards");
    tally.judged.must_have(&[0, 18]);
    // With one observation the last word is at fault where it says that it cannot occur.
    assert!(tally.judged.most_cells == 4096 && tally.judged.highest > 4096 * 2);
    assert_eq!(tally.judged.by_hand, 5);
    tally.parked.report("long cards");
    assert!(tally.parked.cards.iter().all(|&cards| cards > 0));
}

/// A card that is safe and not accepted: cell 1 is entered, though its set says that it never is.
#[test]
fn a_safe_card_that_is_refused() {
    let (table, card) = (&stations::A, &stations::A_CARD_SILENT);
    let game = oracle::read_table(table).expect("the table is accepted");
    compare(&mut Rng::new(seed(), 0), &Call::JudgeCard { table, card }, &Outcome::refused(18, 3));
    assert_eq!(keeps_clear(&game, &mut ArchiveRunner { card }), Ok(()));
}

#[test]
fn stations_of_document_01() {
    let mut rng = Rng::new(seed(), 0);
    for row in stations::rows() {
        for _ in 0..10 {
            compare(&mut rng, &row.call, &row.outcome);
        }
    }
}

/// The numbers of states, actions and observations of the smallest tables.
const SMALL: [(usize, usize, usize); 8] =
    [(1, 1, 1), (1, 1, 2), (1, 2, 1), (1, 2, 2), (2, 1, 1), (2, 1, 2), (2, 2, 1), (2, 2, 2)];

/// All tables of one and two states with one or two actions and observations, with the bit and without, those that
/// are refused for an empty start, a state that shows nothing or a parked state that moves on among them; on each,
/// every mask, k, cell and observation, and one beyond, and every short run; and their fields written.
#[test]
fn all_small_tables() {
    for (n, a, o) in SMALL {
        small_tables(Small { n, a, o, marked: false });
        let tally = small_tables(Small { n, a, o, marked: true });
        tally.must_have(&[19]);
        tally.checks.must_have_tables(&[19]);
        tally.checks.must_have_writes(&[19]);
        tally.parked.must_have_verdicts();
        let Parked { good, shown, again, written, none, .. } = tally.parked;
        let counts = [good[0], good[1], shown, again, written, none];
        assert!(counts.iter().all(|&times| times > 0), "sets good, not good, shown, written: {counts:?}");
    }
}

fn small_tables(small: Small) -> Tally {
    let work = |number: u64, tally: &mut Tally| {
        let (rng, game) = (&mut Rng::new(seed(), number), small.game(number));
        // Most of those with the bit are refused, in the same ways: seven of eight are only tried for that.
        let refused = small.marked && number % 8 != 0 && oracle::read_table(&oracle::table_words(&game)).is_err();
        match refused {
            true => try_refused(rng, tally, &game),
            false => try_whole(rng, tally, &game),
        }
    };
    let tally = Tally::sum(spread(small.count(), work));
    tally.report(&format!("all tables of {}", small.name()), small.count());
    tally.must_have(&[5, 6, 7, 8, 9, 12, 17]);
    // With one observation every state shows it, and it can always occur, but where all plays have ended.
    tally.runs.must_have(if small.o == 1 && !small.marked { &[12, 15] } else { &[12, 14, 15] });
    tally.checks.must_have_tables(&[0, 6, 7]);
    tally.checks.must_have_writes(&[0, 5, 6, 7, 10, 11]);
    assert!(tally.checks.card[0] > 0);
    tally
}

/// The tables of these numbers of states, actions and observations, with the bit or without.
#[derive(Clone, Copy)]
struct Small {
    n: usize,
    a: usize,
    o: usize,
    marked: bool,
}

impl Small {
    fn count(&self) -> u64 {
        let masks = 2 + self.o + self.a * self.n + usize::from(self.marked);
        1 << (self.n * masks)
    }

    /// A game by its number: n bits for each mask, the parked states' last.
    fn game(&self, number: u64) -> Game {
        let &Small { n, a, o, marked } = self;
        let digit = |i: usize| (number >> (i * n) & ((1 << n) - 1)) as u32;
        let moves = (0..a).map(|c| (0..n).map(|state| digit(2 + o + c * n + state)).collect()).collect();
        let shows = (0..o).map(|r| digit(2 + r)).collect();
        let parked = marked.then(|| digit(2 + o + a * n));
        Game { n, a, o, start: digit(0), bad: digit(1), parked, shows, moves }
    }

    fn name(&self) -> String {
        let &Small { n, a, o, marked } = self;
        format!("n {n}, a {a}, o {o}{}", if marked { ", the bit set" } else { "" })
    }
}

/// The game's fields with every room about the length, with one state from n up in each mask, with a state in
/// the first and the last unused slots, and with the bit changed.
fn try_fields(rng: &Rng, tally: &mut Tally, game: &Game) {
    let rng = &mut rng.clone();
    let fields = oracle::fields_of(game);
    let length = oracle::table_length(game.n, game.a, game.o, game.parked.is_some());
    for out in [0, length - 1, length, length + 1] {
        try_call(rng, tally, Call::Write { fields: &fields, out });
    }
    let used = game.a * game.n;
    let shown = (0..=game.o).chain([7]).map(|slot| 3 + slot);
    let moved = (0..=used).chain([95]).map(|slot| 11 + slot);
    for mask in [0, 1, 2].into_iter().chain(shown).chain(moved) {
        let mut changed = fields.clone();
        *masks(&mut changed).nth(mask).expect("there is such a mask") |= 1 << game.n;
        try_call(rng, tally, Call::Write { fields: &changed, out: length });
    }
    for parked in [fields.parked, 0, 1, 1 << game.n] {
        let changed = &Fields { parked_marked: !fields.parked_marked, parked, ..fields.clone() };
        for out in [length, length + 1] {
            try_call(rng, tally, Call::Write { fields: changed, out });
        }
    }
}

/// How many masks there are among the fields: start, bad, parked, and all slots.
const MASKS: usize = 3 + 8 + 96;

fn masks(fields: &mut Fields) -> impl Iterator<Item = &mut u32> {
    let Fields { start, bad, parked, observations, moves, .. } = fields;
    [start, bad, parked].into_iter().chain(observations).chain(moves)
}

/// The checks of a table that is refused, by itself and in front of others, and of its fields.
fn try_refused(rng: &mut Rng, tally: &mut Tally, game: &Game) {
    let (table, fields) = (&oracle::table_words(game), &oracle::fields_of(game));
    let out = table.len();
    for call in [
        Call::CheckTable { table },
        Call::Solve { table, work: 32, card: 16 },
        Call::Judge { table, mask: 1, k: 2 },
        Call::Rewrite { table, out },
        Call::Write { fields, out },
    ] {
        try_call(rng, tally, call);
    }
}

/// Every entry with every small number on one small table.
fn try_whole(rng: &mut Rng, tally: &mut Tally, game: &Game) {
    let table = oracle::table_words(game);
    let decided = oracle::decided(&table);
    try_decided(rng, tally, &table, &decided);
    for mask in 0..=1 << game.n {
        for k in 0..=5 {
            try_call(rng, tally, Call::Judge { table: &table, mask, k });
        }
    }
    for out in [0, table.len() - 1, table.len(), table.len() + 1] {
        try_call(rng, tally, Call::Rewrite { table: &table, out });
    }
    try_check(rng, tally, Call::CheckTable { table: &table });
    try_fields(rng, tally, game);
    let Ok((_, verdict)) = decided else {
        return;
    };
    check_verdict(game, &verdict);
    if let Verdict::Yes { card, .. } = verdict {
        try_whole_card(rng, tally, game, &table, &oracle::card_words(&card), card.cells.len() as u32);
    }
}

fn try_whole_card(rng: &mut Rng, tally: &mut Tally, game: &Game, table: &[u32], card: &[u32], cells: u32) {
    assert!(lasts_played(game, &mut ArchiveRunner { card }, 4), "{game:?}");
    try_check(rng, tally, Call::CheckCard { card });
    for observation in 0..=game.o as u32 {
        try_call(rng, tally, Call::Open { card, observation });
        for cell in (0..=cells).chain([NO_CELL]) {
            try_call(rng, tally, Call::Step { card, cell, observation });
        }
    }
    for cell in (0..=cells).chain([NO_CELL]) {
        try_call(rng, tally, Call::Show { table, card, cell });
    }
    try_all_runs(rng, tally, card, game.o as u32);
}

/// All lists of up to three observations and one beyond, with every room, and every runner driven so.
fn try_all_runs(rng: &Rng, tally: &mut Tally, card: &[u32], o: u32) {
    let rng = &mut rng.clone();
    for observations in &all_lists(o + 1, 3) {
        for out in 0..=observations.len() + 1 {
            try_call(rng, tally, Call::Run { card, observations, out });
        }
        if let Ok(observations) = observations[..].try_into() {
            try_call(rng, tally, Call::Drive { card, observations });
        }
    }
}

fn random_tables(name: &str, tables: u64, least: usize, most: usize) -> Tally {
    let work = |i: u64, tally: &mut Tally| {
        let mut rng = Rng::new(seed(), i);
        let shape = SHAPES[i as usize % SHAPES.len()];
        let (n, a, o) = (rng.within(least, most), rng.within(1, 8), rng.within(1, 8));
        let table = gen::table(&mut rng, shape, n, a, o);
        try_table(&mut rng, tally, &table);
    };
    let tally = Tally::sum(spread(tables, work));
    tally.report(name, tables);
    if tables >= ENOUGH {
        assert!(tally.yes > tables / 5 && tally.no > tables / 5, "a verdict is too seldom");
    }
    tally
}

#[test]
fn random_tables_up_to_six_states() {
    let tally = random_tables("random tables up to 6 states", count(1), 1, 6);
    tally.must_have_of(count(1), &[1, 2, 3, 4, 5, 6, 7, 8, 9, 10, 12, 13, 14, 16, 17, 19]);
    tally.must_have_runs_of(count(1));
    tally.must_have_checks_of(count(1));
    tally.must_have_judged_of(count(1));
    tally.must_have_parked_of(count(1));
}

/// The largest games known to us: long counters and wide rings, with every entry; and the same with parked states.
#[test]
fn counters_and_rings() {
    let mut rng = Rng::new(seed(), 5);
    let mut tally = Tally::default();
    for n in 2..=12 {
        let blocked = gen::WIDE_RING.map(|set| set & ((1 << n) - 1));
        for game in [gen::counter(n), gen::ring(n, &blocked, 8)] {
            try_table(&mut rng, &mut tally, &oracle::table_words(&game));
            for _ in 0..2 {
                let parking = gen::parking(&mut rng, game.clone());
                try_table(&mut rng, &mut tally, &oracle::table_words(&parking));
            }
        }
    }
    // Whatever the seed parks: a yes and a no with a parked state.
    for table in [stations::E_PARKED, stations::E_LOST] {
        try_table(&mut rng, &mut tally, &table);
    }
    tally.report("counters and rings", 68);
    assert!(tally.longest >= 64 && tally.most_cells >= 498);
    tally.parked.must_have_verdicts();
}

#[test]
fn random_tables_up_to_twelve_states() {
    let tally = random_tables("random tables up to 12 states", count(25), 7, 12);
    tally.must_have_parked_of(count(25));
}

// ---- The tightest next cell --------------------------------------------------------------------

/// The card that the archive writes for a table, and the settling count.
fn archived_card(table: &[u32]) -> Option<(Vec<u32>, u64)> {
    let (mut work, mut card) = (vec![0; work_length(12)], vec![0; card_length(924, 8)]);
    let mut answer = [9; 3];
    archive::solve(table, &mut work, &mut card, &mut answer);
    let [0, index, cells] = answer else { return None };
    card.truncate(card_length(cells as usize, (card[0] >> 16 & 15) as usize));
    Some((card, index))
}

/// The archive's card against that of document 01's rule: the same verdict, and they differ in the cells named
/// alone. How many words differ.
fn compare_with_lowest(game: &Game) -> usize {
    let archived = archived_card(&oracle::table_words(game));
    match (archived, oracle::decide_by(game, oracle::lowest)) {
        (None, Verdict::No { .. }) => 0,
        (Some((words, settled)), Verdict::Yes { index, card }) => {
            assert_eq!(settled, u64::from(index), "{game:?}");
            differ_in_names(&words, &oracle::card_words(&card)).unwrap_or_else(|why| panic!("{why}, {game:?}"))
        }
        (_, verdict) => panic!("the verdict is not {verdict:?}, {game:?}"),
    }
}

#[test]
fn another_rule_names_other_cells_alone() {
    let work = |i: u64, cards: &mut u64| {
        let mut rng = Rng::new(seed(), i);
        let (n, a, o) = (rng.within(1, 8), rng.within(1, 8), rng.within(1, 8));
        let game = gen::game(&mut rng, SHAPES[i as usize % SHAPES.len()], n, a, o);
        *cards += u64::from(compare_with_lowest(&game) > 0);
    };
    let games = count(20);
    let cards: u64 = spread(games, work).into_iter().sum();
    report(&format!("the lowest cell or the tightest: seed {}, {games} games, {cards} cards differ", seed()));
    assert!(games < 1000 || cards * 200 > games, "the rule makes too seldom a difference");
}

/// Rings with observations that overlap, with every entry.
#[test]
fn overlapping_rings() {
    let mut rng = Rng::new(seed(), 7);
    let mut tally = Tally::default();
    for blocked in [&gen::WIDE_RING, &gen::MIXED_RING] {
        let game = gen::overlapping_ring(&mut rng, blocked);
        assert!(compare_with_lowest(&game) > 0, "{game:?}");
        for game in [game.clone(), gen::parking(&mut rng, game)] {
            try_table(&mut rng, &mut tally, &oracle::table_words(&game));
        }
    }
    tally.report("overlapping rings", 4);
    assert!(tally.most_cells >= 498);
}

// ---- Finished batches --------------------------------------------------------------------------

/// The archive's answer, which must be the oracle's.
fn asked(rng: &mut Rng, tally: &mut Tally, call: Call) -> Outcome {
    let expected = oracle::outcome(&call);
    compare(rng, &call, &expected);
    tally.add(&call, &expected);
    expected
}

/// What change 2 says of all tables, on all the smallest.
#[test]
fn finished_batches_on_all_small_tables() {
    let (mut met, mut tally) = (Finished::default(), Tally::default());
    for (n, a, o) in SMALL {
        for small in [false, true].map(|marked| Small { n, a, o, marked }) {
            let work = |number: u64, (met, tally): &mut (Finished, Tally)| {
                let (rng, game) = (&mut Rng::new(seed(), number), small.game(number));
                if oracle::read_table(&oracle::table_words(&game)).is_ok() {
                    met.table(&mut |call| asked(rng, tally, call), &game);
                }
            };
            for (part, calls) in spread(small.count(), work) {
                met.add(&part);
                tally = Tally::sum(vec![tally, calls]);
            }
        }
    }
    report(&format!("finished batches, all small tables: {met:?}"));
    tally.report("finished batches, all small tables", 1);
    // It takes three states to win a round and lose all the same.
    met.must_have_all_but(&["a later round", "moving on", "two moving on"]);
}

/// The same on random tables, and on those in which a parked state moves on.
#[test]
fn finished_batches_on_random_tables() {
    let work = |i: u64, (met, tally): &mut (Finished, Tally)| {
        let rng = &mut Rng::new(seed(), i);
        let most = rng.pick(&[5, 5, 5, 8]);
        let (n, a, o) = (rng.within(1, most), rng.within(1, 8), rng.within(1, 8));
        let mut game = gen::unmarked_game(rng, SHAPES[i as usize % SHAPES.len()], n, a, o);
        if rng.percent(50) {
            game = gen::with_ends(rng, game);
        }
        if rng.percent(70) {
            game = gen::parking(rng, game);
        }
        met.table(&mut |call| asked(rng, tally, call), &game);
        let moving = gen::moving_on(rng, game);
        met.moving_on(&mut |call| asked(rng, tally, call), &moving);
    };
    let (mut met, tables) = (Finished::default(), count(10));
    spread(tables, work).iter().for_each(|(part, _)| met.add(part));
    report(&format!("finished batches, random tables: seed {}, {tables} tables, {met:?}", seed()));
    if tables >= ENOUGH {
        met.must_have_all_but(&[]);
    }
}

/// The head's bits about the one for parked states: 25, 26 and 27 are spare (2), 24 is not: a word is missing or
/// too many (3).
#[test]
fn bits_of_the_head() {
    let mut rng = Rng::new(seed(), 11);
    let tables: [&[u32]; 5] = [&stations::A, &stations::A_NONE, &stations::E_PARKED, &stations::G_LOST, &stations::N];
    for table in tables {
        for bits in 1..16 {
            let mut changed = table.to_vec();
            changed[0] ^= bits << 24;
            let expected = if bits == 1 { Outcome::refused(3, table.len() as u64) } else { Outcome::refused(2, 0) };
            let (table, card) = (&changed, &stations::A_CARD);
            for call in [
                Call::CheckTable { table },
                Call::Solve { table, work: 64, card: 64 },
                Call::Judge { table, mask: 1, k: 1 },
                Call::Rewrite { table, out: 40 },
                Call::Show { table, card, cell: 0 },
                Call::JudgeCard { table, card },
            ] {
                compare(&mut rng, &call, &expected);
                assert_eq!(oracle::outcome(&call), expected, "{call:?}");
            }
        }
    }
}

/// Every bit of every word of the stations' tables and cards flipped, and each word cut or doubled.
#[test]
fn every_single_damage_to_the_stations() {
    let mut rng = Rng::new(seed(), 1);
    let mut tally = Tally::default();
    let tables: [&[u32]; 14] = [
        &stations::A, &stations::B, &stations::C, &stations::D, &stations::E, &stations::F, &stations::G, &stations::H,
        &stations::A_NONE, &stations::E_PARKED, &stations::E_LOST, &stations::G_PARKED, &stations::M, &stations::N,
    ];
    for table in tables {
        let damages = all_damages(table);
        damages.iter().for_each(|damaged| try_damaged_table(&mut rng, &mut tally, damaged, table.len()));
    }
    let cards: [(&[u32], &[u32]); 6] = [
        (&stations::A, &stations::A_CARD),
        (&stations::C, &stations::C_CARD),
        (&stations::F, &stations::F_CARD),
        (&stations::E_PARKED, &stations::E_PARKED_CARD),
        (&stations::M, &stations::M_CARD),
        (&stations::N, &stations::N_CARD),
    ];
    for (table, card) in cards {
        all_damages(card).iter().for_each(|damaged| try_damaged_card(&mut rng, &mut tally, table, damaged));
    }
    tally.report("every single damage", 20);
    tally.must_have(&[1, 2, 3, 4, 5, 6, 7, 13, 14, 16, 19]);
    tally.runs.must_have_all();
    tally.checks.must_have_tables(&[0, 1, 2, 3, 4, 5, 6, 7, 19]);
    tally.checks.must_have_cards();
    tally.judged.must_have(&[0, 1, 2, 3, 4, 5, 6, 7, 13, 16, 18, 19]);
    tally.parked.must_have_verdicts();
}

fn try_damaged_table(rng: &mut Rng, tally: &mut Tally, table: &[u32], out: usize) {
    try_solve(rng, tally, table);
    try_check(rng, tally, Call::CheckTable { table });
    try_call(rng, tally, Call::Judge { table, mask: 1, k: 2 });
    try_call(rng, tally, Call::Rewrite { table, out });
    try_call(rng, tally, Call::Show { table, card: &stations::A_CARD, cell: 1 });
    for card in [&stations::A_CARD[..], &stations::C_CARD, &stations::F_CARD, &stations::N_CARD] {
        try_check(rng, tally, Call::JudgeCard { table, card });
    }
}

fn try_damaged_card(rng: &mut Rng, tally: &mut Tally, table: &[u32], card: &[u32]) {
    try_check(rng, tally, Call::CheckCard { card });
    try_check(rng, tally, Call::JudgeCard { table, card });
    for observation in 0..2 {
        try_call(rng, tally, Call::Open { card, observation });
        try_call(rng, tally, Call::Step { card, cell: observation, observation: 0 });
    }
    try_call(rng, tally, Call::Show { table, card, cell: 0 });
    try_all_runs(rng, tally, card, 2);
}

/// Every bit of every number, mask and slot of the stations' fields flipped, with the bit of parked states and with
/// it changed, with exact, more and no room.
#[test]
fn every_single_damage_to_the_fields() {
    let mut rng = Rng::new(seed(), 9);
    let mut tally = Tally::default();
    let unmarked: [&[u32]; 6] =
        [&stations::A, &stations::B, &stations::C, &stations::D, &stations::E, &stations::TWELVE];
    let marked: [&[u32]; 5] =
        [&stations::A_NONE, &stations::E_PARKED, &stations::G_PARKED, &stations::M, &stations::N];
    for table in unmarked.into_iter().chain(marked) {
        let fields = oracle::read_fields(table).expect("the table is accepted");
        let other = Fields { parked_marked: !fields.parked_marked, ..fields.clone() };
        for fields in [fields, other] {
            try_flipped(&mut rng, &mut tally, &fields, table.len());
        }
    }
    tally.checks.report("every single damage to fields");
    tally.parked.report("every single damage to fields");
    tally.checks.must_have_writes(&[0, 2, 5, 6, 7, 10, 11, 19]);
    assert!(tally.parked.written > 0 && tally.parked.none > 0);
}

/// The fields as they are, and with every bit flipped.
fn try_flipped(rng: &mut Rng, tally: &mut Tally, fields: &Fields, length: usize) {
    let mut one = |fields: &Fields| {
        for out in [length, length + 1, 0] {
            try_call(rng, tally, Call::Write { fields, out });
        }
    };
    one(fields);
    for (place, bit) in (0..3 + MASKS).flat_map(|place| (0..32).map(move |bit| (place, bit))) {
        let mut changed = fields.clone();
        let Fields { n, a, o, .. } = &mut changed;
        match place {
            0..=2 => *[n, a, o][place] ^= 1 << bit,
            _ => *masks(&mut changed).nth(place - 3).expect("there is such a mask") ^= 1 << bit,
        }
        one(&changed);
    }
}

fn all_damages(words: &[u32]) -> Vec<Vec<u32>> {
    let mut damages = vec![Vec::new()];
    for place in 0..words.len() {
        for bit in 0..32 {
            let mut flipped = words.to_vec();
            flipped[place] ^= 1 << bit;
            damages.push(flipped);
        }
        let mut cut = words.to_vec();
        cut.remove(place);
        damages.push(cut);
        let mut doubled = words.to_vec();
        doubled.insert(place, words[place]);
        damages.push(doubled);
        damages.push(words[..place].to_vec());
    }
    damages
}

/// Cards that no solver drew, small and as large as allowed, whole and damaged, run at random and in
/// a row as a robot would.
#[test]
fn random_cards() {
    let work = |i: u64, tally: &mut Tally| {
        let mut rng = Rng::new(seed(), i);
        let (cells, a, o) = (rng.pick(&[1, 2, 3, 5, 17, 60]), rng.within(1, 8), rng.within(1, 8));
        let (shape, n) = (rng.pick(&SHAPES), rng.within(1, 4));
        let table = gen::table(&mut rng, shape, n, a, o);
        let mut card = gen::card(&mut rng, cells, a, o);
        try_card(&mut rng, tally, &table, &card, 3);
        try_run(&mut rng, tally, &card, o);
        try_runs(&rng, tally, &card, o, 200);
        gen::damage(&mut rng, &mut card);
        try_card(&mut rng, tally, &table, &card, 3);
    };
    let cards = count(4);
    let tally = Tally::sum(spread(cards, work));
    tally.report("random cards", cards);
    tally.must_have_of(cards, &[12, 13, 14, 16]);
    tally.must_have_runs_of(cards);
    if cards >= ENOUGH {
        tally.checks.must_have_cards();
    }
}

/// A run of some observations, each step from the cell that the last one entered.
fn try_run(rng: &mut Rng, tally: &mut Tally, card: &[u32], o: usize) {
    let first = rng.below(o) as u32;
    try_call(rng, tally, Call::Open { card, observation: first });
    let mut cell = oracle::open(card, first).map_or(NO_CELL, |entered| entered.0);
    for _ in 0..6 {
        let observation = rng.below(o) as u32;
        try_call(rng, tally, Call::Step { card, cell, observation });
        // A refused runner stays in its cell.
        cell = oracle::step(card, cell, observation).map_or(cell, |entered| entered.0);
    }
}

/// The limits of a card's head: 4,096 cells are taken, 4,097 are not; mask 4,095, action and cell too.
#[test]
fn cards_at_the_limits() {
    let mut rng = Rng::new(seed(), 2);
    let mut tally = Tally::default();
    for (cells, a, o) in [(4096, 8, 8), (4096, 1, 1), (4095, 3, 2), (1, 8, 8)] {
        let card = gen::card(&mut rng, cells, a, o);
        try_card(&mut rng, &mut tally, &stations::A, &card, 20);
        for change in 0..32 {
            let mut changed = card.clone();
            changed[0] ^= 1 << change;
            try_card(&mut rng, &mut tally, &stations::A, &changed, 2);
            let place = rng.within(1, card.len() - 1);
            let mut changed = card.clone();
            changed[place] ^= 1 << change;
            try_card(&mut rng, &mut tally, &stations::A, &changed, 2);
        }
    }
    // A card of the right length for its head, with one cell too many.
    let mut over = gen::card(&mut rng, 4096, 2, 1);
    over[0] += 1;
    over.extend([0xA000_0000, 0xB000_0000]);
    try_check(&rng, &mut tally, Call::CheckCard { card: &over });
    try_check(&rng, &mut tally, Call::JudgeCard { table: &stations::A, card: &over });
    try_call(&mut rng, &mut tally, Call::Open { card: &over, observation: 0 });
    try_all_runs(&rng, &mut tally, &over, 1);
    tally.report("cards at the limits", 4);
    tally.must_have(&[12, 13, 14]);
    tally.runs.must_have(&[12, 13, 15]);
    tally.checks.must_have_cards();
}

/// The list with another observation in one place.
fn with_other(observations: &[u32], place: usize, other: u32) -> Vec<u32> {
    let mut changed = observations.to_vec();
    changed[place] = other;
    changed
}

/// Station C's card takes 0 and 1 in turn. Runs that break off at every place, by an observation that
/// cannot occur there or that the card does not have, with every room.
#[test]
fn runs_that_break_off() {
    let mut rng = Rng::new(seed(), 6);
    let mut tally = Tally::default();
    for (length, first) in (0..=12).flat_map(|length| [(length, 0), (length, 1)]) {
        let whole: Vec<u32> = (0..length as u32).map(|i| (first + i) % 2).collect();
        let others = |place: usize| [1 - whole[place], 2, 8, 1 << 16, u32::MAX];
        let broken = |place: usize| others(place).map(|other| with_other(&whole, place, other));
        let lists: Vec<Vec<u32>> = (0..length).flat_map(broken).chain([whole.clone()]).collect();
        for observations in &lists {
            for out in 0..=length + 1 {
                try_call(&mut rng, &mut tally, Call::Run { card: &stations::C_CARD, observations, out });
            }
        }
    }
    tally.runs.report("breaking off");
    tally.runs.must_have(&[12, 14, 15]);
    assert!(tally.runs.short_too > 0);
}

/// Long runs on large cards: on that of the wide ring over a play, and on one of 4,096 cells.
#[test]
fn long_runs() {
    let mut rng = Rng::new(seed(), 7);
    let mut tally = Tally::default();
    let game = gen::ring(12, &gen::WIDE_RING, 8);
    let Verdict::Yes { card, .. } = oracle::decide(&game) else { panic!("the wide ring has a card") };
    let play = gen::play(&mut rng, &game, &card, 2_000);
    try_long(&mut rng, &mut tally, &oracle::card_words(&card), &play);
    let words = gen::card(&mut rng, 4096, 8, 8);
    let card = oracle::read_card(&words).expect("the card is right");
    let walk = gen::walk(&mut rng, &card, 2_000);
    try_long(&mut rng, &mut tally, &words, &walk);
    tally.runs.report("long");
    tally.runs.must_have(&[12, 14, 15]);
    assert!(tally.runs.longest >= 2_000);
}

/// A run over these, and with each observation at the start, in the middle and at the end.
fn try_long(rng: &mut Rng, tally: &mut Tally, card: &[u32], observations: &[u32]) {
    let length = observations.len();
    for out in lengths(rng, length) {
        try_call(rng, tally, Call::Run { card, observations, out });
    }
    for place in [0, length / 2, length - 1] {
        for other in (0..=8).chain([u32::MAX]) {
            let observations = &with_other(observations, place, other);
            for out in [length, length - 1] {
                try_call(rng, tally, Call::Run { card, observations, out });
            }
        }
    }
}

/// Every n, a and o about the limits, with the right length, and lengths one off.
#[test]
fn tables_at_the_limits() {
    let mut rng = Rng::new(seed(), 3);
    let mut tally = Tally::default();
    for n in [0, 1, 2, 11, 12, 13, 16, 255] {
        for a in [0, 1, 7, 8, 9, 255] {
            for o in [0, 1, 7, 8, 9, 255] {
                try_size(&mut rng, &mut tally, n, a, o, false);
                try_size(&mut rng, &mut tally, n, a, o, true);
            }
        }
    }
    tally.report("tables at the limits", 2 * 8 * 6 * 6);
    tally.must_have(&[2, 3, 8]);
    tally.checks.must_have_tables(&[0, 2, 3]);
    tally.checks.must_have_writes(&[0, 2, 10]);
    assert!(tally.parked.solved[0] > 0 && tally.parked.written > 0);
}

/// Where parked states are marked, the highest is parked.
fn try_size(rng: &mut Rng, tally: &mut Tally, n: usize, a: usize, o: usize, marked: bool) {
    let shows = vec![(1u64 << n.min(16)) as u32 - 1; o];
    let row = (0..n).map(|state| u32::from(!marked || state + 1 < n)).collect();
    let parked = marked.then_some((1u32 << n.min(16)) >> 1);
    let game = Game { n, a, o, start: 1, bad: 0, parked, shows, moves: vec![row; a] };
    // The words fit where the numbers do; elsewhere only the head counts.
    let fits = n <= 12 && a <= 8 && o <= 8;
    let head = 0x1000_0000 | u32::from(marked) << 24 | (o as u32) << 16 | (a as u32) << 8 | n as u32;
    let mut table = match fits && n > 0 {
        true => oracle::table_words(&game),
        false => vec![head; oracle::table_length(n, a, o, marked)],
    };
    try_sized(rng, tally, &game, table.len());
    let mut both = |table: &[u32]| {
        try_solve(rng, tally, table);
        try_check(rng, tally, Call::CheckTable { table });
    };
    both(&table);
    table.push(table[table.len() - 1]);
    both(&table);
    table.truncate(table.len() - 2);
    both(&table);
    try_call(rng, tally, Call::Judge { table: &table, mask: 0, k: 0 });
}

/// Fields of these numbers, with the slots that there are filled, and numbers that are far too large.
fn try_sized(rng: &Rng, tally: &mut Tally, game: &Game, length: usize) {
    let rng = &mut rng.clone();
    let mut fields = Fields { n: game.n as u32, a: game.a as u32, o: game.o as u32, ..stations::A_FIELDS };
    (fields.start, fields.bad) = (1, 0);
    (fields.parked_marked, fields.parked) = (game.parked.is_some(), game.parked.unwrap_or(0));
    let states = (1u32 << game.n.min(16)) - 1;
    fields.observations = [0, 1, 2, 3, 4, 5, 6, 7].map(|slot| if slot < game.o { states } else { 0 });
    let moves = game.moves.concat();
    (0..96).for_each(|slot| fields.moves[slot] = moves.get(slot).copied().unwrap_or(0));
    for out in [0, length.saturating_sub(1), length, length + 1] {
        try_call(rng, tally, Call::Write { fields: &fields, out });
    }
    for number in 0..3 {
        let mut large = fields.clone();
        let Fields { n, a, o, .. } = &mut large;
        *[n, a, o][number] |= 1 << rng.within(8, 31);
        try_call(rng, tally, Call::Write { fields: &large, out: length });
    }
}

/// Join and meet of all short lists of width 1 and 2, masks from n up among them, with every room.
#[test]
fn all_small_lists() {
    for (n, masks, longest) in [(1, 3, 3), (2, 5, 2), (2, 4, 3)] {
        let lists = all_lists(masks, longest);
        let pairs = (lists.len() * lists.len()) as u64;
        let work = |number: u64, tally: &mut Tally| {
            let mut rng = Rng::new(seed(), number);
            let first = &lists[number as usize / lists.len()];
            let second = &lists[number as usize % lists.len()];
            for out in 0..=4 {
                try_call(&mut rng, tally, Call::Join { n, first, second, out });
                try_call(&mut rng, tally, Call::Meet { n, first, second, out });
            }
        };
        let tally = Tally::sum(spread(pairs, work));
        tally.report(&format!("all lists of width {n} up to length {longest}"), pairs);
        tally.must_have(&[15]);
    }
}

/// All lists of masks below the bound, up to a length.
fn all_lists(masks: u32, longest: usize) -> Vec<Vec<u32>> {
    if longest == 0 {
        return vec![Vec::new()];
    }
    let shorter = all_lists(masks, longest - 1);
    let full = shorter.iter().filter(|list| list.len() == longest - 1);
    let longer = full.flat_map(|list| (0..masks).map(move |mask| [&list[..], &[mask]].concat()));
    let longer: Vec<Vec<u32>> = longer.collect();
    [shorter, longer].concat()
}

/// Join and meet of random lists of any width, with short, exact and long rooms, and damage.
#[test]
fn random_lists() {
    let work = |i: u64, tally: &mut Tally| {
        let mut rng = Rng::new(seed(), i);
        let n = rng.within(1, 12);
        let longest = rng.pick(&[3, 8, 30]);
        let (mut first, mut second) = (gen::list(&mut rng, n, longest), gen::list(&mut rng, n, longest));
        try_lists(&mut rng, tally, n as u32, &first, &second);
        let which = rng.percent(50);
        gen::damage(&mut rng, if which { &mut first } else { &mut second });
        let n = n as u32;
        let (long, wild) = (overlong(&mut rng, n), rng.word());
        let width = rng.pick(&[n, n, n, n, 0, 13, 32, n + 256, u32::MAX, long, wild]);
        try_lists(&mut rng, tally, width, &first, &second);
    };
    let pairs = count(4);
    let tally = Tally::sum(spread(pairs, work));
    tally.report("random lists", pairs);
    tally.must_have_of(pairs, &[2, 5, 15]);
}

fn try_lists(rng: &mut Rng, tally: &mut Tally, n: u32, first: &[u32], second: &[u32]) {
    let join = oracle::join(n, first, second, usize::MAX).map_or(4, |list| list.len());
    for out in lengths(rng, join) {
        try_call(rng, tally, Call::Join { n, first, second, out });
    }
    let meet = oracle::meet(n, first, second, usize::MAX).map_or(4, |list| list.len());
    for out in lengths(rng, meet) {
        try_call(rng, tally, Call::Meet { n, first, second, out });
    }
}

/// The longest lists there are: all sets of six of twelve states, and all sets.
#[test]
fn long_lists() {
    let mut rng = Rng::new(seed(), 4);
    let mut tally = Tally::default();
    let of_size = |size| -> Vec<u32> { (0..4096u32).filter(|set| set.count_ones() == size).collect() };
    let (six, five, seven) = (of_size(6), of_size(5), of_size(7));
    let all: Vec<u32> = (0..4096).rev().collect();
    for (first, second) in [(&six, &five), (&five, &six), (&six, &seven), (&all, &six)] {
        let (joined, met) = (oracle::join(12, first, second, 4096), oracle::meet(12, first, second, 4096));
        for (call, list) in [
            (Call::Join { n: 12, first, second, out: 1000 }, joined),
            (Call::Meet { n: 12, first, second, out: 1000 }, met),
        ] {
            let list = list.expect("there is room");
            let answer = [0, list.len() as u64, 0];
            let expected = Outcome { answer, zeroed: 0, written: list };
            compare(&mut rng, &call, &expected);
            tally.add(&call, &expected);
        }
    }
    tally.report("long lists", 4);
}

/// The figure is enough for these functions, with a margin of a quarter or more, and not twice what is
/// needed.
fn stack_fits<'a>(most: impl Iterator<Item = &'a usize>, figure: usize) {
    let deepest = most.max().expect("there are functions");
    assert!(deepest * 5 / 4 <= figure && figure <= deepest * 2, "{deepest} bytes were used, and {figure} are said");
}

/// What the dynamic linker may need on top of a function's own stack where it binds memcpy or memset, and more.
const LINKING: usize = 4096;

/// The figures of the crate in `rust/`; its tests hold the header's to them.
#[test]
fn stack_as_it_is_said() {
    let most = stack::measure(&mut Rng::new(seed(), 8));
    report(&format!("stack in bytes: {most:?}"));
    let (texts, most): (BTreeMap<_, _>, BTreeMap<_, _>) = most.into_iter().partition(|(name, _)| name.ends_with("_kiss"));
    assert_eq!(most.len(), 14, "a function was not measured");
    stack_fits(most.values(), kirdanzug::STACK_BYTES);
    for (name, figure) in [
        ("kirdanzug_write_kiss", kirdanzug::WRITE_KISS_STACK_BYTES),
        ("kirdanzug_read_kiss", kirdanzug::READ_KISS_STACK_BYTES),
    ] {
        // Almost all of it are arrays of a fixed size: the margin is what binding memcpy and memset may cost, and more.
        let used = texts[name];
        assert!(used + LINKING <= figure && figure <= used * 2, "{name} used {used} bytes, and {figure} are said");
    }
    let running = ["check_card", "open", "step", "run", "show"];
    stack_fits(running.iter().map(|name| &most[format!("kirdanzug_{name}").as_str()]), kirdanzug::RUN_STACK_BYTES);
}
