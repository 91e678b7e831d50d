//! What document 02's change 2 says of all tables, asked of whoever answers calls: the models or the archive.

use crate::game::{members, Game};
use crate::gen;
use crate::oracle::{self, Call, Outcome, NO_CELL, PARKED_BIT};

/// Answers a call.
pub type Ask<'a> = &'a mut dyn FnMut(Call) -> Outcome;

/// How often each property met a case.
#[derive(Default, Clone, Debug)]
pub struct Finished {
    /// Tables with a parked state, by verdict.
    pub yes: u64,
    pub no: u64,
    /// Tables with the bit and no parked state, by verdict.
    pub none_yes: u64,
    pub none_no: u64,
    /// A blocked state parked: the no became a yes, has a later round, or is the same; the yes stayed.
    pub turned: u64,
    pub later: u64,
    pub same: u64,
    pub stayed: u64,
    /// Sets of parked states judged, without a bad one and with one.
    pub ended: u64,
    pub lost: u64,
    /// Tables that start in a state both bad and parked.
    pub lost_starts: u64,
    /// Next words that say "cannot occur", since all plays that come there have ended.
    pub silent: u64,
    /// Tables refused by 19, and those of them with two such states.
    pub moving: u64,
    pub moving_twice: u64,
}

impl Finished {
    fn counts(&mut self) -> [(&'static str, &mut u64); 14] {
        [
            ("yes", &mut self.yes),
            ("no", &mut self.no),
            ("none parked, yes", &mut self.none_yes),
            ("none parked, no", &mut self.none_no),
            ("no to yes", &mut self.turned),
            ("a later round", &mut self.later),
            ("the same round", &mut self.same),
            ("yes to yes", &mut self.stayed),
            ("sets that ended", &mut self.ended),
            ("sets that are lost", &mut self.lost),
            ("lost starts", &mut self.lost_starts),
            ("silent words", &mut self.silent),
            ("moving on", &mut self.moving),
            ("two moving on", &mut self.moving_twice),
        ]
    }

    pub fn add(&mut self, part: &Finished) {
        let mut part = part.clone();
        self.counts().into_iter().zip(part.counts()).for_each(|((_, mine), (_, theirs))| *mine += *theirs);
    }

    /// Each property met its case, but for those that cannot come up here.
    pub fn must_have_all_but(&self, others: &[&str]) {
        for (name, count) in self.clone().counts() {
            assert_eq!(*count == 0, others.contains(&name), "{name}: {count} times, {self:?}");
        }
    }

    /// All that is said of the table of an accepted game, with parked states or without.
    pub fn table(&mut self, ask: Ask, game: &Game) {
        let words = oracle::table_words(game);
        let outcome = solved(ask, game);
        let (yes, no) = match game.parked {
            None => return self.bit_alone(ask, game, &outcome),
            Some(0) => (&mut self.none_yes, &mut self.none_no),
            Some(_) => (&mut self.yes, &mut self.no),
        };
        *if outcome.answer[0] == 0 { yes } else { no } += 1;
        written_again(ask, &words);
        self.parked_sets(ask, game);
        self.lost_start(game, &outcome);
        self.painted(ask, game, &outcome);
        self.parking_more(ask, game, &outcome);
    }

    /// The bit alone changes nothing but places.
    fn bit_alone(&mut self, ask: Ask, game: &Game, outcome: &Outcome) {
        let marked = Game { parked: Some(0), ..game.clone() };
        assert_eq!(solved(ask, &marked), *outcome, "the bit alone: {game:?}");
        let (table, words) = (oracle::table_words(game), oracle::table_words(&marked));
        written_again(ask, &table);
        written_again(ask, &words);
        if outcome.answer[0] == 0 {
            let card = &outcome.written;
            let shown = ask(Call::Show { table: &table, card, cell: 0 }).answer;
            let places = [0, shown[1] + 1, shown[2]];
            assert_eq!(ask(Call::Show { table: &words, card, cell: 0 }).answer, places, "{game:?}");
        }
        self.parking_more(ask, game, outcome);
    }

    /// A blocked state that is not bad is parked: a yes stays, and a no has no earlier round.
    fn parking_more(&mut self, ask: Ask, game: &Game, outcome: &Outcome) {
        let parked = game.parked.unwrap_or(0);
        let free = |&state: &usize| !game.is_bad(state) && !game.is_parked(state) && gen::blocked(game, state);
        for state in (0..game.n).filter(free) {
            let more = Game { parked: Some(parked | 1 << state), ..game.clone() };
            let after = solved(ask, &more);
            let (before, now) = (rank(outcome), rank(&after));
            assert!(now >= before, "parking {state} makes {outcome:?} {after:?}: {game:?}");
            let count = match (before, now) {
                (u64::MAX, _) => &mut self.stayed,
                (_, u64::MAX) => &mut self.turned,
                _ if now > before => &mut self.later,
                _ => &mut self.same,
            };
            *count += 1;
        }
    }

    /// A set of parked states alone is good for every k, unless one is bad.
    fn parked_sets(&mut self, ask: Ask, game: &Game) {
        let table = &oracle::table_words(game);
        let parked = game.parked.unwrap_or(0);
        let one = members(parked).map(|state| 1 << state);
        let lists = [0, parked, parked & !game.bad, parked & game.bad].into_iter().chain(one);
        for mask in lists {
            let lost = mask & game.bad != 0;
            *if lost { &mut self.lost } else { &mut self.ended } += u64::from(mask != 0);
            for k in 0..=4 {
                let good = u64::from(k == 0 || !lost);
                let answer = ask(Call::Judge { table, mask, k }).answer;
                assert_eq!(answer, [0, good, 0], "set {mask:X}, k {k}: {game:?}");
            }
        }
    }

    /// A start in a state both bad and parked is lost in the first round.
    fn lost_start(&mut self, game: &Game, outcome: &Outcome) {
        if game.start & game.bad & game.parked.unwrap_or(0) != 0 {
            self.lost_starts += 1;
            assert_eq!(outcome.answer, [1, 1, 0], "{game:?}");
        }
    }

    /// The table without the bit in which parked states move to themselves has the same answer. Its card differs
    /// in next words alone: where all plays have ended, it names a cell.
    fn painted(&mut self, ask: Ask, game: &Game, outcome: &Outcome) {
        let painted = solved(ask, &gen::painted(game));
        assert_eq!(painted.answer, outcome.answer, "the loops painted in: {game:?}");
        for (&here, &there) in outcome.written.iter().zip(&painted.written) {
            let silent = here >> 28 == 11 && here & NO_CELL == NO_CELL && here >> 16 == there >> 16;
            assert!(here == there || silent, "the loops painted in, {here:X} and {there:X}: {game:?}");
            self.silent += u64::from(here != there);
        }
    }

    /// The table of a game with moves from parked states: 19 at the lowest, whoever is asked, unless the start is
    /// empty or a state shows nothing.
    pub fn moving_on(&mut self, ask: Ask, game: &Game) {
        let table = &oracle::table_words(game);
        let moving = |state: &usize| game.is_parked(*state) && !gen::blocked(game, *state);
        let states: Vec<usize> = (0..game.n).filter(moving).collect();
        let place = *states.first().expect("a parked state moves on") as u64;
        let fields = &oracle::fields_of(game);
        let calls = [
            Call::CheckTable { table },
            Call::Solve { table, work: 0, card: 0 },
            Call::Judge { table, mask: u32::MAX, k: 9 },
            Call::Rewrite { table, out: 0 },
            Call::Show { table, card: &[], cell: 0 },
            Call::JudgeCard { table, card: &[] },
            Call::Write { fields, out: 0 },
        ];
        calls.into_iter().for_each(|call| assert_eq!(ask(call), Outcome::refused(19, place), "{call:?}"));
        self.moving += 1;
        self.moving_twice += u64::from(states.len() > 1);
    }
}

/// Solve with all the room that there may be need for.
fn solved(ask: Ask, game: &Game) -> Outcome {
    let card = oracle::card_length(1 << game.n, game.o);
    ask(Call::Solve { table: &oracle::table_words(game), work: oracle::work_length(game.n), card })
}

/// The round number, and for a yes more than any.
fn rank(outcome: &Outcome) -> u64 {
    match outcome.answer {
        [0, ..] => u64::MAX,
        [1, round, 0] => round,
        _ => panic!("the table is accepted: {outcome:?}"),
    }
}

/// Read and written again the words are the same; and so are the fields, written and read.
fn written_again(ask: Ask, table: &[u32]) {
    let words = |outcome: Outcome| (outcome.answer, outcome.written);
    let same = ([0, table.len() as u64, 0], table.to_vec());
    assert_eq!(words(ask(Call::Rewrite { table, out: table.len() })), same);
    let fields = &oracle::read_fields(table).expect("the table is accepted");
    assert_eq!(fields.parked_marked, table[0] & PARKED_BIT != 0);
    assert_eq!(words(ask(Call::Write { fields, out: table.len() })), same);
    assert_eq!(oracle::read_fields(&same.1).as_ref(), Ok(fields));
}
