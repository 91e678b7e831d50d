//! Independent checkers of verdicts, straight from plays and strategies.

use crate::game::{members, subset, Game};
use crate::oracle::{Card, NO_CELL};
use std::collections::{BTreeMap, HashMap, HashSet};

/// What moves a play on: opening with the first observation, then one step for each later one.
/// Each gives the cell entered and its action, or nothing where it refuses.
pub trait Runner {
    fn open(&mut self, observation: usize) -> Option<(u32, u32)>;
    fn step(&mut self, cell: u32, observation: usize) -> Option<(u32, u32)>;
}

/// The observations that a state shows.
fn shown(game: &Game, state: usize) -> impl Iterator<Item = usize> + '_ {
    (0..game.o).filter(move |&r| game.showing(r, state))
}

/// The round is survived: the state is not bad, and the play has ended well in it or the action leads on.
fn survived(game: &Game, state: usize, action: u32) -> bool {
    let ended_well = game.is_parked(state);
    !game.is_bad(state) && (action as usize) < game.a && (ended_well || game.moves[action as usize][state] != 0)
}

/// Plays every play, of any length, under the runner's actions: each round must be survived and no
/// step refused. Whether a round is survived depends on state and cell alone, so each pair is
/// looked at once.
pub fn keeps_clear(game: &Game, runner: &mut impl Runner) -> Result<(), String> {
    keeps_within(game, runner, |_| u32::MAX)
}

/// The same, and on every play the state is in the set of the cell that the runner is in.
pub fn keeps_within(game: &Game, runner: &mut impl Runner, set: impl Fn(u32) -> u32) -> Result<(), String> {
    let mut seen = HashSet::new();
    let mut waiting = Vec::new();
    for state in members(game.start) {
        for r in shown(game, state) {
            let entered = runner.open(r).ok_or(format!("opening refuses observation {r}"))?;
            waiting.push((state, entered));
        }
    }
    while let Some((state, (cell, action))) = waiting.pop() {
        if !seen.insert((state, cell)) {
            continue;
        }
        if !survived(game, state, action) {
            return Err(format!("state {state} in cell {cell} does not survive action {action}"));
        }
        if set(cell) >> state & 1 == 0 {
            return Err(format!("state {state} is not in the set of cell {cell}"));
        }
        for successor in members(game.moves[action as usize][state]) {
            for r in shown(game, successor) {
                let refusal = || format!("cell {cell} refuses observation {r}");
                waiting.push((successor, runner.step(cell, r).ok_or_else(refusal)?));
            }
        }
    }
    Ok(())
}

/// The judge of cards state by state: each state that may come first is in the cell entered, whatever it
/// shows; and from each state of each cell's set the round is survived and each successor is in the
/// cell entered, whatever it shows.
pub fn holds_by_states(game: &Game, card: &Card) -> bool {
    let entered = |cells: &[Option<usize>], state: usize| {
        shown(game, state).all(|r| cells[r].is_some_and(|cell| card.cells[cell].mask >> state & 1 == 1))
    };
    members(game.start).all(|state| entered(&card.first, state))
        && card.cells.iter().all(|cell| {
            members(cell.mask).all(|state| {
                state < game.n
                    && survived(game, state, cell.action as u32)
                    && members(game.moves[cell.action][state]).all(|successor| entered(&cell.next, successor))
            })
        })
}

/// Follows the observations of a play: after each, every state that the player may hold for possible is in the
/// set of the cell that the runner is in.
pub fn knows_within(
    game: &Game,
    runner: &mut impl Runner,
    observations: &[u32],
    set: impl Fn(u32) -> u32,
) -> Result<(), String> {
    let (mut possible, mut entered) = (game.start, None);
    for (i, &observation) in observations.iter().enumerate() {
        let r = observation as usize;
        let known = possible & game.shows[r];
        let moved = match entered {
            None => runner.open(r),
            Some((cell, _)) => runner.step(cell, r),
        };
        let (cell, action) = moved.ok_or_else(|| format!("observation {i} is refused"))?;
        if !subset(known, set(cell)) {
            return Err(format!("after observation {i} the states {known:X} are not all in cell {cell}"));
        }
        (possible, entered) = (game.post(action as usize, known), Some((cell, action)));
    }
    Ok(())
}

/// Document 02's change 3 on the words of a table and of a card for it: each first and next word names, of the
/// cells whose set holds the states in question, one with the fewest states, and the lowest of these; 65,535
/// where there is no such state. The words are known to be a table and a card.
pub fn names_tightest(table: &[u32], card: &[u32]) -> Result<(), String> {
    let mask = |word: u32| word & 0xFFFF;
    let (n, o) = ((table[0] & 0xFF) as usize, (table[0] >> 16 & 0xFF) as usize);
    // The word of the parked states, where there is one, stands before those of the observations.
    let front = 3 + (table[0] >> 24 & 1) as usize;
    let (shows, moves) = table[front..].split_at(o);
    let cells: Vec<u32> = card[1 + o..].chunks(1 + o).map(|row| mask(row[0])).collect();
    for (row, words) in card.chunks(1 + o).enumerate() {
        let successors = |state: usize| mask(moves[(words[0] >> 20 & 15) as usize * n + state]);
        let states = match row {
            0 => mask(table[1]),
            _ => members(mask(words[0])).fold(0, |sum, state| sum | successors(state)),
        };
        for (r, &word) in words[1..].iter().enumerate() {
            let place = row * (1 + o) + 1 + r;
            is_tightest(&cells, states & mask(shows[r]), mask(word)).map_err(|why| format!("word {place}: {why}"))?;
        }
    }
    Ok(())
}

/// The cell named for the states is the tightest, of the cells with these sets.
fn is_tightest(cells: &[u32], states: u32, named: u32) -> Result<(), String> {
    let size = |set: u32| members(set).count();
    match (states, cells.get(named as usize)) {
        (0, _) if named == NO_CELL => Ok(()),
        (0, _) => Err(format!("cell {named} is named though no state is in question")),
        (_, None) => Err(format!("there is no cell {named}")),
        (_, Some(&set)) if !subset(states, set) => Err(format!("cell {named} does not hold {states:X}")),
        (_, Some(&set)) => {
            let better = |&(cell, &other): &(u32, &u32)| {
                let tighter = size(other) < size(set) || size(other) == size(set) && cell < named;
                subset(states, other) && tighter
            };
            match (0..).zip(cells).find(better) {
                Some((cell, _)) => Err(format!("cell {cell} holds {states:X}, and comes before cell {named}")),
                None => Ok(()),
            }
        }
    }
}

/// Two cards for the same table that differ at most in the cells that first and next words name: as long, with
/// the same head and cells, and "cannot occur" in the same places. How many words differ.
pub fn differ_in_names(first: &[u32], second: &[u32]) -> Result<usize, String> {
    if first.len() != second.len() || first[0] != second[0] {
        return Err("length or head differs".into());
    }
    let o = (first[0] >> 16 & 15) as usize;
    let mut names = 0;
    for (place, (&one, &other)) in first.iter().zip(second).enumerate() {
        let alike = match place % (1 + o) {
            0 => one == other,
            _ => one >> 16 == other >> 16 && (one & 0xFFFF == NO_CELL) == (other & 0xFFFF == NO_CELL),
        };
        if !alike {
            return Err(format!("word {place} is {one:X} and {other:X}"));
        }
        names += usize::from(one != other);
    }
    Ok(names)
}

/// Document 02's change 5 on the words of a card and of what it was trimmed to. Both are followed side by side
/// from the first words on, or from cell 0 where these name none: rows that meet differ in cell numbers alone, a
/// cell always meets the same one, and in the card's order those met are 0, 1, 2 and so on to the last.
pub fn is_trimmed(card: &[u32], trimmed: &[u32]) -> Result<(), String> {
    let part = 1 + (card[0] >> 16 & 15) as usize;
    let kept = trimmed.first().map_or(0, |head| (head & 0xFFFF) as usize);
    if trimmed.len() != (1 + kept) * part || trimmed[0] >> 16 != card[0] >> 16 {
        return Err(format!("{} words with the head {:x?} of {:X}", trimmed.len(), trimmed.first(), card[0]));
    }
    let mut numbers = BTreeMap::new();
    let mut waiting = named_together(&card[1..part], &trimmed[1..part])?;
    if waiting.is_empty() {
        waiting.push((0, 0));
    }
    while let Some((cell, number)) = waiting.pop() {
        match numbers.insert(cell, number) {
            Some(other) if other != number => return Err(format!("cell {cell} becomes {other} and {number}")),
            Some(_) => continue,
            None if number >= kept => return Err(format!("cell {cell} becomes {number} of {kept}")),
            None => (),
        }
        let (old, new) = (&card[(1 + cell) * part..][..part], &trimmed[(1 + number) * part..][..part]);
        if old[0] != new[0] {
            return Err(format!("cell {cell} is {:X}, and {:X} as cell {number}", old[0], new[0]));
        }
        waiting.extend(named_together(&old[1..], &new[1..])?);
    }
    match numbers.values().copied().eq(0..kept) {
        true => Ok(()),
        false => Err(format!("the {kept} cells kept are not these in their order: {numbers:?}")),
    }
}

/// What two rows of first or next words name, pair by pair; nothing else differs.
fn named_together(old: &[u32], new: &[u32]) -> Result<Vec<(usize, usize)>, String> {
    let mut pairs = Vec::new();
    for (&old, &new) in old.iter().zip(new) {
        match (old & 0xFFFF, new & 0xFFFF) {
            (NO_CELL, NO_CELL) if old == new => (),
            (cell, number) if cell != NO_CELL && number != NO_CELL && old >> 16 == new >> 16 => {
                pairs.push((cell as usize, number as usize));
            }
            _ => return Err(format!("{old:X} becomes {new:X}")),
        }
    }
    Ok(pairs)
}

/// Plays every play of at most `rounds` rounds one by one, with nothing remembered.
pub fn lasts_played(game: &Game, runner: &mut impl Runner, rounds: usize) -> bool {
    members(game.start).all(|state| {
        shown(game, state).all(|r| match runner.open(r) {
            Some(entered) => play_on(game, runner, state, entered, rounds),
            None => false,
        })
    })
}

fn play_on(game: &Game, runner: &mut impl Runner, state: usize, entered: (u32, u32), rounds: usize) -> bool {
    let (cell, action) = entered;
    rounds == 0
        || survived(game, state, action)
            && members(game.moves[action as usize][state]).all(|successor| {
                shown(game, successor).all(|r| match runner.step(cell, r) {
                    Some(entered) => play_on(game, runner, successor, entered, rounds - 1),
                    None => false,
                })
            })
}

/// A search over knowledge sets for a strategy that lasts a number of rounds.
pub struct Search<'a> {
    game: &'a Game,
    /// For a knowledge set and a number of rounds: the action that lasts them, if there is one.
    found: HashMap<(u32, u32), Option<usize>>,
}

impl<'a> Search<'a> {
    pub fn new(game: &'a Game) -> Search<'a> {
        Search { game, found: HashMap::new() }
    }

    /// Some strategy lasts this many rounds from the start.
    pub fn some_strategy_lasts(&mut self, rounds: u32) -> bool {
        self.game.start_sets().into_iter().all(|set| self.lasts(set, rounds))
    }

    fn lasts(&mut self, set: u32, rounds: u32) -> bool {
        set == 0 || rounds == 0 || self.action(set, rounds).is_some()
    }

    fn action(&mut self, set: u32, rounds: u32) -> Option<usize> {
        if let Some(&known) = self.found.get(&(set, rounds)) {
            return known;
        }
        let game = self.game;
        let clear = members(set).all(|state| !game.is_bad(state));
        let action = (0..game.a).filter(|_| clear).find(|&action| {
            game.enabled(action, set)
                && game.after(action, set).into_iter().all(|next| self.lasts(next, rounds - 1))
        });
        self.found.insert((set, rounds), action);
        action
    }

    /// Plays the strategy found: every play under it survives rounds 1 to `rounds`.
    pub fn strategy_survives(&mut self, rounds: u32) -> bool {
        let mut seen = HashSet::new();
        let mut waiting = Vec::new();
        for (r, known) in self.game.start_sets().into_iter().enumerate() {
            let states = members(self.game.start).filter(|&state| self.game.showing(r, state));
            waiting.extend(states.map(|state| (state, known, rounds)));
        }
        while let Some((state, known, left)) = waiting.pop() {
            if left == 0 || !seen.insert((state, known, left)) {
                continue;
            }
            let Some(action) = self.action(known, left) else {
                return false;
            };
            if !survived(self.game, state, action as u32) {
                return false;
            }
            let after = self.game.after(action, known);
            for successor in members(self.game.moves[action][state]) {
                waiting.extend(shown(self.game, successor).map(|r| (successor, after[r], left - 1)));
            }
        }
        true
    }
}

/// A no with k: k is at least 1 and below 2^n, every strategy loses by k, and one survives k - 1.
pub fn no_holds(game: &Game, k: u32) -> Result<(), String> {
    let mut search = Search::new(game);
    if k == 0 || k >= 1 << game.n {
        return Err(format!("round number {k} is out of range"));
    }
    if search.some_strategy_lasts(k) {
        return Err(format!("a strategy lasts {k} rounds"));
    }
    if !search.some_strategy_lasts(k - 1) || !search.strategy_survives(k - 1) {
        return Err(format!("no strategy lasts {} rounds", k - 1));
    }
    Ok(())
}

/// All strategies on lists of at most `rounds` observations, one by one, for the smallest games.
pub mod literal {
    use super::{members, shown, survived, Game};

    /// An action for every list of observations; `choices` at the list's number.
    struct Strategy {
        o: usize,
        choices: Vec<u32>,
    }

    impl Strategy {
        /// Lists are numbered by length, then by their observations as digits to base o.
        fn action(&self, history: &[usize]) -> u32 {
            let shorter: usize = (1..history.len()).map(|length| self.o.pow(length as u32)).sum();
            self.choices[shorter + history.iter().fold(0, |number, r| number * self.o + r)]
        }

        /// The next strategy in the count through all of them; false after the last.
        fn advance(&mut self, a: usize) -> bool {
            for choice in &mut self.choices {
                *choice += 1;
                if *choice < a as u32 {
                    return true;
                }
                *choice = 0;
            }
            false
        }
    }

    /// Whether some strategy lasts this many rounds: each one is tried on every play.
    pub fn some_strategy_lasts(game: &Game, rounds: u32) -> bool {
        let lists = (1..=rounds).map(|length| game.o.pow(length)).sum();
        let mut strategy = Strategy { o: game.o, choices: vec![0; lists] };
        loop {
            if lasts(game, &strategy, rounds as usize) {
                return true;
            }
            if !strategy.advance(game.a) {
                return false;
            }
        }
    }

    fn lasts(game: &Game, strategy: &Strategy, rounds: usize) -> bool {
        rounds == 0
            || members(game.start).all(|state| {
                shown(game, state).all(|r| play(game, strategy, state, &mut vec![r], rounds))
            })
    }

    /// The round of this state and every later one up to `rounds` is survived.
    fn play(game: &Game, strategy: &Strategy, state: usize, history: &mut Vec<usize>, rounds: usize) -> bool {
        let action = strategy.action(history);
        if !survived(game, state, action) {
            return false;
        }
        if history.len() == rounds {
            return true;
        }
        members(game.moves[action as usize][state]).all(|successor| {
            shown(game, successor).all(|r| {
                history.push(r);
                let on = play(game, strategy, successor, history, rounds);
                history.pop();
                on
            })
        })
    }
}
