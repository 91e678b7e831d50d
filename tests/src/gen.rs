//! Random numbers, tables of several shapes, lists, cards, plays, and damage to words.

use crate::game::{members, subset, Game};
use crate::oracle::{card_words, table_words, Card, Cell, Fields, MAX_CELLS, MAX_STATES, NO_CELL, PARKED_BIT};
use crate::trim;

/// splitmix64.
#[derive(Clone)]
pub struct Rng(u64);

impl Rng {
    /// A generator of its own for every seed and number.
    pub fn new(seed: u64, number: u64) -> Rng {
        let mut rng = Rng(seed ^ number.wrapping_mul(0xD6E8_FEB8_6659_FD93));
        rng.next();
        rng
    }

    pub fn next(&mut self) -> u64 {
        self.0 = self.0.wrapping_add(0x9E37_79B9_7F4A_7C15);
        let z = (self.0 ^ self.0 >> 30).wrapping_mul(0xBF58_476D_1CE4_E5B9);
        let z = (z ^ z >> 27).wrapping_mul(0x94D0_49BB_1331_11EB);
        z ^ z >> 31
    }

    pub fn word(&mut self) -> u32 {
        (self.next() >> 32) as u32
    }

    /// A number below the bound.
    pub fn below(&mut self, bound: usize) -> usize {
        (self.next() % bound as u64) as usize
    }

    /// A number from the first to the last.
    pub fn within(&mut self, first: usize, last: usize) -> usize {
        first + self.below(last - first + 1)
    }

    /// True in so many of a hundred cases.
    pub fn percent(&mut self, share: usize) -> bool {
        self.below(100) < share
    }

    pub fn pick<T: Copy>(&mut self, from: &[T]) -> T {
        from[self.below(from.len())]
    }

    /// A set of states below n, each in it with this share of a hundred.
    pub fn set(&mut self, n: usize, share: usize) -> u32 {
        (0..n).fold(0, |set, i| set | (self.percent(share) as u32) << i)
    }

    /// Such a set that is not empty.
    pub fn some_set(&mut self, n: usize, share: usize) -> u32 {
        match self.set(n, share) {
            0 => 1 << self.below(n),
            set => set,
        }
    }
}

/// The shapes of random tables.
#[derive(Clone, Copy, PartialEq, Eq, Debug)]
pub enum Shape {
    /// Many successors, observations that divide the states.
    Dense,
    /// One or two successors, seldom blocked.
    Sparse,
    /// Actions blocked in many states.
    Blocked,
    /// Each state shows about half of the observations.
    Overlapping,
    /// Most observations are shown by no state.
    EmptyReadings,
    /// One successor each, the actions permutations with gaps: long games.
    Permutations,
    /// States in a row, with shortcuts: round numbers near n.
    Chain,
    /// The knowledge counter with its states shuffled and sometimes an error in it.
    Counter,
    /// Every action moves each state one on in a ring; they differ in where they are blocked.
    /// All states look alike: large antichains.
    Ring,
    /// Any masks at all.
    Uniform,
}

pub const SHAPES: [Shape; 10] = [
    Shape::Dense,
    Shape::Sparse,
    Shape::Blocked,
    Shape::Overlapping,
    Shape::EmptyReadings,
    Shape::Permutations,
    Shape::Chain,
    Shape::Counter,
    Shape::Ring,
    Shape::Uniform,
];

/// A random game of this shape with at most this many states, actions and observations; a third of them mark
/// parked states.
pub fn game(rng: &mut Rng, shape: Shape, n: usize, a: usize, o: usize) -> Game {
    let game = unmarked_game(rng, shape, n, a, o);
    match rng.below(3) {
        0 => parking(rng, game),
        _ => game,
    }
}

/// The game with parked states marked, of which some are bad too; their moves are cleared. Now and then none is
/// parked.
pub fn parking(rng: &mut Rng, game: Game) -> Game {
    let share = rng.pick(&[1, 10, 25, 60]);
    let mut parked = match rng.percent(20) {
        true => 0,
        false => rng.some_set(game.n, share),
    };
    if rng.percent(30) {
        parked |= (0..game.n).filter(|&state| blocked(&game, state)).fold(0, |set, state| set | 1 << state);
    }
    let lost = if rng.percent(15) { parked & rng.set(game.n, 40) } else { 0 };
    Game { bad: game.bad | lost, ..parked_at(game, parked) }
}

/// The game with these states parked; their moves are cleared.
pub fn parked_at(game: Game, states: u32) -> Game {
    Game { parked: Some(states), ..ended(game, states) }
}

/// The game with every action blocked in these states.
fn ended(mut game: Game, states: u32) -> Game {
    for row in &mut game.moves {
        members(states).for_each(|state| row[state] = 0);
    }
    game
}

/// The game with every action blocked in some more states, so that parking one of them may win a round or the game.
pub fn with_ends(rng: &mut Rng, game: Game) -> Game {
    let states = rng.set(game.n, 35);
    ended(game, states)
}

/// No action leads on from the state.
pub fn blocked(game: &Game, state: usize) -> bool {
    game.moves.iter().all(|row| row[state] == 0)
}

/// The game with moves from one or two parked states, which no table may have.
pub fn moving_on(rng: &mut Rng, mut game: Game) -> Game {
    for _ in 0..rng.within(1, 2) {
        let (action, state) = (rng.below(game.a), rng.below(game.n));
        if blocked(&game, state) || rng.percent(30) {
            game.moves[action][state] = rng.some_set(game.n, 30);
        }
        game.parked = Some(game.parked.unwrap_or(0) | 1 << state);
    }
    game
}

/// The same as a table without the bit could say it: each parked state moves to itself under every action.
pub fn painted(game: &Game) -> Game {
    let mut painted = Game { parked: None, ..game.clone() };
    for row in &mut painted.moves {
        members(game.parked.unwrap_or(0)).for_each(|state| row[state] = 1 << state);
    }
    painted
}

/// A random game of this shape that marks no parked states.
pub fn unmarked_game(rng: &mut Rng, shape: Shape, n: usize, a: usize, o: usize) -> Game {
    if shape == Shape::Counter && n >= 2 {
        return shaken_counter(rng, n);
    }
    if shape == Shape::Ring {
        let share = rng.pick(&[10, 20, 30, 40]);
        let blocked: Vec<u32> = (0..a).map(|_| rng.set(n, share)).collect();
        return ring(n, &blocked, o);
    }
    let moves = (0..a).map(|_| action(rng, shape, n)).collect();
    let shows = observations(rng, shape, n, o);
    let bad_share = rng.pick(&[0, 5, 10, 20, 30]);
    let bad = match shape {
        Shape::Uniform => rng.set(n, 50),
        _ => rng.set(n, bad_share),
    };
    let start_share = rng.pick(&[1, 15, 40]);
    let start = rng.some_set(n, start_share);
    // A bad start says little: mostly it is kept clear, where that leaves anything.
    let start = match start & !bad {
        0 => start,
        clear if rng.percent(90) => clear,
        _ => start,
    };
    Game { n, a, o, start, bad, parked: None, shows, moves }
}

/// The successors of every state under one action.
fn action(rng: &mut Rng, shape: Shape, n: usize) -> Vec<u32> {
    let shuffled = permutation(rng, n);
    let blocked = match shape {
        Shape::Blocked => 35,
        Shape::Permutations => 15,
        Shape::Dense => 2,
        _ => 8,
    };
    (0..n)
        .map(|state| match shape {
            Shape::Uniform => rng.set(n, 50),
            _ if rng.percent(blocked) => 0,
            Shape::Dense => rng.some_set(n, 45),
            Shape::Permutations => 1 << shuffled[state],
            Shape::Chain => chain_move(rng, n, state),
            _ => 1 << rng.below(n) | (rng.percent(30) as u32) << rng.below(n),
        })
        .collect()
}

/// Mostly one state on; the last is blocked.
fn chain_move(rng: &mut Rng, n: usize, state: usize) -> u32 {
    match state + 1 {
        next if next == n => 0,
        next if rng.percent(80) => 1 << next,
        next => 1 << next | 1 << rng.within(next, n - 1),
    }
}

fn observations(rng: &mut Rng, shape: Shape, n: usize, o: usize) -> Vec<u32> {
    let used = match shape {
        Shape::EmptyReadings => rng.within(1, o.div_ceil(2)),
        _ => o,
    };
    let overlap = match shape {
        Shape::Overlapping => 50,
        Shape::Uniform => 60,
        _ if rng.percent(50) => 0,
        _ => 10,
    };
    let mut shows: Vec<u32> = (0..used).map(|_| rng.set(n, overlap)).collect();
    for state in 0..n {
        if shows.iter().all(|set| set >> state & 1 == 0) {
            shows[rng.below(used)] |= 1 << state;
        }
    }
    // The unused observations stand anywhere among the used ones.
    while shows.len() < o {
        shows.insert(rng.within(0, shows.len()), 0);
    }
    shows
}

fn permutation(rng: &mut Rng, n: usize) -> Vec<usize> {
    let mut order: Vec<usize> = (0..n).collect();
    for i in (1..n).rev() {
        order.swap(i, rng.below(i + 1));
    }
    order
}

/// The knowledge counter: bit i is state 2i where it is 0 and state 2i+1 where it is 1; the action c
/// increments with carry at bit c and is blocked unless exactly the bits below c are 1 up to there.
/// All states show the one observation, so the states known hold the number. No with 2^(n/2).
pub fn counter(n: usize) -> Game {
    let bits = n / 2;
    let moves = (0..bits).map(|c| (0..n).map(|state| counter_move(c, state / 2, state % 2, state)).collect());
    let moves: Vec<Vec<u32>> = moves.collect();
    let start = (0..bits).fold(0, |set, i| set | 1 << (2 * i));
    Game { n, a: bits, o: 1, start, bad: 0, parked: None, shows: vec![(1 << n) - 1], moves }
}

fn counter_move(c: usize, bit: usize, value: usize, state: usize) -> u32 {
    match (bit.cmp(&c), value) {
        (std::cmp::Ordering::Less, 1) => 1 << (state - 1),
        (std::cmp::Ordering::Equal, 0) => 1 << (state + 1),
        (std::cmp::Ordering::Greater, _) => 1 << state,
        _ => 0,
    }
}

/// The counter with its states renumbered, another start and sometimes one move replaced.
fn shaken_counter(rng: &mut Rng, n: usize) -> Game {
    let plain = counter(n);
    let order = permutation(rng, n);
    let renamed = |set: u32| (0..n).fold(0, |sum, i| sum | (set >> i & 1) << order[i]);
    let mut game = plain.clone();
    game.start = renamed(plain.start);
    for (action, row) in plain.moves.iter().enumerate() {
        for (state, &set) in row.iter().enumerate() {
            game.moves[action][order[state]] = renamed(set);
        }
    }
    if rng.percent(40) {
        let (action, state) = (rng.below(game.a), rng.below(n));
        game.moves[action][state] = rng.set(n, 25);
    }
    if rng.percent(30) {
        game.start = rng.some_set(n, 30);
    }
    game
}

/// A ring of n states: each action moves one on, but is blocked at its own set of states. Every
/// observation is shown by all. A set lasts where, turned to any place, it misses one of the sets.
pub fn ring(n: usize, blocked: &[u32], o: usize) -> Game {
    let next = |set: u32, state: usize| match set >> state & 1 {
        0 => 1 << ((state + 1) % n),
        _ => 0,
    };
    let moves = blocked.iter().map(|&set| (0..n).map(|state| next(set, state)).collect()).collect();
    Game { n, a: blocked.len(), o, start: 1, bad: 0, parked: None, shows: vec![(1 << n) - 1; o], moves }
}

/// Blocked sets found by search for which the ring of twelve states settles at 498 cells.
pub const WIDE_RING: [u32; 8] = [0x044, 0x089, 0xE00, 0x500, 0x024, 0x070, 0x202, 0x811];

/// Others, found so too, for which it settles at 216 cells, of four, five and six states: where several hold a
/// set, the tightest is often not the lowest.
pub const MIXED_RING: [u32; 8] = [0x180, 0x202, 0x104, 0x478, 0x2A6, 0x004, 0x003, 0x900];

/// The ring of twelve states with eight observations, seven of them shown by three quarters of the states, at
/// random, and the last by all: the cells are those of the ring in which all states look alike, and what is known
/// lies in several.
pub fn overlapping_ring(rng: &mut Rng, blocked: &[u32; 8]) -> Game {
    let mut game = ring(12, blocked, 8);
    game.shows[..7].iter_mut().for_each(|shows| *shows = rng.set(12, 75));
    game
}

/// The game with one state put into one of its masks, or taken out of it; it may be no table's any more.
pub fn changed(rng: &mut Rng, game: &Game) -> Game {
    let (mut game, state) = (game.clone(), 1 << rng.below(game.n));
    let (action, from, r) = (rng.below(game.a), rng.below(game.n), rng.below(game.o));
    match rng.below(7) {
        0 => game.start ^= state,
        1 => game.bad ^= state,
        2 => game.shows[r] ^= state,
        3 => game.parked = Some(game.parked.unwrap_or(0) ^ state),
        _ => game.moves[action][from] ^= state,
    }
    game
}

/// The words of a random table with up to these numbers of states, actions and observations.
pub fn table(rng: &mut Rng, shape: Shape, n: usize, a: usize, o: usize) -> Vec<u32> {
    table_words(&game(rng, shape, n, a, o))
}

/// A random list of masks below 2^n; repeats and masks within others come up.
pub fn list(rng: &mut Rng, n: usize, longest: usize) -> Vec<u32> {
    let share = rng.pick(&[15, 50, 50, 85]);
    (0..rng.within(0, longest)).map(|_| rng.set(n, share)).collect()
}

/// The words of a random card of good shape, drawn by nobody's solver.
pub fn card(rng: &mut Rng, cells: usize, a: usize, o: usize) -> Vec<u32> {
    let targets = |rng: &mut Rng| -> Vec<Option<usize>> {
        (0..o).map(|_| (!rng.percent(25)).then(|| rng.below(cells))).collect()
    };
    let first = targets(rng);
    let mut cell = |_| Cell { mask: rng.set(12, 40), action: rng.below(a), next: targets(rng) };
    card_words(&Card { a, o, first, cells: (0..cells).map(&mut cell).collect() })
}

/// How the cells of a card that nobody's solver drew name each other.
#[derive(Clone, Copy, PartialEq, Eq, Debug)]
pub enum Wiring {
    /// Any cell.
    Any,
    /// Any cell, but seldom one at all.
    Few,
    /// The cell below.
    Down,
    /// The next in a shuffled order, now and then none.
    Shuffled,
    /// Mostly itself.
    Loops,
    /// One of the same remainder: cells of other remainders are reached by first words alone.
    Islands,
    /// One above or below, so that what is reached spreads from the first cells.
    Near,
}

pub const WIRINGS: [Wiring; 7] = [
    Wiring::Any,
    Wiring::Few,
    Wiring::Down,
    Wiring::Shuffled,
    Wiring::Loops,
    Wiring::Islands,
    Wiring::Near,
];

/// A random card of this wiring. In `entered` ones some first word names a cell, in others none does. Sets and
/// actions are any, so that each cell's word says mostly which cell it is.
pub fn wired(rng: &mut Rng, wiring: Wiring, cells: usize, a: usize, o: usize, entered: bool) -> Card {
    let (order, islands) = (permutation(rng, cells), rng.within(2, 5));
    let mut first: Vec<Option<usize>> = (0..o).map(|_| rng.percent(30).then(|| rng.below(cells))).collect();
    match entered {
        true => first[rng.below(o)] = Some(rng.below(cells)),
        false => first.fill(None),
    }
    let next = |rng: &mut Rng, cell: usize| match wiring {
        Wiring::Any => (!rng.percent(25)).then(|| rng.below(cells)),
        Wiring::Few => rng.percent(20).then(|| rng.below(cells)),
        Wiring::Down => cell.checked_sub(1).filter(|_| rng.percent(80)),
        Wiring::Shuffled => (!rng.percent(10)).then(|| order[cell]),
        Wiring::Loops => Some(if rng.percent(85) { cell } else { rng.below(cells) }),
        Wiring::Islands => Some(rng.below(cells) / islands * islands + cell % islands).filter(|&other| other < cells),
        Wiring::Near => Some((cell + cells + rng.within(0, 2) - 1) % cells).filter(|_| rng.percent(60)),
    };
    let mut cell = |cell| {
        let next = (0..o).map(|_| next(rng, cell)).collect();
        Cell { mask: rng.set(12, 40), action: rng.below(a), next }
    };
    let cells = (0..cells).map(&mut cell).collect();
    Card { a, o, first, cells }
}

/// A card of this wiring in which every cell is reached: a random one trimmed.
pub fn whole_card(rng: &mut Rng, wiring: Wiring, cells: usize, a: usize, o: usize) -> Card {
    trim::trimmed(&wired(rng, wiring, cells, a, o, true))
}

/// A card of just so many cells, all reached: a chain through all of them in a shuffled order, by the observation that leads
/// on, and so many other words in a hundred that name any cell.
pub fn full_card(rng: &mut Rng, cells: usize, a: usize, o: usize, share: usize) -> Card {
    let order = permutation(rng, cells);
    let mut followers = vec![None; cells];
    order.windows(2).for_each(|pair| followers[pair[0]] = Some(pair[1]));
    let named = |rng: &mut Rng, next: Option<usize>| -> Vec<Option<usize>> {
        let mut named: Vec<Option<usize>> = (0..o).map(|_| rng.percent(share).then(|| rng.below(cells))).collect();
        named[rng.below(o)] = next;
        named
    };
    let first = named(rng, Some(order[0]));
    let mut cell = |cell: usize| Cell { mask: rng.set(12, 40), action: rng.below(a), next: named(rng, followers[cell]) };
    let cells = (0..cells).map(&mut cell).collect();
    Card { a, o, first, cells }
}

/// How many cards of so many cells and observations there are, but for sets and actions.
pub fn small_cards(cells: usize, o: usize) -> u64 {
    (cells as u64 + 1).pow((o * (1 + cells)) as u32)
}

/// One of these by its number: each first and next word is a digit. Cell c has the set of state c and action c.
pub fn small_card(cells: usize, o: usize, mut number: u64) -> Card {
    let mut named = |_| {
        let digit = (number % (cells as u64 + 1)) as usize;
        number /= cells as u64 + 1;
        (digit < cells).then_some(digit)
    };
    let first = (0..o).map(&mut named).collect();
    let cell = |cell: usize| Cell { mask: 1 << cell, action: cell, next: (0..o).map(&mut named).collect() };
    Card { a: cells, o, first, cells: (0..cells).map(cell).collect() }
}

/// The chain in the worst order: the first words name the highest cell, and each cell the one below it, on the
/// last observation; the others cannot occur. Every cell is reached.
pub fn chain(cells: usize, o: usize) -> Card {
    let last = |named| (1..=o).map(|r| if r == o { named } else { None }).collect();
    let cell = |cell: usize| Cell { mask: cell as u32 % 4096, action: cell % 8, next: last(cell.checked_sub(1)) };
    Card { a: 8, o, first: vec![Some(cells - 1); o], cells: (0..cells).map(cell).collect() }
}

/// One reached cell, in the middle: the first words and its next words name it alone. The others name each other.
pub fn lone(cells: usize, o: usize) -> Card {
    let middle = cells / 2;
    let named = |cell: usize| if cell == middle { middle } else { (cell + 1) % cells };
    let cell = |cell: usize| Cell { mask: cell as u32 % 4096, action: cell % 8, next: vec![Some(named(cell)); o] };
    Card { a: 8, o, first: vec![Some(middle); o], cells: (0..cells).map(cell).collect() }
}

/// A card as a person would draw it: sets that survive their action, and words that name a cell with the
/// states in question, where there is one.
pub fn drawn(rng: &mut Rng, game: &Game, cells: usize) -> Card {
    let share = rng.pick(&[20, 50, 100]);
    let cell = |rng: &mut Rng| {
        let action = rng.below(game.a);
        let survives = |state: &usize| !game.is_bad(*state) && game.open(action, *state);
        let survivors = (0..game.n).filter(survives).fold(0, |set, state| set | 1 << state);
        (survivors & rng.set(game.n, share), action)
    };
    let cells: Vec<(u32, usize)> = (0..cells).map(|_| cell(rng)).collect();
    let mut named = |states: u32| {
        let holding: Vec<usize> = (0..cells.len()).filter(|&cell| subset(states, cells[cell].0)).collect();
        match holding.len() {
            _ if states == 0 && rng.percent(80) => None,
            0 => Some(rng.below(cells.len())),
            _ => Some(rng.pick(&holding)),
        }
    };
    let first = game.start_sets().into_iter().map(&mut named).collect();
    let next = cells.iter().map(|&(mask, action)| game.after(action, mask).into_iter().map(&mut named).collect());
    let next: Vec<Vec<Option<usize>>> = next.collect();
    let cells = cells.iter().zip(next).map(|(&(mask, action), next)| Cell { mask, action, next }).collect();
    Card { a: game.a, o: game.o, first, cells }
}

/// The card with a cell for each pair of its cells and what is known there in a play, so that no set says
/// more than it must. Nothing where there are too many.
pub fn unfolded(game: &Game, card: &Card, most: usize) -> Option<Card> {
    let mut pairs = Vec::new();
    let first = numbered(&mut pairs, &card.first, game.start_sets());
    let mut cells = Vec::new();
    while let Some(&(cell, mask)) = pairs.get(cells.len()) {
        let Cell { action, ref next, .. } = card.cells[cell];
        let next = numbered(&mut pairs, next, game.after(action, mask));
        cells.push(Cell { mask, action, next });
        if pairs.len() > most {
            return None;
        }
    }
    Some(Card { a: card.a, o: card.o, first, cells })
}

/// The numbers of the pairs of a cell named and the states in question, new ones added.
fn numbered(pairs: &mut Vec<(usize, u32)>, named: &[Option<usize>], sets: Vec<u32>) -> Vec<Option<usize>> {
    let mut number = |pair| match pairs.iter().position(|&other| other == pair) {
        Some(number) => number,
        None => {
            pairs.push(pair);
            pairs.len() - 1
        }
    };
    let in_question = |(&cell, set): (&Option<usize>, u32)| (set != 0).then(|| (cell.expect("it can occur"), set));
    named.iter().zip(sets).map(in_question).map(|pair| pair.map(&mut number)).collect()
}

/// A game in which every set of states is good: nothing is bad, and action 0 is never blocked.
pub fn open_game(rng: &mut Rng, n: usize, a: usize, o: usize) -> Game {
    let game = game(rng, Shape::Sparse, n, a, o);
    opened(game)
}

/// The game with nothing bad, and action 0 leading on wherever it is blocked.
pub fn opened(mut game: Game) -> Game {
    for state in 0..game.n {
        if !game.open(0, state) {
            game.moves[0][state] = 1;
        }
    }
    Game { bad: 0, ..game }
}

/// The card of such a game with a cell for every set: the number of the cell is its mask.
pub fn card_of_all_sets(rng: &mut Rng, game: &Game) -> Card {
    let named = |set: u32| (set != 0).then_some(set as usize);
    let mut cell = |mask| {
        let enabled: Vec<usize> = (0..game.a).filter(|&action| game.enabled(action, mask)).collect();
        let action = rng.pick(&enabled);
        Cell { mask, action, next: game.after(action, mask).into_iter().map(named).collect() }
    };
    let cells = (0..1 << game.n).map(&mut cell).collect();
    Card { a: game.a, o: game.o, first: game.start_sets().into_iter().map(named).collect(), cells }
}

/// Changes a card of the game in one place, as a person would; some changes leave it right.
pub fn redraw(rng: &mut Rng, game: &Game, card: &mut Card) {
    let m = card.cells.len();
    let (cell, other, r) = (rng.below(m), rng.below(m), rng.below(card.o));
    let any = (!rng.percent(30)).then_some(other);
    match rng.below(11) {
        // A set shrunk, grown, and with a state from n up.
        0 => card.cells[cell].mask &= !(1 << rng.below(game.n)),
        1 => card.cells[cell].mask |= 1 << rng.below(game.n),
        2 => card.cells[cell].mask |= 1 << rng.within(game.n.min(MAX_STATES - 1), MAX_STATES - 1),
        // Two cells that change places, in name too; and their sets alone.
        3 => {
            card.cells.swap(cell, other);
            rename(card, |named| match named {
                _ if named == cell => other,
                _ if named == other => cell,
                _ => named,
            });
        }
        4 => (card.cells[cell].mask, card.cells[other].mask) = (card.cells[other].mask, card.cells[cell].mask),
        // A cell doubled and named now by the one, now by the other number.
        5 if m < MAX_CELLS => {
            card.cells.push(card.cells[cell].clone());
            rename(card, |named| if named == cell && rng.percent(50) { m } else { named });
        }
        // A cell that is never entered.
        6 if m < MAX_CELLS => {
            let mask = if rng.percent(50) { 0 } else { rng.set(game.n, 30) };
            card.cells.push(Cell { mask, action: rng.below(card.a), next: vec![any; card.o] });
        }
        7 => card.cells[cell].action = rng.below(card.a),
        8 => card.cells[cell].next[r] = any,
        9 => card.first[r] = any,
        // A cell named wherever it was said that it cannot occur.
        _ => all_named(card).for_each(|named| *named = named.or(Some(other))),
    }
}

/// What the first and next words name.
fn all_named(card: &mut Card) -> impl Iterator<Item = &mut Option<usize>> {
    card.first.iter_mut().chain(card.cells.iter_mut().flat_map(|cell| &mut cell.next))
}

/// Gives each cell that is named another number.
fn rename(card: &mut Card, mut number: impl FnMut(usize) -> usize) {
    all_named(card).for_each(|named| *named = named.map(&mut number));
}

/// The words of a card for the game: where there is the solver's, mostly that one redrawn or unfolded;
/// otherwise one drawn by hand, or any at all.
pub fn card_for(rng: &mut Rng, game: &Game, solved: Option<&Card>) -> Vec<u32> {
    let cells = rng.within(1, 6);
    match (rng.below(8), solved) {
        (0..=3, Some(card)) => {
            let mut card = card.clone();
            (0..rng.within(1, 3)).for_each(|_| redraw(rng, game, &mut card));
            card_words(&card)
        }
        (4, Some(card)) => card_words(&unfolded(game, card, 200).unwrap_or_else(|| card.clone())),
        (5, _) => card(rng, cells, game.a, game.o),
        _ => card_words(&drawn(rng, game, cells)),
    }
}

/// The observations of a random play under the card of its game, fewer where the play ends in a parked state.
pub fn play(rng: &mut Rng, game: &Game, card: &Card, length: usize) -> Vec<u32> {
    let (mut states, mut targets) = (game.start, &card.first);
    let mut observations = Vec::new();
    for _ in 0..length {
        let in_play: Vec<usize> = members(states).collect();
        if in_play.is_empty() {
            break;
        }
        let state = rng.pick(&in_play);
        let shown: Vec<usize> = (0..game.o).filter(|&r| game.showing(r, state)).collect();
        let r = rng.pick(&shown);
        let cell = &card.cells[targets[r].expect("what a play shows can occur")];
        observations.push(r as u32);
        (states, targets) = (game.moves[cell.action][state], &cell.next);
    }
    observations
}

/// Observations that a card takes one after the other, fewer where no more can occur.
pub fn walk(rng: &mut Rng, card: &Card, length: usize) -> Vec<u32> {
    let mut targets = &card.first;
    let mut observations = Vec::new();
    for _ in 0..length {
        let possible: Vec<usize> = (0..card.o).filter(|&r| targets[r].is_some()).collect();
        if possible.is_empty() {
            break;
        }
        let r = rng.pick(&possible);
        observations.push(r as u32);
        targets = &card.cells[targets[r].expect("it can occur")].next;
    }
    observations
}

/// Numbers for a run: what the card takes one after the other, mostly with some other number among them.
pub fn numbers(rng: &mut Rng, card: &Card, longest: usize) -> Vec<u32> {
    let length = rng.within(0, longest);
    let mut numbers = walk(rng, card, length);
    let (o, any, wild) = (card.o as u32, rng.below(card.o) as u32, rng.word());
    if rng.percent(60) {
        let other = rng.pick(&[any, any, any, o, o + 1, any | 1 << 16, wild]);
        numbers.insert(rng.within(0, numbers.len()), other);
    }
    numbers
}

/// Damages words: a bit flipped, a word cut, added, replaced, swapped or pushed by a little, or what marks the
/// parked states of a table changed.
pub fn damage(rng: &mut Rng, words: &mut Vec<u32>) {
    if words.is_empty() {
        words.push(rng.word());
        return;
    }
    let place = rng.below(words.len());
    match rng.below(13) {
        12 if words.len() > 4 => damage_parked(rng, words),
        0..=4 => words[place] ^= 1 << rng.below(32),
        5 => {
            words.remove(place);
        }
        6 => words.truncate(place),
        7 => {
            let extra = match rng.percent(50) {
                true => rng.word(),
                false => words[place],
            };
            words.insert(rng.within(0, words.len()), extra);
        }
        8 => {
            let wild = rng.word();
            words[place] = rng.pick(&[wild, 0, u32::MAX, words[place] & 0xFFFF_0000, words[place] | NO_CELL]);
        }
        9 => {
            let other = rng.below(words.len());
            words.swap(place, other);
        }
        10 => words[place] = words[place].wrapping_add(rng.pick(&[1, u32::MAX, 1 << 16, 1 << 20, 1 << 24, 1 << 28])),
        _ => words[0] = words[0].wrapping_add(rng.pick(&[1, u32::MAX, 1 << 8, 1 << 16, 1 << 20, 1 << 24])),
    }
}

/// Damages what marks the parked states: the head's bit and those beside it, the word and its mask. Where bit and
/// word come or go together, the table may be right.
fn damage_parked(rng: &mut Rng, words: &mut Vec<u32>) {
    let marked = words[0] & PARKED_BIT != 0;
    let n = rng.within(1, MAX_STATES + 1);
    let (mask, other_kind) = (rng.set(n, 30), rng.pick(&[3, 4, 5, 7, 14]) << 28);
    match rng.below(6) {
        0 => words[0] ^= PARKED_BIT,
        1 => words[0] ^= PARKED_BIT << rng.within(1, 3),
        2 | 3 if marked => {
            words[0] ^= PARKED_BIT;
            words.remove(3);
        }
        2 | 3 => {
            words[0] ^= PARKED_BIT;
            words.insert(3, 6 << 28 | mask);
        }
        4 => words[3] = 6 << 28 | mask,
        _ => words[3] = other_kind | words[3] & 0xFFFF,
    }
}

/// Damages a text: bytes changed, cut off, put in, left out or doubled, a blank or a newline more, digits and lines changed,
/// left out, doubled or swapped, other ends of lines.
pub fn damage_text(rng: &mut Rng, text: &mut Vec<u8>) {
    if text.is_empty() {
        text.push(rng.word() as u8);
        return;
    }
    let place = rng.below(text.len());
    let some = rng.pick(b"01234589.cre# \n\r\t-");
    let places = |wanted: fn(&u8) -> bool| -> Vec<usize> { (0..text.len()).filter(|&i| wanted(&text[i])).collect() };
    let (digits, blanks) = (places(u8::is_ascii_digit), places(u8::is_ascii_whitespace));
    match rng.below(16) {
        0 => text[place] ^= 1 << rng.below(8),
        1 => text[place] = some,
        2 => text.truncate(place),
        3 => text.insert(place, some),
        4 => {
            text.remove(place);
        }
        5 => {
            let more = text[rng.below(text.len())..].to_vec();
            text.extend(more);
        }
        6 => text.push(some),
        7 if !blanks.is_empty() => {
            let place = rng.pick(&blanks);
            text.insert(place, rng.pick(&[text[place], b' ', b'\t']));
        }
        8..=10 if !digits.is_empty() => text[rng.pick(&digits)] = rng.pick(b"0011123456789"),
        11 => *text = text.iter().flat_map(|&byte| if byte == b'\n' { vec![b'\r', byte] } else { vec![byte] }).collect(),
        _ => damage_lines(rng, text),
    }
}

/// Lines swapped, left out or doubled, neighbours mostly.
fn damage_lines(rng: &mut Rng, text: &mut Vec<u8>) {
    let mut lines: Vec<Vec<u8>> = text.split_inclusive(|&byte| byte == b'\n').map(<[u8]>::to_vec).collect();
    let line = rng.below(lines.len());
    let other = if rng.percent(60) { (line + 1) % lines.len() } else { rng.below(lines.len()) };
    match rng.below(4) {
        0 => lines.swap(line, other),
        1 => {
            lines.remove(line);
        }
        2 => lines.insert(line, lines[line].clone()),
        _ => {
            let moved = lines.remove(line);
            lines.insert(rng.within(0, lines.len()), moved);
        }
    }
    *text = lines.concat();
}

/// Damages fields: a number, a mask or a slot, used or not, gets another value, or the bit changes.
pub fn damage_fields(rng: &mut Rng, fields: &mut Fields) {
    let (shown, moved) = (rng.below(fields.observations.len()), rng.below(fields.moves.len()));
    let field = match rng.below(10) {
        8 => return fields.parked_marked ^= true,
        9 => &mut fields.parked,
        0 => &mut fields.n,
        1 => &mut fields.a,
        2 => &mut fields.o,
        3 => &mut fields.start,
        4 => &mut fields.bad,
        5 | 6 => &mut fields.observations[shown],
        _ => &mut fields.moves[moved],
    };
    let (near, far, wild) = (*field ^ 1 << rng.below(13), *field ^ 1 << rng.below(32), rng.word());
    *field = rng.pick(&[0, near, near, far, wild, field.wrapping_add(1), field.wrapping_sub(1)]);
}
