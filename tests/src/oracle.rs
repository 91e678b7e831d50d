//! The entries of document 01 and of document 02's changes 1 to 3 as a plain independent model: words,
//! checks, refusals in their order, and what becomes of every lent word. (Changes 5 and 6 have files of their own,
//! `trim` and `kiss`.)

use crate::game::{self, members, subset, Game};
use crate::kiss;
use crate::trim;
use std::fmt;

/// Document 01's limits.
pub const MAX_STATES: usize = 12;
pub const MAX_ACTIONS: usize = 8;
pub const MAX_OBSERVATIONS: usize = 8;
pub const MAX_CELLS: usize = 4096;
/// The cell number that means "cannot occur".
pub const NO_CELL: u32 = 65_535;
/// The card room of the solving program.
pub const PROGRAM_CARD_ROOM: usize = 16_384;

/// A numbered refusal and its place.
#[derive(Clone, Copy, PartialEq, Eq, Debug)]
pub struct Refusal {
    pub number: u32,
    pub place: u64,
}

fn refuse<T>(number: u32, place: usize) -> Result<T, Refusal> {
    Err(Refusal { number, place: place as u64 })
}

/// The field of `width` bits from bit `from`.
fn field(word: u32, from: u32, width: u32) -> usize {
    (word >> from & ((1 << width) - 1)) as usize
}

fn kind(number: u32) -> u32 {
    number << 28
}

// ---- Tables ------------------------------------------------------------------------------------

/// The bit of the head that says that the table marks parked states.
pub const PARKED_BIT: u32 = 1 << 24;

/// The words in front of the moves: head, start, bad, the parked states where they are marked, one per
/// observation.
fn front_length(o: usize, marked: bool) -> usize {
    3 + usize::from(marked) + o
}

/// The words of a table: those in front, and one per action and state.
pub fn table_length(n: usize, a: usize, o: usize, marked: bool) -> usize {
    front_length(o, marked) + a * n
}

/// The words a solve needs to work in.
pub fn work_length(n: usize) -> usize {
    4 << n
}

/// The words of a table behind its head, but for their masks.
fn table_frames(n: usize, a: usize, o: usize, marked: bool) -> Vec<u32> {
    let mut frames = vec![kind(2), kind(3)];
    frames.extend(marked.then_some(kind(6)));
    frames.extend((0..o as u32).map(|observation| kind(4) | observation << 16));
    let moved = |action: u32| (0..n as u32).map(move |state| kind(5) | state << 16 | action << 20);
    frames.extend((0..a as u32).flat_map(moved));
    frames
}

/// n, a and o of a head word and whether parked states are marked, or nothing where the word is wrong.
fn table_head(head: u32) -> Option<(usize, usize, usize, bool)> {
    let (n, a, o) = (field(head, 0, 8), field(head, 8, 8), field(head, 16, 8));
    let (marked, spare) = (field(head, 24, 1) == 1, field(head, 25, 3));
    (field(head, 28, 4) == 1 && spare == 0 && sizes_fit(n, a, o)).then_some((n, a, o, marked))
}

fn sizes_fit(n: usize, a: usize, o: usize) -> bool {
    (1..=MAX_STATES).contains(&n)
        && (1..=MAX_ACTIONS).contains(&a)
        && (1..=MAX_OBSERVATIONS).contains(&o)
}

/// Refusals 6, 7 and 19: an empty start, a state that shows nothing, a parked state with a successor.
fn check_meaning(game: &Game) -> Result<(), Refusal> {
    if game.start == 0 {
        return refuse(6, 1);
    }
    let shown = |state: usize| (0..game.o).any(|observation| game.showing(observation, state));
    if let Some(state) = (0..game.n).find(|&state| !shown(state)) {
        return refuse(7, state);
    }
    let moves_on = |state: usize| game.moves.iter().any(|row| row[state] != 0);
    match (0..game.n).find(|&state| game.is_parked(state) && moves_on(state)) {
        Some(state) => refuse(19, state),
        None => Ok(()),
    }
}

/// The table checks, and the game of an accepted table.
pub fn read_table(words: &[u32]) -> Result<Game, Refusal> {
    let Some(&head) = words.first() else {
        return refuse(1, 0);
    };
    let Some((n, a, o, marked)) = table_head(head) else {
        return refuse(2, 0);
    };
    if words.len() != table_length(n, a, o, marked) {
        return refuse(3, words.len());
    }
    for (place, frame) in (1..).zip(table_frames(n, a, o, marked)) {
        if words[place] & 0xFFFF_0000 != frame {
            return refuse(4, place);
        }
        if words[place] & 0xFFFF >= 1 << n {
            return refuse(5, place);
        }
    }
    let masks: Vec<u32> = words.iter().map(|word| word & 0xFFFF).collect();
    let (front, moves) = masks.split_at(front_length(o, marked));
    let shows = front[front.len() - o..].to_vec();
    let moves = moves.chunks(n).map(|row| row.to_vec()).collect();
    let game = Game { n, a, o, start: front[1], bad: front[2], parked: marked.then(|| front[3]), shows, moves };
    check_meaning(&game)?;
    Ok(game)
}

/// The words of a game, whatever its masks.
pub fn table_words(game: &Game) -> Vec<u32> {
    let marked = game.parked.is_some();
    let bit = if marked { PARKED_BIT } else { 0 };
    let head = kind(1) | bit | (game.o as u32) << 16 | (game.a as u32) << 8 | game.n as u32;
    let masks = [game.start, game.bad].into_iter().chain(game.parked);
    let masks = masks.chain(game.shows.iter().copied());
    let masks = masks.chain(game.moves.iter().flatten().copied());
    let frames = table_frames(game.n, game.a, game.o, marked);
    let framed = frames.into_iter().zip(masks).map(|(frame, mask)| frame | mask);
    [head].into_iter().chain(framed).collect()
}

/// The fields that a table is read into; unused slots are 0.
#[derive(Clone, PartialEq, Eq, Debug)]
pub struct Fields {
    pub n: u32,
    pub a: u32,
    pub o: u32,
    pub start: u32,
    pub bad: u32,
    /// Whether parked states are marked; without it the mask is an unused slot.
    pub parked_marked: bool,
    pub parked: u32,
    pub observations: [u32; MAX_OBSERVATIONS],
    /// At action · n + state.
    pub moves: [u32; MAX_ACTIONS * MAX_STATES],
}

pub fn read_fields(words: &[u32]) -> Result<Fields, Refusal> {
    read_table(words).map(|game| fields_of(&game))
}

/// The fields of a game whose sizes are within the limits, whatever its masks.
pub fn fields_of(game: &Game) -> Fields {
    let mut fields = Fields {
        n: game.n as u32,
        a: game.a as u32,
        o: game.o as u32,
        start: game.start,
        bad: game.bad,
        parked_marked: game.parked.is_some(),
        parked: game.parked.unwrap_or(0),
        observations: [0; MAX_OBSERVATIONS],
        moves: [0; MAX_ACTIONS * MAX_STATES],
    };
    fields.observations[..game.o].copy_from_slice(&game.shows);
    fields.moves[..game.a * game.n].copy_from_slice(&game.moves.concat());
    fields
}

/// Write: fields as words, refused by 2, 11, 5, 6, 7, 19 and 10 in this order.
pub fn write_fields(fields: &Fields, room: usize) -> Result<Vec<u32>, Refusal> {
    let (n, a, o) = (fields.n as usize, fields.a as usize, fields.o as usize);
    if !sizes_fit(n, a, o) {
        return refuse(2, 0);
    }
    let (shows, spare_shows) = fields.observations.split_at(o);
    let (moves, spare_moves) = fields.moves.split_at(a * n);
    let (parked, spare_parked) = match fields.parked_marked {
        true => (Some(fields.parked), None),
        false => (None, Some(fields.parked)),
    };
    if spare_shows.iter().chain(spare_moves).chain(&spare_parked).any(|&slot| slot != 0) {
        return refuse(11, 0);
    }
    let masks = [&[fields.start, fields.bad], parked.as_slice(), shows, moves].concat();
    if let Some(index) = masks.iter().position(|&mask| mask >= 1 << n) {
        return refuse(5, index + 1);
    }
    let moves = moves.chunks(n).map(|row| row.to_vec()).collect();
    let game = Game { n, a, o, start: fields.start, bad: fields.bad, parked, shows: shows.to_vec(), moves };
    check_meaning(&game)?;
    let words = table_words(&game);
    if room < words.len() {
        return refuse(10, words.len());
    }
    Ok(words)
}

// ---- Cards -------------------------------------------------------------------------------------

/// What a card's words say: the automaton of a strategy with memory.
#[derive(Clone, PartialEq, Eq, Debug)]
pub struct Card {
    pub a: usize,
    pub o: usize,
    /// For each observation the first cell, `None` where it cannot occur.
    pub first: Vec<Option<usize>>,
    pub cells: Vec<Cell>,
}

#[derive(Clone, PartialEq, Eq, Debug)]
pub struct Cell {
    pub mask: u32,
    pub action: usize,
    pub next: Vec<Option<usize>>,
}

pub fn card_length(cells: usize, o: usize) -> usize {
    1 + o + cells * (1 + o)
}

/// Refusal 13 in its order: head, length, words. The card where there is none.
pub fn read_card(words: &[u32]) -> Result<Card, Refusal> {
    let head = words.first().copied().unwrap_or(0);
    let (m, o, a) = (field(head, 0, 16), field(head, 16, 4), field(head, 20, 4));
    let head_fits = field(head, 24, 8) == 0x80
        && (1..=MAX_CELLS).contains(&m)
        && (1..=MAX_OBSERVATIONS).contains(&o)
        && (1..=MAX_ACTIONS).contains(&a);
    if !head_fits {
        return refuse(13, 0);
    }
    if words.len() != card_length(m, o) {
        return refuse(13, words.len());
    }
    let targets = |kind_number: u32, from: usize| -> Result<Vec<Option<usize>>, Refusal> {
        (0..o).map(|r| read_target(words[from + r], kind_number, r, m, from + r)).collect()
    };
    let first = targets(9, 1)?;
    let mut cells = Vec::new();
    for cell in 0..m {
        let place = 1 + o + cell * (1 + o);
        let (mask, action) = read_cell(words[place], a, place)?;
        cells.push(Cell { mask, action, next: targets(11, place + 1)? });
    }
    Ok(Card { a, o, first, cells })
}

/// A word of kind 9 or 11: the cell it names.
fn read_target(word: u32, kind_number: u32, r: usize, m: usize, place: usize) -> Result<Option<usize>, Refusal> {
    let cell = field(word, 0, 16);
    let framed = word & 0xFFFF_0000 == kind(kind_number) | (r as u32) << 16;
    match cell {
        _ if !framed => refuse(13, place),
        65_535 => Ok(None),
        _ if cell >= m => refuse(13, place),
        _ => Ok(Some(cell)),
    }
}

/// A word of kind 10: mask and action.
fn read_cell(word: u32, a: usize, place: usize) -> Result<(u32, usize), Refusal> {
    let (mask, action) = (word & 0xFFFF, field(word, 20, 4));
    let framed = field(word, 24, 8) == 0xA0 && field(word, 16, 4) == 0;
    if !framed || mask >= 1 << MAX_STATES || action >= a {
        return refuse(13, place);
    }
    Ok((mask, action))
}

/// The words of a card.
pub fn card_words(card: &Card) -> Vec<u32> {
    let target = |kind_number: u32, (r, cell): (usize, &Option<usize>)| {
        kind(kind_number) | (r as u32) << 16 | cell.map_or(NO_CELL, |cell| cell as u32)
    };
    let mut words = vec![kind(8) | (card.a as u32) << 20 | (card.o as u32) << 16 | card.cells.len() as u32];
    words.extend(card.first.iter().enumerate().map(|first| target(9, first)));
    for cell in &card.cells {
        words.push(kind(10) | (cell.action as u32) << 20 | cell.mask);
        words.extend(cell.next.iter().enumerate().map(|next| target(11, next)));
    }
    words
}

/// What a runner answers: the cell entered and its action.
pub type Move = (u32, u32);

fn enter(card: &Card, target: Option<usize>, observation: u32) -> Result<Move, Refusal> {
    match target {
        Some(cell) => Ok((cell as u32, card.cells[cell].action as u32)),
        None => refuse(14, observation as usize),
    }
}

/// The move by the first observation.
fn first_move(card: &Card, observation: u32) -> Result<Move, Refusal> {
    match card.first.get(observation as usize) {
        Some(&target) => enter(card, target, observation),
        None => refuse(12, observation as usize),
    }
}

/// The move by a later observation in a cell.
fn next_move(card: &Card, cell: u32, observation: u32) -> Result<Move, Refusal> {
    let Some(current) = card.cells.get(cell as usize) else {
        return refuse(12, cell as usize);
    };
    match current.next.get(observation as usize) {
        Some(&target) => enter(card, target, observation),
        None => refuse(12, observation as usize),
    }
}

/// Opening a runner with the first observation.
pub fn open(words: &[u32], observation: u32) -> Result<Move, Refusal> {
    first_move(&read_card(words)?, observation)
}

/// One step of a runner from a cell.
pub fn step(words: &[u32], cell: u32, observation: u32) -> Result<Move, Refusal> {
    next_move(&read_card(words)?, cell, observation)
}

/// A run over observations: the action after each. Refused by 13, with no observation too; by 12 or
/// 14 at the first observation that is not taken; then by 15.
pub fn run(words: &[u32], observations: &[u32], room: usize) -> Result<Vec<u32>, Refusal> {
    let card = read_card(words)?;
    let mut cell = None;
    let mut actions = Vec::new();
    for &observation in observations {
        let (entered, action) = match cell {
            None => first_move(&card, observation)?,
            Some(cell) => next_move(&card, cell, observation)?,
        };
        cell = Some(entered);
        actions.push(action);
    }
    fit(actions, room)
}

/// A runner opened with the first observation and moved by two more: what its last move answers. A
/// refused runner stays in its cell, and a refused opening leaves it in none.
pub fn drive(words: &[u32], [first, second, third]: [u32; 3]) -> Result<Move, Refusal> {
    let opened = open(words, first).map_or(NO_CELL, |entered| entered.0);
    let moved = step(words, opened, second).map_or(opened, |entered| entered.0);
    step(words, moved, third)
}

/// A table and a card together: the table checks, 13, 16.
fn read_pair(table: &[u32], card: &[u32]) -> Result<(Game, Card), Refusal> {
    let game = read_table(table)?;
    let card = read_card(card)?;
    if (card.a, card.o) != (game.a, game.o) {
        return refuse(16, 0);
    }
    Ok((game, card))
}

/// Show: offset and length of the part of the table's words with the moves of a cell's action.
pub fn show(table: &[u32], card: &[u32], cell: u32) -> Result<(usize, usize), Refusal> {
    let (game, card) = read_pair(table, card)?;
    match card.cells.get(cell as usize) {
        Some(cell) => Ok((front_length(game.o, game.parked.is_some()) + cell.action * game.n, game.n)),
        None => refuse(12, cell as usize),
    }
}

// ---- The judge of cards (document 02, change 1) ------------------------------------------------

/// What a word of a card is.
#[derive(Clone, Copy, PartialEq, Eq, Debug)]
pub enum Spot {
    Head,
    First { observation: usize },
    Cell { cell: usize },
    Next { cell: usize, observation: usize },
}

/// The word at a place of a card for o observations.
pub fn spot(o: usize, place: usize) -> Spot {
    match (place / (1 + o), place % (1 + o)) {
        (0, 0) => Spot::Head,
        (0, column) => Spot::First { observation: column - 1 },
        (row, 0) => Spot::Cell { cell: row - 1 },
        (row, column) => Spot::Next { cell: row - 1, observation: column - 1 },
    }
}

/// The table checks, 13, 16, and 18 at the lowest word at fault.
pub fn judge_card(table: &[u32], words: &[u32]) -> Result<(), Refusal> {
    let (game, card) = read_pair(table, words)?;
    match (0..words.len()).find(|&place| !holds(&game, &card, spot(card.o, place))) {
        Some(place) => refuse(18, place),
        None => Ok(()),
    }
}

/// The condition on a word. A cell's word comes before its next words, so these are only asked of a set
/// without a state from n up.
fn holds(game: &Game, card: &Card, spot: Spot) -> bool {
    match spot {
        Spot::Head => true,
        Spot::First { observation } => lie(card, game.start_sets()[observation], card.first[observation]),
        Spot::Cell { cell } => {
            let Cell { mask, action, .. } = card.cells[cell];
            members(mask).all(|state| state < game.n && !game.is_bad(state) && game.open(action, state))
        }
        Spot::Next { cell, observation } => {
            let Cell { mask, action, ref next } = card.cells[cell];
            lie(card, game.after(action, mask)[observation], next[observation])
        }
    }
}

/// The states lie in the cell named; there are none where it cannot occur.
fn lie(card: &Card, states: u32, named: Option<usize>) -> bool {
    match named {
        Some(cell) => subset(states, card.cells[cell].mask),
        None => states == 0,
    }
}

// ---- Solve -------------------------------------------------------------------------------------

/// What solve finds on an accepted table.
#[derive(Clone, PartialEq, Eq, Debug)]
pub enum Verdict {
    Yes { index: u32, card: Card },
    No { round: u32 },
}

/// Which cell a first or next word names, of the cells with these sets, for states that one of them holds.
pub type Naming = fn(&[u32], u32) -> usize;

/// The numbers of the cells that hold the states.
pub fn holders(cells: &[u32], states: u32) -> impl Iterator<Item = usize> + '_ {
    (0..cells.len()).filter(move |&cell| subset(states, cells[cell]))
}

/// Document 02, change 3: of the cells that hold the states the one with the fewest, the lowest number among
/// equals.
pub fn tightest(cells: &[u32], states: u32) -> usize {
    let size = |cell: usize| members(cells[cell]).count();
    holders(cells, states).min_by_key(|&cell| (size(cell), cell)).expect("a settled set lies in a cell")
}

/// Document 01's rule, kept to compare cards by: the lowest-numbered cell that holds the states.
pub fn lowest(cells: &[u32], states: u32) -> usize {
    holders(cells, states).next().expect("a settled set lies in a cell")
}

/// Verdict and card of a game.
pub fn decide(game: &Game) -> Verdict {
    decide_by(game, tightest)
}

/// The same with a card that names cells by another rule. The verdict comes from the knowledge sets, the card
/// from the families.
pub fn decide_by(game: &Game, naming: Naming) -> Verdict {
    match game::verdict(game) {
        Some(round) => Verdict::No { round },
        None => {
            let settled = game::families(game);
            Verdict::Yes { index: settled.index, card: card_of(game, &settled.family, naming) }
        }
    }
}

/// The card over the settled antichain.
fn card_of(game: &Game, family: &[bool], naming: Naming) -> Card {
    let antichain = game::maximal(game.n, family);
    let named = |states: u32| (states != 0).then(|| naming(&antichain, states));
    let cell_of = |&mask: &u32| {
        let action = game::step(game, family, mask).expect("a settled set meets the step");
        let next = game.after(action, mask).into_iter().map(named).collect();
        Cell { mask, action, next }
    };
    Card {
        a: game.a,
        o: game.o,
        first: game.start_sets().into_iter().map(named).collect(),
        cells: antichain.iter().map(cell_of).collect(),
    }
}

/// A table's refusal, or its game and verdict: all of solve but the rooms.
pub type Decided = Result<(usize, Verdict), Refusal>;

pub fn decided(table: &[u32]) -> Decided {
    let game = read_table(table)?;
    Ok((game.n, decide(&game)))
}

// ---- Lists and judge ---------------------------------------------------------------------------

/// The sets that no other set of the list strictly holds, ascending, without repeats.
fn maximal_of(mut sets: Vec<u32>) -> Vec<u32> {
    sets.sort_unstable();
    sets.dedup();
    let held = |set: u32| sets.iter().any(|&other| other != set && subset(set, other));
    sets.iter().copied().filter(|&set| !held(set)).collect()
}

fn check_lists(n: u32, first: &[u32], second: &[u32]) -> Result<(), Refusal> {
    if !(1..=MAX_STATES as u32).contains(&n) {
        return refuse(2, 0);
    }
    match first.iter().chain(second).position(|&mask| mask >= 1 << n) {
        Some(index) => refuse(5, index),
        None => Ok(()),
    }
}

fn fit(list: Vec<u32>, room: usize) -> Result<Vec<u32>, Refusal> {
    if list.len() > room {
        return refuse(15, list.len());
    }
    Ok(list)
}

pub fn join(n: u32, first: &[u32], second: &[u32], room: usize) -> Result<Vec<u32>, Refusal> {
    check_lists(n, first, second)?;
    fit(maximal_of([first, second].concat()), room)
}

pub fn meet(n: u32, first: &[u32], second: &[u32], room: usize) -> Result<Vec<u32>, Refusal> {
    check_lists(n, first, second)?;
    let common = |x: u32| second.iter().map(move |y| x & y);
    fit(maximal_of(first.iter().flat_map(|&x| common(x)).collect()), room)
}

pub fn judge(table: &[u32], mask: u32, k: u32) -> Result<bool, Refusal> {
    let game = read_table(table)?;
    if k > 4 {
        return refuse(17, k as usize);
    }
    if members(mask).any(|state| state >= game.n) {
        return refuse(5, table.len());
    }
    Ok(game::good(&game, mask, k))
}

// ---- The solving program -----------------------------------------------------------------------

/// What the solving program prints for the bytes on standard input.
pub fn program(input: &[u8]) -> String {
    match program_verdict(input) {
        Err(Refusal { number, place }) => format!("refused {number} {place}\n"),
        Ok(Verdict::No { round }) => format!("no {round}\n"),
        Ok(Verdict::Yes { index, card }) => format!("yes {index} {}\n", card.cells.len()) + &card_text(&card),
    }
}

fn program_verdict(input: &[u8]) -> Result<Verdict, Refusal> {
    if input.len() > 4096 {
        return refuse(3, 1025);
    }
    if input.len() % 4 != 0 {
        return refuse(3, input.len() / 4);
    }
    let word = |bytes: &[u8]| u32::from_le_bytes([bytes[0], bytes[1], bytes[2], bytes[3]]);
    let words: Vec<u32> = input.chunks(4).map(word).collect();
    let (_, verdict) = decided(&words)?;
    match &verdict {
        Verdict::Yes { card, .. } if card_length(card.cells.len(), card.o) > PROGRAM_CARD_ROOM => {
            refuse(9, card_length(card.cells.len(), card.o))
        }
        _ => Ok(verdict),
    }
}

fn card_text(card: &Card) -> String {
    let cell_number = |cell: &Option<usize>| cell.map_or("-".to_string(), |cell| cell.to_string());
    let mut text = String::new();
    for (r, cell) in card.first.iter().enumerate() {
        text += &format!("first {r} {}\n", cell_number(cell));
    }
    for (c, cell) in card.cells.iter().enumerate() {
        text += &format!("cell {c} {} {}\n", cell.mask, cell.action);
        for (r, next) in cell.next.iter().enumerate() {
            text += &format!("next {c} {r} {}\n", cell_number(next));
        }
    }
    text
}

// ---- Calls of the archive ----------------------------------------------------------------------

/// A call of one exported function. Buffers to be written stand with their lengths.
#[derive(Clone, Copy)]
pub enum Call<'a> {
    Solve { table: &'a [u32], work: usize, card: usize },
    Judge { table: &'a [u32], mask: u32, k: u32 },
    Join { n: u32, first: &'a [u32], second: &'a [u32], out: usize },
    Meet { n: u32, first: &'a [u32], second: &'a [u32], out: usize },
    Rewrite { table: &'a [u32], out: usize },
    CheckTable { table: &'a [u32] },
    CheckCard { card: &'a [u32] },
    Write { fields: &'a Fields, out: usize },
    Open { card: &'a [u32], observation: u32 },
    Step { card: &'a [u32], cell: u32, observation: u32 },
    Run { card: &'a [u32], observations: &'a [u32], out: usize },
    Drive { card: &'a [u32], observations: [u32; 3] },
    Show { table: &'a [u32], card: &'a [u32], cell: u32 },
    JudgeCard { table: &'a [u32], card: &'a [u32] },
    Trim { card: &'a [u32], work: usize, out: usize },
    WriteKiss { card: &'a [u32], text: usize },
    ReadKiss { text: &'a [u8], out: usize },
}

/// What a call must leave: the answer, and the front of the buffers. All other words stay.
#[derive(Clone, PartialEq, Eq, Debug)]
pub struct Outcome {
    pub answer: [u64; 3],
    /// How many words at the front of the work buffer are 0 afterwards.
    pub zeroed: usize,
    /// What stands at the front of the buffer for the result afterwards: its words, of a text its bytes.
    pub written: Vec<u32>,
}

impl Outcome {
    pub fn done(first: u64, second: u64) -> Outcome {
        Outcome { answer: [0, first, second], zeroed: 0, written: Vec::new() }
    }

    pub fn refused(number: u32, place: u64) -> Outcome {
        Outcome { answer: [2, number as u64, place], zeroed: 0, written: Vec::new() }
    }

    fn list(words: Vec<u32>) -> Outcome {
        Outcome { answer: [0, words.len() as u64, 0], zeroed: 0, written: words }
    }
}

/// Solve's outcome for rooms of these lengths.
pub fn solve_outcome(decided: &Decided, work: usize, room: usize) -> Outcome {
    let (n, verdict) = match decided {
        Err(refusal) => return Outcome::refused(refusal.number, refusal.place),
        Ok((n, verdict)) => (*n, verdict),
    };
    let zeroed = work_length(n);
    if work < zeroed {
        return Outcome::refused(8, zeroed as u64);
    }
    let (answer, written) = match verdict {
        Verdict::No { round } => ([1, *round as u64, 0], Vec::new()),
        Verdict::Yes { index, card } => {
            let words = card_words(card);
            match words.len() <= room {
                true => ([0, *index as u64, card.cells.len() as u64], words),
                false => ([2, 9, words.len() as u64], Vec::new()),
            }
        }
    };
    Outcome { answer, zeroed, written }
}

/// The outcome that the documents give to a call.
pub fn outcome(call: &Call) -> Outcome {
    let result = match *call {
        Call::Solve { table, work, card } => Ok(solve_outcome(&decided(table), work, card)),
        Call::Judge { table, mask, k } => judge(table, mask, k).map(|good| Outcome::done(good as u64, 0)),
        Call::Join { n, first, second, out } => join(n, first, second, out).map(Outcome::list),
        Call::Meet { n, first, second, out } => meet(n, first, second, out).map(Outcome::list),
        Call::Rewrite { table, out } => {
            read_fields(table).and_then(|fields| write_fields(&fields, out)).map(Outcome::list)
        }
        Call::CheckTable { table } => read_table(table).map(|_| Outcome::done(0, 0)),
        Call::CheckCard { card } => read_card(card).map(|card| Outcome::done(card.cells.len() as u64, card.o as u64)),
        Call::Write { fields, out } => write_fields(fields, out).map(Outcome::list),
        Call::Open { card, observation } => open(card, observation).map(entered),
        Call::Step { card, cell, observation } => step(card, cell, observation).map(entered),
        Call::Run { card, observations, out } => run(card, observations, out).map(Outcome::list),
        Call::Drive { card, observations } => drive(card, observations).map(entered),
        Call::Show { table, card, cell } => {
            show(table, card, cell).map(|(offset, length)| Outcome::done(offset as u64, length as u64))
        }
        Call::JudgeCard { table, card } => judge_card(table, card).map(|()| Outcome::done(0, 0)),
        Call::Trim { card, work, out } => Ok(trim::outcome(card, work, out)),
        Call::WriteKiss { card, text } => Ok(kiss::write_outcome(card, text)),
        Call::ReadKiss { text, out } => Ok(kiss::read_outcome(text, out)),
    };
    result.unwrap_or_else(|refusal| Outcome::refused(refusal.number, refusal.place))
}

fn entered((cell, action): Move) -> Outcome {
    Outcome::done(cell as u64, action as u64)
}

/// Words as document 01 writes them.
pub fn hex(words: &[u32]) -> String {
    let words: Vec<String> = words.iter().map(|word| format!("{word:08X}")).collect();
    words.join(" ")
}

/// A call as it is shown where a comparison fails.
impl fmt::Debug for Call<'_> {
    fn fmt(&self, f: &mut fmt::Formatter) -> fmt::Result {
        match *self {
            Call::Solve { table, work, card } => {
                write!(f, "solve, work {work}, card {card}, table {}", hex(table))
            }
            Call::Judge { table, mask, k } => write!(f, "judge, mask {mask:X}, k {k}, table {}", hex(table)),
            Call::Join { n, first, second, out } => {
                write!(f, "join, n {n}, ({}), ({}), out {out}", hex(first), hex(second))
            }
            Call::Meet { n, first, second, out } => {
                write!(f, "meet, n {n}, ({}), ({}), out {out}", hex(first), hex(second))
            }
            Call::Rewrite { table, out } => write!(f, "rewrite, out {out}, table {}", hex(table)),
            Call::CheckTable { table } => write!(f, "check, table {}", hex(table)),
            Call::CheckCard { card } => write!(f, "check, card {}", hex(card)),
            Call::Write { fields, out } => write!(f, "write, out {out}, {fields:x?}"),
            Call::Open { card, observation } => write!(f, "open, observation {observation}, card {}", hex(card)),
            Call::Step { card, cell, observation } => {
                write!(f, "step, cell {cell}, observation {observation}, card {}", hex(card))
            }
            Call::Run { card, observations, out } => {
                write!(f, "run, observations {observations:?}, out {out}, card {}", hex(card))
            }
            Call::Drive { card, observations } => {
                write!(f, "drive, observations {observations:?}, card {}", hex(card))
            }
            Call::Show { table, card, cell } => {
                write!(f, "show, cell {cell}, table {}, card {}", hex(table), hex(card))
            }
            Call::JudgeCard { table, card } => write!(f, "judge a card, table {}, card {}", hex(table), hex(card)),
            Call::Trim { card, work, out } => write!(f, "trim, work {work}, out {out}, card {}", hex(card)),
            Call::WriteKiss { card, text } => write!(f, "write as KISS2, text {text}, card {}", hex(card)),
            Call::ReadKiss { text, out } => write!(f, "read KISS2, out {out}, text {}", text.escape_ascii()),
        }
    }
}
