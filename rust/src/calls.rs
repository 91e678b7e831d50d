//! The library's functions, with numbers in their types and refusals as errors.

use crate::numbers::Word;
use crate::raw::{self, Answer};
use crate::{card_words, Action, Cell, Fields, Observation, Refusal, StateSet};

/// What [`solve`] finds.
#[derive(Clone, Copy, PartialEq, Eq, Debug)]
pub enum Verdict<'a> {
    /// A rule keeps every play clear.
    Yes {
        /// The settling count.
        settled: u32,
        /// How many cells the card has.
        cells: u32,
        /// The card's words, in front of the room that was lent.
        card: &'a [u32],
    },
    /// Under every rule some play does not survive a round up to this one.
    No {
        /// The least such round.
        round: u32,
    },
}

/// Where a card goes on an observation.
#[derive(Clone, Copy, PartialEq, Eq, Debug)]
pub struct Move {
    /// The cell entered.
    pub cell: Cell,
    /// The action to take.
    pub action: Action,
}

/// What [`check_card`] tells of a card.
#[derive(Clone, Copy, PartialEq, Eq, Debug)]
pub struct CardSize {
    /// How many cells it has.
    pub cells: u32,
    /// How many observations it is for.
    pub observations: u32,
}

/// What [`trim`] writes.
#[derive(Clone, Copy, PartialEq, Eq, Debug)]
pub struct Trimmed<'a> {
    /// How many cells were kept.
    pub cells: u32,
    /// The trimmed card's words, in front of the room that was lent.
    pub card: &'a [u32],
}

/// What [`read_kiss`] reads.
#[derive(Clone, Copy, PartialEq, Eq, Debug)]
pub struct ReadBack<'a> {
    /// How many cells the card has.
    pub cells: u32,
    /// The card's words, in front of the room that was lent.
    pub card: &'a [u32],
}

/// The two values of a call that is done.
#[inline]
fn done(call: impl FnOnce(&mut Answer)) -> Result<(u64, u64), Refusal> {
    let mut answer = [0; 3];
    call(&mut answer);
    match answer {
        [0, x, y] => Ok((x, y)),
        [_, number, place] => Err(Refusal::new(number, place)),
    }
}

/// The same of a call that writes or reads KISS2, which has refusals of its own.
#[inline]
fn done_with_text(call: impl FnOnce(&mut Answer)) -> Result<(u64, u64), Refusal> {
    let mut answer = [0; 3];
    call(&mut answer);
    match answer {
        [0, x, y] => Ok((x, y)),
        [_, number, place] => Err(Refusal::new_of_text(number, place)),
    }
}

/// The length of what a call that is done has written.
#[inline]
fn written(call: impl FnOnce(&mut Answer)) -> Result<usize, Refusal> {
    done(call).map(|(length, _)| length as usize)
}

#[inline]
fn moved(call: impl FnOnce(&mut Answer)) -> Result<Move, Refusal> {
    let (cell, action) = done(call)?;
    Ok(Move { cell: Cell(cell as u32), action: Action(action as u32) })
}

/// Decides a table. The work room needs [`work_words`](crate::work_words) words, and
/// [`CARD_WORDS_MAX`](crate::CARD_WORDS_MAX) are always enough for the card. Where several of its cells
/// hold the states in question, a first or next word names the one with the fewest states, the lowest
/// number among equals. Refused: the table's checks, 8, 9.
pub fn solve<'a>(table: &[u32], work: &mut [u32], card: &'a mut [u32]) -> Result<Verdict<'a>, Refusal> {
    let mut answer = [0; 3];
    raw::solve(table, work, card, &mut answer);
    match answer {
        [0, settled, cells] => {
            let observations = (card[0] >> 16 & 15) as usize;
            let card = &card[..card_words(cells as usize, observations)];
            Ok(Verdict::Yes { settled: settled as u32, cells: cells as u32, card })
        }
        [1, round, _] => Ok(Verdict::No { round: round as u32 }),
        [_, number, place] => Err(Refusal::new(number, place)),
    }
}

/// Whether the set is good for so many rounds, 4 at most. Refused: the table's checks, 17, 5.
pub fn judge(table: &[u32], set: StateSet, rounds: u32) -> Result<bool, Refusal> {
    Ok(done(|answer| raw::judge(table, set.0, rounds, answer))?.0 == 1)
}

/// Judges a card, whoever drew it, against a table. One that is accepted keeps every play clear and is
/// never refused on a play under it; what [`solve`] wrote is accepted against its own table. Refused: the
/// table's checks, 13, 16, then 18 at the lowest word at fault.
pub fn judge_card(table: &[u32], card: &[u32]) -> Result<(), Refusal> {
    done(|answer| raw::judge_card(table, card, answer)).map(|_| ())
}

/// The maximal sets of both lists, for stations of so many states, ascending. Refused: 2, 5, 15.
pub fn join<'a>(
    states: u32,
    first: &[StateSet],
    second: &[StateSet],
    out: &'a mut [StateSet],
) -> Result<&'a [StateSet], Refusal> {
    let (first, second) = (StateSet::words(first), StateSet::words(second));
    let length = written(|answer| raw::join(states, first, second, StateSet::words_mut(out), answer))?;
    Ok(&out[..length])
}

/// The maximal intersections of one set from each list, ascending. Refused: 2, 5, 15.
pub fn meet<'a>(
    states: u32,
    first: &[StateSet],
    second: &[StateSet],
    out: &'a mut [StateSet],
) -> Result<&'a [StateSet], Refusal> {
    let (first, second) = (StateSet::words(first), StateSet::words(second));
    let length = written(|answer| raw::meet(states, first, second, StateSet::words_mut(out), answer))?;
    Ok(&out[..length])
}

/// Checks a table. Refused: 1, 2, 3, then 4 and 5 word by word, 6, 7, 19.
pub fn check_table(table: &[u32]) -> Result<(), Refusal> {
    done(|answer| raw::check_table(table, answer)).map(|_| ())
}

/// Checks a card. Refused: 13.
pub fn check_card(card: &[u32]) -> Result<CardSize, Refusal> {
    let (cells, observations) = done(|answer| raw::check_card(card, answer))?;
    Ok(CardSize { cells: cells as u32, observations: observations as u32 })
}

/// The table's words, read into fields and written again. Refused: the table's checks, 10.
pub fn rewrite<'a>(table: &[u32], out: &'a mut [u32]) -> Result<&'a [u32], Refusal> {
    let length = written(|answer| raw::rewrite(table, out, answer))?;
    Ok(&out[..length])
}

/// The words of a table with these fields; [`TABLE_WORDS_MAX`](crate::TABLE_WORDS_MAX) are always
/// room enough. Refused: 2, 11, 5, 6, 7, 19, 10.
pub fn write<'a>(fields: &Fields, out: &'a mut [u32]) -> Result<&'a [u32], Refusal> {
    let Fields { states, actions, observations, start, bad, parked_marked, parked, .. } = *fields;
    let (start, bad, parked) = (start.0, bad.0, parked.0);
    let (shown, moves) = (fields.shown.map(|set| set.0), fields.moves.map(|set| set.0));
    let length = written(|answer| {
        raw::write(states, actions, observations, start, bad, parked_marked, parked, &shown, &moves, out, answer)
    })?;
    Ok(&out[..length])
}

/// Writes the card without its idle cells: kept, in their order and renumbered, are the cells reached from
/// the first words by next words that name a cell; where no first word names one, cell 0 counts as reached.
/// On every list of observations the trimmed card gives the same actions and refusals, what [`judge_card`]
/// accepts stays accepted, and trimming again changes nothing. The work room needs
/// [`trim_work_words`](crate::trim_work_words) words, and the card's own length is always room enough.
/// Refused: 13, 8, 9.
pub fn trim<'a>(card: &[u32], work: &mut [u32], out: &'a mut [u32]) -> Result<Trimmed<'a>, Refusal> {
    let (length, cells) = done(|answer| raw::trim(card, work, out, answer))?;
    Ok(Trimmed { cells: cells as u32, card: &out[..length as usize] })
}

/// Writes a card without idle cells as the one KISS2 text that it has (docs/KISS2.md): a reset state, a state for each
/// cell, a line for each observation that can occur; the cells' sets have no place in it. [`kiss_bytes`](crate::kiss_bytes)
/// bytes are enough. [`trim`] takes off idle cells. Refused: 13, 20, 9.
pub fn write_kiss<'a>(card: &[u32], text: &'a mut [u8]) -> Result<&'a [u8], Refusal> {
    let length = done_with_text(|answer| raw::write_kiss(card, text, answer))?.0 as usize;
    Ok(&text[..length])
}

/// Reads such a text back into a card whose sets are all empty: it gives the same action, or the same refusal, as the card
/// that was written for every list of observations, and written again it is the same text.
/// [`KISS_CARD_WORDS_MAX`](crate::KISS_CARD_WORDS_MAX) words are always room enough. Refused: 21, 20, 9.
pub fn read_kiss<'a>(text: &[u8], out: &'a mut [u32]) -> Result<ReadBack<'a>, Refusal> {
    let (length, cells) = done_with_text(|answer| raw::read_kiss(text, out, answer))?;
    Ok(ReadBack { cells: cells as u32, card: &out[..length as usize] })
}

/// Opens a run of the card with the first observation. Refused: 13, 12, 14.
pub fn open(card: &[u32], observation: Observation) -> Result<Move, Refusal> {
    moved(|answer| raw::open(card, observation.0, answer))
}

/// One step of a run, from the cell that the last move entered. Refused: 13, 12, 14; the run then
/// stays in its cell.
pub fn step(card: &[u32], cell: Cell, observation: Observation) -> Result<Move, Refusal> {
    moved(|answer| raw::step(card, cell.0, observation.0, answer))
}

/// Runs the card over the observations: the action after each. Refused: 13, with no observation too;
/// 12 and 14 on the way; 15.
pub fn run<'a>(card: &[u32], observations: &[Observation], out: &'a mut [Action]) -> Result<&'a [Action], Refusal> {
    let observations = Observation::words(observations);
    let taken = written(|answer| raw::run(card, observations, Action::words_mut(out), answer))?;
    Ok(&out[..taken])
}

/// The table's words with the moves of a cell's action. Refused: the table's checks, 13, 16, 12.
pub fn show<'a>(table: &'a [u32], card: &[u32], cell: Cell) -> Result<&'a [u32], Refusal> {
    let (offset, length) = done(|answer| raw::show(table, card, cell.0, answer))?;
    Ok(&table[offset as usize..(offset + length) as usize])
}
