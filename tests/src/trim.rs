//! Cards without idle cells (document 02, change 5) as a plain model: which cells are reached, the trimmed card,
//! and what becomes of every lent word.

use crate::oracle::{card_words, read_card, Card, Cell, Outcome};
use std::collections::BTreeSet;

/// The cells that first words name; cell 0 where they name none.
fn entered(card: &Card) -> Vec<usize> {
    let named: Vec<usize> = card.first.iter().copied().flatten().collect();
    match named.is_empty() {
        true => vec![0],
        false => named,
    }
}

/// The reached cells: these, and whatever a next word of a reached cell names.
pub fn reached(card: &Card) -> BTreeSet<usize> {
    let mut waiting = entered(card);
    let mut reached = BTreeSet::new();
    while let Some(cell) = waiting.pop() {
        if reached.insert(cell) {
            waiting.extend(card.cells[cell].next.iter().flatten());
        }
    }
    reached
}

/// The card of the reached cells, in their order. A cell's new number is how many of them are below it.
pub fn trimmed(card: &Card) -> Card {
    let kept: Vec<usize> = reached(card).into_iter().collect();
    let number = |cell: usize| kept.partition_point(|&other| other < cell);
    let renumbered = |named: &[Option<usize>]| named.iter().map(|cell| cell.map(number)).collect();
    let cell = |&cell: &usize| {
        let Cell { mask, action, ref next } = card.cells[cell];
        Cell { mask, action, next: renumbered(next) }
    };
    Card { a: card.a, o: card.o, first: renumbered(&card.first), cells: kept.iter().map(cell).collect() }
}

/// Trim's outcome for rooms of these lengths: 13, 8, 9 in this order.
pub fn outcome(words: &[u32], work: usize, room: usize) -> Outcome {
    let card = match read_card(words) {
        Err(refusal) => return Outcome::refused(refusal.number, refusal.place),
        Ok(card) => card,
    };
    let zeroed = card.cells.len();
    if work < zeroed {
        return Outcome::refused(8, zeroed as u64);
    }
    let card = trimmed(&card);
    let words = card_words(&card);
    let (answer, written) = match words.len() <= room {
        true => ([0, words.len() as u64, card.cells.len() as u64], words),
        false => ([2, 9, words.len() as u64], Vec::new()),
    };
    Outcome { answer, zeroed, written }
}
