//! Cards as KISS2 text (document 02, change 6) as a plain model, from docs/KISS2.md: the text of a card, the card of a
//! text, the byte where a text departs from the profile, and what becomes of every lent word and byte.

use crate::oracle::{card_words, read_card, Card, Cell, Outcome, MAX_ACTIONS, MAX_CELLS, MAX_OBSERVATIONS};
use std::collections::BTreeSet;
use std::ops::RangeInclusive;

/// b(n): the fewest bits that hold n - 1, at least one.
pub fn bits(n: usize) -> usize {
    (1..).find(|&bits| n - 1 < 1 << bits).expect("some number of bits is enough")
}

/// The lowest cell that no list of observations leads to.
pub fn idle_cell(card: &Card) -> Option<usize> {
    let mut waiting: Vec<usize> = card.first.iter().copied().flatten().collect();
    let mut reached = BTreeSet::new();
    while let Some(cell) = waiting.pop() {
        if reached.insert(cell) {
            waiting.extend(card.cells[cell].next.iter().flatten());
        }
    }
    (0..card.cells.len()).find(|cell| !reached.contains(cell))
}

// ---- Writing -----------------------------------------------------------------------------------

/// The text of a card, one with idle cells too.
pub fn text_of(card: &Card) -> String {
    let (inputs, outputs) = (bits(card.o), bits(card.a));
    let line = |state: &str, observation: usize, named: Option<usize>| {
        named.map_or(String::new(), |cell| {
            let action = card.cells[cell].action;
            format!("{observation:0inputs$b} {state} c{cell:05} {action:0outputs$b}\n")
        })
    };
    let lines = |state: &str, named: &[Option<usize>]| -> String {
        named.iter().enumerate().map(|(observation, &cell)| line(state, observation, cell)).collect()
    };
    let cells = (0..).zip(&card.cells).map(|(number, cell): (usize, &Cell)| lines(&format!("c{number:05}"), &cell.next));
    let head = format!("# actions {:02} observations {:02}\n.i {inputs}\n.o {outputs}\n", card.a, card.o);
    let states = format!(".s {:05}\n.r reset\n", card.cells.len() + 1);
    head + &states + &lines("reset", &card.first) + &cells.collect::<String>() + ".e\n"
}

/// What the writer leaves in a room of so many bytes: 13, 20, 9 in this order.
pub fn write_outcome(words: &[u32], room: usize) -> Outcome {
    let card = match read_card(words) {
        Err(refusal) => return Outcome::refused(refusal.number, refusal.place),
        Ok(card) => card,
    };
    if let Some(cell) = idle_cell(&card) {
        return Outcome::refused(20, cell as u64);
    }
    let text = text_of(&card);
    match text.len() <= room {
        true => Outcome { answer: [0, text.len() as u64, 0], zeroed: 0, written: text.bytes().map(u32::from).collect() },
        false => Outcome::refused(9, text.len() as u64),
    }
}

// ---- Reading -----------------------------------------------------------------------------------

/// The place where a text departs.
pub type Departed = usize;

/// A text, and how far it was followed: the bytes before `at` begin a text of the profile.
struct Reader<'t> {
    text: &'t [u8],
    at: usize,
}

impl Reader<'_> {
    /// The next byte, which must be one that may come here.
    fn byte(&mut self, may_come: impl Fn(u8) -> bool) -> Result<u8, Departed> {
        match self.text.get(self.at) {
            Some(&byte) if may_come(byte) => {
                self.at += 1;
                Ok(byte)
            }
            _ => Err(self.at),
        }
    }

    /// Whether this byte comes next.
    fn comes(&self, byte: u8) -> bool {
        self.text.get(self.at) == Some(&byte)
    }

    fn word(&mut self, word: &str) -> Result<(), Departed> {
        word.bytes().try_for_each(|wanted| self.byte(|byte| byte == wanted).map(|_| ()))
    }

    /// A number of the range, in so many digits. A digit may come where some number of the range begins with the digits
    /// up to it.
    fn number(&mut self, base: usize, width: u32, range: RangeInclusive<usize>) -> Result<usize, Departed> {
        let mut read = 0;
        for left in (0..width).rev() {
            let of = |byte: u8| (byte as char).to_digit(base as u32).map(|digit| read * base + digit as usize);
            // The numbers that begin with these digits are `least` and the weight - 1 above it.
            let weight = base.pow(left);
            let begins = |digits: usize| digits * weight <= *range.end() && *range.start() < (digits + 1) * weight;
            let byte = self.byte(|byte| of(byte).is_some_and(begins))?;
            read = of(byte).expect("it is a digit");
        }
        Ok(read)
    }
}

/// What a text of the profile says: the card with empty sets. An idle cell's action, which no line tells, is 0.
pub fn card_of(text: &[u8]) -> Result<Card, Departed> {
    let mut reader = Reader { text, at: 0 };
    let (a, o, cells) = read_head(&mut reader)?;
    let (inputs, outputs) = (bits(o) as u32, bits(a) as u32);
    // What each state's lines name: `reset` first, then the cells.
    let mut named = vec![vec![None; o]; 1 + cells];
    let mut actions: Vec<Option<usize>> = vec![None; cells];
    // Where the last line stood: its state, and the least observation that can follow in it.
    let (mut state, mut least) = (0, 0);
    while !reader.comes(b'.') {
        // In a later state any observation can come. Behind the last of the last state no line can.
        let lowest = if state < cells { 0 } else { least };
        if lowest == o {
            return Err(reader.at);
        }
        let observation = reader.number(2, inputs, lowest..=o - 1)?;
        reader.word(" ")?;
        state = read_state(&mut reader, if observation < least { state + 1 } else { state }, cells)?;
        reader.word(" c")?;
        let cell = reader.number(10, 5, 0..=cells - 1)?;
        reader.word(" ")?;
        let action = reader.number(2, outputs, actions[cell].map_or(0..=a - 1, |action| action..=action))?;
        reader.word("\n")?;
        (named[state][observation], actions[cell], least) = (Some(cell), Some(action), observation + 1);
    }
    reader.word(".e\n")?;
    if reader.at < text.len() {
        return Err(reader.at);
    }
    let first = named.remove(0);
    let cell = |(action, next): (Option<usize>, _)| Cell { mask: 0, action: action.unwrap_or(0), next };
    Ok(Card { a, o, first, cells: actions.into_iter().zip(named).map(cell).collect() })
}

/// The lines in front: a, o and the number of cells.
fn read_head(reader: &mut Reader) -> Result<(usize, usize, usize), Departed> {
    reader.word("# actions ")?;
    let a = reader.number(10, 2, 1..=MAX_ACTIONS)?;
    reader.word(" observations ")?;
    let o = reader.number(10, 2, 1..=MAX_OBSERVATIONS)?;
    reader.word(&format!("\n.i {}\n.o {}\n.s ", bits(o), bits(a)))?;
    let states = reader.number(10, 5, 2..=MAX_CELLS + 1)?;
    reader.word("\n.r reset\n")?;
    Ok((a, o, states - 1))
}

/// The name of a state from this one up: 0 is `reset`, above it are the cells.
fn read_state(reader: &mut Reader, lowest: usize, cells: usize) -> Result<usize, Departed> {
    if lowest == 0 && reader.comes(b'r') {
        reader.word("reset")?;
        return Ok(0);
    }
    reader.word("c")?;
    Ok(1 + reader.number(10, 5, lowest.saturating_sub(1)..=cells - 1)?)
}

/// What the reader leaves in a room of so many words: 21, 20, 9 in this order.
pub fn read_outcome(text: &[u8], room: usize) -> Outcome {
    let card = match card_of(text) {
        Err(place) => return Outcome::refused(21, place as u64),
        Ok(card) => card,
    };
    if let Some(cell) = idle_cell(&card) {
        return Outcome::refused(20, cell as u64);
    }
    let words = card_words(&card);
    match words.len() <= room {
        true => Outcome { answer: [0, words.len() as u64, card.cells.len() as u64], zeroed: 0, written: words },
        false => Outcome::refused(9, words.len() as u64),
    }
}

#[cfg(test)]
mod tests {
    use super::*;

    /// The same by all numbers of the range, written down: the text departs behind what it has in common with one.
    fn departed(text: &[u8], all: &[String]) -> Result<usize, Departed> {
        let common = |number: &String| number.bytes().zip(text).take_while(|(one, other)| one == *other).count();
        match all.iter().position(|number| text.starts_with(number.as_bytes())) {
            Some(index) => Ok(index),
            None => Err(all.iter().map(common).max().unwrap_or(0)),
        }
    }

    #[test]
    fn numbers_depart_where_no_number_goes_on() {
        for (low, high) in [(0, 0), (0, 9), (1, 8), (1, 1), (7, 13), (10, 19), (19, 120), (99, 100), (0, 999), (998, 999)] {
            let all: Vec<String> = (low..=high).map(|number| format!("{number:03}")).collect();
            for text in (0..=1110).map(|number| format!("{number}")).chain((0..=1110).map(|number| format!("{number:03}"))) {
                let read = Reader { text: text.as_bytes(), at: 0 }.number(10, 3, low..=high);
                assert_eq!(read, departed(text.as_bytes(), &all).map(|index| low + index), "{text} in {low}..={high}");
            }
        }
        for (low, high) in (0..8).flat_map(|high| (0..=high).map(move |low| (low, high))) {
            let all: Vec<String> = (low..=high).map(|number| format!("{number:03b}")).collect();
            for text in ["000", "001", "010", "011", "100", "101", "110", "111", "", "0", "1", "01", "10", "002", "1 1", "2"] {
                let read = Reader { text: text.as_bytes(), at: 0 }.number(2, 3, low..=high);
                assert_eq!(read, departed(text.as_bytes(), &all).map(|index| low + index), "{text} in {low}..={high}");
            }
        }
    }

    #[test]
    fn as_many_bits_as_are_needed() {
        assert_eq!([1, 2, 3, 4, 5, 6, 7, 8].map(bits), [1, 1, 2, 2, 3, 3, 3, 3]);
    }
}
