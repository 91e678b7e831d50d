//! The numbered refusals.

use core::fmt;

/// A refused call: which check failed, and where. The call changed none of the buffers lent to it
/// (9 alone, of solve and of trim, sets the work words to 0).
#[derive(Clone, Copy, PartialEq, Eq, Debug)]
pub struct Refusal {
    number: u32,
    place: u64,
}

/// What is wrong and what to do about it, by number from 1 (docs/FORMAT.md).
const TEXTS: [&str; 21] = [
    "the table has no word: pass the table's words",
    "the table's head (its kind, its spare bits, or the number of states, actions or readings) or the lists' width is \
     out of its limits: correct it, and count states, actions and readings again",
    "the table does not have 3 + o + a·n words, and one more where it marks parked states; the place is the words \
     given: a word is missing or too many, or a number in the head or its bit 24 is wrong",
    "a word of the table has another kind, index or spare bit than its place asks for: put the words in order; the \
     upper half of a word must be that of its place",
    "a mask names a state from n up: take the state out of the mask, or raise n",
    "there is no start state: name one",
    "a state, the place, shows no reading: give the state to a reading",
    "the work room is shorter than 4·2^n words, or for trim than the card has cells: lend as many words as the place \
     says",
    "the room for the card or the text that is written is too short (in solve the answer is yes): lend as many words, \
     for a text bytes, as the place says, and call again",
    "the room for the table that is written is too short: lend as many words as the place says",
    "an unused slot of the fields that are written is not 0: clear it, or raise the number that makes it used (the \
     parked states: mark them)",
    "the card has no such cell or no such reading: this is not the card of the station, or a number was mixed up; \
     where it is 65535, the opening was refused, so begin again",
    "the words are no card: take the card again from where it came",
    "the card says that this reading, the place, cannot occur here: the station is not where the card thinks, so \
     stop, and look at sensor and table",
    "the room for the list, or for the actions of the run, is too short: lend as many words as the place says",
    "the card's number of actions or readings is not the table's: take the table that the card was made for",
    "the plain judge takes at most 4 rounds: ask for fewer",
    "this word of the card, the place, does not hold for the table (the states in question are not all in the cell \
     named; or the cell's set has a bad state, one from n up, or one where the action is blocked): correct it, or the \
     set of the cell that it names",
    "a parked state, the place, has a successor under some action: take its moves out, or don't park it",
    "no sequence of readings leads to a cell of the card, the place (cell 0 where no first word names a cell): trim the \
     card before it is written; a text that is read has idle states",
    "the text is not the KISS2 text of any card; the place is the byte where it first departs, its length where it is \
     cut short: look at that byte, and at docs/KISS2.md for what may stand there",
];

impl Refusal {
    /// 1: the table has no word.
    pub const NO_WORDS: u32 = 1;
    /// 2: the table's head, or a list's width, is wrong.
    pub const HEAD: u32 = 2;
    /// 3: the table's length is wrong.
    pub const LENGTH: u32 = 3;
    /// 4: a word has the upper half of another place.
    pub const WORD: u32 = 4;
    /// 5: a mask names a state from n up.
    pub const MASK: u32 = 5;
    /// 6: no start state.
    pub const NO_START: u32 = 6;
    /// 7: a state shows no observation.
    pub const UNSHOWN: u32 = 7;
    /// 8: the work room is short.
    pub const WORK_ROOM: u32 = 8;
    /// 9: the room for a card or a text is short; of solve, on a yes alone.
    pub const CARD_ROOM: u32 = 9;
    /// 10: the room for a table is short.
    pub const TABLE_ROOM: u32 = 10;
    /// 11: an unused slot is not 0.
    pub const UNUSED_SLOT: u32 = 11;
    /// 12: a cell or an observation that the card does not have.
    pub const NUMBER: u32 = 12;
    /// 13: the words are no card.
    pub const CARD: u32 = 13;
    /// 14: the observation cannot occur here. Stop the robot.
    pub const CANNOT_OCCUR: u32 = 14;
    /// 15: the room for a list or for actions is short.
    pub const LIST_ROOM: u32 = 15;
    /// 16: the card is not of this table.
    pub const OTHER_TABLE: u32 = 16;
    /// 17: the judge was asked for more than 4 rounds.
    pub const ROUNDS: u32 = 17;
    /// 18: a word of the card does not hold for the table.
    pub const UNCERTIFIED: u32 = 18;
    /// 19: a parked state has a successor.
    pub const PARKED_MOVES: u32 = 19;
    /// 20: a cell of the card that is written or read as KISS2 is never reached.
    pub const IDLE_CELL: u32 = 20;
    /// 21: the text is not the KISS2 text of any card.
    pub const TEXT: u32 = 21;

    /// The refusal of a call that writes and reads no KISS2. It has no number but 1 to 19.
    pub(crate) fn new(number: u64, place: u64) -> Refusal {
        assert!((1..=u64::from(Refusal::PARKED_MOVES)).contains(&number), "the archive has no refusal {number}");
        Refusal { number: number as u32, place }
    }

    /// The refusal of a call that does. It has no number but 1 to 21.
    pub(crate) fn new_of_text(number: u64, place: u64) -> Refusal {
        assert!((1..=TEXTS.len() as u64).contains(&number), "the archive has no refusal {number}");
        Refusal { number: number as u32, place }
    }

    /// The number of the check that failed, 1 to 21.
    pub fn number(&self) -> u32 {
        self.number
    }

    /// Where: a word, a byte, a state, a cell, a number, or the words or bytes needed, as docs/FORMAT.md says for each
    /// number.
    pub fn place(&self) -> u64 {
        self.place
    }

    /// What is wrong and what to do about it.
    pub fn text(&self) -> &'static str {
        TEXTS[self.number as usize - 1]
    }
}

impl fmt::Display for Refusal {
    fn fmt(&self, f: &mut fmt::Formatter) -> fmt::Result {
        write!(f, "refused by {} at {}: {}", self.number, self.place, self.text())
    }
}

impl core::error::Error for Refusal {}

#[cfg(test)]
mod tests {
    use super::*;
    extern crate std;
    use std::string::ToString;

    #[test]
    fn every_number_has_a_text_of_its_own() {
        for number in 1..=19 {
            let text = Refusal::new(number, 0).text();
            assert_eq!(text, Refusal::new_of_text(number, 0).text());
            assert!(text.contains(": "), "{text} does not say what to do");
            assert_eq!(TEXTS.iter().filter(|&&other| other == text).count(), 1, "{text}");
        }
    }

    #[test]
    fn shown_with_number_and_place() {
        let shown = Refusal::new(6, 1).to_string();
        assert_eq!(shown, "refused by 6 at 1: there is no start state: name one");
    }

    #[test]
    #[should_panic(expected = "no refusal 20")]
    fn no_other_number() {
        Refusal::new(20, 0);
    }

    #[test]
    fn numbers_of_kiss2_have_a_text_of_their_own() {
        for number in 20..=21 {
            let text = Refusal::new_of_text(number, 0).text();
            assert!(text.contains(": "), "{text} does not say what to do");
            assert_eq!(TEXTS.iter().filter(|&&other| other == text).count(), 1, "{text}");
        }
    }

    #[test]
    #[should_panic(expected = "no refusal 22")]
    fn no_other_number_of_kiss2() {
        Refusal::new_of_text(22, 0);
    }
}
