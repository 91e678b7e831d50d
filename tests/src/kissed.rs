//! What document 02's change 6 and docs/KISS2.md say of all cards and texts, asked of whoever answers calls: the models or
//! the archive.

use crate::finished::Ask;
use crate::idle::Idle;
use crate::kiss;
use crate::oracle::{read_card, Call, Outcome};
use crate::tolerant;

/// How often each property met a case.
#[derive(Default, Clone, Debug)]
pub struct Kissed {
    /// Cards written and read back, and cards refused by 20.
    pub cards: u64,
    pub idle: u64,
    /// Lines compared with what the tolerant reader makes of them.
    pub lines: u64,
    /// Moves and runs on the card written and the card read back: taken, refused by 12, refused by 14.
    pub moves: [u64; 3],
    pub runs: [u64; 3],
    /// Texts with one byte changed: read as another card, refused by 20, by 21 at the byte, by 21 behind it.
    pub changed: [u64; 4],
    /// Beginnings that were continued to a text.
    pub completed: u64,
}

impl Kissed {
    fn counts(&mut self) -> [(&'static str, &mut u64); 14] {
        let ([taken, unknown, never], [run, run_unknown, run_never]) = (&mut self.moves, &mut self.runs);
        let [read, idle_read, at, behind] = &mut self.changed;
        [
            ("cards", &mut self.cards),
            ("idle", &mut self.idle),
            ("lines", &mut self.lines),
            ("moves", taken),
            ("moves by 12", unknown),
            ("moves by 14", never),
            ("runs", run),
            ("runs by 12", run_unknown),
            ("runs by 14", run_never),
            ("changed, read", read),
            ("changed, by 20", idle_read),
            ("changed, by 21 there", at),
            ("changed, by 21 behind", behind),
            ("completed", &mut self.completed),
        ]
    }

    pub fn add(&mut self, part: &Kissed) {
        let mut part = part.clone();
        self.counts().into_iter().zip(part.counts()).for_each(|((_, mine), (_, theirs))| *mine += *theirs);
    }

    /// Each property met its case, but for those that cannot come up here.
    pub fn must_have_all_but(&self, others: &[&str]) {
        for (name, count) in self.clone().counts() {
            assert_eq!(*count == 0, others.contains(&name), "{name}: {count} times, {self:?}");
        }
    }

    /// A card's text and the card that it is read back as; nothing where the card has idle cells. Both rooms are asked for
    /// by 9 and are then just long enough. The card that is read back is the card but for its sets, written again it is
    /// the same text, and that is read as the same words; and whoever knows KISS2 alone gets the same machine.
    pub fn round_trip(&mut self, ask: Ask, card: &[u32]) -> Option<(Vec<u8>, Vec<u32>)> {
        let text = match written(ask, card) {
            Ok(text) => text,
            Err(answer) => {
                assert_eq!(answer[1], 20, "{answer:?} for {card:x?}");
                self.idle += 1;
                return None;
            }
        };
        let back = read(ask, &text).unwrap_or_else(|answer| panic!("{answer:?} for {}", text.escape_ascii()));
        let emptied: Vec<u32> = card.iter().map(|&word| if word >> 28 == 10 { word & !0xFFFF } else { word }).collect();
        assert_eq!(back, emptied, "read back, {card:x?}");
        assert_eq!(written(ask, &back).as_ref(), Ok(&text), "written again, {card:x?}");
        assert_eq!(read(ask, &text).as_ref(), Ok(&back), "read again, {card:x?}");
        self.cards += 1;
        self.lines += same_machine(card, &text);
        Some((text, back))
    }

    /// Both cards by every list of observations, and by some lists in one call each.
    pub fn same_runs(&mut self, ask: Ask, card: &[u32], back: &[u32], lists: &[Vec<u32>]) {
        let mut same = Idle::default();
        same.same_moves(ask, card, back);
        lists.iter().for_each(|list| same.same_runs(ask, card, back, list));
        self.moves = std::array::from_fn(|i| self.moves[i] + same.moves[i]);
        self.runs = std::array::from_fn(|i| self.runs[i] + same.runs[i]);
    }

    /// A text that is read, with one byte changed: refused by 21, if at all, at that byte or later.
    pub fn change(&mut self, ask: Ask, text: &[u8], place: usize, byte: u8) -> Vec<u8> {
        let mut changed = text.to_vec();
        changed[place] = byte;
        if changed == text {
            return changed;
        }
        let count = match ask(Call::ReadKiss { text: &changed, out: 0 }).answer {
            [2, 9, _] => 0,
            [2, 20, _] => 1,
            [2, 21, at] if at == place as u64 => 2,
            [2, 21, at] => {
                assert!(at > place as u64, "changed at {place}, refused at {at}: {}", changed.escape_ascii());
                3
            }
            other => panic!("{other:?} for {}", changed.escape_ascii()),
        };
        self.changed[count] += 1;
        changed
    }

    /// Where a text departs: the bytes before begin some text of the profile, and with the byte there the text departs at it
    /// whatever follows. Cut there it departs too, because it is too short, unless what is left is a whole text.
    pub fn departure(&mut self, ask: Ask, text: &[u8]) {
        let [2, 21, place] = ask(Call::ReadKiss { text, out: 0 }).answer else { return };
        let (place, shown) = (place as usize, text.escape_ascii());
        let whole = completed(&text[..place]).unwrap_or_else(|| panic!("no text begins with the {place} bytes of {shown}"));
        assert!(whole.starts_with(&text[..place]), "{shown}");
        self.completed += 1;
        let mut departs = |text: &[u8]| ask(Call::ReadKiss { text, out: 0 }).answer == [2, 21, place as u64];
        assert_eq!(departs(&text[..place]), place < whole.len(), "cut at {place}: {shown}");
        if place < text.len() {
            let rest = whole.get(place + 1..).unwrap_or(&[]);
            assert!(departs(&text[..=place]) && departs(&[&text[..=place], rest].concat()), "through {place}: {shown}");
        }
    }
}

/// The text, asked for twice: without room, and with just enough.
fn written(ask: Ask, card: &[u32]) -> Result<Vec<u8>, [u64; 3]> {
    let [2, 9, bytes] = ask(Call::WriteKiss { card, text: 0 }).answer else {
        return Err(ask(Call::WriteKiss { card, text: 0 }).answer);
    };
    let Outcome { answer, written, .. } = ask(Call::WriteKiss { card, text: bytes as usize });
    assert_eq!((answer, written.len()), ([0, bytes, 0], bytes as usize), "{card:x?}");
    Ok(written.into_iter().map(|byte| byte as u8).collect())
}

/// The card of a text, likewise.
fn read(ask: Ask, text: &[u8]) -> Result<Vec<u32>, [u64; 3]> {
    let [2, 9, words] = ask(Call::ReadKiss { text, out: 0 }).answer else {
        return Err(ask(Call::ReadKiss { text, out: 0 }).answer);
    };
    let Outcome { answer, written, .. } = ask(Call::ReadKiss { text, out: words as usize });
    let cells = written.first().map_or(0, |head| u64::from(head & 0xFFFF));
    assert_eq!((answer, written.len()), ([0, words, cells], words as usize), "{}", text.escape_ascii());
    Ok(written)
}

/// The tolerant reader's machine is the card's, states, lines and all. How many lines it has.
fn same_machine(card: &[u32], text: &[u8]) -> u64 {
    let card = read_card(card).expect("it was written");
    let text = std::str::from_utf8(text).expect("a text is plain");
    let machine = tolerant::read(text).unwrap_or_else(|error| panic!("{error}: {text}"));
    machine.follows(&card, true).unwrap_or_else(|error| panic!("{error}: {text}"));
    let occur = |named: &[Option<usize>]| named.iter().flatten().count();
    let lines = occur(&card.first) + card.cells.iter().map(|cell| occur(&cell.next)).sum::<usize>();
    assert_eq!((machine.states(), machine.line_count()), (1 + card.cells.len(), lines), "{text}");
    lines as u64
}

/// Bytes that a text may have, the end's first: what follows is then soon over.
const BYTES: &[u8] = b".e\n c0123456789r#actionsobservation";

/// Some text of the profile that begins with these bytes: continued byte by byte, by bytes that the plain reader follows.
/// That it is a text is then said by the plain writer.
pub fn completed(front: &[u8]) -> Option<Vec<u8>> {
    let mut text = front.to_vec();
    loop {
        match kiss::card_of(&text) {
            Ok(card) => return (kiss::text_of(&card).as_bytes() == text).then_some(text),
            Err(place) if place < text.len() => return None,
            Err(_) => {
                let follows = |&&byte: &&u8| kiss::card_of(&[&text, &[byte][..]].concat()).err() != Some(text.len());
                text.push(*BYTES.iter().find(follows)?);
            }
        }
    }
}
