//! A quick independent writer and reader of cards as KISS2 text (docs/KISS2.md), for the benchmark. The check of a card is
//! that of the quick judge of cards, and the reached cells are found as the quick trimmer finds them. The reader goes over
//! the text once, a field at a time; the digits of a field are only looked at one by one where the field is wrong.

use crate::fast::{by_length, Rows, NO_CELL};
use crate::fast_trim::{check, parts, Trimmer};

/// The most words of a card.
const WORDS: usize = 4097 * 9;
/// The bytes in front of the lines: a and o, the directives.
const HEAD: usize = 57;
const END: &[u8] = b".e\n";

/// Number and place of a refusal.
type Refused = (u32, usize);

/// Writes and reads texts, with arrays made once and used for many.
pub struct Kiss {
    reach: Box<Trimmer>,
    /// The card that is read.
    words: Vec<u32>,
}

impl Default for Kiss {
    fn default() -> Kiss {
        Kiss::new()
    }
}

fn bits(n: usize) -> usize {
    match n {
        0..=2 => 1,
        3..=4 => 2,
        _ => 3,
    }
}

impl Kiss {
    pub fn new() -> Kiss {
        Kiss { reach: Box::new(Trimmer::new()), words: vec![0; WORDS] }
    }

    /// Writes a card's text to the front of `text`: its bytes, or number and place of a refusal.
    pub fn write(&mut self, card: &[u32], text: &mut [u8]) -> Result<usize, Refused> {
        let (cells, o, a) = Rows::head(card)?;
        by_length!(o, check, card, cells, a as usize)?;
        by_length!(o, Self::write_rows, self, card, a as usize, text)
    }

    fn write_rows<const PART: usize>(&mut self, card: &[u32], a: usize, text: &mut [u8]) -> Result<usize, Refused> {
        let (front, rows) = parts::<PART>(card);
        self.reach.all_reached(front, rows)?;
        let (inputs, outputs) = (bits(PART - 1), bits(a));
        let short = inputs + outputs + 15;
        let length = HEAD + lines(front) * short + rows.iter().map(lines).sum::<usize>() * (short + 1) + END.len();
        let out = text.get_mut(..length).ok_or((9, length))?;
        let (head, mut out) = out.split_at_mut(HEAD);
        write_head(head, a, PART - 1, rows.len());
        let action = |cell: usize| rows[cell][0] >> 20 & 15;
        for (r, cell) in named(front) {
            let (line, rest) = out.split_at_mut(short);
            write_bits(&mut line[..inputs], r);
            line[inputs..inputs + 7].copy_from_slice(b" reset ");
            line[inputs + 7..inputs + 14].copy_from_slice(&name(cell, b' '));
            write_bits(&mut line[inputs + 14..][..outputs], action(cell));
            line[short - 1] = b'\n';
            out = rest;
        }
        for (number, row) in rows.iter().enumerate() {
            let state = name(number, b' ');
            for (r, cell) in named(row) {
                let (line, rest) = out.split_at_mut(short + 1);
                write_bits(&mut line[..inputs], r);
                line[inputs] = b' ';
                line[inputs + 1..inputs + 8].copy_from_slice(&state);
                line[inputs + 8..inputs + 15].copy_from_slice(&name(cell, b' '));
                write_bits(&mut line[inputs + 15..][..outputs], action(cell));
                line[short] = b'\n';
                out = rest;
            }
        }
        out.copy_from_slice(END);
        Ok(length)
    }

    /// Reads a text to the front of `out`: the card's words and cells, or number and place of a refusal.
    pub fn read(&mut self, text: &[u8], out: &mut [u32]) -> Result<(usize, usize), Refused> {
        let (cells, o) = read_card(text, &mut self.words).map_err(|place| (21, place))?;
        let length = (1 + cells) * (1 + o);
        by_length!(o, Self::all_reached, self, length)?;
        out.get_mut(..length).ok_or((9, length))?.copy_from_slice(&self.words[..length]);
        Ok((length, cells))
    }

    fn all_reached<const PART: usize>(&mut self, length: usize) -> Result<(), Refused> {
        let (front, rows) = parts::<PART>(&self.words[..length]);
        self.reach.all_reached(front, rows)
    }
}

/// How many lines a row of the card has.
#[inline(always)]
fn lines<const PART: usize>(row: &[u32; PART]) -> usize {
    row[1..].iter().filter(|&word| word & NO_CELL != NO_CELL).count()
}

/// The observations of a row that can occur, each with the cell named.
#[inline(always)]
fn named<const PART: usize>(row: &[u32; PART]) -> impl Iterator<Item = (u32, usize)> + '_ {
    let cell = |(r, &word): (u32, &u32)| (word & NO_CELL != NO_CELL).then_some((r, (word & NO_CELL) as usize));
    (0..).zip(&row[1..]).filter_map(cell)
}

/// The name of a cell, with the byte behind it.
#[inline(always)]
fn name(cell: usize, behind: u8) -> [u8; 7] {
    let digit = |weight: u32| b'0' + (cell as u32 / weight % 10) as u8;
    [b'c', b'0', digit(1000), digit(100), digit(10), digit(1), behind]
}

#[inline(always)]
fn write_bits(out: &mut [u8], number: u32) {
    let width = out.len();
    for (i, byte) in out.iter_mut().enumerate() {
        *byte = b'0' + (number >> (width - 1 - i) & 1) as u8;
    }
}

fn write_head(head: &mut [u8], a: usize, o: usize, cells: usize) {
    head.copy_from_slice(b"# actions 00 observations 00\n.i 0\n.o 0\n.s 00000\n.r reset\n");
    let digit = |number: usize| b'0' + (number % 10) as u8;
    (head[11], head[27]) = (digit(a), digit(o));
    (head[32], head[37]) = (digit(bits(o)), digit(bits(a)));
    for (i, weight) in [1000, 100, 10, 1].into_iter().enumerate() {
        head[43 + i] = digit((cells + 1) / weight);
    }
}

// ---- Reading -----------------------------------------------------------------------------------

/// A text, and how far it was read. Errors are places.
struct Cursor<'t> {
    text: &'t [u8],
    at: usize,
}

impl<'t> Cursor<'t> {
    #[inline(always)]
    fn word<const LENGTH: usize>(&mut self, word: &[u8; LENGTH]) -> Result<(), usize> {
        match self.text.get(self.at..self.at + LENGTH) {
            Some(bytes) if bytes == word => {
                self.at += LENGTH;
                Ok(())
            }
            _ => Err(self.departure(word)),
        }
    }

    /// The first byte that is not the word's.
    #[cold]
    fn departure(&self, word: &[u8]) -> usize {
        let same = self.text[self.at..].iter().zip(word).take_while(|(one, other)| one == other);
        self.at + same.count()
    }

    /// A number from `low` to `high` in WIDTH digits.
    #[inline(always)]
    fn number<const BASE: usize, const WIDTH: usize>(&mut self, low: usize, high: usize) -> Result<usize, usize> {
        let Some(Ok(digits)) = self.text.get(self.at..self.at + WIDTH).map(<&[u8; WIDTH]>::try_from) else {
            return Err(self.digits(BASE, WIDTH, low, high));
        };
        let (mut value, mut most) = (0, 0);
        for digit in digits {
            let digit = digit.wrapping_sub(b'0');
            most = digit.max(most);
            value = BASE * value + digit as usize;
        }
        if most as usize >= BASE || value < low || value > high {
            return Err(self.digits(BASE, WIDTH, low, high));
        }
        self.at += WIDTH;
        Ok(value)
    }

    #[inline(always)]
    fn decimal<const WIDTH: usize>(&mut self, low: usize, high: usize) -> Result<usize, usize> {
        self.number::<10, WIDTH>(low, high)
    }

    #[inline(always)]
    fn binary<const WIDTH: usize>(&mut self, low: usize, high: usize) -> Result<usize, usize> {
        self.number::<2, WIDTH>(low, high)
    }

    /// The digit with which a wrong field can no longer be a number of the range: the digits up to it are neither those of
    /// the lowest, nor of the highest, nor of one between.
    #[cold]
    fn digits(&self, base: usize, width: usize, low: usize, high: usize) -> usize {
        let (mut value, mut weight) = (0, base.pow(width as u32));
        for (place, byte) in self.text.iter().enumerate().skip(self.at).take(width) {
            let digit = byte.wrapping_sub(b'0') as usize;
            weight /= base;
            value = base * value + digit;
            if digit >= base || value > high / weight || value < low / weight {
                return place;
            }
        }
        self.text.len()
    }
}

/// Reads a text of the profile into the front of `words`: the number of cells and of observations, or the place where the
/// text departs. The word of a cell that no line enters is left 0.
fn read_card(text: &[u8], words: &mut [u32]) -> Result<(usize, usize), usize> {
    let cursor = &mut Cursor { text, at: 0 };
    cursor.word(b"# actions ")?;
    let a = cursor.decimal::<2>(1, 8)?;
    cursor.word(b" observations ")?;
    let o = cursor.decimal::<2>(1, 8)?;
    cursor.word(b"\n.i ")?;
    cursor.decimal::<1>(bits(o), bits(o))?;
    cursor.word(b"\n.o ")?;
    cursor.decimal::<1>(bits(a), bits(a))?;
    cursor.word(b"\n.s ")?;
    let cells = cursor.decimal::<5>(2, 4097)? - 1;
    cursor.word(b"\n.r reset\n")?;
    let words = &mut words[..(1 + cells) * (1 + o)];
    blank(words, cells, o);
    words[0] = 0x8000_0000 | (a << 20 | o << 16 | cells) as u32;
    let read_lines = match (bits(o), bits(a)) {
        (1, 1) => read_lines::<1, 1>,
        (1, 2) => read_lines::<1, 2>,
        (1, _) => read_lines::<1, 3>,
        (2, 1) => read_lines::<2, 1>,
        (2, 2) => read_lines::<2, 2>,
        (2, _) => read_lines::<2, 3>,
        (_, 1) => read_lines::<3, 1>,
        (_, 2) => read_lines::<3, 2>,
        _ => read_lines::<3, 3>,
    };
    read_lines(cursor, words, a, o, cells)?;
    cursor.word(b".e\n")?;
    match cursor.at == text.len() {
        true => Ok((cells, o)),
        false => Err(cursor.at),
    }
}

/// A card in which nothing can occur, and no cell has a word.
fn blank(words: &mut [u32], cells: usize, o: usize) {
    for r in 0..o {
        words[1 + r] = 0x9000_0000 | (r as u32) << 16 | NO_CELL;
    }
    let row: [u32; 9] = std::array::from_fn(|i| match i {
        0 => 0,
        _ => 0xB000_0000 | (i as u32 - 1) << 16 | NO_CELL,
    });
    for cell in 1..=cells {
        words[cell * (1 + o)..][..1 + o].copy_from_slice(&row[..1 + o]);
    }
}

/// The lines, up to the point that begins `.e`.
fn read_lines<const INPUTS: usize, const OUTPUTS: usize>(
    cursor: &mut Cursor,
    words: &mut [u32],
    a: usize,
    o: usize,
    cells: usize,
) -> Result<(), usize> {
    // The state of the last line (0 is reset, above it are the cells) and the least observation that can follow in it.
    let (mut state, mut least) = (0, 0);
    while cursor.text.get(cursor.at) != Some(&b'.') {
        let lowest = if state < cells { 0 } else { least };
        if lowest == o {
            return Err(cursor.at);
        }
        let observation = cursor.binary::<INPUTS>(lowest, o - 1)?;
        let from = state + usize::from(observation < least);
        if from == 0 && cursor.text.get(cursor.at + 1) == Some(&b'r') {
            cursor.word(b" reset c")?;
        } else {
            cursor.word(b" c")?;
            state = 1 + cursor.decimal::<5>(from.saturating_sub(1), cells - 1)?;
            cursor.word(b" c")?;
        }
        let cell = cursor.decimal::<5>(0, cells - 1)?;
        cursor.word(b" ")?;
        let own = &mut words[(1 + cell) * (1 + o)];
        let known = (*own >> 20 & 15) as usize;
        let (low, high) = if *own == 0 { (0, a - 1) } else { (known, known) };
        *own = 0xA000_0000 | (cursor.binary::<OUTPUTS>(low, high)? as u32) << 20;
        cursor.word(b"\n")?;
        let named = &mut words[state * (1 + o) + 1 + observation];
        *named = *named & 0xFFFF_0000 | cell as u32;
        least = observation + 1;
    }
    Ok(())
}
