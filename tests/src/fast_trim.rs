//! A quick independent trimmer of cards (document 02, change 5), for the benchmark. Each cell is taken up once.
//! Where no cell is idle the card is copied as it is. The check is that of the quick judge of cards.

use crate::fast::{by_length, wrong_row, wrong_target, Rows, NO_CELL};

/// The most cells.
const CELLS: usize = 4096;
/// How many numbers a first or next word has room for: arrays of this length are looked up without a test.
const NUMBERS: usize = 1 << 16;

/// Number and place of a refusal.
type Refused = (u32, usize);

/// Trims cards, with arrays made once and used for many.
pub struct Trimmer {
    /// Which cells are reached; "cannot occur" always counts so.
    reached: [u8; NUMBERS],
    /// First the reached cells whose next words were not looked at yet, then the kept cells in order.
    list: [u16; CELLS],
    /// The new numbers of the kept cells; "cannot occur" keeps its own.
    numbers: [u16; NUMBERS],
}

impl Default for Trimmer {
    fn default() -> Trimmer {
        Trimmer::new()
    }
}

impl Trimmer {
    pub fn new() -> Trimmer {
        let (mut reached, mut numbers) = ([0; NUMBERS], [0; NUMBERS]);
        reached[NO_CELL as usize] = 1;
        numbers[NO_CELL as usize] = NO_CELL as u16;
        Trimmer { reached, list: [0; CELLS], numbers }
    }

    /// Trims a card to the front of `out`: its words and cells, or number and place of a refusal. The work room is
    /// treated as document 02 says: refused where it is short, and its first words 0 afterwards.
    pub fn trim(&mut self, card: &[u32], work: &mut [u32], out: &mut [u32]) -> Result<(usize, usize), Refused> {
        let (cells, o, a) = Rows::head(card)?;
        by_length!(o, check, card, cells, a as usize)?;
        work.get_mut(..cells).ok_or((8, cells))?.fill(0);
        by_length!(o, Self::trim_rows, self, card, out)
    }

    fn trim_rows<const PART: usize>(&mut self, card: &[u32], out: &mut [u32]) -> Result<(usize, usize), Refused> {
        let (front, rows) = parts::<PART>(card);
        let kept = self.reach(front, rows);
        let length = (1 + kept) * PART;
        let out = out.get_mut(..length).ok_or((9, length))?;
        match kept == rows.len() {
            true => out.copy_from_slice(card),
            false => self.write(front, rows, out),
        }
        Ok((length, kept))
    }

    /// Finds the reached cells; how many there are.
    fn reach<const PART: usize>(&mut self, front: &[u32; PART], rows: &[[u32; PART]]) -> usize {
        self.reached[..rows.len().next_multiple_of(8)].fill(0);
        let (mut waiting, mut kept) = (self.take_up(0, front), 0);
        if waiting == 0 {
            self.reached[0] = 1;
            (self.list[0], waiting) = (0, 1);
        }
        while waiting > 0 {
            kept += 1;
            waiting -= 1;
            waiting = self.take_up(waiting, &rows[self.list[waiting % CELLS] as usize]);
        }
        kept
    }

    /// Refusal 20 of KISS2 text (change 6): the lowest cell that is not reached, cell 0 where the first words name none.
    pub(crate) fn all_reached<const PART: usize>(
        &mut self,
        front: &[u32; PART],
        rows: &[[u32; PART]],
    ) -> Result<(), Refused> {
        if front[1..].iter().all(|word| word & NO_CELL == NO_CELL) {
            return Err((20, 0));
        }
        match self.reach(front, rows) == rows.len() {
            true => Ok(()),
            false => Err((20, self.reached.iter().position(|&mark| mark == 0).expect("a cell is not reached"))),
        }
    }

    /// Puts the cells that a row's words name for the first time behind those that wait; how many wait then.
    #[inline(always)]
    fn take_up<const PART: usize>(&mut self, mut waiting: usize, row: &[u32; PART]) -> usize {
        for word in &row[1..] {
            let cell = *word as u16;
            if self.reached[cell as usize] == 0 {
                self.reached[cell as usize] = 1;
                self.list[waiting % CELLS] = cell;
                waiting += 1;
            }
        }
        waiting
    }

    /// Writes the kept rows, as many as there is room for.
    fn write<const PART: usize>(&mut self, front: &[u32; PART], rows: &[[u32; PART]], out: &mut [u32]) {
        self.number(rows.len());
        let (out, _) = out.as_chunks_mut::<PART>();
        let (new_front, out) = out.split_first_mut().expect("there is room for the front");
        self.renumber(front, new_front);
        new_front[0] = front[0] & 0xFFFF_0000 | out.len() as u32;
        for (new, &cell) in out.iter_mut().zip(&self.list) {
            self.renumber(&rows[cell as usize], new);
        }
    }

    /// Lists and numbers the kept cells, eight at a time, since often none of them is kept.
    fn number(&mut self, cells: usize) {
        let (eights, _) = self.reached[..cells.next_multiple_of(8)].as_chunks::<8>();
        let mut kept = 0;
        for (i, eight) in eights.iter().enumerate() {
            let mut marks = u64::from_le_bytes(*eight);
            while marks != 0 {
                let cell = 8 * i + marks.trailing_zeros() as usize / 8;
                self.numbers[cell] = kept as u16;
                self.list[kept % CELLS] = cell as u16;
                kept += 1;
                marks &= marks - 1;
            }
        }
    }

    #[inline(always)]
    fn renumber<const PART: usize>(&self, old: &[u32; PART], new: &mut [u32; PART]) {
        new[0] = old[0];
        for r in 1..PART {
            new[r] = old[r] & 0xFFFF_0000 | u32::from(self.numbers[old[r] as u16 as usize]);
        }
    }
}

/// The head with the first words, and the rows of the cells.
#[inline(always)]
pub(crate) fn parts<const PART: usize>(card: &[u32]) -> (&[u32; PART], &[[u32; PART]]) {
    card.as_chunks::<PART>().0.split_first().expect("a card has a front")
}

/// Refusal 13 at a word, as the quick judge of cards finds it; head and length are right.
pub(crate) fn check<const PART: usize>(card: &[u32], cells: usize, a: usize) -> Result<(), Refused> {
    let (front, rows) = parts::<PART>(card);
    if let Some(place) = wrong_target(&front[1..], 0x9000_0000, cells) {
        return Err((13, 1 + place));
    }
    match wrong_row::<PART>(rows.as_flattened(), cells, a) {
        Some(place) => Err((13, PART + place)),
        None => Ok(()),
    }
}
