//! The archive's functions as they are: plain words, bytes and numbers in, three words of answer out.
//!
//! For tests that compare every lent word, and for a caller that wants nothing in between. None has a
//! precondition beyond valid slices.

use crate::{MOVE_SLOTS, SHOWN_SLOTS};

/// What every function fills: 0 and two values (done), 1 and the round number (no), 2, number and
/// place (refused).
pub type Answer = [u64; 3];

// What include/kirdanzug.h declares. A pointer stands with the length of its buffer in words, of a text in bytes.
extern "C" {
    /// Decides a table.
    pub fn kirdanzug_solve(
        table: *const u32, table_length: usize,
        work: *mut u32, work_length: usize,
        card: *mut u32, card_length: usize,
        answer: *mut Answer,
    );
    /// Whether a set is good for k rounds.
    pub fn kirdanzug_judge(table: *const u32, table_length: usize, mask: u32, k: u32, answer: *mut Answer);
    /// The maximal sets of both lists.
    pub fn kirdanzug_join(
        n: u32,
        first: *const u32, first_length: usize,
        second: *const u32, second_length: usize,
        out: *mut u32, out_length: usize,
        answer: *mut Answer,
    );
    /// The maximal intersections of one set from each list.
    pub fn kirdanzug_meet(
        n: u32,
        first: *const u32, first_length: usize,
        second: *const u32, second_length: usize,
        out: *mut u32, out_length: usize,
        answer: *mut Answer,
    );
    /// Reads a table into fields and writes these again.
    pub fn kirdanzug_rewrite(
        table: *const u32, table_length: usize,
        out: *mut u32, out_length: usize,
        answer: *mut Answer,
    );
    /// The table's checks.
    pub fn kirdanzug_check_table(table: *const u32, table_length: usize, answer: *mut Answer);
    /// The card's check.
    pub fn kirdanzug_check_card(card: *const u32, card_length: usize, answer: *mut Answer);
    /// Writes fields as a table's words.
    pub fn kirdanzug_write(
        n: u32, a: u32, o: u32,
        start: u32, bad: u32, parked_marked: bool, parked: u32,
        shown: *const [u32; SHOWN_SLOTS], moves: *const [u32; MOVE_SLOTS],
        out: *mut u32, out_length: usize,
        answer: *mut Answer,
    );
    /// Opens a run of a card.
    pub fn kirdanzug_open(card: *const u32, card_length: usize, observation: u32, answer: *mut Answer);
    /// One step of a run.
    pub fn kirdanzug_step(card: *const u32, card_length: usize, cell: u32, observation: u32, answer: *mut Answer);
    /// Runs a card over observations.
    pub fn kirdanzug_run(
        card: *const u32, card_length: usize,
        observations: *const u32, observations_length: usize,
        out: *mut u32, out_length: usize,
        answer: *mut Answer,
    );
    /// The move words of a cell's action.
    pub fn kirdanzug_show(
        table: *const u32, table_length: usize,
        card: *const u32, card_length: usize,
        cell: u32, answer: *mut Answer,
    );
    /// Judges a card against a table.
    pub fn kirdanzug_judge_card(
        table: *const u32, table_length: usize,
        card: *const u32, card_length: usize,
        answer: *mut Answer,
    );
    /// Writes a card without its idle cells.
    pub fn kirdanzug_trim(
        card: *const u32, card_length: usize,
        work: *mut u32, work_length: usize,
        out: *mut u32, out_length: usize,
        answer: *mut Answer,
    );
    /// Writes a card as KISS2 text.
    pub fn kirdanzug_write_kiss(
        card: *const u32, card_length: usize,
        text: *mut u8, text_length: usize,
        answer: *mut Answer,
    );
    /// Reads such a text back into a card.
    pub fn kirdanzug_read_kiss(
        text: *const u8, text_length: usize,
        out: *mut u32, out_length: usize,
        answer: *mut Answer,
    );
}

// Each call below is sound because the slices are valid for their lengths and, being Rust
// references, do not overlap where one of them is written. All are inlined: a call costs what the
// archive's function costs.

/// Yes: 0, settling count, cells. No: 1, round number, 0.
#[inline]
pub fn solve(table: &[u32], work: &mut [u32], card: &mut [u32], answer: &mut Answer) {
    unsafe {
        kirdanzug_solve(
            table.as_ptr(), table.len(),
            work.as_mut_ptr(), work.len(),
            card.as_mut_ptr(), card.len(),
            answer,
        )
    }
}

/// 0, 1 (good) or 0 (not good), 0.
#[inline]
pub fn judge(table: &[u32], mask: u32, k: u32, answer: &mut Answer) {
    unsafe { kirdanzug_judge(table.as_ptr(), table.len(), mask, k, answer) }
}

/// 0, length, 0.
#[inline]
pub fn join(n: u32, first: &[u32], second: &[u32], out: &mut [u32], answer: &mut Answer) {
    unsafe {
        kirdanzug_join(
            n,
            first.as_ptr(), first.len(),
            second.as_ptr(), second.len(),
            out.as_mut_ptr(), out.len(),
            answer,
        )
    }
}

/// 0, length, 0.
#[inline]
pub fn meet(n: u32, first: &[u32], second: &[u32], out: &mut [u32], answer: &mut Answer) {
    unsafe {
        kirdanzug_meet(
            n,
            first.as_ptr(), first.len(),
            second.as_ptr(), second.len(),
            out.as_mut_ptr(), out.len(),
            answer,
        )
    }
}

/// 0, length, 0.
#[inline]
pub fn rewrite(table: &[u32], out: &mut [u32], answer: &mut Answer) {
    unsafe { kirdanzug_rewrite(table.as_ptr(), table.len(), out.as_mut_ptr(), out.len(), answer) }
}

/// 0, 0, 0.
#[inline]
pub fn check_table(table: &[u32], answer: &mut Answer) {
    unsafe { kirdanzug_check_table(table.as_ptr(), table.len(), answer) }
}

/// 0, cells, observations.
#[inline]
pub fn check_card(card: &[u32], answer: &mut Answer) {
    unsafe { kirdanzug_check_card(card.as_ptr(), card.len(), answer) }
}

/// 0, length, 0.
#[inline]
#[allow(clippy::too_many_arguments)]
pub fn write(
    n: u32,
    a: u32,
    o: u32,
    start: u32,
    bad: u32,
    parked_marked: bool,
    parked: u32,
    shown: &[u32; SHOWN_SLOTS],
    moves: &[u32; MOVE_SLOTS],
    out: &mut [u32],
    answer: &mut Answer,
) {
    unsafe {
        kirdanzug_write(
            n, a, o,
            start, bad, parked_marked, parked,
            shown, moves,
            out.as_mut_ptr(), out.len(),
            answer,
        )
    }
}

/// 0, cell entered, its action.
#[inline]
pub fn open(card: &[u32], observation: u32, answer: &mut Answer) {
    unsafe { kirdanzug_open(card.as_ptr(), card.len(), observation, answer) }
}

/// 0, cell entered, its action.
#[inline]
pub fn step(card: &[u32], cell: u32, observation: u32, answer: &mut Answer) {
    unsafe { kirdanzug_step(card.as_ptr(), card.len(), cell, observation, answer) }
}

/// 0, observations taken, 0.
#[inline]
pub fn run(card: &[u32], observations: &[u32], out: &mut [u32], answer: &mut Answer) {
    unsafe {
        kirdanzug_run(
            card.as_ptr(), card.len(),
            observations.as_ptr(), observations.len(),
            out.as_mut_ptr(), out.len(),
            answer,
        )
    }
}

/// 0, offset, length.
#[inline]
pub fn show(table: &[u32], card: &[u32], cell: u32, answer: &mut Answer) {
    unsafe { kirdanzug_show(table.as_ptr(), table.len(), card.as_ptr(), card.len(), cell, answer) }
}

/// 0, 0, 0: the card is accepted.
#[inline]
pub fn judge_card(table: &[u32], card: &[u32], answer: &mut Answer) {
    unsafe { kirdanzug_judge_card(table.as_ptr(), table.len(), card.as_ptr(), card.len(), answer) }
}

/// 0, words of the trimmed card, cells kept.
#[inline]
pub fn trim(card: &[u32], work: &mut [u32], out: &mut [u32], answer: &mut Answer) {
    unsafe {
        kirdanzug_trim(
            card.as_ptr(), card.len(),
            work.as_mut_ptr(), work.len(),
            out.as_mut_ptr(), out.len(),
            answer,
        )
    }
}

/// 0, bytes of the text, 0.
#[inline]
pub fn write_kiss(card: &[u32], text: &mut [u8], answer: &mut Answer) {
    unsafe { kirdanzug_write_kiss(card.as_ptr(), card.len(), text.as_mut_ptr(), text.len(), answer) }
}

/// 0, words of the card, its cells.
#[inline]
pub fn read_kiss(text: &[u8], out: &mut [u32], answer: &mut Answer) {
    unsafe { kirdanzug_read_kiss(text.as_ptr(), text.len(), out.as_mut_ptr(), out.len(), answer) }
}
