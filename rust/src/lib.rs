//! Kirdanzug from Rust: safety games of imperfect information decided, the controller written down as
//! a card, and the card run. Every function calls one of the proved archive (`libabi.a`, x86-64),
//! which the build script finds and links.
//!
//! docs/FORMAT.md has the game and the words of tables and cards, docs/LIBRARY.md a whole caller. An
//! observation is what the bench calls a reading. The functions lend buffers and allocate nothing; the
//! crate needs no standard library.
//!
//! Numbers of states, actions, observations and cells have types of their own. A step takes a cell,
//! then an observation:
//!
//! ```
//! use kirdanzug::{step, Cell, Observation, Refusal};
//! // The card of station A.
//! let card = [0x80210002, 0x90000000, 0xA0000001, 0xB0000001, 0xA0100002, 0xB0000000];
//! let moved = step(&card, Cell(0), Observation(0))?;
//! assert_eq!((moved.cell.0, moved.action.0), (1, 1));
//! # Ok::<(), Refusal>(())
//! ```
//!
//! In the other order it does not compile:
//!
//! ```compile_fail
//! use kirdanzug::{step, Cell, Observation, Refusal};
//! let card = [0x80210002, 0x90000000, 0xA0000001, 0xB0000001, 0xA0100002, 0xB0000000];
//! let moved = step(&card, Observation(0), Cell(0))?;
//! # Ok::<(), Refusal>(())
//! ```
#![no_std]
#![deny(missing_docs)]

mod calls;
mod fields;
mod numbers;
pub mod raw;
mod refusal;

pub use calls::{
    check_card, check_table, join, judge, judge_card, meet, open, read_kiss, rewrite, run, show, solve, step, trim,
    write, write_kiss, CardSize, Move, ReadBack, Trimmed, Verdict,
};
pub use fields::Fields;
pub use numbers::{Action, Cell, Observation, State, StateSet};
pub use refusal::Refusal;

/// This crate's version, which is the header's.
pub const VERSION: &str = env!("CARGO_PKG_VERSION");

/// The most states of a station.
pub const MAX_STATES: usize = 12;
/// The most actions of a station.
pub const MAX_ACTIONS: usize = 8;
/// The most observations of a station.
pub const MAX_OBSERVATIONS: usize = 8;
/// The most cells of a card.
pub const MAX_CELLS: usize = 4096;
/// The most rounds that [`judge`] is asked for.
pub const MAX_ROUNDS: u32 = 4;
/// The slots of [`Fields`] for what the observations are shown by.
pub const SHOWN_SLOTS: usize = MAX_OBSERVATIONS;
/// The slots of [`Fields`] for successors.
pub const MOVE_SLOTS: usize = MAX_ACTIONS * MAX_STATES;
/// Words that are enough for every table, one that marks parked states too.
pub const TABLE_WORDS_MAX: usize = table_words(MAX_STATES, MAX_ACTIONS, MAX_OBSERVATIONS) + 1;
/// Words that are enough for every card that [`solve`] writes: 924 cells and 8 observations.
pub const CARD_WORDS_MAX: usize = card_words(924, MAX_OBSERVATIONS);
/// The words of work that are enough for every table.
pub const WORK_WORDS_MAX: usize = work_words(MAX_STATES);
/// The words of work that are enough to [`trim`] every card.
pub const TRIM_WORK_WORDS_MAX: usize = trim_work_words(MAX_CELLS);

/// The bytes of the longest KISS2 text: 4,096 cells, 8 observations, 8 actions, and all can occur everywhere.
pub const KISS_BYTES_MAX: usize = kiss_bytes(MAX_CELLS, MAX_OBSERVATIONS, MAX_ACTIONS);
/// Words that are enough for every card that [`read_kiss`] reads: 4,096 cells and 8 observations.
pub const KISS_CARD_WORDS_MAX: usize = card_words(MAX_CELLS, MAX_OBSERVATIONS);

/// The stack that is enough for a call of any function of the archive but [`write_kiss`] and [`read_kiss`], in bytes.
pub const STACK_BYTES: usize = 12_032;
/// The same for [`write_kiss`], which keeps a mark for each of 4,096 cells there.
pub const WRITE_KISS_STACK_BYTES: usize = 24_576;
/// The same for [`read_kiss`], which keeps the words of a whole card and these marks there.
pub const READ_KISS_STACK_BYTES: usize = 196_608;
/// The same for what runs a card: [`check_card`], [`open`], [`step`], [`run`] and [`show`].
pub const RUN_STACK_BYTES: usize = 384;

/// The words of a table that marks no parked states; one that does has one more.
pub const fn table_words(states: usize, actions: usize, observations: usize) -> usize {
    3 + observations + actions * states
}

/// The words of a card.
pub const fn card_words(cells: usize, observations: usize) -> usize {
    1 + observations + cells * (1 + observations)
}

/// The words of work that [`solve`] needs for so many states.
pub const fn work_words(states: usize) -> usize {
    4 << states
}

/// The words of work that [`trim`] needs for a card of so many cells.
pub const fn trim_work_words(cells: usize) -> usize {
    cells
}

/// The bits of an input or output in KISS2 text for so many observations or actions: the fewest that hold the highest of
/// their numbers, at least one.
const fn kiss_bits(count: usize) -> usize {
    match count {
        0..=2 => 1,
        3..=4 => 2,
        _ => 3,
    }
}

/// Bytes that are enough for the KISS2 text of a card of so many cells, observations and actions: what it has where every
/// observation can occur in every cell.
pub const fn kiss_bytes(cells: usize, observations: usize, actions: usize) -> usize {
    let line = 15 + kiss_bits(observations) + kiss_bits(actions);
    60 + observations * line + cells * observations * (line + 1)
}
