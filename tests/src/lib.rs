//! The independent second opinion on Kirdanzug, written from documents 01 and 02 and not from the proved
//! code.
//!
//! - `game`, `oracle`: the game, the words, the entries and their refusals, as plain as can be;
//! - `trim`: cards without idle cells, as plain;
//! - `kiss`: cards as KISS2 text, as plain; `tolerant`: a reader of KISS2 that knows the format alone;
//! - `check`: checkers of verdicts by playing and by searching for strategies, of the cells that a card names, and
//!   of a trimmed card;
//! - `finished`: what document 02's change 2 says of all tables with parked states;
//! - `idle`: what its change 5 says of all cards; `kissed`: what its change 6 says of all cards and texts;
//! - `fast`, `fast_trim`, `fast_kiss`: a quick solver, lists, judges, runner, trimmer, writer and reader of KISS2 for the
//!   benchmark;
//! - `gen`: random tables, lists, cards, plays and damage, of texts too;
//! - `stations`, `texts`: the inputs and answers that document 01 itself gives, judged cards, stations with parked
//!   states, stations in which several cells hold the states in question, trimmed cards, and cards as text;
//! - `archive`, `guard`, `stack` (only with the feature `archive`): the proved archive by the raw layer
//!   of the crate in `rust/`, called with guard words around every buffer, and its stack measured.

pub mod check;
pub mod fast;
pub mod fast_kiss;
pub mod fast_trim;
pub mod finished;
pub mod game;
pub mod gen;
pub mod idle;
pub mod kiss;
pub mod kissed;
pub mod oracle;
pub mod run;
pub mod stations;
pub mod texts;
pub mod tolerant;
pub mod trim;

#[cfg(feature = "archive")]
pub mod guard;
#[cfg(feature = "archive")]
pub mod stack;

/// The functions of the proved archive: those of the header, and the harness that only tests call.
#[cfg(feature = "archive")]
pub mod archive {
    pub use kirdanzug::raw::*;

    extern "C" {
        // For comparisons and the benchmark alone; not in the header.
        fn kirdanzug_drive(
            card: *const u32, card_length: usize,
            first: u32, second: u32, third: u32,
            answer: *mut Answer,
        );
    }

    /// A runner opened with the first observation and moved by two more; the answer is the last move's.
    #[inline]
    pub fn drive(card: &[u32], observations: [u32; 3], answer: &mut Answer) {
        let [first, second, third] = observations;
        // Sound, because the slice is valid for its length.
        unsafe { kirdanzug_drive(card.as_ptr(), card.len(), first, second, third, answer) }
    }
}
