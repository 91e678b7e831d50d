//! Numbers of four kinds, each with a type of its own, and sets of states.

use core::fmt;
use core::slice::{from_raw_parts, from_raw_parts_mut};

/// A type over `u32` that lies in memory as one word does.
///
/// # Safety
/// Only for a `repr(transparent)` struct over `u32`.
pub(crate) unsafe trait Word: Sized {
    /// The list as plain words.
    fn words(list: &[Self]) -> &[u32] {
        // One element is one word, by the trait's promise.
        unsafe { from_raw_parts(list.as_ptr().cast(), list.len()) }
    }

    /// The list as plain words, to be written.
    fn words_mut(list: &mut [Self]) -> &mut [u32] {
        // As above; and every word is an element.
        unsafe { from_raw_parts_mut(list.as_mut_ptr().cast(), list.len()) }
    }
}

macro_rules! word {
    ($(#[$text:meta])* $name:ident) => {
        $(#[$text])*
        #[derive(Clone, Copy, PartialEq, Eq, PartialOrd, Ord, Hash, Debug, Default)]
        #[repr(transparent)]
        pub struct $name(pub u32);

        unsafe impl Word for $name {}

        impl fmt::Display for $name {
            fn fmt(&self, f: &mut fmt::Formatter) -> fmt::Result {
                self.0.fmt(f)
            }
        }
    };
}

word! {
    /// A state of the station: 0 to n - 1.
    State
}
word! {
    /// An action of the robot: 0 to a - 1.
    Action
}
word! {
    /// An observation, on the bench called a reading: 0 to o - 1.
    Observation
}
word! {
    /// A cell of a card: 0 to m - 1.
    Cell
}
word! {
    /// A set of states as a mask: bit i is set where state i is in it.
    StateSet
}

impl Cell {
    /// The cell number that means "cannot occur". No card has a cell of this number.
    pub const NONE: Cell = Cell(65_535);
}

impl StateSet {
    /// The set without a state.
    pub const EMPTY: StateSet = StateSet(0);

    /// The set of these states.
    ///
    /// # Panics
    /// Where a state is above 31: a mask has no bit for it.
    pub fn of(states: &[State]) -> StateSet {
        states.iter().fold(StateSet::EMPTY, |set, &state| set.with(state))
    }

    /// The set with this state in it.
    ///
    /// # Panics
    /// Where the state is above 31: a mask has no bit for it.
    pub fn with(self, state: State) -> StateSet {
        StateSet(self.0 | 1u32.checked_shl(state.0).expect("a mask has bits 0 to 31"))
    }

    /// Whether the state is in the set.
    pub fn contains(self, state: State) -> bool {
        state.0 < 32 && self.0 >> state.0 & 1 == 1
    }

    /// The states of the set, in ascending order.
    pub fn states(self) -> impl Iterator<Item = State> {
        (0..32).map(State).filter(move |&state| self.contains(state))
    }
}
