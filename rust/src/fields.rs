//! A table as fields.

use crate::{Action, Observation, State, StateSet, MOVE_SLOTS, SHOWN_SLOTS};

/// What a table says, to be written as words by [`write`](crate::write). Slots that are not used
/// must stay empty.
#[derive(Clone, PartialEq, Eq, Debug)]
pub struct Fields {
    /// The number of states.
    pub states: u32,
    /// The number of actions.
    pub actions: u32,
    /// The number of observations.
    pub observations: u32,
    /// The states to begin in.
    pub start: StateSet,
    /// The bad states.
    pub bad: StateSet,
    /// Whether the table marks parked states. Without it `parked` is not used and must be empty.
    pub parked_marked: bool,
    /// The parked states: where one is not bad, the play has ended well. None has a successor.
    pub parked: StateSet,
    /// For each observation the states that show it.
    pub shown: [StateSet; SHOWN_SLOTS],
    /// At action · states + state, the successors; none where the action is blocked.
    pub moves: [StateSet; MOVE_SLOTS],
}

impl Fields {
    /// A station of so many states, actions and observations, with all sets empty: every action is
    /// blocked, no state shows anything, and parked states are not marked.
    pub fn new(states: u32, actions: u32, observations: u32) -> Fields {
        Fields {
            states,
            actions,
            observations,
            start: StateSet::EMPTY,
            bad: StateSet::EMPTY,
            parked_marked: false,
            parked: StateSet::EMPTY,
            shown: [StateSet::EMPTY; SHOWN_SLOTS],
            moves: [StateSet::EMPTY; MOVE_SLOTS],
        }
    }

    /// These states show the observation.
    ///
    /// # Panics
    /// Where the station has no such observation.
    pub fn set_shown(&mut self, observation: Observation, states: &[State]) {
        assert!(observation.0 < self.observations, "there is no observation {observation}");
        self.shown[observation.0 as usize] = StateSet::of(states);
    }

    /// These states are parked, and the table marks them.
    ///
    /// # Panics
    /// Where a state is above 31: a mask has no bit for it.
    pub fn set_parked(&mut self, states: &[State]) {
        self.parked_marked = true;
        self.parked = StateSet::of(states);
    }

    /// The action leads from the state to one of these.
    ///
    /// # Panics
    /// Where the station has no such action or state.
    pub fn set_move(&mut self, action: Action, state: State, successors: &[State]) {
        assert!(action.0 < self.actions, "there is no action {action}");
        assert!(state.0 < self.states, "there is no state {state}");
        self.moves[(action.0 * self.states + state.0) as usize] = StateSet::of(successors);
    }
}
