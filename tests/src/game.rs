//! The game of an accepted table (document 01, "The game" and "The step on sets"; document 02, change 2),
//! written plainly.
//!
//! Two ways to the verdict stand here side by side: `verdict` explores the knowledge sets that can
//! come up from the start, `families` follows the definition "good for k" over all sets. Neither
//! knows of the other; the tests compare them.

use std::collections::HashMap;

/// A game of imperfect information with a set of bad states and, where they are marked, of parked ones.
#[derive(Clone, PartialEq, Eq, Debug)]
pub struct Game {
    /// Number of states, actions and observations.
    pub n: usize,
    pub a: usize,
    pub o: usize,
    pub start: u32,
    pub bad: u32,
    /// The parked states; nothing where the table does not mark them.
    pub parked: Option<u32>,
    /// For each observation, the states that show it.
    pub shows: Vec<u32>,
    /// `moves[action][state]`: the successors; empty where the action is blocked.
    pub moves: Vec<Vec<u32>>,
}

/// What a set comes to under an action, with the number of members looked at (document 02, change 4).
#[derive(Clone, Copy, PartialEq, Eq, Debug)]
pub enum Walk {
    /// The successors of the whole set; all members were looked at.
    Post(u32, u32),
    /// The lowest member where the action is blocked; those up to and with it were looked at.
    Blocked(usize, u32),
}

/// The members of a set, ascending.
pub fn members(mut set: u32) -> impl Iterator<Item = usize> {
    std::iter::from_fn(move || {
        let lowest = (set != 0).then(|| set.trailing_zeros() as usize)?;
        set &= set - 1;
        Some(lowest)
    })
}

/// Whether every member of `small` is one of `large`.
pub fn subset(small: u32, large: u32) -> bool {
    members(small).all(|i| large >> i & 1 == 1)
}

impl Game {
    /// The state is parked: where it is not bad, the play has ended well.
    pub fn is_parked(&self, state: usize) -> bool {
        self.parked.is_some_and(|parked| parked >> state & 1 == 1)
    }

    /// The action has a successor in this state, or the state is parked: there every action counts as open.
    pub fn open(&self, action: usize, state: usize) -> bool {
        self.is_parked(state) || self.moves[action][state] != 0
    }

    /// The action is open at every member of the set.
    pub fn enabled(&self, action: usize, set: u32) -> bool {
        members(set).all(|state| self.open(action, state))
    }

    /// The successors of the whole set.
    pub fn post(&self, action: usize, set: u32) -> u32 {
        members(set).fold(0, |sum, state| sum | self.moves[action][state])
    }

    /// What the set comes to under the action; states that the game doesn't have are no members.
    pub fn walk(&self, action: usize, set: u32) -> Walk {
        let among = |bound: usize| (0..bound).filter(|&state| set >> state & 1 == 1);
        let looked = |bound: usize| among(bound).count() as u32;
        match among(self.n).find(|&state| !self.open(action, state)) {
            Some(member) => Walk::Blocked(member, looked(member + 1)),
            None => Walk::Post(self.post(action, set % (1 << self.n)), looked(self.n)),
        }
    }

    /// The state is bad.
    pub fn is_bad(&self, state: usize) -> bool {
        self.bad >> state & 1 == 1
    }

    /// The state shows the observation.
    pub fn showing(&self, observation: usize, state: usize) -> bool {
        self.shows[observation] >> state & 1 == 1
    }

    /// For each observation, the start states that show it.
    pub fn start_sets(&self) -> Vec<u32> {
        self.shows.iter().map(|shows| self.start & shows).collect()
    }

    /// For each observation, what is known after the action: the successors that show it.
    pub fn after(&self, action: usize, set: u32) -> Vec<u32> {
        let post = self.post(action, set);
        self.shows.iter().map(|shows| post & shows).collect()
    }
}

/// The knowledge sets that can come up from the start, and what each enabled action leads to.
struct Knowledge {
    sets: Vec<u32>,
    /// For each set and each action enabled there, the sets that may come up next.
    choices: Vec<Vec<Vec<usize>>>,
    roots: Vec<usize>,
}

impl Knowledge {
    fn explore(game: &Game) -> Knowledge {
        let mut numbers = HashMap::new();
        let mut sets = Vec::new();
        let roots = Self::number(&mut numbers, &mut sets, game.start_sets());
        let mut choices = Vec::new();
        while choices.len() < sets.len() {
            let set = sets[choices.len()];
            let enabled = (0..game.a).filter(|&action| game.enabled(action, set));
            let next = enabled.map(|action| {
                Self::number(&mut numbers, &mut sets, game.after(action, set))
            });
            choices.push(next.collect());
        }
        Knowledge { sets, choices, roots }
    }

    /// The numbers of the sets that are not empty (an empty one cannot come up), new ones added.
    fn number(numbers: &mut HashMap<u32, usize>, sets: &mut Vec<u32>, found: Vec<u32>) -> Vec<usize> {
        let found = found.into_iter().filter(|&set| set != 0);
        found
            .map(|set| {
                *numbers.entry(set).or_insert_with(|| {
                    sets.push(set);
                    sets.len() - 1
                })
            })
            .collect()
    }
}

/// The verdict by knowledge sets: `None` is yes, `Some(k)` is no with round number k.
pub fn verdict(game: &Game) -> Option<u32> {
    let knowledge = Knowledge::explore(game);
    // lost[i]: in knowledge set i every strategy loses by the round in hand.
    let mut lost = vec![false; knowledge.sets.len()];
    for round in 1.. {
        let by_now: Vec<bool> = (0..lost.len())
            .map(|i| {
                let every_action_loses =
                    knowledge.choices[i].iter().all(|next| next.iter().any(|&j| lost[j]));
                knowledge.sets[i] & game.bad != 0 || every_action_loses
            })
            .collect();
        if knowledge.roots.iter().any(|&root| by_now[root]) {
            return Some(round);
        }
        if by_now == lost {
            return None;
        }
        lost = by_now;
    }
    unreachable!("the lost sets grow until they settle")
}

/// The family of settled sets and the settling count.
pub struct Settled {
    pub index: u32,
    /// `family[set]`: the set is good for every number of rounds.
    pub family: Vec<bool>,
}

/// Whether the set is one step above the family, and by which lowest action.
pub fn step(game: &Game, family: &[bool], set: u32) -> Option<usize> {
    if set & game.bad != 0 {
        return None;
    }
    (0..game.a).find(|&action| {
        game.enabled(action, set) && game.after(action, set).iter().all(|&next| family[next as usize])
    })
}

/// Good for 0, 1, 2, … rounds over all sets, until two families are the same.
pub fn families(game: &Game) -> Settled {
    let mut family = vec![true; 1 << game.n];
    for index in 0.. {
        let next: Vec<bool> = (0..1 << game.n)
            // A set that is not good for k is not good for k + 1.
            .map(|set| family[set as usize] && step(game, &family, set).is_some())
            .collect();
        if next == family {
            return Settled { index, family };
        }
        family = next;
    }
    unreachable!("the families fall until they settle")
}

/// The maximal sets of a family closed under subsets, ascending.
pub fn maximal(n: usize, family: &[bool]) -> Vec<u32> {
    let larger_is_in = |set: u32| (0..n).any(|i| set >> i & 1 == 0 && family[(set | 1 << i) as usize]);
    (0..1u32 << n).filter(|&set| family[set as usize] && !larger_is_in(set)).collect()
}

/// Whether the set is good for k rounds, straight from the definition.
pub fn good(game: &Game, set: u32, k: u32) -> bool {
    if k == 0 {
        return true;
    }
    set & game.bad == 0
        && (0..game.a).any(|action| {
            game.enabled(action, set)
                && game.after(action, set).iter().all(|&next| good(game, next, k - 1))
        })
}
