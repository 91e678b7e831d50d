//! What document 02's change 5 says of all cards, asked of whoever answers calls: the models or the archive.

use crate::check::is_trimmed;
use crate::finished::Ask;
use crate::oracle::{Call, Outcome, NO_CELL};
use std::collections::BTreeSet;

/// How often each property met a case.
#[derive(Default, Clone, Debug)]
pub struct Idle {
    /// Cards with idle cells, without, and those in which no first word names a cell.
    pub idle: u64,
    pub whole: u64,
    pub unentered: u64,
    /// Moves on both cards: taken, refused by 12, refused by 14.
    pub moves: [u64; 3],
    /// Runs over lists on both, likewise.
    pub runs: [u64; 3],
    /// Judged against a table: accepted before and after, with idle cells and without.
    pub accepted: [u64; 2],
    /// Refused by 18 before, and after it by 18 or not at all: what was wrong was idle.
    pub refused: u64,
    pub mended: u64,
}

impl Idle {
    fn counts(&mut self) -> [(&'static str, &mut u64); 13] {
        let ([taken, unknown, never], [run, run_unknown, run_never]) = (&mut self.moves, &mut self.runs);
        let [accepted, accepted_whole] = &mut self.accepted;
        [
            ("idle", &mut self.idle),
            ("whole", &mut self.whole),
            ("unentered", &mut self.unentered),
            ("moves", taken),
            ("moves by 12", unknown),
            ("moves by 14", never),
            ("runs", run),
            ("runs by 12", run_unknown),
            ("runs by 14", run_never),
            ("accepted", accepted),
            ("accepted whole", accepted_whole),
            ("refused", &mut self.refused),
            ("mended", &mut self.mended),
        ]
    }

    pub fn add(&mut self, part: &Idle) {
        let mut part = part.clone();
        self.counts().into_iter().zip(part.counts()).for_each(|((_, mine), (_, theirs))| *mine += *theirs);
    }

    /// Each property met its case, but for those that cannot come up here.
    pub fn must_have_all_but(&self, others: &[&str]) {
        for (name, count) in self.clone().counts() {
            assert_eq!(*count == 0, others.contains(&name), "{name}: {count} times, {self:?}");
        }
    }

    /// The words that a card is trimmed to: the reached cells in their order, and trimmed again the same words.
    pub fn trimmed(&mut self, ask: Ask, card: &[u32]) -> Vec<u32> {
        let Outcome { answer, written, .. } = asked(ask, card);
        let (cells, o) = ((card[0] & NO_CELL) as usize, (card[0] >> 16 & 15) as usize);
        let kept = written.len() / (1 + o) - 1;
        assert_eq!(answer, [0, written.len() as u64, kept as u64], "{card:x?}");
        assert_eq!(is_trimmed(card, &written), Ok(()), "{card:x?}");
        let again = Outcome { answer, zeroed: kept, written: written.clone() };
        assert_eq!(asked(ask, &written), again, "trimmed again, {card:x?}");
        *if kept < cells { &mut self.idle } else { &mut self.whole } += 1;
        self.unentered += u64::from(card[1..=o].iter().all(|word| word & NO_CELL == NO_CELL));
        written
    }

    /// Both cards from the first observation on, by every number that they have and some that they have not: the
    /// same action, or the same refusal with the same place. Where a pair of cells was met before, what follows is
    /// known, so this is every list there is.
    pub fn same_moves(&mut self, ask: Ask, card: &[u32], trimmed: &[u32]) {
        let o = card[0] >> 16 & 15;
        let numbers: Vec<u32> = (0..=o).chain([o | 8, o | 1 << 16, u32::MAX]).collect();
        let mut waiting = Vec::new();
        for &observation in &numbers {
            let both = [card, trimmed].map(|card| ask(Call::Open { card, observation }).answer);
            waiting.extend(self.same(both, card));
        }
        // A refused opening leaves both in no cell.
        waiting.push((NO_CELL, NO_CELL));
        let mut met = BTreeSet::new();
        while let Some(pair) = waiting.pop() {
            if !met.insert(pair) {
                continue;
            }
            for &observation in &numbers {
                let pairs = [(card, pair.0), (trimmed, pair.1)];
                let both = pairs.map(|(card, cell)| ask(Call::Step { card, cell, observation }).answer);
                waiting.extend(self.same(both, card));
            }
        }
    }

    /// The cells entered, where the move is taken.
    fn same(&mut self, both: [[u64; 3]; 2], card: &[u32]) -> Option<(u32, u32)> {
        let [[tag, cell, action], [other_tag, other, same]] = both;
        if tag == 0 && other_tag == 0 {
            assert_eq!(action, same, "the action, {card:x?}");
            self.moves[0] += 1;
            return Some((cell as u32, other as u32));
        }
        assert_eq!(both[0], both[1], "the refusal, {card:x?}");
        count_refusal(&mut self.moves, both[0]);
        None
    }

    /// Both cards over a list of numbers: the same actions, or the same refusal with the same place.
    pub fn same_runs(&mut self, ask: Ask, card: &[u32], trimmed: &[u32], observations: &[u32]) {
        let out = observations.len();
        let [full, other] = [card, trimmed].map(|card| ask(Call::Run { card, observations, out }));
        assert_eq!(full, other, "{observations:?} on {card:x?}");
        count_refusal(&mut self.runs, full.answer);
    }

    /// An accepted card stays accepted.
    pub fn judged(&mut self, ask: Ask, table: &[u32], card: &[u32], trimmed: &[u32]) {
        let [full, other] = [card, trimmed].map(|card| ask(Call::JudgeCard { table, card }).answer);
        let count = match (full, other) {
            ([0, ..], _) => {
                assert_eq!(other, full, "{table:x?} {card:x?}");
                &mut self.accepted[usize::from(card == trimmed)]
            }
            ([2, 18, _], [0, ..]) => &mut self.mended,
            ([2, 18, _], [2, 18, _]) => &mut self.refused,
            _ => {
                assert_eq!(other, full, "{table:x?} {card:x?}");
                return;
            }
        };
        *count += 1;
    }
}

/// Trimmed with exact work, and the card's own length for room.
fn asked(ask: Ask, card: &[u32]) -> Outcome {
    ask(Call::Trim { card, work: (card[0] & NO_CELL) as usize, out: card.len() })
}

/// Counts what was taken, refused by 12 or by 14: nothing else comes up on a card.
fn count_refusal(counts: &mut [u64; 3], answer: [u64; 3]) {
    let place = match answer {
        [0, ..] => 0,
        [2, 12, _] => 1,
        [2, 14, _] => 2,
        _ => panic!("{answer:?} is no answer of a card"),
    };
    counts[place] += 1;
}
