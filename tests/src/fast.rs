//! A quick independent solver, for the benchmark, with two searches; lists, judges and runner as well.
//!
//! - Boundary: families of sets, 64 sets to a machine word. A set that is good settles all its
//!   subsets, so a pass tests little more than the sets that fall and the maximal ones that stay.
//!   It is the better of the two, and what the benchmark's ratio is taken to.
//! - Flat: an array over all sets of states, updated in place, with passes over the sets that are
//!   still good only.
//!
//! Lists are handled as families of sets too.

/// The most sets: 2^12.
const SETS: usize = 4096;
/// How many machine words hold a family of sets.
const LANES: usize = SETS / 64;
/// The cell number that means "cannot occur".
pub(crate) const NO_CELL: u32 = 65_535;

/// What solve answers.
#[derive(Clone, Copy, PartialEq, Eq, Debug)]
pub enum Verdict {
    Yes { index: u32, cells: usize },
    No { round: u32 },
    Refused { number: u32, place: usize },
}

/// How the settled family is found.
#[derive(Clone, Copy, PartialEq, Eq, Debug)]
pub enum Search {
    Flat,
    Boundary,
}

/// An accepted table, laid out for the search.
struct Layout {
    n: usize,
    a: usize,
    o: usize,
    start: u16,
    bad: u16,
    /// None where the table does not mark them.
    parked: u16,
    /// The place of the first move word.
    front: usize,
    shows: [u16; 8],
    /// The observations that are not within another: they decide the step.
    widest: [u16; 8],
    widest_count: usize,
    /// For each action the states where it is open: where it has a successor, and the parked ones.
    enabled: [u16; 8],
    /// For each action the successors of a set of the states 0 to 5, and of the states 6 to 11.
    low: [[u16; 64]; 8],
    high: [[u16; 64]; 8],
}

impl Layout {
    fn new() -> Layout {
        Layout {
            n: 0,
            a: 0,
            o: 0,
            start: 0,
            bad: 0,
            parked: 0,
            front: 0,
            shows: [0; 8],
            widest: [0; 8],
            widest_count: 0,
            enabled: [0; 8],
            low: [[0; 64]; 8],
            high: [[0; 64]; 8],
        }
    }

    /// The table checks in their order.
    fn read(&mut self, table: &[u32]) -> Result<(), (u32, usize)> {
        let shown = self.read_front(table)?;
        let mut moving = 0;
        for c in 0..self.a {
            moving |= self.read_action(table, c)?;
        }
        self.check_sets(shown, moving)?;
        self.find_widest();
        Ok(())
    }

    /// The numbers and the masks in front of the moves; the states that show anything.
    #[inline(always)]
    fn read_front(&mut self, table: &[u32]) -> Result<u16, (u32, usize)> {
        let &head = table.first().ok_or((1, 0))?;
        let [n, a, o, top] = head.to_le_bytes().map(usize::from);
        let fits = top & !1 == 0x10 && n.wrapping_sub(1) < 12 && a.wrapping_sub(1) < 8 && o.wrapping_sub(1) < 8;
        if !fits {
            return Err((2, 0));
        }
        let marked = top & 1;
        let shows_from = 3 + marked;
        self.front = shows_from + o;
        if table.len() != self.front + a * n {
            return Err((3, table.len()));
        }
        (self.n, self.a, self.o) = (n, a, o);
        self.start = self.mask(table, 1, 0x2000)?;
        self.bad = self.mask(table, 2, 0x3000)?;
        self.parked = if marked == 1 { self.mask(table, 3, 0x6000)? } else { 0 };
        let mut shown = 0;
        for r in 0..o {
            self.shows[r] = self.mask(table, shows_from + r, 0x4000 | r as u32)?;
            shown |= self.shows[r];
        }
        Ok(shown)
    }

    /// What comes after all words: 6, 7 and 19, by the states that show anything and those that move on.
    #[inline(always)]
    fn check_sets(&self, shown: u16, moving: u16) -> Result<(), (u32, usize)> {
        if self.start == 0 {
            return Err((6, 1));
        }
        if shown != full(self.n) {
            return Err((7, shown.trailing_ones() as usize));
        }
        match moving & self.parked {
            0 => Ok(()),
            wrong => Err((19, wrong.trailing_zeros() as usize)),
        }
    }

    /// The mask of a word whose upper half must be as given.
    fn mask(&self, table: &[u32], place: usize, upper: u32) -> Result<u16, (u32, usize)> {
        let word = table[place];
        if word >> 16 != upper {
            return Err((4, place));
        }
        if word & 0xFFFF & !u32::from(full(self.n)) != 0 {
            return Err((5, place));
        }
        Ok(word as u16)
    }

    /// The successors of each state under an action, and the states that have any.
    #[inline(always)]
    fn read_row(&self, table: &[u32], c: usize) -> Result<([u16; 12], u16), (u32, usize)> {
        let (mut row, mut moving) = ([0; 12], 0);
        for state in 0..self.n {
            let place = self.front + c * self.n + state;
            row[state] = self.mask(table, place, 0x5000 | (c as u32) << 4 | state as u32)?;
            moving |= u16::from(row[state] != 0) << state;
        }
        Ok((row, moving))
    }

    /// Lays out an action; the states that move on under it.
    fn read_action(&mut self, table: &[u32], c: usize) -> Result<u16, (u32, usize)> {
        let (row, moving) = self.read_row(table, c)?;
        self.enabled[c] = moving | self.parked;
        for half in 1..64usize {
            let (rest, lowest) = (half & (half - 1), half.trailing_zeros() as usize);
            self.low[c][half] = self.low[c][rest] | row[lowest];
            self.high[c][half] = self.high[c][rest] | row[lowest + 6];
        }
        Ok(moving)
    }

    /// Successors that show less are good where those that show more are.
    fn find_widest(&mut self) {
        self.widest_count = 0;
        for r in 0..self.o {
            let within = |other: usize| {
                self.shows[r] & !self.shows[other] == 0 && (self.shows[r] != self.shows[other] || other < r)
            };
            if !(0..self.o).any(|other| other != r && within(other)) {
                self.widest[self.widest_count] = self.shows[r];
                self.widest_count += 1;
            }
        }
    }

    #[inline(always)]
    fn post(&self, c: usize, set: u16) -> u16 {
        self.low[c & 7][(set & 63) as usize] | self.high[c & 7][(set >> 6 & 63) as usize]
    }

    fn widest(&self) -> &[u16] {
        &self.widest[..self.widest_count]
    }

    /// The lowest action from c up that is open in the whole set and for every observation leads to
    /// a set that is `fine`; a where there is none.
    #[inline(always)]
    fn lowest_action(&self, mut c: usize, set: u16, fine: impl Fn(u16) -> bool) -> usize {
        while c < self.a {
            if set & !self.enabled[c & 7] == 0 {
                let post = self.post(c, set);
                if self.widest().iter().all(|shows| fine(post & shows)) {
                    break;
                }
            }
            c += 1;
        }
        c
    }

    /// What is known at the start is `fine`, whatever is observed.
    fn start_is(&self, fine: impl Fn(u16) -> bool) -> bool {
        self.widest().iter().all(|shows| fine(self.start & shows))
    }
}

fn full(n: usize) -> u16 {
    ((1u32 << n) - 1) as u16
}

/// The solver with its arrays, made once and used for many tables.
pub struct Solver {
    search: Search,
    layout: Layout,
    /// How many rounds a set is good for, as far as the passes have come.
    rounds: [u16; SETS],
    /// The sets still good.
    alive: [u16; SETS],
    /// For each set the lowest action that has not failed yet: what fails once fails ever after.
    action: [u8; SETS],
    /// The keys of the cells in order.
    keys: [i16; SETS],
    /// The least key of a cell that holds a set.
    holder: [i16; SETS],
}

impl Solver {
    pub fn new(search: Search) -> Solver {
        Solver {
            search,
            layout: Layout::new(),
            rounds: [0; SETS],
            alive: [0; SETS],
            action: [0; SETS],
            keys: [0; SETS],
            holder: [0; SETS],
        }
    }

    /// Decides a table and, where the answer is yes, writes the card to the front of its room. The
    /// search has its own arrays, but the work room is treated as document 01 says: refused where
    /// it is short, and its first 4·2^n words 0 after a search.
    pub fn solve(&mut self, table: &[u32], work: &mut [u32], card: &mut [u32]) -> Verdict {
        if let Err((number, place)) = self.layout.read(table) {
            return Verdict::Refused { number, place };
        }
        let need = 4 << self.layout.n;
        let Some(room) = work.get_mut(..need) else {
            return Verdict::Refused { number: 8, place: need };
        };
        room.fill(0);
        let settled = match self.search {
            Search::Flat => self.search_flat(),
            Search::Boundary => self.search_boundary(),
        };
        match settled {
            Ok((index, family)) => self.write_card(index, family.maximal(), card),
            Err(round) => Verdict::No { round: round.into() },
        }
    }

    /// The settling count and the settled family, or the round number of a no. The actions of the
    /// maximal sets stand in `action` afterwards.
    fn search_flat(&mut self) -> Result<(u16, Family), u16> {
        let sets = 1usize << self.layout.n;
        self.rounds[..sets].fill(0);
        self.action[..sets].fill(0);
        let mut alive = self.clear_sets();
        let mut before = sets;
        for k in 0.. {
            alive = self.pass(k, alive);
            if !self.layout.start_is(|set| self.rounds[set as usize] > k) {
                return Err(k + 1);
            }
            if alive == before {
                return Ok((k, Family::of(self.layout.n, &self.alive[..alive])));
            }
            before = alive;
        }
        unreachable!("the sets still good become fewer")
    }

    /// The same by families: good for one round is every set within an action's enabled states.
    fn search_boundary(&mut self) -> Result<(u16, Family), u16> {
        let layout = &self.layout;
        let clear = full(layout.n) & !layout.bad;
        let mut good = Family::empty(layout.n);
        layout.enabled[..layout.a].iter().for_each(|enabled| good.insert(enabled & clear));
        good.close();
        if !layout.start_is(|set| good.has(set)) {
            return Err(1);
        }
        let mut index = u16::from(good.count() < 1 << layout.n);
        while index > 0 {
            let next = layout.boundary_pass(&good);
            if !layout.start_is(|set| next.has(set)) {
                return Err(index + 1);
            }
            if next.bits == good.bits {
                break;
            }
            (good, index) = (next, index + 1);
        }
        let action = &mut self.action;
        good.maximal().each(|set| action[set as usize] = layout.lowest_action(0, set, |next| good.has(next)) as u8);
        Ok((index, good))
    }

    /// Puts the sets without a bad state in the list, ascending.
    fn clear_sets(&mut self) -> usize {
        let clear = full(self.layout.n) & !self.layout.bad;
        let (mut count, mut set) = (0, 0u16);
        loop {
            self.alive[count] = set;
            count += 1;
            // The next subset of the clear states.
            set = set.wrapping_sub(clear) & clear;
            if set == 0 {
                return count;
            }
        }
    }

    /// From good for k to good for k + 1; the sets that stay are moved together.
    fn pass(&mut self, k: u16, count: usize) -> usize {
        let mut kept = 0;
        for i in 0..count {
            let set = self.alive[i];
            let at = set as usize & (SETS - 1);
            let fine = |next: u16| self.rounds[next as usize & (SETS - 1)] >= k;
            let c = self.layout.lowest_action(self.action[at] as usize, set, fine);
            self.action[at] = c as u8;
            if c < self.layout.a {
                self.rounds[at] = k + 1;
                self.alive[kept] = set;
                kept += 1;
            }
        }
        kept
    }

    fn write_card(&mut self, index: u16, maximal: Family, card: &mut [u32]) -> Verdict {
        let layout = &self.layout;
        let (a, o) = (layout.a, layout.o);
        let cells = maximal.count();
        let length = 1 + o + cells * (1 + o);
        if card.len() < length {
            return Verdict::Refused { number: 9, place: length };
        }
        let (masks, keys) = (&mut self.alive, &mut self.keys);
        let mut at = 0;
        maximal.each(|set| {
            masks[at] = set;
            at += 1;
        });
        // The last row of the lists is filled up with the empty set, which holds none that is asked for.
        let listed = cells.next_multiple_of(ROW);
        masks[cells..listed].fill(0);
        keys[..listed].iter_mut().zip(&*masks).zip(0..).for_each(|((at, &mask), cell)| *at = key(mask, cell));
        // Looking through the cells for each set, or the holders of all sets beforehand: which is the quicker was
        // measured on rings of 8 to 12 states.
        let all_at_once = 2 * cells * cells * o > layout.n << layout.n;
        if all_at_once {
            find_holders(layout.n, &masks[..cells], keys, &mut self.holder);
        }
        let (masks, holder) = (&self.alive[..cells], &self.holder);
        let (mask_rows, key_rows) = (rows_of(&self.alive[..listed]), rows_of(&self.keys[..listed]));
        let holding = |set: u16| match set {
            0 => NO_CELL,
            _ if all_at_once => cell_of(holder[set as usize & (SETS - 1)]),
            _ => cell_of(least_key(set, mask_rows, key_rows)),
        };
        let shows = &layout.shows[..o];
        card[0] = 0x8000_0000 | (a as u32) << 20 | (o as u32) << 16 | cells as u32;
        for (r, shows) in shows.iter().enumerate() {
            card[1 + r] = 0x9000_0000 | (r as u32) << 16 | holding(layout.start & shows);
        }
        for (&mask, words) in masks.iter().zip(card[1 + o..length].chunks_exact_mut(1 + o)) {
            let c = self.action[mask as usize] as usize;
            let post = layout.post(c, mask);
            words[0] = 0xA000_0000 | (c as u32) << 20 | u32::from(mask);
            for (r, shows) in shows.iter().enumerate() {
                words[1 + r] = 0xB000_0000 | (r as u32) << 16 | holding(post & shows);
            }
        }
        Verdict::Yes { index: index.into(), cells }
    }
}

impl Layout {
    /// From good for k to good for k + 1, from the largest sets down.
    fn boundary_pass(&self, good: &Family) -> Family {
        let lanes = good.lanes();
        let mut next = Family::empty(self.n);
        for lane in (0..lanes).rev() {
            // Subsets of sets found in the lanes with one state more.
            let larger = (0..6).map(|i| lane | 1 << i).filter(|&with| with != lane && with < lanes);
            let mut found = larger.fold(0, |found, with| found | next.bits[with]);
            let mut open = good.bits[lane] & !found;
            while open != 0 {
                let highest = open.ilog2() as usize;
                let set = (lane << 6 | highest) as u16;
                open &= !(1 << highest);
                if self.lowest_action(0, set, |next| good.has(next)) < self.a {
                    found |= SUBSETS[highest];
                    open &= !SUBSETS[highest];
                }
            }
            next.bits[lane] = found;
        }
        next
    }
}

/// So many cells are looked at together.
const ROW: usize = 8;
/// The bits of a key for the cell's number: an antichain of twelve states has at most 924 sets (Sperner).
const NUMBER_BITS: u32 = 10;
/// Above every key.
const NO_KEY: i16 = i16::MAX;

/// By its key a cell comes before those with more states, and before those with as many and a higher number.
/// Signed, since every processor has the least of eight such numbers in one step.
#[inline(always)]
fn key(mask: u16, cell: u16) -> i16 {
    ((mask.count_ones() as u16) << NUMBER_BITS | cell) as i16
}

/// The cell of a key.
#[inline(always)]
fn cell_of(key: i16) -> u32 {
    debug_assert!(key != NO_KEY, "a settled set lies in a cell");
    key as u32 & ((1 << NUMBER_BITS) - 1)
}

fn rows_of<T>(list: &[T]) -> &[[T; ROW]] {
    list.as_chunks().0
}

/// The lesser key in each place.
#[inline(always)]
fn least_of(first: [i16; ROW], second: [i16; ROW]) -> [i16; ROW] {
    std::array::from_fn(|i| first[i].min(second[i]))
}

/// The least key of a cell that holds the set.
#[inline(always)]
fn least_key(set: u16, masks: &[[u16; ROW]], keys: &[[i16; ROW]]) -> i16 {
    let holding = |i: usize, masks: &[u16; ROW], keys: &[i16; ROW]| match set & !masks[i] {
        0 => keys[i],
        _ => NO_KEY,
    };
    let least = masks.iter().zip(keys).fold([NO_KEY; ROW], |least, (masks, keys)| {
        least_of(least, std::array::from_fn(|i| holding(i, masks, keys)))
    });
    least.into_iter().fold(NO_KEY, i16::min)
}

/// For every set the least key of a cell that holds it: its own, or the least of the sets one state larger.
fn find_holders(n: usize, cells: &[u16], keys: &[i16], holder: &mut [i16; SETS]) {
    let sets = (1 << n).max(ROW);
    holder[..sets].fill(NO_KEY);
    cells.iter().zip(keys).for_each(|(&mask, &key)| holder[mask as usize & (SETS - 1)] = key);
    // The states 0 to 2 within rows of eight sets, the others between them.
    let (rows, _) = holder[..sets].as_chunks_mut::<ROW>();
    for row in &mut *rows {
        for bit in [1, 2, 4] {
            *row = least_of(*row, std::array::from_fn(|set| row[set | bit]));
        }
    }
    for state in 3..n {
        let bit = 1 << (state - 3);
        for block in rows.chunks_exact_mut(2 * bit) {
            let (without, with) = block.split_at_mut(bit);
            without.iter_mut().zip(with).for_each(|(small, large)| *small = least_of(*small, *large));
        }
    }
}

// ---- Families and lists ------------------------------------------------------------------------

/// A family of sets below 2^n, one bit for each.
struct Family {
    n: usize,
    bits: [u64; LANES],
}

/// Within a machine word, the sets that have state i.
const WITH: [u64; 6] = [
    0xAAAA_AAAA_AAAA_AAAA,
    0xCCCC_CCCC_CCCC_CCCC,
    0xF0F0_F0F0_F0F0_F0F0,
    0xFF00_FF00_FF00_FF00,
    0xFFFF_0000_FFFF_0000,
    0xFFFF_FFFF_0000_0000,
];

/// Within a machine word, the subsets of each set of the states 0 to 5.
const SUBSETS: [u64; 64] = {
    let mut subsets = [0; 64];
    let mut pair = 0;
    while pair < 64 * 64 {
        let (set, small) = (pair / 64, pair % 64);
        if small & !set == 0 {
            subsets[set] |= 1 << small;
        }
        pair += 1;
    }
    subsets
};

impl Family {
    fn empty(n: usize) -> Family {
        Family { n, bits: [0; LANES] }
    }

    /// The family of these sets.
    fn of(n: usize, sets: &[u16]) -> Family {
        let mut family = Family::empty(n);
        sets.iter().for_each(|&set| family.insert(set));
        family
    }

    /// The subsets of the masks of a list; they are known to fit.
    fn below(n: usize, list: &[u32]) -> Family {
        let mut family = Family::empty(n);
        list.iter().for_each(|&mask| family.insert(mask as u16));
        family.close();
        family
    }

    #[inline(always)]
    fn insert(&mut self, set: u16) {
        self.bits[set as usize >> 6 & (LANES - 1)] |= 1 << (set & 63);
    }

    #[inline(always)]
    fn has(&self, set: u16) -> bool {
        self.bits[set as usize >> 6 & (LANES - 1)] >> (set & 63) & 1 == 1
    }

    fn lanes(&self) -> usize {
        (1usize << self.n).div_ceil(64)
    }

    fn count(&self) -> usize {
        self.bits[..self.lanes()].iter().map(|lane| lane.count_ones() as usize).sum()
    }

    fn each(&self, mut visit: impl FnMut(u16)) {
        for (lane, &bits) in self.bits[..self.lanes()].iter().enumerate() {
            let mut bits = bits;
            while bits != 0 {
                visit((lane << 6) as u16 | bits.trailing_zeros() as u16);
                bits &= bits - 1;
            }
        }
    }

    /// Adds every subset of a member.
    fn close(&mut self) {
        let lanes = self.lanes();
        for state in 0..self.n.min(6) {
            for lane in &mut self.bits[..lanes] {
                *lane |= (*lane & WITH[state]) >> (1 << state);
            }
        }
        for state in 6..self.n {
            let bit = 1 << (state - 6);
            for block in self.bits[..lanes].chunks_exact_mut(2 * bit) {
                let (without, with) = block.split_at_mut(bit);
                without.iter_mut().zip(with).for_each(|(small, large)| *small |= *large);
            }
        }
    }

    /// The maximal members of a family that holds every subset of its members.
    fn maximal(&self) -> Family {
        let lanes = self.lanes();
        let mut result = Family { n: self.n, bits: self.bits };
        for state in 0..self.n.min(6) {
            for (lane, &all) in result.bits[..lanes].iter_mut().zip(&self.bits) {
                *lane &= !((all & WITH[state]) >> (1 << state));
            }
        }
        for state in 6..self.n {
            let bit = 1 << (state - 6);
            for lane in (0..lanes).filter(|lane| lane & bit == 0) {
                result.bits[lane] &= !self.bits[lane | bit];
            }
        }
        result
    }
}

fn combine(
    n: u32,
    first: &[u32],
    second: &[u32],
    out: &mut [u32],
    both: impl Fn(u64, u64) -> u64,
) -> Result<usize, (u32, usize)> {
    if !(1..=12).contains(&n) {
        return Err((2, 0));
    }
    if let Some(place) = first.iter().chain(second).position(|mask| mask >> n != 0) {
        return Err((5, place));
    }
    let (mut family, other) = (Family::below(n as usize, first), Family::below(n as usize, second));
    family.bits.iter_mut().zip(other.bits).for_each(|(mine, theirs)| *mine = both(*mine, theirs));
    let maximal = family.maximal();
    let length = maximal.count();
    if out.len() < length {
        return Err((15, length));
    }
    let mut at = 0;
    maximal.each(|set| {
        out[at] = set.into();
        at += 1;
    });
    Ok(length)
}

/// The maximal sets of both lists; the length, or number and place of a refusal.
pub fn join(n: u32, first: &[u32], second: &[u32], out: &mut [u32]) -> Result<usize, (u32, usize)> {
    combine(n, first, second, out, |x, y| x | y)
}

/// The maximal intersections of one set from each list.
pub fn meet(n: u32, first: &[u32], second: &[u32], out: &mut [u32]) -> Result<usize, (u32, usize)> {
    combine(n, first, second, out, |x, y| x & y)
}

// ---- Judge -------------------------------------------------------------------------------------

/// Judges sets with the layout of a table at hand.
pub struct Judge {
    layout: Layout,
}

impl Default for Judge {
    fn default() -> Judge {
        Judge::new()
    }
}

impl Judge {
    pub fn new() -> Judge {
        Judge { layout: Layout::new() }
    }

    /// Whether the set is good for k, or number and place of a refusal.
    pub fn judge(&mut self, table: &[u32], mask: u32, k: u32) -> Result<bool, (u32, usize)> {
        self.layout.read(table)?;
        if k > 4 {
            return Err((17, k as usize));
        }
        if mask >> self.layout.n != 0 {
            return Err((5, table.len()));
        }
        Ok(self.good(mask as u16, k))
    }

    fn good(&self, set: u16, k: u32) -> bool {
        let layout = &self.layout;
        if k == 0 || set == 0 {
            return true;
        }
        set & layout.bad == 0
            && (0..layout.a).any(|c| set & !layout.enabled[c] == 0 && self.good_after(layout.post(c, set), k - 1))
    }

    fn good_after(&self, post: u16, k: u32) -> bool {
        let layout = &self.layout;
        k == 0 || layout.widest().iter().all(|shows| self.good(post & shows, k))
    }
}

// ---- Cards -------------------------------------------------------------------------------------

/// Calls a function over a card's rows by their length, 1 + o: where it is known the words of a row are tested together.
macro_rules! by_length {
    ($o:expr, $($function:ident)::+, $($argument:expr),*) => {
        match $o {
            1 => $($function)::+::<2>($($argument),*),
            2 => $($function)::+::<3>($($argument),*),
            3 => $($function)::+::<4>($($argument),*),
            4 => $($function)::+::<5>($($argument),*),
            5 => $($function)::+::<6>($($argument),*),
            6 => $($function)::+::<7>($($argument),*),
            7 => $($function)::+::<8>($($argument),*),
            _ => $($function)::+::<9>($($argument),*),
        }
    };
}
pub(crate) use by_length;

/// What a move answers: the cell entered and its action, or number and place of a refusal.
pub type Moved = Result<(u32, u32), (u32, usize)>;

/// A card that passed its check. Its words are rows of 1 + o: row 0 has the head and the first cells,
/// row c + 1 the action and the next cells of cell c.
pub(crate) struct Rows<'c> {
    words: &'c [u32],
    cells: usize,
    o: usize,
}

impl Rows<'_> {
    /// Refusal 13 of head and length; the numbers of cells, observations and actions.
    #[inline(always)]
    pub(crate) fn head(words: &[u32]) -> Result<(usize, usize, u32), (u32, usize)> {
        let head = words.first().copied().unwrap_or(0);
        let (cells, o, a) = (head as usize & 0xFFFF, head as usize >> 16 & 15, head >> 20 & 15);
        let fits = head >> 24 == 0x80
            && cells.wrapping_sub(1) < 4096
            && o.wrapping_sub(1) < 8
            && a.wrapping_sub(1) < 8;
        if !fits {
            return Err((13, 0));
        }
        if words.len() != (1 + cells) * (1 + o) {
            return Err((13, words.len()));
        }
        Ok((cells, o, a))
    }

    /// Refusal 13: head, length, then the words in order.
    fn check(words: &[u32]) -> Result<Rows<'_>, (u32, usize)> {
        let (cells, o, a) = Rows::head(words)?;
        let (front, rows) = words.split_at(1 + o);
        if let Some(place) = wrong_target(&front[1..], 0x9000_0000, cells) {
            return Err((13, 1 + place));
        }
        match by_length!(o, wrong_row, rows, cells, a as usize) {
            Some(place) => Err((13, 1 + o + place)),
            None => Ok(Rows { words, cells, o }),
        }
    }

    /// The move by an observation from row 0 or from a cell's row.
    #[inline(always)]
    fn enter(&self, row: usize, observation: u32) -> Moved {
        let seen = observation as usize;
        if seen >= self.o {
            return Err((12, seen));
        }
        let cell = self.words[row * (1 + self.o) + 1 + seen] & 0xFFFF;
        if cell == NO_CELL {
            return Err((14, seen));
        }
        Ok((cell, self.words[(1 + cell as usize) * (1 + self.o)] >> 20 & 15))
    }

    /// The action after each observation is handed on; stops at the first that is not taken.
    #[inline(always)]
    fn walk(&self, observations: &[u32], mut take: impl FnMut(usize, u32)) -> Result<(), (u32, usize)> {
        let mut row = 0;
        for (i, &observation) in observations.iter().enumerate() {
            let (cell, action) = self.enter(row, observation)?;
            row = 1 + cell as usize;
            take(i, action);
        }
        Ok(())
    }
}

/// The first of these words that is not a cell or none, in the frame of its place.
#[inline(always)]
pub(crate) fn wrong_target(words: &[u32], kind: u32, cells: usize) -> Option<usize> {
    let wrong = |(r, word): (u32, &u32)| {
        let cell = word ^ (kind | r << 16);
        cell as usize >= cells && cell != NO_CELL
    };
    (0..).zip(words).position(wrong)
}

/// Opens a card with the first observation.
pub fn open(card: &[u32], observation: u32) -> Moved {
    Rows::check(card)?.enter(0, observation)
}

/// A later observation in a cell.
pub fn step(card: &[u32], cell: u32, observation: u32) -> Moved {
    let card = Rows::check(card)?;
    if cell as usize >= card.cells {
        return Err((12, cell as usize));
    }
    card.enter(1 + cell as usize, observation)
}

/// Runs a card over observations and writes the action after each to the front of `out`. What may be
/// refused is walked through before anything is written.
pub fn run(card: &[u32], observations: &[u32], out: &mut [u32]) -> Result<usize, (u32, usize)> {
    let card = Rows::check(card)?;
    card.walk(observations, |_, _| ())?;
    let front = out.get_mut(..observations.len()).ok_or((15, observations.len()))?;
    card.walk(observations, |i, action| front[i] = action)?;
    Ok(observations.len())
}

/// A card's words and the cell that the runner is in. Anyone may make one, so each move checks the card.
pub struct Runner<'c> {
    pub card: &'c [u32],
    pub cell: u32,
}

impl<'c> Runner<'c> {
    pub fn open(card: &'c [u32], observation: u32) -> (Runner<'c>, Moved) {
        let moved = open(card, observation);
        (Runner { card, cell: moved.map_or(NO_CELL, |entered| entered.0) }, moved)
    }

    /// A refused runner stays in its cell.
    pub fn advance(&mut self, observation: u32) -> Moved {
        let moved = step(self.card, self.cell, observation)?;
        self.cell = moved.0;
        Ok(moved)
    }
}

/// A runner opened with the first observation and moved by two more: what its last move answers.
pub fn drive(card: &[u32], [first, second, third]: [u32; 3]) -> Moved {
    let (mut runner, _) = Runner::open(card, first);
    let _ = runner.advance(second);
    runner.advance(third)
}

// ---- The judge of cards ------------------------------------------------------------------------

/// For cards of more cells the successors of a set are looked up; in others its members are walked.
const FEW_CELLS: usize = 16;

/// Judges cards against tables, with arrays made once and used for many.
pub struct CardJudge {
    layout: Layout,
    /// For each action the successors of each state, and the states that are lost under it.
    moves: [[u16; 12]; 8],
    lost: [u16; 8],
    /// For each action the successors of a set of the states 0 to 3, of 4 to 7 and of 8 to 11.
    thirds: [[[u16; 16]; 3]; 8],
    /// The sets of the cells, and behind them the empty set, for "cannot occur". Twice as long as it need
    /// be, so that a masked number is always in it.
    sets: [u16; 2 * SETS],
}

impl Default for CardJudge {
    fn default() -> CardJudge {
        CardJudge::new()
    }
}

impl CardJudge {
    pub fn new() -> CardJudge {
        CardJudge {
            layout: Layout::new(),
            moves: [[0; 12]; 8],
            lost: [0; 8],
            thirds: [[[0; 16]; 3]; 8],
            sets: [0; 2 * SETS],
        }
    }

    /// Whether the card is accepted, or number and place of a refusal.
    pub fn judge(&mut self, table: &[u32], card: &[u32]) -> Result<(), (u32, usize)> {
        let shown = self.layout.read_front(table)?;
        let (bad, parked, mut any) = (self.layout.bad, self.layout.parked, 0);
        for c in 0..self.layout.a {
            let (row, moving) = self.layout.read_row(table, c)?;
            (self.moves[c], self.lost[c]) = (row, bad | !(moving | parked));
            any |= moving;
        }
        self.layout.check_sets(shown, any)?;
        let (cells, o, a) = Rows::head(card)?;
        if (a as usize, o) != (self.layout.a, self.layout.o) {
            Rows::check(card)?;
            return Err((16, 0));
        }
        if cells > FEW_CELLS {
            self.fill_thirds();
        }
        by_length!(o, Self::judge_rows, self, card, cells)
    }

    fn fill_thirds(&mut self) {
        for (thirds, moves) in self.thirds.iter_mut().zip(&self.moves).take(self.layout.a) {
            for (third, four) in thirds.iter_mut().zip(moves.chunks_exact(4)) {
                for (i, successors) in four.iter().enumerate() {
                    (0..1 << i).for_each(|rest| third[1 << i | rest] = third[rest] | successors);
                }
            }
        }
    }

    /// 13 and 18 in one pass over the rows. From a word at fault on, only 13 is left to look for.
    fn judge_rows<const PART: usize>(&mut self, card: &[u32], cells: usize) -> Result<(), (u32, usize)> {
        let (rows, _) = card.as_chunks::<PART>();
        let (front, rows) = rows.split_first().expect("a card has a front");
        self.sets.iter_mut().zip(rows).for_each(|(set, row)| *set = row[0] as u16);
        self.sets[cells] = 0;
        if let Some(place) = wrong_target(&front[1..], 0x9000_0000, cells) {
            return Err((13, 1 + place));
        }
        let a = self.layout.a;
        let shaped = |i: usize, row: &[u32; PART]| match wrong_word(row, cells, a) {
            Some(place) => Err((13, (1 + i) * PART + place)),
            None => Ok(()),
        };
        let mut fault = self.fault(0, self.layout.start, front, cells);
        let mut rows = rows.iter().enumerate();
        while fault.is_none() {
            let Some((i, row)) = rows.next() else { return Ok(()) };
            shaped(i, row)?;
            fault = self.row_fault(row, cells).map(|place| (1 + i) * PART + place);
        }
        for (i, row) in rows {
            shaped(i, row)?;
        }
        fault.map_or(Ok(()), |place| Err((18, place)))
    }

    /// The lowest word of a cell's row that is at fault.
    #[inline(always)]
    fn row_fault<const PART: usize>(&self, row: &[u32; PART], cells: usize) -> Option<usize> {
        let (set, c) = (row[0] as u16 & 0xFFF, row[0] as usize >> 20 & 7);
        let lost = set & self.lost[c];
        let post = match cells > FEW_CELLS {
            true => self.looked_up(c, set),
            false => self.walked(c, set),
        };
        self.fault(lost, post, row, cells)
    }

    #[inline(always)]
    fn looked_up(&self, c: usize, set: u16) -> u16 {
        let [low, middle, high] = &self.thirds[c];
        low[(set & 15) as usize] | middle[(set >> 4 & 15) as usize] | high[(set >> 8 & 15) as usize]
    }

    #[inline(always)]
    fn walked(&self, c: usize, mut set: u16) -> u16 {
        let mut post = 0;
        while set != 0 {
            post |= self.moves[c][set.trailing_zeros() as usize];
            set &= set - 1;
        }
        post
    }

    /// The lowest word of a row that is at fault: the first where a state is lost, or one that names a cell
    /// without all the states that show its observation. All words together first: mostly none is.
    #[inline(always)]
    fn fault<const PART: usize>(&self, lost: u16, set: u16, row: &[u32; PART], cells: usize) -> Option<usize> {
        let missing = |r: usize| {
            let cell = (row[r] & 0xFFFF).min(cells as u32);
            set & self.layout.shows[r - 1] & !self.sets[cell as usize & (2 * SETS - 1)]
        };
        match (1..PART).fold(lost, |any, r| any | missing(r)) {
            0 => None,
            _ if lost != 0 => Some(0),
            _ => (1..PART).find(|&r| missing(r) != 0),
        }
    }
}

/// The lowest word of the cells' rows that is not a card's.
pub(crate) fn wrong_row<const PART: usize>(rows: &[u32], cells: usize, a: usize) -> Option<usize> {
    let (rows, _) = rows.as_chunks::<PART>();
    let wrong = |(i, row)| wrong_word(row, cells, a).map(|place| i * PART + place);
    rows.iter().enumerate().find_map(wrong)
}

/// The lowest word of a cell's row that is not a card's: all words together first.
#[inline(always)]
fn wrong_word<const PART: usize>(row: &[u32; PART], cells: usize, a: usize) -> Option<usize> {
    let cell = row[0] ^ 0xA000_0000;
    let wrong_cell = (cell & !0x00F0_0FFF != 0) | (cell >> 20 >= a as u32);
    let wrong = |r: usize| {
        let cell = row[r] ^ (0xB000_0000 | (r as u32 - 1) << 16);
        (cell >= cells as u32) & (cell != NO_CELL)
    };
    let any = (1..PART).fold(wrong_cell, |any, r| any | wrong(r));
    match any {
        false => None,
        true if wrong_cell => Some(0),
        true => (1..PART).find(|&r| wrong(r)),
    }
}
