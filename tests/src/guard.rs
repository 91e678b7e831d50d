//! Calls of the archive with guard words (guard bytes for a text) before and behind every buffer and random contents
//! in it. After each call every word and byte of every buffer is compared. Of each card that solve wrote it is checked
//! that the tightest cells are named, and of each that trim wrote that it has the reached cells alone.

use crate::archive;
use crate::check::{is_trimmed, names_tightest, Runner};
use crate::gen::Rng;
use crate::oracle::{card_length, Call, Fields, Outcome};
use std::fmt::Debug;

/// Words of either width and bytes, drawn at random.
pub trait Draw: Copy + PartialEq + Debug {
    fn draw(rng: &mut Rng) -> Self;
}

impl Draw for u32 {
    fn draw(rng: &mut Rng) -> u32 {
        rng.word()
    }
}

impl Draw for u64 {
    fn draw(rng: &mut Rng) -> u64 {
        rng.next()
    }
}

impl Draw for u8 {
    /// Mostly a byte that a text could have.
    fn draw(rng: &mut Rng) -> u8 {
        let any = rng.word() as u8;
        rng.pick(&[any, any, b'0', b'1', b'c', b' ', b'\n', b'.'])
    }
}

/// So many words of a buffer are printed where one is wrong.
const SHOWN: usize = 40;

/// A lent buffer between guard words.
struct Lent<T> {
    all: Vec<T>,
    /// What all of it must be after the call.
    expected: Vec<T>,
    from: usize,
    length: usize,
}

impl<T: Draw> Lent<T> {
    /// A buffer of random contents.
    fn room(rng: &mut Rng, length: usize) -> Lent<T> {
        let (from, behind) = (rng.within(1, 8), rng.within(1, 8));
        let all: Vec<T> = (0..from + length + behind).map(|_| T::draw(rng)).collect();
        Lent { expected: all.clone(), all, from, length }
    }

    /// A buffer that holds these words.
    fn holding(rng: &mut Rng, words: &[T]) -> Lent<T> {
        let mut lent = Lent::room(rng, words.len());
        lent.part_mut().copy_from_slice(words);
        lent.expect(words);
        lent
    }

    fn part(&self) -> &[T] {
        &self.all[self.from..self.from + self.length]
    }

    fn part_mut(&mut self) -> &mut [T] {
        &mut self.all[self.from..self.from + self.length]
    }

    /// The front of the buffer must be these words.
    fn expect(&mut self, front: &[T]) {
        self.expected[self.from..self.from + front.len()].copy_from_slice(front);
    }

    fn check(&self, what: &str, call: &Call) {
        if let Some(i) = (0..self.all.len()).find(|&i| self.all[i] != self.expected[i]) {
            let (place, held, wanted) = (i as i64 - self.from as i64, self.all[i], self.expected[i]);
            let (from, to) = (self.from, self.from + self.length.min(SHOWN));
            let (got, expected) = (&self.all[from..to], &self.expected[from..to]);
            let both = format!("     got {got:x?}\nexpected {expected:x?}");
            panic!("{what}: word {place} of {} is {held:x?}, not {wanted:x?}\n{call:?}\n{both}", self.length);
        }
    }
}

impl Lent<u32> {
    /// Contents that could be taken for what a program notes of cells: in either half of a word, in both or in
    /// neither a number about as large as the buffer is long, or the same in all words.
    fn scribble(&mut self, rng: &mut Rng) {
        let (style, bound) = (rng.below(8), self.length + 2);
        let (low, high) = (rng.below(bound) as u32, rng.below(bound) as u32);
        for word in self.part_mut() {
            let (some, other) = (rng.below(bound) as u32, rng.below(bound) as u32);
            *word = match style {
                0 => some,
                1 => some << 16,
                2 => other << 16 | some,
                3 => rng.pick(&[0, 1]),
                4 => rng.pick(&[0, 1 << 16]),
                5 => high << 16 | low,
                6 => rng.pick(&[u32::MAX, 0xFFFF, 0xFFFF_0000]),
                _ => *word,
            };
        }
        let words = self.part().to_vec();
        self.expect(&words);
    }
}

impl Lent<u64> {
    fn array(&mut self) -> &mut [u64; 3] {
        self.part_mut().try_into().expect("the answer has three words")
    }
}

/// Slots are lent as an array, without a length.
fn slots<const COUNT: usize>(words: &[u32]) -> &[u32; COUNT] {
    words.try_into().expect("all slots are lent")
}

/// What an outcome says of a text.
fn bytes(written: &[u32]) -> Vec<u8> {
    written.iter().map(|&byte| byte.try_into().expect("a text has bytes")).collect()
}

/// The buffers of one call: those read, the work buffer and the one for the result. A text, read or written, stands apart.
struct Buffers {
    inputs: Vec<Lent<u32>>,
    work: Lent<u32>,
    out: Lent<u32>,
    text: Lent<u8>,
    answer: Lent<u64>,
}

impl Buffers {
    fn new(rng: &mut Rng, inputs: &[&[u32]], work: usize, out: usize) -> Buffers {
        Buffers {
            inputs: inputs.iter().map(|words| Lent::holding(rng, words)).collect(),
            work: Lent::room(rng, work),
            out: Lent::room(rng, out),
            text: Lent::room(rng, 0),
            answer: Lent::room(rng, 3),
        }
    }

    fn for_call(rng: &mut Rng, call: &Call) -> Buffers {
        match *call {
            Call::Solve { table, work, card } => Buffers::new(rng, &[table], work, card),
            Call::Judge { table, .. } => Buffers::new(rng, &[table], 0, 0),
            Call::Join { first, second, out, .. } | Call::Meet { first, second, out, .. } => {
                Buffers::new(rng, &[first, second], 0, out)
            }
            Call::Rewrite { table, out } => Buffers::new(rng, &[table], 0, out),
            Call::CheckTable { table } => Buffers::new(rng, &[table], 0, 0),
            Call::CheckCard { card } => Buffers::new(rng, &[card], 0, 0),
            Call::Write { fields, out } => Buffers::new(rng, &[&fields.observations, &fields.moves], 0, out),
            Call::Open { card, .. } | Call::Step { card, .. } | Call::Drive { card, .. } => {
                Buffers::new(rng, &[card], 0, 0)
            }
            Call::Run { card, observations, out } => Buffers::new(rng, &[card, observations], 0, out),
            Call::Show { table, card, .. } | Call::JudgeCard { table, card } => {
                Buffers::new(rng, &[table, card], 0, 0)
            }
            Call::Trim { card, work, out } => {
                let mut buffers = Buffers::new(rng, &[card], work, out);
                buffers.work.scribble(rng);
                buffers
            }
            Call::WriteKiss { card, text } => {
                Buffers { text: Lent::room(rng, text), ..Buffers::new(rng, &[card], 0, 0) }
            }
            Call::ReadKiss { text, out } => {
                Buffers { text: Lent::holding(rng, text), ..Buffers::new(rng, &[], 0, out) }
            }
        }
    }

    fn run(&mut self, call: &Call) {
        let Buffers { inputs, work, out, text, answer } = self;
        let (work, out, text, answer) = (work.part_mut(), out.part_mut(), text.part_mut(), answer.array());
        let input = |i: usize| inputs[i].part();
        match *call {
            Call::Solve { .. } => archive::solve(input(0), work, out, answer),
            Call::Judge { mask, k, .. } => archive::judge(input(0), mask, k, answer),
            Call::Join { n, .. } => archive::join(n, input(0), input(1), out, answer),
            Call::Meet { n, .. } => archive::meet(n, input(0), input(1), out, answer),
            Call::Rewrite { .. } => archive::rewrite(input(0), out, answer),
            Call::CheckTable { .. } => archive::check_table(input(0), answer),
            Call::CheckCard { .. } => archive::check_card(input(0), answer),
            Call::Write { fields: &Fields { n, a, o, start, bad, parked_marked, parked, .. }, .. } => {
                let (shown, moves) = (slots(input(0)), slots(input(1)));
                archive::write(n, a, o, start, bad, parked_marked, parked, shown, moves, out, answer)
            }
            Call::Open { observation, .. } => archive::open(input(0), observation, answer),
            Call::Step { cell, observation, .. } => archive::step(input(0), cell, observation, answer),
            Call::Run { .. } => archive::run(input(0), input(1), out, answer),
            Call::Drive { observations, .. } => archive::drive(input(0), observations, answer),
            Call::Show { cell, .. } => archive::show(input(0), input(1), cell, answer),
            Call::JudgeCard { .. } => archive::judge_card(input(0), input(1), answer),
            Call::Trim { .. } => archive::trim(input(0), work, out, answer),
            Call::WriteKiss { .. } => archive::write_kiss(input(0), text, answer),
            Call::ReadKiss { .. } => archive::read_kiss(text, out, answer),
        }
    }

    fn check(&mut self, call: &Call, expected: &Outcome) {
        self.answer.expect(&expected.answer);
        self.work.expect(&vec![0; expected.zeroed]);
        match call {
            Call::WriteKiss { .. } => self.text.expect(&bytes(&expected.written)),
            _ => self.out.expect(&expected.written),
        }
        self.answer.check("answer", call);
        self.inputs.iter().for_each(|input| input.check("input", call));
        self.work.check("work", call);
        self.out.check("result", call);
        self.text.check("text", call);
        self.check_law(call);
    }

    /// The law on the words themselves, so that no mistake of the model hides one of the archive.
    fn check_law(&self, call: &Call) {
        let held = match (call, self.answer.part()) {
            (Call::Solve { table, .. }, &[0, _, cells]) => {
                let words = card_length(cells as usize, (table[0] >> 16 & 15) as usize);
                names_tightest(table, &self.out.part()[..words])
            }
            (Call::Trim { card, .. }, &[0, words, _]) => is_trimmed(card, &self.out.part()[..words as usize]),
            _ => Ok(()),
        };
        assert_eq!(held, Ok(()), "{call:?}");
    }
}

/// Runs the call on the archive; panics where a word differs from what is expected.
pub fn compare(rng: &mut Rng, call: &Call, expected: &Outcome) {
    let mut buffers = Buffers::for_call(rng, call);
    buffers.run(call);
    buffers.check(call, expected);
}

/// The archive's runner over a card's words.
pub struct ArchiveRunner<'a> {
    pub card: &'a [u32],
}

fn taken(answer: [u64; 3]) -> Option<(u32, u32)> {
    (answer[0] == 0).then_some((answer[1] as u32, answer[2] as u32))
}

impl Runner for ArchiveRunner<'_> {
    fn open(&mut self, observation: usize) -> Option<(u32, u32)> {
        let mut answer = [u64::MAX; 3];
        archive::open(self.card, observation as u32, &mut answer);
        taken(answer)
    }

    fn step(&mut self, cell: u32, observation: usize) -> Option<(u32, u32)> {
        let mut answer = [u64::MAX; 3];
        archive::step(self.card, cell, observation as u32, &mut answer);
        taken(answer)
    }
}
