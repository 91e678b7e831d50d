//! How much stack the archive's functions use: each is called on a stack of its own that was filled
//! with a pattern, and the deepest word that changed counts. The figure is what the function and all
//! that it calls leave below the caller's stack pointer: return address, stacked arguments, frames.

use crate::archive::*;
use crate::gen::{self, Rng, SHAPES};
use crate::kiss;
use crate::oracle::{self, Call, Fields, Verdict};
use crate::stations;
use crate::trim;
use std::arch::asm;
use std::collections::BTreeMap;

const PATTERN: u64 = 0xA5A5_5A5A_C3C3_3C3C;
/// Words of the stack that is filled: twice what the deepest function needs and more.
const DEPTH: usize = 1 << 16;
/// Arguments that are passed in registers, and on the stack.
const IN_REGISTERS: usize = 6;
const ON_STACK: usize = 6;

/// A function of the archive by name and address, and its arguments in order.
struct Machine {
    name: &'static str,
    function: usize,
    arguments: Vec<u64>,
}

/// The bytes below the caller's stack pointer that the call wrote.
fn used(stack: &mut [u64], machine: &Machine) -> usize {
    stack.fill(PATTERN);
    let mut arguments = machine.arguments.clone();
    arguments.resize(IN_REGISTERS + ON_STACK, 0);
    // The stacked arguments stand at the top, at a multiple of 16 as the calling convention asks.
    let odd = stack.as_ptr() as usize / 8 % 2;
    let top = ((stack.len() - ON_STACK - odd) & !1) + odd;
    stack[top..top + ON_STACK].copy_from_slice(&arguments[IN_REGISTERS..]);
    let stacked = machine.arguments.len().saturating_sub(IN_REGISTERS).next_multiple_of(2);
    let registers = arguments[..IN_REGISTERS].try_into().expect("six registers");
    unsafe { call_on(stack.as_mut_ptr().add(top), machine.function, registers) };
    let deepest = stack.iter().position(|&word| word != PATTERN).expect("a return address was written");
    assert!(deepest > 0, "the stack for measuring is too small");
    (top - deepest + stacked) * 8
}

/// Calls the function with this stack pointer.
///
/// # Safety
/// The function takes these arguments, and the words below `top` are enough for it.
unsafe fn call_on(top: *mut u64, function: usize, registers: [u64; IN_REGISTERS]) {
    let [first, second, third, fourth, fifth, sixth] = registers;
    assert_eq!(top as usize % 16, 0, "the stack is not aligned");
    // r12 outlives the call by the calling convention.
    asm!(
        "mov r12, rsp",
        "mov rsp, {top}",
        "call {function}",
        "mov rsp, r12",
        top = in(reg) top,
        function = in(reg) function,
        in("rdi") first, in("rsi") second, in("rdx") third, in("rcx") fourth, in("r8") fifth, in("r9") sixth,
        out("r12") _,
        clobber_abi("C"),
    );
}

/// The lent buffers of a call.
struct Rooms {
    work: Vec<u32>,
    out: Vec<u32>,
    text: Vec<u8>,
    answer: [u64; 3],
}

fn pair<T>(words: &[T]) -> [u64; 2] {
    [words.as_ptr() as u64, words.len() as u64]
}

/// The same for a buffer that is written.
fn room<T>(words: &mut [T]) -> [u64; 2] {
    [words.as_mut_ptr() as u64, words.len() as u64]
}

macro_rules! machine {
    ($function:ident, $($part:expr),+) => {
        Machine {
            name: stringify!($function),
            function: $function as *const () as usize,
            arguments: [$(&$part[..]),+].concat(),
        }
    };
}

/// The call as the machine sees it; nothing for the harness.
fn machine(call: &Call, rooms: &mut Rooms) -> Option<Machine> {
    let (work, out, bytes) = (room(&mut rooms.work), room(&mut rooms.out), room(&mut rooms.text));
    let answer = [rooms.answer.as_mut_ptr() as u64];
    let numbers = |list: &[u32]| -> Vec<u64> { list.iter().map(|&number| number.into()).collect() };
    Some(match *call {
        Call::CheckTable { table } => machine!(kirdanzug_check_table, pair(table), answer),
        Call::CheckCard { card } => machine!(kirdanzug_check_card, pair(card), answer),
        Call::Write { fields: Fields { n, a, o, start, bad, parked_marked, parked, observations, moves }, .. } => {
            let slots = [observations.as_ptr() as u64, moves.as_ptr() as u64];
            let sets = numbers(&[*start, *bad, u32::from(*parked_marked), *parked]);
            machine!(kirdanzug_write, numbers(&[*n, *a, *o]), sets, slots, out, answer)
        }
        Call::Rewrite { table, .. } => machine!(kirdanzug_rewrite, pair(table), out, answer),
        Call::Solve { table, .. } => machine!(kirdanzug_solve, pair(table), work, out, answer),
        Call::Judge { table, mask, k } => machine!(kirdanzug_judge, pair(table), numbers(&[mask, k]), answer),
        Call::Join { n, first, second, .. } => {
            machine!(kirdanzug_join, numbers(&[n]), pair(first), pair(second), out, answer)
        }
        Call::Meet { n, first, second, .. } => {
            machine!(kirdanzug_meet, numbers(&[n]), pair(first), pair(second), out, answer)
        }
        Call::Open { card, observation } => machine!(kirdanzug_open, pair(card), numbers(&[observation]), answer),
        Call::Step { card, cell, observation } => {
            machine!(kirdanzug_step, pair(card), numbers(&[cell, observation]), answer)
        }
        Call::Run { card, observations, .. } => machine!(kirdanzug_run, pair(card), pair(observations), out, answer),
        Call::Show { table, card, cell } => {
            machine!(kirdanzug_show, pair(table), pair(card), numbers(&[cell]), answer)
        }
        Call::JudgeCard { table, card } => machine!(kirdanzug_judge_card, pair(table), pair(card), answer),
        Call::Trim { card, .. } => machine!(kirdanzug_trim, pair(card), work, out, answer),
        Call::WriteKiss { card, .. } => machine!(kirdanzug_write_kiss, pair(card), bytes, answer),
        Call::ReadKiss { text, .. } => machine!(kirdanzug_read_kiss, pair(text), out, answer),
        Call::Drive { .. } => return None,
    })
}

/// The most bytes that each function used, by its name.
pub type Most = BTreeMap<&'static str, usize>;

/// The functions measured so far, and the stack they are called on.
struct Measured {
    stack: Vec<u64>,
    most: Most,
}

impl Measured {
    /// Measures one call, and compares its answer: a call that went wrong measures nothing.
    fn call(&mut self, call: Call) {
        let (work, out, text) = lengths(&call);
        let mut rooms = Rooms { work: vec![7; work], out: vec![7; out], text: vec![7; text], answer: [9; 3] };
        let Some(machine) = machine(&call, &mut rooms) else { return };
        let used = used(&mut self.stack, &machine);
        assert_eq!(rooms.answer, oracle::outcome(&call).answer, "{call:?}");
        let most = self.most.entry(machine.name).or_default();
        *most = used.max(*most);
    }

    /// Every function on a table and, where it has one, on its card.
    fn table(&mut self, rng: &mut Rng, table: &[u32]) {
        self.call(Call::Solve { table, work: 1 << 14, card: 1 << 14 });
        self.call(Call::Solve { table, work: 1 << 14, card: 0 });
        self.call(Call::CheckTable { table });
        self.call(Call::Rewrite { table, out: table.len() });
        for k in 0..=5 {
            let mask = rng.set(12, 30);
            self.call(Call::Judge { table, mask, k });
        }
        if let Ok(fields) = &oracle::read_fields(table) {
            self.call(Call::Write { fields, out: table.len() });
        }
        if let Ok((_, Verdict::Yes { card, .. })) = oracle::decided(table) {
            self.card(rng, table, &oracle::card_words(&card));
        }
    }

    fn card(&mut self, rng: &mut Rng, table: &[u32], card: &[u32]) {
        self.call(Call::CheckCard { card });
        self.call(Call::JudgeCard { table, card });
        for (work, out) in [(1 << 12, card.len()), (1 << 12, 0), (0, 0)] {
            self.call(Call::Trim { card, work, out });
        }
        self.text(card);
        if let Ok(card) = oracle::read_card(card) {
            self.text(&oracle::card_words(&trim::trimmed(&card)));
            // One with idle cells too.
            self.call(Call::ReadKiss { text: kiss::text_of(&card).as_bytes(), out: 0 });
        }
        for observation in 0..=8 {
            let observations = &vec![observation; rng.within(0, 20)];
            self.call(Call::Open { card, observation });
            self.call(Call::Step { card, cell: observation, observation: 0 });
            self.call(Call::Run { card, observations, out: 20 });
            self.call(Call::Show { table, card, cell: observation });
        }
    }

    /// A card's text, written and, where it has one, read.
    fn text(&mut self, card: &[u32]) {
        let written = kiss::write_outcome(card, usize::MAX).written;
        let text: Vec<u8> = written.iter().map(|&byte| byte as u8).collect();
        for room in [text.len(), 0] {
            self.call(Call::WriteKiss { card, text: room });
        }
        for out in [card.len(), 0] {
            self.call(Call::ReadKiss { text: &text, out });
        }
        self.call(Call::ReadKiss { text: &text[..text.len() / 2], out: 0 });
    }

    fn lists(&mut self, rng: &mut Rng) {
        let (n, longest) = (rng.within(1, 13) as u32, rng.pick(&[3, 30, 900]));
        let (first, second) = (&gen::list(rng, n as usize, longest), &gen::list(rng, n as usize, longest));
        for out in [0, 4096] {
            self.call(Call::Join { n, first, second, out });
            self.call(Call::Meet { n, first, second, out });
        }
    }
}

/// The words of work and of the room for the result, and the bytes of that for a text.
fn lengths(call: &Call) -> (usize, usize, usize) {
    match *call {
        Call::Solve { work, card, .. } => (work, card, 0),
        Call::Trim { work, out, .. } => (work, out, 0),
        Call::WriteKiss { text, .. } => (0, 0, text),
        Call::ReadKiss { out, .. }
        | Call::Join { out, .. }
        | Call::Meet { out, .. }
        | Call::Rewrite { out, .. }
        | Call::Write { out, .. }
        | Call::Run { out, .. } => (0, out, 0),
        _ => (0, 0, 0),
    }
}

/// The most bytes that each function of the header uses. The inputs lead each function its
/// deepest way: the largest games, random ones of up to twelve states, the stations with all refusals,
/// and damaged words.
pub fn measure(rng: &mut Rng) -> Most {
    let mut measured = Measured { stack: vec![0; DEPTH], most: Most::new() };
    stations::rows().for_each(|row| measured.call(row.call));
    measured.table(rng, &oracle::table_words(&gen::counter(12)));
    measured.table(rng, &oracle::table_words(&gen::ring(12, &gen::WIDE_RING, 8)));
    for card in [gen::chain(4096, 8), gen::lone(4096, 8), gen::chain(4096, 1), gen::lone(4096, 1)] {
        measured.card(rng, &stations::A, &oracle::card_words(&card));
    }
    for i in 0..100 {
        let n = rng.within(1, 12);
        let mut table = gen::table(rng, SHAPES[i % SHAPES.len()], n, 8, 8);
        measured.table(rng, &table);
        gen::damage(rng, &mut table);
        measured.table(rng, &table);
        let mut card = gen::card(rng, 60, 8, 8);
        measured.card(rng, &table, &card);
        gen::damage(rng, &mut card);
        measured.card(rng, &table, &card);
        measured.lists(rng);
    }
    measured.most
}
