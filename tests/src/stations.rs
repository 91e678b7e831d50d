//! What document 01 itself gives: its stations with their answers, and every row of the table of
//! refusals with its small input. The answers here are copied from the document, not computed. Runs
//! over lists of observations are done by hand on its cards, and so are the judged cards of document
//! 02's change 1, the stations with parked states of its change 2, those of its change 3, in which several
//! cells hold the states in question, and the trimmed cards of its change 5. Its change 6 has a file of its own, `texts`.

use crate::oracle::{Call, Fields, Outcome};
use crate::texts;

pub const A: [u32; 10] = [
    0x10010203, 0x20000001, 0x30000004, 0x40000007, 0x50000002, 0x50010000, 0x50020004, 0x50100004, 0x50110001,
    0x50120004,
];
pub const A_CARD: [u32; 6] = [0x80210002, 0x90000000, 0xA0000001, 0xB0000001, 0xA0100002, 0xB0000000];
pub const A_TEXT: &str = "yes 2 2\nfirst 0 0\ncell 0 1 0\nnext 0 0 1\ncell 1 2 1\nnext 1 0 0\n";
/// A with start {0,1}.
pub const B: [u32; 10] = with(A, 1, 0x20000003);
/// B with two observations, {0} and {1,2}.
pub const C: [u32; 11] = [
    0x10020203, 0x20000003, 0x30000004, 0x40000001, 0x40010006, 0x50000002, 0x50010000, 0x50020004, 0x50100004,
    0x50110001, 0x50120004,
];
pub const C_CARD: [u32; 9] = [
    0x80220002, 0x90000000, 0x90010001, 0xA0000001, 0xB000FFFF, 0xB0010001, 0xA0100002, 0xB0000000, 0xB001FFFF,
];
pub const C_TEXT: &str = "yes 2 2\nfirst 0 0\nfirst 1 1\ncell 0 1 0\nnext 0 0 -\nnext 0 1 1\n\
                          cell 1 2 1\nnext 1 0 0\nnext 1 1 -\n";
/// One state, bad, moving to itself.
pub const D: [u32; 5] = [0x10010101, 0x20000001, 0x30000001, 0x40000001, 0x50000001];
/// Not bad, blocked.
pub const E: [u32; 5] = [0x10010101, 0x20000001, 0x30000000, 0x40000001, 0x50000000];
/// Not bad, moving to itself.
pub const F: [u32; 5] = [0x10010101, 0x20000001, 0x30000000, 0x40000001, 0x50000001];
pub const F_CARD: [u32; 4] = [0x80110001, 0x90000000, 0xA0000001, 0xB0000000];
/// Four states in a row, the last blocked.
pub const G: [u32; 8] = [
    0x10010104, 0x20000001, 0x30000000, 0x4000000F, 0x50000002, 0x50010004, 0x50020008, 0x50030000,
];
/// C with observations {0,1} and {1,2}.
pub const H: [u32; 11] = with(with(C, 3, 0x40000003), 4, 0x40010006);

/// Twelve states, each moving to itself: the most that is accepted.
pub const TWELVE: [u32; 16] = [
    0x1001010C, 0x20000FFF, 0x30000000, 0x40000FFF, 0x50000001, 0x50010002, 0x50020004, 0x50030008, 0x50040010,
    0x50050020, 0x50060040, 0x50070080, 0x50080100, 0x50090200, 0x500A0400, 0x500B0800,
];
pub const TWELVE_CARD: [u32; 4] = [0x80110001, 0x90000000, 0xA0000FFF, 0xB0000000];
/// The same with a thirteenth.
pub const THIRTEEN: [u32; 17] = [
    0x1001010D, 0x20001FFF, 0x30000000, 0x40001FFF, 0x50000001, 0x50010002, 0x50020004, 0x50030008, 0x50040010,
    0x50050020, 0x50060040, 0x50070080, 0x50080100, 0x50090200, 0x500A0400, 0x500B0800, 0x500C1000,
];

/// The words with one replaced.
pub const fn with<const N: usize>(mut words: [u32; N], place: usize, word: u32) -> [u32; N] {
    words[place] = word;
    words
}

const A_KIND: [u32; 10] = with(A, 1, 0x30000001);
const A_MASK: [u32; 10] = with(A, 2, 0x30000008);
const A_NO_START: [u32; 10] = with(A, 1, 0x20000000);
const A_UNSHOWN: [u32; 10] = with(A, 3, 0x40000003);
const A_CARD_HEAD: [u32; 6] = with(A_CARD, 0, 0x80210003);
const A_CARD_ACTION: [u32; 6] = with(A_CARD, 4, 0xA0200002);
const A_CARD_CELL: [u32; 6] = with(A_CARD, 3, 0xB0000002);
const A_CARD_KIND: [u32; 6] = with(A_CARD, 1, 0xB0000000);
const A_CARD_MASK: [u32; 6] = with(A_CARD, 2, 0xA0001000);
const A_CARD_SPARE: [u32; 6] = with(A_CARD, 5, 0xB1000000);
// Right, with the two cells' actions exchanged.
const A_CARD_TURNED: [u32; 6] = with(with(A_CARD, 2, 0xA0100001), 4, 0xA0000002);
const C_CARD_SPARE: [u32; 9] = with(C_CARD, 8, 0xB101FFFF);
// Right, but the observation 1 cannot occur first.
const C_CARD_FIRST: [u32; 9] = with(C_CARD, 2, 0x9001FFFF);
// Two things wrong at once, for the order of the refusals.
const A_KIND_AND_MASK: [u32; 10] = with(with(A, 1, 0x20000008), 2, 0x20000004);
const A_KIND_BEFORE_MASK: [u32; 10] = with(A, 1, 0x30000008);
const A_NO_START_UNSHOWN: [u32; 10] = with(A_NO_START, 3, 0x40000003);
const A_NO_START_MASK: [u32; 10] = with(A_NO_START, 9, 0x50120008);

/// Slots that begin with these; the others are 0.
const fn slots<const COUNT: usize, const USED: usize>(used: [u32; USED]) -> [u32; COUNT] {
    let mut all = [0; COUNT];
    let mut i = 0;
    while i < USED {
        all[i] = used[i];
        i += 1;
    }
    all
}

/// A as fields.
pub const A_FIELDS: Fields = Fields {
    n: 3,
    a: 2,
    o: 1,
    start: 1,
    bad: 4,
    parked_marked: false,
    parked: 0,
    observations: slots([7]),
    moves: slots([2, 0, 4, 4, 1, 4]),
};
const A_WIDE: Fields = Fields { n: 13, ..A_FIELDS };
const A_NO_ACTION: Fields = Fields { a: 0, moves: slots([]), ..A_FIELDS };
const A_NINE: Fields = Fields { o: 9, ..A_FIELDS };
const A_SHOWN_SLOT: Fields = Fields { observations: slots([7, 1]), ..A_FIELDS };
const A_MOVE_SLOT: Fields = Fields { moves: slots([2, 0, 4, 4, 1, 4, 1]), ..A_FIELDS };
const A_LAST_SLOT: Fields = Fields { moves: with(A_FIELDS.moves, 95, 1), ..A_FIELDS };
const A_START_MASK: Fields = Fields { start: 8, ..A_FIELDS };
const A_LAST_MASK: Fields = Fields { moves: slots([2, 0, 4, 4, 1, 1 << 16]), ..A_FIELDS };
const A_STARTLESS: Fields = Fields { start: 0, ..A_FIELDS };
const A_HIDDEN: Fields = Fields { observations: slots([3]), ..A_FIELDS };
// Two things wrong at once, for the order of the refusals.
const A_WIDE_SLOT: Fields = Fields { n: 13, ..A_SHOWN_SLOT };
const A_SLOT_MASK: Fields = Fields { start: 8, ..A_SHOWN_SLOT };
const A_STARTLESS_MASK: Fields = Fields { start: 0, ..A_LAST_MASK };
const A_STARTLESS_HIDDEN: Fields = Fields { start: 0, ..A_HIDDEN };

/// A call and the outcome that the documents give it.
pub struct Row {
    pub name: &'static str,
    pub call: Call<'static>,
    pub outcome: Outcome,
}

fn row(name: &'static str, call: Call<'static>, outcome: Outcome) -> Row {
    Row { name, call, outcome }
}

fn solve(table: &'static [u32]) -> Call<'static> {
    Call::Solve { table, work: 4 * 4096, card: 64 }
}

fn yes(index: u64, cells: u64, zeroed: usize, card: &[u32]) -> Outcome {
    Outcome { answer: [0, index, cells], zeroed, written: card.to_vec() }
}

fn no(round: u64, zeroed: usize) -> Outcome {
    Outcome { answer: [1, round, 0], zeroed, written: Vec::new() }
}

fn list(words: &[u32]) -> Outcome {
    Outcome { answer: [0, words.len() as u64, 0], zeroed: 0, written: words.to_vec() }
}

fn refused(number: u32, place: u64) -> Outcome {
    Outcome::refused(number, place)
}

/// "Stations to try".
pub fn stations() -> Vec<Row> {
    let judge = |k| Call::Judge { table: &A, mask: 3, k };
    vec![
        row("A", solve(&A), yes(2, 2, 32, &A_CARD)),
        row("A, exact rooms", Call::Solve { table: &A, work: 32, card: 6 }, yes(2, 2, 32, &A_CARD)),
        row("B", solve(&B), no(2, 32)),
        row("C", solve(&C), yes(2, 2, 32, &C_CARD)),
        row("D", solve(&D), no(1, 8)),
        row("E", solve(&E), no(1, 8)),
        row("F", solve(&F), yes(0, 1, 8, &F_CARD)),
        row("G", solve(&G), no(4, 64)),
        row("H", solve(&H), no(2, 32)),
        row("J", Call::Join { n: 2, first: &[1, 2], second: &[3], out: 2 }, list(&[3])),
        row("K", Call::Meet { n: 3, first: &[3], second: &[1, 6], out: 2 }, list(&[1, 2])),
        row("L, 1", judge(1), Outcome::done(1, 0)),
        row("L, 2", judge(2), Outcome::done(0, 0)),
        row("n 12", solve(&TWELVE), yes(0, 1, 16_384, &TWELVE_CARD)),
        row("n 13", solve(&THIRTEEN), refused(2, 0)),
        row("A again", Call::Rewrite { table: &A, out: 10 }, list(&A)),
        row("A opened", Call::Open { card: &A_CARD, observation: 0 }, Outcome::done(0, 0)),
        row("A stepped", Call::Step { card: &A_CARD, cell: 0, observation: 0 }, Outcome::done(1, 1)),
        row("A shown, 0", Call::Show { table: &A, card: &A_CARD, cell: 0 }, Outcome::done(4, 3)),
        row("A shown, 1", Call::Show { table: &A, card: &A_CARD, cell: 1 }, Outcome::done(7, 3)),
        row("meeting the empty list", Call::Meet { n: 3, first: &[3], second: &[], out: 0 }, list(&[])),
        row("joining empty lists", Call::Join { n: 12, first: &[], second: &[], out: 3 }, list(&[])),
    ]
}

/// "Numbered refusals", row by row (11 is the write's alone, see `checks`), and their order.
pub fn refusals() -> Vec<Row> {
    let a_work = |work| Call::Solve { table: &A, work, card: 6 };
    let step = |card, cell, observation| Call::Step { card, cell, observation };
    let run = |card| step(card, 0, 0);
    let join = |n, first, second, out| Call::Join { n, first, second, out };
    let judge = |mask, k| Call::Judge { table: &A, mask, k };
    let show = |table, card, cell| Call::Show { table, card, cell };
    let open = |card, observation| Call::Open { card, observation };
    vec![
        row("1", solve(&[]), refused(1, 0)),
        row("2", solve(&[0x10010200]), refused(2, 0)),
        row("2, width 0", join(0, &[], &[], 0), refused(2, 0)),
        row("2, width 13", join(13, &[1], &[2], 9), refused(2, 0)),
        row("3", solve(&[0x10010203]), refused(3, 1)),
        row("4", solve(&A_KIND), refused(4, 1)),
        row("5", solve(&A_MASK), refused(5, 2)),
        row("5, judge", judge(8, 4), refused(5, 10)),
        row("5, second list", join(2, &[1], &[2, 4], 9), refused(5, 2)),
        row("6", solve(&A_NO_START), refused(6, 1)),
        row("7", solve(&A_UNSHOWN), refused(7, 2)),
        row("8", a_work(31), refused(8, 32)),
        row(
            "9",
            Call::Solve { table: &A, work: 40, card: 5 },
            Outcome { answer: [2, 9, 6], zeroed: 32, written: Vec::new() },
        ),
        row("10", Call::Rewrite { table: &A, out: 9 }, refused(10, 10)),
        row("12", step(&A_CARD, 2, 0), refused(12, 2)),
        row("12, observation", step(&A_CARD, 1, 1), refused(12, 1)),
        row("12, opening", open(&A_CARD, 1), refused(12, 1)),
        row("12, cell first", step(&A_CARD, 2, 3), refused(12, 2)),
        row("12, show", show(&A, &A_CARD, 2), refused(12, 2)),
        row("12, the cell of a refused opening", step(&A_CARD, 65_535, 0), refused(12, 65_535)),
        row("13", run(&A_CARD_HEAD), refused(13, 6)),
        row("13, no words", run(&[]), refused(13, 0)),
        row("13, opening", open(&A_CARD_HEAD, 9), refused(13, 6)),
        row("13, action", run(&A_CARD_ACTION), refused(13, 4)),
        row("13, cell", run(&A_CARD_CELL), refused(13, 3)),
        row("13, kind", run(&A_CARD_KIND), refused(13, 1)),
        row("13, mask", run(&A_CARD_MASK), refused(13, 2)),
        row("13, spare bit", run(&A_CARD_SPARE), refused(13, 5)),
        row("14", step(&C_CARD, 0, 0), refused(14, 0)),
        row("14, the other", step(&C_CARD, 1, 1), refused(14, 1)),
        row("15", join(2, &[1], &[2], 1), refused(15, 2)),
        row("16", show(&C, &A_CARD, 0), refused(16, 0)),
        row("17", judge(1, 5), refused(17, 5)),
        row("order: 2 before 3", solve(&[0x10010200, 0]), refused(2, 0)),
        row("order: 5 of an earlier word before 4", solve(&A_KIND_AND_MASK), refused(5, 1)),
        row("order: 4 before 5 within a word", solve(&A_KIND_BEFORE_MASK), refused(4, 1)),
        row("order: 6 before 7", solve(&A_NO_START_UNSHOWN), refused(6, 1)),
        row("order: 5 of any word before 6", solve(&A_NO_START_MASK), refused(5, 9)),
        row("order: table before 8", Call::Solve { table: &A_UNSHOWN, work: 0, card: 0 }, refused(7, 2)),
        row("order: 8 before 9", Call::Solve { table: &A, work: 0, card: 0 }, refused(8, 32)),
        row("order: no card room on a no", Call::Solve { table: &B, work: 32, card: 0 }, no(2, 32)),
        row("order: table before 17", Call::Judge { table: &A_MASK, mask: 8, k: 9 }, refused(5, 2)),
        row("order: 17 before 5", judge(8, 5), refused(17, 5)),
        row("order: 2 before 5", join(13, &[1 << 20], &[], 0), refused(2, 0)),
        row("order: 5 before 15", join(2, &[1, 2], &[4], 0), refused(5, 2)),
        row("order: 13 before 12", step(&A_CARD_SPARE, 2, 1), refused(13, 5)),
        row("order: 12 before 14", step(&C_CARD, 0, 2), refused(12, 2)),
        row("order: table before 13", show(&A_MASK, &[], 7), refused(5, 2)),
        row("order: 13 before 16", show(&C, &A_CARD_HEAD, 7), refused(13, 6)),
        row("order: 16 before 12", show(&C, &A_CARD, 7), refused(16, 0)),
        row("order: table before 10", Call::Rewrite { table: &A_UNSHOWN, out: 0 }, refused(7, 2)),
    ]
}

/// The checks of tables and cards by themselves, and fields written: "A, reading slot 1 = 1" is 11.
pub fn checks() -> Vec<Row> {
    let table = |table| Call::CheckTable { table };
    let card = |card| Call::CheckCard { card };
    let write = |fields, out| Call::Write { fields, out };
    let fine = || Outcome::done(0, 0);
    vec![
        row("A checked", table(&A), fine()),
        row("n 12 checked", table(&TWELVE), fine()),
        row("1", table(&[]), refused(1, 0)),
        row("2", table(&[0x10010200]), refused(2, 0)),
        row("2, n 13", table(&THIRTEEN), refused(2, 0)),
        row("3", table(&[0x10010203]), refused(3, 1)),
        row("4", table(&A_KIND), refused(4, 1)),
        row("5", table(&A_MASK), refused(5, 2)),
        row("6", table(&A_NO_START), refused(6, 1)),
        row("7", table(&A_UNSHOWN), refused(7, 2)),
        row("a card is no table", table(&A_CARD), refused(2, 0)),
        row("order: 4 before 5 within a word", table(&A_KIND_BEFORE_MASK), refused(4, 1)),
        row("order: 6 before 7", table(&A_NO_START_UNSHOWN), refused(6, 1)),
        row("A's card checked", card(&A_CARD), Outcome::done(2, 1)),
        row("C's card checked", card(&C_CARD), Outcome::done(2, 2)),
        row("F's card checked", card(&F_CARD), Outcome::done(1, 1)),
        row("a table is no card", card(&A), refused(13, 0)),
        row("13, no words", card(&[]), refused(13, 0)),
        row("13, length", card(&A_CARD_HEAD), refused(13, 6)),
        row("13, kind", card(&A_CARD_KIND), refused(13, 1)),
        row("13, mask", card(&A_CARD_MASK), refused(13, 2)),
        row("13, cell", card(&A_CARD_CELL), refused(13, 3)),
        row("13, action", card(&A_CARD_ACTION), refused(13, 4)),
        row("13, spare bit", card(&A_CARD_SPARE), refused(13, 5)),
        row("A written", write(&A_FIELDS, 10), list(&A)),
        row("A written, more room", write(&A_FIELDS, 12), list(&A)),
        row("2, n 13", write(&A_WIDE, 10), refused(2, 0)),
        row("2, no action", write(&A_NO_ACTION, 10), refused(2, 0)),
        row("2, o 9", write(&A_NINE, 10), refused(2, 0)),
        row("11", write(&A_SHOWN_SLOT, 10), refused(11, 0)),
        row("11, a move slot", write(&A_MOVE_SLOT, 10), refused(11, 0)),
        row("11, the last slot", write(&A_LAST_SLOT, 10), refused(11, 0)),
        row("5", write(&A_START_MASK, 10), refused(5, 1)),
        row("5, not cut to 16 bits", write(&A_LAST_MASK, 10), refused(5, 9)),
        row("6", write(&A_STARTLESS, 10), refused(6, 1)),
        row("7", write(&A_HIDDEN, 10), refused(7, 2)),
        row("10", write(&A_FIELDS, 9), refused(10, 10)),
        row("10, no room", write(&A_FIELDS, 0), refused(10, 10)),
        row("order: 2 before 11", write(&A_WIDE_SLOT, 0), refused(2, 0)),
        row("order: 11 before 5", write(&A_SLOT_MASK, 0), refused(11, 0)),
        row("order: 5 before 6", write(&A_STARTLESS_MASK, 0), refused(5, 9)),
        row("order: 6 before 7", write(&A_STARTLESS_HIDDEN, 0), refused(6, 1)),
        row("order: 7 before 10", write(&A_HIDDEN, 0), refused(7, 2)),
    ]
}

/// Every row.
pub fn rows() -> impl Iterator<Item = Row> {
    let base = stations().into_iter().chain(refusals()).chain(runs()).chain(checks()).chain(judged());
    let base = base.chain(parked_stations()).chain(parked_refusals()).chain(parked_writes()).chain(parked_cards());
    base.chain(tightest_stations()).chain(tightest_cards()).chain(trimmed()).chain(trim_refusals()).chain(texts::rows())
}

// ---- Finished batches (document 02, change 2) --------------------------------------------------

/// E, its one state parked.
pub const E_PARKED: [u32; 6] = [0x11010101, 0x20000001, 0x30000000, 0x60000001, 0x40000001, 0x50000000];
/// No play goes on, so no observation can occur.
pub const E_PARKED_CARD: [u32; 4] = [0x80110001, 0x90000000, 0xA0000001, 0xB000FFFF];
/// Both bad and parked.
pub const E_LOST: [u32; 6] = with(E_PARKED, 2, 0x30000001);
/// E and F with the bit, and none parked.
const E_NONE: [u32; 6] = with(E_PARKED, 3, 0x60000000);
const F_NONE: [u32; 6] = with(E_NONE, 5, 0x50000001);
/// F parked, though it moves to itself.
const F_PARKED: [u32; 6] = with(F_NONE, 3, 0x60000001);
/// G, state 3 parked.
pub const G_PARKED: [u32; 9] = [
    0x11010104, 0x20000001, 0x30000000, 0x60000008, 0x4000000F, 0x50000002, 0x50010004, 0x50020008, 0x50030000,
];
const G_PARKED_CARD: [u32; 4] = [0x80110001, 0x90000000, 0xA000000F, 0xB0000000];
/// State 3 parked and bad.
pub const G_LOST: [u32; 9] = with(G_PARKED, 2, 0x30000008);
const G_TWO_PARKED: [u32; 9] = with(G_PARKED, 3, 0x6000000C);
const G_FIRST_PARKED: [u32; 9] = with(G_PARKED, 3, 0x6000000A);
const G_ALL_PARKED: [u32; 9] = with(G_PARKED, 3, 0x6000000F);
/// Drawn by hand: a cell for each state of G.
const G_CARD: [u32; 10] = [
    0x80110004, 0x90000000, 0xA0000001, 0xB0000001, 0xA0000002, 0xB0000002, 0xA0000004, 0xB0000003, 0xA0000008,
    0xB000FFFF,
];
const G_CARD_NAMED: [u32; 10] = with(G_CARD, 9, 0xB0000000);
/// State 0 dosing, 1 finished (parked), 2 overdosed (bad), all alike. The first action leads from 0 to 2, the second
/// from 0 to 0 or 1; none leads anywhere from 1.
pub const M: [u32; 11] = [
    0x11010203, 0x20000003, 0x30000004, 0x60000002, 0x40000007, 0x50000004, 0x50010000, 0x50020004, 0x50100003,
    0x50110000, 0x50120004,
];
pub const M_CARD: [u32; 4] = [0x80210001, 0x90000000, 0xA0100003, 0xB0000000];
const M_CARD_OTHER: [u32; 4] = with(M_CARD, 2, 0xA0000003);
const M_FROM_0: [u32; 11] = with(M, 1, 0x20000001);
/// M without the bit.
pub const M_UNMARKED: [u32; 10] = [
    0x10010203, 0x20000003, 0x30000004, 0x40000007, 0x50000004, 0x50010000, 0x50020004, 0x50100003, 0x50110000,
    0x50120004,
];
const M_UNMARKED_FROM_0: [u32; 10] = with(M_UNMARKED, 1, 0x20000001);
/// Two observations that both show the parked state 2; 0 needs the first action and 1 the second.
pub const N: [u32; 14] = [
    0x11020204, 0x20000005, 0x30000008, 0x60000004, 0x40000005, 0x4001000E, 0x50000006, 0x50010000, 0x50020000,
    0x50030008, 0x50100008, 0x50110001, 0x50120000, 0x50130008,
];
pub const N_CARD: [u32; 9] = [
    0x80220002, 0x90000000, 0x90010000, 0xA0000005, 0xB0000000, 0xB0010001, 0xA0100006, 0xB0000000, 0xB001FFFF,
];
pub const N_TEXT: &str = "yes 2 2\nfirst 0 0\nfirst 1 0\ncell 0 5 0\nnext 0 0 0\nnext 0 1 1\n\
                          cell 1 6 1\nnext 1 0 0\nnext 1 1 -\n";
/// N without the bit.
pub const N_UNMARKED: [u32; 13] = [
    0x10020204, 0x20000005, 0x30000008, 0x40000005, 0x4001000E, 0x50000006, 0x50010000, 0x50020000, 0x50030008,
    0x50100008, 0x50110001, 0x50120000, 0x50130008,
];
/// Three states, all parked; 2 is bad too.
pub const P: [u32; 8] = [
    0x11010103, 0x20000003, 0x30000004, 0x60000007, 0x40000007, 0x50000000, 0x50010000, 0x50020000,
];
const P_CARD: [u32; 4] = [0x80110001, 0x90000000, 0xA0000003, 0xB000FFFF];
const P_FROM_2: [u32; 8] = with(P, 1, 0x20000004);
const P_FROM_BOTH: [u32; 8] = with(P, 1, 0x20000005);
/// From 0 to 1, which is blocked, or to 2 and 3, which is blocked: parking 1 wins a round.
const Q: [u32; 8] = [
    0x10010104, 0x20000001, 0x30000000, 0x4000000F, 0x50000006, 0x50010000, 0x50020008, 0x50030000,
];
const Q_PARKED: [u32; 9] = [
    0x11010104, 0x20000001, 0x30000000, 0x60000002, 0x4000000F, 0x50000006, 0x50010000, 0x50020008, 0x50030000,
];
const Q_BOTH_PARKED: [u32; 9] = with(Q_PARKED, 3, 0x6000000A);
/// A with the bit, and none parked.
pub const A_NONE: [u32; 11] = [
    0x11010203, 0x20000001, 0x30000004, 0x60000000, 0x40000007, 0x50000002, 0x50010000, 0x50020004, 0x50100004,
    0x50110001, 0x50120004,
];
/// Twelve states, each moving to itself but the last, which is parked.
const TWELVE_PARKED: [u32; 17] = [
    0x1101010C, 0x20000FFF, 0x30000000, 0x60000800, 0x40000FFF, 0x50000001, 0x50010002, 0x50020004, 0x50030008,
    0x50040010, 0x50050020, 0x50060040, 0x50070080, 0x50080100, 0x50090200, 0x500A0400, 0x500B0000,
];

/// Stations with parked states, solved, judged, written again and shown.
pub fn parked_stations() -> Vec<Row> {
    let mut rows = vec![
        row("E parked", solve(&E_PARKED), yes(0, 1, 8, &E_PARKED_CARD)),
        row("E lost", solve(&E_LOST), no(1, 8)),
        row("E, none parked", solve(&E_NONE), no(1, 8)),
        row("F, none parked", solve(&F_NONE), yes(0, 1, 8, &F_CARD)),
        row("G parked", solve(&G_PARKED), yes(0, 1, 64, &G_PARKED_CARD)),
        row("G lost", solve(&G_LOST), no(4, 64)),
        row("M", solve(&M), yes(1, 1, 32, &M_CARD)),
        row("M from 0", solve(&M_FROM_0), yes(1, 1, 32, &M_CARD)),
        row("M without the bit", solve(&M_UNMARKED), no(1, 32)),
        row("M without the bit, from 0", solve(&M_UNMARKED_FROM_0), no(2, 32)),
        row("N", solve(&N), yes(2, 2, 64, &N_CARD)),
        row("N without the bit", solve(&N_UNMARKED), no(1, 64)),
        row("P", solve(&P), yes(1, 1, 32, &P_CARD)),
        row("P from 2", solve(&P_FROM_2), no(1, 32)),
        row("P from 0 and 2", solve(&P_FROM_BOTH), no(1, 32)),
        row("Q", solve(&Q), no(2, 64)),
        row("Q, 1 parked", solve(&Q_PARKED), no(3, 64)),
        row("Q, both parked", solve(&Q_BOTH_PARKED), yes(0, 1, 64, &G_PARKED_CARD)),
        row("A, none parked", solve(&A_NONE), yes(2, 2, 32, &A_CARD)),
        row("n 12 parked", solve(&TWELVE_PARKED), yes(0, 1, 16_384, &TWELVE_CARD)),
    ];
    rows.extend(parked_words());
    rows.extend(parked_judged());
    rows
}

/// Written again and shown: every place behind the new word is one more.
fn parked_words() -> Vec<Row> {
    let again = |table: &'static [u32]| Call::Rewrite { table, out: table.len() };
    let show = |table, card, cell| Call::Show { table, card, cell };
    vec![
        row("E parked again", again(&E_PARKED), list(&E_PARKED)),
        row("E lost again", again(&E_LOST), list(&E_LOST)),
        row("E again, none parked", again(&E_NONE), list(&E_NONE)),
        row("A again, none parked", again(&A_NONE), list(&A_NONE)),
        row("M again", again(&M), list(&M)),
        row("N again", again(&N), list(&N)),
        row("E parked, shown", show(&E_PARKED, &E_PARKED_CARD, 0), Outcome::done(5, 1)),
        row("G parked, shown", show(&G_PARKED, &G_PARKED_CARD, 0), Outcome::done(5, 4)),
        row("M shown", show(&M, &M_CARD, 0), Outcome::done(8, 3)),
        row("N shown, 0", show(&N, &N_CARD, 0), Outcome::done(6, 4)),
        row("N shown, 1", show(&N, &N_CARD, 1), Outcome::done(10, 4)),
        row("A shown, 0, none parked", show(&A_NONE, &A_CARD, 0), Outcome::done(5, 3)),
        row("A shown, 1, none parked", show(&A_NONE, &A_CARD, 1), Outcome::done(8, 3)),
    ]
}

/// The plain judge: for each table and mask, the most rounds up to 4 for which the set is good.
fn parked_judged() -> impl Iterator<Item = Row> {
    let rounds: [(&str, &'static [u32], &[(u32, u32)]); 6] = [
        ("E parked", &E_PARKED, &[(1, 4)]),
        ("E lost", &E_LOST, &[(1, 0)]),
        ("G parked", &G_PARKED, &[(8, 4), (1, 4), (3, 4), (15, 4)]),
        ("M", &M, &[(2, 4), (3, 4), (6, 0)]),
        ("N", &N, &[(4, 4), (12, 0), (7, 1), (5, 4), (6, 4)]),
        ("P", &P, &[(0, 4), (1, 4), (2, 4), (3, 4), (4, 0), (5, 0), (6, 0), (7, 0)]),
    ];
    let lost = ("G lost", &G_LOST[..], &[(8, 0), (1, 3)][..]);
    let judged = |(name, table, sets): (&'static str, &'static [u32], &'static [(u32, u32)])| {
        sets.iter().flat_map(move |&(mask, most)| {
            let outcome = move |k| Outcome::done(u64::from(k <= most), 0);
            (0..=4).map(move |k| row(name, Call::Judge { table, mask, k }, outcome(k)))
        })
    };
    rounds.into_iter().chain([lost]).flat_map(judged)
}

const A_SPARE_25: [u32; 11] = with(A_NONE, 0, 0x12010203);
const A_SPARE_26: [u32; 11] = with(A_NONE, 0, 0x14010203);
const A_SPARE_27: [u32; 11] = with(A_NONE, 0, 0x18010203);
const A_BOTH_BITS: [u32; 11] = with(A_NONE, 0, 0x13010203);
// The bit without the word, and the word without the bit.
const A_BIT_ALONE: [u32; 10] = with(A, 0, 0x11010203);
const A_WORD_ALONE: [u32; 11] = with(A_NONE, 0, 0x10010203);
/// The mask 8 names a state from n up.
const A_PARKED_MASK: [u32; 11] = with(A_NONE, 3, 0x60000008);
/// Waiting is blocked in 1, dosing is not.
const A_PARKED_1: [u32; 11] = with(A_NONE, 3, 0x60000002);
const A_PARKED_0: [u32; 11] = with(A_NONE, 3, 0x60000001);

/// The words of the table with the bit that are refused by 4: kinds and spare bits of the new word.
const WRONG_WORDS: [[u32; 11]; 9] = [
    with(A_NONE, 3, 0x70000000),
    with(A_NONE, 3, 0x40000000),
    with(A_NONE, 3, 0x30000000),
    with(A_NONE, 3, 0x00000000),
    with(A_NONE, 3, 0x60010000),
    with(A_NONE, 3, 0x60100000),
    with(A_NONE, 3, 0x61000000),
    with(A_NONE, 3, 0x68000000),
    with(A_NONE, 3, 0xE0000000),
];
/// Tables with parked states that are refused, with number and place.
const WRONG_TABLES: [([u32; 11], u32, u64); 22] = [
    (A_SPARE_25, 2, 0),
    (A_SPARE_26, 2, 0),
    (A_SPARE_27, 2, 0),
    (A_BOTH_BITS, 2, 0),
    (A_WORD_ALONE, 3, 11),
    (A_PARKED_MASK, 5, 3),
    (with(A_NONE, 3, 0x60008000), 5, 3),
    (with(A_PARKED_MASK, 4, 0x50000007), 5, 3),
    (with(A_NONE, 3, 0x70000008), 4, 3),
    (with(with(A_NONE, 2, 0x30000008), 3, 0x70000000), 5, 2),
    (with(with(A_NONE, 3, 0x40000007), 4, 0x60000000), 4, 3),
    (with(A_NONE, 4, 0x40000008), 5, 4),
    (with(A_NONE, 10, 0x50120008), 5, 10),
    (with(A_NONE, 1, 0x20000000), 6, 1),
    (with(A_NONE, 4, 0x40000003), 7, 2),
    (A_PARKED_0, 19, 0),
    (A_PARKED_1, 19, 1),
    (with(A_NONE, 3, 0x60000004), 19, 2),
    (with(A_NONE, 3, 0x60000006), 19, 1),
    (with(A_NONE, 3, 0x60000007), 19, 0),
    (with(A_PARKED_0, 4, 0x40000003), 7, 2),
    (with(A_PARKED_0, 1, 0x20000000), 6, 1),
];
/// The order of 5 and 19, and of 19 and what comes behind the table's checks.
const A_PARKED_0_MASK: [u32; 11] = with(A_PARKED_0, 10, 0x50120008);
const TWELVE_BEYOND: [u32; 17] = with(TWELVE_PARKED, 3, 0x60001000);

/// What is refused of tables with parked states, and in which order.
pub fn parked_refusals() -> Vec<Row> {
    let check = |table| Call::CheckTable { table };
    let mut rows = vec![
        row("A, none parked, checked", check(&A_NONE), Outcome::done(0, 0)),
        row("n 12 parked, checked", check(&TWELVE_PARKED), Outcome::done(0, 0)),
        row("3, the bit without the word", check(&A_BIT_ALONE), refused(3, 10)),
        row("3, the head alone", check(&[0x11010203]), refused(3, 1)),
        row("5, n 12", check(&TWELVE_BEYOND), refused(5, 3)),
        row("19, F", check(&F_PARKED), refused(19, 0)),
        row("19, F, solve", solve(&F_PARKED), refused(19, 0)),
        row("19, G, 2 and 3", check(&G_TWO_PARKED), refused(19, 2)),
        row("19, G, 1 and 3", check(&G_FIRST_PARKED), refused(19, 1)),
        row("19, G, all", check(&G_ALL_PARKED), refused(19, 0)),
        row("5, judge", Call::Judge { table: &A_NONE, mask: 8, k: 4 }, refused(5, 11)),
        row("10", Call::Rewrite { table: &A_NONE, out: 10 }, refused(10, 11)),
        row("order: 5 before 19", check(&A_PARKED_0_MASK), refused(5, 10)),
        row("order: 19 before 8", Call::Solve { table: &A_PARKED_1, work: 0, card: 0 }, refused(19, 1)),
        row("order: 19 before 17", Call::Judge { table: &A_PARKED_1, mask: 8, k: 5 }, refused(19, 1)),
        row("order: 19 before 13, show", Call::Show { table: &A_PARKED_1, card: &[], cell: 9 }, refused(19, 1)),
        row("order: 19 before 13", Call::JudgeCard { table: &A_PARKED_1, card: &[] }, refused(19, 1)),
        row("order: 19 before 10", Call::Rewrite { table: &A_PARKED_1, out: 0 }, refused(19, 1)),
    ];
    rows.extend(WRONG_WORDS.iter().map(|table| row("4, the parked states' word", check(table), refused(4, 3))));
    let wrong = |(table, number, place): &'static ([u32; 11], u32, u64)| {
        [check(table), solve(table)].map(|call| row("a table with parked states", call, refused(*number, *place)))
    };
    rows.extend(WRONG_TABLES.iter().flat_map(wrong));
    rows
}

/// A's fields with the bit, and none parked.
pub const A_NONE_FIELDS: Fields = Fields { parked_marked: true, ..A_FIELDS };
/// Fields and the room for their words that are refused, with number and place.
const WRONG_FIELDS: [(Fields, usize, u32, u64); 20] = [
    (A_NONE_FIELDS, 10, 10, 11),
    (A_NONE_FIELDS, 0, 10, 11),
    // Without the bit the mask is an unused slot.
    (Fields { parked: 1, ..A_FIELDS }, 12, 11, 0),
    (Fields { parked: 1 << 16, ..A_FIELDS }, 12, 11, 0),
    (Fields { parked: 1 << 31, ..A_FIELDS }, 12, 11, 0),
    (Fields { parked: 8, ..A_NONE_FIELDS }, 12, 5, 3),
    (Fields { parked: 1 << 16, ..A_NONE_FIELDS }, 12, 5, 3),
    (Fields { parked: 8, start: 8, ..A_NONE_FIELDS }, 12, 5, 1),
    (Fields { parked: 8, bad: 8, ..A_NONE_FIELDS }, 12, 5, 2),
    (Fields { parked: 8, observations: slots([8]), ..A_NONE_FIELDS }, 12, 5, 3),
    (Fields { observations: slots([15]), ..A_NONE_FIELDS }, 12, 5, 4),
    (Fields { moves: slots([2, 0, 4, 4, 1, 8]), ..A_NONE_FIELDS }, 12, 5, 10),
    (Fields { parked: 2, ..A_NONE_FIELDS }, 12, 19, 1),
    (Fields { parked: 7, ..A_NONE_FIELDS }, 12, 19, 0),
    (Fields { parked: 2, ..A_NONE_FIELDS }, 0, 19, 1),
    (Fields { parked: 2, observations: slots([3]), ..A_NONE_FIELDS }, 0, 7, 2),
    (Fields { parked: 2, start: 0, ..A_NONE_FIELDS }, 0, 6, 1),
    (Fields { parked: 8, start: 8, ..A_FIELDS }, 0, 11, 0),
    (Fields { parked: 1, n: 13, ..A_FIELDS }, 0, 2, 0),
    (Fields { parked: 8, observations: slots([7, 1]), ..A_NONE_FIELDS }, 0, 11, 0),
];

/// Fields with the bit and without it, written.
pub fn parked_writes() -> Vec<Row> {
    let write = |fields, out| Call::Write { fields, out };
    let mut rows = vec![
        row("A written, none parked", write(&A_NONE_FIELDS, 11), list(&A_NONE)),
        row("A written, none parked, more room", write(&A_NONE_FIELDS, 14), list(&A_NONE)),
    ];
    let wrong = |(fields, out, number, place): &'static (Fields, usize, u32, u64)| {
        row("fields with parked states", write(fields, *out), refused(*number, *place))
    };
    rows.extend(WRONG_FIELDS.iter().map(wrong));
    rows
}

/// Cards judged against tables with parked states.
pub fn parked_cards() -> Vec<Row> {
    let judge = |table, card| Call::JudgeCard { table, card };
    let accepted = || Outcome::done(0, 0);
    vec![
        row("E parked, its card", judge(&E_PARKED, &E_PARKED_CARD), accepted()),
        row("E parked, F's card", judge(&E_PARKED, &F_CARD), accepted()),
        row("E lost, E parked's card", judge(&E_LOST, &E_PARKED_CARD), refused(18, 2)),
        row("E, E parked's card", judge(&E, &E_PARKED_CARD), refused(18, 2)),
        row("E, none parked, E parked's card", judge(&E_NONE, &E_PARKED_CARD), refused(18, 2)),
        row("F, E parked's card", judge(&F, &E_PARKED_CARD), refused(18, 3)),
        row("G parked, its card", judge(&G_PARKED, &G_PARKED_CARD), accepted()),
        row("G parked, a cell for each state", judge(&G_PARKED, &G_CARD), accepted()),
        row("G parked, the last word names a cell", judge(&G_PARKED, &G_CARD_NAMED), accepted()),
        row("G, a cell for each state", judge(&G, &G_CARD), refused(18, 8)),
        row("G lost, a cell for each state", judge(&G_LOST, &G_CARD), refused(18, 8)),
        row("M, its card", judge(&M, &M_CARD), accepted()),
        row("M, the other action", judge(&M, &M_CARD_OTHER), refused(18, 3)),
        row("M without the bit, M's card", judge(&M_UNMARKED, &M_CARD), refused(18, 2)),
        row("N, its card", judge(&N, &N_CARD), accepted()),
        row("P, its card", judge(&P, &P_CARD), accepted()),
        row("A, none parked, A's card", judge(&A_NONE, &A_CARD), accepted()),
    ]
}

// ---- The tightest next cell (document 02, change 3) --------------------------------------------

/// The first action leads from 0, 1 and 2 to 0 and is blocked at 3; the second leads from 0 and 3 to 0 and is
/// blocked at 1 and 2. All states look alike. Good for one round, and for all, is what lies in {0,1,2} or in
/// {0,3}; after any action the station is in 0.
pub const TIGHTEST: [u32; 12] = [
    0x10010204, 0x20000001, 0x30000000, 0x4000000F, 0x50000001, 0x50010001, 0x50020001, 0x50030000, 0x50100001,
    0x50110000, 0x50120000, 0x50130001,
];
/// {0} lies in both cells, {0,1,2} and {0,3}. The second has fewer states.
pub const TIGHTEST_CARD: [u32; 6] = [0x80210002, 0x90000001, 0xA0000007, 0xB0000001, 0xA0100009, 0xB0000001];
pub const TIGHTEST_TEXT: &str = "yes 1 2\nfirst 0 1\ncell 0 7 0\nnext 0 0 1\ncell 1 9 1\nnext 1 0 1\n";
/// The same with a fifth state and a third action, which leads from 0 and 4 to 0 and is blocked elsewhere.
pub const TIED: [u32; 19] = [
    0x10010305, 0x20000001, 0x30000000, 0x4000001F, 0x50000001, 0x50010001, 0x50020001, 0x50030000, 0x50040000,
    0x50100001, 0x50110000, 0x50120000, 0x50130001, 0x50140000, 0x50200001, 0x50210000, 0x50220000, 0x50230000,
    0x50240001,
];
/// {0} lies in all three cells, {0,1,2}, {0,3} and {0,4}. The last two have the fewest states; 1 is the lower.
pub const TIED_CARD: [u32; 8] = [
    0x80310003, 0x90000001, 0xA0000007, 0xB0000001, 0xA0100009, 0xB0000001, 0xA0200011, 0xB0000001,
];
pub const TIED_TEXT: &str = "yes 1 3\nfirst 0 1\ncell 0 7 0\nnext 0 0 1\ncell 1 9 1\nnext 1 0 1\n\
                             cell 2 17 2\nnext 2 0 1\n";
/// The cards with a word that names another cell: the widest, which is the first found too, and the highest of
/// those with the fewest states.
pub const TIGHTEST_FIRST_WIDE: [u32; 6] = with(TIGHTEST_CARD, 1, 0x90000000);
pub const TIGHTEST_NEXT_WIDE: [u32; 6] = with(TIGHTEST_CARD, 5, 0xB0000000);
pub const TIED_FIRST_HIGHEST: [u32; 8] = with(TIED_CARD, 1, 0x90000002);
pub const TIED_NEXT_HIGHEST: [u32; 8] = with(TIED_CARD, 7, 0xB0000002);
pub const TIED_NEXT_WIDE: [u32; 8] = with(TIED_CARD, 3, 0xB0000000);
/// As document 01 had it, the lowest cell named everywhere.
pub const TIGHTEST_LOWEST: [u32; 6] = [0x80210002, 0x90000000, 0xA0000007, 0xB0000000, 0xA0100009, 0xB0000000];
pub const TIED_LOWEST: [u32; 8] = [
    0x80310003, 0x90000000, 0xA0000007, 0xB0000000, 0xA0100009, 0xB0000000, 0xA0200011, 0xB0000000,
];

/// Stations in which several cells hold the states in question.
pub fn tightest_stations() -> Vec<Row> {
    let exact = |table, work, card| Call::Solve { table, work, card };
    let short = |work, words| Outcome { answer: [2, 9, words], zeroed: work, written: Vec::new() };
    vec![
        row("tightest", solve(&TIGHTEST), yes(1, 2, 64, &TIGHTEST_CARD)),
        row("tightest, exact rooms", exact(&TIGHTEST, 64, 6), yes(1, 2, 64, &TIGHTEST_CARD)),
        row("9, tightest", exact(&TIGHTEST, 64, 5), short(64, 6)),
        row("tied", solve(&TIED), yes(1, 3, 128, &TIED_CARD)),
        row("tied, exact rooms", exact(&TIED, 128, 8), yes(1, 3, 128, &TIED_CARD)),
        row("9, tied", exact(&TIED, 128, 7), short(128, 8)),
        row("tightest opened", Call::Open { card: &TIGHTEST_CARD, observation: 0 }, Outcome::done(1, 1)),
        row("tightest stepped", Call::Step { card: &TIGHTEST_CARD, cell: 0, observation: 0 }, Outcome::done(1, 1)),
        row("tied opened", Call::Open { card: &TIED_CARD, observation: 0 }, Outcome::done(1, 1)),
        row("tied stepped", Call::Step { card: &TIED_CARD, cell: 2, observation: 0 }, Outcome::done(1, 1)),
        row("tied run", Call::Run { card: &TIED_CARD, observations: &[0, 0, 0], out: 3 }, list(&[1, 1, 1])),
    ]
}

/// Their cards judged: the judge of cards asks only that the cell named holds the states.
pub fn tightest_cards() -> Vec<Row> {
    let judge = |table, card| row("which cell is named", Call::JudgeCard { table, card }, Outcome::done(0, 0));
    vec![
        judge(&TIGHTEST, &TIGHTEST_CARD),
        judge(&TIGHTEST, &TIGHTEST_FIRST_WIDE),
        judge(&TIGHTEST, &TIGHTEST_NEXT_WIDE),
        judge(&TIGHTEST, &TIGHTEST_LOWEST),
        judge(&TIED, &TIED_CARD),
        judge(&TIED, &TIED_FIRST_HIGHEST),
        judge(&TIED, &TIED_NEXT_HIGHEST),
        judge(&TIED, &TIED_NEXT_WIDE),
        judge(&TIED, &TIED_LOWEST),
    ]
}

// ---- Cards without idle cells (document 02, change 5) ------------------------------------------

/// Cell 0 is idle: every word names cell 1.
pub const TIGHTEST_TRIMMED: [u32; 4] = [0x80210001, 0x90000000, 0xA0100009, 0xB0000000];
/// The cells 0 and 2 are.
const TIED_TRIMMED: [u32; 4] = [0x80310001, 0x90000000, 0xA0100009, 0xB0000000];
/// Cell 0 names itself. Cell 2 is named by cell 1 and by itself, but cell 1 is not reached.
pub const REMOTE: [u32; 8] = [
    0x80210003, 0x90000000, 0xA0000001, 0xB0000000, 0xA0100002, 0xB0000002, 0xA0000004, 0xB0000002,
];
/// The cells 1 and 2 name each other.
const REMOTE_RING: [u32; 8] = with(REMOTE, 7, 0xB0000001);
/// Cell 1 names cell 0, which is reached.
const REMOTE_BACK: [u32; 8] = with(REMOTE, 5, 0xB0000000);
pub const REMOTE_TRIMMED: [u32; 4] = [0x80210001, 0x90000000, 0xA0000001, 0xB0000000];
/// The first words name 4 and 2; these name each other and 2 itself. The others name reached cells too.
pub const SCATTERED: [u32; 18] = [
    0x80320005, 0x90000004, 0x90010002, 0xA0000001, 0xB0000004, 0xB0010000, 0xA0100002, 0xB000FFFF, 0xB0010003,
    0xA0200004, 0xB0000004, 0xB0010002, 0xA0000008, 0xB0000001, 0xB001FFFF, 0xA0100010, 0xB0000002, 0xB001FFFF,
];
/// 2 is now 0, and 4 is 1.
pub const SCATTERED_TRIMMED: [u32; 9] = [
    0x80320002, 0x90000001, 0x90010000, 0xA0200004, 0xB0000001, 0xB0010000, 0xA0100010, 0xB0000000, 0xB001FFFF,
];
/// No first word names a cell. From cell 0 one comes to 3, and from there to 3 and 0.
pub const UNENTERED: [u32; 15] = [
    0x80220004, 0x9000FFFF, 0x9001FFFF, 0xA0000001, 0xB0000003, 0xB001FFFF, 0xA0100002, 0xB0000000, 0xB0010002,
    0xA0000004, 0xB0000001, 0xB0010000, 0xA0100008, 0xB0000003, 0xB0010000,
];
pub const UNENTERED_TRIMMED: [u32; 9] = [
    0x80220002, 0x9000FFFF, 0x9001FFFF, 0xA0000001, 0xB0000001, 0xB001FFFF, 0xA0100008, 0xB0000001, 0xB0010000,
];
/// From cell 0 nothing can occur; cell 1 names it.
const UNENTERED_ALONE: [u32; 6] = [0x80110002, 0x9000FFFF, 0xA0000001, 0xB000FFFF, 0xA0000002, 0xB0000000];
const UNENTERED_ALONE_TRIMMED: [u32; 4] = [0x80110001, 0x9000FFFF, 0xA0000001, 0xB000FFFF];
/// One first word names a cell, 2, so cell 0 does not count; 2 names 1.
pub const HALF_ENTERED: [u32; 12] = [
    0x80220003, 0x9000FFFF, 0x90010002, 0xA0000001, 0xB0000000, 0xB001FFFF, 0xA0000002, 0xB0000001, 0xB001FFFF,
    0xA0100004, 0xB000FFFF, 0xB0010001,
];
pub const HALF_ENTERED_TRIMMED: [u32; 9] = [
    0x80220002, 0x9000FFFF, 0x90010001, 0xA0000002, 0xB0000000, 0xB001FFFF, 0xA0100004, 0xB000FFFF, 0xB0010000,
];
/// One comes to 3, then 1, then 2, then 3 again; cell 0 names 1, and is idle.
pub const DISCOVERED: [u32; 10] = [
    0x80410004, 0x90000003, 0xA0000001, 0xB0000001, 0xA0100002, 0xB0000002, 0xA0200004, 0xB0000003, 0xA0300008,
    0xB0000001,
];
pub const DISCOVERED_TRIMMED: [u32; 8] = [
    0x80410003, 0x90000002, 0xA0100002, 0xB0000001, 0xA0200004, 0xB0000002, 0xA0300008, 0xB0000000,
];
/// Each cell names the one below it.
const DOWNWARDS: [u32; 10] = [
    0x80110004, 0x90000003, 0xA0000001, 0xB000FFFF, 0xA0000002, 0xB0000000, 0xA0000004, 0xB0000001, 0xA0000008,
    0xB0000002,
];

/// Cards and what they are trimmed to, by hand. A's, C's and the others in the first rows have no idle cell.
pub const TRIMS: [(&str, &[u32], &[u32]); 19] = [
    ("A's card trimmed", &A_CARD, &A_CARD),
    ("C's card trimmed", &C_CARD, &C_CARD),
    ("F's card trimmed", &F_CARD, &F_CARD),
    ("N's card trimmed", &N_CARD, &N_CARD),
    ("E parked, its card trimmed", &E_PARKED_CARD, &E_PARKED_CARD),
    ("a cell for each state of G, trimmed", &G_CARD, &G_CARD),
    ("each cell names the one below", &DOWNWARDS, &DOWNWARDS),
    ("A's card, no first cell", &A_CARD_NO_FIRST, &A_CARD_NO_FIRST),
    ("A's card with a cell that is never entered, trimmed", &A_CARD_IDLE, &A_CARD),
    ("tightest trimmed", &TIGHTEST_CARD, &TIGHTEST_TRIMMED),
    ("tied trimmed", &TIED_CARD, &TIED_TRIMMED),
    ("named by an unreached cell alone", &REMOTE, &REMOTE_TRIMMED),
    ("two unreached cells that name each other", &REMOTE_RING, &REMOTE_TRIMMED),
    ("an unreached cell that names a reached one", &REMOTE_BACK, &REMOTE_TRIMMED),
    ("renumbered", &SCATTERED, &SCATTERED_TRIMMED),
    ("no first cell", &UNENTERED, &UNENTERED_TRIMMED),
    ("no first cell, and nothing from cell 0", &UNENTERED_ALONE, &UNENTERED_ALONE_TRIMMED),
    ("one first word of two names a cell", &HALF_ENTERED, &HALF_ENTERED_TRIMMED),
    ("not in the order of discovery", &DISCOVERED, &DISCOVERED_TRIMMED),
];

/// How many cells a card's head says it has.
fn cells_of(card: &[u32]) -> usize {
    (card[0] & 0xFFFF) as usize
}

/// Each of these with exact rooms, with more room, one word short of either, and trimmed again.
pub fn trimmed() -> Vec<Row> {
    let rows = |(name, card, result): (&'static str, &'static [u32], &'static [u32])| {
        let (zeroed, words) = (cells_of(card), result.len());
        let answer = [0, words as u64, cells_of(result) as u64];
        let done = |zeroed| Outcome { answer, zeroed, written: result.to_vec() };
        let short = Outcome { answer: [2, 9, words as u64], zeroed, written: Vec::new() };
        [
            row(name, Call::Trim { card, work: zeroed, out: words }, done(zeroed)),
            row(name, Call::Trim { card, work: zeroed + 3, out: words + 5 }, done(zeroed)),
            row(name, Call::Trim { card, work: zeroed - 1, out: words }, refused(8, zeroed as u64)),
            row(name, Call::Trim { card, work: zeroed, out: words - 1 }, short),
            row(name, Call::Trim { card: result, work: cells_of(result), out: words }, done(cells_of(result))),
        ]
    };
    TRIMS.into_iter().flat_map(rows).collect()
}

const REMOTE_WRONG: [u32; 8] = with(REMOTE, 7, 0xB0000003);

/// What trim refuses, and in which order.
pub fn trim_refusals() -> Vec<Row> {
    let trim = |card, work, out| Call::Trim { card, work, out };
    let short = |zeroed, words| Outcome { answer: [2, 9, words], zeroed, written: Vec::new() };
    vec![
        row("13", trim(&A_CARD_HEAD, 9, 9), refused(13, 6)),
        row("13, no words", trim(&[], 9, 9), refused(13, 0)),
        row("13, a table", trim(&A, 9, 9), refused(13, 0)),
        row("13, kind", trim(&A_CARD_KIND, 9, 9), refused(13, 1)),
        row("13, mask", trim(&A_CARD_MASK, 9, 9), refused(13, 2)),
        row("13, cell", trim(&A_CARD_CELL, 9, 9), refused(13, 3)),
        row("13, action", trim(&A_CARD_ACTION, 9, 9), refused(13, 4)),
        row("13, spare bit", trim(&A_CARD_SPARE, 9, 9), refused(13, 5)),
        row("13, in an idle cell", trim(&REMOTE_WRONG, 9, 9), refused(13, 7)),
        row("8, no work", trim(&A_CARD, 0, 6), refused(8, 2)),
        row("8, work for the cells kept alone", trim(&TIGHTEST_CARD, 1, 4), refused(8, 2)),
        row("9, no room", trim(&TIGHTEST_CARD, 2, 0), short(2, 4)),
        row("9, more work", trim(&SCATTERED, 40, 8), short(5, 9)),
        row("order: 13 before 8", trim(&A_CARD_SPARE, 0, 6), refused(13, 5)),
        row("order: 13 before 9", trim(&REMOTE_WRONG, 3, 0), refused(13, 7)),
        row("order: 13 of no words before both", trim(&[], 0, 0), refused(13, 0)),
        row("order: 8 before 9", trim(&A_CARD, 1, 5), refused(8, 2)),
        row("order: 8 before 9, no rooms", trim(&TIGHTEST_CARD, 0, 0), refused(8, 2)),
    ]
}

// A's card, redrawn.
const A_CARD_NO_FIRST: [u32; 6] = with(A_CARD, 1, 0x9000FFFF);
const A_CARD_OTHER_FIRST: [u32; 6] = with(A_CARD, 1, 0x90000001);
const A_CARD_BAD: [u32; 6] = with(A_CARD, 2, 0xA0000005);
const A_CARD_BEYOND: [u32; 6] = with(A_CARD, 2, 0xA0000009);
const A_CARD_HIGHEST: [u32; 6] = with(A_CARD, 2, 0xA0000801);
const A_CARD_DOSING: [u32; 6] = with(A_CARD, 2, 0xA0100001);
const A_CARD_NO_NEXT: [u32; 6] = with(A_CARD, 3, 0xB000FFFF);
const A_CARD_STAYING: [u32; 6] = with(A_CARD, 3, 0xB0000000);
const A_CARD_BLOCKED: [u32; 6] = with(A_CARD, 4, 0xA0000002);
const A_CARD_BACK: [u32; 6] = with(A_CARD, 5, 0xB0000001);
/// Cell 1 is entered in state 1, and its action is right there, but its set says that it never is: a card
/// that keeps every play clear and is not accepted.
pub const A_CARD_SILENT: [u32; 6] = with(A_CARD, 4, 0xA0100000);
/// Both cells in the other order.
const A_CARD_SWAPPED: [u32; 6] = [0x80210002, 0x90000001, 0xA0100002, 0xB0000001, 0xA0000001, 0xB0000000];
/// A third cell that is never entered: it must hold all the same, and the empty set does.
const A_CARD_IDLE: [u32; 8] = [
    0x80210003, 0x90000000, 0xA0000001, 0xB0000001, 0xA0100002, 0xB0000000, 0xA0000000, 0xB000FFFF,
];
const A_CARD_IDLE_BAD: [u32; 8] = with(A_CARD_IDLE, 6, 0xA0000004);
const A_CARD_IDLE_NEXT: [u32; 8] = with(A_CARD_IDLE, 6, 0xA0000001);
// Two words at fault, and a word at fault with a refusal before it.
const A_CARD_NEXT_AND_CELL: [u32; 6] = with(A_CARD_NO_NEXT, 4, 0xA0000002);
const A_CARD_FIRST_AND_CELL: [u32; 6] = with(A_CARD_NO_FIRST, 2, 0xA0000005);
const A_CARD_BAD_AND_SPARE: [u32; 6] = with(A_CARD_BAD, 5, 0xB1000000);
/// C's card where observation 0 cannot occur in cell 1, though it does.
const C_CARD_NO_NEXT: [u32; 9] = with(C_CARD, 7, 0xB000FFFF);
/// C's card where a cell is named for what cannot occur: nothing is wrong with that.
const C_CARD_NAMED: [u32; 9] = with(with(C_CARD, 4, 0xB0000000), 8, 0xB0010001);
/// A's card for three actions.
const A_CARD_THREE: [u32; 6] = with(A_CARD, 0, 0x80310002);

/// Cards judged, the stations' and redrawn ones.
pub fn judged() -> Vec<Row> {
    let judge = |table, card| Call::JudgeCard { table, card };
    let accepted = || Outcome::done(0, 0);
    vec![
        row("A's card judged", judge(&A, &A_CARD), accepted()),
        row("C's card judged", judge(&C, &C_CARD), accepted()),
        row("F's card judged", judge(&F, &F_CARD), accepted()),
        row("n 12's card judged", judge(&TWELVE, &TWELVE_CARD), accepted()),
        row("cells in the other order", judge(&A, &A_CARD_SWAPPED), accepted()),
        row("a cell that is never entered", judge(&A, &A_CARD_IDLE), accepted()),
        row("a cell named for what cannot occur", judge(&C, &C_CARD_NAMED), accepted()),
        row("18, first word", judge(&B, &A_CARD), refused(18, 1)),
        row("18, first word, cannot occur", judge(&A, &A_CARD_NO_FIRST), refused(18, 1)),
        row("18, first word, another cell", judge(&A, &A_CARD_OTHER_FIRST), refused(18, 1)),
        row("18, the second first word", judge(&C, &C_CARD_FIRST), refused(18, 2)),
        row("18", judge(&A, &A_CARD_BAD), refused(18, 2)),
        row("18, a bad state alone", judge(&D, &F_CARD), refused(18, 2)),
        row("18, blocked", judge(&A, &A_CARD_BLOCKED), refused(18, 4)),
        row("18, blocked alone", judge(&E, &F_CARD), refused(18, 2)),
        row("18, a state from n up", judge(&A, &A_CARD_BEYOND), refused(18, 2)),
        row("18, state 11", judge(&A, &A_CARD_HIGHEST), refused(18, 2)),
        row("18, next word, cannot occur", judge(&A, &A_CARD_NO_NEXT), refused(18, 3)),
        row("18, next word, another cell", judge(&A, &A_CARD_STAYING), refused(18, 3)),
        row("18, next word, by the action", judge(&A, &A_CARD_DOSING), refused(18, 3)),
        row("18, the last word", judge(&A, &A_CARD_BACK), refused(18, 5)),
        row("18, the first of two observations", judge(&C, &C_CARD_NO_NEXT), refused(18, 7)),
        row("18, a set that says too little", judge(&A, &A_CARD_SILENT), refused(18, 3)),
        row("18, a bad state in a cell that is never entered", judge(&A, &A_CARD_IDLE_BAD), refused(18, 6)),
        row("18, the next of a cell that is never entered", judge(&A, &A_CARD_IDLE_NEXT), refused(18, 7)),
        row("18, the lowest of a first and a cell word", judge(&A, &A_CARD_FIRST_AND_CELL), refused(18, 1)),
        row("18, the lowest of a next and a cell word", judge(&A, &A_CARD_NEXT_AND_CELL), refused(18, 3)),
        row("16", judge(&C, &A_CARD), refused(16, 0)),
        row("16, other actions", judge(&A, &A_CARD_THREE), refused(16, 0)),
        row("13", judge(&A, &A_CARD_HEAD), refused(13, 6)),
        row("13, no words", judge(&A, &[]), refused(13, 0)),
        row("order: table before 13", judge(&A_MASK, &[]), refused(5, 2)),
        row("order: 7 before 13", judge(&A_UNSHOWN, &A_CARD_HEAD), refused(7, 2)),
        row("order: 13 before 16", judge(&C, &A_CARD_SPARE), refused(13, 5)),
        row("order: 13 before 18", judge(&A, &A_CARD_BAD_AND_SPARE), refused(13, 5)),
        row("order: 16 before 18", judge(&C, &A_CARD_BAD), refused(16, 0)),
        row("1", judge(&[], &A_CARD), refused(1, 0)),
    ]
}

/// Runs of the stations' cards over lists of observations, and runners driven by three.
pub fn runs() -> Vec<Row> {
    let run = |card, observations, out| Call::Run { card, observations, out };
    let drive = |card, observations| Call::Drive { card, observations };
    vec![
        row("A run", run(&A_CARD, &[0, 0, 0, 0], 4), list(&[0, 1, 0, 1])),
        row("A run, more room", run(&A_CARD, &[0, 0, 0], 9), list(&[0, 1, 0])),
        row("C run", run(&C_CARD, &[0, 1, 0], 3), list(&[0, 1, 0])),
        row("C run from the other", run(&C_CARD, &[1, 0, 1, 0], 5), list(&[1, 0, 1, 0])),
        row("actions that are not the cells", run(&A_CARD_TURNED, &[0, 0, 0], 3), list(&[1, 0, 1])),
        row("no observation", run(&A_CARD, &[], 0), list(&[])),
        row("no observation, some room", run(&C_CARD, &[], 3), list(&[])),
        row("12", run(&A_CARD, &[0, 0, 1, 0], 4), refused(12, 1)),
        row("12, the first", run(&C_CARD, &[2], 4), refused(12, 2)),
        row("12, not cut to 16 bits", run(&A_CARD, &[0, 0x10000], 4), refused(12, 0x10000)),
        row("12, the largest", run(&C_CARD, &[0, 1, u32::MAX], 4), refused(12, u32::MAX.into())),
        row("13", run(&A_CARD_HEAD, &[0], 1), refused(13, 6)),
        row("13, the last word", run(&A_CARD_SPARE, &[0], 1), refused(13, 5)),
        row("13, no observation", run(&A_CARD_HEAD, &[], 0), refused(13, 6)),
        row("13, no observation, a word", run(&A_CARD_ACTION, &[], 4), refused(13, 4)),
        row("13, no words, no observation", run(&[], &[], 0), refused(13, 0)),
        row("14", run(&C_CARD, &[0, 1, 1, 0], 4), refused(14, 1)),
        row("14, the first", run(&C_CARD_FIRST, &[1, 0], 2), refused(14, 1)),
        row("14, the last", run(&C_CARD, &[1, 0, 0], 3), refused(14, 0)),
        row("15", run(&A_CARD, &[0, 0, 0], 2), refused(15, 3)),
        row("15, no room", run(&C_CARD, &[1], 0), refused(15, 1)),
        row("order: 13 before 12", run(&A_CARD_SPARE, &[9], 1), refused(13, 5)),
        row("order: 13 before 14", run(&C_CARD_SPARE, &[0, 0], 2), refused(13, 8)),
        row("order: 13 before 15", run(&A_CARD_SPARE, &[0, 0], 1), refused(13, 5)),
        row("order: 12 before 15", run(&C_CARD, &[0, 1, 2], 2), refused(12, 2)),
        row("order: 14 before 15", run(&C_CARD, &[0, 1, 1], 2), refused(14, 1)),
        row("order: 14 before a later 12", run(&C_CARD, &[0, 0, 2], 3), refused(14, 0)),
        row("order: 12 before a later 14", run(&C_CARD, &[0, 2, 0], 3), refused(12, 2)),
        row("A driven", drive(&A_CARD, [0, 0, 0]), Outcome::done(0, 0)),
        row("C driven", drive(&C_CARD, [1, 0, 1]), Outcome::done(1, 1)),
        row("driven, actions that are not the cells", drive(&A_CARD_TURNED, [0, 0, 0]), Outcome::done(0, 1)),
        row("driven on from a refusal", drive(&C_CARD, [0, 0, 1]), Outcome::done(1, 1)),
        row("driven on from 12", drive(&C_CARD, [1, 7, 0]), Outcome::done(0, 0)),
        row("driven into 14", drive(&C_CARD, [0, 1, 1]), refused(14, 1)),
        row("driven into 12", drive(&C_CARD, [0, 1, 2]), refused(12, 2)),
        row("driven after an opening refused by 12", drive(&C_CARD, [2, 1, 0]), refused(12, 65_535)),
        row("driven after an opening refused by 14", drive(&C_CARD_FIRST, [1, 0, 0]), refused(12, 65_535)),
        row("driven on a wrong card", drive(&A_CARD_CELL, [0, 0, 0]), refused(13, 3)),
    ]
}

/// The words as the program reads them.
pub fn bytes(words: &[u32]) -> Vec<u8> {
    words.iter().flat_map(|word| word.to_le_bytes()).collect()
}

/// Inputs of the solving program and all that it prints.
pub fn printed() -> Vec<(Vec<u8>, &'static str)> {
    let cut = |words: &[u32], length: usize| bytes(words)[..length].to_vec();
    vec![
        (bytes(&A), A_TEXT),
        (bytes(&B), "no 2\n"),
        (bytes(&C), C_TEXT),
        (bytes(&D), "no 1\n"),
        (bytes(&E), "no 1\n"),
        (bytes(&F), "yes 0 1\nfirst 0 0\ncell 0 1 0\nnext 0 0 0\n"),
        (bytes(&G), "no 4\n"),
        (bytes(&H), "no 2\n"),
        (bytes(&E_PARKED), "yes 0 1\nfirst 0 0\ncell 0 1 0\nnext 0 0 -\n"),
        (bytes(&E_LOST), "no 1\n"),
        (bytes(&G_PARKED), "yes 0 1\nfirst 0 0\ncell 0 15 0\nnext 0 0 0\n"),
        (bytes(&G_LOST), "no 4\n"),
        (bytes(&N), N_TEXT),
        (bytes(&A_NONE), A_TEXT),
        (bytes(&TIGHTEST), TIGHTEST_TEXT),
        (bytes(&TIED), TIED_TEXT),
        (bytes(&A_PARKED_1), "refused 19 1\n"),
        (bytes(&A_SPARE_25), "refused 2 0\n"),
        (Vec::new(), "refused 1 0\n"),
        (bytes(&THIRTEEN), "refused 2 0\n"),
        (bytes(&A_UNSHOWN), "refused 7 2\n"),
        (cut(&A, 1), "refused 3 0\n"),
        (cut(&A, 36), "refused 3 9\n"),
        (cut(&A, 39), "refused 3 9\n"),
        // The length comes before the words: the head of these is wrong too.
        (vec![0; 4096], "refused 2 0\n"),
        (vec![0; 4095], "refused 3 1023\n"),
        (vec![0; 4097], "refused 3 1025\n"),
        (vec![0; 4100], "refused 3 1025\n"),
        (vec![7; 100_000], "refused 3 1025\n"),
    ]
}
