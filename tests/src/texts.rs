//! Cards as KISS2 text (document 02, change 6), by hand: texts of docs/KISS2.md and others, and texts that depart from the
//! profile, each with the byte where it does. The bytes in front of the lines are 57, so the first line begins at 57; a line
//! of `reset` has 15 bytes and its bits, a line of a cell 16.

use crate::oracle::{Call, Outcome};
use crate::stations::*;

/// A text: a, o, the bits of inputs and outputs, the states, the lines and the end.
macro_rules! text {
    ($a:literal $o:literal $inputs:literal $outputs:literal $states:literal $($line:literal)*) => {
        concat!(
            "# actions ", $a, " observations ", $o, "\n.i ", $inputs, "\n.o ", $outputs, "\n.s ", $states,
            "\n.r reset\n", $($line, "\n",)*
        )
    };
}

/// A's text, the lines at 57, 74, 92 and 110; 113 bytes.
pub const A_KISS: &str = "\
# actions 02 observations 01
.i 1
.o 1
.s 00003
.r reset
0 reset c00000 0
0 c00000 c00001 1
0 c00001 c00000 0
.e
";
/// C's text, the lines at 57, 74, 91, 109 and 127; 130 bytes.
pub const C_KISS: &str = "\
# actions 02 observations 02
.i 1
.o 1
.s 00003
.r reset
0 reset c00000 0
1 reset c00001 1
1 c00000 c00001 1
0 c00001 c00000 0
.e
";
pub const A_READ: [u32; 6] = [0x80210002, 0x90000000, 0xA0000000, 0xB0000001, 0xA0100000, 0xB0000000];
pub const C_READ: [u32; 9] = [
    0x80220002, 0x90000000, 0x90010001, 0xA0000000, 0xB000FFFF, 0xB0010001, 0xA0100000, 0xB0000000, 0xB001FFFF,
];

/// F, one action and one observation; N's two cells; E parked, in whose cell nothing can occur.
const F_KISS: &str = text!("01" "01" "1" "1" "00002" "0 reset c00000 0" "0 c00000 c00000 0" ".e");
const F_READ: [u32; 4] = with(F_CARD, 2, 0xA0000000);
const E_KISS: &str = text!("01" "01" "1" "1" "00002" "0 reset c00000 0" ".e");
const E_READ: [u32; 4] = with(E_PARKED_CARD, 2, 0xA0000000);
/// Each cell names the one below it; cell 0 has no line.
const DOWN: [u32; 8] = [
    0x80110003, 0x90000002, 0xA0000001, 0xB000FFFF, 0xA0000002, 0xB0000000, 0xA0000004, 0xB0000001,
];
const DOWN_KISS: &str =
    text!("01" "01" "1" "1" "00004" "0 reset c00002 0" "0 c00001 c00000 0" "0 c00002 c00001 0" ".e");
const DOWN_READ: [u32; 8] = with(with(with(DOWN, 2, 0xA0000000), 4, 0xA0000000), 6, 0xA0000000);
/// Three observations in two bits, five actions in three.
pub const TRIO: [u32; 12] = [
    0x80530002, 0x90000000, 0x9001FFFF, 0x90020001, 0xA0400005, 0xB000FFFF, 0xB0010001, 0xB0020000, 0xA0300FFF,
    0xB0000000, 0xB001FFFF, 0xB002FFFF,
];
/// The lines at 57, 77, 97, 118, 139 and 160.
pub const TRIO_KISS: &str = text!("05" "03" "2" "3" "00003"
    "00 reset c00000 100"
    "10 reset c00001 011"
    "01 c00000 c00001 011"
    "10 c00000 c00000 100"
    "00 c00001 c00000 100"
    ".e");
const TRIO_READ: [u32; 12] = with(with(TRIO, 4, 0xA0400000), 8, 0xA0300000);
/// Four observations in two bits, three actions in two. In cell 0, which is entered, nothing can occur.
const QUAD: [u32; 15] = [
    0x80340002, 0x9000FFFF, 0x9001FFFF, 0x9002FFFF, 0x90030001, 0xA0200001, 0xB000FFFF, 0xB001FFFF, 0xB002FFFF,
    0xB003FFFF, 0xA0100002, 0xB0000000, 0xB0010001, 0xB0020001, 0xB0030000,
];
const QUAD_KISS: &str = text!("03" "04" "2" "2" "00003"
    "11 reset c00001 01"
    "00 c00001 c00000 10"
    "01 c00001 c00001 01"
    "10 c00001 c00001 01"
    "11 c00001 c00000 10"
    ".e");
const QUAD_READ: [u32; 15] = with(with(QUAD, 5, 0xA0200000), 10, 0xA0100000);
/// Five observations in three bits, four actions in two.
const QUINT: [u32; 12] = [
    0x80450001, 0x9000FFFF, 0x9001FFFF, 0x9002FFFF, 0x9003FFFF, 0x90040000, 0xA0300000, 0xB0000000, 0xB001FFFF,
    0xB002FFFF, 0xB003FFFF, 0xB0040000,
];
const QUINT_KISS: &str =
    text!("04" "05" "3" "2" "00002" "100 reset c00000 11" "000 c00000 c00000 11" "100 c00000 c00000 11" ".e");
/// Eight observations and eight actions; everything can occur.
const EIGHT: [u32; 18] = [
    0x80880001, 0x90000000, 0x90010000, 0x90020000, 0x90030000, 0x90040000, 0x90050000, 0x90060000, 0x90070000,
    0xA0700ABC, 0xB0000000, 0xB0010000, 0xB0020000, 0xB0030000, 0xB0040000, 0xB0050000, 0xB0060000, 0xB0070000,
];
const EIGHT_KISS: &str = text!("08" "08" "3" "3" "00002"
    "000 reset c00000 111"
    "001 reset c00000 111"
    "010 reset c00000 111"
    "011 reset c00000 111"
    "100 reset c00000 111"
    "101 reset c00000 111"
    "110 reset c00000 111"
    "111 reset c00000 111"
    "000 c00000 c00000 111"
    "001 c00000 c00000 111"
    "010 c00000 c00000 111"
    "011 c00000 c00000 111"
    "100 c00000 c00000 111"
    "101 c00000 c00000 111"
    "110 c00000 c00000 111"
    "111 c00000 c00000 111"
    ".e");
const EIGHT_READ: [u32; 18] = with(EIGHT, 9, 0xA0700000);

/// Cards without idle cells, their texts, and the cards that are read back.
pub const TEXTS: [(&str, &[u32], &str, &[u32]); 9] = [
    ("A as text", &A_CARD, A_KISS, &A_READ),
    ("C as text", &C_CARD, C_KISS, &C_READ),
    ("F as text", &F_CARD, F_KISS, &F_READ),
    ("E parked, as text", &E_PARKED_CARD, E_KISS, &E_READ),
    ("each cell names the one below, as text", &DOWN, DOWN_KISS, &DOWN_READ),
    ("three observations, five actions", &TRIO, TRIO_KISS, &TRIO_READ),
    ("four observations, three actions", &QUAD, QUAD_KISS, &QUAD_READ),
    ("five observations, four actions", &QUINT, QUINT_KISS, &QUINT),
    ("eight observations, eight actions", &EIGHT, EIGHT_KISS, &EIGHT_READ),
];

/// Texts that depart, each with the byte.
pub const DEPARTURES: [(&str, &str, u64); 70] = [
    ("no bytes", "", 0),
    ("one byte", "#", 1),
    ("a byte before", " # actions 02 observations 01", 0),
    ("no blank behind the sharp", "#actions 02", 1),
    ("another word", "# Actions 02 observations 01", 2),
    // The numbers in front.
    ("no action", text!("00" "01" "1" "1" "00003"), 11),
    ("nine actions", text!("09" "01" "1" "3" "00003"), 11),
    ("ten actions", text!("10" "01" "1" "1" "00003"), 10),
    ("actions in one digit", text!("2" "01" "1" "1" "00003"), 10),
    ("no observation", text!("02" "00" "1" "1" "00003"), 27),
    ("nine observations", text!("02" "09" "3" "1" "00003"), 27),
    ("eighteen observations", text!("02" "18" "3" "1" "00003"), 26),
    ("no newline", "# actions 02 observations 01 ", 28),
    ("CRLF", "# actions 02 observations 01\r\n", 28),
    ("a comment more", "# actions 02 observations 01\n# and more\n", 29),
    ("two bits for one observation", text!("02" "01" "2" "1" "00003"), 32),
    ("no bit for one observation", text!("02" "01" "0" "1" "00003"), 32),
    ("one bit for three observations", text!("02" "03" "1" "1" "00003"), 32),
    ("three bits for four observations", text!("02" "04" "3" "1" "00003"), 32),
    ("two bits for five observations", text!("02" "05" "2" "1" "00003"), 32),
    ("two bits for two actions", text!("02" "01" "1" "2" "00003"), 37),
    ("two bits for five actions", text!("05" "01" "1" "2" "00003"), 37),
    ("three bits for four actions", text!("04" "01" "1" "3" "00003"), 37),
    ("four bits for eight actions", text!("08" "08" "3" "4" "00003"), 37),
    ("no state", text!("02" "01" "1" "1" "00000"), 46),
    ("one state", text!("02" "01" "1" "1" "00001"), 46),
    ("4,098 states", text!("02" "01" "1" "1" "04098"), 46),
    ("4,100 states", text!("02" "01" "1" "1" "04100"), 44),
    ("5,000 states", text!("02" "01" "1" "1" "05000"), 43),
    ("10,000 states", text!("02" "01" "1" "1" "10000"), 42),
    ("states in four digits", text!("02" "01" "1" "1" "0003"), 46),
    ("the number of lines", "# actions 02 observations 01\n.i 1\n.o 1\n.s 00003\n.p 3\n", 49),
    ("another reset state", "# actions 02 observations 01\n.i 1\n.o 1\n.s 00003\n.r c00000\n", 51),
    // Cut short, and bytes behind the end.
    ("no line and no end", text!("02" "01" "1" "1" "00003"), 57),
    ("cut short in a name", "# actions 02 observations 01\n.i 1\n.o 1\n.s 00003\n.r reset\n0 reset c000", 69),
    ("cut short before the end", text!("02" "01" "1" "1" "00003" "0 reset c00000 0"), 74),
    ("a line that is not written to its end", text!("02" "01" "1" "1" "00003" "0 reset c00000"), 71),
    ("a blank line", text!("02" "01" "1" "1" "00003" "" "0 reset c00000 0" ".e"), 57),
    (".end", text!("02" "01" "1" "1" "00003" ".end"), 59),
    ("a newline behind the end", text!("01" "01" "1" "1" "00002" "0 reset c00000 0" ".e" ""), 77),
    ("a line behind the end", text!("01" "01" "1" "1" "00002" ".e" "0 reset c00000 0"), 60),
    // Spaces and names.
    ("two blanks", text!("02" "01" "1" "1" "00003" "0  reset c00000 0"), 59),
    ("a tab", text!("02" "01" "1" "1" "00003" "0\treset c00000 0"), 58),
    ("a blank at the end of the line", text!("02" "01" "1" "1" "00003" "0 reset c00000 0 "), 73),
    ("a blank before the line", text!("02" "01" "1" "1" "00003" " 0 reset c00000 0"), 57),
    ("a name in capitals", text!("02" "01" "1" "1" "00003" "0 reset C00000 0"), 65),
    ("a name of four digits", text!("02" "01" "1" "1" "00003" "0 reset c0000 0"), 70),
    ("another state", text!("02" "01" "1" "1" "00003" "0 start c00000 0"), 59),
    ("back to reset", text!("02" "01" "1" "1" "00003" "0 reset reset 0"), 65),
    // Observations and outputs.
    ("observation 1 of one", text!("02" "01" "1" "1" "00003" "1 reset c00000 0"), 57),
    ("observation 3 of three", text!("05" "03" "2" "3" "00003" "11 reset c00000 000"), 58),
    ("observation 6 of five", text!("02" "05" "3" "1" "00003" "110 reset c00000 0"), 58),
    ("a don't care", text!("02" "02" "1" "1" "00003" "- reset c00000 0"), 57),
    ("action 1 of one", text!("01" "02" "1" "1" "00003" "0 reset c00000 1"), 72),
    ("action 5 of five", text!("05" "03" "2" "3" "00003" "00 reset c00000 101"), 75),
    ("action 6 of five", text!("05" "03" "2" "3" "00003" "00 reset c00000 110"), 74),
    ("an output that is not the state's", text!("05" "03" "2" "3" "00003" "00 reset c00001 011" "10 reset c00001 001"), 94),
    ("another, from a cell", text!("02" "01" "1" "1" "00003" "0 reset c00000 0" "0 c00000 c00000 1"), 90),
    // Order, and states beyond the count.
    ("a line of reset twice", text!("02" "01" "1" "1" "00003" "0 reset c00000 0" "0 reset c00000 0"), 76),
    ("observation 0 behind 1", text!("02" "02" "1" "1" "00003" "1 reset c00001 1" "0 reset c00000 0"), 76),
    ("reset behind a cell", text!("02" "02" "1" "1" "00003" "0 c00000 c00000 0" "1 reset c00001 1"), 77),
    ("a line of a cell twice", text!("02" "02" "1" "1" "00003" "0 c00000 c00001 1" "0 c00000 c00001 1"), 82),
    ("the same of the last cell", text!("02" "02" "1" "1" "00003" "0 c00001 c00001 1" "0 c00001 c00001 1"), 75),
    ("only the end can follow", text!("02" "02" "1" "1" "00003" "1 c00001 c00001 1" "1 c00001 c00001 1"), 75),
    ("of the last cell, the second bit", text!("05" "03" "2" "3" "00002" "00 c00000 c00000 011" "00 c00000 c00000 011"), 79),
    ("of the last cell, the first bit", text!("05" "03" "2" "3" "00002" "01 c00000 c00000 011" "00 c00000 c00000 011"), 78),
    ("a cell behind a higher one", text!("02" "02" "1" "1" "00012" "0 c00010 c00001 1" "1 c00009 c00001 1"), 81),
    ("a state beyond the count", text!("02" "01" "1" "1" "00003" "0 reset c00000 0" "0 c00002 c00000 0"), 81),
    ("a cell named beyond the count", text!("02" "01" "1" "1" "00003" "0 reset c00002 0"), 70),
    ("cell 4,096", text!("02" "01" "1" "1" "04097" "0 reset c04096 0"), 70),
];

/// Texts with an idle state, each with the cell.
const IDLE_TEXTS: [(&str, &str, u64); 7] = [
    ("20, nothing can occur", text!("02" "01" "1" "1" "00002" ".e"), 0),
    ("20, no line of reset", text!("02" "01" "1" "1" "00002" "0 c00000 c00000 0" ".e"), 0),
    ("20, the count is too large", text!("02" "01" "1" "1" "00004" "0 reset c00000 0" "0 c00000 c00001 1" ".e"), 2),
    ("20, the largest count", text!("02" "01" "1" "1" "04097" "0 reset c00000 0" ".e"), 1),
    ("20, a state that names itself alone", text!("02" "01" "1" "1" "00003" "0 reset c00000 0" "0 c00001 c00001 1" ".e"), 1),
    ("20, entered from it alone", text!("02" "01" "1" "1" "00003" "0 reset c00001 0" "0 c00000 c00001 0" ".e"), 0),
    ("20, the lower of two", text!("02" "01" "1" "1" "00005" "0 reset c00003 0" "0 c00003 c00000 1" ".e"), 1),
];

fn row(name: &'static str, call: Call<'static>, outcome: Outcome) -> Row {
    Row { name, call, outcome }
}

fn write(card: &'static [u32], text: usize) -> Call<'static> {
    Call::WriteKiss { card, text }
}

fn read(text: &'static str, out: usize) -> Call<'static> {
    Call::ReadKiss { text: text.as_bytes(), out }
}

/// Each text written and read, with exact room, with more, and one byte or word short.
pub fn texts() -> Vec<Row> {
    let rows = |(name, card, text, back): (&'static str, &'static [u32], &'static str, &'static [u32])| {
        let (bytes, words, cells) = (text.len(), back.len(), u64::from(back[0] & 0xFFFF));
        let written = || Outcome {
            answer: [0, bytes as u64, 0],
            zeroed: 0,
            written: text.bytes().map(u32::from).collect(),
        };
        let was_read = || Outcome { answer: [0, words as u64, cells], zeroed: 0, written: back.to_vec() };
        [
            row(name, write(card, bytes), written()),
            row(name, write(card, bytes + 9), written()),
            row(name, write(back, bytes), written()),
            row(name, write(card, bytes - 1), Outcome::refused(9, bytes as u64)),
            row(name, read(text, words), was_read()),
            row(name, read(text, words + 9), was_read()),
            row(name, read(text, words - 1), Outcome::refused(9, words as u64)),
        ]
    };
    TEXTS.into_iter().flat_map(rows).collect()
}

/// Texts that depart, whatever the room, and texts with an idle state, likewise.
pub fn departures() -> Vec<Row> {
    let departs = |(name, text, place)| [0, 64].map(|out| row(name, read(text, out), Outcome::refused(21, place)));
    let idle = |(name, text, cell)| [0, 64].map(|out| row(name, read(text, out), Outcome::refused(20, cell)));
    DEPARTURES.into_iter().flat_map(departs).chain(IDLE_TEXTS.into_iter().flat_map(idle)).collect()
}

const A_CARD_SPARE: [u32; 6] = with(A_CARD, 5, 0xB1000000);
const A_CARD_NO_FIRST: [u32; 6] = with(A_CARD, 1, 0x9000FFFF);
/// Cell 1 is named by nothing.
const A_CARD_STAYING: [u32; 6] = with(A_CARD, 3, 0xB0000000);
/// A word wrong in the idle cell.
const STAYING_WRONG: [u32; 6] = with(A_CARD_STAYING, 5, 0xB0000002);

/// What else writing and reading refuse, and in which order.
pub fn text_refusals() -> Vec<Row> {
    let refused = Outcome::refused;
    vec![
        row("13, no words", write(&[], 900), refused(13, 0)),
        row("13, a table", write(&A, 900), refused(13, 0)),
        row("13, length", write(&A_CARD[..5], 900), refused(13, 5)),
        row("13, spare bit", write(&A_CARD_SPARE, 900), refused(13, 5)),
        row("20, no first word names a cell", write(&A_CARD_NO_FIRST, 900), refused(20, 0)),
        row("20, the last cell", write(&A_CARD_STAYING, 900), refused(20, 1)),
        row("20, the first cell", write(&TIGHTEST_CARD, 900), refused(20, 0)),
        row("20, named by an idle cell alone", write(&REMOTE, 900), refused(20, 1)),
        row("20, the lowest of some", write(&SCATTERED, 900), refused(20, 0)),
        row("20, no first word, though cell 0 leads on", write(&UNENTERED_TRIMMED, 900), refused(20, 0)),
        row("9, no room for the text", write(&A_CARD, 0), refused(9, 113)),
        row("9, no room for the card", read(A_KISS, 0), refused(9, 6)),
        row("order: 13 before 20", write(&STAYING_WRONG, 900), refused(13, 5)),
        row("order: 13 before 9", write(&A_CARD_SPARE, 0), refused(13, 5)),
        row("order: 20 before 9, written", write(&A_CARD_STAYING, 0), refused(20, 1)),
        row("order: 21 before 20", read(text!("02" "01" "1" "1" "00003" ".e" ""), 64), refused(21, 60)),
        row("order: 21 before 9", read("", 0), refused(21, 0)),
    ]
}

/// Every row.
pub fn rows() -> impl Iterator<Item = Row> {
    texts().into_iter().chain(departures()).chain(text_refusals())
}
