//! The typed functions on the stations of docs/FORMAT.md and README.md, and on one with a parked state.

use kirdanzug::*;

const A: [u32; 10] = [
    0x10010203, 0x20000001, 0x30000004, 0x40000007, 0x50000002, 0x50010000, 0x50020004, 0x50100004, 0x50110001,
    0x50120004,
];
const A_CARD: [u32; 6] = [0x80210002, 0x90000000, 0xA0000001, 0xB0000001, 0xA0100002, 0xB0000000];
/// A with start {0, 1}.
const B: [u32; 10] = with(A, 1, 0x20000003);
/// B with two observations, {0} and {1, 2}.
const C: [u32; 11] = [
    0x10020203, 0x20000003, 0x30000004, 0x40000001, 0x40010006, 0x50000002, 0x50010000, 0x50020004, 0x50100004,
    0x50110001, 0x50120004,
];
const C_CARD: [u32; 9] = [
    0x80220002, 0x90000000, 0x90010001, 0xA0000001, 0xB000FFFF, 0xB0010001, 0xA0100002, 0xB0000000, 0xB001FFFF,
];

const fn with<const N: usize>(mut words: [u32; N], place: usize, word: u32) -> [u32; N] {
    words[place] = word;
    words
}

/// Solves with all the room that a table may need; the card's words are copied.
fn solved(table: &[u32]) -> Result<Option<(u32, Vec<u32>)>, Refusal> {
    let (mut work, mut room) = (vec![7; WORK_WORDS_MAX], vec![7; CARD_WORDS_MAX]);
    Ok(match solve(table, &mut work, &mut room)? {
        Verdict::Yes { settled, cells, card } => {
            assert_eq!(check_card(card).map(|size| size.cells), Ok(cells));
            Some((settled, card.to_vec()))
        }
        Verdict::No { .. } => None,
    })
}

/// A result's refusal as number and place.
fn refused<T: std::fmt::Debug>(result: Result<T, Refusal>) -> (u32, u64) {
    let refusal = result.expect_err("the call is refused");
    (refusal.number(), refusal.place())
}

#[test]
fn verdicts() {
    assert_eq!(solved(&A), Ok(Some((2, A_CARD.to_vec()))));
    assert_eq!(solved(&C), Ok(Some((2, C_CARD.to_vec()))));
    let (mut work, mut room) = ([0; work_words(3)], [0; 6]);
    assert_eq!(solve(&B, &mut work, &mut room), Ok(Verdict::No { round: 2 }));
    assert_eq!(refused(solve(&A, &mut work[1..], &mut room)), (Refusal::WORK_ROOM, 32));
    assert_eq!(refused(solve(&A, &mut work, &mut room[1..])), (Refusal::CARD_ROOM, 6));
    assert_eq!(solve(&A, &mut work, &mut room), Ok(Verdict::Yes { settled: 2, cells: 2, card: &A_CARD }));
}

#[test]
fn the_card_in_a_longer_room() {
    let (mut work, mut room) = ([0; work_words(3)], [9; 12]);
    assert!(matches!(solve(&C, &mut work, &mut room), Ok(Verdict::Yes { cells: 2, card, .. }) if card == C_CARD));
    assert_eq!(room[9..], [9; 3]);
}

/// Both actions lead to 0. The first is enabled in {0,1,2}, the second in {0,3}: both cells hold {0}, and the
/// second has fewer states.
const TIGHTEST: [u32; 12] = [
    0x10010204, 0x20000001, 0x30000000, 0x4000000F, 0x50000001, 0x50010001, 0x50020001, 0x50030000, 0x50100001,
    0x50110000, 0x50120000, 0x50130001,
];
const TIGHTEST_CARD: [u32; 6] = [0x80210002, 0x90000001, 0xA0000007, 0xB0000001, 0xA0100009, 0xB0000001];

#[test]
fn the_tightest_cell_is_named() {
    let (mut work, mut room) = ([0; work_words(4)], [0; 6]);
    let yes = Verdict::Yes { settled: 1, cells: 2, card: &TIGHTEST_CARD };
    assert_eq!(solve(&TIGHTEST, &mut work, &mut room), Ok(yes));
    assert_eq!(judge_card(&TIGHTEST, &room), Ok(()));
    assert_eq!(open(&room, Observation(0)), Ok(Move { cell: Cell(1), action: Action(1) }));
}

/// Every word of the card above names cell 1: cell 0 is idle.
const TIGHTEST_TRIMMED: [u32; 4] = [0x80210001, 0x90000000, 0xA0100009, 0xB0000000];

#[test]
fn idle_cells_trimmed_off() {
    let (mut work, mut room) = ([7; 3], [7; 6]);
    let trimmed = Ok(Trimmed { cells: 1, card: &TIGHTEST_TRIMMED[..] });
    assert_eq!(trim(&TIGHTEST_CARD, &mut work, &mut room), trimmed);
    assert_eq!((work, &room[4..]), ([0, 0, 7], &[7, 7][..]));
    assert_eq!(trim(&TIGHTEST_TRIMMED, &mut work[..1], &mut room[..4]), trimmed);
    for card in [&A_CARD[..], &C_CARD] {
        let same = Ok(Trimmed { cells: 2, card });
        assert_eq!(trim(card, &mut [7; trim_work_words(2)], &mut [7; 9]), same);
    }
}

#[test]
fn trim_refused() {
    let (mut work, mut room) = ([7; 2], [7; 6]);
    assert_eq!(refused(trim(&A_CARD[..5], &mut [], &mut [])), (Refusal::CARD, 5));
    assert_eq!(refused(trim(&[], &mut work, &mut room)), (Refusal::CARD, 0));
    assert_eq!(refused(trim(&TIGHTEST_CARD, &mut work[1..], &mut [])), (Refusal::WORK_ROOM, 2));
    assert_eq!(work, [7; 2]);
    assert_eq!(refused(trim(&TIGHTEST_CARD, &mut work, &mut room[3..])), (Refusal::CARD_ROOM, 4));
    assert_eq!((work, room), ([0; 2], [7; 6]));
}

#[test]
fn a_trimmed_card_does_as_before() {
    let (_, card) = solved(&TIGHTEST).expect("the table is right").expect("the answer is yes");
    let (mut work, mut room) = (vec![7; TRIM_WORK_WORDS_MAX], vec![7; card.len()]);
    let trimmed = trim(&card, &mut work, &mut room).expect("there is room").card;
    assert_eq!(check_card(trimmed), Ok(CardSize { cells: 1, observations: 1 }));
    assert_eq!(judge_card(&TIGHTEST, trimmed), Ok(()));
    let (mut before, mut after) = ([Action(9); 4], [Action(9); 4]);
    for observations in [[0, 0, 0, 0], [0, 0, 1, 0], [7, 0, 0, 0]].map(|list| list.map(Observation)) {
        assert_eq!(run(&card, &observations, &mut before), run(trimmed, &observations, &mut after));
    }
    assert_eq!(after, [Action(1); 4]);
}

/// The texts of docs/KISS2.md.
const A_KISS: &str = "\
# actions 02 observations 01
.i 1
.o 1
.s 00003
.r reset
0 reset c00000 0
0 c00000 c00001 1
0 c00001 c00000 0
.e
";
const C_KISS: &str = "\
# actions 02 observations 02
.i 1
.o 1
.s 00003
.r reset
0 reset c00000 0
1 reset c00001 1
1 c00000 c00001 1
0 c00001 c00000 0
.e
";
/// A's card as it is read back, and C's: with empty sets.
const A_READ: [u32; 6] = [0x80210002, 0x90000000, 0xA0000000, 0xB0000001, 0xA0100000, 0xB0000000];
const C_READ: [u32; 9] = with(with(C_CARD, 3, 0xA0000000), 6, 0xA0100000);

#[test]
fn cards_as_kiss() {
    let (mut text, mut room) = ([b'x'; 200], [7; 12]);
    for (card, kiss, read) in [(&A_CARD[..], A_KISS, &A_READ[..]), (&C_CARD, C_KISS, &C_READ)] {
        assert_eq!(write_kiss(card, &mut text), Ok(kiss.as_bytes()));
        assert!(text[kiss.len()..].iter().all(|&byte| byte == b'x'));
        assert_eq!(read_kiss(kiss.as_bytes(), &mut room), Ok(ReadBack { cells: 2, card: read }));
        assert!(room[read.len()..].iter().all(|&word| word == 7));
        assert_eq!(write_kiss(read, &mut text[..kiss.len()]), Ok(kiss.as_bytes()));
        (text, room) = ([b'x'; 200], [7; 12]);
    }
}

#[test]
fn kiss_refused() {
    let (mut text, mut room) = ([b'x'; 113], [7; 6]);
    assert_eq!(A_KISS.len(), 113);
    assert_eq!(refused(write_kiss(&A_CARD[..5], &mut text)), (Refusal::CARD, 5));
    assert_eq!(refused(write_kiss(&TIGHTEST_CARD, &mut [])), (Refusal::IDLE_CELL, 0));
    assert_eq!(refused(write_kiss(&with(A_CARD, 1, 0x9000FFFF), &mut text)), (Refusal::IDLE_CELL, 0));
    assert_eq!(refused(write_kiss(&with(A_CARD, 3, 0xB0000000), &mut text)), (Refusal::IDLE_CELL, 1));
    assert_eq!(refused(write_kiss(&A_CARD, &mut text[..112])), (Refusal::CARD_ROOM, 113));
    assert_eq!(text, [b'x'; 113]);
    assert_eq!(refused(read_kiss(&[], &mut [])), (Refusal::TEXT, 0));
    assert_eq!(refused(read_kiss(&A_KISS.as_bytes()[..112], &mut room)), (Refusal::TEXT, 112));
    assert_eq!(refused(read_kiss(A_KISS.replace(".i 1", ".i 2").as_bytes(), &mut room)), (Refusal::TEXT, 32));
    let other_output = A_KISS.replace("c00001 c00000 0", "c00001 c00000 1");
    assert_eq!(refused(read_kiss(other_output.as_bytes(), &mut room)), (Refusal::TEXT, 108));
    assert_eq!(refused(read_kiss(A_KISS.replace("00003", "00004").as_bytes(), &mut [])), (Refusal::IDLE_CELL, 2));
    assert_eq!(refused(read_kiss(A_KISS.as_bytes(), &mut room[1..])), (Refusal::CARD_ROOM, 6));
    assert_eq!(room, [7; 6]);
}

#[test]
fn a_card_read_back_does_as_before() {
    let (mut before, mut after) = ([Action(9); 4], [Action(9); 4]);
    for (card, read) in [(&A_CARD[..], &A_READ[..]), (&C_CARD, &C_READ)] {
        for list in 0..256 {
            let observations = [6, 4, 2, 0].map(|shift| Observation(list >> shift & 3));
            assert_eq!(run(card, &observations, &mut before), run(read, &observations, &mut after));
        }
    }
}

#[test]
fn kiss_rooms() {
    assert_eq!(kiss_bytes(2, 1, 2), A_KISS.len());
    // In C's cells an observation each cannot occur: two lines less.
    assert_eq!(kiss_bytes(2, 2, 2), C_KISS.len() + 2 * 18);
    assert_eq!((KISS_BYTES_MAX, KISS_CARD_WORDS_MAX), (721_124, 36_873));
}

#[test]
fn moves_of_a_card() {
    let entered = |cell, action| Ok(Move { cell: Cell(cell), action: Action(action) });
    assert_eq!(open(&A_CARD, Observation(0)), entered(0, 0));
    assert_eq!(step(&A_CARD, Cell(0), Observation(0)), entered(1, 1));
    assert_eq!(open(&C_CARD, Observation(1)), entered(1, 1));
    assert_eq!(refused(step(&C_CARD, Cell(0), Observation(0))), (Refusal::CANNOT_OCCUR, 0));
    assert_eq!(refused(step(&A_CARD, Cell(2), Observation(3))), (Refusal::NUMBER, 2));
    assert_eq!(refused(step(&A_CARD, Cell::NONE, Observation(0))), (Refusal::NUMBER, 65_535));
    assert_eq!(refused(open(&A_CARD[..5], Observation(0))), (Refusal::CARD, 5));
}

#[test]
fn runs() {
    let mut out = [Action(9); 5];
    let observations = [1, 0, 1, 0].map(Observation);
    assert_eq!(run(&C_CARD, &observations, &mut out), Ok(&[1, 0, 1, 0].map(Action)[..]));
    assert_eq!(out[4], Action(9));
    assert_eq!(run(&C_CARD, &[], &mut out), Ok(&[][..]));
    assert_eq!(refused(run(&C_CARD, &observations, &mut out[..3])), (Refusal::LIST_ROOM, 4));
    assert_eq!(refused(run(&C_CARD, &[Observation(0); 2], &mut out)), (Refusal::CANNOT_OCCUR, 0));
}

#[test]
fn shown_from_the_table() {
    assert_eq!(show(&A, &A_CARD, Cell(0)), Ok(&A[4..7]));
    assert_eq!(show(&A, &A_CARD, Cell(1)), Ok(&A[7..10]));
    assert_eq!(refused(show(&C, &A_CARD, Cell(0))), (Refusal::OTHER_TABLE, 0));
}

#[test]
fn cards_judged() {
    assert_eq!(judge_card(&A, &A_CARD), Ok(()));
    assert_eq!(judge_card(&C, &C_CARD), Ok(()));
    assert_eq!(refused(judge_card(&A, &with(A_CARD, 2, 0xA0000005))), (Refusal::UNCERTIFIED, 2));
    assert_eq!(refused(judge_card(&B, &A_CARD)), (Refusal::UNCERTIFIED, 1));
    assert_eq!(refused(judge_card(&C, &A_CARD)), (Refusal::OTHER_TABLE, 0));
    assert_eq!(refused(judge_card(&C, &A_CARD[..5])), (Refusal::CARD, 5));
    assert_eq!(refused(judge_card(&A[..9], &[])), (Refusal::LENGTH, 9));
}

#[test]
fn checks() {
    assert_eq!(check_table(&A), Ok(()));
    assert_eq!(check_card(&C_CARD), Ok(CardSize { cells: 2, observations: 2 }));
    assert_eq!(refused(check_table(&[])), (Refusal::NO_WORDS, 0));
    assert_eq!(refused(check_table(&A_CARD)), (Refusal::HEAD, 0));
    assert_eq!(refused(check_table(&A[..9])), (Refusal::LENGTH, 9));
    assert_eq!(refused(check_table(&with(A, 1, 0x30000001))), (Refusal::WORD, 1));
    assert_eq!(refused(check_table(&with(A, 2, 0x30000008))), (Refusal::MASK, 2));
    assert_eq!(refused(check_table(&with(A, 1, 0x20000000))), (Refusal::NO_START, 1));
    assert_eq!(refused(check_table(&with(A, 3, 0x40000003))), (Refusal::UNSHOWN, 2));
    assert_eq!(refused(check_card(&A)), (Refusal::CARD, 0));
}

/// Station A, drawn.
fn station_a() -> Fields {
    let (wait, dose) = (Action(0), Action(1));
    let mut station = Fields::new(3, 2, 1);
    station.start = StateSet::of(&[State(0)]);
    station.bad = StateSet::of(&[State(2)]);
    station.set_shown(Observation(0), &[State(0), State(1), State(2)]);
    station.set_move(wait, State(0), &[State(1)]);
    station.set_move(wait, State(2), &[State(2)]);
    station.set_move(dose, State(0), &[State(2)]);
    station.set_move(dose, State(1), &[State(0)]);
    station.set_move(dose, State(2), &[State(2)]);
    station
}

#[test]
fn fields_written() {
    let mut out = [9; 12];
    assert_eq!(write(&station_a(), &mut out), Ok(&A[..]));
    assert_eq!(out[10..], [9; 2]);
    assert_eq!(refused(write(&station_a(), &mut out[..9])), (Refusal::TABLE_ROOM, 10));
    let mut slot = station_a();
    slot.shown[1] = StateSet(1);
    assert_eq!(refused(write(&slot, &mut out)), (Refusal::UNUSED_SLOT, 0));
    assert_eq!(rewrite(&A, &mut out), Ok(&A[..]));
    assert_eq!(refused(rewrite(&A, &mut out[..9])), (Refusal::TABLE_ROOM, 10));
}

/// Document 01's station G: four states in a row; here the last is parked.
const G_PARKED: [u32; 9] = [
    0x11010104, 0x20000001, 0x30000000, 0x60000008, 0x4000000F, 0x50000002, 0x50010004, 0x50020008, 0x50030000,
];
const G_PARKED_CARD: [u32; 4] = [0x80110001, 0x90000000, 0xA000000F, 0xB0000000];

/// The station G, drawn; no state is parked yet.
fn station_g() -> Fields {
    let states = [0, 1, 2, 3].map(State);
    let mut station = Fields::new(4, 1, 1);
    station.start = StateSet::of(&states[..1]);
    station.set_shown(Observation(0), &states);
    states.windows(2).for_each(|pair| station.set_move(Action(0), pair[0], &pair[1..]));
    station
}

#[test]
fn a_finished_station() {
    let mut room = [0; TABLE_WORDS_MAX];
    let (mut work, mut card) = ([0; work_words(4)], [0; 4]);
    let mut station = station_g();
    let table = write(&station, &mut room).expect("the station is right");
    assert_eq!(table.len(), table_words(4, 1, 1));
    assert_eq!(solve(table, &mut work, &mut card), Ok(Verdict::No { round: 4 }));
    station.set_parked(&[State(3)]);
    let table = write(&station, &mut room).expect("the station is right");
    assert_eq!(table, G_PARKED);
    let yes = Verdict::Yes { settled: 0, cells: 1, card: &G_PARKED_CARD };
    assert_eq!(solve(table, &mut work, &mut card), Ok(yes));
    assert_eq!(judge_card(table, &card), Ok(()));
    assert_eq!(show(table, &card, Cell(0)), Ok(&G_PARKED[5..]));
    assert_eq!(judge(table, StateSet(8), MAX_ROUNDS), Ok(true));
    assert_eq!(rewrite(&G_PARKED, &mut [0; 9]), Ok(&G_PARKED[..]));
    station.bad = StateSet(8);
    let table = write(&station, &mut room).expect("the station is right");
    assert_eq!(solve(table, &mut work, &mut card), Ok(Verdict::No { round: 4 }));
    assert_eq!(refused(judge_card(table, &G_PARKED_CARD)), (Refusal::UNCERTIFIED, 2));
}

#[test]
fn parked_states_refused() {
    let mut room = [0; TABLE_WORDS_MAX];
    let mut station = station_g();
    station.parked = StateSet(8);
    assert_eq!(refused(write(&station, &mut room)), (Refusal::UNUSED_SLOT, 0));
    station.set_parked(&[State(1), State(2)]);
    assert_eq!((station.parked_marked, station.parked), (true, StateSet(6)));
    assert_eq!(refused(write(&station, &mut [])), (Refusal::PARKED_MOVES, 1));
    assert_eq!(refused(check_table(&with(G_PARKED, 3, 0x6000000C))), (Refusal::PARKED_MOVES, 2));
    station.set_parked(&[]);
    assert_eq!(write(&station, &mut room), Ok(&with(G_PARKED, 3, 0x60000000)[..]));
    assert_eq!(refused(write(&station, &mut room[..8])), (Refusal::TABLE_ROOM, 9));
    station.set_parked(&[State(4)]);
    assert_eq!(refused(write(&station, &mut room)), (Refusal::MASK, 3));
    assert_eq!(refused(check_table(&with(G_PARKED, 0, 0x10010104))), (Refusal::LENGTH, 9));
    for head in [0x12010104, 0x14010104, 0x18010104] {
        assert_eq!(refused(check_table(&with(G_PARKED, 0, head))), (Refusal::HEAD, 0));
    }
    assert_eq!(TABLE_WORDS_MAX, 108);
}

#[test]
#[should_panic(expected = "there is no state 3")]
fn no_move_from_another_state() {
    // Its slot would be that of the next action.
    station_a().set_move(Action(0), State(3), &[]);
}

#[test]
#[should_panic(expected = "there is no observation 1")]
fn no_other_observation() {
    station_a().set_shown(Observation(1), &[]);
}

#[test]
fn lists_and_judge() {
    let set = StateSet;
    let mut out = [set(9); 2];
    assert_eq!(join(2, &[set(1), set(2)], &[set(3)], &mut out), Ok(&[set(3)][..]));
    assert_eq!(meet(3, &[set(3)], &[set(1), set(6)], &mut out), Ok(&[set(1), set(2)][..]));
    assert_eq!(refused(join(2, &[set(1)], &[set(2)], &mut out[..1])), (Refusal::LIST_ROOM, 2));
    assert_eq!(judge(&A, set(3), 1), Ok(true));
    assert_eq!(judge(&A, set(3), 2), Ok(false));
    assert_eq!(refused(judge(&A, set(3), MAX_ROUNDS + 1)), (Refusal::ROUNDS, 5));
}

#[test]
fn sets_of_states() {
    let set = StateSet::of(&[State(0), State(2)]);
    assert_eq!(set, StateSet(5));
    assert_eq!(set.with(State(1)), StateSet(7));
    assert_eq!(set.states().collect::<Vec<_>>(), [State(0), State(2)]);
    assert!(set.contains(State(2)) && !set.contains(State(1)) && !set.contains(State(32)));
}

#[test]
fn a_refusal_is_an_error_with_its_text() {
    let error: Box<dyn std::error::Error> = step(&C_CARD, Cell(1), Observation(1)).unwrap_err().into();
    assert_eq!(
        error.to_string(),
        "refused by 14 at 1: the card says that this reading, the place, cannot occur here: the station is not where \
         the card thinks, so stop, and look at sensor and table"
    );
}
