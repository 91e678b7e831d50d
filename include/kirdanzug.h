/* Kirdanzug: safety games of imperfect information, decided, with the controller written down.
 *
 * The functions of the proved archive libabi.a (x86-64, System V calls). docs/FORMAT.md has the game
 * and the words of tables and cards, docs/KISS2.md the text of a card, docs/LIBRARY.md whole callers. An
 * observation is what the bench calls a reading.
 *
 * Every function fills the three words of `answer`:
 *   0, x, y           done; x and y are said at each function
 *   1, k, 0           solve only: no, with round number k
 *   2, number, place  refused
 *
 * A buffer is passed as a pointer and its length in words, of a text in bytes. No pointer may be null, not
 * even with length 0; buffers must be aligned, and none that is written may overlap another. Apart from that
 * nothing is asked of the caller: any words, lengths and numbers have a defined answer. A refused call
 * changes no word or byte but `answer` (refusal 9 of solve and trim alone also zeroes the work words). No function
 * keeps anything between calls or allocates memory, so calls that write different buffers may run at
 * the same time.
 *
 * The archive needs two functions from outside, memcpy and memset of the C library.
 */
#ifndef KIRDANZUG_H
#define KIRDANZUG_H

#include <stdbool.h>
#include <stddef.h>
#include <stdint.h>

#ifdef __cplusplus
extern "C" {
#endif

/* The version of this header and of the archive that it is for. */
#define KIRDANZUG_VERSION_MAJOR 0
#define KIRDANZUG_VERSION_MINOR 16
#define KIRDANZUG_VERSION_PATCH 0
#define KIRDANZUG_VERSION "0.16.0"

/* The stack that is enough for a call of any function but write_kiss and read_kiss, in bytes. Measured:
 * 6,096 (solve); some 3,100 more where memcpy and memset are bound at their first call, by the dynamic linker. The
 * rest is margin. */
#define KIRDANZUG_STACK_BYTES 12032

/* The same for write_kiss, which keeps a mark for each of 4,096 cells on the stack, and for read_kiss,
 * which keeps the words of a whole card and these marks there. No work room is lent to them. */
#define KIRDANZUG_WRITE_KISS_STACK_BYTES 24576
#define KIRDANZUG_READ_KISS_STACK_BYTES 196608

/* The same for what runs a card: check_card, open, step, run and show. Measured: 200. */
#define KIRDANZUG_RUN_STACK_BYTES 384

/* ---- Limits ---------------------------------------------------------------------------------- */

enum {
    KIRDANZUG_MAX_STATES = 12,
    KIRDANZUG_MAX_ACTIONS = 8,
    KIRDANZUG_MAX_OBSERVATIONS = 8,
    KIRDANZUG_MAX_CELLS = 4096,
    KIRDANZUG_MAX_ROUNDS = 4, /* the judge's */

    /* The slots of the fields that kirdanzug_write takes. */
    KIRDANZUG_SHOWN_SLOTS = KIRDANZUG_MAX_OBSERVATIONS,
    KIRDANZUG_MOVE_SLOTS = KIRDANZUG_MAX_ACTIONS * KIRDANZUG_MAX_STATES
};

/* The cell number that means "cannot occur". */
#define KIRDANZUG_NO_CELL 65535u

/* The words of work that solve needs for n states (n from 1 to 12). */
#define KIRDANZUG_WORK_WORDS(n) ((size_t)4 << (n))
#define KIRDANZUG_WORK_WORDS_MAX KIRDANZUG_WORK_WORDS(KIRDANZUG_MAX_STATES)

/* The words of work that trim needs for a card of this many cells. */
#define KIRDANZUG_TRIM_WORK_WORDS(cells) ((size_t)(cells))
#define KIRDANZUG_TRIM_WORK_WORDS_MAX KIRDANZUG_TRIM_WORK_WORDS(KIRDANZUG_MAX_CELLS)

/* The words of a table with this many states, actions and observations that marks no parked states; one
 * that does has one more. The second is enough for both. */
#define KIRDANZUG_TABLE_WORDS(n, a, o) ((size_t)3 + (o) + (size_t)(a) * (n))
#define KIRDANZUG_TABLE_WORDS_MAX \
    (KIRDANZUG_TABLE_WORDS(KIRDANZUG_MAX_STATES, KIRDANZUG_MAX_ACTIONS, KIRDANZUG_MAX_OBSERVATIONS) + 1)

/* The words of a card with this many cells and observations. */
#define KIRDANZUG_CARD_WORDS(cells, observations) \
    ((size_t)1 + (observations) + (size_t)(cells) * ((size_t)1 + (observations)))

/* Card words that are enough for every table: 924 cells and 8 observations. */
#define KIRDANZUG_CARD_WORDS_MAX KIRDANZUG_CARD_WORDS(924, KIRDANZUG_MAX_OBSERVATIONS)

/* Card words that are enough for every text that read_kiss reads: 4,096 cells and 8 observations. */
#define KIRDANZUG_KISS_CARD_WORDS_MAX KIRDANZUG_CARD_WORDS(KIRDANZUG_MAX_CELLS, KIRDANZUG_MAX_OBSERVATIONS)

/* The bits of an input or output in KISS2 text for so many observations or actions: the fewest that hold
 * the highest of their numbers, at least one. */
#define KIRDANZUG_KISS_BITS(count) ((size_t)((count) <= 2 ? 1 : (count) <= 4 ? 2 : 3))

/* Bytes that are enough for the KISS2 text of a card with this many cells, observations and actions: what
 * it has where every observation can occur in every cell. The second is enough for every card. */
#define KIRDANZUG_KISS_LINE_BYTES(observations, actions) \
    ((size_t)16 + KIRDANZUG_KISS_BITS(observations) + KIRDANZUG_KISS_BITS(actions))
#define KIRDANZUG_KISS_BYTES(cells, observations, actions) \
    ((size_t)60 + (size_t)(observations) * (KIRDANZUG_KISS_LINE_BYTES(observations, actions) - 1) \
     + (size_t)(cells) * (observations) * KIRDANZUG_KISS_LINE_BYTES(observations, actions))
#define KIRDANZUG_KISS_BYTES_MAX \
    KIRDANZUG_KISS_BYTES(KIRDANZUG_MAX_CELLS, KIRDANZUG_MAX_OBSERVATIONS, KIRDANZUG_MAX_ACTIONS)

/* ---- Kinds of words -------------------------------------------------------------------------- */

/* A word's kind: its bits 28 to 31. */
#define KIRDANZUG_KIND(word) ((uint32_t)(word) >> 28)

enum {
    /* of a table */
    KIRDANZUG_KIND_HEAD = 1,
    KIRDANZUG_KIND_START = 2,
    KIRDANZUG_KIND_BAD = 3,
    KIRDANZUG_KIND_SHOWN = 4, /* the states that show an observation */
    KIRDANZUG_KIND_MOVE = 5,  /* the successors of a state under an action */
    KIRDANZUG_KIND_PARKED = 6,

    /* of a card */
    KIRDANZUG_KIND_CARD_HEAD = 8,
    KIRDANZUG_KIND_FIRST = 9, /* the cell to begin in on an observation */
    KIRDANZUG_KIND_CELL = 10, /* a cell's set and its action */
    KIRDANZUG_KIND_NEXT = 11  /* the cell to go to on an observation */
};

/* ---- Answers --------------------------------------------------------------------------------- */

/* The first word of an answer. */
enum { KIRDANZUG_DONE = 0, KIRDANZUG_NO = 1, KIRDANZUG_REFUSED = 2 };

/* The numbers of refusals: when each comes; what its place is. docs/FORMAT.md says what to do about it.
 * The place of 5 is the word of the table; of the judge's mask the number of table words; of a list's
 * mask its index, the second list counted on after the first. */
enum {
    KIRDANZUG_REFUSED_NO_WORDS = 1,      /* the table has no word; 0 */
    KIRDANZUG_REFUSED_HEAD = 2,          /* the table's head, the fields' numbers or the lists' width is wrong; 0 */
    KIRDANZUG_REFUSED_LENGTH = 3,        /* the table's length is wrong; the words given */
    KIRDANZUG_REFUSED_WORD = 4,          /* a word's kind, index or spare bit is not that of its place; the word */
    KIRDANZUG_REFUSED_MASK = 5,          /* a mask names a state from n up; the word */
    KIRDANZUG_REFUSED_NO_START = 6,      /* there is no start state; 1 */
    KIRDANZUG_REFUSED_UNSHOWN = 7,       /* a state shows no observation; the lowest such state */
    KIRDANZUG_REFUSED_WORK_ROOM = 8,     /* the work room is too short; the words needed */
    KIRDANZUG_REFUSED_CARD_ROOM = 9,     /* the room for a card (solve: on a yes) or a text is too short; the words,
                                          * for a text the bytes, needed */
    KIRDANZUG_REFUSED_TABLE_ROOM = 10,   /* the room for a written table is too short; the words needed */
    KIRDANZUG_REFUSED_UNUSED_SLOT = 11,  /* an unused slot of the fields is not 0; 0 */
    KIRDANZUG_REFUSED_NUMBER = 12,       /* the card has no such cell, or else no such observation; that number */
    KIRDANZUG_REFUSED_CARD = 13,         /* the words are no card; the word (for the length, the words given) */
    KIRDANZUG_REFUSED_CANNOT_OCCUR = 14, /* by the card the observation cannot occur here: stop; the observation */
    KIRDANZUG_REFUSED_LIST_ROOM = 15,    /* the room for a list or for actions is too short; the words needed */
    KIRDANZUG_REFUSED_OTHER_TABLE = 16,  /* the card's actions or observations are not the table's; 0 */
    KIRDANZUG_REFUSED_ROUNDS = 17,       /* the judge was asked for more than 4 rounds; k */
    KIRDANZUG_REFUSED_UNCERTIFIED = 18,  /* a word of the card does not hold for the table; the lowest such word */
    KIRDANZUG_REFUSED_PARKED_MOVES = 19, /* a parked state has a successor; the lowest such state */
    KIRDANZUG_REFUSED_IDLE_CELL = 20,    /* no sequence of observations leads to a cell of the card that is written or
                                          * read as KISS2; the lowest such cell */
    KIRDANZUG_REFUSED_TEXT = 21          /* the text is not the KISS2 text of any card; the byte where it departs, its
                                          * length where it is cut short */
};

/* ---- Tables and cards ------------------------------------------------------------------------ */

/* Whether the words are a table: 0, 0, 0. Refused: 1, 2, 3, then 4 and 5 word by word, 6, 7, 19. These
 * are "the table's checks" below. */
void kirdanzug_check_table(const uint32_t *table, size_t table_length,
                           uint64_t answer[3]);

/* Whether the words are a card: 0, number of cells, number of observations. Refused: 13. */
void kirdanzug_check_card(const uint32_t *card, size_t card_length,
                          uint64_t answer[3]);

/* Writes a table of n states, a actions and o observations to the front of `out`: 0, length, 0.
 * `parked_marked` says whether the table marks parked states, and `parked` which; not marked, it is an
 * unused slot. `shown` has for each observation the states that show it, `moves` at a * n + i the
 * successors of state i under action a; slots that are not used are 0.
 * Refused: 2, 11, 5, 6, 7, 19, 10. */
void kirdanzug_write(uint32_t n, uint32_t a, uint32_t o,
                     uint32_t start, uint32_t bad,
                     bool parked_marked, uint32_t parked,
                     const uint32_t shown[KIRDANZUG_SHOWN_SLOTS],
                     const uint32_t moves[KIRDANZUG_MOVE_SLOTS],
                     uint32_t *out, size_t out_length,
                     uint64_t answer[3]);

/* Reads the table into fields and writes these again to the front of `out`: 0, length, 0.
 * Refused: the table's checks, 10. */
void kirdanzug_rewrite(const uint32_t *table, size_t table_length,
                       uint32_t *out, size_t out_length,
                       uint64_t answer[3]);

/* Writes the card without its idle cells to the front of `out`: 0, length, number of cells kept. Kept, in
 * their order and renumbered, are the cells reached from the first words by next words that name a cell;
 * where no first word names one, cell 0 counts as reached. On every list of observations the trimmed card
 * gives the same actions and refusals, what judge_card accepts stays accepted, and trimming again changes
 * nothing. The card's own length is always room enough. Refused: 13, 8, 9. After done and 9 the first
 * KIRDANZUG_TRIM_WORK_WORDS(m) words of `work` are 0, m being the card's number of cells. */
void kirdanzug_trim(const uint32_t *card, size_t card_length,
                    uint32_t *work, size_t work_length,
                    uint32_t *out, size_t out_length,
                    uint64_t answer[3]);

/* ---- KISS2 ----------------------------------------------------------------------------------- */

/* Writes a card without idle cells as KISS2 text to the front of `text`: 0, bytes, 0. docs/KISS2.md has the one
 * text that a card has: a reset state, a state for each cell, a line for each observation that can occur, the
 * output being the action of the cell entered; the cells' sets have no place in it. No zero byte is written
 * behind the text. KIRDANZUG_KISS_BYTES is room enough. Refused: 13, 20 (kirdanzug_trim takes off idle cells), 9,
 * whose place is the number of bytes needed. */
void kirdanzug_write_kiss(const uint32_t *card, size_t card_length,
                          uint8_t *text, size_t text_length,
                          uint64_t answer[3]);

/* Reads such a text back into a card whose sets are all empty, to the front of `out`: 0, words, number of cells.
 * On every list of observations it gives the same actions and refusals as the card that was written, and it is
 * written as the same text again; judge_card needs sets, and so the card that was written. `text_length` is that of
 * the text alone, without a zero byte behind it. KIRDANZUG_KISS_CARD_WORDS_MAX is always room enough. Refused: 21, 20,
 * 9, whose place is the number of words needed. */
void kirdanzug_read_kiss(const uint8_t *text, size_t text_length,
                         uint32_t *out, size_t out_length,
                         uint64_t answer[3]);

/* ---- Deciding -------------------------------------------------------------------------------- */

/* Decides the table. Yes: 0, settling count, number of cells; the card fills the front of `card`. Where
 * several of its cells hold the states in question, a first or next word names the one with the fewest
 * states, the lowest number among equals.
 * No: 1, round number, 0. Refused: the table's checks, 8, 9. After yes, no and 9 the first
 * KIRDANZUG_WORK_WORDS(n) words of `work` are 0. */
void kirdanzug_solve(const uint32_t *table, size_t table_length,
                     uint32_t *work, size_t work_length,
                     uint32_t *card, size_t card_length,
                     uint64_t answer[3]);

/* Whether the set of states is good for k rounds, k up to 4: 0, 1 or 0, 0.
 * Refused: the table's checks, 17, 5. */
void kirdanzug_judge(const uint32_t *table, size_t table_length,
                     uint32_t mask, uint32_t k,
                     uint64_t answer[3]);

/* Judges a card, whoever drew it, against the table: 0, 0, 0 where it is accepted. An accepted card keeps
 * every play clear and is never refused on a play under it; what solve wrote is accepted against its own
 * table. Refused: the table's checks, 13, 16, then 18 at the lowest word of the card at fault. */
void kirdanzug_judge_card(const uint32_t *table, size_t table_length,
                          const uint32_t *card, size_t card_length,
                          uint64_t answer[3]);

/* The maximal sets of both lists of masks of width n, ascending, at the front of `out`: 0, length, 0.
 * Refused: 2, 5, 15. */
void kirdanzug_join(uint32_t n,
                    const uint32_t *first, size_t first_length,
                    const uint32_t *second, size_t second_length,
                    uint32_t *out, size_t out_length,
                    uint64_t answer[3]);

/* The maximal intersections of one set from each list, likewise. */
void kirdanzug_meet(uint32_t n,
                    const uint32_t *first, size_t first_length,
                    const uint32_t *second, size_t second_length,
                    uint32_t *out, size_t out_length,
                    uint64_t answer[3]);

/* ---- Running a card -------------------------------------------------------------------------- */

/* Opens a run of the card with the first observation: 0, cell entered, its action.
 * Refused: 13, 12, 14. */
void kirdanzug_open(const uint32_t *card, size_t card_length,
                    uint32_t observation,
                    uint64_t answer[3]);

/* One step of a run from a cell with a later observation: 0, cell entered, its action.
 * Refused: 13, 12, 14; the run then stays in its cell. */
void kirdanzug_step(const uint32_t *card, size_t card_length,
                    uint32_t cell, uint32_t observation,
                    uint64_t answer[3]);

/* Runs the card over the observations and writes the action after each to the front of `out`:
 * 0, number of observations taken (all of them), 0. Refused: 13, with no observation too; 12 and 14
 * in the order of the observations; 15, whose place is the number of words needed. */
void kirdanzug_run(const uint32_t *card, size_t card_length,
                   const uint32_t *observations, size_t observations_length,
                   uint32_t *out, size_t out_length,
                   uint64_t answer[3]);

/* The move words of a cell's action, as a part of the table's words: 0, offset, length.
 * Refused: the table's checks, 13, 16, 12. */
void kirdanzug_show(const uint32_t *table, size_t table_length,
                    const uint32_t *card, size_t card_length,
                    uint32_t cell,
                    uint64_t answer[3]);

/* ---- Typed calls ----------------------------------------------------------------------------- */

/* The four functions that run a card, with a type for each kind of number: a call with an observation
 * where the cell belongs does not compile. The judge of cards stands with them. */
typedef struct { uint32_t number; } kirdanzug_cell;
typedef struct { uint32_t number; } kirdanzug_observation;
typedef struct { uint32_t number; } kirdanzug_action;

/* Why a call was refused; number 0 where it was not. */
typedef struct { uint32_t number; uint64_t place; } kirdanzug_refusal;

/* The cell entered and the action to take. Where the move is refused, the run stays in its cell (a
 * refused opening: KIRDANZUG_NO_CELL), and the action is KIRDANZUG_NO_ACTION. */
typedef struct { kirdanzug_refusal refusal; kirdanzug_cell cell; kirdanzug_action action; } kirdanzug_move;

/* A part of a buffer; none of it where the call is refused. */
typedef struct { kirdanzug_refusal refusal; size_t offset; size_t length; } kirdanzug_part;

#define KIRDANZUG_NO_ACTION UINT32_MAX

static inline kirdanzug_refusal kirdanzug_refusal_of(const uint64_t answer[3])
{
    kirdanzug_refusal refusal = { 0, 0 };
    if (answer[0] == KIRDANZUG_REFUSED) {
        refusal.number = (uint32_t)answer[1];
        refusal.place = answer[2];
    }
    return refusal;
}

static inline kirdanzug_move kirdanzug_move_of(const uint64_t answer[3], uint32_t cell_before)
{
    kirdanzug_move move;
    int done = answer[0] == KIRDANZUG_DONE;
    move.refusal = kirdanzug_refusal_of(answer);
    move.cell.number = done ? (uint32_t)answer[1] : cell_before;
    move.action.number = done ? (uint32_t)answer[2] : KIRDANZUG_NO_ACTION;
    return move;
}

static inline kirdanzug_move kirdanzug_typed_open(const uint32_t *card, size_t card_length,
                                                  kirdanzug_observation observation)
{
    uint64_t answer[3];
    kirdanzug_open(card, card_length, observation.number, answer);
    return kirdanzug_move_of(answer, KIRDANZUG_NO_CELL);
}

static inline kirdanzug_move kirdanzug_typed_step(const uint32_t *card, size_t card_length,
                                                  kirdanzug_cell cell, kirdanzug_observation observation)
{
    uint64_t answer[3];
    kirdanzug_step(card, card_length, cell.number, observation.number, answer);
    return kirdanzug_move_of(answer, cell.number);
}

/* Refused or not: all observations were taken, or no action was written. A struct of one word lies in
 * memory as the word does. */
static inline kirdanzug_refusal kirdanzug_typed_run(const uint32_t *card, size_t card_length,
                                                    const kirdanzug_observation *observations,
                                                    size_t observations_length,
                                                    kirdanzug_action *out, size_t out_length)
{
    uint64_t answer[3];
    kirdanzug_run(card, card_length, &observations->number, observations_length,
                  &out->number, out_length, answer);
    return kirdanzug_refusal_of(answer);
}

static inline kirdanzug_part kirdanzug_typed_show(const uint32_t *table, size_t table_length,
                                                  const uint32_t *card, size_t card_length,
                                                  kirdanzug_cell cell)
{
    uint64_t answer[3];
    kirdanzug_part part;
    int done;
    kirdanzug_show(table, table_length, card, card_length, cell.number, answer);
    done = answer[0] == KIRDANZUG_DONE;
    part.refusal = kirdanzug_refusal_of(answer);
    part.offset = done ? (size_t)answer[1] : 0;
    part.length = done ? (size_t)answer[2] : 0;
    return part;
}

/* Refused or not: a card that is not refused is accepted. */
static inline kirdanzug_refusal kirdanzug_typed_judge_card(const uint32_t *table, size_t table_length,
                                                           const uint32_t *card, size_t card_length)
{
    uint64_t answer[3];
    kirdanzug_judge_card(table, table_length, card, card_length, answer);
    return kirdanzug_refusal_of(answer);
}

#ifdef __cplusplus
}
#endif

#endif
