/* Kaldvemir's census module for callers in C: rooted trivalent diagrams, their words, positions and runs, and the share book.
 *
 * Every function is proved to do what its comment says (crates/kaldvemir: the contracts of these functions pass on the promises of the
 * library). "01" is the scope document; refusals have its numbers.
 *
 * A function returns 0 where the call is accepted and the number of the refusal otherwise, unless its comment says otherwise. What it gives
 * it writes through the pointers that stand last. A refused call writes nothing at all (in compare: the side alone).
 *
 * A list is a pointer and the number of its entries, of any length. Pointers are not null, also those of empty lists, and are aligned for
 * their type; no list, book, run or number that is written overlaps any other that is passed. Nothing is kept after the return, nothing is
 * allocated, and there is no state but what the caller lends: distinct books and runs may be used from distinct threads.
 *
 * What is passed to be read must be initialised before the call: numbers, lists behind a pointer to const, a run that is not being begun and
 * the visits beside it, a book that is not being opened. What is passed to be written need not be: numbers and lists behind the other
 * pointers, the run before kaldvemir_begin and kaldvemir_begin_at, the run and its visits before kaldvemir_upto_begin, the book before
 * kaldvemir_open. Nothing there is read before the call has written it, and a refused call leaves it alone, so that after a refusal it is as
 * uninitialised as it was.
 *
 * A diagram is lent as s0, s1 and root: entry i - 1 of s0 (of s1) is the next edge round the black (white) vertex of edge i. A diagram that
 * is written has root 1 and fills the first places of its lists; the rest is untouched.
 */
#ifndef KALDVEMIR_H
#define KALDVEMIR_H

#include <stdbool.h>
#include <stddef.h>
#include <stdint.h>

#ifdef __cplusplus
extern "C" {
#endif

/* The largest size of a given diagram; of a counted, listed or shared one; the most shares of a book. */
#define KALDVEMIR_MAX_SIZE 1024
#define KALDVEMIR_MAX_LISTED 50
#define KALDVEMIR_MAX_SHARES 32

/* The numbers in a cell of a sheet of words. */
#define KALDVEMIR_CELL 52

/* Bytes enough for a row of size n, as kaldvemir_rows writes it. */
#define KALDVEMIR_ROW_BYTES(n) (9 * (size_t)(n) + 40)

/* A run: its size, whether it is fresh (0), at a diagram (1) or finished (2), and the word it is at; unused items are 0.
 * 54 numbers of 16 bits, one after another. A run through all sizes up to a bound has its bound in the place of the size. */
typedef struct {
    uint16_t size;
    uint16_t stage;
    uint16_t length;
    uint16_t items[51];
} kaldvemir_run;

/* A share book: entry j - 1 of each list is share j's. 100 numbers of 64 bits, one after another. */
typedef struct {
    uint64_t size;
    uint64_t shares;
    uint64_t latest;     /* the latest tick of an accepted call */
    uint64_t issued;     /* how many tickets have been issued */
    uint64_t next[32];   /* each share's next position */
    uint64_t ticket[32]; /* the ticket that stands at each share, 0 where none does */
    uint64_t expiry[32]; /* the tick at which that ticket lapses, 0 without a ticket */
} kaldvemir_book;

/* ---- given diagrams, 1 to 1,024 edges */

/* Check: 1 length of s0 is 0 or above 1,024; 2 lengths differ; 3 root outside 1..n; 4 an s0 entry outside 1..n; 5 the same in s1; 6 s0
 * thrice moves an edge; 7 s1 twice does; 8 not connected. */
uint16_t kaldvemir_check(const uint16_t *s0, size_t s0_len, const uint16_t *s1, size_t s1_len, uint64_t root);

/* The all-reached test: whether every mark is 1. Refuses nothing. */
bool kaldvemir_all_reached(const uint8_t *marks, size_t marks_len);

/* Relabel: writes the characteristic labelling and the word, n + 1 items at most, and the word's length. 1 to 8; 9 an output list is short
 * (n, n, and n + 1 for the word). */
uint16_t kaldvemir_relabel(const uint16_t *s0, size_t s0_len, const uint16_t *s1, size_t s1_len, uint64_t root,
                           uint16_t *t0, size_t t0_len, uint16_t *t1, size_t t1_len, uint16_t *word, size_t word_len, uint64_t *length);

/* Compare with roots: *same is 1 where some isomorphism carries root to root, otherwise 0. 1 to 8 for the first diagram, then for the
 * second; then *side is 1 or 2, and *same is untouched. Where the call is accepted *side is untouched. */
uint16_t kaldvemir_compare_rooted(const uint16_t *s0, size_t s0_len, const uint16_t *s1, size_t s1_len, uint64_t s_root,
                                  const uint16_t *t0, size_t t0_len, const uint16_t *t1, size_t t1_len, uint64_t t_root,
                                  uint64_t *same, uint64_t *side);

/* Compare without roots: the same, of isomorphisms that need not carry root to root. */
uint16_t kaldvemir_compare_unrooted(const uint16_t *s0, size_t s0_len, const uint16_t *s1, size_t s1_len, uint64_t s_root,
                                    const uint16_t *t0, size_t t0_len, const uint16_t *t1, size_t t1_len, uint64_t t_root,
                                    uint64_t *same, uint64_t *side);

/* Symmetries: how many rootings have the diagram's own word. 1 to 8. */
uint16_t kaldvemir_symmetries(const uint16_t *s0, size_t s0_len, const uint16_t *s1, size_t s1_len, uint64_t root, uint64_t *count);

/* Kept: *kept is 1 where the diagram's word is the least among those of its rootings, otherwise 0. 1 to 8. */
uint16_t kaldvemir_kept(const uint16_t *s0, size_t s0_len, const uint16_t *s1, size_t s1_len, uint64_t root, uint64_t *kept);

/* Invariants: edges fixed by s1 and by s0, cycles of i to s0(s1(i)), 12 + n - 3 e2 - 4 e3 - 6 c, and the level, which is the least common
 * multiple of the cycles' lengths. 1 to 8; 62 the level is 2^64 or more (never with fewer than 64 edges). */
uint16_t kaldvemir_invariants(const uint16_t *s0, size_t s0_len, const uint16_t *s1, size_t s1_len, uint64_t root,
                              uint16_t *e2, uint16_t *e3, uint16_t *c, int32_t *t, uint64_t *level);

/* ---- words: U = 0 or T = 1, then W = 0, F = 1, B = 2, Jd = 3 + d */

/* Read word: writes the diagram that the word spells, and its size. 21 empty or above 1,025 items; item by item: 26 an item after the stack
 * has emptied, 22 first item not 0 or 1, 23 Jd with d not below the stack height after the pop, 24 label above 1,024; at the end 25 edges
 * pending; 9. */
uint16_t kaldvemir_read_word(const uint16_t *word, size_t word_len, uint16_t *s0, size_t s0_len, uint16_t *s1, size_t s1_len, uint64_t *size);

/* The smaller of two words in dictionary order: returns 1 or 2, on equality 1. Refuses nothing. */
uint16_t kaldvemir_lesser(const uint16_t *first, size_t first_len, const uint16_t *second, size_t second_len);

/* A word in letters, as the census prints it, and their number. 22 the first item is not 0 or 1; 9. */
uint16_t kaldvemir_letters(const uint16_t *word, size_t word_len, uint8_t *letters, size_t letters_len, uint64_t *length);

/* ---- listed diagrams, 1 to 50 edges */

/* Count: how many words spell a diagram of that size. 31 size outside 1..50. */
uint16_t kaldvemir_count(uint64_t size, uint64_t *count);

/* Kept count: how many diagrams of that size are kept, and so how many classes there are without a root. 31. It counts by listing: its time grows
 * with the list, which on average doubles from a size to the next, well under a second at size 24 and years at size 50, where kaldvemir_count answers
 * at once. Both together make a summary of any sizes, a line with the size, the count and the kept count for each, as the census program prints it
 * of the sizes 1 to 9 for empty input. */
uint16_t kaldvemir_kept_count(uint64_t size, uint64_t *kept);

/* Diagram at a position, with its word and the word's length. 31; 32 position 0 or above the count; 9. */
uint16_t kaldvemir_diagram_at(uint64_t size, uint64_t position, uint16_t *s0, size_t s0_len, uint16_t *s1, size_t s1_len,
                              uint16_t *word, size_t word_len, uint64_t *length);

/* Position of a diagram. 1 to 8; 31. */
uint16_t kaldvemir_position(const uint16_t *s0, size_t s0_len, const uint16_t *s1, size_t s1_len, uint64_t root, uint64_t *position);

/* Plain walk: all words of a size, one after another, and how many numbers that is. 35 size outside 1..9; 9 fewer than 1,024 places. */
uint16_t kaldvemir_plain_walk(uint64_t size, uint16_t *words, size_t words_len, uint64_t *count);

/* Run, beginning: 31. */
uint16_t kaldvemir_begin(uint64_t size, kaldvemir_run *run);

/* Run, beginning at a position: the run that has given so many diagrams, without walking to it; its next step gives the diagram at the
 * position after. At position 0 it is fresh. 31; 32 position above the count. */
uint16_t kaldvemir_begin_at(uint64_t size, uint64_t position, kaldvemir_run *run);

/* Run, step: writes the next diagram of the run's size, its word and the word's length. After the last diagram, and whenever the run is
 * finished, it writes a length of 0 and nothing else: "end". 34 the run is neither fresh, nor at a diagram, nor finished; 9. */
uint16_t kaldvemir_step(kaldvemir_run *run, uint16_t *s0, size_t s0_len, uint16_t *s1, size_t s1_len, uint16_t *word, size_t word_len,
                        uint64_t *length);

/* Run, listing in blocks: as `rows` steps would, writes the next diagrams of the run's size, at most that many of them, one after another: s0
 * and s1 hold n entries for each, words their words and lengths the words' lengths; *given is how many there are. Fewer than `rows`: the list has
 * ended, and the run is finished. 34; 9 an output list is short: rows n, rows n, rows (n + 1) for the words, rows for the lengths. */
uint16_t kaldvemir_list(kaldvemir_run *run, uint64_t rows, uint16_t *s0, size_t s0_len, uint16_t *s1, size_t s1_len,
                        uint16_t *words, size_t words_len, uint16_t *lengths, size_t lengths_len, uint64_t *given);

/* The same with the keep mark of each diagram, 1 where it is kept and otherwise 0. 34; 9, also where there are fewer than `rows` marks. */
uint16_t kaldvemir_list_marked(kaldvemir_run *run, uint64_t rows, uint16_t *s0, size_t s0_len, uint16_t *s1, size_t s1_len,
                               uint16_t *words, size_t words_len, uint16_t *lengths, size_t lengths_len, uint8_t *marks, size_t marks_len,
                               uint64_t *given);

/* Run, rows as text: writes the rows of the next diagrams of the run's size, at most `rows` of them, over the beginning of bytes, as the census
 * prints them: position, word in letters, s0, s1, e2, e3, c, t, level, and K where the diagram is kept, otherwise a hyphen; one space between
 * them, a newline at the end, no 0 after it. *given is how many rows there are, *written how many bytes, *kept how many of their diagrams are kept.
 * The run is left as *given steps would leave it: where all are given that were left, at its last diagram and not finished. A finished run
 * gives none. 34; 9 the run is not finished and bytes has fewer than rows KALDVEMIR_ROW_BYTES(n) places. */
uint16_t kaldvemir_rows(kaldvemir_run *run, uint64_t rows, uint8_t *bytes, size_t bytes_len, uint64_t *given, uint64_t *written,
                        uint64_t *kept);

/* ---- all sizes up to a bound: the diagrams of the sizes 1 to bound, at most 50, as a single list in dictionary order of words. Beside the run
 * stand the branch visits so far: how many different lists are a beginning, non-empty and shorter than the word that it begins, of a word
 * given so far. They are 0 where the run is fresh, and the last diagram's where it is finished. */

/* Run through all sizes, beginning: writes the fresh run and its visits. 31 bound outside 1..50. */
uint16_t kaldvemir_upto_begin(uint64_t bound, kaldvemir_run *run, uint64_t *visits);

/* Run through all sizes, step: writes the next diagram and its word, the diagram's size and the word's length, and moves the run and the visits on
 * to them. After the last diagram, and whenever the run is finished, it writes a size and a length of 0, and leaves the lists alone and the run
 * finished: "end". 34 the run is neither fresh, nor at a diagram of a size up to its bound, nor finished, or the visits are not its own; 9 an output
 * list is short for the diagram that comes (its size n, n, and n + 1 for the word): at "end" none is. */
uint16_t kaldvemir_upto_step(kaldvemir_run *run, uint64_t *visits, uint16_t *s0, size_t s0_len, uint16_t *s1, size_t s1_len,
                             uint16_t *word, size_t word_len, uint64_t *size, uint64_t *length);

/* ---- a sheet of words: cells of KALDVEMIR_CELL numbers, one after another. A cell is the length of a word, 0 to 51, the word's items, and zeros. */

/* Sheet positions: writes for each cell, in its place of the two lists, the number of its refusal, 0 where it is not refused, and its position, 0
 * where it is: what reading its word into lists long enough and then asking for the position of the diagram read, with root 1, would answer. A
 * cell that is refused does not hold up the next, and no cell's answer depends on another. The rest of both lists is untouched. An empty sheet
 * writes nothing, and its lists may be empty. The call: 61 sheet_len is no multiple of KALDVEMIR_CELL; 9 a list has fewer places than the sheet
 * has cells. A cell: 61 its length is above 51, or a number after its word is not 0; then as read word, 21 its length is 0, item by item 26, 22
 * and 23, at the end 25; then 31 more than 50 edges. No cell is refused 24, since 51 items give at most 153 labels, and none 9. */
uint16_t kaldvemir_sheet_positions(const uint16_t *sheet, size_t sheet_len, uint16_t *refusals, size_t refusals_len,
                                   uint64_t *positions, size_t positions_len);

/* ---- the share book. All but open refuse 50, a book that is not valid; all but open and report then 52, a tick below the latest or from 2^48
 * on. A refused call leaves the book as it was; an accepted one keeps its tick as the latest. */

/* Open: 31; 51 shares outside 1..32. */
uint16_t kaldvemir_open(kaldvemir_book *book, uint64_t size, uint64_t shares);

/* Claim: 53 share outside 1..k; 54 length outside 1..65,535; 55 finished; 56 held and not lapsed; 57 65,535 tickets issued. */
uint16_t kaldvemir_claim(kaldvemir_book *book, uint64_t tick, uint64_t share, uint64_t length, uint64_t *ticket);

/* Take: the share where the ticket stands, its next position, the diagram there with its word, and the word's length. 58 the ticket stands
 * at no share; 59 it has lapsed; 9. */
uint16_t kaldvemir_take(kaldvemir_book *book, uint64_t tick, uint64_t ticket, uint16_t *s0, size_t s0_len, uint16_t *s1, size_t s1_len,
                        uint16_t *word, size_t word_len, uint64_t *share, uint64_t *position, uint64_t *length);

/* Commit: 58; 59; 60 not that share's next position. */
uint16_t kaldvemir_commit(kaldvemir_book *book, uint64_t tick, uint64_t ticket, uint64_t position);

/* Commit a range: the positions first, first + 1, .., last, as that many commits at that tick would, all of them or none; where one of them would be
 * refused, the number of that refusal: 58, also where last is past the share's last position; 59; 60 first above last, or not that share's next
 * position. Its time does not grow with the range. */
uint16_t kaldvemir_commit_range(kaldvemir_book *book, uint64_t tick, uint64_t ticket, uint64_t first, uint64_t last);

/* Release: 58; 59. */
uint16_t kaldvemir_release(kaldvemir_book *book, uint64_t tick, uint64_t ticket);

/* Report: the number of committed positions, and 1 where every share is finished, otherwise 0. */
uint16_t kaldvemir_report(const kaldvemir_book *book, uint64_t *committed, uint64_t *complete);

#ifdef __cplusplus
}
#endif

#endif
