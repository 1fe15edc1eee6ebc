/* The diagrams of the sizes 1 to 3 come in a single list, those of the sizes 1 to 12 are counted, a sheet of words gets its positions in one call,
 * and a diagram its level. Then two sessions divide the 22 rooted diagrams of size 6, of which the first rows are printed. One of them falls asleep,
 * its ticket lapses, the other one takes its share over, and what the sleeper then says too late is refused. In the end the report says complete,
 * with 22 committed. */
#include "kaldvemir.h"

#include <inttypes.h>
#include <stdio.h>
#include <stdlib.h>

enum { BOUND = 3, UPTO_COUNT = 6, UPTO_VISITS = 6, LINES = 12, CELLS = 4, EDGES = 7, LEVEL = 12 };
enum { SIZE = 6, SHARES = 3, COUNT = 22, LEASE = 10, ROWS = 3 };

static kaldvemir_book book;
static uint64_t tick;

/* What a session holds: the share, its ticket, and the position taken last. */
typedef struct {
    const char *name;
    uint64_t share;
    uint64_t ticket;
    uint64_t position;
} session;

static void expect(const char *call, uint16_t answer, uint16_t expected) {
    if (answer != expected) {
        fprintf(stderr, "%s answered %u and not %u\n", call, (unsigned)answer, (unsigned)expected);
        exit(EXIT_FAILURE);
    }
}

/* All diagrams of the sizes 1 to 3, each with the branch visits so far. */
static void print_upto(void) {
    kaldvemir_run run;
    uint16_t s0[BOUND], s1[BOUND], word[BOUND + 1];
    uint8_t letters[3 * (BOUND + 1)];
    uint64_t visits, size, length, count, given = 0;
    expect("upto begin", kaldvemir_upto_begin(BOUND, &run, &visits), 0);
    for (;;) {
        expect("upto step", kaldvemir_upto_step(&run, &visits, s0, BOUND, s1, BOUND, word, BOUND + 1, &size, &length), 0);
        if (length == 0) {
            break;
        }
        given += 1;
        expect("letters", kaldvemir_letters(word, length, letters, sizeof letters, &count), 0);
        printf("size %" PRIu64 ", visits %" PRIu64 ": %.*s\n", size, visits, (int)count, (const char *)letters);
    }
    printf("%" PRIu64 " diagrams of the sizes 1 to %d\n", given, BOUND);
    if (given != UPTO_COUNT || visits != UPTO_VISITS) {
        fprintf(stderr, "not %d diagrams with %d visits\n", UPTO_COUNT, UPTO_VISITS);
        exit(EXIT_FAILURE);
    }
}

/* A summary: each size with the number of its diagrams and of those that are kept. */
static void print_summary(void) {
    static const uint64_t counts[LINES] = {1, 1, 4, 8, 5, 22, 42, 40, 120, 265, 286, 764};
    static const uint64_t kept_counts[LINES] = {1, 1, 2, 2, 1, 8, 6, 7, 14, 27, 26, 80};
    uint64_t count, kept = 9;
    expect("kept count of no size", kaldvemir_kept_count(0, &kept), 31);
    expect("kept count of a large size", kaldvemir_kept_count(KALDVEMIR_MAX_LISTED + 1, &kept), 31);
    if (kept != 9) {
        fprintf(stderr, "a refused kept count wrote\n");
        exit(EXIT_FAILURE);
    }
    printf("sizes with their diagrams and the kept ones:\n");
    for (uint64_t size = 1; size <= LINES; size++) {
        expect("count", kaldvemir_count(size, &count), 0);
        expect("kept count", kaldvemir_kept_count(size, &kept), 0);
        printf("%" PRIu64 " %" PRIu64 " %" PRIu64 "\n", size, count, kept);
        if (count != counts[size - 1] || kept != kept_counts[size - 1]) {
            fprintf(stderr, "not %" PRIu64 " diagrams, %" PRIu64 " kept\n", counts[size - 1], kept_counts[size - 1]);
            exit(EXIT_FAILURE);
        }
    }
}

/* A sheet of four cells, of which two are damaged: the last item of TJ1W is missing, and a number stands in the tail of UB. */
static void print_sheet(void) {
    static const uint16_t sheet[CELLS * KALDVEMIR_CELL] = {
        [0] = 2, 0, 2, /* UB */
        [KALDVEMIR_CELL] = 2, 1, 4, /* TJ1 */
        [2 * KALDVEMIR_CELL] = 3, 1, 4, 0, /* TJ1W */
        [3 * KALDVEMIR_CELL] = 2, 0, 2, 7,
    };
    static const uint16_t expected_refusals[CELLS] = {0, 25, 0, 61};
    static const uint64_t expected_positions[CELLS] = {1, 0, 4, 0};
    uint16_t refusals[CELLS] = {9, 9, 9, 9};
    uint64_t positions[CELLS] = {9, 9, 9, 9};
    /* a sheet that ends within a cell, and a list that is short */
    expect("cut sheet", kaldvemir_sheet_positions(sheet, CELLS * KALDVEMIR_CELL - 1, refusals, CELLS, positions, CELLS), 61);
    expect("short list", kaldvemir_sheet_positions(sheet, CELLS * KALDVEMIR_CELL, refusals, CELLS, positions, CELLS - 1), 9);
    for (size_t i = 0; i < CELLS; i++) {
        if (refusals[i] != 9 || positions[i] != 9) {
            fprintf(stderr, "a refused sheet wrote\n");
            exit(EXIT_FAILURE);
        }
    }
    expect("sheet", kaldvemir_sheet_positions(sheet, CELLS * KALDVEMIR_CELL, refusals, CELLS, positions, CELLS), 0);
    for (size_t i = 0; i < CELLS; i++) {
        printf("cell %zu: refusal %u, position %" PRIu64 "\n", i + 1, (unsigned)refusals[i], positions[i]);
        if (refusals[i] != expected_refusals[i] || positions[i] != expected_positions[i]) {
            fprintf(stderr, "not refusal %u, position %" PRIu64 "\n", (unsigned)expected_refusals[i], expected_positions[i]);
            exit(EXIT_FAILURE);
        }
    }
}

/* The first rows of the census of size 6. */
static void print_rows(void) {
    kaldvemir_run run;
    uint8_t bytes[ROWS * KALDVEMIR_ROW_BYTES(SIZE)];
    uint64_t given, written, kept;
    expect("begin", kaldvemir_begin(SIZE, &run), 0);
    expect("rows", kaldvemir_rows(&run, ROWS, bytes, sizeof bytes, &given, &written, &kept), 0);
    printf("the first %" PRIu64 " of %d rows, of which %" PRIu64 " are kept:\n%.*s", given, COUNT, kept, (int)written, (const char *)bytes);
}

static void claim_share(session *s, uint64_t share) {
    s->share = share;
    expect("claim", kaldvemir_claim(&book, tick, share, LEASE, &s->ticket), 0);
    printf("tick %2" PRIu64 "  %s claims share %" PRIu64 ": ticket %" PRIu64 "\n", tick, s->name, share, s->ticket);
}

static void take_next(session *s) {
    uint16_t s0[SIZE], s1[SIZE], word[SIZE + 1];
    uint8_t letters[3 * (SIZE + 1)];
    uint64_t length, count;
    expect("take", kaldvemir_take(&book, tick, s->ticket, s0, SIZE, s1, SIZE, word, SIZE + 1, &s->share, &s->position, &length), 0);
    expect("letters", kaldvemir_letters(word, length, letters, sizeof letters, &count), 0);
    printf("tick %2" PRIu64 "  %s takes %2" PRIu64 ": %.*s\n", tick, s->name, s->position, (int)count, (const char *)letters);
}

/* Commits what was taken last, and says whether the ticket has ended with that. */
static int commit_taken(session *s) {
    expect("commit", kaldvemir_commit(&book, tick, s->ticket, s->position), 0);
    printf("tick %2" PRIu64 "  %s commits %2" PRIu64 "\n", tick, s->name, s->position);
    return book.ticket[s->share - 1] != s->ticket;
}

/* Works on from the share's next position until the share is finished. */
static void finish_share(session *s) {
    do {
        take_next(s);
    } while (!commit_taken(s));
    printf("         share %" PRIu64 " is finished\n", s->share);
}

static void late_commit(session *s, uint16_t refusal, const char *why) {
    kaldvemir_book before = book;
    expect("late commit", kaldvemir_commit(&book, tick, s->ticket, s->position), refusal);
    if (book.next[s->share - 1] != before.next[s->share - 1] || book.latest != before.latest) {
        fprintf(stderr, "a refused commit altered the book\n");
        exit(EXIT_FAILURE);
    }
    printf("tick %2" PRIu64 "  %s commits %2" PRIu64 " too late: refused %u, %s\n", tick, s->name, s->position, (unsigned)refusal, why);
}

/* A pointer to a level of 16 bits, as the level once was, is not taken. */
_Static_assert(_Generic(&kaldvemir_invariants,
                        uint16_t (*)(const uint16_t *, size_t, const uint16_t *, size_t, uint64_t, uint16_t *, uint16_t *, uint16_t *,
                                     int32_t *, uint64_t *): 1,
                        default: 0),
               "the level is a number of 64 bits");

/* The level of a diagram with cycles of 3 and of 4 edges. */
static void print_level(void) {
    static const uint16_t s0[EDGES] = {2, 3, 1, 5, 6, 4, 7}, s1[EDGES] = {1, 4, 5, 2, 3, 7, 6};
    uint16_t e2, e3, c;
    int32_t t;
    uint64_t level;
    expect("invariants", kaldvemir_invariants(s0, EDGES, s1, EDGES, 1, &e2, &e3, &c, &t, &level), 0);
    printf("a diagram of %d edges, %u cycles: level %" PRIu64 "\n", EDGES, (unsigned)c, level);
    if (level != LEVEL) {
        fprintf(stderr, "not level %d\n", LEVEL);
        exit(EXIT_FAILURE);
    }
}

int main(void) {
    session ada = {"Ada", 0, 0, 0}, ben = {"Ben", 0, 0, 0};
    uint64_t committed, complete;

    print_upto();
    print_summary();
    print_sheet();
    print_level();
    print_rows();
    expect("open", kaldvemir_open(&book, SIZE, SHARES), 0);
    claim_share(&ada, 1);
    claim_share(&ben, 2);
    take_next(&ben);
    tick += 1;
    commit_taken(&ben);
    take_next(&ben); /* and falls asleep */
    finish_share(&ada);

    tick += LEASE; /* Ben's ticket has lapsed */
    late_commit(&ben, 59, "lapsed");
    claim_share(&ada, 2);
    late_commit(&ben, 58, "the ticket stands at no share");
    finish_share(&ada); /* from the position that Ben did not commit */

    claim_share(&ben, 3);
    finish_share(&ben);

    expect("report", kaldvemir_report(&book, &committed, &complete), 0);
    printf("%" PRIu64 " committed, %s\n", committed, complete == 1 ? "complete" : "not complete");
    return committed == COUNT && complete == 1 ? EXIT_SUCCESS : EXIT_FAILURE;
}
