/* Random and broken storage through the library. Every area ends where memory that must not be touched begins, so that an access past its end
   ends the program, and has bytes before it that must stay as they are. A refused call must change nothing, an accepted one only what stands
   after the counts, and many calls in one must do what they do one by one. Each line that a lowering appends must have the address of its call;
   nothing may depend on the addresses that the other lines have. guard_test [ROUNDS [SEED]]; ends with status 1 where something fails. */
#include "guard.h"

#include <stdio.h>
#include <stdlib.h>
#include <string.h>

enum { KINDS = 50, SEVERAL = 6 };

static unsigned long lowerings[NUMBERS], others[NUMBERS], addressed_lines, addresses_found[2];

static void call(uint64_t *at) {
    at[0] = number();
    at[1] = below(20) ? below(KINDS) : number();
    at[2] = below(20) ? below(32) : number();
    at[3] = below(20) ? below(32) : number();
    at[4] = below(20) ? below(32) : number();
    at[5] = below(3) ? below(32) * 2 : number();
    at[6] = below(8) ? 38 : below(2) ? number() : LANTHANUMBAT_NO_FLAG;
}

/* Storage that is often right, with a few words of it broken, and some that is only random. */
static void prepare(void) {
    int n;
    size_t k;
    lend(LIST, below(8) ? (39 + below(LINES - 39)) * LANTHANUMBAT_LINE + below(LANTHANUMBAT_LINE) : below(200));
    lend(NAMES, below(120));
    lend(EDGES, below(30));
    lend(DISPATCHES, below(8));
    lend(BADS, below(4));
    lend(STATE, below(20) ? LANTHANUMBAT_STATE + below(3) : below(LANTHANUMBAT_STATE + 1));
    lend(HOST, below(20));
    lend(OUT, below(4) ? below(MOST_BYTES) : below(60));
    lend(CALLS, below(SEVERAL * LANTHANUMBAT_CALL + 1));
    for (n = 0; n < AREAS; n++)
        if (n != LIST && n != STATE)
            fill(n);
    if (below(10))
        start();
    else
        for (k = 0; k < areas[STATE].length; k++)
            words(STATE)[k] = number();
    for (k = below(3); k > 0 && areas[STATE].length > 0; k--)
        words(STATE)[below(areas[STATE].length)] = number();
    for (k = below(4); k > 0 && areas[LIST].length > 0; k--)
        words(LIST)[below(areas[LIST].length)] = below(2) ? number() : draw();
    for (k = 0; k + LANTHANUMBAT_CALL <= areas[CALLS].length; k += LANTHANUMBAT_CALL)
        call(words(CALLS) + k);
}

/* An accepted call writes a list or area only from its count before up to its count after. */
static void only_after_the_counts(void) {
    static const struct { int area, used; size_t words; } parts[] = {
        {LIST, LINES_USED, LANTHANUMBAT_LINE}, {NAMES, NAMES_USED, 1}, {EDGES, EDGES_USED, LANTHANUMBAT_EDGE},
        {DISPATCHES, DISPATCHES_USED, LANTHANUMBAT_DISPATCH}, {BADS, BADS_USED, 1},
    };
    const uint64_t *was = (const uint64_t *)(const void *)areas[STATE].before;
    size_t n;
    for (n = 0; n < sizeof parts / sizeof *parts; n++) {
        size_t from = (size_t)was[parts[n].used] * parts[n].words, to = (size_t)words(STATE)[parts[n].used] * parts[n].words;
        if (from > to || to > areas[parts[n].area].length || !same(parts[n].area, 0, from) || !same(parts[n].area, to, areas[parts[n].area].length))
            fail("an accepted call wrote before its count or past what it appended");
    }
    if (words(STATE)[LINES_USED] - was[LINES_USED] > 35 || words(STATE)[NEXT_NID] - was[NEXT_NID] != words(STATE)[LINES_USED] - was[LINES_USED])
        fail("lines and identifiers");
    if (!same(STATE, ROLES, ROLES + 39) || !same(STATE, LANTHANUMBAT_STATE, areas[STATE].length))
        fail("an accepted call wrote elsewhere in the state");
    for (n = HOST; n < AREAS; n++)
        if (!same((int)n, 0, MOST_BYTES))
            fail("an accepted call wrote elsewhere");
}

#define LENT words(LIST), areas[LIST].length, areas[NAMES].at, areas[NAMES].length, words(EDGES), areas[EDGES].length, words(DISPATCHES), areas[DISPATCHES].length, words(BADS), areas[BADS].length, words(STATE), areas[STATE].length

static uint64_t lines_in_use(void) {
    return areas[STATE].length > 0 ? words(STATE)[LINES_USED] : 0;
}

/* The lines from a place on, which an accepted call appended, have its address. */
static void has_address(uint64_t from, uint64_t address) {
    if (!addressed(from, lines_in_use(), 1, address))
        fail("a line has not the address of the call that appended it");
    addressed_lines += lines_in_use() - from;
}

static uint64_t lower(const uint64_t *c) {
    uint64_t from = lines_in_use(), refusal = lanthanumbat_lower(LENT, c[0], c[1], c[2], c[3], c[4], c[5], (size_t)c[6]);
    if (refusal == 0)
        has_address(from, c[0]);
    return refusal;
}

static void try_lower(void) {
    uint64_t c[LANTHANUMBAT_CALL], refusal;
    call(c);
    keep(0);
    refusal = lower(c);
    only_inside();
    lowerings[refusal < NUMBERS ? refusal : 0]++;
    if (refusal > 9 && refusal != 13)
        fail("no number of a lowering");
    if (refusal)
        all_same() ? (void)0 : fail("a refused lowering changed something");
    else
        only_after_the_counts();
}

static void try_lower_all(void) {
    uint64_t refusal = 99, one = 0;
    size_t done, n;
    keep(0);
    done = lanthanumbat_lower_all(LENT, words(CALLS), areas[CALLS].length, &refusal);
    only_inside();
    keep(1);
    restore();
    for (n = 0; n < areas[CALLS].length / LANTHANUMBAT_CALL && one == 0; n++)
        one = lower(words(CALLS) + n * LANTHANUMBAT_CALL);
    if (areas[STATE].length < LANTHANUMBAT_STATE)
        one = 9;
    if (areas[CALLS].length < LANTHANUMBAT_CALL && areas[STATE].length >= LANTHANUMBAT_STATE)
        one = 0;
    if (one != refusal || done != (one == 0 ? areas[CALLS].length / LANTHANUMBAT_CALL : n > 0 ? n - 1 : 0))
        fail("many calls in one give another answer than one by one");
    for (n = 0; n < AREAS; n++)
        if (memcmp(areas[n].at, areas[n].after, areas[n].length * areas[n].size) != 0)
            fail("many calls in one leave something else than one by one");
}

static uint64_t print(size_t lines, size_t from, size_t count, uint64_t *written) {
    return lanthanumbat_print(words(LIST), areas[LIST].length, lines, areas[HOST].at, areas[HOST].length, areas[NAMES].at, areas[NAMES].length, from, count, areas[OUT].at, areas[OUT].length, written);
}

static void try_print(void) {
    uint64_t written = 99, again = 99, refusal;
    size_t lines = below(4) && areas[STATE].length > 0 ? (size_t)words(STATE)[LINES_USED] : (size_t)number();
    size_t from = (size_t)(below(8) ? below(lines ? lines : 1) : number()), count = (size_t)(below(8) ? below(lines ? lines : 1) : number());
    keep(0);
    refusal = print(lines, from, count, &written);
    only_inside();
    others[refusal < NUMBERS ? refusal : 0]++;
    if (refusal != 0 && refusal != 9 && refusal != 11 && refusal != 14)
        fail("no number of printing");
    if (refusal ? written != 0 || !all_same() : written > areas[OUT].length || !same(OUT, (size_t)written, areas[OUT].length))
        fail("printing wrote what it should not");
    keep(1);
    restore();
    other_addresses();
    if (print(lines, from, count, &again) != refusal || again != written || memcmp(areas[OUT].at, areas[OUT].after, areas[OUT].length) != 0)
        fail("what is printed depends on addresses");
}

static void try_start(void) {
    uint64_t refusal;
    keep(0);
    refusal = check_start();
    only_inside();
    others[refusal < NUMBERS ? refusal : 0]++;
    if ((refusal != 0 && (refusal < 9 || refusal > 13)) || !all_same())
        fail("the check of a start");
    other_addresses();
    if (check_start() != refusal)
        fail("the check of a start depends on addresses");
}

/* Whether there is a line at the place, of so many, and it has an address. */
static int has_any_address(size_t lines, size_t place) {
    return place < lines && place < areas[LIST].length / LANTHANUMBAT_LINE && (words(LIST)[place * LANTHANUMBAT_LINE] >> 28 & 15) != 0;
}

/* The address of any line or of none, often where the words end, over any number where it goes. */
static void try_address(void) {
    size_t end = areas[LIST].length / LANTHANUMBAT_LINE, lines = (size_t)(below(4) ? lines_in_use() : number());
    size_t place = below(3) ? (size_t)below(LINES) : below(2) ? end - (size_t)below(2) : (size_t)number();
    uint64_t found;
    lend(VALUE, 1);
    fill(VALUE);
    keep(0);
    found = lanthanumbat_address(words(LIST), areas[LIST].length, lines, place, words(VALUE));
    only_inside();
    if (has_any_address(lines, place) ? found != 1 || *words(VALUE) != words(LIST)[place * LANTHANUMBAT_LINE + 4] || !all_same_but(VALUE, VALUE)
                                      : found != 0 || !all_same())
        fail("the address of a line");
    addresses_found[found == 1]++;
}

/* A hundredth of the rounds is often; few rounds show nothing. */
static void addresses_seen(long rounds) {
    unsigned long least = rounds < 10000 ? 0 : (unsigned long)rounds / 100;
    printf("lines with the address of their call: %lu\n", addressed_lines);
    printf("addresses asked for: %lu found, %lu not\n", addresses_found[1], addresses_found[0]);
    if (!failed && (addressed_lines < least || addresses_found[0] < least || addresses_found[1] < least))
        fail("addresses are rare");
}

int main(int argc, char **argv) {
    long rounds = argc > 1 ? atol(argv[1]) : 200000, n;
    if (argc > 2)
        seed(strtoull(argv[2], NULL, 10));
    map();
    for (n = 0; n < rounds && !failed; n++) {
        prepare();
        try_print();
        try_start();
        try_address();
        try_lower_all();
        restore();
        try_lower();
        try_joins();
        try_evaluations();
    }
    report("lowerings by refusal", lowerings);
    report("prints and starts", others);
    addresses_seen(rounds);
    joins_seen(rounds);
    evaluations_seen(rounds);
    puts(failed ? "failed" : "ok");
    return failed;
}
