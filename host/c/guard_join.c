/* Joins of random and broken storage. A good join, broken in known ways or not at all, must have the answer that goes with them, and append
   what was measured; whatever else is broken, a refused join must change nothing, and an accepted one only what stands after the counts. No line
   that a join appends has an address. */
#include "guard.h"

#include <stdio.h>
#include <string.h>

enum { REGULAR, BRANCH, SYSCALL, ORIGINS };
enum { BIT = 1, WORD, MEMORY };
enum { CONST = 1, ADD = 4, ULT = 12, ITE = 14, EQ, AND, NOT = 18, STATE_LINE, NEXT, INPUT, BAD };
enum { START = 39, FLAG = 38, MORE_LINES = 20, MOST_EDGES = 5, MOST_DISPATCHES = 3, MOST_FLAGS = 6, NAME_BYTES = 40, NOWHERE = 777 };
static const uint64_t MOST_NID = 2149580800u;

static unsigned long known[NUMBERS], unknown[NUMBERS], joined_lines;

/* A call's own numbers. */
struct asked {
    size_t count, dispatched, flagged, mode, none;
};

/* The call that is made, and the good one that it was made from. */
static struct asked asked, good;

/* What is in use before it: lines, with the sort of each one's value, or 0 where it has none, bytes of names, and sequentials. */
static size_t lines, sorts[LINES], names_used, places_used;

/* What the good call appends, the names, and its flow. */
static size_t new_lines, new_names, new_sequentials, new_flow;
static char new_text[MOST_EDGES * NAME_BYTES + 1];

static size_t *number_in(int n) {
    return (size_t *)(void *)areas[n].at;
}

/* The place of a value of this sort. */
static uint64_t pick(size_t sort) {
    uint64_t place;
    do
        place = below(lines);
    while (sorts[place] != sort);
    return place;
}

/* A place that has no value of this sort: one of another sort, of a line without a value, or outside the list. */
static uint64_t pick_other(size_t sort) {
    uint64_t place;
    switch (below(4)) {
    case 0: return lines + below(3);
    case 1: return UINT64_MAX - below(3);
    case 2: return draw() | UINT64_C(1) << 63;
    default:
        do
            place = below(lines);
        while (sorts[place] == sort);
        return place;
    }
}

/* The sort of a role. */
static size_t role_sort(size_t role) {
    if (role < 2 || role > 75)
        return BIT;
    return role == 4 || role == 5 || role == 70 || role == 71 ? MEMORY : WORD;
}

/* Lines of all sorts and of none after the start's, in any number and order, since they need the start's alone. */
static void more_lines(void) {
    static const struct { uint64_t kind, sort, init, a, b, c; size_t value; } some[] = {
        {CONST, BIT, 0, 1, 0, 0, BIT}, {CONST, WORD, 0, 65536, 0, 0, WORD}, {STATE_LINE, BIT, 1, 0, 0, 0, BIT},
        {STATE_LINE, WORD, 1, 2, 0, 0, WORD}, {STATE_LINE, MEMORY, 0, 0, 0, 0, MEMORY}, {NOT, BIT, 0, FLAG, 0, 0, BIT},
        {AND, BIT, 0, FLAG, 1, 0, BIT}, {EQ, BIT, 0, 4, 5, 0, BIT}, {ULT, BIT, 0, 4, 5, 0, BIT}, {ITE, BIT, 0, FLAG, 0, 1, BIT},
        {ITE, WORD, 0, FLAG, 2, 3, WORD}, {ADD, WORD, 0, 4, 5, 0, WORD}, {NEXT, BIT, 0, FLAG, 1, 0, 0}, {BAD, 0, 0, FLAG, 0, 0, 0},
        {INPUT, 11, 0, 0, 0, 0, 11},
    };
    uint64_t nid = 20 + START;
    for (lines = 0; lines < START; lines++)
        sorts[lines] = lines < 2 || lines == FLAG ? BIT : lines == 35 || lines == 36 ? MEMORY : WORD;
    for (; lines < START + MORE_LINES && below(12); lines++) {
        size_t n = below(sizeof some / sizeof *some);
        put(lines, LANTHANUMBAT_HEAD(nid, some[n].kind, some[n].sort, 0, some[n].init, 0), some[n].a, some[n].b, some[n].c);
        sorts[lines] = some[n].value;
        nid += 1 + some[n].init;
    }
    words(STATE)[LINES_USED] = lines;
    words(STATE)[NEXT_NID] = nid;
}

/* A start with more lines, in a state whose counts of what a join is not lent are random. */
static void good_list(void) {
    int n;
    lend(LIST, LINES * LANTHANUMBAT_LINE);
    fill(LIST);
    lend(STATE, LANTHANUMBAT_STATE + below(3));
    fill(STATE);
    start();
    more_lines();
    for (n = EDGES_USED; n <= BADS_USED; n++)
        words(STATE)[n] = number();
    if (below(4) == 0)
        words(STATE)[ROLES] = pick(BIT);
}

static void good_flags(void) {
    static const uint64_t addresses[] = {0, 65536, 1234567890123, UINT64_MAX};
    size_t n;
    good.flagged = below(MOST_FLAGS + 1);
    lend(FLAGS, good.flagged * LANTHANUMBAT_FLAG + below(3));
    fill(FLAGS);
    for (n = 0; n < good.flagged; n++) {
        words(FLAGS)[n * LANTHANUMBAT_FLAG] = addresses[below(4)];
        words(FLAGS)[n * LANTHANUMBAT_FLAG + 1] = pick(BIT);
    }
}

/* Edges from addresses that have a flag. */
static void good_edges(void) {
    size_t n;
    good.count = good.flagged ? below(MOST_EDGES + 1) : 0;
    lend(EDGES, good.count * LANTHANUMBAT_EDGE + below(5));
    fill(EDGES);
    for (n = 0; n < good.count; n++) {
        uint64_t *edge = words(EDGES) + n * LANTHANUMBAT_EDGE;
        edge[1] = words(FLAGS)[below(good.flagged) * LANTHANUMBAT_FLAG];
        edge[2] = below(ORIGINS);
        edge[3] = edge[2] == BRANCH ? pick(BIT) : number();
    }
}

static void good_dispatches(void) {
    size_t n;
    good.dispatched = below(MOST_DISPATCHES + 1);
    lend(DISPATCHES, good.dispatched * LANTHANUMBAT_DISPATCH + below(3));
    fill(DISPATCHES);
    for (n = 0; n < good.dispatched; n++) {
        words(DISPATCHES)[n * LANTHANUMBAT_DISPATCH] = 1 + below(31);
        words(DISPATCHES)[n * LANTHANUMBAT_DISPATCH + 1] = pick(WORD);
    }
}

static void good_nodes(void) {
    size_t n;
    lend(DYNAMICS, LANTHANUMBAT_DYNAMICS);
    for (n = 0; n < LANTHANUMBAT_DYNAMICS; n++)
        words(DYNAMICS)[n] = pick(BIT);
    good.mode = (size_t)pick(BIT);
    good.none = (size_t)pick(BIT);
    lend(FLOW, 1);
    *number_in(FLOW) = (size_t)(below(2) ? words(STATE)[ROLES] : pick(BIT));
}

static size_t flag_of(uint64_t address) {
    size_t n = 0;
    while (words(FLAGS)[n * LANTHANUMBAT_FLAG] != address)
        n++;
    return (size_t)words(FLAGS)[n * LANTHANUMBAT_FLAG + 1];
}

/* So many lines of an edge's or a dispatch's own, with an ite unless the flow is the zero bit's place; the last of them is the flow. */
static void grow(size_t own, size_t flag) {
    size_t grown = own + (new_flow != words(STATE)[ROLES]);
    new_lines += grown;
    new_flow = grown ? lines + new_lines - 1 : flag;
}

/* What the good call appends. */
static void measure(void) {
    static const size_t own[ORIGINS] = {0, 1, 4};
    size_t n;
    new_lines = new_names = new_sequentials = 0;
    new_flow = *number_in(FLOW);
    for (n = 0; n < good.count; n++) {
        const uint64_t *edge = words(EDGES) + n * LANTHANUMBAT_EDGE;
        grow(own[edge[2]], flag_of(edge[1]));
        if (edge[2] == SYSCALL) {
            new_names += (size_t)sprintf(new_text + new_names, "kernel-mode-pc-flag-%llu", (unsigned long long)edge[1]);
            new_sequentials++;
        }
    }
    for (n = 0; n < good.dispatched; n++)
        grow(2, 0);
}

/* Room for what it appends, often for no more. */
static void good_room(void) {
    size_t more = below(2) ? 0 : below(9);
    shorten(LIST, (lines + new_lines + more) * LANTHANUMBAT_LINE + below(LANTHANUMBAT_LINE));
    words(STATE)[NAMES_USED] = names_used = below(30);
    lend(NAMES, names_used + new_names + more);
    fill(NAMES);
    lend(USED, 1);
    *number_in(USED) = places_used = below(4);
    lend(SEQUENTIALS, places_used + new_sequentials + more);
    fill(SEQUENTIALS);
}

static void good_join(void) {
    good_list();
    good_flags();
    good_edges();
    good_dispatches();
    good_nodes();
    measure();
    good_room();
    asked = good;
}

/*
 * Ways to break a good join, by the number that it is refused with; each says whether there was something to break
 */

static void set_state(size_t n, uint64_t word) {
    if (n < areas[STATE].length)
        words(STATE)[n] = word;
}

static uint64_t above(uint64_t most) {
    return below(2) ? most + 1 + below(3) : UINT64_MAX - below(3);
}

static int break_counts(void) {
    switch (below(8)) {
    case 0: set_state(LINES_USED, above(areas[LIST].length / LANTHANUMBAT_LINE)); break;
    case 1: set_state(NEXT_NID, above(MOST_NID)); break;
    case 2: set_state(NAMES_USED, above(areas[NAMES].length)); break;
    case 3: *number_in(USED) = (size_t)above(areas[SEQUENTIALS].length); break;
    case 4: asked.count = (size_t)above(areas[EDGES].length / LANTHANUMBAT_EDGE); break;
    case 5: asked.dispatched = (size_t)above(areas[DISPATCHES].length / LANTHANUMBAT_DISPATCH); break;
    case 6: asked.flagged = (size_t)above(areas[FLAGS].length / LANTHANUMBAT_FLAG); break;
    default: shorten(STATE, below(LANTHANUMBAT_STATE));
    }
    return 1;
}

static int break_roles(void) {
    size_t role = below(LANTHANUMBAT_STATE - ROLES);
    set_state(ROLES + role, pick_other(role_sort(role)));
    return 1;
}

/* The source of an edge has no flag. */
static int break_source(void) {
    if (good.count == 0)
        return 0;
    words(EDGES)[below(good.count) * LANTHANUMBAT_EDGE + 1] = NOWHERE;
    return 1;
}

static int break_flag(void) {
    if (good.flagged == 0)
        return 0;
    words(FLAGS)[below(good.flagged) * LANTHANUMBAT_FLAG + 1] = pick_other(BIT);
    return 1;
}

static int break_flags(void) {
    switch (below(6)) {
    case 0: return break_source();
    case 1: return break_flag();
    case 2: words(DYNAMICS)[below(LANTHANUMBAT_DYNAMICS)] = pick_other(BIT); break;
    case 3: asked.mode = (size_t)pick_other(BIT); break;
    case 4: asked.none = (size_t)pick_other(BIT); break;
    default: *number_in(FLOW) = (size_t)pick_other(BIT);
    }
    return 1;
}

/* An edge of no origin, or a branch without a condition. */
static int break_edge(void) {
    uint64_t *edge;
    if (good.count == 0)
        return 0;
    edge = words(EDGES) + below(good.count) * LANTHANUMBAT_EDGE;
    edge[2] = below(2) ? BRANCH : above(SYSCALL);
    edge[3] = pick_other(BIT);
    return 1;
}

/* A dispatch of x0 or of no register, or one whose address node is no word. */
static int break_dispatch(void) {
    uint64_t *dispatch;
    if (good.dispatched == 0)
        return 0;
    dispatch = words(DISPATCHES) + below(good.dispatched) * LANTHANUMBAT_DISPATCH;
    if (below(2))
        dispatch[0] = below(2) ? 0 : above(31);
    else
        dispatch[1] = pick_other(WORD);
    return 1;
}

static int break_records(void) {
    return below(2) ? break_edge() : break_dispatch();
}

/* What is appended gets less room than it needs. */
static int break_room(void) {
    switch (below(3)) {
    case 0: return new_lines && shorten(LIST, (lines + below(new_lines)) * LANTHANUMBAT_LINE + below(LANTHANUMBAT_LINE));
    case 1: return new_names && shorten(NAMES, names_used + below(new_names));
    default: return new_sequentials && shorten(SEQUENTIALS, places_used + below(new_sequentials));
    }
}

/* In the order in which they are tried. */
static const struct { uint64_t number; int (*breaks)(void); } ways[] = {
    {9, break_counts}, {13, break_roles}, {15, break_flags}, {16, break_records}, {8, break_room},
};
enum { WAYS = sizeof ways / sizeof *ways };

/* Breaks a good join not at all, in one way, or in a few. Gives the number that it must be refused with, or 0. */
static uint64_t break_join(void) {
    size_t n = below(4) ? below(5) ? 1 : 2 + below(2) : 0, first = WAYS;
    for (; n > 0; n--) {
        size_t way = below(WAYS);
        if (ways[way].breaks() && way < first)
            first = way;
    }
    return first < WAYS ? ways[first].number : 0;
}

/* Words anywhere in what is lent and given. */
static void scatter(void) {
    static const int some[] = {LIST, STATE, EDGES, DISPATCHES, FLAGS, DYNAMICS, FLOW};
    size_t n;
    for (n = below(5); n > 0; n--) {
        int area = some[below(sizeof some / sizeof *some)];
        if (areas[area].length > 0)
            words(area)[below(areas[area].length)] = below(2) ? below(lines) : number();
    }
}

/* Numbers that say something else than what is lent and given. */
static void misstate(void) {
    size_t *some[] = {&asked.count, &asked.dispatched, &asked.flagged, &asked.mode, &asked.none, number_in(USED)};
    *some[below(sizeof some / sizeof *some)] = (size_t)(below(2) ? below(6) : number());
}

/* Less storage, by a little or by much. */
static void take_away(void) {
    static const int some[] = {LIST, LIST, NAMES, SEQUENTIALS, STATE, EDGES, DISPATCHES, FLAGS};
    int area = some[below(sizeof some / sizeof *some)];
    size_t length = areas[area].length, most = below(4) && length > 5 ? 5 : length;
    shorten(area, length - below(most + 1));
}

/* A list or a state of random words. */
static void wreck(void) {
    size_t n;
    if (below(2))
        fill(LIST);
    else
        for (n = 0; n < areas[STATE].length; n++)
            words(STATE)[n] = number();
}

static void break_anything(void) {
    scatter();
    if (below(6) == 0)
        misstate();
    if (below(2))
        take_away();
    if (below(20) == 0)
        wreck();
}

/*
 * What a join leaves
 */

static uint64_t join(void) {
    return lanthanumbat_join(words(LIST), areas[LIST].length, areas[NAMES].at, areas[NAMES].length, words(SEQUENTIALS),
                             areas[SEQUENTIALS].length, words(STATE), areas[STATE].length, words(EDGES), areas[EDGES].length,
                             words(DISPATCHES), areas[DISPATCHES].length, words(FLAGS), areas[FLAGS].length, words(DYNAMICS), asked.count,
                             asked.dispatched, asked.flagged, asked.mode, asked.none, number_in(USED), number_in(FLOW));
}

/* The elements of an area changed only from `from` on and before `to`, which is not past its end. */
static int only_between(int n, uint64_t from, uint64_t to) {
    return from <= to && to <= areas[n].length && same(n, 0, (size_t)from) && same(n, (size_t)to, areas[n].length);
}

/* Whatever was in use before stays, and all that is given. What is appended is bounded by how many edges and dispatches there are. */
static void only_what_a_join_appends(void) {
    static const int given[] = {EDGES, DISPATCHES, BADS, HOST, OUT, CALLS, FLAGS, DYNAMICS};
    const uint64_t *was = (const uint64_t *)(const void *)areas[STATE].before, *is = words(STATE);
    size_t n, used = *(const size_t *)(const void *)areas[USED].before, more = *number_in(USED) - used;
    if (!only_between(LIST, was[LINES_USED] * LANTHANUMBAT_LINE, is[LINES_USED] * LANTHANUMBAT_LINE) ||
        !only_between(NAMES, was[NAMES_USED], is[NAMES_USED]) || !only_between(SEQUENTIALS, used, *number_in(USED)))
        fail("an accepted join wrote before its count or past what it appended");
    if (!addressed(was[LINES_USED], is[LINES_USED], 0, 0))
        fail("an accepted join gave a line an address");
    joined_lines += is[LINES_USED] - was[LINES_USED];
    if (!same(STATE, EDGES_USED, areas[STATE].length))
        fail("an accepted join changed a role or another count");
    for (n = 0; n < sizeof given / sizeof *given; n++)
        if (!same(given[n], 0, MOST_BYTES))
            fail("an accepted join wrote to what it is given");
    if (is[LINES_USED] - was[LINES_USED] > 5 * asked.count + 3 * asked.dispatched || more > asked.count ||
        is[NAMES_USED] - was[NAMES_USED] > NAME_BYTES * more || is[NEXT_NID] - was[NEXT_NID] != is[LINES_USED] - was[LINES_USED] + more)
        fail("an accepted join appended too much");
    if (*number_in(FLOW) >= is[LINES_USED])
        fail("an accepted join's flow is no line");
}

/* Each new sequential is a next line that was appended. */
static void next_lines(void) {
    size_t n;
    for (n = places_used; n < *number_in(USED); n++) {
        uint64_t place = words(SEQUENTIALS)[n];
        if (place < lines || place >= lines + new_lines || (words(LIST)[place * LANTHANUMBAT_LINE] & 255) != NEXT)
            fail("a sequential is no next line of the join");
    }
}

/* A good join appends what was measured, and the list with it is as good as before. */
static void just_what_was_measured(void) {
    const uint64_t *was = (const uint64_t *)(const void *)areas[STATE].before;
    uint64_t *is = words(STATE);
    if (is[LINES_USED] != lines + new_lines || is[NEXT_NID] != was[NEXT_NID] + new_lines + new_sequentials ||
        is[NAMES_USED] != names_used + new_names || *number_in(USED) != places_used + new_sequentials || *number_in(FLOW) != new_flow)
        fail("a good join appended another number of lines, bytes or places, or gave another flow");
    if (memcmp(areas[NAMES].at + names_used, new_text, new_names) != 0)
        fail("a good join put other names");
    next_lines();
    is[EDGES_USED] = is[DISPATCHES_USED] = is[BADS_USED] = 0;
    if (check_start() != 0)
        fail("a good join left a bad list");
}

static uint64_t try_join(unsigned long *by_number) {
    uint64_t refusal;
    keep(0);
    refusal = join();
    only_inside();
    by_number[refusal < NUMBERS ? refusal : 0]++;
    if (refusal != 0 && !all_same())
        fail("a refused join changed something");
    if (refusal == 0)
        only_what_a_join_appends();
    return refusal;
}

/* A join whose answer is known. */
static void try_known_join(void) {
    uint64_t wanted, refusal;
    good_join();
    wanted = break_join();
    refusal = try_join(known);
    if (refusal != wanted)
        fail("a join has another answer than how it was broken");
    else if (refusal == 0)
        just_what_was_measured();
}

/* A join whose answer is not known. */
static void try_broken_join(void) {
    size_t n;
    uint64_t refusal;
    good_join();
    break_anything();
    refusal = try_join(unknown);
    for (n = 0; refusal != 0 && n < WAYS; n++)
        if (ways[n].number == refusal)
            return;
    if (refusal != 0)
        fail("no number of a join");
}

void try_joins(void) {
    try_known_join();
    try_broken_join();
}

/* Whether each answer was given so often. */
static int often(const unsigned long *by_number, unsigned long least) {
    size_t n;
    for (n = 0; n < WAYS; n++)
        if (by_number[ways[n].number] < least)
            return 0;
    return by_number[0] >= least;
}

/* A hundredth of the rounds is often; few rounds show nothing. */
void joins_seen(long rounds) {
    unsigned long least = rounds < 10000 ? 0 : (unsigned long)rounds / 100;
    report("joins broken in known ways", known);
    report("joins on random and broken storage", unknown);
    printf("lines of joins, without an address: %lu\n", joined_lines);
    if (!failed && !(often(known, least) && often(unknown, least) && joined_lines >= least))
        fail("an answer of joins is rare");
}
