/* The header from C: the first word of a line, then a start made with it, lowered, joined, printed, evaluated and refused, and the addresses of
   its lines. Writes what fails, and ends with status 1 where something does. */
#include "../lanthanumbat.h"

#include <stdio.h>
#include <string.h>

enum { LINES = 200, NAMES = 64, EDGES = 8, DISPATCHES = 2, BADS = 2, SEQUENTIALS = 2, TEXT = 4096 };
enum { LUI = 0, LB = 2, SB = 8, SRLIW = 22, BLTU = 45, JAL = 47, JALR = 48, ECALL = 49 };
enum { CONST = 1, READ = 2, ADD = 4, UEXT = 13, ITE = 14, NOT = 18, STATE = 19, NEXT = 20, INPUT = 21, BAD = 22 };
enum { BIT = 1, WORD = 2, MEMORY = 3, BYTE = 11 };
enum { FIRST = 20, START = 39, FLAG = 38 };
enum { LINES_USED = 0, NEXT_NID = 1, NAMES_USED = 2, EDGES_USED = 3, ROLES = 6 };

static int failed;

static void expect(int line, const char *what, int holds) {
    if (!holds) {
        printf("header_test.c:%d: %s\n", line, what);
        failed = 1;
    }
}
#define EXPECT(holds) expect(__LINE__, #holds, (holds) != 0)

/*
 * The first word
 */

/* The macro is a constant expression. */
static const uint64_t heads[] = {LANTHANUMBAT_HEAD(20, 1, 2, 0, 0, 0), LANTHANUMBAT_HEAD(UINT64_MAX, 257, 258, 259, 256, 512)};
typedef char saturated_by_the_macro[LANTHANUMBAT_HEAD(0, 257, 0, 0, 0, 0) == 255 ? 1 : -1];

/* A number, and what a field of one byte, one of four and the mark of an init or of an address make of it. */
struct field {
    uint64_t number, byte, identifier, mark;
};

static const struct field fields[] = {
    {0, 0, 0, 0},
    {1, 1, 1, 1},
    {2, 2, 2, 1},
    {127, 127, 127, 1},
    {128, 128, 128, 1},
    {254, 254, 254, 1},
    {255, 255, 255, 1},
    {256, 255, 256, 1},
    {257, 255, 257, 1},
    {65535, 255, 65535, 1},
    {65536, 255, 65536, 1},
    {16777216, 255, 16777216, 1},
    {UINT64_C(0x7fffffff), 255, UINT64_C(0x7fffffff), 1},
    {UINT64_C(0x80000000), 255, UINT64_C(0x80000000), 1},
    {UINT64_C(0xfffffffe), 255, UINT64_C(0xfffffffe), 1},
    {UINT64_C(0xffffffff), 255, UINT64_C(0xffffffff), 1},
    {UINT64_C(0x100000000), 255, UINT64_C(0xffffffff), 1},
    {UINT64_C(0x100000014), 255, UINT64_C(0xffffffff), 1},
    {UINT64_C(0x8000000000000000), 255, UINT64_C(0xffffffff), 1},
    {UINT64_MAX, 255, UINT64_C(0xffffffff), 1},
};

static void same_head(const struct field *i, const struct field *k, const struct field *s, const struct field *a, const struct field *m,
                      const struct field *h) {
    uint64_t wanted =
        i->identifier * UINT64_C(4294967296) + h->mark * 268435456 + m->mark * 16777216 + a->byte * 65536 + s->byte * 256 + k->byte;
    EXPECT(lanthanumbat_head(i->number, k->number, s->number, a->number, m->number, h->number) == wanted);
    EXPECT(LANTHANUMBAT_HEAD(i->number, k->number, s->number, a->number, m->number, h->number) == wanted);
}

static void test_heads(void) {
    const size_t count = sizeof fields / sizeof *fields;
    const struct field *zero = fields;
    size_t n, m;
    for (n = 0; n < count; n++) {
        const struct field *f = &fields[n];
        for (m = 0; m < count; m++) { /* one field at n, the others at m */
            const struct field *g = &fields[m];
            same_head(f, g, g, g, g, g);
            same_head(g, f, g, g, g, g);
            same_head(g, g, f, g, g, g);
            same_head(g, g, g, f, g, g);
            same_head(g, g, g, g, f, g);
            same_head(g, g, g, g, g, f);
        }
        same_head(f, zero, zero, zero, zero, zero);
        same_head(zero, zero, zero, zero, zero, f);
    }
    EXPECT(heads[0] == UINT64_C(20) * UINT64_C(4294967296) + 2 * 256 + 1);
    EXPECT(heads[1] == UINT64_C(0xffffffff11ffffff));
    /* arguments of other types, which are not constants either */
    {
        int kind = STATE, minus = -1;
        unsigned char sort = WORD;
        EXPECT(LANTHANUMBAT_HEAD(FIRST, kind, sort, 0, 1, 0) == lanthanumbat_head(20, 19, 2, 0, 1, 0));
        EXPECT(LANTHANUMBAT_HEAD(minus, kind, sort, 0, minus, 0) == UINT64_C(0xffffffff01000213));
        EXPECT(LANTHANUMBAT_HEAD(minus, kind, sort, 0, 0, minus) == UINT64_C(0xffffffff10000213));
    }
}

/*
 * A start, as the listing program's, with names
 */

struct storage {
    uint64_t list[LINES * LANTHANUMBAT_LINE];
    uint8_t names[NAMES];
    uint64_t edges[EDGES * LANTHANUMBAT_EDGE];
    uint64_t dispatches[DISPATCHES * LANTHANUMBAT_DISPATCH];
    uint64_t bads[BADS];
    uint64_t sequentials[SEQUENTIALS];
    uint64_t state[LANTHANUMBAT_STATE];
    size_t used, flow;
};

static const uint8_t host[] = "register memory counter flag"; /* "register" names x1 to x31 */
static struct storage s, before;

static void put(size_t place, uint64_t first, uint64_t a, uint64_t b, uint64_t c) {
    uint64_t *line = &s.list[place * LANTHANUMBAT_LINE];
    line[0] = first;
    line[1] = a;
    line[2] = b;
    line[3] = c;
    line[4] = 0;
}

static void put_state(size_t place, uint64_t sort, uint64_t at, uint64_t length) {
    put(place, lanthanumbat_head(FIRST + place, STATE, sort, 1, 0, 0), 0, at, length);
}

static void make_start(void) {
    uint64_t *role = &s.state[ROLES];
    size_t n;
    memset(&s, 0, sizeof s);
    for (n = 0; n < 2; n++) {
        put(n, lanthanumbat_head(FIRST + n, CONST, BIT, 0, 0, 0), n, 0, 0);
        put(2 + n, lanthanumbat_head(FIRST + 2 + n, CONST, WORD, 0, 0, 0), n, 0, 0);
    }
    for (n = 4; n < 35; n++)
        put_state(n, WORD, 0, 8);
    put_state(35, MEMORY, 9, 6);
    put_state(36, MEMORY, 16, 7);
    put_state(37, WORD, 16, 7);
    put_state(FLAG, BIT, 24, 4);
    s.state[LINES_USED] = START;
    s.state[NEXT_NID] = FIRST + START;
    for (n = 0; n < 4; n++)
        role[n] = n;
    for (n = 4; n < 7; n++)
        role[n] = 31 + n;
    role[7] = 2;
    for (n = 1; n < 32; n++)
        role[7 + n] = role[38 + n] = 3 + n;
    for (n = 0; n < 3; n++)
        role[70 + n] = 35 + n;
    role[73] = role[74] = 3;
    role[75] = 2;
    role[76] = role[77] = role[78] = 0;
}

static uint64_t check_start(void) {
    return lanthanumbat_check_start(s.list, LINES * LANTHANUMBAT_LINE, host, sizeof host - 1, s.names, NAMES, s.edges,
                                    EDGES * LANTHANUMBAT_EDGE, s.dispatches, DISPATCHES * LANTHANUMBAT_DISPATCH, s.bads, BADS, s.state,
                                    LANTHANUMBAT_STATE);
}

static uint64_t lower(uint64_t address, uint64_t kind, uint64_t rd, uint64_t rs1, uint64_t rs2, uint64_t imm, size_t flag) {
    return lanthanumbat_lower(s.list, LINES * LANTHANUMBAT_LINE, s.names, NAMES, s.edges, EDGES * LANTHANUMBAT_EDGE, s.dispatches,
                              DISPATCHES * LANTHANUMBAT_DISPATCH, s.bads, BADS, s.state, LANTHANUMBAT_STATE, address, kind, rd, rs1, rs2,
                              imm, flag);
}

static size_t lower_all(const uint64_t *calls, size_t words, uint64_t *refusal) {
    return lanthanumbat_lower_all(s.list, LINES * LANTHANUMBAT_LINE, s.names, NAMES, s.edges, EDGES * LANTHANUMBAT_EDGE, s.dispatches,
                                  DISPATCHES * LANTHANUMBAT_DISPATCH, s.bads, BADS, s.state, LANTHANUMBAT_STATE, calls, words, refusal);
}

static uint64_t print(size_t from, size_t count, char *out, size_t bytes, uint64_t *written) {
    return lanthanumbat_print(s.list, LINES * LANTHANUMBAT_LINE, (size_t)s.state[LINES_USED], host, sizeof host - 1, s.names, NAMES, from,
                              count, (uint8_t *)out, bytes, written);
}

static int prints(size_t from, size_t count, const char *text) {
    char out[TEXT];
    uint64_t written = 0;
    size_t length = strlen(text);
    return print(from, count, out, sizeof out, &written) == 0 && written == length && memcmp(out, text, length) == 0;
}

static int unchanged(void) {
    return memcmp(&s, &before, sizeof s) == 0;
}

/* The example of the scope document: two calls are accepted, the third is refused with 4 and changes nothing. */
static const char example[] = "59 constd 2 4096\n60 ite 2 58 59 28\n61 ult 1 28 29\n62 not 1 61\n";

static void test_calls(void) {
    static const uint64_t edges[] = {65540, 65536, 0, UINT64_MAX, 65536, 65540, 1, 41, 65544, 65540, 1, 42};
    make_start();
    EXPECT(check_start() == 0);
    EXPECT(prints(0, 5, "20 constd 1 0\n21 constd 1 1\n22 constd 2 0\n23 constd 2 1\n24 state 2 register\n"));
    EXPECT(prints(35, 4, "55 state 3 memory\n56 state 3 counter\n57 state 2 counter\n58 state 1 flag\n"));
    EXPECT(lower(65536, LUI, 5, 0, 0, 1, FLAG) == 0);
    EXPECT(lower(65540, BLTU, 0, 5, 6, (uint64_t)-4, LANTHANUMBAT_NO_FLAG) == 0); /* a branch needs none */
    EXPECT(s.state[LINES_USED] == START + 4 && s.state[EDGES_USED] == 3);
    EXPECT(memcmp(s.edges, edges, sizeof edges) == 0);
    EXPECT(prints(START, 4, example));
    before = s;
    EXPECT(lower(65544, SRLIW, 5, 5, 0, 0, FLAG) == 4 && unchanged());
    EXPECT(lower(65544, LUI, 5, 0, 0, 1, LANTHANUMBAT_NO_FLAG) == 7 && unchanged());
    EXPECT(lower(65544, ECALL, 0, 0, 0, 0, LANTHANUMBAT_NO_FLAG) == 7 && unchanged());
    EXPECT(lower(65544, LUI, 5, 0, 0, 1, LINES) == 7 && unchanged());
    EXPECT(lower(65544, LUI, 5, 0, 0, 1, 2) == 7 && unchanged()); /* a word */
    EXPECT(lower(65544, JALR, 0, 0, 0, 8, LANTHANUMBAT_NO_FLAG) == 7 && unchanged());
    EXPECT(lower(65544, JAL, 0, 0, 0, 8, LANTHANUMBAT_NO_FLAG) == 0);
    EXPECT(lower(43981, JALR, 0, 0, 0, 8, FLAG) == 0);
    EXPECT(prints(START + 4, 1, "63 bad 58 unimplemented-pc-abcd\n"));
    EXPECT(check_start() == 0);
}

static void test_many(void) {
    static const uint64_t calls[] = {
        65536, LUI, 5, 0, 0, 1, FLAG, 65540, BLTU, 0, 5, 6, (uint64_t)-4, FLAG, 65544, SRLIW, 5, 5, 0, 0, FLAG, 65548, LUI, 5, 0, 0, 1, FLAG,
    };
    uint64_t no_flag[LANTHANUMBAT_CALL] = {0, LUI, 5, 0, 0, 1, LANTHANUMBAT_NO_FLAG};
    uint64_t refusal = 99;
    make_start();
    EXPECT(lower_all(calls, sizeof calls / sizeof *calls, &refusal) == 2 && refusal == 4);
    EXPECT(s.state[LINES_USED] == START + 4 && s.state[EDGES_USED] == 3);
    EXPECT(prints(START, 4, example));
    before = s;
    EXPECT(lower_all(no_flag, LANTHANUMBAT_CALL, &refusal) == 0 && refusal == 7 && unchanged());
    EXPECT(lower_all(calls, LANTHANUMBAT_CALL - 1, &refusal) == 0 && refusal == 0 && unchanged()); /* no whole call */
    EXPECT(lower_all(calls, 0, &refusal) == 0 && refusal == 0 && unchanged());
}

static void test_printing(void) {
    char out[TEXT];
    uint64_t written = 99;
    make_start();
    memset(out, '.', sizeof out);
    EXPECT(print(0, 1, out, 13, &written) == 14 && written == 0 && out[0] == '.');
    EXPECT(print(0, 1, out, 14, &written) == 0 && written == 14 && out[13] == '\n' && out[14] == '.');
    EXPECT(print(0, START + 1, out, TEXT, &written) == 9 && written == 0);
    EXPECT(print(START, 0, out, TEXT, &written) == 0 && written == 0);
}

/* One line after the start's, with this first word and these operands. */
static uint64_t one_more(uint64_t first, uint64_t a, uint64_t b, uint64_t c) {
    make_start();
    put(START, first, a, b, c);
    s.state[LINES_USED] += 1;
    s.state[NEXT_NID] += 2;
    return check_start();
}

/* What does not fit its field is no other number: the check of a start sees it. */
static void test_wrong_lines(void) {
    static const uint64_t over[] = {256, 512, UINT64_C(4294967296), UINT64_MAX - 511};
    const uint64_t nid = FIRST + START;
    size_t n;
    EXPECT(one_more(lanthanumbat_head(nid, CONST, WORD, 0, 0, 0), 7, 0, 0) == 0);
    EXPECT(one_more(lanthanumbat_head(nid, STATE, WORD, 1, 1, 0), 2, 0, 8) == 0);
    EXPECT(one_more(lanthanumbat_head(nid, ITE, WORD, 0, 0, 0), FLAG, 2, 3) == 0);
    EXPECT(one_more(lanthanumbat_head(nid, BAD, 0, 0, 0, 0), FLAG, 0, 0) == 0);
    EXPECT(one_more(lanthanumbat_head(nid, 0, WORD, 0, 0, 0), 7, 0, 0) == 11);
    EXPECT(one_more(lanthanumbat_head(nid, 23, WORD, 0, 0, 0), 7, 0, 0) == 11);
    EXPECT(one_more(lanthanumbat_head(nid, CONST, 4, 0, 0, 0), 7, 0, 0) == 11);
    EXPECT(one_more(lanthanumbat_head(nid, STATE, WORD, 3, 0, 0), 0, 0, 1) == 11);
    EXPECT(one_more(lanthanumbat_head(nid, STATE, WORD, 1, 0, 0), 0, 28, 1) == 11); /* past the host's area */
    for (n = 0; n < sizeof over / sizeof *over; n++) {
        EXPECT(one_more(lanthanumbat_head(nid, CONST + over[n], WORD, 0, 0, 0), 7, 0, 0) == 11);
        EXPECT(one_more(lanthanumbat_head(nid, CONST, WORD + over[n], 0, 0, 0), 7, 0, 0) == 11);
        EXPECT(one_more(lanthanumbat_head(nid, STATE, WORD, 1 + over[n], 0, 0), 0, 0, 1) == 11);
        EXPECT(one_more(lanthanumbat_head(nid, STATE, WORD, 0, over[n], 0), START, 0, 0) == 11); /* the init is not lost */
        EXPECT(one_more(lanthanumbat_head(nid, STATE, WORD, 0, over[n], 0), FLAG, 0, 0) == 12);
    }
    EXPECT(one_more(lanthanumbat_head(UINT64_C(4294967296) + nid, CONST, WORD, 0, 0, 0), 7, 0, 0) == 10);
}

/* Each half of byte 3 is a mark of its own, whatever it is but 0: a state has an init by the low one, and by the high one it has none. */
static void test_marks(void) {
    const uint64_t state = lanthanumbat_head(FIRST + START, STATE, WORD, 0, 0, 0);
    uint64_t low, high;
    for (low = 0; low < 16; low++)
        for (high = 0; high < 16; high++) {
            uint64_t first = state | high << 28 | low << 24;
            EXPECT(one_more(first, 2, 0, 0) == 0);
            EXPECT(one_more(first, START, 0, 0) == (low ? 11u : 0u)); /* an init at no earlier place */
            EXPECT(one_more(first, FLAG, 0, 0) == (low ? 12u : 0u));  /* an init of another sort */
        }
}

/*
 * Joins
 */

enum { REGULAR = 0, BRANCH = 1, SYSCALL = 2 };

/* What stands after the start: the kernel nodes, the dynamic flags of x1 to x31, the flag of address 65536, and that address as a word. */
enum { MODE = START, NONE, DYNAMIC, PC_FLAG = DYNAMIC + LANTHANUMBAT_DYNAMICS, ADDRESS, READY };

struct given {
    uint64_t edges[3 * LANTHANUMBAT_EDGE], dispatches[LANTHANUMBAT_DISPATCH], flags[2 * LANTHANUMBAT_FLAG], dynamics[LANTHANUMBAT_DYNAMICS];
    size_t count, dispatched, flagged, mode, none;
};

static struct given g;

/* Lines without a name. */
static void put_nodes(void) {
    size_t n;
    for (n = MODE; n < ADDRESS; n++)
        put(n, lanthanumbat_head(FIRST + n, STATE, BIT, 0, 0, 0), 0, 0, 0);
    put(NONE, lanthanumbat_head(FIRST + NONE, NOT, BIT, 0, 0, 0), MODE, 0, 0);
    put(ADDRESS, lanthanumbat_head(FIRST + ADDRESS, CONST, WORD, 0, 0, 0), 65536, 0, 0);
    s.state[LINES_USED] = READY;
    s.state[NEXT_NID] = FIRST + READY;
}

/* An edge of each origin from 65536, and a dispatch of x5. The edges lead nowhere, since that is not read. */
static void make_join(void) {
    static const struct given good = {
        {7, 65536, REGULAR, UINT64_MAX, 8, 65536, BRANCH, FLAG, 9, 65536, SYSCALL, UINT64_MAX},
        {5, ADDRESS},
        {65536, PC_FLAG, 65540, FLAG},
        {0},
        3,
        1,
        2,
        MODE,
        NONE,
    };
    size_t n;
    make_start();
    put_nodes();
    g = good;
    for (n = 0; n < LANTHANUMBAT_DYNAMICS; n++)
        g.dynamics[n] = DYNAMIC + n;
}

static uint64_t join_with(size_t list_words, size_t state_words) {
    return lanthanumbat_join(s.list, list_words, s.names, NAMES, s.sequentials, SEQUENTIALS, s.state, state_words, g.edges,
                             3 * LANTHANUMBAT_EDGE, g.dispatches, LANTHANUMBAT_DISPATCH, g.flags, 2 * LANTHANUMBAT_FLAG, g.dynamics, g.count,
                             g.dispatched, g.flagged, g.mode, g.none, &s.used, &s.flow);
}

static uint64_t join(void) {
    return join_with(LINES * LANTHANUMBAT_LINE, LANTHANUMBAT_STATE);
}

/* The call is refused with this number, and changes nothing. Afterwards there is a good one again. */
static int refuses(uint64_t number) {
    int yes;
    before = s;
    yes = join() == number && unchanged();
    make_join();
    return yes;
}

static const char joined[] = "94 and 1 92 58\n95 ite 1 94 21 92\n"
                             "96 state 1 kernel-mode-pc-flag-65536\n97 init 1 96 20\n98 ite 1 96 59 92\n99 next 1 96 98\n100 and 1 96 60\n"
                             "101 ite 1 100 21 95\n"
                             "102 eq 1 28 93\n103 and 1 65 102\n104 ite 1 103 21 101\n";

static void test_joins(void) {
    make_join();
    EXPECT(check_start() == 0);
    EXPECT(join() == 0);
    EXPECT(prints(READY, 10, joined));
    EXPECT(s.flow == READY + 9 && s.used == 1 && s.sequentials[0] == READY + 4);
    EXPECT(s.state[LINES_USED] == READY + 10 && s.state[NEXT_NID] == FIRST + READY + 11 && s.state[NAMES_USED] == 25);
    EXPECT(check_start() == 0);
    /* what was joined is a flag for the lowering, and a flow for the next join */
    EXPECT(lower(65540, LUI, 5, 0, 0, 1, s.flow) == 0);
    EXPECT(prints(READY + 10, 2, "105 constd 2 4096\n106 ite 2 104 105 28\n"));
    g.dispatched = 0;
    g.count = 1;
    EXPECT(join() == 0);
    EXPECT(prints(READY + 12, 1, "107 ite 1 92 21 104\n") && s.flow == READY + 12 && s.used == 1);
    EXPECT(check_start() == 0);
    /* nothing is joined */
    g.count = 0;
    before = s;
    EXPECT(join() == 0 && unchanged());
}

static void test_refused_joins(void) {
    make_join();
    s.used = SEQUENTIALS + 1; EXPECT(refuses(9));
    g.count = 4; EXPECT(refuses(9));
    g.dispatched = 2; EXPECT(refuses(9));
    g.flagged = (size_t)-1; EXPECT(refuses(9));
    s.state[LINES_USED] = LINES + 1; EXPECT(refuses(9));
    s.state[NAMES_USED] = NAMES + 1; EXPECT(refuses(9));
    s.state[ROLES] = 2; EXPECT(refuses(13));
    g.edges[1] = 65544; EXPECT(refuses(15));
    g.flags[3] = 2; EXPECT(refuses(15)); /* no edge needs it */
    g.dynamics[LANTHANUMBAT_DYNAMICS - 1] = READY; EXPECT(refuses(15));
    g.mode = LANTHANUMBAT_NO_FLAG; EXPECT(refuses(15));
    g.none = ADDRESS; EXPECT(refuses(15));
    s.flow = 2; EXPECT(refuses(15));
    g.edges[2] = 3; EXPECT(refuses(16));
    g.edges[7] = UINT64_MAX; EXPECT(refuses(16));
    g.dispatches[0] = 0; EXPECT(refuses(16));
    g.dispatches[0] = 32; EXPECT(refuses(16));
    g.dispatches[1] = 65536; EXPECT(refuses(16)); /* an address, as a lowering gives it */
    s.used = SEQUENTIALS; EXPECT(refuses(8));
    s.state[NAMES_USED] = NAMES - 24; EXPECT(refuses(8));
    before = s;
    EXPECT(join_with((READY + 10) * LANTHANUMBAT_LINE - 1, LANTHANUMBAT_STATE) == 8 && unchanged());
    EXPECT(join_with(LINES * LANTHANUMBAT_LINE, LANTHANUMBAT_STATE - 1) == 9 && unchanged());
    EXPECT(join_with((READY + 10) * LANTHANUMBAT_LINE, LANTHANUMBAT_STATE) == 0);
}

/*
 * Evaluation
 */

enum { ONE_WORD = 3, X5 = 8, X6 = 9, MEMORY_STATE = 35, FLOW_OF_X5 = ROLES + 38 + 5, FLOW_OF_X7 = ROLES + 38 + 7, FLOW_OF_MEMORY = ROLES + 70 };
enum { VALUES = 3, CELLS = 2, UNTOUCHED = 99 };

/* What states and inputs are, how many records of it are given, and what an evaluation set. */
struct evaluation {
    uint64_t values[VALUES * LANTHANUMBAT_VALUE], memory[CELLS * LANTHANUMBAT_CELL];
    size_t valued, celled;
    uint64_t value, visits;
};

static struct evaluation e;

static void give(uint64_t place, uint64_t value) {
    uint64_t *record = &e.values[e.valued++ * LANTHANUMBAT_VALUE];
    record[0] = place;
    record[1] = value;
}

static void give_cell(uint64_t place, uint64_t address, uint64_t word) {
    uint64_t *record = &e.memory[e.celled++ * LANTHANUMBAT_CELL];
    record[0] = place;
    record[1] = address;
    record[2] = word;
}

static void give_nothing(void) {
    e.valued = e.celled = 0;
}

/* Puts a line after those in use. Gives its place. */
static size_t append(uint64_t kind, uint64_t sort, uint64_t a, uint64_t b, uint64_t c) {
    size_t place = (size_t)s.state[LINES_USED]++;
    put(place, lanthanumbat_head(FIRST + place, kind, sort, 0, 0, 0), a, b, c);
    return place;
}

static uint64_t evaluate_of(const uint64_t *list, size_t list_words, size_t lines, size_t asked) {
    e.value = e.visits = UNTOUCHED;
    return lanthanumbat_evaluate(list, list_words, lines, e.values, e.valued * LANTHANUMBAT_VALUE, e.memory, e.celled * LANTHANUMBAT_CELL,
                                 asked, &e.value, &e.visits);
}

/* The line comes to this value, after so many visits, and nothing that is lent or given changes. */
static int comes_to(size_t asked, uint64_t value, uint64_t visits) {
    struct evaluation given = e;
    before = s;
    return evaluate_of(s.list, LINES * LANTHANUMBAT_LINE, (size_t)s.state[LINES_USED], asked) == 0 && e.value == value &&
           e.visits == visits && unchanged() && memcmp(e.values, given.values, sizeof e.values) == 0 &&
           memcmp(e.memory, given.memory, sizeof e.memory) == 0;
}

/* The first lines of the list are refused with this number, and nothing changes. */
static int lines_refused(size_t list_words, size_t lines, size_t asked, uint64_t number) {
    before = s;
    return evaluate_of(s.list, list_words, lines, asked) == number && e.value == UNTOUCHED && e.visits == UNTOUCHED && unchanged();
}

static int asked_refused(size_t asked, uint64_t number) {
    return lines_refused(LINES * LANTHANUMBAT_LINE, (size_t)s.state[LINES_USED], asked, number);
}

static void make_example(void) {
    make_start();
    give_nothing();
    EXPECT(lower(65536, LUI, 5, 0, 0, 1, FLAG) == 0);
    EXPECT(lower(65540, BLTU, 0, 5, 6, (uint64_t)-4, FLAG) == 0);
}

/* What x5 is in the next step, where the instruction is done and where it is not, and whether the branch is taken. */
static void test_evaluation(void) {
    size_t flow, with_init, byte;
    make_example();
    flow = (size_t)s.state[FLOW_OF_X5];
    EXPECT(flow == START + 1 && comes_to(flow, 0, 3)); /* a missing record is 0 */
    give(X5, 7);
    EXPECT(comes_to(flow, 7, 3));
    EXPECT(comes_to(START + 2, 0, 3) && comes_to(START + 3, 1, 4));
    give(FLAG, 1);
    EXPECT(comes_to(flow, 4096, 3));
    give(X6, 8);
    EXPECT(comes_to(START + 2, 1, 3) && comes_to(START + 3, 0, 4));
    e.values[3] = 6; /* a flag has one bit */
    EXPECT(comes_to(flow, 7, 3));
    e.values[3] = UINT64_MAX;
    EXPECT(comes_to(flow, 4096, 3) && comes_to(FLAG, 1, 1));
    give_nothing();
    give(X5, 7);
    give(X5, 8); /* the first record counts */
    EXPECT(comes_to(flow, 7, 3));
    with_init = append(STATE, WORD, ONE_WORD, 0, 0);
    s.list[with_init * LANTHANUMBAT_LINE] |= LANTHANUMBAT_HEAD(0, 0, 0, 0, 1, 0);
    EXPECT(comes_to(with_init, 0, 1)); /* the init is not used */
    byte = append(UEXT, BYTE, append(INPUT, BYTE, 0, 0, 0), 0, 0);
    give(byte - 1, 511);
    EXPECT(comes_to(byte, 255, 2));
}

/* A byte is stored into a word, and what the word is then is given for the next step, in which the byte is loaded. */
static void test_memory(void) {
    static const uint64_t address = 1008, old_word = UINT64_C(0x1122334455667788), new_word = UINT64_C(0x112233445566f088);
    size_t stored;
    make_start();
    give_nothing();
    EXPECT(lower(65536, SB, 0, 5, 6, 9, FLAG) == 0);
    EXPECT(lower(65540, LB, 7, 5, 0, 9, FLAG) == 0);
    stored = append(READ, WORD, s.state[FLOW_OF_MEMORY], append(CONST, WORD, address, 0, 0), 0);
    give(X5, 1000);
    give(X6, UINT64_C(0xabcdf0));
    give_cell(MEMORY_STATE, address, old_word);
    EXPECT(comes_to(stored, old_word, 5)); /* the flag is 0 */
    give(FLAG, 1);
    EXPECT(comes_to(stored, new_word, 51));
    EXPECT(comes_to((size_t)s.state[FLOW_OF_X7], 0x77, 27)); /* a load reads what was there before the step */
    give_cell(MEMORY_STATE, address, 1); /* the first record counts */
    EXPECT(comes_to((size_t)s.state[FLOW_OF_X7], 0x77, 27));
    e.celled = 0;
    EXPECT(comes_to(stored, 0xf000, 51)); /* a missing record is 0 */
    give_cell(MEMORY_STATE, address + 8, old_word);
    give_cell(MEMORY_STATE, address, new_word);
    EXPECT(comes_to((size_t)s.state[FLOW_OF_X7], (uint64_t)-16, 27));
}

/* What a visit is refused for, and what is not visited. */
static void test_refused_visits(void) {
    size_t n, wrong;
    make_example();
    wrong = append(ADD, WORD, X5, FLAG, 0);
    EXPECT(asked_refused(wrong, 17));
    EXPECT(asked_refused(append(ITE, WORD, FLAG, X5, wrong), 17));
    EXPECT(comes_to(append(ITE, WORD, FLAG, wrong, X5), 0, 3));
    append(ADD, WORD, X5, X5, 0);
    for (n = 0; n < 14; n++)
        append(ADD, WORD, s.state[LINES_USED] - 1, s.state[LINES_USED] - 1, 0);
    n = (size_t)s.state[LINES_USED] - 1;
    EXPECT(comes_to(n, 0, 65535));
    EXPECT(comes_to(append(ADD, WORD, n, n - 1, 0), 0, 98303));
    EXPECT(asked_refused(append(ADD, WORD, n, n, 0), 18));
    EXPECT(asked_refused(append(ADD, WORD, n + 1, wrong, 0), 17)); /* the wrong line comes before the limit */
    EXPECT(asked_refused(append(ADD, WORD, n + 2, wrong, 0), 18)); /* and after it */
}

/* Whether the example and one line more, with this first word and these operands, is refused with 19, whatever is asked for. */
static int line_refused(uint64_t first, uint64_t a, uint64_t b, uint64_t c) {
    make_example();
    put((size_t)s.state[LINES_USED]++, first, a, b, c);
    return asked_refused(X5, 19);
}

static void test_unfit_lists(void) {
    static uint64_t many[(LANTHANUMBAT_BENCH_LINES + 1) * LANTHANUMBAT_LINE];
    const size_t most = LANTHANUMBAT_BENCH_LINES, words = sizeof many / sizeof *many, last = START + 4;
    size_t n;
    for (n = 0; n < words; n += LANTHANUMBAT_LINE)
        many[n] = lanthanumbat_head(0, STATE, WORD, 0, 0, 0);
    give_nothing();
    EXPECT(evaluate_of(many, words, most, most - 1) == 0 && e.value == 0 && e.visits == 1);
    EXPECT(evaluate_of(many, words, most + 1, 0) == 19 && e.value == UNTOUCHED && e.visits == UNTOUCHED);
    make_example();
    EXPECT(lines_refused(last * LANTHANUMBAT_LINE - 1, last, X5, 19)); /* above its storage */
    EXPECT(lines_refused(last * LANTHANUMBAT_LINE, last, last, 19));   /* asked for no line */
    EXPECT(asked_refused(LANTHANUMBAT_NO_FLAG, 19));
    EXPECT(asked_refused(MEMORY_STATE, 19));
    EXPECT(asked_refused(append(INPUT, BYTE, 0, 0, 0), 19)); /* neither a bit nor a word */
    EXPECT(asked_refused(append(NEXT, BIT, FLAG, FLAG, 0), 19));
    EXPECT(asked_refused(append(BAD, 0, FLAG, 0, 0), 19));
    EXPECT(line_refused(lanthanumbat_head(0, 0, WORD, 0, 0, 0), 0, 0, 0));
    EXPECT(line_refused(lanthanumbat_head(0, BAD + 1, WORD, 0, 0, 0), 0, 0, 0));
    EXPECT(line_refused(lanthanumbat_head(0, CONST, 4, 0, 0, 0), 0, 0, 0));
    EXPECT(line_refused(lanthanumbat_head(0, NOT, WORD, 0, 0, 0), last, 0, 0)); /* its own place */
    EXPECT(line_refused(lanthanumbat_head(0, STATE, WORD, 0, 1, 0), last, 0, 0));
    EXPECT(!line_refused(lanthanumbat_head(0, STATE, WORD, 0, 1, 0), FLAG, 0, 0)); /* another sort is not looked at here */
    EXPECT(!line_refused(lanthanumbat_head(0, STATE, WORD, 0, 0, 1), last, 0, 0)); /* an address is no init */
    append(NEXT, BIT, FLAG, FLAG, 0);
    EXPECT(comes_to(X5, 0, 1));
    append(NOT, BIT, s.state[LINES_USED] - 1, 0, 0); /* of a line without a value */
    EXPECT(asked_refused(X5, 19));
}

/*
 * The addresses of lines
 */

static uint64_t *line_at(size_t place) {
    return &s.list[place * LANTHANUMBAT_LINE];
}

/* What the library says of a line in a list of so many words and lines. `found` is set to the address. */
static uint64_t found;

static uint64_t find(size_t list_words, size_t lines, size_t place) {
    found = UNTOUCHED;
    return lanthanumbat_address(s.list, list_words, lines, place, &found);
}

static uint64_t find_in_use(size_t place) {
    return find(LINES * LANTHANUMBAT_LINE, (size_t)s.state[LINES_USED], place);
}

/* Whether the lines from one place up to another have this address, and whether they have none, by their words and by the library. */
static int have_address(size_t from, size_t to, uint64_t address) {
    size_t n;
    for (n = from; n < to; n++)
        if ((line_at(n)[0] >> 28 & 15) != 1 || line_at(n)[4] != address || find_in_use(n) != 1 || found != address)
            return 0;
    return from < to;
}

static int have_none(size_t from, size_t to) {
    size_t n;
    for (n = from; n < to; n++)
        if ((line_at(n)[0] >> 28 & 15) != 0 || line_at(n)[4] != 0 || find_in_use(n) != 0 || found != UNTOUCHED)
            return 0;
    return from < to;
}

/* Whether these first lines are as they were before. */
static int lines_stay(size_t lines) {
    return memcmp(s.list, before.list, lines * LANTHANUMBAT_LINE * sizeof *s.list) == 0;
}

/* What the lines of a start are given: any mark, 0 among them, and an address. */
static uint64_t start_mark(size_t place) {
    return place % 16;
}

static uint64_t start_address(size_t place) {
    return place % 3 ? UINT64_MAX - place : place;
}

/* A start with these marks and addresses, and lines after it that are not in use and have all bits set. */
static void make_addressed_start(void) {
    size_t n;
    make_start();
    for (n = 0; n < START; n++) {
        line_at(n)[0] |= start_mark(n) << 28;
        line_at(n)[4] = start_address(n);
    }
    memset(line_at(START), 0xff, (LINES - START) * LANTHANUMBAT_LINE * sizeof *s.list);
    before = s;
}

static void test_lowered_addresses(void) {
    static const uint64_t addresses[] = {0, 4, 65536, UINT64_C(1) << 32, UINT64_C(1) << 63, UINT64_MAX - 3, UINT64_MAX};
    size_t n, lines = START;
    make_addressed_start();
    for (n = 0; n < sizeof addresses / sizeof *addresses; n++) {
        EXPECT(lower(addresses[n], LUI, 5, 0, 0, 1, FLAG) == 0 && s.state[LINES_USED] == lines + 2);
        EXPECT(have_address(lines, lines + 2, addresses[n]) && lines_stay(lines));
        lines += 2;
        before = s;
        EXPECT(lower(addresses[n] + 4, SRLIW, 5, 5, 0, 0, FLAG) == 4 && unchanged());
    }
    s.state[EDGES_USED] = 0;
    EXPECT(lower(43981, JALR, 1, 0, 0, 8, FLAG) == 0 && s.state[LINES_USED] == lines + 3); /* a link and a bad line */
    EXPECT(have_address(lines, lines + 3, 43981) && lines_stay(lines));
    EXPECT(check_start() == 0);
}

/* The calls of many in one, the last of which is refused: each line has the address of its own call. */
static void test_addresses_of_many(void) {
    static const uint64_t calls[] = {
        UINT64_MAX, LUI, 5, 0, 0, 1, FLAG, 0, BLTU, 0, 5, 6, (uint64_t)-4, FLAG, 0, LUI, 6, 0, 0, 1, FLAG, 7, SRLIW, 5, 5, 0, 0, FLAG,
    };
    uint64_t refusal = 99;
    make_addressed_start();
    EXPECT(lower_all(calls, sizeof calls / sizeof *calls, &refusal) == 3 && refusal == 4 && s.state[LINES_USED] == START + 6);
    EXPECT(have_address(START, START + 2, UINT64_MAX) && have_address(START + 2, START + 6, 0) && lines_stay(START));
    EXPECT(memcmp(line_at(START + 6), &before.list[(START + 6) * LANTHANUMBAT_LINE],
                  (LINES - START - 6) * LANTHANUMBAT_LINE * sizeof *s.list) == 0);
}

static void test_joined_addresses(void) {
    make_join();
    memset(line_at(READY), 0xff, (LINES - READY) * LANTHANUMBAT_LINE * sizeof *s.list);
    line_at(PC_FLAG)[0] |= LANTHANUMBAT_HEAD(0, 0, 0, 0, 0, 1);
    line_at(PC_FLAG)[4] = 65536;
    before = s;
    EXPECT(join() == 0 && have_none(READY, READY + 10) && lines_stay(READY));
    EXPECT(prints(READY, 10, joined));
    before = s;
    EXPECT(lower(UINT64_MAX, LUI, 5, 0, 0, 1, s.flow) == 0 && have_address(READY + 10, READY + 12, UINT64_MAX) && lines_stay(READY + 10));
    before = s;
    g.dispatched = 0;
    g.count = 1;
    EXPECT(join() == 0 && have_none(READY + 12, READY + 13) && lines_stay(READY + 12));
    EXPECT(have_address(PC_FLAG, PC_FLAG + 1, 65536) && have_none(DYNAMIC, PC_FLAG));
    EXPECT(check_start() == 0);
}

/* What the start's lines have stays. It is neither printed nor evaluated nor checked. */
static void test_addresses_of_a_start(void) {
    static char plain[TEXT], addressed[TEXT];
    uint64_t plain_bytes = 0, addressed_bytes = 0;
    size_t n;
    make_start();
    EXPECT(print(0, START, plain, TEXT, &plain_bytes) == 0);
    make_addressed_start();
    EXPECT(check_start() == 0);
    EXPECT(print(0, START, addressed, TEXT, &addressed_bytes) == 0);
    EXPECT(plain_bytes > 0 && plain_bytes == addressed_bytes && memcmp(plain, addressed, (size_t)plain_bytes) == 0);
    EXPECT(lower(65536, LUI, 5, 0, 0, 1, FLAG) == 0 && lower(65540, BLTU, 0, 5, 6, (uint64_t)-4, FLAG) == 0);
    EXPECT(prints(START, 4, example) && lines_stay(START));
    for (n = 0; n < START; n++)
        if (start_mark(n))
            EXPECT(find_in_use(n) == 1 && found == start_address(n));
        else
            EXPECT(find_in_use(n) == 0 && found == UNTOUCHED);
    give_nothing();
    give(X5, 7);
    EXPECT(comes_to((size_t)s.state[FLOW_OF_X5], 7, 3) && comes_to(START + 2, 0, 3));
}

/* Where there is no such line, or the words do not reach over it, the number stays, whatever stands there. */
static void test_places_without_a_line(void) {
    const size_t words = LINES * LANTHANUMBAT_LINE, most = (size_t)-1;
    make_addressed_start();
    line_at(START - 1)[0] |= LANTHANUMBAT_HEAD(0, 0, 0, 0, 0, 1);
    EXPECT(find(words, START, START - 1) == 1 && found != UNTOUCHED);
    EXPECT(find(words, START, START) == 0 && found == UNTOUCHED);
    EXPECT(find(words, START, most) == 0 && found == UNTOUCHED);
    EXPECT(find(words, START - 1, START - 1) == 0 && found == UNTOUCHED);
    EXPECT(find(words, 0, 0) == 0 && found == UNTOUCHED);
    EXPECT(find(words, LINES, LINES - 1) == 1 && found == UINT64_MAX);
    EXPECT(find(words, most, LINES - 1) == 1 && found == UINT64_MAX);
    EXPECT(find(words, most, LINES) == 0 && found == UNTOUCHED);
    EXPECT(find(words, most, most - 1) == 0 && found == UNTOUCHED);
    EXPECT(find(words, most, most / LANTHANUMBAT_LINE) == 0 && found == UNTOUCHED);
    EXPECT(find(words, most, most / LANTHANUMBAT_LINE + 1) == 0 && found == UNTOUCHED); /* times 5 it is 4 modulo 2^64 */
    EXPECT(find(START * LANTHANUMBAT_LINE, START, START - 1) == 1 && found != UNTOUCHED);
    EXPECT(find(START * LANTHANUMBAT_LINE - 1, START, START - 1) == 0 && found == UNTOUCHED);
    EXPECT(find(START * LANTHANUMBAT_LINE - 1, most, START - 1) == 0 && found == UNTOUCHED);
    EXPECT(find(LANTHANUMBAT_LINE - 1, 1, 0) == 0 && found == UNTOUCHED);
    EXPECT(find(0, most, 0) == 0 && found == UNTOUCHED);
}

int main(void) {
    test_heads();
    test_calls();
    test_many();
    test_printing();
    test_wrong_lines();
    test_marks();
    test_joins();
    test_refused_joins();
    test_evaluation();
    test_memory();
    test_refused_visits();
    test_unfit_lists();
    test_lowered_addresses();
    test_addresses_of_many();
    test_joined_addresses();
    test_addresses_of_a_start();
    test_places_without_a_line();
    puts(failed ? "failed" : "ok");
    return failed;
}
