/* Evaluations on random and broken storage. A good list, broken in a known way or not at all, must have the answer that goes with it; whatever
   else is broken, the answer must be one of the evaluation's, nothing but the value and the visits may change, and these only where it is 0. A
   repeat, on lines with other addresses, must give the same. */
#include "guard.h"

enum { BIT = 1, WORD, MEMORY, BYTE = 11, NO_SORT = 4 };
enum { CONST = 1, READ, WRITE, ADD, SRL = 11, ULT, UEXT, ITE, EQ, AND, OR, NOT, STATE_LINE, NEXT, INPUT, BAD, NO_KIND };
enum { ILL_SORTED = 17, TOO_MANY_VISITS, UNFIT };
enum { MOST_RANDOM = 80, TOWER = 16, MORE_TOWER = 20, MOST_VALUES = 12, MOST_CELLS = 10 };

/* The first lines: one of each sort that has no other way to come about. */
enum { A_BIT, A_WORD, A_MEMORY, A_BYTE, FIRST_LINES };

static unsigned long known[NUMBERS], unknown[NUMBERS];

/* The list: how many lines, and the sort of each one's value, or 0 where it has none; the call's own numbers. */
static size_t lines, sorts[LINES], said, asked;

/*
 * A good call
 */

/* A line: a kind up to another, its sort and mark of an init, the sorts of its operands, 0 where it has none, and that of its value. */
struct shape {
    uint64_t kind, last, sort, init;
    size_t operands[3], value;
};

static const struct shape shapes[] = {
    {CONST, CONST, BIT, 0, {0, 0, 0}, BIT}, {CONST, CONST, WORD, 0, {0, 0, 0}, WORD},
    {READ, READ, 0, 0, {MEMORY, WORD, 0}, WORD}, {READ, READ, 0, 0, {MEMORY, WORD, 0}, WORD},
    {WRITE, WRITE, 0, 0, {MEMORY, WORD, WORD}, MEMORY}, {WRITE, WRITE, 0, 0, {MEMORY, WORD, WORD}, MEMORY},
    {ADD, SRL, 0, 0, {WORD, WORD, 0}, WORD}, {ADD, SRL, 0, 0, {WORD, WORD, 0}, WORD}, {ULT, ULT, 0, 0, {WORD, WORD, 0}, BIT},
    {UEXT, UEXT, BIT, 0, {BIT, 0, 0}, WORD}, {UEXT, UEXT, BYTE, 0, {BYTE, 0, 0}, WORD}, {ITE, ITE, BIT, 0, {BIT, BIT, BIT}, BIT},
    {ITE, ITE, WORD, 0, {BIT, WORD, WORD}, WORD}, {ITE, ITE, MEMORY, 0, {BIT, MEMORY, MEMORY}, MEMORY},
    {ITE, ITE, BYTE, 0, {BIT, BYTE, BYTE}, BYTE}, {EQ, EQ, 0, 0, {BIT, BIT, 0}, BIT}, {EQ, EQ, 0, 0, {WORD, WORD, 0}, BIT},
    {AND, OR, BIT, 0, {BIT, BIT, 0}, BIT}, {AND, OR, WORD, 0, {WORD, WORD, 0}, WORD}, {NOT, NOT, BIT, 0, {BIT, 0, 0}, BIT},
    {NOT, NOT, WORD, 0, {WORD, 0, 0}, WORD}, {STATE_LINE, STATE_LINE, BIT, 1, {BIT, 0, 0}, BIT},
    {STATE_LINE, STATE_LINE, MEMORY, 1, {WORD, 0, 0}, MEMORY}, {INPUT, INPUT, WORD, 0, {0, 0, 0}, WORD},
    {INPUT, INPUT, BYTE + 6, 0, {0, 0, 0}, BYTE + 6}, {NEXT, NEXT, WORD, 0, {WORD, WORD, 0}, 0}, {BAD, BAD, 0, 0, {BIT, 0, 0}, 0},
};

static const struct shape first_shapes[FIRST_LINES] = {
    {STATE_LINE, STATE_LINE, BIT, 0, {0, 0, 0}, BIT}, {STATE_LINE, STATE_LINE, WORD, 0, {0, 0, 0}, WORD},
    {STATE_LINE, STATE_LINE, MEMORY, 0, {0, 0, 0}, MEMORY}, {INPUT, INPUT, BYTE, 0, {0, 0, 0}, BYTE},
};

/* The place of a value of this sort. */
static uint64_t pick(size_t sort) {
    uint64_t place;
    do
        place = below(lines);
    while (sorts[place] != sort);
    return place;
}

/* A number that others are often equal to, so that writes cover what is read. */
static uint64_t small(void) {
    return below(8) ? below(3) : number();
}

/* What a line has at an operand's place: the first of a constant's is its value, and what is no operand is not looked at. */
static uint64_t operand(const struct shape *s, int n) {
    if (s->operands[n])
        return pick(s->operands[n]);
    if (s->kind == CONST && n == 0)
        return s->sort == BIT ? below(2) : small();
    return number();
}

/* Names, identifiers and addresses are any, and so is the sort of a kind that has none of its own. */
static void append(const struct shape *s) {
    uint64_t kind = s->kind + below(s->last - s->kind + 1), sort = s->sort ? s->sort : below(256), a = operand(s, 0), b = operand(s, 1);
    put(lines, lanthanumbat_head(draw() >> 32, kind, sort, below(256), s->init, 0), a, b, operand(s, 2));
    sorts[lines++] = s->value;
}

/* Sums of the line before with itself, until it takes too many visits. */
static void tower(void) {
    static const struct shape sum = {ADD, ADD, 0, 0, {WORD, WORD, 0}, WORD};
    size_t n;
    append(&sum);
    for (n = TOWER + below(MORE_TOWER); n > 0; n--) {
        append(&sum);
        put(lines - 1, lanthanumbat_head(0, ADD, 0, 0, 0, 0), lines - 2, lines - 2, 0);
    }
}

static void good_list(void) {
    size_t n, more = below(MOST_RANDOM);
    lend(LIST, LINES * LANTHANUMBAT_LINE);
    fill(LIST);
    for (lines = 0; lines < FIRST_LINES;)
        append(&first_shapes[lines]);
    for (n = 0; n < more; n++)
        append(&shapes[below(sizeof shapes / sizeof *shapes)]);
    if (below(150) == 0)
        tower();
    shorten(LIST, lines * LANTHANUMBAT_LINE + below(LANTHANUMBAT_LINE));
}

static void good_records(void) {
    size_t n;
    lend(VALUES, below(MOST_VALUES) * LANTHANUMBAT_VALUE + below(LANTHANUMBAT_VALUE));
    for (n = 0; n < areas[VALUES].length; n++)
        words(VALUES)[n] = n % LANTHANUMBAT_VALUE ? small() : below(lines);
    lend(CELLS, below(MOST_CELLS) * LANTHANUMBAT_CELL + below(LANTHANUMBAT_CELL));
    for (n = 0; n < areas[CELLS].length; n++)
        words(CELLS)[n] = n % LANTHANUMBAT_CELL ? small() : pick(MEMORY);
}

/* The last lines take the most visits. */
static void good_call(void) {
    good_list();
    good_records();
    said = lines;
    asked = lines - 1;
    while (sorts[asked] != BIT && sorts[asked] != WORD)
        asked--;
    if (below(4) == 0)
        asked = (size_t)pick(below(2) ? BIT : WORD);
}

/*
 * Ways to break a good call
 */

/* A list or an asked line that is not fit. The line that is broken need not be the asked one. */
static void break_fit(void) {
    size_t place = FIRST_LINES - 1 + below(lines - FIRST_LINES + 1);
    switch (below(7)) {
    case 0: said = areas[LIST].length / LANTHANUMBAT_LINE + 1 + (size_t)below(3); break;
    case 1: said = LANTHANUMBAT_BENCH_LINES + 1 + (size_t)(below(2) ? below(3) : draw() >> 1); break;
    case 2: asked = (size_t)(below(2) ? lines + below(3) : UINT64_MAX - below(3)); break;
    case 3: asked = (size_t)pick(below(2) ? MEMORY : BYTE); break;
    case 4: put(place, lanthanumbat_head(0, below(2) ? 0 : NO_KIND + below(99), WORD, 0, 0, 0), 0, 0, 0); break;
    case 5: put(place, lanthanumbat_head(0, INPUT, below(2) ? 0 : NO_SORT + below(7), 0, 0, 0), 0, 0, 0); break;
    default: put(place, lanthanumbat_head(0, NEXT, BIT, 0, 0, 0), A_BIT, below(2) ? place + below(3) : number() | UINT64_C(1) << 32, 0);
    }
}

/* The asked line, whose visit is the first, breaks the sort rule. */
static void break_rule(void) {
    static const struct { uint64_t kind, sort, a, b, c; } wrong[] = {
        {CONST, BIT, 2, 0, 0}, {ADD, WORD, A_WORD, A_BIT, 0}, {UEXT, WORD, A_WORD, 0, 0}, {ITE, WORD, A_WORD, A_WORD, A_WORD},
        {EQ, BIT, A_BIT, A_WORD, 0}, {AND, BIT, A_BIT, A_WORD, 0}, {NOT, WORD, A_BIT, 0, 0}, {READ, WORD, A_WORD, A_WORD, 0},
    };
    size_t n = below(sizeof wrong / sizeof *wrong);
    asked = FIRST_LINES - 1 + (size_t)below(lines - FIRST_LINES + 1);
    put(asked, lanthanumbat_head(0, wrong[n].kind, wrong[n].sort, 0, 0, 0), wrong[n].a, wrong[n].b, wrong[n].c);
}

/* Breaks a good call or not. Gives the number that it must be refused with, or 0. */
static uint64_t break_call(void) {
    switch (below(4)) {
    case 0: break_fit(); return UNFIT;
    case 1: break_rule(); return ILL_SORTED;
    default: return 0;
    }
}

/* Words anywhere in what is lent and given. */
static void scatter(void) {
    static const int some[] = {LIST, LIST, VALUES, CELLS};
    size_t n;
    for (n = below(4); n > 0; n--) {
        int area = some[below(sizeof some / sizeof *some)];
        if (areas[area].length > 0)
            words(area)[below(areas[area].length)] = below(2) ? below(lines) : number();
    }
}

/* An operand that is another line's, whatever that one's sort is. */
static void exchange(void) {
    size_t place = (size_t)below(lines);
    if (place < areas[LIST].length / LANTHANUMBAT_LINE && place > 0)
        words(LIST)[place * LANTHANUMBAT_LINE + 1 + below(3)] = below(place);
}

/* Less storage, by a little or by much. */
static void take_away(void) {
    static const int some[] = {LIST, VALUES, CELLS};
    int area = some[below(sizeof some / sizeof *some)];
    size_t length = areas[area].length, most = below(4) && length > 5 ? 5 : length;
    shorten(area, length - below(most + 1));
}

static void break_anything(void) {
    size_t n;
    for (n = below(6); n > 0; n--)
        exchange();
    if (below(3) == 0)
        scatter();
    if (below(3) == 0)
        take_away();
    if (below(4) == 0)
        said = (size_t)(below(2) ? below(lines + 1) : number());
    if (below(4) == 0)
        asked = (size_t)(below(2) ? below(lines + 1) : number());
    if (below(30) == 0)
        fill(LIST);
}

/*
 * What an evaluation leaves
 */

static uint64_t evaluate(void) {
    return lanthanumbat_evaluate(words(LIST), areas[LIST].length, said, words(VALUES), areas[VALUES].length, words(CELLS), areas[CELLS].length,
                                 asked, words(VALUE), words(VISITS));
}

/* One call, over any numbers where the value and the visits go. */
static uint64_t try_evaluation(void) {
    uint64_t refusal;
    lend(VALUE, 1);
    fill(VALUE);
    lend(VISITS, 1);
    fill(VISITS);
    keep(0);
    refusal = evaluate();
    only_inside();
    if (refusal != 0 && refusal != ILL_SORTED && refusal != TOO_MANY_VISITS && refusal != UNFIT)
        fail("no number of an evaluation");
    if (refusal != 0 ? !all_same() : !all_same_but(VALUE, VISITS))
        fail("an evaluation changed what it should not");
    if (refusal == 0 && (*words(VISITS) == 0 || *words(VISITS) > LANTHANUMBAT_MOST_VISITS))
        fail("an evaluation took no visit or too many");
    return refusal;
}

static uint64_t try_twice(unsigned long *by_number) {
    uint64_t refusal = try_evaluation(), value = *words(VALUE), visits = *words(VISITS);
    by_number[refusal < NUMBERS ? refusal : 0]++;
    other_addresses();
    if (try_evaluation() != refusal || (refusal == 0 && (*words(VALUE) != value || *words(VISITS) != visits)))
        fail("an evaluation gives another answer the second time");
    return refusal;
}

/* A call whose answer is known: what is good has a value, unless it takes too many visits. */
static void try_known_evaluation(void) {
    uint64_t wanted, refusal;
    good_call();
    wanted = break_call();
    refusal = try_twice(known);
    if (refusal != wanted && (wanted != 0 || refusal != TOO_MANY_VISITS))
        fail("an evaluation has another answer than how it was broken");
    if (refusal == 0 && sorts[asked] == BIT && *words(VALUE) > 1)
        fail("a bit is more than 1");
}

static void try_broken_evaluation(void) {
    good_call();
    break_anything();
    try_twice(unknown);
}

void try_evaluations(void) {
    if (below(2))
        try_known_evaluation();
    else
        try_broken_evaluation();
}

/* Whether each answer was given so often; too many visits, which take long, a twentieth of that. */
static int often(const unsigned long *by_number, unsigned long least) {
    return by_number[0] >= least && by_number[ILL_SORTED] >= least && by_number[TOO_MANY_VISITS] >= least / 20 && by_number[UNFIT] >= least;
}

/* A hundredth of the rounds is often; few rounds show nothing. */
void evaluations_seen(long rounds) {
    unsigned long least = rounds < 10000 ? 0 : (unsigned long)rounds / 100;
    report("evaluations broken in known ways", known);
    report("evaluations on random and broken storage", unknown);
    if (!failed && !(often(known, least) && often(unknown, least)))
        fail("an answer of evaluations is rare");
}
