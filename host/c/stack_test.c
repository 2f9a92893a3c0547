/* How much stack an evaluation takes on lists of 4,096 lines that are as deep as they are long. Each runs in a thread whose stack is painted
   before, and the deepest byte that has changed is looked for, so that what the thread itself takes is counted too. There is a chain for each
   way in which a line waits for another. Writes a row for each chain, and the largest; ends with status 1 where that is above MOST_STACK,
   which a thread of 2 MiB has with some to spare. */
#include "../lanthanumbat.h"

#include <pthread.h>
#include <stdio.h>
#include <stdlib.h>
#include <string.h>
#include <sys/mman.h>

enum { MOST_STACK = 2000000, STACK = 16777216, PAINT = 0xa5, MOST_LINES = LANTHANUMBAT_BENCH_LINES };
enum { BIT = 1, WORD, MEMORY };
enum { CONST = 1, READ, WRITE, ADD, ULT = 12, UEXT, ITE, EQ, AND, OR, NOT, STATE };

/* The lines that every list begins with: states, which have no records and so are 0, and constants. LAST as an operand is the line before. */
enum { NO_BIT, ONE_BIT, NO_WORD, ONE_WORD, NO_MEMORY, FIRST_LINES, LAST };

struct line {
    uint64_t kind, sort, operands[3];
};

/* A chain: the first line's LAST, and the lines that follow one another again and again, one to three of them. */
struct chain {
    const char *name;
    uint64_t bottom;
    struct line lines[3];
};

#define NONE {0, 0, {0, 0, 0}}

static const struct line first_lines[FIRST_LINES] = {
    {STATE, BIT, {0, 0, 0}}, {CONST, BIT, {1, 0, 0}}, {STATE, WORD, {0, 0, 0}}, {CONST, WORD, {1, 0, 0}}, {STATE, MEMORY, {0, 0, 0}},
};

/* What stands last where the chain is of memories, which cannot be asked for. */
static const struct line cell = {READ, WORD, {LAST, NO_WORD, 0}};

static const struct chain chains[] = {
    {"not of words", NO_WORD, {{NOT, WORD, {LAST, 0, 0}}, NONE, NONE}},
    {"add, first operand", NO_WORD, {{ADD, WORD, {LAST, NO_WORD, 0}}, NONE, NONE}},
    {"add, second operand", NO_WORD, {{ADD, WORD, {NO_WORD, LAST, 0}}, NONE, NONE}},
    {"and of words, first operand", NO_WORD, {{AND, WORD, {LAST, NO_WORD, 0}}, NONE, NONE}},
    {"and of words, second operand", NO_WORD, {{AND, WORD, {NO_WORD, LAST, 0}}, NONE, NONE}},
    {"or of words, first operand", NO_WORD, {{OR, WORD, {LAST, NO_WORD, 0}}, NONE, NONE}},
    {"or of words, second operand", NO_WORD, {{OR, WORD, {NO_WORD, LAST, 0}}, NONE, NONE}},
    {"ite of words, then", NO_WORD, {{ITE, WORD, {ONE_BIT, LAST, NO_WORD}}, NONE, NONE}},
    {"ite of words, else", NO_WORD, {{ITE, WORD, {NO_BIT, NO_WORD, LAST}}, NONE, NONE}},
    {"not of bits", NO_BIT, {{NOT, BIT, {LAST, 0, 0}}, NONE, NONE}},
    {"and of bits, first operand", NO_BIT, {{AND, BIT, {LAST, NO_BIT, 0}}, NONE, NONE}},
    {"and of bits, second operand", NO_BIT, {{AND, BIT, {NO_BIT, LAST, 0}}, NONE, NONE}},
    {"or of bits, first operand", NO_BIT, {{OR, BIT, {LAST, NO_BIT, 0}}, NONE, NONE}},
    {"or of bits, second operand", NO_BIT, {{OR, BIT, {NO_BIT, LAST, 0}}, NONE, NONE}},
    {"eq of bits, first operand", NO_BIT, {{EQ, BIT, {LAST, NO_BIT, 0}}, NONE, NONE}},
    {"eq of bits, second operand", NO_BIT, {{EQ, BIT, {NO_BIT, LAST, 0}}, NONE, NONE}},
    {"ite of bits, condition", NO_BIT, {{ITE, BIT, {LAST, NO_BIT, ONE_BIT}}, NONE, NONE}},
    {"ite of bits, then", NO_BIT, {{ITE, BIT, {ONE_BIT, LAST, NO_BIT}}, NONE, NONE}},
    {"ite of bits, else", NO_BIT, {{ITE, BIT, {NO_BIT, NO_BIT, LAST}}, NONE, NONE}},
    {"ult, first operand, and uext", NO_WORD, {{ULT, BIT, {LAST, ONE_WORD, 0}}, {UEXT, BIT, {LAST, 0, 0}}, NONE}},
    {"ult, second operand, and uext", NO_WORD, {{ULT, BIT, {NO_WORD, LAST, 0}}, {UEXT, BIT, {LAST, 0, 0}}, NONE}},
    {"eq of words, first, and uext", NO_WORD, {{EQ, BIT, {LAST, NO_WORD, 0}}, {UEXT, BIT, {LAST, 0, 0}}, NONE}},
    {"eq of words, second, and uext", NO_WORD, {{EQ, BIT, {NO_WORD, LAST, 0}}, {UEXT, BIT, {LAST, 0, 0}}, NONE}},
    {"ite of words, condition, and ult", NO_WORD, {{ULT, BIT, {LAST, ONE_WORD, 0}}, {ITE, WORD, {LAST, NO_WORD, ONE_WORD}}, NONE}},
    {"read, address", NO_WORD, {{READ, WORD, {NO_MEMORY, LAST, 0}}, NONE, NONE}},
    {"write, address, and read", NO_WORD, {{WRITE, MEMORY, {NO_MEMORY, LAST, ONE_WORD}}, {READ, WORD, {LAST, NO_WORD, 0}}, NONE}},
    {"write, value, and read", NO_WORD, {{WRITE, MEMORY, {NO_MEMORY, NO_WORD, LAST}}, {READ, WORD, {LAST, NO_WORD, 0}}, NONE}},
    {"write, memory", NO_MEMORY, {{WRITE, MEMORY, {LAST, ONE_WORD, NO_WORD}}, NONE, NONE}},
    {"ite of memories, then", NO_MEMORY, {{ITE, MEMORY, {ONE_BIT, LAST, NO_MEMORY}}, NONE, NONE}},
    {"ite of memories, else", NO_MEMORY, {{ITE, MEMORY, {NO_BIT, NO_MEMORY, LAST}}, NONE, NONE}},
    {"ite of memories, condition", NO_BIT,
     {{ITE, MEMORY, {LAST, NO_MEMORY, NO_MEMORY}}, {READ, WORD, {LAST, NO_WORD, 0}}, {EQ, BIT, {LAST, NO_WORD, 0}}}},
};

static uint64_t list[MOST_LINES * LANTHANUMBAT_LINE], refusal, value, visits;
static size_t lines;

static void append(const struct line *l, uint64_t last) {
    uint64_t *words = &list[lines++ * LANTHANUMBAT_LINE];
    size_t n;
    words[0] = lanthanumbat_head(0, l->kind, l->sort, 0, 0, 0);
    for (n = 0; n < 3; n++)
        words[1 + n] = l->operands[n] == LAST ? last : l->operands[n];
}

static void make_first(void) {
    lines = 0;
    while (lines < FIRST_LINES)
        append(&first_lines[lines], 0);
}

static size_t length(const struct chain *c) {
    size_t n = 0;
    while (n < 3 && c->lines[n].kind != 0)
        n++;
    return n;
}

/* As many lines as there may be, or almost: the last group is whole. */
static void make(const struct chain *c) {
    size_t n, group = length(c), top = c->lines[0].sort == MEMORY && group == 1;
    make_first();
    for (n = 0; lines + group - n % group + top <= MOST_LINES; n++)
        append(&c->lines[n % group], n == 0 ? c->bottom : lines - 1);
    if (top)
        append(&cell, lines - 1);
}

static void *evaluate(void *nothing) {
    refusal = lanthanumbat_evaluate(list, lines * LANTHANUMBAT_LINE, lines, list, 0, list, 0, lines - 1, &value, &visits);
    return nothing;
}

static void stop(const char *what) {
    perror(what);
    exit(2);
}

/* The bytes of stack that evaluating the last line takes. */
static size_t measure(void) {
    unsigned char *stack = (unsigned char *)mmap(NULL, STACK, PROT_READ | PROT_WRITE, MAP_PRIVATE | MAP_ANONYMOUS, -1, 0);
    pthread_attr_t attributes;
    pthread_t thread;
    size_t n = 0;
    if (stack == MAP_FAILED)
        stop("mmap");
    memset(stack, PAINT, STACK);
    if (pthread_attr_init(&attributes) || pthread_attr_setstack(&attributes, stack, STACK) ||
        pthread_create(&thread, &attributes, evaluate, NULL) || pthread_join(thread, NULL))
        stop("pthread");
    pthread_attr_destroy(&attributes);
    while (n < STACK && stack[n] == PAINT)
        n++;
    munmap(stack, STACK);
    return STACK - n;
}

static void show(const char *name, size_t bytes) {
    printf("%-34s %4zu lines, %4llu visits, %7zu bytes of stack\n", name, lines, (unsigned long long)visits, bytes);
}

/* The bytes for a chain, all of whose lines must be visited, or more than any may take. */
static size_t measure_chain(const struct chain *c) {
    size_t bytes;
    make(c);
    bytes = measure();
    show(c->name, bytes);
    if (refusal == 0 && lines > MOST_LINES - 3 && visits >= lines - FIRST_LINES)
        return bytes;
    printf("stack_test: refusal %llu: the chain is not visited to its end\n", (unsigned long long)refusal);
    return STACK;
}

int main(void) {
    size_t n, largest = 0;
    make_first();
    lines = 1;
    show("one state", measure());
    for (n = 0; n < sizeof chains / sizeof *chains; n++) {
        size_t bytes = measure_chain(&chains[n]);
        largest = bytes > largest ? bytes : largest;
    }
    printf("largest: %zu bytes, at most %d may be\n%s\n", largest, MOST_STACK, largest > MOST_STACK ? "failed" : "ok");
    return largest > MOST_STACK;
}
