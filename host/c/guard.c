#include "guard.h"

#include <stdio.h>
#include <stdlib.h>
#include <string.h>
#include <sys/mman.h>
#include <unistd.h>

enum { GUARD = 0xa5 };

struct area areas[AREAS];
int failed;

static const size_t element[AREAS] = {8, 1, 8, 8, 8, 8, 1, 1, 8, 8, 8, 8, sizeof(size_t), sizeof(size_t), 8, 8, 8, 8};
static uint64_t drawn = 88172645463325252u;

void fail(const char *what) {
    printf("guard_test: %s\n", what);
    failed = 1;
}

void seed(uint64_t n) {
    drawn += n * 2685821657736338717u;
}

uint64_t draw(void) {
    drawn ^= drawn << 13;
    drawn ^= drawn >> 7;
    return drawn ^= drawn << 17;
}

uint64_t below(uint64_t n) {
    return draw() % n;
}

uint64_t number(void) {
    static const uint64_t edges[] = {0, 1, 2, 3, 17, 18, 31, 32, 38, 39, 255, 256, 1048576, 1048577, 2147483648u, 2147483649u, 2149580800u, 2149580801u, 4294967295u};
    switch (below(6)) {
    case 0: return below(LINES + 10);
    case 1: return edges[below(sizeof edges / sizeof *edges)];
    case 2: return UINT64_MAX - below(3);
    case 3: return UINT64_C(1) << below(64);
    case 4: return draw();
    default: return below(40);
    }
}

void lend(int n, size_t length) {
    struct area *a = &areas[n];
    a->length = length;
    a->at = a->end - length * a->size;
    memset(a->start, GUARD, (size_t)(a->at - a->start));
    memset(a->at, 0, length * a->size);
}

/* What stays is moved to where memory is closed. */
int shorten(int n, size_t length) {
    struct area *a = &areas[n];
    unsigned char *at = a->end - length * a->size;
    if (length < a->length) {
        memmove(at, a->at, length * a->size);
        memset(a->at, GUARD, (size_t)(at - a->at));
        a->length = length;
        a->at = at;
    }
    return 1;
}

void map(void) {
    size_t page = (size_t)sysconf(_SC_PAGESIZE);
    int n;
    for (n = 0; n < AREAS; n++) {
        size_t most = n == LIST ? LIST_BYTES : MOST_BYTES, bytes = (most + page - 1) / page * page;
        unsigned char *at = (unsigned char *)mmap(NULL, bytes + 2 * page, PROT_NONE, MAP_PRIVATE | MAP_ANONYMOUS, -1, 0);
        if (at == MAP_FAILED || mprotect(at + page, bytes, PROT_READ | PROT_WRITE) != 0) {
            perror("guard_test");
            exit(2);
        }
        areas[n].size = element[n];
        areas[n].start = at + page;
        areas[n].end = at + page + bytes;
        lend(n, 0);
    }
}

void fill(int n) {
    size_t k, bytes = areas[n].length * areas[n].size;
    for (k = 0; k < bytes; k += sizeof drawn) {
        uint64_t word = draw();
        memcpy(areas[n].at + k, &word, bytes - k < sizeof word ? bytes - k : sizeof word);
    }
}

uint64_t *words(int n) {
    return (uint64_t *)(void *)areas[n].at;
}

void put(size_t place, uint64_t first, uint64_t a, uint64_t b, uint64_t c) {
    uint64_t line[LANTHANUMBAT_LINE] = {first | below(16) << 28, a, b, c, number()};
    if ((place + 1) * LANTHANUMBAT_LINE <= areas[LIST].length)
        memcpy(words(LIST) + place * LANTHANUMBAT_LINE, line, sizeof line);
}

void start(void) {
    static const uint64_t sorts[] = {3, 3, 2, 1};
    uint64_t state[LANTHANUMBAT_STATE] = {39, 59};
    size_t n;
    for (n = 0; n < 4; n++)
        put(n, LANTHANUMBAT_HEAD(20 + n, 1, 1 + n / 2, 0, 0, 0), n % 2, 0, 0);
    for (n = 4; n < 39; n++)
        put(n, LANTHANUMBAT_HEAD(20 + n, 19, n < 35 ? 2 : sorts[n - 35], 0, 0, 0), 0, 0, 0);
    for (n = 0; n < 4; n++)
        state[ROLES + n] = n;
    for (n = 4; n < 7; n++)
        state[ROLES + n] = state[ROLES + 66 + n] = 31 + n;
    state[ROLES + 7] = state[ROLES + 75] = 2;
    for (n = 1; n < 32; n++)
        state[ROLES + 7 + n] = state[ROLES + 38 + n] = 3 + n;
    state[ROLES + 73] = state[ROLES + 74] = 3;
    memcpy(areas[STATE].at, state, (areas[STATE].length < LANTHANUMBAT_STATE ? areas[STATE].length : LANTHANUMBAT_STATE) * 8);
}

void other_addresses(void) {
    size_t n;
    for (n = 0; n + LANTHANUMBAT_LINE <= areas[LIST].length; n += LANTHANUMBAT_LINE) {
        words(LIST)[n] ^= below(16) << 28;
        words(LIST)[n + 4] = number();
    }
}

int addressed(uint64_t from, uint64_t to, uint64_t mark, uint64_t address) {
    if (from < to && to > areas[LIST].length / LANTHANUMBAT_LINE)
        return 0;
    for (; from < to; from++) {
        const uint64_t *line = words(LIST) + from * LANTHANUMBAT_LINE;
        if ((line[0] >> 28 & 15) != mark || line[4] != address)
            return 0;
    }
    return 1;
}

void keep(int after) {
    int n;
    for (n = 0; n < AREAS; n++)
        memcpy(after ? areas[n].after : areas[n].before, areas[n].at, areas[n].length * areas[n].size);
}

void restore(void) {
    int n;
    for (n = 0; n < AREAS; n++)
        memcpy(areas[n].at, areas[n].before, areas[n].length * areas[n].size);
}

int same(int n, size_t from, size_t to) {
    struct area *a = &areas[n];
    to = to < a->length ? to : a->length;
    return from >= to || memcmp(a->at + from * a->size, a->before + from * a->size, (to - from) * a->size) == 0;
}

int all_same(void) {
    return all_same_but(AREAS, AREAS);
}

int all_same_but(int n, int m) {
    int k, yes = 1;
    for (k = 0; k < AREAS; k++)
        if (k != n && k != m)
            yes &= same(k, 0, areas[k].length);
    return yes;
}

/* The first is one, and each is as the one before it. */
void only_inside(void) {
    int n;
    for (n = 0; n < AREAS; n++) {
        const unsigned char *start = areas[n].start;
        size_t bytes = (size_t)(areas[n].at - start);
        if (bytes > 0 && (start[0] != GUARD || memcmp(start, start + 1, bytes - 1) != 0))
            fail("a call wrote before an area");
    }
}

uint64_t check_start(void) {
    return lanthanumbat_check_start(words(LIST), areas[LIST].length, areas[HOST].at, areas[HOST].length, areas[NAMES].at, areas[NAMES].length, words(EDGES), areas[EDGES].length, words(DISPATCHES), areas[DISPATCHES].length, words(BADS), areas[BADS].length, words(STATE), areas[STATE].length);
}

void report(const char *what, const unsigned long *by_number) {
    int n;
    printf("%s:", what);
    for (n = 0; n < NUMBERS; n++)
        if (by_number[n])
            printf(" %d: %lu", n, by_number[n]);
    puts("");
}
