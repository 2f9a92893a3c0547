/* What the tests of random and broken storage share: the areas that are lent, random numbers, and what was found. */
#ifndef GUARD_H
#define GUARD_H

#include "../lanthanumbat.h"

enum {
    LIST, NAMES, EDGES, DISPATCHES, BADS, STATE, HOST, OUT, CALLS, SEQUENTIALS, FLAGS, DYNAMICS, USED, FLOW, VALUES, CELLS, VALUE, VISITS, AREAS
};
enum { LINES_USED, NEXT_NID, NAMES_USED, EDGES_USED, DISPATCHES_USED, BADS_USED, ROLES };
enum { LINES = 120, LIST_BYTES = LINES * LANTHANUMBAT_LINE * 8, MOST_BYTES = 4096, NUMBERS = 20 };

/* An area: its elements' size, how many are lent, and where they stand, with a copy of them and what they were before. From `start` on up to
   where they stand there are guard bytes. The list has up to LIST_BYTES, which is more than the other areas have. */
struct area {
    size_t size, length;
    unsigned char *start, *end, *at, before[LIST_BYTES], after[LIST_BYTES];
};

extern struct area areas[AREAS];
extern int failed;

/* Writes what fails. */
void fail(const char *what);

/* Random numbers from a seed on: any, one below n, and one around what is tested: small ones, places, limits. */
void seed(uint64_t n);
uint64_t draw(void);
uint64_t below(uint64_t n);
uint64_t number(void);

/* Makes the areas. Each has pages of its own, and the pages before and after them are closed. */
void map(void);

/* Lends so many elements of an area, all of them 0; at most so many, the first of those that were lent, which gives 1; random bytes. */
void lend(int n, size_t length);
int shorten(int n, size_t length);
void fill(int n);

/* An area's elements. */
uint64_t *words(int n);

/* Puts a line, and the listing's start, as far as there is room. Each line has an address or none, at random. */
void put(size_t place, uint64_t first, uint64_t a, uint64_t b, uint64_t c);
void start(void);

/* Gives all lines other marks of an address and other addresses, on which nothing may depend. */
void other_addresses(void);

/* Whether the lines from one place up to another have this mark of an address and this last word. */
int addressed(uint64_t from, uint64_t to, uint64_t mark, uint64_t address);

/* Keeps what all areas hold, as before a call or after one; restores what they held before. */
void keep(int after);
void restore(void);

/* Whether the elements of an area, those of all areas, and those of all areas but two are as they were before. */
int same(int n, size_t from, size_t to);
int all_same(void);
int all_same_but(int n, int m);

/* Whatever a call gives, the bytes before each area must be guard bytes still. */
void only_inside(void);

/* The check of a start. */
uint64_t check_start(void);

/* Writes how many calls had each answer. */
void report(const char *what, const unsigned long *by_number);

/* Joins, in guard_join.c: some whose answer is known, some whose answer is not; then that each answer was seen often, and how often. */
void try_joins(void);
void joins_seen(long rounds);

/* Evaluations, in guard_evaluate.c: the same. */
void try_evaluations(void);
void evaluations_seen(long rounds);

#endif
