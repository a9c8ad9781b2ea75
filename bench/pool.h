/* The pool in C, its limits, what is kept of measured times, the numbers of refusals and what a call hands back: for the twin, for the best C and for their
   comparison. */
#pragma once
#include "bench.h"

enum { PLACES = 64, MOST_PAGES = 65536, MOST_COST = 1000, MOST_SERVED = 1000000000, ONE = 65536 /* frame, in the target's unit */ };
enum { MOST_TIMES = 32768 /* in a window */, MOST_TIME = 65535 };
enum { UNSOUND = 2, WRONG_LENGTHS, NO_SUCH_PAGE, UNFIT, NONE_LEFT, ZERO_TIME = 12, BROKEN_WINDOWS }; /* the scope's refusals of a call */

typedef struct {
    u64 frames, page_bytes, pages, read_cost, write_cost;
    u8 empty[PLACES];
    u64 empty_len;
    u8 clean[PLACES];
    u64 clean_len;
    u8 dirty[PLACES];
    u64 dirty_len;
    u16 page[PLACES];
    u32 reference[PLACES]; /* the number of the served call that last read or wrote its page */
    u64 target, served, reads, writes;
} pool;

typedef struct {
    pool pool;
    int refused, hit, victim;
    u64 old;
} served;

/* What is kept of a window: the places filled, the next one to be, the sum of its times. */
typedef struct {
    u64 fill, next, sum;
} window;

/* What is kept of both windows, of n places each. */
typedef struct {
    u64 n;
    window reads, writes;
} kept;

typedef struct {
    kept kept;
    int refused;
} timed;
