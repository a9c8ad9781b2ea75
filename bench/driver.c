/* driver LOAD b P N n SEED SERVED: makes a load of n calls behind a warm-up and serves it, or with SERVED 0 the warm-up alone, for counting instructions. The
   difference between the two, for two values of n, is what the calls cost, without the making of the load.
   Loads: trace (80 % of reads go to hot pages), a number (read hits at this place of C, or at its last), spread (read hits, uniform), refused (reads of page N),
   clean, dirty (faults), flush (b writes and a flush each), drop (of absent pages), cut and a number (a drop at this place of C, or at its last, and a read that takes
   the freed frame), lose and a number (the same in D, with a write), sound (totals), mixed (totals where C and D take turns down the reference numbers), and those of
   the recorder, in records.c, or of the reports, in measured.c.
   Another SEED than 0 draws other pages. */
#include "bench.h"
#include "random.h"
#include <ctype.h>
#include <stdio.h>
#include <stdlib.h>
#include <string.h>

static u8 *ops;
static u16 *pages;
static u64 made;

static void add(int op, u64 page)
{
    ops[made] = (u8)op;
    pages[made++] = (u16)page;
}

int main(int argc, char **argv)
{
    if (argc != 8)
        return 2;
    seed += strtoull(argv[6], 0, 10) * 0x9e3779b97f4a7c15ull;
    int served = argv[7][0] != '0';
    const char *load = argv[1];
    u64 b = strtoull(argv[2], 0, 10), P = strtoull(argv[3], 0, 10), N = strtoull(argv[4], 0, 10), n = strtoull(argv[5], 0, 10), totals = 0;
    if (load_apart(load, b, P, N, n, served))
        return 0;
    u64 room = (n + 2) * (b + 2) + 4 * b;
    ops = calloc(room, 1), pages = calloc(room, 2);
    u8 *frames = calloc(b, P), *store = calloc(N, P), *out = calloc(1, P);
    /* pages that stand apart in the store, so that low bits meet where N is large */
    u64 stride = N / (2 * b) ? N / (2 * b) : 1, mixed = !strcmp(load, "mixed"), cut = !strncmp(load, "cut", 3), lose = !strncmp(load, "lose", 4);
    u64 dirty = lose || !strcmp(load, "dirty") || !strcmp(load, "flush");
    for (u64 i = 0; i < b; i++)
        add(dirty || (mixed && i % 2), i * stride % N + (N > 1024 ? next() % stride : 0));
    u64 warm = made, place = strtoull(load + strcspn(load, "0123456789"), 0, 10);
    if (place > b - 1)
        place = b - 1;
    for (u64 i = 0; i < n; i++) {
        /* of the pages that stand up to the place, the last one each time */
        u64 hot = next() % 10 < 8, there = pages[warm - 1 - place + i % (place + 1)];
        if (!strcmp(load, "trace"))
            add(0, hot ? pages[next() % (b - b / 4 ? b - b / 4 : 1)] : next() % N);
        else if (isdigit((u8)load[0]))
            add(0, there);
        else if (cut || lose)
            add(3, there), add((int)lose, there);
        else if (!strcmp(load, "drop")) /* in the second half of the store, where no page of the warm-up is */
            add(3, N - 1 - i % ((N + 1) / 2));
        else if (!strcmp(load, "refused"))
            add(0, N);
        else if (!strcmp(load, "spread"))
            add(0, pages[next() % b]);
        else if (!strcmp(load, "clean"))
            add(0, (b * stride + 1 + i) % N);
        else if (!strcmp(load, "dirty"))
            add(1, (b * stride + 1 + i) % N);
        else if (!strcmp(load, "flush")) {
            for (u64 k = 0; k < b; k++)
                add(1, pages[k]);
            add(2, 0);
        } else if (mixed || !strcmp(load, "sound"))
            totals = n;
    }
    if (!served)
        made = warm, totals = 0;
    u64 r = bench_serve(b, P, N, ops, made, pages, made, frames, b * P, store, N * P, out, P, totals);
    printf("%llu\n", r);
    return 0;
}
