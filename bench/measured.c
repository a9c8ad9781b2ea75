/* What stands beside the driver where calls are measured. Its loads go to the calls with kept numbers, of full windows; in 0broken, which is read hits at the front
   otherwise, a start of none makes those all 0 behind the warm-up. Loads of its own: report and a number, times of a read and of a write in turn to full windows of so
   many, n times and counted; start and a number, a start of such windows; and wrong, which is compared alone. */
#include "bench.h"
#include "random.h"
#include <stdio.h>
#include <stdlib.h>
#include <string.h>

enum { FULL = 32, FEW = 4, REQUESTS = 6, RUNS = 20000, FRAMES = 2, SIZE = 16, COUNT = 8 };

typedef struct {
    u16 *times;
    u64 fill, next, sum;
} window;

static int broken;

/* A window of n places, so many of them filled. */
static window filled(u16 *times, u64 n, u64 fill)
{
    window w = {times, fill, fill < n ? fill : below(n), 0};
    for (u64 i = 0; i < n; i++) {
        times[i] = (u16)(i < fill ? 1 + below(65535) : 0);
        w.sum += times[i];
    }
    return w;
}

u64 bench_serve(u64 b, u64 size, u64 count, const u8 *ops, u64 n_ops, const u16 *pages, u64 n_pages, u8 *frames, u64 fn, u8 *store, u64 sn, u8 *out, u64 on, u64 n)
{
    static u16 reads[FULL], writes[FULL];
    window r = filled(reads, FULL, FULL), w = filled(writes, FULL, FULL);
    u8 *own_ops = calloc(n_ops, 1);
    u16 *own_pages = calloc(n_pages, 2);
    memcpy(own_ops, ops, n_ops), memcpy(own_pages, pages, 2 * n_pages);
    if (broken && n_ops > b)
        own_ops[b] = START, own_pages[b] = 0;
    (void)n;
    return bench_times(b, size, count, FULL, r.fill, r.next, r.sum, w.fill, w.next, w.sum, own_ops, n_ops, own_pages, n_pages, frames, fn, store, sn, out, on, reads,
                       FULL, writes, FULL);
}

/* A sum over every byte that was lent. */
static u64 sum(const void *lent, u64 n)
{
    u64 r = 0;
    for (u64 i = 0; i < n; i++)
        r = r * 31 + ((const u8 *)lent)[i];
    return r;
}

static void notes(int start, u64 places, u64 b, u64 P, u64 N, u64 n, int served)
{
    u8 none, *ops = calloc(n, 1);
    u16 *times = calloc(n, 2);
    window r = filled(calloc(places, 2), places, places), w = filled(calloc(places, 2), places, places);
    for (u64 i = 0; i < n; i++)
        ops[i] = start ? START : i % 2 ? WRITE_TIME : READ_TIME, times[i] = (u16)(start ? places : 1 + below(65535));
    u64 told = bench_times(b, P, N, places, r.fill, r.next, r.sum, w.fill, w.next, w.sum, ops, served ? n : 0, times, n, &none, 0, &none, 0, &none, 0, r.times, places,
                           w.times, places);
    printf("%llu %llu %llu\n", told, sum(r.times, 2 * places), sum(w.times, 2 * places));
}

/* A short run of any requests, of small pages, times and numbers mostly, on windows of which one may be short or hold anything at a place, with kept numbers of which
   one may be anything. Returns a sum over all that it leaves, and whether it leaves other windows. */
static u64 wrong_run(int *noted)
{
    static const u64 edges[] = {0, 1, 2, 3, 4, 5, 32768, 32769, 65535, 131070, 1ull << 32, ~0ull};
    u8 memory[(FRAMES + COUNT + 1) * SIZE], *store = memory + FRAMES * SIZE, *out = store + COUNT * SIZE, ops[REQUESTS];
    u16 windows[2 * FEW], before[2 * FEW], numbers[REQUESTS], *reads = windows, *writes = windows + FEW;
    memset(memory, 7, sizeof memory), memset(windows, 0, sizeof windows);
    u64 n = 1 + below(FEW), requests = 1 + below(REQUESTS);
    window r = filled(reads, n, below(3) ? n : below(n)), w = filled(writes, n, below(3) ? n : below(n));
    u64 x[7] = {n, r.fill, r.next, r.sum, w.fill, w.next, w.sum};
    if (below(3) == 0)
        x[below(7)] = edges[below(sizeof edges / sizeof *edges)];
    if (below(8) == 0)
        (below(2) ? reads : writes)[below(n)] = (u16)(below(2) * below(65536));
    for (u64 i = 0; i < requests; i++)
        ops[i] = (u8)below(START + 1), numbers[i] = (u16)(below(4) ? below(COUNT + 1) : below(65536));
    memcpy(before, windows, sizeof windows);
    u64 told = bench_times(FRAMES, SIZE, COUNT, x[0], x[1], x[2], x[3], x[4], x[5], x[6], ops, requests, numbers, requests, memory, FRAMES * SIZE, store,
                           COUNT * SIZE, out, SIZE, reads, n - (below(16) == 0), writes, n - (below(16) == 0));
    *noted = memcmp(before, windows, sizeof windows) != 0;
    return told * 31 + sum(memory, sizeof memory) + sum(windows, sizeof windows);
}

static void wrong(void)
{
    u64 all = 0, noted = 0;
    for (u64 run = 0; run < RUNS; run++) {
        int now;
        all = all * 31 + wrong_run(&now);
        noted += (u64)now;
    }
    printf("%d runs (%llu leave other windows; sum %llx)\n", RUNS, noted, all);
}

int load_apart(const char *load, u64 b, u64 P, u64 N, u64 n, int served)
{
    broken = !strcmp(load, "0broken");
    if (!strncmp(load, "report", 6))
        notes(0, strtoull(load + 6, 0, 10), b, P, N, n, served);
    else if (!strncmp(load, "start", 5))
        notes(1, strtoull(load + 5, 0, 10), b, P, N, n, served);
    else if (!strcmp(load, "wrong"))
        wrong();
    else
        return 0;
    return 1;
}
