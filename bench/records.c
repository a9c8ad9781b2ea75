/* The loads of the recorder's calls, for the driver: begin, add, far (add behind 100,000 records), close, each n times and counted; and wrong, which is compared
   alone. It stands apart from the driver, whose place on the stack moves what is counted there. */
#include "bench.h"
#include "random.h"
#include <stdio.h>
#include <stdlib.h>
#include <string.h>
#include <sys/mman.h>

enum { NOTES = 64, LONGEST = 64, REQUESTS = 4, RUNS = 20000 };

/* A sum over every byte of a buffer that a recorder was lent. */
static u64 sum(const u8 *buffer, u64 n)
{
    u64 r = 0;
    for (u64 i = 0; i < n; i++)
        r = r * 31 + buffer[i];
    return r;
}

/* n requests of one kind, behind so many records. */
static void alike(u64 kind, u32 before, u64 b, u64 P, u64 N, u64 n, int served)
{
    u64 room = NOTES + 4 * (before + n) + 20;
    u8 notes[NOTES], *buffer = calloc(room, 1);
    u32 *requests = calloc(n, sizeof *requests);
    for (u64 i = 0; i < NOTES; i++)
        notes[i] = (u8)next();
    for (u64 i = 0; i < n; i++) {
        requests[i] = (u32)(kind == WRITE ? WRITE + next() % (256 - WRITE) : kind);
        requests[i] += (u32)(next() % N) << 8;
    }
    u64 r = bench_record(b, P, N, 1, 4, NOTES, before, requests, served ? n : 0, notes, NOTES, buffer, room);
    printf("%llu %llu\n", r, sum(buffer, room));
}

/* The last records whose distance 32 bits hold, and the first beyond, where the buffer has room for all. */
static u64 farthest(void)
{
    u64 n = (1ull << 32) + 64, all = 0;
    u8 none, *buffer = mmap(0, n, PROT_READ | PROT_WRITE, MAP_PRIVATE | MAP_ANONYMOUS | MAP_NORESERVE, -1, 0);
    if (buffer == MAP_FAILED)
        exit(3);
    for (u32 records = (1u << 30) - 8; records < (1u << 30) - 3; records++)
        for (u32 kind = CLOSE; kind <= WRITE; kind++) {
            u32 request = kind + (7 << 8);
            u64 r = bench_record(2, 16, 8, 1, 3, 0, records, &request, 1, &none, 0, buffer, n);
            all = (all * 31 + r) * 31 + sum(buffer + n - 128, 128);
        }
    return all;
}

/* Short runs of any requests, by a recorder of which one number may be anything or both costs 0, in a buffer that may be short. */
static void wrong(void)
{
    static const u64 edges[] = {0, 1, 15, 16, 64, 65, 1000, 1001, 4096, 4097, 65535, 65536, 65537, (1ull << 30) - 6, 1ull << 30, ~0u, ~0ull - 19, ~0ull};
    u64 served = 0, limits = 0, bad = 0, full = 0, all = farthest();
    u8 notes[NOTES], buffer[LONGEST] = {0};
    u32 requests[REQUESTS];
    memset(notes, 'n', NOTES);
    for (u64 run = 0; run < RUNS; run++) {
        u64 x[7] = {2, 16, 8, 1, 3, 3, 2}, edge = edges[next() % (sizeof edges / sizeof *edges)];
        u64 n = 1 + next() % REQUESTS, size = next() % 8, room = next() % (LONGEST + 1);
        if (next() % 2)
            x[next() % 7] = edge;
        else if (next() % 4 == 0)
            x[3] = x[4] = 0;
        for (u64 i = 0; i < n; i++) {
            requests[i] = (u32)(next() % 8);
            requests[i] += (u32)(next() % 16 ? next() % 10 : 65530 + next() % 10) << 8;
        }
        u64 r = bench_record(x[0], x[1], x[2], x[3], x[4], x[5], (u32)x[6], requests, n, notes, size, buffer, room);
        served += r == 0 || (r >= 20 && r < BAD), limits += r == 1, bad += r > BAD, full += r == 11;
        all = (all * 31 + r) * 31 + sum(buffer, LONGEST);
    }
    printf("%d runs (%llu end served, %llu refused 1, %llu 8, %llu 11; sum %llx)\n", RUNS, served, limits, bad, full, all);
}

int load_apart(const char *load, u64 b, u64 P, u64 N, u64 n, int served)
{
    if (!strcmp(load, "begin"))
        alike(BEGIN, 0, b, P, N, n, served);
    else if (!strcmp(load, "add"))
        alike(WRITE, 0, b, P, N, n, served);
    else if (!strcmp(load, "far"))
        alike(WRITE, 100000, b, P, N, n, served);
    else if (!strcmp(load, "close"))
        alike(CLOSE, 0, b, P, N, n, served);
    else if (!strcmp(load, "wrong"))
        wrong();
    else
        return 0;
    return 1;
}
