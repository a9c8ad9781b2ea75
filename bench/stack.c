/* stack WORDS: prints the bytes of stack that a run of every call takes at its deepest: the run stands on a painted stack of its own, and the paint left is counted. */
#include "bench.h"
#include <stdio.h>
#include <stdlib.h>
#include <ucontext.h>

enum { ROOM = 1 << 20, PAINT = 0xA5, FRAMES = 64, SIZE = 4096, COUNT = 1024, REQUESTS = 4096 };

static u8 stack[ROOM], ops[REQUESTS], frames[FRAMES * SIZE], store[COUNT * SIZE], out[SIZE];
static u16 pages[REQUESTS];
static u64 answer;

static void serve(void)
{
    answer = bench_serve(FRAMES, SIZE, COUNT, ops, REQUESTS, pages, REQUESTS, frames, sizeof frames, store, sizeof store, out, SIZE, 1);
}

static void nothing(void)
{
}

/* The deepest byte that `run` wrote, as a distance from the stack's start. */
static u64 depth(void (*run)(void))
{
    ucontext_t here, there;
    for (u64 i = 0; i < ROOM; i++)
        stack[i] = PAINT;
    getcontext(&there);
    there.uc_stack.ss_sp = stack, there.uc_stack.ss_size = ROOM, there.uc_link = &here;
    makecontext(&there, run, 0);
    swapcontext(&here, &there);
    u64 left = 0;
    while (left < ROOM && stack[left] == PAINT)
        left++;
    return ROOM - left;
}

int main(int argc, char **argv)
{
    if (argc != 2)
        return 2;
    for (u64 i = 0; i < REQUESTS; i++)
        ops[i] = i % 97 == 96 ? 2 : i % 11 == 10 ? 3 : i * i % 3 % 2, pages[i] = i * 7 % 131 + i % 5;
    u64 empty = depth(nothing), full = depth(serve);
    printf("stack of a run of %s: %llu bytes\n", argv[1], full - empty);
    return answer == 0;
}
