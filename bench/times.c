/* Built once for each side: the loads of the calls of SOURCE with kept numbers, and of the reports. They stand apart from serve.c, as the proved ones do: a program
   has the one form of a read or the other. */
#include SOURCE
#include "windows.h"

static timed note(kept k, u8 op, u16 number, u16 *reads, u64 rn, u16 *writes, u64 wn)
{
    return op == READ_TIME    ? report_read(k, number, reads, rn, writes, wn)
           : op == WRITE_TIME ? report_write(k, number, reads, rn, writes, wn)
                              : start_windows(number, reads, rn, writes, wn);
}

/* Another number for almost any other x, and for almost any other before it. */
static u64 mixed(u64 sum, u64 x)
{
    return (sum << 5) ^ (sum >> 59) ^ x;
}

static u64 mixed_window(u64 sum, const window *w)
{
    return mixed(mixed(mixed(sum, w->fill), w->next), w->sum);
}

u64 bench_times(u64 b, u64 size, u64 count, u64 n, u64 read_fill, u64 read_next, u64 read_sum, u64 write_fill, u64 write_next, u64 write_sum, const u8 *ops, u64 n_ops,
                const u16 *pages, u64 n_pages, u8 *frames, u64 fn, u8 *store, u64 sn, u8 *out, u64 on, u16 *reads, u64 rn, u16 *writes, u64 wn)
{
    pool p = opened(b, size, count, 1, 4);
    kept k = {n, {read_fill, read_next, read_sum}, {write_fill, write_next, write_sum}};
    static const u8 bytes[8] = {1, 1, 1, 1, 1, 1, 1, 1};
    u64 cost = 0;
    for (u64 i = 0; i < n_ops && i < n_pages; i++) {
        if (ops[i] > 3) {
            k = note(k, ops[i], pages[i], reads, rn, writes, wn).kept;
            continue;
        }
        served s = ops[i] == 0   ? read_page(p, &k, pages[i], frames, fn, store, sn, out, on)
                   : ops[i] == 1 ? write_page(p, &k, pages[i], 0, bytes, 8, frames, fn, store, sn)
                   : ops[i] == 3 ? drop_page(p, pages[i], frames, fn, store, sn)
                                 : flush(p, frames, fn, store, sn);
        p = s.pool;
    }
    u64 refused = total_at(HANDED(p), p.target, &cost);
    return mixed_window(mixed_window(mixed(mixed(refused ? refused : cost, p.target), k.n), &k.reads), &k.writes);
}
