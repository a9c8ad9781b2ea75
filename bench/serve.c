/* Built once for each side: the loads of the calls of SOURCE, without kept numbers, and of the recorder. SOURCE has also written total_at (the total with another
   target) and HANDED (how a pool goes to it). */
#include SOURCE
#include "record.h"

u64 bench_serve(u64 b, u64 size, u64 count, const u8 *ops, u64 n_ops, const u16 *pages, u64 n_pages, u8 *frames, u64 fn, u8 *store, u64 sn, u8 *out, u64 on, u64 n)
{
    pool p = opened(b, size, count, 1, 4);
    static const u8 bytes[8] = {1, 1, 1, 1, 1, 1, 1, 1};
    u64 refused = 0, cost = 0;
    for (u64 i = 0; i < n_ops && i < n_pages; i++) {
        served s = ops[i] == 0   ? read_page(p, 0, pages[i], frames, fn, store, sn, out, on)
                   : ops[i] == 1 ? write_page(p, 0, pages[i], 0, bytes, 8, frames, fn, store, sn)
                   : ops[i] == 3 ? drop_page(p, pages[i], frames, fn, store, sn)
                                 : flush(p, frames, fn, store, sn);
        p = s.pool;
    }
    for (u64 k = 0; k < n; k++)
        if (total_at(HANDED(p), k, &cost))
            refused = k;
    return refused < p.reads ? p.reads : refused;
}
