/* One side of the comparison: the calls of the twin or of the best C, under one type; and what the parts of the comparison share. */
#include "pool.h"

typedef struct {
    int (*sound)(const pool *);
    pool (*opened)(u64 b, u64 size, u64 pages, u64 r, u64 w);
    served (*read_page)(pool, const kept *, u64 page, u8 *frames, u64 fn, u8 *store, u64 sn, u8 *out, u64 on);
    served (*write_page)(pool, const kept *, u64 page, u64 start, const u8 *bytes, u64 n, u8 *frames, u64 fn, u8 *store, u64 sn);
    served (*flush)(pool, const u8 *frames, u64 fn, u8 *store, u64 sn);
    served (*drop_page)(pool, u64 page, const u8 *frames, u64 fn, u8 *store, u64 sn);
    u64 (*total_at)(pool *, u64 target, u64 *cost);
    timed (*start_windows)(u64 n, u16 *reads, u64 rn, u16 *writes, u64 wn);
    timed (*report_read)(kept, u16 time, u16 *reads, u64 rn, const u16 *writes, u64 wn);
    timed (*report_write)(kept, u16 time, const u16 *reads, u64 rn, u16 *writes, u64 wn);
} side;

extern const side twin, best;

/* Ends the comparison where the sides and the law are not alike. */
void must(int alike, const char *what, u64 run);

/* Compares the reports, and prints what was compared. */
void compare_windows(void);
