/* Built once for each side of the comparison: the calls of SOURCE, which are its own, under the name SIDE. */
#include "compare.h"
#include SOURCE
#include "windows.h"

static u64 total_of(pool *p, u64 target, u64 *cost)
{
    return total_at(HANDED(*p), target, cost);
}

const side SIDE = {sound, opened, read_page, write_page, flush, drop_page, total_of, start_windows, report_read, report_write};
