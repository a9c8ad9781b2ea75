/* What the twin and the best C do alike below their calls: test the numbers of a pool, open one, move frames along its lists, merge these, move the target, serve a
   fault, empty a frame. */
#include "pool.h"
#include <string.h>

/* Compiled into the function that has it, whatever gcc would choose: what is counted must not hang on where the text stands. */
#define PART static inline __attribute__((always_inline))

static int in_limits(u64 b, u64 size, u64 pages, u64 r, u64 w)
{
    return b >= 1 && b <= PLACES && size >= 16 && size <= 4096 && pages >= 1 && pages <= MOST_PAGES && r >= 1 && r <= MOST_COST && w >= 1 && w <= MOST_COST;
}

/* Whether all is right that stands in no array. */
PART int numbers_right(const pool *p)
{
    u64 b = p->frames;
    if (!in_limits(b, p->page_bytes, p->pages, p->read_cost, p->write_cost))
        return 0;
    if (p->target > b * ONE || p->served > MOST_SERVED || p->reads > p->served || p->writes > b * p->served)
        return 0;
    return p->empty_len <= b && p->clean_len <= b - p->empty_len && p->dirty_len == b - p->empty_len - p->clean_len;
}

static pool opened(u64 b, u64 size, u64 pages, u64 r, u64 w)
{
    pool p;
    memset(&p, 0, sizeof p);
    if (r == 0 && w == 0)
        r = 1, w = 10;
    if (!in_limits(b, size, pages, r, w))
        return p;
    p.frames = b, p.page_bytes = size, p.pages = pages, p.read_cost = r, p.write_cost = w, p.empty_len = b;
    for (u64 i = 0; i < b; i++)
        p.empty[i] = (u8)(b - 1 - i);
    return p;
}

static void front(u8 *list, u64 at, u8 f)
{
    memmove(list + 1, list, at);
    list[0] = f;
}

static void take(u8 *list, u64 at, u64 n)
{
    memmove(list + at, list + at + 1, n - at - 1);
    list[n - 1] = 0;
}

/* Where a page stands: at which place of C or D, with the length of that one; `list` is 0 where no frame has it. */
typedef struct {
    u8 *list;
    u64 *n, at;
} place;

/* The frame there leaves its list and becomes the tail of E, which the next fault takes. */
PART void vacate(pool *p, place from)
{
    u8 f = from.list[from.at];
    take(from.list, from.at, (*from.n)--);
    p->empty[p->empty_len++] = f;
    p->page[f] = 0, p->reference[f] = 0;
}

/* The next frame where C and D are merged, latest reference first; one of them has one left. */
PART u8 latest(const pool *p, u64 *c, u64 *d)
{
    int clean = *d == p->dirty_len || (*c < p->clean_len && p->reference[p->clean[*c]] > p->reference[p->dirty[*d]]);
    return clean ? p->clean[(*c)++] : p->dirty[(*d)++];
}

/* Whether this may be kept of a window of n places. */
PART int in_range(const window *w, u64 n)
{
    return w->fill <= n && w->sum >= w->fill && w->sum <= w->fill * MOST_TIME;
}

/* As much as a call sees that is lent no window. */
PART int kept_right(const kept *k)
{
    return k->n >= 1 && k->n <= MOST_TIMES && in_range(&k->reads, k->n) && in_range(&k->writes, k->n);
}

typedef struct {
    u64 read, write;
} costs;

/* Those of the drive as it was measured, once both windows are full; till then, and where none are kept, those that the pool was opened with. */
PART costs in_force(const pool *p, const kept *k)
{
    if (k && k->reads.fill == k->n && k->writes.fill == k->n)
        return (costs){k->reads.sum, k->writes.sum};
    return (costs){p->read_cost, p->write_cost};
}

/* A step of above over below of a page, in units: to the nearest, a half upwards. */
static u64 step_units(u64 above, u64 below)
{
    return (2 * ONE * above + below) / (2 * below);
}

static void raise(pool *p, u64 above, u64 below)
{
    u64 t = p->target + step_units(above, below);
    p->target = t < p->frames * ONE ? t : p->frames * ONE;
}

static void lower(pool *p, u64 above, u64 below)
{
    u64 t = step_units(above, below);
    p->target = t < p->target ? p->target - t : 0;
}

/* A page that no frame has: into an empty frame, or into the victim's. */
PART u64 fault(served *s, u64 page, u64 size, int write, u8 *frames, u8 *store)
{
    pool *p = &s->pool;
    u8 f;
    if (p->empty_len) {
        f = p->empty[--p->empty_len];
        p->empty[p->empty_len] = 0;
    } else if (p->clean_len * ONE > p->target || p->dirty_len == 0) {
        f = p->clean[--p->clean_len];
        p->clean[p->clean_len] = 0;
        s->victim = 1, s->old = p->page[f];
    } else {
        f = p->dirty[--p->dirty_len];
        p->dirty[p->dirty_len] = 0;
        s->victim = 2, s->old = p->page[f];
        memcpy(store + s->old * size, frames + f * size, size);
        p->writes++;
    }
    memcpy(frames + f * size, store + page * size, size);
    p->reads++;
    p->page[f] = (u16)page;
    if (write)
        front(p->dirty, p->dirty_len++, f);
    else
        front(p->clean, p->clean_len++, f);
    return f;
}
