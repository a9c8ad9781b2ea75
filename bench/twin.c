/* The page buffer once more, in C from the scope alone: the same calls, the same refusals, the pool handed in and handed back. It is the
   plain C that the proved calls are measured against; best.c is the best one. Its soundness walk marks frames in a 64-bit word, merges C and D to see the reference
   numbers fall, marks pages in a small table by their low bits, and looks further on a clash. */
#include "parts.h"

enum { TABLE = 1024 };

static int list_ok(const u8 *list, u64 n, u64 b, u64 *seen)
{
    for (u64 i = 0; i < n; i++) {
        u64 f = list[i];
        if (f >= b || (*seen >> f & 1))
            return 0;
        *seen |= 1ull << f;
    }
    for (u64 i = n; i < PLACES; i++)
        if (list[i])
            return 0;
    return 1;
}

/* Down both lists at once the numbers must fall, from served at most to 1 at least: whatever stands twice or in the wrong order is met where they do not. */
static int references_ok(const pool *p)
{
    u64 c = 0, d = 0, last = p->served + 1;
    while (c < p->clean_len || d < p->dirty_len) {
        u64 number = p->reference[latest(p, &c, &d)];
        if (number >= last)
            return 0;
        last = number;
    }
    return last > 0;
}

static int sound(const pool *p)
{
    u64 b = p->frames, seen = 0, gone;
    if (!numbers_right(p) || !list_ok(p->empty, p->empty_len, b, &seen))
        return 0;
    gone = seen;
    if (!list_ok(p->clean, p->clean_len, b, &seen) || !list_ok(p->dirty, p->dirty_len, b, &seen))
        return 0;
    if (!references_ok(p))
        return 0;
    u8 table[TABLE];
    memset(table, 0, sizeof table);
    for (u64 f = 0; f < PLACES; f++) {
        u64 q = p->page[f];
        if (f >= b || (gone >> f & 1)) {
            if (q || p->reference[f])
                return 0;
            continue;
        }
        if (q >= p->pages)
            return 0;
        if (table[q % TABLE])
            for (u64 g = 0; g < f; g++)
                if (!(gone >> g & 1) && p->page[g] == q)
                    return 0;
        table[q % TABLE] = 1;
    }
    return 1;
}

/* By the lists, not by the frames: an empty one has 0 for its page. */
PART place find(pool *p, u64 page)
{
    for (u64 i = 0; i < p->clean_len; i++)
        if (p->page[p->clean[i]] == page)
            return (place){p->clean, &p->clean_len, i};
    for (u64 i = 0; i < p->dirty_len; i++)
        if (p->page[p->dirty[i]] == page)
            return (place){p->dirty, &p->dirty_len, i};
    return (place){0, 0, 0};
}

static u64 bring(served *s, const kept *k, u64 page, int write, u8 *frames, u8 *store)
{
    pool *p = &s->pool;
    u64 size = p->page_bytes, c = p->clean_len, d = p->dirty_len;
    costs now = in_force(p, k);
    u64 r = now.read, w = now.write;
    p->served++;
    place at = find(p, page);
    if (!at.list)
        return fault(s, page, size, write, frames, store);
    u8 f = at.list[at.at];
    s->hit = 1;
    if (at.list == p->dirty) {
        if (write)
            lower(p, w * c, (r + w) * d);
        front(p->dirty, at.at, f);
    } else if (write) {
        take(p->clean, at.at, c);
        front(p->dirty, d, f);
        p->clean_len--, p->dirty_len++;
    } else {
        raise(p, r * d, (r + w) * c);
        front(p->clean, at.at, f);
    }
    return f;
}

/* Whether n places hold what is kept of them: times where they are filled, 0 behind, and that sum. In a function of its own, gcc keeps their address in a register;
   programs without windows do not use it. */
__attribute__((noinline, unused)) static int window_right(const window *w, const u16 *times, u64 n)
{
    u64 sum = 0;
    for (u64 i = 0; i < w->fill; i++) {
        if (times[i] == 0)
            return 0;
        sum += times[i];
    }
    for (u64 i = w->fill; i < n; i++)
        if (times[i])
            return 0;
    return sum == w->sum;
}

static const pool *tested(const pool *handed, const served *back)
{
    (void)back;
    return handed;
}

static u64 total(pool p, u64 *cost)
{
    if (!sound(&p))
        return UNSOUND;
    *cost = p.reads * p.read_cost + p.writes * p.write_cost;
    return 0;
}

static u64 total_at(pool p, u64 target, u64 *cost)
{
    p.target = target;
    return total(p, cost);
}

#define HANDED(p) (p)
#include "calls.h"
