/* The best C against the twin: the same random calls, some of them to be refused, half of the reads and writes with kept numbers, must give the same answers, pools
   and bytes, and pools changed in a place or two the same verdict, the same drop and the same read. What both share (parts.h, calls.h), the numbers, the refusals, the
   merge of a flush, the drop and the step of the target, is held against the law. Prints what was compared; the first difference ends it. */
#include "compare.h"
#include "random.h"
#include <stdio.h>
#include <stdlib.h>
#include <string.h>

enum { SIZE = 16, RUNS = 400, CALLS = 300, CHANGES = 6 };

typedef struct {
    const side *calls;
    pool pool;
    u8 frames[PLACES * SIZE], store[MOST_PAGES * SIZE], out[SIZE];
} house;

typedef struct {
    u64 op, page, start, n, fn, sn, on;
    int measured;
    kept kept;
} request;

static house of_twin = {.calls = &twin}, of_best = {.calls = &best}, of_law;

void must(int alike, const char *what, u64 run)
{
    if (alike)
        return;
    printf("best.c, twin.c and the law differ in %s, run %llu\n", what, run);
    exit(1);
}

static void open_house(house *h, u64 frames, u64 pages, u64 read_cost, u64 write_cost)
{
    h->pool = h->calls->opened(frames, SIZE, pages, read_cost, write_cost);
    memset(h->frames, 0, sizeof h->frames), memset(h->out, 0, SIZE);
    for (u64 i = 0; i < pages * SIZE; i++)
        h->store[i] = (u8)(i / SIZE * 37 + i / (256 * SIZE) + i);
}

/* What a call may see kept of a window of n places, its least and its greatest sum often. */
static window drawn_window(u64 n)
{
    u64 fill = below(4) ? n : below(n + 1), most = fill * MOST_TIME, any = fill + below(most - fill + 1), sums[4] = {fill, most, any, any};
    return (window){fill, below(2 * n), sums[below(4)]};
}

/* One of the five numbers that a call sees goes out of its range, or all become 0. */
static void break_kept(kept *k)
{
    window *w = below(2) ? &k->reads : &k->writes;
    u64 kind = below(6);
    if (kind == 0)
        *k = (kept){0};
    else if (kind == 1)
        k->n = below(2) ? MOST_TIMES + 1 : ~0ull;
    else if (kind == 2)
        w->fill = below(2) ? k->n + 1 : ~0ull;
    else
        w->sum = kind == 3 ? w->fill - 1 : kind == 4 ? w->fill * MOST_TIME + 1 : w->sum + (1ull << 32);
}

static kept drawn_kept(void)
{
    u64 n = below(4) ? 1 + below(40) : MOST_TIMES - below(2);
    kept k = {n, drawn_window(n), drawn_window(n)};
    if (below(8) == 0)
        break_kept(&k);
    return k;
}

/* Pages near the first ones come often, so that there are hits; in some runs a flush comes seldom, so that D grows long, and in some a drop, so that no frame is
   empty for long; one request in 16 has something wrong. */
static request drawn(const pool *p, u64 run)
{
    u64 often = p->frames + 8 < p->pages ? p->frames + 8 : p->pages, wrong = below(16 * 6);
    u64 op = below(20 << run % 4) == 0 ? 2 : below(6 << run / 4 % 4) == 0 ? 3 : below(3) == 0;
    request q = {.op = op, .page = below(3) ? below(often) : below(p->pages), .start = below(9), .n = 1 + below(8), .measured = op < 2 && below(2), .kept = drawn_kept()};
    q.fn = p->frames * SIZE - (wrong == 0), q.sn = p->pages * SIZE - (wrong == 1), q.on = SIZE - (wrong == 2);
    if (wrong == 3)
        q.page = p->pages + below(3);
    if (wrong == 4)
        q.n = 0;
    if (wrong == 5)
        q.start = SIZE + 1 - q.n + below(9);
    return q;
}

static served serve(house *h, request q)
{
    static const u8 bytes[8] = {7, 1, 2, 5, 3, 4, 6, 9};
    const kept *k = q.measured ? &q.kept : 0;
    served s = q.op == 0   ? h->calls->read_page(h->pool, k, q.page, h->frames, q.fn, h->store, q.sn, h->out, q.on)
               : q.op == 1 ? h->calls->write_page(h->pool, k, q.page, q.start, bytes, q.n, h->frames, q.fn, h->store, q.sn)
               : q.op == 3 ? h->calls->drop_page(h->pool, q.page, h->frames, q.fn, h->store, q.sn)
                           : h->calls->flush(h->pool, h->frames, q.fn, h->store, q.sn);
    h->pool = s.pool;
    return s;
}

static int same_pool(const pool *a, const pool *b)
{
    return !memcmp(a, b, sizeof *a);
}

static int same_answer(const served *a, const served *b)
{
    return a->refused == b->refused && a->hit == b->hit && a->victim == b->victim && a->old == b->old && same_pool(&a->pool, &b->pool);
}

static int same_bytes(const house *a, const house *b, u64 store)
{
    return !memcmp(a->frames, b->frames, sizeof a->frames) && !memcmp(a->store, b->store, store) && !memcmp(a->out, b->out, SIZE);
}

static void copy_house(house *to, const house *from, u64 store)
{
    to->pool = from->pool;
    memcpy(to->frames, from->frames, sizeof to->frames), memcpy(to->store, from->store, store), memcpy(to->out, from->out, SIZE);
}

/* The law of the kept numbers that a call sees. */
static int kept_by_law(const kept *k)
{
    const window *both[2] = {&k->reads, &k->writes};
    for (int i = 0; i < 2; i++)
        if (both[i]->fill > k->n || both[i]->sum < both[i]->fill || both[i]->sum / MOST_TIME + (both[i]->sum % MOST_TIME != 0) > both[i]->fill)
            return 0;
    return k->n - 1 < MOST_TIMES;
}

/* The law of refusals: the first that holds, or 0. */
static int refused_by_law(const pool *p, request q)
{
    u64 size = p->page_bytes;
    if (!twin.sound(p))
        return UNSOUND;
    if (q.measured && !kept_by_law(&q.kept))
        return BROKEN_WINDOWS;
    if (q.fn != p->frames * size || q.sn != p->pages * size)
        return WRONG_LENGTHS;
    if (q.op != 2 && q.page >= p->pages)
        return NO_SUCH_PAGE;
    if ((q.op == 0 && q.on != size) || (q.op == 1 && (q.n == 0 || q.start + q.n > size)))
        return UNFIT;
    return p->served == MOST_SERVED ? NONE_LEFT : 0;
}

/* The law of a drop, on the pool: C and D are listed anew, and the frame that has the page goes behind E. */
static void cut(pool *p, u64 page)
{
    pool was = *p;
    memset(p->clean, 0, PLACES), memset(p->dirty, 0, PLACES);
    p->clean_len = p->dirty_len = 0, p->served++, p->writes++;
    for (u64 i = 0; i < was.clean_len + was.dirty_len; i++) {
        int clean = i < was.clean_len;
        u8 f = clean ? was.clean[i] : was.dirty[i - was.clean_len];
        if (was.page[f] == page)
            p->empty[p->empty_len++] = f, p->page[f] = 0, p->reference[f] = 0;
        else if (clean)
            p->clean[p->clean_len++] = f;
        else
            p->dirty[p->dirty_len++] = f;
    }
}

/* The whole drop by the law, in its own house; its refusal, or 0. */
static int drop_by_law(request q)
{
    pool *p = &of_law.pool;
    u64 size = p->page_bytes;
    int refused = refused_by_law(p, q);
    if (refused)
        return refused;
    cut(p, q.page);
    memset(of_law.store + q.page * size, 0, size);
    return 0;
}

/* Whether a read or a write that was served has given its number to the frame of its page alone, a flush to none. */
static int numbered(const pool *was, const pool *is, request q)
{
    u64 given = 0;
    for (u64 f = 0; f < PLACES; f++)
        if (is->reference[f] != was->reference[f]) {
            if (is->reference[f] != is->served || is->page[f] != q.page)
                return 0;
            given++;
        }
    return is->served == was->served + 1 && given == (q.op != 2);
}

/* Whether one of the first n frames of a list has a page. */
static int stands(const pool *p, const u8 *list, u64 n, u64 page)
{
    for (u64 i = 0; i < n; i++)
        if (p->page[list[i]] == page)
            return 1;
    return 0;
}

/* Whether the costs in force are those measured. */
static int full(request q)
{
    return q.measured && q.kept.reads.fill == q.kept.n && q.kept.writes.fill == q.kept.n;
}

/* The law of the target, for a call that is served: a read of a page in C adds to it, a write to one in D takes from it, whole units and one more where half a unit
   or more is left, by the sums of the windows if both are full; nothing else moves it. */
static u64 target_by_law(const pool *was, request q)
{
    u64 read_cost = full(q) ? q.kept.reads.sum : was->read_cost, write_cost = full(q) ? q.kept.writes.sum : was->write_cost;
    u64 c = was->clean_len, d = was->dirty_len, costs = read_cost + write_cost, top = was->frames * ONE;
    if (q.op == 0 && stands(was, was->clean, c, q.page)) {
        u64 above = ONE * read_cost * d, below = costs * c, to = was->target + above / below + (2 * (above % below) >= below);
        return to > top ? top : to;
    }
    if (q.op == 1 && stands(was, was->dirty, d, q.page)) {
        u64 above = ONE * write_cost * c, below = costs * d, off = above / below + (2 * (above % below) >= below);
        return off > was->target ? 0 : was->target - off;
    }
    return was->target;
}

/* Whether neither of C and D is later than all of the other. */
static int interleaved(const pool *p)
{
    u64 c = p->clean_len, d = p->dirty_len;
    const u32 *number = p->reference;
    return c && d && number[p->clean[0]] > number[p->dirty[d - 1]] && number[p->dirty[0]] > number[p->clean[c - 1]];
}

/* Both serve the request and say the total; returns how they refused it, or 0. A sound pool has one order of C where D is empty, so soundness is all there is to see of
   a flush. */
static int compare_call(request q, u64 run)
{
    pool was = of_twin.pool;
    u64 store = of_twin.pool.pages * SIZE, target = below((of_twin.pool.frames + 1) * ONE + 2), costs[2] = {0, 0};
    if (q.op == 3)
        copy_house(&of_law, &of_twin, store);
    served a = serve(&of_twin, q), b = serve(&of_best, q);
    must(same_answer(&a, &b) && a.refused == refused_by_law(&was, q), "a call's answer", run);
    must(same_bytes(&of_twin, &of_best, store), "the bytes after a call", run);
    must(a.refused || (twin.sound(&a.pool) && (q.op == 3 || numbered(&was, &a.pool, q))), "what a served call leaves", run);
    must(a.refused || a.pool.target == target_by_law(&was, q), "the target after a call", run);
    must(q.op != 3 || (a.refused == drop_by_law(q) && same_pool(&a.pool, &of_law.pool) && same_bytes(&of_twin, &of_law, store)), "a drop", run);
    pool p = a.pool, r = b.pool;
    must(twin.total_at(&p, target, &costs[0]) == best.total_at(&r, target, &costs[1]) && costs[0] == costs[1], "a total", run);
    return a.refused;
}

/* Mostly one that the pool has. */
static u64 a_frame(void)
{
    return below(below(4) ? of_twin.pool.frames : PLACES);
}

/* To 0, one up, one down, to another frame's, beyond all, or traded with another frame's. */
static void change_number(pool *p)
{
    u32 *number = p->reference + a_frame(), *other = p->reference + a_frame(), was = *number;
    u32 to[6] = {0, was + 1, was - 1, *other, (u32)p->served + 1, *other};
    u64 kind = below(6);
    *number = to[kind];
    if (kind == 5)
        *other = was;
}

/* A frame, a page or a number that stands twice is what most tests are about, so most changes are of these; the rest change any byte, or leave one
   call to be served or none. */
static void change(pool *p)
{
    u8 *lists[3] = {p->empty, p->clean, p->dirty}, *list = lists[below(3)], *bytes = (u8 *)p;
    u64 kind = below(9);
    if (kind < 2)
        list[below(PLACES)] = list[below(PLACES)];
    else if (kind < 4)
        p->page[a_frame()] = p->page[a_frame()];
    else if (kind < 6)
        change_number(p);
    else if (kind == 6)
        p->served = MOST_SERVED - below(2);
    else
        bytes[below(sizeof *p)] = below(4) ? bytes[below(sizeof *p)] : (u8)below(256);
}

/* Both drop a page of a changed pool, and so does the law. All zero it in the law's house, a copy: what becomes of bytes is compared after the calls. */
static void compare_drop(const pool *p, u64 run)
{
    request q = drawn(&of_twin.pool, run);
    q.op = 3, q.measured = 0;
    served a = twin.drop_page(*p, q.page, of_law.frames, q.fn, of_law.store, q.sn), b = best.drop_page(*p, q.page, of_law.frames, q.fn, of_law.store, q.sn);
    of_law.pool = *p;
    must(same_answer(&a, &b) && a.refused == drop_by_law(q) && same_pool(&a.pool, &of_law.pool), "a drop of a changed pool", run);
    must(a.refused || twin.sound(&a.pool), "what such a drop leaves", run);
}

/* Both read a page of a changed pool with kept numbers, in the law's house too. */
static void compare_read(const pool *p, u64 run)
{
    request q = drawn(&of_twin.pool, run);
    q.op = 0, q.measured = 1;
    served a = twin.read_page(*p, &q.kept, q.page, of_law.frames, q.fn, of_law.store, q.sn, of_law.out, q.on);
    served b = best.read_page(*p, &q.kept, q.page, of_law.frames, q.fn, of_law.store, q.sn, of_law.out, q.on);
    must(same_answer(&a, &b) && a.refused == refused_by_law(p, q), "a read of a changed pool", run);
    must(a.refused || (twin.sound(&a.pool) && a.pool.target == target_by_law(p, q)), "what such a read leaves", run);
}

/* Whether both call the changed pool sound; 2 if so in spite of other numbers. */
static int compare_verdict(pool p, u64 run)
{
    for (u64 times = 1 + below(2); times > 0; times--)
        change(&p);
    int verdict = twin.sound(&p);
    must(best.sound(&p) == verdict, "a verdict", run);
    compare_drop(&p, run);
    compare_read(&p, run);
    return verdict + (verdict && memcmp(p.reference, of_twin.pool.reference, sizeof p.reference));
}

int main(void)
{
    static const u64 most_pages[3] = {200, 1024, MOST_PAGES};
    u64 refused = 0, broken = 0, merged = 0, freed = 0, moved = 0, verdicts[3] = {0, 0, 0};
    for (u64 run = 0; run < RUNS; run++) {
        u64 frames = 1 + below(PLACES), pages = 1 + below(most_pages[run % 3]), read_cost = 1 + below(MOST_COST), write_cost = 1 + below(MOST_COST);
        open_house(&of_twin, frames, pages, read_cost, write_cost);
        open_house(&of_best, frames, pages, read_cost, write_cost);
        for (u64 i = 0; i < CALLS; i++) {
            request q = drawn(&of_twin.pool, run);
            u64 empty = of_twin.pool.empty_len, target = of_twin.pool.target;
            int merges = q.op == 2 && interleaved(&of_twin.pool), no = compare_call(q, run);
            refused += no != 0, broken += no == BROKEN_WINDOWS, merged += merges && !no, freed += of_twin.pool.empty_len > empty;
            moved += full(q) && of_twin.pool.target != target;
            for (u64 k = 0; k < CHANGES; k++)
                verdicts[compare_verdict(of_twin.pool, run)]++;
        }
    }
    printf("best.c is as twin.c: %d calls (%llu refused, %llu of them 13, %llu flushes of C and D interleaved, ", RUNS * CALLS, refused, broken, merged);
    printf("%llu drops that free a frame, %llu steps by measured costs), ", freed, moved);
    printf("%d changed pools (%llu sound, %llu of them with other numbers), ", RUNS * CALLS * CHANGES, verdicts[1] + verdicts[2], verdicts[2]);
    compare_windows();
    return 0;
}
