/* The page buffer in the best C that we could write: the twin's calls, its refusals and its exact test of any pool, as fast as that test allows on any x86-64. It
   stands beside the plain twin to show what the proved calls still leave: part of what they gain over that one is the way of writing, which C can have too.
   What it does beyond the twin:
     - arrays are tested whole, 16 bytes at a time and without a way out, in the copy of the pool that goes back;
     - frames have no marks: numbers that fall down C and D merged leave no frame there twice. Where D or C is empty, they are compared four at a time;
     - pages are walked in the order of their frames. Up to 1,024 pages each has a mark of its own; beyond, remainders by 2,048 have, and a mark that is met is looked at
       exactly;
     - a page is looked up by one scan over the pages (which frame) and one over a list (which place);
     - a window is walked eight times at once. */
#include "parts.h"
#include <emmintrin.h>

enum { NEAR = 1024, FAR = 2048 };

typedef __m128i v;

static v load(const void *at)
{
    return _mm_loadu_si128((const v *)at);
}

static int none(v bits)
{
    return _mm_movemask_epi8(_mm_cmpeq_epi8(bits, _mm_setzero_si128())) == 0xffff;
}

/* The n lowest bits. */
static u64 below(u64 n)
{
    return n < 64 ? (1ull << n) - 1 : ~0ull;
}

/* Bits that must not be there: of the first n numbers where they are above `last`, and of all behind them. */
static v wrong_in_list(const u8 *list, u64 n, u64 last)
{
    v bad = _mm_setzero_si128(), number = _mm_setr_epi8(0, 1, 2, 3, 4, 5, 6, 7, 8, 9, 10, 11, 12, 13, 14, 15);
    for (int i = 0; i < PLACES; i += 16) {
        v inside = _mm_cmpgt_epi8(_mm_set1_epi8((char)n), _mm_add_epi8(number, _mm_set1_epi8((char)i)));
        bad = _mm_or_si128(bad, _mm_subs_epu8(load(list + i), _mm_and_si128(inside, _mm_set1_epi8((char)last))));
    }
    return bad;
}

static int lists_right(const pool *p)
{
    u64 last = p->frames - 1;
    v bad = _mm_or_si128(wrong_in_list(p->clean, p->clean_len, last), wrong_in_list(p->dirty, p->dirty_len, last));
    return none(_mm_or_si128(bad, wrong_in_list(p->empty, p->empty_len, last)));
}

/* Whether all pages are pages of the store, and there is 0 behind the frames. */
static int pages_right(const pool *p)
{
    v bad = _mm_setzero_si128(), last = _mm_set1_epi16((short)(p->pages - 1));
    for (int i = 0; i < PLACES; i += 8)
        bad = _mm_or_si128(bad, _mm_subs_epu16(load(p->page + i), last));
    u64 b = p->frames, whole = (b + 7) / 8 * 8, behind = 0;
    for (u64 i = whole; i < PLACES; i += 8)
        bad = _mm_or_si128(bad, _mm_or_si128(load(p->page + i), _mm_or_si128(load(p->reference + i), load(p->reference + i + 4))));
    for (u64 f = b; f < whole; f++)
        behind |= p->page[f] | p->reference[f];
    return none(bad) && !behind;
}

/* Two frames' numbers, each with the four bytes behind it: the next frame's number, or behind the last frame's the target. */
static __m128 two(const u32 *number, u8 f, u8 g)
{
    return _mm_loadh_pi(_mm_loadl_pi(_mm_setzero_ps(), (const __m64 *)(number + f)), (const __m64 *)(number + g));
}

static v four(const u32 *number, u8 f, u8 g, u8 h, u8 k)
{
    return _mm_castps_si128(_mm_shuffle_ps(two(number, f, g), two(number, h, k), 0x88));
}

/* Whether numbers fall from `last` down a list, and not to 0: four stretches of it at once, each from the number in front of it, then what is left. They are compared
   as signed ones: `last` is positive, and what falls from it and ends positive was never anything else. gcc unrolls the loop in a function of its own alone. */
__attribute__((noinline)) static int falling(const u32 *number, const u8 *list, u64 n, u32 last)
{
    u64 stretch = n / 8 * 2;
    const u8 *a = list, *b = a + stretch, *c = b + stretch, *d = c + stretch, *rest = d + stretch;
    v right = _mm_set1_epi32(-1);
    if (stretch) {
        v before = _mm_setr_epi32((int)last, (int)number[b[-1]], (int)number[c[-1]], (int)number[d[-1]]);
#pragma GCC unroll 2
        for (u64 i = 0; i < stretch; i += 2) {
            v now = four(number, a[i], b[i], c[i], d[i]);
            right = _mm_and_si128(right, _mm_cmpgt_epi32(before, now));
            before = four(number, a[i + 1], b[i + 1], c[i + 1], d[i + 1]);
            right = _mm_and_si128(right, _mm_cmpgt_epi32(now, before));
        }
        last = number[rest[-1]];
    }
    int wrong = _mm_movemask_epi8(right) != 0xffff;
    for (; rest < list + n; rest++) {
        wrong |= (int)number[*rest] >= (int)last;
        last = number[*rest];
    }
    return !wrong && (int)last > 0;
}

/* Whether they fall down C and D merged. Then no frame stands there twice, for its number would. */
static int merge_falls(const pool *p)
{
    const u32 *number = p->reference;
    const u8 *c = p->clean, *d = p->dirty;
    u64 cn = p->clean_len, dn = p->dirty_len, i = 0, j = 0;
    u32 last = (u32)p->served + 1;
    if (cn == 0)
        return falling(number, d, dn, last);
    if (dn == 0)
        return falling(number, c, cn, last);
    for (u32 x = number[c[0]], y = number[d[0]];;)
        if (x > y) {
            if (x >= last)
                return 0;
            last = x;
            if (++i == cn)
                return falling(number, d + j, dn - j, last);
            x = number[c[i]];
        } else {
            if (y >= last)
                return 0;
            last = y;
            if (++j == dn)
                return falling(number, c + i, cn - i, last);
            y = number[d[j]];
        }
}

/* Where some frame is empty: whether each of E stands there once and has page and number 0. So none of them is in C or D, where no number is 0. */
static int empty_right(const pool *p)
{
    u64 seen = 0, bad = 0;
    for (u64 i = 0; i < p->empty_len; i++) {
        u64 f = p->empty[i];
        bad |= (seen >> f & 1) | p->page[f] | p->reference[f];
        seen |= 1ull << f;
    }
    return !bad;
}

/* The frames of C and D that have a page, as bits; page 0 is also what the others have. */
static u64 holders(const pool *p, u64 page)
{
    v wanted = _mm_set1_epi16((short)page);
    u64 bits = 0;
    for (int i = 0; i < PLACES; i += 16) {
        v low = _mm_cmpeq_epi16(load(p->page + i), wanted), high = _mm_cmpeq_epi16(load(p->page + i + 8), wanted);
        bits |= (u64)_mm_movemask_epi8(_mm_packs_epi16(low, high)) << i;
    }
    if (page == 0) {
        bits &= below(p->frames);
        for (u64 i = 0; i < p->empty_len; i++)
            bits &= ~(1ull << p->empty[i]);
    }
    return bits;
}

/* The places of the first n where a frame stands, as bits. */
static u64 places(const u8 *list, u64 n, u64 f)
{
    v wanted = _mm_set1_epi8((char)f);
    u64 bits = 0;
    for (int i = 0; i < PLACES; i += 16)
        bits |= (u64)_mm_movemask_epi8(_mm_cmpeq_epi8(load(list + i), wanted)) << i;
    return bits & below(n);
}

/* All set bits but the lowest. */
static u64 several(u64 bits)
{
    return bits & (bits - 1);
}

/* All but one of the frames that have a page, as bits. The loop that asks this, which is seldom, does better with a call. */
__attribute__((noinline)) static u64 others(const pool *p, u64 page)
{
    return several(holders(p, page));
}

/* By the library's memset, which writes 32 bytes at a time: where gcc knows the size, it puts in `rep stos`. */
static void clear(u8 *marks, u64 n)
{
    __asm__("" : "+r"(n));
    memset(marks, 0, n);
}

static int near_apart(const u16 *page, u64 n)
{
    u8 marks[NEAR], met = 0;
    clear(marks, NEAR);
#pragma GCC unroll 8
    for (u64 i = 0; i < n; i++) {
        met |= marks[page[i]];
        marks[page[i]] = 1;
    }
    return !met;
}

static int far_apart(const pool *p, const u16 *page, u64 n)
{
    u8 marks[FAR];
    u64 met = 0;
    clear(marks, FAR);
#pragma GCC unroll 8
    for (u64 i = 0; i < n; i++) {
        if (marks[page[i] % FAR])
            met |= others(p, page[i]);
        marks[page[i] % FAR] = 1;
    }
    return !met;
}

/* Whether no two of n pages, those that the frames of C and D have, are the same. */
static int apart(const pool *p, const u16 *page, u64 n)
{
    return p->pages <= NEAR ? near_apart(page, n) : far_apart(p, page, n);
}

/* The same where some frame is empty: its page 0 is none of them. */
static int held_apart(const pool *p)
{
    u16 page[PLACES];
    u64 n = 0;
    for (u64 i = 0; i < p->clean_len; i++)
        page[n++] = p->page[p->clean[i]];
    for (u64 i = 0; i < p->dirty_len; i++)
        page[n++] = p->page[p->dirty[i]];
    return apart(p, page, n);
}

static int sound(const pool *p)
{
    if (!numbers_right(p) || !lists_right(p) || !pages_right(p) || !merge_falls(p))
        return 0;
    return p->empty_len ? empty_right(p) && held_apart(p) : apart(p, p->page, p->frames);
}

static void hit_clean(pool *p, const kept *k, u64 i, u8 f, int write)
{
    u64 c = p->clean_len, d = p->dirty_len;
    if (!write) {
        costs now = in_force(p, k);
        raise(p, now.read * d, (now.read + now.write) * c);
        front(p->clean, i, f);
        return;
    }
    take(p->clean, i, c);
    front(p->dirty, d, f);
    p->clean_len--, p->dirty_len++;
}

static void hit_dirty(pool *p, const kept *k, u64 i, u8 f, int write)
{
    if (write) {
        costs now = in_force(p, k);
        lower(p, now.write * p->clean_len, (now.read + now.write) * p->dirty_len);
    }
    front(p->dirty, i, f);
}

PART place find(pool *p, u64 page)
{
    u64 found = holders(p, page);
    if (!found)
        return (place){0, 0, 0};
    u64 f = (u64)__builtin_ctzll(found), in_clean = places(p->clean, p->clean_len, f);
    if (in_clean)
        return (place){p->clean, &p->clean_len, (u64)__builtin_ctzll(in_clean)};
    return (place){p->dirty, &p->dirty_len, (u64)__builtin_ctzll(places(p->dirty, p->dirty_len, f))};
}

static u64 bring(served *s, const kept *k, u64 page, int write, u8 *frames, u8 *store)
{
    pool *p = &s->pool;
    p->served++;
    place at = find(p, page);
    if (!at.list)
        return fault(s, page, p->page_bytes, write, frames, store);
    u8 f = at.list[at.at];
    s->hit = 1;
    if (at.list == p->clean)
        hit_clean(p, k, at.at, f, write);
    else
        hit_dirty(p, k, at.at, f, write);
    return f;
}

/* Whether the places from i to n hold 0. */
PART int rest_right(const u16 *times, u64 i, u64 n)
{
    v bad = _mm_setzero_si128();
    u32 wrong = 0;
    for (; n - i >= 8; i += 8)
        bad = _mm_or_si128(bad, load(times + i));
    for (; i < n; i++)
        wrong |= times[i];
    return none(bad) && !wrong;
}

/* Whether n places hold what is kept of them. Times are taken as signed ones, 32,768 less: the least of them tells of a 0, and the product with 1 adds them in pairs. */
PART int window_right(const window *w, const u16 *times, u64 n)
{
    v half = _mm_set1_epi16(-32768), one = _mm_set1_epi16(1), least = _mm_set1_epi16(32767), sums = _mm_setzero_si128();
    u64 i = 0, fill = w->fill, whole = fill / 8 * 8;
#pragma GCC unroll 16
    for (; i < whole; i += 8) {
        v x = _mm_xor_si128(load(times + i), half);
        least = _mm_min_epi16(least, x);
        sums = _mm_add_epi32(sums, _mm_madd_epi16(x, one));
    }
    sums = _mm_add_epi32(sums, _mm_shuffle_epi32(sums, 0x4e));
    sums = _mm_add_epi32(sums, _mm_shuffle_epi32(sums, 1));
    u32 sum = (u32)_mm_cvtsi128_si32(sums) + 32768 * (u32)whole;
    int zeros = _mm_movemask_epi8(_mm_cmpeq_epi16(least, half));
    for (; i < fill; i++)
        sum += times[i], zeros |= times[i] == 0;
    return sum == w->sum && !zeros && (fill == n || rest_right(times, fill, n));
}

static const pool *tested(const pool *handed, const served *back)
{
    (void)handed;
    return &back->pool;
}

static u64 total(const pool *p, u64 *cost)
{
    if (!sound(p))
        return UNSOUND;
    *cost = p->reads * p->read_cost + p->writes * p->write_cost;
    return 0;
}

static u64 total_at(pool *p, u64 target, u64 *cost)
{
    p->target = target;
    return total(p, cost);
}

#define HANDED(p) (&(p))
#include "calls.h"
