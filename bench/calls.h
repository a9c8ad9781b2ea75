/* The calls in C, the pool handed in and handed back; a read and a write are measured ones where they are lent kept numbers, k, and plain ones where k is 0. Whoever
   includes this has written before: sound (the exact test), find (where a page stands), bring (a page into a frame) and tested (which of a call's two copies of the
   pool is tested). */
static int examine(const pool *p, const kept *k, u64 fn, u64 sn, u64 page, int fit)
{
    if (!sound(p))
        return UNSOUND;
    if (k && !kept_right(k))
        return BROKEN_WINDOWS;
    if (fn != p->frames * p->page_bytes || sn != p->pages * p->page_bytes)
        return WRONG_LENGTHS;
    if (page >= p->pages)
        return NO_SUCH_PAGE;
    if (!fit)
        return UNFIT;
    return p->served >= MOST_SERVED ? NONE_LEFT : 0;
}

static served read_page(pool p, const kept *k, u64 page, u8 *frames, u64 fn, u8 *store, u64 sn, u8 *out, u64 on)
{
    served s = {.pool = p};
    if ((s.refused = examine(tested(&p, &s), k, fn, sn, page, on == p.page_bytes)))
        return s;
    u64 f = bring(&s, k, page, 0, frames, store);
    s.pool.reference[f] = (u32)s.pool.served;
    memcpy(out, frames + f * on, on);
    return s;
}

static served write_page(pool p, const kept *k, u64 page, u64 start, const u8 *bytes, u64 n, u8 *frames, u64 fn, u8 *store, u64 sn)
{
    served s = {.pool = p};
    u64 size = p.page_bytes;
    if ((s.refused = examine(tested(&p, &s), k, fn, sn, page, n > 0 && start <= size && n <= size - start)))
        return s;
    u64 f = bring(&s, k, page, 1, frames, store);
    s.pool.reference[f] = (u32)s.pool.served;
    memcpy(frames + f * size + start, bytes, n);
    return s;
}

static served flush(pool p, const u8 *frames, u64 fn, u8 *store, u64 sn)
{
    served s = {.pool = p};
    if ((s.refused = examine(tested(&p, &s), 0, fn, sn, 0, 1)))
        return s;
    pool *q = &s.pool;
    u64 size = p.page_bytes;
    for (u64 i = p.dirty_len; i-- > 0;) {
        u64 f = p.dirty[i];
        memcpy(store + p.page[f] * size, frames + f * size, size);
    }
    for (u64 i = 0, c = 0, d = 0; i < p.clean_len + p.dirty_len; i++)
        q->clean[i] = latest(&p, &c, &d);
    memset(q->dirty, 0, PLACES);
    q->clean_len += p.dirty_len, q->dirty_len = 0, q->writes += p.dirty_len, q->served++;
    return s;
}

/* The frame memory is lent to be measured alone: what the page has there is not written back. */
static served drop_page(pool p, u64 page, const u8 *frames, u64 fn, u8 *store, u64 sn)
{
    served s = {.pool = p};
    (void)frames;
    if ((s.refused = examine(tested(&p, &s), 0, fn, sn, page, 1)))
        return s;
    pool *q = &s.pool;
    place at = find(q, page);
    if (at.list)
        vacate(q, at);
    memset(store + page * p.page_bytes, 0, p.page_bytes);
    q->writes++, q->served++;
    return s;
}
