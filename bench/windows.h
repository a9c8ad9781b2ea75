/* The windows of times in C, what is kept of them handed in and handed back. Whoever includes this has written before: window_right (whether n places hold what is
   kept of them). */
/* The next place is behind those filled or, in a full window, any. */
PART int next_right(const window *w, u64 n)
{
    return w->fill < n ? w->next == w->fill : w->fill == n && w->next < n;
}

PART int windows_right(const kept *k, const u16 *reads, u64 rn, const u16 *writes, u64 wn)
{
    u64 n = k->n;
    if (n < 1 || n > MOST_TIMES || rn != n || wn != n || !next_right(&k->reads, n) || !next_right(&k->writes, n))
        return 0;
    return window_right(&k->reads, reads, n) && window_right(&k->writes, writes, n);
}

PART void put_time(window *w, u16 time, u16 *times, u64 n)
{
    w->sum += time;
    w->sum -= times[w->next];
    times[w->next++] = time;
    if (w->fill < n)
        w->fill++;
    if (w->next == n)
        w->next = 0;
}

static timed start_windows(u64 n, u16 *reads, u64 rn, u16 *writes, u64 wn)
{
    if (n < 1 || n > MOST_TIMES || rn != n || wn != n)
        return (timed){.refused = BROKEN_WINDOWS};
    memset(reads, 0, n * sizeof *reads), memset(writes, 0, n * sizeof *writes);
    return (timed){.kept.n = n};
}

PART int report_refused(const kept *k, u16 time, const u16 *reads, u64 rn, const u16 *writes, u64 wn)
{
    return !windows_right(k, reads, rn, writes, wn) ? BROKEN_WINDOWS : time == 0 ? ZERO_TIME : 0;
}

static timed report_read(kept k, u16 time, u16 *reads, u64 rn, const u16 *writes, u64 wn)
{
    timed t = {k, report_refused(&k, time, reads, rn, writes, wn)};
    if (!t.refused)
        put_time(&t.kept.reads, time, reads, rn);
    return t;
}

static timed report_write(kept k, u16 time, const u16 *reads, u64 rn, u16 *writes, u64 wn)
{
    timed t = {k, report_refused(&k, time, reads, rn, writes, wn)};
    if (!t.refused)
        put_time(&t.kept.writes, time, writes, wn);
    return t;
}
