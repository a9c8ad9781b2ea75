/* The reports of the best C against those of the twin and against the law: windows that are started, or stand as after any reports, take times from all three; before
   half of the reports one number or place is changed. What is refused, what is kept and every place must be the same. */
#include "compare.h"
#include "random.h"
#include <stdio.h>
#include <string.h>

enum { RUNS = 2000, REPORTS = 40, LARGE = 200 /* runs to two of windows as large as can be, the first started */ };

typedef struct {
    kept kept;
    u16 reads[MOST_TIMES + 1], writes[MOST_TIMES + 1];
} house;

typedef struct {
    int write;
    u16 time;
    u64 rn, wn;
} request;

static house of_twin, of_best, of_law, last;

static void copy_house(house *to, const house *from, u64 n)
{
    to->kept = from->kept;
    memcpy(to->reads, from->reads, n * sizeof *to->reads), memcpy(to->writes, from->writes, n * sizeof *to->writes);
}

static int same_house(const house *a, const house *b, u64 n)
{
    return !memcmp(&a->kept, &b->kept, sizeof a->kept) && !memcmp(a->reads, b->reads, n * sizeof *a->reads) && !memcmp(a->writes, b->writes, n * sizeof *a->writes);
}

static u16 a_time(void)
{
    static const u16 edges[4] = {1, 2, MOST_TIME - 1, MOST_TIME};
    return below(4) ? (u16)(1 + below(MOST_TIME)) : edges[below(4)];
}

/* A window after any reports: of any times, of the least or of the greatest alone. */
static window drawn_window(u16 *times, u64 n)
{
    u64 fill = below(3) ? n : below(n), kind = below(4);
    window w = {fill, fill < n ? fill : below(n), 0};
    for (u64 i = 0; i < n; i++) {
        times[i] = i >= fill ? 0 : kind == 0 ? 1 : kind == 1 ? MOST_TIME : a_time();
        w.sum += times[i];
    }
    return w;
}

/* The law of one window: its filled places are those before the first 0, and nothing stands behind them. */
static int window_by_law(const window *w, const u16 *times, u64 n)
{
    u64 fill = 0, all = 0, sum = 0;
    while (fill < n && times[fill])
        sum += times[fill++];
    for (u64 i = 0; i < n; i++)
        all += times[i];
    return all == sum && w->sum == sum && w->fill == fill && (fill == n ? w->next < n : w->next == fill);
}

/* The whole report by the law, in its own house; its refusal, or 0. The time goes where it belongs, and all is added up anew. */
static int report_by_law(house *h, request q)
{
    u64 n = h->kept.n;
    if (n == 0 || n > MOST_TIMES || q.rn != n || q.wn != n || !window_by_law(&h->kept.reads, h->reads, n) || !window_by_law(&h->kept.writes, h->writes, n))
        return BROKEN_WINDOWS;
    if (q.time == 0)
        return ZERO_TIME;
    window *w = q.write ? &h->kept.writes : &h->kept.reads;
    u16 *times = q.write ? h->writes : h->reads;
    times[w->next] = q.time;
    w->fill = w->fill + 1 < n ? w->fill + 1 : n, w->next = (w->next + 1) % n, w->sum = 0;
    for (u64 i = 0; i < n; i++)
        w->sum += times[i];
    return 0;
}

static int report(const side *calls, house *h, request q)
{
    timed t = q.write ? calls->report_write(h->kept, q.time, h->reads, q.rn, h->writes, q.wn) : calls->report_read(h->kept, q.time, h->reads, q.rn, h->writes, q.wn);
    h->kept = t.kept;
    return t.refused;
}

/* A place of one window becomes 0 or any time, and in half of the cases the sum goes with it; or a number that is kept becomes another. */
static void change(house *h, u64 n)
{
    int write = (int)below(2);
    window *w = write ? &h->kept.writes : &h->kept.reads;
    u16 *place = (write ? h->writes : h->reads) + below(n), time = below(2) ? 0 : a_time();
    u64 *numbers[4] = {&h->kept.n, &w->fill, &w->next, &w->sum}, *number = numbers[below(4)], was = *number;
    u64 to[8] = {0, was + 1, was - 1, n, n - 1, MOST_TIMES + 1, ~0ull, was + (1ull << 32)};
    if (below(2)) {
        w->sum += below(2) ? (u64)time - *place : 0;
        *place = time;
    } else {
        *number = to[below(8)];
    }
}

/* Mostly of a time, and of windows as long as what is kept says; else of 0, or of one that is a place shorter or longer. */
static request drawn(const house *h, u64 n)
{
    u64 said = h->kept.n <= MOST_TIMES + 1 && below(2) ? h->kept.n : n, wrong = below(32);
    request q = {(int)below(2), below(8) ? a_time() : 0, said, said};
    if (wrong == 0 && said > 0)
        q.rn--;
    if (wrong == 1 && said > 0)
        q.wn--;
    if (wrong == 2 && said <= MOST_TIMES)
        q.rn++;
    return q;
}

/* All three take the report; returns how it was refused, or 0. What was served stands for the next one. */
static int compare_report(u64 n, u64 run)
{
    copy_house(&of_law, &last, n + 1);
    if (below(2))
        change(&of_law, n);
    copy_house(&of_twin, &of_law, n + 1), copy_house(&of_best, &of_law, n + 1);
    request q = drawn(&of_law, n);
    int a = report(&twin, &of_twin, q), b = report(&best, &of_best, q), c = report_by_law(&of_law, q);
    must(a == b && a == c, "a report's answer", run);
    must(same_house(&of_twin, &of_law, n + 1) && same_house(&of_best, &of_law, n + 1), "the windows after a report", run);
    if (c == 0)
        copy_house(&last, &of_law, n + 1);
    return c;
}

/* Windows of so many places are started where others stood; a refused start changes none, and what it hands back is all 0. */
static void compare_start(u64 n, u64 rn, u64 wn, u64 room, u64 run)
{
    int right = n > 0 && n <= MOST_TIMES && rn == n && wn == n;
    copy_house(&of_twin, &last, room), copy_house(&of_best, &last, room), copy_house(&of_law, &last, room);
    timed a = twin.start_windows(n, of_twin.reads, rn, of_twin.writes, wn), b = best.start_windows(n, of_best.reads, rn, of_best.writes, wn);
    of_twin.kept = a.kept, of_best.kept = b.kept, of_law.kept = (kept){.n = right ? n : 0};
    if (right)
        memset(of_law.reads, 0, n * sizeof *of_law.reads), memset(of_law.writes, 0, n * sizeof *of_law.writes);
    must(a.refused == b.refused && a.refused == (right ? 0 : BROKEN_WINDOWS), "a start's answer", run);
    must(same_house(&of_twin, &of_law, room) && same_house(&of_best, &of_law, room), "the windows after a start", run);
}

void compare_windows(void)
{
    static const u64 most[4] = {8, 40, 1100, 300};
    u64 answers[BROKEN_WINDOWS + 1] = {0}, full = 0;
    for (u64 run = 0; run < RUNS; run++) {
        u64 n = run % LARGE > 1 ? 1 + below(most[run % 4]) : MOST_TIMES;
        last.kept = (kept){n, drawn_window(last.reads, n), drawn_window(last.writes, n)};
        last.reads[n] = last.writes[n] = 0;
        compare_start(n - below(2), n - below(2), n - below(2), n + 1, run);
        compare_start(n + 1, n + 1, n + 1, n + 1, run);
        if (run % 4 == 0) {
            compare_start(n, n, n, n + 1, run);
            copy_house(&last, &of_law, n + 1);
        }
        for (u64 i = 0; i < REPORTS; i++) {
            int answer = compare_report(n, run);
            answers[answer]++, full += answer == 0 && last.kept.reads.fill == n && last.kept.writes.fill == n;
        }
    }
    printf("%d reports (%llu served, %llu of them leave both windows full, ", RUNS * REPORTS, answers[0], full);
    printf("%llu refused 12, %llu 13)\n", answers[ZERO_TIME], answers[BROKEN_WINDOWS]);
}
