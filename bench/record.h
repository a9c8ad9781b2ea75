/* The recorder in C, for the twin and the best C alike: begin, add and close of a trace in a lent buffer, the recorder handed in and handed back, and the loads
   made of them. Bytes are written low byte first, one by one: the compilers make one store of them where they can. */
enum { TRAILER = 20, OUT_OF_LIMITS = 1, BAD_RECORD = 8, NO_ROOM = 11 };

typedef struct {
    u64 frames, page_bytes, pages, read_cost, write_cost, start;
    u32 records;
} recorder;

typedef struct {
    u8 letter, value;
    u64 page;
} record;

/* What a refused call says: its number, and for a bad record that of the record. */
typedef struct {
    int refused;
    u64 record;
} verdict;

typedef struct {
    recorder recorder;
    verdict verdict;
} recorded;

typedef struct {
    verdict verdict;
    u64 bytes;
} closed;

/* Both costs 0 mean the drive of the stored files. */
PART int numbers_allowed(const recorder *r)
{
    int stored = r->read_cost == 0 && r->write_cost == 0;
    return in_limits(r->frames, r->page_bytes, r->pages, stored ? 1 : r->read_cost, stored ? 4 : r->write_cost);
}

/* Nothing wraps: there are at most 2^32 records. */
PART int has_room(u64 start, u64 records, u64 n)
{
    u64 distance = TRAILER + 4 * records;
    return distance <= 0xffffffff && distance <= n && start <= n - distance;
}

PART verdict close_verdict(const recorder *r, u64 n)
{
    return (verdict){!numbers_allowed(r) ? OUT_OF_LIMITS : !has_room(r->start, r->records, n) ? NO_ROOM : 0, 0};
}

PART verdict add_verdict(const recorder *r, record what, u64 n)
{
    u64 number = (u64)r->records + 1;
    if (!numbers_allowed(r))
        return (verdict){OUT_OF_LIMITS, 0};
    if (what.letter != 'F' && what.page >= r->pages)
        return (verdict){BAD_RECORD, number};
    return (verdict){has_room(r->start, number, n) ? 0 : NO_ROOM, 0};
}

PART u8 *put(u8 *at, int width, u64 x)
{
    for (int i = 0; i < width; i++)
        at[i] = (u8)(x >> 8 * i);
    return at + width;
}

static recorded begin(u64 frames, u64 page_bytes, u64 pages, u64 read_cost, u64 write_cost, const u8 *notes, u64 size, u8 *buffer, u64 n)
{
    recorded to = {.recorder = {frames, page_bytes, pages, read_cost, write_cost, size, 0}};
    to.verdict = close_verdict(&to.recorder, n);
    if (to.verdict.refused)
        return (recorded){.verdict = to.verdict};
    memcpy(buffer, notes, size);
    return to;
}

static recorded add(recorder r, record what, u8 *buffer, u64 n)
{
    recorded to = {r, add_verdict(&r, what, n)};
    if (to.verdict.refused)
        return to;
    u8 *at = buffer + r.start + 4 * (u64)r.records;
    at[0] = what.letter, at[1] = what.value;
    put(at + 2, 2, what.page);
    to.recorder.records++;
    return to;
}

static closed close_trace(recorder r, u8 *buffer, u64 n)
{
    closed to = {close_verdict(&r, n), 0};
    if (to.verdict.refused)
        return to;
    u64 end = r.start + 4 * (u64)r.records;
    u8 *at = put(put(buffer + end, 4, TRAILER + 4 * (u64)r.records), 4, r.records);
    at = put(put(put(at, 2, r.frames), 2, r.page_bytes), 4, r.pages);
    put(put(at, 2, r.read_cost), 2, r.write_cost);
    to.bytes = end + TRAILER;
    return to;
}

static u64 said(verdict v, u64 bytes)
{
    return v.refused == BAD_RECORD ? v.record ^ BAD : v.refused ? (u64)v.refused : bytes;
}

static record record_by(u8 op, u64 page)
{
    return op == FLUSH ? (record){'F', 0, 0} : op == READ ? (record){'R', 0, page} : op == DROP ? (record){'D', 0, page} : (record){'W', op, page};
}

u64 bench_record(u64 b, u64 size, u64 count, u64 read_cost, u64 write_cost, u64 start, u32 records, const u32 *requests, u64 n_requests, const u8 *notes, u64 n_notes,
                 u8 *buffer, u64 n)
{
    recorder r = {b, size, count, read_cost, write_cost, start, records};
    u64 last = 0;
    for (u64 i = 0; i < n_requests; i++) {
        u8 op = (u8)requests[i];
        if (op == CLOSE) {
            closed to = close_trace(r, buffer, n);
            last = said(to.verdict, to.bytes);
        } else {
            recorded to = op == BEGIN ? begin(r.frames, r.page_bytes, r.pages, r.read_cost, r.write_cost, notes, n_notes, buffer, n)
                                      : add(r, record_by(op, requests[i] >> 8), buffer, n);
            r = to.recorder, last = said(to.verdict, 0);
        }
    }
    return last;
}
