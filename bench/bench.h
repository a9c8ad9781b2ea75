/* What the driver calls: the proved calls or their twin in C, behind one name. */
typedef unsigned char u8;
typedef unsigned short u16;
typedef unsigned u32;
typedef unsigned long long u64;

/* Opens a pool of b frames over `count` pages of `size` bytes, serves the requests (0 read, 1 write of 8 bytes, 2 flush, 3 drop), asks n totals. */
u64 bench_serve(u64 b, u64 size, u64 count, const u8 *ops, u64 n_ops, const u16 *pages, u64 n_pages, u8 *frames, u64 fn, u8 *store, u64 sn, u8 *out, u64 on, u64 n);

/* The same with kept numbers, and without totals. Both windows are lent for the requests beyond those: the number that stands for the page is a time that is reported,
   or how many places the windows are started with. Says what is left, as one number. */
enum { READ_TIME = 4, WRITE_TIME, START };
u64 bench_times(u64 b, u64 size, u64 count, u64 n, u64 read_fill, u64 read_next, u64 read_sum, u64 write_fill, u64 write_next, u64 write_sum, const u8 *ops, u64 n_ops,
                const u16 *pages, u64 n_pages, u8 *frames, u64 fn, u8 *store, u64 sn, u8 *out, u64 on, u16 *reads, u64 rn, u16 *writes, u64 wn);

/* Serves requests by a recorder with these numbers, and says the last answer: 0, the bytes of a closed trace, a refusal, or for refusal 8 the record ^ BAD. A request
   has its kind in the lowest byte and its page above; any other kind than these is a write of itself. */
enum { BEGIN, CLOSE, FLUSH, READ, DROP, WRITE };
#define BAD (1ull << 63)
u64 bench_record(u64 b, u64 size, u64 count, u64 read_cost, u64 write_cost, u64 start, u32 records, const u32 *requests, u64 n_requests, const u8 *notes, u64 n_notes,
                 u8 *buffer, u64 n);

/* Makes and serves a load that is none of the driver's, of n requests: of the recorder, or where calls are measured of the reports. 0 if there is none of this name. */
int load_apart(const char *load, u64 b, u64 P, u64 N, u64 n, int served);
