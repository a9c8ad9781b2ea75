/* Numbers that look random and are the same on every machine. */
static u64 seed = 88172645463325252ull;

static u64 next(void)
{
    seed ^= seed << 13, seed ^= seed >> 7, seed ^= seed << 17;
    return seed >> 11;
}

static inline u64 below(u64 n)
{
    return next() % n;
}
