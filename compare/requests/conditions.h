/* Conditions, tried in full. */

static void lend_words(const uint32_t *w, size_t len, int good)
{
    struct conditions *t = held_conditions(UNFIT);
    memcpy(t->w, w, 4 * len);
    t->len = len;
    t->good = good;
    send_conditions(UNFIT);
    lent_conditions = UNFIT;
}

/* A block, and the padding, tried with a control record of mask number 0 by the conditions that are lent. */
static void conditioned(int flags, const uint8_t *block)
{
    begin_fresh(flags);
    update(CONTROL, block, 64, NULL, 0);
    finish(CONTROL, NULL, 0);
    finish_and_reset(CONTROL, NULL, 1, 20, 0x5a);
    end();
}

/* A block in two pieces: the first fills none, so that nothing lent to it can be wrong. */
static void in_two(int flags, int slot, const uint8_t *block)
{
    begin_fresh(flags);
    update(slot, block, 20, NULL, 0);
    update(slot, block + 20, 44, NULL, 0);
    finish(slot, NULL, 0);
    end();
}

/* Conditions checked, and lent where they are looked at and where they are not. */
static void try_conditions(const uint32_t *w, size_t len, int good)
{
    static const uint8_t block[64] = { 1, 2, 3 };
    lend_words(w, len, good);
    condition_check(UNFIT);
    conditioned(DETECT | CONDITIONS, block);
    conditioned(MITIGATE | CONDITIONS, block);
    conditioned(DETECT | LENT, block);
    in_two(DETECT | CONDITIONS, CONTROL, block);
}

/* Two slots for the order of refusals: a length, and a condition after the first. */
static void two_unfit(void)
{
    struct conditions *t[2] = { held_conditions(UNFIT), held_conditions(UNFIT + 1) };
    for (int i = 0; i < 2; i++) {
        t[i]->good = 0;
        t[i]->len = 3 * CONDITION;
        for (int k = 0; k < 3; k++) condition(t[i]->w + CONDITION * k, 5, 6, 7, 8, 1, 0);
        t[i]->w[CONDITION * 2] = 80;
    }
    t[0]->len++;
    send_conditions(UNFIT);
    send_conditions(UNFIT + 1);
}

/* Every length of a few records, and those around the most. Where they are many, the last one alone drops, or alone does not fit. */
static void condition_lengths(void)
{
    static uint32_t w[CONDITION * (MOST_CONDITIONS + 2)];
    for (int n = 1; n <= MOST_CONDITIONS + 2; n += n < 40 || n >= MOST_CONDITIONS - 2 ? 1 : 59) {
        for (int last = 0; last < 3; last++) {
            for (int k = 0; k < n; k++) condition(w + CONDITION * k, k % 80, k % 32, k % 80, k % 32, 0, 0xffffffff);
            if (last) w[CONDITION * (n - 1) + 4] = last;
            for (int off = -2; off < 3; off++) try_conditions(w, CONDITION * n + off, !off && last < 2 && n <= MOST_CONDITIONS);
        }
    }
    for (size_t n = 0; n <= 4 * CONDITION; n++) try_conditions(w, n, n % CONDITION == 0);
}

/* Each word of three records at its bounds and far beyond them; then two that do not fit, of which the first counts. */
static void condition_bounds(void)
{
    static const uint32_t bounds[5] = { 79, 31, 79, 31, 1 };
    uint32_t w[3 * CONDITION];
    for (int k = 0; k < 3; k++)
        for (int field = 0; field < 5; field++)
            for (int how = 0; how < 8; how++) {
                for (int i = 0; i < 3; i++) condition(w + CONDITION * i, 10, 11, 12, 13, 0, 0xfffffffe);
                uint32_t more[8] = { 0, 1, 2, 49, 0x100, 0x10000, 0x80000000, -bounds[field] - 1 };
                w[CONDITION * k + field] = bounds[field] + more[how];
                try_conditions(w, 3 * CONDITION, how == 0);
                for (int other = 0; other < 5; other++) {
                    uint32_t kept = w[CONDITION * ((k + 1) % 3) + other];
                    w[CONDITION * ((k + 1) % 3) + other] = bounds[other] + 1;
                    try_conditions(w, 3 * CONDITION, 0);
                    w[CONDITION * ((k + 1) % 3) + other] = kept;
                }
            }
}

/* One condition of each word and each bit, with each wanted value: it drops the control record or keeps it. */
static void single_conditions(void)
{
    uint32_t w[CONDITION];
    uint8_t block[64];
    for (int i = 0; i < 80; i++)
        for (int p = 0; p < 32; p++) {
            uint32_t j = below(80), q = below(32), clearing = one_in(4) ? 0xfffffffe : chance() | 1;
            condition(w, i, p, j, q, (i + p) % 2, clearing);
            if (p % 2) condition(w, j, q, i, p, (i + p) % 2, clearing);
            lend_words(w, CONDITION, 1);
            fill_by_chance(block, 64);
            conditioned(DETECT | CONDITIONS | (p % 3 ? MITIGATE : 0), block);
        }
}

/* Pairs: both name the control record, one of them or none; what the first drops the second does not bring back. */
static void pairs_of_conditions(void)
{
    uint32_t w[2 * CONDITION];
    uint8_t block[64];
    for (int wanted = 0; wanted < 4; wanted++)
        for (int named = 0; named < 4; named++)
            for (int i = 0; i < 80; i++) {
                condition(w, i, 3, 79 - i, 30, wanted & 1, named & 1 ? 1 : 6);
                condition(w + CONDITION, i, 3, 79 - i, 30, wanted >> 1, named & 2 ? 3 : 4);
                lend_words(w, 2 * CONDITION, 1);
                fill_by_chance(block, 64);
                conditioned(DETECT | CONDITIONS, block);
            }
}

/* The published files with the crate's own conditions: in all modes, cut everywhere. */
static void published_by_own(void)
{
    lent_conditions = OWN;
    for (int i = 0; i < 3; i++)
        for (size_t cut = 0; cut <= published[i].left; cut++)
            for (int mode = 0; mode < 4; mode++) {
                begin_fresh(DETECT | CONDITIONS | (mode % 2 ? MITIGATE : 0) | (mode > 1 ? REDUCED : 0));
                update(REAL, published[i].at, cut, NULL, 0);
                update(REAL, published[i].at + cut, published[i].left - cut, NULL, 0);
                finish(REAL, NULL, 0);
                finish_and_reset(REAL, NULL, 0, 20, 0xc3);
                update(REAL, published[i].at, cut, NULL, 0);
                finish(REAL, NULL, 0);
                end();
            }
}

/* The same with one of the crate's conditions turned round, or left out. */
static void published_by_others(void)
{
    struct conditions t;
    for (size_t k = 0; k < held_conditions(OWN)->len / CONDITION; k++)
        for (int out = 0; out < 2; out++) {
            t = *held_conditions(OWN);
            t.w[CONDITION * k + (out ? 5 : 4)] ^= out ? t.w[CONDITION * k + 5] : 1;
            lend_words(t.w, t.len, 1);
            for (int i = 0; i < 3; i++) {
                begin_fresh(DETECT | CONDITIONS | (k % 2 ? MITIGATE : 0) | (i == 2 ? REDUCED : 0));
                update(REAL, published[i].at, published[i].left, NULL, 0);
                finish(REAL, NULL, 0);
                end();
            }
        }
}

static void conditions_in_full(void)
{
    seed = 11;
    condition_lengths();
    condition_bounds();
    single_conditions();
    pairs_of_conditions();
    published_by_own();
    published_by_others();
    lent_conditions = NONE;
}
