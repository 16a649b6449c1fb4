/* What is tried in full, whatever the seed. */

static uint8_t pattern[1 << 20];
static const uint32_t all = 0xffffffff, none = 0;

/* A message in one piece, finished with all flags that have these; each call is lent what the flags look at. */
static void in_modes(int with, int slot, const uint8_t *bytes, size_t len, const uint32_t *same)
{
    for (int flags = 0; flags < 32; flags++) {
        if ((flags & 20) == 20 || (flags & with) != with) continue;
        begin_fresh(flags);
        update(slot, bytes, len, same, 0);
        finish(slot, same, 0);
        finish_and_reset(slot, same, 0, 20, 0x5a);
        finish(slot, same, 0);
        end();
    }
}

static void in_all_modes(int slot, const uint8_t *bytes, size_t len, const uint32_t *same)
{
    in_modes(0, slot, bytes, len, same);
}

static void short_messages(void)
{
    in_all_modes(CONTROL, NULL, 0, &all);
    in_all_modes(REAL, NULL, 0, &all);
    for (int b = 0; b < 256; b++) {
        uint8_t byte = b;
        in_all_modes(CONTROL, &byte, 1, &all);
        in_all_modes(CONTROL_65, &byte, 1, b % 2 ? &all : &none);
    }
}

/* Every length up to 200: whole in all modes, byte by byte, and cut in two everywhere. Then the limits of later blocks. */
static void lengths(void)
{
    static const int modes[4] = { 0, DETECT | MITIGATE | LENT, DETECT, DETECT | MITIGATE | REDUCED };
    for (int n = 0; n <= 200; n++) {
        in_all_modes(n % 3 == 0 ? REAL : n % 3 == 1 ? CONTROL : CONTROL_65, pattern + n, n, NULL);
        for (int m = 0; m < 4; m++) {
            begin_fresh(modes[m]);
            for (int i = 0; i < n; i++) update(CONTROL, pattern + i, 1, m % 2 ? &all : NULL, 0);
            finish(CONTROL, &all, 0);
            end();
        }
        for (int cut = 0; cut <= n; cut++) {
            begin_fresh(cut % 2 ? DETECT | MITIGATE | LENT : cut % 4 ? DETECT : 0);
            update(CONTROL, pattern, cut, NULL, 0);
            update(CONTROL, pattern + cut, n - cut, NULL, 0);
            finish(CONTROL, NULL, 0);
            end();
        }
        one_shot(n % 2 ? CONTROL : REAL, pattern, n, NULL, 0);
    }
    for (int k = 1; k <= 24; k++)
        for (int n = 64 * k - 10; n <= 64 * k + 2; n++) {
            in_all_modes(k % 2 ? CONTROL : REAL, pattern, n, NULL);
            one_shot(CONTROL, pattern, n, k % 2 ? &all : NULL, 0);
        }
    /* Long ones: the schoolbook million, and 64 KiB in pieces of all sizes. */
    memset(pattern, 'a', 1000000);
    for (int flags = 0; flags < 2; flags++) {
        begin_fresh(flags);
        update(CONTROL, pattern, 1000000, NULL, 0);
        finish(CONTROL, NULL, 0);
        end();
    }
    seed = 3;
    fill_by_chance(pattern, sizeof pattern);
    begin_fresh(DETECT | MITIGATE | LENT);
    for (size_t at = 0, n; at < 65536; at += n) { n = below(1000); update(REAL, pattern + at, n, NULL, 0); }
    finish(REAL, NULL, 0);
    end();
}

/* Each fill at finish, and block counts that use every byte of the length. */
static void fills(void)
{
    uint32_t words[5];
    uint8_t pending[64];
    for (int fill = 0; fill < 64; fill++)
        for (int shift = 0; shift <= 55; shift += 5)
            for (int mark = 0; mark < 2; mark++) {
                some_words(words);
                memset(pending, 0, 64);
                fill_by_chance(pending, fill);
                int flags = (fill + shift) % 16 | mark;
                begin(words, pending, fill, (((uint64_t)1 << 55) - 1) >> shift, mark, flags);
                finish(REAL, NULL, 0);
                finish(CONTROL, &none, 0);
                finish(CONTROL, &none, 1);
                finish(CONTROL, &none, -1);
                finish_and_reset(CONTROL, &all, 0, 20, 0);
                end();
            }
}

/* Not well formed: a byte beyond the fill, at every place; and the other ways, one by one. */
static void forms(void)
{
    uint32_t words[5];
    uint8_t pending[64];
    for (int fill = 0; fill <= 64; fill++)
        for (int at = fill; at < 64 || (fill == 64 && at == 64); at++) {
            some_words(words);
            memset(pending, 0, 64);
            if (at < 64) pending[at] = at + 1;
            begin(words, pending, fill, 0, 0, DETECT);
            update(CONTROL, pattern, at % 3, NULL, 0);
            finish(CONTROL, &all, 0);
            finish_and_reset(NO_TABLE, &all, 1, 19, 0x77);
            reset();
            end();
        }
    memset(pending, 0, 64);
    for (int flags = 0; flags < 64; flags++)
        for (int way = 0; way < 4; way++) {
            uint64_t blocks = way == 0 ? (uint64_t)1 << 55 : way == 1 ? (uint64_t)-1 : way == 3;
            uint64_t fill = way == 2 ? 64 : 0;
            begin(words, pending, fill, blocks, way == 3, flags);
            update(NO_TABLE, pattern, 3, NULL, 1);
            update(CONTROL, pattern, 64, &all, 0);
            finish(CONTROL, &all, 0);
            finish_and_reset(CONTROL, &all, 0, 20, 0x33);
            reset();
            end();
        }
}

/* Where the mark was first made, with one and without: each number at its bound and beyond, the other one fitting or not. */
static void first_forms(void)
{
    static const uint64_t counts[4] = { 0, 1, 7, ((uint64_t)1 << 55) - 1 };
    static const uint64_t places[8] = { 0, 1, 31, 32, 33, 255, (uint64_t)1 << 32, -1 };
    const uint32_t words[5] = { 7, 6, 5, 4, 3 };
    const uint8_t pending[64] = { 9, 8, 7 };
    for (int count = 0; count < 4; count++)
        for (int at = 0; at < 7; at++)
            for (int place = 0; place < 8; place++)
                for (int flags = 0; flags < 32; flags++) {
                    uint64_t n = counts[count], blocks[7] = { 0, 1, n - 1, n, n + 1, (uint64_t)1 << 63, -1 };
                    const struct first first = { blocks[at], places[place] };
                    begin_at(words, pending, 3, n, (flags ^ place ^ at) & 1, flags, first);
                    update(CONTROL, pattern, at % 2 ? 61 : 2, &all, 0);
                    finish(CONTROL, &none, 0);
                    finish(NO_TABLE, &all, 0);
                    if (place % 3) finish_and_reset(CONTROL, &all, 0, place % 3 + 18, 0x44);
                    else reset();
                    finish(CONTROL, place % 2 ? &all : &none, 0);
                    end();
                }
}

/* Up to the longest message: the last byte is taken, one more is refused, none is not. */
static void longest(void)
{
    uint32_t words[5] = { 1, 2, 3, 4, 5 };
    uint8_t pending[64] = { 0 };
    for (int flags = 0; flags < 32; flags++)
        for (int fill = 0; fill < 64; fill++)
            for (uint64_t less = 0; less < 2; less++) {
                memset(pending, 0, 64);
                memset(pending, 0x11, fill);
                uint64_t blocks = ((uint64_t)1 << 55) - 1 - less, room = 63 - fill + 64 * less;
                begin(words, pending, fill, blocks, 0, flags);
                update(CONTROL, pattern, room + 1, NULL, 0);
                update(CONTROL, pattern, room + 1, NULL, 1);
                update(NO_TABLE, pattern, room + 1, NULL, 0);
                update(CONTROL, pattern, 0, NULL, 0);
                update(CONTROL, pattern, room, NULL, 0);
                update(CONTROL, pattern, 0, NULL, 0);
                update(CONTROL, pattern, 1, NULL, 0);
                finish(CONTROL, NULL, 0);
                end();
            }
}

/* The order of refusals: everything wrong at once, then one thing less at a time. */
static void orders(void)
{
    static const int tables[4] = { NO_TABLE, BAD, BAD + 1, CONTROL };
    uint32_t words[5] = { 5, 4, 3, 2, 1 };
    uint8_t pending[64] = { 0 };
    pool[BAD] = pool[REAL];
    pool[BAD].good = 0;
    pool[BAD + 1] = pool[BAD];
    pool[BAD].w[RECORD * 7] = 99;
    pool[BAD + 1].w[RECORD * 31] = 0;
    send_table(BAD);
    send_table(BAD + 1);
    two_unfit();
    for (int flags = 0; flags < 32; flags++)
        for (int well = 0; well < 2; well++)
            for (int slot = 0; slot < 12; slot++)
                for (int wrong = -1; wrong < 2; wrong++)
                    for (int much = 0; much < 2; much++) {
                        int lent = tables[slot % 4];
                        lent_conditions = slot / 4 == 0 ? UNFIT : slot / 4 == 1 ? UNFIT + 1 : NONE;
                        pending[63] = !well;
                        begin(words, pending, 10, ((uint64_t)1 << 55) - 1, 0, flags);
                        update(lent, pattern, much ? 54 : 53, NULL, wrong);
                        finish(lent, NULL, wrong);
                        finish_and_reset(lent, NULL, wrong, much ? 21 : 20, 0xee);
                        reset();
                        end();
                    }
    lent_conditions = NONE;
    for (int slot = 0; slot < 4; slot++)
        for (int wrong = -1; wrong < 2; wrong++)
            for (int n = 0; n < 130; n++) {
                one_shot(tables[slot], pattern, n, NULL, wrong);
                send_block(words, tables[slot], wrong, MITIGATE, pattern, n);
            }
    for (int n = 0; n < 65; n++) {
        memset(pending, 0, 64);
        begin(words, pending, 0, 0, 0, DETECT | LENT);
        finish_and_reset(CONTROL, &all, 0, n, 0xab);
        end();
    }
}

enum { SPOILT = 7 };

/* The crate's own table with something wrong in the first record, the last or one between, with the first one's mask number in the
 * last, too short, too long, or empty. */
static void spoilt_tables(void)
{
    static const struct { size_t at; uint32_t more; size_t len; } ways[SPOILT] = {
        { RECORD * 7, 32, RECORD * MOST }, { RECORD * 31 + 1, 1, RECORD * MOST }, { RECORD - 1, 1, RECORD * MOST },
        { RECORD * 31, -31, RECORD * MOST }, { 0, 0, RECORD * MOST - 1 }, { 0, 0, RECORD * (MOST + 1) }, { 0, 0, 0 } };
    for (int i = 0; i < SPOILT; i++) {
        pool[BAD + i] = pool[REAL];
        pool[BAD + i].good = 0;
        pool[BAD + i].w[ways[i].at] += ways[i].more;
        pool[BAD + i].len = ways[i].len;
        send_table(BAD + i);
    }
}

/* Updates up to a byte before a block is full, which take any table and any conditions but no mask; then the byte that fills it, and
 * the ends, also with nothing pending. */
static void short_of_a_block(int flags, int fill, int slot, int conditions)
{
    uint32_t words[5];
    uint8_t pending[64] = { 0 };
    int mark = (flags & DETECT) && one_in(4), part = (63 - fill) / 3;
    some_words(words);
    fill_by_chance(pending, fill);
    begin(words, pending, fill, 1 + below(9), mark, flags);
    lent_conditions = conditions;
    update(slot, NULL, 0, NULL, 0);
    update(slot, NULL, 0, NULL, 1);
    update(slot, pattern, part, NULL, 0);
    update(slot, pattern + part, 63 - fill - part, NULL, 1);
    update(slot, pattern + part, 63 - held.fill, NULL, 0);
    update(slot, NULL, 0, NULL, 0);
    update(slot, pattern + 63, 1, NULL, -1);
    update(slot, pattern + 63, 1, NULL, 0);
    finish(slot, NULL, 0);
    finish_and_reset(slot, NULL, 0, 20, 0x6b);
    lent_conditions = NONE;
    update(CONTROL, pattern + 63, 1 + (63 - held.fill), NULL, 0);
    lent_conditions = conditions;
    finish(slot, NULL, 0);
    finish_and_reset(slot, NULL, 0, 20, 0x6c);
    reset();
    update(slot, pattern, 20, NULL, 0);
    update(slot, pattern + 20, 44, NULL, 0);
    finish(slot, NULL, 0);
    end();
}

/* A message in one piece, and cut in two everywhere, with what is refused. */
static void refused_cuts(int flags, int slot, int conditions)
{
    lent_conditions = conditions;
    for (int n = 64; n <= 130; n += 22)
        for (int cut = 0; cut <= n; cut++) {
            begin_fresh(flags);
            update(slot, pattern, n, NULL, 0);
            update(slot, pattern, cut, NULL, 0);
            update(slot, pattern + cut, n - cut, NULL, 0);
            finish(slot, NULL, 0);
            end();
        }
}

/* Every fill in every setting, with each spoilt table and a good one, and conditions that are refused by 12, by 13 or not. */
static void short_updates(void)
{
    static const int settings[3] = { 0, LENT, CONDITIONS };
    seed = 13;
    spoilt_tables();
    two_unfit();
    for (int s = 0; s < 3; s++)
        for (int way = 0; way <= SPOILT; way++)
            for (int unfit = 0; unfit < 3; unfit++) {
                int slot = way < SPOILT ? BAD + way : REAL, conditions = unfit < 2 ? UNFIT + unfit : NONE;
                for (int fill = 0; fill < 64; fill++)
                    for (int off = 0; off < 2; off++) {
                        int mode = (fill % 2 ? MITIGATE : 0) | (fill % 4 > 1 ? REDUCED : 0);
                        short_of_a_block(settings[s] | mode | (off ? 0 : DETECT), fill, slot, conditions);
                    }
                refused_cuts(DETECT | settings[s], slot, conditions);
            }
    lent_conditions = NONE;
}

static const uint32_t ones[5] = { 1, 1, 1, 1, 1 };

/* A table checked, lent with a block, and lent to updates. */
static void try_table(const uint32_t *w, size_t len)
{
    send_words(BAD, w, len);
    table_check(BAD);
    send_block(ones, BAD, all, 0, pattern, 64);
    in_two(DETECT, BAD, pattern);
}

/* Three good records, with each word damaged in turn, and each length of their words; then the largest tables. A bit turned in a
 * mask number may make it another record's. */
static void damaged_tables(void)
{
    static const uint32_t numbers[3] = { 6, 7, 22 };
    static struct table t;
    seed = 5;
    t.len = 3 * RECORD;
    for (int i = 0; i < 3; i++) some_record(t.w + RECORD * i, numbers[i]);
    for (size_t i = 0; i < t.len; i++)
        for (int turn = 0; turn < 4; turn++) {
            uint32_t kept = t.w[i];
            t.w[i] ^= (uint32_t[]){ 1, 0x80000000, 0x20, some_bit() }[turn];
            try_table(t.w, t.len);
            t.w[i] = kept;
        }
    for (size_t n = 0; n <= t.len; n++) {
        try_table(t.w, n);
        send_block(ones, BAD, all, 0, pattern, 63);
    }
    for (size_t n = MOST - 1; n <= MOST + 2; n++)
        for (int off = -1; off < 2; off++) {
            for (int i = 0; i < MOST + 4; i++) control(t.w + RECORD * i, i % 32, i % 2 ? 58 : 65);
            try_table(t.w, n * RECORD + off);
        }
}

/* Each mask number and test step, with single bits of the mask. */
static void record_heads(void)
{
    static struct table t;
    for (int number = 0; number < 34; number++)
        for (int step = 56; step < 68; step++) {
            control(t.w, number, step);
            send_words(BAD, t.w, RECORD);
            table_check(BAD);
            for (int bit = 0; bit < 32; bit += 1 + step % 5) send_block(ones, BAD, (uint32_t)1 << bit, 0, pattern, 64);
            send_block(ones, BAD, none, REDUCED, pattern, 64);
        }
}

/* Each pair of faults, in the order of their places; the fourth is the mask number of the third record. */
static void pairs_of_faults(void)
{
    static struct table t;
    for (int a = 0; a < 5; a++)
        for (int b = 0; b < 5; b++)
            for (int at = 0; at < 3; at++) {
                for (int i = 0; i < 3; i++) control(t.w + RECORD * i, i, 58);
                uint32_t *r[2] = { t.w + RECORD * at, t.w + RECORD * ((at + 1) % 3) };
                int fault[2] = { a, b };
                for (int i = 0; i < 2; i++) {
                    if (fault[i] == 1) r[i][0] = 32;
                    if (fault[i] == 2) r[i][1] = 64;
                    if (fault[i] == 3) r[i][2 + 40] = 1;
                    if (fault[i] == 4) r[i][0] = (at + 2) % 3;
                }
                if (a == b) r[0][1] = 0, r[0][20] = 1;
                try_table(t.w, 3 * RECORD);
            }
}

/* The crate's own table, in which each record takes the mask number of each other, or is it once more; and with the numbers in
 * another order. */
static void pasted_records(void)
{
    static struct table t;
    for (int from = 0; from < MOST; from++)
        for (int to = 0; to < MOST; to++)
            for (int otherwise = 0; otherwise < 2; otherwise++) {
                t = pool[REAL];
                for (int i = 0; otherwise && i < MOST; i++) t.w[RECORD * i] = (11 * i + 5) % MOST;
                memcpy(t.w + RECORD * to, t.w + RECORD * from, (from + to) % 4 ? 4 : 4 * RECORD);
                try_table(t.w, t.len);
            }
}

/* A few control records, with each mask number one of four in every way; then up to 33 that are all alike. */
static void repeated_controls(void)
{
    static const uint32_t numbers[4] = { 0, 1, 30, 31 };
    static struct table t;
    for (int n = 1; n <= 5; n++)
        for (int way = 0; way < 1 << 2 * n; way++) {
            for (int i = 0; i < n; i++) control(t.w + RECORD * i, numbers[way >> 2 * i & 3], way % 3 ? 58 : 65);
            try_table(t.w, RECORD * n);
        }
    for (int n = 2; n <= MOST + 1; n++)
        for (int which = 0; which < 4; which++) {
            for (int i = 0; i < n; i++) control(t.w + RECORD * i, numbers[which], 58);
            try_table(t.w, RECORD * n);
        }
}

/* Four records, of which one repeats another's mask number, and one is bad in each way or has too few words: before the two, between
 * them, behind them, or one of them. */
static void repeats_and_faults(void)
{
    static struct table t;
    for (int pair = 0; pair < 16; pair++)
        for (int bad = 0; bad < 4; bad++)
            for (int fault = 0; fault < 5; fault++) {
                uint32_t *r = t.w + RECORD * bad;
                for (int i = 0; i < 4; i++) control(t.w + RECORD * i, 31 - i, 65);
                t.w[RECORD * (pair / 4)] = t.w[RECORD * (pair % 4)];
                if (fault == 1) r[0] = 32;
                if (fault == 2) r[1] = 64;
                if (fault == 3) r[2 + 79] = 1;
                if (fault == 4) r[0] = t.w[RECORD * ((bad + 1) % 4)] = 32;
                try_table(t.w, 4 * RECORD);
                try_table(t.w, 4 * RECORD - 1);
            }
}

/* The published files with the crate's own table: all modes, several masks, several cuts. */
static void published_files(void)
{
    for (int i = 0; i < 3; i++)
        for (int bit = -2; bit < 32; bit++) {
            uint32_t mask = bit == -2 ? all : bit == -1 ? none : (uint32_t)1 << bit;
            in_all_modes(REAL, published[i].at, published[i].left, &mask);
            mask = ~mask;
            in_all_modes(REAL, published[i].at, published[i].left, &mask);
            one_shot(REAL, published[i].at, published[i].left, &mask, 0);
        }
    for (int i = 0; i < 3; i++)
        for (size_t cut = 0; cut <= published[i].left; cut++) {
            begin_fresh(DETECT | (cut % 2 ? MITIGATE : 0) | (cut % 4 > 1 ? LENT : 0) | (i == 2 ? REDUCED : 0));
            update(REAL, published[i].at, cut, &all, 0);
            update(REAL, published[i].at + cut, published[i].left - cut, &all, 0);
            finish(REAL, &all, 0);
            reset(); /* the mark goes, the flags stay */
            update(REAL, published[i].at, cut, &all, 0);
            finish_and_reset(REAL, &all, 0, 20, 1);
            update(REAL, published[i].at, published[i].left, &all, 0);
            finish(REAL, &all, 0);
            end();
        }
}

/* NIST's short messages, in the modes that have these flags; their published digests are looked up by second/digests.py. */
static void nist_messages(const char *data, int with)
{
    char line[4096];
    FILE *f = fopen(in_folder(data, "SHA1ShortMsg.rsp"), "r");
    if (!f) stop("cannot read SHA1ShortMsg.rsp");
    size_t bits = 0;
    while (fgets(line, sizeof line, f)) {
        uint8_t bytes[2048];
        sscanf(line, "Len = %zu", &bits);
        if (strncmp(line, "Msg = ", 6)) continue;
        for (size_t i = 0; i < bits / 8; i++) {
            unsigned byte;
            sscanf(line + 6 + 2 * i, "%2x", &byte);
            bytes[i] = byte;
        }
        in_modes(with, REAL, bytes, bits / 8, &all);
    }
    fclose(f);
}

static void schoolbook_messages(void)
{
    in_all_modes(CONTROL, (const uint8_t *)"hello world", 11, &all);
    in_all_modes(CONTROL, (const uint8_t *)"hello world", 11, &none);
    in_all_modes(REAL, (const uint8_t *)"abc", 3, &all);
    in_all_modes(REAL, (const uint8_t *)"abcdbcdecdefdefgefghfghighijhijkijkljklmklmnlmnomnopnopq", 56, &all);
}

/* The mark stays: one marked block among clean ones, at each place, for each way to mark. */
static void marks_stay(void)
{
    for (int marked = 0; marked < 6; marked++)
        for (int flags = 0; flags < 32; flags++)
            for (int slot = REAL; slot <= CONTROL_65; slot++) {
                begin_fresh(flags | DETECT);
                for (int i = 0; i < 6; i++) update(slot, pattern + 64 * i, 64, i == marked ? &all : &none, 0);
                finish(slot, &none, 0);
                reset();
                update(slot, pattern, 64, &none, 0);
                finish(slot, &none, 0);
                finish(slot, &all, 0);
                finish_and_reset(slot, &all, 0, 20, 9);
                finish(slot, &none, 0);
                end();
            }
}

/* Masks for some blocks: none before the first that is to be marked, `from_there` from it on or for it alone. */
static uint32_t *masks_from(int first, uint32_t from_there, int alone)
{
    static uint32_t list[16];
    for (int i = 0; i < 16; i++) list[i] = i < first || (alone && i > first) ? 0 : from_there;
    return list;
}

/* The crate's records with a control record at a place, one behind it and one at the end. That at the place has mask number 5, and the
 * numbers go on from there. */
static void table_with_controls(int slot, int place)
{
    struct table *t = &pool[slot];
    *t = pool[REAL];
    for (int i = 0; i < MOST; i++) t->w[RECORD * i] = (MOST + i - place + 5) % MOST;
    control(t->w + RECORD * place, 5, 58);
    if (place + 1 < MOST) control(t->w + RECORD * (place + 1), 6, 65);
    if (place + 2 < MOST) control(t->w + RECORD * (MOST - 1), (MOST - 1 - place + 5) % MOST, 65);
    send_table(slot);
}

/* A message of which one block is the first that is marked, alone or with all that follow: in one piece, cut, and begun in
 * mid-stream; in a finish, then over a reset; and at once. */
static void first_marked(size_t len, int first, uint32_t chosen, int alone, int how)
{
    static const uint8_t no_bytes[64];
    const uint32_t *masks = masks_from(first, chosen, alone);
    int flags = DETECT | LENT | (how % 2 ? MITIGATE : 0) | (first % 2 ? REDUCED : 0);
    size_t cut = how == 0 ? 0 : how == 1 ? len / 2 : len;
    if (how == 3) begin_at(ones, no_bytes, 0, 1000, 0, flags, nowhere);
    else begin_fresh(flags);
    listed = masks;
    update(GOOD, pattern, cut, NULL, 0);
    update(GOOD, pattern + cut, len - cut, NULL, 0);
    finish(GOOD, NULL, 0);
    listed = masks + len / 64;
    finish_and_reset(GOOD, NULL, 0, 20, 0x21);
    listed = masks;
    update(GOOD, pattern, len, NULL, 0);
    reset();
    listed = NULL;
    finish(GOOD, &none, 0);
    finish(GOOD, &all, 0);
    end();
    listed = masks;
    one_shot(GOOD, pattern, len, NULL, 0);
    listed = NULL;
}

/* Messages of up to four blocks and a padding of one or two, of which each is the first that is marked, or none. The masks select
 * the control record at the place alone, with its neighbours, or with all. */
static void first_marks(void)
{
    static const int ends[5] = { 0, 1, 55, 56, 63 };
    static const int places[5] = { 0, 1, 17, 30, 31 };
    static const uint32_t chosen[3] = { 1 << 5, 1 << 5 | 1 << 4 | 1 << 6, 0xffffffff };
    for (int p = 0; p < 5; p++) {
        table_with_controls(GOOD, places[p]);
        for (int n = 0; n < 25; n++) {
            int len = 64 * (n / 5) + ends[n % 5], blocks = (len + 8) / 64 + 1;
            for (int first = 0; first <= blocks; first++)
                for (int way = 0; way < 12; way++) first_marked(len, first, chosen[way % 3], way % 2, way / 3);
        }
    }
}

/* A published file, and behind it blocks that a control record in the last place marks: cut everywhere, in each setting. */
static void marked_again(void)
{
    static uint8_t bytes[1024];
    const uint32_t keeps_27[CONDITION] = { 0, 0, 0, 0, 1, 0x70000000 };
    struct table *t = &pool[GOOD];
    *t = pool[REAL];
    control(t->w + RECORD * (MOST - 1), 31, 58);
    send_table(GOOD);
    lend_words(keeps_27, CONDITION, 1);
    for (int i = 0; i < 3; i++) {
        size_t len = published[i].left, whole = len + 150;
        memcpy(bytes, published[i].at, len);
        memcpy(bytes + len, pattern, 150);
        for (size_t cut = 0; cut <= whole; cut += 1 + cut % 5)
            for (int mode = 0; mode < 6; mode++) {
                int setting = mode % 3 == 0 ? LENT : mode % 3 == 1 ? CONDITIONS : 0;
                uint32_t *masks = masks_from(len / 64 - 1, 0xffffffff, 0);
                masks[len / 64 - 1] = mode == 3 ? 0 : 1 << 27;
                begin_fresh(DETECT | setting | (mode > 2 ? MITIGATE : 0) | (i == 2 ? REDUCED : 0));
                listed = masks;
                update(GOOD, bytes, cut, NULL, 0);
                listed = masks + cut / 64;
                update(GOOD, bytes + cut, whole - cut, NULL, 0);
                listed = masks + whole / 64;
                finish(GOOD, NULL, 0);
                listed = NULL;
                finish_and_reset(GOOD, &all, 0, 20, 0x12);
                update(REAL, bytes, cut, &all, 0);
                finish(REAL, &all, 0);
                end();
            }
    }
    lent_conditions = NONE;
}

/* A lookup or a comparison. */
static void sheet_call(int kind, const uint8_t *sheet, size_t len, const uint8_t *code, size_t code_len, uint32_t verdict,
    const uint8_t *digest)
{
    put_bytes(&o, sheet, len);
    put_bytes(&o, code, code_len);
    if (kind == COMPARE) {
        put(&o, verdict, 4);
        put_raw(&o, digest, 20);
    }
    write_record(file, kind, &o);
}

/* Sheets of up to 4 records: each record looked for, each byte of barcode and digest turned; compared with each verdict and with
 * the numbers beside them, which are none. */
static void sheets(void)
{
    uint8_t sheet[128], code[13] = { 0 }, digest[20];
    seed = 7;
    fill_by_chance(sheet, sizeof sheet);
    memcpy(sheet + 96, sheet + 32, 12); /* the fourth repeats the second's barcode */
    for (int kind = LOOKUP; kind <= COMPARE; kind++)
        for (int len = 0; len <= 128; len++)
            for (int i = 0; i < 4; i++)
                for (int turn = -1; turn < (len % 32 ? 0 : 32); turn++) {
                    memcpy(code, sheet + 32 * i, 12);
                    memcpy(digest, sheet + 32 * i + 12, 20);
                    if (turn >= 0) { if (turn < 12) code[turn] ^= 4; else digest[turn - 12] ^= 4; }
                    for (int code_len = turn == -1 ? 11 : 12; code_len < (turn == -1 ? 14 : 13); code_len++)
                        for (int verdict = 0; verdict < (kind == COMPARE ? 5 : 1); verdict++)
                            sheet_call(kind, sheet, len, code, code_len, verdict, digest);
                }
}

static void fixed_requests(const char *data)
{
    seed = 1;
    fill_by_chance(pattern, sizeof pattern);
    short_messages();
    lengths();
    fills();
    forms();
    first_forms();
    longest();
    orders();
    short_updates();
    damaged_tables();
    record_heads();
    pairs_of_faults();
    pasted_records();
    repeated_controls();
    repeats_and_faults();
    published_files();
    nist_messages(data, 0);
    schoolbook_messages();
    marks_stay();
    first_marks();
    marked_again();
    sheets();
    conditions_in_full();
}
