/* Requests drawn from the seed. */

/* ---- Tables ---- */

static void some_record(uint32_t *r, uint32_t number)
{
    control(r, number, one_in(2) ? 58 : 65);
    if (one_in(5)) return; /* the control record */
    if (one_in(3)) turn_word(r + 2, 16); /* a single bit */
    else if (one_in(4)) memcpy(r + 2, pool[REAL].w + RECORD * below(MOST) + 2, 64); /* one of the crate's */
    else for (int t = 0; t < 16; t++) r[2 + t] = chance();
    extend(r + 2);
}

static int some_count(void)
{
    switch (below(8)) {
    case 0: case 1: case 2: return 1;
    case 3: case 4: case 5: return 2 + below(3);
    case 6: return 2 + below(MOST - 1);
    default: return one_in(3) ? MOST : 2 + below(8);
    }
}

/* All mask numbers, in an order by chance. */
static const uint32_t *some_numbers(void)
{
    static uint32_t numbers[MOST];
    for (int i = 0; i < MOST; i++) {
        int at = below(i + 1);
        numbers[i] = numbers[at];
        numbers[at] = i;
    }
    return numbers;
}

static void some_table(struct table *t)
{
    int n = some_count();
    const uint32_t *numbers = some_numbers();
    t->len = RECORD * n;
    t->good = 1;
    for (int i = 0; i < n; i++) some_record(t->w + RECORD * i, numbers[i]);
    /* Often without a control record, so that every selected record is tried. */
    if (one_in(2))
        for (int i = 0; i < n; i++) {
            t->w[RECORD * i + 2] ^= chance();
            extend(t->w + RECORD * i + 2);
        }
}

static void damage(struct table *t)
{
    uint32_t *r = t->w + RECORD * below(t->len / RECORD);
    switch (below(6)) {
    case 0: r[0] = one_in(2) ? 32 : 32 + (chance() >> 33); break;
    case 1: r[1] = (uint32_t[]){ 0, 57, 59, 64, 66, 58 + 65, 58 << 8, 0x80000000 | 58 }[below(8)]; break;
    case 2: r[2 + 16] ^= 1; break;
    case 3: turn_word(r + 2 + 79, 1); break;
    default: turn_word(r + 2, 80); break;
    }
    t->good = 0;
}

/* Some of two records or more take the mask number of another, or are that one once more. No number comes in by this, so one at
 * least repeats an earlier one's. */
static void repeat(struct table *t)
{
    int n = t->len / RECORD;
    for (int times = one_in(6) ? n : 1 + (int)below(3); times > 0; times--) {
        int from = below(n), to = (from + 1 + below(n - 1)) % n;
        memcpy(t->w + RECORD * to, t->w + RECORD * from, one_in(3) ? 4 * RECORD : 4);
    }
    t->good = 0;
}

static void some_bad_table(struct table *t)
{
    do some_table(t); while (t->len == RECORD && one_in(2));
    t->good = 0;
    switch (below(12)) {
    case 0: t->len = 0; return;
    case 1: t->len -= 1 + below(RECORD - 1); return;
    case 2: t->len += 1 + below(RECORD - 1); return;
    case 3:
        t->len = RECORD * (MOST + 1 + below(3));
        for (size_t i = 0; i < t->len / RECORD; i++) { uint32_t number = below(MOST); some_record(t->w + RECORD * i, number); }
        return;
    case 4: case 5: case 6: case 7:
        if (t->len > RECORD) repeat(t);
        if (t->len == RECORD || one_in(3)) damage(t);
        return;
    default:
        for (int n = 1 + below(3); n > 0; n--) damage(t);
    }
}

static int some_slot(void)
{
    if (one_in(16)) return BAD + below(SLOTS - BAD);
    if (one_in(24)) return REAL;
    return one_in(12) ? (one_in(2) ? CONTROL : CONTROL_65) : GOOD + (int)below(GOOD_END - GOOD);
}

/* ---- Conditions ---- */

/* With many conditions each names few vectors, or nothing would ever be left. */
static uint32_t some_clearing(int many)
{
    switch (below(6)) {
    case 0: return some_bit();
    case 1: return one_in(4) ? 0 : 0xffffffff;
    case 2: return many ? some_bit() : ~some_bit();
    default: {
        uint32_t mask = chance();
        for (int n = many ? 3 : below(3); n > 0; n--) mask &= chance();
        return mask;
    }
    }
}

static void some_condition(uint32_t *c, int many)
{
    uint32_t i = below(80), p = below(32), j = below(80), q = below(32), wanted = below(2);
    if (one_in(8)) i = one_in(2) ? 79 : 0;
    if (one_in(8)) j = one_in(2) ? 79 : i;
    if (one_in(8)) p = one_in(2) ? 31 : 0;
    if (one_in(8)) q = one_in(2) ? 31 : p;
    condition(c, i, p, j, q, wanted, some_clearing(many));
}

static void some_conditions(struct conditions *t)
{
    int n = one_in(10) ? 0 : one_in(3) ? 1 : one_in(2) ? 2 + below(6) : one_in(8) ? MOST_CONDITIONS : 1 + below(60);
    t->len = CONDITION * n;
    t->good = 1;
    for (int k = 0; k < n; k++) some_condition(t->w + CONDITION * k, n > 8);
    if (n > 1 && one_in(4)) { /* one again, or asking for the opposite */
        uint32_t *again = t->w + CONDITION * below(n);
        memcpy(again, t->w + CONDITION * below(n), 4 * CONDITION);
        if (one_in(2)) again[4] ^= 1;
    }
}

/* One word of one condition beyond its bound, by little or by much. */
static void spoil(struct conditions *t)
{
    static const uint32_t bounds[5] = { 80, 32, 80, 32, 2 };
    int n = t->len / CONDITION, which = below(5);
    uint32_t beyond = one_in(2) ? 0 : one_in(2) ? below(100) : chance() >> 33;
    t->w[CONDITION * below(n) + which] = bounds[which] + beyond;
}

static void some_unfit_conditions(struct conditions *t)
{
    do some_conditions(t); while (t->len == 0);
    t->good = 0;
    int how = below(8);
    if (how == 0 || how == 1) {
        t->len += one_in(2) ? 1 + below(CONDITION - 1) : -1 - below(CONDITION - 1);
    } else if (how == 2) {
        t->len = CONDITION * (MOST_CONDITIONS + 1 + below(3));
        for (size_t k = 0; k < t->len / CONDITION; k++) some_condition(t->w + CONDITION * k, 1);
    }
    if (how != 0 && how != 2 && t->len >= CONDITION)
        for (int n = 1 + below(3); n > 0; n--) spoil(t);
}

static int some_conditions_slot(void)
{
    if (one_in(16)) return UNFIT + below(SLOTS_END - UNFIT);
    return one_in(10) ? (one_in(2) ? OWN : NONE) : MET + (int)below(MET_END - MET);
}

static void next_conditions(void)
{
    int s = MET + below(MET_END - MET);
    some_conditions(held_conditions(s));
    send_conditions(s);
}

static void next_unfit_conditions(void)
{
    int s = UNFIT + below(SLOTS_END - UNFIT);
    some_unfit_conditions(held_conditions(s));
    send_conditions(s);
}

/* ---- One block ---- */

static void some_words(uint32_t words[5])
{
    static const uint32_t start[5] = { 0x67452301, 0xefcdab89, 0x98badcfe, 0x10325476, 0xc3d2e1f0 };
    int how = below(6);
    for (int i = 0; i < 5; i++) words[i] = how < 2 ? start[i] : how == 2 ? -below(2) : chance();
}

static int some_flags(void) { return below(16) & (MITIGATE | REDUCED); }

static void some_block(void)
{
    uint32_t words[5];
    uint8_t block[130];
    int slot = some_slot();
    size_t len = one_in(24) ? below(131) : 64;
    some_words(words);
    int how = below(12);
    if (how == 0) memset(block, 0, 130);
    else if (how == 1) memset(block, 0xff, 130);
    else if (how == 2) { memset(block, 0, 130); turn_byte(block, 64); }
    else fill_by_chance(block, 130);
    uint32_t mask = some_mask(&pool[slot]);
    send_block(words, slot, mask, some_flags(), block, len);
}

/* A block that its record marks, with that record somewhere among others. */
static void some_pair(void)
{
    const struct pair *p = &pairs[below(pair_count)];
    struct table *t = &pool[GOOD];
    uint8_t block[64];
    uint32_t words[5];
    some_table(t);
    uint32_t *r = t->w + RECORD * below(t->len / RECORD), number = r[0];
    if (one_in(2)) number = p->record[0];
    for (uint32_t *other = t->w; other < t->w + t->len; other += RECORD)
        if (other[0] == number) other[0] = r[0]; /* so that the numbers stay different */
    memcpy(r, p->record, 4 * RECORD);
    r[0] = number;
    send_table(GOOD);
    memcpy(block, p->block, 64);
    memcpy(words, p->words, 20);
    for (int i = 0; i < 8; i++) {
        uint32_t mask = one_in(2) ? some_mask(t) : (uint32_t)1 << r[0] | (one_in(2) ? some_mask(t) : 0);
        send_block(words, GOOD, mask, some_flags(), block, 64);
    }
    /* And just beside it: one bit of the block or of the words turned. */
    if (one_in(2)) turn_byte(block, 64);
    else turn_word(words, 5);
    send_block(words, GOOD, 0xffffffff, some_flags(), block, 64);
}

/* ---- Sessions ---- */

/* Conditions that are refused, and a table that is. */
static int some_refused(void)
{
    lent_conditions = UNFIT + below(SLOTS_END - UNFIT);
    return BAD + below(SLOTS - BAD);
}

static size_t some_length(void)
{
    size_t blocks = 64 * below(5);
    switch (below(10)) {
    case 0: return 0;
    case 1: case 2: return blocks + (uint64_t[]){ 0, 1, 54, 55, 56, 57, 62, 63 }[below(8)];
    case 3: return 64 - held.fill % 64; /* just full */
    case 4: return one_in(8) ? below(2000) : below(400);
    case 5: return 20;
    default: return below(100);
    }
}

static void some_hasher(int flags)
{
    uint32_t words[5];
    uint8_t pending[64] = { 0 };
    uint64_t fill = below(64), blocks = chance() >> 9, far = chance();
    blocks >>= below(55);
    int mark = (flags & DETECT) && one_in(4);
    struct first first = nowhere;
    some_words(words);
    fill_by_chance(pending, fill);
    if (one_in(4)) blocks = ((uint64_t)1 << 55) - 1 - below(3);
    if (mark) first = some_first(blocks);
    if (one_in(3)) { /* not well formed, in one way or two */
        for (int n = 1 + one_in(4); n > 0; n--)
            switch (below(9)) {
            case 0: fill = one_in(2) ? 64 : far >> below(57); if (fill < 64) fill = 64; break;
            case 1: blocks = ((uint64_t)1 << 55) + (one_in(2) ? 0 : far >> 1); break;
            case 2: pending[63] = 1; if (fill == 64) fill = 63; break;
            case 3: if (fill < 64) pending[fill] = 1 + below(255); break;
            case 4: mark = 1; flags &= ~DETECT; break;
            case 5: first.block = mark ? blocks + (one_in(2) ? 0 : far >> below(64)) : 1 + below(9); break;
            case 6: first.place = mark ? MOST + (one_in(2) ? 0 : far >> 1) : 1 + below(MOST); break;
            /* and as no hasher may lie in memory */
            case 7: mark = 2 + below(9); break;
            default: flags |= one_in(4) ? LENT | CONDITIONS : 32 << below(7); break;
            }
    }
    begin_at(words, pending, fill, blocks, mark, flags, first);
}

static void some_session(void)
{
    static uint8_t bytes[4096];
    int flags = below(16), slot = some_slot(), other, conditions = some_conditions_slot();
    if (!one_in(3)) flags |= DETECT;
    if (one_in(2)) flags = (flags & ~LENT) | CONDITIONS;
    if (one_in(4)) some_hasher(flags);
    else begin_fresh(flags);
    const uint32_t all = 0xffffffff, none = 0, *same = one_in(3) ? &all : one_in(8) ? &none : NULL;
    size_t n;
    for (int messages = 1 + below(3); messages > 0; messages--) {
        if (one_in(20)) { /* a published file, cut by chance */
            struct in in = published[below(3)];
            while (in.left) {
                n = 1 + below(in.left);
                lent_conditions = one_in(2) ? OWN : conditions;
                update(REAL, take(&in, n), n, one_in(2) ? &all : NULL, 0);
            }
        } else {
            for (int pieces = below(6); pieces > 0; pieces--) {
                n = some_length();
                fill_by_chance(bytes, n);
                other = one_in(10) ? some_slot() : slot;
                lent_conditions = one_in(10) ? some_conditions_slot() : conditions;
                if (held.fill + n < 64 && one_in(3)) other = some_refused(); /* no block, so it may be lent anything */
                update(other, bytes, n, same, one_in(16) ? (one_in(2) ? 1 : -1) : 0);
            }
        }
        other = one_in(10) ? some_slot() : slot;
        lent_conditions = one_in(10) ? some_conditions_slot() : conditions;
        int wrong = one_in(16) ? (one_in(2) ? 1 : -1) : 0;
        switch (below(5)) {
        case 0: case 1: finish(other, same, wrong); break;
        case 2: finish(other, same, wrong); reset(); break;
        default:
            n = one_in(10) ? below(65) : 20;
            finish_and_reset(other, same, wrong, n, chance());
        }
    }
    lent_conditions = conditions;
    finish(slot, same, 0);
    end();
}

/* ---- Sheets ---- */

static void some_sheet(int kind)
{
    uint8_t sheet[32 * 20], code[40], digest[20];
    int n = one_in(12) ? 0 : below(12);
    size_t len = 32 * n, code_len = 12;
    fill_by_chance(sheet, sizeof sheet);
    fill_by_chance(code, sizeof code);
    fill_by_chance(digest, 20);
    /* Barcodes that differ in one byte only, or not at all. */
    for (int i = 1; i < n; i++)
        if (one_in(2)) {
            memcpy(sheet + 32 * i, sheet, 12);
            if (one_in(2)) turn_byte(sheet + 32 * i + 11, 1);
            else if (one_in(2)) turn_byte(sheet + 32 * i, 12);
        }
    if (n && !one_in(4)) {
        const uint8_t *wanted = sheet + 32 * below(n);
        memcpy(code, wanted, 12);
        if (one_in(6)) turn_byte(code, 12);
        /* Digests: its own, that of another record, or one bit beside it. */
        memcpy(digest, (one_in(2) ? wanted : sheet + 32 * below(n)) + 12, 20);
        if (one_in(6)) turn_byte(digest + 19, 1);
        else if (one_in(6)) turn_byte(digest, 20);
    }
    /* The barcode where none may be looked for: across two records, or inside a digest. */
    if (n > 1 && one_in(4)) memcpy(sheet + below(32 * (n - 1)), code, 12);
    if (one_in(8)) len += below(sizeof sheet - len + 1);
    if (one_in(8)) code_len = below(one_in(2) ? 14 : 40);
    put_bytes(&o, sheet, len);
    put_bytes(&o, code, code_len);
    if (kind == COMPARE) {
        put(&o, one_in(40) ? 4 * below(1000) : 1 + below(3), 4); /* a few are none of the three verdicts */
        put_raw(&o, digest, 20);
    }
    write_record(file, kind, &o);
}

static void random_requests(uint64_t blocks, uint64_t sessions, uint64_t others)
{
    static uint8_t bytes[4096];
    for (int i = GOOD; i < BAD; i++) { some_table(&pool[i]); send_table(i); }
    for (int i = BAD; i < SLOTS; i++) { some_bad_table(&pool[i]); send_table(i); }
    for (int i = MET; i < MET_END; i++) { some_conditions(held_conditions(i)); send_conditions(i); }
    for (int i = UNFIT; i < SLOTS_END; i++) { some_unfit_conditions(held_conditions(i)); send_conditions(i); }
    for (uint64_t i = 0; i < blocks;) {
        /* Tables are long, so each serves some hundred blocks. */
        if (i % 16 == 0) { int s = GOOD + below(GOOD_END - GOOD); some_table(&pool[s]); send_table(s); }
        if (i % 64 == 0) { int s = BAD + below(SLOTS - BAD); some_bad_table(&pool[s]); send_table(s); }
        if (one_in(80)) { some_pair(); i += 9; }
        else { some_block(); i++; }
    }
    for (uint64_t i = 0; i < sessions; i++) {
        if (i % 8 == 0) { int s = GOOD + below(GOOD_END - GOOD); some_table(&pool[s]); send_table(s); }
        if (i % 32 == 0) { int s = BAD + below(SLOTS - BAD); some_bad_table(&pool[s]); send_table(s); }
        if (i % 4 == 0) next_conditions();
        if (i % 16 == 0) next_unfit_conditions();
        some_session();
    }
    for (uint64_t i = 0; i < others; i++) {
        int slot = some_slot();
        size_t n = some_length();
        const uint32_t all = 0xffffffff;
        fill_by_chance(bytes, n);
        int wrong = one_in(16) ? (one_in(2) ? 1 : -1) : 0;
        one_shot(slot, bytes, n, one_in(2) ? &all : NULL, wrong);
        some_sheet(LOOKUP);
        some_sheet(COMPARE);
        if (i % 4 == 0) {
            int s = BAD + below(SLOTS - BAD);
            some_bad_table(&pool[s]);
            send_table(s);
            table_check(s);
            table_check(GOOD + below(GOOD_END - GOOD));
            next_unfit_conditions();
            for (int k = OWN; k < SLOTS_END; k += 1 + below(16)) condition_check(k);
        }
    }
}
