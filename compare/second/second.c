/* The second program: SHA-1 with collision detection, the hasher and the barcode sheet, after FIPS 180-4, the scope paper
 * and the requests, as the calls of purserumble.h. It is made to be plain, and to go another way than the Rust: a table of
 * differences is tried by walking the block forward to the test step, undoing the sibling step by step to its start,
 * and compressing the sibling from there through all 80 steps. Nothing is saved between records, and a message goes
 * in byte by byte.
 */
#include "../../include/purserumble.h"
#include <string.h>

enum { RECORD = 82, MOST_RECORDS = 32, CONDITION = 6, MOST_CONDITIONS = 512 };
static const uint64_t most_blocks = ((uint64_t)1 << 55) - 1;
static const uint64_t most_bytes = ((uint64_t)1 << 61) - 1;
static const uint32_t first_words[5] = { 0x67452301, 0xefcdab89, 0x98badcfe, 0x10325476, 0xc3d2e1f0 };

/* ---- FIPS 180-4, 4.1.1, 4.2.1, 5.3.1, 6.1 ---- */

static uint32_t rotl(uint32_t x, int n) { return x << n | x >> (32 - n); }

static uint32_t f(int t, uint32_t x, uint32_t y, uint32_t z)
{
    if (t < 20) return (x & y) ^ (~x & z);
    if (t < 40) return x ^ y ^ z;
    if (t < 60) return (x & y) ^ (x & z) ^ (y & z);
    return x ^ y ^ z;
}

static uint32_t k(int t)
{
    return t < 20 ? 0x5a827999 : t < 40 ? 0x6ed9eba1 : t < 60 ? 0x8f1bbcdc : 0xca62c1d6;
}

static void schedule(uint32_t w[80], const uint8_t *block)
{
    for (int t = 0; t < 16; t++)
        w[t] = (uint32_t)block[4 * t] << 24 | (uint32_t)block[4 * t + 1] << 16 | block[4 * t + 2] << 8 | block[4 * t + 3];
    for (int t = 16; t < 80; t++) w[t] = rotl(w[t - 3] ^ w[t - 8] ^ w[t - 14] ^ w[t - 16], 1);
}

/* Step t on (a, b, c, d, e). */
static void step(uint32_t s[5], int t, uint32_t wt)
{
    uint32_t a = rotl(s[0], 5) + f(t, s[1], s[2], s[3]) + s[4] + k(t) + wt;
    s[4] = s[3];
    s[3] = s[2];
    s[2] = rotl(s[1], 30);
    s[1] = s[0];
    s[0] = a;
}

/* Step t undone. */
static void undo(uint32_t s[5], int t, uint32_t wt)
{
    uint32_t after = s[0];
    s[0] = s[1];
    s[1] = rotl(s[2], 2);
    s[2] = s[3];
    s[3] = s[4];
    s[4] = after - rotl(s[0], 5) - f(t, s[1], s[2], s[3]) - k(t) - wt;
}

/* The chaining words after a block with this schedule. */
static void compress(uint32_t out[5], const uint32_t in[5], const uint32_t w[80])
{
    uint32_t s[5], sum[5];
    memcpy(s, in, 20);
    for (int t = 0; t < 80; t++) step(s, t, w[t]);
    for (int i = 0; i < 5; i++) sum[i] = in[i] + s[i];
    memcpy(out, sum, 20);
}

/* ---- One block ---- */

struct found { uint64_t mark, place, tried; };

static int same(const uint32_t a[5], const uint32_t b[5]) { return memcmp(a, b, 20) == 0; }

/* Whether the record marks the block that leads from `in` to `out`. */
static int marks(const uint32_t *record, const uint32_t w[80], const uint32_t in[5], const uint32_t out[5], int reduced)
{
    int test = record[1];
    uint32_t sibling[80], s[5], sibling_out[5];
    for (int t = 0; t < 80; t++) sibling[t] = w[t] ^ record[2 + t];
    memcpy(s, in, 20);
    for (int t = 0; t < test; t++) step(s, t, w[t]);
    for (int t = test; t-- > 0;) undo(s, t, sibling[t]);
    compress(sibling_out, s, sibling);
    return same(sibling_out, out) || (reduced && same(s, in));
}

static struct found checked_block(uint32_t words[5], const uint8_t *block, const uint32_t *table, size_t table_len,
    uint32_t mask, int mitigate, int reduced)
{
    struct found found = { 0, 0, 0 };
    uint32_t w[80], out[5];
    schedule(w, block);
    compress(out, words, w);
    for (size_t i = 0; i < table_len / RECORD && !found.mark; i++) {
        const uint32_t *record = table + RECORD * i;
        if ((mask >> record[0] & 1) == 0) continue;
        found.tried++;
        if (marks(record, w, words, out, reduced)) {
            found.mark = 1;
            found.place = i;
        }
    }
    if (found.mark && mitigate) {
        compress(out, out, w);
        compress(out, out, w);
    }
    memcpy(words, out, 20);
    return found;
}

/* ---- The table check: 2, then for the first bad record 3, 4 or 5, then 11 for the first that repeats a mask number ---- */

static uint32_t record_fault(const uint32_t *record)
{
    const uint32_t *dm = record + 2;
    if (record[0] > 31) return 3;
    if (record[1] != 58 && record[1] != 65) return 4;
    for (int t = 16; t < 80; t++)
        if (dm[t] != rotl(dm[t - 3] ^ dm[t - 8] ^ dm[t - 14] ^ dm[t - 16], 1)) return 5;
    return 0;
}

/* Whether one of the records before it has the mask number of record i. */
static int repeats(const uint32_t *table, size_t i)
{
    for (size_t j = 0; j < i; j++)
        if (table[RECORD * j] == table[RECORD * i]) return 1;
    return 0;
}

static uint32_t table_fault(const uint32_t *table, size_t len, uint64_t *place)
{
    *place = 0;
    if (len == 0 || len % RECORD != 0 || len > RECORD * MOST_RECORDS) return 2;
    for (size_t i = 0; i < len / RECORD; i++) {
        uint32_t fault = record_fault(table + RECORD * i);
        if (fault) *place = i;
        if (fault) return fault;
    }
    for (size_t i = 0; i < len / RECORD; i++) {
        if (!repeats(table, i)) continue;
        *place = i;
        return 11;
    }
    return 0;
}

/* ---- Conditions: i, p, j, q, the wanted value, the clearing mask ---- */

static uint32_t condition_fault(const uint32_t *conditions, size_t len, uint64_t *place)
{
    *place = 0;
    if (len % CONDITION != 0 || len > CONDITION * MOST_CONDITIONS) return 12;
    for (size_t n = 0; n < len / CONDITION; n++) {
        const uint32_t *c = conditions + CONDITION * n;
        if (c[0] <= 79 && c[1] <= 31 && c[2] <= 79 && c[3] <= 31 && c[4] <= 1) continue;
        *place = n;
        return 13;
    }
    return 0;
}

static uint32_t bit(const uint32_t w[80], uint32_t t, uint32_t place) { return w[t] >> place & 1; }

/* From all ones, without the vectors of each condition that the block's schedule does not meet. */
static uint32_t surviving(const uint8_t *block, const uint32_t *conditions, size_t len)
{
    uint32_t w[80], left = 0xffffffff;
    schedule(w, block);
    for (const uint32_t *c = conditions; c < conditions + len; c += CONDITION)
        if ((bit(w, c[0], c[1]) ^ bit(w, c[2], c[3])) != c[4]) left &= ~c[5];
    return left;
}

/* ---- The hasher ---- */

/* What is lent to a call. */
struct loan { const uint32_t *table; size_t table_len; const uint32_t *conditions; size_t conditions_len; const uint32_t *masks; size_t masks_len; };

/* The number of the first marked block, from 0, and the place of the record that marked it; zeros where none was. */
struct first { uint64_t block, place; };

struct hasher {
    uint32_t words[5];
    uint8_t pending[64];
    uint64_t fill, blocks, mark, flags;
    struct first first;
};

static struct hasher hasher_of(const uint32_t *words, const uint8_t *pending, const uint64_t *state)
{
    struct hasher h = { .fill = state[0], .blocks = state[1], .mark = state[2], .flags = state[3] };
    h.first.block = state[4];
    h.first.place = state[5];
    memcpy(h.words, words, 20);
    memcpy(h.pending, pending, 64);
    return h;
}

static void store(const struct hasher *h, uint32_t *words, uint8_t *pending, uint64_t *state)
{
    memcpy(words, h->words, 20);
    memcpy(pending, h->pending, 64);
    state[0] = h->fill;
    state[1] = h->blocks;
    state[2] = h->mark;
    state[3] = h->flags;
    state[4] = h->first.block;
    state[5] = h->first.place;
}

static int detects(const struct hasher *h) { return h->flags & 1; }
static int mitigates(const struct hasher *h) { return h->flags >> 1 & 1; }
static int lends(const struct hasher *h) { return (h->flags & 5) == 5; }
static int conditional(const struct hasher *h) { return (h->flags & 17) == 17; }
static int reduces(const struct hasher *h) { return h->flags >> 3 & 1; }

static struct hasher fresh(uint64_t flags)
{
    struct hasher h = { .flags = flags };
    memcpy(h.words, first_words, 20);
    return h;
}

/* With a mark one of the blocks so far and a place that a table can have, without one nothing. */
static int first_fits(const struct hasher *h)
{
    if (!h->mark) return h->first.block == 0 && h->first.place == 0;
    return h->first.block < h->blocks && h->first.place < MOST_RECORDS;
}

static int well_formed(const struct hasher *h)
{
    if (h->fill > 63 || h->blocks > most_blocks || (h->mark && !detects(h)) || !first_fits(h)) return 0;
    for (int i = h->fill; i < 64; i++)
        if (h->pending[i]) return 0;
    return 1;
}

/* The vectors that are tried with the next block: those of the next lent mask, those that survive, or all. */
static uint32_t selected(const struct hasher *h, const uint8_t *block, struct loan *lent)
{
    if (lends(h)) return *lent->masks++;
    if (conditional(h)) return surviving(block, lent->conditions, lent->conditions_len);
    return 0xffffffff;
}

/* A marked block of the stream: the first one is kept. */
static void marked(struct hasher *h, struct found found)
{
    if (h->mark) return;
    h->mark = 1;
    h->first.block = h->blocks;
    h->first.place = found.place;
}

/* One block of the stream. */
static void absorb(struct hasher *h, const uint8_t *block, struct loan *lent)
{
    if (detects(h)) {
        uint32_t chosen = selected(h, block, lent);
        struct found found = checked_block(h->words, block, lent->table, lent->table_len, chosen, mitigates(h), reduces(h));
        if (found.mark) marked(h, found);
    } else {
        uint32_t w[80];
        schedule(w, block);
        compress(h->words, h->words, w);
    }
    h->blocks++;
}

static void feed(struct hasher *h, const uint8_t *bytes, size_t len, struct loan *lent)
{
    for (size_t i = 0; i < len; i++) {
        h->pending[h->fill++] = bytes[i];
        if (h->fill < 64) continue;
        absorb(h, h->pending, lent);
        h->fill = 0;
        memset(h->pending, 0, 64);
    }
}

static uint64_t bytes_so_far(const struct hasher *h) { return h->blocks * 64 + h->fill; }

/* What is refused of a loan for a call that compresses so many blocks: masks or conditions, then the table. A call that
 * compresses none may be lent any table and any conditions, but no mask. */
static uint32_t lent_refusal(const struct hasher *h, uint64_t blocks, const struct loan *lent, uint64_t *place)
{
    uint32_t refusal = 0;
    *place = 0;
    if (lends(h) && lent->masks_len != blocks) return 6;
    if (blocks == 0) return 0;
    if (conditional(h)) refusal = condition_fault(lent->conditions, lent->conditions_len, place);
    if (refusal) return refusal;
    if (detects(h)) return table_fault(lent->table, lent->table_len, place);
    return 0;
}

/* The message's last bytes by FIPS 180-4, 5.1.1: 1 or 2 blocks. */
static int padding(const struct hasher *h, uint8_t tail[128])
{
    int blocks = h->fill + 1 + 8 <= 64 ? 1 : 2;
    uint64_t bits = bytes_so_far(h) * 8;
    memset(tail, 0, 128);
    memcpy(tail, h->pending, h->fill);
    tail[h->fill] = 0x80;
    for (int i = 1; i <= 8; i++, bits >>= 8) tail[64 * blocks - i] = bits & 255;
    return blocks;
}

static uint32_t finish_refusal(const struct hasher *h, size_t out_len, const struct loan *lent, uint64_t *place)
{
    *place = 0;
    if (!well_formed(h)) return 1;
    if (out_len != 20) return 8;
    return lent_refusal(h, h->fill <= 55 ? 1 : 2, lent, place);
}

/* The digest's 20 bytes; the answer has the verdict, and behind the refused record's place the first mark, padding counted. */
static void finished(struct hasher h, uint8_t *digest, struct loan lent, uint64_t answer[4])
{
    uint8_t tail[128];
    int blocks = padding(&h, tail);
    for (int i = 0; i < blocks; i++) absorb(&h, tail + 64 * i, &lent);
    for (int i = 0; i < 20; i++) digest[i] = h.words[i / 4] >> (24 - 8 * (i % 4));
    answer[0] = !h.mark ? 1 : mitigates(&h) ? 2 : 3;
    answer[2] = h.first.block;
    answer[3] = h.first.place;
}

/* ---- The calls ---- */

enum { BROKEN = 255 };

/* At most one of lent masks and conditions. */
static int flags_fit(uint64_t flags) { return flags <= 31 && (flags & 20) != 20; }

/* Whether a hasher lies in memory as the header says. */
static int hasher_fits(size_t five, size_t sixty_four, const uint64_t *state, size_t six)
{
    return five == 5 && sixty_four == 64 && six == 6 && state[2] <= 1 && flags_fit(state[3]);
}

uint32_t purserumble_one_block(const uint32_t *words, size_t five, const uint8_t *block, size_t block_len,
    const uint32_t *table, size_t table_len, uint32_t mask, bool mitigate, bool reduced,
    uint32_t *after, size_t five_after, uint64_t *answer, size_t four)
{
    if (five != 5 || five_after != 5 || four != 4) return BROKEN;
    uint64_t place = 0;
    uint32_t refusal = block_len != 64 ? 8 : table_fault(table, table_len, &place);
    struct found found = { 0, 0, 0 };
    if (!refusal) {
        memcpy(after, words, 20);
        found = checked_block(after, block, table, table_len, mask, mitigate, reduced);
    }
    answer[0] = found.mark;
    answer[1] = found.place;
    answer[2] = found.tried;
    answer[3] = place;
    return refusal;
}

uint32_t purserumble_new(uint64_t flags, uint32_t *words, size_t five, uint8_t *pending, size_t sixty_four,
    uint64_t *state, size_t six)
{
    if (five != 5 || sixty_four != 64 || six != 6 || !flags_fit(flags)) return BROKEN;
    struct hasher h = fresh(flags);
    store(&h, words, pending, state);
    return 0;
}

uint32_t purserumble_update(uint32_t *words, size_t five, uint8_t *pending, size_t sixty_four,
    uint64_t *state, size_t six, const uint8_t *bytes, size_t bytes_len, const uint32_t *table, size_t table_len,
    const uint32_t *conditions, size_t conditions_len, const uint32_t *masks, size_t masks_len, uint64_t *answer, size_t two)
{
    if (!hasher_fits(five, sixty_four, state, six) || two != 2) return BROKEN;
    struct hasher h = hasher_of(words, pending, state);
    struct loan lent = { table, table_len, conditions, conditions_len, masks, masks_len };
    uint32_t refusal;
    answer[0] = answer[1] = 0;
    if (!well_formed(&h)) refusal = 1;
    else if (bytes_len > most_bytes - bytes_so_far(&h)) refusal = 7;
    else refusal = lent_refusal(&h, (h.fill + bytes_len) / 64, &lent, &answer[1]);
    if (refusal) return refusal;
    feed(&h, bytes, bytes_len, &lent);
    store(&h, words, pending, state);
    return 0;
}

uint32_t purserumble_reset(uint32_t *words, size_t five, uint8_t *pending, size_t sixty_four,
    uint64_t *state, size_t six, uint64_t *answer, size_t two)
{
    if (!hasher_fits(five, sixty_four, state, six) || two != 2) return BROKEN;
    struct hasher h = hasher_of(words, pending, state);
    answer[0] = answer[1] = 0;
    if (!well_formed(&h)) return 1;
    h = fresh(h.flags);
    store(&h, words, pending, state);
    return 0;
}

uint32_t purserumble_finish(const uint32_t *words, size_t five, const uint8_t *pending, size_t sixty_four,
    const uint64_t *state, size_t six, uint8_t *digest, size_t digest_len, const uint32_t *table, size_t table_len,
    const uint32_t *conditions, size_t conditions_len, const uint32_t *masks, size_t masks_len, uint64_t *answer, size_t four)
{
    if (!hasher_fits(five, sixty_four, state, six) || four != 4) return BROKEN;
    struct hasher h = hasher_of(words, pending, state);
    struct loan lent = { table, table_len, conditions, conditions_len, masks, masks_len };
    answer[0] = answer[2] = answer[3] = 0;
    uint32_t refusal = finish_refusal(&h, digest_len, &lent, &answer[1]);
    if (!refusal) finished(h, digest, lent, answer);
    return refusal;
}

uint32_t purserumble_finish_and_reset(uint32_t *words, size_t five, uint8_t *pending, size_t sixty_four,
    uint64_t *state, size_t six, uint8_t *out, size_t out_len, const uint32_t *table, size_t table_len,
    const uint32_t *conditions, size_t conditions_len, const uint32_t *masks, size_t masks_len, uint64_t *answer, size_t four)
{
    if (!hasher_fits(five, sixty_four, state, six) || four != 4) return BROKEN;
    struct hasher h = hasher_of(words, pending, state);
    struct loan lent = { table, table_len, conditions, conditions_len, masks, masks_len };
    answer[0] = answer[2] = answer[3] = 0;
    uint32_t refusal = finish_refusal(&h, out_len, &lent, &answer[1]);
    if (refusal) return refusal;
    finished(h, out, lent, answer);
    h = fresh(h.flags);
    store(&h, words, pending, state);
    return 0;
}

uint32_t purserumble_one_shot(const uint8_t *bytes, size_t bytes_len, uint8_t *digest, size_t twenty,
    const uint32_t *table, size_t table_len, const uint32_t *masks, size_t masks_len, uint64_t *answer, size_t four)
{
    if (twenty != 20 || four != 4) return BROKEN;
    /* The defaults: detection, mitigation and masks on, reduced-round mode off. */
    struct hasher h = fresh(1 | 2 | 4);
    struct loan lent = { table, table_len, NULL, 0, masks, masks_len };
    uint32_t refusal;
    memset(answer, 0, 4 * sizeof *answer);
    /* The message, the byte 80 and the 8 bytes of the length, rounded up to whole blocks. */
    if (bytes_len > most_bytes) refusal = 7;
    else refusal = lent_refusal(&h, ((uint64_t)bytes_len + 1 + 8 + 63) / 64, &lent, &answer[1]);
    if (refusal) return refusal;
    feed(&h, bytes, bytes_len, &lent);
    finished(h, digest, lent, answer);
    return 0;
}

uint32_t purserumble_table_fault(const uint32_t *table, size_t table_len, uint64_t *answer, size_t two)
{
    if (two != 2) return BROKEN;
    answer[0] = 0;
    return table_fault(table, table_len, &answer[1]);
}

uint32_t purserumble_condition_fault(const uint32_t *conditions, size_t conditions_len, uint64_t *answer, size_t two)
{
    if (two != 2) return BROKEN;
    answer[0] = 0;
    return condition_fault(conditions, conditions_len, &answer[1]);
}

/* ---- The sheet: records of a 12-byte barcode and a 20-byte digest ---- */

static uint32_t sheet_refusal(size_t sheet_len, size_t code_len)
{
    return code_len != 12 ? 8 : sheet_len % 32 != 0 ? 9 : 0;
}

/* Where the digest of the first record with this barcode begins, or the sheet's end. */
static size_t found_at(const uint8_t *sheet, size_t sheet_len, const uint8_t *code)
{
    for (size_t at = 0; at < sheet_len; at += 32)
        if (memcmp(sheet + at, code, 12) == 0) return at + 12;
    return sheet_len;
}

uint32_t purserumble_lookup(const uint8_t *sheet, size_t sheet_len, const uint8_t *code, size_t code_len,
    uint64_t *part, size_t two)
{
    if (two != 2) return BROKEN;
    uint32_t refusal = sheet_refusal(sheet_len, code_len);
    part[0] = refusal ? sheet_len : found_at(sheet, sheet_len, code);
    part[1] = part[0] == sheet_len ? 0 : 20;
    return refusal;
}

uint32_t purserumble_compare(const uint8_t *sheet, size_t sheet_len, const uint8_t *code, size_t code_len,
    uint32_t verdict, const uint8_t *digest, size_t twenty, uint64_t *answer, size_t two)
{
    if (verdict < 1 || verdict > 3 || twenty != 20 || two != 2) return BROKEN;
    uint32_t refusal = sheet_refusal(sheet_len, code_len);
    answer[0] = answer[1] = 0;
    if (refusal) return refusal;
    size_t at = found_at(sheet, sheet_len, code);
    answer[0] = at == sheet_len ? 3 : verdict != 1 ? 4 : memcmp(sheet + at, digest, twenty) == 0 ? 1 : 2;
    return 0;
}
