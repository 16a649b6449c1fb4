/* What a request file is made of: chance, the tables, the conditions, the published files, and each call as it is written
 * down. */
#include "../format.h"
#include "../../include/purserumble.h"

enum { RECORD = 82, MOST = 32, MOST_WORDS = 40 * RECORD };
enum { REAL, CONTROL, CONTROL_65, NO_TABLE, GOOD, GOOD_END = 40, BAD = GOOD_END, SLOTS = 64 };
enum { CONDITION = 6, MOST_CONDITIONS = 512 };
/* Slots of conditions: the crate's own, none, good ones and others. */
enum { OWN = SLOTS, NONE, MET, MET_END = OWN + 24, UNFIT = MET_END, SLOTS_END = OWN + 32 };

static FILE *file;
static struct out o;

/* ---- Chance ---- */

static uint64_t seed;

static uint64_t chance(void)
{
    uint64_t z = seed += 0x9e3779b97f4a7c15;
    z = (z ^ z >> 30) * 0xbf58476d1ce4e5b9;
    z = (z ^ z >> 27) * 0x94d049bb133111eb;
    return z ^ z >> 31;
}

static uint64_t below(uint64_t n) { return chance() % n; }
static int one_in(int n) { return below(n) == 0; }
static void fill_by_chance(uint8_t *p, size_t n) { while (n-- > 0) *p++ = chance(); }
static uint32_t some_bit(void) { return (uint32_t)1 << below(32); }

/* No expression here asks for chance twice: C leaves the order open, and the file must not depend on the compiler. */
static void turn_byte(uint8_t *p, size_t n)
{
    p += below(n);
    *p ^= 1 << below(8);
}

static void turn_word(uint32_t *p, size_t n)
{
    p += below(n);
    *p ^= some_bit();
}

/* ---- Tables ---- */

struct table { uint32_t w[MOST_WORDS]; size_t len; int good; };
static struct table pool[SLOTS];

static uint32_t rotl(uint32_t x, int n) { return x << n | x >> (32 - n); }

static void extend(uint32_t *dm)
{
    for (int t = 16; t < 80; t++) dm[t] = rotl(dm[t - 3] ^ dm[t - 8] ^ dm[t - 14] ^ dm[t - 16], 1);
}

static void control(uint32_t *r, uint32_t number, uint32_t step)
{
    memset(r, 0, 4 * RECORD);
    r[0] = number;
    r[1] = step;
}

static void send_words(uint32_t slot, const uint32_t *w, size_t n)
{
    put(&o, slot, 4);
    put_words(&o, w, n);
    write_record(file, TABLE, &o);
}

static void send_table(int slot) { send_words(slot, pool[slot].w, pool[slot].len); }

static void fixed_tables(const char *name)
{
    struct in in = whole_file(name);
    if (in.left != 4 * RECORD * MOST) stop("not the table of 32 records");
    for (int i = 0; i < RECORD * MOST; i++) pool[REAL].w[i] = number(&in, 4);
    pool[REAL].len = RECORD * MOST;
    control(pool[CONTROL].w, 0, 58);
    control(pool[CONTROL_65].w, 31, 65);
    pool[CONTROL].len = pool[CONTROL_65].len = RECORD;
    pool[REAL].good = pool[CONTROL].good = pool[CONTROL_65].good = 1;
    for (int i = 0; i <= NO_TABLE; i++) send_table(i);
}

static void table_check(int slot)
{
    put(&o, slot, 4);
    write_record(file, TABLE_CHECK, &o);
}

/* ---- Conditions ---- */

struct conditions { uint32_t w[CONDITION * (MOST_CONDITIONS + 8)]; size_t len; int good; };
static struct conditions conditions_in[SLOTS_END - OWN];

/* The slot of those that are lent to the calls that follow. */
static int lent_conditions = NONE;

static struct conditions *held_conditions(int slot) { return &conditions_in[slot - OWN]; }
static void send_conditions(int slot) { send_words(slot, held_conditions(slot)->w, held_conditions(slot)->len); }

static void fixed_conditions(const char *name)
{
    struct conditions *own = held_conditions(OWN);
    struct in in = whole_file(name);
    if (in.left % (4 * CONDITION) || in.left > sizeof own->w) stop("not a table of conditions");
    while (in.left) own->w[own->len++] = number(&in, 4);
    own->good = held_conditions(NONE)->good = 1;
    send_conditions(OWN);
    send_conditions(NONE);
}

static void condition(uint32_t *c, uint32_t i, uint32_t p, uint32_t j, uint32_t q, uint32_t wanted, uint32_t clearing)
{
    memcpy(c, (uint32_t[]){ i, p, j, q, wanted, clearing }, 4 * CONDITION);
}

static void condition_check(int slot)
{
    put(&o, slot, 4);
    write_record(file, CONDITION_CHECK, &o);
}

/* ---- Masks ---- */

static uint32_t some_mask(const struct table *t)
{
    switch (below(8)) {
    case 0: return one_in(2) ? 0 : some_bit();
    case 1: case 2: case 3: return 0xffffffff;
    case 4: /* just one record's number, or all but that one */
        if (t->good) {
            uint32_t bit = (uint32_t)1 << t->w[RECORD * below(t->len / RECORD)];
            return one_in(2) ? bit : ~bit;
        }
        return chance();
    case 5: return chance() & chance();
    case 6: return chance() | chance();
    default: return chance();
    }
}

/* A list that the masks are taken from one by one, where it is set. */
static const uint32_t *listed;

/* So many masks: all the same where `same` is given, else by chance; `wrong` is added to their number. */
static int lend_masks(int slot, uint64_t n, const uint32_t *same, int wrong)
{
    if ((int64_t)n + wrong < 0) wrong = 1;
    put(&o, n + wrong, 4);
    for (uint64_t i = 0; i < n + wrong; i++) put(&o, listed ? *listed++ : same ? *same : some_mask(&pool[slot]), 4);
    return wrong == 0;
}

/* ---- One block ---- */

static void send_block(const uint32_t words[5], int slot, uint32_t mask, int flags, const uint8_t *block, size_t len)
{
    put_words(&o, words, 5);
    put(&o, slot, 4);
    put(&o, mask, 4);
    put(&o, flags, 1);
    put_raw(&o, block, len);
    write_record(file, ONE_BLOCK, &o);
}

/* ---- The published files, and the blocks among them that a record of the crate's table marks ---- */

static struct in published[3];
static struct pair { uint32_t words[5]; uint8_t block[64]; uint32_t record[RECORD]; } pairs[16];
static int pair_count;

/* Kept if the record does mark the block in reduced-round mode. */
static void add_pair(const uint32_t *words, const uint8_t *block, const uint32_t *record)
{
    uint32_t after[5];
    uint64_t answer[4];
    purserumble_one_block(words, 5, block, 64, record, RECORD, 0xffffffff, 0, 1, after, 5, answer, 4);
    if (!answer[0] || pair_count == 16) return;
    struct pair *p = &pairs[pair_count++];
    memcpy(p->words, words, 20);
    memcpy(p->block, block, 64);
    memcpy(p->record, record, 4 * RECORD);
}

/* The name of a file in a folder, until the next one is asked for. */
static const char *in_folder(const char *folder, const char *file_name)
{
    static char name[4096];
    snprintf(name, sizeof name, "%s/%s", folder, file_name);
    return name;
}

static void read_published(const char *data)
{
    static const char *names[3] = { "shattered-1.first320.bin", "shattered-2.first320.bin", "sha1_reducedsha_coll.bin" };
    for (int i = 0; i < 3; i++) {
        published[i] = whole_file(in_folder(data, names[i]));
        uint32_t words[5] = { 0x67452301, 0xefcdab89, 0x98badcfe, 0x10325476, 0xc3d2e1f0 }, after[5];
        for (size_t at = 0; at + 64 <= published[i].left; at += 64, memcpy(words, after, 20)) {
            uint64_t answer[4];
            const uint8_t *block = published[i].at + at;
            purserumble_one_block(words, 5, block, 64, pool[REAL].w, pool[REAL].len, 0xffffffff, 0, 1, after, 5, answer, 4);
            if (!answer[0]) continue;
            const uint32_t *record = pool[REAL].w + RECORD * answer[1];
            add_pair(words, block, record);
            /* The sibling from the same start is marked as well where it is the starts that are equal. */
            uint8_t sibling[64];
            for (int k = 0; k < 64; k++) sibling[k] = block[k] ^ record[2 + k / 4] >> (24 - 8 * (k % 4));
            add_pair(words, sibling, record);
        }
    }
    if (pair_count == 0) stop("no published block is marked");
}

/* ---- Sessions: what is known of the hasher, so that the right number of masks can be lent ---- */

static struct { uint64_t fill, blocks; int flags, malformed; } held;

/* The number of the first marked block, and the place of its record. */
struct first { uint64_t block, place; };
static const struct first nowhere;

static void begin_at(const uint32_t words[5], const uint8_t *pending, uint64_t fill, uint64_t blocks, int mark, int flags,
    struct first first)
{
    held.fill = fill;
    held.blocks = blocks;
    held.flags = flags;
    held.malformed = fill > 63 || blocks >> 55 || mark > (flags & DETECT) || flags > 31 || (flags & 20) == 20;
    held.malformed |= mark ? first.block >= blocks || first.place >= MOST : first.block || first.place;
    for (uint64_t i = fill; i < 64; i++) held.malformed |= pending[i];
    put_words(&o, words, 5);
    put_raw(&o, pending, 64);
    put(&o, fill, 8);
    put(&o, blocks, 8);
    put(&o, mark, 8);
    put(&o, flags, 8);
    put(&o, first.block, 8);
    put(&o, first.place, 8);
}

/* One of a hasher's blocks and a place, by chance. */
static struct first some_first(uint64_t blocks)
{
    struct first f = { blocks ? below(blocks) : 0, below(MOST) };
    if (blocks && one_in(4)) f.block = blocks - 1;
    if (one_in(4)) f.place = one_in(2) ? 0 : MOST - 1;
    return f;
}

/* A mark was made somewhere. */
static void begin(const uint32_t words[5], const uint8_t *pending, uint64_t fill, uint64_t blocks, int mark, int flags)
{
    begin_at(words, pending, fill, blocks, mark, flags, mark ? some_first(blocks) : nowhere);
}

static void begin_fresh(int flags)
{
    static const uint32_t start[5] = { 0x67452301, 0xefcdab89, 0x98badcfe, 0x10325476, 0xc3d2e1f0 };
    static const uint8_t pending[64];
    begin(start, pending, 0, 0, 0, flags);
}

static void end(void) { write_record(file, SESSION, &o); }

/* Whether a call that compresses so many blocks is lent what it may be. */
static int accepted(int slot, int right, uint64_t blocks)
{
    if (held.malformed) return 0;
    if (!(held.flags & DETECT)) return 1;
    if ((held.flags & LENT) && !right) return 0;
    if (blocks == 0) return 1;
    return pool[slot].good && (!(held.flags & CONDITIONS) || held_conditions(lent_conditions)->good);
}

/* A call's kind and the tables that it is lent. */
static void call(int what, int slot)
{
    put(&o, what, 1);
    put(&o, slot, 4);
    put(&o, lent_conditions, 4);
}

static void update(int slot, const uint8_t *bytes, size_t len, const uint32_t *same, int wrong)
{
    uint64_t most = ((uint64_t)1 << 61) - 1, blocks = held.fill > 63 ? 0 : (held.fill + len) / 64;
    call(UPDATE, slot);
    put_bytes(&o, bytes, len);
    int right = lend_masks(slot, blocks, same, wrong);
    if (accepted(slot, right, blocks) && len <= most - (held.blocks * 64 + held.fill)) {
        held.blocks += blocks;
        held.fill = (held.fill + len) % 64;
    }
}

static void reset(void)
{
    put(&o, RESET, 1);
    if (!held.malformed) held.fill = held.blocks = 0;
}

static void finish(int slot, const uint32_t *same, int wrong)
{
    call(FINISH, slot);
    lend_masks(slot, held.fill <= 55 ? 1 : 2, same, wrong);
}

static void finish_and_reset(int slot, const uint32_t *same, int wrong, size_t out_len, uint8_t filled)
{
    call(FINISH_AND_RESET, slot);
    int right = lend_masks(slot, held.fill <= 55 ? 1 : 2, same, wrong);
    put(&o, out_len, 4);
    put(&o, filled, 1);
    if (accepted(slot, right, 1) && out_len == 20) held.fill = held.blocks = 0;
}

/* ---- One-shot ---- */

static void one_shot(int slot, const uint8_t *bytes, size_t len, const uint32_t *same, int wrong)
{
    put(&o, slot, 4);
    put_bytes(&o, bytes, len);
    lend_masks(slot, (len + 8) / 64 + 1, same, wrong);
    write_record(file, ONE_SHOT, &o);
}
