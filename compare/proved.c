/* Answers a request file by the calls of purserumble.h: linked with the static library it is the proved code's side, linked
 * with second/second.c the second program's.
 *
 *   proved REQUESTS ANSWERS
 */
#include "format.h"
#include "../include/purserumble.h"

enum { SLOTS = 65536, GUARD = 16 };

static struct { uint32_t *words; size_t len; } tables[SLOTS];

/* Lent output lies between guards, and is filled beforehand, so that a byte left out or written beside it shows. */
struct lent { uint8_t *whole, *at; size_t len; };

static struct lent lend(size_t len, uint8_t fill)
{
    struct lent l = { malloc(len + 2 * GUARD), NULL, len };
    if (!l.whole) stop("no memory");
    l.at = l.whole + GUARD;
    memset(l.whole, 0xC3, len + 2 * GUARD);
    memset(l.at, fill, len);
    return l;
}

static void give_back(struct lent l)
{
    for (int i = 0; i < GUARD; i++)
        if (l.whole[i] != 0xC3 || l.at[l.len + i] != 0xC3) stop("a call wrote beside what it was lent");
    free(l.whole);
}

/* Words in a buffer of their own, so that reading past them is not reading the file. */
static uint32_t *words_of(struct in *in, size_t n)
{
    uint32_t *w = malloc(4 * n + 4);
    if (!w) stop("no memory");
    for (size_t i = 0; i < n; i++) w[i] = number(in, 4);
    return w;
}

static uint32_t slot_of(struct in *in)
{
    uint32_t slot = number(in, 4);
    if (slot >= SLOTS || !tables[slot].words) stop("no such table");
    return slot;
}

#define TABLE_OF(slot) tables[slot].words, tables[slot].len

static void set_table(struct in body)
{
    uint32_t slot = number(&body, 4);
    if (slot >= SLOTS) stop("no such slot");
    free(tables[slot].words);
    tables[slot].len = body.left / 4;
    tables[slot].words = words_of(&body, tables[slot].len);
}

static void one_block(struct in body, struct out *o)
{
    uint32_t words[5], after[5] = { 99, 99, 99, 99, 99 };
    for (int i = 0; i < 5; i++) words[i] = number(&body, 4);
    uint32_t slot = slot_of(&body), mask = number(&body, 4), flags = number(&body, 1);
    uint64_t answer[4] = { 99, 99, 99, 99 };
    uint32_t refusal = purserumble_one_block(words, 5, body.at, body.left, TABLE_OF(slot), mask,
        (flags & MITIGATE) != 0, (flags & REDUCED) != 0, after, 5, answer, 4);
    put(o, 1, 1);
    put(o, refusal, 4);
    put(o, answer[3], 8);
    put(o, answer[0], 8);
    put(o, answer[1], 8);
    put(o, answer[2], 8);
    put_words(o, after, 5);
}

static void call_answer(struct out *o, uint32_t refusal, const uint64_t answer[4])
{
    put(o, 1, 1);
    put(o, refusal, 4);
    put(o, answer[1], 8);
    put(o, answer[0], 8);
    put(o, answer[2], 8);
    put(o, answer[3], 8);
}

/* One call of a session, as the request has it. */
struct call { int what; uint32_t slot, conditions; struct in bytes; uint32_t *masks; size_t masks_len; struct lent out; };

static struct call call_of(struct in *body)
{
    struct call c = { .what = number(body, 1) };
    if (c.what != RESET) {
        c.slot = slot_of(body);
        c.conditions = slot_of(body);
        if (c.what == UPDATE) {
            c.bytes.left = number(body, 4);
            c.bytes.at = take(body, c.bytes.left);
        }
        c.masks_len = number(body, 4);
        c.masks = words_of(body, c.masks_len);
    }
    size_t out_len = c.what == FINISH_AND_RESET ? number(body, 4) : c.what == FINISH ? 20 : 0;
    c.out = lend(out_len, c.what == FINISH_AND_RESET ? number(body, 1) : 0xA5);
    return c;
}

enum { STATE = PURSERUMBLE_STATE_SIZE };

struct hasher { uint32_t words[5]; struct lent pending; uint64_t state[STATE]; };

#define HASHER h->words, 5, h->pending.at, 64, h->state, STATE
#define LENT_TO(c) TABLE_OF((c).slot), TABLE_OF((c).conditions), (c).masks, (c).masks_len

/* An update and a reset have no first mark in their answer. */
static uint32_t made(struct call c, struct hasher *h, uint64_t answer[4])
{
    if (c.what < FINISH) answer[2] = answer[3] = 0;
    switch (c.what) {
    case UPDATE: return purserumble_update(HASHER, c.bytes.at, c.bytes.left, LENT_TO(c), answer, 2);
    case RESET: return purserumble_reset(HASHER, answer, 2);
    case FINISH: return purserumble_finish(HASHER, c.out.at, 20, LENT_TO(c), answer, 4);
    case FINISH_AND_RESET: return purserumble_finish_and_reset(HASHER, c.out.at, c.out.len, LENT_TO(c), answer, 4);
    }
    stop("no such call");
    return 0;
}

static void session(struct in body, struct out *o)
{
    struct hasher h = { .pending = lend(64, 0) };
    for (int i = 0; i < 5; i++) h.words[i] = number(&body, 4);
    memcpy(h.pending.at, take(&body, 64), 64);
    for (int i = 0; i < STATE; i++) h.state[i] = number(&body, 8);
    while (body.left) {
        struct call c = call_of(&body);
        uint64_t answer[4] = { 99, 99, 99, 99 };
        call_answer(o, made(c, &h, answer), answer);
        put_words(o, h.words, 5);
        put_raw(o, h.pending.at, 64);
        for (int i = 0; i < STATE; i++) put(o, h.state[i], 8);
        put_bytes(o, c.out.at, c.out.len);
        give_back(c.out);
        free(c.masks);
    }
    give_back(h.pending);
}

static void one_shot(struct in body, struct out *o)
{
    uint32_t slot = slot_of(&body);
    size_t len = number(&body, 4);
    const uint8_t *bytes = take(&body, len);
    size_t masks_len = number(&body, 4);
    uint32_t *masks = words_of(&body, masks_len);
    uint64_t answer[4] = { 99, 99, 99, 99 };
    struct lent digest = lend(20, 0xA5);
    uint32_t refusal = purserumble_one_shot(bytes, len, digest.at, 20, TABLE_OF(slot), masks, masks_len, answer, 4);
    call_answer(o, refusal, answer);
    put_raw(o, digest.at, 20);
    give_back(digest);
    free(masks);
}

/* What is wrong with a table, or with conditions. */
static void check(int kind, struct in body, struct out *o)
{
    uint32_t slot = slot_of(&body);
    uint64_t answer[2] = { 99, 99 };
    uint32_t refusal = kind == TABLE_CHECK ? purserumble_table_fault(TABLE_OF(slot), answer, 2)
        : purserumble_condition_fault(TABLE_OF(slot), answer, 2);
    put(o, 1, 1);
    put(o, refusal, 4);
    put(o, answer[1], 8);
}

static void lookup(struct in body, struct out *o)
{
    size_t sheet_len = number(&body, 4);
    const uint8_t *sheet = take(&body, sheet_len);
    size_t code_len = number(&body, 4);
    const uint8_t *code = take(&body, code_len);
    uint64_t part[2] = { 99, 99 };
    uint32_t refusal = purserumble_lookup(sheet, sheet_len, code, code_len, part, 2);
    put(o, 1, 1);
    put(o, refusal, 4);
    put(o, part[0], 8);
    put(o, part[1], 8);
    if (part[0] > sheet_len || part[1] > sheet_len - part[0]) stop("a looked-up part lies outside its sheet");
    put_raw(o, sheet + part[0], part[1]);
}

static void compare(struct in body, struct out *o)
{
    size_t sheet_len = number(&body, 4);
    const uint8_t *sheet = take(&body, sheet_len);
    size_t code_len = number(&body, 4);
    const uint8_t *code = take(&body, code_len);
    uint32_t verdict = number(&body, 4);
    const uint8_t *digest = take(&body, 20);
    uint64_t answer[2] = { 99, 99 };
    uint32_t refusal = purserumble_compare(sheet, sheet_len, code, code_len, verdict, digest, 20, answer, 2);
    put(o, 1, 1);
    put(o, refusal, 4);
    put(o, answer[0], 8);
}

int main(int argc, char **argv)
{
    if (argc != 3) stop("usage: proved REQUESTS ANSWERS");
    struct in file = whole_file(argv[1]), body;
    FILE *f = fopen(argv[2], "wb");
    if (!f) stop("cannot write the answers");
    struct out o = { NULL, 0, 0 };
    for (int kind; (kind = record(&file, &body)) != 0;) {
        if (kind == TABLE) { set_table(body); continue; }
        if (kind == ONE_BLOCK) one_block(body, &o);
        else if (kind == SESSION) session(body, &o);
        else if (kind == ONE_SHOT) one_shot(body, &o);
        else if (kind == TABLE_CHECK || kind == CONDITION_CHECK) check(kind, body, &o);
        else if (kind == LOOKUP) lookup(body, &o);
        else if (kind == COMPARE) compare(body, &o);
        else stop("no such request");
        write_record(f, kind, &o);
    }
    if (fclose(f)) stop("cannot write the answers");
    return 0;
}
