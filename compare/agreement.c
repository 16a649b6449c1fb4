/* Breaks the agreement of purserumble.h in each way, one at a time: a call must return 255 and change no byte. Kept, it must
 * not return 255; where it is refused, it must write its answer alone. Linked with the static library it asks the proved
 * code, linked with second/second.c the second program.
 */
#include "../include/purserumble.h"
#include <stdio.h>
#include <string.h>

/* Everything that a call is lent, and the lengths that it is told. Memory is there for one element more. */
static struct lent {
    uint32_t words[6], after[6], table[164], conditions[12], mask[1], verdict;
    uint64_t flags, state[7], answer[5];
    uint8_t pending[65], bytes[1], digest[21], block[64], sheet[32], code[12];
    size_t five, five_after, sixty_four, six, twenty, two, four, table_words, condition_words, byte_count, mask_count;
} m;

static void fresh(void)
{
    memset(&m, 0, sizeof m);
    m.table[1] = m.table[83] = 58; /* the control record, and a second one of the same mask number, which is lent to some calls */
    m.table_words = 82;
    m.state[3] = 1;
    m.verdict = 1;
    m.five = m.five_after = 5;
    m.sixty_four = 64;
    m.six = 6;
    m.twenty = 20;
    m.two = 2;
    m.four = 4;
    m.condition_words = 12; /* two conditions that hold and drop nothing */
    m.byte_count = 64; /* a whole block, so that an update looks at all that it is lent */
}

#define HASHER m.words, m.five, m.pending, m.sixty_four, m.state, m.six
#define TABLE m.table, m.table_words
#define CONDITIONS m.conditions, m.condition_words
#define NO_MASKS m.mask, 0
#define ANSWER m.answer, m.two
#define LONG_ANSWER m.answer, m.four

static uint32_t one_block(void)
{
    return purserumble_one_block(m.words, m.five, m.block, 64, TABLE, 1, 1, 0, m.after, m.five_after, LONG_ANSWER);
}
static uint32_t new_hasher(void) { return purserumble_new(m.flags, HASHER); }
static uint32_t update(void)
{
    return purserumble_update(HASHER, m.block, m.byte_count, TABLE, CONDITIONS, m.mask, m.mask_count, ANSWER);
}
static uint32_t reset(void) { return purserumble_reset(HASHER, ANSWER); }
static uint32_t finish(void) { return purserumble_finish(HASHER, m.digest, m.twenty, TABLE, CONDITIONS, NO_MASKS, LONG_ANSWER); }
static uint32_t finish_and_reset(void)
{
    return purserumble_finish_and_reset(HASHER, m.digest, m.twenty, TABLE, CONDITIONS, NO_MASKS, LONG_ANSWER);
}
static uint32_t one_shot(void) { return purserumble_one_shot(m.bytes, 1, m.digest, m.twenty, TABLE, m.mask, 1, LONG_ANSWER); }
static uint32_t table_fault(void) { return purserumble_table_fault(TABLE, ANSWER); }
static uint32_t condition_fault(void) { return purserumble_condition_fault(CONDITIONS, ANSWER); }
static uint32_t lookup(void) { return purserumble_lookup(m.sheet, 32, m.code, 12, ANSWER); }
static uint32_t compare(void)
{
    return purserumble_compare(m.sheet, 32, m.code, 12, m.verdict, m.digest, m.twenty, ANSWER);
}

/* Whether the call's answer is four numbers, of which the last two are the first mark's. */
static int finishes(uint32_t (*call)(void)) { return call == finish || call == finish_and_reset || call == one_shot; }

static long tried, wrong;

/* Whether a number stands for flags. */
static int known(uint64_t flags)
{
    const uint64_t both = PURSERUMBLE_MASKS_LENT | PURSERUMBLE_CONDITIONS;
    return flags < 32 && (flags & both) != both;
}

/* One call after one change; the change alone is there afterwards. */
static void broken(const char *name, uint32_t (*call)(void))
{
    struct lent before = m;
    uint32_t said = call();
    tried++;
    if (said == 255 && memcmp(&before, &m, sizeof m) == 0) return;
    wrong++;
    printf("  %s said %u where the agreement was broken%s\n", name, said, said == 255 ? ", and wrote" : "");
}

static void lengths(const char *name, uint32_t (*call)(void), size_t *length)
{
    fresh();
    for (size_t right = *length, n = 0; n <= right + 1; n++) {
        *length = n;
        if (n != right) broken(name, call);
    }
}

static void kept(const char *name, uint32_t (*call)(void))
{
    fresh();
    uint32_t said = call();
    tried++;
    if (said == 0) return;
    wrong++;
    printf("  %s said %u where it was kept\n", name, said);
}

/* One call after one change that it refuses by this number. */
static void refused(const char *name, uint32_t (*call)(void), uint32_t number)
{
    struct lent before = m;
    memset(m.answer, 0xA5, sizeof m.answer);
    uint32_t said = call();
    size_t numbers = call == one_block || finishes(call) ? 4 : 2;
    int amiss = finishes(call) && (m.answer[0] || m.answer[2] || m.answer[3]);
    for (size_t i = 0; i < 5; i++)
        if ((m.answer[i] == 0xA5A5A5A5A5A5A5A5) == (i < numbers)) amiss = 1;
    memcpy(m.answer, before.answer, sizeof m.answer);
    tried++;
    if (said == number && !amiss && memcmp(&before, &m, sizeof m) == 0) return;
    wrong++;
    printf("  %s said %u where it had to refuse by %u%s\n", name, said, number, said == number ? ", and did not write its answer alone" : "");
}

/* Outputs filled beforehand, so that zeros written there show. */
static void filled(void)
{
    fresh();
    memset(m.after, 0xA5, sizeof m.after);
    memset(m.digest, 0xA5, sizeof m.digest);
}

/* An output of another size: 8, but 1 where the hasher is not well formed. */
static void sizes(const char *name, uint32_t (*call)(void))
{
    for (size_t n = 0; n <= 21; n++) {
        if (n == 20) continue;
        for (int formed = 0; formed < 2; formed++) {
            filled();
            m.twenty = n;
            m.state[0] = formed ? 0 : 64;
            m.table[0] = 32;
            refused(name, call, formed ? 8 : 1);
        }
    }
}

/* A new hasher, of all flags, over memory that holds something else. */
static void beginnings(void)
{
    static const uint32_t start[5] = { 0x67452301, 0xefcdab89, 0x98badcfe, 0x10325476, 0xc3d2e1f0 };
    kept("new", new_hasher);
    lengths("new", new_hasher, &m.five);
    lengths("new", new_hasher, &m.sixty_four);
    lengths("new", new_hasher, &m.six);
    for (int bit = 5; bit < 64; bit++) {
        fresh();
        m.flags = (uint64_t)1 << bit;
        broken("new", new_hasher);
    }
    for (uint64_t flags = 0; flags < 32; flags++) {
        struct lent want;
        fresh();
        m.flags = flags;
        if (!known(flags)) {
            broken("new", new_hasher);
            continue;
        }
        want = m;
        memcpy(want.words, start, sizeof start);
        want.state[3] = flags;
        memset(m.words, 0xA5, 20);
        memset(m.pending, 0xA5, 64);
        memset(m.state, 0xA5, 48);
        tried++;
        if (new_hasher() == 0 && memcmp(&want, &m, sizeof m) == 0) continue;
        wrong++;
        printf("  new did not begin with the flags %d\n", (int)flags);
    }
}

/* The calls that look at a table. */
enum { LOOKING = 6 };
static const struct { const char *name; uint32_t (*call)(void); int hasher; } looking[LOOKING] = {
    { "one_block", one_block, 0 }, { "update", update, 1 }, { "finish", finish, 1 },
    { "finish_and_reset", finish_and_reset, 1 }, { "one_shot", one_shot, 0 }, { "table_fault", table_fault, 0 } };

static void refusals(void)
{
    for (size_t i = 0; i < LOOKING; i++) {
        filled();
        m.table[0] = 32;
        refused(looking[i].name, looking[i].call, 3);
        filled();
        m.state[0] = 64;
        if (looking[i].hasher) refused(looking[i].name, looking[i].call, 1);
    }
    filled();
    m.state[0] = 64;
    refused("reset", reset, 1);
    sizes("finish", finish);
    sizes("finish_and_reset", finish_and_reset);
}

static void hasher(const char *name, uint32_t (*call)(void))
{
    lengths(name, call, &m.five);
    lengths(name, call, &m.sixty_four);
    lengths(name, call, &m.six);
    for (int bit = 0; bit < 64; bit++) {
        fresh();
        m.state[2] = bit ? (uint64_t)1 << bit : 3;
        broken(name, call);
        fresh();
        m.state[3] |= (uint64_t)1 << bit;
        if (bit > 4) broken(name, call);
    }
    for (uint64_t flags = 0; flags < 32; flags++) {
        fresh();
        m.state[3] = flags;
        if (!known(flags)) broken(name, call);
    }
}

static void expect(const char *name, uint64_t said, uint64_t wanted)
{
    tried++;
    if (said == wanted) return;
    wrong++;
    printf("  %s gave %d, not %d\n", name, (int)said, (int)wanted);
}

/* Two control records of one mask number are refused by 11 with the place of the second, two of different numbers are not. */
static void repeated(void)
{
    for (size_t i = 0; i < LOOKING; i++)
        for (uint32_t number = 0; number < 32; number++) {
            filled();
            m.table_words = 164;
            m.table[0] = m.table[82] = number;
            refused(looking[i].name, looking[i].call, 11);
            looking[i].call();
            expect("the place of the one that repeats", m.answer[looking[i].call == one_block ? 3 : 1], 1);
            m.table[82] = number ^ 1;
            expect(looking[i].name, looking[i].call(), 0);
        }
}

/* One call on conditions of which the second is bad in its word n, or which are so many words: the number and the place. */
static void conditioned(const char *name, uint32_t (*call)(void), uint64_t flags, size_t n, uint32_t word, size_t words, uint32_t number)
{
    filled();
    m.state[3] = flags;
    m.conditions[6 + n] = word;
    m.condition_words = words;
    m.table[0] = 32;
    refused(name, call, number);
    call();
    expect("the place of what is wrong with conditions", m.answer[1], number == 13);
}

/* Conditions are refused where they are looked at, before the table, and nowhere else. */
static void conditions(void)
{
    static const struct { const char *name; uint32_t (*call)(void); } calls[] = {
        { "update", update }, { "finish", finish }, { "finish_and_reset", finish_and_reset }, { "condition_fault", condition_fault } };
    static const uint32_t bad[5] = { 80, 32, 80, 32, 2 };
    for (size_t i = 0; i < sizeof calls / sizeof *calls; i++) {
        const int hashes = calls[i].call != condition_fault;
        for (size_t n = 0; n < 5; n++) {
            conditioned(calls[i].name, calls[i].call, 17, n, bad[n], 12, 13);
            conditioned(calls[i].name, calls[i].call, 17, n, bad[n], 11, 12);
            if (hashes) conditioned(calls[i].name, calls[i].call, 17, n, bad[n] - 1, 12, 3);
            if (hashes) conditioned(calls[i].name, calls[i].call, 1, n, bad[n], 11, 3);
        }
        fresh();
        m.state[3] = 16;
        m.condition_words = hashes ? 11 : 12;
        m.table[0] = hashes ? 32 : 0;
        expect(calls[i].name, calls[i].call(), 0);
    }
}

/* An update that fills no block is refused neither by its table nor by its conditions, but by a mask where masks are lent; one byte
 * more, and it is refused by them. */
static void short_updates(void)
{
    static const struct { uint64_t flags; uint32_t number; } settings[] = { { 1, 3 }, { 5, 3 }, { 17, 12 }, { 1, 11 } };
    for (size_t i = 0; i < 4; i++)
        for (size_t fill = 0; fill < 64; fill++) {
            const int lent = settings[i].flags == 5;
            filled();
            m.state[0] = fill;
            m.state[3] = settings[i].flags;
            if (settings[i].number == 11) m.table_words = 164;
            else m.table[0] = 32;
            m.condition_words = 11;
            m.byte_count = 63 - fill;
            m.mask_count = 1;
            if (lent) refused("update of no block", update, 6);
            m.mask_count = 0;
            expect("update of no block", update(), 0);
            expect("the fill after it", m.state[0], 63);
            m.byte_count = 1;
            if (lent) refused("update of a block", update, 6);
            m.mask_count = lent;
            refused("update of a block", update, settings[i].number);
        }
}

/* A sheet of one record, of zeros: each verdict with its digest, with another, and with another barcode. */
static void answers(void)
{
    static const struct { uint32_t verdict; int digest, code; uint64_t answer; } cases[] = {
        { PURSERUMBLE_OK, 0, 0, PURSERUMBLE_MATCH }, { PURSERUMBLE_OK, 1, 0, PURSERUMBLE_DIFFERS },
        { PURSERUMBLE_MITIGATED, 0, 0, PURSERUMBLE_MARKED }, { PURSERUMBLE_MITIGATED, 1, 0, PURSERUMBLE_MARKED },
        { PURSERUMBLE_COLLISION, 0, 0, PURSERUMBLE_MARKED }, { PURSERUMBLE_COLLISION, 1, 0, PURSERUMBLE_MARKED },
        { PURSERUMBLE_OK, 0, 1, PURSERUMBLE_ABSENT }, { PURSERUMBLE_MITIGATED, 0, 1, PURSERUMBLE_ABSENT },
        { PURSERUMBLE_COLLISION, 0, 1, PURSERUMBLE_ABSENT } };
    for (size_t i = 0; i < sizeof cases / sizeof *cases; i++) {
        fresh();
        m.verdict = cases[i].verdict;
        m.digest[19] = cases[i].digest;
        m.code[11] = cases[i].code;
        m.answer[1] = 9;
        expect("compare", compare(), 0);
        expect("compare's answer", m.answer[0], cases[i].answer);
        expect("compare's second number", m.answer[1], 0);
    }
}

/* The functions over structs, with null for what is empty. */
static void structs(void)
{
    static const uint8_t of_nothing[20] = { 0xda, 0x39, 0xa3, 0xee, 0x5e, 0x6b, 0x4b, 0x0d, 0x32, 0x55,
        0xbf, 0xef, 0x95, 0x60, 0x18, 0x90, 0xaf, 0xd8, 0x07, 0x09 };
    const struct purserumble_loan loan = { m.table, 82, NULL, 0, NULL, 0 };
    const struct purserumble_loan short_of_one = { m.table, 82, NULL, 0, m.conditions, 5 };
    struct purserumble_hasher h;
    fresh();
    expect("hasher_new", purserumble_hasher_new(&h, 32), 255);
    expect("hasher_new", purserumble_hasher_new(&h, 0), 0);
    expect("hasher_update", purserumble_hasher_update(&h, NULL, 0, NULL, m.answer), 0);
    expect("hasher_finish", purserumble_hasher_finish(&h, m.digest, NULL, m.answer), 0);
    expect("hasher_finish's verdict", m.answer[0], PURSERUMBLE_OK);
    expect("hasher_finish's digest", memcmp(m.digest, of_nothing, 20) != 0, 0);
    expect("hasher_update", purserumble_hasher_update(&h, "x", 1, NULL, m.answer), 0);
    expect("hasher_finish_and_reset", purserumble_hasher_finish_and_reset(&h, m.digest, NULL, m.answer), 0);
    expect("hasher_finish_and_reset's digest", memcmp(m.digest, of_nothing, 20) != 0, 1);
    expect("hasher_reset", purserumble_hasher_reset(&h), 0);
    expect("hasher_new", purserumble_hasher_new(&h, PURSERUMBLE_DETECT), 0);
    expect("hasher_update", purserumble_hasher_update(&h, "x", 1, NULL, m.answer), 0);
    expect("hasher_update", purserumble_hasher_update(&h, m.block, 63, NULL, m.answer), 2);
    expect("hasher_finish", purserumble_hasher_finish(&h, m.digest, NULL, m.answer), 2);
    expect("message_digest", purserumble_message_digest(NULL, 0, m.digest, &loan, m.answer), 6);
    expect("block_words", purserumble_block_words(h.words, m.block, NULL, 1, 1, 0, m.after, m.answer), 2);
    expect("block_words", purserumble_block_words(h.words, m.block, &loan, 1, 1, 0, m.after, m.answer), 0);
    expect("block_words's mark", m.answer[0], 1);
    expect("loan_fault", purserumble_loan_fault(NULL, m.answer), 2);
    expect("loan_fault", purserumble_loan_fault(&loan, m.answer), 0);
    expect("loan_condition_fault", purserumble_loan_condition_fault(NULL, m.answer), 0);
    expect("loan_condition_fault", purserumble_loan_condition_fault(&short_of_one, m.answer), 12);
    expect("sheet_lookup", purserumble_sheet_lookup(NULL, 0, NULL, 0, m.answer), 8);
    expect("sheet_lookup", purserumble_sheet_lookup(m.sheet, 32, m.code, 12, m.answer), 0);
    expect("sheet_lookup's offset", m.answer[0], 12);
    expect("sheet_compare", purserumble_sheet_compare(NULL, 0, m.code, 12, PURSERUMBLE_OK, m.digest, m.answer), 0);
    expect("sheet_compare's answer", m.answer[0], PURSERUMBLE_ABSENT);
    expect("sheet_compare", purserumble_sheet_compare(m.sheet, 32, m.code, 12, PURSERUMBLE_COLLISION, m.digest, m.answer), 0);
    expect("sheet_compare's answer", m.answer[0], PURSERUMBLE_MARKED);
}

/* The control record, kept and dropped by a condition on one bit and itself; with no conditions it is kept. */
static void selected(void)
{
    static const struct { uint32_t wanted; size_t words; uint64_t verdict; } cases[] = {
        { 0, 6, PURSERUMBLE_MITIGATED }, { 1, 6, PURSERUMBLE_OK }, { 1, 0, PURSERUMBLE_MITIGATED } };
    for (size_t i = 0; i < sizeof cases / sizeof *cases; i++) {
        const struct purserumble_loan loan = { m.table, 82, NULL, 0, m.conditions, cases[i].words };
        struct purserumble_hasher h;
        fresh();
        m.conditions[4] = cases[i].wanted;
        m.conditions[5] = 1;
        purserumble_hasher_new(&h, PURSERUMBLE_DETECT | PURSERUMBLE_MITIGATE | PURSERUMBLE_CONDITIONS);
        expect("hasher_update", purserumble_hasher_update(&h, m.block, 64, &loan, m.answer), 0);
        expect("the mark after a block", h.state[2], cases[i].verdict != PURSERUMBLE_OK);
        expect("hasher_finish", purserumble_hasher_finish(&h, m.digest, &loan, m.answer), 0);
        expect("hasher_finish's verdict", m.answer[0], cases[i].verdict);
        expect("hasher_reset", purserumble_hasher_reset(&h), 0);
        expect("hasher_finish_and_reset", purserumble_hasher_finish_and_reset(&h, m.digest, &loan, m.answer), 0);
        expect("hasher_finish_and_reset's verdict", m.answer[0], cases[i].verdict);
    }
}

/* First marks that fit their mark and their blocks, and of each kind that does not: 1, and never 255. */
static void unfit(void)
{
    static const struct { const char *name; uint32_t (*call)(void); } calls[] = {
        { "update", update }, { "reset", reset }, { "finish", finish }, { "finish_and_reset", finish_and_reset } };
    static const struct { uint64_t blocks, mark, flags, block, place; uint32_t number; } cases[] = {
        { 0, 0, 1, 1, 0, 1 }, { 0, 0, 1, 0, 1, 1 }, { 2, 0, 1, 1, 0, 1 }, { 2, 0, 0, 0, 1, 1 }, { 2, 0, 1, UINT64_MAX, 0, 1 },
        { 0, 1, 1, 0, 0, 1 }, { 1, 1, 1, 1, 0, 1 }, { 2, 1, 1, 2, 0, 1 }, { 2, 1, 1, 3, 0, 1 }, { 2, 1, 1, UINT64_MAX, 0, 1 },
        { 2, 1, 1, 1, 32, 1 }, { 2, 1, 1, 0, (uint64_t)1 << 32, 1 }, { 2, 1, 1, 0, UINT64_MAX, 1 }, { 2, 1, 0, 0, 0, 1 },
        { 2, 0, 1, 0, 0, 0 }, { 1, 1, 1, 0, 0, 0 }, { 2, 1, 1, 1, 31, 0 }, { 2, 1, 1, 0, 31, 0 } };
    for (size_t i = 0; i < sizeof calls / sizeof *calls; i++)
        for (size_t n = 0; n < sizeof cases / sizeof *cases; n++) {
            const uint64_t state[6] = { 0, cases[n].blocks, cases[n].mark, cases[n].flags, cases[n].block, cases[n].place };
            filled();
            memcpy(m.state, state, sizeof state);
            if (cases[n].number) refused(calls[i].name, calls[i].call, cases[n].number);
            else expect(calls[i].name, calls[i].call(), 0);
        }
}

/* Two control records, of the bits 0 and 1, and a message of so many blocks and bytes, each with the mask that is lent for it: what
 * the first update and a finish say of the first mark. */
static void first_marks(void)
{
    static const uint32_t table[164] = { [1] = 58, [82] = 1, [83] = 58 };
    static const uint8_t message[192];
    static const struct { size_t bytes, taken; uint32_t masks[4]; uint64_t marked, block, place, last_block, last_place; } cases[] = {
        { 64, 1, { 1, 0 }, 1, 0, 0, 0, 0 }, { 64, 1, { 2, 1 }, 1, 0, 1, 0, 1 }, { 64, 1, { 3, 2 }, 1, 0, 0, 0, 0 },
        { 64, 1, { 0, 2 }, 0, 0, 0, 1, 1 }, { 192, 3, { 0, 2, 1, 1 }, 1, 1, 1, 1, 1 }, { 192, 3, { 0, 0, 1, 2 }, 1, 2, 0, 2, 0 },
        { 60, 0, { 2, 1 }, 0, 0, 0, 0, 1 }, { 60, 0, { 0, 2 }, 0, 0, 0, 1, 1 }, { 188, 2, { 0, 0, 0, 3 }, 0, 0, 0, 3, 0 } };
    for (size_t i = 0; i < sizeof cases / sizeof *cases; i++) {
        const size_t taken = cases[i].taken, all = (cases[i].bytes + 8) / 64 + 1;
        const struct purserumble_loan first = { table, 164, cases[i].masks, taken, NULL, 0 };
        const struct purserumble_loan last = { table, 164, cases[i].masks + taken, all - taken, NULL, 0 };
        const struct purserumble_loan whole = { table, 164, cases[i].masks, all, NULL, 0 };
        struct purserumble_hasher h, before;
        uint64_t answer[4];
        purserumble_hasher_new(&h, PURSERUMBLE_DETECT | PURSERUMBLE_MITIGATE | PURSERUMBLE_MASKS_LENT);
        expect("hasher_update", purserumble_hasher_update(&h, message, cases[i].bytes, &first, answer), 0);
        expect("hasher_marked", purserumble_hasher_marked(&h), cases[i].marked);
        expect("hasher_first_block", purserumble_hasher_first_block(&h), cases[i].block);
        expect("hasher_first_place", purserumble_hasher_first_place(&h), cases[i].place);
        before = h;
        for (int form = 0; form < 3; form++) {
            memset(answer, 0xA5, sizeof answer);
            expect("a finish", form == 0 ? purserumble_hasher_finish(&h, m.digest, &last, answer)
                : form == 1 ? purserumble_message_digest(message, cases[i].bytes, m.digest, &whole, answer)
                : purserumble_hasher_finish_and_reset(&h, m.digest, &last, answer), 0);
            expect("the verdict", answer[PURSERUMBLE_ANSWER_VERDICT], PURSERUMBLE_MITIGATED);
            expect("the refused record", answer[PURSERUMBLE_ANSWER_REFUSED_PLACE], 0);
            expect("the first marked block", answer[PURSERUMBLE_ANSWER_FIRST_BLOCK], cases[i].last_block);
            expect("its vector's place", answer[PURSERUMBLE_ANSWER_FIRST_PLACE], cases[i].last_place);
            if (form < 2) expect("the hasher after a finish", memcmp(&before, &h, sizeof h) != 0, 0);
        }
        for (int form = 0; form < 2; form++) {
            expect("the mark after a reset", purserumble_hasher_marked(&h), 0);
            expect("the block after a reset", purserumble_hasher_first_block(&h), 0);
            expect("the place after a reset", purserumble_hasher_first_place(&h), 0);
            h = before;
            expect("hasher_reset", purserumble_hasher_reset(&h), 0);
        }
    }
}

int main(void)
{
    static const struct { const char *name; uint32_t (*call)(void); int hasher, digest, two; } calls[] = {
        { "one_block", one_block, 0, 0, 0 }, { "update", update, 1, 0, 1 }, { "reset", reset, 1, 0, 1 },
        { "finish", finish, 1, 0, 0 }, { "finish_and_reset", finish_and_reset, 1, 0, 0 }, { "one_shot", one_shot, 0, 1, 0 },
        { "table_fault", table_fault, 0, 0, 1 }, { "condition_fault", condition_fault, 0, 0, 1 },
        { "lookup", lookup, 0, 0, 1 }, { "compare", compare, 0, 1, 1 } };
    for (size_t i = 0; i < sizeof calls / sizeof *calls; i++) {
        kept(calls[i].name, calls[i].call);
        if (calls[i].hasher) hasher(calls[i].name, calls[i].call);
        if (calls[i].digest) lengths(calls[i].name, calls[i].call, &m.twenty);
        lengths(calls[i].name, calls[i].call, calls[i].two ? &m.two : &m.four);
    }
    lengths("one_block", one_block, &m.five);
    lengths("one_block", one_block, &m.five_after);
    for (uint32_t v = 4; v; v *= 2) { fresh(); m.verdict = v; broken("compare", compare); }
    fresh();
    m.verdict = 0;
    broken("compare", compare);
    refusals();
    repeated();
    beginnings();
    answers();
    structs();
    conditions();
    short_updates();
    selected();
    unfit();
    first_marks();
    printf("%ld comparisons, %ld differences\n", tried, wrong);
    return wrong != 0;
}
