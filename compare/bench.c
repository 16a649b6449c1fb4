/* Plays a file with calls on a bench (bench_lines has what its lines are) by the calls of purserumble.h on single hashers, and
 * writes what bench_run must write of them. Linked with second/second.c it is the second program's side; linked with the
 * static library it shows that a lane answers as the hasher alone.
 *
 *   bench CALLS
 */
#include "format.h"
#include "../include/purserumble.h"

enum { SEATS = 17, MOST_LANES = 16, TABLE_WORDS = 33 * 82, CONDITION_WORDS = 6 * 514, ROOM = 24, MOST_FIELDS = 10 };

static struct purserumble_hasher row[SEATS];
static uint64_t lent = MOST_LANES;

/* ---- The fields of a line ---- */

struct line { char *field[MOST_FIELDS]; int fields; };

static struct line line_of(char *text)
{
    struct line l = { { NULL }, 0 };
    for (char *at = strtok(text, " \n"); at && l.fields < MOST_FIELDS; at = strtok(NULL, " \n")) l.field[l.fields++] = at;
    return l;
}

static char *field(const struct line *l, int i)
{
    if (i >= l->fields) stop("a field is missing");
    return l->field[i];
}

static uint64_t number_in(const struct line *l, int i) { return strtoull(field(l, i), NULL, 10); }

static uint64_t seat_in(const struct line *l)
{
    uint64_t seat = number_in(l, 1);
    if (seat >= SEATS) stop("no such seat");
    return seat;
}

/* The bytes of a field in hex; a dash is none. */
static size_t bytes_in(const struct line *l, int i, uint8_t *bytes, size_t most)
{
    const char *hex = field(l, i);
    size_t n = strcmp(hex, "-") == 0 ? 0 : strlen(hex) / 2;
    if (n > most) stop("a field is too long");
    for (size_t k = 0; k < n; k++) {
        unsigned b;
        if (sscanf(hex + 2 * k, "%2x", &b) != 1) stop("no hex digits");
        bytes[k] = b;
    }
    return n;
}

static size_t words_in(const struct line *l, int i, uint32_t *words, size_t most)
{
    static uint8_t bytes[4 * CONDITION_WORDS];
    size_t n = bytes_in(l, i, bytes, sizeof bytes) / 4;
    if (n > most) stop("a field has too many words");
    for (size_t k = 0; k < n; k++)
        words[k] = (uint32_t)bytes[4 * k] << 24 | bytes[4 * k + 1] << 16 | bytes[4 * k + 2] << 8 | bytes[4 * k + 3];
    return n;
}

/* ---- What is lent ---- */

struct borrowed { uint32_t table[TABLE_WORDS], masks[64], conditions[CONDITION_WORDS]; };

/* The first words of 33 control records, each with its place as its mask number, of which two words are changed; the masks; and the
 * conditions. */
static struct purserumble_loan loan_of(const struct line *l, struct borrowed *b)
{
    for (size_t i = 0; i < TABLE_WORDS; i++) b->table[i] = i % 82 == 0 ? i / 82 : i % 82 == 1 ? 58 : 0;
    for (int i = 2; i <= 4; i += 2) {
        if (number_in(l, i) >= TABLE_WORDS) stop("no such word of the table");
        b->table[number_in(l, i)] = number_in(l, i + 1);
    }
    uint64_t words = number_in(l, 6);
    struct purserumble_loan loan = { .table = b->table, .table_words = words < TABLE_WORDS ? words : TABLE_WORDS,
        .masks = b->masks, .mask_count = words_in(l, 7, b->masks, 64),
        .conditions = b->conditions, .condition_words = words_in(l, 9, b->conditions, CONDITION_WORDS) };
    return loan;
}

/* The hasher on a lane, or none where the lane is past the end or the bench has not 1 to 16 hashers. */
static struct purserumble_hasher *lane_of(const struct line *l)
{
    if (lent < 1 || lent > MOST_LANES) return NULL;
    return number_in(l, 1) < lent ? &row[number_in(l, 1)] : NULL;
}

/* ---- What is written ---- */

static void write_bytes(const uint8_t *bytes, size_t n)
{
    for (size_t i = 0; i < n; i++) printf("%02x", bytes[i]);
}

static void write_switch(const char *name, bool on) { printf("%s %s", name, on ? "on" : "off"); }

static void write_first(uint64_t block, uint64_t place)
{
    printf("first block %llu, place %llu", (unsigned long long)block, (unsigned long long)place);
}

static void write_row(void)
{
    for (int i = 0; i < SEATS; i++) {
        const struct purserumble_hasher *h = &row[i];
        printf("hasher %d: ", i);
        for (int k = 0; k < 5; k++) printf("%08x ", (unsigned)h->words[k]);
        write_bytes(h->pending, 64);
        printf(" fill %llu, blocks %llu", (unsigned long long)h->state[0], (unsigned long long)h->state[1]);
        write_switch(", mark", h->state[2]);
        printf(", ");
        write_first(h->state[4], h->state[5]);
        write_switch(", detection", h->state[3] & PURSERUMBLE_DETECT);
        write_switch(", mitigation", h->state[3] & PURSERUMBLE_MITIGATE);
        if (h->state[3] & PURSERUMBLE_CONDITIONS) printf(", conditions");
        else write_switch(", masks", h->state[3] & PURSERUMBLE_MASKS_LENT);
        write_switch(", reduced rounds", h->state[3] & PURSERUMBLE_REDUCED);
        printf("\n");
    }
}

static void write_done(const char *name, const struct line *l, uint32_t refusal, uint64_t place)
{
    printf("%s %s: ", name, field(l, 1));
    if (refusal) printf("refused %u at %llu", (unsigned)refusal, (unsigned long long)place);
}

/* ---- The calls ---- */

static void update(const struct line *l)
{
    static uint8_t bytes[16384];
    struct borrowed b;
    struct purserumble_loan loan = loan_of(l, &b);
    size_t n = bytes_in(l, 8, bytes, sizeof bytes);
    struct purserumble_hasher *h = lane_of(l);
    uint64_t answer[2] = { 0, 0 };
    uint32_t refusal = h ? purserumble_hasher_update(h, bytes, n, &loan, answer) : 10;
    write_done("update", l, refusal, answer[1]);
    printf(refusal ? "\n" : "accepted\n");
}

static void finish(const struct line *l)
{
    static const char *verdicts[] = { "none", "ok", "mitigated", "collision" };
    struct borrowed b;
    struct purserumble_loan loan = loan_of(l, &b);
    struct purserumble_hasher *h = lane_of(l);
    uint8_t out[ROOM];
    uint64_t answer[4] = { 0, 0, 0, 0 };
    memset(out, 0xAA, ROOM);
    if (number_in(l, 8) > ROOM) stop("an output too long");
    uint32_t refusal = h ? purserumble_finish_and_reset(h->words, 5, h->pending, 64, h->state, 6, out, number_in(l, 8),
        loan.table, loan.table_words, loan.conditions, loan.condition_words, loan.masks, loan.mask_count, answer, 4) : 10;
    write_done("finish", l, refusal, answer[1]);
    if (!refusal) printf("%s", verdicts[answer[0] & 3]);
    printf(" ");
    write_bytes(out, ROOM);
    printf(", ");
    write_first(answer[2], answer[3]);
    printf("\n");
}

static void reset(const struct line *l)
{
    struct purserumble_hasher *h = lane_of(l);
    uint32_t refusal = h ? purserumble_hasher_reset(h) : 10;
    write_done("reset", l, refusal, 0);
    printf(refusal ? "\n" : "accepted\n");
}

/* A hasher of the fields that the line gives. */
static void seat_given(const struct line *l)
{
    struct purserumble_hasher *h = &row[seat_in(l)];
    memset(h, 0, sizeof *h);
    h->state[0] = number_in(l, 3);
    h->state[1] = number_in(l, 4);
    h->state[2] = number_in(l, 5);
    h->state[3] = number_in(l, 2);
    h->state[4] = number_in(l, 8);
    h->state[5] = number_in(l, 9);
    if (words_in(l, 6, h->words, 5) != 5) stop("not five words");
    bytes_in(l, 7, h->pending, 64);
}

static void play(char *text)
{
    if (*text == '#') return;
    if (*text == '=') { printf("%s", text + 2); return; }
    struct line l = line_of(text);
    if (l.fields == 0) return;
    switch (*l.field[0]) {
    case 'b': lent = number_in(&l, 1); break;
    case 'n': purserumble_hasher_new(&row[seat_in(&l)], number_in(&l, 2)); break;
    case 'i': seat_given(&l); break;
    case 'u': update(&l); break;
    case 'f': finish(&l); break;
    case 'r': reset(&l); break;
    case 's': write_row(); break;
    default: stop("no such line");
    }
}

int main(int argc, char **argv)
{
    static char text[65536];
    FILE *f = argc == 2 ? fopen(argv[1], "r") : NULL;
    if (!f) stop("usage: bench CALLS");
    for (int i = 0; i < SEATS; i++) purserumble_hasher_new(&row[i], PURSERUMBLE_DETECT | PURSERUMBLE_MITIGATE | PURSERUMBLE_MASKS_LENT);
    while (fgets(text, sizeof text, f)) play(text);
    fclose(f);
    return fflush(stdout) ? 1 : 0;
}
