/* Compares two answer files of one request file, field by field.
 *
 *   differ TALLY NAME_A NAME_B REQUESTS ANSWERS_A ANSWERS_B    adds to the tally, shows the first differences
 *   differ TALLY NAME_A NAME_B                                 prints the tally
 *
 * A request that the oracle does not know is left out; every other side must know all. And where the Rust could not be asked (one block, session,
 * one-shot), the paper has a refusal: the other side must have refused, or it is a difference.
 * The last line of a print is `N comparisons, M differences`; the exit status of both forms is 0 only without a
 * difference.
 */
#include "format.h"
#include <inttypes.h>

/* What is counted. The rows of `seen` come from the side named last. */
enum { KINDS = 9, NUMBERS = 17, SHOWN = 5 };
static struct tally {
    uint64_t requests[KINDS], compared[KINDS], left_out[KINDS], differ[KINDS];
    uint64_t refused[KINDS][NUMBERS];
    uint64_t marked, marked_later, unmarked_tried, verdicts[3], found, absent, compares[4];
    uint64_t first_later, first_not_by_first, first_padding, second_padding;
} tally;

struct field { const char *name; int len; };

static const struct field block_fields[] = {
    { "refusal", 4 }, { "its place", 8 }, { "mark", 8 }, { "place", 8 }, { "tried", 8 }, { "words", 20 }, { 0, 0 } };
static const struct field call_fields[] = {
    { "refusal", 4 }, { "its place", 8 }, { "verdict", 8 }, { "first marked block", 8 }, { "its vector's place", 8 },
    { "words", 20 }, { "pending", 64 }, { "fill", 8 }, { "blocks", 8 }, { "mark", 8 }, { "flags", 8 },
    { "the hasher's first marked block", 8 }, { "the hasher's place of its vector", 8 }, { 0, 0 } };
static const struct field shot_fields[] = {
    { "refusal", 4 }, { "its place", 8 }, { "verdict", 8 }, { "first marked block", 8 }, { "its vector's place", 8 },
    { "digest", 20 }, { 0, 0 } };
static const struct field check_fields[] = { { "refusal", 4 }, { "its place", 8 }, { 0, 0 } };
static const struct field lookup_fields[] = { { "refusal", 4 }, { "offset", 8 }, { "length", 8 }, { 0, 0 } };
static const struct field compare_fields[] = { { "refusal", 4 }, { "answer", 8 }, { 0, 0 } };

static const char *kind_name[KINDS] = {
    "", "tables", "one-block answers", "calls in sessions", "one-shot answers", "table checks", "lookups", "compares",
    "condition checks" };
static const char *call_name[] = { "?", "update", "reset", "finish", "finish-and-reset" };

static const char *name_a, *name_b;

static void hex(const char *who, const uint8_t *p, size_t n)
{
    printf("    %-8s ", who);
    for (size_t i = 0; i < n; i++) printf("%02x", p[i]);
    printf("\n");
}

/* The answer to request n differs in a field. */
static struct in request;
static int shown;
static void show(uint64_t n, int kind, const char *call, const char *field, struct in a, struct in b)
{
    if (shown++ >= SHOWN) return;
    printf("  request %" PRIu64 " (%s%s%s) differs in %s\n", n, kind_name[kind], *call ? ", " : "", call, field);
    hex(name_a, a.at, a.left);
    hex(name_b, b.at, b.left);
    hex("request", request.at, request.left < 400 ? request.left : 400);
}

/* The first mark that a finish or a one-shot hands out. A finish leaves the hasher, so its count tells a padding block. */
static void see_first(int finish, struct in b)
{
    uint64_t block = number(&b, 8), place = number(&b, 8);
    tally.first_later += block != 0;
    tally.first_not_by_first += place != 0;
    if (!finish) return;
    take(&b, 20 + 64 + 8);
    uint64_t blocks = number(&b, 8);
    tally.first_padding += block == blocks;
    tally.second_padding += block == blocks + 1;
}

/* Counts what an answer says, so that a reader sees what the requests reached. */
static void see(int kind, int call, struct in b)
{
    uint32_t refusal = number(&b, 4);
    if (refusal) {
        tally.refused[kind][refusal < NUMBERS ? refusal : 0]++;
        return;
    }
    uint64_t first = number(&b, 8); /* the refusal's place, 0 here; a lookup's offset; a compare's answer */
    if (kind == ONE_BLOCK) {
        uint64_t mark = number(&b, 8), place = number(&b, 8), tried = number(&b, 8);
        tally.marked += mark != 0;
        tally.marked_later += mark && place;
        tally.unmarked_tried += !mark && tried;
    } else if (kind == ONE_SHOT || (kind == SESSION && call >= FINISH)) {
        uint64_t verdict = number(&b, 8);
        tally.verdicts[(verdict + 2) % 3]++; /* 1 to 3 */
        if (verdict != 1) see_first(call == FINISH, b);
    } else if (kind == LOOKUP) {
        number(&b, 8) ? tally.found++ : tally.absent++;
    } else if (kind == COMPARE) {
        tally.compares[(first + 3) % 4]++; /* 1 to 4 */
    }
}

/* One answer, or one call's answer within a session. */
static void one(uint64_t n, int kind, int call, const struct field *fields, int rest, struct in *a, struct in *b)
{
    const char *named = kind == SESSION ? call_name[call] : "";
    int known_a = number(a, 1), known_b = number(b, 1), differs = 0;
    struct in from_b = *b;
    if (known_b) see(kind, call, from_b);
    for (const struct field *f = fields; f->name; f++) {
        struct in x = { take(a, f->len), f->len }, y = { take(b, f->len), f->len };
        if (!known_a || !known_b || memcmp(x.at, y.at, f->len) == 0) continue;
        if (!differs) show(n, kind, named, f->name, x, y);
        differs = 1;
    }
    /* A session's output has its length before it; a lookup's part runs to the end. */
    struct in x = { a->at, a->left }, y = { b->at, b->left };
    if (rest) {
        if (kind == SESSION) {
            x.left = number(a, 4);
            y.left = number(b, 4);
        }
        x.at = take(a, x.left);
        y.at = take(b, y.left);
        if (known_a && known_b && (x.left != y.left || memcmp(x.at, y.at, x.left))) {
            if (!differs) show(n, kind, named, "lent output or part", x, y);
            differs = 1;
        }
    }
    if (known_a && known_b) {
        tally.compared[kind]++;
    } else {
        tally.left_out[kind]++;
        struct in none = { NULL, 0 };
        if (!known_b || (!known_a && strcmp(name_a, "oracle") != 0)) {
            show(n, kind, named, "being known", none, none);
            differs = 1;
        } else if (kind <= ONE_SHOT && number(&from_b, 4) == 0) {
            show(n, kind, named, "being refused: one side could not be asked, the other answers", none, none);
            differs = 1;
        }
    }
    tally.differ[kind] += differs;
}

/* The calls of a session, read from the request. */
static int next_call(struct in *body)
{
    int call = number(body, 1);
    if (call != RESET) {
        take(body, 8);
        if (call == UPDATE) take(body, number(body, 4));
        take(body, 4 * number(body, 4));
    }
    if (call == FINISH_AND_RESET) take(body, 5);
    return call;
}

static void add(const char *requests, const char *answers_a, const char *answers_b)
{
    struct in file = whole_file(requests), fa = whole_file(answers_a), fb = whole_file(answers_b), body, a, b;
    uint64_t n = 0;
    for (int kind; (kind = record(&file, &body)) != 0;) {
        if (kind == TABLE) continue;
        if (record(&fa, &a) != kind || record(&fb, &b) != kind) stop("an answer file is not for these requests");
        tally.requests[kind]++;
        request = body;
        if (kind == ONE_BLOCK) one(n, kind, 0, block_fields, 0, &a, &b);
        else if (kind == ONE_SHOT) one(n, kind, 0, shot_fields, 0, &a, &b);
        else if (kind == TABLE_CHECK || kind == CONDITION_CHECK) one(n, kind, 0, check_fields, 0, &a, &b);
        else if (kind == LOOKUP) one(n, kind, 0, lookup_fields, 1, &a, &b);
        else if (kind == COMPARE) one(n, kind, 0, compare_fields, 0, &a, &b);
        else {
            take(&body, HASHER_BYTES);
            while (body.left) one(n, kind, next_call(&body), call_fields, 1, &a, &b);
        }
        if (a.left || b.left) stop("an answer is too long");
        n++;
    }
    if (fa.left || fb.left) stop("an answer file has more answers than there are requests");
}

static void refusals(int kind)
{
    for (int i = 0; i < NUMBERS; i++)
        if (tally.refused[kind][i]) printf(" %d:%" PRIu64, i ? i : 255, tally.refused[kind][i]);
    printf("\n");
}

static uint64_t print(void)
{
    uint64_t compared = 0, differ = 0;
    printf("%s and %s\n", name_a, name_b);
    for (int k = ONE_BLOCK; k < KINDS; k++) {
        compared += tally.compared[k];
        differ += tally.differ[k];
        if (!tally.requests[k]) continue;
        printf("  %-18s %9" PRIu64 " compared, %8" PRIu64 " left out, %" PRIu64 " differ", kind_name[k],
            tally.compared[k], tally.left_out[k], tally.differ[k]);
        if (k == SESSION) printf("; sessions %" PRIu64, tally.requests[k]);
        printf("\n");
    }
    printf("  in %s's answers: blocks marked %" PRIu64 " (not by the first record %" PRIu64 "), tried and not marked %" PRIu64
        "\n    verdicts ok %" PRIu64 ", mitigated %" PRIu64 ", collision %" PRIu64 "; lookups found %" PRIu64 ", absent %" PRIu64
        "; compares match %" PRIu64 ", differs %" PRIu64 ", absent %" PRIu64 ", marked %" PRIu64 "\n"
        "    first marks not in block 0 %" PRIu64 ", not by the first record %" PRIu64 ", in a finish's first padding block %" PRIu64
        ", in its second %" PRIu64 "\n", name_b, tally.marked, tally.marked_later,
        tally.unmarked_tried, tally.verdicts[0], tally.verdicts[1], tally.verdicts[2], tally.found, tally.absent,
        tally.compares[0], tally.compares[1], tally.compares[2], tally.compares[3],
        tally.first_later, tally.first_not_by_first, tally.first_padding, tally.second_padding);
    for (int k = ONE_BLOCK; k < KINDS; k++) {
        if (!tally.requests[k]) continue;
        printf("    refused, %s:", kind_name[k]);
        refusals(k);
    }
    printf("%" PRIu64 " comparisons, %" PRIu64 " differences\n", compared, differ);
    return differ;
}

int main(int argc, char **argv)
{
    if (argc != 4 && argc != 7) stop("usage: differ TALLY NAME_A NAME_B [REQUESTS ANSWERS_A ANSWERS_B]");
    name_a = argv[2];
    name_b = argv[3];
    FILE *f = fopen(argv[1], "rb");
    if (f) {
        if (fread(&tally, sizeof tally, 1, f) != 1) stop("a bad tally");
        fclose(f);
    }
    if (argc == 4) return print() != 0;
    uint64_t before = 0, after = 0;
    for (int k = 0; k < KINDS; k++) before += tally.differ[k];
    add(argv[4], argv[5], argv[6]);
    for (int k = 0; k < KINDS; k++) after += tally.differ[k];
    f = fopen(argv[1], "wb");
    if (!f || fwrite(&tally, sizeof tally, 1, f) != 1 || fclose(f)) stop("cannot write the tally");
    return after != before;
}
