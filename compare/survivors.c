/* Asks the calls of purserumble.h which vectors survive the crate's own conditions, for blocks from standard input, each with
 * the mask that the Rust's `ubc_check` has for it (oracle/masks.rs writes them). Linked with the static library it asks the
 * proved code, linked with second/second.c the second program.
 *
 *   survivors CONDITIONS COUNT
 *
 * No call gives a mask out. But a control record marks every block that it is tried with: with one of mask number n alone, a
 * block is marked exactly when vector n survives. The 32 together are asked first, as most blocks have no vector left.
 */
#include "format.h"
#include "../include/purserumble.h"
#include <inttypes.h>

enum { RECORD = 82, VECTORS = 32, SHOWN = 5 };

static uint32_t controls[VECTORS * RECORD], conditions[6 * 512];
static size_t conditions_len;

/* Whether one of some control records marks the block. */
static int marked(const uint8_t *block, const uint32_t *table, size_t records)
{
    struct purserumble_hasher h;
    const struct purserumble_loan loan = { .table = table, .table_words = RECORD * records,
        .conditions = conditions, .condition_words = conditions_len };
    uint64_t answer[2];
    if (purserumble_hasher_new(&h, PURSERUMBLE_DETECT | PURSERUMBLE_CONDITIONS)) stop("no hasher");
    if (purserumble_hasher_update(&h, block, 64, &loan, answer)) stop("an update was refused");
    return h.state[2] != 0;
}

static uint32_t surviving(const uint8_t *block)
{
    uint32_t mask = 0;
    if (!marked(block, controls, VECTORS)) return 0;
    for (int n = 0; n < VECTORS; n++) mask |= (uint32_t)marked(block, controls + RECORD * n, 1) << n;
    return mask;
}

int main(int argc, char **argv)
{
    if (argc != 3) stop("usage: survivors CONDITIONS COUNT");
    struct in in = whole_file(argv[1]);
    if (in.left > sizeof conditions) stop("too many conditions");
    while (in.left) conditions[conditions_len++] = number(&in, 4);
    for (int n = 0; n < VECTORS; n++) {
        controls[RECORD * n] = n;
        controls[RECORD * n + 1] = n % 2 ? 58 : 65;
    }
    uint64_t compared = 0, differ = 0, left = 0;
    uint8_t block[64 + 4];
    for (; fread(block, 1, sizeof block, stdin) == sizeof block; compared++) {
        struct in rest = { block + 64, 4 };
        uint32_t wanted = number(&rest, 4), said = surviving(block);
        left += wanted != 0;
        if (said == wanted) continue;
        if (differ++ < SHOWN) printf("  block %" PRIu64 ": %08x survives, not %08x\n", compared, (unsigned)said, (unsigned)wanted);
    }
    if (compared != strtoull(argv[2], NULL, 10)) stop("not so many blocks");
    printf("  %" PRIu64 " schedules, of which %" PRIu64 " leave a vector\n", compared, left);
    printf("%" PRIu64 " comparisons, %" PRIu64 " differences\n", compared, differ);
    return differ != 0;
}
