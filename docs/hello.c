/* A C program that uses the static library, and C++ as well: the digest of `hello world`, taken in two pieces, with the
 * control record lent and masks off, so that the one block is marked. */
#include "../include/purserumble.h"
#include <stdio.h>

int main(void)
{
    static const char *const verdicts[] = { "refused", "ok", "mitigated", "collision" };
    static const uint32_t table[82] = { 0, 58 };
    const struct purserumble_loan loan = { table, 82, NULL, 0, NULL, 0 };
    struct purserumble_hasher h;
    uint8_t digest[20] = { 0 };
    uint64_t answer[4] = { 0, 0, 0, 0 };
    uint32_t refusal = purserumble_hasher_new(&h, PURSERUMBLE_DETECT | PURSERUMBLE_MITIGATE);
    if (!refusal) refusal = purserumble_hasher_update(&h, "hello ", 6, &loan, answer);
    if (!refusal) refusal = purserumble_hasher_update(&h, "world", 5, &loan, answer);
    if (!refusal) refusal = purserumble_hasher_finish(&h, digest, &loan, answer);
    printf("%u %s ", (unsigned)refusal, verdicts[answer[PURSERUMBLE_ANSWER_VERDICT]]);
    for (int i = 0; i < 20; i++) printf("%02x", digest[i]);
    if (answer[PURSERUMBLE_ANSWER_VERDICT] > PURSERUMBLE_OK)
        printf(" block %u, place %u", (unsigned)answer[PURSERUMBLE_ANSWER_FIRST_BLOCK], (unsigned)answer[PURSERUMBLE_ANSWER_FIRST_PLACE]);
    printf("\n");
    return 0;
}
