/* Calls the check of a table many times, and writes the CPU time of one call in nanoseconds.
 *
 *   check TABLE RECORDS CALLS
 */
#include "../format.h"
#include "../../include/purserumble.h"
#include <time.h>

static double now(void)
{
    struct timespec t;
    clock_gettime(CLOCK_THREAD_CPUTIME_ID, &t);
    return t.tv_sec * 1e9 + t.tv_nsec;
}

int main(int argc, char **argv)
{
    static uint32_t table[32 * 82];
    if (argc != 4) stop("usage: check TABLE RECORDS CALLS");
    struct in in = whole_file(argv[1]);
    for (size_t i = 0; i < 32 * 82; i++) table[i] = number(&in, 4);
    size_t words = 82 * strtoull(argv[2], NULL, 10), calls = strtoull(argv[3], NULL, 10);
    uint64_t answer[2];
    double start = now();
    for (size_t i = 0; i < calls; i++)
        if (purserumble_table_fault(table, words, answer, 2)) stop("the table is refused");
    printf("%.1f\n", (now() - start) / calls);
    return 0;
}
