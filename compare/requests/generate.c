/* Writes request files (the layout is in format.h). The same arguments always give the same file.
 *
 *   generate fixed   OUT TABLE DATA                          what is tried in full: short messages, lengths, limits
 *   generate random  OUT TABLE DATA SEED BLOCKS SESSIONS OTHERS
 *   generate shipped OUT TABLE DATA SEED SESSIONS            what the Rust as it ships can be asked
 *
 * TABLE is the file of the crate's own 32 records, DATA the folder with the published files and the crate's own conditions.
 * The generator is linked with second/second.c, only to walk the published files up to the blocks that are known to mark.
 */
#include "calls.h"
#include "random.h"
#include "conditions.h"
#include "fixed.h"
#include "shipped.h"

static uint64_t given(const char *text) { return strtoull(text, NULL, 10); }

int main(int argc, char **argv)
{
    static const struct { const char *name; int arguments; } what[] = { { "fixed", 5 }, { "random", 9 }, { "shipped", 7 } };
    int which = 0;
    while (which < 3 && (argc != what[which].arguments || strcmp(argv[1], what[which].name))) which++;
    if (which == 3)
        stop("usage: generate fixed OUT TABLE DATA | random OUT TABLE DATA SEED BLOCKS SESSIONS OTHERS | shipped OUT TABLE DATA SEED SESSIONS");
    file = fopen(argv[2], "wb");
    if (!file) stop("cannot write the requests");
    fixed_tables(argv[3]);
    fixed_conditions(in_folder(argv[4], "conditions.bin"));
    read_published(argv[4]);
    if (which > 0) {
        seed = given(argv[5]);
        for (int i = 0; i < 4; i++) seed = chance(); /* neighbouring seeds part ways */
    }
    if (which == 0) fixed_requests(argv[4]);
    else if (which == 1) random_requests(given(argv[6]), given(argv[7]), given(argv[8]));
    else shipped_requests(argv[4], given(argv[6]));
    if (fclose(file)) stop("cannot write the requests");
    return 0;
}
