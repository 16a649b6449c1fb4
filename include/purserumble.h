/* SHA-1 with collision detection: the calls of the static library that `tools/build export` makes, for C and C++.
 *
 * Null pointers: the calls over slices, in the middle, take none, not even with length 0. The functions over structs, at
 * the end, do: a message, table, conditions, masks, sheet or barcode that is null with length 0 is empty, and no loan is an
 * empty one.
 *
 * Begin a hasher with purserumble_hasher_new: one of zeros is well formed too, but is no start of a message.
 *
 * A call returns 255 and changes nothing where a fixed length, the mark, the flags or a verdict is not as said here. Else
 * it returns the refusal's number, 0 for none (docs/BEHAVIOUR.md has the numbers), and writes `answer` or `part` whole:
 * zeros for what a refusal does not give. A refusal leaves everything else as it was: hasher, `after`, `digest` and `out`.
 */
#ifndef PURSERUMBLE_H
#define PURSERUMBLE_H
#include <stdbool.h>
#include <stddef.h>
#include <stdint.h>

#ifdef __cplusplus
extern "C" {
#endif

/* Flags of a hasher, to be added up: detection; mitigation of marked blocks; masks, of which a call is then lent one for each
 * block that it compresses; reduced-round mode; conditions, of which a call is then lent a table, and each block is tried with
 * the vectors that survive it. Masks and conditions are not set both: that, and a number above 31, are no flags. */
enum { PURSERUMBLE_DETECT = 1, PURSERUMBLE_MITIGATE = 2, PURSERUMBLE_MASKS_LENT = 4, PURSERUMBLE_REDUCED = 8,
    PURSERUMBLE_CONDITIONS = 16 };
/* Verdicts; 0 is none. */
enum { PURSERUMBLE_OK = 1, PURSERUMBLE_MITIGATED = 2, PURSERUMBLE_COLLISION = 3 };
/* Answers of a comparison; 0 is none. */
enum { PURSERUMBLE_MATCH = 1, PURSERUMBLE_DIFFERS = 2, PURSERUMBLE_ABSENT = 3, PURSERUMBLE_MARKED = 4 };
/* What is returned where the agreement is broken. */
enum { PURSERUMBLE_BROKEN_AGREEMENT = 255 };
/* Where a hasher's numbers stand in its state: `state` below has what they are. */
enum { PURSERUMBLE_STATE_FILL = 0, PURSERUMBLE_STATE_BLOCKS = 1, PURSERUMBLE_STATE_MARK = 2, PURSERUMBLE_STATE_FLAGS = 3,
    PURSERUMBLE_STATE_FIRST_BLOCK = 4, PURSERUMBLE_STATE_FIRST_PLACE = 5, PURSERUMBLE_STATE_SIZE = 6 };
/* Where the numbers of a finish stand in its answer, and of a whole message: `answer` below has what they are. One block's four numbers are others. */
enum { PURSERUMBLE_ANSWER_VERDICT = 0, PURSERUMBLE_ANSWER_REFUSED_PLACE = 1, PURSERUMBLE_ANSWER_FIRST_BLOCK = 2,
    PURSERUMBLE_ANSWER_FIRST_PLACE = 3, PURSERUMBLE_ANSWER_SIZE = 4 };

/* ---- The calls over slices ----
 *
 * A slice is a pointer and then its length. A slice that a call writes overlaps no other one; an empty one may have any
 * pointer that is not null and is aligned. Slices of a fixed length are lent at that length; the parameter after the
 * pointer has its name.
 *   words    the five chaining words
 *   pending  the 64 pending bytes
 *   state    fill, blocks, mark (0 or 1), flags; then the number of the first marked block, from 0, and the place of the
 *            vector that marked it: both 0 without a mark, else the first below `blocks` and the second at most 31. Numbers
 *            of another kind are a hasher that is not well formed, which the calls refuse with 1
 *            these three are the hasher; they are changed in place where they are not const
 *   answer   first what the call says, 0 on refusal; then the place of the refused record, of the table or of the
 *            conditions, 0 for other numbers. A finish, and a whole message in one call, have two numbers more: the number
 *            of the message's first marked block and the place of the vector that marked it, both 0 where none was (the
 *            verdict says so) and on refusal. Padding blocks count: the number may be `blocks` or one above it
 * table, conditions and masks are looked at only where the flags ask for them, and the first two by an update only where it
 * compresses a block; what is not looked at may be anything.
 */

/* after (5): the new chaining words. answer (4): mark, place, tried, the refused record's place. */
uint32_t purserumble_one_block(const uint32_t *words, size_t five, const uint8_t *block, size_t block_len,
    const uint32_t *table, size_t table_len, uint32_t mask, bool mitigate, bool reduced,
    uint32_t *after, size_t five_after, uint64_t *answer, size_t four);

/* A hasher at the start of a message, whatever was there before. No answer: it gives 0, or 255 for a number that is no flags. */
uint32_t purserumble_new(uint64_t flags, uint32_t *words, size_t five, uint8_t *pending, size_t sixty_four,
    uint64_t *state, size_t six);

/* answer (2): 0, the refused record's place. It compresses a block where fill and `bytes_len` together are 64 or more. Below that it
 * refuses nothing of table and conditions, and must be lent no mask: else it gives 6 where masks are looked at. */
uint32_t purserumble_update(uint32_t *words, size_t five, uint8_t *pending, size_t sixty_four,
    uint64_t *state, size_t six, const uint8_t *bytes, size_t bytes_len, const uint32_t *table, size_t table_len,
    const uint32_t *conditions, size_t conditions_len, const uint32_t *masks, size_t masks_len, uint64_t *answer, size_t two);

/* answer (2): 0, 0. */
uint32_t purserumble_reset(uint32_t *words, size_t five, uint8_t *pending, size_t sixty_four,
    uint64_t *state, size_t six, uint64_t *answer, size_t two);

/* answer (4): the verdict, the refused record's place, the first marked block's number, its vector's place. The hasher stays as
 * given. A digest of other than 20 bytes gives 8. */
uint32_t purserumble_finish(const uint32_t *words, size_t five, const uint8_t *pending, size_t sixty_four,
    const uint64_t *state, size_t six, uint8_t *digest, size_t digest_len, const uint32_t *table, size_t table_len,
    const uint32_t *conditions, size_t conditions_len, const uint32_t *masks, size_t masks_len, uint64_t *answer, size_t four);

/* answer (4): as finish. Writes the output and resets the hasher, or on refusal neither. */
uint32_t purserumble_finish_and_reset(uint32_t *words, size_t five, uint8_t *pending, size_t sixty_four,
    uint64_t *state, size_t six, uint8_t *out, size_t out_len, const uint32_t *table, size_t table_len,
    const uint32_t *conditions, size_t conditions_len, const uint32_t *masks, size_t masks_len, uint64_t *answer, size_t four);

/* answer (4): as finish. Its flags are detection, mitigation and masks: it knows no conditions. */
uint32_t purserumble_one_shot(const uint8_t *bytes, size_t bytes_len, uint8_t *digest, size_t twenty,
    const uint32_t *table, size_t table_len, const uint32_t *masks, size_t masks_len, uint64_t *answer, size_t four);

/* answer (2): 0, the refused record's place; with 11 that of the first record whose mask number an earlier one has. */
uint32_t purserumble_table_fault(const uint32_t *table, size_t table_len, uint64_t *answer, size_t two);

/* answer (2): 0, the refused condition's place. */
uint32_t purserumble_condition_fault(const uint32_t *conditions, size_t conditions_len, uint64_t *answer, size_t two);

/* part (2): the found part's offset from the sheet's start, and its length. */
uint32_t purserumble_lookup(const uint8_t *sheet, size_t sheet_len, const uint8_t *code, size_t code_len,
    uint64_t *part, size_t two);

/* answer (2): 3 absent where no record has the barcode; else 4 marked where the verdict, one of the three, is not ok; else 1
 * match or 2 differs; then 0. */
uint32_t purserumble_compare(const uint8_t *sheet, size_t sheet_len, const uint8_t *code, size_t code_len,
    uint32_t verdict, const uint8_t *digest, size_t twenty, uint64_t *answer, size_t two);

/* ---- The same calls over structs ---- */

/* A hasher. Copy it freely: it holds no pointer. */
struct purserumble_hasher { uint32_t words[5]; uint8_t pending[64]; uint64_t state[6]; };

/* What is lent to one call: the words of a table, 82 for each record, no two records with the same mask number; the masks; the
 * words of a table of conditions, 6 for each. The conditions stand last so that a loan written without them has none. */
struct purserumble_loan {
    const uint32_t *table; size_t table_words;
    const uint32_t *masks; size_t mask_count;
    const uint32_t *conditions; size_t condition_words;
};

/* An address for what is empty, as the library takes no null pointer. */
static inline const uint32_t *purserumble_words_at(const uint32_t *words)
{
    static const uint32_t none = 0;
    return words ? words : &none;
}

static inline const uint8_t *purserumble_bytes_at(const void *bytes)
{
    static const uint8_t none = 0;
    return bytes ? (const uint8_t *)bytes : &none;
}

static inline struct purserumble_loan purserumble_loan_at(const struct purserumble_loan *loan)
{
    struct purserumble_loan l = { 0, 0, 0, 0, 0, 0 };
    if (loan) l = *loan;
    l.table = purserumble_words_at(l.table);
    l.masks = purserumble_words_at(l.masks);
    l.conditions = purserumble_words_at(l.conditions);
    return l;
}

/* A hasher at the start of a message: 0, or 255 for a number that is no flags. */
static inline uint32_t purserumble_hasher_new(struct purserumble_hasher *h, uint64_t flags)
{
    return purserumble_new(flags, h->words, 5, h->pending, 64, h->state, 6);
}

/* A piece of the message. answer: 0, the refused record's place. What is wrong with the loan's table or conditions shows at the first
 * piece that fills a block, or at the finish; purserumble_loan_fault and purserumble_loan_condition_fault tell it before. */
static inline uint32_t purserumble_hasher_update(struct purserumble_hasher *h, const void *bytes, size_t bytes_len,
    const struct purserumble_loan *loan, uint64_t answer[2])
{
    struct purserumble_loan l = purserumble_loan_at(loan);
    return purserumble_update(h->words, 5, h->pending, 64, h->state, 6, purserumble_bytes_at(bytes), bytes_len,
        l.table, l.table_words, l.conditions, l.condition_words, l.masks, l.mask_count, answer, 2);
}

/* Whether one of the blocks that the hasher has compressed was marked, */
static inline bool purserumble_hasher_marked(const struct purserumble_hasher *h)
{
    return h->state[PURSERUMBLE_STATE_MARK] == 1;
}

/* the number, from 0, of the first that was, */
static inline uint64_t purserumble_hasher_first_block(const struct purserumble_hasher *h)
{
    return h->state[PURSERUMBLE_STATE_FIRST_BLOCK];
}

/* and the place of the vector that marked it. Both are 0 where none was. */
static inline uint64_t purserumble_hasher_first_place(const struct purserumble_hasher *h)
{
    return h->state[PURSERUMBLE_STATE_FIRST_PLACE];
}

/* Everything but the flags as at the start. */
static inline uint32_t purserumble_hasher_reset(struct purserumble_hasher *h)
{
    uint64_t answer[2];
    return purserumble_reset(h->words, 5, h->pending, 64, h->state, 6, answer, 2);
}

/* The digest. answer: the verdict, the refused record's place, the first marked block's number, its vector's place. */
static inline uint32_t purserumble_hasher_finish(const struct purserumble_hasher *h, uint8_t digest[20],
    const struct purserumble_loan *loan, uint64_t answer[4])
{
    struct purserumble_loan l = purserumble_loan_at(loan);
    return purserumble_finish(h->words, 5, h->pending, 64, h->state, 6, digest, 20,
        l.table, l.table_words, l.conditions, l.condition_words, l.masks, l.mask_count, answer, 4);
}

/* The same, and a reset. */
static inline uint32_t purserumble_hasher_finish_and_reset(struct purserumble_hasher *h, uint8_t digest[20],
    const struct purserumble_loan *loan, uint64_t answer[4])
{
    struct purserumble_loan l = purserumble_loan_at(loan);
    return purserumble_finish_and_reset(h->words, 5, h->pending, 64, h->state, 6, digest, 20,
        l.table, l.table_words, l.conditions, l.condition_words, l.masks, l.mask_count, answer, 4);
}

/* A whole message, with detection, mitigation and the loan's masks. answer: as finish. */
static inline uint32_t purserumble_message_digest(const void *bytes, size_t bytes_len, uint8_t digest[20],
    const struct purserumble_loan *loan, uint64_t answer[4])
{
    struct purserumble_loan l = purserumble_loan_at(loan);
    return purserumble_one_shot(purserumble_bytes_at(bytes), bytes_len, digest, 20,
        l.table, l.table_words, l.masks, l.mask_count, answer, 4);
}

/* One block from five words, with the loan's table. answer: mark, place, tried, the refused record's place. */
static inline uint32_t purserumble_block_words(const uint32_t words[5], const uint8_t block[64],
    const struct purserumble_loan *loan, uint32_t mask, bool mitigate, bool reduced, uint32_t after[5], uint64_t answer[4])
{
    struct purserumble_loan l = purserumble_loan_at(loan);
    return purserumble_one_block(words, 5, block, 64, l.table, l.table_words, mask, mitigate, reduced, after, 5, answer, 4);
}

/* What is wrong with the loan's table of vectors; its conditions have a call of their own. answer: 0, the refused record's place. */
static inline uint32_t purserumble_loan_fault(const struct purserumble_loan *loan, uint64_t answer[2])
{
    struct purserumble_loan l = purserumble_loan_at(loan);
    return purserumble_table_fault(l.table, l.table_words, answer, 2);
}

/* What is wrong with the loan's conditions. answer: 0, the refused condition's place. */
static inline uint32_t purserumble_loan_condition_fault(const struct purserumble_loan *loan, uint64_t answer[2])
{
    struct purserumble_loan l = purserumble_loan_at(loan);
    return purserumble_condition_fault(l.conditions, l.condition_words, answer, 2);
}

/* part: the found digest's offset from the sheet's start, and its length, 20 or 0. */
static inline uint32_t purserumble_sheet_lookup(const void *sheet, size_t sheet_len, const void *code, size_t code_len,
    uint64_t part[2])
{
    return purserumble_lookup(purserumble_bytes_at(sheet), sheet_len, purserumble_bytes_at(code), code_len, part, 2);
}

/* answer: match, differs, absent or marked; then 0. */
static inline uint32_t purserumble_sheet_compare(const void *sheet, size_t sheet_len, const void *code, size_t code_len,
    uint32_t verdict, const uint8_t digest[20], uint64_t answer[2])
{
    return purserumble_compare(purserumble_bytes_at(sheet), sheet_len, purserumble_bytes_at(code), code_len, verdict,
        digest, 20, answer, 2);
}

#ifdef __cplusplus
}
#endif
#endif
