/* The request file and the answer file: what every program of the comparison reads and writes.
 *
 * All numbers are big-endian. A file is a run of records: a kind (1 byte), the length of the body (4 bytes), the body.
 *
 * Requests
 *   1 table      slot u32, then words u32 each. It is lent by later requests that name the slot, as a table or as conditions,
 *                and has no answer.
 *   2 one block  words 5 x u32, slot u32, mask u32, flags u8, then the block's bytes
 *   3 session    a hasher, then calls up to the end of the body, each beginning with u8:
 *                  1 update            slot u32, the conditions' slot u32, bytes, masks
 *                  2 reset
 *                  3 finish            slot u32, the conditions' slot u32, masks
 *                  4 finish-and-reset  slot u32, the conditions' slot u32, masks, the output's length u32 and what it is
 *                                      filled with u8
 *   4 one-shot   slot u32, bytes, masks
 *   5 table check  slot u32
 *   6 lookup     sheet and barcode, both as bytes
 *   7 compare    sheet and barcode, both as bytes, verdict u32, digest 20 bytes
 *   8 condition check  slot u32
 *
 * Answers
 *   2 one block  known u8, refusal u32, its place u64, mark u64, place u64, tried u64, words 5 x u32
 *   3 session    for each call: known u8, refusal u32, its place u64, verdict u64, the first mark, the hasher after the call,
 *                the lent output as bytes (20 for finish, none for update and reset)
 *   4 one-shot   known u8, refusal u32, its place u64, verdict u64, the first mark, digest 20 bytes
 *   5 table check  known u8, refusal u32, its place u64
 *   6 lookup     known u8, refusal u32, offset u64, length u64, the part's bytes
 *   7 compare    known u8, refusal u32, answer u64
 *   8 condition check  known u8, refusal u32, its place u64
 *
 * A hasher is words 5 x u32, pending 64 bytes, fill u64, blocks u64, mark u64, flags u64, the first mark.
 * A first mark is the number of the first marked block u64, from 0, and the place u64 of the vector that marked it; zeros where
 * none was, and in the answer of an update or a reset.
 * Bytes are a length u32 and so many bytes; masks are a count u32 and so many u32.
 * Flags are 1 detect, 2 mitigate, 4 masks lent, 8 reduced-round, 16 conditions; 4 and 16 exclude each other.
 * Known is 0 where a program has no answer (the Rust refuses nothing and has no sheet); the rest is then zero.
 */
#ifndef FORMAT_H
#define FORMAT_H
#include <stdint.h>
#include <stdio.h>
#include <stdlib.h>
#include <string.h>

enum { TABLE = 1, ONE_BLOCK, SESSION, ONE_SHOT, TABLE_CHECK, LOOKUP, COMPARE, CONDITION_CHECK };
enum { UPDATE = 1, RESET, FINISH, FINISH_AND_RESET };
enum { DETECT = 1, MITIGATE = 2, LENT = 4, REDUCED = 8, CONDITIONS = 16 };
enum { HASHER_BYTES = 20 + 64 + 48 };

static inline void stop(const char *why) { fprintf(stderr, "%s\n", why); exit(2); }

/* What is left to read. */
struct in { const uint8_t *at; size_t left; };

static inline const uint8_t *take(struct in *in, size_t n)
{
    if (in->left < n) stop("a record ends too early");
    const uint8_t *p = in->at;
    in->at += n;
    in->left -= n;
    return p;
}

static inline uint64_t number(struct in *in, int bytes)
{
    const uint8_t *p = take(in, bytes);
    uint64_t x = 0;
    for (int i = 0; i < bytes; i++) x = x << 8 | p[i];
    return x;
}

/* The next record: its kind, or 0 at the end. */
static inline int record(struct in *in, struct in *body)
{
    if (in->left == 0) return 0;
    int kind = number(in, 1);
    body->left = number(in, 4);
    body->at = take(in, body->left);
    return kind;
}

static inline struct in whole_file(const char *name)
{
    FILE *f = fopen(name, "rb");
    if (!f || fseek(f, 0, SEEK_END)) { fprintf(stderr, "cannot read %s\n", name); exit(2); }
    long n = ftell(f);
    rewind(f);
    uint8_t *p = malloc(n + 1);
    if (!p || fread(p, 1, n, f) != (size_t)n) { fprintf(stderr, "cannot read %s\n", name); exit(2); }
    fclose(f);
    return (struct in){ p, n };
}

/* A record being made. */
struct out { uint8_t *at; size_t len, room; };

static inline uint8_t *grow(struct out *o, size_t n)
{
    if (o->room - o->len < n) {
        o->room = 2 * o->room + n + 256;
        o->at = realloc(o->at, o->room);
        if (!o->at) stop("no memory");
    }
    o->len += n;
    return o->at + o->len - n;
}

static inline void put(struct out *o, uint64_t x, int bytes)
{
    uint8_t *p = grow(o, bytes);
    for (int i = bytes; i-- > 0; x >>= 8) p[i] = x & 255;
}

static inline void put_raw(struct out *o, const void *p, size_t n)
{
    uint8_t *q = grow(o, n);
    if (n) memcpy(q, p, n);
}

static inline void put_bytes(struct out *o, const void *p, size_t n)
{
    put(o, n, 4);
    put_raw(o, p, n);
}

static inline void put_words(struct out *o, const uint32_t *w, size_t n)
{
    for (size_t i = 0; i < n; i++) put(o, w[i], 4);
}

static inline void write_record(FILE *f, int kind, struct out *o)
{
    uint8_t head[5] = { kind, o->len >> 24, o->len >> 16, o->len >> 8, o->len };
    if (fwrite(head, 1, 5, f) != 5 || fwrite(o->at, 1, o->len, f) != o->len) stop("cannot write");
    o->len = 0;
}
#endif
