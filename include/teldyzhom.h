/* The loader for rule packs with termination certificates, as a static library.
 *
 * Platform: x86-64 Linux (System V ABI), the only one it is built for. Link with libteldyzhom.a; it needs nothing else
 * but the C library:
 *
 *     cc -std=c99 -Iinclude program.c target/staticlib/libteldyzhom.a
 *
 * Answers: every function answers for all bytes and all numbers. docs/FORMAT.md has both file formats, and the texts.
 *
 * Buffers: a pointer must be valid for its length for the whole call, that of a file or a text to read, that of what is
 * written, a list or a text's pack, to read and write. It is never NULL, also where the length is 0, since the compiler may count on
 * that: an empty file is any other pointer and the length 0. What is written must not overlap what is read; two files
 * may overlap. During the call nobody may change what is read or touch what is written, no other thread either. No
 * function keeps a pointer, uses the heap or touches memory besides the buffers lent and its stack.
 *
 * Threads: the library has no state of its own. Any thread may call it, and any number at once, on buffers of their own
 * or on shared ones that are only read.
 *
 * Stack: each call takes less than TELDYZHOM_STACK_BYTES.
 */
#ifndef TELDYZHOM_H
#define TELDYZHOM_H

#include <stddef.h>
#include <stdint.h>

/* The longest files in bytes. A longer one may be passed and is answered with 1 (cut file), so a reader needs to read
 * only one byte more than the limit. */
#define TELDYZHOM_PACK_MAX 33792
#define TELDYZHOM_CERTIFICATE_MAX 24576

/* The longest text in bytes. A longer one may be passed and is answered with 15 (bad text), so here too one byte more
 * than the limit is enough to read. */
#define TELDYZHOM_TEXT_MAX 32768

/* A list of so many bytes always suffices: 2,048 pairs of 8 bytes. */
#define TELDYZHOM_LIST_ENOUGH 16384

/* More stack than any call takes, in bytes; the gate measures it on the deepest files known. */
#define TELDYZHOM_STACK_BYTES 40960

#ifdef __cplusplus
extern "C" {
#endif

/* The numbers answered. A refusal is the first that holds, in the order of docs/FORMAT.md. */
enum teldyzhom_number {
    TELDYZHOM_ACCEPTED = 0,        /* no refusal */
    TELDYZHOM_CUT_FILE = 1,        /* a length is over its limit or no multiple of 8 */
    TELDYZHOM_STRAY_RECORD = 2,    /* a record or the file's end stands where it may not, or a field is not zero */
    TELDYZHOM_OUT_OF_RANGE = 3,    /* a count, arity, symbol, variable or weight place is outside its range */
    TELDYZHOM_BROKEN_SIDE = 4,     /* a side's nodes are not exactly one term */
    TELDYZHOM_BARE_LEFT = 5,       /* a left side is a variable */
    TELDYZHOM_LOOSE_VARIABLE = 6,  /* a variable of the right is not on the left */
    TELDYZHOM_NO_SUCH_PAIR = 7,    /* a P record, or an arc question, names no pair of the pack */
    TELDYZHOM_PAIR_COUNT = 8,      /* a pair stands not at all or twice */
    TELDYZHOM_BACK_ARC = 9,        /* an arc leads to a lower component */
    TELDYZHOM_SELF_ARC = 10,       /* a pair without weights has an arc to itself */
    TELDYZHOM_HEAVY = 11,          /* a form of a rule or of a pair still present passes the limit */
    TELDYZHOM_RULE_RISES = 12,     /* a rule's left is not at least its right */
    TELDYZHOM_PAIR_STAYS = 13,     /* a pair rises under a weighting, or remains after the last */
    TELDYZHOM_SHORT_LIST = 14,     /* the lent list cannot hold all pairs, or the lent buffer the pack of a text */
    TELDYZHOM_BAD_TEXT = 15,       /* a text is outside the grammar or over its limit */
    TELDYZHOM_TEXT_LIMITS = 16,    /* a name of a text has two arities, or a count is over its limit */
    TELDYZHOM_NONE_LEAVES = 17     /* no pair leaves under a weighting */
};

/* A refusal's number and 0, or 0 and a value. */
struct teldyzhom_answer {
    uint32_t number;
    uint32_t value;
};

/* 0 if the certificate is accepted for the pack, else the first refusal, 1 to 13 or 17. Accepted means that all
 * derivations from all terms over the pack's symbols end. */
uint32_t teldyzhom_check(const uint8_t *pack, size_t pack_len, const uint8_t *certificate, size_t certificate_len);

/* Lists the pack's dependency pairs as P records of 8 bytes, rising: number 0 and their count. A refusal (1 to 6, or 14
 * if the list cannot hold all of them) leaves the list untouched; no byte after the records changes. */
struct teldyzhom_answer teldyzhom_list(const uint8_t *pack, size_t pack_len, uint8_t *list, size_t list_len);

/* Whether an arc runs from one pair to another: number 0 and 1 for yes, 0 for no; or a refusal, 1 to 7. */
struct teldyzhom_answer teldyzhom_arc(const uint8_t *pack, size_t pack_len, uint32_t rule, uint32_t place,
                                      uint32_t other_rule, uint32_t other_place);

/* Reads a solver's text (docs/FORMAT.md) and writes its pack to the start of the buffer `pack`: number 0 and the pack's
 * length in bytes. A buffer of TELDYZHOM_PACK_MAX bytes always suffices. A refusal (15, then 16, then 14 if the buffer is
 * shorter than the pack) leaves the buffer untouched; no byte after the pack changes. The pack is not judged: 2, 5 and 6
 * are left to the functions that read it. */
struct teldyzhom_answer teldyzhom_read_text(const uint8_t *text, size_t text_len, uint8_t *pack, size_t pack_len);

#ifdef __cplusplus
}
#endif

#endif
