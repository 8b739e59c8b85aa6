/* Checks a certificate for a pack through the static library: check PACK CERTIFICATE.
 *
 *     cc -std=c99 -Wall -Wextra -Werror -pedantic -O1 -Iinclude -o check examples/c/check.c \
 *         target/staticlib/libteldyzhom.a
 *
 * Prints the count of pairs and `accepted`, or `refused` and the number. Whatever fails is said on standard error and
 * ends in status 2, never in an answer. Compiles as C++11 too.
 */
#include "teldyzhom.h"

#include <errno.h>
#include <inttypes.h>
#include <stdio.h>
#include <string.h>

/* What the program ends with. */
enum { ACCEPTED = 0, REFUSED = 1, FAILED = 2 };

/* One byte more than a file may have, so that a longer one is seen to be longer. */
static uint8_t pack[TELDYZHOM_PACK_MAX + 1];
static uint8_t certificate[TELDYZHOM_CERTIFICATE_MAX + 1];
static uint8_t list[TELDYZHOM_LIST_ENOUGH];

static void complain(const char *what)
{
    fprintf(stderr, "check: %s: %s\n", what, errno ? strerror(errno) : "failed");
}

/* 1 and the length, at most room, if the file was read; else 0, and the reason is said. */
static int read_file(const char *name, uint8_t *buffer, size_t room, size_t *length)
{
    FILE *file = fopen(name, "rb");
    if (!file) {
        complain(name);
        return 0;
    }
    *length = fread(buffer, 1, room, file);
    /* A short count alone does not tell the file's end from a failure: a directory opens, and its read fails. */
    if (ferror(file)) {
        complain(name);
        fclose(file);
        return 0;
    }
    if (fclose(file)) {
        complain(name);
        return 0;
    }
    return 1;
}

static int refuse(uint32_t number)
{
    printf("refused %" PRIu32 "\n", number);
    return REFUSED;
}

static int answer(size_t pack_len, size_t certificate_len)
{
    uint32_t number = teldyzhom_check(pack, pack_len, certificate, certificate_len);
    if (number != TELDYZHOM_ACCEPTED)
        return refuse(number);
    struct teldyzhom_answer listed = teldyzhom_list(pack, pack_len, list, sizeof list);
    if (listed.number != TELDYZHOM_ACCEPTED)
        return refuse(listed.number);
    printf("%" PRIu32 " pairs\naccepted\n", listed.value);
    return ACCEPTED;
}

int main(int argc, char **argv)
{
    size_t pack_len, certificate_len;
    if (argc != 3) {
        fprintf(stderr, "usage: check PACK CERTIFICATE\n");
        return FAILED;
    }
    if (!read_file(argv[1], pack, sizeof pack, &pack_len))
        return FAILED;
    if (!read_file(argv[2], certificate, sizeof certificate, &certificate_len))
        return FAILED;
    int status = answer(pack_len, certificate_len);
    /* Output stays in a buffer: only closing it tells that all of it was written. */
    if (ferror(stdout) || fclose(stdout)) {
        complain("standard output");
        return FAILED;
    }
    return status;
}
