/* What the calls are lent: heap blocks of exactly the lengths handed over, so that valgrind sees every access beyond them. */
#ifndef BUFFERS_LENT_H
#define BUFFERS_LENT_H

#include <inttypes.h>
#include <stdbool.h>
#include <stddef.h>
#include <stdint.h>
#include <stdio.h>
#include <stdlib.h>
#include <string.h>

/* Each call is made three times: on result blocks never written to, where valgrind sees a slot that is left out; on filled ones, where
   a slot too many is seen; and on filled ones with null for every block of length 0. */
enum { UNWRITTEN, FILLED, NULLS, PASSES };

enum { FILL = 0xA5 };

static int failures;

static void *allocate(size_t length, int pass)
{
    if (length == 0 && pass == NULLS)
        return NULL;
    void *bytes = malloc(length);
    if (bytes == NULL && length > 0)
        abort();
    return bytes;
}

/* A copy of what the call reads. */
static void *lend(const void *data, size_t length, int pass)
{
    void *bytes = allocate(length, pass);
    if (length > 0)
        memcpy(bytes, data, length);
    return bytes;
}

/* Room for what the call writes. */
static void *lend_room(size_t length, int pass)
{
    void *bytes = allocate(length, pass);
    if (length > 0 && pass != UNWRITTEN)
        memset(bytes, FILL, length);
    return bytes;
}

/* Whether the call has left what it read as it was. Frees the copy. */
static bool unchanged(void *bytes, const void *data, size_t length)
{
    bool same = length == 0 || memcmp(bytes, data, length) == 0;
    free(bytes);
    return same;
}

/* Whether the call has written this to the start of the room, and nothing behind it. Frees the room. */
static bool written_only(void *room, size_t length, const void *written, size_t written_length, int pass)
{
    const uint8_t *bytes = (const uint8_t *)room;
    bool right = written_length == 0 || memcmp(bytes, written, written_length) == 0;
    for (size_t i = written_length; i < length && pass != UNWRITTEN; i++)
        right = right && bytes[i] == FILL;
    free(room);
    return right;
}

/* The answer of a call, and whether all that it was lent is right afterwards. */
static void report(const char *call, const char *what, int64_t given, int64_t wanted, bool right)
{
    if (given == wanted && right)
        return;
    printf("%s, %s: answer %" PRId64 ", wanted %" PRId64 "%s\n", call, what, given, wanted, right ? "" : ", other bytes");
    failures++;
}

#endif
