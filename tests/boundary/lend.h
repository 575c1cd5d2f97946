/* Buffers to lend to a library under test, between guards.
 *
 * Each buffer lies in memory of its own between two pages that nobody may touch, flush with
 * one of them or somewhere between. Guard bytes surround it, and its own bytes hold
 * anything before the call. The library is given one view of that memory, read-only for a
 * buffer it may only read; the test has another view, which is writable always. Under
 * valgrind the library's view also forbids each byte beside the buffer, and the bytes of a
 * buffer to be written count as undefined. */
#ifndef LEND_H
#define LEND_H

#include "gen.h"

enum {
    LEND_GUARD = 64,     /* guard bytes on each side, where the page leaves room */
    LEND_PAGE = 1 << 16, /* memory of one buffer; a multiple of every machine's page */
    LEND_MOST = LEND_PAGE - 4 * LEND_GUARD
};

enum lend_place {
    LEND_AT_END,   /* a read or write beyond the buffer faults */
    LEND_AT_START, /* one before it faults */
    LEND_BETWEEN,
    LEND_NOWHERE, /* a buffer of no bytes gets an address where nothing is */
    LEND_PLACES
};

struct lent {
    const char *name;
    unsigned unit; /* bytes of an element, which is also the alignment */
    bool writable;
    uint8_t *view; /* the library's, and the test's own of the same memory */
    uint8_t *own;
    uint8_t *given; /* what the library is given, or NULL before the first call */
    size_t at;      /* of the buffer in the memory */
    size_t bytes;   /* of the buffer */
    size_t low;     /* the memory that is compared: from low up to high */
    size_t high;
    _Alignas(8) uint8_t copy[LEND_PAGE]; /* what that memory must hold after the call */
};

void lend_open(struct lent *lent, const char *name, unsigned unit, bool writable);

/* Readies the buffer for one call: `bytes` bytes long, a copy of `content` if that isn't
 * NULL. Returns the library's view of it. */
void *lend(struct lent *lent, struct gen *gen, enum lend_place place, const void *content,
           size_t bytes);

/* The buffer in the copy: the test writes there what a reply must write. */
void *lend_copy(struct lent *lent);
/* The buffer as the library left it. */
const void *lend_left(const struct lent *lent);

/* Do the buffer and its guards hold what the copy holds? If not, `*where` is the first byte
 * that differs, counted from the start of the buffer. */
bool lend_kept(const struct lent *lent, long *where);

/* Names the place of an address for a report: false if it is near no buffer. */
bool lend_owns(const struct lent *lent, const void *address, long *where);

#endif
