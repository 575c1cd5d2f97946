#define _GNU_SOURCE /* memfd_create */
#include "lend.h"

#include <stdio.h>
#include <stdlib.h>
#include <string.h>
#include <sys/mman.h>
#include <unistd.h>

#if defined __has_include
#if __has_include(<valgrind/memcheck.h>)
#include <valgrind/memcheck.h>
#endif
#endif
#ifndef VALGRIND_MAKE_MEM_NOACCESS
#define VALGRIND_MAKE_MEM_NOACCESS(start, bytes) ((void)(start), (void)(bytes))
#define VALGRIND_MAKE_MEM_DEFINED(start, bytes) ((void)(start), (void)(bytes))
#define VALGRIND_MAKE_MEM_UNDEFINED(start, bytes) ((void)(start), (void)(bytes))
#endif

static void *mapped_or_exit(void *memory)
{
    if (memory == MAP_FAILED) {
        perror("mmap");
        exit(2);
    }
    return memory;
}

/* The next multiple of LEND_PAGE, so that protection changes at a page's edge on machines
 * with large pages too. */
static uint8_t *rounded_up(uint8_t *address)
{
    return address + (LEND_PAGE - (uintptr_t)address % LEND_PAGE) % LEND_PAGE;
}

void lend_open(struct lent *lent, const char *name, unsigned unit, bool writable)
{
    int memory = memfd_create("lent", 0);
    int access = writable ? PROT_READ | PROT_WRITE : PROT_READ;

    if (memory < 0 || ftruncate(memory, LEND_PAGE) != 0) {
        perror("memfd_create");
        exit(2);
    }
    lent->name = name;
    lent->unit = unit;
    lent->writable = writable;
    lent->given = NULL;
    lent->own = mapped_or_exit(
        mmap(NULL, LEND_PAGE, PROT_READ | PROT_WRITE, MAP_SHARED, memory, 0));
    /* the library's view replaces the middle of memory that nobody may touch */
    uint8_t *room = mapped_or_exit(
        mmap(NULL, 4 * (size_t)LEND_PAGE, PROT_NONE, MAP_PRIVATE | MAP_ANONYMOUS, -1, 0));
    lent->view = mapped_or_exit(mmap(rounded_up(room) + LEND_PAGE, LEND_PAGE, access,
                                     MAP_SHARED | MAP_FIXED, memory, 0));
    close(memory);
}

static void fill(struct gen *gen, uint8_t *to, size_t count)
{
    for (; count >= sizeof(uint64_t); count -= sizeof(uint64_t), to += sizeof(uint64_t)) {
        uint64_t any = gen_next(gen);
        memcpy(to, &any, sizeof any);
    }
    uint64_t any = gen_next(gen);
    memcpy(to, &any, count);
}

static size_t place_at(struct gen *gen, const struct lent *lent, enum lend_place place,
                       size_t bytes)
{
    switch (place) {
    case LEND_AT_END:
        return LEND_PAGE - bytes;
    case LEND_AT_START:
        return 0;
    default:
        return LEND_GUARD + gen_below(gen, LEND_GUARD / lent->unit) * lent->unit;
    }
}

static void tell_checker(const struct lent *lent)
{
    VALGRIND_MAKE_MEM_NOACCESS(lent->view, LEND_PAGE);
    if (lent->writable)
        VALGRIND_MAKE_MEM_UNDEFINED(lent->view + lent->at, lent->bytes);
    else
        VALGRIND_MAKE_MEM_DEFINED(lent->view + lent->at, lent->bytes);
}

void *lend(struct lent *lent, struct gen *gen, enum lend_place place, const void *content,
           size_t bytes)
{
    size_t at = place_at(gen, lent, place, bytes);

    lent->at = at;
    lent->bytes = bytes;
    lent->low = at < LEND_GUARD ? 0 : at - LEND_GUARD;
    lent->high = at + bytes + LEND_GUARD > LEND_PAGE ? LEND_PAGE : at + bytes + LEND_GUARD;
    if (content != NULL) {
        fill(gen, lent->copy + lent->low, at - lent->low);
        memcpy(lent->copy + at, content, bytes);
        fill(gen, lent->copy + at + bytes, lent->high - at - bytes);
    } else {
        fill(gen, lent->copy + lent->low, lent->high - lent->low);
    }
    memcpy(lent->own + lent->low, lent->copy + lent->low, lent->high - lent->low);
    tell_checker(lent);
    lent->given = lent->view + at;
    if (place == LEND_NOWHERE && bytes == 0)
        lent->given = (uint8_t *)(uintptr_t)lent->unit;
    return lent->given;
}

void *lend_copy(struct lent *lent)
{
    return lent->copy + lent->at;
}

const void *lend_left(const struct lent *lent)
{
    return lent->own + lent->at;
}

bool lend_kept(const struct lent *lent, long *where)
{
    const uint8_t *left = lent->own + lent->low;
    const uint8_t *copy = lent->copy + lent->low;

    if (memcmp(left, copy, lent->high - lent->low) == 0)
        return true;
    size_t i = 0;
    while (left[i] == copy[i])
        i++;
    *where = (long)(lent->low + i) - (long)lent->at;
    return false;
}

bool lend_owns(const struct lent *lent, const void *address, long *where)
{
    const uint8_t *byte = address;

    if (byte < lent->view - LEND_PAGE || byte >= lent->view + 2 * LEND_PAGE)
        return false;
    *where = (long)(byte - (lent->view + lent->at));
    return true;
}
