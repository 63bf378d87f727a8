/* A flash in memory for examples and tests: it carries operations out, and tears one of them. */
#ifndef FLASH_H
#define FLASH_H

#include "faultmem.h"
#include <stdio.h>
#include <stdlib.h>
#include <string.h>

#define PAGES 64
#define SIZE (64 * PAGES)

/* Which bits of a torn operation take effect: none, all, those of the tail, or the odd ones of each byte (docs/FLASH.md). */
enum pattern { NONE, ALL, TAIL, ODD, PATTERNS };

static uint8_t *place_of(uint8_t *flash, const struct faultmem_operation *o) {
    return flash + 32 * ((size_t)o->sector * PAGES + o->page);
}

static size_t size_of(const struct faultmem_operation *o) {
    return o->kind == FAULTMEM_PROGRAM ? 32 : 32 * PAGES;
}

static uint8_t new_byte(const struct faultmem_operation *o, size_t i) {
    return o->kind == FAULTMEM_PROGRAM ? o->bytes[i] : 255;
}

static void carry(uint8_t *flash, const struct faultmem_operation *o) {
    uint8_t *place = place_of(flash, o);
    for (size_t i = 0; i < size_of(o); i++)
        place[i] = new_byte(o, i);
}

static void tear(uint8_t *flash, const struct faultmem_operation *o, enum pattern pattern) {
    uint8_t *place = place_of(flash, o);
    size_t tail = o->kind == FAULTMEM_PROGRAM ? 16 : 64;
    for (size_t i = 0; i < size_of(o); i++) {
        uint8_t mask = pattern == ALL || (pattern == TAIL && i >= tail) ? 0xFF : pattern == ODD ? 0xAA : 0;
        place[i] = (uint8_t)((place[i] & ~mask) | (new_byte(o, i) & mask));
    }
}

/* Ends the program if something is not as it must be. */
static void must(int is, const char *what) {
    if (!is) {
        fprintf(stderr, "not so: %s\n", what);
        exit(1);
    }
}

/* A program goes into a blank page alone. Where FLASH_UNCHECKED is defined it is not tested. */
static inline void check_blank(uint8_t *flash, const struct faultmem_operation *o) {
#ifdef FLASH_UNCHECKED
    (void)flash, (void)o;
#else
    for (size_t i = 0; o->kind == FAULTMEM_PROGRAM && i < 32; i++)
        must(place_of(flash, o)[i] == 255, "a page is programmed that is blank");
#endif
}

/* Carries all operations out, but for number `torn`, which is torn and ends it: whether all were done. */
static inline int carry_out(struct faultmem *m, uint8_t *flash, size_t torn, enum pattern pattern) {
    struct faultmem_operation o;
    for (size_t i = 0; faultmem_operation(m, i, &o) == FAULTMEM_OK; i++) {
        check_blank(flash, &o);
        if (i == torn) {
            tear(flash, &o, pattern);
            return 0;
        }
        carry(flash, &o);
    }
    return 1;
}

/* Carries all operations out and says so. */
static inline void finish(struct faultmem *m, uint8_t *flash) {
    struct faultmem_left left;
    must(faultmem_left(m, &left) == FAULTMEM_OK, "what a call left is told");
    must(carry_out(m, flash, (size_t)-1, NONE), "all operations are carried out");
    if (left.operations != 0)
        must(faultmem_done(m) == FAULTMEM_OK, "done is taken");
}

#endif
