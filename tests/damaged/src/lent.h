/* Lists that are lent to the library, each between pages that trap.
 *
 * A list lies right before a page that may not be touched, or right behind one. What is left of its own pages on the
 * other side is filled with guard bytes. Under valgrind and AddressSanitizer those bytes may not be touched either. */
#ifndef LENT_H
#define LENT_H

#include <stddef.h>
#include <stdint.h>

typedef struct lent {
    const char *name;
    uint8_t *region; /* the pages, and a page that traps on each side of them */
    size_t room; /* the bytes of the pages */
    uint8_t *open; /* the pages in use */
    size_t opened; /* their bytes */
    uint8_t *data; /* the list */
    size_t length; /* its bytes */
    uint8_t *before; /* a copy of the list as it was lent */
} lent;

enum use {
    UNTOUCHED, /* neither read nor written */
    READ, /* read alone */
    WRITTEN /* read and written */
};

/* Room for lists of up to so many bytes. */
void lent_make(lent *l, const char *name, size_t most);

/* A list of so many bytes, at the end of the pages or at their start; the caller fills it. */
void lent_open(lent *l, size_t length, int at_end);

/* Keeps a copy and allows the one use, until lent_return. */
void lent_lend(lent *l, enum use use);

/* The list back, with any use allowed. 1 where its guard bytes are as they were, else 0. */
int lent_return(lent *l);

/* Bars all use until the next lent_open. */
void lent_close(lent *l);

/* Under valgrind: a part of a list that is lent for writing may not be touched, or holds nothing yet. Undone by
 * lent_return. */
void lent_bar(lent *l, size_t from, size_t length);
void lent_blank(lent *l);

/* The list that an address belongs to, or lies right beside; NULL if none. */
const lent *lent_at(const void *address);

#endif
