#define _DEFAULT_SOURCE
#include "lent.h"

#include <stdio.h>
#include <stdlib.h>
#include <string.h>
#include <sys/mman.h>

#ifdef UNDER_VALGRIND
#include <valgrind/memcheck.h>
#define BAR(from, length) ((void)VALGRIND_MAKE_MEM_NOACCESS(from, length))
#define ALLOW(from, length) ((void)VALGRIND_MAKE_MEM_DEFINED(from, length))
#define BLANK(from, length) ((void)VALGRIND_MAKE_MEM_UNDEFINED(from, length))
#elif defined(__SANITIZE_ADDRESS__)
#include <sanitizer/asan_interface.h>
#define BAR(from, length) ASAN_POISON_MEMORY_REGION(from, length)
#define ALLOW(from, length) ASAN_UNPOISON_MEMORY_REGION(from, length)
#define BLANK(from, length) ((void)(from), (void)(length))
#else
#define BAR(from, length) ((void)(from), (void)(length))
#define ALLOW(from, length) ((void)(from), (void)(length))
#define BLANK(from, length) ((void)(from), (void)(length))
#endif

enum { PAGE = 4096, GUARD = 0xC7, MOST_LISTS = 16 };

static const lent *lists[MOST_LISTS];
static size_t lists_made;

static size_t whole_pages(size_t length)
{
    return (length + PAGE - 1) / PAGE * PAGE;
}

static void fail(const char *what)
{
    perror(what);
    exit(2);
}

static void protect(lent *l, int protection)
{
    if (l->opened > 0 && mprotect(l->open, l->opened, protection) != 0)
        fail("mprotect");
}

void lent_make(lent *l, const char *name, size_t most)
{
    memset(l, 0, sizeof *l);
    l->name = name;
    l->room = whole_pages(most);
    l->region = mmap(NULL, l->room + 2 * PAGE, PROT_NONE, MAP_PRIVATE | MAP_ANONYMOUS | MAP_NORESERVE, -1, 0);
    if (l->region == MAP_FAILED)
        fail("mmap");
    l->before = malloc(most + 1);
    if (l->before == NULL || lists_made == MOST_LISTS)
        fail("lent_make");
    lists[lists_made++] = l;
}

/* The bytes of the open pages before the list, and behind it. */
static size_t bytes_before(const lent *l)
{
    return (size_t)(l->data - l->open);
}

static size_t bytes_behind(const lent *l)
{
    return l->opened - bytes_before(l) - l->length;
}

void lent_open(lent *l, size_t length, int at_end)
{
    uint8_t *const pages = l->region + PAGE;
    if (length > l->room)
        fail("lent_open");
    l->length = length;
    l->opened = whole_pages(length);
    l->open = at_end ? pages + l->room - l->opened : pages;
    l->data = at_end ? pages + l->room - length : pages;
    protect(l, PROT_READ | PROT_WRITE);
    ALLOW(l->open, l->opened);
    memset(l->open, GUARD, bytes_before(l));
    memset(l->data + length, GUARD, bytes_behind(l));
}

void lent_lend(lent *l, enum use use)
{
    static const int protections[] = {PROT_NONE, PROT_READ, PROT_READ | PROT_WRITE};
    memcpy(l->before, l->data, l->length);
    BAR(l->open, bytes_before(l));
    BAR(l->data + l->length, bytes_behind(l));
    if (use == UNTOUCHED)
        BAR(l->data, l->length);
    protect(l, protections[use]);
}

void lent_bar(lent *l, size_t from, size_t length)
{
    BAR(l->data + from, length);
}

void lent_blank(lent *l)
{
    BLANK(l->data, l->length);
}

int lent_return(lent *l)
{
    size_t i;
    protect(l, PROT_READ | PROT_WRITE);
    ALLOW(l->open, l->opened);
    for (i = 0; i < bytes_before(l); i++)
        if (l->open[i] != GUARD)
            return 0;
    for (i = 0; i < bytes_behind(l); i++)
        if (l->data[l->length + i] != GUARD)
            return 0;
    return 1;
}

void lent_close(lent *l)
{
    protect(l, PROT_NONE);
    l->opened = 0;
}

const lent *lent_at(const void *address)
{
    const uint8_t *const at = address;
    size_t i;
    for (i = 0; i < lists_made; i++)
        if (at >= lists[i]->region && at < lists[i]->region + lists[i]->room + 2 * PAGE)
            return lists[i];
    return NULL;
}
