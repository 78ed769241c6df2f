/* The checks that the C tests are made of, and the buffers that they lend. */
#define _DEFAULT_SOURCE
#include "check.h"

#include <stdio.h>
#include <stdlib.h>
#include <string.h>
#include <sys/mman.h>
#include <unistd.h>

enum { GUARD_WORDS = 16 };
static const uint32_t GUARD = 0xA5C35A3Cu;
static const uint32_t FRESH = 0x5EED5EEDu;

static unsigned long passed;
static unsigned long passed_before;

static const char *case_part = "";
static size_t case_number;

void check_at(const char *file, int line, int holds, const char *what)
{
    if (!holds) {
        fprintf(stderr, "%s:%d: failed: %s (%s, case %zu)\n", file, line, what, case_part, case_number);
        exit(1);
    }
    passed++;
}

void check_case(const char *part, size_t number)
{
    case_part = part;
    case_number = number;
}

void check_part(const char *part)
{
    printf("%s: %lu checks\n", part, passed - passed_before);
    passed_before = passed;
}

void check_end(void)
{
    printf("%lu checks passed\n", passed);
}

static void stop(const char *what)
{
    perror(what);
    exit(1);
}

struct lent lent_of(size_t count, enum lent_behind behind)
{
    const size_t page = (size_t)sysconf(_SC_PAGESIZE);
    struct lent l;
    l.count = count;
    l.behind = behind == GUARDS ? GUARD_WORDS : 0;
    const size_t need = (GUARD_WORDS + count + l.behind) * sizeof(uint32_t);
    const size_t open = (need + page - 1) / page * page;
    l.bytes = open + 2 * page;
    l.pages = mmap(NULL, l.bytes, PROT_NONE, MAP_PRIVATE | MAP_ANONYMOUS, -1, 0);
    if (l.pages == MAP_FAILED || mprotect(l.pages + page, open, PROT_READ | PROT_WRITE) != 0) {
        stop("mmap");
    }
    l.first = (uint32_t *)(void *)(l.pages + page);
    const size_t all = open / sizeof(uint32_t);
    for (size_t i = 0; i < all; i++) {
        l.first[i] = GUARD;
    }
    l.words = l.first + (all - l.behind - count);
    for (size_t i = 0; i < count; i++) {
        l.words[i] = FRESH;
    }
    l.copy = malloc((count + 1) * sizeof(uint32_t));
    if (l.copy == NULL) {
        stop("malloc");
    }
    lent_note(&l);
    return l;
}

void lent_back(struct lent *l)
{
    munmap(l->pages, l->bytes);
    free(l->copy);
}

void lent_note(struct lent *l)
{
    memcpy(l->copy, l->words, l->count * sizeof(uint32_t));
}

int lent_same(const struct lent *l, size_t from)
{
    return memcmp(l->copy + from, l->words + from, (l->count - from) * sizeof(uint32_t)) == 0;
}

struct lent_bytes lent_bytes_of(const uint8_t *from, size_t count, enum lent_behind behind, size_t before_end)
{
    struct lent_bytes b;
    b.lent = lent_of((count + before_end + sizeof(uint32_t) - 1) / sizeof(uint32_t), behind);
    b.at = (uint8_t *)b.lent.words + (b.lent.count * sizeof(uint32_t) - before_end - count);
    if (from != NULL) {
        memcpy(b.at, from, count);
        lent_note(&b.lent);
    }
    return b;
}

int lent_guarded(const struct lent *l)
{
    for (const uint32_t *w = l->first; w < l->words; w++) {
        if (*w != GUARD) {
            return 0;
        }
    }
    for (size_t i = 0; i < l->behind; i++) {
        if (l->words[l->count + i] != GUARD) {
            return 0;
        }
    }
    return 1;
}
