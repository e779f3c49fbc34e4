// Stands between a program of `rt try --fail-alloc` and the kit's allocator, and refuses growths: the one of the number in FAIL_AT, or all
// from the one in FAIL_FROM on. It writes how many were asked for to the file that COUNT_TO names, and the first that was refused to REFUSED_TO.
#include <fcntl.h>
#include <stdatomic.h>
#include <stdio.h>
#include <stdlib.h>
#include <unistd.h>

typedef struct {
    unsigned long well;
    void *at;
} block;

block rattle_alloc(unsigned long size, unsigned long align);
block rattle_realloc(void *at, unsigned long kept, unsigned long size, unsigned long align);

static atomic_long asked;
static atomic_int begun;
static long one, from;
static int counts = -1, tells = -1;

static long number(const char *name)
{
    const char *value = getenv(name);
    return value ? atol(value) : 0;
}

static int file(const char *name)
{
    const char *path = getenv(name);
    return path ? open(path, O_CREAT | O_TRUNC | O_WRONLY, 0644) : -1;
}

static void note(int to, long count, unsigned long size)
{
    char line[64];
    int length = snprintf(line, sizeof line, "%-12ld %-20lu\n", count, size);
    if (to >= 0 && pwrite(to, line, (size_t)length, 0) < 0)
        _exit(99);
}

__attribute__((constructor)) static void begin(void)
{
    one = number("FAIL_AT");
    from = number("FAIL_FROM");
    counts = file("COUNT_TO");
    tells = file("REFUSED_TO");
}

static int refuses(unsigned long size)
{
    long count = atomic_fetch_add(&asked, 1) + 1;
    note(counts, count, size);
    if (count != one && (from == 0 || count < from))
        return 0;
    if (atomic_exchange(&begun, 1) == 0)
        note(tells, count, size);
    return 1;
}

static block nothing(void)
{
    return (block){0, (void *)0x1000};
}

block try_rattle_alloc(unsigned long size, unsigned long align)
{
    return refuses(size) ? nothing() : rattle_alloc(size, align);
}

block try_rattle_realloc(void *at, unsigned long kept, unsigned long size, unsigned long align)
{
    return refuses(size) ? nothing() : rattle_realloc(at, kept, size, align);
}

const char *__asan_default_options(void)
{
    return "detect_leaks=0:allocator_may_return_null=1";
}
