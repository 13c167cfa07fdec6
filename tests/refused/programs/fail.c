/* Makes one allocation of a program fail: preloaded, it counts the program's calls of malloc and realloc, and has the one of the number
   REFUSED_AT fail, or also all after it if REFUSED_ON is set. When the program ends it writes to the descriptor REFUSED_TO how many calls
   there were, and how many of them failed. */
#define _GNU_SOURCE
#include <dlfcn.h>
#include <errno.h>
#include <stdio.h>
#include <stdlib.h>
#include <unistd.h>

extern void *__libc_malloc(size_t size);
extern void *__libc_realloc(void *block, size_t size);

static size_t asked, failed, at;
static int on, to = -1;

static size_t number_of(const char *name)
{
    const char *text = getenv(name);
    return text ? strtoull(text, NULL, 10) : 0;
}

__attribute__((constructor)) static void begin(void)
{
    to = getenv("REFUSED_TO") ? (int)number_of("REFUSED_TO") : -1;
    on = number_of("REFUSED_ON") != 0;
    asked = failed = 0;
    at = number_of("REFUSED_AT");
}

static int fails(void)
{
    asked++;
    if (at == 0 || (on ? asked < at : asked != at))
        return 0;
    failed++;
    errno = ENOMEM;
    return 1;
}

void *malloc(size_t size)
{
    return fails() ? NULL : __libc_malloc(size);
}

void *realloc(void *block, size_t size)
{
    return fails() ? NULL : __libc_realloc(block, size);
}

__attribute__((destructor)) static void end(void)
{
    char line[64];
    at = 0;
    if (to >= 0) {
        int length = snprintf(line, sizeof line, "%zu %zu\n", asked, failed);
        if (write(to, line, (size_t)length) != length)
            _exit(99);
    }
}
