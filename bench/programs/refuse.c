/* Refuses the request for memory whose number REFUSE says, and then writes a byte to the descriptor that REFUSED says. */
#include <stddef.h>
#include <stdlib.h>
#include <unistd.h>

void *__libc_malloc(size_t size);
void *__libc_realloc(void *old, size_t size);

static long met;

static int refuses(void)
{
    const char *which = getenv("REFUSE"), *told = getenv("REFUSED");
    met += 1;
    if (which == NULL || told == NULL || atol(which) != met)
        return 0;
    return write(atoi(told), "x", 1) == 1;
}

void *malloc(size_t size) { return refuses() ? NULL : __libc_malloc(size); }

void *realloc(void *old, size_t size) { return refuses() ? NULL : __libc_realloc(old, size); }
