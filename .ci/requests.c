/* Refuses the request for memory whose number REFUSED names, and prints on the standard error how many
   requests came before the end of each line of the standard output, how many came in all, and whether one
   was refused. It is put before the C library, or, with WRAPPED, linked into the program by --wrap: a
   program that is not proved has a malloc of its own, which finds faults. */
#define _GNU_SOURCE
#include <dlfcn.h>
#include <stdio.h>
#include <stdlib.h>
#include <unistd.h>

#ifdef WRAPPED
__typeof__(malloc) __real_malloc;
__typeof__(realloc) __real_realloc;
__typeof__(write) __real_write;
#define OWN(name) __wrap_##name
#define NEXT(name) __real_##name
#else
#define OWN(name) name
#define NEXT(name) ((__typeof__(name) *)dlsym(RTLD_NEXT, #name))
#endif

static long refused, count;

__attribute__((constructor)) static void begin(void) {
    const char *number = getenv("REFUSED");
    refused = number ? atol(number) : 0;
}

static int is_refused(void) { return ++count == refused; }

void *OWN(malloc)(size_t size) { return is_refused() ? NULL : NEXT(malloc)(size); }

void *OWN(realloc)(void *at, size_t size) { return is_refused() ? NULL : NEXT(realloc)(at, size); }

ssize_t OWN(write)(int to, const void *octets, size_t size) {
    char text[32];
    for (size_t at = 0; to == 1 && at < size; at++)
        if (((const char *)octets)[at] == '\n')
            NEXT(write)(2, text, snprintf(text, sizeof text, "%ld ", count));
    return NEXT(write)(to, octets, size);
}

__attribute__((destructor)) static void end(void) {
    char text[48];
    NEXT(write)(2, text, snprintf(text, sizeof text, "%ld %d", count, refused > 0 && count >= refused));
}
