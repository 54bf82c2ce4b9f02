/* Refuses growths of memory of the program that it is loaded into before the C library: those
 * whose numbers, from 1, stand in REFUSED_GROWTH and REFUSED_SECOND, and all from the one on whose
 * number stands in REFUSED_FROM. At the end it writes to the file descriptor 3 how many growths
 * there were. With GROWTHS_OF_MAIN it counts those of the main thread alone, whose numbers don't
 * depend on when the other threads run. */
#include <errno.h>
#include <stdatomic.h>
#include <stdio.h>
#include <stdlib.h>
#include <sys/syscall.h>
#include <unistd.h>

void *__libc_malloc(size_t size);
void *__libc_realloc(void *block, size_t size);

static long refused;
static long refused_second;
static long refused_from;
static long is_of_main;
static atomic_long growths;

static long number_in(const char *name) {
    const char *text = getenv(name);
    return text ? atol(text) : 0;
}

__attribute__((constructor)) static void start(void) {
    refused = number_in("REFUSED_GROWTH");
    refused_second = number_in("REFUSED_SECOND");
    refused_from = number_in("REFUSED_FROM");
    is_of_main = number_in("GROWTHS_OF_MAIN");
    growths = 0;
}

__attribute__((destructor)) static void end(void) {
    dprintf(3, "%ld", (long)growths);
}

/* A program that may start threads ends by this, and no destructor is called. */
void _exit(int status) {
    end();
    for (;;)
        syscall(SYS_exit_group, status);
}

static int is_refused(void) {
    if (is_of_main && syscall(SYS_gettid) != getpid())
        return 0;
    long number = ++growths;
    if (number != refused && number != refused_second
        && (refused_from == 0 || number < refused_from))
        return 0;
    errno = ENOMEM;
    return 1;
}

void *malloc(size_t size) {
    return is_refused() ? NULL : __libc_malloc(size);
}

void *realloc(void *block, size_t size) {
    return is_refused() ? NULL : __libc_realloc(block, size);
}
