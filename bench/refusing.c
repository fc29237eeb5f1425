/* Stands before the C library, and refuses requests for memory and for threads.
 *
 * What it refuses is told to it in one of two ways. For a whole call of a program by the words of its environment:
 * REFUSED_FIRST and REFUSED_LAST are the first and the last request that is refused, counted from 1, and ASKED names the
 * file in which it writes how many there were. By the program itself, while it runs, by requests for more memory than
 * there can be, which are never passed on:
 *
 *     a request for           what it does                                               it is answered
 *     ALONE and n bytes       the nth request from now on is refused, and no other       by a block
 *     ALL_AFTER and n bytes   the nth and all after it are                               by a block
 *     HOLD bytes              requests are granted, and do not count                     by a block
 *     GO_ON bytes             they count again                                           by a block
 *     END bytes               nothing is refused any more                                by a block where one was refused since
 *
 * After the first two requests are held until GO_ON. Where this library is not loaded all of these are refused, since no
 * machine has that much: so the block tells that somebody listens. Nobody writes to it.
 */
#define _GNU_SOURCE
#include <dlfcn.h>
#include <errno.h>
#include <fcntl.h>
#include <pthread.h>
#include <stdatomic.h>
#include <stdio.h>
#include <stdlib.h>
#include <sys/syscall.h>
#include <unistd.h>

#define ALONE (1UL << 62)
#define ALL_AFTER (ALONE + (1UL << 40))
#define HOLD (ALONE + (2UL << 40))
#define GO_ON (ALONE + (3UL << 40))
#define END (ALONE + (4UL << 40))

extern void *__libc_malloc(size_t), *__libc_calloc(size_t, size_t), *__libc_realloc(void *, size_t);

static atomic_ulong asked, first, last;
static atomic_int is_held, has_refused;

static unsigned long number(const char *name) {
    const char *given = getenv(name);
    return given ? strtoul(given, 0, 10) : 0;
}

__attribute__((constructor)) static void begin(void) {
    first = number("REFUSED_FIRST");
    last = number("REFUSED_LAST");
    asked = 0;
}

/* says how many requests there were; the program ends by this call */
void _exit(int status) {
    const char *name = getenv("ASKED");
    unsigned long count = asked;
    int told = name ? open(name, O_WRONLY | O_CREAT | O_TRUNC, 0600) : -1;
    last = 0;
    if (told >= 0) dprintf(told, "%lu", count);
    syscall(SYS_exit_group, status);
    __builtin_unreachable();
}

static void refuse(unsigned long from, unsigned long to) {
    asked = 0;
    has_refused = 0;
    is_held = 1;
    first = from;
    last = to;
}

static void *command(size_t n) {
    if (n == END) {
        first = 0;
        return atomic_exchange(&has_refused, 0) ? __libc_malloc(1) : 0;
    }
    if (n == HOLD || n == GO_ON) is_held = n == HOLD;
    else if (n < ALL_AFTER) refuse(n - ALONE, n - ALONE);
    else refuse(n - ALL_AFTER, -1UL);
    return __libc_malloc(1);
}

static int refused(void) {
    unsigned long n;
    if (is_held) return 0;
    n = ++asked;
    if (!first || n < first || n > last) return 0;
    has_refused = 1;
#ifdef GRANTS
    /* a control of who judges: what it says that it refused it grants, as if each call hid its want of memory */
    return 0;
#endif
    return 1;
}

void *malloc(size_t n) {
    if (n >= ALONE && n <= END) return command(n);
    if (refused()) { errno = ENOMEM; return 0; }
    return __libc_malloc(n);
}

void *calloc(size_t n, size_t m) {
    if (refused()) { errno = ENOMEM; return 0; }
    return __libc_calloc(n, m);
}

void *realloc(void *p, size_t n) {
    if (refused()) { errno = ENOMEM; return 0; }
    return __libc_realloc(p, n);
}

int pthread_create(pthread_t *t, const pthread_attr_t *a, void *(*f)(void *), void *x) {
    static int (*make)(pthread_t *, const pthread_attr_t *, void *(*)(void *), void *);
    if (refused()) return EAGAIN;
    if (!make) make = (int (*)(pthread_t *, const pthread_attr_t *, void *(*)(void *), void *)) dlsym(RTLD_NEXT, "pthread_create");
    return make(t, a, f, x);
}
