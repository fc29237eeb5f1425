/* Times each call by which a thread wakes one that sleeps, from call to return, and prints how many there were and the
   quartiles in nanoseconds, to standard error, as the program ends. Loaded before the library of C, as by bench/waking. */
#define _GNU_SOURCE
#include <dlfcn.h>
#include <linux/futex.h>
#include <stdarg.h>
#include <stdatomic.h>
#include <stdio.h>
#include <sys/syscall.h>
#include <time.h>

enum { STEP = 10, STEPS = 100000 };

static long (*of_c)(long, ...);
static atomic_ulong woke[STEPS], slept, woke_none;

static unsigned long now(void) {
    struct timespec it;
    clock_gettime(CLOCK_MONOTONIC, &it);
    return it.tv_sec * 1000000000ul + it.tv_nsec;
}

long syscall(long number, ...) {
    long a[6];
    va_list list;
    va_start(list, number);
    for (int k = 0; k < 6; k++) a[k] = va_arg(list, long);
    va_end(list);
    if (!of_c) of_c = (long (*)(long, ...))dlsym(RTLD_NEXT, "syscall");
    int call = number == SYS_futex ? a[1] & FUTEX_CMD_MASK : -1;
    unsigned long begin = now();
    long answer = of_c(number, a[0], a[1], a[2], a[3], a[4], a[5]);
    if (call == FUTEX_WAKE && answer > 0) {
        unsigned long took = (now() - begin) / STEP;
        woke[took < STEPS ? took : STEPS - 1]++;
    } else if (call == FUTEX_WAKE) {
        woke_none++;
    } else if (call == FUTEX_WAIT || call == FUTEX_WAIT_BITSET) {
        slept++;
    }
    return answer;
}

static void tell(void) {
    unsigned long all = 0, seen = 0, quarter = 1;
    for (int k = 0; k < STEPS; k++) all += woke[k];
    fprintf(stderr, "woke %lu, nobody %lu, slept %lu", all, (unsigned long)woke_none, (unsigned long)slept);
    for (int k = 0; k < STEPS && all; k++)
        for (seen += woke[k]; quarter < 4 && seen * 4 >= all * quarter; quarter++)
            fprintf(stderr, "%s %d", quarter == 1 ? ", ns" : "", k * STEP);
    fputc('\n', stderr);
}

void _exit(int status) {
    tell();
    syscall(SYS_exit_group, status);
    __builtin_unreachable();
}
