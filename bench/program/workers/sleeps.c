/* Preloaded, it notes each call by which a thread sleeps at a word or wakes others there: the word,
   whether it slept or how many it woke at most, and the nanoseconds from the start of the program
   to the begin and the end of the call. They go to the file that SLEEPS names. */
#define _GNU_SOURCE
#include <dlfcn.h>
#include <stdarg.h>
#include <stdatomic.h>
#include <stdio.h>
#include <stdlib.h>
#include <sys/syscall.h>
#include <time.h>
#include <unistd.h>

#define MOST 4000000
#define OPERATION 127
#define WAKE 1

static struct {
    long word, wakes, begun, ended;
} calls[MOST];
static atomic_long count;
static long start;

static long now(void) {
    struct timespec at;
    clock_gettime(CLOCK_MONOTONIC, &at);
    return at.tv_sec * 1000000000L + at.tv_nsec;
}

__attribute__((constructor)) static void begin(void) {
    start = now();
}

__attribute__((destructor)) static void end(void) {
    const char *name = getenv("SLEEPS");
    FILE *file = name ? fopen(name, "w") : NULL;
    long number = atomic_load(&count);
    if (!file) return;
    for (long it = 0; it < number && it < MOST; it++)
        fprintf(file, "%lx %ld %ld %ld\n", calls[it].word, calls[it].wakes,
                calls[it].begun - start, calls[it].ended - start);
    fclose(file);
}

/* A program may end without its destructors. */
void _exit(int status) {
    void (*real)(int) = (void (*)(int))dlsym(RTLD_NEXT, "_exit");
    end();
    real(status);
    __builtin_unreachable();
}

long syscall(long number, ...) {
    static long (*real)(long, ...);
    va_list list;
    long words[6];
    if (!real) real = dlsym(RTLD_NEXT, "syscall");
    va_start(list, number);
    for (int it = 0; it < 6; it++) words[it] = va_arg(list, long);
    va_end(list);
    long begun = now();
    long answer = real(number, words[0], words[1], words[2], words[3], words[4], words[5]);
    long place = number == SYS_futex ? atomic_fetch_add(&count, 1) : MOST;
    if (place < MOST) {
        calls[place].word = words[0];
        calls[place].wakes = (words[1] & OPERATION) == WAKE ? words[2] : 0;
        calls[place].begun = begun;
        calls[place].ended = now();
    }
    return answer;
}
