/* Loaded into a program, says on standard error how long it took at most from the end of one answer's writing to the begin of the next
   one's, in nanoseconds. The first SKIPPED answers are left out. A word of an image is written by pwrite, or by a write of two bytes in older
   programs; all other writes are answers, whatever the number of the file. */
#define _GNU_SOURCE
#include <dlfcn.h>
#include <stdio.h>
#include <stdlib.h>
#include <time.h>
#include <unistd.h>

enum { WORD = 2 };

static long last, longest, writes, skipped;
static ssize_t (*real)(int, const void *, size_t);

static long now(void) {
    struct timespec time;
    clock_gettime(CLOCK_MONOTONIC, &time);
    return time.tv_sec * 1000000000L + time.tv_nsec;
}

__attribute__((constructor)) static void begin(void) {
    const char *given = getenv("SKIPPED");
    skipped = given ? atol(given) : 0;
    real = dlsym(RTLD_NEXT, "write");
}

ssize_t write(int file, const void *bytes, size_t size) {
    if (size <= WORD) return real(file, bytes, size);
    long time = now();
    if (writes > skipped && time - last > longest) longest = time - last;
    writes++;
    ssize_t written = real(file, bytes, size);
    last = now();
    return written;
}

__attribute__((destructor)) static void tell(void) {
    fprintf(stderr, "longest %ld ns\n", longest);
}
