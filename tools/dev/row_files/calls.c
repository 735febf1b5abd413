/* The calls of the C library by which the program reads and writes: word writes to the file IMAGE are counted, and the one after the first
 * FUSE of them is refused; reads of the file SCRIPT and writes to standard output come in the manners READS and WRITES, and no more than ROOM
 * bytes are written there. The number of word writes stands in the file with the descriptor COUNT, as text.
 *
 * A manner is "steady", "idle", "broken", "interrupted", or a number: bytes pass one at a time, each call before one is interrupted, and the
 * call with the number, from 1, fails; none where it is 0. */
#include <dlfcn.h>
#include <errno.h>
#include <fcntl.h>
#include <stdarg.h>
#include <stdio.h>
#include <stdlib.h>
#include <string.h>
#include <sys/types.h>
#include <unistd.h>

enum { WORD = 2, NO_FILE = -1 };

struct stream {
    const char *manner;
    unsigned long calls;
};

static int image = NO_FILE, script = NO_FILE;
static unsigned long passed;
static int is_used_up;
static size_t written;
static struct stream reads, writes;

static int is_named(const char *path, const char *name) {
    const char *wanted = getenv(name);
    return wanted && !strcmp(path, wanted);
}

/* How many bytes a call may move, of so many; -1 where it fails. */
static ssize_t allowed(struct stream *stream, const char *name, size_t size) {
    stream->manner = getenv(name);
    if (!stream->manner || !strcmp(stream->manner, "steady")) return (ssize_t)size;
    ++stream->calls;
    if (!strcmp(stream->manner, "idle")) return 0;
    if (!strcmp(stream->manner, "interrupted")) return errno = EINTR, -1;
    if (!strcmp(stream->manner, "broken") || stream->calls == strtoul(stream->manner, 0, 10)) return errno = EPIPE, -1;
    if (stream->calls % 2 == 1) return errno = EINTR, -1;
    return size ? 1 : 0;
}

int open(const char *path, int flags, ...) {
    int (*real)(const char *, int, ...) = dlsym(RTLD_NEXT, "open");
    va_list more;
    va_start(more, flags);
    int file = real(path, flags, va_arg(more, int));
    va_end(more);
    if (file >= 0 && is_named(path, "IMAGE")) image = file;
    if (file >= 0 && is_named(path, "SCRIPT")) script = file;
    return file;
}

int open64(const char *path, int flags, ...) __attribute__((alias("open")));

int close(int file) {
    int (*real)(int) = dlsym(RTLD_NEXT, "close");
    if (file == image) image = NO_FILE;
    if (file == script) script = NO_FILE;
    return real(file);
}

ssize_t read(int file, void *bytes, size_t size) {
    ssize_t (*real)(int, void *, size_t) = dlsym(RTLD_NEXT, "read");
    if (file != script) return real(file, bytes, size);
    ssize_t most = allowed(&reads, "READS", size);
    return most <= 0 ? most : real(file, bytes, (size_t)most);
}

static ssize_t put(int file, const void *bytes, size_t size, off_t place) {
    ssize_t (*real)(int, const void *, size_t, off_t) = dlsym(RTLD_NEXT, "pwrite");
    return real(file, bytes, size, place);
}

/* Whether the fuse refuses the next word. */
static int is_due(void) {
    const char *fuse = getenv("FUSE");
    return fuse && !is_used_up && passed == strtoul(fuse, 0, 10);
}

static ssize_t write_word(int file, const void *bytes, off_t place) {
    const char *count = getenv("COUNT");
    if (is_due()) return is_used_up = 1, errno = EIO, -1;
    ssize_t moved = put(file, bytes, WORD, place);
    if (moved == WORD && count) {
        char text[24];
        ++passed;
        if (put(atoi(count), text, (size_t)snprintf(text, sizeof text, "%lu\n", passed), 0) < 0) abort();
    }
    return moved;
}

/* One word after another. The call ends before a word that the fuse refuses, so that the next call, which begins with it, fails. */
static ssize_t write_words(int file, const char *bytes, size_t size, off_t place) {
    size_t moved = 0;
    while (moved < size && !(moved && is_due())) {
        ssize_t now = write_word(file, bytes + moved, place + (off_t)moved);
        if (now != WORD) return moved ? (ssize_t)moved : now;
        moved += WORD;
    }
    return (ssize_t)moved;
}

ssize_t pwrite(int file, const void *bytes, size_t size, off_t place) {
    return file == image && size % WORD == 0 ? write_words(file, bytes, size, place) : put(file, bytes, size, place);
}
ssize_t pwrite64(int file, const void *bytes, size_t size, off_t place) __attribute__((alias("pwrite")));

ssize_t write(int file, const void *bytes, size_t size) {
    ssize_t (*real)(int, const void *, size_t) = dlsym(RTLD_NEXT, "write");
    const char *room = getenv("ROOM");
    if (file != STDOUT_FILENO) return real(file, bytes, size);
    ssize_t most = allowed(&writes, "WRITES", size);
    if (most <= 0) return most;
    if (room) {
        size_t left = strtoul(room, 0, 10) - written;
        if (!left && most) return errno = ENOSPC, -1;
        if ((size_t)most > left) most = (ssize_t)left;
    }
    ssize_t moved = real(file, bytes, (size_t)most);
    if (moved > 0) written += (size_t)moved;
    return moved;
}
