// Loaded before a program's own libraries (LD_PRELOAD), lets one of its calls of the system go wrong.
//
//   CALLS=FILE          a file of 64 bytes: how often each of the calls below was made
//   FAULT="CALL N HOW"  what call, which one of them (from 1), and how:
//                       a number: it isn't made, and answers this error; zero: it isn't made, and answers 0;
//                       drop: it isn't made, and answers as if it had been; half: it moves half of the bytes; one: it moves one;
//                       flip:I: byte I of what it moves is another; cut:I: its file is cut to I bytes before it;
//                       at:I: an lseek isn't made, and answers I; wait: it is made once GATE is at its end
//   GATE=FD             an open stream
#define _GNU_SOURCE
#include <dlfcn.h>
#include <errno.h>
#include <fcntl.h>
#include <pthread.h>
#include <stdarg.h>
#include <stdatomic.h>
#include <stdio.h>
#include <stdlib.h>
#include <string.h>
#include <sys/mman.h>
#include <sys/types.h>
#include <unistd.h>

enum call { OPEN, LSEEK, READ, WRITE, PREAD, PWRITE, THREAD, SYNC, CALLS };

static const char *const names[CALLS] = {"open", "lseek", "read", "write", "pread", "pwrite", "pthread_create", "fdatasync"};
static void *real[CALLS];
static _Atomic unsigned long *counts;
static enum call which = CALLS;
static unsigned long number;
static char how[32];

__attribute__((constructor)) static void begin(void) {
    for (int i = 0; i < CALLS; i++) real[i] = dlsym(RTLD_NEXT, names[i]);
    const char *path = getenv("CALLS"), *fault = getenv("FAULT");
    char name[32] = "";
    if (fault && sscanf(fault, "%31s %lu %31s", name, &number, how) == 3)
        for (int i = 0; i < CALLS; i++)
            if (!strcmp(name, names[i])) which = (enum call)i;
    int fd = path ? ((int (*)(const char *, int, ...))real[OPEN])(path, O_RDWR) : -1;
    if (fd < 0) return;
    void *room = mmap(NULL, sizeof(unsigned long) * CALLS, PROT_READ | PROT_WRITE, MAP_SHARED, fd, 0);
    close(fd);
    if (room != MAP_FAILED) counts = room;
}

// Waits until the gate is at its end.
static void wait_for_gate(void) {
    const char *gate = getenv("GATE");
    char byte;
    ssize_t got = 1;
    while (gate && (got > 0 || (got < 0 && errno == EINTR)))
        got = ((ssize_t (*)(int, void *, size_t))real[READ])(atoi(gate), &byte, 1);
}

// How this call is to go wrong, or nothing.
static const char *wrong(enum call call) {
    if (!counts) return NULL;
    unsigned long it = atomic_fetch_add(&counts[call], 1) + 1;
    if (call != which || it != number) return NULL;
    if (strcmp(how, "wait")) return how;
    wait_for_gate();
    return NULL;
}

int open(const char *path, int flags, ...) {
    va_list more;
    va_start(more, flags);
    mode_t mode = flags & (O_CREAT | O_TMPFILE) ? va_arg(more, mode_t) : 0;
    va_end(more);
    const char *it = wrong(OPEN);
    if (it && atoi(it)) return errno = atoi(it), -1;
    return ((int (*)(const char *, int, ...))real[OPEN])(path, flags, mode);
}

off_t lseek(int fd, off_t offset, int whence) {
    const char *it = wrong(LSEEK);
    if (it && !strncmp(it, "at:", 3)) return atol(it + 3);
    if (it && atoi(it)) return errno = atoi(it), -1;
    return ((off_t (*)(int, off_t, int))real[LSEEK])(fd, offset, whence);
}

static ssize_t move(enum call call, int fd, void *bytes, size_t len, off_t at) {
    if (call == READ || call == WRITE) return ((ssize_t (*)(int, void *, size_t))real[call])(fd, bytes, len);
    return ((ssize_t (*)(int, void *, size_t, off_t))real[call])(fd, bytes, len, at);
}

// A call that moves bytes, made as it was asked for or otherwise.
static ssize_t moved(enum call call, int fd, void *bytes, size_t len, off_t at) {
    const char *it = wrong(call);
    if (!it || !len) return move(call, fd, bytes, len, at);
    if (atoi(it)) return errno = atoi(it), -1;
    if (!strcmp(it, "zero")) return 0;
    if (!strcmp(it, "drop")) return (ssize_t)len;
    if (!strcmp(it, "half")) return move(call, fd, bytes, len > 1 ? len / 2 : len, at);
    if (!strcmp(it, "one")) return move(call, fd, bytes, 1, at);
    if (!strncmp(it, "cut:", 4)) {
        if (ftruncate(fd, atol(it + 4))) abort();
        return move(call, fd, bytes, len, at);
    }
    size_t place = strtoul(it + strlen("flip:"), NULL, 10) % len;
    unsigned char *byte = (unsigned char *)bytes + place;
    if (call == READ || call == PREAD) {
        ssize_t got = move(call, fd, bytes, len, at);
        *byte ^= 0xff;
        return got;
    }
    // (on a copy: what the caller holds stays as it is)
    unsigned char *copy = malloc(len);
    if (!copy) abort();
    memcpy(copy, bytes, len);
    copy[place] ^= 0xff;
    ssize_t put = move(call, fd, copy, len, at);
    free(copy);
    return put;
}

ssize_t read(int fd, void *bytes, size_t len) {
    return moved(READ, fd, bytes, len, 0);
}

ssize_t write(int fd, const void *bytes, size_t len) {
    return moved(WRITE, fd, (void *)bytes, len, 0);
}

ssize_t pread(int fd, void *bytes, size_t len, off_t at) {
    return moved(PREAD, fd, bytes, len, at);
}

ssize_t pwrite(int fd, const void *bytes, size_t len, off_t at) {
    return moved(PWRITE, fd, (void *)bytes, len, at);
}

int fdatasync(int fd) {
    const char *it = wrong(SYNC);
    if (it && atoi(it)) return errno = atoi(it), -1;
    return ((int (*)(int))real[SYNC])(fd);
}

typedef int create(pthread_t *, const pthread_attr_t *, void *(*)(void *), void *);

int pthread_create(pthread_t *made, const pthread_attr_t *attributes, void *(*run)(void *), void *with) {
    const char *it = wrong(THREAD);
    if (it && atoi(it)) return atoi(it);
    return ((create *)real[THREAD])(made, attributes, run, with);
}
