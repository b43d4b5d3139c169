// Loaded before a program's own libraries (LD_PRELOAD), damages a file before the program's first pread.
//
//   DAMAGED=FILE        the file
//   DAMAGE=FILE         what is put into it: for each piece its offset and its length, numbers of 8 bytes, and then its bytes
#define _GNU_SOURCE
#include <dlfcn.h>
#include <fcntl.h>
#include <pthread.h>
#include <stdint.h>
#include <stdio.h>
#include <stdlib.h>
#include <sys/types.h>
#include <unistd.h>

static ssize_t (*real)(int, void *, size_t, off_t);
static pthread_once_t once = PTHREAD_ONCE_INIT;

static void damage(void) {
    const char *from = getenv("DAMAGE"), *to = getenv("DAMAGED");
    FILE *pieces = from ? fopen(from, "r") : NULL;
    int fd = to ? open(to, O_WRONLY | O_CLOEXEC) : -1;
    if (!pieces || fd < 0) _exit(99);
    uint64_t head[2];
    while (fread(head, sizeof head, 1, pieces) == 1) {
        char *bytes = malloc(head[1] + 1);
        if (!bytes || fread(bytes, 1, head[1], pieces) != head[1]) _exit(99);
        if (pwrite(fd, bytes, head[1], (off_t)head[0]) != (ssize_t)head[1]) _exit(99);
        free(bytes);
    }
    fclose(pieces);
    close(fd);
}

__attribute__((constructor)) static void begin(void) {
    real = (ssize_t(*)(int, void *, size_t, off_t))dlsym(RTLD_NEXT, "pread");
}

ssize_t pread(int fd, void *bytes, size_t len, off_t at) {
    pthread_once(&once, damage);
    return real(fd, bytes, len, at);
}

ssize_t pread64(int fd, void *bytes, size_t len, off_t at) {
    return pread(fd, bytes, len, at);
}
