// Loaded before a program's own libraries (LD_PRELOAD), loses some of its calls of pwrite: they answer as if they had been made, and the
// file keeps the bytes that it had there.
//
//   LOSE=N              one in so many is lost, by chance; 1: all are
//   SEED=N              what the chance begins with
//   LOST=FILE           a list of numbers of 8 bytes, made as long as it can become: how many calls there were, how many of them were
//                       lost, and the offset of each of these
#define _GNU_SOURCE
#include <dlfcn.h>
#include <fcntl.h>
#include <stdatomic.h>
#include <stdint.h>
#include <stdlib.h>
#include <sys/mman.h>
#include <sys/stat.h>
#include <sys/types.h>
#include <unistd.h>

struct list {
    _Atomic uint64_t calls;
    _Atomic uint64_t lost;
    uint64_t offsets[];
};

static ssize_t (*real)(int, const void *, size_t, off_t);
static struct list *list;
static uint64_t room, lose, seed;

// A number that looks like any other (splitmix64).
static uint64_t mixed(uint64_t it) {
    it *= 0x9e3779b97f4a7c15;
    it = (it ^ it >> 30) * 0xbf58476d1ce4e5b9;
    it = (it ^ it >> 27) * 0x94d049bb133111eb;
    return it ^ it >> 31;
}

__attribute__((constructor)) static void begin(void) {
    real = (ssize_t(*)(int, const void *, size_t, off_t))dlsym(RTLD_NEXT, "pwrite");
    const char *path = getenv("LOST"), *each = getenv("LOSE"), *chance = getenv("SEED");
    lose = each ? strtoull(each, NULL, 10) : 0;
    seed = mixed(chance ? strtoull(chance, NULL, 10) : 0);
    struct stat found;
    int fd = path ? open(path, O_RDWR | O_CLOEXEC) : -1;
    if (fd < 0 || !lose || fstat(fd, &found) || (size_t)found.st_size < sizeof *list) _exit(99);
    room = ((uint64_t)found.st_size - sizeof *list) / sizeof *list->offsets;
    list = mmap(NULL, (size_t)found.st_size, PROT_READ | PROT_WRITE, MAP_SHARED, fd, 0);
    close(fd);
    if (list == MAP_FAILED) _exit(99);
}

// Whether the next call is lost. It is on the list then.
static int is_lost(off_t at) {
    uint64_t number = atomic_fetch_add(&list->calls, 1);
    if (mixed(seed + number) % lose) return 0;
    uint64_t place = atomic_fetch_add(&list->lost, 1);
    if (place >= room) abort();
    list->offsets[place] = (uint64_t)at;
    return 1;
}

ssize_t pwrite(int fd, const void *bytes, size_t len, off_t at) {
    return is_lost(at) ? (ssize_t)len : real(fd, bytes, len, at);
}

ssize_t pwrite64(int fd, const void *bytes, size_t len, off_t at) {
    return pwrite(fd, bytes, len, at);
}
