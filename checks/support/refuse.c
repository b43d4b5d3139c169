// Loaded before a program's own libraries (LD_PRELOAD), counts what it asks for from the beginning of its main on, memory and
// threads alike, and refuses one of these requests, or all from one on.
//
//   COUNTS=FILE         a file of 16 bytes: the number of requests, and how many of them were refused
//   REFUSE=N            the number of the request to refuse, from 1; 0 or none: no request is refused
//   REFUSE_ON=1         refuse those behind it, too
//
// It stands on glibc, which exports its own functions by a second name.
#define _GNU_SOURCE
#include <dlfcn.h>
#include <errno.h>
#include <fcntl.h>
#include <pthread.h>
#include <stdatomic.h>
#include <stdlib.h>
#include <sys/mman.h>
#include <unistd.h>

extern void *__libc_malloc(size_t size);
extern void *__libc_calloc(size_t count, size_t size);
extern void *__libc_realloc(void *old, size_t size);
extern void *__libc_memalign(size_t align, size_t size);

struct counts {
    _Atomic unsigned long requests;
    _Atomic unsigned long refused;
};

static struct counts *counts;
static unsigned long refuse;
static int refuse_on;
static int (*real_main)(int, char **, char **);

static int is_refused(void) {
    if (!counts) return 0;
    unsigned long number = atomic_fetch_add(&counts->requests, 1) + 1;
    if (!refuse || number < refuse || (number > refuse && !refuse_on)) return 0;
    atomic_fetch_add(&counts->refused, 1);
    errno = ENOMEM;
    return 1;
}

void *malloc(size_t size) {
    return is_refused() ? NULL : __libc_malloc(size);
}

void *calloc(size_t count, size_t size) {
    return is_refused() ? NULL : __libc_calloc(count, size);
}

void *realloc(void *old, size_t size) {
    return is_refused() ? NULL : __libc_realloc(old, size);
}

void *memalign(size_t align, size_t size) {
    return is_refused() ? NULL : __libc_memalign(align, size);
}

void *aligned_alloc(size_t align, size_t size) {
    return is_refused() ? NULL : __libc_memalign(align, size);
}

int posix_memalign(void **made, size_t align, size_t size) {
    if (is_refused()) return ENOMEM;
    void *it = __libc_memalign(align, size);
    if (!it) return ENOMEM;
    *made = it;
    return 0;
}

typedef int create(pthread_t *, const pthread_attr_t *, void *(*)(void *), void *);

int pthread_create(pthread_t *made, const pthread_attr_t *attributes, void *(*run)(void *), void *with) {
    if (is_refused()) return EAGAIN;
    create *real = (create *)dlsym(RTLD_NEXT, "pthread_create");
    return real ? real(made, attributes, run, with) : EAGAIN;
}

static int counted_main(int argc, char **argv, char **environment) {
    const char *path = getenv("COUNTS"), *number = getenv("REFUSE"), *on = getenv("REFUSE_ON");
    refuse = number ? strtoul(number, NULL, 10) : 0;
    refuse_on = on && *on == '1';
    // (looked up once before anything counts: the first look may take memory)
    (void)dlsym(RTLD_NEXT, "pthread_create");
    int fd = path ? open(path, O_RDWR) : -1;
    void *room = fd < 0 ? MAP_FAILED : mmap(NULL, sizeof *counts, PROT_READ | PROT_WRITE, MAP_SHARED, fd, 0);
    if (room == MAP_FAILED) _exit(99);
    close(fd);
    counts = room;
    return real_main(argc, argv, environment);
}

typedef int start(int (*)(int, char **, char **), int, char **, void (*)(void), void (*)(void), void (*)(void), void *);

int __libc_start_main(int (*main)(int, char **, char **), int argc, char **argv, void (*init)(void), void (*fini)(void),
                      void (*loader_fini)(void), void *stack_end) {
    start *real = (start *)dlsym(RTLD_NEXT, "__libc_start_main");
    real_main = main;
    return real(counted_main, argc, argv, init, fini, loader_fini, stack_end);
}
