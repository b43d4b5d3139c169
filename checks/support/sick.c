// Loaded before a program's own libraries (LD_PRELOAD), makes a file that of a sick disk: reads and writes of some of its sectors of 512 bytes
// fail with EIO, each time and whole.
//
//   SICK=FILE           the file that is sick
//   SICK_SECTORS=N      how many sectors it has
//   SICK_READS=LIST     a file of sector numbers, one a line, which can't be read
//   SICK_WRITES=LIST    the same of those which can't be written
#define _GNU_SOURCE
#include <dlfcn.h>
#include <errno.h>
#include <stdio.h>
#include <stdlib.h>
#include <sys/stat.h>
#include <sys/types.h>
#include <unistd.h>

enum { SECTOR = 512 };

static unsigned char *sick_reads, *sick_writes;
static size_t sectors;
static ssize_t (*real_pread)(int, void *, size_t, off_t);
static ssize_t (*real_pwrite)(int, const void *, size_t, off_t);
static ssize_t (*real_read)(int, void *, size_t);
static ssize_t (*real_write)(int, const void *, size_t);

// A flag for each sector of the file: whether the list has it.
static unsigned char *flags_of(const char *path) {
    unsigned char *flags = calloc(sectors + 1, 1);
    FILE *list = path ? fopen(path, "r") : NULL;
    size_t sector;
    if (!flags || (path && !list)) abort();
    while (list && fscanf(list, "%zu", &sector) == 1)
        if (sector < sectors) flags[sector] = 1;
    if (list) fclose(list);
    return flags;
}

__attribute__((constructor)) static void begin(void) {
    real_pread = (ssize_t (*)(int, void *, size_t, off_t))dlsym(RTLD_NEXT, "pread");
    real_pwrite = (ssize_t (*)(int, const void *, size_t, off_t))dlsym(RTLD_NEXT, "pwrite");
    real_read = (ssize_t (*)(int, void *, size_t))dlsym(RTLD_NEXT, "read");
    real_write = (ssize_t (*)(int, const void *, size_t))dlsym(RTLD_NEXT, "write");
    const char *count = getenv("SICK_SECTORS");
    sectors = count ? strtoul(count, NULL, 10) : 0;
    sick_reads = flags_of(getenv("SICK_READS"));
    sick_writes = flags_of(getenv("SICK_WRITES"));
}

// Whether it is the sick file, and one of these bytes is of a sector with a flag.
static int is_sick(int fd, const unsigned char *flags, size_t len, off_t at) {
    struct stat open_file, sick;
    const char *path = getenv("SICK");
    if (!path || fstat(fd, &open_file) || stat(path, &sick)) return 0;
    if (open_file.st_dev != sick.st_dev || open_file.st_ino != sick.st_ino) return 0;
    for (size_t it = (size_t)at / SECTOR; it < sectors && it * SECTOR < (size_t)at + len; it++)
        if (flags[it]) return 1;
    return 0;
}

ssize_t pread(int fd, void *bytes, size_t len, off_t at) {
    if (is_sick(fd, sick_reads, len, at)) return errno = EIO, -1;
    return real_pread(fd, bytes, len, at);
}

ssize_t pwrite(int fd, const void *bytes, size_t len, off_t at) {
    if (is_sick(fd, sick_writes, len, at)) return errno = EIO, -1;
    return real_pwrite(fd, bytes, len, at);
}

ssize_t read(int fd, void *bytes, size_t len) {
    off_t at = sick_reads ? lseek(fd, 0, SEEK_CUR) : -1;
    if (at >= 0 && is_sick(fd, sick_reads, len, at)) return errno = EIO, -1;
    return real_read(fd, bytes, len);
}

ssize_t write(int fd, const void *bytes, size_t len) {
    off_t at = sick_writes ? lseek(fd, 0, SEEK_CUR) : -1;
    if (at >= 0 && is_sick(fd, sick_writes, len, at)) return errno = EIO, -1;
    return real_write(fd, bytes, len);
}
