// Loaded before a program's own libraries (LD_PRELOAD), makes files a disk with a volatile cache: what is written to them is in the cache,
// from which it is read too, and a sync moves it to the file itself, which so is the image of what is stored. Once in a run the power is
// cut: then some of what wasn't synced is stored too, each 512 bytes by itself, and the process is killed.
//
//   VOLATILE=FILE:FILE..  the files, by absolute paths
//   ACCOUNT=FILE          where the account goes: a line for each thing that happens (below), in one order over all threads
//   CUT=N                 the power is cut at call N of those that write, read or sync these files, from 1; else at the process's end
//   SEED=N                what is drawn is drawn from it
//   LEDGER=FILE           a file whose lines go into the account too, where they are written
//   RECORD=FILE           where each write goes: the file's number, offset and length, numbers of 8 bytes, and its bytes
//   SLOW=N                each write takes so many microseconds at least
//   FAIL=N                sync N, from 1, fails, and what it had to store is lost, as the system's cache loses it; all others go well
//   LIE=WORD              what the disk does wrong, below; without it it is honest
//
// The account's lines, where FILE is the number of a file from 0, and SEQ of a write from 1 on:
//   write SEQ THREAD FILE OFFSET LENGTH    asked for              wrote SEQ THREAD           has ended
//   sync N THREAD FILE SEQ                 asked for, behind the write SEQ            synced N THREAD     has returned well, or
//                                                                                     failed N THREAD     has failed
//   note THREAD LINE                       this line of the ledger was written
//   lie WORD ..                            the disk did this wrong
//   cut HOW CALLS                          the power is cut
//   image FILE SECTOR SEQ                  these 512 bytes are stored as that write has them; 0: as before the run; -1: as none has them
//   calls N                                so many calls there were, at the end of a process that came there
//
// (sync_file_range is no sync: it leaves a disk's cache alone.)
//
// The lies:
//   nosync     a sync does nothing
//   region     a sync forgets one part of each file, an eighth of what was written
//   early      a sync returns before it is done: what it has to store is stored some calls later
//   sectors    a sync stores only some of the sectors of each write
//   drop       a sync forgets one of the writes that it has to store
//   older      at the cut an older block is brought back
//   swap       at the cut two blocks are exchanged
//   flip       at the cut a bit of a stored block is turned
//   dead       from a moment on, half way to the cut, nothing is stored any more, and all is answered as before
#define _GNU_SOURCE
#include <dlfcn.h>
#include <errno.h>
#include <pthread.h>
#include <fcntl.h>
#include <sched.h>
#include <signal.h>
#include <stdarg.h>
#include <stdint.h>
#include <stdio.h>
#include <stdlib.h>
#include <string.h>
#include <sys/stat.h>
#include <sys/syscall.h>
#include <sys/types.h>
#include <sys/uio.h>
#include <unistd.h>

enum { SECTOR = 512, FILES = 16 };

// What stood or stands in a sector: the write whose bytes these are, and the bytes.
struct version {
    int64_t seq;
    unsigned char bytes[SECTOR];
};

// A sector that was written. Its versions are in the order of their writes; the first is what stood there before. Those behind `stored`
// are in the cache alone.
struct sector {
    size_t count, room, stored;
    struct version *versions;
    // The number of the call behind which what a sync has taken on is stored, and which version that is.
    uint64_t due;
    size_t promised;
    // The last version that a sync which failed has lost.
    size_t lost;
};

struct file {
    const char *path;
    int fd;
    dev_t device;
    ino_t inode;
    size_t count;
    struct sector *sectors;
};

struct write {
    int file;
    uint64_t offset, len;
};

static pthread_mutex_t lock = PTHREAD_MUTEX_INITIALIZER;
static pthread_once_t once = PTHREAD_ONCE_INIT;
static struct file files[FILES];
static int file_count, account = -1, record = -1;
static struct write *writes;
static uint64_t write_count, write_room, sync_count, calls, cut_at, fails_at, slow, state;
static const char *lie = "", *ledger_path;
static struct stat ledger;
static int is_dead, is_used;
// The part that a sync forgets, in eighths of each file, and where the disk dies.
static uint64_t forgotten, dies_at;

static ssize_t (*real_pread)(int, void *, size_t, off_t);
static ssize_t (*real_pwrite)(int, const void *, size_t, off_t);
static ssize_t (*real_read)(int, void *, size_t);
static ssize_t (*real_write)(int, const void *, size_t);
static int (*real_fsync)(int);
static int (*real_fdatasync)(int);

// Ends the process where the library itself can't go on.
static void fail(int status) {
    for (;;) syscall(SYS_exit_group, status);
}

// -- What is drawn (splitmix64)

static uint64_t drawn(void) {
    uint64_t it = state += 0x9e3779b97f4a7c15;
    it = (it ^ it >> 30) * 0xbf58476d1ce4e5b9;
    it = (it ^ it >> 27) * 0x94d049bb133111eb;
    return it ^ it >> 31;
}

static uint64_t below(uint64_t n) { return n ? drawn() % n : 0; }

static int is_lie(const char *word) { return !strcmp(lie, word); }

// -- The account

static void put(int fd, const void *bytes, size_t len) {
    for (const char *at = bytes; len;) {
        ssize_t n = real_write(fd, at, len);
        if (n < 0 && errno == EINTR) continue;
        if (n <= 0) fail(98);
        at += n;
        len -= (size_t)n;
    }
}

static void tell(const char *format, ...) __attribute__((format(printf, 1, 2)));
static void tell(const char *format, ...) {
    char line[512];
    va_list more;
    if (account < 0) return;
    va_start(more, format);
    int len = vsnprintf(line, sizeof line, format, more);
    va_end(more);
    put(account, line, (size_t)len < sizeof line ? (size_t)len : sizeof line - 1);
}

static int thread(void) { return (int)syscall(SYS_gettid); }

static void *room_for(void *them, size_t count, size_t *room, size_t size) {
    if (count < *room) return them;
    *room = *room ? *room * 2 : 4;
    them = realloc(them, *room * size);
    if (!them) fail(97);
    return them;
}

// -- The beginning

static uint64_t number_of(const char *name) {
    const char *text = getenv(name);
    return text && *text ? strtoull(text, NULL, 10) : 0;
}

static int made(const char *name) {
    const char *path = getenv(name);
    if (!path || !*path) return -1;
    int fd = open(path, O_WRONLY | O_CREAT | O_APPEND | O_CLOEXEC, 0666);
    if (fd < 0) fail(96);
    return fd;
}

__attribute__((constructor)) static void find(void) {
    real_pread = (ssize_t(*)(int, void *, size_t, off_t))dlsym(RTLD_NEXT, "pread");
    real_pwrite = (ssize_t(*)(int, const void *, size_t, off_t))dlsym(RTLD_NEXT, "pwrite");
    real_read = (ssize_t(*)(int, void *, size_t))dlsym(RTLD_NEXT, "read");
    real_write = (ssize_t(*)(int, const void *, size_t))dlsym(RTLD_NEXT, "write");
    real_fsync = (int (*)(int))dlsym(RTLD_NEXT, "fsync");
    real_fdatasync = (int (*)(int))dlsym(RTLD_NEXT, "fdatasync");
}

// At the first call over one of the files: what is asked for. (A script that starts the program has this library too, and none of them.)
static void begin(void) {
    is_used = 1;
    account = made("ACCOUNT");
    record = made("RECORD");
    cut_at = number_of("CUT");
    fails_at = number_of("FAIL");
    slow = number_of("SLOW");
    state = number_of("SEED") * 0x2545f4914f6cdd1d + 1;
    const char *word = getenv("LIE");
    lie = word ? word : "";
    forgotten = below(8);
    dies_at = cut_at ? 1 + below(cut_at) : 1 + below(200);
}

__attribute__((constructor(200))) static void name(void) {
    char *them = getenv("VOLATILE");
    for (char *path = them ? strdup(them) : NULL, *end; path && *path; path = end) {
        end = path + strcspn(path, ":");
        if (*end) *end++ = 0;
        if (file_count == FILES) fail(95);
        files[file_count].path = path;
        files[file_count++].fd = -1;
    }
    ledger_path = getenv("LEDGER");
}

// -- Which file it is

// The file that is open by this number, or -1. The lock is held.
static int file_of(int fd) {
    struct stat open_file, found;
    if (!file_count || fstat(fd, &open_file) || !S_ISREG(open_file.st_mode)) return -1;
    for (int i = 0; i < file_count; i++) {
        struct file *it = &files[i];
        if (it->fd < 0 && !stat(it->path, &found)) {
            it->fd = open(it->path, O_RDWR | O_CLOEXEC);
            it->device = found.st_dev;
            it->inode = found.st_ino;
        }
        if (it->fd >= 0 && it->device == open_file.st_dev && it->inode == open_file.st_ino) return i;
    }
    return -1;
}

static int is_ledger(int fd) {
    struct stat open_file;
    if (!ledger_path || !*ledger_path || fstat(fd, &open_file)) return 0;
    if (!ledger.st_ino && stat(ledger_path, &ledger)) return 0;
    return ledger.st_dev == open_file.st_dev && ledger.st_ino == open_file.st_ino;
}

// -- Sectors

static struct sector *sector_at(struct file *file, size_t i) {
    if (i >= file->count) {
        size_t more = i + 1 > file->count * 2 ? i + 1 : file->count * 2;
        file->sectors = realloc(file->sectors, more * sizeof *file->sectors);
        if (!file->sectors) fail(97);
        memset(file->sectors + file->count, 0, (more - file->count) * sizeof *file->sectors);
        file->count = more;
    }
    struct sector *it = &file->sectors[i];
    if (!it->count) {
        it->versions = room_for(it->versions, it->count, &it->room, sizeof *it->versions);
        memset(it->versions[0].bytes, 0, SECTOR);
        it->versions[0].seq = 0;
        if (real_pread(file->fd, it->versions[0].bytes, SECTOR, (off_t)(i * SECTOR)) < 0) fail(94);
        it->count = 1;
    }
    return it;
}

// The newest bytes: what a read of the disk sees.
static const unsigned char *newest(const struct sector *it) { return it->versions[it->count - 1].bytes; }

// Puts a version into the image.
static void store(struct file *file, size_t i, size_t version) {
    struct sector *it = &file->sectors[i];
    if (is_dead || version == it->stored) return;
    it->stored = version;
    if (real_pwrite(file->fd, it->versions[version].bytes, SECTOR, (off_t)(i * SECTOR)) != SECTOR) fail(93);
}

// Puts other bytes there.
static void spoil(struct file *file, size_t i, const unsigned char *bytes) {
    if (real_pwrite(file->fd, bytes, SECTOR, (off_t)(i * SECTOR)) != SECTOR) fail(93);
    tell("image %d %zu -1\n", (int)(file - files), i);
}

// The last version that isn't of a write behind `seq`.
static size_t version_by(const struct sector *it, uint64_t seq) {
    size_t i = it->count - 1;
    while (it->versions[i].seq > (int64_t)seq) i--;
    return i;
}

// -- What the disk does at a sync

// Whether the sector isn't stored by a sync that has to, as the disk lies.
static int is_forgotten(size_t i, size_t sectors, const struct version *version, int64_t dropped) {
    if (is_lie("nosync")) return 1;
    if (is_lie("region")) return i * 8 / sectors == forgotten;
    if (is_lie("sectors")) return below(8) == 0;
    return is_lie("drop") && version->seq == dropped;
}

// One of the writes that a sync of this file has to store, if there is one.
static int64_t one_of(const struct file *file, uint64_t seq) {
    int64_t found = 0;
    uint64_t seen = 0;
    for (size_t i = 0; i < file->count; i++) {
        const struct sector *it = &file->sectors[i];
        if (!it->count) continue;
        size_t version = version_by(it, seq);
        if (version > it->stored && below(++seen) == 0) found = it->versions[version].seq;
    }
    return found;
}

// Stores what was written to a file up to a write.
static void flush(int number, uint64_t seq) {
    struct file *file = &files[number];
    int64_t dropped = is_lie("drop") ? one_of(file, seq) : 0;
    uint64_t later = calls + 1 + below(40);
    struct stat found;
    if (fstat(file->fd, &found)) fail(94);
    if (dropped) tell("lie drop %lld\n", (long long)dropped);
    for (size_t i = 0; i < file->count; i++) {
        struct sector *it = &file->sectors[i];
        size_t version = it->count ? version_by(it, seq) : 0;
        if (!it->count || version <= it->stored || version <= it->lost) continue;
        if (is_forgotten(i, (size_t)found.st_size / SECTOR, &it->versions[version], dropped)) {
            tell("lie forgotten %d %zu\n", number, i);
        } else if (is_lie("early")) {
            it->promised = version;
            if (!it->due) it->due = later;
        } else {
            store(file, i, version);
        }
    }
}

// Loses what was written to a file up to a write.
static void lose(int number, uint64_t seq) {
    struct file *file = &files[number];
    for (size_t i = 0; i < file->count; i++)
        if (file->sectors[i].count) file->sectors[i].lost = version_by(&file->sectors[i], seq);
}

// Stores what an early sync has taken on and is due now.
static void go_on(void) {
    for (int number = 0; is_lie("early") && number < file_count; number++) {
        struct file *file = &files[number];
        for (size_t i = 0; i < file->count; i++) {
            struct sector *it = &file->sectors[i];
            if (!it->due || it->due > calls) continue;
            it->due = 0;
            if (it->promised > it->stored) store(file, i, it->promised);
        }
    }
}

// -- The cut

// Which writes of those in the cache are stored at the cut, drawn for each by itself: a number for each, the largest wins; 0: not stored.
static uint64_t *ranks(int is_ordered) {
    uint64_t *them = calloc(write_count + 1, sizeof *them);
    if (!them) fail(97);
    for (uint64_t i = 1; i <= write_count; i++)
        if (below(2)) them[i] = is_ordered ? i : 1 + drawn() / 2;
    return them;
}

// The version of a sector that is stored at the cut.
static size_t version_at_cut(const struct sector *it, int how, const uint64_t *rank, uint64_t front) {
    size_t best = it->stored, fresh = it->count - 1 - it->stored;
    uint64_t most = 0;
    if (how == 0) return best;
    if (how == 1) return it->count - 1;
    if (how == 2) return best + below(fresh + 1);
    for (size_t i = it->stored + 1; i < it->count; i++) {
        uint64_t seq = (uint64_t)it->versions[i].seq;
        if (how == 5 ? seq < front || (seq == front && below(2)) : rank[seq] > most) {
            best = i;
            most = rank[seq];
        }
    }
    return best;
}

// Stores an arbitrary part of what is in the cache: nothing, all, some sectors, some writes in their order or in another one, or those up
// to some write.
static const char *store_some(void) {
    static const char *const hows[] = {"none", "all", "sectors", "writes", "reordered", "front"};
    int how = (int)below(6);
    uint64_t front = below(write_count + 1), *rank = ranks(how == 3);
    for (int number = 0; number < file_count; number++) {
        struct file *file = &files[number];
        for (size_t i = 0; i < file->count; i++)
            if (file->sectors[i].count) store(file, i, version_at_cut(&file->sectors[i], how, rank, front));
    }
    free(rank);
    return hows[how];
}

static void tell_image(void) {
    for (int number = 0; number < file_count; number++) {
        struct file *file = &files[number];
        for (size_t i = 0; i < file->count; i++) {
            struct sector *it = &file->sectors[i];
            if (it->count) tell("image %d %zu %lld\n", number, i, (long long)it->versions[it->stored].seq);
        }
    }
}

// A write whose sectors are stored as it has them, drawn; 0 where none is.
static uint64_t stored_write(int is_rewrite) {
    for (int time = 0; write_count && time < 300; time++) {
        uint64_t seq = 1 + below(write_count);
        struct write *it = &writes[seq - 1];
        int is_stored = 1;
        for (uint64_t i = it->offset / SECTOR; i < (it->offset + it->len) / SECTOR; i++) {
            struct sector *sector = &files[it->file].sectors[i];
            is_stored &= sector->versions[sector->stored].seq == (int64_t)seq && (!is_rewrite || sector->stored > 0);
        }
        if (is_stored) return seq;
    }
    return 0;
}

static void bring_back(uint64_t seq) {
    struct write *it = &writes[seq - 1];
    struct file *file = &files[it->file];
    tell("lie older %llu\n", (unsigned long long)seq);
    for (uint64_t i = it->offset / SECTOR; i < (it->offset + it->len) / SECTOR; i++) store(file, i, file->sectors[i].stored - 1);
}

static void exchange(uint64_t a, uint64_t b) {
    struct write *one = &writes[a - 1], *other = &writes[b - 1];
    if (one->len != other->len || (one->file == other->file && one->offset == other->offset)) return;
    tell("lie swap %llu %llu\n", (unsigned long long)a, (unsigned long long)b);
    for (uint64_t i = 0; i < one->len / SECTOR; i++) {
        size_t here = one->offset / SECTOR + i, there = other->offset / SECTOR + i;
        struct sector *first = &files[one->file].sectors[here], *second = &files[other->file].sectors[there];
        spoil(&files[one->file], here, second->versions[second->stored].bytes);
        spoil(&files[other->file], there, first->versions[first->stored].bytes);
    }
}

static void turn(uint64_t seq) {
    struct write *it = &writes[seq - 1];
    uint64_t bit = below(it->len * 8), i = (it->offset + bit / 8) / SECTOR;
    struct sector *sector = &files[it->file].sectors[i];
    unsigned char bytes[SECTOR];
    tell("lie flip %llu %llu\n", (unsigned long long)seq, (unsigned long long)bit);
    memcpy(bytes, sector->versions[sector->stored].bytes, SECTOR);
    bytes[bit / 8 % SECTOR] ^= (unsigned char)(1 << bit % 8);
    spoil(&files[it->file], i, bytes);
}

// What a lying disk does to what was stored. What it tells of the image counts in place of what was told before.
static void spoil_some(void) {
    uint64_t seq = stored_write(is_lie("older"));
    if (is_lie("older") && seq) {
        bring_back(seq);
        tell_image();
    }
    if (is_lie("flip") && seq) turn(seq);
    for (int time = 0; is_lie("swap") && seq && time < 100; time++) {
        uint64_t other = stored_write(0);
        if (!other || other == seq || writes[other - 1].len != writes[seq - 1].len) continue;
        exchange(seq, other);
        return;
    }
}

// The power is cut: the image is what it is from now on. The lock is held, and isn't given back.
static void cut(void) {
    tell("cut %s %llu\n", store_some(), (unsigned long long)calls);
    tell_image();
    spoil_some();
    kill(getpid(), SIGKILL);
    for (;;) pause();
}

// Counts a call over one of the files; at the one that is named the power is cut.
static void count(void) {
    calls++;
    if (is_lie("dead") && !is_dead && calls >= dies_at) {
        is_dead = 1;
        tell("lie dead %llu\n", (unsigned long long)calls);
    }
    go_on();
    if (cut_at && calls == cut_at) cut();
}

// The program ends: so does the power.
static void end(void) {
    pthread_mutex_lock(&lock);
    if (is_used) {
        tell("cut %s %llu\n", store_some(), (unsigned long long)calls);
        tell_image();
        spoil_some();
        tell("calls %llu\n", (unsigned long long)calls);
        is_dead = 1;
    }
    is_used = 0;
    pthread_mutex_unlock(&lock);
}

void _exit(int status) {
    end();
    for (;;) syscall(SYS_exit_group, status);
}

__attribute__((destructor)) static void end_by_return(void) { end(); }

// -- The calls

// Puts bytes into the cache. Writes that aren't whole sectors are made so by what is there.
static uint64_t put_into(int number, const unsigned char *bytes, uint64_t len, uint64_t offset) {
    struct file *file = &files[number];
    writes = room_for(writes, write_count, &write_room, sizeof *writes);
    writes[write_count++] = (struct write){number, offset, len};
    tell("write %llu %d %d ", (unsigned long long)write_count, thread(), number);
    tell("%llu %llu\n", (unsigned long long)offset, (unsigned long long)len);
    for (uint64_t at = offset; at < offset + len;) {
        uint64_t i = at / SECTOR, from = at % SECTOR, most = SECTOR - from, left = offset + len - at, n = most < left ? most : left;
        struct sector *it = sector_at(file, i);
        it->versions = room_for(it->versions, it->count, &it->room, sizeof *it->versions);
        struct version *version = &it->versions[it->count];
        memcpy(version->bytes, newest(it), SECTOR);
        memcpy(version->bytes + from, bytes + (at - offset), n);
        version->seq = (int64_t)write_count;
        it->count++;
        at += n;
    }
    if (record >= 0) {
        uint64_t head[3] = {(uint64_t)number, offset, len};
        put(record, head, sizeof head);
        put(record, bytes, len);
    }
    return write_count;
}

// Takes the lock, and gives the file that is open by this number, or gives the lock back.
static int held(int fd) {
    pthread_mutex_lock(&lock);
    int number = file_of(fd);
    if (number < 0) pthread_mutex_unlock(&lock);
    else pthread_once(&once, begin);
    return number;
}

ssize_t pwrite(int fd, const void *bytes, size_t len, off_t offset) {
    int number = held(fd);
    if (number < 0) return real_pwrite(fd, bytes, len, offset);
    struct stat found;
    if (!fstat(fd, &found) && (uint64_t)offset + len > (uint64_t)found.st_size) {
        // (so the program makes a file longer, before it writes to it)
        pthread_mutex_unlock(&lock);
        return real_pwrite(fd, bytes, len, offset);
    }
    uint64_t seq = put_into(number, bytes, len, (uint64_t)offset);
    count();
    pthread_mutex_unlock(&lock);
    if (seq % 3 == 0) sched_yield();
    if (slow) usleep((useconds_t)slow);
    pthread_mutex_lock(&lock);
    tell("wrote %llu %d\n", (unsigned long long)seq, thread());
    pthread_mutex_unlock(&lock);
    return (ssize_t)len;
}

ssize_t pwrite64(int fd, const void *bytes, size_t len, off_t offset) { return pwrite(fd, bytes, len, offset); }

ssize_t pread(int fd, void *bytes, size_t len, off_t offset) {
    int number = held(fd);
    if (number < 0) return real_pread(fd, bytes, len, offset);
    count();
    ssize_t got = real_pread(fd, bytes, len, offset);
    for (ssize_t at = 0; at < got;) {
        uint64_t place = (uint64_t)offset + (uint64_t)at, i = place / SECTOR, from = place % SECTOR;
        size_t n = SECTOR - from < (size_t)(got - at) ? SECTOR - from : (size_t)(got - at);
        if (i < files[number].count && files[number].sectors[i].count)
            memcpy((unsigned char *)bytes + at, newest(&files[number].sectors[i]) + from, n);
        at += (ssize_t)n;
    }
    pthread_mutex_unlock(&lock);
    return got;
}

ssize_t pread64(int fd, void *bytes, size_t len, off_t offset) { return pread(fd, bytes, len, offset); }

// A sync of one of the files. What is written while it goes on needn't be stored by it.
static int sync_file(int number) {
    uint64_t it = ++sync_count, seq = write_count;
    tell("sync %llu %d %d %llu\n", (unsigned long long)it, thread(), number, (unsigned long long)seq);
    if (below(2)) count();
    pthread_mutex_unlock(&lock);
    sched_yield();
    pthread_mutex_lock(&lock);
    int fails = it == fails_at;
    if (fails) {
        lose(number, seq);
        // (who asked for it hears of it late: other syncs return well meanwhile)
        pthread_mutex_unlock(&lock);
        usleep(2000);
        pthread_mutex_lock(&lock);
    } else {
        flush(number, seq);
    }
    count();
    tell(fails ? "failed %llu %d\n" : "synced %llu %d\n", (unsigned long long)it, thread());
    pthread_mutex_unlock(&lock);
    return fails ? (errno = EIO, -1) : 0;
}

int fdatasync(int fd) {
    int number = held(fd);
    return number < 0 ? real_fdatasync(fd) : sync_file(number);
}

int fsync(int fd) {
    int number = held(fd);
    return number < 0 ? real_fsync(fd) : sync_file(number);
}

// Calls that go by the file's own place.
ssize_t write(int fd, const void *bytes, size_t len) {
    if (!real_write) find();
    pthread_mutex_lock(&lock);
    if (is_ledger(fd)) {
        pthread_once(&once, begin);
        ssize_t n = real_write(fd, bytes, len);
        for (const char *at = bytes, *end = at + (n > 0 ? n : 0); at < end;) {
            const char *feed = memchr(at, '\n', (size_t)(end - at));
            int line = (int)((feed ? feed : end) - at);
            tell("note %d %.*s%s\n", thread(), line, at, feed ? "" : " (cut)");
            at += line + (feed ? 1 : 0);
        }
        pthread_mutex_unlock(&lock);
        return n;
    }
    int number = file_of(fd);
    pthread_mutex_unlock(&lock);
    if (number < 0) return real_write(fd, bytes, len);
    off_t at = lseek(fd, 0, SEEK_CUR);
    ssize_t n = pwrite(fd, bytes, len, at);
    if (n > 0) lseek(fd, at + n, SEEK_SET);
    return n;
}

ssize_t read(int fd, void *bytes, size_t len) {
    if (!real_read) find();
    pthread_mutex_lock(&lock);
    int number = file_of(fd);
    pthread_mutex_unlock(&lock);
    if (number < 0) return real_read(fd, bytes, len);
    off_t at = lseek(fd, 0, SEEK_CUR);
    ssize_t n = pread(fd, bytes, len, at);
    if (n > 0) lseek(fd, at + n, SEEK_SET);
    return n;
}
