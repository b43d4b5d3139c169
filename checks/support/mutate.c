// Gives a program job texts and traces with random changes, and looks at how each run ends.
//
//   mutate PROGRAM COUNT FOLDER SEED JOBFILE.. [--trace JOBFILE TRACE]..
//
// A changed job text is printed as a plan (status 0) or refused (status 2), a changed trace gives totals (0) or is refused
// (2). Where it is refused, standard output is empty and standard error is one line that begins with "fiorun: "; where it
// isn't, standard error is empty and standard output is not. Anything else is printed, and its text kept in FOLDER.
#define _GNU_SOURCE
#include <fcntl.h>
#include <signal.h>
#include <spawn.h>
#include <stdint.h>
#include <stdio.h>
#include <stdlib.h>
#include <string.h>
#include <sys/wait.h>
#include <unistd.h>

enum { MOST = 1 << 16, ANSWER = 1 << 16, SECONDS = 20 };

extern char **environ;

struct source {
    const char *job;   // the job file that a trace belongs to; none for a job text
    const char *path;
    size_t len;
    unsigned char bytes[MOST];
};

static struct source sources[64];
static int source_count;
static uint64_t state;

static uint64_t draw(uint64_t below) {
    state ^= state << 13;
    state ^= state >> 7;
    state ^= state << 17;
    return below ? (state >> 11) % below : 0;
}

static void load(const char *job, const char *path) {
    struct source *s = &sources[source_count++];
    FILE *f = fopen(path, "rb");
    if (!f) {
        perror(path);
        exit(2);
    }
    s->job = job;
    s->path = path;
    s->len = fread(s->bytes, 1, MOST / 2, f);
    fclose(f);
}

// Parts of texts that the formats know, so that a change is more often nearly right.
static const char *const words[] = {
    "\n", " ", "=", "[", "]", "[global]", "0", "1", "-1", "4294967296", "18446744073709551616", "4k", "1p", "0x", ":", ",", "/", "%",
    "size=", "bs=512", "bssplit=4k/50:8k/50", "rw=randrw", "verify=md5", "verify_pattern=0xff", "loops=1000", "numjobs=64",
    "verify_backlog=1", "stonewall", "offset=512", "iodepth=256", "norandommap=1", "I ", "P ", "S ", "E ", "V ", " whole", " failed",
    " short ", " good", " bad ", " byte:0", " header", "\xff", "\xc3\xa9", "\r\n", ";", "#", "\t", "\"",
};

static size_t put(unsigned char *text, size_t len, size_t at, const void *part, size_t size) {
    if (len + size > MOST) return len;
    memmove(text + at + size, text + at, len - at);
    memcpy(text + at, part, size);
    return len + size;
}

static size_t change(unsigned char *text, size_t len) {
    unsigned char part[256];
    size_t at = draw(len + 1), other = draw(len + 1), size = draw(64);
    const char *word = words[draw(sizeof words / sizeof *words)];
    switch (draw(7)) {
    case 0: // another byte
        if (at < len) text[at] = (unsigned char)draw(256);
        return len;
    case 1: // a bit
        if (at < len) text[at] ^= (unsigned char)(1u << draw(8));
        return len;
    case 2: // a part goes
        if (at + size > len) size = len - at;
        memmove(text + at, text + at + size, len - at - size);
        return len - size;
    case 3: // a part stands twice
        if (at + size > len) size = len - at;
        memcpy(part, text + at, size);
        return put(text, len, other, part, size);
    case 4: // a word comes in
        return put(text, len, at, word, strlen(word));
    case 5: // the end is cut
        return draw(8) ? len : at;
    default: // a digit is another
        for (size_t i = 0; i < len; i++) {
            size_t k = (at + i) % len;
            if (text[k] >= '0' && text[k] <= '9') {
                text[k] = (unsigned char)('0' + draw(10));
                break;
            }
        }
        return len;
    }
}

static void write_file(const char *path, const unsigned char *text, size_t len) {
    int fd = open(path, O_WRONLY | O_CREAT | O_TRUNC, 0600);
    if (fd < 0 || write(fd, text, len) != (ssize_t)len) {
        perror(path);
        exit(2);
    }
    close(fd);
}

static size_t read_file(const char *path, char *answer) {
    int fd = open(path, O_RDONLY);
    ssize_t got = fd < 0 ? 0 : read(fd, answer, ANSWER - 1);
    if (fd >= 0) close(fd);
    if (got < 0) got = 0;
    answer[got] = 0;
    return (size_t)got;
}

static volatile sig_atomic_t late;
static pid_t running;

static void on_alarm(int signal_number) {
    (void)signal_number;
    late = 1;
    kill(running, SIGKILL);
}

// Whether the run ended as it may.
static int is_right(int status, size_t out_len, const char *err, size_t err_len) {
    if (late || !WIFEXITED(status)) return 0;
    if (WEXITSTATUS(status) == 0) return out_len > 0 && err_len == 0;
    if (WEXITSTATUS(status) != 2 || out_len != 0) return 0;
    const char *end = strchr(err, '\n');
    return !strncmp(err, "fiorun: ", 8) && end && (size_t)(end - err) + 1 == err_len;
}

static int try_one(const char *program, const char *folder, int worker, unsigned char *text) {
    static char out[ANSWER], err[ANSWER];
    char in_path[512], out_path[512], err_path[512], word[600];
    struct source *s = &sources[draw((uint64_t)source_count)];
    size_t len = s->len;
    memcpy(text, s->bytes, len);
    for (uint64_t i = 1 + draw(4); i > 0; i--) len = change(text, len);
    snprintf(in_path, sizeof in_path, "%s/in.%d", folder, worker);
    snprintf(out_path, sizeof out_path, "%s/out.%d", folder, worker);
    snprintf(err_path, sizeof err_path, "%s/err.%d", folder, worker);
    write_file(in_path, text, len);
    posix_spawn_file_actions_t files;
    posix_spawn_file_actions_init(&files);
    posix_spawn_file_actions_addopen(&files, 0, "/dev/null", O_RDONLY, 0);
    posix_spawn_file_actions_addopen(&files, 1, out_path, O_WRONLY | O_CREAT | O_TRUNC, 0600);
    posix_spawn_file_actions_addopen(&files, 2, err_path, O_WRONLY | O_CREAT | O_TRUNC, 0600);
    snprintf(word, sizeof word, "--check-trace=%s", in_path);
    char *for_job[] = {(char *)program, "--parse-only", in_path, NULL};
    char *for_trace[] = {(char *)program, word, (char *)s->job, NULL};
    late = 0;
    int status = 0;
    if (posix_spawn(&running, program, &files, NULL, s->job ? for_trace : for_job, environ)) {
        perror(program);
        exit(2);
    }
    alarm(SECONDS);
    while (waitpid(running, &status, 0) < 0) {}
    alarm(0);
    posix_spawn_file_actions_destroy(&files);
    size_t out_len = read_file(out_path, out), err_len = read_file(err_path, err);
    if (is_right(status, out_len, err, err_len)) return 0;
    char kept[512];
    snprintf(kept, sizeof kept, "%s/wrong.%d.%llx", folder, worker, (unsigned long long)state);
    write_file(kept, text, len);
    printf("wrong: %s of %s: status %x%s, %zu bytes out, standard error: %s\n", kept, s->path, (unsigned)status,
           late ? ", killed as too slow" : "", out_len, err);
    return 1;
}

static int work(const char *program, const char *folder, int worker, long count, uint64_t seed) {
    static unsigned char text[MOST];
    int wrong = 0;
    state = seed * 0x9e3779b97f4a7c15ull + (uint64_t)worker * 0xbf58476d1ce4e5b9ull + 1;
    for (int i = 0; i < 16; i++) draw(1);
    signal(SIGALRM, on_alarm);
    for (long i = 0; i < count && wrong < 5; i++) wrong += try_one(program, folder, worker, text);
    fflush(stdout);
    return wrong != 0;
}

int main(int argc, char **argv) {
    if (argc < 6) return 2;
    long count = atol(argv[2]);
    long workers = sysconf(_SC_NPROCESSORS_ONLN);
    for (int i = 5; i < argc; i++) {
        if (strcmp(argv[i], "--trace") == 0 && i + 2 < argc) {
            load(argv[i + 1], argv[i + 2]);
            i += 2;
        } else {
            load(NULL, argv[i]);
        }
    }
    int failed = 0;
    for (long w = 0; w < workers; w++) {
        if (fork() == 0) _exit(work(argv[1], argv[3], (int)w, (count + workers - 1) / workers, strtoull(argv[4], NULL, 10)));
    }
    for (long w = 0; w < workers; w++) {
        int status;
        if (wait(&status) < 0 || status != 0) failed = 1;
    }
    return failed;
}
