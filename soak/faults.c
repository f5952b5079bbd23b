// Stands before the calls that the program makes of files and streams, writes each down, and has the call of one number go wrong.
// soak/faults preloads it. FAULTS_LOG names the file of the log. FAULTS_HOW and FAULTS_AT say what goes wrong, and at which of the calls
// that it can befall, counted from 1:
//   fail     the call does nothing and fails         from     so does each later one of the same file or stream
//   full     a write finds no room                   memory   an opening finds no memory
//   torn     half of the bytes, then it fails        short    half of the bytes, and it says so
//   done     it is done, and fails all the same      again    it is interrupted, and has done nothing
//   kill     the program is killed right behind it   cut      the program is killed behind half of the bytes
//   lie      a sync does nothing, and says that it is done
//   refuse   malloc or realloc gives no memory; these alone are counted then
// A line of the log: the call's number in the order of their beginnings, its name, the descriptor, what it answered, how it went wrong, its
// place in the file, how many bytes were moved, how often memory was asked for so far, and the bytes that were written, in hexadecimal, or the
// path that was opened. A sync that lies is written down as one that failed.
#define _GNU_SOURCE
#include <errno.h>
#include <fcntl.h>
#include <pthread.h>
#include <signal.h>
#include <stdarg.h>
#include <stdatomic.h>
#include <stdio.h>
#include <stdlib.h>
#include <string.h>
#include <sys/stat.h>
#include <sys/syscall.h>
#include <unistd.h>

enum how { NOTHING, FAIL, FROM, FULL, MEMORY, TORN, SHORT, DONE, AGAIN, KILL, CUT, LIE, REFUSE };
static const char *const names[] = {"", "fail", "from", "full", "memory", "torn", "short", "done", "again", "kill", "cut", "lie", "refuse"};

void *__libc_malloc(size_t size);
void *__libc_realloc(void *old, size_t size);

static enum how how;
static long at;
static atomic_long begun, counted, allocated;
// The descriptor whose calls fail from now on, and -1 before that.
static atomic_int broken = -1;
static int log_file = -1;
static pthread_mutex_t one_line = PTHREAD_MUTEX_INITIALIZER;

__attribute__((constructor)) static void read_environment(void) {
    const char *path = getenv("FAULTS_LOG"), *word = getenv("FAULTS_HOW"), *number = getenv("FAULTS_AT");
    if (path) log_file = syscall(SYS_openat, AT_FDCWD, path, O_WRONLY | O_CREAT | O_APPEND | O_CLOEXEC, 0644);
    for (int i = 1; word && i < (int)(sizeof names / sizeof *names); i++)
        if (!strcmp(word, names[i])) how = i;
    if (number) at = atol(number);
    allocated = 0;
}

struct call {
    const char *name;
    int fd;
    long place, length, number;
    const void *bytes; // what is written, or the path
    int moves, writes, opens, syncs;
    enum how befalls;
};

// Whether what is to go wrong can befall this call.
static int can(const struct call *c) {
    switch (how) {
        case NOTHING: case REFUSE: return 0;
        case LIE: return c->syncs;
        case FULL: return c->writes;
        case MEMORY: return c->opens;
        case TORN: case SHORT: case CUT: return c->moves && c->length > 1;
        case AGAIN: return c->moves || c->opens;
        default: return 1;
    }
}

// How many bytes are to be moved, or -1 where the call isn't to be done.
static long begin(struct call *c) {
    c->number = atomic_fetch_add(&begun, 1) + 1;
    if (can(c) && atomic_fetch_add(&counted, 1) + 1 == at) c->befalls = how;
    if (c->befalls == FROM) broken = c->fd;
    if (how == FROM && c->fd >= 0 && c->fd == broken) c->befalls = FROM;
    switch (c->befalls) {
        case FAIL: case FROM: case FULL: case MEMORY: case AGAIN: case LIE: return -1;
        case SHORT: return c->writes || c->length < 14 ? c->length / 2 : 7;
        case TORN: case CUT: return c->length / 2;
        default: return c->length;
    }
}

static void put_down(const struct call *c, long answer, long moved) {
    long shown = c->opens ? (long)strlen(c->bytes) : c->writes && moved > 0 ? moved : 0;
    char *line = __libc_malloc(2 * shown + 200);
    if (!line) abort();
    int n = sprintf(line, "%ld %s %d %ld %s %ld %ld %ld ", c->number, c->name, c->fd, answer, c->befalls ? names[c->befalls] : "-", c->place,
                    moved, (long)allocated);
    if (c->opens) {
        n += sprintf(line + n, "%s", (const char *)c->bytes);
    } else {
        for (long i = 0; i < shown; i++) n += sprintf(line + n, "%02x", ((const unsigned char *)c->bytes)[i]);
    }
    line[n++] = '\n';
    pthread_mutex_lock(&one_line);
    if (log_file >= 0 && syscall(SYS_write, log_file, line, n) != n) abort();
    pthread_mutex_unlock(&one_line);
    free(line);
}

// Notes what the system answered, where it was asked, and gives what the program is answered.
static long end(struct call *c, long answer) {
    int error = answer < 0 ? errno : 0;
    long moved = c->moves && answer > 0 ? answer : 0;
    switch (c->befalls) {
        case FAIL: case FROM: error = EIO; break;
        case FULL: error = ENOSPC; break;
        case MEMORY: error = ENOMEM; break;
        case AGAIN: error = EINTR; break;
        case TORN: case DONE:
            if (c->opens && answer >= 0) syscall(SYS_close, (int)answer);
            answer = -1;
            error = EIO;
            break;
        default: break;
    }
    put_down(c, answer, moved);
    if (c->befalls == LIE) return 0;
    if (c->befalls == KILL || c->befalls == CUT) syscall(SYS_kill, getpid(), SIGKILL);
    errno = error;
    return answer;
}

int open(const char *path, int flags, ...) {
    va_list rest;
    va_start(rest, flags);
    int mode = flags & O_CREAT ? va_arg(rest, int) : 0;
    va_end(rest);
    struct call c = {.name = "open", .fd = -1, .bytes = path, .opens = 1};
    return end(&c, begin(&c) < 0 ? -1 : syscall(SYS_openat, AT_FDCWD, path, flags, mode));
}

ssize_t read(int fd, void *bytes, size_t count) {
    struct call c = {.name = "read", .fd = fd, .length = count, .moves = 1};
    long length = begin(&c);
    return end(&c, length < 0 ? -1 : syscall(SYS_read, fd, bytes, length));
}

ssize_t write(int fd, const void *bytes, size_t count) {
    struct call c = {.name = "write", .fd = fd, .length = count, .bytes = bytes, .moves = 1, .writes = 1};
    long length = begin(&c);
    return end(&c, length < 0 ? -1 : syscall(SYS_write, fd, bytes, length));
}

ssize_t pread(int fd, void *bytes, size_t count, off_t place) {
    struct call c = {.name = "pread", .fd = fd, .place = place, .length = count, .moves = 1};
    long length = begin(&c);
    return end(&c, length < 0 ? -1 : syscall(SYS_pread64, fd, bytes, length, place));
}

ssize_t pwrite(int fd, const void *bytes, size_t count, off_t place) {
    struct call c = {.name = "pwrite", .fd = fd, .place = place, .length = count, .bytes = bytes, .moves = 1, .writes = 1};
    long length = begin(&c);
    return end(&c, length < 0 ? -1 : syscall(SYS_pwrite64, fd, bytes, length, place));
}

int fsync(int fd) {
    struct call c = {.name = "fsync", .fd = fd, .syncs = 1};
    return end(&c, begin(&c) < 0 ? -1 : syscall(SYS_fsync, fd));
}

int fdatasync(int fd) {
    struct call c = {.name = "fdatasync", .fd = fd, .syncs = 1};
    return end(&c, begin(&c) < 0 ? -1 : syscall(SYS_fdatasync, fd));
}

int ftruncate(int fd, off_t size) {
    struct call c = {.name = "ftruncate", .fd = fd, .place = size};
    return end(&c, begin(&c) < 0 ? -1 : syscall(SYS_ftruncate, fd, size));
}

int flock(int fd, int what) {
    struct call c = {.name = "flock", .fd = fd};
    return end(&c, begin(&c) < 0 ? -1 : syscall(SYS_flock, fd, what));
}

int statx(int fd, const char *path, int flags, unsigned mask, struct statx *into) {
    struct call c = {.name = "statx", .fd = fd};
    return end(&c, begin(&c) < 0 ? -1 : syscall(SYS_statx, fd, path, flags, mask, into));
}

static int refuses(const char *name) {
    if (atomic_fetch_add(&allocated, 1) + 1 != at || how != REFUSE) return 0;
    struct call c = {.name = name, .fd = -1, .number = atomic_load(&begun), .befalls = REFUSE};
    put_down(&c, 0, 0);
    errno = ENOMEM;
    return 1;
}

void *malloc(size_t size) {
    return refuses("malloc") ? NULL : __libc_malloc(size);
}

void *realloc(void *old, size_t size) {
    return refuses("realloc") ? NULL : __libc_realloc(old, size);
}
