/* The disk below a server of tools/simulate: preloaded into `linda serve`, it is between the program and the two
   files of its banks.

   It keeps an undo log for each bank, SIDE.undo in the folder that SIMULATED names: before each write and cut it writes
   down what is overwritten, and when a sync has succeeded the log is emptied. So whatever kills the process, the file
   and its log say what the file held at its last sync and which calls came since (disk.py reads them). Nothing is
   really synced: a kill keeps what the system has, and it is disk.py that loses it. SIDE.new is there while a new
   file's name is in no folder that was synced. SIDE.lost is there once a sync has failed: the system may have forgotten
   what that sync should have written, so the log is never emptied again, whatever a later sync reports.

   The file `plan` there names calls that must go wrong, a line each: WHICH NUMBER ACTION PART. WHICH is `change`
   (writes, cuts and syncs of both banks, syncs of the folder, counted from 1) or `read`; ACTION is `die` (the process
   is killed when PART thousandths of the call are done), `eio` or `enospc` (the call fails when that part is done).
   `slow 0 MICROSECONDS 0` makes each sync take so long. A call that went wrong is written to the file `fired`, with the
   side of its bank (`none` of the folder) and its name (`write`, `room`, `cut`, `sync` or `read`). SIDE.early is there if a bank was last read while its log was
   not empty: what was read then may be gone after a power cut. The file `said` has a line for each name of a log that
   was not empty, or of a SIDE.new that was there, while something was written to the standard output: the server said
   there that it is ready.

   Bugs of a server are planted by the lines `change 0 lie N`, each sync whose number N divides reports success and
   syncs nothing; `change 0 retry 0`, a sync that fails is tried again, and reports success then; `change 0 early 0`, no
   file is synced before the first write to it. */

#define _GNU_SOURCE
#include <errno.h>
#include <fcntl.h>
#include <pthread.h>
#include <signal.h>
#include <stdarg.h>
#include <stdint.h>
#include <stdio.h>
#include <stdlib.h>
#include <string.h>
#include <sys/stat.h>
#include <sys/syscall.h>
#include <sys/types.h>
#include <unistd.h>

#define MOST_FILES 4096
#define MOST_PLANS 64

struct head { uint64_t at, new_bytes, old_bytes, old_length; };
struct plan { char which; long number; char action[16]; long part; };

static pthread_mutex_t lock = PTHREAD_MUTEX_INITIALIZER;
static char side_of[MOST_FILES];        /* 'l', 'r', or 0 */
static char was_written[MOST_FILES];    /* since it was opened */
static struct plan plans[MOST_PLANS];
static int plan_count, is_read;
static long changes, reads, slow;

static int path_of(char *path, size_t size, const char *name) {
    const char *folder = getenv("SIMULATED");
    return folder && snprintf(path, size, "%s/%s", folder, name) < (int)size;
}

static int open_in(const char *name, int flags) {
    char path[4096];
    return path_of(path, sizeof path, name) ? (int)syscall(SYS_openat, AT_FDCWD, path, flags | O_CLOEXEC, 0600) : -1;
}

static void read_plan(void) {
    char text[4096], which[16], action[16];
    long number, part;
    int used = 0, here = 0;
    if (is_read) return;
    is_read = 1;
    int file = open_in("plan", O_RDONLY);
    if (file < 0) return;
    ssize_t size = syscall(SYS_read, file, text, sizeof text - 1);
    syscall(SYS_close, file);
    text[size < 0 ? 0 : size] = 0;
    while (sscanf(text + used, "%15s %ld %15s %ld%n", which, &number, action, &part, &here) == 4) {
        used += here;
        if (which[0] == 's') slow = atol(action);
        else if (plan_count < MOST_PLANS) {
            struct plan *it = &plans[plan_count++];
            it->which = which[0], it->number = number, it->part = part;
            strcpy(it->action, action);
        }
    }
}

static int side_at(int file) { return file >= 0 && file < MOST_FILES ? side_of[file] : 0; }

static void fire(const struct plan *it, int file, const char *call) {
    char line[120];
    const char *side = side_at(file) == 'l' ? "left" : side_at(file) ? "right" : "none";
    int size = snprintf(line, sizeof line, "%c %ld %s %ld %s %s\n", it->which, it->number, it->action, it->part, side, call);
    int log = open_in("fired", O_CREAT | O_WRONLY | O_APPEND);
    if (log < 0) return;
    syscall(SYS_write, log, line, size);
    syscall(SYS_close, log);
}

static int is(const struct plan *it, const char *action) { return it && strcmp(it->action, action) == 0; }

/* The line of this bug, if it is planted. */
static const struct plan *planted(const char *bug) {
    for (int at = 0; at < plan_count; at++)
        if (is(&plans[at], bug)) return &plans[at];
    return NULL;
}

/* Whether the sync that is in hand reports success and syncs nothing. */
static int lies(int file) {
    const struct plan *lie = planted("lie");
    return (lie && lie->part > 0 && changes % lie->part == 0) || (planted("early") && !was_written[file]);
}

/* What is planned for the call that begins now. */
static const struct plan *planned(char which, int file, const char *call) {
    read_plan();
    long number = which == 'c' ? ++changes : ++reads;
    for (int at = 0; at < plan_count; at++)
        if (plans[at].which == which && plans[at].number == number) {
            fire(&plans[at], file, call);
            return &plans[at];
        }
    return NULL;
}

/* Ends a call that must go wrong: with the end of the process, or with an error. */
static int go_wrong(const struct plan *it) {
    if (is(it, "die")) syscall(SYS_kill, syscall(SYS_getpid), SIGKILL);
    errno = is(it, "enospc") ? ENOSPC : EIO;
    return -1;
}

static const char *undo_of(char side) { return side == 'l' ? "left.undo" : "right.undo"; }
static const char *new_of(char side) { return side == 'l' ? "left.new" : "right.new"; }
static const char *lost_of(char side) { return side == 'l' ? "left.lost" : "right.lost"; }

/* Writes down a call that is about to change the file: the bytes that it may overwrite or take off, and those that it
   writes. */
static void keep_undo(int file, uint64_t at, const void *bytes, uint64_t size, int is_cut) {
    struct stat now;
    if (syscall(SYS_newfstatat, file, "", &now, AT_EMPTY_PATH) != 0) abort();
    uint64_t length = now.st_size, end = is_cut ? length : at + size < length ? at + size : length;
    struct head head = { at, size, at < end ? end - at : 0, length };
    char *whole = malloc(sizeof head + head.old_bytes + size);
    if (!whole) abort();
    memcpy(whole, &head, sizeof head);
    char *old = whole + sizeof head;
    if (head.old_bytes && syscall(SYS_pread64, file, old, head.old_bytes, at) != (long)head.old_bytes) abort();
    if (size) memcpy(old + head.old_bytes, bytes, size);
    int log = open_in(undo_of(side_at(file)), O_CREAT | O_WRONLY | O_APPEND);
    long all = sizeof head + head.old_bytes + size;
    if (log < 0 || syscall(SYS_write, log, whole, all) != all) abort();
    syscall(SYS_close, log);
    free(whole);
}

static void forget_undo(int file) {
    int mark = open_in(lost_of(side_at(file)), O_RDONLY);
    if (mark >= 0) {
        syscall(SYS_close, mark);
        return;
    }
    int log = open_in(undo_of(side_at(file)), O_CREAT | O_WRONLY);
    if (log < 0 || syscall(SYS_ftruncate, log, 0) != 0) abort();
    syscall(SYS_close, log);
}

/* A sync fails: no later one makes up for it. */
static void lose_undo(int file) {
    int mark = open_in(lost_of(side_at(file)), O_CREAT | O_WRONLY);
    if (mark < 0) abort();
    syscall(SYS_close, mark);
}

static const char *side_name(const char *path) {
    size_t size = strlen(path);
    if (size >= 9 && strcmp(path + size - 9, "left.bank") == 0) return "l";
    if (size >= 10 && strcmp(path + size - 10, "right.bank") == 0) return "r";
    return NULL;
}

static int open_watched(const char *path, int flags, int mode) {
    const char *side = side_name(path);
    if (!side || (flags & O_ACCMODE) == O_RDONLY) return (int)syscall(SYS_openat, AT_FDCWD, path, flags, mode);
    pthread_mutex_lock(&lock);
    int is_new = syscall(SYS_faccessat, AT_FDCWD, path, F_OK) != 0;
    if (is_new) {
        int mark = open_in(new_of(*side), O_CREAT | O_WRONLY);
        if (mark >= 0) syscall(SYS_close, mark);
    }
    int file = (int)syscall(SYS_openat, AT_FDCWD, path, flags, mode);
    if (file >= 0 && file < MOST_FILES) side_of[file] = *side, was_written[file] = 0;
    pthread_mutex_unlock(&lock);
    return file;
}

int open(const char *path, int flags, ...) {
    va_list rest;
    va_start(rest, flags);
    int mode = flags & (O_CREAT | O_TMPFILE) ? va_arg(rest, int) : 0;
    va_end(rest);
    return open_watched(path, flags, mode);
}
int open64(const char *path, int flags, ...) __attribute__((alias("open")));

/* A copy of a bank's descriptor is that bank too. */
int fcntl(int file, int command, ...) {
    va_list rest;
    va_start(rest, command);
    void *what = va_arg(rest, void *);
    va_end(rest);
    int done = (int)syscall(SYS_fcntl, file, command, what);
    if ((command == F_DUPFD || command == F_DUPFD_CLOEXEC) && done >= 0 && done < MOST_FILES && side_at(file)) {
        pthread_mutex_lock(&lock);
        side_of[done] = side_of[file], was_written[done] = was_written[file];
        pthread_mutex_unlock(&lock);
    }
    return done;
}
int fcntl64(int, int, ...) __attribute__((alias("fcntl")));

int close(int file) {
    if (side_at(file)) {
        pthread_mutex_lock(&lock);
        side_of[file] = 0;
        pthread_mutex_unlock(&lock);
    }
    return (int)syscall(SYS_close, file);
}

/* Room is closed gates, more than one: a write that may find no place on the device. */
static const char *name_of(const char *bytes, size_t size) {
    return size > 1 && bytes[0] == 0 && memcmp(bytes, bytes + 1, size - 1) == 0 ? "room" : "write";
}

ssize_t pwrite(int file, const void *bytes, size_t size, off_t at) {
    if (!side_at(file)) return syscall(SYS_pwrite64, file, bytes, size, at);
    pthread_mutex_lock(&lock);
    const struct plan *it = planned('c', file, name_of(bytes, size));
    size_t some = it ? size * it->part / 1000 : size;
    ssize_t done = 0;
    keep_undo(file, at, bytes, size, 0);
    was_written[file] = 1;
    if (some) done = syscall(SYS_pwrite64, file, bytes, some, at);
    if (it) done = go_wrong(it);
    pthread_mutex_unlock(&lock);
    return done;
}
ssize_t pwrite64(int, const void *, size_t, off_t) __attribute__((alias("pwrite")));

int ftruncate(int file, off_t size) {
    if (!side_at(file)) return (int)syscall(SYS_ftruncate, file, size);
    pthread_mutex_lock(&lock);
    const struct plan *it = planned('c', file, "cut");
    int done = 0;
    keep_undo(file, size, NULL, 0, 1);
    if (!it || it->part >= 500) done = (int)syscall(SYS_ftruncate, file, size);
    if (it) done = go_wrong(it);
    pthread_mutex_unlock(&lock);
    return done;
}
int ftruncate64(int, off_t) __attribute__((alias("ftruncate")));

int fdatasync(int file) {
    if (!side_at(file)) return (int)syscall(SYS_fdatasync, file);
    if (slow) usleep(slow);
    pthread_mutex_lock(&lock);
    const struct plan *it = planned('c', file, "sync");
    int done = 0;
    if (it ? is(it, "die") && it->part >= 500 : !lies(file)) forget_undo(file);
    if (it && !is(it, "die")) lose_undo(file);
    if (it) done = go_wrong(it);
    if (planted("retry")) done = 0;
    pthread_mutex_unlock(&lock);
    return done;
}

int fsync(int file) {
    struct stat now;
    if (side_at(file)) return fdatasync(file);
    if (syscall(SYS_newfstatat, file, "", &now, AT_EMPTY_PATH) != 0 || !S_ISDIR(now.st_mode))
        return (int)syscall(SYS_fsync, file);
    pthread_mutex_lock(&lock);
    const struct plan *it = planned('c', -1, "folder");
    char path[4096];
    int done = 0;
    if (!it || (is(it, "die") && it->part >= 500))
        for (const char *side = "lr"; *side; side++)
            if (path_of(path, sizeof path, new_of(*side))) syscall(SYS_unlink, path);
    if (it) done = go_wrong(it);
    pthread_mutex_unlock(&lock);
    return done;
}

/* A bank is read: marks it if it is not synced. */
static void mark_read(int file) {
    struct stat now;
    char log[4096], early[4096];
    int is_left = side_at(file) == 'l';
    if (!path_of(log, sizeof log, undo_of(side_at(file))) || !path_of(early, sizeof early, is_left ? "left.early" : "right.early")) return;
    if (syscall(SYS_newfstatat, AT_FDCWD, log, &now, 0) != 0 || now.st_size == 0) {
        syscall(SYS_unlink, early);
        return;
    }
    int mark = open_in(is_left ? "left.early" : "right.early", O_CREAT | O_WRONLY);
    if (mark >= 0) syscall(SYS_close, mark);
}

/* Something is written to the standard output: writes down what is not synced at that moment. */
static void mark_said(void) {
    const char *names[] = { "left.undo", "right.undo", "left.new", "right.new" };
    struct stat now;
    char path[4096], line[40];
    for (int at = 0; at < 4; at++) {
        if (!path_of(path, sizeof path, names[at]) || syscall(SYS_newfstatat, AT_FDCWD, path, &now, 0) != 0) continue;
        if (at < 2 && now.st_size == 0) continue;
        int size = snprintf(line, sizeof line, "%s\n", names[at]), said = open_in("said", O_CREAT | O_WRONLY | O_APPEND);
        if (said < 0 || syscall(SYS_write, said, line, size) != size) abort();
        syscall(SYS_close, said);
    }
}

ssize_t write(int file, const void *bytes, size_t size) {
    if (file != STDOUT_FILENO) return syscall(SYS_write, file, bytes, size);
    pthread_mutex_lock(&lock);
    mark_said();
    ssize_t done = syscall(SYS_write, file, bytes, size);
    pthread_mutex_unlock(&lock);
    return done;
}

ssize_t pread(int file, void *bytes, size_t size, off_t at) {
    if (!side_at(file)) return syscall(SYS_pread64, file, bytes, size, at);
    pthread_mutex_lock(&lock);
    mark_read(file);
    const struct plan *it = planned('r', file, "read");
    pthread_mutex_unlock(&lock);
    return it ? go_wrong(it) : syscall(SYS_pread64, file, bytes, size, at);
}
ssize_t pread64(int, void *, size_t, off_t) __attribute__((alias("pread")));
