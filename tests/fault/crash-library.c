/* Preloaded by tests/fault/crash and its driver: counts the file calls of the program that it is loaded into, and ends the
 * program at one of them, lets one fail, or lets the calls take less than they were given.
 *
 * CRASH_AT=N       the Nth call that counts, from 1, is where it happens; 0: nowhere
 * CRASH_HOW=HOW    what happens there:
 *                    before   the program is killed right before the call
 *                    after    it is killed right after the call
 *                    part     only writes count; half of the bytes are written, and then it is killed
 *                    stop     it is stopped right before the call, until a signal has it go on
 *                    fail     the call isn't made and fails with the error CRASH_ERRNO, a number. (A file is closed all
 *                             the same.)
 * CRASH_PIECE=P    a read or a write takes at most P bytes; `half`: half of the bytes that it is given, one at least
 * CRASH_TAKES=1    once a file was renamed another is made under its old name, as another process might
 * CRASH_AGAIN=1    each second read, write and sync of a file fails with EINTR and does nothing
 * CRASH_MARK=FILE  this file is made where it happens. Its words: the call, its path, and `renamed` or `not-renamed`,
 *                  whether a rename was made before
 * CRASH_LOG=FILE   a line for each call that was made
 *
 * A call counts unless its descriptor is below 3; CRASH_PIECE and CRASH_AGAIN hold for these too. A sync of a file is
 * counted, and not made. The library makes its own calls by number, past those that it stands for. */
#define _GNU_SOURCE
#include <errno.h>
#include <fcntl.h>
#include <limits.h>
#include <signal.h>
#include <stdarg.h>
#include <stdio.h>
#include <stdlib.h>
#include <string.h>
#include <sys/stat.h>
#include <sys/syscall.h>
#include <unistd.h>

enum { MOST_FILES = 64, FIRST_COUNTED = 3, LOG_NUMBER = 500 };
enum how { NOWHERE, BEFORE, AFTER, PART, FAIL, STOP };

static enum how how;
static unsigned long at, seen, piece;
static int error, takes_half, takes_name, fails_again, is_again, has_renamed, log_file = -1;
static const char *mark;
static char paths[MOST_FILES][PATH_MAX];

__attribute__((constructor)) static void begin(void) {
    static const char *const names[] = {"", "before", "after", "part", "fail", "stop"};
    const char *word = getenv("CRASH_HOW"), *number = getenv("CRASH_AT"), *length = getenv("CRASH_PIECE");
    for (int i = 1; word && i <= STOP; i++)
        if (!strcmp(word, names[i])) how = i;
    at = number ? strtoul(number, 0, 10) : 0;
    takes_half = length && !strcmp(length, "half");
    piece = length ? strtoul(length, 0, 10) : 0;
    error = getenv("CRASH_ERRNO") ? atoi(getenv("CRASH_ERRNO")) : EIO;
    takes_name = getenv("CRASH_TAKES") != 0;
    fails_again = getenv("CRASH_AGAIN") != 0;
    mark = getenv("CRASH_MARK");
    const char *log = getenv("CRASH_LOG");
    if (!log) return;
    int file = syscall(SYS_openat, AT_FDCWD, log, O_WRONLY | O_CREAT | O_APPEND | O_CLOEXEC, 0600);
    log_file = syscall(SYS_fcntl, file, F_DUPFD_CLOEXEC, LOG_NUMBER);
    syscall(SYS_close, file);
}

static void put(int file, const char *line) {
    long written = syscall(SYS_write, file, line, strlen(line));
    (void)written;
}

static void note(const char *name, const char *path) {
    char line[2 * PATH_MAX];
    int file = mark ? syscall(SYS_openat, AT_FDCWD, mark, O_WRONLY | O_CREAT | O_TRUNC | O_CLOEXEC, 0600) : -1;
    if (file < 0) return;
    snprintf(line, sizeof line, "%s %s %s\n", name, path, has_renamed ? "renamed" : "not-renamed");
    put(file, line);
    syscall(SYS_close, file);
}

static void die(void) {
    syscall(SYS_kill, syscall(SYS_getpid), SIGKILL);
    syscall(SYS_exit_group, 128 + SIGKILL); /* the first process of a namespace can't be killed from inside */
}

static const char *path_of(int file) { return file >= 0 && file < MOST_FILES && paths[file][0] ? paths[file] : "?"; }

static int is_counted(int file) { return file >= FIRST_COUNTED; }

/* Before a call: counts it, and answers whether it fails. */
static int fails(const char *name, const char *path, int is_write) {
    if (how == NOWHERE || at == 0 || (how == PART && !is_write)) return 0;
    if (++seen != at) return 0;
    note(name, path);
    if (how == BEFORE) die();
    if (how == STOP) syscall(SYS_kill, syscall(SYS_getpid), SIGSTOP);
    if (how == FAIL) errno = error;
    return how == FAIL;
}

/* After a call: a line of the log, and the death that is due. */
static void made(const char *name, const char *path, const char *more) {
    if (log_file >= 0) {
        char line[4 * PATH_MAX];
        snprintf(line, sizeof line, "%s %s%s\n", name, path, more);
        int kept = errno;
        put(log_file, line);
        errno = kept;
    }
    if (how == AFTER && seen == at && at) die();
}

/* Whether a call that may be tried again is told to be. */
static int is_interrupted(void) {
    if (!fails_again) return 0;
    is_again = !is_again;
    if (is_again) errno = EINTR;
    return is_again;
}

static size_t share_of(size_t count) {
    if (takes_half && count > 1) return (count + 1) / 2;
    return piece && count > piece ? piece : count;
}

/* A plain call with one path or descriptor: counted, made, logged. */
#define MAKE(name, path, call)                     \
    do {                                           \
        if (fails(name, path, 0)) return -1;       \
        long result = (call);                      \
        made(name, path, result < 0 ? " failed" : ""); \
        return result;                             \
    } while (0)

static int open_at(int folder, const char *path, int flags, mode_t mode) {
    char more[80];
    if (fails("open", path, 0)) return -1;
    int file = syscall(SYS_openat, folder, path, flags, mode);
    if (file >= 0 && file < MOST_FILES) snprintf(paths[file], PATH_MAX, "%s", path);
    snprintf(more, sizeof more, "%s%s%s%s %o%s", (flags & O_ACCMODE) == O_RDONLY ? " read" : " write",
             flags & O_CREAT ? " create" : "", flags & O_EXCL ? " new" : "", flags & O_TRUNC ? " cut" : "",
             flags & O_CREAT ? mode : 0, file < 0 ? " failed" : "");
    made("open", path, more);
    return file;
}

static mode_t mode_of(int flags, va_list rest) { return flags & O_CREAT ? va_arg(rest, mode_t) : 0; }

#define OPEN(name, parameters, last, folder)      \
    int name parameters {                         \
        va_list rest;                             \
        va_start(rest, last);                     \
        mode_t mode = mode_of(flags, rest);       \
        va_end(rest);                             \
        return open_at(folder, path, flags, mode); \
    }
OPEN(open, (const char *path, int flags, ...), flags, AT_FDCWD)
OPEN(open64, (const char *path, int flags, ...), flags, AT_FDCWD)
OPEN(openat, (int at_folder, const char *path, int flags, ...), flags, at_folder)
OPEN(openat64, (int at_folder, const char *path, int flags, ...), flags, at_folder)

int close(int file) {
    if (!is_counted(file)) return syscall(SYS_close, file);
    const char *path = path_of(file);
    int is_failure = fails("close", path, 0), result = syscall(SYS_close, file);
    if (is_failure) return errno = error, -1;
    made("close", path, "");
    return result;
}

ssize_t read(int file, void *bytes, size_t count) {
    if (is_interrupted()) return -1;
    if (!is_counted(file)) return syscall(SYS_read, file, bytes, share_of(count));
    MAKE("read", path_of(file), syscall(SYS_read, file, bytes, share_of(count)));
}

ssize_t pread(int file, void *bytes, size_t count, off_t from) {
    if (is_interrupted()) return -1;
    MAKE("read", path_of(file), syscall(SYS_pread64, file, bytes, share_of(count), from));
}
ssize_t pread64(int file, void *bytes, size_t count, off_t from) { return pread(file, bytes, count, from); }

ssize_t write(int file, const void *bytes, size_t count) {
    if (is_interrupted()) return -1;
    count = share_of(count);
    if (!is_counted(file)) return syscall(SYS_write, file, bytes, count);
    const char *path = path_of(file);
    if (fails("write", path, 1)) return -1;
    if (how == PART && seen == at && at) syscall(SYS_write, file, bytes, count / 2), die();
    ssize_t written = syscall(SYS_write, file, bytes, count);
    made("write", path, written < 0 ? " failed" : "");
    return written;
}
ssize_t __write(int file, const void *bytes, size_t count) { return write(file, bytes, count); }

/* A sync is counted and not made: it shows nowhere but in what a loss of power leaves, and takes long. */
static int sync_file(const char *name, int file) {
    if (is_interrupted()) return -1;
    MAKE(name, path_of(file), syscall(SYS_fcntl, file, F_GETFD) < 0 ? -1 : 0);
}
int fsync(int file) { return sync_file("fsync", file); }
int fdatasync(int file) { return sync_file("fdatasync", file); }

int fchmod(int file, mode_t mode) {
    char more[32];
    if (fails("fchmod", path_of(file), 0)) return -1;
    int result = syscall(SYS_fchmod, file, mode);
    snprintf(more, sizeof more, " %o", mode);
    made("fchmod", path_of(file), more);
    return result;
}

int chmod(const char *path, mode_t mode) { MAKE("chmod", path, syscall(SYS_fchmodat, AT_FDCWD, path, mode)); }

int flock(int file, int operation) {
    MAKE("flock", path_of(file), syscall(SYS_flock, file, operation));
}

int fchown(int file, uid_t owner, gid_t group) {
    MAKE("fchown", path_of(file), syscall(SYS_fchown, file, owner, group));
}
int ftruncate(int file, off_t length) { MAKE("ftruncate", path_of(file), syscall(SYS_ftruncate, file, length)); }
int ftruncate64(int file, off_t length) { return ftruncate(file, length); }

static int rename_at(int from_folder, const char *from, int to_folder, const char *to, unsigned flags) {
    char more[PATH_MAX + 16];
    if (fails("rename", from, 0)) return -1;
    int result = syscall(SYS_renameat2, from_folder, from, to_folder, to, flags);
    if (!result) has_renamed = 1;
    if (!result && takes_name)
        syscall(SYS_close, syscall(SYS_openat, from_folder, from, O_WRONLY | O_CREAT | O_EXCL | O_CLOEXEC, 0600));
    snprintf(more, sizeof more, " %s%s", to, result ? " failed" : "");
    made("rename", from, more);
    return result;
}
int rename(const char *from, const char *to) { return rename_at(AT_FDCWD, from, AT_FDCWD, to, 0); }
int renameat(int from_folder, const char *from, int to_folder, const char *to) {
    return rename_at(from_folder, from, to_folder, to, 0);
}
int renameat2(int from_folder, const char *from, int to_folder, const char *to, unsigned flags) {
    return rename_at(from_folder, from, to_folder, to, flags);
}

int link(const char *from, const char *to) { MAKE("link", from, syscall(SYS_linkat, AT_FDCWD, from, AT_FDCWD, to, 0)); }
int unlink(const char *path) { MAKE("unlink", path, syscall(SYS_unlinkat, AT_FDCWD, path, 0)); }
int unlinkat(int folder, const char *path, int flags) { MAKE("unlink", path, syscall(SYS_unlinkat, folder, path, flags)); }
int rmdir(const char *path) { MAKE("rmdir", path, syscall(SYS_unlinkat, AT_FDCWD, path, AT_REMOVEDIR)); }
int mkdir(const char *path, mode_t mode) { MAKE("mkdir", path, syscall(SYS_mkdirat, AT_FDCWD, path, mode)); }
int mkdirat(int folder, const char *path, mode_t mode) { MAKE("mkdir", path, syscall(SYS_mkdirat, folder, path, mode)); }

int statx(int folder, const char *path, int flags, unsigned mask, struct statx *found) {
    const char *told = *path ? path : path_of(folder);
    MAKE("stat", told, syscall(SYS_statx, folder, path, flags, mask, found));
}

ssize_t getdents64(int folder, void *entries, size_t count) {
    MAKE("list", path_of(folder), syscall(SYS_getdents64, folder, entries, count));
}

ssize_t readlink(const char *path, char *text, size_t count) {
    MAKE("readlink", path, syscall(SYS_readlinkat, AT_FDCWD, path, text, count));
}
