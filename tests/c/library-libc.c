/* The calls of the C library that tests/c/library-libc.h speaks of. The libraries under test take them from the program that this
 * is linked with; the system does the rest. */
#define _GNU_SOURCE
#include "library-libc.h"

#include <errno.h>
#include <fcntl.h>
#include <limits.h>
#include <stdarg.h>
#include <stdio.h>
#include <stdlib.h>
#include <string.h>
#include <sys/mman.h>
#include <sys/stat.h>
#include <sys/syscall.h>
#include <unistd.h>

const char *libc_root = "";
void (*libc_before_open)(void);
void (*libc_before_lstat)(void);
void (*libc_before_read)(void);
int libc_interrupts, libc_read_error, libc_was_refused, libc_flags;
long libc_refuse, libc_held, libc_open;

extern void *__libc_malloc(size_t);
extern void *__libc_calloc(size_t, size_t);
extern void *__libc_realloc(void *, size_t);
extern void __libc_free(void *);

static int is_refused(void) {
    if (libc_refuse == 0 || --libc_refuse > 0)
        return 0;
    libc_was_refused = 1;
    errno = ENOMEM;
    return 1;
}

static void *held(void *block) {
    libc_held += block != NULL;
    return block;
}

void *malloc(size_t size) {
    return is_refused() ? NULL : held(__libc_malloc(size));
}

void *calloc(size_t count, size_t size) {
    return is_refused() ? NULL : held(__libc_calloc(count, size));
}

void *realloc(void *old, size_t size) {
    if (is_refused())
        return NULL;
    return old ? __libc_realloc(old, size) : held(__libc_malloc(size));
}

void *reallocarray(void *old, size_t count, size_t size) {
    return realloc(old, count * size);
}

void free(void *block) {
    libc_held -= block != NULL;
    __libc_free(block);
}

void *mmap(void *at, size_t length, int protection, int flags, int fd, off_t offset) {
    if (is_refused())
        return MAP_FAILED;
    long mapped = syscall(SYS_mmap, at, length, protection, flags, fd, offset);
    libc_held += mapped != -1 ? (long)length : 0;
    return (void *)mapped;
}

int munmap(void *at, size_t length) {
    libc_held -= (long)length;
    return (int)syscall(SYS_munmap, at, length);
}

/* The path below the root. */
static const char *below_root(const char *path, char room[PATH_MAX]) {
    int is_absolute = !strncmp(path, "/etc/", 5) || !strncmp(path, "/usr/", 5);
    snprintf(room, PATH_MAX, "%s%s", is_absolute ? libc_root : "", path);
    return room;
}

int open(const char *path, int flags, ...) {
    char room[PATH_MAX];
    mode_t mode = 0;

    if (flags & O_CREAT) {
        va_list more;
        va_start(more, flags);
        mode = va_arg(more, mode_t);
        va_end(more);
    }
    if (libc_before_open)
        libc_before_open();
    libc_flags = flags;
    int fd = (int)syscall(SYS_openat, AT_FDCWD, below_root(path, room), flags, mode);
    libc_open += fd >= 0;
    return fd;
}

int close(int fd) {
    libc_open--;
    return (int)syscall(SYS_close, fd);
}

int lstat(const char *path, struct stat *status) {
    char room[PATH_MAX];

    if (libc_before_lstat)
        libc_before_lstat();
    return fstatat(AT_FDCWD, below_root(path, room), status, AT_SYMLINK_NOFOLLOW);
}

ssize_t pread(int fd, void *bytes, size_t count, off_t offset) {
    if (libc_before_read)
        libc_before_read();
    if (libc_interrupts > 0) {
        libc_interrupts--;
        errno = EINTR;
        return -1;
    }
    if (libc_read_error) {
        errno = libc_read_error;
        return -1;
    }
    return syscall(SYS_pread64, fd, bytes, count, offset);
}
