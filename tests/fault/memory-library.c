/* Preloaded by tests/fault/memory: refuses requests for memory of the program that it is loaded into.
 *
 * REFUSE_FROM=N, REFUSE_TO=M   the Nth to the Mth request that the program makes are refused (from 1; N = 0: none)
 * REFUSED=FILE                 this file is made at the first refusal. It says who asked: `own` where the program's
 *                              own code did, else the name of the C library's function that did
 *
 * A request is a call of malloc, calloc, realloc, reallocarray, memalign, aligned_alloc or posix_memalign after the
 * libraries were loaded. The library asks for no memory itself, and writes to nothing but that file. */
#define _GNU_SOURCE
#include <dlfcn.h>
#include <errno.h>
#include <fcntl.h>
#include <link.h>
#include <stdint.h>
#include <stdlib.h>
#include <string.h>
#include <unistd.h>

extern void *__libc_malloc(size_t);
extern void *__libc_calloc(size_t, size_t);
extern void *__libc_realloc(void *, size_t);
extern void *__libc_memalign(size_t, size_t);

static unsigned long refuse_from, refuse_to, seen;
static const char *mark;
static int is_counting;
static uintptr_t own_begin = UINTPTR_MAX, own_end;

/* The first object is the program: its segments bound its own code. */
static int note_program(struct dl_phdr_info *info, size_t size, void *data) {
    (void)size, (void)data;
    for (int i = 0; i < info->dlpi_phnum; i++) {
        const ElfW(Phdr) *segment = &info->dlpi_phdr[i];
        if (segment->p_type != PT_LOAD) continue;
        uintptr_t begin = info->dlpi_addr + segment->p_vaddr, end = begin + segment->p_memsz;
        if (begin < own_begin) own_begin = begin;
        if (end > own_end) own_end = end;
    }
    return 1;
}

__attribute__((constructor)) static void begin(void) {
    const char *from = getenv("REFUSE_FROM"), *to = getenv("REFUSE_TO");
    mark = getenv("REFUSED");
    if (!from || !to || !mark) return;
    refuse_from = strtoul(from, 0, 10);
    refuse_to = strtoul(to, 0, 10);
    dl_iterate_phdr(note_program, 0);
    is_counting = 1;
}

static void note_refusal(void *caller) {
    int file = open(mark, O_WRONLY | O_CREAT | O_EXCL | O_CLOEXEC, 0600);
    if (file < 0) return;
    const char *who = "own";
    Dl_info found;
    if ((uintptr_t)caller < own_begin || (uintptr_t)caller >= own_end)
        who = dladdr(caller, &found) && found.dli_sname ? found.dli_sname : "unnamed";
    ssize_t written = write(file, who, strlen(who));
    (void)written;
    close(file);
}

/* Counts a request, and answers whether it is refused. */
static int is_refused(void *caller) {
    if (!is_counting) return 0;
    seen++;
    if (refuse_from == 0 || seen < refuse_from || seen > refuse_to) return 0;
    note_refusal(caller);
    errno = ENOMEM;
    return 1;
}

#define CALLER __builtin_return_address(0)

void *malloc(size_t size) { return is_refused(CALLER) ? 0 : __libc_malloc(size); }

void *calloc(size_t count, size_t size) { return is_refused(CALLER) ? 0 : __libc_calloc(count, size); }

void *realloc(void *old, size_t size) { return is_refused(CALLER) ? 0 : __libc_realloc(old, size); }

void *reallocarray(void *old, size_t count, size_t size) {
    size_t whole;
    if (is_refused(CALLER)) return 0;
    if (__builtin_mul_overflow(count, size, &whole)) return errno = ENOMEM, (void *)0;
    return __libc_realloc(old, whole);
}

void *memalign(size_t alignment, size_t size) { return is_refused(CALLER) ? 0 : __libc_memalign(alignment, size); }

void *aligned_alloc(size_t alignment, size_t size) { return is_refused(CALLER) ? 0 : __libc_memalign(alignment, size); }

int posix_memalign(void **block, size_t alignment, size_t size) {
    if (is_refused(CALLER)) return ENOMEM;
    void *found = __libc_memalign(alignment, size);
    if (!found) return ENOMEM;
    *block = found;
    return 0;
}
