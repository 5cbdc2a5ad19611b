/* Loaded before a program by LD_PRELOAD: makes one growth of memory, one read or one write fail.
 *
 * REFUSE_ALLOC=N   the Nth call of malloc, calloc or realloc gives no memory
 * REFUSE_READ=N    the Nth call of read fails (EIO)
 * REFUSE_WRITE=N   the Nth call of write fails (EIO)
 * REFUSE_SYNC=N    the Nth call of fsync or fdatasync fails (EIO)
 * REFUSE_RENAME=N  the Nth call of rename fails (EIO)
 * REFUSE_LOSE=FD   what is written to this open file is lost, and claimed to be written
 * REFUSE_SHORT=1   each read and each write moves one byte at most
 * REFUSE_MARK=FD   a byte x is written to this open file when the call that is refused is reached, and a byte a at
 *                  each write to a file whose write was refused
 * REFUSE_LATE=FD   a byte is written to this open file at each growth after the first write of a byte
 * REFUSE_SAME=1    each file has the number 7, and in the place of its device's number its own: files of other numbers
 *                  are files of other devices
 * REFUSE_KEPT=A, REFUSE_GIVEN=B   whoever opens the file A to read it reads the file B
 */
#define _GNU_SOURCE
#include <errno.h>
#include <fcntl.h>
#include <stdarg.h>
#include <stddef.h>
#include <stdlib.h>
#include <string.h>
#include <sys/stat.h>
#include <sys/syscall.h>
#include <unistd.h>

extern void *__libc_malloc(size_t size);
extern void *__libc_calloc(size_t count, size_t size);
extern void *__libc_realloc(void *old, size_t size);

static long allocs, reads, writes, syncs, renames;
static long alloc_at, read_at, write_at, sync_at, rename_at, is_short, are_same;
static int mark = -1, lost = -1, late = -1, failed = -1;
static const char *kept, *given;

static long number(const char *name) {
    const char *text = getenv(name);
    return text ? atol(text) : 0;
}

__attribute__((constructor)) static void start(void) {
    alloc_at = number("REFUSE_ALLOC");
    read_at = number("REFUSE_READ");
    write_at = number("REFUSE_WRITE");
    sync_at = number("REFUSE_SYNC");
    rename_at = number("REFUSE_RENAME");
    is_short = number("REFUSE_SHORT");
    are_same = number("REFUSE_SAME");
    const char *text = getenv("REFUSE_MARK");
    mark = text ? atoi(text) : -1;
    text = getenv("REFUSE_LOSE");
    lost = text ? atoi(text) : -1;
    text = getenv("REFUSE_LATE");
    late = text ? atoi(text) : -1;
    kept = getenv("REFUSE_KEPT");
    given = getenv("REFUSE_GIVEN");
    allocs = reads = writes = syncs = renames = 0;
}

static int is_refused(long *count, long at) {
    *count += 1;
    if (at == 0 || *count != at) return 0;
    if (mark >= 0) syscall(SYS_write, mark, "x", 1);
    return 1;
}

/* Whether a growth is refused; one after the first write is told. */
static int is_growth_refused(void) {
    if (writes > 0 && late >= 0) syscall(SYS_write, late, "g", 1);
    return is_refused(&allocs, alloc_at);
}

void *malloc(size_t size) {
    if (is_growth_refused()) { errno = ENOMEM; return NULL; }
    return __libc_malloc(size);
}

void *calloc(size_t count, size_t size) {
    if (is_growth_refused()) { errno = ENOMEM; return NULL; }
    return __libc_calloc(count, size);
}

void *realloc(void *old, size_t size) {
    if (is_growth_refused()) { errno = ENOMEM; return NULL; }
    return __libc_realloc(old, size);
}

ssize_t read(int file, void *buffer, size_t count) {
    if (is_refused(&reads, read_at)) { errno = EIO; return -1; }
    return syscall(SYS_read, file, buffer, is_short && count > 1 ? 1 : count);
}

ssize_t write(int file, const void *buffer, size_t count) {
    if (file == failed && mark >= 0) syscall(SYS_write, mark, "a", 1);
    if (is_refused(&writes, write_at)) { failed = file; errno = EIO; return -1; }
    if (file == lost) return count;
    return syscall(SYS_write, file, buffer, is_short && count > 1 ? 1 : count);
}

int open(const char *path, int flags, ...) {
    va_list rest;
    va_start(rest, flags);
    int mode = flags & O_CREAT ? va_arg(rest, int) : 0;
    va_end(rest);
    if (kept && given && (flags & O_ACCMODE) == O_RDONLY && strcmp(path, kept) == 0) path = given;
    return syscall(SYS_openat, AT_FDCWD, path, flags, mode);
}

int close(int file) {
    if (file == failed) failed = -1;
    return syscall(SYS_close, file);
}

int statx(int folder, const char *restrict path, int flags, unsigned mask, struct statx *restrict found) {
    int done = syscall(SYS_statx, folder, path, flags, mask, found);
    if (done == 0 && are_same) {
        found->stx_dev_major = found->stx_ino >> 20;
        found->stx_dev_minor = found->stx_ino & 0xFFFFF;
        found->stx_ino = 7;
    }
    return done;
}

int fsync(int file) {
    if (is_refused(&syncs, sync_at)) { errno = EIO; return -1; }
    return (int)syscall(SYS_fsync, file);
}

int fdatasync(int file) {
    if (is_refused(&syncs, sync_at)) { errno = EIO; return -1; }
    return (int)syscall(SYS_fdatasync, file);
}

int rename(const char *from, const char *to) {
    if (is_refused(&renames, rename_at)) { errno = EIO; return -1; }
    return (int)syscall(SYS_rename, from, to);
}
