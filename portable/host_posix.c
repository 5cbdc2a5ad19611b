/* The program on a system with POSIX: `main`, and the calls that the program's module makes of its host.
 *
 * The module is built for Linux on x86-64, so its numbers of flags and errors are translated by name. A call that fails returns
 * -1 and leaves the number of its error for `rattle_errno`. Each address of the module is checked before it is used. */
#define _GNU_SOURCE /* else some systems hide flock */
#define _FILE_OFFSET_BITS 64
#define _TIME_BITS 64 /* else a file of the year 2038 has no status where a long has 32 bits */
#include <dirent.h>
#include <errno.h>
#include <fcntl.h>
#include <signal.h>
#include <stdio.h>
#include <stdlib.h>
#include <string.h>
#include <sys/file.h>
#include <sys/mman.h>
#include <sys/stat.h>
#include <time.h>
#include <unistd.h>
#include "pocsag.h"
#include "wasm-rt-impl.h"

#if !WASM_RT_SKIP_SIGNAL_RECOVERY || WASM_RT_USE_STACK_DEPTH_COUNT
#error "compile it as the Makefile does"
#elif defined(__BYTE_ORDER__) && __BYTE_ORDER__ != __ORDER_LITTLE_ENDIAN__
#error "the module runs on little-endian processors alone"
#endif
#ifndef LOCK_EX /* then nothing is locked, and the program refuses what needs a lock */
#define flock(file, how) (errno = ENOTSUP, -1)
#endif
#ifdef F_FULLFSYNC /* of macOS, whose fsync leaves the bytes in the memory of the disk */
#define fsync(file) (fcntl(file, F_FULLFSYNC) ? fsync(file) : 0)
#endif
#if !defined(_POSIX_SYNCHRONIZED_IO) || _POSIX_SYNCHRONIZED_IO <= 0
#define fdatasync(file) fsync(file)
#endif

/* The bytes of addresses that are taken: with 64 bits all that the module can name, so that the system refuses those out of range. */
#define ADDRESSES ((size_t)1 << (WASM_RT_MEMCHECK_SIGNAL_HANDLER ? 33 : 24))

enum {
    FIRST = 1 << 24,    /* bytes of memory, more than the module begins with */
    STATUS_SIZE = 256,  /* bytes of what statx writes */
    ENTRY_HEAD = 19,    /* bytes in front of the name in an entry of a folder */
    ENTRY_ROOM = 1056,  /* bytes for an entry with the longest name of any system */
    MOST_PAGES = 65535, /* of memory: the size of one more would need 33 bits */
    NO_MEMORY = 3,      /* the program's status where memory is refused */
};

typedef struct Z_env_instance_t {
    Z_pocsag_instance_t module;
    u32 error; /* of the last call that failed */
    u64 count; /* of the words */
    char **words;
    DIR *list; /* of the folder that is open, since the program lists one at a time */
} Host;

struct name { int here; u32 there; }; /* what has a number here, and one for the module */
static const struct name ERRORS[] = {
    {EPERM, 1}, {ENOENT, 2}, {ESRCH, 3}, {EINTR, 4}, {EIO, 5}, {ENXIO, 6}, {EBADF, 9}, {EAGAIN, 11}, {EWOULDBLOCK, 11}, {ENOMEM, 12},
    {EACCES, 13}, {EFAULT, 14}, {EBUSY, 16}, {EEXIST, 17}, {EXDEV, 18}, {ENODEV, 19}, {ENOTDIR, 20}, {EISDIR, 21}, {EINVAL, 22},
    {ENFILE, 23}, {EMFILE, 24}, {ENOTTY, 25}, {ETXTBSY, 26}, {EFBIG, 27}, {ENOSPC, 28}, {ESPIPE, 29}, {EROFS, 30}, {EMLINK, 31},
    {EPIPE, 32}, {EDEADLK, 35}, {ENAMETOOLONG, 36}, {ENOLCK, 37}, {ENOSYS, 38}, {ENOTEMPTY, 39}, {ELOOP, 40}, {EOVERFLOW, 75},
    {EILSEQ, 84}, {ENOTSUP, 95}, {EOPNOTSUPP, 95}, {ECONNRESET, 104}, {ETIMEDOUT, 110}, {ESTALE, 116}, {EDQUOT, 122}, {0, 0},
};
static const struct name FLAGS[] = {
    {O_WRONLY, 01}, {O_RDWR, 02}, {O_CREAT, 0100}, {O_EXCL, 0200}, {O_NOCTTY, 0400}, {O_TRUNC, 01000}, {O_APPEND, 02000},
    {O_NONBLOCK, 04000}, {O_DIRECTORY, 0200000}, {O_NOFOLLOW, 0400000}, {O_CLOEXEC, 02000000}, {0, 0},
};
static const struct name KINDS[] = {
    {S_IFIFO, 0010000}, {S_IFCHR, 0020000}, {S_IFDIR, 0040000}, {S_IFBLK, 0060000}, {S_IFREG, 0100000}, {S_IFLNK, 0120000},
    {S_IFSOCK, 0140000}, {0, 0},
};

/* The module's number of what has this one here, or 0. */
static u32 there(const struct name *row, int here)
{
    while (row->there && row->here != here)
        row++;
    return row->there;
}

/* What a call of the system returned. Where it failed, its error is kept, as a failed device where it has no name. */
static s64 done(Host *host, s64 result)
{
    u32 error = there(ERRORS, errno);
    if (result < 0)
        host->error = error ? error : there(ERRORS, EIO);
    return result;
}

/* The place of so many bytes of the module. */
static char *at(Host *host, u64 address, u64 size)
{
    const wasm_rt_memory_t *memory = &host->module.w2c_memory;
    if (address > memory->size || size > memory->size - address)
        wasm_rt_trap(WASM_RT_TRAP_OOB);
    return (char *)memory->data + address;
}

/* The place of a text of the module, which ends with a zero. */
static const char *text(Host *host, u64 address)
{
    const char *start = at(host, address, 0);
    if (!memchr(start, 0, host->module.w2c_memory.size - address))
        wasm_rt_trap(WASM_RT_TRAP_OOB);
    return start;
}

static int open_folder(Host *host, const char *path)
{
    int file = host->list ? (errno = EMFILE, -1) : open(path, O_RDONLY | O_DIRECTORY | O_NOFOLLOW | O_CLOEXEC);
    return file < 0 || (host->list = fdopendir(file)) ? file : (close(file), -1);
}

static int close_file(Host *host, int file)
{
    DIR *list = host->list;
    if (!list || dirfd(list) != file)
        return close(file);
    host->list = NULL;
    return closedir(list);
}

static int open_file(const char *path, u32 flags, u32 rights)
{
    int here = 0;
    for (const struct name *row = FLAGS; row->there; row++)
        here |= flags & row->there ? row->here : 0;
    return open(path, here, (mode_t)rights);
}

/* Looks at a path or an open file. What Linux shows below /proc is found by other calls, since few systems have it. */
static int look(const char *path, int file, int flags, struct stat *status)
{
    int number, end = 0;
    if (sscanf(path, "/proc/self/fd/%9d%n", &number, &end) == 1 && !path[end])
        return fstat(number, status);
    if (sscanf(path, "/proc/%9d%n", &number, &end) == 1 && !path[end] && number > 0 && kill(number, 0) < 0 && errno == ESRCH)
        return errno = ENOENT, -1;
    path = (end && !path[end]) || strcmp(path, "/proc/self/stat") == 0 ? "/" : path;
    return *path ? fstatat(AT_FDCWD, path, status, flags) : fstat(file, status);
}

#define CALL(type, name, words, result) type Z_envZ_##name words { return (type)done(host, result); }
CALL(u32, close, (Host *host, u32 file), close_file(host, (int)file))
CALL(u32, fchmod, (Host *host, u32 file, u32 rights), fchmod((int)file, (mode_t)(rights & 07777)))
CALL(u32, fchown, (Host *host, u32 file, u32 user, u32 group), fchown((int)file, user, group))
CALL(u32, fdatasync, (Host *host, u32 file), fdatasync((int)file))
CALL(u32, flock, (Host *host, u32 file, u32 how), flock((int)file, (int)how)) /* its numbers are the same everywhere */
CALL(u32, fsync, (Host *host, u32 file), fsync((int)file))
CALL(u32, ftruncate, (Host *host, u32 file, u64 size), ftruncate((int)file, (off_t)size))
CALL(u32, getpid, (Host *host), getpid())
CALL(u32, host_fcntl, (Host *host, u32 file, u32 command, u64 first), /* which only duplicates files */
     command == 1030 ? fcntl((int)file, F_DUPFD_CLOEXEC, (int)first) : (errno = EINVAL, -1))
CALL(u32, host_open, (Host *host, u64 path, u32 flags, u32 rights), open_file(text(host, path), flags, rights))
CALL(u32, isatty, (Host *host, u32 file), isatty((int)file))
CALL(u32, link, (Host *host, u64 from, u64 to), linkat(AT_FDCWD, text(host, from), AT_FDCWD, text(host, to), 0))
CALL(u32, rattle_errno, (Host *host), host->error)
void Z_envZ_rattle_set_errno(Host *host, u32 error) { host->error = error; }
CALL(u32, rattle_open_dir_at, (Host *host, u32 from, u64 path), open_folder(host, text(host, path)))
CALL(u64, read, (Host *host, u32 file, u64 room, u64 size), read((int)file, at(host, room, size), (size_t)size))
CALL(u32, rename, (Host *host, u64 from, u64 to), rename(text(host, from), text(host, to)))
CALL(u32, unlink, (Host *host, u64 path), unlink(text(host, path)))
CALL(u64, write, (Host *host, u32 file, u64 bytes, u64 size), write((int)file, at(host, bytes, size), (size_t)size))

/* Puts a word into the room and returns its length, -1 where there is none, or -2 where it does not fit. */
u64 Z_envZ_rattle_arg(Host *host, u64 number, u64 room, u64 size)
{
    u64 length = number < host->count ? strlen(host->words[number]) : 0;
    if (number >= host->count || length > size)
        return number >= host->count ? (u64)-1 : (u64)-2;
    memcpy(at(host, room, length), host->words[number], length);
    return length;
}

u32 Z_envZ_nanosleep(Host *host, u64 wanted, u64 left)
{
    s64 part[2];
    memcpy(part, at(host, wanted, sizeof part), sizeof part);
    return (u32)done(host, nanosleep(&(struct timespec){.tv_sec = (time_t)part[0], .tv_nsec = (long)part[1]}, NULL));
}

/* Writes all that is known of a file but its times, for which the module does not ask. */
u32 Z_envZ_statx(Host *host, u32 from, u64 path, u32 how, u32 asked, u64 room)
{
    struct stat it;
    char *place = memset(at(host, room, STATUS_SIZE), 0, STATUS_SIZE);
    if (look(text(host, path), (int)from, how & 0x100 ? AT_SYMLINK_NOFOLLOW : 0, &it) < 0)
        return (u32)done(host, -1);
    const u64 fields[][3] = { /* the place of each, its size, and its number */
        {0, 4, 0x31f}, {16, 4, it.st_nlink}, {20, 4, it.st_uid}, {24, 4, it.st_gid}, {32, 8, it.st_ino}, {40, 8, (u64)it.st_size},
        {28, 2, there(KINDS, it.st_mode & S_IFMT) | (it.st_mode & 07777)}, {136, 8, (u64)it.st_dev},
    };
    for (size_t k = 0; k < sizeof fields / sizeof *fields; k++)
        memcpy(place + fields[k][0], &fields[k][2], fields[k][1]);
    return 0;
}

/* Writes the next entries of a folder, as many as there is room for, and returns how many bytes they take. */
u64 Z_envZ_getdents64(Host *host, u32 file, u64 room, u64 size)
{
    char *to = at(host, room, size), *start = to;
    struct dirent *entry;
    errno = host->list && dirfd(host->list) == (int)file && size >= ENTRY_ROOM ? 0 : EINVAL;
    while (!errno && start + size - to >= ENTRY_ROOM && (entry = readdir(host->list))) {
        uint16_t length = (uint16_t)strlen(entry->d_name), whole = (ENTRY_HEAD + length + 8) / 8 * 8;
        memset(to, 0, whole);
        memcpy(to + 16, &whole, sizeof whole);
        memcpy(to + ENTRY_HEAD, entry->d_name, length);
        to += whole;
    }
    return (u64)(errno && to == start ? done(host, -1) : to - start);
}

static Host host;

/* An address that the system refuses is one of the module that is out of range, or it is behind the end of the stack. */
static void refused(int number, siginfo_t *about, void *context)
{
    u64 distance = (u64)((char *)about->si_addr - (char *)host.module.w2c_memory.data);
    wasm_rt_trap(WASM_RT_MEMCHECK_SIGNAL_HANDLER && distance < ADDRESSES ? WASM_RT_TRAP_OOB : WASM_RT_TRAP_EXHAUSTION);
}

/* Whether the system gives what the module begins with. wasm2c does not look. */
static int has_memory(void)
{
    void *memory = mmap(NULL, ADDRESSES, PROT_NONE, MAP_ANONYMOUS | MAP_PRIVATE, -1, 0);
    return memory != MAP_FAILED && mprotect(memory, FIRST, PROT_READ | PROT_WRITE) == 0 && munmap(memory, ADDRESSES) == 0;
}

int main(int count, char **words)
{
    static char room[1 << 16];
    const struct sigaction fatal = {.sa_sigaction = refused, .sa_flags = SA_ONSTACK | SA_SIGINFO};
    host.count = (u64)count, host.words = words;
    sigaltstack(&(stack_t){.ss_sp = room, .ss_size = sizeof room}, NULL);
    sigaction(SIGSEGV, &fatal, NULL);
    sigaction(SIGBUS, &fatal, NULL);
    signal(SIGPIPE, SIG_IGN);
    wasm_rt_trap_t trap = wasm_rt_impl_try();
    if (trap || !has_memory()) { /* what fails before the module runs was refused its memory */
        fprintf(stderr, "pocsag: %s\n", host.module.w2c_memory.max_pages == MOST_PAGES ? wasm_rt_strerror(trap) : "out of memory");
        return NO_MEMORY;
    }
    Z_pocsag_init_module();
    Z_pocsag_instantiate(&host.module, &host);
    host.module.w2c_memory.max_pages = MOST_PAGES;
    return (int)(Z_pocsagZ_main(&host.module, 0, 0) & 255);
}
