/* The program on Windows: `main`, and the system calls that the program's module makes, over calls of Windows.
 *
 * The module was built for Linux on x86-64. So flags, error numbers and layouts are those of that system, and each call that
 * fails returns -1 and leaves its number for `rattle_errno`. The program runs in one thread. */
#define WIN32_LEAN_AND_MEAN
#include <windows.h>
#include <shellapi.h>
#include <stdio.h>
#include <stdlib.h>
#include <string.h>
#include "pocsag.h"

enum { FILES = 64 };       /* that can be open at once; the program opens ten */
enum { PATH_ROOM = 32768 }; /* in units of UTF-16, of which Windows takes no longer path */

typedef struct Z_env_instance_t {
    Z_pocsag_instance_t *module;
    int error;
    int count; /* of words */
    WCHAR **words;
    HANDLE files[FILES]; /* by their numbers; NULL where a number is free */
} Host;

/* What others may do with a file that is open here, as on Linux. */
static const DWORD SHARED = FILE_SHARE_READ | FILE_SHARE_WRITE | FILE_SHARE_DELETE;

/* Where the module has an address. */
static void *at(Host *host, u64 address)
{
    return host->module->w2c_memory.data + (u32)address;
}

/* ---- Errors ---- */

enum {
    LINUX_EPERM = 1, LINUX_ENOENT = 2, LINUX_EIO = 5, LINUX_EBADF = 9, LINUX_EAGAIN = 11, LINUX_ENOMEM = 12, LINUX_EACCES = 13,
    LINUX_EBUSY = 16, LINUX_EEXIST = 17, LINUX_EXDEV = 18, LINUX_ENOTDIR = 20, LINUX_EISDIR = 21, LINUX_EINVAL = 22,
    LINUX_EMFILE = 24, LINUX_ENOTTY = 25, LINUX_EFBIG = 27, LINUX_ENOSPC = 28, LINUX_EROFS = 30, LINUX_EMLINK = 31,
    LINUX_EPIPE = 32, LINUX_ENAMETOOLONG = 36, LINUX_ENOTSUP = 95,
};

/* The error of Linux for each error of Windows; for any other it is EIO. */
static const struct {
    DWORD code;
    int number;
} errors[] = {
    {ERROR_FILE_NOT_FOUND, LINUX_ENOENT}, {ERROR_PATH_NOT_FOUND, LINUX_ENOENT}, {ERROR_INVALID_NAME, LINUX_ENOENT},
    {ERROR_BAD_PATHNAME, LINUX_ENOENT}, {ERROR_BAD_NETPATH, LINUX_ENOENT}, {ERROR_BAD_NET_NAME, LINUX_ENOENT},
    {ERROR_INVALID_DRIVE, LINUX_ENOENT}, {ERROR_INVALID_HANDLE, LINUX_EBADF}, {ERROR_LOCK_VIOLATION, LINUX_EAGAIN},
    {ERROR_NOT_ENOUGH_MEMORY, LINUX_ENOMEM}, {ERROR_OUTOFMEMORY, LINUX_ENOMEM}, {ERROR_ACCESS_DENIED, LINUX_EACCES},
    {ERROR_DELETE_PENDING, LINUX_EACCES}, {ERROR_SHARING_VIOLATION, LINUX_EBUSY}, {ERROR_USER_MAPPED_FILE, LINUX_EBUSY},
    {ERROR_FILE_EXISTS, LINUX_EEXIST}, {ERROR_ALREADY_EXISTS, LINUX_EEXIST}, {ERROR_NOT_SAME_DEVICE, LINUX_EXDEV},
    {ERROR_DIRECTORY, LINUX_ENOTDIR}, {ERROR_INVALID_PARAMETER, LINUX_EINVAL}, {ERROR_TOO_MANY_OPEN_FILES, LINUX_EMFILE},
    {ERROR_FILE_TOO_LARGE, LINUX_EFBIG}, {ERROR_DISK_FULL, LINUX_ENOSPC}, {ERROR_HANDLE_DISK_FULL, LINUX_ENOSPC},
    {ERROR_WRITE_PROTECT, LINUX_EROFS}, {ERROR_TOO_MANY_LINKS, LINUX_EMLINK}, {ERROR_BROKEN_PIPE, LINUX_EPIPE},
    {ERROR_NO_DATA, LINUX_EPIPE}, {ERROR_PIPE_NOT_CONNECTED, LINUX_EPIPE}, {ERROR_FILENAME_EXCED_RANGE, LINUX_ENAMETOOLONG},
    {ERROR_INVALID_FUNCTION, LINUX_ENOTSUP}, {ERROR_NOT_SUPPORTED, LINUX_ENOTSUP},
};

static int fail(Host *host, int number)
{
    host->error = number;
    return -1;
}

/* The result of a call that Windows refused just now. */
static int refused(Host *host)
{
    DWORD code = GetLastError();
    for (size_t k = 0; k < sizeof errors / sizeof *errors; k++)
        if (errors[k].code == code)
            return fail(host, errors[k].number);
    return fail(host, LINUX_EIO);
}

static int done(Host *host, BOOL is_done)
{
    return is_done ? 0 : refused(host);
}

u32 Z_envZ_rattle_errno(Host *host)
{
    return host->error;
}

void Z_envZ_rattle_set_errno(Host *host, u32 number)
{
    host->error = number;
}

/* ---- Words and paths: UTF-8 in the module, UTF-16 in Windows ---- */

/* The word of this number. Its `\` become `/`, at which the program cuts paths: no other word of it has one. A word that is no
 * text of UTF-16 becomes a byte that is none of UTF-8. */
u64 Z_envZ_rattle_arg(Host *host, u64 number, u64 to, u64 size)
{
    static char word[4 * PATH_ROOM];
    if (number >= (u64)host->count)
        return -1;
    if (!WideCharToMultiByte(CP_UTF8, WC_ERR_INVALID_CHARS, host->words[number], -1, word, sizeof word, 0, 0))
        strcpy(word, "\xff");
    for (char *byte = word; *byte; byte++)
        if (*byte == '\\')
            *byte = '/';
    size_t length = strlen(word);
    if (length > size)
        return -2;
    memcpy(at(host, to), word, length);
    return length;
}

/* Puts the path that the module has at an address as Windows takes it: from its drive on, and marked so that it may be long.
 * Returns 0, or -1 where there is no such path. */
static int put_path(Host *host, u64 address, WCHAR path[PATH_ROOM])
{
    WCHAR word[PATH_ROOM], full[PATH_ROOM];
    const char *given = at(host, address);
    if (!*given)
        return fail(host, LINUX_ENOENT);
    if (!strcmp(given, "/dev/null"))
        given = "//./NUL";
    if (!MultiByteToWideChar(CP_UTF8, MB_ERR_INVALID_CHARS, given, -1, word, PATH_ROOM - 1))
        return fail(host, LINUX_EINVAL);
    if (word[1] == ':' && !word[2])
        wcscat(word, L"/"); /* the folder of C:/FILE, as the program cuts it */
    DWORD length = GetFullPathNameW(word, PATH_ROOM - 8, full, 0);
    if (length == 0 || length > PATH_ROOM - 8)
        return fail(host, length ? LINUX_ENAMETOOLONG : LINUX_ENOENT);
    BOOL is_device = !wcsncmp(full, L"\\\\.\\", 4) || !wcsncmp(full, L"\\\\?\\", 4);
    BOOL is_network = !is_device && !wcsncmp(full, L"\\\\", 2);
    wcscpy(path, is_device ? L"" : is_network ? L"\\\\?\\UNC" : L"\\\\?\\");
    wcscat(path, full + is_network);
    return 0;
}

/* ---- Files by their numbers ---- */

static HANDLE file_of(Host *host, u32 number)
{
    HANDLE file = number < FILES ? host->files[number] : NULL;
    if (!file)
        fail(host, LINUX_EBADF);
    return file;
}

/* The file's number, the lowest that is free: a file that is opened for a stream that was closed gets the number of that. */
static u32 numbered(Host *host, HANDLE file)
{
    for (u32 number = 0; number < FILES; number++)
        if (!host->files[number]) {
            host->files[number] = file;
            return number;
        }
    CloseHandle(file);
    return fail(host, LINUX_EMFILE);
}

static BOOL is_folder(HANDLE file)
{
    BY_HANDLE_FILE_INFORMATION about;
    return GetFileInformationByHandle(file, &about) && about.dwFileAttributes & FILE_ATTRIBUTE_DIRECTORY;
}

/* What Linux's flags ask for. A file opened for appending is written at its end alone. */
static DWORD access_of(u32 flags)
{
    switch (flags & (3 | 02000)) {
    case 0: return GENERIC_READ;
    case 1: return GENERIC_WRITE;
    case 2: return GENERIC_READ | GENERIC_WRITE;
    case 02001: return FILE_GENERIC_WRITE & ~FILE_WRITE_DATA;
    default: return GENERIC_READ | (FILE_GENERIC_WRITE & ~FILE_WRITE_DATA);
    }
}

u32 Z_envZ_host_open(Host *host, u64 address, u32 flags, u32 mode)
{
    WCHAR path[PATH_ROOM];
    BOOL is_written = flags & 3, is_made = flags & 0100, is_new = flags & 0200, is_emptied = flags & 01000;
    DWORD how = !is_made ? OPEN_EXISTING : is_new ? CREATE_NEW : OPEN_ALWAYS;
    if (put_path(host, address, path))
        return -1;
    DWORD found = GetFileAttributesW(path);
    if (is_written && !is_new && found != INVALID_FILE_ATTRIBUTES && found & FILE_ATTRIBUTE_DIRECTORY)
        return fail(host, LINUX_EISDIR);
    /* This flag opens folders too. */
    HANDLE file = CreateFileW(path, access_of(flags), SHARED, 0, how, FILE_FLAG_BACKUP_SEMANTICS, 0);
    if (file == INVALID_HANDLE_VALUE)
        return refused(host);
    if (is_emptied && GetFileType(file) == FILE_TYPE_DISK && !SetEndOfFile(file)) {
        refused(host);
        CloseHandle(file);
        return -1;
    }
    return numbered(host, file);
}

u32 Z_envZ_close(Host *host, u32 number)
{
    HANDLE file = file_of(host, number);
    if (!file)
        return -1;
    host->files[number] = NULL;
    return done(host, CloseHandle(file));
}

u32 Z_envZ_isatty(Host *host, u32 number)
{
    DWORD mode;
    HANDLE file = file_of(host, number);
    if (file && GetConsoleMode(file, &mode))
        return 1;
    if (file)
        fail(host, LINUX_ENOTTY);
    return 0;
}

u64 Z_envZ_read(Host *host, u32 number, u64 to, u64 size)
{
    DWORD got;
    HANDLE file = file_of(host, number);
    if (!file)
        return -1;
    /* A read of a pipe gives no bytes where a writer wrote none. The end is where the pipe does not stand any more. */
    do {
        if (!ReadFile(file, at(host, to), (u32)size, &got, 0))
            switch (GetLastError()) {
            case ERROR_BROKEN_PIPE: return 0;
            case ERROR_ACCESS_DENIED: return (s64)fail(host, LINUX_EBADF); /* It is open for writing. */
            case ERROR_INVALID_FUNCTION: return (s64)fail(host, is_folder(file) ? LINUX_EISDIR : LINUX_ENOTSUP);
            default: return (s64)refused(host);
            }
    } while (got == 0 && size > 0 && PeekNamedPipe(file, 0, 0, 0, 0, 0));
    return got;
}

u64 Z_envZ_write(Host *host, u32 number, u64 from, u64 size)
{
    DWORD wrote;
    HANDLE file = file_of(host, number);
    if (!file)
        return -1;
    if (WriteFile(file, at(host, from), (u32)size, &wrote, 0))
        return wrote;
    return GetLastError() == ERROR_ACCESS_DENIED ? (s64)fail(host, LINUX_EBADF) : (s64)refused(host);
}

u32 Z_envZ_ftruncate(Host *host, u32 number, u64 size)
{
    FILE_END_OF_FILE_INFO end;
    HANDLE file = file_of(host, number);
    end.EndOfFile.QuadPart = size;
    return file ? done(host, SetFileInformationByHandle(file, FileEndOfFileInfo, &end, sizeof end)) : -1;
}

/* Windows flushes a file that is opened for writing. A folder it may refuse to flush (FAT, shares), but each new name is on the
 * disk before `rename` returns. */
u32 Z_envZ_fsync(Host *host, u32 number)
{
    HANDLE file = file_of(host, number);
    if (!file)
        return -1;
    HANDLE written = ReOpenFile(file, GENERIC_WRITE, SHARED, FILE_FLAG_BACKUP_SEMANTICS);
    int result = done(host, written != INVALID_HANDLE_VALUE && FlushFileBuffers(written));
    if (written != INVALID_HANDLE_VALUE)
        CloseHandle(written);
    return is_folder(file) ? 0 : result;
}

u32 Z_envZ_fdatasync(Host *host, u32 number)
{
    return Z_envZ_fsync(host, number);
}

/* A new file has the owner and the rights that its folder gives. One that is to be read-only is refused: it could not be written
 * and put at its place any more. */
u32 Z_envZ_fchmod(Host *host, u32 number, u32 mode)
{
    if (!file_of(host, number))
        return -1;
    return mode & 0200 ? 0 : fail(host, LINUX_EPERM);
}

/* ---- What a file is ---- */

/* Linux's `struct statx`. */
struct status {
    u32 mask, block_size;
    u64 attributes;
    u32 links, user, group;
    u16 mode, spare;
    u64 number, size, blocks, attributes_mask, times[8];
    u32 own_device[2], device[2];
    u64 rest[14];
};

enum { IS_PIPE = 0010000, IS_CHARACTERS = 0020000, IS_FOLDER = 0040000, IS_FILE = 0100000, IS_LINK = 0120000 };

static BOOL is_link(HANDLE file)
{
    FILE_ATTRIBUTE_TAG_INFO tag = {0};
    GetFileInformationByHandleEx(file, FileAttributeTagInfo, &tag, sizeof tag);
    return tag.ReparseTag == IO_REPARSE_TAG_SYMLINK || tag.ReparseTag == IO_REPARSE_TAG_MOUNT_POINT;
}

/* The lowest number of a stream that is this pipe: Windows numbers no pipes. */
static u64 pipe_number(Host *host, HANDLE pipe)
{
    typedef BOOL(WINAPI * Compare)(HANDLE, HANDLE);
    Compare is_one = (Compare)(void *)GetProcAddress(GetModuleHandleW(L"kernelbase.dll"), "CompareObjectHandles");
    for (u64 number = 0; number < FILES; number++)
        if (host->files[number] && (host->files[number] == pipe || (is_one && is_one(host->files[number], pipe))))
            return number;
    return FILES;
}

static int describe(Host *host, HANDLE file, u64 to)
{
    struct status status = {.mask = 0x7ff, .block_size = 4096, .links = 1};
    BY_HANDLE_FILE_INFORMATION about;
    switch (GetFileType(file)) {
    case FILE_TYPE_DISK:
        if (!GetFileInformationByHandle(file, &about))
            return refused(host);
        status.mode = is_link(file) ? IS_LINK : about.dwFileAttributes & FILE_ATTRIBUTE_DIRECTORY ? IS_FOLDER : IS_FILE;
        status.mode |= about.dwFileAttributes & FILE_ATTRIBUTE_READONLY ? 0444 : 0644;
        status.size = (u64)about.nFileSizeHigh << 32 | about.nFileSizeLow;
        status.number = (u64)about.nFileIndexHigh << 32 | about.nFileIndexLow;
        status.device[0] = about.dwVolumeSerialNumber >> 16;
        status.device[1] = about.dwVolumeSerialNumber & 0xffff;
        break;
    case FILE_TYPE_PIPE:
        status.mode = IS_PIPE | 0600;
        status.number = pipe_number(host, file);
        status.device[0] = 1 << 16; /* which no volume has */
        break;
    case FILE_TYPE_CHAR: status.mode = IS_CHARACTERS | 0666; break;
    default: return fail(host, LINUX_EBADF);
    }
    memcpy(at(host, to), &status, sizeof status);
    return 0;
}

/* The module asks for an open file by its number, where the name is empty, for a standard stream by its name in /proc, and else
 * for what a path names. */
u32 Z_envZ_statx(Host *host, u32 number, u64 name, u32 flags, u32 mask, u64 to)
{
    static const char streams[] = "/proc/self/fd/";
    const char *given = at(host, name);
    WCHAR path[PATH_ROOM];
    if (!*given || !strncmp(given, streams, strlen(streams))) {
        HANDLE file = file_of(host, *given ? (u32)atoi(given + strlen(streams)) : number);
        return file ? describe(host, file, to) : -1;
    }
    if (put_path(host, name, path))
        return -1;
    DWORD itself = flags & 0x100 ? FILE_FLAG_OPEN_REPARSE_POINT : 0;
    HANDLE file = CreateFileW(path, FILE_READ_ATTRIBUTES, SHARED, 0, OPEN_EXISTING, FILE_FLAG_BACKUP_SEMANTICS | itself, 0);
    if (file == INVALID_HANDLE_VALUE)
        return refused(host);
    int result = describe(host, file, to);
    CloseHandle(file);
    return result;
}

/* ---- Names ---- */

u32 Z_envZ_link(Host *host, u64 from, u64 to)
{
    WCHAR old_path[PATH_ROOM], new_path[PATH_ROOM];
    if (put_path(host, from, old_path) || put_path(host, to, new_path))
        return -1;
    return done(host, CreateHardLinkW(new_path, old_path, 0));
}

u32 Z_envZ_unlink(Host *host, u64 name)
{
    WCHAR path[PATH_ROOM];
    return put_path(host, name, path) ? -1 : done(host, DeleteFileW(path));
}

static BOOL look(const WCHAR *path, BY_HANDLE_FILE_INFORMATION *about)
{
    DWORD itself = FILE_FLAG_BACKUP_SEMANTICS | FILE_FLAG_OPEN_REPARSE_POINT; /* and not what a link leads to */
    HANDLE file = CreateFileW(path, FILE_READ_ATTRIBUTES, SHARED, 0, OPEN_EXISTING, itself, 0);
    BOOL is_known = file != INVALID_HANDLE_VALUE && GetFileInformationByHandle(file, about);
    if (file != INVALID_HANDLE_VALUE)
        CloseHandle(file);
    return is_known;
}

/* Wine knows no volume of a file that was renamed while it was open. */
static BOOL are_one(const BY_HANDLE_FILE_INFORMATION *one, const BY_HANDLE_FILE_INFORMATION *other)
{
    DWORD volume = one->dwVolumeSerialNumber, other_volume = other->dwVolumeSerialNumber;
    return one->nFileIndexHigh == other->nFileIndexHigh && one->nFileIndexLow == other->nFileIndexLow
        && (volume == other_volume || !volume || !other_volume);
}

/* Closes this file where the program itself has it open. Its number then stands for a device that is neither read nor written. */
static void let_go(Host *host, const BY_HANDLE_FILE_INFORMATION *about)
{
    BY_HANDLE_FILE_INFORMATION found;
    for (u32 number = 3; number < FILES; number++)
        if (host->files[number] && GetFileInformationByHandle(host->files[number], &found) && are_one(&found, about)) {
            CloseHandle(host->files[number]);
            host->files[number] = CreateFileW(L"\\\\.\\NUL", FILE_READ_ATTRIBUTES, SHARED, 0, OPEN_EXISTING, 0, 0);
        }
}

/* Nothing is done where both are names of one file, as POSIX has it. Windows replaces no file that is open. The program may have
 * it open itself, where it put it there and brings an older one back. */
u32 Z_envZ_rename(Host *host, u64 from, u64 to)
{
    static const DWORD how = MOVEFILE_REPLACE_EXISTING | MOVEFILE_WRITE_THROUGH;
    WCHAR old_path[PATH_ROOM], new_path[PATH_ROOM];
    BY_HANDLE_FILE_INFORMATION moved, replaced;
    if (put_path(host, from, old_path) || put_path(host, to, new_path))
        return -1;
    BOOL is_replaced = look(new_path, &replaced);
    if (is_replaced && look(old_path, &moved) && are_one(&moved, &replaced))
        return 0;
    BOOL is_moved = MoveFileExW(old_path, new_path, how);
    if (!is_moved && is_replaced && GetLastError() == ERROR_ACCESS_DENIED) {
        let_go(host, &replaced);
        is_moved = MoveFileExW(old_path, new_path, how);
    }
    return done(host, is_moved);
}

/* ---- Calls that Windows has not, or not so that they hold: the program goes on without them, or refuses what needs them ----
 *
 * Without locks no journal is written, and nothing that a killed run left is removed. So no folder is read, and no file has a
 * second number. */

u32 Z_envZ_flock(Host *host, u32 number, u32 operation)
{
    return fail(host, LINUX_ENOTSUP);
}

u32 Z_envZ_fchown(Host *host, u32 number, u32 user, u32 group)
{
    return fail(host, LINUX_ENOTSUP);
}

u32 Z_envZ_host_fcntl(Host *host, u32 number, u32 command, u64 argument)
{
    return fail(host, LINUX_ENOTSUP);
}

u32 Z_envZ_rattle_open_dir_at(Host *host, u32 folder, u64 name)
{
    return fail(host, LINUX_ENOTSUP);
}

u64 Z_envZ_getdents64(Host *host, u32 number, u64 to, u64 size)
{
    return (s64)fail(host, LINUX_ENOTSUP);
}

/* ---- The process ---- */

u32 Z_envZ_getpid(Host *host)
{
    return GetCurrentProcessId();
}

/* Waits as long as a `struct timespec` says. */
u32 Z_envZ_nanosleep(Host *host, u64 time, u64 left)
{
    const s64 *seconds_and_nanos = at(host, time);
    Sleep((DWORD)(seconds_and_nanos[0] * 1000 + seconds_and_nanos[1] / 1000000));
    return 0;
}

/* What the module's code calls where it cannot go on, as at an address out of range. The files stay as a kill leaves them. */
void host_trap(wasm_rt_trap_t why)
{
    char line[200];
    DWORD wrote;
    int length = snprintf(line, sizeof line, "pocsag: %s\n", wasm_rt_strerror(why));
    WriteFile(GetStdHandle(STD_ERROR_HANDLE), line, length, &wrote, 0);
    TerminateProcess(GetCurrentProcess(), 3);
}

/* The streams that are open have the first three numbers. */
static void take_streams(Host *host)
{
    static const DWORD names[] = {STD_INPUT_HANDLE, STD_OUTPUT_HANDLE, STD_ERROR_HANDLE};
    for (int number = 0; number < 3; number++) {
        HANDLE file = GetStdHandle(names[number]);
        SetLastError(0);
        if (file != INVALID_HANDLE_VALUE && (GetFileType(file) != FILE_TYPE_UNKNOWN || !GetLastError()))
            host->files[number] = file;
    }
}

int main(void)
{
    static Z_pocsag_instance_t module;
    static Host host = {.module = &module};
    UINT code_page = GetConsoleOutputCP();
    host.words = CommandLineToArgvW(GetCommandLineW(), &host.count);
    take_streams(&host);
    SetConsoleOutputCP(CP_UTF8);
    SetErrorMode(SEM_FAILCRITICALERRORS | SEM_NOGPFAULTERRORBOX); /* A fault is a text and a status, and no window. */
    wasm_rt_init();
    Z_pocsag_init_module();
    Z_pocsag_instantiate(&module, &host);
    module.w2c_memory.max_pages = 65535; /* The size of one more would need 33 bits. */
    int status = Z_pocsagZ_main(&module, 0, 0) & 255;
    SetConsoleOutputCP(code_page);
    return status;
}
