/* Of the C library what the program's module has itself, or calls by another name and with other words than the program. The rest
 * are calls of the host (web/README.md). */
typedef unsigned long long u64;
typedef long long i64;

#define O_CREAT 0100
#define ERRORS (sizeof(texts) / sizeof(*texts))

int host_open(const char *path, int flags, int mode);
int host_fcntl(int file, int command, i64 number);
i64 write(int file, const void *bytes, u64 size);

/* The texts of Linux's errors, each at its number, as glibc has them. */
static const char *const texts[] = {
    "Success", "Operation not permitted", "No such file or directory", "No such process", "Interrupted system call",
    "Input/output error", "No such device or address", "Argument list too long", "Exec format error", "Bad file descriptor",
    "No child processes", "Resource temporarily unavailable", "Cannot allocate memory", "Permission denied", "Bad address",
    "Block device required", "Device or resource busy", "File exists", "Invalid cross-device link", "No such device",
    "Not a directory", "Is a directory", "Invalid argument", "Too many open files in system", "Too many open files",
    "Inappropriate ioctl for device", "Text file busy", "File too large", "No space left on device", "Illegal seek",
    "Read-only file system", "Too many links", "Broken pipe", "Numerical argument out of domain", "Numerical result out of range",
    "Resource deadlock avoided", "File name too long", "No locks available", "Function not implemented", "Directory not empty",
    "Too many levels of symbolic links", 0, "No message of desired type", "Identifier removed", "Channel number out of range",
    "Level 2 not synchronized", "Level 3 halted", "Level 3 reset", "Link number out of range", "Protocol driver not attached",
    "No CSI structure available", "Level 2 halted", "Invalid exchange", "Invalid request descriptor", "Exchange full", "No anode",
    "Invalid request code", "Invalid slot", 0, "Bad font file format", "Device not a stream", "No data available", "Timer expired",
    "Out of streams resources", "Machine is not on the network", "Package not installed", "Object is remote",
    "Link has been severed", "Advertise error", "Srmount error", "Communication error on send", "Protocol error",
    "Multihop attempted", "RFS specific error", "Bad message", "Value too large for defined data type",
    "Name not unique on network", "File descriptor in bad state", "Remote address changed",
    "Can not access a needed shared library", "Accessing a corrupted shared library", ".lib section in a.out corrupted",
    "Attempting to link in too many shared libraries", "Cannot exec a shared library directly",
    "Invalid or incomplete multibyte or wide character", "Interrupted system call should be restarted", "Streams pipe error",
    "Too many users", "Socket operation on non-socket", "Destination address required", "Message too long",
    "Protocol wrong type for socket", "Protocol not available", "Protocol not supported", "Socket type not supported",
    "Operation not supported", "Protocol family not supported", "Address family not supported by protocol",
    "Address already in use", "Cannot assign requested address", "Network is down", "Network is unreachable",
    "Network dropped connection on reset", "Software caused connection abort", "Connection reset by peer",
    "No buffer space available", "Transport endpoint is already connected", "Transport endpoint is not connected",
    "Cannot send after transport endpoint shutdown", "Too many references: cannot splice", "Connection timed out",
    "Connection refused", "Host is down", "No route to host", "Operation already in progress", "Operation now in progress",
    "Stale file handle", "Structure needs cleaning", "Not a XENIX named type file", "No XENIX semaphores available",
    "Is a named type file", "Remote I/O error", "Disk quota exceeded", "No medium found", "Wrong medium type", "Operation canceled",
    "Required key not available", "Key has expired", "Key has been revoked", "Key was rejected by service", "Owner died",
    "State not recoverable", "Operation not possible due to RF-kill", "Memory page has hardware error",
};

/* A call with further words: a mode where it may make a file. */
int open(const char *path, int flags, ...)
{
    __builtin_va_list words;
    __builtin_va_start(words, flags);
    int mode = flags & O_CREAT ? __builtin_va_arg(words, int) : 0;
    __builtin_va_end(words);
    return host_open(path, flags, mode);
}

/* Each command that the program has needs a number. */
int fcntl(int file, int command, ...)
{
    __builtin_va_list words;
    __builtin_va_start(words, command);
    i64 number = __builtin_va_arg(words, i64);
    __builtin_va_end(words);
    return host_fcntl(file, command, number);
}

i64 __write(int file, const void *bytes, u64 size)
{
    return write(file, bytes, size);
}

/* There are no signals: a host's write fails where nobody reads. */
void *__sysv_signal(int number, void *handler)
{
    (void)number, (void)handler;
    return 0;
}

/* The features of the processor, for which the program asks before it begins. The module needs none of them, so it has them all. */
const void *__x86_get_cpuid_feature_leaf(unsigned leaf)
{
    static const unsigned all[8] = {~0u, ~0u, ~0u, ~0u, ~0u, ~0u, ~0u, ~0u};
    (void)leaf;
    return all;
}

/* The text of an error, cut where there is no more room. */
int __xpg_strerror_r(int number, char *text, u64 size)
{
    const char *known = (unsigned)number < ERRORS ? texts[number] : 0;
    if (!known)
        known = "Unknown error";
    for (; *known && size > 1; size--)
        *text++ = *known++;
    if (size)
        *text = 0;
    return 0;
}
