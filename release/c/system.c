/* What a proved program calls of the system, beside the C library, for processors for which the toolchain has no objects of
 * it. */
#define _GNU_SOURCE
#include <errno.h>
#include <fcntl.h>
#include <stddef.h>
#include <stdint.h>

static int count;
static char **words;

/* glibc calls this with the arguments of `main` before it. */
static void keep(int argc, char **argv)
{
    count = argc;
    words = argv;
}

__attribute__((section(".init_array"), used)) static void (*const first)(int, char **) = keep;

size_t rattle_arg_count(void)
{
    return (size_t)count;
}

/* Puts an argument at the start of the buffer and answers its length, -1 where there is none, or -2 where it does not fit. */
ptrdiff_t rattle_arg(size_t number, uint8_t *buffer, size_t size)
{
    const char *word = number < (size_t)count ? words[number] : NULL;
    if (word == NULL)
        return -1;
    size_t at = 0;
    for (; word[at] != '\0'; at++) {
        if (at == size)
            return -2;
        buffer[at] = (uint8_t)word[at];
    }
    return (ptrdiff_t)at;
}

int rattle_errno(void)
{
    return errno;
}

void rattle_set_errno(int error)
{
    errno = error;
}

/* The numbers of these flags differ between processors. */
int rattle_open_dir_at(int folder, const char *name)
{
    return openat(folder, name, O_RDONLY | O_DIRECTORY | O_NOFOLLOW | O_CLOEXEC);
}
