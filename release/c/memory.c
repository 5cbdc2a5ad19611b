/* What a proved program or library calls for memory, for processors for which the toolchain has no objects of it. */
#include <stdbool.h>
#include <stdlib.h>

/* Whether there is memory, and where; where there is none, the address of a byte that nobody owns. */
struct tried {
    bool ok;
    void *place;
};

static char nothing;

static struct tried tried(void *place)
{
    struct tried told = {place != NULL, place != NULL ? place : &nothing};
    return told;
}

/* Memory for a value of `size` bytes. One of none gets an address of its own all the same. */
struct tried rattle_alloc(size_t size, size_t align)
{
    return tried(malloc(size != 0 ? size : align));
}

struct tried rattle_realloc(void *place, size_t kept, size_t size, size_t align)
{
    (void)kept;
    return tried(realloc(place, size != 0 ? size : align));
}

void rattle_dealloc(void *place)
{
    free(place);
}
