/* The heap of the WebAssembly module: what the proved code takes memory by, in place of malloc, and two calls by which the
 * host takes buffers of its own.
 *
 * A block has a head of 16 bytes, which says its size. Free blocks stand in lists, one for each of four sizes between two
 * powers of two, so at most a fifth of a block is unused. The block that ends where nothing more is taken grows in place,
 * and is given back for good. What the host has once given the module keeps. */
typedef unsigned long long u64; /* as wide as an address of the code: of 64 bits, of which a lowered memory has 32 */

#define HEAD 16
#define LEAST 64 /* bytes of a block */
#define PAGE 65536
#define MOST (1ull << 32)
#define CLASSES (4 * 33)

/* What the proved code expects: whether there is a block, and the block. */
struct room {
    u64 is_given;
    void *bytes;
};

struct block {
    u64 size;           /* of the bytes behind the head, a multiple of 16 */
    struct block *next; /* in its list, where it is free */
};

extern char __heap_base;

static struct block *lists[CLASSES];
static u64 top; /* where nothing more is taken; 0 before the first block */

/* The class of the greatest size that is no more than this one, which is at least LEAST. */
static unsigned class_within(u64 size)
{
    unsigned power = 63 - (unsigned)__builtin_clzll(size);
    return 4 * power + (unsigned)(size >> (power - 2)) % 4;
}

/* The size of the blocks that are taken for a class. */
static u64 size_of(unsigned class)
{
    return (u64)(4 + class % 4) << (class / 4 - 2);
}

/* The class whose blocks have at least so many bytes, which are no more than MOST. */
static unsigned class_for(u64 wanted)
{
    unsigned class = class_within(wanted < LEAST ? LEAST : wanted);
    return class + (size_of(class) < wanted);
}

/* Whether memory reaches up to there, where need be by growing. A refused growth shows in the size alone. */
static int reaches(u64 end)
{
    if (end > MOST)
        return 0;
    u64 held = __builtin_wasm_memory_size(0) * PAGE;
    if (end > held)
        __builtin_wasm_memory_grow(0, (end - held + PAGE - 1) / PAGE);
    return end <= __builtin_wasm_memory_size(0) * PAGE;
}

static struct block *first_of(unsigned class)
{
    struct block *block = lists[class];
    if (block)
        lists[class] = block->next;
    return block;
}

/* A block of at least so many bytes, or none. Where the host gives no more, it may be one of a larger class. */
static struct block *take(u64 wanted)
{
    if (wanted > MOST)
        return 0;
    unsigned class = class_for(wanted);
    u64 size = size_of(class);
    struct block *block = first_of(class);
    if (!top)
        top = ((u64)&__heap_base + HEAD - 1) / HEAD * HEAD;
    if (!block && reaches(top + HEAD + size)) {
        block = (struct block *)top;
        block->size = size;
        top += HEAD + size;
    }
    while (!block && ++class < CLASSES)
        block = first_of(class);
    return block;
}

static struct block *block_of(void *bytes)
{
    return (struct block *)((char *)bytes - HEAD);
}

static u64 end_of(const struct block *block)
{
    return (u64)block + HEAD + block->size;
}

struct room rattle_alloc(u64 size, u64 align)
{
    struct block *block = take(size ? size : align);
    struct room room = {block != 0, block ? (char *)block + HEAD : &__heap_base};
    return room;
}

void rattle_dealloc(void *bytes)
{
    struct block *block = block_of(bytes);
    if (end_of(block) == top) {
        top = (u64)block;
        return;
    }
    unsigned class = class_within(block->size);
    block->next = lists[class];
    lists[class] = block;
}

/* The block with so many bytes, of which the first `kept` are as they were. Where none is given, the old one is. */
struct room rattle_realloc(void *bytes, u64 kept, u64 size, u64 align)
{
    struct block *block = block_of(bytes);
    u64 wanted = size ? size : align;
    if (end_of(block) == top && block->size < wanted && wanted <= MOST) {
        u64 larger = size_of(class_for(wanted));
        if (reaches((u64)block + HEAD + larger)) {
            block->size = larger;
            top = end_of(block);
        }
    }
    struct room room = {1, bytes};
    if (block->size < wanted) {
        room = rattle_alloc(size, align);
        if (room.is_given) {
            __builtin_memcpy(room.bytes, bytes, kept);
            rattle_dealloc(bytes);
        }
    }
    return room;
}

/* A buffer of the host: its address, or 0 where there is none. */
u64 pocsag_take(u64 size)
{
    struct room room = rattle_alloc(size, HEAD);
    return room.is_given ? (u64)room.bytes : 0;
}

void pocsag_give(u64 address)
{
    rattle_dealloc((void *)address);
}
