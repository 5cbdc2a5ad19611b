/* Stands in for the program's module: calls the host with addresses that are out of range, or until the stack ends. The first word
 * says which. */
#include <string.h>
#include "pocsag.h"

static struct Z_env_instance_t *host;
static u64 size;

void Z_pocsag_init_module(void)
{
}

void Z_pocsag_instantiate(Z_pocsag_instance_t *module, struct Z_env_instance_t *of)
{
    host = of;
    wasm_rt_allocate_memory(&module->w2c_memory, 2, 65536);
    size = module->w2c_memory.size;
    memset(module->w2c_memory.data, 'a', size);
}

static u64 deeper(volatile u64 number)
{
    return number ? deeper(number + 1) + number : 0;
}

u32 Z_pocsagZ_main(Z_pocsag_instance_t *module, u32 count, u64 words)
{
    const char *word = (const char *)module->w2c_memory.data;
    (void)count, (void)words;
    u64 length = Z_envZ_rattle_arg(host, 1, 0, 16);
    module->w2c_memory.data[length] = 0;
    if (Z_envZ_rattle_arg(host, 2, 0, 16) != (u64)-1 || Z_envZ_rattle_arg(host, 1, 16, length - 1) != (u64)-2)
        return 10;
    if (strcmp(word, "read") == 0)
        Z_envZ_read(host, 0, size - 7, 8);
    if (strcmp(word, "write") == 0)
        Z_envZ_write(host, 1, (u64)1 << 40, 1);
    if (strcmp(word, "length") == 0)
        Z_envZ_write(host, 1, 16, (u64)-1);
    if (strcmp(word, "path") == 0)
        Z_envZ_unlink(host, 32);
    if (strcmp(word, "status") == 0)
        Z_envZ_statx(host, 0, 0, 0, 0, size - 255);
    if (strcmp(word, "folder") == 0)
        Z_envZ_getdents64(host, 0, size, 4096);
    if (strcmp(word, "time") == 0)
        Z_envZ_nanosleep(host, size - 8, 0);
    if (strcmp(word, "word") == 0)
        Z_envZ_rattle_arg(host, 1, size - 1, 4);
    if (strcmp(word, "load") == 0)
        return module->w2c_memory.data[size];
    if (strcmp(word, "far") == 0)
        return module->w2c_memory.data[2 * (u64)UINT32_MAX];
    if (strcmp(word, "stack") == 0)
        return (u32)deeper(1);
    return 11;
}
