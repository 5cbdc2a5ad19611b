/* One call on a thread whose stack has just so many bytes, with a guard page below it:
 *
 *     stack CALL BYTES PAGES CERT
 *
 * CALL is plan, front, report, frames, check, words, json, order, strict or row, or else decode, hear, repaired, captured, heard, text,
 * list, drawing or sound, which read CERT as a transmission. It is linked with malloc, realloc and free wrapped. It prints the status of
 * the call, how many bytes of the stack were written, the thread's own part included, how many bytes of memory it held at most, and how
 * long its first text is. */
#define _GNU_SOURCE
#include <malloc.h>
#include <pthread.h>
#include <stdio.h>
#include <stdlib.h>
#include <string.h>
#include <sys/mman.h>
#include <unistd.h>

#include "pocsag.h"

#define LARGE (1 << 26)

void *__real_malloc(size_t size);
void *__real_realloc(void *block, size_t size);
void __real_free(void *block);

static _Thread_local size_t held, most;

static void *took(void *block)
{
    held += block == NULL ? 0 : malloc_usable_size(block);
    most = held > most ? held : most;
    return block;
}

void *__wrap_malloc(size_t size)
{
    return took(__real_malloc(size));
}

void *__wrap_realloc(void *block, size_t size)
{
    held -= block == NULL ? 0 : malloc_usable_size(block);
    return took(__real_realloc(block, size));
}

void __wrap_free(void *block)
{
    held -= block == NULL ? 0 : malloc_usable_size(block);
    __real_free(block);
}

struct file {
    uint8_t *bytes;
    size_t len;
};

static struct file pages, other;
static const char *call;
static uint8_t *first, *second, *third, *fourth;
static size_t memory, first_len;

static struct file read_file(const char *name)
{
    struct file file = {malloc(LARGE), 0};
    FILE *opened = fopen(name, "rb");
    if (opened == NULL || file.bytes == NULL)
        exit(2);
    file.len = fread(file.bytes, 1, LARGE, opened);
    fclose(opened);
    return file;
}

static void *run(void *status)
{
    static struct pocsag_plan_info plan;
    static struct pocsag_front_info front;
    static struct pocsag_report_info report;
    static struct pocsag_frames_info frames;
    static struct pocsag_check_info check;
    static struct pocsag_place place;
    static size_t len, other_len, rest_len, why_len;
    uint32_t *told = status;
    if (strcmp(call, "plan") == 0)
        *told = pocsag_plan(pages.bytes, pages.len, first, LARGE, &len, second, LARGE, &other_len, POCSAG_DEFAULT_LIMIT,
                            POCSAG_END_CLOSED, 1, &plan);
    else if (strcmp(call, "front") == 0)
        *told = pocsag_plan_at_most(pages.bytes, pages.len, 2, first, LARGE, &len, second, LARGE, &other_len, third, LARGE,
                                    &rest_len, fourth, LARGE, &why_len, POCSAG_DEFAULT_LIMIT, POCSAG_END_CLOSED, 1, &front);
    else if (strcmp(call, "report") == 0)
        *told = pocsag_report(pages.bytes, pages.len, 1200, POCSAG_DEFAULT_LIMIT, POCSAG_END_CLOSED, 1, &report);
    else if (strcmp(call, "frames") == 0)
        *told = pocsag_frames(pages.bytes, pages.len, POCSAG_DEFAULT_LIMIT, POCSAG_END_CLOSED, 1, &frames);
    else if (strcmp(call, "check") == 0)
        *told = pocsag_check(pages.bytes, pages.len, other.bytes, other.len, &check);
    else if (strcmp(call, "decode") == 0)
        *told = pocsag_decode(other.bytes, other.len, first, LARGE, &len, &place);
    else if (strcmp(call, "hear") == 0)
        *told = pocsag_hear(8, other.bytes, other.len, first, LARGE, &len, &place);
    else if (strcmp(call, "repaired") == 0 || strcmp(call, "captured") == 0)
        *told = pocsag_decode_as(call[0] == 'r' ? POCSAG_REPAIRED : POCSAG_CAPTURED, other.bytes, other.len, first, LARGE, &len,
                                 &place);
    else if (strcmp(call, "heard") == 0)
        *told = pocsag_hear_as(POCSAG_CAPTURED, 8, other.bytes, other.len, first, LARGE, &len, &place);
    else if (strcmp(call, "text") == 0 || strcmp(call, "list") == 0 || strcmp(call, "drawing") == 0)
        *told = pocsag_show(POCSAG_CAPTURED, other.bytes, other.len,
                            call[0] == 't' ? POCSAG_SHOW_TEXT : call[0] == 'l' ? POCSAG_SHOW_LIST : POCSAG_SHOW_DRAWING, 1,
                            UINT64_MAX, first, LARGE, &len, &place);
    else if (strcmp(call, "sound") == 0)
        *told = pocsag_wav(other.bytes, other.len, 2400, 2400, 0, 0, first, LARGE, &len, &place);
    else if (strcmp(call, "order") == 0)
        *told = pocsag_lay_in_order(pages.bytes, pages.len, first, LARGE, &len, &place);
    else if (strcmp(call, "strict") == 0)
        *told = pocsag_strict(pages.bytes, pages.len, &place);
    else if (strcmp(call, "row") == 0)
        *told = pocsag_write_page(8, POCSAG_ALPHA, (const uint8_t *)"a\"b", 3, first, LARGE, &len, &place);
    else
        *told = pocsag_explain(pages.bytes, pages.len, other.bytes, other.len,
                               strcmp(call, "json") == 0 ? POCSAG_AS_JSON : POCSAG_IN_WORDS, 300, first, LARGE, &len,
                               &check);
    memory = most;
    first_len = len;
    return NULL;
}

int main(int argc, char **argv)
{
    if (argc != 5)
        return 2;
    call = argv[1];
    pages = read_file(argv[3]);
    other = read_file(argv[4]);
    first = malloc(LARGE);
    second = malloc(LARGE);
    third = malloc(LARGE);
    fourth = malloc(LARGE);
    size_t page = (size_t)sysconf(_SC_PAGESIZE), bytes = (strtoul(argv[2], NULL, 10) + page - 1) / page * page;
    uint8_t *low = mmap(NULL, page + bytes, PROT_READ | PROT_WRITE, MAP_PRIVATE | MAP_ANONYMOUS, -1, 0);
    if (first == NULL || second == NULL || third == NULL || fourth == NULL || low == MAP_FAILED || mprotect(low, page, PROT_NONE) != 0)
        return 2;
    uint8_t *stack = low + page;
    memset(stack, 0x5a, bytes);
    pthread_attr_t room;
    pthread_t thread;
    uint32_t status = 0;
    pthread_attr_init(&room);
    if (pthread_attr_setstack(&room, stack, bytes) != 0 || pthread_create(&thread, &room, run, &status) != 0)
        return 2;
    pthread_join(thread, NULL);
    size_t untouched = 0;
    while (untouched < bytes && stack[untouched] == 0x5a)
        untouched++;
    printf("%u %zu %zu %zu\n", status, bytes - untouched, memory, first_len);
    return 0;
}
