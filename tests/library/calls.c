/* Calls of the library with memory refused, with guard pages behind each buffer, and from several threads:
 *
 *     calls PAGES END ALWAYS
 *
 * It is linked with the archive, and with malloc, realloc and free wrapped. It prints a line of what it counted; its
 * status is 0 where nothing was wrong, and else it says what was. */
#define _GNU_SOURCE
#include <pthread.h>
#include <stdio.h>
#include <stdlib.h>
#include <string.h>
#include <sys/mman.h>
#include <unistd.h>

#include "pocsag.h"

#define LARGE (1 << 16)

void *__real_malloc(size_t size);
void *__real_realloc(void *block, size_t size);
void __real_free(void *block);

/* Counted while a call runs, on one thread at a time where it is refused. */
static _Thread_local long live, taken, refuse_at;

static int refused(void)
{
    taken++;
    return refuse_at != 0 && taken == refuse_at;
}

void *__wrap_malloc(size_t size)
{
    void *block = refused() ? NULL : __real_malloc(size);
    live += block != NULL;
    return block;
}

void *__wrap_realloc(void *block, size_t size)
{
    if (refused())
        return NULL;
    void *moved = __real_realloc(block, size);
    live += block == NULL && moved != NULL;
    return moved;
}

void __wrap_free(void *block)
{
    live -= block != NULL;
    __real_free(block);
}

static void wrong(const char *what, long number)
{
    printf("wrong: %s at %ld\n", what, number);
    exit(1);
}

/* So many bytes that end where a page begins that may not be touched. */
static uint8_t *guarded(size_t size)
{
    size_t page = (size_t)sysconf(_SC_PAGESIZE), rounded = (size + page - 1) / page * page;
    uint8_t *start = mmap(NULL, rounded + page, PROT_READ | PROT_WRITE, MAP_PRIVATE | MAP_ANONYMOUS, -1, 0);
    if (start == MAP_FAILED || mprotect(start + rounded, page, PROT_NONE) != 0)
        wrong("no memory for the test", (long)size);
    memset(start, 0x5a, rounded);
    return start + rounded - size;
}

static int is_untouched(const uint8_t *bytes, size_t size)
{
    for (size_t i = 0; i < size; i++)
        if (bytes[i] != 0x5a)
            return 0;
    return 1;
}

static const uint8_t *pages;
static size_t pages_len;
static uint32_t end, always;

struct texts {
    uint8_t tx[LARGE], cert[LARGE];
    size_t tx_len, cert_len;
    struct pocsag_plan_info info;
};

static uint32_t plan(struct texts *t)
{
    return pocsag_plan(pages, pages_len, t->tx, LARGE, &t->tx_len, t->cert, LARGE, &t->cert_len, 100000, end, always,
                       &t->info);
}

struct fronts {
    uint8_t tx[LARGE], cert[LARGE], rest[LARGE], why[LARGE];
    size_t tx_len, cert_len, rest_len, why_len;
    struct pocsag_front_info info;
};

/* The front of one batch less than the round needs, into buffers of these sizes. */
static uint32_t front(const struct texts *whole, struct fronts *f, size_t tx_size, size_t cert_size, size_t rest_size,
                      size_t why_size)
{
    return pocsag_plan_at_most(pages, pages_len, whole->info.batches - 1, f->tx, tx_size, &f->tx_len, f->cert, cert_size,
                               &f->cert_len, f->rest, rest_size, &f->rest_len, f->why, why_size, &f->why_len, 100000, end,
                               always, &f->info);
}

/* The calls that put one text into a buffer and tell a place, with the status of each where the buffer is too small. */
static const uint32_t small[] = {POCSAG_LISTING_TOO_SMALL, POCSAG_LISTING_TOO_SMALL, POCSAG_LISTING_TOO_SMALL,
                                 POCSAG_LISTING_TOO_SMALL, POCSAG_LISTING_TOO_SMALL, POCSAG_LISTING_TOO_SMALL,
                                 POCSAG_TEXT_TOO_SMALL,    POCSAG_TEXT_TOO_SMALL,    POCSAG_TEXT_TOO_SMALL,
                                 POCSAG_TX_TOO_SMALL,      POCSAG_TEXT_TOO_SMALL,    POCSAG_TEXT_TOO_SMALL};
#define TEXTS 12

/* One of them, which reads the transmission, the page file or a message. */
static uint32_t text_of(int call, const uint8_t *tx, size_t tx_len, uint8_t *text, size_t size, size_t *told)
{
    static const uint8_t message[] = "say \"yes\", now";
    struct pocsag_place place;
    uint32_t number = (uint32_t)call % 3;
    switch (call) {
    case 0:
        return pocsag_decode(tx, tx_len, text, size, told, &place);
    case 1:
    case 2:
        return pocsag_decode_as(number, tx, tx_len, text, size, told, &place);
    case 3:
        return pocsag_hear(8, tx, tx_len, text, size, told, &place);
    case 4:
    case 5:
        return pocsag_hear_as(number, 8, tx, tx_len, text, size, told, &place);
    case 6:
    case 7:
    case 8:
        return pocsag_show(POCSAG_REPAIRED, tx, tx_len, number, 1, UINT64_MAX, text, size, told, &place);
    case 9:
        return pocsag_lay_in_order(pages, pages_len, text, size, told, &place);
    case 10:
        return pocsag_wav(tx, tx_len, 2400, 2400, 0, 1, text, size, told, &place);
    default:
        return pocsag_write_page(8, POCSAG_ALPHA, message, sizeof message - 1, text, size, told, &place);
    }
}

/* How many calls take memory. */
#define CALLS (7 + TEXTS)

/* One of them, its texts into t. */
static uint32_t call_of(int call, const struct texts *whole, struct texts *t)
{
    struct pocsag_check_info check;
    struct pocsag_report_info report;
    t->tx_len = t->cert_len = 0;
    switch (call) {
    case 0:
        return plan(t);
    case 1:
        return pocsag_check(pages, pages_len, whole->cert, whole->cert_len, &check);
    case 2:
    case 3:
        return pocsag_explain(pages, pages_len, whole->cert, whole->cert_len,
                              call == 2 ? POCSAG_IN_WORDS : POCSAG_AS_JSON, POCSAG_DEFAULT_DEPTH, t->tx, LARGE,
                              &t->tx_len, &check);
    case 4: {
        static struct fronts f;
        memset(&f, 0x5a, sizeof f);
        uint32_t status = front(whole, &f, LARGE, LARGE, LARGE, LARGE);
        memcpy(t->tx, f.rest, LARGE);
        memcpy(t->cert, f.why, LARGE);
        return status;
    }
    case 5:
        return pocsag_report(pages, pages_len, 1200, 100000, end, always, &report);
    case 6: {
        struct pocsag_frames_info frames;
        uint32_t status = pocsag_frames(pages, pages_len, 100000, end, always, &frames);
        if (status == POCSAG_OK)
            memcpy(t->tx, frames.frames, sizeof frames.frames);
        return status;
    }
    default:
        return text_of(call - 7, whole->tx, whole->tx_len, t->tx, LARGE, &t->tx_len);
    }
}

/* Each growth of memory refused in turn: want of memory is told and nothing is written, or the call does without. */
static long try_refusals(const struct texts *whole)
{
    static struct texts ample, t;
    long number = 0;
    for (int call = 0; call < CALLS; call++) {
        memset(&ample, 0x5a, sizeof ample);
        if (call_of(call, whole, &ample) != POCSAG_OK)
            wrong("a call that lacks nothing is refused", call);
        for (long at = 1;; at++) {
            memset(&t, 0x5a, sizeof t);
            live = taken = 0;
            refuse_at = at;
            uint32_t status = call_of(call, whole, &t);
            int reached = taken >= at;
            refuse_at = 0;
            if (live != 0)
                wrong("memory is not given back", at);
            if (status == POCSAG_OK) {
                if (memcmp(t.tx, ample.tx, LARGE) != 0 || memcmp(t.cert, ample.cert, LARGE) != 0)
                    wrong("other bytes where memory is refused", at);
            } else if (status != POCSAG_OUT_OF_MEMORY || !is_untouched(t.tx, LARGE) || !is_untouched(t.cert, LARGE)) {
                wrong("refused memory is not told", at);
            }
            if (!reached)
                break;
            number += status == POCSAG_OUT_OF_MEMORY;
        }
    }
    return number;
}

/* Each text in a buffer that just does, and in one of a byte too few. */
static void try_texts(const struct texts *whole)
{
    static uint8_t text[LARGE];
    for (int call = 0; call < TEXTS; call++) {
        size_t wanted, told;
        uint8_t *tx = guarded(whole->tx_len);
        memcpy(tx, whole->tx, whole->tx_len);
        if (text_of(call, tx, whole->tx_len, text, LARGE, &wanted) != POCSAG_OK)
            wrong("the text of a call", call);
        uint8_t *just = guarded(wanted), *less = guarded(wanted - 1);
        if (text_of(call, tx, whole->tx_len, just, wanted, &told) != POCSAG_OK || told != wanted ||
            memcmp(just, text, wanted) != 0)
            wrong("a text that just fits", call);
        if (text_of(call, tx, whole->tx_len, less, wanted - 1, &told) != small[call] || told != wanted ||
            !is_untouched(less, wanted - 1))
            wrong("a text that does not fit", call);
    }
}

static void try_explanations(const struct texts *whole)
{
    static uint8_t text[LARGE];
    for (uint32_t form = POCSAG_IN_WORDS; form <= POCSAG_AS_JSON; form++) {
        struct pocsag_check_info info, other;
        size_t wanted, told;
        uint8_t *file = guarded(pages_len), *cert = guarded(whole->cert_len);
        memcpy(file, pages, pages_len);
        memcpy(cert, whole->cert, whole->cert_len);
        if (pocsag_explain(file, pages_len, cert, whole->cert_len, form, 3, text, LARGE, &wanted, &info) != POCSAG_OK)
            wrong("the explanation", (long)form);
        uint8_t *just = guarded(wanted), *small = guarded(wanted - 1);
        if (pocsag_explain(file, pages_len, cert, whole->cert_len, form, 3, just, wanted, &told, &other) != POCSAG_OK ||
            told != wanted || memcmp(just, text, wanted) != 0)
            wrong("an explanation that just fits", (long)told);
        if (pocsag_explain(file, pages_len, cert, whole->cert_len, form, 3, small, wanted - 1, &told, &other) !=
                POCSAG_TEXT_TOO_SMALL ||
            told != wanted || !is_untouched(small, wanted - 1) || memcmp(&info, &other, sizeof info) != 0)
            wrong("an explanation that does not fit", (long)told);
        if (pocsag_explain(file, pages_len, cert, whole->cert_len, 2 + form, 3, small, wanted - 1, &told, &other) !=
                POCSAG_BAD_FORM ||
            told != 0 || !is_untouched(small, wanted - 1))
            wrong("a form that is none", (long)form);
    }
}

/* The front of the round, with buffers that just do, that have a byte too few, and that are not wanted. */
static void try_fronts(const struct texts *whole)
{
    static struct fronts f, t;
    memset(&f, 0x5a, sizeof f);
    if (front(whole, &f, LARGE, LARGE, LARGE, LARGE) != POCSAG_OK || f.info.left == 0 ||
        f.info.batches >= whole->info.batches || f.info.beyond + always < whole->info.batches || f.why_len == 0)
        wrong("the front", (long)f.info.pages);
    for (int less = 0; less < 6; less++) {
        size_t rest_size = less == 5 ? 0 : f.rest_len - (less == 1), why_size = less == 5 ? 0 : f.why_len - (less == 2);
        static const uint32_t statuses[] = {POCSAG_OK, POCSAG_REST_TOO_SMALL, POCSAG_WHY_TOO_SMALL, POCSAG_TX_TOO_SMALL,
                                            POCSAG_CERT_TOO_SMALL, POCSAG_OK};
        memset(&t, 0x5a, sizeof t);
        uint32_t status = front(whole, &t, f.tx_len - (less == 3), f.cert_len - (less == 4), rest_size, why_size);
        if (status != statuses[less])
            wrong("the status of a front", (long)status);
        if (t.tx_len != f.tx_len || t.cert_len != f.cert_len || t.rest_len != f.rest_len || t.why_len != f.why_len ||
            memcmp(&t.info, &f.info, sizeof f.info) != 0)
            wrong("what a front tells", less);
        int given = status == POCSAG_OK;
        if (given ? memcmp(t.tx, f.tx, f.tx_len) != 0 || memcmp(t.cert, f.cert, f.cert_len) != 0
                  : !is_untouched(t.tx, LARGE) || !is_untouched(t.cert, LARGE))
            wrong("the plan of a front", less);
        if (given && less != 5 ? memcmp(t.rest, f.rest, f.rest_len) != 0 || memcmp(t.why, f.why, f.why_len) != 0
                               : !is_untouched(t.rest, LARGE) || !is_untouched(t.why, LARGE))
            wrong("what is left by a front", less);
        if (given && less == 0 && (!is_untouched(t.rest + t.rest_len, LARGE - t.rest_len) ||
                                   !is_untouched(t.why + t.why_len, LARGE - t.why_len)))
            wrong("a byte behind the texts of a front", less);
    }
}

/* The frames of the round, in a structure that ends where a page begins that may not be touched; and where there are none. */
static void try_frames(const struct texts *whole)
{
    struct pocsag_frames_info *info = (void *)guarded(sizeof *info);
    uint64_t count = 0, codewords = 0, room = 0;
    if (pocsag_frames(pages, pages_len, 100000, end, always, info) != POCSAG_OK)
        wrong("the frames", 0);
    for (uint32_t frame = 0; frame < POCSAG_FRAMES; frame++) {
        if (info->frames[frame].frame != frame || info->frames[frame].room > 2 * (uint64_t)info->batches)
            wrong("a frame", (long)frame);
        count += info->frames[frame].pages;
        codewords += info->frames[frame].codewords;
        room += info->frames[frame].room;
    }
    if (count != whole->info.pages || codewords != whole->info.codewords || codewords + room != 16 * (uint64_t)info->batches ||
        info->batches != whole->info.batches || info->bound != whole->info.bound)
        wrong("the numbers of the frames", (long)count);
    memset(info, 0x5a, sizeof *info);
    if (pocsag_frames(pages, pages_len, 0, end, always, info) != POCSAG_BAD_LIMIT || info->batches != 0 || info->bound != 0)
        wrong("no frames", 0);
    for (uint32_t frame = 0; frame < POCSAG_FRAMES; frame++)
        if (info->frames[frame].frame + info->frames[frame].pages + info->frames[frame].codewords + info->frames[frame].room != 0)
            wrong("a frame of no plan", (long)frame);
}

static void try_buffers(const struct texts *whole)
{
    struct pocsag_plan_info info;
    for (size_t less = 0; less < 3; less++) {
        size_t tx_size = whole->tx_len - (less == 1), cert_size = whole->cert_len - (less == 2), tx_len, cert_len;
        uint8_t *tx = guarded(tx_size), *cert = guarded(cert_size), *file = guarded(pages_len);
        memcpy(file, pages, pages_len);
        uint32_t status = pocsag_plan(file, pages_len, tx, tx_size, &tx_len, cert, cert_size, &cert_len, 100000, end,
                                      always, &info);
        if (status != (less == 0 ? POCSAG_OK : less == 1 ? POCSAG_TX_TOO_SMALL : POCSAG_CERT_TOO_SMALL))
            wrong("the status of a small buffer", (long)status);
        if (tx_len != whole->tx_len || cert_len != whole->cert_len || memcmp(&info, &whole->info, sizeof info) != 0)
            wrong("what a small buffer tells", (long)less);
        if (less == 0 && (memcmp(tx, whole->tx, tx_len) != 0 || memcmp(cert, whole->cert, cert_len) != 0))
            wrong("the bytes of buffers that just do", 0);
        if (less != 0 && !(is_untouched(tx, tx_size) && is_untouched(cert, cert_size)))
            wrong("a small buffer is written", (long)less);
    }
    try_texts(whole);
    try_explanations(whole);
    try_fronts(whole);
    try_frames(whole);
    struct pocsag_check_info check;
    uint8_t *file = guarded(pages_len), *cert = guarded(whole->cert_len);
    memcpy(file, pages, pages_len);
    memcpy(cert, whole->cert, whole->cert_len);
    if (pocsag_check(file, pages_len, cert, whole->cert_len, &check) != POCSAG_OK)
        wrong("a check of bytes that end before a guard page", 0);
}

/* A page file of one byte too many is refused by its length: no memory is taken. */
static void try_too_large(const struct texts *whole)
{
    size_t size = 268435457;
    uint8_t *large = mmap(NULL, size, PROT_READ, MAP_PRIVATE | MAP_ANONYMOUS | MAP_NORESERVE, -1, 0), none[1];
    static struct texts t;
    struct pocsag_check_info check;
    struct pocsag_report_info report;
    struct pocsag_frames_info frames;
    size_t told;
    if (large == MAP_FAILED)
        wrong("no memory for the test", (long)size);
    live = taken = 0;
    if (pocsag_check(large, size, whole->cert, whole->cert_len, &check) != POCSAG_PAGES_TOO_LARGE ||
        pocsag_explain(large, size, whole->cert, whole->cert_len, 0, 3, none, 0, &told, &check) != POCSAG_PAGES_TOO_LARGE ||
        pocsag_report(large, size, 1200, 100000, end, always, &report) != POCSAG_PAGES_TOO_LARGE ||
        pocsag_frames(large, size, 100000, end, always, &frames) != POCSAG_PAGES_TOO_LARGE ||
        pocsag_plan(large, size, t.tx, LARGE, &t.tx_len, t.cert, LARGE, &t.cert_len, 100000, end, always, &t.info) !=
            POCSAG_PAGES_TOO_LARGE)
        wrong("a page file that is too large", 0);
    if (pocsag_plan(large, size, t.tx, LARGE, &t.tx_len, t.cert, LARGE, &t.cert_len, 0, end, always, &t.info) !=
        POCSAG_BAD_LIMIT)
        wrong("no limit is told before the page file is judged", 0);
    if (taken != 0)
        wrong("memory is taken for a page file that is too large", taken);
    munmap(large, size);
}

static void *one_thread(void *given)
{
    const struct texts *whole = given;
    struct texts *t = __real_malloc(sizeof *t);
    for (long i = 0; t != NULL && i < 50; i++) {
        struct pocsag_check_info check;
        if (plan(t) != POCSAG_OK || t->tx_len != whole->tx_len || memcmp(t->tx, whole->tx, t->tx_len) != 0 ||
            t->cert_len != whole->cert_len || memcmp(t->cert, whole->cert, t->cert_len) != 0)
            wrong("a plan beside others", i);
        if (pocsag_check(pages, pages_len, t->cert, t->cert_len, &check) != POCSAG_OK)
            wrong("a check beside others", i);
    }
    __real_free(t);
    return NULL;
}

int main(int argc, char **argv)
{
    static struct texts whole;
    static uint8_t file[LARGE];
    FILE *opened = argc == 4 ? fopen(argv[1], "rb") : NULL;
    if (opened == NULL)
        return 2;
    pages = file;
    pages_len = fread(file, 1, LARGE, opened);
    fclose(opened);
    end = (uint32_t)atoi(argv[2]);
    always = (uint32_t)atoi(argv[3]);
    if (plan(&whole) != POCSAG_OK)
        wrong("there is no plan", 0);
    long number = try_refusals(&whole);
    try_buffers(&whole);
    try_too_large(&whole);
    pthread_t threads[8];
    pthread_attr_t room;
    pthread_attr_init(&room);
    pthread_attr_setstacksize(&room, 2 << 20);
    for (int i = 0; i < 8; i++)
        if (pthread_create(&threads[i], &room, one_thread, &whole) != 0)
            wrong("no thread", i);
    for (int i = 0; i < 8; i++)
        pthread_join(threads[i], NULL);
    printf("refused %ld\n", number);
    return 0;
}
