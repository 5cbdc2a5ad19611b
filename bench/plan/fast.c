// The peer for speed of `pocsag plan`, in C: `fast PAGES TX` reads a page file as csv, checks each page, and writes the
// transmission of the pages in the order of the file, filled with idles. It plans nothing and writes no certificate.
#include "../codewords.h"
#include <fcntl.h>
#include <unistd.h>

enum { PAGE_LIMIT = 20000, TEXT_LIMIT = 4000, ADDRESSES = 1 << 21, NUMERIC = 4, ALPHA = 5 };

typedef struct {
    const uint8_t *text;
    uint32_t length, address, kind; // a kind below NUMERIC is that of a tone
} Page;

typedef struct {
    uint8_t *start, *end;
} Field;

typedef uint8_t Block __attribute__((vector_size(16)));
typedef uint64_t Halves __attribute__((vector_size(16)));

static Page pages[PAGE_LIMIT];
static uint8_t seen[ADDRESSES / 8]; // a bit for each address
static uint8_t digit_codes[256];    // the code of each numeric character with its bits reversed, or 16

static Block load(const uint8_t *place) {
    Block block;
    memcpy(&block, place, sizeof block);
    return block;
}

static int any(Block mask) {
    Halves halves = (Halves)mask;
    return (halves[0] | halves[1]) != 0;
}

// Takes the field at the place, and returns the place of the byte that ends it. The file's end reads as a zero byte.
static uint8_t *take_field(uint8_t *place, uint8_t *end, Field *field) {
    if (place < end && *place == '"') {
        uint8_t *to = field->start = ++place;
        for (;;) { // what stands between quotes; two quotes are one
            uint8_t *quote = memchr(place, '"', end - place);
            size_t count = (quote ? quote : end) - place;
            if (to != place) memmove(to, place, count);
            to += count;
            place += count;
            if (!quote || ++place == end || *place != '"') break;
            *to++ = *place++;
        }
        while (place < end && *place != ',' && *place != '\n' && *place != '\r') *to++ = *place++;
        field->end = to;
        return place;
    }
    field->start = place;
    for (; place < end; place += sizeof(Block)) {
        Block block = load(place);
        if (any((Block)((block == ',') | (block == '\n') | (block == '\r')))) break;
    }
    while (place < end && *place != ',' && *place != '\n' && *place != '\r') place++;
    field->end = place < end ? place : end;
    return field->end;
}

static int is_field(Field field, const char *text) {
    size_t length = field.end - field.start;
    return length == strlen(text) && !memcmp(field.start, text, length);
}

static uint32_t address_of(Field field) {
    uint32_t address = 0;
    if (field.end - field.start < 1 || field.end - field.start > 7) fail("bad address");
    for (uint8_t *digit = field.start; digit < field.end; digit++) {
        if (*digit < '0' || *digit > '9') fail("bad address");
        address = 10 * address + (*digit - '0');
    }
    if (address >= ADDRESSES) fail("bad address");
    if ((address >= 2007664 && address <= 2007671) || (address >= 2045056 && address <= 2045063)) fail("reserved address");
    if (seen[address / 8] >> address % 8 & 1) fail("the address is already there");
    seen[address / 8] |= 1 << address % 8;
    return address;
}

static uint32_t kind_of(Field field) {
    if (is_field(field, "alpha")) return ALPHA;
    if (is_field(field, "numeric")) return NUMERIC;
    if (field.end - field.start == 5 && !memcmp(field.start, "tone", 4) && field.start[4] >= '0' && field.start[4] <= '3')
        return field.start[4] - '0';
    fail("unknown kind");
    return 0;
}

static void check_text(const uint8_t *text, uint32_t length, uint32_t kind) {
    if (kind < NUMERIC ? length != 0 : length == 0) fail("a message for a tone, or none for a text");
    if (length > TEXT_LIMIT) fail("the message is too long");
    if (kind == NUMERIC)
        for (uint32_t i = 0; i < length; i++)
            if (digit_codes[text[i]] == 16) fail("bad character");
    if (kind == ALPHA) { // 1 to 127
        Block bad = {0};
        uint32_t i = 0;
        for (; i + sizeof(Block) <= length; i += sizeof(Block)) {
            Block block = load(text + i);
            bad |= block | (Block)(block == 0);
        }
        bad &= 128;
        if (any(bad)) fail("bad character");
        for (; i < length; i++)
            if (text[i] - 1u > 126) fail("bad character");
    }
}

// Reads and checks all pages, and returns how many there are.
static uint32_t read_pages(uint8_t *place, uint8_t *end) {
    uint32_t count = 0;
    int has_header = 0;
    if (end - place >= 3 && !memcmp(place, "\xEF\xBB\xBF", 3)) place += 3;
    while (place < end) {
        if (*place == '\n' || *place == '\r') { // an empty line, or the second half of a line's end
            place++;
            continue;
        }
        Field fields[3];
        for (int i = 0; i < 3; i++) {
            place = take_field(place, end, fields + i);
            if (i < 2 && (place == end || *place++ != ',')) fail("three fields are wanted");
        }
        if (place < end && *place == ',') fail("three fields are wanted");
        if (!has_header) {
            if (!is_field(fields[0], "address") || !is_field(fields[1], "kind") || !is_field(fields[2], "message"))
                fail("bad header");
            has_header = 1;
            continue;
        }
        uint32_t address = address_of(fields[0]), kind = kind_of(fields[1]), length = fields[2].end - fields[2].start;
        check_text(fields[2].start, length, kind);
        if (count == PAGE_LIMIT) fail("too many pages");
        pages[count++] = (Page){fields[2].start, length, address, kind};
    }
    if (count == 0) fail("there are no pages");
    return count;
}

enum { PIECE = 1 << 16, PIECE_SLACK = 64 };

static uint8_t piece[PIECE + PIECE_SLACK], *to = piece;
static uint32_t slot;
static int tx;

static void flush(void) {
    for (uint8_t *from = piece; from < to;) {
        ssize_t count = write(tx, from, to - from);
        if (count <= 0) fail("cannot write");
        from += count;
    }
    to = piece;
}

// Makes room for eight words and a synchronisation codeword.
static void make_room(void) {
    if (to > piece + PIECE) flush();
}

static void store(uint32_t word) {
    word = __builtin_bswap32(word);
    memcpy(to, &word, 4);
    to += 4;
}

static inline void put(uint32_t word) {
    if (slot == 0) store(SYNC);
    store(word);
    slot = (slot + 1) % SLOTS;
}

static inline void put_data(uint32_t data) {
    put(data << 11 | check_bits(data));
}

static inline uint64_t four(const uint8_t *text) {
    return reversed[text[0]] << 21 | reversed[text[1]] << 14 | reversed[text[2]] << 7 | reversed[text[3]];
}

// Twenty characters of seven bits are seven message codewords.
static void put_twenty(const uint8_t *text) {
    uint64_t a = four(text) << 28 | four(text + 4), b = four(text + 8), c = four(text + 12) << 28 | four(text + 16);
    make_room();
    put_data(MESSAGE | a >> 36);
    put_data(MESSAGE | (a >> 16 & 0xFFFFF));
    put_data(MESSAGE | (a << 4 & 0xFFFFF) | b >> 24);
    put_data(MESSAGE | (b >> 4 & 0xFFFFF));
    put_data(MESSAGE | (b << 16 & 0xFFFFF) | c >> 40);
    put_data(MESSAGE | (c >> 20 & 0xFFFFF));
    put_data(MESSAGE | (c & 0xFFFFF));
}

static void put_alpha(const uint8_t *text, uint32_t length) {
    for (; length >= 20; text += 20, length -= 20) put_twenty(text);
    if (length > 0) { // the last characters, filled with zeros, and as many codewords as they begin
        uint32_t held = 0, bits = 0;
        make_room();
        for (; length > 0; text++, length--) {
            held = held << 7 | reversed[*text];
            bits += 7;
            if (bits >= 20) {
                bits -= 20;
                put_data(MESSAGE | (held >> bits & 0xFFFFF));
            }
        }
        if (bits > 0) put_data(MESSAGE | (held << (20 - bits) & 0xFFFFF));
    }
}

static void put_numeric(const uint8_t *text, uint32_t length) {
    for (uint32_t i = 0; i < length; i += 5) {
        uint32_t item = 0;
        for (uint32_t j = i; j < i + 5; j++) item = item << 4 | digit_codes[j < length ? text[j] : ' '];
        make_room();
        put_data(MESSAGE | item);
    }
}

// Writes the transmission: each page starts in its frame, idles stand before it, and idles fill the last batch.
static void send(uint32_t count) {
    memset(to, 0xAA, PREAMBLE);
    to += PREAMBLE;
    for (Page *page = pages; page < pages + count; page++) {
        for (make_room(); slot / 2 != page->address % 8; make_room()) put(IDLE);
        put_data(page->address / 8 << 2 | (page->kind < NUMERIC ? page->kind : page->kind == ALPHA ? 3 : 0));
        if (page->kind == ALPHA) put_alpha(page->text, page->length);
        if (page->kind == NUMERIC) put_numeric(page->text, page->length);
    }
    for (; slot != 0; make_room()) put(IDLE);
    flush();
}

int main(int count, char **words) {
    if (count != 3) fail("usage: fast PAGES TX");
    make_tables();
    memset(digit_codes, 16, sizeof digit_codes);
    for (int code = 0; code < 16; code++) digit_codes[(uint8_t)DIGITS[code]] = reversed[code] >> 3;
    size_t size;
    uint8_t *bytes = bytes_of(words[1], &size);
    tx = open(words[2], O_WRONLY | O_CREAT | O_TRUNC, 0666);
    if (tx < 0) fail("cannot open");
    uint32_t pages_read = read_pages(bytes, bytes + size);
    send(pages_read);
    printf("pages %u\n", pages_read);
    return 0;
}
