// The peer for speed of `pocsag decode`, in C: `fast_decode TX` judges all words of a transmission, and then prints the
// listing of its pages as csv.
#include "../codewords.h"
#include <unistd.h>

enum { BATCH_BYTES = 4 * (1 + SLOTS), PIECE = 1 << 16 };

static uint8_t piece[PIECE], *to = piece;
static uint32_t *items; // of the page that was begun last
static size_t count;
static uint8_t *text; // its message

static void flush(void) {
    for (uint8_t *from = piece; from < to;) {
        ssize_t written = write(STDOUT_FILENO, from, to - from);
        if (written <= 0) fail("cannot write");
        from += written;
    }
    to = piece;
}

static void put(const void *bytes, size_t length) {
    for (const uint8_t *from = bytes; length > 0;) {
        size_t room = piece + PIECE - to, part = length < room ? length : room;
        memcpy(to, from, part);
        to += part;
        from += part;
        length -= part;
        if (to == piece + PIECE) flush();
    }
}

static void put_text(const char *words) {
    put(words, strlen(words));
}

static uint32_t word_at(const uint8_t *place) {
    uint32_t word;
    memcpy(&word, place, 4);
    return __builtin_bswap32(word);
}

// Fails at the first word of whole batches that may not stand where it stands.
static void judge(const uint8_t *place, const uint8_t *end) {
    int in_page = 0;
    for (; place < end; place += BATCH_BYTES) {
        if (word_at(place) != SYNC) fail("no synchronisation codeword");
        for (int slot = 1; slot <= SLOTS; slot++) {
            uint32_t word = word_at(place + 4 * slot);
            if (check_bits(word >> 11) != word % 2048) fail("a word is no codeword");
            if (word >> 31 == 0)
                in_page = word != IDLE;
            else if (!in_page)
                fail("a message codeword without a page");
        }
    }
}

static uint8_t *put_characters(uint8_t *out, uint64_t bits, int characters) {
    for (int shift = 7 * (characters - 1); shift >= 0; shift -= 7) *out++ = reversed[bits >> shift & 127];
    return out;
}

// The characters of an alphanumeric payload: twenty of each seven items, then as many as are whole; no zeros at the end.
static size_t alpha_text(void) {
    uint8_t *out = text;
    size_t i = 0;
    for (; i + 7 <= count; i += 7) {
        const uint32_t *seven = items + i;
        uint64_t a = (uint64_t)seven[0] << 36 | (uint64_t)seven[1] << 16 | seven[2] >> 4;
        uint64_t b = (uint64_t)(seven[2] & 15) << 24 | (uint64_t)seven[3] << 4 | seven[4] >> 16;
        uint64_t c = (uint64_t)(seven[4] & 65535) << 40 | (uint64_t)seven[5] << 20 | seven[6];
        out = put_characters(put_characters(put_characters(out, a, 8), b, 4), c, 8);
    }
    uint32_t held = 0;
    for (int bits = 0; i < count; i++) {
        held = held << 20 | items[i];
        for (bits += 20; bits >= 7;) *out++ = reversed[held >> (bits -= 7) & 127];
    }
    while (out > text && out[-1] == 0) out--;
    return out - text;
}

static size_t numeric_text(void) {
    uint8_t *out = text;
    for (size_t i = 0; i < count; i++)
        for (int shift = 16; shift >= 0; shift -= 4) *out++ = DIGITS[reversed[items[i] >> shift & 15] >> 3];
    while (out > text && out[-1] == ' ') out--;
    return out - text;
}

static size_t data_text(void) {
    for (size_t i = 0; i < count; i++)
        for (int digit = 0; digit < 5; digit++) text[5 * i + digit] = "0123456789ABCDEF"[items[i] >> (16 - 4 * digit) & 15];
    return 5 * count;
}

// Puts the text as a field, in quotes where csv needs them.
static void put_field(size_t length) {
    static uint8_t special[256];
    special[','] = special['"'] = special['\n'] = special['\r'] = 1;
    int quoted = 0;
    for (size_t i = 0; i < length; i++) quoted |= special[text[i]];
    if (!quoted) {
        put(text, length);
        return;
    }
    put_text("\"");
    for (const uint8_t *rest = text, *end = text + length; rest < end;) {
        const uint8_t *quote = memchr(rest, '"', end - rest);
        size_t part = quote ? quote + 1 - rest : end - rest;
        put(rest, part);
        if (quote) put_text("\"");
        rest += part;
    }
    put_text("\"");
}

static void put_page(uint32_t address, uint32_t function) {
    static const char *const SILENT[] = {",tone0,", ",tone1,", ",tone2,", ",tone3,"};
    static const char *const SPEAKING[] = {",numeric,", ",data1,", ",data2,", ",alpha,"};
    char digits[8], *digit = digits + sizeof digits;
    do *--digit = '0' + address % 10;
    while (address /= 10);
    put(digit, digits + sizeof digits - digit);
    put_text((count ? SPEAKING : SILENT)[function]);
    if (count) put_field(function == 0 ? numeric_text() : function == 3 ? alpha_text() : data_text());
    put_text("\n");
}

static void list(const uint8_t *place, const uint8_t *end) {
    uint32_t address = 0, function = 0;
    int in_page = 0;
    put_text("address,kind,message\n");
    for (; place < end; place += BATCH_BYTES) {
        for (int slot = 0; slot < SLOTS; slot++) {
            uint32_t word = word_at(place + 4 + 4 * slot), data = word >> 11;
            if (word >> 31) {
                items[count++] = data - MESSAGE;
                continue;
            }
            if (in_page) put_page(address, function);
            in_page = word != IDLE;
            count = 0;
            address = 8 * (data / 4) + slot / 2;
            function = data % 4;
        }
    }
    if (in_page) put_page(address, function);
    flush();
}

int main(int words_count, char **words) {
    if (words_count != 2) fail("usage: fast_decode TX");
    make_tables();
    size_t size, leading = 0;
    uint8_t *bytes = bytes_of(words[1], &size);
    while (leading < size && bytes[leading] == 0xAA) leading++;
    if (leading < PREAMBLE) fail("the preamble is too short");
    if (leading == size) fail("no batch");
    if ((size - leading) % BATCH_BYTES) fail("the transmission is cut off");
    judge(bytes + leading, bytes + size);
    items = malloc(size);
    text = malloc(2 * size);
    if (!items || !text) fail("out of memory");
    list(bytes + leading, bytes + size);
    return 0;
}
