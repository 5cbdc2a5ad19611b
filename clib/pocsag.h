/* The C library of pocsag: plans of paging rounds with the fewest batches, certificates of that, and what
 * transmissions say. LIBRARY.md says what is proved of these calls: docs/LIBRARY.md of the sources, and where the library is installed
 * share/doc/pocsag/LIBRARY.md. This header needs C99 or later, or C++.
 *
 * Bytes.    A pointer and a length are bytes that the call reads, or a buffer of the caller that it writes. The
 *           pointer is never null, also where the length is 0, and no two of the arguments overlap where one of them
 *           is written. The caller owns all of it; the library keeps no pointer after it returns.
 * Lengths.  In bytes. Where a text goes into a buffer, its length is told through `..._len`. Where the buffer is too
 *           small, the length that is wanted is told all the same and nothing is written, so the first call may give a
 *           buffer of 0 bytes. Behind a text the buffer is as it was. pocsag_plan_bound gives sizes that always
 *           suffice for a plan, pocsag_front_bound for a front, so that the search need not be made twice; POCSAG_LISTING_BOUND and
 *           so on are sizes that suffice for a listing, a picture and a sound.
 * Numbers.  A limit, end, rate, form or address that is none of those allowed is a fault; `always` may be any number.
 * Order.    A call answers the first fault in this order. pocsag_plan: end, limit, page file, search, size of `tx`, size
 *           of `cert`. pocsag_plan_at_most: end, limit, page file, first page, search, size of `rest`, of `why`, of `tx`,
 *           of `cert`. pocsag_report: end, page file, limit, search, rate; pocsag_frames: the same without a rate.
 *           pocsag_check: page file, certificate.
 *           pocsag_explain: form, page file, certificate, size of `text`. pocsag_decode: transmission, size of
 *           `listing`; pocsag_hear: before them the address. pocsag_decode_as and pocsag_hear_as: before all these the
 *           reading, the capture. pocsag_show: reading, form, batches, capture, transmission, batches behind its last, size of `text`. pocsag_wav: rate,
 *           samples, preamble, transmission, length, size of `wav`.
 *           pocsag_lay_in_order: page file, size of `tx`. pocsag_write_page: address, kind, message, size of `row`. Where
 *           memory is wanting, that may come first.
 * Memory.   A call takes memory with malloc and realloc, and has freed all of it when it returns. Where it is
 *           refused, the status is POCSAG_OUT_OF_MEMORY and no buffer was written. As measured it takes at most 4,096 bytes, for a
 *           drawing or an explanation 32,768, for a page file of 128 pages or more 262,144 more, and beside them 16 for each byte of a
 *           page file or a transmission, for a picture 48 and a drawing 160, for a sound three times its length, 40 for each node of a
 *           certificate or a search, and for each node that is explained 180 near the root and up to 4,500 at depth 300, most of them
 *           for the text.
 * Stack.    POCSAG_CHECK_STACK and so on are the bytes of stack that each call needs at most, and beside them what was measured: for
 *           certificates of the greatest depth, and for rounds and fronts. The deepest search of a plan is computed, not measured.
 * Threads.  The library keeps no state: any number of threads may call at one time, with buffers of their own. No
 *           call from a signal handler, nor in a child of fork where the parent had several threads.
 */
#ifndef POCSAG_H
#define POCSAG_H

#include <stddef.h>
#include <stdint.h>

#ifdef __cplusplus
extern "C" {
#endif

/* What a call promises the compiler: no pointer is null, and the status is looked at. */
#if defined(__GNUC__)
#define POCSAG_CALL __attribute__((nonnull, warn_unused_result))
#else
#define POCSAG_CALL
#endif

/* The number of this interface, which pocsag_version answers, and the version of the package that it is part of. */
#define POCSAG_VERSION 5u
#define POCSAG_RELEASE "1.2.1"

/* The end of a transmission: it ends the last message, or the last codeword is no message codeword, or an idle one. */
#define POCSAG_END_OPEN 0u
#define POCSAG_END_CLOSED 1u
#define POCSAG_END_IDLE 2u

/* How a certificate is explained: as an indented list in words, or the same facts as JSON. */
#define POCSAG_IN_WORDS 0u
#define POCSAG_AS_JSON 1u

/* What is read of the bytes of a transmission: these; their repair, by which each word becomes the only codeword that
 * differs from it in at most two bits; or all transmissions of a capture, one behind the other, each repaired. */
#define POCSAG_PLAIN 0u
#define POCSAG_REPAIRED 1u
#define POCSAG_CAPTURED 2u

/* What is shown of a transmission: a letter for each codeword; where each page stands, as CSV; or an SVG drawing. */
#define POCSAG_SHOW_TEXT 0u
#define POCSAG_SHOW_LIST 1u
#define POCSAG_SHOW_DRAWING 2u

/* The kinds of a page, of which a tone has no message; and the first line of a page file. */
#define POCSAG_TONE0 0u
#define POCSAG_TONE1 1u
#define POCSAG_TONE2 2u
#define POCSAG_TONE3 3u
#define POCSAG_NUMERIC 4u
#define POCSAG_ALPHA 5u
#define POCSAG_HEADER "address,kind,message\n"

/* How many frames a batch has, each of two codewords. */
#define POCSAG_FRAMES 8u

/* How deep the nodes are that the program tells where no depth is given; the root alone has depth 1. */
#define POCSAG_DEFAULT_DEPTH 3u

/* The node limit that the program takes where none is given, and the greatest one. A search for one batch less first
 * looks at up to 20,000 nodes for an order of the pages, which the limit does not count. */
#define POCSAG_DEFAULT_LIMIT 100000u
#define POCSAG_GREATEST_LIMIT 1000000u

/* The bytes of stack that a thread needs for a call, its own part included. A certificate has at most 300 levels: 64 KiB,
 * and 1 KiB for each of them. A search goes through at most 289 levels, each of some 1,600 bytes: 462 KB, and what the measured rounds and
 * fronts take in all. What is left of a mebibyte is added. */
#define POCSAG_CHECK_STACK 372736u   /* measured: 234,856 */
#define POCSAG_EXPLAIN_STACK 372736u /* measured: 239,336 */
#define POCSAG_PLAN_STACK 1048576u   /* pocsag_plan_at_most, pocsag_report and pocsag_frames too; measured: 129,960 */
#define POCSAG_LISTING_STACK 196608u /* all others; measured: 87,144 */

/* Statuses. */
#define POCSAG_OK 0u
#define POCSAG_NOT_SHOWN 1u            /* the checker does not accept the certificate's tree */
#define POCSAG_BAD_END 2u              /* the end is none of 0, 1 and 2 */
#define POCSAG_OUT_OF_MEMORY 3u
#define POCSAG_BAD_RATE 4u             /* the rate is none of 512, 1200 and 2400 */
#define POCSAG_BAD_LIMIT 5u            /* the limit is 0 or above 1,000,000 */
#define POCSAG_SEARCH_LIMIT 6u         /* place.least, place.found */
#define POCSAG_TX_TOO_SMALL 7u
#define POCSAG_CERT_TOO_SMALL 8u
#define POCSAG_LISTING_TOO_SMALL 9u
#define POCSAG_TEXT_TOO_SMALL 10u
#define POCSAG_BAD_FORM 11u            /* the form is neither 0 nor 1 */
#define POCSAG_FIRST_PAGE 12u          /* place.found: not even the first page fits, which needs so many batches */
#define POCSAG_REST_TOO_SMALL 13u
#define POCSAG_WHY_TOO_SMALL 14u
/* Of a page file. From POCSAG_FIELD_COUNT to POCSAG_BAD_PAYLOAD place.record_number says which record. */
#define POCSAG_PAGES_TOO_LARGE 17u     /* over 268,435,456 bytes */
#define POCSAG_BAD_HEADER 18u
#define POCSAG_FIELD_COUNT 19u
#define POCSAG_BAD_ADDRESS 20u
#define POCSAG_RESERVED_ADDRESS 21u
#define POCSAG_BAD_KIND 22u
#define POCSAG_MESSAGE_FOR_TONE 23u
#define POCSAG_EMPTY_MESSAGE 24u
#define POCSAG_BAD_CHARACTER 25u       /* place.at: the byte in the message, from 0 */
#define POCSAG_TOO_LONG 26u
#define POCSAG_DUPLICATE_ADDRESS 27u
#define POCSAG_TOO_MANY_PAGES 28u
#define POCSAG_BAD_PAYLOAD 29u
#define POCSAG_NO_PAGES 30u
/* Of a certificate. */
#define POCSAG_NOT_CERTIFICATE 32u
#define POCSAG_CERT_VERSION 33u
#define POCSAG_CERT_TRUNCATED 34u
#define POCSAG_CERT_TRAILING 35u
#define POCSAG_CERT_BAD_TAG 36u
#define POCSAG_CERT_BAD_FIELD 37u
#define POCSAG_CERT_TOO_DEEP 38u
#define POCSAG_CERT_TOO_MANY 39u
/* Of a quote of a page file: place.record_number says in which record, 0 for the header, place.at in which line, from 1. */
#define POCSAG_QUOTE_OPEN 41u          /* it is not closed */
#define POCSAG_QUOTE_INSIDE 42u        /* it stands in a field that begins without one */
#define POCSAG_QUOTE_FOLLOWED 43u      /* text follows the quote that closes */
/* Of a transmission. */
#define POCSAG_SHORT_PREAMBLE 48u
#define POCSAG_NO_SYNC 49u             /* place.at: the batch, from 0 */
#define POCSAG_BAD_WORD 50u            /* place.at: the codeword, from 0 */
#define POCSAG_ORPHAN 51u              /* place.at: the codeword, from 0 */
#define POCSAG_TRUNCATED 52u
#define POCSAG_NO_BATCH 53u
#define POCSAG_CAPTURE_TOO_LARGE 56u   /* over 268,435,456 bytes */
#define POCSAG_BAD_ROWS 57u            /* the first batch is 0, behind the last of the transmission, or behind the last that is wanted */
#define POCSAG_BAD_READING 58u         /* the reading, or the form of a picture, is none of 0, 1 and 2 */
/* Of a sound. */
#define POCSAG_BAD_SAMPLES 60u         /* the samples a second are fewer than the bits, or over 192,000 */
#define POCSAG_BAD_PREAMBLE 61u        /* the preamble has fewer than 576 bits, or is no multiple of 8 */
#define POCSAG_TOO_LONG_FOR_WAV 62u    /* a WAV file has 32 bits for its length */
/* Of the address that a pager is to hear. */
#define POCSAG_PAGER_BAD_ADDRESS 64u
#define POCSAG_PAGER_RESERVED_ADDRESS 65u

/* Where a fault stands, and what a search knew; each number is 0 where it says nothing. */
struct pocsag_place {
    uint32_t record_number; /* the record of the page file, from 1, the header not counted */
    uint32_t least;         /* POCSAG_SEARCH_LIMIT: at least so many batches are needed */
    uint32_t found;         /* POCSAG_SEARCH_LIMIT: so many, one more, would do; POCSAG_FIRST_PAGE: so many are needed */
    uint64_t at;            /* a byte of the message, a batch or a codeword, from 0; of a quote the line, from 1 */
};

/* What a plan tells. Where there is none, all but the place is 0. */
struct pocsag_plan_info {
    uint32_t pages;     /* of the round */
    uint32_t codewords; /* of the pages */
    uint32_t in_order;  /* batches in file order, with the open end */
    uint32_t batches;   /* of the transmission */
    uint32_t bound;     /* no transmission of the round has fewer; batches, or one less */
    struct pocsag_place place;
};

/* What the plan of a front tells. Where there is none, all but the place is 0. */
struct pocsag_front_info {
    uint32_t pages;     /* how many first pages of the round are planned */
    uint32_t left;      /* how many pages are left */
    uint32_t codewords; /* of the planned pages */
    uint32_t in_order;  /* their batches in file order, with the open end */
    uint32_t batches;   /* of the transmission */
    uint32_t bound;     /* no transmission of the planned pages has fewer; batches, or one less */
    uint32_t beyond;    /* no transmission of one page more has fewer; 0 where no page is left */
    struct pocsag_place place;
};

/* What a check or an explanation tells. Where one of the two cannot be read, all but the place is 0. */
struct pocsag_check_info {
    uint32_t end;     /* that the certificate names */
    uint32_t batches; /* that it names */
    struct pocsag_place place;
};

/* What a plan takes on the air. Where there is none, all but the place is 0. */
struct pocsag_report_info {
    uint32_t pages;
    uint32_t codewords;
    uint32_t in_order;
    uint32_t batches;
    uint32_t bound;
    uint64_t idles;      /* idle codewords */
    uint64_t bits;       /* of the transmission */
    uint64_t airtime_ms; /* milliseconds, rounded up */
    struct pocsag_place place;
};

/* One frame of a plan. The pages of an address start in the frame that is the address modulo 8. */
struct pocsag_frame {
    uint32_t frame;     /* 0 to 7 */
    uint32_t pages;     /* of the round that start in it */
    uint64_t codewords; /* of these pages, also those that stand in other frames */
    uint64_t room;      /* how many codewords of the frame are idle, of 2 in each batch */
};

/* The frames of a plan. Where there is none, all but the place is 0. */
struct pocsag_frames_info {
    struct pocsag_frame frames[POCSAG_FRAMES]; /* in the order of the frames: frames[k].frame is k */
    uint32_t batches;                          /* of the transmission */
    uint32_t bound;                            /* no transmission of the round has fewer; batches, or one less */
    struct pocsag_place place;
};

/* POCSAG_VERSION of the library that is linked. */
uint32_t pocsag_version(void);

/* Plans the page file `pages` and puts the transmission into `tx` and the certificate into `cert`. `limit` is the
 * most nodes of the search, 1 to 1,000,000. Where `always` is not 0, no round is refused: the batches may be one more
 * than the bound; where it is 0, a round at which the search stops is refused. OK: both stand there. TX_TOO_SMALL,
 * CERT_TOO_SMALL: both lengths and all of `info` are told. Else: both are 0. */
POCSAG_CALL uint32_t pocsag_plan(const uint8_t *pages, size_t pages_len,
                                 uint8_t *tx, size_t tx_size, size_t *tx_len,
                                 uint8_t *cert, size_t cert_size, size_t *cert_len,
                                 uint32_t limit, uint32_t end, uint32_t always,
                                 struct pocsag_plan_info *info);

/* Plans the first pages of a page file, as many as so many batches carry, as pocsag_plan plans all of them. It also puts
 * the page file of the pages that are left into `rest`, and into `why` the certificate of one page more, which needs more
 * batches; it has no byte where no page is left. A buffer `rest` or `why` of 0 bytes is not wanted: its length alone is
 * told. REST_TOO_SMALL, WHY_TOO_SMALL, TX_TOO_SMALL, CERT_TOO_SMALL: all lengths and `info` are told. Else: all are 0. Where `always`
 * is not 0, the pages are as many as the search found to fit, and `beyond` may be `batches`. `least` and `found` of SEARCH_LIMIT
 * are those of some first pages, of which it is not told how many. */
POCSAG_CALL uint32_t pocsag_plan_at_most(const uint8_t *pages, size_t pages_len, uint32_t batches,
                                         uint8_t *tx, size_t tx_size, size_t *tx_len,
                                         uint8_t *cert, size_t cert_size, size_t *cert_len,
                                         uint8_t *rest, size_t rest_size, size_t *rest_len,
                                         uint8_t *why, size_t why_size, size_t *why_len,
                                         uint32_t limit, uint32_t end, uint32_t always,
                                         struct pocsag_front_info *info);

/* Whether the certificate shows its number of batches for the page file: OK or NOT_SHOWN. */
POCSAG_CALL uint32_t pocsag_check(const uint8_t *pages, size_t pages_len,
                                  const uint8_t *cert, size_t cert_len,
                                  struct pocsag_check_info *info);

/* Judges the certificate for the page file as pocsag_check does, OK or NOT_SHOWN, and puts into `text` why fewer batches
 * do not suffice, by the nodes no deeper than `depth`, or which node does not hold. `form` is POCSAG_IN_WORDS or
 * POCSAG_AS_JSON. TEXT_TOO_SMALL: the length and `info` are told. Else: the length is 0. */
POCSAG_CALL uint32_t pocsag_explain(const uint8_t *pages, size_t pages_len,
                                    const uint8_t *cert, size_t cert_len,
                                    uint32_t form, uint32_t depth,
                                    uint8_t *text, size_t text_size, size_t *text_len,
                                    struct pocsag_check_info *info);

/* Puts the listing of the pages of a transmission into `listing`. */
POCSAG_CALL uint32_t pocsag_decode(const uint8_t *tx, size_t tx_len,
                                   uint8_t *listing, size_t listing_size, size_t *listing_len,
                                   struct pocsag_place *place);

/* Puts the listing of what the pager of the address shows of a transmission into `listing`. */
POCSAG_CALL uint32_t pocsag_hear(uint32_t address, const uint8_t *tx, size_t tx_len,
                                 uint8_t *listing, size_t listing_size, size_t *listing_len,
                                 struct pocsag_place *place);

/* Plans the page file as pocsag_plan does, and tells what the plan takes on the air at a rate of 512, 1200 or 2400 bits
 * a second. */
POCSAG_CALL uint32_t pocsag_report(const uint8_t *pages, size_t pages_len,
                                   uint32_t rate, uint32_t limit, uint32_t end, uint32_t always,
                                   struct pocsag_report_info *info);

/* Plans the page file as pocsag_plan does, and fills `info` with the eight frames of the plan: how many pages start in each,
 * how many codewords these have, and how many codewords of the frame are idle. New addresses should go to the frames with the
 * most room. `pocsag report --frames` prints the same numbers, the least room first. */
POCSAG_CALL uint32_t pocsag_frames(const uint8_t *pages, size_t pages_len,
                                   uint32_t limit, uint32_t end, uint32_t always,
                                   struct pocsag_frames_info *info);

/* The same two listings of what is read of `tx` by a reading: POCSAG_PLAIN, POCSAG_REPAIRED or POCSAG_CAPTURED. */
POCSAG_CALL uint32_t pocsag_decode_as(uint32_t reading, const uint8_t *tx, size_t tx_len,
                                      uint8_t *listing, size_t listing_size, size_t *listing_len,
                                      struct pocsag_place *place);

POCSAG_CALL uint32_t pocsag_hear_as(uint32_t reading, uint32_t address, const uint8_t *tx, size_t tx_len,
                                    uint8_t *listing, size_t listing_size, size_t *listing_len,
                                    struct pocsag_place *place);

/* Puts a picture of what is read of `tx` by a reading into `text`. `form` is POCSAG_SHOW_TEXT, POCSAG_SHOW_LIST or
 * POCSAG_SHOW_DRAWING. Text and drawing have the batches from `first` to `last`, counted from 1, of which the first must be there;
 * 1 and UINT64_MAX are all. */
POCSAG_CALL uint32_t pocsag_show(uint32_t reading, const uint8_t *tx, size_t tx_len,
                                 uint32_t form, uint64_t first, uint64_t last,
                                 uint8_t *text, size_t text_size, size_t *text_len,
                                 struct pocsag_place *place);

/* Puts the sound that a transmitter is keyed with into `wav`, a WAV file of 16-bit samples: `rate` is 512, 1200 or 2400 bits a
 * second, `samples` the samples a second, from the rate to 192,000, and `preamble` the bits of preamble in place of the
 * transmission's own, or 0. A 0 has the high level; where `inverted` is not 0, the low one. */
POCSAG_CALL uint32_t pocsag_wav(const uint8_t *tx, size_t tx_len,
                                uint32_t rate, uint32_t samples, uint32_t preamble, uint32_t inverted,
                                uint8_t *wav, size_t wav_size, size_t *wav_len,
                                struct pocsag_place *place);

/* Puts into `tx` the transmission of a page file in which each page stands at the first place for it, in the order of the
 * file, with the open end: what a centre without a planner sends. */
POCSAG_CALL uint32_t pocsag_lay_in_order(const uint8_t *pages, size_t pages_len,
                                         uint8_t *tx, size_t tx_size, size_t *tx_len,
                                         struct pocsag_place *place);

/* Puts the record of a page, with its quotes and its line end, into `row`: at most 2 * message_len + 20 bytes. POCSAG_HEADER
 * and the records of pages behind it are a page file. */
POCSAG_CALL uint32_t pocsag_write_page(uint32_t address, uint32_t kind, const uint8_t *message, size_t message_len,
                                       uint8_t *row, size_t row_size, size_t *row_len,
                                       struct pocsag_place *place);

/* Whether each quote of a page file stands as CSV has it, as `--strict` of the program asks: OK, or QUOTE_OPEN, QUOTE_INSIDE or
 * QUOTE_FOLLOWED. To be called before a call that reads the page file. */
POCSAG_CALL uint32_t pocsag_strict(const uint8_t *pages, size_t pages_len, struct pocsag_place *place);

/* Tells the most batches that last at most so many milliseconds at a rate of 512, 1200 or 2400 bits a second; 0 where one lasts
 * longer. */
POCSAG_CALL uint32_t pocsag_airtime_batches(uint32_t airtime_ms, uint32_t rate, uint32_t *batches);

/* Puts pocsag_status_text of a status, or POCSAG_RELEASE of the library that is linked, into `text`, without a zero byte at its
 * end: for languages that do not read this header. OK or TEXT_TOO_SMALL. */
POCSAG_CALL uint32_t pocsag_text_of_status(uint32_t status, uint8_t *text, size_t text_size, size_t *text_len);

POCSAG_CALL uint32_t pocsag_text_of_version(uint8_t *text, size_t text_size, size_t *text_len);

/* What a status says, in the words of the program; the place says where. It is never null. */
static inline const char *pocsag_status_text(uint32_t status)
{
    switch (status) {
    case POCSAG_OK: return "done";
    case POCSAG_NOT_SHOWN: return "not shown";
    case POCSAG_BAD_END: return "the end must be 0, 1 or 2";
    case POCSAG_OUT_OF_MEMORY: return "out of memory";
    case POCSAG_BAD_RATE: return "the rate must be 512, 1200 or 2400";
    case POCSAG_BAD_LIMIT: return "the limit must be 1 to 1000000";
    case POCSAG_SEARCH_LIMIT: return "search limit reached";
    case POCSAG_TX_TOO_SMALL: return "the buffer of the transmission is too small";
    case POCSAG_CERT_TOO_SMALL: return "the buffer of the certificate is too small";
    case POCSAG_LISTING_TOO_SMALL: return "the buffer of the listing is too small";
    case POCSAG_TEXT_TOO_SMALL: return "the buffer of the text is too small";
    case POCSAG_BAD_FORM: return "the form must be 0 or 1";
    case POCSAG_FIRST_PAGE: return "page 1 needs more batches";
    case POCSAG_REST_TOO_SMALL: return "the buffer of the pages that are left is too small";
    case POCSAG_WHY_TOO_SMALL: return "the buffer of the certificate of one page more is too small";
    case POCSAG_PAGES_TOO_LARGE: return "the file is too large";
    case POCSAG_BAD_HEADER: return "the header must be address,kind,message";
    case POCSAG_FIELD_COUNT: return "three fields are wanted";
    case POCSAG_BAD_ADDRESS: return "bad address";
    case POCSAG_RESERVED_ADDRESS: return "reserved address";
    case POCSAG_BAD_KIND: return "unknown kind";
    case POCSAG_MESSAGE_FOR_TONE: return "a tone page has no message";
    case POCSAG_EMPTY_MESSAGE: return "the message is empty";
    case POCSAG_BAD_CHARACTER: return "bad character";
    case POCSAG_TOO_LONG: return "the message is too long";
    case POCSAG_DUPLICATE_ADDRESS: return "the address is already there";
    case POCSAG_TOO_MANY_PAGES: return "too many pages";
    case POCSAG_BAD_PAYLOAD: return "bad payload";
    case POCSAG_NO_PAGES: return "there are no pages";
    case POCSAG_NOT_CERTIFICATE: return "not a certificate";
    case POCSAG_CERT_VERSION: return "unknown certificate version";
    case POCSAG_CERT_TRUNCATED: return "the certificate is cut short";
    case POCSAG_CERT_TRAILING: return "bytes after the certificate";
    case POCSAG_CERT_BAD_TAG: return "the certificate is malformed";
    case POCSAG_CERT_BAD_FIELD: return "the certificate is malformed";
    case POCSAG_CERT_TOO_DEEP: return "the certificate is too deep";
    case POCSAG_CERT_TOO_MANY: return "the certificate has too many nodes";
    case POCSAG_QUOTE_OPEN: return "the quote is not closed";
    case POCSAG_QUOTE_INSIDE: return "the quote stands inside a field that begins without one";
    case POCSAG_QUOTE_FOLLOWED: return "text follows the closing quote";
    case POCSAG_SHORT_PREAMBLE: return "the preamble is too short";
    case POCSAG_NO_SYNC: return "no synchronisation codeword";
    case POCSAG_BAD_WORD: return "not a codeword";
    case POCSAG_ORPHAN: return "a message without an address";
    case POCSAG_TRUNCATED: return "the transmission is cut short";
    case POCSAG_NO_BATCH: return "the transmission has no batch";
    case POCSAG_CAPTURE_TOO_LARGE: return "the capture is too large";
    case POCSAG_BAD_ROWS: return "there are no such batches";
    case POCSAG_BAD_READING: return "a reading or the form of a picture must be 0, 1 or 2";
    case POCSAG_BAD_SAMPLES: return "the samples a second must be from the rate to 192000";
    case POCSAG_BAD_PREAMBLE: return "the preamble must have 576 bits or more, a multiple of 8";
    case POCSAG_TOO_LONG_FOR_WAV: return "the sound is too long for a WAV file";
    case POCSAG_PAGER_BAD_ADDRESS: return "bad address";
    case POCSAG_PAGER_RESERVED_ADDRESS: return "reserved address";
    default: return "unknown status";
    }
}

/* Sizes of `tx` and `cert` that suffice for the plan of any page file of so many bytes with this node limit.
 * A record has 9 bytes or more, the last one 8, behind a header of 21; there are at most 20,000 pages. A page takes at
 * most 7 codewords for 20 bytes of its record, and in file order waits at most 14 codewords for its frame. The fewest
 * batches are no more than these, one codeword for the end, and one batch where no round is refused. A transmission has
 * 72 bytes and 68 a batch. A certificate has 9 bytes; a node has at most 6 bytes with two children or more, 2 with one,
 * and 3 with none, so that n nodes have at most (9n - 3) / 2; and its nodes are within the limit. */
static inline void pocsag_plan_bound(size_t pages_len, uint32_t limit, size_t *tx_size, size_t *cert_size)
{
    size_t most = pages_len < 268435456u ? pages_len : 268435456u, records = most > 20 ? most - 20 : 0;
    size_t pages = records / 9 < 20000 ? records / 9 : 20000;
    size_t nodes = limit < 1 ? 1 : limit < POCSAG_GREATEST_LIMIT ? limit : POCSAG_GREATEST_LIMIT;
    *tx_size = 72 + 68 * ((records * 7 / 20 + 14 * pages) / 16 + 2);
    *cert_size = 9 + (9 * nodes - 3) / 2;
}

/* The same for a front: `cert_size` suffices for `why` too, and `rest_size` for the pages that are left. Of these a record has
 * at most twice the bytes that it has in the page file, where each is a quote that stands alone, two quotes more, and a line
 * end. */
static inline void pocsag_front_bound(size_t pages_len, uint32_t limit, size_t *tx_size, size_t *cert_size, size_t *rest_size)
{
    size_t most = pages_len < 268435456u ? pages_len : 268435456u, records = most > 20 ? most - 20 : 0;
    pocsag_plan_bound(pages_len, limit, tx_size, cert_size);
    *rest_size = 21 + 2 * records + 3 * (records / 8 < 20000 ? records / 8 : 20000);
}

/* Sizes that suffice for what is told of a transmission of so many bytes, plain or repaired: listings, a picture of each form, and a sound,
 * of which `preamble` may be 0. Of a capture, in which pieces of batches may stand, ask for the length. A batch has 68 bytes and sixteen
 * codewords. A page of one codeword has at most 15 bytes in a listing and 30 in the list of places, and each message codeword more fewer
 * than these. A batch has at most 32 bytes in the text; in the drawing a codeword has at most 250 and a batch 200 more, behind 20,000 for
 * all else. A sound has 44 bytes and two for each sample, in which a batch's time of silence is counted. */
#define POCSAG_LISTING_BOUND(tx_len) (21 + 240 * ((tx_len) / 68))
#define POCSAG_SHOW_TEXT_BOUND(tx_len) (200 + 32 * ((tx_len) / 68))
#define POCSAG_SHOW_LIST_BOUND(tx_len) (48 + 480 * ((tx_len) / 68))
#define POCSAG_SHOW_DRAWING_BOUND(tx_len) (20000 + 4200 * ((tx_len) / 68))
#define POCSAG_WAV_BOUND(tx_len, rate, samples, preamble) \
    (46 + 2 * (8ull * (tx_len) + (preamble) + 544) * (samples) / (rate))

#ifdef __cplusplus
}
#endif

#endif
