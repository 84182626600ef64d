/* ipdr.h: reading IPDR/XDR documents of version 4 from C.
 *
 * Link with target/staticlib/libcollector.a, which `tools/build collector` makes. It is for x86-64, needs no library
 * but C's, allocates nothing, keeps nothing between calls, and may be called from several threads at once.
 *
 * Every call takes any octets and any numbers, comes to an end, and answers 0 where it accepts, else a refusal: one
 * number that holds which fault was met first and where (see ipdr_refusal_number and ipdr_refusal_place). A refusal
 * leaves every octet and every word that was lent as it was.
 *
 * What is lent:
 * - a document: its octets and how many there are. It is read where it stands and never written. At most
 *   IPDR_DOCUMENT_MOST octets; more are refused.
 * - a book, for steps: IPDR_BOOK_SIZE octets or more, in which the layouts met are kept. See ipdr_step.
 * - `out`: eight words of 64 bits, aligned as uint64_t is.
 * No pointer may be null, not even with a length of 0, and what is lent for writing overlaps nothing else that is lent.
 *
 * A call uses at most the IPDR_*_STACK octets of stack below; linked with -Wl,-z,now, the first call too.
 *
 * To check a document:
 *
 *     uint64_t rows, refused = ipdr_whole(doc, doc_len, &rows);
 *     if (refused)
 *         printf("%u at %u\n", ipdr_refusal_number(refused), ipdr_refusal_place(refused));
 *
 * To read one from its first octet, element by element:
 *
 *     static uint8_t book[IPDR_BOOK_SIZE];
 *     uint64_t out[8], refused;
 *     uint32_t at, rows = 0, used = 0;
 *
 *     if ((refused = ipdr_header(doc, doc_len, out)) != 0)
 *         return refused;
 *     at = (uint32_t)out[IPDR_HEADER_NEXT];
 *     do {
 *         if ((refused = ipdr_step(doc, doc_len, at, rows, book, sizeof book, used, out)) != 0)
 *             return refused;
 *         ... the element from at to out[IPDR_STEP_NEXT]: what it is stands in out ...
 *         at = (uint32_t)out[IPDR_STEP_NEXT];
 *         rows = (uint32_t)out[IPDR_STEP_ROWS];
 *         used = (uint32_t)out[IPDR_STEP_USED];
 *     } while (out[IPDR_STEP_KIND] != IPDR_END);
 *
 * Many elements are read faster in runs, of which each checks the book once:
 *
 *     static uint64_t items[IPDR_RUN_MOST];
 *     do {
 *         if ((refused = ipdr_run(doc, doc_len, at, rows, book, sizeof book, used, items, out)) != 0)
 *             return refused;
 *         for (uint64_t i = 0; i < out[IPDR_RUN_COUNT]; i++, at = ipdr_item_next(items[i - 1]))
 *             ... the layout or row from at to ipdr_item_next(items[i]) ...
 *         rows = (uint32_t)out[IPDR_RUN_ROWS];
 *         used = (uint32_t)out[IPDR_RUN_USED];
 *     } while (out[IPDR_RUN_COUNT] != 0);
 *     ... and here stands the end: ipdr_step reads its time ...
 *
 * To read on from the middle, no header is needed: start the same loop with `at` at an element's first octet, `rows`
 * at the count of rows before it, and `book` and `used` as an earlier reading left them, or with layouts put there by
 * hand. Keep at, rows, used and the first `used` octets of the book, and a reading can go on at any later time.
 */
#ifndef IPDR_H
#define IPDR_H

#include <stddef.h>
#include <stdint.h>

#ifdef __cplusplus
extern "C" {
#endif

#define IPDR_DOCUMENT_MOST 1048576 /* octets in a document */
#define IPDR_BOOK_SIZE 32768       /* octets that a lent book has at least, and that layouts may fill */
#define IPDR_BOOK_MOST 64          /* layouts in a book */
#define IPDR_ROWS_MOST 1048576     /* rows passed that a step may be told */
#define IPDR_RUN_MOST 4096         /* layouts and rows that one run passes */

/* Octets of stack that a call uses at most, from its return address on: measured by tests/c/calls.c over every refusal,
 * full books, layouts and rows of 64 values and full runs, and held by the gate. They include the C library's memset,
 * the one function that the archive calls. If the library is bound at its first call, without -z now, that call uses
 * some 3,400 octets more, which the loader takes; what a signal handler uses comes on top as well. */
#define IPDR_HEADER_STACK 384
#define IPDR_STEP_STACK 720
#define IPDR_RUN_STACK 4064
#define IPDR_WHOLE_STACK 4064

/* Refusal numbers, each with the place that comes with it. The first fault in reading order is the one given. */
enum ipdr_refusal {
    IPDR_CUT_SHORT = 1,    /* a field passes the document's end, or the octets that its length states do: the field */
    IPDR_TOO_LONG = 2,     /* the document is over the limit; before all else: 0 */
    IPDR_VERSION = 3,      /* the version is not 4: 0 */
    IPDR_COUNT = 4,        /* over 16 namespaces or service definitions, or 64 attributes: the count */
    IPDR_ID = 5,           /* the document id's length is not 16: that length */
    IPDR_OPEN = 6,         /* the four octets after the header are not FF FF FF FF: there */
    IPDR_KIND = 7,         /* an element's kind is not 1, 2 or 3: the kind */
    IPDR_TYPE = 8,         /* no such type: the type */
    IPDR_USER_TYPE = 9,    /* a user-defined type: the type */
    IPDR_DIFFERS = 10,     /* a layout's number is known with other content: the number */
    IPDR_BOOK_FULL = 11,   /* the book has no room for a new layout: the number */
    IPDR_NO_LAYOUT = 12,   /* a row names a layout that is not in the book: the number */
    IPDR_ROW_LENGTH = 13,  /* a row's stated length is not that of its values: the length */
    IPDR_BOOLEAN = 14,     /* a boolean is not 0 or 1: that octet */
    IPDR_END_COUNT = 15,   /* the end's count is not that of the rows: the count */
    IPDR_AFTER_END = 16,   /* octets follow the end: the first of them */
    IPDR_LENT = 17,        /* steps and runs, after 2: the book is too short, used is over IPDR_BOOK_SIZE, the used octets
                              are not whole valid layouts of different numbers with names in UTF-8, at most
                              IPDR_BOOK_MOST of them, or rows is over IPDR_ROWS_MOST: 0 */
    IPDR_NOT_UTF8 = 24     /* a string of the header, a name or a value of type string is not UTF-8: its length */
};

/* A refusal taken apart. A place is an index into the document: it is at most the document's length or, for a step or
 * a run past the document's end, the place that it was given. */
static inline uint32_t ipdr_refusal_number(uint64_t refused) { return (uint32_t)(refused >> 32); }
static inline uint32_t ipdr_refusal_place(uint64_t refused) { return (uint32_t)(refused & UINT32_MAX); }

/* A time from its word: milliseconds since 1970-01-01 00:00:00 UTC, which may be negative. The word holds the 64 bits
 * of two's complement as they stand in the document, so that a time of -1 comes as UINT64_MAX and (int64_t) of it is
 * -1. For a time from 0 on, the quotient by 1000 is the seconds that gmtime takes, the rest the decimals. */
static inline int64_t ipdr_time(uint64_t bits)
{
    return bits <= INT64_MAX ? (int64_t)bits : -1 - (int64_t)(UINT64_MAX - bits);
}

/* The header check.
 *
 * Answers 0 with these words in `out`, the other four as they were, or a refusal: 1 to 6, 24. */
enum ipdr_header_word {
    IPDR_HEADER_START = 0,      /* the start time in milliseconds, its two's complement bits: ipdr_time */
    IPDR_HEADER_NAMESPACES = 1, /* how many other namespaces, at most 16 */
    IPDR_HEADER_SERVICES = 2,   /* how many service definitions, at most 16 */
    IPDR_HEADER_NEXT = 3        /* the place behind the header, where the first element begins */
};
uint64_t ipdr_header(const uint8_t *doc, size_t doc_len, uint64_t out[8]);

/* One step: the element at a place.
 *
 * at    any place; one at or past the document's end is refused by 1 at that place
 * rows  how many rows stand before it in the document
 * book  the layouts met so far, one after another from its first octet, each as it stands in the document from its
 *       number to its last type, without the kind; book_len is at least IPDR_BOOK_SIZE
 * used  how many octets of the book they fill; 0 for an empty book, whatever it holds
 *
 * Answers 0 with all eight words in `out`, or a refusal: 1, 2, 4, 7 to 17, 24. A layout that the book does not have is
 * put behind its used octets, and then only the new used count and those octets differ; in all else the book is as it
 * was. The header is not looked at, nor whether an element begins at the place. Every step checks the used octets of
 * the book, so a book that was spoilt between two steps is refused. */
enum ipdr_step_word {
    IPDR_STEP_KIND = 0,      /* IPDR_LAYOUT, IPDR_ROW or IPDR_END */
    IPDR_STEP_NEXT = 1,      /* the place behind the element; behind the end it is the document's length */
    IPDR_STEP_ROWS = 2,      /* how many rows are passed now */
    IPDR_STEP_USED = 3,      /* how many octets of the book are used now */
    IPDR_STEP_NUMBER = 4,    /* a layout's number, or that of a row's layout: 32 bits */
    IPDR_STEP_COUNT = 5,     /* how many attributes a layout, or fields a row has, at most 64 */
    IPDR_STEP_STATED = 6,    /* 1 where a row states its length; else, and for a layout and the end, 0 */
    IPDR_STEP_END_COUNT = 4, /* the end: the count of rows in the document */
    IPDR_STEP_END_TIME = 5   /* the end: the end time in milliseconds, its bits as the start time's */
    /* the eighth word is 0 */
};
enum ipdr_kind { IPDR_LAYOUT = 1, IPDR_ROW = 2, IPDR_END = 3 };
uint64_t ipdr_step(const uint8_t *doc, size_t doc_len, uint32_t at, uint32_t rows, uint8_t *book, size_t book_len,
                   uint32_t used, uint64_t out[8]);

/* A run of steps: the layouts and rows from a place on, as ipdr_step reads them one after another.
 *
 * at, rows, book and used are as for ipdr_step. A run is refused exactly where ipdr_step is refused at its first
 * element, by the same number and place: 1, 2, 4, 7 to 17, 24. Else it passes at most IPDR_RUN_MOST items and stops
 * before the end and before an element where the step is refused (by 17 too, behind a row that takes the count over
 * IPDR_ROWS_MOST): the step there, or the next run, says which. The lent items are IPDR_RUN_MOST words; the first
 * IPDR_RUN_COUNT of them are written, the others are as they were.
 *
 * Answers 0 with all eight words in `out`, or that refusal. The book is as the steps would leave it. A run that passes
 * 0 items stands at the end, which is whole and right: its count is that of the rows, and nothing follows it. */
enum ipdr_run_word {
    IPDR_RUN_COUNT = 0, /* how many layouts and rows were passed; 0 where the first element is the end, and only there */
    IPDR_RUN_NEXT = 1,  /* the place behind them */
    IPDR_RUN_ROWS = 2,  /* how many rows are passed now */
    IPDR_RUN_USED = 3   /* how many octets of the book are used now */
    /* the last four words are 0 */
};
uint64_t ipdr_run(const uint8_t *doc, size_t doc_len, uint32_t at, uint32_t rows, uint8_t *book, size_t book_len,
                  uint32_t used, uint64_t items[IPDR_RUN_MOST], uint64_t out[8]);

/* An item taken apart: what it is, the number of the layout or of the row's layout, whether a row states its length,
 * and the place behind it. */
static inline uint32_t ipdr_item_number(uint64_t item) { return (uint32_t)(item >> 32); }
static inline enum ipdr_kind ipdr_item_kind(uint64_t item) { return item >> 31 & 1 ? IPDR_ROW : IPDR_LAYOUT; }
static inline int ipdr_item_stated(uint64_t item) { return (int)(item >> 30 & 1); }
static inline uint32_t ipdr_item_next(uint64_t item) { return (uint32_t)(item & 0x3fffffff); }

/* The whole check: header and elements to the end, over a book of its own, in time linear in the document's length.
 *
 * Answers 0 with the count of rows in `rows`, or the refusal of a reading from the first octet: 1 to 16, 24. */
uint64_t ipdr_whole(const uint8_t *doc, size_t doc_len, uint64_t *rows);

#ifdef __cplusplus
}
#endif

#endif
