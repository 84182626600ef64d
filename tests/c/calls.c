/* Calls each entry point for C on the specimen, on changed specimens and on documents at the limits, and compares the
 * answer and everything lent: on acceptance with what is due, on a refusal with what it was before. Every call is made
 * on a painted stack, and at the end what each entry point used of it is held to the figure in ipdr.h.
 * A line for each check; the last line is `N passed, M failed`. */
#include "painted.h"

#include <stdio.h>
#include <string.h>

#define WORDS 8
#define SPECIMEN_SIZE 137

static const uint8_t specimen[SPECIMEN_SIZE] = {
    0, 0, 0, 4,                                     /* 0: version */
    0, 0, 0, 0,                                     /* 4: recorder */
    0, 0, 0, 0, 0, 1, 0x51, 0x80,                   /* 8: start time */
    0, 0, 0, 0,                                     /* 16: default namespace */
    0, 0, 0, 0,                                     /* 20: count of other namespaces */
    0, 0, 0, 0,                                     /* 24: count of service definitions */
    0, 0, 0, 16,                                    /* 28: document id */
    0, 0, 0, 0, 0, 0, 0, 0, 0, 0, 0, 0, 0, 0, 0, 0, /* 32 */
    0xff, 0xff, 0xff, 0xff,                         /* 48 */
    0, 0, 0, 1, 0, 0, 0, 7,                         /* 52: layout, 56: its number */
    0, 0, 0, 1, 'A',                                /* 60: type name */
    0, 0, 0, 2,                                     /* 65: count of attributes */
    0, 0, 0, 1, 'u', 0, 0, 0, 0x22,                 /* 69: attribute, 74: its type */
    0, 0, 0, 1, 'd', 0, 0, 0, 0x2a,                 /* 78: attribute, 83: its type */
    0, 0, 0, 2, 0, 0, 0, 7,                         /* 87: row, 91: its number */
    0, 0, 0, 5, 0, 0, 0, 10, 0xfe,                  /* 95: its length, 99: its values */
    0, 0, 0, 2, 0, 0, 0, 7,                         /* 104: row, 108: its number */
    0xff, 0xff, 0xff, 0xff, 0, 0, 0, 0, 0x7f,       /* 112: its length, 116: its values */
    0, 0, 0, 3, 0, 0, 0, 2,                         /* 121: end, 125: its count */
    0, 0, 0, 0, 0, 1, 0x51, 0x81,                   /* 129: end time */
};

enum { HEADER_END = 52, LAYOUT_NUMBER = 56, FIRST_ROW = 87, SECOND_ROW = 104, END_AT = 121 };
enum { LAYOUT_SIZE = FIRST_ROW - LAYOUT_NUMBER };

static int passed, failed;

static void check(const char *what, int holds)
{
    printf("%s: %s\n", holds ? "ok" : "FAILED", what);
    if (holds)
        passed++;
    else
        failed++;
}

/* Octets put one after another. */
struct octets {
    size_t len;
    uint8_t at[IPDR_DOCUMENT_MOST + 1];
};

static struct octets made;

static void put(const uint8_t *octets, size_t count)
{
    memcpy(made.at + made.len, octets, count);
    made.len += count;
}

static void put_zeros(size_t count)
{
    memset(made.at + made.len, 0, count);
    made.len += count;
}

static void put_number(uint32_t n)
{
    const uint8_t octets[4] = {(uint8_t)(n >> 24), (uint8_t)(n >> 16), (uint8_t)(n >> 8), (uint8_t)n};
    put(octets, sizeof octets);
}

static void begin(size_t specimen_octets)
{
    made.len = 0;
    put(specimen, specimen_octets);
}

static void put_end(uint32_t count)
{
    put_number(3);
    put_number(count);
    put_zeros(8);
}

/* A layout from its kind on, of a number and a type name of so many octets, with no attributes: 12 octets of a book
 * beside the name's. */
static void put_layout(uint32_t number, size_t name)
{
    put_number(1);
    put_number(number);
    put_number((uint32_t)name);
    put_zeros(name);
    put_number(0);
}

/* A layout of so many attributes without names, of one type. */
static void put_wide_layout(uint32_t number, uint32_t attributes, uint32_t type)
{
    put_number(1);
    put_number(number);
    put_number(0);
    put_number(attributes);
    for (uint32_t i = 0; i < attributes; i++) {
        put_number(0);
        put_number(type);
    }
}

/* A row of zeros, its length unstated. */
static void put_zero_row(uint32_t number, size_t octets)
{
    put_number(2);
    put_number(number);
    put_number(0xffffffff);
    put_zeros(octets);
}

/* The specimen with four octets changed to those of a number. */
static void change(size_t place, uint32_t number)
{
    begin(place);
    put_number(number);
    put(specimen + place + 4, SPECIMEN_SIZE - place - 4);
}

static void change_octet(size_t place, uint8_t octet)
{
    begin(SPECIMEN_SIZE);
    made.at[place] = octet;
}

/* What is lent, and as it was before a call. */
static uint64_t out[WORDS], out_before[WORDS];
static uint8_t book[IPDR_BOOK_SIZE + 100], book_before[sizeof book];
static size_t book_len = IPDR_BOOK_SIZE;

static void lend_words(void)
{
    for (int i = 0; i < WORDS; i++)
        out_before[i] = UINT64_C(0x0123456789abcdef) + (uint64_t)i;
    memcpy(out, out_before, sizeof out);
}

/* A book that begins with these octets; behind them it holds anything. */
static void lend_book(const uint8_t *octets, size_t count)
{
    memset(book_before, 0x55, sizeof book_before);
    memcpy(book_before, octets, count);
    memcpy(book, book_before, sizeof book);
}

static int is_refusal(uint64_t answer, uint32_t number, uint32_t place)
{
    return answer == ((uint64_t)number << 32 | place) && ipdr_refusal_number(answer) == number && ipdr_refusal_place(answer) == place;
}

static int words_are(const uint64_t words[WORDS])
{
    return memcmp(out, words, sizeof out) == 0;
}

static int book_is_as_lent(void)
{
    return memcmp(book, book_before, sizeof book) == 0;
}

static void header_accepts(const char *what, uint64_t start, uint64_t namespaces, uint64_t services, uint64_t next)
{
    lend_words();
    uint64_t words[WORDS] = {start, namespaces, services, next, out[4], out[5], out[6], out[7]};
    check(what, painted_header(made.at, made.len, out) == 0 && words_are(words));
}

static int header_is_refused(uint32_t number, uint32_t place)
{
    lend_words();
    return is_refusal(painted_header(made.at, made.len, out), number, place) && words_are(out_before);
}

static void header_refuses(const char *what, uint32_t number, uint32_t place)
{
    check(what, header_is_refused(number, place));
}

static int whole_is_accepted(uint64_t rows)
{
    uint64_t lent = UINT64_C(0xfedcba9876543210);
    return painted_whole(made.at, made.len, &lent) == 0 && lent == rows;
}

static void whole_accepts(const char *what, uint64_t rows)
{
    check(what, whole_is_accepted(rows));
}

static int whole_is_refused(uint32_t number, uint32_t place)
{
    const uint64_t before = UINT64_C(0xfedcba9876543210);
    uint64_t lent = before;
    return is_refusal(painted_whole(made.at, made.len, &lent), number, place) && lent == before;
}

static void whole_refuses(const char *what, uint32_t number, uint32_t place)
{
    check(what, whole_is_refused(number, place));
}

/* A step that puts no layout into the book. */
static void step_accepts(const char *what, uint32_t at, uint32_t rows, uint32_t used, const uint64_t words[WORDS])
{
    lend_words();
    check(what, painted_step(made.at, made.len, at, rows, book, book_len, used, out) == 0 && words_are(words) && book_is_as_lent());
}

/* A step that puts the document's octets from a place on behind the used ones of the book. */
static void step_learns(const char *what, uint32_t at, uint32_t used, size_t from, size_t count, const uint64_t words[WORDS])
{
    lend_words();
    int accepted = painted_step(made.at, made.len, at, 0, book, book_len, used, out) == 0;
    memcpy(book_before + used, made.at + from, count);
    check(what, accepted && words_are(words) && book_is_as_lent());
}

/* The items of a run, as many words as lent and a few that no call may touch. */
static uint64_t items[IPDR_RUN_MOST + 4];

static void lend_items(void)
{
    for (size_t i = 0; i < IPDR_RUN_MOST + 4; i++)
        items[i] = 0x5555555555555555u;
}

static int items_are_as_lent_from(uint64_t count)
{
    for (size_t i = count; i < IPDR_RUN_MOST + 4; i++)
        if (items[i] != 0x5555555555555555u)
            return 0;
    return 1;
}

/* Whether an item says what a step's words say. */
static int item_is_step(uint64_t item, const uint64_t words[WORDS])
{
    return ipdr_item_kind(item) == words[IPDR_STEP_KIND] && ipdr_item_number(item) == words[IPDR_STEP_NUMBER] &&
           (uint64_t)ipdr_item_stated(item) == words[IPDR_STEP_STATED] && ipdr_item_next(item) == words[IPDR_STEP_NEXT];
}

/* A run passes so many items, each as the step there reads it, and leaves book, places and counts as the steps do;
 * the step behind a run that is not full is the end or refused, and behind one of no items the end. */
static int is_run_of_steps(uint32_t at, uint32_t rows, uint32_t used, uint64_t count)
{
    static uint8_t stepped[sizeof book];
    uint64_t words[WORDS], n = 0;
    lend_words();
    lend_items();
    memcpy(stepped, book, sizeof book);
    int good = painted_run(made.at, made.len, at, rows, book, book_len, used, items, out) == 0;
    while (good && n < count) {
        good = painted_step(made.at, made.len, at, rows, stepped, book_len, used, words) == 0 && item_is_step(items[n], words);
        at = (uint32_t)words[IPDR_STEP_NEXT];
        rows = (uint32_t)words[IPDR_STEP_ROWS];
        used = (uint32_t)words[IPDR_STEP_USED];
        n++;
    }
    const uint64_t due[WORDS] = {count, at, rows, used, 0, 0, 0, 0};
    good = good && words_are(due) && items_are_as_lent_from(count) && memcmp(book, stepped, sizeof book) == 0;
    if (good && count < IPDR_RUN_MOST)
        good = painted_step(made.at, made.len, at, rows, stepped, book_len, used, words) != 0 ? count > 0 : words[IPDR_STEP_KIND] == IPDR_END;
    return good;
}

static void run_is_steps(const char *what, uint32_t at, uint32_t rows, uint32_t used, uint64_t count)
{
    check(what, is_run_of_steps(at, rows, used, count));
}

/* A step is refused, and a run from its place alike; neither changes anything. */
static int step_is_refused(uint32_t at, uint32_t rows, uint32_t used, uint32_t number, uint32_t place)
{
    lend_words();
    lend_items();
    uint64_t step = painted_step(made.at, made.len, at, rows, book, book_len, used, out);
    int stepped = is_refusal(step, number, place) && words_are(out_before) && book_is_as_lent();
    uint64_t run = painted_run(made.at, made.len, at, rows, book, book_len, used, items, out);
    return stepped && run == step && words_are(out_before) && items_are_as_lent_from(0) && book_is_as_lent();
}

static void step_refuses(const char *what, uint32_t at, uint32_t rows, uint32_t used, uint32_t number, uint32_t place)
{
    check(what, step_is_refused(at, rows, used, number, place));
}

static void lend_empty_book(void)
{
    lend_book(specimen, 0);
}

static void lend_specimen_book(void)
{
    lend_book(specimen + LAYOUT_NUMBER, LAYOUT_SIZE);
}

/* What is refused by a step at the header's end over an empty book is refused by the whole check too. */
static void both_refuse(const char *what, uint32_t number, uint32_t place)
{
    lend_empty_book();
    step_refuses(what, HEADER_END, 0, 0, number, place);
    whole_refuses(what, number, place);
}

static void header_and_whole_refuse(const char *what, uint32_t number, uint32_t place)
{
    header_refuses(what, number, place);
    whole_refuses(what, number, place);
}

static const uint64_t layout_words[WORDS] = {IPDR_LAYOUT, FIRST_ROW, 0, LAYOUT_SIZE, 7, 2, 0, 0};
static const uint64_t first_row_words[WORDS] = {IPDR_ROW, SECOND_ROW, 1, LAYOUT_SIZE, 7, 2, 1, 0};
static const uint64_t second_row_words[WORDS] = {IPDR_ROW, END_AT, 2, LAYOUT_SIZE, 7, 2, 0, 0};
static const uint64_t end_words[WORDS] = {IPDR_END, SPECIMEN_SIZE, 2, LAYOUT_SIZE, 2, 86401, 0, 0};

static void try_specimen(void)
{
    begin(SPECIMEN_SIZE);
    header_accepts("header of the specimen", 86400, 0, 0, HEADER_END);
    whole_accepts("whole check of the specimen: two rows", 2);
    lend_empty_book();
    step_learns("step at 52: layout 7 of two attributes, put into the book", HEADER_END, 0, LAYOUT_NUMBER, LAYOUT_SIZE, layout_words);
    step_accepts("step at 52 again: the layout is known", HEADER_END, 0, LAYOUT_SIZE, layout_words);
    step_accepts("step at 87: a stated row", FIRST_ROW, 0, LAYOUT_SIZE, first_row_words);
    step_accepts("step at 104: an unstated row", SECOND_ROW, 1, LAYOUT_SIZE, second_row_words);
    step_accepts("step at 121: the end", END_AT, 2, LAYOUT_SIZE, end_words);
    check("times before 1970 are negative", ipdr_time(UINT64_MAX) == -1 && ipdr_time((uint64_t)INT64_MAX + 1) == INT64_MIN && ipdr_time(86401) == 86401);
}

/* The changes of the specimen that the rules list. */
static void try_changes(void)
{
    begin(0);
    header_and_whole_refuse("empty input: 1 at 0", IPDR_CUT_SHORT, 0);
    change(0, 3);
    header_and_whole_refuse("version 3: 3 at 0", IPDR_VERSION, 0);
    change(125, 3);
    whole_refuses("count 3: 15 at 125", IPDR_END_COUNT, 125);
    begin(SPECIMEN_SIZE);
    put_zeros(1);
    whole_refuses("one octet more: 16 at 137", IPDR_AFTER_END, 137);
    begin(SPECIMEN_SIZE - 1);
    whole_refuses("one octet less: 1 at 129", IPDR_CUT_SHORT, 129);
    change(91, 8);
    whole_refuses("row of layout 8: 12 at 91", IPDR_NO_LAYOUT, 91);
    change(95, 6);
    whole_refuses("length 6: 13 at 95", IPDR_ROW_LENGTH, 95);
    change(95, 4);
    whole_refuses("length 4: 13 at 95", IPDR_ROW_LENGTH, 95);
    change(74, 0x20);
    both_refuse("type 00000020: 8 at 74", IPDR_TYPE, 74);
    change(74, 0x80000022);
    both_refuse("type 80000022: 9 at 74", IPDR_USER_TYPE, 74);
    change(74, 0x922);
    whole_accepts("type 00000922: accepted", 2);

    begin(SPECIMEN_SIZE);
    lend_specimen_book();
    step_accepts("from 104 with the layout in the book: the row", SECOND_ROW, 1, LAYOUT_SIZE, second_row_words);
    step_accepts("from 104 with the layout in the book: the end", END_AT, 2, LAYOUT_SIZE, end_words);
    uint64_t words[WORDS] = {IPDR_ROW, END_AT, 1, LAYOUT_SIZE, 7, 2, 0, 0};
    step_accepts("from 104 with no row passed: the row", SECOND_ROW, 0, LAYOUT_SIZE, words);
    step_refuses("from 104 with no row passed: 15 at 125", END_AT, 1, LAYOUT_SIZE, IPDR_END_COUNT, 125);
    lend_empty_book();
    step_refuses("from 104 with an empty book: 12 at 108", SECOND_ROW, 1, 0, IPDR_NO_LAYOUT, 108);

    /* The second attribute short, the first row's value FFFE: two octets more, so one more in the length. */
    change_octet(86, 0x2c);
    made.len = 95;
    put_number(6);
    put(specimen + 99, 4);
    put((const uint8_t[]){0xff, 0xfe}, 2);
    put(specimen + SECOND_ROW, 16);
    put((const uint8_t[]){0x00, 0x7f}, 2);
    put(specimen + END_AT, 16);
    whole_accepts("the second attribute short: accepted", 2);
    lend_book(made.at + LAYOUT_NUMBER, LAYOUT_SIZE);
    uint64_t short_words[WORDS] = {IPDR_ROW, SECOND_ROW + 1, 1, LAYOUT_SIZE, 7, 2, 1, 0};
    step_accepts("a row with a short", FIRST_ROW, 0, LAYOUT_SIZE, short_words);
}

static void try_header_refusals(void)
{
    for (size_t size = 0; size < HEADER_END; size++) {
        static const uint8_t fields[] = {0, 4, 8, 16, 20, 24, 28, 48, 52};
        uint32_t place = 0;
        for (size_t i = 0; fields[i] <= size; i++)
            place = fields[i];
        char what[60];
        snprintf(what, sizeof what, "header cut after %zu octets: 1 at %u", size, place);
        begin(size);
        header_and_whole_refuse(what, IPDR_CUT_SHORT, place);
    }
    change(4, 0xffffffff);
    header_and_whole_refuse("recorder of FFFFFFFF octets: 1 at 4", IPDR_CUT_SHORT, 4);
    change(16, 0xffffffff);
    header_and_whole_refuse("default namespace of FFFFFFFF octets: 1 at 16", IPDR_CUT_SHORT, 16);
    change(20, 16);
    header_and_whole_refuse("16 namespaces, the second of FFFFFFFF octets: 1 at 48", IPDR_CUT_SHORT, 48);
    change(20, 17);
    header_and_whole_refuse("17 namespaces: 4 at 20", IPDR_COUNT, 20);
    change(24, 17);
    header_and_whole_refuse("17 service definitions: 4 at 24", IPDR_COUNT, 24);
    change(28, 15);
    header_and_whole_refuse("document id of 15 octets: 5 at 28", IPDR_ID, 28);
    change(48, 0xfffffffe);
    header_and_whole_refuse("FFFFFFFE behind the header: 6 at 48", IPDR_OPEN, 48);

    begin(20);
    put_number(16);
    put_zeros(16 * 8);
    put_number(16);
    put_zeros(16 * 4);
    put(specimen + 28, HEADER_END - 28);
    put_end(0);
    header_accepts("header with both lists full", 86400, 16, 16, HEADER_END + 16 * 8 + 16 * 4);
    whole_accepts("a document with both lists full and no rows", 0);
    change(8, 0x80000000);
    header_accepts("header with a start time before 1970", 0x8000000000015180, 0, 0, HEADER_END);
}

/* Times of which all bits are set: the words have them as they stand, and cast they are -1. */
static void try_times(void)
{
    begin(8);
    put_number(0xffffffff);
    put_number(0xffffffff);
    put(specimen + 16, 129 - 16);
    put_number(0xffffffff);
    put_number(0xffffffff);
    header_accepts("header with start time -1", UINT64_MAX, 0, 0, HEADER_END);
    check("the start time's word is -1 when it is cast", (int64_t)out[IPDR_HEADER_START] == -1 && ipdr_time(out[IPDR_HEADER_START]) == -1);
    lend_specimen_book();
    uint64_t words[WORDS] = {IPDR_END, SPECIMEN_SIZE, 2, LAYOUT_SIZE, 2, UINT64_MAX, 0, 0};
    step_accepts("end with time -1", END_AT, 2, LAYOUT_SIZE, words);
    check("the end time's word is -1 when it is cast", (int64_t)out[IPDR_STEP_END_TIME] == -1 && ipdr_time(out[IPDR_STEP_END_TIME]) == -1);
}

static void try_element_refusals(void)
{
    change(HEADER_END, 4);
    both_refuse("kind 4: 7 at 52", IPDR_KIND, HEADER_END);
    change(HEADER_END, 0);
    both_refuse("kind 0: 7 at 52", IPDR_KIND, HEADER_END);
    begin(HEADER_END + 3);
    both_refuse("kind cut short: 1 at 52", IPDR_CUT_SHORT, HEADER_END);
    change(60, 0xffffffff);
    both_refuse("type name of FFFFFFFF octets: 1 at 60", IPDR_CUT_SHORT, 60);
    change(65, 65);
    both_refuse("65 attributes: 4 at 65", IPDR_COUNT, 65);
    change(74, 0x10022);
    both_refuse("type 00010022: 8 at 74", IPDR_TYPE, 74);
    change(74, 0x2e);
    both_refuse("type 0000002e: 8 at 74", IPDR_TYPE, 74);

    begin(FIRST_ROW);
    put(specimen + HEADER_END, FIRST_ROW - HEADER_END);
    put_end(0);
    whole_accepts("a layout twice: adds nothing", 0);
    made.at[FIRST_ROW + 12] = 'B';
    whole_refuses("a layout of a known number with another name: 10 at 91", IPDR_DIFFERS, 91);
    lend_specimen_book();
    step_refuses("a layout of a known number with another name: 10 at 91", FIRST_ROW, 0, LAYOUT_SIZE, IPDR_DIFFERS, 91);

    begin(SPECIMEN_SIZE);
    lend_specimen_book();
    change(91, 8);
    step_refuses("row of layout 8: 12 at 91", FIRST_ROW, 0, LAYOUT_SIZE, IPDR_NO_LAYOUT, 91);
    change(95, 6);
    step_refuses("length 6: 13 at 95", FIRST_ROW, 0, LAYOUT_SIZE, IPDR_ROW_LENGTH, 95);
    change(95, 4);
    step_refuses("length 4: 13 at 95", FIRST_ROW, 0, LAYOUT_SIZE, IPDR_ROW_LENGTH, 95);
    change(95, 0xfffffffe);
    step_refuses("length FFFFFFFE: 1 at 95", FIRST_ROW, 0, LAYOUT_SIZE, IPDR_CUT_SHORT, 95);
    begin(98);
    step_refuses("length cut short: 1 at 95", FIRST_ROW, 0, LAYOUT_SIZE, IPDR_CUT_SHORT, 95);
    begin(120);
    step_refuses("value of an unstated row cut short: 1 at 120", SECOND_ROW, 1, LAYOUT_SIZE, IPDR_CUT_SHORT, 120);

    /* The second attribute boolean: FE is none, and 7F of the second row neither. */
    change_octet(86, 0x29);
    whole_refuses("boolean FE: 14 at 103", IPDR_BOOLEAN, 103);
    lend_book(made.at + LAYOUT_NUMBER, LAYOUT_SIZE);
    step_refuses("boolean FE: 14 at 103", FIRST_ROW, 0, LAYOUT_SIZE, IPDR_BOOLEAN, 103);
    step_refuses("boolean 7F: 14 at 120", SECOND_ROW, 1, LAYOUT_SIZE, IPDR_BOOLEAN, 120);

    /* The second attribute a string: FF FF FF FF before it is a length. */
    change_octet(86, 0x28);
    made.len = 120;
    put_number(0xffffffff);
    put_end(1);
    lend_book(made.at + LAYOUT_NUMBER, LAYOUT_SIZE);
    step_refuses("string of FFFFFFFF octets: 1 at 120", SECOND_ROW, 0, LAYOUT_SIZE, IPDR_CUT_SHORT, 120);

    lend_specimen_book();
    change(125, 3);
    step_refuses("count 3: 15 at 125", END_AT, 2, LAYOUT_SIZE, IPDR_END_COUNT, 125);
    begin(SPECIMEN_SIZE - 1);
    step_refuses("end time cut short: 1 at 129", END_AT, 2, LAYOUT_SIZE, IPDR_CUT_SHORT, 129);
    begin(SPECIMEN_SIZE);
    put_zeros(1);
    step_refuses("one octet more: 16 at 137", END_AT, 2, LAYOUT_SIZE, IPDR_AFTER_END, 137);
}

static void try_places(void)
{
    begin(SPECIMEN_SIZE);
    lend_specimen_book();
    step_refuses("a step at the document's end: 1 there", SPECIMEN_SIZE, 2, LAYOUT_SIZE, IPDR_CUT_SHORT, SPECIMEN_SIZE);
    step_refuses("a step past the document's end: 1 there", 2000000, 2, LAYOUT_SIZE, IPDR_CUT_SHORT, 2000000);
    step_refuses("a step at the last place of all: 1 there", UINT32_MAX, 2, LAYOUT_SIZE, IPDR_CUT_SHORT, UINT32_MAX);
    step_refuses("a step at 0: 7 there", 0, 0, LAYOUT_SIZE, IPDR_KIND, 0);
    uint64_t words[WORDS] = {IPDR_ROW, SECOND_ROW, IPDR_ROWS_MOST + 1, LAYOUT_SIZE, 7, 2, 1, 0};
    step_accepts("a row with 1,048,576 rows passed", FIRST_ROW, IPDR_ROWS_MOST, LAYOUT_SIZE, words);
}

static void try_lent(void)
{
    begin(SPECIMEN_SIZE);
    lend_specimen_book();
    step_refuses("1,048,577 rows passed: 17", FIRST_ROW, IPDR_ROWS_MOST + 1, LAYOUT_SIZE, IPDR_LENT, 0);
    step_refuses("all rows passed that a number holds: 17", FIRST_ROW, UINT32_MAX, LAYOUT_SIZE, IPDR_LENT, 0);
    step_refuses("one octet of the book's layout not used: 17", FIRST_ROW, 0, LAYOUT_SIZE - 1, IPDR_LENT, 0);
    step_refuses("one octet behind the book's layout used: 17", FIRST_ROW, 0, LAYOUT_SIZE + 1, IPDR_LENT, 0);
    step_refuses("32,769 octets used: 17", FIRST_ROW, 0, IPDR_BOOK_SIZE + 1, IPDR_LENT, 0);
    step_refuses("all octets used that a number holds: 17", FIRST_ROW, 0, UINT32_MAX, IPDR_LENT, 0);
    step_refuses("17 comes before the place", UINT32_MAX, UINT32_MAX, 1, IPDR_LENT, 0);
    book_len = IPDR_BOOK_SIZE - 1;
    step_refuses("a book of 32,767 octets: 17", FIRST_ROW, 0, LAYOUT_SIZE, IPDR_LENT, 0);
    book_len = 0;
    step_refuses("no book: 17", FIRST_ROW, 0, 0, IPDR_LENT, 0);
    book_len = sizeof book;
    step_accepts("a longer book", FIRST_ROW, 0, LAYOUT_SIZE, first_row_words);
    book_len = IPDR_BOOK_SIZE;

    begin(0);
    put(specimen + LAYOUT_NUMBER, LAYOUT_SIZE);
    put(specimen + LAYOUT_NUMBER, LAYOUT_SIZE);
    lend_book(made.at, made.len);
    begin(SPECIMEN_SIZE);
    step_refuses("a book with a number twice: 17", FIRST_ROW, 0, 2 * LAYOUT_SIZE, IPDR_LENT, 0);
    change_octet(77, 0x20);
    lend_book(made.at + LAYOUT_NUMBER, LAYOUT_SIZE);
    begin(SPECIMEN_SIZE);
    step_refuses("a book with no such type: 17", FIRST_ROW, 0, LAYOUT_SIZE, IPDR_LENT, 0);
}

static void try_limits(void)
{
    begin(SPECIMEN_SIZE);
    put_zeros(IPDR_DOCUMENT_MOST - SPECIMEN_SIZE);
    header_accepts("header of a document of 1,048,576 octets", 86400, 0, 0, HEADER_END);
    whole_refuses("a document of 1,048,576 octets: 16 at 137", IPDR_AFTER_END, 137);
    put_zeros(1);
    header_and_whole_refuse("a document of 1,048,577 octets: 2 at 0", IPDR_TOO_LONG, 0);
    lend_empty_book();
    step_refuses("a step in 1,048,577 octets: 2 at 0", HEADER_END, 0, 0, IPDR_TOO_LONG, 0);
    step_refuses("2 comes before 17", HEADER_END, UINT32_MAX, UINT32_MAX, IPDR_TOO_LONG, 0);

    begin(HEADER_END);
    put_end(0);
    check("header and end alone are 68 octets", made.len == 68);
    whole_accepts("header and end alone", 0);

    begin(HEADER_END);
    for (uint32_t n = 0; n < IPDR_BOOK_MOST; n++)
        put_layout(n, 0);
    put_end(0);
    whole_accepts("64 layouts", 0);
    made.len -= 16;
    uint32_t at = (uint32_t)made.len;
    put_layout(IPDR_BOOK_MOST, 0);
    put_end(0);
    whole_refuses("65 layouts: 11 at the last one's number", IPDR_BOOK_FULL, at + 4);
    lend_empty_book();
    for (uint32_t n = 0; n < IPDR_BOOK_MOST; n++)
        memcpy(book + n * 12, made.at + HEADER_END + n * 16 + 4, 12);
    memcpy(book_before, book, sizeof book);
    step_refuses("the 65th layout: 11 at its number", at, 0, IPDR_BOOK_MOST * 12, IPDR_BOOK_FULL, at + 4);
    memcpy(book + IPDR_BOOK_MOST * 12, made.at + at + 4, 12);
    memcpy(book_before, book, sizeof book);
    step_refuses("a book of 65 layouts: 17", at, 0, (IPDR_BOOK_MOST + 1) * 12, IPDR_LENT, 0);

    /* Two layouts that fill the book, then the second with a name of one octet more. */
    for (size_t more = 0; more < 2; more++) {
        size_t second = HEADER_END + 16 + 20000;
        begin(HEADER_END);
        put_layout(1, 20000);
        put_layout(2, IPDR_BOOK_SIZE - 20000 - 24 + more);
        put_end(0);
        lend_book(made.at + LAYOUT_NUMBER, 12 + 20000);
        if (more) {
            whole_refuses("layouts of 32,769 octets: 11 at the last one's number", IPDR_BOOK_FULL, (uint32_t)second + 4);
            step_refuses("a layout that does not fit the book: 11 at its number", (uint32_t)second, 0, 12 + 20000, IPDR_BOOK_FULL, (uint32_t)second + 4);
        } else {
            uint64_t words[WORDS] = {IPDR_LAYOUT, made.len - 16, 0, IPDR_BOOK_SIZE, 2, 0, 0, 0};
            whole_accepts("layouts of 32,768 octets", 0);
            step_learns("a layout that fills the book", (uint32_t)second, 12 + 20000, second + 4, IPDR_BOOK_SIZE - 20000 - 12, words);
        }
    }
}

static void try_runs(void)
{
    begin(SPECIMEN_SIZE);
    lend_empty_book();
    run_is_steps("a run over the specimen", HEADER_END, 0, 0, 3);
    lend_specimen_book();
    run_is_steps("a run from its second row", SECOND_ROW, 1, LAYOUT_SIZE, 1);
    run_is_steps("a run at its end", END_AT, 2, LAYOUT_SIZE, 0);
    run_is_steps("a run that reaches the most rows", FIRST_ROW, IPDR_ROWS_MOST, LAYOUT_SIZE, 1);
    lend_specimen_book();
    step_refuses("inside an element: 7 there", FIRST_ROW + 1, 0, LAYOUT_SIZE, IPDR_KIND, FIRST_ROW + 1);
    change_octet(64, 'B');
    step_refuses("a layout of a known number with another name: 10 at 56", HEADER_END, 0, LAYOUT_SIZE, IPDR_DIFFERS, LAYOUT_NUMBER);

    begin(SPECIMEN_SIZE);
    lend_empty_book();
    step_refuses("a row of no layout: 12 at 91", FIRST_ROW, 0, 0, IPDR_NO_LAYOUT, 91);
    change(SECOND_ROW + 4, 8);
    run_is_steps("a run that meets a row of no layout", HEADER_END, 0, 0, 2);
    lend_specimen_book();
    step_refuses("behind that run: 12 at 108", SECOND_ROW, 1, LAYOUT_SIZE, IPDR_NO_LAYOUT, 108);
    begin(SECOND_ROW - 1);
    lend_empty_book();
    run_is_steps("a run that is cut short", HEADER_END, 0, 0, 1);

    /* More rows than a run passes, the layout once more among them. */
    begin(FIRST_ROW);
    for (uint32_t i = 0; i < 5000; i++) {
        put(specimen + (i % 2 ? SECOND_ROW : FIRST_ROW), 17);
        if (i == 3000)
            put(specimen + HEADER_END, FIRST_ROW - HEADER_END);
    }
    put_end(5000);
    lend_empty_book();
    run_is_steps("a full run", HEADER_END, 0, 0, IPDR_RUN_MOST);
    run_is_steps("the run behind it", (uint32_t)out[IPDR_RUN_NEXT], (uint32_t)out[IPDR_RUN_ROWS], (uint32_t)out[IPDR_RUN_USED], 5002 - IPDR_RUN_MOST);
}

/* Layouts and rows as large as they come: a layout of 64 attributes of each type, then a book of 64 layouts of 62
 * strings, more than are read by plans, each with two rows, the last of them cut short. */
static void try_large(void)
{
    for (uint32_t type = 0x21; type <= 0x2d; type++) {
        static const uint8_t widths[] = {4, 4, 8, 8, 4, 8, 4, 4, 1, 1, 1, 2, 2};
        char what[40];
        snprintf(what, sizeof what, "64 attributes of type %x", type);
        begin(HEADER_END);
        put_wide_layout(type, 64, type);
        put_zero_row(type, 64 * widths[type - 0x21]);
        put_zero_row(type, 64 * widths[type - 0x21]);
        put_end(2);
        whole_accepts(what, 2);
        lend_empty_book();
        run_is_steps(what, HEADER_END, 0, 0, 3);
    }

    begin(HEADER_END);
    for (uint32_t n = 0; n < IPDR_BOOK_MOST; n++)
        put_wide_layout(n, 62, 0x28);
    uint32_t rows_at = (uint32_t)made.len;
    for (uint32_t n = 0; n < 2 * IPDR_BOOK_MOST; n++)
        put_zero_row(n % IPDR_BOOK_MOST, 62 * 4);
    uint32_t end_at = (uint32_t)made.len;
    put_end(2 * IPDR_BOOK_MOST);
    whole_accepts("a full book of 62 strings each", 2 * IPDR_BOOK_MOST);
    lend_empty_book();
    run_is_steps("a run over them", HEADER_END, 0, 0, 3 * IPDR_BOOK_MOST);
    uint32_t used = (uint32_t)out[IPDR_RUN_USED];
    check("a full book uses 508 octets for each layout", used == 508 * IPDR_BOOK_MOST);
    run_is_steps("a run over its rows", rows_at, 0, used, 2 * IPDR_BOOK_MOST);
    memcpy(book_before, book, sizeof book);
    made.len = end_at - 1;
    uint32_t cut = end_at - 4;
    whole_refuses("the last row cut short: 1 at its last value", IPDR_CUT_SHORT, cut);
    step_refuses("the last row cut short: 1 at its last value", end_at - 12 - 62 * 4, 0, used, IPDR_CUT_SHORT, cut);
}

/* Rows under layouts that have plans and layouts that have none, each once unstated and once stated: 19 layouts of 62
 * strings, of which 12 have plans; one of so many strings, whose plan fits up to 43; one of numbers and one of booleans,
 * which always have plans; and one of 60 booleans, which has none. */
static void try_plans(uint32_t strings)
{
    enum { STRINGS = 19, NUMBERS, BOOLEANS, MANY_BOOLEANS, LAYOUTS };
    char what[60];
    begin(HEADER_END);
    for (uint32_t n = 0; n < STRINGS; n++)
        put_wide_layout(n, 62, 0x28);
    put_wide_layout(STRINGS, strings, 0x28);
    put_wide_layout(NUMBERS, 3, 0x22);
    put_wide_layout(BOOLEANS, 3, 0x29);
    put_wide_layout(MANY_BOOLEANS, 60, 0x29);
    uint32_t last_row = 0;
    for (uint32_t stated = 0; stated < 2; stated++)
        for (uint32_t n = 0; n < LAYOUTS; n++) {
            uint32_t size = n < STRINGS ? 62 * 4 : n == STRINGS ? strings * 4 : n == NUMBERS ? 12 : n == BOOLEANS ? 3 : 60;
            last_row = (uint32_t)made.len;
            put_number(2);
            put_number(n);
            put_number(stated ? size : 0xffffffff);
            put_zeros(size);
        }
    put_end(2 * LAYOUTS);
    snprintf(what, sizeof what, "layouts with plans and without, one of %u strings", strings);
    whole_accepts(what, 2 * LAYOUTS);
    lend_empty_book();
    run_is_steps(what, HEADER_END, 0, 0, 3 * LAYOUTS);
    uint32_t used = (uint32_t)out[IPDR_RUN_USED];
    memcpy(book_before, book, sizeof book);
    made.at[last_row + 14] = 2;
    whole_refuses("a boolean of 2 in the last row: 14 there", IPDR_BOOLEAN, last_row + 14);
    step_refuses("a boolean of 2 in the last row: 14 there", last_row, 0, used, IPDR_BOOLEAN, last_row + 14);
    made.at[last_row + 14] = 0;
    made.at[last_row + 11]++;
    whole_refuses("a length of one more in the last row: 13 there", IPDR_ROW_LENGTH, last_row + 8);
    step_refuses("a length of one more in the last row: 13 there", last_row, 0, used, IPDR_ROW_LENGTH, last_row + 8);
}

/* Where a string may stand, in the order of reading: in the header, in a layout, and in a row of unstated and a row of
 * stated length, each of which has a string of a derived type, a boolean, a hexBinary and another string. */
enum slot {
    RECORDER, DEFAULT_NAMESPACE, URI, SHORT_NAME, SERVICE,
    TYPE_NAME, FIRST_NAME, LAST_NAME,
    UNSTATED_FIRST, UNSTATED_LAST, STATED_FIRST, STATED_LAST,
    SLOTS
};
static const char *const slot_names[SLOTS] = {
    "recorder", "default namespace", "URI", "short name", "service definition", "type name", "first attribute's name",
    "last attribute's name", "first value, unstated", "last value, unstated", "first value, stated", "last value, stated",
};

/* A string of any octets. */
struct string {
    size_t size;
    const char *octets;
};
#define STRING(octets) {sizeof(octets) - 1, octets}
static const struct string plain = STRING("ok"), bad = STRING("Jos\xe9");

/* The document that is spelt, one string of which was chosen. */
static struct {
    enum slot slot;
    struct string chosen;
    uint32_t lengths[SLOTS]; /* the place of each string's length */
    uint32_t layout, rows[2], end;
} spelt;

static struct string string_in(enum slot slot)
{
    return slot == spelt.slot ? spelt.chosen : plain;
}

static void put_string(enum slot slot)
{
    struct string string = string_in(slot);
    spelt.lengths[slot] = (uint32_t)made.len;
    put_number((uint32_t)string.size);
    put((const uint8_t *)string.octets, string.size);
}

static const uint8_t no_utf8[16] = {0xff, 0xfe, 0xc3, 0x28, 0x80, 0xff, 0xff, 0xff, 0xff, 0xff, 0xff, 0xff, 0xff, 0xff, 0xff, 0xe9};
enum { TRUTH_AND_HEX = 1 + 4 + sizeof no_utf8 };

static void put_spelt_row(int stated)
{
    enum slot first = stated ? STATED_FIRST : UNSTATED_FIRST, last = stated ? STATED_LAST : UNSTATED_LAST;
    spelt.rows[stated] = (uint32_t)made.len;
    put_number(2);
    put_number(7);
    put_number(stated ? (uint32_t)(4 + string_in(first).size + TRUTH_AND_HEX + 4 + string_in(last).size) : 0xffffffff);
    put_string(first);
    put((const uint8_t[]){1}, 1);
    put_number(sizeof no_utf8);
    put(no_utf8, sizeof no_utf8);
    put_string(last);
}

/* A document with a string in every slot, this one in that one. Its id and each hexBinary are no UTF-8. */
static void spell(enum slot slot, struct string string)
{
    spelt.slot = slot;
    spelt.chosen = string;
    begin(4);
    put_string(RECORDER);
    put(specimen + 8, 8);
    put_string(DEFAULT_NAMESPACE);
    put_number(1);
    put_string(URI);
    put_string(SHORT_NAME);
    put_number(1);
    put_string(SERVICE);
    put_number(sizeof no_utf8);
    put(no_utf8, sizeof no_utf8);
    put_number(0xffffffff);
    spelt.layout = (uint32_t)made.len;
    put_number(1);
    put_number(7);
    put_string(TYPE_NAME);
    put_number(4);
    put_string(FIRST_NAME);
    put_number(0x0528);
    put_number(0);
    put_number(0x29);
    put_number(0);
    put_number(0x27);
    put_string(LAST_NAME);
    put_number(0x28);
    put_spelt_row(0);
    put_spelt_row(1);
    spelt.end = (uint32_t)made.len;
    put_end(2);
}

static void set_number(size_t place, uint32_t number)
{
    size_t len = made.len;
    made.len = place;
    put_number(number);
    made.len = len;
}

/* The layout of the spelt document as a book holds it. */
static uint32_t lend_spelt_book(void)
{
    uint32_t used = spelt.rows[0] - spelt.layout - 4;
    lend_book(made.at + spelt.layout + 4, used);
    return used;
}

static int header_is_accepted(void)
{
    lend_words();
    return painted_header(made.at, made.len, out) == 0 && out[IPDR_HEADER_NEXT] == spelt.layout;
}

/* Every call accepts the spelt document. */
static int is_accepted(void)
{
    lend_empty_book();
    return header_is_accepted() && whole_is_accepted(2) && is_run_of_steps(spelt.layout, 0, 0, 3);
}

/* The whole check gives this refusal, and so does the call that reads the chosen string; calls before it accept. */
static int is_refused(uint32_t number, uint32_t place)
{
    if (!whole_is_refused(number, place))
        return 0;
    if (spelt.slot <= SERVICE)
        return header_is_refused(number, place);
    int good = header_is_accepted();
    lend_empty_book();
    if (spelt.slot <= LAST_NAME)
        return good && step_is_refused(spelt.layout, 0, 0, number, place);
    int stated = spelt.slot >= STATED_FIRST;
    good = good && is_run_of_steps(spelt.layout, 0, 0, (uint64_t)stated + 1);
    return step_is_refused(spelt.rows[stated], 0, lend_spelt_book(), number, place) && good;
}

static void spelt_is_refused(const char *what, uint32_t number, uint32_t place)
{
    char line[160];
    snprintf(line, sizeof line, "%s: %u at %u", what, number, place);
    check(line, is_refused(number, place));
}

/* A line for a string in every slot, which names the first slot where the answer is another. */
static void in_every_slot(struct string string, int good)
{
    char line[160];
    int len = snprintf(line, sizeof line, "string");
    for (size_t i = 0; i < string.size; i++)
        len += snprintf(line + len, sizeof line - (size_t)len, " %02X", (uint8_t)string.octets[i]);
    int slot = 0;
    for (; slot < SLOTS; slot++) {
        spell((enum slot)slot, string);
        if (!(good ? is_accepted() : is_refused(IPDR_NOT_UTF8, spelt.lengths[slot])))
            break;
    }
    snprintf(line + len, sizeof line - (size_t)len, ": %s%s%s", good ? "accepted in every place" : "24 at its length in every place",
             slot < SLOTS ? ", but not as a " : "", slot < SLOTS ? slot_names[slot] : "");
    check(line, slot == SLOTS);
}

/* Strings of every form, and what is no string, in every place; the borders of each range of RFC 3629. */
static void try_strings(void)
{
    static const struct string good[] = {
        STRING(""), STRING("\0"), STRING("\x7f"), STRING("\xc2\x80"), STRING("\xdf\xbf"), STRING("\xe0\xa0\x80"),
        STRING("\xe0\xbf\xbf"), STRING("\xe1\x80\x80"), STRING("\xec\xbf\xbf"), STRING("\xed\x80\x80"), STRING("\xed\x9f\xbf"),
        STRING("\xee\x80\x80"), STRING("\xef\xbb\xbf"), STRING("\xef\xbf\xbd"), STRING("\xef\xbf\xbe"), STRING("\xef\xbf\xbf"),
        STRING("\xf0\x90\x80\x80"), STRING("\xf0\xbf\xbf\xbf"), STRING("\xf1\x80\x80\x80"), STRING("\xf3\xbf\xbf\xbf"),
        STRING("\xf4\x80\x80\x80"), STRING("\xf4\x8f\xbf\xbf"), STRING("Jos\xc3\xa9"), STRING("\xd0\x96\xd1\x83\xd0\xba"),
        STRING("\xe6\x9d\xb1\xe4\xba\xac"), STRING("ok \xf0\x9f\x98\x80!"),
    };
    static const struct string faults[] = {
        STRING("\x80"), STRING("\xbf"), STRING("a\x80"), STRING("\xc2\x80\x80"),                           /* tails alone */
        STRING("\xc0\x80"), STRING("\xc1\xbf"), STRING("\xe0\x80\x80"), STRING("\xe0\x9f\xbf"),             /* longer than need be */
        STRING("\xf0\x80\x80\x80"), STRING("\xf0\x8f\xbf\xbf"),
        STRING("\xed\xa0\x80"), STRING("\xed\xbf\xbf"), STRING("\xed\xa0\xbd\xed\xb8\x80"),               /* surrogates */
        STRING("\xf4\x90\x80\x80"), STRING("\xf5\x80\x80\x80"), STRING("\xf8\x88\x80\x80\x80"),             /* past the last */
        STRING("\xfe"), STRING("\xff"),
        STRING("\xc2"), STRING("\xdf"), STRING("\xe0\xa0"), STRING("\xe1\x80"), STRING("\xef\xbf"), STRING("\xf0"), /* cut */
        STRING("\xf0\x90"), STRING("\xf1\x80\x80"), STRING("\xf4\x8f\xbf"),
        STRING("\xc2" "A"), STRING("\xe1\x80" "A"), STRING("\xf1\x80\x80" "A"), STRING("\xc2\xc2\x80"),       /* interrupted */
        STRING("\xe1" "A\x80"), STRING("\xf0\x90" "A\x80"),
        STRING("Jos\xe9"), STRING("\xe9t\xe9"),                                                           /* an old code */
    };
    for (size_t i = 0; i < sizeof good / sizeof good[0]; i++)
        in_every_slot(good[i], 1);
    for (size_t i = 0; i < sizeof faults / sizeof faults[0]; i++)
        in_every_slot(faults[i], 0);
}

/* What comes before a bad string and what behind it, in the header. */
static void try_bad_headers(void)
{
    spell(RECORDER, bad);
    made.len = 8 + bad.size;
    spelt_is_refused("a bad recorder and nothing more", IPDR_NOT_UTF8, 4);
    made.len--;
    spelt_is_refused("a bad recorder, its last octet missing", IPDR_CUT_SHORT, 4);
    spell(RECORDER, bad);
    set_number(0, 3);
    spelt_is_refused("a bad recorder of version 3", IPDR_VERSION, 0);
    spell(RECORDER, bad);
    set_number(4, 0xffffffff);
    spelt_is_refused("a bad recorder of FFFFFFFF octets", IPDR_CUT_SHORT, 4);
    spell(RECORDER, (struct string)STRING("\xc3"));
    made.at[9] = 0xa9;
    spelt_is_refused("a recorder that ends inside a character, the start time begins with its rest", IPDR_NOT_UTF8, 4);
    spell(DEFAULT_NAMESPACE, bad);
    set_number(spelt.lengths[URI] - 4, 17);
    spelt_is_refused("a bad default namespace before 17 others", IPDR_NOT_UTF8, spelt.lengths[DEFAULT_NAMESPACE]);
    spell(URI, bad);
    set_number(spelt.lengths[URI] - 4, 17);
    spelt_is_refused("17 namespaces, the first URI bad", IPDR_COUNT, spelt.lengths[URI] - 4);
    spell(SERVICE, bad);
    set_number(spelt.lengths[SERVICE] + 4 + bad.size, 15);
    spelt_is_refused("a bad service definition before an id of 15 octets", IPDR_NOT_UTF8, spelt.lengths[SERVICE]);
}

static void try_bad_names(void)
{
    spell(TYPE_NAME, bad);
    uint32_t name = spelt.lengths[TYPE_NAME];
    set_number(name + 4 + bad.size, 65);
    spelt_is_refused("a bad type name before 65 attributes", IPDR_NOT_UTF8, name);
    made.len = name + 4 + bad.size;
    spelt_is_refused("a bad type name and nothing more", IPDR_NOT_UTF8, name);
    made.len--;
    spelt_is_refused("a bad type name, its last octet missing", IPDR_CUT_SHORT, name);

    spell(FIRST_NAME, bad);
    name = spelt.lengths[FIRST_NAME];
    set_number(name + 4 + bad.size, 0x20);
    spelt_is_refused("a bad attribute name before no type", IPDR_NOT_UTF8, name);
    set_number(name + 4 + bad.size, 0x80000028);
    spelt_is_refused("a bad attribute name before a user-defined type", IPDR_NOT_UTF8, name);
    spell(LAST_NAME, bad);
    set_number(spelt.lengths[LAST_NAME] - 4, 0x20);
    spelt_is_refused("no type before a bad attribute name", IPDR_TYPE, spelt.lengths[LAST_NAME] - 4);

    spell(TYPE_NAME, plain);
    lend_specimen_book();
    step_refuses("a layout of a known number with other content: 10", spelt.layout, 0, LAYOUT_SIZE, IPDR_DIFFERS, spelt.layout + 4);
    static const enum slot names[] = {TYPE_NAME, FIRST_NAME, LAST_NAME};
    for (size_t i = 0; i < sizeof names / sizeof names[0]; i++) {
        spell(names[i], bad);
        step_refuses("the same with a bad name: 24 at its length", spelt.layout, 0, LAYOUT_SIZE, IPDR_NOT_UTF8, spelt.lengths[names[i]]);
    }

    begin(HEADER_END);
    for (uint32_t n = 0; n < IPDR_BOOK_MOST; n++)
        put_layout(n, 0);
    uint32_t at = (uint32_t)made.len;
    put_layout(IPDR_BOOK_MOST, 1);
    made.at[at + 12] = 0x80;
    put_end(0);
    whole_refuses("a bad name in a full book: 24 at its length", IPDR_NOT_UTF8, at + 8);
    lend_empty_book();
    for (uint32_t n = 0; n < IPDR_BOOK_MOST; n++)
        memcpy(book + n * 12, made.at + HEADER_END + n * 16 + 4, 12);
    memcpy(book_before, book, sizeof book);
    step_refuses("a bad name over a full book: 24 at its length", at, 0, IPDR_BOOK_MOST * 12, IPDR_NOT_UTF8, at + 8);
}

static void try_bad_values(void)
{
    spell(UNSTATED_FIRST, bad);
    uint32_t first = spelt.lengths[UNSTATED_FIRST];
    made.at[first + 4 + bad.size] = 2;
    spelt_is_refused("a bad string before a boolean of 2", IPDR_NOT_UTF8, first);
    made.len = first + 4 + bad.size;
    spelt_is_refused("a bad string and nothing more", IPDR_NOT_UTF8, first);
    made.len--;
    spelt_is_refused("a bad string, its last octet missing", IPDR_CUT_SHORT, first);
    spell(UNSTATED_FIRST, (struct string)STRING("\xc3"));
    made.at[first + 5] = 0xa9;
    spelt_is_refused("a string that ends inside a character, the next value begins with its rest", IPDR_NOT_UTF8, first);
    spell(UNSTATED_LAST, bad);
    uint32_t truth = spelt.lengths[UNSTATED_LAST] - TRUTH_AND_HEX;
    made.at[truth] = 2;
    spelt_is_refused("a boolean of 2 before a bad string", IPDR_BOOLEAN, truth);

    spell(STATED_LAST, bad);
    uint32_t last = spelt.lengths[STATED_LAST], length = spelt.rows[1] + 8, size = spelt.end - length - 4;
    set_number(length, size - 1);
    spelt_is_refused("a bad string that passes its row's end", IPDR_ROW_LENGTH, length);
    set_number(length, size + 1);
    spelt_is_refused("a bad string before an octet that is left over", IPDR_NOT_UTF8, last);
    set_number(length, (uint32_t)made.len);
    spelt_is_refused("a bad string in a row that passes the document's end", IPDR_CUT_SHORT, length);
    spell(STATED_LAST, plain);
    set_number(length, spelt.end - length - 4 + 1);
    spelt_is_refused("a good string before an octet that is left over", IPDR_ROW_LENGTH, length);
    spell(STATED_FIRST, bad);
    set_number(length, 4 + (uint32_t)bad.size);
    spelt_is_refused("a bad string that fills its row, in which values are missing", IPDR_NOT_UTF8, spelt.lengths[STATED_FIRST]);
    set_number(length, 3 + (uint32_t)bad.size);
    spelt_is_refused("a bad string of one octet more than its row", IPDR_ROW_LENGTH, length);
}

static void try_badly_named_books(void)
{
    static const enum slot names[] = {TYPE_NAME, FIRST_NAME, LAST_NAME};
    for (size_t i = 0; i < sizeof names / sizeof names[0]; i++) {
        spell(names[i], bad);
        uint32_t used = lend_spelt_book();
        step_refuses("a book with a bad name, at its layout: 17", spelt.layout, 0, used, IPDR_LENT, 0);
        step_refuses("a book with a bad name, at a row: 17", spelt.rows[0], 0, used, IPDR_LENT, 0);
        step_refuses("a book with a bad name, at the end: 17", spelt.end, 2, used, IPDR_LENT, 0);
        step_refuses("a book with a bad name, past the document: 17", UINT32_MAX, 0, used, IPDR_LENT, 0);
        lend_empty_book();
        memcpy(book, specimen + LAYOUT_NUMBER, LAYOUT_SIZE);
        memcpy(book + LAYOUT_SIZE, made.at + spelt.layout + 4, used);
        book[LAYOUT_SIZE + 3] = 8;
        memcpy(book_before, book, sizeof book);
        begin(SPECIMEN_SIZE);
        step_refuses("a bad name in the book's second layout: 17", FIRST_ROW, 0, LAYOUT_SIZE + used, IPDR_LENT, 0);
        step_accepts("a bad name behind the book's used octets", FIRST_ROW, 0, LAYOUT_SIZE, first_row_words);
    }
    spell(LAST_NAME, (struct string)STRING("\xd0\x96"));
    uint32_t used = lend_spelt_book();
    run_is_steps("a book with a name of other letters", spelt.rows[0], 0, used, 2);
}

/* Strings of up to 40 letters: a bad octet at each place, and a character of three octets at each. */
static void try_every_place(void)
{
    static const enum slot slots[] = {RECORDER, LAST_NAME, UNSTATED_FIRST, STATED_LAST};
    char octets[40], line[80];
    for (size_t size = 1; size <= sizeof octets; size++) {
        int good = 1;
        for (size_t i = 0; i < sizeof slots / sizeof slots[0]; i++)
            for (size_t place = 0; place < size; place++) {
                memset(octets, 'a', size);
                octets[place] = (char)(place % 2 ? 0x80 : 0xe9);
                spell(slots[i], (struct string){size, octets});
                good = good && whole_is_refused(IPDR_NOT_UTF8, spelt.lengths[slots[i]]);
                memcpy(octets + place, "\xe6\x9d\xb1", size - place < 3 ? size - place : 3);
                spell(slots[i], (struct string){size, octets});
                good = good && (size - place < 3 ? whole_is_refused(IPDR_NOT_UTF8, spelt.lengths[slots[i]]) : whole_is_accepted(2));
            }
        snprintf(line, sizeof line, "a bad octet and a character at each place of %zu letters", size);
        check(line, good);
    }
}

/* Strings that fill a document, of characters of two octets. */
static void try_long_strings(void)
{
    static char octets[1000000];
    for (size_t i = 0; i < sizeof octets; i += 2)
        memcpy(octets + i, "\xd0\x96", 2);
    static const enum slot slots[] = {RECORDER, UNSTATED_LAST, STATED_FIRST};
    for (size_t i = 0; i < sizeof slots / sizeof slots[0]; i++) {
        char line[80];
        snprintf(line, sizeof line, "a %s of 1,000,000 octets", slot_names[slots[i]]);
        octets[sizeof octets - 1] = (char)0x96;
        spell(slots[i], (struct string){sizeof octets, octets});
        check(line, is_accepted());
        octets[sizeof octets - 1] = 'a';
        spell(slots[i], (struct string){sizeof octets, octets});
        spelt_is_refused("the same without its last tail", IPDR_NOT_UTF8, spelt.lengths[slots[i]]);
    }
}

/* A row of so many strings of one letter of two octets. */
static void put_letters_row(uint32_t number, uint32_t strings, int stated)
{
    put_number(2);
    put_number(number);
    put_number(stated ? 6 * strings : 0xffffffff);
    for (uint32_t i = 0; i < strings; i++) {
        put_number(2);
        put((const uint8_t[]){0xd0, 0x96}, 2);
    }
}

/* Bad strings in rows under layouts that have plans and layouts that have none: of 64 layouts of 62 strings the first and
 * the last, in the first, a middle and the last value. */
static void try_bad_strings_and_plans(void)
{
    enum { STRINGS = 62, ROW = 12 + 6 * STRINGS };
    begin(HEADER_END);
    for (uint32_t n = 0; n < IPDR_BOOK_MOST; n++)
        put_wide_layout(n, STRINGS, 0x28);
    uint32_t rows_at = (uint32_t)made.len;
    for (uint32_t n = 0; n < 4; n++)
        put_letters_row(n < 2 ? 0 : IPDR_BOOK_MOST - 1, STRINGS, (int)(n % 2));
    put_end(4);
    whole_accepts("rows of letters, with plans and without", 4);
    lend_empty_book();
    run_is_steps("a run over rows of letters", HEADER_END, 0, 0, IPDR_BOOK_MOST + 4);
    uint32_t used = (uint32_t)out[IPDR_RUN_USED];
    memcpy(book_before, book, sizeof book);
    for (uint32_t n = 0; n < 4; n++) {
        static const uint32_t values[] = {0, 30, STRINGS - 1};
        for (size_t i = 0; i < sizeof values / sizeof values[0]; i++) {
            uint32_t row = rows_at + n * ROW, length = row + 12 + 6 * values[i];
            char line[100];
            snprintf(line, sizeof line, "value %u of row %u bad: 24 at its length", values[i], n);
            made.at[length + 5] = 'a';
            whole_refuses(line, IPDR_NOT_UTF8, length);
            step_refuses(line, row, n, used, IPDR_NOT_UTF8, length);
            made.at[length + 5] = 0x96;
        }
    }
    made.at[rows_at + 3 * ROW + 17] = 'a';
    run_is_steps("a run up to a bad string", rows_at, 0, used, 3);
}

/* What calls have used of their stacks. */
_Static_assert(IPDR_HEADER_STACK <= 1024 && IPDR_STEP_STACK <= 1024, "calls that keep no plans fit 1,024 octets");
_Static_assert(IPDR_RUN_STACK <= 4096 && IPDR_WHOLE_STACK <= 4096, "calls that keep plans fit 4,096 octets");
static void try_stacks(void)
{
    static const struct {
        const char *name;
        enum painted which;
        size_t stated;
    } calls[] = {
        {"ipdr_header", PAINTED_HEADER, IPDR_HEADER_STACK},
        {"ipdr_step", PAINTED_STEP, IPDR_STEP_STACK},
        {"ipdr_run", PAINTED_RUN, IPDR_RUN_STACK},
        {"ipdr_whole", PAINTED_WHOLE, IPDR_WHOLE_STACK},
    };
    painted_deep();
    check("a function that writes 1,000 octets deep is measured so", painted_most(PAINTED_DEEP) == PAINTED_DEPTH);
    check("no call's answer depends on what stood on its stack", painted_apart == 0);
    for (size_t i = 0; i < sizeof calls / sizeof calls[0]; i++) {
        char what[80];
        size_t most = painted_most(calls[i].which);
        snprintf(what, sizeof what, "stack of %s: %zu octets, %zu are stated", calls[i].name, most, calls[i].stated);
        check(what, 0 < most && most <= calls[i].stated);
    }
}

int main(void)
{
    try_specimen();
    try_changes();
    try_header_refusals();
    try_times();
    try_element_refusals();
    try_places();
    try_lent();
    try_limits();
    try_runs();
    try_large();
    for (uint32_t strings = 42; strings <= 45; strings++)
        try_plans(strings);
    try_strings();
    try_bad_headers();
    try_bad_names();
    try_bad_values();
    try_badly_named_books();
    try_every_place();
    try_long_strings();
    try_bad_strings_and_plans();
    try_stacks();
    printf("%d passed, %d failed\n", passed, failed);
    return failed != 0;
}
