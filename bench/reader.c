/*
 * A plain reader of IPDR/XDR documents, for measuring against. Each layout is
 * parsed once, into a table of the forms of its values; rows walk that table.
 *
 * Two things are as a practised hand would have them: the layout found last
 * is tried before the table is searched, since rows come in runs, and a
 * layout's octets are compared where they stand in the document, so that no
 * copy of them is kept.
 */
#include "reader.h"

#include <stdbool.h>
#include <string.h>

#define VERSION 4
#define ID_SIZE 16
#define UNSTATED 0xffffffffu
#define NO_ELEMENT_COUNT 0xffffffffu

#define MOST_DOCUMENT 1048576
#define MOST_LISTED 16
#define MOST_ATTRIBUTES 64
#define MOST_LAYOUTS 64
#define MOST_BOOK 32768

enum kind { KIND_LAYOUT = 1, KIND_ROW = 2, KIND_END = 3 };

enum refusal {
    CUT_SHORT = 1,
    TOO_LONG = 2,
    OTHER_VERSION = 3,
    COUNT_OVER = 4,
    ID_LENGTH = 5,
    ELEMENT_COUNT = 6,
    UNKNOWN_KIND = 7,
    UNKNOWN_TYPE = 8,
    USER_TYPE = 9,
    OTHER_CONTENT = 10,
    BOOK_FULL = 11,
    UNKNOWN_LAYOUT = 12,
    ROW_LENGTH = 13,
    BAD_BOOLEAN = 14,
    END_COUNT = 15,
    AFTER_END = 16,
    NOT_UTF8 = 24
};

/* How a value stands in a row. A number's form is its width, and no other form is as small. */
enum form { FORM_1 = 1, FORM_2 = 2, FORM_4 = 4, FORM_8 = 8, FORM_BOOLEAN, FORM_OCTETS, FORM_STRING };

/*
 * The place of reading, at most `end`. What reads moves the place behind what
 * it read; or it answers false, with the refusal packed in `refused`.
 */
struct cursor {
    const uint8_t *octets;
    uint32_t at;
    uint32_t end;
    uint64_t refused;
};

struct layout {
    uint32_t number;
    uint32_t size;         /* from its number to its last type */
    const uint8_t *octets; /* where these stand in the document */
    uint32_t fields;
    uint8_t forms[MOST_ATTRIBUTES];
};

struct book {
    uint32_t count;
    uint32_t used;             /* octets of the layouts together */
    const struct layout *last; /* the one found last */
    struct layout layouts[MOST_LAYOUTS];
};

static uint64_t packed(enum refusal number, uint32_t place)
{
    return (uint64_t)number << 32 | place;
}

static bool refuse(struct cursor *in, enum refusal number, uint32_t place)
{
    in->refused = packed(number, place);
    return false;
}

static bool is_refused(const struct cursor *in, enum refusal number)
{
    return in->refused >> 32 == number;
}

static uint32_t left(const struct cursor *in)
{
    return in->end - in->at;
}

/* Passes a field of fixed width. */
static bool pass(struct cursor *in, uint32_t width)
{
    if (left(in) < width)
        return refuse(in, CUT_SHORT, in->at);
    in->at += width;
    return true;
}

static bool read_number(struct cursor *in, uint32_t *number)
{
    uint32_t start = in->at;
    if (!pass(in, 4))
        return false;
    const uint8_t *p = in->octets + start;
    *number = (uint32_t)p[0] << 24 | (uint32_t)p[1] << 16 | (uint32_t)p[2] << 8 | p[3];
    return true;
}

static bool is_tail(uint8_t octet)
{
    return (octet & 0xc0) == 0x80;
}

/* Whether octets are UTF-8 as RFC 3629 has it, looked at character by character. */
static bool is_utf8(const uint8_t *p, size_t size)
{
    const uint8_t *end = p + size;
    while (p < end) {
        uint8_t first = *p++;
        if (first < 0x80)
            continue;
        size_t left = (size_t)(end - p);
        if (first < 0xc2) /* a tail, or a longer form of ASCII */
            return false;
        if (first < 0xe0) {
            if (left < 1 || !is_tail(p[0]))
                return false;
            p += 1;
        } else if (first < 0xf0) {
            if (left < 2 || !is_tail(p[0]) || !is_tail(p[1]))
                return false;
            if ((first == 0xe0 && p[0] < 0xa0) || (first == 0xed && p[0] > 0x9f)) /* a longer form, a surrogate */
                return false;
            p += 2;
        } else {
            if (first > 0xf4 || left < 3 || !is_tail(p[0]) || !is_tail(p[1]) || !is_tail(p[2]))
                return false;
            if ((first == 0xf0 && p[0] < 0x90) || (first == 0xf4 && p[0] > 0x8f)) /* a longer form, past the last */
                return false;
            p += 3;
        }
    }
    return true;
}

/*
 * Passes a length and its octets, which must be UTF-8 if they are a string.
 * A length that reaches too far, or whose octets are not UTF-8, is refused
 * where it stands.
 */
static bool pass_led(struct cursor *in, bool is_string)
{
    uint32_t start = in->at;
    uint32_t length;
    if (!read_number(in, &length))
        return false;
    if (length > left(in))
        return refuse(in, CUT_SHORT, start);
    if (is_string && !is_utf8(in->octets + in->at, length))
        return refuse(in, NOT_UTF8, start);
    in->at += length;
    return true;
}

static bool pass_string(struct cursor *in)
{
    return pass_led(in, true);
}

/* Passes a number that must have a value. */
static bool pass_fixed(struct cursor *in, uint32_t value, enum refusal other)
{
    uint32_t start = in->at;
    uint32_t number;
    if (!read_number(in, &number))
        return false;
    return number == value || refuse(in, other, start);
}

static bool read_count(struct cursor *in, uint32_t most, uint32_t *count)
{
    uint32_t start = in->at;
    if (!read_number(in, count))
        return false;
    return *count <= most || refuse(in, COUNT_OVER, start);
}

/* A list of the header: a count, and for each of its items so many strings. */
static bool pass_list(struct cursor *in, uint32_t strings_each)
{
    uint32_t count;
    if (!read_count(in, MOST_LISTED, &count))
        return false;
    for (uint32_t strings = count * strings_each; strings > 0; strings--) {
        if (!pass_string(in))
            return false;
    }
    return true;
}

/* The id's length is wrong whether or not its octets are there; octets missing are the length's fault. */
static bool pass_id(struct cursor *in)
{
    uint32_t start = in->at;
    if (!pass_fixed(in, ID_SIZE, ID_LENGTH))
        return false;
    return pass(in, ID_SIZE) || refuse(in, CUT_SHORT, start);
}

static bool read_header(struct cursor *in)
{
    return pass_fixed(in, VERSION, OTHER_VERSION)
        && pass_string(in)  /* recorder */
        && pass(in, 8)      /* start time */
        && pass_string(in)  /* default namespace */
        && pass_list(in, 2) /* other namespaces, a URI and a short name each */
        && pass_list(in, 1) /* service definitions */
        && pass_id(in)
        && pass_fixed(in, NO_ELEMENT_COUNT, ELEMENT_COUNT);
}

/* The form of a basic type's values, by the low octet of the type. */
static bool form_of(uint8_t basic, uint8_t *form)
{
    switch (basic) {
    case 0x21: /* int */
    case 0x22: /* unsignedInt */
    case 0x25: /* float */
        *form = FORM_4;
        return true;
    case 0x23: /* long */
    case 0x24: /* unsignedLong */
    case 0x26: /* double */
        *form = FORM_8;
        return true;
    case 0x27: /* hexBinary */
        *form = FORM_OCTETS;
        return true;
    case 0x28: /* string */
        *form = FORM_STRING;
        return true;
    case 0x29: /* boolean */
        *form = FORM_BOOLEAN;
        return true;
    case 0x2a: /* byte */
    case 0x2b: /* unsignedByte */
        *form = FORM_1;
        return true;
    case 0x2c: /* short */
    case 0x2d: /* unsignedShort */
        *form = FORM_2;
        return true;
    default:
        return false;
    }
}

static bool read_type(struct cursor *in, uint8_t *form)
{
    uint32_t start = in->at;
    uint32_t type;
    if (!read_number(in, &type))
        return false;
    if (type & 0x80000000u)
        return refuse(in, USER_TYPE, start);
    /* The octet above the basic type marks a derived one, which changes nothing here. */
    if (type & 0x7fff0000u || !form_of((uint8_t)type, form))
        return refuse(in, UNKNOWN_TYPE, start);
    return true;
}

/* Parses a layout from its number on. */
static bool parse_layout(struct cursor *in, struct layout *layout)
{
    uint32_t start = in->at;
    if (!read_number(in, &layout->number) || !pass_string(in) /* type name */
        || !read_count(in, MOST_ATTRIBUTES, &layout->fields))
        return false;
    for (uint32_t i = 0; i < layout->fields; i++) {
        if (!pass_string(in) /* name */ || !read_type(in, &layout->forms[i]))
            return false;
    }
    layout->octets = in->octets + start;
    layout->size = in->at - start;
    return true;
}

static const struct layout *find(struct book *book, uint32_t number)
{
    if (book->last && book->last->number == number)
        return book->last;
    for (uint32_t i = 0; i < book->count; i++) {
        if (book->layouts[i].number == number) {
            book->last = &book->layouts[i];
            return book->last;
        }
    }
    return NULL;
}

static bool same_octets(const struct layout *one, const struct layout *other)
{
    return one->size == other->size && memcmp(one->octets, other->octets, one->size) == 0;
}

/* A layout is entered into the book if its number is new; if it is known the octets must be the same. */
static bool read_layout(struct cursor *in, struct book *book)
{
    uint32_t start = in->at;
    struct layout layout;
    if (!parse_layout(in, &layout))
        return false;
    const struct layout *known = find(book, layout.number);
    if (known)
        return same_octets(known, &layout) || refuse(in, OTHER_CONTENT, start);
    if (book->count == MOST_LAYOUTS || layout.size > MOST_BOOK - book->used)
        return refuse(in, BOOK_FULL, start);
    book->layouts[book->count++] = layout;
    book->used += layout.size;
    return true;
}

static bool pass_boolean(struct cursor *in)
{
    uint32_t start = in->at;
    if (!pass(in, 1))
        return false;
    return in->octets[start] <= 1 || refuse(in, BAD_BOOLEAN, start);
}

static bool pass_value(struct cursor *in, uint8_t form)
{
    if (form <= FORM_8)
        return pass(in, form);
    if (form == FORM_BOOLEAN)
        return pass_boolean(in);
    return pass_led(in, form == FORM_STRING);
}

static bool pass_values(struct cursor *in, const struct layout *layout)
{
    for (uint32_t i = 0; i < layout->fields; i++) {
        if (!pass_value(in, layout->forms[i]))
            return false;
    }
    return true;
}

/* The values must be exactly the octets that the row's length states; meanwhile these are all there is to read. */
static bool pass_stated(struct cursor *in, uint32_t length, const struct layout *layout)
{
    uint32_t at_length = in->at - 4;
    uint32_t document_end = in->end;
    if (length > left(in))
        return refuse(in, CUT_SHORT, at_length);
    in->end = in->at + length;
    bool passed = pass_values(in, layout);
    if (passed ? left(in) > 0 : is_refused(in, CUT_SHORT))
        return refuse(in, ROW_LENGTH, at_length);
    in->end = document_end;
    return passed;
}

static bool read_row(struct cursor *in, struct book *book)
{
    uint32_t start = in->at;
    uint32_t number, length;
    if (!read_number(in, &number))
        return false;
    const struct layout *layout = find(book, number);
    if (!layout)
        return refuse(in, UNKNOWN_LAYOUT, start);
    if (!read_number(in, &length))
        return false;
    return length == UNSTATED ? pass_values(in, layout) : pass_stated(in, length, layout);
}

static bool read_end(struct cursor *in, uint32_t rows)
{
    if (!pass_fixed(in, rows, END_COUNT) || !pass(in, 8) /* end time */)
        return false;
    return left(in) == 0 || refuse(in, AFTER_END, in->at);
}

/* Reads elements up to the end element, counting rows. */
static bool read_elements(struct cursor *in, uint32_t *rows)
{
    struct book book;
    book.count = 0;
    book.used = 0;
    book.last = NULL;
    for (*rows = 0;;) {
        uint32_t start = in->at;
        uint32_t kind;
        if (!read_number(in, &kind))
            return false;
        switch (kind) {
        case KIND_LAYOUT:
            if (!read_layout(in, &book))
                return false;
            break;
        case KIND_ROW:
            if (!read_row(in, &book))
                return false;
            ++*rows;
            break;
        case KIND_END:
            return read_end(in, *rows);
        default:
            return refuse(in, UNKNOWN_KIND, start);
        }
    }
}

uint64_t reader_whole(const uint8_t *doc, size_t len, uint64_t *rows)
{
    if (len > MOST_DOCUMENT)
        return packed(TOO_LONG, 0);
    struct cursor in = {doc, 0, (uint32_t)len, 0};
    uint32_t read;
    if (!read_header(&in) || !read_elements(&in, &read))
        return in.refused;
    *rows = read;
    return 0;
}
