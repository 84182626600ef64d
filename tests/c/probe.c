/* The probe over the entry points for C, for documents of any length: commands on standard input, answers as text.
 *
 * A command is a letter and its arguments; a number is 8 octets, big-endian, and octets are a number and that many.
 *   D octets             the document from here on
 *   B octets             the lent book from here on, at most 40,000
 *   h, w                 the header check, the whole check
 *   s at, rows, used     a step; `too large` where a number does not fit 32 bits
 * Whatever else is read prints `bad input` and ends the run. */
#include "ipdr.h"

#include <inttypes.h>
#include <stdio.h>
#include <stdlib.h>

#define BOOK_MOST 40000

/* The commands not read yet. */
struct input {
    const uint8_t *at;
    size_t left;
};

static const uint8_t *document;
static size_t document_len;
static uint8_t book[BOOK_MOST];
static size_t book_len;

static const uint8_t *take(struct input *in, uint64_t count)
{
    if (count > in->left)
        return NULL;
    const uint8_t *taken = in->at;
    in->at += count;
    in->left -= (size_t)count;
    return taken;
}

static int take_number(struct input *in, uint64_t *n)
{
    const uint8_t *octets = take(in, 8);
    if (!octets)
        return 0;
    *n = 0;
    for (int i = 0; i < 8; i++)
        *n = *n << 8 | octets[i];
    return 1;
}

static int take_octets(struct input *in, uint64_t most, const uint8_t **octets, size_t *len)
{
    uint64_t n;
    if (!take_number(in, &n) || n > most)
        return 0;
    const uint8_t *taken = take(in, n);
    if (!taken)
        return 0;
    *octets = taken;
    *len = (size_t)n;
    return 1;
}

static int take_book(struct input *in)
{
    const uint8_t *octets;
    if (!take_octets(in, BOOK_MOST, &octets, &book_len))
        return 0;
    for (size_t i = 0; i < book_len; i++)
        book[i] = octets[i];
    return 1;
}

/* FNV-1a over the lent book. */
static uint64_t book_sum(void)
{
    uint64_t sum = 0xcbf29ce484222325;
    for (size_t i = 0; i < book_len; i++)
        sum = (sum ^ book[i]) * 0x100000001b3;
    return sum;
}

static void print_refusal(uint64_t refused)
{
    printf("refused %" PRIu32 " %" PRIu32, ipdr_refusal_number(refused), ipdr_refusal_place(refused));
}

static void header(void)
{
    uint64_t out[8];
    uint64_t refused = ipdr_header(document, document_len, out);
    if (refused)
        print_refusal(refused);
    else
        printf("header %" PRId64 " %" PRIu64 " %" PRIu64 " %" PRIu64, ipdr_time(out[IPDR_HEADER_START]),
               out[IPDR_HEADER_NAMESPACES], out[IPDR_HEADER_SERVICES], out[IPDR_HEADER_NEXT]);
    putchar('\n');
}

static void whole(void)
{
    uint64_t rows;
    uint64_t refused = ipdr_whole(document, document_len, &rows);
    if (refused)
        print_refusal(refused);
    else
        printf("whole %" PRIu64, rows);
    putchar('\n');
}

static void print_element(const uint64_t out[8])
{
    switch (out[IPDR_STEP_KIND]) {
    case IPDR_LAYOUT:
        printf("layout %" PRIu64 " %" PRIu64, out[IPDR_STEP_NUMBER], out[IPDR_STEP_COUNT]);
        break;
    case IPDR_ROW:
        printf("row %" PRIu64 " %" PRIu64 " %" PRIu64, out[IPDR_STEP_NUMBER], out[IPDR_STEP_STATED], out[IPDR_STEP_COUNT]);
        break;
    default:
        printf("end %" PRIu64 " %" PRId64, out[IPDR_STEP_END_COUNT], ipdr_time(out[IPDR_STEP_END_TIME]));
    }
    printf(" %" PRIu64 " %" PRIu64 " %" PRIu64, out[IPDR_STEP_NEXT], out[IPDR_STEP_ROWS], out[IPDR_STEP_USED]);
}

static void step(uint32_t at, uint32_t rows, uint32_t used)
{
    uint64_t out[8];
    uint64_t refused = ipdr_step(document, document_len, at, rows, book, book_len, used, out);
    if (refused)
        print_refusal(refused);
    else
        print_element(out);
    printf(" %016" PRIx64 "\n", book_sum());
}

static int take_step(struct input *in)
{
    uint64_t at, rows, used;
    if (!take_number(in, &at) || !take_number(in, &rows) || !take_number(in, &used))
        return 0;
    if (at > UINT32_MAX || rows > UINT32_MAX || used > UINT32_MAX)
        puts("too large");
    else
        step((uint32_t)at, (uint32_t)rows, (uint32_t)used);
    return 1;
}

static int command(struct input *in)
{
    switch (*take(in, 1)) {
    case 'D':
        return take_octets(in, UINT64_MAX, &document, &document_len);
    case 'B':
        return take_book(in);
    case 'h':
        header();
        return 1;
    case 'w':
        whole();
        return 1;
    case 's':
        return take_step(in);
    default:
        return 0;
    }
}

/* All of standard input, at least one octet of room even where there is none. */
static uint8_t *read_input(size_t *len)
{
    size_t room = 1 << 16;
    uint8_t *octets = malloc(room);
    *len = 0;
    while (octets) {
        *len += fread(octets + *len, 1, room - *len, stdin);
        if (*len < room)
            return octets;
        room *= 2;
        uint8_t *larger = realloc(octets, room);
        if (!larger)
            free(octets);
        octets = larger;
    }
    return NULL;
}

int main(void)
{
    struct input in;
    uint8_t *octets = read_input(&in.left);
    if (!octets || ferror(stdin)) {
        fputs("probe: standard input could not be read\n", stderr);
        free(octets);
        return 1;
    }
    in.at = octets;
    document = octets;
    while (in.left > 0) {
        if (!command(&in)) {
            puts("bad input");
            break;
        }
    }
    free(octets);
    return fflush(stdout) == 0 ? 0 : 1;
}
