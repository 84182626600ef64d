/* Reads a document step by step and prints a line for its header and for each element: how a collector calls ipdr.h.
 *
 *     steps FILE
 *
 * A refusal is the last line, and then the exit status is 1.
 */
#include "ipdr.h"

#include <inttypes.h>
#include <stdio.h>
#include <stdlib.h>

static uint8_t book[IPDR_BOOK_SIZE];

/* One octet more than a document may have, so that a longer file is seen as one. */
static uint8_t doc[IPDR_DOCUMENT_MOST + 1];

static int refuse(uint64_t refused)
{
    printf("refused %" PRIu32 " %" PRIu32 "\n", ipdr_refusal_number(refused), ipdr_refusal_place(refused));
    return EXIT_FAILURE;
}

static void show(uint32_t at, const uint64_t out[8])
{
    switch (out[IPDR_STEP_KIND]) {
    case IPDR_LAYOUT:
        printf("layout at %" PRIu32 ": number %" PRIu64 ", %" PRIu64 " attributes\n", at, out[4], out[5]);
        break;
    case IPDR_ROW:
        printf("row at %" PRIu32 ": layout %" PRIu64 ", %" PRIu64 " fields, length %s\n", at, out[4], out[5], out[6] ? "stated" : "unstated");
        break;
    default:
        printf("end at %" PRIu32 ": %" PRIu64 " rows, time %" PRId64 " ms\n", at, out[4], ipdr_time(out[5]));
    }
}

static int read_on(size_t len, uint32_t at)
{
    uint64_t out[8], refused;
    uint32_t rows = 0, used = 0;

    do {
        if ((refused = ipdr_step(doc, len, at, rows, book, sizeof book, used, out)) != 0)
            return refuse(refused);
        show(at, out);
        at = (uint32_t)out[IPDR_STEP_NEXT];
        rows = (uint32_t)out[IPDR_STEP_ROWS];
        used = (uint32_t)out[IPDR_STEP_USED];
    } while (out[IPDR_STEP_KIND] != IPDR_END);
    return EXIT_SUCCESS;
}

int main(int argc, char **argv)
{
    FILE *file = argc == 2 ? fopen(argv[1], "rb") : NULL;
    uint64_t out[8], refused;
    size_t len;

    if (file == NULL) {
        fputs("usage: steps FILE, a document to read\n", stderr);
        return 2;
    }
    len = fread(doc, 1, sizeof doc, file);
    fclose(file);
    if ((refused = ipdr_header(doc, len, out)) != 0)
        return refuse(refused);
    printf("header: time %" PRId64 " ms, %" PRIu64 " other namespaces, %" PRIu64 " service definitions\n", ipdr_time(out[0]), out[1], out[2]);
    return read_on(len, (uint32_t)out[IPDR_HEADER_NEXT]);
}
