/*
 * Asks one of the checks about documents. Standard input is a run of the
 * probe's commands D (a length of 8 octets, big-endian, and a document of that
 * length) and w (check it); each w is answered by a line. The check asked is
 * named when this is compiled: reader_whole, ipdr_whole, by_steps or by_runs.
 * With an argument it writes lines to standard error that tell when a check
 * begins and ends.
 */
#include <inttypes.h>
#include <stdbool.h>
#include <stddef.h>
#include <stdint.h>
#include <stdio.h>
#include <stdlib.h>
#include <unistd.h>

uint64_t CHECK(const uint8_t *doc, size_t len, uint64_t *rows);

struct document {
    uint8_t *octets;
    size_t len;
};

static bool read_length(size_t *len)
{
    uint8_t octets[8];
    if (fread(octets, 1, sizeof octets, stdin) != sizeof octets)
        return false;
    *len = 0;
    for (size_t i = 0; i < sizeof octets; i++)
        *len = *len << 8 | octets[i];
    return true;
}

/* Each document has memory of just its own size, so that a checking compiler sees a read past it. */
static bool read_document(struct document *doc)
{
    size_t len;
    if (!read_length(&len))
        return false;
    free(doc->octets);
    doc->len = len;
    doc->octets = len > 0 ? malloc(len) : NULL;
    return len == 0 || (doc->octets && fread(doc->octets, 1, len, stdin) == len);
}

/* A line that stands where the program is then, among those that an emulator writes of it. */
static void mark(bool marked)
{
    if (marked && write(STDERR_FILENO, "mark\n", 5) != 5)
        abort();
}

/* Between the first two marks stands what a mark itself costs. */
static void check(const struct document *doc, bool marked)
{
    uint64_t rows = 0, refused;
    mark(marked);
    mark(marked);
    refused = CHECK(doc->octets, doc->len, &rows);
    mark(marked);
    if (refused)
        printf("refused %" PRIu64 " %" PRIu64 "\n", refused >> 32, refused & 0xffffffffu);
    else
        printf("whole %" PRIu64 "\n", rows);
}

int main(int argc, char **argv)
{
    (void)argv;
    bool marked = argc > 1;
    struct document doc = {NULL, 0};
    bool good = true;
    int letter;
    while (good && (letter = getchar()) != EOF) {
        if (letter == 'w')
            check(&doc, marked);
        else
            good = letter == 'D' && read_document(&doc);
    }
    free(doc.octets);
    if (!good)
        puts("bad input");
    return 0;
}
