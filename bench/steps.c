/* Readings by steps as a caller does them: the header, then step after step, or runs of steps and a step for the end,
 * with the book carried along. */
#include "steps.h"

#include "ipdr.h"

static uint8_t book[IPDR_BOOK_SIZE];

/* Where a reading stands. */
struct reading {
    uint32_t at, rows, used;
};

static uint64_t begin(const uint8_t *doc, size_t len, struct reading *now)
{
    uint64_t out[8];
    uint64_t refused = ipdr_header(doc, len, out);
    if (!refused)
        *now = (struct reading){.at = (uint32_t)out[IPDR_HEADER_NEXT]};
    return refused;
}

/* One step further; what it met stays in out. */
static uint64_t step(const uint8_t *doc, size_t len, struct reading *now, uint64_t out[8])
{
    uint64_t refused = ipdr_step(doc, len, now->at, now->rows, book, sizeof book, now->used, out);
    if (!refused)
        *now = (struct reading){(uint32_t)out[IPDR_STEP_NEXT], (uint32_t)out[IPDR_STEP_ROWS], (uint32_t)out[IPDR_STEP_USED]};
    return refused;
}

/* A run further; how many items it passed stays in out. */
static uint64_t run(const uint8_t *doc, size_t len, struct reading *now, uint64_t out[8])
{
    static uint64_t items[IPDR_RUN_MOST];
    uint64_t refused = ipdr_run(doc, len, now->at, now->rows, book, sizeof book, now->used, items, out);
    if (!refused)
        *now = (struct reading){(uint32_t)out[IPDR_RUN_NEXT], (uint32_t)out[IPDR_RUN_ROWS], (uint32_t)out[IPDR_RUN_USED]};
    return refused;
}

uint64_t by_steps(const uint8_t *doc, size_t len, uint64_t *rows)
{
    struct reading now;
    uint64_t out[8] = {0};
    uint64_t refused = begin(doc, len, &now);
    while (!refused && out[IPDR_STEP_KIND] != IPDR_END)
        refused = step(doc, len, &now, out);
    if (!refused)
        *rows = now.rows;
    return refused;
}

uint64_t by_runs(const uint8_t *doc, size_t len, uint64_t *rows)
{
    struct reading now;
    uint64_t out[8] = {[IPDR_RUN_COUNT] = IPDR_RUN_MOST};
    uint64_t refused = begin(doc, len, &now);
    while (!refused && out[IPDR_RUN_COUNT] == IPDR_RUN_MOST)
        refused = run(doc, len, &now, out);
    if (!refused)
        refused = step(doc, len, &now, out);
    if (!refused)
        *rows = now.rows;
    return refused;
}
