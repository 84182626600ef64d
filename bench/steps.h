#ifndef STEPS_H
#define STEPS_H

#include <stddef.h>
#include <stdint.h>

/* Reads a document by the header check and steps; answers as the whole check does. */
uint64_t by_steps(const uint8_t *doc, size_t len, uint64_t *rows);

/* The same by runs of steps. */
uint64_t by_runs(const uint8_t *doc, size_t len, uint64_t *rows);

#endif
