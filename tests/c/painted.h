/* The calls of ipdr.h, each on a stack of its own that is painted before every call: what calls have used of it shows.
 * Every call is made twice with the same octets lent, on two stacks whose paint differs at every octet, so that an octet
 * which was written differs from the paint of one of them, and an answer that depends on what stood there shows too. */
#ifndef PAINTED_H
#define PAINTED_H

#include "ipdr.h"

enum painted { PAINTED_HEADER, PAINTED_STEP, PAINTED_RUN, PAINTED_WHOLE, PAINTED_DEEP, PAINTED_CALLS };

uint64_t painted_header(const uint8_t *doc, size_t doc_len, uint64_t out[8]);
uint64_t painted_step(const uint8_t *doc, size_t doc_len, uint32_t at, uint32_t rows, uint8_t *book, size_t book_len,
                      uint32_t used, uint64_t out[8]);
uint64_t painted_run(const uint8_t *doc, size_t doc_len, uint32_t at, uint32_t rows, uint8_t *book, size_t book_len,
                     uint32_t used, uint64_t items[IPDR_RUN_MOST], uint64_t out[8]);
uint64_t painted_whole(const uint8_t *doc, size_t doc_len, uint64_t *rows);

/* A function that writes one octet, PAINTED_DEPTH octets below where its caller's stack ends: a measure to try. */
#define PAINTED_DEPTH 1000
void painted_deep(void);

/* How deep any call so far has written, in octets below where the caller's stack ends; the return address is the first
 * eight. */
size_t painted_most(enum painted which);

/* How many pairs of calls did not answer alike or did not leave the same. */
extern int painted_apart;

#endif
