#ifndef READER_H
#define READER_H

#include <stddef.h>
#include <stdint.h>

/*
 * The whole check of an IPDR/XDR document of version 4, from its first octet
 * to its end element. Answers 0 and sets *rows to the count of rows; or
 * answers the refusal, number * 2^32 + place, and leaves *rows alone.
 */
uint64_t reader_whole(const uint8_t *doc, size_t len, uint64_t *rows);

#endif
