#include "painted.h"

#include <stdlib.h>
#include <string.h>

#define STACK_SIZE (64 * 1024)
#define TAKEN 9 /* words that a call takes at most: six in registers, three on the stack */
#define LENT 3  /* that a call may change at most */
#define LENT_MOST (IPDR_RUN_MOST * 8 + IPDR_BOOK_SIZE)

#define TEXT(x) TEXT_OF(x)
#define TEXT_OF(x) #x

static _Alignas(16) uint8_t stacks[PAINTED_CALLS][2][STACK_SIZE];
static uint8_t paints[2][STACK_SIZE];
static size_t most[PAINTED_CALLS];
int painted_apart;

/* Calls a function with these words on the stack that ends at `top`, a multiple of 16. Its last words are the words
 * that a call takes on the stack, and one that aligns them; what is below them is the function's own. */
uint64_t call_on(uint8_t *top, void (*function)(void), const uint64_t words[TAKEN]);
__asm__(".pushsection .text\n"
        "call_on:\n"
        "    pushq %rbp\n"
        "    movq %rsp, %rbp\n"
        "    leaq -8(%rdi), %rsp\n"
        "    movq %rsi, %rax\n"
        "    movq %rdx, %r10\n"
        "    pushq 64(%r10)\n"
        "    pushq 56(%r10)\n"
        "    pushq 48(%r10)\n"
        "    movq (%r10), %rdi\n"
        "    movq 8(%r10), %rsi\n"
        "    movq 16(%r10), %rdx\n"
        "    movq 24(%r10), %rcx\n"
        "    movq 32(%r10), %r8\n"
        "    movq 40(%r10), %r9\n"
        "    callq *%rax\n"
        "    movq %rbp, %rsp\n"
        "    popq %rbp\n"
        "    retq\n"
        ".popsection\n");
#define OWN (STACK_SIZE - 32)

/* Writes a 0, which is not the paint of both stacks. */
void write_deep(void);
__asm__(".pushsection .text\n"
        "write_deep:\n"
        "    movb $0, 8-" TEXT(PAINTED_DEPTH) "(%rsp)\n"
        "    retq\n"
        ".popsection\n");

struct lent {
    void *at;
    size_t size;
};

/* Two paints that differ at every octet, and from place to place, so that octets of a stack that are copied on it show. */
static void mix(void)
{
    for (size_t i = 0; i < STACK_SIZE; i++) {
        paints[0][i] = (uint8_t)((i * 167) ^ (i >> 8));
        paints[1][i] = (uint8_t)~paints[0][i];
    }
    for (int which = 0; which < PAINTED_CALLS; which++)
        memcpy(stacks[which], paints, sizeof paints);
}

/* How deep a stack of the function was written. */
static size_t depth(const uint8_t *stack, const uint8_t *paint)
{
    size_t clean = 0;
    while (clean + 64 <= OWN && memcmp(stack + clean, paint + clean, 64) == 0)
        clean += 64;
    while (clean < OWN && stack[clean] == paint[clean])
        clean++;
    return OWN - clean;
}

/* One of the two calls; the stack is painted anew behind it. */
static uint64_t once(enum painted which, int i, void (*function)(void), const uint64_t words[TAKEN])
{
    uint64_t answer = call_on(stacks[which][i] + STACK_SIZE, function, words);
    size_t deep = depth(stacks[which][i], paints[i]);
    memcpy(stacks[which][i] + OWN - deep, paints[i] + OWN - deep, deep);
    if (most[which] < deep)
        most[which] = deep;
    return answer;
}

/* Both calls, the second with what was lent for the first. */
static uint64_t twice(enum painted which, void (*function)(void), const uint64_t words[TAKEN], const struct lent lent[LENT])
{
    static uint8_t before[LENT][LENT_MOST], left[LENT][LENT_MOST];
    static int mixed;
    if (!mixed)
        mix();
    mixed = 1;
    for (int i = 0; i < LENT; i++) {
        if (lent[i].size > LENT_MOST)
            abort();
        memcpy(before[i], lent[i].at, lent[i].size);
    }
    uint64_t answer = once(which, 0, function, words);
    for (int i = 0; i < LENT; i++) {
        memcpy(left[i], lent[i].at, lent[i].size);
        memcpy(lent[i].at, before[i], lent[i].size);
    }
    int apart = once(which, 1, function, words) != answer;
    for (int i = 0; i < LENT; i++)
        apart |= memcmp(left[i], lent[i].at, lent[i].size) != 0;
    painted_apart += apart;
    return answer;
}

static uint64_t word(const void *at)
{
    return (uint64_t)(uintptr_t)at;
}

uint64_t painted_header(const uint8_t *doc, size_t doc_len, uint64_t out[8])
{
    const uint64_t words[TAKEN] = {word(doc), doc_len, word(out)};
    const struct lent lent[LENT] = {{out, 64}, {out, 0}, {out, 0}};
    return twice(PAINTED_HEADER, (void (*)(void))ipdr_header, words, lent);
}

uint64_t painted_step(const uint8_t *doc, size_t doc_len, uint32_t at, uint32_t rows, uint8_t *book, size_t book_len,
                      uint32_t used, uint64_t out[8])
{
    const uint64_t words[TAKEN] = {word(doc), doc_len, at, rows, word(book), book_len, used, word(out)};
    const struct lent lent[LENT] = {{out, 64}, {book, book_len}, {out, 0}};
    return twice(PAINTED_STEP, (void (*)(void))ipdr_step, words, lent);
}

uint64_t painted_run(const uint8_t *doc, size_t doc_len, uint32_t at, uint32_t rows, uint8_t *book, size_t book_len,
                     uint32_t used, uint64_t items[IPDR_RUN_MOST], uint64_t out[8])
{
    const uint64_t words[TAKEN] = {word(doc), doc_len, at, rows, word(book), book_len, used, word(items), word(out)};
    const struct lent lent[LENT] = {{out, 64}, {book, book_len}, {items, IPDR_RUN_MOST * 8}};
    return twice(PAINTED_RUN, (void (*)(void))ipdr_run, words, lent);
}

uint64_t painted_whole(const uint8_t *doc, size_t doc_len, uint64_t *rows)
{
    const uint64_t words[TAKEN] = {word(doc), doc_len, word(rows)};
    const struct lent lent[LENT] = {{rows, 8}, {rows, 0}, {rows, 0}};
    return twice(PAINTED_WHOLE, (void (*)(void))ipdr_whole, words, lent);
}

void painted_deep(void)
{
    const uint64_t words[TAKEN] = {0};
    uint64_t nothing = 0;
    const struct lent lent[LENT] = {{&nothing, 0}, {&nothing, 0}, {&nothing, 0}};
    twice(PAINTED_DEEP, write_deep, words, lent);
}

size_t painted_most(enum painted which)
{
    return most[which];
}
