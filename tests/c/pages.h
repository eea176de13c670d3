// Buffers that lie next to pages that cannot be touched, so that a stray read or write faults, with guard bytes on their other side.
#ifndef PAGES_H
#define PAGES_H

#include <stdint.h>
#include <stdio.h>
#include <stdlib.h>
#include <string.h>
#include <sys/mman.h>
#include <unistd.h>

// A page between two that cannot be touched, what it should hold, and the part of it that is lent.
struct buffer {
    uint8_t *page, *expected;
    size_t size, at, len;
};

// Where in its page the lent part is. Each side has guard bytes of its own, so that no byte written can pass for both.
enum side { AT_FRONT, AT_END };
static const uint8_t GUARD[] = {0xA5, 0x5A};

static struct buffer new_buffer(void) {
    size_t size = (size_t)sysconf(_SC_PAGESIZE);
    uint8_t *p = mmap(NULL, 3 * size, PROT_NONE, MAP_PRIVATE | MAP_ANONYMOUS, -1, 0), *expected = malloc(size);
    if (p == MAP_FAILED || !expected || mprotect(p + size, size, PROT_READ | PROT_WRITE) != 0) {
        perror("mmap");
        _exit(1);
    }
    return (struct buffer){p + size, expected, size, 0, 0};
}

// Lends `len` bytes, as given or else guard bytes; all other bytes of the page are guard bytes. Length 0 at the front is a null pointer.
static uint8_t *lend(struct buffer *b, enum side side, const uint8_t *bytes, size_t len) {
    b->at = side == AT_END ? b->size - len : 0;
    b->len = len;
    memset(b->expected, GUARD[side], b->size);
    if (bytes && len)
        memcpy(b->expected + b->at, bytes, len);
    memcpy(b->page, b->expected, b->size);
    return len || side == AT_END ? b->page + b->at : NULL;
}

// These words are to be at the front of the lent part, most significant byte first.
static void expect_words(struct buffer *b, int words, const uint64_t *word) {
    for (int i = 0; i < 8 * words; i++)
        b->expected[b->at + (size_t)i] = (uint8_t)(word[i / 8] >> (56 - 8 * (i % 8)));
}

static int as_expected(const struct buffer *b) { return memcmp(b->page, b->expected, b->size) == 0; }

#endif
