/* What the C sides of the tests share: files of big-endian numbers, and a room between two inaccessible pages. */
#ifndef LENT_H
#define LENT_H
#include <stddef.h>
#include <stdint.h>
#include <stdio.h>
#include <stdlib.h>
#include <string.h>
#include <sys/mman.h>

enum { PAGE = 4096, ROOM = 131072 };

static inline void stop(const char *why) {
    fprintf(stderr, "stopped: %s\n", why);
    exit(2);
}

static inline uint32_t number(FILE *in) {
    uint8_t b[4];
    if (fread(b, 1, 4, in) != 4) stop("the file is cut short");
    return (uint32_t)b[0] << 24 | (uint32_t)b[1] << 16 | (uint32_t)b[2] << 8 | b[3];
}

static inline void put(FILE *out, uint32_t n) {
    uint8_t b[4] = {(uint8_t)(n >> 24), (uint8_t)(n >> 16), (uint8_t)(n >> 8), (uint8_t)n};
    if (fwrite(b, 1, 4, out) != 4) stop("cannot write");
}

struct bytes {
    uint32_t length;
    uint8_t at[ROOM];
};

static inline void bytes(FILE *in, struct bytes *to) {
    to->length = number(in);
    if (to->length > ROOM) stop("a part of the file is too long");
    if (fread(to->at, 1, to->length, in) != to->length) stop("the file is cut short");
}

static inline uint8_t *room(void) {
    uint8_t *all = mmap(NULL, ROOM + 2 * PAGE, PROT_READ | PROT_WRITE, MAP_PRIVATE | MAP_ANONYMOUS, -1, 0);
    if (all == MAP_FAILED) stop("no memory");
    if (mprotect(all, PAGE, PROT_NONE) || mprotect(all + PAGE + ROOM, PAGE, PROT_NONE)) stop("no guard pages");
    return all + PAGE;
}

/* A part at the end of a room, or at its start. */
static inline uint8_t *lend(uint8_t *room, const struct bytes *part, int end) {
    uint8_t *at = end ? room + ROOM - part->length : room;
    memcpy(at, part->at, part->length);
    return at;
}
#endif
