/* lines LINES ANSWERS: runs the blocks of lines of the second program through libprobes.a and writes what it answered to
 * ANSWERS, for `second lines compare LINES ANSWERS`.
 *
 * Each block is run twice: pattern and block end where an inaccessible page begins, then begin where one ends. A byte read outside
 * them stops the program; two answers that differ do, too.
 *
 * The pattern and the one of the case before are also read as the lines of one block, into the same places, and tried on each line of
 * the case: a count that is not the sum of what `pattern_lines` says of each alone stops the program. */
#include "lent.h"

uint32_t pattern_lines(const uint8_t *pattern, size_t pattern_len, uint32_t fold, const uint8_t *block, size_t block_len, uint32_t *met);
void lines_as_patterns(const uint8_t *block, size_t block_len, uint32_t fold, const uint8_t *text, size_t text_len, uint32_t *met);

struct answer {
    uint32_t number, met;
};

/* Runs a block at one end of the rooms. */
static struct answer run(const struct bytes *pattern, uint32_t fold, const struct bytes *block, uint8_t *const rooms[2], int end) {
    struct answer a = {0xDEADBE00, 0xDEADBE01};
    a.number = pattern_lines(lend(rooms[0], pattern, end), pattern->length, fold, lend(rooms[1], block, end), block->length, &a.met);
    return a;
}

static void append(struct bytes *to, const uint8_t *from, size_t length) {
    if (length > ROOM - to->length) stop("a block of patterns is too long");
    memcpy(to->at + to->length, from, length);
    to->length += (uint32_t)length;
}

/* The line that starts at a place of the block. */
static void take_line(struct bytes *line, const struct bytes *block, size_t at) {
    const uint8_t *from = block->at + at, *lf = memchr(from, '\n', block->length - at);
    line->length = 0;
    append(line, from, lf ? (size_t)(lf - from) : block->length - at);
}

/* Two patterns as the lines of one block, on one text. */
static void try_both(const struct bytes *former, const struct bytes *pattern, uint32_t fold, const struct bytes *text, uint8_t *const rooms[2]) {
    static struct bytes both;
    both.length = 0;
    append(&both, former->at, former->length), append(&both, (const uint8_t *)"\n", 1), append(&both, pattern->at, pattern->length);
    uint32_t alone = run(former, fold, text, rooms, 1).met + run(pattern, fold, text, rooms, 1).met;
    for (int end = 0; end <= 1; end++) {
        uint32_t met = 0xDEADBE02;
        lines_as_patterns(lend(rooms[0], &both, end), both.length, fold, lend(rooms[1], text, end), text->length, &met);
        if (met != alone) stop("two patterns of one block match otherwise than alone");
    }
}

int main(int argc, char **argv) {
    static struct bytes former, pattern, block, line;
    if (argc != 3) stop("lines LINES ANSWERS");
    FILE *in = fopen(argv[1], "rb"), *answers = fopen(argv[2], "wb");
    if (!in || !answers) stop("cannot open a file");
    uint8_t *const rooms[2] = {room(), room()};
    if (number(in) != 0x4946434C) stop("not a file of lines");
    uint32_t count = number(in);
    put(answers, 0x4946434D), put(answers, count);
    for (uint32_t i = 0; i < count; i++) {
        bytes(in, &pattern);
        uint32_t fold = number(in);
        bytes(in, &block);
        struct answer first = run(&pattern, fold, &block, rooms, 1), second = run(&pattern, fold, &block, rooms, 0);
        if (first.number != second.number || first.met != second.met) stop("one block has two answers");
        put(answers, first.number), put(answers, first.met);
        if (memchr(pattern.at, '\n', pattern.length)) continue;
        for (size_t at = 0; at <= block.length; at += line.length + 1) {
            take_line(&line, &block, at);
            try_both(&former, &pattern, fold, &line, rooms);
        }
        former.length = 0;
        append(&former, pattern.at, pattern.length);
    }
    if (fclose(answers)) stop("cannot write");
    return 0;
}
