/* What `pattern_lines` and `lines_as_patterns` answer, by the same algorithm in C. */
#include "plain_pattern.h"
#include "plain_machine.h"

/* Where the line that starts at a place ends. */
static size_t line_end(const uint8_t *block, size_t block_len, size_t at) {
    while (at < block_len && block[at] != '\n') at++;
    return at;
}

uint32_t plain_lines(const uint8_t *pattern, size_t pattern_len, uint32_t fold, const uint8_t *block, size_t block_len, uint32_t *met) {
    struct machine m;
    uint32_t count = 0;
    *met = 0;
    if (!prepare(&m, pattern, pattern_len, fold != 0)) return 5;
    for (size_t at = 0; at <= block_len;) {
        size_t end = line_end(block, block_len, at);
        count += (uint32_t)matches(&m, block + at, end - at);
        at = end + 1;
    }
    *met = count;
    return 0;
}

void plain_patterns(const uint8_t *block, size_t block_len, uint32_t fold, const uint8_t *text, size_t text_len, uint32_t *met) {
    struct machine m;
    uint32_t count = 0;
    for (size_t at = 0; at <= block_len;) {
        size_t end = line_end(block, block_len, at);
        if (prepare(&m, block + at, end - at, fold != 0)) count += (uint32_t)matches(&m, text, text_len);
        at = end + 1;
    }
    *met = count;
}
