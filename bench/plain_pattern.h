#ifndef PLAIN_PATTERN_H
#define PLAIN_PATTERN_H
#include <stddef.h>
#include <stdint.h>

/* What `pattern_lines` answers, by the same algorithm in C. */
uint32_t plain_lines(const uint8_t *pattern, size_t pattern_len, uint32_t fold, const uint8_t *block, size_t block_len, uint32_t *met);

/* What `lines_as_patterns` answers: one machine for all lines. */
void plain_patterns(const uint8_t *block, size_t block_len, uint32_t fold, const uint8_t *text, size_t text_len, uint32_t *met);

#endif
