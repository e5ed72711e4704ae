/* An advance in plain C, the yardstick of the bench: what it answers is said in ../include/ifc.h. */
#ifndef PLAIN_H
#define PLAIN_H
#include <stddef.h>
#include <stdint.h>

uint32_t plain_advance(const uint8_t *image, size_t image_len, const uint8_t *request, size_t request_len, uint32_t session_case,
    uint32_t *state, uint32_t *forwarded, uint32_t *last, uint32_t *handling, uint32_t *place, uint32_t *outcome,
    uint32_t *criterion, uint32_t *priority, uint32_t *examined, uint32_t *trials);

#endif
