/* parts REQUESTS COUNTS: counts the parts of each request of the second program's file and finds where its head ends, for `second
 * parts compare`.
 *
 * Each request is taken twice: it ends where an inaccessible page begins, then begins where one ends. The lent numbers hold
 * something else each time, so that one which is not written shows. */
#include "lent.h"

enum { NUMBERS = 5 };
uint32_t request_parts(const uint8_t *request, size_t length, uint32_t *fields, uint32_t *values, uint32_t *lines);
size_t request_head(const uint8_t *request, size_t length);

static void count(const uint8_t *request, size_t length, uint32_t before, uint32_t *n) {
    n[1] = n[2] = n[3] = before;
    n[0] = request_parts(request, length, &n[1], &n[2], &n[3]);
    n[4] = (uint32_t)request_head(request, length);
}

int main(int argc, char **argv) {
    static struct bytes request;
    if (argc != 3) stop("parts REQUESTS COUNTS");
    FILE *in = fopen(argv[1], "rb"), *out = fopen(argv[2], "wb");
    if (!in || !out) stop("cannot open a file");
    uint8_t *lent = room();
    if (number(in) != 0x49464352) stop("not a file of requests");
    uint32_t many = number(in);
    put(out, 0x49464350), put(out, many);
    for (uint32_t i = 0; i < many; i++) {
        uint32_t at_end[NUMBERS], at_start[NUMBERS];
        bytes(in, &request);
        count(lend(lent, &request, 1), request.length, 0xDEADBE00, at_end);
        count(lend(lent, &request, 0), request.length, 0xDEADBE01, at_start);
        if (memcmp(at_end, at_start, sizeof at_end)) stop("one request has two answers");
        for (int k = 0; k < NUMBERS; k++) put(out, at_end[k]);
    }
    if (fclose(out)) stop("cannot write");
    return 0;
}
