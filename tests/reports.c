/* Reports in bulk (change request 8) against single ones: every record of small and large numbers with every report, in lists of every
 * length up to 258, and of lengths that differ. Each list ends where an inaccessible page begins, then begins where one ends. So the
 * struct's layout in C is the library's: a field at another place, or a record of another size, gives another answer. */
#include "lent.h"
#include "../include/ifc.h"

enum { LONGEST = 258, UNWRITTEN = 0x5EED };

static uint8_t *rooms[3];
static ifc_session drawn[4096];
static uint32_t news[4096];
static size_t pairs;

static void fail(const char *what, size_t a, size_t b, size_t c) {
    printf("reports: %s (lengths %lu, %lu, %lu)\n", what, (unsigned long)a, (unsigned long)b, (unsigned long)c);
    exit(1);
}

static void draw_all(void) {
    static const uint32_t cases[] = {0, 3, 4, 259}, states[] = {0, 1, 1, 1, 2, 3, 4, 257}, flags[] = {0, 1, 1, 2},
                          lasts[] = {0, 7, 0x01020304}, defaults[] = {0, 1, 2}, reports[] = {0, 1, 2, 3, 256};
    uint32_t step = 0;
    for (size_t a = 0; a < 4; a++)
        for (size_t b = 0; b < 8; b++)
            for (size_t c = 0; c < 4; c++)
                for (size_t d = 0; d < 3; d++)
                    for (size_t e = 0; e < 3; e++, pairs++) {
                        drawn[pairs] = (ifc_session){.session_case = cases[a], .state = states[b], .forwarded = flags[c],
                            .last = lasts[d], .handling = defaults[e]};
                        news[pairs] = reports[step++ % 5];
                    }
}

/* A list of so many entries of so many bytes, at an end of its room. */
static void *at(int which, size_t bytes, int end) { return end ? rooms[which] + ROOM - bytes : rooms[which]; }

static void run(size_t from, size_t a, size_t b, size_t c, int end) {
    ifc_session *sessions = at(0, a * sizeof *sessions, end);
    uint32_t *reports = at(1, 4 * b, end), *refusals = at(2, 4 * c, end), expected = a == b && a == c && a <= 256 ? 0 : 17;
    for (size_t i = 0; i < a; i++) sessions[i] = drawn[(from + i) % pairs];
    for (size_t i = 0; i < b; i++) reports[i] = news[(from + i) % pairs];
    for (size_t i = 0; i < c; i++) refusals[i] = UNWRITTEN;
    uint32_t refusal = ifc_reports(a ? sessions : NULL, a, b ? reports : NULL, b, c ? refusals : NULL, c);
    if (refusal != expected) fail("the call's number is wrong", a, b, c);
    for (size_t i = 0; i < b; i++)
        if (reports[i] != news[(from + i) % pairs]) fail("a report was changed", a, b, c);
    for (size_t i = 0; i < a; i++) {
        ifc_session single = drawn[(from + i) % pairs];
        uint32_t number = refusal ? 0 : ifc_session_report(&single, news[(from + i) % pairs]);
        if (memcmp(&single, &sessions[i], sizeof single)) fail("a session is not as the single call leaves it", a, b, c);
        if (!refusal && refusals[i] != number) fail("a number is not the single call's", a, b, c);
    }
    for (size_t i = 0; refusal && i < c; i++)
        if (refusals[i] != UNWRITTEN) fail("a list was touched", a, b, c);
}

int main(void) {
    static const size_t some[] = {0, 1, 2, 255, 256, 257};
    size_t calls = 0, seen[11] = {0};
    for (int i = 0; i < 3; i++) rooms[i] = room();
    draw_all();
    for (size_t i = 0; i < pairs; i++) {
        ifc_session single = drawn[i];
        seen[ifc_session_report(&single, news[i])]++;
    }
    if (seen[0] < 20 || seen[8] < 20 || seen[10] < 20) fail("the records drawn are too much alike", pairs, seen[0], seen[8]);
    for (size_t n = 0; n <= LONGEST; n++)
        for (int end = 0; end < 2; end++, calls++) run(5 * n, n, n, n, end);
    for (size_t from = 0; from < pairs; from += 256, calls++) run(from, 256, 256, 256, 1);
    for (size_t a = 0; a < 6; a++)
        for (size_t b = 0; b < 6; b++)
            for (size_t c = 0; c < 6; c++, calls++) run(0, some[a], some[b], some[c], 1);
    printf("reports: ok (%lu calls)\n", (unsigned long)calls);
    return 0;
}
