/* cases CASES ANSWERS: runs a case file of the second program through the library, and writes what it answered to ANSWERS, for
 * `second compare CASES ANSWERS`.
 *
 * Each case is run twice: image, request and list (of reports in bulk the three lists) each end where an inaccessible page begins,
 * then each begins where one ends. A byte read or written outside stops the program; so do two answers that differ, and an image,
 * request or list of reports that was changed. */
#include "lent.h"
#include "../include/ifc.h"

enum { MOST = 16, RECORD = 5 }; /* numbers of a case but its lists; numbers of a session */
enum { CHECK, OPEN, ADVANCE, REPORT, LIST, SERVER, INFORMATION, SHOW, REPORTS, PLAIN };

static void put_bytes(FILE *out, const struct bytes *from) {
    put(out, from->length);
    if (fwrite(from->at, 1, from->length, out) != from->length) stop("cannot write");
}

static void put_numbers(FILE *out, const uint32_t *n, uint32_t count) {
    put(out, count);
    for (uint32_t i = 0; i < count; i++) put(out, n[i]);
}

/* ---- one case */

struct one {
    uint32_t call, count;
    uint32_t n[MOST];
    struct bytes label, image, request, list;
};

static void read_one(FILE *in, struct one *c) {
    c->call = number(in);
    bytes(in, &c->label);
    bytes(in, &c->image);
    bytes(in, &c->request);
    bytes(in, &c->list);
    c->count = number(in);
    if (c->count > MOST) stop("a case has too many numbers");
    for (uint32_t i = 0; i < c->count; i++) c->n[i] = number(in);
}

/* What a case lends: each in a room of its own. */
struct lent {
    uint8_t *image, *request, *list;
};

static uint32_t call(const struct one *c, const struct lent *at, uint32_t *n) {
    const uint8_t *image = at->image;
    size_t length = c->image.length;
    switch (c->call) {
    case CHECK: return ifc_check(image, length, &n[0]);
    case OPEN: return ifc_open(n[0], &n[1], &n[2], &n[3], &n[4], &n[5]);
    case ADVANCE:
        return ifc_advance(image, length, at->request, c->request.length, n[0], &n[1], &n[2], &n[3], &n[4], &n[5], &n[6], &n[7],
            &n[8], &n[9], &n[10]);
    case LIST:
        return ifc_list(image, length, at->request, c->request.length, n[0], n[1], at->list, c->list.length, &n[2], &n[3], &n[4],
            &n[5]);
    case REPORT: return ifc_report(n[0], &n[1], n[2], n[3], n[4], n[5]);
    case SERVER: return ifc_server(image, length, n[0], &n[1], &n[2], &n[3]);
    case INFORMATION: return ifc_information(image, length, n[0], &n[1], &n[2], &n[3], &n[4]);
    case SHOW:
        return ifc_show(image, length, at->request, c->request.length, n[0], &n[1], &n[2], &n[3], &n[4], &n[5], &n[6]);
    /* a pattern where the others have the image, a text where they have the request */
    case PLAIN: return ifc_plain(image, length, at->request, c->request.length, &n[0], &n[1], &n[2]);
    default: stop("a call that there is not"); return 0;
    }
}

/* ---- reports in bulk: numbers of 4 bytes, big-endian, stand in the case's request and list */

static void unpack(uint32_t *to, const uint8_t *from, size_t count) {
    for (size_t i = 0; i < count; i++, from += 4)
        to[i] = (uint32_t)from[0] << 24 | (uint32_t)from[1] << 16 | (uint32_t)from[2] << 8 | from[3];
}

static void pack(uint8_t *to, const uint32_t *from, size_t count) {
    for (size_t i = 0; i < count; i++)
        for (int k = 0; k < 4; k++) *to++ = (uint8_t)(from[i] >> (24 - 8 * k));
}

/* So many numbers at the end of a room, or at its start. */
static uint32_t *numbers_at(uint8_t *room, size_t count, int end) {
    return (uint32_t *)(void *)(end ? room + ROOM - 4 * count : room);
}

static uint32_t run_reports(const struct one *c, const struct lent *rooms, int end, struct bytes *list) {
    size_t sessions_len = c->n[0], reports_len = c->n[1], refusals_len = c->n[2];
    uint32_t *records = numbers_at(rooms->image, RECORD * sessions_len, end), *reports = numbers_at(rooms->request, reports_len, end),
             *refusals = numbers_at(rooms->list, refusals_len, end);
    static uint32_t before[ROOM / 4];
    if (c->request.length != 4 * reports_len || c->list.length != 4 * (RECORD * sessions_len + refusals_len)) stop("lists of other lengths");
    unpack(records, c->list.at, RECORD * sessions_len);
    unpack(refusals, c->list.at + 4 * RECORD * sessions_len, refusals_len);
    unpack(reports, c->request.at, reports_len);
    memcpy(before, reports, 4 * reports_len);
    uint32_t refusal = ifc_reports((ifc_session *)(void *)records, sessions_len, reports, reports_len, refusals, refusals_len);
    if (memcmp(before, reports, 4 * reports_len)) stop("what was lent to be read was changed");
    list->length = c->list.length;
    pack(list->at, records, RECORD * sessions_len);
    pack(list->at + 4 * RECORD * sessions_len, refusals, refusals_len);
    return refusal;
}

static int changed(const uint8_t *at, const struct bytes *part) { return memcmp(at, part->at, part->length) != 0; }

/* Runs a case at one end of the rooms; the answer's numbers are left in n, its list in `list`. */
static uint32_t run(const struct one *c, const struct lent *rooms, int end, uint32_t *n, struct bytes *list) {
    memcpy(n, c->n, sizeof c->n);
    if (c->call == REPORTS) return run_reports(c, rooms, end, list);
    struct lent at = {lend(rooms->image, &c->image, end), lend(rooms->request, &c->request, end),
        lend(rooms->list, &c->list, end)};
    uint32_t refusal = call(c, &at, n);
    if (changed(at.image, &c->image) || changed(at.request, &c->request)) stop("what was lent to be read was changed");
    list->length = c->list.length;
    memcpy(list->at, at.list, c->list.length);
    return refusal;
}

int main(int argc, char **argv) {
    static struct one c;
    static struct bytes list, again;
    if (argc != 3) stop("cases CASES ANSWERS");
    FILE *in = fopen(argv[1], "rb"), *answers = fopen(argv[2], "wb");
    if (!in || !answers) stop("cannot open a file");
    struct lent rooms = {room(), room(), room()};
    if (number(in) != 0x49464343) stop("not a case file");
    uint32_t count = number(in);
    put(answers, 0x49464341), put(answers, count);
    for (uint32_t i = 0; i < count; i++) {
        uint32_t at_end[MOST], at_start[MOST];
        read_one(in, &c);
        uint32_t first = run(&c, &rooms, 1, at_end, &list);
        uint32_t second = run(&c, &rooms, 0, at_start, &again);
        if (first != second || memcmp(at_end, at_start, sizeof at_end) || memcmp(list.at, again.at, list.length))
            stop("one case has two answers");
        put(answers, first);
        put_bytes(answers, &list);
        put_numbers(answers, at_end, c.count);
    }
    if (fclose(answers)) stop("cannot write");
    return 0;
}
