/* Counting the parts of a request, against plain C of the same passes: a usual INVITE, and each shape that could cost more than
 * its bytes, at four sizes. `grows` is the time against that of the size before: 2 where the time is linear. Then INVITEs with long
 * values, whose heads have 1, 4, 16 and 64 KB; and in them the search for the end of the head alone, against plain C that looks at
 * every byte and against plain C that looks at every second one.
 *
 * request count SIDE TIMES   one row of the INVITEs with long values by one contender, for counting instructions from outside */
#include <stddef.h>
#include <stdint.h>
#include <stdio.h>
#include <stdlib.h>
#include <string.h>
#include <time.h>

typedef uint32_t parts(const uint8_t *request, size_t length, uint32_t *fields, uint32_t *values, uint32_t *lines);
parts request_parts, plain_parts;
typedef size_t search(const uint8_t *request, size_t length);
search request_head, plain_head_by_byte, plain_head_by_second;

enum { MOST = 65535 };
static uint8_t request[MOST];
static size_t length;

static const char invite[] =
    "INVITE sip:+4420718205550@desk.example.net;user=phone SIP/2.0\r\n"
    "Via: SIP/2.0/UDP 192.0.2.41:5060;branch=z9hG4bK776asdhds;rport, SIP/2.0/TCP edge.example.net;branch=z9hG4bK87asdks7\r\n"
    "Max-Forwards: 68\r\n"
    "Route: <sip:scscf.example.net;lr>, <sip:icscf.example.net;lr>\r\n"
    "From: \"Trading Desk, Room 4\" <sip:desk4@example.net>;tag=1928301774\r\n"
    "To: <sip:+4420718205550@example.net;user=phone>\r\n"
    "Call-ID: a84b4c76e66710@desk4.example.net\r\n"
    "CSeq: 314159 INVITE\r\n"
    "Contact: <sip:desk4@192.0.2.41:5060;transport=udp>;+g.3gpp.icsi-ref=\"urn%3Aurn-7%3A3gpp-service.ims.icsi.mmtel\"\r\n"
    "P-Asserted-Identity: \"Desk 4\" <sip:desk4@example.net>, <tel:+442071820001>\r\n"
    "Allow: INVITE, ACK, CANCEL, BYE, OPTIONS, UPDATE, PRACK, REFER, NOTIFY\r\n"
    "Supported: 100rel, timer, replaces,\r\n precondition\r\n"
    "Subject: Call, with commas\r\n"
    "Content-Type: application/sdp\r\n"
    "Content-Length: 190\r\n"
    "\r\n"
    "v=0\r\no=desk4 2890844526 2890844526 IN IP4 192.0.2.41\r\ns=-\r\nc=IN IP4 192.0.2.41\r\nt=0 0\r\n"
    "m=audio 49172 RTP/AVP 8 0 101\r\na=rtpmap:8 PCMA/8000\r\na=rtpmap:101 telephone-event/8000\r\na=sendrecv\r\n";

/* ---- shapes */

static void text(const char *t) { memcpy(request + length, t, strlen(t)), length += strlen(t); }

/* `again` as often as it fits between `head` and `last`. */
static void fill(size_t size, const char *head, const char *again, const char *last) {
    length = 0;
    text(head);
    while (length + strlen(again) + strlen(last) <= size) text(again);
    text(last);
}

static void folds(size_t size) { fill(size, "A b SIP/2.0\r\nX:", "\r\n ", "\r\n\r\n"); }
static void commas(size_t size) { fill(size, "A b SIP/2.0\r\nX:", ",", "\r\n\r\n"); }
static void fields(size_t size) { fill(size, "A b SIP/2.0\r\n", "a:\r\n", "\r\n"); }
static void blanks(size_t size) { fill(size, "A b SIP/2.0\r\nX", " ", ":\r\n\r\n"); }
static void value(size_t size) { fill(size, "A b SIP/2.0\r\nX: ", "a", "\r\n\r\n"); }
static void lines(size_t size) { fill(size, "A b SIP/2.0\r\nc:application/sdp\r\n\r\n", "a=\n", ""); }

/* An INVITE whose head has `size` bytes, in lines of some 500. */
static void invite_of(size_t size) {
    static const char start[] = "INVITE sip:+4420718205550@desk.example.net;user=phone SIP/2.0", name[] = "\r\nP-Charging-Vector: ";
    length = 0;
    text(start);
    while (length < size) {
        size_t from = length, line = size - from < 1000 ? size - from : 500;
        text(name);
        while (length < from + line) request[length] = (uint8_t)"icid-value=1234bc9876e;icid-generated-at=192.0.2.41;"[length % 52], length++;
    }
    text("\r\n\r\n");
}

/* ---- times */

/* Of the processor's time, so that others on the machine count less. */
static double now(void) {
    struct timespec t;
    clock_gettime(CLOCK_PROCESS_CPUTIME_ID, &t);
    return (double)t.tv_sec * 1e9 + (double)t.tv_nsec;
}

static double once(parts *count, uint32_t times, uint32_t *n) {
    double from = now();
    for (uint32_t i = 0; i < times; i++) n[0] = count(request, length, &n[1], &n[2], &n[3]);
    return (now() - from) / times;
}

/* The largest of all rows. */
static double most_ratio, most_growth;

/* The best of several runs, in turn, so that a slow moment of the machine hits both. */
static double line(const char *name, double before) {
    double rattle = 1e18, plain = 1e18;
    uint32_t times = 1 + 400000 / (uint32_t)(length + 100), n[4], m[4];
    for (int i = 0; i < 9; i++) {
        double t = once(request_parts, times, n), u = once(plain_parts, times, m);
        if (t < rattle) rattle = t;
        if (u < plain) plain = u;
        if (memcmp(n, m, sizeof n) || n[0]) fprintf(stderr, "%s: the two do not agree, or refuse\n", name), exit(1);
    }
    printf("%-8s %6zu %7u %7u %7u %10.0f %10.0f %6.2f", name, length, n[1], n[2], n[3], rattle, plain, rattle / plain);
    if (before > 0) printf(" %6.2f", rattle / before);
    if (rattle / plain > most_ratio) most_ratio = rattle / plain;
    if (before > 0 && rattle / before > most_growth) most_growth = rattle / before;
    printf("\n");
    return rattle;
}

static void shape(const char *name, void (*make)(size_t)) {
    double before = 0;
    for (size_t size = 8192; size <= 65536; size *= 2) {
        make(size < MOST ? size : MOST);
        before = line(name, before);
    }
}

/* ---- the search alone */

static const size_t sizes[] = {1024, 4096, 16384, MOST - 4};
static search *const finds[] = {request_head, plain_head_by_byte, plain_head_by_second};
static volatile size_t found;

static double once_searched(search *find, uint32_t times) {
    double from = now();
    for (uint32_t i = 0; i < times; i++) found = find(request, length);
    return (now() - from) / times;
}

static void searching(void) {
    printf("\n%-8s %6s %10s %12s %12s %8s %8s\n", "search", "head", "ns", "C by byte", "C by second", "to it", "to it");
    for (int k = 0; k < 4; k++) {
        double best[3] = {1e18, 1e18, 1e18};
        invite_of(sizes[k]);
        for (int i = 0; i < 27; i++) {
            double t = once_searched(finds[i % 3], 1 + 4000000 / (uint32_t)length);
            if (found != sizes[k]) fprintf(stderr, "search: the end of the head was not found\n"), exit(1);
            if (t < best[i % 3]) best[i % 3] = t;
        }
        printf("%-8s %6zu %10.0f %12.0f %12.0f %8.2f %8.2f\n", "long", sizes[k], best[0], best[1], best[2], best[0] / best[1], best[0] / best[2]);
    }
}

/* Three searches of each size, then two readings. Prints the side's name; nothing, if there is no such side. */
static void count_side(uint32_t side, uint32_t times) {
    static const char *const names[] = {
        "finding the end of the head", "  plain C, every byte", "  plain C, every second byte", "reading the request", "  plain C"};
    uint32_t n[3], which = side % 5;
    if (side >= 20) return;
    invite_of(sizes[side / 5]);
    for (uint32_t i = 0; i < times; i++)
        if (which < 3) found = finds[which](request, length);
        else found = (which == 3 ? request_parts : plain_parts)(request, length, &n[0], &n[1], &n[2]);
    printf("%s, %zu\n", names[which], sizes[side / 5]);
}

int main(int argc, char **argv) {
    if (argc > 3 && strcmp(argv[1], "count") == 0) {
        count_side((uint32_t)strtoul(argv[2], NULL, 10), (uint32_t)strtoul(argv[3], NULL, 10));
        return 0;
    }
    printf("%-8s %6s %7s %7s %7s %10s %10s %6s %6s\n", "shape", "bytes", "fields", "values", "lines", "ns", "plain ns", "ratio", "grows");
    length = 0;
    text(invite);
    line("invite", 0);
    shape("folds", folds);
    shape("commas", commas);
    shape("fields", fields);
    shape("blanks", blanks);
    shape("value", value);
    shape("lines", lines);
    for (int k = 0; k < 4; k++) invite_of(sizes[k]), line("long", 0);
    printf("\nin every row at most %.2f of plain C's time, and %.2f times that of half the size\n", most_ratio, most_growth);
    searching();
    return 0;
}
