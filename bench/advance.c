/* advance                    one typical advance beside its peers, and how an advance grows with what it is given
 * advance worst              the dearest advances we found, each once: it takes long
 * advance count SIDE TIMES   the typical advance by one side, for counting instructions from outside
 *
 * Typical: an INVITE of 1,076 bytes with 15 fields and 13 lines of SDP; ten criteria of four rows each (method, presence of a
 * header, content of a header, line of SDP). In the first nine the last row fails, so that all forty rows are judged. */
#include <stddef.h>
#include <stdint.h>
#include <stdio.h>
#include <stdlib.h>
#include <string.h>
#include "../examples/image.h"
#include "../include/ifc.h"
#include "clock.h"
#include "peers.h"
#include "plain.h"

static const char invite[] =
    "INVITE sip:+441632960123@ims.example.net;user=phone SIP/2.0\r\n"
    "Via: SIP/2.0/UDP pcscf1.ims.example.net:5060;branch=z9hG4bK776asdhds, SIP/2.0/UDP 192.0.2.14:5060;branch=z9hG4bKnashds8\r\n"
    "Max-Forwards: 68\r\n"
    "Route: <sip:orig@scscf1.ims.example.net;lr>\r\n"
    "Record-Route: <sip:pcscf1.ims.example.net;lr>, <sip:ibcf.ims.example.net;lr>\r\n"
    "From: \"Desk 14\" <sip:desk14@ims.example.net>;tag=1928301774\r\n"
    "To: <tel:+441632960123>\r\n"
    "Call-ID: a84b4c76e66710ab12cd34@192.0.2.14\r\n"
    "CSeq: 314159 INVITE\r\n"
    "Contact: <sip:desk14@192.0.2.14:5060>;+g.3gpp.icsi-ref=\"urn%3Aurn-7%3A3gpp-service.ims.icsi.mmtel\"\r\n"
    "P-Asserted-Identity: \"Desk 14\" <sip:desk14@ims.example.net>\r\n"
    "P-Access-Network-Info: IEEE-802.3;eth-location=\"floor-3\"\r\n"
    "Allow: INVITE, ACK, CANCEL, BYE, PRACK, UPDATE\r\n"
    "Supported: 100rel, timer, precondition\r\n"
    "Content-Type: application/sdp\r\n"
    "Content-Length: 241\r\n"
    "\r\n"
    "v=0\r\n"
    "o=desk14 2890844526 2890844526 IN IP4 192.0.2.14\r\n"
    "s=-\r\n"
    "c=IN IP4 192.0.2.14\r\n"
    "t=0 0\r\n"
    "m=audio 49170 RTP/AVP 0 8 97\r\n"
    "b=AS:64\r\n"
    "a=rtpmap:0 PCMU/8000\r\n"
    "a=rtpmap:8 PCMA/8000\r\n"
    "a=rtpmap:97 iLBC/8000\r\n"
    "a=ptime:20\r\n"
    "a=sendrecv\r\n"
    "a=curr:qos local none\r\n";

/* presence, header, its content, line, its content */
static const char *const typical[10][5] = {
    {"^P-Asserted-Identity$", "^From$", "sip:desk[0-9]*@ims", "m", "^video"},
    {"^Contact$", "^Contact$", "3gpp-service\\.ims", "a", "inactive"},
    {"^Route$", "^To$", "tel:+44", "m", "^message"},
    {"^P-Access-Network-Info$", "^P-Access", "802\\.3", "a", "rtpmap:.*AMR"},
    {"Supported", "^Supported$", "precondition", "a", "^des:qos"},
    {"^Allow$", "^Allow$", "PRACK", "b", "^AS:[0-9][0-9][0-9]"},
    {"^Record-Route$", "Route", "scscf[0-9]", "c", "IP6"},
    {"^Content-Type$", "^Content-Type$", "^application/sdp$", "m", "RTP/SAVP"},
    {"^Max-Forwards$", "^P-Asserted-Identity$", "Desk [0-9]*", "a", "crypto"},
    {"^Via$", "^Call-ID$", "@192\\.0\\.2\\.", "m", "^audio.*AVP"},
};

static struct image_builder builder;
static uint8_t image[IMAGE_MOST], request[65536];
static size_t image_len, request_len;

static void stop(const char *why) {
    fprintf(stderr, "advance: %s\n", why);
    exit(1);
}

static void build(void) {
    uint32_t place;
    image_len = image_end(&builder, image, sizeof image);
    if (image_len == 0 || ifc_check(image, image_len, &place)) stop("not an image");
}

static void header_row(const char *name, const char *content, int group) {
    image_row(&builder, (struct image_row){.kind = ROW_HEADER, .first = name, .content = content, .group = group});
}

static void line_row(const char *type, const char *content, int group) {
    image_row(&builder, (struct image_row){.kind = ROW_LINE, .first = type, .content = content, .group = group});
}

static void criterion(uint32_t priority) {
    image_criterion(&builder, (struct image_criterion){.priority = priority, .part = PART_REGISTERED, .form = FORM_CNF,
        .server = "sip:recorder@ims.example.net", .handling = HANDLING_TERMINATED});
}

static void typical_profile(void) {
    image_begin(&builder);
    for (uint32_t i = 0; i < 10; i++) {
        image_row(&builder, (struct image_row){.kind = ROW_METHOD, .first = "INVITE"});
        header_row(typical[i][0], NULL, 1);
        header_row(typical[i][1], typical[i][2], 2);
        line_row(typical[i][3], typical[i][4], 3);
        criterion(10 * (i + 1));
    }
    build();
}

static void typical_request(void) {
    request_len = sizeof invite - 1;
    memcpy(request, invite, request_len);
}

/* ---- the sides: each answers the criterion found, -1 for none */

struct answer {
    uint32_t outcome, criterion, priority, examined, trials;
};

static struct answer found;

static int by_library(void) {
    uint32_t state = 0, forwarded = 0, last = 0, handling = 0, place;
    struct answer *a = &found;
    if (ifc_advance(image, image_len, request, request_len, 0, &state, &forwarded, &last, &handling, &place, &a->outcome,
            &a->criterion, &a->priority, &a->examined, &a->trials))
        stop("the library refuses");
    return a->outcome == 1 ? (int)a->criterion : -1;
}

static int by_plain(void) {
    uint32_t state = 0, forwarded = 0, last = 0, handling = 0, place;
    struct answer a;
    if (plain_advance(image, image_len, request, request_len, 0, &state, &forwarded, &last, &handling, &place, &a.outcome,
            &a.criterion, &a.priority, &a.examined, &a.trials))
        stop("the plain C refuses");
    return a.outcome == 1 ? (int)a.criterion : -1;
}

/* Of the library's time, that for judging the image. */
static int judging(void) {
    uint32_t place;
    return ifc_check(image, image_len, &place) == 0 ? (int)found.criterion : -1;
}

static int by_regcomp(void) { return peer_advance(request, request_len, 0, PEER_REGCOMP); }
static int by_regexec(void) { return peer_advance(request, request_len, 0, PEER_REGEXEC); }
#ifdef WITH_PCRE2
static int by_pcre2(void) { return peer_advance(request, request_len, 0, PEER_PCRE2); }
#endif
#ifdef WITH_RE2
static int by_re2(void) { return peer_advance(request, request_len, 0, PEER_RE2); }
#endif

/* ---- side by side: the best of several rounds */

static const struct {
    const char *name;
    int (*side)(void);
} sides[] = {
    {"ifc_advance", by_library},
    {"    of which judging the image (ifc_check)", judging},
    {"(a) regcomp and regexec at each evaluation", by_regcomp},
    {"(b) regexec, patterns compiled before", by_regexec},
    {"(c) plain C of our algorithm", by_plain},
#ifdef WITH_PCRE2
    {"(d) PCRE2, patterns compiled to code before", by_pcre2},
#endif
#ifdef WITH_RE2
    {"(e) RE2, patterns compiled before", by_re2},
#endif
};
enum { SIDES = sizeof sides / sizeof *sides };

static void typical_case(void) {
    typical_profile(), typical_request();
    peer_load(image, image_len);
}

static void side_by_side(void) {
    double best[SIDES];
    uint32_t times[SIDES];
    typical_case();
    int right = by_library();
    for (int i = 0; i < SIDES; i++) {
        if (sides[i].side() != right) stop("two sides find different criteria");
        best[i] = 1e18, times[i] = times_for(sides[i].side);
    }
    for (int round = 0; round < 15; round++)
        for (int i = 0; i < SIDES; i++) {
            double t = once(sides[i].side, times[i]);
            if (t < best[i]) best[i] = t;
        }
    printf("One advance: image of %u bytes, request of %u; criterion %d of 10, examined %u, trials %u\n", (unsigned)image_len,
        (unsigned)request_len, right, found.examined, found.trials);
    printf("  %-46s %10s %14s\n", "", "us", "times ifc's");
    for (int i = 0; i < SIDES; i++) printf("  %-46s %10.2f %14.2f\n", sides[i].name, best[i] / 1e3, best[i] / best[0]);
    printf("  The library and (c) judge the image at each advance and try every row on every part. The others have it parsed\n"
           "  before, do not judge it, and stop at the first part that matches.\n\n");
}

/* ---- growth: what is doubled, the rest kept */

static void put(const char *text) {
    size_t n = strlen(text);
    if (request_len + n > 65535) stop("the request is too long");
    memcpy(request + request_len, text, n), request_len += n;
}

static void begin_request(void) {
    request_len = 0;
    put("INVITE sip:a@b SIP/2.0\r\n");
}

static void one_row(const char *name, const char *content) {
    image_begin(&builder);
    header_row(name, content, 0);
    criterion(1);
    build();
}

static void fields(uint32_t n) {
    one_row("^P-Asserted-Identity$", "desk");
    begin_request();
    for (uint32_t i = 0; i < n; i++) put("Via: sip\r\n");
    put("\r\n");
}

static void values(uint32_t n) {
    one_row("^Allow$", "NOTIFY");
    begin_request();
    put("Allow: INVITE");
    for (uint32_t i = 1; i < n; i++) put(", ACK");
    put("\r\n\r\n");
}

static void body(uint32_t n) {
    image_begin(&builder);
    line_row("a", "crypto", 0);
    criterion(1);
    build();
    begin_request();
    put("Content-Type: application/sdp\r\n\r\n");
    for (uint32_t i = 0; i < n; i++) put("a=rtpmap:0 PCMU/8000\r\n");
}

/* The dearest pattern: on a text of only `a` its sixty positions are all live at each byte. A text that begins with another byte is
 * refused at that byte. */
static const char *dense_pattern(void) {
    static char pattern[256];
    strcpy(pattern, "^");
    for (int i = 0; i < 60; i++) strcat(pattern, "a*");
    return strcat(pattern, "$");
}

static void dense(uint32_t n) {
    one_row("^X$", dense_pattern());
    begin_request();
    put("X: ");
    for (uint32_t i = 0; i < n; i++) put("aaaaaaaaaaaaaaaa");
    put("\r\n\r\n");
}

static void rows(uint32_t n) {
    image_begin(&builder);
    for (uint32_t i = 0; i < n; i++) {
        header_row("^P-Asserted-Identity$", NULL, 0);
        if (i % 32 == 31) criterion(i);
    }
    build();
    begin_request();
    put("From: <sip:desk14@ims.example.net>\r\nTo: <tel:+441632960123>\r\n\r\n");
}

/* Strings of 27 bytes that no row names: only judging grows. */
static void strings(uint32_t n) {
    char text[40];
    image_begin(&builder);
    for (uint32_t i = 0; i < n; i++) snprintf(text, sizeof text, "sip:server%05u@example.net", i), image_string(&builder, text);
    header_row("^P-Asserted-Identity$", NULL, 0);
    criterion(1);
    build();
    begin_request();
    put("\r\n");
}

static void growth(const char *name, void (*make)(uint32_t), uint32_t from, uint32_t to) {
    double half = 0;
    printf("%-10s %8s %8s %8s %10s %10s\n", name, "number", "image", "request", "us", "times half");
    for (uint32_t n = from; n <= to; n *= 2) {
        make(n);
        uint32_t times = times_for(by_library);
        double best = once(by_library, times);
        for (int i = 0; i < 7; i++) {
            double t = once(by_library, times);
            if (t < best) best = t;
        }
        printf("%-10s %8u %8u %8u %10.2f", "", n, (unsigned)image_len, (unsigned)request_len, best / 1e3);
        if (half > 0) printf(" %10.2f", best / half);
        printf("\n");
        half = best;
    }
}

/* ---- the dearest advances we found */

enum { CRITERIA = 64, ROWS = 32, REQUEST_MOST = 65535 };

/* 64 criteria of 32 rows, none of which fits, so that all are tried: the dearest pattern matches, and the row is negated. */
static void worst_profile(int kind) {
    struct image_row row = {.negated = 1, .kind = kind, .first = dense_pattern(), .content = dense_pattern()};
    image_begin(&builder);
    for (uint32_t i = 0; i < CRITERIA; i++) {
        for (uint32_t k = 0; k < ROWS; k++) image_row(&builder, row);
        criterion(i);
    }
    build();
}

static void worst_request(const char *begin) {
    request_len = 0;
    put("I a SIP/2.0\r\n");
    put(begin);
}

/* As often as there is room for it and for the end; how often. */
static uint32_t repeat(const char *text, const char *end) {
    uint32_t n = 0;
    for (; request_len + strlen(text) + strlen(end) <= REQUEST_MOST; n++) put(text);
    put(end);
    return n;
}

/* The trials that document 01 counts must come out: then every row was tried on every part. */
static void timed(const char *name, uint32_t parts, uint32_t values) {
    double ns = once(by_library, 1);
    if (found.outcome != IFC_ROUTE || found.examined != CRITERIA || found.trials != CRITERIA * ROWS * (parts + values))
        stop("not all was tried");
    printf("%-8s %8u %8u %8u %8u %10u %10.1f %12.0f\n", name, (unsigned)image_len, (unsigned)request_len, parts, values, found.trials,
        ns / 1e9, ns / (CRITERIA * ROWS) / (double)request_len);
    fflush(stdout);
}

/* Dearest of all is one long value: at each of its bytes the scan steps through sixty positions. Many short parts take more trials,
 * but less time: bytes that are no text (colons, commas, line ends) take no step. Parts are fields, or lines of the body. */
static void worst(void) {
    uint32_t n;
    printf("One advance, 64 criteria of 32 rows, each with two patterns of sixty starred elements; none fits.\n");
    printf("%-8s %8s %8s %8s %8s %10s %10s %12s\n", "", "image", "request", "parts", "values", "trials", "s", "ns/byte/row");
    worst_profile(ROW_HEADER);
    worst_request("");
    n = repeat("a:\r\n", "\r\n");
    timed("fields", n, n);
    worst_request("a:");
    repeat("a", "\r\n\r\n");
    timed("a value", 1, 1);
    worst_request("a:a");
    n = repeat(",a", "\r\n\r\n");
    timed("values", 1, n + 1);
    worst_profile(ROW_LINE);
    worst_request("c:application/sdp\r\n\r\n");
    n = repeat("a=a\n", "");
    timed("lines", n, n);
}

/* Prints the side's name; nothing, if there is no such side. */
static void count(uint32_t number, uint32_t times) {
    typical_case();
    if (number >= SIDES) return;
    for (uint32_t i = 0; i < times; i++) sides[number].side();
    printf("%s\n", sides[number].name);
}

int main(int argc, char **argv) {
    if (argc > 1 && strcmp(argv[1], "worst") == 0) {
        worst();
        return 0;
    }
    if (argc > 3 && strcmp(argv[1], "count") == 0) {
        count((uint32_t)strtoul(argv[2], NULL, 10), (uint32_t)strtoul(argv[3], NULL, 10));
        return 0;
    }
    side_by_side();
    growth("fields", fields, 128, 4096);
    growth("values", values, 256, 8192);
    growth("body lines", body, 64, 2048);
    growth("rows", rows, 64, 2048);
    growth("strings", strings, 60, 960);
    growth("dense", dense, 64, 2048);
    return 0;
}
